# One function that prints a byte and returns: a sled at its entry, and one in place of its ret.
base 0x1000
fn main always
    mov eax, 65
    out 1
    ret
