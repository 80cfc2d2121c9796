# A function that calls another. The byte 90 before f's entry sled belongs to main, and the call goes to the sled.
base 0x1000
fn main always
    call f
    ret
fn f always
    ret
