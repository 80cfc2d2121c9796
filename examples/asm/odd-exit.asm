# An exit sled that would be at the odd place 13: a byte 90 is there instead, and the sled is at 14.
base 0x1000
fn main always
    out 0
    ret
