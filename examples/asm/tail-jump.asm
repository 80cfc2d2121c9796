# A tail jump: a tail sled, then the jump, and no exit sled, since b returns in place of a.
base 0x1000
fn a always
    tailjmp b
fn b always
    ret
