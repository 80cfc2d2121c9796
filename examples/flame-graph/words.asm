# A program for a flame graph. It only takes time, as if it read, sorted and printed words.
fn main always
    mov ecx, 1
    call read
    mov edi, 5
    call sort
    call print
    ret
fn read always              # twelve words
    mov edi, 12
next_word:
    call word
    sub rdi, rcx
    jnz next_word
    ret
fn word always              # of twenty letters
    push rdi
    mov edi, 20
next_letter:
    sub rdi, rcx
    jnz next_letter
    call hash
    call lookup
    pop rdi
    ret
fn hash always
    mov edi, 30
mix:
    sub rdi, rcx
    jnz mix
    ret
fn lookup always            # the second word is the right one
    call compare
    call compare
    ret
fn compare always
    mov edi, 9
same:
    sub rdi, rcx
    jnz same
    ret
fn sort always              # sorts both halves and merges them; rdi counts the levels
    sub rdi, rcx
    jnz halves
    call compare
    ret
halves:
    push rdi
    call sort
    pop rdi
    push rdi
    call sort
    call merge
    pop rdi
    ret
fn merge always
    mov edi, 6
take:
    push rdi
    call compare
    pop rdi
    sub rdi, rcx
    jnz take
    ret
fn print always             # ten lines
    mov edi, 10
next_line:
    push rdi
    call line
    pop rdi
    sub rdi, rcx
    jnz next_line
    ret
fn line always
    call number
    mov eax, 10
    out 1
    ret
fn number always            # of three digits
    mov edi, 3
next_digit:
    push rdi
    call digit
    pop rdi
    sub rdi, rcx
    jnz next_digit
    ret
fn digit always
    mov edi, 12
divide:
    sub rdi, rcx
    jnz divide
    mov eax, 48
    out 1
    ret
