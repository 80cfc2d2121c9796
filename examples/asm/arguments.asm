# The 4th Fibonacci number in rax, by a recursive function whose entry sled logs its argument, rdi.
base 0x1000
entry main
fn main never
    mov edi, 4
    call fib
    ret
fn fib args
    mov ecx, 0
    add rdi, rcx            # sets ZF if rdi is 0
    jnz nz
    ret
nz:
    mov ecx, 1
    sub rdi, rcx
    jnz big
    add rax, rcx            # fib of 1 is 1
    ret
big:
    push rdi
    call fib
    pop rdi
    mov ecx, 1
    sub rdi, rcx
    call fib
    ret
