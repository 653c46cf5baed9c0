# A program for the kernel of examples/head in the place of programs.S: every kind of instruction that cannot run at
# another address, taken and not taken, forward and back, and some that can. Both processes print a sum over what the
# instructions did. tests/riscv/elsewhere.py sets a breakpoint at each in turn; the sum stays.

    .option norelax
    .equ report, 1
    .equ rest, 2

.macro mix register                 # a0 * 33 + register
    slli a1, a0, 5
    add a0, a0, a1
    add a0, a0, \register
.endm

# A branch that is taken forward, one that is not taken, and one taken back.
.macro branches name, a, b, c, d    # \name \a, \b holds; \name \c, \d does not
    \name \a, \b, 1f
    addi a0, a0, 1
1:  \name \c, \d, 2f
    addi a0, a0, 2
2:  j 4f
3:  addi a0, a0, 4
    j 5f
4:  \name \a, \b, 3b
    addi a0, a0, 8
5:  mix a0
.endm

    .section .window, "ax"
    .globl window, left, right
window:
left:
    li s1, 5
    j begin
    .org 0x10
right:
    li s1, 7

begin:
    mv a0, s1
    li s2, -3
    li s3, 3
    li s4, 0
    lui a2, 0x12345
    mix a2
    .option norvc
    auipc t0, 0x12
    mix t0
    jal t1, 1f
    addi a0, a0, 1
1:  mix t1
    la t3, 2f
    jalr t2, 4(t3)
    addi a0, a0, 1
2:  addi a0, a0, 1                  # jumped over: t3 + 4
    mix t2
    la t3, 3f
    jalr zero, 0(t3)
    addi a0, a0, 1
3:  mix zero
    branches beq, s3, s3, s2, s3
    branches bne, s2, s3, s3, s3
    branches blt, s2, s3, s3, s2
    branches bge, s3, s2, s2, s3
    branches bltu, s3, s2, s2, s3
    branches bgeu, s2, s3, s3, s2
    .option rvc
    c.jal 1f
    addi a0, a0, 1
1:  mix ra
    la a5, 2f
    c.jalr a5
    addi a0, a0, 1
2:  mix ra
    la a5, 3f
    c.jr a5
    addi a0, a0, 1
3:  c.j 5f
4:  addi a0, a0, 1
    c.j 6f
5:  c.j 4b
6:  c.beqz a4, 7f                   # a4 is 0
    addi a0, a0, 1
7:  li a4, 1
    c.beqz a4, 8f
    addi a0, a0, 1
8:  c.bnez a4, 9f
    addi a0, a0, 2
9:  li a4, 0
    c.bnez a4, 7b
    la a5, words                    # not code: the process's own loads see a trap that stands
    lw a3, 0(a5)
    mix a3
    lhu a3, 2(a5)
    mix a3
    mul a3, a3, a0
    mix a3
    li a7, report
    ecall
    li a0, 5
    li a7, rest
    ecall
    j begin
    .half 0                         # here elsewhere.py ends
    .org 0xf00
words:
    .word 0x89abcdef
    .org 0x1000
