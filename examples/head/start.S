# The first instruction; the way into a process, and the way back by any trap or interrupt.
# The kernel runs in machine mode with interrupts off, so a trap never comes while the kernel itself runs.

# For every register but x0 and a0 (x10): op REGISTER, its place in the frame.
.macro each_register op, frame
    .irp n, 1,2,3,4,5,6,7,8,9,11,12,13,14,15,16,17,18,19,20,21,22,23,24,25,26,27,28,29,30,31
    \op x\n, 4 * \n(\frame)
    .endr
.endm

# The registers that C expects unchanged by a call.
.macro each_kept op
    \op ra, 0(sp)
    \op s0, 4(sp)
    \op s1, 8(sp)
    \op s2, 12(sp)
    \op s3, 16(sp)
    \op s4, 20(sp)
    \op s5, 24(sp)
    \op s6, 28(sp)
    \op s7, 32(sp)
    \op s8, 36(sp)
    \op s9, 40(sp)
    \op s10, 44(sp)
    \op s11, 48(sp)
    \op gp, 52(sp)
    \op tp, 56(sp)
.endm

    .section .text.start, "ax"
    .globl _start
_start:
    csrr t0, mhartid
    bnez t0, park
    la sp, stack_top
    la t0, bss_from
    la t1, bss_to
1:  bgeu t0, t1, 2f
    sw zero, 0(t0)
    addi t0, t0, 4
    j 1b
2:  la t0, from_process
    csrw mtvec, t0
    call kernel
park:
    wfi
    j park

# uint32_t enter(struct frame *frame): runs the frame's process up to its next trap or interrupt; answers mcause.
# The place of x0 in the frame holds the kernel's stack pointer meanwhile.
    .text
    .globl enter
enter:
    addi sp, sp, -64
    each_kept sw
    sw sp, 0(a0)
    csrw mscratch, a0
    lw t0, 4 * 33(a0)
    csrw mepc, t0
    li t0, 0x1800           # mstatus.MPP = user mode
    csrc mstatus, t0
    # The stub may have written code since the process last ran, and the kernel its slot: the processor has to fetch it
    # anew.
    fence.i
    each_register lw, a0
    lw a0, 4 * 10(a0)
    mret

    .balign 4
from_process:
    csrrw a0, mscratch, a0
    each_register sw, a0
    csrr t0, mscratch
    sw t0, 4 * 10(a0)
    csrr t0, mstatus
    sw t0, 4 * 32(a0)
    csrr t0, mepc
    sw t0, 4 * 33(a0)
    lw sp, 0(a0)
    sw zero, 0(a0)
    each_kept lw
    addi sp, sp, 64
    csrr a0, mcause
    ret
