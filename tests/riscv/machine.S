# The first instruction, and a call on another stack, for 32 and 64 bits.
#if __riscv_xlen == 32
#define S sw
#define L lw
#else
#define S sd
#define L ld
#endif
#define W (__riscv_xlen / 8)

    .option norelax                 # for linkers that cannot relax
    .section .text.start, "ax"
    .globl _start
_start:
    la sp, stack_top
    la t0, trapped
    csrw mtvec, t0
    call run_test
1:  j 1b
    .balign 4
trapped:
    la sp, stack_top
    csrr a0, mcause
    csrr a1, mepc
    call end_by_trap
1:  j 1b

# void on_measured_stack(void (*function)(void *), void *argument)
    .text
    .globl on_measured_stack
on_measured_stack:
    mv t0, a0
    mv a0, a1
    mv t1, sp
    la sp, measured_top
    addi sp, sp, -16
    S ra, 0(sp)
    S t1, W(sp)
    jalr t0
    L ra, 0(sp)
    L sp, W(sp)
    ret
