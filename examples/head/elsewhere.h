/* Running an instruction elsewhere than at its address, where a trap stands. */
#ifndef ELSEWHERE_H
#define ELSEWHERE_H

#include <stdint.h>

/* A process's registers. start.S knows this layout. */
struct frame {
    uint32_t x[32]; /* x[0] is 0 whenever C sees it */
    uint32_t status;
    uint32_t pc;
};

enum elsewhere {
    ELSEWHERE_SLOT,   /* it means the same at any address: copy it somewhere and let the process run it there */
    ELSEWHERE_DONE,   /* it reads or sets pc, and has been carried out on the frame */
    ELSEWHERE_CALL,   /* ecall */
    ELSEWHERE_BREAK   /* ebreak or c.ebreak, the program's own */
};

/* The bytes of an instruction, 2 or 4, by its first two. */
uint32_t instruction_length(uint32_t instruction);

/* What is to be done with the instruction that lies, in plain memory, at the frame's pc. */
enum elsewhere carry_out(struct frame *frame, uint32_t instruction);

#endif
