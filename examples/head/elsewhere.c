/* An instruction that reads or sets pc would do something else at another address: branches, jumps, auipc. There are
 * few of these, and they touch nothing but registers, so the kernel carries them out itself (RISC-V unprivileged
 * specification, RV32I and C). All others run in a slot.
 *
 * Not handled: between lr and sc any trap makes the sc fail, so a breakpoint there makes such a loop endless. */
#include "elsewhere.h"

#include <stdbool.h>

enum { OP_AUIPC = 0x17, OP_BRANCH = 0x63, OP_JALR = 0x67, OP_JAL = 0x6f, ECALL = 0x73, EBREAK = 0x100073 };
enum { RA = 1 };

static uint32_t bits(uint32_t value, int high, int low) { return (value >> low) & ((2u << (high - low)) - 1); }

/* A number of so many bits, its highest the sign. */
static uint32_t extended(uint32_t value, int width) {
    const uint32_t sign = 1u << (width - 1);
    return (value ^ sign) - sign;
}

static void set(struct frame *frame, uint32_t number, uint32_t value) {
    if (number != 0) {
        frame->x[number] = value;
    }
}

/* Jumps, with the address behind the instruction in a register. */
static void jump(struct frame *frame, uint32_t target, uint32_t link, uint32_t length) {
    const uint32_t behind = frame->pc + length;
    frame->pc = target & ~1u;
    set(frame, link, behind);
}

static bool is_taken(uint32_t test, uint32_t a, uint32_t b) {
    bool holds = false;
    switch (test >> 1) {
    case 0: holds = a == b; break;
    case 2: holds = (int32_t)a < (int32_t)b; break;
    case 3: holds = a < b; break;
    }
    return holds != (test & 1);
}

static enum elsewhere carry_out_long(struct frame *frame, uint32_t i) {
    const uint32_t pc = frame->pc, rd = bits(i, 11, 7), a = frame->x[bits(i, 19, 15)], b = frame->x[bits(i, 24, 20)];
    const uint32_t test = bits(i, 14, 12);
    if (i == ECALL) {
        return ELSEWHERE_CALL;
    }
    if (i == EBREAK) {
        return ELSEWHERE_BREAK;
    }
    switch (bits(i, 6, 0)) {
    case OP_AUIPC:
        set(frame, rd, pc + (i & 0xfffff000));
        frame->pc = pc + 4;
        return ELSEWHERE_DONE;
    case OP_JAL: {
        const uint32_t to = bits(i, 31, 31) << 20 | bits(i, 19, 12) << 12 | bits(i, 20, 20) << 11 |
                            bits(i, 30, 21) << 1;
        jump(frame, pc + extended(to, 21), rd, 4);
        return ELSEWHERE_DONE;
    }
    case OP_JALR:
        if (test != 0) {
            return ELSEWHERE_SLOT; /* no instruction: it faults there */
        }
        jump(frame, a + extended(bits(i, 31, 20), 12), rd, 4);
        return ELSEWHERE_DONE;
    case OP_BRANCH: {
        const uint32_t to = bits(i, 31, 31) << 12 | bits(i, 7, 7) << 11 | bits(i, 30, 25) << 5 | bits(i, 11, 8) << 1;
        if (test >> 1 == 1) {
            return ELSEWHERE_SLOT;
        }
        frame->pc = pc + (is_taken(test, a, b) ? extended(to, 13) : 4);
        return ELSEWHERE_DONE;
    }
    }
    return ELSEWHERE_SLOT;
}

static enum elsewhere carry_out_short(struct frame *frame, uint32_t i) {
    const uint32_t pc = frame->pc, kind = bits(i, 15, 13) << 2 | bits(i, 1, 0), full = bits(i, 11, 7);
    const uint32_t jump_to = extended(bits(i, 12, 12) << 11 | bits(i, 11, 11) << 4 | bits(i, 10, 9) << 8 |
                                          bits(i, 8, 8) << 10 | bits(i, 7, 7) << 6 | bits(i, 6, 6) << 7 |
                                          bits(i, 5, 3) << 1 | bits(i, 2, 2) << 5, 12);
    const uint32_t branch_to = extended(bits(i, 12, 12) << 8 | bits(i, 11, 10) << 3 | bits(i, 6, 5) << 6 |
                                            bits(i, 4, 3) << 1 | bits(i, 2, 2) << 5, 9);
    const bool is_zero = frame->x[8 + bits(i, 9, 7)] == 0;
    switch (kind) {
    case 001 << 2 | 1: /* c.jal */
        jump(frame, pc + jump_to, RA, 2);
        return ELSEWHERE_DONE;
    case 005 << 2 | 1: /* c.j */
        jump(frame, pc + jump_to, 0, 2);
        return ELSEWHERE_DONE;
    case 006 << 2 | 1: /* c.beqz */
    case 007 << 2 | 1: /* c.bnez */
        frame->pc = pc + (is_zero == (kind >> 2 == 6) ? branch_to : 2);
        return ELSEWHERE_DONE;
    case 004 << 2 | 2: /* c.jr, c.jalr, c.ebreak; c.mv and c.add where bits 2 to 6 are not 0 */
        if (i == 0x9002) {
            return ELSEWHERE_BREAK;
        }
        if (bits(i, 6, 2) != 0 || full == 0) {
            return ELSEWHERE_SLOT;
        }
        jump(frame, frame->x[full], bits(i, 12, 12) ? RA : 0, 2);
        return ELSEWHERE_DONE;
    }
    return ELSEWHERE_SLOT;
}

uint32_t instruction_length(uint32_t instruction) { return (instruction & 3) == 3 ? 4 : 2; }

enum elsewhere carry_out(struct frame *frame, uint32_t instruction) {
    return instruction_length(instruction) == 4 ? carry_out_long(frame, instruction)
                                                : carry_out_short(frame, instruction & 0xffff);
}
