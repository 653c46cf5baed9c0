/* What a test needs of the machine that it runs on: x86-64 with a C library, or qemu's RISC-V machine with none. */
#ifndef MACHINE_H
#define MACHINE_H

#include <stddef.h>
#include <stdint.h>

void print(const char *text);
void print_number(uint32_t number);
void print_hex(uint32_t number);

/* Calls a function, on RISC-V on a stack of its own; answers how many bytes of stack below the mark were used. The
 * function takes the mark. On x86-64 the answer is 0. */
uint32_t measured(void (*function)(void *), void *argument);

#ifdef __riscv
#define MARK_STACK(mark) __asm__ volatile("mv %0, sp" : "=r"(mark) : : "memory")
#else
#define MARK_STACK(mark) ((mark) = 0)
#endif
extern uintptr_t stack_mark;

/* The test; answers whether all is well. */
int test(void);

#endif
