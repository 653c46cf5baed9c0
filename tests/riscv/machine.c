#include "machine.h"

uintptr_t stack_mark;

void print_number(uint32_t number) {
    char text[2] = {(char)('0' + number % 10), 0};
    if (number >= 10) {
        print_number(number / 10);
    }
    print(text);
}

void print_hex(uint32_t number) {
    for (int shift = 28; shift >= 0; shift -= 4) {
        const char text[2] = {"0123456789abcdef"[number >> shift & 15], 0};
        print(text);
    }
}

#ifndef __riscv

#include <stdio.h>

void print(const char *text) { fputs(text, stdout); }

uint32_t measured(void (*function)(void *), void *argument) {
    function(argument);
    return 0;
}

int main(void) { return test() ? 0 : 1; }

#else

#define UART ((volatile uint8_t *)0x10000000)
#define FINISH (*(volatile uint32_t *)0x100000) /* ends qemu, with exit status 0 or 1 */

enum { PAINT = 0x5a5aa5a5 };
extern uint32_t measured_low[], measured_top[]; /* machine.ld */
void on_measured_stack(void (*function)(void *), void *argument);
void run_test(void);
void end_by_trap(uintptr_t cause, uintptr_t pc);

void print(const char *text) {
    while (*text) {
        *UART = (uint8_t)*text++;
    }
}

void *memcpy(void *to, const void *from, size_t length) {
    uint8_t *t = to;
    const uint8_t *f = from;
    while (length-- > 0) {
        *t++ = *f++;
    }
    return to;
}

void *memset(void *to, int byte, size_t length) {
    uint8_t *t = to;
    while (length-- > 0) {
        *t++ = (uint8_t)byte;
    }
    return to;
}

static void paint(uint32_t *from) {
    while (from < measured_top) {
        *from++ = PAINT;
    }
}

uint32_t measured(void (*function)(void *), void *argument) {
    uint32_t *lowest = measured_low;
    on_measured_stack(function, argument);
    while (*lowest == PAINT) {
        lowest++;
    }
    const uintptr_t end = (uintptr_t)lowest;
    paint(lowest);
    return end < stack_mark ? (uint32_t)(stack_mark - end) : 0;
}

void end_by_trap(uintptr_t cause, uintptr_t pc) {
    print("a trap, cause ");
    print_number((uint32_t)cause);
    print(", pc ");
    print_hex((uint32_t)pc);
    print("\n");
    FINISH = 0x13333;
    for (;;) {
    }
}

void run_test(void) {
    paint(measured_low);
    FINISH = test() ? 0x5555 : 0x13333;
    for (;;) {
    }
}

#endif
