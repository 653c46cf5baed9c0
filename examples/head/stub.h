/* The debug stub as this kernel calls it. Two files are behind it, and a build has one of them: proved.c, the archive
 * libsanirvoq.a; and naive.c, which shows the failure that the proved stub rules out.
 *
 * Numbers, results, messages and the register area are those of sanirvoq.h. */
#ifndef STUB_H
#define STUB_H

#include "sanirvoq.h"

#include <stdbool.h>

enum { PROCESSES = 2 };

struct stub_setup {
    uint8_t *window; /* what the host may read and write, and where it may set breakpoints */
    uint32_t size;
    uint32_t protected_from; /* addresses of a stretch of the window that no request changes */
    uint32_t protected_to;
    uint32_t pids[PROCESSES];
    uint32_t addresses[PROCESSES];
    uint8_t *registers; /* a block of 136 bytes for each process */
};

uint8_t stub_setup(const struct stub_setup *setup);
/* After number 3: what lies under traps goes back, but for traps that were overwritten, and a new session begins. */
uint8_t stub_setup_anew(uint32_t *overwritten);
uint32_t stub_request(const uint8_t request[SANIRVOQ_MESSAGE_SIZE], uint8_t reply[SANIRVOQ_MESSAGE_SIZE]);
uint32_t stub_trap(uint32_t pid, const uint8_t block[SANIRVOQ_BLOCK_SIZE]);
uint32_t stub_schedule(uint32_t pid, const uint8_t block[SANIRVOQ_BLOCK_SIZE]);
uint8_t stub_state(uint32_t pid, uint8_t state);
uint8_t stub_restart(uint8_t reply[SANIRVOQ_MESSAGE_SIZE]);
bool stub_has_stopped(int process);

#endif
