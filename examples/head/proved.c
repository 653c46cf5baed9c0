/* The proved stub: the record and the buffers that this kernel lends to it. */
#include "stub.h"

static struct sanirvoq_record record;
static struct sanirvoq_lent lent;
static struct sanirvoq_setup rules;

uint8_t stub_setup(const struct stub_setup *setup) {
    lent = (struct sanirvoq_lent){setup->window, setup->size, setup->registers, PROCESSES * SANIRVOQ_BLOCK_SIZE};
    rules = (struct sanirvoq_setup){
        .base = (uint32_t)(uintptr_t)setup->window,
        .size = setup->size,
        .protected_from = setup->protected_from,
        .protected_to = setup->protected_to,
        .count = PROCESSES,
    };
    for (int i = 0; i < PROCESSES; i++) {
        rules.processes[i].pid = setup->pids[i];
        rules.processes[i].address = setup->addresses[i];
    }
    return sanirvoq_setup(&record, lent, &rules);
}

uint8_t stub_setup_anew(uint32_t *overwritten) {
    *overwritten = sanirvoq_put_back(&record, lent, rules.base);
    return sanirvoq_setup(&record, lent, &rules);
}

uint32_t stub_request(const uint8_t request[SANIRVOQ_MESSAGE_SIZE], uint8_t reply[SANIRVOQ_MESSAGE_SIZE]) {
    return sanirvoq_request(&record, lent, request, SANIRVOQ_MESSAGE_SIZE, reply, SANIRVOQ_MESSAGE_SIZE);
}

uint32_t stub_trap(uint32_t pid, const uint8_t block[SANIRVOQ_BLOCK_SIZE]) {
    return sanirvoq_trap(&record, lent, pid, block, SANIRVOQ_BLOCK_SIZE);
}

uint32_t stub_schedule(uint32_t pid, const uint8_t block[SANIRVOQ_BLOCK_SIZE]) {
    return sanirvoq_schedule(&record, lent, pid, block, SANIRVOQ_BLOCK_SIZE);
}

uint8_t stub_state(uint32_t pid, uint8_t state) { return sanirvoq_state(&record, lent, pid, state); }

uint8_t stub_restart(uint8_t reply[SANIRVOQ_MESSAGE_SIZE]) {
    return sanirvoq_restart(&record, lent, reply, SANIRVOQ_MESSAGE_SIZE);
}

bool stub_has_stopped(int process) { return record.target.processes[process].state == SANIRVOQ_STATE_STOPPED; }
