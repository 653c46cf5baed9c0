/* NOT FOR USE. A debug stub as one writes it at first: when a breakpoint is planted it saves the bytes that lie there,
 * and when the breakpoint goes it puts those back. Writes go straight to memory. What was written across a breakpoint
 * is undone by its removal: half an instruction of the old code, half of the new. It is here to show the failure that
 * the proved stub rules out; session.py runs the same session against both.
 *
 * It speaks the same messages, as far as that session needs them: conditions are a pid or none, and nothing is checked
 * that the session does not get wrong. */
#include "stub.h"

enum { ENTRIES = 8 };

struct breakpoint {
    bool is_used;
    uint8_t id;
    uint32_t site;
    uint32_t pid; /* 0: every process */
    uint8_t saved[2];
};

static struct stub_setup lent;
static struct breakpoint table[ENTRIES], draft;
static bool is_stopped[PROCESSES], is_wanted[PROCESSES];
static int current = -1;

static uint32_t get_word(const uint8_t *bytes) {
    return (uint32_t)bytes[0] << 24 | (uint32_t)bytes[1] << 16 | (uint32_t)bytes[2] << 8 | bytes[3];
}

static uint8_t *byte_at(uint32_t address) { return lent.window + (address - (uint32_t)(uintptr_t)lent.window); }

static int index_of(uint32_t pid) {
    for (int i = 0; i < PROCESSES; i++) {
        if (lent.pids[i] == pid) {
            return i;
        }
    }
    return -1;
}

static struct breakpoint *at_site(uint32_t site) {
    for (int i = 0; i < ENTRIES; i++) {
        if (table[i].is_used && table[i].site == site) {
            return &table[i];
        }
    }
    return 0;
}

static uint32_t pass(const struct breakpoint *breakpoint) {
    const uint32_t bytes = breakpoint->saved[0] | (uint32_t)breakpoint->saved[1] << 8;
    return (uint32_t)SANIRVOQ_ANSWER_PASS << 8 | bytes << 16;
}

static void refuse(uint8_t reply[SANIRVOQ_MESSAGE_SIZE], const char *reason) {
    reply[0] = SANIRVOQ_MSG_RERR;
    for (int i = 0; reason[i]; i++) {
        reply[1 + i] = (uint8_t)reason[i];
    }
}

/* The bytes come from memory, and so the host sees the trap. */
static void get(uint32_t address, uint8_t n, uint8_t reply[SANIRVOQ_MESSAGE_SIZE]) {
    if (address < SANIRVOQ_BLOCK_SIZE && (current < 0 || !is_stopped[current])) {
        refuse(reply, "notstop");
        return;
    }
    for (uint8_t i = 0; i < n; i++) {
        reply[1 + i] = address < SANIRVOQ_BLOCK_SIZE ? lent.registers[current * SANIRVOQ_BLOCK_SIZE + address + i]
                                                : *byte_at(address + i);
    }
}

static void plant(uint32_t site) {
    for (int i = 0; i < ENTRIES; i++) {
        if (!table[i].is_used) {
            table[i] = draft;
            table[i].is_used = true;
            table[i].site = site;
            table[i].saved[0] = byte_at(site)[0]; /* once and for all: here is the mistake */
            table[i].saved[1] = byte_at(site)[1];
            byte_at(site)[0] = 0x02;
            byte_at(site)[1] = 0x90;
            return;
        }
    }
}

static void take_away(struct breakpoint *breakpoint) {
    byte_at(breakpoint->site)[0] = breakpoint->saved[0];
    byte_at(breakpoint->site)[1] = breakpoint->saved[1];
    breakpoint->is_used = false;
}

static void condbreak(uint8_t letter, uint32_t value) {
    if (letter == 'n') {
        draft = (struct breakpoint){.id = (uint8_t)value};
    } else if (letter == 'k') {
        draft.pid = value;
    } else if (letter == 'b') {
        plant(value);
    } else if (letter == 'd') {
        for (int i = 0; i < ENTRIES; i++) {
            if (table[i].is_used && table[i].id == value) {
                take_away(&table[i]);
            }
        }
    }
}

static void answer_status(int index, uint8_t reply[SANIRVOQ_MESSAGE_SIZE]) {
    const char *text = is_stopped[index] ? "Stopped" : "Ready";
    for (int i = 0; text[i]; i++) {
        reply[1 + i] = (uint8_t)text[i];
    }
}

static uint32_t start(int index) {
    const bool was_stopped = is_stopped[index];
    const struct breakpoint *here = at_site(get_word(lent.registers + index * SANIRVOQ_BLOCK_SIZE + 132));
    is_stopped[index] = is_wanted[index] = false;
    return was_stopped && here ? pass(here) : 0;
}

uint8_t stub_setup(const struct stub_setup *setup) {
    lent = *setup;
    return SANIRVOQ_OK;
}

/* It never answers number 3: it does not look. */
uint8_t stub_setup_anew(uint32_t *overwritten) {
    *overwritten = 0;
    return SANIRVOQ_OK;
}

uint32_t stub_request(const uint8_t request[SANIRVOQ_MESSAGE_SIZE], uint8_t reply[SANIRVOQ_MESSAGE_SIZE]) {
    const uint32_t value = get_word(request + 1);
    const int index = index_of(value);
    for (int i = 0; i < SANIRVOQ_MESSAGE_SIZE; i++) {
        reply[i] = 0;
    }
    reply[0] = request[0] + 1;
    switch (request[0]) {
    case SANIRVOQ_MSG_TMGET: get(value, request[5], reply); return 0;
    case SANIRVOQ_MSG_TMPUT: /* straight to memory, over the trap */
        for (uint8_t i = 0; i < request[5]; i++) {
            *byte_at(value + i) = request[6 + i];
        }
        return 0;
    case SANIRVOQ_MSG_TCONDBREAK: condbreak(request[5], value); return 0;
    }
    if (index < 0) {
        refuse(reply, "pid");
        return 0;
    }
    switch (request[0]) {
    case SANIRVOQ_MSG_TPROC:
        current = index;
        for (int i = 0; i < 8; i++) {
            reply[1 + i] = (uint8_t) "0123456789abcdef"[lent.addresses[index] >> (28 - 4 * i) & 15];
        }
        return 0;
    case SANIRVOQ_MSG_TSTATUS: answer_status(index, reply); return 0;
    case SANIRVOQ_MSG_TSTOP: is_wanted[index] = !is_stopped[index]; return 0;
    case SANIRVOQ_MSG_TSTART: return start(index);
    }
    refuse(reply, "unk");
    return 0;
}

static void stop(int index, const uint8_t block[SANIRVOQ_BLOCK_SIZE]) {
    for (int i = 0; i < SANIRVOQ_BLOCK_SIZE; i++) {
        lent.registers[index * SANIRVOQ_BLOCK_SIZE + i] = block[i];
    }
    is_stopped[index] = true;
    is_wanted[index] = false;
}

uint32_t stub_trap(uint32_t pid, const uint8_t block[SANIRVOQ_BLOCK_SIZE]) {
    const struct breakpoint *here = at_site(get_word(block + 132));
    if (!here) {
        return SANIRVOQ_ERR_NO_SITE;
    }
    if (here->pid != 0 && here->pid != pid) {
        return pass(here);
    }
    stop(index_of(pid), block);
    return (uint32_t)SANIRVOQ_ANSWER_STOP << 8 | (uint32_t)here->id << 16;
}

uint32_t stub_schedule(uint32_t pid, const uint8_t block[SANIRVOQ_BLOCK_SIZE]) {
    const int index = index_of(pid);
    if (!is_wanted[index]) {
        return 0;
    }
    stop(index, block);
    return 1u << 8;
}

uint8_t stub_state(uint32_t pid, uint8_t state) {
    (void)pid;
    (void)state;
    return SANIRVOQ_OK;
}

uint8_t stub_restart(uint8_t reply[SANIRVOQ_MESSAGE_SIZE]) {
    for (int i = 0; i < ENTRIES; i++) {
        if (table[i].is_used) {
            take_away(&table[i]);
        }
    }
    for (int i = 0; i < PROCESSES; i++) {
        is_stopped[i] = is_wanted[i] = false;
    }
    current = -1;
    for (int i = 0; i < SANIRVOQ_MESSAGE_SIZE; i++) {
        reply[i] = 0;
    }
    refuse(reply, "reset");
    return SANIRVOQ_OK;
}

bool stub_has_stopped(int process) { return is_stopped[process]; }
