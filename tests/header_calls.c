/* Every function of include/sanirvoq.h, inline ones too, called from C, with every number that the header says it gives
 * and every name that the header has for a value. Buffers are from the heap, so that valgrind sees an access past their
 * ends. Prints what failed; the exit status is 1 then. tests/outside.sh sees to it that no function is left out. */
#include "sanirvoq.h"

#include <stdio.h>
#include <stdlib.h>
#include <string.h>

enum { BASE = 0x1000, SIZE = 64, AREA = 2 * SANIRVOQ_BLOCK_SIZE, FILL = 0xee };

static const struct sanirvoq_setup two = {.base = BASE,
                                          .size = SIZE,
                                          .protected_from = BASE,
                                          .protected_to = BASE,
                                          .count = 2,
                                          .processes = {{5, 0x80001000}, {7, 0x80002000}}};

static int failed;

static void expect(int holds, const char *what) {
    if (!holds) {
        printf("%s\n", what);
        failed = 1;
    }
}

static uint8_t *lend(size_t length, uint8_t byte) {
    uint8_t *bytes = malloc(length + (length == 0));
    if (bytes == NULL) {
        exit(2);
    }
    memset(bytes, byte, length);
    return bytes;
}

/* ---- two kernels: one calls the inline functions, the other the exported steps ---- */

struct kernel {
    struct sanirvoq_record *record;
    struct sanirvoq_lent lent;
    uint8_t *reply; /* of SANIRVOQ_TEXT_SIZE bytes */
};

static struct kernel made(void) {
    struct kernel kernel = {(struct sanirvoq_record *)lend(sizeof(struct sanirvoq_record), FILL),
                            {lend(SIZE, 0), SIZE, lend(AREA, 3), AREA},
                            lend(SANIRVOQ_TEXT_SIZE, FILL)};
    for (int i = 0; i < SIZE; i++) {
        kernel.lent.memory[i] = (uint8_t)i;
    }
    return kernel;
}

static struct kernel set_up(void) {
    struct kernel kernel = made();
    expect(sanirvoq_setup(kernel.record, kernel.lent, &two) == SANIRVOQ_OK, "a setup");
    return kernel;
}

static void free_kernel(struct kernel kernel) {
    free(kernel.record);
    free(kernel.lent.memory);
    free(kernel.lent.registers);
    free(kernel.reply);
}

/* Field by field: what lies between the fields has no value. */
static int same_record(const struct sanirvoq_record *a, const struct sanirvoq_record *b) {
    const struct sanirvoq_target *one = &a->target, *other = &b->target;
    const struct sanirvoq_draft *draft = &one->table.draft, *hand = &other->table.draft;
    int same = one->base == other->base && one->size == other->size && one->count == other->count &&
               one->protected_offset == other->protected_offset && one->protected_length == other->protected_length &&
               one->selected == other->selected && one->current == other->current && draft->active == hand->active &&
               draft->id == hand->id && draft->count == hand->count;
    for (int i = 0; i < SANIRVOQ_PROCESSES; i++) {
        const struct sanirvoq_process *p = &one->processes[i], *q = &other->processes[i];
        same = same && p->pid == q->pid && p->address == q->address && p->state == q->state && p->wanted == q->wanted;
    }
    for (int i = 0; i < SANIRVOQ_ENTRIES; i++) {
        const struct sanirvoq_entry *e = &one->table.entries[i], *f = &other->table.entries[i];
        same = same && e->used == f->used && e->id == f->id && e->count == f->count && e->site == f->site &&
               memcmp(e->plain, f->plain, sizeof e->plain) == 0;
    }
    return same && memcmp(a->places, b->places, sizeof a->places) == 0;
}

/* Two results and all that two kernels have. */
static void expect_same(uint32_t one, uint32_t other, const struct kernel *a, const struct kernel *b,
                        const char *what) {
    expect(one == other, what);
    expect(same_record(a->record, b->record), what);
    expect(memcmp(a->lent.memory, b->lent.memory, SIZE) == 0, what);
    expect(memcmp(a->lent.registers, b->lent.registers, AREA) == 0, what);
    expect(memcmp(a->reply, b->reply, SANIRVOQ_TEXT_SIZE) == 0, what);
}

static uint8_t request_bytes[SANIRVOQ_MESSAGE_SIZE];

static const uint8_t *request(uint8_t kind, uint32_t value, char op, uint8_t n) {
    const struct sanirvoq_fields fields = {.kind = kind, .value = value, .op = (uint8_t)op, .n = n};
    expect(sanirvoq_message_encode(fields, request_bytes, sizeof request_bytes) == SANIRVOQ_OK, "a message");
    return request_bytes;
}

/* A request that must be served with this type of reply, and leave this answer. */
static void ask(struct kernel *kernel, const uint8_t *bytes, uint8_t type, uint8_t answer, const char *what) {
    const uint32_t result = sanirvoq_request(kernel->record, kernel->lent, bytes, SANIRVOQ_MESSAGE_SIZE, kernel->reply,
                                             SANIRVOQ_MESSAGE_SIZE);
    expect(sanirvoq_number(result) == SANIRVOQ_OK && sanirvoq_answer(result) == answer, what);
    expect(kernel->reply[0] == type, what);
}

static void plant(struct kernel *kernel, uint32_t id, uint32_t site) {
    ask(kernel, request(SANIRVOQ_MSG_TCONDBREAK, id, 'n', 0), SANIRVOQ_MSG_RCONDBREAK, 0, "n");
    ask(kernel, request(SANIRVOQ_MSG_TCONDBREAK, 7, 'k', 0), SANIRVOQ_MSG_RCONDBREAK, 0, "k");
    ask(kernel, request(SANIRVOQ_MSG_TCONDBREAK, 0, 'a', 0), SANIRVOQ_MSG_RCONDBREAK, 0, "a");
    ask(kernel, request(SANIRVOQ_MSG_TCONDBREAK, site, 'b', 0), SANIRVOQ_MSG_RCONDBREAK, 0, "b");
}

static uint8_t block[SANIRVOQ_BLOCK_SIZE];

static const uint8_t *block_at(uint32_t pc) {
    memset(block, 0xab, sizeof block);
    for (int i = 0; i < 4; i++) {
        block[SANIRVOQ_BLOCK_SIZE - 4 + i] = (uint8_t)(pc >> (24 - 8 * i));
    }
    return block;
}

/* ---- the exported steps do what the inline functions do ---- */

static void exports(void) {
    struct kernel a = made(), b = made();
    struct sanirvoq_target *target = &b.record->target;
    uint32_t *places = b.record->places;
    uint8_t *memory = b.lent.memory, *registers = b.lent.registers;
    uint8_t none = FILL;
    uint32_t one, other;

    one = sanirvoq_setup(a.record, a.lent, &two);
    target->base = two.base;
    target->size = two.size;
    target->count = two.count;
    for (int i = 0; i < 2; i++) {
        target->processes[i].pid = two.processes[i].pid;
        target->processes[i].address = two.processes[i].address;
    }
    other = sanirvoq_step_setup(target, memory, SIZE, registers, AREA, two.protected_from, two.protected_to);
    expect_same(one, other, &a, &b, "setup");
    plant(&a, 4, 0x1008);
    plant(&b, 4, 0x1008);

    request(SANIRVOQ_MSG_TMGET, 0x1008, 0, 4);
    one = sanirvoq_request(a.record, a.lent, request_bytes, 10, a.reply, 10);
    other = sanirvoq_step_request(target, places, memory, SIZE, registers, AREA, 9, 9, request_bytes, 10, b.reply, 10);
    expect_same(one, other, &a, &b, "request");
    block_at(0x1008);
    one = sanirvoq_trap(a.record, a.lent, 7, block, sizeof block);
    other = sanirvoq_step_trap(target, places, memory, SIZE, registers, AREA, 7, 9, block, sizeof block, &none, 1);
    expect_same(one, other, &a, &b, "trap");
    ask(&a, request(SANIRVOQ_MSG_TSTOP, 5, 0, 0), SANIRVOQ_MSG_RSTOP, 0, "Tstop");
    ask(&b, request(SANIRVOQ_MSG_TSTOP, 5, 0, 0), SANIRVOQ_MSG_RSTOP, 0, "Tstop");
    one = sanirvoq_schedule(a.record, a.lent, 5, block, sizeof block);
    other = sanirvoq_step_schedule(target, places, memory, SIZE, registers, AREA, 5, 9, block, sizeof block, &none, 1);
    expect_same(one, other, &a, &b, "schedule");
    ask(&a, request(SANIRVOQ_MSG_TSTART, 5, 0, 0), SANIRVOQ_MSG_RSTART, SANIRVOQ_ANSWER_PASS, "Tstart");
    ask(&b, request(SANIRVOQ_MSG_TSTART, 5, 0, 0), SANIRVOQ_MSG_RSTART, SANIRVOQ_ANSWER_PASS, "Tstart");
    one = sanirvoq_state(a.record, a.lent, 5, SANIRVOQ_STATE_WAKEME);
    other = sanirvoq_step_state(target, places, memory, SIZE, registers, AREA, 5, SANIRVOQ_STATE_WAKEME, &none, 1,
                                &none, 1);
    expect_same(one, sanirvoq_number(other), &a, &b, "state");
    const uint8_t *text = (const uint8_t *)"0x0 D 0x1008 0x1";
    one = sanirvoq_text(a.record, a.lent, text, 16, a.reply, SANIRVOQ_TEXT_SIZE);
    other =
        sanirvoq_step_text(target, places, memory, SIZE, registers, AREA, 9, 9, text, 16, b.reply, SANIRVOQ_TEXT_SIZE);
    expect_same(one, other, &a, &b, "text");
    one = sanirvoq_restart(a.record, a.lent, a.reply, 10);
    other = sanirvoq_step_restart(target, places, memory, SIZE, registers, AREA, 9, 9, &none, 1, b.reply, 10);
    expect_same(one, sanirvoq_number(other), &a, &b, "restart");
    expect(none == FILL && a.lent.memory[8] == 1, "what a step does not use stays, and what was written");
    free_kernel(a);
    free_kernel(b);
}

/* ---- results ---- */

static void results(void) {
    const uint32_t result = 0x09080206;
    expect(sanirvoq_number(result) == 6 && sanirvoq_answer(result) == 2, "number and answer");
    expect(sanirvoq_first(result) == 8 && sanirvoq_second(result) == 9, "first and second");
    expect(SANIRVOQ_TARGET_SIZE + 4 * 2 * SANIRVOQ_PLACES == SANIRVOQ_RECORD_SIZE, "the sizes of a record");
    expect(SANIRVOQ_VERSION_MAJOR == 0 && SANIRVOQ_VERSION_MINOR >= 2, "the version");
}

/* ---- numbers of the steps ---- */

/* The record after a refused setup: every other step refuses it. */
static void expect_empty(struct kernel *kernel, const char *what) {
    const uint32_t result =
        sanirvoq_request(kernel->record, kernel->lent, request(SANIRVOQ_MSG_TMGET, BASE, 0, 1), 10, kernel->reply, 10);
    expect(kernel->record->target.size == 0 && kernel->record->target.count == 0, what);
    expect(sanirvoq_number(result) == SANIRVOQ_ERR_SIZE, what);
}

static void setups(void) {
    struct kernel kernel = made();
    struct sanirvoq_lent lent = kernel.lent;
    struct sanirvoq_setup setup = two;
    setup.processes[1].pid = 5;
    expect(sanirvoq_setup(kernel.record, lent, &setup) == SANIRVOQ_ERR_SETUP, "two pids alike");
    expect_empty(&kernel, "after number 1");
    setup = two;
    setup.count = 5;
    expect(sanirvoq_setup(kernel.record, lent, &setup) == SANIRVOQ_ERR_SETUP, "five processes");
    setup = two;
    setup.protected_from = BASE + 4;
    expect(sanirvoq_setup(kernel.record, lent, &setup) == SANIRVOQ_ERR_SETUP, "a stretch that ends before it begins");
    setup = two;
    setup.protected_to = BASE + SIZE + 4;
    expect(sanirvoq_setup(kernel.record, lent, &setup) == SANIRVOQ_ERR_SETUP, "a stretch past the window");
    setup.protected_from = BASE + (UINT64_C(1) << 32);
    setup.protected_to = BASE + 4 + (UINT64_C(1) << 32);
    expect(sanirvoq_setup(kernel.record, lent, &setup) == SANIRVOQ_ERR_SETUP, "a stretch past 32 bits");
    setup = two;
    setup.size = 65540;
    expect(sanirvoq_setup(kernel.record, lent, &setup) == SANIRVOQ_ERR_SETUP, "a window that is too large");
    lent.memory_length--;
    expect(sanirvoq_setup(kernel.record, lent, &two) == SANIRVOQ_ERR_SIZE, "too little memory");
    expect_empty(&kernel, "after number 2");
    expect(sanirvoq_setup(kernel.record, kernel.lent, &two) == SANIRVOQ_OK, "the setup");
    expect(kernel.record->target.base == BASE && kernel.record->target.size == SIZE, "base and size");
    for (int i = 0; i < 2; i++) {
        const struct sanirvoq_process *process = &kernel.record->target.processes[i];
        expect(process->pid == two.processes[i].pid && process->address == two.processes[i].address, "a process");
        expect(process->state == SANIRVOQ_STATE_READY && process->wanted == 0, "a process is Ready");
    }
    /* A length that fits in 64 bits and not in 32. */
    lent = kernel.lent;
    lent.memory_length += UINT64_C(1) << 32;
    expect(sanirvoq_setup(kernel.record, lent, &two) == SANIRVOQ_ERR_SIZE, "a length of 33 bits");
    free_kernel(kernel);
}

/* The numbers that lent buffers of wrong size and a record that is not fit give. */
static void lent_numbers(struct kernel *kernel, uint8_t wanted, const char *what) {
    const uint8_t *text = (const uint8_t *)"0x0 i 0x1004 0x0";
    const struct sanirvoq_lent lent = kernel->lent;
    struct sanirvoq_record *record = kernel->record;
    uint32_t result = sanirvoq_request(record, lent, request(SANIRVOQ_MSG_TMGET, BASE, 0, 1), 10, kernel->reply, 10);
    expect(result == wanted, what);
    expect(sanirvoq_trap(record, lent, 7, block_at(0x1008), sizeof block) == wanted, what);
    expect(sanirvoq_schedule(record, lent, 7, block, sizeof block) == wanted, what);
    expect(sanirvoq_state(record, lent, 7, SANIRVOQ_STATE_READY) == wanted, what);
    expect(sanirvoq_text(record, lent, text, 16, kernel->reply, SANIRVOQ_TEXT_SIZE) == wanted, what);
    expect(sanirvoq_restart(record, lent, kernel->reply, 10) == wanted, what);
}

static void refusals(void) {
    struct kernel kernel = set_up();
    struct sanirvoq_record *record = kernel.record;
    const struct sanirvoq_lent lent = kernel.lent;
    uint8_t *reply = kernel.reply;
    plant(&kernel, 4, 0x1008);
    const struct sanirvoq_record before = *record;

    kernel.lent.registers_length--;
    lent_numbers(&kernel, SANIRVOQ_ERR_SIZE, "registers of wrong size");
    kernel.lent = lent;
    lent.memory[8] ^= 1;
    lent_numbers(&kernel, SANIRVOQ_ERR_UNFIT, "a trap was overwritten");
    lent.memory[8] ^= 1;

    request(SANIRVOQ_MSG_TMGET, BASE, 0, 1);
    expect(sanirvoq_request(record, lent, request_bytes, 9, reply, 10) == SANIRVOQ_ERR_SIZE, "a short request");
    expect(sanirvoq_request(record, lent, request_bytes, 10, reply, 11) == SANIRVOQ_ERR_SIZE, "a long reply");
    expect(sanirvoq_trap(record, lent, 7, block, 135) == SANIRVOQ_ERR_SIZE, "a short block");
    expect(sanirvoq_trap(record, lent, 6, block, 136) == SANIRVOQ_ERR_UNLISTED, "a trap of no process");
    expect(sanirvoq_trap(record, lent, 7, block_at(0x1006), 136) == SANIRVOQ_ERR_NO_SITE, "a trap at no site");
    expect(sanirvoq_schedule(record, lent, 7, block, 137) == SANIRVOQ_ERR_SIZE, "a long block");
    expect(sanirvoq_schedule(record, lent, 0, block, 136) == SANIRVOQ_ERR_UNLISTED, "schedule of no process");
    expect(sanirvoq_state(record, lent, 8, SANIRVOQ_STATE_READY) == SANIRVOQ_ERR_UNLISTED, "state of no process");
    expect(sanirvoq_state(record, lent, 7, SANIRVOQ_STATE_STOPPED) == SANIRVOQ_ERR_STOPPED, "Stopped by a state event");
    expect(sanirvoq_restart(record, lent, reply, 9) == SANIRVOQ_ERR_SIZE, "a short reply");
    const uint8_t *text = (const uint8_t *)"0x0 i 0x1004 0x0";
    expect(sanirvoq_text(record, lent, text, 15, reply, SANIRVOQ_TEXT_SIZE) == SANIRVOQ_ERR_NO_PACKET, "no text");
    expect(sanirvoq_text(record, lent, text, 16, reply, 33) == SANIRVOQ_ERR_TEXT_BUFFER, "a short buffer");
    expect(same_record(record, &before), "a refused step changes nothing");

    /* The trap stops process 7, and then it is Stopped. */
    const uint32_t stop = sanirvoq_trap(record, lent, 7, block_at(0x1008), 136);
    expect(sanirvoq_answer(stop) == SANIRVOQ_ANSWER_STOP && sanirvoq_first(stop) == 4, "Stop by 4");
    expect(record->target.processes[1].state == SANIRVOQ_STATE_STOPPED, "the process is Stopped");
    expect(sanirvoq_trap(record, lent, 7, block, 136) == SANIRVOQ_ERR_STOPPED, "a trap of a Stopped process");
    expect(sanirvoq_state(record, lent, 7, SANIRVOQ_STATE_READY) == SANIRVOQ_ERR_STOPPED, "a state of one");
    const uint32_t pass = sanirvoq_trap(record, lent, 5, block, 136);
    expect(sanirvoq_answer(pass) == SANIRVOQ_ANSWER_PASS, "Pass for 5");
    expect(sanirvoq_first(pass) == 8 && sanirvoq_second(pass) == 9, "the plain bytes");
    free_kernel(kernel);
}

/* ---- the text dialect's errors ---- */

static void fails(struct kernel *kernel, const char *text, uint32_t error) {
    const uint32_t result = sanirvoq_text(kernel->record, kernel->lent, (const uint8_t *)text, strlen(text),
                                          kernel->reply, SANIRVOQ_TEXT_SIZE);
    expect(sanirvoq_number(result) == SANIRVOQ_OK, text);
    expect(sanirvoq_answer(result) == SANIRVOQ_ANSWER_TEXT_ERROR, text);
    const struct sanirvoq_text_found found = sanirvoq_text_decode(kernel->reply, sanirvoq_first(result));
    expect(found.packet.third == SANIRVOQ_TEXT_ERROR && found.packet.fourth == error, text);
}

static void errnos(void) {
    struct kernel kernel = set_up();
    fails(&kernel, "0x1 i 0x1004 0x0", SANIRVOQ_ERRNO_ESRCH);
    fails(&kernel, "0x0 r 0x1 0x0", SANIRVOQ_ERRNO_ESRCH);
    fails(&kernel, "0x0 i 0x1040 0x0", SANIRVOQ_ERRNO_EFAULT);
    fails(&kernel, "0x0 i 0x1002 0x0", SANIRVOQ_ERRNO_EINVAL);
    fails(&kernel, "0x0 c 0x1004 0x0", SANIRVOQ_ERRNO_EINVAL);
    ask(&kernel, request(SANIRVOQ_MSG_TPROC, 5, 0, 0), SANIRVOQ_MSG_RPROC, 0, "Tproc");
    fails(&kernel, "0x0 r 0x1 0x0", SANIRVOQ_ERRNO_EBUSY);
    free_kernel(kernel);
}

/* ---- the protected stretch ---- */

static void protects(void) {
    struct kernel kernel = made();
    struct sanirvoq_setup setup = two;
    setup.protected_from = BASE + 8;
    setup.protected_to = BASE + 16;
    expect(sanirvoq_setup(kernel.record, kernel.lent, &setup) == SANIRVOQ_OK, "a setup with a stretch");
    expect(kernel.record->target.protected_offset == 8 && kernel.record->target.protected_length == 8, "its place");
    ask(&kernel, request(SANIRVOQ_MSG_TMPUT, BASE + 7, 0, 1), SANIRVOQ_MSG_RMPUT, 0, "a byte before it");
    ask(&kernel, request(SANIRVOQ_MSG_TMPUT, BASE + 16, 0, 1), SANIRVOQ_MSG_RMPUT, 0, "a byte behind it");
    ask(&kernel, request(SANIRVOQ_MSG_TMGET, BASE + 8, 0, 8), SANIRVOQ_MSG_RMGET, 0, "a read of it");
    ask(&kernel, request(SANIRVOQ_MSG_TMPUT, BASE + 7, 0, 2), SANIRVOQ_MSG_RERR, 0, "a write that touches it");
    expect(sanirvoq_message_decode(kernel.reply, 10).fields.code == SANIRVOQ_REASON_UNSUP, "unsup");
    ask(&kernel, request(SANIRVOQ_MSG_TCONDBREAK, 1, 'n', 0), SANIRVOQ_MSG_RCONDBREAK, 0, "n");
    ask(&kernel, request(SANIRVOQ_MSG_TCONDBREAK, BASE + 14, 'b', 0), SANIRVOQ_MSG_RERR, 0, "a site in it");
    expect(sanirvoq_message_decode(kernel.reply, 10).fields.code == SANIRVOQ_REASON_UNSUP, "unsup");
    fails(&kernel, "0x0 D 0x1008 0x0", SANIRVOQ_ERRNO_EACCES);
    fails(&kernel, "0x0 I 0x100c 0x0", SANIRVOQ_ERRNO_EACCES);
    for (uint8_t i = 8; i < 16; i++) {
        expect(kernel.lent.memory[i] == i, "a protected byte");
    }
    free_kernel(kernel);
}

/* ---- places, and what lies under traps ---- */

static void places(void) {
    struct kernel kernel = set_up();
    plant(&kernel, 1, 0x1008);
    plant(&kernel, 2, 0x100c);
    ask(&kernel, request(SANIRVOQ_MSG_TCONDBREAK, 3, 'n', 0), SANIRVOQ_MSG_RCONDBREAK, 0, "n");
    ask(&kernel, request(SANIRVOQ_MSG_TCONDBREAK, 9, 'p', 0), SANIRVOQ_MSG_RCONDBREAK, 0, "p");
    expect(sanirvoq_first_place(kernel.record, 0) == 0 && sanirvoq_first_place(kernel.record, 1) == 2, "two places");
    const uint32_t place = sanirvoq_first_place(kernel.record, SANIRVOQ_ENTRIES);
    expect(place == 4 && sanirvoq_first_place(kernel.record, 99) == 4, "four places");
    expect(kernel.record->places[2 * place] == 'p' && kernel.record->places[2 * place + 1] == 9, "the one in hand");
    kernel.record->target.table.entries[7].count = 9;
    expect(sanirvoq_first_place(kernel.record, SANIRVOQ_ENTRIES) == 4, "a free entry holds no place");
    free_kernel(kernel);
}

static void put_back(void) {
    struct kernel kernel = set_up();
    uint8_t *memory = kernel.lent.memory;
    plant(&kernel, 1, 0x1000);
    plant(&kernel, 2, 0x103e);
    plant(&kernel, 3, 0x1010);
    expect(memory[0] == SANIRVOQ_TRAP_FIRST && memory[1] == SANIRVOQ_TRAP_SECOND, "a trap");
    memory[0x10] = 0x55;
    expect(sanirvoq_put_back(kernel.record, kernel.lent, BASE) == 1, "one trap was overwritten");
    expect(memory[0] == 0 && memory[1] == 1 && memory[0x3e] == 0x3e && memory[0x3f] == 0x3f, "two went");
    expect(memory[0x10] == 0x55 && memory[0x11] == SANIRVOQ_TRAP_SECOND, "the overwritten one stays");

    /* Sites of a spoiled record that are not in the window, first and last of 32 bits among them. */
    struct sanirvoq_entry *entries = kernel.record->target.table.entries;
    const uint32_t sites[] = {0, 0xfff, 0x103f, 0x1040, 0xffffffff};
    memset(memory, SANIRVOQ_TRAP_FIRST, SIZE);
    for (int i = 0; i < 5; i++) {
        entries[i].used = 1;
        entries[i].site = sites[i];
    }
    entries[5].used = 2;
    expect(sanirvoq_put_back(kernel.record, kernel.lent, BASE) == 5, "none in the window");
    expect(memory[0] == SANIRVOQ_TRAP_FIRST && memory[SIZE - 1] == SANIRVOQ_TRAP_FIRST, "the window stays");
    free_kernel(kernel);
}

/* ---- patches ---- */

static void patches(void) {
    struct kernel kernel = made();
    struct sanirvoq_setup setup = two;
    setup.protected_from = BASE + 12;
    setup.protected_to = BASE + 16;
    expect(sanirvoq_setup(kernel.record, kernel.lent, &setup) == SANIRVOQ_OK, "a setup with a stretch");
    plant(&kernel, 1, BASE + 8);
    const struct sanirvoq_record before = *kernel.record;
    const struct sanirvoq_target *target = &before.target;
    uint8_t *wanted = lend(SIZE, 0), *room = lend(SIZE, FILL);
    struct sanirvoq_write list[2], other[2], third = {BASE, 1, {0, 0, 0, 0}};
    for (uint8_t i = 0; i < SIZE; i++) {
        wanted[i] = i;
    }
    memset(list, FILL, sizeof list);
    /* No write is needed: what lies under the trap is as it was. */
    struct sanirvoq_planning planning = sanirvoq_plan(kernel.record, kernel.lent, wanted, SIZE, room, SIZE, list, 2);
    expect(planning.number == SANIRVOQ_OK && planning.writes == 0 && list[0].count != 0, "nothing to write");
    struct sanirvoq_verdict verdict = sanirvoq_check(kernel.record, kernel.lent, list, 0, wanted, SIZE, room, SIZE);
    expect(verdict.number == SANIRVOQ_OK && verdict.verdict == SANIRVOQ_VERDICT_ACCEPTED, "an empty offer");

    /* Two: four bytes from byte 5 on, and byte 10, cut short before the stretch. */
    wanted[5] = wanted[10] = 0xaa;
    planning = sanirvoq_plan(kernel.record, kernel.lent, wanted, SIZE, room, SIZE, list, 2);
    expect(planning.number == SANIRVOQ_OK && planning.writes == 2 && planning.address == 0, "two writes");
    expect(list[0].address == BASE + 5 && list[0].count == 4 && memcmp(list[0].bytes, "\xaa\6\7\10", 4) == 0,
           "a write");
    expect(list[1].address == BASE + 10 && list[1].count == 2 && memcmp(list[1].bytes, "\xaa\13\0\0", 4) == 0,
           "a short one");
    verdict = sanirvoq_check(kernel.record, kernel.lent, list, 2, wanted, SIZE, room, SIZE);
    expect(verdict.number == SANIRVOQ_OK && verdict.verdict == SANIRVOQ_VERDICT_ACCEPTED, "the plan is accepted");
    verdict = sanirvoq_check(kernel.record, kernel.lent, list, 1, wanted, SIZE, room, SIZE);
    expect(verdict.verdict == SANIRVOQ_VERDICT_IMAGES_DIFFER && verdict.index == 0, "half of it");
    memcpy(other, list, sizeof list);
    other[1].count = 3;
    verdict = sanirvoq_check(kernel.record, kernel.lent, other, 2, wanted, SIZE, room, SIZE);
    expect(verdict.verdict == SANIRVOQ_VERDICT_BROKEN_BOUND && verdict.index == 1, "a write to a protected byte");
    planning = sanirvoq_plan(kernel.record, kernel.lent, wanted, SIZE, room, SIZE, &third, 1);
    expect(planning.number == SANIRVOQ_ERR_PLAN_LIST && third.address == BASE, "a list of one");
    planning = sanirvoq_patch_plan(target, before.places, kernel.lent.memory, SIZE, kernel.lent.registers, AREA, wanted,
                                   SIZE, room, SIZE, other, 2);
    expect(planning.number == SANIRVOQ_OK && memcmp(list, other, sizeof list) == 0, "the exported planner");
    verdict = sanirvoq_patch_check(target, before.places, kernel.lent.memory, SIZE, kernel.lent.registers, AREA, other,
                                   2, wanted, SIZE, room, SIZE);
    expect(verdict.number == SANIRVOQ_OK && verdict.verdict == SANIRVOQ_VERDICT_ACCEPTED, "the exported checker");

    wanted[14] = wanted[15] = 0;
    planning = sanirvoq_plan(kernel.record, kernel.lent, wanted, SIZE, room, SIZE, list, 0);
    expect(planning.number == SANIRVOQ_ERR_PROTECTED && planning.address == BASE + 14, "a protected byte comes first");
    planning = sanirvoq_plan(kernel.record, kernel.lent, wanted, SIZE - 1, room, SIZE, list, 2);
    expect(planning.number == SANIRVOQ_ERR_PATCH, "a short image");
    verdict = sanirvoq_check(kernel.record, kernel.lent, list, 2, wanted, SIZE - 1, room, SIZE);
    expect(verdict.number == SANIRVOQ_ERR_PATCH && verdict.verdict == 0, "a short image");
    planning = sanirvoq_plan(kernel.record, kernel.lent, wanted, SIZE, room, SIZE - 1, list, 2);
    expect(planning.number == SANIRVOQ_ERR_SIZE, "a small room");
    verdict = sanirvoq_check(kernel.record, kernel.lent, list, 2, wanted, SIZE, room, SIZE - 1);
    expect(verdict.number == SANIRVOQ_ERR_SIZE, "a small room");
    expect(same_record(kernel.record, &before), "the record is as it was");
    expect(kernel.lent.memory[8] == SANIRVOQ_TRAP_FIRST && kernel.lent.memory[5] == 5, "the window is as it was");
    kernel.lent.memory[8] = 0;
    planning = sanirvoq_plan(kernel.record, kernel.lent, wanted, SIZE, room, SIZE, list, 2);
    expect(planning.number == SANIRVOQ_ERR_UNFIT, "a trap was overwritten");
    verdict = sanirvoq_check(kernel.record, kernel.lent, list, 2, wanted, SIZE, room, SIZE);
    expect(verdict.number == SANIRVOQ_ERR_UNFIT, "a trap was overwritten");
    free(wanted);
    free(room);
    free_kernel(kernel);
}

static void long_offer(void) {
    struct kernel kernel = set_up();
    const size_t most = SANIRVOQ_PATCH_WRITES;
    struct sanirvoq_write *offer = calloc(most + 1, sizeof *offer);
    uint8_t *wanted = lend(SIZE, 0), *room = lend(SIZE, FILL);
    if (offer == NULL) {
        exit(2);
    }
    memcpy(wanted, kernel.lent.memory, SIZE);
    for (size_t i = 0; i <= most; i++) {
        offer[i].address = BASE;
        offer[i].count = 1;
    }
    struct sanirvoq_verdict verdict = sanirvoq_check(kernel.record, kernel.lent, offer, most, wanted, SIZE, room, SIZE);
    expect(verdict.number == SANIRVOQ_OK && verdict.verdict == SANIRVOQ_VERDICT_ACCEPTED, "the longest offer");
    verdict = sanirvoq_check(kernel.record, kernel.lent, offer, most + 1, wanted, SIZE, room, SIZE);
    expect(verdict.number == SANIRVOQ_ERR_PATCH, "a longer one");
    free(offer);
    free(wanted);
    free(room);
    free_kernel(kernel);
}

/* ---- messages ---- */

struct named {
    uint8_t code;
    const char *text;
};

/* A message of this type says a code by a text. */
static void expect_text(uint8_t kind, struct named named) {
    const struct sanirvoq_fields fields = {.kind = kind, .code = named.code};
    uint8_t bytes[SANIRVOQ_MESSAGE_SIZE];
    expect(sanirvoq_message_encode(fields, bytes, sizeof bytes) == SANIRVOQ_OK, named.text);
    expect(bytes[0] == kind && strncmp((const char *)bytes + 1, named.text, 9) == 0, named.text);
    expect(sanirvoq_message_decode(bytes, sizeof bytes).fields.code == named.code, named.text);
}

static void texts_of_messages(void) {
    static const struct named reasons[] = {
        {SANIRVOQ_REASON_RESET, "reset"},     {SANIRVOQ_REASON_COUNT, "count"}, {SANIRVOQ_REASON_UNK, "unk"},
        {SANIRVOQ_REASON_INVAL, "inval"},     {SANIRVOQ_REASON_PID, "pid"},     {SANIRVOQ_REASON_UNSUP, "unsup"},
        {SANIRVOQ_REASON_NOTSTOP, "notstop"},
    };
    static const struct named states[] = {
        {SANIRVOQ_STATE_DEAD, "Dead"},       {SANIRVOQ_STATE_MORIBUND, "Moribund"},
        {SANIRVOQ_STATE_READY, "Ready"},     {SANIRVOQ_STATE_SCHEDING, "Scheding"},
        {SANIRVOQ_STATE_RUNNING, "Running"}, {SANIRVOQ_STATE_QUEUEING, "Queueing"},
        {SANIRVOQ_STATE_WAKEME, "Wakeme"},   {SANIRVOQ_STATE_BROKEN, "Broken"},
        {SANIRVOQ_STATE_STOPPED, "Stopped"}, {SANIRVOQ_STATE_RENDEZVOUS, "Rendezvou"},
    };
    for (size_t i = 0; i < sizeof reasons / sizeof *reasons; i++) {
        expect_text(SANIRVOQ_MSG_RERR, reasons[i]);
    }
    for (size_t i = 0; i < sizeof states / sizeof *states; i++) {
        expect_text(SANIRVOQ_MSG_RSTATUS, states[i]);
    }
}

/* The types that have no text, by the first bytes of docs/PROTOCOL.md. */
static void types(void) {
    static const uint8_t in_order[] = {
        SANIRVOQ_MSG_RERR,       SANIRVOQ_MSG_TMGET,  SANIRVOQ_MSG_RMGET,  SANIRVOQ_MSG_TMPUT,
        SANIRVOQ_MSG_RMPUT,      SANIRVOQ_MSG_TPROC,  SANIRVOQ_MSG_RPROC,  SANIRVOQ_MSG_TSTATUS,
        SANIRVOQ_MSG_RSTATUS,    SANIRVOQ_MSG_TRNOTE, SANIRVOQ_MSG_RRNOTE, SANIRVOQ_MSG_TSTOP,
        SANIRVOQ_MSG_RSTOP,      SANIRVOQ_MSG_TSTART, SANIRVOQ_MSG_RSTART, SANIRVOQ_MSG_TCONDBREAK,
        SANIRVOQ_MSG_RCONDBREAK,
    };
    uint8_t bytes[SANIRVOQ_MESSAGE_SIZE];
    for (uint8_t i = 0; i < sizeof in_order; i++) {
        const struct sanirvoq_fields fields = {.kind = in_order[i], .op = 'o', .n = 1, .bytes = {6}};
        expect(sanirvoq_message_encode(fields, bytes, sizeof bytes) == SANIRVOQ_OK && bytes[0] == i + 1, "a type");
        const struct sanirvoq_found found = sanirvoq_message_decode(bytes, sizeof bytes);
        expect(found.number == SANIRVOQ_OK && found.fields.kind == in_order[i], "a type is read");
    }
}

static void messages(void) {
    uint8_t *bytes = lend(SANIRVOQ_MESSAGE_SIZE, FILL);
    const struct sanirvoq_fields none = {.kind = 99}, rmput = {.kind = SANIRVOQ_MSG_RMPUT};
    expect(sanirvoq_message_encode(none, bytes, 10) == SANIRVOQ_ERR_NO_MESSAGE, "no type");
    expect(sanirvoq_message_encode(none, bytes, 9) == SANIRVOQ_ERR_SIZE, "the size comes first");
    expect(sanirvoq_message_encode(rmput, bytes, 9) == SANIRVOQ_ERR_SIZE && bytes[0] == FILL, "the buffer stays");
    expect(sanirvoq_message_decode(bytes, 10).number == SANIRVOQ_ERR_NO_MESSAGE, "bytes of none");
    expect(sanirvoq_message_decode(bytes, 9).number == SANIRVOQ_ERR_SIZE, "nine bytes");
    free(bytes);
}

/* ---- images, text packets and frames ---- */

static void images(void) {
    uint8_t *a = lend(8, 0), *b = lend(8, 0);
    uint32_t list[2] = {FILL, FILL};
    b[3] = b[4] = 1;
    struct sanirvoq_comparison found = sanirvoq_image_differences(a, 8, b, 8, list, 2);
    expect(found.number == SANIRVOQ_OK && found.runs == 1 && list[0] == 3 && list[1] == 2, "one run");
    found = sanirvoq_image_differences(a, 8, b, 8, list, 1);
    expect(found.number == SANIRVOQ_ERR_RUN_LIST && found.runs == 1, "no room");
    found = sanirvoq_image_differences(a, 8, b, 7, list, 2);
    expect(found.number == SANIRVOQ_ERR_IMAGES && found.runs == 0, "unequal lengths");
    free(a);
    free(b);
}

static void texts(void) {
    const struct sanirvoq_text_packet packet = {0, 'i', 0x1004, 0}, none = {0, ' ', 0, 0};
    uint8_t *buffer = lend(SANIRVOQ_TEXT_SIZE, FILL);
    struct sanirvoq_text_written written = sanirvoq_text_encode(packet, buffer, SANIRVOQ_TEXT_SIZE);
    expect(written.number == SANIRVOQ_OK && written.filled == 16, "a text");
    expect(memcmp(buffer, "0x0 i 0x1004 0x0", 16) == 0 && buffer[16] == FILL, "its bytes");
    const struct sanirvoq_text_found found = sanirvoq_text_decode(buffer, 16);
    expect(found.number == SANIRVOQ_OK && found.packet.letter == 'i' && found.packet.third == 0x1004, "its packet");
    expect(sanirvoq_text_decode(buffer, 17).number == SANIRVOQ_ERR_NO_PACKET, "no text");
    written = sanirvoq_text_encode(none, buffer, SANIRVOQ_TEXT_SIZE);
    expect(written.number == SANIRVOQ_ERR_NO_PACKET && written.filled == 0, "a letter of none");
    written = sanirvoq_text_encode(none, buffer, SANIRVOQ_TEXT_SIZE - 1);
    expect(written.number == SANIRVOQ_ERR_TEXT_BUFFER && buffer[0] == '0', "a short buffer comes first");
    free(buffer);
}

static void frames(void) {
    uint8_t *line = lend(SANIRVOQ_FRAME_REPLY_SIZE, FILL), *buffer = lend(SANIRVOQ_FRAME_BUFFER_SIZE, FILL);
    const uint8_t *message = (const uint8_t *)"0123456789";
    expect(sanirvoq_frame_reply(256, message, 9, line, 26) == SANIRVOQ_ERR_SIZE, "nine bytes come first");
    expect(sanirvoq_frame_reply(256, message, 10, line, 26) == SANIRVOQ_ERR_FRAME, "a sequence over 255");
    expect(sanirvoq_frame_reply(7, message, 10, line, 25) == SANIRVOQ_ERR_FRAME && line[0] == FILL, "25 bytes");
    expect(sanirvoq_frame_reply(7, message, 10, line, 26) == SANIRVOQ_OK && line[0] == 0x1d, "a framed reply");

    struct sanirvoq_frame_reader reader = sanirvoq_frame_reader();
    struct sanirvoq_frame_fed fed = sanirvoq_frame_feed(reader, line, 26, buffer, SANIRVOQ_FRAME_BUFFER_SIZE - 1);
    expect(fed.number == SANIRVOQ_ERR_FRAME && fed.taken == 0, "a short buffer");
    fed = sanirvoq_frame_feed(reader, line, 20, buffer, SANIRVOQ_FRAME_BUFFER_SIZE);
    expect(fed.number == SANIRVOQ_OK && fed.taken == 20, "a piece");
    expect(fed.answer.kind == SANIRVOQ_FRAME_ANSWER_NOTHING, "no answer yet");
    fed = sanirvoq_frame_feed(fed.reader, line + 20, 6, buffer, SANIRVOQ_FRAME_BUFFER_SIZE);
    expect(fed.taken == 6 && fed.answer.kind == SANIRVOQ_FRAME_ANSWER_PACKET, "a packet");
    expect(fed.answer.size == 10 && fed.answer.request == 1 && fed.answer.sequence == 7, "its fields");
    expect(memcmp(buffer, message, 10) == 0, "its body");
    line[15] ^= 4;
    fed = sanirvoq_frame_feed(reader, line, 26, buffer, SANIRVOQ_FRAME_BUFFER_SIZE);
    expect(fed.answer.kind == SANIRVOQ_FRAME_ANSWER_BAD_BODY && fed.answer.sequence == 7, "a bad body");
    line[3] ^= 4;
    fed = sanirvoq_frame_feed(reader, line, 26, buffer, SANIRVOQ_FRAME_BUFFER_SIZE);
    expect(fed.answer.kind == SANIRVOQ_FRAME_ANSWER_BAD_HEADER && fed.answer.sequence == 0, "a bad header");
    free(line);
    free(buffer);
}

int main(void) {
    results();
    exports();
    setups();
    refusals();
    errnos();
    protects();
    places();
    put_back();
    patches();
    long_offer();
    texts_of_messages();
    types();
    messages();
    images();
    texts();
    frames();
    return failed;
}
