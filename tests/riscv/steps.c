/* One pseudo-random run over every call of the archive, summed up in two numbers: the same on every machine, or two
 * machines differ. After each step the sum takes the result, the whole record, memory, registers and what was written.
 * The last line of the output, what was reached, must be the same too.
 *
 *     steps.c machine.c, and on RISC-V machine.S machine.ld; -DSTEPS=N -DSEED=N, not 0 */
#include "machine.h"
#include "sanirvoq.h"

#ifndef STEPS
#define STEPS 100000
#endif
#ifndef SEED
#define SEED 1
#endif

enum { WINDOW = 64, AREA = 4 * SANIRVOQ_BLOCK_SIZE, IMAGE = 300, RUNS = 40, LINE = 700, WRITES = 20 };

/* ---- chance and sums ---- */

static uint32_t chance = 2654435769u * SEED, sum_a = 1, sum_b = 2;

static uint32_t any(void) {
    chance ^= chance << 13;
    chance ^= chance >> 17;
    chance ^= chance << 5;
    return chance;
}

static uint32_t below(uint32_t limit) { return any() % limit; }
static int one_in(uint32_t n) { return below(n) == 0; }

static void add(uint32_t value) {
    sum_a = (sum_a ^ value) * 16777619u;
    sum_b = (sum_b << 5 | sum_b >> 27) + (value ^ sum_a);
}

static void add_bytes(const uint8_t *bytes, uint32_t length) {
    for (uint32_t i = 0; i < length; i++) {
        add(bytes[i]);
    }
}

static void copy(uint8_t *to, const uint8_t *from, uint32_t length) {
    for (uint32_t i = 0; i < length; i++) {
        to[i] = from[i];
    }
}

/* ---- calls ---- */

enum kind {
    SETUP, REQUEST, TRAP, SCHEDULE, STATE, RESTART, TEXT, ENCODE, DECODE, TEXT_ENCODE, TEXT_DECODE, IMAGES, FEED,
    FRAME_REPLY, CHECK, PLAN, KINDS
};

static const char *const names[KINDS] = {
    "setup", "request", "trap", "schedule", "state", "restart", "text", "message_encode", "message_decode",
    "text_encode", "text_decode", "image_differences", "frame_feed", "frame_reply", "patch_check", "patch_plan"
};

static struct sanirvoq_record record;
static uint8_t memory[WINDOW + 4], registers[AREA + 4], reply[40], input[200];
static struct sanirvoq_lent lent = {memory, WINDOW, registers, AREA};

/* A call: what goes in besides the record and the lent buffers, and what comes out. */
struct call {
    enum kind kind;
    uint32_t pid, value, input_length, reply_length;
    struct sanirvoq_setup setup;
    struct sanirvoq_fields fields;
    struct sanirvoq_text_packet packet;
    struct sanirvoq_frame_reader reader;
    const uint8_t *a, *b;
    uint32_t a_length, b_length, places;
    uint32_t result;
    struct sanirvoq_found found;
    struct sanirvoq_text_written written;
    struct sanirvoq_text_found text_found;
    struct sanirvoq_comparison comparison;
    struct sanirvoq_frame_fed fed;
    struct sanirvoq_verdict verdict;
    struct sanirvoq_planning planning;
};

static uint32_t list[2 * RUNS];
static uint8_t body[SANIRVOQ_FRAME_BUFFER_SIZE], room[WINDOW + 4];
static struct sanirvoq_write writes[WRITES];

/* The mark is taken in the branch of the call itself, where the frame of this function is complete. */
#define CALL(call)              \
    do {                        \
        MARK_STACK(stack_mark); \
        call;                   \
    } while (0)

static void make(void *argument) {
    struct call *c = argument;
    const uint32_t in = c->input_length, out = c->reply_length;
    switch (c->kind) {
    case SETUP: CALL(c->result = sanirvoq_setup(&record, lent, &c->setup)); break;
    case REQUEST: CALL(c->result = sanirvoq_request(&record, lent, input, in, reply, out)); break;
    case TRAP: CALL(c->result = sanirvoq_trap(&record, lent, c->pid, input, in)); break;
    case SCHEDULE: CALL(c->result = sanirvoq_schedule(&record, lent, c->pid, input, in)); break;
    case STATE: CALL(c->result = sanirvoq_state(&record, lent, c->pid, (uint8_t)c->value)); break;
    case RESTART: CALL(c->result = sanirvoq_restart(&record, lent, reply, out)); break;
    case TEXT: CALL(c->result = sanirvoq_text(&record, lent, input, in, reply, out)); break;
    case ENCODE: CALL(c->result = sanirvoq_message_encode(c->fields, reply, out)); break;
    case DECODE: CALL(c->found = sanirvoq_message_decode(input, in)); break;
    case TEXT_ENCODE: CALL(c->written = sanirvoq_text_encode(c->packet, reply, out)); break;
    case TEXT_DECODE: CALL(c->text_found = sanirvoq_text_decode(input, in)); break;
    case IMAGES:
        CALL(c->comparison = sanirvoq_image_differences(c->a, c->a_length, c->b, c->b_length, list, c->places));
        break;
    case FEED: CALL(c->fed = sanirvoq_frame_feed(c->reader, c->a, c->a_length, body, c->b_length)); break;
    case FRAME_REPLY: CALL(c->result = sanirvoq_frame_reply(c->value, input, in, reply, out)); break;
    case CHECK:
        CALL(c->verdict = sanirvoq_check(&record, lent, writes, c->places, c->a, c->a_length, room, c->b_length));
        break;
    case PLAN:
        CALL(c->planning = sanirvoq_plan(&record, lent, c->a, c->a_length, room, c->b_length, writes, c->places));
        break;
    case KINDS: break;
    }
}

/* ---- what came out ---- */

static uint32_t numbers[32], calls[KINDS], deepest[KINDS], served, stops, passes, continued, packets, text_errors;
static uint32_t protected_writes, protected_sites, verdicts[4];

static void add_record(void) {
    const struct sanirvoq_target *t = &record.target;
    add(t->base), add(t->size), add(t->protected_offset), add(t->protected_length);
    add(t->count), add(t->selected), add(t->current);
    for (int i = 0; i < SANIRVOQ_PROCESSES; i++) {
        const struct sanirvoq_process *p = &t->processes[i];
        add(p->pid), add(p->address), add(p->state), add(p->wanted);
    }
    for (int i = 0; i < SANIRVOQ_ENTRIES; i++) {
        const struct sanirvoq_entry *e = &t->table.entries[i];
        add(e->used), add(e->id), add(e->count), add(e->site), add_bytes(e->plain, 4);
    }
    add(t->table.draft.active), add(t->table.draft.id), add(t->table.draft.count);
    for (int i = 0; i < 2 * SANIRVOQ_PLACES; i++) {
        add(record.places[i]);
    }
}

static void add_outcome(const struct call *c) {
    uint8_t number = (uint8_t)c->result;
    switch (c->kind) {
    case DECODE:
        number = c->found.number;
        add(c->found.fields.kind), add(c->found.fields.n), add(c->found.fields.op), add(c->found.fields.code);
        add(c->found.fields.value), add_bytes(c->found.fields.bytes, 9);
        break;
    case TEXT_ENCODE:
        number = c->written.number;
        add(c->written.filled);
        break;
    case TEXT_DECODE:
        number = c->text_found.number;
        add(c->text_found.packet.pid), add(c->text_found.packet.letter), add(c->text_found.packet.third);
        add(c->text_found.packet.fourth);
        break;
    case IMAGES:
        number = c->comparison.number;
        add(c->comparison.runs);
        for (int i = 0; i < 2 * RUNS; i++) {
            add(list[i]);
        }
        break;
    case FEED:
        number = c->fed.number;
        add((uint32_t)c->fed.taken), add((uint32_t)(c->fed.taken >> 32));
        add((uint32_t)c->fed.reader.last), add((uint32_t)(c->fed.reader.last >> 32)), add(c->fed.reader.count);
        add(c->fed.reader.id), add(c->fed.reader.scale), add(c->fed.reader.size), add(c->fed.reader.sum);
        add(c->fed.reader.phase), add(c->fed.reader.held);
        add(c->fed.answer.id), add(c->fed.answer.size), add(c->fed.answer.kind), add(c->fed.answer.index);
        add(c->fed.answer.sequence), add(c->fed.answer.request);
        add_bytes(body, c->fed.answer.size);
        packets += c->fed.answer.kind == SANIRVOQ_FRAME_ANSWER_PACKET;
        break;
    case CHECK:
        number = c->verdict.number;
        add(c->verdict.verdict), add(c->verdict.index);
        verdicts[c->verdict.verdict & 3] += number == 0;
        break;
    case PLAN:
        number = c->planning.number;
        add(c->planning.address), add(c->planning.writes);
        break;
    default: add(c->result);
    }
    for (int i = 0; (c->kind == CHECK || c->kind == PLAN) && i < WRITES; i++) {
        add(writes[i].address), add(writes[i].count), add_bytes(writes[i].bytes, 4);
    }
    const uint32_t answer = sanirvoq_answer(c->result);
    add(number);
    numbers[number & 31]++;
    served += c->kind == REQUEST && number == 0 && reply[0] != SANIRVOQ_MSG_RERR;
    continued += c->kind == REQUEST && answer == SANIRVOQ_ANSWER_PASS;
    stops += c->kind == TRAP && answer == SANIRVOQ_ANSWER_STOP;
    passes += c->kind == TRAP && answer == SANIRVOQ_ANSWER_PASS;
    text_errors += c->kind == TEXT && answer == SANIRVOQ_ANSWER_TEXT_ERROR;
    if (c->kind == REQUEST && number == 0 && reply[0] == SANIRVOQ_MSG_RERR && reply[1] == 'u' && reply[3] == 's') {
        protected_writes += input[0] == SANIRVOQ_MSG_TMPUT;
        protected_sites += input[0] == SANIRVOQ_MSG_TCONDBREAK;
    }
}

static void go(struct call *c) {
    const uint32_t depth = measured(make, c);
    calls[c->kind]++;
    deepest[c->kind] = depth > deepest[c->kind] ? depth : deepest[c->kind];
    add(c->kind);
    add_outcome(c);
    add_record();
    add_bytes(memory, sizeof memory);
    add_bytes(registers, sizeof registers);
    add_bytes(reply, sizeof reply);
}

/* ---- what goes in ---- */

static void put_word(uint8_t *bytes, uint32_t word) {
    for (int i = 0; i < 4; i++) {
        bytes[i] = (uint8_t)(word >> (24 - 8 * i));
    }
}

static uint32_t some_pid(void) {
    static const uint32_t pids[5] = {5, 7, 9, 0xfffffffe, 6};
    return pids[one_in(20) ? 4 : below(4)];
}

static uint32_t some_address(void) {
    return one_in(4) ? below(140) : 0x1000 + below(one_in(8) ? 70 : WINDOW);
}

/* Now and then a length that is wrong. */
static uint32_t about(uint32_t length) { return one_in(60) ? below(length + 5) : length; }

static void set_up(void) {
    struct call c = {.kind = SETUP, .setup = {.base = 0x1000, .size = WINDOW, .count = 4}};
    c.setup.protected_from = 0x1000 + 4 * below(16);
    c.setup.protected_to = c.setup.protected_from + (one_in(3) ? 0 : 4 * below(2));
    static const uint32_t pids[4] = {5, 7, 9, 0xfffffffe}, addresses[4] = {0x80001000, 0x80002000, 0, 0xffffffff};
    for (int i = 0; i < 4; i++) {
        c.setup.processes[i].pid = pids[i];
        c.setup.processes[i].address = addresses[i];
    }
    for (uint32_t i = 0; i < sizeof memory; i++) {
        memory[i] = (uint8_t)i;
    }
    go(&c);
}

static void try_setup(void) {
    struct call c = {.kind = SETUP};
    c.setup.base = one_in(3) ? any() : 0x1000 + 4 * below(20);
    c.setup.size = one_in(4) ? below(80) : WINDOW;
    c.setup.count = below(6);
    c.setup.protected_from = c.setup.base + below(one_in(4) ? 9 : 3) * (one_in(8) ? 3 : 4);
    c.setup.protected_to = one_in(8) ? (uint64_t)any() << 32 : c.setup.protected_from + 4 * below(16);
    for (int i = 0; i < 4; i++) {
        c.setup.processes[i].pid = below(12);
        c.setup.processes[i].address = any();
    }
    lent.registers_length = one_in(4) ? below(AREA) : SANIRVOQ_BLOCK_SIZE * c.setup.count;
    go(&c);
    lent.registers_length = AREA;
    set_up();
}

static struct sanirvoq_fields some_message(void) {
    static const uint8_t kinds[] = {2, 2, 4, 4, 6, 8, 10, 12, 14, 16, 16, 16, 16, 16, 16, 16, 16, 16};
    static const uint8_t letters[] = "nnbbbkpad*&=!o";
    struct sanirvoq_fields f = {.kind = kinds[below(sizeof kinds)]};
    if (f.kind <= SANIRVOQ_MSG_TMPUT) {
        f.value = some_address();
        f.n = (uint8_t)below(f.kind == SANIRVOQ_MSG_TMGET ? 10 : 5);
        for (int i = 0; f.kind == SANIRVOQ_MSG_TMPUT && i < f.n; i++) {
            f.bytes[i] = (uint8_t)any();
        }
    } else if (f.kind == SANIRVOQ_MSG_TCONDBREAK) {
        f.op = letters[below(sizeof letters - 1)];
        if (f.op == 'n' || f.op == 'd') {
            f.value = below(10);
        } else if (f.op == 'b') {
            f.value = 0x1000 + 2 * below(33);
        } else if (f.op == 'k') {
            f.value = some_pid();
        } else if (f.op == 'p') {
            f.value = some_address();
        }
    } else {
        f.value = some_pid();
    }
    return f;
}

/* A message's bytes go to the front of input. */
static void encode(struct sanirvoq_fields fields) {
    struct call c = {.kind = ENCODE, .fields = fields, .reply_length = about(10)};
    go(&c);
    copy(input, reply, SANIRVOQ_MESSAGE_SIZE);
}

static void request(void) {
    struct call c = {.kind = REQUEST, .input_length = about(10), .reply_length = about(10)};
    go(&c);
}

static void some_request(void) {
    encode(some_message());
    if (one_in(10)) {
        input[below(10)] = (uint8_t)any();
    }
    if (one_in(4)) {
        struct call c = {.kind = DECODE, .input_length = about(10)};
        go(&c);
    }
    request();
    if (one_in(4)) {
        copy(input, reply, 10);
        struct call c = {.kind = DECODE, .input_length = 10};
        go(&c);
    }
}

/* Fields that are often no message. */
static void some_fields(void) {
    struct sanirvoq_fields f = some_message();
    if (one_in(2)) {
        f.kind = (uint8_t)below(24);
        f.n = (uint8_t)below(12);
        f.op = (uint8_t)any();
        f.code = (uint8_t)below(300);
    }
    encode(f);
}

static void tell(char letter, uint32_t value) {
    encode((struct sanirvoq_fields){.kind = SANIRVOQ_MSG_TCONDBREAK, .op = (uint8_t)letter, .value = value});
    request();
}

/* A whole condition: for one process, or by a word of memory too; now and then a long one. */
static void some_condition(void) {
    const uint32_t shape = below(4), site = 0x1000 + 2 * below(32), more = one_in(6) ? below(70) : 0;
    tell('n', below(12));
    tell('k', some_pid());
    tell('a', 0);
    if (shape == 1 || shape == 2) {
        tell('p', some_address());
        tell('*', 0);
        tell('p', any());
        tell(shape == 1 ? '=' : '&', 0);
        tell(shape == 1 ? 'o' : 'a', 0);
    }
    for (uint32_t i = 0; i < more; i++) {
        tell(i % 2 ? 'a' : 'p', i + 1);
    }
    tell('b', site);
}

/* The registers of a process, mostly with its pc at a breakpoint. */
static void some_block(void) {
    for (uint32_t i = 0; i < SANIRVOQ_BLOCK_SIZE; i++) {
        input[i] = (uint8_t)any();
    }
    const struct sanirvoq_entry *entry = &record.target.table.entries[below(SANIRVOQ_ENTRIES)];
    put_word(input + 132, entry->used == 1 && !one_in(4) ? entry->site : 0x1000 + 2 * below(32));
}

static void some_event(void) {
    struct call c = {.pid = some_pid(), .input_length = about(SANIRVOQ_BLOCK_SIZE), .reply_length = about(10)};
    const uint32_t which = below(100);
    some_block();
    c.kind = which < 55 ? TRAP : which < 75 ? SCHEDULE : which < 99 ? STATE : RESTART;
    c.value = below(one_in(4) ? 256 : 10);
    go(&c);
}

static void some_text(void) {
    static const uint8_t letters[] = "iIdDrRiIdDrRcs?";
    struct call c = {.kind = TEXT_ENCODE, .reply_length = one_in(20) ? below(40) : 34};
    c.packet.pid = one_in(20) ? any() : 0;
    c.packet.letter = one_in(30) ? (uint8_t)any() : letters[below(sizeof letters - 1)];
    c.packet.third = one_in(3) ? below(36) : one_in(8) ? any() : 0x1000 + 4 * below(17) + one_in(8);
    c.packet.fourth = any() >> below(32);
    go(&c);
    copy(input, reply, 34);
    c.input_length = c.written.filled;
    if (one_in(10)) {
        input[below(34)] = (uint8_t)any();
    }
    c.kind = one_in(3) ? TEXT_DECODE : TEXT;
    c.reply_length = one_in(20) ? below(40) : 34 + below(6);
    go(&c);
    if (one_in(4)) {
        c.kind = TEXT_DECODE;
        c.input_length = sanirvoq_first(c.result) <= 34 ? sanirvoq_first(c.result) : 34;
        copy(input, reply, 34);
        go(&c);
    }
}

static void some_images(void) {
    static uint8_t a[IMAGE], b[IMAGE];
    struct call c = {.kind = IMAGES, .a = a, .b = b, .a_length = below(IMAGE), .places = below(2 * RUNS + 1)};
    const uint32_t rarity = 1 + below(30);
    c.b_length = one_in(20) ? below(IMAGE) : c.a_length;
    for (uint32_t i = 0; i < IMAGE; i++) {
        a[i] = (uint8_t)any();
        b[i] = one_in(rarity) ? (uint8_t)any() : a[i];
    }
    go(&c);
}

/* A plan from the window to an image of it with some bytes changed, and the plan checked, damaged now and then. */
static void some_patch(void) {
    static uint8_t wanted[WINDOW + 4];
    struct call c = {.kind = PLAN, .a = wanted, .a_length = about(WINDOW), .b_length = about(WINDOW)};
    c.places = one_in(4) ? below(WRITES + 1) : WRITES;
    copy(wanted, memory, sizeof wanted);
    for (int i = 0; i < SANIRVOQ_ENTRIES; i++) {
        const struct sanirvoq_entry *entry = &record.target.table.entries[i];
        if (entry->used == 1) {
            copy(wanted + (entry->site - 0x1000), entry->plain, 2);
        }
    }
    for (uint32_t i = below(12); i > 0; i--) {
        wanted[below(WINDOW)] = (uint8_t)any();
    }
    go(&c);
    c.kind = CHECK;
    c.places = c.planning.number == 0 ? c.planning.writes : below(WRITES + 1);
    if (one_in(4)) {
        struct sanirvoq_write *write = &writes[below(WRITES)];
        write->address = one_in(2) ? any() : some_address();
        write->count = below(6);
        write->bytes[0] = (uint8_t)any();
    }
    c.a_length = about(WINDOW);
    go(&c);
}

/* ---- packets ---- */

static uint8_t line[LINE];
static uint32_t line_length, held_bits, held_count;

static void put_bits(uint32_t bits, uint32_t count) {
    while (count-- > 0) {
        held_bits = held_bits << 1 | (bits >> count & 1);
        if (++held_count == 7) {
            line[line_length++] = (uint8_t)(0x80 | held_bits);
            held_bits = held_count = 0;
        }
    }
}

static void stuff(const uint8_t *bytes, uint32_t length) {
    uint32_t total = 0xa1e8;
    for (uint32_t i = 0; i < length; i++) {
        put_bits(bytes[i], 8);
        total = (total + bytes[i]) & 0xffff;
        total = (total << 3 | total >> 13) & 0xffff;
    }
    put_bits(total & 255, 8);
    put_bits(total >> 8, 8);
    while (held_count != 0) {
        put_bits(0, 1);
    }
}

static void put_packet(uint32_t id, const uint8_t *bytes, uint32_t length) {
    const uint8_t header[6] = {(uint8_t)id, (uint8_t)(id >> 8), (uint8_t)(id >> 16), (uint8_t)(id >> 24),
                               (uint8_t)length, (uint8_t)(length >> 8)};
    line[line_length++] = 0x1d;
    stuff(header, 6);
    if (length > 0) {
        stuff(bytes, length);
    }
    line[line_length++] = 0x1e;
}

/* A packet in pieces, damaged now and then; a request in it is served, and its reply framed. */
static void some_packet(void) {
    struct call c = {.kind = FEED};
    static struct sanirvoq_frame_reader reader;
    const uint32_t length = one_in(3) ? below(60) : 10;
    encode(some_message());
    for (uint32_t i = 10; i < length; i++) {
        input[i] = (uint8_t)any();
    }
    line_length = 0;
    put_packet(one_in(4) ? any() : 0x8000 | below(0x4000), input, length);
    while (one_in(4)) {
        line[below(line_length)] = (uint8_t)(one_in(2) ? any() : any() & 0xf8);
    }
    for (uint32_t at = 0; at < line_length; at += (uint32_t)c.fed.taken) {
        const uint32_t rest = line_length - at;
        c.reader = reader;
        c.a = line + at;
        c.a_length = 1 + below(rest);
        c.b_length = one_in(40) ? below(SANIRVOQ_FRAME_BUFFER_SIZE) : SANIRVOQ_FRAME_BUFFER_SIZE;
        go(&c);
        reader = c.fed.reader;
        if (c.fed.answer.request) {
            copy(input, body, 10);
            request();
            struct call answer = {.kind = FRAME_REPLY, .input_length = about(10), .reply_length = about(26)};
            answer.value = one_in(20) ? any() : c.fed.answer.sequence;
            copy(input, reply, 10);
            go(&answer);
        }
    }
    if (one_in(50)) { /* any numbers are a reader */
        reader.phase = (uint8_t)any();
        reader.count = any();
        reader.scale = (uint16_t)any();
        reader.last = (uint64_t)any() << 32 | any();
    } else if (one_in(20)) {
        reader = sanirvoq_frame_reader();
    }
}

/* ---- spoiled records, wrong lengths, changes from outside ---- */

static void some_damage(void) {
    static struct sanirvoq_record kept;
    static uint8_t kept_memory[sizeof memory], kept_registers[sizeof registers];
    uint8_t *bytes = (uint8_t *)&record;
    kept = record;
    copy(kept_memory, memory, sizeof memory);
    copy(kept_registers, registers, sizeof registers);
    if (one_in(3)) {
        record.target.table.entries[below(SANIRVOQ_ENTRIES)].used ^= 1;
    } else {
        bytes[below(one_in(4) ? sizeof record : sizeof record.target)] ^= (uint8_t)(1 << below(8));
    }
    if (one_in(2)) {
        some_request();
    } else {
        some_event();
    }
    record = kept;
    copy(memory, kept_memory, sizeof memory);
    copy(registers, kept_registers, sizeof registers);
}

static void wrong_length(void) {
    if (one_in(2)) {
        lent.memory_length = below(WINDOW + 4);
    } else {
        lent.registers_length = below(AREA + 4);
    }
    if (one_in(2)) {
        some_request();
    } else {
        some_text();
    }
    lent.memory_length = WINDOW;
    lent.registers_length = AREA;
}

/* A byte of the window; where it is under a trap the record is not fit until it is put back. */
static void outside_change(void) {
    const uint32_t at = below(WINDOW), unfit = numbers[SANIRVOQ_ERR_UNFIT];
    const uint8_t kept = memory[at];
    memory[at] = (uint8_t)any();
    some_request();
    if (numbers[SANIRVOQ_ERR_UNFIT] != unfit) {
        memory[at] = kept;
    }
}

static void some_step(void) {
    const uint32_t which = below(1000);
    if (which < 430) {
        some_request();
    } else if (which < 460) {
        some_condition();
    } else if (which < 740) {
        some_event();
    } else if (which < 840) {
        some_text();
    } else if (which < 900) {
        some_packet();
    } else if (which < 930) {
        some_fields();
    } else if (which < 940) {
        some_images();
    } else if (which < 950) {
        some_patch();
    } else if (which < 970) {
        wrong_length();
    } else if (which < 985) {
        outside_change();
    } else if (which < 995) {
        some_damage();
    } else {
        try_setup();
    }
}

/* ---- the report ---- */

static void report(const char *what, uint32_t number) {
    print(" ");
    print(what);
    print(" ");
    print_number(number);
}

/* Every kind of call was made, every number that these calls have was given, and the rarer answers too. */
static int reached_all(void) {
    int all = served > 0 && stops > 0 && passes > 0 && continued > 0 && packets > 0 && text_errors > 0 &&
              protected_writes > 0 && protected_sites > 0;
    for (int i = 0; i < KINDS; i++) {
        all = all && calls[i] > 0;
    }
    for (int i = 0; i <= SANIRVOQ_ERR_FRAME; i++) {
        all = all && numbers[i] > 0;
    }
    return all && numbers[SANIRVOQ_ERR_PATCH] > 0 && numbers[SANIRVOQ_ERR_PLAN_LIST] > 0 &&
           numbers[SANIRVOQ_ERR_PROTECTED] > 0 && verdicts[SANIRVOQ_VERDICT_ACCEPTED] > 0 &&
           verdicts[SANIRVOQ_VERDICT_BROKEN_BOUND] > 0 && verdicts[SANIRVOQ_VERDICT_IMAGES_DIFFER] > 0;
}

int test(void) {
    uint32_t total = 0;
    set_up();
    for (uint32_t i = 0; i < STEPS; i++) {
        some_step();
    }
#ifdef __riscv
    print("stack:");
    for (int i = 0; i < KINDS; i++) {
        report(names[i], deepest[i]);
    }
    print("\n");
#endif
    for (int i = 0; i < KINDS; i++) {
        total += calls[i];
    }
    print("sums ");
    print_hex(sum_a);
    print_hex(sum_b);
    print(":");
    report("calls", total);
    for (int i = 0; i < KINDS; i++) {
        report(names[i], calls[i]);
    }
    print("; numbers");
    for (int i = 0; i <= SANIRVOQ_ERR_PROTECTED; i++) {
        print(" ");
        print_number(numbers[i]);
    }
    print(";");
    report("served", served), report("stops", stops), report("passes", passes), report("continued", continued);
    report("packets", packets), report("text errors", text_errors), report("protected writes", protected_writes);
    report("protected sites", protected_sites);
    report("accepted", verdicts[SANIRVOQ_VERDICT_ACCEPTED]);
    report("broken bound", verdicts[SANIRVOQ_VERDICT_BROKEN_BOUND]);
    report("images differ", verdicts[SANIRVOQ_VERDICT_IMAGES_DIFFER]);
    print("\n");
    return reached_all();
}
