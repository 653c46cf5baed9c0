/* Runs the steps of tests/text_step_vectors.py over the worked setup, through include/sanirvoq.h. Reads steps from
 * standard input and writes each answer to standard output, both as raw bytes; numbers of four bytes are high-order
 * first:
 *
 *     0   begin anew                                        nothing
 *     1   request[10]                                       number, reply[10]
 *     3   schedule pid[4] block[136]                        number, 1 yes or 0 no
 *     5   restart                                           number, reply[10]
 *     6   text room[4] length[4] request[length]            number, error, filled, buffer[room]
 *     7   look                                              memory[64], registers[272]
 *     8   begin anew, protected from[8] to[8]               nothing
 *
 * A refused step of kind 1, 3 or 5 writes its number only. Another kind, or a step that is cut short, ends it with exit
 * status 1. */
#include "sanirvoq.h"

#include <stdio.h>
#include <stdlib.h>
#include <string.h>

enum { BASE = 0x1000, SIZE = 64, PROCESSES = 2, AREA = PROCESSES * SANIRVOQ_BLOCK_SIZE };
enum { LONGEST = 1 << 16, FILL = 0xee };

static uint8_t memory[SIZE], registers[AREA];
static const struct sanirvoq_lent lent = {memory, SIZE, registers, AREA};
static struct sanirvoq_record record;

static void stop_unless(int holds, const char *what) {
    if (!holds) {
        fprintf(stderr, "%s\n", what);
        exit(EXIT_FAILURE);
    }
}

static void take(uint8_t *bytes, size_t length) {
    stop_unless(fread(bytes, 1, length, stdin) == length, "a step is cut short");
}

static uint32_t take_word(void) {
    uint8_t b[4];
    take(b, sizeof b);
    return (uint32_t)b[0] << 24 | (uint32_t)b[1] << 16 | (uint32_t)b[2] << 8 | b[3];
}

static void give(const uint8_t *bytes, size_t length) { fwrite(bytes, 1, length, stdout); }

/* The number, and where that is 0 what follows. */
static void give_answer(uint8_t number, const uint8_t *bytes, size_t length) {
    give(&number, 1);
    give(bytes, number == SANIRVOQ_OK ? length : 0);
}

static void set_up(uint64_t from, uint64_t to) {
    const struct sanirvoq_setup setup = {.base = BASE,
                                         .size = SIZE,
                                         .protected_from = from,
                                         .protected_to = to,
                                         .count = PROCESSES,
                                         .processes = {{5, 0x80001000}, {7, 0x80002000}}};
    memset(registers, 0, AREA);
    for (int i = 0; i < SIZE; i++) {
        memory[i] = (uint8_t)i;
    }
    stop_unless(sanirvoq_setup(&record, lent, &setup) == SANIRVOQ_OK, "setup");
}

static void begin(void) { set_up(BASE, BASE); }

static uint64_t take_wide(void) {
    const uint64_t high = take_word();
    return high << 32 | take_word();
}

static void protect(void) {
    const uint64_t from = take_wide();
    set_up(from, take_wide());
}

static void request(void) {
    uint8_t bytes[SANIRVOQ_MESSAGE_SIZE], reply[SANIRVOQ_MESSAGE_SIZE];
    take(bytes, sizeof bytes);
    const uint32_t result = sanirvoq_request(&record, lent, bytes, sizeof bytes, reply, sizeof reply);
    stop_unless(sanirvoq_answer(result) == 0, "a process goes on at a breakpoint, which these steps have not");
    give_answer(sanirvoq_number(result), reply, sizeof reply);
}

static void schedule(void) {
    uint8_t block[SANIRVOQ_BLOCK_SIZE];
    const uint32_t pid = take_word();
    take(block, sizeof block);
    const uint32_t result = sanirvoq_schedule(&record, lent, pid, block, sizeof block);
    const uint8_t yes = sanirvoq_answer(result);
    give_answer(sanirvoq_number(result), &yes, 1);
}

static void restart(void) {
    uint8_t reply[SANIRVOQ_MESSAGE_SIZE];
    give_answer(sanirvoq_restart(&record, lent, reply, sizeof reply), reply, sizeof reply);
}

/* Its buffers are from the heap and as long as they are said to be, so that valgrind sees an access past their ends. */
static void text(void) {
    const uint32_t room = take_word(), length = take_word();
    stop_unless(room <= LONGEST && length <= LONGEST, "a text step is too long");
    uint8_t *bytes = malloc(length + (length == 0)), *reply = malloc(room + (room == 0));
    stop_unless(bytes != NULL && reply != NULL, "no memory");
    take(bytes, length);
    memset(reply, FILL, room);
    const uint32_t result = sanirvoq_text(&record, lent, bytes, length, reply, room);
    const uint8_t answer[3] = {sanirvoq_number(result), sanirvoq_answer(result), sanirvoq_first(result)};
    give(answer, sizeof answer);
    give(reply, room);
    free(bytes);
    free(reply);
}

static void look(void) {
    give(memory, SIZE);
    give(registers, AREA);
}

int main(void) {
    static void (*const steps[])(void) = {begin, request, NULL, schedule, NULL, restart, text, look, protect};
    const int kinds = sizeof steps / sizeof steps[0];
    for (int kind = getchar(); kind != EOF; kind = getchar()) {
        stop_unless(kind < kinds && steps[kind] != NULL, "another kind");
        steps[kind]();
    }
    return EXIT_SUCCESS;
}
