/* Answers the calls of tests/patch_calls.py through include/sanirvoq.h: a setup with a protected stretch, requests and
 * state events, then a check of an offer or a plan over the session's window. Reads calls from standard input and
 * writes what each answers to standard output; that script has the format. Input that is not whole calls ends it with
 * exit status 1. Every buffer is from the heap and as long as it is said to be, so that valgrind sees an access past
 * its end. */
#include "sanirvoq.h"

#include <stdio.h>
#include <stdlib.h>
#include <string.h>

enum { REQUEST = 1, STATE = 4, CHECK = 12, PLAN = 13, FILL = 0xee, LONGEST = 1 << 20 };

static struct sanirvoq_record record;
static struct sanirvoq_lent lent;

static void stop_unless(int holds, const char *what) {
    if (!holds) {
        fprintf(stderr, "%s\n", what);
        exit(EXIT_FAILURE);
    }
}

static uint8_t *buffer(uint64_t length) {
    stop_unless(length <= LONGEST, "a buffer is too long");
    uint8_t *bytes = malloc(length + (length == 0));
    stop_unless(bytes != NULL, "no memory");
    memset(bytes, FILL, length);
    return bytes;
}

static void take(void *bytes, size_t length) {
    stop_unless(fread(bytes, 1, length, stdin) == length, "a call is cut short");
}

static uint32_t take_word(void) {
    uint8_t b[4];
    take(b, sizeof b);
    return (uint32_t)b[0] << 24 | (uint32_t)b[1] << 16 | (uint32_t)b[2] << 8 | b[3];
}

static uint64_t take_wide(void) {
    const uint64_t high = take_word();
    return high << 32 | take_word();
}

static void give(const void *bytes, size_t length) { fwrite(bytes, 1, length, stdout); }

static void give_number(uint8_t number) { give(&number, 1); }

static void give_word(uint32_t word) {
    const uint8_t b[4] = {(uint8_t)(word >> 24), (uint8_t)(word >> 16), (uint8_t)(word >> 8), (uint8_t)word};
    give(b, sizeof b);
}

/* A memory of which byte i is i, and a register area of zeros. */
static uint8_t set_up(void) {
    struct sanirvoq_setup setup = {.base = take_word()};
    setup.size = take_word();
    setup.protected_from = take_wide();
    setup.protected_to = take_wide();
    setup.count = take_word();
    for (int i = 0; i < 4; i++) {
        setup.processes[i].pid = take_word();
        setup.processes[i].address = take_word();
    }
    const uint64_t area = (uint64_t)setup.count * SANIRVOQ_BLOCK_SIZE;
    lent = (struct sanirvoq_lent){buffer(setup.size), setup.size, buffer(area), area};
    memset(lent.registers, 0, area);
    for (uint32_t i = 0; i < setup.size; i++) {
        lent.memory[i] = (uint8_t)i;
    }
    return sanirvoq_setup(&record, lent, &setup);
}

/* A step, and its answer: the number, and of an accepted request the reply. How many bytes it took. */
static uint32_t step(const uint8_t *bytes, uint32_t length) {
    if (bytes[0] == REQUEST) {
        uint8_t reply[SANIRVOQ_MESSAGE_SIZE];
        stop_unless(length > SANIRVOQ_MESSAGE_SIZE, "a request is cut short");
        const uint8_t number = sanirvoq_number(
            sanirvoq_request(&record, lent, bytes + 1, SANIRVOQ_MESSAGE_SIZE, reply, sizeof reply));
        give_number(number);
        give(reply, number == SANIRVOQ_OK ? sizeof reply : 0);
        return 1 + SANIRVOQ_MESSAGE_SIZE;
    }
    stop_unless(bytes[0] == STATE && length > 5, "another step");
    const uint32_t pid = (uint32_t)bytes[1] << 24 | (uint32_t)bytes[2] << 16 | (uint32_t)bytes[3] << 8 | bytes[4];
    give_number(sanirvoq_state(&record, lent, pid, bytes[5]));
    return 6;
}

static void run(const uint8_t *steps, uint32_t length) {
    for (uint32_t at = 0; at < length;) {
        at += step(steps + at, length - at);
    }
}

static void take_write(struct sanirvoq_write *write) {
    write->address = take_word();
    write->count = take_word();
    take(write->bytes, sizeof write->bytes);
}

static void give_verdict(struct sanirvoq_verdict found) {
    give_number(found.number);
    if (found.number == SANIRVOQ_OK) {
        give_number(found.verdict);
        give_word(found.index);
    }
}

static void give_plan(struct sanirvoq_planning plan, const struct sanirvoq_write *list, uint32_t length) {
    give_number(plan.number);
    give_word(plan.address);
    give_word(plan.writes);
    for (uint32_t k = 0; k < length; k++) {
        give_word(list[k].address);
        give_word(list[k].count);
        give(list[k].bytes, sizeof list[k].bytes);
    }
}

static void call(int kind) {
    const uint8_t number = set_up();
    const uint32_t step_bytes = take_word(), room = take_word(), size = take_word(), writes = take_word();
    uint8_t *steps = buffer(step_bytes), *plain = buffer(room), *wanted = buffer(size);
    struct sanirvoq_write *list = (void *)buffer((uint64_t)writes * sizeof *list);
    take(steps, step_bytes);
    take(wanted, size);
    for (uint32_t k = 0; kind == CHECK && k < writes; k++) {
        take_write(&list[k]);
    }
    give_number(number);
    if (number == SANIRVOQ_OK) {
        run(steps, step_bytes);
        if (kind == CHECK) {
            give_verdict(sanirvoq_check(&record, lent, list, writes, wanted, size, plain, room));
        } else {
            give_plan(sanirvoq_plan(&record, lent, wanted, size, plain, room, list, writes), list, writes);
        }
    }
    free(steps);
    free(plain);
    free(wanted);
    free(list);
    free(lent.memory);
    free(lent.registers);
}

int main(void) {
    for (int kind = getchar(); kind != EOF; kind = getchar()) {
        stop_unless(kind == CHECK || kind == PLAN, "another kind");
        call(kind);
    }
    return EXIT_SUCCESS;
}
