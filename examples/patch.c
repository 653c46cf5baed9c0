/* A routine is patched while a breakpoint stands in it: the old and the new image, the runs that differ, the fewest
 * writes from one to the other, sent as requests over the line, and what memory holds once the breakpoint is gone.
 *
 *     gcc -std=c11 -Iinclude examples/patch.c target/staticlib/libsanirvoq.a -o target/patch && target/patch
 *
 * It prints examples/patch.txt. */
#include <stdio.h>
#include <stdlib.h>
#include <string.h>

#include "sanirvoq.h"

enum { BASE = 0x1000, SIZE = 48, SITE = 0x100a, LIMIT = 0x1020, RUNS = 8, WRITES = 8 };

/* The routine that throws glare away: points over 520 mm are glare. RISC-V, from BASE on; behind it the laser's power
 * limit, which is protected. */
static const uint8_t old_image[SIZE] = {
    0x13, 0x01, 0x01, 0xff, 0x83, 0xa7, 0x05, 0x00, 0x91, 0x05, 0x13, 0x07, 0x80, 0x20, 0x63, 0x54,
    0xf7, 0x00, 0x3e, 0x85, 0x7d, 0x16, 0x65, 0xf6, 0x41, 0x01, 0x82, 0x80, 0x01, 0x00, 0x01, 0x00,
    0x2d, 0x00, 0x00, 0x00, 0x00, 0x00, 0x00, 0x00, 0x00, 0x00, 0x00, 0x00, 0x00, 0x00, 0x00, 0x00,
};

/* Glare is 40 mm above the last point kept (addi a4, a5, 40), and the loop counts another way. */
static const struct {
    uint32_t at;
    uint8_t byte;
} new_bytes[] = {{0x0b, 0x87}, {0x0c, 0x87}, {0x0d, 0x02}, {0x14, 0xfd}, {0x15, 0x1b}, {0x1a, 0x86}};

static uint8_t memory[SIZE], registers[SANIRVOQ_BLOCK_SIZE];
static struct sanirvoq_record record;
static const struct sanirvoq_lent lent = {memory, SIZE, registers, sizeof registers};

static void expect_ok(const char *what, uint8_t number) {
    if (number != SANIRVOQ_OK) {
        printf("%s: number %u\n", what, number);
        exit(EXIT_FAILURE);
    }
}

/* A request as the host sends it; the reply has to be of the type that follows the request's. */
static struct sanirvoq_fields ask(struct sanirvoq_fields fields) {
    uint8_t request[SANIRVOQ_MESSAGE_SIZE], reply[SANIRVOQ_MESSAGE_SIZE];
    expect_ok("a message", sanirvoq_message_encode(fields, request, sizeof request));
    expect_ok("a request",
              sanirvoq_number(sanirvoq_request(&record, lent, request, sizeof request, reply, sizeof reply)));
    const struct sanirvoq_found found = sanirvoq_message_decode(reply, sizeof reply);
    expect_ok("a reply", found.number);
    if (found.fields.kind != fields.kind + 1) {
        printf("refused with reason %u\n", found.fields.code);
        exit(EXIT_FAILURE);
    }
    return found.fields;
}

static void condition(uint8_t op, uint32_t value) {
    (void)ask((struct sanirvoq_fields){.kind = SANIRVOQ_MSG_TCONDBREAK, .op = op, .value = value});
}

static void show(const char *label, const uint8_t *bytes, uint32_t count) {
    printf("%-32s", label);
    for (uint32_t i = 0; i < count; i++) {
        printf(" %02x", bytes[i]);
    }
    printf("\n");
}

static void show_runs(const uint8_t *new_image) {
    uint32_t runs[2 * RUNS];
    const struct sanirvoq_comparison found =
        sanirvoq_image_differences(old_image, SIZE, new_image, SIZE, runs, 2 * RUNS);
    expect_ok("differences", found.number);
    for (uint32_t k = 0; k < found.runs; k++) {
        printf("differs at 0x%x, %u bytes\n", (unsigned)(BASE + runs[2 * k]), (unsigned)runs[2 * k + 1]);
    }
}

/* Plans the writes, has them checked, and sends each as a Tmput. */
static void send_plan(const uint8_t *new_image) {
    struct sanirvoq_write list[WRITES];
    uint8_t room[SIZE];
    const struct sanirvoq_planning plan = sanirvoq_plan(&record, lent, new_image, SIZE, room, SIZE, list, WRITES);
    expect_ok("a plan", plan.number);
    const struct sanirvoq_verdict verdict =
        sanirvoq_check(&record, lent, list, plan.writes, new_image, SIZE, room, SIZE);
    expect_ok("a verdict", verdict.number);
    printf("the plan has %u writes: %s\n", (unsigned)plan.writes,
           verdict.verdict == SANIRVOQ_VERDICT_ACCEPTED ? "accepted" : "not accepted");
    for (uint32_t k = 0; k < plan.writes; k++) {
        char label[40];
        struct sanirvoq_fields put = {
            .kind = SANIRVOQ_MSG_TMPUT, .value = list[k].address, .n = (uint8_t)list[k].count};
        memcpy(put.bytes, list[k].bytes, sizeof list[k].bytes);
        (void)snprintf(label, sizeof label, "Tmput 0x%x n %u", (unsigned)put.value, put.n);
        show(label, put.bytes, put.n);
        (void)ask(put);
    }
}

int main(void) {
    const struct sanirvoq_setup setup = {.base = BASE,
                                         .size = SIZE,
                                         .protected_from = LIMIT,
                                         .protected_to = LIMIT + 4,
                                         .count = 1,
                                         .processes = {{5, 0x80001000}}};
    uint8_t new_image[SIZE];
    memcpy(memory, old_image, SIZE);
    memcpy(new_image, old_image, SIZE);
    for (size_t i = 0; i < sizeof new_bytes / sizeof new_bytes[0]; i++) {
        new_image[new_bytes[i].at] = new_bytes[i].byte;
    }
    expect_ok("setup", sanirvoq_setup(&record, lent, &setup));
    show_runs(new_image);
    condition('n', 3);
    condition('b', SITE);
    show("breakpoint 3 at 0x100a, memory", memory + (SITE - BASE), 4);
    send_plan(new_image);
    show("memory, the trap stands", memory + (SITE - BASE), 4);
    const struct sanirvoq_fields read =
        ask((struct sanirvoq_fields){.kind = SANIRVOQ_MSG_TMGET, .value = SITE, .n = 4});
    show("Tmget 0x100a n 4", read.bytes, 4);
    condition('d', 3);
    show("breakpoint 3 is gone, memory", memory + (SITE - BASE), 4);
    const int done = memcmp(memory, new_image, SIZE) == 0;
    printf("memory is %s\n", done ? "the new image" : "NOT the new image");
    return done ? EXIT_SUCCESS : EXIT_FAILURE;
}
