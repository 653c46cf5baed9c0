/* Text steps as a kernel in C sees them through include/sanirvoq.h: the result and the whole buffer of each. Buffers
 * are from the heap, so that valgrind sees an access past their ends. Prints what failed; the exit status is 1 then. */
#include "sanirvoq.h"

#include <stdio.h>
#include <stdlib.h>
#include <string.h>

enum { BASE = 0x1000, SIZE = 64, PROCESSES = 2, LONG = 60, FILL = 0xee };

struct kernel {
    struct sanirvoq_record record;
    struct sanirvoq_lent lent;
};

static int failed;

static void expect(int holds, const char *what) {
    if (!holds) {
        printf("%s\n", what);
        failed = 1;
    }
}

static uint8_t *lend(size_t length, uint8_t byte) {
    uint8_t *bytes = malloc(length + (length == 0));
    if (bytes == NULL) {
        exit(2);
    }
    memset(bytes, byte, length);
    return bytes;
}

static void set_up(struct kernel *kernel) {
    const struct sanirvoq_setup setup = {.base = BASE,
                                         .size = SIZE,
                                         .protected_from = BASE,
                                         .protected_to = BASE,
                                         .count = PROCESSES,
                                         .processes = {{5, 0x80001000}, {7, 0x80002000}}};
    const size_t registers = (size_t)PROCESSES * SANIRVOQ_BLOCK_SIZE;
    /* Places need no value; these are compared later. */
    memset(&kernel->record, FILL, sizeof kernel->record);
    kernel->lent = (struct sanirvoq_lent){lend(SIZE, 0), SIZE, lend(registers, 0), registers};
    for (int i = 0; i < SIZE; i++) {
        kernel->lent.memory[i] = (uint8_t)i;
    }
    expect(sanirvoq_setup(&kernel->record, kernel->lent, &setup) == SANIRVOQ_OK, "setup");
}

/* A request of ten bytes that must be served, which makes no process go on. */
static void ask(struct kernel *kernel, uint8_t type, uint32_t number, char letter) {
    const struct sanirvoq_fields fields = {.kind = type, .value = number, .op = (uint8_t)letter};
    uint8_t request[SANIRVOQ_MESSAGE_SIZE], reply[SANIRVOQ_MESSAGE_SIZE];
    expect(sanirvoq_message_encode(fields, request, sizeof request) == SANIRVOQ_OK, "a message");
    const uint32_t result =
        sanirvoq_request(&kernel->record, kernel->lent, request, sizeof request, reply, sizeof reply);
    expect(result == SANIRVOQ_OK && reply[0] == type + 1, "a request of ten bytes");
}

/* Whether a text step over a buffer of so many bytes has this number and, where it is 0, this reply with this error
 * mark, the rest of the buffer as it was. */
static int gives(struct kernel *kernel, const char *request, size_t room, uint8_t number, uint8_t error,
                 const char *text) {
    const size_t length = strlen(request), filled = strlen(text);
    uint8_t *input = lend(length, 0), *reply = lend(room, FILL), *wanted = lend(room, FILL);
    memcpy(input, request, length);
    memcpy(wanted, text, filled);
    const uint32_t result = sanirvoq_text(&kernel->record, kernel->lent, input, length, reply, room);
    const int holds = sanirvoq_number(result) == number && sanirvoq_answer(result) == error &&
                      sanirvoq_first(result) == filled && sanirvoq_second(result) == 0 &&
                      memcmp(reply, wanted, room) == 0 && memcmp(input, request, length) == 0;
    free(input);
    free(reply);
    free(wanted);
    return holds;
}

/* A request that is carried out. */
static void done(struct kernel *kernel, const char *request, const char *text) {
    expect(gives(kernel, request, SANIRVOQ_TEXT_SIZE, SANIRVOQ_OK, 0, text), request);
    expect(sanirvoq_text_decode((const uint8_t *)text, strlen(text)).packet.third == 0, text);
}

/* A request that is answered with an error; it changes nothing, the condition in hand included. */
static void fails(struct kernel *kernel, const char *request, const char *text, enum sanirvoq_errno error) {
    const struct sanirvoq_record record = kernel->record;
    uint8_t memory[SIZE], registers[PROCESSES * SANIRVOQ_BLOCK_SIZE];
    memcpy(memory, kernel->lent.memory, sizeof memory);
    memcpy(registers, kernel->lent.registers, sizeof registers);
    expect(gives(kernel, request, LONG, SANIRVOQ_OK, 1, text), request);
    const struct sanirvoq_text_packet reply = sanirvoq_text_decode((const uint8_t *)text, strlen(text)).packet;
    expect(reply.third == SANIRVOQ_TEXT_ERROR && reply.fourth == (uint32_t)error, text);
    expect(memcmp(memory, kernel->lent.memory, sizeof memory) == 0, "memory after an error");
    expect(memcmp(registers, kernel->lent.registers, sizeof registers) == 0, "registers after an error");
    expect(memcmp(record.places, kernel->record.places, sizeof record.places) == 0, "places after an error");
    const struct sanirvoq_draft *before = &record.target.table.draft, *draft = &kernel->record.target.table.draft;
    expect(before->active == draft->active && before->count == draft->count, "the condition in hand after an error");
}

static void words(struct kernel *kernel) {
    done(kernel, "0x0 i 0x1004 0x0", "0x0 i 0x0 0x7060504");
    ask(kernel, SANIRVOQ_MSG_TCONDBREAK, 3, 'n');
    ask(kernel, SANIRVOQ_MSG_TCONDBREAK, 0x1008, 'b');
    ask(kernel, SANIRVOQ_MSG_TCONDBREAK, 4, 'n');
    ask(kernel, SANIRVOQ_MSG_TCONDBREAK, 0x100a, 'b');
    done(kernel, "0x0 d 0x1008 0x0", "0x0 d 0x0 0xb0a0908");
    done(kernel, "0x0 I 0x1008 0x44332211", "0x0 I 0x0 0xb0a0908");
    expect(memcmp(kernel->lent.memory + 8, "\x02\x90\x02\x90", 4) == 0, "two traps after a write across them");
    ask(kernel, SANIRVOQ_MSG_TCONDBREAK, 3, 'd');
    expect(memcmp(kernel->lent.memory + 8, "\x11\x22\x02\x90", 4) == 0, "memory after the first has gone");
    done(kernel, "0x0 D 0x1008 0x88776655", "0x0 D 0x0 0x44332211");
    expect(memcmp(kernel->lent.memory + 8, "\x55\x66\x02\x90", 4) == 0, "one trap after a write across it");
    done(kernel, "0x0 i 0x103c 0xffffffff", "0x0 i 0x0 0x3f3e3d3c");
}

static void errors(struct kernel *kernel) {
    ask(kernel, SANIRVOQ_MSG_TCONDBREAK, 9, 'n');
    ask(kernel, SANIRVOQ_MSG_TCONDBREAK, 1, 'p');
    fails(kernel, "0x7 c 0x1 0x0", "0x7 c 0xffffffff 0x16", SANIRVOQ_ERRNO_EINVAL);
    fails(kernel, "0x0 s 0x1 0x0", "0x0 s 0xffffffff 0x16", SANIRVOQ_ERRNO_EINVAL);
    fails(kernel, "0xffffffff I 0x1 0x0", "0xffffffff I 0xffffffff 0x3", SANIRVOQ_ERRNO_ESRCH);
    fails(kernel, "0x0 I 0x1041 0x0", "0x0 I 0xffffffff 0x16", SANIRVOQ_ERRNO_EINVAL);
    fails(kernel, "0x0 d 0x2 0x0", "0x0 d 0xffffffff 0x16", SANIRVOQ_ERRNO_EINVAL);
    fails(kernel, "0x0 D 0x1040 0x0", "0x0 D 0xffffffff 0xe", SANIRVOQ_ERRNO_EFAULT);
    fails(kernel, "0x0 i 0xfffffffc 0x0", "0x0 i 0xffffffff 0xe", SANIRVOQ_ERRNO_EFAULT);
    fails(kernel, "0x0 r 0x22 0x0", "0x0 r 0xffffffff 0x16", SANIRVOQ_ERRNO_EINVAL);
    fails(kernel, "0x0 R 0x0 0x1", "0x0 R 0xffffffff 0x16", SANIRVOQ_ERRNO_EINVAL);
    fails(kernel, "0x0 R 0x1 0x1", "0x0 R 0xffffffff 0x3", SANIRVOQ_ERRNO_ESRCH);
    ask(kernel, SANIRVOQ_MSG_TPROC, 7, 0);
    fails(kernel, "0x0 r 0x21 0x0", "0x0 r 0xffffffff 0x10", SANIRVOQ_ERRNO_EBUSY);
}

/* Process 7, which is current, is stopped first. */
static void registers(struct kernel *kernel) {
    uint8_t block[SANIRVOQ_BLOCK_SIZE] = {0, 0, 0, 1};
    block[SANIRVOQ_BLOCK_SIZE - 2] = 0x10;
    ask(kernel, SANIRVOQ_MSG_TSTOP, 7, 0);
    const uint32_t result = sanirvoq_schedule(&kernel->record, kernel->lent, 7, block, sizeof block);
    expect(sanirvoq_number(result) == SANIRVOQ_OK && sanirvoq_answer(result) == 1, "process 7 stops");
    done(kernel, "0x0 r 0x0 0x0", "0x0 r 0x0 0x1");
    done(kernel, "0x0 r 0x21 0x0", "0x0 r 0x0 0x1000");
    done(kernel, "0x0 R 0x21 0x1020304", "0x0 R 0x0 0x1000");
    expect(memcmp(kernel->lent.registers + 268, "\x01\x02\x03\x04", 4) == 0, "pc, high-order first");
    done(kernel, "0x0 R 0x20 0xffffffff", "0x0 R 0x0 0x0");
    done(kernel, "0x0 r 0x20 0x0", "0x0 r 0x0 0xffffffff");
    /* An address below 136 is no register here. */
    fails(kernel, "0x0 d 0x84 0x0", "0x0 d 0xffffffff 0xe", SANIRVOQ_ERRNO_EFAULT);
    fails(kernel, "0x0 I 0x4 0x0", "0x0 I 0xffffffff 0xe", SANIRVOQ_ERRNO_EFAULT);
}

static void numbers(struct kernel *kernel) {
    const char *whole = "0x0 D 0x1000 0x1", *none = "0x0 D 0x01000 0x1";
    expect(gives(kernel, none, SANIRVOQ_TEXT_SIZE - 1, SANIRVOQ_ERR_TEXT_BUFFER, 0, ""), "33 bytes, no packet");
    expect(gives(kernel, whole, 0, SANIRVOQ_ERR_TEXT_BUFFER, 0, ""), "no byte");
    expect(gives(kernel, none, SANIRVOQ_TEXT_SIZE, SANIRVOQ_ERR_NO_PACKET, 0, ""), "no packet");
    expect(gives(kernel, "", SANIRVOQ_TEXT_SIZE, SANIRVOQ_ERR_NO_PACKET, 0, ""), "nothing at all");
    expect(kernel->lent.memory[0] == 0 && kernel->lent.memory[1] == 1, "memory after 10 and 11");
    kernel->lent.memory[10] = 0;
    expect(gives(kernel, none, 0, SANIRVOQ_ERR_UNFIT, 0, ""), "a trap gone");
    kernel->lent.memory_length--;
    expect(gives(kernel, none, 0, SANIRVOQ_ERR_SIZE, 0, ""), "memory of 63 bytes");
    kernel->lent.memory_length++;
    kernel->lent.registers_length--;
    expect(gives(kernel, whole, LONG, SANIRVOQ_ERR_SIZE, 0, ""), "registers of 271 bytes");
    kernel->lent.registers_length++;
    kernel->lent.memory[10] = 0x02;
    expect(gives(kernel, whole, LONG, SANIRVOQ_OK, 0, "0x0 D 0x0 0x3020100"), "all as it should be");
}

int main(void) {
    struct kernel kernel;
    set_up(&kernel);
    words(&kernel);
    errors(&kernel);
    registers(&kernel);
    numbers(&kernel);
    free(kernel.lent.memory);
    free(kernel.lent.registers);
    return failed;
}
