/* The calling convention of the archive, on each machine: arguments narrower than a register with other bits above
 * them, and results read as the whole register; structs of every size that the calls have, by value and as results.
 *
 * The functions are declared here a second time, with a whole register in the place of each narrow argument and
 * result. A C compiler never leaves bits above an argument, or looks at those above a result, unless the convention
 * lets it; so this is stricter than any caller in C. */
#include "machine.h"
#include "sanirvoq.h"

typedef uintptr_t whole; /* a register */
typedef sanirvoq_length length;

whole whole_frame_reply(whole sequence, const uint8_t *message, length message_length, uint8_t *buffer,
                        length buffer_length) __asm__("sanirvoq_frame_reply");
whole whole_encode(struct sanirvoq_fields fields, uint8_t *buffer, length size) __asm__("sanirvoq_message_encode");
typedef whole whole_step(struct sanirvoq_target *target, uint32_t *places, uint8_t *memory, length memory_length,
                         uint8_t *registers, length registers_length, whole pid, whole value, const uint8_t *input,
                         length input_length, uint8_t *reply, length reply_length);
whole_step whole_request __asm__("sanirvoq_step_request");
whole_step whole_trap __asm__("sanirvoq_step_trap");
whole_step whole_schedule __asm__("sanirvoq_step_schedule");
whole_step whole_state __asm__("sanirvoq_step_state");
whole_step whole_restart __asm__("sanirvoq_step_restart");
whole_step whole_text __asm__("sanirvoq_step_text");

static uint32_t checks, failures;

static void check(const char *what, int holds) {
    checks++;
    if (!holds) {
        failures++;
        print("failed: ");
        print(what);
        print("\n");
    }
}

/* A narrow value with other bits above it, where the register has any. */
static whole dirty_byte(uint8_t value) { return ~(whole)255 | value; }
#if UINTPTR_MAX > 0xffffffff
static whole dirty_word(uint32_t value) { return (whole)0xdeadbeef << 32 | value; }
#else
static whole dirty_word(uint32_t value) { return value; }
#endif

/* What a result register must hold. On x86-64 the bits above a narrow result are free. */
static int is_byte(whole result, uint8_t value) {
#ifdef __riscv
    return result == value;
#else
    return (uint8_t)result == value;
#endif
}

static int is_word(whole result, uint32_t value) {
#ifdef __riscv
    return result == (whole)(intptr_t)(int32_t)value;
#else
    return (uint32_t)result == value;
#endif
}

enum { WINDOW = 64 };
static struct sanirvoq_record record;
static uint8_t memory[WINDOW], registers[2 * SANIRVOQ_BLOCK_SIZE], block[SANIRVOQ_BLOCK_SIZE], reply[40];
static const struct sanirvoq_lent lent = {memory, WINDOW, registers, sizeof registers};

static whole step(whole_step *function, whole pid, whole value, const uint8_t *input, length input_length,
                  length reply_length) {
    return function(&record.target, record.places, memory, WINDOW, registers, sizeof registers, pid, value, input,
                    input_length, reply, reply_length);
}

static void set_up(void) {
    const struct sanirvoq_setup setup = {
        .base = 0x1000, .size = WINDOW, .protected_from = 0x1020, .protected_to = 0x1024, .count = 2,
        .processes = {{5, 0x80001000}, {0x80000007, 0x80002000}}};
    for (int i = 0; i < WINDOW; i++) {
        memory[i] = (uint8_t)(0xf0 + i);
    }
    struct sanirvoq_setup wide = setup;
    wide.protected_to |= (uint64_t)1 << 32;
    check("setup, an address over 32 bits", sanirvoq_setup(&record, lent, &wide) == 1);
    check("setup", sanirvoq_setup(&record, lent, &setup) == 0);
    check("the protected stretch", record.target.protected_offset == 0x20 && record.target.protected_length == 4);
}

static void condition(uint8_t letter, uint32_t value) {
    const struct sanirvoq_fields fields = {.kind = SANIRVOQ_MSG_TCONDBREAK, .op = letter, .value = value};
    uint8_t request[SANIRVOQ_MESSAGE_SIZE];
    check("encode", is_byte(whole_encode(fields, request, sizeof request), 0));
    check("condition", is_word(step(whole_request, dirty_word(0), dirty_byte(0), request, 10, 10), 0));
    check("served", reply[0] == SANIRVOQ_MSG_RCONDBREAK);
}

static void steps(void) {
    static const uint8_t text[] = "0x0 i 0x1004 0x0", text_reply[] = "0x0 i 0x0 0xf7f6f5f4";
    set_up();
    condition('n', 200);
    condition('k', 0x80000007);
    condition('a', 0);
    condition('b', 0x1008);
    block[134] = 0x10, block[135] = 0x08;
    /* Pass with the plain bytes f8 f9: the highest bit of 32 is set, and rv64 wants it above as well. */
    check("trap, Pass", is_word(step(whole_trap, dirty_word(5), dirty_byte(1), block, 136, 0), 0xf9f80200));
    check("trap, unlisted", is_word(step(whole_trap, dirty_word(6), dirty_byte(1), block, 136, 0), 4));
    check("trap, Stop", is_word(step(whole_trap, dirty_word(0x80000007), 0, block, 136, 0), 200u << 16 | 0x100));
    check("trap, Stopped", is_word(step(whole_trap, dirty_word(0x80000007), 0, block, 136, 0), 5));
    check("trap, size", is_word(step(whole_trap, dirty_word(5), 0, block, 135, 0), 2));
    check("schedule", is_word(step(whole_schedule, dirty_word(5), dirty_byte(9), block, 136, 0), 0));
    check("state", is_word(step(whole_state, dirty_word(5), dirty_byte(250), block, 0, 0), 0));
    check("its value", record.target.processes[0].state == 250);
    check("state, 8", is_word(step(whole_state, dirty_word(5), dirty_byte(8), block, 0, 0), 5));
    check("text", is_word(step(whole_text, dirty_word(1), dirty_byte(1), text, sizeof text - 1, 34), 20u << 16));
    for (uint32_t i = 0; i < sizeof text_reply - 1; i++) {
        check("its reply", reply[i] == text_reply[i]);
    }
    check("text, size", is_word(step(whole_text, 0, 0, text, sizeof text - 1, 33), 11));
    check("restart", is_word(step(whole_restart, dirty_word(1), dirty_byte(1), text, 0, 10), 0));
    check("its memory", memory[8] == 0xf8 && memory[9] == 0xf9);
    /* Lengths have 64 bits on every machine. */
    check("a length over 32 bits", is_word(step(whole_restart, 0, 0, text, 0, (length)1 << 32 | 10), 2));
}

static void small_results(void) {
    uint8_t buffer[SANIRVOQ_FRAME_REPLY_SIZE];
    const uint8_t message[SANIRVOQ_MESSAGE_SIZE] = {SANIRVOQ_MSG_RMPUT};
    struct sanirvoq_fields fields = {.kind = SANIRVOQ_MSG_TSTOP, .value = 0x87654321};
    check("frame reply", is_byte(whole_frame_reply(dirty_word(255), message, 10, buffer, sizeof buffer), 0));
    check("frame reply, sequence", is_byte(whole_frame_reply(256, message, 10, buffer, sizeof buffer), 12));
    check("frame reply, size", is_byte(whole_frame_reply(dirty_word(3), message, 9, buffer, sizeof buffer), 2));
    check("encode", is_byte(whole_encode(fields, reply, 10), 0));
    check("its bytes", reply[0] == SANIRVOQ_MSG_TSTOP && reply[1] == 0x87 && reply[4] == 0x21 && reply[9] == 0);
    fields.kind = 20;
    check("encode, no message", is_byte(whole_encode(fields, reply, 10), 7));
    check("encode, size", is_byte(whole_encode(fields, reply, 11), 2));
}

/* A result of 12 bytes, and one of 8 with two narrow parts. */
static void patches(void) {
    uint8_t wanted[WINDOW], room[WINDOW];
    struct sanirvoq_write list[2] = {{9, 9, {9, 9, 9, 9}}, {9, 9, {9, 9, 9, 9}}};
    set_up();
    for (int i = 0; i < WINDOW; i++) {
        wanted[i] = memory[i];
    }
    wanted[3] = 0xaa, wanted[63] = 0xbb;
    const struct sanirvoq_planning plan = sanirvoq_plan(&record, lent, wanted, WINDOW, room, WINDOW, list, 2);
    check("plan", plan.number == 0 && plan.address == 0 && plan.writes == 2);
    check("its first write", list[0].address == 0x1003 && list[0].count == 4 && list[0].bytes[0] == 0xaa);
    check("its last write", list[1].address == 0x103f && list[1].count == 1 && list[1].bytes[0] == 0xbb);
    const struct sanirvoq_verdict good = sanirvoq_check(&record, lent, list, 2, wanted, WINDOW, room, WINDOW);
    check("accepted", good.number == 0 && good.verdict == SANIRVOQ_VERDICT_ACCEPTED && good.index == 0);
    list[1].count = 2;
    const struct sanirvoq_verdict bad = sanirvoq_check(&record, lent, list, 2, wanted, WINDOW, room, WINDOW);
    check("broken", bad.number == 0 && bad.verdict == SANIRVOQ_VERDICT_BROKEN_BOUND && bad.index == 1);
    wanted[0x21] ^= 1;
    const struct sanirvoq_planning none = sanirvoq_plan(&record, lent, wanted, WINDOW, room, WINDOW, list, 2);
    check("plan, protected", none.number == 21 && none.address == 0x1021 && none.writes == 0);
}

/* Structs as arguments: 16, 20 and 24 bytes; as results: 8, 20, 24 and 48. The caller's own stay as they are. */
static void structs(void) {
    static const uint8_t text[] = "0xfedcba98 R 0x21 0x80000001";
    uint8_t bytes[SANIRVOQ_MESSAGE_SIZE], a[8] = {0}, b[8] = {0, 1, 1, 0, 0, 0, 1, 1};
    uint8_t body[SANIRVOQ_FRAME_BUFFER_SIZE], framed[SANIRVOQ_FRAME_REPLY_SIZE];
    uint32_t list[4] = {9, 9, 9, 9};
    struct sanirvoq_text_packet packet = {0xfedcba98, 'R', 0x21, 0x80000001};
    const struct sanirvoq_text_written written = sanirvoq_text_encode(packet, reply, 34);
    check("text encode", written.number == 0 && written.filled == sizeof text - 1);
    for (uint32_t i = 0; i < sizeof text - 1; i++) {
        check("its text", reply[i] == text[i]);
    }
    check("the packet stays", packet.pid == 0xfedcba98 && packet.letter == 'R' && packet.fourth == 0x80000001);
    const struct sanirvoq_text_found found = sanirvoq_text_decode(reply, written.filled);
    check("text decode", found.number == 0 && found.packet.pid == 0xfedcba98 && found.packet.letter == 'R' &&
                             found.packet.third == 0x21 && found.packet.fourth == 0x80000001);
    check("text encode, size", sanirvoq_text_encode(packet, reply, 33).number == 11);

    const struct sanirvoq_fields fields = {.kind = SANIRVOQ_MSG_TMPUT, .n = 3, .value = 0xfffffffe,
                                           .bytes = {0xaa, 0xbb, 0xcc}};
    check("encode", sanirvoq_message_encode(fields, bytes, 10) == 0);
    const struct sanirvoq_found message = sanirvoq_message_decode(bytes, 10);
    check("decode", message.number == 0 && message.fields.kind == SANIRVOQ_MSG_TMPUT && message.fields.n == 3 &&
                        message.fields.value == 0xfffffffe && message.fields.bytes[2] == 0xcc);

    const struct sanirvoq_comparison comparison = sanirvoq_image_differences(a, 8, b, 8, list, 4);
    check("images", comparison.number == 0 && comparison.runs == 2);
    check("their runs", list[0] == 1 && list[1] == 2 && list[2] == 6 && list[3] == 2);
    const struct sanirvoq_comparison narrow = sanirvoq_image_differences(a, 8, b, 8, list, 3);
    check("images, list", narrow.number == 9 && narrow.runs == 2);

    check("frame reply", sanirvoq_frame_reply(0x77, bytes, 10, framed, sizeof framed) == 0);
    const struct sanirvoq_frame_reader reader = sanirvoq_frame_reader();
    const struct sanirvoq_frame_fed half = sanirvoq_frame_feed(reader, framed, 13, body, sizeof body);
    check("half a packet", half.number == 0 && half.taken == 13 && half.answer.kind == 0);
    const struct sanirvoq_frame_fed fed = sanirvoq_frame_feed(half.reader, framed + 13, 13, body, sizeof body);
    check("a packet", fed.number == 0 && fed.taken == 13 && fed.answer.kind == SANIRVOQ_FRAME_ANSWER_PACKET &&
                          fed.answer.id == 0x8077 && fed.answer.sequence == 0x77 && fed.answer.request == 1 &&
                          fed.answer.size == 10);
    for (int i = 0; i < 10; i++) {
        check("its body", body[i] == bytes[i]);
    }
}

int test(void) {
    steps();
    small_results();
    structs();
    patches();
    print_number(checks);
    print(" checks, ");
    print_number(failures);
    print(" failed\n");
    return failures == 0;
}
