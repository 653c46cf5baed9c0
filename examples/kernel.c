/* A small kernel in C with the debug stub in it: a debug session from the setup to the restart and behind it, step by
 * step. rust/sanirvoq/examples/kernel.rs is the same in Rust and prints the same text, which is kept in kernel.txt. */
#include "sanirvoq.h"

#include <stdio.h>
#include <stdlib.h>
#include <string.h>

enum { BASE = 0x1000, SIZE = 64, SITE = 0x1008, SHOWN = 8 };
enum { LIMIT = 0x1038 };                         /* where the word of the laser's power limit is */
enum { PC = SANIRVOQ_BLOCK_SIZE - 4, TRAP = 2 }; /* where pc is in a block, and the bytes of a trap */
enum { LABEL = 32 };                             /* bytes of a line's label */

static const struct sanirvoq_setup setup = {.base = BASE,
                                            .size = SIZE,
                                            .protected_from = LIMIT,
                                            .protected_to = LIMIT + 4,
                                            .count = 2,
                                            .processes = {{5, 0x80001000}, {7, 0x80002000}}};

struct kernel {
    struct sanirvoq_record record;
    struct sanirvoq_lent lent;
    struct sanirvoq_frame_reader reader; /* of the line */
    uint8_t body[SANIRVOQ_FRAME_BUFFER_SIZE];
};

/* ---- the kernel's side ---- */

/* Ends the program where something that should be accepted is not. */
static void expect_ok(const char *what, uint8_t number) {
    if (number != SANIRVOQ_OK) {
        fprintf(stderr, "%s: number %u\n", what, number);
        exit(EXIT_FAILURE);
    }
}

/* From the heap, so that valgrind sees an access past the end. */
static uint8_t *lend(size_t length) {
    uint8_t *bytes = calloc(length, 1);
    if (bytes == NULL) {
        fprintf(stderr, "no memory\n");
        exit(EXIT_FAILURE);
    }
    return bytes;
}

static void put_word(uint8_t *bytes, uint32_t word) {
    for (int i = 0; i < 4; i++) {
        bytes[i] = (uint8_t)(word >> (24 - 8 * i));
    }
}

static uint32_t get_word(const uint8_t *bytes) {
    uint32_t word = 0;
    for (int i = 0; i < 4; i++) {
        word = word << 8 | bytes[i];
    }
    return word;
}

/* A process's block of the register area. This kernel keeps the registers there while the process runs, too. */
static uint8_t *block_of(const struct kernel *kernel, uint32_t pid) {
    const int is_first = pid == setup.processes[0].pid;
    return kernel->lent.registers + (is_first ? 0 : SANIRVOQ_BLOCK_SIZE);
}

static void set_up(struct kernel *kernel) {
    const size_t registers = setup.count * SANIRVOQ_BLOCK_SIZE;
    kernel->lent = (struct sanirvoq_lent){lend(SIZE), SIZE, lend(registers), registers};
    kernel->reader = sanirvoq_frame_reader();
    for (int i = 0; i < SIZE; i++) {
        kernel->lent.memory[i] = (uint8_t)i;
    }
    expect_ok("setup", sanirvoq_setup(&kernel->record, kernel->lent, &setup));
    for (uint32_t p = 0; p < setup.count; p++) {
        const uint32_t pid = setup.processes[p].pid;
        /* A register has 0x100 times its number, plus the pid. */
        for (uint32_t i = 1; i < 32; i++) {
            put_word(block_of(kernel, pid) + 4 * i, 0x100 * i + pid);
        }
    }
}

static void take_down(struct kernel *kernel) {
    free(kernel->lent.memory);
    free(kernel->lent.registers);
}

/* What a process has in its registers when it comes to a pc. */
static void come_to(const struct kernel *kernel, uint32_t pid, uint32_t pc, uint8_t *block) {
    memcpy(block, block_of(kernel, pid), SANIRVOQ_BLOCK_SIZE);
    put_word(block + PC, pc);
}

/* ---- lines of text ---- */

static void print_bytes(const uint8_t *bytes, size_t length) {
    for (size_t i = 0; i < length; i++) {
        printf(i == 0 ? "%02x" : " %02x", bytes[i]);
    }
}

static void print_label(const char *label) { printf("  %-30s ", label); }

static void show_memory_at(const struct kernel *kernel, uint32_t address) {
    char label[LABEL];
    snprintf(label, sizeof label, "memory at 0x%x", (unsigned)address);
    print_label(label);
    print_bytes(kernel->lent.memory + (address - BASE), SHOWN);
    printf("\n");
}

static void show_memory(const struct kernel *kernel) { show_memory_at(kernel, SITE); }

/* ---- requests ---- */

/* A process goes on at a breakpoint, where memory holds the trap: the kernel runs the bytes under it elsewhere, with
 * the registers of the process's block, and lets the process go on behind them. */
static void go_on(struct kernel *kernel, uint32_t pid, uint8_t first, uint8_t second) {
    uint8_t *pc = block_of(kernel, pid) + PC;
    char label[LABEL];
    put_word(pc, get_word(pc) + TRAP);
    snprintf(label, sizeof label, "process %u goes on", (unsigned)pid);
    print_label(label);
    printf("the kernel runs %02x %02x elsewhere, then on from 0x%x\n", first, second, (unsigned)get_word(pc));
}

/* Hands a request to the stub and shows it and its reply. Gives the number. */
static uint8_t serve(struct kernel *kernel, const char *label, const uint8_t *request, uint8_t *reply) {
    const uint32_t result =
        sanirvoq_request(&kernel->record, kernel->lent, request, SANIRVOQ_MESSAGE_SIZE, reply, SANIRVOQ_MESSAGE_SIZE);
    const uint8_t number = sanirvoq_number(result);
    print_label(label);
    print_bytes(request, SANIRVOQ_MESSAGE_SIZE);
    if (number != SANIRVOQ_OK) {
        printf(" -> refused with number %u\n", number);
        return number;
    }
    printf(" -> ");
    print_bytes(reply, SANIRVOQ_MESSAGE_SIZE);
    const struct sanirvoq_found found = sanirvoq_message_decode(reply, SANIRVOQ_MESSAGE_SIZE);
    expect_ok("the reply is a message", found.number);
    switch (found.fields.kind) {
    case SANIRVOQ_MSG_RERR:
    case SANIRVOQ_MSG_RPROC:
    case SANIRVOQ_MSG_RSTATUS:
        printf("  %.9s", (const char *)(reply + 1));
    }
    printf("\n");
    if (sanirvoq_answer(result) == SANIRVOQ_ANSWER_PASS) {
        go_on(kernel, get_word(request + 1), sanirvoq_first(result), sanirvoq_second(result));
    }
    return number;
}

/* The engineer's side: a request by its fields. */
static uint8_t send_request(struct kernel *kernel, const char *label, struct sanirvoq_fields fields) {
    uint8_t request[SANIRVOQ_MESSAGE_SIZE], reply[SANIRVOQ_MESSAGE_SIZE];
    expect_ok(label, sanirvoq_message_encode(fields, request, sizeof request));
    return serve(kernel, label, request, reply);
}

static void ask_process(struct kernel *kernel, const char *label, uint8_t type, uint32_t pid) {
    expect_ok(label, send_request(kernel, label, (struct sanirvoq_fields){.kind = type, .value = pid}));
}

static void read_bytes(struct kernel *kernel, const char *label, uint32_t address, uint8_t n) {
    const struct sanirvoq_fields fields = {.kind = SANIRVOQ_MSG_TMGET, .value = address, .n = n};
    expect_ok(label, send_request(kernel, label, fields));
}

static void write_four(struct kernel *kernel, const char *label, uint32_t address, uint32_t word) {
    struct sanirvoq_fields fields = {.kind = SANIRVOQ_MSG_TMPUT, .value = address, .n = 4};
    put_word(fields.bytes, word);
    expect_ok(label, send_request(kernel, label, fields));
}

static void condition(struct kernel *kernel, const char *label, char letter, uint32_t value) {
    const struct sanirvoq_fields fields = {.kind = SANIRVOQ_MSG_TCONDBREAK, .value = value, .op = (uint8_t)letter};
    expect_ok(label, send_request(kernel, label, fields));
}

/* Sends a request of the text dialect, and shows it and its reply. */
static void ask_text(struct kernel *kernel, char letter, uint32_t address, uint32_t data) {
    const struct sanirvoq_text_packet packet = {0, (uint8_t)letter, address, data};
    uint8_t request[SANIRVOQ_TEXT_SIZE], reply[SANIRVOQ_TEXT_SIZE];
    const struct sanirvoq_text_written written = sanirvoq_text_encode(packet, request, sizeof request);
    expect_ok("a text", written.number);
    const uint32_t result = sanirvoq_text(&kernel->record, kernel->lent, request, written.filled, reply, sizeof reply);
    expect_ok("a text request", sanirvoq_number(result));
    const uint8_t filled = sanirvoq_first(result);
    print_label("text");
    printf("%.*s -> %.*s", (int)written.filled, (const char *)request, (int)filled, (const char *)reply);
    if (sanirvoq_answer(result) == SANIRVOQ_ANSWER_TEXT_ERROR) {
        printf("  errno %u", (unsigned)sanirvoq_text_decode(reply, filled).packet.fourth);
    }
    printf("\n");
}

/* ---- events ---- */

/* A process comes to a pc where memory holds a trap. */
static void run_into_trap(struct kernel *kernel, uint32_t pid, uint32_t pc) {
    uint8_t block[SANIRVOQ_BLOCK_SIZE];
    char label[LABEL];
    come_to(kernel, pid, pc, block);
    const uint32_t result = sanirvoq_trap(&kernel->record, kernel->lent, pid, block, sizeof block);
    snprintf(label, sizeof label, "trap of %u at 0x%x", (unsigned)pid, (unsigned)pc);
    print_label(label);
    if (sanirvoq_number(result) != SANIRVOQ_OK) {
        printf("refused with number %u\n", sanirvoq_number(result));
    } else if (sanirvoq_answer(result) == SANIRVOQ_ANSWER_STOP) {
        printf("Stop by breakpoint %u\n", sanirvoq_first(result));
    } else {
        printf("Pass: the kernel runs %02x %02x elsewhere\n", sanirvoq_first(result), sanirvoq_second(result));
    }
}

static void about_to_run(struct kernel *kernel, uint32_t pid) {
    uint8_t block[SANIRVOQ_BLOCK_SIZE];
    char label[LABEL];
    come_to(kernel, pid, BASE, block);
    const uint32_t result = sanirvoq_schedule(&kernel->record, kernel->lent, pid, block, sizeof block);
    expect_ok("schedule", sanirvoq_number(result));
    snprintf(label, sizeof label, "schedule of %u", (unsigned)pid);
    print_label(label);
    printf("%s\n", sanirvoq_answer(result) == SANIRVOQ_ANSWER_STOP ? "yes: it stops" : "no: it runs");
}

/* ---- the line ---- */

/* A request in a packet: serves it and shows the framed reply. */
static void answer_packet(struct kernel *kernel, uint8_t sequence) {
    uint8_t reply[SANIRVOQ_MESSAGE_SIZE], framed[SANIRVOQ_FRAME_REPLY_SIZE];
    expect_ok("a framed request", serve(kernel, "request in a packet", kernel->body, reply));
    expect_ok("a framed reply", sanirvoq_frame_reply(sequence, reply, sizeof reply, framed, sizeof framed));
    print_label("framed reply");
    print_bytes(framed, sizeof framed);
    printf("\n");
}

/* Bytes came over the line. */
static void receive(struct kernel *kernel, const uint8_t *piece, size_t length) {
    size_t at = 0;
    while (at < length) {
        const struct sanirvoq_frame_fed fed =
            sanirvoq_frame_feed(kernel->reader, piece + at, length - at, kernel->body, sizeof kernel->body);
        expect_ok("a piece of the line", fed.number);
        kernel->reader = fed.reader;
        at += (size_t)fed.taken;
        if (fed.answer.kind == SANIRVOQ_FRAME_ANSWER_PACKET && fed.answer.request == 1) {
            answer_packet(kernel, fed.answer.sequence);
        } else if (fed.answer.kind == SANIRVOQ_FRAME_ANSWER_BAD_BODY) {
            print_label("bad packet");
            printf("sequence %u: no reply, the host sends it again\n", fed.answer.sequence);
        }
    }
}

/* ---- the session ---- */

static void set_breakpoints(struct kernel *kernel) {
    printf("She sets breakpoint 4 at 0x1008 for process 7 only, and 9 at 0x100c for all.\n");
    condition(kernel, "Tcondbreak n 4", 'n', 4);
    condition(kernel, "Tcondbreak k 7", 'k', 7);
    condition(kernel, "Tcondbreak a", 'a', 0);
    condition(kernel, "Tcondbreak b 0x1008", 'b', SITE);
    condition(kernel, "Tcondbreak n 9", 'n', 9);
    condition(kernel, "Tcondbreak b 0x100c", 'b', 0x100c);
    show_memory(kernel);
}

static void patch(struct kernel *kernel) {
    printf("She writes across both traps. The traps stand, and she reads what she wrote.\n");
    write_four(kernel, "Tmput 0x1009 n 4 aa bb cc dd", 0x1009, 0xaabbccdd);
    show_memory(kernel);
    read_bytes(kernel, "Tmget 0x1008 n 8", SITE, 8);
}

static void stop_one(struct kernel *kernel) {
    printf("Both processes come to 0x1008: 5 runs on over the new bytes, 7 stops.\n");
    run_into_trap(kernel, 5, SITE);
    run_into_trap(kernel, 7, SITE);
    printf("She changes register 10 of process 7 and starts it. Breakpoint 4 stands.\n");
    ask_process(kernel, "Tproc 7", SANIRVOQ_MSG_TPROC, 7);
    read_bytes(kernel, "Tmget 0x28 n 4", 0x28, 4);
    write_four(kernel, "Tmput 0x28 n 4 00 00 00 63", 0x28, 0x63);
    ask_process(kernel, "Tstart 7", SANIRVOQ_MSG_TSTART, 7);
    show_memory(kernel);
    printf("Process 7 comes to 0x1008 again and stops again, with the register that she changed.\n");
    run_into_trap(kernel, 7, SITE);
    read_bytes(kernel, "Tmget 0x28 n 4", 0x28, 4);
    printf("She removes breakpoint 4 and starts process 7, which now just goes on.\n");
    condition(kernel, "Tcondbreak d 4", 'd', 4);
    ask_process(kernel, "Tstart 7", SANIRVOQ_MSG_TSTART, 7);
    show_memory(kernel);
}

static void stop_other(struct kernel *kernel) {
    printf("She wants process 5 stopped. It stops when the kernel is about to run it.\n");
    ask_process(kernel, "Tstop 5", SANIRVOQ_MSG_TSTOP, 5);
    about_to_run(kernel, 7);
    about_to_run(kernel, 5);
    ask_process(kernel, "Tstatus 5", SANIRVOQ_MSG_TSTATUS, 5);
    printf("The kernel gives process 7 the state Running.\n");
    expect_ok("state", sanirvoq_state(&kernel->record, kernel->lent, 7, SANIRVOQ_STATE_RUNNING));
    ask_process(kernel, "Tstatus 7", SANIRVOQ_MSG_TSTATUS, 7);
}

static void speak_text(struct kernel *kernel) {
    printf("Her bench debugger speaks text. Four bytes are one word, the lowest first.\n");
    ask_text(kernel, 'i', 0x1004, 0);
    printf("It writes the word at 0x100c, under breakpoint 9. The answer is the word before.\n");
    ask_text(kernel, 'D', 0x100c, 0x0f0e0dee);
    ask_text(kernel, 'd', 0x100c, 0);
    show_memory(kernel);
    printf("It asks for the pc: process 7 is current and runs, process 5 is stopped.\n");
    ask_text(kernel, 'r', 33, 0);
    ask_process(kernel, "Tproc 5", SANIRVOQ_MSG_TPROC, 5);
    ask_text(kernel, 'r', 33, 0);
    ask_text(kernel, 'R', 10, 0x63);
    ask_text(kernel, 'r', 10, 0);
}

static void be_refused(struct kernel *kernel) {
    printf("A write that leaves the window is refused; so is a trap of a stopped process.\n");
    write_four(kernel, "Tmput 0x103e n 4 01 02 03 04", 0x103e, 0x01020304);
    run_into_trap(kernel, 5, SITE);
}

static void keep_off_the_limit(struct kernel *kernel) {
    printf("The laser's power limit at 0x1038 is protected. She reads it, and cannot change it.\n");
    read_bytes(kernel, "Tmget 0x1038 n 4", LIMIT, 4);
    write_four(kernel, "Tmput 0x1035 n 4 ff ff ff ff", 0x1035, 0xffffffff);
    condition(kernel, "Tcondbreak n 6", 'n', 6);
    condition(kernel, "Tcondbreak b 0x103a", 'b', 0x103a);
    ask_text(kernel, 'D', LIMIT, 0xffffffff);
    ask_text(kernel, 'd', LIMIT, 0);
}

static void speak_in_frames(struct kernel *kernel) {
    /* Requests are framed as replies are. */
    const struct sanirvoq_fields fields = {.kind = SANIRVOQ_MSG_TMGET, .value = SITE, .n = 8};
    uint8_t request[SANIRVOQ_MESSAGE_SIZE], packet[SANIRVOQ_FRAME_REPLY_SIZE];
    expect_ok("Tmget", sanirvoq_message_encode(fields, request, sizeof request));
    expect_ok("a packet", sanirvoq_frame_reply(7, request, sizeof request, packet, sizeof packet));
    printf("The line is noisy. A packet comes with a wrong bit, then whole and in two pieces.\n");
    packet[15] ^= 4;
    receive(kernel, packet, sizeof packet);
    packet[15] ^= 4;
    receive(kernel, packet, 11);
    receive(kernel, packet + 11, sizeof packet - 11);
}

static void restart(struct kernel *kernel) {
    uint8_t reply[SANIRVOQ_MESSAGE_SIZE];
    printf("The kernel begins the session anew. The last trap goes, what she wrote stays.\n");
    show_memory(kernel);
    expect_ok("restart", sanirvoq_restart(&kernel->record, kernel->lent, reply, sizeof reply));
    print_label("restart");
    print_bytes(reply, sizeof reply);
    printf("  %.9s\n", (const char *)(reply + 1));
    show_memory(kernel);
}

static void compare(const struct kernel *kernel) {
    uint8_t image[SIZE];
    uint32_t runs[SIZE];
    for (int i = 0; i < SIZE; i++) {
        image[i] = (uint8_t)i;
    }
    const struct sanirvoq_comparison found =
        sanirvoq_image_differences(image, SIZE, kernel->lent.memory, SIZE, runs, SIZE);
    expect_ok("a comparison", found.number);
    printf("She compares the window with the image that was loaded.\n");
    for (uint32_t k = 0; k < found.runs; k++) {
        char label[LABEL];
        snprintf(label, sizeof label, "differs at 0x%x", (unsigned)(BASE + runs[2 * k]));
        print_label(label);
        printf("%u bytes\n", (unsigned)runs[2 * k + 1]);
    }
}

/* The fewest writes to a wanted image, checked and then sent. */
static void plan_a_patch(struct kernel *kernel) {
    uint8_t wanted[SIZE], room[SIZE];
    struct sanirvoq_write list[4];
    memcpy(wanted, kernel->lent.memory, SIZE);
    for (uint8_t i = 0; i < 6; i++) {
        wanted[0x20 + i] = (uint8_t)(0xf0 + i);
    }
    printf("She plans the fewest writes for six new bytes at 0x1020. They are accepted, and sent.\n");
    struct sanirvoq_planning planning = sanirvoq_plan(&kernel->record, kernel->lent, wanted, SIZE, room, SIZE, list, 4);
    expect_ok("a plan", planning.number);
    const struct sanirvoq_verdict verdict =
        sanirvoq_check(&kernel->record, kernel->lent, list, planning.writes, wanted, SIZE, room, SIZE);
    expect_ok("a verdict", verdict.number);
    print_label("plan");
    printf("%u writes, %s\n", (unsigned)planning.writes,
           verdict.verdict == SANIRVOQ_VERDICT_ACCEPTED ? "accepted" : "not accepted");
    for (uint32_t i = 0; i < planning.writes; i++) {
        struct sanirvoq_fields fields = {
            .kind = SANIRVOQ_MSG_TMPUT, .value = list[i].address, .n = (uint8_t)list[i].count};
        memcpy(fields.bytes, list[i].bytes, sizeof list[i].bytes);
        expect_ok("a planned write", send_request(kernel, "Tmput of the plan", fields));
    }
    show_memory_at(kernel, 0x1020);
    printf("For another power limit there is no plan.\n");
    wanted[LIMIT - BASE] = 0xff;
    planning = sanirvoq_plan(&kernel->record, kernel->lent, wanted, SIZE, room, SIZE, list, 4);
    print_label("plan");
    printf("refused with number %u at 0x%x\n", planning.number, (unsigned)planning.address);
}

/* A trap is overwritten from outside: number 3, and the record is given up. */
static void lose_a_trap(struct kernel *kernel) {
    printf("Breakpoints 1 and 2 stand at 0x1010 and 0x1014. A loader overwrites the first trap.\n");
    condition(kernel, "Tcondbreak n 1", 'n', 1);
    condition(kernel, "Tcondbreak b 0x1010", 'b', 0x1010);
    condition(kernel, "Tcondbreak n 2", 'n', 2);
    condition(kernel, "Tcondbreak b 0x1014", 'b', 0x1014);
    kernel->lent.memory[0x10] = 0xf0;
    kernel->lent.memory[0x11] = 0xf1;
    show_memory_at(kernel, 0x1010);
    const struct sanirvoq_fields fields = {.kind = SANIRVOQ_MSG_TMGET, .value = 0x1010, .n = 8};
    if (send_request(kernel, "Tmget 0x1010 n 8", fields) != SANIRVOQ_ERR_UNFIT) {
        exit(EXIT_FAILURE);
    }
    printf("The kernel puts back what lies under the other trap, and sets up anew.\n");
    print_label("put back");
    printf("%u breakpoint left out\n", (unsigned)sanirvoq_put_back(&kernel->record, kernel->lent, BASE));
    expect_ok("setup", sanirvoq_setup(&kernel->record, kernel->lent, &setup));
    read_bytes(kernel, "Tmget 0x1010 n 8", 0x1010, 8);
}

int main(void) {
    const uint8_t patched[SHOWN] = {0x08, 0xaa, 0xbb, 0xcc, 0xee, 0x0d, 0x0e, 0x0f};
    struct kernel kernel;
    set_up(&kernel);
    printf("The kernel has processes 5 and 7 and lends 64 bytes at 0x1000; byte i is i.\n");
    show_memory(&kernel);
    printf("The engineer reads four bytes.\n");
    read_bytes(&kernel, "Tmget 0x1004 n 4", 0x1004, 4);
    set_breakpoints(&kernel);
    patch(&kernel);
    stop_one(&kernel);
    stop_other(&kernel);
    speak_text(&kernel);
    be_refused(&kernel);
    keep_off_the_limit(&kernel);
    speak_in_frames(&kernel);
    restart(&kernel);
    compare(&kernel);
    plan_a_patch(&kernel);
    lose_a_trap(&kernel);
    const int kept = memcmp(kernel.lent.memory + (SITE - BASE), patched, SHOWN) == 0;
    take_down(&kernel);
    return kept ? EXIT_SUCCESS : EXIT_FAILURE;
}
