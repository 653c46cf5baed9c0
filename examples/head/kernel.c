/* A small head that runs: a kernel for qemu's riscv32 machine "virt" with the debug stub in it.
 *
 * Two processes in user mode (programs.S) measure a log and print its diameter. An engineer speaks to the stub over the
 * serial line meanwhile, in packets (docs/PROTOCOL.md, Frames). What the kernel does for the stub:
 *
 *   - it feeds the line to the reader of packets, hands requests to the stub and sends the framed replies;
 *   - it tells the stub of every trap and asks before it lets a process run (stop, pass, continue);
 *   - where the stub says so it runs an instruction elsewhere, since a trap stands at its address (elsewhere.c);
 *   - it has the processor fetch changed code (fence.i, in start.S).
 *
 * The line carries text too: the kernel writes lines of ASCII, never within a packet. A reader of packets skips them,
 * since a packet begins with 0x1d; a reader of text skips what lies between 0x1d and 0x1e. */
#include "elsewhere.h"
#include "stub.h"

/* ---- the machine ---- */

#define UART ((volatile uint8_t *)0x10000000) /* a 16550 */
enum { UART_DATA = 0, UART_FIFO = 2, UART_STATUS = 5, UART_HAS_BYTE = 1, UART_HAS_ROOM = 0x20 };
#define TIME ((volatile uint32_t *)0x0200bff8)  /* ten millions a second, two words, the low one first */
#define ALARM ((volatile uint32_t *)0x02004000) /* an interrupt is pending from this time on */
enum { TICK = 10000 };                          /* a millisecond */
#define CAUSE_TIMER 0x80000007u
enum { CAUSE_BREAK = 3, CAUSE_CALL = 8 };

static uint32_t ticks;

/* start.S calls kernel once, and does not expect it back. */
void kernel(void);
uint32_t enter(struct frame *frame);

/* What the compiler and the archive ask of a C library. build.sh keeps gcc from making calls of these out of them. */
void *memcpy(void *to, const void *from, size_t length) {
    uint8_t *t = to;
    const uint8_t *f = from;
    while (length-- > 0) {
        *t++ = *f++;
    }
    return to;
}

void *memset(void *to, int byte, size_t length) {
    uint8_t *t = to;
    while (length-- > 0) {
        *t++ = (uint8_t)byte;
    }
    return to;
}

static void send(uint8_t byte) {
    while (!(UART[UART_STATUS] & UART_HAS_ROOM)) {
    }
    UART[UART_DATA] = byte;
}

static void say(const char *text) {
    while (*text) {
        send((uint8_t)*text++);
    }
}

static void say_number(uint32_t number) {
    if (number >= 10) {
        say_number(number / 10);
    }
    send((uint8_t)('0' + number % 10));
}

static void stop_for_good(const char *why) {
    say(why);
    for (;;) {
    }
}

/* Sets the alarm one tick from now. In user mode it interrupts; the kernel, with interrupts off, looks and waits. */
static void set_alarm(void) {
    uint32_t high, low;
    do {
        high = TIME[1];
        low = TIME[0];
    } while (high != TIME[1]);
    ALARM[1] = UINT32_MAX; /* not for a moment an alarm in the past */
    ALARM[0] = low + TICK;
    ALARM[1] = high + (low + TICK < low);
    ticks++;
}

static bool alarm_is_due(void) {
    uint32_t pending;
    __asm__ volatile("csrr %0, mip" : "=r"(pending));
    return pending >> 7 & 1;
}

/* A process may read and execute the window's page and the slots' page, and reach nothing else. */
static void set_machine_up(void) {
    __asm__ volatile("csrw pmpaddr0, %0" ::"r"(0x80100000u >> 2 | (8192u / 8 - 1)));
    __asm__ volatile("csrw pmpcfg0, %0" ::"r"(0x1d)); /* a block of a power of two; read, execute */
    __asm__ volatile("csrw mie, %0" ::"r"(1u << 7));  /* the timer's interrupt */
    UART[UART_FIFO] = 0xc1; /* sixteen bytes wait for the kernel, not one; its highest mark is 14 */
    set_alarm();
}

/* ---- processes ---- */

extern uint8_t window[], left[], right[]; /* programs.S */
enum { WINDOW = 4096, POWER_LIMIT = 0xf00 };
enum { CALL_REPORT = 1, CALL_REST = 2, CALL_LASER = 3, A0 = 10, A7 = 17 };

struct process {
    const char *name;
    uint32_t pid;
    uint32_t entry;
    struct frame frame;
    bool is_stopped; /* by the stub */
    bool is_broken;
    bool is_elsewhere; /* it runs an instruction in its slot; then it goes on at `behind` */
    uint32_t behind;
    uint32_t rests_until; /* in ticks */
};

static struct process processes[PROCESSES] __attribute__((section(".processes")));
static uint8_t registers[PROCESSES * SANIRVOQ_BLOCK_SIZE]; /* the register area that is lent to the stub */
static uint32_t laser_power;

/* An instruction and a trap behind it, for each process. Not in the window: no host sees it. */
static uint16_t slots[PROCESSES][4] __attribute__((section(".slots"), aligned(4)));

static void put_word(uint8_t *bytes, uint32_t word) {
    for (int i = 0; i < 4; i++) {
        bytes[i] = (uint8_t)(word >> (24 - 8 * i));
    }
}

static uint32_t get_word(const uint8_t *bytes) {
    return (uint32_t)bytes[0] << 24 | (uint32_t)bytes[1] << 16 | (uint32_t)bytes[2] << 8 | bytes[3];
}

/* A frame as the stub's block: 32 registers, status, pc, high-order first. */
static void put_block(uint8_t block[SANIRVOQ_BLOCK_SIZE], const struct frame *frame) {
    for (int i = 0; i < 32; i++) {
        put_word(block + 4 * i, frame->x[i]);
    }
    put_word(block + 128, frame->status);
    put_word(block + 132, frame->pc);
}

/* What the host may have changed. Not status: a process always runs in user mode. */
static void get_block(struct frame *frame, const uint8_t block[SANIRVOQ_BLOCK_SIZE]) {
    for (int i = 1; i < 32; i++) {
        frame->x[i] = get_word(block + 4 * i);
    }
    frame->pc = get_word(block + 132) & ~1u;
}

static void begin(struct process *process) {
    process->frame = (struct frame){.pc = process->entry};
    process->is_stopped = process->is_broken = process->is_elsewhere = false;
    process->rests_until = ticks;
}

/* A fault of the process: it does not run on, and the host sees the state Broken. */
static void give_up(struct process *process, uint32_t cause) {
    process->is_broken = true;
    say(process->name);
    say(" is broken, cause ");
    say_number(cause);
    say("\n");
    if (stub_state(process->pid, SANIRVOQ_STATE_BROKEN) != SANIRVOQ_OK) {
        say("the stub refuses a state\n");
    }
}

static void serve_call(struct process *process) {
    const uint32_t argument = process->frame.x[A0];
    process->frame.pc += 4;
    switch (process->frame.x[A7]) {
    case CALL_REPORT:
        say(process->name);
        say(" ");
        say_number(argument);
        say(" mm\n");
        break;
    case CALL_REST:
        process->rests_until = ticks + argument;
        break;
    case CALL_LASER:
        if (argument != laser_power) {
            laser_power = argument;
            say("laser ");
            say_number(argument);
            say(" mW\n");
        }
        break;
    default:
        give_up(process, CAUSE_CALL);
    }
}

/* ---- the stub ---- */

/* Two plain bytes, also where a trap stands: the stub itself is asked for them, with a Tmget. */
static bool read_plain(uint32_t address, uint32_t *halfword) {
    uint8_t request[SANIRVOQ_MESSAGE_SIZE] = {SANIRVOQ_MSG_TMGET, [5] = 2}, reply[SANIRVOQ_MESSAGE_SIZE];
    put_word(request + 1, address);
    if (sanirvoq_number(stub_request(request, reply)) != SANIRVOQ_OK || reply[0] != SANIRVOQ_MSG_RMGET) {
        return false;
    }
    *halfword = reply[1] | (uint32_t)reply[2] << 8;
    return true;
}

/* A trap stands at the process's pc, and the process is to go on: the instruction under the trap is run elsewhere. The
 * stub gives two bytes of it. If it has four, the other two may lie under another trap. */
static void run_elsewhere(struct process *process, uint32_t result) {
    struct frame *frame = &process->frame;
    uint16_t *slot = slots[process - processes];
    uint32_t instruction = sanirvoq_first(result) | (uint32_t)sanirvoq_second(result) << 8, rest;
    const uint32_t length = instruction_length(instruction);
    if (length == 4) {
        if (!read_plain(frame->pc + 2, &rest)) {
            give_up(process, CAUSE_BREAK);
            return;
        }
        instruction |= rest << 16;
    }
    switch (carry_out(frame, instruction)) {
    case ELSEWHERE_DONE: break;
    case ELSEWHERE_CALL: serve_call(process); break;
    case ELSEWHERE_BREAK: give_up(process, CAUSE_BREAK); break;
    case ELSEWHERE_SLOT:
        slot[0] = (uint16_t)instruction;
        slot[1] = (uint16_t)(instruction >> 16);
        slot[length / 2] = 0x9002;
        process->is_elsewhere = true;
        process->behind = frame->pc + length;
        frame->pc = (uint32_t)(uintptr_t)slot;
    }
}

/* Number 3: the stub's record is spoiled, or something else than the stub wrote over a trap. The debug session is lost,
 * and a new one begins with no breakpoint; the processes go on. */
static bool is_lost(uint32_t result) {
    uint32_t overwritten;
    if (sanirvoq_number(result) != SANIRVOQ_ERR_UNFIT) {
        return false;
    }
    if (stub_setup_anew(&overwritten) != SANIRVOQ_OK) {
        stop_for_good("the stub refuses the setup\n");
    }
    say("the debug session is lost, traps overwritten: ");
    say_number(overwritten);
    say("\n");
    for (int i = 0; i < PROCESSES; i++) {
        processes[i].is_stopped = false;
    }
    return true;
}

/* After a request: a process that the host started goes on, with the registers that the host left in its block. */
static void take_up(uint32_t result) {
    for (int i = 0; i < PROCESSES; i++) {
        struct process *process = &processes[i];
        if (process->is_stopped && !stub_has_stopped(i)) {
            process->is_stopped = false;
            get_block(&process->frame, registers + i * SANIRVOQ_BLOCK_SIZE);
            if (sanirvoq_answer(result) == SANIRVOQ_ANSWER_PASS) {
                run_elsewhere(process, result);
            }
        }
    }
}

static void trap(struct process *process) {
    uint8_t block[SANIRVOQ_BLOCK_SIZE];
    if (process->is_elsewhere) { /* the trap behind the instruction in the slot */
        process->is_elsewhere = false;
        process->frame.pc = process->behind;
        return;
    }
    put_block(block, &process->frame);
    const uint32_t result = stub_trap(process->pid, block);
    if (is_lost(result)) {
        return; /* the process comes here again, and finds no trap, or one of its own */
    }
    if (sanirvoq_number(result) != SANIRVOQ_OK) {
        give_up(process, CAUSE_BREAK); /* number 6: the program's own ebreak */
    } else if (sanirvoq_answer(result) == SANIRVOQ_ANSWER_STOP) {
        process->is_stopped = true;
    } else {
        run_elsewhere(process, result);
    }
}

/* Lets a process run up to its next trap or the alarm. One that is in its slot comes out of it first: a host never sees
 * a pc there. */
static void run(struct process *process) {
    uint8_t block[SANIRVOQ_BLOCK_SIZE];
    if (!process->is_elsewhere) {
        put_block(block, &process->frame);
        const uint32_t result = stub_schedule(process->pid, block);
        if (!is_lost(result) && sanirvoq_answer(result) == SANIRVOQ_ANSWER_STOP) {
            process->is_stopped = true;
            return;
        }
    }
    const uint32_t cause = enter(&process->frame);
    if (cause == CAUSE_BREAK) {
        trap(process);
    } else if (cause == CAUSE_CALL) {
        serve_call(process);
    } else if (cause != CAUSE_TIMER) {
        if (process->is_elsewhere) {
            process->is_elsewhere = false;
            process->frame.pc = process->behind - instruction_length(slots[process - processes][0]);
        }
        give_up(process, cause);
    }
}

/* ---- the line ---- */

static struct sanirvoq_frame_reader reader;
static uint8_t body[SANIRVOQ_FRAME_BUFFER_SIZE];

static void send_reply(uint32_t sequence, const uint8_t reply[SANIRVOQ_MESSAGE_SIZE]) {
    uint8_t framed[SANIRVOQ_FRAME_REPLY_SIZE];
    if (sanirvoq_frame_reply(sequence, reply, SANIRVOQ_MESSAGE_SIZE, framed, sizeof framed) == SANIRVOQ_OK) {
        for (size_t i = 0; i < sizeof framed; i++) {
            send(framed[i]);
        }
    }
}

/* The head begins anew, its code as it is: a patch lives on, breakpoints do not. */
static void restart(uint32_t sequence) {
    uint8_t reply[SANIRVOQ_MESSAGE_SIZE];
    uint8_t number = stub_restart(reply);
    if (is_lost(number)) {
        number = stub_restart(reply);
    }
    if (number != SANIRVOQ_OK) {
        stop_for_good("the stub refuses to restart\n");
    }
    for (int i = 0; i < PROCESSES; i++) {
        begin(&processes[i]);
        if (stub_state(processes[i].pid, SANIRVOQ_STATE_READY) != SANIRVOQ_OK) {
            say("the stub refuses a state\n");
        }
    }
    send_reply(sequence, reply);
}

/* A whole packet: a request; or without a body, which is this head's own rule, the wish that it restart. */
static void serve_packet(struct sanirvoq_frame_answer packet) {
    uint8_t reply[SANIRVOQ_MESSAGE_SIZE];
    if (packet.request) {
        const uint32_t result = stub_request(body, reply);
        if (!is_lost(result)) {
            send_reply(packet.sequence, reply);
            take_up(result);
        } else if (stub_restart(reply) == SANIRVOQ_OK) { /* the host learns of it by Rerr reset */
            send_reply(packet.sequence, reply);
        }
    } else if (packet.size == 0 && packet.id >> 15 == 1) {
        restart(packet.sequence);
    }
}

/* Takes what has come in on the line. */
static void listen(void) {
    uint8_t piece[16];
    size_t length = 0;
    while (length < sizeof piece && UART[UART_STATUS] & UART_HAS_BYTE) {
        piece[length++] = UART[UART_DATA];
    }
    for (size_t at = 0; at < length;) {
        const struct sanirvoq_frame_fed fed =
            sanirvoq_frame_feed(reader, piece + at, length - at, body, sizeof body);
        reader = fed.reader;
        at += (size_t)fed.taken;
        if (fed.answer.kind == SANIRVOQ_FRAME_ANSWER_PACKET) {
            serve_packet(fed.answer);
        }
    }
}

/* ---- the kernel ---- */

static bool can_run(const struct process *process) {
    return !process->is_stopped && !process->is_broken && (int32_t)(ticks - process->rests_until) >= 0;
}

static void set_up(void) {
    const uint32_t base = (uint32_t)(uintptr_t)window;
    const struct stub_setup setup = {
        .window = window,
        .size = WINDOW,
        .protected_from = base + POWER_LIMIT,
        .protected_to = base + POWER_LIMIT + 4,
        .pids = {5, 7},
        .addresses = {(uint32_t)(uintptr_t)&processes[0], (uint32_t)(uintptr_t)&processes[1]},
        .registers = registers,
    };
    processes[0] = (struct process){.name = "left", .pid = 5, .entry = (uint32_t)(uintptr_t)left};
    processes[1] = (struct process){.name = "right", .pid = 7, .entry = (uint32_t)(uintptr_t)right};
    set_machine_up();
    reader = sanirvoq_frame_reader();
    if (stub_setup(&setup) != SANIRVOQ_OK) {
        stop_for_good("the stub refuses the setup\n");
    }
    for (int i = 0; i < PROCESSES; i++) {
        begin(&processes[i]);
    }
}

void kernel(void) {
    set_up();
    for (;;) {
        bool has_run = false;
        listen();
        for (int i = 0; i < PROCESSES; i++) {
            if (can_run(&processes[i])) {
                run(&processes[i]);
                has_run = true;
            }
            if (alarm_is_due()) { /* now, or it would interrupt the next process at once */
                set_alarm();
            }
        }
        if (!has_run) {
            __asm__ volatile("wfi");
        }
    }
}
