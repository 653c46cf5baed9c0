/* Sanirvoq: a debug stub for kernels, in C.
 *
 * The stub answers a debugger on a service line: it reads and writes a window of memory, sets conditional breakpoints
 * and stops processes. It is a library. The kernel hands it what comes over the line and what happens to its
 * processes, one call a time, and does what the answer says. docs/PROTOCOL.md describes the line, examples/kernel.c is
 * a whole session.
 *
 * Link libsanirvoq.a. `tools/build.sh sanirvoq` writes it for x86-64 (System V calling convention), and
 * tools/build_archives.sh, from the same proved crate, for rv32imac (ilp32) and rv64imac (lp64) too. Take header and
 * archive of one commit: the archive cannot tell which header a kernel was compiled with.
 *
 * The header needs no C library: it includes stddef.h and stdint.h, which every freestanding compiler has. The archive
 * calls memcpy, on RISC-V memset too, and nothing else of the program that links it; the compiler may do so as well.
 *
 * The kernel owns everything: the record, the memory window and the register area. The stub allocates nothing, keeps
 * no pointer and no state of its own, always returns, and makes no system call. What it writes to is what a call lends
 * it.
 *
 * WHAT A KERNEL MUST KNOW
 *
 * Pointers. Each must be valid for its length, for reading and writing, and not null, also where the length is 0. The
 * record and the buffers of one call lie apart from each other. Any bytes may be a record or a buffer's content: what
 * is not right is refused with a number.
 *
 * One call at a time for each record. During a call nobody else may touch the record, the window or the register area:
 * not an interrupt handler, not another processor. So a process that runs code of the window stands still meanwhile,
 * and a call is not made from an interrupt that came during another call with the same record. Calls with different
 * records and buffers may run at once.
 *
 * Stack. Have 4,096 bytes for a call: it takes less on every machine, as measured (docs/PERFORMANCE.md has the
 * figures). No theorem bounds it. The stack pointer is a multiple of 16 at a call, as the conventions have it; code
 * written in assembly has to see to that.
 *
 * x86-64. The archive is compiled as for user space. It uses the red zone, the 128 bytes below the stack pointer, so
 * an interrupt that comes during a call must run on another stack (an IST entry), or interrupts are off. It uses the
 * SSE registers xmm0 to xmm15, so a kernel saves those of the process that it interrupted before a call, as it does
 * before any code of its own that uses them.
 *
 * Caches. A step writes to the window by ordinary stores: the host's bytes, and traps, which are instructions. After a
 * request, a text request or a restart, and after sanirvoq_put_back, a processor must not run instructions of the
 * window that it fetched before: on RISC-V it executes fence.i, each hart that runs them does. x86-64 needs nothing on
 * the same processor.
 *
 * Number 3. SANIRVOQ_ERR_UNFIT says that the record is spoiled or that a trap in the window was overwritten from
 * outside; nothing was changed. Where the kernel knows what was overwritten it puts the two bytes of the trap back and
 * goes on. Else the session is over, and a new setup follows; but a setup begins with no breakpoint and takes the
 * window as it is, traps and all, and the program's own bytes under the traps would be lost with the old record. So put
 * them back first:
 *
 *     if (sanirvoq_number(result) == SANIRVOQ_ERR_UNFIT) {
 *         uint32_t lost = sanirvoq_put_back(&record, lent, setup.base);   // used entries that it could not put back
 *         number = sanirvoq_setup(&record, lent, &setup);
 *     }
 */
#ifndef SANIRVOQ_H
#define SANIRVOQ_H

#include <stddef.h>
#include <stdint.h>

/* The edition of this interface. The minor number rises where a function, a record or the meaning of a number
 * changes. */
#define SANIRVOQ_VERSION_MAJOR 0
#define SANIRVOQ_VERSION_MINOR 4

/* On a function whose result must not be dropped. */
#if defined(__GNUC__)
#define SANIRVOQ_CHECKED __attribute__((warn_unused_result))
#else
#define SANIRVOQ_CHECKED
#endif

/* A test at compile time, in C99 and C++98 too. */
#if defined(__cplusplus) && __cplusplus >= 201103L
#define SANIRVOQ_ASSERT(test, text) static_assert(test, text)
#elif !defined(__cplusplus) && defined(__STDC_VERSION__) && __STDC_VERSION__ >= 201112L
#define SANIRVOQ_ASSERT(test, text) _Static_assert(test, text)
#else
#define SANIRVOQ_JOINED(a, b) a##b
#define SANIRVOQ_JOIN(a, b) SANIRVOQ_JOINED(a, b)
#define SANIRVOQ_ASSERT(test, text) typedef char SANIRVOQ_JOIN(sanirvoq_assert_, __LINE__)[(test) ? 1 : -1]
#endif

#ifdef __cplusplus
extern "C" {
#endif

/* A length, in bytes or places: 64 bits on every machine, since the archive takes them so on 32-bit machines too. */
typedef uint64_t sanirvoq_length;

/* ---- sizes and limits ---- */

enum {
    SANIRVOQ_PROCESSES = 4,           /* at most */
    SANIRVOQ_ENTRIES = 8,             /* breakpoints, at most */
    SANIRVOQ_ELEMENTS = 64,           /* elements of one condition, at most */
    SANIRVOQ_PLACES = 128,            /* elements of all conditions together, at most */
    SANIRVOQ_MESSAGE_SIZE = 10,       /* bytes of a request and of a reply */
    SANIRVOQ_BLOCK_SIZE = 136,        /* bytes of a process's saved registers: registers 0 to 31, status, pc, four
                                       * bytes each, high-order first */
    SANIRVOQ_TEXT_SIZE = 34,          /* bytes of the longest text, which a buffer for one must have */
    SANIRVOQ_IMAGE_SIZE = 65536,      /* bytes of the longest image */
    SANIRVOQ_FRAME_BODY_SIZE = 532,   /* bytes of the longest body of a packet */
    SANIRVOQ_FRAME_BUFFER_SIZE = 534, /* bytes of the shortest body buffer: a body and its checksum */
    SANIRVOQ_FRAME_REPLY_SIZE = 26,   /* bytes of a framed reply */
    SANIRVOQ_PATCH_WRITES = 16384,    /* writes of the longest offer, and of the longest plan */
    SANIRVOQ_TARGET_SIZE = 176,       /* bytes of struct sanirvoq_target */
    SANIRVOQ_RECORD_SIZE = 1200       /* bytes of struct sanirvoq_record */
};

/* ---- numbers: what became of a call ---- */

enum sanirvoq_error {
    SANIRVOQ_OK = 0,
    SANIRVOQ_ERR_SETUP = 1,        /* a setup breaks a rule */
    SANIRVOQ_ERR_SIZE = 2,         /* a buffer has the wrong size */
    SANIRVOQ_ERR_UNFIT = 3,        /* the record is not fit, or a trap was overwritten; see "Number 3" above */
    SANIRVOQ_ERR_UNLISTED = 4,     /* an event names a pid that no process has */
    SANIRVOQ_ERR_STOPPED = 5,      /* a trap or state event of a Stopped process, or a state event that would stop it */
    SANIRVOQ_ERR_NO_SITE = 6,      /* a trap at a pc where no breakpoint is */
    SANIRVOQ_ERR_NO_MESSAGE = 7,   /* fields or bytes that are no message */
    SANIRVOQ_ERR_IMAGES = 8,       /* images of unequal length, or longer than SANIRVOQ_IMAGE_SIZE */
    SANIRVOQ_ERR_RUN_LIST = 9,     /* a list that lacks room for the runs of differing bytes */
    SANIRVOQ_ERR_NO_PACKET = 10,   /* a letter that no text packet has, or bytes that are no packet's text */
    SANIRVOQ_ERR_TEXT_BUFFER = 11, /* a buffer for a text that is shorter than SANIRVOQ_TEXT_SIZE */
    SANIRVOQ_ERR_FRAME = 12,       /* a body buffer under SANIRVOQ_FRAME_BUFFER_SIZE bytes, a buffer for a framed reply
                                    * not of SANIRVOQ_FRAME_REPLY_SIZE, or a sequence over 255 */
    SANIRVOQ_ERR_PATCH = 16,       /* a wanted image that is not of the window's size, or an offer of over
                                    * SANIRVOQ_PATCH_WRITES */
    SANIRVOQ_ERR_PLAN_LIST = 17,   /* a list that lacks room for the writes of a plan */
    SANIRVOQ_ERR_PROTECTED = 21    /* a wanted image that differs in a protected byte: there is no plan */
};

/* ---- the record ---- */

/* The state byte of a process. The kernel may use others from 10 to 255; the host is shown their number. */
enum sanirvoq_state {
    SANIRVOQ_STATE_DEAD = 0,
    SANIRVOQ_STATE_MORIBUND = 1,
    SANIRVOQ_STATE_READY = 2,
    SANIRVOQ_STATE_SCHEDING = 3,
    SANIRVOQ_STATE_RUNNING = 4,
    SANIRVOQ_STATE_QUEUEING = 5,
    SANIRVOQ_STATE_WAKEME = 6,
    SANIRVOQ_STATE_BROKEN = 7,
    SANIRVOQ_STATE_STOPPED = 8, /* set by the stub alone */
    SANIRVOQ_STATE_RENDEZVOUS = 9
};

/* The two bytes of a trap in memory, c.ebreak: 02 at the site, 90 behind it. */
enum { SANIRVOQ_TRAP_FIRST = 0x02, SANIRVOQ_TRAP_SECOND = 0x90 };

/* A breakpoint. */
struct sanirvoq_entry {
    uint8_t used;     /* 1, or 0 where the entry is free; then the rest has no meaning */
    uint8_t id;       /* the host's number for it */
    uint8_t count;    /* how many elements its condition has; they stand in the record's places */
    uint8_t plain[4]; /* the first two: the program's own bytes at the site, under the trap */
    uint32_t site;    /* its address */
};

/* The condition in hand: the one that the host is building. */
struct sanirvoq_draft {
    uint8_t active; /* 1, or 0 where nothing is in hand */
    uint8_t id;     /* of the breakpoint to be */
    uint8_t count;  /* how many elements it has so far */
};

struct sanirvoq_table {
    struct sanirvoq_entry entries[SANIRVOQ_ENTRIES];
    struct sanirvoq_draft draft;
};

struct sanirvoq_process {
    uint32_t pid;     /* at least 1 */
    uint32_t address; /* of its Proc structure, for the host */
    uint8_t state;    /* a sanirvoq_state or another byte */
    uint8_t wanted;   /* 1 where a stop is wanted */
};

/* All of the record but its places. */
struct sanirvoq_target {
    uint32_t base;                                         /* the window's address */
    uint32_t size;                                         /* its bytes */
    uint32_t protected_offset;                             /* the protected stretch: its first byte, from base on */
    uint32_t protected_length;                             /* its bytes */
    uint32_t count;                                        /* how many processes there are */
    struct sanirvoq_process processes[SANIRVOQ_PROCESSES]; /* in the order of their blocks in the register area */
    uint8_t selected;                                      /* 1 where a process is current */
    uint32_t current;                                      /* its pid */
    struct sanirvoq_table table;                           /* the breakpoints */
};

/* The record: the stub's memory between two calls. The kernel keeps it and looks at it as it likes; only the stub
 * writes to it. Place i is places[2 * i], the letter of an element, and places[2 * i + 1], its value where the letter
 * is k or p, else 0. The elements of the used entries stand there one after the other in the order of the table, then
 * those of the condition in hand. What the places behind them hold is of no account. */
struct sanirvoq_record {
    struct sanirvoq_target target;
    uint32_t places[2 * SANIRVOQ_PLACES];
};

/* The layout of the archive. */
SANIRVOQ_ASSERT(sizeof(struct sanirvoq_entry) == 12, "the size of a breakpoint");
SANIRVOQ_ASSERT(offsetof(struct sanirvoq_entry, count) == 2, "where a breakpoint's count is");
SANIRVOQ_ASSERT(offsetof(struct sanirvoq_entry, plain) == 3, "where a breakpoint's plain bytes are");
SANIRVOQ_ASSERT(offsetof(struct sanirvoq_entry, site) == 8, "where a breakpoint's site is");
SANIRVOQ_ASSERT(sizeof(struct sanirvoq_draft) == 3, "the size of the condition in hand");
SANIRVOQ_ASSERT(sizeof(struct sanirvoq_table) == 100, "the table's size");
SANIRVOQ_ASSERT(offsetof(struct sanirvoq_table, draft) == 96, "where the condition in hand is");
SANIRVOQ_ASSERT(sizeof(struct sanirvoq_process) == 12, "the size of a process");
SANIRVOQ_ASSERT(offsetof(struct sanirvoq_target, protected_offset) == 8, "where the protected stretch is");
SANIRVOQ_ASSERT(offsetof(struct sanirvoq_target, processes) == 20, "where the processes are");
SANIRVOQ_ASSERT(offsetof(struct sanirvoq_target, selected) == 68, "where the mark of a current process is");
SANIRVOQ_ASSERT(offsetof(struct sanirvoq_target, current) == 72, "where the current process is");
SANIRVOQ_ASSERT(offsetof(struct sanirvoq_target, table) == 76, "where the table is");
SANIRVOQ_ASSERT(sizeof(struct sanirvoq_target) == SANIRVOQ_TARGET_SIZE, "the size of the record without its places");
SANIRVOQ_ASSERT(offsetof(struct sanirvoq_record, places) == SANIRVOQ_TARGET_SIZE, "where the record's places are");
SANIRVOQ_ASSERT(sizeof(struct sanirvoq_record) == SANIRVOQ_RECORD_SIZE, "the record's size");

/* The first place of an entry's elements; of those of the condition in hand where the index is SANIRVOQ_ENTRIES. In a
 * record that is not fit they may lie past the last place. */
SANIRVOQ_CHECKED static inline uint32_t sanirvoq_first_place(const struct sanirvoq_record *record, uint32_t index) {
    uint32_t place = 0;
    for (uint32_t i = 0; i < index && i < SANIRVOQ_ENTRIES; i++) {
        const struct sanirvoq_entry *entry = &record->target.table.entries[i];
        place += entry->used == 1 ? entry->count : 0u;
    }
    return place;
}

/* ---- results: a number and an answer in 32 bits ---- */

/* The number of a result, a sanirvoq_error. Where it is not SANIRVOQ_OK the answer is 0 and nothing was changed: no
 * byte of memory, no saved register, nothing in the record or the reply. Only a setup that is refused leaves another
 * record, the empty one. */
SANIRVOQ_CHECKED static inline uint8_t sanirvoq_number(uint32_t result) { return (uint8_t)result; }

/* What the kernel is to do. */
enum sanirvoq_answer_kind {
    SANIRVOQ_ANSWER_NOTHING = 0,
    SANIRVOQ_ANSWER_STOP = 1,      /* of a trap or schedule event: the process is Stopped; do not run it */
    SANIRVOQ_ANSWER_PASS = 2,      /* of a trap or a request: the process goes on; see below */
    SANIRVOQ_ANSWER_TEXT_ERROR = 1 /* of a text request: its reply says an error, and it changed nothing */
};

/* The answer of a result. SANIRVOQ_ANSWER_PASS asks for this: the breakpoint stands, and memory holds its trap at the
 * process's pc, so that the process would only run into the trap again. The kernel runs the program's own instruction,
 * whose bytes are sanirvoq_first and sanirvoq_second, elsewhere, with the registers of the process, and lets the
 * process go on behind it. After a request these are the registers of the process's block in the register area, as the
 * host may have changed them, and the process is the one that the request names. */
SANIRVOQ_CHECKED static inline uint8_t sanirvoq_answer(uint32_t result) { return (uint8_t)(result >> 8); }

/* Of SANIRVOQ_ANSWER_STOP of a trap: the breakpoint's id. Of SANIRVOQ_ANSWER_PASS: the first byte of the instruction.
 * Of a text request: how many bytes of the buffer the reply fills. Else 0. */
SANIRVOQ_CHECKED static inline uint8_t sanirvoq_first(uint32_t result) { return (uint8_t)(result >> 16); }

/* Of SANIRVOQ_ANSWER_PASS: the second byte of the instruction. Else 0. */
SANIRVOQ_CHECKED static inline uint8_t sanirvoq_second(uint32_t result) { return (uint8_t)(result >> 24); }

/* ---- the steps as the archive exports them ----
 *
 * The functions of the next part call these with only the arguments that each step uses; call those.
 *
 * All but the setup have one form: the two parts of a record, the memory window, the register area
 * (SANIRVOQ_BLOCK_SIZE bytes for each process), a pid, a byte, an input and a reply. What a step does not use it leaves
 * as it is; a pointer must be valid all the same. They give a result. */

/* A setup. Takes base, size, count and the pids and addresses of the first count processes from the target, the
 * protected stretch from the last two arguments, and makes the rest of the target. It has no places, for none is held
 * then. Numbers 0, 1, 2. */
SANIRVOQ_CHECKED uint32_t sanirvoq_step_setup(struct sanirvoq_target *target, const uint8_t *memory,
                                              sanirvoq_length memory_length, const uint8_t *registers,
                                              sanirvoq_length registers_length, uint64_t protected_from,
                                              uint64_t protected_to);

/* A request. Uses input (ten bytes) and reply (ten bytes). Numbers 0, 2, 3. */
SANIRVOQ_CHECKED uint32_t sanirvoq_step_request(struct sanirvoq_target *target, uint32_t *places, uint8_t *memory,
                                                sanirvoq_length memory_length, uint8_t *registers,
                                                sanirvoq_length registers_length, uint32_t pid, uint8_t value,
                                                const uint8_t *input, sanirvoq_length input_length, uint8_t *reply,
                                                sanirvoq_length reply_length);

/* A trap event. Uses pid and input (the process's block). Numbers 0, 2 to 6. */
SANIRVOQ_CHECKED uint32_t sanirvoq_step_trap(struct sanirvoq_target *target, uint32_t *places, uint8_t *memory,
                                             sanirvoq_length memory_length, uint8_t *registers,
                                             sanirvoq_length registers_length, uint32_t pid, uint8_t value,
                                             const uint8_t *input, sanirvoq_length input_length, uint8_t *reply,
                                             sanirvoq_length reply_length);

/* A schedule event. Uses pid and input (the process's block). Numbers 0, 2 to 4. */
SANIRVOQ_CHECKED uint32_t sanirvoq_step_schedule(struct sanirvoq_target *target, uint32_t *places, uint8_t *memory,
                                                 sanirvoq_length memory_length, uint8_t *registers,
                                                 sanirvoq_length registers_length, uint32_t pid, uint8_t value,
                                                 const uint8_t *input, sanirvoq_length input_length, uint8_t *reply,
                                                 sanirvoq_length reply_length);

/* A state event. Uses pid and value (the new state). Numbers 0, 2 to 5. */
SANIRVOQ_CHECKED uint32_t sanirvoq_step_state(struct sanirvoq_target *target, uint32_t *places, uint8_t *memory,
                                              sanirvoq_length memory_length, uint8_t *registers,
                                              sanirvoq_length registers_length, uint32_t pid, uint8_t value,
                                              const uint8_t *input, sanirvoq_length input_length, uint8_t *reply,
                                              sanirvoq_length reply_length);

/* A restart. Uses reply (ten bytes). Numbers 0, 2, 3. */
SANIRVOQ_CHECKED uint32_t sanirvoq_step_restart(struct sanirvoq_target *target, uint32_t *places, uint8_t *memory,
                                                sanirvoq_length memory_length, uint8_t *registers,
                                                sanirvoq_length registers_length, uint32_t pid, uint8_t value,
                                                const uint8_t *input, sanirvoq_length input_length, uint8_t *reply,
                                                sanirvoq_length reply_length);

/* A text request. Uses input (of any length) and reply (SANIRVOQ_TEXT_SIZE bytes or more). Numbers 0, 2, 3, 10, 11. */
SANIRVOQ_CHECKED uint32_t sanirvoq_step_text(struct sanirvoq_target *target, uint32_t *places, uint8_t *memory,
                                             sanirvoq_length memory_length, uint8_t *registers,
                                             sanirvoq_length registers_length, uint32_t pid, uint8_t value,
                                             const uint8_t *input, sanirvoq_length input_length, uint8_t *reply,
                                             sanirvoq_length reply_length);

/* ---- the steps with the arguments that each uses ---- */

/* What a kernel lends to every step. memory_length is the window's size, registers_length SANIRVOQ_BLOCK_SIZE for each
 * process, in the order of the setup; other lengths are SANIRVOQ_ERR_SIZE. */
struct sanirvoq_lent {
    uint8_t *memory;
    sanirvoq_length memory_length;
    uint8_t *registers;
    sanirvoq_length registers_length;
};

struct sanirvoq_setup_process {
    uint32_t pid;
    uint32_t address;
};

/* What a setup is given. The protected stretch is a part of the window that the host may read, and that no request of
 * either dialect writes to and no breakpoint stands in, such as the limits of a laser's power. The rules: size is a
 * multiple of 4, from 4 to 65,536; base is a multiple of 4, at least 4,096, and base + size at most 2^32;
 * protected_from and protected_to are multiples of 4, and base <= protected_from <= protected_to <= base + size; count
 * is 1 to SANIRVOQ_PROCESSES, and the pids of the first count processes are at least 1 and no two alike. */
struct sanirvoq_setup {
    uint32_t base;           /* the address that the host uses for the first byte of the window */
    uint32_t size;           /* the bytes of the window */
    uint64_t protected_from; /* the address of the first protected byte; base where nothing is protected */
    uint64_t protected_to;   /* the first address behind the last one; base where nothing is protected */
    uint32_t count;          /* how many processes there are */
    struct sanirvoq_setup_process processes[SANIRVOQ_PROCESSES];
};

/* Begins a session: every process is Ready, none is current, there is no breakpoint. Whatever the record held is gone;
 * see "Number 3" above where it held breakpoints. Memory and registers are left as they are. Gives 0, or 1 where a rule
 * is broken, or 2; unless it is 0 the record is empty afterwards, and every other step refuses it. */
SANIRVOQ_CHECKED static inline uint8_t sanirvoq_setup(struct sanirvoq_record *record, struct sanirvoq_lent lent,
                                                      const struct sanirvoq_setup *setup) {
    struct sanirvoq_target *target = &record->target;
    target->base = setup->base;
    target->size = setup->size;
    target->count = setup->count;
    for (uint32_t i = 0; i < SANIRVOQ_PROCESSES; i++) {
        target->processes[i].pid = setup->processes[i].pid;
        target->processes[i].address = setup->processes[i].address;
    }
    return sanirvoq_number(sanirvoq_step_setup(target, lent.memory, lent.memory_length, lent.registers,
                                               lent.registers_length, setup->protected_from, setup->protected_to));
}

/* A request came over the line. Its reply, which may be an Rerr, goes back to the host. Gives a result: number 0, 2
 * (buffers; request and reply are ten bytes) or 3. Its answer is SANIRVOQ_ANSWER_PASS where a Tstart let its process go
 * on at a breakpoint, else SANIRVOQ_ANSWER_NOTHING. */
SANIRVOQ_CHECKED static inline uint32_t sanirvoq_request(struct sanirvoq_record *record, struct sanirvoq_lent lent,
                                                         const uint8_t *request, sanirvoq_length request_length,
                                                         uint8_t *reply, sanirvoq_length reply_length) {
    return sanirvoq_step_request(&record->target, record->places, lent.memory, lent.memory_length, lent.registers,
                                 lent.registers_length, 0, 0, request, request_length, reply, reply_length);
}

/* A process ran into a trap, with these registers. Gives a result: number 0, 2 (also where the block is not
 * SANIRVOQ_BLOCK_SIZE bytes), 3, 4, 5, or 6 where the trap is not one of the stub's. Its answer is SANIRVOQ_ANSWER_STOP
 * or SANIRVOQ_ANSWER_PASS. */
SANIRVOQ_CHECKED static inline uint32_t sanirvoq_trap(struct sanirvoq_record *record, struct sanirvoq_lent lent,
                                                      uint32_t pid, const uint8_t *block,
                                                      sanirvoq_length block_length) {
    uint8_t none = 0;
    return sanirvoq_step_trap(&record->target, record->places, lent.memory, lent.memory_length, lent.registers,
                              lent.registers_length, pid, 0, block, block_length, &none, 0);
}

/* The kernel is about to run a process, with these registers. Gives a result: number 0, 2 (also where the block is not
 * SANIRVOQ_BLOCK_SIZE bytes), 3 or 4. Its answer is SANIRVOQ_ANSWER_STOP where the process is to stop instead, else
 * SANIRVOQ_ANSWER_NOTHING. */
SANIRVOQ_CHECKED static inline uint32_t sanirvoq_schedule(struct sanirvoq_record *record, struct sanirvoq_lent lent,
                                                          uint32_t pid, const uint8_t *block,
                                                          sanirvoq_length block_length) {
    uint8_t none = 0;
    return sanirvoq_step_schedule(&record->target, record->places, lent.memory, lent.memory_length, lent.registers,
                                  lent.registers_length, pid, 0, block, block_length, &none, 0);
}

/* The kernel gives a process another state, any but SANIRVOQ_STATE_STOPPED. Gives 0, 2, 3, 4, or 5 where the process is
 * Stopped or would be. */
SANIRVOQ_CHECKED static inline uint8_t sanirvoq_state(struct sanirvoq_record *record, struct sanirvoq_lent lent,
                                                      uint32_t pid, uint8_t state) {
    uint8_t none = 0;
    return sanirvoq_number(sanirvoq_step_state(&record->target, record->places, lent.memory, lent.memory_length,
                                               lent.registers, lent.registers_length, pid, state, &none, 0, &none, 0));
}

/* The debug session begins anew, as after a reset of the line: the program's own bytes go back under every trap, no
 * breakpoint is left, and Stopped processes are Ready. Gives 0, 2 (also where the reply is not ten bytes) or 3. The
 * reply, Rerr reset, goes to the host unasked. */
SANIRVOQ_CHECKED static inline uint8_t sanirvoq_restart(struct sanirvoq_record *record, struct sanirvoq_lent lent,
                                                        uint8_t *reply, sanirvoq_length reply_length) {
    uint8_t none = 0;
    return sanirvoq_number(sanirvoq_step_restart(&record->target, record->places, lent.memory, lent.memory_length,
                                                 lent.registers, lent.registers_length, 0, 0, &none, 0, reply,
                                                 reply_length));
}

/* What the reply to a text request says where it failed: the number behind the error flag SANIRVOQ_TEXT_ERROR. */
enum sanirvoq_errno {
    SANIRVOQ_ERRNO_ESRCH = 3,   /* a PID that is not 0; or registers, and no process is current */
    SANIRVOQ_ERRNO_EACCES = 13, /* a write to a word that has a protected byte */
    SANIRVOQ_ERRNO_EFAULT = 14, /* a word that is not all in the window */
    SANIRVOQ_ERRNO_EBUSY = 16,  /* registers of a current process that is not Stopped */
    SANIRVOQ_ERRNO_EINVAL = 22  /* a letter that is not served; an address that is no multiple of 4; a register over 33,
                                 * or a write to register 0 */
};

/* A request of the text dialect came, such as "0x0 i 0x1004 0x0", with no zero byte behind it. Its reply is put at the
 * front of the buffer, with no zero byte behind it either; the rest of the buffer stays. Letters:
 *
 *     i, d   read the word at ADDR
 *     I, D   write DATA as the word at ADDR; the response is the word that was there
 *     r      read the register of number ADDR of the current process: 0 to 31, 32 status, 33 pc
 *     R      write DATA to it; the response is what it held
 *
 * A word is the program's, as if there were no trap; its lowest byte is the one at ADDR. Gives a result: number 0, or,
 * tested in this order, 2 (memory or registers), 3, 11 (the reply buffer) or 10 (no packet's text). With 0 the text is
 * in the buffer, sanirvoq_first(result) bytes. Its answer is SANIRVOQ_ANSWER_NOTHING where the error flag is 0 and the
 * response follows, SANIRVOQ_ANSWER_TEXT_ERROR where a sanirvoq_errno follows. */
SANIRVOQ_CHECKED static inline uint32_t sanirvoq_text(struct sanirvoq_record *record, struct sanirvoq_lent lent,
                                                      const uint8_t *request, sanirvoq_length request_length,
                                                      uint8_t *reply, sanirvoq_length reply_length) {
    return sanirvoq_step_text(&record->target, record->places, lent.memory, lent.memory_length, lent.registers,
                              lent.registers_length, 0, 0, request, request_length, reply, reply_length);
}

/* Puts the program's own bytes back where the window at base has the trap of a used entry, for a kernel that gives up a
 * record with number 3 and sets up anew. It trusts nothing in the record: an entry whose site is not in the window, or
 * where memory does not hold the trap, is left out. Gives how many used entries were left out; the kernel has to know
 * by itself what belongs there. It changes the window alone. */
SANIRVOQ_CHECKED static inline uint32_t sanirvoq_put_back(const struct sanirvoq_record *record,
                                                          struct sanirvoq_lent lent, uint32_t base) {
    uint32_t left_out = 0;
    for (uint32_t i = 0; i < SANIRVOQ_ENTRIES; i++) {
        const struct sanirvoq_entry *entry = &record->target.table.entries[i];
        const sanirvoq_length at = (uint32_t)(entry->site - base); /* of a site below the window very large */
        if (entry->used != 1) {
            continue;
        }
        if (at + 2 <= lent.memory_length && lent.memory[at] == SANIRVOQ_TRAP_FIRST &&
            lent.memory[at + 1] == SANIRVOQ_TRAP_SECOND) {
            lent.memory[at] = entry->plain[0];
            lent.memory[at + 1] = entry->plain[1];
        } else {
            left_out++;
        }
    }
    return left_out;
}

/* ---- patches: offered writes checked, and the fewest writes planned, from the window to a wanted image ----
 *
 * Both calls are over the program's own bytes, as if there were no trap, and only read the record, the window and the
 * register area; nothing is written until the host sends the writes as requests. The window is laid out in room, which
 * has its size, and what room holds afterwards is of no account. */

/* A write, as a Tmput makes it. */
struct sanirvoq_write {
    uint32_t address;
    uint32_t count;   /* 1 to 4 */
    uint8_t bytes[4]; /* the first count of them; the planner's others are 0, the checker ignores them */
};

enum sanirvoq_verdict_kind {
    SANIRVOQ_VERDICT_ACCEPTED = 0,     /* all writes in order give the wanted image */
    SANIRVOQ_VERDICT_BROKEN_BOUND = 1, /* a write has another count, leaves the window or touches a protected byte */
    SANIRVOQ_VERDICT_IMAGES_DIFFER = 2 /* every write is allowed, and they give another image */
};

/* What checking gives. */
struct sanirvoq_verdict {
    uint8_t number;
    uint8_t verdict; /* a sanirvoq_verdict_kind */
    uint32_t index;  /* of a broken bound: the first write that breaks one; else 0 */
};

/* What planning gives. */
struct sanirvoq_planning {
    uint8_t number;
    uint32_t address; /* with number 21: of the lowest protected byte that differs; else 0 */
    uint32_t writes;  /* with number 0: how many writes the plan has; else 0 */
};

SANIRVOQ_ASSERT(sizeof(struct sanirvoq_write) == 12, "the size of a write");
SANIRVOQ_ASSERT(sizeof(struct sanirvoq_verdict) == 8, "the size of a verdict");
SANIRVOQ_ASSERT(sizeof(struct sanirvoq_planning) == 12, "the size of what planning gives");

/* As the archive exports them; offer_length and list_length count writes. */
SANIRVOQ_CHECKED struct sanirvoq_verdict
sanirvoq_patch_check(const struct sanirvoq_target *target, const uint32_t *places, const uint8_t *memory,
                     sanirvoq_length memory_length, const uint8_t *registers, sanirvoq_length registers_length,
                     const struct sanirvoq_write *offer, sanirvoq_length offer_length, const uint8_t *wanted,
                     sanirvoq_length wanted_length, uint8_t *room, sanirvoq_length room_length);
SANIRVOQ_CHECKED struct sanirvoq_planning
sanirvoq_patch_plan(const struct sanirvoq_target *target, const uint32_t *places, const uint8_t *memory,
                    sanirvoq_length memory_length, const uint8_t *registers, sanirvoq_length registers_length,
                    const uint8_t *wanted, sanirvoq_length wanted_length, uint8_t *room, sanirvoq_length room_length,
                    struct sanirvoq_write *list, sanirvoq_length list_length);

/* Whether an offer of writes, in their order, turns the window into a wanted image of its size. number is 0 with a
 * verdict, or, tested in this order, 2 (memory, registers or room), 3 or 16. */
SANIRVOQ_CHECKED static inline struct sanirvoq_verdict
sanirvoq_check(const struct sanirvoq_record *record, struct sanirvoq_lent lent, const struct sanirvoq_write *offer,
               sanirvoq_length offer_length, const uint8_t *wanted, sanirvoq_length wanted_length, uint8_t *room,
               sanirvoq_length room_length) {
    return sanirvoq_patch_check(&record->target, record->places, lent.memory, lent.memory_length, lent.registers,
                                lent.registers_length, offer, offer_length, wanted, wanted_length, room, room_length);
}

/* Plans the writes from the window to a wanted image of its size, at the front of the list: no accepted offer is
 * shorter. number is 0, or, tested in this order, 2 (memory, registers or room), 3, 16, 21 where a protected byte
 * differs, or 17 where the list is shorter than the plan. Other places of the list stay, and where the number is not 0
 * all do. */
SANIRVOQ_CHECKED static inline struct sanirvoq_planning
sanirvoq_plan(const struct sanirvoq_record *record, struct sanirvoq_lent lent, const uint8_t *wanted,
              sanirvoq_length wanted_length, uint8_t *room, sanirvoq_length room_length, struct sanirvoq_write *list,
              sanirvoq_length list_length) {
    return sanirvoq_patch_plan(&record->target, record->places, lent.memory, lent.memory_length, lent.registers,
                               lent.registers_length, wanted, wanted_length, room, room_length, list, list_length);
}

/* ---- messages: the ten bytes of a request or a reply, for the host's side too; need no record ---- */

/* The types that messages have: T from the host, R from the stub. */
enum sanirvoq_message_type {
    SANIRVOQ_MSG_RERR = 1,
    SANIRVOQ_MSG_TMGET = 2,
    SANIRVOQ_MSG_RMGET = 3,
    SANIRVOQ_MSG_TMPUT = 4,
    SANIRVOQ_MSG_RMPUT = 5,
    SANIRVOQ_MSG_TPROC = 6,
    SANIRVOQ_MSG_RPROC = 7,
    SANIRVOQ_MSG_TSTATUS = 8,
    SANIRVOQ_MSG_RSTATUS = 9,
    SANIRVOQ_MSG_TRNOTE = 10,
    SANIRVOQ_MSG_RRNOTE = 11,
    SANIRVOQ_MSG_TSTOP = 12,
    SANIRVOQ_MSG_RSTOP = 13,
    SANIRVOQ_MSG_TSTART = 14,
    SANIRVOQ_MSG_RSTART = 15,
    SANIRVOQ_MSG_TCONDBREAK = 16,
    SANIRVOQ_MSG_RCONDBREAK = 17
};

/* Why a request is refused by an Rerr. */
enum sanirvoq_reason {
    SANIRVOQ_REASON_RESET = 0,
    SANIRVOQ_REASON_COUNT = 1,
    SANIRVOQ_REASON_UNK = 2,
    SANIRVOQ_REASON_INVAL = 3,
    SANIRVOQ_REASON_PID = 4,
    SANIRVOQ_REASON_UNSUP = 5,
    SANIRVOQ_REASON_NOTSTOP = 6
};

/* A message by its type and its fields. A field that the type does not use is ignored when it is encoded and 0 when it
 * is decoded. */
struct sanirvoq_fields {
    uint8_t kind;     /* a sanirvoq_message_type */
    uint8_t n;        /* the count of Tmget and Tmput */
    uint8_t op;       /* the letter of Tcondbreak */
    uint8_t code;     /* the state of Rstatus, the sanirvoq_reason of Rerr */
    uint32_t value;   /* the address of Tmget, Tmput and Rproc, the pid of Tproc, Tstatus, Trnote, Tstop and Tstart, the
                       * val of Tcondbreak */
    uint8_t bytes[9]; /* the nine of Rmget, the first four of Tmput */
};

/* What decoding gives. */
struct sanirvoq_found {
    uint8_t number;
    struct sanirvoq_fields fields;
};

SANIRVOQ_ASSERT(sizeof(struct sanirvoq_fields) == 20, "the size of a message's fields");
SANIRVOQ_ASSERT(sizeof(struct sanirvoq_found) == 24, "the size of what decoding gives");

/* Writes a message's ten bytes. Gives 0, or 2 where the buffer is not ten bytes, then 7 where the fields are no
 * message; the buffer is as it was then. */
SANIRVOQ_CHECKED uint8_t sanirvoq_message_encode(struct sanirvoq_fields fields, uint8_t *buffer,
                                                 sanirvoq_length length);

/* Reads ten bytes. number is 0, or 2 where they are not ten, then 7 where they are no message's; the fields are all 0
 * then. */
SANIRVOQ_CHECKED struct sanirvoq_found sanirvoq_message_decode(const uint8_t *bytes, sanirvoq_length length);

/* ---- what differs between two images; needs no record ---- */

struct sanirvoq_comparison {
    uint8_t number;
    uint32_t runs; /* how many runs of differing bytes there are; 0 where the number is 8 */
};

SANIRVOQ_ASSERT(sizeof(struct sanirvoq_comparison) == 8, "the size of a comparison");

/* Fills the list from its start with every maximal run of differing bytes once, rising: run k is list[2 * k], the
 * offset of its first byte, and list[2 * k + 1], its length. places is the list's length in numbers. number is 0, or 8
 * (SANIRVOQ_ERR_IMAGES), then 9 where the list is shorter than two places for each run. Other places stay, and where
 * the number is not 0 all do. The images may be one buffer or overlap; the list is apart from both. */
SANIRVOQ_CHECKED struct sanirvoq_comparison sanirvoq_image_differences(const uint8_t *a, sanirvoq_length a_length,
                                                                       const uint8_t *b, sanirvoq_length b_length,
                                                                       uint32_t *list, sanirvoq_length places);

/* ---- packets of the text dialect; need no record ---- */

#define SANIRVOQ_TEXT_ERROR UINT32_C(0xffffffff) /* the error flag of a reply that says an error, -1; else it is 0 */

/* Four fields: PID LETTER ADDR DATA, or a reply's PID LETTER ERRFLG RESPONSE. */
struct sanirvoq_text_packet {
    uint32_t pid;
    uint8_t letter;  /* 0x21 to 0x7e */
    uint32_t third;  /* the address, or the error flag */
    uint32_t fourth; /* the data, or the response */
};

/* What encoding gives. */
struct sanirvoq_text_written {
    uint8_t number;
    uint32_t filled; /* the bytes of the text; 0 where the number is not 0 */
};

/* What decoding gives. */
struct sanirvoq_text_found {
    uint8_t number;
    struct sanirvoq_text_packet packet; /* all 0 where the number is not 0 */
};

SANIRVOQ_ASSERT(sizeof(struct sanirvoq_text_packet) == 16, "the size of a text packet");
SANIRVOQ_ASSERT(sizeof(struct sanirvoq_text_written) == 8, "the size of what encoding a text packet gives");
SANIRVOQ_ASSERT(sizeof(struct sanirvoq_text_found) == 20, "the size of what decoding a text packet gives");

/* Writes a packet's one text to the front of the buffer, and nothing behind it, no zero byte either. number is 0, or 11
 * where the buffer is shorter than SANIRVOQ_TEXT_SIZE, whatever the text's length, then 10 where no packet has the
 * letter. Other places stay, and where the number is not 0 all do. */
SANIRVOQ_CHECKED struct sanirvoq_text_written sanirvoq_text_encode(struct sanirvoq_text_packet packet, uint8_t *buffer,
                                                                   sanirvoq_length length);

/* Reads the packet whose text these bytes are: 0x and lower-case hex digits without leading zeros for a number, one
 * blank between fields, nothing behind. number is 0, or 10 for other bytes. */
SANIRVOQ_CHECKED struct sanirvoq_text_found sanirvoq_text_decode(const uint8_t *bytes, sanirvoq_length length);

/* ---- packets against noise on the line (docs/PROTOCOL.md, Frames); need no record ---- */

/* A reader between two bytes of the line: numbers only, and any numbers are one. Begin with sanirvoq_frame_reader(). */
struct sanirvoq_frame_reader {
    uint64_t last;
    uint32_t count;
    uint32_t id;
    uint16_t scale;
    uint16_t size;
    uint16_t sum;
    uint8_t phase;
    uint8_t held;
};

enum sanirvoq_frame_answer_kind {
    SANIRVOQ_FRAME_ANSWER_NOTHING = 0, /* the piece is used up */
    SANIRVOQ_FRAME_ANSWER_PACKET = 1,
    SANIRVOQ_FRAME_ANSWER_BAD_HEADER = 2, /* or a bad body under a header that is not CVK_HDR_DATA */
    SANIRVOQ_FRAME_ANSWER_BAD_BODY = 3
};

/* An answer. Fields that its kind does not have are 0. */
struct sanirvoq_frame_answer {
    uint32_t id;      /* of a packet: the logical ID */
    uint16_t size;    /* of a packet: the bytes of its body */
    uint8_t kind;     /* a sanirvoq_frame_answer_kind */
    uint8_t index;    /* of a packet or a bad body: the index of its ID */
    uint8_t sequence; /* of a packet or a bad body: the sequence of its ID */
    uint8_t request;  /* of a packet: 1 where it is a request (CVK_HDR_DATA with a body of ten bytes) */
};

/* What feeding gives. */
struct sanirvoq_frame_fed {
    struct sanirvoq_frame_reader reader; /* after the bytes that were taken */
    sanirvoq_length taken;               /* how many bytes of the piece that is */
    struct sanirvoq_frame_answer answer;
    uint8_t number;
};

SANIRVOQ_ASSERT(sizeof(struct sanirvoq_frame_reader) == 24, "the size of a frame reader");
SANIRVOQ_ASSERT(sizeof(struct sanirvoq_frame_answer) == 12, "the size of a frame reader's answer");
SANIRVOQ_ASSERT(offsetof(struct sanirvoq_frame_fed, answer) == 32, "where the answer is");
SANIRVOQ_ASSERT(sizeof(struct sanirvoq_frame_fed) == 48, "the size of what feeding gives");

/* A reader that skips to the next begin byte, 0x1d. */
SANIRVOQ_CHECKED struct sanirvoq_frame_reader sanirvoq_frame_reader(void);

/* Takes a piece of the line up to its first answer. The bytes of a body and its checksum go to the front of the buffer
 * as each is complete; at a packet its body is the first answer.size bytes. Lend the same buffer until an answer, and
 * leave it as it is. number is 0, or 12 where the buffer is under SANIRVOQ_FRAME_BUFFER_SIZE bytes; no byte is taken
 * then, and the reader is as it was. */
SANIRVOQ_CHECKED struct sanirvoq_frame_fed sanirvoq_frame_feed(struct sanirvoq_frame_reader reader,
                                                               const uint8_t *piece, sanirvoq_length piece_length,
                                                               uint8_t *buffer, sanirvoq_length buffer_length);

/* Frames ten bytes with the sequence of the request that they answer. Gives 0, or 2 where the message is not ten bytes,
 * then 12 where the buffer is not SANIRVOQ_FRAME_REPLY_SIZE bytes or the sequence is over 255; the buffer is as it was
 * then. */
SANIRVOQ_CHECKED uint8_t sanirvoq_frame_reply(uint32_t sequence, const uint8_t *message, sanirvoq_length message_length,
                                              uint8_t *buffer, sanirvoq_length buffer_length);

#ifdef __cplusplus
}
#endif

#endif
