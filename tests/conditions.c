/* Conditions at their limits, 64 elements and 128 places, and where the record keeps them, as a program in C sees it
 * through include/sanirvoq.h. Prints what failed; the exit status is 1 then. */
#include "sanirvoq.h"

#include <stdio.h>
#include <string.h>

enum { BASE = 0x1000, SIZE = 64, PID = 5 };

static int failed;
static uint8_t memory[SIZE], registers[SANIRVOQ_BLOCK_SIZE], reply[SANIRVOQ_MESSAGE_SIZE];
static const struct sanirvoq_lent lent = {memory, SIZE, registers, SANIRVOQ_BLOCK_SIZE};
static struct sanirvoq_record record;

static void expect(int holds, const char *what) {
    if (!holds) {
        printf("%s\n", what);
        failed = 1;
    }
}

/* A Tcondbreak: whether it was accepted. */
static int take(char letter, uint32_t val) {
    const struct sanirvoq_fields fields = {.kind = SANIRVOQ_MSG_TCONDBREAK, .value = val, .op = (uint8_t)letter};
    uint8_t request[SANIRVOQ_MESSAGE_SIZE];
    expect(sanirvoq_message_encode(fields, request, sizeof request) == SANIRVOQ_OK, "a message");
    const uint32_t result = sanirvoq_request(&record, lent, request, sizeof request, reply, sizeof reply);
    expect(result == SANIRVOQ_OK, "a request of right size over a fit record");
    return reply[0] == SANIRVOQ_MSG_RCONDBREAK;
}

/* A Tcondbreak that is refused with count. */
static void refuse(char letter, const char *what) {
    expect(!take(letter, 0), what);
    expect(reply[0] == SANIRVOQ_MSG_RERR && memcmp(reply + 1, "count", 6) == 0, what);
}

/* A condition of so many elements, k and the number of each, then o; an even count. */
static void begin(uint32_t id, uint32_t count, uint32_t first) {
    expect(take('n', id), "n");
    for (uint32_t i = 0; i < count / 2; i++) {
        expect(take('k', first + i) && take('o', 0), "two elements");
    }
}

/* Whether the elements of an entry, or of the condition in hand, are those of `begin`. */
static int stands(size_t index, uint32_t count, uint32_t first) {
    const struct sanirvoq_table *table = &record.target.table;
    const uint8_t own = index < SANIRVOQ_ENTRIES ? table->entries[index].count : table->draft.count;
    const uint32_t *place = record.places + 2 * sanirvoq_first_place(&record, index);
    int same = own == count;
    for (uint32_t i = 0; same && i < count / 2; i++, place += 4) {
        same = place[0] == 'k' && place[1] == first + i && place[2] == 'o' && place[3] == 0;
    }
    return same;
}

static void set_up(void) {
    const struct sanirvoq_setup setup = {
        .base = BASE, .size = SIZE, .protected_from = BASE, .protected_to = BASE, .count = 1, .processes = {{PID, 0}}};
    /* Whatever the places hold is of no account. */
    memset(&record, 0xff, sizeof record);
    expect(sanirvoq_setup(&record, lent, &setup) == SANIRVOQ_OK, "setup");
}

static void fill(void) {
    begin(1, 64, 100);
    refuse('k', "a 65th element");
    expect(record.target.table.draft.active == 0, "it drops the condition in hand");
    begin(1, 64, 100);
    expect(take('b', BASE + 8), "b of 64 elements");
    begin(2, 2, 200);
    expect(take('b', BASE + 10), "b of 2 elements");
    begin(3, 62, 300);
    expect(stands(0, 64, 100) && stands(1, 2, 200) && stands(SANIRVOQ_ENTRIES, 62, 300), "128 places in order");
    refuse('*', "no place is left");
    expect(take('n', 3), "n needs no place");
}

static void give_back(void) {
    expect(take('d', 1), "d gives 64 back");
    expect(stands(1, 2, 200) && sanirvoq_first_place(&record, 1) == 0, "the others move to the front");
    begin(4, 64, 400);
    expect(stands(1, 2, 200) && stands(SANIRVOQ_ENTRIES, 64, 400), "a condition in hand stands last");
    expect(take('b', BASE + 8), "b at the free entry of the lowest index");
    expect(stands(0, 64, 400) && stands(1, 2, 200), "its elements stand at the front");
}

/* Whether the breakpoints, the condition in hand and all places are the same; what lies between fields may never have
 * been written. */
static int same_table(const struct sanirvoq_record *a, const struct sanirvoq_record *b) {
    const struct sanirvoq_draft *hand = &a->target.table.draft, *other = &b->target.table.draft;
    int same = memcmp(a->places, b->places, sizeof a->places) == 0 && hand->active == other->active &&
               hand->id == other->id && hand->count == other->count;
    for (size_t i = 0; i < SANIRVOQ_ENTRIES; i++) {
        const struct sanirvoq_entry *x = &a->target.table.entries[i], *y = &b->target.table.entries[i];
        same = same && x->used == y->used && x->id == y->id && x->count == y->count && x->site == y->site &&
               memcmp(x->plain, y->plain, sizeof x->plain) == 0;
    }
    return same;
}

static void be_spoiled(void) {
    struct sanirvoq_record before;
    const uint8_t counts[] = {65, 255};
    for (size_t i = 0; i < sizeof counts; i++) {
        record.target.table.entries[1].count = counts[i];
        before = record;
        expect(sanirvoq_restart(&record, lent, reply, sizeof reply) == SANIRVOQ_ERR_UNFIT, "too many elements");
        expect(same_table(&before, &record), "the record after number 3");
    }
    record.target.table.entries[1].count = 2;
    record.places[2] |= 0x100;
    expect(sanirvoq_restart(&record, lent, reply, sizeof reply) == SANIRVOQ_ERR_UNFIT, "a letter over 255");
    record.places[2] &= 0xff;
    expect(sanirvoq_restart(&record, lent, reply, sizeof reply) == SANIRVOQ_OK, "restart");
    expect(sanirvoq_first_place(&record, SANIRVOQ_ENTRIES) == 0, "a restart gives all back");
}

int main(void) {
    set_up();
    fill();
    give_back();
    be_spoiled();
    return failed;
}
