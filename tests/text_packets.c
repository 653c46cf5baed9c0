/* Text packets as a program in C writes and reads them, through include/sanirvoq.h. Prints what failed; the exit status
 * is 1 then. */
#include "sanirvoq.h"

#include <stdio.h>
#include <string.h>

static int failed;

static void expect(int holds, const char *what) {
    if (!holds) {
        printf("%s\n", what);
        failed = 1;
    }
}

static int equal(struct sanirvoq_text_packet a, struct sanirvoq_text_packet b) {
    return a.pid == b.pid && a.letter == b.letter && a.third == b.third && a.fourth == b.fourth;
}

static struct sanirvoq_text_found read_text(const char *text) {
    return sanirvoq_text_decode((const uint8_t *)text, strlen(text));
}

int main(void) {
    const struct sanirvoq_text_packet request = {0, 'i', 0x1004, 0};
    const struct sanirvoq_text_packet most = {0xffffffff, '~', 0xffffffff, 0xffffffff};
    const struct sanirvoq_text_packet blank = {0, ' ', 0, 0}, none = {0, 0, 0, 0};
    uint8_t buffer[SANIRVOQ_TEXT_SIZE + 1], untouched[SANIRVOQ_TEXT_SIZE + 1];
    memset(buffer, 0xee, sizeof buffer);
    memset(untouched, 0xee, sizeof untouched);

    struct sanirvoq_text_written done = sanirvoq_text_encode(blank, buffer, SANIRVOQ_TEXT_SIZE - 1);
    expect(done.number == SANIRVOQ_ERR_TEXT_BUFFER && done.filled == 0, "a buffer of 33 bytes");
    done = sanirvoq_text_encode(blank, buffer, SANIRVOQ_TEXT_SIZE);
    expect(done.number == SANIRVOQ_ERR_NO_PACKET && done.filled == 0, "a blank for a letter");
    expect(memcmp(buffer, untouched, sizeof buffer) == 0, "the buffer after 10 and 11");

    done = sanirvoq_text_encode(request, buffer, SANIRVOQ_TEXT_SIZE);
    expect(done.number == SANIRVOQ_OK && done.filled == 16, "a request");
    expect(memcmp(buffer, "0x0 i 0x1004 0x0", 16) == 0, "its text");
    expect(memcmp(buffer + 16, untouched, sizeof buffer - 16) == 0, "the rest of the buffer");

    done = sanirvoq_text_encode(most, buffer, SANIRVOQ_TEXT_SIZE);
    expect(done.number == SANIRVOQ_OK && done.filled == SANIRVOQ_TEXT_SIZE, "the longest text");
    expect(memcmp(buffer, "0xffffffff ~ 0xffffffff 0xffffffff\xee", SANIRVOQ_TEXT_SIZE + 1) == 0, "its bytes");

    struct sanirvoq_text_found found = sanirvoq_text_decode(buffer, SANIRVOQ_TEXT_SIZE);
    expect(found.number == SANIRVOQ_OK && equal(found.packet, most), "the longest text read back");
    found = read_text("0x7 D 0x1008 0xdeadbeef");
    const struct sanirvoq_text_packet write = {7, 'D', 0x1008, 0xdeadbeef};
    expect(found.number == SANIRVOQ_OK && equal(found.packet, write), "each field in its place");
    found = sanirvoq_text_decode(buffer, SANIRVOQ_TEXT_SIZE + 1);
    expect(found.number == SANIRVOQ_ERR_NO_PACKET && equal(found.packet, none), "a byte after");
    found = read_text("");
    expect(found.number == SANIRVOQ_ERR_NO_PACKET, "nothing at all");
    found = read_text("0x0 i 0x01004 0x0");
    expect(found.number == SANIRVOQ_ERR_NO_PACKET, "a leading zero");
    return failed;
}
