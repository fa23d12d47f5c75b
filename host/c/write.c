/* Writing tapes through the C call: a machine and its remark come back from
 * their tape, the bytes behind it are kept, and a refusal changes nothing.
 * Prints what differs. */
#include "expect.h"
#include <string.h>

enum { CELLS = 16, FULL = 16368, LARGE = 20000 }; /* cells of stores */
enum { KEPT = 170, SPACE = RC4000_LONGEST_TAPE + 8, BARE = 39 + 6 };

static const rc4000_control running = {18, 4194304, 16777215, 6, 255, 5, 1, 1, 0,
                                       4294967295, 16777216, 16777215, 23};
static const uint8_t text[256] = "taken away";
static uint8_t tape[SPACE];
static uint32_t large[LARGE];

static bool kept(size_t from) {
    for (size_t i = from; i < SPACE; i++)
        if (tape[i] != KEPT) return false;
    return true;
}

/* Writes into the first bytes of a buffer, so many, that are all KEPT before. */
static rc4000_written write_tape(const uint32_t *store, size_t cells, rc4000_control control,
                                 uint8_t given, size_t remark, size_t space) {
    memset(tape, KEPT, sizeof tape);
    return rc4000_write(store, cells, control, given, text, remark, tape, space);
}

/* The machine of these 16 cells comes back from its tape of so many bytes,
 * whatever the store held, and so does its remark; the buffer may be just as
 * long. */
static void comes_back(const uint32_t *cells, uint8_t given, size_t remark, size_t length) {
    uint32_t store[CELLS], other[CELLS];
    memcpy(store, cells, sizeof store);
    for (uint32_t i = 0; i < CELLS; i++) other[i] = rc4000_cell(7 - i % 7, 99);
    const rc4000_written written = write_tape(store, CELLS, running, given, remark, length);
    expect(written.refusal == 0 && written.length == length, "length of the tape");
    expect(kept(length), "bytes behind the tape");
    expect(memcmp(store, cells, sizeof store) == 0, "store that is written");
    const rc4000_state loaded = rc4000_load(other, CELLS, rc4000_fresh(), tape, length);
    expect(loaded.refusal == 0 && same(loaded.control, running), "record that comes back");
    expect(memcmp(other, cells, sizeof other) == 0, "store that comes back");
    const rc4000_text found = rc4000_remark(tape, length, CELLS);
    expect(found.refusal == 0 && found.found == (given != 0), "remark is there");
    if (given == 0) return;
    expect(found.end - found.start == remark, "length of the remark");
    expect(memcmp(tape + found.start, text, remark) == 0, "text of the remark");
}

/* Blocks: cells 0 and 1, a key without a word, the last cell. */
static void round_trips(void) {
    const uint32_t none[CELLS] = {0}, some[CELLS] = {5, 134217727, [4] = 3u << 24, [15] = 1};
    uint32_t all[CELLS];
    for (uint32_t i = 0; i < CELLS; i++) all[i] = rc4000_cell(i % 8, i + 1);
    comes_back(none, 0, 0, BARE);
    comes_back(none, 1, 0, BARE + 6);
    comes_back(none, 255, 10, BARE + 16);
    comes_back(some, 0, 10, BARE + 46);
    comes_back(some, 1, 255, BARE + 46 + 6 + 255);
    comes_back(all, 2, 1, BARE + 10 + 4 * CELLS + 7);
}

/* An empty remark is a record of its own in front of the same tape. NULL will
 * do for the text. */
static void empty_remark(void) {
    uint8_t none[BARE];
    const rc4000_written without =
        rc4000_write(large, LARGE, rc4000_fresh(), 0, NULL, 0, none, sizeof none);
    expect(without.refusal == 0 && without.length == BARE, "tape with no remark");
    memset(tape, KEPT, sizeof tape);
    const rc4000_written empty =
        rc4000_write(large, LARGE, rc4000_fresh(), 1, NULL, 0, tape, SPACE);
    expect(empty.refusal == 0 && empty.length == BARE + 6, "tape with an empty remark");
    expect(memcmp(tape, (const uint8_t[6]){0, 0, 0, 0, 4, 0}, 6) == 0, "empty remark");
    expect(memcmp(tape + 6, none, sizeof none) == 0, "tape behind an empty remark");
    expect(kept(BARE + 6), "bytes behind the tape with an empty remark");
}

/* Refused with a number: no byte of the buffer changes. */
static void refused(uint32_t number, size_t cells, rc4000_control control, uint8_t given,
                    size_t remark, size_t space) {
    const rc4000_written written = write_tape(large, cells, control, given, remark, space);
    expect(written.refusal == number && written.length == 0, rc4000_refusal_text(number));
    expect(kept(0), "buffer of a refused call");
}

/* Each refusal with all that come after it, from a store that is too small on. */
static void refusals(void) {
    const rc4000_control zeros = {0};
    rc4000_control late = running;
    late.phase = late.period;
    for (size_t i = 0; i < LARGE; i++) large[i] = 1;
    large[5] = 134217728;
    refused(RC4000_STORE_SIZE, 7, zeros, 1, 256, 0);
    refused(RC4000_CELL_VALUE, LARGE, zeros, 1, 256, 0);
    large[5] = 1;
    refused(RC4000_CONTROL_FIELD, LARGE, zeros, 1, 256, 0);
    refused(RC4000_TIMER, LARGE, late, 1, 256, 0);
    refused(RC4000_REMARK_LENGTH, LARGE, running, 1, 256, 0);
    refused(RC4000_REMARK_LENGTH, 8, running, 255, 256, SPACE);
    refused(RC4000_WRITTEN_LENGTH, LARGE, running, 1, 255, 0);
    refused(RC4000_WRITTEN_LENGTH, LARGE, running, 0, 256, SPACE);
    refused(RC4000_BUFFER_LENGTH, 8, running, 1, 255, BARE + 42 + 6 + 255 - 1);
    refused(RC4000_BUFFER_LENGTH, 8, running, 0, 256, BARE + 42 - 1);
    refused(RC4000_BUFFER_LENGTH, 8, running, 0, 0, 0);
}

/* The machine of so many cells, one of them zero, comes back from its tape of
 * so many bytes, written into a buffer as long and into one a byte longer; one
 * a byte shorter is refused. */
static void fits(size_t cells, uint8_t given, size_t remark, size_t length) {
    static uint32_t other[FULL];
    for (size_t more = 0; more < 2; more++) {
        const rc4000_written written =
            write_tape(large, cells, running, given, remark, length + more);
        expect(written.refusal == 0 && written.length == length, "length of a long tape");
        expect(kept(length), "bytes behind a long tape");
    }
    memset(other, 0, sizeof other);
    const rc4000_state loaded = rc4000_load(other, cells, rc4000_fresh(), tape, length);
    expect(loaded.refusal == 0 && same(loaded.control, running), "record of a long tape");
    expect(memcmp(large, other, cells * sizeof *other) == 0, "store of a long tape");
    refused(RC4000_BUFFER_LENGTH, cells, running, given, remark, length - 1);
}

/* Two blocks of 16,367 cells together make a tape of 65,533 bytes. Two cells
 * less leave 11 bytes for a remark: 6 and its text. */
static void longest(void) {
    for (size_t i = 0; i < LARGE; i++) large[i] = i != 100;
    fits(FULL, 0, 0, RC4000_LONGEST_TAPE - 3);
    refused(RC4000_WRITTEN_LENGTH, FULL, running, 1, 0, SPACE);
    refused(RC4000_WRITTEN_LENGTH, FULL + 1, running, 0, 0, SPACE);
    fits(FULL - 2, 1, 4, RC4000_LONGEST_TAPE - 1);
    fits(FULL - 2, 1, 5, RC4000_LONGEST_TAPE);
    refused(RC4000_WRITTEN_LENGTH, FULL - 2, running, 1, 6, SPACE);
    refused(RC4000_WRITTEN_LENGTH, FULL - 2, running, 1, 6, RC4000_LONGEST_TAPE);
}

int main(void) {
    round_trips();
    empty_remark();
    refusals();
    longest();
    return differences != 0;
}
