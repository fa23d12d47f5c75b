/* Load and overlay through the C calls: a load clears every cell that no block
 * names, an overlay keeps it, a refusal changes nothing. Prints what differs. */
#include "expect.h"
#include <string.h>

enum { CELLS = 16, LONGEST = 128 };

typedef rc4000_state loading(uint32_t *store, size_t cells, rc4000_control control,
                             const uint8_t *tape, size_t length);

static const rc4000_control given = {14, 3, 5, 7, 129, 2, 1, 0, 0, 11, 13, 12, 17};
static uint8_t tape[LONGEST];
static size_t length;

static void punch(uint32_t number, int bytes) {
    for (; bytes > 0; bytes--, number >>= 8) tape[length++] = number & 255;
}

/* A block of so many cells of this value. */
static void punch_block(uint32_t first, uint32_t count, uint32_t value) {
    punch(4 + 4 * count, 4);
    punch(1, 2);
    punch(first, 4);
    for (uint32_t i = 0; i < count; i++) punch(value, 4);
}

/* The control record after power on, in its form of 20 bytes, and the end. */
static void punch_last(void) {
    punch(20, 4);
    punch(2, 2);
    for (int i = 0; i < 4; i++) punch(0, 4);
    punch(128, 1);
    punch(0, 1);
    punch(5, 2);
    punch(0, 4);
    punch(3, 2);
}

/* A tape with one block, or with none where it has no cell. */
static void punch_tape(uint32_t first, uint32_t count, uint32_t value) {
    length = 0;
    if (count > 0) punch_block(first, count, value);
    punch_last();
}

/* Word and key in every cell, registers and words 8 to 14 included. */
static void fill(uint32_t *store) {
    for (uint32_t i = 0; i < CELLS; i++) store[i] = rc4000_cell(i % 7 + 1, i + 1);
}

/* The block's cells have its value, the others are zero or as they were. */
static void changes(loading *call, const char *what, bool clears, uint32_t first, uint32_t count) {
    uint32_t store[CELLS], expected[CELLS];
    fill(store);
    fill(expected);
    for (uint32_t i = 0; i < CELLS; i++) {
        if (clears) expected[i] = 0;
        if (i >= first && i < first + count) expected[i] = 5;
    }
    punch_tape(first, count, 5);
    const rc4000_state done = call(store, CELLS, given, tape, length);
    expect(done.refusal == 0 && same(done.control, rc4000_fresh()), what);
    expect(memcmp(store, expected, sizeof store) == 0, what);
}

/* The call gives the refusal, and changes nothing. */
static void refused(loading *call, const char *what, uint32_t *store, size_t cells,
                    uint32_t refusal) {
    uint32_t before[CELLS];
    memcpy(before, store, sizeof before);
    const rc4000_state done = call(store, cells, given, tape, length);
    expect(done.refusal == refusal && same(done.control, given), what);
    expect(memcmp(store, before, sizeof before) == 0, what);
}

/* The store is tested as it came, then the tape. */
static void refusals(loading *call) {
    uint32_t store[CELLS];
    fill(store);
    punch_tape(0, CELLS + 1, 5);
    refused(call, "block beyond the store", store, CELLS, RC4000_BLOCK_PLACE);
    refused(call, "store of 7 cells", store, 7, RC4000_STORE_SIZE);
    punch_tape(4, 2, 134217728);
    refused(call, "cell of a block", store, CELLS, RC4000_BLOCK_CELL);
    punch_tape(0, 1, 5);
    length--;
    refused(call, "tape that ends", store, CELLS, RC4000_TAPE_ENDS);
    punch_tape(0, CELLS, 5);
    store[9] = 134217728;
    refused(call, "cell of the store", store, CELLS, RC4000_CELL_VALUE);
}

/* A border over a ground: what neither names is zero. */
static void border_over_ground(void) {
    const uint32_t expected[CELLS] = {[3] = 5, 5, 6, 6, 6};
    uint32_t store[CELLS];
    fill(store);
    punch_tape(3, 3, 5);
    const rc4000_state loaded = rc4000_load(store, CELLS, given, tape, length);
    punch_tape(5, 3, 6);
    const rc4000_state laid = rc4000_overlay(store, CELLS, loaded.control, tape, length);
    expect(loaded.refusal == 0 && laid.refusal == 0, "ground and border");
    expect(memcmp(store, expected, sizeof store) == 0, "cells of ground and border");
}

int main(void) {
    for (uint32_t first = 0; first < CELLS; first++) {
        changes(rc4000_load, "load clears", true, first, 1);
        changes(rc4000_overlay, "overlay keeps", false, first, 1);
    }
    changes(rc4000_load, "load without a block", true, 0, 0);
    changes(rc4000_overlay, "overlay without a block", false, 0, 0);
    changes(rc4000_load, "load of every cell", true, 0, CELLS);
    changes(rc4000_overlay, "overlay of every cell", false, 0, CELLS);
    refusals(rc4000_load);
    refusals(rc4000_overlay);
    border_over_ground();
    return differences != 0;
}
