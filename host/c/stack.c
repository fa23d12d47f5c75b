/* Load, overlay and the reading of a remark on a tape of many short records;
 * host/test gives it little stack. Prints what differs. */
#include "expect.h"

enum { CELLS = 16384, BLOCKS = 4600, LONGEST = 65536 };

static const rc4000_control given = {14, 3, 5, 7, 129, 2, 1, 0, 0, 11, 13, 12, 17};
static uint32_t store[CELLS];
static uint8_t tape[LONGEST];
static size_t length;

static void punch(uint32_t number, int bytes) {
    for (; bytes > 0; bytes--, number >>= 8) tape[length++] = number & 255;
}

/* Blocks of one cell, every other cell from the last one on, then the record and the end. */
static void punch_tape(void) {
    for (uint32_t i = BLOCKS; i > 0; i--) {
        punch(8, 4);
        punch(1, 2);
        punch(2 * i, 4);
        punch(i, 4);
    }
    punch(20, 4);
    punch(2, 2);
    for (int i = 0; i < 4; i++) punch(0, 4);
    punch(128, 1);
    punch(0, 1);
    punch(5, 2);
    punch(0, 4);
    punch(3, 2);
}

int main(void) {
    punch_tape();
    expect(rc4000_load(store, CELLS, given, tape, length).refusal == 0, "load");
    expect(rc4000_overlay(store, CELLS, given, tape, length).refusal == 0, "overlay");
    const rc4000_text text = rc4000_remark(tape, length, CELLS);
    expect(text.refusal == 0 && !text.found, "remark");
    return differences != 0;
}
