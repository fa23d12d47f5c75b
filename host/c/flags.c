/* Every byte as each flag of the control record, through every call that takes
 * one: what is not 0 or 1 is refused with 3, after 1 and 2, and comes back as
 * given. Prints what differs. */
#include "expect.h"
#include <string.h>

enum { CELLS = 8, FLAGS = 3, WRITTEN = 39 + 6 };

static const uint8_t tape[32] = {20, 0, 0, 0, 2, 0, [22] = 128, 0, 5, 0, 0, 0, 0, 0, 3, 0};
static const rc4000_control tapes_record = {.pr = 128, .monitor = 1, .reset = 1};
static const uint8_t wrong[5] = {1, 2, 3, 4, 64}; /* the last is no character */

static void expect_for(bool holds, const char *what, int flag, unsigned byte) {
    if (!holds) printf("flag %d, byte %u: ", flag, byte);
    expect(holds, what);
}

/* Monitor mode, one flag set to a byte. */
static rc4000_control with_flag(int flag, unsigned byte) {
    rc4000_control control = {14, 3, 5, 7, 129, 2, 1, 0, 0, 4294967295, 100, 99, 23};
    uint8_t *flags[FLAGS] = {&control.monitor, &control.enabled, &control.reset};
    *flags[flag] = (uint8_t)byte;
    return control;
}

/* The run gives the refusal before lines, budget and devices are tested, and
 * changes nothing. */
static void run_refused(uint32_t *store, size_t count, uint32_t refusal, int flag, unsigned byte) {
    const rc4000_control given = with_flag(flag, byte);
    const rc4000_devices wide = {16777216, 5};
    uint8_t typing = 7;
    const rc4000_result run =
        rc4000_run(store, count, given, 16777216, 65536, wide, wrong, sizeof wrong, &typing, 1);
    expect_for(run.outcome == RC4000_REFUSED && run.number == refusal, "run", flag, byte);
    expect_for(run.executed == 0 && run.entries == 0, "counts of run", flag, byte);
    expect_for(run.taken == 0 && run.typed == 0 && typing == 7, "devices of run", flag, byte);
    const bool registers = run.devices.reader == 16777216 && run.devices.typewriter == 5;
    expect_for(registers, "registers of run", flag, byte);
    expect_for(same(run.control, given), "record of run", flag, byte);
}

/* So does the autoload key. */
static void autoload_refused(uint32_t *store, size_t count, uint32_t refusal, int flag,
                             unsigned byte) {
    const rc4000_control given = with_flag(flag, byte);
    const rc4000_devices wide = {3, 16777216};
    const rc4000_autoloaded key =
        rc4000_press_autoload(store, count, given, wide, wrong, sizeof wrong);
    expect_for(key.refusal == refusal && key.taken == 0, "autoload key", flag, byte);
    expect_for(key.devices.reader == 3 && key.devices.typewriter == 16777216,
           "registers of the autoload key", flag, byte);
    expect_for(same(key.control, given), "record of the autoload key", flag, byte);
}

/* So does the writer, before it tests remark and buffer. */
static void write_refused(uint32_t *store, size_t count, uint32_t refusal, int flag,
                          unsigned byte) {
    static const uint8_t text[256];
    uint8_t buffer = 7;
    const rc4000_written written =
        rc4000_write(store, count, with_flag(flag, byte), 1, text, sizeof text, &buffer, 1);
    expect_for(written.refusal == refusal && written.length == 0, "writer", flag, byte);
    expect_for(buffer == 7, "buffer of the writer", flag, byte);
}

/* Each call on a store of these cells gives the refusal, and changes nothing. */
static void refused(const uint32_t *cells, size_t count, uint32_t refusal, int flag,
                    unsigned byte) {
    const rc4000_control given = with_flag(flag, byte);
    uint32_t store[CELLS];
    memcpy(store, cells, sizeof store);
    run_refused(store, count, refusal, flag, byte);
    autoload_refused(store, count, refusal, flag, byte);
    write_refused(store, count, refusal, flag, byte);
    const rc4000_state reset = rc4000_press_reset(store, count, given);
    expect_for(reset.refusal == refusal, "reset key", flag, byte);
    expect_for(same(reset.control, given), "record of the reset key", flag, byte);
    const rc4000_state start = rc4000_press_start(store, count, given);
    expect_for(start.refusal == refusal, "start key", flag, byte);
    expect_for(same(start.control, given), "record of the start key", flag, byte);
    expect_for(memcmp(store, cells, sizeof store) == 0, "store", flag, byte);
}

/* 0 and 1 are written, and come back from the tape. */
static void written(int flag, unsigned byte) {
    const rc4000_control given = with_flag(flag, byte);
    uint32_t store[CELLS] = {0};
    uint8_t buffer[WRITTEN];
    const rc4000_written done =
        rc4000_write(store, CELLS, given, 0, NULL, 0, buffer, sizeof buffer);
    expect_for(done.refusal == 0 && done.length == WRITTEN, "writer", flag, byte);
    const rc4000_state back = rc4000_load(store, CELLS, tapes_record, buffer, sizeof buffer);
    expect_for(back.refusal == 0 && same(back.control, given), "record written", flag, byte);
}

/* 0 and 1 are taken. */
static void taken(int flag, unsigned byte) {
    const rc4000_control given = with_flag(flag, byte);
    uint32_t store[CELLS] = {0};
    const rc4000_result run = rc4000_run_without_devices(store, CELLS, given, 0, 0);
    expect_for(run.outcome == (given.reset ? RC4000_RESET : RC4000_SPENT), "run", flag, byte);
    expect_for(same(run.control, given), "record of run", flag, byte);
    const rc4000_state start = rc4000_press_start(store, CELLS, given);
    expect_for(start.refusal == 0 && start.control.reset == 0, "start key", flag, byte);
    const rc4000_autoloaded key =
        rc4000_press_autoload(store, CELLS, given, (rc4000_devices){0, 0}, wrong, 4);
    expect_for(key.refusal == 0 && key.control.reset == 0, "autoload key", flag, byte);
    expect_for(key.taken == (given.reset ? 4 : 0), "characters of the autoload key", flag, byte);
    const rc4000_state reset = rc4000_press_reset(store, CELLS, given);
    expect_for(reset.refusal == 0 && reset.control.reset == 1, "reset key", flag, byte);
}

/* Load and overlay do not test the record that they are given. */
static void loaded(int flag, unsigned byte) {
    rc4000_state (*const calls[])(uint32_t *, size_t, rc4000_control, const uint8_t *, size_t) = {
        rc4000_load, rc4000_overlay};
    const rc4000_control given = with_flag(flag, byte);
    uint32_t store[CELLS] = {0};
    for (int i = 0; i < 2; i++) {
        const rc4000_state empty = calls[i](store, CELLS, given, tape, 0);
        expect_for(empty.refusal == RC4000_TAPE_ENDS, "empty tape", flag, byte);
        expect_for(same(empty.control, given), "record of the empty tape", flag, byte);
        const rc4000_state full = calls[i](store, CELLS, given, tape, sizeof tape);
        expect_for(full.refusal == 0, "tape", flag, byte);
        expect_for(same(full.control, tapes_record), "record of the tape", flag, byte);
    }
}

int main(void) {
    static const uint32_t good[CELLS], big[CELLS] = {[5] = 134217728};
    for (int flag = 0; flag < FLAGS; flag++) {
        for (unsigned byte = 0; byte < 256; byte++) {
            loaded(flag, byte);
            if (byte < 2) {
                taken(flag, byte);
                written(flag, byte);
                continue;
            }
            refused(good, CELLS - 1, RC4000_STORE_SIZE, flag, byte);
            refused(big, CELLS, RC4000_CELL_VALUE, flag, byte);
            refused(good, CELLS, RC4000_CONTROL_FIELD, flag, byte);
        }
    }
    return differences != 0;
}
