/* Elapsed time and interval timer through the C calls. Prints what differs. */
#include "expect.h"
#include <string.h>

enum { CELLS = 32, LINE = 5, INDEXED_AL = 20, ENTRY = 75 };

/* At 16 a loop: AL W1 X1 1, which takes 20, and JL. -2, which takes 35; the
 * interruption program at 40. */
static void lay_out(uint32_t *store) {
    memset(store, 0, CELLS * sizeof *store);
    store[8] = 11u << 18 | 1u << 16 | 1u << 12 | 1;
    store[9] = 13u << 18 | 2u << 14 | 4094;
    store[RC4000_INTERRUPTION_PROGRAM / 2] = 40;
}

/* The loop about to begin, the line of the timer masked in or not. */
static rc4000_control looping(uint32_t period, bool masked_in) {
    rc4000_control control = rc4000_fresh();
    control.reset = 0;
    control.enabled = 1;
    control.ic = 16;
    control.im = masked_in ? rc4000_line(LINE) : 0;
    rc4000_set_interval(&control, period, LINE);
    return control;
}

static void interval_is_set(void) {
    rc4000_control control = rc4000_fresh();
    control.elapsed = 7;
    control.phase = 9;
    rc4000_set_interval(&control, 10000, 23);
    expect(control.period == 10000 && control.phase == 0 && control.line == 23, "interval");
    expect(control.elapsed == 7, "elapsed is kept");
}

/* 1,000 units: after 36 cycles 990 have passed, and the 37th ends the period. */
static void line_is_taken(void) {
    uint32_t store[CELLS];
    lay_out(store);
    const rc4000_result run =
        rc4000_run_without_devices(store, CELLS, looping(1000, true), 0, 65535);
    expect(run.outcome == RC4000_LINE && run.number == 2 * LINE, "line of the timer");
    expect(run.executed == 37 && run.entries == 1 && run.control.ic == 40, "place of the entry");
    expect(run.control.elapsed == 1010 + ENTRY, "elapsed time");
    expect(run.control.phase == 10 + ENTRY && run.control.ir == 0, "phase after the entry");
    expect(run.control.period == 1000 && run.control.line == LINE, "period and line are kept");
}

/* One AL, with this timer: the phase that it leaves, and whether the line is
 * raised. */
static void one_cycle(uint32_t period, uint32_t phase, uint32_t left, bool raised) {
    uint32_t store[CELLS];
    rc4000_control control = looping(period, false);
    control.phase = phase;
    control.elapsed = 4294967295;
    lay_out(store);
    const rc4000_result run = rc4000_run_without_devices(store, CELLS, control, 0, 1);
    expect(run.outcome == RC4000_SPENT && run.control.elapsed == INDEXED_AL - 1, "one cycle");
    expect(run.control.phase == left, "phase");
    expect(run.control.ir == (raised ? rc4000_line(LINE) : 0), "interrupt register");
}

static void phases(void) {
    one_cycle(0, 77, 77, false);
    one_cycle(21, 0, 20, false);
    one_cycle(20, 0, 0, true);
    one_cycle(19, 18, 0, true);
    one_cycle(3, 2, 1, true);
    one_cycle(1, 0, 0, true);
    one_cycle(4294967295, 4294967294, 19, true);
}

/* An entry that clears the line and ends a period leaves it raised. */
static void raised_by_the_entry(void) {
    uint32_t store[CELLS];
    lay_out(store);
    const rc4000_result run = rc4000_run_without_devices(store, CELLS, looping(ENTRY, true),
                                                         rc4000_line(LINE), 1);
    expect(run.outcome == RC4000_LINE && run.control.ir == rc4000_line(LINE), "raised again");
}

/* Each call that tests the record refuses it, and hands it back. */
static void refused(rc4000_control given, uint32_t refusal) {
    uint32_t store[CELLS];
    const rc4000_devices devices = {0, 0};
    lay_out(store);
    const rc4000_result run = rc4000_run_without_devices(store, CELLS, given, 16777216, 1);
    expect(run.outcome == RC4000_REFUSED && run.number == refusal, "run refused");
    expect(same(run.control, given) && run.executed == 0, "record of a refused run");
    const rc4000_state reset = rc4000_press_reset(store, CELLS, given);
    expect(reset.refusal == refusal && same(reset.control, given), "reset key refused");
    const rc4000_state start = rc4000_press_start(store, CELLS, given);
    expect(start.refusal == refusal && same(start.control, given), "start key refused");
    const rc4000_autoloaded key = rc4000_press_autoload(store, CELLS, given, devices, NULL, 0);
    expect(key.refusal == refusal && same(key.control, given), "autoload key refused");
    uint8_t tape[64];
    const rc4000_written written =
        rc4000_write(store, CELLS, given, 0, NULL, 0, tape, sizeof tape);
    expect(written.refusal == refusal, "writer refused");
}

static void refusals(void) {
    static const uint8_t lines[] = {0, 2, 24, 255};
    for (size_t i = 0; i < sizeof lines; i++) {
        rc4000_control control = looping(1, false);
        control.line = lines[i];
        refused(control, RC4000_TIMER);
        control.ex = 8;
        refused(control, RC4000_CONTROL_FIELD);
    }
    rc4000_control late = looping(9, false);
    late.phase = 9;
    refused(late, RC4000_TIMER);
    late.monitor = 2;
    refused(late, RC4000_CONTROL_FIELD);
}

/* A tape with a control record of 33 bytes whose timer has this phase. */
static void from_tape(uint8_t phase, uint32_t refusal) {
    const uint8_t tape[45] = {33, 0, 0, 0, 2, 0, [22] = 128, [24] = 5, [26] = 1, [30] = 9,
                              [34] = phase, [38] = LINE, [43] = 3};
    uint32_t store[CELLS] = {0};
    const rc4000_state loaded = rc4000_load(store, CELLS, rc4000_fresh(), tape, sizeof tape);
    expect(loaded.refusal == refusal, "tape with a timer");
    if (refusal != 0) return;
    const rc4000_control timer = loaded.control;
    expect(timer.elapsed == 1 && timer.period == 9 && timer.phase == phase, "times of a tape");
    expect(timer.line == LINE, "line of a tape");
}

int main(void) {
    interval_is_set();
    line_is_taken();
    phases();
    raised_by_the_entry();
    refusals();
    from_tape(8, 0);
    from_tape(9, RC4000_TIMER);
    return differences != 0;
}
