/* The functions that rc4000.h itself defines. Prints what differs. */
#include "expect.h"
#include <string.h>

enum { CELLS = 8 };

/* Every call takes the fresh record; a run ends in the reset state, and the
 * start key leaves it. */
static void fresh(void) {
    uint32_t store[CELLS] = {[RC4000_START_ADDRESS / 2] = 6};
    const rc4000_control control = rc4000_fresh();
    const rc4000_result run = rc4000_run_without_devices(store, CELLS, control, 0, 100);
    expect(run.outcome == RC4000_RESET && run.executed == 0, "run in the reset state");
    const rc4000_state reset = rc4000_press_reset(store, CELLS, control);
    expect(reset.refusal == 0 && store[RC4000_RETURN_ADDRESS / 2] == 0, "reset key");
    const rc4000_state start = rc4000_press_start(store, CELLS, control);
    expect(start.refusal == 0 && start.control.reset == 0, "start key");
    const rc4000_control begun = start.control;
    expect(begun.ic == 6 && begun.ir == 0 && begun.im == 0 && begun.pending == 0, "registers");
    expect(begun.pr == 128 && begun.ex == 0 && begun.monitor && !begun.enabled, "PR, EX and mode");
    const bool times = begun.elapsed == 0 && begun.period == 0 && begun.phase == 0;
    expect(times && begun.line == 0, "elapsed time and timer");
}

/* A raised line enters the interruption program. */
static void interrupts(void) {
    uint32_t store[CELLS] = {[RC4000_INTERRUPTION_PROGRAM / 2] = 14};
    rc4000_control control = rc4000_fresh();
    control.reset = 0;
    control.enabled = 1;
    control.im = rc4000_line(5);
    const rc4000_result run = rc4000_run_without_devices(store, CELLS, control, rc4000_line(5), 9);
    expect(run.outcome == RC4000_LINE && run.number == 10 && run.control.ic == 14, "line 5");
    expect(store[RC4000_INTERRUPT_NUMBER / 2] == 10, "interrupt number");
}

static void cells(void) {
    expect(rc4000_cell(7, 16777215) == 134217727, "largest cell");
    expect(rc4000_cell(1, (uint32_t)-2) == 33554430, "word of 24 bits");
    expect(rc4000_cell(8, 0) == 134217728, "key that is refused");
    expect(rc4000_word(134217727) == 16777215 && rc4000_key(134217727) == 7, "word and key");
    expect(rc4000_word(16777221) == 5 && rc4000_key(16777221) == 1, "word 5 and key 1");
    expect(rc4000_line(0) == 8388608 && rc4000_line(3) == 1048576, "left-most lines");
    expect(rc4000_line(23) == 1 && rc4000_line(24) == 0 && rc4000_line(60) == 0, "last line");
}

/* Every refusal has a text of its own. */
static void texts(void) {
    const char *none = rc4000_refusal_text(RC4000_LINE_VALUE + 1);
    expect(strcmp(rc4000_refusal_text(4294967295), none) == 0, "text of no refusal");
    for (uint32_t number = 0; number <= RC4000_LINE_VALUE; number++) {
        const char *text = rc4000_refusal_text(number);
        expect(strcmp(text, none) != 0, "text of a refusal");
        for (uint32_t other = 0; other < number; other++)
            expect(strcmp(text, rc4000_refusal_text(other)) != 0, "two refusals with one text");
    }
    expect(strcmp(rc4000_refusal_text(RC4000_BUDGET), "a budget over 65,535") == 0, "text of 5");
}

int main(void) {
    fresh();
    interrupts();
    cells();
    texts();
    return differences != 0;
}
