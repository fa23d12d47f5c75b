/* The proved RC 4000 emulator for programs in C.
 *
 * The store is a row of cells that the caller lends for a call:
 * cell = key * 16777216 + word, key 0 to 7, word 24 bits. Cell i has the byte
 * addresses 2i and 2i + 1. A store has 8 to 8388608 cells.
 *
 * A machine begins with a store of zeros and rc4000_fresh(), its control record
 * after power on. That is the reset state, in which a run makes no cycle: the
 * start key (rc4000_press_start) or the autoload key (rc4000_press_autoload)
 * leaves it, and so does a tape (rc4000_load, rc4000_overlay) whose control
 * record is outside it. A record of zeros is none: it is refused with 3, as PR
 * is under 128.
 *
 * A run also lends the low-speed channel its two devices: the tape reader,
 * device 0, as a row of characters that are only read (6 bits each, 0 to 63),
 * and the typewriter, device 1, as a row of bytes to type into. What a call
 * took and typed is handed back as a count; the next call is lent the
 * characters behind those taken and the bytes behind those typed.
 *
 * Every cycle takes its time by the manual's Appendix A.3: the control record
 * has the time run so far and an interval timer, which raises a line at the end
 * of each interval (rc4000_set_interval).
 *
 * A program's words can be written as lines of text (rc4000_assemble).
 *
 * A call that is refused gives the refusal's number, 1 to 21, and leaves the
 * store and the buffers as they were; where the result has a control record or
 * device buffer registers, they come back as given; every count is zero.
 *
 * What the caller has to see to, since C does not check it: store points to
 * `cells` cells, tape or line to `length` bytes, text to `text_length` bytes,
 * characters to `count` bytes, and typing, or the tape that is written, to
 * `space` bytes (NULL will do where that number is 0); no two of them overlap,
 * and nothing else changes them during the call. Nothing else is asked.
 *
 * Link with librc4000.a. */
#ifndef RC4000_H
#define RC4000_H

#include <stdbool.h>
#include <stddef.h>
#include <stdint.h>

#ifdef __cplusplus
extern "C" {
#endif

/* The control record. Reset state implies monitor mode and disabled. A flag is
 * 0 (no) or 1 (yes). Times are in tenths of a microsecond; a run adds to elapsed
 * and phase, keys and loads take no time, and no instruction changes period or
 * line. While the period is not 0 the line has to be 3 to 23 and the phase below
 * the period. */
typedef struct {
    uint32_t ic;      /* instruction counter, 24 bits */
    uint32_t ir;      /* interrupt register, 24 bits, bit 0 left-most */
    uint32_t im;      /* mask register, 24 bits */
    uint32_t pending; /* modification left by AM, 24 bits, 0 if none */
    uint32_t pr;      /* protection register, 128 to 255 */
    uint32_t ex;      /* exception register, 0 to 7 */
    uint8_t monitor;  /* monitor mode */
    uint8_t enabled;  /* interrupts enabled */
    uint8_t reset;    /* reset state */
    uint32_t elapsed; /* time run, modulo 2^32 */
    uint32_t period;  /* of the interval timer, 0: off */
    uint32_t phase;   /* time since the last interval began; kept while it is off */
    uint8_t line;     /* raised at the end of each interval, 3 to 23 */
} rc4000_control;

/* The record after power on: all zero but bit 0 of PR, in the reset state. */
static inline rc4000_control rc4000_fresh(void) {
    const rc4000_control control = {0, 0, 0, 0, 128, 0, 1, 0, 1, 0, 0, 0, 0};
    return control;
}

/* Begins an interval now: the timer raises the line, 3 to 23, at the end of the
 * cycle in which each `period` tenths of a microsecond end. Period 0 stops it. */
static inline void rc4000_set_interval(rc4000_control *control, uint32_t period, uint8_t line) {
    control->period = period;
    control->phase = 0;
    control->line = line;
}

/* The constant addresses of the machine. The cell of an address is
 * store[address / 2]. */
enum {
    RC4000_INTERRUPT_NUMBER = 8,
    RC4000_RETURN_ADDRESS = 10,
    RC4000_INTERRUPTION_PROGRAM = 12,
    RC4000_START_ADDRESS = 14
};

static inline uint32_t rc4000_word(uint32_t cell) {
    return cell % 16777216;
}

static inline uint32_t rc4000_key(uint32_t cell) {
    return cell / 16777216;
}

/* The cell with this key, 0 to 7, and the right-most 24 bits of this word. */
static inline uint32_t rc4000_cell(uint32_t key, uint32_t word) {
    return key * 16777216 + word % 16777216;
}

/* The bit with this number from the left, 0 to 23, of lines, IR or IM; 0 for a
 * number over 23. A run takes lines 3 to 23; line p is told by the number 2p. */
static inline uint32_t rc4000_line(uint32_t number) {
    return number < 24 ? (uint32_t)8388608 >> number : 0;
}

/* The device buffer registers, 24 bits each. They start at zero and pass from
 * call to call. */
typedef struct {
    uint32_t reader;
    uint32_t typewriter;
} rc4000_devices;

/* rc4000_result.outcome */
enum {
    RC4000_REFUSED = 0,   /* number is the refusal's */
    RC4000_SPENT = 1,     /* the budget is used */
    RC4000_RESET = 2,     /* the reset state */
    RC4000_EXCEPTION = 3, /* interrupted by an instruction exception */
    RC4000_LINE = 4       /* interrupted by a line; number is the one stored */
};

/* The refusals. The store is tested first (1, 2); then control record, lines,
 * budget and devices (3, 18, 4, 5, 13), or the tape: its length (12), then record
 * by record, of a block 9, 17, 10, of the control record 3, 18; or, to write one,
 * control record, remark, tape and buffer (3, 18, 14, 15, 16). A line of the
 * assembler has its own (19, 20, 21). */
enum {
    RC4000_STORE_SIZE = 1,      /* fewer than 8 or more than 8388608 cells */
    RC4000_CELL_VALUE = 2,      /* a cell of 134217728 or more */
    RC4000_CONTROL_FIELD = 3,   /* a control field outside the widths (a flag over 1 too) and rules */
    RC4000_LINES = 4,           /* lines with bit 0, 1 or 2 set, or over 24 bits */
    RC4000_BUDGET = 5,          /* a budget over 65535 */
    RC4000_TAPE_ENDS = 6,       /* the tape stops inside a record, or before an end record */
    RC4000_RECORD_KIND = 7,     /* a record kind not 1 to 4 */
    RC4000_RECORD_LENGTH = 8,   /* a length wrong for the kind */
    RC4000_BLOCK_PLACE = 9,     /* a block beyond the store */
    RC4000_BLOCK_CELL = 10,     /* a cell of a block of 134217728 or more */
    RC4000_RECORD_ORDER = 11,   /* records in the wrong order, or bytes after the end */
    RC4000_TAPE_LENGTH = 12,    /* a tape over 65536 bytes */
    RC4000_DEVICE = 13,         /* a reader character over 63, or a device buffer register over 24 bits */
    RC4000_REMARK_LENGTH = 14,  /* a remark over 255 bytes */
    RC4000_WRITTEN_LENGTH = 15, /* a machine whose tape would pass 65536 bytes */
    RC4000_BUFFER_LENGTH = 16,  /* a buffer shorter than the tape */
    RC4000_BLOCK_OVERLAP = 17,  /* a block names a cell that an earlier block of the tape names */
    RC4000_TIMER = 18,          /* a timer line outside 3 to 23 or a phase not below the period, where
                                   the period is not 0 */
    RC4000_LINE_GRAMMAR = 19,   /* a line over 255 characters or outside the grammar, whatever its depth */
    RC4000_LINE_DEPTH = 20,     /* a line with round parentheses to a depth over 16 */
    RC4000_LINE_VALUE = 21      /* a value of an address outside -8388608 to 8388607, or the last one
                                   outside -2048 to 2047 */
};

/* What a refusal means. The texts stand in the order of the numbers, from 0 on. */
static inline const char *rc4000_refusal_text(uint32_t number) {
    static const char *const texts[] = {
        "not refused",
        "fewer than 8 or more than 8,388,608 cells",
        "a cell of 134,217,728 or more",
        "a control field outside the widths and rules",
        "lines with bit 0, 1 or 2 set, or over 24 bits",
        "a budget over 65,535",
        "the tape stops inside a header or payload, or before an end record",
        "a record kind not 1 to 4",
        "a record length wrong for the kind",
        "a block beyond the store",
        "a cell of a block of 134,217,728 or more",
        "not the end after the control record, an end with no control record, or bytes after the end",
        "a tape over 65,536 bytes",
        "a reader character over 63, or a device buffer register over 24 bits",
        "a remark over 255 bytes",
        "a machine whose tape would pass 65,536 bytes",
        "a buffer shorter than the tape",
        "a block names a cell that an earlier block of the tape names",
        "a timer line outside 3 to 23 or a phase not below the period, where the period is not 0",
        "a line over 255 characters or outside the grammar",
        "a line with parentheses to a depth over 16",
        "a value of an address outside -8,388,608 to 8,388,607, or the last one outside -2048 to 2047",
    };
    const uint32_t count = sizeof texts / sizeof texts[0];
    return number < count ? texts[number] : "no refusal has this number";
}

typedef struct {
    rc4000_control control;
    uint32_t outcome;
    uint32_t number;   /* the refusal or the line's number, else 0 */
    uint32_t executed; /* executed instructions */
    uint32_t entries;  /* interruption entries */
    rc4000_devices devices;
    size_t taken; /* reader characters taken, from the first on */
    size_t typed; /* bytes typed: they stand at the front of the typing buffer */
} rc4000_result;

typedef struct {
    rc4000_control control;
    uint32_t refusal; /* 0: done, else a refusal */
} rc4000_state;

typedef struct {
    rc4000_control control;
    uint32_t refusal; /* 0: done, else a refusal */
    rc4000_devices devices;
    size_t taken; /* reader characters taken: 4, or 0 where nothing changed */
} rc4000_autoloaded;

typedef struct {
    uint32_t refusal; /* 0: the tape loads, else a refusal */
    bool found;       /* it has a remark: bytes start to end - 1 of the tape */
    size_t start, end;
} rc4000_text;

typedef struct {
    uint32_t refusal; /* 0: done, else a refusal */
    size_t length;    /* bytes of the tape, at the front of the buffer; 0 if refused */
} rc4000_written;

typedef struct {
    uint32_t refusal; /* 0: done, else a refusal */
    uint32_t word;    /* 24 bits; 0 if refused */
} rc4000_assembled;

/* The most bytes of a tape: a buffer of so many has room for every tape. */
enum { RC4000_LONGEST_TAPE = 65536 };

/* Runs at most budget cycles, at most 65535. The raised lines, bits 3 to 23,
 * join IR first; a line that the timer raises is looked at from the next cycle
 * on. The reader has `count` characters and the typewriter takes
 * `space` bytes, the right-most 8 bits of each word written; the bytes behind
 * those typed are kept. A read with no character left, or a write with no space
 * left, finds the device disconnected; AW with fewer than four characters left
 * takes none and ends in the reset state. */
rc4000_result rc4000_run(uint32_t *store, size_t cells, rc4000_control control, uint32_t lines,
                         uint32_t budget, rc4000_devices devices, const uint8_t *characters,
                         size_t count, uint8_t *typing, size_t space);

/* A run that lends no characters and no typing space, the registers zero. */
static inline rc4000_result rc4000_run_without_devices(uint32_t *store, size_t cells,
                                                       rc4000_control control, uint32_t lines,
                                                       uint32_t budget) {
    const rc4000_devices devices = {0, 0};
    const uint8_t character = 0;
    uint8_t typed = 0;
    return rc4000_run(store, cells, control, lines, budget, devices, &character, 0, &typed, 0);
}

/* The reset key: word 10 takes IC, and the machine is in the reset state. In
 * that state nothing changes. */
rc4000_state rc4000_press_reset(uint32_t *store, size_t cells, rc4000_control control);

/* The start key: in the reset state IC is taken from word 14 and the state is
 * left. Elsewhere nothing changes. */
rc4000_state rc4000_press_start(uint32_t *store, size_t cells, rc4000_control control);

/* The autoload key: in the reset state, with four characters or more, the first
 * four become word 0 with key 0, the first one left-most; EX(22:23) and IC
 * become 0 and the state is left. The next run executes word 0. Elsewhere, or
 * with fewer characters, nothing changes. */
rc4000_autoloaded rc4000_press_autoload(uint32_t *store, size_t cells, rc4000_control control,
                                        rc4000_devices devices, const uint8_t *characters,
                                        size_t count);

/* Loads a tape of at most 65536 bytes, whose blocks do not overlap. Every cell
 * that no block names becomes 0, word and key, cells 0 to 7 included. Use it to
 * change carpets: nothing of the old one stays. The control record that comes
 * back is the tape's; the one given is not tested. A tape that is refused clears
 * nothing, and a store with a cell of 134217728 or more is refused as it is.
 * Takes up to 48 KB of stack. */
rc4000_state rc4000_load(uint32_t *store, size_t cells, rc4000_control control,
                         const uint8_t *tape, size_t length);

/* Lays a tape over what the store holds: as rc4000_load, with the same refusals
 * and the tape's control record, but every cell that no block names is kept. Use
 * it to lay a border tape over a ground tape that rc4000_load brought. */
rc4000_state rc4000_overlay(uint32_t *store, size_t cells, rc4000_control control,
                            const uint8_t *tape, size_t length);

/* The first remark of a tape that loads into a store of this many cells; else the
 * refusal is the load's. Takes up to 48 KB of stack. */
rc4000_text rc4000_remark(const uint8_t *tape, size_t length, size_t cells);

/* Writes the tape of a machine into a buffer of `space` bytes, whose bytes
 * behind the tape are kept. `given` 0: no remark; else the remark is `text`, at
 * most 255 bytes, also where it is empty. Store and record are only read.
 * rc4000_load into as many cells, none of 134217728 or more, gives the same store
 * and record, and rc4000_remark the same remark; the device buffer registers are
 * not on a tape. */
rc4000_written rc4000_write(const uint32_t *store, size_t cells, rc4000_control control,
                            uint8_t given, const uint8_t *text, size_t text_length, uint8_t *tape,
                            size_t space);

/* The word of a line of at most 255 characters, with no end of line or zero
 * behind it, such as "AL. W1 [X2,2*(3+4)]": a mnemonic code, a dot if relative, a
 * space, W0 to W3, a space, X1 to X3 and a comma if indexed, and the address,
 * these two in square brackets if indirect. An address has decimal numbers, +, -
 * and * between two operands, and round parentheses to a depth of 16; a negative
 * one is written as 0-5. */
rc4000_assembled rc4000_assemble(const uint8_t *line, size_t length);

#ifdef __cplusplus
}
#endif

#endif
