/* Reader, typewriter and autoload key through the C calls: the bootstrap of
 * section 11.5 loads a program that types a text. Prints what differs. */
#include "expect.h"
#include <string.h>

enum { CELLS = 64, START = 16, SPACE = 16, KEPT = 170, LARGEST = 65535 };
enum { AW = 0, IO = 1, AL = 11, JL = 13 };        /* the codes of A.2 */
enum { TYPE = 1 * 64 + 3, READ = 2, SENSE_0 = 0 }; /* device and command of IO */

static const char text[] = "RC 4000\n";
static const rc4000_control power_on = {.pr = 128, .monitor = 1, .reset = 1};
static const rc4000_devices zero = {0, 0};

/* The reader's characters. */
static uint8_t tape[512];
static size_t length;

static uint32_t instruction(uint32_t code, uint32_t address) {
    return code << 18 | address;
}

/* A word on the tape: four characters, the first one left-most. */
static void punch(uint32_t word) {
    for (int shift = 18; shift >= 0; shift -= 6) tape[length++] = word >> shift & 63;
}

/* The tape of 11.5. The program types the text, a character with every two
 * instructions, and ends in the reset state: AW finds no characters. */
static void punch_program(void) {
    uint32_t address = START;
    punch(instruction(AW, 2));
    punch(instruction(AW, 4));
    punch(instruction(JL, 0));
    for (const char *next = text; *next; next++) {
        punch(instruction(AW, address));
        punch(instruction(AL, (uint8_t)*next));
        punch(instruction(AW, address + 2));
        punch(instruction(IO, TYPE));
        address += 4;
    }
    punch(instruction(AW, address));
    punch(instruction(AW, 0));
    punch(instruction(JL, START));
}

static bool registers(rc4000_devices devices, uint32_t reader, uint32_t typewriter) {
    return devices.reader == reader && devices.typewriter == typewriter;
}

/* The record outside the reset state, with this EX. */
static rc4000_control started(uint32_t ex) {
    rc4000_control control = power_on;
    control.ic = START;
    control.ex = ex;
    control.reset = 0;
    return control;
}

/* The key puts AW 2 into word 0, with key 0, and leaves the reset state. */
static rc4000_autoloaded autoload(uint32_t *store) {
    rc4000_control given = power_on;
    given.ic = 30;
    given.ex = 7;
    for (int i = 0; i < CELLS; i++) store[i] = i < 4 || i > 7 ? 7u << 24 | 5 : 0;
    const rc4000_autoloaded key = rc4000_press_autoload(store, CELLS, given, zero, tape, length);
    expect(key.refusal == 0 && key.taken == 4, "autoload key");
    expect(registers(key.devices, 2, 0), "registers after the autoload key");
    given = started(4);
    given.ic = 0;
    expect(same(key.control, given), "record after the autoload key");
    expect(store[0] == 2, "word 0 after the autoload key");
    return key;
}

/* Runs the program, with so much typing space, and compares. */
static void types(size_t space) {
    const size_t whole = strlen(text), typed = space < whole ? space : whole;
    uint32_t store[CELLS];
    uint8_t typing[SPACE];
    memset(typing, KEPT, sizeof typing);
    const rc4000_autoloaded key = autoload(store);
    const rc4000_result run = rc4000_run(store, CELLS, key.control, 0, LARGEST, key.devices,
                                         tape + 4, length - 4, typing, space);
    const uint32_t words = 2 * (uint32_t)whole + 1, last = START + 2 * words;
    expect(run.outcome == RC4000_RESET && run.number == 0, "outcome");
    expect(run.executed == 3 + 3 * words + 2 + words && run.entries == 0, "counts");
    expect(run.taken == length - 4, "characters taken");
    expect(run.typed == typed && memcmp(typing, text, typed) == 0, "typed bytes");
    for (size_t i = typed; i < SPACE; i++) expect(typing[i] == KEPT, "bytes behind the typed ones");
    expect(registers(run.devices, START, typed ? (uint8_t)text[typed - 1] : 0), "registers");
    expect(run.control.reset == 1 && run.control.ic == last && store[5] == last, "reset by AW");
    expect(run.control.ex == (typed < whole ? 6 : 4), "EX: disconnected where the space is used");
    expect(store[0] == 10 && store[2] == instruction(JL, 0), "W0 and W2");
}

/* Read and sense: a character that is there, then none. */
static void reads(void) {
    uint32_t store[CELLS] = {[8] = instruction(IO, READ),
                             [9] = instruction(IO, SENSE_0) | 1u << 16,
                             [10] = instruction(IO, READ)};
    const uint8_t character = 63;
    uint8_t typing = KEPT;
    const rc4000_devices given = {9, 16777215};
    const rc4000_result two =
        rc4000_run(store, CELLS, started(3), 0, 2, given, &character, 1, &typing, 1);
    expect(two.outcome == RC4000_SPENT && two.executed == 2, "read and sense");
    expect(two.taken == 1 && two.typed == 0 && typing == KEPT, "counts of read and sense");
    expect(store[0] == 0 && store[1] == 63 && two.control.ex == 0, "character in W1");
    expect(registers(two.devices, 63, 16777215), "registers after read and sense");
    const rc4000_result third = rc4000_run_without_devices(store, CELLS, two.control, 0, 1);
    expect(third.executed == 1 && third.taken == 0 && third.control.ex == 2, "no character left");
}

/* AW with four characters loads a word; with three it takes none. */
static void loads_a_word(void) {
    uint32_t store[CELLS] = {[8] = instruction(AW, 40), [9] = instruction(AW, 42), [20] = 7u << 24};
    const uint8_t characters[7] = {63, 0, 1, 2, 4, 5, 6};
    const rc4000_devices given = {9, 10};
    const rc4000_result one =
        rc4000_run(store, CELLS, started(7), 0, 1, given, characters, 7, tape, 0);
    expect(one.outcome == RC4000_SPENT && one.taken == 4 && one.typed == 0, "AW");
    expect(store[20] == (63u << 18 | 1 << 6 | 2) && one.control.ex == 4, "word and EX of AW");
    expect(registers(one.devices, 2, 10), "registers after AW");
    const rc4000_result other = rc4000_run(store, CELLS, one.control, 0, 1, one.devices,
                                           characters + one.taken, 3, tape, 0);
    expect(other.outcome == RC4000_RESET && other.taken == 0, "AW with three characters");
    expect(registers(other.devices, 2, 10) && store[21] == 0, "registers after the second AW");
    expect(other.control.ic == 20 && store[5] == 20, "IC after the second AW");
}

/* The autoload key elsewhere, or with three characters, changes nothing. */
static void key_without_effect(rc4000_control given, size_t count) {
    uint32_t store[CELLS] = {[0] = 77, [5] = 6};
    const rc4000_devices devices = {1, 2};
    const rc4000_autoloaded key = rc4000_press_autoload(store, CELLS, given, devices, tape, count);
    expect(key.refusal == 0 && key.taken == 0, "autoload key without effect");
    expect(same(key.control, given) && registers(key.devices, 1, 2), "record, no effect");
    expect(store[0] == 77 && store[5] == 6, "store, no effect");
}

/* Refused with a number by run and autoload key, and everything kept. The
 * machine is in the reset state and would take no character. */
static void refused(uint32_t number, uint32_t budget, rc4000_devices devices, uint8_t character) {
    uint32_t store[CELLS] = {77};
    const uint8_t characters[5] = {1, 2, 3, 4, character};
    uint8_t typing[2] = {KEPT, KEPT};
    const rc4000_result run =
        rc4000_run(store, CELLS, power_on, 8, budget, devices, characters, 5, typing, 2);
    expect(run.outcome == RC4000_REFUSED && run.number == number, "refusal of run");
    expect(run.executed == 0 && run.entries == 0 && run.taken == 0 && run.typed == 0,
           "counts of a refused run");
    expect(same(run.control, power_on), "record of a refused run");
    expect(registers(run.devices, devices.reader, devices.typewriter), "registers, refused run");
    expect(typing[0] == KEPT && typing[1] == KEPT, "typing buffer of a refused run");
    const rc4000_autoloaded key =
        rc4000_press_autoload(store, CELLS, power_on, devices, characters, 5);
    expect(key.refusal == RC4000_DEVICE && key.taken == 0, "refusal of the autoload key");
    expect(same(key.control, power_on), "record of a refused autoload key");
    expect(registers(key.devices, devices.reader, devices.typewriter), "registers, refused key");
    expect(store[0] == 77, "store of a refused call");
}

/* NULL is lent where nothing is: the run is the one without devices. */
static void lends_nothing(uint32_t code, uint32_t address) {
    uint32_t store[CELLS] = {instruction(code, address)};
    uint32_t other[CELLS] = {instruction(code, address)};
    rc4000_control control = started(3);
    control.ic = 0;
    const rc4000_result run = rc4000_run(store, CELLS, control, 0, 1, zero, NULL, 0, NULL, 0);
    const rc4000_result alone = rc4000_run_without_devices(other, CELLS, control, 0, 1);
    expect(run.outcome == alone.outcome && run.executed == 1, "outcome with NULL lent");
    expect(same(run.control, alone.control), "record with NULL lent");
    expect(run.taken == 0 && run.typed == 0, "counts with NULL lent");
    const rc4000_autoloaded key = rc4000_press_autoload(store, CELLS, power_on, zero, NULL, 0);
    expect(key.refusal == 0 && key.taken == 0 && same(key.control, power_on), "key with NULL lent");
}

int main(void) {
    punch_program();
    types(SPACE);
    types(strlen(text));
    types(3);
    types(0);
    reads();
    loads_a_word();
    lends_nothing(AW, START);
    lends_nothing(IO, READ);
    lends_nothing(IO, TYPE);
    key_without_effect(power_on, 3);
    key_without_effect(power_on, 0);
    key_without_effect(started(3), length);
    refused(RC4000_DEVICE, 0, zero, 64);
    refused(RC4000_DEVICE, LARGEST, zero, 255);
    refused(RC4000_DEVICE, 1, (rc4000_devices){16777216, 0}, 63);
    refused(RC4000_DEVICE, 1, (rc4000_devices){0, 4294967295}, 0);
    refused(RC4000_BUDGET, LARGEST + 1, zero, 64);
    return differences != 0;
}
