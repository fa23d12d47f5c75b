/* Lines through the C call: the words they give, every refusal, the longest
 * line, and a machine that runs what was assembled. Prints what differs. */
#include "expect.h"
#include <string.h>

enum { LONGEST = 255, DEEPEST = 16 };

static rc4000_assembled assembled(const char *line) {
    return rc4000_assemble((const uint8_t *)line, strlen(line));
}

static uint32_t word(const char *line) {
    const rc4000_assembled given = assembled(line);
    expect(given.refusal == 0, line);
    return given.word;
}

static void gives(const char *line, uint32_t expected) {
    expect(word(line) == expected, line);
}

static void refused(uint32_t number, const char *line) {
    const rc4000_assembled given = assembled(line);
    expect(given.refusal == number && given.word == 0, line);
}

static void words(void) {
    const uint32_t al = 11u << 18;
    gives("AW W0 0", 0);
    gives("AL W3 0", al | 3u << 16);
    gives("AL. W0 0", al | 1u << 15);
    gives("AL W0 [0]", al | 1u << 14);
    gives("AL W0 X3,0", al | 3u << 12);
    gives("AL W0 2047", al | 2047);
    gives("AL W0 0-2048", al | 2048);
    gives("AL. W1 [X2,2*(3+4)]", al | 1u << 16 | 3u << 14 | 2u << 12 | 14);
    gives("SS. W3 [X3,0-1]", 57u << 18 | 262143);
    gives("AL W0 10-4-3", al | 3);
    gives("AL W0 8388607-1*8388607", al);
    gives("AL W0 0-8388607-1+8388607", al | 4095);
    gives("AL W0 0005", al | 5);
}

static void refusals(void) {
    static const char *const outside[] = {
        "",           "AL",          "ZZ W0 0",       "al W0 0",     "AL W4 0",   "AL W0  0",
        "AL W0 0 ",   "AL W0 0\n",   "AL W0 -5",      "AL W0 2*-1",  "AL W0 5+",  "AL W0 X0,5",
        "AL W0 [5",   "AL W0 X1,[5]", "AL W0 (5",     "AL W0 5)",    "AL W0 ()",  "AL W0 \xff",
    };
    for (size_t i = 0; i < sizeof outside / sizeof outside[0]; i++)
        refused(RC4000_LINE_GRAMMAR, outside[i]);
    refused(RC4000_LINE_VALUE, "AL W0 2048");
    refused(RC4000_LINE_VALUE, "AL W0 0-2049");
    refused(RC4000_LINE_VALUE, "AL W0 8388608-8388608");
    refused(RC4000_LINE_VALUE, "AL W0 0*(8388607+1)");
    refused(RC4000_LINE_VALUE, "AL W0 99999999999999999999*0");
}

/* An address behind so many parentheses, with this behind them. */
static rc4000_assembled deep(size_t depth, const char *address, const char *behind) {
    char line[LONGEST + 1] = "AL W0 ";
    for (size_t i = 0; i < depth; i++) strcat(line, "(");
    strcat(line, address);
    for (size_t i = 0; i < depth; i++) strcat(line, ")");
    return assembled(strcat(line, behind));
}

static void depths(void) {
    expect(deep(DEEPEST, "5", "").word == (11u << 18 | 5), "depth 16");
    expect(deep(DEEPEST + 1, "5", "").refusal == RC4000_LINE_DEPTH, "depth 17");
    expect(deep(124, "5", "").refusal == RC4000_LINE_DEPTH, "depth 124");
    expect(deep(DEEPEST + 1, "5", "-").refusal == RC4000_LINE_GRAMMAR, "19 before 20");
    expect(deep(DEEPEST + 1, "8388608", "").refusal == RC4000_LINE_DEPTH, "20 before 21");
    expect(deep(DEEPEST, "8388608", "").refusal == RC4000_LINE_VALUE, "21 at depth 16");
}

/* The first bytes, so many, of a line whose address is all zeroes. */
static void lengths(void) {
    char line[LONGEST + 2] = "AL W0 ";
    memset(line + 6, '0', LONGEST + 1 - 6);
    const uint8_t *bytes = (const uint8_t *)line;
    for (size_t length = 0; length <= LONGEST + 1; length++) {
        const rc4000_assembled given = rc4000_assemble(bytes, length);
        const bool passes = length > 6 && length <= LONGEST;
        expect(given.refusal == (passes ? 0 : RC4000_LINE_GRAMMAR), "length of a line");
        expect(given.word == (passes ? 11u << 18 : 0), "word of a line of zeroes");
    }
    expect(rc4000_assemble(NULL, 0).refusal == RC4000_LINE_GRAMMAR, "no line");
}

/* Adds the numbers 5 to 1 in W1. */
static void runs(void) {
    uint32_t store[16] = {
        [8] = word("AL W2 5"),      [9] = word("WA W1 2*2"),     [10] = word("AL W2 X2,0-1"),
        [11] = word("SE W2 0"),     [12] = word("JL. W0 0-6"),   [13] = word("AW W0 0"),
    };
    rc4000_control control = rc4000_fresh();
    control.reset = 0;
    control.ic = 16;
    const rc4000_result run = rc4000_run_without_devices(store, 16, control, 0, 100);
    expect(run.outcome == RC4000_RESET && store[1] == 15 && store[2] == 0, "sum of 5 to 1");
}

int main(void) {
    words();
    refusals();
    depths();
    lengths();
    runs();
    return differences != 0;
}
