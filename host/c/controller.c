/* Loads the tape of document 01, lays a border tape over it and runs it. */
#include "rc4000.h"
#include <stdio.h>

enum { CELLS = 4096 };

static const uint8_t ground[32] = {20, 0, 0, 0, 2, 0, [22] = 128, 0, 5, 0, 0, 0, 0, 0, 3, 0};

/* Cell 20 is 7; control record and end as above. */
static const uint8_t border[46] = {8,  0, 0, 0, 1, 0, 20,         0, 0, 0, 7, 0, 0, 0,
                                   20, 0, 0, 0, 2, 0, [36] = 128, 0, 5, 0, 0, 0, 0, 0, 3, 0};

static int refused(const char *tape, uint32_t refusal) {
    printf("%s: refused %u: %s\n", tape, refusal, rc4000_refusal_text(refusal));
    return 1;
}

int main(void) {
    static uint32_t store[CELLS];
    rc4000_state loaded = rc4000_load(store, CELLS, rc4000_fresh(), ground, sizeof ground);
    if (loaded.refusal != 0) return refused("ground", loaded.refusal);
    loaded = rc4000_overlay(store, CELLS, loaded.control, border, sizeof border);
    if (loaded.refusal != 0) return refused("border", loaded.refusal);
    rc4000_result run = rc4000_run_without_devices(store, CELLS, loaded.control, 0, 100);
    printf("outcome %u executed %u entries %u IC %u\n", run.outcome, run.executed, run.entries,
           run.control.ic);
    return 0;
}
