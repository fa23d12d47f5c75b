/* What the tests in C share: they print and count what differs. */
#ifndef EXPECT_H
#define EXPECT_H

#include "rc4000.h"
#include <stdio.h>

static int differences;

static inline void expect(bool holds, const char *what) {
    if (!holds) {
        printf("%s\n", what);
        differences++;
    }
}

static inline bool same(rc4000_control a, rc4000_control b) {
    return a.ic == b.ic && a.ir == b.ir && a.im == b.im && a.pending == b.pending && a.pr == b.pr &&
           a.ex == b.ex && a.monitor == b.monitor && a.enabled == b.enabled && a.reset == b.reset &&
           a.elapsed == b.elapsed && a.period == b.period && a.phase == b.phase && a.line == b.line;
}

#endif
