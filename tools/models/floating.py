#!/usr/bin/env python3
"""The floating-point instructions FA, FS, FM, FD, CI and CF, and what crates/cases_floating prints of them.

usage: tools/models/floating.py > crates/cases_floating/stdout

Written from chapter 14 of the reference manual and the readings of docs/DECISIONS.md, not from the crates. Registers are signed Python integers:
AF has 39 bits, AF(-1) to AF(37); SF has 38, SF(0) to SF(37); SC has 13, SC(11) to SC(23).
"""


def wrap(x, bits):
    """x as a signed number of so many bits"""
    x &= (1 << bits) - 1
    return x - (1 << bits) if x >> (bits - 1) else x


def at(af, i):
    """AF(i)"""
    return af >> (37 - i) & 1


# ---- 14.7

def fetch(pre, word, first, second):
    """Fetch Floating Operands: AF, SF, Wexp, SBexp"""
    af = wrap(pre << 12 | word >> 12, 36) << 2
    sf = wrap(first << 12 | second >> 12, 36) << 2
    return af, sf, wrap(word, 12), wrap(second, 12)


def out_of_range(sc):
    """SC(11) <> SC(12)"""
    return sc >> 12 & 1 != sc >> 11 & 1


def store(ex, af, sc, over):
    """Test Precision Mode and Store: Wpre, W, overflow"""
    if ex >> 2 & 1:
        af = af | 12 if at(af, 33) else af & ~12
    return put(af, sc, over)


def put(af, sc, over):
    """Wfrac := AF(0:35); Wexp := SC(12:23)"""
    frac = af >> 2 & (1 << 36) - 1
    return frac >> 12, (frac & 4095) << 12 | sc & 4095, int(over)


def normalize_and_round(af, sc):
    """Normalize and Round Floating: AF, SC, overflow"""
    while True:
        if at(af, -1) != at(af, 0):
            af >>= 1
            sc = wrap(sc + 1, 13)
        elif af == 0:
            sc = -2048
        else:
            while at(af, 0) == at(af, 1):
                af = wrap(af << 1, 39)
                sc = wrap(sc - 1, 13)
        if at(af, 36) == 0:
            return af, sc, out_of_range(sc)
        af = wrap(af + 4, 39) & ~3


# ---- 14.8

def add_or_subtract(add, ex, pre, word, first, second):
    af, sf, wexp, sbexp = fetch(pre, word, first, second)
    sc = wexp - sbexp
    if sc >= 38:
        return store(ex, af, wexp, False)
    if sc <= -38:
        if add:
            return store(ex, sf, sbexp, False)
        wexp, af = sbexp, 0
    elif sc > 0:
        for _ in range(sc):
            sf >>= 1
    elif sc < 0:
        wexp = sbexp
        for _ in range(-sc):
            af >>= 1
    af = wrap(af + sf if add else af - sf, 39)
    return store(ex, *normalize_and_round(af, wexp))


def fa(ex, pre, word, first, second):
    return add_or_subtract(True, ex, pre, word, first, second)


def fs(ex, pre, word, first, second):
    return add_or_subtract(False, ex, pre, word, first, second)


def fm(ex, pre, word, first, second):
    af, sf, wexp, sbexp = fetch(pre, word, first, second)
    bf = af >> 2 & (1 << 36) - 1
    af = 0
    for _ in range(35):
        if bf & 1:
            af = wrap(af + sf, 39)
        af >>= 1
        bf >>= 1
    if bf & 1:
        af = wrap(af - sf, 39)
    return store(ex, *normalize_and_round(af, wrap(wexp + sbexp, 13)))


def fd(ex, pre, word, first, second):
    af, sf, wexp, sbexp = fetch(pre, word, first, second)
    sc = wrap(wexp - sbexp + 35, 13)
    if af >> 14 == 0:
        return (pre, word, 1) if sf >> 14 == 0 else (pre, word & ~4095 | 2048, 0)
    if sf >> 14 == 0:
        return pre, word, 1
    negative = int(sf < 0)
    if at(af, -1) == negative:
        bf, af = 0, wrap(wrap(af - sf, 39) << 1, 39)
    else:
        bf, af = -1, wrap(wrap(af + sf, 39) << 1, 39)
    digit = int(at(af, -1) == negative)
    while bf >> 35 & 1 == bf >> 34 & 1:
        bf = wrap(bf << 1 | digit, 36)
        af = wrap(af - sf if digit else af + sf, 39)
        digit = int(at(af, -1) == negative)
        af = wrap(af << 1, 39)
        sc = wrap(sc - 1, 13)
    af = bf << 2 | (2 if at(af, -1) == negative else 0)
    return store(ex, *normalize_and_round(af, sc))


def ci(w, sb):
    af = wrap(w, 24) << 14
    if af == 0:
        return 0, 2048, 0
    af, sc, over = normalize_and_round(af, 23)
    sc = wrap(sc + (sb & 8191), 13)
    return put(af, sc, over or out_of_range(sc))


def cf(pre, word, sb):
    """W and overflow; W is kept on overflow"""
    af = wrap(pre << 12 | word >> 12, 36) << 2
    sb = wrap(23 - sb - wrap(word, 12), 24)
    if sb < 0 and af != 0:
        return word, 1
    if sb >= 64:
        af = 0
    if 0 < sb < 64:
        for _ in range(sb):
            af >>= 1
    if at(af, 24):
        af = wrap(af + (1 << 14), 39)
    if at(af, -1) != at(af, 0):
        return word, 1
    return af >> 14 & 0xFFFFFF, 0


# ---- the cases of crates/cases_floating

RANDOM = 12000

FRACTIONS = [  # Wpre, W(0:11)
    (0, 0), (0, 1), (16777215, 4095),  # 0, one unit, minus one unit
    (4194304, 0), (12582912, 0), (8388608, 0),  # 0.5, -0.5, -1.0
    (8388607, 4095), (1, 2748), (16777000, 5), (12582911, 4095),  # the largest, two not normalized, the negative one nearest to -0.5
]
EXPONENTS = [-2048, -2047, -1, 0, 1, 35, 36, 37, 38, 39, 2046, 2047]
INTEGERS = [0, 1, 2, 3, 4194303, 4194304, 8388607, 8388608, 8388609, 12582911, 12582912, 16777215]
ADDRESSES = [0, 1, 22, 23, 24, 41, 63, 64, 87, 2023, 2024, 2047, 2048, 4096, 8191, 8192, 8388607, 8388608,
             -4096, -2072, -2071, -2048, -23, -1]
OPERANDS = [(pre, low << 12 | e & 4095) for e in EXPONENTS for pre, low in FRACTIONS]


def drawn(seed):
    """Random cases: EX, Wpre, W, the storage double word; without end"""
    def draw():
        nonlocal seed
        seed = (seed * 1664525 + 1013904223) % (1 << 32)
        return seed
    i = 0
    while True:
        ex = draw()
        pre, word, first, second, more = (draw() >> 8 for _ in range(5))
        if i % 2 == 0:  # exponents at a distance of at most 40
            second = second & ~4095 | (word & 4095) + more % 81 - 40 & 4095
        kind = more // 128 % 8  # some fractions near to 0 from above or below
        if kind == 0:
            pre %= 256
        if kind == 1:
            first %= 256
        if kind == 2:
            pre = 16777215 - pre % 256
        if kind == 3:
            first = 16777215 - first % 256
        yield i, ex, pre, word, first, second
        i += 1


def random_cases(seed):
    for case in drawn(seed):
        if case[0] == RANDOM:
            return
        yield case


def double(op, seed):
    for b in OPERANDS:
        for a in OPERANDS:
            for ex in (0, 4):
                yield op(ex, *a, *b)
    for _, *case in random_cases(seed):
        yield op(*case)


def from_integer(seed):
    for sb in ADDRESSES:
        for w in INTEGERS:
            yield ci(w, sb & 0xFFFFFF)
    for i, _, pre, _, first, _ in random_cases(seed):
        yield ci(pre, first % 8192 - 4096 & 0xFFFFFF if i % 2 == 0 else first)


def to_integer(seed):
    for sb in ADDRESSES:
        for a in OPERANDS:
            yield cf(*a, sb & 0xFFFFFF)
    for i, _, pre, word, first, _ in random_cases(seed):
        # even cases: 23 - SB - Wexp from -8 to 71
        yield cf(pre, word, 31 - wrap(word, 12) - first % 80 & 0xFFFFFF if i % 2 == 0 else first)


def main():
    runs = [("FA", double(fa, 1)), ("FS", double(fs, 2)), ("FM", double(fm, 3)), ("FD", double(fd, 4)), ("CI", from_integer(5)), ("CF", to_integer(6))]
    for name, results in runs:
        count = total = 0
        for fields in results:
            count += 1
            for value in fields:
                total = (total * 31 + value) % (1 << 32)
        print(name, count, total)


if __name__ == "__main__":
    main()
