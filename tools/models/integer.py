#!/usr/bin/env python3
"""A model of the integer operations, written from chapter 14 of the manual and docs/DECISIONS.md alone, on Python's integers.

usage: tools/models/integer.py > crates/cases_integer/stdout

It writes what the program cases_integer must write: for each operation its name, the number of cases, and a checksum of every result.
Operations whose meaning the prose of chapter 14 gives in closed form (sums, product, shifts, normalizing) are asserted against that form too.
"""

WORD = 1 << 24


def number(x, bits):
    """The signed number that a register of so many bits holds."""
    return x - (1 << bits) if x >> (bits - 1) else x


def wrap(v, bits):
    """A signed number kept in so many bits, as a signed number."""
    return number(v & ((1 << bits) - 1), bits)


# ---- 14.3, the adder bit by bit: the sum of two rows of bits, numbered from the left, and the carry out of bit 0.

def rows(a, b, carry_in):
    """AR := A + B of 25 bits, AR(-1:23); A and B are signed 24-bit words. One pass, with a carry in."""
    carry = carry_in
    r = 0
    carry_out_of_0 = 0
    for place in range(25):
        x = a >> place & 1
        y = b >> place & 1
        s = x + y + carry
        r |= (s & 1) << place
        carry = s >> 1
        if place == 23:
            carry_out_of_0 = carry
    return r, carry_out_of_0


def signed25(x):
    return x | (x >> 23 & 1) << 24


def test_integer(a, b, carry_in):
    """W, overflow, carry."""
    ar, carry = rows(a, b, carry_in)
    return ar & (WORD - 1), int((ar >> 24 & 1) != (ar >> 23 & 1)), carry


def add(a, b, c=0):
    word, over, carry = test_integer(signed25(a), signed25(b), c)
    true = number(a, 24) + number(b, 24) + c
    assert number(word, 24) == wrap(true, 24) and over == (not -2**23 <= true < 2**23) and carry == (a + b + c >> 24)
    return word, over, carry


def subtract(a, b, c=1):
    word, over, carry = test_integer(signed25(a), signed25(b) ^ 0x1FFFFFF, c)
    true = number(a, 24) - number(b, 24) - (1 - c)
    assert number(word, 24) == wrap(true, 24) and over == (not -2**23 <= true < 2**23) and carry == (a - (1 - c) >= b)
    return word, over, carry


# ---- 14.8, bit by bit

def each(rule, w, sb):
    """for bit := 0 step 1 until 23"""
    r = 0
    for place in range(24):
        r |= rule(w >> place & 1, sb >> place & 1) << place
    return r


def multiply(w, sb):
    ar, br, x = 0, w, number(sb, 24)              # AR as a signed number of 25 bits

    def shift(ar, br):                            # ARBR(0:47) := ARBR(-1:46): AR(-1) stays
        return ar >> 1, br >> 1 | (ar & 1) << 23
    for _ in range(23):                           # SC := 22 step -1 until 0
        if br & 1:
            ar = wrap(ar + x, 25)
        ar, br = shift(ar, br)
    if br & 1:
        ar = wrap(ar - x, 25)
    ar, br = shift(ar, br)
    assert number(((ar & WORD - 1) << 24) | br, 48) == number(w, 24) * x
    return ar & (WORD - 1), br


def divide(pre, w, s):
    kept = (pre, w, 1)
    ar, br, sb = number(pre, 24), w, number(s, 24)

    def digit(ar):                                # next digit := if AR(-1) = SB(0) then 1 else 0
        return int((ar < 0) == (sb < 0))

    def shift_left(ar, br, low):                  # ARBR := shiftleft ARBR; ARBR(47) := low
        return wrap(ar * 2 + (br >> 23), 25), (br << 1 & WORD - 1) | low
    next_digit = digit(ar)
    for _ in range(24):                           # SC := 23 step -1 until 0
        ar, br = shift_left(ar, br, next_digit)
        ar = wrap(ar - sb if next_digit else ar + sb, 25)
        next_digit = digit(ar)
    ar, br = shift_left(ar, br, 1)
    if ar & 1 == br >> 23:                        # AR(23) = BR(0)
        return kept
    if abs(ar >> 1) == abs(sb):                   # AR(-1:22)
        if sb < 0:
            br = br - 1 & WORD - 1
        else:
            br = br + 1 & WORD - 1
            if ar & 1 == br >> 23:
                return kept
        ar = 0
    ar = ar >> 1                                  # AR(0:23) := AR(-1:22)
    if ar != 0 and (ar < 0) != (pre >> 23 == 1):
        if (ar < 0) == (sb < 0):
            ar, br = wrap(ar - sb, 25), br + 1 & WORD - 1
        else:
            ar, br = wrap(ar + sb, 25), br - 1 & WORD - 1
    return ar & (WORD - 1), br, 0


def places(sb):
    n = number(sb, 24)
    if abs(n) >= 64:
        n = 48 if n > 0 else -48
    return n


def arithmetic(bits, sb, w):
    n, over = places(sb), 0
    given = number(w, bits)
    if n < 0:
        for _ in range(-n):                       # W(1:bits-1) := W(0:bits-2)
            w = w >> 1 | w & 1 << bits - 1
        assert number(w, bits) == given >> -n
    else:
        for _ in range(n):
            if w >> bits - 1 & 1 != w >> bits - 2 & 1:
                over = 1
            w = w << 1 & (1 << bits) - 1
        assert over == (number(w, bits) != given << n)
    return w, over


def logical(bits, sb, w):
    n, given = places(sb), w
    if n < 0:
        for _ in range(-n):
            w = w >> 1
        assert w == given >> -n
    else:
        for _ in range(n):
            w = w << 1 & (1 << bits) - 1
        assert w == given << n & (1 << bits) - 1
    return w


def normalize(bits, w):
    if w == 0:
        return 0, -2048 & 4095
    sc, given = 0, number(w, bits)
    while w >> bits - 1 & 1 == w >> bits - 2 & 1:
        w = w << 1 & (1 << bits) - 1
        sc -= 1
    assert number(w, bits) == given << -sc
    return w, sc & 4095


def sign_of(w, sb):
    """AR := signed W - signed SB in 25 bits: no wrap."""
    return number(w, 24) - number(sb, 24)


def halves(x):
    return x >> 24, x & (WORD - 1)


def aa(pre, w, sb):
    s = add(w, pre)
    return s + add(pre, sb, s[2])


def ss(pre, w, sb):
    s = subtract(w, pre)
    return s + subtract(pre, sb, s[2])


def at24(result):
    """A register of 24 bits is written as 48 with zeroes, then what goes with it."""
    return (0,) + result


def at48(result):
    return halves(result[0]) + result[1:]


def pair(pre, w):
    return pre << 24 | w


OPERATIONS = [
    ("WA", lambda pre, w, sb: add(w, sb)),
    ("WS", lambda pre, w, sb: subtract(w, sb)),
    ("AC", lambda pre, w, sb: subtract(0, sb)),
    ("AA", aa),
    ("SS", ss),
    ("LA", lambda pre, w, sb: (each(lambda x, y: int(x == 1 and y == 1), w, sb),)),
    ("LO", lambda pre, w, sb: (each(lambda x, y: int(x == 1 or y == 1), w, sb),)),
    ("LX", lambda pre, w, sb: (each(lambda x, y: int(x != y), w, sb),)),
    ("IC", lambda pre, w, sb: (each(lambda x, y: 0 if y == 1 else x, w, sb),)),
    ("SH", lambda pre, w, sb: (int(sign_of(w, sb) > 0),)),
    ("SL", lambda pre, w, sb: (int(sign_of(w, sb) < 0),)),
    ("SE", lambda pre, w, sb: (int(sign_of(w, sb) == 0),)),
    ("SN", lambda pre, w, sb: (int(sign_of(w, sb) != 0),)),
    ("SO", lambda pre, w, sb: (int(each(lambda x, y: 1 - x if y == 1 else 0, w, sb) == 0),)),
    ("SZ", lambda pre, w, sb: (int(each(lambda x, y: x if y == 1 else 0, w, sb) == 0),)),
    ("WM", lambda pre, w, sb: multiply(w, sb)),
    ("WD", divide),
    ("AS", lambda pre, w, sb: at24(arithmetic(24, sb, w))),
    ("AD", lambda pre, w, sb: at48(arithmetic(48, sb, pair(pre, w)))),
    ("LS", lambda pre, w, sb: (logical(24, sb, w),)),
    ("LD", lambda pre, w, sb: halves(logical(48, sb, pair(pre, w)))),
    ("NS", lambda pre, w, sb: at24(normalize(24, w))),
    ("ND", lambda pre, w, sb: at48(normalize(48, pair(pre, w)))),
]

EDGES = [-2**23, -1, 0, 1, 2**23 - 1, 0x555555, 0xAAAAAA, 0xFFF, 0xFFF000, 2**22, -2**22, 2, -3]
COUNTS = [0, 1, 23, 24, 47, 48, 63, 64, -1, -48, -63, -64, -2**23]
SHIFTS = ("AS", "AD", "LS", "LD")


def edge_cases(name):
    for pre in EDGES:
        for w in EDGES:
            for sb in COUNTS if name in SHIFTS else EDGES:
                yield pre % WORD, w % WORD, sb % WORD


def random_cases(name, seed):
    def draw():
        nonlocal seed
        seed = (seed * 1664525 + 1013904223) % 2**32
        return seed >> 8
    for i in range(10000):
        x, y, z = draw(), draw(), draw()
        k = i // 6 % 24
        pre, w, sb = [
            (x, y, z),
            (x >> k, y, z),
            (~(x >> k), y, z),
            (0, y >> k, z >> 23 - k),
            (-1, ~(y >> k), z >> 23 - k),
            (0, y >> k, ~(z >> 23 - k)),
        ][i % 6]
        if name in SHIFTS:
            sb = z % 160 - 80
        yield pre % WORD, w % WORD, sb % WORD


def main():
    # the rows of document 01's table
    assert add(8388607, 1) == (8388608, 1, 0) and add(16777215, 1) == (0, 0, 1) and subtract(0, 8388608)[:2] == (8388608, 1)
    assert multiply(8388608, 8388608) == (4194304, 0)
    assert divide(16777215, 16777209, 2) == (16777215, 16777213, 0) and divide(0, 5, 0) == (0, 5, 1)
    for op, (name, run) in enumerate(OPERATIONS):
        h = cases = 0
        for source in (edge_cases(name), random_cases(name, op)):
            for operands in source:
                for v in run(*operands):
                    h = (h * 31 + v) % 2**32
                cases += 1
        print(name, cases, h)


main()
