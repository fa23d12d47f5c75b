#!/usr/bin/env python3
"""Writes stdin and stdout of the crate cases_tape: load, overlay and remark cases, and what has to come of each.

usage: tools/cases_tape.py CASES ANSWERS [FOLDER]

The stored files come out with host/vectors/e7.cases and host/vectors/e7.answers; FOLDER is crates/cases_tape where it is not given.

The first part is made here: the paper's tape, tapes for every refusal, and for every pair of refusals that stand next to each other in
the order of document 01 (17 after 9 and before 10, 18 at the end of 3, document 02), tapes that earn both at one record; every kind of overlap of
two blocks; control records of every length from 0 to 40 bytes, and of 33 with every kind of timer; each of these loaded into a store with every
cell in use and laid over it. Then what becomes of cells that no block names: each cell alone, and second tapes laid over what a load left. The
judge below, written from these documents, answers them. Then come the `load`, `overlay` and `remark`
requests of the first file with the answers of the second, line by line. Where the judge gives another answer nothing is written, and the exit
status is 1.
"""
import os, struct, sys

ROOT = os.path.dirname(os.path.dirname(os.path.abspath(__file__)))
LIMIT = 4096                                    # the program's store
KINDS = {"load": 1, "remark": 2, "overlay": 3}
GIVEN = [4294967295, 16777216, 1, 2, 3, 9, 0, 1, 1, 4294967295, 5, 4294967294, 255]


# ---- the judge

def number(b):
    return int.from_bytes(b, "little")


def control(p):
    return [number(p[i:i + 4]) for i in (0, 4, 8, 12)] + [p[16], p[17], p[18] & 1, p[18] >> 1 & 1, p[18] >> 2 & 1]


def timer(p):
    """Elapsed, period, phase, line: behind the 20 bytes, or four zeroes."""
    return [number(p[i:i + 4]) for i in (20, 24, 28)] + [p[32]] if len(p) == 33 else [0] * 4


def timer_fits(elapsed, period, phase, line):
    return period == 0 or 3 <= line <= 23 and phase < period


def control_fits(p):
    ic, ir, im, pending, pr, ex, monitor, enabled, reset = control(p)
    return (max(ic, ir, im, pending) < 1 << 24 and 128 <= pr <= 255 and ex <= 7 and p[18] <= 7 and p[19] == 0
            and not (reset and (enabled or not monitor)))


def read(tape, n):
    """(refusal, blocks, control record, span of the first remark)"""
    if len(tape) > 65536:
        return 12, None, None, None
    at, blocks, named, ctl, span = 0, [], set(), None, None
    while True:
        if at + 6 > len(tape):
            return 6, None, None, None
        size, kind = number(tape[at:at + 4]), number(tape[at + 4:at + 6])
        if kind not in (1, 2, 3, 4):
            return 7, None, None, None
        if (kind == 3) != (ctl is not None):
            return 11, None, None, None
        if not {1: size >= 8 and size % 4 == 0, 2: size in (20, 33), 3: size == 0, 4: size <= 255}[kind]:
            return 8, None, None, None
        p = tape[at + 6:at + 6 + size]
        if len(p) < size:
            return 6, None, None, None
        if kind == 1:
            first, cells = number(p[:4]), [number(p[i:i + 4]) for i in range(4, size, 4)]
            if first + len(cells) > n:
                return 9, None, None, None
            if not named.isdisjoint(range(first, first + len(cells))):
                return 17, None, None, None
            named.update(range(first, first + len(cells)))
            if any(x >= 1 << 27 for x in cells):
                return 10, None, None, None
            blocks.append((first, cells))
        if kind == 2:
            if not control_fits(p):
                return 3, None, None, None
            if not timer_fits(*timer(p)):
                return 18, None, None, None
            ctl = control(p) + timer(p)
        if kind == 4 and span is None:
            span = (at + 6, at + 6 + size)
        at += 6 + size
        if kind == 3:
            return (11, None, None, None) if at < len(tape) else (0, blocks, ctl, span)


def left(kind, cells, blocks):
    """The cells after a load or an overlay that is done."""
    after = {} if kind == "load" else dict(cells)
    for first, xs in blocks:
        after.update({first + i: x for i, x in enumerate(xs)})
    return after


def load(kind, n, cells, tape):
    if not 8 <= n <= 8388608:
        return "refused 1"
    if any(x >= 1 << 27 for x in cells.values()):
        return "refused 2"
    refusal, blocks, ctl, _ = read(tape, n)
    if refusal:
        return f"refused {refusal}"
    after = left(kind, cells, blocks)
    changed = [f"{i}={after.get(i, 0)}" for i in sorted(cells | after) if after.get(i, 0) != cells.get(i, 0)]
    return f"ok {' '.join(map(str, ctl))} {','.join(changed) or '-'}"


def remark(n, tape):
    if not 8 <= n <= 8388608:
        return "refused 1"
    refusal, _, _, span = read(tape, n)
    return f"refused {refusal}" if refusal else f"at {span[0]} {span[1]}" if span else "none"


def judged(kind, n, cells, tape):
    return remark(n, tape) if kind == "remark" else load(kind, n, cells, tape)


# ---- the cases made here

def rec(kind, payload, size=None):
    return struct.pack("<IH", len(payload) if size is None else size, kind) + payload


def block(first, *cells, size=None):
    return rec(1, struct.pack("<I", first) + b"".join(struct.pack("<I", x) for x in cells), size)


def ctl(*fields, pr=128, ex=0, flags=5, last=0, time=None, size=None):
    words = list(fields) + [0] * (4 - len(fields))
    return rec(2, struct.pack("<IIIIBBBB", *words, pr, ex, flags, last) + (struct.pack("<IIIB", *time) if time else b""), size)


END = rec(3, b"")
PAPER = bytes.fromhex("140000000200" + "00" * 16 + "80000500" + "000000000300")
BIG = 1 << 27
OFF, BAD, MOST = (0, 0, 0, 0), (0, 2, 2, 2), 4294967295
BYTES = (0x04030201, 0x08070605, 0x040b0a09, 23)


def made():
    good = [PAPER, block(0, 1, 2, 3) + ctl(2, 3, 4, 5) + END, block(7, BIG - 1) + ctl() + END, block(4, 1, 2) + block(2, 9, 8) + ctl() + END,
            rec(4, b"") + ctl() + END, rec(4, b"one") + rec(4, b"two") + ctl() + END, block(0, 5) + rec(4, bytes(255)) + block(1, 6) + ctl() + END,
            ctl(16777215, 16777215, 16777215, 16777215, pr=255, ex=7, flags=3) + END, ctl(1, flags=0) + END, ctl(flags=1) + END, ctl(flags=2) + END,
            rec(4, b"x" * 10) * 4094 + PAPER, ctl(time=OFF) + END, ctl(2, 3, 4, 5, ex=6, flags=1, time=BYTES) + END,
            rec(4, b"one") + block(3, 9) + ctl(time=(MOST, MOST, MOST - 1, 3)) + END]
    # each place of document 01's order alone, and every pair of neighbours: the tape has both faults, and the first counts
    single = [b"", PAPER[:-1], PAPER[:-6], PAPER[:5], PAPER[:6], PAPER[:20],                        # 6
              rec(0, b"") + PAPER, rec(5, b"") + PAPER, rec(256, b"") + PAPER, rec(257, bytes(8)) + PAPER,      # 7
              END, ctl() + ctl() + END, ctl() + block(0, 1) + END, ctl() + rec(4, b"") + END,                   # 11
              rec(1, bytes(4)) + PAPER, rec(1, b"") + PAPER, rec(1, bytes(9)) + PAPER, rec(2, bytes(19)) + END, rec(2, bytes(21)) + END,
              rec(2, bytes(24)) + END, rec(2, bytes(32)) + END, rec(2, bytes(34)) + END,
              ctl() + rec(3, b"a"), ctl() + rec(3, bytes(4)), rec(4, bytes(256)) + PAPER,                                   # 8
              block(8, 1) + PAPER, block(0, *range(9)) + PAPER, block(4294967295, 1) + PAPER, block(7, 1, 2) + PAPER,       # 9
              block(4, 1, 2, 3, 4) + block(5, 9, 8) + PAPER, block(2, 1) + rec(4, b"") + block(2, 1) + PAPER,               # 17
              block(0, BIG) + PAPER, block(0, 1, 4294967295) + PAPER,                                                       # 10
              ctl(16777216) + END, ctl(0, 16777216) + END, ctl(0, 0, 16777216) + END, ctl(0, 0, 0, 16777216) + END, ctl(pr=127) + END,
              ctl(ex=8) + END, ctl(flags=8) + END, ctl(flags=13) + END, ctl(last=1) + END, ctl(flags=4) + END, ctl(flags=7) + END,
              ctl(16777216, time=OFF) + END, ctl(pr=127, time=OFF) + END, ctl(flags=8, time=OFF) + END, ctl(last=1, time=OFF) + END,         # 3
              ctl(time=BAD) + END, ctl(time=(0, 1, 0, 2)) + END, ctl(time=(0, 1, 0, 24)) + END, ctl(time=(0, 1, 1, 3)) + END,                # 18
              PAPER + b"\0", PAPER + PAPER, PAPER + END,                                                                            # 11
              rec(4, b"x" * 11) + rec(4, b"x" * 10) * 4093 + PAPER]                                                                 # 12
    pairs = [rec(4, b"x" * 10) * 4096 + b"\0",                                            # 12, 6
             rec(9, b"")[:5], rec(0, b"")[:4],                                              # 6, 7
             ctl() + rec(9, b"") + END, ctl() + rec(0, bytes(3)) + END, ctl() + rec(65535, b""),       # 7, 11
             rec(3, b"abc"), ctl() + rec(2, bytes(19)) + END, ctl() + rec(1, bytes(5)), ctl() + rec(4, bytes(256)), rec(3, b"", 1),    # 11, 8
             rec(1, b"", 7), rec(2, bytes(3), 21), ctl() + rec(3, b"", 5), rec(4, b"", 256), rec(1, b"", 4294967295),                # 8, 6
             block(9, 1, size=12), block(9, BIG, 1, size=16), rec(1, b"", 4294967292), rec(2, bytes(19), 20), rec(4, b"", 255),     # 6, 9; 6, 3
             block(6, 1) + block(6, 1, 2, 3) + PAPER, block(0, 1) + block(0, *range(9)) + PAPER,                                       # 9, 17
             block(6, 1) + block(6, BIG) + PAPER, block(3, 1) + block(2, 1, 2, BIG) + PAPER, block(3, 1) + block(2, BIG, 2) + PAPER,   # 17, 10
             block(2, BIG) + block(2, 1) + PAPER, block(2, 1) + block(2, 1) + rec(9, b""),                                             # 10, 17 of the next
             block(8, BIG) + PAPER, block(7, 1, BIG) + PAPER, block(4294967295, BIG),                                                  # 9, 10
             block(0, BIG) + rec(9, b""), block(0, BIG) + ctl(16777216) + END, block(0, BIG),                                          # 10, 3 of the next
             ctl(16777216) + END + b"\0", ctl(flags=8, last=1) + END + END, ctl(pr=0) + rec(9, b""), ctl(pr=0) + block(0, 1),             # 3, 11
             ctl(16777216, time=BAD) + END, ctl(flags=8, time=BAD) + END, ctl(last=1, time=BAD) + END, ctl(flags=7, time=BAD) + END,          # 3, 18
             rec(2, ctl(time=BAD)[6:-1], 33), ctl(time=BAD, size=34) + END, ctl(time=BAD, size=20) + END, block(8, 1) + ctl(time=BAD),    # 6, 8, 9
             ctl(time=BAD) + END + b"\0", ctl(time=BAD) + rec(9, b""), ctl(time=BAD) + block(0, 1), ctl(time=BAD),                           # 18, 11
             PAPER + rec(9, b""), PAPER + b"\0" * 5, ctl() + rec(3, b"a") + END]                                                       # 11 after 8
    # two blocks with every place of the second, then the same with another between and before them
    blocks = [(a, k) for a in range(8) for k in range(1, 9 - a)]
    overlaps = [block(3, 1, 2) + block(a, *range(k)) + PAPER for a, k in blocks]
    overlaps += [block(3, 1, 2) + block(7, 1) + block(a, *range(k)) + PAPER for a, k in blocks if a + k < 8]
    overlaps += [block(7, 1) + block(3, 1, 2) + block(a, *range(k)) + PAPER for a, k in blocks if a + k < 8]
    for t in overlaps:
        yield from every_call(8, full(8), t)
    for t in good + single + pairs:
        yield from every_call(8, full(8), t) if len(t) < 1000 or t in good else calls(8, full(8), t)
    for t in good[:8] + [b"", END, block(8, 1)]:
        for n, given in ((7, full(8)), (0, {}), (8, {0: BIG}), (7, {0: BIG}), (12, {11: 4294967295}), (4096, {4095: BIG - 1})):
            yield from calls(n, {i: x for i, x in given.items() if i < n}, t)
        for n in (0, 7, 8388608, 8388609, 4294967295):
            yield "remark", n, {}, t
    yield from timers()
    yield from unnamed()
    yield from laid_over()


def timers():
    """Control records of every length from 0 to 40 bytes; of 33: each line with the period 0 and another, each phase around the period."""
    whole = ctl(1, 2, 3, 4, ex=5)[6:] + bytes(20)
    for size in range(41):
        for t in (rec(2, whole[:size]) + END, rec(2, whole[:size])):
            yield from every_call(8, full(8), t)
    for line in (*range(32), 128, 255):
        for period in (0, 2):
            yield from calls(8, full(8), ctl(time=(line, period, 1, line)) + END)
    for period in (0, 1, 2, 255, 256, 65536, 16777216, MOST):
        for phase in sorted(x for x in {0, 1, period - 1, period, period + 1, MOST} if 0 <= x <= MOST):
            yield from calls(8, full(8), ctl(time=(MOST - phase, period, phase, 3)) + END)


def full(n):
    """Word and key in every cell."""
    return {i: (i % 7 + 1 << 24) + 16777215 - i for i in range(n)}


def calls(n, cells, t):
    yield "load", n, cells, t
    yield "overlay", n, cells, t


def every_call(n, cells, t):
    yield from calls(n, cells, t)
    yield "remark", n, {}, t


def unnamed():
    """Cells that no block names: all, all but one, one alone, those between blocks; also of a store of zero and of one with a cell too large."""
    for n in (8, 9, 24):
        tapes = [PAPER, block(0, *range(1, n + 1)) + PAPER, b"".join(block(i, i) for i in range(0, n, 2)) + PAPER]
        tapes += [block(i, *value) + PAPER for i in range(n) for value in ((0,), (5 << 24,))]
        tapes += [b"".join(block(k, 7) for k in range(n) if k != i) + PAPER for i in range(n)]
        for t in tapes:
            yield from calls(n, full(n), t)
        for i in range(n):
            for value in (1, 1 << 24, BIG - 1, BIG):
                yield from calls(n, {i: value}, PAPER)
        for t in tapes[:6]:
            yield from calls(n, {}, t)
            yield from calls(n, full(n) | {n - 1: BIG}, t)
    for t in (PAPER, block(0, 1) + block(63, 2) + PAPER, block(32, 1, 0, 3) + PAPER):
        yield from calls(64, full(64), t)
    yield from calls(LIMIT, full(LIMIT), block(9, 1) + block(LIMIT - 2, 2) + PAPER)


def laid_over():
    """A ground tape loaded into a store with every cell in use; border tapes laid over what it leaves, good ones and refused ones; and the ground
    tape again."""
    for n, ground in ((8, block(2, 1, 2, 3, 4)), (9, block(0, 7, 8) + block(5, 1 << 24, 0, 9)), (24, block(20, 1, 2, 3) + block(4, 9, 8, 7, 6))):
        ground += ctl(6, 5, 4, 3, pr=170, ex=2, flags=1, time=BYTES) + END
        yield "load", n, full(n), ground
        after = left("load", {}, read(ground, n)[1])
        for border in (PAPER, block(0, 11) + PAPER, block(n - 1, 12) + block(2, 0, 13) + PAPER, block(0, *[0] * n) + PAPER, b"",
                       block(0, 11) + ctl(time=(MOST, 3, 2, 3)) + END, block(0, 11) + ctl(time=BAD) + END,
                       block(5, 14) + PAPER + b"\0", block(5, 14) + block(5, 14) + PAPER, block(n, 1) + PAPER, block(0, BIG) + PAPER):
            yield from calls(n, after, border)
        yield from calls(n, left("overlay", after, read(block(1, 15, 16) + PAPER, n)[1]), ground)


def given(requests, answers):
    for q, a in zip(open(requests), open(answers)):
        f = q.split()
        if f and f[0] in ("load", "overlay") and int(f[1]) <= LIMIT:
            cells = {} if f[2] == "-" else dict(map(int, c.split("=")) for c in f[2].split(","))
            yield (f[0], int(f[1]), cells, bytes.fromhex(f[3].strip("-"))), a.strip()
        elif f and f[0] == "remark":
            yield ("remark", int(f[1]), {}, bytes.fromhex(f[2].strip("-"))), a.strip()


def expected(kind, tape, answer):
    f = answer.split()
    if kind != "remark":
        return answer if f[0] == "ok" else f"refused {f[1]} {' '.join(map(str, GIVEN))} -"
    refusal = int(f[1]) if f[0] == "refused" else 0
    a, e = (int(f[1]), int(f[2])) if f[0] == "at" else (0, 0)
    total = 0
    for b in tape[a:e]:
        total = (total * 3 + b) % 65536
    found = int(f[0] == "at")
    return f"{refusal} {found} {refusal} {found} {a} {e} {e - a} {total}"


def main():
    if len(sys.argv) not in (3, 4):
        sys.exit("usage: tools/cases_tape.py CASES ANSWERS [FOLDER]")
    requests, answers, folder = (sys.argv[1:] + [f"{ROOT}/crates/cases_tape"])[:3]
    cases = [(case, judged(*case)) for case in made()] + list(given(requests, answers))
    data, lines = struct.pack("<I", len(cases)), []
    for (kind, n, cells, tape), answer in cases:
        mine = judged(kind, n, cells, tape)
        if mine != answer:
            sys.exit(f"the two judges differ: {kind} {n} {cells} {tape.hex()[:200]}: {mine}, {answer}")
        some = {i: x for i, x in cells.items() if x}
        data += struct.pack("<IIII", KINDS[kind], n, len(some), len(tape))
        data += b"".join(struct.pack("<II", i, x) for i, x in some.items()) + tape
        lines.append(expected(kind, tape, answer))
    open(f"{folder}/stdin", "wb").write(data)
    open(f"{folder}/stdout", "w").write("".join(l + "\n" for l in lines))
    print(len(cases), "cases,", len(data), "bytes;", sorted({l.split()[1] for l in lines if l.startswith("refused")}, key=int))


main()
