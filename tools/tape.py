#!/usr/bin/env python3
"""Make a load tape from a readable listing.

    tape.py LISTING TAPE        write the tape of a listing
    tape.py --check LISTING..   see that LISTING.txt makes the LISTING.tape beside it

A listing has one item a line; `;` starts a comment, behind a remark or a text too. Spaces at the ends of these are
dropped.

    remark TEXT                 a remark record, the rest of the line: at most 255 bytes
    block ADDRESS [key K]       a block from this byte address (even) on; its cells follow, one or more
    [LABEL:] CODE [Wn] [Mn] [Xn] [D]
                                an instruction by its mnemonic of the manual's A.2; D, -2048 to 2047, is a number or a
                                label, which counts from the instruction itself where M is 2 or 3
    [LABEL:] word N             a word, decimal or 0x.., -8388608 to 16777215; a label's address too
    [LABEL:] bytes A B          two bytes in one word, -2048 to 4095 each
    [LABEL:] float X            a floating-point number, two words; a label is the second word's address; X is 0 or, with
                                either sign, 2.3e-308 to 1.7e308
    key K                       the key of the cells that follow, 0 to 7
    control [IC=N] [IR=N] [IM=N] [pending=N] [PR=N] [EX=N] [monitor] [enabled] [reset]
            [elapsed=N] [period=N] [phase=N] [line=N]
                                the control record; PR is 128 where it is not given. Times are in tenths of a microsecond;
                                line is the number of the timer's line. With one of the last four the record has 33 bytes,
                                else 20
    end                         the end record
    raw HEX..                   bytes as they are, for tapes that are to be refused
    text TEXT                   characters behind the program on a reader tape (tools/reader.py), the rest of the
                                line; a load tape has none of them

A number may be a word with bit I from the left, written bitI: IR=bit5; or the code of a character, written 'C. A label
is letters, figures and _, with no figure first; it is not bitI, nor W, M or X with 0 to 3.

What does not fit is refused, and so are a cell that an earlier block has and a tape over 65,536 bytes; no tape is
written then. The order of the records is the listing's. Status: 0 done, 1 a tape is not what its listing makes (--check),
2 no tape can be made or read.
"""
import contextlib
import math
import os
import re
import sys

CODES = """AW IO BL HL LA LO LX WA WS AM WM AL ML JL JD JE XL BS BA BZ RL SP KL RS WD RX HS XS PL PS MS IS
CI AC NS ND AS AD LS LD SH SL SE SN SO SZ SX IC FA FS FM KS FD CF DL DS AA SS""".split()

WORD = 2**24
LONGEST_TAPE, LONGEST_REMARK = 65536, 255

CONTROL_FIELDS = {"IC": (0, WORD - 1), "IR": (0, WORD - 1), "IM": (0, WORD - 1), "pending": (0, WORD - 1), "PR": (128, 255), "EX": (0, 7)}
TIMES = {"elapsed": (0, 2**32 - 1), "period": (0, 2**32 - 1), "phase": (0, 2**32 - 1), "line": (0, 255)}
FLAGS = {"monitor": 1, "enabled": 2, "reset": 4}


class Error(Exception):
    """Why no tape is made."""


class Placed(Error):
    """The same with file, line and text."""


def within(value, low, high, what):
    if not low <= value <= high:
        raise Error(f"{what} is {low} to {high}, not {value if abs(value) < 2**64 else 'so long a number'}")
    return value


def number(text, labels):
    if text in labels:
        return labels[text]
    bit = re.fullmatch(r"bit(\d\d?)", text)
    if bit:
        return 1 << (23 - within(int(bit[1]), 0, 23, "a bit"))
    if len(text) == 2 and text[0] == "'":
        return ord(text[1])
    try:
        return int(text, 0)
    except ValueError:
        raise Error(f"no number or label: {text}") from None


def little(value, size):
    return value.to_bytes(size, "little")


def record(kind, payload):
    return little(len(payload), 4) + little(kind, 2) + payload


def floating(text):
    """The two words of a normalized floating-point number."""
    try:
        value = float(text)
        fraction, exponent = math.frexp(value)
        bits = round(fraction * 2**35)
    except (ValueError, OverflowError):
        raise Error(f"no floating-point number: {text}") from None
    if abs(value) < sys.float_info.min and re.search("[1-9]", text.lower().split("e")[0]):
        raise Error(f"too small a floating-point number: {text}")
    if bits == 0:
        return [0, 2048]
    if bits == 2**35:
        bits, exponent = 2**34, exponent + 1
    elif bits == -2**34:
        bits, exponent = -2**35, exponent - 1
    bits %= 2**36
    return [bits >> 12, (bits % 4096) * 4096 + exponent % 4096]


def instruction(fields, address, labels):
    parts, by_label = {}, False
    for field in fields[1:]:
        part, value = (field[0], int(field[1])) if re.fullmatch(r"[WMX][0-3]", field) else ("D", number(field, labels))
        if part in parts:
            raise Error(f"a second {part}: {field}")
        parts[part] = value
        by_label = by_label or field in labels
    w, m, x, d = (parts.get(part, 0) for part in "WMXD")
    if m >= 2 and by_label:
        d -= address
    return CODES.index(fields[0]) << 18 | w << 16 | m << 14 | x << 12 | within(d, -2048, 2047, "D") % 4096


def words(fields, address, labels):
    """The words that an item of a block stands for."""
    name, *values = fields
    if name in CODES:
        return [instruction(fields, address, labels)]
    if len(values) != {"word": 1, "bytes": 2, "float": 1}[name]:
        raise Error(f"{name} has {len(values)} values")
    if name == "word":
        return [within(number(values[0], labels), -WORD // 2, WORD - 1, "a word") % WORD]
    if name == "bytes":
        left, right = (within(number(value, labels), -2048, 4095, "a byte") % 4096 for value in values)
        return [left * 4096 + right]
    return floating(values[0])


def control(fields, labels):
    """The payload of a control record."""
    values, flags = {}, set()
    for field in fields:
        name, equals, value = field.partition("=")
        if name in values or name in flags:
            raise Error(f"a second {name}")
        if equals and name in CONTROL_FIELDS | TIMES:
            values[name] = within(number(value, labels), *(CONTROL_FIELDS | TIMES)[name], name)
        elif not equals and name in FLAGS:
            flags.add(name)
        else:
            raise Error(f"no control field: {field}")
    if "reset" in flags and flags != {"monitor", "reset"}:
        raise Error("the reset state is with monitor and without enabled")
    payload = b"".join(little(values.get(name, 0), 4) for name in ("IC", "IR", "IM", "pending"))
    payload += bytes([values.get("PR", 128), values.get("EX", 0), sum(FLAGS[flag] for flag in flags), 0])
    return payload + times(values) if TIMES.keys() & values else payload


def times(values):
    """The last 13 bytes of a control record of 33."""
    elapsed, period, phase, line = (values.get(name, 0) for name in TIMES)
    if period:
        within(line, 3, 23, "the line of a timer")
        within(phase, 0, period - 1, "the phase of this period")
    return little(elapsed, 4) + little(period, 4) + little(phase, 4) + little(line, 1)


class Maker:
    """One pass over a listing. The first, which has no labels, finds them; the second makes the records."""

    def __init__(self, file, lines, labels=None):
        self.file, self.lines, self.labels, self.found = file, lines, labels, {}
        self.place, self.block, self.key = 0, None, 0
        self.records = []  # (line, bytes)
        self.cells = []  # (line, address, cell)
        self.controls = []  # (line, payload)
        self.raws = []  # lines
        self.texts = []  # (line, text)
        for self.place, line in enumerate(lines, 1):
            text = line.split(";")[0].strip()
            if text:
                with self.at(self.place):
                    self.item(text)
        self.close_block()

    @contextlib.contextmanager
    def at(self, place):
        """An error in here is told with the file, this line and its text."""
        try:
            yield
        except Placed:
            raise
        except Error as error:
            raise Placed(f"{self.file}:{place}: {error}: {self.lines[place - 1].strip()}") from None

    def add(self, kind, payload):
        self.close_block()
        self.records.append((self.place, record(kind, payload)))

    def close_block(self):
        if self.block is None:
            return
        place, first, cells = self.block
        if not cells:
            with self.at(place):
                raise Error("a block with no cells")
        self.records.append((place, record(1, little(first, 4) + b"".join(little(cell, 4) for cell in cells))))
        self.block = None

    def item(self, text):
        name, *fields = text.split()
        rest = text[len(name):].strip()
        if name in ("remark", "block", "key", "control", "end", "raw", "text"):
            getattr(self, "item_" + name)(fields, rest)
        else:
            self.item_of_block([name, *fields])

    def item_remark(self, fields, rest):
        payload = rest.encode()
        within(len(payload), 0, LONGEST_REMARK, "the length of a remark")
        self.add(4, payload)

    def item_block(self, fields, rest):
        self.close_block()
        if len(fields) not in (1, 3) or fields[1:2] not in ([], ["key"]):
            raise Error("not: block ADDRESS [key K]")
        address = within(number(fields[0], {}), 0, WORD - 2, "an address")
        if address % 2:
            raise Error("a block begins at an even address")
        self.block = self.place, address // 2, []
        self.item_key(fields[2:] or ["0"], rest)

    def item_key(self, fields, rest):
        if self.block is None:
            raise Error("a key outside a block")
        if len(fields) != 1:
            raise Error("not: key K")
        self.key = within(number(fields[0], {}), 0, 7, "a key")

    def item_control(self, fields, rest):
        payload = bytes(20) if self.labels is None else control(fields, self.labels)
        self.controls.append((self.place, payload))
        self.add(2, payload)

    def item_end(self, fields, rest):
        if fields:
            raise Error("end has no values")
        self.add(3, b"")

    def item_raw(self, fields, rest):
        try:
            given = bytes.fromhex(" ".join(fields))
        except ValueError:
            raise Error("raw has bytes of two hexadecimal figures") from None
        self.close_block()
        self.raws.append(self.place)
        self.records.append((self.place, given))

    def item_text(self, fields, rest):
        self.texts.append((self.place, rest))

    def define(self, label, address):
        if not re.fullmatch(r"[A-Za-z_]\w*", label, re.ASCII) or re.fullmatch(r"bit\d+|[WMX][0-3]", label):
            raise Error(f"no name for a label: {label}")
        if label in self.found:
            raise Error(f"a second label {label}")
        self.found[label] = address

    def item_of_block(self, fields):
        label = fields.pop(0)[:-1] if fields[0].endswith(":") else None
        if not fields:
            raise Error("a label with no item")
        if fields[0] not in CODES and fields[0] not in ("word", "bytes", "float"):
            raise Error(f"unknown item: {fields[0]}")
        if self.block is None:
            raise Error("a cell outside a block")
        _, first, cells = self.block
        size = 2 if fields[0] == "float" else 1
        address = 2 * (first + len(cells))
        last = within(address + 2 * (size - 1), 0, WORD - 2, "an address")
        if label is not None:
            self.define(label, last)
        made = [0] * size if self.labels is None else words(fields, address, self.labels)
        for word in made:
            self.cells.append((self.place, 2 * (first + len(cells)), self.key << 24 | word))
            cells.append(self.key << 24 | word)


def made(listing, file):
    """The maker with all that a listing has."""
    lines = listing.split("\n")
    return Maker(file, lines, Maker(file, lines).found)


def see_that_no_cell_is_named_twice(maker):
    named = {}
    for place, address, _ in maker.cells:
        with maker.at(place):
            if address in named:
                raise Error(f"the cell of address {address} stands in line {named[address]} too")
        named[address] = place


def make(listing, file):
    maker = made(listing, file)
    see_that_no_cell_is_named_twice(maker)
    tape = b""
    for place, part in maker.records:
        tape += part
        with maker.at(place):
            within(len(tape), 0, LONGEST_TAPE, "the length of a tape")
    return tape


def read(file):
    """The text of a listing."""
    with open(file, "rb") as source:
        data = source.read()
    try:
        return data.decode("utf-8-sig")
    except UnicodeDecodeError as error:
        place = data[:error.start].count(b"\n") + 1
        raise Error(f"{file}:{place}: no text in UTF-8: {data.splitlines()[place - 1]!r}") from None


def check(listing, make, ending):
    """Whether a listing makes the tape beside it."""
    made_tape = make(read(listing), listing)
    with open(os.path.splitext(listing)[0] + ending, "rb") as tape:
        return made_tape == tape.read()


def write(listing, tape, make):
    made_tape = make(read(listing), listing)
    if os.path.exists(tape) and os.path.samefile(listing, tape):
        raise Error(f"{tape}: the tape would be written over its listing")
    with open(tape, "wb") as output:
        output.write(made_tape)


def answer(arguments, tool, help, make, ending):
    if len(arguments) > 1 and arguments[0] == "--check":
        different = [listing for listing in arguments[1:] if not check(listing, make, ending)]
        for listing in different:
            print(f"{tool}: {listing} does not make the tape beside it", file=sys.stderr)
        return 1 if different else 0
    if arguments in (["--help"], ["-h"]):
        print(help.strip())
        return 0
    if len(arguments) != 2 or any(argument.startswith("--") for argument in arguments):
        raise Error(f"usage: {tool} LISTING TAPE | {tool} --check LISTING.. | {tool} --help")
    write(*arguments, make)
    return 0


def main(arguments, tool, help, make, ending):
    """Makes or checks tapes, whose names have this ending, by a function from listing and its file's name to tape; gives the status."""
    try:
        return answer(arguments, tool, help, make, ending)
    except Error as error:
        print(f"{tool}: {error}", file=sys.stderr)
    except OSError as error:
        print(f"{tool}: {arguments[-1] if error.filename is None else error.filename}: {error.strerror}", file=sys.stderr)
    return 2


if __name__ == "__main__":
    sys.exit(main(sys.argv[1:], "tape.py", __doc__, make, ".tape"))
