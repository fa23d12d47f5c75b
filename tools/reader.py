#!/usr/bin/env python3
"""Make a reader tape, for the autoload key, from a readable listing.

    reader.py LISTING TAPE        write the reader tape of a listing
    reader.py --check LISTING..   see that LISTING.txt makes the LISTING.reader beside it

A reader tape has one byte a character, 0 to 63, and four characters a word, the first one left-most. The bootstrap of
the manual's section 11.5 stands first: AW 2, AW 4, JL 0, a loop in W0 to W2. Then come AW with its address and the word
itself for each word of the listing, and JL to the IC of the control record. The listing's text is last, a character
each, its code less 32: space, signs, figures and capital letters.

A listing is written as tape.py says (tape.py --help). Refused is what AW cannot load: words below address 8, where the
bootstrap stands, keys, and raw bytes; and a control record with more than IC and monitor mode, or a second one. An
address over 2046 does not fit into an instruction; W3 is then made its base, so the program must not count on W3.

Status: 0 done, 1 a tape is not what its listing makes (--check), 2 no tape can be made or read.
"""
import sys

import tape

LARGEST, STEP = 2046, 2000


class Punch:
    """The words of a reader tape."""

    def __init__(self):
        self.words, self.base = [], None
        for text in ("AW 2", "AW 4", "JL 0"):
            self.instruction(text)

    def instruction(self, text):
        self.words.append(tape.instruction(text.split(), 0, {}))

    def based(self, code, address):
        """An instruction with this address, by W3 where it is too large."""
        if address <= LARGEST:
            return self.instruction(f"{code} {address}")
        base = address // STEP * STEP
        if self.base is None or base < self.base:
            self.instruction("AL W3 0")
            self.base = 0
        while self.base < base:
            self.instruction(f"AL W3 X3 {STEP}")
            self.base += STEP
        self.instruction(f"{code} X3 {address - base}")

    def cell(self, address, cell):
        if address < 8:
            raise tape.Error(f"AW cannot load address {address}: the bootstrap is below 8")
        if cell >> 24:
            raise tape.Error(f"AW cannot load key {cell >> 24}")
        self.based("AW", address)
        self.words.append(cell)


def start(maker):
    """The IC of the only control record."""
    for place in maker.raws:
        with maker.at(place):
            raise tape.Error("AW cannot load raw bytes")
    for place, _ in maker.controls[1:]:
        with maker.at(place):
            raise tape.Error("a second control record")
    for place, payload in maker.controls:
        with maker.at(place):
            if payload[4:] != bytes(12) + bytes([128, 0, 1, 0]):
                raise tape.Error("a reader tape sets IC alone: write `control IC=.. monitor`")
            return int.from_bytes(payload[:4], "little")
    raise tape.Error(f"{maker.file}: no control record")


def coded(text):
    """The characters of a text."""
    wrong = [character for character in text if not 32 <= ord(character) < 96]
    if wrong:
        raise tape.Error(f"no character of six bits: {wrong[0]}")
    return [ord(character) - 32 for character in text]


def make(listing, file):
    maker, punch = tape.made(listing, file), Punch()
    begin = start(maker)
    for place, address, cell in maker.cells:
        with maker.at(place):
            punch.cell(address, cell)
    punch.based("JL", begin)
    characters = [word >> shift & 63 for word in punch.words for shift in (18, 12, 6, 0)]
    for place, text in maker.texts:
        with maker.at(place):
            characters += coded(text)
    return bytes(characters)


if __name__ == "__main__":
    sys.exit(tape.main(sys.argv[1:], "reader.py", __doc__, make, ".reader"))
