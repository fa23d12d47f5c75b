"""The operation codes of A.2 stand in five lists: the definition, the dispatch by code, tools/tape.py, the coverage of the comparison and the
assembler of the emulation. All have the same mnemonic for each code."""
import pathlib
import re
import unittest

ROOT = pathlib.Path(__file__).resolve().parents[2]


def numbered(pairs):
    """Mnemonics by code, none of them twice."""
    codes = {}
    for code, mnemonic in pairs:
        if code in codes or mnemonic in codes.values():
            raise ValueError(f"twice: {code} {mnemonic}")
        codes[code] = mnemonic
    return codes


def in_definition(text):
    """`code 2 BL` or `device_code 0 AW`, in the list `codes`."""
    body = re.search(r"^codes =\n((?: .*\n)+)", text, re.M)[1]
    return numbered((int(code), name) for code, name in re.findall(r"\b(?:code|device_code) (\d+) (\w+)", body))


def in_dispatch(text):
    """`2 => timed(t, 30, crate::bl(..))` or `1 => crate::io(..)`; AS is the function `shift_as`, since `as` is a word of the language."""
    arms = re.findall(r"^ *(\d+) => (?:[^=]*?)\w+_instructions::(?:shift_)?(\w+)\(", text, re.M)
    return numbered((int(code), name.upper()) for code, name in arms)


def in_tape_maker(text):
    return numbered(enumerate(re.search(r'^CODES = """(.*?)"""', text, re.M | re.S)[1].split()))


def in_rust(text):
    """A code that is not used stands as its number, or not at all."""
    body = re.search(r"MNEMONIC\w+: \[&str; \d+\] = \[(.*?)\];", text, re.S)[1]
    names = re.findall(r'"(\w+)"', body)
    return numbered((code, name) for code, name in enumerate(names) if name != str(code))


LISTS = {
    "crates/definition_instructions/specs/Codes.antt": (in_definition, "code 3 HL", "code 3 HX"),
    "crates/dispatch/src/lib.rt": (in_dispatch, "::hl(", "::hx("),
    "tools/tape.py": (in_tape_maker, " HL ", " HX "),
    "host/compare/src/coverage.rs": (in_rust, '"HL"', '"HX"'),
    "host/emulation/src/assembler.rs": (in_rust, '"HL"', '"HX"'),
}


class Codes(unittest.TestCase):
    def text(self, pattern):
        files = list(ROOT.glob(pattern))
        self.assertEqual(len(files), 1, pattern)
        return files[0].read_text()

    def test_all_lists_have_the_same_codes(self):
        expected = in_definition(self.text(next(iter(LISTS))))
        self.assertEqual(sorted(expected), list(range(58)))
        for pattern, (read, _, _) in LISTS.items():
            with self.subTest(pattern):
                self.assertEqual(read(self.text(pattern)), expected)

    def test_another_mnemonic_is_seen(self):
        for pattern, (read, right, wrong) in LISTS.items():
            with self.subTest(pattern):
                text = self.text(pattern)
                self.assertEqual(text.count(right), 1)
                self.assertEqual(read(text.replace(right, wrong)), {**read(text), 3: "HX"})


if __name__ == "__main__":
    unittest.main()
