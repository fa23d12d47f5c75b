"""tools/tape.py and tools/reader.py: what fits makes a tape, what does not is refused with file, line and text."""
import contextlib
import io
import pathlib
import subprocess
import sys
import tempfile
import types
import unittest

TOOLS = pathlib.Path(__file__).resolve().parents[2] / "tools"
sys.dont_write_bytecode = True
sys.path.insert(0, str(TOOLS))
import reader  # noqa: E402
import tape  # noqa: E402

BY_NAME = {"tape.py": (tape, ".tape"), "reader.py": (reader, ".reader")}

# what is wrong, its line, the listing
REFUSED = [
    ("D is -2048 to 2047, not 2048", 2, "block 16\n AL W1 2048"),
    ("D is -2048 to 2047, not -2049", 2, "block 16\n AL W1 -2049"),
    ("D is -2048 to 2047, not 4095", 2, "block 16\n AL W1 4095"),
    ("D is -2048 to 2047, not 4000", 2, "block 16\n JL far\nblock 4000\nfar: word 0"),
    ("D is -2048 to 2047, not 2984", 2, "block 16\n JL M2 far\nblock 3000\nfar: word 0"),
    ("a second W: W2", 2, "block 16\n AL W1 W2 5"),
    ("a second D: 6", 2, "block 16\n AL 5 6"),
    ("no number or label: W4", 2, "block 16\n AL W4"),
    ("no number or label: w1", 2, "block 16\n AL w1 5"),
    ("no number or label: nowhere", 2, "block 16\n JL nowhere"),
    ("a word is -8388608 to 16777215, not 16777216", 2, "block 16\n word 16777216"),
    ("a word is -8388608 to 16777215, not -8388609", 2, "block 16\n word -8388609"),
    ("a word is -8388608 to 16777215, not so long a number", 2, "block 16\n word 0x" + 5000 * "f"),
    ("no number or label: bit999", 2, "block 16\n word bit" + 5000 * "9"),
    ("word has 2 values", 2, "block 16\n word 1 2"),
    ("word has 0 values", 2, "block 16\n word"),
    ("a byte is -2048 to 4095, not 4096", 2, "block 16\n bytes 0 4096"),
    ("bytes has 1 values", 2, "block 16\n bytes 1"),
    ("a bit is 0 to 23, not 24", 2, "block 16\n word bit24"),
    ("no floating-point number: inf", 2, "block 16\n float inf"),
    ("no floating-point number: nan", 2, "block 16\n float nan"),
    ("no floating-point number: x", 2, "block 16\n float x"),
    ("too small a floating-point number: 1e-400", 2, "block 16\n float 1e-400"),
    ("too small a floating-point number: -1e-320", 2, "block 16\n float -1e-320"),
    ("a key is 0 to 7, not 8", 1, "block 16 key 8\n word 0"),
    ("a key is 0 to 7, not -1", 2, "block 16\nkey -1\n word 0"),
    ("a key outside a block", 1, "key 3"),
    ("not: key K", 2, "block 16\nkey 1 2\n word 0"),
    ("not: block ADDRESS [key K]", 1, "block 16 keys\n word 0"),
    ("not: block ADDRESS [key K]", 1, "block\n word 0"),
    ("a block begins at an even address", 1, "block 15\n word 0"),
    ("an address is 0 to 16777214, not -2", 1, "block -2\n word 0"),
    ("an address is 0 to 16777214, not 16777216", 3, "block 16777214\n word 0\n word 0"),
    ("the cell of address 16 stands in line 2 too", 4, "block 16\n word 0\nblock 16\n word 0"),
    ("the cell of address 16 stands in line 2 too", 5, "block 16\n word 0\n word 0\nblock 14\n float 1\n word 0"),
    ("a block with no cells", 1, "block 16\ncontrol monitor\nend"),
    ("a block with no cells", 2, "; none\nblock 16"),
    ("a cell outside a block", 1, "word 0"),
    ("unknown item: AQ", 2, "block 16\n AQ W1 0"),
    ("a label with no item", 2, "block 16\nhere:\n word 0"),
    ("a second label here", 3, "block 16\nhere: word 0\nhere: word 1"),
    ("no name for a label: 5", 2, "block 16\n5: word 0"),
    ("no name for a label: W1", 2, "block 16\nW1: word 0"),
    ("no name for a label: bit5", 2, "block 16\nbit5: word 0"),
    ("IC is 0 to 16777215, not 16777216", 1, "control IC=16777216 monitor"),
    ("IR is 0 to 16777215, not -1", 1, "control IR=-1 monitor"),
    ("IM is 0 to 16777215, not 33554432", 1, "control IM=0x2000000"),
    ("pending is 0 to 16777215, not 16777216", 1, "control pending=16777216"),
    ("PR is 128 to 255, not 127", 1, "control PR=127"),
    ("PR is 128 to 255, not 256", 1, "control PR=256"),
    ("EX is 0 to 7, not 8", 1, "control EX=8"),
    ("a second IC", 1, "control IC=16 IC=18"),
    ("a second monitor", 1, "control monitor monitor"),
    ("no control field: monitor=1", 1, "control monitor=1"),
    ("no control field: ic=1", 1, "control ic=1"),
    ("the reset state is with monitor and without enabled", 1, "control reset"),
    ("the reset state is with monitor and without enabled", 1, "control monitor enabled reset"),
    ("elapsed is 0 to 4294967295, not 4294967296", 1, "control elapsed=4294967296"),
    ("period is 0 to 4294967295, not -1", 1, "control period=-1"),
    ("phase is 0 to 4294967295, not 4294967296", 1, "control phase=4294967296"),
    ("line is 0 to 255, not 256", 1, "control line=256"),
    ("the line of a timer is 3 to 23, not 2", 1, "control period=1 line=2"),
    ("the line of a timer is 3 to 23, not 24", 1, "control period=1 line=24"),
    ("the line of a timer is 3 to 23, not 0", 1, "control period=1"),
    ("the phase of this period is 0 to 99, not 100", 1, "control period=100 phase=100 line=5"),
    ("a second line", 1, "control line=5 line=5"),
    ("end has no values", 1, "end here"),
    ("raw has bytes of two hexadecimal figures", 1, "raw 0g"),
    ("raw has bytes of two hexadecimal figures", 1, "raw 0 0"),
    ("the length of a remark is 0 to 255, not 256", 1, "remark " + 256 * "a"),
    ("the length of a remark is 0 to 255, not 256", 1, "remark " + 128 * "ø"),
    ("the length of a tape is 0 to 65536, not 65550", 1, "block 16\n" + 16385 * "word 0\n"),
]

REFUSED_BY_READER = [
    ("AW cannot load address 6", 2, "block 6\n word 1\ncontrol monitor"),
    ("AW cannot load key 1", 2, "block 16 key 1\n word 1\ncontrol monitor"),
    ("AW cannot load raw bytes", 1, "raw 00\ncontrol monitor"),
    ("a reader tape sets IC alone", 1, "control IC=16"),
    ("a reader tape sets IC alone", 1, "control IC=16 monitor period=9 line=5"),
    ("a second control record", 2, "control IC=16 monitor\ncontrol IC=18 monitor"),
    ("no character of six bits: a", 2, "control monitor\ntext LOAa"),
    ("D is -2048 to 2047, not 2048", 2, "block 16\n AL W1 2048\ncontrol monitor"),
    ("a word is -8388608 to 16777215, not 16777216", 2, "block 16\n word 16777216\ncontrol monitor"),
]


def record(kind, payload):
    return len(payload).to_bytes(4, "little") + kind.to_bytes(2, "little") + payload


def block(address, *cells):
    return record(1, b"".join(number.to_bytes(4, "little") for number in (address // 2, *cells)))


# listing, its tape
MADE = [
    ("block 16\n AL W1 2047\n AL W1 -2048", block(16, 11 << 18 | 1 << 16 | 2047, 11 << 18 | 1 << 16 | 2048)),
    ("block 16\nLOOP: JL LOOP\nEnd_2: JL M2 LOOP", block(16, 13 << 18 | 16, 13 << 18 | 2 << 14 | 4094)),
    ("block 5000\n JL M2 over\nover: JL M2 X1 over", block(5000, 13 << 18 | 2 << 14 | 2, 13 << 18 | 2 << 14 | 1 << 12)),
    ("block 4000\n RL W1 low\nblock 20\nlow: word low", block(4000, 20 << 18 | 1 << 16 | 20) + block(20, 20)),
    ("block 16\n word 16777215\n word -1\n word -8388608", block(16, 16777215, 16777215, 8388608)),
    ("block 16 key 7\n bytes 4095 -2048\nkey 0\n bytes 'A 0", block(16, 7 << 24 | 4095 << 12 | 2048, 65 << 12)),
    ("block 16777214\n word bit23", block(16777214, 1)),
    ("block 16\n float 1\n float 0\n float -0.5\n float -0e9", block(16, 4194304, 1, 0, 2048, 8388608, 4095, 0, 2048)),
    ("block 16\n float 0.99999999999999999\n float 0.999999999999", block(16, 4194304, 1, 4194304, 1)),
    ("block 16\n float -0.5000000000001", block(16, 8388608, 4095)),
    ("remark " + 255 * "a", record(4, 255 * b"a")),
    ("remark", record(4, b"")),
    ("block 16\n" + 16380 * "word 0\n" + "end", block(16, *16380 * [0]) + record(3, b"")),
    ("control IC=16777215 IR=bit0 PR=255 EX=7 monitor reset",
     record(2, bytes([255, 255, 255, 0, 0, 0, 128, 0, 0, 0, 0, 0, 0, 0, 0, 0, 255, 7, 5, 0]))),
    ("control monitor elapsed=1 period=0x200 phase=511 line=23",
     record(2, bytes(16) + bytes([128, 0, 1, 0, 1, 0, 0, 0, 0, 2, 0, 0, 255, 1, 0, 0, 23]))),
    ("control monitor elapsed=0", record(2, bytes(16) + bytes([128, 0, 1]) + bytes(14))),
    ("control phase=4294967295 line=255", record(2, bytes(16) + bytes([128]) + bytes(11) + bytes(5 * [255]))),
    ("block 16\n word 1\nblock 18\n word 2\nblock 14\n word 3",
     b"".join(record(1, bytes([cell, 0, 0, 0, word, 0, 0, 0])) for cell, word in ((8, 1), (9, 2), (7, 3)))),
    ("control monitor\r\nend\r\nraw 0a 0B", record(2, bytes(16) + bytes([128, 0, 1, 0])) + record(3, b"") + b"\n\v"),
]


class Listings(unittest.TestCase):
    def setUp(self):
        self.room = tempfile.TemporaryDirectory()
        self.addCleanup(self.room.cleanup)
        self.listing, self.tape = pathlib.Path(self.room.name, "one.txt"), pathlib.Path(self.room.name, "one.tape")

    def run_tool(self, *arguments, tool="tape.py"):
        """In this process: a new one for each listing would take most of the time."""
        module, ending = BY_NAME[tool]
        with contextlib.redirect_stdout(io.StringIO()) as output, contextlib.redirect_stderr(io.StringIO()) as errors:
            status = tape.main([str(argument) for argument in arguments], tool, module.__doc__, module.make, ending)
        return types.SimpleNamespace(returncode=status, stdout=output.getvalue(), stderr=errors.getvalue())

    def refused(self, done, *parts):
        """Status 2, nothing on standard output, one line on standard error with these parts."""
        self.assertEqual((done.returncode, done.stdout), (2, ""), done.stderr)
        self.assertEqual(done.stderr.count("\n"), 1, done.stderr)
        for part in parts:
            self.assertIn(part, done.stderr)

    def refuses(self, cases, tool):
        for message, line, listing in cases:
            with self.subTest(listing[:60]):
                self.listing.write_text(listing + "\n")
                text = listing.split("\n")[line - 1].strip()
                self.refused(self.run_tool(self.listing, self.tape, tool=tool), f"{self.listing}:{line}: {message}", f": {text}\n")
                self.assertFalse(self.tape.exists())

    def test_what_does_not_fit_is_refused(self):
        self.refuses(REFUSED, "tape.py")

    def test_what_the_reader_cannot_load_is_refused(self):
        self.refuses(REFUSED_BY_READER, "reader.py")
        self.listing.write_text("block 16\n word 1\n")
        self.refused(self.run_tool(self.listing, self.tape, tool="reader.py"), f"{self.listing}: no control record")

    def test_what_fits_makes_a_tape(self):
        for listing, tape in MADE:
            with self.subTest(listing[:60]):
                self.listing.write_bytes(listing.encode())
                self.assertEqual(self.run_tool(self.listing, self.tape).stderr, "")
                self.assertEqual(self.tape.read_bytes(), tape)

    def test_files_that_cannot_be_read_or_written(self):
        self.refused(self.run_tool(self.listing, self.tape), f"{self.listing}: No such file")
        self.refused(self.run_tool("", self.tape), ".py: : No such file")
        self.refused(self.run_tool(self.room.name, self.tape), f"{self.room.name}: Is a directory")
        self.listing.write_text("end\n")
        self.refused(self.run_tool(self.listing, self.room.name), f"{self.room.name}: Is a directory")
        self.refused(self.run_tool(self.listing, self.listing), "over its listing")
        self.refused(self.run_tool("--check", self.listing), f"{self.tape}: No such file")
        self.refused(self.run_tool(self.listing, "/dev/full"), "/dev/full: No space left")
        self.listing.write_bytes(b"end\n\xff\n")
        self.refused(self.run_tool(self.listing, self.tape), f"{self.listing}:2: no text in UTF-8")

    def test_usage(self):
        for tool in "tape.py", "reader.py":
            for arguments in [], ["one"], ["one", "two", "three"], ["--check"], ["--chekc", "one"], ["one", "--check"]:
                self.refused(self.run_tool(*arguments, tool=tool), f"usage: {tool} LISTING TAPE")
            self.refused(subprocess.run([sys.executable, TOOLS / tool], capture_output=True, text=True), f"usage: {tool} LISTING TAPE")
            done = subprocess.run([sys.executable, TOOLS / tool, "--help"], capture_output=True, text=True)
            self.assertEqual((done.returncode, done.stderr), (0, ""))
            self.assertIn(f"{tool} --check LISTING..", done.stdout)

    def test_another_tape_beside_a_listing_is_seen(self):
        self.listing.write_text("end\n")
        self.run_tool(self.listing, self.tape)
        self.assertEqual(self.run_tool("--check", self.listing).returncode, 0)
        self.tape.write_bytes(b"\0")
        done = self.run_tool("--check", self.listing)
        self.assertEqual((done.returncode, done.stdout), (1, ""))
        self.assertIn(f"{self.listing} does not make the tape beside it", done.stderr)


if __name__ == "__main__":
    unittest.main()
