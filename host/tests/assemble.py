"""The script assemble and its programs. Script: what it says while they are proved, and its status; a stand-in for rt proves at once, and writes
stand-ins for the programs, which keep the listing that they are given. Programs: the proved ones, on listings, and their tapes under loadrun."""
import os
import pathlib
import shutil
import subprocess
import sys
import tempfile
import time
import unittest

ROOT = pathlib.Path(__file__).resolve().parents[2]
sys.dont_write_bytecode = True
sys.path.insert(0, str(ROOT / "tools"))
import tape  # noqa: E402
from uses import crates, untimed  # noqa: E402

# What it says is on standard error. It proves the crates that CRATES has and that no call before has proved.
RT = """#!/bin/sh
name=$(basename "$PWD")
echo "$name: $@" >>"$PLACE/asked"
for crate in $CRATES; do
    case $crate in assemble | assemble_tape) [ $crate = $name ] || continue ;; esac
    [ -e "$PLACE/proved $crate" ] && continue
    echo "rt: chose --jobs 2 for $crate" >&2
    echo "logic=proved functions=1 of $crate" >&2
    touch "$PLACE/proved $crate"
done
[ -e "$PLACE/refuse $name" ] && { echo "error: what is wrong" >&2; echo "logic=not-proved" >&2; exit 1; }
mkdir -p out && cp -p "$PLACE/$name" out
echo "rt: running out/$name; to give it other input, run that file yourself" >&2
"""

PROGRAM = """#!/bin/sh
cat >"$PLACE/listing of $(basename "$0")"
cat "$PLACE/result of $(basename "$0")"
"""


class Both(unittest.TestCase):
    def setUp(self):
        room = tempfile.TemporaryDirectory()
        self.addCleanup(room.cleanup)
        self.room = pathlib.Path(room.name)
        self.room.chmod(0o755)
        self.listing, self.tape = self.room / "one.lines", self.room / "one.tape"

    def ended(self, done, status, output, *said):
        self.assertEqual((done.returncode, done.stdout), (status, output), done.stderr)
        for text in said:
            self.assertIn(text, done.stderr)
        if not said:
            self.assertEqual(done.stderr, "")


class Script(Both):
    def setUp(self):
        super().setUp()
        self.repository = self.room / "repository"
        self.repository.mkdir()
        for name in "assemble", "crates.txt":
            shutil.copy(ROOT / name, self.repository / name)
        self.source = self.repository / "crates" / "assemble" / "src" / "main.rt"
        self.source.parent.mkdir(parents=True)
        (self.repository / "crates" / "assemble_tape").mkdir()
        for name, text in (self.source, ""), ("rt", RT), ("assemble", PROGRAM), ("assemble_tape", PROGRAM):
            (self.room / name).write_text(text)
            (self.room / name).chmod(0o755)
        self.answer("7\n", "tape")
        for name in "assemble", "assemble_tape":
            os.utime(self.room / name, (0, 0))  # a build that leaves them older than their sources
        self.listing.write_text("AL W0 7\n")
        self.settings = {"PATH": f"{self.room}:{os.environ['PATH']}", "PLACE": str(self.room), "CRATES": "machine assemble", "TMPDIR": str(self.room)}

    def answer(self, words, written=""):
        (self.room / "result of assemble").write_text(words)
        (self.room / "result of assemble_tape").write_text(written)

    def built(self, program):
        return self.repository / "crates" / program / "out" / program

    def build(self):
        """As though they were proved before."""
        for name in "assemble", "assemble_tape":
            self.built(name).parent.mkdir()
            shutil.copy(self.room / name, self.built(name))
            os.utime(self.built(name), (time.time() + 9, time.time() + 9))

    def forget(self, *names):
        """As though nothing was proved before."""
        for file in self.room / "asked", *[self.room / f"proved {name}" for name in names]:
            file.unlink()
        for name in "assemble", "assemble_tape":
            shutil.rmtree(self.built(name).parent, ignore_errors=True)

    def given(self, program="assemble"):
        return (self.room / f"listing of {program}").read_bytes()

    def command(self, *arguments):
        return [str(self.repository / "assemble"), *map(str, arguments)]

    def run_script(self, *arguments, **more):
        more = {"stdin": subprocess.DEVNULL, "stdout": subprocess.PIPE, **more}
        return subprocess.run(self.command(*arguments), stderr=subprocess.PIPE, text=True, env=self.settings, timeout=20, **more)

    def run_in_shell(self, redirection):
        """Behind a redirection that only a shell can make."""
        return subprocess.run(["bash", "-c", f'"$0" {redirection}', *self.command()], capture_output=True, text=True, env=self.settings, timeout=20)

    def test_every_crate_is_told_with_what_is_left(self):
        for arguments, programs in ((), ["assemble"]), (("--tape", self.tape), ["assemble", "assemble_tape"]):
            names = crates(*programs)
            self.settings["CRATES"] = " ".join(names)
            done = self.run_script(*arguments, self.listing)
            self.ended(done, 0, "" if arguments else "7\n", "proving and building")
            told = untimed(done.stderr).splitlines()[1:]
            self.assertEqual(sorted(told), [f"[{i:2} of {len(names)}] {name} proved (.. s)" for i, name in enumerate(names, 1)])
            self.assertEqual((self.room / "asked").read_text(), "".join(f"{name}: run\n" for name in programs))
            self.forget(*names)

    def test_it_proves_again_only_after_a_change(self):
        self.run_script("--tape", self.tape, self.listing)
        self.ended(self.run_script("--tape", self.tape, self.listing), 0, "")
        self.ended(self.run_script(self.listing), 0, "7\n")
        os.utime(self.source, (time.time() + 9, time.time() + 9))
        (self.room / "proved assemble").unlink()
        self.ended(self.run_script(self.listing), 0, "7\n", "] assemble proved (")

    def test_a_tape_needs_the_second_program(self):
        self.build()
        self.built("assemble_tape").unlink()
        self.ended(self.run_script(self.listing), 0, "7\n")
        self.ended(self.run_script("--tape", self.tape, self.listing), 0, "", "] machine proved (")

    def test_it_proves_where_standard_error_is_closed(self):
        self.ended(self.run_in_shell(f"{self.listing} 2>&-"), 0, "7\n")
        self.assertEqual((self.room / "asked").read_text(), "assemble: run\n")

    def test_what_is_not_proved_is_shown(self):
        for name, asked in ("assemble_tape", "assemble: run\nassemble_tape: run\n"), ("assemble", "assemble: run\n"):
            (self.room / f"refuse {name}").touch()
            done = self.run_script("--tape", self.tape, self.listing)
            self.ended(done, 1, "", "functions=1 of machine\n", "error: what is wrong\n", "assemble: the program is not proved\n")
            self.assertEqual((self.room / "asked").read_text(), asked)
            self.assertFalse(self.tape.exists())
            self.forget("machine", "assemble")

    def test_the_kit_is_needed(self):
        (self.room / "rt").unlink()
        self.settings["PATH"] = os.pathsep.join(part for part in self.settings["PATH"].split(os.pathsep) if not shutil.which("rt", path=part))
        self.ended(self.run_script(self.listing), 1, "", "the Rattle kit is needed")

    def test_the_programs_get_the_listing(self):
        self.build()
        for size in 0, 4, 65536, 65537, 100000:
            given = os.urandom(size)[:65537]
            lines = given.count(b"\n") + (given[-1:] not in (b"", b"\n"))
            self.answer("7\n" * lines, "tape")
            self.listing.write_bytes(given)
            self.ended(self.run_script(self.listing), 0, "7\n" * lines)
            self.assertEqual(self.given(), given)
            with self.listing.open() as listing:
                self.ended(self.run_script("--tape", self.tape, stdin=listing), 0, "")
            self.assertEqual((self.given(), self.given("assemble_tape")), (given, given))
            self.assertEqual(self.tape.read_text(), "tape")

    def test_only_as_many_answers_as_lines_are_a_result(self):
        self.build()
        self.listing.write_text("AL W0 7\nAL W0 8")
        for words in "7\n8\n", "7\nline 2 refused 19\n":
            self.answer(words)
            self.ended(self.run_script(self.listing), "refused" in words, words)
        for words in "", "7\n", "7\n8\n9\n", "7\nrefused 19\n", "7\n\n", "7\n-8\n":
            self.answer(words)
            self.ended(self.run_script(self.listing), 1, "", "printed no result")
        self.answer("7\n8\n")
        self.ended(self.run_script("--tape", self.tape, self.listing), 1, "", "wrote no tape")
        self.built("assemble").write_text("#!/bin/sh\nkill -9 $$\n")
        os.utime(self.source, (0, 0))
        self.listing.write_text("")
        self.ended(self.run_script(self.listing), 1, "", "printed no result")
        self.assertFalse(self.tape.exists())

    def test_a_result_that_cannot_be_written(self):
        self.build()
        with open("/dev/full", "w") as full:
            self.ended(self.run_script(self.listing, stdout=full), 1, None, "could not be written")
        self.ended(self.run_in_shell(f"{self.listing} >&-"), 1, "", "could not be written")
        for out in "/dev/full", self.room / "absent" / "one.tape":
            self.ended(self.run_script("--tape", out, self.listing), 1, "", f"{out}: the tape could not be written")

    def test_listings_that_cannot_be_read(self):
        self.ended(self.run_script(self.room / "absent"), 2, "", f"assemble: {self.room}/absent: no such file\n")
        self.ended(self.run_script(""), 2, "", "no such file")
        self.ended(self.run_script(self.room), 2, "", f"assemble: {self.room}: a directory")
        self.listing.chmod(0)
        other = {"user": 65534, "group": 65534, "extra_groups": []} if os.geteuid() == 0 else {}
        self.ended(self.run_script(self.listing, **other), 2, "", f"assemble: {self.listing}: no permission")
        self.ended(self.run_in_shell(f"{self.room}/absent 2>&-"), 2, "")
        self.assertFalse((self.room / "asked").exists())
        self.build()
        self.ended(self.run_in_shell(f"<{self.room}"), 2, "", "no listing can be read")
        self.ended(self.run_in_shell("<&-"), 2, "", "standard input is closed")

    def test_usage(self):
        usage = "usage: ./assemble [FILE]\n       ./assemble --tape OUT [FILE]\n"
        for arguments in [self.listing, self.listing], ["--tape", self.tape, self.listing, self.listing], [self.listing, "--tape", self.tape]:
            self.ended(self.run_script(*arguments), 2, "", "one listing at most", usage)
        self.ended(self.run_script("--tape"), 2, "", "--tape needs a file to write", usage)
        self.ended(self.run_script("--tape", ""), 2, "", "--tape needs the name of a file")
        self.ended(self.run_script("--tpae", self.listing), 2, "", usage)
        self.ended(self.run_script("--tpae"), 2, "", "--tpae: no such option", usage)
        self.ended(self.run_script("--help", self.listing), 2, "", "--help stands alone", usage)
        self.ended(self.run_script("--tape", self.room, self.listing), 2, "", f"{self.room}: a directory, not a tape")
        for redirection in f"--tape {self.listing} {self.listing}", f"--tape {self.listing} <{self.listing}":
            self.ended(self.run_in_shell(redirection), 2, "", f"{self.listing}: the tape would go over its listing")
        self.assertEqual(self.listing.read_text(), "AL W0 7\n")
        done = self.run_script("--help")
        self.ended(done, 0, done.stdout)
        self.assertIn(usage, done.stdout)
        self.assertFalse((self.room / "asked").exists())

    def test_links_to_the_script(self):
        self.build()
        (self.room / "link").symlink_to("repository/assemble")
        done = subprocess.run(["./link", "one.lines"], cwd=self.room, capture_output=True, text=True, env=self.settings, timeout=20)
        self.ended(done, 0, "7\n")


def word(name, w, m, x, d):
    return f"{tape.CODES.index(name) << 18 | w << 16 | m << 14 | x << 12 | d % 4096}"


# line, its answer: the word, or the refusal
LINES = [
    (b"AL W1 5", word("AL", 1, 0, 0, 5)),
    (b"AL W1 2047", word("AL", 1, 0, 0, 2047)),
    (b"AL W1 0-2048", word("AL", 1, 0, 0, -2048)),
    (b"AW W0 0", "0"),
    (b"SS. W3 [X3,0-1]", word("SS", 3, 3, 3, -1)),
    (b"RS W0 [X2,(3+40)*5-6]", word("RS", 0, 1, 2, 209)),
    (b"JL. W0 10-4-3", word("JL", 0, 2, 0, 3)),
    (b"AL W1 " + 16 * b"(" + b"5" + 16 * b")", word("AL", 1, 0, 0, 5)),
    (b"AL W1 " + 248 * b"0" + b"5", word("AL", 1, 0, 0, 5)),  # 255 characters
    (b"AL W1 " + 249 * b"0" + b"5", 19),
    (b"", 19),
    (b" ", 19),
    (b"AL W1 5 ; five", 19),
    (b"AL W1 5\r", 19),
    (b"AL W1 \0", 19),
    (b"AL W1 \xb5", 19),
    (b"AL W4 5", 19),
    (b"AL W1 -5", 19),
    (b"AQ W1 5", 19),
    (b"AL W1 " + 17 * b"(" + b"5" + 17 * b")", 20),
    (b"AL W1 2048", 21),
    (b"AL W1 8388608-8388608", 21),
]


def answers(lines):
    return "".join(f"{said}\n" if isinstance(said, str) else f"line {number} refused {said}\n" for number, (_, said) in enumerate(lines, 1))


class Programs(Both):
    @classmethod
    def setUpClass(cls):
        """All three programs are proved and built before the first test, so that none says it there."""
        subprocess.run([ROOT / "assemble", "--tape", "/dev/null"], stdin=subprocess.DEVNULL, check=True)
        subprocess.run([ROOT / "loadrun"], stdin=subprocess.DEVNULL, stdout=subprocess.DEVNULL, check=True)

    def run_script(self, *arguments, given=None):
        if given is not None:
            self.listing.write_bytes(given)
        return subprocess.run([ROOT / "assemble", *arguments, self.listing], capture_output=True, text=True, timeout=60)

    def makes(self, given, words):
        """These words, and the tape that tools/tape.py makes of them: with one block, or none where all are zero."""
        self.ended(self.run_script(given=given), 0, "".join(f"{w}\n" for w in words))
        self.tape.unlink(missing_ok=True)
        self.ended(self.run_script("--tape", self.tape), 0, "")
        block = ["block 16"] + [f"word {w}" for w in words] if any(map(int, words)) else []
        wanted = self.room / "wanted.txt"
        wanted.write_text("\n".join([*block, "control IC=16 monitor elapsed=0", "end", ""]))
        subprocess.run([sys.executable, ROOT / "tools" / "tape.py", wanted, self.room / "wanted.tape"], check=True)
        self.assertEqual(self.tape.read_bytes(), (self.room / "wanted.tape").read_bytes())

    def refuses(self, given, output, *said):
        """Nothing is written, and what was there stays."""
        self.tape.unlink(missing_ok=True)
        self.ended(self.run_script("--tape", self.tape, given=given), 1, output, *said)
        self.assertFalse(self.tape.exists())
        self.tape.write_text("an earlier tape")
        self.ended(self.run_script("--tape", self.tape), 1, output, *said)
        self.assertEqual(self.tape.read_text(), "an earlier tape")

    def runs(self, line):
        self.ended(subprocess.run([ROOT / "loadrun", self.tape], capture_output=True, text=True, timeout=60), 0, line)

    def test_each_line_has_its_answer(self):
        listing = b"\n".join(line for line, _ in LINES)
        for end in b"", b"\n":
            self.ended(self.run_script(given=listing + end), 1, answers(LINES))
            refused = [line for line in answers(LINES).splitlines(True) if "refused" in line]
            self.refuses(listing + end, "".join(refused))

    def test_each_line_alone(self):
        for line, said in LINES:
            with self.subTest(line):
                self.ended(self.run_script(given=line + b"\n"), int(not isinstance(said, str)), answers([(line, said)]))

    def test_no_line_and_an_empty_one(self):
        self.makes(b"", [])
        self.refuses(b"\n", "line 1 refused 19\n")
        self.refuses(b"\n\n", "line 1 refused 19\nline 2 refused 19\n")
        self.refuses(b"AL W1 5\n\n", "line 2 refused 19\n")

    def test_tapes(self):
        accepted = [(line, said) for line, said in LINES if isinstance(said, str) and said != "0"]
        for end in b"", b"\n":
            self.makes(b"\n".join(line for line, _ in accepted) + end, [said for _, said in accepted])
        self.makes(b"AW W0 0\nAW W0 0", ["0", "0"])

    def test_the_first_cell_beyond_the_store(self):
        self.makes(b"AL W1 5\n" * 4088, [word("AL", 1, 0, 0, 5)] * 4088)
        self.runs("spent 100 0 216\n")
        self.refuses(b"AL W1 5\n" * 4089, "", "4089 lines, and a tape has room for 4088")

    def test_the_longest_listing(self):
        self.ended(self.run_script(given=b"AL W1 5\n" * 8192), 0, (word("AL", 1, 0, 0, 5) + "\n") * 8192)
        self.ended(self.run_script(given=b"\n" * 65536), 1, "".join(f"line {n} refused 19\n" for n in range(1, 65537)))
        for given in b"AL W1 5\n" * 8192 + b"\n", b"x" * 65537, b"\n" * 100000:
            self.ended(self.run_script(given=given), 1, "listing over 65536 bytes\n")
            self.refuses(given, "listing over 65536 bytes\n")

    def test_the_example_runs(self):
        shutil.copy(ROOT / "examples" / "sum.lines", self.listing)
        self.ended(self.run_script(), 0, "2883584\n2949130\n1835010\n2957311\n11075584\n3444730\n6029352\n3440640\n")
        self.ended(self.run_script("--tape", self.tape), 0, "")
        self.runs("spent 100 0 30\n")


if __name__ == "__main__":
    unittest.main()
