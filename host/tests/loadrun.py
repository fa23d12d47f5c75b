"""The script loadrun: what it says while the program is proved, and its status. A stand-in for rt proves at once, and writes a stand-in for
the program, which keeps the tape that it is given."""
import os
import pathlib
import shutil
import subprocess
import sys
import tempfile
import time
import unittest

sys.dont_write_bytecode = True
from uses import ROOT, crates, untimed  # noqa: E402

# It waits for the file go behind its first crate, five seconds at most. What it says is on standard error, what its program writes on standard output.
RT = """#!/bin/sh
echo "$(basename "$PWD"): $@" >>"$PLACE/asked"
for crate in $CRATES; do
    echo "rt: chose --jobs 2 for $crate" >&2
    echo "fn $crate::some: proved" >&2
    echo "logic=proved functions=1 of $crate" >&2
    for i in ${tries-$(seq 50)}; do [ -e "$PLACE/go" ] && break; sleep 0.1; done
    tries=
done
[ -e "$PLACE/refuse" ] && { echo "error: what is wrong" >&2; echo "logic=not-proved" >&2; exit 1; }
mkdir -p out && cp -p "$PLACE/program" out/loadrun
echo "rt: running out/loadrun; to give it other input, run that file yourself" >&2
echo "refused 6"
"""

PROGRAM = """#!/bin/sh
cat >"$PLACE/tape"
cat "$PLACE/result"
"""


class Loadrun(unittest.TestCase):
    def setUp(self):
        room = tempfile.TemporaryDirectory()
        self.addCleanup(room.cleanup)
        self.room = pathlib.Path(room.name)
        self.room.chmod(0o755)
        self.repository, self.tape = self.room / "repository", self.room / "one.tape"
        self.repository.mkdir()
        for name in "loadrun", "crates.txt":
            shutil.copy(ROOT / name, self.repository / name)
        self.source = self.repository / "crates" / "loadrun" / "src" / "main.rt"
        self.source.parent.mkdir(parents=True)
        for file, text in (self.source, ""), (self.room / "rt", RT), (self.room / "program", PROGRAM):
            file.write_text(text)
            file.chmod(0o755)
        (self.room / "result").write_text("spent 100 0 18\n")
        os.utime(self.room / "program", (0, 0))  # a build that leaves it older than its sources
        (self.room / "go").touch()
        self.tape.write_bytes(b"tape")
        self.settings = {"PATH": f"{self.room}:{os.environ['PATH']}", "PLACE": str(self.room), "CRATES": " ".join(crates("loadrun"))}

    def build(self):
        """As though it were proved before."""
        program = self.repository / "crates" / "loadrun" / "out" / "loadrun"
        program.parent.mkdir()
        shutil.copy(self.room / "program", program)
        os.utime(program, (time.time() + 9, time.time() + 9))

    def command(self, *arguments):
        return [str(self.repository / "loadrun"), *map(str, arguments)]

    def run_script(self, *arguments, **more):
        more = {"stdin": subprocess.DEVNULL, "stdout": subprocess.PIPE, **more}
        return subprocess.run(self.command(*arguments), stderr=subprocess.PIPE, text=True, env=self.settings, timeout=20, **more)

    def run_in_shell(self, redirection):
        """Behind a redirection that only a shell can make."""
        return subprocess.run(["bash", "-c", f'"$0" {redirection}', *self.command()], capture_output=True, text=True, env=self.settings, timeout=20)

    def ended(self, done, status, output, *said):
        self.assertEqual((done.returncode, done.stdout), (status, output), done.stderr)
        for text in said:
            self.assertIn(text, done.stderr)
        if not said:
            self.assertEqual(done.stderr, "")

    def test_every_crate_is_told_with_what_is_left(self):
        names = crates("loadrun")
        for proved in names, names[7::9], ["loadrun"]:
            self.settings["CRATES"] = " ".join(proved)
            done = self.run_script(self.tape)
            self.ended(done, 0, "spent 100 0 18\n", f"[{len(names)} of {len(names)}] loadrun proved (" if "loadrun" in proved else "proving and building")
            told = untimed(done.stderr).splitlines()[1:]
            self.assertEqual(told, [f"[{i:2} of {len(names)}] {name} proved (.. s)" for i, name in enumerate(names, 1) if name in proved])
            self.assertEqual((self.room / "asked").read_text(), "loadrun: run\n")
            (self.room / "asked").unlink()
            shutil.rmtree(self.repository / "crates" / "loadrun" / "out")

    def test_a_crate_is_told_when_it_is_proved(self):
        (self.room / "go").unlink()
        began = time.monotonic()
        with subprocess.Popen(self.command(self.tape), stdin=subprocess.DEVNULL, stdout=subprocess.PIPE, stderr=subprocess.PIPE, text=True,
                              env=self.settings) as script:
            script.stderr.readline()
            self.assertIn("[ 1 of ", script.stderr.readline())
            (self.room / "go").touch()
            self.assertEqual(script.communicate(timeout=20)[0], "spent 100 0 18\n")
        self.assertLess(time.monotonic() - began, 4)

    def test_it_proves_again_only_after_a_change(self):
        self.run_script(self.tape)
        self.ended(self.run_script(self.tape), 0, "spent 100 0 18\n")
        kept = self.repository / "crates" / "machine" / "out" / "rlib" / "lang" / "src" / "lib.rt"  # rt's own copies are no sources
        kept.parent.mkdir(parents=True)
        kept.touch()
        os.utime(kept, (time.time() + 9, time.time() + 9))
        self.ended(self.run_script(self.tape), 0, "spent 100 0 18\n")
        os.utime(self.source, (time.time() + 9, time.time() + 9))
        self.ended(self.run_script(self.tape), 0, "spent 100 0 18\n", "[ 1 of ")

    def test_it_proves_where_standard_error_is_closed(self):
        self.ended(self.run_in_shell(f"{self.tape} 2>&-"), 0, "spent 100 0 18\n")
        self.assertEqual((self.room / "asked").read_text(), "loadrun: run\n")

    def test_what_is_not_proved_is_shown(self):
        (self.room / "refuse").touch()
        done = self.run_script(self.tape)
        self.ended(done, 1, "", "functions=1 of machine\n", "error: what is wrong\n", "logic=not-proved\n", "loadrun: the program is not proved\n")
        self.assertFalse((self.room / "tape").exists())

    def test_the_kit_is_needed(self):
        (self.room / "rt").unlink()
        self.settings["PATH"] = os.pathsep.join(part for part in self.settings["PATH"].split(os.pathsep) if not shutil.which("rt", path=part))
        self.ended(self.run_script(self.tape), 1, "", "the Rattle kit is needed")

    def test_the_program_gets_the_tape(self):
        self.build()
        for size in 0, 4, 65536, 65537, 100000:
            given = os.urandom(size)
            self.tape.write_bytes(given)
            self.ended(self.run_script(self.tape), 0, "spent 100 0 18\n")
            self.assertEqual((self.room / "tape").read_bytes(), given[:65537])
            with self.tape.open() as tape:
                self.ended(self.run_script(stdin=tape), 0, "spent 100 0 18\n")
            self.assertEqual((self.room / "tape").read_bytes(), given[:65537])

    def test_only_a_line_of_document_01_is_a_result(self):
        self.build()
        for line in "refused 9", "spent 100 0 18", "interrupted 14 1 100", "reset 0 0 0":
            (self.room / "result").write_text(line + "\n")
            self.ended(self.run_script(self.tape), 0, line + "\n")
        for line in "", "refused", "spent 100 0", "reset 0 0 0 0", "spent 100 0 18\nspent 100 0 18", "gone 1 2 3":
            (self.room / "result").write_text(line + "\n")
            self.ended(self.run_script(self.tape), 1, "", "printed no result")
        (self.repository / "crates" / "loadrun" / "out" / "loadrun").write_text("#!/bin/sh\nkill -9 $$\n")
        os.utime(self.source, (0, 0))
        for size in 0, 100000:  # more than a pipe holds
            self.tape.write_bytes(bytes(size))
            self.ended(self.run_script(self.tape), 1, "", "printed no result")

    def test_a_line_that_cannot_be_written(self):
        self.build()
        with open("/dev/full", "w") as full:
            self.ended(self.run_script(self.tape, stdout=full), 1, None, "could not be written")
        self.ended(self.run_in_shell(f"{self.tape} >&-"), 1, "", "could not be written")

    def test_tapes_that_cannot_be_read(self):
        self.ended(self.run_script(self.room / "absent"), 2, "", f"loadrun: {self.room}/absent: no such file\n")
        self.ended(self.run_script(""), 2, "", "no such file")
        self.ended(self.run_script(self.room), 2, "", f"loadrun: {self.room}: a directory")
        self.tape.chmod(0)
        other = {"user": 65534, "group": 65534, "extra_groups": []} if os.geteuid() == 0 else {}
        self.ended(self.run_script(self.tape, **other), 2, "", f"loadrun: {self.tape}: no permission")
        self.ended(self.run_in_shell(f"{self.room}/absent 2>&-"), 2, "")
        self.assertFalse((self.room / "asked").exists())
        self.build()
        self.ended(self.run_in_shell(f"<{self.room}"), 2, "", "no tape can be read")
        self.ended(self.run_in_shell("<&-"), 2, "", "standard input is closed")

    def test_usage(self):
        for first in self.tape, "--help":
            self.ended(self.run_script(first, self.tape), 2, "", "one tape at most", "usage: ./loadrun [FILE]")
        done = self.run_script("--help")
        self.ended(done, 0, done.stdout)
        self.assertIn("usage: ./loadrun [FILE]\n", done.stdout)
        self.assertFalse((self.room / "asked").exists())

    def test_links_to_the_script(self):
        self.build()
        (self.room / "link").symlink_to("repository/loadrun")
        (self.room / "other").symlink_to(self.room / "link")
        for link in "./link", "./other":
            done = subprocess.run([link, "one.tape"], cwd=self.room, capture_output=True, text=True, env=self.settings, timeout=20)
            self.ended(done, 0, "spent 100 0 18\n")


if __name__ == "__main__":
    unittest.main()
