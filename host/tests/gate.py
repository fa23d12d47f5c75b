"""The gate, .ci/run, with stand-ins for rt and host/test: what it passes, and what it fails with its status."""
import os
import pathlib
import shutil
import subprocess
import tempfile
import unittest

ROOT = pathlib.Path(__file__).resolve().parents[2]

RT = """#!/bin/sh
echo "$@ at $PWD" >>"$PLACE/asked"
cat "$PLACE/rt says"
exit $(cat "$PLACE/status")
"""

TEST = """#!/bin/sh
echo "host tests $1"
cat "$PLACE/test says $1"
"""

EDITS = "rt: ok; handles allowed: none; must-fail edits: 631 refused"
DONE = "every proof and must-fail edit was done in this run"


class Gate(unittest.TestCase):
    def setUp(self):
        room = tempfile.TemporaryDirectory()
        self.addCleanup(room.cleanup)
        self.room = pathlib.Path(room.name).resolve()
        self.repository = self.room / "repository"
        for folder in ".ci", "host":
            (self.repository / folder).mkdir(parents=True)
        shutil.copy(ROOT / ".ci" / "run", self.repository / ".ci" / "run")
        for file, text in (self.room / "rt", RT), (self.room / "valgrind", "#!/bin/sh\n"), (self.repository / "host" / "test", TEST):
            file.write_text(text)
            file.chmod(0o755)
        self.rt_says(f"{EDITS}; {DONE}\n685 passed, 0 failed\n")
        self.host_says("without-library", "40 passed, 0 failed\n")
        self.host_says("with-library", "2 passed, 0 failed\n")

    def rt_says(self, text, status=0):
        (self.room / "rt says").write_text(text)
        (self.room / "status").write_text(f"{status}\n")

    def host_says(self, which, text):
        (self.room / f"test says {which}").write_text(text)

    def run_gate(self):
        settings = {"PATH": f"{self.room}:{os.environ['PATH']}", "PLACE": str(self.room)}
        return subprocess.run(["bash", self.repository / ".ci" / "run"], cwd=self.room, env=settings, capture_output=True, text=True, timeout=20)

    def passes(self, total):
        done = self.run_gate()
        self.assertEqual((done.returncode, done.stdout.splitlines()[-1]), (0, f"{total} passed, 0 failed"), done.stdout + done.stderr)

    def fails(self, status=1):
        done = self.run_gate()
        self.assertEqual(done.returncode, status, done.stdout + done.stderr)
        self.assertFalse(done.stdout.endswith("727 passed, 0 failed\n"))
        return done.stdout

    def test_it_passes_where_all_passes(self):
        self.passes(727)
        self.assertEqual((self.room / "asked").read_text(), f"ci at {self.repository}\n")

    def test_what_rt_adds_in_parentheses_or_of_limits_counts_for_nothing(self):
        for text in f"{EDITS}, 3 of them only by a limit; {DONE}\n685 passed, 0 failed\n", f"{EDITS}; {DONE}\n685 passed, 0 failed (kept)\n", \
                f"{EDITS}, 0 bad; {DONE}\n685 passed, 0 failed\n":
            self.rt_says(text)
            self.passes(727)

    def test_bad_edits_fail_it(self):
        for text in ", 1 bad", ", 3 of them only by a limit, 20 bad":
            self.rt_says(f"{EDITS}{text}; {DONE}\n685 passed, 0 failed\n")
            self.assertIn("must-fail edits are bad", self.fails())

    def test_it_ends_with_the_status_of_rt(self):
        for status in 1, 2:
            self.rt_says("rt: FAILED: machine\n684 passed, 1 failed\n", status)
            self.fails(status)
            self.rt_says(f"{EDITS}; {DONE}\n685 passed, 0 failed\n", status)
            self.fails(status)

    def test_what_rt_does_not_say_as_passed_fails_it(self):
        for text in "", f"{EDITS}; {DONE}\n", f"{EDITS}; {DONE}\n684 passed, 1 failed\n", "685 passed, 0 failed\n", \
                f"{EDITS}; {DONE}\n685 passed, 0 failed (capi and the crates below alone: not the gate)\n":
            self.rt_says(text)
            self.fails()

    def test_host_tests_that_fail_fail_it(self):
        for which in "without-library", "with-library":
            self.host_says(which, "39 passed, 1 failed\n")
            self.assertIn("39 passed, 1 failed\n", self.fails())
            self.host_says(which, "")
            self.fails()
            self.host_says(which, "40 passed, 0 failed\n")


if __name__ == "__main__":
    unittest.main()
