"""The scripts build-library and install, with a stand-in for rt."""
import os
import pathlib
import shutil
import subprocess
import tempfile
import time
import unittest

HOST = pathlib.Path(__file__).resolve().parents[1]

RT = """#!/bin/sh
echo "$(basename "$PWD"): $@" >>"$PLACE/asked"
[ -e "$PLACE/refuse" ] && exit 1
mkdir -p out && cp "$PLACE/library" out/libcapi.a
"""

CRATES = "machine:\nrc4000: machine\ncapi staticlib: machine rc4000\n"


class Library(unittest.TestCase):
    def setUp(self):
        room = tempfile.TemporaryDirectory()
        self.addCleanup(room.cleanup)
        self.room = pathlib.Path(room.name)
        self.repository = self.room / "repository"
        self.library = self.repository / "target" / "staticlib" / "librc4000.a"
        self.source = self.repository / "crates" / "machine" / "src" / "lib.rt"
        self.source.parent.mkdir(parents=True)
        self.source.touch()
        (self.repository / "crates" / "capi").mkdir()
        (self.repository / "host" / "include").mkdir(parents=True)
        for name in "build-library", "install", "Cargo.toml", "include/rc4000.h":
            shutil.copy(HOST / name, self.repository / "host" / name)
        (self.repository / "crates.txt").write_text(CRATES)
        (self.room / "rt").write_text(RT)
        (self.room / "rt").chmod(0o755)
        (self.room / "library").write_text("first")

    def script(self, name, *arguments):
        settings = {"PATH": f"{self.room}:{os.environ['PATH']}", "PLACE": str(self.room)}
        command = [str(self.repository / "host" / name), *arguments]
        return subprocess.run(command, cwd=self.room, env=settings, capture_output=True, text=True, timeout=20)

    def asked(self):
        """What rt was asked since the last time."""
        file = self.room / "asked"
        words = file.read_text().splitlines() if file.exists() else []
        file.unlink(missing_ok=True)
        return words

    def build(self):
        done = self.script("build-library")
        self.assertEqual(done.returncode, 0, done.stderr)

    def test_it_is_what_rt_makes_of_the_crate_of_the_c_calls(self):
        self.build()
        self.assertEqual(self.asked(), ["capi: lib"])
        self.assertEqual(self.library.read_text(), "first")

    def test_it_is_built_again_only_after_a_change(self):
        self.build()
        before = self.library.stat().st_mtime_ns
        self.asked()
        self.build()
        self.assertEqual((self.asked(), self.library.stat().st_mtime_ns), ([], before))
        kept = self.repository / "crates" / "machine" / "out" / "rlib" / "lang" / "src" / "lib.rt"  # rt's own copies are no sources
        kept.parent.mkdir(parents=True)
        kept.touch()
        os.utime(kept, (time.time() + 9, time.time() + 9))
        shutil.rmtree(self.repository / "crates" / "capi" / "out")  # as rt ci takes it away
        self.build()
        self.assertEqual((self.asked(), self.library.stat().st_mtime_ns), ([], before))
        os.utime(self.source, (time.time() + 9, time.time() + 9))
        self.build()
        self.assertEqual((len(self.asked()), self.library.stat().st_mtime_ns), (1, before))
        (self.room / "library").write_text("second")
        self.build()
        self.assertEqual(len(self.asked()), 1)
        self.assertEqual(self.library.read_text(), "second")

    def test_a_change_during_the_proof_is_proved_next_time(self):
        (self.room / "rt").write_text(RT + 'touch "$PLACE/repository/crates/machine/src/lib.rt"\n')
        os.utime(self.source, (0, 0))
        self.build()
        self.asked()
        self.build()
        self.assertEqual(len(self.asked()), 1)

    def test_what_is_not_proved_makes_no_library(self):
        (self.room / "refuse").touch()
        self.assertNotEqual(self.script("build-library").returncode, 0)
        self.assertNotEqual(self.script("install", "prefix").returncode, 0)
        self.assertEqual(self.asked(), 2 * ["capi: lib"])
        self.assertFalse(self.library.exists() or (self.room / "prefix").exists())

    def test_install_writes_header_library_and_pkg_config_file(self):
        done = self.script("install", "prefix")
        self.assertEqual((done.returncode, done.stdout), (0, f"installed in {self.room}/prefix\n"), done.stderr)
        prefix = self.room / "prefix"
        self.assertEqual((prefix / "include" / "rc4000.h").read_text(), (HOST / "include" / "rc4000.h").read_text())
        self.assertEqual((prefix / "lib" / "librc4000.a").read_text(), "first")
        settings = (prefix / "lib" / "pkgconfig" / "rc4000.pc").read_text()
        self.assertIn(f"prefix={prefix}\n", settings)
        self.assertRegex(settings, r"\nVersion: \d+\.\d+\.\d+\n")

    def test_usage_of_install(self):
        for arguments in [], [""], ["one", "two"], ["--prefix"]:
            done = self.script("install", *arguments)
            self.assertEqual((done.returncode, done.stdout), (2, ""))
            self.assertIn("usage: host/install PREFIX", done.stderr)
        done = self.script("install", "--help")
        self.assertEqual((done.returncode, done.stderr), (0, ""))
        self.assertIn("usage: host/install PREFIX", done.stdout)
        self.assertEqual(self.asked(), [])


if __name__ == "__main__":
    unittest.main()
