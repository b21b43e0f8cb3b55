#!/usr/bin/env python3
"""Tests of tools/sources: python3 tools/tests/test_sources.py. No program is run; the last line is 'N passed, M failed'.

Each runs the tool in a checkout of two crates of its own, under an rt whose rattle finds no layout where a file has the
word wide.
"""
import os
import shutil
import subprocess
import sys
import tempfile
import unittest

sys.dont_write_bytecode = True
from counted import run_tests

TOP = os.path.dirname(os.path.dirname(os.path.dirname(os.path.realpath(__file__))))
RATTLE = """#!/bin/sh
[ "$1 $2" = "fmt --check" ] || exit 2
shift 2
grep -l wide "$@" | sed 's/$/ is not in the layout/' >&2
! grep -q wide "$@"
"""


class Sources(unittest.TestCase):
    def setUp(self):
        room = tempfile.TemporaryDirectory(prefix="test-sources-")
        self.addCleanup(room.cleanup)
        self.room = os.path.realpath(room.name)
        os.makedirs(f"{self.room}/top/tools")
        shutil.copy(f"{TOP}/tools/sources", f"{self.room}/top/tools/sources")
        self.write("crates.txt", "# lowest first\nea_low:\nea_high: ea_low rayon\n")
        for name in "ea_low/src/lib.rt", "ea_low/specs/Lib.antt", "ea_high/src/main.rt", "ea_high/proofs/Lib.antt":
            self.write(f"crates/{name}", "\n")
        # what rt made is no source
        self.write("crates/ea_low/out/rlib/kept.antt", "wide\n")
        self.write("../rt", f'#!/bin/sh\necho "{self.room}/kit/START-HERE.md"\n')
        self.write("../kit/bin/rattle", RATTLE)
        for it in "rt", "kit/bin/rattle":
            os.chmod(f"{self.room}/{it}", 0o755)

    def write(self, name, text):
        path = f"{self.room}/top/{name}"
        os.makedirs(os.path.dirname(path), exist_ok=True)
        with open(path, "w", encoding="utf-8") as made:
            made.write(text)

    def check(self, *lines, passed):
        env = {**os.environ, "PATH": f"{self.room}:{os.environ['PATH']}"}
        ran = subprocess.run([f"{self.room}/top/tools/sources"], capture_output=True, text=True, env=env, check=False)
        wanted = "".join(f"{it}\n" for it in (*lines, f"{passed} passed, {len(lines)} failed"))
        self.assertEqual((ran.returncode, ran.stdout, ran.stderr), (int(bool(lines)), wanted, ""))

    def test_good_ones(self):
        self.check(passed=3)

    def test_crates(self):
        os.rename(f"{self.room}/top/crates/ea_high/src/main.rt", f"{self.room}/top/crates/ea_high/src/other.rt")
        self.write("crates.txt", "ea_low:\nea_high: ea_lost\nea_gone: ea_low\n")
        self.write("crates/ea_more/src/lib.rt", "\n")
        self.check(
            "crates/ea_gone: it has no src/lib.rt or src/main.rt",
            "crates/ea_high: it has no src/lib.rt or src/main.rt",
            "crates.txt: ea_high stands on ea_lost, which is no crate",
            "crates/ea_more: crates.txt has no line of it",
            "crates/ea_more/src/lib.rt: no check reads it",
            passed=1,
        )

    def test_places(self):
        for name in "crates/ea_low/specs/a.rt", "crates/ea_low/src/A.antt", "crates/ea_low/b.rt", "docs/c.rt", "D.antt":
            self.write(name, "\n")
        self.check(
            "D.antt: no check reads it",
            "crates/ea_low/b.rt: no check reads it",
            "crates/ea_low/specs/a.rt: no check reads it",
            "crates/ea_low/src/A.antt: no check reads it",
            "docs/c.rt: no check reads it",
            passed=2,
        )

    def test_layout(self):
        self.write("crates/ea_low/src/lib.rt", "a wide line\n")
        self.check("crates/ea_low/src/lib.rt is not in the layout", passed=2)


if __name__ == "__main__":
    # no test here wants the program that tools/check gives
    del sys.argv[1:]
    sys.exit(run_tests())
