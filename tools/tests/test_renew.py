#!/usr/bin/env python3
"""Tests of tools/renew: python3 tools/tests/test_renew.py [PROGRAM], without which ./run is asked for it.

Each runs the tool in a small checkout of its own, with a program whose text sed changes. The texts that stand there are
the repository's or worked out by hand from docs/reference. The last line is 'N passed, M failed'.
"""
import glob
import os
import shlex
import shutil
import subprocess
import sys
import tempfile
import unittest

sys.dont_write_bytecode = True
from counted import run_tests

TOP = os.path.dirname(os.path.dirname(os.path.dirname(os.path.realpath(__file__))))
PROGRAM = [f"{TOP}/run"]
CARRIER = "carrier 1 multi owner 1 employed 1 base 0 pages 64 allocated 14 largest 32746"
BLOCK = f"""\
scheduler 1
alloc 1 1 8 14
{CARRIER}
total carriers 1 units 32768 live 14 queued 0 free 32746 header 8
"""
CASES = """\
# A block; the same under another strategy; a refused word; no line feed at the end.
case a block, 1
words +MHacul 0
input
> type H
> scheduler 1
> alloc 1 100
> schedule
> end
run

case a block, 2
words +MHacul 0 +MHas bf
same input
run

case a word is refused
words ''
run

case the last line has no end
input
> type H
> scheduler 1
> idle
byte 10
> schedule
+ end
run
"""
TEXTS_OF_CASES = f"""\
case a block, 1
status 0
{BLOCK}
case a block, 2
status 0
{BLOCK}
case a word is refused
status 1
error erts_alloc_run: word 1: unknown flag

case the last line has no end
status 0
scheduler 1
idle
total carriers 0 units 0 live 0 queued 0 free 0 header 0

"""
README = f"The line `{CARRIER}` is one.\n"
COPIED = (
    "examples/first-block.*", "examples/threads-race.*", "crates/erts_alloc_run/args", "crates/erts_alloc_run/std*"
)
RACE = [f"examples/threads-race.{it}" for it in ("out", "out2", "out3", "out4")]
COLOURS = "s/^carrier .*/& colour red/"
WITHOUT_COLOURS = ["--taking-out", " colour [a-z]+$"]


class Renew(unittest.TestCase):
    def setUp(self):
        self.room = tempfile.mkdtemp(prefix="test-renew-")
        self.addCleanup(shutil.rmtree, self.room)
        shutil.copytree(f"{TOP}/tools", f"{self.room}/tools", ignore=shutil.ignore_patterns("tests"))
        for name in COPIED:
            for path in glob.glob(f"{TOP}/{name}"):
                self.write(os.path.relpath(path, TOP), self.read(path))
        self.write("crates/ea_trials_cases/stdin", CASES)
        self.write("crates/ea_trials_cases/stdout", TEXTS_OF_CASES)
        self.write("README.md", README)
        self.before = self.stored()

    def write(self, name, text):
        os.makedirs(os.path.dirname(f"{self.room}/{name}"), exist_ok=True)
        with open(f"{self.room}/{name}", "w", encoding="utf-8") as file:
            file.write(text)

    def read(self, name):
        with open(os.path.join(self.room, name), encoding="utf-8") as file:
            return file.read()

    def stored(self):
        """All files of the checkout but the tools."""
        paths = glob.glob(f"{self.room}/[!t]*/**", recursive=True)
        return {os.path.relpath(it, self.room): self.read(it) for it in paths if os.path.isfile(it)}

    def changed(self):
        now = self.stored()
        return {it for it, text in self.before.items() if now[it] != text}

    def program(self, *changes):
        """A program whose text these commands of sed change."""
        words = [word for it in changes or [""] for word in ("-e", it)]
        lines = ["#!/bin/sh", "text=$(mktemp)", f'{shlex.quote(PROGRAM[0])} "$@" >"$text"', "status=$?"]
        lines += [f'sed -E {shlex.join(words)} "$text"', 'rm "$text"', "exit $status", ""]
        self.write("program", "\n".join(lines))
        os.chmod(f"{self.room}/program", 0o755)
        return f"{self.room}/program"

    def renew(self, *words):
        ran = subprocess.run(
            [f"{self.room}/tools/renew", "--program", f"{self.room}/program", *words],
            capture_output=True, text=True, check=False,
        )
        self.assertNotIn("Traceback", ran.stderr)
        return ran.returncode, ran.stdout, ran.stderr

    # What agrees, and what differs

    def test_texts_as_they_are(self):
        self.program()
        self.assertEqual(self.renew(), (0, "7 passed, 0 failed\n", ""))
        self.assertEqual(self.changed(), set())

    def test_without_a_pattern_it_tells_what_differs(self):
        self.program(COLOURS)
        status, text, said = self.renew()
        self.assertEqual((status, said, text.splitlines()[-1]), (1, "", "2 passed, 5 failed"))
        wanted = f"examples/first-block: another text than wanted\n    -{CARRIER}\n    +{CARRIER} colour red\n"
        self.assertTrue(text.startswith(wanted), text)
        names = ["crates/erts_alloc_run", "case a block, 1", "case a block, 2", "examples/threads-race"]
        for name in names:
            self.assertIn(f"\n{name}: another text than wanted\n", text)
        self.assertEqual(self.changed(), set())

    def test_some_names(self):
        self.program(COLOURS)
        status, text, _ = self.renew("case a word", "examples/first")
        self.assertEqual((status, text.splitlines()[-1]), (1, "1 passed, 1 failed"))
        status, text, said = self.renew("case a worm")
        self.assertEqual((status, text), (2, ""))
        self.assertEqual(said, "renew: case a worm: no stored run has a name that begins so\n")

    def test_a_run_that_is_refused(self):
        self.program()
        self.write("examples/first-block.trace", "type H\nfrob\n")
        wanted = "examples/first-block: status 2: line 2: syntax\n0 passed, 1 failed\n"
        self.assertEqual(self.renew("examples/first"), (1, wanted, ""))

    def test_a_run_without_a_text(self):
        self.program()
        os.remove(f"{self.room}/examples/first-block.out")
        self.write("crates/ea_trials_cases/stdout", TEXTS_OF_CASES.replace("case a block, 1\n", "case a blot, 1\n"))
        status, text, said = self.renew("examples/first")
        self.assertEqual((status, text), (2, ""))
        self.assertEqual(said, "renew: crates/ea_trials_cases/stdin: it has no case a blot, 1\n")
        self.write("crates/ea_trials_cases/stdout", "".join(TEXTS_OF_CASES.partition("case a block, 2\n")[1:]))
        lines = ["examples/first-block: it has no stored text", "case a block, 1: it has no stored text"]
        wanted = "\n".join([*lines, "1 passed, 2 failed", ""])
        self.assertEqual(self.renew("examples/first", "case a block"), (1, wanted, ""))

    def test_the_stored_table(self):
        ran = subprocess.run(
            [f"{TOP}/tools/renew", "--program", PROGRAM[0], "examples/busy-days", "crates/"],
            capture_output=True, text=True, check=False,
        )
        self.assertEqual((ran.returncode, ran.stdout, ran.stderr), (0, "2 passed, 0 failed\n", ""))

    def test_an_error_line(self):
        """As examples/check takes it: a status in a file, and the line in another, or none."""
        self.write("examples/refused.trace", "type H\nfrob\n")
        self.write("examples/refused.flags", "+MMscs\n1\n")
        self.write("examples/refused.status", "2\n")
        self.program()
        said = "erts_alloc_run: line 2: syntax"
        wanted = f"examples/refused: another text than wanted\n    +{said}\n0 passed, 1 failed\n"
        self.assertEqual(self.renew("examples/refused"), (1, wanted, ""))
        self.write("examples/refused.err", f"{said}\n")
        self.assertEqual(self.renew("examples/refused"), (0, "1 passed, 0 failed\n", ""))
        self.write("examples/refused.err", f"{said.replace('line', 'row')}\n")
        self.assertEqual(self.renew("examples/refused", "--replacing", "line", "row")[0], 0)
        self.assertEqual(self.read("examples/refused.err"), f"{said}\n")

    # What is renewed

    def test_a_stated_word(self):
        self.program(COLOURS)
        status, text, said = self.renew(*WITHOUT_COLOURS)
        counts = "5 are renewed, 2 are as they were\n7 passed, 0 failed\n"
        self.assertEqual((status, said, text[-len(counts) :]), (0, "", counts))
        cases, run = "crates/ea_trials_cases/stdout", "crates/erts_alloc_run/stdout"
        self.assertEqual(self.changed(), {"examples/first-block.out", *RACE, cases, run})
        for name in self.changed():
            lines = self.before[name].splitlines(keepends=True)
            wanted = [f"{it[:-1]} colour red\n" if it.startswith("carrier ") else it for it in lines]
            self.assertEqual(self.read(name), "".join(wanted))
        self.assertEqual(self.renew(), (0, "7 passed, 0 failed\n", ""))

    def test_a_stated_line_and_a_word_in_place_of_another(self):
        self.program(r"/^total/a colours 1", "s/ employed / used /")
        words = ["--taking-out", r"^colours .*\n", "--replacing", " (us)ed ", " employed "]
        status, text, _ = self.renew(*words, "examples/first", "case")
        self.assertEqual((status, text.splitlines()[-1]), (0, "5 passed, 0 failed"))
        wanted = BLOCK.replace("employed", "used") + "colours 1\n"
        self.assertEqual(self.read("examples/first-block.out"), wanted)
        self.assertIn(f"case a block, 2\nstatus 0\n{wanted}\ncase a word", self.read("crates/ea_trials_cases/stdout"))

    def test_nothing_is_written(self):
        self.program(COLOURS)
        status, text, _ = self.renew(*WITHOUT_COLOURS, "--dry-run")
        counts = ["5 would be renewed, 2 are as they were", "7 passed, 0 failed"]
        self.assertEqual((status, text.splitlines()[-2:]), (0, counts))
        self.assertEqual(self.changed(), set())

    def test_lines_that_stand_elsewhere(self):
        self.program(COLOURS)
        for name in ("README.md", "crates/x/src/tests.rt"):
            self.write(name, f'one\n    "{CARRIER}\\n\\\n')
        told = f"2: a line that no stored text has now\n    -{CARRIER}\n    +{CARRIER} colour red\n"
        # A text of threads-race, which isn't run, has the line, too.
        self.assertNotIn(told, self.renew(*WITHOUT_COLOURS, "--dry-run", "examples/first", "crates", "case")[1])
        text = self.renew(*WITHOUT_COLOURS)[1]
        self.assertTrue(text.startswith(f"README.md:{told}crates/x/src/tests.rt:{told}5 are renewed"), text)

    # What is refused

    def test_a_further_change(self):
        """The other texts are renewed, and of the one that is refused nothing."""
        self.program(COLOURS, "s/live 14 queued 14/live 14 queued 13/")
        status, text, _ = self.renew(*WITHOUT_COLOURS)
        self.assertEqual((status, text.splitlines()[-1]), (1, "6 passed, 1 failed"))
        old = "total carriers 1 units 32768 live 14 queued 14 free 32732 header 8"
        new = old.replace("queued 14", "queued 13")
        self.assertIn(f"examples/threads-race: another text than wanted\n    -{old}\n    +{new}\n", text)
        self.assertEqual(self.changed() & {*RACE}, set())
        self.assertIn("examples/first-block.out", self.changed())

    def test_a_further_change_in_one_case(self):
        self.write("crates/ea_trials_cases/stdout", TEXTS_OF_CASES.replace("alloc 1 1 8 14", "alloc 1 1 8 16", 1))
        self.program(COLOURS)
        status, text, _ = self.renew(*WITHOUT_COLOURS, "case")
        self.assertEqual((status, text.splitlines()[-1]), (1, "3 passed, 1 failed"))
        self.assertIn("case a block, 1: another text than wanted\n    -alloc 1 1 8 16\n    +alloc 1 1 8 14\n", text)
        first, second = self.read("crates/ea_trials_cases/stdout").split("case a block, 2\n")
        self.assertEqual((first.count("colour"), second.count("colour")), (0, 1))

    def test_a_lost_line(self):
        self.program("/^alloc 1 1 8 14$/d")
        status, text, _ = self.renew("--taking-out", r"^alloc .*\n", "examples/first")
        wanted = "examples/first-block: another text than wanted\n    -alloc 1 1 8 14\n"
        self.assertEqual((status, text.splitlines()[-1]), (1, "0 passed, 1 failed"))
        self.assertTrue(text.startswith(wanted), text)
        self.assertEqual(self.changed(), set())

    def test_a_pattern_that_takes_out_more(self):
        self.program(COLOURS)
        status, text, _ = self.renew("--taking-out", " largest .*$", "examples/first", "crates", "case")
        self.assertEqual((status, text.splitlines()[-1]), (1, "2 passed, 4 failed"))
        self.assertEqual(self.changed(), set())

    def test_a_text_of_threads_that_is_not_found(self):
        self.write("examples/threads-race.out5", BLOCK)
        self.program(COLOURS)
        status, text, _ = self.renew(*WITHOUT_COLOURS, "examples/threads", "--runs", "20")
        self.assertEqual((status, text.splitlines()[-1]), (1, "0 passed, 1 failed"))
        self.assertTrue(text.startswith("examples/threads-race: a text like examples/threads-race.out"), text)
        self.assertEqual(self.changed(), set())

    def test_a_text_that_differs_from_run_to_run(self):
        path = self.program("s/^carrier .*/& colour NUMBER/")
        self.write("program", self.read(path).replace("NUMBER/'", "'$$/"))
        status, text, _ = self.renew("--taking-out", " colour [0-9]+$", "examples/threads")
        self.assertEqual((status, text.splitlines()[-1]), (1, "0 passed, 1 failed"))
        self.assertTrue(text.startswith("examples/threads-race: two new texts of one\n"), text)
        self.assertEqual(self.changed(), set())

    def test_wrong_words(self):
        self.program()
        for words in (["--taking-out", "("], ["--replacing", "a", r"\1"], ["--taking-out"], ["--frob"]):
            status, text, said = self.renew(*words)
            self.assertEqual((status, text), (2, ""), words)
            self.assertIn("renew: error: ", said)


if __name__ == "__main__":
    if len(sys.argv) > 1:
        PROGRAM[0] = os.path.abspath(sys.argv.pop(1))
    sys.exit(run_tests())
