#!/usr/bin/env python3
"""Runs what the front pages print: python3 tools/tests/test_pages.py [PROGRAM], without which ./run is asked for it.

Each fenced block of a page that is marked sh is a script. The blocks of a page run in their order, in one folder that
looks like the top of the checkout, with the program in its place: what they write stays there. A fenced block marked
text shows what the script directly before it writes to standard output, and is compared with that; a line `..` there
stands for lines that are left out. Seconds are not compared. A script is left out where a command of it needs a node,
the network, a proof or the sources (LEFT_OUT). The last line is 'N passed, M failed'.
"""
import os
import re
import shutil
import subprocess
import sys
import tempfile
import unittest

sys.dont_write_bytecode = True
from counted import run_tests

TOP = os.path.dirname(os.path.dirname(os.path.dirname(os.path.realpath(__file__))))
GIVEN = sys.argv.pop(1) if len(sys.argv) > 1 else None
PAGES = ("README.md", "docs/guide.md")
SHELL, SHOWN = "sh", "text"
# How a command begins that is not run here: it needs a node, the network or Rattle's kit, or is a test itself.
LEFT_OUT = ("tools/record ", "tools/advise ", "escript ", "git ", "rt ", "./run --prove", "./run --install", "./test", ".ci/run", "tools/check")
BLOCK = re.compile(r"^```(\w*)[^\n]*\n(.*?)^```$", re.MULTILINE | re.DOTALL)
ANY_LINES = ".."
# What is a time in a table of tools/compare.
SECONDS = re.compile(r"\b[0-9]+\.[0-9]{3}\b")
SLOWEST = 600


def blocks_of(page):
    """The fenced blocks of a page: the line of each, its mark and its text, and whether nothing stands between it and
    the one before."""
    found, end = [], None
    for match in BLOCK.finditer(page):
        follows = end is not None and not page[end : match.start()].strip()
        found.append((page.count("\n", 0, match.start()) + 1, match[1], match[2], follows))
        end = match.end()
    return found


def scripts_of(page):
    """The scripts of a page: the line of each, its text, and what is shown of its output, or None."""
    made = []
    for line, mark, text, follows in blocks_of(page):
        if mark == SHELL:
            made.append((line, text, None))
        elif mark == SHOWN:
            if not (follows and made and made[-1][2] is None):
                raise ValueError(f"line {line}: no script stands directly before this output")
            made[-1] = (*made[-1][:2], text)
    return made


def is_left_out(script):
    """Whether a command of the script is not run here. A line that goes on ends with a backslash."""
    commands = script.replace("\\\n", " ").split("\n")
    return any(it.strip().startswith(LEFT_OUT) for it in commands)


def lines_of(text):
    """The lines as they are compared: where a table has seconds, these are no matter, nor are the blanks between."""
    lines = text.rstrip("\n").split("\n")
    if any("seconds" in it.split() for it in lines):
        lines = [" ".join(SECONDS.sub("S", it).split()) for it in lines]
    return [it.rstrip() for it in lines]


def is_shown(wanted, written):
    """Whether these lines were written, with any where `..` stands."""
    pattern = "".join("(?:.*\n)*" if it == ANY_LINES else f"{re.escape(it)}\n" for it in wanted)
    return re.fullmatch(pattern, "".join(f"{it}\n" for it in written)) is not None


class Reading(unittest.TestCase):
    """How a page is read."""

    def test_scripts_and_what_they_show(self):
        page = "# A\n\n```sh\na \\\n  b\nc\n```\n\n```text\nd\n```\n\n```sh\ne\n```\n\nWords.\n\n```json\n{}\n```\n"
        self.assertEqual(scripts_of(page), [(3, "a \\\n  b\nc\n", "d\n"), (13, "e\n", None)])

    def test_an_output_without_a_script(self):
        for page in ("```text\na\n```\n", "```sh\na\n```\n\nWords.\n\n```text\na\n```\n",
                     "```sh\na\n```\n```text\na\n```\n```text\na\n```\n"):
            with self.assertRaises(ValueError):
                scripts_of(page)

    def test_what_is_left_out(self):
        for script in ("tools/record a\n", "./run x\n./test\n", "x\n  rt ci\n"):
            self.assertTrue(is_left_out(script), script)
        for script in ("./run +S 2 a\n", "tools/load \\\n./test\n", "echo rt ci\n"):
            self.assertFalse(is_left_out(script), script)

    def test_what_is_compared(self):
        for wanted, written, is_same in (
            ("a\nb\n", "a\nb\n", True),
            ("a\nb\n", "a\nc\n", False),
            ("a\n", "a\nb\n", False),
            ("a\n..\n", "a\nb\nc\n", True),
            ("a\n..\nc\n", "a\nb\nd\n", False),
            ("mb  seconds\n1    0.125\n", "mb seconds\n1   10.250\n", True),
            ("mb  seconds\n1    0.125\n", "mb seconds\n2    0.125\n", False),
            ("mb\n0.125\n", "mb\n0.250\n", False),
        ):
            self.assertEqual(is_shown(lines_of(wanted), lines_of(written)), is_same, (wanted, written))


def program():
    """The program that is given, or the one that ./run takes."""
    if GIVEN:
        return os.path.abspath(GIVEN)
    return subprocess.run([f"{TOP}/run", "--path"], stdout=subprocess.PIPE, text=True, check=True).stdout.strip()


class Pages(unittest.TestCase):
    @classmethod
    def setUpClass(cls):
        cls.program = program()

    def folder(self):
        """One as the checkout, in which ./run and the tools run the program: as where it is installed, it stands beside
        ./run, and there are no sources."""
        room = tempfile.TemporaryDirectory(prefix="test-pages-")
        self.addCleanup(room.cleanup)
        for it in os.listdir(TOP):
            if it not in ("crates", "out", "run", "tools", ".git"):
                os.symlink(f"{TOP}/{it}", f"{room.name}/{it}")
        shutil.copy(f"{TOP}/run", f"{room.name}/run")
        shutil.copytree(f"{TOP}/tools", f"{room.name}/tools", ignore=shutil.ignore_patterns("tests", "__pycache__"))
        os.symlink(self.program, f"{room.name}/erts_alloc_run")
        with open(f"{room.name}/about", "w", encoding="utf-8") as file:
            file.write("erts_alloc_run\n")
        return room.name

    def run_page(self, name):
        with open(f"{TOP}/{name}", encoding="utf-8") as file:
            scripts = scripts_of(file.read())
        folder, count, shown = self.folder(), 0, 0
        for line, script, wanted in scripts:
            if is_left_out(script):
                self.assertIsNone(wanted, f"{name}: line {line}: nothing compares the output of this script")
                continue
            with self.subTest(f"{name}: line {line}"):
                ran = subprocess.run(["sh", "-euc", script], cwd=folder, stdin=subprocess.DEVNULL, capture_output=True,
                                     text=True, timeout=SLOWEST, check=False)
                self.assertEqual((ran.returncode, ran.stderr), (0, ""))
                if wanted is not None and not is_shown(lines_of(wanted), lines_of(ran.stdout)):
                    self.assertEqual(ran.stdout, wanted)
                count, shown = count + 1, shown + (wanted is not None)
        return count, shown

    def test_pages(self):
        """Each page has scripts that run, and shows the output of one."""
        for name in PAGES:
            count, shown = self.run_page(name)
            self.assertGreater(count, 1, name)
            self.assertGreater(shown, 0, name)


if __name__ == "__main__":
    sys.exit(run_tests())
