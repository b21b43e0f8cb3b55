#!/usr/bin/env python3
"""Tests of tools/expected.py: python3 tools/tests/test_expected.py [PROGRAM].

Each refusal of docs/reference/flags.md's tables is compared with what expected.py takes it for; the sentences are this
file's. PROGRAM is asked for the lines, if it is there. The last line is 'N passed, M failed'.
"""
import os
import re
import subprocess
import sys
import unittest

TOP = os.path.dirname(os.path.dirname(os.path.dirname(os.path.realpath(__file__))))
sys.dont_write_bytecode = True
sys.path.insert(0, f"{TOP}/tools")
from counted import run_tests
from expected import explained, refusal

PROGRAM = os.path.abspath(sys.argv.pop(1)) if len(sys.argv) > 1 else None
# Beside those of the document.
REFUSED_WORDS = (
    ("+MHacful 0", "word 1: unknown flag"),
    ("+MHas bf bf", "word 3: unknown flag"),
    ("--help", "word 1: unknown flag"),
    ("+MHacul", "word 1: value missing"),
    ("+MHas ff", "word 2: bad value"),
    ("+MMscs 0", "word 2: bad value"),
    ("+MHacnl 999", "word 1: unsupported"),
    ("+MMsco false", "word 1: unsupported"),
    ("+MHt no", "word 2: bad value"),
    ("+MFas bf", "word 1: unsupported"),
    ("+MMscsx 1", "word 1: unsupported"),
    ("+MMscs 1 +MHmmbcs 1025", "super carrier too small"),
)
TAKES = "+MHas takes bf aobf aoff aoffcbf aoffcaobf ageffcaoff ageffcbf ageffcaobf gf af"


def rows_of_manual():
    """The words and lines of the table of refused words in docs/reference/flags.md."""
    with open(f"{TOP}/docs/reference/flags.md", encoding="utf-8") as source:
        section = source.read().partition("\n## Refusals\n")[2].partition("\n## ")[0]
    return re.findall(r"^\| `(\+[^`]*|--help)` \| `([^`]*)` \|", section, re.M)


class Words(unittest.TestCase):
    def test_the_lines_of_the_manual(self):
        rows = rows_of_manual()
        self.assertGreater(len(rows), 8)
        for words, line in (*rows, *REFUSED_WORDS):
            if line != "super carrier too small":
                self.assertEqual((refusal(words.split()) or ("",))[0], line, words)
            if PROGRAM:
                ran = subprocess.run([PROGRAM, *words.split()], input="", capture_output=True, text=True, check=False)
                self.assertEqual((ran.returncode, ran.stderr), (1, f"erts_alloc_run: {line}\n"), words)

    def test_what_is_accepted(self):
        for words in ("", "+S 64 +MMscs 512", "+MHas gf +Muacul de", "+MHacnl 1000 +MMsco true +MBt true", "+S 0000000001"):
            self.assertIsNone(refusal(words.split()), words)

    def test_the_lines_of_the_program(self):
        if not PROGRAM:
            self.skipTest("there is no program")
        values = "0 1 5 101 10000 524288 524289 de bf true false x".split()
        for flag in "as acul acfml acnl sbct mbcgs mmbcs mbsd asbcst rsbcst ramv t e cp atags foo".split():
            for value in values:
                words = [f"+MH{flag}", value, "+MMscs", "512"]
                ran = subprocess.run([PROGRAM, *words], input="", capture_output=True, text=True, check=False)
                said = ran.stderr.strip().removeprefix("erts_alloc_run: ") if ran.returncode == 1 else None
                if said != "super carrier too small":
                    self.assertEqual((refusal(words) or (None,))[0], said, words)

    def test_what_was_expected(self):
        for words, wanted in (
            ("+MHas ff", f"{TAKES}, and not 'ff'"),
            ("+MHas", TAKES),
            ("+MHasbf", "a value as a word of its own: +MHas bf"),
            ("+MHacull 1", "a flag; near it are +MHacul +MHacnl +MHacfml"),
            ("+MMscs 513", "+MMscs takes 1 to 512 megabytes, and not '513'"),
            (f"+MMscs {'9' * 50}", f"+MMscs takes 1 to 512 megabytes, and not '{'9' * 40}..'"),
            ("+MHacul 101", "+MHacul takes 0 to 100 percent, or de, and not '101'"),
            ("+MHt false", "+MHt takes true"),
        ):
            self.assertEqual(refusal(words.split())[1], wanted)

    def test_words_of_run_that_are_no_flags(self):
        """A command may come first, and a file last."""
        said, any_word = "word 1: unknown flag", "a command (types super contents histogram recorded steps), a flag, or a file that is there"
        for words, wanted in (
            ("record +S 2", f"{any_word}; near 'record' is recorded"),
            ("MHas bf", f"{any_word}; near 'MHas' is +MHas"),
            ("xyz", f"{any_word}, and not 'xyz'"),
            ("types xyz", "a flag, or a file that is there, and not 'xyz'"),
            ("types MHas bf", "a flag; near it are +MHas +MHasbcst"),
            ("+MHacull 1", "a flag; near it are +MHacul +MHacnl +MHacfml"),
        ):
            self.assertEqual(explained(said, words.split(), None, is_run=True), wanted)
        wanted = "a flag, or a file that is there, and not 'xyz'"
        self.assertEqual(explained("word 3: unknown flag", ["+S", "2", "xyz"], None, is_run=True), wanted)
        self.assertNotIn("file", explained("word 3: unknown flag", ["+S", "2", "xyz"], None))


class Lines(unittest.TestCase):
    def check(self, said, wanted, *lines, words=""):
        data = "\n".join(lines).encode()
        self.assertEqual(explained(f"erts_alloc_run: {said}\n", words.split(), data), wanted)

    def test_a_trace(self):
        head = "type H", "scheduler 1"
        self.check("line 3: syntax", "`schedule` or `threads` before `end`", *head, "end")
        self.check("line 1: syntax", "`type X` first, of B D E H L R S T", "scheduler 1")
        self.check("line 2: syntax", "`scheduler 1` before its operations; or `generate SEED COUNT`", "type H", "alloc 1 1")
        self.check("line 3: syntax", "`alloc NAME BYTES`, NAME 1 to 1048576, BYTES 0 to 1073741823", *head, "alloc 1")
        self.check("line 3: syntax", "`take NAME TRIES`, NAME 1 to 1048576, TRIES 1 to 10000000", *head, "take 1 0")
        self.check("line 4: syntax", "turns, as 1 or 2*50, or `end`", *head, "schedule", "alloc 1 1")
        self.check("line 5: syntax", "nothing after `end`", *head, "schedule", "end", "end")
        self.check("no end line", "`end` as the last line", *head)
        self.assertIn("near it is alloc", explained("line 3: syntax", [], b"type H\nscheduler 1\naloc 1 1"))

    def test_schedulers(self):
        lines = "type H", "scheduler 1", "scheduler 3"
        self.check("line 3: bad scheduler", "+S is 3, so schedulers are 1 to 3; the next section is `scheduler 2`", *lines,
                   words="+S 3")
        self.check("line 3: bad scheduler", "+S is 1, so schedulers are 1 to 1; give +S as many as there are sections",
                   *lines)

    def test_several_types_and_recorded_operations(self):
        self.check("line 3: syntax", "the letter of its type before it, as `H alloc 1 1`", "types H B", "scheduler 1",
                   "alloc 1 1", words="types")
        self.check("line 2: syntax", "a scheduler and its operation, as `2 alloc 7 100`, or `end`", "type H", "alloc 1 1",
                   words="recorded")
        self.check("line 2: syntax", "a scheduler and `free NAME`, NAME 1 to 1048576", "type H", "1 free", words="recorded")

    def test_rules_of_recorded_operations(self):
        for line in "rules", "rules powers powers", "rules tree", "Rules powers":
            self.check("line 2: syntax", "`rules`, and of powers falling counter one or more, each once", "type H", line,
                       words="recorded")
        for line in "1 idle", "rules falling":
            self.check("line 3: syntax", "`rules` once, directly after the `type` line", "type H", line, "rules powers",
                       words="recorded")
        self.check("line 1: syntax", "`type X` first, of B D E H L R S T", "rules powers", "type H", words="recorded")

    def test_one_shared_region(self):
        head = "super", "scheduler 1"
        for said, wanted, *lines in (
            ("line 1: syntax", "`super` first", "scheduler 1"),
            ("line 2: syntax", "`scheduler 1` before its requests", "super", "take 1 1"),
            ("line 3: syntax", "`take NAME PAGES`, NAME 1 to 1048576, PAGES 1 to 131072", *head, "take 1 0"),
            ("line 3: syntax", "`take NAME PAGES`, `back NAME`, `scheduler I` or `end`", *head, "alloc 1 100"),
            ("line 4: syntax", "nothing after `end`", *head, "end", "end"),
            ("line 2: bad scheduler", "+S is 1, so schedulers are 1 to 1; the next section is `scheduler 1`", "super",
             "end"),
            ("line 4: name reused", "each name is taken by one line, of whatever section", *head, "take 1 1",
             "take 1 1"),
        ):
            self.check(said, wanted, *lines, words="super")

    def test_histograms(self):
        head = "type H", "scheduler 1"
        self.check("line 3: syntax", "`free NAME`, NAME 1 to 1048576", *head, "free", words="histogram")

    def test_contents(self):
        head = "type H", "scheduler 1", "alloc 1 100"
        for said, wanted, *lines in (
            ("line 4: syntax", "`write NAME INDEX VALUE`, NAME 1 to 1048576, INDEX 0 to 4294967295,"
             " VALUE 0 to 4294967295", *head, "write 1 0"),
            ("line 4: syntax", "`read NAME INDEX`, NAME 1 to 1048576, INDEX 0 to 4294967295", *head, "read 1 x"),
            ("line 5: syntax", "`read` in the section of a scheduler", *head, "schedule", "read 1 0"),
            ("line 4: name not held", "a block that an earlier line of the same scheduler made or took", *head,
             "read 2 0"),
            ("line 4: syntax", "`free NAME`, NAME 1 to 1048576", *head, "free"),
        ):
            self.check(said, wanted, *lines, words="contents")

    def test_what_is_not_known(self):
        self.assertIsNone(explained("out of memory", [], None))
        self.assertEqual(explained("line 3: syntax", [], None), "docs/reference/trace.md says what a line may be")


if __name__ == "__main__":
    sys.exit(run_tests())
