#!/usr/bin/env python3
"""Tests of docs/reference: python3 tools/tests/test_reference.py [PROGRAM].

PROGRAM runs the examples of the pages: each text, and each refused input that they show, has to be what it writes. The
files that they show are read by tools/load. What wants a program is skipped where none is given. The last line is
'N passed, M failed'.
"""
import os
import re
import subprocess
import sys
import tempfile
import unittest

TOP = os.path.dirname(os.path.dirname(os.path.dirname(os.path.realpath(__file__))))
sys.dont_write_bytecode = True
from counted import run_tests

PROGRAM = os.path.abspath(sys.argv.pop(1)) if len(sys.argv) > 1 else None
SECTIONS = {"types": "Several allocator types", "super": "One shared region", "recorded": "Recorded operations",
            "histogram": "Histograms", "contents": "Contents of blocks", "steps": "The steps of a run"}
CODE = r"`([^`]+)`"


def section(page, title):
    """The text of a section of a page, up to the next heading that is no lower."""
    with open(f"{TOP}/docs/reference/{page}", encoding="utf-8") as source:
        text = source.read()
    heading = re.search(rf"^(#+) {re.escape(title)}\n", text, re.M)
    end = re.compile(rf"^#{{1,{len(heading[1])}}} ", re.M).search(text, heading.end())
    return text[heading.end() : end.start() if end else None]


def blocks(text):
    """The indented blocks of a text."""
    found = re.findall(r"(?:^    .*\n)+", text, re.M)
    return [re.sub(r"^    ", "", it, flags=re.M) for it in found]


def words_of(text):
    """The flags that a text says its example has."""
    return re.search(r"(?:under|with) `(\+[^`]*)`:\n", text)[1].split()


def lines_of(words):
    """The lines that an example of a refused input has: H1 are two, and `11 times` a line repeats it."""
    lines = []
    for it in re.finditer(r"\bH1\b|(?:(\d+) times )?" + CODE, words):
        lines += [it[2]] * int(it[1] or 1) if it[2] else ["type H", "scheduler 1"]
    return lines


@unittest.skipUnless(PROGRAM, "no program was given, so no example was run")
class Examples(unittest.TestCase):
    def run_program(self, words, data):
        ran = subprocess.run([PROGRAM, *words], input=data, capture_output=True, text=True, check=False)
        return ran.returncode, ran.stdout, ran.stderr

    def assert_text(self, words, data, text):
        self.assertEqual(self.run_program(words, data), (0, text, ""), f"{words}, {data}")

    def assert_refused(self, words, lines, said):
        """Of the last line, where it says so."""
        line = said if ":" in said or said == "no end line" else f"line {len(lines)}: {said}"
        ran = self.run_program(words, "".join(f"{it}\n" for it in lines))
        self.assertEqual(ran, (2, "", f"erts_alloc_run: {line}\n"), f"{words}, {lines[:9]}")

    def test_texts(self):
        self.assert_text(words_of(section("output.md", "Examples")), blocks(section("trace.md", "The trace"))[0],
                         blocks(section("output.md", "Examples"))[0])
        for command in ("types", "super", "recorded", "contents"):
            shown = section("commands.md", SECTIONS[command])
            self.assert_text([command, *words_of(shown)], *blocks(shown)[:2])

    def test_texts_of_bodies(self):
        for command, count in (("histogram", 6), ("steps", 2)):
            shown = section("commands.md", SECTIONS[command])
            body = re.findall(CODE, re.search(r"The body (.*) gives", shown)[1])
            self.assertEqual(len(body), count)
            lines = ["type H", "scheduler 1", *body, "schedule", "end"]
            self.assert_text([command, *words_of(shown)], "\n".join(lines), blocks(shown)[0])

    def test_generated(self):
        shown = section("output.md", "The text of a generated trace")
        line = re.search(r"output of `(generate [^`]*)`", shown)[1]
        self.assert_text(words_of(shown), f"type H\n{line}\nend\n", blocks(shown)[0])

    def test_refused_traces(self):
        table = section("trace.md", "Refusals").partition("| Trace | Line |\n|---|---|\n")[2].partition("\n\n")[0]
        count = 0
        for row in table.splitlines():
            traces, said = row.strip("| ").split(" | ")
            for trace in traces.split("; "):
                words = re.match(r"with `(\+S \d)` ", trace)
                lines = lines_of(trace[words.end() :] if words else trace)
                self.assert_refused(words[1].split() if words else [], lines, re.match(CODE, said)[1])
                count += 1
        self.assertGreater(count, 12)

    def test_other_refused_inputs(self):
        found = re.compile(r"((?:`[^`]+` )+`[^`]+`)(?:, with `(\+S 2)`,)? is `(line \d+: [^`]+)`")
        for command in ("types", "super", "recorded", "contents"):
            shown = found.search(section("commands.md", SECTIONS[command]))
            self.assert_refused([command, *(shown[2] or "").split()], re.findall(CODE, shown[1]), shown[3])

    def test_rules(self):
        """The carriers of each row, and the count of the example below."""
        shown = section("commands.md", "Rules of a node")
        asked, flags = re.search(r"\| ((?:`[^`|]+`(?:, )?)+) under `([^`|]+)` \|\n", shown).groups()
        rows = re.findall(r"^\| (none|`\w+`) \|.*\| ([^|]*) \|$", shown, re.M)
        self.assertEqual([it[0] for it in rows], ["none", "`powers`", "`falling`"])
        for rule, places in rows:
            text = self.run_recorded(re.findall(CODE, asked), flags.split(), rule.strip("`"))
            self.assertEqual(re.findall(r"base \d+ pages \d+", text), re.findall(CODE, places))
        asked, rule, kept, gone = re.search(
            r"After (.*) with `rules (\w+)` it is 990, and carrier 1 is `([^`]+)`, without the line `([^`]+)`", shown).groups()
        for it, standing in ((rule, kept), ("none", gone)):
            text = self.run_recorded(re.findall(CODE, asked), [], it)
            self.assertIn(f"carrier 1 multi owner 1 {standing} base", text)

    def run_recorded(self, lines, words, rule):
        lines = ["type H", *([] if rule == "none" else [f"rules {rule}"]), *lines, "end"]
        status, text, said = self.run_program(["recorded", *words], "".join(f"{it}\n" for it in lines))
        self.assertEqual((status, said), (0, ""))
        return text

    def test_pages_of_carriers(self):
        """Each block leaves a page of its carrier, so the next one is created with one more in use."""
        shown = section("flags.md", "Multiblock carriers")
        rows = re.findall(r"^\| (?:Pages by default|with `([^`]*)`) \| ([\d |]+) \|$", shown, re.M)
        self.assertEqual(len(rows), 2)
        for flags, pages in rows:
            pages = [int(it) for it in pages.split(" | ")]
            lines = [f"alloc {at} {8 * (512 * (it - 1) - 9)}" for at, it in enumerate(pages, 1)]
            lines = ["type H", "scheduler 1", *lines, "schedule", "end"]
            words = f"{flags} +MHacul 0 +MMscs 512 +MHsbct 10000".split()
            status, text, _ = self.run_program(words, "\n".join(lines))
            self.assertEqual((status, [int(it) for it in re.findall(r" pages (\d+) ", text)]), (0, pages))


class Files(unittest.TestCase):
    def load(self, title, *options):
        with tempfile.NamedTemporaryFile("w", suffix=f".{title}") as file:
            file.write(next(it for it in blocks(section("tools.md", title)) if it.startswith("node-")))
            file.flush()
            words = [sys.executable, "-B", f"{TOP}/tools/load", *options, file.name]
            ran = subprocess.run(words, capture_output=True, text=True, check=False)
        return ran.returncode, ran.stderr, [it for it in ran.stdout.splitlines() if not it.startswith("#")]

    def test_files(self):
        status, said, lines = self.load("load", "--operations", "9")
        self.assertEqual((status, said, lines[:2], len(lines)), (0, "", ["type B", "scheduler 1"], 13))
        status, said, lines = self.load("record", "--type", "B", "--recorded")
        # At the peak, at the valley, and at the end.
        infos = ["1 info", "2 info"]
        self.assertEqual((status, said), (0, ""))
        self.assertEqual(lines, ["type B", "rules powers falling counter", "1 alloc 1 86", "1 realloc 1 2 538", *infos,
                                 "1 give 2 2", "2 take 2 1", "2 free 2", *infos, *infos, "end"])


if __name__ == "__main__":
    sys.exit(run_tests())
