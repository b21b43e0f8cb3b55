#!/usr/bin/env python3
"""Tests of the documents: python3 tools/tests/test_links.py [PROGRAM], which is not asked.

Each relative link of a Markdown file leads to a file, and to a heading where it names one; a document that is named in
prose is a link; a document that another file names is there; and the pages are no longer than they may be. The last
line is 'N passed, M failed'.
"""
import os
import re
import sys
import tempfile
import unittest

TOP = os.path.dirname(os.path.dirname(os.path.dirname(os.path.realpath(__file__))))
sys.dont_write_bytecode = True
from counted import run_tests

# Where no document lies, and nothing that names one.
SKIPPED = {"out", "target", "__pycache__"}
LINK = re.compile(r"!?\[((?:[^\][]|\[[^\][]*\])*)\]\(<?([^)\s>]+)>?(?: \"[^\"]*\")?\)")
CODE = re.compile(r"(`+)(?:(?!\1).)+?\1(?!`)")
NAME = re.compile(r"(?<![\w./-])((?:[\w.-]+/)*[\w-]+\.md)\b")
# A document as sources name it: from the top.
MENTION = re.compile(r"(?<![\w./-])((?:docs|bench|examples)/(?:[\w-]+/)*[\w-]+\.md)\b")
# The most bytes of a page, or of those of a folder.
LONGEST = {"README.md": 8_000, "docs/reference/": 75_000, "docs/differences.md": 15_000, "bench/RESULTS.md": 18_000,
           "examples/README.md": 12_000}
LONGEST_IN_ALL = 220_000


def files_of(top):
    """The files of a checkout, from its top; none of what is hidden or built."""
    for folder, folders, names in os.walk(top):
        folders[:] = sorted(it for it in folders if it not in SKIPPED and not it.startswith("."))
        yield from (os.path.relpath(os.path.join(folder, it), top) for it in sorted(names))


def read(top, name):
    with open(os.path.join(top, name), encoding="utf-8") as source:
        return source.read()


def lines_of_prose(text):
    """The lines of a document by their numbers, but for those of code."""
    fence, is_code, before = None, False, ""
    for number, line in enumerate(text.splitlines(), 1):
        mark = re.match(r" {0,3}(```+|~~~+)", line)
        if fence:
            fence = None if mark and mark[1].startswith(fence) else fence
        elif mark:
            fence = mark[1]
        else:
            is_code = line.startswith("    ") and (is_code or not before.strip())
            if not is_code:
                yield number, line
        before = line


def anchors_of(text):
    """The anchors of the headings of a document, as GitHub makes them."""
    found = {}
    for _, line in lines_of_prose(text):
        heading = re.match(r"#{1,6} +(.*?)(?: +#+)?$", line)
        if heading:
            words = LINK.sub(lambda link: link[1], heading[1]).replace("`", "").lower()
            slug = re.sub(r"[^\w\- ]", "", words).replace(" ", "-")
            found[slug] = found.get(slug, -1) + 1
    return {f"{slug}-{at}" if at else slug for slug, count in found.items() for at in range(count + 1)}


def links_of(text):
    """The links of a document, as the number of the line and the target."""
    for number, line in lines_of_prose(text):
        for link in LINK.finditer(CODE.sub(lambda code: "`" + " " * (len(code[0]) - 2) + "`", line)):
            yield number, link[2]


def broken_links(top, name, text):
    for number, target in links_of(text):
        if re.match(r"[a-z][a-z+.-]*:", target):
            continue
        path, _, anchor = target.partition("#")
        place = os.path.normpath(os.path.join(os.path.dirname(name), path)) if path else name
        if not os.path.exists(os.path.join(top, place)):
            yield f"{name}:{number}: {target}: there is no such file"
        elif anchor and place.endswith(".md") and anchor not in anchors_of(read(top, place)):
            yield f"{name}:{number}: {target}: there is no such heading"


def names_without_link(name, text, documents):
    """Documents of the checkout that a line of prose names outside of a link, and names that none has any more."""
    known = {os.path.basename(it) for it in documents}
    for number, line in lines_of_prose(text):
        for it in NAME.finditer(LINK.sub("", line)):
            if os.path.basename(it[1]) in known or it[1].startswith("docs/"):
                yield f"{name}:{number}: {it[1]} is no link"


def mentions_of_none(top, name):
    try:
        text = read(top, name)
    except UnicodeDecodeError:
        return
    for number, line in enumerate(text.splitlines() if ".md" in text else [], 1):
        for it in MENTION.finditer(line):
            if not os.path.exists(os.path.join(top, it[1])):
                yield f"{name}:{number}: {it[1]}: there is no such file"


class OfThisCheckout(unittest.TestCase):
    maxDiff = None

    @classmethod
    def setUpClass(cls):
        cls.files = [*files_of(TOP)]
        cls.documents = {it: read(TOP, it) for it in cls.files if it.endswith(".md")}

    def test_links_lead_somewhere(self):
        self.assertGreater(sum(1 for text in self.documents.values() for _ in links_of(text)), 100)
        self.assertEqual([it for name, text in self.documents.items() for it in broken_links(TOP, name, text)], [])

    def test_names_are_links(self):
        found = [it for name, text in self.documents.items() for it in names_without_link(name, text, self.documents)]
        self.assertEqual(found, [])

    def test_documents_that_other_files_name(self):
        here = os.path.relpath(os.path.realpath(__file__), TOP)
        others = [it for it in self.files if it not in self.documents and it != here]
        self.assertEqual([it for name in others for it in mentions_of_none(TOP, name)], [])

    def test_sizes(self):
        sizes = {name: os.path.getsize(os.path.join(TOP, name)) for name in self.documents}
        for place, most in LONGEST.items():
            size = sum(it for name, it in sizes.items() if name == place or place.endswith("/") and name.startswith(place))
            self.assertGreater(size, 0, place)
            self.assertLessEqual(size, most, place)
        self.assertLessEqual(sum(sizes.values()), LONGEST_IN_ALL)


class OfOthers(unittest.TestCase):
    """The rules themselves, by a small checkout."""

    def setUp(self):
        room = tempfile.TemporaryDirectory()
        self.addCleanup(room.cleanup)
        self.top = room.name
        self.write("docs/b.md", "# Two words\n\n## `a_b`: it's so\n\n## Two words\n")

    def write(self, name, text):
        os.makedirs(os.path.dirname(os.path.join(self.top, name)), exist_ok=True)
        with open(os.path.join(self.top, name), "w", encoding="utf-8") as file:
            file.write(text)

    def broken(self, text):
        return [it.partition(": ")[2] for it in broken_links(self.top, "docs/a.md", text)]

    def test_broken_links(self):
        self.write("docs/a.md", "# Here\n")
        for good in ("[b](b.md)", "[b](./b.md#two-words-1)", "[b](b.md#a_b-its-so)", "[](#here)", "[docs](../docs)",
                     "[w](https://erlang.org/x#y)", "`[no](link)`", "    [no](link)", "```\n[no](link)\n```"):
            self.assertEqual(self.broken(good), [], good)
        self.assertEqual(self.broken("# Here\n[b](c.md), [b](../b.md)\n![b](b.svg)"), [
            "c.md: there is no such file", "../b.md: there is no such file", "b.svg: there is no such file"])
        self.assertEqual(self.broken("| [`x`](b.md#two) | [y](b.md#two-words-2) | [z](#there)"), [
            "b.md#two: there is no such heading", "b.md#two-words-2: there is no such heading",
            "#there: there is no such heading"])
        self.assertEqual(self.broken("```\n[no](link)\n```\n[a](link)\n- one\n\n      [no](link)\n"),
                         ["link: there is no such file"])

    def test_names_without_link(self):
        documents = {"docs/b.md": "", "README.md": ""}
        for good in ("[docs/b.md](b.md)", "[the second](b.md)", "    docs/b.md", "c.md", "START-HERE.md"):
            self.assertEqual([*names_without_link("docs/a.md", good, documents)], [], good)
        for bad in ("docs/b.md", "`docs/b.md`", "b.md, [c](c.md)", "| docs/c.md |", "its README.md."):
            self.assertEqual(len([*names_without_link("docs/a.md", bad, documents)]), 1, bad)

    def test_mentions_of_none(self):
        self.write("run", "# docs/b.md has it\n# see docs/c.md, 'Two', and a/docs/d.md\n")
        self.assertEqual([*mentions_of_none(self.top, "run")], ["run:2: docs/c.md: there is no such file"])

    def test_files_of(self):
        for name in ("out/a.md", ".git/a.md", "x/target/a.md", "x/y/a.md"):
            self.write(name, "")
        self.assertEqual([*files_of(self.top)], ["docs/b.md", "x/y/a.md"])


if __name__ == "__main__":
    del sys.argv[1:]
    sys.exit(run_tests())
