#!/usr/bin/env python3
"""Tests tools/picture: python3 tools/tests/test_picture.py [PROGRAM].

Without PROGRAM the tool takes the one that ./run keeps. What is expected is worked out by hand, from the rules in
docs/reference, or read from the program's text by this file's own reading. The tests with a browser are skipped where
there is no chromium.
"""
import html
import html.parser
import itertools
import json
import os
import re
import resource
import shutil
import signal
import struct
import subprocess
import sys
import tempfile
import time
import unittest
import zlib

TOP = os.path.realpath(os.path.join(os.path.dirname(os.path.realpath(__file__)), "..", ".."))
TOOL = f"{TOP}/tools/picture"
PROGRAM = [f"--program={os.path.abspath(sys.argv[1])}"] if len(sys.argv) > 1 else []
PATH = os.path.abspath(sys.argv[1]) if len(sys.argv) > 1 else f"{TOP}/run"
BROWSER = next(filter(None, map(shutil.which, ("chromium", "chromium-browser", "google-chrome"))), None)
LARGEST_PAGE = 8_000_000
# Of a processor, many times what it takes: a busy machine takes no more of them.
LONGEST_SECONDS = 30
BLUE = (0x4E, 0x79, 0xA7)
PAGE_OF_UNITS = 512
NUMBERS = 1024


class Case(unittest.TestCase):
    """A folder of its own, and calls of the tool."""

    def setUp(self):
        folder = tempfile.TemporaryDirectory()
        self.addCleanup(folder.cleanup)
        self.folder = folder.name

    def path(self, name):
        return f"{self.folder}/{name}"

    def write(self, name, text):
        with open(self.path(name), "w", encoding="utf-8") as file:
            file.write(text)
        return self.path(name)

    def read(self, name):
        with open(self.path(name), encoding="utf-8") as file:
            return file.read()

    def trace(self, *operations):
        """A trace of one scheduler."""
        return self.write("a.trace", "\n".join(["type H", "scheduler 1", *operations, "schedule", "end", ""]))

    def sections(self, sections, *ending):
        """A trace of several schedulers."""
        parts = [it for number, part in enumerate(sections, 1) for it in (f"scheduler {number}", *part)]
        return self.write("a.trace", "\n".join(["type H", *parts, *ending, "end", ""]))

    def run_tool(self, *words):
        return subprocess.run([TOOL, *PROGRAM, *words], capture_output=True, text=True, check=False)

    def draw(self, *words):
        ran = self.run_tool(*words)
        said = [it for it in ran.stderr.splitlines() if "FAILED allocations" not in it]
        self.assertEqual((ran.returncode, ran.stdout, said), (0, "", []))

    def svg(self, trace, moment, *flags):
        self.draw("--trace", trace, "--svg", self.path("a.svg"), "--at", str(moment), "--", *flags)
        return self.read("a.svg")

    def data(self, *words):
        """What the page's script reads."""
        self.draw("--output", self.path("a.html"), *words)
        return data_in(self.read("a.html"))

    def example(self, name):
        return "--trace", f"{TOP}/examples/{name.partition('.')[0]}.trace", "--flags", f"{TOP}/examples/{name}.flags"

    def refused(self, said, *words, expected=None):
        """Refused by this line, and with what was expected in a second one."""
        ran = self.run_tool(*words)
        lines = f"picture: {said}\n" + (f"picture: expected: {expected}\n" if expected else "")
        self.assertEqual((ran.returncode, ran.stdout, ran.stderr), (1, "", lines))


def data_in(page):
    return json.loads(re.search(r'<script type="application/json" id="data">(.*?)</script>', page, re.S).group(1))


def summed(numbers):
    found, at = [], 0
    for it in numbers:
        at += it
        found.append(at)
    return found


def blocks_of(data):
    """The name, carrier, offset, size and the moments of each block of a page."""
    columns = data["blocks"]
    born = summed(columns["born"])
    since = lambda name: [None if it < 0 else start + it for it, start in zip(columns[name], born)]
    carriers = [data["lives"][it]["number"] for it in summed(columns["life"])]
    places = zip(summed(columns["name"]), carriers, columns["offset"], columns["size"])
    return [(*place, *moments) for place, moments in zip(places, zip(born, since("queued"), since("gone")))]


def spans_of(data, number):
    """The moment, base and pages of each span of a carrier of this number."""
    return [tuple(span) for life in data["lives"] if life["number"] == number for span in life["spans"]]


def users_of(data, number):
    """The instances that use a carrier of this number, one after the other."""
    [life] = (it for it in data["lives"] if it["number"] == number)
    return [user for user, _ in itertools.groupby(user for _, _, user in life["told"])]


def names_in(svg):
    """The names of the blocks that stand each by itself below the regions."""
    return [int(it) for it in re.findall(r'class="block(?: queued)?"[^>]* data-name="(\d+)"', svg)]


def count_in(svg):
    shared = re.findall(r'class="blocks(?: queued)?"[^>]* data-count="(\d+)"', svg)
    return len(names_in(svg)) + sum(map(int, shared))


# Four blocks in a carrier of one page. 100 bytes are 14 units, 200 are 26, and offset 8 comes first. Block 1 leaves a
# gap of 14 units. Block 2 has the end of the carrier behind it when it grows, so it stays.
FEW = ("alloc 1 100", "alloc 2 100", "free 1", "realloc 2 3 200", "idle", "alloc 4 100", "free 3")
FEW_FLAGS = ("+MHacul", "0", "+MHsmbcs", "4", "+MHlmbcs", "4", "+MHas", "aoff")
FEW_BLOCKS = [[], [1], [1, 2], [2], [3], [3], [4, 3], [4]]


class Moment(Case):
    def test_each_moment_has_its_blocks(self):
        trace = self.trace(*FEW)
        for moment, names in enumerate(FEW_BLOCKS):
            with self.subTest(moment=moment):
                svg = self.svg(trace, moment, *FEW_FLAGS)
                self.assertEqual(names_in(svg), names)
                self.assertIn(f'data-moment="{moment}" data-blocks="{len(names)}"', svg)

    def test_a_block_is_drawn_to_scale(self):
        svg = self.svg(self.trace(*FEW), 2, *FEW_FLAGS)
        carrier = re.search(r'class="gap" x="260" y="\S+" width="(\S+)" height="24"', svg)
        block = re.search(r'class="block" x="(\S+)" y="\S+" width="(\S+)" height="24"[^>]* data-name="2"', svg)
        scale = float(carrier.group(1)) / PAGE_OF_UNITS
        self.assertAlmostEqual(float(block.group(1)), 260 + 22 * scale, delta=0.02)
        self.assertAlmostEqual(float(block.group(2)), 14 * scale, delta=0.5)
        self.assertIn("block 2: 14 units at 22 of carrier 1", svg)

    def test_without_a_moment_it_is_the_last(self):
        self.draw("--trace", self.trace(*FEW), "--svg", self.path("a.svg"), "--", *FEW_FLAGS)
        self.assertEqual(names_in(self.read("a.svg")), FEW_BLOCKS[-1])

    def test_many_blocks_of_a_pixel_are_counted(self):
        trace = self.trace(*(f"alloc {name} 40" for name in range(1, 301)), "free 7")
        self.assertEqual(count_in(self.svg(trace, 300, "+MHacul", "0")), 300)
        self.assertEqual(count_in(self.svg(trace, 301, "+MHacul", "0")), 299)

    def test_queued_blocks_are_apart(self):
        """Of the turns in the trace: blocks 1 and 2 are queued when block 4 is placed where block 1 was."""
        wanted = {6: ([1, 2, 3], 0), 10: ([1, 2, 3], 2), 11: ([4, 2, 3], 1), 15: ([4], 0)}
        for moment, (names, queued) in wanted.items():
            with self.subTest(moment=moment):
                at = () if moment == 15 else ("--at", str(moment))
                self.draw(*self.example("producer-and-consumer"), "--svg", self.path("a.svg"), *at)
                svg = self.read("a.svg")
                self.assertEqual(names_in(svg), names)
                self.assertEqual(len(re.findall('class="block queued"', svg)), queued)


class Places(Case):
    """Carriers that are gone at the end, or had other pages. The numbers are those of docs/reference/flags.md."""

    def test_a_number_has_two_carriers(self):
        trace = self.trace("alloc 1 2000", "alloc 2 2000", "alloc 3 100", "free 1", "alloc 4 4000", "free 2", "free 3")
        data = self.data("--trace", trace, "--", "+MHacul", "0", "+MHsbct", "1")
        self.assertEqual(spans_of(data, 1), [(1, 0, 1), (5, 0, 1)])
        self.assertEqual(spans_of(data, 2), [(2, 1, 1)])
        self.assertEqual(spans_of(data, 3), [(3, 2, 64)])
        self.assertEqual([(it["born"], it["gone"]) for it in data["lives"]], [(1, 4), (2, 6), (3, 7), (5, -1)])
        self.assertEqual(data["unknown"], 0)
        wanted = [(1, 1, 8, 252, 1, None, 4), (2, 2, 8, 252, 2, None, 6), (3, 3, 8, 14, 3, None, 7)]
        self.assertEqual(blocks_of(data), [*wanted, (4, 1, 8, 502, 5, None, None)])

    def test_a_carrier_that_shrinks_has_two_sizes(self):
        data = self.data(*self.example("shorter-carrier.asbcst256"))
        self.assertEqual(spans_of(data, 1), [(1, 0, 245), (2, 0, 147)])

    def test_a_main_carrier_is_there_from_the_start(self):
        flags = "+MMscs", "1", "+MHacul", "0", "+MHmmbcs", "100"
        data = self.data("--trace", self.trace("alloc 1 100", "free 1"), "--", *flags)
        self.assertEqual([(it["kind"], it["born"], it["gone"]) for it in data["lives"]], [("main", 0, -1)])
        self.assertEqual(spans_of(data, 1), [(0, 0, 25)])

    def test_a_carrier_in_the_pool_is_told(self):
        """Block 2 alone is below 60 percent, so the carrier is abandoned; block 3 fetches it."""
        trace = self.trace("alloc 1 100", "alloc 2 100", "free 1", "alloc 3 100")
        self.draw("--trace", trace, "--svg", self.path("a.svg"), "--at", "3")
        self.assertIn("owner 1, pooled 1", self.read("a.svg"))
        self.draw("--trace", trace, "--svg", self.path("a.svg"), "--at", "4")
        self.assertIn("owner 1, employed 1", self.read("a.svg"))

    def test_what_is_not_asked_for_is_said(self):
        operations = [it for name in range(1, 41) for it in (f"alloc {name} 100", f"free {name}")]
        flags = "+MHacul", "0"
        data = self.data("--fronts", "5", "--trace", self.trace(*operations), "--", *flags)
        self.assertTrue(35 <= data["unknown"] <= 40)
        self.assertTrue(any(f"all the time: {data['unknown']}." in it for it in data["notes"]))
        self.assertEqual(self.data("--trace", self.trace(*operations), "--", *flags)["unknown"], 0)


class Heads(Case):
    """What a head says of the settings."""

    SIZES = "sbct 512, smbcs 256, lmbcs 5120"

    def head(self, name):
        """The words below the title of an SVG, up to what is counted there."""
        lines = re.findall('<text class="small"[^>]*>([^<]*)</text>', self.read(name))
        return " ".join(lines).partition(" · carriers")[0]

    def test_the_settings_that_held(self):
        trace = self.trace("alloc 1 100")
        for flags, held in (
            ("", f"as aoffcbf, acul 60, {self.SIZES}"),
            ("+MHas gf", f"as aoffcbf, acul 60, {self.SIZES}"),
            ("+MHas gf +MHacul 0", f"as gf, acul 0, {self.SIZES}"),
            ("+Muas af +MHacul 0 +MBsbct 1 +MHmbcgs 5", f"as af, acul 0, {self.SIZES}, mbcgs 5"),
        ):
            svg, page, bars = "a.svg", "a.html", "b.svg"
            self.draw("--trace", trace, "--svg", self.path(svg), "--output", self.path(page), "--histograms",
                      self.path(bars), "--", *flags.split())
            wanted = f"{flags or 'no flags'} · held: {held}"
            self.assertEqual(self.head(svg), wanted)
            self.assertTrue(self.head(bars).startswith(wanted), flags)
            data = data_in(self.read(page))
            self.assertEqual((data["flags"], data["held"]), (flags, held))

    def test_the_page_shows_them(self):
        """Without its script, and with the words of the list."""
        self.draw("--trace", self.trace("alloc 1 100"), "--output", self.path("a.html"), "--", "+MHsbct", "64", "+S", "1")
        held = f"held: as aoffcbf, acul 60, {self.SIZES.replace('sbct 512', 'sbct 64')} · 1 scheduler · super carrier 64 MB"
        self.assertIn(f'<p>{held}</p><p class="line">+MHsbct 64 +S 1</p>', self.read("a.html"))

    def test_each_type_has_its_own(self):
        lines = "types H T", "scheduler 1", "H alloc 1 100", "T alloc 1 100", "schedule", "end", ""
        trace = self.write("a.trace", "\n".join(lines))
        self.draw("--trace", trace, "--svg", self.path("a.svg"), "--", "+Muas", "bf", "+MTsbct", "64")
        self.assertIn(f"held: as aoffcbf, acul 60, {self.SIZES}", self.head("a.H.svg"))
        self.assertIn("held: as bf, acul 0, sbct 64, smbcs 256, lmbcs 5120", self.head("a.T.svg"))

    def test_a_region_has_none(self):
        trace = self.write("a.input", "super\nscheduler 1\ntake 1 10\nend\n")
        self.draw("--trace", trace, "--svg", self.path("a.svg"), "--", "+MHas", "gf")
        self.assertNotIn("held: ", self.read("a.svg"))


# The units in carriers and in blocks at each moment of FEW, whose carrier has one page.
FEW_UNITS = [0, 14, 28, 14, 26, 26, 40, 14]


class Parts(html.parser.HTMLParser):
    """The elements of a page with their attributes, and the words in each svg's title and desc."""

    def __init__(self, page):
        super().__init__()
        self.found, self.words, self.inside = [], {}, []
        self.feed(re.sub(r"<script.*?</script>", "", page, flags=re.S))

    def handle_starttag(self, tag, attributes):
        self.found.append((tag, dict(attributes)))
        self.inside = [tag, dict(attributes).get("id")]

    def handle_data(self, data):
        if self.inside and self.inside[0] in ("title", "desc") and self.inside[1]:
            self.words[self.inside[1]] = data
        self.inside = []

    def of(self, tag):
        return [it for name, it in self.found if name == tag]


def luminance(colour):
    """As in the Web Content Accessibility Guidelines."""
    parts = [int(colour[at : at + 2], 16) / 255 for at in (1, 3, 5)]
    red, green, blue = (it / 12.92 if it <= 0.03928 else ((it + 0.055) / 1.055) ** 2.4 for it in parts)
    return 0.2126 * red + 0.7152 * green + 0.0722 * blue


def contrast(one, other):
    low, high = sorted((luminance(one), luminance(other)))
    return (high + 0.05) / (low + 0.05)


class Page(Case):
    """What a page has without its script: curves, marks, and what is said."""

    def page(self, trace, *flags, more=()):
        self.draw("--trace", trace, "--output", self.path("a.html"), *more, "--", *flags)
        return self.read("a.html")

    def few(self):
        return self.page(self.trace(*FEW), *FEW_FLAGS)

    def test_the_figures_of_each_moment(self):
        figures = {name: summed(it) for name, it in data_in(self.few())["figures"].items()}
        self.assertEqual(figures, {
            "carriers": [0, *[PAGE_OF_UNITS] * 7], "held": FEW_UNITS, "queued": [0] * 8, "number": [0, *[1] * 7],
            "unknown": [0] * 8})

    def test_the_curves_and_the_area_between(self):
        """The frame has 2000 by 1000, and the most, a page, takes 960. A value holds up to the next moment."""
        page = self.few()
        places = [at * 2000 // 7 for at in range(8)]
        heights = [1000 - round(960 * it / PAGE_OF_UNITS) for it in FEW_UNITS]
        blocks = "M0 1000" + "".join(f"H{places[at]}V{heights[at]}" for at in (1, 2, 3, 4, 6, 7)) + "H2000"
        carriers = f"M0 1000H{places[1]}V40H2000"
        self.assertIn(f'<path class="a" d="{carriers}"/>', page)
        self.assertIn(f'<path class="within" d="{blocks}"/>', page)
        back = "".join(f"H{places[at]}V{heights[at - 1]}" for at in (7, 6, 4, 3, 2, 1))
        self.assertIn(f'<path class="spare" d="{carriers}V{heights[7]}{back}H0Z"/>', page)
        self.assertIn("free in carriers: what other flags can save", page)

    def test_the_axes_have_their_units(self):
        """Two megabytes and 7 entries; megabytes come first."""
        page = self.page(self.trace(*(f"alloc {it} 240000" for it in range(1, 8))), "+MHacul", "0", "+MHlmbcs", "2048",
                         "+MHsmbcs", "2048")
        main = page.partition('class="plot main"')[2].partition("</figure>")[0]
        ticks = lambda kind: re.findall(f'<span class="tick {kind}"[^>]*>([^<]*)<', main)
        self.assertEqual(ticks("y"), ["0 MB", "0.5 MB", "1 MB", "1.5 MB", "2 MB"])
        self.assertEqual((ticks("x"), ticks("axis")), (["0", "2", "4", "6"], ["entries of the run"]))
        self.assertLess(page.index('class="plot main"'), page.index('data-id="rows"'))
        self.assertLess(page.index('class="plot main"'), page.index('class="plot number"'))

    def test_it_opens_at_the_most_megabytes(self):
        """Of the same most the first moment counts."""
        trace = self.trace("alloc 1 2000", "alloc 2 600000", "free 2", "alloc 3 600000", "free 1")
        page = self.page(trace, "+MHacul", "0")
        data = data_in(page)
        self.assertEqual((data["peak"], data["opens"]), (2, 2))
        # A carrier of 64 pages, and one of 147: 211 pages are 0.8 MB. 252 and 75002 units are in blocks.
        self.assertIn("The most is 0.8 MB of carriers, after entry 2, with 0.6 MB in blocks: 0.3 MB are free.", page)

    def test_marks(self):
        """Of one scheduler by its section, of several by the entries that are shown, of recorded operations by all."""
        lines = ["# mark one", "alloc 1 100", "# mark two", "# no mark", "free 1", "# mark three"]
        self.assertEqual(data_in(self.page(self.trace(*lines)))["marks"], [[0, "one"], [1, "two"], [2, "three"]])
        trace = self.sections((["alloc 1 100", "idle"], ["# mark <here>", "idle", "# mark there"]), "schedule")
        page = self.page(trace, "+S", "2")
        self.assertEqual(data_in(page)["marks"], [[2, "<here>"], [3, "there"]])
        self.assertIn('data-at="2" title="mark &lt;here&gt;, after entry 2"', page)
        lines = "type H", "2 alloc 1 100", "# mark one", "1 idle", "1 idle", "# mark two", "end", ""
        data = data_in(self.page(self.write("a.input", "\n".join(lines))))
        self.assertEqual(data["marks"], [[1, "one"], [3, "two"]])

    def test_marks_of_one_of_several_types(self):
        lines = "types H B", "scheduler 1", "H idle", "B idle", "# mark here", "H idle", "schedule", "end", ""
        self.draw("--trace", self.write("a.trace", "\n".join(lines)), "--output", self.path("a.html"))
        for letter in "HB":
            self.assertEqual(data_in(self.read(f"a.{letter}.html"))["marks"], [[1, "here"]])

    def test_what_failed_is_said(self):
        trace = self.trace("alloc 1 524280", "alloc 2 524280")
        words = "--trace", trace, "--output", self.path("a.html"), "--", "+MMscs", "1"
        self.assertEqual(self.run_tool(*words).returncode, 0)
        self.assertIn('<p class="warning">FAILED allocations: 1, so less is drawn', self.read("a.html"))
        self.assertNotIn('<p class="warning">FAILED', self.few())

    def test_what_is_not_known_is_said(self):
        operations = [it for name in range(1, 41) for it in (f"alloc {name} 100", f"free {name}")]
        page = self.page(self.trace(*operations), "+MHacul", "0", more=("--fronts", "5"))
        unknown = summed(data_in(page)["figures"]["unknown"])
        count = data_in(page)["unknown"]
        self.assertEqual(sum(it > 0 for it in unknown), count)
        self.assertIn(f"At {count} moments of 81 the size of a carrier is not known. Its blocks alone count there", page)
        self.assertIn('<path class="unknown" d="M', page)
        carriers = summed(data_in(page)["figures"]["carriers"])
        self.assertEqual({it for it, count in zip(carriers, unknown) if count}, {14})
        self.assertNotIn('class="unknown"', self.few())

    def test_it_needs_nothing_else(self):
        page = self.few()
        self.assertEqual(re.findall(r"https?://|\bsrc=|@import|<link", page), [])
        self.assertEqual(re.findall(r"@[A-Z]+@", page), [])

    def test_it_says_what_it_shows(self):
        """Each drawing has a title and a description, each control a name, and so have the canvases' frames."""
        parts = Parts(self.few())
        drawings = parts.of("svg")
        self.assertEqual(len(drawings), 3)
        for it in drawings:
            self.assertEqual((it["role"], bool(parts.words[it["aria-labelledby"]])), ("img", True))
            self.assertTrue(parts.words[it["aria-describedby"]])
        self.assertIn("the most is 0.0 MB of carriers, after entry 1", parts.words["main-desc"])
        labelled = {it.get("for") for it in parts.of("label")}
        for it in parts.of("input") + parts.of("select"):
            self.assertTrue(it.get("aria-label") or it["id"] in labelled, it)
        self.assertEqual({it["role"] for it in parts.of("canvas")}, {"img"})
        self.assertEqual([it for it in parts.of("html")], [{"lang": "en"}])

    def test_its_colours_can_be_told_apart(self):
        """Text from its ground by 4.5, blocks and curves from theirs by 3, in both schemes."""
        light, dark = re.findall(r":root \{(.*?)\}", self.few(), re.S)[:2]
        for scheme in light, dark:
            ink = dict(re.findall(r"--([\w-]+): (#[0-9a-f]{6})", scheme))
            for name in "text", "dim", "mark", "a", "b":
                self.assertGreater(contrast(ink[name], ink["page"]), 4.5, (name, ink[name]))
            for name in "text", "dim":
                self.assertGreater(contrast(ink[name], ink["panel"]), 4.5)
            for name in ("one", "pointed", "queued", *(f"c{it}" for it in range(1, 9))):
                self.assertGreater(contrast(ink[name], ink["gap"]), 3, (name, ink[name]))
            for name in "a", "b", "within", "mark":
                self.assertGreater(contrast(ink[name], ink["spare"]), 3, (name, ink[name]))


class Beside(Case):
    """Two lists of flags, one trace."""

    def two(self, trace, first, second):
        """The page, and the data of both runs."""
        self.draw("--trace", trace, "--output", self.path("a.html"), "--beside", second, "--", *first)
        page = self.read("a.html")
        found = re.findall(r'<script type="application/json" id="(data|beside)">(.*?)</script>', page, re.S)
        self.assertEqual([name for name, _ in found], ["data", "beside"])
        return page, *(json.loads(it) for _, it in found)

    def test_each_run_is_as_alone(self):
        trace = self.trace(*FEW)
        _, *both = self.two(trace, FEW_FLAGS, self.write("b.flags", "+MHacul\n0\n"))
        for found, flags in zip(both, (FEW_FLAGS, ("+MHacul", "0"))):
            wanted = self.data("--trace", trace, "--", *flags)
            for it in "opens", "list":
                wanted.pop(it), found.pop(it)
            self.assertEqual(found, wanted)

    def test_one_axis_and_one_scale(self):
        """With carriers of a page and of 64 pages, which are the most."""
        page, first, second = self.two(self.trace(*FEW), FEW_FLAGS, self.write("b.flags", "+MHacul\n0\n"))
        height = 1000 - round(960 / 64)
        self.assertIn(f'<path class="a" d="M0 1000H285V{height}H2000"/>', page)
        self.assertIn('<path class="b" d="M0 1000H285V40H2000"/>', page)
        self.assertEqual((first["opens"], second["opens"]), (1, 1))
        self.assertIn("At their peaks B has 0.2 MB more than A.", page)
        for it in "A: MB of carriers", "A: MB in blocks", "B: MB of carriers", "B: MB in blocks":
            self.assertIn(f"</i>{it}</li>", page)

    def test_it_opens_at_the_greater_peak(self):
        trace = self.trace("alloc 1 600000", "free 1", "alloc 2 100")
        _, first, second = self.two(trace, ("+MHacul", "0"), "+MHlmbcs 4096 +MHsmbcs 4096")
        self.assertEqual((first["peak"], second["peak"], first["opens"], second["opens"]), (1, 3, 3, 3))

    def test_words_come_after_the_first_list(self):
        page, first, second = self.two(self.trace("alloc 1 100"), ("+MHacul", "0"), "+MHsbct 64 +MHacul 50")
        self.assertEqual((first["flags"], second["flags"]), ("+MHacul 0", "+MHacul 0 +MHsbct 64 +MHacul 50"))
        self.assertIn("as aoffcbf, <b>acul 0</b>, <b>sbct 512</b>, smbcs 256, lmbcs 5120 ", page)
        self.assertIn("as aoffcbf, <b>acul 50</b>, <b>sbct 64</b>, smbcs 256, lmbcs 5120 ", page)

    def test_lists_of_files_have_their_names(self):
        one, other = self.write("one.flags", "+MHacul\n0\n"), self.write("other.flags", "+MHacul\n50\n")
        words = "--trace", self.trace("alloc 1 100"), "--output", self.path("a.html")
        self.draw(*words, "--flags", one, "--beside", other)
        for it in "A: one.flags", "B: other.flags":
            self.assertIn(f'<span class="letter">{it}</span>', self.read("a.html"))

    def test_orders_of_their_own_are_said(self):
        """Of recorded operations both have the same one."""
        said = "The two runs have the entries of their schedulers in orders of their own."
        lines = "type H", "2 alloc 1 100", "1 idle", "end", ""
        page, *_ = self.two(self.write("a.input", "\n".join(lines)), (), "+MHacul 0")
        self.assertNotIn(said, page)
        self.draw(*self.example("down-from-own"), "--output", self.path("a.html"), "--beside", "+MHacul 0")
        self.assertIn(said, self.read("a.html"))

    def test_each_type_has_a_page(self):
        lines = "types H B", "scheduler 1", "H alloc 1 100", "B alloc 1 100", "schedule", "end", ""
        trace = self.write("a.trace", "\n".join(lines))
        self.draw("--trace", trace, "--output", self.path("c.html"), "--beside", "+MBsbct 64")
        for letter, bold in ("B", 2), ("H", 0):
            self.assertEqual(self.read(f"c.{letter}.html").count("<b>sbct "), bold)

    def test_what_is_refused(self):
        words = "--trace", self.trace("idle"), "--output", self.path("a.html")
        place = "the words of the first list and of --beside"
        self.refused(f"{place}: word 4: bad value", *words, "--beside", "+MHramv no", "--", "+MHacul", "0",
                     expected="+MHramv takes true false, and not 'no'")
        none = self.path("none")
        self.refused(f"{none}: No such file or directory", *words, "--beside", none)
        trace = self.write("a.region", "super\nscheduler 1\nend\n")
        said = f"{trace}: --beside draws two runs of allocators, and this is an input of `super`"
        self.refused(said, "--trace", trace, "--output", self.path("a.html"), "--beside", "+MMscs 2")
        ran = self.run_tool("--trace", trace, "--svg", self.path("a.svg"), "--beside", "+MMscs 2")
        self.assertEqual((ran.returncode, "--beside is for the page of --output" in ran.stderr), (2, True))


class Schedulers(Case):
    def test_the_end_is_that_of_the_text(self):
        migrating = "returned-too-late", "higher-acul.acul60", "freed-in-the-pool", "lost-fetch"
        for name in ("unfinished-free", "threads-race", *migrating):
            with self.subTest(name=name):
                data = self.data(*self.example(name))
                left = [it for it in blocks_of(data) if it[6] is None]
                self.assertEqual(sum(it[3] for it in left if it[5] is None), data["total"]["live"])
                self.assertEqual(sum(it[3] for it in left if it[5] is not None), data["total"]["queued"])
                self.assertEqual(sum(it["gone"] < 0 for it in data["lives"]), data["total"]["carriers"])
                self.assertTrue(any("this page's own" in it for it in data["notes"]))

    def test_the_order_fits_the_entries(self):
        data = self.data(*self.example("producer-and-consumer"))
        for name in (1, 2, 3):
            self.assertLess(data["lines"].index(f"give {name} 2"), data["lines"].index(f"take {name} got"))
        for scheduler, log in ((1, "alloc 1 1 8 126"), (2, "take 1 got")):
            self.assertEqual(next(it for it, by in zip(data["lines"], data["by"]) if by == scheduler), log)

    def test_a_place_that_two_schedulers_use_in_turn(self):
        """Scheduler 2 fetches the carrier, and block 3 lies where block 1 was until that was freed."""
        data = self.data(*self.example("returned-too-late"))
        one, three = (next(it for it in blocks_of(data) if it[0] == name) for name in (1, 3))
        self.assertEqual(one[1:3], three[1:3])
        self.assertLessEqual(one[6], three[4])


    def test_a_carrier_that_its_owner_fetches_back(self):
        """Scheduler 1 looks at each number of both instances and creates carrier 1; its free abandons that in the third
        turn. Scheduler 2 looks down to number 1, fetches it, and abandons it again. Scheduler 1 has it in its list of
        own carriers: it looks there, and fetches it."""
        sections = ("alloc 1 100", "alloc 2 100", "free 1", "alloc 4 100"), ("alloc 3 100", "free 3")
        trace = self.sections(sections, "schedule", f"1*{2 * NUMBERS + 6} 2*{2 * NUMBERS + 5} 1*3")
        data = self.data("--trace", trace, "--", "+S", "2")
        self.assertEqual(users_of(data, 1), [1, 2, 1])
        places = {name: place for name, *place, _, _, _ in blocks_of(data)}
        self.assertEqual(places, {1: [1, 8, 14], 2: [1, 22, 14], 3: [1, 8, 14], 4: [1, 8, 14]})


# The first allocation of one scheduler takes its queue, looks at each number and creates a carrier; the second finds
# room there. The first free takes the queue, looks, and abandons the carrier. So begins the second free after NUMBERS +
# 7 steps. It takes the queue, looks at the carrier, makes it busy and releases the block, and puts the carrier back.
TWO_FREES = ("alloc 1 100", "alloc 2 100", "alloc 3 100", "free 1", "free 2")
BEFORE_THE_SECOND = NUMBERS + 7
# A block that grows over its neighbour moves: it is placed when the queue is taken. The next step looks at the carrier
# of the old one and releases that, and the carrier is to be abandoned.
ONE_MOVE = ("alloc 1 100", "alloc 2 100", "realloc 1 3 1000")
BEFORE_THE_MOVE = NUMBERS + 3


KEEPS_ONE = "It keeps carrier 1: no other scheduler places or releases a block there."
LEFT_BUSY = (
    "Block 2 is released, and carrier 1 is not back in the pool.",
    "It leaves carrier 1 busy: no other scheduler fetches it, or releases a block there.",
)


class Stops(Case):
    """What a stopped scheduler keeps. Steps and units are worked out from docs/reference/trace.md."""

    def stopped(self, operations, steps, *flags):
        """The page's data of one scheduler that is stopped."""
        trace = self.sections([operations], f"stop 1 {steps}", "schedule")
        return self.data("--trace", trace, "--", *flags)

    def said(self, data):
        """What the page says of each stop: its moment, its scheduler, and what comes after the first words."""
        return [(moment, scheduler, *words[1:]) for moment, scheduler, words in data["stops"]]

    def test_a_node_that_is_never_linked(self):
        """Scheduler 2 stops between the step that puts block 1 in the queue and the one that links it. Scheduler 3
        then puts block 2 there. Scheduler 1 takes its queue with `idle`."""
        first = "alloc 1 100", "alloc 2 200", "alloc 3 40", "give 1 2", "give 2 3", "idle"
        sections = first, ("take 1 1", "free 1"), ("take 2 1", "free 2")
        trace = self.sections(sections, "stop 2 4", "schedule", "1*7 2*4 3*5")
        data = self.data("--trace", trace, "--", "+S", "3", "+MHacul", "0")
        self.assertEqual((data["total"]["live"], data["total"]["queued"]), (6, 14 + 26))
        self.assertEqual([(it[0], it[5] is None, it[6]) for it in blocks_of(data)],
                         [(1, False, None), (2, False, None), (3, True, None)])
        [(moment, scheduler, words)] = data["stops"]
        self.assertEqual((scheduler, data["lines"][moment - 1], data["by"][moment - 1]), (2, "stopped 4", 2))
        self.assertEqual(words, [
            "Scheduler 2 is stopped after 4 steps of its own, in 'free 1', which has no entry.",
            "Block 1 is in the queue of scheduler 1 and not linked there: 1 block more in that queue waits."])
        self.assertEqual(data["kept"], [0])
        self.draw("--trace", trace, "--svg", self.path("a.svg"), "--", "+S", "3", "+MHacul", "0")
        svg = self.read("a.svg")
        self.assertIn(words[0].replace("'", "&#x27;"), svg)
        self.assertEqual((svg.count('class="sign kept"'), svg.count('data-stopped="1"')), (3, 1))

    def test_each_step_of_a_free(self):
        hand = "Block 2 is in its hand: no scheduler releases it."
        wanted = [(None, None), (5, None, hand), (5, None, hand), (5, 5, *LEFT_BUSY)]
        for steps, (queued, end, *words) in enumerate(wanted, BEFORE_THE_SECOND):
            with self.subTest(steps=steps):
                data = self.stopped(TWO_FREES, steps)
                self.assertEqual(data["lines"][4:], [f"stopped {steps}"])
                self.assertEqual(self.said(data), [(5, 1, *words)])
                self.assertEqual([it for it in blocks_of(data) if it[0] == 2], [(2, 1, 22, 14, 2, queued, end)])
                self.assertEqual(data["total"]["queued"], 14 if queued and not end else 0)

    def test_a_free_that_is_over_by_its_last_step(self):
        data = self.stopped(TWO_FREES, BEFORE_THE_SECOND + 4)
        self.assertEqual(data["lines"][4:], ["free 2 done", f"stopped {BEFORE_THE_SECOND + 4}"])
        self.assertEqual(data["stops"][0][2], [
            f"Scheduler 1 is stopped after {BEFORE_THE_SECOND + 4} steps of its own, with its operations done, before "
            "its end."])
        self.assertEqual(self.stopped(TWO_FREES, BEFORE_THE_SECOND + 5)["stops"], [])

    def test_each_step_of_a_realloc(self):
        placed, hand = "Block 3 is placed and held.", "Block 1 is in its hand: no scheduler releases it."
        gone = "Block 1 is released, and carrier 1 is not abandoned, though that is due."
        one, two, three = (1, 1, 8, 14, 1), (2, 1, 22, 14, 2, None, None), (3, 1, 36, 126, 3, None, None)
        wanted = [
            ([(*one, None, None), two], [KEEPS_ONE]),
            ([(*one, 3, None), two, three], [placed, hand, KEEPS_ONE]),
            ([(*one, 3, 3), two, three], [placed, gone, KEEPS_ONE]),
        ]
        for steps, (blocks, words) in enumerate(wanted, BEFORE_THE_MOVE):
            with self.subTest(steps=steps):
                data = self.stopped(ONE_MOVE, steps)
                self.assertEqual(sorted(blocks_of(data)), blocks)
                self.assertEqual(self.said(data), [(3, 1, *words)])

    def test_each_step_of_a_carrier_that_goes_home(self):
        """Scheduler 2 fetches carrier 1 after it looked at each number, takes block 2, abandons the carrier when it
        frees block 3, and frees block 2: it takes its queue, looks at the carrier, makes it busy and releases the
        block, employs it, marks it as on its way, puts it in the queue, and links it there."""
        first = "alloc 1 100", "alloc 2 100", "free 1", "give 2 2"
        second = "alloc 3 100", "take 2 1", "free 3", "free 2"
        gone = "Block 2 is released, and carrier 1, which is empty,"
        wanted = [
            LEFT_BUSY,
            (f"{gone} is not sent to scheduler 1.", KEEPS_ONE),
            (f"{gone} is in its hand, on its way to scheduler 1.",),
            (f"{gone} is in the queue of scheduler 1 and not linked there: what comes into that queue waits.",),
        ]
        for steps, words in enumerate(wanted, 2 * NUMBERS + 10):
            with self.subTest(steps=steps):
                turns = f"1*{2 * NUMBERS + 8} 2*{steps}"
                trace = self.sections((first, second), f"stop 2 {steps}", "schedule", turns)
                data = self.data("--trace", trace, "--", "+S", "2")
                self.assertEqual([it[1:] for it in self.said(data)], [(2, *words)])
                self.assertEqual((data["total"]["live"], data["total"]["queued"]), (0, 0))

    def test_what_waits_in_its_queue(self):
        trace = self.sections((("alloc 1 100", "give 1 2"), ("take 1 1", "free 1")), "stop 1 3", "schedule", "1*3 2*5")
        data = self.data("--trace", trace, "--", "+S", "2", "+MHacul", "0")
        waits = "1 block of 14 units in its queue: no scheduler releases what is there."
        self.assertEqual([it[1:] for it in self.said(data)], [(1, KEEPS_ONE, waits)])

    def test_a_stop_before_the_first_step(self):
        data = self.stopped(["alloc 1 100"], 0)
        said = "Scheduler 1 is stopped after 0 steps of its own, at 'alloc 1 100', which has no entry."
        self.assertEqual((data["stops"], data["lives"], data["last"]), ([[1, 1, [said]]], [], 1))

    def test_a_carrier_that_is_gone_at_the_end(self):
        """Without migration each `alloc` and `free` takes one step."""
        sections = ("alloc 1 2000", "free 1", "alloc 2 100"), ("alloc 3 100",)
        trace = self.sections(sections, "stop 1 2", "schedule")
        data = self.data("--trace", trace, "--", "+S", "2", "+MHacul", "0", "+MHsbct", "1")
        self.assertEqual(([it[1:] for it in spans_of(data, 1)], data["unknown"]), ([(0, 1)], 0))
        self.assertEqual(self.said(data), [(data["lines"].index("stopped 2") + 1, 1)])

    def test_a_carrier_is_kept_from_the_stop_on(self):
        """Scheduler 1 stops with its carrier busy; scheduler 2 creates one of its own then."""
        trace = self.sections((TWO_FREES, ("alloc 4 100",)), f"stop 1 {2 * NUMBERS + 10}", "schedule")
        data = self.data("--trace", trace, "--", "+S", "2")
        [[moment, scheduler, _]] = data["stops"]
        [life] = (it for it in data["lives"] if it["number"] == 1)
        self.assertEqual((scheduler, life["told"][-1]), (1, [moment, 3, 1]))
        self.assertEqual([it[5:] for it in blocks_of(data) if it[0] == 2], [(moment, moment)])
        self.assertLess(moment, data["last"])
        for at, busy in ((moment - 1, False), (moment, True)):
            svg = self.svg(trace, at, "+S", "2")
            self.assertEqual(("owner 1, busy 1, stopped" in svg, "is stopped after" in svg), (busy, busy))

    def test_threads(self):
        """Where a block in the hand is on its way, a run anew does not tell."""
        trace = self.sections((TWO_FREES, ()), f"stop 1 {2 * NUMBERS + 9}", "threads")
        data = self.data("--trace", trace, "--", "+S", "2")
        self.assertEqual([it[2:] for it in self.said(data)],
                         [("Block 2 is in its hand, or in a queue and not linked there.",)])
        self.assertEqual((data["total"]["queued"], data["kept"]), (14, [1]))


# Each scheduler has a block of 376 units in a carrier of one page, the first of the 256 pages of its region.
EACH_HAS_ONE = [(f"alloc {it} 3000",) for it in range(1, 65)]
ONE_PAGE_EACH = ("+S", "64", "+MMscs", "64", "+MHacul", "0", "+MHsmbcs", "4", "+MHlmbcs", "4")


class ManySchedulers(Case):
    def test_each_region_is_drawn(self):
        """In four columns of 16 rows, none over another, and each carrier at the front of its own."""
        trace = self.sections(EACH_HAS_ONE, "schedule")
        svg = self.svg(trace, 65, *ONE_PAGE_EACH)
        names = re.findall(r'<text class="" [^>]*>instance (\d+)</text>', svg)
        self.assertEqual(names, [str(it) for it in range(1, 65)])
        pages = re.findall(r">pages (\d+) to (\d+)</text>", svg)
        self.assertEqual(pages, [(str(it), str(it + 15)) for it in range(0, 64 * 256, 256)])
        place = r'x="([\d.]+)" y="([\d.]+)" width="([\d.]+)" height="([\d.]+)"'
        strips = [tuple(map(float, it)) for it in re.findall(f'class="free" {place}', svg)]
        self.assertEqual((len(strips), len({x for x, *_ in strips}), len({y for _, y, *_ in strips})), (64, 4, 16))
        for (x, y, width, _), (other, below, _, _) in zip(strips, strips[1:]):
            self.assertTrue(y == below and x + width < other or y + 26 < below, (x, y, other, below))
        self.assertTrue(all(x + width <= 1000 for x, _, width, _ in strips))
        blocks = [tuple(map(float, it)) for it in re.findall(f'class="region-block" {place}', svg)]
        # A strip shows 16 pages. The block begins at unit 8 of the first one.
        for (x, y, width, _), (left, top, _, _) in zip(strips, blocks, strict=True):
            self.assertAlmostEqual(left, x + 8 * width / (16 * PAGE_OF_UNITS), delta=0.02)
            self.assertEqual(top, y + 3)

    def test_no_two_have_one_colour(self):
        svg = self.svg(self.sections(EACH_HAS_ONE, "schedule"), 65, *ONE_PAGE_EACH)
        bars = re.findall(r'class="owner"[^>]* width="4" [^>]*fill="(#[0-9a-f]{6})"', svg)
        self.assertEqual((len(bars), len(set(bars))), (64, 64))

    def test_regions_without_carriers_are_named(self):
        """Of the 64 regions of 4 pages the last alone has a carrier."""
        self.draw(*self.example("small-regions"), "--svg", self.path("a.svg"))
        svg = self.read("a.svg")
        self.assertEqual(re.findall(r">region of instance (\d+)<", svg), ["64"])
        self.assertIn(">no carrier: instances 1 to 63<", svg)
        self.assertIn(">carrier 64513, multi, page 252<", svg)
        self.assertEqual(names_in(svg), [1])

    def test_the_page_has_the_owners(self):
        data = self.data("--trace", self.sections(EACH_HAS_ONE, "schedule"), "--", *ONE_PAGE_EACH)
        self.assertEqual(data["schedulers"], 64)
        for instance in range(1, 65):
            number = (instance - 1) * NUMBERS + 1
            self.assertEqual(users_of(data, number), [instance])
            self.assertEqual([span[1:] for span in spans_of(data, number)], [((instance - 1) * 256, 1)])


class Types(Case):
    """Inputs of several allocator types. What is wanted of a type is what a trace of its lines alone has."""

    FLAGS = "+MHacul", "0", "+MBacul", "0", "+MHsbct", "16"

    def several(self, *operations):
        """An input of H and B with one scheduler."""
        lines = ["types H B", "scheduler 1", *operations, "schedule", "end", ""]
        return self.write("both.trace", "\n".join(lines))

    def test_each_type_has_a_file(self):
        grows, moves = ("alloc 1 30000", "alloc 2 9000", "free 1"), ("alloc 1 30000", "free 1", "alloc 2 9000")
        trace = self.several(*(it for pair in zip(moves, grows) for it in (f"H {pair[0]}", f"B {pair[1]}")))
        self.draw("--trace", trace, "--output", self.path("c.html"), "--svg", self.path("c.svg"), "--", *self.FLAGS)
        files = [f"c.{letter}.{kind}" for letter in "BH" for kind in ("html", "svg")]
        self.assertEqual(sorted(os.listdir(self.folder)), ["both.trace", *files])
        for letter, part in ("H", moves), ("B", grows):
            alone = self.trace(*part)
            self.write("a.trace", self.read("a.trace").replace("type H", f"type {letter}"))
            wanted, found = self.data("--trace", alone, "--", *self.FLAGS), data_in(self.read(f"c.{letter}.html"))
            self.assertEqual((wanted.pop("name"), found.pop("name")), ("a.trace", f"both.trace, type {letter}"))
            self.assertEqual(found, wanted)
            self.assertEqual(names_in(self.read(f"c.{letter}.svg")), [2])
            self.assertIn(f"both.trace, type {letter}: after entry 3 of 3", self.read(f"c.{letter}.svg"))

    def test_types_by_turns(self):
        """Of the example: block 1 of B is queued from entry 5 of its type on, and released at its end."""
        words = "--trace", f"{TOP}/examples/two-queues.trace", "--flags", f"{TOP}/examples/two-queues.flags"
        for moment, queued in ((3, False), (5, True), (6, None)):
            self.draw(*words, "--type", "B", "--svg", self.path("a.svg"), "--at", str(moment))
            svg = self.read("a.B.svg")
            self.assertEqual(count_in(svg), 1 if queued is None else 2)
            self.assertEqual('class="block queued"' in svg, bool(queued))
        self.assertEqual(sorted(os.listdir(self.folder)), ["a.B.svg"])

    def test_what_is_refused(self):
        trace = self.several("H alloc 1 100", "B idle", "H idle")
        words = "--trace", trace, "--svg", self.path("a.svg")
        self.refused(f"{trace}, type B: there are moments 0 to 1, and no 2", *words, "--at", "2")
        self.refused(f"{trace}: there is no type E", *words, "--type", "E")
        self.refused("the words after --: word 3: bad value", *words, "--", "types", "+MHramv", "no",
                     expected="+MHramv takes true false, and not 'no'")
        flags = self.write("a.flags", "types\n+MHacul\n0\n+MHasbf\n1\n")
        self.refused(f"{flags}: line 4: unknown flag", *words, "--flags", flags,
                     expected="a value as a word of its own: +MHas bf")
        trace = self.several("H alloc 1 100", "idle")
        self.refused(f"{trace}: line 4: syntax", *words, expected="the letter of its type before it, as `H idle`")
        self.assertNotIn("a.H.svg", os.listdir(self.folder))
        self.draw("--trace", self.trace("idle"), "--type", "H", "--svg", self.path("a.svg"))


class Regions(Case):
    """Inputs of one shared region. Where segments lie is worked out by hand: the lowest run that is long enough."""

    REQUESTS = "take 1 100", "take 2 200", "back 1", "back 1", "take 3 50", "take 4 60"

    def region(self, *requests):
        """An input of one scheduler."""
        return self.write("a.region", "\n".join(["super", "scheduler 1", *requests, "end", ""]))

    def drawn(self, *more):
        self.draw("--trace", self.region(*self.REQUESTS), "--svg", self.path("a.svg"), *more, "--", "+MMscs", "1")
        svg = self.read("a.svg")
        segments = re.findall(r'<rect class="segment" [^>]*data-name="(\d+)"><title>([^<]*)</title>', svg)
        return svg, [(int(name), said.partition(": ")[2]) for name, said in segments]

    def test_segments_from_call_to_call(self):
        svg, segments = self.drawn()
        wanted = [
            (1, "pages 0 to 99, from call 1 to call 3"),
            (3, "pages 0 to 49, from call 5 to the end"),
            (4, "pages 50 to 109, from call 6 to the end"),
        ]
        self.assertEqual(segments, wanted)
        self.assertIn('data-calls="6" data-segments="2"', svg)
        # A page is 4096 bytes.
        self.assertIn("segments 2 · pages 110 (0.4 MB) · free 146 (0.6 MB)", svg)
        for kind, line in ("refused", "1 take 2 none"), ("skipped", "1 back 1 skipped"):
            self.assertRegex(svg, f'class="{kind}"[^>]*><title>{line}</title>')

    def test_the_first_calls_alone(self):
        svg, segments = self.drawn("--at", "2")
        self.assertEqual(segments, [(1, "pages 0 to 99, from call 1 to the end")])
        self.assertIn("segments 1 · pages 100 (0.4 MB) · free 156 (0.6 MB)", svg)

    def test_a_page_has_all_calls(self):
        words = "--output", self.path("a.html"), "--svg", self.path("a.svg"), "--at", "1"
        self.draw("--trace", self.region(*self.REQUESTS), *words, "--", "super", "+MMscs", "1")
        self.assertIn('<main data-calls="6" data-segments="2"><svg ', self.read("a.html"))
        self.assertIn('data-calls="1" data-segments="1"', self.read("a.svg"))

    def test_too_many_calls(self):
        """Of 20002 calls the first 20000 are drawn: each other one takes a segment, and the legend shows one more."""
        trace = self.region(*(line for name in range(1, 10002) for line in (f"take {name} 1", f"back {name}")))
        said = f"{trace}: 20002 calls are more than 20000; --svg and --at K draw the first"
        self.refused(said, "--trace", trace, "--output", self.path("a.html"))
        self.draw("--trace", trace, "--svg", self.path("a.svg"), "--at", "20000")
        self.assertEqual(self.read("a.svg").count('class="segment" '), 10000 + 1)

    def test_what_is_refused(self):
        trace = self.region("take 1 1")
        words = "--trace", trace, "--svg", self.path("a.svg")
        for moment in "2", "-1":
            self.refused(f"{trace}: there are moments 0 to 1, and no {moment}", *words, "--at", moment)
        self.refused(f"{trace}: there is no type H", *words, "--type", "H")
        self.refused("the words after --: word 2: unknown flag", *words, "--", "super", "+MHfoo", "1",
                     expected="a flag; near it are +MHt +MHe")
        trace = self.region("take 1 0")
        expected = "`take NAME PAGES`, NAME 1 to 1048576, PAGES 1 to 131072"
        self.refused(f"{trace}: line 3: syntax", *words, expected=expected)
        self.assertNotIn("a.svg", os.listdir(self.folder))


class Histograms(Case):
    def test_each_bar_is_one_count(self):
        """By the example's own text: the bars of all carriers come first, then those of each."""
        svg = self.path("a.svg")
        self.draw(*self.example("gaps-by-strategy.aoff"), "--histograms", svg)
        bars = re.findall(r'class="(blocks|gaps)"[^>]*><title>(.*?)</title>', self.read("a.svg"))
        self.assertEqual(bars[: len(bars) // 2], [
            ("blocks", "2 blocks of fewer than 16 units"), ("blocks", "1 block of 32 to 63 units"),
            ("blocks", "1 block of 256 to 511 units"), ("gaps", "1 gap of 64 to 127 units"),
            ("gaps", "1 gap of 256 to 511 units"), ("gaps", "1 gap of 16384 to 32767 units")])
        self.assertEqual(bars[: len(bars) // 2], bars[len(bars) // 2 :])

    def test_a_trace_without_a_schedule(self):
        trace = self.write("a.trace", "type H\nscheduler 1\nthreads\nend\n")
        self.refused(f"{trace}: schedule wanted", "--trace", trace, "--histograms", self.path("a.svg"))

    def test_recorded_operations_have_those_of_their_trace(self):
        """With one scheduler: blocks of several sizes, gaps beside them, and a singleblock carrier with a tail."""
        lines = [*(f"alloc {it} {40 * it}" for it in range(1, 30)), "alloc 30 700000", *(f"free {it}" for it in range(3, 28, 4))]
        self.draw("--trace", self.trace(*lines), "--histograms", self.path("a.svg"))
        trace = self.write("a.trace", "\n".join(["type H", *(f"1 {it}" for it in lines), "# mark over", "1 free 1", "end", ""]))
        self.draw("--trace", trace, "--histograms", self.path("b.svg"), "--at", "over")
        wanted, found = (re.findall("<title>.*?</title>", self.read(it)) for it in ("a.svg", "b.svg"))
        self.assertEqual(found, wanted)
        self.assertIn(f"sizes of blocks and gaps after {len(lines)} operations", self.read("b.svg"))
        self.draw("--trace", trace, "--histograms", self.path("b.svg"))
        self.assertNotEqual(re.findall("<title>.*?</title>", self.read("b.svg")), wanted)

    def test_recorded_operations_of_several_schedulers(self):
        """Scheduler 2 frees block 1 of 126 units; at the mark it waits, and the end of the run up to there releases it."""
        lines = ["type H", "1 alloc 1 1000", "1 alloc 2 100", "1 give 1 2", "2 take 1 1", "2 free 1", "# mark freed",
                 "1 alloc 3 4000", "end", ""]
        words = "--trace", self.write("a.input", "\n".join(lines)), "--histograms", self.path("a.svg")
        self.draw(*words, "--at", "freed", "--", "+MHacul", "0")
        bars = re.findall(r'class="(blocks|gaps)"[^>]*><title>(.*?)</title>', self.read("a.svg"))
        self.assertEqual(bars[: len(bars) // 2], [
            ("blocks", "1 block of fewer than 16 units"), ("gaps", "1 gap of 64 to 127 units"),
            ("gaps", "1 gap of 16384 to 32767 units")])
        self.refused(f"{words[1]}: there is no mark x", *words, "--at", "x",
                     expected="a number, or of recorded operations freed or end")

    def test_a_moment_of_a_trace_has_no_histograms(self):
        trace = self.trace("alloc 1 100")
        said = f"{trace}: --at is a moment of --histograms for recorded operations alone"
        self.refused(said, "--trace", trace, "--histograms", self.path("a.svg"), "--at", "1")

    def test_an_input_that_is_no_trace(self):
        for text, command in (("types H B\nscheduler 1\nschedule\nend\n", "types"),
                              ("super\nscheduler 1\nend\n", "super")):
            trace = self.write("a.trace", text)
            said = f"{trace}: --histograms draws those of a trace, and this is an input of `{command}`"
            self.refused(said, "--trace", trace, "--histograms", self.path("a.svg"))


class Steps(Case):
    def steps(self, *words):
        self.draw("--steps", self.path("a.html"), *words)
        return data_in(self.read("a.html"))

    def lanes(self, data):
        """The words of each carrier in their order, with the line from which each holds."""
        named = lambda at, kind, instance: (data["lines"][at].split()[0], data["words"][kind], instance)
        return {it["number"]: [named(*span) for span in it["spans"]] for it in data["lanes"]}

    def test_a_carrier_that_two_want(self):
        """Both are left in the pool; scheduler 2 fetches one of them between the look and the try of scheduler 3."""
        data = self.steps(*self.example("lost-fetch"))
        self.assertEqual(self.lanes(data), {
            1: [("3074", "employed", 1), ("6153", "pooled", 1), ("12306", "employed", 3)],
            2: [("6149", "employed", 1), ("6156", "pooled", 1), ("12302", "employed", 2)]})
        self.assertEqual([data["lines"][at] for at in data["lost"]], ["12303 3 3073 fetch_try 2 lost employed 2"])
        self.assertEqual(data["schedulers"], 3)

    def test_a_carrier_that_stays_busy_and_one_that_returns(self):
        data = self.steps(*self.example("left-busy"))
        self.assertEqual(self.lanes(data)[2][-1][1:], ("busy", 1))
        data = self.steps(*self.example("returned-carrier"))
        self.assertEqual([it[1:] for it in self.lanes(data)[1]][-4:],
                         [("busy", 2), ("employed", 2), ("returning", 1), ("absent", 0)])

    def test_a_main_carrier_is_there_from_the_start(self):
        data = self.steps("--trace", self.trace("alloc 1 100"), "--", "+MHmmbcs", "512", "+MHacul", "0")
        self.assertEqual(self.lanes(data), {1: [("1", "employed", 1)]})
        self.assertEqual(data["done"]["0"], ["log 1 alloc 1 1 8 14"])

    def test_a_look_at_a_number_without_a_carrier(self):
        """Two schedulers look in turn, so each look has a line. A carrier that never comes has no lane."""
        trace = self.sections([["alloc 1 8"], ["alloc 2 8"]], "schedule", "1 2 1 2 1 2")
        data = self.steps("--trace", trace, "--", "+S", "2")
        looks = ["3 1 2 look 2048 absent", "4 2 2 look 2048 absent", "5 1 3 look 2047 absent"]
        self.assertEqual(data["lines"][2:5], looks)
        self.assertEqual([it["number"] for it in data["lanes"]], [1, 1025])

    def test_sixteen_schedulers(self):
        sections = [[f"alloc {number} 2000"] for number in range(1, 17)]
        trace = self.sections(sections, "schedule")
        data = self.steps("--trace", trace, "--", "+S", "16", "+MHacul", "0")
        self.assertEqual((data["schedulers"], len(data["lanes"]), len(data["lines"])), (16, 16, 32))

    def test_what_is_refused(self):
        words = "--steps", self.path("a.html")
        trace = self.write("a.trace", "type H\nscheduler 1\nthreads\nend\n")
        self.refused(f"{trace}: schedule wanted", "--trace", trace, *words)
        trace = self.write("a.trace", "type H\n1 alloc 1 8\nend\n")
        self.refused(f"{trace}: --steps draws those of a trace, and this is an input of `recorded`", "--trace", trace, *words)


class Interrupts(Case):
    def test_signals_end_its_runs_at_once(self):
        """Also what a run has started: it does not come to its end."""
        begun, ended, page = self.path("begun"), self.path("ended"), self.path("a.html")
        lines = ["#!/bin/sh", f'[ "${{2:-}}" = bf ] && touch {begun} && {{ sh -c "sleep 600; touch {ended}"; exit 0; }}',
                 f'exec {PATH} "$@"', ""]
        slow = self.write("slow", "\n".join(lines))
        os.chmod(slow, 0o755)
        words = [TOOL, "--program", slow, "--trace", self.trace("idle"), "--output", page, "--", "+MHas", "bf"]
        for number in signal.SIGINT, signal.SIGTERM:
            how = {"preexec_fn": lambda: signal.signal(signal.SIGINT, signal.SIG_DFL), "start_new_session": True}
            ran = subprocess.Popen(words, stdout=subprocess.PIPE, stderr=subprocess.PIPE, text=True, **how)
            while not os.path.exists(begun):
                self.assertIsNone(ran.poll())
                time.sleep(0.05)
            ran.send_signal(number)
            self.assertEqual((*ran.communicate(), ran.returncode), ("", "", 128 + number))
            self.assertFalse(os.path.exists(ended))
            self.assertFalse(os.path.exists(page))
            os.unlink(begun)


class ManyCarriers(Case):
    def trace_of(self, count):
        """So many carriers of a page, all but the last filled to 504 of 512 units."""
        return self.trace(*[f"alloc {it} 4020" for it in range(1, count)], f"alloc {count} 100")

    def test_full_ones_are_one_row(self):
        flags = "--", "+MHsbct", "1", "+MHacul", "0", "+MHsmbcs", "4", "+MHlmbcs", "4"
        for count, more, rows in ((50, (), 1), (50, ("--all",), 50), (40, (), 40)):
            with self.subTest(count=count, more=more):
                self.draw("--trace", self.trace_of(count), "--svg", self.path("a.svg"), *more, *flags)
                svg = self.read("a.svg")
                self.assertEqual(len(re.findall(r">carrier \d+, (?:multi|single), page", svg)), rows)
                words = "49 full carriers of owner 1: 0.2 MB, 98 percent in blocks (each 90 or more): 1 to 49"
                self.assertEqual(words in svg, rows == 1)

    def test_megabytes_and_a_scale(self):
        self.draw("--trace", self.trace("alloc 1 600000"), "--svg", self.path("a.svg"), "--", "+MMscs", "2")
        svg = self.read("a.svg")
        # 147 pages, which are 75264 units.
        self.assertIn("units 75,264 (0.6 MB)", svg)
        self.assertIn("owner 1, employed 1, 0.6 MB<", svg)
        self.assertEqual(re.findall(r">([0-9.]+(?: MB)?)<", svg), "0 0.2 0.4 0.6 0.8 1 1.2 1.4 1.6 1.8 2 MB".split(" ", 10))

    def test_failed_allocations_are_said(self):
        trace = self.trace("alloc 1 524280", "alloc 2 524280")
        ran = self.run_tool("--trace", trace, "--svg", self.path("a.svg"), "--", "+MMscs", "1")
        self.assertEqual((ran.returncode, ran.stderr.count("FAILED allocations: 1, ")), (0, 1), ran.stderr)


class Recorded(Case):
    LINES = ["1 alloc 1 1000", "2 alloc 2 100", "1 give 1 2", "2 take 1 1", "2 free 1", "1 idle", "1 alloc 3 1000"]

    def setUp(self):
        super().setUp()
        probe = subprocess.run([PATH, "recorded"], input="type H\nend\n", capture_output=True, text=True, check=False)
        if probe.returncode:
            self.skipTest("this program has no recorded operations")

    def test_the_order_is_that_of_the_lines(self):
        trace = self.write("a.input", "\n".join(["type H", *self.LINES, "end", ""]))
        data = self.data("--trace", trace, "--", "+S", "2", "+MHacul", "0")
        self.assertEqual(data["by"], [int(it.split()[0]) for it in self.LINES])
        # Block 1 is queued by its free, entry 5, and released where the next operation of scheduler 1 begins, entry 6.
        self.assertEqual([it[4:] for it in blocks_of(data) if it[0] == 1], [(1, 5, 6)])

    def test_without_a_count_it_is_that_of_the_schedulers_that_it_has(self):
        trace = self.write("a.input", "\n".join(["type H", *self.LINES, "end", ""]))
        for words in [], ["--", "recorded", "+MHacul", "0"]:
            self.assertEqual(self.data("--trace", trace, *words)["schedulers"], 2)

    def test_by_rules_of_a_node(self):
        """Runs of the first operations, too: the second carrier, which is gone at the end, has 256 pages before page 64."""
        lines = ["1 alloc 1 200000", "1 alloc 2 200000", "1 free 2"]
        trace = self.write("a.input", "\n".join(["type H", "rules powers", *lines, "end", ""]))
        data = self.data("--trace", trace, "--", "+MHacul", "0")
        self.assertEqual((data["rules"], spans_of(data, 2)), (["rules powers"], [(2, 64, 256)]))
        self.assertIn(" · rules powers · carriers 2 · ", self.svg(trace, 2, "+MHacul", "0"))
        trace = self.write("b.input", "\n".join(["type H", *lines, "end", ""]))
        data = self.data("--trace", trace, "--", "+MHacul", "0")
        self.assertEqual((data["rules"], spans_of(data, 2)), ([], [(2, 64, 186)]))
        self.assertNotIn("rules", self.svg(trace, 2, "+MHacul", "0"))

    def test_of_more_schedulers_than_have_operations(self):
        trace = self.write("a.input", "type H\n1 alloc 1 100\nend\n")
        data = self.data("--trace", trace, "--", "+S", "4")
        self.assertEqual((data["schedulers"], data["by"]), (4, [1]))


class Refusals(Case):
    def test_a_trace(self):
        trace = self.write("bad.trace", "type H\nscheduler 1\nend\n")
        expected = "`schedule` or `threads` before `end`"
        words = "--trace", trace, "--output", self.path("a.html")
        self.refused(f"{trace}: line 3: syntax", *words, expected=expected)
        trace = self.write("short.trace", "type H\nscheduler 1\nschedule\n")
        words = "--trace", trace, "--output", self.path("a.html")
        self.refused(f"{trace}: no end line", *words, expected="`end` as the last line")
        self.assertEqual(sorted(os.listdir(self.folder)), ["bad.trace", "short.trace"])

    def test_flags(self):
        words = "--trace", self.trace("idle"), "--output", self.path("a.html")
        self.refused("the words after --: word 2: bad value", *words, "--", "+MHramv", "no",
                     expected="+MHramv takes true false, and not 'no'")
        flags = self.write("a.flags", "+MHacul\n0\n+MHasbf\n1\n")
        self.refused(f"{flags}: line 3: unknown flag", *words, "--flags", flags,
                     expected="a value as a word of its own: +MHas bf")

    def test_files(self):
        trace, page = self.trace("idle"), self.path("a.html")
        none = self.path("none")
        self.refused(f"{none}: No such file or directory", "--trace", none, "--output", page)
        self.refused(f"{none}: No such file or directory", "--trace", trace, "--output", page, "--flags", none)
        self.refused(f"{none}/a.html: No such file or directory", "--trace", trace, "--output", f"{none}/a.html")
        self.refused(f"{self.folder}: Is a directory", "--trace", trace, "--output", self.folder)
        words = TOOL, "--program", none, "--trace", trace, "--output", page
        ran = subprocess.run(words, capture_output=True, text=True, check=False)
        self.assertEqual((ran.returncode, ran.stderr), (1, f"picture: {none}: No such file or directory\n"))

    def test_a_generated_trace(self):
        trace = self.write("a.trace", "type H\ngenerate 7 10\nend\n")
        said = f"{trace}: a generated trace's text has counts and no entries, so there is nothing to draw"
        self.refused(said, "--trace", trace, "--output", self.path("a.html"))

    def test_a_moment(self):
        trace = self.trace("idle")
        words = "--trace", trace, "--svg", self.path("a.svg"), "--at", "2"
        self.refused(f"{trace}: there are moments 0 to 1, and no 2", *words)

    def test_what_is_there_stays(self):
        page = self.write("a.html", "old")
        trace = self.write("bad.trace", "type H\nfrob\n")
        self.refused(f"{trace}: line 2: syntax", "--trace", trace, "--output", page,
                     expected="`scheduler 1` before its operations; or `generate SEED COUNT`")
        self.assertEqual(self.read("a.html"), "old")

    def test_words(self):
        trace = self.trace("idle")
        same = ("--svg", "x", "--output", "x"), ("--svg", "x", "--histograms", "x"), ("--histograms", trace), ("--steps", trace)
        for words in ((), ("--output", trace), ("--output", "x", "--at", "1"), *same):
            ran = self.run_tool("--trace", trace, *words)
            self.assertEqual((ran.returncode, ran.stdout), (2, ""))
            self.assertNotIn("Traceback", ran.stderr)


def long_trace(count):
    """count operations: 256 blocks that have a carrier of one page each, and then small ones that lie beside them, of
    which 300 are held at a time."""
    lines = [f"alloc {name} 3500" for name in range(1, 257)]
    name = freed = 256
    while len(lines) < count:
        if name - freed < 300:
            name += 1
            lines.append(f"alloc {name} {name % 7 * 16}")
        else:
            freed += 1
            lines.append(f"free {freed}")
    return lines


LONG_FLAGS = ("+MHacul", "0", "+MHsmbcs", "4", "+MHlmbcs", "4")


class Long(Case):
    def test_a_hundred_thousand_entries(self):
        trace = self.trace(*long_trace(100_000))
        begun = resource.getrusage(resource.RUSAGE_CHILDREN).ru_utime
        data = self.data("--trace", trace, "--", *LONG_FLAGS)
        seconds = resource.getrusage(resource.RUSAGE_CHILDREN).ru_utime - begun
        size = os.path.getsize(self.path("a.html"))
        print(f"a hundred thousand entries: {seconds:.1f} s of a processor, a page of {size:,} bytes")
        self.assertLess(seconds, LONGEST_SECONDS)
        self.assertEqual((data["last"], len(data["lines"])), (100_000, 100_000))
        self.assertLess(size, LARGEST_PAGE)


def count_by_text(text, moment):
    """How many blocks there are after that many entries of one scheduler."""
    there = 0
    for line in text.split("\n")[1 : moment + 1]:
        words = line.split()
        there += words[0] == "alloc" and words[2] != "fail"
        there -= words[0] == "free" and words[2] == "done"
    return there


def pixels(file):
    """The rows of colours of a PNG with eight bits for each of red, green, blue and perhaps opacity."""
    with open(file, "rb") as opened:
        data = opened.read()
    at, packed = 8, b""
    while at < len(data):
        length, kind = struct.unpack(">I4s", data[at : at + 8])
        part = data[at + 8 : at + 8 + length]
        if kind == b"IHDR":
            width, height, depth, form = struct.unpack(">IIBB", part[:10])
            assert depth == 8 and form in (2, 6)
        packed += part if kind == b"IDAT" else b""
        at += 12 + length
    return unfiltered(zlib.decompress(packed), width, height, 3 if form == 2 else 4)


def unfiltered(data, width, height, channels):
    rows, above = [], bytes(width * channels)
    for number in range(height):
        start = number * (width * channels + 1)
        kind, row = data[start], bytearray(data[start + 1 : start + 1 + width * channels])
        for at in range(len(row)):
            left = row[at - channels] if at >= channels else 0
            corner = above[at - channels] if at >= channels else 0
            row[at] = row[at] + guess(kind, left, above[at], corner) & 255
        rows.append([tuple(row[at : at + 3]) for at in range(0, len(row), channels)])
        above = row
    return rows


def guess(kind, left, up, corner):
    if kind == 4:
        whole = left + up - corner
        return min((left, up, corner), key=lambda it: abs(whole - it))
    return (0, left, up, (left + up) // 2)[kind]


@unittest.skipUnless(BROWSER, "there is no chromium")
class Browser(Case):
    def browse(self, page, fragment, *words):
        profile = f"--user-data-dir={self.path('profile')}"
        look = "--hide-scrollbars", "--window-size=1200,900", "--blink-settings=preferredColorScheme=1"
        call = [BROWSER, "--headless=new", "--no-sandbox", "--disable-gpu", profile, *look, *words]
        address = f"file://{page}{fragment}"
        ran = subprocess.run([*call, address], capture_output=True, text=True, check=False)
        self.assertEqual(ran.returncode, 0, ran.stderr)
        return ran.stdout

    def shown(self, page, moment):
        """What the page says that it shows at a moment."""
        dom = self.browse(page, f"#at={moment}", "--dump-dom")
        found = re.search(r'<main id="picture"([^>]*)>', dom)
        return {name: int(value) for name, value in re.findall(r'data-(\w+)="(\d+)"', found.group(1))}

    def test_counts_and_picture(self):
        operations = [f"alloc {name} {name * 977 % 60000}" for name in range(1, 61)]
        operations += [f"free {name}" for name in range(1, 61, 2)]
        trace, flags = self.trace(*operations), ("+MMscs", "16", "+MHacul", "0")
        self.draw("--trace", trace, "--output", self.path("a.html"), "--", *flags)
        text = self.text_of(trace, flags)
        for moment in (7, 60, 83):
            shown = self.shown(self.path("a.html"), moment)
            wanted = count_by_text(text, moment)
            self.assertEqual((shown["moment"], shown["blocks"], shown["drawn"]), (moment, wanted, wanted))
        picture = self.path("a.png")
        self.browse(self.path("a.html"), "#at=60", f"--screenshot={picture}", "--window-size=1200,1600")
        rows = pixels(picture)
        self.assertGreater(sum(row.count(BLUE) for row in rows), 3000)

    def text_of(self, trace, flags):
        program = sys.argv[1] if len(sys.argv) > 1 else f"{TOP}/run"
        with open(trace, "rb") as file:
            return subprocess.run([program, *flags], stdin=file, capture_output=True, text=True, check=True).stdout

    def said(self, page, fragment, script):
        """What a script that is added to the page says."""
        added = self.read(page).replace("</body>", f"<script>document.body.dataset.said = {script};</script></body>")
        dom = self.browse(self.write("b.html", added), fragment, "--dump-dom")
        return re.search(r'data-said="([^"]*)"', dom).group(1)

    def test_queued_blocks(self):
        self.draw(*self.example("producer-and-consumer"), "--output", self.path("a.html"))
        script = """[6, 11, 16].map(moment => {
            goTo(moment);
            return at("picture").dataset.blocks + " " + at("picture").dataset.queued;
        }).join(", ")"""
        self.assertEqual(self.said("a.html", "", script), "3 0, 3 1, 1 0")

    def test_a_page_of_steps(self):
        """It opens at the step of its address, and tells what that did."""
        self.draw(*self.example("lost-fetch"), "--steps", self.path("a.html"))
        line = next(at for at, it in enumerate(data_in(self.read("a.html"))["lines"]) if "fetch_try 2 won" in it)
        dom = self.browse(self.path("a.html"), f"#step={line}", "--dump-dom")
        told = re.search(r'<div id="told"[^>]*>(.*?)</div>', dom, re.S).group(1)
        self.assertEqual(told, "<b>12302 2 3073 fetch_try 2 won</b>\nlog 2 alloc 5 2 8 252")

    def test_pointing_and_keys(self):
        """Block 2 of 14 units lies at offset 22, so its middle is at 29 of the 512 units of its carrier."""
        self.draw("--trace", self.trace(*FEW), "--output", self.path("a.html"), "--", *FEW_FLAGS)
        script = """(() => {
            const box = at("rows").getBoundingClientRect(), { left, scale, rows } = panes[0].rows;
            const x = box.left + left + 29 * scale, y = box.top + rows[1].y + 10;
            at("rows").dispatchEvent(new MouseEvent("mousemove", { clientX: x, clientY: y }));
            const pointed = tip.textContent;
            const moments = ["Home", "ArrowRight", "ArrowRight", "ArrowLeft", "End", "ArrowLeft"].map(key => {
                window.dispatchEvent(new KeyboardEvent("keydown", { key }));
                return at("picture").dataset.moment + ":" + at("picture").dataset.blocks;
            });
            return [pointed, ...moments].join("; ");
        })()"""
        pointed = "block 2, since entry 2\ncarrier 1, offset 22, 112 bytes (14 units)\n"
        pointed += "address 0xb0 in the super carrier"
        self.assertEqual(self.said("a.html", "#at=2", script), f"{pointed}; 0:0; 1:1; 2:2; 1:1; 7:1; 6:2")

    def test_a_stop(self):
        """The block is in the hand from the last moment on."""
        trace = self.sections([TWO_FREES], f"stop 1 {BEFORE_THE_SECOND + 1}", "schedule")
        self.draw("--trace", trace, "--output", self.path("a.html"))
        script = """[4, 5].map(moment => {
            goTo(moment);
            const { stopped, queued } = at("picture").dataset;
            return [stopped, queued, at("words").textContent, at("stops").textContent].join("; ");
        }).join("; ")"""
        steps = f"is stopped after {BEFORE_THE_SECOND + 1} steps of its own"
        parted = steps.replace("1032", "1\u202f032")
        before = "0; 0; The scheduler frees block 1, which is released.; "
        words = f"1; 1; The scheduler {parted}, and does nothing more.; Scheduler 1 {steps}, in 'free 2', which has " \
            "no entry.Block 2 is in its hand: no scheduler releases it."
        self.assertEqual(self.said("a.html", "", script), f"{before}; {words}")

    def test_pointing_at_one_of_many_regions(self):
        """Each region shows its own carrier where it is drawn, and names it."""
        self.draw("--trace", self.sections(EACH_HAS_ONE, "schedule"), "--output", self.path("a.html"), "--",
                  *ONE_PAGE_EACH)
        script = """[1, 4, 5, 37, 64].map(instance => {
            const box = at("regions").getBoundingClientRect(), { x, y } = panes[0].stripOf(instance);
            const middle = x + panes[0].regions.label + 200 * panes[0].regions.scale;
            const event = { clientX: box.left + middle, clientY: box.top + y + 12 };
            return /carrier \\d+/.exec(panes[0].overRegions(event))[0];
        }).join(", ") + "; " + at("picture").dataset.drawn + "; " + at("bare").textContent"""
        wanted = "carrier 1, carrier 3073, carrier 4097, carrier 36865, carrier 64513; 64; "
        self.assertEqual(self.said("a.html", "", script), wanted)

    def test_it_opens_at_the_peak_and_marks_lead_to_moments(self):
        """The peak, which is a button too, is after entry 1; the address leads elsewhere."""
        trace = self.trace("alloc 1 600000", "free 1", "# mark here", "alloc 2 100", "# mark there")
        self.draw("--trace", trace, "--output", self.path("a.html"), "--", "+MHacul", "0")
        script = """(() => {
            const moments = [at("picture").dataset.moment];
            for (const it of document.querySelectorAll(".mark")) {
                it.click();
                moments.push(it.textContent + " " + at("picture").dataset.moment + " " + location.hash);
            }
            return moments.join("; ");
        })()"""
        said = "1; peak 0.6 MB 1 #at=1; here 2 #at=2; there 3 #at=3"
        self.assertEqual(self.said("a.html", "", script), said)
        self.assertTrue(self.said("a.html", "#at=3", script).startswith("3; "))

    def test_the_slider_has_keys_and_says_where_it_is(self):
        """Up and down are keys of the slider alone: elsewhere they move the page."""
        self.draw("--trace", self.trace(*FEW), "--output", self.path("a.html"), "--", *FEW_FLAGS)
        script = """(() => {
            const press = (on, key) => {
                on.dispatchEvent(new KeyboardEvent("keydown", { key, bubbles: true }));
                return at("picture").dataset.moment;
            };
            const slider = at("slider");
            const moments = [press(slider, "ArrowRight"), press(slider, "ArrowUp"), press(slider, "ArrowDown"),
                press(document.body, "ArrowUp"), press(document.body, "ArrowLeft"), press(at("number"), "ArrowLeft")];
            return [...moments, slider.value, slider.getAttribute("aria-valuetext"),
                document.querySelector(".cursor").style.left].join("; ");
        })()"""
        said = "3; 4; 3; 3; 2; 2; 2; after entry 2; 0.0 MB of carriers, 0.0 MB in blocks; 28.5714%"
        self.assertEqual(self.said("a.html", "#at=2", script), said)

    def test_one_colour_until_an_instance_is_pointed_at(self):
        """Of nine instances; eight have a colour each."""
        script = """(() => {
            const colours = () => new Set(panes[0].instances.map(it => panes[0].colourOf(it))).size;
            const over = (id, x, y) => {
                const box = at(id).getBoundingClientRect(), where = { clientX: box.left + x, clientY: box.top + y };
                at(id).dispatchEvent(new MouseEvent("mousemove", where));
                return colours() + " " + view.pointed;
            };
            const row = panes[0].rows.rows.find(it => it.carrier && it.owner === 3), { y } = panes[0].stripOf(5);
            const said = [colours(), over("rows", 60, row.y + 9), over("regions", 30, y + 9)];
            at("rows").dispatchEvent(new MouseEvent("mouseleave"));
            said.push(colours(), at("choice").hidden);
            at("instance").value = 3;
            at("instance").dispatchEvent(new Event("change"));
            return [...said, colours()].join("; ");
        })()"""
        for count, said in (9, "1; 2 3; 2 5; 1; false; 2"), (8, "8; 8 0; 8 0; 8; true; 8"):
            trace, flags = self.sections(EACH_HAS_ONE[:count], "schedule"), ("+S", str(count), *ONE_PAGE_EACH[2:])
            self.draw("--trace", trace, "--output", self.path("a.html"), "--", *flags)
            self.assertEqual(self.said("a.html", "", script), said)

    def test_two_runs_at_one_moment_and_to_one_scale(self):
        """The second has a carrier of 64 pages where the first has one of a page."""
        words = "--trace", self.trace(*FEW), "--output", self.path("a.html"), "--beside", "+MHsmbcs 256 +MHlmbcs 256"
        self.draw(*words, "--", *FEW_FLAGS)
        script = """(() => {
            at("slider").value = 6;
            at("slider").dispatchEvent(new Event("input"));
            return panes.map(it => [it.root.dataset.moment, it.root.dataset.blocks, it.run.carriers[0].pages,
                it.rows.scale === panes[0].rows.scale, it.regions.scale === panes[0].regions.scale,
                it.at("figures").textContent.split(" of")[0]].join(" ")).join("; ");
        })()"""
        self.assertEqual(self.said("a.html", "", script), "6 2 1 true true 0.0 MB; 6 2 64 true true 0.3 MB")

    def test_a_narrow_page_needs_no_sideways_scrolling(self):
        """At 360 pixels, of one run and of two with many marks and instances."""
        marks = [f"# mark a-mark-of-some-length-{it}" for it in range(5)]
        trace = self.sections([*EACH_HAS_ONE[:8], ["alloc 9 3000", *marks]], "schedule")
        words = "--trace", trace, "--output", self.path("a.html"), "--", "+S", "9", *ONE_PAGE_EACH[2:]
        for more in (), ("--beside", "+MHsmbcs 256 +MHlmbcs 256 +MHsbct 64"):
            self.draw(*more, *words)
            frame = html.escape(self.read("a.html"))
            script = """const { documentElement, defaultView } = frames[0].document;
                const wide = [...documentElement.querySelectorAll("main *")].filter(it => !it.closest(".table, svg")
                    && it.getBoundingClientRect().right > 360.5).map(it => it.id || it.className);
                document.body.dataset.said = [frames[0].innerWidth, documentElement.scrollWidth, ...wide].join(" ");"""
            page = f'<body><iframe width="360" height="800" style="border: 0" srcdoc="{frame}"></iframe>'
            page += f"<script>window.onload = () => {{ {script} }}</script></body>"
            dom = self.browse(self.write("b.html", page), "", "--dump-dom")
            self.assertEqual(re.search(r'data-said="([^"]*)"', dom).group(1), "360 360")

    def test_the_carriers_as_a_table(self):
        self.draw("--trace", self.trace(*FEW), "--output", self.path("a.html"), "--", *FEW_FLAGS)
        script = """(() => {
            at("table").open = true;
            goTo(2);
            return [...at("body").rows].map(it => [...it.cells].map(it => it.textContent).join(", ")).join("; ");
        })()"""
        self.assertEqual(self.said("a.html", "", script), "1, 4.0 kB, 5, 2, multi, 1, employed by 1, page 0")

    def test_jumps_in_a_long_run(self):
        """Anywhere in a hundred thousand entries; how long they and the page's start take is printed."""
        trace = self.trace(*long_trace(100_000))
        self.draw("--trace", trace, "--output", self.path("a.html"), "--", *LONG_FLAGS)
        script = """(() => {
            const begun = performance.now(), jumps = 40;
            for (let it = 0; it < jumps; it++) {
                goTo(it * 7919 * 13 % 100001);
                at("rows").getContext("2d").getImageData(0, 0, 1, 1);
            }
            const jump = (performance.now() - begun) / jumps;
            goTo(60001);
            return [begun, jump, at("picture").dataset.blocks].map(Math.round).join(" ");
        })()"""
        start, jump, blocks = map(int, self.said("a.html", "", script).split())
        print(f"a page of a hundred thousand entries: starts in {start} ms, {jump} ms for a jump")
        self.assertEqual(blocks, count_by_text(self.text_of(trace, LONG_FLAGS), 60001))


def main():
    tests = unittest.defaultTestLoader.loadTestsFromModule(sys.modules["__main__"])
    result = unittest.TextTestRunner(verbosity=1).run(tests)
    if not BROWSER:
        print("no chromium here: the tests with a browser were skipped")
    failed = len(result.failures) + len(result.errors)
    print(f"{result.testsRun - failed - len(result.skipped)} passed, {failed} failed")
    return failed > 0


if __name__ == "__main__":
    sys.exit(main())
