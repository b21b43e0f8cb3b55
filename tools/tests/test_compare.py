#!/usr/bin/env python3
"""Tests of tools/compare: python3 tools/tests/test_compare.py [PROGRAM], without which ./run is asked for it.

What is expected was worked out by hand from docs/reference, or is counted here from runs of the program on the fronts
of a trace; nothing is taken from the tool. The last line is 'N passed, M failed'.
"""
import csv
import io
import itertools
import json
import os
import random
import re
import shlex
import shutil
import signal
import subprocess
import sys
import tempfile
import time
import unittest

sys.dont_write_bytecode = True
from counted import run_tests, take_signals

TOP = os.path.dirname(os.path.dirname(os.path.dirname(os.path.realpath(__file__))))
TOOL = f"{TOP}/tools/compare"
EXAMPLES = f"{TOP}/examples"
PROGRAM = []
STRATEGIES = "bf aobf aoff aoffcbf aoffcaobf ageffcaoff ageffcbf ageffcaobf gf af"
NO_STRATEGY = f"compare: expected: +MHas takes {STRATEGIES}, and not 'ff'\n"
NOT_SECONDS = "list,trace,status,carriers_end,carriers_most,units_end,units_most,failed,moved,said"
KEPT_APART = ["--each", "+MHacul 0"]
# With migration and one scheduler an allocation that finds no room looks at each of its numbers before it creates a
# carrier.
NUMBERS = 1024


def one(*operations):
    """A trace of one scheduler."""
    return "\n".join(["type H", "scheduler 1", *operations, "schedule", "end", ""])


def two(first, second, *turns):
    return "\n".join(["type H", "scheduler 1", *first, "scheduler 2", *second, "schedule", *turns, "end", ""])


def several(letters, *sections):
    """An input of these allocator types, whose schedulers run one after the other."""
    parts = [it for number, part in enumerate(sections, 1) for it in (f"scheduler {number}", *part)]
    return "\n".join([f"types {letters}", *parts, "schedule", "end", ""])


def stopped(trace, *stops):
    """The trace with these stops."""
    return trace.replace("\nschedule\n", "\n" + "".join(f"stop {it}\n" for it in stops) + "schedule\n")


def program():
    return PROGRAM[1] if PROGRAM else f"{TOP}/run"


def flags_of(file):
    with open(file, encoding="utf-8") as source:
        return source.read().split()


class Compare(unittest.TestCase):
    def setUp(self):
        self.room = tempfile.mkdtemp(prefix="test-compare-")
        self.addCleanup(shutil.rmtree, self.room)

    def file(self, name, text):
        with open(f"{self.room}/{name}", "w", encoding="utf-8") as made:
            made.write(text)
        return name

    def words(self, *words):
        return [sys.executable, "-B", TOOL, *PROGRAM, *words]

    def compare(self, *words, folder=None):
        ran = subprocess.run(
            self.words(*words), capture_output=True, text=True, cwd=folder or self.room, check=False
        )
        self.assertNotIn("Traceback", ran.stderr)
        return ran.returncode, ran.stdout, ran.stderr

    def rows(self, *words, status=0, folder=None):
        ended, text, said = self.compare(*words, "--as", "json", folder=folder)
        self.assertEqual((ended, said if status == 0 else ""), (status, ""))
        return json.loads(text)

    def row(self, trace, *words):
        [row] = self.rows(self.file("a.trace", trace), *words)
        return row

    def assertRow(self, row, **wanted):
        self.assertEqual({name: row[name] for name in wanted}, wanted)

    # What the columns say

    def test_one_block(self):
        row = self.row(one("alloc 1 100"), *KEPT_APART)
        self.assertRow(row, status=0, carriers_end=1, carriers_most=1, units_end=32768, units_most=32768)
        self.assertRow(row, failed=0, moved=0, abandoned=0, fetched=0, returned=0, queued=0, said=None)
        # 14 of 32768 units are 0.04 percent.
        self.assertRow(row, utilisation_end=0.0, utilisation_most=0.0)
        self.assertGreater(row["seconds"], 0)

    def test_a_carrier_that_is_gone_at_the_end(self):
        row = self.row(one("alloc 1 2000", "free 1"), *KEPT_APART, "--each", "+MHsbct 1")
        # 252 units of 512 are 49.2 percent.
        self.assertRow(row, carriers_end=0, carriers_most=1, units_end=0, units_most=512)
        self.assertRow(row, utilisation_end=None, utilisation_most=49.2)

    def test_single_and_multiblock_carriers(self):
        operations = ["alloc 1 2000", "alloc 2 2000", "alloc 3 100", "free 1", "alloc 4 4000"]
        row = self.row(one(*operations), *KEPT_APART, "--each", "+MHsbct 1")
        # 768 units of 33792 are 2.27 percent. Two carriers of one page with 252 units each come first.
        self.assertRow(row, carriers_end=3, carriers_most=3, units_end=33792, units_most=33792)
        self.assertRow(row, utilisation_end=2.2, utilisation_most=49.2)

    def test_a_peak(self):
        [row] = self.rows("after-a-peak.trace", "--flags", "after-a-peak.flags", folder=EXAMPLES)
        # Its first `info` tells 40 and 75002 units of blocks in 32768 and 75264 units: 69.46 percent.
        self.assertRow(row, carriers_end=1, carriers_most=2, units_end=32768, units_most=32768 + 75264)
        self.assertRow(row, utilisation_end=0.0, utilisation_most=69.4)

    def test_the_table_of_growing_sizes(self):
        kinds = {"start": 392, "smbcs128": 368, "lmbcs512": 360, "mbcgs2": 376}
        lists = [f"growing-sizes.{it}.flags" for it in kinds]
        rows = self.rows("growing-sizes.trace", "--flags", *lists, folder=EXAMPLES)
        self.assertEqual([it["list"] for it in rows], lists)
        self.assertEqual([it["carriers_most"] for it in rows], [8, 7, 5, 7])
        self.assertEqual([it["units_most"] for it in rows], [512 * pages for pages in kinds.values()])

    def test_a_singleblock_carrier_that_shrinks(self):
        grid = [*KEPT_APART, "--each", "+MMscs 1", "--each", "+MHasbcst 256 1024"]
        rows = self.rows(self.file("a.trace", one("alloc 1 1000000", "realloc 1 2 600000", "alloc 3 1000")), *grid)
        # 245 pages; then 147, or as they were. A multiblock carrier of 64 pages, or one of the 11 that are left.
        self.assertEqual([it["units_most"] for it in rows], [245 * 512, 246 * 512])
        self.assertEqual([it["units_end"] for it in rows], [211 * 512, 246 * 512])

    def test_moved_blocks_and_the_moment_of_a_move(self):
        grid = [*KEPT_APART, "--each", "+MHsbct 1", "--each", "+MHramv true false"]
        rows = self.rows(self.file("a.trace", one("alloc 1 2000", "realloc 1 2 2000")), *grid)
        self.assertEqual([it["moved"] for it in rows], [1, 0])
        # While it moves, the old carrier and the new one are both there.
        self.assertEqual([it["carriers_most"] for it in rows], [2, 1])
        self.assertEqual([it["units_most"] for it in rows], [1024, 512])

    def test_failures_for_want_of_space(self):
        row = self.row(one("alloc 1 524280", "alloc 2 524280", "alloc 3 100"), *KEPT_APART, "--each", "+MMscs 1")
        self.assertRow(row, failed=1, failed_space=1, failed_numbers=0, carriers_most=1)

    def test_failures_for_want_of_numbers(self):
        operations = [f"alloc {it} 2000" for it in range(1, 1027)]
        row = self.row(one(*operations), *KEPT_APART, "--each", "+MHsbct 1", "--each", "+MMscs 8")
        self.assertRow(row, failed=2, failed_space=0, failed_numbers=2, carriers_most=1024, units_most=1024 * 512)

    def test_abandoned_and_fetched(self):
        pages = ["--each", "+MHsmbcs 4", "--each", "+MHlmbcs 4", "--each", "+MHacul 60 0"]
        first = ["alloc 1 1000", "alloc 2 1000", "alloc 3 2000", "alloc 4 100", "free 3"]
        migrating, kept = self.rows(self.file("a.trace", one(*first, "alloc 5 3000", "alloc 6 2000")), *pages)
        # 126 + 126 + 252 units fill carrier 1. After the free it has 252 of 512, and is abandoned; block 6 fetches it.
        self.assertRow(migrating, abandoned=1, fetched=1, returned=0, carriers_most=2, units_most=1024)
        self.assertRow(migrating, utilisation_end=87.3)
        self.assertRow(kept, abandoned=0, fetched=0, returned=0, carriers_most=2)

    def test_returned(self):
        first = ["alloc 1 1000", "alloc 2 3000", "free 2", "give 1 2"]
        second = ["take 1 1", "alloc 3 1000", "free 1", "free 3"]
        pages = ["--each", "+S 2", "--each", "+MHsmbcs 4", "--each", "+MHlmbcs 4"]
        row = self.row(two(first, second), *pages)
        # Abandoned by 1, fetched by 2, abandoned by 2 and emptied there; its owner has ended.
        self.assertRow(row, abandoned=2, fetched=1, returned=1, carriers_end=1, carriers_most=1, utilisation_end=0.0)

    def test_queued_blocks_are_in_use(self):
        row = self.row(two(["alloc 1 1000", "give 1 2"], ["take 1 1", "free 1"]), "--each", "+S 2", *KEPT_APART)
        # 126 of 32768 units are 0.38 percent.
        self.assertRow(row, queued=126, utilisation_end=0.3, utilisation_most=0.3, carriers_most=1)

    def test_a_stop(self):
        """Each operation takes one step here. A single carrier of one page, a multiblock one of 64, and the single one
        is gone; the fourth operation is not done."""
        operations = ["alloc 1 2000", "alloc 2 100", "free 1", "alloc 3 2000"]
        row = self.row(stopped(one(*operations), "1 3"), *KEPT_APART, "--each", "+MHsbct 1")
        self.assertRow(row, stopped=1, undone=1, carriers_end=1, carriers_most=2, units_end=32768, units_most=33280)
        # Of 512 units 252 are in a block; after it 266 of 33280.
        self.assertRow(row, utilisation_most=49.2, failed=0, moved=0, queued=0, said=None)

    def test_how_far_a_stop_lets_a_scheduler_come(self):
        """By its flags: with migration it is still in the search of its first operation."""
        trace = stopped(one("alloc 1 100", "alloc 2 100", "free 1", "idle"), "1 4")
        rows = self.rows(self.file("a.trace", trace), "--each", "+MHacul 0 60")
        self.assertEqual([(it["stopped"], it["undone"], it["carriers_end"]) for it in rows], [(1, 0, 1), (1, 4, 0)])
        # One step more, and it has ended.
        self.assertRow(self.row(trace.replace("stop 1 4", "stop 1 5"), *KEPT_APART), stopped=0, undone=0)

    def test_a_stop_within_a_free(self):
        """The first free abandons the carrier; the second takes its queue, looks at the carrier, makes it busy and
        releases block 2, of 14 units."""
        operations = ["alloc 1 100", "alloc 2 100", "alloc 3 100", "free 1", "free 2"]
        for steps, queued in ((7, 0), (8, 14), (9, 14), (10, 0)):
            with self.subTest(steps=steps):
                row = self.row(stopped(one(*operations), f"1 {NUMBERS + steps}"))
                self.assertRow(row, stopped=1, undone=1, queued=queued, abandoned=1, fetched=0, returned=0)
                self.assertRow(row, carriers_most=1, units_most=32768)

    def test_a_stop_within_a_free_that_sends_a_carrier_home(self):
        """Scheduler 1 ends with its carrier abandoned. Scheduler 2 looks at each number of both and fetches it; its
        free of block 3 abandons it, and that of block 2 takes its queue, looks, makes it busy and releases the block,
        employs it, and marks it as on its way."""
        first = ["alloc 1 100", "alloc 2 100", "free 1", "give 2 2"]
        second = ["alloc 3 100", "take 2 1", "free 3", "free 2"]
        for steps, returned in ((11, 0), (12, 1), (13, 1)):
            with self.subTest(steps=steps):
                row = self.row(stopped(two(first, second), f"2 {2 * NUMBERS + steps}"), "--each", "+S 2")
                self.assertRow(row, abandoned=2, fetched=1, returned=returned, carriers_most=1, queued=0, undone=1)

    def test_a_stop_within_a_realloc(self):
        """It had placed its block in a new carrier, of which no entry tells: after the `info` that would be a bound."""
        sections = ["alloc 1 100", "give 1 2", "info"], ["take 1 1", "info", "realloc 1 2 1000"]
        trace = stopped(two(*sections, "1*5 2*4"), "2 4")
        row = self.row(trace, "--each", "+S 2", *KEPT_APART)
        self.assertRow(row, carriers_end=2, units_end=65536, units_most=None, queued=14, undone=1, moved=0)
        # Without its step the carrier is not there, and scheduler 1 alone has any.
        row = self.row(trace.replace("stop 2 4", "stop 2 3").replace("realloc 1 2 1000", "free 1"), "--each", "+S 2",
                       *KEPT_APART)
        self.assertRow(row, carriers_end=1, units_most=32768, queued=0, undone=1)

    def test_the_columns_of_stops_stand_in_the_text_where_there_are_any(self):
        plain, halted = self.file("a.trace", one("idle")), self.file("b.trace", stopped(one("idle"), "1 0"))
        heads = [self.compare(*it)[1].partition("\n")[0].split() for it in ([plain], [plain, halted])]
        self.assertEqual([it for it in heads[1] if it not in heads[0]], ["trace", "stopped", "undone"])
        [row] = csv.DictReader(io.StringIO(self.compare(plain, "--as", "csv")[1]))
        self.assertEqual((row["stopped"], row["undone"]), ("0", "0"))
        # A scheduler that takes no step does not end, either.
        self.assertRow(self.rows(halted)[0], stopped=1, undone=1, carriers_most=0)

    def test_bounds_where_the_order_is_not_known(self):
        lists = ["higher-acul.acul20.flags", "higher-acul.acul60.flags"]
        above, migrating = self.rows("higher-acul.trace", "--flags", *lists, folder=EXAMPLES)
        # Scheduler 1 has four carriers before scheduler 2 has its first. With 60 that fetches two of them.
        self.assertRow(above, carriers_end=5, carriers_most="<=6", units_most=None, abandoned=None, fetched=None)
        self.assertRow(migrating, carriers_end=4, carriers_most="<=5", units_most=None, abandoned=">=2", fetched=">=2")

    def test_a_bound_by_infos(self):
        sections = ["alloc 1 2000", "free 1", "info"], ["alloc 2 100", "info"]
        flags = ["--each", "+S 2", *KEPT_APART, "--each", "+MHsbct 1"]
        row = self.row(two(*sections, "1*1 2*3 1*3"), *flags)
        self.assertRow(row, carriers_end=1, carriers_most="<=2", units_end=32768, units_most="<=33280")
        sections[1].append("alloc 3 100")
        self.assertRow(self.row(two(*sections, "1*1 2*3 1*3"), *flags), units_most=None, utilisation_most=None)

    def test_a_generated_trace(self):
        words = ["--each", "+S 2", *KEPT_APART, "--each", "+MMscs 64 1"]
        roomy, tight = self.rows(self.file("a.trace", "type H\ngenerate 7 1000\nend\n"), *words)
        # Of docs/reference/output.md: 5786268 live and 261192 queued of 6262784 units are 96.56 percent.
        self.assertRow(roomy, carriers_end=20, units_end=6262784, utilisation_end=96.5, queued=261192)
        self.assertRow(roomy, failed=0, moved=0, returned=0)
        self.assertRow(roomy, carriers_most=None, units_most=None, failed_space=None, abandoned=0, fetched=0)
        self.assertGreaterEqual(tight["failed"], 578)

    # What ran

    def ran(self, text, *words):
        return [it["ran"] for it in self.rows(self.file("a.trace", text), *words)]

    def test_what_ran(self):
        """By the lists as a node reads them, and as ./run does."""
        for letter, acul, reading, wanted in (
            ("H", "", "node", "gf 0, bf 0, ageffcbf 45"),
            ("H", "+MHacul 0", "node", "gf 0, bf 0, ageffcbf 0"),
            ("H", "+MBacul 0 +Muacul 25", "node", "gf 0, bf 0, ageffcbf 25"),
            ("T", "+MTacul 60", "node", "gf 0, bf 0, ageffcbf 0"),
            ("H", "", "run", "aoffcbf 60, aoffcbf 60, ageffcbf 60"),
            ("H", "+MHacul 0", "run", "gf 0, bf 0, ageffcbf 0"),
            ("H", "+MBacul 0 +Muacul 25", "run", "aoffcbf 25, aoffcbf 25, ageffcbf 25"),
        ):
            words = ["--each", f"+M{letter}as gf bf ageffcbf", "--all", acul, "--reading", reading]
            found = self.ran(one("alloc 1 100").replace("type H", f"type {letter}"), *words)
            self.assertEqual(", ".join(found), wanted, acul)

    def test_what_ran_of_each_type(self):
        trace = several("H B T", ["H alloc 1 100", "B alloc 1 100", "T alloc 1 100"])
        words = ["--each", "+Muas af", "--each", "+MHacul 0 30"]
        node, own = ["gf 0", "gf 0", "af 0"], ["af 0", "aoffcbf 60", "af 0"]
        self.assertEqual(self.ran(trace, *words), [*node, "aoffcbf 30", *node[1:]])
        self.assertEqual(self.ran(trace, *words, "--reading", "run"), [*own, "aoffcbf 30", *own[1:]])

    def test_words_that_come_after_those_of_a_node(self):
        """A list of what a node runs under, as tools/load writes it, with more words: what the node would run by all."""
        self.file("node.flags", "+S\n1\n+MMscs\n64\n+MBsbct\n512\n+MBacul\n60\n")
        trace = self.file("a.trace", one("alloc 1 100").replace("type H", "type B"))
        for words, ran, flags in (
            ("+MBas gf bf", ["gf 0", "bf 0"], "+MBas gf +MBacul 0"),
            ("+MBacul 0 30", ["bf 0", "aoffcbf 30"], "+MBacul 0 +MBas bf"),
            ("+MBsbct 64", ["aoffcbf 60"], "+MBsbct 64"),
        ):
            rows = self.rows(trace, "--flags", "node.flags", "--each", words)
            self.assertEqual([it["ran"] for it in rows], ran)
            self.assertEqual(rows[0]["flags"], f"+S 1 +MMscs 64 +MBsbct 512 +MBacul 60 {flags}")

    def test_joined_values(self):
        self.file("a.flags", "+MHasbf\n+MMscs2\n")
        trace = self.file("a.trace", one("alloc 1 100"))
        [row] = self.rows(trace, "--flags", "a.flags", "--all", "+MHacul0")
        self.assertRow(row, ran="bf 0", flags="+MHacul 0 +MHas bf +MMscs 2")
        for text, said in (("+MHasbf\n+MHas\nff\n", f"line 3: ff: bad value\n{NO_STRATEGY}"),
                           ("+MHasff\n", "line 1: +MHasff: unknown flag\n")):
            self.file("b.flags", text)
            self.assertTrue(self.compare(trace, "--flags", "b.flags")[2].startswith(f"compare: b.flags: {said}"))
        said = self.compare(trace, "--flags", "a.flags", "--reading", "run")[2]
        self.assertTrue(said.startswith("compare: a.flags: line 1: +MHasbf: unknown flag\n"), said)

    def test_lists_with_the_same_settings(self):
        """They are named below the text; each has its lines all the same."""
        words = ["--each", "+MHas gf bf", "--each", "+MHacul 0", "--each", "+MBsbct 1 2", "--columns", "list,ran"]
        trace = self.file("a.trace", one("alloc 1 100"))
        same = [f"The same settings, so one list: +MHas {it} +MBsbct 1; +MHas {it} +MBsbct 2." for it in ("gf", "bf")]
        text = self.compare(trace, *words)[1]
        self.assertEqual(len(text.partition("\n\n")[0].splitlines()), 5)
        self.assertEqual(text.partition("\n\n")[2].splitlines()[1:3], same)
        self.assertEqual(len(self.rows(trace, *words)), 4)
        # Of the types of this input one is set otherwise.
        both = self.file("b.trace", several("H B", ["H alloc 1 100"]))
        for traces in ([both], [trace, both]):
            self.assertNotIn("The same settings", self.compare(*traces, *words)[1])
        # Without these words the first of two lists says the same as the second.
        self.file("a.flags", "+MHasgf")
        self.file("b.flags", "+MHacul 0 +MHsbct 512")
        said = "The same settings, so one list: a.flags; b.flags.\n"
        self.assertIn(said, self.compare(trace, both, "--flags", "a.flags", "b.flags")[1])
        words = ["--flags", "b.flags", self.file("c.flags", "+MHas gf"), "--reading", "run"]
        self.assertNotIn("The same settings", self.compare(trace, *words)[1])

    def test_lists_that_ran_alike_have_the_same_figures(self):
        """Where `ran` is the same of two lists that differ in as and acul alone, so is all else."""
        with open(f"{EXAMPLES}/busy-days.trace", encoding="utf-8") as source:
            trace = source.read()
        rows = self.rows(self.file("a.trace", trace), "--each", f"+MHas {STRATEGIES}", "--each", "+MHacul 60 de 0",
                         "--each", "+MHlmbcs 512")
        figures = {}
        for it in rows:
            it = {name: value for name, value in it.items() if name not in ("list", "flags", "seconds")}
            self.assertEqual(figures.setdefault(it["ran"], it), it)
        # Six strategies with 60, 45 and 0, and three without migration alone: gf in the place of af, too.
        self.assertEqual(len(figures), 6 * 3 + 3)
        self.assertNotEqual(figures["gf 0"], {**figures["aoffcbf 60"], "ran": "gf 0"})

    def test_of_what_did_not_run_it_is_not_known(self):
        [good, bad] = self.rows(self.file("a.trace", one("idle")), "--each", "+MHas aoff ff", status=1)
        self.assertEqual((good["ran"], bad["ran"]), ("aoff 45", None))

    def test_notes_on_flags_stand_below_the_text(self):
        note = "{0} with acul 30 runs as aoffcbf, on a node too: for {1} add +MHacul 0.".format
        letter = "+MB flags change nothing here: the input is of type H."
        same = "The same settings, so one list: +MHas gf +MHacul 30 +MBsbct 1; +MHas bf +MHacul 30 +MBsbct 1."
        trace = self.file("a.trace", one("idle"))
        words = ["--each", "+MHas gf bf aoff", "--each", "+MHacul 30", "--each", "+MBsbct 1", "--columns", "ran"]
        status, text, said = self.compare(trace, *words)
        self.assertEqual((status, said), (0, ""))
        ran = "".join(f"{it}\n" for it in ["ran", *["aoffcbf 30"] * 2, "aoff 30"])
        self.assertEqual(text.partition("\n\n")[0] + "\n", ran)
        notes = [same, note("+MHas gf", "gf"), letter, note("+MHas bf", "bf")]
        self.assertEqual(text.partition("\n\n")[2].splitlines(), notes)
        as_run = self.compare(trace, *words[:2], "--reading", "run")[1]
        self.assertIn("\n+MHas gf with acul 60 runs as aoffcbf; a node would set acul 0: add +MHacul 0.\n", as_run)
        # Results are noted in the same way, and other forms have no notes.
        self.file("a.json", self.compare(trace, *words[:6], "--as", "json")[1])
        self.assertEqual(self.compare("--from", "a.json", "--columns", "ran"), (0, text, ""))
        self.assertEqual(self.compare(trace, *words, "--as", "csv")[1], ran)

    def test_notes_name_the_trace_where_there_are_several(self):
        traces = [self.file("a.trace", one("idle")), self.file("b.trace", one("idle").replace("type H", "type B"))]
        text = self.compare(*traces, "--each", "+MBas gf", "--each", "+MBacul 9", "--columns", "ran")[1]
        self.assertEqual(text.partition("\n\n")[2].splitlines(), [
            "a.trace: +MB flags change nothing here: the input is of type H.",
            "b.trace: +MBas gf with acul 9 runs as aoffcbf, on a node too: for gf add +MBacul 0."])

    def test_a_note_of_run_is_nothing_that_the_program_said(self):
        """Where ./run itself is the program, it has notes on standard error, at status 0."""
        self.file("noting", f'#!/bin/sh\n[ $# -eq 0 ] || echo "note: this" >&2\nexec {shlex.quote(program())} "$@"\n')
        os.chmod(f"{self.room}/noting", 0o755)
        row = self.row(one("idle"), "--program", "./noting", "--each", "+MHas gf")
        self.assertRow(row, said=None, ran="gf 0")

    # The text

    def table(self, *words):
        """The cells of the lines of a text, its heads joined, and what stands below."""
        status, text, said = self.compare(*words)
        self.assertEqual((status, said), (0, ""))
        head, _, below = text.partition("\n\n")
        lines = head.rstrip("\n").split("\n")
        return [re.split(" {2,}", it.strip()) for it in lines], below.splitlines()

    def test_few_columns_and_nearly_all(self):
        trace = self.file("a.trace", one("alloc 1 524281", "free 1", "alloc 2 100"))
        [names, seconds, row], _ = self.table(trace, *KEPT_APART)
        self.assertEqual(names, "list ran mb percent mb percent carriers created failed".split())
        self.assertEqual(seconds, "most most end end end".split())
        self.assertEqual(row, "+MHacul 0|gf 0|0.5|100|0.2|100|1|2|0".split("|"))
        wide, _ = self.table(trace, *KEPT_APART, "--wide")
        self.assertIn("moved", wide[0])
        self.assertNotIn("percent", wide[0])

    def test_the_most_is_left_out_where_it_is_not_known(self):
        trace = self.file("a.trace", two(["alloc 1 100"], ["alloc 2 100"], "1*9 2*9"))
        [names, seconds, _], _ = self.table(trace, "--all", "+S 2")
        self.assertEqual((names[2:5], seconds), (["mb", "percent", "carriers"], ["end", "end", "end"]))

    def test_the_first_list_stands_first_and_percent_are_of_it(self):
        """A block that is left, in a multiblock carrier of 2000, 256 or 512 kB, or in one of its own, of 129 pages."""
        trace = self.file("a.trace", one("alloc 1 524280", "alloc 2 100"))
        lines, below = self.table(trace, "--try", "+MHsmbcs 2000", "--try", "+MHsmbcs 256", "--try", "+MHsbct 511",
                                  "--columns", "list,mb_end,percent_end", "--all", "+MHacul 0 +MHlmbcs 1 +MHsmbcs 1000")
        rows = self.rows(trace, "--try", "+MHsmbcs 2000", "--try", "+MHsmbcs 256", "--try", "+MHsbct 511",
                         "--all", "+MHacul 0 +MHlmbcs 1 +MHsmbcs 1000")
        base = rows[0]["mb_end"]
        wanted = [[it["list"], f"{it['mb_end']:.1f}", str(round(100 * it["mb_end"] / base))] for it in rows]
        self.assertEqual(lines[2], wanted[0])
        self.assertEqual(lines[3:], sorted(wanted[1:], key=lambda it: float(it[1])))
        self.assertEqual([it["percent_end"] for it in rows], [int(it[2]) for it in wanted])
        self.assertEqual((rows[0]["list"], below), ("(base)", []))

    def test_a_percent_of_what_is_not_known_is_not_known(self):
        table = [{"list": it[0], "status": 0, "mb_most": it[1], "mb_end": it[2]} for it in (
            ("a", "<=9", 0.0), ("b", 8, 1.0))]
        for it in self.rows("--from", self.file("a.json", json.dumps(table))):
            self.assertRow(it, percent_most=None, percent_end=None)

    # Alternatives

    def test_alternatives_are_lists_of_their_own(self):
        self.file("node.flags", "+MHacul\n0\n")
        words = [self.file("a.trace", one("alloc 1 2000")), "--flags", "node.flags", "--try", "+MHsbct 1",
                 "--try", "+MHsbct 1 +MHas bf"]
        rows = self.rows(*words)
        self.assertEqual([(it["list"], it["flags"], it["units_end"]) for it in rows], [
            ("node.flags", "+MHacul 0 +MHas gf", 32768),
            ("node.flags +MHsbct 1", "+MHacul 0 +MHsbct 1 +MHas gf", 512),
            ("node.flags +MHsbct 1 +MHas bf", "+MHacul 0 +MHsbct 1 +MHas bf", 512)])
        # As text what all share stands below, and the first one is named.
        lines, below = self.table(*words, "--columns", "list")
        self.assertEqual([*map(" ".join, lines[1:])], ["node.flags", "+MHsbct 1", "+MHsbct 1 +MHas bf"])
        self.assertEqual(below, ["All lists have node.flags."])

    def test_alternatives_beside_a_grid_and_of_each_file(self):
        for name in "ab":
            self.file(f"{name}.flags", "")
        rows = self.rows(self.file("a.trace", one("idle")), "--flags", "a.flags", "b.flags", "--try", "+MHsbct 1",
                         "--each", "+MHas bf aoff")
        ends = ["", " +MHsbct 1", " +MHas bf", " +MHas aoff"]
        self.assertEqual([it["list"] for it in rows], [f"{name}.flags{it}" for name in "ab" for it in ends])
        self.assertEqual(self.rows("a.trace", "--try", "+MHsbct 1")[0]["list"], "(no flags)")

    def test_a_refused_alternative_names_itself(self):
        said = self.compare(self.file("a.trace", one()), "--try", "+MHsbct 1 +MHas ff")[2]
        self.assertEqual(said, f"compare: --try '+MHsbct 1 +MHas ff': ff: bad value\n{NO_STRATEGY}")

    # How many carriers were created

    def test_created(self):
        """Two of 129 pages with the same number, and one that stays; a main carrier is one, too."""
        operations = ["alloc 1 524281", "free 1", "alloc 2 524281", "free 2", "alloc 3 100", "alloc 4 100", "free 3"]
        self.assertRow(self.row(one(*operations), *KEPT_APART), created=3, carriers_end=1)
        main = self.row(one("alloc 1 524281", "free 1", "alloc 2 100"), *KEPT_APART, "--each", "+MHmmbcs 500")
        self.assertRow(main, created=2, carriers_end=1)
        operations = ["alloc 1 2000", "realloc 1 2 90000", "realloc 2 3 90008"]
        moved = self.row(one(*operations), *KEPT_APART, "--each", "+MHsbct 1")
        self.assertRow(moved, carriers_end=1, created=moved["moved"] + 1)

    def test_created_of_recorded_operations(self):
        """The second scheduler's free waits until the first begins an operation: before its `alloc`, so that this
        creates a carrier, or not before the `take`, in which the carrier goes to nobody."""
        begin = ["type H", "1 alloc 1 2000", "1 give 1 2", "2 take 1 1", "2 free 1"]
        for lines, count in ((["1 alloc 2 2000"], 2), (["2 alloc 2 2000", "1 idle", "1 alloc 3 2000"], 3), ([], 1)):
            text = "\n".join([*begin, *lines, "end", ""])
            [row] = self.recorded(text, "--all", "+S 2", *KEPT_APART, "--each", "+MHsbct 1")
            self.assertRow(row, created=count, carriers_end=len(lines) and count - 1)

    def test_created_counts_each_row_of_the_steps(self):
        """Where carriers migrate each one is created by a step."""
        for flags in ("+MHsbct 16 +MHacul 90", "+MHsbct 64", "+MHacul 60 +MHas ageffcbf"):
            ran = subprocess.run([program(), "steps", *flags.split()], stdin=open(f"{EXAMPLES}/busy-days.trace", "rb"),
                                 capture_output=True, text=True, check=True)
            count = sum(it.split()[3:4] == ["create"] for it in ran.stdout.splitlines())
            [row] = self.rows(f"{EXAMPLES}/busy-days.trace", "--all", flags)
            self.assertRow(row, created=count)

    def test_created_is_a_bound_where_the_order_is_not_known(self):
        row = self.row(two(["alloc 1 100"], ["alloc 2 100"], "1*9 2*9"), "--each", "+S 2", *KEPT_APART)
        self.assertRow(row, created=">=2")
        self.assertIsNone(self.row("type H\ngenerate 7 100\nend\n", *KEPT_APART)["created"])

    # Memory, blocks and gaps

    def test_megabytes(self):
        """A singleblock carrier of 129 pages comes and goes, of which the block's 65538 units are the most; then there
        is one of 64 pages."""
        row = self.row(one("alloc 1 524281", "free 1", "alloc 2 100"), *KEPT_APART)
        self.assertRow(row, mb_end=0.2, mb_most=0.5, units_most=129 * 512, blocks_single=0, mb_single=0.0)

    def test_blocks_and_gaps(self):
        """Two blocks of 126 and 65538 units: 262656 bytes on average. The gap is what the first one leaves."""
        row = self.row(one("alloc 1 1000", "alloc 2 524281", "alloc 3 100", "free 3"), *KEPT_APART)
        self.assertRow(row, blocks_end=2, block_bytes=(126 + 65538) * 8 // 2, blocks_single=1, mb_single=0.5)
        self.assertRow(row, gap_kb=(32768 - 8 - 126) * 8 // 1024, utilisation_each=f"{row['utilisation_end']}")

    def test_the_use_of_each_instance(self):
        row = self.row(two(["alloc 1 100000"], ["idle"]), "--each", "+S 2", *KEPT_APART)
        # 12502 units of 32768.
        self.assertRow(row, utilisation_each="38.1/-")

    def test_after_the_first_list_a_text_is_sorted_by_memory_and_what_failed_comes_last(self):
        trace = self.file("a.trace", one("alloc 1 524280", "alloc 2 100"))
        words = ["--each", "+MHsmbcs 1000 2000 256 512", "--all", "+MHacul 0", "--columns", "list,mb_most"]
        text = self.compare(trace, *words)[1]
        self.assertEqual([it.split()[1] for it in text.splitlines()[2:6]], ["1000", "256", "512", "2000"])
        grid = ["--each", "+MMscs 4 1 2", "--columns", "list,failed"]
        text = self.compare(self.file("b.trace", one("alloc 1 524280", "alloc 2 524280")), *grid, "--", "+MHacul", "0")[1]
        self.assertEqual([it.split()[1:] for it in text.splitlines()[1:4]], [["4", "0"], ["2", "0"], ["1", "1"]])
        self.assertIn("In 1 of 3 lines allocations failed", text)
        self.assertIn("Failed for want of pages", text)

    def test_what_all_lists_share_stands_below(self):
        words = ["--each", "+MHacul 0", "--each", "+MHas bf gf", "--columns", "list"]
        text = self.compare(self.file("a.trace", one("idle")), *words, "--", "+MMscs", "2")[1]
        self.assertEqual(text, "list\n+MHas bf\n+MHas gf\n\nAll lists have +MHacul 0.\n")
        rows = self.rows("a.trace", *words[:4])
        self.assertEqual([it["list"] for it in rows], ["+MHacul 0 +MHas bf", "+MHacul 0 +MHas gf"])

    def test_flags_of_all_lists_come_first(self):
        trace = self.file("a.trace", one("alloc 1 100"))
        [row] = self.rows(trace, "--each", "+MHsmbcs 8", "--all", "+MHsmbcs 16 +MHacul 0")
        self.assertRow(row, list="+MHsmbcs 8", flags="+MHsmbcs 16 +MHacul 0 +MHsmbcs 8 +MHas gf", units_end=2 * 512)
        said = self.compare(trace, "--", "+MHas", "ff")[2]
        self.assertEqual(said, f"compare: the flags of all lists: ff: bad value\n{NO_STRATEGY}")

    def test_lists_that_differ_in_strategy_with_several_schedulers(self):
        trace, words = self.file("a.trace", two(["idle"], ["idle"])), ["--all", "+S 2", "--each"]
        self.assertIn("differences", self.compare(trace, *words, "+MHas bf gf")[1])
        self.assertNotIn("differences", self.compare(trace, *words, "+MHsbct 1 2")[1])
        self.assertNotIn("differences", self.compare(self.file("b.trace", one()), "--each", "+MHas bf gf")[1])

    def test_marks(self):
        trace = self.file("a.trace", one("alloc 1 300000", "alloc 2 300000", "# mark peak", "free 1", "# mark half", "free 2"))
        rows = self.rows(trace, "--marks", *KEPT_APART, "--each", "+MHsbct 1")
        # A carrier of 74 pages for each block.
        self.assertEqual([(it["mark"], it["carriers_end"], it["units_end"]) for it in rows], [
            ("peak", 2, 2 * 74 * 512), ("half", 1, 74 * 512), ("end", 0, 0)])
        sections = two(["alloc 1 100", "# mark one"], ["alloc 2 100", "# mark two"])
        rows = self.rows(self.file("b.trace", sections), "--marks", "--each", "+S 2", *KEPT_APART)
        self.assertEqual([(it["mark"], it["carriers_end"]) for it in rows], [("one", 1), ("two", 2), ("end", 2)])

    def test_a_run_that_takes_too_long(self):
        """Without its end it would have the status 0 after all."""
        self.file("slow", "#!/bin/sh\n" + '[ "${2:-}" = 0 ] && sleep 600\n' + f'exec {shlex.quote(program())} "$@"\n')
        os.chmod(f"{self.room}/slow", 0o755)
        words = ["--program", "./slow", "--seconds", "3", *KEPT_APART, "--as", "json"]
        status, text, said = self.compare(self.file("a.trace", one()), *words)
        self.assertEqual((status, said), (1, "compare: a.trace: +MHacul 0: it was ended after 3 seconds\n"))
        self.assertEqual(json.loads(text)[0]["status"], None)

    # Recorded operations

    def test_recorded_operations(self):
        """Two schedulers: the second one's free goes to the queue of the first, whose next operation releases it."""
        lines = ["type H", "1 alloc 1 1000", "2 alloc 2 100", "1 give 1 2", "2 take 1 1", "2 free 1", "# mark given",
                 "1 idle", "# mark over", "end", ""]
        rows = self.recorded("\n".join(lines), "--marks", "--all", "+S 2", *KEPT_APART)
        self.assertEqual([(it["mark"], it["carriers_end"], it["queued"]) for it in rows],
                         [("given", 2, 126), ("over", 1, 0), ("end", 1, 0)])

    def test_recorded_operations_of_several_schedulers_are_exact(self):
        """A carrier of 74 pages each. The first one's block waits in the queue while the second is there, and goes
        before the third comes."""
        lines = ["type H", "1 alloc 1 300000", "1 give 1 2", "2 take 1 1", "2 free 1", "2 alloc 2 300000",
                 "1 alloc 3 300000", "1 free 3", "end", ""]
        [row] = self.recorded("\n".join(lines), *KEPT_APART, "--each", "+MHsbct 1")
        self.assertRow(row, carriers_most=2, units_most=2 * 74 * 512, mb_most=0.6, units_end=74 * 512, abandoned=0)

    def test_recorded_carriers_are_abandoned_fetched_and_returned(self):
        """As in 'returned' above; here the owner has an operation left, and deallocates what came back."""
        lines = ["type H", "1 alloc 1 1000", "1 alloc 2 3000", "1 free 2", "2 alloc 3 1000", "1 give 1 2", "2 take 1 1",
                 "2 free 1", "2 free 3", "# mark sent", "1 idle", "end", ""]
        rows = self.recorded("\n".join(lines), "--marks", "--each", "+MHsmbcs 4", "--each", "+MHlmbcs 4")
        for row, count in zip(rows, (1, 0)):
            self.assertRow(row, abandoned=2, fetched=1, returned=1, carriers_most=1, carriers_end=count)

    def test_which_carriers_were_abandoned_is_told_by_their_figures(self):
        """Scheduler 2 frees a block of each of two carriers of one page. When scheduler 1 takes its queue, the one with
        254 of 512 units is abandoned, and that with 378 is not."""
        lines = ["type H", "1 alloc 1 1000", "1 alloc 2 1000", "1 alloc 3 2000", "1 alloc 4 1000", "1 alloc 5 1000",
                 "1 alloc 6 1000", "1 alloc 7 1000"]
        for name in 7, 3:
            lines += [f"1 give {name} 2", f"2 take {name} 1", f"2 free {name}"]
        lines += ["1 idle", "# mark taken", "2 alloc 8 2000", "end", ""]
        pages = ["--each", "+MHsmbcs 4", "--each", "+MHlmbcs 4", "--each", "+MHacul 65"]
        row, last = self.recorded("\n".join(lines), "--marks", *pages)
        self.assertRow(row, abandoned=1, fetched=0, utilisation_each="73.8/-", gap_kb=1)
        self.assertRow(last, abandoned=1, fetched=1, carriers_end=2, carriers_most=2)

    def test_a_moment_is_what_a_run_up_to_there_ends_with_where_no_queue_has_a_block(self):
        pick, lines, mine, names = random.Random(1), ["type H"], {1: [], 2: [], 3: []}, itertools.count(1)
        for at in range(12):
            for _ in range(15):
                me, you = pick.sample(range(1, 4), 2)
                if mine[me] and pick.random() < 0.4:
                    name = mine[me].pop(pick.randrange(len(mine[me])))
                    lines += [f"{me} give {name} {you}", f"{you} take {name} 1", f"{you} free {name}"]
                else:
                    mine[me].append(next(names))
                    lines.append(f"{me} alloc {mine[me][-1]} {pick.choice((100, 1000, 4000, 20000))}")
            lines += ["1 info", "2 info", "3 info", "1 info", "2 info", "3 info", f"# mark {at}"]
        flags = ["--each", "+MHsmbcs 64", "--each", "+MHlmbcs 64", "--each", "+MHsbct 16", "--each", "+MHacul 80"]
        rows = self.recorded("\n".join([*lines, "end", ""]), "--marks", *flags)[:-1]
        places = [at for at, it in enumerate(lines) if it[0] == "#"]
        files = [self.file(f"{at}.input", "\n".join([*lines[:at], "end", ""])) for at in places]
        self.assertGreater(rows[-1]["fetched"], 0)
        for row, front in zip(rows, self.rows(*files, *flags)):
            self.assertRow(row, **{it: front[it] for it in front.keys() - {"trace", "mark", "seconds"}})

    def test_recorded_operations_of_one_scheduler_are_exact(self):
        lines = ["type H", "1 alloc 1 300000", "1 free 1", "1 alloc 2 100", "end", ""]
        [row] = self.recorded("\n".join(lines), *KEPT_APART, "--each", "+MHsbct 1")
        self.assertRow(row, carriers_most=1, units_most=74 * 512, units_end=32768)

    def test_recorded_operations_have_as_many_schedulers_as_they_need(self):
        """With two schedulers each has 128 pages, so that a block of 147 has no place, up to the first mark, too."""
        text = "type H\n1 alloc 1 600000\n# mark one\n2 alloc 2 100\nend\n"
        rows = self.recorded(text, "--marks", "--each", "+MMscs 1")
        self.assertEqual([(it["flags"], it["failed"]) for it in rows], [("+MMscs 1 +S 2 +MHacul 45", 1)] * 2)
        [row] = self.recorded(text, "--each", "+MMscs 1", "--each", "+S 64")
        self.assertEqual((row["flags"], row["failed"]), ("+MMscs 1 +S 64 +MHacul 45", 1))
        name = self.file("bad.input", "type H\n1 idle\n65 idle\nend\n")
        status, _, said = self.compare(name)
        wanted = f"compare: {name}: line 3: bad scheduler\ncompare: expected: +S is 1, so schedulers are 1 to 1\n"
        self.assertEqual((status, said), (1, wanted))
        status, _, said = self.compare(self.file("b.input", "type H\n2 idle\nend\n"), "--all", "+MHas")
        self.assertEqual((status, said.split("\n")[0]), (1, "compare: the flags of all lists: +MHas: value missing"))

    RULED = "1 alloc 1 200000\n1 alloc 2 200000\n1 free 1\nend\n"

    def test_recorded_operations_by_rules_of_a_node(self):
        """The second carrier has 256 pages, and not 186; what there was at most is told by a copy that runs so, too."""
        for line, rules, pages in (("", "none", 186), ("rules powers\n", "powers", 256),
                                   ("rules  counter powers falling\n", "counter powers falling", 256)):
            [row] = self.recorded(f"# a\ntype H\n{line}{self.RULED}", *KEPT_APART)
            self.assertRow(row, rules=rules, carriers_most=2, units_most=(64 + pages) * 512, units_end=pages * 512)
        rows = self.recorded("type H\nrules counter\n1 alloc 1 100\n1 alloc 2 100\n# mark two\n1 free 1\nend\n", "--marks")
        self.assertEqual([(it["mark"], it["rules"], it["abandoned"]) for it in rows],
                         [("two", "counter", 0), ("end", "counter", 0)])
        self.assertIsNone(self.row(one("alloc 1 100"), *KEPT_APART)["rules"])

    def test_the_rules_stand_below_the_table_or_in_a_column(self):
        said = "All ran by the rules powers of a node.\n"
        ruled, plain = self.file("a.input", f"type H\nrules powers\n{self.RULED}"), self.file("b.input", f"type H\n{self.RULED}")
        other = self.file("c.trace", one("alloc 1 100"))
        for names, is_below, is_column in (([ruled], True, False), ([plain], False, False), ([ruled, plain], False, True),
                                           ([ruled, other], False, True), ([plain, other], False, False)):
            status, text, _ = self.compare(*names, *KEPT_APART)
            head = text.splitlines()[0].split()
            self.assertEqual((status, said in text, "rules" in head), (0, is_below, is_column), names)

    def recorded(self, text, *words):
        probe = subprocess.run([program(), "recorded"], input="type H\nend\n", capture_output=True, text=True, check=False)
        if probe.returncode:
            self.skipTest("this program has no recorded operations")
        return self.rows(self.file("a.input", text), *words)

    PEAKS = ["alloc 1 300000", "alloc 2 300000", "# mark peak-1", "free 1", "# mark valley-1", "alloc 3 400000",
             "alloc 4 300000", "# mark peak-2", "free 2", "free 3", "# mark valley-2", "free 4"]

    def test_peaks_and_valleys_are_taken_without_a_word(self):
        """A line for each list all the same. Carriers of 74, 98 pages: 2 and 1 of 74, then 98 and 2 of 74, then one."""
        trace, words = self.file("a.trace", one(*self.PEAKS)), [*KEPT_APART, "--each", "+MHsbct 1"]
        [row] = self.rows(trace, *words)
        self.assertRow(row, mark=None, mb_peak=1.0, mb_valley=0.3, mb_end=0.0, created=4, percent_peak=100)
        [names, seconds, cells], _ = self.table(trace, *words)
        self.assertEqual(names[2:6], "mb percent mb percent".split())
        self.assertEqual(seconds[:4], "peak peak valley valley".split())
        self.assertEqual(cells[2:6], "1.0 100 0.3 100".split())
        rows = self.rows(trace, *words, "--marks")
        self.assertEqual([(it["mark"], it["mb_end"], it["mb_peak"]) for it in rows], [
            ("peak-1", 0.6, None), ("valley-1", 0.3, None), ("peak-2", 1.0, None), ("valley-2", 0.3, None),
            ("end", 0.0, None)])
        # Results with these lines make the same table.
        self.file("a.json", json.dumps(rows))
        self.assertRow(self.rows("--from", "a.json")[0], mark=None, mb_peak=1.0, mb_valley=0.3)
        # Other marks are taken where --marks asks for them.
        [row] = self.rows(self.file("b.trace", one("alloc 1 100", "# mark noon", "free 1")), *words)
        self.assertRow(row, mark=None, mb_peak=None, mb_valley=None)

    def test_commands_have_the_marks_and_the_seconds(self):
        trace = self.file("a.trace", one(*self.PEAKS))
        lines = [self.compare(trace, "--print-commands", *it)[1] for it in ([], ["--seconds", "9"])]
        self.assertIn("--marks", lines[0])
        self.assertEqual(["--seconds 9 " in it for it in lines], [False, True])
        self.assertNotIn("--marks", self.compare(self.file("b.trace", one("idle")), "--print-commands")[1])

    # Several allocators of one node

    def both(self, rules="rules powers counter\n"):
        """Recorded inputs of B and E with two peaks; that of B is the higher one at the second, of E at the first."""
        probe = subprocess.run([program(), "recorded"], input="type H\nend\n", capture_output=True, text=True, check=False)
        if probe.returncode:
            self.skipTest("this program has no recorded operations")
        made = []
        for letter, first, second in (("B", 300000, 700000), ("E", 900000, 100000)):
            lines = [f"alloc 1 {first}", "alloc 2 300000", "# mark peak-1", "free 1", "# mark valley-1",
                     f"alloc 3 {second}", "# mark peak-2", "free 3"]
            text = "\n".join(it if it.startswith("#") else f"1 {it}" for it in lines)
            made.append(self.file(f"{letter.lower()}.input", f"type {letter}\n{rules}{text}\nend\n"))
        return made

    TIGHT = ["--all", "+Muacul 0", "--try", "+MBsbct 64", "--try", "+MEsbct 64"]

    def test_sums_of_several_allocators(self):
        """Each sum is that of the lines of the list, at a mark of the same name; what was at most need not have been at
        once."""
        files = self.both()
        rows = self.rows(*files, *self.TIGHT, "--sum", "--marks")
        self.assertEqual(len(rows), 3 * 3 * 4)
        for it in rows:
            if it["type"] == "B+E":
                of_both = [row for row in rows if (row["list"], row["mark"]) == (it["list"], it["mark"])]
                self.assertEqual([row["type"] for row in of_both], ["B+E", "B", "E"])
                parts = of_both[1:]
                for name in ("units_end", "carriers_end", "created", "failed", "blocks_end"):
                    self.assertEqual(it[name], sum(row[name] for row in parts), name)
                self.assertRow(it, trace="(sum)", mb_end=round(it["units_end"] / 2**17, 1), utilisation_end=None)
                self.assertEqual(it["carriers_most"], f"<={sum(row['carriers_most'] for row in parts)}")

    def test_the_peak_of_a_sum_is_at_one_moment(self):
        files = self.both()
        marked = [it for it in self.rows(*files, *self.TIGHT, "--sum", "--marks") if it["type"] == "B+E"]
        for row in (it for it in self.rows(*files, *self.TIGHT, "--sum") if it["type"] == "B+E"):
            mine = {it["mark"]: it["mb_end"] for it in marked if it["list"] == row["list"]}
            self.assertRow(row, mb_peak=max(mine["peak-1"], mine["peak-2"]), mb_valley=mine["valley-1"])
        # Of lines without marks it is a bound: each may be of another mark.
        single = self.rows(*files, *self.TIGHT)
        [row] = self.rows("--from", self.file("a.json", json.dumps(single[:2])), "--sum")[:1]
        self.assertEqual(row["mb_peak"], f"<={round(single[0]['mb_peak'] + single[1]['mb_peak'], 1)}")

    def test_sums_of_bounds(self):
        """Of one kind they are one of that kind; without units the megabytes are added."""
        first = {"list": "a", "trace": "b", "type": "B", "status": 0, "created": ">=900000", "failed": 1,
                 "carriers_most": "<=4", "mb_most": 1.5, "mb_end": 1.0, "abandoned": "<=1", "fetched": None}
        second = {**first, "trace": "e", "type": "E", "created": 100001, "mb_most": 2.0, "abandoned": ">=1"}
        row = self.rows("--from", self.file("a.json", json.dumps([first, second])), "--sum")[0]
        self.assertRow(row, trace="(sum)", type="B+E", created=">=1000001", failed=2, carriers_most="<=8")
        self.assertRow(row, mb_most="<=3.5", mb_end=2.0, abandoned=None, fetched=None)
        # Where one alone has any, it is what all have at most.
        second |= {"carriers_most": 0, "mb_most": 0.0}
        row = self.rows("--from", self.file("a.json", json.dumps([{**first, "carriers_most": 4}, second])), "--sum")[0]
        self.assertRow(row, carriers_most=4, mb_most=1.5)

    def test_where_the_text_has_sums_without_a_word(self):
        files = self.both()
        types = self.file("types.trace", several("B E", ["B alloc 1 100", "E alloc 1 100"]))
        plain = [self.file(f"{it}.trace", one("idle").replace("type H", f"type {it}")) for it in "BE"]
        other = shutil.copy(f"{self.room}/{files[0]}", f"{self.room}/other.input")
        for names, is_summed in ((files, True), ([types], True), (files[:1], False), (plain, False),
                                 ([*files, other], False)):
            text = self.compare(*names, "--all", "+Muacul 0")[1]
            self.assertEqual("B+E" in text, is_summed, names)
        self.assertEqual(self.rows(types, "--sum")[0]["type"], "B+E")
        self.assertEqual([it["type"] for it in self.rows(types)], ["B", "E"])

    def test_flags_of_the_other_allocator_are_no_mistake(self):
        below = self.table(*self.both(), *self.TIGHT)[1]
        self.assertEqual([it for it in below if "change nothing" in it], [])
        below = self.table(*self.both(), *self.TIGHT, "--all", "+MHsbct 1")[1]
        self.assertEqual(len([it for it in below if it.startswith("+MH flags change nothing here")]), 1)

    def test_a_sum_that_lacks_a_part_is_not_there(self):
        files = self.both()
        others = [self.file("a.trace", one("idle")), self.file("b.trace", one("frob"))]
        for names in ([files[0], "none", files[1]], others):
            rows = self.rows(*names, "--all", "+Muacul 0", "--sum", status=1)
            self.assertEqual([*{it["trace"]: it for it in rows}], names)

    def test_a_node_with_a_super_carrier(self):
        for rules, is_told in (("rules powers counter\n", True), ("rules counter powers falling\n", False),
                               ("rules powers\n", False), ("", False)):
            text = self.compare(*self.both(rules)[:1], "--all", "+Muacul 0")[1]
            self.assertEqual("super carrier" in text, is_told, rules)

    # Several allocator types

    def test_each_type_has_a_line(self):
        lists = ["own-carriers.scs1.flags", "own-carriers.scs2.flags"]
        rows = self.rows("own-carriers.trace", "--flags", *lists, folder=EXAMPLES)
        self.assertEqual([it["type"] for it in rows], ["H", "B", "E"] * 2)
        # Carriers of 123 pages for two blocks of 62502 units, and none for the third; or of 123, 186 and 123 pages.
        self.assertEqual([(it["carriers_most"], it["units_most"], it["failed_space"]) for it in rows[::3]], [
            (2, 2 * 123 * 512, 1), (3, (123 + 186 + 123) * 512, 0)])
        for it in rows[1:3] + rows[4:]:
            self.assertRow(it, carriers_end=1, carriers_most=1, units_most=32768, failed=0)

    def test_a_line_is_that_of_the_type_alone(self):
        """Of a trace of its lines. In that of B a carrier is abandoned, so that the replay needs a further run."""
        second = ["take 1 1", "alloc 3 1000", "free 1", "free 3"]
        sections = {
            "H": (["alloc 1 1000", "alloc 2 3000", "give 1 2"], second),
            "B": (["alloc 1 1000", "alloc 2 3000", "free 2", "give 1 2"], second),
        }
        mixed = [[f"{letter} {it}" for letter, parts in sections.items() for it in parts[at]] for at in range(2)]
        words = [it for letter in "HB" for it in ("--each", f"+M{letter}smbcs 4", "--each", f"+M{letter}lmbcs 4")]
        rows = self.rows(self.file("both.trace", several("H B", *mixed)), "--each", "+S 2", *words)
        for row, (letter, parts) in zip(rows, sections.items()):
            alone = self.row(two(*parts).replace("type H", f"type {letter}"), "--each", "+S 2", *words)
            self.assertRow(row, **{name: it for name, it in alone.items() if name not in ("trace", "flags", "seconds")})
        self.assertEqual([(it["type"], it["returned"]) for it in rows], [("H", 0), ("B", 1)])

    def test_types_by_turns(self):
        [heap, binary] = self.rows("two-queues.trace", "--flags", "two-queues.flags", folder=EXAMPLES)
        # Blocks of 626 and 40 units, of one scheduler alone; one of 26, since the one of 126 that was queued is released.
        self.assertRow(heap, carriers_end=1, utilisation_end=2.0, queued=0, utilisation_most=2.0)
        self.assertRow(binary, carriers_end=1, utilisation_end=0.0, queued=0, utilisation_most=None)

    def test_the_column_of_types_stands_in_the_text_where_there_are_several(self):
        inputs = [self.file("a.trace", several("H B", ["H idle"])), self.file("b.trace", one("idle"))]
        heads = [self.compare(it)[1].partition("\n")[0].split() for it in inputs]
        self.assertEqual([it for it in heads[0] if it not in heads[1]], ["type"])
        words = [self.file("c.trace", one("idle").replace("type H", "type E")), "b.trace", "--columns", "type"]
        self.assertEqual(self.compare(*words)[1], "type\nE\nH\n")

    def test_the_word_of_types_before_a_list(self):
        """It counts for nothing, and the program counts its words after it."""
        self.file("bad.flags", "types\n+MHas\nff\n")
        for trace in (several("H B", ["H idle"]), one("idle")):
            ran = self.compare(self.file("a.trace", trace), "--flags", "bad.flags")
            self.assertEqual(ran[::2], (1, f"compare: bad.flags: line 3: ff: bad value\n{NO_STRATEGY}"))

    def test_refused_types(self):
        trace, columns = self.file("a.trace", several("H B", ["H alloc 1 1", "E idle"])), "type,status"
        status, text, said = self.compare(trace, "--columns", columns)
        self.assertEqual((status, text), (1, "type  status\n-          2\n"))
        self.assertTrue(said.startswith("compare: a.trace: line 4: syntax\ncompare: expected: "), said)

    def test_at_most_is_the_greatest_of_all_fronts(self):
        """The program's own totals on each front of an example, beside the replay."""
        for name in ("mixed-sizes.sbct32", "main-carrier.with", "good-fit.depth1"):
            file = f"{EXAMPLES}/{name.partition('.')[0]}.trace"
            with open(file, encoding="utf-8") as source:
                lines = [it for it in source.read().split("\n") if it and not it.startswith("#")]
            head, operations = lines[:2], lines[2 : lines.index("schedule")]
            totals = [self.totals(name, [*head, *operations[:count]]) for count in range(len(operations) + 1)]
            [row] = self.rows(file, "--flags", f"{EXAMPLES}/{name}.flags")
            self.assertRow(row, carriers_most=max(it["carriers"] for it in totals))
            self.assertRow(row, units_most=max(it["units"] for it in totals))
            tenths = max(1000 * it["live"] // it["units"] for it in totals if it["units"])
            self.assertRow(row, utilisation_most=tenths / 10)

    def totals(self, name, lines):
        text = "\n".join([*lines, "schedule", "end", ""])
        words = [program(), *flags_of(f"{EXAMPLES}/{name}.flags")]
        ran = subprocess.run(words, input=text, capture_output=True, text=True, check=True)
        last = ran.stdout.split("\n")[-2].split()
        return {word: int(number) for word, number in zip(last[1::2], last[2::2])}

    def test_every_example_of_one_scheduler_is_exact(self):
        checked = 0
        for trace in sorted(it for it in os.listdir(EXAMPLES) if it.endswith(".trace")):
            name = trace.removesuffix(".trace")
            files = [it for it in os.listdir(EXAMPLES) if it.partition(".")[0] == name]
            lists = [it for it in files if it.endswith(".flags")]
            with open(f"{EXAMPLES}/{trace}", encoding="utf-8") as source:
                text = source.read()
            of_others = "\nsuper\n" in f"\n{text}" or "\nread " in text
            ends_otherwise = any(it.endswith(".status") for it in files)
            if not lists or text.count("\nscheduler ") != 1 or of_others or ends_otherwise:
                continue
            for row in self.rows(trace, "--flags", *lists, folder=EXAMPLES):
                for column in ("carriers_most", "units_most", "abandoned", "fetched", "returned"):
                    self.assertIsInstance(row[column], int, f"{row['list']}: {column}")
                checked += 1
        self.assertGreater(checked, 50)

    def test_the_example_of_twelve_lists(self):
        """Its figures were counted by awk, from runs with an `info` after each operation."""
        with open(f"{EXAMPLES}/busy-days.command", encoding="utf-8") as source:
            line = shlex.join([sys.executable, "-B"]) + " " + source.read().strip() + " " + shlex.join(PROGRAM)
        ran = subprocess.run(["sh", "-c", line], cwd=EXAMPLES, capture_output=True, text=True, check=False)
        with open(f"{EXAMPLES}/busy-days.table", encoding="utf-8") as source:
            self.assertEqual((ran.returncode, ran.stdout, ran.stderr), (0, source.read(), ""))

    # Bad input

    def test_an_input_of_one_shared_region_is_refused(self):
        """It has no carriers to compare."""
        status, _, said = self.compare(self.file("a.trace", "super\nscheduler 1\ntake 1 1\nend\n"), *KEPT_APART)
        wanted = "compare: a.trace: line 1: syntax\ncompare: expected: `type X` first, of B D E H L R S T\n"
        self.assertEqual((status, said), (1, wanted))

    def test_a_refused_trace_is_a_line_of_the_table(self):
        good, bad = self.file("good.trace", one("alloc 1 100")), self.file("bad.trace", one("frob 1"))
        status, text, said = self.compare(bad, good, "--each", "+MHas bf gf", *KEPT_APART, "--as", "json")
        self.assertEqual((status, said.splitlines()[0]), (1, "compare: bad.trace: line 3: syntax"))
        self.assertEqual([(it["trace"], it["status"], it["carriers_end"]) for it in json.loads(text)], [
            ("bad.trace", 2, None), ("good.trace", 0, 1), ("bad.trace", 2, None), ("good.trace", 0, 1)])

    def test_a_trace_without_an_end(self):
        said = "compare: a.trace: no end line\ncompare: expected: `end` as the last line\n"
        self.assertEqual(self.compare(self.file("a.trace", "type H\n"))[::2], (1, said))

    def test_refused_flags_name_file_and_line(self):
        self.file("bad.flags", "+MMscs\n1\n+MHas\nff\n")
        words = [self.file("a.trace", one("alloc 1 100")), "--as", "json", "--flags", "bad.flags"]
        status, text, said = self.compare(*words, self.file("good.flags", "+MHacul 0"))
        self.assertEqual((status, said), (1, f"compare: bad.flags: line 4: ff: bad value\n{NO_STRATEGY}"))
        self.assertEqual([(it["list"], it["status"]) for it in json.loads(text)], [("bad.flags", 1), ("good.flags", 0)])

    def test_refused_flags_of_a_grid(self):
        words = ["--each", "+MHas bf ff", "--columns", "list,status"]
        status, text, said = self.compare(self.file("a.trace", one()), *words)
        self.assertEqual((status, said), (1, f"compare: --each '+MHas ff': ff: bad value\n{NO_STRATEGY}"))
        self.assertEqual(text, "list      status\n+MHas bf       0\n+MHas ff       1\n")

    def test_a_main_carrier_that_does_not_fit(self):
        said = self.compare(self.file("a.trace", one()), "--each", "+MMscs 1", "--each", "+MHmmbcs 2000")[2]
        first, second = said.splitlines()
        self.assertEqual(first, "compare: +MMscs 1 +MHmmbcs 2000: super carrier too small")
        self.assertIn("a larger +MMscs", second)

    def test_files_that_are_not_there(self):
        trace = self.file("a.trace", one())
        words = ["--as", "json", "--flags", "c.flags", self.file("d.flags", "")]
        status, text, said = self.compare("b.trace", trace, *words)
        lines = [f"compare: {it}: No such file or directory" for it in ("b.trace", "c.flags")]
        self.assertEqual((status, said.splitlines()), (1, lines))
        self.assertEqual([it["status"] for it in json.loads(text)], [None, 0, None])
        self.assertEqual(self.compare("/", *KEPT_APART)[::2], (1, "compare: /: Is a directory\n"))
        self.assertEqual(self.compare("/dev/null")[::2], (1, "compare: /dev/null: no regular file\n"))
        words = [trace, "--flags", self.file("e.flags", "+MHas\nb\0f\n")]
        self.assertEqual(self.compare(*words)[::2], (1, "compare: e.flags: line 2: a zero byte\n"))

    def test_what_is_no_program(self):
        trace = self.file("a.trace", one())
        said = "compare: none: No such file or directory\n"
        self.assertEqual(self.compare("--program", "none", trace), (1, "", said))
        status, text, said = self.compare("--program", "/bin/true", trace)
        self.assertEqual((status, text), (1, ""))
        self.assertEqual(said, "compare: /bin/true: this is not the simulator: it ends with status 0\n")

    def test_an_output_that_cannot_be_written_is_said_first(self):
        trace = self.file("a.trace", one())
        said = self.compare(trace, "--output", "none/table")
        self.assertEqual(said, (1, "", "compare: none/table: No such file or directory\n"))
        self.assertEqual(self.compare(trace, "--output", "/"), (1, "", "compare: /: Is a directory\n"))
        self.assertEqual(os.listdir(self.room), ["a.trace"])

    def test_what_a_full_disk_does_not_take_goes_to_standard_output(self):
        words = [self.file("a.trace", one("alloc 1 100")), "--columns", "carriers_end", "--output", "/dev/full"]
        said = "compare: /dev/full: No space left on device: it is on standard output\n"
        self.assertEqual(self.compare(*words), (1, "carriers\n     end\n       1\n", said))

    def test_an_output_is_replaced_as_a_whole(self):
        old = self.file("table", "old\n")
        words = ["--columns", "carriers_end", "--output", old]
        self.assertEqual(self.compare(self.file("a.trace", one("alloc 1 100")), *words), (0, "", ""))
        with open(f"{self.room}/table", encoding="utf-8") as source:
            self.assertEqual(source.read(), "carriers\n     end\n       1\n")
        self.assertEqual(sorted(os.listdir(self.room)), ["a.trace", "table"])
        self.assertEqual(os.stat(f"{self.room}/table").st_mode & 0o777, 0o666 & ~os.umask(0o022))
        os.umask(0o022)

    def test_a_closed_pipe(self):
        trace = self.file("a.trace", one())
        with subprocess.Popen(self.words(trace), cwd=self.room, stdout=subprocess.PIPE, stderr=subprocess.PIPE) as ran:
            ran.stdout.close()
            self.assertEqual((ran.stderr.read(), ran.wait()), (b"", 1))

    def test_a_closed_pipe_ends_runs_whose_lines_nobody_reads(self):
        read, write = os.pipe()
        ran = self.begin("--each", "+MHas bf aoff", "--jobs", "1", "--as", "csv", "--seconds", "2", stdout=write)
        for it in read, write:
            os.close(it)
        said = ran.communicate(timeout=30)[1]
        self.assertEqual((said, ran.returncode), ("compare: a.trace: +MHas bf: it was ended after 2 seconds\n", 1))
        self.assertEqual([it for it in os.listdir(self.room) if it.startswith("compare-")], [])

    # Signals

    ENDS = "compare: interrupted: {} of {} runs had ended\n".format

    def slow(self):
        """A program that never ends under `bf`, by what it has started, and makes the file `begun` first."""
        lines = ["#!/bin/sh", '[ "${2:-}" = bf ] && touch begun && { sh -c "sleep 600; touch ended"; exit 0; }',
                 f'exec {shlex.quote(program())} "$@"', ""]
        self.file("slow", "\n".join(lines))
        os.chmod(f"{self.room}/slow", 0o755)
        return [self.file("a.trace", one()), "--program", "./slow"]

    def begin(self, *words, **streams):
        """The tool in a group of its own, once `bf` has begun."""
        if os.path.exists(f"{self.room}/begun"):
            os.unlink(f"{self.room}/begun")
        how = {"preexec_fn": take_signals, "start_new_session": True}
        streams = {"stdout": subprocess.PIPE, "stderr": subprocess.PIPE, "text": True, **streams}
        ran = subprocess.Popen(self.words(*self.slow(), *words), cwd=self.room, **streams, **how)
        self.addCleanup(ran.wait)
        self.addCleanup(ran.kill)
        while not os.path.exists(f"{self.room}/begun"):
            self.assertIsNone(ran.poll())
            time.sleep(0.05)
        return ran

    def ended(self, ran):
        """What it wrote and said, within some seconds, and nothing that it had started goes on."""
        text, said = ran.communicate(timeout=20)
        self.assertEqual((ran.returncode, self.runs_here()), (130, []), said)
        return text, said

    def runs_here(self):
        """The processes that work in this test's folder."""
        found = []
        for it in filter(str.isdigit, os.listdir("/proc")):
            try:
                found += [it] if os.readlink(f"/proc/{it}/cwd") == os.path.realpath(self.room) else []
            except OSError:
                continue
        return found

    def test_signals_leave_what_had_ended(self):
        """Each of them, to the tool alone or to its group, once or more often."""
        columns = ["--columns", "list,status"]
        for number in signal.SIGINT, signal.SIGTERM, signal.SIGHUP:
            for send, times in ((os.kill, 1), (os.killpg, 1), (os.killpg, 2), (os.killpg, 3)):
                with self.subTest(f"{number!r} {send.__name__} {times}"):
                    ran = self.begin("--jobs", "1", "--each", "+MHas gf bf af", *columns)
                    for _ in range(times):
                        send(ran.pid, number)
                        time.sleep(0.02)
                    text, said = self.ended(ran)
                    self.assertEqual(said, self.ENDS(1, 3))
                    below = "Interrupted: 1 of 3 runs had ended.\n"
                    self.assertEqual(text, f"list      status\n+MHas gf       0\n\n{below}")

    def test_timeout(self):
        """It sends its signal to the tool, and to the group as well. The status is its own."""
        words = self.words(*self.slow(), "--jobs", "1", "--each", "+MHas aoff bf", "--columns", "list")
        for seconds in 4, 16, 64:
            began = time.monotonic()
            ran = subprocess.run(["timeout", "-k", "60", str(seconds), *words], cwd=self.room, capture_output=True,
                                 text=True, check=False)
            self.assertLess(time.monotonic() - began, seconds + 20)
            self.assertEqual((ran.returncode, self.runs_here()), (124, []))
            # On a busy machine the second run may not have begun by then.
            if os.path.exists(f"{self.room}/begun"):
                break
        self.assertEqual(ran.stderr, self.ENDS(1, 2))
        self.assertTrue(ran.stdout.startswith("list\n+MHas aoff\n"), ran.stdout)

    def test_a_signal_while_several_runs_are_under_way(self):
        grid = ["--each", "+MHas bf", "--each", "+MHsbct 1 2 3"]
        ran = self.begin("--jobs", "3", *grid, "--as", "json", "--columns", "list")
        os.killpg(ran.pid, signal.SIGTERM)
        text, said = self.ended(ran)
        self.assertEqual((json.loads(text), said), ([], self.ENDS(0, 3)))

    def test_runs_end_if_the_tool_is_killed(self):
        ran = self.begin("--each", "+MHas bf")
        ran.kill()
        ran.wait()
        for _ in range(100):
            if not self.runs_here():
                break
            time.sleep(0.1)
        self.assertEqual(self.runs_here(), [])

    def test_the_process_of_a_run_that_is_killed(self):
        """Its line says so, and the others have theirs."""
        ran = self.begin("--jobs", "1", "--each", "+MHas bf gf", "--as", "json", "--columns", "list,status,said")
        for it in filter(str.isdigit, os.listdir("/proc")):
            try:
                with open(f"/proc/{it}/stat", encoding="utf-8") as file:
                    is_its_child = file.read().rpartition(")")[2].split()[1] == str(ran.pid)
            except OSError:
                continue
            if is_its_child:
                os.kill(int(it), signal.SIGKILL)
        text, said = ran.communicate(timeout=20)
        killed = "a process of this tool was killed"
        self.assertEqual((ran.returncode, said), (1, f"compare: {killed}\n"))
        self.assertEqual(json.loads(text), [{"list": "+MHas bf", "status": None, "said": killed},
                                            {"list": "+MHas gf", "status": 0, "said": None}])
        # The run itself has nobody who ends it.
        for it in self.runs_here():
            os.kill(int(it), signal.SIGKILL)

    def test_csv_has_a_line_as_soon_as_a_run_has_ended(self):
        """In the order of the lists: what ends later and comes first is waited for. A signal has the rest written."""
        read, write = os.pipe()
        self.addCleanup(os.close, read)
        words = ["--each", "+MHas aoff bf gf", "--columns", "list,status,percent_end", "--as", "csv"]
        ran = self.begin("--jobs", "2", *words, stdout=write)
        os.close(write)
        self.assertEqual(os.read(read, 1000), b"list,status,percent_end\n+MHas aoff,0,\n")
        # Both are there by then.
        time.sleep(1)
        ran.send_signal(signal.SIGTERM)
        self.assertEqual(self.ended(ran)[1], self.ENDS(2, 3))
        self.assertEqual(os.read(read, 1000), b"+MHas gf,0,\n")

    def test_a_terminal_shows_each_run_as_it_ends(self):
        master, terminal = os.openpty()
        self.addCleanup(os.close, master)
        words = [self.file("a.trace", one("alloc 1 100")), "--jobs", "1", "--each", "+MHsbct 1 2", *KEPT_APART]
        ran = subprocess.Popen(self.words(*words), cwd=self.room, stdout=subprocess.PIPE, stderr=terminal, text=True)
        text = ran.communicate(timeout=60)[0]
        os.close(terminal)
        shown = os.read(master, 10000).decode().replace("\r\033[K", "\n").replace("\r\n", "\n").split("\n")
        lines = [it for number in (1, 2) for it in (
            f"+MHsbct {number} +MHacul 0: most 0.2 MB, end 0.2 MB, 1 carriers", f"compare: {number} of 2 runs")]
        self.assertEqual([it for it in shown if it], ["compare: 0 of 2 runs", *lines])
        self.assertNotIn("runs", text)

    def saved(self):
        [name] = [it for it in os.listdir(self.room) if it.startswith("compare-")]
        return name

    def test_a_terminal_that_is_gone_loses_no_rows(self):
        master, terminal = os.openpty()
        ran = self.begin("--each", "+MHas aoff bf", stdout=terminal, stderr=terminal)
        os.close(terminal)
        time.sleep(1)
        os.close(master)
        os.killpg(ran.pid, signal.SIGHUP)
        self.assertEqual(ran.wait(20), 130)
        [row] = self.rows("--from", self.saved())
        self.assertRow(row, list="+MHas aoff", status=0)

    def test_a_reader_that_the_same_signal_ended_loses_no_rows(self):
        for form, grid in (("text", "+MHas aoff bf"), ("csv", "+MHas bf aoff")):
            read, write = os.pipe()
            ran = self.begin("--each", grid, "--jobs", "2", "--as", form, stdout=write)
            for it in read, write:
                os.close(it)
            time.sleep(1)
            os.killpg(ran.pid, signal.SIGINT)
            said, name = self.ended(ran)[1], self.saved()
            self.assertEqual(said, f"{self.ENDS(1, 2)}compare: all rows are in ./{name}: --from reads it\n")
            os.unlink(f"{self.room}/{name}")

    def test_a_full_disk_loses_no_rows(self):
        words = [self.file("a.trace", one("alloc 1 100")), "--each", "+MHsbct 1 2"]
        for form in ("text", "csv"):
            with open("/dev/full", "wb") as full:
                ran = subprocess.run(self.words(*words, "--as", form), cwd=self.room, stdout=full,
                                     stderr=subprocess.PIPE, text=True, check=False)
            name = self.saved()
            self.assertEqual((ran.returncode, ran.stderr), (1, f"compare: all rows are in ./{name}: --from reads it\n"
                             "compare: standard output: No space left on device\n"))
            self.assertEqual([it["carriers_end"] for it in self.rows("--from", name)], [1, 1])
            os.unlink(f"{self.room}/{name}")

    def test_words_that_are_no_command(self):
        trace = self.file("a.trace", one())
        options = ["--by size", "--each +MHas", "--try +MHas", "--try as,bf",
                   "--jobs 0", "--as xml", "--from a.json", "--columns size", "--other"]
        others = [["--flags", "a.flags", trace], ["--from", "a.json", "--try", "+MHas bf"]]
        for words in ([], *others, *([trace, *it.split()] for it in options)):
            status, text, said = self.compare(*words)
            self.assertEqual((status, text), (2, ""), words)
            self.assertIn("compare: error: ", said)

    # Forms and order

    def test_sorted_with_the_unknown_last(self):
        trace = self.file("a.trace", one(*[f"alloc {it} 60000" for it in range(1, 21)]))
        words = [trace, *KEPT_APART, "--each", "+MHlmbcs 256 0 512 2048", "--by", "carriers_end"]
        rows = self.rows(*words, status=1)
        self.assertEqual([it["carriers_end"] for it in rows], sorted(it["carriers_end"] for it in rows[:3]) + [None])
        rows = self.rows(*words, "--reverse", status=1)
        self.assertEqual([it["list"].split()[-1] for it in rows], ["256", "512", "2048", "0"])

    def test_a_bound_is_sorted_by_its_number(self):
        table = [{"list": it[0], "carriers_most": it[1]} for it in (("a", 10), ("b", "<=9"), ("c", None), ("d", 8))]
        rows = self.rows("--from", self.file("a.json", json.dumps(table)), "--by", "carriers_most")
        self.assertEqual([it["list"] for it in rows], ["d", "b", "a", "c"])

    def test_csv_and_json_have_the_same_cells(self):
        words = [self.file("a.trace", one("alloc 1 2000", "free 1")), *KEPT_APART, "--each", "+MHsbct 1"]
        words += ["--columns", "list,status,carriers_most,utilisation_end,utilisation_most"]
        [row] = csv.DictReader(io.StringIO(self.compare(*words, "--as", "csv")[1]))
        self.assertEqual(row, {"list": "+MHacul 0 +MHsbct 1", "status": "0", "carriers_most": "1",
                               "utilisation_end": "", "utilisation_most": "49.2"})
        [row] = self.rows(*words)
        self.assertEqual(row, {"list": "+MHacul 0 +MHsbct 1", "status": 0, "carriers_most": 1,
                               "utilisation_end": None, "utilisation_most": 49.2})

    # Commands and results

    def test_the_results_of_commands_make_the_same_table(self):
        self.file("base.flags", "+MHacul\n0\n")
        traces = [self.file("a b.trace", one("alloc 1 1000", "realloc 1 2 90000")), self.file("bad.trace", one("frob"))]
        words = [*traces, "--flags", "base.flags", "--each", "+MHas bf gf ff", "--each", "+MHsbct 1 512"]
        direct = self.compare(*words, "--columns", NOT_SECONDS, "--by", "carriers_most")
        self.assertEqual(direct[0], 1)
        status, lines, said = self.compare(*words, "--print-commands", "--results", "some results")
        self.assertEqual((status, said, len(lines.splitlines())), (0, "", 12))
        for number, line in enumerate(lines.splitlines(), 1):
            subprocess.run(["sh", "-c", line], cwd=self.room, stderr=subprocess.DEVNULL, check=False)
            self.assertEqual(len(os.listdir(f"{self.room}/some results")), number)
        results = [f"some results/{it}" for it in sorted(os.listdir(f"{self.room}/some results"))]
        again = self.compare("--from", *results, "--columns", NOT_SECONDS, "--by", "carriers_most")
        self.assertEqual(again[:2], direct[:2])

    def test_results_that_cannot_be_read(self):
        self.file("a.json", '[\n{"list": "a", "status": 0}\n]\n')
        self.file("b.json", '[\n{"list":\n')
        self.file("c.json", '{"list": "a"}\n')
        cells = [("size", 1), ("list", 1), ("moved", "many"), ("seconds", "<=1"), ("queued", [1]), ("failed", True)]
        for name, value in cells:
            self.assertEqual(self.compare("--from", self.file("e.json", json.dumps([{name: value}])))[0], 1, name)
        words = ["--from", "b.json", "a.json", "c.json", "d.json", "--columns", "list,carriers_end"]
        status, text, said = self.compare(*words)
        self.assertEqual((status, text), (1, "list  carriers\n           end\na            -\n"))
        self.assertEqual(said, "compare: b.json: line 3: no JSON: Expecting value\n"
                               "compare: c.json: no table of this tool's\ncompare: d.json: No such file or directory\n")

    def test_help(self):
        status, text, said = self.compare("--help")
        self.assertEqual((status, said), (0, ""))
        names = [it.split()[0] for it in text.partition("\nColumns:\n")[2].partition("\n\n")[0].splitlines()]
        with open(f"{TOP}/docs/reference/tools.md", encoding="utf-8") as source:
            section = source.read().partition("\n## compare\n")[2].partition("\n## ")[0]
        named = re.findall("`([a-z]+)`", section.partition("Most columns")[2].partition("\n\n")[0])
        self.assertEqual([it for it in named if it not in names and it not in ("acul", "percent")], [])
        self.assertIn("created", named)

    def test_the_examples_of_help(self):
        """Its first table has lists that differ in what ran and in its figures; its commands are lines of shell."""
        lines = [it.strip() for it in self.compare("--help")[1].splitlines() if it.startswith("  tools/compare ")]
        _, first, commands, _ = lines
        words = shlex.split(first)[1:]
        cut = words.index("--")
        status, text, said = self.compare(*words[:cut], "--as", "json", *words[cut:], folder=TOP)
        self.assertEqual((status, said), (0, ""))
        rows = json.loads(text)
        self.assertEqual([it["ran"] for it in rows], ["gf 0", "gf 0", "bf 0", "bf 0"])
        figures = {(it["mb_most"], it["mb_end"], it["carriers_end"], it["blocks_single"]) for it in rows}
        self.assertEqual(len(figures), len(rows))
        status, text, said = self.compare(*shlex.split(commands.partition(" | ")[0])[1:])
        self.assertEqual((status, said, len(text.splitlines())), (0, "", 4))


if __name__ == "__main__":
    if len(sys.argv) > 1:
        PROGRAM.extend(["--program", os.path.abspath(sys.argv.pop(1))])
    sys.exit(run_tests())
