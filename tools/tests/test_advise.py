#!/usr/bin/env python3
"""Tests of tools/advise: python3 tools/tests/test_advise.py [PROGRAM].

What wants an erl or a C compiler is skipped where there is none, and so is what wants a PROGRAM that takes recorded
operations. Expected figures are worked out by hand. The last line is 'N passed, M failed'.
"""
import os
import re
import shutil
import signal
import subprocess
import sys
import tempfile
import unittest
from types import SimpleNamespace

TOP = os.path.dirname(os.path.dirname(os.path.dirname(os.path.realpath(__file__))))
sys.dont_write_bytecode = True
sys.path.insert(0, f"{TOP}/tools")
import advise_node
from advise_case import front_of, moments_of
from advise_runs import Result, Trial, carriers_of, single_changes, together
from advise_table import Check, Table, advice_on, to_paste
from counted import run_tests, take_signals
from recording import Instance, Mark
from texts import Text

ADVISE, SHOP = f"{TOP}/tools/advise", f"{TOP}/examples/shop.record"
PROGRAM = os.path.abspath(sys.argv.pop(1)) if len(sys.argv) > 1 else None
MEGABYTE = 2**20
FLAGS = ["+S", "1", "+MMscs", "64", "+MBas", "aoffcbf", "+MBacul", "60"]


def has_erl():
    return all(map(shutil.which, ("erl", "escript", "cc")))


def takes_recorded():
    return PROGRAM and subprocess.run([PROGRAM, "recorded"], input=b"type B\nend\n", capture_output=True,
                                      check=False).returncode == 0


# ---------------------------------------------------------------------------------------------------------------------
# The parts
# ---------------------------------------------------------------------------------------------------------------------


def mark(events, name, carriers, blocks):
    """A mark with these bytes, of which those of instance 0 do not count."""
    other = Instance(0, 1, 10**9, 0, 0, 0, 0, 1, 10**9)
    return Mark(events, name, {"B": [other, Instance(1, 1, carriers, 0, 0, 0, 0, 1, blocks)]})


class Moments(unittest.TestCase):
    def moments(self, *marks, known=None):
        found = SimpleNamespace(path="a.record", marks=[*marks])
        return moments_of(found, "B", known or [it.name for it in marks])

    def test_the_peak_has_most_carriers_and_the_valley_after_it_the_fewest_blocks(self):
        marks = [mark(0, "begin", 1, 1), mark(1, "a", 9, 2), mark(2, "b", 9, 8), mark(3, "c", 7, 3), mark(4, "d", 9, 2),
                 mark(5, "e", 7, 5), mark(6, "end", 1, 0)]
        self.assertEqual(self.moments(*marks), ("b", "d"))

    def test_marks_of_a_load_with_these_names_are_taken(self):
        marks = [mark(1, "a", 9, 9), mark(2, "peak", 8, 8), mark(3, "b", 1, 1), mark(4, "valley", 2, 2)]
        self.assertEqual(self.moments(*marks), ("peak", "valley"))

    def test_without_a_mark_after_the_peak_there_is_no_valley(self):
        self.assertEqual(self.moments(mark(0, "begin", 1, 1), mark(1, "a", 2, 2), mark(2, "end", 3, 3)), ("a", None))

    def test_with_no_marks_but_begin_and_end_these_are_taken(self):
        self.assertEqual(self.moments(mark(0, "begin", 1, 1), mark(2, "end", 3, 3)), ("end", None))

    def test_marks_that_a_cut_input_lacks_are_not_taken(self):
        marks = [mark(1, "a", 5, 5), mark(2, "b", 4, 4), mark(3, "c", 9, 9)]
        self.assertEqual(self.moments(*marks, known=["a", "b"]), ("a", "b"))

    def test_an_input_has_its_moments_alone(self):
        data = b"type B\n# mark a\n1 alloc 1 8\n# mark b\n1 free 1\n# mark c\n1 idle\nend\n"
        self.assertEqual(front_of(data, ["a", "c"]), b"type B\n# mark a\n1 alloc 1 8\n1 free 1\nend\n")
        self.assertEqual(front_of(data, ["b"]), b"type B\n1 alloc 1 8\nend\n")


class Lists(unittest.TestCase):
    def test_values_around_the_nodes_own(self):
        lists = single_changes([*FLAGS, "+MBsbct", "100", "+MBlmbcs", "512", "+MHsbct", "8"], "B")
        self.assertEqual([value for [(name, value), *_] in lists if name == "sbct"], ["64", "32", "16", "128"])
        self.assertEqual([value for [(name, value), *_] in lists if name == "lmbcs"], ["256", "1024"])

    def test_a_strategy_without_migration_comes_with_acul_0(self):
        lists = single_changes(FLAGS, "B")
        self.assertIn((("as", "bf"), ("acul", "0")), lists)
        self.assertIn((("as", "aoff"),), lists)
        self.assertNotIn((("as", "aoffcbf"),), lists)
        lists = single_changes([*FLAGS, "+MBas", "bf", "+MBacul", "0"], "B")
        self.assertIn((("as", "aoffcbf"), ("acul", "60")), lists)

    def test_temp_alloc_has_no_acul(self):
        self.assertEqual({name for it in single_changes(FLAGS, "T") for name, _ in it}, {"sbct", "lmbcs", "smbcs"})

    def test_the_best_changes_come_together(self):
        first, second, other = (("lmbcs", "512"),), (("sbct", "64"),), (("lmbcs", "1024"),)
        self.assertEqual(together([first, other, second]),
                         [(("sbct", "64"), ("lmbcs", "512")), (("sbct", "64"), ("lmbcs", "1024"))])
        self.assertEqual(together([first, other]), [])


class Entries(unittest.TestCase):
    def test_carriers_that_were_created(self):
        """Block 1 alone, of 6 units, and 2 in one carrier; the carrier goes when scheduler 1 takes its queue, and is
        created again for 4. Block 3 is above 5 units of sbct, with 4 too, but 3 has moved before."""
        data = b"type B\n1 alloc 1 8\n2 take 1 1\n2 free 1\n1 idle\n1 alloc 4 8\n1 realloc 4 5 900\n1 realloc 5 6 800\nend\n"
        logs = [["idle", "alloc 4 1 8 6", "realloc 4 5 2 8 120 moved done", "realloc 5 6 2 8 101 here"],
                ["take 1 got", "free 1 queued 1"]]
        logs[0].insert(0, "alloc 1 1 8 6")
        found = carriers_of(data, Text(logs=[[it.split() for it in log] for log in logs]), 100)
        self.assertEqual((found.created, found.most_singles), (3, 1))


def case(name, peak, valley, letter="B", megabytes=0):
    """A recording, with the megabytes of the node at both moments."""
    node = {"p": (peak, 1.0), "v": (valley, 1.0)}
    return SimpleNamespace(name=name, letter=letter, flags=FLAGS, moments=["p", "v"], peak="p", valley="v",
                           has_super_carrier=megabytes > 0, node=lambda it: node[it], before=lambda: 0.0)


def result(peak, valley, failed=0):
    rows = [{"units_end": it * MEGABYTE // 8, "failed": failed, "carriers_end": 3, "ran": "aoffcbf 60"}
            for it in (peak, valley)]
    return Result(at=dict(zip("pv", rows)), created=5, singles=1)


def check(it, own, off):
    return Check(it, own, [("p", 1.0, 1.0, off)])


class Ranks(unittest.TestCase):
    def table(self, lists, off=(4.0,), by="both"):
        """Of lists by their changes, each with what came of it on each recording."""
        own = Trial((), [result(*it) for it in lists.pop(())])
        checks = [check(case(str(at), 0, 0), it, one) for at, (it, one) in enumerate(zip(own.results, off))]
        trials = [own, *(Trial(changes, [result(*it) for it in rows]) for changes, rows in lists.items())]
        return Table(checks, own, trials, by)

    def names(self, table):
        return [(it.rank, it.name) for it in table.lines]

    def test_lists_within_the_error_of_the_replay_are_equal(self):
        lists = {(): [(100, 100)], (("sbct", "64"),): [(70, 70)], (("lmbcs", "512"),): [(73, 73)],
                 (("smbcs", "128"),): [(75, 75)]}
        table = self.table(lists)
        self.assertEqual(self.names(table), [(1, "+MBsbct 64"), (1, "+MBlmbcs 512"), (2, "+MBsmbcs 128"),
                                             (3, "(the node's own)")])
        self.assertEqual(to_paste([table]), "+MBsbct 64")

    def test_a_strategy_is_only_advised_where_it_is_much_better(self):
        for strategy, wanted in (70, "+MBsbct 64"), (60, "+MBas bf +MBacul 0"):
            lists = {(): [(100, 100)], (("sbct", "64"),): [(75, 75)],
                     (("as", "bf"), ("acul", "0")): [(strategy, strategy)]}
            self.assertEqual(to_paste([self.table(lists)]), wanted)

    def test_of_several_recordings_the_spread_decides(self):
        """Both are better by 10 percent in the middle; one is so on all three, the other on two."""
        lists = {(): [(100, 100)] * 3, (("sbct", "64"),): [(90, 90), (89, 89), (90, 90)]}
        self.assertEqual(to_paste([self.table(lists, off=(9.0,) * 3)]), "+MBsbct 64")
        lists = {(): [(100, 100)] * 3, (("sbct", "64"),): [(90, 90), (110, 110), (80, 80)]}
        table = self.table(lists, off=(1.0,) * 3)
        self.assertEqual({it.rank for it in table.lines}, {1})
        self.assertEqual(to_paste([table]), "")
        self.assertIn("keep the node's own flags", " ".join(advice_on(table)))

    def test_it_is_ranked_by_the_peak_the_valley_or_both(self):
        rows = {(): [(100, 100)], (("sbct", "64"),): [(80, 90)], (("lmbcs", "512"),): [(95, 50)]}
        for by, first in ("peak", "+MBsbct 64"), ("valley", "+MBlmbcs 512"), ("both", "+MBlmbcs 512"):
            self.assertEqual(self.table({**rows}, by=by).lines[0].name, first)

    def test_lists_whose_allocations_failed_come_last_and_are_not_advised(self):
        table = self.table({(): [(100, 100)], (("sbct", "64"),): [(10, 10, 3)]})
        self.assertEqual(self.names(table)[-1], (2, "+MBsbct 64"))
        self.assertEqual(to_paste([table]), "")


class NodesFigures(unittest.TestCase):
    def samples(self, *lines):
        return advise_node.read_samples("sample 0 2048\n" + "".join(f"allocator {it}\n" for it in lines))

    def test_those_that_waste_are_taken(self):
        mega = MEGABYTE
        found, why = advise_node.wasteful(self.samples(
            f"B {20 * mega} {10 * mega} 0 0", f"E {100 * mega} {95 * mega} 0 0", f"H {3 * mega} 0 {2 * mega} 0",
            f"T {90 * mega} 0 0 0", "D 0 0 0 0"))
        self.assertEqual(found, ["B", "H"])
        self.assertIn("binary_alloc, eheap_alloc", why)

    def test_where_none_wastes_the_first_is_taken(self):
        found, why = advise_node.wasteful(self.samples("B 100 90 0 0", "E 1000 100 0 0"))
        self.assertEqual(found, ["E"])
        self.assertTrue(why.startswith("None has "), why)

    def test_the_table_has_the_process(self):
        lines = [*advise_node.table_of_node(self.samples(f"B {3 * MEGABYTE} {MEGABYTE} {MEGABYTE} 0"))]
        self.assertEqual(lines[1].split(), "binary_alloc 1.0 MB 4.0 MB 3.0 MB 75".split())
        self.assertEqual(lines[2], "Its process has 2 MB in memory (RSS), and 4 MB of these carriers.")


# ---------------------------------------------------------------------------------------------------------------------
# The command
# ---------------------------------------------------------------------------------------------------------------------

SMALL = """node-record 1
types B
schedulers 1
super 0
flags +MBas aoffcbf +MBacul 60 +MBsbct 512
mark 0 begin
instance B 1 0 0 0 0 0 0 0 0
mark 60 full
instance B 1 1 {node} 0 0 0 0 60 6000000
mark 119 empty
instance B 1 1 {node} 0 0 0 0 1 100000
mark 119 end
instance B 1 1 {node} 0 0 0 0 1 100000
thread 1 1 1_scheduler
events
"""


class Command(unittest.TestCase):
    def setUp(self):
        self.room = tempfile.mkdtemp(prefix="test-advise-")
        self.addCleanup(shutil.rmtree, self.room)

    def small(self, name="small.record", node=8 * MEGABYTE):
        """60 blocks of 100,000 bytes, of which one is left."""
        events = [f"alloc B 1 {it:x} 100000" for it in range(60)] + [f"free B 1 {it:x}" for it in range(59)]
        with open(f"{self.room}/{name}", "w", encoding="utf-8") as made:
            made.write(SMALL.format(node=node) + "".join(f"{it}\n" for it in events))
        return f"{self.room}/{name}"

    def advise(self, *words, status=0, **how):
        program = ["--program", PROGRAM] if PROGRAM else []
        ran = subprocess.run([sys.executable, "-B", ADVISE, *words, *program], capture_output=True, text=True,
                             check=False, **how)
        self.assertEqual(ran.returncode, status, ran.stdout + ran.stderr)
        return ran.stdout if status != 1 else ran.stderr

    def test_words(self):
        for words in ((), ("a@b",), ("--start", "+S 1"), ("--eval", "x."), ("--recorded", "a", "--verify"),
                      ("a@b", "-", "--recorded", "a"), ("a@b", "-", "--minutes", "0"), ("a@b", "-", "--by", "x"),
                      ("a@b", "-", "--allocators", "Q"), ("a@b", "-", "--path", "."), ("a@b", "-", "--seconds", "x")):
            ran = subprocess.run([sys.executable, "-B", ADVISE, *words], capture_output=True, text=True, check=False)
            self.assertEqual((ran.returncode, ran.stdout), (2, ""), words)
            self.assertRegex(ran.stderr, r"^advise: .* \(see --help\)\n$")

    @unittest.skipUnless(takes_recorded(), "no program was given that takes recorded operations")
    def test_a_file_that_is_none(self):
        said = self.advise("--recorded", f"{self.room}/none", status=1)
        self.assertEqual(said, f"advise: {self.room}/none: No such file or directory\n")

    @unittest.skipUnless(takes_recorded(), "no program was given that takes recorded operations")
    def test_what_a_node_wants(self):
        os.symlink(sys.executable, f"{self.room}/python3")
        how = {"env": {**os.environ, "PATH": self.room}}
        said = self.advise("a@b", "-", status=1, **how)
        self.assertEqual(said, "advise: there is no erl: install Erlang/OTP (Debian: erlang-base, erlang-dev)\n")
        for name in "erl", "escript":
            os.symlink("/bin/true", f"{self.room}/{name}")
        said = self.advise("a@b", "-", status=1, **how)
        self.assertEqual(said, "advise: there is no C compiler, which a recording wants: install one (Debian: gcc)\n")

    @unittest.skipUnless(takes_recorded(), "no program was given that takes recorded operations")
    def test_the_stored_recording(self):
        """The replay is within 10 percent of the node, and a small sbct is advised."""
        page = f"{self.room}/a.html"
        text = self.advise("--recorded", SHOP, "--output", page, "--keep", f"{self.room}/kept")
        self.assertRegex(text, r"\nshop.record: peak \(mark noon\) replay 33.*; valley \(mark night\) .*: trusted\n")
        self.assertRegex(text, r"binary_alloc: try \+MBsbct (64|128), which has [0-9.]+ in place of [0-9.]+ MB at the peak")
        self.assertRegex(text.splitlines()[-1], r"^Flags: \+MBsbct (64|128)$")
        with open(page, encoding="utf-8") as source:
            made = source.read()
        self.assertNotRegex(made, r'(src|href)="(?!data:)')
        self.assertEqual((made.count("<polyline"), made.count("<circle"), made.count("<img")), (3, 6, 2))
        self.assertIn("shop.B.input", os.listdir(f"{self.room}/kept"))

    @unittest.skipUnless(takes_recorded(), "no program was given that takes recorded operations")
    def test_a_replay_that_is_off_is_not_trusted(self):
        """6 MB in blocks are in carriers of 8 MB or so, and the node of this recording has 80."""
        path = self.small(node=80 * MEGABYTE)
        text = self.advise("--recorded", path, status=3)
        self.assertIn("NOT TRUSTED, above 10 percent\n", text)
        self.assertIn("It stops here", text)
        self.assertNotIn("rank", text)
        text = self.advise("--recorded", path, "--anyway", "--by", "peak")
        self.assertRegex(text, r"\nrank +list +ran +peak MB ")
        self.assertIn("By: peak.", text)

    @unittest.skipUnless(takes_recorded(), "no program was given that takes recorded operations")
    def test_several_recordings(self):
        text = self.advise("--recorded", self.small(), self.small("b.record"), "--anyway")
        self.assertRegex(text, r"\nrank +list .* spread ")
        self.assertIn("within their spread over 2 recordings", text)

    @unittest.skipUnless(takes_recorded(), "no program was given that takes recorded operations")
    def test_an_interrupt_keeps_what_was_done(self):
        words = [sys.executable, "-B", ADVISE, "--recorded", SHOP, "--program", PROGRAM, "--jobs", "1"]
        how = {"stdout": subprocess.PIPE, "stderr": subprocess.PIPE, "text": True, "preexec_fn": take_signals}
        with subprocess.Popen(words, env={**os.environ, "TMPDIR": self.room}, **how) as child:
            self.assertEqual(child.stdout.readline(), "binary_alloc\n")
            self.assertIn("trusted", child.stdout.readline())
            child.send_signal(signal.SIGINT)
            text, said = child.communicate(timeout=60)
        self.assertEqual(child.returncode, 130, said)
        self.assertIn("(the node's own)", text)
        self.assertIn("advise: interrupted", said)
        self.assertEqual(os.listdir(self.room), [])

    @unittest.skipUnless(has_erl() and takes_recorded(), "there is no erl, escript or cc, or no program")
    def test_a_node_of_its_own(self):
        load = ("lists:foreach(fun(I) -> put(I, binary:copy(<<1>>, 50000 + I)) end, lists:seq(1, 200)), timer:sleep(1500),"
                " [erase(I) || I <- lists:seq(1, 200), I rem 10 > 0], erlang:garbage_collect(), timer:sleep(2500).")
        text = self.advise("--start", "+S 2", "--eval", load, "--minutes", "0.5", "--anyway", "--keep", self.room)
        self.assertRegex(text, r"\n  binary_alloc +[0-9.]+ MB +[0-9.]+ MB ")
        self.assertRegex(text, r"\nIts process has [0-9]+ MB in memory \(RSS\) at most")
        self.assertIn("\nTaken: binary_alloc, ", text)
        self.assertTrue(re.search(r"\n1\.record: peak \(mark [0-9]+\) ", text), text)
        self.assertIn("\nrank ", text)
        self.assertIn("1.record", os.listdir(self.room))


if __name__ == "__main__":
    sys.exit(run_tests())
