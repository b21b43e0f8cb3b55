#!/usr/bin/env python3
"""Tests of tools/record and of tools/load --recorded: python3 tools/tests/test_record.py [PROGRAM].

What wants an erl or a C compiler is skipped where there is none, and so is what wants a PROGRAM that takes recorded
operations. Expected lines are worked out by hand of docs/reference. The last line is 'N passed, M failed'.
"""
import os
import re
import shutil
import subprocess
import sys
import tempfile
import unittest

sys.dont_write_bytecode = True
from counted import run_tests

TOP = os.path.dirname(os.path.dirname(os.path.dirname(os.path.realpath(__file__))))
LOAD, RECORD = f"{TOP}/tools/load", f"{TOP}/tools/record"
PROGRAM = os.path.abspath(sys.argv.pop(1)) if len(sys.argv) > 1 else None
HEAD = """node-record 1
# by hand
types B H
schedulers 2
super 0
flags +MBas bf +MBacul 0
flags +MHas aoff
untranslated +MBatags true
mark 0 begin
instance B 1 1 32768 0 0 0 0 0 0
instance B 2 1 32768 0 0 0 0 0 0
mark 3 middle
instance B 0 1 65536 0 0 0 0 5 400
instance B 1 1 32768 1 262144 0 0 2 2000
instance B 2 1 32768 0 0 1 528384 1 524300
mark 100 end
instance B 1 1 32768 0 0 0 0 0 0
instance B 2 1 32768 0 0 0 0 0 0
thread 1 1 1_scheduler
thread 2 2 erts_sched_2
thread 3 0 1_dirty_io_sch
events
"""


def has_erl():
    return all(map(shutil.which, ("erl", "escript", "cc")))


def operations(text):
    return [it for it in text.splitlines() if not it.startswith("#")]


def text_of(path):
    with open(path, encoding="utf-8") as source:
        return source.read()


class Case(unittest.TestCase):
    def setUp(self):
        self.room = tempfile.mkdtemp(prefix="test-record-")
        self.addCleanup(shutil.rmtree, self.room)

    def write(self, name, text):
        with open(f"{self.room}/{name}", "w", encoding="utf-8") as made:
            made.write(text)
        return f"{self.room}/{name}"

    def run_tool(self, *words, **how):
        return subprocess.run(words, capture_output=True, text=True, check=False, **how)

    def load(self, *words, status=0):
        ran = self.run_tool(sys.executable, "-B", LOAD, *words)
        self.assertEqual(ran.returncode, status, ran.stderr)
        return ran.stdout if status == 0 else ran.stderr

    def made(self, *events, more=()):
        """The operations that are made of these events of B, without the `info` lines of marks."""
        path = self.write("a.record", HEAD + "".join(f"{it}\n" for it in events))
        lines = operations(self.load("--recorded", path, "--type", "B", "--rules", "none", *more))
        return [it for it in lines if not it.endswith(" info")]


class Events(Case):
    def test_in_their_order(self):
        lines = self.made("alloc B 1 a0 100", "alloc H 1 b0 50", "alloc B 2 c0 200", "free B 1 a0", "alloc B 2 a0 7")
        self.assertEqual(lines, ["type B", "1 alloc 1 100", "2 alloc 2 200", "1 free 1", "2 alloc 3 7", "end"])

    def test_a_free_by_another_scheduler(self):
        lines = self.made("alloc B 1 a0 100", "free B 2 a0")
        self.assertEqual(lines[1:-1], ["1 alloc 1 100", "1 give 1 2", "2 take 1 1", "2 free 1"])

    def test_a_reallocation_by_another_scheduler(self):
        lines = self.made("alloc B 1 a0 100", "realloc B 2 a0 200", "to B 2 c0", "free B 2 c0")
        wanted = ["1 alloc 1 100", "1 give 1 2", "2 take 1 1", "2 realloc 1 2 200", "2 free 2"]
        self.assertEqual(lines[1:-1], wanted)

    def test_a_place_that_is_taken_while_a_reallocation_is_under_way(self):
        lines = self.made("alloc B 1 a0 100", "realloc B 1 a0 200", "alloc B 2 a0 30", "to B 1 c0", "free B 2 a0")
        self.assertEqual(lines[1:-1], ["1 alloc 1 100", "2 alloc 2 30", "1 realloc 1 3 200", "2 free 2"])

    def test_blocks_that_were_there_before(self):
        """A free of one is left out, and a reallocation is an allocation."""
        lines = self.made("free B 1 f0", "realloc B 1 e0 200", "to B 1 c0", "free B 1 c0")
        self.assertEqual(lines[1:-1], ["1 alloc 1 200", "1 free 1"])

    def test_threads_that_are_no_schedulers(self):
        events = "alloc B 3 a0 100", "free B 1 a0", "alloc B 1 c0 100", "free B 3 c0"
        self.assertEqual(self.made(*events)[1:-1], ["1 alloc 1 100", "1 free 1"])
        for thread in "34":
            lines = self.made(*(it.replace(" 3 ", f" {thread} ") for it in events), more=("--others", "2"))
            self.assertEqual(lines[1:4], ["2 alloc 1 100", "2 give 1 1", "1 take 1 1"])

    def test_a_reallocation_by_a_thread_that_is_no_scheduler(self):
        lines = self.made("alloc B 1 a0 100", "realloc B 3 a0 200", "to B 3 c0", "free B 1 c0")
        self.assertEqual(lines[1:-1], ["1 alloc 1 100", "1 free 1"])

    def test_lost_events(self):
        """Where the free of a block was lost, it is freed where the next one has its place."""
        lines = self.made("alloc B 1 a0 100", "lost", "alloc B 2 a0 200")
        self.assertEqual(lines[1:-1], ["1 alloc 1 100", "1 free 1", "2 alloc 2 200"])

    def test_a_block_that_is_too_large(self):
        lines = self.made("alloc B 1 a0 1073741824", "free B 1 a0", "alloc B 1 a0 1073741823")
        self.assertEqual(lines[1:-1], ["1 alloc 1 1073741823"])

    def test_bytes_more(self):
        lines = self.made("alloc B 1 a0 100", "realloc B 1 a0 200", "to B 1 a0", more=("--more", "8"))
        self.assertEqual(lines[1:-1], ["1 alloc 1 108", "1 realloc 1 2 208"])

    def with_marks(self, head, *events, more=()):
        """The operations and marks that are made of these events."""
        path = self.write("a.record", head + "".join(f"{it}\n" for it in events))
        text = self.load("--recorded", path, "--type", "B", "--rules", "none", *more)
        return [it for it in text.splitlines() if it[0] != "#" or it.startswith("# mark ")][1:-1]

    def test_marks(self):
        """Before each mark each scheduler has an `info`, but where nothing was since the one before."""
        head, infos = HEAD.replace("mark 3 middle", "mark 0 peak\nmark 3 middle"), ["1 info", "2 info"]
        lines = self.with_marks(head, *(f"alloc B 1 a{it} 8" for it in range(5)))
        self.assertEqual(lines, ["# mark begin", "# mark peak", "1 alloc 1 8", "1 alloc 2 8", "1 alloc 3 8", *infos,
                                 "# mark middle", "1 alloc 4 8", "1 alloc 5 8", *infos, "# mark end"])
        path = f"{self.room}/a.record"
        lines = operations(self.load("--recorded", path, "--type", "B", "--until", "middle"))
        self.assertEqual(lines[2:], ["1 alloc 1 8", "1 alloc 2 8", "1 alloc 3 8", *infos, "end"])
        self.assertEqual(self.with_marks(head, *(["alloc B 1 a0 8"] * 5), more=("--as", "trace"))[-2:],
                         ["schedule", "1*9"])

    def test_peak_and_valley_are_marks_of_themselves(self):
        """The most bytes, and then the least after that, of all events: here of other threads and types, too."""
        events = ["alloc B 1 a0 500", "alloc B 2 b0 400", "free B 1 a0", "alloc B 1 c0 300", "alloc B 3 d0 9000",
                  "realloc B 2 b0 700", "to B 2 e0", "alloc H 1 f0 9000", "free B 1 c0", "alloc B 1 c0 10", "free B 2 e0",
                  "alloc B 1 b0 20"]
        infos = ["1 info", "2 info"]
        lines = self.with_marks(HEAD, *events)
        at = lines.index("# mark peak")
        self.assertEqual(lines[at - 3 : at + 2], ["2 realloc 2 4 700", *infos, "# mark peak", "1 free 3"])
        at = lines.index("# mark valley")
        self.assertEqual(lines[at - 3 : at + 2], ["2 free 4", *infos, "# mark valley", "1 alloc 6 20"])
        said = "# Mark peak is where there are the most bytes in blocks, 1040; mark valley is where there are the least"
        self.assertIn(f"{said} after that, 48.\n", self.load("--recorded", f"{self.room}/a.record", "--type", "B"))

    def test_a_peak_without_a_valley_and_none_where_there_are_such_marks(self):
        growing = ["alloc B 1 a0 500", "alloc B 2 b0 400"]
        for head, events, wanted in ((HEAD, growing, ["begin", "peak", "end"]), (HEAD, [], ["begin", "end"]),
                                     (HEAD.replace("middle", "valley-1"), [*growing, "free B 1 a0", "free B 2 b0"],
                                      ["begin", "peak", "valley-1", "end"])):
            head = head.replace("mark 3 middle", "mark 0 middle")
            marks = [it.split()[2] for it in self.with_marks(head, *events) if it[0] == "#"]
            self.assertEqual([it for it in marks if it != "middle"], wanted)

    def test_the_rules_are_those_of_the_node(self):
        """All without a super carrier, and all but falling with one; others and none if that is asked for."""
        all_three, with_one = "powers falling counter", "powers counter"
        node = "the node, which has {} super carrier, has {}."
        for megabytes, words, rules, has in (
            (0, (), f"the rules {all_three}", node.format("no", all_three)),
            (64, (), f"the rules {with_one}", node.format("a", with_one)),
            (64, ("--rules", all_three.replace(" ", ",")), f"the rules {all_three}", node.format("a", with_one)),
            (0, ("--rules", "counter,powers"), "the rules counter powers", node.format("no", all_three)),
            (0, ("--rules", "none"), "no rules of a node", node.format("no", all_three)),
        ):
            path = self.write("a.record", HEAD.replace("super 0", f"super {megabytes}") + "alloc B 1 a0 8\n")
            text = self.load("--recorded", path, "--type", "B", *words)
            line = [rules.replace("the ", "")] if rules.startswith("the") else []
            self.assertEqual(operations(text)[: len(line) + 2], ["type B", *line, "1 alloc 1 8"])
            self.assertIn(f"\n# It runs by {rules}; {has}\n", text)

    def test_a_trace_has_no_rules(self):
        path = self.write("a.record", HEAD)
        text = self.load("--recorded", path, "--type", "B", "--as", "trace")
        self.assertNotIn("rules", text)
        said = self.load("--recorded", path, "--type", "B", "--as", "trace", "--rules", "powers", status=2)
        self.assertEqual(said, "load: --rules are of recorded operations: a trace has none (see --help)\n")

    def test_rules_that_there_are_not(self):
        for word in "tree", "powers,powers", "none,powers", "", "powers falling":
            said = self.load("--recorded", "a.record", "--rules", word, status=2)
            wanted = "is neither none nor some of powers,falling,counter, each once (see --help)\n"
            self.assertEqual(said, f"load: argument --rules: {word!r} {wanted}")

    def test_what_does_not_fit_is_cut_at_a_whole_operation(self):
        """A free by another scheduler is three lines, of which 1048576 hold 262144 with their allocations."""
        pairs = (f"alloc B 1 {it:x} 8\nfree B 2 {it:x}\n" for it in range(300000))
        path = self.write("a.record", HEAD.replace("mark 100 end", "mark 600000 end") + "".join(pairs))
        text = self.load("--recorded", path, "--type", "B", "--until", "end")
        lines = operations(text)
        self.assertLessEqual(len(lines) - 3, 1048576)
        self.assertLessEqual(len(text), 2**24)
        self.assertIn(lines[-2].split()[1], ("alloc", "free"))
        self.assertIn("# CUT: ", text)

    def test_a_trace_is_cut_where_its_takes_would_try_too_often(self):
        """100000 takes of 1000 tries each are as many tries as a trace may have."""
        pairs = (f"alloc B 1 {it:x} 8\nfree B 2 {it:x}\n" for it in range(100001))
        path = self.write("a.record", HEAD.replace("mark 100 end", "mark 200002 end") + "".join(pairs))
        text = self.load("--recorded", path, "--type", "B", "--as", "trace")
        self.assertEqual(text.count("take "), 100000 + text.partition("type B")[0].count("take "))
        self.assertIn("# CUT: ", text)
        self.assertNotIn("# CUT: ", self.load("--recorded", path, "--type", "B"))

    def test_the_flags_of_the_node(self):
        path = self.write("a.record", HEAD)
        text = self.load("--recorded", path, "--type", "B", "--node-flags", f"{self.room}/a.flags")
        with open(f"{self.room}/a.flags", encoding="utf-8") as source:
            self.assertEqual(source.read().split(), "+S 2 +MMscs 1 +MBas bf +MBacul 0".split()[:2] + source_words(text))
        self.assertIn("# Not translated: +MBatags true\n", text)

    def flags_of(self, head, *events, words=()):
        """The list that is written of a recording, by its flags."""
        path = self.write("a.record", head + "".join(f"{it}\n" for it in events))
        self.load("--recorded", path, "--type", "B", *words, "--node-flags", f"{self.room}/a.flags")
        words = text_of(f"{self.room}/a.flags").split()
        return dict(zip(words[::2], words[1::2]))

    # At most sixteen blocks of 1,000,016 bytes at once, of both schedulers, between two marks.
    PEAK = [f"{kind} B {1 + at % 2} {at:x}{' 1000000' if kind == 'alloc' else ''}"
            for kind in ("alloc", "free") for at in range(16)]

    def test_a_super_carrier_with_room_for_what_there_is_between_marks(self):
        """Twice the most bytes at once, for each scheduler, as a power of two; or the node's, up to the largest."""
        others = ["alloc H 1 aa 9000000", "alloc B 3 ab 9000000"]
        moved = [*self.PEAK[:4], "realloc B 1 0 12000000", "to B 1 ac"]
        for events, words, node, wanted in (
            (self.PEAK, (), 0, 64), (self.PEAK * 2, (), 0, 64), (self.PEAK, ("--until", "middle"), 0, 16),
            (others + self.PEAK, (), 0, 64), (others + self.PEAK, ("--others", "1"), 0, 128), (moved, (), 0, 64),
            (self.PEAK, (), 5, 5), (self.PEAK, (), 600, 512), ([], (), 0, 4), (["alloc B 1 0 900000000"], (), 0, 512),
            # Each has 48 bytes.
            ([f"alloc B 1 {it:x} 8" for it in range(50000)], (), 0, 16),
        ):
            head = HEAD.replace("super 0", f"super {node}").replace("mark 100 end", "mark 60000 end")
            self.assertEqual(self.flags_of(head, *events, words=words)["+MMscs"], str(wanted), (events[:2], words, node))

    @unittest.skipUnless(PROGRAM, "there is no program")
    def test_with_that_super_carrier_each_block_has_a_place(self):
        path = self.write("a.record", HEAD + "".join(f"{it}\n" for it in self.PEAK))
        self.load("--recorded", path, "--type", "B", "--node-flags", f"{self.room}/a.flags", "--output", f"{self.room}/a.input")
        with open(f"{self.room}/a.input", "rb") as source:
            ran = self.run_tool(PROGRAM, "recorded", *text_of(f"{self.room}/a.flags").split(), stdin=source)
        self.assertEqual((ran.returncode, ran.stdout.count(" fail ")), (0, 0))
        self.assertEqual(ran.stdout.count("\nalloc "), 16)

    def test_the_list_has_no_strategy_that_no_flag_need_have_set(self):
        """A node tells what runs, and with a strategy of its own that is aoffcbf where carriers migrate."""
        for told, wanted in (
            ("+MBacul 60 +MBas aoffcbf", {"+MBacul": "60"}),
            ("+MBacul 0 +MBas aoffcbf", {"+MBacul": "0", "+MBas": "aoffcbf"}),
            ("+MBacul 60 +MBas aoff", {"+MBacul": "60", "+MBas": "aoff"}),
        ):
            found = self.flags_of(HEAD.replace("+MBas bf +MBacul 0", told))
            self.assertEqual({it: value for it, value in found.items() if it.startswith("+MB")}, wanted)

    def test_as_a_trace(self):
        lines = self.made("alloc B 1 a0 100", "alloc B 2 c0 50", "free B 2 a0", more=("--as", "trace"))
        self.assertEqual(lines, ["type B", "scheduler 1", "alloc 1 100", "give 1 2", "scheduler 2", "alloc 2 50",
                                 "take 1 1000", "free 1", "schedule", "1*1 2*1 1*2 2*3", "end"])

    def test_the_super_carrier_holds_twice_the_peak_for_each_scheduler(self):
        """No mark has figures of the peak of 5000000 bytes, of which twice as many for each scheduler are 20 MB."""
        path = self.write("a.record", HEAD)
        self.assertIn(": +S 2 +MMscs 4 ", self.load("--recorded", path, "--type", "B"))
        path = self.write("a.record", HEAD + "alloc B 1 a0 3000000\nalloc B 1 b0 2000000\nfree B 2 a0\nalloc B 2 c0 4000000\n")
        self.assertIn(": +S 2 +MMscs 32 ", self.load("--recorded", path, "--type", "B"))

    def test_the_stored_recording(self):
        """examples/shop.record, of a node whose four schedulers all allocate, gives the input and the flags there."""
        shop = f"{TOP}/examples/shop"
        text = self.load("--recorded", f"{shop}.record", "--node-flags", f"{self.room}/a.flags")
        self.assertEqual(text, text_of(f"{shop}.trace"))
        self.assertEqual(["recorded", *text_of(f"{self.room}/a.flags").split()], text_of(f"{shop}.flags").split())
        busy = [sum(it.startswith(f"{me} alloc ") for it in operations(text)) for me in range(1, 5)]
        self.assertGreater(min(busy), 100)

    def test_refusals(self):
        cases = {
            "node-load 1\n": "line 1: it is not `node-record 1`",
            HEAD.replace("events\n", ""): "line 21: there is no `events` line",
            HEAD.replace("schedulers 2", "schedulers x"): "line 4: 'x' is no number",
            HEAD.replace("schedulers 2", "schedulers 65"): "the node has 65 schedulers, and a run has 1 to 64",
            HEAD + "alloc B 1\n": "line 23: it is no event",
            HEAD + "frob B 1 a0\n": "line 23: it is no event",
            HEAD.replace("thread 2 2", "thread 2 3"): "thread 2 has scheduler 3, and the node has 2",
        }
        for text, said in cases.items():
            path = self.write("a.record", text)
            self.assertEqual(self.load("--recorded", path, "--type", "B", status=1), f"load: {path}: {said}\n")
        path = self.write("a.record", HEAD)
        for words, said in (((), "it has the types B H: choose by --type"), (("--type", "E"), "it has no type E"),
                            (("--type", "B", "--until", "x"), "there is no mark x: there are begin, middle, end"),
                            (("--type", "B", "--others", "3"), "--others 3, and the node has 2 schedulers")):
            self.assertEqual(self.load("--recorded", path, *words, status=1), f"load: {path}: {said}\n")

    def test_beside_a_run(self):
        path = self.write("a.record", HEAD)
        carriers = ["carrier 1 main owner 1 employed 1 base 0 pages 8 allocated 14 largest 4000",
                    "carrier 2 multi owner 1 pooled 1 base 8 pages 64 allocated 100 largest 4000",
                    "carrier 1025 single owner 2 employed 2 base 100 pages 129 allocated 65538 largest 502"]
        text = ["scheduler 1", "alloc 9 fail need 14 looked 0 space", "scheduler 2", *carriers, "total carriers 3", ""]
        table = self.load("--recorded", path, "--type", "B", "--until", "middle", "--beside",
                          self.write("a.out", "\n".join(text)))
        rows = {line[:40].strip(): line[40:].split() for line in table.splitlines()}
        self.assertEqual(rows["carriers"], ["4", "3"])
        self.assertEqual(rows["pooled"], ["262144", "262144"])
        self.assertEqual(rows["bytes in blocks"], ["526300", str((14 + 100 + 65538) * 8)])
        self.assertIn("FAILED: 1 allocations", table)
        self.assertNotIn("rules", table)

    def test_beside_a_run_of_an_input_its_rules_are_told(self):
        words = ["--recorded", self.write("a.record", HEAD), "--type", "B", "--beside",
                 self.write("a.out", "scheduler 1\nscheduler 2\ntotal carriers 0\n"), "--input"]
        for line, said in (("rules powers\n", "the rules powers"), ("# rules powers\n1 idle\n", "no rules"),
                           (" # a\n\n rules  counter falling \n", "the rules counter falling")):
            path = self.write("a.input", f"type B\n{line}end\n")
            self.assertEqual(self.load(*words, path).splitlines()[-1], f"The run was by {said} of a node.")
        path = self.write("a.trace", "type B\nscheduler 1\nschedule\nend\n")
        said = f"load: {path}: it is no input of recorded operations\n"
        self.assertEqual(self.load(*words, path, status=1), said)
        said = "load: --input is for --recorded with --beside (see --help)\n"
        self.assertEqual(self.load("--recorded", "a.record", "--input", path, status=2), said)


def source_words(text):
    """The words after those of the schedulers that a comment tells."""
    line = re.search(r"^# The node's own flags, the first list to compare: \+S 2 (.*)$", text, re.M)
    return line[1].split()


@unittest.skipUnless(has_erl(), "there is no erl, escript or cc")
class Node(Case):
    LOAD = ("lists:foreach(fun(I) -> put(I, binary:copy(<<1>>, 5000 + I)) end, lists:seq(1, 300)),"
            "record_node:mark(\"full\"), erase(), erlang:garbage_collect(), timer:sleep(100).")

    def record(self, *words, status=0, **how):
        ran = self.run_tool(RECORD, *words, **how)
        self.assertEqual(ran.returncode, status, ran.stderr)
        return ran.stderr

    def test_a_node_of_its_own(self):
        path = f"{self.room}/a.record"
        said = self.record("--start", "+S 2 +MBas bf +MBsbct 8", "B,H", path, "--eval", self.LOAD)
        self.assertIn("for a test node", said)
        self.assertIn("the load is over", said)
        with open(path, encoding="utf-8") as source:
            text = source.read()
        self.assertIn("\ntypes B H\nschedulers 2\n", text)
        self.assertIn("+MBsbct 8 ", text)
        self.assertIn("+MBas bf\n", text)
        sizes = [int(it) for it in re.findall(r"^alloc B [0-9]+ [0-9a-f]+ ([0-9]+)$", text, re.M)]
        # Each binary has a head of its own before its bytes.
        for wanted in range(5001, 5301):
            self.assertTrue(any(wanted <= it <= wanted + 64 for it in sizes), wanted)
        lines = operations(self.load("--recorded", path, "--type", "B"))
        self.assertEqual(lines[1], "rules powers falling counter")
        self.assertGreaterEqual(sum(" alloc " in it for it in lines), 300)
        self.assertGreaterEqual(sum(" free " in it for it in lines), 290)
        self.run_of(path)

    def run_of(self, path):
        """The run of a recording ends with about as many bytes in blocks as the node."""
        if not PROGRAM or self.run_tool(PROGRAM, "recorded", input="type B\nend\n").returncode:
            return
        made, flags = f"{self.room}/a.input", f"{self.room}/a.flags"
        self.load("--recorded", path, "--type", "B", "--until", "full", "--output", made, "--node-flags", flags)
        with open(made, "rb") as source, open(flags, encoding="utf-8") as words:
            ran = subprocess.run([PROGRAM, "recorded", *words.read().split()], stdin=source, capture_output=True, check=True)
        text = self.write("a.out", ran.stdout.decode())
        table = self.load("--recorded", path, "--type", "B", "--until", "full", "--beside", text)
        node, run = map(int, re.search(r"^bytes in blocks +([0-9]+) +([0-9]+)$", table, re.M).groups())
        self.assertLess(abs(node - run), node // 10)

    def test_a_load_that_ends_its_node(self):
        """By halt, or by a signal as a crash does: all but the figures at the end is kept, also marks."""
        for end in "halt()", 'os:cmd("kill -9 " ++ os:getpid()), timer:sleep(9000)':
            path = f"{self.room}/a.record"
            said = self.record("--start", "+S 2", "B", path, "--eval", self.LOAD.replace("timer:sleep(100)", end))
            self.assertIn(f"record: {path}: the node has ended: what it had noted is kept", said)
            text = text_of(path)
            sizes = [int(it) for it in re.findall(r"^alloc B [0-9]+ [0-9a-f]+ ([0-9]+)$", text, re.M)]
            for wanted in range(5001, 5301):
                self.assertTrue(any(wanted <= it <= wanted + 64 for it in sizes), wanted)
            self.assertRegex(text, r"(?s)mark 0 begin\ninstance .*\nmark [0-9]+ full\ninstance .*\nmark [0-9]+ end\nthread ")
            events = text.partition("\nevents\n")[2].splitlines()
            self.assertEqual(re.findall(r"^mark ([0-9]+) end$", text, re.M), [str(len(events))])
            self.assertIn("# mark full\n", self.load("--recorded", path))
            said = f"load: {path}: mark end has no figures of B: the node had ended\n"
            self.assertEqual(self.load("--recorded", path, "--beside", path, status=1), said)
            os.remove(path)

    def test_a_load_that_fails_leaves_the_node(self):
        path = f"{self.room}/a.record"
        said = self.record("--start", "+S 1", "B", path, "--eval", "exit(bad).")
        self.assertIn(f"record: {path}: the load failed, ", said)
        self.assertIn("\ninstance B ", text_of(path).rpartition(" end\n")[2])

    def test_full_memory_ends_it(self):
        path = f"{self.room}/a.record"
        said = self.record("--start", "+S 1", "B", path, "--events", "100", "--eval", self.LOAD)
        self.assertIn("the memory for events was full", said)
        with open(path, encoding="utf-8") as source:
            events = source.read().partition("\nevents\n")[2].splitlines()
        self.assertEqual(len(events), 100)

    def test_what_is_wanting(self):
        path = f"{self.room}/a.record"
        for word in ("erl", "escript"):
            os.symlink(shutil.which(word), f"{self.room}/{word}")
        for word in ("sh", "dirname", "basename", "readlink", "sed", "env"):
            os.symlink(shutil.which(word), f"{self.room}/{word}")
        said = self.record("--start", "+S 1", "B", path, status=1, env={**os.environ, "PATH": self.room})
        self.assertEqual(said, "record: there is no C compiler: install one (Debian: gcc)\n")
        said = self.record("--start", "+MBas nothing", "B", path, status=1)
        self.assertTrue(said.splitlines()[-1].startswith("record: the node does not start under +MBas nothing"), said)
        said = self.record("nobody@localhost", "x", "B", path, status=1)
        self.assertTrue(said.splitlines()[-1].startswith("record: nobody@localhost: "), said)
        self.assertFalse(os.path.exists(path))

    def test_words(self):
        for words in ((), ("a@b",), ("--start", "+S 1", "B"), ("a@b", "-", "Q", "x"), ("a@b", "-", "B", "x", "--events", "0"),
                      ("a@b", "-", "B", "x", "--path", "/"), ("--foo",)):
            said = self.record(*words, status=2)
            self.assertRegex(said, r"^record: .* \(see --help\)\n$")
        self.assertEqual(self.run_tool(RECORD, "--help").returncode, 0)


if __name__ == "__main__":
    sys.exit(run_tests())
