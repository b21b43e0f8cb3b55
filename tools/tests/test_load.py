#!/usr/bin/env python3
"""Tests of tools/load and tools/node_load.escript: python3 tools/tests/test_load.py [PROGRAM].

PROGRAM runs the traces; without it, the one that `rt ci` left in crates/erts_alloc_run/out is taken. What wants a
program, or an erl, is skipped with a line where there is none. What is expected is worked out by hand of
docs/reference and of the help of the tool; bounds of what is random are five standard deviations.
"""
import collections
import contextlib
import hashlib
import importlib.machinery
import importlib.util
import io
import os
import re
import shutil
import signal
import socket
import stat
import subprocess
import sys
import tempfile
import time
import unittest
import unittest.mock

TOP = os.path.realpath(os.path.join(os.path.dirname(os.path.realpath(__file__)), "..", ".."))
LOAD = f"{TOP}/tools/load"
NODE_LOAD = f"{TOP}/tools/node_load.escript"
LEFT_BY_GATE = f"{TOP}/crates/erts_alloc_run/out/erts_alloc_run"
PROGRAM = os.path.abspath(sys.argv[1]) if len(sys.argv) > 1 else LEFT_BY_GATE
# How long what hangs is waited for, on however busy a machine.
LONGEST_SECONDS = 1800
FIRST = "node-load 1\n"
SMALL = FIRST + "type B\nblocks 64 64 1\nblocks 128 128 2\nblocks 256 256 5\n"
# The SHA-256 of what one machine made of SMALL with the words of test_same_bytes, so that a change of bytes is seen. It
# says nothing of what is right.
MADE_ONCE = "779aa619b7ba79b6d3951b4f29cad007c62c945f5a372ddf05520688096c116e"


def module_of(path):
    """The tool as a module, so that most tests need no process of its own for it."""
    sys.dont_write_bytecode = True
    sys.path.insert(0, os.path.dirname(path))
    loader = importlib.machinery.SourceFileLoader("load", path)
    sys.modules["load"] = importlib.util.module_from_spec(importlib.util.spec_from_loader("load", loader))
    loader.exec_module(sys.modules["load"])
    return sys.modules["load"]


TOOL = module_of(LOAD)


def within(seconds, attempt):
    """What the attempt gives, once the system has what it wants."""
    deadline = time.monotonic() + seconds
    while True:
        try:
            return attempt()
        except OSError:
            if time.monotonic() > deadline:
                raise
            time.sleep(0.05)


class Trace:
    """A trace, read by the rules of docs/reference/trace.md: what breaks one of them fails the test."""

    def __init__(self, test, text, schedulers):
        self.test, self.schedulers = test, schedulers
        lines = [it.split() for it in text.split("\n") if it and not it.startswith("#")]
        test.assertEqual(lines[0][0], "type")
        self.letter = lines[0][1]
        test.assertEqual(lines[-1], ["end"])
        self.sections, at = [], 1
        for number in range(1, schedulers + 1):
            test.assertEqual(lines[at], ["scheduler", str(number)])
            end = next(it for it in range(at + 1, len(lines)) if lines[it][0] in ("scheduler", "schedule", "threads"))
            self.sections.append([(line[0], *map(int, line[1:])) for line in lines[at + 1 : end]])
            at = end
        self.ending, self.turns = lines[at][0], [word for line in lines[at + 1 : -1] for word in line]
        self.check_names()
        self.check_limits(text)

    @property
    def operations(self):
        return [it for section in self.sections for it in section]

    def words(self, *kinds):
        return [it for it in self.operations if it[0] in kinds]

    @property
    def sizes(self):
        """The bytes of all allocations and reallocations."""
        return [it[-1] for it in self.words("alloc", "realloc")]

    def check_names(self):
        made, given = set(), {}
        addressed = {(it[1], it[2]) for it in self.words("give")}
        for number, section in enumerate(self.sections, 1):
            held = set()
            for word, *numbers in section:
                if word in ("free", "give", "realloc"):
                    self.test.assertIn(numbers[0], held)
                    held.remove(numbers[0])
                if word in ("alloc", "realloc"):
                    name = numbers[-2]
                    self.test.assertNotIn(name, made)
                    self.test.assertTrue(1 <= name <= 1048576)
                    self.test.assertTrue(0 <= numbers[-1] <= 1073741823)
                    made.add(name)
                    held.add(name)
                elif word == "give":
                    self.test.assertNotIn(numbers[0], given)
                    given[numbers[0]] = numbers[1]
                    self.test.assertTrue(1 <= numbers[1] <= self.schedulers and numbers[1] != number)
                elif word == "take":
                    self.test.assertIn((numbers[0], number), addressed)
                    held.add(numbers[0])
                else:
                    self.test.assertIn(word, ("free", "info", "realloc"))

    def check_limits(self, text):
        self.test.assertLessEqual(len(self.operations), 1048576)
        self.test.assertLessEqual(len(text), 2**24)
        tries = [it[2] for it in self.words("take")]
        self.test.assertTrue(all(1 <= it <= 10**7 for it in tries) and sum(tries) <= 10**8)
        turns = [it.split("*") for it in self.turns]
        self.test.assertTrue(all(1 <= int(it[0]) <= self.schedulers for it in turns))
        self.test.assertLessEqual(sum(int(it[1]) if len(it) > 1 else 1 for it in turns), 10**8)

    def live(self, section):
        """How many blocks a section holds after each of its operations."""
        held, counts = 0, []
        for word, *_ in self.sections[section]:
            held += {"alloc": 1, "take": 1, "free": -1, "give": -1}.get(word, 0)
            counts.append(held)
        return counts


class Case(unittest.TestCase):
    def setUp(self):
        self.room = tempfile.mkdtemp()
        self.addCleanup(shutil.rmtree, self.room)

    def file(self, text, name="node.load"):
        path = f"{self.room}/{name}"
        with open(path, "w", encoding="utf-8") as file:
            file.write(text)
        return path

    def load(self, *words):
        """What the tool does with these words, without a process of its own."""
        out, error = io.TextIOWrapper(io.BytesIO()), io.StringIO()
        with contextlib.redirect_stdout(out), contextlib.redirect_stderr(error):
            try:
                status = TOOL.main(list(map(str, words)))
            except SystemExit as end:
                status = end.code
            out.flush()
        words = [LOAD, *map(str, words)]
        return subprocess.CompletedProcess(words, status, out.buffer.getvalue().decode(), error.getvalue())

    def process(self, *words, **more):
        more = {"stdout": subprocess.PIPE, "stderr": subprocess.PIPE, **more}
        return subprocess.run([LOAD, *map(str, words)], text=True, check=False, **more)

    def made(self, text, *words, schedulers=1):
        """The trace of a file with this text."""
        done = self.load(*words, "--schedulers", schedulers, self.file(text))
        self.assertEqual((done.returncode, done.stderr), (0, ""))
        return Trace(self, done.stdout, schedulers)

    def refused(self, line, *words, status=1):
        done = self.load(*words)
        self.assertEqual((done.returncode, done.stdout, done.stderr), (status, "", f"load: {line}\n"))

    def near(self, count, of, percent):
        """Whether so many of so many are what a chance of so many percent gives."""
        part = percent / 100
        self.assertLess(abs(count - of * part), 5 * (of * part * (1 - part)) ** 0.5)


class Sizes(Case):
    def test_each_slot_has_its_share(self):
        """101 operations with 100 blocks live are 100 allocations and the info: 12.5, 25 and 62.5 for counts of 1, 2
        and 5 in 8. The one that is left goes to the first of those with the largest rest. Of 102 they are 12.75, 25.5
        and 63.75, and two are left."""
        trace = self.made(SMALL, "--operations", 101, "--live", 100)
        self.assertEqual(trace.operations[-1], ("info",))
        self.assertEqual(collections.Counter(trace.sizes), {56: 13, 120: 25, 248: 62})
        trace = self.made(SMALL, "--operations", 103, "--live", 102)
        self.assertEqual(collections.Counter(trace.sizes), {56: 13, 120: 25, 248: 64})

    def test_shares_of_many(self):
        """Of A sizes each slot has less than one more or less than A * count / all."""
        counts = {(64, 120): 7, (512, 1016): 11, (4096, 8184): 1, (40000, 50000): 983}
        text = "node-load 1\ntype H\n" + "".join(f"blocks {low} {high} {it}\n" for (low, high), it in counts.items())
        trace = self.made(text, "--operations", 9000, "--reallocs", 30)
        for (low, high), count in counts.items():
            found = sum(low <= it + 8 <= high for it in trace.sizes)
            self.assertLess(abs(found - len(trace.sizes) * count / 1002), 1)

    def test_even_within_a_slot(self):
        """64 to 120 has eight multiples of 8, so 8000 sizes are a thousand of each, by chance."""
        trace = self.made(FIRST + "type B\nblocks 64 120 9\n", "--operations", 8001, "--live", 8000)
        found = collections.Counter(trace.sizes)
        self.assertEqual(sorted(found), [56, 64, 72, 80, 88, 96, 104, 112])
        for count in found.values():
            self.near(count, 8000, 12.5)

    def test_sizes_between_multiples(self):
        """1001 to 1007 has no multiple of 8, so each of its seven bytes comes; 1001 to 1010 has one, 1008."""
        trace = self.made(FIRST + "type B\nblocks 1001 1007 1\n", "--operations", 701, "--live", 700)
        self.assertEqual(set(trace.sizes), set(range(993, 1000)))
        trace = self.made(FIRST + "type B\nblocks 1001 1010 1\n", "--operations", 101, "--live", 100)
        self.assertEqual(set(trace.sizes), {1000})

    def test_overhead(self):
        """What is asked for is the size without the overhead, and 0 where that is more."""
        for overhead, bytes_asked in (0, 64), (8, 56), (16, 48), (64, 0):
            trace = self.made(FIRST + "type B\nblocks 64 64 1\n", "--overhead", overhead, "--operations", 20)
            self.assertEqual(set(trace.sizes), {bytes_asked})
        trace = self.made(FIRST + "type B\nblocks 0 0 1\n", "--operations", 20)
        self.assertEqual(set(trace.sizes), {0})

    def test_largest_block(self):
        """1073741831 bytes with header are the 1073741823 that a trace may ask for; one more is refused, if any block
        has it."""
        trace = self.made(FIRST + "type B\nblocks 1073741831 1073741831 1\n", "--operations", 20)
        self.assertEqual(set(trace.sizes), {1073741823})
        text = FIRST + "type B\nblocks 8 8 1\nblocks 8 1073741832 {}\n"
        self.made(text.format(0), "--operations", 20)
        path = self.file(text.format(1))
        self.refused(f"{path}: line 4: a trace has no block above 1073741823 bytes", path)


class Operations(Case):
    def test_no_more_than_asked_for(self):
        for schedulers, operations in (1, 2), (16, 32), (3, 100), (64, 128), (64, 262144):
            trace = self.made(SMALL, "--operations", operations, "--ending", "turns", schedulers=schedulers)
            self.assertEqual(len(trace.operations), operations)
            lengths = list(map(len, trace.sections))
            self.assertLessEqual(max(lengths) - min(lengths), 1)
            self.assertTrue(all(it[-1] == ("info",) for it in trace.sections))

    def test_grows_and_stays(self):
        """It allocates until 100 are live, and then stays between 90 and 100."""
        live = self.made(SMALL, "--operations", 5001, "--live", 100).live(0)
        self.assertEqual(live[:100], list(range(1, 101)))
        self.assertEqual(set(live[100:]), set(range(90, 101)))

    def test_phases_end_in_valleys(self):
        """Of three phases of 2000 operations the first two end with 200 of 1000 blocks, or one more where the last
        operation before the valley was an allocation; the third does not."""
        trace = self.made(SMALL, "--operations", 6001, "--live", 1000, "--phases", 3)
        live = trace.live(0)
        for end in 2000, 4000:
            self.assertIn(live[end - 1], (200, 201))
            self.assertEqual(max(live[end - 2000 : end]), 1000)
        self.assertGreaterEqual(live[-1], 900)
        trace = self.made(SMALL, "--operations", 6001, "--live", 1000, "--phases", 2, "--valley", 50)
        self.assertIn(trace.live(0)[2999], (500, 501))

    def test_an_end_in_a_valley(self):
        words = "--operations", 6001, "--live", 1000, "--phases", 3
        trace = self.made(SMALL, *words, "--end", "valley")
        live = trace.live(0)
        for end in 2000, 4000, 6000:
            self.assertIn(live[end - 1], (200, 201))
        self.assertEqual(self.made(SMALL, *words, "--end", "peak").operations, self.made(SMALL, *words).operations)

    def test_marks(self):
        """Each peak and valley of one scheduler has a mark after its operation; with several there are none."""
        words = "--operations", 6001, "--live", 1000, "--phases", 3, "--end", "valley"
        lines = self.load(*words, self.file(SMALL)).stdout.splitlines()
        places = [at for at, it in enumerate(lines) if it.startswith("# mark ")]
        self.assertEqual([lines[it][7:] for it in places],
                         [f"{kind}-{phase}" for phase in (1, 2, 3) for kind in ("peak", "valley")])
        for place in places:
            words_before = [it.split()[0] for it in lines[:place]]
            live = words_before.count("alloc") - words_before.count("free")
            self.assertTrue(live == 1000 if "peak" in lines[place] else live in (200, 201))
        self.assertNotIn("# mark", self.load(*words, "--schedulers", 2, self.file(SMALL)).stdout)

    def test_tries_by_turns_are_few(self):
        """So that a block whose allocation failed does not hold up the run."""
        trace = self.made(SMALL, "--operations", 2000, "--ending", "turns", schedulers=4)
        self.assertEqual({it[2] for it in trace.words("take")}, {4 * 1024 * 4})

    def test_the_flags_of_the_node(self):
        text = SMALL + "flags +MBas bf +MBacul 0\nuntranslated +MBatags true\n"
        words = "--live", 5, "--operations", 100, "--schedulers", 2
        done = self.load(*words, "--node-flags", f"{self.room}/a.flags", self.file(text))
        with open(f"{self.room}/a.flags", encoding="ascii") as file:
            self.assertEqual(file.read().split(), "+S 2 +MMscs 1 +MBas bf +MBacul 0".split())
        self.assertIn("# The node's own flags, the first list to compare: +S 2 +MMscs 1 +MBas bf +MBacul 0\n", done.stdout)
        self.assertIn("# Not translated: +MBatags true\n", done.stdout)
        # A strategy that the node's own is without a flag of it stands in no list.
        self.load(*words, "--node-flags", f"{self.room}/a.flags", self.file(text.replace("bf +MBacul 0", "aoffcbf +MBacul 60")))
        with open(f"{self.room}/a.flags", encoding="ascii") as file:
            self.assertEqual(file.read().split(), "+S 2 +MMscs 1 +MBacul 60".split())
        self.refused(f"{self.room}/node.load: line 6: pairs of a flag and its value are due",
                     self.file(SMALL + "flags +MBas\n"))

    def test_failed_allocations_are_told_beside(self):
        out = self.file("scheduler 1\nalloc 1 fail need 14 looked 0 space\nrealloc 1 2 fail need 14 looked 0 numbers\n"
                        "total carriers 0 units 0 live 0 queued 0 free 0 header 0\n", "a.out")
        text = self.load("--beside", out, self.file(SMALL)).stdout
        self.assertIn("FAILED: 2 allocations of the run", text)
        self.assertIn("1 for want of pages", text)
        self.assertIn("1 for want of numbers", text)

    def test_blocks_that_are_live_by_default(self):
        """As many as the node's 8, or a third of the operations."""
        self.assertEqual(max(self.made(SMALL, "--operations", 1000).live(0)), 8)
        text = FIRST + "type B\nblocks 64 64 100000\n"
        self.assertEqual(max(self.made(text, "--operations", 3000).live(0)), 1000)
        self.assertEqual(max(self.made(text, "--operations", 6000, "--phases", 2).live(0)), 1000)

    def test_reallocations(self):
        """A quarter of the 8000 but the first, at which no block is there; or their share of the node's calls."""
        words = "--operations", 8001, "--live", 100
        self.near(len(self.made(SMALL, *words, "--reallocs", 25).words("realloc")), 7999, 25)
        self.near(len(self.made(SMALL + "calls 50 25 25\n", *words).words("realloc")), 7999, 25)
        self.assertEqual(self.made(SMALL, *words).words("realloc"), [])
        self.assertEqual(self.made(SMALL + "calls 0 0 0\n", *words).words("realloc"), [])
        self.assertEqual(self.made(SMALL + "calls 50 25 25\n", *words, "--reallocs", 0).words("realloc"), [])

    def test_youngest(self):
        """With 100 percent the youngest is freed each time; with 0 each block is as likely, of 100 one in a hundred."""
        for percent in 100, 0:
            trace = self.made(SMALL, "--operations", 8001, "--live", 100, "--youngest", percent)
            held, youngest, frees = [], 0, 0
            for word, *numbers in trace.sections[0]:
                if word == "alloc":
                    held.append(numbers[0])
                elif word == "free":
                    frees += 1
                    youngest += held[-1] == numbers[0]
                    held.remove(numbers[0])
            self.assertGreater(frees, 3500)
            if percent:
                self.assertEqual(youngest, frees)
            else:
                self.near(youngest, frees, 100 / 95)

    def test_handed_over(self):
        """Of what the two are done with, 30 percent is given to the other, which takes and frees it."""
        trace = self.made(
            SMALL, "--operations", 20000, "--live", 200, "--handed-over", 30, "--ending", "turns", schedulers=2
        )
        self.near(len(trace.words("give")), len(trace.words("free")), 30)
        self.check_taken(trace)

    def check_taken(self, trace):
        """What is given is taken, and freed by the operation after that."""
        self.assertEqual(sorted(it[1] for it in trace.words("give")), sorted(it[1] for it in trace.words("take")))
        for section in trace.sections:
            taken = [at for at, it in enumerate(section) if it[0] == "take"]
            self.assertTrue(all(section[at + 1] == ("free", section[at][1]) for at in taken))

    def test_handed_over_to_the_end(self):
        """Also of the last operations nothing is given that the other has no operations left for."""
        for seed in range(20):
            words = "--operations", 100, "--live", 9, "--handed-over", 100, "--ending", "turns", "--seed", seed
            self.check_taken(self.made(SMALL, *words, schedulers=3))

    def test_who_is_given_to(self):
        """With a schedule without turns later schedulers alone, else all others. One alone gives nothing."""
        up, down = {(1, 2), (1, 3), (2, 3)}, {(2, 1), (3, 1), (3, 2)}
        for ending, wanted in ("schedule", up), ("threads", up | down):
            trace = self.made(SMALL, "--operations", 9000, "--ending", ending, schedulers=3)
            pairs = {(at, it[2]) for at, section in enumerate(trace.sections, 1) for it in section if it[0] == "give"}
            self.assertEqual(pairs, wanted)
            self.assertEqual(trace.ending, ending)
            self.assertEqual(trace.turns, [])
        self.assertEqual(self.made(SMALL, "--operations", 9000).words("give"), [])

    def test_turns(self):
        """Eight of each scheduler in a row for each operation of the longest section, and then a thousand times
        1024."""
        trace = self.made(SMALL, "--operations", 300, "--ending", "turns", schedulers=3)
        self.assertEqual(trace.turns, ["1*8", "2*8", "3*8"] * 100 + ["1*1024", "2*1024", "3*1024"] * 1000)


class Bytes(Case):
    WORDS = ["--operations", 3000, "--schedulers", 3, "--reallocs", 10, "--phases", 2, "--ending", "turns"]

    def test_same_bytes(self):
        """Whatever the folder, the name of the file and the seed of Python's hashes are."""
        path, other = self.file(SMALL), self.file(SMALL, "other")
        first = self.load(*self.WORDS, path).stdout
        for seed in 0, 1:
            done = self.process(*self.WORDS, "other", cwd=self.room, env={**os.environ, "PYTHONHASHSEED": str(seed)})
            self.assertEqual((done.returncode, done.stdout, done.stderr), (0, first, ""))
        written = self.load(*self.WORDS, "--output", f"{self.room}/trace", other)
        self.assertEqual((written.returncode, written.stdout), (0, ""))
        with open(f"{self.room}/trace", encoding="ascii", newline="") as file:
            self.assertEqual(file.read(), first)
        self.assertEqual(hashlib.sha256(first.encode()).hexdigest(), MADE_ONCE)

    def test_other_seed(self):
        path = self.file(SMALL)
        texts = [self.load(*self.WORDS, "--seed", seed, path).stdout for seed in (0, 1, 2, 2147483647)]
        self.assertEqual(len({re.sub("#.*\n", "", it) for it in texts}), 4)
        self.assertEqual(self.load(*self.WORDS, "--seed", 1, path).stdout, self.load(*self.WORDS, path).stdout)

    def test_comment_makes_it_again(self):
        """The words of the first line make the same trace of the same file, also those that were not given."""
        path = self.file(SMALL + "calls 50 25 25\n")
        for given in [], ["--schedulers", 2], self.WORDS:
            text = self.load(*given, path).stdout
            words = text.split("\n")[0].split()
            self.assertEqual(words[:2], ["#", "tools/load"])
            self.assertEqual(self.load(*words[2:], path).stdout, text)


class SeveralTypes(Case):
    """Of two files of 20000 and 10000 calls, and of 8 and 16 blocks, comes an input of their types."""

    BINARIES = SMALL + "calls 15000 0 5000\n"
    HEAPS = "node-load 1\ntype H\nblocks 512 512 16\ncalls 4000 5000 1000\n"

    def input(self, *words, schedulers=1, texts=(BINARIES, HEAPS)):
        """Its lines, and the trace of each type."""
        files = [self.file(text, f"{at}.load") for at, text in enumerate(texts)]
        done = self.load(*words, "--schedulers", schedulers, *files)
        self.assertEqual((done.returncode, done.stderr), (0, ""))
        lines = [it for it in done.stdout.split("\n") if not it.startswith("#")]
        self.assertEqual(lines[0], "types B H")
        return lines, [Trace(self, self.left_of(lines, it), schedulers) for it in "BH"]

    def left_of(self, lines, letter):
        """The trace of a type."""
        own = [it.removeprefix(f"{letter} ") for it in lines[1:] if it[:2] not in ("B ", "H ") or it[0] == letter]
        return "\n".join([f"type {letter}", *own])

    def test_operations_are_shared_by_calls(self):
        """Two for each scheduler and type, and of the other 2988 two thirds and one third."""
        for ending in "schedule", "turns", "threads":
            _, traces = self.input("--operations", 3000, "--ending", ending, schedulers=3)
            self.assertEqual([len(it.operations) for it in traces], [1998, 1002])
            for trace in traces:
                self.assertEqual(trace.ending, ending.replace("turns", "schedule"))
                self.assertTrue(all(it[-1] == ("info",) for it in trace.sections))
        _, traces = self.input("--operations", 3000, texts=(SMALL, self.HEAPS))
        self.assertEqual([len(it.operations) for it in traces], [1500, 1500])
        few = self.HEAPS.replace("4000 5000 1000", "1 0 0")
        _, traces = self.input("--operations", 3000, schedulers=3, texts=(self.BINARIES, few))
        self.assertEqual([len(it.operations) for it in traces], [2994, 6])

    def test_what_each_has_of_its_file(self):
        """Half of the calls for heaps reallocate, and none for binaries; of 150 live blocks 50 and 100 are for 8 and 16
        blocks of the node. All heaps have 512 bytes, of which 8 are the header."""
        lines, (binaries, heaps) = self.input("--operations", 6000, "--live", 150)
        self.assertFalse(binaries.words("realloc"))
        self.assertGreater(len(heaps.words("realloc")), 700)
        self.assertEqual([max(it.live(0)) for it in (binaries, heaps)], [50, 100])
        self.assertEqual((set(binaries.sizes), set(heaps.sizes)), ({56, 120, 248}, {504}))

    def test_types_come_evenly(self):
        """After each operation none is further than the other by more than one of its own."""
        lines, traces = self.input("--operations", 900)
        totals, done = [len(it.operations) for it in traces], [0, 0]
        for line in lines[2 : lines.index("schedule")]:
            done["BH".index(line[0])] += 1
            self.assertLessEqual(abs(done[0] * totals[1] - done[1] * totals[0]), max(totals))
        self.assertEqual(done, totals)

    def test_the_comment_makes_it_again(self):
        files = self.file(self.BINARIES, "b.load"), self.file(self.HEAPS, "h.load")
        done = self.load("--operations", 300, "--schedulers", 2, "--seed", 5, "--phases", 2, *files)
        first, *comments = [it for it in done.stdout.split("\n") if it.startswith("#")]
        again = self.load(*first.removeprefix("# tools/load ").split(), *files)
        self.assertEqual((again.returncode, again.stdout), (0, done.stdout))
        self.assertTrue(comments[-1].startswith("# Flags to begin with: types +S 2 +MMscs 1 "))
        self.assertEqual([it for it in comments if it.startswith("# Type ")], [
            "# Type B, 199 operations:", "# Type H, 101 operations:"])
        alone = self.load(files[0])
        self.assertNotIn("Type B", alone.stdout)

    def test_what_is_refused(self):
        binaries, heaps = self.file(self.BINARIES, "b.load"), self.file(self.HEAPS, "h.load")
        more = self.file(self.BINARIES, "c.load")
        self.refused(f"{more}: its type B is that of {binaries}, too", binaries, heaps, more)
        words = "--schedulers", 4, "--operations", 15, binaries, heaps
        self.refused("--operations is less than two for each scheduler and file (see --help)", *words, status=2)

    def test_carriers_of_each_type(self):
        """Of the run's text the part of the file's type, also where one file is given."""
        files = self.file(Carriers.NODE, "b.load"), self.file(self.HEAPS, "h.load")
        none = "scheduler 1\ntotal carriers 0 units 0 live 0 queued 0 free 0 header 0\n"
        text = self.file(f"type H\n{none}type B\n{Carriers.RUN}", "text")
        done = self.load("--beside", text, *files)
        self.assertEqual((done.returncode, done.stderr), (0, ""))
        of_binaries, _, of_heaps = done.stdout.partition("type H")
        self.assertEqual("\n" + of_binaries.replace("type B", "      "), Carriers.TABLE)
        self.assertRegex(of_heaps, r"^ +node +run\ncarriers +0 +0\n")
        self.assertEqual("\n" + self.load("--beside", text, files[0]).stdout, Carriers.TABLE)
        text = self.file(f"type H\n{none}", "text")
        self.refused(f"{text}: it has no type B", "--beside", text, *files)
        text = self.file(none, "text")
        self.refused(f"{text}: it is of one type, and there are 2 files", "--beside", text, *files)

    @unittest.skipUnless(os.access(PROGRAM, os.X_OK), f"no program at {PROGRAM}, so no input was run")
    def test_it_runs(self):
        files = self.file(self.BINARIES, "b.load"), self.file(self.HEAPS, "h.load")
        path = f"{self.room}/input"
        for ending in "schedule", "threads":
            words = "--operations", 600, "--schedulers", 2, "--ending", ending, "--output", path
            self.assertEqual(self.load(*words, *files).returncode, 0)
            out = run_of(self, path, "types", "+S", "2")
            self.assertEqual(len(re.findall(r"^(?:alloc|free|realloc|give|take|info) ", out, re.M)), 604)
            beside = self.load("--beside", self.file(out, "text"), *files)
            self.assertEqual((beside.returncode, beside.stderr), (0, ""))


class Refusals(Case):
    def test_bad_files(self):
        letters = "one letter is due, of B D E H L R S T"
        for text, line in (
            ("", "line 1: it is not `node-load 1`"),
            ("node-load 2\ntype B\n", "line 1: it is not `node-load 1`"),
            ("# before\n" + SMALL, "line 1: it is not `node-load 1`"),
            (FIRST + "type F\n", f"line 2: {letters}"),
            (FIRST + "type\n", f"line 2: {letters}"),
            (FIRST + "type B\ntype B\n", "line 3: a second `type` line"),
            (FIRST + "\n# a comment\n   \nfrob 1\n", "line 5: no line begins with 'frob'"),
            (FIRST + "type B\nblocks 64 x 1\n", "line 3: 'x' is no number"),
            (FIRST + "type B\nblocks 64 128 -1\n", "line 3: '-1' is no number"),
            (FIRST + "type B\nblocks 64 128 1.5\n", "line 3: '1.5' is no number"),
            (FIRST + "type B\nblocks 64 \u0663 1\n", "line 3: '\\u0663' is no number"),
            (FIRST + "type B\nblocks 64 1234567890123456789 1\n", "line 3: '1234567890123456789' is no number"),
            (FIRST + "type B\nblocks 64 128\n", "line 3: three numbers are due: LOW HIGH COUNT"),
            (FIRST + "type B\nblocks 128 64 1\n", "line 3: LOW is 128, and HIGH is 64"),
            (FIRST + "type B\nschedulers 0\n", "line 3: one number from 1 on is due"),
            (FIRST + "calls 1 2\n", "line 2: three numbers are due: of calls to allocate, to reallocate and to free"),
            (FIRST + "unscanned\n", "line 2: one number is due"),
            (FIRST + "gaps 1 2 3\n", "line 2: no `carrier` line stands before it"),
            (FIRST + "carrier 10 lost 1 5 0\n", "line 2: due are: SIZE used or pooled BLOCKS BYTES UNSCANNED"),
            (FIRST + "carrier 10 used 1 11 0\n", "line 2: a carrier of 10 bytes has no 11 in blocks"),
            (FIRST + "blocks 64 64 1\n", "there is no `type` line"),
            (FIRST + "type B\nblocks 64 64 0\n", "no `blocks` line has a block"),
        ):
            with self.subTest(text):
                path = self.file(text)
                self.refused(f"{path}: {line}", path)
        self.refused(f"{self.room}/none: No such file or directory", f"{self.room}/none")
        self.refused(f"{self.room}: Is a directory", self.room)

    def test_lines_of_another_system(self):
        self.made(SMALL.replace("\n", "\r\n") + "# no line feed", "--operations", 20)

    def test_bad_words(self):
        path, see = self.file(SMALL), " (see --help)"
        for words, line in (
            ([], "either --recorded FILE or one FILE or several are due"),
            (["--operations", "0"], "argument --operations: '0' is no number from 2 to 1048576"),
            (["--operations", "1048577"], "argument --operations: '1048577' is no number from 2 to 1048576"),
            (["--schedulers", "65"], "argument --schedulers: '65' is no number from 1 to 64"),
            (["--seed", "2147483648"], "argument --seed: '2147483648' is no number from 0 to 2147483647"),
            (["--seed", "-1"], "argument --seed: '-1' is no number from 0 to 2147483647"),
            (["--live", "0"], "argument --live: '0' is no number from 1 to 1048576"),
            (["--phases", "0"], "argument --phases: '0' is no number from 1 to 1000"),
            (["--valley", "101"], "argument --valley: '101' is no number from 0 to 100"),
            (["--youngest", "half"], "argument --youngest: 'half' is no number from 0 to 100"),
            (["--overhead", "65"], "argument --overhead: '65' is no number from 0 to 64"),
            (["--handed-over", "1"], "--handed-over needs two --schedulers"),
            (["--live", "101", "--operations", "100"], "--live is more than --operations"),
            (["--schedulers", "64", "--operations", "127"], "--operations is less than two for each scheduler"),
            (["--frob"], "unrecognized arguments: --frob"),
        ):
            with self.subTest(words):
                self.refused(line + see, *words, *([path] if words else []), status=2)
        done = self.load("--ending", "never", path)
        self.assertEqual((done.returncode, done.stdout, done.stderr.count("\n")), (2, "", 1))

    def test_a_trace_that_is_too_long(self):
        """One of as many bytes as the program reads is written, and of one with a byte more nothing is. What the
        program reads is made less here, since a trace of 16 MB takes a minute."""
        self.assertEqual(TOOL.LARGEST_INPUT, 16777216)
        path, out = self.file(SMALL), f"{self.room}/trace"
        length = len(self.load(path).stdout)
        with unittest.mock.patch.object(TOOL, "LARGEST_INPUT", length - 1):
            line = f"the trace has {length} bytes, and the program reads {length - 1}: give fewer --operations"
            self.refused(line, "--output", out, path)
        self.assertFalse(os.path.exists(out))
        with unittest.mock.patch.object(TOOL, "LARGEST_INPUT", length):
            self.assertEqual(self.load("--output", out, path).returncode, 0)

    def test_bad_outputs(self):
        path = self.file(SMALL)
        self.refused(f"{self.room}/none/trace: No such file or directory", "--output", f"{self.room}/none/trace", path)
        self.refused(f"{self.room}: Is a directory", "--output", self.room, path)
        self.assertEqual(sorted(os.listdir(self.room)), ["node.load"])

    def test_bad_standard_outputs(self):
        path = self.file(SMALL)
        reader, writer = os.pipe()
        os.close(reader)
        with open(writer, "wb") as pipe:
            for word in path, "--help":
                done = self.process(word, stdout=pipe)
                self.assertEqual((done.returncode, done.stderr), (1, "load: standard output: Broken pipe\n"))
        if stat.S_ISCHR(os.stat("/dev/full").st_mode):
            with open("/dev/full", "wb") as full:
                done = self.process(path, stdout=full)
            self.assertEqual((done.returncode, done.stderr), (1, "load: standard output: No space left on device\n"))

    def test_output_that_is_no_file(self):
        """A pipe, as a device, is written to, and not replaced."""
        pipe = f"{self.room}/pipe"
        os.mkfifo(pipe)
        with open(f"{self.room}/read", "w+", encoding="ascii") as read:
            with subprocess.Popen(["cat", pipe], stdout=read) as reader:
                try:
                    self.assertEqual(self.load("--output", pipe, self.file(SMALL)).returncode, 0)
                    self.assertEqual(reader.wait(), 0)
                finally:
                    reader.kill()
            read.seek(0)
            self.assertTrue(read.read().endswith("end\n"))
        self.assertTrue(stat.S_ISFIFO(os.stat(pipe).st_mode))

    def test_interrupted(self):
        """It is told to stop while it waits for a file that does not come. A command in the background of a script is
        not told so, and neither is what it starts, unless it says that it wants to be."""
        self.addCleanup(signal.signal, signal.SIGINT, signal.signal(signal.SIGINT, signal.default_int_handler))
        path = f"{self.room}/pipe"
        os.mkfifo(path)
        with subprocess.Popen([LOAD, path], stdout=subprocess.PIPE, stderr=subprocess.PIPE, text=True) as waiting:
            try:
                writer = within(LONGEST_SECONDS, lambda: os.open(path, os.O_WRONLY | os.O_NONBLOCK))
                # One that comes just before it reads would be seen only after the read.
                for _ in range(LONGEST_SECONDS // 60):
                    if waiting.poll() is None:
                        waiting.send_signal(signal.SIGINT)
                    with contextlib.suppress(subprocess.TimeoutExpired):
                        waiting.wait(timeout=60)
                self.assertIsNotNone(waiting.poll())
                out, error = waiting.communicate()
                os.close(writer)
            finally:
                waiting.kill()
        self.assertEqual((waiting.returncode, out, error), (1, "", "load: interrupted\n"))

    def test_earlier_output_stays(self):
        kept = self.file("kept", "trace")
        path = self.file(FIRST)
        self.assertEqual(self.load("--output", kept, path).returncode, 1)
        with open(kept, encoding="ascii") as file:
            self.assertEqual(file.read(), "kept")

    def test_output_through_a_link(self):
        kept = self.file("kept", "trace")
        os.symlink("trace", f"{self.room}/link")
        self.assertEqual(self.load("--output", f"{self.room}/link", self.file(SMALL)).returncode, 0)
        self.assertTrue(os.path.islink(f"{self.room}/link"))
        with open(kept, encoding="ascii") as file:
            self.assertTrue(file.read().endswith("end\n"))

    def test_help(self):
        done = self.process("--help")
        self.assertEqual((done.returncode, done.stderr), (0, ""))
        for word in "--operations", "--seed", "--beside", "invented":
            self.assertIn(word, done.stdout)


class Carriers(Case):
    NODE = (
        SMALL
        + "carrier 262144 used 3 131072 0\ngaps 256 504 2\ngaps 65536 131064 1\n"
        + "carrier 1048576 pooled 1 10480 0\ngaps 524288 1048568 1\n"
        + "carrier 659456 used 1 659456 0\n"
    )
    # 64 pages are 262144 bytes, of which 29492 units, 235936 bytes, are 90.0 percent, and 23592 units 71.9; 744 kB are
    # 186 pages. 700 units are 5600 bytes.
    RUN = (
        "scheduler 1\nalloc 1 1 8 14\n"
        "carrier 1 multi owner 1 employed 1 base 0 pages 64 allocated 29492 largest 700\n"
        "carrier 2 main owner 1 employed 1 base 64 pages 64 allocated 23592 largest 0\n"
        "carrier 3 multi owner 1 busy 1 base 128 pages 186 allocated 14 largest 95000\n"
        "total carriers 3 units 160768 live 53098 queued 0 free 107646 header 24\n"
    )
    TABLE = """
                                                  node           run
carriers                                             3             3
  of them in the pool                                1             1
bytes of carriers                              1970176       1286144
bytes in blocks                                 801008        424784
percent in blocks                                 40.7          33.0
carriers by their size
  up to 256 kB                                       1             2
  up to 1024 kB                                      2             1
carriers by percent in blocks
  0 to 9                                             1             1
  50 to 59                                           1             0
  70 to 79                                           0             1
  90 to 100                                          1             1
carriers by bytes of their largest gap
  no gap                                             1             1
  below 8192                                         0             1
  below 131072                                       1             0
  below 1048576                                      1             1
"""

    def test_table(self):
        done = self.load("--beside", self.file(self.RUN, "text"), self.file(self.NODE))
        self.assertEqual((done.returncode, done.stderr, "\n" + done.stdout), (0, "", self.TABLE))

    def test_a_stopped_scheduler(self):
        """Its line tells of no carrier."""
        text = self.RUN.replace("alloc 1 1 8 14\n", "alloc 1 1 8 14\nstopped 4\n")
        done = self.load("--beside", self.file(text, "text"), self.file(self.NODE))
        self.assertEqual((done.returncode, done.stderr, "\n" + done.stdout), (0, "", self.TABLE))

    def test_nothing_to_tell(self):
        text = "scheduler 1\ntotal carriers 0 units 0 live 0 queued 0 free 0 header 0\n"
        done = self.load("--beside", self.file(text, "text"), self.file(SMALL))
        self.assertEqual(done.returncode, 0)
        self.assertIn("percent in blocks                                    -             -\n", done.stdout)

    def test_histograms(self):
        """Blocks and gaps by size: one that lies across a border is told apart."""
        node = "node-load 1\ntype H\nblocks 96 96 10\nblocks 128 248 4\nblocks 1008 1008 3\nblocks 100 300 2\n"
        node += "carrier 4096 used 5 1000 0\ngaps 128 248 2\ncarrier 8388616 pooled 1 8 0\ngaps 8388608 8388608 1\n"
        blocks, gaps = [1, 1, *[0] * 16], [*[0] * 11, 1, *[0] * 5, 2]
        line = f"blocks {' '.join(map(str, blocks))} gaps {' '.join(map(str, gaps))}"
        text, path = self.file(f"carrier 1 {line}\nall {line}\n", "text"), self.file(node)
        done = self.load("--beside", text, path)
        self.assertEqual((done.returncode, done.stderr, "\n" + done.stdout), (0, "", """
                                                  node           run
blocks by their size
  below 128 bytes                                   10             1
  128 to 248 bytes                                   4             1
  512 to 1016 bytes                                  3             0
  told across a border                               2             -
gaps by their size
  128 to 248 bytes                                   2             0
  131072 to 262136 bytes                             0             1
  8388608 bytes and more                             1             2
"""))
        other = self.file(node.replace("type H", "type B"), "b.load")
        self.refused(f"{text}: histograms are of one type, and there are 2 files", "--beside", text, path, other)

    def test_bad_texts(self):
        path, text = self.file(self.NODE), f"{self.room}/text"
        self.refused(f"{text}: No such file or directory", "--beside", text, path)
        for written, line in (
            ("scheduler 1\n", "it has no `total` line, so no run's text"),
            ("scheduler 1\ncarrier 1\ntotal carriers 1\n", "line 2: it is no line of a carrier"),
            ("generated 7 10\ntotal carriers 1 units\n", "of a generated trace the text has no carriers"),
        ):
            self.file(written, "text")
            self.refused(f"{text}: {line}", "--beside", text, path)


def run_of(test, path, *flags):
    """The text of a trace's run."""
    with open(path, "rb") as trace:
        done = subprocess.run([PROGRAM, *flags], stdin=trace, capture_output=True, text=True, check=False)
    test.assertEqual((done.returncode, done.stderr), (0, ""))
    return done.stdout


class Runs(Case):
    @unittest.skipUnless(os.access(PROGRAM, os.X_OK), f"no program at {PROGRAM}, so no trace was run")
    def test_it_runs(self):
        """Each operation has its line, an info two. No block is missed and none fails where no thread decides."""
        text = FIRST + "type B\nblocks 64 120 500\nblocks 4096 8184 20\nblocks 600000 700000 1\n"
        for ending in "schedule", "turns", "threads":
            for acul in "0", "60":
                words = "--operations", 600, "--reallocs", 20, "--handed-over", 30, "--phases", 2, "--ending", ending
                path = f"{self.room}/trace"
                self.assertEqual(
                    self.load(*words, "--schedulers", 4, "--output", path, self.file(text)).returncode, 0
                )
                out = run_of(self, path, "+S", "4", "+MMscs", "256", "+MBacul", acul)
                self.assertEqual(len(re.findall(r"^(?:alloc|free|realloc|give|take|info) ", out, re.M)), 604)
                if ending != "threads":
                    self.assertIsNone(re.search(r" (?:fail|skipped|absent)\b", out))
                beside = self.load("--beside", self.file(out, "text"), self.file(text, "node.load"))
                self.assertEqual((beside.returncode, beside.stderr), (0, ""))


class LiveNode(Case):
    """A node on the loopback with its own epmd, each with a time limit of its own, and ended by the process that was
    started."""

    # Bytes of the binaries that the node holds, how many, and between which sizes their blocks lie: a binary has a
    # header of a few words, and its block a header and a tag.
    KNOWN = (
        (100, 4000, (108, 192)),
        (1000, 3000, (1008, 1280)),
        (5000, 2000, (5008, 6144)),
        (30000, 1000, (30008, 32768)),
    )
    # What else a node has in binary_alloc.
    OTHERS = 300
    NODE, COOKIE = f"load{os.getpid()}@localhost", "oatmeal"

    @contextlib.contextmanager
    def started(self, words, env, until):
        """A process that has written this word; it is killed in the end."""
        with subprocess.Popen(words, env=env, stdout=subprocess.PIPE, stderr=subprocess.STDOUT, text=True) as process:
            try:
                if until:
                    self.assertEqual(process.stdout.readline().strip(), until)
                yield process
            finally:
                process.kill()

    @contextlib.contextmanager
    def node(self):
        for word in "erl", "escript", "epmd":
            if not shutil.which(word):
                self.skipTest(f"no {word} (Debian: erlang-base and erlang-tools), so no node was asked")
        has_tools = "halt(case code:which(instrument) of non_existing -> 1; _ -> 0 end)."
        if subprocess.run(["erl", "-noinput", "-eval", has_tools], check=False).returncode:
            self.skipTest("no application tools (Debian: erlang-tools), so no node was asked")
        with socket.socket() as free:
            free.bind(("127.0.0.1", 0))
            port = str(free.getsockname()[1])
        env = {**os.environ, "HOME": self.room, "ERL_EPMD_PORT": port, "ERL_EPMD_ADDRESS": "127.0.0.1",
               "ERL_CRASH_DUMP_SECONDS": "0"}
        sizes = ",".join(f"{{{size},{count}}}" for size, count, _ in self.KNOWN)
        held = f"[binary:copy(<<1>>, Size) || {{Size, Count}} <- [{sizes}], _ <- lists:seq(1, Count)]"
        words = f"Held = {held}, io:format(\"ready~n\"), timer:sleep({1000 * LONGEST_SECONDS}), halt(length(Held) rem 2)."
        command = ["erl", "-noinput", "-start_epmd", "false", "-sname", self.NODE, "-setcookie", self.COOKIE,
                   "-kernel", "inet_dist_use_interface", "{127,0,0,1}", "-eval", words]
        with self.started(["epmd", "-address", "127.0.0.1", "-port", port], env, ""):
            within(LONGEST_SECONDS, lambda: socket.create_connection(("127.0.0.1", int(port)), timeout=5).close())
            with self.started(command, env, "ready"):
                yield env

    def ask(self, env, *words):
        done = subprocess.run(["escript", NODE_LOAD, *words], env=env, capture_output=True, text=True)
        return done.returncode, done.stdout, done.stderr

    def test_from_node_to_run(self):
        with self.node() as env:
            path = f"{self.room}/node.load"
            self.assertEqual(self.ask(env, self.NODE, self.COOKIE, "binary_alloc", path), (0, "", ""))
            self.check_refusals(env)
        with open(path, encoding="ascii") as file:
            lines = [it.split() for it in file.read().split("\n") if it and it[0] != "#"]
        self.assertEqual(lines[:2], [["node-load", "1"], ["type", "B"]])
        slots = [tuple(map(int, it[1:])) for it in lines if it[0] == "blocks"]
        self.check_slots(slots)
        self.check_carriers(slots, lines)
        trace = f"{self.room}/trace"
        done = self.load("--operations", 3000, "--reallocs", 0, "--output", trace, path)
        self.assertEqual((done.returncode, done.stderr), (0, ""))
        with open(trace, encoding="ascii") as file:
            made = Trace(self, file.read(), 1)
        for low, high, count in slots:
            found = sum(low <= it + 8 <= high for it in made.sizes)
            self.assertLess(abs(found - len(made.sizes) * count / sum(it[2] for it in slots)), 1)
        if os.access(PROGRAM, os.X_OK):
            out = run_of(self, trace, "+MMscs", "128")
            self.assertIsNone(re.search(r" (?:fail|skipped)\b", out))

    def check_slots(self, slots):
        """The known binaries are in slots that lie around their sizes, and nothing else is there but a few."""
        self.assertLess(sum(it[2] for it in slots), 10000 + self.OTHERS)
        for _, wanted, (low, high) in self.KNOWN:
            found = sum(it[2] for it in slots if it[0] < high and low <= it[1])
            self.assertTrue(wanted <= found < wanted + self.OTHERS)

    def check_carriers(self, slots, lines):
        """The bytes of blocks are between what their slots say at least and at most; so is what is left of each
        carrier, but for its header."""
        carriers, allocated = [], 0
        for word, *words in lines:
            if word == "carrier":
                allocated += int(words[3])
                carriers.append([int(words[0]) - int(words[3]), 0, 0])
            elif word == "gaps":
                low, high, count = map(int, words)
                carriers[-1][1] += low * count
                carriers[-1][2] += high * count
        self.assertGreaterEqual(allocated * 1.01, sum(low * count for low, _, count in slots))
        self.assertLessEqual(allocated * 0.99, sum(high * count for _, high, count in slots))
        self.assertTrue(carriers)
        for left, least, most in carriers:
            self.assertTrue(least <= left <= most + 1024, (left, least, most))

    def check_refusals(self, env):
        out = f"{self.room}/not.load"
        for words, line in (
            ((self.NODE, self.COOKIE, "frob_alloc", out), "frob_alloc: no allocator of this name (see --help)"),
            ((self.NODE, self.COOKIE, "H", out),
             f"{self.NODE}: the blocks of eheap_alloc have no tags: start the node with +MHatags true"),
            ((self.NODE, "wrong", "B", out),
             f"{self.NODE}: no connection: is the node up, is this its name and its cookie?"),
            (("nobody", self.COOKIE, "B", out), "nobody: no name of a node, as shop@host is"),
            ((self.NODE, self.COOKIE, "B", f"{self.room}/none/load"),
             f"{self.room}/none/load: no such file or directory"),
        ):
            self.assertEqual(self.ask(env, *words), (1, "", f"node_load: {line}\n"))
        self.assertEqual(self.ask(env, "a", "b"), (2, "", "node_load: four words are due: NODE COOKIE ALLOCATOR FILE"
                                                          " (see --help)\n"))
        self.assertFalse(os.path.exists(out))


def main():
    result = unittest.TextTestRunner().run(unittest.defaultTestLoader.loadTestsFromModule(sys.modules[__name__]))
    failed = {getattr(it, "test_case", it).id() for it, _ in result.failures + result.errors}
    for _, why in result.skipped:
        print(f"skipped: {why}")
    print(f"{result.testsRun - len(failed) - len(result.skipped)} passed, {len(failed)} failed")
    return 1 if failed else 0


if __name__ == "__main__":
    sys.exit(main())
