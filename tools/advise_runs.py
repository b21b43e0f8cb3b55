"""The runs of tools/advise: which lists of flags are tried, and what comes of each on each recording."""
import contextlib
import multiprocessing
import os
import signal
import sys
import time
from collections import Counter, defaultdict
from concurrent.futures import FIRST_COMPLETED, ProcessPoolExecutor, wait
from concurrent.futures.process import BrokenProcessPool
from dataclasses import dataclass, field
from types import SimpleNamespace

from flags import NOT_MIGRATING, WITHOUT_MIGRATION, Settings
from program import ENDED, end_runs
from rows import AS_A_NODE, read_input, rows_of_run, run_program
from texts import WHOLE
from texts import carrier_of, is_placed, read_text

BYTES_OF_A_UNIT = 8
MEGABYTE = 2**20
CONTEXT = multiprocessing.get_context("fork")
# How many seconds may go by until an interrupt or the end of the time is seen.
EVERY = 0.2
# Whether runs that have not begun are left out.
IS_STOPPED = CONTEXT.Event()
# The values that are tried of a parameter: so many of these below the node's own, and one above it.
LADDERS = {
    "sbct": (16, 32, 64, 128, 256, 512, 1024, 2048, 4096),
    "lmbcs": (256, 512, 1024, 2048, 5120, 10240, 20480),
    "smbcs": (64, 128, 256, 512, 1024, 2048),
    "acul": (30, 60, 80, 95),
}
BELOW = {"sbct": 3, "lmbcs": 3, "smbcs": 1, "acul": 1}
# Strategies; those whose carriers don't migrate come with acul 0, which a node sets there anyway.
STRATEGIES = ("aoffcbf", "ageffcbf", "aoff", "bf", "gf")
NO_MIGRATION, MIGRATION = "0", "60"
# How many lists are put together of the best values.
MOST_TOGETHER = 3


@dataclass(frozen=True)
class Flags:
    """A list of flags as rows_of_run takes it."""

    name: str
    words: list


@dataclass
class Result:
    """What came of a list on a recording: at each moment the row of the run; how many carriers were created, and how
    many singleblock ones there were at most; and what was said where it did not run."""

    at: dict = field(default_factory=dict)
    created: int = None
    singles: int = None
    said: str = None

    def megabytes(self, moment):
        return self.at[moment]["units_end"] * BYTES_OF_A_UNIT / MEGABYTE

    @property
    def failed(self):
        return max((it["failed"] for it in self.at.values()), default=0)


@dataclass
class Trial:
    """A list of flags by its changes of the node's own, and its result for each recording, in their order."""

    changes: tuple
    results: list

    @property
    def is_whole(self):
        return all(it and it.said is None for it in self.results)

    def name(self, letter):
        """As an operator writes it."""
        return " ".join(words_of(self.changes, letter)) or "(the node's own)"


def words_of(changes, letter):
    return [word for name, value in changes for word in (f"+M{letter}{name}", value)]


# ---------------------------------------------------------------------------------------------------------------------
# Which lists
# ---------------------------------------------------------------------------------------------------------------------


def around(own, name):
    """The values of a parameter that are tried beside the node's own."""
    below = [it for it in LADDERS[name] if it < own][-BELOW[name] :]
    above = [it for it in LADDERS[name] if it > own][:1]
    return [str(it) for it in [*below[::-1], *above]]


def single_changes(flags, letter):
    """Lists with one change each, those first whose effect is predicted best. A strategy whose carriers don't migrate
    comes with acul 0, so that a node and the program take both alike."""
    own = Settings.of(flags, letter)
    made = [((name, value),) for name in ("sbct", "lmbcs", "smbcs") for value in around(int(own.asked(name)), name)]
    if letter == WITHOUT_MIGRATION:
        return made
    for it in STRATEGIES:
        stays = () if own.migrates and it not in NOT_MIGRATING else (("acul", NO_MIGRATION),)
        if it != own.strategy:
            made.append((("as", it), *stays))
    if own.migrates:
        made += [(("acul", it),) for it in around(own.limit, "acul")]
        made.append((("as", own.strategy), ("acul", NO_MIGRATION)))
    else:
        made.append((("as", "aoffcbf"), ("acul", MIGRATION)))
    return made


def kind_of(changes):
    """What a list changes: a strategy and its acul are one thing."""
    return "as" if {name for name, _ in changes} & {"as", "acul"} else changes[0][0]


def together(ranked):
    """Lists with the best changes together, of lists with one each that are better than the node's own, best first."""
    best = {}
    for it in ranked:
        best.setdefault(kind_of(it), it)
    first = [*best.values()][: MOST_TOGETHER + 1]
    pairs = [(one, other) for at, one in enumerate(first) for other in first[at + 1 :]]
    threes = [tuple(first[:MOST_TOGETHER])] if len(first) >= MOST_TOGETHER else []
    second = [(it, first[1]) for it in ranked if first[1:] and kind_of(it) == kind_of(first[0]) and it != first[0]][:1]
    return [joined(it) for it in [*pairs[:4], *threes, *second]]


def joined(lists):
    """One list of several, in the order in which they are told."""
    order = ("sbct", "lmbcs", "smbcs", "as", "acul")
    return tuple(sorted((pair for it in lists for pair in it), key=lambda pair: order.index(pair[0])))


# ---------------------------------------------------------------------------------------------------------------------
# One run
# ---------------------------------------------------------------------------------------------------------------------


class Carriers:
    """Which carriers there are, by the entries of a run in the order of their lines: how many were created, and how many
    singleblock ones there were at most. What is queued to a scheduler is released as its next operation begins."""

    def __init__(self, threshold):
        """Blocks of more units than these have carriers of their own."""
        self.threshold = threshold
        self.blocks, self.places, self.singles = Counter(), {}, set()
        self.queues = defaultdict(list)
        self.created = self.most_singles = 0

    def place(self, name, carrier, size):
        if not self.blocks[carrier]:
            self.created += 1
            if size > self.threshold:
                self.singles.add(carrier)
                self.most_singles = max(self.most_singles, len(self.singles))
        self.blocks[carrier] += 1
        self.places[name] = carrier

    def release(self, carrier):
        self.blocks[carrier] -= 1
        if not self.blocks[carrier]:
            self.singles.discard(carrier)

    def step(self, me, entry):
        for carrier in self.queues.pop(me, ()):
            self.release(carrier)
        if entry[0] in ("alloc", "realloc") and is_placed(entry):
            name, _, _, size = entry[-4:] if entry[0] == "alloc" else entry[2:6]
            self.place(name, carrier_of(entry), int(size))
        ended = ended_by(entry)
        old = self.places.pop(entry[1], None) if ended else None
        if ended == "queued" and old:
            self.queues[int(entry[-1])].append(old)
        elif old:
            self.release(old)


def ended_by(entry):
    """How the block of an entry's first name ended: it was `done` with, or `queued`; or None."""
    if entry[0] == "free" and entry[2] != "skipped":
        return entry[2]
    if entry[0] == "realloc" and is_placed(entry):
        return "done" if entry[6] == "here" else entry[7]
    return None


def carriers_of(data, text, threshold):
    """What the entries of a run of recorded operations tell of carriers."""
    found, logs = Carriers(threshold), [iter(it) for it in text.logs]
    for line in data.split(b"\n"):
        if line[:1].isdigit():
            me = int(line.split(b" ", 1)[0])
            found.step(me, next(logs[me - 1]))
    return found


def left_of(end):
    """The seconds until a moment."""
    return max(end - time.monotonic(), 0.1)


def until(end):
    """How a list is run: its rows at marks, until a moment, as a node reads it."""
    return SimpleNamespace(marks=True, seconds=left_of(end), reading=AS_A_NODE)


def result_of(program, words, case, end):
    """What comes of a list on a recording, or None where the time was over first."""
    made = Result()
    rows = rows_of_run(program, Flags("", words), case.input, until(end))
    for row in rows:
        said = row.get("said") or ""
        if said.startswith(ENDED):
            return None
        if row["status"] != 0 or row.get("units_end") is None:
            return Result(said=said or f"status {row['status']}")
        made.at[case.moments[-1] if row["mark"] == WHOLE else row["mark"]] = row
    data, _ = read_input(case.input)
    status, output, _, _ = run_program(program, words, data, left_of(end))
    if status != 0:
        return None
    settings = Settings.of(words, case.letter)
    found = carriers_of(data, read_text(output), settings.threshold)
    made.created, made.singles = found.created, found.most_singles
    return made


def curve_of(program, words, case, end):
    """The megabytes of a list at each mark of a recording, by its name; None where the time was over first."""
    rows = rows_of_run(program, Flags("", words), case.whole, until(end))
    known = {it["mark"]: it["units_end"] * BYTES_OF_A_UNIT / MEGABYTE for it in rows if it.get("units_end") is not None}
    return known if len(known) == len(rows) else None


# ---------------------------------------------------------------------------------------------------------------------
# All runs
# ---------------------------------------------------------------------------------------------------------------------


def begin_process(numbers):
    """For a process that runs the program: a signal ends its run, and not the process."""
    for it in (signal.SIGINT, signal.SIGTERM):
        signal.signal(it, lambda *_: end_runs())
    numbers.put(os.getpid())


class Bench:
    """Runs tasks side by side until its time is over or it is interrupted; what came of each until then is kept."""

    def __init__(self, jobs, end):
        """The end is a moment of time.monotonic."""
        self.jobs, self.end = jobs, end
        self.is_interrupted = False

    @property
    def left(self):
        return self.end - time.monotonic()

    def run(self, title, tasks):
        """The results of (function, arguments ..), None where one did not end. Its last argument is when the time is
        over."""
        results = [None] * len(tasks)
        if not tasks or self.left <= 1 or self.is_interrupted:
            return results
        numbers = CONTEXT.SimpleQueue()
        IS_STOPPED.clear()
        with (
            self.noted_interrupts(),
            ProcessPoolExecutor(self.jobs, mp_context=CONTEXT, initializer=begin_process, initargs=(numbers,)) as pool,
        ):
            futures = [pool.submit(timed, self.end, *task) for task in tasks]
            left = futures
            while left and self.left > 0 and not self.is_interrupted:
                left = wait(left, timeout=EVERY, return_when=FIRST_COMPLETED).not_done
                progress(title, len(tasks) - len(left), len(tasks))
            if left:
                stop(pool, numbers)
            progress(title, None, len(tasks))
        return [value_of(it) for it in futures]

    @contextlib.contextmanager
    def noted_interrupts(self):
        """A signal is noted: an exception could come while a process begins, and be lost there."""

        def note(*_):
            self.is_interrupted = True

        before = [(it, signal.signal(it, note)) for it in (signal.SIGINT, signal.SIGTERM)]
        try:
            yield
        finally:
            for it, handler in before:
                signal.signal(it, handler)


def timed(end, function, *arguments):
    """What a function returns, or None where the time is over."""
    return function(*arguments, end) if time.monotonic() < end and not IS_STOPPED.is_set() else None


def value_of(future):
    """What came of a run, or None."""
    if future.cancelled() or not future.done():
        return None
    try:
        return future.result()
    except BrokenProcessPool:
        return None


def stop(pool, numbers):
    """Ends all runs."""
    IS_STOPPED.set()
    pool.shutdown(wait=False, cancel_futures=True)
    while not numbers.empty():
        os.kill(numbers.get(), signal.SIGTERM)


def progress(title, done, count):
    if sys.stderr and sys.stderr.isatty():
        line = "\r\033[K" if done in (None, count) else f"\radvise: {title}: {done} of {count} runs"
        print(line, end="", file=sys.stderr, flush=True)
