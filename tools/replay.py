"""The replay of a run whose order is known, for tools/compare: what there was at most, and at marks."""
from collections import Counter, defaultdict
from dataclasses import dataclass, field, replace
from itertools import combinations, islice
from math import comb

from flags import Settings
from program import OF_RULES, command_of, run
from texts import UNITS_OF_A_PAGE, carrier_of, is_placed, owner_of, read_text
from texts import Carrier as Line

MOST_OPERATIONS = 2**20
LARGEST_INPUT = 2**24
# How many sets of carriers are tried where several may be the ones that were abandoned.
MOST_CHOICES = 10000
HEADER = 8
# In each of the two lines of an `info`, the places of the words that say what there is now: blocks and their units,
# carriers and theirs; and of the word with the greatest units of carriers ever.
NOW, UNITS_EVER = (3, 7, 11, 15), 17
CARRIERS, UNITS = 2, 3


@dataclass
class Carrier:
    # multi, single or main; None until an `info` tells it.
    kind: str = None
    # employed, pooled or returning: by the holder, put into the pool by it, or to it.
    standing: str = "employed"
    holder: int = 0
    units: int = 0
    blocks: int = 0
    block_units: int = 0

    def figures(self):
        """Those by which an `info` counts it."""
        return self.blocks, self.block_units, 1, self.units


@dataclass
class Figures:
    """What there was at most, how many carriers were created, and how often they moved; `unclear` of them may have been
    abandoned once more."""

    created: int = 0
    most_carriers: int = 0
    most_units: int = 0
    most_use: tuple = (0, 1)
    abandoned: int = 0
    fetched: int = 0
    returned: int = 0
    unclear: int = 0


@dataclass
class Moment:
    """What there is before a line: how many entries each log has, and what the text of a run would end with."""

    done: list
    carriers: list
    total: dict
    figures: Figures


def now_in(entry):
    """What an `info` says that there is now, of main and multiblock carriers and of singleblock ones."""
    return [[int(entry[begin + at]) for at in NOW] for begin in (0, len(entry) // 2)]


def gaps_of(blocks, units):
    """The units of the gaps of a carrier with blocks at these offsets, of these units."""
    ends = [HEADER, *(offset + size for offset, size in sorted(blocks))]
    begins = [*(offset for offset, _ in sorted(blocks)), units]
    return [begin - end for begin, end in zip(begins, ends) if begin > end]


class Replay:
    """Follows the carriers through the entries, each operation of which is over before the next one begins."""

    def __init__(self, text, migrates):
        self.migrates = migrates
        self.carriers, self.spots = {}, {}
        # What each scheduler has to release: names of blocks, and numbers of carriers that came back.
        self.queues = defaultdict(list)
        self.uses = defaultdict(lambda: [0, 0, 0, 0])
        self.units = self.block_units = 0
        self.done = [0] * len(text.logs)
        self.figures, self.moments = Figures(), []
        # Whether all is known so far, and whether an `info` told otherwise.
        self.is_known, self.is_wrong = True, False
        self.sized, self.candidates = None, {}
        for it in text.carriers:
            if it.kind == "main":
                self.carriers[it.number] = Carrier(it.kind, holder=it.owner, units=it.units)
                self.count(self.carriers[it.number], 1)
                self.units += it.units
                self.figures.created += 1
        self.observe(0, 0)

    # What is counted

    def count(self, carrier, sign):
        if carrier.standing == "employed" and carrier.kind:
            use = self.uses[carrier.holder, carrier.kind == "single"]
            for at, number in enumerate(carrier.figures()):
                use[at] += sign * number

    def change(self, carrier, **values):
        self.count(carrier, -1)
        self.units += values.get("units", carrier.units) - carrier.units
        for name, value in values.items():
            setattr(carrier, name, value)
        self.count(carrier, 1)

    def fill(self, carrier, blocks, units):
        """So many blocks more, and units in blocks."""
        carrier.blocks += blocks
        carrier.block_units += units
        self.block_units += units
        if carrier.standing == "employed" and carrier.kind:
            use = self.uses[carrier.holder, carrier.kind == "single"]
            use[0] += blocks
            use[1] += units

    def remove(self, number):
        self.count(self.carriers[number], -1)
        self.units -= self.carriers.pop(number).units

    def observe(self, gone_carriers, gone_units):
        """After an operation, in which at last so many went."""
        it = self.figures
        it.most_carriers = max(it.most_carriers, len(self.carriers) + gone_carriers)
        it.most_units = max(it.most_units, self.units + gone_units)
        if self.block_units * it.most_use[1] > it.most_use[0] * self.units:
            it.most_use = self.block_units, self.units

    # Operations

    def place(self, me, name, spot):
        number, _, size = spot
        carrier = self.carriers.get(number)
        if carrier is None:
            carrier = self.sized = self.carriers[number] = Carrier(holder=me)
            self.figures.created += 1
        elif carrier.holder != me or carrier.standing != "employed":
            self.is_wrong |= self.is_known and carrier.standing != "pooled"
            self.figures.fetched += 1
            self.change(carrier, standing="employed", holder=me)
        self.fill(carrier, 1, size)
        self.spots[name] = spot

    def keep(self, old, new, size):
        """A block that stays where it is."""
        number, offset, before = self.spots.pop(old)
        self.spots[new] = number, offset, size
        self.fill(self.carriers[number], 0, size - before)
        if self.carriers[number].kind in ("single", None):
            self.sized = self.carriers[number]

    def release(self, me, name):
        """Releases a block of a carrier that this instance uses, or abandoned. It returns what went of carriers."""
        number, _, size = self.spots.pop(name)
        carrier = self.carriers[number]
        self.fill(carrier, -1, -size)
        if carrier.blocks or carrier.kind == "main":
            if self.migrates and carrier.standing == "employed" and carrier.kind != "main":
                self.candidates[number] = carrier
            return 0, 0
        # Abandoned or not after the block before: nothing tells it where both were queued.
        self.figures.unclear += self.candidates.pop(number, None) is not None
        owner = owner_of(number)
        if owner == me:
            self.remove(number)
            return 1, carrier.units
        self.figures.returned += 1
        self.change(carrier, standing="returning", holder=owner)
        self.queues[owner].append(number)
        return 0, 0

    def take_queue(self, me):
        for it in self.queues.pop(me, ()):
            if isinstance(it, int):
                self.remove(it)
            elif self.carriers[self.spots[it][0]].holder == me:
                self.release(me, it)
            else:
                self.queues[self.carriers[self.spots[it][0]].holder].append(it)

    def end_of(self, me, name, how):
        """A block that is released or queued, as the last words of an entry say."""
        if how[0] == "queued":
            self.queues[int(how[1])].append(name)
        return self.release(me, name) if how[0] == "done" else (0, 0)

    def step(self, me, entry):
        """An operation as its entry tells it. It returns what went of carriers."""
        if entry[0] == "alloc" and is_placed(entry):
            self.place(me, entry[1], (carrier_of(entry), int(entry[3]), int(entry[4])))
        elif entry[0] == "free":
            return self.end_of(me, entry[1], entry[2:])
        elif entry[0] == "realloc" and is_placed(entry):
            if entry[6] == "here":
                self.keep(entry[1], entry[2], int(entry[5]))
            else:
                self.place(me, entry[2], (carrier_of(entry), int(entry[4]), int(entry[5])))
                return self.end_of(me, entry[1], entry[7:])
        return 0, 0

    # What entries do not tell

    def settle(self, me, info):
        """Takes over what an `info` tells: the size of a carrier that is new or may be smaller, and which of those that
        may have been abandoned were."""
        if self.is_known and info:
            told = now_in(info)
            if self.sized and not self.sized.kind:
                is_single = told[1][CARRIERS] > self.uses[me, True][CARRIERS]
                self.change(self.sized, kind="single" if is_single else "multi")
            for it in self.abandoned(me, told[0]):
                self.figures.abandoned += 1
                self.change(it, standing="pooled")
            if self.sized:
                is_single = self.sized.kind == "single"
                more = told[is_single][UNITS] - self.uses[me, is_single][UNITS]
                self.change(self.sized, units=self.sized.units + more)
            self.is_wrong |= told != [self.uses[me, False], self.uses[me, True]]
        self.is_known = self.is_known and bool(info or not self.waits())
        self.sized, self.candidates = None, {}

    def waits(self):
        """Whether something happened that no entry tells."""
        return bool(self.sized or self.candidates)

    def abandoned(self, me, told):
        """Those candidates whose figures are missing in what is told of an instance."""
        missing = [mine - theirs for mine, theirs in zip(self.uses[me, False], told)]
        count, some = missing[CARRIERS], [*self.candidates.values()]
        if count <= 0 or count == len(some):
            return some[: max(count, 0)]
        if comb(len(some), count) > MOST_CHOICES:
            self.is_wrong = True
            return []
        sums = ((it, [*map(sum, zip(*(one.figures() for one in it)))]) for it in combinations(some, count))
        found = [*islice((it for it, figures in sums if figures == missing), 2)]
        self.is_wrong |= len(found) != 1
        return found[0] if found else []

    # All of them

    def follow(self, steps, places):
        """Follows the steps, and keeps the moments before the lines at these places. It returns before and after which
        lines an `info` is missing."""
        before, after, places = set(), set(), [*places]
        for at, me, first, entry, last in steps:
            while places and places[0] <= at:
                self.keep_moment(places.pop(0))
            self.take_queue(me)
            first = first or (entry if entry[0] == "info" else None)
            if self.waits() and not first:
                before.add(at)
            self.settle(me, first)
            gone = self.step(me, entry)
            if self.waits() and not last:
                after.add(at)
            self.settle(me, last)
            self.observe(*gone)
            self.done[me - 1] += 1
        while places:
            self.keep_moment(places.pop(0))
        return before, after

    def end(self, text):
        """After all lines: each scheduler takes its queue once more."""
        standings = {it.number: it.standing for it in text.carriers}
        for me in range(1, len(text.logs) + 1):
            self.take_queue(me)
            for number, it in self.candidates.items():
                if standings.get(number) == "pooled":
                    self.figures.abandoned += 1
                    self.change(it, standing="pooled")
            self.candidates = {}
            self.observe(0, 0)

    def stop(self, names, text):
        """The blocks of these names were to be freed when their schedulers were stopped. Where one was released, the
        line of its carrier is without it."""
        for line in text.carriers:
            held = {name: size for name, (number, _, size) in self.spots.items() if number == line.number}
            for name in held.keys() & names:
                if line.allocated == sum(held.values()) - held[name]:
                    carrier = self.carriers[line.number]
                    self.figures.returned += line.standing == "returning"
                    self.change(carrier, standing=standing_in(line), holder=line.employer)
                    self.fill(carrier, -1, -self.spots.pop(name)[2])

    # What there is

    def blocks(self):
        """The offset and the units of each block, by the number of its carrier."""
        found = defaultdict(list)
        for number, *spot in self.spots.values():
            found[number].append(spot)
        return found

    def lines(self):
        """The carriers as a text has them, without their places."""
        blocks = self.blocks()
        for number, it in sorted(self.carriers.items()):
            pages, largest = it.units // UNITS_OF_A_PAGE, max(gaps_of(blocks[number], it.units), default=0)
            yield Line(number, it.kind, owner_of(number), it.standing, it.holder, 0, pages, it.block_units, largest)

    def keep_moment(self, _):
        queued = sum(self.spots[it][2] for queue in self.queues.values() for it in queue if isinstance(it, str))
        header = HEADER * len(self.carriers)
        total = {"carriers": len(self.carriers), "units": self.units, "live": self.block_units - queued,
                 "queued": queued, "free": self.units - self.block_units - header, "header": header}
        self.moments.append(Moment([*self.done], [*self.lines()], total, replace(self.figures)))

    def agrees(self, text):
        """Whether it ends with the carriers and totals that the text has, and met nothing else on the way."""
        there = [replace(it, base=0, standing=standing_in(it)) for it in text.carriers]
        blocks = text.total["live"] + text.total["queued"]
        return not self.is_wrong and [*self.lines()] == there and self.block_units == blocks


def standing_in(line):
    """One that a stopped scheduler made busy is in the pool."""
    return "pooled" if line.standing == "busy" else line.standing


# The copy with infos


def steps_of(order, logs, before=(), after=()):
    """Each line's place, its scheduler and its entry, between those of the infos that were put before and after it."""
    rests = [iter(it) for it in logs]
    for at, me in enumerate(order):
        rest = rests[me - 1]
        first = next(rest, None) if at in before else None
        entry = next(rest, None)
        if entry:
            yield at, me, first, entry, next(rest, None) if at in after else None


def with_infos(trace, before, after):
    """The lines of the trace in their order, each with its scheduler, with an `info` before and after these."""
    rests = [iter(it) for it in trace.sections]
    for at, me in enumerate(trace.steps()):
        yield from [(me, b"info")] * (at in before)
        yield me, next(rests[me - 1])
        yield from [(me, b"info")] * (at in after)


def copy_of(trace, before, after):
    """The trace with these infos, or None if it is longer than one may be."""
    lines = [*with_infos(trace, before, after)]
    begin = [b"type " + trace.letter.encode(), *([OF_RULES + b" " + trace.rules.encode()] if trace.rules else [])]
    if trace.order is not None:
        parts = [b"%d %s" % it for it in lines]
    else:
        parts = of_sections(trace, lines, after)
    text = b"\n".join([*begin, *parts, b"end", b""])
    return text if len(lines) <= MOST_OPERATIONS and len(text) <= LARGEST_INPUT else None


def of_sections(trace, lines, after):
    """These lines as sections. Before an `info` no queue has a block, so that each takes a step."""
    infos = Counter(me for at, me in enumerate(trace.steps()) if at in after)
    for number in range(1, len(trace.sections) + 1):
        yield b"scheduler %d" % number
        yield from (line for me, line in lines if me == number)
    for me, steps in trace.stops.items():
        yield b"stop %d %d" % (me, steps + infos[me])
    yield b"schedule"


# The replay


def stopped_frees(trace, text):
    """The names in the `free` operations at which schedulers are stopped."""
    rests = [trace.sections[me - 1][len(text.logs[me - 1]) :] for me in text.stopped]
    return {str(int(it[0].split()[1])) for it in rests if it and it[0].split()[0] == b"free"}


def without_infos(logs):
    return [[it for it in log if it[0] != "info"] for log in logs]


def says_the_same(told, text):
    """Whether infos changed nothing."""
    is_same = told.carriers == text.carriers and told.total == text.total
    return is_same and without_infos(told.logs) == without_infos(text.logs)


def run_copy(program, words, trace, missing, seconds):
    """What a run of the trace with these infos wrote; None if it has no place for them, or failed."""
    copy = copy_of(trace, *missing)
    ran = copy and run([program, *command_of(copy.split(b"\n", 2)), *words], copy, seconds)
    return read_text(ran.stdout) if ran and ran.returncode == 0 else None


def contents(words, trace, text):
    """Each carrier's line at the end of recorded operations, with the units of its blocks and gaps; None where these do
    not agree. It takes no infos: which blocks are there the entries tell alone."""
    found = Replay(text, Settings.of(words, trace.letter).migrates)
    found.follow(steps_of(trace.steps(), text.logs), [])
    found.end(text)
    blocks = found.blocks()
    made = [(it, [size for _, size in blocks[it.number]], gaps_of(blocks[it.number], it.units)) for it in text.carriers]
    agree = all((sum(sizes), max(gaps, default=0)) == (it.allocated, it.largest) for it, sizes, gaps in made)
    return made if agree else None


def replay(program, words, trace, text, seconds, places=()):
    """The replay of a run whose order is known, or None where it does not lead to the end that the text tells. It has
    the moments before the lines at these places."""
    migrates, told = Settings.of(words, trace.letter).migrates, text
    found = Replay(text, migrates)
    missing = found.follow(steps_of(trace.steps(), text.logs), places)
    if any(missing):
        told = run_copy(program, words, trace, missing, seconds)
        if not told or not says_the_same(told, text):
            return None
        found = Replay(told, migrates)
        found.follow(steps_of(trace.steps(), told.logs, *missing), places)
    if not found.is_known:
        return None
    if trace.order is not None:
        found.end(text)
    found.stop(stopped_frees(trace, text), text)
    return found if found.agrees(text) else None
