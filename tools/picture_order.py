"""Blocks and carriers over a run, and an order of the entries of several schedulers, for tools/picture."""
import bisect
import itertools
import random
from collections import defaultdict
from dataclasses import dataclass, field

from refused import Refused
from texts import owner_of

MOST_ATTEMPTS, MOST_STEPS = 100, 1_500_000


class Stuck(Exception):
    """No entry can come next. The reasons are blocks of which one was placed too soon."""

    def __init__(self, reasons):
        super().__init__(reasons)
        self.reasons = reasons


# Blocks and carriers over the run


@dataclass(slots=True, eq=False)
class Block:
    """A placement: its place, the moments at which it came, was queued and went, the scheduler in whose queue it was
    put, and whether a stopped scheduler was releasing it. A moment is the number of entries before it."""

    name: str
    life: object
    offset: int
    size: int
    born: int
    queued: int = None
    gone: int = None
    queue: int = None
    is_kept: bool = False

    @property
    def end(self):
        return self.offset + self.size

    def is_there(self, moment):
        return self.born <= moment and (self.gone is None or moment < self.gone)

    def is_queued(self, moment):
        return self.queued is not None and self.queued <= moment


@dataclass(slots=True, eq=False)
class Span:
    """From `start` up to before `end` a carrier had this base and these pages, if they are known."""

    start: int
    end: int = None
    base: int = None
    pages: int = None

    def overlaps(self, other):
        return self.base < other.base + other.pages and other.base < self.base + self.pages


@dataclass(slots=True, eq=False)
class Life:
    """A carrier from its creation until it is gone. `told` has what is known of who uses it: the moment from which it
    holds, the standing and the instance."""

    number: int
    kind: str
    born: int
    gone: int = None
    spans: list = field(default_factory=list)
    told: list = field(default_factory=list)
    blocks: list = field(default_factory=list)

    @property
    def owner(self):
        return owner_of(self.number)

    def is_there(self, moment):
        return self.born <= moment and (self.gone is None or moment < self.gone)

    def tell(self, moment, standing, instance):
        if self.told and self.told[-1][0] == moment:
            self.told.pop()
        if not self.told or standing != "employed" or self.told[-1][1:] != (standing, instance):
            self.told.append((moment, standing, instance))

    def tell_from(self, moment, standing, instance):
        """Nothing changed of this from that moment on."""
        self.told = [it for it in self.told if it[0] < moment]
        self.told.append((moment, standing, instance))

    def split(self, moment):
        """The carrier may have other pages from here on."""
        self.spans[-1].end = moment
        self.spans.append(Span(moment))

    def end(self, moment):
        self.gone = self.spans[-1].end = moment

    def span_at(self, moment):
        return self.spans[bisect.bisect_right(self.spans, moment, key=lambda it: it.start) - 1]

    def told_at(self, moment):
        at = bisect.bisect_right(self.told, moment, key=lambda it: it[0])
        return self.told[at - 1] if at else None

    def add(self, block):
        bisect.insort(self.blocks, block, key=lambda it: it.offset)

    def remove(self, block):
        del self.blocks[bisect.bisect_left(self.blocks, block.offset, key=lambda it: it.offset)]

    def in_the_way(self, offset, end):
        """The blocks that lie between."""
        at = bisect.bisect_right(self.blocks, offset, key=lambda it: it.offset)
        at -= at > 0 and self.blocks[at - 1].end > offset
        found = []
        while at < len(self.blocks) and self.blocks[at].offset < end:
            found.append(self.blocks[at])
            at += 1
        return found


class Replay:
    """Follows entries in one order."""

    def __init__(self, migrates, mains):
        self.migrates = migrates
        self.moment = 0
        self.held, self.blocks, self.lives, self.there = {}, [], [], {}
        self.queues = defaultdict(list)
        for line in mains:
            life = self.begin(line.number, "main", line.owner)
            life.spans = [Span(0, None, line.base, line.pages)]

    def begin(self, number, kind, instance):
        life = Life(number, kind, self.moment, spans=[Span(self.moment)])
        life.tell(self.moment, "employed", instance)
        self.lives.append(life)
        self.there[number] = life
        return life

    def hindrance(self, entry):
        """A held block that lies where the entry places one, or None."""
        _, number, offset, size = entry.placed
        life = self.there.get(number)
        if not life:
            return None
        kept = self.held.get(entry.ended[0]) if entry.stays else None
        is_other = entry.alone or life.kind == "single" and not entry.stays
        blocks = life.blocks if is_other else life.in_the_way(offset, offset + size)
        return next((it for it in blocks if (it.queued is None or it.is_kept) and it is not kept), None)

    def follow(self, entry):
        self.moment += 1
        if entry.stop:
            entry.stop.moment = self.moment
        if entry.stays:
            self.rename(entry)
            return
        if entry.placed:
            self.place(entry)
        if entry.ended:
            self.finish(*entry.ended)

    def rename(self, entry):
        old = self.held.pop(entry.ended[0])
        life = old.life
        self.make_room([it for it in life.in_the_way(old.end, old.offset + entry.placed[3]) if it is not old], entry)
        old.gone = self.moment
        life.remove(old)
        self.put(life, entry)
        if life.kind == "single" and entry.placed[3] < old.size:
            life.split(self.moment)

    def put(self, life, entry):
        name, _, offset, size = entry.placed
        block = Block(name, life, offset, size, self.moment)
        self.held[name] = block
        self.blocks.append(block)
        life.add(block)
        life.tell(self.moment, "employed", entry.scheduler)

    def place(self, entry):
        _, number, offset, size = entry.placed
        life = self.there.get(number)
        if life:
            is_other = entry.alone or life.kind == "single"
            self.make_room(list(life.blocks) if is_other else life.in_the_way(offset, offset + size), entry)
            life = self.there.get(number)
        self.put(life or self.begin(number, "single" if entry.alone else "multi", entry.scheduler), entry)

    def make_room(self, blocks, entry):
        """What lay where the entry places a block was queued before, and is released by now."""
        for block in blocks:
            if block.queued is None or block.is_kept:
                raise Refused(f"the program's text places block {entry.placed[0]} over block {block.name}")
            self.release(block)

    def finish(self, name, how, instance):
        block = self.held.pop(name)
        user = block.life.told[-1][2] if how == "kept" else instance
        block.life.tell(self.moment, "used" if self.migrates else "employed", user)
        if how == "done":
            self.release(block)
            return
        block.queued, block.is_kept = self.moment, how == "kept"
        block.queue = None if block.is_kept else instance
        self.queues[block.queue].append(block)

    def take_queue(self, instance):
        """Releases what is queued there, in the moment that comes."""
        self.moment += 1
        for block in self.queues.pop(instance, []):
            if block.gone is None:
                self.release(block)
        self.moment -= 1

    def release(self, block):
        """Takes the block out; a carrier without blocks is gone, but the main one."""
        life = block.life
        block.gone = self.moment
        life.remove(block)
        if not life.blocks and life.kind != "main":
            life.end(self.moment)
            del self.there[life.number]


# The order of the entries of several schedulers


def turn_costs(entry):
    """About how many turns an entry takes."""
    if entry.missed:
        return 1 + int(entry.line.split()[3])
    if entry.ended and entry.ended[1] == "queued":
        return 3
    return 2 if entry.given or entry.taken else 1


def places_of_turns(turns, schedulers, stops):
    """For each scheduler the runs of its turns up to its stop: how many it had before, and how many all had."""
    runs, had, all_had = [[] for _ in range(schedulers)], [0] * schedulers, 0
    for line in turns:
        for word in line.split():
            number, _, count = word.partition("*")
            at, count = int(number) - 1, int(count or 1)
            count = min(count, stops.get(at + 1, had[at] + count) - had[at])
            runs[at].append((had[at], all_had))
            had[at] += count
            all_had += count
    for at in range(schedulers):
        runs[at].append((had[at], all_had + at * 10**9))
    return runs


def hints(trace, logs):
    """For each entry a number that rises about as time does."""
    if trace.has_threads:
        longest = max(map(len, logs))
        return [[at * longest / len(log) for at in range(len(log))] for log in logs]
    found = []
    turns = places_of_turns(trace.closing[1:-1], len(logs), trace.stops)
    for log, runs, places in zip(logs, turns, trace.places):
        turn, numbers = 0, []
        for at, entry in enumerate(log):
            turn = max(turn + 1, entry.stop.steps) if entry.stop else turn + turn_costs(entry)
            # A line of another type takes one at least.
            turn += places[at] - (places[at - 1] + 1 if at else 0) if at < len(places) else 0
            had, all_had = runs[bisect.bisect_left(runs, (turn, -1)) - 1]
            numbers.append(all_had + turn - had)
        found.append(numbers)
    return found


class Order:
    """Looks for an order of all entries that fits what they say: each log in its own order, a give before its take and
    after the tries that found nothing, no block where another one is held, the first block of a carrier placed by its
    owner, and no carrier used by another instance before the one that uses it may have abandoned it."""

    def __init__(self, logs, numbers, migrates, mains):
        self.logs, self.numbers, self.migrates, self.mains = logs, numbers, migrates, mains
        self.size = sum(map(len, logs))
        self.steps_left = MOST_STEPS

    def candidates(self):
        """Orders that fit: first by the numbers and then so that carriers change hands late, if they can; after that by
        numbers that are moved at random."""
        numbers, pick = self.numbers, random.Random(1).random
        for search in itertools.count() if self.migrates else (0,):
            if search > 1:
                self.numbers = [moved(it, self.size * pick() ** 3, 0.5 + pick()) for it in numbers]
            found = self.search(search % 2 == 1)
            if found:
                yield found
            if self.steps_left <= 0:
                return

    def search(self, keeps_hands):
        """Where no entry can come next, one block was placed too soon: it is placed later in the next attempt."""
        before = defaultdict(set)
        for _ in range(MOST_ATTEMPTS):
            self.steps_left -= self.size + 1
            attempt = Attempt(self, before, keeps_hands)
            try:
                return attempt.run()
            except Stuck as stuck:
                new = [it for it in stuck.reasons if it.needs not in before[it.name]]
                if not new:
                    return None
                reason = max(new, key=lambda it: (it.needs[0] == "ended", it.born))
                before[reason.name].add(reason.needs)
        return None


def recorded_order(logs, schedulers, migrates, mains):
    """The replay of entries in the order of their schedulers, and that order. A queue is taken where the next operation
    of its scheduler begins."""
    replay, parts, order = Replay(migrates, mains), [iter(it) for it in logs], []
    for me in schedulers:
        entry = next(parts[me - 1])
        replay.take_queue(me)
        replay.follow(entry)
        order.append(entry)
    return replay, order


def moved(numbers, later, slower):
    return [later + slower * it for it in numbers]


@dataclass
class Reason:
    """The block of this name was placed at this moment, and something has to come before it, perhaps: `needs` is
    'placed' or 'ended' and the name of the block to which that has to happen."""

    name: str
    born: int
    needs: tuple


class Attempt:
    """One attempt to put all entries in order."""

    def __init__(self, order, before, keeps_hands):
        self.logs, self.numbers, self.before, self.keeps_hands = order.logs, order.numbers, before, keeps_hands
        self.left = order.size
        self.replay = Replay(order.migrates, order.mains)
        self.at = [0] * len(self.logs)
        self.given, self.happened, self.misses = set(), set(), self.count_misses()
        self.ends = {it.ended[0] for log in self.logs for it in log if it.ended}

    def count_misses(self):
        """How many tries for each name, that found nothing, come before it was given."""
        found = defaultdict(int)
        for log in self.logs:
            got = set()
            for entry in log:
                if entry.taken:
                    got.add(entry.taken)
                elif entry.missed and entry.missed not in got:
                    found[entry.missed] += 1
        return found

    def run(self):
        order = []
        while self.left:
            order.append(self.next_entry())
            self.note(order[-1])
        return self.replay, order

    def next_entry(self):
        best, reasons = None, []
        for section, log in enumerate(self.logs):
            if self.at[section] == len(log):
                continue
            entry = log[self.at[section]]
            key = self.keeps_hands and self.changes_hands(entry), self.numbers[section][self.at[section]], section
            if (best is None or key < best) and self.may_come(entry, reasons):
                best = key
        if best is None:
            raise Stuck(reasons)
        section = best[2]
        self.at[section] += 1
        return self.logs[section][self.at[section] - 1]

    def note(self, entry):
        self.left -= 1
        self.replay.follow(entry)
        if entry.given:
            self.given.add(entry.given)
        if entry.missed:
            self.misses[entry.missed] -= 1
        if entry.ended:
            self.happened.add(("ended", entry.ended[0]))
        if entry.placed:
            self.happened.add(("placed", entry.placed[0]))

    def changes_hands(self, entry):
        life = self.replay.there.get(entry.placed[1]) if entry.placed else None
        return life is not None and life.told[-1][2] != entry.scheduler

    def may_come(self, entry, reasons):
        if entry.taken:
            return entry.taken in self.given
        if entry.given:
            return self.misses[entry.given] <= 0
        if not entry.placed:
            return True
        return self.before[entry.placed[0]] <= self.happened and self.may_be_placed(entry, reasons)

    def may_be_placed(self, entry, reasons):
        name, number = entry.placed[:2]
        life = self.replay.there.get(number)
        if not life:
            return owner_of(number) == entry.scheduler
        block = self.replay.hindrance(entry)
        if block:
            if name in self.ends:
                reasons.append(Reason(block.name, block.born, ("ended", name)))
            return False
        if not self.changes_hands(entry) or entry.stays or life.told[-1][1] == "used":
            return True
        if any(it.queued is not None for it in life.blocks):
            return True
        last = max(life.blocks, key=lambda it: it.born)
        reasons.append(Reason(last.name, last.born, ("placed", name)))
        return False
