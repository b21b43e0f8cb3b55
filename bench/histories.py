"""Checks an output of a trace with `threads`: `check` raises Wrong if no list of atomic steps can give it.

It computes no placement. What it knows of time is the order of each section; that a give comes before the take that got
its block, and after the last try of a take that did not; and that a block was put in a queue before another one lies in
its place. These have to fit together. Where carriers don't migrate, only its owner places blocks in a carrier, so the
lines of one section tell which of its blocks lie there at the same time, up to those that others queued and whose
release no line tells. Where they migrate (`Moved`) less is known: two blocks that were placed over each other have an
order, and those that no line ended lie there in the end.

Of a scheduler that stopped the log is a front. Its steps are counted: where carriers don't migrate, those of its lines
are known up to what others queued, and else there is a least and a most. They tell how far it may be in the operation
without a line: what it held may be in its hand, a block may be placed that no line tells, and a node that it didn't link
keeps all that its owner takes out of the queue with it. Where carriers migrate, it may also have one in its hand, which
is busy or empty.
"""
import itertools
import os
import re
import sys
from dataclasses import dataclass, field
from functools import partial

sys.path.insert(0, os.path.join(os.path.dirname(os.path.realpath(__file__)), "..", "tools"))
from texts import NUMBER as N, NUMBERS_OF_AN_INSTANCE as NUMBERS
from texts import SMALLEST_BLOCK, carrier_in, need_of, numbers_in, total_in

ENDINGS = ("free", "realloc")
PLACINGS = ("alloc", "realloc")
HEADER = 8
PAGE = 512
UNITS_OF_A_KB = 128
KB_OF_A_PAGE = 4
MOST_SUBSETS = 2**12
PLACE = f"{N} {N} {N}"
FAIL = f"fail need {N} looked {N} (space|numbers)"
MOST_LOOKED = 16
MOST_LISTED = 2 * 8
# A node costs no more steps than this, each time that it is in a queue, and an operation no more beside its search.
STEPS_OF_A_NODE = 9
STEPS_OF_A_ROUTE = 12
FIGURES = " ".join(f"{it} {N} {N} {N}" for it in ("blocks", "blocks_size", "carriers", "carriers_size"))
# What may follow the words of its operation that a line repeats.
FORMS = {
    "alloc": {"placed": PLACE, "failed": FAIL},
    "free": {"done": "done", "queued": f"queued {N}", "skipped": "skipped"},
    "realloc": {
        "here": f"{PLACE} here",
        "done": f"{PLACE} moved done",
        "queued": f"{PLACE} moved queued {N}",
        "failed": FAIL,
        "skipped": "skipped",
    },
    "give": {"given": "", "skipped": "skipped"},
    "take": {"got": "got", "absent": f"absent {N}"},
    "info": {"told": f"mbcs {FIGURES}\ninfo sbcs {FIGURES}"},
    "idle": {"idle": ""},
}
FORMS = {word: {it: re.compile(form) for it, form in forms.items()} for word, forms in FORMS.items()}
REPEATED = {"alloc": 2, "realloc": 3, "take": 2}


class Wrong(Exception):
    """What no list of steps can give."""


def demand(fact, text):
    if not fact:
        raise Wrong(text)


def pages_of(units):
    return -(-units // PAGE)


def owner_of(number):
    """The scheduler, from 0, that creates the carriers of this number."""
    return (number - 1) // NUMBERS


@dataclass
class Entry:
    """An operation and what its line says of it."""

    operation: tuple
    result: str
    said: tuple

    @property
    def place(self):
        """The carrier, the offset and the size of the block that it placed or kept."""
        word = self.operation[0]
        placed = self.result == "placed" or word == "realloc" and self.result in ("here", "done", "queued")
        return self.said[:3] if placed else None

    @property
    def takes_turns(self):
        """Whether it has steps after the one in which it begins."""
        return self.result in ("given", "got", "absent", "queued")

    @property
    def least_steps(self):
        """Its steps if no queue has a block, where carriers don't migrate; of a take that got its block, if it did so at
        once."""
        if self.result == "absent":
            return 1 + self.operation[-1]
        return {"given": 2, "got": 2, "queued": 3}.get(self.result, 1)

    def __str__(self):
        return " ".join(map(str, self.operation))


@dataclass
class Halt:
    """What a scheduler that stopped may have done of the operation that has no line: `least` and `most` are the steps of
    it. `old` is the block that it frees or replaces, if it held its name, and `need` what a block needs in its place."""

    least: int
    most: int
    old: object = None
    need: int = None
    # Of each carrier that it employs whether the known blocks fit alone, and the sizes of one more with which they do.
    fits: list = field(default_factory=list)

    def lives(self):
        """By how much the units of live blocks may differ from those of the blocks that no line ended."""
        if not self.old:
            return {0}
        gone = {-self.old.size} if self.most else set()
        if not self.need:
            return gone | ({0} if self.least <= 0 else set())
        others = [sizes for alone, sizes in self.fits if not alone]
        kept = {0} if self.least <= 0 and not others else set()
        sizes = set.union(*(sizes for _, sizes in self.fits)) if self.fits and not others else set()
        sizes = others[0] if len(others) == 1 else sizes
        return kept | {it + size for it in gone for size in sizes}


@dataclass
class Block:
    """A block with its place. `room` are the units of its singleblock carrier, and 0 in another. `birth` is the
    operation of its carrier's owner that placed or kept it; where carriers migrate, its section and that operation.
    `death` has the section and the operation that freed or replaced it. Of a block that another scheduler queued, `gone`
    is an operation of the owner before which it was released for sure."""

    carrier: int
    offset: int
    size: int
    room: int
    birth: int
    death: tuple = None
    gone: int = None

    @property
    def end(self):
        return self.offset + self.size

    @property
    def owner(self):
        return owner_of(self.carrier)

    def clashes(self, other):
        """Whether the two, of one carrier number, cannot lie there at the same time."""
        return bool(self.room or other.room) or self.offset < other.end and other.offset < self.end


def has(carrier, blocks):
    """Whether a carrier's figures are those of these blocks."""
    at, largest = HEADER, 0
    for block in sorted(blocks, key=lambda it: it.offset):
        if block.offset < at:
            return False
        at, largest = block.end, max(largest, block.offset - at)
    figures = sum(it.size for it in blocks), max(largest, carrier.units - at)
    return at <= carrier.units and figures == (carrier.allocated, carrier.largest)


def next_line(lines):
    demand(lines, "the output ends early")
    return lines.pop()


def entry_of(operation, lines):
    """Reads the line of an operation, or both lines of info."""
    word = operation[0]
    repeated = " ".join(map(str, operation[: REPEATED.get(word, len(operation))]))
    line = next_line(lines)
    if word == "info":
        line += "\n" + next_line(lines)
    said = line[len(repeated) + 1 :]
    if line == (f"{repeated} {said}" if said else repeated):
        for result, form in FORMS[word].items():
            match = form.fullmatch(said)
            if match:
                return Entry(operation, result, numbers_in(match))
    raise Wrong(f"'{line}' is no line of '{' '.join(map(str, operation))}'")


def log_of(operations, stop, lines):
    """The entries of a section, and whether it stopped: then it has those of a front."""
    entries = []
    while not lines or not lines[-1].startswith("stopped "):
        if len(entries) == len(operations):
            return entries, False
        entries.append(entry_of(operations[len(entries)], lines))
    line = lines.pop()
    demand(stop is not None, f"'{line}' of one that has no stop")
    demand(line == f"stopped {stop}", f"'{line}' in place of 'stopped {stop}'")
    return entries, True


def read(trace, text):
    """The entries of each section, those that stopped, the carriers and the numbers of the total line."""
    demand(text.endswith("\n"), "the last line has no end")
    lines = text[:-1].split("\n")[::-1]
    sections, stopped = [], set()
    for me, operations in enumerate(trace.sections):
        line = next_line(lines)
        demand(line == f"scheduler {me + 1}", f"'{line}' in place of 'scheduler {me + 1}'")
        entries, is_stopped = log_of(operations, trace.stops.get(me), lines)
        sections.append(entries)
        stopped |= {me} if is_stopped else set()
    carriers = []
    while len(lines) > 1:
        line = lines.pop()
        carriers.append(carrier_in(line))
        demand(carriers[-1], f"'{line}' is no line of a carrier")
    line = next_line(lines)
    total = total_in(line)
    demand(total, f"'{line}' is no line of totals")
    return sections, stopped, carriers, (*total.values(),)


class Order:
    """What is known of the order of steps: `first` and `last` have for each section and each of its operations the step
    in which the operation itself begins, after its queue, and its last one. The end of a section is one step more, or, of one
    that stopped, the begin of its next operation, if there was one."""

    def __init__(self, sections):
        self.first, self.last, self.steps, self.after = [], [], [], []
        for number, entries in enumerate(sections, 1):
            self.first.append([])
            self.last.append([])
            for entry in entries:
                self.first[-1].append(len(self.steps))
                self.steps += [f"'{entry}' of {number}"] * (2 if entry.takes_turns else 1)
                self.last[-1].append(len(self.steps) - 1)
            self.first[-1].append(len(self.steps))
            self.steps.append(f"the end of {number}")
            self.after += [{it + 1} for it in range(len(self.after), len(self.steps) - 1)] + [set()]

    def put(self, before, after):
        self.after[before].add(after)

    def close(self):
        """Finds all that comes after each step, as bits."""
        counts = [0] * len(self.after)
        for it in itertools.chain.from_iterable(self.after):
            counts[it] += 1
        found = [it for it, count in enumerate(counts) if not count]
        for step in found:
            for it in self.after[step]:
                counts[it] -= 1
                if not counts[it]:
                    found.append(it)
        left = [it for step, it in enumerate(self.steps) if counts[step]]
        demand(not left, f"in no order: {', '.join(left[:8])}")
        self.reached = [0] * len(self.after)
        for step in reversed(found):
            for it in self.after[step]:
                self.reached[step] |= self.reached[it] | 1 << it

    def is_before(self, one, other):
        return bool(self.reached[one] >> other & 1)


class History:
    """What an output tells: `gives` has the section and the operation that gave each name, `queuings` for each
    scheduler those that put a block in its queue. `halts` has those that stopped, and `hangings` for each scheduler those
    that may have put a block in its queue without a link."""

    def __init__(self, trace, text):
        self.trace = trace
        self.values = trace.values
        self.threshold = trace.values["sbct"] * UNITS_OF_A_KB
        self.main = -(-trace.values["mmbcs"] // KB_OF_A_PAGE)
        self.sections, stopped, self.carriers, self.total = read(trace, text)
        self.halts = dict.fromkeys(stopped)
        self.order = Order(self.sections)
        self.blocks = {}
        self.queuings = [[] for _ in self.sections]
        self.hangings = [[] for _ in self.sections]
        self.gives = {
            entry.operation[1]: (me, at)
            for me, entries in enumerate(self.sections)
            for at, entry in enumerate(entries)
            if entry.result == "given"
        }

    def check(self):
        self.note_places()
        held = [self.follow(me) for me in range(len(self.sections))]
        for me, steps in self.trace.stops.items():
            self.count_steps(me, steps, held[me])
        self.order_places()
        self.order.close()
        for me, entries in enumerate(self.sections):
            for at, entry in enumerate(entries):
                if entry.result == "failed":
                    self.check_failure(me, at, entry)
            self.check_infos(me)
        self.check_carriers()
        self.check_totals()

    def note_places(self):
        for me, entries in enumerate(self.sections):
            for at, entry in enumerate(entries):
                if entry.place:
                    self.place(me, at, entry)

    def place(self, me, at, entry):
        """Notes the block that an operation placed or kept."""
        number, offset, size = entry.place
        need = need_of(entry.operation[-1])
        self.check_number(me, entry, number, need)
        sizes, room = (need, need + 2, need + 4), 0
        if entry.result == "here":
            old = self.blocks.get(entry.operation[1])
            demand(old and old.carrier == number and old.offset == offset, f"'{entry}' did not keep its place")
            _, sizes, room = self.decide(old, need)
        elif need > self.threshold:
            sizes, room = (need,), pages_of(HEADER + need) * PAGE
        demand(size in sizes, f"'{entry}' has {size} units and not {sizes}")
        demand(offset == HEADER or not room and offset > HEADER and offset % 2 == 0, f"'{entry}' lies at {offset}")
        demand(max(room, offset + size) <= self.trace.regions * PAGE, f"'{entry}' is larger than its region")
        self.blocks[entry.operation[-2]] = Block(number, offset, size, room, self.birth_of(me, at))

    def check_number(self, me, entry, number, _):
        demand(owner_of(number) == me, f"'{entry}' placed in a carrier of another scheduler")
        used = sum(it.owner == me for it in self.blocks.values()) + bool(self.main)
        demand((number - 1) % NUMBERS <= used, f"'{entry}' placed in a carrier whose number is too large")

    def is_main(self, number):
        return self.main > 0 and number % NUMBERS == 1

    def birth_of(self, _, at):
        return at

    def decide(self, old, need):
        """Whether a reallocation may move a block of an own carrier, the sizes that the block may have if it stays, and
        the units of its singleblock carrier then."""
        less = old.size - need
        if self.values["ramv"] == "true":
            return True, (), 0
        if old.room:
            return self.decide_single(old, need)
        if need > self.threshold:
            return True, (), 0
        if less < 0:
            return True, (need, need + 2, need + 4), 0
        if less < SMALLEST_BLOCK:
            return False, (old.size,), 0
        if 100 * less > self.values["rmbcmt"] * old.size:
            return True, (), 0
        return False, (need,), 0

    def decide_single(self, old, need):
        """The same for a block of a singleblock carrier."""
        left, least = old.room - HEADER - need, pages_of(HEADER + need) * PAGE
        if left < 0 or need <= self.threshold and 100 * left >= self.values["rsbcmt"] * old.room:
            return True, (), 0
        shrinks = self.threshold < need < old.size and least < old.room
        is_much = left >= self.values["asbcst"] * UNITS_OF_A_KB and 100 * left >= self.values["rsbcst"] * old.room
        return False, (need,), least if shrinks and is_much else old.room

    def follow(self, me):
        """Goes through a section with the names that it holds, and answers them."""
        held, got = set(), set()
        for at, entry in enumerate(self.sections[me]):
            word, *rest = entry.operation
            if word == "take":
                self.take(me, at, entry, got)
            if word in ("free", "realloc", "give"):
                demand((entry.result == "skipped") == (rest[0] not in held), f"'{entry}' is {entry.result}")
                if word != "give" and entry.result != "skipped":
                    self.end_block(me, at, entry)
            if entry.result in ("here", "done", "queued", "given"):
                held.remove(rest[0])
            if entry.place or entry.result == "got":
                held.add(rest[-2])
        return held

    def count_steps(self, me, stop, held):
        """Has the steps of a section fit its stop, and notes how far it may be in what has no line."""
        least, most = self.steps(me)
        if me not in self.halts:
            demand(least < stop, f"{me + 1} took {least + 1} steps and had to stop after {stop}")
            return
        at, operations = len(self.sections[me]), self.trace.sections[me]
        operation = operations[at] if at < len(operations) else ("end",)
        halt = self.halts[me] = Halt(stop - most, stop - least, self.left_block(me, operation, held))
        demand(halt.most >= 0, f"{me + 1} took {least} steps and had to stop after {stop}")
        left = self.steps_left(operation, halt, held)
        demand(halt.least <= left, f"{me + 1} took {most + left} steps at most and did not stop before {stop}")
        if halt.old:
            halt.need = need_of(operation[-1]) if operation[0] == "realloc" else None
            self.leave_block(me, at, halt)

    def steps(self, me):
        """The least and the most steps of the lines of a section. A block that others queued is passed in one, and may be
        found without its link in another one before."""
        least = sum(it.least_steps for it in self.sections[me])
        more = sum(it.operation[-1] - 1 for it in self.sections[me] if it.result == "got")
        maybe = sum(self.may_queue(other, me) for other in self.halts if other != me)
        return least, least + more + 2 * (len(self.queuings[me]) + maybe)

    def may_queue(self, me, to):
        """Whether one that stopped may have put a block in a queue, in the operation that has no line."""
        for word, *rest in self.trace.sections[me][len(self.sections[me]) :][:1]:
            return word in ENDINGS and rest[0] in self.blocks and self.blocks[rest[0]].owner == to
        return False

    def left_block(self, me, operation, held):
        """The block that an operation frees or replaces in several steps, if it does."""
        if operation[0] not in ENDINGS or operation[1] not in held:
            return None
        block = self.blocks.get(operation[1])
        demand(block and not block.death, f"{me + 1} holds {operation[1]}, and there is no such block")
        return block if self.takes_steps(me, block) else None

    def takes_steps(self, me, block):
        return block.owner != me

    def steps_left(self, operation, halt, held):
        """The most steps of an operation that isn't over."""
        word, *rest = operation
        if word == "take":
            return rest[1]
        return 2 if halt.old else word == "give" and rest[0] in held

    def leave_block(self, me, at, halt):
        """Notes a block that may be in its owner's queue without a link."""
        if halt.most >= 2:
            self.hangings[halt.old.owner].append((me, at))

    def take(self, me, at, entry, got):
        """Puts a take before or after the give of its name."""
        _, name, tries = entry.operation
        give = self.gives.get(name)
        if entry.result == "got":
            demand(give, f"'{entry}' got what was not given")
            demand(name not in got, f"'{entry}' got it twice")
            got.add(name)
            self.order.put(self.order.last[give[0]][give[1]], self.order.last[me][at])
        else:
            demand(entry.said == (tries,), f"'{entry}' tried {entry.said[0]} times")
            if give and name not in got:
                self.order.put(self.order.last[me][at], self.order.last[give[0]][give[1]])

    def end_block(self, me, at, entry):
        """Notes that an operation of a held name freed or replaced its block, or failed to."""
        block = self.blocks.get(entry.operation[1])
        is_there = block and (entry.result == "failed" or not block.death)
        demand(is_there, f"'{entry}' is {entry.result}, and there is no such block")
        is_own = block.owner == me
        if entry.operation[0] == "realloc" and entry.result != "here":
            moves = not is_own or self.decide(block, need_of(entry.operation[-1]))[0]
            demand(moves, f"'{entry}' is {entry.result} and had to stay")
        if entry.result == "failed":
            return
        demand(is_own == (entry.result != "queued"), f"'{entry}' is {entry.result}, a block of {block.owner + 1}")
        if not is_own:
            demand(entry.said[-1] == block.owner + 1, f"'{entry}' is queued to another than {block.owner + 1}")
            self.queuings[block.owner].append((me, at))
        block.death = me, at

    def order_places(self):
        """Has each block that lies in the place of an earlier one come after its end."""
        carriers = {}
        for block in sorted(self.blocks.values(), key=lambda it: it.birth):
            earlier = carriers.setdefault(block.carrier, [])
            for it in earlier:
                if it.clashes(block):
                    self.put_after(it, block)
            earlier.append(block)

    def put_after(self, earlier, later):
        me, birth = later.owner, later.birth
        entry = self.sections[me][birth]
        demand(earlier.death, f"'{entry}' placed over a block that is still there")
        section, at = earlier.death
        if section == me:
            is_over = at < birth or at == birth and entry.result == "here"
            demand(is_over, f"'{entry}' placed over a block before its end")
        else:
            self.order.put(self.order.last[section][at], self.order.first[me][birth])
            earlier.gone = birth if earlier.gone is None else min(birth, earlier.gone)

    def lies(self, block, at):
        """Whether a block lies in its carrier when an operation of the owner itself begins, or after its end; None if
        both may be."""
        me = block.owner
        if block.birth >= at:
            return False
        if not block.death:
            return True
        section, end = block.death
        if section == me:
            return end >= at
        if block.gone is not None and block.gone <= at:
            return False
        if self.order.is_before(self.order.first[me][at], self.order.last[section][end]):
            return True
        return False if self.is_settled(me, at) else None

    def is_settled(self, me, at):
        """Whether each block of a scheduler's queue is known to be released by then, or to be put there later: what was
        linked before the begin of the operation before is released."""
        first, last = self.order.first, self.order.last
        return at >= 2 and all(
            self.order.is_before(first[me][at], first[section][it])
            or (section, it) not in self.hangings[me] and self.order.is_before(last[section][it], last[me][at - 2])
            for section, it in self.queuings[me] + self.hangings[me]
        )

    def lying(self, me, at):
        """The blocks of a scheduler's carriers that lie there for sure, and those that may."""
        known = [(it, self.lies(it, at)) for it in self.blocks.values() if it.owner == me]
        return [it for it, lies in known if lies], [it for it, lies in known if lies is None]

    def check_failure(self, me, at, entry):
        need, looked, cause = entry.said
        demand(need == need_of(entry.operation[-1]), f"'{entry}' does not need {need}")
        demand(not looked, f"'{entry}' looked at {looked} carriers")
        if cause == "numbers":
            used = sum(it.owner == me and it.birth < at for it in self.blocks.values()) + bool(self.main)
            demand(used >= NUMBERS, f"'{entry}' had numbers")
        elif not any(self.lying(me, at)):
            left = self.trace.regions - self.main
            demand(pages_of(HEADER + need) > left, f"'{entry}' had {left} pages")

    def check_infos(self, me):
        """Checks the figures of a section's infos, twelve of each kind: four of them, each now, last and ever."""
        before = {}
        for at, entry in enumerate(self.sections[me]):
            if entry.result == "told":
                sure, maybe = self.lying(me, at)
                for is_single, figures in enumerate((entry.said[:12], entry.said[12:])):
                    check_columns(figures, before.get(is_single))
                    before[is_single] = figures
                    kinds = [[it for it in blocks if bool(it.room) == is_single] for blocks in (sure, maybe)]
                    check = self.is_single_now if is_single else self.is_multi_now
                    fits = are_some(lambda it: check(me, it, figures[::3]), *kinds)
                    demand(fits, f"info of {me + 1}, its operation {at + 1}, tells {figures[::3]}")

    def is_multi_now(self, me, blocks, figures):
        count, size, carriers, units = figures
        numbers = {it.carrier for it in blocks} | ({me * NUMBERS + 1} if self.main else set())
        fits = units % PAGE == 0 and units >= size + HEADER * carriers
        return fits and (count, size, carriers) == (len(blocks), sum(it.size for it in blocks), len(numbers))

    def is_single_now(self, _, blocks, figures):
        sizes, rooms = sum(it.size for it in blocks), sum(it.room for it in blocks)
        return figures == (len(blocks), sizes, len(blocks), rooms)

    def check_carriers(self):
        numbers = [it.number for it in self.carriers]
        demand(numbers == sorted(set(numbers)), "carriers are not in order")
        placed, there = sorted(self.carriers, key=lambda it: it.base), set(numbers)
        for one, other in zip(placed, placed[1:]):
            demand(one.base + one.pages <= other.base, f"carriers {one.number} and {other.number} overlap")
        for me, entries in enumerate(self.sections):
            sure, maybe = self.lying(me, len(entries))
            missing = {it.carrier for it in sure} - there
            demand(not missing, f"carriers {missing} are gone")
            demand(not self.main or me * NUMBERS + 1 in there, f"the main carrier of {me + 1} is gone")
            for it in self.carriers:
                if owner_of(it.number) == me:
                    self.check_carrier(it, *([b for b in blocks if b.carrier == it.number] for blocks in (sure, maybe)))

    def check_carrier(self, carrier, sure, maybe):
        text = f"carrier {carrier.number}"
        regions, me = self.trace.regions, owner_of(carrier.number)
        demand(me < len(self.sections), f"{text} is nobody's")
        self.check_employer(carrier, me, text)
        inside = regions * me <= carrier.base and carrier.base + carrier.pages <= regions * (me + 1)
        demand(carrier.pages and inside, f"{text} lies outside its region")
        is_main = self.is_main(carrier.number)
        demand((carrier.kind == "main") == is_main, f"{text} is {carrier.kind}")
        if is_main:
            demand((carrier.base, carrier.pages) == (regions * me, self.main), f"{text} is not where it was")
        is_away = carrier.standing == "returning"
        is_empty = not (is_main or is_away or carrier.allocated)
        demand(not is_empty or self.may_be_empty(carrier), f"{text} has no block")
        room = carrier.units if carrier.kind == "single" else 0
        demand({it.room for it in sure} <= {room}, f"{text} is {carrier.kind}")
        maybe = [it for it in maybe if it.room == room]
        alone, sizes = are_some(partial(has, carrier), sure, maybe), self.untold_sizes(carrier, sure, maybe)
        demand(alone or sizes, f"{text} has other blocks")
        if carrier.employer - 1 in self.halts:
            self.halts[carrier.employer - 1].fits.append((alone, sizes))

    def may_be_empty(self, _):
        return False

    def untold_sizes(self, carrier, sure, maybe):
        """The sizes of a block with which those of a carrier fit that its employer may have placed before it stopped."""
        halt = self.halts.get(carrier.employer - 1)
        if not halt or not halt.need or halt.most < 1 or carrier.standing != "employed":
            return set()
        is_single = carrier.kind == "single"
        if is_single != (halt.need > self.threshold):
            return set()
        places = {HEADER, *(it.end for it in (*sure, *maybe))}
        sizes = [halt.need] if is_single else [halt.need, halt.need + 2, halt.need + 4]
        fits = lambda at, size: are_some(
            partial(has, carrier), [*sure, Block(carrier.number, at, size, 0, None)], maybe
        )
        return {size for size in sizes if any(fits(at, size) for at in places)}

    def check_employer(self, carrier, me, text):
        demand(carrier.owner == carrier.employer == me + 1, f"{text} has another owner or employer than {me + 1}")
        demand(carrier.standing == "employed", f"{text} is {carrier.standing}")

    def has_no_line(self, section, at):
        """Whether an operation is that of one that stopped in it."""
        return at == len(self.sections[section])

    def check_totals(self):
        carriers, allocated = len(self.carriers), sum(it.allocated for it in self.carriers)
        units = sum(it.units for it in self.carriers)
        lives = {sum(it.size for it in self.blocks.values() if not it.death or self.has_no_line(*it.death))}
        for halt in self.halts.values():
            lives = {live + more for live in lives for more in halt.lives()}
        free = units - allocated - HEADER * carriers
        dues = [(carriers, units, live, allocated - live, free, HEADER * carriers) for live in sorted(lives)]
        demand(self.total in dues, f"the totals are not {' or '.join(map(str, dues))}")


def check_columns(figures, before):
    """Checks the three columns of figures, after those of the info before, if there is one."""
    for at in range(0, len(figures), 3):
        now, last, ever = figures[at : at + 3]
        was, _, greatest = before[at : at + 3] if before else (0, 0, 0)
        demand(max(now, was) <= last and ever == max(last, greatest), f"an info tells {now} {last} {ever}")


def are_some(fits, sure, maybe):
    """Whether the sure blocks with some of the others fit; it is not tried for very many."""
    some = (it for count in range(len(maybe) + 1) for it in itertools.combinations(maybe, count))
    return 2 ** len(maybe) > MOST_SUBSETS or any(fits([*sure, *it]) for it in some)


class Moved(History):
    """The same of a trace whose carriers migrate: blocks of all schedulers may lie in a carrier, and who frees one tells
    neither whose it was nor in which carrier's queue it was put. `hands` are the schedulers that stopped with a carrier in
    the hand."""

    def __init__(self, trace, text):
        super().__init__(trace, text)
        self.hands = set()

    def note_places(self):
        """Blocks that another section placed before may keep their place, so these come when theirs are known."""
        left = [(me, at, it) for me, entries in enumerate(self.sections) for at, it in enumerate(entries) if it.place]
        while left:
            now = [it for it in left if it[2].result != "here" or it[2].operation[1] in self.blocks]
            demand(now, "a block kept its place that was never placed")
            for it in now:
                self.place(*it)
            left = [it for it in left if it not in now]

    def check_number(self, me, entry, number, need):
        demand(owner_of(number) < len(self.sections), f"'{entry}' placed in a carrier of nobody")
        is_own = entry.result == "here" or need <= self.threshold or owner_of(number) == me
        demand(is_own, f"'{entry}' has a carrier of its own, of another scheduler")

    def birth_of(self, me, at):
        return me, at

    def steps(self, me):
        least = sum(self.least_steps(it) for it in self.sections[me]) + self.search_steps(me)
        texts = list(itertools.chain.from_iterable(self.trace.sections))
        ends, places = (sum(it[0] in words for it in texts) for words in (ENDINGS, PLACINGS))
        # A block goes to one more queue where its carrier was fetched, and an empty carrier to one.
        nodes = ends * (places + 2)
        return least, STEPS_OF_A_NODE * nodes + sum(self.most_steps(it.operation) for it in self.sections[me])

    def search_steps(self, me):
        """The steps that a section took at least for carriers that it had not used before: of the own ones each was
        created after a search for another one, and the others were fetched."""
        places = [it.place[0] for it in self.sections[me] if it.place and it.result != "here"]
        first = {it for it in places if not (self.is_main(it) and owner_of(it) == me)} & self.shared_numbers()
        own = sum(owner_of(it) == me for it in first)
        # A look and a try for each of the others, all looks and a step that creates for each own one.
        return 2 * (len(first) - own) + (self.looks_in_vain() + 1) * own

    def shared_numbers(self):
        """Those of carriers with several blocks."""
        return {it.carrier for it in self.blocks.values() if not it.room}

    def looks_in_vain(self):
        """The least looks of a search that ends without a carrier."""
        are_many = sum(not self.is_main(it) for it in self.shared_numbers()) >= MOST_LOOKED
        return MOST_LOOKED if are_many else NUMBERS * len(self.sections)

    def least_steps(self, entry):
        """The steps of an operation if no queue has a block and it finds a place at once."""
        word, result = entry.operation[0], entry.result
        if word not in (*ENDINGS, *PLACINGS) or result in ("skipped", "here"):
            return entry.least_steps
        is_alone = word in PLACINGS and need_of(entry.operation[-1]) > self.threshold
        if result == "failed":
            return 1 if is_alone else 1 + self.looks_in_vain()
        return {"placed": 1, "done": 2, "queued": 4}[result] + is_alone

    def most_steps(self, operation):
        """The most steps of an operation beside those for its queue."""
        word, *rest = operation
        search = 2 * (MOST_LISTED + NUMBERS * len(self.sections)) if word in PLACINGS else 0
        return STEPS_OF_A_ROUTE + search + (rest[1] if word == "take" else 0)

    def takes_steps(self, me, block):
        return True

    def steps_left(self, operation, halt, held):
        return self.most_steps(operation)

    def leave_block(self, me, at, halt):
        """Notes a block that may be released."""
        if halt.most >= 2:
            halt.old.death = me, at

    def end_block(self, me, at, entry):
        block = self.blocks.get(entry.operation[1])
        is_there = block and (entry.result == "failed" or not block.death)
        demand(is_there, f"'{entry}' is {entry.result}, and there is no such block")
        if entry.result == "queued":
            demand(entry.said[-1] != me + 1, f"'{entry}' is queued to its own scheduler")
            demand(entry.said[-1] <= len(self.sections), f"'{entry}' is queued to nobody")
        if entry.result != "failed":
            block.death = me, at

    def order_places(self):
        carriers = {}
        for block in self.blocks.values():
            carriers.setdefault(block.carrier, []).append(block)
        for blocks in carriers.values():
            for one, other in itertools.combinations(blocks, 2):
                if one.clashes(other):
                    self.put_apart(one, other)

    def put_apart(self, one, other):
        """Of two blocks that cannot lie there together one ends before the other begins: which one is known where the
        other never ends, or where a section has both."""
        orders = [it for it in ((one, other), (other, one)) if self.may_follow(*it)]
        demand(orders, f"two blocks lie at {one.offset} and {other.offset} of carrier {one.carrier}")
        if len(orders) == 1:
            (earlier, later), = orders
            (section, end), (me, birth) = earlier.death, later.birth
            if section != me:
                self.order.put(self.order.first[section][end], self.order.last[me][birth])

    def may_follow(self, earlier, later):
        if not earlier.death:
            return False
        (section, end), (me, birth) = earlier.death, later.birth
        return section != me or end < birth or end == birth and self.sections[me][birth].result == "here"

    def check_failure(self, me, at, entry):
        need, looked, cause = entry.said
        demand(need == need_of(entry.operation[-1]), f"'{entry}' does not need {need}")
        numbers = {it.carrier for it in self.blocks.values()}
        shared = sum(not self.is_main(it) for it in self.shared_numbers())
        most = 0 if need > self.threshold else min(MOST_LOOKED, shared)
        demand(looked <= most, f"'{entry}' looked at {looked} carriers")
        used = sum(owner_of(it) == me and not self.is_main(it) for it in numbers) + bool(self.main)
        demand(cause != "numbers" or used >= NUMBERS, f"'{entry}' had numbers")

    def check_infos(self, me):
        before = {}
        for entry in self.sections[me]:
            if entry.result == "told":
                for kind, figures in enumerate((entry.said[:12], entry.said[12:])):
                    check_columns(figures, before.get(kind))
                    before[kind] = figures

    def lying(self, me, at):
        """At the end, the blocks of carriers of a scheduler that nothing ended, and those that were queued."""
        known = [it for it in self.blocks.values() if it.owner == me]
        return [it for it in known if not it.death], [it for it in known if it.death and self.may_lie(*it.death)]

    def may_lie(self, section, at):
        """Whether a block may lie in its carrier after that operation, which freed or replaced it."""
        return self.has_no_line(section, at) or self.sections[section][at].result == "queued"

    def check_employer(self, carrier, me, text):
        demand(carrier.owner == me + 1, f"{text} has another owner than {me + 1}")
        demand(1 <= carrier.employer <= len(self.sections), f"{text} has an employer that there is not")
        is_busy = carrier.standing == "busy"
        demand(not is_busy or self.may_be_in_hand(carrier), f"{text} is busy, and its employer has ended")
        stays = carrier.kind == "multi" or carrier.employer == me + 1 and carrier.standing == "employed"
        demand(stays, f"{text} is {carrier.kind}, and left its owner")
        is_home = carrier.standing != "returning" or carrier.employer == me + 1
        demand(is_home, f"{text} returns to another than its owner")

    def may_be_empty(self, carrier):
        """A busy carrier is known to be in the hand of its employer."""
        return carrier.standing == "busy" or carrier.standing == "employed" and self.may_be_in_hand(carrier)

    def may_be_in_hand(self, carrier):
        """Whether its employer may have stopped while it released a block: it has one carrier in the hand at most."""
        me = carrier.employer - 1
        is_free = me in self.halts and me not in self.hands
        self.hands.add(me)
        releases = [it.old for it in self.halts.values() if it.most >= 2]
        queued = (it.result == "queued" for it in itertools.chain.from_iterable(self.sections))
        return is_free and (any(releases) or any(queued))


def check(trace, text):
    kind = Moved if trace.values["acul"] else History
    kind(trace, text).check()
