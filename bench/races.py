"""The small random traces that bench/threads runs: the same for the same number on every machine.

`race` makes one of 2 to 8 schedulers with operations of all kinds and random flags; in half of them carriers migrate. In
most of them all schedulers meet before their operations, so that these run beside each other, and in some once more
after them, so that all queues are worked off in the end. `crowd` makes such a one of 17 to 64 schedulers, whose carriers
migrate: some of them abandon one before they meet. `duel` makes one of two schedulers that meet and then have at most
three operations each, and tells which lists of turns lead to all that these can give; there no carrier migrates.
`several` makes an input of two or three allocator types, each with what `race` makes of it.

In a third of all these but the last some schedulers stop. How many steps one takes that waits for another is not known before. So most of
those that stop take no part in the meeting but by a block that they give: in place of waiting they try for a block that
isn't there, as often as it says, and stop after about as many steps as lead to one of their operations.
"""
import itertools
import math
import random
import re
from dataclasses import dataclass, field

from histories import NUMBERS, demand

LETTERS = "BDEHLRST"
MOST_SCHEDULERS = 64
FEWEST_OF_MANY = 17
STOPPING = 1 / 3
STRATEGIES = "bf aobf aoff aoffcbf aoffcaobf ageffcaoff ageffcbf ageffcaobf gf af".split()
DEFAULTS = {
    "as": "aoffcbf",
    "acul": 0,
    "sbct": 512,
    "smbcs": 256,
    "lmbcs": 5120,
    "mbcgs": 10,
    "mmbcs": 0,
    "mbsd": 3,
    "asbcst": 1024,
    "rsbcst": 20,
    "rsbcmt": 80,
    "rmbcmt": 50,
    "ramv": "false",
}
ACULS = [20, 60, 60, 100]
CHOICES = {
    "as": STRATEGIES,
    "sbct": [1, 2, 8, 64],
    "smbcs": [4, 16, 64],
    "lmbcs": [8, 32, 256],
    "mbcgs": [1, 2],
    "mmbcs": [4, 20, 50],
    "mbsd": [1, 2],
    "asbcst": [0, 1],
    "rsbcst": [0, 50],
    "rsbcmt": [0, 30, 100],
    "rmbcmt": [0, 20, 100],
    "ramv": ["true"],
}
PAGES_OF_A_MB = 256
KB_OF_A_PAGE = 4
LARGEST_NAME = 2**20
# So many tries wait some milliseconds for a block, and so many for one whose giver may stop before. Where there are many
# schedulers all their tries have to stay below the most that a trace may have.
PATIENCE = 500_000
PATIENCE_OF_MANY = 200_000
LITTLE_PATIENCE = 20_000
# So many tries take as long as the other threads need to begin, mostly.
LINGERING = [1000, 3000, 10_000, 20_000]
LONG_ENOUGH = 5000
MOST_STEPS = 10**8
LEAST_SCHEDULES, MOST_SCHEDULES = 100, 20_000
TRIES = [1, 1, 3, 50, 1000, 20000]
FEW_TRIES = [1, 2]
OPERATIONS = {"alloc": 24, "free": 22, "realloc": 14, "give": 16, "take": 16, "info": 5, "idle": 3}
TELLING_OPERATIONS = {"alloc": 16, "free": 30, "realloc": 16, "give": 10, "take": 10, "info": 16, "idle": 2}
SETTLING = [("idle",), ("idle",)]


@dataclass
class Trace:
    """Flags and the operations of each section; `regions` are the pages of each scheduler, `stops` the steps after which
    some of them stop, by their number from 0."""

    letter: str
    words: list
    values: dict
    regions: int
    sections: list
    stops: dict

    def text(self, ending="threads\n"):
        lines = [f"type {self.letter}\n"]
        for number, operations in enumerate(self.sections, 1):
            lines.append(f"scheduler {number}\n")
            lines += [" ".join(map(str, it)) + "\n" for it in operations]
        lines += [f"stop {me + 1} {steps}\n" for me, steps in self.stops.items()]
        return "".join(lines) + ending + "end\n"

    def parts(self, output):
        """The traces that an output tells of, each with its text."""
        return [(self, output)]


@dataclass
class Several:
    """The traces of allocator types with as many schedulers, and for each scheduler the types of its lines in order."""

    types: list
    orders: list
    stops: dict = field(default_factory=dict)

    @property
    def words(self):
        return ["types", *itertools.chain(*(it.words for it in self.types))]

    @property
    def sections(self):
        """Of each scheduler the operations, each after its type."""
        left = [[iter(section) for section in it.sections] for it in self.types]
        return [
            [(self.types[at].letter, *next(left[at][me])) for at in order] for me, order in enumerate(self.orders)
        ]

    def text(self):
        lines = [f"types {' '.join(it.letter for it in self.types)}\n"]
        for number, operations in enumerate(self.sections, 1):
            lines.append(f"scheduler {number}\n")
            lines += [" ".join(map(str, it)) + "\n" for it in operations]
        return "".join(lines) + "threads\nend\n"

    def parts(self, output):
        texts = re.split("^type ([A-Z])\n", output, flags=re.MULTILINE)
        demand(texts[:1] == [""] and texts[1::2] == [it.letter for it in self.types], "its types are others")
        return zip(self.types, texts[2::2])


@dataclass
class Duel(Trace):
    """A trace with the turns that lead to the meeting, the operations of each section up to it, and for each scheduler
    its turns after it: one word for all up to the next turn that the other one can notice."""

    opening: str = ""
    fronts: list = field(default_factory=list)
    turns: list = field(default_factory=list)

    def count(self):
        """How many lists of turns there are."""
        first, second = map(len, self.turns)
        return math.comb(first + second, first)

    def schedules(self):
        """Each list of turns as the end of a trace."""
        first, second = self.turns
        for places in itertools.combinations(range(len(first) + len(second)), len(first)):
            mine, theirs, chosen = iter(first), iter(second), set(places)
            words = (
                f"1*{next(mine)}" if at in chosen else f"2*{next(theirs)}" for at in range(len(first) + len(second))
            )
            yield f"schedule\n{self.opening}\n{' '.join(words)}\n"


class Sections:
    """Sections in the making, with what each may name: `held` is what a section holds if all allocations and takes
    succeed, `named` what its lines made or took, `offered` what it may take. Those of `stopping` may stop before they
    give a block, and those of `counting` wait for none."""

    def __init__(self, pick, schedulers, names, threshold, often=None, tries=None, patience=PATIENCE):
        self.pick = pick
        self.patience = patience
        self.names = names
        self.threshold = threshold
        self.often = often or OPERATIONS
        self.tries = tries or TRIES
        self.texts = [[] for _ in range(schedulers)]
        self.held = [[] for _ in range(schedulers)]
        self.named = [[] for _ in range(schedulers)]
        self.offered = [[] for _ in range(schedulers)]
        self.given = set()
        self.stopping = set()
        self.counting = set()
        self.lent = []

    def makes(self, me, name):
        for known in (self.held[me], self.named[me]):
            if name not in known:
                known.append(name)
        return name

    def leaves(self, me, name):
        if name in self.held[me]:
            self.held[me].remove(name)

    def alloc(self, me, size=0):
        name = next(self.names)
        self.texts[me].append(("alloc", name, size))
        return self.makes(me, name)

    def free(self, me, name):
        self.texts[me].append(("free", name))
        self.leaves(me, name)

    def realloc(self, me, old, size):
        new = next(self.names)
        self.texts[me].append(("realloc", old, new, size))
        self.leaves(me, old)
        return self.makes(me, new)

    def give(self, me, name, to):
        self.texts[me].append(("give", name, to + 1))
        self.leaves(me, name)
        self.given.add(name)
        self.offered[to].append(name)

    def take(self, me, name, tries):
        self.texts[me].append(("take", name, tries))
        self.makes(me, name)
        if self.pick.random() < 0.7:
            self.offered[me].remove(name)

    def size(self):
        """Bytes: mostly few, sometimes about as many as still share a carrier, or more."""
        kind = self.pick.random()
        if kind < 0.75:
            return self.pick.randrange(400 if kind < 0.45 else 5000)
        near = self.threshold * 1024 + self.pick.randrange(-80, 80)
        return near if kind < 0.9 else self.pick.randrange(min(3 * near, 700_000))

    def named_by(self, me):
        """A name that the section may name, mostly one that it holds, or None."""
        known = self.held[me] if self.held[me] and self.pick.random() < 0.9 else self.named[me]
        return self.pick.choice(known) if known else None

    def add(self, me):
        """A random operation, an allocation where the chosen one has no name."""
        word = self.pick.choices([*self.often], [*self.often.values()])[0]
        name = self.named_by(me)
        if word in ("info", "idle"):
            self.texts[me].append((word,))
        elif word == "take" and self.offered[me]:
            self.take(me, self.pick.choice(self.offered[me]), self.pick.choice(self.tries))
        elif word == "free" and name:
            self.free(me, name)
        elif word == "realloc" and name:
            self.realloc(me, name, self.size())
        elif word == "give" and name and name not in self.given:
            others = [it for it in range(len(self.texts)) if it != me]
            self.give(me, name, me if self.pick.random() < 0.1 else self.pick.choice(others))
        else:
            self.alloc(me, self.size())

    def wait(self, me, name, giver):
        """Waits for a block of the giver, or for nothing: then it tries for the block once."""
        patience = LITTLE_PATIENCE if giver in self.stopping else self.patience
        self.take(me, name, 1 if me in self.counting else patience)

    def abandon(self, me):
        """Allocates some blocks and frees two: where carriers migrate the first free mostly abandons their carrier, and the
        second one makes it busy."""
        for name in [self.alloc(me, self.pick.randrange(300)) for _ in range(self.pick.randint(2, 3))][:2]:
            self.free(me, name)

    def linger(self, me, tries):
        """Tries for a block of its own that it gives itself at the end of its section."""
        name = next(self.names)
        self.texts[me] += [("alloc", name, 0), ("take", name, tries)]
        self.lent.append((me, name))

    def give_back(self):
        """The ends of the sections that lingered."""
        for me, name in self.lent:
            self.texts[me].append(("give", name, me + 1))

    def meet(self):
        """Each scheduler waits until all others have come so far, but for those that count their steps."""
        all_of_them = range(len(self.texts))
        middle = self.pick.choice([it for it in all_of_them if it not in self.stopping] or all_of_them)
        others = [it for it in all_of_them if it != middle]
        there = [(it, self.alloc(it), self.alloc(middle)) for it in others]
        for it, coming, _ in there:
            self.give(it, coming, middle)
        for it in sorted(self.counting):
            self.linger(it, self.pick.choice(LINGERING))
        for it, coming, _ in there:
            self.wait(middle, coming, it)
        for it, _, going in there:
            self.give(middle, going, it)
            self.wait(it, going, middle)


def some_values(pick, megabytes, schedulers, may_migrate):
    """Values for half of the parameters; a main carrier takes half of its region at most. Where they may, carriers
    migrate in half of them."""
    values = {key: pick.choice(it) for key, it in CHOICES.items() if pick.random() < 0.5}
    most = megabytes * PAGES_OF_A_MB // schedulers * KB_OF_A_PAGE // 2
    if values.get("mmbcs", 0) > most or pick.random() < 0.5:
        values.pop("mmbcs", None)
    if may_migrate and pick.random() < 0.5:
        values["acul"] = pick.choice(ACULS)
        if pick.random() < 0.3:
            values["acfml"] = pick.choice([0, 1000, 100_000])
    return values


def words_of(pick, letter, schedulers, megabytes, values):
    """The flags in a random order, some of them for all letters."""
    pairs = [("+S", schedulers), ("+MMscs", megabytes)]
    if "acul" not in values and (letter != "T" or pick.random() < 0.5):
        pairs.append((f"+M{pick.choice(['u', letter])}acul", 0))
    pairs += [(f"+M{pick.choice(['u', letter])}{key}", it) for key, it in values.items()]
    pick.shuffle(pairs)
    return [str(word) for pair in pairs for word in pair]


def some_names(pick):
    """Names in a random order; one trace in fifty has names up to the greatest."""
    names = pick.sample(range(1, 2000), 1999)
    stretch = LARGEST_NAME // 2000 if pick.random() < 0.02 else 1
    return (it * stretch for it in names)


def steps_of(operation, own, migrates):
    """About how many steps an operation takes that places its block in a carrier that is there, and finds what it tries
    for at once if it isn't of its own section; `own` are the names that its section makes."""
    word, *rest = operation
    if word == "take":
        return 1 + rest[1] if rest[0] in own else 2
    if word == "give":
        return 2
    if word not in ("free", "realloc"):
        return 1
    return 1 + migrates + 2 * (rest[0] not in own)


def steps_before(operations, first, migrates):
    """About how many steps a section takes up to each of its operations, and to its end; its first allocation takes
    `first`."""
    own, steps = made_by(operations), [0]
    for operation in operations:
        steps.append(steps[-1] + (first if operation[0] == "alloc" else steps_of(operation, own, migrates)))
        first = 1 if operation[0] == "alloc" else first
    return steps


def some_stop(pick, operations, search, has_main, migrates):
    """After how many steps a section stops: none, some of its first operation, some more than lead to an operation or
    than a search more, nearly all, or more than there are. `search` are the steps of one that finds nothing."""
    steps = steps_before(operations, 1 if has_main else search, migrates)
    often = [6 if it[0] in ("free", "realloc") else 1 for it in operations]
    at = pick.choices(steps, [*often, 1])[0]
    kinds = [
        (1, 0),
        (2, pick.randrange(max(*steps[:2], 2))),
        (4, steps[min(pick.randrange(6), len(operations))] + pick.randrange(5)),
        (6, at + pick.randrange(4)),
        (6, at + pick.randrange(7)),
        (2, at + pick.randrange(search + 3)),
        (2, max(steps[-1] - pick.randrange(6), 0)),
        (1, steps[-1] + pick.randrange(8)),
        (1, pick.choice([2 * steps[-1], MOST_STEPS])),
    ]
    return pick.choices([it for _, it in kinds], [often for often, _ in kinds])[0]


def some_stops(pick, made, values):
    """Has some of the sections stop, by their operations as they are now."""
    migrates, schedulers = values.get("acul", 0) > 0, len(made.texts)
    search = 2 + NUMBERS * schedulers if migrates else 1
    has_main = not migrates or values.get("mmbcs", 0) > 0
    return {me: some_stop(pick, made.texts[me], search, has_main, migrates) for me in sorted(made.stopping)}


def race(number):
    """A trace of 2 to 8 schedulers."""
    pick = random.Random(number)
    schedulers, megabytes = pick.randint(2, 8), pick.choice([1, 1, 2, 4, 64])
    return race_of(pick, schedulers, megabytes, pick.choice(LETTERS), STOPPING)


def race_of(pick, schedulers, megabytes, letter, stopping):
    values = some_values(pick, megabytes, schedulers, letter != "T")
    made = Sections(pick, schedulers, some_names(pick), values.get("sbct", DEFAULTS["sbct"]))
    return some_race(made, letter, megabytes, values, stopping)


def several(number):
    """An input of two or three allocator types. What the flags of one set for all letters they set for its own alone."""
    pick = random.Random(number)
    schedulers, megabytes = pick.randint(2, 8), pick.choice([1, 1, 2, 4, 64])
    types = [race_of(pick, schedulers, megabytes, it, 0) for it in pick.sample(LETTERS, pick.randint(2, 3))]
    for it in types:
        it.words = [word.replace("+Mu", f"+M{it.letter}") for word in it.words]
    orders = []
    for sections in zip(*(it.sections for it in types)):
        orders.append([at for at, section in enumerate(sections) for _ in section])
        pick.shuffle(orders[-1])
    return Several(types, orders)


def crowd(number):
    """A trace of 17 to 64 schedulers, whose carriers migrate. Some of them abandon one at first."""
    pick = random.Random(number)
    schedulers, megabytes = pick.randint(FEWEST_OF_MANY, MOST_SCHEDULERS), pick.choice([1, 4, 16, 64, 512])
    letter = pick.choice(LETTERS.replace("T", ""))
    values = {**some_values(pick, megabytes, schedulers, False), "acul": pick.choice(ACULS)}
    threshold = values.get("sbct", DEFAULTS["sbct"])
    made = Sections(pick, schedulers, some_names(pick), threshold, patience=PATIENCE_OF_MANY)
    for me in sorted(pick.sample(range(schedulers), pick.randrange(schedulers))):
        made.abandon(me)
    return some_race(made, letter, megabytes, values)


def some_race(made, letter, megabytes, values, stopping=STOPPING):
    """The trace of sections in the making, with meetings, operations and, by this chance, stops."""
    pick, schedulers = made.pick, len(made.texts)
    if pick.random() < stopping:
        few = pick.randint(1, schedulers if pick.random() < 0.2 else schedulers // 2)
        made.stopping = set(pick.sample(range(schedulers), few))
        made.counting = {it for it in made.stopping if pick.random() < 0.8}
    if "acul" in values:
        for it in sorted(made.counting):
            made.abandon(it)
    if pick.random() < 0.8:
        made.meet()
    for _ in range(schedulers * pick.randint(1, 20)):
        made.add(pick.randrange(schedulers))
    if pick.random() < 0.5:
        made.meet()
        for it in made.texts:
            it += SETTLING
    made.give_back()
    stops = some_stops(pick, made, values)
    words = words_of(pick, letter, schedulers, megabytes, values)
    return Trace(letter, words, {**DEFAULTS, **values}, megabytes * PAGES_OF_A_MB // schedulers, made.texts, stops)


def meeting(made, pick):
    """What two schedulers do up to their meeting: blocks of each, some of them handed over. It answers the turns up to
    there. Then scheduler 1 has given the last block, and scheduler 2 has yet to take it."""
    for me in (0, 1):
        for _ in range(pick.randint(1, 3)):
            made.alloc(me, pick.randrange(300))
    for me in (0, 1):
        for name in made.held[me][: pick.randint(0, 2)]:
            made.give(me, name, 1 - me)
    coming, going = made.alloc(1), made.alloc(0)
    waiting = [list(it) for it in made.offered]
    first = [turns_of(it) for it in made.texts]
    if made.counting:
        made.linger(0, LONG_ENOUGH)
    for me in (0, 1):
        for name in waiting[me]:
            made.wait(me, name, 1 - me)
    made.give(1, coming, 0)
    made.wait(0, coming, 1)
    made.give(0, going, 1)
    opening = f"1*{first[0]} 2*{turns_of(made.texts[1])} 1*{turns_of(made.texts[0]) - first[0]}"
    made.wait(1, going, 0)
    made.offered = [[], []]
    return opening


def turns_of(operations):
    """The turns of operations that succeed, where each take of another's block does so at once and no queue has a
    block."""
    own = made_by(operations)
    return sum(1 + it[2] if it[0] == "take" and it[1] in own else 2 if it[0] in ("give", "take") else 1 for it in operations)


def made_by(operations):
    return {it[-2] for it in operations if it[0] in ("alloc", "realloc")}


def ended_by(operations):
    return {it[1] for it in operations if it[0] in ("free", "realloc")}


def most_turns(operations, own):
    """The most turns of operations and of the text's end while no queue has a block."""
    turns = 1
    for word, *rest in operations:
        away = word in ("free", "realloc") and rest[0] not in own
        turns += 3 if away else 2 if word == "give" else 1 + rest[1] if word == "take" else 1
    return turns


def noticed_turns(operations, own, held):
    """Whether another scheduler can notice each turn of operations without takes, while no queue has a block."""
    turns = []
    for word, *rest in operations:
        turns.append(False)
        holds = word in ("free", "realloc", "give") and rest[0] in held
        if holds:
            held.remove(rest[0])
            turns += [True] if word == "give" else [] if rest[0] in own else [True, True]
        if word == "alloc" or word == "realloc" and holds:
            held.add(rest[-2])
    return turns


def turn_words(me, texts, fronts, held):
    """The numbers of turns of a scheduler after the meeting. If blocks may be put in its queue, or takes may fail, each
    turn is a word of its own, and they are as many as there can be: for each block of its queue one that passes it and
    one that finds it not linked."""
    after, own = texts[me][fronts[me] :], made_by(texts[me])
    queued = len(own & ended_by(texts[1 - me][fronts[1 - me] :]))
    last_take = 2 * me
    if queued or any(it[0] == "take" for it in after):
        return [1] * (last_take + most_turns(after, own) + 2 * queued)
    words, count = [], last_take
    for noticed in noticed_turns(after, own, held):
        count += 1
        if noticed:
            words.append(count)
            count = 0
    return words


def cut(words, turns):
    """As many of the words as have these turns."""
    for count, sums in enumerate(itertools.accumulate(words), 1):
        if sums >= turns:
            return words[:count]
    return words


def duel(number):
    """A trace of two schedulers that meet, with some lists of turns and not too many. In a third of them the first one
    stops, not before they have met."""
    pick = random.Random(number)
    while True:
        made = some_duel(pick)
        if LEAST_SCHEDULES <= made.count() <= MOST_SCHEDULES:
            return made


def some_duel(pick):
    values, letter = some_values(pick, 64, 2, False), pick.choice(LETTERS)
    threshold = min(values.get("sbct", DEFAULTS["sbct"]), 8)
    made = Sections(pick, 2, iter(range(1, 100)), threshold, TELLING_OPERATIONS, FEW_TRIES)
    if pick.random() < STOPPING:
        made.counting = {0}
    opening = meeting(made, pick)
    fronts = [len(it) for it in made.texts]
    held = [set(it) for it in made.held]
    for at in range(pick.randint(2, 6)):
        made.add(at % 2)
    made.give_back()
    turns = [turn_words(me, made.texts, fronts, held[me]) for me in (0, 1)]
    stops = {}
    for me in made.counting:
        left = pick.randrange(sum(turns[me]) + 2)
        stops[me] = turns_of(made.texts[me][: fronts[me]]) + left
        turns[me] = cut(turns[me], left)
    words = words_of(pick, letter, 2, 64, values)
    return Duel(letter, words, {**DEFAULTS, **values}, 32 * PAGES_OF_A_MB, made.texts, stops, opening, fronts, turns)
