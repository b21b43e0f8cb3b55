"""What tools/record wrote of a node: how tools/load reads it, and makes an input of it."""
import contextlib
import re
from collections import Counter
from dataclasses import dataclass, field

from flags import without_own_strategy
from program import OF_RULES, RULES
from refused import Refused, demand

FIRST_LINE = "node-record 1"
LETTERS = "BDEHLRST"
MOST_SCHEDULERS = 64
MOST_OPERATIONS = 1048576
LARGEST_INPUT = 2**24
MOST_BYTES = 1073741823
END = "end\n"
PEAK, VALLEY = "peak", "valley"
# What the comment lines on what was made have at most, but for the name of a mark.
MOST_TOLD = 2048
EVENTS = ("alloc", "free", "realloc", "to")
# The turns that an operation takes with an empty queue, if no carrier migrates.
TURNS = {"give": 2, "take": 2}
# A block has a header and a whole number of these, and this many at least.
HEADER, BLOCK_STEP, LEAST_BLOCK = 8, 16, 48
# Whether a take finds its block depends on the turns of a trace, so there it tries often; and how often all may try.
TRIES, MOST_TRIES = 1000, 100000000


@dataclass
class Instance:
    """What the node said of an instance: carriers and their bytes, of those that it uses, of its pool and of the
    singleblock ones, and all blocks and theirs."""

    number: int
    multi: int
    multi_bytes: int
    pooled: int
    pooled_bytes: int
    single: int
    single_bytes: int
    blocks: int
    block_bytes: int

    @property
    def carriers(self):
        return self.multi + self.pooled + self.single

    @property
    def carrier_bytes(self):
        return self.multi_bytes + self.pooled_bytes + self.single_bytes


@dataclass
class Mark:
    """After how many events it was set, and the instances of each letter."""

    events: int
    name: str
    instances: dict = field(default_factory=dict)


@dataclass
class Recording:
    """The head of a file, and where its events begin: how many lines come before them."""

    path: str
    types: list = field(default_factory=list)
    schedulers: int = 0
    megabytes: int = 0
    flags: dict = field(default_factory=dict)
    untranslated: list = field(default_factory=list)
    marks: list = field(default_factory=list)
    threads: dict = field(default_factory=dict)
    lines: int = 0

    @property
    def rules(self):
        """Those of a node that the program has, too: without a super carrier the mappings of its carriers fall."""
        return [it for it in RULES if it != "falling" or not self.megabytes]

    def mark(self, name):
        found = next((it for it in self.marks if it.name == name), None)
        names = ", ".join(it.name for it in self.marks)
        demand(found, f"{self.path}: there is no mark {name}: there are {names}")
        return found

    def letter(self, wanted):
        """The letter that is wanted, or the only one."""
        types = " ".join(self.types)
        demand(wanted or len(self.types) == 1, f"{self.path}: it has the types {types}: choose by --type")
        demand(not wanted or wanted in self.types, f"{self.path}: it has no type {wanted}")
        return wanted or self.types[0]


# ---------------------------------------------------------------------------------------------------------------------
# The file
# ---------------------------------------------------------------------------------------------------------------------


def number(word):
    demand(re.fullmatch(r"[0-9]{1,18}", word), f"{word[:40]!a} is no number")
    return int(word)


def read_head_line(made, words):
    """Takes over a line that comes before the events."""
    kind, rest = words[0], words[1:]
    if kind == "types":
        demand(rest and all(it in LETTERS and len(it) == 1 for it in rest), f"letters are due, of {' '.join(LETTERS)}")
        made.types = rest
    elif kind in ("schedulers", "super") and len(rest) == 1:
        setattr(made, "schedulers" if kind == "schedulers" else "megabytes", number(rest[0]))
    elif kind == "flags":
        demand(len(rest) % 2 == 0 and all(it[:2] == "+M" and it[2:3] in LETTERS for it in rest[::2]), "pairs are due")
        made.flags.setdefault(rest[0][2] if rest else "", []).extend(rest)
    elif kind == "untranslated":
        made.untranslated.append(" ".join(rest))
    elif kind == "mark" and len(rest) == 2:
        made.marks.append(Mark(number(rest[0]), rest[1]))
    elif kind == "instance" and len(rest) == 10:
        demand(made.marks, "no `mark` line stands before it")
        made.marks[-1].instances.setdefault(rest[0], []).append(Instance(*map(number, rest[1:])))
    elif kind == "thread" and len(rest) >= 2:
        made.threads[rest[0]] = number(rest[1])
    else:
        raise Refused(f"no line is {' '.join(words)[:60]!a}")


def read_recording(path):
    """The head of a file, or a refusal with its name and the number of the line."""
    made, at = Recording(path), 1
    try:
        with open(path, encoding="utf-8", errors="replace") as file:
            demand(next(file, "").rstrip() == FIRST_LINE, f"it is not `{FIRST_LINE}`")
            for at, line in enumerate(file, 2):
                words = line.split()
                if words == ["events"]:
                    break
                if words and not words[0].startswith("#"):
                    read_head_line(made, words)
            else:
                raise Refused("there is no `events` line")
    except OSError as error:
        raise Refused(f"{path}: {error.strerror}") from None
    except Refused as what:
        raise Refused(f"{path}: line {at}: {what}") from None
    demand(made.types and made.marks, f"{path}: there is no `types` line or no `mark` line")
    demand(1 <= made.schedulers <= MOST_SCHEDULERS,
           f"{path}: the node has {made.schedulers} schedulers, and a run has 1 to {MOST_SCHEDULERS}")
    for thread, scheduler in made.threads.items():
        demand(scheduler <= made.schedulers,
               f"{path}: thread {thread} has scheduler {scheduler}, and the node has {made.schedulers}")
    made.lines = at
    return made


# ---------------------------------------------------------------------------------------------------------------------
# The operations
# ---------------------------------------------------------------------------------------------------------------------


class Full(Exception):
    """No operation more fits the limits."""


@dataclass
class Moment:
    """How many bytes of blocks there are, and after how many lines."""

    live: int = 0
    place: int = 0


@dataclass
class Block:
    """The name and size of a block, and who has it; 0 is a thread that is no scheduler, whose blocks are left out."""

    name: int
    size: int
    holder: int


class Maker:
    """Follows the events of one allocator, and makes operations of them: (scheduler, line), and (0, mark)."""

    def __init__(self, recording, letter, others, more, is_trace, told):
        """Lines of so many bytes come before the operations."""
        self.threads, self.others = recording.threads, others
        self.infos = [(it, "info") for it in range(1, recording.schedulers + 1)]
        self.live, self.peak, self.valley = 0, Moment(), Moment()
        # The most bytes of blocks that there were at once.
        self.most_bytes = 0
        self.own_marks = [] if is_trace else own_marks(recording)
        self.letter, self.more, self.is_trace = letter, more, is_trace
        self.blocks, self.moving = {}, {}
        self.lines, self.names, self.operations = [], 0, 0
        self.size = told + len(END)
        if is_trace:
            self.size += sum(len(it) for it in heads(recording.schedulers))
        for name in self.own_marks:
            self.operations += len(self.infos)
            self.size += sum(len(it) for _, it in self.lines_of_mark(name))
        self.counts, self.said = Counter(), Counter()

    def size_of(self, me, line):
        """The bytes that an operation takes; in a trace with its turns, which take fewer where they are put together."""
        if not self.is_trace:
            return len(f"{me} {line}\n")
        return len(in_section(f"{line}\n")) + len(turns_word(me, turns_of(line)))

    def add(self, *operations):
        """Adds all of them, or none where they don't fit."""
        kinds = [line.split(" ", 1)[0] for _, line in operations]
        size = sum(self.size_of(*it) for it in operations)
        takes = self.counts["take"] + kinds.count("take")
        if self.operations + len(kinds) > MOST_OPERATIONS or self.size + size > LARGEST_INPUT:
            raise Full
        if self.is_trace and takes * TRIES > MOST_TRIES:
            raise Full
        self.size += size
        self.operations += len(kinds)
        self.lines += [(me, f"{me} {line}\n") for me, line in operations]
        for kind in kinds:
            self.counts[kind] += 1

    def mark(self, name):
        """A comment line, and before it an `info` of each scheduler if there was something since the mark before: when
        a node is asked for its figures, its schedulers release what is queued. A trace has none, since in a section it
        would be none of the others'."""
        line = f"# mark {name}\n"
        if not self.is_trace and self.size + len(line) <= LARGEST_INPUT:
            with contextlib.suppress(Full):
                self.add(*(self.infos if self.lines and self.lines[-1][0] else []))
                self.size += len(line)
                self.lines.append((0, line))

    def lines_of_mark(self, name):
        return [*((me, f"{me} {line}\n") for me, line in self.infos), (0, f"# mark {name}\n")]

    def observe(self):
        """After an event: a new peak, or a new valley after it."""
        if self.live > self.peak.live:
            self.peak = self.valley = Moment(self.live, len(self.lines))
        elif self.live <= self.valley.live:
            self.valley = Moment(self.live, len(self.lines))

    def set_own_marks(self):
        """Puts the marks of peak and valley in, for which there is room."""
        if self.valley.live == self.peak.live:
            self.own_marks = [it for it in self.own_marks if it == PEAK and self.peak.live]
        for name in sorted(self.own_marks, reverse=True):
            place = self.peak.place if name == PEAK else self.valley.place
            self.lines[place:place] = self.lines_of_mark(name)
            self.counts["info"] += len(self.infos)

    def count_block(self, size, sign=1):
        """Counts the bytes of a block that was placed, or of one that went."""
        self.live += sign * max(LEAST_BLOCK, -(-(size + HEADER) // BLOCK_STEP) * BLOCK_STEP)
        self.most_bytes = max(self.most_bytes, self.live)

    def scheduler(self, thread):
        """That of a thread; of one that is no scheduler the one that does its operations, 0 if none does."""
        return self.threads.get(thread, 0) or self.others

    def alloc(self, me, place, size):
        if not me:
            self.said["other"] += 1
        elif size > MOST_BYTES:
            self.said["large"] += 1
            me = 0
        else:
            self.add((me, f"alloc {self.names + 1} {size}"))
            self.names += 1
            self.count_block(size)
        self.blocks[place] = Block(self.names, size, me)

    def handed(self, me, block):
        """The operations that bring a block to the scheduler that frees it or reallocates it."""
        if me == block.holder:
            return []
        return [(block.holder, f"give {block.name} {me}"), (me, f"take {block.name} 1")]

    def free(self, me, place):
        block = self.blocks.get(place)
        if block is None:
            self.said["before"] += 1
        elif not block.holder:
            self.said["other"] += 1
        else:
            who = me or block.holder
            self.said["freed"] += not me
            self.add(*self.handed(who, block), (who, f"free {block.name}"))
            self.count_block(block.size, -1)
        self.blocks.pop(place, None)

    def begin_move(self, thread, place, size):
        """A reallocation: where the block lay another may lie before its end is noted."""
        self.moving[thread] = self.blocks.pop(place, None), size

    def end_move(self, me, thread, place):
        old, size = self.moving.pop(thread, (None, 0))
        self.said["before"] += old is None
        if old is None or not old.holder or not me or size > MOST_BYTES:
            if old and old.holder:
                self.add((old.holder, f"free {old.name}"))
                self.count_block(old.size, -1)
            self.alloc(me, place, size)
            return
        self.add(*self.handed(me, old), (me, f"realloc {old.name} {self.names + 1} {size}"))
        self.names += 1
        self.count_block(size)
        self.count_block(old.size, -1)
        self.blocks[place] = Block(self.names, size, me)

    def take(self, words):
        """Takes over an event."""
        kind, thread, place = words[0], words[2], words[3]
        if kind not in EVENTS:
            raise ValueError(kind)
        me = self.scheduler(thread)
        if kind in ("alloc", "to") and place in self.blocks:
            # A lost event was its free.
            self.said["unclear"] += 1
            self.free(0, place)
        if kind == "alloc":
            self.alloc(me, place, int(words[4]) + self.more)
        elif kind == "free":
            self.free(me, place)
        elif kind == "realloc":
            self.begin_move(thread, place, int(words[4]) + self.more)
        else:
            self.end_move(me, thread, place)
        self.observe()


def own_marks(recording):
    """The marks that are set of peak and valley: not where the recording has such."""
    return [it for it in (PEAK, VALLEY) if not any(mark.name.startswith(it) for mark in recording.marks)]


def follow(recording, maker, last):
    """Gives the maker the events up to a mark. It returns how many events were taken, and whether all of them were."""
    marks = sorted(recording.marks, key=lambda it: it.events)
    done = at = 0
    with open(recording.path, encoding="ascii", errors="replace") as file:
        for _ in range(recording.lines):
            next(file)
        try:
            for at, line in enumerate(file, 1):
                while done < len(marks) and marks[done].events < at:
                    maker.mark(marks[done].name)
                    done += 1
                if at > last.events:
                    return at - 1, True
                words = line.split()
                if words[0] == "lost":
                    maker.said["lost"] += 1
                elif words[1] == maker.letter:
                    maker.take(words)
        except Full:
            return at - 1, False
        except (IndexError, ValueError):
            raise Refused(f"{recording.path}: line {recording.lines + at}: it is no event") from None
    for it in marks[done:]:
        maker.mark(it.name)
    return at, True


def told(recording, maker, last, taken, is_whole):
    """Comment lines on what was made and left out."""
    said = maker.said
    yield "Of a node are order, sizes, and who allocates, reallocates and frees; sizes are those that were asked for."
    yield f"Of {last.events} recorded events of all types {taken} are taken, up to mark {last.name}."
    if not is_whole:
        yield "CUT: more operations than these do not fit an input of the program; later marks are left out."
    kinds = ("alloc", "realloc", "free", "give", "take", "info")
    yield "Operations: " + ", ".join(f"{maker.counts[it]} {it}" for it in kinds if it != "info" or maker.counts[it])
    if maker.own_marks:
        parts = {PEAK: f"most bytes in blocks, {maker.peak.live}", VALLEY: f"least after that, {maker.valley.live}"}
        yield "; ".join(f"mark {it} is where there are the {parts[it]}" for it in maker.own_marks).capitalize() + "."
    for count, words in (
        (said["before"], "frees and reallocations of blocks that were there before the recording; a free is left out"),
        (said["other"], "operations of threads that are no schedulers, left out"),
        (said["freed"], "frees of such threads, done by the scheduler that had the block"),
        (said["large"], f"blocks of more than {MOST_BYTES} bytes, left out"),
        (said["lost"], "events that were not noted whole, of any type, left out"),
        (said["unclear"], "blocks whose free was not noted, freed where the next one has their place"),
    ):
        if count:
            yield f"{count} {words}."


def own_flags(recording, letter, megabytes):
    """The flags that the node runs under, as the program takes them."""
    told = without_own_strategy(recording.flags.get(letter, []), letter)
    return ["+S", str(recording.schedulers), "+MMscs", str(megabytes), *told]


def untranslated(recording, letter):
    """What of the node's settings has no flag here."""
    return [it for it in recording.untranslated if it.startswith(f"+M{letter}")]


def head_of(letter, rules):
    """The lines before the operations, or before the sections."""
    return [f"type {letter}\n", *([f"{OF_RULES.decode()} {' '.join(rules)}\n"] if rules else [])]


def as_recorded(maker):
    return [text for _, text in maker.lines]


def heads(schedulers):
    """The lines at which the parts of a trace begin."""
    return [*(f"scheduler {it}\n" for it in range(1, schedulers + 1)), "schedule\n"]


def in_section(line):
    return line.replace(" 1\n", f" {TRIES}\n") if line.startswith("take ") else line


def turns_of(line):
    return TURNS.get(line.split(" ", 1)[0], 1)


def turns_word(me, count):
    """With what parts it from the next one."""
    return f"{me}*{count} "


def as_trace(maker, schedulers):
    """The sections, and turns that follow the order about: as many as the operations take with empty queues, if no
    carrier migrates."""
    sections = [[] for _ in range(schedulers)]
    turns = []
    for me, text in maker.lines:
        line = text.split(" ", 1)[1]
        sections[me - 1].append(in_section(line))
        if turns and turns[-1][0] == me:
            turns[-1][1] += turns_of(line)
        else:
            turns.append([me, turns_of(line)])
    *begins, schedule = heads(schedulers)
    for begin, section in zip(begins, sections):
        yield begin
        yield from section
    yield schedule
    words = [turns_word(*it) for it in turns]
    for at in range(0, len(words), 16):
        yield "".join(words[at : at + 16]).rstrip() + "\n"
