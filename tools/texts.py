"""Traces that the program took, and texts that it wrote, for tools/compare; lines of texts, for other tools, too."""
import re
from dataclasses import dataclass, field, replace

from program import OF_RECORDED, command_of, is_said, rules_of

BYTES_OF_A_UNIT = 8
UNITS_OF_A_PAGE = 512
NUMBERS_OF_AN_INSTANCE = 1024
SMALLEST_BLOCK = 6
NUMBER = "(0|[1-9][0-9]{0,11})"
CARRIER = re.compile(
    f"carrier {NUMBER} (main|multi|single) owner {NUMBER} (employed|pooled|busy|returning) {NUMBER}"
    f" base {NUMBER} pages {NUMBER} allocated {NUMBER} largest {NUMBER}"
)
TOTALS = ("carriers", "units", "live", "queued", "free", "header")
TOTAL = re.compile("total " + " ".join(f"{it} {NUMBER}" for it in TOTALS))


# Lines of a text


@dataclass
class Carrier:
    """What a carrier's line says. The employer is who uses it, or put it into the pool, or to whom it returns."""

    number: int
    kind: str
    owner: int
    standing: str
    employer: int
    base: int
    pages: int
    allocated: int
    largest: int

    @property
    def units(self):
        return self.pages * UNITS_OF_A_PAGE


def numbers_in(match):
    """The parts of a match, those as numbers that are some."""
    return tuple(int(it) if it.isdigit() else it for it in match.groups())


def carrier_in(line):
    """What a line says, or None where it is no line of a carrier."""
    match = CARRIER.fullmatch(line)
    return match and Carrier(*numbers_in(match))


def total_in(line):
    """The figures of a line, or None where it is no line of totals."""
    match = TOTAL.fullmatch(line)
    return match and dict(zip(TOTALS, numbers_in(match)))


def read_carrier(line):
    found = carrier_in(line)
    if not found:
        raise ValueError(f"'{line}' is no line of a carrier")
    return found


def read_total(line):
    found = total_in(line)
    if not found:
        raise ValueError(f"'{line}' is no line of totals")
    return found


def owner_of(number):
    """The instance that creates the carriers of this number."""
    return (number - 1) // NUMBERS_OF_AN_INSTANCE + 1


def need_of(size):
    """The units of a request for that many bytes."""
    units = 1 + -(-size // BYTES_OF_A_UNIT)
    return max(SMALLEST_BLOCK, units + units % 2)


# Marks

MARK, WHOLE = b"# mark ", "end"
OPERATIONS = (b"alloc", b"free", b"realloc", b"give", b"take", b"info", b"idle")


def mark_in(line):
    """The name of a mark, or None where the line is none."""
    return line[len(MARK) :].decode("latin-1").strip() if line.startswith(MARK) else None


def marks_of(data):
    """The marks of an input but `end`, each with how many operations come before it."""
    count, marks = 0, []
    for line in data.split(b"\n"):
        name = mark_in(line)
        if name not in (None, WHOLE):
            marks.append((name, count))
        words = line.split(None, 1)[:1]
        count += bool(words) and (words[0].isdigit() or words[0] in OPERATIONS)
    return marks


def front_at(data, count):
    """Recorded operations up to so many of them."""
    kept = []
    for line in data.split(b"\n"):
        words = line.split(None, 1)[:1]
        count -= bool(words) and words[0].isdigit()
        if count < 0 or words == [b"end"]:
            break
        kept.append(line)
    return b"\n".join([*kept, b"end", b""])


# Traces and texts


@dataclass
class Trace:
    """A trace that the program took, or the lines of one type of an input of several. A generated one has no
    sections."""

    letter: str
    # The lines of each scheduler's operations.
    sections: list
    # After how many steps the schedulers are stopped that have a `stop`.
    stops: dict
    has_turns: bool
    is_threaded: bool
    # Of recorded operations the rules of a node by which they run, the empty text where they name none, and the
    # scheduler of each line.
    rules: str = None
    order: list = None

    def has_one_order(self):
        """Whether operations come in the order of their lines, each scheduler does all of its own before the next one
        begins, or one alone has any."""
        is_one = len(self.sections) == 1 or sum(map(bool, self.sections)) == 1 or self.order is not None
        return is_one or bool(self.sections) and not self.has_turns and not self.is_threaded

    def steps(self):
        """The scheduler of each operation, where they have one order."""
        return self.order if self.order is not None else [
            me for me, section in enumerate(self.sections, 1) for _ in section
        ]


@dataclass
class Text:
    # For each scheduler a list of words for each operation, the words of both lines of an `info` in one.
    logs: list = field(default_factory=list)
    # The schedulers that are stopped.
    stopped: list = field(default_factory=list)
    # What each line of a carrier says, and the figures of the totals.
    carriers: list = field(default_factory=list)
    total: dict = field(default_factory=dict)
    # What was generated: the failed allocations.
    generated_failed: int = None


def read_traces(text):
    """The trace of a file that the program took, or that of each type of an input of several, in their order."""
    lines = [it for it in text.split(b"\n") if is_said(it)]
    if command_of(lines) == [OF_RECORDED]:
        return [read_recorded(lines)]
    made = {letter: Trace(letter.decode(), [], {}, False, False) for letter in lines[0].split()[1:]}
    one = None if command_of(lines) else next(iter(made.values()))
    is_over = has_turns = is_threaded = False
    for line in lines[1:]:
        words = line.split(None, 2)
        if is_over:
            has_turns = has_turns or words != [b"end"]
        elif words[0] == b"scheduler":
            for it in made.values():
                it.sections.append([])
        elif words[0] in (b"schedule", b"threads", b"generate"):
            is_over, is_threaded = True, words[0] == b"threads"
        elif words[0] == b"stop":
            one.stops[int(words[1])] = int(words[2])
        elif one:
            one.sections[-1].append(line)
        else:
            made[words[0]].sections[-1].append(line.split(None, 1)[1])
    return [replace(it, has_turns=has_turns, is_threaded=is_threaded) for it in made.values()]


def read_recorded(lines):
    """The trace of recorded operations: those of each scheduler. How many there are the lines need not tell; one that
    has none has an empty section, and so have those that only the flags know, of which nothing is asked."""
    sections, order = {}, []
    for line in lines[1:]:
        me, *operation = line.split(None, 1)
        if me.isdigit():
            order.append(int(me))
            sections.setdefault(int(me), []).append(operation[0].strip())
    count = max(sections, default=1)
    parts = [sections.get(it, []) for it in range(1, count + 1)]
    return Trace(lines[0].split()[1].decode(), parts, {}, True, False, rules_of(lines), order)


def read_texts(text):
    """The text of a run with status 0, or that of each type, in their order."""
    parts = re.split(rb"^type [A-Z]\n", text, flags=re.MULTILINE)
    return [read_text(it) for it in parts[1:] or parts]


def read_text(text):
    """The text of one type."""
    made = Text()
    for line in text.decode("ascii").split("\n"):
        words = line.split(" ")
        if words[0] == "scheduler" and len(words) == 2:
            made.logs.append([])
        elif words[0] == "scheduler":
            made.generated_failed += int(words[5])
        elif words[0] == "generated":
            made.generated_failed = 0
        elif words[0] == "stopped":
            made.stopped.append(len(made.logs))
        elif words[0] == "carrier":
            made.carriers.append(read_carrier(line))
        elif words[0] == "total":
            made.total = read_total(line)
        elif words[:2] == ["info", "sbcs"]:
            made.logs[-1][-1] += words
        elif words[0]:
            made.logs[-1].append(words)
    if not made.total:
        raise ValueError("there is no line of totals")
    return made


def figure(entry, at):
    """A figure of an `info`, over multiblock and singleblock carriers."""
    return int(entry[at]) + int(entry[len(entry) // 2 + at])


def is_placed(entry):
    """Whether an entry says where a block lies."""
    return entry[0] == "alloc" and entry[2] != "fail" or entry[0] == "realloc" and entry[3] not in ("fail", "skipped")


def carrier_of(entry):
    """The number of the carrier where it does."""
    return int(entry[2] if entry[0] == "alloc" else entry[3])
