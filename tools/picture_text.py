"""Traces, texts and the program, for tools/picture."""
import os
import re
from dataclasses import dataclass, field, replace

from expected import explained
from files import read_file, reason_of
from program import COMMANDS, NOT_BUILT, OF_RECORDED, OF_REGION, OF_RULES, OF_SEVERAL, command_of, rules_of, run, told_of
from refused import Refused
from texts import MARK, need_of, read_carrier, read_total

MOST_STEPS_OF_A_STOP = 100_000_000
OPERATIONS = ("alloc", "realloc", "free", "give", "take", "idle", "info")


# What the program reads and writes


@dataclass
class Trace:
    """A trace that the program took, or that of one type of an input of several: the operations of each section, the
    steps until the stop of each scheduler that has one, the lines after the stops, and for each operation how many
    lines of the section come before it, those of other types among them."""

    letter: str
    sections: list
    stops: dict
    closing: list
    places: list
    is_of_several: bool = False
    # Of recorded operations the scheduler of each, in their order, and the rules of a node by which they run.
    order: list = None
    rules: str = ""
    # Of each mark its name, the section in which it stands, counted from 1, and after how many operations of that one;
    # of recorded operations after how many of all.
    marks: list = field(default_factory=list)

    @property
    def has_threads(self):
        return self.closing[0] == "threads"

    def text(self, sections, stops):
        """The same with these sections and stops; of recorded operations the first that these sections have."""
        if self.order is not None:
            return self.recorded_text(sections)
        lines = [f"type {self.letter}"]
        for number, section in enumerate(sections, 1):
            lines += [f"scheduler {number}", *section]
        lines += [f"stop {number} {steps}" for number, steps in stops.items()]
        return "\n".join([*lines, *self.closing, ""])

    def recorded_text(self, sections):
        parts, lines = [iter(it) for it in sections], [f"type {self.letter}"]
        if self.rules:
            lines.append(f"{OF_RULES.decode()} {self.rules}")
        for me in self.order[: sum(map(len, sections))]:
            lines.append(f"{me} {next(parts[me - 1])}")
        return "\n".join([*lines, "end", ""])

    def front(self, lengths, stopped):
        """The same with the first operations of each section and these schedulers' stops alone, and the places of the
        takes that became idle because no line left gives them their block."""
        parts = [section[:length] for section, length in zip(self.sections, lengths)]
        given = {it.split()[1] for part in parts for it in part if it.startswith("give ")}
        idle = set()
        for number, part in enumerate(parts, 1):
            for at, operation in enumerate(part):
                if operation.startswith("take ") and operation.split()[1] not in given:
                    idle.add((number, at))
                    part[at] = "idle"
        return self.text(parts, {it: self.stops[it] for it in stopped}), idle

    def with_operation(self, scheduler, at, operation):
        """The same with another operation in this place."""
        sections = list(self.sections)
        sections[scheduler - 1] = [*sections[scheduler - 1][:at], operation, *sections[scheduler - 1][at + 1 :]]
        return self.text(sections, self.stops)

    def with_a_step_more(self, scheduler):
        """The same with the stop of this scheduler one step later."""
        steps = min(self.stops[scheduler] + 1, MOST_STEPS_OF_A_STOP)
        return self.text(self.sections, {**self.stops, scheduler: steps})


@dataclass
class Text:
    """The lines of each log, both lines of an info as one, the carriers at the end and the totals."""

    logs: list
    carriers: list
    total: dict


@dataclass(slots=True, eq=False)
class Stop:
    """What is known of a scheduler's stop: after how many of its steps, the operation that has no entry, or nothing
    where each has one, the block that it was releasing, the one that it had placed for that, and the entry that the
    operation has with one step more: nothing where it has none, and None where no run can tell."""

    scheduler: int
    steps: int
    operation: str
    released: str = None
    placed: str = None
    next: str = None
    moment: int = None


@dataclass(slots=True)
class Entry:
    """What a line says: the block that it places (name, carrier, offset, size), whether alone in its carrier, and the
    block that it ends (name, how, the scheduler in whose queue it was put). Of a stop, the same for what its operation
    had done; the block that it ends is kept then."""

    scheduler: int
    line: str
    placed: tuple = None
    alone: bool = False
    ended: tuple = None
    given: str = None
    taken: str = None
    missed: str = None
    stop: Stop = None

    @property
    def stays(self):
        """Whether a block stays where it is under another name."""
        return self.ended is not None and self.ended[1] == "here"


def read_flags(path):
    """The words of a file, one a line."""
    try:
        return read_file(path).decode().removesuffix("\n").split("\n")
    except UnicodeDecodeError as error:
        raise Refused(f"{path}: it is not UTF-8") from error


def words_of_lines(data):
    """The words of the lines that the program does not skip."""
    for line in data.decode("latin-1").split("\n"):
        words = line.split()
        if words and not words[0].startswith("#"):
            yield words


def first_word(data):
    return next(words_of_lines(data), [""])[0]


def is_of_several(data):
    """Whether it is an input of several allocator types."""
    return first_word(data) == OF_SEVERAL


def is_of_region(data):
    """Whether it is an input of one shared region."""
    return first_word(data) == OF_REGION


def read_traces(data):
    """The trace of bytes that the program took, or that of each type, in their order; none of a generated one."""
    if command_of(data.split(b"\n")) == [OF_RECORDED]:
        return [read_recorded(data)]
    several, (first, *lines) = is_of_several(data), words_of_lines(data)
    stops, closing, at = {}, [], 0
    traces = {letter: Trace(letter, [], stops, closing, [], several) for letter in first[1:]}
    for words in lines:
        if words[0] == "generate":
            return []
        if closing or words[0] in ("schedule", "threads"):
            closing.append(" ".join(words))
        elif words[0] == "scheduler":
            at = 0
            for trace in traces.values():
                trace.sections.append([])
                trace.places.append([])
        elif words[0] == "stop":
            stops[int(words[1])] = int(words[2])
        else:
            trace = traces[words[0]] if several else traces[first[1]]
            trace.sections[-1].append(" ".join(words[several:]))
            trace.places[-1].append(at)
            at += 1
    for trace in traces.values():
        trace.marks = [*marks_of(data, f"{trace.letter} " if several else "")]
    return [*traces.values()]


def marks_of(data, before):
    """The marks of an input: the name of each, and after how many operations of which section it stands. `before` is
    what an operation has before its own words."""
    is_one = re.compile(f"{before}({'|'.join(OPERATIONS)})( |$)").match
    section = done = 0
    for line in data.split(b"\n"):
        words = " ".join(line.decode("latin-1").split())
        if line.startswith(MARK):
            yield line[len(MARK) :].decode(errors="replace").strip(), section, done
        elif words.startswith("scheduler "):
            section, done = section + 1, 0
        elif is_one(words):
            done += 1


def read_recorded(data):
    """The trace of recorded operations; the text tells how many schedulers there are."""
    first, *lines = words_of_lines(data)
    lines = [it for it in lines if it[0].isdigit()]
    sections = [[] for _ in range(max((int(it[0]) for it in lines), default=1))]
    for me, *words in lines:
        sections[int(me) - 1].append(" ".join(words))
    order = [int(it[0]) for it in lines]
    places, rules = [[*range(len(it))] for it in sections], rules_of(data.split(b"\n"))
    found = Trace(first[1], sections, {}, ["schedule", "end"], places, order=order, rules=rules)
    found.marks = [*marks_of(data, "[0-9]+ ")]
    return found


def part_of(text, trace):
    """What the program's text has of this trace."""
    if not trace.is_of_several:
        return text
    return re.split("^type ", text.partition(f"type {trace.letter}\n")[2], maxsplit=1, flags=re.MULTILINE)[0]


def is_stop(line):
    return line.startswith("stopped ")


def read_text(text, sections):
    """The text of these sections. A scheduler's stop is the last of its log."""
    lines, at, logs = text.split("\n"), 0, []
    for number, section in enumerate(sections, 1):
        if lines[at] != f"scheduler {number}":
            raise ValueError(f"'{lines[at]}' where 'scheduler {number}' is due")
        at += 1
        log = []
        for operation in section:
            if is_stop(lines[at]):
                break
            count = 2 if operation == "info" else 1
            log.append("\n".join(lines[at : at + count]))
            at += count
        if is_stop(lines[at]):
            log.append(lines[at])
            at += 1
        logs.append(log)
    return Text(logs, [read_carrier(it) for it in lines[at:-2]], read_total(lines[-2]))


def read_entry(scheduler, operation, line, threshold):
    """The entry of an operation; a request for more units than the threshold has a carrier of its own."""
    words = line.split(" ")
    entry = Entry(scheduler, line)
    kind, name = words[0], words[1] if len(words) > 1 else None
    if kind == "alloc" and words[2] != "fail":
        entry.placed = name, *map(int, words[2:5])
        entry.alone = need_of(int(operation.split()[2])) > threshold
    elif kind == "realloc" and words[3] not in ("fail", "skipped"):
        entry.placed = words[2], *map(int, words[3:6])
        how = words[6] if words[6] == "here" else words[7]
        entry.ended = name, how, int(words[8]) if how == "queued" else scheduler
        entry.alone = how != "here" and need_of(int(operation.split()[3])) > threshold
    elif kind == "free" and words[2] != "skipped":
        entry.ended = name, words[2], int(words[3]) if words[2] == "queued" else scheduler
    elif kind == "give" and words[-1] != "skipped":
        entry.given = name
    elif kind == "take" and words[2] == "got":
        entry.taken = name
    elif kind == "take":
        entry.missed = name
    return entry


def plain(operation):
    """An operation with its numbers as the text writes them."""
    return " ".join(str(int(it)) if it.isdigit() else it for it in operation.split())


def read_log(scheduler, operations, lines, threshold):
    """The entries of a log, in which a stop has its steps alone."""
    log = [read_entry(scheduler, *it, threshold) for it in zip(operations, lines) if not is_stop(it[1])]
    if lines and is_stop(lines[-1]):
        operation = plain(next(iter(operations[len(log) :]), ""))
        log.append(Entry(scheduler, lines[-1], stop=Stop(scheduler, int(lines[-1].split()[1]), operation)))
    return log


def begun_at(stop, entry):
    """The entry of a stop whose operation had a block in the hand; it had placed what this entry places."""
    released = stop.operation.split()[1]
    made = Entry(stop.scheduler, f"stopped {stop.steps}", ended=(released, "kept", stop.scheduler))
    if entry and entry.placed:
        made.placed, made.alone = entry.placed, entry.alone
    made.stop = replace(stop, released=released, placed=made.placed and made.placed[0])
    return made


def live_of(logs):
    """The units of the blocks that are held at the end of these entries."""
    sizes = {it.placed[0]: it.placed[3] for log in logs for it in log if it.placed}
    return sum(sizes.values()) - sum(sizes[it.ended[0]] for log in logs for it in log if it.ended)


# The program


class Program:
    """The program with the flags that it is given: of a file, or else of words that stand in these."""

    def __init__(self, path, words, flags_file, place="the words after --"):
        self.before = int(words[:1] != [] and words[0] in COMMANDS)
        self.path, self.words, self.flags_file, self.place = path, words[self.before :], flags_file, place
        # What the list of flags is called.
        self.name = os.path.basename(flags_file or "") or " ".join(self.words) or "no flags"

    def run(self, data, name, asked=None):
        """The text of this input, which stands in the file of this name, by the command that its lines are of, or by
        another one that is asked for."""
        command = [asked] if asked else command_of(data.split(b"\n"))
        try:
            ran = run([self.path, *command, *self.words], data)
        except ValueError as error:
            raise Refused(self.said_of_flags("a word has a zero byte")) from error
        except OSError as error:
            raise Refused(f"{self.path}: {reason_of(error)}") from error
        if ran.returncode == 0:
            return ran.stdout.decode("latin-1")
        said = told_of(ran.stderr)
        expected = explained(said, [*command, *self.words], data)
        if ran.returncode == NOT_BUILT:
            raise Refused(f"{self.path}: the program could not be proved or built: {said}")
        if ran.returncode == 1:
            raise Refused(self.said_of_flags(said), expected)
        if ran.returncode in (2, 7):
            raise Refused(f"{name}: {said}", expected)
        raise Refused(f"{self.path}: status {ran.returncode}: {said or 'it said nothing'}")

    def said_of_flags(self, said):
        said = re.sub("^word ([0-9]+)", lambda it: f"word {int(it[1]) + self.before}", said)
        if self.flags_file:
            return f"{self.flags_file}: {said.replace('word ', 'line ', 1)}"
        return f"{self.place}: {said}"
