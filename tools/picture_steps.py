"""The steps of a run as a page for a browser, for tools/picture: picture_steps.html with what `steps` tells."""
import html
import json
import os
import re
from dataclasses import dataclass, field

from flags import Settings, letters_of
from picture_svg import COLOURS, flags_words
from picture_text import is_of_region
from program import OF_REGION, OF_STEPS, command_of
from refused import Refused
from texts import NUMBERS_OF_AN_INSTANCE, carrier_in, total_in

STEP = re.compile(r"([0-9]+)(?:-([0-9]+))? ([0-9]+) ([0-9]+)(?:-([0-9]+))? ((?:take|look|push|link|busy|settle|abandon"
                  r"|fetch|create|send|clear|give).*)")
WORDS = ("absent", "employed", "pooled", "busy", "returning")
WORD = re.compile(f"({'|'.join(WORDS)})(?: ([0-9]+))?(?: ([0-9]+))?")
# The rows that are of a carrier, and the word that each leaves: that which stands in the row, or one of its scheduler.
OF_A_CARRIER = re.compile("(look|busy_try|settle|abandon|fetch_try|create|send_home|clear)"
                          " ([0-9]+)(?: to ([0-9]+))? ?(.*)")
MOST_STEPS = 20000


@dataclass
class Lane:
    """A carrier: from which lines on it has which word, as numbers of lines, kinds of words and instances."""

    number: int
    spans: list = field(default_factory=list)
    # The lines whose rows are of it.
    marks: list = field(default_factory=list)

    @property
    def word(self):
        return self.spans[-1][1:] if self.spans else (0, 0)

    @property
    def was_there(self):
        """Whether it had a word but that of an absent one: a look alone is no carrier."""
        return any(kind for _, kind, _ in self.spans)


@dataclass
class Told:
    """A line of steps: its words, whose they are, the carrier that its row is of, and what it did."""

    line: str
    scheduler: int
    row: str
    done: list = field(default_factory=list)


def owner_of(number):
    return (number - 1) // NUMBERS_OF_AN_INSTANCE + 1


def word_in(said):
    """The kind of a word and its instance, where these words are one."""
    found = WORD.fullmatch(said)
    return (WORDS.index(found[1]), int(found[2] or 0)) if found else None


class Steps:
    """What the text of `steps` tells: its lines of steps, and each carrier's words over them."""

    def __init__(self, name, text):
        self.name, self.told, self.lanes, self.rest = name, [], {}, []
        for line in text.splitlines():
            step = STEP.fullmatch(line)
            if step:
                self.told.append(Told(line, int(step[3]), step[6]))
            elif carrier_in(line) or total_in(line):
                self.rest.append(line)
            elif self.told and not self.rest:
                self.told[-1].done.append(line)
            else:
                raise Refused(f"{name}: the program wrote no steps: {line}")
        if not self.rest:
            raise Refused(f"{name}: the program wrote no steps")
        for at, it in enumerate(self.told):
            self.follow(at, it)
        self.check()

    def lane(self, number):
        """That of a carrier. One that no step made was there from the start, and its owner used it."""
        return self.lanes.setdefault(number, Lane(number))

    def set(self, at, number, word):
        lane = self.lane(number)
        if lane.word != word:
            lane.spans.append((at, *word))

    def follow(self, at, told):
        """Notes which words a step left."""
        found = OF_A_CARRIER.fullmatch(told.row)
        if found and not (found[1] == "look" and found[3]):
            number, how = int(found[2]), found[4]
            self.lane(number).marks.append(at)
            if found[1] == "look":
                self.seen(at, number, word_in(how))
            elif how.startswith("lost "):
                self.seen(at, number, word_in(how.removeprefix("lost ")))
            elif found[1] == "send_home":
                self.set(at, number, (WORDS.index("returning"), int(found[3])))
            elif found[1] in ("busy_try", "fetch_try"):
                word = "busy" if found[1] == "busy_try" else "employed"
                self.set(at, number, (WORDS.index(word), told.scheduler))
            elif found[1] in ("settle", "abandon"):
                self.set(at, number, word_in(how))
        for line in told.done:
            words = line.split()
            if words[0] == "gone":
                self.set(at, int(words[1]), (0, 0))
            if words[0] == "made":
                self.set(at, int(words[1]), (WORDS.index("employed"), told.scheduler))

    def seen(self, at, number, word):
        """A step saw this word: of a carrier that nothing was told of it is that from the start."""
        lane = self.lane(number)
        if not lane.spans:
            lane.spans.append((0, *word))
        if lane.word != word:
            line = self.told[at].line
            raise Refused(f"{self.name}: carrier {number} has another word than its steps gave it: {line}")

    def check(self):
        """At the end each carrier has the word that its line tells."""
        left = {it.number: it for it in map(carrier_in, self.rest) if it}
        for number, it in left.items():
            lane = self.lane(number)
            if not lane.spans:
                lane.spans.append((0, WORDS.index("employed"), owner_of(number)))
            if lane.word != (WORDS.index(it.standing), it.employer):
                raise Refused(f"{self.name}: the steps give carrier {number} another end than its line tells")
        there = [it for it in self.lanes.values() if it.word[0] and it.number not in left]
        if there:
            raise Refused(f"{self.name}: the steps leave carrier {there[0].number}, which has no line at the end")

    def data(self):
        """What the page's script reads: see there."""
        return {
            "lines": [it.line for it in self.told],
            "by": [it.scheduler for it in self.told],
            "lost": [at for at, it in enumerate(self.told) if " lost " in it.row],
            "done": {at: it.done for at, it in enumerate(self.told) if it.done},
            "lanes": [{"number": it.number, "owner": owner_of(it.number), "spans": it.spans, "marks": it.marks}
                      for _, it in sorted(self.lanes.items()) if it.was_there],
            "words": WORDS,
            "rest": self.rest,
        }


def page_of(steps, schedulers, said):
    with open(f"{os.path.dirname(os.path.realpath(__file__))}/picture_steps.html", encoding="utf-8") as file:
        page = file.read()
    data = {**steps.data(), "schedulers": schedulers, "colours": COLOURS[:schedulers], "said": said}
    text = json.dumps(data, separators=(",", ":")).replace("<", "\\u003c")
    head, tail = page.split("@DATA@")
    return head.replace("@TITLE@", html.escape(f"{os.path.basename(steps.name)}: step by step")) + text + tail


def drawn_steps(given, program, data):
    """What is written of the steps of a trace: a path and a text."""
    command = OF_REGION if is_of_region(data) else "".join(command_of(data.split(b"\n", 100)[:100]))
    if command:
        raise Refused(f"{given.trace}: --steps draws those of a trace, and this is an input of `{command}`")
    steps = Steps(given.trace, program.run(data, given.trace, OF_STEPS))
    if len(steps.told) > MOST_STEPS:
        raise Refused(f"{given.trace}: its steps have {len(steps.told)} lines, and a page has {MOST_STEPS} at most")
    settings = Settings.of(program.words, letters_of(data.split(b"\n"))[0])
    schedulers = max([1, *(it.scheduler for it in steps.told), *(owner_of(it) for it in steps.lanes)])
    yield given.steps, page_of(steps, schedulers, flags_words(program.words, settings))
