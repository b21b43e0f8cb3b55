#!/usr/bin/env python3
"""The settings that hold for an allocator under accepted flags, what a node does with a list of flags, and notes on
flags that do not do what they say.

flags.py WORDS prints the notes on the words of ./run, a line each. The allocator types of the input are known only
where standard input is a file, which is read from where it is, and left there.
"""
import os
import stat
import sys
from dataclasses import dataclass, field

from expected import LETTERS, OWN_FLAG, command_and_flags, is_said, joined_flag, refusal, settings_of, words_of

UNITS_OF_A_KB = 128
PAGES_OF_A_MB = 256
OF_REGION = "super"
EVERY_LETTER = LETTERS.split()
# In place of a letter it stands for all of them.
ALL = "u"
# The allocator whose carriers never migrate, whatever its flags say. On a node ALL does not stand for it.
WITHOUT_MIGRATION = "T"
# Carriers cannot migrate under these strategies. Where they are to migrate, the other one takes their place.
NOT_MIGRATING = "bf aobf gf af".split()
IN_THEIR_PLACE = "aoffcbf"
DEFAULT_LIMIT = "de"
# A node's own, where no flag says otherwise: its strategy without migration, and its `acul`. Those that are not named
# have the first. Measured on OTP 25.2.3.
OWN_STRATEGY, OWN_STRATEGIES = "bf", {"H": "gf", "L": "aobf", "S": "gf", "T": "af"}
OWN_LIMIT, OWN_LIMITS = 60, {"H": 45, "L": 85}
# A strategy that temp_alloc alone has on a node, and what any other has in its place.
OF_TEMP_ALONE, IN_ITS_PLACE = "af", "gf"
# What holds without a flag; sizes are in kilobytes.
DEFAULTS = {
    "as": "aoffcbf",
    "acul": "60",
    "sbct": "512",
    "smbcs": "256",
    "lmbcs": "5120",
    "acfml": "0",
    "mbcgs": "10",
    "mmbcs": "0",
    "mbsd": "3",
    "asbcst": "1024",
    "rsbcst": "20",
    "rsbcmt": "80",
    "rmbcmt": "50",
    "ramv": "false",
}
# Those that a picture tells in any case.
ALWAYS_TOLD = ("as", "acul", "sbct", "smbcs", "lmbcs")


# Settings


def pairs(words):
    """Each flag with its value."""
    return zip(words[::2], words[1::2])


def strategy_under(asked, limit):
    """The strategy that runs where this one is asked for, by the `acul`."""
    return IN_THEIR_PLACE if limit and asked in NOT_MIGRATING else asked


@dataclass
class Settings:
    """What the words of accepted flags set, for the allocator of a letter."""

    letter: str
    schedulers: int = 1
    megabytes: int = 64
    # By the name of a parameter the last flag that sets it, and its value.
    given: dict = field(default_factory=dict)

    @staticmethod
    def of(words, letter):
        found = Settings(letter)
        for flag, value in pairs(words):
            match = OWN_FLAG.match(flag)
            if flag == "+S":
                found.schedulers = int(value)
            elif flag == "+MMscs":
                found.megabytes = int(value)
            elif match and match[1] in (letter, ALL):
                found.given[match[2]] = flag, value
        return found

    def asked(self, name):
        """The value of a parameter as the flags have it."""
        return self.given[name][1] if name in self.given else DEFAULTS[name]

    def held(self, name):
        """The value that holds in its place."""
        if name == "as":
            return self.strategy
        if name == "acul":
            return str(self.limit)
        if name == "lmbcs":
            return str(max(int(self.asked(it)) for it in ("smbcs", "lmbcs")))
        return self.asked(name) if name == "ramv" else str(int(self.asked(name)))

    @property
    def limit(self):
        """The `acul`."""
        asked = self.asked("acul")
        return 0 if self.letter == WITHOUT_MIGRATION else int(DEFAULTS["acul"] if asked == DEFAULT_LIMIT else asked)

    @property
    def migrates(self):
        return self.limit > 0

    @property
    def strategy(self):
        return strategy_under(self.asked("as"), self.limit)

    @property
    def threshold(self):
        """The units above which a block has a carrier of its own."""
        return int(self.asked("sbct")) * UNITS_OF_A_KB

    @property
    def region(self):
        """The pages of each region."""
        return self.megabytes * PAGES_OF_A_MB // self.schedulers

    def ran(self):
        """What runs, in two words."""
        return f"{self.strategy} {self.limit}"

    def all_held(self):
        """All that holds: the same for two lists of flags that run alike."""
        return self.schedulers, self.megabytes, *map(self.held, DEFAULTS)

    def told(self):
        """The settings that hold, in words: the main ones, and those that a flag sets."""
        names = [it for it in DEFAULTS if it in ALWAYS_TOLD or it in self.given]
        return ", ".join(f"{it} {self.held(it)}" for it in names)


# Lists as a node reads them


def parted(words):
    """The words, each with the place where it stands, where a value that is joined to its flag is a word of its own, as
    a node takes it: `+MBasbf`, `+S4`. From a word on that is no flag they are as they were."""
    at = 0
    while at < len(words):
        joined = joined_flag(words[at])
        if settings_of(words[at]):
            yield from zip(words[at : at + 2], (at, at + 1))
            at += 2
        elif joined:
            yield from ((joined, at), (words[at].removeprefix(joined), at))
            at += 1
        else:
            yield from zip(words[at:], range(at, len(words)))
            return


def is_of(named, letter):
    """Whether a flag with the letter that is named is one of this allocator on a node."""
    return named == letter or named == ALL and letter != WITHOUT_MIGRATION


def on_a_node(words, letter):
    """The strategy and the `acul` that a node has for an allocator by accepted words. They are read from left to right,
    and a strategy under which carriers cannot migrate sets the `acul` 0 at its place."""
    own_limit = OWN_LIMITS.get(letter, OWN_LIMIT)
    strategy, limit = OWN_STRATEGIES.get(letter, OWN_STRATEGY), own_limit
    for flag, value in pairs(words):
        match = OWN_FLAG.match(flag)
        if not match or not is_of(match[1], letter):
            continue
        if match[2] == "as":
            strategy, limit = value, 0 if value in NOT_MIGRATING else limit
        elif match[2] == "acul":
            limit = own_limit if value == DEFAULT_LIMIT else int(value)
    if letter == WITHOUT_MIGRATION:
        return strategy, 0
    strategy = IN_ITS_PLACE if strategy == OF_TEMP_ALONE else strategy
    return strategy_under(strategy, limit), limit


def added(words, letter):
    """The flags that come after accepted words, so that the program runs an allocator as a node does by these words."""
    ours, (strategy, limit) = Settings.of(words, letter), on_a_node(words, letter)
    if ours.limit != limit:
        yield from (f"+M{letter}acul", str(limit))
    if strategy_under(ours.asked("as"), limit) != strategy:
        yield from (f"+M{letter}as", strategy)
    theirs = Settings.of([it for pair in pairs(words) if is_of(pair[0][2:3], letter) for it in pair], letter)
    for name in DEFAULTS:
        if name not in ("as", "acul") and theirs.asked(name) != ours.asked(name):
            yield from (f"+M{letter}{name}", theirs.asked(name))


def as_on_a_node(words, letters=EVERY_LETTER):
    """The words for the program under which the allocators of these letters have the strategy and the `acul` that they
    have on a node with the flags `words`. A value that is joined to its flag becomes a word of its own. What the
    program would read otherwise is set by flags that come last, which say the same to a node: of `+MBas gf` it makes
    `+MBas gf +MBacul 0`, and of `+MBacul 0` it makes `+MBacul 0 +MBas bf`. Words that are refused are parted alone."""
    words = [word for word, _ in parted(words)]
    if refusal(words):
        return words
    known = [it for it in EVERY_LETTER if it in letters]
    return [*words, *(word for letter in known for word in added(words, letter))]


def without_own_strategy(words, letter):
    """The settings that a node tells of an allocator, without `as` where no flag need have set it. A node tells what
    ran: where carriers migrate, `aoffcbf` stands in the place of the allocator's own, which `acul` 0 brings back."""
    settings = Settings.of(words, letter)
    if refusal(words) or not settings.migrates or settings.asked("as") != IN_THEIR_PLACE:
        return words
    return [it for pair in pairs(words) if pair[0] != f"+M{letter}as" for it in pair]


# Notes


def listed(parts):
    """As A, B and C."""
    *others, last = parts
    return f"{', '.join(others)} and {last}" if others else last


def notes_on_strategies(words, letters):
    """On the flags in whose place another strategy runs."""
    found = {}
    for letter in letters:
        it = Settings.of(words, letter)
        if it.strategy != it.asked("as"):
            is_so = on_a_node(words, letter)[0] == it.strategy
            found.setdefault((*it.given["as"], it.limit, is_so), []).append(letter)
    for (flag, asked, limit, is_so), those in found.items():
        is_for_all = len(those) == len(EVERY_LETTER) - len(WITHOUT_MIGRATION)
        to_add = " ".join(f"+M{it}acul 0" for it in ([ALL] if is_for_all else those))
        there = f", on a node too: for {asked} add" if is_so else "; a node would set acul 0: add"
        yield f"{flag} {asked} with acul {limit} runs as {IN_THEIR_PLACE}{there} {to_add}"


def notes_on_letters(words, letters):
    """On the flags of letters that the input does not have."""
    named = dict.fromkeys(it[1] for it in map(OWN_FLAG.match, words[::2]) if it)
    others = [f"+M{it}" for it in named if it not in letters and (it != ALL or not letters)]
    why = "super has no allocators"
    if letters:
        why = f"the input is of {'types' if len(letters) > 1 else 'type'} {listed(letters)}"
    if others:
        yield f"{listed(others)} flags change nothing here: {why}"


def notes_on(words, letters, of_all=()):
    """What has to be said of the words of flags for an input of these letters, or for one whose letters are not known:
    None. `of_all` are those of all inputs that the flags are for, where there are several. Of words that are refused
    nothing is said."""
    if refusal(words):
        return
    yield from notes_on_strategies(words, EVERY_LETTER if letters is None else letters)
    if letters is not None:
        yield from notes_on_letters(words, of_all or letters)


# Inputs


def letters_of(lines):
    """The letters of the allocator types of an input of these lines."""
    first = next(filter(is_said, map(words_of, lines)), [])
    return first[1:] if first[:1] in (["type"], ["types"]) else []


def letters_of_input():
    """Those of standard input, or None where it is no file."""
    try:
        if stat.S_ISREG(os.fstat(0).st_mode):
            with open("/dev/stdin", "rb") as file:
                file.seek(os.lseek(0, 0, os.SEEK_CUR))
                return letters_of(file)
    except OSError:
        pass
    return None


def main(words):
    command, flags = command_and_flags(words)
    letters = [] if command == OF_REGION else letters_of_input()
    for it in notes_on(flags, letters):
        print(f"note: {it}")
    return 0


if __name__ == "__main__":
    sys.exit(main(sys.argv[1:]))
