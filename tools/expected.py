#!/usr/bin/env python3
"""What the program expected where it refuses a word or a line: the second line of ./run and of the tools.

expected.py LINE -- WORDS says it of the program's line for these words, and of standard input, where that is a file.
"""
import difflib
import os
import re
import stat
import sys

LETTERS = "B D E H L R S T"
COMMANDS = ("types", "super", "contents", "histogram", "recorded", "steps")
STRATEGIES = "bf aobf aoff aoffcbf aoffcaobf ageffcaoff ageffcbf ageffcaobf gf af"
KILOBYTES = "kilobytes"
# Of a word that is refused.
MOST_LETTERS = 40
# Of each flag its least and greatest number, in what, and the values that are names.
FLAGS_OF_ALL = {
    "+S": (1, 64, "schedulers", ""),
    "+MMscs": (1, 512, "megabytes", ""),
    "+MMsco": (None, None, "", "true"),
}
FLAGS_OF_ONE = {
    "as": (None, None, "", STRATEGIES),
    "acul": (0, 100, "percent", "de"),
    "acfml": (0, 1073741823, "bytes", ""),
    "acnl": (1000, 4294967295, "carriers", ""),
    "sbct": (1, 524288, KILOBYTES, ""),
    "smbcs": (1, 524288, KILOBYTES, ""),
    "lmbcs": (1, 524288, KILOBYTES, ""),
    "mbcgs": (1, 10000, "steps", ""),
    "mmbcs": (0, 524288, KILOBYTES, ""),
    "mbsd": (1, 1000, "gaps", ""),
    "asbcst": (0, 524288, KILOBYTES, ""),
    "rsbcst": (0, 100, "percent", ""),
    "rsbcmt": (0, 100, "percent", ""),
    "rmbcmt": (0, 100, "percent", ""),
    "ramv": (None, None, "", "true false"),
    "t": (None, None, "", "true"),
    "e": (None, None, "", "true"),
}
# What is a value of the flag, and refused as unsupported.
UNSUPPORTED_VALUES = {"+MMsco": "false", "t": "false", "e": "false"}
UNSUPPORTED = re.compile(r"\+Mea$|\+M[MYFIX]|\+M[BDEHLRSTu](cp|atags|mmsbc|mmmbc)$")
OWN_FLAG = re.compile(r"\+M([BDEHLRSTu])([a-z]+)$")

OPERATIONS = {
    "alloc": ("alloc NAME BYTES", ("NAME", "BYTES")),
    "free": ("free NAME", ("NAME",)),
    "realloc": ("realloc OLD NEW BYTES", ("NAME", "NAME", "BYTES")),
    "give": ("give NAME SCHEDULER", ("NAME", "SCHEDULER")),
    "take": ("take NAME TRIES", ("NAME", "TRIES")),
    "info": ("info", ()),
    "idle": ("idle", ()),
}
# Of a node, by which recorded operations may run.
RULES = "powers falling counter"
# Of what blocks contain.
ACCESSES = {"write": ("write NAME INDEX VALUE", ("NAME", "INDEX", "VALUE")), "read": ("read NAME INDEX", ("NAME", "INDEX"))}
# Of one shared region.
REQUESTS = {"take": ("take NAME PAGES", ("NAME", "PAGES")), "back": ("back NAME", ("NAME",))}
OTHERS = {
    "scheduler": ("scheduler I", ("SCHEDULER",)),
    "stop": ("stop SCHEDULER STEPS", ("SCHEDULER", "STEPS")),
    "generate": ("generate SEED COUNT", ("SEED", "COUNT")),
    "threads": ("threads", ()),
    "schedule": ("schedule", ()),
    "end": ("end", ()),
}
RANGES = {
    "NAME": (1, 1048576),
    "BYTES": (0, 1073741823),
    "INDEX": (0, 4294967295),
    "VALUE": (0, 4294967295),
    "PAGES": (1, 131072),
    "TRIES": (1, 10000000),
    "STEPS": (0, 100000000),
    "SEED": (0, 2147483647),
    "SCHEDULER": (0, 9999999999),
    "COUNT": (1, 9999999999),
}
OF_WHOLE = {
    "super carrier too small": "a main carrier (mmbcs) has to fit the region of a scheduler, which is +MMscs divided by"
    " +S: a larger +MMscs, or a smaller mmbcs",
    "no end line": "`end` as the last line",
    "input too long": "16777216 bytes at most",
    "too many": "at most 1048576 operations, 100000000 turns and 100000000 tries of all `take` lines; of several types"
    " super carriers of 512 MB in all",
    "name reused": "each name is made by one line (alloc, or the second of realloc), and given by one",
    "name not held": "a block that an earlier line of the same scheduler made or took",
    "name not addressed": "a line that gives this name to the scheduler of the `take`",
}
OF_WHOLE_REGION = {
    "too many": "at most 1048576 requests",
    "name reused": "each name is taken by one line, of whatever section",
    "name not held": "a name that an earlier line of the same section takes",
}


# Flags


def settings_of(flag):
    """The key and the row of a flag, or None."""
    match = OWN_FLAG.match(flag)
    if flag in FLAGS_OF_ALL:
        return flag, FLAGS_OF_ALL[flag]
    if match and match[2] in FLAGS_OF_ONE:
        return match[2], FLAGS_OF_ONE[match[2]]
    return None


def values_words(flag):
    """What a flag takes, in words."""
    least, most, unit, names = settings_of(flag)[1]
    numbers = [f"{least} to {most} {unit}"] if most is not None else []
    return f"{flag} takes {', or '.join([*numbers, *([names] if names else [])])}"


def is_value(flag, word):
    least, most, _, names = settings_of(flag)[1]
    if word in names.split():
        return True
    return most is not None and re.fullmatch("[0-9]{1,10}", word) is not None and least <= int(word) <= most


def flags_like(word):
    """The flags that a word may be: those of all, and those of its letter."""
    match = re.match(r"\+M([A-Za-z])", word)
    letter = match[1] if match and match[1] in "BDEHLRSTu" else "H"
    return [*FLAGS_OF_ALL, *(f"+M{letter}{it}" for it in FLAGS_OF_ONE)]


def joined_flag(word):
    """The flag with which a word begins that goes on with a value of it, or None."""
    joined = (it for it in flags_like(word) if word.startswith(it) and is_value(it, word.removeprefix(it)))
    return max(joined, key=len, default=None)


def near_words(flag):
    """What may have been meant by a word that is no flag."""
    joined = joined_flag(flag)
    if joined:
        return f"a value as a word of its own: {joined} {flag.removeprefix(joined)}"
    near = difflib.get_close_matches(flag, flags_like(flag), 3)
    if near:
        return f"a flag; near it are {' '.join(near)}"
    return f"a flag: +S, +MMscs, or +M with a letter of {LETTERS} u and one of {' '.join(FLAGS_OF_ONE)}"


def word_words(flag, at, is_last):
    """What may have been meant by a word of ./run that is no flag, by its place and whether it is the last."""
    if flag.startswith("+") or at and not is_last:
        return near_words(flag)
    if at:
        return f"a flag, or a file that is there, and not {shown(flag)}"
    near = difflib.get_close_matches(flag, [*COMMANDS, *FLAGS_OF_ALL, *(f"+MH{it}" for it in FLAGS_OF_ONE)], 1)
    what = f"a command ({' '.join(COMMANDS)}), a flag, or a file that is there"
    return f"{what}; near {shown(flag)} is {near[0]}" if near else f"{what}, and not {shown(flag)}"


def shown(word):
    return ascii(word if len(word) <= MOST_LETTERS else f"{word[:MOST_LETTERS]}..")


def is_unsupported_number(key, word):
    return key == "acnl" and re.fullmatch("[0-9]{1,10}", word) is not None and int(word) < 1000


def refusal(words, before=None):
    """The program's line for the first word that is refused, and what was expected; None where none is. Of the words of
    ./run `before` is how many came before these."""
    at = 0
    while at < len(words):
        flag, found = words[at], settings_of(words[at])
        if found is None and UNSUPPORTED.match(flag) and flag not in FLAGS_OF_ALL:
            return f"word {at + 1}: unsupported", "this flag dropped: the simulator does not have what it sets"
        if found is None:
            is_last = at + 1 == len(words)
            expected = near_words(flag) if before is None else word_words(flag, before + at, is_last)
            return f"word {at + 1}: unknown flag", expected
        if at + 1 == len(words):
            return f"word {at + 1}: value missing", values_words(flag)
        value = words[at + 1]
        if value == UNSUPPORTED_VALUES.get(found[0]) or is_unsupported_number(found[0], value):
            return f"word {at + 1}: unsupported", values_words(flag)
        if not is_value(flag, value):
            return f"word {at + 2}: bad value", f"{values_words(flag)}, and not {shown(value)}"
        at += 2
    return None


# Lines


def words_of(line):
    return line.decode("latin-1").split()


def is_said(words):
    return bool(words) and not words[0].startswith("#")


def form_words(form):
    names = dict.fromkeys(it for it in form[1] if it not in ("SCHEDULER", "COUNT"))
    ranges = [f"{it} {RANGES[it][0]} to {RANGES[it][1]}" for it in names]
    return f"`{form[0]}`" + (f", {', '.join(ranges)}" if ranges else "")


def fits(words, form):
    """Whether the words after the first have the form's count and ranges."""
    if len(words) != len(form[1]) + 1:
        return False
    pairs = zip(words[1:], form[1])
    return all(re.fullmatch("[0-9]{1,10}", it) and RANGES[of][0] <= int(it) <= RANGES[of][1] for it, of in pairs)


def stage_before(lines):
    """Where a trace stands after these lines: start, type, section, stops, turns, threads, generated or over."""
    stage = "start"
    for words in filter(is_said, lines):
        after = {"type": "type", "types": "type", "super": "type", "scheduler": "section", "stop": "stops",
                 "schedule": "turns", "threads": "threads", "generate": "generated", "end": "over"}
        stage = after.get(words[0], stage)
    return stage


def of_syntax(stage, words, command):
    """What a line may be that is refused for its syntax."""
    first, form = words[0], OPERATIONS.get(words[0]) or OTHERS.get(words[0])
    if stage == "start":
        return f"`types X Y ..` first, of {LETTERS}" if command == "types" else f"`type X` first, of {LETTERS}"
    if stage == "over":
        return "nothing after `end`"
    if stage == "type":
        return "`scheduler 1` before its operations; or `generate SEED COUNT`"
    if stage == "turns":
        return "turns, as 1 or 2*50, or `end`"
    if stage in ("threads", "generated"):
        return "`end`"
    if first == "end":
        return "`schedule` or `threads` before `end`"
    if stage == "stops" and first in OPERATIONS:
        return "`stop`, `schedule` or `threads`: the sections are over"
    if form and not fits(words, form):
        return form_words(form)
    names = [*OPERATIONS, "scheduler", "stop", "schedule", "threads"]
    near = difflib.get_close_matches(first.lower(), names, 1)
    return f"a line that begins with one of {' '.join(names)}" + (f"; near it is {near[0]}" if near else "")


def of_recorded_syntax(lines, words):
    said = [*filter(is_said, lines)]
    if not said:
        return f"`type X` first, of {LETTERS}"
    if said[-1][0] == "end":
        return "nothing after `end`"
    if words[0].lower() == "rules" and len(said) > 1:
        return "`rules` once, directly after the `type` line"
    if words[0].lower() == "rules":
        return f"`rules`, and of {RULES} one or more, each once"
    if len(words) > 1 and words[0].isdigit() and words[1] in OPERATIONS:
        return f"a scheduler and {form_words(OPERATIONS[words[1]])}"
    return "a scheduler and its operation, as `2 alloc 7 100`, or `end`"


def of_types_syntax(lines, words):
    """With several types an operation has its letter before it."""
    stage = stage_before(lines)
    if stage == "section" and words[0] in OPERATIONS:
        return f"the letter of its type before it, as `H {' '.join(words)}`"
    if stage == "section" and len(words) > 1 and words[0] in LETTERS.split():
        return of_syntax(stage, words[1:], "types")
    return of_syntax(stage, words, "types")


def of_contents_syntax(lines, words):
    """With contents there are writes and reads among the operations."""
    stage = stage_before(lines)
    if words[0] in ACCESSES and stage == "section":
        return form_words(ACCESSES[words[0]])
    if words[0] in ACCESSES:
        return f"`{words[0]}` in the section of a scheduler"
    return of_syntax(stage, words, "contents")


def of_region_syntax(lines, words):
    """With one shared region there are requests in place of operations."""
    stage = stage_before(lines)
    if stage == "start":
        return "`super` first"
    if stage == "type":
        return "`scheduler 1` before its requests"
    if stage == "over":
        return "nothing after `end`"
    if words[0] in REQUESTS:
        return form_words(REQUESTS[words[0]])
    return f"{', '.join(f'`{it[0]}`' for it in REQUESTS.values())}, `scheduler I` or `end`"


def of_scheduler(lines, count, command):
    """A scheduler's number that may not stand there."""
    said = [words for words in lines if is_said(words)]
    heads = sum(words[0] == "scheduler" for words in said)
    have = f"+S is {count}, so schedulers are 1 to {count}"
    if command != "recorded" and heads < count and stage_before(lines) in ("type", "section"):
        return f"{have}; the next section is `scheduler {heads + 1}`"
    return f"{have}; give +S as many as there are sections" if command != "recorded" else have


def schedulers_of(words):
    return next((int(value) for flag, value in reversed([*zip(words[::2], words[1::2])]) if flag == "+S"), 1)


def of_line(kind, at, command, words, data):
    """What was expected in a line of the input."""
    whole = {**OF_WHOLE, **(OF_WHOLE_REGION if command == "super" else {})}
    if kind in whole:
        return whole[kind]
    lines = [words_of(it) for it in data.split(b"\n")] if data is not None else []
    if not 0 < at <= len(lines) or not lines[at - 1]:
        return "docs/reference/trace.md says what a line may be"
    before, line = lines[: at - 1], lines[at - 1]
    if kind == "bad scheduler":
        return of_scheduler(before, schedulers_of(words), command)
    if command == "recorded":
        return of_recorded_syntax(before, line)
    if command == "types":
        return of_types_syntax(before, line)
    if command == "super":
        return of_region_syntax(before, line)
    if command == "contents":
        return of_contents_syntax(before, line)
    return of_syntax(stage_before(before), line, command)


def command_and_flags(words):
    return (words[0], words[1:]) if words and words[0] in COMMANDS else ("", list(words))


def explained(said, words, data, is_run=False):
    """What was expected where the program said this of these words, which may be those of ./run, and of this input; None
    where that isn't known."""
    said = said.strip().removeprefix("erts_alloc_run: ")
    command, flags = command_and_flags(words)
    found = refusal(flags, len(words) - len(flags) if is_run else None)
    match = re.fullmatch(r"(?:line ([0-9]+): )?(.*)", said)
    if said.startswith("word "):
        return found[1] if found and found[0] == said else None
    if match and (match[1] or match[2] in OF_WHOLE):
        return of_line(match[2], int(match[1] or 0), command, flags, data)
    return None


def data_of_input():
    """Standard input, where it is a file that can be read anew."""
    try:
        if stat.S_ISREG(os.fstat(0).st_mode):
            with open("/dev/stdin", "rb") as file:
                return file.read(2**24 + 1)
    except OSError:
        pass
    return None


def main(words):
    if len(words) < 2 or words[1] != "--":
        print("expected.py: due are LINE -- WORDS", file=sys.stderr)
        return 2
    found = explained(words[0], words[2:], data_of_input(), is_run=True)
    if found:
        print(f"run: expected: {found}")
    return 0


if __name__ == "__main__":
    sys.exit(main(sys.argv[1:]))
