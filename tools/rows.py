"""The rows of tools/compare: what came of a run, or of a type or a mark of it."""
import io
import itertools
import os
import stat
import time
from collections import Counter
from dataclasses import replace

from columns import DECIMALS
from created import created
from files import reason_of
from flags import Settings, as_on_a_node, letters_of
from program import NO_RULES, OF_RECORDED, Ended, command_of, is_said, run, told_of, with_schedulers
from replay import UNITS_EVER, replay
from texts import (
    BYTES_OF_A_UNIT, NUMBERS_OF_AN_INSTANCE, WHOLE, Text, carrier_of, is_placed, mark_in, marks_of, owner_of,
    read_texts, read_traces,
)

UNITS_OF_A_MB = 2**17
# How lists of flags are read: as a node reads them, or as ./run does.
AS_A_NODE, AS_RUN = READINGS = "node", "run"


def percent(part, whole):
    """Rounded down to tenths."""
    return 1000 * part // whole / 10 if whole else None


def bound(sign, number):
    return f"{sign}{number}"


def megabytes(units):
    """Of units, or of a bound of them."""
    if units is None:
        return None
    sign, number = (units[:2], int(units[2:])) if isinstance(units, str) else ("", units)
    number = round(number / UNITS_OF_A_MB, DECIMALS["mb_most"])
    return bound(sign, number) if sign else number


# What the text says


def count_blocks(text):
    """How many blocks are held or given at the end."""
    count = 0
    for entry in itertools.chain(*text.logs):
        count += entry[0] == "alloc" and is_placed(entry)
        count -= entry[0] == "free" and entry[2] != "skipped"
    return count


def of_blocks(text):
    """The columns on the blocks at the end, and on the gaps between them."""
    count, singles = count_blocks(text), [it for it in text.carriers if it.kind == "single"]
    gaps = [it.largest for it in text.carriers if it.kind != "single"]
    return {
        "blocks_end": count,
        "block_bytes": text.total["live"] * BYTES_OF_A_UNIT // count if count else None,
        "blocks_single": sum(it.allocated > 0 for it in singles),
        "mb_single": megabytes(sum(it.units for it in singles)),
        "gap_kb": max(gaps, default=0) * BYTES_OF_A_UNIT // 1024,
    }


def utilisation_each(text):
    """Of the carriers that each instance uses."""
    parts = []
    for me in range(1, len(text.logs) + 1):
        used = [it for it in text.carriers if it.standing == "employed" and it.employer == me]
        part = percent(sum(it.allocated for it in used), sum(it.units for it in used))
        parts.append("-" if part is None else str(part))
    return "/".join(parts)


def counted(trace, text):
    """The columns that are counts of entries, or stand in the totals or the lines of carriers."""
    total = text.total
    reasons, moved = Counter(), 0
    for entry in itertools.chain(*text.logs):
        if entry[0] in ("alloc", "realloc") and "fail" in entry:
            reasons[entry[-1]] += 1
        moved += entry[0] == "realloc" and "moved" in entry
    is_generated = text.generated_failed is not None
    return {
        "carriers_end": total["carriers"],
        "units_end": total["units"],
        "mb_end": megabytes(total["units"]),
        "utilisation_end": percent(total["live"] + total["queued"], total["units"]),
        **({} if is_generated else {**of_blocks(text), "utilisation_each": utilisation_each(text)}),
        "failed": text.generated_failed if is_generated else sum(reasons.values()),
        "failed_space": None if is_generated else reasons["space"],
        "failed_numbers": None if is_generated else reasons["numbers"],
        "moved": moved,
        "queued": total["queued"],
        "stopped": len(text.stopped),
        "undone": sum(map(len, trace.sections)) - sum(map(len, text.logs)),
    }


def replayed(found):
    """The columns of a replay."""
    return {
        "created": found.created,
        "carriers_most": found.most_carriers,
        "units_most": found.most_units,
        "utilisation_most": percent(*found.most_use),
        "abandoned": bound(">=", found.abandoned) if found.unclear else found.abandoned,
        "fetched": found.fetched,
        "returned": found.returned,
    }


def most_carriers(text):
    """The sum over the owners of how many carriers each had at most, by their greatest numbers."""
    numbers = {carrier_of(it) for it in itertools.chain(*text.logs) if is_placed(it)}
    numbers.update(it.number for it in text.carriers)
    most = Counter()
    for number in numbers:
        most[owner_of(number)] = max(most[owner_of(number)], (number - 1) % NUMBERS_OF_AN_INSTANCE + 1)
    all_most = sum(most.values())
    return all_most if len(most) <= 1 or all_most == text.total["carriers"] else bound("<=", all_most)


def most_units(trace, text):
    """The sum of the greatest units that the schedulers' last `info` tell, where each has one after its last block; a
    stopped `realloc` may have placed one without an entry."""
    parts = []
    for me, (section, log) in enumerate(zip(trace.sections, text.logs), 1):
        if len(log) < len(section) and section[len(log)].split()[0] == b"realloc":
            return None
        last = next((it for it in reversed(log) if it[0] == "info" or is_placed(it)), None)
        if last is None:
            parts.append(sum(it.units for it in text.carriers if it.kind == "main" and it.owner == me))
        elif last[0] != "info":
            return None
        else:
            parts += [int(last[UNITS_EVER]), int(last[len(last) // 2 + UNITS_EVER])]
    most = sum(parts)
    return most if sum(it > 0 for it in parts) <= 1 or most == text.total["units"] else bound("<=", most)


def shown(text):
    """At least how many carriers were abandoned, fetched and returned, as far as the text shows it."""
    fetched = set()
    for me, log in enumerate(text.logs, 1):
        fetched.update((me, it) for it in map(carrier_of, filter(is_placed, log)) if owner_of(it) != me)
    states = Counter(it.standing for it in text.carriers)
    numbers = {
        "abandoned": len(fetched) + states["pooled"] + states["busy"],
        "fetched": len(fetched),
        "returned": states["returning"],
    }
    return {name: bound(">=", number) if number else None for name, number in numbers.items()}


def bounded(trace, text, migrates):
    """The columns of a run whose order is not known."""
    made = {name: 0 for name in ("abandoned", "fetched", "returned") if not migrates}
    if text.logs and migrates:
        made = shown(text)
    if text.logs:
        made["carriers_most"] = most_carriers(text)
        made["units_most"] = None if migrates else most_units(trace, text)
        made["created"] = created(trace, text)
    return made


# Runs


def read_input(file):
    """The bytes of a regular file, or what is said of it."""
    try:
        with open(file, "rb") as source:
            if not stat.S_ISREG(os.fstat(source.fileno()).st_mode):
                return None, f"{file}: no regular file"
            return source.read(), None
    except OSError as error:
        return None, f"{file}: {reason_of(error)}"


def fronts_of(data):
    """The marks of an input, each with the input up to it, and None with all of it. In a trace a mark stands in a
    section; the later ones are empty then. So it is for inputs whose order is that of their lines."""
    lines = data.split(b"\n")
    places = [at for at, line in enumerate(lines) if mark_in(line) is not None]
    for at in places:
        front = b"\n".join([*lines[:at], *closed(lines[at:], lines), b""])
        yield mark_in(lines[at]), front
    yield None, data


def closed(rest, lines):
    """What ends an input that is cut before the rest of its lines."""
    if command_of(lines) == [OF_RECORDED]:
        return [b"end"]
    heads = [it for it in rest if is_said(it) and it.split()[0] in (b"scheduler", b"schedule", b"threads")]
    return [*heads, b"end"]


def run_program(program, words, data, seconds):
    """The status, the text, what was said and the seconds of one run."""
    command = command_of(data.split(b"\n", 100)[:100])
    began = time.perf_counter()
    try:
        ran = run([program, *command, *words], data, seconds)
    except Ended as ended:
        return None, b"", str(ended), None
    except OSError as error:
        return None, b"", f"{error.filename or program}: {reason_of(error)}", None
    said = told_of(ran.stderr) if ran.returncode else ""
    if ran.returncode < 0:
        said = f"ended by signal {-ran.returncode}"
    return ran.returncode, ran.stdout, said, time.perf_counter() - began


def empty_row(flags, file):
    return {"list": flags.name, "flags": " ".join(flags.words), "trace": file}


def columns_of(words, trace, text, figures):
    """The columns of a trace that was run, or of one type of several, with the figures of its replay, if there are
    some."""
    settings = Settings.of(words, trace.letter)
    of_time = replayed(figures) if figures else bounded(trace, text, settings.migrates)
    rules = NO_RULES if trace.rules == "" else trace.rules
    ran = {"type": trace.letter, "ran": settings.ran(), "rules": rules}
    return {**ran, **counted(trace, text), **of_time, "mb_most": megabytes(of_time.get("units_most"))}


def columns_at(moment, words, trace, text):
    """The same of what was there at a moment."""
    sections, logs = ([it[:count] for it, count in zip(all_of, moment.done)] for all_of in (trace.sections, text.logs))
    then = Text(logs=logs, carriers=moment.carriers, total=moment.total)
    return columns_of(words, replace(trace, sections=sections), then, moment.figures)


def parts_of(output, data):
    """The trace of each type of an input, and its text."""
    texts, traces = read_texts(output), read_traces(data)
    if len(texts) != len(traces):
        raise ValueError(f"it has {len(texts)} types in place of {len(traces)}")
    for trace, text in zip(traces, texts):
        trace.sections += [[] for _ in text.logs[len(trace.sections) :] if trace.sections]
    return [*zip(traces, texts)]


def columns_at_end(program, words, trace, text, seconds):
    found = replay(program, words, trace, text, seconds) if trace.has_one_order() else None
    return columns_of(words, trace, text, found and found.figures)


def columns_at_marks(program, words, parts, marks, seconds):
    """The columns at each mark of a run, and at its end; none where what was there is not known."""
    [(trace, text), *others] = parts
    if others or trace.stops or not trace.has_one_order():
        return
    found = replay(program, words, trace, text, seconds, [place for _, place in marks])
    for (name, _), moment in zip(marks, found.moments if found else []):
        yield {"mark": name, **columns_at(moment, words, trace, text)}
    if found:
        yield {"mark": WHOLE, **columns_of(words, trace, text, found.figures)}


def rows_of_input(program, flags, row, data, seconds, marks=None):
    """The lines of the table for one input: one for each of its types, or one for each of these marks and the end. With
    marks there are none where they cannot be had of one run."""
    row["status"], output, said, wall = run_program(program, flags.words, data, seconds)
    row["said"] = said or None
    row["seconds"] = wall and round(wall, DECIMALS["seconds"])
    if row["status"] != 0:
        return [row] if marks is None else []
    try:
        parts = parts_of(output, data)
        if marks is not None:
            return [{**row, **it} for it in columns_at_marks(program, flags.words, parts, marks, seconds)]
        return [{**row, **columns_at_end(program, flags.words, *it, seconds)} for it in parts]
    except Ended as ended:
        row["said"] = str(ended)
    except (ValueError, LookupError, TypeError) as error:
        row["said"] = f"the text is not understood: {error}"
    return [row] if marks is None else []


def rows_of_fronts(program, flags, file, data, seconds):
    """The lines of the table for each mark of an input, of a run up to there, and for all of it."""
    rows = []
    for mark, front in fronts_of(data):
        row = {**empty_row(flags, file), "mark": mark or WHOLE}
        if mark != WHOLE:
            rows += rows_of_input(program, flags, row, front, seconds)
    return rows


def words_for(flags, data, options):
    """The words of a list for the program, by how lists are read."""
    words = with_schedulers(flags.words, data)
    return as_on_a_node(words, letters_of(io.BytesIO(data))) if options.reading == AS_A_NODE else words


def rows_of_run(program, flags, file, options):
    """The lines of the table for one run, and with marks for each of them."""
    data, said = read_input(file)
    if data is None:
        return [{**empty_row(flags, file), "status": None, "said": said}]
    flags = replace(flags, words=words_for(flags, data, options))
    if not options.marks:
        return rows_of_input(program, flags, empty_row(flags, file), data, options.seconds)
    rows = rows_of_input(program, flags, empty_row(flags, file), data, options.seconds, marks_of(data))
    return rows or rows_of_fronts(program, flags, file, data, options.seconds)
