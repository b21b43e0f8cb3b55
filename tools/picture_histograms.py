"""How large the blocks and gaps of a run are, as an SVG, for tools/picture."""
import math
import os
import re
from dataclasses import dataclass

from flags import Settings, letters_of
from picture_run import plural
from picture_svg import MARGIN, flags_words, heading_of, rectangle, shape, svg_of, words_at
from picture_text import is_of_region
from program import OF_HISTOGRAMS, OF_RECORDED, OF_REGION, command_of
from refused import Refused
from replay import contents
from texts import front_at, read_texts, read_traces

INTERVALS = 18
FIRST_BORDER = 16
MOST_HISTOGRAMS = 200
LINE = re.compile(r"(carrier [0-9]+|all) blocks((?: [0-9]{1,18}){18}) gaps((?: [0-9]{1,18}){18})")
# How wide a bar is and how high at most, how high a row, and how wide its name and what is between its two parts.
BAR, HIGHEST, ROW, LEFT, BETWEEN = 22, 48, 74, 100, 30
STYLE_OF_BARS = """\
.blocks { fill: #4e79a7 } .gaps { fill: #bab0ac } .base { stroke: #8b949e; stroke-width: .5 }
.count { font-size: 9px; text-anchor: middle }
@media (prefers-color-scheme: dark) { .gaps { fill: #79706e } }
"""


@dataclass
class Histogram:
    """How many blocks and gaps lie in each interval, of one carrier or of all."""

    name: str
    blocks: list
    gaps: list


def read_histograms(text):
    """Those of each carrier, and last those of all."""
    matches = [LINE.fullmatch(line) for line in text.splitlines()]
    if not matches or not all(matches) or matches[-1][1] != "all":
        raise Refused("the program wrote no histograms")
    return [Histogram(it[1], *([int(count) for count in it[at].split()] for at in (2, 3))) for it in matches]


def interval_words(at):
    """The sizes of an interval, counted from 0."""
    if at == 0:
        return f"fewer than {FIRST_BORDER} units"
    low = FIRST_BORDER << (at - 1)
    return f"{low} units and more" if at == INTERVALS - 1 else f"{low} to {2 * low - 1} units"


def bars_of(kind, counts, x, base, most):
    """The bars of a histogram: as high as the logarithm of their counts, since these differ much."""
    for at, count in enumerate(counts):
        if count:
            height = HIGHEST * math.log(1 + count) / math.log(1 + most)
            title = f"{plural(count, kind[:-1])} of {interval_words(at)}"
            yield rectangle(kind, x + BAR * at + 2, base - height, BAR - 4, height, title=title)
            yield words_at("count", x + BAR * (at + 0.5), base - height - 2, str(count))
    yield f'<path class="base" d="M{shape(x)} {shape(base)}h{BAR * INTERVALS}"/>'


def axis_at(x, y):
    """The least units of each third interval."""
    for at in range(0, INTERVALS, 3):
        yield words_at("small", x + BAR * at, y, str(FIRST_BORDER << (at - 1) if at else 0))


def drawing_of(name, when, said, histograms):
    """The histograms of a moment of a run, those of all carriers together first."""
    shown = [histograms[-1], *histograms[:-1][:MOST_HISTOGRAMS]]
    most = max([1, *histograms[-1].blocks, *histograms[-1].gaps])
    places = {"blocks": MARGIN + LEFT, "gaps": MARGIN + LEFT + BAR * INTERVALS + BETWEEN}
    parts, y = heading_of(f"{os.path.basename(name)}: sizes of blocks and gaps {when}", said, MARGIN)
    parts += [words_at("", x, y + 12, kind) for kind, x in places.items()]
    for it in shown:
        y += ROW
        parts.append(words_at("", MARGIN, y, it.name))
        for kind, x in places.items():
            parts += bars_of(kind, getattr(it, kind), x, y, most)
    parts += [it for x in places.values() for it in axis_at(x, y + 14)]
    said = "Below each third bar: the least units of its interval. A bar is as high as the logarithm of its number."
    left_out = len(histograms) - len(shown)
    said += f" {plural(left_out, 'carrier')} not drawn." if left_out else ""
    parts.append(words_at("small", MARGIN, y + 40, said))
    return svg_of(places["gaps"] + BAR * INTERVALS + MARGIN, y + 54, STYLE_OF_BARS, parts)


def interval_of(units):
    """The interval of a size, counted from 0."""
    return min(units.bit_length() - (FIRST_BORDER - 1).bit_length(), INTERVALS - 1) if units >= FIRST_BORDER else 0


def counted(name, blocks, gaps):
    """The histogram of blocks and gaps of these units."""
    sides = [[0] * INTERVALS, [0] * INTERVALS]
    for counts, sizes in zip(sides, (blocks, gaps)):
        for it in sizes:
            counts[interval_of(it)] += 1
    return Histogram(name, *sides)


def recorded_histograms(given, program, data):
    """Those of recorded operations up to the moment that is asked for."""
    data = data if given.at is None else front_at(data, given.at)
    [text], [trace] = read_texts(program.run(data, given.trace).encode()), read_traces(data)
    trace.sections += [[] for _ in text.logs[len(trace.sections) :]]
    found = contents(program.words, trace, text)
    if found is None:
        raise Refused(f"{given.trace}: the entries do not agree with the carriers at the end")
    each = [counted(f"carrier {line.number}", *sizes) for line, *sizes in found]
    return [*each, counted("all", *([it for sizes in found for it in sizes[at]] for at in (1, 2)))]


def drawn_histograms(given, program, data):
    """What is written of the histograms of a trace, or of recorded operations: a path and a text."""
    command = OF_REGION if is_of_region(data) else "".join(command_of(data.split(b"\n", 100)[:100]))
    if command not in ("", OF_RECORDED):
        raise Refused(f"{given.trace}: --histograms draws those of a trace, and this is an input of `{command}`")
    if command:
        found = recorded_histograms(given, program, data)
    elif given.at is not None and not given.svg:
        raise Refused(f"{given.trace}: --at is a moment of --histograms for recorded operations alone")
    else:
        found = read_histograms(program.run(data, given.trace, OF_HISTOGRAMS))
    settings = Settings.of(program.words, letters_of(data.split(b"\n"))[0])
    when = f"after {plural(given.at, 'operation')}" if command and given.at is not None else "at the end"
    yield given.histograms, drawing_of(given.trace, when, flags_words(program.words, settings), found)
