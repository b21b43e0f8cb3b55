"""The calls of an input of one shared region as an SVG or a page, for tools/picture: all of it is in the text."""
import html
import os
from dataclasses import dataclass

from picture_run import PAGE, plural
from picture_svg import MARGIN, WIDTH, colour_of, flags_words, heading_of, keys_of, megabytes, pages_words, rectangle
from picture_svg import svg_of, words_at
from program import OF_REGION
from refused import Refused

MOST_CALLS = 20_000
# How high the region is, and the calls below it that got nothing.
HEIGHT, BELOW = 420, 10
STYLE_OF_CALLS = """\
.segment { stroke: #ffffff; stroke-width: .5 } .refused { fill: #cf222e } .skipped { fill: #8b949e }
@media (prefers-color-scheme: dark) { .segment { stroke: #0d1117 } .refused { fill: #ff7b72 } }
"""
PAGE_OF_CALLS = """\
<!DOCTYPE html>
<html lang="en"><head><meta charset="utf-8"><title>{title}</title><style>body {{ margin: 0 }}</style></head>
<body><main data-calls="{calls.shown}" data-segments="{count}">{drawing}</main></body></html>
"""


@dataclass(slots=True)
class Segment:
    """Pages that a call took, and the calls before it and before the one that gave them back."""

    scheduler: int
    name: str
    start: int
    pages: int
    taken: int
    back: int = None

    def words(self):
        until = "to the end" if self.back is None else f"to call {self.back + 1}"
        where = pages_words(self.start, self.pages)
        return f"scheduler {self.scheduler}, name {self.name}: {where}, from call {self.taken + 1} {until}"


class Calls:
    """The calls of a text, or the first `most` of them: the segments that they took, and those that got nothing, each
    with the number of the calls before it and its line."""

    def __init__(self, text, most=None):
        *lines, total = text.splitlines()
        words = total.split(" ")
        self.pages = int(words[4]) + int(words[6])
        self.count = len(lines)
        self.shown = self.count if most is None else most
        self.segments, self.without, held = [], [], {}
        for at, line in enumerate(lines[: max(self.shown, 0)]):
            scheduler, _, name, reply, *place = line.split(" ")
            if reply == "at":
                held[scheduler, name] = Segment(int(scheduler), name, *map(int, place), at)
                self.segments.append(held[scheduler, name])
            elif reply == "done":
                held.pop((scheduler, name)).back = at
            else:
                self.without.append((at, line))
        self.held = [*held.values()]


class Drawing:
    """Draws the calls from left to right, and the pages of the region from top to bottom."""

    def __init__(self, name, words, calls):
        self.name, self.words, self.calls, self.parts = name, words, calls, []
        self.step = (WIDTH - 2 * MARGIN) / max(1, calls.shown)

    def text(self):
        calls = self.calls
        y = self.heading()
        self.region(y)
        self.calls_without(y + HEIGHT + 4)
        height = self.legend(y + HEIGHT + BELOW + 24)
        counts = f' data-calls="{calls.shown}" data-segments="{len(calls.held)}"'
        return svg_of(WIDTH, height, STYLE_OF_CALLS, self.parts, counts)

    def x(self, at):
        return MARGIN + at * self.step

    def heading(self):
        calls = self.calls
        held = sum(it.pages for it in calls.held)
        pages = " · ".join(
            f"{name} {count:,} ({megabytes(count * PAGE)})"
            for name, count in (("pages", held), ("free", calls.pages - held))
        )
        said = f"{flags_words(self.words)} · segments {len(calls.held):,} · {pages}"
        title = f"{os.path.basename(self.name)}: after {calls.shown:,} of {plural(calls.count, 'call')}"
        parts, y = heading_of(title, said, MARGIN)
        self.parts += parts
        return y

    def region(self, top):
        calls, scale = self.calls, HEIGHT / self.calls.pages
        self.parts.append(rectangle("free", MARGIN, top, WIDTH - 2 * MARGIN, HEIGHT))
        for it in calls.segments:
            end = calls.shown if it.back is None else it.back
            width, height = (end - it.taken) * self.step, max(0.5, it.pages * scale)
            more = f' fill="{colour_of(it.scheduler)}" data-name="{it.name}"'
            x, y = self.x(it.taken), top + it.start * scale
            self.parts.append(rectangle("segment", x, y, width, height, more, it.words()))

    def calls_without(self, top):
        """The calls that got nothing."""
        for at, line in self.calls.without:
            kind = "skipped" if line.endswith(" skipped") else "refused"
            self.parts.append(rectangle(kind, self.x(at), top, max(1, self.step - 1), BELOW, title=line))

    def legend(self, y):
        schedulers = sorted({it.scheduler for it in self.calls.segments})
        kinds = [("segment", colour_of(it), f"scheduler {it}") for it in schedulers]
        kinds += [("refused", None, "none or full"), ("skipped", None, "skipped"), ("free", None, "free pages")]
        parts, _, y = keys_of(kinds, y)
        said = f"Calls from left to right, and the {plural(self.calls.pages, 'page')} of the region from top to bottom."
        self.parts += [*parts, words_at("small", MARGIN, y + 20, said)]
        return y + 34


def calls_of(given, program, text, most=None):
    """The calls of a text that are to be drawn."""
    try:
        calls = Calls(text, most)
    except (IndexError, KeyError, TypeError, ValueError) as error:
        raise Refused(f"{program.path}: this is not the simulator: its text has another form") from error
    if not 0 <= calls.shown <= calls.count:
        raise Refused(f"{given.trace}: there are moments 0 to {calls.count}, and no {calls.shown}")
    if calls.shown > MOST_CALLS:
        raise Refused(f"{given.trace}: {calls.shown} calls are more than {MOST_CALLS}; --svg and --at K draw the first")
    return calls


def drawn_calls(given, program, data):
    """What is written of an input of one shared region: paths and texts."""
    text = program.run(data, given.trace, OF_REGION)
    if given.type:
        raise Refused(f"{given.trace}: there is no type {given.type}")
    if given.output:
        calls = calls_of(given, program, text)
        title, count = html.escape(os.path.basename(given.trace)), len(calls.held)
        drawing = Drawing(given.trace, program.words, calls).text()
        yield given.output, PAGE_OF_CALLS.format(title=title, calls=calls, count=count, drawing=drawing)
    if given.svg:
        yield given.svg, Drawing(given.trace, program.words, calls_of(given, program, text, given.at)).text()
