"""The curves over a run, for the page of tools/picture: megabytes of carriers and in blocks, and what is said of them.

A curve is a path of an SVG that has no words and is stretched over its frame; the words beside it are of the page.
"""
import html
import itertools
from dataclasses import dataclass

from picture_run import PAGE, plural
from picture_svg import UNITS_OF_A_MB, megabytes, round_step

# The drawing's own length and height.
LONG, HIGH = 2000, 1000
# How much of the height the greatest value takes, and how many steps there are on an axis.
FILLED, STEPS_UP, STEPS_ALONG = 0.96, 6, 6
LETTERS = ("A", "B")


class Figures:
    """Of each moment of a run the units of its carriers, of its held and of its queued blocks, how many carriers there
    are, and of how many the pages are not known: of those the blocks alone count."""

    NAMES = ("carriers", "held", "queued", "number", "unknown")

    def __init__(self, run):
        self.run, self.count = run, run.last + 1
        for name in self.NAMES:
            setattr(self, name, [0] * (self.count + 1))
        for life in run.replay.lives:
            self.add_life(life)
        for block in run.replay.blocks:
            self.add_block(block)
        for name in self.NAMES:
            setattr(self, name, [*itertools.accumulate(getattr(self, name))][: self.count])
        self.peak = max(range(self.count), key=self.carriers.__getitem__)

    def add(self, name, start, end, value):
        """From a moment up to before another one, or to the end if there is none."""
        end = self.count if end is None else min(end, self.count)
        if start < end:
            getattr(self, name)[start] += value
            getattr(self, name)[end] -= value

    def add_life(self, life):
        self.add("number", life.born, life.gone, 1)
        for span in life.spans:
            if span.pages is None:
                self.add("unknown", span.start, span.end, 1)
            else:
                self.add("carriers", span.start, span.end, span.pages * PAGE)

    def add_block(self, block):
        ends = [it for it in (block.queued, block.gone) if it is not None]
        self.add("held", block.born, min(ends, default=None), block.size)
        if block.queued is not None:
            self.add("queued", block.queued, block.gone, block.size)
        for span in block.life.spans:
            if span.pages is None:
                ends = [it for it in (span.end, block.gone) if it is not None]
                self.add("carriers", max(span.start, block.born), min(ends, default=None), block.size)

    def blocks(self, moment):
        return self.held[moment] + self.queued[moment]


# Words


def number(it):
    """With its thousands apart, as the page's script writes it."""
    return f"{it:,}".replace(",", "\u202f")


def moment_words(run, moment):
    if moment == 0:
        return "before the first entry"
    return "at the end" if moment > len(run.order) else f"after entry {number(moment)}"


def peak_words(figures):
    """The most megabytes, where they are, and how much of them other flags could save."""
    at = figures.peak
    most, blocks = figures.carriers[at], figures.blocks(at)
    least = "at least " if figures.unknown[at] else ""
    return (f"the most is {least}{megabytes(most)} of carriers, {moment_words(figures.run, at)}, with"
            f" {megabytes(blocks)} in blocks: {megabytes(most - blocks)} are free")


def course_words(figures):
    """What a curve shows, for those who do not see it."""
    marks = [(moment, f"at the mark {name}") for moment, name in figures.run.marks()]
    parts = []
    for moment, where in [(0, "at the begin"), *marks, (figures.run.last, "at the end")]:
        parts.append(f"{where} {megabytes(figures.carriers[moment])} and {megabytes(figures.blocks(moment))}")
    return f"{peak_words(figures)}. Of carriers and in blocks there are {'; '.join(parts)}."


def unknown_words(figures):
    count = sum(it > 0 for it in figures.unknown)
    if not count:
        return []
    what = plural(count, "moment")
    return [f"At {what} of {figures.count} the size of a carrier is not known. Its blocks alone count there, so there"
            " are at least as many megabytes as the curve shows; a broken line at its foot marks these moments."]


# Paths


class Curve:
    """A curve of values, each of which holds up to the next moment: where it begins, and its jumps, each with its place
    and the heights before and after. Where a place has several moments, it goes through the least and the greatest."""

    def __init__(self, values, most, last):
        places = [at * LONG // max(1, last) for at in range(len(values))]
        height = lambda value: HIGH - round(HIGH * FILLED * value / most)
        self.start = now = height(values[0])
        self.jumps = []
        for place, group in itertools.groupby(zip(places, values), key=lambda it: it[0]):
            found = [height(value) for _, value in group]
            for it in found[0], min(found), max(found), found[-1]:
                if it != now:
                    self.jumps.append((place, now, it))
                    now = it
        self.end, self.stop = now, places[-1]

    def forward(self):
        return f"M0 {self.start}" + "".join(f"H{x}V{after}" for x, _, after in self.jumps) + f"H{self.stop}"

    def back(self):
        """From its end to its start, as the lower side of an area."""
        return f"V{self.end}" + "".join(f"H{x}V{before}" for x, before, _ in reversed(self.jumps)) + "H0Z"


def foot_of(unknown, last):
    """The moments at which something is not known, as lines at the foot."""
    parts, at = [], 0
    for is_one, group in itertools.groupby(unknown, key=bool):
        count = len([*group])
        if is_one:
            parts.append(f"M{at * LONG // max(1, last)} {HIGH}H{(at + count) * LONG // max(1, last)}")
        at += count
    return "".join(parts)


# Plots


@dataclass
class Line:
    """A curve with its classes and what is said of it."""

    kind: str
    words: str
    values: list


class Plot:
    """Lines over one time, with one scale up to the greatest of their values."""

    def __init__(self, lines, last, unit):
        self.lines, self.last, self.unit = lines, last, unit
        self.most = max(max(it.values) for it in lines) or 1
        self.parts = []

    def path(self, kind, shape):
        self.parts.append(f'<path class="{kind}" d="{shape}"/>')

    def curve(self, line):
        return Curve(line.values, self.most, self.last)

    def ticks_up(self):
        """The heights of the axis, as parts of it, and their words."""
        step = round_step(self.most / FILLED, STEPS_UP)
        step = step if self.unit else max(1, step)
        count = int(self.most / FILLED / step + 1e-6)
        return [(at * step * FILLED / self.most, f"{at * step:g}{self.unit}") for at in range(count + 1)]

    def ticks_along(self):
        step = int(max(1, round_step(self.last, STEPS_ALONG))) if self.last else 1
        return [(at / max(1, self.last), number(at)) for at in range(0, self.last + 1, step)]

    def draw(self, marks=(), spare=None, unknown=()):
        """The paths: the area between two lines first."""
        for part, _ in self.ticks_up():
            self.path("grid", f"M0 {round(HIGH * (1 - part))}H{LONG}")
        if spare:
            self.path("spare", self.curve(spare[0]).forward() + self.curve(spare[1]).back())
        for moment, _ in marks:
            self.path("of-mark", f"M{moment * LONG // max(1, self.last)} 0V{HIGH}")
        if any(unknown):
            self.path("unknown", foot_of(unknown, self.last))
        for line in self.lines:
            self.path(line.kind, self.curve(line).forward())

    def text(self, name, title, told, more_keys="", before=""):
        """The figure: its title and keys, and the paths with the words of the axes; `before` stands above the frame."""
        keys = "".join(f'<li><i class="stroke {it.kind}"></i>{html.escape(it.words)}</li>' for it in self.lines)
        up = "".join(f'<span class="tick y" style="bottom:{100 * part:.2f}%">{it}</span>'
                     for part, it in self.ticks_up())
        along = "".join(f'<span class="tick x" style="left:{100 * part:.2f}%">{it}</span>'
                        for part, it in self.ticks_along())
        return (
            f'<figure class="plot {name}"><figcaption>{html.escape(title)}</figcaption>'
            f'<ul class="keys">{keys}{more_keys}</ul><div class="room">{before}<div class="frame">'
            f'<svg viewBox="0 0 {LONG} {HIGH}" preserveAspectRatio="none" role="img" aria-labelledby="{name}-title"'
            f' aria-describedby="{name}-desc">'
            f'<title id="{name}-title">{html.escape(title)}</title><desc id="{name}-desc">{html.escape(told)}</desc>'
            f'{"".join(self.parts)}</svg>{up}{along}<span class="tick axis">entries of the run</span>'
            '<i class="cursor"></i></div></div></figure>'
        )


def megabytes_of(units):
    return [it / UNITS_OF_A_MB for it in units]


def letters_of(figures):
    """What the words of each run begin with, of one of two."""
    return [f"{it}: " for it in LETTERS] if len(figures) > 1 else [""]


def mark_buttons(figures):
    """The marks of the first run and the peaks of all, as buttons that lead there."""
    found = [(moment, "mark", name, "mark ") for moment, name in figures[0].run.marks()]
    for letter, it in zip(letters_of(figures), figures):
        found.append((it.peak, "mark most", f"{letter}peak {megabytes(it.carriers[it.peak])}", ""))
    for moment, kind, words, what in sorted(found, key=lambda it: it[0]):
        said = html.escape(f"{what}{words}, {moment_words(figures[0].run, moment)}")
        names = f'title="{said}" aria-label="{said}"'
        yield f'<button class="{kind}" data-at="{moment}" {names}>{html.escape(words)}</button>'


def memory_plot(figures):
    """The main figure: megabytes of carriers and in blocks, of one run or of two."""
    kinds = [("a", "within")] if len(figures) == 1 else [("a", "a dashed"), ("b", "b dashed")]
    lines = []
    for letter, (outer, inner), it in zip(letters_of(figures), kinds, figures):
        lines.append(Line(outer, f"{letter}MB of carriers", megabytes_of(it.carriers)))
        lines.append(Line(inner, f"{letter}MB in blocks", megabytes_of(map(sum, zip(it.held, it.queued)))))
    plot = Plot(lines, max(it.run.last for it in figures), " MB")
    unknown = [any(it) for it in itertools.zip_longest(*(it.unknown for it in figures))]
    plot.draw(figures[0].run.marks(), lines[:2], unknown)
    whose = "" if len(figures) == 1 else " of A"
    keys = f'<li><i style="background:var(--spare)"></i>free in carriers{whose}: what other flags can save</li>'
    told = " ".join(f"{letter}{course_words(it)}" for letter, it in zip(letters_of(figures), figures))
    buttons = f'<div id="marks" role="group" aria-label="marks and peaks">{"".join(mark_buttons(figures))}</div>'
    return plot.text("main", "Megabytes of carriers, and of the blocks in them", told, keys, buttons)


def other_plots(figures):
    """How many carriers there are, and the megabytes that are queued."""
    last, kinds = max(it.run.last for it in figures), ("a", "b")
    for name, title, unit, values in (
        ("number", "Number of carriers", "", lambda it: it.number),
        ("waiting", "Megabytes of queued blocks", " MB", lambda it: megabytes_of(it.queued)),
    ):
        lines = [Line(kind, f"{letter}{title.lower()}", values(it))
                 for letter, kind, it in zip(letters_of(figures), kinds, figures)]
        plot = Plot(lines, last, unit)
        plot.draw()
        most = "; ".join(f"{letter}{max(it.values):.4g}{unit} at most"
                         for letter, it in zip(letters_of(figures), lines))
        yield plot.text(name, title, f"{title}: {most}.")
