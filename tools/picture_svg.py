"""One moment of a run as an SVG, for tools/picture."""
import html
import itertools
import os
import textwrap
from collections import defaultdict

from picture_run import HEADER, PAGE

HUES = (
    "#4e79a7 #f28e2b #59a14f #9c6fb5 #3fa7a3 #9c755f #c9a227 #7b8794 "
    "#2f5d9b #b65d0d #2e7d4f #6a3d9a #17737a #6d4c41 #8a7400 #4b5563"
).split()
# Of each hue four shades: how much of it is white, black or grey.
SHADES = (0, 0), (0.4, 255), (0.4, 0), (0.5, 128)
WIDTH, LABEL, MARGIN = 1000, 244, 16
# With more instances than in one column regions stand in several, and those without carriers are only named.
STRIPS_OF_A_COLUMN, MOST_COLUMNS, SHORT_LABEL = 16, 4, 126
LONGEST_LINE, LONGEST_TITLE = 150, 110
# About how wide a letter of a label is.
LETTER = 6.8
# Where there are more carriers than this, those with so many percent in blocks stand in one row for each owner.
MANY_CARRIERS, FULL = 40, 90
UNITS_OF_A_MB = 2**17
STYLE = """\
text { font: 12px system-ui, -apple-system, 'Segoe UI', Roboto, sans-serif; fill: #1f2328 }
.title { font-size: 15px; font-weight: 600 } .small { font-size: 11px; fill: #57606a }
.page { fill: #ffffff } .free { fill: #eef0f3 } .gap { fill: #dfe3e8; stroke: #8b949e; stroke-width: .6 }
.pooled { stroke-dasharray: 3 2 } .head { fill: #24292f } .cut { fill: #ffffff } .queued { fill: url(#queued) }
@media (prefers-color-scheme: dark) {
text { fill: #e6edf3 } .small { fill: #9198a1 } .page { fill: #0d1117 } .free { fill: #161b22 }
.gap { fill: #2a313c; stroke: #6e7681 } .head { fill: #e6edf3 } .cut { fill: #0d1117 }
}
"""
STYLE_OF_STOPS = """\
.stop { fill: #cf222e; font-weight: 600 } .sign { fill: #cf222e }
.stopped { fill: none; stroke: #cf222e; stroke-width: 1.5 }
@media (prefers-color-scheme: dark) {
.stop, .sign { fill: #ff7b72 } .stopped { stroke: #ff7b72 }
}
"""
QUEUED = (
    '<pattern id="queued" width="5" height="5" patternUnits="userSpaceOnUse" patternTransform="rotate(45)">'
    '<rect width="5" height="5" fill="#f6c9de"/><rect width="2.5" height="5" fill="#c2185b"/></pattern>'
)


def mixed(colour, part, other):
    """A colour with a part of a grey in it."""
    return "#" + "".join(f"{round(int(colour[at:at + 2], 16) * (1 - part) + other * part):02x}" for at in (1, 3, 5))


COLOURS = [mixed(colour, *shade) for shade in SHADES for colour in HUES]


def colour_of(instance):
    return COLOURS[(instance - 1) % len(COLOURS)]


def ranges_words(numbers):
    """Rising numbers in words, as 1, 3 to 5."""
    runs = []
    for it in numbers:
        if runs and runs[-1][1] == it - 1:
            runs[-1][1] = it
        else:
            runs.append([it, it])
    return ", ".join(str(first) if first == last else f"{first} to {last}" for first, last in runs)


def shape(number):
    """A number of pixels, short."""
    return f"{number:.2f}".rstrip("0").rstrip(".")


def rectangle(kind, x, y, width, height, more="", title=""):
    said = f"<title>{html.escape(title)}</title></rect>" if title else "</rect>"
    place = " ".join(f'{name}="{shape(it)}"' for name, it in zip(("x", "y", "width", "height"), (x, y, width, height)))
    return f'<rect class="{kind}" {place}{more}>{said}'


def words_at(kind, x, y, said):
    return f'<text class="{kind}" x="{shape(x)}" y="{shape(y)}">{html.escape(said)}</text>'


def svg_of(width, height, style, parts, more=""):
    """The whole of an SVG with these parts, on a ground of its own; `more` are attributes of it."""
    size = f'width="{width}" height="{height}" viewBox="0 0 {width} {height}"'
    head = f'<svg xmlns="http://www.w3.org/2000/svg" {size}{more}>'
    ground = rectangle("page", 0, 0, width, height)
    return "\n".join([head, f"<style>{STYLE}{style}</style>", ground, *parts, "</svg>", ""])


def heading_of(title, said, y):
    """The parts of a title and of a line below it, which are cut in lines, and where the next part stands."""
    parts = []
    for line in textwrap.wrap(title, LONGEST_TITLE):
        parts.append(words_at("title", MARGIN, y + 12, line))
        y += 18
    for line in textwrap.wrap(said, LONGEST_LINE):
        parts.append(words_at("small", MARGIN, y + 12, line))
        y += 15
    return parts, y + 11


def keys_of(kinds, y):
    """The parts of a legend of these kinds, each with its colour, if it has one of its own, and what is said of it; and
    where the next one stands."""
    parts, x = [], MARGIN
    for kind, colour, said in kinds:
        if x > WIDTH - 150:
            x, y = MARGIN, y + 20
        parts.append(rectangle(kind, x, y - 9, 12, 12, f' fill="{colour}"' if colour else ""))
        parts.append(words_at("small", x + 17, y + 1, said))
        x += 30 + 6.2 * len(said)
    return parts, x, y


def sign_at(x, y, size):
    """The octagon of a stop."""
    low, high = 0.29 * size, 0.71 * size
    corners = (low, 0), (high, 0), (size, low), (size, high), (high, size), (low, size), (0, high), (0, low)
    return f'<polygon class="sign" points="{" ".join(f"{shape(x + it)},{shape(y + at)}" for it, at in corners)}"/>'


def mark_at(x, y):
    """Points at a block from above."""
    corners = (x, y + 6), (x - 5, y - 3), (x + 5, y - 3)
    return f'<polygon class="sign kept" points="{" ".join(f"{shape(it)},{shape(at)}" for it, at in corners)}"/>'


def flags_words(words, settings=None):
    """The flags, and the settings that hold under them."""
    said = " ".join(words) or "no flags"
    return f"{said} · held: {settings.told()}" if settings else said


def rules_words(trace):
    """The rules of a node by which recorded operations ran, if there are any."""
    return [f"rules {trace.rules}"] if trace.rules else []


def megabytes(units):
    return f"{units / UNITS_OF_A_MB:,.1f} MB"


def round_step(length, most):
    """A round step of which at most so many make the length: 1, 2 or 5 times a power of ten."""
    step = 10.0 ** -3
    for factor in itertools.cycle((2, 2.5, 2)):
        if length / step <= most:
            return step
        step *= factor


def pages_words(base, pages):
    return f"page {base}" if pages == 1 else f"pages {base} to {base + pages - 1}"


def standing_words(standing, instance):
    """As in a carrier's line; between lines it is not always told whether a carrier was abandoned."""
    return f"used or abandoned by {instance}" if standing == "used" else f"{standing} {instance}"


class Drawing:
    """Draws one moment of a run: the regions, and below them each carrier by itself."""

    def __init__(self, run, moment, is_unfolded=False):
        self.run, self.moment = run, moment
        self.parts, self.y = [], MARGIN
        self.lives = [it for it in run.replay.lives if it.is_there(moment)]
        self.blocks = defaultdict(list)
        for block in run.replay.blocks:
            if block.is_there(moment):
                self.blocks[block.life].append(block)
        self.instances = range(1, len(run.trace.sections) + 1)
        self.is_wide = len(self.instances) > STRIPS_OF_A_COLUMN
        self.kept = [it for it in run.kept() if it[0].moment <= moment]
        self.stopped = {it.scheduler for it, _ in self.kept}
        is_folded = len(self.lives) > MANY_CARRIERS and not is_unfolded
        self.full = [it for it in self.lives if is_folded and self.is_full(it)]
        longest = max((len(it) for life in self.lives for it in self.labels(life)), default=0)
        self.label = max(LABEL, 14 + LETTER * longest)

    def text(self):
        self.heading()
        for _, words in self.kept:
            self.stop(words)
        self.regions()
        self.y += 8
        longest = max((self.units(it) for it in self.lives if it not in self.full), default=PAGE)
        owner = 0
        for life in sorted(self.lives, key=lambda it: (it.owner, self.base(it), it.number)):
            if life.owner != owner:
                owner = life.owner
                self.folded(owner)
            if life not in self.full:
                self.carrier(life, (WIDTH - self.label - 2 * MARGIN) / longest)
        self.legend()
        counts = f' data-moment="{self.moment}" data-blocks="{sum(map(len, self.blocks.values()))}"'
        counts += f' data-stopped="{len(self.stopped)}"' if self.run.stops else ""
        style = STYLE_OF_STOPS if self.run.stops else ""
        return svg_of(WIDTH, self.y, style, [f"<defs>{QUEUED}</defs>", *self.parts], counts)

    def base(self, life):
        base = life.span_at(self.moment).base
        return 2**32 if base is None else base

    def units(self, life):
        """The units of a carrier, or where its last block ends if its pages are not known."""
        pages = life.span_at(self.moment).pages
        return pages * PAGE if pages else max((it.end for it in self.blocks[life]), default=PAGE)

    def heading(self):
        run, figures = self.run, self.run.figures(self.moment)
        names = ("units", "live", "queued", "free")
        said = " · ".join(f"{it} {figures[it]:,} ({megabytes(figures[it])})" for it in names)
        flags = " · ".join([flags_words(run.program.words, run.settings), *rules_words(run.trace)])
        said = f"{flags} · carriers {figures['carriers']:,} · {said}"
        parts, self.y = heading_of(f"{os.path.basename(run.name)}: {self.title()}", said, self.y)
        self.parts += parts

    def stop(self, words):
        """What a stopped scheduler keeps, in lines."""
        self.parts.append(sign_at(MARGIN, self.y, 12))
        self.parts.append(words_at("stop", MARGIN + 18, self.y + 10, words[0]))
        for line in textwrap.wrap(" ".join(words[1:]), LONGEST_LINE):
            self.y += 15
            self.parts.append(words_at("", MARGIN + 18, self.y + 10, line))
        self.y += 22

    def title(self):
        if self.moment == 0:
            return "before the first entry"
        if self.moment > len(self.run.order):
            return "at the end"
        entry = self.run.order[self.moment - 1]
        line = entry.line.split("\n")[0]
        who = "" if self.run.is_exact else f", scheduler {entry.scheduler}"
        return f"after entry {self.moment} of {len(self.run.order)}{who}: {line}"

    def shown_pages(self):
        """How many pages of each region are drawn: all, or a part where most of them are free in all regions."""
        region = self.run.settings.region
        spans = [(it, it.span_at(self.moment)) for it in self.lives]
        ends = [span.base + span.pages - (life.owner - 1) * region for life, span in spans if span.base is not None]
        used = max(ends, default=1)
        return region if 4 * used >= region else max(16, 1 << (used - 1).bit_length())

    def regions(self):
        """The regions of all instances; of many, those with a carrier or a stopped scheduler, in columns."""
        shown = list(self.instances)
        if self.is_wide:
            shown = sorted({it.owner for it in self.lives} | self.stopped)
        columns = max(1, min(MOST_COLUMNS, -(-len(shown) // STRIPS_OF_A_COLUMN)))
        width = (WIDTH - 2 * MARGIN) / columns
        for at, instance in enumerate(shown):
            self.region(instance, MARGIN + at % columns * width, width, columns > 1)
            if (at + 1) % columns == 0 or at + 1 == len(shown):
                self.y += 34
        for column in range(columns if shown else 0):
            self.scale(MARGIN + column * width, width, columns > 1)
        self.y += 20 if shown else 0
        others = [it for it in self.instances if it not in shown]
        if others:
            said = f"no carrier: {'instance' if len(others) == 1 else 'instances'} {ranges_words(others)}"
            for line in textwrap.wrap(said, LONGEST_LINE):
                self.parts.append(words_at("small", MARGIN, self.y + 11, line))
                self.y += 15

    def strip(self, left, width, is_narrow):
        """Where a region is drawn, and how long."""
        label, room = (SHORT_LABEL, 8) if is_narrow else (self.label, 0)
        return left + label, width - label - room

    def scale(self, left, width, is_narrow):
        """The megabytes of a region, below it."""
        x, long = self.strip(left, width, is_narrow)
        whole = self.shown_pages() * PAGE / UNITS_OF_A_MB
        step = round_step(whole, 4 if is_narrow else 10)
        self.parts.append(rectangle("head", x, self.y - 4, long, 0.6))
        for at in range(int(whole / step + 1e-6) + 1):
            place = x + long * at * step / whole
            self.parts.append(rectangle("head", place, self.y - 4, 0.8, 4))
            words = f"{at * step:g}" + (" MB" if (at + 1) * step > whole + 1e-6 else "")
            middle = min(place - LETTER * len(words) / 2, x + long - LETTER * len(words))
            self.parts.append(words_at("small", max(middle, x), self.y + 11, words))

    def region(self, instance, left, width, is_narrow):
        pages, region = self.shown_pages(), self.run.settings.region
        x, long = self.strip(left, width, is_narrow)
        first, scale = (instance - 1) * region, long / (pages * PAGE)
        free = "" if pages == region or is_narrow else f", {region - pages} more are free"
        name = f"instance {instance}" if is_narrow else f"region of instance {instance}"
        self.parts.append(words_at("", left, self.y + 11, name))
        if instance in self.stopped:
            self.parts.append(words_at("stop", left + (66 if is_narrow else 140), self.y + 11, "stopped"))
        self.parts.append(words_at("small", left, self.y + 24, pages_words(first, pages) + free))
        self.parts.append(rectangle("free", x, self.y, long, 26))
        for life in self.lives:
            base = life.span_at(self.moment).base
            if life.owner == instance and base is not None:
                self.inside(life, x + (base - first) * PAGE * scale, self.y + 3, 20, scale, "region-")

    def labels(self, life):
        """What is said of a carrier, in two lines."""
        span, told = life.span_at(self.moment), life.told_at(self.moment)
        place = "place not known" if span.base is None else pages_words(span.base, span.pages)
        users = f"owner {life.owner}, {standing_words(*told[1:])}"
        users += ", stopped" if self.is_kept(life) else ""
        return f"carrier {life.number}, {life.kind}, {place}", f"{users}, {megabytes(self.units(life))}"

    def use(self, life):
        """The units of its blocks."""
        return sum(it.size for it in self.blocks[life])

    def is_full(self, life):
        is_waiting = any(it.is_queued(self.moment) for it in self.blocks[life])
        return 100 * self.use(life) >= FULL * self.units(life) and not is_waiting and not self.is_kept(life)

    def folded(self, owner):
        """The row of the full carriers of an owner, if it has any."""
        lives = [it for it in self.full if it.owner == owner]
        if not lives:
            return
        units, used = sum(map(self.units, lives)), sum(map(self.use, lives))
        self.parts.append(rectangle("owner", MARGIN, self.y, 4, 16, f' fill="{colour_of(owner)}"'))
        said = f"{len(lives)} full carriers of owner {owner}: {megabytes(units)}, {100 * used // units} percent in"
        said += f" blocks (each {FULL} or more): {ranges_words(sorted(it.number for it in lives))}"
        for line in textwrap.wrap(said, LONGEST_LINE):
            self.parts.append(words_at("", MARGIN + 10, self.y + 12, line))
            self.y += 16
        self.y += 8

    def carrier(self, life, scale):
        first, users = self.labels(life)
        self.parts.append(rectangle("owner", MARGIN, self.y, 4, 24, f' fill="{colour_of(life.owner)}"'))
        self.parts.append(words_at("", MARGIN + 10, self.y + 11, first))
        self.parts.append(words_at("small", MARGIN + 10, self.y + 23, users))
        self.inside(life, MARGIN + self.label, self.y, 24, scale, "")
        self.y += 32

    def is_kept(self, life):
        """Whether a stopped scheduler has the carrier."""
        _, standing, user = life.told_at(self.moment)
        return user in self.stopped and standing not in ("pooled", "returning")

    def inside(self, life, x, y, height, scale, prefix):
        """A carrier with its header and blocks; blocks of less than a pixel are drawn together."""
        _, standing, instance = life.told_at(self.moment)
        kind = f"gap {'pooled' if standing in ('pooled', 'busy', 'returning') else ''}".strip()
        self.parts.append(rectangle(kind, x, y, self.units(life) * scale, height, title=f"carrier {life.number}"))
        self.parts.append(rectangle("head", x, y, max(HEADER * scale, 0.8), height))
        shared, marks, colour = {}, [], f' fill="{colour_of(instance)}"'
        for block in sorted(self.blocks[life], key=lambda it: it.offset):
            left, width, queued = x + block.offset * scale, block.size * scale, block.is_queued(self.moment)
            marks += [mark_at(left + width / 2, y)] if queued and block.is_kept else []
            if width >= 2:
                kind = f"{prefix}block" + (" queued" if queued else "")
                more = ("" if queued else colour) + f' data-name="{block.name}"'
                title = f"block {block.name}: {block.size} units at {block.offset} of carrier {life.number}"
                self.parts.append(rectangle(kind, left, y, width - 0.4, height, more, title))
            else:
                units, count = shared.get((int(left), queued), (0, 0))
                shared[int(left), queued] = units + block.size, count + 1
        for (left, queued), (units, count) in shared.items():
            kind = f"{prefix}blocks" + (" queued" if queued else "")
            density = max(0.35, min(1, units * scale))
            more = ("" if queued else colour) + f' opacity="{shape(density)}" data-count="{count}"'
            self.parts.append(rectangle(kind, left, y, 1, height, more))
        if self.is_kept(life):
            self.parts.append(rectangle("stopped", x - 1, y - 1, self.units(life) * scale + 2, height + 2))
        self.parts += marks

    def users(self):
        """The instances whose colours are told, each with what is said of it; of many those that use a carrier."""
        if not self.is_wide:
            return [(it, f"used by instance {it}") for it in self.instances]
        using = sorted({life.told_at(self.moment)[2] for life in self.lives})
        return [(it, str(it) if at else f"used by instance {it}") for at, it in enumerate(using)]

    def legend(self):
        users = [("owner", colour_of(it), said) for it, said in self.users()]
        kinds = [("queued", "queued"), ("gap", "gap"), ("gap pooled", "abandoned"), ("head", "header")]
        kinds += [("stopped", "carrier of a stopped scheduler")] if self.stopped else []
        parts, x, self.y = keys_of([*users, *((kind, None, said) for kind, said in kinds)], self.y + 14)
        self.parts += parts
        if any(it.is_kept for blocks in self.blocks.values() for it in blocks):
            self.parts.append(mark_at(x + 6, self.y - 6))
            self.parts.append(words_at("small", x + 17, self.y + 1, "block whose release was stopped"))
        said = "Carriers to one scale. Blocks have the colour of who uses their carrier, the bar that of its owner."
        if not self.run.is_exact:
            said += " The order between schedulers is this picture's own."
        self.parts.append(words_at("small", MARGIN, self.y + 20, said))
        self.y += 34
