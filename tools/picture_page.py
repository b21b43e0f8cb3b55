"""The page of a run, or of two side by side, for tools/picture: picture_page.html with its scripts and their data."""
import html
import json
import os
import re

from picture_curves import LETTERS, Figures, memory_plot, number, other_plots, peak_words, unknown_words
from picture_run import plural
from picture_svg import megabytes, rules_words
from texts import NUMBERS_OF_AN_INSTANCE

SCRIPTS = ("picture_page_run.js", "picture_page_pane.js", "picture_page.js")
STANDINGS = ("employed", "used", "pooled", "busy", "returning")
NEVER = -1
OWN_ORDERS = (
    "The two runs have the entries of their schedulers in orders of their own. At one moment they have as many entries,"
    " and not always the same ones."
)


def steps(numbers):
    """The differences, which are shorter than the numbers."""
    return [it - before for before, it in zip([0, *numbers], numbers)]


def never_if_none(it):
    return NEVER if it is None else it


def life_data(life):
    return {
        "number": life.number,
        "kind": life.kind,
        "born": life.born,
        "gone": never_if_none(life.gone),
        "spans": [[it.start, never_if_none(it.base), it.pages or 0] for it in life.spans],
        "told": [[moment, STANDINGS.index(standing), instance] for moment, standing, instance in life.told],
    }


def page_data(figures, opens):
    """What the page's script reads, see there, and what the page says of the run in its head and its notes."""
    run = figures.run
    lives = {it: at for at, it in enumerate(run.replay.lives)}
    blocks = run.replay.blocks
    since = lambda moment, block: NEVER if moment is None else moment - block.born
    return {
        "name": os.path.basename(run.name),
        "list": run.program.name,
        "flags": " ".join(run.program.words),
        "held": run.settings.told(),
        "rules": rules_words(run.trace),
        "schedulers": len(run.trace.sections),
        "region": run.settings.region,
        "last": run.last,
        "opens": opens,
        "peak": figures.peak,
        "marks": run.marks(),
        "unknown": len(run.unknown()),
        "total": run.text.total,
        "lines": [it.line for it in run.order],
        "by": [] if run.is_exact else [it.scheduler for it in run.order],
        "figures": {it: steps(getattr(figures, it)) for it in Figures.NAMES},
        "blocks": {
            "name": steps([int(it.name) for it in blocks]),
            "life": steps([lives[it.life] for it in blocks]),
            "offset": [it.offset for it in blocks],
            "size": [it.size for it in blocks],
            "born": steps([it.born for it in blocks]),
            "queued": [since(it.queued, it) for it in blocks],
            "gone": [since(it.gone, it) for it in blocks],
        },
        "lives": [life_data(it) for it in run.replay.lives],
        "numbers": NUMBERS_OF_AN_INSTANCE,
        "stops": [[it.moment, it.scheduler, words] for it, words in run.kept()],
        "kept": [at for at, it in enumerate(blocks) if it.is_kept],
        "notes": run.notes(),
    }


def data_script(name, data):
    text = json.dumps(data, separators=(",", ":")).replace("<", "\\u003c")
    return f'<script type="application/json" id="{name}">{text}</script>'


# The head


def words_of_held(run, other):
    """The settings that hold, those in bold that do not hold in the other run."""
    others = other.settings.told().split(", ") if other else []
    parts = []
    for it in run.settings.told().split(", "):
        words = html.escape(it)
        parts.append(f"<b>{words}</b>" if other and it not in others else words)
    return ", ".join(parts)


def list_head(run, other, letter):
    """What is said of a list of flags: the settings that hold, its words, and failed allocations."""
    name = f'<span class="letter">{letter}: {html.escape(run.program.name)}</span> · ' if letter else ""
    room = f"{plural(len(run.trace.sections), 'scheduler')} · super carrier {run.settings.megabytes} MB"
    said = f"{name}held: {words_of_held(run, other)} · {room}"
    flags = html.escape(" ".join(run.program.words) or "no flags")
    failed = run.failed_words()
    warning = f'<p class="warning">{html.escape(failed)}</p>' if failed else ""
    kind = f"list of-{letter.lower()}" if letter else "list"
    return f'<div class="{kind}"><p>{said}</p><p class="line">{flags}</p>{warning}</div>'


def saved_words(figures):
    """Of two runs how much less or more the second has at most."""
    first, second = (it.carriers[it.peak] for it in figures)
    what = "less" if second <= first else "more"
    return f" At their peaks B has {megabytes(abs(first - second))} {what} than A."


def head_of(runs, figures):
    run = runs[0]
    entries = f"{number(len(run.order))} {'entry' if len(run.order) == 1 else 'entries'}"
    about = [f"allocator {run.trace.letter}", *rules_words(run.trace), entries]
    letters = LETTERS if len(runs) > 1 else ("",)
    peaks = [f"{letter}{': ' if letter else ''}{peak_words(it)}." for letter, it in zip(letters, figures)]
    if not letters[0]:
        peaks = [it[0].upper() + it[1:] for it in peaks]
    saved = saved_words(figures) if len(figures) > 1 else ""
    lists = [list_head(it, runs[at - 1] if len(runs) > 1 else None, letters[at]) for at, it in enumerate(runs)]
    parts = [f'<p class="dim">{html.escape(" · ".join(about))}</p>', *lists]
    return "\n".join([*parts, f'<p class="peak">{" ".join(peaks)}{saved}</p>'])


def notes_of(runs, figures):
    found = dict.fromkeys(it for run, figure in zip(runs, figures) for it in [*unknown_words(figure), *run.notes()])
    if len({tuple(it.scheduler for it in run.order) for run in runs}) > 1:
        found = [OWN_ORDERS, *found]
    return "".join(f"<li>{html.escape(it)}</li>" for it in found)


# The page


def read_part(name):
    with open(f"{os.path.dirname(os.path.realpath(__file__))}/{name}", encoding="utf-8") as file:
        return file.read()


def page_of(runs):
    """The page of one run, or of two over one time."""
    figures = [Figures(it) for it in runs]
    highest = max(figures, key=lambda it: it.carriers[it.peak])
    data = [data_script(name, page_data(it, highest.peak)) for name, it in zip(("data", "beside"), figures)]
    name, run = html.escape(os.path.basename(runs[0].name)), runs[0]
    parts = {
        "TITLE": f"{name}: carriers entry by entry",
        "NAME": name,
        "HEAD": head_of(runs, figures),
        "MEMORY": memory_plot(figures),
        "OF": f"of {number(len(run.order))}" + ("" if run.is_exact else " and the end"),
        "TWO": " two" if len(runs) > 1 else "",
        "MORE": "\n".join(other_plots(figures)),
        "NOTES": notes_of(runs, figures),
        "DATA": "\n".join(data),
        "SCRIPT": "".join(map(read_part, SCRIPTS)),
    }
    return re.sub("@([A-Z]+)@", lambda it: parts[it[1]], read_part("picture_page.html"))
