"""The page of tools/advise for a browser: one file, with all that it shows in it."""
import base64
import html
import os
import subprocess
import sys

from advise_node import NAMES
from advise_runs import words_of
from advise_table import advice_on, cells_of, limits_of, notes_on, own_values, to_paste, told_of_check
from files import read_file

HERE = os.path.dirname(os.path.realpath(__file__))
# Of the drawing of curves, in points of the screen.
WIDTH, HEIGHT, LEFT, RIGHT, TOP, BOTTOM = 960, 320, 56, 16, 16, 48
COLOURS = ("#57606a", "#0969da", "#bf3989")
MOST_SECONDS, MOST_BYTES = 60, 3 * 2**20

HEAD = """<!DOCTYPE html>
<html lang="en"><head><meta charset="utf-8"><title>Flags for a node</title>
<style>
body { font: 15px/1.5 system-ui, -apple-system, 'Segoe UI', Roboto, sans-serif; margin: 2rem auto; max-width: 64rem;
  padding: 0 1rem; color: #1f2328; background: #fff }
table { border-collapse: collapse; font-size: 13px; display: block; overflow-x: auto }
th, td { text-align: right; padding: .15rem .6rem; border-bottom: 1px solid #d1d9e0; white-space: nowrap }
th:nth-child(2), td:nth-child(2), th:nth-child(3), td:nth-child(3) { text-align: left }
tr.own td { color: #57606a; font-style: italic } tr.best td { font-weight: 600 }
.advice, code.flags { background: #eef4fb; padding: .6rem .9rem; border-radius: 6px; display: block }
svg text { font: 12px system-ui, sans-serif; fill: #57606a } .axis { stroke: #8b949e } .grid { stroke: #d1d9e0 }
figure { margin: 1rem 0 } img { max-width: 100%; border: 1px solid #d1d9e0 } li { margin: .2rem 0 }
</style></head><body>
<h1>Flags for a node</h1>
"""


def escaped(words):
    return html.escape(str(words))


def paragraph(words, kind=""):
    return f"<p{kind and f' class={chr(34)}{kind}{chr(34)}'}>{escaped(words)}</p>\n"


def page_of(found, program, folder):
    """The page of these tables, each with its curves."""
    tables = [it for it, _ in found]
    flags = to_paste(tables)
    parts = [HEAD]
    for table in tables:
        parts.append(paragraph(" ".join(advice_on(table)), "advice"))
    parts.append(f"<p>Flags to paste:</p><code class=\"flags\">{escaped(flags)}</code>\n" if flags else "")
    for table, curves in found:
        parts += part_of(table, curves, program, folder)
    return "".join([*parts, "</body></html>\n"])


def part_of(table, curves, program, folder):
    """The part of one allocator."""
    yield f"<h2>{NAMES[table.letter]}</h2>\n" + paragraph(f"The node's own: {own_values(table)}")
    for check in table.checks:
        yield "".join(map(paragraph, told_of_check(check)))
    yield table_of(table)
    yield "".join(map(paragraph, notes_on(table)))
    yield drawn_curves(table.cases[0], curves)
    yield drawn_carriers(table, program, folder)
    yield "<h3>What this does not claim</h3>\n<ul>" + "".join(f"<li>{escaped(it)}</li>\n" for it in limits_of(table))
    yield "</ul>\n"


def table_of(table):
    best = table.best()
    heads = [*cells_of(table.lines[0], table)]
    rows = ["<tr>" + "".join(f"<th>{escaped(it)}</th>" for it in heads) + "</tr>\n"]
    for line in table.lines:
        kind = "best" if best and line is best[0] else "own" if line is table.own else ""
        cells = "".join(f"<td>{escaped(it)}</td>" for it in cells_of(line, table).values())
        rows.append(f'<tr class="{kind}">{cells}</tr>\n')
    return f"<table>{''.join(rows)}</table>\n"


# ---------------------------------------------------------------------------------------------------------------------
# Curves
# ---------------------------------------------------------------------------------------------------------------------


def round_up(most):
    """The end of an axis, and its step."""
    step = next(it * 10**power for power in range(-1, 7) for it in (1, 2, 5) if most <= 5 * it * 10**power)
    return step * max(1, -(-most // step)), step


def drawn_curves(case, curves):
    """The megabytes of the carriers by the events of the recording: of each list, and points of the node."""
    node = case.curve()
    events = {name: count for name, count, _ in node}
    lines = {name: [(events[it], one) for it, one in curve.items() if it in events] for name, curve in curves.items()}
    last = max(events.values()) or 1
    end, step = round_up(max([it[2] for it in node] + [one for line in lines.values() for _, one in line] + [1]))

    def place(count, megabytes):
        x = LEFT + (WIDTH - LEFT - RIGHT) * count / last
        return f"{x:.1f},{TOP + (HEIGHT - TOP - BOTTOM) * (1 - megabytes / end):.1f}"

    parts = [f'<h3>Megabytes of carriers over the recording {escaped(case.name)}</h3>\n',
             f'<svg viewBox="0 0 {WIDTH} {HEIGHT}" role="img" aria-label="Megabytes of carriers by time">']
    parts += axes(node, end, step, place, {case.peak: "peak", case.valley: "valley"})
    for (name, line), colour in zip(lines.items(), COLOURS):
        points = " ".join(place(*it) for it in sorted(line))
        parts.append(f'<polyline fill="none" stroke="{colour}" stroke-width="2" points="{points}"><title>{escaped(name)}'
                     "</title></polyline>")
    for name, count, megabytes in node:
        x, y = place(count, megabytes).split(",")
        parts.append(f'<circle cx="{x}" cy="{y}" r="3.5" fill="#1f2328"><title>node, mark {escaped(name)}:'
                     f" {megabytes:.1f} MB</title></circle>")
    parts += legend([*zip(lines, COLOURS), ("the node itself, at its marks", "#1f2328")])
    return "".join([*parts, "</svg>\n"])


def axes(node, end, step, place, named):
    """Lines across, and the names of the marks: those of the peak and the valley, and others where there is room."""
    for at in range(round(end / step) + 1):
        y = place(0, at * step).split(",")[1]
        yield f'<line class="grid" x1="{LEFT}" x2="{WIDTH - RIGHT}" y1="{y}" y2="{y}"/>'
        yield f'<text x="{LEFT - 8}" y="{y}" dy="4" text-anchor="end">{at * step:g}</text>'
    taken = []
    for name, count, _ in sorted(node, key=lambda it: it[0] not in named):
        x = float(place(count, 0).split(",")[0])
        if all(abs(x - it) > 60 for it in taken) or name in named:
            taken.append(x)
            words = f"{name} ({named[name]})" if name in named and named[name] != name else name
            anchor = "end" if x > WIDTH - 100 else "middle"
            yield f'<text x="{x:.1f}" y="{HEIGHT - BOTTOM + 16}" text-anchor="{anchor}">{escaped(words)}</text>'


def legend(names):
    x = LEFT
    for name, colour in names:
        yield f'<rect x="{x}" y="{HEIGHT - 16}" width="10" height="10" fill="{colour}"/>'
        yield f'<text x="{x + 14}" y="{HEIGHT - 7}">{escaped(name)}</text>'
        x += 40 + 7 * len(name)


# ---------------------------------------------------------------------------------------------------------------------
# Carriers
# ---------------------------------------------------------------------------------------------------------------------


def drawn_carriers(table, program, folder):
    """The carriers at the last moment, under the node's own list and under the one that is advised."""
    best, case = table.best(), table.cases[0]
    lists = [("before", ())]
    if best and best[0] is not table.own:
        lists.append(("after", best[0].trial.changes))
    parts = [f"<h3>The carriers at mark {escaped(case.moments[-1])}</h3>\n"]
    for name, changes in lists:
        title = " ".join(words_of(changes, table.letter)) or "the node's own flags"
        image = image_of(case, [*case.flags, *words_of(changes, table.letter)], program, f"{folder}/{table.letter}-{name}")
        shown = f'<img alt="{name}" src="data:image/svg+xml;base64,{image}">' if image else "(too many blocks to draw)"
        parts.append(f"<figure><figcaption>{name}: {escaped(title)}</figcaption>{shown}</figure>\n")
    return "".join(parts)


def image_of(case, words, program, path):
    """The drawing of tools/picture, or None where it takes too long or is too large."""
    command = [sys.executable, "-B", f"{HERE}/picture", "--trace", case.input, "--svg", f"{path}.svg", "--program", program,
               "--", *words]
    try:
        ran = subprocess.run(command, capture_output=True, timeout=MOST_SECONDS, check=False)
    except subprocess.TimeoutExpired:
        return None
    drawn = read_file(f"{path}.svg") if ran.returncode == 0 else b""
    return base64.b64encode(drawn).decode() if 0 < len(drawn) <= MOST_BYTES else None
