"""The carriers of a node and those of a run side by side, or their histograms, for tools/load."""
import re
from dataclasses import dataclass

from node_file import read_lines
from program import OF_RECORDED, command_of, rules_of
from recording import read_recording
from refused import demand
from texts import carrier_in

UNIT = 8
PAGE = 4096
# The intervals of histograms: the first one ends below 2**4 units, and each next one is twice as long.
INTERVALS = 18
FIRST_BORDER_BITS = 4
SUMS_LINE = re.compile(r"all blocks((?: [0-9]{1,12}){18}) gaps((?: [0-9]{1,12}){18})")


@dataclass
class Filled:
    """What is compared of a carrier, of a node's or of a run's: bytes, and those of its largest gap at most."""

    size: int
    allocated: int
    pooled: bool
    largest: int


def filled_of_node(node):
    largest = [max((gap.high for gap in it.gaps if gap.count), default=0) for it in node.carriers]
    return [Filled(it.size, it.allocated, it.standing == "pooled", gap) for it, gap in zip(node.carriers, largest)]


def part_of(path, lines, letter, types):
    """What the lines of a run's text have of a type, with their numbers: all of it where they are of one."""
    numbered = [*enumerate(lines, 1)]
    heads = [at for at, line in numbered if line.startswith("type ")]
    demand(heads or types == 1, f"{path}: it is of one type, and there are {types} files")
    if not heads:
        return numbered
    first = next((it for it in heads if lines[it - 1] == f"type {letter}"), None)
    demand(first, f"{path}: it has no type {letter}")
    return numbered[first : next((it - 1 for it in heads if it > first), None)]


def filled_of_run(path, letter, types):
    """The carriers of a type that are there at the end of a run's text, where so many files are told beside it."""
    return [it for it, _ in carriers_of_run(path, letter, types)]


def kinds_of_run(path, letter):
    """The same, each with its kind: multi, pooled or single."""
    return [(it, "pooled" if it.pooled else kind) for it, kind in carriers_of_run(path, letter, 1)]


def carriers_of_run(path, letter, types):
    """The carriers, each with whether it is multi or single; a main one is multi."""
    lines = read_lines(path)
    demand(any(it.startswith("total carriers ") for it in lines), f"{path}: it has no `total` line, so no run's text")
    demand(not lines[0].startswith("generated "), f"{path}: of a generated trace the text has no carriers")
    found = []
    for at, line in part_of(path, lines, letter, types):
        if line.startswith("carrier "):
            it = carrier_in(line)
            demand(it, f"{path}: line {at}: it is no line of a carrier")
            is_pooled = it.standing in ("pooled", "busy")
            filled = Filled(it.pages * PAGE, it.allocated * UNIT, is_pooled, it.largest * UNIT)
            found.append((filled, "single" if it.kind == "single" else "multi"))
    return found


def sums_of_run(path):
    """How many blocks and how many gaps lie in each interval, where a run's text has histograms."""
    lines = [it for it in read_lines(path) if it]
    match = SUMS_LINE.fullmatch(lines[-1]) if lines else None
    return match and [[int(it) for it in counts.split()] for counts in match.groups()]


def interval_of(count):
    """The interval of a size of so many bytes, from 0."""
    return min(max((count // UNIT).bit_length() - FIRST_BORDER_BITS, 0), INTERVALS - 1)


def sums_of_slots(slots):
    """How many blocks or gaps lie in each interval, and last how many may lie in more than one."""
    counts = [0] * (INTERVALS + 1)
    for slot in slots:
        low, high = interval_of(slot.low), interval_of(slot.high)
        counts[low if low == high else INTERVALS] += slot.count
    return counts


def interval_name(at):
    if at == 0:
        return f"below {UNIT * 2**FIRST_BORDER_BITS} bytes"
    low = UNIT * 2 ** (at + FIRST_BORDER_BITS - 1)
    if at == INTERVALS - 1:
        return f"{low} bytes and more"
    return f"{low} to {2 * low - UNIT} bytes"


def rows_by_interval(node, run):
    """The rows of the table of histograms: those intervals in which somebody has a block or a gap."""
    told = [sums_of_slots(node.slots), sums_of_slots([gap for it in node.carriers for gap in it.gaps])]
    for title, theirs, ours in zip(("blocks by their size", "gaps by their size"), told, run):
        yield title, []
        for at in range(INTERVALS):
            if theirs[at] or ours[at]:
                yield f"  {interval_name(at)}", [theirs[at], ours[at]]
        if theirs[INTERVALS]:
            yield "  told across a border", [theirs[INTERVALS], "-"]


def up_to(count):
    """A power of two of bytes, in words."""
    return f"up to {count // 1024} kB" if count >= 1024 else f"up to {count} bytes"


def by_size(carrier):
    power = max(carrier.size - 1, 0).bit_length()
    return power, up_to(2**power)


def by_percent(carrier):
    tenth = min(10 * carrier.allocated // max(carrier.size, 1), 9)
    return tenth, f"{10 * tenth} to {10 * tenth + 9 + tenth // 9}"


def by_gap(carrier):
    power = carrier.largest.bit_length()
    return power, f"below {2**power}" if power else "no gap"


def rows_beside(sides):
    """The rows of the table: what each says, and its figure for each side."""
    yield "carriers", [len(it) for it in sides]
    yield "  of them in the pool", [sum(one.pooled for one in it) for it in sides]
    sizes, allocated = ([sum(getattr(one, what) for one in it) for it in sides] for what in ("size", "allocated"))
    yield "bytes of carriers", sizes
    yield "bytes in blocks", allocated
    yield "percent in blocks", [f"{100 * part / whole:.1f}" if whole else "-" for part, whole in zip(allocated, sizes)]
    for title, kind in (
        ("carriers by their size", by_size),
        ("carriers by percent in blocks", by_percent),
        ("carriers by bytes of their largest gap", by_gap),
    ):
        yield title, []
        for key in sorted({kind(one) for it in sides for one in it}):
            yield f"  {key[1]}", [sum(kind(one) == key for one in it) for it in sides]


def table_of(name, rows):
    for name, figures in [(name, ["node", "run"]), *rows]:
        yield (f"{name:40}" + "".join(f"{it:>14}" for it in figures)).rstrip()


def tables_of(path, nodes):
    """A table for each node beside the text of a run; of several the type stands above it."""
    sums = sums_of_run(path)
    demand(not sums or len(nodes) == 1, f"{path}: histograms are of one type, and there are {len(nodes)} files")
    for node in nodes:
        name = f"type {node.letter}" if len(nodes) > 1 else ""
        if sums:
            yield from table_of(name, rows_by_interval(node, sums))
        else:
            sides = [filled_of_node(node), filled_of_run(path, node.letter, len(nodes))]
            yield from table_of(name, rows_beside(sides))
    yield from told_of_failed(path)


def told_of_failed(path):
    """What has to be said below a table where allocations of the run failed."""
    reasons = [it.rsplit(" ", 1)[1] for it in read_lines(path) if re.match(r"(alloc|realloc [0-9]+) [0-9]+ fail ", it)]
    if reasons:
        space, numbers = reasons.count("space"), reasons.count("numbers")
        yield f"FAILED: {len(reasons)} allocations of the run found no place, so it holds less than the load."
        if space:
            yield f"{space} for want of pages: run it with a larger +MMscs."
        if numbers:
            yield f"{numbers} for want of numbers: 1024 carriers an instance at most; a larger +M<S>sbct needs fewer."


# A mark of a recording


def rows_of_mark(mark, letter, lines):
    """The rows of the table of a mark: figures of the node's schedulers, and those of a run."""
    node = [it for it in mark.instances.get(letter, []) if it.number]
    kinds = [("multi", "multi_bytes"), ("pooled", "pooled_bytes"), ("single", "single_bytes")]
    run = {kind: [it for it in lines if it[1] == kind] for kind, _ in kinds}
    yield f"at mark {mark.name}", ["node", "run"]
    yield "carriers", [sum(it.carriers for it in node), len(lines)]
    for kind, _ in kinds:
        yield f"  {kind}", [sum(getattr(it, kind) for it in node), len(run[kind])]
    yield "bytes of carriers", [sum(it.carrier_bytes for it in node), sum(it[0].size for it in lines)]
    for kind, name in kinds:
        yield f"  {kind}", [sum(getattr(it, name) for it in node), sum(it[0].size for it in run[kind])]
    node_bytes, run_bytes = sum(it.block_bytes for it in node), sum(it[0].allocated for it in lines)
    yield "bytes in blocks", [node_bytes, run_bytes]
    sizes = [sum(it.carrier_bytes for it in node), sum(it[0].size for it in lines)]
    yield "percent in blocks", [
        f"{100 * part / whole:.1f}" if whole else "-" for part, whole in zip([node_bytes, run_bytes], sizes)
    ]


def table_of_mark(options):
    """The figures of the node at a mark beside those that a run of the input up to it ended with."""
    found = read_recording(options.recorded)
    letter, mark = found.letter(options.type), found.mark(options.until)
    demand(mark.instances.get(letter), f"{found.path}: mark {mark.name} has no figures of {letter}: the node had ended")
    for name, figures in rows_of_mark(mark, letter, kinds_of_run(options.beside, letter)):
        yield (f"{name:40}" + "".join(f"{it:>14}" for it in figures)).rstrip()
    if options.input:
        yield told_of_rules(options.input)
    yield from told_of_failed(options.beside)


def told_of_rules(path):
    """By which rules the run of an input was."""
    lines = [it.encode() for it in read_lines(path)]
    demand(command_of(lines) == [OF_RECORDED], f"{path}: it is no input of recorded operations")
    rules = rules_of(lines)
    return f"The run was by {f'the rules {rules}' if rules else 'no rules'} of a node."
