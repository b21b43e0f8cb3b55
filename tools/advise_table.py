"""What tools/advise tells: the replay beside the node, the table of lists, and the advice."""
from dataclasses import dataclass
from statistics import median

from advise_case import TRUSTED
from advise_node import NAMES
from advise_runs import kind_of, words_of
from flags import Settings

BY = ("peak", "valley", "both")
# Lists are equal that differ by less than this many percent; and, where the strategy or the acul differs, which the
# program does not tell apart reliably, by less than that many.
LEAST_APART, STRATEGIES_APART = 1.0, 10.0
# How much of the node's blocks a recording may lack before that is named, in percent.
LACKING = 3.0
# Below so many megabytes there was no load.
LEAST_LOAD = 1
# How much the blocks of a node's two runs may differ before that is named, in percent.
SAME_LOAD = 5.0


def percent_off(run, node):
    return 100 * (run - node) / node if node else 0.0


# ---------------------------------------------------------------------------------------------------------------------
# The replay beside the node
# ---------------------------------------------------------------------------------------------------------------------


@dataclass
class Check:
    """The replay of a recording under the node's own flags, beside the node: for each moment its name, both
    megabytes, and how far the replay is off, in percent."""

    case: object
    result: object
    moments: list

    @property
    def worst(self):
        return max((abs(off) for *_, off in self.moments), default=100.0)

    @property
    def is_trusted(self):
        return self.worst <= TRUSTED


def check_of(case, result):
    rows = [(name, result.megabytes(name), case.node(name)[0]) for name in case.moments]
    return Check(case, result, [(*it, percent_off(it[1], it[2])) for it in rows])


def told_of_check(check):
    """A line on the replay beside the node, and lines on why it is not trusted."""
    parts = []
    for title, (name, run, node, off) in zip(("peak", "valley"), check.moments):
        parts.append(f"{title} (mark {name}) replay {run:.1f} MB, node {node:.1f} ({off:+.1f} %)")
    verdict = "trusted" if check.is_trusted else f"NOT TRUSTED, above {TRUSTED:.0f} percent"
    yield f"{check.case.name}: {'; '.join(parts)}: {verdict}"
    if not check.is_trusted:
        yield from reasons(check)


def reasons(check):
    """Why a replay may be off."""
    case = check.case
    if check.result.failed:
        yield (f"  {check.result.failed} allocations of the replay found no place: a run has 512 MB at most, and each"
               " scheduler its part of them. Record a smaller load.")
    if case.node(case.peak)[1] < LEAST_LOAD:
        yield f"  The load hardly used it: less than {LEAST_LOAD} MB were in blocks while this recorded."
        return
    for name, *_ in check.moments:
        node, run = case.node(name)[1], check.result.at[name]["utilisation_end"] * check.result.megabytes(name) / 100
        if percent_off(run, node) < -LACKING:
            yield (f"  At mark {name} the node has {node:.1f} MB in blocks, and the recording {run:.1f}: {case.before():.1f}"
                   " MB were there before it began. Begin before the load does, as with --start.")
            break
    else:
        yield ("  The blocks are about the same, so their places differ: another recording may do better. Effects of"
               f" flags below {check.worst:.0f} percent can't be told from the error.")
    if case.letter == "H":
        yield "  eheap_alloc is not replayed well (docs/differences.md, 'How far it agreed')."


# ---------------------------------------------------------------------------------------------------------------------
# The table
# ---------------------------------------------------------------------------------------------------------------------


@dataclass(eq=False)
class Line:
    """A list of flags in the table: its trial, and the middle over the recordings of what came of it."""

    trial: object
    name: str
    ran: str
    # Megabytes, and percent against the node's own list, at the peak and at the valley; None where there is no valley.
    megabytes: tuple
    percents: tuple
    # By what it is ranked, for each recording: percent against the node's own list.
    scores: list
    carriers: int
    created: int
    singles: int
    failed: int
    rank: int = 0
    # What a node had under it, if it was tried there: megabytes of carriers, and of blocks at the peak.
    node: tuple = None
    node_blocks: float = None

    @property
    def score(self):
        return median(self.scores)

    @property
    def spread(self):
        return max(self.scores) - min(self.scores)


class Table:
    """The lists of an allocator, the best first, and how sure their order is."""

    def __init__(self, checks, own, trials, by):
        self.checks, self.by = checks, by
        self.cases = [it.case for it in checks]
        self.letter = self.cases[0].letter
        self.is_own = own
        whole = [it for it in trials if it.is_whole]
        lines = [self.line(it) for it in whole]
        lines.sort(key=lambda it: (it.failed > 0, it.score))
        self.lines = lines
        self.own = next(it for it in lines if it.trial is own)
        self.left_out = [it for it in trials if not it.is_whole]
        self.rank_all()

    def line(self, trial):
        sides = [*zip(self.cases, self.is_own.results, trial.results)]
        megabytes, percents = [], []
        for at in range(2):
            pairs = [(own.megabytes(case.moments[at]), result.megabytes(case.moments[at]))
                     for case, own, result in sides if len(case.moments) > at]
            megabytes.append(median(it[1] for it in pairs) if pairs else None)
            percents.append(median(percent_off(it[1], it[0]) for it in pairs) if pairs else None)
        last = [result.at[case.moments[-1]] for case, _, result in sides]
        return Line(
            trial, trial.name(self.letter), last[0]["ran"], tuple(megabytes), tuple(percents),
            [self.score(*it) for it in sides], round(median(it["carriers_end"] for it in last)),
            round(median(it.created for it in trial.results)), round(median(it.singles for it in trial.results)),
            max(it.failed for it in trial.results),
        )

    def score(self, case, own, result):
        """Percent against the node's own list, of what the lists are ranked by."""
        names = {"peak": case.moments[:1], "valley": case.moments[-1:], "both": case.moments}[self.by]
        return percent_off(sum(map(result.megabytes, names)), sum(map(own.megabytes, names)))

    def are_equal(self, one, other):
        """Whether two lists cannot be told apart: by their spread over the recordings; of one recording, by how far the
        replay is off."""
        apart = [mine - its for mine, its in zip(one.scores, other.scores)]
        known = max(apart) - min(apart) if len(apart) > 1 else self.error
        least = STRATEGIES_APART if strategy_of(one) != strategy_of(other) else LEAST_APART
        return abs(median(apart)) <= max(known, least)

    @property
    def error(self):
        return max(it.worst for it in self.checks)

    def rank_all(self):
        """Lists of one rank are equal to its first one, and those that failed come last."""
        left, rank = [it for it in self.lines if not it.failed], 0
        while left:
            rank += 1
            first = left[0]
            for it in left:
                it.rank = rank if self.are_equal(it, first) else 0
            left = [it for it in left if not it.rank]
        for it in self.lines:
            it.rank = it.rank or rank + 1
        self.lines.sort(key=lambda it: it.rank)

    def best(self):
        """The lists that are worth a trial, the one to take first: of the first rank the node's own if it is there, else
        those whose effect is known best, of fewest changes."""
        equal = [it for it in self.lines if it.rank == 1 and not it.failed]
        own = [it for it in equal if it is self.own]
        return own or sorted(equal, key=lambda it: (bool(strategy_of(it)), changes_of(it), it.score))


def strategy_of(line):
    return [it for it in line.trial.changes if it[0] in ("as", "acul")]


def changes_of(line):
    return len({kind_of((it,)) for it in line.trial.changes})


def cells_of(line, table):
    """The cells of a line, by the heads of their columns."""
    made = {"list": line.name, "ran": line.ran}
    for title, megabytes, percent in zip(("peak", "valley"), line.megabytes, line.percents):
        if megabytes is not None:
            made |= {f"{title} MB": f"{megabytes:.1f}", f"{title} %": f"{percent:+.0f}"}
    if len(table.cases) > 1:
        made["spread"] = f"{line.spread:.0f}"
    made |= {"carriers": str(line.carriers), "created": str(line.created), "singles": str(line.singles)}
    if any(it.node for it in table.lines):
        made["node MB"] = "/".join(f"{it:.1f}" for it in line.node) if line.node else "-"
    if any(it.failed for it in table.lines):
        made["failed"] = str(line.failed)
    return {"rank": str(line.rank), **made}


def as_text(table, most=None):
    """The table as lines of text: so many lists, and the node's own one."""
    lines = [it for at, it in enumerate(table.lines) if most is None or at < most or it is table.own]
    cells = [cells_of(it, table) for it in lines]
    heads = [*cells[0]]
    rows = [heads, *([it[head] for head in heads] for it in cells)]
    widths = [max(map(len, it)) for it in zip(*rows)]
    for row in rows:
        yield "  ".join(it.ljust(width) if head in ("list", "ran") else it.rjust(width)
                        for it, width, head in zip(row, widths, heads)).rstrip()


def notes_on(table):
    """Lines below the table."""
    if len(table.cases) > 1:
        how = f"within their spread over {len(table.cases)} recordings"
    else:
        how = f"within {max(table.error, LEAST_APART):.0f} percent, by which the replay is off"
    yield f"Lists of one rank are equal {how}, and {STRATEGIES_APART:.0f} where as or acul differ. By: {table.by}."
    if table.left_out:
        reasons = (it.said for one in table.left_out for it in one.results if it and it.said)
        said = next(reasons, "the time was over, or it was interrupted")
        yield f"{len(table.left_out)} lists did not run on all recordings: {said}."


# ---------------------------------------------------------------------------------------------------------------------
# The advice
# ---------------------------------------------------------------------------------------------------------------------


def saved(line, table):
    """What a list has in place of the node's own one."""
    parts = []
    for title, mine, own, percent in zip(("peak", "valley"), line.megabytes, table.own.megabytes, line.percents):
        if mine is not None:
            parts.append(f"{mine:.1f} in place of {own:.1f} MB at the {title} ({percent:+.0f} %)")
    return " and ".join(parts)


def advice_on(table):
    """Two sentences: the flags and what they save; and how sure that is."""
    best = table.best()
    name, off = NAMES[table.letter], f"the replay came to {table.error:.0f} percent of the node"
    if len(table.lines) == 1:
        yield f"{name}: no other list was run to its end, so there is no advice."
    elif not best:
        yield f"{name}: no list ran without failed allocations, so there is no advice."
    elif best[0] is table.own:
        yield f"{name}: keep the node's own flags."
        yield f"No list tried is better by more than this can tell: {off}."
    else:
        it = best[0]
        yield (f"{name}: try {it.name}, which has {saved(it, table)}, with {it.created} carriers created"
               f" in place of {table.own.created} and at most {it.singles} singleblock ones in place of"
               f" {table.own.singles}.")
        yield f"How sure: {off}; {how_sure(it, table)}."


def how_sure(line, table):
    """What is known of such predictions."""
    if line.node:
        off = max(abs(percent_off(*it)) for it in zip(line.megabytes, line.node) if it[0] is not None)
        other = percent_off(line.node_blocks, table.own.node_blocks)
        had = f"a test node under this list had {'/'.join(f'{it:.1f}' for it in line.node)} MB, {off:.0f} percent off"
        return f"{had}, with {other:+.0f} percent in blocks at the peak" if abs(other) > SAME_LOAD else had
    if strategy_of(line):
        return "differences of as and acul are not predicted reliably, so try it on a node (--verify)"
    return "on nodes the savings of sbct and lmbcs were as predicted, single figures up to 30 percent off"


def limits_of(table):
    """What the advice does not claim, in lines."""
    yield "The load is the recorded one: another load may want other flags."
    yield "A predicted figure was 6 percent off in the mean, and 30 at most (docs/differences.md, 'How far it agreed')."
    yield "Savings of sbct and lmbcs were as predicted. Lists that differ in as or acul alone were not told apart reliably."
    if any(it.has_super_carrier for it in table.cases):
        yield "The node has a super carrier: its memory (RSS) stays at the peak whatever the flags, so rank by the peak."
    if table.letter == "H":
        yield "eheap_alloc was 21 percent off in the mean."
    yield "Figures are of the schedulers' instances, without that of all other threads."


def to_paste(tables):
    """The flags of all allocators together."""
    best = [(it, it.best()) for it in tables]
    return " ".join(word for table, lists in best if lists and lists[0] is not table.own
                    for word in words_of(lists[0].trial.changes, table.letter))


def own_values(table):
    """The main settings of the node's own list."""
    return Settings.of(table.cases[0].flags, table.letter).told()
