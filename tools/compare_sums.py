"""What tools/compare works out of the rows of runs: peaks and valleys, sums over allocators, percent."""
import itertools

from columns import OF_ALL
from rows import megabytes
from table import number_of
from texts import WHOLE

PEAK, VALLEY = "peak", "valley"
AT_ONE_MOMENT = (
    "mb_end", "mb_single", "carriers_end", "units_end", "blocks_end", "blocks_single", "queued", "created", "failed",
    "failed_space", "failed_numbers", "moved", "abandoned", "fetched", "returned", "stopped", "undone", "seconds",
)
# The inputs need not have had these at the same moment.
AT_SOME_MOMENT = ("mb_most", "mb_peak", "mb_valley", "carriers_most", "units_most")
AT_MOST = "<="
PERCENT_OF = {f"percent_{it}": f"mb_{it}" for it in ("most", "end", PEAK, VALLEY)}


def has_peaks(names):
    """Whether marks of these names tell of peaks or valleys."""
    return any(it and it.startswith((PEAK, VALLEY)) for it in names)


def key_of(row, names):
    return tuple(row.get(it) for it in names)


def grouped(rows, *names):
    """The rows that have the same in these columns, in the order of the first ones."""
    groups = {}
    for it in rows:
        groups.setdefault(key_of(it, names), []).append(it)
    return [*groups.values()]


# Marks


def at_marks(rows, name):
    """The most megabytes at the marks that begin so."""
    found = [it.get("mb_end") for it in rows if it["mark"].startswith(name)]
    return None if not found or None in found else max(found, key=number_of)


def folded(rows):
    """One row for each run in place of one for each of its marks: the whole, with the memory at peaks and valleys."""
    for group in grouped(rows, "list", "trace", "type"):
        marked = [it for it in group if it.get("mark") not in (None, WHOLE)]
        for it in group:
            if it.get("mark") is None:
                yield it
            elif it["mark"] == WHOLE:
                yield {**it, "mark": None, "mb_peak": at_marks(marked, PEAK), "mb_valley": at_marks(marked, VALLEY)}


# Sums


def added(values):
    """The sum; a bound if one is, and None if one is not known or they are bounds of both kinds."""
    signs = {it[:2] for it in values if isinstance(it, str)}
    if None in values or len(signs) > 1:
        return None
    total = round(sum(map(number_of, values)), 3)
    total = total if any("." in str(it) for it in values) else int(total)
    return f"{signs.pop()}{total}" if signs else total


def added_at_most(values):
    """The sum of what need not have been at the same moment."""
    found = added(values)
    is_exact = found is None or isinstance(found, str) or sum(it != 0 for it in values) <= 1
    return found if is_exact else f"{AT_MOST}{found}"


def same(rows, column):
    """What all have there."""
    found = {it.get(column) for it in rows}
    return found.pop() if len(found) == 1 else None


def sum_of(rows):
    """The row of all allocators together."""
    made = {name: same(rows, name) for name in ("list", "flags", "ran", "rules", "mark", "status")}
    made |= {"trace": OF_ALL, "type": "+".join(it.get("type") or "?" for it in rows)}
    for names, add in ((AT_ONE_MOMENT, added), (AT_SOME_MOMENT, added_at_most)):
        made |= {it: add([row.get(it) for row in rows]) for it in names}
    for name in ("end", "most"):
        if made[f"units_{name}"] is not None:
            made[f"mb_{name}"] = megabytes(made[f"units_{name}"])
    return made


def with_sums(rows):
    """The rows, and before those of a list the sum of all its inputs, or at each mark that all of them have. Where one
    was refused or failed there is none."""
    for group in grouped(rows, "list"):
        parts = grouped(group, "mark")
        count = len(grouped(group, "trace", "type"))
        yield from (sum_of(it) for it in parts if len(it) == count > 1 and same(it, "status") == 0)
        yield from group


def is_of_one_node(rows):
    """Whether these are of several allocators of one node: types of one input, or recorded inputs, each of another."""
    rows = [it for it in rows if it.get("status") == 0]
    parts = {(it.get("trace"), it.get("type"), it.get("rules") is not None) for it in rows}
    traces, letters, recorded = ({*it} for it in itertools.zip_longest(*parts)) if parts else [()] * 3
    return len(parts) == len(letters) > 1 and (len(traces) == 1 or recorded == {True})


def is_sum(row):
    return row.get("trace") == OF_ALL


# Percent


def percent_of(value, first):
    """None where one of them is a bound or not known."""
    is_known = all(isinstance(it, (int, float)) for it in (value, first)) and first
    return round(100 * value / first) if is_known else None


class Percents:
    """Percent of what the first list has, for rows as they come: those of the first list first."""

    def __init__(self):
        self.first, self.bases = None, {}

    def of(self, row):
        key = key_of(row, ("trace", "type", "mark"))
        self.first = self.first or {"list": row.get("list")}
        if row.get("list") == self.first["list"]:
            self.bases.setdefault(key, row)
        base = self.bases.get(key, {})
        return {**row, **{it: percent_of(row.get(mb), base.get(mb)) for it, mb in PERCENT_OF.items()}}
