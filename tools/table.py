"""Tables and where they go, for tools/compare."""
import contextlib
import csv
import errno
import io
import json
import os
import sys
import tempfile

from columns import COLUMNS, DECIMALS, FEW, FEW_COUNTS, HIDDEN, IF_ANY, IF_KNOWN, IF_SEVERAL, OF_ALL, OF_WORDS
from files import reason_of, write_file
from program import NO_RULES
from refused import Refused


# The columns of a text


def is_known(rows, column):
    return any(it.get(column) is not None for it in rows)


def memories(rows):
    """The most memory and what is left of it, as two columns: at the marks of peaks and valleys where there are some, or
    of the whole run. The first one is None where it is not known of each run that ended well."""
    is_most = all(it.get("mb_most") is not None for it in rows if it.get("status") == 0)
    first = "peak" if is_known(rows, "mb_peak") else "most" if is_most else None
    return first, "valley" if is_known(rows, "mb_valley") else "end"


def rules_in(rows):
    """By which rules the runs were that ended well."""
    return {it.get("rules") or NO_RULES for it in rows if it.get("status") == 0}


def columns_of_text(rows, is_wide):
    """Those of a text without --columns."""
    is_shown = {it: any(row.get(it) for row in rows) for it in IF_ANY}
    is_shown |= {it: is_known(rows, it) for it in IF_KNOWN}
    is_shown |= {it: len({row.get(it) for row in rows} - {None, OF_ALL}) > 1 for it in IF_SEVERAL}
    is_shown["rules"] = len(rules_in(rows)) > 1
    names = [it for it in COLUMNS if it not in HIDDEN]
    if not is_wide:
        of_memory = [f"{what}_{it}" for it in memories(rows) if it for what in ("mb", "percent")]
        names = [*FEW, *of_memory, *FEW_COUNTS]
    return [it for it in names if is_shown.get(it, True)]


# Orders


def number_of(value):
    """A value by which rows are sorted; of a bound its number."""
    return float(value[2:]) if isinstance(value, str) else value


def by_column(rows, column, is_reversed):
    """The rows by a column, those without a value last."""
    known = [it for it in rows if it.get(column) is not None]
    known.sort(key=lambda it: it[column] if column in OF_WORDS else number_of(it[column]), reverse=is_reversed)
    return known + [it for it in rows if it.get(column) is None]


def by_memory(rows):
    """The rows by the most memory, or by what is left where the most of one is not known or is the same; those whose
    allocations failed last, since what found no place needs no memory."""
    most, left = memories(rows)
    rows = by_column(rows, f"mb_{left}", False)
    if most and all(it.get(f"mb_{most}") is not None for it in rows if it.get("status") == 0):
        rows = by_column(rows, f"mb_{most}", False)
    return [it for it in rows if not it.get("failed")] + [it for it in rows if it.get("failed")]


def first_list_first(groups):
    """The rows of each group, which has those of one input: of the first list, and then the others by their memory."""
    first = next((it.get("list") for group in groups for it in group), None)
    for group in groups:
        yield from (it for it in group if it.get("list") == first)
        yield from by_memory([it for it in group if it.get("list") != first])


# The names of lists


def parts_of(name):
    """The words of a list's name, a flag and its value as one."""
    words, parts = name.split(), []
    for word in words:
        if parts and parts[-1].startswith("+") and " " not in parts[-1] and not word.startswith("+"):
            parts[-1] += f" {word}"
        else:
            parts.append(word)
    return parts


def shared_parts(rows):
    """What the names of all lists have, where there are several."""
    names = [*dict.fromkeys(it.get("list") or "" for it in rows)]
    parts = [parts_of(it) for it in names]
    return [it for it in parts[0] if all(it in other for other in parts)] if len(names) > 1 else []


def with_short_names(rows):
    """The rows with what differs between their lists alone, and what all of these share."""
    shared = shared_parts(rows)
    short = {it: " ".join(part for part in parts_of(it) if part not in shared) for it in (row["list"] for row in rows)}
    alone = "(these alone)" if len(shared) > 1 else " ".join(shared)
    return [{**it, "list": short[it["list"]] or alone} for it in rows], " ".join(shared)


def cell(row, column, unknown):
    value = row.get(column)
    if value is None:
        return unknown
    return f"{value:.{DECIMALS[column]}f}" if column in DECIMALS and not isinstance(value, str) else str(value)


def as_text(rows, columns):
    """Columns of one width, their heads in two lines if one has two words."""
    heads = [it for it in zip(*(it.partition("_")[::2] for it in columns)) if any(it)]
    lines = [*heads, *([cell(row, it, "-") for it in columns] for row in rows)]
    widths = [max(map(len, it)) for it in zip(*lines)]
    is_left = [it in OF_WORDS for it in columns]
    for line in lines:
        cells = (it.ljust(width) if left else it.rjust(width) for it, width, left in zip(line, widths, is_left))
        yield "  ".join(cells).rstrip() + "\n"


def as_csv(rows, columns):
    made = io.StringIO()
    writer = csv.writer(made, lineterminator="\n")
    writer.writerow(columns)
    writer.writerows([cell(row, it, "") for it in columns] for row in rows)
    yield made.getvalue()


def as_json(rows, columns):
    lines = (json.dumps({it: row.get(it) for it in columns}) for row in rows)
    yield "[\n" + ",\n".join(lines) + "\n]\n"


FORMS = {"text": as_text, "csv": as_csv, "json": as_json}


class Output:
    """Standard output, or a file, which is replaced as a whole once its new content is there."""

    def __init__(self, path):
        self.path = path
        self.made = None
        if path and os.path.isdir(path):
            raise Refused(f"{path}: {os.strerror(errno.EISDIR)}")
        if path and (not os.path.exists(path) or os.path.isfile(path)):
            folder = os.path.dirname(os.path.realpath(path))
            self.made = tempfile.NamedTemporaryFile("wb", prefix=".compare-", dir=folder, delete=False)

    def write(self, text):
        """Where the file cannot be written, what was to stand there goes to standard output."""
        data = text.encode(errors="surrogateescape")
        try:
            if self.path:
                self.write_file(data)
        except OSError as error:
            write_all(data)
            raise Refused(f"{self.path}: {reason_of(error)}: it is on standard output") from error
        if not self.path:
            write_all(data)

    def write_file(self, data):
        if self.made is None:
            with open(self.path, "wb") as it:
                it.write(data)
            return
        with self.made as it:
            it.write(data)
        mask = os.umask(0)
        os.umask(mask)
        os.chmod(self.made.name, 0o666 & ~mask)
        os.replace(self.made.name, os.path.realpath(self.path))

    def drop(self):
        if self.made is not None and os.path.exists(self.made.name):
            os.unlink(self.made.name)


def write_all(data):
    """Writes to standard output, past what Python keeps back and would try again at its end."""
    if not sys.stdout:
        raise OSError(errno.EBADF, os.strerror(errno.EBADF))
    while data:
        data = data[os.write(sys.stdout.fileno(), data) :]


def saved(rows):
    """Writes rows to a file, which --from reads, and returns its path; None where that cannot be, either."""
    text = "".join(as_json(rows, [*COLUMNS])).encode()
    for folder in (os.curdir, tempfile.gettempdir()):
        path = os.path.join(folder, f"compare-{os.getpid()}.json")
        with contextlib.suppress(Refused):
            write_file(path, text)
            return path
    return None
