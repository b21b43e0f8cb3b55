"""The table of tools/compare: as a whole at the end, or row by row, and what a terminal shows meanwhile."""
import sys

from columns import COLUMNS
from compare_notes import notes
from compare_sums import Percents, folded, grouped, has_peaks, is_of_one_node, with_sums
from table import FORMS, by_column, cell, columns_of_text, first_list_first, memories, with_short_names


def worked_out(rows, options, is_summed):
    """The rows with the sums of inputs, and with one row for each run in place of one for each mark."""
    rows = [*with_sums(rows)] if is_summed else rows
    return [*folded(rows)] if not options.marks and has_peaks(it.get("mark") for it in rows) else rows


class Table:
    """A table that is written at the end, in its order."""

    def __init__(self, options, output):
        self.options, self.output = options, output
        # Why what was written before the end could not be.
        self.fault = None

    def take(self, found):
        """Gets the rows of all runs that have ended, None for the others, after each of them."""

    def end(self, rows, remarks):
        self.output.write(self.text(rows, remarks) if self.options.form == "text" else self.cells(rows))

    def sorted(self, rows):
        options = self.options
        return by_column(rows, options.by, options.reverse) if options.by else rows

    def text(self, rows, remarks):
        """The table, and below it what has to be said of it."""
        options = self.options
        made = worked_out(rows, options, options.is_summed or is_of_one_node(rows))
        made = self.sorted([*map(Percents().of, made)])
        if not options.by and not any(it.get("mark") for it in made):
            made = [*first_list_first(grouped(made, "trace", "type"))]
        columns = options.columns or columns_of_text(made, options.is_wide)
        short, shared = with_short_names(made)
        named = with_short_names(rows)[0] if "list" in columns else rows
        said = [*notes(named, shared if "list" in columns else ""), *(f"{it.capitalize()}." for it in remarks)]
        return "".join([*FORMS["text"](short, columns), *(["\n"] if said else []), *(f"{it}\n" for it in said)])

    def cells(self, rows):
        """The table as CSV or JSON."""
        options = self.options
        made = self.sorted([*map(Percents().of, worked_out(rows, options, options.is_summed))])
        return "".join(FORMS[options.form](made, options.columns or [*COLUMNS]))


class Streamed(Table):
    """CSV on standard output: the lines of a run, or with sums of a list, are written once those before them are."""

    def __init__(self, options, output):
        super().__init__(options, output)
        self.size = len(options.traces) if options.is_summed else 1
        self.percents, self.at, self.written = Percents(), 0, 0

    def take(self, found):
        while self.at < len(found) and all(found[self.at : self.at + self.size]) and not self.fault:
            rows = [row for part in found[self.at : self.at + self.size] for row in part]
            try:
                self.write(rows)
            except OSError as error:
                self.fault = error
            self.at += self.size

    def write(self, rows):
        made = map(self.percents.of, worked_out(rows, self.options, self.options.is_summed))
        text = "".join(FORMS["csv"](made, self.options.columns or [*COLUMNS]))
        self.output.write(text.partition("\n")[2] if self.written else text)
        self.written += len(rows)

    def end(self, rows, remarks):
        """Writes the rest: those written before are the first ones."""
        if self.fault:
            raise self.fault
        self.write(rows[self.written :])


def table_for(options, output):
    is_streamed = options.form == "csv" and not (options.by or options.output or options.found)
    return (Streamed if is_streamed else Table)(options, output)


class Progress:
    """On a terminal what came of each run as it ends, and how many there are."""

    def __init__(self, count, names_inputs):
        self.done, self.count, self.names_inputs = 0, count, names_inputs
        self.is_shown = bool(sys.stderr) and sys.stderr.isatty()

    def __enter__(self):
        self.write(f"compare: {self.done} of {self.count} runs")

    def __exit__(self, *_):
        self.write("")

    def write(self, words):
        if self.is_shown:
            try:
                print(f"\r\033[K{words}", end="", file=sys.stderr, flush=True)
            except OSError:
                self.is_shown = False

    def show(self, task, rows):
        flags, file = task
        self.done += 1
        rows = [*folded(rows)]
        name = f"{flags.name}, {file}" if self.names_inputs else flags.name
        figures = [f"{it.get('type')} {told_of_memory(it)}" if len(rows) > 1 else told_of_memory(it) for it in rows]
        self.write(f"{name}: {'; '.join(figures)}\ncompare: {self.done} of {self.count} runs")


def told_of_memory(row):
    """The main figures of a row."""
    if row.get("status") != 0:
        return row.get("said") or f"status {row.get('status')}"
    figures = {it: cell(row, f"mb_{it}", "-") for it in memories([row]) if it}
    return ", ".join([*(f"{name} {mb} MB" for name, mb in figures.items()), f"{row.get('carriers_end')} carriers"])
