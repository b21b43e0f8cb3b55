"""Many runs of tools/compare over several machines: a command for each, and the results that these write."""
import json
import os
import re
import shlex
import sys

from columns import COLUMNS, OF_WORDS, WITHOUT_BOUNDS
from compare_runs import wants_marks
from files import reason_of
from refused import Refused

BOUND = re.compile(r"[<>]=[0-9]+(\.[0-9]+)?")


def commands(program, tasks, options):
    """A line of shell for each run, which makes the folder of results and writes one."""
    digits, folder = len(str(len(tasks))), options.folder
    more = ["--seconds", str(options.seconds)] if options.seconds else []
    for number, (flags, file) in enumerate(tasks, 1):
        result = os.path.join(folder, f"{number:0{digits}}.json")
        words = [sys.argv[0], "--program", program, "--jobs", "1", "--reading", options.reading, *more, *flags.given]
        words += ["--marks"] if wants_marks(file, options) else []
        words += ["--as", "json", "--output", result, "--", file]
        yield f"mkdir -p {shlex.quote(folder)} && {shlex.join(words)}"


def is_cell(column, value):
    """Whether a value may stand in a column."""
    if column in OF_WORDS or value is None:
        return value is None or isinstance(value, str)
    is_number = isinstance(value, (int, float)) and not isinstance(value, bool)
    return is_number or column not in WITHOUT_BOUNDS and bool(BOUND.fullmatch(str(value)))


def is_row(row):
    return isinstance(row, dict) and all(it in COLUMNS and is_cell(it, value) for it, value in row.items())


def read_results(file):
    """The rows of a table that this tool wrote as JSON."""
    try:
        with open(file, encoding="utf-8") as source:
            rows = json.load(source)
    except OSError as error:
        raise Refused(f"{file}: {reason_of(error)}") from error
    except json.JSONDecodeError as error:
        raise Refused(f"{file}: line {error.lineno}: no JSON: {error.msg}") from error
    except ValueError as error:
        raise Refused(f"{file}: no JSON: {error}") from error
    if not isinstance(rows, list) or not all(map(is_row, rows)):
        raise Refused(f"{file}: no table of this tool's")
    return rows
