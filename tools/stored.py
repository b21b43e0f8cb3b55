"""The runs of the program whose texts are stored in the repository, for tools/renew."""
import os
import random
import re
import shlex
import subprocess
import sys
from dataclasses import dataclass

from files import read_file, write_file
from program import OF_REGION, TOP, told_of
from refused import demand

EXAMPLES = "examples"
SAID = b"erts_alloc_run: "
PROGRAM = "crates/erts_alloc_run"
CASES = "crates/ea_trials_cases"
# As often as examples/check does it where each run may give another text.
RUNS_OF_THREADS = 20
# How many steps a scheduler may take in a row where the order of threads is chosen here.
TURNS = (1, 1, 2, 3, 4, 5, 6, 2000)
MOST_TURNS = 24


def read_bytes(path):
    return read_file(f"{TOP}/{path}")


def output_of(words, data, **how):
    """The status of a run with this input, its text and what it said. A folder stands where there is no input: it can't
    be read."""
    source = None if data is not None else os.open(TOP, os.O_RDONLY)
    try:
        given = {"input": data} if source is None else {"stdin": source}
        ran = subprocess.run(words, stdout=subprocess.PIPE, stderr=subprocess.PIPE, check=False, **given, **how)
    finally:
        if source is not None:
            os.close(source)
    return ran.returncode, ran.stdout, ran.stderr


def line_in(said):
    """The program's line, without what ./run adds."""
    return b"".join(it for it in said.splitlines(keepends=True) if it.startswith(SAID))


def text_of(words, data, due=0, **how):
    """The text of a run that has to end with this status; where that isn't 0, it is an error line."""
    status, text, said = output_of(words, data, **how)
    demand(status == due, f"status {status}: {told_of(said)}")
    return line_in(said) + text


class Texts:
    """The stored texts: each file as its parts."""

    def __init__(self):
        self.parts = {}

    def add(self, path):
        """Takes a whole file, which is empty if it isn't there, and returns its place."""
        return self.add_parts(path, [read_bytes(path) if os.path.exists(f"{TOP}/{path}") else b""])[0]

    def add_parts(self, path, parts):
        """Takes the parts of a file, and returns their places."""
        self.parts[path] = parts
        return [(path, at) for at in range(len(parts))]

    def of(self, place):
        path, at = place
        return self.parts[path][at]

    def write(self, renewed):
        """Writes each file of which a part is renewed."""
        for path in sorted({path for path, _ in renewed}):
            parts = (renewed.get((path, at), part) for at, part in enumerate(self.parts[path]))
            write_file(f"{TOP}/{path}", b"".join(parts))


@dataclass
class Stored:
    """A run with a stored text, or with several of which each run gives one. Its name says where they stand; its status
    is the one that it has to end with."""

    name: str
    places: list
    words: list
    input: bytes
    status: int = 0

    def text(self, program):
        return text_of([program, *self.words], self.input, self.status)

    def texts(self, program):
        """What it gives, as often as it has to be run."""
        yield self.text(program)

    def more_texts(self, program):
        """What it may also give, again and again."""
        return iter(())


class Threaded(Stored):
    """A run of threads: each may give another text."""

    def texts(self, program):
        return (self.text(program) for _ in range(RUNS_OF_THREADS))

    def more_texts(self, program):
        """Of a trace the texts of schedules by random turns, since some hardly ever come about by threads."""
        front, threads, _ = self.input.partition(b"\nthreads\n")
        count, pick = front.count(b"\nscheduler "), random.Random(1)
        while threads:
            turns = (f"{pick.randint(1, count)}*{pick.choice(TURNS)}" for _ in range(MOST_TURNS))
            yield text_of([program, *self.words], front + f"\nschedule\n{' '.join(turns)}\nend\n".encode())
        while True:
            yield self.text(program)


class Case(Stored):
    """A run whose text has the name of the case, the status and the error line, too."""

    def text(self, program):
        status, text, said = output_of([program, *self.words], self.input)
        error = line_in(said).replace(SAID, b"error " + SAID)
        return f"{self.name}\nstatus {status}\n".encode() + error + text + b"\n"


class Table(Stored):
    """A run of a tool in the folder of the examples."""

    def text(self, program):
        words = [sys.executable, "-B", *self.words, "--program", program]
        return text_of(words, self.input, cwd=f"{TOP}/{EXAMPLES}")


def words_of(path):
    """The words of a file, one a line."""
    return read_bytes(path).splitlines()


def examples(texts):
    files = [f"{EXAMPLES}/{it}" for it in sorted(os.listdir(f"{TOP}/{EXAMPLES}"))]
    for file in files:
        name, ending = os.path.splitext(file)
        if ending == ".flags":
            data = read_bytes(f"{name.partition('.')[0]}.trace")
            status = int(read_bytes(f"{name}.status")) if f"{name}.status" in files else 0
            wanted = [it for it in files if re.fullmatch(rf"{re.escape(name)}\.out[0-9]*", it)]
            places = [texts.add(it) for it in ([f"{name}.err"] if status else wanted)]
            kind = Threaded if {b"threads", OF_REGION.encode()} & {*data.split(b"\n")} else Stored
            yield kind(name, places, words_of(file), data, status)
        elif ending == ".command":
            words = shlex.split(read_bytes(file).decode().replace("\\\n", ""))
            yield Table(name, [texts.add(f"{name}.table")], words, b"")


def read_cases(data):
    """The name of each case, its words, and its input where it has one."""
    name, words, made, has_input = "", [], b"", False
    for line in data.split(b"\n"):
        word, _, rest = line.partition(b" ")
        if word == b"case":
            name, words, has_input = line.decode(), [], False
        elif word == b"words":
            words = [b"" if it == b"''" else it for it in rest.split()]
        elif line in (b"input", b"same input"):
            made, has_input = made if word == b"same" else b"", True
        elif word in (b">", b"+"):
            made += rest + (b"\n" if word == b">" else b"")
        elif word == b"byte":
            made += bytes([int(rest)])
        elif line == b"run":
            yield name, words, made if has_input else None


def cases(texts):
    """Pieces of reads and writes are no matter here."""
    parts = re.split(rb"^(?=case )", read_bytes(f"{CASES}/stdout"), flags=re.MULTILINE)
    places = texts.add_parts(f"{CASES}/stdout", parts)
    found = {part.partition(b"\n")[0].decode(): [place] for part, place in zip(parts, places) if part}
    for name, words, data in read_cases(read_bytes(f"{CASES}/stdin")):
        yield Case(name, found.pop(name, []), words, data)
    demand(not found, f"{CASES}/stdin: it has no {next(iter(found), '')}")


def stored_run(texts):
    place = texts.add(f"{PROGRAM}/stdout")
    yield Stored(PROGRAM, [place], words_of(f"{PROGRAM}/args"), read_bytes(f"{PROGRAM}/stdin"))


def all_stored(texts):
    return [*examples(texts), *stored_run(texts), *cases(texts)]
