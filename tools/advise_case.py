"""A recorded load as tools/advise tries flags on it: its peak, the valley after it, its input, and what the node said."""
import os
import subprocess
import sys
from dataclasses import dataclass

from files import read_file, write_file
from recording import read_recording
from refused import demand
from texts import mark_in

HERE = os.path.dirname(os.path.realpath(__file__))
MEGABYTE = 2**20
PEAK, VALLEY = "peak", "valley"
# The marks of each recording. No load of the node is between begin and the next one, and at the end its blocks go.
ALWAYS = ("begin", "end")
CUT = b"# CUT: "
# How a replay may differ from the node, in percent, so that it is trusted.
TRUSTED = 10.0


@dataclass
class Case:
    """A recording of one allocator: its input up to the last of its two moments, with the marks of these alone, and
    with all marks; the flags of the node; and the names of the marks of the peak and, where there is one, of the
    valley."""

    recording: object
    letter: str
    name: str
    input: str
    whole: str
    flags: list
    peak: str
    valley: str
    is_cut: bool

    @property
    def moments(self):
        return [it for it in (self.peak, self.valley) if it]

    @property
    def has_super_carrier(self):
        return self.recording.megabytes > 0

    def node(self, name):
        """What the schedulers' instances of the node had at a mark: megabytes of carriers, and of blocks."""
        mine = schedulers_of(self.recording.mark(name), self.letter)
        return sum(it.carrier_bytes for it in mine) / MEGABYTE, sum(it.block_bytes for it in mine) / MEGABYTE

    def before(self):
        """The megabytes of blocks that were there before the recording, of schedulers."""
        return self.node("begin")[1] if any(it.name == "begin" for it in self.recording.marks) else 0.0

    def curve(self):
        """The node's megabytes at each mark, with the number of events until then."""
        return [(it.name, it.events, self.node(it.name)[0]) for it in self.recording.marks]


def schedulers_of(mark, letter):
    """Instance 0 is that of all other threads, whose operations an input has not."""
    return [it for it in mark.instances.get(letter, []) if it.number]


# ---------------------------------------------------------------------------------------------------------------------
# The two moments
# ---------------------------------------------------------------------------------------------------------------------


def sizes(mark, letter):
    """The bytes of carriers and of blocks at a mark."""
    mine = schedulers_of(mark, letter)
    return sum(it.carrier_bytes for it in mine), sum(it.block_bytes for it in mine)


def moments_of(recording, letter, known):
    """The names of the marks of the peak, when the node had most carriers, and of the valley after it, when it had the
    fewest bytes in blocks, or None; of the marks that are known. Marks with these names are taken as such."""
    marks = [it for it in recording.marks if it.name in known]
    demand(marks, f"{recording.path}: the input has none of its marks")
    marks = [it for it in marks if it.name not in ALWAYS] or marks
    peak = next((it for it in marks if it.name == PEAK), None) or max(marks, key=lambda it: sizes(it, letter))
    later = [it for it in marks if it.events > peak.events]
    valley = next((it for it in later if it.name == VALLEY), None)
    if later and not valley:
        valley = min(later, key=lambda it: sizes(it, letter)[::-1])
    return peak.name, valley and valley.name


# ---------------------------------------------------------------------------------------------------------------------
# The inputs
# ---------------------------------------------------------------------------------------------------------------------


def marks_in(data):
    """The names of the marks of an input."""
    return [name for name in map(mark_in, data.split(b"\n")) if name is not None]


def front_of(data, marks):
    """The input up to the last of these marks, with them alone but for the last, at which it ends."""
    lines = []
    for line in data.split(b"\n"):
        name = mark_in(line)
        if name == marks[-1]:
            break
        if name is None or name in marks:
            lines.append(line)
    return b"\n".join([*lines, b"end", b""])


def made_input(path, letter, folder):
    """The whole input that tools/load makes of a recording, its bytes, and the node's own flags."""
    name = os.path.splitext(os.path.basename(path))[0]
    made, flags = f"{folder}/{name}.{letter}.input", f"{folder}/{name}.{letter}.flags"
    words = [sys.executable, "-B", f"{HERE}/load", "--recorded", path, "--type", letter]
    ran = subprocess.run([*words, "--output", made, "--node-flags", flags], stderr=subprocess.PIPE, check=False)
    said = ran.stderr.decode("utf-8", "replace").strip().removeprefix("load: ")
    demand(ran.returncode == 0, said or f"{path}: tools/load made no input of it")
    return made, read_file(made), read_file(flags).decode("ascii").split()


def case_of(path, letter, folder):
    """The case of an allocator of a recording; its files are written to a folder."""
    found = read_recording(path)
    whole, data, flags = made_input(path, letter, folder)
    peak, valley = moments_of(found, letter, marks_in(data))
    made = whole.removesuffix(".input") + ".moments.input"
    write_file(made, front_of(data, [it for it in (peak, valley) if it]))
    return Case(found, letter, os.path.basename(path), made, whole, flags, peak, valley, CUT in data)
