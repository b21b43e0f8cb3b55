"""The node of tools/advise: what it says of its allocators, which of them waste, and its recordings."""
import os
import shutil
import signal
import subprocess
from dataclasses import dataclass, field

from refused import Refused, demand

HERE = os.path.dirname(os.path.realpath(__file__))
MEGABYTE = 2**20
NAMES = {
    "B": "binary_alloc", "D": "std_alloc", "E": "ets_alloc", "H": "eheap_alloc", "L": "ll_alloc", "R": "driver_alloc",
    "S": "sl_alloc", "T": "temp_alloc",
}
# An allocator wastes that has so many megabytes of carriers more than blocks, and so many percent of its carriers; and
# so many are taken. Blocks of temp_alloc live within a call, so its carriers are never few and never many.
LEAST_WASTE, LEAST_PERCENT, MOST_TAKEN, NEVER_TAKEN = 4 * MEGABYTE, 10, 3, "T"
COMPILERS = ("cc", "gcc", "clang")


@dataclass
class Figures:
    """Bytes of carriers and of blocks: of the schedulers' instances, and of the one of all other threads."""

    carriers: int
    blocks: int
    other_carriers: int
    other_blocks: int

    @property
    def all_carriers(self):
        return self.carriers + self.other_carriers

    @property
    def waste(self):
        return self.all_carriers - self.blocks - self.other_blocks


@dataclass
class Sample:
    """What a node said at a time: the kilobytes of its process, and the figures of each letter."""

    milliseconds: int
    resident: int
    figures: dict = field(default_factory=dict)


# ---------------------------------------------------------------------------------------------------------------------
# Commands
# ---------------------------------------------------------------------------------------------------------------------


def check_tools():
    """What a node and a recording want."""
    for word in ("erl", "escript"):
        demand(shutil.which(word), f"there is no {word}: install Erlang/OTP (Debian: erlang-base, erlang-dev)")
    demand(any(map(shutil.which, COMPILERS)), "there is no C compiler, which a recording wants: install one (Debian: gcc)")


def run_command(words, wants_output):
    """What a command of this folder wrote; what it says goes to standard error. An interrupt ends it, too."""
    output = subprocess.PIPE if wants_output else None
    with subprocess.Popen(words, stdin=subprocess.DEVNULL, stdout=output, start_new_session=True) as child:
        try:
            text, _ = child.communicate()
        except BaseException:
            child.send_signal(signal.SIGTERM)
            raise
    return child.returncode, text.decode("utf-8", "replace") if wants_output else ""


def node_words(options):
    """The words of both commands that name the node."""
    return ["--start", options.start] if options.start is not None else [options.node, options.cookie]


def look(options, flags=""):
    """What the node says: one that runs once, one that is started under its flags, and these, while its load runs."""
    words = ["escript", f"{HERE}/advise_node.escript"]
    if options.start is None:
        words += [options.node, options.cookie]
    else:
        words += ["--start", f"{options.start} {flags}", "--path", options.path or "."]
        words += ["--eval", options.eval, "--seconds", str(options.seconds)]
    status, text = run_command(words, True)
    demand(status == 0, "the node does not tell the figures of its allocators")
    return read_samples(text)


def read_samples(text):
    made = []
    for line in text.splitlines():
        words = line.split()
        if words[:1] == ["sample"]:
            made.append(Sample(int(words[1]), int(words[2])))
        elif words[:1] == ["allocator"] and made:
            made[-1].figures[words[1]] = Figures(*map(int, words[2:]))
    demand(made and all(it.figures for it in made), "the node tells nothing of its allocators")
    return made


def record(options, letters, path):
    """Records some allocators of the node together, with a mark each few seconds."""
    words = [f"{HERE}/record", *node_words(options), ",".join(letters), path]
    words += ["--seconds", str(options.seconds), "--every", str(options.every), "--events", str(options.events)]
    words += ["--eval", options.eval] if options.eval is not None else []
    words += ["--path", options.path] if options.path is not None else []
    status, _ = run_command(words, False)
    demand(status == 0 and os.path.exists(path), "tools/record made no recording")


# ---------------------------------------------------------------------------------------------------------------------
# What it says
# ---------------------------------------------------------------------------------------------------------------------


def percent(part, whole):
    return 100 * part / whole if whole else 0.0


def most_wasteful(samples, letter):
    """The figures of an allocator at the time when it wastes most."""
    return max((it.figures[letter] for it in samples), key=lambda it: it.waste)


def by_waste(samples):
    """The letters and their figures, those that waste most first."""
    found = {it: most_wasteful(samples, it) for it in samples[0].figures}
    return sorted(found.items(), key=lambda it: -it[1].waste)


def table_of_node(samples):
    """Lines on what the node says, at the time at which each allocator wastes most."""
    when = "now" if len(samples) == 1 else "each when it wastes most"
    yield f"{f'The node, {when}':<34}{'blocks':>10}{'carriers':>10}{'unused':>10}{'percent':>9}"
    for letter, it in by_waste(samples):
        megabytes = ((it.all_carriers - it.waste) / MEGABYTE, it.all_carriers / MEGABYTE, it.waste / MEGABYTE)
        cells = "".join(f"{one:>7.1f} MB" for one in megabytes)
        yield f"  {NAMES[letter]:<32}{cells}{percent(it.waste, it.all_carriers):>9.0f}"
    most = max(it.resident for it in samples)
    carriers = max(sum(one.all_carriers for one in it.figures.values()) for it in samples)
    if most:
        at_most = "" if len(samples) == 1 else " at most"
        yield (f"Its process has {most / 1024:.0f} MB in memory (RSS){at_most}, and {carriers / MEGABYTE:.0f} MB of these"
               f" carriers{at_most}.")


def wasteful(samples):
    """The letters of the allocators that are taken, and why."""
    known = [it for it in by_waste(samples) if it[0] != NEVER_TAKEN]
    found = [it for it in known if it[1].waste >= LEAST_WASTE
             and percent(it[1].waste, it[1].all_carriers) >= LEAST_PERCENT][:MOST_TAKEN]
    rule = f"{LEAST_WASTE // MEGABYTE} MB and {LEAST_PERCENT} percent of its carriers unused"
    if found:
        names = ", ".join(NAMES[it] for it, _ in found)
        return [it for it, _ in found], f"Taken: {names}, with at least {rule}."
    letter = known[0][0]
    return [letter], f"None has {rule}; {NAMES[letter]} has the most, and is taken."


def letters_of(words):
    """The letters of allocators by their names or letters, with commas between."""
    found = []
    for word in words.split(","):
        letter = next((it for it, name in NAMES.items() if word in (it, name)), None)
        if letter is None:
            raise Refused(f"{word}: no allocator of this name: {', '.join(NAMES.values())}")
        found.append(letter)
    return [*dict.fromkeys(found)]


def peak_and_valley(samples, letter):
    """The figures of an allocator when its schedulers' instances had most carriers, and after that when they had the
    fewest bytes in blocks, where that was not the last time."""
    mine = [it.figures[letter] for it in samples]
    peak = max(range(len(mine)), key=lambda it: (mine[it].carriers, mine[it].blocks))
    later = mine[peak + 1 : -1] or mine[peak + 1 :]
    valley = min(later, key=lambda it: (it.blocks, it.carriers), default=None)
    return [mine[peak], *([valley] if valley else [])]
