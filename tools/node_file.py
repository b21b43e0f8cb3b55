"""The file of a node's blocks and carriers, which node_load.escript wrote, for tools/load."""
import re
from dataclasses import dataclass, field

from files import read_file
from refused import Refused, demand

FIRST_LINE = "node-load 1"
LETTERS = "BDEHLRST"


@dataclass
class Slot:
    """How many blocks had a size of so many bytes, their headers included. `line` is where the file says it."""

    low: int
    high: int
    count: int
    line: int


@dataclass
class Carrier:
    """A carrier of the node; `gaps` has slots of its gaps."""

    size: int
    standing: str
    blocks: int
    allocated: int
    unscanned: int
    gaps: list = field(default_factory=list)


@dataclass
class Node:
    """What a file tells."""

    letter: str = ""
    schedulers: int = 0
    calls: tuple = ()
    unscanned: int = 0
    slots: list = field(default_factory=list)
    carriers: list = field(default_factory=list)
    flags: list = field(default_factory=list)
    untranslated: list = field(default_factory=list)

    @property
    def blocks(self):
        return sum(it.count for it in self.slots)


def number(word):
    demand(re.fullmatch(r"[0-9]{1,18}", word), f"{word[:40]!a} is no number")
    return int(word)


def slot_of(words, line):
    demand(len(words) == 3, "three numbers are due: LOW HIGH COUNT")
    low, high, count = map(number, words)
    demand(low <= high, f"LOW is {low}, and HIGH is {high}")
    return Slot(low, high, count, line)


def read_type(node, words, _):
    demand(len(words) == 1 and len(words[0]) == 1 and words[0] in LETTERS, f"one letter is due, of {' '.join(LETTERS)}")
    demand(not node.letter, "a second `type` line")
    node.letter = words[0]


def read_schedulers(node, words, _):
    demand(len(words) == 1 and number(words[0]) > 0, "one number from 1 on is due")
    node.schedulers = number(words[0])


def read_calls(node, words, _):
    demand(len(words) == 3, "three numbers are due: of calls to allocate, to reallocate and to free")
    node.calls = tuple(map(number, words))


def read_unscanned(node, words, _):
    demand(len(words) == 1, "one number is due")
    node.unscanned = number(words[0])


def read_blocks(node, words, line):
    node.slots.append(slot_of(words, line))


def read_carrier(node, words, _):
    demand(len(words) == 5 and words[1] in ("used", "pooled"), "due are: SIZE used or pooled BLOCKS BYTES UNSCANNED")
    size, blocks, allocated, unscanned = (number(it) for it in words[:1] + words[2:])
    demand(allocated <= size, f"a carrier of {size} bytes has no {allocated} in blocks")
    node.carriers.append(Carrier(size, words[1], blocks, allocated, unscanned))


def read_gaps(node, words, line):
    demand(node.carriers, "no `carrier` line stands before it")
    node.carriers[-1].gaps.append(slot_of(words, line))


def read_flags(node, words, _):
    is_list = len(words) % 2 == 0 and all(it.startswith("+M") for it in words[::2])
    demand(is_list, "pairs of a flag and its value are due")
    node.flags += words


def read_untranslated(node, words, _):
    node.untranslated.append(" ".join(words))


READERS = {
    "type": read_type,
    "flags": read_flags,
    "untranslated": read_untranslated,
    "schedulers": read_schedulers,
    "calls": read_calls,
    "unscanned": read_unscanned,
    "blocks": read_blocks,
    "carrier": read_carrier,
    "gaps": read_gaps,
}


def read_lines(path):
    return read_file(path).decode("utf-8", "replace").split("\n")


def read_node(path):
    """The node of a file, or a refusal with the file's name and the number of the line."""
    lines, node, at = read_lines(path), Node(), 1
    try:
        demand(lines[0].rstrip() == FIRST_LINE, f"it is not `{FIRST_LINE}`")
        for at, line in enumerate(lines[1:], 2):
            words = line.split()
            if words and not words[0].startswith("#"):
                demand(words[0] in READERS, f"no line begins with {words[0][:40]!a}")
                READERS[words[0]](node, words[1:], at)
    except Refused as what:
        raise Refused(f"{path}: line {at}: {what}") from None
    if not node.letter:
        raise Refused(f"{path}: there is no `type` line")
    if not node.blocks:
        raise Refused(f"{path}: no `blocks` line has a block")
    return node


def read_nodes(paths):
    """The nodes of the files, each of another allocator."""
    nodes, letters = [read_node(it) for it in paths], {}
    for path, node in zip(paths, nodes):
        demand(node.letter not in letters, f"{path}: its type {node.letter} is that of {letters.get(node.letter)}, too")
        letters[node.letter] = path
    return nodes
