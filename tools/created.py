"""How many carriers a run created in all, for tools/compare: a count of its entries, in the order of operations."""
import itertools
from collections import defaultdict

from texts import carrier_of, is_placed

AT_THE_END = ["end"]


def in_order(trace, text):
    """The entries in the order of their operations, each with its scheduler, and where one ends; None if the text does
    not tell it."""
    logs = [*enumerate(text.logs, 1)]
    if not trace.has_one_order():
        return None
    if trace.order is None:
        return [(me, entry) for me, log in logs for entry in [*log, AT_THE_END]]
    rests = {me: iter(log) for me, log in logs}
    return [*((me, next(rests[me], AT_THE_END)) for me in trace.order), *((me, AT_THE_END) for me, _ in logs)]


class Blocks:
    """Which carriers have blocks. A block that another scheduler frees waits in the queue of the carrier's user, who
    takes it as the next operation begins, and passes it on if somebody has fetched the carrier meanwhile."""

    def __init__(self, text):
        self.mains = {it.number for it in text.carriers if it.kind == "main"}
        self.created = len(self.mains)
        # Of each carrier the blocks by their names, with their units, and who placed the last one there.
        self.blocks, self.users = defaultdict(dict), {}
        self.places, self.queues = {}, defaultdict(list)

    def place(self, me, name, number, units):
        self.created += not self.blocks[number] and number not in self.mains
        self.blocks[number][name] = units
        self.users[number], self.places[name] = me, number

    def release(self, name):
        del self.blocks[self.places.pop(name)][name]

    def take_queue(self, me):
        names, self.queues[me] = self.queues[me], []
        for name in names:
            user = self.users[self.places[name]]
            if user == me:
                self.release(name)
            else:
                self.queues[user].append(name)

    def free(self, name, how):
        if how[0] == "done":
            self.release(name)
        elif how[0] == "queued":
            self.queues[int(how[1])].append(name)

    def step(self, me, entry):
        self.take_queue(me)
        if entry[0] == "alloc" and is_placed(entry):
            self.place(me, entry[1], carrier_of(entry), int(entry[4]))
        elif entry[0] == "free":
            self.free(entry[1], entry[2:])
        elif entry[0] == "realloc" and is_placed(entry):
            if entry[6] == "here":
                self.release(entry[1])
                self.blocks[carrier_of(entry)][entry[2]] = int(entry[5])
                self.places[entry[2]] = carrier_of(entry)
            else:
                self.place(me, entry[2], carrier_of(entry), int(entry[5]))
                self.free(entry[1], entry[7:])

    def agrees(self, text):
        """Whether it ends with what the text has in its carriers."""
        mine = {number: sum(those.values()) for number, those in self.blocks.items() if those}
        return mine == {it.number: it.allocated for it in text.carriers if it.allocated}


def created(trace, text):
    """How many carriers were created; where the order is not known, or a scheduler was stopped in the middle, at least
    as many as there are numbers of carriers in the text."""
    order = in_order(trace, text)
    if order is not None:
        found = Blocks(text)
        for me, entry in order:
            found.step(me, entry)
        if found.agrees(text):
            return found.created
    numbers = {carrier_of(it) for it in itertools.chain(*text.logs) if is_placed(it)}
    numbers.update(it.number for it in text.carriers)
    return f">={len(numbers)}" if numbers else 0
