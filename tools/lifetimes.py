"""What is allocated, freed and handed over in a load that is made of sizes, for tools/load."""
from dataclasses import dataclass, field

UNIT = 8
# A block that was given is taken so many operations later.
DELAY = 10


@dataclass
class Scheduler:
    """What is made of a scheduler's section: `total` operations of which it has those of `section` by now, the names of
    the blocks that are `held`, those that are `coming` from others with the operation before which they are not looked
    for, and the one that was `taken` and is to be freed. It `grows` until it has `most` blocks."""

    number: int
    total: int
    most: int
    grows: bool = True
    section: list = field(default_factory=list)
    held: list = field(default_factory=list)
    coming: list = field(default_factory=list)
    taken: int = 0

    @property
    def left(self):
        return self.total - len(self.section)

    @property
    def owed(self):
        """How many operations it has to spend on what others gave."""
        return 2 * len(self.coming) + (self.taken > 0)


class Maker:
    """Makes the sections. All chance is that of `pick`, one of Python's generators, of which only random() is used: its
    sequence for a seed is the same in each version of Python and on each machine."""

    def __init__(self, options, pick):
        self.options, self.pick, self.names = options, pick, 0
        count, shared = options.schedulers, [options.operations - options.schedulers, options.live]
        shares = [[whole // count + (at < whole % count) for whole in shared] for at in range(count)]
        self.schedulers = [Scheduler(at, *share) for at, share in enumerate(shares, 1)]

    def make(self):
        """The schedulers in turn do an operation each, until all sections are full but for the `info` at their end."""
        while any(it.left for it in self.schedulers):
            for me in self.schedulers:
                if me.left:
                    self.operate(me)
        return [it.section + [("info",)] for it in self.schedulers]

    def chance(self, percent):
        return self.pick() * 100 < percent

    def name(self):
        self.names += 1
        return self.names

    def operate(self, me):
        if me.taken:
            me.section.append(("free", me.taken))
            me.taken = 0
        elif me.coming and (me.coming[0][1] <= len(me.section) or me.left <= me.owed):
            me.taken = me.coming.pop(0)[0]
            me.section.append(("take", me.taken))
        else:
            self.work(me)

    def work(self, me):
        """An operation on the blocks of its own."""
        count, goal = len(me.held), self.goal(me)
        me.grows = goal < me.most or me.grows and count < goal
        if not count:
            self.alloc(me)
        elif count > goal:
            self.release(me)
        elif self.chance(self.options.reallocs):
            self.realloc(me)
        elif count < goal and (me.grows or count <= goal * 9 // 10 or self.chance(50)):
            self.alloc(me)
        else:
            self.release(me)

    def goal(self, me):
        """How many blocks it goes for: as many as it may have, or those of the valley that its phase ends with, once
        that needs all operations that are left of the phase."""
        phases = self.options.phases
        phase = len(me.section) * phases // me.total
        left = -(-(phase + 1) * me.total // phases) - len(me.section)
        valley = me.most * self.options.valley // 100
        is_followed = phase + 1 < phases or self.options.end == "valley"
        return valley if is_followed and len(me.held) - valley >= left else me.most

    def alloc(self, me):
        me.held.append(self.name())
        me.section.append(("alloc", me.held[-1]))

    def chosen(self, me):
        """The place of one of its blocks."""
        return len(me.held) - 1 if self.chance(self.options.youngest) else int(self.pick() * len(me.held))

    def realloc(self, me):
        at, new = self.chosen(me), self.name()
        me.section.append(("realloc", me.held[at], new))
        me.held[at] = new

    def release(self, me):
        """Frees a block, or gives it to another scheduler that has the operations left to take and free it."""
        name = me.held.pop(self.chosen(me))
        other = self.receiver(me) if self.chance(self.options.handed_over) else None
        if other is None or other.left < other.owed + 2:
            me.section.append(("free", name))
        else:
            me.section.append(("give", name, other.number))
            other.coming.append((name, len(other.section) + DELAY))

    def receiver(self, me):
        """One of the others; of those that run later where schedulers run one after the other."""
        later = self.options.ending == "schedule"
        others = [it for it in self.schedulers if it.number > me.number or it is not me and not later]
        return others[int(self.pick() * len(others))] if others else None


def shared_out(whole, counts):
    """`whole` cut in parts that are proportional to the counts, each less than 1 from its exact share."""
    total = sum(counts)
    parts = [whole * it // total for it in counts]
    by_rest = sorted(range(len(counts)), key=lambda at: (-(whole * counts[at] % total), at))
    for at in by_rest[: whole - sum(parts)]:
        parts[at] += 1
    return parts


def size_in(slot, pick):
    """A size of the slot: each multiple of 8 is as likely as each other, or each byte where it has none."""
    first, last = -(-slot.low // UNIT), slot.high // UNIT
    if first <= last:
        return UNIT * (first + int(pick() * (last - first + 1)))
    return slot.low + int(pick() * (slot.high - slot.low + 1))


def sizes_for(slots, parts, pick):
    """Sizes, as many of each slot as its part, in an order of chance."""
    sizes = [size_in(slot, pick) for slot, part in zip(slots, parts) for _ in range(part)]
    for at in range(len(sizes) - 1, 0, -1):
        other = int(pick() * (at + 1))
        sizes[at], sizes[other] = sizes[other], sizes[at]
    return sizes
