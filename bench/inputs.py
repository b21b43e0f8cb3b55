#!/usr/bin/env python3
"""Makes the traces that bench/measure runs: python3 bench/inputs.py FOLDER.

They are the same bytes on every machine, and good under the flags +MMscs 512 +MHacul 0, with +S as many schedulers as
they have. Those in FOLDER/strategies are for +MHlmbcs 256 and a strategy besides. Those in FOLDER/migrating are for any
acul, staying with a main carrier of 20 MB, the others with carriers of one page (+MHsmbcs 4 +MHlmbcs 4). In filled and
changing no allocation fails under good fit or under a strategy that looks at all gaps; under address fit nearly each
block would have a carrier, and it has blocks of one size in equal-filled and equal-changing. Those in FOLDER/threads end
with `threads`, and the same operations by a schedule are in FOLDER/schedules; mingled is for carriers of 512 kB, one of
them main, contended for such of 256 kB, searching for such of one page, and these, fetched-back and back-among for an
acul of 60. Those in FOLDER/wanted are for that, too, and for carriers of 256 kB. In FOLDER/stops are some of the traces
with stops that never come. Those in FOLDER/generated are for +S 16 and no other flag. Those in FOLDER/live are for any
strategy, and for carriers of which each scheduler has one with all its blocks: of 50 bytes for each block of one size,
and of 700 for each of random ones, where address fit has too few carriers. Those in FOLDER/spread are for 1, 16 or 256
carriers of each scheduler, of 4096 kB in all for blocks of one size, and of 7168 kB for random ones. Those in
FOLDER/operations and in FOLDER/carriers are for carriers of any size. Those in FOLDER/alone are of several schedulers of
which the first one does all, by a schedule and as threads, for an acul of 60 and carriers of one page. Those in
FOLDER/idle are of schedulers that do nothing, for no other flag. Those in FOLDER/types are of two allocator types with
the same work, H and B, and of each of these alone, by a schedule and as threads, for +MMscs 256. Those in FOLDER/steps
are by single turns, one of each scheduler after another, for an acul of 60.
"""
import itertools
import os
import random
import sys

OPENING = "type H\nscheduler 1\n"
SCHEDULERS = 16
MOST_SCHEDULERS = 64
# Carrier numbers of each scheduler.
NUMBERS = 1024
# So many schedulers have 4,096 carrier numbers.
OF_4096 = 4096 // NUMBERS
CLOSING = "schedule\nend\n"
LARGEST_INPUT = 2**24
MOST_TURNS = 10**8
MOST_TRIES = 10**7
TRIES_IN_ALL = 10**8
GREATEST_NAME = 2**20
MOST_OPERATIONS = 2**20
# How many schedulers there are where one works alone, and how often it does what is measured.
ALONE = [1, 4, 16, 64]
SEARCHES = 500
PAIRS = 50_000
LEAST = 40
TINY = 100
SMALL = 3000
LARGE = 480_000
# More than half of a carrier of 256 kB, and less than 60 percent.
MOST_OF_A_CARRIER = 140_000
# A bit less, and more than the other leaves of the carrier.
LESS_OF_A_CARRIER = 125_000
# A bit more than half of a carrier of one page, and less than 60 percent.
HALF_A_PAGE = 2100
# Turns with which a scheduler makes what comes before, and then waits.
MANY_TURNS = 100_000
# Turns for the one who wants a carrier back, more than it takes to look at 4,096 numbers.
MOST_WANTED = 5000
LARGEST = 524280
# Blocks of a carrier, and how many schedulers have one of these.
LIVE = {1000: 16, 10_000: 4, 100_000: 1, 200_000: 1}
# The least and the most bytes of a block.
SIZES = {"equal": (LEAST, LEAST), "random": (LEAST, 1000)}
# Blocks that fill 256 carriers of 16 kB, or 254 of 28 kB, before 10,000 of them are kept, and their least and most bytes.
# Those of one size, 40 units, fill carriers of 16 kB and of 256 kB to the end.
SPREAD = {"equal": (13_056, 312, 312), "random": (13_600, LEAST, 1000)}
# That many blocks of 78 units fill 512 MB, but for headers of carriers and what is left at their ends.
SMALL_BLOCKS = 857_600
SMALL_BLOCK = 616
# Blocks of all schedulers whose steps are told, and after these frees and allocations of a scheduler, in pairs.
TOLD_BLOCKS = 10_000
TOLD_PAIRS = 69_000
# Twenty blocks of that many bytes fill a carrier of 256 kB to its end.
TWENTIETH = 13096


def filled_up(front, piece, rest, back):
    """Pieces between front and back up to the most bytes that an input may have, and rest for the last few bytes."""
    pieces, left = divmod(LARGEST_INPUT - len(front) - len(back), len(piece))
    return front + piece * pieces + rest * left + back


def comments():
    """A small trace, and then comment lines up to the most bytes that an input may have."""
    return filled_up(OPENING + "alloc 1 100\n" + CLOSING, "# " + "-" * 61 + "\n", "#", "")


def long_comment():
    """The same with one line of a comment."""
    return filled_up(OPENING + "alloc 1 100\n" + CLOSING, "#", "#", "")


def turns():
    """A small trace, and then lines of 32 turns up to the most bytes that an input may have."""
    return filled_up(OPENING + "alloc 1 100\nschedule\n", "1 " * 31 + "1\n", "\n", "end\n")


def line_of_turns():
    """The same with one line of turns."""
    return filled_up(OPENING + "alloc 1 100\nschedule\n", "1 ", " ", "\nend\n")


def mixed_lines(count, most_held, largest, seed):
    """count operations, a random one of at most most_held blocks freed at a time, no name used twice."""
    pick = random.Random(seed).random
    lines, held, name = [], [], 0
    for _ in range(count):
        if held and (len(held) == most_held or pick() < 0.5):
            at = int(pick() * len(held))
            held[at], held[-1] = held[-1], held[at]
            lines.append(f"free {held.pop()}\n")
        else:
            name += 1
            held.append(name)
            lines.append(f"alloc {name} {int(pick() * (largest + 1))}\n")
    return "".join(lines)


def mixed(count, most_held, largest, seed):
    return OPENING + mixed_lines(count, most_held, largest, seed) + CLOSING


def most():
    """As many operations as there may be, and a comment line up to the most bytes that an input may have."""
    return filled_up(OPENING + mixed_lines(MOST_OPERATIONS, 8, SMALL, 5) + CLOSING, "#", "#", "")


def stacked(count):
    """count blocks of 6 or 8 units, freed in reverse."""
    allocs = [f"alloc {name} {40 + name % 2 * 16}\n" for name in range(1, count + 1)]
    frees = [f"free {name}\n" for name in range(count, 0, -1)]
    return OPENING + "".join(allocs + frees) + CLOSING


def filled_carriers(count):
    """More blocks than 512 MB hold: the last ones find no carrier."""
    return OPENING + "".join(f"alloc {name} {LARGEST - 4096}\n" for name in range(1, count + 1)) + CLOSING


def full(schedulers, operations):
    """operations in all, of which as many as there is room for in 512 MB fill these with small blocks; the others do
    nothing."""
    each = SMALL_BLOCKS // schedulers
    texts = [
        "".join(f"alloc {name} {SMALL_BLOCK}\n" for name in range(me * each + 1, (me + 1) * each + 1))
        + "idle\n" * (operations // schedulers - each)
        for me in range(schedulers)
    ]
    return sections_of(texts) + CLOSING


def carriers(count):
    """count carriers, one after another: each is created for a block, and goes with it."""
    return OPENING + "".join(f"alloc {name} {LEAST}\nfree {name}\n" for name in range(1, count + 1)) + CLOSING


def live(schedulers, allocated, kept, least, most):
    """The sections of three traces. In the first each scheduler allocates blocks of least to most bytes, and frees random
    ones until `kept` are left; in the second it then frees a random quarter of these, or as many as there are operations
    left for; in the third it then allocates as many anew."""
    pick, names = random.Random(8), itertools.count(1)
    surplus = allocated - kept
    changes = min(kept // 4, (MOST_OPERATIONS // schedulers - allocated - surplus) // 2)

    def allocs(count):
        return [f"alloc {next(names)} {least + int(pick.random() * (most - least + 1))}\n" for _ in range(count)]

    filled, freed, refilled = ([] for _ in range(3))
    for _ in range(schedulers):
        held = allocs(allocated)
        frees = [f"free {it.split()[1]}\n" for it in pick.sample(held, surplus + changes)]
        filled.append(held + frees[:surplus])
        freed.append(held + frees)
        refilled.append(held + frees + allocs(changes))
    return {"filled": filled, "freed": freed, "refilled": refilled}


def live_traces():
    for sizes, (least, most) in SIZES.items():
        for count, schedulers in LIVE.items():
            for kind, texts in live(schedulers, count, count, least, most).items():
                yield f"live/{count}-{sizes}-{kind}", sections_of(texts) + CLOSING
    for sizes, (allocated, least, most) in SPREAD.items():
        for kind, texts in live(4, allocated, 10_000, least, most).items():
            yield f"spread/{sizes}-{kind}", sections_of(texts) + CLOSING


def without_change():
    """As many operations as there may be: of these that do nothing, of frees that are skipped, and of an alloc and a free
    in turn beside a block that stays; and a trace without these."""
    first, rest = OPENING + f"alloc 1 {LEAST}\n", MOST_OPERATIONS - 2
    yield "nothing", first + "free 1\n" + CLOSING
    yield "idle", first + "free 1\n" + "idle\n" * rest + CLOSING
    yield "skipped", first + "free 1\n" * (rest + 1) + CLOSING
    yield "pairs", first + "".join(f"alloc {it} {LEAST}\nfree {it}\n" for it in range(2, rest // 2 + 2)) + CLOSING


def sections_of(texts):
    return "type H\n" + "".join(f"scheduler {at}\n" + "".join(text) for at, text in enumerate(texts, 1))


def hand_over_sections(schedulers, rounds, batch, tries=1):
    """Half of the schedulers allocate blocks and give them, `batch` in a round, and each of the others takes and frees
    those of one, the last of a round first if that has tries to wait for. A scheduler alone gives to itself."""
    givers = max(schedulers // 2, 1)
    texts, name = [[] for _ in range(schedulers)], 0
    for _ in range(rounds):
        for giver in range(givers):
            taker = giver + schedulers // 2
            names = range(name + 1, name + 1 + batch)
            texts[giver] += [f"alloc {it} {40 + it % 100 * 16}\ngive {it} {taker + 1}\n" for it in names]
            waited = [names[-1]] if tries > 1 else []
            texts[taker] += [f"take {it} {tries}\nfree {it}\n" for it in waited]
            texts[taker] += [f"take {it} 1\nfree {it}\n" for it in names if it not in waited]
            name += batch
    return sections_of(texts)


def hand_over_turns(schedulers, rounds, batch):
    """The turns in which they do that, each take at its first try."""
    givers = max(schedulers // 2, 1)

    def turns(of_giver):
        often = [of_giver if at < givers else 5 for at in range(schedulers)]
        return " ".join(f"{at}*{batch * it}" for at, it in enumerate(often, 1)) + "\n"

    # For a block: 3 turns to allocate and give it, 5 to take and queue it. One releases it in the round after.
    return "schedule\n" + turns(3) + turns(4) * (rounds - 1) + "end\n"


def handed_over(schedulers, rounds, batch):
    return hand_over_sections(schedulers, rounds, batch) + hand_over_turns(schedulers, rounds, batch)


def ended_turns():
    """Sixteen schedulers without operations, and as many turns as a trace may have: all but 16 come after their end."""
    sections = "".join(f"scheduler {at}\n" for at in range(1, SCHEDULERS + 1))
    turns = "".join(f"{at}*{MOST_TURNS // SCHEDULERS}\n" for at in range(1, SCHEDULERS + 1))
    return "type H\n" + sections + "schedule\n" + turns + "end\n"


def tries():
    """A take that looks as often as one may for a block that is given after it."""
    return OPENING + f"take 1 {MOST_TRIES}\nalloc 1 100\ngive 1 1\n" + CLOSING


def with_stops(text):
    """The same trace, in which each scheduler has a stop, after more steps than it takes."""
    schedulers = text.count("\nscheduler ")
    stops = "".join(f"stop {at} {MOST_TURNS}\n" for at in range(1, schedulers + 1))
    return text.replace("\nschedule\n", f"\n{stops}schedule\n")


def crowded(filled, kept, least, most, changes):
    """`filled` blocks of least to most bytes fill carriers of 256 kB, and random ones are freed until `kept` are left;
    then come `changes` operations, in which a random block is freed and a new one is allocated, in turn."""
    pick = random.Random(4).random
    lines, held = [], []

    def alloc(name):
        held.append(name)
        lines.append(f"alloc {name} {least + int(pick() * (most - least + 1))}\n")

    def free():
        at = int(pick() * len(held))
        held[at], held[-1] = held[-1], held[at]
        lines.append(f"free {held.pop()}\n")

    for name in range(1, filled + 1):
        alloc(name)
    while len(held) > kept:
        free()
    for name in range(filled + 1, filled + 1 + changes // 2):
        free()
        alloc(name)
    return OPENING + "".join(lines) + CLOSING


def own_work(pick, names, count, most_held, largest):
    """`count` operations of a scheduler: it allocates `most_held` blocks, and then frees, reallocates and allocates."""
    lines, held = [], []
    for done in range(count):
        kind, at, size = pick(), int(pick() * len(held)), int(pick() * (largest + 1))
        if done < most_held or not held or kind >= 0.6 and len(held) < most_held:
            held.append(next(names))
            lines.append(f"alloc {held[-1]} {size}\n")
        elif kind >= 0.3 and len(held) < most_held:
            old, held[at] = held[at], next(names)
            lines.append(f"realloc {old} {held[at]} {size}\n")
        else:
            held[at], held[-1] = held[-1], held[at]
            lines.append(f"free {held.pop()}\n")
    return lines


def disjoint(schedulers, count, most_held, largest):
    """`count` operations in all, as many of each scheduler, on blocks of its own."""
    pick, names = random.Random(6).random, itertools.count(1)
    share = count // schedulers
    return sections_of([own_work(pick, names, share, most_held, largest) for _ in range(schedulers)])


def greatest_name():
    """Ten operations of sixteen schedulers, and the greatest name among theirs."""
    texts = [[] for _ in range(SCHEDULERS)]
    texts[0] = [f"alloc {GREATEST_NAME} 100\n", "alloc 1 100\n", f"give {GREATEST_NAME} 2\n", "free 1\n"]
    texts[1] = [f"take {GREATEST_NAME} {MOST_TRIES}\n", f"free {GREATEST_NAME}\n"]
    texts[7] = ["alloc 2 100\n", "realloc 2 3 200\n"]
    texts[15] = ["alloc 4 100\n", "free 4\n"]
    return sections_of(texts)


def searching(schedulers, count):
    """`count` operations in all, as many of each scheduler, for carriers of one page: a tenth allocate a block that fills
    a carrier, so that all numbers are looked at and a carrier is created, and the rest find room beside a block that
    keeps its carrier in use."""
    names, texts = itertools.count(1), []
    for _ in range(schedulers):
        text = [f"alloc {next(names)} 2500\n"]
        for _ in range(count // schedulers // 10):
            large, small = next(names), [next(names) for _ in range(4)]
            text.append(f"alloc {large} 3900\n")
            text += [f"alloc {it} {TINY}\nfree {it}\n" for it in small]
            text.append(f"free {large}\n")
        texts.append(text)
    return sections_of(texts)


def abandoned(schedulers, count, carriers):
    """`count` operations in all, as many of each scheduler, for carriers of one page: each has `carriers` in the pool, and
    again and again it allocates a block for which none of them has room, so that a carrier is created."""
    names, texts = itertools.count(1), []
    for _ in range(schedulers):
        text = []
        for _ in range(carriers):
            large, small = next(names), next(names)
            text += [f"alloc {large} {HALF_A_PAGE}\n", f"alloc {small} {TINY}\n", f"free {small}\n"]
        for _ in range((count // schedulers - len(text)) // 2):
            large = next(names)
            text += [f"alloc {large} 3900\n", f"free {large}\n"]
        texts.append(text)
    return sections_of(texts) + CLOSING


def mingled(schedulers, count):
    """Some `count` operations in all, as many of each scheduler, which has about 1000 small blocks. A quarter of what it
    frees it gives to the next one, which frees it. Every hundredth block that it allocates finds no room in the main
    carrier, so that the pool is searched; it is freed at once."""
    pick, names, often = random.Random(9).random, itertools.count(1), itertools.count(1)
    texts, held, coming = ([[] for _ in range(schedulers)] for _ in range(3))

    def work(me, going):
        """What comes next of a scheduler; it notes what goes to the next one."""
        if len(held[me]) < 900 or len(held[me]) < 1000 and pick() < 0.5:
            name, is_large = next(names), next(often) % 100 == 0
            texts[me].append(f"alloc {name} {LARGE if is_large else int(pick() * (TINY + 1))}\n")
            if is_large:
                texts[me].append(f"free {name}\n")
            else:
                held[me].append(name)
            return
        at = int(pick() * len(held[me]))
        held[me][at], held[me][-1] = held[me][-1], held[me][at]
        name = held[me].pop()
        if pick() < 0.25:
            texts[me].append(f"give {name} {(me + 1) % schedulers + 1}\n")
            going.append(name)
        else:
            texts[me].append(f"free {name}\n")

    while sum(map(len, texts)) < count:
        went = [[] for _ in range(schedulers)]
        for me in range(schedulers):
            texts[me] += [f"take {it} 2000\nfree {it}\n" for it in coming[me]]
            for _ in range(200):
                work(me, went[(me + 1) % schedulers])
        coming = went
    return sections_of(texts)


def abandoning(names, count):
    """`count` operations of a scheduler: each second free leaves so little in a carrier that it is abandoned, and the next
    block has to be placed in a carrier that is fetched."""
    lines = []
    for _ in range(count // 4):
        one, other = next(names), next(names)
        lines += [f"alloc {one} {TINY}\n", f"alloc {other} {TINY}\n", f"free {one}\n", f"free {other}\n"]
    return lines


def fetched_back(schedulers, count, idle=0):
    """`count` operations in all, as many of each scheduler, which abandons its own carrier and fetches it back, again and
    again; the schedulers after them do nothing."""
    names = itertools.count(1)
    texts = [[f"alloc {next(names)} {TINY}\n", *abandoning(names, count // schedulers)] for _ in range(schedulers)]
    return sections_of([*texts, *[[]] * idle])


def contended(schedulers, count):
    """The same of schedulers without carriers of their own, which fetch those of one more: it abandons a dozen, each with
    a block that leaves less than the next one needs, before it gives each of the others a block that they wait for."""
    names = itertools.count(1)
    last = []
    for _ in range(12):
        small = next(names)
        last += [f"alloc {next(names)} {MOST_OF_A_CARRIER}\n", f"alloc {small} {TINY}\n", f"free {small}\n"]
    signals = [next(names) for _ in range(schedulers)]
    last += [f"alloc {it} {TINY}\n" for it in signals]
    last += [f"give {it} {at}\n" for at, it in enumerate(signals, 1)]
    waits = [f"take {it} {MOST_TRIES}\n" for it in signals]
    return sections_of([*([it, *abandoning(names, count // schedulers)] for it in waits), last])


def contended_turns(schedulers):
    """The turns with which the carriers are abandoned first, and as much work as each of the others has."""
    return f"schedule\n{schedulers + 1}*{MOST_TURNS // 2}\nend\n"


def wanted(first, others, opening, size):
    """A trace of four schedulers that tells how many turns an allocation takes. Scheduler 1 gives block 2 to scheduler 2,
    allocates block 3 of `size` bytes, and gives it to scheduler 3: between its turns each of these tries once."""
    texts = [[] for _ in range(OF_4096)]
    texts[0] = [*first, "give 2 2\n", f"alloc 3 {size}\n", "give 3 3\n"]
    texts[1], texts[2] = (["take 2 1\n"] * MOST_WANTED, ["take 3 1\n"] * MOST_WANTED)
    for me, text in others.items():
        texts[me - 1] = text
    return sections_of(texts) + f"schedule\n{opening}\n" + "1 2*2 3*2\n" * MOST_WANTED + "end\n"


def wanted_back():
    """Scheduler 1 wants a carrier back that it abandoned: it is the only one; it is the last of eight, and the others
    have no room; or another scheduler fetched and abandoned it meanwhile."""
    wait, much = f"take 9 {MANY_TURNS}\n", f"*{MANY_TURNS}"
    two = [f"alloc 1 {TINY}\n", f"alloc 2 {TINY}\n", "free 1\n"]
    # The last scheduler has a block before there is a carrier in the pool.
    giver = {OF_4096: [f"alloc 9 {TINY}\n", "give 9 1\n"]}
    opening = f"{OF_4096}*{2 + NUMBERS * OF_4096} 1{much} {OF_4096}{much}"
    yield "only", wanted([*two, wait], giver, opening, TINY)
    names, eight = itertools.count(10), []
    for size in [MOST_OF_A_CARRIER] * 7 + [LESS_OF_A_CARRIER]:
        large, small = next(names), next(names)
        eight += [f"alloc {large} {size}\n", f"alloc {small} {TINY}\n", f"free {small}\n"]
    eight[3 * 7] = f"alloc 2 {LESS_OF_A_CARRIER}\n"
    yield "last", wanted([*eight, wait], giver, opening, LESS_OF_A_CARRIER + 8000)
    large = [f"alloc 5 {MOST_OF_A_CARRIER}\n", f"alloc 6 {TINY}\n", f"give 6 {OF_4096}\n", f"take 10 {MANY_TURNS}\n"]
    four = [f"alloc {it} {TINY}\n" for it in (7, 8, 9, 10)] + ["give 9 1\n"]
    four += [f"take 6 {MANY_TURNS}\n", "free 7\n", "give 10 1\n"]
    opening = f"1{much} {OF_4096}{much} " * 2
    yield "was-away", wanted([*two, wait, *large], {OF_4096: four}, opening, LESS_OF_A_CARRIER)


def in_turn(sections, schedulers, count):
    """These sections by `count` turns of each scheduler, one of each after another."""
    return sections + "schedule\n" + f"{' '.join(map(str, range(1, schedulers + 1)))}\n" * count + "end\n"


def crowded_steps(schedulers, blocks, pairs):
    """Each scheduler allocates its part of `blocks`; then it frees a random one and allocates another, `pairs` times. The
    turns are as many as it takes to search all numbers three times, in which each carrier is created."""
    pick, names, held, texts = random.Random(10), itertools.count(1), blocks // schedulers, []
    for _ in range(schedulers):
        text, there = [], []
        for done in range(held + pairs):
            if done >= held:
                at = int(pick.random() * held)
                there[at], there[-1] = there[-1], there[at]
                text.append(f"free {there.pop()}\n")
            there.append(next(names))
            text.append(f"alloc {there[-1]} {LEAST + int(pick.random() * (1000 - LEAST))}\n")
        texts.append(text)
    return in_turn(sections_of(texts), schedulers, held + 3 * pairs + 3 * (NUMBERS * schedulers + 1))


def tries_in_turn():
    """Two schedulers that look for blocks in turn, as often as the most bytes of an input allow."""
    texts = [[f"take {me} {MOST_TRIES}\n", f"alloc {3 - me} 8\n", f"give {3 - me} {3 - me}\n"] for me in (1, 2)]
    return filled_up(sections_of(texts) + "schedule\n", "1 2\n", "\n", "end\n")


def alone():
    """What the first of several schedulers does while the others do nothing, for carriers of one page: searches of all
    numbers in vain, each with a carrier that is created and goes; pairs of an alloc and a free in a carrier that stays;
    pairs of which each second abandons the carrier and each second fetches it back; blocks that it gives itself; and
    infos. In nothing it has the one block, of the greatest name, that it has in all of them."""
    first = f"alloc {2 * PAIRS} 2500\n"
    yield "nothing", first
    yield "searching", first + "".join(f"alloc {it} 3900\nfree {it}\n" for it in range(1, SEARCHES + 1))
    yield "staying", first + "".join(f"alloc {it} {TINY}\nfree {it}\n" for it in range(1, PAIRS + 1))
    small = f"alloc {2 * PAIRS} {TINY}\n"
    yield "fetched-back", small + "".join(abandoning(itertools.count(1), 2 * PAIRS))
    pieces = (f"alloc {it} {TINY}\ngive {it} 1\ntake {it} 1\nfree {it}\n" for it in range(1, PAIRS // 2 + 1))
    yield "given-to-itself", first + "".join(pieces)
    yield "info", first + "info\n" * PAIRS


def alone_traces():
    for schedulers in ALONE:
        for name, text in alone():
            for ending in ("schedule", "threads"):
                sections = sections_of([text, *[""] * (schedulers - 1)])
                yield f"alone/{name}-{schedulers}-{ending}", sections + f"{ending}\nend\n"


def idle_traces():
    """Schedulers without operations, as few and as many as there may be."""
    for schedulers in (1, MOST_SCHEDULERS):
        for ending in ("schedule", "threads"):
            yield f"idle/{schedulers}-{ending}", sections_of([[]] * schedulers) + f"{ending}\nend\n"


def typed(sections):
    """The first lines and sections of an input of two allocator types that both do what these sections do, line by line,
    and of the trace of each type, which has an empty line for each of the other."""
    both, *alone = ["types H B\n"], ["type H\n"], ["type B\n"]
    for line in sections.splitlines(keepends=True)[1:]:
        if line.startswith("scheduler "):
            for it in (both, *alone):
                it.append(line)
        else:
            both.append(f"H {line}B {line}")
            alone[0].append(f"{line}\n")
            alone[1].append(f"\n{line}")
    return {kind: "".join(it) for kind, it in zip(("both", "H", "B"), (both, *alone))}


def typed_traces():
    works = {
        "mixed": (OPENING + mixed_lines(200_000, 8, SMALL, 2), ["schedule"]),
        "disjoint": (disjoint(4, 200_000, 8, SMALL), ["schedule", "threads"]),
        "mingled": (mingled(4, 200_000), ["schedule", "threads"]),
    }
    for name, (sections, endings) in works.items():
        for kind, text in typed(sections).items():
            for ending in endings:
                yield f"types/{name}-{ending}-{kind}", f"{text}{ending}\nend\n"


def for_threads():
    """Sections that run with `threads`, and the end of the same trace by a schedule."""
    for schedulers in (1, 4):
        yield f"mingled-{schedulers}", mingled(schedulers, 200_000), CLOSING
        yield f"contended-{schedulers}", contended(schedulers, 100_000), contended_turns(schedulers)
        yield f"fetched-back-{schedulers}", fetched_back(schedulers, 100_000), CLOSING
    for schedulers, count in ((OF_4096, 100_000), (MOST_SCHEDULERS, 10_240)):
        numbers = NUMBERS * schedulers
        yield f"back-among-{numbers}", fetched_back(1, 100_000, schedulers - 1), CLOSING
        yield f"searching-{numbers}", searching(schedulers, count), CLOSING
    for schedulers in (1, 2, 4):
        yield f"disjoint-{schedulers}", disjoint(schedulers, 200_000, 8, SMALL), CLOSING
        yield f"disjoint-crowded-{schedulers}", disjoint(schedulers, 200_000, 1000, TINY), CLOSING
    rounds, batch = 125, 25
    tries = TRIES_IN_ALL // (rounds * SCHEDULERS // 2) - batch
    yield (
        f"handed-over-{SCHEDULERS}",
        hand_over_sections(SCHEDULERS, rounds, batch, tries),
        hand_over_turns(SCHEDULERS, rounds, batch),
    )
    yield "greatest-name", greatest_name(), CLOSING


def main(folder):
    made = {
        "comments": comments(),
        "long-comment": long_comment(),
        "turns": turns(),
        "line-of-turns": line_of_turns(),
        "growing-5000": mixed(5000, 400, LARGEST, 3),
        "mixed-5000": mixed(5000, 40, SMALL, 1),
        "mixed-200000": mixed(200000, 8, SMALL, 2),
        f"mixed-{MOST_OPERATIONS}": most(),
        "stacked-4000": stacked(4000),
        "handed-over-1": handed_over(1, 1000, 25),
        "handed-over-16": handed_over(SCHEDULERS, 125, 25),
        "ended-turns": ended_turns(),
        "filled-512": filled_carriers(1100),
        "full-1": full(1, SMALL_BLOCKS),
        "full-64": full(MOST_SCHEDULERS, MOST_OPERATIONS),
        "tries": tries(),
        f"generated/{2**18}": f"type H\ngenerate 7 {2**18 // SCHEDULERS}\nend\n",
        f"generated/{MOST_OPERATIONS}": f"type H\ngenerate 7 {MOST_OPERATIONS // SCHEDULERS}\nend\n",
        "carriers/one-by-one": carriers(2000),
        "migrating/searching": searching(OF_4096, 100_000) + CLOSING,
        "migrating/abandoned": abandoned(SCHEDULERS, 100_000, 250),
        "migrating/staying": mixed(200000, 8, SMALL, 2),
        "steps/crowded": crowded_steps(OF_4096, TOLD_BLOCKS, TOLD_PAIRS),
        "steps/tries": tries_in_turn(),
        "strategies/filled": crowded(5600, 5000, 8000, 15000, 0),
        "strategies/changing": crowded(5600, 5000, 8000, 15000, 5000),
        "strategies/equal-filled": crowded(5120, 4600, TWENTIETH, TWENTIETH, 0),
        "strategies/equal-changing": crowded(5120, 4600, TWENTIETH, TWENTIETH, 5000),
    }
    for name in ("mixed-200000", "tries", "handed-over-16"):
        made[f"stops/{name}"] = with_stops(made[name])
    made.update(live_traces())
    made.update(alone_traces())
    made.update(idle_traces())
    made.update(typed_traces())
    for name, text in wanted_back():
        made[f"wanted/{name}"] = text
    for name, text in without_change():
        made[f"operations/{name}"] = text
    for name, sections, closing in for_threads():
        made[f"threads/{name}"] = sections + "threads\nend\n"
        made[f"schedules/{name}"] = sections + closing
    for name, text in made.items():
        os.makedirs(os.path.dirname(f"{folder}/{name}"), exist_ok=True)
        with open(f"{folder}/{name}.trace", "w", encoding="ascii", newline="\n") as file:
            file.write(text)


if __name__ == "__main__":
    if len(sys.argv) != 2:
        sys.exit("usage: python3 bench/inputs.py FOLDER")
    main(sys.argv[1])
