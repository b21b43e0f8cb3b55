"""A whole run: its entries in an order that fits them, and what is known of its carriers, for tools/picture."""
import bisect
import concurrent.futures
import itertools
import re
from collections import defaultdict
from dataclasses import dataclass

from flags import Settings
from picture_order import Order, Replay, hints, recorded_order
from picture_text import begun_at, is_stop, live_of, read_entry, read_log, read_text
from refused import Refused
from texts import read_carrier

MOST_SUBSETS = 2**12
WITHOUT_ORDER = (
    "a load whose order is known: one scheduler, `schedule` without turns, or operations in their recorded order; or"
    " +M<S>acul 0, or fewer operations"
)
HEADER = 8
PAGE = 512

NOTES = {
    "all": "Where blocks lie is read from the entries of the program's text, and where carriers lie from its carrier "
    "lines and from those of runs of the first operations alone. Nothing is computed anew.",
    "one": "With one scheduler there is one order, and what is drawn is exact at each moment.",
    "several": [
        "The text has no order between the logs of two schedulers. The order shown is this page's own: each log's "
        "entries in their order, a give before its take, and no block where another one is held.",
        "A queued block is drawn until the text shows that it is released: its place is taken, its carrier is another "
        "one, or the line of its carrier at the end is without it. It may have been sooner, and so may the end of its "
        "carrier.",
        "Base and pages of a carrier that is gone at the end are those of a run of the first operations alone whose "
        "logs say the same.",
    ],
    "recorded": "The operations came in the order that is shown: that of the lines of the input. A queued block is "
    "drawn until the next operation of the scheduler in whose queue it is begins.",
    "threads": "The schedulers ran as threads. This is one run of those that there may be.",
    "stops": "What a stopped scheduler keeps is told as it is at the end. How far it was in its operation is told by "
    "runs of the same trace in which that operation is another one, or in which the scheduler has one step more.",
    "unknown": "Carriers whose base and pages are not known, or not for all the time: {}. They were not asked for, or "
    "not found. Their blocks are drawn beside their numbers, without a place in the region.",
    "end": "At the last moment the picture agrees with the carrier lines and the totals of the text.",
}


# The end of the run, and fronts of it


def largest_gap(blocks, pages):
    """The units of the largest gap of a carrier with these blocks, which stand by rising offset."""
    at, largest = HEADER, 0
    for block in blocks:
        at, largest = block.end, max(largest, block.offset - at)
    return max(largest, pages * PAGE - at)


def fits(line, blocks):
    return sum(it.size for it in blocks) == line.allocated and largest_gap(blocks, line.pages) == line.largest


def gone_of(line, blocks):
    """The queued blocks of a carrier that are released, by its line: the first ones if that fits, else any that do."""
    waiting = sorted((it for it in blocks if it.queued is not None), key=lambda it: it.queued)
    for count in range(len(waiting) + 1):
        gone = set(waiting[:count])
        if fits(line, [it for it in blocks if it not in gone]):
            return gone
    for chosen in range(2 ** len(waiting) if 2 ** len(waiting) <= MOST_SUBSETS else 0):
        gone = {it for at, it in enumerate(waiting) if chosen >> at & 1}
        if fits(line, [it for it in blocks if it not in gone]):
            return gone
    return None


@dataclass
class Front:
    """The first operations of each section, up to this moment, and what the text of them has to begin with."""

    moment: int
    input: bytes
    logs: str


def held_by(log):
    """The names that a scheduler holds after these entries."""
    held = set()
    for entry in log:
        held -= {entry.given, entry.ended and entry.ended[0]}
        held |= {entry.taken, entry.placed and entry.placed[0]}
    return held


class Run:
    """A whole run: its entries in the order in which they are shown, and what is known of its blocks and carriers."""

    def __init__(self, name, program, trace, text):
        self.name, self.program, self.trace = name, program, trace
        self.settings = Settings.of(program.words, trace.letter)
        if trace.order is not None:
            count = sum(re.fullmatch("scheduler [0-9]+", it) is not None for it in text.split("\n"))
            trace.sections += [[] for _ in range(count - len(trace.sections))]
            trace.places += [[] for _ in range(count - len(trace.places))]
        try:
            self.text = read_text(text, trace.sections)
        except (IndexError, ValueError) as error:
            raise Refused(f"{program.path}: this is not the simulator: its text has another form") from error
        self.mains = [it for it in self.text.carriers if it.kind == "main"]
        threshold, logs = self.settings.threshold, zip(self.trace.sections, self.text.logs)
        self.find_order([read_log(number, *it, threshold) for number, it in enumerate(logs, 1)])

    @property
    def is_exact(self):
        return len(self.trace.sections) == 1

    @property
    def migrates(self):
        return self.settings.migrates

    @property
    def last(self):
        """The last moment. With several schedulers that is their end, after the last entry."""
        return len(self.order) + (not self.is_exact)

    def find_order(self, logs):
        """Puts the entries in order, and takes the first order that leads to the text's end."""
        fault = Refused(f"{self.name}: no order of the schedulers' entries was found that fits them all", WITHOUT_ORDER)
        for told in self.told_stops(logs):
            for candidate in [self.follow(told[0])] if self.is_exact else self.orders(told):
                try:
                    self.take_order(*candidate)
                    return
                except Refused as refused:
                    fault = refused
        raise fault

    def orders(self, logs):
        if self.trace.order is not None:
            return [recorded_order(logs, self.trace.order, self.migrates, self.mains)]
        return Order(logs, hints(self.trace, logs), self.migrates, self.mains).candidates()

    def told_stops(self, logs):
        """These logs with what each stopped operation had done, where the totals allow it."""
        choices = [self.choices(log) for log in logs]
        for chosen in itertools.islice(itertools.product(*choices), MOST_SUBSETS):
            told = [[*log[:-1], *last] if last else log for log, last in zip(logs, chosen)]
            if live_of(told) == self.text.total["live"]:
                yield told

    def choices(self, log):
        """What the last entry of this log may be, if it is a stop: one thing, or two where threads run anew another
        way."""
        stop = log[-1].stop if log else None
        if not stop:
            return [()]
        words = stop.operation.split() or [""]
        if words[0] not in ("free", "realloc") or words[1] not in held_by(log):
            return [log[-1:]]
        probed = self.probed(log, stop, words)
        if self.is_exact or not self.trace.has_threads:
            return [[probed or log[-1]]]
        begun = probed or (begun_at(stop, None) if words[0] == "free" else None)
        return [[it] for it in (begun, log[-1]) if it]

    def probed(self, log, stop, words):
        """The entry of a stop whose operation had put a block in the hand, or None if it had not. An `idle` in its
        place is over where a `free` has the block in the hand, and an `alloc` where a `realloc` has placed the new
        one; up to there both take the same steps."""
        at = len(log) - 1
        operation = "idle" if words[0] == "free" else f"alloc {words[2]} {words[3]}"
        lines = self.log_of(self.trace.with_operation(stop.scheduler, at, operation), stop.scheduler)
        if lines[:at] != [it.line for it in log[:-1]] or is_stop((lines[at:] or ["stopped "])[0]):
            return None
        entry = begun_at(stop, read_entry(stop.scheduler, operation, lines[at], self.settings.threshold))
        if self.is_exact or not self.trace.has_threads:
            more = self.log_of(self.trace.with_a_step_more(stop.scheduler), stop.scheduler)[at : at + 1]
            entry.stop.next = "".join(it for it in more if not is_stop(it))
        return entry if words[0] == "free" or entry.placed else None

    def log_of(self, text, scheduler):
        """The log of a scheduler in the run of another trace with as many operations."""
        try:
            ran = self.program.run(text.encode("latin-1"), self.name)
        except Refused:
            return []
        return read_text(ran, self.trace.sections).logs[scheduler - 1]

    def follow(self, log):
        replay = Replay(self.migrates, self.mains)
        for entry in log:
            replay.follow(entry)
        return replay, log

    def take_order(self, replay, order):
        self.replay, self.order = replay, order
        self.settle_end()
        self.check_total()

    def settle_end(self):
        """Brings the last moment into agreement with the carriers' lines."""
        lines = {it.number: it for it in self.text.carriers}
        for number, life in list(self.replay.there.items()):
            if number not in lines:
                self.drop(life.blocks, f"carrier {number} has a held block, and no line at the end")
        for number, line in lines.items():
            life = self.replay.there.get(number) or self.revived(number)
            gone = gone_of(line, life.blocks)
            if gone is None:
                raise Refused(f"{self.name}: the blocks of carrier {number} do not agree with its line at the end")
            self.drop(gone, "")
            self.learn(life, life.spans[-1], line, self.last)
        self.settle_stops()

    @property
    def stops(self):
        """The stops by their moments."""
        return [it.stop for it in self.order if it.stop]

    def kept(self):
        """For each stop, by their moments, the words on what its scheduler keeps."""
        return [(it, list(Kept(self, it).words())) for it in self.stops]

    def settle_stops(self):
        """What a stopped scheduler uses at the end it has used since its stop, and what it was releasing and is gone it
        had released."""
        for stop in () if self.is_exact else self.stops:
            for block in self.replay.blocks:
                if block.is_kept and block.name == stop.released and block.gone is not None:
                    block.gone = stop.moment
            for life in self.replay.there.values():
                _, standing, user = life.told[-1]
                since = life.told_at(stop.moment)
                is_its_own = user == stop.scheduler and standing in ("employed", "busy")
                if is_its_own and since and since[2] == user and life.is_there(stop.moment):
                    life.tell_from(stop.moment, standing, user)

    def revived(self, number):
        """A carrier without blocks that is there at the end."""
        life = next((it for it in reversed(self.replay.lives) if it.number == number), None)
        if not life:
            raise Refused(f"{self.name}: no entry tells of carrier {number}, which has a line at the end")
        life.gone = life.spans[-1].end = None
        self.replay.there[number] = life
        return life

    def drop(self, blocks, fault):
        for block in list(blocks):
            if block.queued is None:
                raise Refused(f"{self.name}: {fault}")
            self.replay.moment = self.last
            life = block.life
            self.replay.release(block)
            if not life.blocks and life.number in {it.number for it in self.text.carriers}:
                self.revived(life.number)

    def learn(self, life, span, line, moment):
        """Takes over what a carrier's line says of this moment."""
        if span.base is not None and (span.base, span.pages) != (line.base, line.pages):
            raise Refused(f"{self.name}: carrier {line.number} has two places in runs of its front")
        if life.kind != line.kind:
            raise Refused(f"{self.name}: carrier {line.number} is {line.kind}, and its blocks are of a {life.kind} one")
        span.base, span.pages = line.base, line.pages
        if not self.is_exact:
            life.tell(moment, line.standing, line.employer)
            return
        at = bisect.bisect_right(life.told, moment, key=lambda it: it[0]) - 1
        life.told[at] = life.told[at][0], line.standing, line.employer

    def check_total(self):
        """Compares the last moment with the totals."""
        found = self.figures(self.last)
        if found != self.text.total:
            raise Refused(f"{self.name}: at the end entries and carriers give {found}, not {self.text.total}")

    def figures(self, moment):
        """The totals at this moment, of the carriers whose pages are known."""
        pages = {it: it.span_at(moment).pages for it in self.replay.lives if it.is_there(moment)}
        pages = {life: count for life, count in pages.items() if count is not None}
        blocks = [it for it in self.replay.blocks if it.is_there(moment) and it.life in pages]
        units, header = PAGE * sum(pages.values()), HEADER * len(pages)
        queued = sum(it.size for it in blocks if it.is_queued(moment))
        live = sum(it.size for it in blocks) - queued
        free = units - live - queued - header
        return {"carriers": len(pages), "units": units, "live": live, "queued": queued, "free": free, "header": header}

    def marks(self):
        """The moments of the input's marks, with their names, by these moments."""
        return sorted(((self.moment_of(*place), name) for name, *place in self.trace.marks), key=lambda it: it[0])

    def moment_of(self, section, done):
        """The moment after that many operations of a section, or of all if their order is that of the input."""
        if self.is_exact or self.trace.order is not None:
            return min(done, len(self.order))
        moments = [at for at, it in enumerate(self.order, 1) if it.scheduler == section]
        if not moments:
            return 0
        return moments[min(done, len(moments)) - 1] if done else moments[0] - 1

    def failed_words(self):
        """What has to be said if allocations failed, or nothing."""
        reasons = [line.rsplit(" ", 1)[1] for log in self.text.logs for line in log if " fail need " in line]
        if not reasons:
            return ""
        space, numbers = reasons.count("space"), reasons.count("numbers")
        return (f"FAILED allocations: {len(reasons)}, so less is drawn than the load has: {space} for want of pages (a"
                f" larger +MMscs), {numbers} for want of numbers (an instance has 1024 carriers at most)")

    def front_at(self, moment):
        lengths = [0] * len(self.trace.sections)
        for entry in self.order[:moment] if not self.is_exact else ():
            lengths[entry.scheduler - 1] += 1
        lengths = [moment] if self.is_exact else lengths
        data, idle = self.trace.front(lengths, [it.scheduler for it in self.stops if it.moment <= moment])
        logs = [log[:length] for log, length in zip(self.text.logs, lengths)]
        for number, at in idle:
            logs[number - 1][at] = logs[number - 1][at] if is_stop(logs[number - 1][at]) else "idle"
        parts = ["\n".join([f"scheduler {number}", *log, ""]) for number, log in enumerate(logs, 1)]
        return Front(moment, data.encode(), "".join(parts))

    def unknown(self):
        """The spans of time in which a carrier's place is not known."""
        return [span for life in self.replay.lives for span in life.spans if span.base is None]

    def to_ask(self):
        """From when up to before when one may ask for each of them. With several schedulers the queues are taken at the
        end of a front, so that the carrier is there for sure only as long as a block in it is held."""
        held = {}
        for block in () if self.is_exact else self.replay.blocks:
            ends = [it for it in (block.queued, block.gone) if it is not None]
            held[block.life] = max(held.get(block.life, 0), min(ends, default=self.last))
        lives = [(life, span) for life in self.replay.lives for span in life.spans if span.base is None]
        found = [(span.start, min(span.end, held.get(life, span.end))) for life, span in lives]
        return [it for it in found if it[0] < it[1]]

    def ask(self, moments, jobs, tell=lambda _: None):
        """Runs the fronts that end at these moments, and takes over what their carriers' lines say."""
        moments = sorted(set(moments) - {self.last})
        if not moments:
            return
        known = {(it.number, it.born): it for it in self.replay.lives}
        again, order = Replay(self.migrates, self.mains), iter(self.order)
        pool = concurrent.futures.ThreadPoolExecutor(jobs)
        try:
            for done, (moment, lines) in enumerate(zip(moments, pool.map(self.carriers_of_front, moments))):
                tell(f"{self.name}: {done} of {len(moments)} fronts")
                while again.moment < moment:
                    again.follow(next(order))
                self.take_over(moment, lines, again, known)
        finally:
            pool.shutdown(cancel_futures=True)
        if not self.is_exact:
            self.part_overlaps()

    def part_overlaps(self):
        """Where a carrier has the pages of one that has only queued blocks, that one is gone. If it has others, the
        order that is shown is not the run's: then the place of one of the two is not told."""
        blocks, there = defaultdict(list), []
        for block in self.replay.blocks:
            blocks[block.life].append(block)
        known = [(life, span) for life in self.replay.lives for span in life.spans if span.base is not None]
        for life, span in sorted(known, key=lambda it: it[1].start):
            there = [it for it in there if it[1].end is None or it[1].end > span.start]
            for other, place in there:
                if place.base is None or not place.overlaps(span):
                    continue
                left = [it for it in blocks[other] if it.is_there(span.start)]
                if other.gone is not None and all(it.is_queued(span.start) for it in left):
                    other.end(span.start)
                    for block in left:
                        block.gone = span.start
                elif place.end is not None:
                    place.base = place.pages = None
                elif span.end is not None:
                    span.base = span.pages = None
                    break
            there.append((life, span))

    def carriers_of_front(self, moment):
        """The carriers' lines of the front that ends at this moment, or None where its logs are others."""
        front = self.front_at(moment)
        try:
            text = self.program.run(front.input, self.name)
        except Refused:
            if self.is_exact:
                raise
            return None
        if not text.startswith(front.logs):
            return None
        return [read_carrier(it) for it in text[len(front.logs) :].split("\n") if it.startswith("carrier ")]

    def take_over(self, moment, lines, again, known):
        there = {it.number: it for it in lines or ()}
        if self.is_exact and (lines is None or there.keys() != again.there.keys()):
            raise Refused(f"{self.name}: the first {moment} operations alone give other entries or carriers")
        for number, line in there.items():
            life = again.there.get(number)
            if life and gone_of(line, life.blocks) is not None:
                mine = known[number, life.born]
                self.learn_from_front(mine, line, moment)
            elif self.is_exact:
                raise Refused(f"{self.name}: after {moment} operations carrier {number} has other blocks than its line")

    def learn_from_front(self, life, line, moment):
        span = life.span_at(moment)
        if self.is_exact:
            self.learn(life, span, line, moment)
        elif span.base is None:
            span.base, span.pages = line.base, line.pages

    def notes(self):
        """What has to be said beside the picture."""
        several = NOTES["several"] if self.trace.order is None else [NOTES["recorded"], *NOTES["several"][2:]]
        found = [NOTES["all"], *([NOTES["one"]] if self.is_exact else several)]
        if self.trace.has_threads and not self.is_exact:
            found.append(NOTES["threads"])
        if self.stops:
            found.append(NOTES["stops"])
        count = len(self.unknown())
        if count:
            found.append(NOTES["unknown"].format(count))
        return [*found, NOTES["end"]]


# What a stopped scheduler keeps


def plural(count, word):
    return f"{count} {word}" if count == 1 else f"{count} {word}s"


def numbers_words(numbers):
    """'carrier 1', 'carriers 1, 2 and 3'."""
    numbers = [str(it) for it in sorted(numbers)]
    if len(numbers) == 1:
        return f"carrier {numbers[0]}"
    return f"carriers {', '.join(numbers[:-1])} and {numbers[-1]}"


class Kept:
    """Says what a stopped scheduler keeps, as it is at the end of the run."""

    def __init__(self, run, stop):
        self.run, self.stop = run, stop
        self.there = run.replay.there.values()
        self.block = next((it for it in run.replay.blocks if it.is_kept and it.name == stop.released), None)

    def words(self):
        """The scheduler's stop, and a part for each thing that it keeps."""
        said = f"Scheduler {self.stop.scheduler} is stopped after {plural(self.stop.steps, 'step')} of its own"
        where = "with its operations done, before its end"
        if self.stop.operation:
            where = f"{'in' if self.block else 'at'} '{self.stop.operation}', which has no entry"
        return [f"{said}, {where}.", *self.of_block(), *self.of_carriers(), *self.of_queue()]

    def used(self, standing):
        return [it for it in self.there if it.told[-1][1:] == (standing, self.stop.scheduler)]

    def of_block(self):
        if self.stop.placed:
            yield f"Block {self.stop.placed} is placed and held."
        if not self.block:
            return
        name, line = self.stop.released, self.stop.next
        if self.block.gone is not None:
            yield f"Block {name} is released, and {self.carrier_words()}."
        elif line is None:
            yield f"Block {name} is in its hand, or in a queue and not linked there."
        elif line.split()[-2:-1] == ["queued"]:
            queue = int(line.split()[-1])
            yield f"Block {name} is in the queue of scheduler {queue} and not linked there: {self.behind(queue)}."
        else:
            yield f"Block {name} is in its hand: no scheduler releases it."

    def carrier_words(self):
        """What became of the carrier of a block that is released."""
        life = self.block.life
        standing, user = life.told[-1][1:]
        said = f"carrier {life.number}"
        if standing == "busy":
            return f"{said} is not back in the pool"
        if standing == "returning":
            return f"{said}, which is empty, {self.way_words(user)}"
        if life.blocks:
            return f"{said} is not abandoned, though that is due"
        where = "deallocated" if life.owner == self.stop.scheduler else f"sent to scheduler {life.owner}"
        return f"{said}, which is empty, is not {where}"

    def way_words(self, owner):
        """Where a carrier is that goes to its owner."""
        if self.stop.next is None:
            return f"is on its way to scheduler {owner}, and not linked in its queue"
        if not self.stop.next:
            return f"is in its hand, on its way to scheduler {owner}"
        return f"is in the queue of scheduler {owner} and not linked there: {self.behind(owner)}"

    def of_carriers(self):
        employed = self.used("employed")
        if employed:
            numbers = numbers_words(it.number for it in employed)
            yield f"It keeps {numbers}: no other scheduler places or releases a block there."
        for life in self.used("busy"):
            yield f"It leaves carrier {life.number} busy: no other scheduler fetches it, or releases a block there."

    def waiting(self, queue):
        return [it for it in self.run.replay.blocks if it.queue == queue and it.gone is None]

    def behind(self, queue):
        blocks = self.waiting(queue)
        if not blocks:
            return "what comes into that queue waits"
        return f"{plural(len(blocks), 'block')} more in that queue {'waits' if len(blocks) == 1 else 'wait'}"

    def of_queue(self):
        blocks = self.waiting(self.stop.scheduler)
        if blocks:
            units = plural(sum(it.size for it in blocks), "unit")
            yield f"{plural(len(blocks), 'block')} of {units} in its queue: no scheduler releases what is there."


def choose_fronts(spans, most):
    """Moments, at most so many, of which each of these spans has one, or else each of those that last longer."""
    shortest = 0
    while True:
        chosen = []
        for start, end in sorted((it for it in spans if it[1] - it[0] > shortest), key=lambda it: it[1]):
            if not chosen or chosen[-1] < start:
                chosen.append(end - 1)
        if len(chosen) <= most:
            return chosen
        shortest = max(1, 2 * shortest)
