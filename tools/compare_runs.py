"""The runs of tools/compare: side by side, each in a process of its own, and what signals leave of them."""
import argparse
import multiprocessing
import os
import re
import signal
import threading
import time
from collections import deque
from dataclasses import dataclass
from multiprocessing.connection import Connection, wait

from compare_sums import PEAK, VALLEY
from files import reason_of
from program import LOCK, end_runs
from rows import empty_row, read_input, rows_of_run
from texts import MARK

CONTEXT = multiprocessing.get_context("fork")
PEAKS = re.compile(rb"^%s *(%s|%s)" % (MARK, PEAK.encode(), VALLEY.encode()), re.MULTILINE)
OF_AN_END = (signal.SIGINT, signal.SIGTERM, signal.SIGHUP)
# After so many seconds a further signal ends the tool in the middle of what it does.
PATIENCE = 2


class Signals:
    """The signals that end the tool: the first one ends the runs, and what is done is written. To whom they are sent
    and how often is no matter: the processes of the runs have sessions of their own, and further ones do nothing until
    they come late, where a write waits for its reader, say."""

    def __init__(self):
        self.first = None
        # Whether the first one is waited for; otherwise it raises KeyboardInterrupt.
        self.is_awaited = False
        self.read_end, self.write_end = os.pipe()
        os.set_blocking(self.write_end, False)

    def take(self):
        """Those that are ignored from the beginning, as nohup has it, stay so."""
        for it in OF_AN_END:
            if signal.getsignal(it) != signal.SIG_IGN:
                signal.signal(it, self.come)
        signal.set_wakeup_fd(self.write_end, warn_on_full_buffer=False)

    def come(self, *_):
        is_first = self.first is None
        self.first = self.first or time.monotonic()
        if not self.is_awaited if is_first else time.monotonic() - self.first > PATIENCE:
            raise KeyboardInterrupt

    def came(self):
        return self.first is not None

    def end(self):
        """From here on none changes the status, with which the tool is about to end."""
        signal.pthread_sigmask(signal.SIG_BLOCK, OF_AN_END)


# The rows of a run


def wants_marks(file, options):
    """Whether the rows of an input are to be at its marks, too: where that is asked for, or it has peaks or valleys."""
    return options.marks or bool(PEAKS.search(read_input(file)[0] or b""))


def rows_of_task(program, options, flags, file):
    options = argparse.Namespace(**{**vars(options), "marks": wants_marks(file, options)})
    return rows_of_run(program, flags, file, options)


# The process of a run


def end_when_cut(lifeline):
    """Ends this process and its runs once nobody has the other end of the lifeline, also if the tool was killed."""
    os.read(lifeline, 1)
    with LOCK:
        end_runs()
        os._exit(1)


def work(one_run, task, answer, lifeline):
    """In a process of its own: makes the rows of a task and sends them."""
    signal.set_wakeup_fd(-1)
    for it in OF_AN_END:
        # Not ignored, since the program would inherit that.
        signal.signal(it, lambda *_: None)
    os.setsid()
    os.close(lifeline[1])
    threading.Thread(target=end_when_cut, args=lifeline[:1], daemon=True).start()
    answer.send(one_run(*task))


@dataclass
class UnderWay:
    number: int
    process: multiprocessing.Process
    answer: Connection

    def rows(self, task):
        """Its rows, or one that says that it was killed."""
        try:
            return self.answer.recv()
        except (EOFError, OSError):
            return [{**empty_row(*task), "said": "a process of this tool was killed"}]
        finally:
            self.answer.close()
            self.process.join()


def begun(one_run, number, task, lifeline):
    answer, its_end = CONTEXT.Pipe(duplex=False)
    process = CONTEXT.Process(target=work, args=(one_run, task, its_end, lifeline), daemon=True)
    try:
        process.start()
    finally:
        its_end.close()
    return UnderWay(number, process, answer)


# All of them


def results(one_run, tasks, jobs, signals):
    """The number of each task and its rows, as they come, until a signal comes: then those that are there."""
    waiting, under_way, lifeline = deque(enumerate(tasks)), {}, os.pipe()
    signals.is_awaited = True
    try:
        while (waiting or under_way) and not signals.came():
            while waiting and len(under_way) < jobs and not signals.came():
                number, task = waiting.popleft()
                try:
                    it = begun(one_run, number, task, lifeline)
                except OSError as error:
                    yield number, [{**empty_row(*task), "said": f"no process: {reason_of(error)}"}]
                else:
                    under_way[it.answer] = it
            for it in wait([*under_way, signals.read_end]):
                if it in under_way:
                    found = under_way.pop(it)
                    yield found.number, found.rows(tasks[found.number])
        for it in wait([*under_way], 0) if under_way else []:
            found = under_way.pop(it)
            yield found.number, found.rows(tasks[found.number])
    finally:
        for it in lifeline:
            os.close(it)
        for it in under_way.values():
            it.process.join(PATIENCE)
            it.process.kill()
