"""The search of tools/advise: the node's own list, lists with one change each, and the best changes together."""
import time

from advise_runs import Bench, Trial, curve_of, result_of, single_changes, together, words_of
from advise_table import Table, check_of

# Of the time that there is, which part the lists with one change have, and which part is over when these together are.
FOR_SINGLES, FOR_ALL = 0.65, 0.9


class Search:
    """Tries lists on the recordings of one allocator until its time is over, and keeps what came of each."""

    def __init__(self, program, cases, by, jobs, seconds):
        self.program, self.cases, self.by, self.jobs = program, cases, by, jobs
        self.begin, self.seconds = time.monotonic(), seconds
        self.is_interrupted = False
        self.checks, self.own, self.trials = [], None, []

    def bench(self, part):
        """For runs that end when such a part of the time is over."""
        made = Bench(self.jobs, self.begin + part * self.seconds)
        made.is_interrupted = self.is_interrupted
        return made

    def run(self, title, part, tasks):
        bench = self.bench(part)
        results = bench.run(title, tasks)
        self.is_interrupted = bench.is_interrupted
        return results

    def check(self):
        """Runs the node's own list. It returns the replay of each recording beside the node."""
        tasks = [(result_of, self.program, it.flags, it) for it in self.cases]
        results = self.run("the node's own flags", 1, tasks)
        self.checks = [check_of(*it) for it in zip(self.cases, results) if it[1] and it[1].said is None]
        return self.checks

    def keep(self, checks):
        """Goes on with these recordings alone."""
        self.checks, self.cases = checks, [it.case for it in checks]
        self.own = Trial((), [it.result for it in checks])
        self.trials = [self.own]

    def try_lists(self, title, part, lists):
        tried = {it.changes for it in self.trials}
        lists = [it for it in dict.fromkeys(lists) if it not in tried]
        tasks = []
        for changes in lists:
            for case in self.cases:
                tasks.append((result_of, self.program, [*case.flags, *words_of(changes, case.letter)], case))
        results, count = self.run(title, part, tasks), len(self.cases)
        self.trials += [Trial(it, results[at * count : (at + 1) * count]) for at, it in enumerate(lists)]

    def table(self):
        return Table(self.checks, self.own, self.trials, self.by)

    def try_all(self):
        case = self.cases[0]
        self.try_lists("lists with one change", FOR_SINGLES, single_changes(case.flags, case.letter))
        better = [it.trial.changes for it in self.table().lines if it.score < 0 and not it.failed]
        self.try_lists("changes together", FOR_ALL, together([it for it in better if it]))
        return self.table()

    def curves(self, lines):
        """For the first recording the megabytes of these lists at each mark, by the lists' names."""
        case = self.cases[0]
        tasks = [(curve_of, self.program, [*case.flags, *words_of(it.trial.changes, case.letter)], case) for it in lines]
        found = self.run("curves", 1.2, tasks)
        return {it.name: curve for it, curve in zip(lines, found) if curve}
