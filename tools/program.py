"""The program, for the tools that run it: where it is, runs that end when the tool does, and its inputs."""
import contextlib
import os
import re
import signal
import subprocess
import threading

from files import reason_of
from refused import Refused

TOP = os.path.dirname(os.path.dirname(os.path.realpath(__file__)))
NOT_BUILT = 70
MOST_SCHEDULERS = 64
SMALLEST_TRACE = b"type H\nscheduler 1\nschedule\nend\n"
# The program's first words for an input of several allocator types, and for one of one shared region, each of which
# begins the first line of that, too; for one of operations in their recorded order; for the histograms and for the steps
# of a trace; and for one with writes and reads.
OF_SEVERAL, OF_REGION, OF_RECORDED, OF_HISTOGRAMS = "types", "super", "recorded", "histogram"
OF_STEPS, OF_CONTENTS = "steps", "contents"
# What begins the line of a recorded input, after its `type` line, that names the rules of a node by which it runs.
OF_RULES = b"rules"
RULES, NO_RULES = ("powers", "falling", "counter"), "none"
COMMANDS = (OF_SEVERAL, OF_REGION, OF_RECORDED, OF_HISTOGRAMS, OF_STEPS, OF_CONTENTS)


# Inputs


def is_said(line):
    """Whether the program does not skip a line."""
    return bool(line.strip()) and not line.lstrip().startswith(b"#")


def begin_of(lines):
    """The words of the first two lines that the program does not skip."""
    said = filter(is_said, lines)
    return [next(said, b"").split() for _ in range(2)]


def command_of(lines):
    """The words that come before the flags where the program takes an input of these lines: after the `type` line of a
    recorded one, and a line of rules, each line begins with a scheduler."""
    first, second = (it[:1] for it in begin_of(lines))
    if first == [OF_SEVERAL.encode()]:
        return [OF_SEVERAL]
    is_recorded = first == [b"type"] and second and (second[0].isdigit() or second[0] in (b"end", OF_RULES))
    return [OF_RECORDED] if is_recorded else []


def rules_of(lines):
    """The rules of a node by which an input of these lines runs, as it names them; the empty text where it names none."""
    second = begin_of(lines)[1]
    return b" ".join(second[1:]).decode("latin-1") if second[:1] == [OF_RULES] else ""


def with_schedulers(flags, data):
    """These flags; for recorded operations, where no +S is among them, with as many schedulers as these have."""
    if command_of(data.split(b"\n", 100)[:100]) != [OF_RECORDED] or "+S" in flags[::2] or len(flags) % 2:
        return flags
    numbers = {*map(int, re.findall(rb"^[^\S\n]*([0-9]{1,2})[^\S\n]", data, re.MULTILINE))}
    return [*flags, "+S", str(max((it for it in numbers if 0 < it <= MOST_SCHEDULERS), default=1))]


# Runs

# Those that are under way, of this process, and whether they were to end: a run that begins after that ends at once.
# Who holds the lock knows all of them: none begins meanwhile, but within a signal's handler.
RUNNING = set()
LOCK = threading.RLock()
IS_OVER = threading.Event()
# What is said of a run whose seconds were over begins so.
ENDED = "it was ended"


class Ended(Exception):
    """A run that was ended, since its seconds were over."""


def run(words, data, seconds=None):
    """What a run of these words with this input did. It is ended when its seconds are over, or by end_runs."""
    how = {"stdin": subprocess.PIPE, "stdout": subprocess.PIPE, "stderr": subprocess.PIPE, "start_new_session": True}
    with LOCK:
        child = subprocess.Popen(words, **how)
        RUNNING.add(child)
    with child:
        if IS_OVER.is_set():
            kill(child)
        try:
            text, said = child.communicate(data, timeout=seconds)
        except subprocess.TimeoutExpired:
            raise Ended(f"{ENDED} after {seconds} seconds") from None
        finally:
            with LOCK:
                RUNNING.discard(child)
            if child.poll() is None:
                kill(child)
    return subprocess.CompletedProcess(words, child.returncode, text, said)


def kill(child):
    """Ends a run and what it has started."""
    with contextlib.suppress(ProcessLookupError):
        os.killpg(child.pid, signal.SIGKILL)


def end_runs():
    """Ends the runs of this process at once, also one that is just beginning."""
    IS_OVER.set()
    for child in [*RUNNING]:
        kill(child)


# Where it is


def kept_program():
    """The path of the program that ./run runs: a proved one where there is one, else one that it compiles, which it
    says on standard error."""
    words = [f"{TOP}/run", "--path"]
    with subprocess.Popen(words, stdin=subprocess.DEVNULL, stdout=subprocess.PIPE) as child:
        try:
            path, _ = child.communicate()
        except BaseException:
            # By this signal it ends what it has started, too.
            child.terminate()
            raise
    if child.returncode:
        raise Refused(f"{TOP}/run: the program could not be built")
    return os.fsdecode(path.removesuffix(b"\n"))


def find_program(given):
    """The path of the program, which has run the smallest trace."""
    path = os.path.abspath(given) if given else kept_program()
    try:
        ran = subprocess.run([path], input=SMALLEST_TRACE, stdout=subprocess.PIPE, check=False)
    except OSError as error:
        raise Refused(f"{given or path}: {reason_of(error)}") from error
    if ran.returncode == NOT_BUILT:
        raise Refused(f"{path}: the program could not be proved or built")
    if ran.returncode or not ran.stdout.startswith(b"scheduler 1\ntotal "):
        raise Refused(f"{given or path}: this is not the simulator: it ends with status {ran.returncode}")
    return path


def told_of(said):
    """The program's line on standard error, without its name."""
    return said.decode(errors="replace").strip().rpartition("\n")[2].removeprefix("erts_alloc_run: ")
