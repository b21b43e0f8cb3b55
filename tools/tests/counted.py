"""How a file of tests runs, and what it starts."""
import signal
import sys
import unittest


def take_signals():
    """Has a child take these signals: a shell starts what runs in the background, and nohup what it runs, with some of
    them ignored."""
    for it in signal.SIGINT, signal.SIGTERM, signal.SIGHUP:
        signal.signal(it, signal.SIG_DFL)


def run_tests():
    """Runs the tests of the file that was started, counts them in a last line, and returns the status."""
    result = unittest.TextTestRunner(stream=sys.stdout).run(unittest.defaultTestLoader.loadTestsFromName("__main__"))
    failed = len(result.failures) + len(result.errors)
    print(f"{result.testsRun - failed - len(result.skipped)} passed, {failed} failed")
    return 1 if failed else 0
