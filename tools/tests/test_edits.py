#!/usr/bin/env python3
"""Tests of bench/edits where it reads logs of edits: python3 tools/tests/test_edits.py [PROGRAM], which it doesn't use.

Each runs it in a small checkout of its own, over what rt printed of edits. The last line is 'N passed, M failed'.
"""
import os
import shutil
import subprocess
import sys
import tempfile
import unittest

sys.dont_write_bytecode = True
from counted import run_tests

TOP = os.path.dirname(os.path.dirname(os.path.dirname(os.path.realpath(__file__))))
# What rt printed of an edit, by its name, cut where rt cuts it.
FALSE = {
    "ea_cset/age_by_number": (
        "note: src/keys.rt:54:1: it is not proved that what the function ensures holds when it returns "
        "(`returns-in-Age-clause-key`); the facts known there allow values "
    ),
}
OPEN = {
    "ea_keytree/more_positions_than_links": (
        "note: src/tree.rt:77:5: it is not proved that what the function ensures holds when it returns "
        "(`returns-clause-ok`); `search` gave up at one of its limits"
    ),
}
PROOF = {
    "ea_keytree/number_after_the_key_for_the_key": (
        "./proofs/tree/KeyTree/last_up_to/Answers.antt:15:5: error: `returns-clause-found`: as printed, the two types "
        "differ only where one has `c.last_up_to-last.result"
    ),
}
SAID = {**FALSE, **OPEN, **PROOF}
KINDS = """\
ea_cset/age_by_number false
ea_keytree/more_positions_than_links open
ea_keytree/number_after_the_key_for_the_key proof
"""


def said_of(edit, text):
    return f"must-fail {edit}.edit: refused, as it must be: {text}\n"


class Edits(unittest.TestCase):
    def setUp(self):
        room = tempfile.TemporaryDirectory()
        self.addCleanup(room.cleanup)
        self.room = room.name
        os.mkdir(f"{self.room}/bench")
        shutil.copy(f"{TOP}/bench/edits", f"{self.room}/bench")
        self.write("bench/claims.txt", "")
        self.write("crates.txt", "ea_keytree:\nea_cset:\n")
        for edit in SAID:
            self.add(edit)

    def write(self, name, text):
        os.makedirs(os.path.dirname(f"{self.room}/{name}"), exist_ok=True)
        with open(f"{self.room}/{name}", "w", encoding="utf-8") as file:
            file.write(text)

    def read(self, name):
        with open(f"{self.room}/{name}", encoding="utf-8") as file:
            return file.read()

    def add(self, edit):
        crate, name = edit.split("/")
        self.write(f"crates/{crate}/src/lib.rt", "1\n")
        self.write(f"crates/{crate}/must-fail/{name}.edit", "file: src/lib.rt\nold: 1\nnew: 2\n")

    def run_edits(self, *words):
        command = [sys.executable, "-B", f"{self.room}/bench/edits", *words]
        ended = subprocess.run(command, stdout=subprocess.PIPE, stderr=subprocess.DEVNULL, text=True, check=False)
        return ended.returncode, ended.stdout

    def kinds_of(self, text, *crates):
        self.write("log", text)
        return self.run_edits("--kinds", f"{self.room}/log", *crates)

    def test_each_edit_has_the_kind_that_its_line_tells(self):
        log = "rt: ea_model is kept\n" + "".join(f"rt: {said_of(*it)}" for it in SAID.items()) + "15 passed, 0 failed\n"
        self.assertEqual(self.kinds_of(log), (0, "1 false, 1 open, 1 proof\n3 passed, 0 failed\n"))
        self.assertEqual(self.read("bench/kinds.txt"), KINDS)

    def test_lines_of_edits_that_a_log_does_not_have_stay(self):
        edit = "ea_keytree/more_positions_than_links"
        self.write("bench/kinds.txt", KINDS)
        refused = said_of(edit, PROOF["ea_keytree/number_after_the_key_for_the_key"])
        self.assertEqual(self.kinds_of(refused), (0, "1 false, 0 open, 2 proof\n1 passed, 0 failed\n"))
        self.assertEqual(self.read("bench/kinds.txt"), KINDS.replace("open", "proof"))

    def test_an_edit_that_is_gone_loses_its_line(self):
        self.write("bench/kinds.txt", "ea_keytree/gone open\n" + KINDS)
        self.assertEqual(self.kinds_of("")[0], 0)
        self.assertEqual(self.read("bench/kinds.txt"), KINDS)

    def test_a_name_limits_the_edits(self):
        log = "".join(said_of(*it) for it in SAID.items())
        self.assertEqual(self.kinds_of(log, "ea_cset"), (0, "1 false, 0 open, 0 proof\n1 passed, 0 failed\n"))
        self.assertEqual(self.read("bench/kinds.txt"), KINDS.partition("\n")[0] + "\n")

    def test_a_cut_line_tells_the_kind_by_what_is_left_of_it(self):
        edit = "ea_keytree/more_positions_than_links"
        uncut, _, _ = OPEN[edit].partition("; ")
        for text, kind in [
            (f"{uncut}; the facts known there allow values at which this goal is false", "false"),
            (f"{uncut}; the fac", "false"),
            (f"{uncut}; `gr", "open"),
            (f"{uncut}; ", "open"),
            (uncut, "open"),
            (uncut[:-5], "open"),
        ]:
            with self.subTest(text=text):
                self.assertEqual(self.kinds_of(said_of(edit, text))[0], 0)
                self.assertEqual(self.read("bench/kinds.txt"), f"{edit} {kind}\n")

    def test_an_edit_that_a_proof_file_or_a_limit_refuses(self):
        edit = "ea_keytree/more_positions_than_links"
        for text, kind in [
            (f"refused, as it must be (only because a proof file names what the edit took away, so this says little of "
             f"the contract: change a value and keep the names): {PROOF['ea_keytree/number_after_the_key_for_the_key']}",
             "proof"),
            (f"refused, as it must be (only by a limit of the prover, which gave no verdict, so this says less of the "
             f"contract: choose a change that it refuses sooner): {OPEN[edit]}", "open"),
        ]:
            with self.subTest(kind=kind):
                self.assertEqual(self.kinds_of(f"must-fail {edit}.edit: {text}\n")[0], 0)
                self.assertEqual(self.read("bench/kinds.txt"), f"{edit} {kind}\n")

    def test_an_edit_that_was_not_refused_is_a_fault(self):
        edit = "ea_keytree/more_positions_than_links"
        for text in [
            "NOT REFUSED: the crate is still proved with this edit (one that means the same as before cannot be refused: remove it)",
            "BAD EDIT: an 'old:' text is in src/tree.rt 0 times, and not once",
            "NOT TRIED: its check was killed, most likely for memory, so nothing is known of it: run this again",
            "refused, as it must be",
            "refused, as it must be: src/tree.rt:77:5: error: `self` is borrowed here",
        ]:
            with self.subTest(text=text):
                self.write("bench/kinds.txt", KINDS)
                status, told = self.kinds_of(f"rt: must-fail {edit}.edit: {text}\n")
                self.assertEqual((status, told.split("\n")[-2]), (1, "0 passed, 1 failed"))
                self.assertNotIn(edit, self.read("bench/kinds.txt"))

    def test_a_check_compares_the_kinds_with_the_gates_edits(self):
        self.write("bench/kinds.txt", KINDS.replace("number_after", "key_after"))
        status, told = self.run_edits("--check")
        self.assertEqual(status, 1)
        self.assertEqual([it for it in told.split("\n") if it.startswith("bench/kinds.txt")], [
            "bench/kinds.txt has ea_keytree/key_after_the_key_for_the_key, which is no edit of the gate",
            "bench/kinds.txt has no line for ea_keytree/number_after_the_key_for_the_key",
        ])
        self.write("bench/kinds.txt", KINDS)
        self.assertNotIn("bench/kinds.txt", self.run_edits("--check")[1])

    def test_a_log_that_is_not_there_is_named(self):
        self.assertEqual(self.run_edits("--kinds", f"{self.room}/log"), (2, ""))


if __name__ == "__main__":
    sys.exit(run_tests())
