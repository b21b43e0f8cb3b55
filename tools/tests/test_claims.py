#!/usr/bin/env python3
"""Tests of tools/claims: python3 tools/tests/test_claims.py. No program is run; the last line is 'N passed, M failed'.

Each but the last ones runs the tool in a checkout of two crates of its own.
"""
import os
import re
import shutil
import subprocess
import sys
import tempfile
import unittest

sys.dont_write_bytecode = True
from counted import run_tests

TOP = os.path.dirname(os.path.dirname(os.path.dirname(os.path.realpath(__file__))))
COUNTER = """\
//! Counters.
use crate::limits::least;

/// A counter.
pub struct Counter {
    value: u32,
}

impl Model for Counter {
    ghost invariant = { λ c. (c.value ≤ 10)
        × IsEven c.value };
}

impl Counter {
    /// Adds `by`, up to 10,
    /// and returns the value.
    #[inline]
    pub fn add(
        &mut self,
        by: u32,
    ) -> u32
        requires { by ≤ 10 }
        ensures value { self.new ≡ record { value = result;
            more = 0; } }

        // It grows, and
        // stays small.
        ensures grows { self.old ≤ self.new }
        ensures small { self.new ≤ 10 }
    {
        least(self.value + by, 10)
    }

    fn hidden(&self) -> u32 {
        self.value
    }
}

/// What counts.
pub trait Counts {
    /// Counts once.
    fn count(&mut self)
        ensures { Counted self.old self.new };
}
"""
LIMITS = """\
//! Limits.

/// The lesser one.
pub fn least(a: u32, b: u32) -> u32
    ensures { result ≡ min a b }
{
    if a < b { a } else { b }
}

/// Nothing that is exported.
pub(crate) fn inside() {}
"""
FILES = {
    "crates.txt": "# lowest first\nea_low:\nea_high: ea_low rayon\n",
    "crates/ea_low/src/lib.rt": "mod counter;\npub mod limits;\n\npub use counter::{Counter, Counts};\n",
    "crates/ea_low/src/counter.rt": COUNTER,
    "crates/ea_low/src/limits.rt": LIMITS,
    "crates/ea_low/specs/Counts.antt": "pub record Counted (a b : ℕ)\n    : Type 0 where\n  -- one more\n  pub more : a < b\n",
    "crates/ea_low/must-fail/least_is_greatest.edit": "file: src/limits.rt\nold: a < b\nnew: b < a\n",
    "bench/more-edits/ea_low/adds_nothing.edit": "file: src/counter.rt\nold: self.value + by\nnew: self.value\n",
    "crates/ea_high/src/main.rt": "fn main() {}\n",
    "bench/claims.txt": (
        "# comments are left out\n\n"
        "ea_low | - | - | - | The crate counts\n"
        "ea_low | Counter::add: value, small; Counts::count: Counted.more; Counter::invariant | - | one_is_added | It adds\n"
        "ea_low | limits::least; hidden | ea_low/least_is_greatest ea_low/gone | - | The least is less\n"
    ),
}
PRINTED = """\
# ea_low

claim: The crate counts

Counter::invariant  crates/ea_low/src/counter.rt:10
    ghost invariant = { λ c. (c.value ≤ 10) × IsEven c.value };
  claim: It adds
    tests: one_is_added

Counter::add  crates/ea_low/src/counter.rt:18
  Adds `by`, up to 10, and returns the value.
    ensures value { self.new ≡ record { value = result; more = 0; } }

    // It grows, and stays small.
    ensures grows { self.old ≤ self.new }
    ensures small { self.new ≤ 10 }
  claim: It adds
    tests: one_is_added
  edits of its lines: adds_nothing (bench/more-edits)

Counter::hidden  crates/ea_low/src/counter.rt:34
  claim: The least is less
    edit ea_low/least_is_greatest:
      src/limits.rt: a < b
      -> b < a
    edit ea_low/gone: it is not there

Counts::count  crates/ea_low/src/counter.rt:42
  Counts once.
    ensures { Counted self.old self.new };
  claim: It adds
    tests: one_is_added

limits::least  crates/ea_low/src/limits.rt:4
  The lesser one.
    ensures { result ≡ min a b }
  claim: The least is less
    edit ea_low/least_is_greatest:
      src/limits.rt: a < b
      -> b < a
    edit ea_low/gone: it is not there
  edits of its lines: least_is_greatest
"""


class Claims(unittest.TestCase):
    def setUp(self):
        room = tempfile.TemporaryDirectory(prefix="test-claims-")
        self.addCleanup(room.cleanup)
        self.room = os.path.realpath(room.name)
        os.makedirs(f"{self.room}/tools")
        shutil.copy(f"{TOP}/tools/claims", f"{self.room}/tools/claims")
        for name, text in FILES.items():
            self.write(name, text)

    def write(self, name, text):
        os.makedirs(os.path.dirname(f"{self.room}/{name}"), exist_ok=True)
        with open(f"{self.room}/{name}", "w", encoding="utf-8") as made:
            made.write(text)

    def run_tool(self, *words):
        return subprocess.run([f"{self.room}/tools/claims", *words], capture_output=True, text=True, check=False)

    def check(self, *lines, passed):
        ran = self.run_tool("--check")
        wanted = "".join(f"{it}\n" for it in (*lines, f"{passed} passed, {len(lines)} failed"))
        self.assertEqual((ran.returncode, ran.stdout, ran.stderr), (int(bool(lines)), wanted, ""))

    def refuse(self, why, *words):
        ran = self.run_tool(*words)
        self.assertEqual((ran.returncode, ran.stdout), (2, ""))
        self.assertIn(f"claims: error: {why}\n", ran.stderr)

    def test_a_crate_is_printed(self):
        ran = self.run_tool("ea_low")
        self.assertEqual((ran.returncode, ran.stdout, ran.stderr), (0, PRINTED, ""))

    def test_all_crates_are_printed(self):
        ran = self.run_tool()
        self.assertEqual((ran.returncode, ran.stdout, ran.stderr), (0, f"{PRINTED}\n# ea_high\n", ""))

    def test_good_claims(self):
        self.check(passed=3)

    def test_claims_of_what_is_not_there(self):
        claims = (
            "ea_low | add: value, grown; lessen | - | - | Words\n"
            "ea_low | Counts::count: Counted.fewer, Counter.more | - | - | Words\n"
            "ea_high | ea_low/least; least | - | - | Words\n"
        )
        self.write("bench/claims.txt", claims)
        self.check(
            "bench/claims.txt:1: add has no clause grown",
            "bench/claims.txt:1: ea_low has no function lessen",
            "bench/claims.txt:2: Counts::count has no clause Counted.fewer",
            "bench/claims.txt:2: Counts::count has no clause Counter.more",
            "bench/claims.txt:3: ea_high has no function least",
            passed=0,
        )

    def test_lines_that_are_no_claims(self):
        self.refuse("crates.txt has no crate ea_lost", "ea_lost")
        self.write("bench/claims.txt", "# first\nea_low | - | - | Words\n")
        self.refuse("bench/claims.txt:2: not five fields with '|' between them")
        self.write("bench/claims.txt", "ea_lost | - | - | - | Words\n")
        self.refuse("bench/claims.txt:1: crates.txt has no crate ea_lost", "--check")


class OfThisCheckout(unittest.TestCase):
    def test_sources_have_what_the_claims_name(self):
        ran = subprocess.run([f"{TOP}/tools/claims", "--check"], capture_output=True, text=True, check=False)
        self.assertEqual((ran.returncode, ran.stderr), (0, ""), ran.stdout)

    def test_the_page_of_claims_names_what_is_there(self):
        """Each CRATE/EDIT of docs/claims.md is an edit of the gate, and each field that it names is one of Protocol."""
        with open(f"{TOP}/docs/claims.md", encoding="utf-8") as file:
            page = file.read()
        edits = re.findall(r"`(ea_\w+|erts_alloc_run)/(\w+)`", page)
        self.assertTrue(edits)
        for crate, name in edits:
            self.assertTrue(os.path.isfile(f"{TOP}/crates/{crate}/must-fail/{name}.edit"), f"{crate}/{name}")
        with open(f"{TOP}/crates/ea_sound/specs/MachineLaws.antt", encoding="utf-8") as file:
            laws = file.read().partition("record Protocol")[2]
        fields = set(re.findall(r"^  pub (\w+) :", laws, re.M))
        named = set(re.findall(r"`Protocol\.(\w+)`", page))
        self.assertEqual(named, fields)


if __name__ == "__main__":
    sys.exit(run_tests())
