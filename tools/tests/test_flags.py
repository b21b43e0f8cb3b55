#!/usr/bin/env python3
"""Tests of tools/flags.py: python3 tools/tests/test_flags.py [PROGRAM].

What it says of flags is compared with what PROGRAM writes, if it is there: the settings that hold, given as flags of
which none is changed, have to give the same text. Where there is an Erlang node, what is said of nodes is compared with
one. The last line is 'N passed, M failed'.
"""
import os
import random
import shutil
import subprocess
import sys
import tempfile
import unittest

TOP = os.path.dirname(os.path.dirname(os.path.dirname(os.path.realpath(__file__))))
sys.dont_write_bytecode = True
sys.path.insert(0, f"{TOP}/tools")
from counted import run_tests
from flags import (
    DEFAULTS, EVERY_LETTER, Settings, as_on_a_node, letters_of, notes_on, notes_on_strategies, on_a_node, parted,
    without_own_strategy,
)

PROGRAM = os.path.abspath(sys.argv.pop(1)) if len(sys.argv) > 1 else None
ERL = shutil.which("erl")
FREE = "aoff aoffcbf aoffcaobf ageffcaoff ageffcbf ageffcaobf".split()
BOUND = "bf aobf gf af".split()
# In a small region many carriers come and go.
SMALL = "+MMscs 2 +Musmbcs 8 +Mulmbcs 8"
SMALL_SIZES = 40, 100, 200, 300, 700, 2000, 3000, 4000
# Prints the strategy and the limit of each allocator, of its last instance.
ASK_NODE = """
Told = fun(Allocator) ->
    {instance, _, Parts} = lists:last(erlang:system_info({allocator, Allocator})),
    {options, All} = lists:keyfind(options, 1, Parts),
    io:format("~p ~p~n", [element(2, lists:keyfind(It, 1, All)) || It <- [as, acul]])
end,
lists:foreach(Told, [binary_alloc, std_alloc, ets_alloc, eheap_alloc, ll_alloc, driver_alloc, sl_alloc, temp_alloc]),
io:format("~p~n", [erlang:system_info(schedulers)]), halt()."""
# Without flags a node's allocators have these.
NODE = {it: "aoffcbf 60" for it in EVERY_LETTER} | {"H": "aoffcbf 45", "L": "aoffcbf 85", "T": "af 0"}
APART = {it: "bf 0" for it in EVERY_LETTER} | {"H": "gf 0", "L": "aobf 0", "S": "gf 0", "T": "af 0"}
GF_IS_REPLACED = "+MHas gf with acul 60 runs as aoffcbf; a node would set acul 0: add +MHacul 0"


def small_trace(letter):
    """A trace under which each strategy can be told from the others, with migration and without."""
    chance, held, lines = random.Random(1), [], []
    for name in range(1, 401):
        while held and chance.random() < 0.5:
            lines.append(f"free {held.pop(chance.randrange(len(held)))}")
        lines.append(f"alloc {name} {chance.choice(SMALL_SIZES)}")
        held.append(name)
    return "\n".join([f"type {letter}", "scheduler 1", *lines, "schedule", "end", ""])


def large_trace():
    """One with blocks of 64 bytes to 4 MB, which are also reallocated."""
    chance, held, lines = random.Random(1), [], []
    for name in range(1, 1501):
        while len(held) > 60 or held and chance.random() < 0.3:
            lines.append(f"free {held.pop(chance.randrange(len(held)))}")
        old = f"realloc {held.pop(chance.randrange(len(held)))}" if held and chance.random() < 0.5 else "alloc"
        lines.append(f"{old} {name} {int(2 ** chance.uniform(6, 22))}")
        held.append(name)
    return "\n".join(["type H", "scheduler 1", *lines, "schedule", "end", ""])


def text_of(words, trace):
    ran = subprocess.run([PROGRAM, *words.split()], input=trace, capture_output=True, text=True, check=False)
    return ran.stdout if ran.returncode == 0 else ran.stderr


def notes(words, *letters):
    return [*notes_on(words.split(), [*letters])]


class Held(unittest.TestCase):
    def test_what_runs(self):
        for words, letter, ran in (
            ("", "H", "aoffcbf 60"),
            ("", "T", "aoffcbf 0"),
            ("+MHas gf", "H", "aoffcbf 60"),
            ("+MHas gf", "B", "aoffcbf 60"),
            ("+MHas gf +MHacul 0", "H", "gf 0"),
            ("+MHacul 0 +MHas gf", "H", "gf 0"),
            ("+Muas bf +MBacul 0", "B", "bf 0"),
            ("+MHas aobf +MHacul 30", "H", "aoffcbf 30"),
            ("+MHas aobf +MHacul de", "H", "aoffcbf 60"),
            ("+MHas ageffcbf +MHacul 007", "H", "ageffcbf 7"),
            ("+MTas af +MTacul 60", "T", "af 0"),
            ("+MHas gf +Muas aoff", "H", "aoff 60"),
            ("+Muacul 0 +MHacul 60 +MHas af", "H", "aoffcbf 60"),
        ):
            self.assertEqual(Settings.of(words.split(), letter).ran(), ran, words)

    def test_what_is_told(self):
        for words, told in (
            ("", "as aoffcbf, acul 60, sbct 512, smbcs 256, lmbcs 5120"),
            ("+MHas bf +MBsbct 1 +MHmmbcs 010", "as aoffcbf, acul 60, sbct 512, smbcs 256, lmbcs 5120, mmbcs 10"),
            ("+MHlmbcs 4 +MHsmbcs 64 +MHramv true", "as aoffcbf, acul 60, sbct 512, smbcs 64, lmbcs 64, ramv true"),
            ("+MHacnl 1000 +MHt true +S 4", "as aoffcbf, acul 60, sbct 512, smbcs 256, lmbcs 5120"),
        ):
            self.assertEqual(Settings.of(words.split(), "H").told(), told, words)


@unittest.skipUnless(PROGRAM, "there is no program")
class Program(unittest.TestCase):
    def test_each_strategy_has_a_text_of_its_own(self):
        """Else the next tests would show nothing."""
        lists = [f"{SMALL} +MHas {it} +MHacul {limit}" for limit in (0, 30, 60) for it in FREE]
        lists += [f"{SMALL} +MHas {it} +MHacul 0" for it in BOUND]
        texts = {text_of(it, small_trace("H")) for it in lists}
        self.assertEqual(len(texts), len(lists))
        self.assertTrue(all(it.startswith("scheduler 1\n") for it in texts))

    def test_what_ran(self):
        """The text is that of the strategy and the limit that `ran` says."""
        of_ran = {}
        for letter in "HT":
            for strategy in FREE + BOUND:
                for limit in ("0", "1", "30", "60", "de", "100"):
                    words = f"+M{letter}as {strategy} +M{letter}acul {limit}"
                    self.check_ran(f"{SMALL} {words}", letter, of_ran)
            self.check_ran(f"{SMALL} +Muacul 20 +M{letter}as gf +Muas bf +MDas aoff", letter, of_ran)
            self.check_ran(f"+M{letter}acul 0 {SMALL} +Muas af +M{letter}as gf", letter, of_ran)
        self.assertGreater(len(of_ran), 30)

    def check_ran(self, words, letter, of_ran):
        strategy, limit = Settings.of(words.split(), letter).ran().split()
        key = letter, strategy, limit
        if key not in of_ran:
            self.assertTrue(strategy in FREE or limit == "0")
            of_ran[key] = text_of(f"{SMALL} +M{letter}as {strategy} +M{letter}acul {limit}", small_trace(letter))
        self.assertEqual(text_of(words, small_trace(letter)), of_ran[key], words)

    def test_all_settings_that_hold(self):
        """Given as flags, each of them, they give the same text; so the defaults are right, too."""
        chance = random.Random(3)
        values = {
            "as": FREE + BOUND, "acul": ["0", "25", "60", "de"], "sbct": ["1", "2", "512"], "smbcs": ["4", "8", "64"],
            "lmbcs": ["4", "64", "5120"], "acfml": ["0", "500"], "mbcgs": ["1", "10"], "mmbcs": ["0", "20"],
            "mbsd": ["1", "3"], "asbcst": ["0", "1024"], "rsbcst": ["0", "20"], "rsbcmt": ["0", "80"],
            "rmbcmt": ["0", "50"], "ramv": ["true", "false"],
        }
        self.assertEqual(values.keys(), DEFAULTS.keys())
        small, large = small_trace("H"), large_trace()
        # Under good fit alone `mbsd` changes anything.
        self.check_held("+MHas gf +MHacul 0", small)
        for _ in range(100):
            names = chance.choices([*values], k=5)
            pairs = [f"+M{chance.choice('HHuB')}{it} {chance.choice(values[it])}" for it in names]
            self.check_held(" ".join(pairs), large)

    def check_held(self, words, trace):
        settings = Settings.of(words.split(), "H")
        flags = " ".join(f"+MH{it} {settings.held(it)}" for it in DEFAULTS)
        self.assertEqual(text_of(f"+MMscs 512 {words}", trace), text_of(f"+MMscs 512 {flags}", trace), words)

    def test_nothing_is_said_of_refused_words(self):
        for words in ("+MHas gf +MHacul 101", "+MHas gf x", "+MHas gf +MBas", "+MHas gf +MHt false", "+MBas newest"):
            self.assertIn("word ", text_of(words, small_trace("H")))
            self.assertEqual(notes(words, "H"), [], words)


class Notes(unittest.TestCase):
    def test_on_strategies(self):
        replaced = "{} with acul {} runs as aoffcbf; a node would set acul 0: add {}".format
        for words, letters, wanted in (
            ("+MBas gf", "B", [replaced("+MBas gf", 60, "+MBacul 0")]),
            ("+MHas bf", "H", [replaced("+MHas bf", 60, "+MHacul 0")]),
            ("+MHacul 30 +MHas aobf", "H", [replaced("+MHas aobf", 30, "+MHacul 0")]),
            ("+Muas af", "HB", [replaced("+Muas af", 60, "+MHacul 0 +MBacul 0")]),
            ("+Muas af", "BDEHLRST", [replaced("+Muas af", 60, "+Muacul 0")]),
            ("+Muas af +MBacul 0 +MHas af", "BH", [replaced("+MHas af", 60, "+MHacul 0")]),
            ("+MHas gf +MBas bf", "HB", [replaced("+MHas gf", 60, "+MHacul 0"), replaced("+MBas bf", 60, "+MBacul 0")]),
            ("+MHacul 60 +MHas gf +MHacul 30", "H",
             ["+MHas gf with acul 30 runs as aoffcbf, on a node too: for gf add +MHacul 0"]),
        ):
            self.assertEqual(notes(words, *letters), wanted, words)

    def test_on_nodes(self):
        """A note says that a node does the same where that is so."""
        for words, node in AsOnANode.LISTS.items():
            words = [it for it, _ in parted(words.split())]
            for said in notes_on_strategies(words, ["B"]):
                self.assertEqual(", on a node too: " in said, node["B"] == Settings.of(words, "B").ran(), words)
                self.assertEqual("; a node would set acul 0: " in said, node["B"].endswith(" 0"), words)

    def test_where_nothing_has_to_be_said(self):
        for words, letters in (
            ("", "H"), ("+MHas gf +MHacul 0", "H"), ("+MTas gf", "T"), ("+Muas gf", "T"), ("+MHas aoff", "H"),
            ("+MHas gf +MHas ageffcbf", "H"), ("+MBas gf +MHas gf +Muacul 0", "HB"), ("+S 2 +MMscs 8 +Muacul 30", "E"),
        ):
            self.assertEqual(notes(words, *letters), [], words)

    def test_on_letters(self):
        nothing = "{} flags change nothing here: the input is of {}".format
        for words, letters, wanted in (
            ("+MBas gf +MBsbct 5", "H", [nothing("+MB", "type H")]),
            ("+MTacul 0 +MHas gf +MDramv true", "H", [GF_IS_REPLACED, nothing("+MT and +MD", "type H")]),
            ("+MTe true +MDe true +MBe true", "H", [nothing("+MT, +MD and +MB", "type H")]),
            ("+MTe true +MDe true", "TH", [nothing("+MD", "types T and H")]),
            ("+MMscs 3 +MHsbct 1 +Muacul 0", "", ["+MH and +Mu flags change nothing here: super has no allocators"]),
            ("+MMscs 3 +MHas gf", "", ["+MH flags change nothing here: super has no allocators"]),
            ("+MMscs 3 +S 2", "", []),
        ):
            self.assertEqual(notes(words, *letters), wanted, words)

    def test_where_the_letters_are_not_known(self):
        for words, wanted in (("+MHas gf +MBsbct 1", [GF_IS_REPLACED]), ("+MBsbct 1", [])):
            self.assertEqual([*notes_on(words.split(), None)], wanted)
        [said] = notes_on(["+Muas", "bf"], None)
        self.assertTrue(said.endswith("add +Muacul 0"), said)

    def test_what_a_note_says_to_add_is_enough(self):
        for words, letters in (("+Muas gf", "HB"), ("+MHas gf +Muacul 30 +MTas bf", "HT"), ("+Muas af", EVERY_LETTER)):
            [said] = notes(words, *letters)
            more = f"{words} {said.partition(' add ')[2]}"
            self.assertEqual(notes(more, *letters), [])
            for it in letters:
                settings = Settings.of(more.split(), it)
                self.assertEqual(settings.strategy, settings.asked("as"))


def ran(words, letter):
    """What the program runs by the words of a list as a node reads it."""
    return Settings.of(as_on_a_node(words.split(), [letter]), letter).ran()


def of_all(strategy, **others):
    """What each allocator has under `+Muas` and others."""
    return {it: f"{strategy} 0" for it in EVERY_LETTER} | {"T": "af 0"} | others


class AsOnANode(unittest.TestCase):
    """Lists as a node reads them: what each allocator then has, as measured by the last test of a node."""

    LISTS = {
        "": NODE,
        "+Muacul 0": APART,
        "+Muacul de": NODE,
        "+MBas gf": NODE | {"B": "gf 0"},
        "+MBacul60 +MBasaoffcbf +MBacul0 +MHacul 0 +MSas ageffcaoff": NODE | {
            "B": "aoffcbf 0", "H": "gf 0", "S": "ageffcaoff 60"},
        "+MBas gf +MBacul 30 +MHas bf +MHacul de +MLacul 20 +MLas aobf": NODE | {
            "B": "aoffcbf 30", "H": "aoffcbf 45", "L": "aobf 0"},
        "+Muas af +MBacul 1 +MTas gf +MEas aoff": of_all("gf", B="aoffcbf 1", T="gf 0", E="aoff 0"),
        "+Muacul 0 +Muas aoff +MBas bf +MHacul de": of_all("aoff", B="bf 0", H="aoff 45"),
        "+MBas bf +Muacul 20 +MBacul 0 +MRasageffcbf": {it: "aoffcbf 20" for it in EVERY_LETTER} | {
            "B": "bf 0", "R": "ageffcbf 20", "T": "af 0"},
        "+S3 +MBas bf +MBacul 30 +MBas aobf +MTas aoffcaobf": NODE | {"B": "aobf 0", "T": "aoffcaobf 0"},
    }

    def test_what_runs(self):
        for words, wanted in self.LISTS.items():
            self.assertEqual({it: ran(words, it) for it in EVERY_LETTER}, wanted, words)

    def test_which_words_come_last(self):
        for words, letters, more in (
            ("+MBas gf", "B", "+MBacul 0"), ("+MBacul 0", "B", "+MBas bf"), ("+MBas gf +MBacul 0", "B", ""),
            ("+MBas gf +MBacul 30", "B", ""), ("", "BE", ""), ("", "HLT", "+MHacul 45 +MLacul 85 +MTas af"),
            ("+MHacul de", "H", "+MHacul 45"), ("+MBas gf", "H", "+MHacul 45"), ("+MBas af +MBacul 0", "B", "+MBas gf"),
            ("+MTas gf +Muas bf +Musbct 9 +MTlmbcs 7 +Mulmbcs 8", "T", "+MTas gf +MTsbct 512 +MTlmbcs 7"),
            ("+MBacul 0", "", ""), ("+MBacul 0", "Q", ""),
        ):
            self.assertEqual(as_on_a_node(words.split(), letters), [*words.split(), *more.split()], words)

    def test_of_letters_that_are_not_given_each_is_read(self):
        found = as_on_a_node(["+Muacul", "0"])
        self.assertEqual({it: Settings.of(found, it).ran() for it in EVERY_LETTER}, APART)

    def test_the_words_that_are_made_say_the_same_to_a_node(self):
        chance = random.Random(2)
        values = {"as": FREE + BOUND, "acul": ["0", "30", "60", "de"], "sbct": ["1", "512"]}
        for _ in range(200):
            names = chance.choices([*values], k=4)
            words = [it for name in names for it in (f"+M{chance.choice('HBTuu')}{name}", chance.choice(values[name]))]
            made = as_on_a_node(words)
            self.assertEqual(as_on_a_node(made), made)
            for it in EVERY_LETTER:
                self.assertEqual(on_a_node(made, it), on_a_node(words, it))

    def test_joined_values(self):
        for words, wanted in (
            ("+MBasbf +MBacul0 +S4 +MMscs64", "+MBas bf +MBacul 0 +S 4 +MMscs 64"),
            ("+MBasbcst12 +MBasaoffcaobf", "+MBasbcst 12 +MBas aoffcaobf"),
            ("+MBas +MBacul0 +MBt true +MBttrue", "+MBas +MBacul0 +MBt true +MBt true"),
            ("+MBas bf x +MBacul0", "+MBas bf x +MBacul0"), ("+MBasff +MBacul0", "+MBasff +MBacul0"),
            ("+MBacul101", "+MBacul101"), ("+MBas", "+MBas"), ("+S4:4", "+S4:4"),
        ):
            self.assertEqual([it for it, _ in parted(words.split())], wanted.split(), words)
        self.assertEqual([*parted(["+MBasbf", "+S", "4"])], [("+MBas", 0), ("bf", 0), ("+S", 1), ("4", 2)])

    def test_refused_words_are_parted_alone(self):
        for words in ("+MBacul 0 +MBas ff", "+MBacul 0 x", "+MBacul 101", "+MBacul 0 +MBe false", "+MBacul"):
            self.assertEqual(as_on_a_node(words.split()), words.split())
        self.assertEqual(as_on_a_node(["+MBacul0", "x"]), ["+MBacul", "0", "x"])

    def test_what_a_node_tells_has_no_strategy_that_need_not_be_given(self):
        """So that a list with more words is read as if the node had all of them."""
        told = "+MBsbct 512 +MBacul 60 +MBas aoffcbf".split()
        given = without_own_strategy(told, "B")
        self.assertEqual(given, "+MBsbct 512 +MBacul 60".split())
        self.assertEqual(Settings.of(given, "B").all_held(), Settings.of(told, "B").all_held())
        for more, wanted in (
            ("", "aoffcbf 60"), ("+MBacul 0", "bf 0"), ("+MBas gf", "gf 0"), ("+MBas aoff", "aoff 60"),
        ):
            self.assertEqual(ran(" ".join([*given, more]), "B"), wanted)
        for words in ("+MBas bf +MBacul 0", "+MBas aoffcbf +MBacul 0", "+MBas aoff +MBacul 60", "+MBas gf +MBacul 60",
                      "+MBas aoffcbf +MBacul x", ""):
            self.assertEqual(without_own_strategy(words.split(), "B"), words.split())
        self.assertEqual(without_own_strategy(["+MTas", "af", "+MTacul", "0"], "T"), ["+MTas", "af", "+MTacul", "0"])


@unittest.skipUnless(ERL, "there is no Erlang node")
class Node(unittest.TestCase):
    def told(self, words):
        """The strategy and the limit of each letter on a node of its own, and its schedulers."""
        command = [ERL, "+S", "2:2", *words.split(), "-noshell", "-eval", ASK_NODE]
        how = {"env": {**os.environ, "ERL_CRASH_DUMP": os.devnull}, "timeout": 60, "check": True}
        lines = subprocess.run(command, capture_output=True, text=True, **how).stdout.splitlines()
        return dict(zip(EVERY_LETTER, lines)), int(lines[-1])

    def test_a_node_has_what_is_said(self):
        for words, wanted in AsOnANode.LISTS.items():
            self.assertEqual(self.told(words), (wanted, 3 if "+S3" in words else 2), words)


class Input(unittest.TestCase):
    def test_its_letters(self):
        for text, letters in (
            ("# type B\n\n \ttype  H \r\nscheduler 1\n", "H"),
            ("types H B T\n", "HBT"),
            ("super\nscheduler 1\n", ""),
            ("type E", "E"),
            ("", ""),
        ):
            self.assertEqual(letters_of(text.encode().split(b"\n")), [*letters], text)

    def said(self, *words, **how):
        """What the command says."""
        command = [sys.executable, "-B", f"{TOP}/tools/flags.py", *words]
        return subprocess.run(command, stdout=subprocess.PIPE, check=True, **how).stdout.decode()

    def test_a_file_is_read_from_where_it_is_and_left_there(self):
        with tempfile.TemporaryFile(buffering=0) as file:
            file.write(b"type B\ntype H\nscheduler 1\n")
            for at, letter in ((0, "B"), (7, "H")):
                file.seek(at)
                wanted = f"note: +ME flags change nothing here: the input is of type {letter}\n"
                self.assertEqual((self.said("+MEsbct", "1", stdin=file), file.tell()), (wanted, at))

    def test_a_pipe_is_not_read(self):
        reading, writing = os.pipe()
        os.write(writing, b"type B\n")
        os.close(writing)
        with open(reading, "rb") as pipe:
            self.assertEqual(self.said("+MHas", "gf", "+MEsbct", "1", stdin=pipe), f"note: {GF_IS_REPLACED}\n")
            self.assertEqual(pipe.read(), b"type B\n")

    def test_the_command_comes_first(self):
        with open(f"{TOP}/examples/two-allocators.trace", "rb") as file:
            said = self.said("types", "+MHas", "gf", "+MEsbct", "1", stdin=file)
        nothing = "+ME flags change nothing here: the input is of types H and B"
        self.assertEqual(said, f"note: {GF_IS_REPLACED}\nnote: {nothing}\n")
        said = self.said("super", "+MHas", "aoff", stdin=subprocess.DEVNULL)
        self.assertEqual(said, "note: +MH flags change nothing here: super has no allocators\n")

    def test_refused_words(self):
        self.assertEqual(self.said("+MHas", "gf", "+MHacul", "x", stdin=subprocess.DEVNULL), "")


if __name__ == "__main__":
    sys.exit(run_tests())
