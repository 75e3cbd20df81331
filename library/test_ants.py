#!/usr/bin/env python3
"""Checks the Python package against the built program: each function returns what the command prints, and each refusal reads as the line of its error.

PROGRAM names the program, if it isn't that of the tree; the library is found as icfp_ants finds it.
"""
import array
import concurrent.futures
import glob
import os
import pathlib
import pickle
import re
import subprocess
import sys
import tempfile
import unittest

import icfp_ants
from icfp_ants._declared import FUNCTIONS
from fault_words import FAULT_WORDS, says
from faults import rows

TOP = os.path.dirname(os.path.dirname(os.path.abspath(__file__)))
PROGRAM = os.environ.get("PROGRAM", os.path.join(TOP, "crates", "ants", "out", "ants"))
MOST_BYTES, MOST_STATES, MOST_SEED = 4194304, 10000, 4294967295
WORLD = "4\n3\n# # # #\n# + - #\n# # # #\n"


def example(name):
    with open(os.path.join(TOP, "examples", name), encoding="ascii") as file:
        return file.read()


LONG = b"x" * (MOST_BYTES + 1)


class Beside(unittest.TestCase):
    """Texts as files of a folder, each by the name of its parameter."""

    def setUp(self):
        folder = tempfile.TemporaryDirectory(prefix="ants-")
        self.addCleanup(folder.cleanup)
        self.folder = folder.name

    def program(self, *words, **texts):
        """Status, output and faults of the program, where these texts are files."""
        for name, text in texts.items():
            with open(os.path.join(self.folder, name), "wb") as file:
                file.write(text if isinstance(text, bytes) else text.encode())
        ran = subprocess.run([PROGRAM, *map(str, words)], cwd=self.folder, stdin=subprocess.DEVNULL, stdout=subprocess.PIPE, stderr=subprocess.PIPE)
        return ran.returncode, ran.stdout.decode(), ran.stderr.decode()

    def written(self, *words, **texts):
        status, output, faults = self.program(*words, **texts)
        self.assertEqual((status, faults), (0, ""))
        return output

    def assert_refused(self, call, *words, **texts):
        """Both refuse these texts, in the same words; gives the fault, whose numbers say the same."""
        with self.assertRaises(icfp_ants.Refused) as caught:
            call()
        status, output, faults = self.program(*words, **texts)
        fault = caught.exception
        self.assertEqual((status, output, faults), (5, "", "ants: %s\n" % fault))
        self.assertTrue(says(fault.name, fault.kind, fault.line, fault.column, fault.number, fault.words), fault.args)
        return fault


class Games(Beside):
    def game(self, *names):
        return dict(zip(("world", "red", "black"), map(example, names)))

    def run_words(self, command, seed, rounds, *more):
        return [command, "world", "red", "black", "--seed", seed, "--rounds", rounds, *more]

    def test_run_with_dumps(self):
        for names, seed, rounds, dumps in (
            (("heap.world", "bring_home.brain", "trail.brain"), 7, 50, (60, 0, 7, 50, 7)),
            (("contest.world", "sample.brain", "trail.brain"), MOST_SEED, 100, (0, 50, 100)),
            (("meeting.world", "detour.brain", "circle.brain"), 0, 0, ()),
        ):
            game = self.game(*names)
            more = ["--dump", ",".join(map(str, dumps))] if dumps else []
            self.assertEqual(icfp_ants.run(**game, seed=seed, rounds=rounds, dumps=dumps), self.written(*self.run_words("run", seed, rounds, *more), **game))

    def test_scores_are_those_of_runs(self):
        game = self.game("heap.world", "bring_home.brain", "trail.brain")
        seeds = [*range(30), MOST_SEED, 3, 3]
        found = icfp_ants.scores(**game, seeds=seeds, rounds=1000)
        self.assertGreater(len(set(found)), 3)
        for seed, score in zip(seeds, found):
            printed = self.written(*self.run_words("run", seed, 1000), **game)
            self.assertEqual("score: red %d black %d" % score, printed.split("\n")[-2])
            self.assertEqual(icfp_ants.score(**game, seed=seed, rounds=1000), score)
        self.assertEqual(icfp_ants.scores(**game, seeds=[], rounds=1000), [])

    def test_save_and_resume(self):
        game = self.game("contest.world", "sample.brain", "trail.brain")
        saved = icfp_ants.save(**game, seed=12345, rounds=100)
        self.assertEqual(saved, self.written(*self.run_words("save", 12345, 100), **game))
        words = ["resume", "save", "--rounds", 300, "--dump", "150,300"]
        self.assertEqual(icfp_ants.resume(saved, rounds=300, dumps=(300, 150)), self.written(*words, save=saved))
        fault = self.assert_refused(lambda: icfp_ants.resume(saved, rounds=99), "resume", "save", "--rounds", 99, save=saved)
        self.assertEqual((fault.name, fault.number), ("save", 100))

    def test_refused_texts_in_their_order(self):
        good = self.game("heap.world", "bring_home.brain", "trail.brain")
        for name, text in (("world", "3\n"), ("red", "hop 0\n"), ("black", "Move 0 7\n")):
            game = {**good, name: text}
            fault = self.assert_refused(lambda: icfp_ants.score(**game, seed=1, rounds=1), *self.run_words("run", 1, 1), **game)
            self.assertEqual(fault.name, name)
            for call in (icfp_ants.run, icfp_ants.save):
                self.assertRaisesRegex(icfp_ants.Refused, "^" + name, lambda: call(**game, seed=1, rounds=1))
            self.assertRaisesRegex(icfp_ants.Refused, "^" + name, lambda: icfp_ants.scores(**game, seeds=[1], rounds=1))
        for first, second in (("world", "red"), ("world", "black"), ("red", "black")):
            game = {**good, first: "", second: ""}
            fault = self.assert_refused(lambda: icfp_ants.score(**game, seed=1, rounds=1), *self.run_words("run", 1, 1), **game)
            self.assertEqual(fault.name, first)

    def test_workers_share_the_seeds(self):
        game = self.game("heap.world", "bring_home.brain", "trail.brain")
        for seeds in ([], [7], range(100)):
            wanted = icfp_ants.scores(**game, seeds=seeds, rounds=200)
            for workers in (2, 5, 256):
                self.assertEqual(icfp_ants.scores(**game, seeds=seeds, rounds=200, workers=workers), wanted)
        for workers in (0, 257):
            self.assertRaisesRegex(ValueError, "^workers: %d is not 1 to 256$" % workers, lambda: icfp_ants.scores(**game, seeds=[], rounds=1, workers=workers))
        self.assertRaisesRegex(icfp_ants.Refused, "^red: line 1: unknown word$", lambda: icfp_ants.scores(**{**game, "red": "hop 0\n"}, seeds=range(9), rounds=1, workers=3))

    def test_pairs_play_as_alone(self):
        world, brains = example("heap.world"), [example(it + ".brain") for it in ("bring_home", "trail", "step")]
        pairs = [(red, black) for red in brains for black in brains]
        for seeds in ([], [7], range(30)):
            wanted = [icfp_ants.scores(world, *pair, seeds=seeds, rounds=200) for pair in pairs]
            self.assertTrue(not seeds or len(set(map(tuple, wanted))) > 2)
            for workers in (1, 2, 7, 100):
                self.assertEqual(icfp_ants.scores_of_pairs(world, iter(pairs), seeds, 200, workers=workers), wanted)
        self.assertEqual(icfp_ants.scores_of_pairs(world, [], [7], 200, workers=2), [])

    def test_a_refused_pair_is_named_by_its_place(self):
        good, bad = ("Drop 0\n", b"Drop 0\n"), "Move 0 7\n"
        for workers in (1, 4):
            for seeds in ([], [1], range(20)):
                for pairs, said in (
                    ([good, good, (bad, good[0]), ("", "")], r"^pairs\[2\]\[0\]: line 1: no such state 7$"), ([good, ("Drop 0", ""), (bad, bad)], r"^pairs\[1\]\[1\]: no instruction$"),
                ):
                    self.assertRaisesRegex(icfp_ants.Refused, said, lambda: icfp_ants.scores_of_pairs(WORLD, pairs, seeds, 1, workers))
                self.assertRaisesRegex(icfp_ants.Refused, "^world: bad width$", lambda: icfp_ants.scores_of_pairs("", [good], seeds, 1, workers))
        for wrong in (5, ["Drop 0"], ("Drop 0", "Drop 0", "Drop 0")):
            self.assertRaisesRegex(TypeError, r"^pairs\[1\]: a red and a black brain", lambda: icfp_ants.scores_of_pairs(WORLD, [good, wrong], [1], 1))
        self.assertRaisesRegex(TypeError, r"^pairs\[0\]\[1\]: a text is wanted", lambda: icfp_ants.scores_of_pairs(WORLD, [("Drop 0", None)], [1], 1))

    def test_texts_that_are_made_for_a_pair_are_each_read(self):
        pairs = (map("".join, (["Drop ", "0"], ["Drop ", "0", "\n" * place])) for place in range(50))
        self.assertEqual(len(icfp_ants.scores_of_pairs(WORLD, pairs, [1], 1)), 50)
        pairs = (("Drop %d" % (place == 40), "Drop 0") for place in range(50))
        self.assertRaisesRegex(icfp_ants.Refused, r"^pairs\[40\]\[0\]: line 1: no such state 1$", lambda: icfp_ants.scores_of_pairs(WORLD, pairs, [1], 1))

    def test_threads_at_once(self):
        game = self.game("heap.world", "bring_home.brain", "trail.brain")
        wanted = icfp_ants.scores(**game, seeds=range(200), rounds=1000)
        with concurrent.futures.ThreadPoolExecutor(8) as threads:
            self.assertEqual([*threads.map(lambda seed: icfp_ants.score(**game, seed=seed, rounds=1000), range(200))], wanted)


class Texts(Beside):
    def test_brains(self):
        paths = sorted(glob.glob(os.path.join(TOP, "examples", "*.brain")))
        self.assertGreater(len(paths), 10)
        for path in paths:
            brain = example(os.path.basename(path))
            self.assertEqual(icfp_ants.brain(brain), self.written("brain", "brain", brain=brain))
            _, _, below = self.written("minimise", "brain", brain=brain).partition("\n")
            self.assertEqual(icfp_ants.minimise(brain), below)
            self.assertIs(icfp_ants.same(brain, below), True)
            self.assertIsNone(icfp_ants.difference(brain, below))

    def test_brain_whose_text_is_longer_than_the_first_room(self):
        brain = "Flip 4294967295 9999 9999\n" * MOST_STATES
        self.assertEqual(icfp_ants.brain(brain.encode()), brain)

    def test_programs(self):
        self.assertEqual(icfp_ants.asm(example("trail.asm")), example("trail.brain"))

    def test_brains_that_differ(self):
        first, second = "Move 1 0\nDrop 0\n", "Move 1 0\nTurn Left 0\n"
        self.assertIs(icfp_ants.same(first, second), False)
        found = icfp_ants.difference(first, second)
        self.assertEqual(found, (1, 1, "Drop 0", 1, "Turn Left 0"))
        printed = self.written("same", "first", "second", first=first, second=second)
        self.assertEqual("different after %d answers\nfirst %d: %s\nsecond %d: %s\n" % found, printed)
        for name, texts in (("first", ("", second)), ("second", (first, "Drop 1\n")), ("first", ("", "Drop 1\n"))):
            fault = self.assert_refused(lambda: icfp_ants.same(*texts), "same", "first", "second", first=texts[0], second=texts[1])
            self.assertEqual(fault.name, name)

    def test_generated_worlds(self):
        self.assertEqual(icfp_ants.gen(12345), example("contest.world"))
        words = ["gen", 7, "--width", 64, "--height", 60, "--rocks", 3, "--blobs", 1]
        self.assertEqual(icfp_ants.gen(7, width=64, height=60, rocks=3, blobs=1), self.written(*words))
        fault = self.assert_refused(lambda: icfp_ants.gen(1, width=12, height=12), "gen", 1, "--width", 12, "--height", 12)
        self.assertEqual((fault.name, fault.kind, fault.number), ("", 60, 0))

    def test_each_fault_of_a_text_alone(self):
        """Each row of faults.txt of one text, by the function of its command."""
        drops = "Drop 0\n", "Drop 0\n"
        functions = {
            "show": lambda it: icfp_ants.score(it, *drops, 1, 1), "brain": icfp_ants.brain, "minimise": icfp_ants.minimise, "asm": icfp_ants.asm,
            "resume": lambda it: icfp_ants.resume(it, rounds=3), "advance": lambda it: icfp_ants.advance(it, rounds=3),
        }
        found = [row for row in rows() if row.text == 1 and len(row.files) == 1 and row.words[0] in functions]
        self.assertGreater(len(found), 35)
        for row in found:
            with self.subTest(row.said):
                with self.assertRaises(icfp_ants.Refused) as caught:
                    functions[row.words[0]](*row.files.values())
                fault = caught.exception
                self.assertEqual((fault.kind, fault.line, fault.column, fault.number, fault.words), (*row[4:8], row.says))

    def test_no_kind_is_left_out(self):
        self.assertEqual({row.kind for row in rows()} - {0}, set(FAULT_WORDS))
        self.assertEqual(set(icfp_ants.Kind), set(FAULT_WORDS))

    def test_fault_in_numbers(self):
        with self.assertRaises(icfp_ants.Refused) as caught:
            icfp_ants.minimise("Drop 0\nMove 0 7\n")
        fault = pickle.loads(pickle.dumps(caught.exception))
        self.assertEqual((fault.name, fault.kind, fault.line, fault.column, fault.number), ("brain", icfp_ants.Kind.BRAIN_NO_SUCH_STATE, 2, 0, 7))
        self.assertEqual(str(fault), str(caught.exception))

    def test_numbers_and_texts_at_their_limits(self):
        stand = WORLD, "Drop 0\n", "Drop 0\n"
        self.assertEqual(icfp_ants.score(*stand, 1, 1000000), (0, 0))
        self.assertEqual(icfp_ants.scores(*stand, [1], 1000000), [(0, 0)])
        self.assertTrue(icfp_ants.run(*stand, 1, 1000000).endswith("score: red 0 black 0\n"))
        self.assertIn("round 1000000\n", icfp_ants.save(*stand, 1, 1000000))
        self.assertTrue(icfp_ants.resume(icfp_ants.save(*stand, 1, 0), 1000000).endswith("score: red 0 black 0\n"))
        longest = "Drop 0".ljust(MOST_BYTES)
        self.assertEqual(icfp_ants.brain(longest), "Drop 0\n")
        self.assertEqual(icfp_ants.score(WORLD.ljust(MOST_BYTES), longest, longest, 1, 0), (0, 0))
        self.assertEqual(icfp_ants.asm("Drop next\nDrop next".ljust(MOST_BYTES)), "Drop 1\nDrop 0\n")
        with self.assertRaises(icfp_ants.Refused) as caught:
            icfp_ants.resume("x".ljust(MOST_BYTES), 1)
        self.assertEqual(caught.exception.kind, 50)
        for width, height, rocks, blobs in ((3, 3, 0, 0), (3, 512, 255, 255), (512, 3, 255, 255)):
            with self.assertRaises(icfp_ants.Refused) as caught:
                icfp_ants.gen(1, width=width, height=height, rocks=rocks, blobs=blobs)
            self.assertEqual(caught.exception.kind, 60)

    def test_numbers_beyond_their_limits(self):
        for call in (
            lambda: icfp_ants.score(WORLD, "Drop 0\n", "Drop 0\n", 1, 1000001), lambda: icfp_ants.score(WORLD, "Drop 0\n", "Drop 0\n", MOST_SEED + 1, 1),
            lambda: icfp_ants.scores(WORLD, "Drop 0\n", "Drop 0\n", [0, -1], 1), lambda: icfp_ants.run(WORLD, "Drop 0\n", "Drop 0\n", 1, 1, [MOST_SEED + 1]),
            lambda: icfp_ants.gen(1, width=2), lambda: icfp_ants.gen(1, height=513), lambda: icfp_ants.gen(1, rocks=256), lambda: icfp_ants.resume("", 1000001),
        ):
            with self.assertRaises(ValueError) as caught:
                call()
            self.assertNotIsInstance(caught.exception, icfp_ants.Refused)

    def test_what_is_no_number_is_a_type_error_that_names_it(self):
        stand = WORLD, "Drop 0\n", "Drop 0\n"
        for call, said in (
            (lambda: icfp_ants.score(*stand, 1.5, 1), "seed: a whole number is wanted, and not float"), (lambda: icfp_ants.score(*stand, 1, "1"), "rounds: a whole number is wanted, and not str"),
            (lambda: icfp_ants.scores(*stand, [1, None], 1), "seeds: a whole number is wanted, and not NoneType"), (lambda: icfp_ants.gen(1, rocks=None), "rocks: a whole number is wanted"),
            (lambda: icfp_ants.scores(*stand, 5, 1), "seeds: whole numbers are wanted, as a list, and not int"), (lambda: icfp_ants.run(*stand, 1, 1, dumps=1), "dumps: whole numbers are wanted"),
            (lambda: icfp_ants.look(*stand, 1, 5), "rounds: whole numbers are wanted"), (lambda: icfp_ants.run(*stand, 1, 1, dumps="all"), "dumps: a whole number is wanted, and not str"),
            (lambda: icfp_ants.scores(*stand, memoryview(bytes(4)).cast("B", (2, 2)), 1), "seeds: whole numbers are wanted, as a list, and not a memoryview of 2 dimensions"),
        ):
            self.assertRaisesRegex(TypeError, "^%s" % said, call)


class Session(Beside):
    def test_that_evolves_brains_begins_no_process_and_prints_scores_of_the_program(self):
        names = [os.path.join(TOP, "examples", it) for it in ("heap.world", "sample.brain", "trail.brain")]
        begins = "subprocess.", "os.exec", "os.fork", "os.posix_spawn", "os.spawn", "os.system"
        hook = "import runpy, sys\nsys.addaudithook(lambda event, given: event.startswith(%r) and sys.exit(event))\n" % (begins,)
        lines = hook + "sys.argv[1:] = %r\nrunpy.run_path('evolve.py', run_name='__main__')\n" % [*names, "2000"]
        folder = os.path.join(TOP, "library")
        ran = subprocess.run([sys.executable, "-c", lines], cwd=folder, stdout=subprocess.PIPE, stderr=subprocess.PIPE, universal_newlines=True)
        self.assertEqual((ran.returncode, ran.stderr), (0, ""))
        seen = re.findall(r"; seed (\d+): (red \d+ black \d+), .*", ran.stdout)
        self.assertEqual([int(seed) for seed, _ in seen], [*range(10)])
        game = dict(zip(("world", "red", "black"), (example("heap.world"), ran.stdout, example("trail.brain"))))
        for seed, score in seen:
            self.assertIn("score: %s\n" % score, self.written("run", "world", "red", "black", "--seed", seed, "--rounds", 1000, **game))
        before = icfp_ants.scores(game["world"], example("sample.brain"), game["black"], seeds=range(8), rounds=1000)
        self.assertGreaterEqual(sum(int(score.split()[1]) for _, score in seen[:8]), max(1, sum(it.red for it in before)))


class WhatIsNoText(unittest.TestCase):
    def test_is_a_type_error_that_names_it(self):
        numbers = [68, 114, 111, 112, 32, 48, 10]  # "Drop 0", as a list of its bytes
        for wrong in (pathlib.Path("contest.world"), 5, 5000000, True, 1.5, None, numbers, tuple(numbers), iter(numbers), {}, array.array("I", numbers)):
            for call in (
                lambda: icfp_ants.score(wrong, "", "", 1, 1), lambda: icfp_ants.scores(wrong, "", "", [1], 1), lambda: icfp_ants.run(wrong, "", "", 1, 1),
                lambda: icfp_ants.save(wrong, "", "", 1, 1),
            ):
                self.assertRaisesRegex(TypeError, "^world: a text is wanted, as str or bytes, and not a file's name", call)
            for call in (lambda: icfp_ants.brain(wrong), lambda: icfp_ants.minimise(wrong)):
                self.assertRaisesRegex(TypeError, "^brain: a text is wanted", call)
            self.assertRaisesRegex(TypeError, "^red: a text is wanted", lambda: icfp_ants.score(WORLD, wrong, "", 1, 1))
            self.assertRaisesRegex(TypeError, "^program: a text is wanted", lambda: icfp_ants.asm(wrong))
            self.assertRaisesRegex(TypeError, "^second: a text is wanted", lambda: icfp_ants.same("Drop 0\n", wrong))
            self.assertRaisesRegex(TypeError, "^save: a text is wanted", lambda: icfp_ants.resume(wrong, 1))

    def test_that_the_package_has_given_is_a_type_error_that_names_it(self):
        for wrong in (None, b"", 5, ["cell (0, 0): rock"], pathlib.Path("dump")):
            for call, name in ((icfp_ants.cells, "dump"), (icfp_ants.score_of, "text"), (icfp_ants.counts_of, "text")):
                self.assertRaisesRegex(TypeError, "^%s: a text is wanted, as str, and not " % name, lambda: call(wrong))

    def test_a_character_that_utf_8_has_not_is_named(self):
        self.assertRaisesRegex(ValueError, r"^brain: no character: '\\ud800'$", lambda: icfp_ants.brain("Drop 0 \ud800"))

    def test_each_sort_of_bytes_is_a_text(self):
        text = b"drop 00\n"
        for right in (text, text.decode(), bytearray(text), memoryview(text), memoryview(b"x" + text)[1:], array.array("B", text)):
            self.assertEqual(icfp_ants.brain(right), "Drop 0\n")


class Memory(unittest.TestCase):
    """What a call takes, in a process of its own."""

    def python(self, lines, **more):
        environ = {**os.environ, "PYTHONPATH": os.path.dirname(os.path.dirname(os.path.abspath(icfp_ants.__file__))), **more}
        ran = subprocess.run([sys.executable, "-c", lines], env=environ, stdout=subprocess.PIPE, stderr=subprocess.PIPE, universal_newlines=True)
        return ran.stdout, ran.stderr

    def game(self):
        return "import icfp_ants, resource\nworld = open(%r).read()\n" % os.path.join(TOP, "examples", "contest.world")

    def test_a_dump_that_is_asked_for_again_costs_nothing(self):
        limit = "resource.setrlimit(resource.RLIMIT_AS, (1 << 29, 1 << 29))\n"
        call = "once, often = [icfp_ants.run(world, 'Drop 0', 'Drop 0', 1, 2, [2] * count) for count in (1, 100000)]\nprint(once == often)\n"
        self.assertEqual(self.python(self.game() + limit + call), ("True\n", ""))

    def test_too_many_rounds_are_refused_before_their_dumps(self):
        self.assertRaisesRegex(ValueError, "^rounds: 1000001 is not 0 to 1000000$", lambda: icfp_ants.run(WORLD, "Drop 0", "Drop 0", 1, 1000001, iter(self.fail, 0)))
        self.assertRaisesRegex(ValueError, "^rounds: ", lambda: icfp_ants.resume("", 2 ** 32 - 1, range(10 ** 12)))

    def test_a_text_costs_twice_its_bytes(self):
        peak = "resource.getrusage(resource.RUSAGE_SELF).ru_maxrss * 1024"
        call = "before = %s\ntext = icfp_ants.run(world, 'Drop 0', 'Drop 0', 1, 160, range(160))\nprint(len(text), %s - before)\n" % (peak, peak)
        said, faults = self.python(self.game() + call)
        self.assertEqual(faults, "")
        size, cost = map(int, said.split())
        self.assertGreater(size, 60000000)
        self.assertLess(cost, 2.2 * size)

    def test_a_call_without_its_library_is_an_import_error(self):
        call = "import icfp_ants\nfor _ in range(2):\n    try:\n        icfp_ants.brain('Drop 0')\n    except ImportError as fault:\n        print(fault)\n"
        with tempfile.TemporaryDirectory(prefix="ants-") as folder:
            source, other = os.path.join(folder, "other.c"), os.path.join(folder, "other.so")
            for version, names, words in (("0.9.0", FUNCTIONS, "of version 0.9.0, and icfp_ants is of "), (icfp_ants.__version__, ["ants_version"], "no ants_score in it")):
                with open(source, "w", encoding="ascii") as file:
                    file.write("#include <string.h>\nunsigned ants_version(char *out, unsigned long room, unsigned long *used)\n")
                    file.write('{ *used = strlen("%s"); memcpy(out, "%s", *used); return room == 0; }\n' % (version, version))
                    file.writelines("void %s(void) {}\n" % name for name in names if name != "ants_version")
                subprocess.run(["cc", "-shared", "-fPIC", source, "-o", other], check=True)
                said, faults = self.python(call, ANTS_LIBRARY=other)
                self.assertEqual((said.count(other + ": " + words), faults), (2, ""), said)
            said, faults = self.python(call, ANTS_LIBRARY=os.path.join(folder, "none"))
            self.assertEqual((said.count("ANTS_LIBRARY may name libants.so"), faults), (2, ""), said)

    def test_the_version_is_that_of_the_program(self):
        printed = subprocess.run([PROGRAM, "--version"], stdout=subprocess.PIPE, check=True).stdout.decode()
        self.assertEqual(printed, "ants %s\n" % icfp_ants.__version__)


if __name__ == "__main__":
    unittest.main()
