#!/usr/bin/env python3
"""Checks `call` and the functions over it against the built program, against docs/RULES.md and against faults.txt.

PROGRAM names the program, if it isn't that of the tree; the library is found as icfp_ants finds it.
"""
import contextlib
import copy
import io
import os
import pickle
import re
import struct
import subprocess
import tempfile
import unittest
import warnings

import icfp_ants
from icfp_ants import (
    Act, Ant, Cell, Colour, Counts, Death, Event, Executed, Fault, Kind, Label, Line, Played, Refused, Renumbered, Score, Standing, Step, Stop,
    Use,
)
from icfp_ants._library import library
from faults import rows
from test_ants import LONG, MOST_SEED, PROGRAM, TOP, WORLD, Beside, example

RED, BLACK = Colour.RED, Colour.BLACK
FIRST = {"world": example("first.world"), "red": example("first.brain"), "black": example("idle.brain")}
AMBUSH = {"world": example("ambush.world"), "red": example("flip_two.brain"), "black": example("step.brain")}
# What a shelf in memory has otherwise, or what no library does: a second `-`, far workers, streams that are full, a limit of the process.
OTHERWISE = re.compile(r" - - |--far|/dev/full|ulimit")


class EveryExample(unittest.TestCase):
    """Each command line of docs/RULES.md and docs/COMMANDS.md that calls `ants`, by the program and by `call`."""

    def setUp(self):
        folder = tempfile.TemporaryDirectory(prefix="ants-")
        self.addCleanup(folder.cleanup)
        self.folders = {}
        for name, program in (("program", os.path.abspath(PROGRAM)), ("call", os.path.join(TOP, "library", "by_call"))):
            self.folders[name] = os.path.join(folder.name, name)
            os.mkdir(self.folders[name])
            os.symlink(program, os.path.join(self.folders[name], "ants"))

    def ran(self, line, name):
        environ = {**os.environ, "PATH": self.folders[name] + os.pathsep + os.environ["PATH"]}
        ran = subprocess.run(["bash", "-c", line], cwd=TOP, env=environ, stdin=subprocess.DEVNULL, stdout=subprocess.PIPE, stderr=subprocess.PIPE)
        return ran.returncode, ran.stdout.decode(), ran.stderr.decode()

    def test_is_the_same_by_call(self):
        lines = []
        for page in ("RULES.md", "COMMANDS.md"):
            with open(os.path.join(TOP, "docs", page), encoding="utf-8") as file:
                lines += re.findall(r"^\$ (.*\bants\b.*)$", file.read(), re.M)
        lines = [line for line in lines if not OTHERWISE.search(line)]
        self.assertGreater(len(lines), 70)
        for line in lines:
            with self.subTest(line):
                self.assertEqual(self.ran(line, "call"), self.ran(line, "program"))


class ReadMe(Beside):
    """The examples of library/README.md."""

    def block(self, language):
        with open(os.path.join(TOP, "library", "README.md"), encoding="ascii") as file:
            return re.search("^```%s\n(.*?)^```$" % language, file.read(), re.M | re.S)[1]

    def test_in_python_print_what_the_comments_say(self):
        code, printed = self.block("python"), io.StringIO()
        place = os.getcwd()
        self.addCleanup(os.chdir, place)
        os.chdir(TOP)
        with contextlib.redirect_stdout(printed), warnings.catch_warnings():
            warnings.simplefilter("ignore", ResourceWarning)  # the page leaves the closing of a file to Python
            exec(compile(code, "README.md", "exec"), {})
        lines, comments = [it for it in printed.getvalue().split("\n") if it], re.findall(r"print.*  # (.*)", code)
        self.assertEqual((len(lines), len(comments)), (7, 7))
        for line, comment in zip(lines, comments):
            self.assertTrue(line.startswith(comment[:-3]) if comment.endswith("...") else comment.startswith(line), (line, comment))

    def test_in_c_prints_what_the_program_does(self):
        source, built = os.path.join(self.folder, "main.c"), os.path.join(self.folder, "main")
        with open(source, "w", encoding="ascii") as file:
            file.write('#include "ants.h"\n#include <stdio.h>\nint main(void) {\nuint8_t bytes[99];\nsize_t length = fread(bytes, 1, 99, stdin);\n')
            file.write(self.block("c") + "return (int)answer.status;\n}\n")
        found = library()._name
        words = ["cc", "-Wall", "-Werror", "-I", os.path.join(TOP, "library"), source, found, "-Wl,-rpath," + os.path.dirname(found), "-o", built]
        subprocess.run(words, check=True)
        for text in (b"Drop 1\nDrop 0\n", b"Drop 7\n"):
            ran = subprocess.run([built], input=text, stdout=subprocess.PIPE, stderr=subprocess.PIPE)
            self.assertEqual((ran.returncode, ran.stdout.decode(), ran.stderr.decode()), self.program("minimise", "my.brain", **{"my.brain": text}))


class Calls(Beside):
    def assert_called(self, *words, **texts):
        """`call` gives the status, the output and the line of the program."""
        called = icfp_ants.call(list(map(str, words)), texts)
        self.assertEqual(called[:3], self.program(*words, **texts))
        self.assertEqual(called.numbers is None, called.status == 0)

    def test_statuses(self):
        self.assert_called()
        self.assert_called("")
        self.assert_called("brain", "")
        self.assert_called("brain", "brain", brain="drop 0")
        self.assert_called("brain", "none")
        self.assert_called("brain", "brain", brain="hop 0\n")
        self.assert_called("brain", "brain", brain=LONG)
        self.assert_called("gen", 1, "--width", 12, "--height", 12)
        self.assert_called("run", "world", "red", "black", "--seed", 1, "--rounds", 1000001, **AMBUSH)

    def test_each_command(self):
        files = dict(zip("wrbx", map(example, ("heap.world", "bring_home.brain", "trail.brain", "contest.world"))))
        for line in (
            "show w 7", "brain r", "minimise b --states", "same r b", "gen 12345", "--version", "--help", "help", "asm p --labels",
            "run w r b --seed 7 --rounds 50 --dump 0,50 --stats --workers 4 --window 64", "trace w r b 0 --seed 7 --rounds 20", "workload 7 3 2",
            "cup --worlds w x --brains r b --seed 7 --rounds 20 --games --workers 3", "save x r b --seed 7 --rounds 20", "view w r b k --seed 7 --rounds 99",
            "run w r none --seed 7 --rounds 0", "run w r w --seed 7 --rounds 0", "turn w",
        ):
            self.assert_called(*line.split(" "), **files, p=example("trail.asm"), k="Score Red 1\n")

    def test_each_row_of_the_table_of_faults(self):
        for row in rows():
            with self.subTest(row.said):
                name = [*row.files][row.text - 1] if row.text else ""
                numbers = Fault(name, row.says, Kind(row.kind) if row.kind else None, row.line, row.column, row.number)
                self.assertEqual(icfp_ants.call(row.words, row.files), (row.status, "", row.said, numbers))

    def test_a_file_of_no_bytes_and_one_of_no_use(self):
        self.assert_called("same", "first", "second", first="", second="", third="x")

    def test_names_are_any_words(self):
        names = ["-", "a b", "é ü", "a/b.brain", "./--name", "/".join(["x" * 200] * 9)]
        for name in names:
            files = {**{it: "Drop 1\n" for it in names}, name: "Drop 0\n"}
            self.assertEqual(icfp_ants.call(["brain", name], files), (0, "Drop 0\n", "", None))
            fault = Fault(name, "line 1: no such state 7", Kind.BRAIN_NO_SUCH_STATE, 1, 0, 7)
            self.assertEqual(icfp_ants.call(["brain", name], {**files, name: "Drop 7\n"}), (5, "", "ants: %s: line 1: no such state 7\n" % name, fault))

    def test_a_text_may_be_as_long_as_a_number_says(self):
        for most in (1 << 31, 1 << 45, 2 ** 63 - 1):
            self.assertEqual(icfp_ants.call(["brain", "b"], {"b": "Drop 0"}, most=most).output, "Drop 0\n")

    def test_no_text_is_longer_than_the_most(self):
        """Of each function with `most` a text of just so many bytes comes, and with one byte less allowed none."""
        program = "block b\nl:\nDrop next\nend\nuse b\nuse b\n"
        saved = icfp_ants.save(**AMBUSH, seed=12345, rounds=0)
        for call, length in (
            (lambda most: icfp_ants.call(["brain", "b"], {"b": "Drop 0"}, most=most).output, 7), (lambda most: icfp_ants.labels(program, most).text, len("0 b@5/l\n1 b@6/l\n")),
            (lambda most: icfp_ants.lines(program, most=most).text, len("0 3 b@5\n1 3 b@6\n")),
            (lambda most: icfp_ants.events(**FIRST, seed=1, rounds=110, most=most).text, len("random seed: 1\nround 110, red ant 0: score: red 1 black 0\n")),
            (lambda most: icfp_ants.trace(**AMBUSH, ant=2, seed=12345, rounds=1, start=1, most=most).text, len("random seed: 12345\nround 1: dead\n")),
            (lambda most: icfp_ants.run(**FIRST, seed=1, rounds=0, most=most), len("random seed: 1\n\nscore: red 0 black 0\n")),
            (lambda most: icfp_ants.run(**FIRST, seed=1, rounds=0, rest=0, most=most), len("random seed: 1\n\nscore: red 0 black 0\n")),
            (lambda most: icfp_ants.resume(saved, 1, most=most), len("\nscore: red 3 black 0\n")),
            (lambda most: icfp_ants.resume(saved, 0, stats=True, most=most), len("\nscore: red 0 black 0\nturns 0 taken 0 redone 0\n")),
        ):
            self.assertEqual(len(call(length)), length)
            self.assertEqual(len(call(length + 1)), length)
            self.assertRaisesRegex(ValueError, "^most: the text has %d bytes, and %d are allowed$" % (length, length - 1), lambda: call(length - 1))
            self.assertRaisesRegex(ValueError, "^most: the text has %d bytes, and 0 are allowed$" % length, lambda: call(0))
        self.assertRaisesRegex(ValueError, "^most: -1 is not 0 to ", lambda: icfp_ants.call(["help"], most=-1))
        self.assertRaisesRegex(TypeError, "^most: a whole number is wanted", lambda: icfp_ants.labels(program, None))

    def test_labels_that_a_stranger_multiplies_are_refused_by_themselves(self):
        program = "block b\n" + "".join("l%d:\n" % it for it in range(1000)) + "Drop next\nend\n" + "use b\n" * 9000
        self.assertRaisesRegex(ValueError, r"^most: the text has \d{9} bytes, and 67108864 are allowed$", lambda: icfp_ants.labels(program))

    def test_what_is_no_word(self):
        self.assertRaisesRegex(TypeError, "^words: a list of words", lambda: icfp_ants.call("show w 1"))
        self.assertRaisesRegex(TypeError, "^words: a word is wanted, as str, and not int", lambda: icfp_ants.call(["show", "w", 1]))
        self.assertRaisesRegex(ValueError, r"^words: a line break in 'a\\nb'$", lambda: icfp_ants.call(["brain", "a\nb"]))
        self.assertRaisesRegex(ValueError, r"^files: a line break in 'a\\nb'$", lambda: icfp_ants.call(["brain", "a"], {"a\nb": ""}))
        self.assertRaisesRegex(ValueError, r"^words: no character: '\\udcff'$", lambda: icfp_ants.call(["brain", "\udcff"]))
        self.assertRaisesRegex(ValueError, r"^files: no character: '\\udcff'$", lambda: icfp_ants.call(["brain", "a"], {"\udcff": ""}))
        self.assertRaisesRegex(ValueError, r"^brains: no character: '\\udcff'$", lambda: icfp_ants.cup({"w": WORLD}, {"a\udcff": "Drop 0\n", "b": "Drop 0\n"}, 1, 1))
        self.assertRaisesRegex(TypeError, "^a: a text is wanted", lambda: icfp_ants.call(["brain", "a"], {"a": 5}))
        for wrong, kind in ((["Drop 0\n"], "list"), ("Drop 0\n", "str"), (None, "NoneType")):
            self.assertRaisesRegex(TypeError, "^files: texts by their names are wanted, as a dict, and not %s$" % kind, lambda: icfp_ants.call(["brain", "a"], wrong))
            self.assertRaisesRegex(TypeError, "^brains: texts by their names are wanted", lambda: icfp_ants.cup({"w": WORLD}, wrong, 1, 1))
        self.assertRaisesRegex(TypeError, "^files: a name is wanted, as str, and not bytes$", lambda: icfp_ants.call(["brain", "a"], {b"a": "Drop 0\n"}))
        self.assertRaisesRegex(TypeError, "^worlds: a name is wanted, as str, and not int$", lambda: icfp_ants.cup({1: WORLD}, {"a": "Drop 0\n", "b": "Drop 0\n"}, 1, 1))


class Functions(Beside):
    """Values that docs/RULES.md has, and texts that the program writes."""

    def words(self, command, seed, rounds, *more, places=()):
        return [command, "world", "red", "black", *places, "--seed", seed, "--rounds", rounds, *more]

    def test_show(self):
        for name, seed in (("heap.world", 7), ("ambush.world", MOST_SEED)):
            world = example(name)
            shown = icfp_ants.show(world, seed)
            self.assertEqual(shown, self.written("show", "world", seed, world=world))
            self.assertEqual([Cell(it.column, it.row, it.is_rock, 0, None, (), (), None) for it in icfp_ants.cells(shown)][0], Cell(0, 0, True, 0, None, (), (), None))

    def test_cells(self):
        game = {"world": example("visit.world"), "red": example("host.brain"), "black": example("guest.brain")}
        found = {(it.column, it.row): it for it in icfp_ants.cells(icfp_ants.run(**game, seed=1, rounds=33, dumps=[33]))}
        self.assertEqual(found[1, 1], Cell(1, 1, False, 0, BLACK, (), (), None))
        self.assertEqual(found[3, 1], Cell(3, 1, False, 1, RED, (0, 3), (5,), Ant(0, BLACK, 3, 1, 0, 0, 5, 0)))
        self.assertTrue(found[0, 0].is_rock)

    def test_run_with_its_options(self):
        options = {"stats": True, "window": 1, "surround": 4, "corpse": 9, "rest": 0}
        words = ["--stats", "--window", 1, "--surround", 4, "--corpse", 9, "--rest", 0, "--dump", "0,3"]
        self.assertEqual(icfp_ants.run(**AMBUSH, seed=12345, rounds=3, dumps=[3, 0], **options), self.written(*self.words("run", 12345, 3, *words), **AMBUSH))
        self.assertEqual(icfp_ants.score_of(icfp_ants.run(**AMBUSH, seed=12345, rounds=1, corpse=9)), Score(9, 0))
        self.assertEqual(icfp_ants.counts_of(icfp_ants.run(**AMBUSH, seed=12345, rounds=1, stats=True)), Counts(7, 5, 2))
        self.assertEqual(icfp_ants.counts_of(icfp_ants.run(**AMBUSH, seed=12345, rounds=1, stats=True, window=1)), Counts(7, 7, 0))

    def test_look(self):
        for game, seed, rounds in ((AMBUSH, 12345, (0, 1, 2)), (FIRST, 1, (110, 0, 7, 7)), ({**FIRST, "world": example("contest.world")}, 7, (100, 30)), (AMBUSH, 1, ())):
            found = icfp_ants.look(**game, seed=seed, rounds=rounds)
            self.assertEqual([it.round for it in found], sorted(set(rounds)))
            for it in found:
                text = icfp_ants.run(**game, seed=seed, rounds=it.round, dumps=[it.round])
                living = {cell.ant.id: cell.ant for cell in icfp_ants.cells(text) if cell.ant}
                self.assertEqual((it.score, it.ants), (icfp_ants.score_of(text), [living.get(id) for id in range(len(it.ants))]))
        self.assertIsNone(icfp_ants.look(**AMBUSH, seed=12345, rounds=[1])[0].ants[2])
        self.assertEqual(len(icfp_ants.look(**AMBUSH, seed=12345, rounds=[1])[0].ants), 7)
        self.assertRaisesRegex(Refused, "^black: no instruction$", lambda: icfp_ants.look(**{**AMBUSH, "black": ""}, seed=1, rounds=[1]))
        self.assertRaisesRegex(ValueError, "^rounds: 1000001 is not", lambda: icfp_ants.look(**AMBUSH, seed=1, rounds=[1000001]))

    def test_look_buffer(self):
        """Each round has its score and its ants as the layout says, by the numbers of a look."""
        form = struct.Struct("=" + "".join({"=u4": "I", "=u2": "H", "u1": "B"}[it] for _, it in icfp_ants.ANT_FIELDS))
        names = [name for name, _ in icfp_ants.ANT_FIELDS]
        for game, seed, rounds in ((AMBUSH, 12345, (1, 0)), (FIRST, 1, (110, 7)), (AMBUSH, 1, ())):
            found, looks = icfp_ants.look_buffer(**game, seed=seed, rounds=rounds), icfp_ants.look(**game, seed=seed, rounds=rounds)
            size = 8 + 16 * found.ids
            self.assertEqual((found.rounds, len(found.data), form.size), ([it.round for it in looks], size * len(looks), 16))
            for place, it in enumerate(looks):
                record = found.data[size * place:size * (place + 1)]
                self.assertEqual((struct.unpack_from("=II", record), found.ids), (it.score, len(it.ants)))
                for id, ant in enumerate(it.ants):
                    laid = dict(zip(names, form.unpack_from(record, 8 + 16 * id)))
                    if ant is None:
                        self.assertEqual(set(laid.values()), {0})
                    else:
                        said = Ant(id, (RED, BLACK)[laid["colour"]], *(laid[it] for it in ("column", "row", "direction", "laden", "state", "resting")))
                        self.assertEqual((laid["alive"], said), (1, ant))

    def test_save_and_resume_with_their_options(self):
        options = {"window": 5, "surround": 4, "corpse": 9, "rest": 0}
        words = ["--window", 5, "--surround", 4, "--corpse", 9, "--rest", 0]
        saved = icfp_ants.save(**AMBUSH, seed=12345, rounds=2, **options)
        self.assertEqual(saved, self.written(*self.words("save", 12345, 2, *words), **AMBUSH))
        resumed = icfp_ants.resume(saved, 4, dumps=[4, 3], stats=True)
        self.assertEqual(resumed, self.written("resume", "save", "--rounds", 4, "--dump", "3,4", "--stats", save=saved))
        self.assertEqual(icfp_ants.counts_of(icfp_ants.resume(example("one_ant.save"), 2, stats=True)), Counts(2, 2, 0))

    def test_view(self):
        for breaks, stop in (("Round 2", (2, 0, 1)), ("State Red 9\nState Red 0", (1, 4, 2)), ("Killed 2", (1, 1, 1)), ("Killed 7", None), ("", None)):
            found = icfp_ants.view(**AMBUSH, breaks=breaks, seed=12345, rounds=5)
            printed = self.written(*self.words("view", 12345, 5, places=["breaks"]), **AMBUSH, breaks=breaks)
            self.assertEqual(found, stop and Stop(*stop, printed))
        killed = icfp_ants.view(**AMBUSH, breaks="Killed 2", seed=12345, rounds=5)
        self.assertEqual(icfp_ants.cells(killed.text)[3 * 7 + 3], Cell(3, 3, False, 3, RED, (), (), None))

    def test_trace(self):
        found = icfp_ants.trace(**AMBUSH, ant=1, seed=12345, rounds=2)
        self.assertEqual([(it.round, it.cell.ant) for it in found], [
            (0, Ant(1, BLACK, 1, 3, 0, 0, 0, 0)), (1, Ant(1, BLACK, 2, 3, 0, 0, 0, 14)), (2, Ant(1, BLACK, 2, 3, 0, 0, 0, 13)),
        ])
        self.assertEqual(found.text, self.written(*self.words("trace", 12345, 2, places=[1]), **AMBUSH))
        self.assertEqual(icfp_ants.trace(**AMBUSH, ant=2, seed=12345, rounds=5, start=1), [(1, None)])
        self.assertEqual(icfp_ants.trace(**AMBUSH, ant=1, seed=12345, rounds=5, start=6), [])
        self.assertEqual(icfp_ants.trace(**AMBUSH, ant=1, seed=12345, rounds=1, rest=0, surround=6)[1].cell.ant.resting, 0)
        self.assertRaisesRegex(ValueError, "^ant: the world has no ant of id 7$", lambda: icfp_ants.trace(**AMBUSH, ant=7, seed=12345, rounds=5))

    def test_events(self):
        found = icfp_ants.events(**AMBUSH, seed=12345, rounds=5)
        self.assertEqual(found, [Event(1, BLACK, 1, Death(RED, 2, 3, 3), None), Event(1, BLACK, 1, None, Score(3, 0))])
        self.assertEqual(found.text, self.written(*self.words("events", 12345, 5), **AMBUSH))
        self.assertEqual(icfp_ants.events(**FIRST, seed=1, rounds=110), [Event(110, RED, 0, None, Score(1, 0))])
        self.assertEqual(icfp_ants.events(**AMBUSH, seed=12345, rounds=1, corpse=9)[1].score, Score(9, 0))

    def test_events_from_a_round_and_with_food(self):
        found = icfp_ants.events(**FIRST, seed=1, rounds=110, food=True, start=0)
        self.assertEqual(found.text, self.written(*self.words("events", 1, 110, "--food", "--from", 0), **FIRST))
        self.assertEqual(found[-1], Event(110, RED, 0, None, Score(1, 0)))
        self.assertEqual([it.food.is_taken for it in found if it.food], [True, False])
        dropped = found[-2]
        self.assertEqual((dropped.round, dropped.death, dropped.score, dropped.food.hill), (110, None, None, RED))
        taken = next(it for it in found if it.food)
        self.assertEqual((taken.colour, taken.ant, taken.food.hill), (RED, 0, None))
        self.assertEqual(icfp_ants.events(**FIRST, seed=1, rounds=110, start=111), [])
        self.assertEqual(icfp_ants.events(**AMBUSH, seed=12345, rounds=5, start=2), [])
        self.assertEqual(len(icfp_ants.events(**AMBUSH, seed=12345, rounds=5, start=1)), 2)

    def test_acts(self):
        """The ambush of docs/RULES.md: each ant of the black hill moves in round 1, and rests then."""
        found = icfp_ants.acts(**AMBUSH, seed=12345, rounds=1, ant=1)
        self.assertEqual(found, [Act(1, BLACK, 1, 1, 3, 0, 0, 0, "Move 0 0", True)])
        self.assertEqual(found.text, self.written(*self.words("acts", 12345, 1, "--ant", 1), **AMBUSH))
        every = icfp_ants.acts(**AMBUSH, seed=12345, rounds=2)
        self.assertEqual(every.text, self.written(*self.words("acts", 12345, 2), **AMBUSH))
        for it in icfp_ants.profile(**AMBUSH, seed=12345, rounds=2):
            of_state = [act for act in every if (act.colour, act.state) == (it.colour, it.state)]
            self.assertEqual((len(of_state), sum(act.met for act in of_state)), (it.times, it.met))
        self.assertEqual(icfp_ants.acts(**AMBUSH, seed=12345, rounds=2, start=2), [act for act in every if act.round == 2])
        self.assertEqual(icfp_ants.acts(**AMBUSH, seed=12345, rounds=2, start=3), [])
        self.assertRaisesRegex(ValueError, "^ant: the world has no ant of id 7$", lambda: icfp_ants.acts(**AMBUSH, seed=12345, rounds=1, ant=7))
        self.assertRaisesRegex(ValueError, "^ant: 16384 is not", lambda: icfp_ants.acts(**AMBUSH, seed=12345, rounds=1, ant=16384))

    def test_view_and_profile_from_a_round(self):
        stop = icfp_ants.view(**AMBUSH, breaks="Killed 2", seed=12345, rounds=5, start=3)
        self.assertEqual(stop[:3], (3, 0, 1))
        self.assertIsNone(icfp_ants.view(**AMBUSH, breaks="Killed 2", seed=12345, rounds=5, start=6))
        whole, first, rest = (icfp_ants.profile(**AMBUSH, seed=12345, rounds=last, start=start) for last, start in ((9, None), (4, 0), (9, 5)))
        self.assertEqual([it.times for it in whole], [one.times + other.times for one, other in zip(first, rest)])

    def test_cup_of_seeds(self):
        names = {"step.brain": AMBUSH["black"], "flip_two.brain": AMBUSH["red"], "idle.brain": example("idle.brain")}
        step, flip, idle = names
        found = icfp_ants.cup({"w": AMBUSH["world"]}, names, MOST_SEED, 1, games=True, seeds=2, leads=True, gauntlet=True)
        pairs = [(step, flip, 0), (flip, step, 3), (step, idle, 0), (idle, step, 3)]
        games = [Played("w", red, black, Score(score, 0), seed) for seed in (MOST_SEED, 0) for red, black, score in pairs]
        self.assertEqual(found.games, games)
        self.assertEqual(found.standing, [Standing(6, flip, 2, 2, 0, 6), Standing(6, idle, 2, 2, 0, 6), Standing(4, step, 0, 4, 4, -12)])
        one = icfp_ants.cup({"w": AMBUSH["world"]}, names, 12345, 1, games=True, seeds=1)
        self.assertEqual([it.seed for it in one.games], [12345] * 6)
        self.assertEqual([it.lead for it in one.standing], [None] * 3)
        self.assertRaisesRegex(ValueError, "^seeds: 1001 is not 1 to 1000$", lambda: icfp_ants.cup({"w": WORLD}, names, 1, 1, seeds=1001))

    def test_profile(self):
        found = icfp_ants.profile(**AMBUSH, seed=12345, rounds=2)
        self.assertEqual(found, [Executed(RED, 0, 2, 1, "Flip 2 0 0"), Executed(BLACK, 0, 9, 1, "Move 0 0")])
        self.assertEqual(found.text, self.written(*self.words("profile", 12345, 2), **AMBUSH))
        self.assertEqual(icfp_ants.profile(**FIRST, seed=1, rounds=110)[:2], [Executed(RED, 0, 7, 2, "Sense Here 1 2 Home"), Executed(RED, 1, 2, None, "Drop 3")])
        self.assertEqual(sum(it.times for it in icfp_ants.profile(**AMBUSH, seed=12345, rounds=2, rest=0)), 12)

    def test_cup(self):
        names = {"step.brain": AMBUSH["black"], "flip_two.brain": AMBUSH["red"], "idle.brain": example("idle.brain")}
        found = icfp_ants.cup({"ambush.world": AMBUSH["world"]}, names, 12345, 1, games=True)
        step, flip, idle = names
        self.assertEqual(found.standing, [Standing(5, flip, 1, 3, 0), Standing(5, idle, 1, 3, 0), Standing(2, step, 0, 2, 2)])
        pairs = (step, flip, 0), (flip, step, 3), (step, idle, 0), (idle, step, 3), (flip, idle, 0), (idle, flip, 0)
        self.assertEqual(found.games, [Played("ambush.world", red, black, Score(score, 0)) for red, black, score in pairs])
        two = icfp_ants.cup({"ambush.world": AMBUSH["world"]}, {step: names[step], flip: names[flip]}, 12345, 1)
        self.assertEqual((two.standing, two.games), ([Standing(3, flip, 1, 1, 0), Standing(1, step, 0, 1, 1)], []))

    def test_cup_of_odd_names(self):
        worlds = {"w, a, b": WORLD, "1 points: a (1 won, 2 drawn, 3 lost)": AMBUSH["world"]}
        brains = {"a, b": "Drop 0\n", "a (1 won, 0 drawn, 0 lost)": AMBUSH["red"], "-": AMBUSH["black"]}
        found = icfp_ants.cup(worlds, brains, 12345, 1, games=True)
        self.assertEqual({it.brain for it in found.standing}, set(brains))
        for place, it in enumerate(found.games):
            self.assertIn("game %d: red %d black %d, %s, %s, %s\n" % (place + 1, *it.score, it.world, it.red, it.black), found.text)
        self.assertEqual(len(found.games), 12)

    def test_labels_and_states(self):
        found = icfp_ants.labels(example("trail.asm"))
        self.assertEqual((found[7], found[13], found[14]), (Label(38, (), "carry"), Label(71, (), "home"), Label(6, (Use("turn", 73),), "right")))
        self.assertEqual(found[16], Label(13, (Use("out_to_1", 77), Use("step", 23), Use("turn", 13)), "right"))
        self.assertEqual(found.text, self.written("asm", "program", "--labels", program=example("trail.asm")))
        self.assertEqual(icfp_ants.labels("Drop next\n"), [])
        lines = "Sense Ahead 1 5 Food,PickUp 3 7,Move 0 4,Turn Left 2,Flip 2 6 8,Mark 0 2,Turn Right 2,Turn Left 2,Drop 0,Move 0 0".split(",")
        self.assertEqual(icfp_ants.states("\n".join(lines)), [Renumbered(old, new) for old, new in enumerate([0, 1, 2, 3, 4, 5, 6, 3, 7, None])])

    def test_lines(self):
        program = "block b\n Drop next\nout:\nend\nuse b\nMove done done\ndone:\n"
        found = icfp_ants.lines(program)
        self.assertEqual(found, [Line(0, (Use("b", 5),), 2), Line(1, (), 6)])
        found = icfp_ants.lines(example("trail.asm"))
        self.assertEqual(found.text, self.written("asm", "program", "--lines", program=example("trail.asm")))
        self.assertEqual((found[0], found[11]), (Line(0, (), 67), Line(11, (Use("out_to_1", 77), Use("step", 23), Use("turn", 13)), 4)))

    def test_way(self):
        first, second = "Move 1 0\nDrop 0\n", "Move 1 0\nTurn Left 0\n"
        found = icfp_ants.way(first, second)
        self.assertEqual(found, [Step(0, "Move 1 0", 0, "Move 1 0", True), Step(1, "Drop 0", 1, "Turn Left 0", None)])
        self.assertEqual(found.text, self.written("same", "first", "second", "--way", first=first, second=second))
        self.assertEqual(icfp_ants.way("Move 0 1\nDrop 0\n", "Move 0 1\nTurn Left 0\n")[0].met, False)
        self.assertEqual(icfp_ants.way("Drop 0\n", "Drop 1\nDrop 0\n"), [])
        self.assertEqual(len(icfp_ants.way("Drop 0\n", "Turn Left 0\n")), 1)

    def test_advance(self):
        saved = [icfp_ants.save(**AMBUSH, seed=12345, rounds=rounds) for rounds in (1, 4)]
        self.assertEqual(icfp_ants.advance(saved[0], 4), saved[1])
        self.assertEqual(saved[1], self.written("advance", "save", "--rounds", 4, save=saved[0]))

    def test_workload(self):
        self.assertEqual(icfp_ants.workload(12345, 0), (254, 1375, 127, 127, Score(0, 0), Counts(0, 0, 0)))

    def test_a_list_of_lines_is_copied_with_its_text(self):
        found = icfp_ants.states("Drop 0\n")
        for other in (copy.copy(found), copy.deepcopy(found), pickle.loads(pickle.dumps(found))):
            self.assertEqual((other, other.text, type(other)), (found, "0 0\n", type(found)))


class Faults(Beside):
    def test_of_games(self):
        for call, words in (
            (icfp_ants.trace, ["trace", "world", "red", "black", 0]), (icfp_ants.view, ["view", "world", "red", "black", "breaks"]), (icfp_ants.run, ["run", "world", "red", "black"]),
            (icfp_ants.save, ["save", "world", "red", "black"]), (icfp_ants.events, ["events", "world", "red", "black"]), (icfp_ants.profile, ["profile", "world", "red", "black"]),
        ):
            more = {icfp_ants.trace: {"ant": 0}, icfp_ants.view: {"breaks": ""}, icfp_ants.run: {"stats": True}, icfp_ants.save: {"window": 1}}.get(call, {})
            texts = {**AMBUSH, **({"breaks": ""} if "breaks" in more else {})}
            for name, text, kind in (("world", "3\n", Kind.WORLD_BAD_HEIGHT), ("red", "hop 0\n", Kind.BRAIN_UNKNOWN_WORD), ("black", LONG, Kind.TOO_LONG)):
                game = {**AMBUSH, name: text}
                fault = self.assert_refused(lambda: call(**game, **more, seed=1, rounds=1), *words, "--seed", 1, "--rounds", 1, **{**texts, name: text})
                self.assertEqual((fault.name, fault.kind), (name, kind))

    def test_of_breaks(self):
        found = [row for row in rows() if row.words[:1] == ["view"] and row.said.startswith("ants: k: ")]
        self.assertEqual(len(found), 6)
        for row in found:
            with self.assertRaises(Refused) as caught:
                icfp_ants.view(**AMBUSH, breaks=row.files["k"], seed=1, rounds=1)
            fault = caught.exception
            self.assertEqual((fault.name, fault.kind, fault.line, fault.column, fault.number, fault.words), ("breaks", *row[4:8], row.says))

    def test_of_a_cup_are_named_by_their_place(self):
        worlds, brains = {"w": WORLD, "v": WORLD}, {"a": "Drop 0\n", "b": "Drop 0\n"}
        for more, name, said in (
            ({"worlds": {**worlds, "v": "2\n"}}, "worlds['v']", "bad width"), ({"brains": {**brains, "b": "Move 0 7"}}, "brains['b']", "line 1: no such state 7"),
        ):
            with self.assertRaises(Refused) as caught:
                icfp_ants.cup(**{"worlds": worlds, "brains": brains, **more}, seed=1, rounds=1)
            self.assertEqual((caught.exception.name, caught.exception.words), (name, said))
        for more, said in (
            ({"brains": {"a": ""}}, "brains: 1 is not 2 to 16"), ({"worlds": {}}, "worlds: 0 is not 1 to 16"), ({"worlds": {"a": WORLD}}, r"brains\['a'\]: a world has this name"),
            ({"brains": {**brains, "--a": ""}}, r"brains\['--a'\]: no name of a file"), ({"worlds": {"": ""}}, r"worlds\[''\]: no name of a file"),
        ):
            self.assertRaisesRegex(ValueError, "^%s" % said, lambda: icfp_ants.cup(**{"worlds": worlds, "brains": brains, **more}, seed=1, rounds=1))

    def test_of_other_texts(self):
        for call, words, name, text in (
            (lambda: icfp_ants.show("3\n", 1), ["show", "world", 1], "world", "3\n"), (lambda: icfp_ants.labels("hop\n"), ["asm", "program", "--labels"], "program", "hop\n"),
            (lambda: icfp_ants.states(""), ["minimise", "brain", "--states"], "brain", ""),
            (lambda: icfp_ants.lines(""), ["asm", "program", "--lines"], "program", ""), (lambda: icfp_ants.way("", ""), ["same", "first", "second", "--way"], "first", ""),
            (lambda: icfp_ants.advance("ants save 2\n", 5), ["advance", "save", "--rounds", 5], "save", "ants save 2\n"),
            (lambda: icfp_ants.advance(example("one_ant.save"), 0), ["advance", "save", "--rounds", 0], "save", example("one_ant.save")),
            (lambda: icfp_ants.resume(example("one_ant.save"), 0, stats=True), ["resume", "save", "--rounds", 0, "--stats"], "save", example("one_ant.save")),
        ):
            self.assertEqual(self.assert_refused(call, *words, **{name: text}).name, name)

    def test_numbers_beyond_their_limits(self):
        for more, said in (
            ({"surround": 3}, "surround: 3 is not 4 to 6"), ({"corpse": 10}, "corpse: 10 is not 0 to 9"), ({"rest": 256}, "rest: 256 is not 0 to 255"),
            ({"window": 0}, "window: 0 is not 1 to 16384"), ({"rounds": 1000001}, "rounds: 1000001 is not"), ({"seed": -1}, "seed: -1 is not"),
        ):
            self.assertRaisesRegex(ValueError, "^" + said, lambda: icfp_ants.save(**{**AMBUSH, "seed": 1, "rounds": 1, **more}))
        self.assertRaisesRegex(ValueError, "^window: 16385 is not", lambda: icfp_ants.run(**AMBUSH, seed=1, rounds=1, window=16385))
        self.assertRaisesRegex(ValueError, "^ant: 16384 is not 0 to 16383$", lambda: icfp_ants.trace(**AMBUSH, ant=16384, seed=1, rounds=1))
        self.assertRaisesRegex(ValueError, "^start: -1 is not", lambda: icfp_ants.trace(**AMBUSH, ant=0, seed=1, rounds=1, start=-1))

    def test_help_has_the_limits(self):
        of_save = ((icfp_ants.save, {"seed": 1, it: -1}) for it in ("rounds", "window", "surround", "corpse", "rest"))
        for call, more in ((icfp_ants.scores, {"seeds": [-1]}), (icfp_ants.scores, {"seeds": [], "workers": 0}), *of_save):
            with self.assertRaises(ValueError) as caught:
                call(**{**AMBUSH, "rounds": 1, **more})
            limits = re.sub(r"\d+", lambda it: "{:,}".format(int(it[0])), str(caught.exception).partition(" is not ")[2])
            self.assertRegex(icfp_ants.__doc__, r"\b%s\b(?!,\d)" % limits)


if __name__ == "__main__":
    unittest.main()
