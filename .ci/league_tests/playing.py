"""Seasons that are played: their standing, games, names and calls."""
import glob
import os
import re
import shlex
import shutil
import subprocess

from league_tests.folder import BRAINS, PROGRAM, Folder, script


class Playing(Folder):
    def test_standing_and_games_are_those_of_one_cup(self):
        self.brains = BRAINS
        self.assertEqual(self.play(), self.cup())
        printed = self.good("season", "--games")
        self.assertTrue(printed.endswith("\n" + self.cup()))
        pairs = [(self.brains[one], self.brains[other]) for one in range(5) for other in range(one + 1, 5)]
        games = [(world, *its) for world in self.worlds for pair in pairs for its in (pair, pair[::-1])]
        expected = ["game %d: %s, %s, %s, %s, %s" % (number, self.score(*it)[7:], *it, self.name(*it)) for number, it in enumerate(games, 1)]
        self.assertEqual(printed.split("\n")[:len(games)], expected)
        self.assertEqual(re.sub(r"(?m)^(game .*), \S+$", r"\1", printed), self.cup("--games"))
        for number, it in ((1, games[0]), (2, games[1]), (12, games[11]), (40, games[39])):
            shown = "ants run %s %s %s --seed 12345 --rounds 200\n" % it
            self.assertEqual([self.good("season", "--show", word) for word in (str(number), self.name(*it))], [shown, shown])
        for word in ("0", "41", "1x", self.name(*games[0])[1:]):
            self.assertEqual(self.bad("season", "--show", word), "league: there is no game %s\n" % word)

    def test_program_without_games(self):
        script("older", '#!/bin/sh\n[ "$1" = --help ] || exec %s "$@"\n' % shlex.quote(PROGRAM))
        self.program = os.path.join(self.folder, "older")
        self.assertEqual(self.play(), self.cup())

    def test_more_worlds_than_one_call_has(self):
        for number in range(15):
            shutil.copy("meeting.world", "%d.world" % number)
            with open("%d.world" % number, "a") as file:
                file.write("\n" * (number + 1))  # the same world, with another sum
        self.worlds, self.brains = [*glob.glob("*.world")], self.brains[:2]
        self.play()
        self.assertEqual(len(self.results()), 2)
        first, second = self.cup(worlds=self.worlds[:16]), self.cup(worlds=self.worlds[16:])
        sums = {}
        for points, name in re.findall(r"(\d+) points: (\S+)", first + second):
            sums[name] = sums.get(name, 0) + int(points)
        self.assertEqual({name: int(points) for points, name in re.findall(r"(\d+) points: (\S+)", self.good("season"))}, sums)

    def test_worlds_and_brains_that_are_alike(self):
        shutil.copy("step.brain", "same.brain")
        self.worlds, self.brains = ["ambush.world", "ambush.world"], ["step.brain", "first.brain", "same.brain"]
        self.assertEqual(self.play(), self.cup())
        self.assertEqual(len(self.results()), 2)

    def test_odd_names(self):
        odd = ["a b", "'", '"', "-x", "a--b", "{}", "{#}", "$(touch ran)", "a\\b", "\t", "a,b", "#", "\u00fc", "\x1b[2J"]
        for number, name in enumerate(odd):
            with open(name, "w") as file:
                file.write("Turn Left 0\n" if number % 2 else "Move 0 0\n")
        self.brains, world = odd, "the world; {}\r'"
        os.rename("ambush.world", world)
        self.worlds = [world]
        standing = self.play()
        self.assertEqual(standing, self.cup())
        self.assertEqual(self.good("season", "--check", "3").split("differ\n")[1], standing)
        self.assertFalse(os.path.exists("ran"))
        shown = self.good("season", "--show", "2")  # red is the second one, black the first
        self.assertEqual(shlex.split(shown), ["ants", "run", world, odd[1], odd[0], "--seed", "12345", "--rounds", "200"])
        subprocess.run(["sha256sum", "--check", "--quiet", "--strict", "season/files"], check=True)

    def test_names_that_cannot_be(self):
        names = ["", "-", "a\nb", "\udcff\udcfe", "a, b", 4096 * "x"]
        shown = ["", "-", "a\\x0ab", "\\xff\\xfe", "a, b", 99 * "x"]
        with open("broken", "w") as file:
            file.write("Drop\n")
        self.brains, self.worlds = ["step.brain", *names[:4], "broken", "step.brain"], ["ambush.world", *names[4:], "no.world"]
        faults = self.bad(*self.begin()).splitlines()
        for it in shown:
            self.assertEqual(sum(line.startswith("league: \"%s\" can't be a name: " % it) for line in faults), 1)
        for it in ("step.brain is named twice", "no.world can't be read", "broken: line 1: "):
            self.assertEqual(sum("league: " + it in line for line in faults), 1)
        self.assertEqual((len(faults), self.results(), os.path.exists("season/files")), (len(names) + 3, {}, False))

    def test_line_feed_that_would_break_calls(self):
        self.assertIn("the folder can't have a line feed in its name: a\\x0ab\n", self.bad("a\nb", *self.words("--calls")[1:]))
        os.symlink(PROGRAM, "a\nb")
        self.program = os.path.join(self.folder, "a\nb")
        self.assertIn("the program can't have a line feed in its name", self.bad(*self.words("--calls")))
        self.assertEqual([it for it in os.listdir() if "season" in it], [])

    def test_broken_files_are_named_before_the_first_game(self):
        for name, text in (("one.brain", "Drop 5\n"), ("two.brain", "Drop\n"), ("three.world", "1\n")):
            with open(name, "w") as file:
                file.write(text)
        os.mkdir("four.brain")
        self.brains += ["one.brain", "two.brain", "four.brain", "five.brain"]
        self.worlds += ["three.world"]
        faults = self.bad(*self.begin())
        for fault in ("one.brain: line 1: no such state 5", "two.brain: line 1", "three.world: ", "four.brain can't be read", "five.brain can't be"):
            self.assertIn("league: " + fault, faults)
        self.assertEqual((self.results(), len(faults.split("\n"))), ({}, 6))
        self.brains, self.worlds = self.brains[:2] + ["one.brain"], self.worlds[:2]
        with open("one.brain", "w") as file:
            file.write("Drop 0\n")
        self.assertEqual(self.play(), self.cup())

    def test_calls_for_another_job_runner(self):
        self.assertEqual(self.good(*self.words("--calls")), "3 calls in season/calls\n")
        self.assertIn("12 of 12 games aren't played yet", self.bad("season"))
        subprocess.run(["sh", "-c", self.text("season/calls").split("\n")[0]], check=True, env=self.environment())
        self.assertIn("8 of 12 games aren't played yet", self.bad("season"))
        self.assertEqual(self.good("season", "--unfinished").split("\n")[0], "unfinished: 4 of 12 games")
        self.assertEqual(self.good(*self.words("--calls")), "2 calls in season/calls\n")
        self.run_calls()
        self.assertEqual(self.good("season"), self.cup())

    def test_sheet(self):
        standing = self.play()
        self.assertEqual(self.good("season", "--sheet"), self.text("season/files") + standing)
        heading = self.text("season/files")
        for line in ("# ants ", "# seed 12345\n", "# rounds 200\n", "# program %s\n" % self.sum(self.program)):
            self.assertIn("\n" + line, heading)
        files = subprocess.run(["sha256sum", *self.worlds, *self.brains], stdout=subprocess.PIPE, check=True)
        self.assertEqual([it for it in heading.split("\n") if not it.startswith("#")], os.fsdecode(files.stdout).split("\n"))
