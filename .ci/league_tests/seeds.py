"""Seasons with several seeds, and the leads of their standings."""
import os
import re
import shutil
import subprocess

from league_tests.folder import PROGRAM, TOP, Folder, needs_parallel, script

LAST = 4294967295


class Seeds(Folder):
    """Each pair plays each world with each seed, as in as many seasons of one seed."""

    def setUp(self):
        super().setUp()
        shutil.copy(os.path.join(TOP, "examples", "sample.brain"), "sample.brain")
        self.seed, self.count, self.brains = 12345, None, ["step.brain", "sample.brain", "first.brain"]

    def words(self, *more, rounds=200):
        words = super().words(*more, rounds=rounds)
        words[words.index("--seed") + 1] = str(self.seed)
        return words + (["--seeds", str(self.count)] if self.count else [])

    def scored(self, seed, *files, rounds=200):
        """The score of a game, as `run` prints it."""
        ran = subprocess.run([PROGRAM, "run", *files, "--seed", str(seed), "--rounds", str(rounds)], stdout=subprocess.PIPE, check=True)
        return tuple(map(int, re.search(r"score: red (\d+) black (\d+)\n\Z", os.fsdecode(ran.stdout)).groups()))

    def games(self, seeds):
        """Each game in the order of a cup: its seed, its files, and its score."""
        pairs = [(self.brains[one], self.brains[other]) for one in range(len(self.brains)) for other in range(one + 1, len(self.brains))]
        games = [(seed, world, *its) for world in self.worlds for seed in seeds for pair in pairs for its in (pair, pair[::-1])]
        return [(it, self.scored(*it)) for it in games]

    def standing(self, games, leads=False):
        """The standing of such games."""
        sums = {it: [0, 0, 0, 0] for it in self.brains}
        for (_, _, red, black), (its, others) in games:
            for brain, lead in ((red, its - others), (black, others - its)):
                sums[brain] = [a + b for a, b in zip(sums[brain], (lead > 0, lead == 0, lead < 0, lead))]
        lines = []
        for brain in sorted(self.brains, key=lambda it: -2 * sums[it][0] - sums[it][1]):
            won, drawn, lost, lead = sums[brain]
            lines.append("%d points: %s (%d won, %d drawn, %d lost)" % (2 * won + drawn, brain, won, drawn, lost) + leads * (", lead %d" % lead))
        return "".join(it + "\n" for it in lines)

    def test_seeds_that_begin_again_at_0(self):
        self.seed, self.count = LAST - 1, 3
        games = self.games([LAST - 1, LAST, 0])
        self.assertGreater(len({score for (_, *files), score in games if files == ["ambush.world", "step.brain", "sample.brain"]}), 1)
        self.assertEqual(self.play(), self.standing(games))
        names = ["%s-%d" % (self.name(*files), seed) for (seed, *files), _ in games]
        lines = ["game %d: red %d black %d, seed %d, %s, %s, %s, %s\n" % (number, *score, *its, name)
                 for number, ((its, score), name) in enumerate(zip(games, names), 1)]
        self.assertEqual(self.good("season", "--games", "--leads"), "".join(lines) + self.standing(games, leads=True))
        self.assertEqual(self.good("season", "--sheet"), self.text("season/files") + self.standing(games))
        self.assertIn("\n# seed 4294967294\n# seeds 3\n# rounds 200\n", self.text("season/files"))
        for number in (1, 13, 36):
            shown = "ants run %s %s %s --seed %d --rounds 200\n" % (*games[number - 1][0][1:], games[number - 1][0][0])
            self.assertEqual([self.good("season", "--show", it) for it in (str(number), names[number - 1])], [shown, shown])
        self.assertEqual(self.bad("season", "--show", self.name(*games[0][0][1:])), "league: there is no game %s\n" % names[0].rpartition("-")[0])

    def test_standing_and_games_are_those_of_one_cup(self):
        self.count = 3
        self.play()
        self.assertEqual(self.good("season", "--leads"), self.cup("--seeds", "3", "--leads"))
        printed = self.good("season", "--games")
        self.assertEqual(re.sub(r"(?m)^(game .*), \S+$", r"\1", printed), self.cup("--seeds", "3", "--games"))

    def test_leads(self):
        """In the first round of ambush.world red is surrounded where black steps, and leaves 3 particles on its hill."""
        self.brains, self.worlds = ["step.brain", "flip_two.brain", "idle.brain"], ["ambush.world"]
        self.good(*self.words("--calls", rounds=1))
        self.run_calls()
        standing = ("5 points: flip_two.brain (1 won, 3 drawn, 0 lost), lead 3\n5 points: idle.brain (1 won, 3 drawn, 0 lost), lead 3\n"
                    "2 points: step.brain (0 won, 2 drawn, 2 lost), lead -6\n")
        self.assertEqual(self.good("season", "--leads"), standing)
        self.assertEqual(self.good("season"), re.sub(", lead.*", "", standing))

    @needs_parallel
    def test_leads_of_what_is_played(self):
        standing = self.good(*self.words("--leads", "--games"), "--", "-j", "4")
        self.assertEqual(standing, self.good("season", "--leads", "--games"))
        self.assertEqual(standing.count(", lead "), 3)

    def test_results_of_one_seed_stay(self):
        """A season grows by seeds and shrinks again, and no game is played twice."""
        one = self.play()
        heading, before = self.text("season/files"), self.results()
        self.count = 1
        self.assertEqual(self.called(*self.words("--calls")), (0, "0 calls in season/calls\n", ""))
        self.assertEqual((self.good("season"), self.text("season/files")), (one, heading.replace("# rounds", "# seeds 1\n# rounds")))
        first = self.good("season", "--games").split("\n")[0]
        self.assertRegex(first, r"\Agame 1: red \d+ black \d+, seed 12345, ambush.world, step.brain, sample.brain, .*-12345\Z")
        self.count = 2
        self.assertEqual(self.called(*self.words("--calls")), (0, "3 calls in season/calls\n", ""))
        self.assertEqual(re.findall("--seed ([0-9]+)", self.text("season/calls")), 3 * ["12346"])
        self.assertEqual(self.bad("season"), "league: 12 of 24 games aren't played yet; --unfinished prints a standing of the others\n")
        self.assertEqual(self.good("season", "--unfinished"), "unfinished: 12 of 24 games\n" + one)
        self.run_calls()
        both = self.games([12345, 12346])
        self.assertEqual(self.good("season"), self.standing(both))
        told = "league: the seed of season was %s, and is %s now: what was played by another is not used\n"
        for self.seed, self.count, seeds in ((12346, None, ("12345 to 12346", "12346")), (12345, 2, None),
                                             (12344, 2, ("12345 to 12346", "12344 to 12345")), (12345, None, ("12344 to 12345", "12345"))):
            status, output, faults = self.called(*self.words("--calls"))
            self.assertEqual((status, faults), (0, told % seeds if seeds else ""))
            self.assertEqual(output, "%d calls in season/calls\n" % (3 if self.seed == 12344 else 0))
        self.assertEqual((self.good("season"), self.text("season/files")), (one, heading))
        self.assertEqual({it: at for it, at in self.results().items() if it in before}, before)

    def test_check(self):
        self.count = 3
        standing = self.play()
        lost = next(it for it in self.results() if "# seed 12346\n" in self.text(it) and "step.brain, first.brain" in self.text(it))
        self.lose(lost)
        wrong = [(at, *its[1:], *score, lost[7:]) for at, (its, score) in enumerate(self.games([12345, 12346, 12347]), 1)
                 if its[0] == 12346 and set(its[2:]) == {"step.brain", "first.brain"}]
        self.assertEqual(len(wrong), 4)
        lines = ["check: game %d: red 0 black 99, seed 12346, %s, %s, %s; played again: red %d black %d (%s)" % it for it in wrong]
        status, output, faults = self.called("season", "--check", "1000", "1")
        self.assertEqual((status, faults), (1, "league: no standing is printed of results that differ\n"))
        self.assertEqual(output.split("\n")[2:-2], lines)
        self.assertIn("\ncheck: 36 of 36 games are played again, chosen by the seed 1\n", output)
        os.remove(lost)
        self.assertEqual(self.play(), standing)
        self.assertIn("check: 0 differ\n" + standing, self.good("season", "--check", "1000"))

    @needs_parallel
    def test_check_by_parallel(self):
        """Games of the same files are distinguished by their seeds."""
        self.count, self.brains = 3, self.brains[:2]
        self.play()
        for lost in [it for it in self.results() if "# seed 12346\n" in self.text(it)]:
            self.lose(lost)
        once = self.called("season", "--check", "12", "1")
        self.assertEqual(once[1].count("seed 12346, "), 4)
        self.assertEqual(self.called("season", "--check", "12", "1", "--", "-j", "2"), once)
        fails = '#!/bin/sh\ncase "$*" in run*"--seed 12345 "*) echo "ants: it fails" >&2; exit 5;; esac\nexec %s "$@"\n' % PROGRAM
        script("failing", fails)
        self.program = os.path.join(self.folder, "failing")
        status, output, faults = self.called("season", "--check", "12", "1", "--", "-j", "1", "--halt", "never")
        self.assertEqual((status, "played again: red" in output, "differ" in output), (1, False, False))
        self.assertIn("league: 0 of 12 games are played again\n", faults)

    def test_words(self):
        for self.count in ("0", "1001", "x", "-1", "00000000001", "1.5"):
            self.assertEqual(self.bad(*self.words("--calls")), "league: --seeds needs a number from 1 to 1000\n")
        self.assertEqual(self.bad("season", "--seeds", "1"), "league: these words don't go together; league --help tells which do\n")
        self.assertEqual(self.bad(*self.words("--seeds", "1")), "league: what is --seeds? league --help tells the words\n")
        self.assertEqual(self.bad(*self.words()[:-1]), "league: --seeds needs a number from 1 to 1000\n")
        self.assertFalse(os.path.exists("season"))
        self.count = "0002"
        self.assertEqual(self.good(*self.words("--calls")), "6 calls in season/calls\n")
        self.assertIn("\n# seeds 2\n", self.text("season/files"))

    def test_number_of_games(self):
        self.brains, self.worlds, self.count = ["%d" % it for it in range(101)], ["ambush.world"], 991
        for name in self.brains:
            with open(name, "w") as file:
                file.write("Drop 0 ; %s\n" % name)
        self.assertEqual(self.bad(*self.words("--calls")), "league: 10009100 games are more than 10000000\n")

    def test_list_that_is_changed(self):
        self.count = 2
        self.play()
        heading, standing = self.text("season/files"), self.good("season")
        for new in ("# seeds 0\n", "# seeds 1001\n", "# seeds 02\n", "# seeds \u0662\n", "# seeds\n", "# seeds 2\n# seeds 2\n", "# seeds 2 \n"):
            self.edit("season/files", "# seeds 2\n", new)
            self.assertEqual(self.bad("season"), "league: season/files isn't a list of this league's form\n")
            self.edit("season/files", new, "# seeds 2\n")
        self.assertEqual((self.text("season/files"), self.good("season")), (heading, standing))
        result = min(self.results())
        self.edit(result, "# rounds", "# seeds 1\n# rounds")
        told = "league: %s isn't whole, doesn't add up or contradicts another\n" % result[7:]
        self.assertEqual(self.bad("season"), told)
        seed = re.search("# seed ([0-9]+)\n", self.text(result))[1]
        with open(result) as file:
            text = re.sub(r"(?m)^(game \d+: red \d+ black \d+, )", r"\1seed %s, " % seed, file.read())
        with open(result, "w") as file:
            file.write(text)  # a whole one of a form that no call writes
        self.assertEqual(self.bad("season"), told)

    def test_mean_lead_of_a_season(self):
        """The mean lead of a brain is that of its pairs of games, by examples/lead.awk over the games of a season or a cup."""
        self.brains, self.count = ["step.brain", "sample.brain"], 3
        self.play()
        scores = {tuple(its): score for its, score in self.games([self.seed + it for it in range(self.count)])}
        leads = []
        for (seed, world, red, black), (its, others) in scores.items():
            if red == "step.brain":
                back = scores[seed, world, black, red]
                leads.append(its - others + back[1] - back[0])
        mean = sum(leads) / len(leads)
        error = (sum((it - mean) ** 2 for it in leads) / len(leads) / (len(leads) - 1)) ** 0.5
        told = "%d pairs of games: mean lead %.1f, standard error %.1f\n" % (len(leads), mean, error)
        for printed in (self.good("season", "--games"), self.cup("--seeds", "3", "--games")):
            ran = subprocess.run(["awk", "-v", "brain=step.brain", "-f", os.path.join(TOP, "examples", "lead.awk")], input=os.fsencode(printed), stdout=subprocess.PIPE, check=True)
            self.assertEqual(os.fsdecode(ran.stdout), told)
