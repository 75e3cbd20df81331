"""Files, words and results that change."""
import os
import re
import shlex
import shutil
import subprocess

from league_tests.folder import BRAINS, PROGRAM, Folder, script


class Changes(Folder):
    """What was played with other files, or not whole."""

    def test_brain_that_changes(self):
        self.play()
        before = self.results()
        shutil.copy("flip_two.brain", "first.brain")
        for words in (self.begin(), ["season"], ["season", "--unfinished"], ["season", "--games"], ["season", "--check", "1"]):
            faults = self.bad(*words)
            self.assertIn("first.brain has another sum", faults)
            self.assertEqual(faults.count("\n"), 1)
        self.assertEqual(self.results(), before)
        self.assertEqual(self.good(*self.words("--calls", "--again")), "1 call in season/calls\n")  # it is flip_two.brain, whose other game is there
        self.run_calls()
        self.assertEqual(self.good("season"), self.cup())
        self.assertEqual({it: at for it, at in self.results().items() if it in before}, before)

    def test_brain_that_changes_is_played_again_and_nothing_else(self):
        self.play()
        before = self.results()
        self.edit("first.brain", "Turn Left", "Turn Right")
        self.assertIn("first.brain has another sum", self.bad(*self.begin()))
        self.good(*self.words("--calls", "--again"))
        self.assertEqual(len(self.text("season/calls").splitlines()), 2)
        self.assertEqual(len(re.findall(r"--brains .*first\.brain", self.text("season/calls"))), 2)
        self.run_calls()
        self.assertEqual(self.good("season"), self.cup())
        self.assertEqual({it: at for it, at in self.results().items() if it in before}, before)

    def test_world_and_program_that_change(self):
        self.hold(None)
        self.play()
        with open("meeting.world", "a") as file:
            file.write("\n")
        self.assertIn("meeting.world has another sum", self.bad("season"))
        self.good(*self.words("--calls", "--again"))
        self.assertEqual(len(re.findall("--worlds meeting.world --brains", self.text("season/calls"))), 3)
        self.run_calls()
        self.assertEqual(self.good("season"), self.cup())
        self.edit(self.program, "0.05", "0.06")
        self.assertIn("held has another sum", self.bad(*self.begin()))
        self.assertEqual(self.good("season"), self.cup())
        self.assertEqual(self.good(*self.words("--calls", "--again")), "3 calls in season/calls\n")

    def test_file_that_goes_or_cannot_be_read(self):
        self.play()
        os.remove("first.brain")
        os.remove("ambush.world")
        os.mkdir("ambush.world")
        for words in (self.begin(), ["season"], ["season", "--check", "1"]):
            faults = self.bad(*words)
            self.assertIn("first.brain can't be read", faults)
            self.assertIn("ambush.world can't be read", faults)

    def test_file_that_changes_while_it_is_played(self):
        self.good(*self.words("--calls"))
        call = self.text("season/calls").splitlines()[0].partition(" > ")[0]
        self.edit("step.brain", "Move", "Move ")
        ran = subprocess.run(["sh", "-c", call], stdout=subprocess.PIPE, stderr=subprocess.PIPE, env=self.environment())
        self.assertEqual((ran.returncode, ran.stdout, ran.stderr), (1, b"", b"league: step.brain isn't the file that the call is for\n"))
        script("changing", '#!/bin/sh\n%s "$@"\n[ "$1" != cup ] && [ "$1" != run ] || echo >> idle.brain\n' % shlex.quote(PROGRAM))
        self.program, self.brains = os.path.join(self.folder, "changing"), ["first.brain", "idle.brain"]
        self.good(*self.words("--calls", "--again"))
        ran = subprocess.run(["sh", "season/calls"], stderr=subprocess.PIPE, env=self.environment())
        self.assertEqual((ran.returncode, ran.stderr), (1, b"league: a file changed while first.brain idle.brain were played\n"))

    def test_file_that_changes_while_it_is_checked(self):
        """The results are not blamed for it."""
        self.play()
        script("changing", '#!/bin/sh\n[ "$1" != run ] || sed -i s/Left/Right/ first.brain\nexec %s "$@"\n' % shlex.quote(PROGRAM))
        self.program = os.path.join(self.folder, "changing")
        status, output, faults = self.called("season", "--check", "12")
        self.assertEqual((status, "differ" in output, "played again:" in output), (1, False, False))
        self.assertEqual(faults.split(";")[0], "league: first.brain has another sum than what was played")

    def test_late_withdrawn_and_forgotten(self):
        everything, self.worlds = (self.worlds, BRAINS), self.worlds[:1]
        self.play()
        before = self.results()
        for self.worlds, self.brains, calls in ((["ambush.world"], ["circle.brain", "first.brain", "step.brain", "flip_two.brain"], 3),
                                                (["ambush.world"], ["first.brain", "step.brain"], 0),
                                                (everything[0], ["step.brain", "first.brain"], 1),
                                                (*everything, 4 + 5)):
            self.assertEqual(self.good(*self.words("--calls")), "%d call%s in season/calls\n" % (calls, "" if calls == 1 else "s"))
            self.run_calls()
            self.assertEqual(self.good("season"), self.cup())
        self.assertEqual({it: at for it, at in self.results().items() if it in before}, before)
        os.rename("circle.brain", "again.brain")
        self.brains = ["again.brain" if it == "circle.brain" else it for it in self.brains]
        self.assertEqual(self.good(*self.words("--calls")), "0 calls in season/calls\n")
        self.assertEqual(self.good("season"), self.cup())

    def test_other_seed_and_rounds(self):
        self.brains = self.brains[:2]
        self.play()
        for what, words in (("seed of season was 12345, and is 1 now", ["--seed", "1", "--rounds", "200"]),
                            ("rounds of season was 200, and is 201 now", ["--seed", "1", "--rounds", "201"])):
            status, output, faults = self.called(*self.words("--calls")[:-4], *words)
            self.assertEqual((status, output, faults.count("\n")), (0, "1 call in season/calls\n", 1))
            self.assertIn("league: the " + what, faults)
        self.assertEqual(self.called(*self.words("--calls"))[:2], (0, "0 calls in season/calls\n"))

    def test_result_that_is_not_whole_or_does_not_add_up(self):
        standing = self.play()
        name = self.result_with("first.brain, step.brain")
        text = self.text(name)
        wrongs = [text[:at] for at in (1, 100, len(text) // 2, len(text) - 1)] + [text + "\n", text + text]
        wrongs += [text.replace("game 2: red", "game 2: red 1")]
        wrongs += [re.sub(r"game 1: red (\d+) black (\d+)", lambda it: "game 1: red %d black %d" % (int(it[2]) + 5, int(it[1])), text)]
        wrongs += [re.sub(r"(\d+) won", "9 won", text, count=1), re.sub("(?m)^# brains\n.", "# brains\n", text), re.sub("(?m)^game 3.*\n", "", text)]
        for wrong in wrongs:
            self.assertNotEqual(wrong, text)
            with open(name, "w") as file:
                file.write(wrong)
            self.assertEqual(self.bad("season"), "league: results/%s isn't whole, doesn't add up or contradicts another\n" % os.path.basename(name))
        for words in (["season", "--check", "0"], ["season", "--unfinished"], ["season", "--games"]):
            self.assertIn("isn't whole, doesn't add up or contradicts another\n", self.bad(*words))
        status, output, faults = self.called(*self.words("--calls"))
        self.assertEqual((status, output), (0, "1 call in season/calls\n"))
        self.assertIn("played again", faults)
        self.run_calls()
        self.assertEqual((self.good("season"), self.text(name), self.text(name + ".1")), (standing, text, wrong))

    def test_results_that_contradict(self):
        self.brains = self.brains[:2]
        self.play()
        name, = self.results()
        shutil.copy(name, name + "~")  # an editor's copy, which isn't looked at
        self.lose(name + "~")
        self.assertEqual(self.good("season"), self.cup())
        os.rename("season", "both")
        self.worlds = self.worlds[:1]
        self.play()
        other, = self.results()
        shutil.copy(name.replace("season", "both"), name)
        self.assertEqual(self.good("season"), self.cup())
        self.lose(name)
        told = "league: %s isn't whole, doesn't add up or contradicts another\n"
        self.assertEqual(self.bad("season"), "".join(told % it[7:] for it in sorted((name, other))))

    def test_result_that_is_changed_by_hand(self):
        self.play()
        name = self.result_with("first.brain, step.brain")
        self.lose(name)
        self.assertNotEqual(self.good("season"), self.cup())
        status, output, faults = self.called("season", "--check", "1000")
        lines = output.split("\n")
        self.assertEqual((status, faults), (1, "league: no standing is printed of results that differ\n"))
        self.assertEqual(lines[-2], "check: 4 differ")
        version = self.text("season/files").split("\n")[1][2:]
        self.assertEqual(lines[0], "check: played by %s: %s, %s" % (self.program, version, self.sum(self.program)))
        self.assertIn("check: 12 of 12 games are played again, chosen by the seed ", lines[1])
        expected = "check: game 3: red 0 black 99, ambush.world, step.brain, first.brain; played again: %s (%s)"
        self.assertEqual(lines[2], expected % (self.score("ambush.world", "step.brain", "first.brain")[7:], name.partition("/")[2]))
        os.remove(name)
        self.assertEqual(self.play(), self.cup())
        self.assertIn("check: 0 differ\n" + self.cup(), self.good("season", "--check", "1000"))

    def test_check_by_its_seed_and_elsewhere(self):
        self.play()
        self.lose(self.result_with("first.brain, step.brain"))
        found = set()
        for seed in range(8):  # 4 of 12 games are wrong, so about every second choice of 2 has none of them
            status, output, _ = self.called("season", "--check", "2", str(seed))
            self.assertEqual(status, 1 if "played again: red" in output else 0)
            self.assertIn("chosen by the seed %d\n" % seed, output)
            found.add(status)
        self.assertEqual(found, {0, 1})
        seed = re.search(r"seed (\d+)", self.called("season", "--check", "3")[1])[1]
        once = self.called("season", "--check", "3", seed)
        os.mkdir("elsewhere")
        for name in ["season", *self.worlds, *self.brains]:
            shutil.move(name, "elsewhere")
        os.chdir("elsewhere")
        self.hold(None)
        status, output, faults = self.called("season", "--check", "3", seed)
        lines = output.split("\n")
        self.assertTrue(lines[0].startswith("check: played by %s: ants " % self.program) and lines[0].endswith(", " + self.sum(self.program)))
        self.assertTrue(lines[1].startswith("check: the list has another program: ants ") and lines[1].endswith(", " + self.sum(PROGRAM)))
        self.assertEqual((status, lines[2:], faults), (once[0], once[1].split("\n")[1:], once[2]))

    def test_older_folder(self):
        os.makedirs("season/results")
        with open("season/calls", "w") as file:
            file.write("ants cup --worlds ambush.world --brains step.brain first.brain --seed 12345 --rounds 200\n")
        with open("season/results/1", "w") as file:
            file.write(self.cup(brains=["step.brain", "first.brain"]))
        for words in (self.begin(), self.begin("--again"), ["season"]):
            self.assertIn("season is of an older league, whose results don't tell what was played", self.bad(*words))
        os.remove("season/calls")
        self.assertIn("season is of an older league", self.bad("season"))
        os.rename("season/results/1", "season/calls")
        self.assertIn("season is of an older league", self.bad("season"))

    def test_results_without_a_list(self):
        """What several folders played is put together in a new one."""
        self.worlds, (first, second) = self.worlds[:1], self.worlds
        self.play()
        os.rename("season", "there")
        self.worlds = [second]
        self.play()
        for path in self.results():
            shutil.move(path, "there/results")
        shutil.rmtree("season")
        os.mkdir("season")
        os.rename("there/results", "season/results")
        self.worlds = [first, second]
        for _ in range(2):
            self.assertEqual(self.bad("season"), "league: season has no league\n")
            self.assertEqual(self.good(*self.words("--calls")), "0 calls in season/calls\n")
            self.assertEqual(self.good("season"), self.cup())
            os.truncate("season/files", 0)  # as a machine may leave it that lost its power
