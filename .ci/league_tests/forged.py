"""Folders of a league that somebody made up."""
import hashlib
import itertools
import os
import pty
import re
import resource
import shutil
import subprocess
import tempfile

from league_tests.folder import HAS_PARALLEL, LEAGUE, PROGRAM, Folder, needs_parallel, script


class Forged(Folder):
    """A season as an enemy would publish it is refused, found or harmless: nothing of it runs, is written, or is read from elsewhere."""

    played = {}
    READS = ([], ["--games"], ["--sheet"], ["--unfinished"])

    def setUp(self):
        super().setUp()
        if not Forged.played:
            self.good(*self.words("--calls"))
            self.run_calls()
            Forged.played = {it: self.text(it) for it in ["season/files", *self.results()]}
        self.anew()

    def anew(self):
        """The season as it was played."""
        shutil.rmtree("season", ignore_errors=True)
        os.makedirs("season/results")
        for path, text in Forged.played.items():
            self.forge(path, text)
        self.result = self.result_with("first.brain, step.brain")

    def forge(self, path, text):
        with open(path, "w", encoding="utf-8", errors="surrogateescape", newline="") as file:
            file.write(text)

    def called(self, *words):
        """A league that has little memory and time, so that it reads nothing long."""
        return super().called(*words, before=lambda: resource.setrlimit(resource.RLIMIT_DATA, (4 * 10 ** 8, 4 * 10 ** 8)), seconds=60)

    def refused(self, told):
        """A check, which reads all that adding up does, tells this in one line."""
        faults = self.bad("season", "--check", "1")
        self.assertIn(told, faults)
        self.assertEqual(faults.count("\n"), 1, faults)

    def harmless(self):
        """The season can be checked and added up."""
        self.assertIn("check: 0 differ\n" + self.cup(), self.good("season", "--check", "1"))

    def listed(self, old, new):
        """The season with this edit of its list."""
        self.anew()
        self.edit("season/files", old, new)

    def test_program_of_the_folder(self):
        """Its program would confirm results that were made up; it stands in the list, as in older ones, or behind the sum."""
        os.mkdir("bin")
        os.symlink(PROGRAM, "bin/ants")
        self.path, ours = os.path.join(self.folder, "bin") + ":" + self.path, self.program
        for line in ("# program\n%s  season/tool\n", "# program %s\n"):
            for self.program in (ours, ""):
                self.anew()
                script("season/tool", '#!/bin/sh\ntouch ran\n[ "$1" != --version ] || exec echo "ants 1.0.0"\necho "score: red 0 black 99"\n')
                self.lose(self.result)
                for path in ["season/files", *self.results()]:
                    self.forge(path, re.sub("# program .*\n", line % self.sum("season/tool"), self.text(path)))
                subprocess.run(["sha256sum", "--check", "--quiet", "season/files"], check=True)
                for words in self.READS:
                    self.assertIn("step.brain", self.good("season", *words))
                status, output, faults = self.called("season", "--check", "1000")
                lines = output.split("\n")
                self.assertTrue(lines[0].startswith("check: played by %s: ants " % (self.program or os.path.abspath("bin/ants"))))
                self.assertIn("check: the list has another program: ants ", lines[1])
                self.assertIn(self.sum("season/tool"), lines[1])
                self.assertEqual((status, lines[-2], len(lines)), (1, "check: 4 differ", 9))
                self.assertFalse(os.path.exists("ran"))

    def test_programs_where_the_path_has_this_folder(self):
        for name in ("ants", "parallel", "sh"):
            script(name, "#!/bin/sh\ntouch ran\n")
        self.program, self.path = "", ":.:%s:bin:" % self.path
        self.assertEqual(self.bad("season", "--check", "1"), "league: there is no program ants; ANTS names it\n")
        self.program = PROGRAM
        if HAS_PARALLEL:
            self.assertIn("check: 0 differ\n", self.good("season", "--check", "1", "--", "-j", "1"))
        self.assertFalse(os.path.exists("ran"))

    def test_no_program_is_needed(self):
        self.program, self.path = "no/such", self.path.replace(os.path.dirname(PROGRAM), "")
        for words in self.READS:
            self.assertIn(self.cup(), self.good("season", *words))
        self.assertEqual(self.good("season", "--show", "1"), "ants run ambush.world step.brain flip_two.brain --seed 12345 --rounds 200\n")
        self.assertEqual(self.bad("season", "--check", "1"), "league: there is no program no/such; ANTS names it\n")

    def test_list_of_the_older_form(self):
        for path in ["season/files", *self.results()]:
            self.edit(path, "# league 3\n", "# league 2\n")
            self.edit(path, "# program ", "# program\n")
            self.edit(path, "\n# worlds\n", "  /elsewhere/ants\n# worlds\n")
        self.harmless()
        self.assertEqual(self.good(*self.words("--calls")), "0 calls in season/calls\n")
        self.harmless()

    def test_names_that_lead_out(self):
        away = tempfile.mkdtemp(prefix="league-")
        self.addCleanup(shutil.rmtree, away)
        shutil.move("first.brain", away)
        os.symlink(away, "link")
        os.symlink(os.path.join(away, "first.brain"), "name")
        own = [away + "/first.brain", "../%s/first.brain" % os.path.basename(away), "link/first.brain", "name"]
        for name in own + ["/dev/zero", "/dev/stdin", "/proc/kmsg", "season/../../x"]:
            self.listed("  first.brain\n", "  %s\n" % name)
            self.refused("%s leads out of %s/, and isn't read" % (name, os.path.realpath(".")))
            if name in own:
                self.assertEqual(self.good("season", "--under", ".."), self.cup(brains=[*self.brains[:2], name]))
        self.listed("  ambush.world\n", "  %s/ambush.world\n" % away)
        self.edit("season/files", "  first.brain\n", "  /dev/zero\n")
        self.assertEqual(self.bad("season").count(" leads out of "), 2)

    def test_links(self):
        for path in ("season/files", self.result, "season/results"):
            self.anew()
            os.rename(path, "away")
            os.symlink(os.path.abspath("away"), path)
            self.refused("league: %s: Not a directory\n" % path if path == "season/results" else "league: %s is no plain file\n" % path)
            self.assertEqual(self.bad(*self.begin())[7:].count(path), 1)
            shutil.rmtree("away") if os.path.isdir("away") else os.remove("away")

    def test_folder_that_is_a_link(self):
        away = tempfile.mkdtemp(prefix="league-")
        self.addCleanup(shutil.rmtree, away)
        shutil.move("season", away)
        os.symlink(away + "/season", "season")
        os.symlink(away, "link")
        for name in ("season", "season/", "season/.", "link/season", os.path.abspath("season")):
            for words in (*self.READS, ["--show", "1"], ["--check", "1"]):
                told = "league: %s leads out of %s/, and isn't read; --under names another directory\n" % (name, os.path.realpath("."))
                self.assertEqual(self.bad(name, *words), told)
            self.assertEqual(self.good(name, "--under", ".."), self.cup())
        os.remove("season")
        shutil.move(away + "/season", "here")
        os.symlink("here", "season")
        self.harmless()

    def test_links_in_a_chain(self):
        """More than the system follows, than Python does, and without an end."""
        for kind, (count, end) in enumerate(((1100, "first.brain"), (60, "first.brain"), (1, "2-0"), (30, "first.brain"))):
            names = ["%d-%d" % (kind, it) for it in range(count)]
            for name, its in zip(names, names[1:] + [end]):
                os.symlink(its, name)
            self.listed("  first.brain\n", "  %s\n" % names[0])
            if count != 30:
                self.refused("league: %s can't be read: a plain file of at most 4194304 bytes is wanted\n" % names[0])
        self.brains[2] = names[0]
        self.harmless()

    def test_names_that_the_program_cannot_open(self):
        for name in ("first.brain/", "first.brain/.", "gone/../first.brain", "step.brain/../first.brain"):
            self.listed("  first.brain\n", "  %s\n" % name)
            self.refused("league: %s can't be read: a plain file of at most 4194304 bytes is wanted\n" % name)
        self.brains[2] = "season/.././/first.brain"
        self.listed("  first.brain\n", "  season/.././/first.brain\n")
        self.harmless()

    def test_game_that_is_shown(self):
        """It is of the files of the list, so that none leads out, waits or is another one where a shell plays what is shown."""
        self.listed("  first.brain\n", "  /dev/tty\n")
        self.assertIn("/dev/tty leads out of ", self.bad("season", "--show", "1"))
        self.anew()
        os.rename("first.brain", "away")
        os.mkfifo("first.brain")
        self.assertIn("first.brain can't be read", self.bad("season", "--show", "1"))
        os.remove("first.brain")
        shutil.copy("step.brain", "first.brain")
        self.assertIn("first.brain has another sum", self.bad("season", "--show", "1"))

    def test_names_of_games_that_are_alike(self):
        """The sums of two brains begin with the same 12 digits: a name may be of several games, if they aren't one."""
        shutil.rmtree("season")
        self.forge("step.brain", "Move 0 0;50fb70276734")
        self.forge("first.brain", "Turn Left 0;b4473a0e9bd7")
        self.worlds, self.brains = 2 * ["ambush.world"], [*self.brains, "idle.brain"]
        self.good(*self.words("--calls"))
        one, other, third = (self.name("ambush.world", it, "idle.brain") for it in ("step.brain", "first.brain", "flip_two.brain"))
        self.assertEqual(one, other)
        self.assertEqual(self.bad("season", "--show", one), "league: several games are called %s: take a number\n" % one)
        shown = "ants run ambush.world flip_two.brain idle.brain --seed 12345 --rounds 200\n"
        self.assertEqual(self.good("season", "--show", third), shown)

    def test_what_is_no_file(self):
        for make, path in itertools.product((os.mkfifo, os.mkdir), ("season/files", self.result)):
            self.anew()
            os.remove(path)
            make(path)
            self.refused("league: %s is no plain file\n" % path)
            self.assertIn("league: %s is no plain file\n" % path, self.bad(*self.begin()))
        self.anew()
        for make, path in zip(3 * (os.mkfifo, os.mkdir), ("results/x", "results/y", "lock", "calls", "results/" + 31 * "0", "results/" + 33 * "0")):
            make("season/" + path)
        self.harmless()
        for make, path in ((os.mkfifo, "first.brain"), (os.mkdir, "ambush.world")):
            os.rename(path, "away")
            make(path)
            self.refused("league: %s can't be read: a plain file of at most 4194304 bytes is wanted\n" % path)
            shutil.rmtree(path) if make is os.mkdir else os.remove(path)
            os.rename("away", path)

    def test_size(self):
        for path, told in (("season/files", "season/files has more than 4194304 bytes"), (self.result, self.result + " has more than 4194304 bytes"),
                           ("first.brain", "first.brain can't be read"), ("ambush.world", "ambush.world can't be read")):
            self.anew()
            text = self.text(path)
            os.truncate(path, 3 * 2 ** 30)
            self.refused(told)
            self.forge(path, text)
        self.listed("  first.brain\n", "  %s\n" % (4 * 10 ** 6 * "x"))
        self.refused("season/files: \"%s\" can't be a name" % (99 * "x"))

    def test_lists_of_many(self):
        line = "%s  %%s\n" % self.sum("first.brain")
        million = "".join(line % it for it in range(10 ** 6))
        self.listed(line % "first.brain", million)
        self.refused("season/files has more than 4194304 bytes")
        self.listed(line % "first.brain", "".join(line % ("./" * it + "first.brain") for it in range(1250)))
        self.listed("%s  ambush.world\n" % self.sum("ambush.world"), 20000 * ("%s  ambush.world\n" % self.sum("ambush.world")))
        self.edit("season/files", line % "first.brain", "".join(line % it for it in range(30)))
        self.refused("19840992 games are more than 10000000")
        self.anew()
        files = 5000 * (line % "w") + "# brains\n" + line % "a" + line % (2 * 10 ** 6 * "b")
        front = self.text(self.result).partition("# worlds\n")[0] + "# worlds\n"
        self.forge(self.result, front + files + 10000 * "game 1: red 0 black 0, \n")
        self.refused(" isn't whole, doesn't add up or contradicts another\n")

    def test_many_that_are_alike(self):
        """Each of a few results is for all of a million games, one of the same sums among them."""
        one, other, world = (self.sum(it) for it in ("first.brain", "step.brain", "ambush.world"))
        self.edit("season/files", "%s  first.brain\n" % one, "".join("%s  %sfirst.brain\n" % (one, it * "./") for it in range(1000)))
        self.edit("season/files", "%s  meeting.world\n" % self.sum("meeting.world"), "")
        front = re.sub("(?s)# worlds.*", "", self.text(self.result)) + "# worlds\n"
        for count in range(1, 16):
            league = front + count * ("%s  w\n" % world) + "# brains\n%s  a\n%s  b\n" % (one, one)
            games = ["game %d: red 0 black 0, w, %s\n" % it for it in enumerate(count * ["a, b", "b, a"], 1)]
            text = league + "".join(games) + "".join("%d points: %s (0 won, %d drawn, 0 lost)\n" % (2 * count, it, 2 * count) for it in "ab")
            sums = "\n".join(["12345", "200"] + count * [world] + [one, one])
            self.forge("season/results/" + hashlib.sha256(sums.encode()).hexdigest()[:32], text)
        status, output, faults = self.called("season")
        self.assertEqual((status, output.split("\n")[0], faults), (0, "2005 points: first.brain (3 won, 1999 drawn, 0 lost)", ""))

    def test_numbers(self):
        seeds, rounds = [5000 * "9", "\u0661", "4294967296", "012345"], ["1000001", "-1", "\uff12"]
        edits = [("seed 12345", "seed " + it) for it in seeds] + [("rounds 200", "rounds " + it) for it in rounds]
        edits += [("# ants ", "# ant "), ("# ants ", "# ants \x1b[2J"), (self.text("season/files").split("# brains\n")[1].split("\n", 1)[1], "")]
        for old, new in edits:
            self.listed(old, new)
            self.refused("season/files isn't a list of this league's form")
        self.anew()
        self.edit(self.result, "seed 12345", "seed " + 5000 * "9")
        self.refused("%s isn't whole, doesn't add up or contradicts another" % self.result[7:])
        for new in ("red \u0663", "red " + 5000 * "1"):
            self.anew()
            self.forge(self.result, re.sub("red [0-9]+", new, self.text(self.result), count=1))
            self.refused("%s isn't whole, doesn't add up or contradicts another" % self.result[7:])

    def test_names(self):
        for name, shown in (("-", "-"), ("--stats", "--stats"), ("a, b", "a, b"), ("a\0b", "a\\x00b"), ("\udcff", "\\xff"), (4096 * "x", 99 * "x")):
            self.listed("  first.brain\n", "  %s\n" % name)
            self.refused('league: season/files: "%s" can\'t be a name: ' % shown)
        self.listed("  first.brain\n", "  step.brain\n")
        self.refused("season/files: step.brain is named twice")
        self.listed("  first.brain\n", "  ambush.world\n")
        self.refused("season/files: ambush.world is named twice")
        self.listed("  first.brain\n", "  -\n")
        self.edit("season/files", "  step.brain\n", "  a, b\n")
        self.assertEqual(self.bad("season").count("can't be a name"), 2)

    def test_version(self):
        for version in ("ants 9.9.9", "ants 1"):
            self.anew()
            self.edit("season/files", self.text("season/files").split("\n")[1], "# " + version)
            self.assertIn("check: the list has another program: %s, %s\n" % (version, self.sum(PROGRAM)), self.good("season", "--check", "1"))

    def test_names_that_look_alike(self):
        """A check tells each that isn't what it seems: by a blank, a letter of another script, or a sign that no terminal shows."""
        for name in ("step.brain ", " step.brain", "step  .brain", "st\u0435p.brain", "ste\u0301p.brain", "step.brain\ufe0f", "\u3164step.brain"):
            shutil.copy("first.brain", name)
            self.listed("  first.brain\n", "  %s\n" % name)
            told = [it for it in self.good("season", "--check", "1").split("\n") if "look like" in it]
            self.assertEqual(told, ["check: a name that may look like another one: %s" % ascii(name)])
        for name in ("step brain", "~step.brain"):
            shutil.copy("first.brain", name)
            self.listed("  first.brain\n", "  %s\n" % name)
            self.assertNotIn("look like", self.good("season", "--check", "1"))

    def on_a_terminal(self, *words):
        """What a terminal gets of a league."""
        terminal, end = pty.openpty()
        subprocess.run([LEAGUE, *words], stdin=subprocess.DEVNULL, stdout=end, stderr=end, env=self.environment(), timeout=60)
        os.close(end)
        told = os.read(terminal, 100000)
        os.close(terminal)
        return os.fsdecode(told).replace("\r\n", "\n")

    def test_escapes_on_a_terminal(self):
        odd = "x\x1b[1A\x1b[2Kcheck: 0 differ\x1b[8m\r\x9b\u202e\x07"
        shown = "x\\x1b[1A\\x1b[2Kcheck: 0 differ\\x1b[8m\\x0d\\xc2\\x9b\\xe2\\x80\\xae\\x07"
        os.rename("first.brain", odd)
        self.listed("  first.brain\n", "  %s\n" % odd)
        self.brains[2] = odd
        self.harmless()
        for words in self.READS:
            self.assertEqual(self.on_a_terminal("season", *words), self.good("season", *words).replace(odd, shown))
        self.lose(self.result)
        self.assertEqual(self.on_a_terminal("season", "--check", "100").count(shown), 4)
        os.remove(odd)
        self.assertEqual(self.bad("season"), "league: %s can't be read: a plain file of at most 4194304 bytes is wanted\n" % shown)

    @needs_parallel
    def test_escapes_that_parallel_tells(self):
        """Parallel tells a call that fails as it is, here of a brain that the program refuses."""
        odd, shown = "x\x1b]0;taken\x07\x1b[2J.brain", "x\\x1b]0;taken\\x07\\x1b[2J.brain"
        self.forge(odd, "Jump 0\n")
        one, other = self.sum("first.brain"), self.sum(odd)
        self.listed("%s  first.brain\n" % one, "%s  %s\n" % (other, odd))
        for path in self.results():
            text = self.text(path).replace(one, other)
            sums = re.findall("(?m)^([0-9a-f]{64})  ", text)
            os.remove(path)
            self.forge("season/results/" + hashlib.sha256("\n".join(["12345", "200"] + sums).encode()).hexdigest()[:32], text)
        self.assertIn("points: %s (" % odd, self.good("season"))
        for words in ([], ["--", "-j", "1"]):
            told = self.on_a_terminal("season", "--check", "12", *words)
            self.assertIn("league: %s: line 1: unknown word" % shown, told)
            self.assertEqual(re.findall("[\x07\x1b][^[]|\x1b\\[2J", told), [])
        self.assertIn("parallel: This job failed", told)

    def test_results(self):
        """Results that say something else than their names, contradict one another, or only add up."""
        other = next(it for it in self.results() if it != self.result)
        self.forge(other, self.text(self.result))
        self.refused("%s isn't whole, doesn't add up or contradicts another" % other[7:])
        self.anew()
        self.edit(self.result, "game 1:", "game 2:")
        self.refused("%s isn't whole, doesn't add up or contradicts another" % self.result[7:])
        self.anew()
        lines = re.findall("(?m)^game .*\n", self.text(self.result))
        self.edit(self.result, lines[0] + lines[1], lines[1] + lines[0])
        self.refused("%s isn't whole, doesn't add up or contradicts another" % self.result[7:])
        for path in self.results():
            self.anew()
            self.lose(path)
            self.assertNotEqual(self.good("season"), self.cup())
            self.assertEqual(self.called("season", "--check", "12")[0], 1)

    def test_playing_follows_no_link_and_loses_nothing(self):
        """lock, calls, files, results, and what is written before it gets its name."""
        os.mkdir("mine")
        for name in ("mine/notes", "mine/" + 32 * "a"):
            self.forge(name, "mine\n")
        for path in ("lock", "new", "calls", "files", "results", "results/NOTES", self.result[7:], "playing", "joblog", "results/" + 32 * "b"):
            self.anew()
            if os.path.lexists("season/" + path):
                os.rename("season/" + path, "away")
            os.symlink(os.path.abspath("mine" if path == "results" else "mine/notes"), "season/" + path)
            status, output, faults = self.called(*self.words("--calls"))
            self.assertEqual((status, faults.count("\n")), (0, 0) if path in ("new", "results/NOTES", "playing", "joblog") else (1, 1), faults)
            self.assertEqual([self.text(it) for it in ("mine/notes", "mine/" + 32 * "a")], 2 * ["mine\n"])
            self.assertTrue(os.path.islink("season/" + path))
            if os.path.lexists("away"):
                shutil.rmtree("away") if os.path.isdir("away") else os.remove("away")
        self.anew()
        for name in ("NOTES", self.result[15:] + "~", "x.brain"):
            self.forge("season/results/" + name, "a referee's own\n")
        self.forge("season/lock", "mine\n")
        self.forge(self.result, "half")
        self.forge(self.result + ".1", "older\n")
        status, output, faults = self.called(*self.words("--calls"))
        self.assertEqual((status, output), (0, "1 call in season/calls\n"))
        self.run_calls()
        self.harmless()
        found = [self.text("season/results/" + it) for it in ("NOTES", self.result[15:] + "~", "x.brain")]
        self.assertEqual(found, 3 * ["a referee's own\n"])
        self.assertEqual([self.text(it) for it in ("season/lock", self.result + ".1", self.result + ".2")], ["mine\n", "older\n", "half"])
        self.assertEqual(sorted(os.listdir("season")), ["calls", "files", "lock", "results"])
