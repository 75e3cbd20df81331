"""Seasons by GNU parallel: signals, calls that fail, other machines."""
import glob
import os
import pty
import re
import shutil
import signal
import subprocess
import time

from league_tests.folder import BRAINS, LEAGUE, Folder, needs_parallel, script


@needs_parallel
class Parallel(Folder):
    def started(self, *more, ignored=None):
        """A league in the background, which ignores this signal alone, whatever this process ignores."""
        def heed():
            for number in (signal.SIGINT, signal.SIGTERM, signal.SIGHUP):
                signal.signal(number, signal.SIG_IGN if number == ignored else signal.SIG_DFL)

        how = {"stdout": subprocess.PIPE, "stderr": subprocess.PIPE, "env": self.environment(), "preexec_fn": heed}
        process = subprocess.Popen([LEAGUE, *self.words(), "--", "-j", "3", *more], **how)
        self.addCleanup(process.kill)
        return process

    def wait_until(self, is_so):
        until = time.monotonic() + 60
        while not is_so():
            self.assertLess(time.monotonic(), until)
            time.sleep(0.02)

    def wait_for_results(self, count):
        self.wait_until(lambda: len(self.results()) >= count)

    def left(self):
        """The processes that have the folder's name among their words."""
        found = []
        for path in glob.glob("/proc/[0-9]*/cmdline"):
            try:
                with open(path, "rb") as file:
                    words = file.read()
            except OSError:
                continue
            found += [words] if os.fsencode(self.folder) in words else []
        return found

    def waits(self):
        """Whether a game is held."""
        return any(b"held\0cup" in it or b"held\0run" in it for it in self.left())

    def test_signals_at_any_moment(self):
        self.brains = BRAINS[:4]
        for number, word, calls in ((signal.SIGINT, "step", 3), (signal.SIGTERM, "flip_two", 5), (signal.SIGHUP, "none", 5)):
            self.hold(word)
            before, process = self.results(), self.started()
            self.wait_until(lambda: self.waits() and len(self.results()) == calls)
            process.send_signal(number)
            output, faults = process.communicate(timeout=60)
            self.assertEqual((process.returncode, output), (128 + number, b""))
            self.assertEqual(faults, b"league: stopped at %d of 24 games; the same command goes on\n" % (4 * calls))
            self.wait_until(lambda: not self.left())
            self.assertEqual(len(self.results()), calls)
            self.assertEqual({it: at for it, at in self.results().items() if it in before}, before)
        self.hold(None)
        self.assertEqual(self.play(), self.cup())

    def test_stop_where_files_are_alike(self):
        shutil.copy("step.brain", "same.brain")
        self.worlds, self.brains = [*self.worlds, "ambush.world"], ["step.brain", "same.brain", "first.brain", "idle.brain"]
        self.hold("step")
        process = self.started()
        self.wait_until(lambda: self.waits() and len(self.results()) == 3)
        process.send_signal(signal.SIGTERM)
        faults = process.communicate(timeout=60)[1]
        self.assertEqual(faults, b"league: stopped at 30 of 36 games; the same command goes on\n")
        self.assertIn("unfinished: 30 of 36 games\n", self.good("season", "--unfinished"))
        self.hold(None)
        self.assertEqual(self.play(), self.cup())

    def test_signal_that_is_ignored(self):
        self.hold("step")
        process = self.started(ignored=signal.SIGHUP)
        self.wait_for_results(2)
        process.send_signal(signal.SIGHUP)
        self.hold(None)
        output, faults = process.communicate(timeout=60)
        self.assertEqual((process.returncode, os.fsdecode(output), faults), (0, self.cup(), b""))

    def test_signals_at_the_start(self):
        self.hold("none")
        for number in (signal.SIGINT, signal.SIGTERM):
            for tenths in range(0, 6, 2):
                shutil.rmtree("season", ignore_errors=True)
                process = self.started()
                self.wait_until(lambda: os.path.exists("season"))
                time.sleep(tenths / 10)
                process.send_signal(number)
                output, faults = process.communicate(timeout=60)
                self.assertEqual((process.returncode, output), (128 + number, b""))
                self.assertRegex(faults, rb"league: stopped( at 0 of 12 games)?; the same command goes on\n")
                self.wait_until(lambda: not self.left())
        self.hold(None)
        self.assertEqual(self.play(), self.cup())

    def test_kill_at_any_moment(self):
        self.brains = BRAINS[:4]
        for word, calls in (("step", 3), ("flip_two", 5), ("none", 5)):
            self.hold(word)
            before, process = self.results(), self.started("--halt", "never")
            self.wait_until(lambda: self.waits() and len(self.results()) == calls)
            process.kill()
            self.hold(None)
            process.communicate(timeout=60)
            self.wait_until(lambda: not self.left())
            self.assertEqual(len(self.results()), calls)
            self.assertEqual({it: at for it, at in self.results().items() if it in before}, before)
        self.hold(None)
        self.assertEqual(self.play(), self.cup())

    def test_two_leagues_at_once(self):
        self.hold("step")
        process = self.started()
        self.wait_for_results(2)
        self.assertEqual(self.bad(*self.words()), "league: another league runs in season\n")
        self.assertEqual(self.bad(*self.words("--calls")), "league: another league runs in season\n")
        self.assertIn("unfinished: 8 of 12 games\n", self.good("season", "--unfinished"))
        self.hold(None)
        output, faults = process.communicate(timeout=60)
        self.assertEqual((process.returncode, os.fsdecode(output), faults), (0, self.cup(), b""))

    def test_folder_that_goes(self):
        self.hold("step")
        process = self.started()
        self.wait_for_results(2)
        shutil.rmtree("season/results")
        self.hold(None)
        output, faults = process.communicate(timeout=60)
        self.assertEqual((process.returncode, output), (1, b""))
        told = rb"league: stopped at 8 of 12 games; the same command goes on\nleague: season/results/\w+: No such file or directory\n"
        self.assertRegex(faults, told)
        self.wait_until(lambda: not self.left())
        self.assertEqual(self.play(), self.cup())

    def test_call_that_fails(self):
        self.hold(None)
        with open("failing", "w"):
            pass
        status, output, faults = self.called(*self.words(), "--", "-j", "1")
        self.assertEqual((status, output, self.results()), (1, "", {}))
        self.assertIn("league: it fails\n", faults)
        self.assertRegex(faults, r"league: 0 of 12 games are played, .* 1 calls failed; the same command goes on\n")
        self.assertRegex(faults, r"league: a call failed with status 1, signal 0: .* --brains step.brain flip_two.brain ")
        status, output, faults = self.called(*self.words(), "--", "-j", "1", "--halt", "never")
        self.assertEqual((status, output, len(self.results())), (1, "", 1))
        self.assertIn("4 of 12 games are played", faults)
        self.assertEqual(len(re.findall("a call failed", faults)), 2)
        self.assertIn("8 of 12 games aren't played yet", self.bad("season"))
        os.remove("failing")
        self.assertEqual(self.play(), self.cup())

    def test_progress_on_a_terminal(self):
        terminal, end = pty.openpty()
        ran = subprocess.run([LEAGUE, *self.words(), "--", "-j", "2"], stdout=subprocess.PIPE, stderr=end, env=self.environment())
        os.close(end)
        told = os.read(terminal, 10000)
        os.close(terminal)
        self.assertEqual(os.fsdecode(ran.stdout), self.cup())
        self.assertEqual(re.sub(rb"\d:\d\d:\d\d", b"TIME", told), b"4 of 12 games, TIME left\033[K\r8 of 12 games, TIME left\033[K\r\033[K\r")

    def test_progress_elsewhere(self):
        often = os.path.join(self.folder, "often")
        script(often, self.text(LEAGUE).replace("\nMINUTE = 60\n", "\nMINUTE = 0\n"))
        told = ["league: %d of 12 games, TIME left" % it for it in (4, 8, 12)]
        for program, words, lines in ((LEAGUE, self.words("--progress"), []), (often, self.words(), []), (often, self.words("--progress"), told)):
            shutil.rmtree("season", ignore_errors=True)
            ran = subprocess.run([program, *words, "--", "-j", "2"], capture_output=True, env=self.environment())
            self.assertEqual((ran.returncode, re.sub(r"\d:\d\d:\d\d", "TIME", os.fsdecode(ran.stderr)).splitlines()), (0, lines))
        ran = subprocess.run([often, "season", "--check", "3", "--progress"], capture_output=True, env=self.environment())
        self.assertEqual([it[:22] for it in os.fsdecode(ran.stderr).splitlines()], ["league: %d of 3 games, " % it for it in (1, 2, 3)])

    def test_check_by_parallel(self):
        self.play()
        self.lose(self.result_with("first.brain, step.brain"))
        once, options = self.called("season", "--check", "12", "1"), self.machine()
        self.assertEqual(once[1].count("played again: "), 4)
        for more in (["-j", "2"], options):
            self.assertEqual(self.called("season", "--check", "12", "1", "--", *more), once)
        with open("there/first.brain", "a") as file:
            file.write("\n")
        status, output, faults = self.called("season", "--check", "12", "1", "--", *options, "--halt", "never")
        self.assertEqual((status, output.count("differ\n"), output.count("played again: ")), (1, 0, 0))
        self.assertIn("league: first.brain isn't the file that the call is for\n", faults)
        self.assertRegex(faults, r"league: \d+ of 12 games are played again\nleague: a call failed with status 1, ")

    def machine(self):
        """The options for a machine, which is a folder here, where ssh is a script that goes there."""
        os.mkdir("there")
        for name in self.worlds + self.brains:
            shutil.copy(name, "there")
        past = 'while [ "$1" != machine ]; do shift; done; shift; [ "$1" != -- ] || shift'  # the options, the machine's name and --
        script("ssh", '#!/bin/sh\n%s\ncd %s/there && exec sh -c "$*"\n' % (past, self.folder))
        return ["--ssh", os.path.join(self.folder, "ssh"), "-S", "2/machine", "--workdir", os.path.join(self.folder, "there")]

    def test_other_machine(self):
        options = self.machine()
        self.assertEqual(self.good(*self.words(), "--", *options), self.cup())
        shutil.rmtree("season")
        self.edit("there/first.brain", "Turn Left", "Turn Right")
        status, output, faults = self.called(*self.words(), "--", *options)
        self.assertEqual((status, output), (1, ""))
        self.assertIn("league: first.brain isn't the file that the call is for\n", faults)

    def test_signals_with_another_machine(self):
        options = self.machine()
        self.hold("none")
        shutil.copy("hold", "there")
        begun = lambda: any(b"--joblog" in it for it in self.left())
        called = lambda: any(b"--play" in it for it in self.left())
        for number, is_so in ((signal.SIGTERM, begun), (signal.SIGINT, begun), (signal.SIGTERM, called), (signal.SIGINT, self.waits)):
            shutil.rmtree("season", ignore_errors=True)
            process = self.started(*options)
            self.wait_until(is_so)
            process.send_signal(number)
            output, faults = process.communicate(timeout=60)
            self.assertEqual((process.returncode, output), (128 + number, b""))
            self.wait_until(lambda: not self.left())
