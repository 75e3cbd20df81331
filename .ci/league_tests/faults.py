"""Words at fault, and a machine that lacks something."""
import os
import resource
import shutil
import signal
import subprocess
import sys
import threading
import time

from league_tests.folder import LEAGUE, Folder, script


class Faults(Folder):
    """What can't be done is said in a line."""

    def one(self, *words, **how):
        faults = self.bad(*words, **how)
        self.assertEqual(faults.count("\n"), 1, faults)
        return faults

    def test_words(self):
        for words in ([], ["--worlds", "a"], ["season", "x"], ["season", "--check"], ["season", "--check", "x"], ["season", "--again"],
                      self.words("--check", "1"), self.words("--unfinished"), self.words("--seed", "1"), self.words()[:-2],
                      ["season", "--", "-j", "2"], ["season", "--check", "1", "--", "--shuf"], self.words("--show", "1"), self.words("--under", "."),
                      self.words(rounds=1000001)):
            self.one(*words)
        self.assertIn("season has no league", self.one("season"))
        self.assertFalse(os.path.exists("season"))

    def test_signal_while_a_thread_begins(self):
        def signalled():
            signal.signal(signal.SIGINT, signal.SIG_DFL)  # which a shell ignores for what it runs behind
            begin = threading._start_new_thread

            def begun(*words):
                begin(*words)
                time.sleep(0.2)
                os.kill(os.getpid(), signal.SIGINT)
            threading._start_new_thread = begun
        told = "league: stopped; the same command goes on\n"
        self.assertEqual(self.called(*self.words("--calls"), before=signalled), (130, "", told))
        self.play()
        status, output, faults = self.called("season", "--check", "12", before=signalled)
        self.assertEqual((status, "differ" in output, faults), (130, False, "league: stopped\n"))

    def test_no_thread_begins(self):
        def alone():
            def refuse(_):
                raise RuntimeError("can't start new thread")
            threading.Thread.start = refuse
        self.assertEqual(self.called(*self.words("--calls"), before=alone)[::2], (0, ""))
        self.play()
        status, output, faults = self.called("season", "--check", "12", before=alone)
        self.assertEqual((status, "check: 0 differ" in output, faults), (0, True, ""))

    def test_no_program(self):
        for self.program in ("no/such", os.path.join(self.folder, "step.brain"), "/bin/true"):
            self.one(*self.words())
        script("no-program", "")
        self.program = os.path.join(self.folder, "no-program")
        self.one(*self.words())
        self.assertFalse(os.path.exists("season"))

    def test_no_gnu_parallel(self):
        os.mkdir("bin")
        script("bin/parallel", "#!/bin/sh\necho 'parallel: invalid option' >&2\nexit 1\n")
        self.path = os.path.join(self.folder, "bin") + ":" + self.path
        self.assertIn("no GNU parallel", self.one(*self.words()))
        os.remove("bin/parallel")
        os.symlink(sys.executable, "bin/python3")
        for tool in ("env", "sh"):
            os.symlink(shutil.which(tool), os.path.join("bin", tool))
        self.path = os.path.join(self.folder, "bin")
        self.assertIn("no GNU parallel", self.one(*self.words()))
        self.assertFalse(os.path.exists("season"))

    def test_folder_that_cannot_be_made(self):
        with open("season", "w"):
            pass
        self.assertIn("season", self.one(*self.words("--calls")))
        self.assertIn("no/way", self.one("no/way", "--check", "1") + "no/way")

    def test_full_disk(self):
        def small():
            resource.setrlimit(resource.RLIMIT_FSIZE, (300, 300))
        self.assertEqual(self.one(*self.words("--calls"), before=small), "league: season/files: File too large\n")
        self.play()
        with open("/dev/full", "w") as full:
            ran = subprocess.run([LEAGUE, "season"], stdout=full, stderr=subprocess.PIPE, env=self.environment())
        self.assertEqual((ran.returncode, ran.stderr), (1, b"league: standard output: No space left on device\n"))

    def test_options_of_parallel_that_would_spoil_it(self):
        for option in ("--shuf", "--dry-run", "--dryrun", "--tag", "-k", "-u", "--pipe", "echo", "--results=x", "-j", "--resume", "--bar", ":::"):
            self.assertIn("parallel's %s isn't taken so" % option, self.one(*self.words(), "--", option))
        self.assertFalse(os.path.exists("season"))

    def test_list_that_is_changed(self):
        self.play()
        self.edit("season/files", "# seed", "# sead")
        self.assertIn("season/files isn't a list", self.one("season"))
