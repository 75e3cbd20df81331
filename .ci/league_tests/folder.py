"""What the tests of examples/league share: a folder for each, and calls of the league and of the program."""
import glob
import hashlib
import os
import re
import shlex
import shutil
import signal
import subprocess
import sys
import tempfile
import time
import traceback
import unittest

TOP = os.path.dirname(os.path.dirname(os.path.dirname(os.path.abspath(__file__))))
LEAGUE, MAP = (os.path.join(TOP, "examples", it) for it in ("league", "map"))
with open(LEAGUE) as file:
    CODE = compile(file.read(), LEAGUE, "exec")
PROGRAM = os.path.join(TOP, "crates", "ants", "out", "ants")
BRAINS = ["step.brain", "flip_two.brain", "first.brain", "idle.brain", "circle.brain"]
HAS_PARALLEL = b"GNU" in subprocess.run("parallel --version", shell=True, stdout=subprocess.PIPE, stderr=subprocess.DEVNULL).stdout
needs_parallel = unittest.skipUnless(HAS_PARALLEL, "GNU parallel isn't installed")

# A program that does what the built one does; but while there is a file `hold`, it plays only games that have the word of it in them, and waits with
# the others, and while there is a file `failing`, it fails at games of step.brain.
HELD = """#!/bin/sh
case $1 in run|cup)
  case "$*" in *step*) [ ! -e failing ] || { echo 'ants: it fails' >&2; exit 5; };; esac
  while [ -e hold ]; do case "$*" in *"$(cat hold)"*) break;; esac; sleep 0.05; done;;
esac
exec %s "$@"
"""


def script(path, text):
    with open(path, "w") as file:
        file.write(text)
    os.chmod(path, 0o755)


class Folder(unittest.TestCase):
    """A folder of its own for each test, with two worlds and five brains, of which three play if the test doesn't say otherwise."""

    def setUp(self):
        self.folder = tempfile.mkdtemp(prefix="league-")
        self.addCleanup(shutil.rmtree, self.folder)
        self.addCleanup(os.chdir, os.getcwd())
        os.chdir(self.folder)
        for name in ["ambush.world", "meeting.world"] + BRAINS:
            shutil.copy(os.path.join(TOP, "examples", name), name)
        self.program, self.path = PROGRAM, os.path.dirname(sys.executable) + ":" + os.environ["PATH"]
        self.worlds, self.brains = ["ambush.world", "meeting.world"], BRAINS[:3]

    def hold(self, word):
        """Lets only games go on that have this word, if one is given."""
        self.program = os.path.join(self.folder, "held")
        if not os.path.exists(self.program):
            script(self.program, HELD % shlex.quote(PROGRAM))
        if word:
            script("hold", word)
        elif os.path.exists("hold"):
            os.remove("hold")

    def environment(self):
        options = "--dry-run --shuf"  # of parallel, which don't count where they aren't given
        return dict(os.environ, ANTS=self.program, PATH=self.path, PARALLEL=options, TMPDIR=self.folder)

    def words(self, *more, rounds=200):
        return ["season", *more, "--worlds", *self.worlds, "--brains", *self.brains, "--seed", "12345", "--rounds", str(rounds)]

    def begin(self, *more):
        """The words by which a season begins, where parallel may not be there."""
        return self.words(*more) if HAS_PARALLEL else self.words("--calls", *more)

    def called(self, *words, before=lambda: None, seconds=600):
        """Status, output and faults of the league, which is run by a copy of this process, since to start Python takes most of its time."""
        with tempfile.TemporaryFile() as output, tempfile.TemporaryFile() as faults:
            child = os.fork()
            if child == 0:
                os._exit(self.run_here(words, before, [os.open(os.devnull, os.O_RDONLY), output.fileno(), faults.fileno()]))
            until, ended = time.monotonic() + seconds, (0, 0)
            while ended[0] == 0:
                ended = os.waitpid(child, os.WNOHANG)
                if ended[0] == 0 and time.monotonic() > until:
                    os.kill(child, signal.SIGKILL)
                time.sleep(0.002)
            self.assertTrue(os.WIFEXITED(ended[1]), "no end in %d seconds" % seconds)
            printed = [os.fsdecode(os.pread(it.fileno(), os.fstat(it.fileno()).st_size, 0)) for it in (output, faults)]
        self.assertNotIn("Traceback", printed[1])
        return (os.WEXITSTATUS(ended[1]), *printed)

    def run_here(self, words, before, streams):
        """Runs the league in this process; its status."""
        try:
            for number, stream in enumerate(streams):
                os.dup2(stream, number)
            os.environ.update(self.environment())
            sys.argv, tempfile.tempdir = [LEAGUE, *words], None
            before()
            exec(CODE, {"__name__": "__main__"})
        except SystemExit as end:
            return end.code
        except BaseException:
            traceback.print_exc()
            sys.stderr.flush()
        return 1

    def good(self, *words):
        status, output, faults = self.called(*words)
        self.assertEqual((status, faults), (0, ""))
        return output

    def bad(self, *words, **how):
        """The faults of a league that prints nothing else."""
        status, output, faults = self.called(*words, **how)
        self.assertEqual((status, output), (1, ""))
        return faults

    def play(self):
        """Plays what isn't played, by parallel or by a shell; the standing."""
        if HAS_PARALLEL:
            return self.good(*self.words(), "--", "-j", "4")
        self.good(*self.words("--calls"))
        self.run_calls()
        return self.good("season")

    def run_calls(self):
        subprocess.run("xargs -r -d '\\n' -n 1 -P 4 sh -c < season/calls", shell=True, check=True, env=self.environment())

    def cup(self, *more, brains=None, worlds=None, rounds=200):
        words = ["--worlds", *(worlds or self.worlds), "--brains", *(brains or self.brains), "--seed", "12345", "--rounds", str(rounds)]
        return os.fsdecode(subprocess.run([PROGRAM, "cup", *words, *more], stdout=subprocess.PIPE, check=True).stdout)

    def name(self, *files):
        """What --games calls the game of this world, red and black."""
        return "-".join(self.sum(it)[:12] for it in files)

    def sum(self, path):
        with open(path, "rb") as file:
            return hashlib.sha256(file.read()).hexdigest()

    def score(self, world, red, black):
        ran = subprocess.run([PROGRAM, "run", world, red, black, "--seed", "12345", "--rounds", "200"], stdout=subprocess.PIPE, check=True)
        return os.fsdecode(ran.stdout).split("\n")[-2]

    def results(self):
        """When each result was written."""
        return {it: os.stat(it).st_mtime_ns for it in glob.glob("season/results/*")}

    def result_with(self, *names):
        """The result whose games are of these worlds and brains."""
        return next(it for it in self.results() if all(re.search("(?m)^game .*, %s" % re.escape(name), self.text(it)) for name in names))

    def text(self, path):
        with open(path, encoding="utf-8", errors="surrogateescape", newline="") as file:
            return file.read()

    def edit(self, path, old, new):
        text = self.text(path)
        self.assertIn(old, text)
        with open(path, "w", encoding="utf-8", errors="surrogateescape", newline="") as file:
            file.write(text.replace(old, new))

    def lose(self, path):
        """Changes a result by hand so that it adds up: the first game goes to black, and every other one too."""
        text = re.sub(r"(?m)^(game \d+): red \d+ black \d+", r"\1: red 0 black 99", self.text(path))
        games = len(re.findall("(?m)^game ", text)) // 2
        names = [it[66:] for it in text.partition("# brains\n")[2].split("\n")[:2]]
        text = text[:re.search(r"(?m)^\d+ points", text).start()]
        with open(path, "w") as file:
            file.write(text + "".join("%d points: %s (%d won, 0 drawn, %d lost)\n" % (2 * games, name, games, games) for name in names))
