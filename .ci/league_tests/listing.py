"""What examples/listing prints, and what it refuses."""
import os
import re
import signal
import subprocess
import time

from league_tests.folder import PROGRAM, TOP, Folder, script

LISTING = os.path.join(TOP, "examples", "listing")

# Of the red ant of first.world, in 40 rounds by fetch.asm: it takes nothing in round 1, steps in 2 and rests until 16; takes nothing in 17, steps in
# 18 and rests until 32; takes a particle in 33, isn't at home in 34, and steps in 35.
FETCH = """\
turns met line
    -   -    1  ; Fetches food along a corridor: one block, which is used three times.
    -   -    2
    -   -    3  block step done                 ; a step ahead; turns left as long as the way is barred
    -   -    4  try:
    3   3    5      Move done next
#####   -    6      Turn Left try
    -   -    7  end
%s    -   -    8
    -   -    9  search:                         ; the start
    3   1   10      PickUp carry next
    -   -   11      use step search
    -   -   12  carry:
    1   0   13      Sense Here home next Home
    -   -   14      use step carry
    -   -   15  home:
#####   -   16      Drop next
    -   -   17      use step search             ; away from the hill, so that the particle stays there
"""
BY_USE = """\
                step@11: 2 turns
    2   2    5      Move done next
#####   -    6      Turn Left try
                step@14: 1 turns
    1   1    5      Move done next
#####   -    6      Turn Left try
                step@17: 0 turns
#####   -    5      Move done next
#####   -    6      Turn Left try
"""

# The red ant of first.world steps in round 1, drops in 16, steps in 17, drops in 32 and turns left in 33. Rock is ahead in 34, it drops in 35, rock
# is ahead in 36, it drops in 37, turns left in 38, rock is ahead in 39, and it drops in 40.
NUMBERED = """\
block b ; SRC 1
 Move next next ; SRC 2 of it
 drop next
END
block c
 use b;SRC 7
end
block d
DROP next;\tSRC 009
end
x: ; SRC 8
 use b ; SRC 3
 use c ; SRC 4
 Turn Left next ; SRC 33x
 ; SRC 1000000000
"""
NUMBERED_LISTING = """\
turns met line
    -   -    1  block b ; SRC 1
    5   2    2   Move next next ; SRC 2 of it
    5   -    3   drop next
    -   -    4  END
                b@12: 6 turns
    3   1    2   Move next next ; SRC 2 of it
    3   -    3   drop next
                c@13/b@6: 4 turns
    2   1    2   Move next next ; SRC 2 of it
    2   -    3   drop next
    -   -    5  block c
    -   -    6   use b;SRC 7
    -   -    7  end
    -   -    8  block d
#####   -    9  DROP next;\tSRC 009
    -   -   10  end
    -   -   11  x: ; SRC 8
    -   -   12   use b ; SRC 3
    -   -   13   use c ; SRC 4
    2   -   14   Turn Left next ; SRC 33x
    -   -   15   ; SRC 1000000000

turns met  SRC
    -   -    1
    5   2    2
    3   -    3
    -   -    4
    2   -    7
    -   -    8
#####   -    9
    2   -    -
"""


class Listing(Folder):
    """Profiles beside the lines of their programs, and one line for each error."""

    def setUp(self):
        super().setUp()
        for name in ("first.world", "fetch.asm", "trail.asm", "contest.world"):
            os.symlink(os.path.join(TOP, "examples", name), name)

    def ants(self, *words):
        return subprocess.run([PROGRAM, *words], stdout=subprocess.PIPE, check=True).stdout

    def profile(self, program, colour="red", world="first.world", rounds=40, other="idle.brain"):
        """A profile of the program's brain against another one, in the file `profile`."""
        self.write("brain", self.ants("asm", program))
        brains = ["brain", other] if colour == "red" else [other, "brain"]
        self.write("profile", self.ants("profile", world, *brains, "--seed", "1", "--rounds", str(rounds)))
        return program, "profile", colour

    def write(self, path, text):
        with open(path, "wb") as file:
            file.write(text if isinstance(text, bytes) else text.encode())

    def listed(self, *words, **how):
        how = {"stdin": subprocess.DEVNULL, "stdout": subprocess.PIPE, **how}
        ran = subprocess.run([LISTING, *words], stderr=subprocess.PIPE, timeout=60, env=self.environment(), **how)
        return ran.returncode, ran.stdout, os.fsdecode(ran.stderr)

    def good(self, *words, **how):
        status, output, faults = self.listed(*words, **how)
        self.assertEqual((status, faults), (0, ""))
        return os.fsdecode(output)

    def bad(self, *words, **how):
        """The one line that is said of an error."""
        status, output, faults = self.listed(*words, **how)
        self.assertEqual((status, output or b"", faults.count("\n"), faults[:9]), (1, b"", 1, "listing: "), faults)
        return faults[9:-1]

    def edited(self, line, text):
        """The profile with another text in a line, or without this line and those below it."""
        lines = self.text("profile").split("\n")
        self.write("edited", "\n".join(lines[:line - 1] + ([] if text is None else [text] + lines[line:])))
        return "edited"

    def test_fetch(self):
        words = self.profile("fetch.asm")
        self.assertEqual(self.good(*words), FETCH % "")
        self.assertEqual(self.good(*words, "--by-use"), FETCH % BY_USE)
        with open("profile", "rb") as file:
            self.assertEqual(self.good("fetch.asm", "-", "red", stdin=file), FETCH % "")
        with open("fetch.asm", "rb") as file:
            self.assertEqual(self.good("-", "profile", "red", stdin=file), FETCH % "")

    def test_colour(self):
        """There is no black ant, so black's lines were never executed."""
        told = self.good(*self.profile("fetch.asm", "black"))
        self.assertEqual(re.sub(r"(?m)^ +\d+ +\d+ ", "#####   - ", FETCH % ""), told)

    def test_lines_of_a_compiler(self):
        self.write("numbered", NUMBERED)
        self.assertEqual(self.good(*self.profile("numbered"), "--by-use"), NUMBERED_LISTING)

    def test_counts_add_up(self):
        """Each turn of trail.asm stands once in the columns, and once in those by use of the blocks that have several."""
        words = self.profile("trail.asm", world="contest.world", rounds=2000, other="step.brain")
        states = [it.split(" ") for it in self.text("profile").split("\n") if it.startswith("red ")]
        lines, uses = {}, {}
        for place, (_, _, times, _, *rest) in zip(os.fsdecode(self.ants("asm", "trail.asm", "--lines")).splitlines(), states):
            _, line, use = (place + " ").split(" ")[:3]
            met = int(rest[0]) if rest[1] == "met:" else 0
            for key in (int(line), (use, int(line))):
                lines[key] = [sum(it) for it in zip(lines.get(key, (0, 0)), (int(times), met))]
            uses.setdefault(re.sub("@.*", "", use.rpartition("/")[2]), set()).add(use)
        found, use = {}, ""
        for row in self.good(*words, "--by-use").splitlines()[1:]:
            if row[:1].isspace() and row.endswith(" turns"):
                use = row.split(":")[0].strip()
                continue
            times, met, line = row.split()[:3]
            use = "" if int(line) in found and not re.match(r"\d|#", times) or times == "-" else use
            if times != "-":
                found[(use, int(line)) if use else int(line)] = [0 if times == "#####" else int(times), 0 if met == "-" else int(met)]
        several = {it for its in uses.values() if len(its) > 1 for it in its}
        self.assertEqual(found, {key: its for key, its in lines.items() if isinstance(key, int) or key[0] in several})
        self.assertGreater(sum(its[0] for key, its in found.items() if isinstance(key, int)), 10000)

    def test_bytes_of_the_program(self):
        program = b"; \xff\xe9 \x1b[2J\r\nDrop next ; caf\xc3\xa9\xa0\r\n\n\t; \x85"
        self.write("odd", program)
        rows = ((b"-", 1, b"  ; \xff\xe9 \x1b[2J"), (b"40", 2, b"  Drop next ; caf\xc3\xa9\xa0"), (b"-", 3, b""), (b"-", 4, b"  \t; \x85"))
        expected = b"turns met line\n" + b"".join(b"%5s   -    %d%s\n" % it for it in rows)
        self.assertEqual(self.listed(*self.profile("odd")), (0, expected, ""))

    def test_profile_of_another_brain(self):
        self.profile("fetch.asm")
        self.write("brain", self.ants("minimise", "brain"))
        self.write("minimised", self.ants("profile", "first.world", "brain", "idle.brain", "--seed", "1", "--rounds", "40"))
        told = "minimised: line 8: red 6 is Drop 1, but state 6 of fetch.asm is Drop 7"
        self.assertEqual(self.bad("fetch.asm", "minimised", "red"), told)
        told = "profile: line 11: black 0 is Drop 0, but state 0 of fetch.asm is PickUp 3 1"
        self.assertEqual(self.bad("fetch.asm", "profile", "black"), told)
        self.write("shorter", "Drop next\n")
        self.write("longer", "Drop next\nDrop next\n")
        self.profile("longer", "black")
        self.assertEqual(self.bad("shorter", "profile", "black"), "profile: line 3: black 0 is Drop 1, but state 0 of shorter is Drop 0")
        self.write("profile", "random seed: 1\nred 0: 0 times: Drop 0\nblack 0: 0 times: Drop 0\nblack 1: 0 times: Drop 0\n")
        self.assertEqual(self.bad("shorter", "profile", "black"), "profile: line 4: black 1 is Drop 0, but state 1 of shorter is not there")
        self.write("longer", "here:\nDrop here\nDrop here\n")
        self.assertEqual(self.bad("longer", "profile", "red"), "profile: line 3: red has no state 1, but state 1 of longer is Drop 0")

    def test_what_is_no_profile(self):
        self.profile("fetch.asm")
        for text in ("", "random seed: -1", "seed: 1", "ants: word 4 refused", "\xff", "After round 0..."):
            self.assertEqual(self.bad("fetch.asm", self.edited(1, text), "red"), "edited: line 1: no profile begins so")
        for line, text in ((2, ""), (2, "red 1: 3 times, 1 met: PickUp 3 1"), (2, "red 0: 3 times, 4 met: PickUp 3 1"),
                           (2, "red 0: 3 times: PickUp 3 1"), (4, "red 2: 0 times, 0 met: Turn Left 1"), (2, "black 0: 0 times: Drop 0"),
                           (2, "red 00: 3 times, 1 met: PickUp 3 1"), (4, "red 2: 0 times, Turn Left 1"), (4, "red 2: -1 times: Turn Left 1"),
                           (4, "red 2: \u0663 times: Turn Left 1"), (5, "red 3: 1 times, 0 met: Sense Here 6 4 Home "),
                           (6, "red 4: %s times, 1 met: Move 3 5" % (5000 * "9")), (12, "red 9: 0 times: Drop 0"), (12, "black 2: 0 times: Drop 0")):
            self.assertEqual(self.bad("fetch.asm", self.edited(line, text), "red"), "edited: line %d: not the next line of a profile" % line)
        self.edited(3, "black 0: 0 times: Drop 0")  # red goes on after black
        self.assertEqual(self.bad("fetch.asm", "edited", "red"), "edited: line 4: not the next line of a profile")
        for line in (2, 3, 11):
            self.assertEqual(self.bad("fetch.asm", self.edited(line, None), "red"), "edited: line %d: the profile ends too early" % line)
        self.write("empty", "")
        for name in ("empty", "contest.world"):
            self.assertEqual(self.bad("fetch.asm", name, "red"), "%s: line 1: no profile begins so" % name)

    def test_what_is_no_program(self):
        self.profile("fetch.asm")
        for text, told in (("", "no instruction"), ("Move go go\n", "line 1: no such label"), ("block b\nDrop next\n", "line 1: misplaced"),
                           (b"Drop next\n\xff\n", "line 2: bad byte"), (12 * 2 ** 20 * "x", "too long"), ("Move 0 0\n", "line 1: bad name")):
            self.write("wrong", text)
            self.assertEqual(self.bad("wrong", "profile", "red"), "wrong: " + told)
            if told != "too long":
                with open("wrong", "rb") as file:
                    self.assertEqual(self.bad("-", "profile", "red", stdin=file), "-: " + told)

    def test_words(self):
        self.profile("fetch.asm")
        for words in ("", "fetch.asm profile", "fetch.asm profile blue", "fetch.asm profile Red", "fetch.asm profile red --by-uses",
                      "fetch.asm profile red red", "--by-use fetch.asm profile red", "fetch.asm profile red --by-use --by-use",
                      "fetch.asm --x red", "--x profile red"):
            self.assertEqual(self.bad(*words.split()), "usage: listing PROGRAM PROFILE COLOUR [--by-use]")
        self.assertEqual(self.bad("", "profile", "red"), "usage: listing PROGRAM PROFILE COLOUR [--by-use]")
        self.assertEqual(self.bad("-", "-", "red"), "only one file can be standard input")
        for word in ("--help", "-h"):
            self.assertIn("Prints a program with the turns of a game beside each line: listing PROGRAM PROFILE COLOUR [--by-use]\n", self.good(word))

    def test_files(self):
        self.profile("fetch.asm")
        os.mkdir("folder")
        for name, told in (("gone", "No such file or directory"), ("folder", "Is a directory"), ("profile/x", "Not a directory"),
                           ("/dev/zero", "too long")):
            self.assertEqual(self.bad(name, "profile", "red"), "%s: %s" % (name, told))
            self.assertEqual(self.bad("fetch.asm", name, "red"), "%s: %s" % (name, told))
        self.assertEqual(self.bad("\udcff", "profile", "red"), "\\udcff: No such file or directory")
        folder = os.open("folder", os.O_RDONLY)
        self.assertEqual(self.bad("fetch.asm", "-", "red", stdin=folder), "standard input: Is a directory")
        os.close(folder)

    def test_program_that_is_missing_or_another(self):
        words, named = self.profile("fetch.asm"), "; ANTS names the program ants"
        for name, text in (("broken", ""), ("fails", "#!/bin/sh\nexit 3\n"), ("killed", "#!/bin/sh\nkill -9 $$\n"),
                           ("older", '#!/bin/sh\n[ $# = 2 ] && exec %s "$@"\necho "ants: word 4 refused" >&2\nexit 2\n' % PROGRAM),
                           ("silent", '#!/bin/sh\n[ $# = 3 ] || exec %s "$@"\n' % PROGRAM)):
            script(name, text)
        for name, told in (("no/such", ": No such file or directory" + named), ("nowhere", ": No such file or directory" + named),
                           ("./profile", ": Permission denied" + named), ("./broken", ": Exec format error" + named),
                           ("./fails", " asm - ended with status 3"), ("./killed", " asm - ended with status -9"),
                           ("./older", " asm - --lines ended with status 2: word 4 refused"), ("./silent", " isn't ants" + named)):
            self.program = name
            self.assertEqual(self.bad(*words), name + told)
        self.program, self.path = "", os.path.dirname(PROGRAM) + ":" + self.path
        self.assertEqual(self.good(*words), FETCH % "")

    def test_streams(self):
        words = self.profile("fetch.asm")
        with open("/dev/full", "w") as full:
            self.assertEqual(self.bad(*words, stdout=full), "standard output: No space left on device")
        self.assertEqual(self.bad(*words, preexec_fn=lambda: os.close(1)), "standard output is closed")
        self.assertEqual(self.bad("fetch.asm", "-", "red", preexec_fn=lambda: os.close(0)), "standard input is closed")
        self.assertEqual(self.good(*words, preexec_fn=lambda: os.close(0)), FETCH % "")
        self.assertEqual(self.listed(*words, preexec_fn=lambda: os.close(2)), (0, (FETCH % "").encode(), ""))
        self.assertEqual(self.listed("gone", "profile", "red", preexec_fn=lambda: os.close(2)), (1, b"", ""))
        read, written = os.pipe()
        os.close(read)
        self.assertEqual(self.listed(*words, stdout=written), (1, None, ""))
        os.close(written)

    def test_interrupt(self):
        """While it reads, and while the program runs."""
        self.profile("fetch.asm")
        script("waits", "#!/bin/sh\ntouch waiting\nexec sleep 60\n")
        for words, program in ((["fetch.asm", "-", "red"], PROGRAM), (["fetch.asm", "profile", "red"], os.path.join(self.folder, "waits"))):
            self.program = program
            read, written = os.pipe()
            called = subprocess.Popen([LISTING, *words], stdin=read, stdout=subprocess.PIPE, stderr=subprocess.PIPE, env=self.environment(),
                                      start_new_session=True, preexec_fn=lambda: signal.signal(signal.SIGINT, signal.SIG_DFL))
            os.close(read)
            self.wait_until(lambda: os.path.exists("waiting") if program != PROGRAM else self.reads_a_pipe(called.pid))
            os.killpg(called.pid, signal.SIGINT)
            self.assertEqual((*called.communicate(timeout=60), called.returncode), (b"", b"", -signal.SIGINT))
            os.close(written)

    def reads_a_pipe(self, process):
        """Whether the process has begun to wait for standard input."""
        with open("/proc/%d/syscall" % process) as file:
            return file.read().startswith("0 0x0 ")

    def wait_until(self, is_so):
        until = time.monotonic() + 60
        while not is_so():
            self.assertLess(time.monotonic(), until)
            time.sleep(0.01)
