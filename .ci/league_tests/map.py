"""What examples/map refuses."""
import os
import subprocess

from league_tests.folder import MAP, PROGRAM, Folder


class Map(Folder):
    """What examples/map refuses is said in a line."""

    def mapped(self, text, *words, **how):
        how = {"stdout": subprocess.PIPE, "input": text, **how}
        ran = subprocess.run([MAP, *words], stderr=subprocess.PIPE, timeout=60, **how)
        return ran.returncode, ran.stdout, os.fsdecode(ran.stderr)

    def dump(self):
        return subprocess.run([PROGRAM, "show", "ambush.world", "1"], stdout=subprocess.PIPE, check=True).stdout

    def test_words(self):
        dump = self.dump()
        for words in ("--around 3", "--around 3 3 --ant 2", "--ant", "--ant 2 --ant 3", "--ant 2 --around 1 --around 2", "--mark red 6", "--mark red", "--numbers 1", "--marks red"):
            status, output, faults = self.mapped(dump, *words.split())
            self.assertEqual((status, output, faults.startswith("map: usage: map [--marks | ")), (1, b"", True))
        self.assertEqual(self.mapped(dump, "--around", "9", "9", "1"), (1, b"", "map: no cell (9, 9) in this world\n"))
        self.assertEqual(self.mapped(dump, "--around", "1", "--ant", "7"), (0, b"After round 0...\nant 7: not in this world\n", ""))

    def test_dumps_and_streams(self):
        dump = self.dump()
        self.assertEqual(self.mapped(dump)[::2], (0, ""))
        for cell in (b"\xd9\xa0, 0", b"9" * 5000 + b", 0", b"0, " + b"9" * 4000, b"0" * 10 ** 7):
            status, output, faults = self.mapped(dump.replace(b"cell (0, 0)", b"cell (%s)" % cell))
            self.assertEqual((status, output, faults), (1, b"", "map: line 4: no line of a dump\n"))
        with open("/dev/full", "w") as full:
            self.assertEqual(self.mapped(dump, stdout=full), (1, None, "map: standard output: No space left on device\n"))
        folder = os.open(".", os.O_RDONLY)
        self.assertEqual(self.mapped(None, "--numbers", stdin=folder), (1, b"", "map: standard input: Is a directory\n"))
        os.close(folder)
        for number, told in ((0, "standard input: Bad file descriptor"), (1, "standard output is closed")):
            self.assertEqual(self.mapped(dump, preexec_fn=lambda: os.close(number))[::2], (1, "map: %s\n" % told))
