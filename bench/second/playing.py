"""Building the second program, and running both on a case."""
import collections
import glob
import os
import shutil
import subprocess

from kinds import HERE
from saves import with_brains

SECONDS = 100  # that a program has for a case

# What a program did: its standard output, its standard error, and its status, which is None where it took too long.
Outcome = collections.namedtuple('Outcome', ['text', 'fault', 'status'])


def build(folder):
    """Builds the second program in the folder, and tells its name."""
    program = os.path.join(folder, 'second')
    sources = sorted(glob.glob(os.path.join(HERE, '**', '*.cpp'), recursive=True))
    subprocess.run(['c++', '-std=c++17', '-O2', '-iquote', HERE, '-o', program] + sources, check=True)
    return program


def run(program, case, folder):
    """Runs a program on a case that is laid out in the folder, with what comes behind its first command."""
    done = run_once(program, case.words, case, folder)
    texts = [done.text]
    for words in case.further:
        if done.status != 0:
            break
        with open(os.path.join(folder, 'printed'), 'wb') as file:
            file.write(with_brains(done.text, case.brains))
        done = run_once(program, words, case, folder)
        texts.append(done.text)
    return done._replace(text=b'\0'.join(texts))


def run_once(program, words, case, folder):
    """Runs a program once, with these words."""
    with open('/dev/full' if case.is_full else os.devnull, 'wb') as sink:
        output = sink if case.is_full else subprocess.PIPE
        command = [program] + words
        try:
            done = subprocess.run(command, input=case.stdin, stdout=output, stderr=subprocess.PIPE, cwd=folder,
                                  timeout=SECONDS, check=False)
        except subprocess.TimeoutExpired:
            return Outcome(b'', b'', None)
    return Outcome(done.stdout or b'', done.stderr, done.returncode)


class Pair:
    """The two programs, and a folder in which their cases are laid out."""

    def __init__(self, program, second, folder):
        self.program = program
        self.second = second
        self.folder = folder

    def lay_out(self, case):
        """Makes the folder anew, with the files of the case."""
        shutil.rmtree(self.folder, ignore_errors=True)
        os.makedirs(os.path.join(self.folder, 'sub'))
        for name, text in case.files.items():
            with open(os.path.join(self.folder, name), 'wb') as file:
                file.write(text)

    def outcomes(self, case):
        """What both programs do."""
        self.lay_out(case)
        return run(self.program, case, self.folder), run(self.second, case, self.folder)
