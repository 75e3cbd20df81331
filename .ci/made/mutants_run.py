"""docs/mutants.txt: the last complete run of `.ci/mutants` in which all was refused."""
import collections
import os
import subprocess

from changed_definitions import FILE as DEFINITIONS
from tree import ROOT, Unknown, read, rows_of

FILE = "docs/mutants.txt"
TRIED = ("crates", ":!*.md", DEFINITIONS)  # what such a run depends on

Run = collections.namedtuple("Run", "commit date minutes bugs changes")


def git(*words):
    return subprocess.run(["git", *words], cwd=ROOT, stdout=subprocess.PIPE, stderr=subprocess.DEVNULL, universal_newlines=True)


def last():
    """The run that the file has, or None."""
    found = [line.split() for _, line in rows_of(FILE)]
    if len(found) > 1 or any(len(line) != 5 for line in found):
        raise Unknown("%s: not one line of a commit, a date and three numbers" % FILE)
    return Run(*found[0]) if found else None


def is_of_this_tree():
    """Whether the crates and the changed definitions are unchanged since the run's commit."""
    run = last()
    return run is not None and git("diff", "--quiet", run.commit, "--", *TRIED).returncode == 0


def clean_commit():
    """The commit that is checked out, as a run is to name it; Unknown if what it tries isn't committed."""
    if git("status", "--porcelain", "--", *TRIED).stdout:
        raise Unknown("--record is of what is committed")
    return git("rev-parse", "--short=12", "HEAD").stdout.strip()


def record(*run):
    """Writes a run over the one before."""
    head = [line for line in read(FILE).split("\n") if line.startswith("#")]
    with open(os.path.join(ROOT, FILE), "w", encoding="utf-8") as file:
        file.write("\n".join([*head, " ".join(map(str, run))]) + "\n")
