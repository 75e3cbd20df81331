"""What this repository knows about the inside of the toolchain: how to call the checker that lies beside `rt`, and the
names of its folders. `rt` itself doesn't say this. No other file knows it, so for a toolchain of another layout only
this file changes.
"""
import os
import shutil

from tree import ROOT, Unknown, below, crates

CHECKER = "rattle"  # the program that `rt` calls for each check


def kit():
    """The folder of the toolchain."""
    rt = shutil.which("rt")
    if not rt:
        raise Unknown("there is no rt")
    return os.path.dirname(os.path.dirname(os.path.realpath(rt)))


def dependencies():
    """The crates on which each crate of this repository stands, the toolchain's among them."""
    return {it.name: it.stands_on for it in crates()}


def library_of(name):
    """The folder of the library that `rt` made of a crate of this repository or of the toolchain."""
    return os.path.join(ROOT, "crates", name, "out", "rlib") if name in dependencies() else os.path.join(kit(), "rlibs")


def logic():
    """The words for the logic in which the checker works."""
    return ["--antt-project", os.path.join(kit(), "rattle", "logic", "antt-project.json"), "--logic-built", os.path.join(kit(), "logic_built")]


def check_words(crate, root, only):
    """The call that checks one function of a crate and the lemma files that its proof names, over the sources of the crates below. It runs in the crate's
    folder, beside those of the crates below; `root` is its root file."""
    stands_on, libraries = dependencies(), os.path.join(kit(), "rlibs")
    ours = below(crate)
    words = [os.path.join(kit(), "bin", CHECKER), "check", "--crate-name", crate, root, "-L", "dependency=" + libraries]
    for name in sorted({"core", "std"} | {it for name in ours for it in stands_on[name]} - set(stands_on)):
        words += ["--extern", "%s=%s/%s.rlib" % (name, libraries, name)]
    for name in sorted(ours - {crate}):
        words += ["--lib", "%s:%s=../%s/src/lib.rt" % (name, ",".join(["core", "std", *stands_on[name]]), name)]
    return words + logic() + ["--jobs", "1", "--only", only]


def is_verdict(said):
    """Whether a check of one function came to a verdict, by what it said."""
    return any(line.startswith("only=1 ") for line in said.split("\n"))


def is_proved(name):
    """Whether the library that `rt ci` proved of a crate is there, and not one that `rt check` left, which may be of older sources."""
    folder = library_of(name)
    return os.path.exists(os.path.join(folder, name + ".rlib", "format")) and not os.path.exists(os.path.join(folder, "stamp"))


def build_words(crate, archive):
    """The call that proves a static library over the libraries of the crates below it, and writes its archive. It runs in the crate's folder."""
    stands_on = dependencies()
    words = [os.path.join(kit(), "bin", CHECKER), "build", "--crate-name", crate, "src/lib.rt"]
    for name in ["std", *stands_on[crate]]:
        words += ["--extern", "%s=%s/%s.rlib" % (name, library_of(name), name)]
    for folder in [os.path.join(kit(), "rlibs")] + [library_of(name) for name in stands_on if name in below(crate) - {crate}]:
        words += ["-L", "dependency=" + folder]
    words += logic() + ["--toolchain", os.path.join(kit(), "toolchain")]
    # two jobs are a third more work, since each loads the libraries
    return words + ["--jobs", "1", "--links", crate + "=", "--crate-type", "staticlib", "--backend", "llvm", "-o", archive]


def with_jobs(number):
    """The environment in which `rt must-fail` and `rt ci` make this number of checks at a time; its own, if there is none."""
    return {**os.environ, "RT_JOBS": str(number)} if number else dict(os.environ)
