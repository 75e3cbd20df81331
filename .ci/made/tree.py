"""The tree as the made documents see it: its files and crates. Nothing here knows a crate or a file by its name."""
import itertools
import os
import re

ROOT = os.path.normpath(os.path.join(os.path.dirname(os.path.abspath(__file__)), "..", ".."))


class Unknown(Exception):
    """A name of the tree that leads nowhere."""


def read(path):
    with open(os.path.join(ROOT, path), encoding="utf-8") as file:
        return file.read()


def exists(path):
    return os.path.exists(os.path.join(ROOT, path))


class Crate:
    """A line of crates.txt: the name, the crates on which it depends, and the heading above it."""

    def __init__(self, name, stands_on, layer):
        self.name, self.stands_on, self.layer = name, stands_on, layer

    @property
    def root(self):
        main = "crates/%s/src/main.rt" % self.name
        return main if exists(main) else "crates/%s/src/lib.rt" % self.name

    is_program = property(lambda self: self.root.endswith("main.rt"))

    @property
    def summary(self):
        """The first sentence of the crate's `//!`."""
        text = " ".join(it[4:].strip() for it in itertools.takewhile(lambda it: it.startswith("//! "), read(self.root).split("\n")))
        if not text:
            raise Unknown("%s: opens with no //!" % self.root)
        return re.split(r"(?<=[.])\s", text)[0]


def crates():
    """The crates of crates.txt in its order, each with the comment line above it."""
    found, layer = [], ""
    for line in read("crates.txt").split("\n"):
        if line.startswith("#"):
            layer = line.lstrip("# ").strip()
        elif ":" in line:
            head, stands_on = line.split("#")[0].split(":", 1)
            found.append(Crate(head.split()[0], stands_on.split(), layer))
    return found


def below(name):
    """The names of a crate and of those of the repository on which it depends."""
    stands_on = {it.name: it.stands_on for it in crates()}
    found, left = set(), [name]
    while left:
        it = left.pop()
        if it in stands_on and it not in found:
            found.add(it)
            left += stands_on[it]
    return found


def rows_of(path):
    """The lines of a file that are neither empty nor remarks, with their numbers."""
    return [(number, line) for number, line in enumerate(read(path).split("\n"), 1) if line.strip() and not line.startswith("#")]


def table(header, rows):
    return "\n".join(["| %s |" % " | ".join(header), "|" + "---|" * len(header)] + ["| %s |" % " | ".join(row) for row in rows]) + "\n"


def made_part(page, name, text, form="<!-- made: %s -->\n", end="<!-- end -->"):
    """A page with this made part in its place, which is between two remarks."""
    at = re.compile("(%s).*?(%s)" % (form % re.escape(name), end), re.S)
    if len(at.findall(page)) != 1:
        raise Unknown("no page has one place for `made: %s`" % name)
    return at.sub(lambda it: it[1] + text + it[2], page)


def anchor_of(heading):
    """What a link to a heading of a page has behind its `#`."""
    return re.sub(r"[^\w\- ]", "", heading.strip().lower()).replace(" ", "-")


def source_files(folder, ending):
    for where, folders, files in sorted(os.walk(os.path.join(ROOT, folder))):
        folders.sort()
        for name in sorted(files):
            if name.endswith(ending):
                yield os.path.relpath(os.path.join(where, name), ROOT)
