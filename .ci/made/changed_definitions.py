"""docs/changed_definitions.txt, whose head says what its rows are: the wrong rules with their edits, and the lemmas that refuse them."""
import collections
import re

from tree import Unknown, below, crates, exists, read, source_files

FILE = "docs/changed_definitions.txt"

# A lemma that a row names, with the file of proofs/ in which it is.
Lemma = collections.namedtuple("Lemma", "crate name file")


class Row:
    """A wrong rule: its line in the file, its section, the names of its lemmas and their crate, and the lines of its edits."""

    def __init__(self, number, section, line):
        it = re.fullmatch(r"- (.+) \| (\S+(?:, \S+)*) of (\w+)", line)
        self.where = "%s:%d" % (FILE, number)
        if not it:
            raise Unknown("%s: a row is a wrong rule, ` | `, and lemmas of a crate" % self.where)
        self.rule, self.names, self.crate, self.edits = "%s: %s" % (section, it[1]), it[2].split(", "), it[3], [[]]

    def add(self, line):
        if line == "or":
            self.edits.append([])
        else:
            self.edits[-1].append(line)


class Change(collections.namedtuple("Change", "row lemmas texts")):
    """An edit of a row: its lemmas, at least one of which has to refuse it, and the texts of the files that it changes."""

    crate = property(lambda self: self.row.crate)

    def is_of(self, names):
        """Whether one of these crates has its lemmas or what it changes."""
        return self.crate in names or any(path.split("/")[1] in names for path in self.texts)


def rows():
    """The rows, each with its edits."""
    found, section = [], ""
    for number, line in enumerate(read(FILE).split("\n"), 1):
        if line.startswith("## "):
            section = line[3:]
        elif line.startswith("- "):
            found.append(Row(number, section, line))
        elif found and re.match(r"  (file|old): .|  new:|  or$", line):
            found[-1].add(line[2:])
    return found


def lemma_files(crate):
    """The files of a crate's proofs that have a lemma of each name."""
    found = {}
    for file in source_files("crates/%s/proofs" % crate, ".antt"):
        for name in set(re.findall(r"^(?:pub |abbrev |unfoldable )*([^\s:]+) :", read(file), re.M)):
            found.setdefault(name, []).append(file)
    return found


def lemmas_of(row, files):
    """The lemmas that a row names, those of worked values if others have their names; Unknown if one isn't there once."""
    found = []
    for said in row.names:
        module, _, name = said.rpartition(".")
        there = [it for it in files.get(name, []) if it.endswith("/%s.antt" % module)] if module else files.get(name, [])
        worked = [it for it in there if "Worked" in it]
        one = there if len(there) == 1 else worked
        if len(one) != 1:
            raise Unknown("%s: %d files of the proofs of %s have a lemma %s, not one" % (row.where, len(there), row.crate, name))
        found.append(Lemma(row.crate, name, one[0]))
    return found


def edited(where, lines, within):
    """The texts of the files that an edit changes; Unknown if it can't be applied."""
    path, pairs, texts = None, [], {}
    for line in lines:
        head, text = re.fullmatch(r"(file|old|new):(?: (.*))?", line).groups(default="")
        if head == "file":
            path = text
        elif head == "old":
            pairs.append((path, text, []))
        elif pairs:
            pairs[-1][2].append(text)
    if not pairs or not all(path and new for path, _, new in pairs):
        raise Unknown("%s: an edit is a `file:` and pairs of `old:` and `new:`" % where)
    for path, old, new in pairs:
        it = re.fullmatch(r"crates/(\w+)/specs/[\w/]+\.antt", path)
        if not it or it[1] not in within or not exists(path):
            raise Unknown("%s: %s is no file of specs/ of a crate on which the lemma stands" % (where, path))
        whole = texts.get(path) or read(path)
        if whole.count(old) != 1:
            raise Unknown("%s: `%s` is in %s %d times, not once" % (where, old, path, whole.count(old)))
        texts[path] = whole.replace(old, "\n".join(new))
    return texts


def changes():
    """The edits of all rows; Unknown if one can't be applied."""
    files = {it.name: lemma_files(it.name) for it in crates()}
    found = []
    for row in rows():
        if row.crate not in files:
            raise Unknown("%s: there is no crate %s" % (row.where, row.crate))
        lemmas, within = lemmas_of(row, files[row.crate]), below(row.crate)
        found += [Change(row, lemmas, edited(row.where, lines, within)) for lines in row.edits]
    return found
