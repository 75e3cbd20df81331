"""Tries changed definitions: in a copy of the definitions and lemmas that name what was changed, beside the tree's
own, which must be proved too.

A copy has the file of the lemma, what it names that names the changed file, and that file. The copies of some changes
are in one copy of the crate of their lemmas, each under names of its own, and are checked in one go over the sources
of the crates below; no function of the tree is. A change is refused if the copy of a lemma that its row names is: not
if the changed definition is, or another lemma alone.
"""
import os
import re
import shutil
import subprocess
import tempfile

import toolchain
from tree import ROOT, below, crates, read, source_files

MOST = 40  # changes of one check
LONGEST = 1200  # seconds of one check
# A function that does nothing, whose proof names the files that are to be checked.
MODULE, FUNCTION = "nothing_is_changed", "holds"
# What is said of a text that can't be read, and not of a statement that is false.
UNREAD = re.compile(r"is not in scope|has no field|has no `|is no name|operand is missing|expected the end|cannot continue|was not admitted")


class Modules:
    """The files of all specs/ and proofs/ by the names under which they are imported."""

    def __init__(self):
        self.files, self.names = {}, {}
        for crate in crates():
            for part in ("specs", "proofs"):
                folder = "crates/%s/%s/" % (crate.name, part)
                for file in source_files(folder[:-1], ".antt"):
                    self.names[file] = "Rattle.%s.%s.%s" % (crate.name, part, file[len(folder) : -len(".antt")].replace("/", "."))
        self.files = {name: file for file, name in self.names.items()}

    def in_text(self, text, change):
        """The text with the name of each module of the tree in it as `change` has it."""

        def changed(found):
            parts = found[0].split(".")
            for end in range(len(parts), 3, -1):
                if ".".join(parts[:end]) in self.files:
                    return change(".".join(parts[:end])) + "".join("." + it for it in parts[end:])
            return found[0]

        return re.sub(r"\bRattle\.\w+\.(?:specs|proofs)\.[\w.+'-]+", changed, text)

    def named(self, text):
        found = []
        self.in_text(text, lambda name: found.append(name) or name)
        return found

    def touched(self, change):
        """The modules from the lemmas' down to the changed ones, with their texts."""
        edited = {self.names[file]: text for file, text in change.texts.items()}
        texts, touches = {}, {}

        def look(name):
            if name not in touches:
                texts[name], touches[name] = edited.get(name) or read(self.files[name]), name in edited
                touches[name] = any([look(it) for it in self.named(texts[name])]) or touches[name]
            return touches[name]

        for lemma in change.lemmas:
            look(self.names[lemma.file])
        return {name: texts[name] for name in texts if touches[name]}


class Copy:
    """A copy of a crate and of those below it, with changes of it."""

    def __init__(self, room, crate, modules):
        self.crate, self.modules = crate, modules
        self.folder = os.path.join(room, "crates", crate)
        for name in below(crate):
            for part in ("src", "specs", "proofs"):
                if os.path.isdir(os.path.join(ROOT, "crates", name, part)):
                    shutil.copytree(os.path.join(ROOT, "crates", name, part), os.path.join(room, "crates", name, part))
        self.main = next(it for it in ("src/main.rt", "src/lib.rt") if os.path.exists(os.path.join(self.folder, it)))
        self.write(self.main, "\nmod %s;\npub use %s::%s;\n" % (MODULE, MODULE, FUNCTION), "a")
        self.write("src/%s.rt" % MODULE, "/// Nothing.\npub fn %s() {}\n" % FUNCTION)

    def write(self, path, text, how="w"):
        file = os.path.join(self.folder, path)
        os.makedirs(os.path.dirname(file), exist_ok=True)
        with open(file, how, encoding="utf-8") as it:
            it.write(text)

    def put(self, changes):
        """Writes the copies of these changes, and the proof that names the files of their lemmas and the copies of those."""
        self.write("proofs/Lib.antt", "\npub mod Changed\n", "a")
        self.write("proofs/Changed.antt", "".join("pub mod c%d\n" % number for number in range(len(changes))))
        asked = sorted({self.modules.names[lemma.file] for change in changes for lemma in change.lemmas})
        for number, change in enumerate(changes):
            texts = self.modules.touched(change)
            place = "Rattle.%s.proofs.Changed.c%d." % (self.crate, number)
            self.write("proofs/Changed/c%d.antt" % number, "".join("pub mod %s\n" % copied(name) for name in texts))
            for name, text in texts.items():
                text = self.modules.in_text(text, lambda it: place + copied(it) if it in texts else it)
                self.write("proofs/Changed/c%d/%s.antt" % (number, copied(name)), text)
            asked += [place + copied(name) for name in (self.modules.names[lemma.file] for lemma in change.lemmas) if name in texts]
        asked = [*dict.fromkeys(asked)]
        self.write("proofs/%s/%s/Answers.antt" % (MODULE, FUNCTION), "".join("use %s as it_%d\n" % (it, i) for i, it in enumerate(asked)))

    def check(self):
        """What the checker says, and whether it came to a verdict."""
        words = toolchain.check_words(self.crate, self.main, "%s::%s" % (MODULE, FUNCTION))
        how = {"cwd": self.folder, "stdin": subprocess.DEVNULL, "stdout": subprocess.PIPE, "stderr": subprocess.STDOUT}
        try:
            said = subprocess.run(words, timeout=LONGEST, **how).stdout.decode("utf-8", "replace")
        except subprocess.TimeoutExpired:
            return "no answer in %d seconds" % LONGEST, False
        return said, toolchain.is_verdict(said)


def copied(name):
    """The name of a module's copy."""
    return "_".join(name.split(".")[1:])


def errors_in(said):
    """Each error: its file, the definition or lemma at which it is, what it says, and the lines below."""
    found = []
    for line in said.split("\n"):
        it = re.match(r"(?:\./)?(\S+?):\d+:\d+: error(?:\[[\w-]+\])?: (?:`([^`]*)`: )?(.*)", line)
        if it:
            found.append([it[1], it[2], it[3], []])
        elif found and line.startswith("  "):
            found[-1][3].append(line)
        else:
            found.append(["", "", "", []])
    return [it for it in found if it[0]]


def judged(number, change, errors, modules):
    """Why a change isn't refused, or None; and what is said at the lemmas that refuse it."""
    place = "proofs/Changed/c%d/" % number
    of_it = [it for it in errors if it[0].startswith(place)]
    texts = {place + copied(modules.names[lemma.file]) + ".antt": lemma for lemma in change.lemmas}
    bad = [it for it in of_it if re.match(r"\w+_specs_", it[0][len(place) :])]
    if bad:
        return "BAD EDIT, no definition: %s: %s" % (bad[0][1], bad[0][2]), []
    at = [it for it in of_it if it[0] in texts and it[1] in {lemma.name for lemma in change.lemmas} and not UNREAD.search(it[2])]
    if at:
        return None, at
    if of_it:
        return "NOT REFUSED by its lemmas, but elsewhere: %s: %s" % (of_it[0][1], of_it[0][2]), []
    return "NOT REFUSED", []


def tried(crate, changes, modules):
    """What came of the changes that a crate's lemmas have to refuse: each with why it isn't refused, and what is said of it."""
    with tempfile.TemporaryDirectory(prefix="mutants-") as room:
        copy = Copy(room, crate, modules)
        copy.put(changes)
        said, ended = copy.check()
    errors = errors_in(said)
    own = [it for it in errors if not it[0].startswith("proofs/Changed/")]
    if own:
        return [(change, "NOT PROVED without the change: %s: %s: %s" % tuple(own[0][:3]), []) for change in changes]
    if ended:
        return [(change, *judged(number, change, errors, modules)) for number, change in enumerate(changes)]
    if len(changes) > 1:
        return [it for change in changes for it in tried(crate, [change], modules)]
    return [(changes[0], "NO VERDICT: %s" % said.strip().split("\n")[-1], [])]


def batches(changes):
    """The changes by the crates of their lemmas, in parts of about one size."""
    for crate in [it.name for it in crates()]:
        these = [it for it in changes if it.crate == crate]
        parts = -(-len(these) // MOST)
        yield from ((crate, these[at::parts]) for at in range(parts))
