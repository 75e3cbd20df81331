"""docs/RUN.md: docs/run_page.txt, with the sources of a run's promise at the lines that name them, byte for byte.

    @ FILE            what the promise reaches of this file: definitions or types, whole, in the order of the file
    @ FILE: NAMES     only these
    @also FILE: NAMES definitions or calls that are shown too; what they name isn't followed
    @skip FILE: NAMES the same, of what a reader may skip
    @library          the words of the library that the page has, of docs/library_words.txt
    @names            each name of the blocks, with its chapter
    {lines}, {minutes}      of the page: lines to believe, and the minutes that all of it takes

The page has all that the promise reaches, each once.
"""
import re

from definitions import Call, CodeType
from tree import Unknown, anchor_of, read, rows_of, table

ORDER, WORDS = "docs/run_page.txt", "docs/library_words.txt"
CRATE, LAW = "ant_commands", "run_promise"
LINES, PROSE = 10, 200  # what a reader takes in in a minute: lines of a definition, words of prose and of comments
COMMENT = ("--", "//", "#[")


def lines_of(parts):
    """The one measure of what is to be believed: lines of the source without comments and lone brackets, types of the code counted."""
    return sum(it.lines for it in parts)


def minutes_of(page):
    """How long a page takes: its lines of code at one pace, its prose and the comments in its blocks at another."""
    lines = words = 0
    for number, part in enumerate(page.split("```")):
        for line in part.split("\n"):
            if number % 2 and not line.strip().startswith(COMMENT):
                lines += bool(line.strip("{}(),; "))
            else:
                words += len(line.split())
    return round(lines / LINES + words / PROSE)


class RunPage:
    def __init__(self, tree):
        self.tree, self.library, self.parts, self.chapters, self.chapter = tree, set(), [], {}, None
        self.told = dict(line.split(" | ", 1) for _, line in rows_of(WORDS))
        lines = read(ORDER).split("\n")
        self.also = [it for line in lines if line.startswith(("@also ", "@skip ")) for it in self.listed(line[len("@also "):])]
        self.reached = tree.reached(tree.named(Call(CRATE, LAW)), lambda it: it not in self.also)
        out = [self.shown(line) for line in lines]
        lost = [it.name for it in self.reached if it not in self.parts]
        if lost:
            raise Unknown("%s: the page lacks %s" % (ORDER, " ".join(lost)))
        made = {"@library": self.library_table, "@names": self.names_table}
        text = "\n".join(made[it]() if it in made else it for it in out).replace("{lines}", "%d" % lines_of(self.reached))
        self.text = text.replace("{minutes}", "%d" % minutes_of(text))

    def listed(self, line):
        """What a line of the page asks for."""
        file, _, names = line.partition(": ")
        crate = file.split("/")[1]
        if not names:
            return sorted((it for it in self.reached if it.file == file), key=lambda it: it.line)
        known = {it.name: it for it in self.tree.definitions() if it.file == file}
        found = [known.get(it) or file.endswith(".rt") and (self.tree.type_in(crate, file, it) or Call(crate, it)) for it in names.split()]
        if not all(found):
            raise Unknown("%s: not all there: %s" % (ORDER, line))
        return found

    def shown(self, line):
        asks, _, asked = line.partition(" ")
        if asks == "##":
            self.chapter = asked
        if asks not in ("@", "@also", "@skip"):
            return line
        parts, file = self.listed(asked), asked.partition(":")[0]
        twice = [it.name for it in parts if it in self.parts or asks == "@" and it not in self.reached]
        if twice or not parts:
            raise Unknown("%s: %s: there already, or not reached: %s" % (ORDER, file, " ".join(twice)))
        self.parts += parts
        for it in parts:
            self.chapters[it.name] = self.chapter
            self.note_words(it)
        skip = " (you may skip this block)" * (asks == "@skip")
        return "[%s](../%s)%s\n\n```\n%s\n```" % (re.sub("^crates/", "", file), file, skip, "\n\n".join("\n".join(it.source) for it in parts))

    def note_words(self, it):
        """Notes which words of the library a definition uses."""
        for line in it.source if not isinstance(it, CodeType) else ():
            for text, to in self.tree.tokens(it, line):
                if isinstance(to, str) or to is None and text in self.told and not text[0].isalnum() and not isinstance(it, Call):
                    self.library.add(to or text)

    def library_table(self):
        lacks, more = sorted(self.library - set(self.told)), sorted(set(self.told) - self.library)
        if lacks or more:
            raise Unknown("%s: lacks %s; has what the page doesn't: %s" % (WORDS, " ".join(lacks), " ".join(more)))
        words = sorted(self.told, key=lambda it: (it[0].isalpha(), it.lower()))
        return table(("word", "what it is"), [["`%s`" % it.replace("|", "\\|"), self.told[it].replace("|", "\\|")] for it in words]).rstrip()

    def names_table(self):
        rows = [["`%s`" % it, "[%s](#%s)" % (self.chapters[it], anchor_of(self.chapters[it]))] for it in sorted(self.chapters, key=str.lower)]
        return table(("name", "chapter"), rows).rstrip()


def pages(page):
    yield "docs/RUN.md", page.text.rstrip() + "\n"
