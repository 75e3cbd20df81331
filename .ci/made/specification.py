"""docs/SPECIFICATION.md: an index of exactly the definitions that the clauses of the top calls reach, a line a file, in an order to read them, and how
many lines each command rests on; and the lines to believe, for PROMISES.

A chapter begins at the definitions that it is about, and has what they reach and no chapter above has. A command begins at its own equation of `job_by`.
"""
import re

from definitions import Call, CodeType, Definition
from run_page import CRATE, LINES, PROSE, lines_of, minutes_of
from tree import Unknown, table
from words import Words, number

CALLS, LAW = ("run_ants", "run_to_exit"), "headline"
JOBS = "job_by"  # the job of a command, an equation a command
COMMANDS = "CommandKind"  # the type with a variant for each first word
FILES = ("FileKind", "FileContent")  # the data with a constructor for each kind of file
CUP_GAMES, UNCOUNTED = "cup_games_are_runs", ("totals_of", "counts_text")  # the law of a cup's games; and the counts, which it leaves out
GAME, COUNTS = "PrintsTheGame", "TellsItsCounts"  # of the law's page what a game prints; and what its counts are, where they are asked for

FIRST = (
    ("The rules of the contest", ("world_after", "score_of"), "The world after a number of rounds, and its score. If you believe this chapter, you know the game."),
    ("Worlds and brains as texts", ("OpensAs", "IsBrainText"), "Which bytes are the text of a world or of a brain, and what is read of them."),
    ("The text of a game", ("run_text",), "What `run` prints: the seed line, the chosen dumps, and the score."),
    ("Words", ("IsCommand", "IsRefusedAt"), "Which words are a command, what they say, and which word is refused."),
)
LAST = (("What is wrong with a file", ("Refuses",), "The one fault of each text that isn't of its file's kind."),)
ENDINGS = ("Endings", "Which files were fetched, how a run ended, what it reported, and its status. The first definitions are those that the clauses name.")
READING = """**How to read it.** These are the signs that the files use most. [RUN.md](RUN.md#how-to-read-it) has
more, and the words of the standard library in a table.

- `ℕ` are the whole numbers from 0 on. `zero` is 0, and `suc n` is n + 1. `a - b` is 0 if b is
  greater.
- `[]` is the empty list, and `x ∷ xs` has x before xs. `++` and `+++` join lists. `codes "text"` and
  `decimal n` are texts as lists of bytes. `slice_index_or list i x` is the element at i, or x if
  there is none. `prefix_len test list` is the number of elements at its beginning that pass a test,
  and `suffix_len` the number at its end.
- `record x { f = y }` is x with its field f replaced by y. A `record` has all of its fields; if a
  field is a fact, the `record` claims it.
- `==`, `nat_eq`, `nat_lt`, `nat_le`, `&&`, `||` are tests that compute, as in a program.
- `a ≡ b` says that they are equal, and `≢` that they aren't. `¬` is "not", `↔` is "exactly if", `×` is
  "and", and `⊎` is "or". `⊥` never holds, and `⊤` and `Unit` always do. `(x : A) → B` says that B
  holds for every x, and `(x : A) × B` that it holds for some x.
- `IfSome`, `IfOk` and similar names claim a fact of a value, if there is such a value.
  `AllByRecursion` claims it of each element of a list, and `AllZip` of each two elements at the same
  place of two lists.
- `λ x. b` is the function that gives b at x. Of several equations, the first one that fits counts.
- `unfoldable` and `abbrev` tell the checker when to open a definition, and mean nothing to you."""


class Specification:
    def __init__(self, tree):
        self.tree, self.chapters, self.cut = tree, [], {}
        self.calls = [Call(CRATE, name) for name in CALLS]
        self.roots = list(dict.fromkeys(it for call in self.calls for it in tree.named(call, call.clauses) if isinstance(it, Definition)))
        self.all = tree.reached(self.roots)
        self.law = Call(CRATE, LAW)
        self.page = [it for it in tree.reached(tree.named(self.law)) if it not in set(self.all)]
        self.left = dict.fromkeys(self.all)
        for title, names, says in FIRST:
            self.add(title, says, [self.find(name) for name in names])
        jobs = self.find(JOBS)
        found = [(re.match(r"%s (\w+) \w+ =\s+(\w+)_job\b" % JOBS, text), text) for _, text in jobs.equations()]
        self.commands, seen, words = {}, set(), Words().kinds
        for it, text in found[1:]:
            if not it:
                raise Unknown("%s: an equation that names no job: %s" % (JOBS, text))
            if it[2] not in seen:
                seen.add(it[2])
                word = words[it[1]]
                self.commands[word] = it[1]
                self.add("The command %s" % word, "What `%s` reads and writes, except what the chapters above have." % word, tree.named(jobs, text), (JOBS,) + FILES)
        for title, names, says in LAST:
            self.add(title, says, [self.find(name) for name in names])
        self.add(ENDINGS[0], ENDINGS[1], self.roots)

    def find(self, name, parts=None):
        found = [it for it in (self.all if parts is None else parts) if it.name == name and isinstance(it, Definition)]
        if len(found) != 1:
            raise Unknown("the specification begins at %s, and %d of that name are reached" % (name, len(found)))
        return found[0]

    def members(self, name):
        return {it for found in self.all if found.name == name for it in found.members()}

    def add(self, title, says, roots, skip=()):
        parts = self.tree.reached(roots, lambda it: it in self.left and it.name not in skip)
        self.left = dict.fromkeys(it for it in self.left if it not in parts)
        self.chapters.append((title, says, parts))

    def equations(self, it):
        """Each equation of a definition: the commands and kinds of files that its left side names, its text, and those that the text names."""
        if it not in self.cut:
            module = it.module
            names = [*module.names.items(), *((name, (module.path + "." + owner.name, name)) for name, owner in module.constructors.items())]
            cases = {name for name, (target, _) in names if set(target.split(".")[-2:]) & {COMMANDS, *FILES}}
            self.cut[it] = [(cases & set(re.findall(r"\w+", side)), text, cases & set(re.findall(r"\w+", text))) for side, text in it.equations()]
        return self.cut[it]

    def needed(self, command):
        """What a command's promise reaches: of definitions by cases on commands and on files only the cases that it meets."""
        live, met, kinds, contents = {command}, None, self.members(COMMANDS), self.members(FILES[1])
        while met is None or not met <= live:
            live |= met or set()
            found, left, met = {}, list(self.roots), set()
            while left:
                it = left.pop()
                if it in found:
                    continue
                found[it] = None
                if isinstance(it, CodeType):
                    left += self.tree.named(it)
                    continue
                for asked, text, named in self.equations(it):
                    if it.shape == "data" and it.name in FILES:
                        text = "\n".join(line for line in text.split("\n") if set(re.findall(r"\w+", line)) & live)
                    # an equation by cases on a kind of file and a content says which contents a kind has
                    elif asked <= live or asked & live and asked <= live | contents:
                        met |= named - kinds
                    else:
                        continue
                    left += self.tree.named(it, text)
        return list(found)

    def counts(self):
        """How many lines are the contest, a game, all that a run rests on, and all of it."""
        each = [lines_of(parts) for _, _, parts in self.chapters]
        return each[0], sum(each[:3]), lines_of(self.needed(self.commands["run"])), sum(each)

    def game_lines(self):
        """How many lines the headline's words on a game rest on, and how many more its counts."""
        game, counts = [self.find(it, self.page) for it in (GAME, COUNTS)]
        whole = lines_of(self.tree.reached([game]))
        counted = lines_of(self.tree.reached([game, counts])) - whole
        if not counted:
            raise Unknown("%s has all that %s rests on" % (GAME, COUNTS))
        return whole, counted


def pages(spec):
    contest, game, run, whole = spec.counts()
    told, counted = spec.game_lines()
    calls = " and ".join("[%s](../%s)" % (it.name, it.file) for it in spec.calls)
    out = ["# Specification", "", (
        "Made from the tree by `.ci/make-documents`, and not edited by hand. These files have exactly the\ndefinitions that the clauses of\n%s\nreach. If you believe them, and the types of the code that they name, you know what the program does.\n"
        "For one `run`, [RUN.md](RUN.md) has all of it.\n\n"
        "This is how many lines are reached, without comments and lines with only a bracket, and with types of\nthe code: %s for the contest's rules, %s for a game from its files to its text,\n"
        "%s for all that a `run` rests on, and %s for all commands together.\n\n"
        "The law [%s](../%s) says the promise of every command\nin %s lines. Its part `%s` rests on %s lines for a `run` without `--stats`, and the counts of\n`--stats` add %s."
        % (calls, number(contest), number(game), number(run), number(whole), LAW, spec.law.file, number(lines_of(spec.page)), GAME, number(told), number(counted))
    ), "", READING, ""]
    for title, says, parts in [("The headline", "The law's own words, which follow from the clauses.", spec.page)] + spec.chapters:
        if parts:
            out += ["## " + title, "", "%s %s lines." % (says, number(lines_of(parts))), ""]
            files = {}
            for it in parts:
                files.setdefault(it.file, []).append(it)
            rows = [["[%s](../%s)" % (re.sub("^crates/", "", file), file), says_of(these), number(lines_of(these))] for file, these in reversed(files.items())]
            out.append(table(["file", "what it defines", "lines"], rows))
    rows = [["`%s`" % word, number(lines_of(spec.needed(it)))] for word, it in spec.commands.items()]
    out += ["## Lines by command", "", "All that the promise of a command reaches. Of a definition by cases on commands and files, only the\ncases that this command meets are counted.", "", table(["command", "lines"], rows), "## The clauses", ""]
    out += ["```text\n%s: %s\n```\n" % (call.name, call.clauses.strip()) for call in spec.calls]
    yield "docs/SPECIFICATION.md", "\n".join(out).rstrip() + "\n"


def says_of(parts):
    if isinstance(parts[0], Definition):
        return parts[0].module.says.replace("|", "\\|")
    return "types of the code: " + ", ".join("`%s`" % it.name for it in parts)


def to_believe(spec, page):
    """How many lines are to be believed, and how long it takes."""
    contest, game, run, whole = spec.counts()
    law = spec.tree.reached(spec.tree.named(Call(CRATE, CUP_GAMES)), lambda it: it.name not in UNCOUNTED)
    added = lines_of([it for it in law if it not in set(page.reached)])
    rows = [
        ["one `run` without `--stats`, except which word status 2 names and how status 5 words a fault: [RUN.md](RUN.md)", lines_of(page.reached), minutes_of(page.text)],
        ["the score of one game of a cup: that page, and what the law `%s` adds to it" % CUP_GAMES, lines_of(page.reached) + added, minutes_of(page.text) + round(added / LINES)],
        ["the contest's rules: [the chapter](SPECIFICATION.md#the-rules-of-the-contest)", contest, None],
        ["a game: rules, texts of worlds and brains, text of a game", game, None],
        ["all that a `run` rests on, with its counts and the fault of each text", run, None],
        ["all commands: [the index](SPECIFICATION.md); the law `%s` itself has %d lines" % (LAW, lines_of(spec.page)), whole, None],
    ]
    rows = [[says, number(lines), number(minutes or round(lines / LINES))] for says, lines, minutes in rows]
    return table(["to believe", "lines", "minutes"], rows) + "\nMinutes are at %d lines a minute; those of the page include its prose and comments,\nat %d words a minute.\n" % (LINES, PROSE)
