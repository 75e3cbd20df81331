"""The tables of commands in README, COMMANDS and PROMISES, and the commands of docs/ants.1.

How a command is called, its options and its one sentence are those of the table of words; what its text is, the definition that its job names, with
the comment above it. docs/commands.txt has in which section of COMMANDS a command stands.
"""
import re
import textwrap

from definitions import Definition
from manual import roff
from tree import Unknown, made_part, read, table
from words import Words

SECTIONS = "docs/commands.txt"
OUTPUT = re.compile(r"\w+_output|\w+_text|Tells\w+|Is\w+Output")  # the definitions of texts
ROW = re.compile(r"(.+?) (\w+) \w+ =\s+(\w+)(?:\s|$)")  # an equation of `job_by`


class Commands:
    def __init__(self, tree):
        self.words, self.tree = Words(), tree
        self.sections = dict(line.split(": ") for line in read(SECTIONS).split("\n") if ": " in line and not line.startswith("-- "))
        if set(self.sections) != set(self.words.commands):
            raise Unknown("%s: not the commands of the table: %s" % (SECTIONS, " ".join(set(self.sections) ^ set(self.words.commands))))

    def option(self, word):
        """An option with what follows it."""
        return word + {"dump": " D", "flag": ""}.get(self.words.forms[word], " N")

    def usage(self, command, more):
        """How a command is called: with each option that it may have, or with two points for all of them."""
        options = self.words.commands[command]
        needed = [self.option(it) for it in options if self.words.forms[it] == "needed"]
        free = ["[%s]" % self.option(it) for it in options if self.words.forms[it] != "needed"]
        return " ".join([command + self.words.names[command]] + needed + (free if more else [".."] * bool(free)))

    def in_readme(self):
        return table(("command", "what it does"), [["`%s`" % self.usage(it, False), self.words.says[it]] for it in self.words.commands])

    def on_their_page(self):
        rows = [["`ants %s`" % self.usage(it, True), "[%s](%s)" % (self.words.says[it], self.sections[it] if "#" in self.sections[it] else "#" + self.sections[it])] for it in self.words.commands]
        return table(("words", "what it does"), rows)

    def promises(self):
        """What the text of each command is: the definitions that the equation of its job names."""
        known = {it.name: it for it in self.tree.definitions() if it.crate == "ant_commands"}
        rows = []
        for _, text in known["job_by"].equations():
            row = ROW.match(text)
            if not row:
                continue
            found = [it for it in self.tree.named(known[row[3]]) if isinstance(it, Definition) and OUTPUT.fullmatch(it.name)]
            command = self.words.kinds[row[2]]
            says = "; ".join(re.sub(r"^the output of `[\w-]+`: ", "", " ".join(line.lstrip("- ") for line in it.comment)) for it in found)
            names = ", ".join("[`%s`](../%s#L%d)" % (it.name, it.file, it.line) for it in found)
            rows.append((command, ["`%s`" % command, names, says]))
        order = list(self.words.commands)
        if sorted(it for it, _ in rows) != sorted(order):
            raise Unknown("job_by has not one equation a command")
        return table(("command", "its text, as defined", "in words"), [row for _, row in sorted(rows, key=lambda it: order.index(it[0]))])

    def synopsis(self):
        out = []
        for command in self.words.commands:
            out += [".br"] * bool(out) + [".B ants %s" % command.replace("-", r"\-")]
            for word in self.usage(command, True)[len(command):].split("[")[0].split():
                out.append((".I %s" if word.strip(".").isupper() else ".B %s") % word.replace("-", r"\-"))
            for part in re.findall(r"\[([^\]]*)\]", self.usage(command, True)):
                word, _, value = part.replace("-", r"\-").partition(" ")
                out += [".RB [ %s" % word, ".IR %s ]" % value] if value else [".RB [ %s ]" % word]
        return "\n".join(out) + "\n"

    def manual(self):
        out = []
        for command, says in self.words.says.items():
            lines = textwrap.wrap(says[0].upper() + says[1:] + ".", 66, break_on_hyphens=False)
            out += [".TP", ".B %s" % command.replace("-", r"\-")] + [roff(it) for it in lines]
        return "\n".join(out) + "\n"

    def manual_page(self):
        page = read("docs/ants.1")
        for name, text in (("synopsis", self.synopsis()), ("commands", self.manual())):
            page = made_part(page, name, text, r'\.\\" made: %s\n', r'\.\\" end\n')
        return page
