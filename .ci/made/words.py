"""The table of commands, read from the definitions of the words: what a page that tells of them has to say."""
import re

from tree import Unknown, read, source_files


def only(texts, pattern):
    """All that a pattern finds in the definitions of the words."""
    found = [it for text in texts for it in re.findall(pattern, text, re.M)]
    if not found:
        raise Unknown("the table of words has nothing like %s" % pattern)
    return found


def number(text):
    return "{:,}".format(int(text))


class Words:
    """Commands with their options, and options with their limits and defaults and with what they take, as the definitions have them."""

    def __init__(self, folder="crates/command_words/specs"):
        texts = [re.sub(r"\n    +", " ", read(file)) for file in source_files(folder, ".antt") if "/Inner/" not in file]
        rows = {kind: (word, choices) for kind, word, choices in only(texts, r'^row_of (\w+) = command_row \(codes "([^"]+)"\).* (\[\]|\([^()]*\))$')}
        options = only(texts, r'^option_row (\w+) = (needed|number|one|dump|flag)_option \(codes "([^"]+)"\) ?(\w*) ?(\d*)')
        kinds = only(texts, r"^kinds = (.*) ∷ \[\]$")[0].split(" ∷ ")
        least, most = dict(only(texts, r"^least_of (\w+) = (\d+)")), dict(only(texts, r"^most_of (\w+) = (\d+)"))
        word_of = {choice: word for choice, _, word, _, _ in options}
        self.commands = {}
        for kind in kinds:
            word, choices = rows[kind]
            self.commands[word] = [word_of[it] for it in choices.strip("()").split(" ∷ ") if it != "[]"]
        helps = {kind: (names, says) for kind, names, says in only(texts, r'^help_row (\w+) = command_help \(codes "([^"]*)"\) \(codes "([^"]*)"\)$')}
        self.kinds = {kind: rows[kind][0] for kind in kinds}
        self.names = {rows[kind][0]: helps[kind][0] for kind in kinds}
        # `help` says "this page" of what it prints, which elsewhere is another page
        self.says = {rows[kind][0]: helps[kind][1].replace("this page", "a page with all commands and options") for kind in kinds}
        self.keywords = list(dict(only(texts, r'^keyword_of (\w+) = codes "([^"]+)"')).values())
        self.options = {}
        self.forms = {word: form for _, form, word, _, _ in options}
        for choice, form, word, kind, default in options:
            limits = "%s to %s" % (number(least[kind]), number(most[kind])) if kind else None
            default = "needed" if form == "needed" else "all" if form == "one" else number(default) if default else None
            self.options[word] = (limits, default)
