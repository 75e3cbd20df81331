"""What a fault in numbers says in words, for the tests of the library: kinds by their numbers as ants.h has them, words as docs/RULES.md
and docs/COMMANDS.md have them."""

OF_LINES = ("bad byte", "unknown word", "missing token", "bad number", "extra token")
OF_PROGRAMS = OF_LINES + ("bad name", "misplaced", "name taken", "no such block", "wrong number of labels", "too many", "empty block")

# The words of each kind; a number that they don't name is 0.
FAULT_WORDS = {
    1: "too long", 10: "bad width", 11: "bad height", 12: "row {line}: missing",
    13: "row {line}: bad cell at column {column}", 14: "row {line}: short", 15: "row {line}: long", 16: "extra row",
    17: "rim open at ({column}, {line})", 18: "too many ants, {number}", 25: "line {line}: too many instructions", 26: "no instruction",
    27: "line {line}: no such state {number}", 42: "no instruction", 43: "line {line}: no such label",
    50: "line {line}: not a save", 51: "no valid state", 52: "already at round {number}", 60: "no room for element {number}",
    74: "line {line}: too many breaks",
}
FAULT_WORDS.update((20 + place, "line {line}: " + words) for place, words in enumerate(OF_LINES))
FAULT_WORDS.update((70 + place, "line {line}: " + words) for place, words in enumerate(OF_LINES[1:]))
FAULT_WORDS.update((30 + place, "line {line}: " + words) for place, words in enumerate(OF_PROGRAMS))

# The kinds of a text besides 1, by the name of its parameter; "" is no text.
KINDS_OF_TEXTS = dict.fromkeys(("red", "black", "brain", "first", "second"), range(20, 28))
KINDS_OF_TEXTS.update({"world": range(10, 19), "program": range(30, 44), "save": range(50, 53), "": range(60, 61), "breaks": range(70, 75)})


def says(name, kind, line, column, number, words):
    """Whether a fault of the text of this name says in these numbers what it says in these words."""
    form = FAULT_WORDS.get(kind, "")
    has_others = any(value and part not in form for part, value in (("line", line), ("column", column), ("number", number)))
    return not has_others and form.format(line=line, column=column, number=number) == words and (kind == 1 or kind in KINDS_OF_TEXTS[name])
