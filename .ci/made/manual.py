"""Writes the manual pages of the scripts that are installed beside the program: .ci/made/manual.py FOLDER

Each is made of what heads its script; their date and version are those of docs/ants.1.
"""
import ast
import os
import re
import sys
import textwrap

sys.dont_write_bytecode = True

from tree import Unknown, read

SCRIPTS = ("map", "listing", "league")
WIDTH = 66


def roff(line):
    """A line of text as the manual page has it: words between backticks are bold."""
    line = re.sub(r"`([^`]*)`", r"\\fB\1\\fP", line.replace("\\", r"\e").replace("-", r"\-"))
    return line.replace("'", r"\(aq") if line.startswith("'") else r"\&" + line if line.startswith(".") else line


def paragraphs(text):
    """The paragraphs of a head, each with whether it is to be kept line by line, as what is indented."""
    for piece in re.split(r"\n\n+", text.strip("\n")):
        kept = piece.startswith("    ")
        yield kept, textwrap.dedent(piece).split("\n") if kept else textwrap.wrap(" ".join(piece.split()), WIDTH, break_on_hyphens=False)


def head_of(name):
    """What heads a script: its docstring, or what it sets `__doc__` to if the shell starts it."""
    tree = ast.parse(read("examples/" + name))
    own = [it.value for it in tree.body if isinstance(it, ast.Assign) and getattr(it.targets[0], "id", "") == "__doc__"]
    return ast.literal_eval(own[0]) if own else ast.get_docstring(tree, clean=False)


def manual(name):
    docs = head_of(name)
    title = re.search(r"^\.TH ANTS (.*)$", read("docs/ants.1"), re.M)
    first = docs and re.match(r"(.*?)(?:: examples/(\w+ [^\n]*))?(?:\.? *\n|\. )", docs)
    if not first or not title:
        raise Unknown("examples/%s: no head to make a manual page of" % name)
    told = [(kept, [re.sub(r"^(examples/)?%s\b" % name, "ants-" + name, it) for it in lines]) for kept, lines in paragraphs(docs[first.end():])]
    usage = [first[2]] if first[2] else told.pop(next(at for at, (kept, _) in enumerate(told) if kept))[1]
    out = [r'.\" Made of examples/%s.' % name, ".TH ANTS\\-%s %s" % (name.upper(), title[1])]
    out += [".SH NAME", "ants\\-%s \\- %s" % (name, roff(first[1][0].lower() + first[1][1:].partition(",")[0])), ".SH SYNOPSIS", ".nf"]
    out += [roff(re.sub(r"^%s\b" % name, "ants-" + name, it)) for it in usage] + [".fi", ".SH DESCRIPTION"]
    for at, (kept, lines) in enumerate(told):
        out += [".PP"] * bool(at) + [".nf"] * kept + [roff(it) for it in lines] + [".fi"] * kept
    return "\n".join(out + [".SH SEE ALSO", ".BR ants (1)"]) + "\n"


def main():
    if len(sys.argv) != 2:
        sys.exit(__doc__)
    for name in SCRIPTS:
        with open(os.path.join(sys.argv[1], "ants-%s.1" % name), "w", encoding="utf-8") as file:
            file.write(manual(name))


if __name__ == "__main__":
    main()
