"""docs/CRATES.md and the layers of docs/ARCHITECTURE.md, and docs/GATE.md: what the gate costs, the planted bugs, and what `rt plant` found."""
import glob

import changed_definitions
import mutants_run
from tree import Unknown, crates, rows_of, table

COSTS = "docs/gate_costs.txt"


def crates_page():
    """Each crate with the first sentence of its root file and with the crates of this repository on which it stands, by layers."""
    every = crates()
    names, out = [it.name for it in every], ["# Crates", "", "Each crate with what it is and which crates of this repository it depends on, by layers. Made by\n`.ci/make-documents` from `crates.txt` and the crates' root files."]
    for layer in dict.fromkeys(it.layer for it in every):
        these = [it for it in every if it.layer == layer]
        found = [["[`%s`](../crates/%s/README.md)" % (it.name, it.name), it.summary.rstrip("."), " ".join("`%s`" % below for below in it.stands_on if below in names)] for it in these]
        out += ["", "## %s" % layer, "", table(("crate", "what it is", "depends on"), found).rstrip()]
    return "\n".join(out) + "\n"


def layer_table():
    """The layers with the names of their crates."""
    layers = {}
    for crate in crates():
        layers.setdefault(crate.layer, []).append("`%s`" % crate.name)
    return table(("layer", "crates"), [[layer, " ".join(names)] for layer, names in layers.items()])


def wrong_bodies(name, folder="must-fail"):
    return glob.glob("crates/%s/%s/*.edit" % (name, folder))


def cost_rows():
    """Of each crate its name and three figures, as the file has them."""
    found = [(number, line.partition("#")[0].split()) for number, line in rows_of(COSTS)]
    for number, line in found:
        if len(line) != 4:
            raise Unknown("%s:%d: not a crate and three figures" % (COSTS, number))
    return {line[0]: line[1:] for _, line in found}


def cost_table():
    measured, names = cost_rows(), [it.name for it in crates()]
    for name in set(measured) - set(names):
        raise Unknown("%s: there is no crate %s" % (COSTS, name))
    figures = [["`%s`" % name] + [it.strip("-") for it in measured.get(name, ["not measured", "-", "-"])] + [str(len(wrong_bodies(name, it)) or "") for it in ("must-fail", "planted")] for name in names]
    heads = "crate", "proof, seconds", "proof with tests, seconds", "planted bugs, seconds", "planted bugs in the gate", "planted bugs outside of it"
    return table(heads, figures)


def mutants_text():
    """What `.ci/mutants` tries, and where it last refused all."""
    of_gate, others = (sum(len(wrong_bodies(it.name, folder)) for it in crates()) for folder in ("must-fail", "planted"))
    run = mutants_run.last()
    told = "`docs/mutants.txt` records no complete run of `.ci/mutants` yet." if run is None else (
        "In the last complete run all were refused. It was of commit `%s`, on %s, with %s planted bugs\nand %s changed definitions, and took %s minutes."
        % (run.commit, run.date, run.bugs, run.changes, run.minutes))
    return (
        "A *planted bug* is a body with one bug, which the check must refuse. The gate tries the %d in the\n"
        "folders `must-fail/` of the crates. `.ci/mutants` tries these and the %d in `planted/`.\n\n"
        "A *changed definition* is a wrong rule. If the code had the same mistake, its proof would succeed.\n"
        "So each has to be refused by a worked value, which is a computed lemma. `.ci/mutants` tries the %d\n"
        "of [changed_definitions.txt](changed_definitions.txt).\n\n%s\n"
        % (of_gate, others, len(changed_definitions.changes()), told))


def planted_table():
    """The rows of docs/planted.txt."""
    names, found = [it.name for it in crates()], []
    for number, line in rows_of("docs/planted.txt"):
        cells = [it.strip() for it in line.split("|")]
        if len(cells) != 7 or cells[0] not in names:
            raise Unknown("docs/planted.txt:%d: not a crate with six cells" % number)
        found.append(["`%s`" % cells[0]] + cells[1:])
    heads = "crate", "functions", "bodies refused", "bodies not tried", "bugs by hand", "refused", "what passed the proofs, and what catches it"
    return table(heads, found)


COSTS_SAY = """Processor seconds of `rt ci` for each crate. [gate_costs.txt](gate_costs.txt) says how they were
measured. `.ci/gate-costs [CRATE..]` measures them again, and prints lines for that file.

A crate with tests is proved twice. A crate with planted bugs is proved once more for them. If it has
one planted bug, that bug costs this proof. If it has two or more, they share this proof, and each of
them costs 10 to 40 seconds in addition.

If the checker searches for the answer of a goal for seconds, write the answer down. Split a function
that owns many values, since its cost grows faster than their number. A test that passes a table to a
helper costs 1 to 5 seconds, and a test with assertions of its own 10 to 30. An example in `examples/`
costs nothing here. Write a table of structs as a `static`. The cost of texts grows with their number
times their length.
"""

TRIED_SAYS = """`rt plant` makes bodies with bugs by itself, and tries them against the clauses of a function. The
table says in how many functions it did so, how many bodies were refused, and how many were not tried
because time ran out. Bugs *by hand* were put into the real code, one at a time. A bug that *means the
same* is none: the changed code does what the code did before.

A body that returns out of memory instead of doing its work passes every clause, since out of memory
may be returned at any time. So tests call each such function once with memory.
"""


def gate_page():
    return (
        "# The gate\n\nThe gate is `.ci/run`: `rt ci`, and the repository's own checks around it. This page says what `rt ci`\n"
        "costs, which planted bugs it tries, and which other bugs were tried. `.ci/make-documents` makes it from\n"
        "`docs/gate_costs.txt`, `docs/planted.txt`, `docs/mutants.txt` and the planted bugs on disk.\n\n"
        "## What it costs\n\n" + COSTS_SAY + "\n" + cost_table()
        + "\n## Planted bugs and changed definitions\n\n" + mutants_text()
        + "\n## Bugs that were tried\n\n" + TRIED_SAYS + "\n" + planted_table()
    )
