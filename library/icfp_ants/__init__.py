"""The ant world of the ICFP Programming Contest 2004: games, brains and worlds as texts in memory, by the proved library libants.so.

    import icfp_ants
    world, brain = open("contest.world").read(), open("sample.brain").read()
    red, black = icfp_ants.score(world, brain, brain, seed=12345, rounds=1000)

Each command of the program except `help`, `--help` and `--version` is a function, with its options as keywords. `--dump` is `dumps`, and `--from` is `start`.
`--labels`, `--lines`, `--way` and `--states` are functions of these names. `--workers` and `--far` are left out, since they change nothing that is printed.
`call` takes the words of any command. A function returns what its command prints as str. If that is lines, as for `trace`, `labels` or `cup`, it returns
named tuples, and their `text` is what the program prints. `score_of`, `counts_of` and `cells` read the texts of games. `look` returns scores and ants without
a text, and `look_buffer` returns them in one buffer. `scores` and `scores_of_pairs` play many games in a call.

docs/RULES.md and docs/COMMANDS.md of the project say what is printed, and what the numbers mean. Ids, columns, rows and states count from 0, rounds and
lines from 1. Seeds are 0 to 4,294,967,295, rounds 0 to 1,000,000, workers 1 to 256. `surround` is how many foes surround an ant, 4 to 6; `corpse` how much
food a killed one leaves, 0 to 9; `rest` how many turns one rests after a step, 0 to 255; `window`, 1 to 16,384 turns, is for the counts. A cup has
1 to 1,000 `seeds`.

A text is str or bytes. A file's name as str is read as a text, and refused. Anything else, such as a Path, is a TypeError. A refused text raises `Refused`,
with the program's words and the error in numbers. A number beyond its limits raises ValueError, and MemoryError is raised if memory runs out. A stranger's
input may decide how long a text gets, such as the labels of a program. So `call`, `run` and `resume` raise ValueError if it has more than `most` bytes,
256 MiB unless you say otherwise. For `labels`, `lines`, `events`, `acts` and `trace`, whose lists take some 20 times as much, `most` is 64 MiB.

Any threads may call at once: while a call runs, other threads of Python run too. Make no call in a forked child of a process with threads: let
`multiprocessing` start its processes by "spawn".

The library is the file that the variable ANTS_LIBRARY names. Otherwise it is libants.so in this package, in the folder of the package, in a folder `lib`
beside it or around it, or in that of Python, or the one that the system finds. If it isn't there, or is of another version than this package, each call is
an ImportError.
"""
from ._brains import Difference, asm, brain, difference, gen, minimise, same
from ._calling import Called, call
from ._commands import acts, cup, events, labels, lines, profile, show, states, trace, view, way, workload
from ._declared import VERSION as __version__
from ._declared import Kind
from ._games import Counts, Score, advance, counts_of, resume, run, save, score, score_of, scores, scores_of_pairs
from ._library import Fault, Refused
from ._looks import ANT_FIELDS, Look, LookBuffer, look, look_buffer
from ._printed import (
    Act, Ant, Carried, Cell, Colour, Cup, Death, Event, Executed, Label, Line, Played, Printed, Renumbered, Standing, Step, Stop, Traced, Use, Workload, cells,
)

__all__ = [
    "ANT_FIELDS", "Act", "Ant", "Called", "Carried", "Cell", "Colour", "Counts", "Cup", "Death", "Difference", "Event", "Executed", "Fault", "Kind", "Label",
    "Line", "Look", "LookBuffer", "Played", "Printed", "Refused", "Renumbered", "Score", "Standing", "Step", "Stop", "Traced", "Use", "Workload",
    "__version__", "acts", "advance", "asm", "brain", "call", "cells", "counts_of", "cup", "difference", "events", "gen", "labels", "lines", "look",
    "look_buffer", "minimise", "profile", "resume", "run", "same", "save", "score", "score_of", "scores", "scores_of_pairs", "show", "states", "trace", "view", "way", "workload",
]
