"""Random cases of `save`, most of which `resume` goes on."""
from cases import (
    SEED_AND_ROUNDS, SHEET, WINDOW, WORKERS, Case, put_game, rounds_of_run, seed_and_rounds, shuffled, some, some_sheet, some_workers,
)
from commands.resume import resume_options
from kinds import command, kind
from spelling import chance
from worlds import grid

command('save', heads=[['save', 'w', 'r', 'b']], limits={**SEED_AND_ROUNDS, **SHEET, **WORKERS, **WINDOW})


def save_options(r, rounds):
    """The options of `save`."""
    options = seed_and_rounds(r, rounds) + some_sheet(r, [0, 0, 0, 1, 2, 3, 14, 255], .6)
    options += some(r, '--window', .7, [1, r.randint(1, 20), r.randint(5, 30), 16384])
    return shuffled(r, options + some_workers(r))


@kind('save')
def case_of_save(r):
    """`save`, and most often the game goes on."""
    case = Case()
    rows = grid(r)
    files = put_game(case, r, rows, .03)
    rounds = min(rounds_of_run(r, rows), 120)
    case.words = ['save'] + files + save_options(r, rounds)
    if chance(r, .8):
        later = rounds + r.choice([0, 1, 2, r.randint(0, 40), -1])
        case.further = [['resume', 'printed'] + resume_options(r, max(0, later))]
    return case
