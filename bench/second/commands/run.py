"""Random cases of `run`."""
from cases import (
    DUMP, SEED_AND_ROUNDS, SHEET, WINDOW, WORKERS, Case, dump_word, put_game, rounds_of_run, seed_and_rounds, shuffled,
    some, some_sheet, some_workers,
)
from fights import fighting_rounds, put_fight, quick_options
from kinds import command, kind
from worlds import grid

command('run', heads=[['run', 'w', 'r', 'b']], flags=['--stats', '--far'],
        limits={**SEED_AND_ROUNDS, **SHEET, **DUMP, **WORKERS, **WINDOW})


def run_options(r, rounds):
    """The options of `run`."""
    options = seed_and_rounds(r, rounds) + some(r, '--dump', .8, [dump_word(r, rounds)])
    options += some_sheet(r, [0, 0, 0, 1, 1, 2, 3, 14, 255, r.randrange(256)], .55) + some(r, '--stats', .8)
    windows = [r.randint(1, 20), r.randint(2, 20), r.randint(5, 20), 16384, r.randint(10, 30)]
    options += some(r, '--window', .8, windows) + some_workers(r) + some(r, '--far', .2)
    return shuffled(r, options)


@kind('run', share=2)
def case_of_run(r):
    """`run` with all its options."""
    case = Case()
    rows = grid(r)
    files = put_game(case, r, rows, .03)
    rounds = rounds_of_run(r, rows)
    case.words = ['run'] + files + run_options(r, rounds)
    if 'all' in case.words and rounds * len(rows) * len(rows[0]) > 8000:
        case.words[case.words.index('all')] = str(rounds)
    return case


def fight_options(r):
    """Options for a game that goes quickly, with counts."""
    rounds = fighting_rounds(r)
    options = quick_options(r, rounds) + [['--dump', rounds], ['--stats']]
    options.append(['--window', str(r.choice([16384, r.randint(2, 20), r.randint(10, 40)]))])
    return shuffled(r, options + some_workers(r, .3) + some(r, '--far', .2))


@kind('fight', share=0)
def case_of_fight(r):
    """A crowded game with counts: looks that fail for each part that a turn may read."""
    case = Case()
    case.words = ['run'] + put_fight(case, r) + fight_options(r)
    return case
