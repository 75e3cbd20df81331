"""Random cases of `trace`."""
from cases import (
    FROM, IDS, SEED_AND_ROUNDS, SHEET, Case, any_id, number_of_ants, put_game, rounds_of_run, seed_and_rounds,
    shuffled, some_from, some_sheet,
)
from kinds import command, kind
from worlds import grid

command('trace', heads=[['trace', 'w', 'r', 'b', '1']], places={4: IDS}, limits={**SEED_AND_ROUNDS, **SHEET, **FROM})


@kind('trace')
def case_of_trace(r):
    """`trace` of an ant that is there, or of none."""
    case = Case()
    rows = grid(r)
    files = put_game(case, r, rows, .02)
    rounds = rounds_of_run(r, rows)
    ant = any_id(r, number_of_ants(rows))
    options = seed_and_rounds(r, rounds) + some_sheet(r, [0, 0, 1, 2, 14, 255])
    options += some_from(r, rounds)
    case.words = ['trace'] + files + [ant] + shuffled(r, options)
    return case
