"""Random cases of `view`."""
from breaks import Game, break_text, late_break
from cases import FROM, SEED_AND_ROUNDS, Case, number_of_ants, put, put_game, seed_and_rounds, shuffled, some_from
from fights import put_fight
from kinds import command, kind
from spelling import chance, spelled
from worlds import grid

command('view', heads=[['view', 'w', 'r', 'b', 'k']], limits={**SEED_AND_ROUNDS, **FROM})


@kind('view')
def case_of_view(r):
    """`view` with breaks that fit the world."""
    case = Case()
    rows = grid(r)
    height, width = len(rows), len(rows[0])
    ants = max(1, number_of_ants(rows))
    rounds = r.choice([0, 1, r.randint(2, 40), r.randint(5, 40), r.randint(5, 40), r.randint(40, 120)])
    files = put_game(case, r, rows, .02)
    breaks = put(case, r, 'k', break_text(r, .12, Game(width, height, max(1, rounds), ants)), .01)
    options = seed_and_rounds(r, rounds) + some_from(r, rounds, .3)
    case.words = ['view'] + files + [breaks] + shuffled(r, options)
    return case


@kind('later')
def case_of_later(r):
    """`view --from` of a crowded game, where breaks held before that round, hold then, or hold later."""
    case = Case()
    files = put_fight(case, r, .8)
    width, height, *rows = case.files['w'].decode().split('\n')
    rounds = r.choice([r.randint(1, 20), r.randint(15, 60), r.randint(30, 200)])
    game = Game(int(width), int(height), rounds, max(1, number_of_ants(rows)))
    case.files['k'] = spelled(r, [late_break(r, game) for _ in range(r.choice([1, 1, 1, 2, 3]))])
    options = seed_and_rounds(r, rounds)
    options += [['--from', str(r.randint(1, rounds))]] if chance(r, .7) else some_from(r, rounds)
    case.words = ['view'] + files + ['k'] + shuffled(r, options)
    return case
