"""Random cases of `advance`."""
from brains import brain_lines
from cases import ROUNDS, WORKERS, Case, put, put_game, rounds_of_run, shuffled, some_workers
from commands.resume import resume_options
from commands.save import save_options
from fights import fighting_rounds, put_fight, quick_options
from kinds import command, kind
from saves import any_save, faulty_save
from spelling import chance
from worlds import grid

command('advance', heads=[['advance', 's']], limits={'--rounds': ROUNDS, **WORKERS})


def later(r, rounds):
    """A round at which a game that is at this one may be saved again, seldom one below it."""
    more = -1 if chance(r, .04) else r.choice([0, 1, 1, 2, 5, r.randint(0, 40)])
    return min(1000000, max(0, rounds + more))


def advance_options(r, rounds):
    """The options of `advance`, up to a round."""
    return shuffled(r, some_workers(r) + [['--rounds', str(rounds)]])


def chain(r, rounds):
    """Commands that go on with a printed save of this round: they save it again, and may play it to its end."""
    further = []
    for _ in range(r.choice([1, 1, 2, 3])):
        rounds = later(r, rounds)
        further.append(['advance', 'printed'] + advance_options(r, rounds))
    if chance(r, .5):
        further.append(['resume', 'printed'] + resume_options(r, later(r, rounds)))
    return further


@kind('chain')
def case_of_chain(r):
    """A game that is saved, goes on and is saved again, and so on."""
    case = Case()
    if chance(r, .5):
        rounds = fighting_rounds(r)
        files, options = put_fight(case, r), shuffled(r, quick_options(r, rounds))
    else:
        rows = grid(r)
        rounds = min(rounds_of_run(r, rows), 120)
        files, options = put_game(case, r, rows, .02), save_options(r, rounds)
    case.words = ['save'] + files + options
    case.further = chain(r, int(rounds))
    if chance(r, .3):  # brains that the ants' states most often fit
        case.brains = {colour: brain_lines(r) + ['Drop 0'] * r.choice([0, 60]) for colour in ('red', 'black')}
    return case


@kind('advance')
def case_of_advance(r):
    """`advance` of a save that was made up, often of a faulty one; it may go on."""
    case = Case()
    save = any_save(r)
    rounds = later(r, save.round)
    name = put(case, r, 's', save.text() if chance(r, .55) else faulty_save(r, save), .01)
    case.words = ['advance', name] + advance_options(r, rounds)
    if chance(r, .3):
        case.further = chain(r, rounds)
    return case
