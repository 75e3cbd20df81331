"""Random cases of `resume`."""
from cases import DUMP, ROUNDS, WORKERS, Case, dump_word, put, shuffled, some, some_workers
from kinds import command, kind
from saves import any_save, faulty_save
from spelling import chance

command('resume', heads=[['resume', 's']], flags=['--stats'], limits={'--rounds': ROUNDS, **DUMP, **WORKERS})


def resume_options(r, rounds):
    """The options of `resume`, up to a round."""
    near = ','.join(map(str, [rounds, max(0, rounds - 1), max(0, rounds - r.randint(0, 5)), r.randint(0, 5)]))
    options = some(r, '--dump', .7, [dump_word(r, rounds), near]) + some(r, '--stats', .7) + some_workers(r)
    return shuffled(r, options + [['--rounds', str(rounds)]])


@kind('resume')
def case_of_resume(r):
    """`resume` of a save that was made up, often of a faulty one."""
    case = Case()
    save = any_save(r)
    rounds = min(1000000, max(0, save.round + r.choice([0, 1, 1, 2, 5, r.randint(0, 30), -1])))
    text = save.text() if chance(r, .45) else faulty_save(r, save)
    name = put(case, r, 's', text, .01)
    case.words = ['resume', name] + resume_options(r, rounds)
    if 'all' in case.words and len(save.rows) * save.width > 200:
        case.words[case.words.index('all')] = case.words[case.words.index('--rounds') + 1]
    return case
