"""Random cases of `show`."""
from cases import SEEDS, Case, put, seed_word
from kinds import command, kind
from worlds import any_world

command('show', heads=[['show', 'w', '1']], places={2: SEEDS})


@kind('show')
def case_of_show(r):
    """`show` of a world, often a faulty one."""
    case = Case()
    case.words = ['show', put(case, r, 'w', any_world(r, .55)), seed_word(r)]
    return case
