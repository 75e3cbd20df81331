"""Random cases of `minimise`."""
from brains import any_brain, merging_brain
from cases import Case, put
from kinds import command, kind
from spelling import chance

command('minimise', heads=[['minimise', 'r']], flags=['--states'])


@kind('minimise')
def case_of_minimise(r):
    """`minimise`, seldom of a faulty brain."""
    case = Case()
    case.words = ['minimise', put(case, r, 'b', any_brain(r, .1))]
    return case


@kind('states')
def case_of_states(r):
    """`minimise --states`, and most often what `minimise` prints of the same brain."""
    case = Case()
    name = put(case, r, 'b', merging_brain(r))
    case.words = ['minimise', name, '--states']
    if chance(r, .6):
        case.further = [['minimise', name]]
    return case
