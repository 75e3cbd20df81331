"""Random cases of `brain`."""
from brains import any_brain
from cases import Case, put
from kinds import command, kind

command('brain', heads=[['brain', 'r']])


@kind('brain')
def case_of_brain(r):
    """`brain`, often of a faulty one."""
    case = Case()
    case.words = ['brain', put(case, r, 'b', any_brain(r, .65))]
    return case
