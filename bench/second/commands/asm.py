"""Random cases of `asm`."""
from cases import Case, put
from kinds import command, kind
from programs import any_program, labelled_program
from spelling import chance

command('asm', heads=[['asm', 'r']], flags=['--labels', '--lines'])


@kind('asm')
def case_of_asm(r):
    """`asm`, often of a faulty program; now and then the brain that comes of it is read again."""
    case = Case()
    case.words = ['asm', put(case, r, 'p', any_program(r, .55))]
    if chance(r, .3):
        case.further = [[r.choice(['brain', 'minimise']), 'printed']]
    return case


@kind('labels')
def case_of_labels(r):
    """`asm --labels`, and now and then the brain of the same program."""
    return case_of_listing(r, ['--labels'])


@kind('lines')
def case_of_lines(r):
    """`asm --lines`, often with `--labels`, and now and then the brain of the same program."""
    return case_of_listing(r, r.choice([['--lines'], ['--lines', '--labels'], ['--labels', '--lines']]))


def case_of_listing(r, options):
    """`asm` with these options, and now and then the brain of the same program."""
    case = Case()
    name = put(case, r, 'p', labelled_program(r))
    case.words = ['asm', name] + options
    if chance(r, .3):
        case.further = [['asm', name]]
    return case
