"""Random cases of `same`."""
from brains import any_brain, brain_lines, chained, instruction, moved
from cases import Case, put
from kinds import command, kind
from spelling import chance, spelled

command('same', heads=[['same', 'r', 'b']], flags=['--way'])


@kind('same')
def case_of_same(r):
    """`same` of two brains: of one and of what it becomes, of two that differ in a line, or of any two."""
    case = Case()
    lines = brain_lines(r)
    way = r.random()
    other = list(lines)
    if way < .3:
        other = moved(r, lines)
    elif way < .7:
        other = moved(r, lines) if chance(r, .5) else other
        other[r.randrange(len(other))] = instruction(r, len(other))
    elif way < .9:
        other = brain_lines(r)
    texts = [spelled(r, lines), spelled(r, other)] if chance(r, .97) else [any_brain(r, .5), any_brain(r, .5)]
    case.words = ['same'] + [put(case, r, name, text, .01) for name, text in zip('rb', texts)]
    case.words += ['--way'] if chance(r, .6) else []
    return case


@kind('way')
def case_of_way(r):
    """`same --way` of two brains that differ in one state, most often a late one, or in their lengths."""
    count = r.choice([2, 3, 5, 8, 13, 30, 60])
    lines = chained(r, [instruction(r, count) for _ in range(count)])
    other = list(lines)
    if chance(r, .8):
        place = r.choice([count - 1, count - 1, count // 2, r.randrange(count)])
        other[place] = instruction(r, count)
    else:
        other = chained(r, other + [instruction(r, count) for _ in range(r.randint(1, 3))])
    if chance(r, .4):
        other = moved(r, other)
    case = Case()
    case.words = ['same'] + [put(case, r, name, spelled(r, it), .01) for name, it in zip('rb', (lines, other))]
    case.words += ['--way']
    return case
