"""Random cases of `gen`."""
from cases import SEEDS, Case, seed_word, shuffled
from kinds import command, kind
from spelling import chance

command('gen', heads=[['gen', '1']], places={1: SEEDS}, limits={
    '--width': ['2', '3', '13', '14', '512', '513', '0'],
    '--height': ['2', '3', '14', '15', '512', '513', '0'],
    '--rocks': ['0', '255', '256'],
    '--blobs': ['0', '255', '256'],
})


def side_of_world(r):
    """A width or height for a generated world of few elements."""
    if chance(r, .4):
        sides = [r.randint(28, 80), r.randint(28, 45), r.randint(28, 45), r.randint(14, 32), r.randint(3, 20)]
        return str(r.choice(sides))
    return str(r.randint(30, 70))


def number_of_elements(r, few):
    """A number of rocks or blobs."""
    if chance(r, .5):
        return str(r.choice([0, 1, r.randint(0, 3), r.randint(0, few), r.randint(0, 15), 255]))
    return str(r.randint(0, 3))


def gen_options(r):
    """The options of `gen`: most often a small world, in which places are scarce."""
    way = r.random()
    if way < .8:
        options = [['--width', side_of_world(r)], ['--height', side_of_world(r)]]
        if chance(r, .9):
            options.append(['--rocks', number_of_elements(r, 3)])
        if chance(r, .9):
            options.append(['--blobs', number_of_elements(r, 6)])
        return options
    if way < .9:
        width = str(r.choice([3, 14, 15, 60, 100, 150, 200]))
        return [['--width', width], ['--rocks', str(r.randint(0, 40))]]
    if way < .97:
        return []
    width, height = str(r.choice([512, 300, 511])), str(r.choice([512, 300, 511]))
    rocks, blobs = str(r.randint(0, 255)), str(r.randint(0, 255))
    return [['--width', width], ['--height', height], ['--rocks', rocks], ['--blobs', blobs]]


@kind('gen', most=1500)
def case_of_gen(r):
    """`gen` with all its options."""
    options = gen_options(r)
    seed = seed_word(r)
    return Case(['gen', seed] + shuffled(r, options))
