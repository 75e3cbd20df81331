"""Random cases of `cup`."""
from brains import any_brain, fighting_lines
from cases import SEED_AND_ROUNDS, WORKERS, Case, put, seed_and_rounds, shuffled, some, some_workers
from fights import TAKERS, WALKERS, crowded_rows
from kinds import command, kind
from spelling import chance, spelled
from worlds import faulty_world, grid, world_text

command('cup', flags=['--games', '--leads', '--gauntlet'], limits={
    **SEED_AND_ROUNDS, **WORKERS, '--seeds': ['0', '1', '2', '999', '1000', '1001', '9999999999'],
}, heads=[
    ['cup', '--worlds', 'w', '--brains', 'r', 'b'],
    ['cup', '--worlds', 'w', 'v', '--brains', 'r', 'b', 'a'],
])
NUMBER_OF_SEEDS = 2**32
FEW = [1, 2, 2, 3, 4, 7]  # seeds of a cup
MANY = [0, 10, 17, 100, 255, 256, 257, 999, 1000, 1001]
SMALL_WORLDS = [
    b'3\n3\n###\n#+#\n###\n', b'4\n4\n####\n#+3#\n#-.#\n####\n',
    b'7\n6\n#######\n#.....#\n#..-#.#\n#-.+-##\n#+.--##\n#######\n',  # an ant dies if another one steps
]
MAY_STEP = ['Flip 2 1 2', 'Move 1 1', 'Drop 2']


def cup_options(r, rounds, seeds, probability):
    """The options of a cup but `--games` and `--gauntlet`.

    With this probability it has one of these numbers of seeds; then 0 often follows the last seed that there is.
    """
    options = seed_and_rounds(r, rounds) + some(r, '--leads', .5) + some_workers(r)
    if chance(r, probability):
        number = r.choice(seeds)
        options.append(['--seeds', r.choice(['%d', '%d', '00%d']) % number])
        if chance(r, .5):
            options[0] = ['--seed', str(NUMBER_OF_SEEDS - r.randint(1, max(1, number)))]
    return options


@kind('cup')
def case_of_cup(r, further_options=()):
    """`cup` of a few brains on a few worlds, with these options and the usual ones."""
    case = Case()
    world_count = r.choice([1, 1, 1, 2, 3])
    brain_count = r.choice([2, 2, 3, 4])
    worlds = []
    for number in range(world_count):
        text = world_text(r, grid(r)) if chance(r, .985) else faulty_world(r)
        worlds.append(put(case, r, 'w%d' % number, text, .005))
    if chance(r, .1):
        worlds.append(r.choice(worlds))
    brains = [put(case, r, 'b%d' % number, any_brain(r, .015), .005) for number in range(brain_count)]
    if chance(r, .03):
        brains.append(r.choice(brains))
    rounds = r.choice([0, 1, 2, 5, r.randint(0, 40), r.randint(0, 120)])
    options = cup_options(r, rounds, FEW, .4) + some(r, '--gauntlet', .2) + list(further_options)
    case.words = ['cup', '--worlds'] + worlds + ['--brains'] + brains + shuffled(r, options)
    return case


def fighting_cup(r, brain_counts, further_options):
    """`cup` with crowded worlds, of whose games many have points, and with these options and the usual ones."""
    case = Case()
    worlds = ['w%d' % number for number in range(r.choice([1, 1, 2, 3]))]
    brains = ['b%d' % number for number in range(r.choice(brain_counts))]
    for name in worlds:
        case.files[name] = world_text(r, crowded_rows(r), False)
    for name in brains:
        lines = r.choice(TAKERS + WALKERS) if chance(r, .3) else fighting_lines(r)
        case.files[name] = spelled(r, lines, 0)
    if chance(r, .1):
        worlds.append(r.choice(worlds))
    options = cup_options(r, r.randint(1, 400), FEW, .4) + further_options
    case.words = ['cup', '--worlds'] + worlds + ['--brains'] + brains + shuffled(r, options)
    return case


@kind('games')
def case_of_games(r):
    """`cup --games`."""
    if chance(r, .6):
        return fighting_cup(r, [2, 3, 3, 4], [['--games']] + some(r, '--gauntlet', .2))
    return case_of_cup(r, [['--games']])


@kind('gauntlet')
def case_of_gauntlet(r):
    """`cup --gauntlet` of three brains or more, seldom of two."""
    return fighting_cup(r, [2, 3, 3, 3, 4, 5], [['--gauntlet']] + some(r, '--games', .6))


@kind('seeds')
def case_of_seeds(r):
    """`cup --seeds` with very many seeds, few rounds and a small world."""
    case = Case()
    case.files['w'] = r.choice(SMALL_WORLDS)
    brains = ['b%d' % number for number in range(r.choice([2, 2, 3]))]
    for name in brains:
        case.files[name] = spelled(r, MAY_STEP if chance(r, .5) else fighting_lines(r), 0)
    options = cup_options(r, r.randint(0, 6), MANY, .95)
    options += some(r, '--games', .5) + some(r, '--gauntlet', .3)
    case.words = ['cup', '--worlds', 'w', '--brains'] + brains + shuffled(r, options)
    return case
