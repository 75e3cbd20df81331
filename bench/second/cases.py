"""Random cases: the words of a command, its files and its standard input."""
from brains import any_brain
from spelling import chance
from worlds import faulty_world, world_text

# Words near the limits of numbers that several commands take.
SEEDS = ['0', '4294967295', '4294967296', '9999999999']
ROUNDS = ['0', '1', '1000001', '1000002', '9999999999']
SEED_AND_ROUNDS = {'--seed': SEEDS, '--rounds': ROUNDS}
SHEET = {
    '--surround': ['3', '4', '5', '6', '7', '0', '10'],
    '--corpse': ['0', '9', '10', '8'],
    '--rest': ['0', '255', '256', '254'],
}
IDS = ['0', '1', '2', '3', '16383', '16384', '9999999999']
WORKERS = {'--workers': ['0', '1', '16', '17', '15']}
FROM = {'--from': ['0', '1', '1000000', '1000001', '9999999999']}
WINDOW = {'--window': ['0', '1', '16384', '16385', '16383']}
DUMP = {'--dump': [
    'none', 'all', 'None', 'ALL', '0', '1,2', '1,,2', '1,2,', ',1', ',', '', '1000000', '1000001', '00000000001',
    '0000000001', '1-3', '1, 2', '-1', 'none,1', '1,none', 'all,', '1000000,1000000', '0000000000,1', '+1', ' 1',
    '1\n', '１',
]}


class Case:
    """What a program is started with. A case is run in a folder with the files and an empty folder `sub`.

    The commands of `further` are run one after another behind the first one, as long as each ends with status 0. What
    each printed is for the next one the file `printed`; where that is a save, `brains` has other brains for it.
    """

    def __init__(self, words=(), files=None, stdin=b''):
        self.words = list(words)
        self.further = []
        self.brains = {}
        self.files = dict(files or {})
        self.stdin = stdin
        self.is_full = False  # whether standard output takes nothing


def file_name(r, base):
    """A name, now and then an odd one."""
    return r.choice([base] * 12 + ['./' + base, base + ' x', 'é' + base, '-' + base, './--' + base, 'sub/' + base])


def put(case, r, base, text, missing=.02):
    """Makes the text a file of the case or its standard input, and tells its name; seldom no file."""
    kind = r.random()
    if kind < .08:
        case.stdin = text
        return '-'
    name = file_name(r, base)
    if kind < .08 + missing:
        return r.choice(['nofile', 'sub', '/nofile/x', 'sub/nofile', base + '/x'])
    case.files[name] = text
    return name


def put_game(case, r, rows, faults):
    """Makes a world and two brains, each at fault with this probability, files of the case, and tells their names."""
    world = put(case, r, 'w', world_text(r, rows) if chance(r, 1 - faults) else faulty_world(r), .01)
    red = put(case, r, 'r', any_brain(r, faults), .01)
    black = red if chance(r, .2) else put(case, r, 'b', any_brain(r, faults), .01)
    return [world, red, black]


def seed_word(r):
    """A seed."""
    any_seed = str(r.randrange(2**32))
    with_zeros = '0' * r.randint(1, 3) + str(r.randrange(1000))
    return r.choice(['0', '1', '12345', '7', '4294967295', '1073754169', '77881', any_seed, with_zeros])


def dump_word(r, rounds):
    """After which rounds the world is dumped."""
    kind = r.random()
    if kind < .15:
        return 'none'
    if kind < .4:
        return 'all'
    numbers = []
    for _ in range(r.randint(1, 5)):
        if chance(r, .4):
            numbers.append(r.choice([0, rounds, rounds + 1, r.randint(0, max(1, rounds)), 1000000]))
        else:
            numbers.append(r.randint(0, max(1, rounds)))
    return ','.join(('0' * r.randint(0, 2) if chance(r, .2) else '') + str(number) for number in numbers)


def shuffled(r, options):
    """The words of the options, in some order of these."""
    options = list(options)
    r.shuffle(options)
    return [word for option in options for word in option]


def seed_and_rounds(r, rounds):
    """The two options that every game needs."""
    seed = seed_word(r)
    zeros = '0' * r.randint(0, 2) if chance(r, .1) else ''
    return [['--seed', seed], ['--rounds', zeros + str(rounds)]]


def some(r, option, probability, values=None):
    """The option with one of the values, or alone where it has none; not at all but with this probability."""
    if not chance(r, probability):
        return []
    return [[option] if values is None else [option, str(r.choice(values))]]


def some_workers(r, probability=.4):
    """The option for some number of workers, with this probability."""
    return some(r, '--workers', probability, range(1, 17))


def some_sheet(r, rests, probability=.3):
    """The options of the sheet of rules, the last one with this probability."""
    surround, corpse = some(r, '--surround', .3, range(4, 7)), some(r, '--corpse', .3, range(10))
    return surround + corpse + some(r, '--rest', probability, rests)


def some_from(r, rounds, probability=.4):
    """The option for the first round that counts, near these rounds or before them, with this probability."""
    return some(r, '--from', probability, [0, 1, max(0, rounds - 1), rounds, rounds + 1, 1000000] +
                [r.randint(0, rounds) for _ in range(6)])


def rounds_of_run(r, rows):
    """A number of rounds, small on a large world."""
    few = [0, 1, 2, 5, r.randint(3, 12)]
    more = [r.randint(10, 40), r.randint(10, 40), r.randint(10, 60), r.randint(40, 120), r.choice([300, 600])]
    rounds = r.choice(few + more)
    if len(rows) * len(rows[0]) > 200:
        return min(rounds, 60)
    return rounds


def number_of_ants(rows):
    """How many ants a world begins with."""
    return sum(cell in '+-' for row in rows for cell in row)


def any_id(r, ants):
    """The word for an ant's id, where so many ants begin; seldom an id that none has."""
    return str(r.choice([0, ants, 16383] + [r.randrange(max(1, ants)) for _ in range(9)]))
