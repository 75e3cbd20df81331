"""Worlds, brains and options of crowded games, and cases of commands that play such games."""
from brains import fighting_lines
from cases import Case, number_of_ants, put_game, rounds_of_run, seed_and_rounds, shuffled, some_sheet
from spelling import chance, spelled
from worlds import grid, world_text

TAKERS = [
    ['Move 1 1', 'PickUp 2 2', 'Drop 1'],
    ['PickUp 1 1', 'Drop 2', 'Flip 4 3 0', 'Move 0 0'],
    ['Move 1 2', 'PickUp 2 0', 'Drop 3', 'PickUp 4 4', 'Drop 3'],
    ['PickUp 1 2', 'Drop 0', 'Move 0 3', 'Turn Right 0'],
    ['PickUp 1 1', 'Move 0 2', 'Flip 2 3 4', 'Turn Left 0', 'Turn Right 1'],
]
WALKERS = [
    ['Move 0 1', 'Flip 2 2 3', 'Turn Left 0', 'Turn Right 0'],
    ['Flip 2 1 2', 'Move 0 2', 'Turn Left 0'],
    ['Flip 1 1 0', 'Move 1 2', 'Flip 2 3 4', 'Turn Left 0', 'Turn Right 0'],
    ['Sense Ahead 1 2 Foe', 'Turn Left 0', 'Move 0 3', 'Flip 3 1 4', 'Turn Right 0'],
]


def crowded_rows(r):
    """The rows of a world with many ants and much food."""
    width, height = r.randint(5, 12), r.randint(5, 12)
    red = r.choice([.25, .3, .35, .4, .45, .45, .45])
    black = red * r.choice([1, 1, 1, 1, .6, .2])
    rows = [['#'] * width for _ in range(height)]
    for y in range(1, height - 1):
        for x in range(1, width - 1):
            rows[y][x] = crowded_cell(r, red, black)
    return rows


def crowded_cell(r, red, black):
    """A cell of a crowded world."""
    kind = r.random()
    if kind < red:
        cell = '+'
    elif kind < red + black:
        cell = '-'
    elif kind > .97:
        cell = '#'
    else:
        cell = '.' if chance(r, .3) else str(r.randint(1, 9))
    if chance(r, .5) and cell in '+-' and red == black:
        return r.choice('+-')
    return cell


def put_fight(case, r, lively=.35):
    """Makes a crowded world and two brains files of the case, and tells their names.

    With the probability `lively` the brains are of TAKERS and WALKERS.
    """
    case.files['w'] = world_text(r, crowded_rows(r), False)
    is_lively = chance(r, lively)
    for name in 'rb':
        case.files[name] = spelled(r, r.choice(TAKERS + WALKERS) if is_lively else fighting_lines(r), 0)
    return ['w', 'r', 'b']


def fighting_rounds(r):
    """A number of rounds in which much happens."""
    return str(r.choice([r.randint(1, 10), r.randint(5, 40), r.randint(20, 80), r.randint(30, 120)]))


def quick_options(r, rounds):
    """Options for a game that goes quickly: short rests, and few foes that surround."""
    options = [['--seed', str(r.randrange(2**32))], ['--rounds', rounds]]
    options.append(['--rest', str(r.choice([0, 0, 0, 0, 1, 2, 14]))])
    options.append(['--surround', str(r.choice([4, 4, 4, 4, 5, 6]))])
    options.append(['--corpse', str(r.choice([0, 1, 3, 9]))])
    return options


def case_of_game(r, word, crowded, more):
    """A case of a command that plays a game by some sheet; with this probability its world is crowded.

    `more` makes its further options from the number of rounds and the number of ants that begin.
    """
    case = Case()
    if chance(r, crowded):
        rounds = fighting_rounds(r)
        files, options = put_fight(case, r, .8), quick_options(r, rounds)
        ants = number_of_ants(case.files['w'].decode())
    else:
        rows = grid(r)
        rounds = rounds_of_run(r, rows)
        files, ants = put_game(case, r, rows, .03), number_of_ants(rows)
        options = seed_and_rounds(r, rounds) + some_sheet(r, [0, 0, 0, 1, 2, 14, 255], .6)
    case.words = [word] + files + shuffled(r, options + more(int(rounds), ants))
    return case
