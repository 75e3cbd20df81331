"""Random texts of breaks."""
import collections

from spelling import LINE_BYTES, chance, faulty_lines, spelled, spelled_anyhow, with_other_bytes

KINDS = ['Round', 'State', 'Stand', 'Food', 'Killed', 'Score']
MOST = 4294967295
STATES = 12
WRONG_WORDS = [
    'Round', 'Red', 'Black', 'Green', 'red', 'KILLED', 'Jump', 'State', 'Stand', '\x80', '\x0b', '\x00', '\xe9', 'x',
    'Foodx', '\x7f', '1\x0c', ',',
]
# What a break may ask for; brains have about as many states as STATES.
Game = collections.namedtuple('Game', ['width', 'height', 'rounds', 'ants'])


def colour(r):
    """A colour."""
    return r.choice(['Red', 'Black'])


def column(r, game):
    """A column, seldom one outside."""
    width = game.width
    if chance(r, .2):
        return r.choice([r.randrange(width), r.randrange(width), r.randrange(width), width - 1, width, MOST])
    return r.randrange(width)


def row(r, game):
    """A row, seldom one outside."""
    height = game.height
    if chance(r, .2):
        return r.choice([r.randrange(height), height - 1, height, MOST])
    return r.randrange(height)


def state(r):
    """A state, seldom 0 or one that no brain of the game has."""
    if chance(r, .3):
        return r.choice([r.randrange(STATES), STATES, 9999, 10000, MOST, 65536])
    if chance(r, .15):
        return 0
    return r.randrange(1, STATES + 1)


def one_break(r, game):
    """A line of a text of breaks."""
    kind = r.choices(KINDS, [1, 3, 3, 3, 4, 3])[0]
    if kind == 'Round':
        rounds = game.rounds
        return 'Round %d' % r.choice([0, r.randint(2, rounds + 1), rounds, rounds, rounds + 1, MOST])
    if kind == 'State':
        return 'State %s %d' % (colour(r), state(r))
    if kind == 'Stand':
        return 'Stand %s %d %d' % (colour(r), column(r, game), row(r, game))
    if kind == 'Food':
        return 'Food %d %d %d' % (column(r, game), row(r, game), r.choice([0, 1, 2, 3, 4, 5, 8, 10, 12, MOST]))
    if kind == 'Killed':
        ants = game.ants
        return 'Killed %d' % r.choice([0, r.randrange(ants), r.randrange(ants), ants - 1, ants, MOST])
    return 'Score %s %d' % (colour(r), r.choice([0, 1, 2, 3, 4, 6, 9, 12, 20, MOST]))


def late_break(r, game):
    """A line of a text of breaks that may begin to hold late in a crowded game, and most often goes on to hold."""
    x, y = r.randrange(1, game.width - 1), r.randrange(1, game.height - 1)
    return r.choice([
        'Killed %d' % r.randrange(game.ants), 'Killed %d' % r.randrange(game.ants),
        'Score %s %d' % (colour(r), r.randint(1, 6)), 'Food %d %d %d' % (x, y, r.randint(1, 9)),
        'Stand %s %d %d' % (colour(r), x, y), 'State %s %d' % (colour(r), r.randint(0, 4)),
        'Round %d' % r.randint(1, game.rounds),
    ])


def break_lines(r, game):
    """A few breaks, or about as many as there may be."""
    if chance(r, .96):
        count = r.choice([1, 1, 2, 3, 4, 6, 10])
        return [one_break(r, game) for _ in range(count)]
    count = r.choice([255, 256, 257, 258])
    return ['Round %d' % r.choice([MOST, 1000, 7])] * count


def break_text(r, faults, game):
    """A text of breaks, or with the probability `faults` a faulty one."""
    if chance(r, .03):
        return r.choice([b'', b'\n', b';\xff', b' \t\r\n;x\n'])
    lines = break_lines(r, game)
    if not chance(r, faults):
        return spelled(r, lines)
    if chance(r, .7):
        return spelled_anyhow(r, faulty_lines(r, lines, WRONG_WORDS))
    return with_other_bytes(r, spelled(r, lines), LINE_BYTES)
