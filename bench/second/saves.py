"""Random texts of saved games. They are states of games, if not of games that anybody played."""
import re

from brains import brain_lines
from spelling import LINE_BYTES, NUMBERS, chance, with_other_bytes, with_other_lines
from worlds import grid

MOST_FOOD_IN_A_BYTE = 62
MOST_WEIGHT = 2340900
WEIGHT_OF_ANT = 9
HILLS = '+-'


class Ant:
    """A living ant."""

    def __init__(self, number, colour, place, words):
        self.number = number
        self.colour = colour
        self.place = place
        self.direction, self.laden, self.state, self.resting = words

    def line(self):
        """Its line."""
        numbers = (self.direction, self.laden, self.state, self.resting)
        return 'ant %d %s %d %d %d %d %d %d' % ((self.number, self.colour) + self.place + numbers)


class Save:
    """What the lines of a save say."""

    def __init__(self, rows):
        self.rows = rows
        self.height, self.width = len(rows), len(rows[0])
        self.seed, self.sheet, self.window, self.round, self.place = 0, (5, 3, 14), 16384, 0, 0
        self.taken, self.redone = 0, 0
        self.brains = {'red': ['Drop 0'], 'black': ['Drop 0']}
        self.marks = {'red': self.blank(), 'black': self.blank()}
        self.food = self.blank()
        self.ants = []

    def blank(self):
        """A number for each cell."""
        return [[0] * self.width for _ in range(self.height)]

    def places(self, signs):
        """The places of the cells of these signs, row by row."""
        return [(x, y) for y in range(self.height) for x in range(self.width) if self.rows[y][x] in signs]

    def hill_cells(self):
        """How many ants began."""
        return len(self.places(HILLS))

    def weight(self):
        """What the food and the ants weigh."""
        return sum(map(sum, self.food)) + sum(WEIGHT_OF_ANT + ant.laden for ant in self.ants)

    def head(self):
        """The lines before the brains."""
        return ['ants save 1', 'seed %d' % self.seed, 'sheet %d %d %d' % self.sheet, 'window %d' % self.window,
                'round %d' % self.round, 'place %d' % self.place, 'taken %d redone %d' % (self.taken, self.redone),
                'size %d %d' % (self.width, self.height)]

    def lines(self):
        """All lines."""
        lines = self.head()
        for colour in ('red', 'black'):
            lines += ['%s %d' % (colour, len(self.brains[colour]))] + self.brains[colour]
        lines += [''.join(row) for row in self.rows]
        for colour in ('red', 'black'):
            lines += [''.join(chr(48 + marks) for marks in row) for row in self.marks[colour]]
        lines += [''.join(chr(48 + min(food, MOST_FOOD_IN_A_BYTE + 1)) for food in row) for row in self.food]
        for y, row in enumerate(self.food):
            lines += ['food %d %d %d' % (x, y, food) for x, food in enumerate(row) if food > MOST_FOOD_IN_A_BYTE]
        return lines + [ant.line() for ant in self.ants] + ['end']

    def text(self):
        """The text."""
        return ''.join(line + '\n' for line in self.lines()).encode()


def any_food(r):
    """Some particles, seldom many."""
    if chance(r, .6):
        return 0
    return r.choice([1, 2, r.randint(1, 9), r.randint(1, 62), 61, 62, 63, 64, 100, 111, r.randint(63, 5000)])


def add_cells(r, save):
    """Gives clear cells marks and food."""
    for x, y in save.places('.+-'):
        if chance(r, .4):
            save.marks['red'][y][x] = r.choice([1, 2, 63, r.randrange(64)])
        if chance(r, .4):
            save.marks['black'][y][x] = r.choice([1, 32, 63, r.randrange(64)])
        save.food[y][x] = any_food(r)
    if save.places('.+-') and chance(r, .1):  # as heavy as a world may be
        x, y = r.choice(save.places('.+-'))
        save.food[y][x] += MOST_WEIGHT - save.weight()


def add_ants(r, save):
    """Puts ants of most ids onto cells."""
    places = save.places('.+-')
    r.shuffle(places)
    alive = r.choice([1, .9, .5, 0])
    for number in range(min(save.hill_cells(), len(places))):
        if r.random() < alive:
            colour = r.choice(['red', 'black'])
            state = r.randrange(len(save.brains[colour]))
            words = (r.randrange(6), r.randrange(2), state, r.choice([0, 0, 0, 1, 14, 255]))
            save.ants.append(Ant(number, colour, places.pop(), words))


def any_save(r):
    """A state of a game."""
    save = Save(grid(r))
    for row in save.rows:
        row[:] = ['.' if cell.isdigit() else cell for cell in row]
    save.brains = {'red': brain_lines(r), 'black': brain_lines(r)}
    save.seed = r.choice([0, 1, 12345, 4294967295, r.randrange(2**32)])
    save.sheet = (r.randint(4, 6), r.randint(0, 9), r.choice([0, 0, 1, 2, 14, 255]))
    save.window = r.choice([1, 2, r.randint(1, 20), 16384])
    save.round = r.choice([0, 1, 7, r.randint(0, 300), 999999, 1000000])
    turns = save.hill_cells() * save.round
    save.place = r.choice([0, turns, r.randint(0, turns)])
    save.taken = r.choice([0, turns, r.randint(0, turns)])
    save.redone = turns - save.taken
    add_ants(r, save)
    add_cells(r, save)
    return save


def with_brains(text, brains):
    """The text of a save with other brains, by colour."""
    lines = text.decode('latin1').split('\n')
    for colour, brain in brains.items():
        for place, line in enumerate(lines):
            if re.fullmatch(colour + r' \d+', line, re.ASCII):
                lines[place:place + 1 + int(line.split(' ')[1])] = ['%s %d' % (colour, len(brain))] + brain
                break
    return '\n'.join(lines).encode('latin1')


def with_bad_state(r, save):
    """Makes what a save says no state of a game, most often; in one of the ways that there are."""
    x, y = r.randrange(save.width), r.randrange(save.height)
    rocks, clear = save.places('#'), save.places('.+-')
    kind = r.randrange(12)
    if kind == 0:
        x, y = r.choice([(x, 0), (x, save.height - 1), (0, y), (save.width - 1, y)])
        save.rows[y][x] = r.choice('...+-')
    elif kind == 1:
        x, y = r.choice(rocks)
        save.food[y][x] = r.choice([1, 62, 63])
    elif kind == 2:
        x, y = r.choice(rocks)
        save.marks[r.choice(['red', 'black'])][y][x] = r.choice([1, 63])
    elif kind == 3 and save.ants:
        r.choice(save.ants).place = r.choice(rocks)
    elif kind == 4 and len(save.ants) > 1:
        one, other = r.sample(save.ants, 2)
        one.place = other.place
    elif kind == 5 and save.ants:
        save.ants[-1].number = r.choice([save.hill_cells(), save.hill_cells(), save.hill_cells() + 1, 16383])
    elif kind == 6 and save.ants:
        ant = r.choice(save.ants)
        ant.state = r.choice([len(save.brains[ant.colour]), len(save.brains[ant.colour]) - 1, 9999])
    elif kind == 7:
        colour = r.choice(['red', 'black'])
        count = len(save.brains[colour])
        save.brains[colour][r.randrange(count)] = 'Drop %d' % r.choice([count - 1, count, 9999, 10000, 9999999999])
    elif kind == 8 and clear:
        x, y = r.choice(clear)
        save.food[y][x] += min(MOST_WEIGHT - save.weight() + r.choice([0, 1, 2]), MOST_WEIGHT - save.food[y][x])
    elif kind == 9:
        save.place = save.hill_cells() * save.round + r.choice([0, 1, 2])
    elif kind == 10:
        save.taken = max(0, save.taken + r.choice([-1, 1]))
    else:
        save.round = r.choice([0, save.round + 1, max(0, save.round - 1)])
    return save


def with_other_token(r, lines):
    """The lines with one token changed, doubled or taken away, or with two spaces."""
    place = r.choice([r.randrange(len(lines)), r.randrange(min(9, len(lines)))])
    tokens = lines[place].split(' ')
    token = r.randrange(len(tokens))
    kind = r.random()
    if kind < .5:
        numbers = ['3', '4', '6', '7', '62', '63', '512', '513', '16383', '16384', '2340900', '2340901', '99999999999',
                   '100000000000', '01', '00', '-0', 'red', 'black', 'ant', 'food', 'end', 'Red']
        tokens[token] = r.choice(NUMBERS + numbers)
    elif kind < .65:
        tokens.insert(token, r.choice([tokens[token], '', '0']))
    elif kind < .8:
        del tokens[token]
    elif kind < .9:
        tokens[token] = '0' + tokens[token]
    else:
        tokens[token] = tokens[token].swapcase()
    lines[place] = ' '.join(tokens)
    return lines


def with_other_byte(r, text):
    """The text with one byte changed."""
    place = r.randrange(len(text))
    pool = [0, 10, 13, 32, 35, 43, 45, 46, 47, 48, 49, 57, 58, 97, 110, 111, 112, 127, 128, 255, r.randrange(256)]
    return text[:place] + bytes([r.choice(pool)]) + text[place + 1:]


def faulty_save(r, save):
    """A text that comes of a save, and most often is none."""
    kind = r.random()
    if kind < .4:
        return with_bad_state(r, save).text()
    if kind < .5:
        return with_other_byte(r, save.text())
    if kind < .65:
        return ''.join(line + '\n' for line in with_other_token(r, save.lines())).encode('utf8')
    if kind < .75:
        return with_other_lines(r, save.text())
    if kind < .85:
        text = save.text()
        return text[:r.choice([r.randint(0, len(text)), len(text) - 1])]
    if kind < .88:
        return save.text() + r.choice([b'\n', b' ', b'end\n', b'x', b'\r\n', b'\0'])
    if kind < .92:
        return with_other_bytes(r, save.text(), LINE_BYTES)
    if kind < .98:
        lines = save.lines()
        ants = [place for place, line in enumerate(lines) if line.startswith('ant ')]
        if len(ants) > 1 and chance(r, .5):
            one, other = r.sample(ants, 2)
            lines[one], lines[other] = lines[other], lines[one]
        elif len(ants) > 1:
            place = r.choice(ants[1:])
            tokens = lines[place].split(' ')
            tokens[1] = lines[place - 1].split(' ')[1]  # the id of the ant above
            lines[place] = ' '.join(tokens)
        return ''.join(line + '\n' for line in lines).encode()
    return r.choice([b'', b'\n', b'ants save 1', b'ants save 1\n', b'ants save 2\n', b'end\n', b'\x80'])
