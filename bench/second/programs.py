"""Random texts of programs with labels and blocks."""
from brains import CONDITIONS, OPERATIONS, SIGHTS, WRONG_WORDS, any_brain
from spelling import LINE_BYTES, chance, faulty_lines, spelled, with_other_bytes, with_other_lines

# Names stand with a sign before them until the text is spelled, since their case counts.
SIGN = '@'
NAMES = [
    'a', 'b', 'go', 'Go', 'GO', 'x1', 'x_', 'done', 'stuck', 'move', 'Sense', 'block', 'end', 'use', 'left', 'Food',
    'n' * 32, 'm' * 31 + '_', 'nexts', 'nex', 'z9_z',
]
NO_NAMES = [
    'next', 'NEXT', 'n' * 33, '_a', '1a', '1', 'a-b', 'a:', ':', 'a.b', 'a,', '\xe9', 'a\x01', '', 'a\x7f', 'Next:',
]
BROKEN_PROGRAMS = [
    b'', b'\n', b';', b'a:', b'block a', b'end', b'block a\nend', b'\x80', b'use a', b'block a\nuse a',
]
MOST_PARAMETERS = 8
MOST_BLOCKS = 256
MOST_INSTRUCTIONS = 10000


def signed(name):
    """The name with its sign."""
    return SIGN + name


def condition(r):
    """A condition."""
    word = r.choice(CONDITIONS)
    return 'Marker %d' % r.randrange(6) if word == 'Marker' else word


def instruction(r, label):
    """An instruction, of which `label` makes the labels."""
    operation = r.choice(OPERATIONS)
    if operation == 'Sense':
        return 'Sense %s %s %s %s' % (r.choice(SIGHTS), label(), label(), condition(r))
    if operation in ('Mark', 'Unmark'):
        return '%s %d %s' % (operation, r.randrange(6), label())
    if operation in ('PickUp', 'Move'):
        return '%s %s %s' % (operation, label(), label())
    if operation == 'Drop':
        return 'Drop %s' % label()
    if operation == 'Turn':
        return 'Turn %s %s' % (r.choice(['Left', 'Right']), label())
    bound = r.choice([1, 2, 3, 4294967295, r.randint(1, 20000)])
    return 'Flip %d %s %s' % (bound, label(), label())


class Block:
    """A block that has ended."""

    def __init__(self, name, parameters, size):
        self.name = name
        self.parameters = parameters
        self.size = size


class Body:
    """The lines of a body while it is made: first its labels and parameters, then its items."""

    def __init__(self, r, parameters, blocks, counts):
        self.r = r
        self.blocks = blocks
        self.labels = r.sample([name for name in NAMES if name not in parameters], r.choice(counts))
        self.known = [signed(name) for name in list(parameters) + self.labels]
        self.size = 0

    def label(self):
        """A label that this body has."""
        if not self.known or chance(self.r, .35):
            return 'next'
        return self.r.choice(self.known)

    def item(self):
        """An instruction, or a block that is put in place."""
        if self.blocks and chance(self.r, .45):
            block = self.r.choice(self.blocks[-3:] if chance(self.r, .6) else self.blocks)
            if self.size + block.size <= MOST_INSTRUCTIONS:
                self.size += block.size
                return ' '.join(['use', signed(block.name)] + [self.label() for _ in block.parameters])
        self.size += 1
        return instruction(self.r, self.label)

    def lines(self):
        """All lines of the body, with its labels somewhere among them."""
        lines = [self.item() for _ in range(self.r.choice([1, 1, 2, 3, 4, 6]))]
        for name in self.labels:
            lines.insert(self.r.choice([0, len(lines), self.r.randint(0, len(lines))]), signed(name) + ':')
        return lines


def names_of_parameters(r):
    """The names of some parameters."""
    return r.sample(NAMES, r.choice([0, 0, 1, 1, 2, 3, MOST_PARAMETERS]))


def program_lines(r, counts=(0, 0, 1, 2, 3)):
    """The lines of a program, with one of these counts of labels in each body; blocks use blocks above them."""
    lines, blocks = [], []
    main = Body(r, [], blocks, counts)
    names = r.sample(NAMES, r.choice([0, 1, 1, 2, 3, 4, 6]))
    for name in names:
        parameters = names_of_parameters(r)
        body = Body(r, parameters, list(blocks), counts)
        lines.append(' '.join(['block', signed(name)] + [signed(it) for it in parameters]))
        lines += body.lines() + ['end']
        blocks.append(Block(name, parameters, body.size))
        if chance(r, .15):
            lines.append(main.item())  # main begins between blocks
    return lines + main.lines()


def text_of(r, lines, noise=.5):
    """The text of the lines; the case of names stays."""
    return spelled(r, lines, noise).replace(SIGN.encode(), b'')


def anyhow(r, lines):
    """As `text_of`; plain and in UTF-8 where a character is no single byte."""
    try:
        return text_of(r, lines)
    except UnicodeEncodeError:
        return b''.join(line.encode('utf8') + b'\n' for line in lines).replace(SIGN.encode(), b'')


def without_a_line(r, lines, word):
    """The lines without one that begins with the word."""
    places = [place for place, line in enumerate(lines) if line.startswith(word)]
    if places:
        del lines[r.choice(places)]
    return lines


def with_a_line(r, lines):
    """The lines with one more somewhere."""
    many = ' '.join(signed('p%d' % it) for it in range(r.choice([9, 10, 11])))
    more = r.choice([
        'end', 'end x', 'block', 'use', 'use next', 'next:', 'Move next 1', 'block @new', 'block @p @q @q', 'use @a',
        'use @nowhere', 'use @b next', 'Drop @lost', '@a :', '@a: @b', 'block ' + many, 'use @a ' + many,
        signed(r.choice(NAMES)) + ':', 'block ' + signed(r.choice(NAMES)),
    ])
    lines.insert(r.randint(0, len(lines)), more)
    return lines


def with_other_name(r, lines):
    """The lines with another name, or with what is none, in the place of a token."""
    place = r.randrange(len(lines))
    tokens = lines[place].split(' ')
    token = r.randrange(len(tokens))
    name = r.choice(NO_NAMES) if chance(r, .6) else signed(r.choice(NAMES + ['other']))
    tokens[token] = name + (':' if tokens[token].endswith(':') and chance(r, .8) else '')
    lines[place] = ' '.join(tokens)
    return lines


def with_wrong_use(r, lines):
    """The lines with one label more or less where a block is used."""
    places = [place for place, line in enumerate(lines) if line.startswith('use ')]
    if places:
        place = r.choice(places)
        tokens = lines[place].split(' ')
        lines[place] = ' '.join(tokens[:-1] if len(tokens) > 2 and chance(r, .5) else tokens + ['next'])
    return lines


def with_name_taken(r, lines):
    """The lines with a label that its body has already, as label or parameter, or with a block's name a second time."""
    places = [place for place, line in enumerate(lines) if line.endswith(':') or line.startswith('block ')]
    if places:
        place = r.choice(places)
        tokens = lines[place].split(' ')
        if len(tokens) == 1:
            lines.insert(place + 1, lines[place])
        elif len(tokens) > 2 and chance(r, .7):
            lines.insert(place + 1, r.choice(tokens[2:]) + ':')
        else:
            lines += ['block ' + tokens[1], 'Drop next', 'end']
    return lines


def with_empty_block(r, lines):
    """The lines without the items of a block, and perhaps with a label in it."""
    places = [place for place, line in enumerate(lines) if line.startswith('block ')]
    if places:
        place = r.choice(places)
        end = lines.index('end', place)
        lines[place + 1:end] = r.choice([[], [signed('inside') + ':']])
    return lines


def with_lost_labels(r, lines):
    """The lines with two or three more that name labels which no body has."""
    for _ in range(r.choice([2, 3])):
        lines.insert(r.randint(0, len(lines)), 'Drop ' + signed('lost'))
    return lines


def with_block_inside(r, lines):
    """The lines with a block's first line a second time, inside it or below."""
    places = [place for place, line in enumerate(lines) if line.startswith('block ')]
    if places:
        place = r.choice(places)
        lines.insert(r.choice([place + 1, r.randint(place + 1, len(lines))]), lines[place])
    return lines


def with_long_name(r, lines):
    """The lines with one name spelled with as many bytes as a name may have, or one more."""
    names = sorted({token.rstrip(':') for line in lines for token in line.split(' ') if token.startswith(SIGN)})
    if not names:
        return lines
    old, new = r.choice(names), signed('l' * r.choice([32, 33, 33]))
    changed = []
    for line in lines:
        tokens = [new + it[len(old):] if it.rstrip(':') == old else it for it in line.split(' ')]
        changed.append(' '.join(tokens))
    return changed


WHOLE_FAULTS = [with_wrong_use, with_name_taken, with_empty_block, with_lost_labels, with_block_inside, with_long_name]


def faulty_program(r):
    """A text that most often is no program."""
    kind = r.random()
    lines = program_lines(r)
    if kind < .3:
        return anyhow(r, r.choice(WHOLE_FAULTS)(r, lines))
    if kind < .38:
        return anyhow(r, faulty_lines(r, lines, WRONG_WORDS + ['end', 'block', 'use', 'a:', 'next']))
    if kind < .45:
        return anyhow(r, with_other_name(r, lines))
    if kind < .6:
        return anyhow(r, with_a_line(r, lines))
    if kind < .7:
        return anyhow(r, without_a_line(r, lines, r.choice(['end', 'block', SIGN, 'use'])))
    if kind < .8:
        return with_other_lines(r, text_of(r, lines))
    if kind < .93:
        return with_other_bytes(r, text_of(r, lines), LINE_BYTES + [ord(':'), ord('_')])
    if kind < .97:
        return any_brain(r)
    return r.choice(BROKEN_PROGRAMS)


def doubling(r):
    """Blocks each of which uses the one above twice, so that their sizes come near to the most that may be."""
    first = r.choice([1, 1, 2, 3, 5, 39, 40, 625, 1250])
    lines = ['block %s' % signed('b0')] + ['Drop next'] * first + ['@go:', 'end']
    size, number = first, 0
    while size * 2 <= MOST_INSTRUCTIONS:
        number += 1
        lines += ['block %s' % signed('b%d' % number)] + ['use %s' % signed('b%d' % (number - 1))] * 2 + ['end']
        size *= 2
    rest = MOST_INSTRUCTIONS - size + r.choice([-1, 0, 0, 1, 1, 2])
    items = ['use %s' % signed('b%d' % number)] + ['Drop next'] * rest
    if chance(r, .4):
        lines += ['block %s' % signed('all')] + items + ['end', 'use %s' % signed('all')]
    else:
        lines += items
    return text_of(r, lines, .05)


def many_blocks(r):
    """About as many blocks as there may be, each of which uses the one above and hands its labels on."""
    count = r.choice([MOST_BLOCKS - 1, MOST_BLOCKS, MOST_BLOCKS + 1])
    names = [signed(('b%d' % number).ljust(r.choice([1, 1, 32]), '_')) for number in range(count)]
    parameters = [signed('p%d' % number) for number in range(r.choice([0, 1, 3, MOST_PARAMETERS]))]
    lines = []
    for number, name in enumerate(names):
        lines.append(' '.join(['block', name] + parameters))
        if chance(r, .5):
            lines.append(signed('go') + ':')
        handed = list(parameters)
        r.shuffle(handed)
        if number:
            lines.append(' '.join(['use', names[number - 1]] + handed))
        else:
            lines.append(instruction(r, lambda: r.choice(parameters + ['next'])))
        lines.append('end')
    lines.append(signed('go') + ':')
    handed = [r.choice([signed('go'), 'next']) for _ in parameters]
    lines.append(' '.join(['use', names[-1]] + handed))
    lines.append('Drop next')
    return text_of(r, lines, .05)


def many_labels(r):
    """A block of many labels that is put in place often."""
    labels = ['@l%d:' % number for number in range(r.choice([1, 10, 300]))]
    items = ['Drop next'] * r.choice([1, 2, 5])
    block = ['block @many'] + labels + items + [r.choice(['@last:', 'Drop @l0'])] + ['end']
    return text_of(r, block + ['use @many'] * r.choice([1, 20, 1000]), .05)


def items_with_labels(r, items, count):
    """The items with this many labels among them, some of which stand at one place or at the end."""
    lines = list(items)
    for name in r.sample(NAMES, count):
        lines.insert(r.choice([len(lines), r.randint(0, len(lines)), 0]), signed(name) + ':')
    return lines


def deep_block(r, blocks, parameters):
    """The items of a block that uses the one above, and seldom another, and then may have more items."""
    def label():
        """A parameter, or what follows."""
        return r.choice(parameters + ['next'])

    used = [blocks[-1]] if blocks else []
    if blocks and chance(r, .3):
        used.append(r.choice(blocks))
    items = [' '.join(['use', signed(block.name)] + [label() for _ in block.parameters]) for block in used]
    size = sum(block.size for block in used)
    for _ in range(r.choice([0, 0, 1, 2]) if items else 1):
        items.insert(r.randint(0, len(items)), instruction(r, label))
        size += 1
    return items, size


def deep_program(r):
    """The lines of a program of blocks each of which uses the one above, with labels in many of them."""
    lines, blocks = [], []
    for number in range(r.choice([2, 5, 9, 20])):
        name = 'deep%d' % number
        parameters = [signed('p%d' % it) for it in range(r.choice([0, 0, 1, 2]))]
        items, size = deep_block(r, blocks, parameters)
        if size > MOST_INSTRUCTIONS // 100:
            break
        lines.append(' '.join(['block', signed(name)] + parameters))
        lines += items_with_labels(r, items, r.choice([0, 1, 1, 2])) + ['end']
        blocks.append(Block(name, parameters, size))
    used = [blocks[-1]] + r.choices(blocks, k=r.choice([0, 1, 3]))  # so that some may be in place nowhere
    items = [' '.join(['use', signed(block.name)] + ['next'] * len(block.parameters)) for block in used]
    items.insert(r.randint(0, len(items)), instruction(r, lambda: 'next'))
    return lines + items_with_labels(r, items, r.choice([0, 0, 1, 3]))


def labelled_program(r):
    """A text of a program whose labels are many, deep or none; seldom a faulty one."""
    kind = r.random()
    if kind < .1:
        return faulty_program(r)
    if kind < .5:
        return text_of(r, deep_program(r))
    if kind < .6:
        return text_of(r, program_lines(r, [0]))
    return text_of(r, program_lines(r))


def any_program(r, faults=0):
    """A text of a program, or with the probability `faults` a faulty one."""
    if chance(r, faults):
        return faulty_program(r)
    return text_of(r, program_lines(r))
