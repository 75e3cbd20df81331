"""Random texts of brains."""
from spelling import LINE_BYTES, chance, faulty_lines, spelled, spelled_anyhow, with_other_bytes

OPERATIONS = ['Sense', 'Mark', 'Unmark', 'PickUp', 'Drop', 'Turn', 'Move', 'Flip']
SIGHTS = ['Here', 'Ahead', 'LeftAhead', 'RightAhead']
CONDITIONS = [
    'Friend', 'Foe', 'FriendWithFood', 'FoeWithFood', 'Food', 'Rock', 'Marker', 'FoeMarker', 'Home', 'FoeHome',
]
WEIGHTS = [5, 2, 1, 2, 2, 3, 6, 3]  # how common each operation is
FIGHTING_WEIGHTS = [
    [4, 2, 1, 4, 3, 2, 6, 2],
    [1, 0, 0, 5, 4, 2, 6, 2],
    [6, 3, 2, 1, 1, 1, 5, 1],
    [3, 0, 0, 2, 2, 2, 4, 4],
]
PLACES_OF_STATES = {
    'Sense': [2, 3], 'Mark': [2], 'Unmark': [2], 'PickUp': [1, 2], 'Drop': [1], 'Turn': [2], 'Move': [1, 2],
    'Flip': [2, 3],
}
SAMPLE = [
    'Sense Ahead 1 3 Food', 'Move 2 0', 'PickUp 8 0', 'Flip 3 4 5', 'Turn Left 0', 'Flip 2 6 7', 'Turn Right 0',
    'Move 0 3', 'Sense Ahead 9 11 Home', 'Move 10 8', 'Drop 0', 'Flip 3 12 13', 'Turn Left 8', 'Flip 2 14 15',
    'Turn Right 8', 'Move 8 11',
]
HIGH_STATES = ['9999999999', '4294967295', '4294967296', '10000', '9999', '65536']
FIXED = [
    ['Drop 0'],
    ['Move 0 0'],
    ['Flip 2 0 0'],
    ['Turn Left 0'],
    SAMPLE,
    ['Move 0 1', 'Flip 3 2 3', 'Turn Left 0', 'Turn Right 0'],
    ['Sense Ahead 1 2 Foe', 'Flip 2 0 2', 'Move 0 3', 'Flip 2 4 5', 'Turn Right 0', 'Turn Left 0'],
    ['PickUp 1 1', 'Move 2 3', 'Drop 0', 'Turn Right 1'],
    ['Mark 0 1', 'Move 2 2', 'Sense Ahead 0 3 Marker 0', 'Unmark 0 4', 'Turn Left 0'],
]
WRONG_WORDS = [
    'Jump', 'Sense', 'Here', 'Left', 'Food', 'Marker', 'Move', 'red', 'Black', 'FoeMarker', 'MarkerX', 'Mark',
    'foehome', 'drop0', ',', '#', '\x80', '\xe9', 'Foo\x01', '\x0b', '\x7f', '\x00', '~', 'Dröp', 'LEFTAHEAD',
    '\x0c0', '0\x0c',
]
BROKEN_BRAINS = [
    b'', b'\n', b';', b'; x\n\n', b' \t\r\n', b'\x80', b'Drop', b'Drop 0;', b'Drop 0;x', b';\xff\nDrop 0',
    b'Drop\x000', b'Drop 0 0', b'Drop 0\x0b', b'Sense Here 0 0 Marker', b'Sense Here 0 0 Marker 6',
    b'Sense Here 0 0 Marker ;5', b'Sense Here 0 0 Food \xff', b'Drop 0\xa0',
]


def condition(r, markers):
    """A condition, with a marker below `markers` where it has one."""
    word = r.choice(CONDITIONS)
    if word == 'Marker':
        return 'Marker %d' % r.randrange(markers)
    return word


def instruction(r, count):
    """A line of a brain with this many states."""
    def state():
        """Any state."""
        return r.randrange(count)

    operation = r.choices(OPERATIONS, WEIGHTS)[0]
    if operation == 'Sense':
        sensed = condition(r, 6)
        return 'Sense %s %d %d %s' % (r.choice(SIGHTS), state(), state(), sensed)
    if operation in ('Mark', 'Unmark'):
        return '%s %d %d' % (operation, r.randrange(6), state())
    if operation in ('PickUp', 'Move'):
        return '%s %d %d' % (operation, state(), state())
    if operation == 'Drop':
        return 'Drop %d' % state()
    if operation == 'Turn':
        return 'Turn %s %d' % (r.choice(['Left', 'Right']), state())
    bound = r.choice([1, 2, 2, 3, 3, 5, 16383, 16384, 16385, 4294967295, r.randint(1, 20000)])
    return 'Flip %d %d %d' % (bound, state(), state())


def chained(r, lines):
    """The lines with most states set to the next one, so that most instructions are executed."""
    chain = []
    for number, line in enumerate(lines):
        tokens = line.split(' ')
        for place in PLACES_OF_STATES[tokens[0]]:
            if chance(r, .75):
                tokens[place] = str((number + 1) % len(lines))
        chain.append(' '.join(tokens))
    return chain


def brain_lines(r):
    """The lines of a brain; some have states that are equivalent."""
    kind = r.random()
    if kind < .2:
        return list(r.choice(FIXED))
    count = r.choice([1, 2, 3, 4, 5, 6, 8, 10, 12]) if kind < .9 else r.randint(13, 60)
    lines = [instruction(r, count) for _ in range(count)]
    if kind < .7:
        lines = chained(r, lines)
    if chance(r, .4) and count > 1:
        for _ in range(r.randint(1, count)):
            line = lines[r.randrange(count)]
            lines[r.randrange(count)] = line
    return lines


def moved(r, lines):
    """The lines of a brain whose states but 0 have other numbers, with some that nothing leads to."""
    count = len(lines)
    order = [0] + r.sample(range(1, count + 3), count - 1)
    other = ['Drop 0'] * (max(order) + 1)
    for number, line in enumerate(lines):
        tokens = line.split(' ')
        for place in PLACES_OF_STATES[tokens[0]]:
            tokens[place] = str(order[int(tokens[place])])
        other[order[number]] = ' '.join(tokens)
    return other


def copied(r, lines):
    """The lines of a brain with two or three copies of some states; what led to one leads to any of its copies."""
    origins = list(range(len(lines)))
    for number in range(len(lines)):
        origins += [number] * r.choice([0, 0, 1, 2])
    origins = [0] + r.sample(origins[1:], len(origins) - 1)
    copies = [[place for place, origin in enumerate(origins) if origin == number] for number in range(len(lines))]
    other = []
    for origin in origins:
        tokens = lines[origin].split(' ')
        for place in PLACES_OF_STATES[tokens[0]]:
            tokens[place] = str(r.choice(copies[int(tokens[place])]))
        other.append(' '.join(tokens))
    return other


def merging_brain(r):
    """A text of a brain with states that are equivalent, that nothing leads to, or both; seldom a faulty one."""
    kind = r.random()
    if kind < .05:
        return faulty_brain(r)
    lines = brain_lines(r)
    if kind < .75:
        lines = copied(r, lines)
    if kind > .5:
        lines = moved(r, lines)
    return spelled(r, copied(r, lines) if chance(r, .2) else lines)


def brain_with_wrong_state(r, lines):
    """A text in which one number of the lines, most often a state, is another."""
    count = len(lines)
    number = r.randrange(count)
    tokens = lines[number].split(' ')
    places = [place for place, token in enumerate(tokens) if token.isdigit()]
    if places:
        near = [str(count - 1), '00000' + str(count)]
        token = r.choice([str(count), str(count + 1)] + HIGH_STATES + near)
        tokens[r.choice(places)] = token
    lines[number] = ' '.join(tokens)
    return spelled(r, lines)


def faulty_brain(r):
    """A text that most often is no brain."""
    kind = r.random()
    lines = brain_lines(r)
    if kind < .6:
        return spelled_anyhow(r, faulty_lines(r, lines, WRONG_WORDS))
    if kind < .8:
        return brain_with_wrong_state(r, lines)
    if kind < .92:
        return with_other_bytes(r, spelled(r, lines), LINE_BYTES)
    if kind < .97:
        return r.choice(BROKEN_BRAINS)
    return bytes(r.randrange(256) for _ in range(r.randint(0, 30)))


def any_brain(r, faults=0):
    """A text of a brain, or with the probability `faults` a faulty one."""
    if chance(r, faults):
        return faulty_brain(r)
    return spelled(r, brain_lines(r))


def fighting_instruction(r, number, count, weights):
    """A line of a fighting brain: it most often leads to the next state."""
    def state():
        """The next state, seldom another."""
        return (number + 1) % count if chance(r, .8) else r.randrange(count)

    operation = r.choices(OPERATIONS, weights)[0]
    if operation == 'Sense':
        sensed = condition(r, 2)
        return 'Sense %s %d %d %s' % (r.choice(SIGHTS), state(), r.randrange(count), sensed)
    if operation in ('Mark', 'Unmark'):
        return '%s %d %d' % (operation, r.randrange(2), state())
    if operation == 'Drop':
        return 'Drop %d' % state()
    if operation == 'Turn':
        return 'Turn %s %d' % (r.choice(['Left', 'Right']), state())
    if operation == 'Flip':
        return 'Flip %d %d %d' % (r.choice([1, 2, 2, 3, 4]), state(), r.randrange(count))
    return '%s %d %d' % (operation, state(), state())


def fighting_lines(r):
    """The lines of a brain that takes up food, steps and looks about all the time."""
    if chance(r, .1):
        return list(r.choice(FIXED))
    count = r.choice([2, 3, 4, 5, 6, 8, 10])
    weights = r.choice(FIGHTING_WEIGHTS)
    return [fighting_instruction(r, number, count, weights) for number in range(count)]
