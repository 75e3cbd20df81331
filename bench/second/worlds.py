"""Random texts of worlds."""
from spelling import ODD_BYTES, SEPARATORS, chance, with_other_bytes, with_other_lines

CELLS = '+-#.'
CROWDS = [(.35, .35, .08, .22), (.42, .42, .02, .14), (.3, .3, .02, .38)]
WORLD_BYTES = [ord(c) for c in '#.+-0123456789 \t\r\nx;ab~'] + ODD_BYTES
SIZES = [
    b'', b' ', b'2', b'3', b'512', b'513', b'514', b'0', b'-3', b'+3', b'3 3', b'03', b'0000000003', b'00000000003',
    b'x', b'3.0', b'3;', b'4294967299', b'9999999999', b'10000000000', b'\t4\r', b'4\x0b', b'\xe9',
]
BROKEN_WORLDS = [
    b'', b'\n', b'\n\n', b'3', b'3\n', b'3\n3', b'3\n3\n', b'3\n3\n###\n#', b'5\n5\n\n', b'#', b' ', b'\r\n',
]


def size_of_grid(r):
    """A width and a height; the least that are possible are common."""
    kind = r.random()
    if kind < .15:
        return r.choice([(3, 3), (3, r.randint(3, 9)), (r.randint(3, 9), 3), (4, 4), (4, 3)])
    if kind < .85:
        return r.randint(4, 10), r.randint(4, 10)
    return r.randint(8, 24), r.randint(8, 24)


def weights_of_cells(r):
    """How common each of CELLS is; in crowded worlds ants are killed."""
    style = r.random()
    if style < .45:
        return r.choice(CROWDS)
    if style < .6:
        return (.15, .15, .1, .6)
    if style < .75:
        return (.04, .04, .15, .77)
    if style < .85:
        return (.1, .6, .02, .28)
    if style < .95:
        return (.6, .1, .02, .28)
    return (0, 0, .2, .8)


def grid(r):
    """The rows of a world, as lists of characters."""
    width, height = size_of_grid(r)
    weights = weights_of_cells(r)
    food = r.choice([0, .05, .2, .4])
    rows = [['#'] * width for _ in range(height)]
    for y in range(1, height - 1):
        for x in range(1, width - 1):
            cell = r.choices(CELLS, weights)[0]
            if cell == '.' and chance(r, food):
                cell = str(r.randint(1, 9))
            rows[y][x] = cell
    return rows


def canonical_lines(rows):
    """The lines of the canonical text."""
    lines = [str(len(rows[0])).encode(), str(len(rows)).encode()]
    for y, row in enumerate(rows):
        indent = b' ' if y % 2 else b''
        lines.append(indent + ' '.join(row).encode())
    return lines


def spelled_size(r, line):
    """A line of a size in some other spelling."""
    if chance(r, .3):
        line = b'0' * r.randint(1, 10 - len(line)) + line
    if chance(r, .3):
        line = r.choice(SEPARATORS) + line
    if chance(r, .3):
        line = line + r.choice(SEPARATORS)
    return line


def spelled_row(r, line):
    """A row with other separators."""
    kind = r.random()
    if kind < .3:
        return line.replace(b' ', b'')
    if kind < .5:
        return b''.join(bytes([byte]) + (r.choice(SEPARATORS) if chance(r, .2) else b'') for byte in line)
    if kind < .6:
        return r.choice(SEPARATORS) * r.randint(0, 3) + line
    return line


def world_text(r, rows, is_noisy=True):
    """A text of the world: canonical, or in some other spelling."""
    lines = canonical_lines(rows)
    if not is_noisy or chance(r, .5):
        return b'\n'.join(lines) + (b'\n' if chance(r, .9) else b'')
    end = r.choice([b'\n', b'\n', b'\r\n', b' \n', b'\t\r\n'])
    texts = []
    for number, line in enumerate(lines):
        texts.append(spelled_size(r, line) if number < 2 else spelled_row(r, line))
    text = end.join(texts)
    if chance(r, .7):
        text += end
    if chance(r, .3) and text.endswith(b'\n'):
        text += r.choice([b'\n', b' \n\n', b'\r\n', b'   ', b'\t', b'\n\n\n \t\r'])
    return text


def world_with_open_rim(r, rows):
    """A text of the world with one or two cells of the rim that may be clear."""
    width, height = len(rows[0]), len(rows)
    for _ in range(r.choice([1, 1, 2])):
        side = r.randrange(4)
        in_rows = [(r.randrange(width), 0), (r.randrange(width), height - 1)]
        in_columns = [(0, r.randrange(height)), (width - 1, r.randrange(height))]
        x, y = (in_rows + in_columns)[side]
        rows[y][x] = r.choice('.+-19')
    return world_text(r, rows)


def world_with_other_size(r, text, rows):
    """The text with another line for the width or the height."""
    width, height = len(rows[0]), len(rows)
    near = [str(size).encode() for size in (width - 1, width + 1, height - 1, height + 1)]
    lines = text.split(b'\n')
    place = r.randrange(2)
    lines[place] = r.choice(SIZES + near + [b'12', b'4', b'5'])
    return b'\n'.join(lines)


def faulty_world(r):
    """A text that most often is no world."""
    rows = grid(r)
    kind = r.random()
    if kind < .25:
        return world_with_open_rim(r, rows)
    text = world_text(r, rows)
    if kind < .5:
        return with_other_bytes(r, text, WORLD_BYTES)
    if kind < .7:
        return with_other_lines(r, text)
    if kind < .9:
        return world_with_other_size(r, text, rows)
    if kind < .95:
        return r.choice(BROKEN_WORLDS)
    return bytes(r.randrange(256) for _ in range(r.randint(0, 40)))


def any_world(r, faults=0):
    """A text of a world, or with the probability `faults` a faulty one."""
    if chance(r, faults):
        return faulty_world(r)
    return world_text(r, grid(r))
