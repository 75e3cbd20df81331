"""Random spellings of texts of lines and tokens, and faults in them."""

SEPARATORS = [b' ', b' ', b' ', b'\t', b'\r', b'  ', b' \t ']
ODD_BYTES = [0, 1, 8, 11, 12, 27, 31, 127, 128, 160, 194, 233, 255]
LINE_BYTES = [ord(c) for c in 'aMt 05\n;\r\t9'] + ODD_BYTES
NUMBERS = [
    '0', '1', '5', '6', '9', '10', '255', '256', '9999', '10000', '65536', '1000000', '1000001', '4294967295',
    '4294967296', '9999999999', '10000000000', '0000000000', '00000000000', '0000000001', '00000000001', '-1', '+1',
    '1.0', '1e3', 'x', '', '1x', '0x1', '٣', '18446744073709551616', '99999999999',
]


def chance(r, probability):
    """True with this probability."""
    return r.random() < probability


def comment(r):
    """A comment of a few bytes, of which some may stand nowhere else."""
    bytes_of_comments = [ord('a'), 32, 59, 35, 9, 13] + ODD_BYTES
    return b';' + bytes(r.choice(bytes_of_comments) for _ in range(r.randint(0, 6)))


def recased(r, word):
    """The word in some case."""
    kind = r.random()
    if kind < .6:
        return word
    if kind < .75:
        return word.lower()
    if kind < .85:
        return word.upper()
    return ''.join(r.choice([c.lower(), c.upper()]) for c in word)


def spelled_token(r, token):
    """A word in some case, a number perhaps with zeros before it."""
    if token[:1].isalpha():
        return recased(r, token)
    if token.isdigit() and len(token) < 10 and chance(r, .15):
        return '0' * r.randint(1, 10 - len(token)) + token
    return token


def spelled_line(r, line):
    """A line with other separators, and perhaps a comment.

    Raises UnicodeEncodeError where a character is no single byte.
    """
    text = b''
    for i, token in enumerate(line.split(' ')):
        token = spelled_token(r, token)
        if i or chance(r, .2):
            text += r.choice(SEPARATORS)
        text += token.encode('latin1')
    if chance(r, .2):
        text += r.choice(SEPARATORS)
    if chance(r, .2):
        text += comment(r)
    return text


def spelled(r, lines, noise=.5):
    """The text of the lines: plain, or with this probability in some other spelling of the same."""
    if not chance(r, noise):
        return b''.join(line.encode() + b'\n' for line in lines)
    texts = []
    end = r.choice([b'\n', b'\n', b'\r\n'])
    for line in lines:
        while chance(r, .15):
            texts.append(r.choice([b'', b' \t', b'\r', comment(r), b'  ' + comment(r)]))
        texts.append(spelled_line(r, line))
    text = end.join(texts)
    if chance(r, .8):
        text += end
    if chance(r, .2):
        text += r.choice([b'\n', b' ', comment(r), b'\t\r\n', b'\n\n'])
    return text


def spelled_anyhow(r, lines):
    """As `spelled`; plain and in UTF-8 where a character is no single byte."""
    try:
        return spelled(r, lines)
    except UnicodeEncodeError:
        return b''.join(line.encode('utf8') + b'\n' for line in lines)


def faulty_line(r, line, words):
    """The line with a token changed, added, moved or taken away."""
    tokens = line.split(' ')
    kind = r.random()
    place = r.randrange(len(tokens))
    if kind < .3:
        tokens[place] = r.choice(NUMBERS)
    elif kind < .55:
        tokens[place] = r.choice(words)
    elif kind < .7:
        del tokens[place]
    elif kind < .85:
        tokens.insert(r.randint(0, len(tokens)), r.choice(NUMBERS + words))
    elif kind < .9:
        tokens[place] += r.choice(words)
    elif kind < .95:
        other = r.randrange(len(tokens))
        tokens[other], tokens[place] = tokens[place], tokens[other]
    else:
        tokens = tokens[:place + 1]
    return ' '.join(tokens)


def faulty_lines(r, lines, words):
    """The lines with one to three faults."""
    lines = list(lines)
    for _ in range(r.choice([1, 1, 1, 2, 3])):
        place = r.randrange(len(lines))
        lines[place] = faulty_line(r, lines[place], words)
    return lines


def with_other_bytes(r, text, pool):
    """The text with bytes of the pool put in, or bytes taken away, at one to three places."""
    text = bytearray(text)
    for _ in range(r.choice([1, 1, 1, 2, 3])):
        kind = r.random()
        place = r.randint(0, len(text)) if text else 0
        is_inside = place < len(text)
        if kind < .35 and is_inside:
            text[place] = r.choice(pool)
        elif kind < .6:
            text.insert(place, r.choice(pool))
        elif kind < .85 and is_inside:
            del text[place]
        elif is_inside:
            del text[place:place + r.randint(1, 6)]
    return bytes(text)


def with_other_lines(r, text):
    """The text with a line taken away, doubled, moved or emptied."""
    lines = text.split(b'\n')
    kind = r.random()
    place = r.randrange(len(lines))
    if kind < .3:
        del lines[place]
    elif kind < .5:
        lines.insert(place, lines[r.randrange(len(lines))])
    elif kind < .65:
        lines.insert(place, b'')
    elif kind < .8:
        other = r.randrange(len(lines))
        lines[place], lines[other] = lines[other], lines[place]
    elif kind < .9:
        lines = lines[:place]
    else:
        lines[place] = b''
    return b'\n'.join(lines)
