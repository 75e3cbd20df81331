"""Making a case smaller as long as both programs still differ in it."""
import copy
import time

MOST_TRIALS = 1000  # for one case
MOST_SECONDS = 30  # for one case, and those of its last trial
MOST_STEPS = 200  # by which a number is made lower, one by one
MOST_LINES = 60  # of a file that is made smaller line by line
MOST_BYTES = 1000  # of a file that is made smaller byte by byte
MOST_SIZE = 60000  # of all files of a case that is made smaller


def with_words(case, words):
    """The case with other words."""
    smaller = copy.deepcopy(case)
    smaller.words = words
    return smaller


def with_file(case, name, text):
    """The case with another text of a file."""
    smaller = copy.deepcopy(case)
    smaller.files[name] = text
    return smaller


def with_less_words(case):
    """The cases without one option, or with a lower number."""
    for place in range(len(case.words) - 1, 0, -1):
        word = case.words[place]
        before, after = case.words[:place], case.words[place + 1:]
        if word.startswith('--'):
            yield with_words(case, before + after[1:])
        if word.isdigit() and word.isascii() and int(word) > 1:
            yield with_words(case, before + [str(int(word) // 2)] + after)
            if int(word) < MOST_STEPS:
                yield with_words(case, before + [str(int(word) - 1)] + after)


def with_less_lines(case, name):
    """The cases without one line of a file."""
    lines = case.files[name].split(b'\n')
    if len(lines) <= MOST_LINES:
        for place in range(len(lines)):
            yield with_file(case, name, b'\n'.join(lines[:place] + lines[place + 1:]))


def with_less_rows(case, name):
    """The cases with two rows less, and that height, in a file that may be a world; so each row stays odd or even."""
    lines = case.files[name].split(b'\n')
    height = lines[1].strip() if len(lines) > 6 else b''
    if height.isdigit() and int(height) > 4:
        lines[1] = str(int(height) - 2).encode()
        for place in range(3, len(lines) - 3):
            yield with_file(case, name, b'\n'.join(lines[:place] + lines[place + 2:]))


def with_less_cells(case, name):
    """The cases with one ant or some food less in a file that may be a world."""
    text = case.files[name]
    if len(text) < MOST_BYTES:
        for place, byte in enumerate(text):
            if byte in b'+-123456789':
                yield with_file(case, name, text[:place] + b'.' + text[place + 1:])


def smaller_cases(case):
    """The cases that are a step smaller."""
    yield from with_less_words(case)
    for name in case.files:
        yield from with_less_rows(case, name)
        yield from with_less_lines(case, name)
        yield from with_less_cells(case, name)


def differs(pair, case):
    """Whether both programs end in time and differ."""
    first, second = pair.outcomes(case)
    return first != second and None not in (first.status, second.status)


class Trials:
    """How many trials are left for a case, and how much time."""

    def __init__(self):
        self.left = MOST_TRIALS
        self.end = time.monotonic() + MOST_SECONDS

    def next(self):
        """Whether there may be one more trial, which then is taken off."""
        self.left -= 1
        return self.left >= 0 and time.monotonic() < self.end


def a_step_smaller(pair, case, trials):
    """A smaller case in which the programs differ, or None where none was found."""
    for smaller in smaller_cases(case):
        if not trials.next():
            return None
        if differs(pair, smaller):
            return smaller
    return None


def smallest(pair, case):
    """The smallest case that was found in which the programs differ."""
    if sum(len(text) for text in case.files.values()) > MOST_SIZE:
        return case
    trials = Trials()
    smaller = case
    while smaller is not None:
        case = smaller
        smaller = a_step_smaller(pair, case, trials)
    return case
