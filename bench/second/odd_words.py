"""Random cases of words at fault, and of numbers at their limits."""
from cases import DUMP, ROUNDS, Case, shuffled
from kinds import COMMANDS, case_of_any, kind
from saves import Save
from spelling import chance

OTHER_WORDS = [
    '--', '-', '---', '-x', '--help', '--version', '--Seed', '--seed=1', '--SEED', '--label', '--Games',
    '', ' ', 'w', 'r', 'b', './--w', 'a b', 'é', '--é', '0', '1', '2', '3', '4', '5', '6', '7', '9', '10', '14', '16', '17', '255', '256', '512',
    '513', '16384', '16385', '1000000', '1000001', '4294967295', '4294967296', '9999999999', '10000000000',
    '0000000001', '00000000001', '-1', '+1', '01', 'x', '1x', '0x1', '1 ', ' 1', '1.0', '٣', 'none', 'all',
]
SMALL_FILES = {
    'w': b'4\n4\n####\n#+.#\n#-.#\n####\n',
    'v': b'3\n3\n###\n#-#\n###\n',
    'r': b'Flip 2 0 0\n',
    'b': b'Move 0 0\n',
    'a': b'Drop 0\n',
    'k': b'Killed 0\n',
    's': Save(['####', '#+.#', '#-.#', '####']).text(),
}


def any_word(r):
    """A word that some command takes, or one near such a word."""
    taken = [words for it in COMMANDS.values() for words in it.heads + [it.flags, it.limits]]
    options = sorted({word for words in taken for word in words if word[:2] == '--'})
    return r.choice(list(COMMANDS) + ['help', 'minimize', 'Show'] + options + OTHER_WORDS + DUMP['--dump'])


def first_words(r):
    """The words of a command that ends before its files."""
    name = r.choice(list(COMMANDS))
    usual = [[name, flag] for flag in COMMANDS[name].flags] + [[name]]
    return r.choice(usual + [[], ['help', 'x'], ['--help', 'x'], ['--version'], ['--version', '--version']])


def with_option_twice(r, words):
    """The words, and at their end one or two of them again from an option on."""
    places = [place for place in range(len(words)) if words[place].startswith('--')]
    if not places:
        return words
    place = r.choice(places)
    return words + words[place:place + 2]


def with_other_word(r, words):
    """The words with one of them taken away, changed, added, doubled or moved."""
    way = r.random()
    if not words:
        return [any_word(r)]
    place = r.randrange(len(words))
    if way < .2:
        del words[place]
    elif way < .35:
        words = words[:place]
    elif way < .6:
        words[place] = any_word(r)
    elif way < .75:
        words.insert(r.randint(0, len(words)), any_word(r))
    elif way < .85:
        words.insert(r.randint(0, len(words)), words[place])
    elif way < .92:
        other = r.randrange(len(words))
        words[place], words[other] = words[other], words[place]
    else:
        words = with_option_twice(r, words)
    return words


def is_between(word, least, most):
    """Whether the word is a number of at most 10 digits from least to most."""
    return word.isdigit() and word.isascii() and len(word) <= 10 and least <= int(word) <= most


def without_long_games(words):
    """The words with few rounds, and with few seeds, in place of very many."""
    words = list(words)
    for place in range(1, len(words)):
        is_rounds = words[0] in COMMANDS and COMMANDS[words[0]].places.get(place) is ROUNDS
        if (is_rounds or words[place - 1] == '--rounds') and is_between(words[place], 601, 1000000):
            words[place] = '3'
        if words[place - 1] == '--seeds' and is_between(words[place], 8, 1000):
            words[place] = '3'
    return words


def with_many_names(r, words):
    """The words of a cup with about as many worlds and brains as there may be."""
    place = words.index('--brains')
    names = ['x%d' % number for number in range(r.choice([15, 16, 17]))]
    worlds = ['y'] * r.choice([1, 15, 16, 17])
    return words[:2] + worlds + ['--brains'] + names + words[place + 3:]


@kind('words', share=0)
def case_of_words(r):
    """Words of which most often one is refused."""
    if r.random() < .03:
        return Case(first_words(r))
    case = case_of_any(r)
    if case.words[0] == 'cup' and chance(r, .1):
        case.words = with_many_names(r, case.words)
    case.further = []
    for _ in range(r.choice([1, 1, 1, 2, 2, 3])):
        case.words = with_other_word(r, case.words)
    case.words = without_long_games(case.words)
    if case.words in (['--help'], ['help']):  # its page stands in the program alone
        case.words = ['--version']
    return case


@kind('limits', share=0)
def case_of_limits(r):
    """Numbers at their limits, as words and behind options."""
    command = r.choice([it for it in COMMANDS.values() if it.places or it.limits])
    case = Case(r.choice(command.heads), SMALL_FILES)
    for place, values in command.places.items():
        if chance(r, .6):
            case.words[place] = r.choice(values)
    options = [[flag] for flag in command.flags if chance(r, .3)]
    for name, values in command.limits.items():
        if name in ('--seed', '--rounds') or chance(r, .4):
            value = r.choice(values)
            if chance(r, .1) and is_between(value, 0, 999999999):
                value = value.zfill(r.choice([10, 11]))
            options.append([name, value])
    case.words += shuffled(r, options)
    return case
