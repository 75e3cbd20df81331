"""Random cases of several faults at once, of large files, and of a full output."""
from brains import any_brain, instruction
from breaks import Game, break_text
from cases import Case, seed_and_rounds, shuffled
from kinds import COMMANDS, case_of_any, kind
from odd_words import SMALL_FILES
from programs import doubling, many_blocks, many_labels, text_of
from saves import Save, any_save, faulty_save
from spelling import chance
from worlds import any_world

ONE_ANT = b'3\n3\n###\n#+#\n###\n'


def any_text(r, name):
    """Any text for this name of SMALL_FILES, often a faulty one."""
    if name in 'wv':
        return any_world(r, .3)
    if name == 'k':
        return break_text(r, .5, Game(10, 10, 30, 12))
    if name == 's':
        return faulty_save(r, any_save(r))
    return any_brain(r, .3)


@kind('order', share=0)
def case_of_order(r):
    """Several files, of which more than one may be refused."""
    case = Case()
    case.stdin = r.choice([b'', b'Drop 0\n', ONE_ANT, b'\x80'])
    command = r.choice([it for it in COMMANDS.values() if len(set(it.heads[0]) & set(SMALL_FILES)) > 1])
    for word in r.choice(command.heads):
        if word in SMALL_FILES and chance(r, .25):
            word = r.choice(['nofile', 'sub', '-', 'nofile' + word])
        elif word in SMALL_FILES:
            case.files[word] = any_text(r, word)
        case.words.append(word)
    options = [[flag] for flag in command.flags if chance(r, .5)]
    if '--seed' in command.limits:
        options += seed_and_rounds(r, r.randrange(4))
    case.words += shuffled(r, options)
    return case


def world_of(width, height, cell):
    """The text of a world with one kind of cells in its rim."""
    rim = '#' * width
    rows = [rim] + ['#' + cell * (width - 2) + '#'] * (height - 2) + [rim]
    return ('%d\n%d\n' % (width, height) + '\n'.join(rows)).encode()


def tellings(r):
    """Options of `asm`."""
    return r.choice([[], ['--labels'], ['--lines'], ['--lines', '--labels']])


def long_brain(r):
    """A brain of about as many bytes as a file may have."""
    size = r.choice([4194303, 4194304, 4194305, 4194306])
    words = r.choice([['brain', 'f'], ['minimise', 'f'], ['minimise', 'f', '--states'], ['asm', 'f'] + tellings(r)])
    start = r.choice([b'Drop next ;', b'go: ;\n\nDrop next ;']) if words[0] == 'asm' else b'Drop 0 ;'
    return Case(words, {'f': start.ljust(size)})


def long_world(r):
    """A world of about as many bytes as a file may have."""
    return Case(['show', 'f', '1'], {'f': ONE_ANT.ljust(r.choice([4194304, 4194305]), b'\n')})


def many_instructions(r):
    """About as many instructions as a brain may have."""
    count = r.choice([9999, 10000, 10001, 10002])
    last = r.choice([b'Drop 0\n', b'x', b'\x80', b';x\n', b'  \n'])
    return Case(['brain', '-'], stdin=b'Drop 0\n' * min(count, 10000) + last * (count - 10000))


def high_states(r):
    """A large brain with a state that may be beyond it."""
    state = r.choice([9998, 9999, 10000, 10001])
    return Case(['brain', 'f'], {'f': b'Move 0 %d\n' % state * r.choice([9999, 10000])})


def many_ants(r):
    """About as many ants as a world may have."""
    width, height = r.choice([(130, 130), (131, 130), (130, 131)])
    text = world_of(width, height, '+')
    if chance(r, .4):
        text = text.replace(b'#+', b'#.', r.choice([125, 126, 127, 128, 129]))
    return Case(['show', 'f', '1'], {'f': text})


def wide_world(r):
    """A world as wide or as high as one may be."""
    width, height = r.choice([(512, 3), (3, 512), (512, 10), (513, 3)])
    return Case(['show', 'f', '1'], {'f': world_of(width, height, '.')})


def full_output(r):
    """A case whose output is taken by nobody."""
    case = case_of_any(r)
    case.is_full = True
    case.further = []
    return case


def many_breaks(r):
    """About as many breaks as there may be."""
    count = r.choice([255, 256, 257])
    breaks = b'Round 3\n' * min(count, 256) + r.choice([b'x', b'Round 1']) * (count - 256)
    words = ['view', 'w', 'b', 'b', 'k', '--seed', '1', '--rounds', '4']
    return Case(words, {'w': ONE_ANT, 'b': b'Drop 0', 'k': breaks})


def many_states(r):
    """A brain of some hundred states to minimise."""
    count = r.choice([200, 500])
    text = '\n'.join(instruction(r, count) for _ in range(count)).encode()
    return Case(['minimise', 'f'] + r.choice([[], ['--states']]), {'f': text})


def doubled_program(r):
    """A program whose brain has about as many instructions as there may be."""
    return Case(['asm', 'f'] + tellings(r), {'f': doubling(r)})


def program_of_many_blocks(r):
    """A program with about as many blocks as there may be."""
    return Case(['asm', 'f'] + tellings(r), {'f': many_blocks(r)})


def program_of_many_labels(r):
    """A program whose labels come to many lines."""
    return Case(['asm', 'f', '--labels'] + r.choice([[], ['--lines']]), {'f': many_labels(r)})


def plain_program(r):
    """About as many instructions as a program may have, without a block."""
    count = r.choice([9999, 10000, 10001])
    text = text_of(r, ['Move next next'] * count + r.choice([[], ['@end:'], ['x'], ['end']]), 0)
    return Case(['asm', '-'] + tellings(r), stdin=text)


def words_for_save(r, rounds):
    """The words of a command that goes on with a save, with some of its flags."""
    name = r.choice([name for name, it in COMMANDS.items() if it.heads == [[name, 's']]])
    return [name, 'f', '--rounds', rounds] + [flag for flag in COMMANDS[name].flags if chance(r, .5)]


def long_save(r):
    """A save with brains of as many lines as there may be, or of about as many bytes as a file may have."""
    save = Save(['###', '#+#', '###'])
    save.brains['red'] = ['Drop %d' % ((number + 1) % 10000) for number in range(10000)]
    save.brains['black'] = ['Flip 4294967295 9999 0'] * r.choice([9999, 10000, 10001])
    text = save.text()
    if chance(r, .3):
        text = text.ljust(r.choice([4194303, 4194304, 4194305]), b'\n')
    return Case(words_for_save(r, '2'), {'f': text})


def crowded_save(r):
    """A save with about as many hill cells as there may be, or as wide as a world may be."""
    width, height = r.choice([(130, 130), (131, 130), (512, 3), (512, 35), (513, 3), (2, 3)])
    rim = '#' * width
    save = Save([rim] + ['#' + '+' * (width - 2) + '#'] * (height - 2) + [rim])
    return Case(words_for_save(r, '0'), {'f': save.text()})


LARGE_CASES = [
    long_brain, long_world, many_instructions, high_states, many_ants, wide_world, full_output, many_breaks,
    many_states, doubled_program, program_of_many_blocks, program_of_many_labels, plain_program, long_save,
    crowded_save,
]


@kind('size', most=180, share=0)
def case_of_size(r):
    """Files at a limit of their size, and a full output."""
    return LARGE_CASES[r.randrange(len(LARGE_CASES))](r)
