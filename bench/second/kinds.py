"""The commands and the kinds of cases, which their files register."""
import collections
import glob
import importlib
import os
import random

HERE = os.path.dirname(os.path.abspath(__file__))

Command = collections.namedtuple('Command', ['heads', 'places', 'limits', 'flags'])
Kind = collections.namedtuple('Kind', ['make', 'most', 'share'])
COMMANDS = {}
KINDS = {}


def command(word, heads, places=None, limits=None, flags=()):
    """Registers a command.

    Each of `heads` is words that it takes before its options, with the files of odd_words.SMALL_FILES. `places` has
    words near the limits of the numbers among them, by their places, and `limits` of what stands behind an option.
    `flags` are its other options.
    """
    if word in COMMANDS:
        raise ValueError('two files register the command ' + word)
    COMMANDS[word] = Command(heads, places or {}, limits or {}, list(flags))


def kind(name, most=None, share=1):
    """Registers a function as what makes the cases of a kind.

    No more cases than `most` are made, where each takes long. `share` is how common they are where cases of any command
    are wanted. A name that another kind has is an error.
    """
    def register(make):
        """Registers it."""
        if name in KINDS:
            raise ValueError('two kinds have the name %s: %s and %s' % (name, KINDS[name].make.__name__, make.__name__))
        KINDS[name] = Kind(make, most, share)
        return make
    return register


def read_files():
    """Reads the files that register commands and kinds."""
    for path in sorted(glob.glob(os.path.join(HERE, 'commands', '*.py')) + glob.glob(os.path.join(HERE, 'odd_*.py'))):
        importlib.import_module(os.path.relpath(path, HERE)[:-len('.py')].replace(os.sep, '.'))


def case_of(name, seed, number):
    """The case of this number of a kind; it depends on nothing else."""
    return KINDS[name].make(random.Random('%s-%s-%d' % (seed, name, number)))


def case_of_any(r):
    """A case of any command."""
    makers = [it.make for it in KINDS.values() for _ in range(it.share)]
    return r.choice(makers)(r)
