"""Looks into a game: its score and its ants after some rounds, without a text."""
from ctypes import Array, byref, c_size_t, c_uint8, c_uint16, c_uint32, sizeof
from mmap import mmap
from typing import Iterable, List, NamedTuple, Optional, Tuple

from . import _declared
from ._games import Score
from ._library import MOST_ROUNDS, Text, Texts, area_of, is_done, number_of, numbers_of, texts_of, whole_numbers
from ._printed import Ant, Colour

_COLOURS = Colour.RED, Colour.BLACK
_MOST_ANTS = 16384


# The fields of an ant in a `LookBuffer`, 16 bytes in the order of the machine: names and forms as numpy.dtype takes them.
_FORMS = {c_uint32: "=u4", c_uint16: "=u2", c_uint8: "u1"}
ANT_FIELDS: List[Tuple[str, str]] = [(name, _FORMS[form]) for name, form in _declared.Ant._fields_]


class Look(NamedTuple):
    """A game after a round: its score, and its ants by their ids, None for a dead one."""
    round: int
    score: Score
    ants: List[Optional[Ant]]


class LookBuffer(NamedTuple):
    """A game after some rounds, which rise, in one buffer: of each round the score, red and black in four bytes each, and then the `ids` ants by their ids in
    16 bytes each, as ANT_FIELDS has them. Of a dead ant all bytes are 0; colour is 0 for red and 1 for black, direction 0 to 5 clockwise from the east. With numpy

        numpy.frombuffer(found.data, [("red", "=u4"), ("black", "=u4"), ("ants", icfp_ants.ANT_FIELDS, found.ids)])
    """
    rounds: List[int]
    ids: int
    data: bytes


def look(world: Text, red: Text, black: Text, seed: int, rounds: Iterable[int]) -> List[Look]:
    """The score and the ants of a game after each of these rounds, in rising order. A round that is given twice is looked at once."""
    after, scores, ants, ids = _looked(texts_of(world=world, red=red, black=black), seed, rounds)
    laid = (_declared.Ant * (len(after) * ids + 1)).from_buffer(ants)
    return [
        Look(number, Score(scores[place].red, scores[place].black), [_ant(id, laid[place * ids + id]) for id in range(ids)])
        for place, number in enumerate(after)
    ]


def look_buffer(world: Text, red: Text, black: Text, seed: int, rounds: Iterable[int]) -> LookBuffer:
    """What `look` returns, as one buffer instead of tuples."""
    after, scores, ants, ids = _looked(texts_of(world=world, red=red, black=black), seed, rounds)
    told, laid, size = bytes(scores), memoryview(ants), ids * sizeof(_declared.Ant)
    each = ((told[8 * place:8 * place + 8], laid[size * place:size * (place + 1)]) for place in range(len(after)))
    return LookBuffer(after, ids, b"".join(part for parts in each for part in parts))


def _looked(game: Texts, seed: int, rounds: Iterable[int]) -> "Tuple[List[int], Array[_declared.Score], mmap, int]":
    """The rounds, their scores, the room with the ants of each, and how many ids there are."""
    after = sorted(set(whole_numbers("rounds", rounds, most=MOST_ROUNDS)))
    most = len(after) * min(sum(map(game["world"].count, (b"+", b"-"))), _MOST_ANTS)  # as many as there are cells of hills
    scores, count = (_declared.Score * (len(after) + 1))(), c_size_t()
    area = area_of((most + 1) * sizeof(_declared.Ant))
    ants = (_declared.Ant * (most + 1)).from_buffer(area)
    given = byref(c_uint32.from_buffer(numbers_of("rounds", after))), len(after)
    is_done("ants_look", game, number_of("seed", seed), *given, scores, len(after), ants, most, byref(count))
    return after, scores, area, count.value


def _ant(id: int, it: _declared.Ant) -> Optional[Ant]:
    return Ant(id, _COLOURS[it.colour], it.column, it.row, it.direction, it.laden, it.state, it.resting) if it.alive else None
