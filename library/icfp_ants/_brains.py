"""Brains, programs with labels that become brains, and generated worlds."""
import re
from typing import NamedTuple, Optional

from ._calling import output_of
from ._library import Text, number_of, texts_of


class Difference(NamedTuple):
    """Where two brains first differ: after how many answers, and in which state each is then, with its instruction there.

    An answer is the outcome of an instruction: always met if it names one state, and met or unmet if it names two.
    """
    answers: int
    first_state: int
    first: str
    second_state: int
    second: str


def brain(brain: Text) -> str:
    """The canonical text of a brain."""
    return output_of(["brain", "brain"], texts_of(brain=brain))


def minimise(brain: Text) -> str:
    """The canonical text of the brain with equivalent states merged and unreached ones dropped: what `ants minimise` prints below its first line."""
    return output_of(["minimise", "brain"], texts_of(brain=brain)).partition("\n")[2]


def asm(program: Text) -> str:
    """The canonical text of the brain that a program with labels and blocks becomes."""
    return output_of(["asm", "program"], texts_of(program=program))


def same(first: Text, second: Text) -> bool:
    """Whether two brains are the same except for the numbers of their states."""
    return difference(first, second) is None


def difference(first: Text, second: Text) -> Optional[Difference]:
    """Where two brains first differ, or None if they are the same except for the numbers of their states."""
    text = output_of(["same", "first", "second"], texts_of(first=first, second=second))
    if text == "same\n":
        return None
    found = re.fullmatch(r"different after (\d+) answers\nfirst (\d+): (.*)\nsecond (\d+): (.*)\n", text)
    assert found, text
    return Difference(int(found[1]), int(found[2]), found[3], int(found[4]), found[5])


def gen(seed: int, width: int = 150, height: int = 150, rocks: int = 14, blobs: int = 11) -> str:
    """A world in the contest's manner, as `ants gen` prints it: of 3 to 512 columns and rows, with 0 to 255 rocks and blobs of food, if all have room."""
    words = ["gen", number_of("seed", seed), "--width", number_of("width", width, 3, 512), "--height", number_of("height", height, 3, 512)]
    return output_of(words + ["--rocks", number_of("rocks", rocks, most=255), "--blobs", number_of("blobs", blobs, most=255)], {})
