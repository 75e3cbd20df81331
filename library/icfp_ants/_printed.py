"""What commands print, as tuples."""
import enum
import re
from typing import Iterable, Iterator, List, NamedTuple, Optional, Tuple, TypeVar

from ._games import Counts, Score
from ._library import str_of

T = TypeVar("T")


class Printed(List[T]):
    """What a command prints, as a list; `text` is all of it as the program writes it."""

    def __init__(self, text: str, items: Iterable[T]) -> None:
        super().__init__(items)
        self.text = text


class Colour(enum.Enum):
    """A colour of ants, hills and markers."""
    RED = "red"
    BLACK = "black"


class Ant(NamedTuple):
    """An ant: its direction is 0 to 5, food is 1 if it carries some, and resting is how many turns it still rests."""
    id: int
    colour: Colour
    column: int
    row: int
    direction: int
    food: int
    state: int
    resting: int


class Cell(NamedTuple):
    """A cell, with the colour of the hill that it belongs to, the numbers of the markers that are set, and the ant that is on it."""
    column: int
    row: int
    is_rock: bool
    food: int
    hill: Optional[Colour]
    red_marks: Tuple[int, ...]
    black_marks: Tuple[int, ...]
    ant: Optional[Ant]


class Traced(NamedTuple):
    """The cell of an ant after a round, or None if it is dead."""
    round: int
    cell: Optional[Cell]


class Stop(NamedTuple):
    """The turn after which a game stopped, by its round and its ant, and the break that held then, by its number from 1."""
    round: int
    ant: int
    number: int
    text: str


class Death(NamedTuple):
    """An ant that is killed, and the cell where it dies."""
    colour: Colour
    ant: int
    column: int
    row: int


class Carried(NamedTuple):
    """Food that an ant takes or drops by the instruction of this state, and the cell, with the colour of the hill that it belongs to."""
    state: int
    is_taken: bool
    column: int
    row: int
    hill: Optional[Colour]


class Event(NamedTuple):
    """What happens in the turn of the ant of this colour and id: one dies, the score changes, or the ant takes or drops food. Of these three exactly one is
    not None.
    """
    round: int
    colour: Colour
    ant: int
    death: Optional[Death]
    score: Optional[Score]
    food: Optional[Carried] = None


class Act(NamedTuple):
    """An instruction that an ant of this colour and id executes. The cell, the direction, the food and the state are those before it. `met` is its answer,
    and True if it names one state only.
    """
    round: int
    colour: Colour
    ant: int
    column: int
    row: int
    direction: int
    food: int
    state: int
    instruction: str
    met: bool


class Executed(NamedTuple):
    """How often a state was executed, and how often it was met: its instruction led to the first of two states; None if it names one."""
    colour: Colour
    state: int
    times: int
    met: Optional[int]
    instruction: str


class Workload(NamedTuple):
    """What came of a game that needs no file: the ants and the food at its start, the ants of each colour at its end, the score and the counts."""
    ants: int
    food: int
    red: int
    black: int
    score: Score
    counts: Counts


class Use(NamedTuple):
    """A use of a block of a program, and its line."""
    block: str
    line: int


class Label(NamedTuple):
    """A label of a program, the state that it leads to, and the uses on the way to it."""
    state: int
    uses: Tuple[Use, ...]
    name: str


class Line(NamedTuple):
    """A state of a program's brain, the line of its instruction, and the uses on the way to it."""
    state: int
    uses: Tuple[Use, ...]
    line: int


class Renumbered(NamedTuple):
    """A state of a brain, and which state of the minimised one it became, or None if it was dropped."""
    old: int
    new: Optional[int]


class Step(NamedTuple):
    """Two brains side by side: the state of each with its instruction, and whether the answer was met; None if they differ."""
    first_state: int
    first: str
    second_state: int
    second: str
    met: Optional[bool]


class Standing(NamedTuple):
    """A brain's place in a cup. `lead` is its food minus that of its opponents, over all its games, or None if leads weren't requested."""
    points: int
    brain: str
    won: int
    drawn: int
    lost: int
    lead: Optional[int] = None


class Played(NamedTuple):
    """A game of a cup: the names of its world and its brains, its score, and its seed if the number of seeds was given."""
    world: str
    red: str
    black: str
    score: Score
    seed: Optional[int] = None


class Cup(NamedTuple):
    """A cup: the brains by their points, and the games in the order of play."""
    standing: List[Standing]
    games: List[Played]
    text: str


_ANT = r"(red|black) ant of id (\d+), dir (\d), food (\d), state (\d+), resting (\d+)"
_CELL = re.compile(
    r"cell \((\d+), (\d+)\): (?:(rock)|(?:(\d+) food; )?(?:(red|black) hill; )?(?:red marks: (\d+); )?(?:black marks: (\d+); )?(?:%s)?)" % _ANT)


def cell_of(line: str) -> Cell:
    """The cell of a line of a dump."""
    found = _CELL.fullmatch(line)
    if not found:
        raise ValueError("not a line of a dump: %s" % line)
    rock, food, hill, red_marks, black_marks, colour, id, *numbers = found.groups()[2:]
    column, row = int(found[1]), int(found[2])
    ant = Ant(int(id), Colour(colour), column, row, *map(int, numbers)) if colour else None
    return Cell(column, row, bool(rock), int(food or 0), Colour(hill) if hill else None, _digits(red_marks), _digits(black_marks), ant)


def _digits(text: Optional[str]) -> Tuple[int, ...]:
    return tuple(map(int, text or ""))


def cells(dump: str) -> List[Cell]:
    """The cells of a dump, row by row: of a text that has one, as `show` and `run` print it, or that of a `Stop`; of several dumps in their order."""
    return [cell_of(line) for line in str_of("dump", dump).split("\n") if line.startswith("cell ")]


def uses_of(text: str) -> Tuple[Use, ...]:
    """The uses of a text that has `/` between them."""
    parts = (it.split("@") for it in text.split("/") if it)
    return tuple(Use(block, int(line)) for block, line in parts)


def tuples_of(pattern: str, lines: Iterable[str]) -> Iterator[Tuple[str, ...]]:
    """The groups of lines, each of which has this form."""
    form = re.compile(pattern)
    for line in lines:
        found = form.fullmatch(line)
        if not found:
            raise ValueError("not a line of this form: %s" % line)
        yield found.groups()
