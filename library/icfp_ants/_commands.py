"""The commands that report on games and brains, each as a function with its options."""
from typing import List, Mapping, Optional, Tuple

from ._calling import output_of
from ._games import Score, counts_of, game_output, score_of
from ._library import MOST_LISTED, MOST_ROUNDS, Text, Texts, bytes_of, line_of, names_of, number_of, texts_of
from ._printed import (
    Act, Carried, Colour, Cup, Death, Event, Executed, Label, Line, Played, Printed, Renumbered, Standing, Step, Stop, Traced, Workload, cell_of,
    tuples_of, uses_of,
)

_MOST_ID = 16383
_MOST_SEEDS = 1000


def _from(start: Optional[int]) -> List[object]:
    """The option for the first round that counts, if it is given."""
    return [] if start is None else ["--from", number_of("start", start, most=MOST_ROUNDS)]


def _missing(lines: List[str], ant: Optional[int]) -> None:
    """Raises a ValueError if the world never had the ant of this id."""
    if lines[:1] == ["no ant of id %s" % ant]:
        raise ValueError("ant: the world has no ant of id %s" % ant)


def show(world: Text, seed: int) -> str:
    """What `ants show` prints of a world at the start of a game: its dump after round 0."""
    return output_of(["show", "world", number_of("seed", seed)], texts_of(world=world))


def view(world: Text, red: Text, black: Text, breaks: Text, seed: int, rounds: int, start: Optional[int] = None) -> Optional[Stop]:
    """The first turn, in round `start` or later, after which one of these breaks holds, or None. The text of the stop has the world at that moment, which
    `cells` reads.
    """
    text = game_output("view", texts_of(world=world, red=red, black=black, breaks=breaks), (), seed, rounds, (), *_from(start))
    line = text.split("\n", 2)[1]
    if line.startswith("no stop "):
        return None
    [(number, ant, held)] = tuples_of(r"stop: round (\d+), ant (\d+), break (\d+)", [line])
    return Stop(int(number), int(ant), int(held), text)


def trace(
    world: Text, red: Text, black: Text, ant: int, seed: int, rounds: int, start: int = 0, surround: int = 5, corpse: int = 3, rest: int = 14,
    most: int = MOST_LISTED,
) -> Printed[Traced]:
    """Where the ant of this id is after each round from `start` on, up to the one after which it is dead.

    An id that the world has no ant of is a ValueError. The text has at most `most` bytes.
    """
    game, places = texts_of(world=world, red=red, black=black), [number_of("ant", ant, most=_MOST_ID)]
    options = "--from", number_of("start", start, most=MOST_ROUNDS)
    text = game_output("trace", game, places, seed, rounds, (surround, corpse, rest), *options, most=most)
    lines = text.split("\n")[1:-1]
    _missing(lines, places[0])
    found = tuples_of(r"round (\d+): (.*)", lines)
    return Printed(text, (Traced(int(number), None if said == "dead" else cell_of(said)) for number, said in found))


def events(
    world: Text, red: Text, black: Text, seed: int, rounds: int, surround: int = 5, corpse: int = 3, rest: int = 14, most: int = MOST_LISTED,
    food: bool = False, start: Optional[int] = None,
) -> Printed[Event]:
    """Who dies in a game, each change of the score, and with `food` who takes and who drops food, turn after turn from round `start` on.

    The text has at most `most` bytes.
    """
    options = [*_from(start), *(["--food"] if food else [])]
    text = game_output("events", texts_of(world=world, red=red, black=black), (), seed, rounds, (surround, corpse, rest), *options, most=most)
    death, score = r"(\w+) ant (\d+) dies on \((\d+), (\d+)\)", r"score: red (\d+) black (\d+)"
    carried = r"state (\d+) (takes|drops) food on \((\d+), (\d+)\)(?:, (red|black) hill)?"
    form = r"round (\d+), (\w+) ant (\d+): (?:%s|%s|%s)" % (death, score, carried)
    return Printed(text, map(_event, tuples_of(form, text.split("\n")[1:-1])))


def _event(found: Tuple[str, ...]) -> Event:
    number, colour, ant, killed, *others = found
    turn = int(number), Colour(colour), int(ant)
    if killed:
        return Event(*turn, Death(Colour(killed), *map(int, others[:3])), None)
    state, verb, column, row, hill = others[5:]
    if state:
        return Event(*turn, None, None, Carried(int(state), verb == "takes", int(column), int(row), Colour(hill) if hill else None))
    return Event(*turn, None, Score(*map(int, others[3:5])))


def acts(
    world: Text, red: Text, black: Text, seed: int, rounds: int, start: Optional[int] = None, ant: Optional[int] = None, surround: int = 5,
    corpse: int = 3, rest: int = 14, most: int = MOST_LISTED,
) -> Printed[Act]:
    """What each ant executed in a game, turn after turn from round `start` on, or only the ant of this id.

    An id that the world has no ant of is a ValueError. The text has at most `most` bytes.
    """
    options = [*_from(start), *([] if ant is None else ["--ant", number_of("ant", ant, most=_MOST_ID)])]
    text = game_output("acts", texts_of(world=world, red=red, black=black), (), seed, rounds, (surround, corpse, rest), *options, most=most)
    lines = text.split("\n")[1:-1]
    _missing(lines, ant)
    found = tuples_of(r"round (\d+), (\w+) ant (\d+): on \((\d+), (\d+)\), dir (\d), food (\d), state (\d+): (.*): (met|unmet)", lines)
    return Printed(text, map(_act, found))


def _act(found: Tuple[str, ...]) -> Act:
    number, colour, *numbers, instruction, answer = found
    ant, column, row, direction, food, state = map(int, numbers)
    return Act(int(number), Colour(colour), ant, column, row, direction, food, state, instruction, answer == "met")


def profile(
    world: Text, red: Text, black: Text, seed: int, rounds: int, surround: int = 5, corpse: int = 3, rest: int = 14, start: Optional[int] = None,
) -> Printed[Executed]:
    """How often each state of the red brain, and then of the black one, was executed in a game, from round `start` on."""
    text = game_output("profile", texts_of(world=world, red=red, black=black), (), seed, rounds, (surround, corpse, rest), *_from(start))
    found = tuples_of(r"(\w+) (\d+): (\d+) times(?:, (\d+) met)?: (.*)", text.split("\n")[1:-1])
    return Printed(text, (Executed(Colour(colour), int(state), int(times), int(met) if met else None, said) for colour, state, times, met, said in found))


def _files(kind: str, texts: Mapping[str, Text], least: int) -> Texts:
    """The texts of a cup by their names, which must be words that name files."""
    names = names_of(kind, texts)
    number_of(kind, len(names), least, 16)
    for name in names:
        if not name or name.startswith("--") or "\n" in name:
            raise ValueError("%s[%r]: no name of a file" % (kind, name))
        line_of(kind, name)
    return {name: bytes_of("%s[%r]" % (kind, name), text) for name, text in texts.items()}


def cup(
    worlds: Mapping[str, Text], brains: Mapping[str, Text], seed: int, rounds: int, games: bool = False, seeds: Optional[int] = None,
    leads: bool = False, gauntlet: bool = False,
) -> Cup:
    """The standing of all games between brains on worlds, by their names, and the games if `games` says so.

    `seeds`, 1 to 1,000, is with how many seeds each pair plays each world, from `seed` on; then each game has its seed. `leads` adds to each standing the
    food by which the brain leads. With `gauntlet` only the first brain's games are played.
    """
    grounds, minds = _files("worlds", worlds, 1), _files("brains", brains, 2)
    for name in grounds.keys() & minds.keys():
        raise ValueError("brains[%r]: a world has this name" % name)
    words = ["cup", "--worlds", *grounds, "--brains", *minds, "--seed", number_of("seed", seed), "--rounds", number_of("rounds", rounds, most=MOST_ROUNDS)]
    words += [] if seeds is None else ["--seeds", number_of("seeds", seeds, 1, _MOST_SEEDS)]
    words += [option for option, is_given in (("--games", games), ("--leads", leads), ("--gauntlet", gauntlet)) if is_given]
    shown = ["worlds[%r]" % it for it in grounds] + ["brains[%r]" % it for it in minds]
    text = output_of(words, {**grounds, **minds}, shown)
    names = list(minds)
    firsts = enumerate(names[:1] if gauntlet else names)
    pairs = [pair for place, first in firsts for second in names[place + 1:] for pair in ((first, second), (second, first))]
    lines = text.split("\n")[:-1]
    found = tuples_of(r"game \d+: red (\d+) black (\d+), %s.*" % ("" if seeds is None else r"seed (\d+), "), lines[:-len(names)])
    played = [_played(ground, *pair, next(found)) for ground in grounds for _ in range(seeds or 1) for pair in pairs] if games else []
    table = tuples_of(r"(\d+) points: (.*) \((\d+) won, (\d+) drawn, (\d+) lost\)" + (r", lead (-?\d+)" if leads else ""), lines[-len(names):])
    return Cup([Standing(int(points), name, *map(int, counts)) for points, name, *counts in table], played, text)


def _played(world: str, red: str, black: str, found: Tuple[str, ...]) -> Played:
    """A game by the numbers of its line: the score, and the seed if the line has it."""
    food_of_red, food_of_black, *seed = map(int, found)
    return Played(world, red, black, Score(food_of_red, food_of_black), *seed)


def labels(program: Text, most: int = MOST_LISTED) -> Printed[Label]:
    """The labels of a program, each with the state to which it leads. A text of more than `most` bytes is a ValueError.

    Each use of a block repeats its labels: 74 KB of a program may have 20 million lines, and each takes some 300 bytes here.
    """
    text = output_of(["asm", "program", "--labels"], texts_of(program=program), most=most)
    found = tuples_of(r"(\d+) (?:(.*)/)?(\w+)", text.split("\n")[:-1])
    return Printed(text, (Label(int(state), uses_of(uses or ""), name) for state, uses, name in found))


def lines(program: Text, most: int = MOST_LISTED) -> Printed[Line]:
    """For each state of the brain that a program becomes, the line of its instruction. A text of more than `most` bytes is a ValueError."""
    text = output_of(["asm", "program", "--lines"], texts_of(program=program), most=most)
    found = tuples_of(r"(\d+) (\d+)(?: (.*))?", text.split("\n")[:-1])
    return Printed(text, (Line(int(state), uses_of(uses or ""), int(line)) for state, line, uses in found))


def way(first: Text, second: Text) -> Printed[Step]:
    """The states through which two brains come to where they first differ, which is the last one; none if they are the same."""
    text = output_of(["same", "first", "second", "--way"], texts_of(first=first, second=second))
    if text == "same\n":
        return Printed(text, [])
    *answers, one, other = text.split("\n")[1:-1]
    found = tuples_of(r"first (\d+): (.*), second (\d+): (.*?)(?:: (met|unmet))?", [*answers, one + ", " + other])
    return Printed(text, (Step(int(a), its, int(b), others, answer == "met" if answer else None) for a, its, b, others, answer in found))


def states(brain: Text) -> Printed[Renumbered]:
    """For each state of a brain its number in the minimised one."""
    text = output_of(["minimise", "brain", "--states"], texts_of(brain=brain))
    found = tuples_of(r"(\d+) (?:(\d+)|dropped)", text.split("\n")[:-1])
    return Printed(text, (Renumbered(int(old), int(new) if new else None) for old, new in found))


def workload(seed: int, rounds: int) -> Workload:
    """What came of a game of the contest's size that needs no file."""
    text = output_of(["workload", number_of("seed", seed), number_of("rounds", rounds, most=MOST_ROUNDS), 1], {})
    [(ants, food, red, black)] = tuples_of(r"ants (\d+), food (\d+), alive red (\d+) black (\d+)", [", ".join(text.split("\n")[1:4])])
    return Workload(int(ants), int(food), int(red), int(black), score_of(text), counts_of(text))
