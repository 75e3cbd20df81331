"""Games of two brains on a world, and their saves."""
import concurrent.futures
import re
import struct
from ctypes import byref, c_uint32, sizeof
from typing import Callable, Dict, Iterable, List, NamedTuple, Tuple

from . import _declared
from ._calling import output_of
from ._library import MOST_BYTES, MOST_ROUNDS, Answer, Text, Texts, bytes_of, is_done, library, number_of, numbers_of, str_of, texts_of, whole_numbers

_MOST_WORKERS = 256
_MOST_WINDOW = 16384
_PARTS = 8  # of the games for each worker, so that all end at much the same time


class Score(NamedTuple):
    """The food on the cells of each hill."""
    red: int
    black: int


class Counts(NamedTuple):
    """Of all turns of a game, how many were taken as they were looked at, and how many were executed again."""
    turns: int
    taken: int
    redone: int


def _rounds(value: int) -> int:
    return number_of("rounds", value, most=MOST_ROUNDS)


def _dump(dumps: Iterable[int], rounds: int) -> List[str]:
    """The option for dumps after these rounds, each once: there is none after the last round."""
    found = sorted({it for it in whole_numbers("dumps", dumps) if it <= rounds})
    return ["--dump", ",".join(map(str, found))] if found else []


def game_output(
    command: str, game: Texts, places: Iterable[int], seed: int, rounds: int, sheet: Tuple[int, ...], *options: object, most: int = MOST_BYTES,
) -> str:
    """What a command prints of a game, with the numbers that come after its files, the numbers of the rules if they are given, and more options."""
    words = [command, *game, *places, "--seed", number_of("seed", seed), "--rounds", _rounds(rounds), *options]
    for name, value, least, greatest in zip(("surround", "corpse", "rest"), sheet, (4, 0, 0), (6, 9, 255)):
        words += ["--" + name, number_of(name, value, least, greatest)]
    return output_of(words, game, most=most)


def _window(value: int) -> Tuple[str, int]:
    return "--window", number_of("window", value, 1, _MOST_WINDOW)


def _stats(stats: bool) -> List[str]:
    return ["--stats"] if stats else []


def score(world: Text, red: Text, black: Text, seed: int, rounds: int) -> Score:
    """The score of a game after this number of rounds."""
    game = texts_of(world=world, red=red, black=black)
    found = _declared.Score()
    is_done("ants_score", game, number_of("seed", seed), _rounds(rounds), byref(found))
    return Score(found.red, found.black)


def scores(world: Text, red: Text, black: Text, seeds: Iterable[int], rounds: int, workers: int = 1) -> List[Score]:
    """The score of a game for each of these seeds, by the given number of threads. One thread reads the texts once."""
    game = texts_of(world=world, red=red, black=black)
    return _scores_of_games(game["world"], [(game["red"], game["black"])], lambda place: list(game), seeds, rounds, workers)[0]


def scores_of_pairs(world: Text, pairs: Iterable[Tuple[Text, Text]], seeds: Iterable[int], rounds: int, workers: int = 1) -> List[List[Score]]:
    """For each pair of a red and a black brain, the scores of its games for each of these seeds, by the given number of threads.

    A refused text is named by its place, such as "pairs[3][1]" for the black brain of the fourth pair. If several are refused, it is that of the first pair.
    A pair is read when its games begin, so a refusal may be raised late, and then no score is returned. Without a pair no text is read.
    """
    ground, listed = bytes_of("world", world), [_pair(place, pair) for place, pair in enumerate(pairs)]
    held: Dict[int, bytes] = {}  # by the text, so that one of many pairs is held once
    for place, pair in enumerate(listed):
        for side, text in enumerate(pair):
            if id(text) not in held:
                held[id(text)] = bytes_of(f"pairs[{place}][{side}]", text)
    games = [(held[id(red)], held[id(black)]) for red, black in listed]
    return _scores_of_games(ground, games, lambda place: ["world", f"pairs[{place}][0]", f"pairs[{place}][1]"], seeds, rounds, workers)


def _pair(place: int, pair: Tuple[Text, Text]) -> Tuple[Text, Text]:
    """The two brains of a pair."""
    try:
        red, black = pair
    except (TypeError, ValueError):
        raise TypeError("pairs[%d]: a red and a black brain are wanted" % place) from None
    return red, black


def _scores_of_games(
    world: bytes, games: List[Tuple[bytes, bytes]], names: Callable[[int], List[str]], seeds: Iterable[int], rounds: int, workers: int,
) -> List[List[Score]]:
    """The scores of each two brains for each seed. They are dealt out in parts, of some seeds of one game up to all seeds of some games."""
    rounds, workers = _rounds(rounds), number_of("workers", workers, 1, _MOST_WORKERS)
    numbers = numbers_of("seeds", seeds)
    count = len(numbers) - 1
    row = max(count, 1)  # without a seed each game is one of none: its texts are read
    total = len(games) * row
    size = total if workers == 1 else max(1, total // (workers * _PARTS))
    found = (_declared.Score * (total + 1))()
    function, first_number, first_score = library().ants_scores, c_uint32.from_buffer(numbers), _declared.Score.from_buffer(found)
    size_of_number, size_of_score = sizeof(c_uint32), sizeof(_declared.Score)

    def play(begin: int) -> None:
        """Plays a part, with little besides the calls, since threads of Python wait for each other there."""
        answer, end = Answer(), min(begin + size, total)
        while begin < end:
            place, first = divmod(begin, row)
            some = min(row - first, end - begin)
            red, black = games[place]
            status = function(
                world, len(world), red, len(red), black, len(black), byref(first_number, first * size_of_number), min(some, count), rounds,
                byref(first_score, begin * size_of_score), some, *answer.passed)
            if status != _declared.DONE:
                answer.is_done(status, names(place))
            begin += some

    if workers == 1:
        play(0)
    else:
        with concurrent.futures.ThreadPoolExecutor(workers) as threads:
            list(threads.map(play, range(0, total, size)))  # raises what the first part that raises anything does
    flat = list(map(Score._make, struct.iter_unpack("=II", found)))
    return [flat[begin:begin + count] for begin in range(0, total, row)]


def run(
    world: Text, red: Text, black: Text, seed: int, rounds: int, dumps: Iterable[int] = (), stats: bool = False, window: int = _MOST_WINDOW,
    surround: int = 5, corpse: int = 3, rest: int = 14, most: int = MOST_BYTES,
) -> str:
    """What `ants run` prints of a game, with a dump after each of these rounds, and its counts at the end if `stats` says so: at most `most` bytes."""
    game = texts_of(world=world, red=red, black=black)
    seed, rounds = number_of("seed", seed), _rounds(rounds)
    options = [*_dump(dumps, rounds), *_window(window), *_stats(stats)]
    return game_output("run", game, (), seed, rounds, (surround, corpse, rest), *options, most=most)


def save(
    world: Text, red: Text, black: Text, seed: int, rounds: int, window: int = _MOST_WINDOW, surround: int = 5, corpse: int = 3, rest: int = 14,
) -> str:
    """The game as it is after this number of rounds, as `ants save` prints it."""
    game = texts_of(world=world, red=red, black=black)
    return game_output("save", game, (), seed, rounds, (surround, corpse, rest), *_window(window))


def resume(save: Text, rounds: int, dumps: Iterable[int] = (), stats: bool = False, most: int = MOST_BYTES) -> str:
    """What `ants resume` prints of a saved game that goes on to this number of rounds in all, with the counts of all of them if `stats` says so.

    It has at most `most` bytes.
    """
    saved, rounds = texts_of(save=save), _rounds(rounds)
    return output_of(["resume", "save", "--rounds", rounds, *_dump(dumps, rounds), *_stats(stats)], saved, most=most)


def advance(save: Text, rounds: int) -> str:
    """The save of a saved game that goes on to this number of rounds in all."""
    return output_of(["advance", "save", "--rounds", _rounds(rounds)], texts_of(save=save))


def score_of(text: str) -> Score:
    """The score in a game's text, as `run` and `resume` return it."""
    return Score(*_last_numbers(r"score: red (\d+) black (\d+)", text))


def counts_of(text: str) -> Counts:
    """The counts in a game's text, as `run` and `resume` return it with `stats`."""
    return Counts(*_last_numbers(r"turns (\d+) taken (\d+) redone (\d+)", text))


def _last_numbers(form: str, text: str) -> List[int]:
    """The numbers of the line of a text that has this form."""
    found = re.search("^%s$" % form, str_of("text", text)[-200:], re.M)
    if not found:
        raise ValueError("no such line ends the text: %s" % form)
    return [*map(int, found.groups())]
