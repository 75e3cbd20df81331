"""Evolves a red brain against a black one by so many games, and looks at ten games of it: python3 evolve.py WORLD RED BLACK GAMES

The children of the best brain play games of the same seeds, and the one that brings home the most food is the best from then on. In the end it is
printed, below comments with what was seen in its games. No text of a game is read for that, and no process is begun.
"""
import random
import sys
from typing import List

import icfp_ants

CHILDREN, SEEDS, ROUNDS, WORKERS = 50, range(8), 1000, 4
MOST_BYTES = 4194304  # of a text


def instruction(r: random.Random, states: int) -> str:
    """One of a brain of so many states."""
    one, other = r.randrange(states), r.randrange(states)
    sensed = r.choice(["Here", "Ahead", "LeftAhead", "RightAhead"]), one, other, r.choice(["Food", "Home", "Rock", "Foe", "FoeHome"])
    return r.choice([
        "Sense %s %d %d %s" % sensed, "PickUp %d %d" % (one, other), "Drop %d" % one, "Turn %s %d" % (r.choice(["Left", "Right"]), one),
        "Move %d %d" % (one, other), "Flip %d %d %d" % (r.randint(2, 6), one, other),
    ])


def child(r: random.Random, brain: List[str]) -> List[str]:
    """A brain with one to three other instructions."""
    found = list(brain)
    for _ in range(r.randint(1, 3)):
        found[r.randrange(len(found))] = instruction(r, len(found))
    return found


def evolved(world: bytes, red: bytes, black: bytes, games: int) -> str:
    """The best brain that came of the red one."""
    r, best = random.Random(1), icfp_ants.brain(red).splitlines()
    for _ in range(games // (CHILDREN * len(SEEDS))):
        brains = [child(r, best) for _ in range(1, CHILDREN)] + [best]  # of equals the first one lives: the best one changes
        scores = icfp_ants.scores_of_pairs(world, [("\n".join(it), black) for it in brains], SEEDS, ROUNDS, WORKERS)
        best = max(zip(scores, brains), key=lambda it: sum(score.red for score in it[0]))[1]
    return "\n".join(best)


def read(name: str) -> bytes:
    """The bytes of a file, one more at most than a text may have, so that a longer one is refused."""
    with open(name, "rb") as file:
        return file.read(MOST_BYTES + 1)


def main() -> None:
    if len(sys.argv) != 5 or not sys.argv[4].isdigit():
        sys.exit("usage: evolve.py WORLD RED BLACK GAMES")
    try:
        world, red, black = map(read, sys.argv[1:4])
        brain = evolved(world, red, black, int(sys.argv[4]))
    except (OSError, ValueError) as fault:
        sys.exit("evolve: %s" % fault)
    for seed in range(10):
        for look in icfp_ants.look(world, brain, black, seed, [ROUNDS]):
            ants = [ant for ant in look.ants if ant and ant.colour is icfp_ants.Colour.RED]
            print("; seed %d: red %d black %d, %d red ants, %d laden" % (seed, *look.score, len(ants), sum(ant.food for ant in ants)))
    print(brain)


if __name__ == "__main__":
    main()
