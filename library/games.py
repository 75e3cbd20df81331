"""Plays 1,000 games of two brains on one world, with the seeds 0 to 999, and prints their scores: python3 games.py WORLD RED BLACK ROUNDS"""
import sys

import icfp_ants

MOST_BYTES = 4194304  # of a text


def read(name: str) -> bytes:
    """The bytes of a file, one more at most than a text may have, so that a longer one is refused."""
    with open(name, "rb") as file:
        return file.read(MOST_BYTES + 1)


def main() -> None:
    if len(sys.argv) != 5 or not sys.argv[4].isdigit():
        sys.exit("usage: games.py WORLD RED BLACK ROUNDS")
    try:
        world, red, black = map(read, sys.argv[1:4])
        found = icfp_ants.scores(world, red, black, seeds=range(1000), rounds=int(sys.argv[4]))
    except (OSError, ValueError) as fault:
        sys.exit("games: %s" % fault)
    print("\n".join("%d %d %d" % (seed, *score) for seed, score in enumerate(found)))


if __name__ == "__main__":
    main()
