"""Random cases of `workload`."""
from cases import ROUNDS, SEEDS, WORKERS, Case, seed_word
from kinds import command, kind
from spelling import chance

command('workload', heads=[['workload', '1', '1', '1']], places={1: SEEDS, 2: ROUNDS, 3: WORKERS['--workers']})


@kind('workload', most=300)
def case_of_workload(r):
    """`workload`, seldom of more than 30 rounds."""
    seed = seed_word(r)
    rounds = r.choice([0, 1, 2, 3, 5, 10, 30]) if chance(r, .97) else r.randint(100, 400)
    return Case(['workload', seed, str(rounds), str(r.randint(1, 16))])
