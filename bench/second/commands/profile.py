"""Random cases of `profile`."""
from cases import FROM, SEED_AND_ROUNDS, SHEET, some_from
from fights import case_of_game
from kinds import command, kind

command('profile', heads=[['profile', 'w', 'r', 'b']], limits={**SEED_AND_ROUNDS, **SHEET, **FROM})


@kind('profile')
def case_of_profile(r):
    """`profile`, now and then of a crowded game."""
    return case_of_game(r, 'profile', .4, lambda rounds, ants: some_from(r, rounds))
