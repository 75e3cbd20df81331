"""Random cases of `events`."""
from cases import FROM, SEED_AND_ROUNDS, SHEET, some, some_from
from fights import case_of_game
from kinds import command, kind

command('events', heads=[['events', 'w', 'r', 'b']], flags=['--food'], limits={**SEED_AND_ROUNDS, **SHEET, **FROM})


@kind('events')
def case_of_events(r):
    """`events`, most often of a crowded game."""
    return case_of_game(r, 'events', .75, lambda rounds, ants: some_from(r, rounds) + some(r, '--food', .3))


@kind('food')
def case_of_food(r):
    """`events --food`, most often of a crowded game."""
    return case_of_game(r, 'events', .75, lambda rounds, ants: some_from(r, rounds, .2) + [['--food']])
