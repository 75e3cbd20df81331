"""Random cases of `acts`."""
from cases import FROM, IDS, SEED_AND_ROUNDS, SHEET, any_id, some, some_from
from fights import case_of_game
from kinds import command, kind

command('acts', heads=[['acts', 'w', 'r', 'b']], limits={**SEED_AND_ROUNDS, **SHEET, **FROM, '--ant': IDS})


@kind('acts')
def case_of_acts(r):
    """`acts`, often of one ant that lives, dies or isn't there."""
    def more(rounds, ants):
        """Its own options; many rounds of all ants are too long a text."""
        one = some(r, '--ant', .6, [any_id(r, ants)])
        if rounds > 100 and not one:
            return [['--from', str(r.randint(rounds - 20, rounds))]]
        return one + some_from(r, rounds)

    return case_of_game(r, 'acts', .6, more)
