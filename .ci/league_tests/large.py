"""A league of a thousand brains."""
import re
import time
import types

from league_tests.folder import LEAGUE, Folder


class Large(Folder):
    def test_thousand_brains(self):
        league = types.ModuleType("league")
        exec(compile(self.text(LEAGUE), LEAGUE, "exec"), league.__dict__)
        for number in range(1000):
            with open("%d" % number, "w") as file:
                file.write("Drop 0 ; %d\n" % number)
        self.worlds, self.brains = ["ambush.world"], ["%d" % it for it in range(1000)]
        begun = time.monotonic()
        self.assertEqual(self.good(*self.words("--calls")), "499500 calls in season/calls\n")
        written = time.monotonic() - begun
        whole, _ = league.read_heading(self.text("season/files"))
        won = [0] * 1000
        for one in range(1000):
            for other in range(one + 1, 1000):
                its = whole._replace(brains=[whole.brains[one], whole.brains[other]])
                scores = [((one * other) % 3, (one + other) % 3), (one % 2, other % 2)]
                for red, black, score in ((one, other, scores[0]), (other, one, scores[1])):
                    won[red] += 1 + (score[0] > score[1]) - (score[0] < score[1])
                    won[black] += 1 + (score[0] < score[1]) - (score[0] > score[1])
                with open("season/results/" + league.name_of(its), "w") as file:
                    file.write(league.heading_of(its) + "".join(league.told(its, scores)))
        begun = time.monotonic()
        standing = self.good("season")
        print("1,000 brains: %.1f s to write the calls, %.1f s to add up" % (written, time.monotonic() - begun), flush=True)
        lines = [tuple(map(int, re.match(r"(\d+) points: (\d+) ", it).groups())) for it in standing.splitlines()]
        self.assertEqual(lines, sorted(zip(won, range(1000)), key=lambda it: -it[0]))
