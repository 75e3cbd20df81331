// `trace`: the section "An ant's way" of docs/COMMANDS.md.
#include "command.hpp"
#include "printed.hpp"

static const Command here("trace", [](Words& words) {
    const GameFiles files(words);
    const uint64_t id = words.number(0, most_ants - 1);
    Setup setup;
    uint64_t rounds = 0;
    uint64_t from = 0;
    words.options(seed_and_rounds(setup.seed, rounds) + sheet_options(setup.sheet) + Options{from_option(from)});
    files.fetch(setup);
    Game game(setup);
    std::string text = seed_line(setup.seed);
    if (id >= game.world.places.size()) {
        print(text + "no ant of id " + decimal(id) + "\n");
        return;
    }
    for (uint64_t round = 0; round <= rounds; round++) {
        if (round > 0) {
            game.play_round();
        }
        if (round < from) {
            continue;
        }
        const int place = game.world.places[id];
        text += "round " + decimal(round) + ": " + (place == dead ? "dead\n" : cell_line(game.world, place));
        if (place == dead) {
            break;
        }
    }
    print(text);
});
