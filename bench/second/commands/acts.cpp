// `acts`: the section "Acts" of docs/COMMANDS.md.
#include <optional>

#include "command.hpp"
#include "printed.hpp"

namespace {

struct Asked {
    uint64_t rounds = 0;
    uint64_t from = 0;
    std::optional<uint64_t> id;

    bool has(const Turn& turn) const {
        return turn.round >= from && (!id || static_cast<uint64_t>(turn.ant.id) == *id);
    }
};

Option ant_option(std::optional<uint64_t>& id) {
    return {"--ant", false, [&id](Words& words) {
                id = words.number(0, most_ants - 1);
            }};
}

// The line of a turn in which the ant executes an instruction; nothing of a turn in which it rests.
std::string act_line(const Game& game, const Turn& turn) {
    if (!turn.trace.answer) {
        return "";
    }
    const Ant& ant = turn.ant;
    const Instruction& it = (*game.rules.brains[ant.colour])[ant.state];
    return turn_start(turn) + "on " + place_text(game.world, turn.place) + ", dir " + decimal(ant.direction) +
           ", food " + (ant.has_food ? "1" : "0") + ", state " + decimal(ant.state) + ": " + line_of(it) + ": " +
           (*turn.trace.answer == 0 ? "met" : "unmet") + "\n";
}

}  // namespace

static const Command here("acts", [](Words& words) {
    const GameFiles files(words);
    Setup setup;
    Asked asked;
    words.options(seed_and_rounds(setup.seed, asked.rounds) + sheet_options(setup.sheet) +
                  Options{from_option(asked.from), ant_option(asked.id)});
    files.fetch(setup);
    Game game(setup);
    std::string text = seed_line(setup.seed);
    if (asked.id && *asked.id >= game.world.places.size()) {
        print(text + "no ant of id " + decimal(*asked.id) + "\n");
        return;
    }
    play_turns(game, asked.rounds, [&](const Turn& turn) {
        text += asked.has(turn) ? act_line(game, turn) : "";
        print_if_long(text);
    });
    print(text);
});
