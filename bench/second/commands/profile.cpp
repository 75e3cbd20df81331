// `profile`: the section "Profiles" of docs/COMMANDS.md.
#include "command.hpp"
#include "printed.hpp"

namespace {

// In how many turns a state was executed, and in how many of them its answer was the first one.
struct Count {
    uint64_t times = 0;
    uint64_t met = 0;
};

// By colour and state.
struct Profile {
    std::vector<Count> counts[2];
};

// Counts the turns from the round `from` on.
Profile profile_of(Game& game, uint64_t rounds, uint64_t from) {
    Profile profile;
    for (int colour : {RED, BLACK}) {
        profile.counts[colour].resize(game.rules.brains[colour]->size());
    }
    play_turns(game, rounds, [&](const Turn& turn) {
        if (turn.trace.answer && turn.round >= from) {
            Count& count = profile.counts[turn.ant.colour][turn.ant.state];
            count.times++;
            count.met += *turn.trace.answer == 0 ? 1 : 0;
        }
    });
    return profile;
}

std::string profile_text(int colour, const Brain& brain, const std::vector<Count>& counts) {
    std::string text;
    for (size_t state = 0; state < brain.size(); state++) {
        const std::string met = brain[state].next.size() == 2 ? ", " + decimal(counts[state].met) + " met" : "";
        text += colour_words[colour] + " " + decimal(state) + ": " + decimal(counts[state].times) + " times" + met +
                ": " + line_of(brain[state]) + "\n";
    }
    return text;
}

}  // namespace

static const Command here("profile", [](Words& words) {
    const GameFiles files(words);
    Setup setup;
    uint64_t rounds = 0;
    uint64_t from = 0;
    words.options(seed_and_rounds(setup.seed, rounds) + sheet_options(setup.sheet) + Options{from_option(from)});
    files.fetch(setup);
    Game game(setup);
    const Profile profile = profile_of(game, rounds, from);
    std::string text = seed_line(setup.seed);
    for (int colour : {RED, BLACK}) {
        text += profile_text(colour, setup.brains[colour], profile.counts[colour]);
    }
    print(text);
});
