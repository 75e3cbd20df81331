// `run`: the section "What run prints" of docs/COMMANDS.md.
#include "command.hpp"
#include "printed.hpp"

static const Command here("run", [](Words& words) {
    const GameFiles files(words);
    Setup setup;
    Telling told;
    bool is_far = false;  // nothing that is printed depends on it
    words.options(seed_and_rounds(setup.seed, told.rounds) + sheet_options(setup.sheet) +
                  Options{dumps_option(told.dumps), workers_option(), window_option(told.window),
                          flag("--stats", told.has_counts), flag("--far", is_far)});
    files.fetch(setup);
    Game game(setup);
    const std::string start = told.dumps.has(0) ? dump_text(setup.world, 0) : "";
    play(game, told, seed_line(setup.seed) + start, 0, Counts());
});
