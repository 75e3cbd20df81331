// `resume`: the section "Saved games" of docs/COMMANDS.md.
#include "command.hpp"
#include "printed.hpp"
#include "saved.hpp"

static const Command here("resume", [](Words& words) {
    const std::string name = words.file_name();
    Telling told;
    words.options({needed_number("--rounds", 0, most_rounds, told.rounds), dumps_option(told.dumps), workers_option(),
                   flag("--stats", told.has_counts)});
    const Saved saved = fetch_saved(name, told.rounds);
    told.window = saved.window;
    Game game(saved, saved.place);
    play(game, told, "", saved.round, saved.counts());
});
