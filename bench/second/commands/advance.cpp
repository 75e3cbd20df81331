// `advance`: the section "Saved games" of docs/COMMANDS.md.
#include "command.hpp"
#include "saved.hpp"

static const Command here("advance", [](Words& words) {
    const std::string name = words.file_name();
    uint64_t rounds = 0;
    words.options({needed_number("--rounds", 0, most_rounds, rounds), workers_option()});
    Saved saved = fetch_saved(name, rounds);
    play_on(saved, rounds);
    print(saved_text(saved));
});
