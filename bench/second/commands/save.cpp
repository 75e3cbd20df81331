// `save`: the section "Saved games" of docs/COMMANDS.md.
#include "command.hpp"
#include "saved.hpp"

static const Command here("save", [](Words& words) {
    const GameFiles files(words);
    Saved saved;
    uint64_t rounds = 0;
    words.options(seed_and_rounds(saved.seed, rounds) + sheet_options(saved.sheet) +
                  Options{workers_option(), window_option(saved.window)});
    files.fetch(saved);
    play_on(saved, rounds);
    print(saved_text(saved));
});
