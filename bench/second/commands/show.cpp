// `show`: the section "What run prints" of docs/COMMANDS.md.
#include "command.hpp"
#include "printed.hpp"

static const Command here("show", [](Words& words) {
    const std::string name = words.file_name();
    const uint64_t seed = words.number(0, most_of_32_bits);
    words.end();
    print(seed_line(seed) + dump_text(fetch_world(name), 0));
});
