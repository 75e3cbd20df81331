// `brain`: the section "Brains" of docs/RULES.md.
#include "command.hpp"

static const Command here("brain", [](Words& words) {
    const std::string name = words.file_name();
    words.end();
    print(canonical_text(fetch_brain(name)));
});
