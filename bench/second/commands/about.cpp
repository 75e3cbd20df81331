// `help`, `--help` and `--version`: the section "All commands" of docs/COMMANDS.md, which shows of the page of help its
// first line alone. So its words are judged, and it isn't here.
#include "command.hpp"

namespace {

void help(Words& words) {
    words.end();
}

}  // namespace

static const Command here("help", help);
static const Command here_too("--help", help);
static const Command version("--version", [](Words& words) {
    words.end();
    print("ants 1.2.0-dev\n");
});
