// A second program of the ant world, written from docs/RULES.md and docs/COMMANDS.md: the section "All commands" of
// docs/COMMANDS.md.
#include <csignal>

#include "command.hpp"

int main(int count, char** arguments) {
    std::signal(SIGPIPE, SIG_IGN);
    const std::vector<std::string> all(arguments + 1, arguments + count);
    for (const std::string& word : all) {
        if (!is_utf8(word)) {
            return 1;
        }
    }
    Words words(all);
    const auto command = commands().find(words.next());
    if (command == commands().end()) {
        words.refuse_next();
    }
    words.skip();
    command->second(words);
    return 0;
}
