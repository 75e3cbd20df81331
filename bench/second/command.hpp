// The table of commands, which each file of commands/ fills, and what several of them read: the sections "All commands"
// and "Other rules" of docs/COMMANDS.md.
#pragma once
#include <map>
#include <string>

#include "brain.hpp"
#include "files.hpp"
#include "turn.hpp"
#include "words.hpp"
#include "world.hpp"

// What a command does with the words behind its own, which it refuses where they don't fit.
using Deed = void (*)(Words&);

std::map<std::string, Deed>& commands();

// A command in the table.
struct Command {
    Command(const std::string& word, Deed deed) {
        commands()[word] = deed;
    }
};

World fetch_world(const std::string& name);
Brain fetch_brain(const std::string& name);

// The words for the files of a game, which are fetched in their order.
struct GameFiles {
    explicit GameFiles(Words& words) : world(words.file_name()), red(words.file_name()), black(words.file_name()) {
    }
    void fetch(Setup& setup) const;

    const std::string world, red, black;
};

Options seed_and_rounds(uint64_t& seed, uint64_t& rounds);
Options sheet_options(Sheet& sheet);
Option window_option(uint64_t& window);
Option from_option(uint64_t& from);
Option workers_option();  // nothing that is printed depends on how many there are
