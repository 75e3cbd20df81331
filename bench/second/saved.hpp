// Saved games: the section "Saved games" of docs/COMMANDS.md.
#pragma once
#include <cstdint>
#include <string>

#include "looks.hpp"
#include "turn.hpp"

// A game at the end of a round, with all that it takes to go on.
struct Saved : Setup {
    uint64_t window = most_turns;
    uint64_t round = 0;
    uint64_t place = 0;
    uint64_t taken = 0;
    uint64_t redone = 0;

    Counts counts() const {
        return {taken + redone, taken, redone};
    }
};

std::string saved_text(const Saved& saved);

// Refuses a text that is no save, and one whose round is above these.
Saved fetch_saved(const std::string& name, uint64_t rounds);

// Plays a saved game on up to a round, in its windows.
void play_on(Saved& saved, uint64_t rounds);
