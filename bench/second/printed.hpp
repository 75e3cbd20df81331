// What is printed of a world: the section "What run prints" of docs/COMMANDS.md.
#pragma once
#include <cstdint>
#include <string>

#include "looks.hpp"
#include "turn.hpp"
#include "words.hpp"

std::string seed_line(uint64_t seed);
std::string cells_text(const World& world);
std::string place_text(const World& world, int place);
std::string cell_line(const World& world, int place);
std::string dump_text(const World& world, uint64_t round);
std::string score_line(const Score& score);
std::string counts_line(const Counts& counts);

// The colour and the id of an ant, and what the lines of a turn begin with.
std::string ant_name(const Ant& ant);
std::string turn_start(const Turn& turn);

// What is told of a game.
struct Telling {
    uint64_t rounds = 0;
    uint64_t window = most_turns;
    bool has_counts = false;
    Dumps dumps;
};

// Plays on behind a round, and prints the chosen dumps of the later rounds, the score and the counts. `text` is what is
// printed before them; `counts` are those of the rounds before.
void play(Game& game, const Telling& told, std::string text, uint64_t round, const Counts& counts);
