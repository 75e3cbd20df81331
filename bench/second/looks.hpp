// Windows and their counts: "What a turn reads and writes" of docs/RULES.md and "Counts" of docs/COMMANDS.md.
#pragma once
#include <cstdint>

#include "turn.hpp"

constexpr uint64_t most_turns = 16384;  // of a window

struct Counts {
    uint64_t turns = 0;
    uint64_t taken = 0;
    uint64_t redone = 0;
};

// Plays a game turn after turn, and counts which looks would be taken if it were played in windows. `base` is the world
// as a window begins.
class Windows {
  public:
    Windows(Game& game, uint64_t turns);
    void play_round();

    Counts counts;

  private:
    void play_window(size_t from, size_t to);
    void settle(int id, uint64_t& guess, std::vector<int>& touched);
    void renew_base(const std::vector<int>& touched);

    Game& game;
    World base;
    uint64_t turns;
};
