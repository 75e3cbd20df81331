// Turns and games: the sections "Rounds and turns", "Surrounded ants", "Random numbers" and "Score and weight" of
// docs/RULES.md, and "Other rules" of docs/COMMANDS.md.
#pragma once
#include <cstdint>
#include <functional>
#include <optional>
#include <vector>

#include "brain.hpp"
#include "world.hpp"

class Random {
  public:
    // The numbers of a seed, of which so many were drawn already.
    explicit Random(uint64_t seed, uint64_t place = 0);
    uint64_t draw_below(uint64_t bound);

    // How many numbers were drawn.
    uint64_t place() const {
        return drawn;
    }

  private:
    uint32_t state;  // s(drawn + 4), of which only the lowest 30 bits matter
    uint64_t drawn;
};

struct Sheet {
    uint64_t surround = 5;
    uint64_t corpse = 3;
    uint64_t rest = 14;
};

// Brains by colour; they live longer than the rules.
struct Rules {
    const Brain* brains[2];
    Sheet sheet;
};

// An ant that was killed, as it was then, and the place of its cell.
struct Kill {
    int place;
    Ant ant;
};

// What a turn did: the places of the cells that it may have changed, its kills in the order of the checks, and the
// answer to which an instruction came, if one was executed: 0 is the first one.
struct Trace {
    std::vector<int> touched;
    std::vector<Kill> kills;
    std::optional<int> answer;
};

int sensed_place(const World& world, int place, int direction, int sight);

// Does the turn of an id, and tells in `trace` what it did.
void take_turn(World& world, const Rules& rules, Random& random, int id, Trace& trace);

struct Score {
    uint64_t red = 0;
    uint64_t black = 0;
};

Score score_of(const World& world);

// What a game begins with.
struct Setup {
    uint64_t seed = 0;
    Sheet sheet;
    Brain brains[2];
    World world;
};

struct Game {
    World world;
    Rules rules;
    Random random;

    Game(const World& world, const Rules& rules, uint64_t seed, uint64_t place = 0);
    explicit Game(const Setup& setup, uint64_t place = 0);  // whose brains live longer than the game
    void play_round();
};

// A turn of an ant that was alive: its round, the place of its cell and the ant as they were when it began, and what it
// did.
struct Turn {
    uint64_t round;
    int place;
    Ant ant;
    Trace trace;
};

// Plays so many rounds from the start, and hands over each such turn when it is done.
void play_turns(Game& game, uint64_t rounds, const std::function<void(const Turn&)>& hand_over);
