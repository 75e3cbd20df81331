// Brains: the instructions of "Rounds and turns" and the section "Brains" of docs/RULES.md.
#pragma once
#include <cstdint>
#include <functional>
#include <string>
#include <vector>

#include "text.hpp"

enum Operation { SENSE, MARK, UNMARK, PICK_UP, DROP, TURN, MOVE, FLIP };
enum Sight { HERE, AHEAD, LEFT_AHEAD, RIGHT_AHEAD };
enum Side { LEFT, RIGHT };
enum Condition { FRIEND, FOE, FRIEND_WITH_FOOD, FOE_WITH_FOOD, FOOD, ROCK, MARKER, FOE_MARKER, HOME, FOE_HOME };

// What an instruction has no place for is 0; `next` are its states, in their order.
struct Instruction {
    int operation = 0;
    int sight = 0;
    int condition = 0;
    int marker = 0;
    int side = 0;
    uint64_t bound = 0;
    std::vector<uint64_t> next;
};

using Brain = std::vector<Instruction>;

constexpr size_t most_instructions = 10000;

// Reads one line of a brain, of which `read_state` reads each state.
Instruction read_instruction(Places& places, const std::function<uint64_t(Places&)>& read_state);

// One line of the canonical text, without its end.
std::string line_of(const Instruction& it);

// Refuses a text that is no brain.
Brain read_brain(const std::string& name, const std::string& text);

std::string canonical_text(const Brain& brain);

// What an instruction has but its states.
using Key = std::vector<uint64_t>;
Key kind_of(const Instruction& it);
