// Brains: the section "Brains" of docs/RULES.md.
#include "brain.hpp"

#include "files.hpp"

namespace {

constexpr uint64_t any_number = 9999999999;

const Table operations = {"Sense", "Mark", "Unmark", "PickUp", "Drop", "Turn", "Move", "Flip"};
const Table sights = {"Here", "Ahead", "LeftAhead", "RightAhead"};
const Table sides = {"Left", "Right"};
const Table conditions = {"Friend", "Foe",    "FriendWithFood", "FoeWithFood", "Food",
                          "Rock",   "Marker", "FoeMarker",      "Home",        "FoeHome"};

}  // namespace

Instruction read_instruction(Places& places, const std::function<uint64_t(Places&)>& read_state) {
    Instruction read;
    const auto read_states = [&](int count) {
        for (int i = 0; i < count; i++) {
            read.next.push_back(read_state(places));
        }
    };
    read.operation = places.word(operations);
    switch (read.operation) {
        case SENSE:
            read.sight = places.word(sights);
            read_states(2);
            read.condition = places.word(conditions);
            if (read.condition == MARKER) {
                read.marker = static_cast<int>(places.number(0, 5));
            }
            break;
        case MARK:
        case UNMARK:
            read.marker = static_cast<int>(places.number(0, 5));
            read_states(1);
            break;
        case PICK_UP:
        case MOVE:
            read_states(2);
            break;
        case DROP:
            read_states(1);
            break;
        case TURN:
            read.side = places.word(sides);
            read_states(1);
            break;
        case FLIP:
            read.bound = places.number(1, most_of_32_bits);
            read_states(2);
            break;
    }
    places.end();
    return read;
}

std::string line_of(const Instruction& it) {
    std::string line = operations[it.operation];
    switch (it.operation) {
        case SENSE:
            line += " " + sights[it.sight];
            break;
        case MARK:
        case UNMARK:
            line += " " + decimal(it.marker);
            break;
        case TURN:
            line += " " + sides[it.side];
            break;
        case FLIP:
            line += " " + decimal(it.bound);
            break;
    }
    for (uint64_t state : it.next) {
        line += " " + decimal(state);
    }
    if (it.operation == SENSE) {
        line += " " + conditions[it.condition];
        if (it.condition == MARKER) {
            line += " " + decimal(it.marker);
        }
    }
    return line;
}

Brain read_brain(const std::string& name, const std::string& text) {
    Brain brain;
    std::vector<uint64_t> line_numbers;
    uint64_t line_number = 0;
    const auto read_state = [](Places& places) {
        return places.number(0, any_number);
    };
    for (const std::string& line : lines_of(text)) {
        line_number++;
        const std::vector<std::string> tokens = tokens_of(line);
        if (tokens.empty()) {
            continue;
        }
        const std::string where = name + ": line " + decimal(line_number) + ": ";
        if (brain.size() == most_instructions) {
            refuse(5, where + "too many instructions");
        }
        Places places(where, tokens, true);
        brain.push_back(read_instruction(places, read_state));
        line_numbers.push_back(line_number);
    }
    if (brain.empty()) {
        refuse(5, name + ": no instruction");
    }
    for (size_t i = 0; i < brain.size(); i++) {
        for (uint64_t state : brain[i].next) {
            if (state >= brain.size()) {
                refuse(5, name + ": line " + decimal(line_numbers[i]) + ": no such state " + decimal(state));
            }
        }
    }
    return brain;
}

std::string canonical_text(const Brain& brain) {
    std::string text;
    for (const Instruction& it : brain) {
        text += line_of(it) + "\n";
    }
    return text;
}

Key kind_of(const Instruction& it) {
    return {static_cast<uint64_t>(it.operation), static_cast<uint64_t>(it.sight), static_cast<uint64_t>(it.condition),
            static_cast<uint64_t>(it.marker),    static_cast<uint64_t>(it.side),  it.bound};
}
