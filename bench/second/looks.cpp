// Windows and their counts: "What a turn reads and writes" of docs/RULES.md and "Counts" of docs/COMMANDS.md.
#include "looks.hpp"

#include <algorithm>
#include <set>
#include <utility>

namespace {

// The parts of a cell, as bits.
constexpr int who = 1;
constexpr int mind = 2;
constexpr int load = 4;
constexpr int food = 8;
constexpr int red_marks = 16;
constexpr int black_marks = 32;

struct Read {
    int place;
    int parts;
};

bool has_food(const Cell& cell) {
    return cell.ant && cell.ant->has_food;
}

bool is_same_ant(const Cell& left, const Cell& right) {
    if (!left.ant || !right.ant) {
        return left.ant.has_value() == right.ant.has_value();
    }
    return left.ant->id == right.ant->id && left.ant->colour == right.ant->colour;
}

bool is_same_mind(const Cell& left, const Cell& right) {
    if (!left.ant || !right.ant) {
        return left.ant.has_value() == right.ant.has_value();
    }
    return left.ant->state == right.ant->state && left.ant->resting == right.ant->resting &&
           left.ant->direction == right.ant->direction;
}

// Whether two cells have the same in some parts.
bool agrees(const Cell& left, const Cell& right, int parts) {
    const auto differs = [&](int part, bool is_same) {
        return (parts & part) != 0 && !is_same;
    };
    return !differs(who, is_same_ant(left, right)) && !differs(mind, is_same_mind(left, right)) &&
           !differs(load, has_food(left) == has_food(right)) && !differs(food, left.food == right.food) &&
           !differs(red_marks, left.marks[RED] == right.marks[RED]) &&
           !differs(black_marks, left.marks[BLACK] == right.marks[BLACK]);
}

int marks_of(int colour) {
    return colour == RED ? red_marks : black_marks;
}

int parts_sensed(int condition, int colour) {
    switch (condition) {
        case FRIEND:
        case FOE:
            return who;
        case FRIEND_WITH_FOOD:
        case FOE_WITH_FOOD:
            return who | load;
        case FOOD:
            return food;
        case MARKER:
            return marks_of(colour);
        case FOE_MARKER:
            return marks_of(1 - colour);
    }
    return 0;
}

// Whom a turn kills. It is taken on the base, which is put back afterwards.
std::vector<Kill> kills_of(World& base, const Rules& rules, int id, int place, int ahead) {
    std::vector<std::pair<int, Cell>> kept = {{place, base.cells[place]}, {ahead, base.cells[ahead]}};
    for (int direction = 0; direction < 6; direction++) {
        const int beside = neighbour(base, ahead, direction);
        if (beside != place) {
            kept.push_back({beside, base.cells[beside]});
        }
    }
    Trace trace;
    Random none(0);
    take_turn(base, rules, none, id, trace);
    for (const auto& [where, cell] : kept) {
        base.cells[where] = cell;
        if (cell.ant) {
            base.places[cell.ant->id] = where;
        }
    }
    return trace.kills;
}

void add_reads_of_move(World& base, const Rules& rules, int id, int place, std::vector<Read>& reads) {
    const int ahead = neighbour(base, place, base.cells[place].ant->direction);
    reads.push_back({ahead, who});
    if (base.cells[ahead].is_rocky || base.cells[ahead].ant) {
        return;
    }
    reads.push_back({place, load});
    for (int direction = 0; direction < 6; direction++) {
        const int beside = neighbour(base, ahead, direction);
        reads.push_back({beside, who});
        if (beside == place || !base.cells[beside].ant) {  // after the step the place is free
            continue;
        }
        for (int further = 0; further < 6; further++) {
            reads.push_back({neighbour(base, beside, further), who});
        }
    }
    for (const Kill& kill : kills_of(base, rules, id, place, ahead)) {
        reads.push_back({kill.place, load | food});
    }
}

const Instruction& instruction_of(const Ant& ant, const Rules& rules) {
    return (*rules.brains[ant.colour])[ant.state];
}

// What the turn of an id reads of the base.
std::vector<Read> reads_of(World& base, const Rules& rules, int id) {
    const int place = base.places[id];
    if (place == dead) {
        return {};
    }
    std::vector<Read> reads = {{place, who | mind}};
    const Ant ant = *base.cells[place].ant;
    if (ant.resting > 0) {
        return reads;
    }
    const Instruction& it = instruction_of(ant, rules);
    switch (it.operation) {
        case SENSE:
            reads.push_back(
                {sensed_place(base, place, ant.direction, it.sight), parts_sensed(it.condition, ant.colour)});
            break;
        case MARK:
        case UNMARK:
            reads.push_back({place, marks_of(ant.colour)});
            break;
        case PICK_UP:
        case DROP:
            reads.push_back({place, load | food});
            break;
        case MOVE:
            add_reads_of_move(base, rules, id, place, reads);
            break;
    }
    return reads;
}

bool flips(const World& base, const Rules& rules, int id) {
    const int place = base.places[id];
    if (place == dead) {
        return false;
    }
    const Ant& ant = *base.cells[place].ant;
    return ant.resting == 0 && instruction_of(ant, rules).operation == FLIP;
}

}  // namespace

Windows::Windows(Game& game, uint64_t turns) : game(game), base(game.world), turns(turns) {
}

void Windows::play_round() {
    const size_t ids = base.places.size();
    for (size_t from = 0; from < ids; from += turns) {
        play_window(from, std::min<size_t>(ids, from + turns));
    }
}

void Windows::play_window(size_t from, size_t to) {
    uint64_t guess = game.random.place();
    std::vector<int> touched;
    for (size_t id = from; id < to; id++) {
        settle(static_cast<int>(id), guess, touched);
    }
    renew_base(touched);
}

// Counts one turn, and then takes it; the guess is that of the next id afterwards.
void Windows::settle(int id, uint64_t& guess, std::vector<int>& touched) {
    bool holds = true;
    for (const Read& read : reads_of(base, game.rules, id)) {
        holds = holds && agrees(base.cells[read.place], game.world.cells[read.place], read.parts);
    }
    if (flips(base, game.rules, id)) {
        holds = holds && guess == game.random.place();
        guess++;
    }
    counts.turns++;
    (holds ? counts.taken : counts.redone)++;
    Trace trace;
    take_turn(game.world, game.rules, game.random, id, trace);
    touched.insert(touched.end(), trace.touched.begin(), trace.touched.end());
}

// Makes the base as the world is, where a turn of the window may have changed it.
void Windows::renew_base(const std::vector<int>& touched) {
    std::set<int> ids;
    for (int place : touched) {
        for (const Cell& cell : {base.cells[place], game.world.cells[place]}) {
            if (cell.ant) {
                ids.insert(cell.ant->id);
            }
        }
        base.cells[place] = game.world.cells[place];
    }
    for (int id : ids) {
        base.places[id] = game.world.places[id];
    }
}
