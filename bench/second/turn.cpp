// Turns and games: the sections "Rounds and turns", "Surrounded ants", "Random numbers" and "Score and weight" of
// docs/RULES.md, and "Other rules" of docs/COMMANDS.md.
#include "turn.hpp"

namespace {

constexpr uint32_t factor = 22695477;

int turned_left(int direction) {
    return (direction + 5) % 6;
}

int turned_right(int direction) {
    return (direction + 1) % 6;
}

bool meets(const Cell& cell, const Instruction& sense, int colour) {
    if (cell.is_rocky) {
        return sense.condition == ROCK;
    }
    const bool has_friend = cell.ant && cell.ant->colour == colour;
    const bool has_foe = cell.ant && cell.ant->colour != colour;
    switch (sense.condition) {
        case FRIEND:
            return has_friend;
        case FOE:
            return has_foe;
        case FRIEND_WITH_FOOD:
            return has_friend && cell.ant->has_food;
        case FOE_WITH_FOOD:
            return has_foe && cell.ant->has_food;
        case FOOD:
            return cell.food > 0;
        case MARKER:
            return (cell.marks[colour] >> sense.marker & 1) == 1;
        case FOE_MARKER:
            return cell.marks[1 - colour] != 0;
        case HOME:
            return cell.hill && *cell.hill == colour;
        case FOE_HOME:
            return cell.hill && *cell.hill != colour;
    }
    return false;
}

// Kills the ant at a place if it is surrounded.
void check(World& world, const Sheet& sheet, int place, Trace& trace) {
    Cell& cell = world.cells[place];
    if (!cell.ant) {
        return;
    }
    uint64_t foes = 0;
    for (int direction = 0; direction < 6; direction++) {
        const Cell& beside = world.cells[neighbour(world, place, direction)];
        if (beside.ant && beside.ant->colour != cell.ant->colour) {
            foes++;
        }
    }
    if (foes < sheet.surround) {
        return;
    }
    trace.kills.push_back({place, *cell.ant});
    trace.touched.push_back(place);
    cell.food += sheet.corpse + (cell.ant->has_food ? 1 : 0);
    world.places[cell.ant->id] = dead;
    cell.ant.reset();
}

// Does a Move, and tells its answer.
int move(World& world, const Rules& rules, int place, const Instruction& it, Trace& trace) {
    Cell& from = world.cells[place];
    const int ahead = neighbour(world, place, from.ant->direction);
    Cell& to = world.cells[ahead];
    if (to.is_rocky || to.ant) {
        from.ant->state = static_cast<int>(it.next[1]);
        return 1;
    }
    to.ant = from.ant;
    from.ant.reset();
    to.ant->state = static_cast<int>(it.next[0]);
    to.ant->resting = static_cast<int>(rules.sheet.rest);
    world.places[to.ant->id] = ahead;
    trace.touched.push_back(ahead);
    check(world, rules.sheet, ahead, trace);
    for (int direction = 0; direction < 6; direction++) {
        check(world, rules.sheet, neighbour(world, ahead, direction), trace);
    }
    return 0;
}

// Does an instruction that changes no cell but the ant's own, and tells its answer.
int act(const World& world, Random& random, int place, const Instruction& it, Cell& cell) {
    Ant& ant = *cell.ant;
    switch (it.operation) {
        case SENSE:
            return meets(world.cells[sensed_place(world, place, ant.direction, it.sight)], it, ant.colour) ? 0 : 1;
        case MARK:
            cell.marks[ant.colour] |= 1 << it.marker;
            return 0;
        case UNMARK:
            cell.marks[ant.colour] &= ~(1 << it.marker);
            return 0;
        case PICK_UP:
            if (ant.has_food || cell.food == 0) {
                return 1;
            }
            cell.food--;
            ant.has_food = true;
            return 0;
        case DROP:
            cell.food += ant.has_food ? 1 : 0;
            ant.has_food = false;
            return 0;
        case TURN:
            ant.direction = it.side == LEFT ? turned_left(ant.direction) : turned_right(ant.direction);
            return 0;
        case FLIP:
            return random.draw_below(it.bound) == 0 ? 0 : 1;
    }
    return 0;
}

}  // namespace

// One step is s * factor + 1. Two steps of a kind are one of another kind, so that many steps go by doubling.
Random::Random(uint64_t seed, uint64_t place) : state(static_cast<uint32_t>(seed)), drawn(place) {
    uint32_t times = factor;
    uint32_t more = 1;
    for (uint64_t left = place + 4; left > 0; left /= 2) {
        if (left % 2 == 1) {
            state = state * times + more;
        }
        more = more * times + more;
        times = times * times;
    }
}

uint64_t Random::draw_below(uint64_t bound) {
    const uint64_t number = (state / 65536) % 16384;
    state = state * factor + 1;
    drawn++;
    return number % bound;
}

int sensed_place(const World& world, int place, int direction, int sight) {
    switch (sight) {
        case AHEAD:
            return neighbour(world, place, direction);
        case LEFT_AHEAD:
            return neighbour(world, place, turned_left(direction));
        case RIGHT_AHEAD:
            return neighbour(world, place, turned_right(direction));
    }
    return place;
}

void take_turn(World& world, const Rules& rules, Random& random, int id, Trace& trace) {
    trace.touched.clear();
    trace.kills.clear();
    trace.answer.reset();
    const int place = world.places[id];
    if (place == dead) {
        return;
    }
    trace.touched.push_back(place);
    Cell& cell = world.cells[place];
    Ant& ant = *cell.ant;
    if (ant.resting > 0) {
        ant.resting--;
        return;
    }
    const Instruction& it = (*rules.brains[ant.colour])[ant.state];
    if (it.operation == MOVE) {
        trace.answer = move(world, rules, place, it, trace);
    } else {
        trace.answer = act(world, random, place, it, cell);
        ant.state = static_cast<int>(it.next[*trace.answer]);
    }
}

Score score_of(const World& world) {
    Score score;
    for (const Cell& cell : world.cells) {
        if (cell.hill) {
            (*cell.hill == RED ? score.red : score.black) += cell.food;
        }
    }
    return score;
}

Game::Game(const World& world, const Rules& rules, uint64_t seed, uint64_t place)
    : world(world), rules(rules), random(seed, place) {
}

Game::Game(const Setup& it, uint64_t place)
    : Game(it.world, {{&it.brains[RED], &it.brains[BLACK]}, it.sheet}, it.seed, place) {
}

void Game::play_round() {
    Trace trace;
    for (size_t id = 0; id < world.places.size(); id++) {
        take_turn(world, rules, random, static_cast<int>(id), trace);
    }
}

void play_turns(Game& game, uint64_t rounds, const std::function<void(const Turn&)>& hand_over) {
    Turn turn;
    for (turn.round = 1; turn.round <= rounds; turn.round++) {
        for (size_t id = 0; id < game.world.places.size(); id++) {
            turn.place = game.world.places[id];
            if (turn.place == dead) {
                continue;
            }
            turn.ant = *game.world.cells[turn.place].ant;
            take_turn(game.world, game.rules, game.random, static_cast<int>(id), turn.trace);
            hand_over(turn);
        }
    }
}
