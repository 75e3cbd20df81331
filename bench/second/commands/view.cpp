// `view`: the section "Breaks" of docs/COMMANDS.md.
#include "command.hpp"
#include "printed.hpp"

namespace {

enum BreakKind { ROUND_BREAK, STATE_BREAK, STAND_BREAK, FOOD_BREAK, KILLED_BREAK, SCORE_BREAK };

struct Break {
    int kind = ROUND_BREAK;
    int colour = RED;
    uint64_t x = 0;
    uint64_t y = 0;
    uint64_t number = 0;
};

constexpr size_t most_breaks = 256;

const Table kinds = {"Round", "State", "Stand", "Food", "Killed", "Score"};
const Table colours = {"Red", "Black"};

Break read_break(Places& places) {
    Break read;
    read.kind = places.word(kinds);
    if (read.kind == STATE_BREAK || read.kind == STAND_BREAK || read.kind == SCORE_BREAK) {
        read.colour = places.word(colours);
    }
    if (read.kind == STAND_BREAK || read.kind == FOOD_BREAK) {
        read.x = places.number(0, most_of_32_bits);
        read.y = places.number(0, most_of_32_bits);
    }
    if (read.kind != STAND_BREAK) {
        read.number = places.number(0, most_of_32_bits);
    }
    places.end();
    return read;
}

// The clear cell at a position; nullptr where there is none.
const Cell* clear_cell(const World& world, uint64_t x, uint64_t y) {
    const uint64_t width = static_cast<uint64_t>(world.width);
    const uint64_t height = static_cast<uint64_t>(world.height);
    if (x >= width || y >= height || world.cells[y * width + x].is_rocky) {
        return nullptr;
    }
    return &world.cells[y * width + x];
}

bool is_in_state(const World& world, int id, int colour, uint64_t state) {
    if (world.places[id] == dead) {
        return false;
    }
    const Ant& ant = *world.cells[world.places[id]].ant;
    return ant.colour == colour && static_cast<uint64_t>(ant.state) == state;
}

// Refuses a text that is no text of breaks.
std::vector<Break> read_breaks(const std::string& name, const std::string& text) {
    std::vector<Break> breaks;
    uint64_t line_number = 0;
    for (const std::string& line : lines_of(text)) {
        line_number++;
        const std::vector<std::string> tokens = tokens_of(line);
        if (tokens.empty()) {
            continue;
        }
        const std::string where = name + ": line " + decimal(line_number) + ": ";
        if (breaks.size() == most_breaks) {
            refuse(5, where + "too many breaks");
        }
        Places places(where, tokens, false);
        breaks.push_back(read_break(places));
    }
    return breaks;
}

// Whether the break holds after the turn of this id in this round.
bool holds(const Break& it, const World& world, uint64_t round, int id) {
    const Cell* cell = clear_cell(world, it.x, it.y);
    switch (it.kind) {
        case ROUND_BREAK:
            return round == it.number;
        case STATE_BREAK:
            return is_in_state(world, id, it.colour, it.number);
        case STAND_BREAK:
            return cell != nullptr && cell->ant && cell->ant->colour == it.colour;
        case FOOD_BREAK:
            return cell != nullptr && cell->food >= it.number;
        case KILLED_BREAK:
            return it.number < world.places.size() && world.places[it.number] == dead;
        case SCORE_BREAK: {
            const Score score = score_of(world);
            return (it.colour == RED ? score.red : score.black) >= it.number;
        }
    }
    return false;
}

// The number of the first break that holds, counted from 1; 0 where none does.
size_t break_that_holds(const std::vector<Break>& breaks, const World& world, uint64_t round, int id) {
    for (size_t i = 0; i < breaks.size(); i++) {
        if (holds(breaks[i], world, round, id)) {
            return i + 1;
        }
    }
    return 0;
}

// Looks for no break before the round `from`.
std::string view_text(Game& game, const std::vector<Break>& breaks, uint64_t rounds, uint64_t from) {
    Trace trace;
    const int ids = static_cast<int>(game.world.places.size());
    for (uint64_t round = 1; round <= rounds; round++) {
        for (int id = 0; id < ids; id++) {
            take_turn(game.world, game.rules, game.random, id, trace);
            const size_t number = round < from ? 0 : break_that_holds(breaks, game.world, round, id);
            if (number > 0) {
                return "stop: round " + decimal(round) + ", ant " + decimal(id) + ", break " + decimal(number) + "\n" +
                       cells_text(game.world);
            }
        }
    }
    return "no stop in " + decimal(rounds) + " rounds\n";
}

}  // namespace

static const Command here("view", [](Words& words) {
    const GameFiles files(words);
    const std::string breaks_name = words.file_name();
    Setup setup;
    uint64_t rounds = 0;
    uint64_t from = 0;
    words.options(seed_and_rounds(setup.seed, rounds) + Options{from_option(from)});
    files.fetch(setup);
    const std::vector<Break> breaks = read_breaks(breaks_name, fetch(breaks_name));
    Game game(setup);
    print(seed_line(setup.seed) + view_text(game, breaks, rounds, from));
});
