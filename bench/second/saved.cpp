// Saved games: the section "Saved games" of docs/COMMANDS.md.
#include "saved.hpp"

#include <algorithm>

#include "files.hpp"
#include "text.hpp"
#include "words.hpp"

namespace {

constexpr size_t most_digits = 11;
constexpr uint64_t any_count = 99999999999;
constexpr uint64_t any_state = 9999999999;
constexpr uint64_t most_weight = 2340900;
constexpr uint64_t weight_of_ant = 9;
constexpr char first_byte = '0';  // of markers and of food: none of them
constexpr uint64_t most_sets = 63;
constexpr uint64_t most_in_a_byte = 62;  // of food; more has a line of its own
constexpr char more_food = 'o';

const std::string kinds = "#.+-";

using Tokens = std::vector<std::string>;

// The pieces of a line between single spaces.
Tokens pieces_of(const std::string& line) {
    Tokens pieces = {""};
    for (char byte : line) {
        if (byte == ' ') {
            pieces.push_back("");
        } else {
            pieces.back() += byte;
        }
    }
    return pieces;
}

// Whether a piece is a number as it is printed, within limits; if so, `number` is that.
bool read_printed(const std::string& piece, uint64_t least, uint64_t most, uint64_t& number) {
    if (piece.empty() || piece.size() > most_digits || (piece[0] == '0' && piece.size() > 1)) {
        return false;
    }
    number = 0;
    for (char byte : piece) {
        if (byte < '0' || byte > '9') {
            return false;
        }
        number = number * 10 + static_cast<uint64_t>(byte - '0');
    }
    return number >= least && number <= most;
}

char kind_byte(const Cell& cell) {
    if (cell.is_rocky) {
        return '#';
    }
    if (!cell.hill) {
        return '.';
    }
    return *cell.hill == RED ? '+' : '-';
}

char food_byte(const Cell& cell) {
    return cell.food > most_in_a_byte ? more_food : static_cast<char>(first_byte + cell.food);
}

template <typename Byte>
std::string rows_text(const World& world, Byte byte) {
    std::string text;
    for (size_t place = 0; place < world.cells.size(); place++) {
        text += byte(world.cells[place]);
        if ((place + 1) % static_cast<size_t>(world.width) == 0) {
            text += "\n";
        }
    }
    return text;
}

std::string position_text(const World& world, size_t place) {
    const size_t width = static_cast<size_t>(world.width);
    return decimal(place % width) + " " + decimal(place / width);
}

std::string ants_text(const World& world) {
    std::string text;
    for (size_t id = 0; id < world.places.size(); id++) {
        if (world.places[id] == dead) {
            continue;
        }
        const size_t place = static_cast<size_t>(world.places[id]);
        const Ant& ant = *world.cells[place].ant;
        text += "ant " + decimal(id) + " " + colour_words[ant.colour] + " " + position_text(world, place) + " " +
                decimal(ant.direction) + " " + (ant.has_food ? "1" : "0") + " " + decimal(ant.state) + " " +
                decimal(ant.resting) + "\n";
    }
    return text;
}

// The lines of a saved text, read one after another. Whatever isn't in its form is refused with the line's number.
class Reader {
  public:
    Reader(std::string name, const std::string& text)
        : name(std::move(name)), lines(lines_of(text)), is_ended(!text.empty() && text.back() == '\n') {
    }
    Saved read();

  private:
    [[noreturn]] void refuse_line(size_t number) const {
        refuse(5, name + ": line " + decimal(number) + ": not a save");
    }
    [[noreturn]] void refuse_this() const {
        refuse_line(done);
    }
    const std::string& next() {
        done++;
        if (done > lines.size()) {
            refuse_line(done);
        }
        return lines[done - 1];
    }
    std::vector<uint64_t> numbers(const Tokens& form);
    void read_head(Saved& saved);
    Brain read_program(const std::string& colour);
    std::vector<uint64_t> read_rows(const std::string& bytes);
    void read_cells(World& world);
    void read_food(World& world);
    void read_ants();
    void read_end() const;
    void judge(Saved& saved) const;
    bool is_state(const Saved& saved) const;

    std::string name;
    std::vector<std::string> lines;
    bool is_ended;
    size_t done = 0;
    size_t ids = 0;
    size_t width = 0;
    size_t height = 0;
    std::vector<std::pair<size_t, Ant>> ants;  // with their places
};

// Reads a line of words and numbers. Of the form `LEAST..MOST` are the pieces that are numbers.
std::vector<uint64_t> Reader::numbers(const Tokens& form) {
    const Tokens pieces = pieces_of(next());
    std::vector<uint64_t> read;
    if (pieces.size() != form.size()) {
        refuse_this();
    }
    for (size_t i = 0; i < form.size(); i++) {
        const size_t dots = form[i].find("..");
        if (dots == std::string::npos) {
            if (pieces[i] != form[i]) {
                refuse_this();
            }
            continue;
        }
        uint64_t number = 0;
        if (!read_printed(pieces[i], std::stoull(form[i].substr(0, dots)), std::stoull(form[i].substr(dots + 2)),
                          number)) {
            refuse_this();
        }
        read.push_back(number);
    }
    return read;
}

std::string up_to(uint64_t most) {
    return "0.." + decimal(most);
}

void Reader::read_head(Saved& saved) {
    if (next() != "ants save 1") {
        refuse_this();
    }
    saved.seed = numbers({"seed", up_to(most_of_32_bits)})[0];
    const std::vector<uint64_t> sheet = numbers({"sheet", "4..6", "0..9", "0..255"});
    saved.sheet = {sheet[0], sheet[1], sheet[2]};
    saved.window = numbers({"window", "1.." + decimal(most_turns)})[0];
    saved.round = numbers({"round", up_to(most_rounds)})[0];
    saved.place = numbers({"place", up_to(any_count)})[0];
    const std::vector<uint64_t> counts = numbers({"taken", up_to(any_count), "redone", up_to(any_count)});
    saved.taken = counts[0];
    saved.redone = counts[1];
    const std::vector<uint64_t> size = numbers({"size", "3..512", "3..512"});
    width = size[0];
    height = size[1];
}

// A line of a brain that isn't as the canonical text would have it is refused, but for a state that is too large.
Brain Reader::read_program(const std::string& colour) {
    const uint64_t count = numbers({colour, "1.." + decimal(most_instructions)})[0];
    Brain brain;
    for (uint64_t i = 0; i < count; i++) {
        const std::string line = next();
        const auto read_state = [](Places& places) {
            return places.number(0, any_state);
        };
        const std::string where = name + ": line " + decimal(done) + ": not a save";
        Places places(where, tokens_of(line), true, true);
        const Instruction it = read_instruction(places, read_state);
        if (line_of(it) != line) {
            refuse_this();
        }
        brain.push_back(it);
    }
    return brain;
}

// Reads a row of each of the world's rows, of these bytes; tells the place of each byte among them.
std::vector<uint64_t> Reader::read_rows(const std::string& bytes) {
    std::vector<uint64_t> read;
    for (size_t y = 0; y < height; y++) {
        const std::string& line = next();
        if (line.size() != width) {
            refuse_this();
        }
        for (char byte : line) {
            const size_t place = bytes.find(byte);
            if (place == std::string::npos) {
                refuse_this();
            }
            read.push_back(place);
        }
    }
    return read;
}

std::string bytes_from(char first, size_t count) {
    std::string bytes;
    for (size_t i = 0; i < count; i++) {
        bytes += static_cast<char>(first + i);
    }
    return bytes;
}

void Reader::read_cells(World& world) {
    world.width = static_cast<int>(width);
    world.height = static_cast<int>(height);
    world.cells.resize(width * height);
    const std::vector<uint64_t> kind = read_rows(kinds);
    for (size_t place = 0; place < kind.size(); place++) {
        Cell& cell = world.cells[place];
        cell.is_rocky = kinds[kind[place]] == '#';
        if (kind[place] >= 2) {
            cell.hill = kinds[kind[place]] == '+' ? RED : BLACK;
            ids++;
        }
    }
    for (int colour : {RED, BLACK}) {
        const std::vector<uint64_t> sets = read_rows(bytes_from(first_byte, most_sets + 1));
        for (size_t place = 0; place < sets.size(); place++) {
            world.cells[place].marks[colour] = static_cast<int>(sets[place]);
        }
    }
    read_food(world);
}

void Reader::read_food(World& world) {
    const std::vector<uint64_t> food = read_rows(bytes_from(first_byte, most_in_a_byte + 1) + more_food);
    for (size_t place = 0; place < food.size(); place++) {
        world.cells[place].food = food[place];
    }
    for (size_t place = 0; place < food.size(); place++) {
        if (food[place] > most_in_a_byte) {
            const std::string x = decimal(place % width);
            const std::string y = decimal(place / width);
            const std::string amount = decimal(most_in_a_byte + 1) + ".." + decimal(most_weight);
            world.cells[place].food = numbers({"food", x, y, amount})[0];
        }
    }
}

void Reader::read_ants() {
    uint64_t least = 0;
    while (next() != "end") {
        const Tokens pieces = pieces_of(lines[done - 1]);
        const std::string colour =
            pieces.size() > 2 && pieces[2] == colour_words[BLACK] ? colour_words[BLACK] : colour_words[RED];
        done--;
        const std::vector<uint64_t> it =
            numbers({"ant", decimal(least) + ".." + decimal(most_ants - 1), colour, up_to(width - 1), up_to(height - 1),
                     "0..5", "0..1", up_to(most_instructions - 1), "0..255"});
        Ant ant;
        ant.id = static_cast<int>(it[0]);
        ant.colour = colour == colour_words[RED] ? RED : BLACK;
        ant.direction = static_cast<int>(it[3]);
        ant.has_food = it[4] == 1;
        ant.state = static_cast<int>(it[5]);
        ant.resting = static_cast<int>(it[6]);
        ants.push_back({it[2] * width + it[1], ant});
        least = it[0] + 1;
    }
}

void Reader::read_end() const {
    if (done < lines.size()) {
        refuse_line(done + 1);
    }
    if (!is_ended) {
        refuse_this();
    }
}

bool has_states(const Brain& brain) {
    for (const Instruction& it : brain) {
        for (uint64_t state : it.next) {
            if (state >= brain.size()) {
                return false;
            }
        }
    }
    return true;
}

bool is_ground(const World& world) {
    const int width = world.width;
    for (size_t i = 0; i < world.cells.size(); i++) {
        const int x = static_cast<int>(i) % width;
        const int y = static_cast<int>(i) / width;
        const bool is_rim = x == 0 || y == 0 || x == width - 1 || y == world.height - 1;
        const Cell& cell = world.cells[i];
        const bool is_bare = cell.food == 0 && cell.marks[RED] == 0 && cell.marks[BLACK] == 0;
        if ((is_rim && !cell.is_rocky) || (cell.is_rocky && !is_bare)) {
            return false;
        }
    }
    return true;
}

uint64_t weight_of(const World& world) {
    uint64_t weight = 0;
    for (const Cell& cell : world.cells) {
        weight += cell.food;
        if (cell.ant) {
            weight += weight_of_ant + (cell.ant->has_food ? 1 : 0);
        }
    }
    return weight;
}

bool Reader::is_state(const Saved& saved) const {
    const uint64_t turns = ids * saved.round;
    return ids <= most_ants && is_ground(saved.world) && has_states(saved.brains[RED]) &&
           has_states(saved.brains[BLACK]) && saved.place <= turns && saved.taken + saved.redone == turns;
}

// Puts the ants into the world, and refuses a save that is no state of a game.
void Reader::judge(Saved& saved) const {
    bool is_right = is_state(saved);
    World& world = saved.world;
    world.places.assign(ids, dead);
    for (const auto& [place, ant] : ants) {
        Cell& cell = world.cells[place];
        const size_t states = saved.brains[ant.colour].size();
        if (cell.is_rocky || cell.ant || static_cast<size_t>(ant.id) >= ids ||
            static_cast<size_t>(ant.state) >= states) {
            is_right = false;
            break;
        }
        cell.ant = ant;
        world.places[static_cast<size_t>(ant.id)] = static_cast<int>(place);
    }
    if (!is_right || weight_of(world) > most_weight) {
        refuse(5, name + ": no valid state");
    }
}

Saved Reader::read() {
    Saved saved;
    read_head(saved);
    saved.brains[RED] = read_program(colour_words[RED]);
    saved.brains[BLACK] = read_program(colour_words[BLACK]);
    read_cells(saved.world);
    read_ants();
    read_end();
    judge(saved);
    return saved;
}

}  // namespace

std::string saved_text(const Saved& saved) {
    std::string text = "ants save 1\nseed " + decimal(saved.seed) + "\nsheet " + decimal(saved.sheet.surround) + " " +
                       decimal(saved.sheet.corpse) + " " + decimal(saved.sheet.rest) + "\nwindow " +
                       decimal(saved.window) + "\nround " + decimal(saved.round) + "\nplace " + decimal(saved.place) +
                       "\ntaken " + decimal(saved.taken) + " redone " + decimal(saved.redone) + "\nsize " +
                       decimal(static_cast<uint64_t>(saved.world.width)) + " " +
                       decimal(static_cast<uint64_t>(saved.world.height)) + "\n";
    for (int colour : {RED, BLACK}) {
        const Brain& brain = saved.brains[colour];
        text += colour_words[colour] + " " + decimal(brain.size()) + "\n" + canonical_text(brain);
    }
    text += rows_text(saved.world, kind_byte);
    for (int colour : {RED, BLACK}) {
        text += rows_text(saved.world, [colour](const Cell& cell) {
            return static_cast<char>(first_byte + cell.marks[colour]);
        });
    }
    text += rows_text(saved.world, food_byte);
    for (size_t place = 0; place < saved.world.cells.size(); place++) {
        const uint64_t food = saved.world.cells[place].food;
        if (food > most_in_a_byte) {
            text += "food " + position_text(saved.world, place) + " " + decimal(food) + "\n";
        }
    }
    return text + ants_text(saved.world) + "end\n";
}

Saved fetch_saved(const std::string& name, uint64_t rounds) {
    const Saved saved = Reader(name, fetch(name)).read();
    if (saved.round > rounds) {
        refuse(5, name + ": already at round " + decimal(saved.round));
    }
    return saved;
}

void play_on(Saved& saved, uint64_t rounds) {
    Game game(saved, saved.place);
    Windows windows(game, saved.window);
    windows.counts = saved.counts();
    for (; saved.round < rounds; saved.round++) {
        windows.play_round();
    }
    saved.place = game.random.place();
    saved.taken = windows.counts.taken;
    saved.redone = windows.counts.redone;
    saved.world = game.world;
}
