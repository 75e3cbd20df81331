// Worlds: the sections "The world" and "Worlds" of docs/RULES.md.
#include "world.hpp"

#include <algorithm>

#include "files.hpp"
#include "text.hpp"

namespace {

constexpr uint64_t least_size = 3;
constexpr uint64_t most_size = 512;

// By whether the row is odd, and by direction.
constexpr int steps_right[2][6] = {{1, 0, -1, -1, -1, 0}, {1, 1, 0, -1, 0, 1}};
constexpr int steps_down[6] = {0, 1, 1, 0, -1, -1};

bool is_food(char byte) {
    return byte >= '1' && byte <= '9';
}

bool is_hill(char byte) {
    return byte == '+' || byte == '-';
}

bool is_cell(char byte) {
    return byte == '#' || byte == '.' || is_hill(byte) || is_food(byte);
}

// The text of a world while it is judged.
struct Judged {
    std::string name;
    std::vector<std::string> lines;
    int width = 0;
    int height = 0;
    std::string cells;
};

int read_size(const Judged& world, size_t line_number, const std::string& what) {
    uint64_t size = 0;
    if (line_number < world.lines.size()) {
        const std::string& line = world.lines[line_number];
        size_t start = 0;
        size_t end = line.size();
        while (start < end && is_separator(line[start])) {
            start++;
        }
        while (end > start && is_separator(line[end - 1])) {
            end--;
        }
        if (read_number(line.substr(start, end - start), least_size, most_size, size)) {
            return static_cast<int>(size);
        }
    }
    refuse(5, world.name + ": bad " + what);
}

void read_row(Judged& world, int row) {
    const std::string where = world.name + ": row " + decimal(row) + ": ";
    const size_t line_number = static_cast<size_t>(row) + 2;
    if (line_number >= world.lines.size()) {
        refuse(5, where + "missing");
    }
    int count = 0;
    for (char byte : world.lines[line_number]) {
        if (is_separator(byte)) {
            continue;
        }
        if (count == world.width) {
            refuse(5, where + "long");
        }
        if (!is_cell(byte)) {
            refuse(5, where + "bad cell at column " + decimal(count));
        }
        world.cells += byte;
        count++;
    }
    if (count < world.width) {
        refuse(5, where + "short");
    }
}

void judge_lines_after(const Judged& world) {
    for (size_t i = static_cast<size_t>(world.height) + 2; i < world.lines.size(); i++) {
        for (char byte : world.lines[i]) {
            if (!is_separator(byte)) {
                refuse(5, world.name + ": extra row");
            }
        }
    }
}

void judge_rim(const Judged& world) {
    for (int y = 0; y < world.height; y++) {
        for (int x = 0; x < world.width; x++) {
            const bool is_rim = x == 0 || y == 0 || x == world.width - 1 || y == world.height - 1;
            if (is_rim && world.cells[static_cast<size_t>(y) * world.width + x] != '#') {
                refuse(5, world.name + ": rim open at (" + decimal(x) + ", " + decimal(y) + ")");
            }
        }
    }
}

void judge_ants(const Judged& world) {
    const int64_t ants = std::count_if(world.cells.begin(), world.cells.end(), is_hill);
    if (ants > most_ants) {
        refuse(5, world.name + ": too many ants, " + decimal(ants));
    }
}

}  // namespace

const std::string colour_words[2] = {"red", "black"};

Point neighbour(Point point, int direction) {
    return {point.x + steps_right[point.y & 1][direction], point.y + steps_down[direction]};
}

int neighbour(const World& world, int place, int direction) {
    const Point point = neighbour(Point{place % world.width, place / world.width}, direction);
    return static_cast<int>(point.y * world.width + point.x);
}

World world_of(int width, int height, const std::string& cells) {
    World world;
    world.width = width;
    world.height = height;
    world.cells.resize(cells.size());
    for (size_t place = 0; place < cells.size(); place++) {
        Cell& cell = world.cells[place];
        const char byte = cells[place];
        if (byte == '#') {
            cell.is_rocky = true;
        } else if (is_food(byte)) {
            cell.food = static_cast<uint64_t>(byte - '0');
        } else if (is_hill(byte)) {
            cell.hill = byte == '+' ? RED : BLACK;
            cell.ant = Ant();
            cell.ant->id = static_cast<int>(world.places.size());
            cell.ant->colour = *cell.hill;
            world.places.push_back(static_cast<int>(place));
        }
    }
    return world;
}

World read_world(const std::string& name, const std::string& text) {
    Judged world;
    world.name = name;
    world.lines = lines_of(text);
    world.width = read_size(world, 0, "width");
    world.height = read_size(world, 1, "height");
    for (int row = 0; row < world.height; row++) {
        read_row(world, row);
    }
    judge_lines_after(world);
    judge_rim(world);
    judge_ants(world);
    return world_of(world.width, world.height, world.cells);
}

std::string canonical_text(int width, int height, const std::string& cells) {
    std::string text = decimal(width) + "\n" + decimal(height) + "\n";
    for (int y = 0; y < height; y++) {
        text += y % 2 == 1 ? " " : "";
        for (int x = 0; x < width; x++) {
            text += x == 0 ? "" : " ";
            text += cells[static_cast<size_t>(y) * width + x];
        }
        text += "\n";
    }
    return text;
}
