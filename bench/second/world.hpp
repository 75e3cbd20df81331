// Worlds: the sections "The world" and "Worlds" of docs/RULES.md.
#pragma once
#include <cstdint>
#include <optional>
#include <string>
#include <vector>

enum Colour { RED, BLACK };

extern const std::string colour_words[2];

struct Ant {
    int id = 0;
    int colour = RED;
    int state = 0;
    int resting = 0;
    int direction = 0;
    bool has_food = false;
};

struct Cell {
    bool is_rocky = false;
    std::optional<Colour> hill;
    uint64_t food = 0;
    int marks[2] = {0, 0};  // of each colour, a bit a marker
    std::optional<Ant> ant;
};

// Cells stand row by row; the place of a cell is y * width + x. `places` has the place of each id, or `dead`.
struct World {
    int width = 0;
    int height = 0;
    std::vector<Cell> cells;
    std::vector<int> places;
};

constexpr int dead = -1;
constexpr int64_t most_ants = 16384;

struct Point {
    int64_t x;
    int64_t y;
};

Point neighbour(Point point, int direction);
int neighbour(const World& world, int place, int direction);

// A world from the bytes of its cells, which are fit for one.
World world_of(int width, int height, const std::string& cells);

// Refuses a text that is no world.
World read_world(const std::string& name, const std::string& text);

// The canonical text of a world at the start of a game.
std::string canonical_text(int width, int height, const std::string& cells);
