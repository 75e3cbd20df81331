// Generated worlds: the section of this name of docs/COMMANDS.md.
#include "generate.hpp"

#include <optional>
#include <set>
#include <utility>
#include <vector>

#include "files.hpp"
#include "text.hpp"
#include "turn.hpp"

namespace {

constexpr int hill_radius = 6;
constexpr int tries = 50;
constexpr int blob_side = 5;

using Points = std::vector<Point>;

// The points at a distance of at most `radius`.
Points ball(Point centre, int radius) {
    std::set<std::pair<int64_t, int64_t>> inside = {{centre.x, centre.y}};
    Points ring = {centre};
    for (int distance = 1; distance <= radius; distance++) {
        Points next_ring;
        for (const Point& point : ring) {
            for (int direction = 0; direction < 6; direction++) {
                const Point beside = neighbour(point, direction);
                if (inside.insert({beside.x, beside.y}).second) {
                    next_ring.push_back(beside);
                }
            }
        }
        ring = next_ring;
    }
    Points points;
    for (const auto& [x, y] : inside) {
        points.push_back({x, y});
    }
    return points;
}

Point far_in(Point point, int direction, int steps) {
    for (int i = 0; i < steps; i++) {
        point = neighbour(point, direction);
    }
    return point;
}

Points blob(Point corner, int direction) {
    Points points;
    for (int first = 0; first < blob_side; first++) {
        for (int second = 0; second < blob_side; second++) {
            points.push_back(far_in(far_in(corner, direction, first), direction + 1, second));
        }
    }
    return points;
}

// The cells of an element round place (0, 0), and round (0, 1) taken back by one row: for places in even and in odd
// rows.
struct Outline {
    Points cells[2];

    static Outline of_ball(int radius) {
        Outline outline;
        for (int odd = 0; odd < 2; odd++) {
            outline.cells[odd] = from_row(ball({0, odd}, radius), odd);
        }
        return outline;
    }

    static Outline of_blob(int direction) {
        Outline outline;
        for (int odd = 0; odd < 2; odd++) {
            outline.cells[odd] = from_row(blob({0, odd}, direction), odd);
        }
        return outline;
    }

    Points at(Point place) const {
        Points points;
        for (const Point& offset : cells[place.y & 1]) {
            points.push_back({place.x + offset.x, place.y + offset.y});
        }
        return points;
    }

  private:
    static Points from_row(Points points, int64_t row) {
        for (Point& point : points) {
            point.y -= row;
        }
        return points;
    }
};

class Generator {
  public:
    Generator(uint64_t seed, const Shape& shape);
    std::string cells;
    void place_hill(uint64_t element, char byte);
    void place_rock(uint64_t element);
    void place_blob(uint64_t element);

  private:
    size_t index(Point point) const {
        return static_cast<size_t>(point.y * width + point.x);
    }
    Point drawn_place();
    bool fits(const Outline& outline, Point place) const;
    std::optional<Point> tried_place(const Outline& outline);
    Point first_place(const Outline& outline, uint64_t element) const;
    void put(const Outline& outline, Point place, char byte);
    void place_ball(uint64_t element, int radius, char byte);

    int64_t width;
    int64_t height;
    std::vector<bool> is_taken;  // a cell of an element, or one adjacent to such a cell
    Random random;
};

Generator::Generator(uint64_t seed, const Shape& shape)
    : cells(shape.width * shape.height, '.'),
      width(static_cast<int64_t>(shape.width)),
      height(static_cast<int64_t>(shape.height)),
      is_taken(cells.size(), false),
      random(seed) {
    for (int64_t y = 0; y < height; y++) {
        for (int64_t x = 0; x < width; x++) {
            if (x == 0 || y == 0 || x == width - 1 || y == height - 1) {
                cells[index({x, y})] = '#';
            }
        }
    }
}

Point Generator::drawn_place() {
    const int64_t x = static_cast<int64_t>(random.draw_below(static_cast<uint64_t>(width)));
    const int64_t y = static_cast<int64_t>(random.draw_below(static_cast<uint64_t>(height)));
    return {x, y};
}

bool Generator::fits(const Outline& outline, Point place) const {
    for (const Point& offset : outline.cells[place.y & 1]) {
        const Point point = {place.x + offset.x, place.y + offset.y};
        const bool is_inner = point.x >= 1 && point.y >= 1 && point.x <= width - 2 && point.y <= height - 2;
        if (!is_inner || is_taken[index(point)]) {
            return false;
        }
    }
    return true;
}

std::optional<Point> Generator::tried_place(const Outline& outline) {
    for (int i = 0; i < tries; i++) {
        const Point place = drawn_place();
        if (fits(outline, place)) {
            return place;
        }
    }
    return std::nullopt;
}

Point Generator::first_place(const Outline& outline, uint64_t element) const {
    for (int64_t y = 0; y < height; y++) {
        for (int64_t x = 0; x < width; x++) {
            if (fits(outline, {x, y})) {
                return {x, y};
            }
        }
    }
    refuse(5, "no room for element " + decimal(element));
}

void Generator::put(const Outline& outline, Point place, char byte) {
    for (const Point& point : outline.at(place)) {
        cells[index(point)] = byte;
        is_taken[index(point)] = true;
        for (int direction = 0; direction < 6; direction++) {
            is_taken[index(neighbour(point, direction))] = true;
        }
    }
}

void Generator::place_ball(uint64_t element, int radius, char byte) {
    const Outline outline = Outline::of_ball(radius);
    const std::optional<Point> place = tried_place(outline);
    put(outline, place ? *place : first_place(outline, element), byte);
}

void Generator::place_hill(uint64_t element, char byte) {
    place_ball(element, hill_radius, byte);
}

void Generator::place_rock(uint64_t element) {
    const int radius = 1 + static_cast<int>(random.draw_below(4));
    place_ball(element, radius, '#');
}

void Generator::place_blob(uint64_t element) {
    for (int i = 0; i < tries; i++) {
        const Point place = drawn_place();
        const Outline outline = Outline::of_blob(static_cast<int>(random.draw_below(3)));
        if (fits(outline, place)) {
            put(outline, place, '5');
            return;
        }
    }
    const Outline outline = Outline::of_blob(0);
    put(outline, first_place(outline, element), '5');
}

}  // namespace

std::string generated_cells(uint64_t seed, const Shape& shape) {
    Generator generator(seed, shape);
    uint64_t element = 0;
    generator.place_hill(element++, '+');
    generator.place_hill(element++, '-');
    for (uint64_t i = 0; i < shape.rocks; i++) {
        generator.place_rock(element++);
    }
    for (uint64_t i = 0; i < shape.blobs; i++) {
        generator.place_blob(element++);
    }
    return generator.cells;
}
