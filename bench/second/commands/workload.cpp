// `workload`: the section "Workloads" of docs/COMMANDS.md.
#include "command.hpp"
#include "generate.hpp"
#include "looks.hpp"
#include "printed.hpp"

namespace {

// The sample brain of the task.
const std::string sample =
    "Sense Ahead 1 3 Food\n"
    "Move 2 0\n"
    "PickUp 8 0\n"
    "Flip 3 4 5\n"
    "Turn Left 0\n"
    "Flip 2 6 7\n"
    "Turn Right 0\n"
    "Move 0 3\n"
    "Sense Ahead 9 11 Home\n"
    "Move 10 8\n"
    "Drop 0\n"
    "Flip 3 12 13\n"
    "Turn Left 8\n"
    "Flip 2 14 15\n"
    "Turn Right 8\n"
    "Move 8 11\n";

std::string start_lines(const World& world) {
    uint64_t food = 0;
    for (const Cell& cell : world.cells) {
        food += cell.food;
    }
    return "ants " + decimal(world.places.size()) + "\nfood " + decimal(food) + "\n";
}

std::string alive_line(const World& world) {
    uint64_t alive[2] = {0, 0};
    for (const Cell& cell : world.cells) {
        if (cell.ant) {
            alive[cell.ant->colour]++;
        }
    }
    return "alive red " + decimal(alive[RED]) + " black " + decimal(alive[BLACK]) + "\n";
}

}  // namespace

static const Command here("workload", [](Words& words) {
    const uint64_t seed = words.number(0, most_of_32_bits);
    const uint64_t rounds = words.number(0, most_rounds);
    words.number(1, most_workers);
    words.end();
    const Shape shape;
    const std::string cells = generated_cells(seed, shape);
    const World world = world_of(static_cast<int>(shape.width), static_cast<int>(shape.height), cells);
    const Brain brain = read_brain("sample", sample);
    Game game(world, {{&brain, &brain}, Sheet()}, seed);
    Windows windows(game, most_turns);
    for (uint64_t round = 0; round < rounds; round++) {
        windows.play_round();
    }
    print("workload seed " + decimal(seed) + " rounds " + decimal(rounds) + "\n" + start_lines(world) +
          alive_line(game.world) + score_line(score_of(game.world)) + counts_line(windows.counts));
});
