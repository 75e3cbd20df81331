// What is printed of a world: the section "What run prints" of docs/COMMANDS.md.
#include "printed.hpp"

#include "files.hpp"
#include "text.hpp"

namespace {

std::string marks_text(int colour, int marks) {
    if (marks == 0) {
        return "";
    }
    std::string text = colour_words[colour] + " marks: ";
    for (int marker = 0; marker < 6; marker++) {
        if ((marks >> marker & 1) == 1) {
            text += decimal(marker);
        }
    }
    return text + "; ";
}

std::string ant_text(const Ant& ant) {
    return colour_words[ant.colour] + " ant of id " + decimal(ant.id) + ", dir " + decimal(ant.direction) + ", food " +
           (ant.has_food ? "1" : "0") + ", state " + decimal(ant.state) + ", resting " + decimal(ant.resting);
}

std::string content_of(const Cell& cell) {
    if (cell.is_rocky) {
        return "rock";
    }
    std::string text;
    if (cell.food > 0) {
        text += decimal(cell.food) + " food; ";
    }
    if (cell.hill) {
        text += colour_words[*cell.hill] + " hill; ";
    }
    text += marks_text(RED, cell.marks[RED]);
    text += marks_text(BLACK, cell.marks[BLACK]);
    if (cell.ant) {
        text += ant_text(*cell.ant);
    }
    return text;
}

}  // namespace

std::string seed_line(uint64_t seed) {
    return "random seed: " + decimal(seed) + "\n";
}

std::string place_text(const World& world, int place) {
    return "(" + decimal(place % world.width) + ", " + decimal(place / world.width) + ")";
}

std::string cell_line(const World& world, int place) {
    return "cell " + place_text(world, place) + ": " + content_of(world.cells[place]) + "\n";
}

std::string cells_text(const World& world) {
    std::string text;
    for (int place = 0; place < world.width * world.height; place++) {
        text += cell_line(world, place);
    }
    return text;
}

std::string dump_text(const World& world, uint64_t round) {
    return "\nAfter round " + decimal(round) + "...\n" + cells_text(world);
}

std::string score_line(const Score& score) {
    return "score: red " + decimal(score.red) + " black " + decimal(score.black) + "\n";
}

std::string counts_line(const Counts& counts) {
    return "turns " + decimal(counts.turns) + " taken " + decimal(counts.taken) + " redone " + decimal(counts.redone) +
           "\n";
}

std::string ant_name(const Ant& ant) {
    return colour_words[ant.colour] + " ant " + decimal(ant.id);
}

std::string turn_start(const Turn& turn) {
    return "round " + decimal(turn.round) + ", " + ant_name(turn.ant) + ": ";
}

void play(Game& game, const Telling& told, std::string text, uint64_t round, const Counts& counts) {
    Windows windows(game, told.window);
    windows.counts = counts;
    while (round < told.rounds) {
        round++;
        if (told.has_counts) {
            windows.play_round();
        } else {
            game.play_round();
        }
        if (told.dumps.has(round)) {
            text += dump_text(game.world, round);
        }
        print_if_long(text);
    }
    text += "\n" + score_line(score_of(game.world));
    if (told.has_counts) {
        text += counts_line(windows.counts);
    }
    print(text);
}
