// `events`: the section "Events" of docs/COMMANDS.md.
#include "command.hpp"
#include "printed.hpp"

namespace {

// The score of a game, which follows it turn by turn.
class ScoreKept {
  public:
    explicit ScoreKept(const World& world) : score(score_of(world)) {
        for (const Cell& cell : world.cells) {
            food.push_back(cell.food);
        }
    }
    bool follow(const World& world, const std::vector<int>& touched);

    Score score;

  private:
    std::vector<uint64_t> food;  // on each cell
};

// Takes in a turn by the cells that it may have changed, and tells whether the score is another now.
bool ScoreKept::follow(const World& world, const std::vector<int>& touched) {
    const Score before = score;
    for (int place : touched) {
        const Cell& cell = world.cells[place];
        if (cell.hill) {
            uint64_t& kept = *cell.hill == RED ? score.red : score.black;
            kept = kept - food[place] + cell.food;
        }
        food[place] = cell.food;
    }
    return score.red != before.red || score.black != before.black;
}

// The line of a turn in which the ant takes or drops food; nothing of any other turn.
std::string food_line(const Game& game, const Turn& turn) {
    if (!turn.trace.answer) {
        return "";
    }
    const Instruction& it = (*game.rules.brains[turn.ant.colour])[turn.ant.state];
    const bool takes = it.operation == PICK_UP && *turn.trace.answer == 0;
    const bool drops = it.operation == DROP && turn.ant.has_food;
    if (!takes && !drops) {
        return "";
    }
    const Cell& cell = game.world.cells[turn.place];
    return turn_start(turn) + "state " + decimal(turn.ant.state) + (takes ? " takes" : " drops") + " food on " +
           place_text(game.world, turn.place) + (cell.hill ? ", " + colour_words[*cell.hill] + " hill" : "") + "\n";
}

// The lines of the ants that a turn kills.
std::string deaths_text(const Game& game, const Turn& turn) {
    std::string text;
    for (const Kill& kill : turn.trace.kills) {
        text += turn_start(turn) + ant_name(kill.ant) + " dies on " + place_text(game.world, kill.place) + "\n";
    }
    return text;
}

struct Asked {
    uint64_t rounds = 0;
    uint64_t from = 0;
    bool has_food = false;
};

void print_events(Game& game, const Asked& asked, std::string text) {
    ScoreKept kept(game.world);
    play_turns(game, asked.rounds, [&](const Turn& turn) {
        const bool is_other = kept.follow(game.world, turn.trace.touched);
        if (turn.round < asked.from) {
            return;
        }
        text += deaths_text(game, turn);
        text += asked.has_food ? food_line(game, turn) : "";
        text += is_other ? turn_start(turn) + score_line(kept.score) : "";
        print_if_long(text);
    });
    print(text);
}

}  // namespace

static const Command here("events", [](Words& words) {
    const GameFiles files(words);
    Setup setup;
    Asked asked;
    words.options(seed_and_rounds(setup.seed, asked.rounds) + sheet_options(setup.sheet) +
                  Options{from_option(asked.from), flag("--food", asked.has_food)});
    files.fetch(setup);
    Game game(setup);
    print_events(game, asked, seed_line(setup.seed));
});
