// `cup`: the section "Cups" of docs/COMMANDS.md.
#include <algorithm>
#include <optional>

#include "command.hpp"

namespace {

constexpr size_t most_worlds = 16;
constexpr size_t most_brains = 16;
constexpr uint64_t most_seeds = 1000;

struct Cup {
    std::vector<std::string> world_names;
    std::vector<std::string> brain_names;
    uint64_t seed = 0;
    uint64_t rounds = 0;
    std::optional<uint64_t> seeds;  // how many there are; 1 where the words don't say
    bool tells_games = false;
    bool has_leads = false;
    bool is_gauntlet = false;
};

struct Standing {
    std::string name;
    uint64_t won = 0;
    uint64_t drawn = 0;
    uint64_t lost = 0;
    int64_t lead = 0;

    uint64_t points() const {
        return 2 * won + drawn;
    }
};

void read_world_names(Words& words, Cup& cup) {
    words.keyword("--worlds");
    cup.world_names.push_back(words.file_name());
    while (words.next() != "--brains") {
        if (cup.world_names.size() == most_worlds) {
            words.refuse_next();
        }
        cup.world_names.push_back(words.file_name());
    }
}

void read_brain_names(Words& words, Cup& cup) {
    std::vector<std::string>& names = cup.brain_names;
    words.keyword("--brains");
    while (names.size() < 2 || (!words.is_end() && is_file_name(words.next()))) {
        const bool is_known = std::find(names.begin(), names.end(), words.next()) != names.end();
        if (is_known || names.size() == most_brains) {
            words.refuse_next();
        }
        names.push_back(words.file_name());
    }
}

Option seeds_option(std::optional<uint64_t>& seeds) {
    return {"--seeds", false, [&seeds](Words& words) {
                seeds = words.number(1, most_seeds);
            }};
}

Cup read_cup(Words& words) {
    Cup cup;
    read_world_names(words, cup);
    read_brain_names(words, cup);
    words.options(seed_and_rounds(cup.seed, cup.rounds) +
                  Options{seeds_option(cup.seeds), workers_option(), flag("--games", cup.tells_games),
                          flag("--leads", cup.has_leads), flag("--gauntlet", cup.is_gauntlet)});
    return cup;
}

// A game of a cup: its seed, and the places of its world and its brains in the words.
struct Pairing {
    size_t world;
    uint64_t seed;
    size_t red;
    size_t black;
};

// The games on a world in the order in which they are played: with each seed for each brain and each that was named
// behind it, the first with the red ants and then with the black ones.
std::vector<Pairing> games_on(size_t world, const Cup& cup) {
    std::vector<Pairing> games;
    const size_t firsts = cup.is_gauntlet ? 1 : cup.brain_names.size();
    for (uint64_t more = 0; more < cup.seeds.value_or(1); more++) {
        const uint64_t seed = (cup.seed + more) % (most_of_32_bits + 1);
        for (size_t one = 0; one < firsts; one++) {
            for (size_t other = one + 1; other < cup.brain_names.size(); other++) {
                games.push_back({world, seed, one, other});
                games.push_back({world, seed, other, one});
            }
        }
    }
    return games;
}

void settle(const Score& score, Standing& red, Standing& black) {
    const int64_t lead = static_cast<int64_t>(score.red) - static_cast<int64_t>(score.black);
    red.lead += lead;
    black.lead -= lead;
    if (score.red == score.black) {
        red.drawn++;
        black.drawn++;
    } else if (score.red > score.black) {
        red.won++;
        black.lost++;
    } else {
        black.won++;
        red.lost++;
    }
}

Score score_of_game(const World& world, const Brain& red, const Brain& black, uint64_t seed, uint64_t rounds) {
    Game game(world, {{&red, &black}, Sheet()}, seed);
    for (uint64_t round = 0; round < rounds; round++) {
        game.play_round();
    }
    return score_of(game.world);
}

// Its number is counted from 1.
std::string game_line(const Cup& cup, size_t number, const Pairing& game, const Score& score) {
    return "game " + decimal(number) + ": red " + decimal(score.red) + " black " + decimal(score.black) + ", " +
           (cup.seeds ? "seed " + decimal(game.seed) + ", " : "") + cup.world_names[game.world] + ", " +
           cup.brain_names[game.red] + ", " + cup.brain_names[game.black] + "\n";
}

std::string standing_line(const Standing& it, bool has_lead) {
    return decimal(it.points()) + " points: " + it.name + " (" + decimal(it.won) + " won, " + decimal(it.drawn) +
           " drawn, " + decimal(it.lost) + " lost)" + (has_lead ? ", lead " + std::to_string(it.lead) : "") + "\n";
}

}  // namespace

static const Command here("cup", [](Words& words) {
    const Cup cup = read_cup(words);
    std::vector<World> worlds;
    for (const std::string& name : cup.world_names) {
        worlds.push_back(fetch_world(name));
    }
    std::vector<Brain> brains;
    std::vector<Standing> standings;
    for (const std::string& name : cup.brain_names) {
        brains.push_back(fetch_brain(name));
        standings.push_back({name});
    }
    std::string text;
    size_t number = 0;
    for (size_t place = 0; place < worlds.size(); place++) {
        for (const Pairing& game : games_on(place, cup)) {
            const Score score =
                score_of_game(worlds[place], brains[game.red], brains[game.black], game.seed, cup.rounds);
            settle(score, standings[game.red], standings[game.black]);
            number++;
            text += cup.tells_games ? game_line(cup, number, game, score) : "";
        }
        print_if_long(text);
    }
    const auto has_more = [](const Standing& left, const Standing& right) {
        return left.points() > right.points();
    };
    std::stable_sort(standings.begin(), standings.end(), has_more);
    for (const Standing& standing : standings) {
        text += standing_line(standing, cup.has_leads);
    }
    print(text);
});
