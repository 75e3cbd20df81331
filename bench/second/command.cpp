// The table of commands, and what several of them read of their words and files.
#include "command.hpp"

#include "looks.hpp"

std::map<std::string, Deed>& commands() {
    static std::map<std::string, Deed> table;
    return table;
}

World fetch_world(const std::string& name) {
    return read_world(name, fetch(name));
}

Brain fetch_brain(const std::string& name) {
    return read_brain(name, fetch(name));
}

void GameFiles::fetch(Setup& setup) const {
    setup.world = fetch_world(world);
    setup.brains[RED] = fetch_brain(red);
    setup.brains[BLACK] = fetch_brain(black);
}

Options seed_and_rounds(uint64_t& seed, uint64_t& rounds) {
    return {needed_number("--seed", 0, most_of_32_bits, seed), needed_number("--rounds", 0, most_rounds, rounds)};
}

Options sheet_options(Sheet& sheet) {
    return {free_number("--surround", 4, 6, sheet.surround), free_number("--corpse", 0, 9, sheet.corpse),
            free_number("--rest", 0, 255, sheet.rest)};
}

Option window_option(uint64_t& window) {
    return free_number("--window", 1, most_turns, window);
}

Option from_option(uint64_t& from) {
    return free_number("--from", 0, most_rounds, from);
}

Option workers_option() {
    return {"--workers", false, [](Words& words) {
                words.number(1, most_workers);
            }};
}
