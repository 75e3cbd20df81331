// `same`: the section "Comparing brains" of docs/COMMANDS.md.
#include <algorithm>
#include <optional>
#include <set>

#include "command.hpp"

namespace {

// Two states to which the same answers lead: those that lead to the pair before it, and one more.
struct Pair {
    uint64_t first;
    uint64_t second;
    size_t before;
    size_t answer;
};

// The pairs on the way to two states that differ, from the states 0 on.
using Way = std::vector<Pair>;

Way way_to(const std::vector<Pair>& pairs, size_t last) {
    Way way = {pairs[last]};
    while (last != 0) {
        last = pairs[last].before;
        way.push_back(pairs[last]);
    }
    std::reverse(way.begin(), way.end());
    return way;
}

// Goes through the pairs of states to which the same answers lead, fewer answers first and met before unmet. Tells none
// where the brains are the same.
std::optional<Way> way_to_difference(const Brain& first, const Brain& second) {
    std::set<std::pair<uint64_t, uint64_t>> known = {{0, 0}};
    std::vector<Pair> pairs = {{0, 0, 0, 0}};
    for (size_t place = 0; place < pairs.size(); place++) {
        const Instruction& one = first[pairs[place].first];
        const Instruction& other = second[pairs[place].second];
        if (kind_of(one) != kind_of(other)) {
            return way_to(pairs, place);
        }
        for (size_t answer = 0; answer < one.next.size(); answer++) {
            if (known.insert({one.next[answer], other.next[answer]}).second) {
                pairs.push_back({one.next[answer], other.next[answer], place, answer});
            }
        }
    }
    return {};
}

std::string state_text(uint64_t state, const Brain& brain) {
    return decimal(state) + ": " + line_of(brain[state]);
}

// A line for each answer on the way.
std::string answers_text(const Way& way, const Brain& first, const Brain& second) {
    std::string text;
    for (size_t i = 0; i + 1 < way.size(); i++) {
        text += "first " + state_text(way[i].first, first) + ", second " + state_text(way[i].second, second) + ": " +
                (way[i + 1].answer == 0 ? "met" : "unmet") + "\n";
    }
    return text;
}

}  // namespace

static const Command here("same", [](Words& words) {
    const std::string first_name = words.file_name();
    const std::string second_name = words.file_name();
    bool tells_way = false;
    words.options({flag("--way", tells_way)});
    const Brain first = fetch_brain(first_name);
    const Brain second = fetch_brain(second_name);
    const std::optional<Way> way = way_to_difference(first, second);
    if (!way) {
        print("same\n");
        return;
    }
    print("different after " + decimal(way->size() - 1) + " answers\n" +
          (tells_way ? answers_text(*way, first, second) : "") + "first " + state_text(way->back().first, first) +
          "\nsecond " + state_text(way->back().second, second) + "\n");
});
