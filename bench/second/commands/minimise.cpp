// `minimise`: the section "Minimised brains" of docs/COMMANDS.md.
#include <map>
#include <optional>

#include "command.hpp"

namespace {

// Which states state 0 leads to.
std::vector<bool> live_states(const Brain& brain) {
    std::vector<bool> live(brain.size(), false);
    std::vector<uint64_t> left = {0};
    live[0] = true;
    while (!left.empty()) {
        const uint64_t state = left.back();
        left.pop_back();
        for (uint64_t next : brain[state].next) {
            if (!live[next]) {
                live[next] = true;
                left.push_back(next);
            }
        }
    }
    return live;
}

// The classes of equivalent live states, numbered in the order of their least members. States begin in the class of
// their kind, and classes are split until each has only states whose successors are, place by place, in the same
// classes.
std::vector<size_t> classes_of(const Brain& brain, const std::vector<bool>& live) {
    std::vector<size_t> classes(brain.size(), 0);
    std::map<Key, size_t> numbers;
    for (size_t state = 0; state < brain.size(); state++) {
        if (live[state]) {
            classes[state] = numbers.emplace(kind_of(brain[state]), numbers.size()).first->second;
        }
    }
    size_t count = 0;
    while (numbers.size() != count) {
        count = numbers.size();
        numbers.clear();
        std::vector<size_t> split(brain.size(), 0);
        for (size_t state = 0; state < brain.size(); state++) {
            if (live[state]) {
                Key key = {classes[state]};
                for (uint64_t next : brain[state].next) {
                    key.push_back(classes[next]);
                }
                split[state] = numbers.emplace(key, numbers.size()).first->second;
            }
        }
        classes = split;
    }
    return classes;
}

// The state of the minimised brain that each state becomes; none where it is dropped.
std::vector<std::optional<size_t>> minimised_states(const Brain& brain) {
    const std::vector<bool> live = live_states(brain);
    const std::vector<size_t> classes = classes_of(brain, live);
    std::vector<std::optional<size_t>> states(brain.size());
    for (size_t state = 0; state < brain.size(); state++) {
        if (live[state]) {
            states[state] = classes[state];
        }
    }
    return states;
}

Brain minimised(const Brain& brain) {
    const std::vector<std::optional<size_t>> states = minimised_states(brain);
    Brain kept;
    for (size_t state = 0; state < brain.size(); state++) {
        if (states[state] == kept.size()) {
            Instruction it = brain[state];
            for (uint64_t& next : it.next) {
                next = *states[next];
            }
            kept.push_back(it);
        }
    }
    return kept;
}

// A line for each state that was read: the state that it becomes, or that it is dropped.
std::string states_text(const std::vector<std::optional<size_t>>& states) {
    std::string text;
    for (size_t state = 0; state < states.size(); state++) {
        text += decimal(state) + " " + (states[state] ? decimal(*states[state]) : "dropped") + "\n";
    }
    return text;
}

}  // namespace

static const Command here("minimise", [](Words& words) {
    const std::string name = words.file_name();
    bool tells_states = false;
    words.options({flag("--states", tells_states)});
    const Brain brain = fetch_brain(name);
    if (tells_states) {
        print(states_text(minimised_states(brain)));
        return;
    }
    const Brain kept = minimised(brain);
    print("; " + decimal(brain.size()) + " states, " + decimal(kept.size()) + " kept\n" + canonical_text(kept));
});
