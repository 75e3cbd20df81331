// `asm`: the section "Programs with labels and blocks" of docs/COMMANDS.md.
#include <algorithm>
#include <map>
#include <optional>
#include <set>

#include "command.hpp"

namespace {

constexpr size_t most_names = 8;  // of parameters, and of labels that are handed to a block
constexpr size_t most_blocks = 256;

const Table keywords = {"block", "end", "use"};
enum Keyword { BLOCK, END, USE };

// An item of a body: an instruction, whose `next` are numbers of `labels`, or the use of a block.
struct Item {
    uint64_t line = 0;
    Instruction instruction;
    std::vector<std::string> labels;
    std::optional<size_t> block;
};

struct Body {
    std::string name;
    uint64_t line = 0;
    std::vector<std::string> parameters;
    std::map<std::string, size_t> labels;     // the item that follows, or the number of items
    std::vector<std::string> ordered_labels;  // in the order of their lines
    std::vector<Item> items;
    size_t size = 0;  // how many instructions it expands to

    bool has(const std::string& label) const {
        return labels.count(label) > 0 || std::find(parameters.begin(), parameters.end(), label) != parameters.end();
    }
};

// The first line of a body that names a label which the body doesn't have; none where there is no such line.
std::optional<uint64_t> line_without_label(const Body& body) {
    for (const Item& item : body.items) {
        for (const std::string& label : item.labels) {
            if (!is_next(label) && !body.has(label)) {
                return item.line;
            }
        }
    }
    return {};
}

class Program {
  public:
    explicit Program(std::string name) : name(std::move(name)) {
    }
    void add_line(uint64_t number, const std::vector<std::string>& tokens);
    void end();
    Body main;
    std::vector<Body> blocks;

  private:
    [[noreturn]] void fault(uint64_t line, const std::string& what) const {
        refuse(5, name + ": line " + decimal(line) + ": " + what);
    }
    Body& current() {
        return begun ? *begun : main;
    }
    void add_label(const std::string& label);
    void begin_block(Places& places);
    void end_block(Places& places);
    void add_use(Places& places);
    void add_instruction(Places& places);
    void add_item(const Item& item, size_t size);

    std::string name;
    uint64_t line = 0;
    std::optional<Body> begun;
    std::map<std::string, size_t> numbers;  // of the blocks that have ended
};

void Program::add_line(uint64_t number, const std::vector<std::string>& tokens) {
    line = number;
    Places places(name + ": line " + decimal(line) + ": ", tokens, true);
    const std::string& first = tokens[0];
    const std::string label = first.substr(0, first.size() - 1);
    if (tokens.size() == 1 && first.back() == ':' && is_name(label)) {
        add_label(label);
        return;
    }
    switch (place_in(keywords, first)) {
        case BLOCK:
            begin_block(places);
            break;
        case END:
            end_block(places);
            break;
        case USE:
            add_use(places);
            break;
        default:
            add_instruction(places);
    }
}

void Program::add_label(const std::string& label) {
    if (current().has(label)) {
        fault(line, "name taken");
    }
    current().labels[label] = current().items.size();
    current().ordered_labels.push_back(label);
}

void Program::begin_block(Places& places) {
    places.word(keywords);
    Body body;
    body.line = line;
    body.name = places.name();
    while (!places.is_end() && body.parameters.size() < most_names) {
        body.parameters.push_back(places.name());
    }
    places.end();
    if (begun) {
        fault(line, "misplaced");
    }
    const std::set<std::string> distinct(body.parameters.begin(), body.parameters.end());
    if (distinct.size() < body.parameters.size() || numbers.count(body.name) > 0) {
        fault(line, "name taken");
    }
    if (blocks.size() == most_blocks) {
        fault(line, "too many");
    }
    begun = body;
}

void Program::end_block(Places& places) {
    places.word(keywords);
    places.end();
    if (!begun) {
        fault(line, "misplaced");
    }
    if (begun->items.empty()) {
        fault(line, "empty block");
    }
    numbers[begun->name] = blocks.size();
    blocks.push_back(*begun);
    begun.reset();
}

void Program::add_use(Places& places) {
    places.word(keywords);
    Item item;
    const std::string block = places.name();
    while (!places.is_end() && item.labels.size() < most_names) {
        item.labels.push_back(places.label());
    }
    places.end();
    if (numbers.count(block) == 0) {
        fault(line, "no such block");
    }
    item.block = numbers[block];
    if (item.labels.size() != blocks[*item.block].parameters.size()) {
        fault(line, "wrong number of labels");
    }
    add_item(item, blocks[*item.block].size);
}

void Program::add_instruction(Places& places) {
    Item item;
    item.instruction = read_instruction(places, [&](Places& these) {
        item.labels.push_back(these.label());
        return item.labels.size() - 1;
    });
    add_item(item, 1);
}

void Program::add_item(const Item& item, size_t size) {
    current().size += size;
    if (current().size > most_instructions) {
        fault(line, "too many");
    }
    current().items.push_back(item);
    current().items.back().line = line;
}

void Program::end() {
    if (begun) {
        fault(begun->line, "misplaced");
    }
    if (main.items.empty()) {
        refuse(5, name + ": no instruction");
    }
    std::optional<uint64_t> least = line_without_label(main);
    for (const Body& block : blocks) {
        const std::optional<uint64_t> found = line_without_label(block);
        if (found && (!least || *found < *least)) {
            least = found;
        }
    }
    if (least) {
        fault(*least, "no such label");
    }
}

// A body put in place. All bodies are put in place one after another, so that what follows the last item of a block is
// the instruction that is emitted next. `first` has the number of the first instruction of each item, and then of what
// follows the last one.
struct Placed {
    const Body* body;
    size_t use;  // its place in the list of all; that of main is 0
    std::vector<size_t> first;
    size_t outer = 0;  // the body in which it is used, and the item there
    size_t item = 0;
};

// An instruction put in place: the item of a body.
struct Emitted {
    size_t use;
    size_t item;
};

class Expansion {
  public:
    explicit Expansion(const Program& program) : program(program) {
        place(program.main, 0, 0);
    }
    Brain brain() const;
    void print_labels() const;
    void print_lines() const;

  private:
    std::string way_to(size_t use) const;
    void place(const Body& body, size_t outer, size_t item);
    uint64_t target(size_t use, size_t item, const std::string& label) const;

    const Program& program;
    std::vector<Placed> placed;
    std::vector<Emitted> emitted;
};

void Expansion::place(const Body& body, size_t outer, size_t item) {
    const size_t use = placed.size();
    placed.push_back({&body, use, {}, outer, item});
    for (size_t k = 0; k < body.items.size(); k++) {
        placed[use].first.push_back(emitted.size());
        if (body.items[k].block) {
            place(program.blocks[*body.items[k].block], use, k);
        } else {
            emitted.push_back({use, k});
        }
    }
    placed[use].first.push_back(emitted.size());
}

// The number of the instruction to which a label leads that an item of a body names.
uint64_t Expansion::target(size_t use, size_t item, const std::string& label) const {
    const Placed& here = placed[use];
    const auto& parameters = here.body->parameters;
    const auto parameter = std::find(parameters.begin(), parameters.end(), label);
    if (parameter != parameters.end()) {
        const Item& used = placed[here.outer].body->items[here.item];
        return target(here.outer, here.item, used.labels[static_cast<size_t>(parameter - parameters.begin())]);
    }
    const size_t place = is_next(label) ? item + 1 : here.body->labels.at(label);
    return here.first[place] % emitted.size();
}

// Each use that leads to a body from main, with its line; nothing for main.
std::string Expansion::way_to(size_t use) const {
    if (use == 0) {
        return "";
    }
    const Placed& here = placed[use];
    const Item& used = placed[here.outer].body->items[here.item];
    return way_to(here.outer) + (here.outer == 0 ? "" : "/") + here.body->name + "@" + decimal(used.line);
}

// A body stands in `placed` before those that it uses, and these stand in the order of their uses: so do the lines.
void Expansion::print_labels() const {
    std::string text;
    for (const Placed& it : placed) {
        if (it.body->ordered_labels.empty()) {
            continue;
        }
        const std::string before = way_to(it.use) + (it.use == 0 ? "" : "/");
        for (const std::string& label : it.body->ordered_labels) {
            text += decimal(it.first[it.body->labels.at(label)] % emitted.size()) + " " + before + label + "\n";
            print_if_long(text);
        }
    }
    print(text);
}

// A line for each state: that of its instruction, and the way to its body.
void Expansion::print_lines() const {
    std::string text;
    for (size_t state = 0; state < emitted.size(); state++) {
        const Emitted& it = emitted[state];
        const std::string way = way_to(it.use);
        text += decimal(state) + " " + decimal(placed[it.use].body->items[it.item].line) + (way.empty() ? "" : " ") +
                way + "\n";
        print_if_long(text);
    }
    print(text);
}

Brain Expansion::brain() const {
    Brain brain;
    for (const Emitted& it : emitted) {
        const Item& item = placed[it.use].body->items[it.item];
        Instruction instruction = item.instruction;
        for (uint64_t& state : instruction.next) {
            state = target(it.use, it.item, item.labels[state]);
        }
        brain.push_back(instruction);
    }
    return brain;
}

Program read_program(const std::string& name, const std::string& text) {
    Program program(name);
    uint64_t number = 0;
    for (const std::string& line : lines_of(text)) {
        number++;
        const std::vector<std::string> tokens = tokens_of(line);
        if (!tokens.empty()) {
            program.add_line(number, tokens);
        }
    }
    program.end();
    return program;
}

}  // namespace

static const Command here("asm", [](Words& words) {
    const std::string name = words.file_name();
    bool tells_labels = false;
    bool tells_lines = false;
    words.options({flag("--labels", tells_labels), flag("--lines", tells_lines)});
    const Program program = read_program(name, fetch(name));
    const Expansion expansion(program);
    if (tells_labels) {
        expansion.print_labels();
    }
    if (tells_lines) {
        expansion.print_lines();
    }
    if (!tells_labels && !tells_lines) {
        print(canonical_text(expansion.brain()));
    }
});
