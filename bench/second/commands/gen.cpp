// `gen`: the section "Generated worlds" of docs/COMMANDS.md.
#include "command.hpp"
#include "generate.hpp"

static const Command here("gen", [](Words& words) {
    const uint64_t seed = words.number(0, most_of_32_bits);
    Shape shape;
    words.options({free_number("--width", 3, 512, shape.width), free_number("--height", 3, 512, shape.height),
                   free_number("--rocks", 0, 255, shape.rocks), free_number("--blobs", 0, 255, shape.blobs)});
    const std::string cells = generated_cells(seed, shape);
    print(canonical_text(static_cast<int>(shape.width), static_cast<int>(shape.height), cells));
});
