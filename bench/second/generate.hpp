// Generated worlds: the section of this name of docs/COMMANDS.md.
#pragma once
#include <cstdint>
#include <string>

struct Shape {
    uint64_t width = 150;
    uint64_t height = 150;
    uint64_t rocks = 14;
    uint64_t blobs = 11;
};

// The bytes of the cells. Refuses where there is no room for an element.
std::string generated_cells(uint64_t seed, const Shape& shape);
