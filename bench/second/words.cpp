// The words of a command, and which of them is refused: the sections "All commands" and "When a command is refused" of
// docs/COMMANDS.md.
#include "words.hpp"

#include <algorithm>

#include "files.hpp"

namespace {

bool read_dumps(const std::string& word, Dumps& dumps) {
    if (word == "none") {
        return true;
    }
    if (word == "all") {
        dumps.is_all = true;
        return true;
    }
    size_t start = 0;
    while (start <= word.size()) {
        const size_t end = std::min(word.find(',', start), word.size());
        uint64_t round = 0;
        if (!read_number(word.substr(start, end - start), 0, most_rounds, round)) {
            return false;
        }
        dumps.rounds.insert(round);
        start = end + 1;
    }
    return true;
}

// How many bytes follow the first byte of a character, and between which bytes the second one is; the others are from
// 0x80 to 0xBF.
struct Character {
    size_t following;
    unsigned char least;
    unsigned char most;
};

bool read_first_byte(unsigned char byte, Character& character) {
    if (byte < 0x80) {
        character = {0, 0x80, 0xBF};
    } else if (byte >= 0xC2 && byte <= 0xDF) {
        character = {1, 0x80, 0xBF};
    } else if (byte >= 0xE0 && byte <= 0xEF) {
        character = {2, 0x80, 0xBF};
    } else if (byte >= 0xF0 && byte <= 0xF4) {
        character = {3, 0x80, 0xBF};
    } else {
        return false;
    }
    if (byte == 0xE0) {
        character.least = 0xA0;
    } else if (byte == 0xED) {
        character.most = 0x9F;
    } else if (byte == 0xF0) {
        character.least = 0x90;
    } else if (byte == 0xF4) {
        character.most = 0x8F;
    }
    return true;
}

}  // namespace

bool is_utf8(const std::string& text) {
    size_t start = 0;
    while (start < text.size()) {
        Character character;
        if (!read_first_byte(static_cast<unsigned char>(text[start]), character)) {
            return false;
        }
        if (start + character.following >= text.size()) {
            return false;
        }
        for (size_t i = 1; i <= character.following; i++) {
            const unsigned char byte = static_cast<unsigned char>(text[start + i]);
            const unsigned char least = i == 1 ? character.least : 0x80;
            const unsigned char most = i == 1 ? character.most : 0xBF;
            if (byte < least || byte > most) {
                return false;
            }
        }
        start += 1 + character.following;
    }
    return true;
}

bool is_file_name(const std::string& word) {
    return !word.empty() && word.compare(0, 2, "--") != 0;
}

Words::Words(std::vector<std::string> words) : words(std::move(words)) {
}

void Words::refuse_next() const {
    refuse(2, "word " + decimal(taken + 1) + " refused");
}

const std::string& Words::next() {
    if (is_end()) {
        refuse_next();
    }
    return words[taken];
}

void Words::skip() {
    taken++;
}

bool Words::is_end() const {
    return taken >= words.size();
}

void Words::keyword(const std::string& word) {
    if (next() != word) {
        refuse_next();
    }
    skip();
}

std::string Words::file_name() {
    const std::string name = next();
    if (!is_file_name(name)) {
        refuse_next();
    }
    skip();
    return name;
}

uint64_t Words::number(uint64_t least, uint64_t most) {
    uint64_t number = 0;
    if (!read_number(next(), least, most, number)) {
        refuse_next();
    }
    skip();
    return number;
}

void Words::options(const Options& options) {
    std::set<std::string> read;
    while (!is_end()) {
        const Option* found = nullptr;
        for (const Option& option : options) {
            if (option.word == next()) {
                found = &option;
            }
        }
        if (found == nullptr || !read.insert(found->word).second) {
            refuse_next();
        }
        skip();
        found->read(*this);
    }
    for (const Option& option : options) {
        if (option.is_needed && read.count(option.word) == 0) {
            refuse_next();
        }
    }
}

void Words::end() {
    if (!is_end()) {
        refuse_next();
    }
}

Option needed_number(const std::string& word, uint64_t least, uint64_t most, uint64_t& number) {
    Option option = free_number(word, least, most, number);
    option.is_needed = true;
    return option;
}

Option free_number(const std::string& word, uint64_t least, uint64_t most, uint64_t& number) {
    return {word, false, [least, most, &number](Words& words) {
                number = words.number(least, most);
            }};
}

Option dumps_option(Dumps& dumps) {
    return {"--dump", false, [&dumps](Words& words) {
                if (!read_dumps(words.next(), dumps)) {
                    words.refuse_next();
                }
                words.skip();
            }};
}

Option flag(const std::string& word, bool& is_there) {
    return {word, false, [&is_there](Words&) {
                is_there = true;
            }};
}

Options operator+(Options left, const Options& right) {
    left.insert(left.end(), right.begin(), right.end());
    return left;
}
