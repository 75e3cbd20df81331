// Lines, separators, tokens, numbers and words: the section "Text files" of docs/RULES.md.
#pragma once
#include <cstdint>
#include <string>
#include <vector>

using Table = std::vector<std::string>;

constexpr uint64_t most_of_32_bits = 4294967295;

std::string decimal(uint64_t number);

// Whether the token is a number of 1 to 10 digits from `least` to `most`; if so, `number` is that.
bool read_number(const std::string& token, uint64_t least, uint64_t most, uint64_t& number);

bool is_separator(char byte);
std::vector<std::string> lines_of(const std::string& text);
std::vector<std::string> tokens_of(const std::string& line);
bool has_bad_byte(const std::string& token);

// Whether a token is a name of a program with blocks, and whether it is the word `next`, which is none.
bool is_name(const std::string& token);
bool is_next(const std::string& token);

// The place of a word in a table, in any ASCII case; -1 where it isn't there.
int place_in(const Table& table, const std::string& word);

// The places of one line of a brain, of a program with blocks or of a text of breaks, judged from the left. Refuses the
// first one at fault.
class Places {
  public:
    // `where` is what stands before the fault; bad bytes are a fault of their own only where they are judged. With
    // `is_whole` it is the whole of what is told, whatever the fault is.
    Places(std::string where, std::vector<std::string> tokens, bool judges_bytes, bool is_whole = false);
    int word(const Table& table);
    uint64_t number(uint64_t least, uint64_t most);
    std::string name();
    std::string label();
    bool is_end() const;
    void end();

  private:
    [[noreturn]] void fault(const std::string& what);
    const std::string& next();

    std::string where;
    std::vector<std::string> tokens;
    bool judges_bytes;
    bool is_whole;
    size_t read = 0;
};
