// The words of a command, and which of them is refused: the sections "All commands" and "When a command is refused" of
// docs/COMMANDS.md.
#pragma once
#include <cstdint>
#include <functional>
#include <set>
#include <string>
#include <vector>

#include "text.hpp"

constexpr uint64_t most_rounds = 1000000;
constexpr uint64_t most_workers = 16;

bool is_utf8(const std::string& text);
bool is_file_name(const std::string& word);

// After which rounds the world is dumped.
struct Dumps {
    bool is_all = false;
    std::set<uint64_t> rounds;
    bool has(uint64_t round) const {
        return is_all || rounds.count(round) > 0;
    }
};

struct Option;
using Options = std::vector<Option>;

// The words from left to right. Each call takes a word, and refuses it where it doesn't fit or isn't there.
class Words {
  public:
    explicit Words(std::vector<std::string> words);
    const std::string& next();
    void skip();
    bool is_end() const;
    [[noreturn]] void refuse_next() const;

    void keyword(const std::string& word);
    std::string file_name();
    uint64_t number(uint64_t least, uint64_t most);
    void options(const Options& options);
    void end();

  private:
    std::vector<std::string> words;
    size_t taken = 0;
};

struct Option {
    std::string word;
    bool is_needed;
    std::function<void(Words&)> read;
};

Option needed_number(const std::string& word, uint64_t least, uint64_t most, uint64_t& number);
Option free_number(const std::string& word, uint64_t least, uint64_t most, uint64_t& number);
Option dumps_option(Dumps& dumps);
Option flag(const std::string& word, bool& is_there);
Options operator+(Options left, const Options& right);
