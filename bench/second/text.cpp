// Lines, separators, tokens, numbers and words: the section "Text files" of docs/RULES.md.
#include "text.hpp"

#include "files.hpp"

namespace {

constexpr size_t most_digits = 10;
constexpr size_t most_of_a_name = 32;

char lower(char byte) {
    return byte >= 'A' && byte <= 'Z' ? static_cast<char>(byte - 'A' + 'a') : byte;
}

bool is_letter(char byte) {
    return lower(byte) >= 'a' && lower(byte) <= 'z';
}

bool are_one_word(const std::string& left, const std::string& right) {
    if (left.size() != right.size()) {
        return false;
    }
    for (size_t i = 0; i < left.size(); i++) {
        if (lower(left[i]) != lower(right[i])) {
            return false;
        }
    }
    return true;
}

}  // namespace

std::string decimal(uint64_t number) {
    return std::to_string(number);
}

bool read_number(const std::string& token, uint64_t least, uint64_t most, uint64_t& number) {
    if (token.empty() || token.size() > most_digits) {
        return false;
    }
    number = 0;
    for (char byte : token) {
        if (byte < '0' || byte > '9') {
            return false;
        }
        number = number * 10 + static_cast<uint64_t>(byte - '0');
    }
    return number >= least && number <= most;
}

bool is_separator(char byte) {
    return byte == ' ' || byte == '\t' || byte == '\r';
}

std::vector<std::string> lines_of(const std::string& text) {
    std::vector<std::string> lines;
    size_t start = 0;
    while (start < text.size()) {
        size_t end = text.find('\n', start);
        if (end == std::string::npos) {
            end = text.size();
        }
        lines.push_back(text.substr(start, end - start));
        start = end + 1;
    }
    return lines;
}

std::vector<std::string> tokens_of(const std::string& line) {
    std::vector<std::string> tokens;
    std::string token;
    for (char byte : line.substr(0, line.find(';'))) {
        if (!is_separator(byte)) {
            token += byte;
        } else if (!token.empty()) {
            tokens.push_back(token);
            token.clear();
        }
    }
    if (!token.empty()) {
        tokens.push_back(token);
    }
    return tokens;
}

bool has_bad_byte(const std::string& token) {
    for (char byte : token) {
        const bool is_good = byte == '\t' || byte == '\n' || byte == '\r' || (byte >= 32 && byte <= 126);
        if (!is_good) {
            return true;
        }
    }
    return false;
}

bool is_name(const std::string& token) {
    if (token.empty() || token.size() > most_of_a_name || !is_letter(token[0])) {
        return false;
    }
    for (char byte : token) {
        if (!is_letter(byte) && !(byte >= '0' && byte <= '9') && byte != '_') {
            return false;
        }
    }
    return !is_next(token);
}

bool is_next(const std::string& token) {
    return are_one_word(token, "next");
}

int place_in(const Table& table, const std::string& word) {
    for (size_t place = 0; place < table.size(); place++) {
        if (are_one_word(table[place], word)) {
            return static_cast<int>(place);
        }
    }
    return -1;
}

Places::Places(std::string where, std::vector<std::string> tokens, bool judges_bytes, bool is_whole)
    : where(std::move(where)), tokens(std::move(tokens)), judges_bytes(judges_bytes), is_whole(is_whole) {
}

void Places::fault(const std::string& what) {
    refuse(5, is_whole ? where : where + what);
}

const std::string& Places::next() {
    if (read >= tokens.size()) {
        fault("missing token");
    }
    if (judges_bytes && has_bad_byte(tokens[read])) {
        fault("bad byte");
    }
    return tokens[read++];
}

int Places::word(const Table& table) {
    const int place = place_in(table, next());
    if (place < 0) {
        fault("unknown word");
    }
    return place;
}

uint64_t Places::number(uint64_t least, uint64_t most) {
    uint64_t number = 0;
    if (!read_number(next(), least, most, number)) {
        fault("bad number");
    }
    return number;
}

std::string Places::name() {
    const std::string& token = next();
    if (!is_name(token)) {
        fault("bad name");
    }
    return token;
}

std::string Places::label() {
    const std::string& token = next();
    if (!is_name(token) && !is_next(token)) {
        fault("bad name");
    }
    return token;
}

bool Places::is_end() const {
    return read >= tokens.size();
}

void Places::end() {
    if (read < tokens.size()) {
        fault(judges_bytes && has_bad_byte(tokens[read]) ? "bad byte" : "extra token");
    }
}
