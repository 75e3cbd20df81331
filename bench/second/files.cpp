// How texts come in and go out, and how a command is refused: the section "When a command is refused" of docs/COMMANDS.md.
#include "files.hpp"

#include <errno.h>
#include <fcntl.h>
#include <unistd.h>

namespace {

constexpr size_t most_bytes = 4194304;
constexpr size_t most_text = 1 << 20;  // beyond which a text is printed before more of it is made
constexpr int standard_input = 0;
constexpr int standard_output = 1;
constexpr int standard_error = 2;

// Whether all of the text could be written.
bool write_whole(int file, const std::string& text) {
    size_t written = 0;
    while (written < text.size()) {
        ssize_t count = write(file, text.data() + written, text.size() - written);
        if (count < 0 && errno == EINTR) {
            continue;
        }
        if (count <= 0) {
            return false;
        }
        written += static_cast<size_t>(count);
    }
    return true;
}

}  // namespace

void refuse(int status, const std::string& line) {
    write_whole(standard_error, "ants: " + line + "\n");
    _exit(status);
}

void print(const std::string& text) {
    if (!write_whole(standard_output, text)) {
        refuse(4, "output failed");
    }
}

void print_if_long(std::string& text) {
    if (text.size() > most_text) {
        print(text);
        text.clear();
    }
}

std::string fetch(const std::string& name) {
    const bool is_input = name == "-";
    const int file = is_input ? standard_input : open(name.c_str(), O_RDONLY);
    if (file < 0) {
        refuse(3, name + ": not read");
    }
    std::string text;
    static char bytes[65536];
    for (;;) {
        ssize_t count = read(file, bytes, sizeof bytes);
        if (count < 0 && errno == EINTR) {
            continue;
        }
        if (count < 0) {
            refuse(3, name + ": not read");
        }
        if (count == 0) {
            break;
        }
        text.append(bytes, static_cast<size_t>(count));
        if (text.size() > most_bytes) {
            refuse(5, name + ": too long");
        }
    }
    if (!is_input) {
        close(file);
    }
    return text;
}
