// How texts come in and go out, and how a command is refused: the section "When a command is refused" of docs/COMMANDS.md.
#pragma once
#include <string>

// Ends the program with a status and one line on standard error.
[[noreturn]] void refuse(int status, const std::string& line);

// Writes a text to standard output.
void print(const std::string& text);

// Does so with a text that is too long to make more of it first, and leaves nothing of it.
void print_if_long(std::string& text);

// The bytes of a file; `-` is standard input.
std::string fetch(const std::string& name);
