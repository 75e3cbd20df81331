/* ants_command(): a command of the program for a caller in C, over ants_call(). It turns words and files into the lines and lengths that ants_call() reads,
   and allocates the rooms that it writes to. This file is not proved. */
#include "ants.h"
#include <stdlib.h>
#include <string.h>

enum { MOST_OF_FILE = 4194304 + 1, REST_OF_LINE = 256 };

/* How many bytes a text may have if the caller passes 0. */
static const size_t USUAL_MOST = (size_t)1 << 28;

static const char OUT_OF_MEMORY[] = "ants: out of memory\n";

/* What ants_call() reads. All of it is in the block that `sizes` begins. */
struct given {
    uint32_t *sizes;
    uint8_t *words, *names, *bytes;
    size_t sizes_len, words_len, names_len, bytes_len;
};

/* The sum, or the largest number if the sum is larger: no allocation of so many bytes succeeds. */
static size_t sum(size_t one, size_t other) { return other > SIZE_MAX - one ? SIZE_MAX : one + other; }

/* How much of a file is passed on. A longer file is refused for its length, whatever follows. */
static size_t passed(const struct ants_file *file) { return file->len < MOST_OF_FILE ? file->len : MOST_OF_FILE; }

/* Writes a word as a line, and returns where the next one begins. A word with an LF becomes an empty line, since the program refuses an empty word
   wherever it is: so the program refuses this word, or one before it. */
static uint8_t *put_word(uint8_t *at, const char *word) {
    size_t length = strchr(word, '\n') ? 0 : strlen(word);
    memcpy(at, word, length);
    at[length] = '\n';
    return at + length + 1;
}

/* Lays words and files out in one block. The status is ANTS_DONE, ANTS_UNREADABLE if a name has an LF, or ANTS_MEMORY. */
static uint32_t lay_out(int word_count, const char *const *words, const struct ants_file *files, size_t file_count, struct given *given) {
    size_t size = 1;
    for (int i = 0; i < word_count; i++) size = sum(size, sum(strlen(words[i]), 1));
    for (size_t i = 0; i < file_count; i++) {
        if (strchr(files[i].name, '\n')) return ANTS_UNREADABLE;
        size = sum(size, sum(sizeof(uint32_t) + strlen(files[i].name) + 1, passed(&files[i])));
    }
    given->sizes = malloc(size);
    if (!given->sizes) return ANTS_MEMORY;
    given->sizes_len = file_count;
    given->words = (uint8_t *)(given->sizes + file_count);
    uint8_t *at = given->words;
    for (int i = 0; i < word_count; i++) at = put_word(at, words[i]);
    given->names = at;
    for (size_t i = 0; i < file_count; i++) at = put_word(at, files[i].name);
    given->bytes = at;
    for (size_t i = 0; i < file_count; i++) {
        given->sizes[i] = (uint32_t)passed(&files[i]);
        if (given->sizes[i]) memcpy(at, files[i].bytes, given->sizes[i]);
        at += given->sizes[i];
    }
    given->words_len = (size_t)(given->names - given->words);
    given->names_len = (size_t)(given->bytes - given->names);
    given->bytes_len = (size_t)(at - given->bytes);
    return ANTS_DONE;
}

/* Runs the program into one block: the line, a zero byte, the text, a zero byte. No line is longer than a name and the rest of a line. The block has its whole
   length from the beginning, since a program that ran out of room would have to run again. It comes from calloc(), so that only pages that are written take
   memory, and its end is given back afterwards. */
static void run(const struct given *given, size_t most, struct ants_answer *answer) {
    size_t line_room = sum(given->words_len, REST_OF_LINE), used = 0, told = 0;
    char *block = calloc(sum(line_room, sum(most, 2)), 1);
    answer->status = ANTS_MEMORY;
    if (!block) return;
    char *text = block + line_room + 1;
    answer->status = ants_call(given->words, given->words_len, given->names, given->names_len, given->sizes,
                               given->sizes_len, given->bytes, given->bytes_len, (uint8_t *)text, most, &used, (uint8_t *)block, line_room, &told,
                               &answer->fault);
    answer->len = used < most ? used : most;
    answer->line_len = told < line_room ? told : line_room;
    answer->whole_len = used;
    char *shorter = realloc(block, line_room + answer->len + 2);
    answer->memory = shorter ? shorter : block;
    answer->line = answer->memory;
    answer->text = answer->line + line_room + 1;
}

uint32_t ants_command(int word_count, const char *const *words, const struct ants_file *files, size_t file_count, size_t most,
                      struct ants_answer *answer) {
    struct given given = {0};
    *answer = (struct ants_answer){.text = "", .line = ""};
    answer->status = lay_out(word_count, words, files, file_count, &given);
    if (answer->status == ANTS_DONE) run(&given, most ? most : USUAL_MOST, answer);
    free(given.sizes);
    if (answer->status == ANTS_MEMORY && answer->line_len == 0) {
        answer->line = OUT_OF_MEMORY;
        answer->line_len = sizeof OUT_OF_MEMORY - 1;
    }
    return answer->status;
}

void ants_answer_free(struct ants_answer *answer) {
    free(answer->memory);
    answer->memory = NULL;
    answer->text = answer->line = "";
    answer->len = answer->line_len = 0;
}
