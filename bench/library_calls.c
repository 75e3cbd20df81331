// Makes one call of the library several times, so that bench/library can count its instructions:
//   library_calls TIMES scores WORLD RED BLACK GAMES ROUNDS
//   library_calls TIMES look WORLD RED BLACK ROUND..
//   library_calls TIMES call|command WORD..
// WORD.. are the words of a command. Each word that names a file is read before the first call. Prints the last status.
#include "../library/ants.h"
#include <stdio.h>
#include <stdlib.h>
#include <string.h>

enum { FILES = 8, ROOM = 1 << 23, LINE = 256 };

static struct ants_file files[FILES];
static size_t file_count;

// What a call reads, and what it may write to.
static uint8_t words[ROOM], names[ROOM], bytes[ROOM], out[ROOM], said[LINE];
static size_t words_len, names_len, bytes_len, used, told;
static uint32_t sizes[FILES], *numbers;
static struct ants_score_data *scores;
static struct ants_ant_data *ants;
static struct ants_fault_data fault;
static size_t count; // of games or of rounds

static void add_line(uint8_t *lines, size_t *length, const char *word) {
    *length += (size_t)sprintf((char *)lines + *length, "%s\n", word);
}

// Adds the file with this name after the others, if it can be opened.
static void add_file(const char *name) {
    FILE *file = file_count < FILES ? fopen(name, "rb") : NULL;
    if (!file) return;
    uint8_t *begin = bytes + bytes_len;
    sizes[file_count] = (uint32_t)fread(begin, 1, ROOM - bytes_len, file);
    fclose(file);
    bytes_len += sizes[file_count];
    add_line(names, &names_len, name);
    files[file_count] = (struct ants_file){name, begin, sizes[file_count]};
    file_count++;
}

#define TEXT(place) files[place].bytes, files[place].len
#define GAME TEXT(0), TEXT(1), TEXT(2)

static uint32_t command(int word_count, char **word) {
    struct ants_answer answer;
    uint32_t status = ants_command(word_count, (const char *const *)word, files, file_count, 0, &answer);
    ants_answer_free(&answer);
    return status;
}

// One call; `word` begins with the name of the call.
static uint32_t call(int word_count, char **word) {
    if (!strcmp(word[0], "scores"))
        return ants_scores(GAME, numbers, count, (uint32_t)atoi(word[5]), scores, count, &fault, said, LINE);
    if (!strcmp(word[0], "look"))
        return ants_look(GAME, 12345, numbers, count, scores, count, ants, count << 14, &used, &fault, said, LINE);
    if (!strcmp(word[0], "command")) return command(word_count - 1, word + 1);
    return ants_call(words, words_len, names, names_len, sizes, file_count, bytes, bytes_len, out, ROOM, &used, said,
                     LINE, &told, &fault);
}

int main(int word_count, char **word) {
    if (word_count < 5) return 2;
    for (int place = 3; place < word_count; place++) {
        add_line(words, &words_len, word[place]);
        add_file(word[place]);
    }
    int is_scores = !strcmp(word[2], "scores"), is_look = !strcmp(word[2], "look");
    if ((is_scores || is_look) && (file_count != 3 || word_count < 7 + is_scores)) return 2;
    count = is_scores ? (size_t)atol(word[6]) : (size_t)word_count;
    numbers = calloc(count, sizeof *numbers);
    scores = calloc(count, sizeof *scores);
    ants = calloc(is_look ? count << 14 : 1, sizeof *ants);
    if (!numbers || !scores || !ants) return 2;
    for (size_t place = 0; is_scores && place < count; place++) numbers[place] = (uint32_t)place;
    if (is_look) count = 0;
    for (int place = 6; is_look && place < word_count; place++) numbers[count++] = (uint32_t)atol(word[place]);
    uint32_t status = ANTS_DONE;
    for (long left = atol(word[1]); left > 0; left--) status = call(word_count - 2, word + 2);
    printf("%u\n", (unsigned)status);
    return 0;
}
