/* Runs each row of faults.txt by ants_command(), and says which row differs: test_faults FAULTS.TXT */
#include "ants.h"
#include <stdio.h>
#include <stdlib.h>
#include <string.h>

enum { MOST_WORDS = 16, MOST_FILES = 4, ROOM = 1 << 23 };

/* A row: its words, its files, and what comes of it. The files' bytes are one behind the other in `bytes`. */
static char line[1 << 12], words_line[1 << 12], names[MOST_FILES][16];
static const char *words[MOST_WORDS];
static struct ants_file files[MOST_FILES];
static uint8_t bytes[ROOM];
static size_t file_count, used;
static int word_count, rows, failures;

/* Appends a text as it is written in a row, up to a closing brace or the end, and returns where that is. */
static const char *append(const char *at) {
    while (*at && *at != '}') {
        if (*at == '{') {
            char *part, *end = NULL;
            for (unsigned long left = strtoul(at + 1, &part, 10); left > 0; left--) end = (char *)append(part + 1);
            at = end + 1;
        } else if (*at == '\\' && at[1] == 'x') {
            char digits[3] = {at[2], at[3], 0};
            bytes[used++] = (uint8_t)strtoul(digits, NULL, 16);
            at += 4;
        } else if (*at == '\\') {
            bytes[used++] = '\n';
            at += 2;
        } else {
            bytes[used++] = (uint8_t)*at++;
        }
    }
    return at;
}

static void add_file(char *written) {
    char *text = strstr(written, ": ");
    struct ants_file *file = &files[file_count];
    *text = 0;
    strcpy(names[file_count], written);
    size_t begin = used;
    append(text + 2);
    *file = (struct ants_file){names[file_count], bytes + begin, used - begin};
    file_count++;
}

static void begin(void) {
    file_count = used = 0, word_count = 0;
    strcpy(words_line, line);
    strtok(words_line, " ");
    strtok(NULL, " ");
    for (char *word; (word = strtok(NULL, " "));) words[word_count++] = word;
}

/* How many bytes the words of a fault have: those of the line behind the name of its file. A fault without a kind has none. */
static size_t length_of_words(const char *said, uint32_t text, uint32_t kind) {
    size_t before = strlen("ants: ") + (text ? strlen(files[text - 1].name) + strlen(": ") : 0);
    return kind ? strlen(said) - before : 0;
}

/* Runs the row of these numbers, whose line is the next one. */
static void run(FILE *table) {
    unsigned status, text, kind, row, column;
    unsigned long long number;
    if (sscanf(line, "%u %u %u %u %u %llu", &status, &text, &kind, &row, &column, &number) != 6 || !fgets(line, sizeof line, table)) exit(2);
    struct ants_answer answer;
    uint32_t found = ants_command(word_count, words, files, file_count, 0, &answer);
    const struct ants_fault_data *fault = &answer.fault;
    size_t length = strcspn(line, "\n");
    int is_same = found == status && answer.status == status && answer.len == 0 && answer.whole_len == 0 && *answer.text == 0 &&
                  strcmp(answer.line, line) == 0 && answer.line_len == strlen(line) && fault->text == text && fault->kind == kind &&
                  fault->line == row && fault->column == column && fault->number == number;
    line[length] = 0;
    if (!is_same || fault->words != length_of_words(line, text, kind)) {
        printf("test_faults.c: row %d differs: %s\n  status %u, numbers %u %u %u %u %llu, words %llu, line %s", rows + 1, line, found, fault->text,
               fault->kind, fault->line, fault->column, (unsigned long long)fault->number, (unsigned long long)fault->words, answer.line);
        failures++;
    }
    ants_answer_free(&answer);
    rows++;
}

int main(int count, char **given) {
    FILE *table = count == 2 ? fopen(given[1], "r") : NULL;
    if (!table) return 2;
    while (fgets(line, sizeof line, table)) {
        if (*line == '#' || *line == '\n') continue;
        line[strcspn(line, "\n")] = 0;
        if (*line == '$')
            begin();
        else if (strchr("0123456789", *line))
            run(table);
        else
            add_file(line);
    }
    fclose(table);
    printf("test_faults.c: %d rows\n", rows);
    return failures != 0 || rows == 0;
}
