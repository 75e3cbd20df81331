/* What library/command.c passes to ants_call() and what it makes of the answer, over a stand-in for ants_call() and a heap that refuses. */
#include "ants.h"
#include <stdio.h>
#include <stdlib.h>
#include <string.h>

static int refused, asked, kept; /* the allocation that is refused, from 1; how many were asked for; how many are kept */

static int is_refused(void) { return ++asked == refused; }

static void *heap_malloc(size_t size) {
    void *block = is_refused() ? NULL : malloc(size);
    kept += block != NULL;
    return block;
}

static void *heap_calloc(size_t count, size_t size) {
    void *block = is_refused() ? NULL : calloc(count, size);
    kept += block != NULL;
    return block;
}

static void *heap_realloc(void *block, size_t size) { return is_refused() ? NULL : realloc(block, size); }

static void heap_free(void *block) {
    kept -= block != NULL;
    free(block);
}

#define malloc heap_malloc
#define calloc heap_calloc
#define realloc heap_realloc
#define free heap_free
#include "command.c"
#undef malloc
#undef calloc
#undef realloc
#undef free

/* What the stand-in was given, and what it answers. */
static char given[256], bytes_given[64];
static uint32_t sizes_given[4], status_answered;
static size_t sizes_len_given, bytes_len_given, out_len_given, said_len_given, calls;
static const char *text, *line;

static size_t put(uint8_t *room, size_t length, const char *answered) {
    size_t size = strlen(answered);
    memcpy(room, answered, size < length ? size : length);
    return size;
}

uint32_t ants_call(
    const uint8_t *words, size_t words_len, const uint8_t *names, size_t names_len, const uint32_t *sizes,
    size_t sizes_len, const uint8_t *bytes, size_t bytes_len, uint8_t *out, size_t out_len, size_t *used, uint8_t *said,
    size_t said_len, size_t *told, struct ants_fault_data *fault) {
    calls++;
    snprintf(given, sizeof given, "%.*s|%.*s|", (int)words_len, (const char *)words, (int)names_len, (const char *)names);
    sizes_len_given = sizes_len, bytes_len_given = bytes_len, out_len_given = out_len, said_len_given = said_len;
    for (size_t i = 0; i < sizes_len; i++) sizes_given[i] = sizes[i];
    memcpy(bytes_given, bytes, bytes_len < sizeof bytes_given ? bytes_len : sizeof bytes_given);
    if (status_answered == ANTS_UNREADABLE) return ANTS_UNREADABLE;
    *used = put(out, out_len, text);
    *told = put(said, said_len, line);
    if (status_answered == ANTS_REFUSED) fault->kind = 21;
    return *used > out_len ? ANTS_NO_ROOM : status_answered;
}

static int failures;
#define ROW(holds) do { if (!(holds)) { printf("test_command.c: line %d: %s\n", __LINE__, #holds); failures++; } } while (0)

static struct ants_answer answer;

/* A command over two files, of which the stand-in answers this. */
static uint32_t command(const char *second_word, size_t most, uint32_t status, const char *text_answered, const char *line_answered) {
    static const struct ants_file files[2] = {{"b", (const uint8_t *)"Drop 0\n", 7}, {"empty", NULL, 0}};
    const char *words[2] = {"brain", second_word};
    memset(&answer, 0x55, sizeof answer);
    asked = 0, calls = 0, text = text_answered, line = line_answered, status_answered = status;
    return ants_command(2, words, files, 2, most, &answer);
}

static int has(uint32_t status, const char *expected, const char *expected_line) {
    return answer.status == status && strcmp(answer.text, expected) == 0 && answer.len == strlen(expected) && strcmp(answer.line, expected_line) == 0 &&
           answer.line_len == strlen(expected_line);
}

/* Whether an answer is freed, twice too, and nothing is kept. */
static int is_freed(void) {
    ants_answer_free(&answer);
    ants_answer_free(&answer);
    return kept == 0 && *answer.text == 0 && *answer.line == 0 && answer.len == 0 && answer.line_len == 0;
}

static void passed_rows(void) {
    ROW(command("b", 0, ANTS_DONE, "Drop 0\n", "") == ANTS_DONE && has(ANTS_DONE, "Drop 0\n", "") && answer.whole_len == 7 && answer.fault.kind == 0);
    ROW(strcmp(given, "brain\nb\n|b\nempty\n|") == 0 && sizes_len_given == 2 && sizes_given[0] == 7 && sizes_given[1] == 0);
    ROW(bytes_len_given == 7 && memcmp(bytes_given, "Drop 0\n", 7) == 0 && out_len_given == 268435456 && said_len_given >= 8 + 256 && is_freed());
    ROW(command("a\nb", 9, ANTS_NUMBER, "", "ants: word 2 refused\n") == ANTS_NUMBER && strcmp(given, "brain\n\n|b\nempty\n|") == 0);
    ROW(out_len_given == 9 && has(ANTS_NUMBER, "", "ants: word 2 refused\n") && is_freed());
    ROW(command("b", 0, ANTS_REFUSED, "", "ants: b: line 1: unknown word\n") == ANTS_REFUSED && answer.fault.kind == 21 && is_freed());
    ROW(answer.status == ANTS_REFUSED && answer.fault.kind == 21);
    ROW(ants_command(0, NULL, NULL, 0, 9, &answer) == ANTS_REFUSED && strcmp(given, "||") == 0 && sizes_len_given == 0 && is_freed());
    ROW(ants_command(-1, NULL, NULL, 0, 9, &answer) == ANTS_REFUSED && strcmp(given, "||") == 0 && is_freed());
}

static void long_rows(void) {
    const struct ants_file file = {"b", (uint8_t *)calloc(5000000, 1), 5000000}, odd = {"a\nb", NULL, 0};
    ROW(ants_command(0, NULL, &file, 1, 9, &answer) == ANTS_REFUSED && sizes_given[0] == 4194305 && bytes_len_given == 4194305 && is_freed());
    calls = 0;
    ROW(ants_command(0, NULL, &odd, 1, 9, &answer) == ANTS_UNREADABLE && has(ANTS_UNREADABLE, "", "") && calls == 0 && is_freed());
    ROW(command("b", 6, ANTS_DONE, "Drop 0\n", "") == ANTS_NO_ROOM && has(ANTS_NO_ROOM, "Drop 0", "") && answer.whole_len == 7 && calls == 1 && is_freed());
    ROW(command("b", 7, ANTS_DONE, "Drop 0\n", "") == ANTS_DONE && has(ANTS_DONE, "Drop 0\n", "") && is_freed());
    ROW(command("\xff", 0, ANTS_UNREADABLE, "", "") == ANTS_UNREADABLE && has(ANTS_UNREADABLE, "", "") && is_freed());
    ROW(command("b", SIZE_MAX, ANTS_DONE, "", "") == ANTS_MEMORY && has(ANTS_MEMORY, "", "ants: out of memory\n") && calls == 0 && is_freed());
    free((void *)file.bytes);
}

/* Of each allocation that is refused; the third one gives memory back, and is done without. */
static void memory_rows(void) {
    for (refused = 1; refused <= 2; refused++) {
        ROW(command("b", 0, ANTS_DONE, "Drop 0\n", "") == ANTS_MEMORY && has(ANTS_MEMORY, "", "ants: out of memory\n") && calls == 0);
        ROW(asked == refused && is_freed());
    }
    ROW(command("b", 99, ANTS_DONE, "Drop 0\n", "") == ANTS_DONE && has(ANTS_DONE, "Drop 0\n", "") && asked == 3 && is_freed());
    refused = 0;
    ROW(command("b", 0, ANTS_MEMORY, "", "") == ANTS_MEMORY && has(ANTS_MEMORY, "", "ants: out of memory\n") && is_freed());
    ROW(command("b", 0, ANTS_MEMORY, "Dro", "ants: out of memory\n") == ANTS_MEMORY && has(ANTS_MEMORY, "Dro", "ants: out of memory\n") && is_freed());
}

int main(void) {
    passed_rows();
    long_rows();
    memory_rows();
    return failures != 0;
}
