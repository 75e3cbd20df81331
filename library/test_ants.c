/* Rows worked out by hand, of what a caller in C sees: statuses, rooms that are too small, numbers and words of faults. Says which row fails. */
#include "ants.h"
#include <stdio.h>
#include <string.h>
#include <time.h>

static const char *world = "3\n3\n# # #\n # + #\n# # #\n", *brain = "Flip 2 0 0\n", *drop = "Drop 0\n";
static struct ants_fault_data fault;
static struct ants_score_data scores[3];
static uint8_t words[64], out[128];
static size_t used;
static int failures;

#define TEXT(text) (const uint8_t *)(text), strlen(text)
#define ROW(holds) do { if (!(holds)) { printf("test_ants.c: line %d: %s\n", __LINE__, #holds); failures++; } } while (0)

/* All that a call may write to, as it is before the call. */
static void clear(void) {
    memset(&fault, 0x55, sizeof fault);
    memset(scores, 0x55, sizeof scores);
    memset(words, '.', sizeof words);
    memset(out, '.', sizeof out);
    used = 99;
}

static int is_fault(uint32_t text, uint32_t kind, uint32_t line, uint32_t column, uint64_t number, const char *expected) {
    size_t length = strlen(expected);
    return fault.text == text && fault.kind == kind && fault.line == line && fault.column == column && fault.number == number &&
           fault.words == length && memcmp(words, expected, length) == 0 && words[length] == '.';
}

static int stays(void) { return fault.text == 0x55555555 && fault.words == 0x5555555555555555 && words[0] == '.'; }

static void play_rows(void) {
    const uint32_t seeds[2] = {12345, 7};
    clear();
    ROW(ants_score(TEXT(world), TEXT(brain), TEXT(brain), 12345, 10, &scores[0], &fault, words, 64) == ANTS_DONE);
    ROW(scores[0].red == 0 && scores[0].black == 0 && scores[1].red == 0x55555555 && stays());
    clear();
    ROW(ants_scores(TEXT(world), TEXT(brain), TEXT(brain), seeds, 2, 10, scores, 3, &fault, words, 64) == ANTS_DONE);
    ROW(scores[1].red == 0 && scores[1].black == 0 && scores[2].red == 0x55555555 && stays());
    clear();
    ROW(ants_scores(TEXT(world), TEXT(brain), TEXT(brain), seeds, 2, 10, scores, 1, &fault, words, 64) == ANTS_NO_ROOM);
    ROW(scores[0].red == 0x55555555 && stays());
    ROW(ants_score(TEXT(world), TEXT(brain), TEXT(brain), 1, 1000001, scores, &fault, words, 64) == ANTS_NUMBER && stays());
    ROW(ants_score(TEXT(""), TEXT(brain), TEXT(brain), 1, 1, scores, &fault, words, 64) == ANTS_REFUSED && is_fault(1, 10, 0, 0, 0, "bad width"));
    clear();
    ROW(ants_score(TEXT(world), TEXT(brain), TEXT("Move 0 7\n"), 1, 1, scores, &fault, words, 64) == ANTS_REFUSED);
    ROW(is_fault(3, ANTS_KIND_BRAIN_NO_SUCH_STATE, 1, 0, 7, "line 1: no such state 7") && scores[0].red == 0x55555555);
}

/* A place of no elements may be anything, as NULL. */
static void null_rows(void) {
    uint8_t *off = (uint8_t *)1;
    clear();
    ROW(ants_scores(TEXT(world), TEXT(drop), TEXT(drop), NULL, 0, 1, NULL, 0, &fault, NULL, 0) == ANTS_DONE && stays());
    ROW(ants_scores(TEXT(world), TEXT(drop), TEXT(drop), (uint32_t *)off, 0, 1, NULL, 0, &fault, off, 0) == ANTS_DONE && stays());
    ROW(ants_score(NULL, 0, TEXT(drop), TEXT(drop), 1, 1, scores, &fault, NULL, 0) == ANTS_REFUSED && fault.text == 1 && fault.kind == 10 && words[0] == '.');
    clear();
    ROW(ants_score(TEXT(world), TEXT(drop), NULL, 0, 1, 1, scores, &fault, words, 4) == ANTS_REFUSED && fault.text == 3 && fault.kind == 26);
    ROW(fault.words == 14 && memcmp(words, "no i.", 5) == 0);
}

static void version_rows(void) {
    clear();
    ROW(ants_version(out, 64, &used) == ANTS_DONE && used == strlen(ANTS_VERSION) && memcmp(out, ANTS_VERSION, used) == 0 && out[used] == '.');
    clear();
    ROW(ants_version(out, 2, &used) == ANTS_NO_ROOM && used == strlen(ANTS_VERSION) && memcmp(out, ANTS_VERSION, 2) == 0 && out[2] == '.');
    ROW(ants_version(NULL, 0, &used) == ANTS_NO_ROOM && used == strlen(ANTS_VERSION));
}

static uint8_t line[64];
static size_t told;

/* A call of the program over the files w, b and d, into so much room. */
static uint32_t called(const char *spoken, size_t room, size_t line_room) {
    uint8_t bytes[64];
    const uint32_t sizes[3] = {(uint32_t)strlen(world), (uint32_t)strlen(brain), (uint32_t)strlen(drop)};
    clear();
    memset(line, '.', sizeof line);
    told = 99;
    memcpy(bytes, world, sizes[0]);
    memcpy(bytes + sizes[0], brain, sizes[1]);
    memcpy(bytes + sizes[0] + sizes[1], drop, sizes[2]);
    return ants_call(TEXT(spoken), TEXT("w\nb\nd\n"), sizes, 3, bytes, sizes[0] + sizes[1] + sizes[2], out, room, &used, line, line_room, &told, &fault);
}

static int wrote(const char *text) { return used == strlen(text) && memcmp(out, text, used) == 0 && out[used] == '.'; }

static int reported(const char *text) { return told == strlen(text) && memcmp(line, text, told) == 0 && line[told] == '.'; }

static int unwritten(void) { return used == 99 && told == 99 && out[0] == '.' && line[0] == '.' && stays(); }

/* Whether the fault has these numbers. */
static int told_in_numbers(uint32_t text, uint32_t kind, uint32_t at, uint64_t number, uint64_t length) {
    return fault.text == text && fault.kind == kind && fault.line == at && fault.column == 0 && fault.number == number && fault.words == length;
}

static void call_rows(void) {
    const char *text = "random seed: 7\n\nscore: red 0 black 0\n";
    const char *points = "2 points: b (0 won, 2 drawn, 0 lost)\n2 points: d (0 won, 2 drawn, 0 lost)\n";
    ROW(called("brain\nb", 127, 63) == ANTS_DONE && wrote("Flip 2 0 0\n") && reported("") && stays());
    ROW(called("run\nw\nb\nd\n--seed\n7\n--rounds\n0\n", 127, 63) == ANTS_DONE && wrote(text) && reported("") && stays());
    ROW(called("run\nw\nb\nd\n--seed\n7\n--rounds\n0\n", strlen(text), 0) == ANTS_DONE && wrote(text) && told == 0);
    ROW(called("run\nw\nb\nd\n--seed\n7\n--rounds\n0\n", strlen(text) - 1, 63) == ANTS_NO_ROOM && used == strlen(text) && stays());
    ROW(memcmp(out, text, used - 1) == 0 && out[used - 1] == '.' && reported(""));
    ROW(called("cup\n--worlds\nw\n--brains\nb\nd\n--seed\n7\n--rounds\n1\n--workers\n2", 127, 63) == ANTS_DONE && wrote(points) && reported(""));
    ROW(called("show\nw\n7", 20, 63) == ANTS_NO_ROOM && used > 20 && memcmp(out, "random seed: 7\n", 15) == 0 && out[20] == '.' && reported(""));
    ROW(called("run\nw\nb\nd\n--far", 127, 63) == ANTS_NUMBER && wrote("") && reported("ants: word 5 refused\n") && told_in_numbers(0, 0, 0, 5, 0));
    ROW(called("turn\nw", 127, 63) == ANTS_NUMBER && wrote("") && reported("ants: word 1 refused\n") && told_in_numbers(0, 0, 0, 1, 0));
    ROW(called("turn\nw", 127, 5) == ANTS_NO_ROOM && wrote("") && told == strlen("ants: word 1 refused\n") && memcmp(line, "ants:.", 6) == 0 && stays());
    ROW(called("same\nb\nc", 127, 63) == ANTS_NO_FILE && wrote("") && reported("ants: c: not read\n") && told_in_numbers(0, 0, 0, 3, 0));
    ROW(called("same\nb\nw", 127, 63) == ANTS_REFUSED && wrote("") && reported("ants: w: line 1: unknown word\n"));
    ROW(told_in_numbers(1, ANTS_KIND_BRAIN_UNKNOWN_WORD, 1, 0, strlen("line 1: unknown word")));
    ROW(called("gen\n1\n--width\n12\n--height\n12", 127, 63) == ANTS_REFUSED && reported("ants: no room for element 0\n"));
    ROW(told_in_numbers(0, ANTS_KIND_NO_ROOM, 0, 0, strlen("no room for element 0")));
    ROW(called("brain\n\xff", 127, 63) == ANTS_UNREADABLE && unwritten());
}

/* A call over these names, sizes and bytes, whose words name the file b. */
static uint32_t called_over(const char *names, const uint32_t *sizes, size_t sizes_len, const char *bytes) {
    clear();
    told = 99;
    memset(line, '.', sizeof line);
    return ants_call(TEXT("brain\nb"), TEXT(names), sizes, sizes_len, TEXT(bytes), out, 64, &used, line, 64, &told, &fault);
}

static void files_rows(void) {
    const uint32_t one[1] = {1}, long_one[1] = {4294967295u}, three[3] = {1, 7, 6};
    ROW(called_over("b\n", one, 1, "ab") == ANTS_UNREADABLE && unwritten());
    ROW(called_over("b\n", long_one, 1, "ab") == ANTS_UNREADABLE && unwritten());
    ROW(called_over("b\nc\n", one, 1, "a") == ANTS_UNREADABLE && unwritten());
    /* of two files of one name the first one counts */
    ROW(called_over("a\nb\nb\n", three, 3, "xDrop 0\nJump 0") == ANTS_DONE && wrote("Drop 0\n"));
    ROW(called_over("b\nb\nb\n", three, 3, "xDrop 0\nJump 0") == ANTS_REFUSED && told_in_numbers(1, 21, 1, 0, strlen("line 1: unknown word")));
    ROW(ants_call(NULL, 0, NULL, 0, NULL, 0, NULL, 0, NULL, 0, &used, NULL, 0, &told, &fault) == ANTS_NO_ROOM && used == 0 && told > 0);
}

/* What a command answers that allocates its texts. */
static void command_rows(void) {
    const struct ants_file files[2] = {{"w", (const uint8_t *)world, strlen(world)}, {"b", (const uint8_t *)brain, strlen(brain)}};
    const char *run[] = {"run", "w", "b", "b", "--seed", "7", "--rounds", "0"}, *odd[] = {"brain", "a\nb"}, *early[] = {"turn", "a\nb"};
    const char *text = "random seed: 7\n\nscore: red 0 black 0\n";
    struct ants_answer answer;
    ROW(ants_command(8, run, files, 2, 0, &answer) == ANTS_DONE && strcmp(answer.text, text) == 0 && answer.len == strlen(text));
    ROW(answer.status == ANTS_DONE && answer.line_len == 0 && *answer.line == 0 && answer.whole_len == answer.len && answer.fault.kind == 0);
    ants_answer_free(&answer);
    ROW(ants_command(8, run, files, 2, 10, &answer) == ANTS_NO_ROOM && strcmp(answer.text, "random see") == 0 && answer.whole_len == strlen(text));
    ants_answer_free(&answer);
    ROW(ants_command(2, odd, files, 2, 0, &answer) == ANTS_NUMBER && strcmp(answer.line, "ants: word 2 refused\n") == 0 && answer.fault.number == 2);
    ants_answer_free(&answer);
    ROW(ants_command(2, early, files, 2, 0, &answer) == ANTS_NUMBER && answer.fault.number == 1);
    ants_answer_free(&answer);
}

/* The ambush of the README: black ant 1 steps beside red ant 2, which dies; and the rooms that a look wants. */
static void look_rows(void) {
    const char *ambush = "7\n6\n#######\n#.....#\n#..-#.#\n#-.+-##\n#+.--##\n#######\n", *step = "Move 0 0\n";
    const uint32_t rounds[2] = {0, 1}, twice[2] = {1, 1};
    struct ants_ant_data ants[15];
    clear();
    memset(ants, 0x55, sizeof ants);
    ROW(sizeof ants[0] == 16);
    ROW(ants_look(TEXT(ambush), TEXT(brain), TEXT(step), 12345, rounds, 2, scores, 3, ants, 15, &used, &fault, words, 64) == ANTS_DONE);
    ROW(used == 7 && scores[0].red == 0 && scores[1].red == 3 && scores[1].black == 0 && scores[2].red == 0x55555555 && stays());
    ROW(ants[1].column == 1 && ants[1].row == 3 && ants[1].alive == 1 && ants[1].colour == 1 && ants[1].resting == 0 && ants[1].direction == 0);
    ROW(ants[2].column == 3 && ants[2].row == 3 && ants[2].alive == 1 && ants[2].colour == 0 && ants[2].state == 0 && ants[2].laden == 0);
    ROW(ants[8].column == 2 && ants[8].row == 3 && ants[8].resting == 14);
    ROW(ants[9].alive == 0 && ants[9].column == 0 && ants[9].row == 0 && ants[14].alive == 0x55);
    clear();
    ROW(ants_look(TEXT(ambush), TEXT(brain), TEXT(step), 12345, rounds, 2, scores, 1, ants, 15, &used, &fault, words, 64) == ANTS_NO_ROOM && used == 7);
    ROW(ants_look(TEXT(ambush), TEXT(brain), TEXT(step), 12345, rounds, 2, scores, 2, ants, 13, &used, &fault, words, 64) == ANTS_NO_ROOM && stays());
    ROW(ants_look(TEXT(ambush), TEXT(brain), TEXT(step), 12345, rounds, 2, scores, 2, ants, 14, &used, &fault, words, 64) == ANTS_DONE);
    clear();
    ROW(ants_look(TEXT(ambush), TEXT(brain), TEXT(step), 12345, twice, 2, scores, 3, ants, 15, &used, &fault, words, 64) == ANTS_NUMBER && used == 99 && stays());
    ROW(ants_look(TEXT(world), TEXT("Move 0 7\n"), TEXT(brain), 1, rounds, 2, scores, 3, ants, 15, &used, &fault, words, 64) == ANTS_REFUSED);
    ROW(is_fault(2, 27, 1, 0, 7, "line 1: no such state 7") && used == 99);
}

enum { SIDE = 512, INSIDE = SIDE - 2, MOST_ANTS = 16384, MANY = 1000, LONGEST = 4194304 };

/* The largest world with the most ants: its first cells inside the rim are hills, one half of them red and the other black. */
static size_t largest_world(char *text) {
    size_t length = (size_t)sprintf(text, "%d\n%d\n", SIDE, SIDE);
    for (int row = 0; row < SIDE; row++) {
        for (int column = 0; column < SIDE; column++) {
            int id = (row - 1) * INSIDE + column - 1, is_rim = row % (SIDE - 1) == 0 || column % (SIDE - 1) == 0;
            text[length++] = is_rim ? '#' : id < MOST_ANTS / 2 ? '+' : id < MOST_ANTS ? '-' : '.';
        }
        text[length++] = '\n';
    }
    return length;
}

/* Whether this ant stands in its opening cell as one of a brain that only flips. */
static int has_stayed(const struct ants_ant_data *ant, int id) {
    int is_there = ant->alive == 1 && ant->column == 1 + id % INSIDE && ant->row == 1 + id / INSIDE;
    return is_there && ant->colour == (id >= MOST_ANTS / 2) && ant->direction == 0 && ant->laden == 0 && ant->state == 0 && ant->resting == 0;
}

static void largest_look_rows(void) {
    static char text[SIDE * (SIDE + 1) + 16];
    static struct ants_ant_data ants[2 * MOST_ANTS + 1];
    const uint32_t rounds[2] = {0, 1};
    const uint8_t *ground = (const uint8_t *)text;
    size_t length = largest_world(text);
    int stayed = 0;
    clear();
    memset(ants, 0x55, sizeof ants);
    ROW(ants_look(ground, length, TEXT(brain), TEXT(brain), 1, rounds, 2, scores, 3, ants, 2 * MOST_ANTS - 1, &used, &fault, words, 64) == ANTS_NO_ROOM);
    ROW(used == MOST_ANTS && ants[0].alive == 0x55 && scores[0].red == 0x55555555 && stays());
    ROW(ants_look(ground, length, TEXT(brain), TEXT(brain), 1, rounds, 2, scores, 3, ants, 2 * MOST_ANTS + 1, &used, &fault, words, 64) == ANTS_DONE);
    for (int place = 0; place < 2 * MOST_ANTS; place++) stayed += has_stayed(&ants[place], place % MOST_ANTS);
    ROW(used == MOST_ANTS && stayed == 2 * MOST_ANTS && ants[2 * MOST_ANTS].alive == 0x55);
    ROW(scores[1].red == 0 && scores[1].black == 0 && scores[2].red == 0x55555555 && stays());
}

/* The processor's time of a look at the last rounds of the longest game, as many as are asked for. */
static clock_t spent_on_look(uint32_t count) {
    static struct ants_score_data seen[MANY];
    static struct ants_ant_data ant[MANY];
    uint32_t rounds[MANY];
    clock_t begun = clock();
    for (uint32_t place = 0; place < count; place++) rounds[place] = 1000000 - count + 1 + place;
    ROW(ants_look(TEXT(world), TEXT(brain), TEXT(brain), 1, rounds, count, seen, count, ant, count, &used, &fault, words, 64) == ANTS_DONE);
    return clock() - begun;
}

/* The processor's time of games without a round, as many as are asked for, of two of the longest brains. */
static clock_t spent_on_scores(size_t count) {
    static struct ants_score_data seen[MANY];
    static uint32_t seeds[MANY];
    static char longest[LONGEST];
    clock_t begun = clock();
    memcpy(memset(longest, ' ', LONGEST), "Drop 0", 6);
    const uint8_t *text = (const uint8_t *)longest;
    ROW(ants_scores(TEXT(world), text, LONGEST, text, LONGEST, seeds, count, 0, seen, count, &fault, words, 64) == ANTS_DONE);
    return clock() - begun;
}

/* A thousand rounds, or seeds, take no twenty times as long as one: the game is played once, and the texts are read once. */
static void once_rows(void) {
    ROW(spent_on_look(MANY) < 20 * spent_on_look(1) + CLOCKS_PER_SEC / 10);
    ROW(spent_on_scores(MANY) < 20 * spent_on_scores(1) + CLOCKS_PER_SEC / 10);
}

int main(void) {
    ROW(ANTS_UNREADABLE == 1 && ANTS_NO_FILE == 3);
    ROW(ANTS_DONE == 0 && ANTS_NUMBER == 2 && ANTS_NO_ROOM == 4 && ANTS_REFUSED == 5 && ANTS_MEMORY == 6);
    ROW(ANTS_KIND_TOO_LONG == 1 && ANTS_KIND_WORLD_BAD_WIDTH == 10 && ANTS_KIND_PROGRAM_NO_LABEL == 43 && ANTS_KIND_SAVE_ALREADY_AT == 52);
    ROW(ANTS_KIND_NO_ROOM == 60 && ANTS_KIND_BREAKS_UNKNOWN_WORD == 70 && ANTS_KIND_BREAKS_TOO_MANY == 74);
    play_rows();
    look_rows();
    largest_look_rows();
    once_rows();
    null_rows();
    version_rows();
    call_rows();
    files_rows();
    command_rows();
    return failures != 0;
}
