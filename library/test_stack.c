/* How much stack a call takes: each function over its largest and its most nested texts, also refused ones. Each call is made on a stack that is painted
   before, and says so if it takes more than half of ANTS_STACK; with any word test_stack says what each takes. Then a thread of ANTS_STACK makes all. */
#include "ants.h"
#include <pthread.h>
#include <stdio.h>
#include <stdlib.h>
#include <string.h>

enum { SIDE = 512, ANTS = 16384, STATES = 10000, BLOCKS = 256, ROUNDS = 2, ROOM = 1 << 26, LINE = 256, MOST_FILES = 16, PAINTED = 1 << 20, PAINT = 0xa5 };

/* The files of the calls, one behind the other, with a line for each name. */
static char names[LINE];
static uint32_t sizes[MOST_FILES];
static size_t files, length;
static uint8_t *bytes;

/* What a call may write to. */
static uint8_t *out, said[LINE];
static size_t used, told;
static struct ants_fault_data fault;
static struct ants_score_data scores[ROUNDS];
static struct ants_ant_data *ants;
static int failures;

/* The words of calls of the program; the first one makes the file of the name save. */
static const char *const commands[] = {
    "save\nworld\nbrain\nother\n--seed\n1\n--rounds\n2", "show\nworld\n1", "brain\nbrain",
    "minimise\nbrain\n--states", "same\nbrain\nother\n--way", "asm\nnested", "asm\nnested\n--labels",
    "asm\nnested\n--lines", "asm\nnested\n--labels\n--lines",
    "run\nworld\nbrain\nother\n--seed\n1\n--rounds\n2\n--dump\n0,2\n--stats",
    "trace\nworld\nbrain\nother\n7\n--seed\n1\n--rounds\n2", "events\nworld\nbrain\nother\n--seed\n1\n--rounds\n2",
    "profile\nworld\nbrain\nother\n--seed\n1\n--rounds\n2", "resume\nsave\n--rounds\n3\n--dump\n3\n--stats",
    "advance\nsave\n--rounds\n3", "view\nworld\nbrain\nother\nbreaks\n--seed\n1\n--rounds\n2",
    "cup\n--worlds\nworld\n--brains\nbrain\nother\n--seed\n1\n--rounds\n1\n--games",
    "gen\n7\n--width\n512\n--height\n512\n--rocks\n255\n--blobs\n255", "workload\n1\n1\n1", "help", "--help",
    "--version", "turn", "brain\nnone", "brain\nworld", "minimise\nlong", "asm\nworld", "show\nbrain\n1",
    "resume\nworld\n--rounds\n1", "view\nworld\nbrain\nother\nworld\n--seed\n1\n--rounds\n1",
    "gen\n1\n--width\n3\n--height\n3", "advance\nsave\n--rounds\n0",
};
enum { COMMANDS = sizeof commands / sizeof *commands, SCORE = COMMANDS, SCORES, LOOK, VERSION, COMMAND, CALLS };

static const char *name_of(int which) {
    static const char *const others[] = {"ants_score", "ants_scores", "ants_look", "ants_version", "ants_command"};
    return which < COMMANDS ? commands[which] : others[which - COMMANDS];
}

/* The bytes of a file by its place among the files, from 0. */
static const uint8_t *file(size_t place) {
    const uint8_t *begin = bytes;
    for (size_t before = 0; before < place; before++) begin += sizes[before];
    return begin;
}

/* The command of most files, with rooms of its own. */
static uint32_t command(void) {
    static const char *const words[] = {"view", "world", "brain", "other", "breaks", "--seed", "1", "--rounds", "2"};
    const struct ants_file held[] = {{"world", file(0), sizes[0]}, {"brain", file(1), sizes[1]}, {"other", file(2), sizes[2]}, {"breaks", file(4), sizes[4]}};
    struct ants_answer answer;
    uint32_t status = ants_command(9, words, held, 4, 0, &answer);
    ants_answer_free(&answer);
    return status;
}

static uint32_t call(int which) {
    static const uint32_t seeds[2] = {1, 2}, rounds[ROUNDS] = {1, 2};
    const uint8_t *world = file(0), *red = file(1), *black = file(2);
    switch (which) {
    case SCORE: return ants_score(world, sizes[0], red, sizes[1], black, sizes[2], 1, ROUNDS, scores, &fault, said, LINE);
    case SCORES: return ants_scores(world, sizes[0], red, sizes[1], black, sizes[2], seeds, 2, ROUNDS, scores, 2, &fault, said, LINE);
    case LOOK:
        return ants_look(world, sizes[0], red, sizes[1], black, sizes[2], 1, rounds, ROUNDS, scores, ROUNDS, ants, ROUNDS * ANTS, &used, &fault, said, LINE);
    case VERSION: return ants_version(out, ROOM, &used);
    case COMMAND: return command();
    default:
        return ants_call((const uint8_t *)commands[which], strlen(commands[which]), (const uint8_t *)names, strlen(names), sizes, files, bytes, length,
                         out, ROOM, &used, said, LINE, &told, &fault);
    }
}

/* Adds a file of this name, whose text lies behind those before it. */
static void add(const char *name, size_t size) {
    strcat(strcat(names, name), "\n");
    sizes[files++] = (uint32_t)size;
    length += size;
}

/* The largest world with the most ants, which have food all around them. */
static void add_world(void) {
    char *text = (char *)bytes + length;
    size_t size = (size_t)sprintf(text, "%d\n%d\n", SIDE, SIDE);
    for (int row = 0, left = ANTS; row < SIDE; row++) {
        for (int column = 0; column < SIDE; column++) {
            int is_rim = row % (SIDE - 1) == 0 || column % (SIDE - 1) == 0, is_hill = !is_rim && left > 0 && column % 4 < 2;
            left -= is_hill;
            text[size++] = is_rim ? '#' : is_hill ? (column % 2 ? '+' : '-') : '9';
        }
        text[size++] = '\n';
    }
    add("world", size);
}

/* A brain of the most states, no two of which are equivalent; the last one is this. */
static void add_brain(const char *name, const char *last) {
    char *text = (char *)bytes + length;
    size_t size = 0;
    for (int state = 0; state < STATES - 1; state++) size += (size_t)sprintf(text + size, "Sense LeftAhead %d 0 FoeWithFood\n", state + 1);
    add(name, size + (size_t)sprintf(text + size, "%s\n", last));
}

/* A program whose blocks are as deep as they may be, each with a label. */
static void add_nested(void) {
    char *text = (char *)bytes + length;
    size_t size = (size_t)sprintf(text, "block b0\nl:\nDrop next\nend\n");
    for (int block = 1; block < BLOCKS; block++) size += (size_t)sprintf(text + size, "block b%d\nl:\nuse b%d\nend\n", block, block - 1);
    add("nested", size + (size_t)sprintf(text + size, "use b%d\n", BLOCKS - 1));
}

static void add_breaks(void) {
    char *text = (char *)bytes + length;
    size_t size = 0;
    for (int number = 0; number < BLOCKS; number++) size += (size_t)sprintf(text + size, "Killed %d\n", number);
    add("breaks", size);
}

static void add_save(void) {
    if (call(0) != ANTS_DONE) puts("test_stack.c: no save"), failures++;
    memcpy(bytes + length, out, used);
    add("save", used);
}

static void add_long(void) {
    memset(bytes + length, '\n', 4194305);
    add("long", 4194305);
}

/* A thread that makes one call, or all of them, and where it stood at the first. */
struct made {
    int first, beyond;
    uintptr_t place;
};

static void *make(void *given) {
    struct made *made = given;
    volatile uint8_t here = 0;
    made->place = (uintptr_t)&here;
    for (int which = made->first; which < made->beyond; which++) call(which);
    return NULL;
}

static void run(struct made *made, void *stack, size_t size) {
    pthread_attr_t attributes;
    pthread_t thread;
    pthread_attr_init(&attributes);
    if (stack ? pthread_attr_setstack(&attributes, stack, size) : pthread_attr_setstacksize(&attributes, size)) exit(2);
    if (pthread_create(&thread, &attributes, make, made) || pthread_join(thread, NULL)) exit(2);
    pthread_attr_destroy(&attributes);
}

/* How many bytes of stack a call takes below its caller. */
static size_t taken(int which) {
    static uint8_t *stack;
    struct made made = {which, which + 1, 0};
    const uint8_t *deepest;
    if (!stack) stack = aligned_alloc(1 << 16, PAINTED);
    if (!stack) exit(2);
    memset(stack, PAINT, PAINTED);
    run(&made, stack, PAINTED);
    for (deepest = stack; *deepest == PAINT; deepest++) {}
    return made.place - (uintptr_t)deepest;
}

static void tell(int which, size_t size) {
    printf("test_stack.c: %zu bytes of stack for ", size);
    for (const char *at = name_of(which); *at; at++) putchar(*at == '\n' ? ' ' : *at);
    putchar('\n');
}

int main(int words, char **word) {
    struct made all = {0, CALLS, 0};
    (void)word;
    bytes = malloc(ROOM), out = malloc(ROOM), ants = calloc(ROUNDS * ANTS, sizeof *ants);
    if (!bytes || !out || !ants) return 2;
    memset(out, 0, ROOM);
    add_world();
    add_brain("brain", "Move 0 0");
    add_brain("other", "Drop 0");
    add_nested();
    add_breaks();
    add_save();
    add_long();
    for (int which = 0; which < CALLS; which++) {
        size_t size = taken(which);
        if (words > 1 || 2 * size > ANTS_STACK) tell(which, size);
        failures += 2 * size > ANTS_STACK;
    }
    run(&all, NULL, ANTS_STACK);
    return failures != 0;
}
