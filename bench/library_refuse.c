// Makes each call of the library with each of its allocations refused in turn, and says for each what came of it; see bench/library_refuse.
// It is linked with -Wl,--wrap=malloc,--wrap=calloc,--wrap=realloc,--wrap=free, so that it is between the library and the C library's heap.
#include "../library/ants.h"
#include <pthread.h>
#include <stdatomic.h>
#include <stdio.h>
#include <stdlib.h>
#include <string.h>

enum { ROOM = 1 << 17, ANTS = 1 << 10, LINE = 64, THREADS = 8, TRIALS = 400, BESIDE = 0xa5 };

void *__real_malloc(size_t size);
void *__real_calloc(size_t count, size_t size);
void *__real_realloc(void *old, size_t size);
void __real_free(void *block);

static _Thread_local long count;   // allocations of this thread's call
static _Thread_local long refused; // the one that is refused, from 1
static _Thread_local int for_good; // whether all behind it are refused, too
static _Thread_local long blocks;  // that this thread's call keeps
static atomic_int failures;

static int is_refused(void) {
    count++;
    return refused > 0 && (count == refused || (for_good && count > refused));
}

void *__wrap_malloc(size_t size) {
    void *block = is_refused() ? NULL : __real_malloc(size);
    blocks += block != NULL;
    return block;
}

void *__wrap_calloc(size_t number, size_t size) {
    void *block = is_refused() ? NULL : __real_calloc(number, size);
    blocks += block != NULL;
    return block;
}

void *__wrap_realloc(void *old, size_t size) {
    void *block = is_refused() ? NULL : __real_realloc(old, size);
    blocks += block != NULL && old == NULL;
    return block;
}

void __wrap_free(void *block) {
    blocks -= block != NULL;
    __real_free(block);
}

// The texts of the calls.
struct text {
    const uint8_t *bytes;
    size_t size;
};
static struct text world, red, black, program, save, wrong;

// The files of a call of the program, one behind the other.
static const char file_names[] = "world\nred\nblack\nprogram\nsave\nwrong\n";
static uint32_t sizes[6];
static struct text files;

// All that a call may write to, and a little more.
struct rooms {
    uint8_t out[ROOM], said[2 * LINE], words[LINE];
    size_t used, told, ids;
    struct ants_score_data scores[4];
    struct ants_ant_data ants[ANTS + 1];
    struct ants_fault_data fault;
};

// The calls: how many bytes each has room for, and of one of the program its words, and the room for its line. Without a room for its line it is a call
// of ants_command(), which has rooms of its own.
static const struct {
    const char *name;
    size_t room;
    const char *words;
    size_t line;
} calls[] = {
    {"call of save", ROOM, "save\nworld\nred\nblack\n--seed\n12345\n--rounds\n20\n", LINE},
    {.name = "score"}, {.name = "scores"}, {.name = "look"}, {.name = "score of a wrong brain"}, {.name = "look of a wrong brain"},
    {.name = "look with little room"},
    {"call of run", ROOM, "run\nworld\nred\nblack\n--seed\n12345\n--rounds\n20\n--dump\n0,7,20\n", LINE},
    {"call of run by workers", ROOM, "run\nworld\nred\nblack\n--seed\n12345\n--rounds\n9\n--dump\n0\n--workers\n2\n--stats\n--window\n3\n", LINE},
    {"call of run with little room", 100, "run\nworld\nred\nblack\n--seed\n12345\n--rounds\n20\n--dump\n0,7,20\n", 9},
    {"call of cup", ROOM, "cup\n--worlds\nworld\n--brains\nred\nblack\n--seed\n1\n--rounds\n9\n--games\n--workers\n2\n", LINE},
    {"call of brain with no room", 0, "brain\nred\n", LINE}, {"call of asm", ROOM, "asm\nprogram\n--labels\n", LINE},
    {"call of minimise", ROOM, "minimise\nblack\n--states\n", LINE}, {"call of same", ROOM, "same\nred\nblack\n--way\n", LINE},
    {"call of gen", ROOM, "gen\n12345\n--width\n60\n--height\n60\n--rocks\n3\n--blobs\n1\n", LINE},
    {"call of resume", ROOM, "resume\nsave\n--rounds\n40\n--dump\n30\n--stats\n", LINE}, {"call with a wrong brain", ROOM, "same\nred\nwrong\n", LINE},
    {"call with a wrong program", ROOM, "asm\nwrong\n", LINE}, {"call with a wrong save", ROOM, "resume\nwrong\n--rounds\n40\n", LINE},
    {"call with wrong breaks", ROOM, "view\nworld\nred\nblack\nwrong\n--seed\n1\n--rounds\n1\n", LINE},
    {"call without room for an element", ROOM, "gen\n1\n--width\n12\n--height\n12\n", LINE}, {"call with no such file", ROOM, "brain\nnone\n", LINE},
    {"call of no command", ROOM, "turn\nworld\n", LINE}, {"call of no words", ROOM, "brain\n\xff\n", LINE}, {"call of help", ROOM, "--help\n", LINE},
    {"command run", ROOM, "run\nworld\nred\nblack\n--seed\n12345\n--rounds\n20\n--dump\n0,7,20\n", 0},
    {"command with little room", 100, "run\nworld\nred\nblack\n--seed\n12345\n--rounds\n20\n--dump\n0,7,20\n", 0},
    {"command with a wrong brain", ROOM, "same\nred\nwrong\n", 0}, {"command that is none", ROOM, "turn\nworld\n", 0},
};
enum { SAVE = 0, CALLS = sizeof calls / sizeof *calls };

#define T(it) (it).bytes, (it).size
#define FAULT &rooms->fault, rooms->words, sizeof rooms->words
#define GAME T(world), T(red), T(black)

static const uint32_t seeds[3] = {12345, 7, 0}, rounds[3] = {0, 7, 20};

static uint32_t full[CALLS]; // the status of each call that gets all its memory

static int is_command(int which) { return calls[which].words && calls[which].line == 0; }

static uint32_t look(struct text black_brain, size_t ants, struct rooms *rooms) {
    return ants_look(T(world), T(red), T(black_brain), 12345, rounds, 3, rooms->scores, 3, rooms->ants, ants, &rooms->ids, FAULT);
}

static uint32_t call_of_program(int which, struct rooms *rooms) {
    const char *words = calls[which].words;
    return ants_call((const uint8_t *)words, strlen(words), (const uint8_t *)file_names, strlen(file_names), sizes, 6, T(files), rooms->out,
                     calls[which].room, &rooms->used, rooms->said, calls[which].line, &rooms->told, &rooms->fault);
}

// A command, whose answer is laid into the rooms, so that it is compared as any other.
static uint32_t command(int which, struct rooms *rooms) {
    const struct ants_file held[] = {{"world", T(world)}, {"red", T(red)}, {"black", T(black)}, {"wrong", T(wrong)}};
    char lines[200];
    const char *words[20];
    int word_count = 0;
    char *left = strcpy(lines, calls[which].words);
    for (char *end; (end = strchr(left, '\n')); left = end + 1) {
        *end = 0;
        words[word_count++] = left;
    }
    struct ants_answer answer;
    uint32_t status = ants_command(word_count, words, held, 4, calls[which].room, &answer);
    memcpy(rooms->out, answer.text, answer.len);
    memcpy(rooms->said, answer.line, answer.line_len);
    rooms->used = answer.whole_len, rooms->told = answer.line_len;
    if (status == ANTS_NUMBER || status == ANTS_NO_FILE || status == ANTS_REFUSED) rooms->fault = answer.fault;
    ants_answer_free(&answer);
    return status;
}

static uint32_t call(int which, struct rooms *rooms) {
    switch (which) {
    case 1: return ants_score(GAME, 12345, 20, rooms->scores, FAULT);
    case 2: return ants_scores(GAME, seeds, 3, 20, rooms->scores, 3, FAULT);
    case 3: return look(black, ANTS, rooms);
    case 4: return ants_score(T(world), T(red), T(wrong), 12345, 20, rooms->scores, FAULT);
    case 5: return look(wrong, ANTS, rooms);
    case 6: return look(black, 1, rooms);
    default: return is_command(which) ? command(which, rooms) : call_of_program(which, rooms);
    }
}

static uint32_t call_refused(int which, long number, int is_for_good, struct rooms *rooms) {
    memset(rooms, BESIDE, sizeof *rooms);
    count = blocks = 0;
    refused = number;
    for_good = is_for_good;
    return call(which, rooms);
}

static void say(int which, long number, const char *fault) {
    printf("%s, allocation %ld: %s\n", calls[which].name, number, fault);
    failures++;
}

static int stays(const void *place, size_t size) {
    for (const uint8_t *byte = place; size > 0; size--)
        if (*byte++ != BESIDE) return 0;
    return 1;
}

static size_t room_of_line(int which) { return is_command(which) ? LINE : calls[which].line; }

static size_t least(size_t one, size_t other) { return one < other ? one : other; }

// Whether a call has written nothing beside the rooms that it was given, nor behind its text and its line.
static int stays_within(int which, const struct rooms *rooms) {
    size_t used = least(rooms->used, calls[which].room), told = least(rooms->told, room_of_line(which)), ants = least(3 * rooms->ids, ANTS);
    if (!stays(&rooms->scores[3], sizeof *rooms->scores) || !stays(&rooms->ants[ants], (ANTS + 1 - ants) * sizeof *rooms->ants)) return 0;
    return stays(rooms->out + used, ROOM - used) && stays(rooms->said + told, sizeof rooms->said - told);
}

// Whether a call of the program that ran out of memory has written nothing, or a front of its text that isn't all of it, and the line that says so, and no
// fault. A command that can't give memory back does without.
static int is_cut_off(int which, const struct rooms *rooms, const struct rooms *before, const struct rooms *whole, uint32_t status) {
    static const char line[] = "ants: out of memory\n";
    if (memcmp(rooms, before, sizeof *rooms) == 0) return status == ANTS_MEMORY;
    if (is_command(which) && status != ANTS_MEMORY && status == full[which]) return memcmp(rooms, whole, sizeof *rooms) == 0;
    size_t used = least(rooms->used, calls[which].room), told = least(sizeof line - 1, room_of_line(which));
    if (!stays(&rooms->fault, sizeof rooms->fault)) return 0;
    if (rooms->used > whole->used || (rooms->used == whole->used && rooms->used > 0) || rooms->told != sizeof line - 1) return 0;
    if (memcmp(rooms->out, whole->out, used) != 0 || memcmp(rooms->said, line, told) != 0 || !stays_within(which, rooms)) return 0;
    return status == (used < rooms->used || told < rooms->told ? ANTS_NO_ROOM : ANTS_MEMORY);
}

// One call with one allocation refused, held against the whole call; how many allocations it made.
static long held(int which, long number, int is_for_good, struct rooms *rooms, const struct rooms *before, const struct rooms *whole) {
    uint32_t status = call_refused(which, number, is_for_good, rooms);
    if (blocks != 0) say(which, number, "memory is kept");
    if (number == 0 || count < number) { // none was refused
        if (status != full[which] || memcmp(rooms, whole, sizeof *rooms) != 0) say(which, number, "another answer without a refusal");
    } else if (calls[which].words) {
        if (!is_cut_off(which, rooms, before, whole, status)) say(which, number, "this is no game that ran out of memory");
    } else if (status != ANTS_MEMORY) {
        say(which, number, "the status is not 6");
    } else if (memcmp(rooms, before, sizeof *rooms) != 0) {
        say(which, number, "something is written");
    }
    return count;
}

static struct rooms *whole[CALLS], *before;
static long allocations[CALLS];

static void each_refused(int which, struct rooms *rooms) {
    for (int is_for_good = 0; is_for_good < 2; is_for_good++)
        for (long number = 1; number <= allocations[which] + 1; number++) held(which, number, is_for_good, rooms, before, whole[which]);
}

static void *thread(void *place) {
    struct rooms *rooms = __real_malloc(sizeof *rooms);
    unsigned state = 1 + *(int *)place;
    for (int trial = 0; trial < TRIALS; trial++) {
        int which = rand_r(&state) % CALLS;
        long number = rand_r(&state) % (allocations[which] + 2);
        held(which, number, trial % 2, rooms, before, whole[which]);
    }
    __real_free(rooms);
    return NULL;
}

// A text in a block of just its length, so that valgrind sees each byte that is read behind it.
static struct text copy_of(const uint8_t *bytes, size_t size) {
    return (struct text){memcpy(__real_malloc(size), bytes, size), size};
}

static struct text text_of(const char *name) {
    FILE *file = fopen(name, "rb");
    uint8_t *bytes = __real_malloc(ROOM);
    if (!file || !bytes) exit(2);
    struct text text = copy_of(bytes, fread(bytes, 1, ROOM, file));
    fclose(file);
    __real_free(bytes);
    return text;
}

// The save that a call has made.
static struct text save_of(const struct rooms *rooms, uint32_t status) {
    if (status == ANTS_DONE) return copy_of(rooms->out, rooms->used);
    fprintf(stderr, "library_refuse: no save of this game in %d bytes, status %u\n", ROOM, status);
    exit(2);
}

// Lays the files of a call of the program out; before there is a save, it is empty.
static void put_files(void) {
    const struct text all[6] = {world, red, black, program, save, wrong};
    uint8_t *end = __real_malloc(6 * ROOM), *begin = end;
    for (int place = 0; place < 6; place++) {
        if (all[place].size) memcpy(end, all[place].bytes, all[place].size);
        end += sizes[place] = all[place].size;
    }
    files = copy_of(begin, end - begin);
    __real_free(begin);
}

int main(int words, char **word) {
    if (words != 5) return 2;
    world = text_of(word[1]), red = text_of(word[2]), black = text_of(word[3]), program = text_of(word[4]);
    wrong = copy_of((const uint8_t *)"Drop 0\nMove 0 7\n", 16);
    put_files();
    struct rooms *rooms = __real_malloc(sizeof *rooms);
    before = memset(__real_malloc(sizeof *before), BESIDE, sizeof *before);
    for (int which = 0; which < CALLS; which++) {
        whole[which] = __real_malloc(sizeof *rooms);
        full[which] = call_refused(which, 0, 0, whole[which]);
        allocations[which] = count;
        if (blocks != 0) say(which, 0, "memory is kept");
        if (!stays_within(which, whole[which])) say(which, 0, "something is written outside");
        if (which == SAVE) {
            save = save_of(whole[which], full[which]);
            put_files();
        }
        each_refused(which, rooms);
        printf("%s: status %u, %ld allocations\n", calls[which].name, full[which], allocations[which]);
    }
    pthread_t threads[THREADS];
    int places[THREADS];
    for (int place = 0; place < THREADS; place++) {
        places[place] = place;
        if (pthread_create(&threads[place], NULL, thread, &places[place])) return 2;
    }
    for (int place = 0; place < THREADS; place++) pthread_join(threads[place], NULL);
    printf("%d threads at once, %d calls each; %d failures\n", THREADS, TRIALS, failures);
    for (int which = 0; which < CALLS; which++) __real_free(whole[which]);
    __real_free(rooms);
    return failures != 0;
}
