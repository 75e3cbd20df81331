/* ants.h: the ant world of the ICFP Programming Contest 2004 as a library, for C and for every
   language that can call C. `make documents` makes this file from the source of the functions and
   from library/ants.h.in.

   A GAME is played by two brains on a world. You pass each of them as a text: its bytes and their
   number. No zero byte ends a text. A world is its width, its height and its rows of cells: # rock,
   . clear, 1 to 9 food, + red hill, - black hill. A brain has one instruction on each line.
   docs/RULES.md describes both; `make install` and the packages put it into share/doc/icfp-ants.
   You open, close and release nothing. This is a whole program:

       #include <ants.h>
       #include <stdio.h>
       #include <string.h>

       int main(void) {
           const char *world = "6\n4\n######\n#+.3-#\n #.5..#\n######\n";
           const char *red = "Move 1 0\nPickUp 0 0\n", *black = "Flip 2 0 0\n";
           struct ants_score_data score = {0};
           struct ants_fault_data fault = {0};
           uint8_t words[200] = {0};
           uint32_t status = ants_score((const uint8_t *)world, strlen(world), (const uint8_t *)red, strlen(red),
                                        (const uint8_t *)black, strlen(black), 12345, 1000, &score, &fault, words, sizeof words);
           if (status == ANTS_DONE)
               printf("red %u black %u\n", score.red, score.black);
           else if (status == ANTS_REFUSED)
               printf("text %u is refused: %.*s\n", fault.text, (int)sizeof words, (const char *)words);
           else
               printf("status %u\n", status);
           return (int)status;
       }

   TO LINK, you need one file of the library, and the C library. The header is for C from C99 on, and
   for C++ from C++11 on. The first line links the static library, in the folder of libants.a and
   ants.h. The second one links libants.so after `make install`, or from a package. The system finds
   it like any other library: by ldconfig, LD_LIBRARY_PATH or -Wl,-rpath.

       cc -O2 -I. game.c libants.a -o game
       cc -O2 game.c -o game $(pkg-config --cflags --libs icfp-ants)

   WHICH VERSION. ANTS_VERSION is the version of the header, and ants_version() writes the version of
   the library. With libants.so the two may differ, so compare them first:

       uint8_t version[32];
       size_t used = 0;
       if (ants_version(version, sizeof version, &used) != ANTS_DONE || used != strlen(ANTS_VERSION) || memcmp(version, ANTS_VERSION, used))
           return 1;

   A COMMAND of the program, any of them, is a call of ants_command(). You pass the words of its
   command line, without the program's name, and the files that they name. It allocates its answer,
   which you free. docs/COMMANDS.md has the commands. All examples here use these files and this
   answer:

       struct ants_file files[] = {{"w", world, world_len}, {"r", red, red_len}, {"b", black, black_len}};
       struct ants_answer answer;

   Check a brain: at ANTS_DONE, answer.text is its canonical text.

       const char *check[] = {"brain", "r"};
       uint32_t status = ants_command(2, check, files, 3, 0, &answer);
       ants_answer_free(&answer);

   Merge its equivalent states: a line says how many states there were and how many are left, and
   the brain follows.

       const char *minimise[] = {"minimise", "r"};
       status = ants_command(2, minimise, files, 3, 0, &answer);

   Play a game, with dumps of the world after rounds 0 and 1000:

       const char *run[] = {"run", "w", "r", "b", "--seed", "12345", "--rounds", "1000", "--dump", "0,1000"};
       status = ants_command(10, run, files, 3, 0, &answer);

   Save a game after 500 rounds, and go on until 1000 rounds are done. The save is a file like any
   other:

       const char *save[] = {"save", "w", "r", "b", "--seed", "12345", "--rounds", "500"};
       if (ants_command(8, save, files, 3, 0, &answer) == ANTS_DONE) {
           struct ants_file saved = {"s", (const uint8_t *)answer.text, answer.len};
           const char *resume[] = {"resume", "s", "--rounds", "1000"};
           struct ants_answer rest;
           status = ants_command(4, resume, &saved, 1, 0, &rest);
           ants_answer_free(&rest);
       }
       ants_answer_free(&answer);

   Play a cup, each brain against each other one in both colours:

       const char *cup[] = {"cup", "--worlds", "w", "--brains", "r", "b", "--seed", "12345", "--rounds", "100000"};
       status = ants_command(10, cup, files, 3, 0, &answer);

   Read an error in numbers, or print the line in which the program says it:

       const char *play[] = {"run", "w", "r", "b", "--seed", "12345", "--rounds", "1000"};
       switch (ants_command(8, play, files, 3, 0, &answer)) {
       case ANTS_NUMBER: printf("word %d is refused\n", (int)answer.fault.number); break;
       case ANTS_NO_FILE: printf("there is no file %s\n", play[answer.fault.number - 1]); break;
       case ANTS_REFUSED:
           if (answer.fault.kind == ANTS_KIND_BRAIN_NO_SUCH_STATE)
               printf("%s, line %u: no state %d\n", files[answer.fault.text - 1].name, answer.fault.line, (int)answer.fault.number);
           else
               fputs(answer.line, stderr);
       }
       ants_answer_free(&answer);

   ants_call() is the same without allocation, over words and names that are lines, and rooms that
   you lend.

   EACH CALL returns a status:

       ANTS_DONE        done, and the result is written
       ANTS_UNREADABLE  ants_command() and ants_call(): a word or a name isn't UTF-8; a name has an
                        LF; the sizes don't fit the names and bytes
       ANTS_NUMBER      a number is beyond its limits, such as more than 1,000,000 rounds. Of a
                        command: its words are not a command, and fault.number is the first
                        refused word, counted from 1, or one more than there are words if some are
                        missing
       ANTS_NO_FILE     the words name a file that isn't among those that you pass; fault.number is
                        the first word that names it. Nothing is read from the machine
       ANTS_NO_ROOM     the room is too small. A call that writes a text has written as much of it
                        as the room holds, and the length of the whole text to `used`, or of the
                        line to `told`. If you call again with more room, the game is played again
       ANTS_REFUSED     a text is refused, the first one that is: `fault` says which one and why, in
                        numbers. Of a command, the text is one of the files, counted in the order in
                        which you pass them; or an element of a world to be generated has no room
       ANTS_MEMORY      out of memory; nothing was kept

   A RESULT is written at ANTS_DONE only. `used`, `out` and `ids` are also written at ANTS_NO_ROOM.
   `fault` is written at ANTS_REFUSED, and by a command also at ANTS_NUMBER and ANTS_NO_FILE.
   `words` is written at ANTS_REFUSED. Everything else is unchanged. ants_call() writes `out`,
   `used`, `said` and `told` at each status except ANTS_UNREADABLE; at ANTS_MEMORY it may leave them
   unchanged. The numbers of a fault are explained at the struct, and its kinds above it. No zero
   byte ends `words`, `out` or `said`.

   If two files have the same name, the first one is used. `-` is a name like any other. Words may
   name a file more than once, and each time it is the same file, `-` too.

   HOW MUCH ROOM is enough, in bytes:

       run, resume           150 + dumps * (30 + 150 * width * height); most cells have 20 to 25
       save, advance         4,194,304; mostly some 4 for a cell, and the two brains
       brain, minimise, asm  420,000, which is 42 for each state; asm without --labels and --lines
       same                  200 without --way
       gen                   20 + height * (2 * width + 1)
       words of a fault      100; `said` needs 150 more than the longest name

   ants_look() needs a score for each round, and for each round as many ants as the hills have
   cells.

   The numbers are checked first, then the room of ants_scores(), then the texts in their order,
   then other room.

   WHAT YOU OWE as the caller. Nothing checks it, and the functions are proved for callers that keep
   to it:

    1. No pointer is NULL, and each is aligned for its type. If a length is 0, its pointer may be
       anything, even NULL, since it isn't used.
    2. Each pointer leads to as many elements as its length says, in one block of at most 2^63 - 1
       bytes. The block may be read and, if the parameter has no `const`, written.
    3. What a call may write to (score, scores, ants, ids, out, used, fault, words, said, told,
       answer) overlaps nothing else that you pass. It is initialised before the call (except
       answer), and nothing else reads or writes it during the call. Nothing writes to what the call
       only reads.
    4. This header and the library have the same version. The link doesn't check this, but you can
       call ants_version().
    5. malloc, calloc, realloc and free belong to one allocator. It aligns a block to each power of
       two up to 16 that divides the block's size. If you replace one of them, replace all four.
    6. No call is made in a signal handler, nor in the forked child of a process with threads.
    7. There are ANTS_STACK bytes of stack below the caller. No proof bounds what a call takes.
       library/test_stack.c measures it over the largest and the most nested texts, and none takes
       more than half of that.
    8. The system is Linux on x86-64 with glibc, and the processor has x86-64-v2 (SSE4.2 and POPCNT),
       as all have since 2013. On a processor without it, a call ends in an illegal instruction.
    9. In your program, the names ants_* mean the library's own functions. It shows no other names.
   10. No call is cut off halfway, as by longjmp or pthread_cancel, since its memory would be lost. A
       call can't be stopped. A game of 1,000,000 rounds with 16,384 ants takes minutes, and a cup
       may take days, so choose rounds and seeds with care.

   NOT OWED: initialisation, locks, release. Calls share nothing and keep nothing, so any threads may
   call at once. No call prints, exits, aborts, unwinds, reads a file or the clock, or starts a
   thread. */
#ifndef ANTS_H
#define ANTS_H

#include <stddef.h>
#include <stdint.h>

// How many bytes of stack you leave for a call: duty 7 above says why they are enough.
#define ANTS_STACK 262144

#ifdef __cplusplus
extern "C" {
#endif

// The version of this source and of the program: three numbers, followed by `-dev` between releases (this project's own).
#define ANTS_VERSION "1.2.0-dev"

// What a call answers.
enum ants_status {
    ANTS_DONE = 0, // Done.
    ANTS_UNREADABLE = 1, // The words of a command, or the names and sizes of its files, can't be read.
    ANTS_NUMBER = 2, // A number is outside its limits, or the words are not a command.
    ANTS_NO_FILE = 3, // The words of a command name a file that is missing.
    ANTS_NO_ROOM = 4, // The caller's room is too small.
    ANTS_REFUSED = 5, // A text was refused, or an element of a generated world has no room.
    ANTS_MEMORY = 6, // Out of memory.
};

// The kinds of faults.
enum ants_kind {
    ANTS_KIND_TOO_LONG = 1, // a text has more than 4,194,304 bytes
    ANTS_KIND_WORLD_BAD_WIDTH = 10, // bad width
    ANTS_KIND_WORLD_BAD_HEIGHT = 11, // bad height
    ANTS_KIND_WORLD_MISSING_ROW = 12, // a row is missing
    ANTS_KIND_WORLD_BAD_CELL = 13, // a bad cell
    ANTS_KIND_WORLD_SHORT_ROW = 14, // a row is short
    ANTS_KIND_WORLD_LONG_ROW = 15, // a row is long
    ANTS_KIND_WORLD_EXTRA_ROW = 16, // a row more
    ANTS_KIND_WORLD_OPEN_RIM = 17, // the rim is open
    ANTS_KIND_WORLD_TOO_MANY_ANTS = 18, // too many ants
    ANTS_KIND_BRAIN_BAD_BYTE = 20, // a bad byte
    ANTS_KIND_BRAIN_UNKNOWN_WORD = 21, // an unknown word
    ANTS_KIND_BRAIN_MISSING_TOKEN = 22, // a token is missing
    ANTS_KIND_BRAIN_BAD_NUMBER = 23, // a bad number
    ANTS_KIND_BRAIN_EXTRA_TOKEN = 24, // a token more
    ANTS_KIND_BRAIN_TOO_MANY = 25, // too many instructions
    ANTS_KIND_BRAIN_EMPTY = 26, // no instruction
    ANTS_KIND_BRAIN_NO_SUCH_STATE = 27, // no such state
    ANTS_KIND_PROGRAM_BAD_BYTE = 30, // a bad byte
    ANTS_KIND_PROGRAM_UNKNOWN_WORD = 31, // an unknown word
    ANTS_KIND_PROGRAM_MISSING_TOKEN = 32, // a token is missing
    ANTS_KIND_PROGRAM_BAD_NUMBER = 33, // a bad number
    ANTS_KIND_PROGRAM_EXTRA_TOKEN = 34, // a token more
    ANTS_KIND_PROGRAM_BAD_NAME = 35, // a bad name
    ANTS_KIND_PROGRAM_MISPLACED = 36, // misplaced
    ANTS_KIND_PROGRAM_TWICE = 37, // a name is taken
    ANTS_KIND_PROGRAM_NO_BLOCK = 38, // no such block
    ANTS_KIND_PROGRAM_WRONG_COUNT = 39, // a different number of labels
    ANTS_KIND_PROGRAM_TOO_MANY = 40, // too many
    ANTS_KIND_PROGRAM_EMPTY_BLOCK = 41, // an empty block
    ANTS_KIND_PROGRAM_EMPTY = 42, // no instruction
    ANTS_KIND_PROGRAM_NO_LABEL = 43, // no such label
    ANTS_KIND_SAVE_BAD_LINE = 50, // a line isn't in its form
    ANTS_KIND_SAVE_BAD_STATE = 51, // no state of a game
    ANTS_KIND_SAVE_ALREADY_AT = 52, // more rounds are done than were requested
    ANTS_KIND_NO_ROOM = 60, // an element of a world to be generated has no room
    ANTS_KIND_BREAKS_UNKNOWN_WORD = 70, // an unknown word
    ANTS_KIND_BREAKS_MISSING_TOKEN = 71, // a token is missing
    ANTS_KIND_BREAKS_BAD_NUMBER = 72, // a bad number
    ANTS_KIND_BREAKS_EXTRA_TOKEN = 73, // a token more
    ANTS_KIND_BREAKS_TOO_MANY = 74, // too many breaks
};

// An ant: 16 bytes. For a dead ant all numbers are 0.
struct ants_ant_data {
    // The state of its colour's brain that it executes next.
    uint32_t state;
    // How many turns it still rests.
    uint32_t resting;
    // Its column, from 0.
    uint16_t column;
    // Its row, from 0.
    uint16_t row;
    // 1 if it is alive, otherwise 0.
    uint8_t alive;
    // 0 for red, 1 for black.
    uint8_t colour;
    // Its direction: 0 is east, 1 southeast, and so on clockwise to 5.
    uint8_t direction;
    // 1 if it carries food, otherwise 0.
    uint8_t laden;
};

// Why a text, a word or a call was refused, in numbers (this project's own). The kinds are those of enum ants_kind.
struct ants_fault_data {
    // Which text, counted from 1 in the order in which the texts are passed; for `ants_call` which
    // file, in the order of the names. 0 if the fault is of no text.
    uint32_t text;
    // The kind. 0 if a word of `ants_call` is at fault.
    uint32_t kind;
    // The line, counted from 1, or the row of a world, counted from 0. 0 if the kind has neither.
    uint32_t line;
    // The column of a world, counted from 0. 0 if the kind has none.
    uint32_t column;
    // The number of ants (kind 18), the missing state (27), the round of the save (52), the element,
    // counted from 0 (60), or the word, counted from 1 (kind 0). Otherwise 0.
    uint64_t number;
    // The length of the fault's words, in bytes. 0 if a word of `ants_call` is at fault.
    uint64_t words;
};

// The food on the cells of each colour's hill.
struct ants_score_data {
    // The food on the red hill.
    uint32_t red;
    // The food on the black hill.
    uint32_t black;
};

// Writes the version of the library to `out`: what the program's `--version` prints between `ants
// ` and the LF (this project's own). The status is
// - 0: `out` begins with the version;
// - 4: the version is longer than `out`, which holds the front of it.
//
// `used` is the length of the version in both cases, and the bytes of `out` beyond it are
// unchanged. This function never changes, so a caller that was built for a different version can
// call it before any other function.
uint32_t ants_version(
    uint8_t *out, size_t out_len, size_t *used);

// Plays a game by the contest's rules, turn after turn, and returns its score (the task's game
// play). The status is
// - 0: done; the score is that of the game of this world and these brains, after this number of
//   rounds with this seed;
// - 2: there are more than 1,000,000 rounds;
// - 5: a text is refused; the fault says which one, the first that is refused, and why, and its
//   words are written to `words`, as many bytes as have room;
// - 6: out of memory.
//
// The score is written at 0 only, the fault and the words at 5 only.
uint32_t ants_score(
    const uint8_t *world, size_t world_len, const uint8_t *red, size_t red_len, const uint8_t *black, size_t black_len,
    uint32_t seed, uint32_t rounds, struct ants_score_data *score, struct ants_fault_data *fault, uint8_t *words,
    size_t words_len);

// Plays a game as `ants_score` does for each of the seeds, and reads the texts once (the task's
// game play). The status is that of `ants_score`, or
// - 4: there is room for fewer scores than there are seeds.
//
// The scores are written at 0 only, in the order of the seeds; elements of `scores` beyond them are
// unchanged. The fault and the words are written at 5 only. It takes memory for the scores and for
// a copy of the world.
uint32_t ants_scores(
    const uint8_t *world, size_t world_len, const uint8_t *red, size_t red_len, const uint8_t *black, size_t black_len,
    const uint32_t *seeds, size_t seeds_len, uint32_t rounds, struct ants_score_data *scores, size_t scores_len,
    struct ants_fault_data *fault, uint8_t *words, size_t words_len);

// Plays a game as `ants_score` does, and looks at it after each of the rounds (the task's game
// play and biology). A look is the score, and an ant for each id of the game, in order. The ants
// of a later round follow those of the round before it. The status is that of `ants_score`, or
// - 2: a round isn't above the one before it, or is above 1,000,000;
// - 4: there is room for fewer scores than there are rounds, or for fewer ants than all rounds have
//   together.
//
// `ids` is the number of ants of one round; it is written at 0 and at 4. The scores and the ants
// are written at 0 only; elements beyond them are unchanged. The fault and the words are written at
// 5 only.
uint32_t ants_look(
    const uint8_t *world, size_t world_len, const uint8_t *red, size_t red_len, const uint8_t *black, size_t black_len,
    uint32_t seed, const uint32_t *rounds, size_t rounds_len, struct ants_score_data *scores, size_t scores_len,
    struct ants_ant_data *ants, size_t ants_len, size_t *ids, struct ants_fault_data *fault, uint8_t *words,
    size_t words_len);

// Runs a command of the program over files that you pass (this project's own). `words` has a line
// for each word of the command line, without the program's name. `names` has a line for each file,
// and `-` is a name like any other. `sizes` has the length of each file, and `bytes` has the files
// one after another, in the order of the names. If two files have the same name, the first one is
// used. `--far` is not an option. The call writes the program's output to `out`, and the line that
// says what is wrong to `said`. The status is the program's own:
// - 0: done; nothing is wrong, so there is no line;
// - 2: the words are not a command; the fault's `number` is the first refused word, counted from
//   1, or one more than there are words if some are missing;
// - 3: the words name a file that is not among `names`; the fault's `number` is the first word
//   that names it, counted from 1;
// - 5: a file is refused, and the fault says which file and why; or an element of the world to be
//   generated has no room (kind 60);
// - 6: out of memory.
//
// Or the call itself fails:
// - 1: the words or the names aren't UTF-8, the number of sizes isn't the number of names, or the
//   sizes don't add up to the length of `bytes`;
// - 4: the output is longer than `out`, or the line is longer than `said`; both hold the part
//   that has room.
//
// `used` is the length of the output and `told` the length of the line, at 4 too. The rest of
// `out` and `said` is unchanged. The fault is written at 2, 3 and 5 only. At 5 its words are the
// end of the line: the last `fault.words` bytes before the LF. At 1 nothing is written, nor at 6
// if memory ran out before the command began. The call plays on the caller's thread, however many
// workers the words name. It takes memory for a copy of each file while it is read, and for what
// the command needs.
uint32_t ants_call(
    const uint8_t *words, size_t words_len, const uint8_t *names, size_t names_len, const uint32_t *sizes,
    size_t sizes_len, const uint8_t *bytes, size_t bytes_len, uint8_t *out, size_t out_len, size_t *used, uint8_t *said,
    size_t said_len, size_t *told, struct ants_fault_data *fault);

// A file that a command may read: its name, as the words of the command have it, and its bytes.
// `bytes` may be NULL if `len` is 0.
struct ants_file {
    const char *name;
    const uint8_t *bytes;
    size_t len;
};

// What ants_command() returns. You only read it, and ants_answer_free() frees its memory.
struct ants_answer {
    // The status, which ants_command() returns too.
    uint32_t status;
    // What the program prints: `len` bytes, and then a zero byte. It is never NULL.
    const char *text;
    size_t len;
    // The line in which the program says what is wrong, LF included: `line_len` bytes, and then a
    // zero byte. It is never NULL, and it is empty at ANTS_DONE and ANTS_UNREADABLE. At
    // ANTS_REFUSED the words of the fault are the last fault.words bytes before the LF.
    const char *line;
    size_t line_len;
    // How many bytes the whole text has: more than `len` at ANTS_NO_ROOM, and otherwise `len`.
    size_t whole_len;
    // The error in numbers, as ants_call() writes it. All numbers are 0 at each status except 2, 3
    // and 5.
    struct ants_fault_data fault;
    // The memory of all this.
    void *memory;
};

// Runs a command of the program over these files, and allocates what it returns: this is
// ants_call() for words and files as C has them. `words` are the words of the command line, without
// the program's name. The status is that of ants_call(). A word with an LF is refused like an empty
// word, with status 2. If the name of a file has an LF, the status is 1.
//
// The text may have `most` bytes, and 0 means 268,435,456. If it is longer, the status is 4, and
// `text` has its first `most` bytes. The room for `most` bytes is allocated before the program
// runs, so that no game is played twice. Only pages that are written take memory. Free each answer
// with ants_answer_free(), at every status.
uint32_t ants_command(
    int word_count, const char *const *words, const struct ants_file *files, size_t file_count, size_t most,
    struct ants_answer *answer);

// Frees the memory of an answer. Its texts are empty afterwards, and its status and its fault are
// unchanged. A second call does nothing.
void ants_answer_free(struct ants_answer *answer);

#ifdef __cplusplus
}
#endif

#endif
