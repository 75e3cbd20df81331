/* Plays a game, minimises a brain, saves a game and resumes it, and reads an error in numbers:
   cc -I. example.c libants.a -o example */
#include <ants.h>
#include <stdio.h>
#include <string.h>

static struct ants_file file(const char *name, const char *text) {
    struct ants_file made = {name, (const uint8_t *)text, strlen(text)};
    return made;
}

/* Prints what the program says is wrong, and frees the answer. */
static int failed(const char *command, struct ants_answer *answer) {
    fprintf(stderr, "%s: status %u: %s", command, (unsigned)answer->status, answer->line);
    ants_answer_free(answer);
    return 1;
}

int main(void) {
    const char *red = "Move 1 0\nPickUp 2 0\nTurn Left 3\nTurn Left 4\nTurn Left 5\nMove 6 5\nDrop 7\nDrop 8\nDrop 7\n";
    const char *world = "6\n3\n######\n#+1.-#\n######\n", *black = "Flip 2 0 0\n", *wrong = "Move 0 0\nMove 7 0\n";
    struct ants_file files[] = {file("world", world), file("red", red), file("black", black), file("wrong", wrong)};
    struct ants_answer answer, rest;
    struct ants_score_data score = {0};
    struct ants_fault_data fault = {0};
    uint8_t why[100] = {0};
    uint32_t status = ants_score((const uint8_t *)world, strlen(world), (const uint8_t *)red, strlen(red),
                                 (const uint8_t *)black, strlen(black), 12345, 1000, &score, &fault, why, sizeof why);
    if (status != ANTS_DONE) return (int)status;
    printf("after 1000 rounds: red %u, black %u\n", (unsigned)score.red, (unsigned)score.black);

    const char *minimise[] = {"minimise", "red"};
    if (ants_command(2, minimise, files, 4, 0, &answer) != ANTS_DONE) return failed("minimise", &answer);
    printf("%s", answer.text);
    ants_answer_free(&answer);

    const char *save[] = {"save", "world", "red", "black", "--seed", "12345", "--rounds", "20"};
    if (ants_command(8, save, files, 4, 0, &answer) != ANTS_DONE) return failed("save", &answer);
    struct ants_file saved = {"half", (const uint8_t *)answer.text, answer.len};
    const char *resume[] = {"resume", "half", "--rounds", "40"};
    status = ants_command(4, resume, &saved, 1, 0, &rest);
    ants_answer_free(&answer);
    if (status != ANTS_DONE) return failed("resume", &rest);
    printf("resumed after round 20:%s", rest.text);
    ants_answer_free(&rest);

    const char *check[] = {"brain", "wrong"};
    status = ants_command(2, check, files, 4, 0, &answer);
    if (status != ANTS_REFUSED || answer.fault.kind != ANTS_KIND_BRAIN_NO_SUCH_STATE) return failed("brain", &answer);
    printf("%s, line %u: there is no state %u\n", files[answer.fault.text - 1].name, (unsigned)answer.fault.line,
           (unsigned)answer.fault.number);
    ants_answer_free(&answer);
    return 0;
}
