/* Plays 1,000 games of two brains on one world, with the seeds 0 to 999, and prints their scores: games WORLD RED BLACK ROUNDS */
#include "ants.h"
#include <stdio.h>
#include <stdlib.h>

enum { GAMES = 1000 };

/* The bytes of a file, and how many there are. */
static uint8_t *content(const char *name, size_t *length) {
    FILE *file = fopen(name, "rb");
    long size = file && fseek(file, 0, SEEK_END) == 0 ? ftell(file) : -1;
    uint8_t *bytes = size < 0 ? NULL : malloc((size_t)size + 1); /* one more, so that it isn't null */
    if (!bytes || fseek(file, 0, SEEK_SET) || fread(bytes, 1, (size_t)size, file) != (size_t)size) {
        fprintf(stderr, "games: %s: not read\n", name);
        exit(3);
    }
    fclose(file);
    *length = (size_t)size;
    return bytes;
}

int main(int count, char **given) {
    static uint32_t seeds[GAMES];
    static struct ants_score_data scores[GAMES];
    struct ants_fault_data fault = {0};
    uint8_t words[200] = {0};
    size_t lengths[3];
    uint8_t *texts[3];
    char *end = "";
    unsigned long rounds = count == 5 ? strtoul(given[4], &end, 10) : 0;
    if (count != 5 || given[4] == end || *end || rounds > 1000000) {
        fprintf(stderr, "usage: games WORLD RED BLACK ROUNDS\n");
        return 2;
    }
    for (int i = 0; i < 3; i++) texts[i] = content(given[1 + i], &lengths[i]);
    for (uint32_t i = 0; i < GAMES; i++) seeds[i] = i;
    uint32_t status = ants_scores(texts[0], lengths[0], texts[1], lengths[1], texts[2], lengths[2], seeds, GAMES,
                                  (uint32_t)rounds, scores, GAMES, &fault, words, sizeof words);
    if (status == ANTS_REFUSED)
        fprintf(stderr, "games: %s: %.*s\n", given[fault.text], (int)sizeof words, (const char *)words);
    else if (status != ANTS_DONE)
        fprintf(stderr, "games: status %u\n", (unsigned)status);
    for (int i = 0; status == ANTS_DONE && i < GAMES; i++) printf("%d %u %u\n", i, (unsigned)scores[i].red, (unsigned)scores[i].black);
    for (int i = 0; i < 3; i++) free(texts[i]);
    return (int)status;
}
