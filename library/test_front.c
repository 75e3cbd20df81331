/* What library/front.c hands on to the proved functions: for no elements a place that is there and aligned, whatever the caller gave; else the caller's. */
#include "front.c"
#include <stdio.h>

static const void *handed[8];

uint32_t proved_ants_scores(
    const uint8_t *world, size_t world_len, const uint8_t *red, size_t red_len, const uint8_t *black, size_t black_len,
    const uint32_t *seeds, size_t seeds_len, uint32_t rounds, struct ants_score_data *scores, size_t scores_len,
    struct ants_fault_data *fault, uint8_t *words, size_t words_len) {
    const void *places[] = {world, red, black, seeds, scores, fault, words};
    for (int i = 0; i < 7; i++) handed[i] = places[i];
    return (uint32_t)(world_len + red_len + black_len + seeds_len + scores_len + words_len + rounds);
}

int main(void) {
    uint8_t text[4] = {0};
    uint32_t seeds[1] = {0};
    struct ants_score_data scores[1] = {{0}};
    struct ants_fault_data fault = {0};
    const void *whole[] = {text, text + 1, text + 2, seeds, scores, &fault, text + 3};
    int failures = ants_scores(text, 1, text + 1, 1, text + 2, 1, seeds, 1, 7, scores, 1, &fault, text + 3, 1) != 13;
    for (int i = 0; i < 7; i++) failures += handed[i] != whole[i];
    failures += ants_scores(NULL, 0, text + 1, 0, NULL, 0, (uint32_t *)(text + 1), 0, 7, NULL, 0, &fault, NULL, 0) != 7;
    for (int i = 0; i < 7; i++) failures += handed[i] == NULL || (uintptr_t)handed[i] % 4 != 0;
    if (failures) printf("test_front.c: %d rows fail\n", failures);
    return failures != 0;
}
