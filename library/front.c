/* What stands between a caller in C and the proved functions; made of the same source as ants.h by `make documents`, and not proved. The place of no
   elements may be anything in C, as NULL, and may not in Rattle: another one is handed on for it. library/link gives the proved functions their names
   here, and shows none of them. */
#include "ants.h"

/* The place of no elements: it is aligned for each type, and nobody reads or writes there. */
static _Alignas(16) uint8_t none[16];
#define PLACE(elements) (elements##_len ? elements : (void *)none)

uint32_t proved_ants_version(
    uint8_t *out, size_t out_len, size_t *used);
uint32_t ants_version(
    uint8_t *out, size_t out_len, size_t *used) {
    return proved_ants_version(
        PLACE(out), out_len, used);
}

uint32_t proved_ants_score(
    const uint8_t *world, size_t world_len, const uint8_t *red, size_t red_len, const uint8_t *black, size_t black_len,
    uint32_t seed, uint32_t rounds, struct ants_score_data *score, struct ants_fault_data *fault, uint8_t *words,
    size_t words_len);
uint32_t ants_score(
    const uint8_t *world, size_t world_len, const uint8_t *red, size_t red_len, const uint8_t *black, size_t black_len,
    uint32_t seed, uint32_t rounds, struct ants_score_data *score, struct ants_fault_data *fault, uint8_t *words,
    size_t words_len) {
    return proved_ants_score(
        PLACE(world), world_len, PLACE(red), red_len, PLACE(black), black_len, seed, rounds, score, fault, PLACE(words),
        words_len);
}

uint32_t proved_ants_scores(
    const uint8_t *world, size_t world_len, const uint8_t *red, size_t red_len, const uint8_t *black, size_t black_len,
    const uint32_t *seeds, size_t seeds_len, uint32_t rounds, struct ants_score_data *scores, size_t scores_len,
    struct ants_fault_data *fault, uint8_t *words, size_t words_len);
uint32_t ants_scores(
    const uint8_t *world, size_t world_len, const uint8_t *red, size_t red_len, const uint8_t *black, size_t black_len,
    const uint32_t *seeds, size_t seeds_len, uint32_t rounds, struct ants_score_data *scores, size_t scores_len,
    struct ants_fault_data *fault, uint8_t *words, size_t words_len) {
    return proved_ants_scores(
        PLACE(world), world_len, PLACE(red), red_len, PLACE(black), black_len, PLACE(seeds), seeds_len, rounds,
        PLACE(scores), scores_len, fault, PLACE(words), words_len);
}

uint32_t proved_ants_look(
    const uint8_t *world, size_t world_len, const uint8_t *red, size_t red_len, const uint8_t *black, size_t black_len,
    uint32_t seed, const uint32_t *rounds, size_t rounds_len, struct ants_score_data *scores, size_t scores_len,
    struct ants_ant_data *ants, size_t ants_len, size_t *ids, struct ants_fault_data *fault, uint8_t *words,
    size_t words_len);
uint32_t ants_look(
    const uint8_t *world, size_t world_len, const uint8_t *red, size_t red_len, const uint8_t *black, size_t black_len,
    uint32_t seed, const uint32_t *rounds, size_t rounds_len, struct ants_score_data *scores, size_t scores_len,
    struct ants_ant_data *ants, size_t ants_len, size_t *ids, struct ants_fault_data *fault, uint8_t *words,
    size_t words_len) {
    return proved_ants_look(
        PLACE(world), world_len, PLACE(red), red_len, PLACE(black), black_len, seed, PLACE(rounds), rounds_len,
        PLACE(scores), scores_len, PLACE(ants), ants_len, ids, fault, PLACE(words), words_len);
}

uint32_t proved_ants_call(
    const uint8_t *words, size_t words_len, const uint8_t *names, size_t names_len, const uint32_t *sizes,
    size_t sizes_len, const uint8_t *bytes, size_t bytes_len, uint8_t *out, size_t out_len, size_t *used, uint8_t *said,
    size_t said_len, size_t *told, struct ants_fault_data *fault);
uint32_t ants_call(
    const uint8_t *words, size_t words_len, const uint8_t *names, size_t names_len, const uint32_t *sizes,
    size_t sizes_len, const uint8_t *bytes, size_t bytes_len, uint8_t *out, size_t out_len, size_t *used, uint8_t *said,
    size_t said_len, size_t *told, struct ants_fault_data *fault) {
    return proved_ants_call(
        PLACE(words), words_len, PLACE(names), names_len, PLACE(sizes), sizes_len, PLACE(bytes), bytes_len, PLACE(out),
        out_len, used, PLACE(said), said_len, told, fault);
}
