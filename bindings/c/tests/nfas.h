/* NFAs for the tests. Each function returns the first status that is not LAZYDFA_OK. */
#ifndef NFAS_H
#define NFAS_H

#include "lazydfa_automata.h"

#define TRY(call)                                            \
    do {                                                     \
        lazydfa_status status_ = (call);                     \
        if (status_.code != LAZYDFA_OK) return status_;      \
    } while (0)

typedef lazydfa_status make_nfa(lazydfa_builder *, lazydfa_starts *);

/* Adds `count` copies of [lo-hi] before the state at *at, which becomes the first of them. */
static inline lazydfa_status repeat(lazydfa_builder *b, uint8_t lo, uint8_t hi, int count,
                                    lazydfa_state_id *at) {
    lazydfa_status ok = { LAZYDFA_OK, 0, 0 };
    int i;
    for (i = 0; i < count; i++) TRY(lazydfa_add_range(b, lo, hi, *at, at));
    return ok;
}

/* [0-9]{4}-[0-9]{2}-[0-9]{2} */
static inline lazydfa_status date(lazydfa_builder *b, lazydfa_starts *starts) {
    lazydfa_state_id at;
    uint32_t pattern;
    TRY(lazydfa_start_pattern(b, &pattern));
    TRY(lazydfa_add_match(b, &at));
    TRY(repeat(b, '0', '9', 2, &at));
    TRY(repeat(b, '-', '-', 1, &at));
    TRY(repeat(b, '0', '9', 2, &at));
    TRY(repeat(b, '-', '-', 1, &at));
    TRY(repeat(b, '0', '9', 4, &at));
    starts->anchored = at;
    TRY(lazydfa_finish_pattern(b, at, &pattern));
    return lazydfa_add_unanchored_prefix(b, at, &starts->unanchored);
}

/* [a-z]+ */
static inline lazydfa_status word(lazydfa_builder *b, lazydfa_starts *starts) {
    lazydfa_state_id letter, found, more, alternates[2];
    uint32_t pattern;
    TRY(lazydfa_start_pattern(b, &pattern));
    TRY(lazydfa_add_range(b, 'a', 'z', lazydfa_state(0), &letter));
    TRY(lazydfa_add_match(b, &found));
    alternates[0] = letter;
    alternates[1] = found;
    TRY(lazydfa_add_union(b, alternates, 2, &more));
    TRY(lazydfa_patch(b, letter, more));
    starts->anchored = letter;
    TRY(lazydfa_finish_pattern(b, letter, &pattern));
    return lazydfa_add_unanchored_prefix(b, letter, &starts->unanchored);
}

/* [a-z]+ and [0-9a-z ] */
static inline lazydfa_status two(lazydfa_builder *b, lazydfa_starts *starts) {
    lazydfa_state_id letter, found, more, one, end, alternates[2];
    lazydfa_edge edges[3] = { { ' ', ' ', 0, { 0 } }, { '0', '9', 0, { 0 } }, { 'a', 'z', 0, { 0 } } };
    uint32_t pattern;
    TRY(lazydfa_start_pattern(b, &pattern));
    TRY(lazydfa_add_range(b, 'a', 'z', lazydfa_state(0), &letter));
    TRY(lazydfa_add_match(b, &found));
    alternates[0] = letter;
    alternates[1] = found;
    TRY(lazydfa_add_union(b, alternates, 2, &more));
    TRY(lazydfa_patch(b, letter, more));
    TRY(lazydfa_finish_pattern(b, letter, &pattern));
    TRY(lazydfa_start_pattern(b, &pattern));
    TRY(lazydfa_add_match(b, &end));
    edges[0].next = edges[1].next = edges[2].next = end;
    TRY(lazydfa_add_sparse(b, edges, 3, &one));
    TRY(lazydfa_finish_pattern(b, one, &pattern));
    alternates[0] = letter;
    alternates[1] = one;
    TRY(lazydfa_add_union(b, alternates, 2, &starts->anchored));
    return lazydfa_add_unanchored_prefix(b, starts->anchored, &starts->unanchored);
}

/* a[ab]{8}, whose DFA has 512 states */
static inline lazydfa_status many(lazydfa_builder *b, lazydfa_starts *starts) {
    lazydfa_state_id at;
    uint32_t pattern;
    TRY(lazydfa_start_pattern(b, &pattern));
    TRY(lazydfa_add_match(b, &at));
    TRY(repeat(b, 'a', 'b', 8, &at));
    TRY(repeat(b, 'a', 'a', 1, &at));
    starts->anchored = at;
    TRY(lazydfa_finish_pattern(b, at, &pattern));
    return lazydfa_add_unanchored_prefix(b, at, &starts->unanchored);
}

/* Opens a cache of an NFA, and closes the regex and the builder, which the cache does not need. */
static inline lazydfa_status open_cache(lazydfa_cache *cache, make_nfa *make, const lazydfa_options *options,
                                        const uint8_t *quits, size_t length) {
    lazydfa_builder builder = LAZYDFA_INIT;
    lazydfa_regex regex = LAZYDFA_INIT;
    lazydfa_starts starts = { { 0 }, { 0 } };
    lazydfa_options with_quits = LAZYDFA_OPTIONS_INIT;
    lazydfa_status status = lazydfa_builder_new(&builder);
    if (options) with_quits = *options;
    with_quits.quits = quits;
    with_quits.quit_count = length;
    if (status.code == LAZYDFA_OK) status = make(&builder, &starts);
    if (status.code == LAZYDFA_OK) status = lazydfa_regex_build(&regex, &builder, starts, &with_quits);
    if (status.code == LAZYDFA_OK) status = lazydfa_cache_new(cache, &regex);
    lazydfa_regex_close(&regex);
    lazydfa_builder_close(&builder);
    return status;
}

#endif
