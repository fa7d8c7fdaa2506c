/* Makes each allocation of a program fail in turn, and then all allocations from each one on. A call whose allocation
   fails returns LAZYDFA_MEMORY, unless it does without what it was for, as for needles and first bytes; repeated, it
   does what it would have done; and no block is left at the end. The linker gives this file the library's calls of
   malloc, realloc and free (--wrap). */
#include <stdio.h>
#include <stdlib.h>
#include <string.h>
#include "lazydfa_automata.h"

void *__real_malloc(size_t size);
void *__real_realloc(void *at, size_t size);
void __real_free(void *at);
void *__wrap_malloc(size_t size);
void *__wrap_realloc(void *at, size_t size);
void __wrap_free(void *at);

static long calls, blocks;          /* of this cycle: allocations requested, and blocks not freed yet */
static long only, from;             /* the one allocation that fails; the first of all that fail; 0: none */
static long refused, reported, wrong;
static long usual;                  /* how many allocations there are if none fails */

static int refuses(void) {
    int yes;
    calls++;
    yes = (only && calls == only) || (from && calls >= from);
    refused += yes;
    return yes;
}

void *__wrap_malloc(size_t size) {
    void *at = refuses() ? NULL : __real_malloc(size);
    blocks += at != NULL;
    return at;
}

void *__wrap_realloc(void *at, size_t size) {
    void *next = refuses() ? NULL : __real_realloc(at, size);
    blocks += next != NULL && at == NULL;
    return next;
}

void __wrap_free(void *at) {
    blocks -= at != NULL;
    __real_free(at);
}

/* After a call has reported the first failure, no allocation fails: the repeated call must succeed. */
static int is_refused(lazydfa_status status) {
    if (status.code != LAZYDFA_MEMORY || !(only || from)) return 0;
    reported++;
    only = from = 0;
    return 1;
}

static void complain(const char *what, int line) {
    wrong++;
    printf("%s:%d: %s\n", __FILE__, line, what);
}

/* Makes a call, and repeats it if an allocation failed. */
#define WANT(call, wanted)                                                                       \
    do {                                                                                         \
        lazydfa_status status_ = (call);                                                         \
        if (is_refused(status_)) status_ = (call);                                               \
        if (status_.code != (wanted)) {                                                          \
            complain(#call, __LINE__);                                                           \
            return;                                                                              \
        }                                                                                        \
    } while (0)

#define IS(fact)                               \
    do {                                       \
        if (!(fact)) {                         \
            complain(#fact, __LINE__);         \
            return;                            \
        }                                      \
    } while (0)

/* [a-z]+ and (?m:^)[0-9a-z ] */
static void build(lazydfa_builder *b, lazydfa_starts *starts) {
    lazydfa_state_id letter, found, more, one, end, look, alternates[2];
    lazydfa_edge edges[3] = { { ' ', ' ', 0, { 0 } }, { '0', '9', 0, { 0 } }, { 'a', 'z', 0, { 0 } } };
    uint32_t pattern;
    WANT(lazydfa_start_pattern(b, &pattern), LAZYDFA_OK);
    WANT(lazydfa_add_range(b, 'a', 'z', lazydfa_state(0), &letter), LAZYDFA_OK);
    WANT(lazydfa_add_match(b, &found), LAZYDFA_OK);
    WANT(lazydfa_add_union(b, &letter, 1, &more), LAZYDFA_OK);
    WANT(lazydfa_patch(b, more, found), LAZYDFA_OK);
    WANT(lazydfa_patch(b, letter, more), LAZYDFA_OK);
    WANT(lazydfa_finish_pattern(b, letter, &pattern), LAZYDFA_OK);
    WANT(lazydfa_start_pattern(b, &pattern), LAZYDFA_OK);
    WANT(lazydfa_add_match(b, &end), LAZYDFA_OK);
    edges[0].next = edges[1].next = edges[2].next = end;
    WANT(lazydfa_add_sparse(b, edges, 3, &one), LAZYDFA_OK);
    WANT(lazydfa_add_look(b, LAZYDFA_LOOK_START_LF, one, &look), LAZYDFA_OK);
    WANT(lazydfa_add_capture_start(b, 0, look, &look), LAZYDFA_OK);
    WANT(lazydfa_finish_pattern(b, look, &pattern), LAZYDFA_OK);
    alternates[0] = letter;
    alternates[1] = look;
    WANT(lazydfa_add_union_reverse(b, alternates, 2, &starts->anchored), LAZYDFA_OK);
    WANT(lazydfa_add_unanchored_prefix(b, starts->anchored, &starts->unanchored), LAZYDFA_OK);
    IS(starts->anchored.number == 7 && starts->unanchored.number == 8 && pattern == 1);
}

static void iterate(lazydfa_cache *c, const uint8_t *hay, size_t length) {
    lazydfa_iteration at = lazydfa_iterate(lazydfa_whole(length));
    lazydfa_match all[3];
    lazydfa_status status;
    size_t i, count, sum = 0;
    do {
        status = lazydfa_next_all(c, hay, length, &at, all, 3, &count);
        for (i = 0; i < count; i++) sum += all[i].end;
        if (is_refused(status)) {
            /* the error ended the iteration, which is resumed from the last match */
            at.ended = 0;
            status.code = LAZYDFA_OK;
        }
    } while (status.code == LAZYDFA_OK);
    IS(status.code == LAZYDFA_NONE && sum == 1 + 2 + 8);
}

static void take_tokens(lazydfa_cache *c, const uint8_t *hay, size_t length) {
    lazydfa_input left = lazydfa_whole(length);
    lazydfa_match all[3];
    lazydfa_status status;
    size_t count, sum;
    left.end = 2;
    status = lazydfa_tokens(c, hay, length, &left, all, 3, &count);
    sum = count;
    if (is_refused(status)) {
        /* the tokens before the error were written */
        status = lazydfa_tokens(c, hay, length, &left, all, 3, &count);
        sum += count;
    }
    IS(status.code == LAZYDFA_NONE && sum == 2 && left.start == 2);
}

static void step(lazydfa_cache *c, const uint8_t *hay, size_t length) {
    lazydfa_iteration at = lazydfa_iterate(lazydfa_whole(length));
    lazydfa_input left = lazydfa_whole(2);
    lazydfa_status status;
    lazydfa_match m;
    size_t sum = 0;
    do {
        status = lazydfa_next(c, hay, length, &at, &m);
        if (status.code == LAZYDFA_OK) sum += m.end;
        if (is_refused(status)) {
            at.ended = 0;
            status.code = LAZYDFA_OK;
        }
    } while (status.code == LAZYDFA_OK);
    IS(status.code == LAZYDFA_NONE && sum == 1 + 2 + 8);
    WANT(lazydfa_token(c, hay, length, &left, &m), LAZYDFA_OK);
    IS(m.end == 1 && left.start == 1);
    WANT(lazydfa_token(c, hay, length, &left, &m), LAZYDFA_OK);
    WANT(lazydfa_token(c, hay, length, &left, &m), LAZYDFA_NONE);
}

static void search(lazydfa_cache *c, lazydfa_cache *every, const uint8_t *hay, size_t length) {
    lazydfa_input in = lazydfa_whole(length);
    lazydfa_match m;
    lazydfa_half h, halves[16];
    uint32_t patterns[2];
    size_t count;
    WANT(lazydfa_find(c, hay, length, &in, &m), LAZYDFA_OK);
    IS(m.start == 0 && m.end == 1 && m.pattern == 1);
    WANT(lazydfa_find_end(c, hay, length, &in, &h), LAZYDFA_OK);
    IS(h.offset == 1);
    in.end = 2;
    WANT(lazydfa_find_start(c, hay, length, &in, &h), LAZYDFA_OK);
    IS(h.offset == 0);
    in.end = length;
    iterate(c, hay, length);
    take_tokens(c, hay, length);
    WANT(lazydfa_which(every, hay, length, &in, 2, patterns, 2, &count), LAZYDFA_OK);
    IS(count == 2 && patterns[0] == 0 && patterns[1] == 1);
    WANT(lazydfa_which(every, hay, length, &in, 1, patterns, 2, &count), LAZYDFA_OK);
    IS(count == 1 && patterns[0] == 0);
    WANT(lazydfa_all_ends(every, hay, length, &in, halves, 16, &count), LAZYDFA_OK);
    IS(count == 6);
    in.end = 2;
    WANT(lazydfa_all_starts(every, hay, length, &in, halves, 16, &count), LAZYDFA_OK);
    IS(count == 2 && halves[0].offset == 1 && halves[1].offset == 0);
    in.end = length;
    WANT(lazydfa_cache_reset(c), LAZYDFA_OK);
    WANT(lazydfa_is_match(c, hay, length, &in), LAZYDFA_OK);
    WANT(lazydfa_cache_reset(c), LAZYDFA_OK);
    step(c, hay, length);
    WANT(lazydfa_cache_reset(every), LAZYDFA_OK);
    WANT(lazydfa_all_starts(every, hay, length, &in, halves, 16, &count), LAZYDFA_OK);
    IS(count == 0);
}

/* A search in pieces is unchanged if the allocation for a piece fails, and other searches may be made in between. */
static void search_pieces(lazydfa_cache *c) {
    lazydfa_input in = lazydfa_whole(2);
    lazydfa_half h;
    uint32_t done;
    WANT(lazydfa_cache_reset(c), LAZYDFA_OK);
    WANT(lazydfa_pieces_begin(c, LAZYDFA_UNANCHORED, 0, 'x', 0), LAZYDFA_OK);
    WANT(lazydfa_pieces_read(c, (const uint8_t *)"-!", 2, &done), LAZYDFA_OK);
    IS(!done);
    WANT(lazydfa_pieces_read(c, (const uint8_t *)"ab", 2, &done), LAZYDFA_OK);
    IS(!done);
    WANT(lazydfa_cache_reset(c), LAZYDFA_OK);
    WANT(lazydfa_pieces_end(c, '-', &h), LAZYDFA_OK);
    IS(h.offset == 4 && h.pattern == 0);
    WANT(lazydfa_find_end(c, (const uint8_t *)"1a", 2, &in, &h), LAZYDFA_OK);
    IS(h.offset == 1 && h.pattern == 1);
    WANT(lazydfa_pieces_read(c, (const uint8_t *)"cd--", 4, &done), LAZYDFA_OK);
    IS(done);
    WANT(lazydfa_pieces_end(c, -1, &h), LAZYDFA_OK);
    IS(h.offset == 6 && h.pattern == 0);
}

/* So is a walk, and it lists the same patterns. In "-ab\n5-" [a-z]+ ends at 2 and at 3, and a line begins with 5. */
static void walk_pieces(lazydfa_cache *c) {
    lazydfa_stop stop;
    uint32_t pattern, first = 0;
    WANT(lazydfa_cache_reset(c), LAZYDFA_OK);
    WANT(lazydfa_walk_begin(c, LAZYDFA_UNANCHORED, 0, -1), LAZYDFA_OK);
    WANT(lazydfa_walk_read(c, (const uint8_t *)"-a", 2, &stop), LAZYDFA_NONE);
    WANT(lazydfa_walk_end(c, -1, &stop), LAZYDFA_OK);
    IS(stop.read == 0 && stop.offset == 2 && stop.patterns == 1);
    WANT(lazydfa_walk_read(c, (const uint8_t *)"b\n5-", 4, &stop), LAZYDFA_OK);
    IS(stop.read == 1 && stop.offset == 2 && stop.patterns == 1);
    WANT(lazydfa_cache_reset(c), LAZYDFA_OK);
    WANT(lazydfa_walk_pattern(c, 0, &first), LAZYDFA_OK);
    WANT(lazydfa_walk_read(c, (const uint8_t *)"\n5-", 3, &stop), LAZYDFA_OK);
    IS(stop.read == 1 && stop.offset == 3 && stop.patterns == 1 && first == 0);
    WANT(lazydfa_walk_read(c, (const uint8_t *)"5-", 2, &stop), LAZYDFA_OK);
    WANT(lazydfa_walk_pattern(c, 0, &pattern), LAZYDFA_OK);
    IS(stop.read == 2 && stop.offset == 5 && stop.patterns == 1 && pattern == 1);
}

/* The pair of [a-z]+ with itself, since it reads the same backward. */
static void search_pair(lazydfa_builder *b, lazydfa_regex *re, lazydfa_cache *c) {
    lazydfa_starts starts[2];
    lazydfa_input in = lazydfa_whole(5);
    lazydfa_match m;
    lazydfa_state_id found, empty, more, both[2];
    uint32_t pattern;
    int i;
    for (i = 0; i < 2; i++) {
        WANT(lazydfa_builder_new(&b[i]), LAZYDFA_OK);
        WANT(lazydfa_set_reverse(&b[i], (uint32_t)i), LAZYDFA_OK);
        WANT(lazydfa_add_fail(&b[i], &empty), LAZYDFA_OK);
        WANT(lazydfa_builder_clear(&b[i]), LAZYDFA_OK);
        WANT(lazydfa_start_pattern(&b[i], &pattern), LAZYDFA_OK);
        WANT(lazydfa_add_match(&b[i], &found), LAZYDFA_OK);
        WANT(lazydfa_add_capture_end(&b[i], 0, found, &found), LAZYDFA_OK);
        WANT(lazydfa_add_empty(&b[i], &empty), LAZYDFA_OK);
        WANT(lazydfa_add_range(&b[i], 'a', 'z', empty, &starts[i].anchored), LAZYDFA_OK);
        both[0] = starts[i].anchored;
        both[1] = found;
        WANT(lazydfa_add_union(&b[i], both, 2, &more), LAZYDFA_OK);
        WANT(lazydfa_patch(&b[i], empty, more), LAZYDFA_OK);
        WANT(lazydfa_finish_pattern(&b[i], starts[i].anchored, &pattern), LAZYDFA_OK);
        WANT(lazydfa_add_unanchored_prefix(&b[i], starts[i].anchored, &starts[i].unanchored), LAZYDFA_OK);
    }
    WANT(lazydfa_regex_build_pair(re, &b[0], starts[0], &b[1], starts[1], NULL), LAZYDFA_OK);
    WANT(lazydfa_cache_new(c, re), LAZYDFA_OK);
    WANT(lazydfa_find(c, (const uint8_t *)"-abc-", 5, &in, &m), LAZYDFA_OK);
    IS(m.start == 1 && m.end == 4);
}

/* Another handle on the first handle's regex, and a cache created from it, which stay usable after the first is
   closed. */
static void search_shared(lazydfa_regex *re, lazydfa_regex *other, lazydfa_cache *c) {
    lazydfa_input in = lazydfa_whole(5);
    lazydfa_match m;
    WANT(lazydfa_regex_new(re, "[a-z]+", 6, NULL, NULL), LAZYDFA_OK);
    WANT(lazydfa_regex_share(re, other), LAZYDFA_OK);
    WANT(lazydfa_regex_close(re), LAZYDFA_OK);
    WANT(lazydfa_cache_new(c, other), LAZYDFA_OK);
    WANT(lazydfa_find(c, (const uint8_t *)"-abc-", 5, &in, &m), LAZYDFA_OK);
    IS(m.start == 1 && m.end == 4);
    WANT(lazydfa_regex_share(other, re), LAZYDFA_OK);
    WANT(lazydfa_regex_close(re), LAZYDFA_OK);
    WANT(lazydfa_regex_reverse(other, re), LAZYDFA_OK);
}

/* The set of a\pN+ and (?i)b|, built from their texts, and the message for a text that is not a valid pattern. */
static void search_texts(lazydfa_regex *re, lazydfa_cache *c) {
    static const lazydfa_text texts[2] = { { "a\\pN+", 5 }, { "(?i)b|", 6 } };
    lazydfa_input in = lazydfa_whole(3);
    lazydfa_options settings = LAZYDFA_OPTIONS_INIT;
    lazydfa_error error = LAZYDFA_ERROR_INIT;
    lazydfa_status status;
    uint32_t patterns[2];
    size_t count;
    settings.match_kind = LAZYDFA_ALL;
    WANT(lazydfa_regex_any_of(re, texts, 2, &settings, NULL), LAZYDFA_OK);
    WANT(lazydfa_cache_new(c, re), LAZYDFA_OK);
    WANT(lazydfa_which(c, (const uint8_t *)"-a1", 3, &in, 2, patterns, 2, &count), LAZYDFA_OK);
    IS(count == 2);
    WANT(lazydfa_regex_close(re), LAZYDFA_OK);
    status = lazydfa_regex_new(re, "a(b", 3, NULL, &error);
    if (is_refused(status))
        status = lazydfa_regex_new(re, "a(b", 3, NULL, &error);
    IS(status.code == LAZYDFA_SYNTAX && error.start == 1 && error.end == 2);
    if (only || from) {
        /* a message whose allocation fails is what the code means, and no call reports that */
        reported += error.length == 0;
        IS(!strcmp(error.message, error.length ? "unclosed group\n  a(b\n   ^" : lazydfa_code_text(status.code)));
    } else {
        IS(!strcmp(error.message, "unclosed group\n  a(b\n   ^"));
    }
    only = from = 0;
    WANT(lazydfa_regex_new(re, "b+", 2, NULL, NULL), LAZYDFA_OK);
}

/* A regex of a text opens without needles if an allocation for these fails, and finds the same. */
static void open_with_needles(const char *text, long one) {
    lazydfa_regex re = LAZYDFA_INIT;
    lazydfa_cache c = LAZYDFA_INIT;
    lazydfa_input in = lazydfa_whole(8);
    lazydfa_match m;
    only = one;
    WANT(lazydfa_regex_new(&re, text, strlen(text), NULL, NULL), LAZYDFA_OK);
    only = 0;
    WANT(lazydfa_cache_new(&c, &re), LAZYDFA_OK);
    WANT(lazydfa_find(&c, (const uint8_t *)"-b-abdd-", 8, &in, &m), LAZYDFA_OK);
    IS(m.start == 4 && m.end == 7);
    WANT(lazydfa_cache_close(&c), LAZYDFA_OK);
    WANT(lazydfa_regex_close(&re), LAZYDFA_OK);
    IS(blocks == 0);
}

/* Makes each allocation of the regex's opening fail in turn. */
static void needles(const char *text) {
    long i, all;
    calls = blocks = only = from = 0;
    open_with_needles(text, 0);
    all = calls;
    for (i = 1; i <= all && wrong < 20; i++) {
        calls = 0;
        open_with_needles(text, i);
    }
}

/* The groups of (a+)(?P<x>b)?, which are found without an allocation, and the error of a text for groups. */
static void find_groups(lazydfa_regex *re, lazydfa_cache *c) {
    static const lazydfa_text texts[2] = { { "c", 1 }, { "(a+)(?P<x>b)?", 13 } };
    lazydfa_options options = LAZYDFA_OPTIONS_INIT;
    lazydfa_input in = lazydfa_whole(5);
    lazydfa_match m;
    lazydfa_span spans[3];
    char name[2];
    size_t count, length;
    long before;
    options.groups = 1;
    WANT(lazydfa_regex_new(re, "a{2,1}", 6, &options, NULL), LAZYDFA_SYNTAX);
    WANT(lazydfa_regex_any_of(re, texts, 2, &options, NULL), LAZYDFA_OK);
    WANT(lazydfa_cache_new(c, re), LAZYDFA_OK);
    WANT(lazydfa_find(c, (const uint8_t *)"-aab-", 5, &in, &m), LAZYDFA_OK);
    before = calls;
    WANT(lazydfa_groups(c, (const uint8_t *)"-aab-", 5, &m, spans, 3, &count), LAZYDFA_OK);
    IS(count == 3 && spans[1].start == 1 && spans[1].end == 3 && spans[2].start == 3 && spans[2].end == 4);
    WANT(lazydfa_group_count(re, 1, &count), LAZYDFA_OK);
    WANT(lazydfa_group_index(re, 1, "x", 1, &count), LAZYDFA_OK);
    WANT(lazydfa_group_name(re, 1, 2, name, 2, &length), LAZYDFA_OK);
    IS(count == 2 && length == 1 && name[0] == 'x' && calls == before);
}

/* What all matches of ^ab[cd]e(fg)+ have in common. */
static void report_facts(void) {
    lazydfa_facts facts;
    uint8_t read[8];
    size_t lengths[3];
    WANT(lazydfa_text_facts("^ab[cd]e(fg)+", 13, NULL, &facts, read, sizeof read, lengths, 3), LAZYDFA_OK);
    IS(facts.anchored_start && !facts.exact && facts.prefix == 2 && facts.count == 2 && facts.length == 7);
    IS(!memcmp(read, "ababefg", 7) && lengths[0] == 2 && lengths[1] == 3);
}

/* The handles of a program. */
typedef struct {
    lazydfa_builder builders[6];
    lazydfa_regex regexes[6], other;
    lazydfa_cache caches[6];
} handles;

/* Builds a builder, two regexes from it and a cache of each, and makes every search; also a pair, texts, a regex with two
   handles, and one with groups. */
static void run(handles *h) {
    lazydfa_options settings = LAZYDFA_OPTIONS_INIT;
    lazydfa_starts starts = { { 0 }, { 0 } };
    long before;
    settings.match_kind = LAZYDFA_ALL;
    WANT(lazydfa_builder_new(&h->builders[0]), LAZYDFA_OK);
    build(&h->builders[0], &starts);
    before = refused;
    WANT(lazydfa_regex_build(&h->regexes[0], &h->builders[0], starts, NULL), LAZYDFA_OK);
    /* a regex does without first bytes if an allocation for these fails, and no call reports that */
    reported += refused > before && (only || from);
    WANT(lazydfa_regex_build(&h->regexes[1], &h->builders[0], starts, &settings), LAZYDFA_OK);
    WANT(lazydfa_cache_new(&h->caches[0], &h->regexes[0]), LAZYDFA_OK);
    WANT(lazydfa_cache_new(&h->caches[1], &h->regexes[1]), LAZYDFA_OK);
    search(&h->caches[0], &h->caches[1], (const uint8_t *)"ab 1 cde-", 9);
    search_pieces(&h->caches[0]);
    walk_pieces(&h->caches[1]);
    search_pair(&h->builders[1], &h->regexes[2], &h->caches[2]);
    WANT(lazydfa_builder_new(&h->builders[3]), LAZYDFA_OK);
    search_texts(&h->regexes[3], &h->caches[3]);
    report_facts();
    WANT(lazydfa_builder_new(&h->builders[4]), LAZYDFA_OK);
    search_shared(&h->regexes[4], &h->other, &h->caches[4]);
    WANT(lazydfa_builder_new(&h->builders[5]), LAZYDFA_OK);
    find_groups(&h->regexes[5], &h->caches[5]);
}

/* Closes everything, a regex before its cache or after it, while every allocation would fail: none is requested. */
static void close_all(handles *h) {
    int i;
    only = 0;
    from = 1;
    calls = 0;
    if (lazydfa_regex_close(&h->other).code != LAZYDFA_OK) complain("a handle is not closed", __LINE__);
    for (i = 0; i < 6; i++) {
        lazydfa_status status[3];
        int k;
        if (i % 2) status[0] = lazydfa_cache_close(&h->caches[i]);
        status[1] = lazydfa_regex_close(&h->regexes[i]);
        if (i % 2 == 0) status[0] = lazydfa_cache_close(&h->caches[i]);
        status[2] = lazydfa_builder_close(&h->builders[i]);
        for (k = 0; k < 3; k++)
            if (status[k].code != LAZYDFA_OK) complain("a handle is not closed", __LINE__);
    }
    if (calls) complain("closing allocates", __LINE__);
    if (blocks) complain("a block is left", __LINE__);
}

static long cycle(long one, long first) {
    handles h = { { LAZYDFA_INIT, LAZYDFA_INIT, LAZYDFA_INIT, LAZYDFA_INIT, LAZYDFA_INIT, LAZYDFA_INIT },
                  { LAZYDFA_INIT, LAZYDFA_INIT, LAZYDFA_INIT, LAZYDFA_INIT, LAZYDFA_INIT, LAZYDFA_INIT },
                  LAZYDFA_INIT,
                  { LAZYDFA_INIT, LAZYDFA_INIT, LAZYDFA_INIT, LAZYDFA_INIT, LAZYDFA_INIT, LAZYDFA_INIT } };
    long before = refused, known = reported, asked;
    calls = blocks = 0;
    only = one;
    from = first;
    run(&h);
    asked = calls;
    /* a vector that cannot double its capacity requests just what it needs, and no call reports that */
    if (refused > before && reported == known && asked <= usual) complain("a refusal is not reported", __LINE__);
    close_all(&h);
    return asked;
}

int main(void) {
    long i, all = cycle(0, 0);
    usual = all;
    for (i = 1; i <= all && wrong < 20; i++) {
        cycle(i, 0);
        cycle(0, i);
    }
    needles("bc|bd+");
    needles("bc|bd+|cb|db");
    printf("%ld allocations, %ld refused, %ld wrong\n", all, refused, wrong);
    return wrong != 0;
}
