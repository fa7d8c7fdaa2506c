/* Makes every call, with valid and with every kind of invalid arguments. Prints each check that fails, and how many
   checks there were. */
#include <stdio.h>
#include <stdlib.h>
#include <string.h>
#include "check.h"
#include "nfas.h"

/* ---- Valid calls ---- */

static void processor(void) {
    CHECK(lazydfa_is_supported() == 1);
}

static void searches(void) {
    lazydfa_cache c = LAZYDFA_INIT;
    const uint8_t *hay = bytes("foo 12 bar");
    lazydfa_input in = lazydfa_whole(10);
    lazydfa_match m;
    lazydfa_half h;
    CODE(open_cache(&c, word, NULL, NULL, 0), LAZYDFA_OK);
    CODE(lazydfa_find(&c, hay, 10, &in, &m), LAZYDFA_OK);
    CHECK(m.start == 0 && m.end == 3 && m.pattern == 0);
    in.start = 3;
    CODE(lazydfa_find(&c, hay, 10, &in, &m), LAZYDFA_OK);
    CHECK(m.start == 7 && m.end == 10);
    CODE(lazydfa_find_end(&c, hay, 10, &in, &h), LAZYDFA_OK);
    CHECK(h.offset == 10);
    in.earliest = 7;
    CODE(lazydfa_find_end(&c, hay, 10, &in, &h), LAZYDFA_OK);
    CHECK(h.offset == 8);
    in.earliest = 0;
    in.anchored = LAZYDFA_ANCHORED_YES;
    CODE(lazydfa_find_start(&c, hay, 10, &in, &h), LAZYDFA_OK);
    CHECK(h.offset == 7);
    in.end = 6;
    CODE(lazydfa_find_start(&c, hay, 10, &in, &h), LAZYDFA_NONE);
    in.end = 10;
    CODE(lazydfa_is_match(&c, hay, 10, &in), LAZYDFA_NONE);
    in.start = 7;
    CODE(lazydfa_is_match(&c, hay, 10, &in), LAZYDFA_OK);
    in = lazydfa_whole(0);
    CODE(lazydfa_find(&c, NULL, 0, &in, &m), LAZYDFA_NONE);
    in.start = 1;
    CODE(lazydfa_find(&c, NULL, 0, &in, &m), LAZYDFA_NONE);
    CODE(lazydfa_cache_close(&c), LAZYDFA_OK);
}

static void iterations(void) {
    lazydfa_cache c = LAZYDFA_INIT;
    const uint8_t *hay = bytes("foo 12 bar");
    lazydfa_iteration at = lazydfa_iterate(lazydfa_whole(10));
    lazydfa_match m, all[4];
    size_t count = 99;
    CODE(open_cache(&c, word, NULL, NULL, 0), LAZYDFA_OK);
    CODE(lazydfa_next(&c, hay, 10, &at, &m), LAZYDFA_OK);
    CHECK(m.start == 0 && m.end == 3);
    CODE(lazydfa_next(&c, hay, 10, &at, &m), LAZYDFA_OK);
    CHECK(m.start == 7 && m.end == 10);
    CODE(lazydfa_next(&c, hay, 10, &at, &m), LAZYDFA_NONE);
    CODE(lazydfa_next(&c, hay, 10, &at, &m), LAZYDFA_NONE);
    at = lazydfa_iterate(lazydfa_whole(10));
    CODE(lazydfa_next_all(&c, hay, 10, &at, all, 1, &count), LAZYDFA_OK);
    CHECK(count == 1 && all[0].end == 3);
    CODE(lazydfa_next_all(&c, hay, 10, &at, NULL, 0, &count), LAZYDFA_OK);
    CHECK(count == 0);
    CODE(lazydfa_next_all(&c, hay, 10, &at, all, 4, &count), LAZYDFA_NONE);
    CHECK(count == 1 && all[0].start == 7);
    CODE(lazydfa_next_all(&c, hay, 10, &at, all, 4, &count), LAZYDFA_NONE);
    CHECK(count == 0);
    CODE(lazydfa_cache_close(&c), LAZYDFA_OK);
}

static void sets(void) {
    lazydfa_cache c = LAZYDFA_INIT;
    lazydfa_options all = LAZYDFA_OPTIONS_INIT;
    lazydfa_input in = lazydfa_whole(2);
    lazydfa_half halves[8];
    uint32_t patterns[2] = { 9, 9 };
    size_t count = 0;
    all.match_kind = LAZYDFA_ALL;
    CODE(open_cache(&c, two, &all, NULL, 0), LAZYDFA_OK);
    CODE(lazydfa_which(&c, bytes("1 "), 2, &in, 2, patterns, 2, &count), LAZYDFA_OK);
    CHECK(count == 1 && patterns[0] == 1);
    CODE(lazydfa_which(&c, bytes("ab"), 2, &in, 2, patterns, 2, &count), LAZYDFA_OK);
    CHECK(count == 2 && patterns[0] == 0 && patterns[1] == 1);
    CODE(lazydfa_which(&c, bytes("ab"), 2, &in, 1, patterns, 2, &count), LAZYDFA_OK);
    CHECK(count == 1 && patterns[0] == 0);
    CODE(lazydfa_which(&c, bytes("ab"), 2, &in, 9, NULL, 0, &count), LAZYDFA_OK);
    CHECK(count == 2);
    CODE(lazydfa_which(&c, bytes("--"), 2, &in, 2, patterns, 2, &count), LAZYDFA_OK);
    CHECK(count == 0);
    CODE(lazydfa_which(&c, bytes("ab"), 2, &in, SIZE_MAX, patterns, 2, &count), LAZYDFA_MEMORY);
    CODE(lazydfa_all_ends(&c, bytes("ab"), 2, &in, halves, 8, &count), LAZYDFA_OK);
    CHECK(count == 4 && halves[0].offset == 1 && halves[3].offset == 2);
    CODE(lazydfa_all_ends(&c, bytes("ab"), 2, &in, halves, 1, &count), LAZYDFA_OK);
    CHECK(count == 4);
    CODE(lazydfa_all_ends(&c, bytes("--"), 2, &in, NULL, 0, &count), LAZYDFA_OK);
    CHECK(count == 0);
    CODE(lazydfa_all_starts(&c, bytes("ab"), 2, &in, halves, 8, &count), LAZYDFA_OK);
    CHECK(count == 3 && halves[0].offset == 1 && halves[2].offset == 0);
    CODE(lazydfa_all_starts(&c, bytes("a-"), 2, &in, halves, 8, &count), LAZYDFA_OK);
    CHECK(count == 0);
    CODE(lazydfa_cache_close(&c), LAZYDFA_OK);
}

static void tokens(void) {
    lazydfa_cache c = LAZYDFA_INIT;
    lazydfa_input left = lazydfa_whole(9);
    lazydfa_match t[2];
    lazydfa_status status;
    const uint8_t *hay = bytes("ab 1 cde-");
    size_t count = 0;
    CODE(open_cache(&c, two, NULL, NULL, 0), LAZYDFA_OK);
    CODE(lazydfa_token(&c, hay, 9, &left, t), LAZYDFA_OK);
    CHECK(t[0].start == 0 && t[0].end == 2 && t[0].pattern == 0 && left.start == 2);
    CODE(lazydfa_tokens(&c, hay, 9, &left, t, 2, &count), LAZYDFA_OK);
    CHECK(count == 2 && t[0].pattern == 1 && t[1].end == 4 && left.start == 4);
    CODE(lazydfa_tokens(&c, hay, 9, &left, NULL, 0, &count), LAZYDFA_OK);
    CHECK(count == 0);
    CODE(lazydfa_tokens(&c, hay, 9, &left, t, 2, &count), LAZYDFA_OK);
    CHECK(count == 2 && t[1].start == 5 && t[1].end == 8);
    status = lazydfa_tokens(&c, hay, 9, &left, t, 2, &count);
    CHECK(status.code == LAZYDFA_NO_TOKEN && status.offset == 8 && count == 0);
    left = lazydfa_whole(2);
    CODE(lazydfa_tokens(&c, hay, 9, &left, t, 2, &count), LAZYDFA_NONE);
    CHECK(count == 1);
    CODE(lazydfa_token(&c, hay, 9, &left, t), LAZYDFA_NONE);
    CODE(lazydfa_cache_close(&c), LAZYDFA_OK);
}

static void usage(void) {
    lazydfa_cache c = LAZYDFA_INIT;
    lazydfa_usage before, after;
    lazydfa_input in = lazydfa_whole(3);
    lazydfa_match m;
    CODE(open_cache(&c, word, NULL, NULL, 0), LAZYDFA_OK);
    CODE(lazydfa_find(&c, bytes("abc"), 3, &in, &m), LAZYDFA_OK);
    CODE(lazydfa_cache_usage(&c, &before), LAZYDFA_OK);
    CHECK(before.memory > 0 && before.forward_clears == 0 && before.reverse_clears == 0 && before.patterns == 1);
    CHECK(before.leaps == 0 && before.held > before.memory);
    CODE(lazydfa_cache_reset(&c), LAZYDFA_OK);
    CODE(lazydfa_cache_usage(&c, &after), LAZYDFA_OK);
    CHECK(after.memory < before.memory && after.held < before.held);
    CODE(lazydfa_cache_close(&c), LAZYDFA_OK);
}

/* ---- Settings ---- */

static void quits(void) {
    lazydfa_cache c = LAZYDFA_INIT;
    lazydfa_input in = lazydfa_whole(6);
    lazydfa_match m;
    lazydfa_status status;
    CODE(open_cache(&c, word, NULL, bytes(";"), 1), LAZYDFA_OK);
    status = lazydfa_find(&c, bytes("--;abc"), 6, &in, &m);
    CHECK(status.code == LAZYDFA_QUIT && status.byte == ';' && status.offset == 2);
    in.start = 3;
    status = lazydfa_find(&c, bytes("--;abc"), 6, &in, &m);
    CHECK(status.code == LAZYDFA_QUIT && status.byte == ';' && status.offset == 2);
    in.start = 4;
    CODE(lazydfa_find(&c, bytes("--;abc"), 6, &in, &m), LAZYDFA_OK);
    CODE(lazydfa_cache_close(&c), LAZYDFA_OK);
}

static void capacities(void) {
    lazydfa_cache c = LAZYDFA_INIT;
    lazydfa_options small = LAZYDFA_OPTIONS_INIT;
    lazydfa_status status;
    size_t enough;
    small.zeros |= LAZYDFA_ZERO_CACHE_CAPACITY;
    status = open_cache(&c, word, &small, NULL, 0);
    CHECK(status.code == LAZYDFA_CAPACITY && status.offset > 100);
    /* the reverse DFA needs more than the forward one: the reported capacity is enough for both, and a byte less is
       not */
    enough = status.offset;
    small.cache_capacity = enough - 1;
    status = open_cache(&c, word, &small, NULL, 0);
    CHECK(status.code == LAZYDFA_CAPACITY && status.offset == enough);
    small.cache_capacity = enough;
    CODE(open_cache(&c, word, &small, NULL, 0), LAZYDFA_OK);
    CODE(lazydfa_cache_close(&c), LAZYDFA_OK);
    small.cache_capacity = 0;
    small.skip_cache_capacity_check = 1;
    CODE(open_cache(&c, word, &small, NULL, 0), LAZYDFA_OK);
    CODE(lazydfa_cache_close(&c), LAZYDFA_OK);
}

static void clears(void) {
    enum { LENGTH = 4096 };
    lazydfa_cache c = LAZYDFA_INIT;
    lazydfa_options small = LAZYDFA_OPTIONS_INIT;
    lazydfa_status status;
    lazydfa_usage usage;
    lazydfa_match m;
    lazydfa_iteration at = lazydfa_iterate(lazydfa_whole(LENGTH));
    uint8_t hay[LENGTH];
    int i;
    for (i = 0; i < LENGTH; i++) hay[i] = (uint8_t)(i % 9 == 8 ? '-' : "ab"[(i * i + i / 7) % 3 % 2]);
    small.zeros |= LAZYDFA_ZERO_CACHE_CAPACITY | LAZYDFA_ZERO_CLEAR_COUNT;
    small.skip_cache_capacity_check = 1;
    CODE(open_cache(&c, many, &small, NULL, 0), LAZYDFA_OK);
    while ((status = lazydfa_next(&c, hay, LENGTH, &at, &m)).code == LAZYDFA_OK) {}
    CHECK(status.code == LAZYDFA_GAVE_UP && status.offset > 0 && status.offset < LENGTH);
    CODE(lazydfa_next(&c, hay, LENGTH, &at, &m), LAZYDFA_NONE);
    CODE(lazydfa_cache_close(&c), LAZYDFA_OK);
    small.zeros |= LAZYDFA_ZERO_BYTES_PER_STATE;
    CODE(open_cache(&c, many, &small, NULL, 0), LAZYDFA_OK);
    at = lazydfa_iterate(lazydfa_whole(LENGTH));
    while ((status = lazydfa_next(&c, hay, LENGTH, &at, &m)).code == LAZYDFA_OK) {}
    CHECK(status.code == LAZYDFA_NONE);
    CODE(lazydfa_cache_usage(&c, &usage), LAZYDFA_OK);
    CHECK(usage.forward_clears > 0 && usage.reverse_clears == 0);
    CODE(lazydfa_cache_close(&c), LAZYDFA_OK);
}

static void modes(void) {
    lazydfa_cache c = LAZYDFA_INIT;
    lazydfa_options settings = LAZYDFA_OPTIONS_INIT;
    lazydfa_input in = lazydfa_whole(3);
    lazydfa_match m;
    in.anchored = LAZYDFA_ANCHORED_PATTERN;
    in.pattern = 1;
    CODE(open_cache(&c, two, NULL, NULL, 0), LAZYDFA_OK);
    CODE(lazydfa_find(&c, bytes("abc"), 3, &in, &m), LAZYDFA_ANCHORED);
    CODE(lazydfa_cache_close(&c), LAZYDFA_OK);
    settings.starts_for_each_pattern = settings.no_byte_classes = settings.specialize_start_states = 1;
    CODE(open_cache(&c, two, &settings, NULL, 0), LAZYDFA_OK);
    CODE(lazydfa_find(&c, bytes("abc"), 3, &in, &m), LAZYDFA_OK);
    CHECK(m.pattern == 1 && m.end == 1);
    in.pattern = 2;
    CODE(lazydfa_find(&c, bytes("abc"), 3, &in, &m), LAZYDFA_NONE);
    CODE(lazydfa_cache_close(&c), LAZYDFA_OK);
    settings.match_kind = 2;
    CODE(open_cache(&c, two, &settings, NULL, 0), LAZYDFA_ARGUMENT);
}

/* ---- Builders and pairs ---- */

static void builders(void) {
    lazydfa_builder b = LAZYDFA_INIT;
    lazydfa_regex re = LAZYDFA_INIT;
    lazydfa_starts starts = { { 0 }, { 0 } };
    lazydfa_options anchored = LAZYDFA_OPTIONS_INIT;
    lazydfa_state_id id = { 0 };
    uint32_t pattern;
    anchored.always_anchored = 1;
    CODE(lazydfa_builder_new(&b), LAZYDFA_OK);
    CODE(lazydfa_add_match(&b, &id), LAZYDFA_NO_PATTERN);
    CODE(lazydfa_add_capture_start(&b, 0, id, &id), LAZYDFA_NO_PATTERN);
    CODE(lazydfa_add_capture_end(&b, 0, id, &id), LAZYDFA_NO_PATTERN);
    CODE(lazydfa_finish_pattern(&b, id, &pattern), LAZYDFA_NO_PATTERN);
    CODE(lazydfa_patch(&b, id, id), LAZYDFA_PATCH_RANGE);
    CODE(lazydfa_start_pattern(&b, &pattern), LAZYDFA_OK);
    CHECK(pattern == 0);
    CODE(lazydfa_start_pattern(&b, &pattern), LAZYDFA_UNFINISHED);
    CODE(lazydfa_add_sparse(&b, NULL, 0, &id), LAZYDFA_OK);
    CODE(lazydfa_patch(&b, id, id), LAZYDFA_SPARSE_PATCH);
    CODE(lazydfa_add_capture_start(&b, 0x80000000u, id, &id), LAZYDFA_TOO_LARGE);
    CODE(lazydfa_regex_build(&re, &b, starts, &anchored), LAZYDFA_UNFINISHED);
    CODE(lazydfa_builder_clear(&b), LAZYDFA_OK);
    CODE(lazydfa_regex_build(&re, &b, starts, &anchored), LAZYDFA_START_RANGE);
    CODE(lazydfa_start_pattern(&b, &pattern), LAZYDFA_OK);
    CODE(lazydfa_add_range(&b, 'z', 'a', lazydfa_state(0), &id), LAZYDFA_OK);
    CODE(lazydfa_finish_pattern(&b, id, &pattern), LAZYDFA_OK);
    CODE(lazydfa_regex_build(&re, &b, starts, &anchored), LAZYDFA_RANGES);
    CODE(lazydfa_builder_clear(&b), LAZYDFA_OK);
    CODE(lazydfa_start_pattern(&b, &pattern), LAZYDFA_OK);
    CODE(lazydfa_add_range(&b, 'a', 'z', lazydfa_state(1000), &id), LAZYDFA_OK);
    CODE(lazydfa_finish_pattern(&b, id, &pattern), LAZYDFA_OK);
    CODE(lazydfa_regex_build(&re, &b, starts, &anchored), LAZYDFA_STATE_RANGE);
    /* every kind of state, in a pattern that matches: a group around [a-z] at the start of a line */
    CODE(lazydfa_builder_clear(&b), LAZYDFA_OK);
    CODE(lazydfa_set_utf8(&b, 1), LAZYDFA_OK);
    CODE(lazydfa_set_utf8(&b, 0), LAZYDFA_OK);
    CODE(lazydfa_set_reverse(&b, 0), LAZYDFA_OK);
    CODE(lazydfa_set_line_terminator(&b, '\n'), LAZYDFA_OK);
    CODE(lazydfa_start_pattern(&b, &pattern), LAZYDFA_OK);
    CODE(lazydfa_add_match(&b, &id), LAZYDFA_OK);
    CODE(lazydfa_add_capture_end(&b, 0, id, &id), LAZYDFA_OK);
    CODE(lazydfa_add_range(&b, 'a', 'z', id, &id), LAZYDFA_OK);
    CODE(lazydfa_add_capture_start(&b, 0, id, &id), LAZYDFA_OK);
    CODE(lazydfa_add_look(&b, LAZYDFA_LOOK_START_LF, id, &starts.anchored), LAZYDFA_OK);
    CODE(lazydfa_add_fail(&b, &id), LAZYDFA_OK);
    CODE(lazydfa_add_empty(&b, &id), LAZYDFA_OK);
    CODE(lazydfa_patch(&b, id, starts.anchored), LAZYDFA_OK);
    CODE(lazydfa_add_union_reverse(&b, &id, 1, &starts.anchored), LAZYDFA_OK);
    CODE(lazydfa_finish_pattern(&b, starts.anchored, &pattern), LAZYDFA_OK);
    starts.unanchored = starts.anchored;
    CODE(lazydfa_regex_build(&re, &b, starts, &anchored), LAZYDFA_OK);
    CODE(lazydfa_regex_close(&re), LAZYDFA_OK);
    /* an unanchored start that is not a prefix of the anchored one */
    starts.unanchored = lazydfa_state(0);
    CODE(lazydfa_regex_build(&re, &b, starts, NULL), LAZYDFA_NOT_LAZY);
    CODE(lazydfa_builder_close(&b), LAZYDFA_OK);
}

/* Errors of lazydfa_regex_build, each of which needs an NFA of its own. */
static void refusals(void) {
    lazydfa_builder b = LAZYDFA_INIT;
    lazydfa_regex re = LAZYDFA_INIT;
    lazydfa_starts starts;
    lazydfa_options settings = LAZYDFA_OPTIONS_INIT;
    lazydfa_state_id look, end, both[2];
    uint32_t pattern;
    settings.always_anchored = 1;
    /* (?:^)* has a cycle through a look, and is not an error */
    CODE(lazydfa_builder_new(&b), LAZYDFA_OK);
    CODE(lazydfa_start_pattern(&b, &pattern), LAZYDFA_OK);
    CODE(lazydfa_add_match(&b, &end), LAZYDFA_OK);
    CODE(lazydfa_add_look(&b, LAZYDFA_LOOK_START, lazydfa_state(0), &look), LAZYDFA_OK);
    both[0] = look;
    both[1] = end;
    CODE(lazydfa_add_union(&b, both, 2, &starts.anchored), LAZYDFA_OK);
    CODE(lazydfa_patch(&b, look, starts.anchored), LAZYDFA_OK);
    CODE(lazydfa_finish_pattern(&b, starts.anchored, &pattern), LAZYDFA_OK);
    starts.unanchored = starts.anchored;
    CODE(lazydfa_regex_build(&re, &b, starts, &settings), LAZYDFA_OK);
    CODE(lazydfa_regex_close(&re), LAZYDFA_OK);
    /* a Unicode \b */
    CODE(lazydfa_builder_clear(&b), LAZYDFA_OK);
    CODE(lazydfa_start_pattern(&b, &pattern), LAZYDFA_OK);
    CODE(lazydfa_add_match(&b, &end), LAZYDFA_OK);
    CODE(lazydfa_add_look(&b, LAZYDFA_LOOK_WORD_UNICODE, end, &starts.anchored), LAZYDFA_OK);
    CODE(lazydfa_finish_pattern(&b, starts.anchored, &pattern), LAZYDFA_OK);
    starts.unanchored = starts.anchored;
    CODE(lazydfa_regex_build(&re, &b, starts, &settings), LAZYDFA_UNSUPPORTED);
    settings.unicode_word_boundary = 1;
    CODE(lazydfa_regex_build(&re, &b, starts, &settings), LAZYDFA_OK);
    CODE(lazydfa_regex_close(&re), LAZYDFA_OK);
    /* one byte from 0x80 on, in UTF-8 mode */
    CODE(lazydfa_builder_clear(&b), LAZYDFA_OK);
    CODE(lazydfa_set_utf8(&b, 1), LAZYDFA_OK);
    CODE(lazydfa_start_pattern(&b, &pattern), LAZYDFA_OK);
    CODE(lazydfa_add_match(&b, &end), LAZYDFA_OK);
    CODE(lazydfa_add_range(&b, 0x80, 0xFF, end, &starts.anchored), LAZYDFA_OK);
    CODE(lazydfa_finish_pattern(&b, starts.anchored, &pattern), LAZYDFA_OK);
    CODE(lazydfa_add_unanchored_prefix(&b, starts.anchored, &starts.unanchored), LAZYDFA_OK);
    CODE(lazydfa_regex_build(&re, &b, starts, NULL), LAZYDFA_NOT_UTF8);
    CODE(lazydfa_builder_close(&b), LAZYDFA_OK);
}

/* The pair of ab and ba, the second of which reads the same backward, and the pair of ab and ab, which does not. */
static void pairs(void) {
    lazydfa_builder b[2] = { LAZYDFA_INIT, LAZYDFA_INIT };
    lazydfa_regex re = LAZYDFA_INIT;
    lazydfa_cache c = LAZYDFA_INIT;
    lazydfa_starts starts[2];
    lazydfa_input in = lazydfa_whole(4);
    lazydfa_match m;
    lazydfa_state_id at;
    uint32_t pattern;
    int i;
    for (i = 0; i < 2; i++) {
        CODE(lazydfa_builder_new(&b[i]), LAZYDFA_OK);
        CODE(lazydfa_set_reverse(&b[i], (uint32_t)i), LAZYDFA_OK);
        CODE(lazydfa_start_pattern(&b[i], &pattern), LAZYDFA_OK);
        CODE(lazydfa_add_match(&b[i], &at), LAZYDFA_OK);
        CODE(repeat(&b[i], i ? 'a' : 'b', i ? 'a' : 'b', 1, &at), LAZYDFA_OK);
        CODE(repeat(&b[i], i ? 'b' : 'a', i ? 'b' : 'a', 1, &at), LAZYDFA_OK);
        CODE(lazydfa_finish_pattern(&b[i], at, &pattern), LAZYDFA_OK);
        starts[i].anchored = at;
        CODE(lazydfa_add_unanchored_prefix(&b[i], at, &starts[i].unanchored), LAZYDFA_OK);
    }
    CODE(lazydfa_regex_build_pair(&re, &b[0], starts[0], &b[1], starts[1], NULL), LAZYDFA_OK);
    CODE(lazydfa_regex_build_pair(&re, &b[0], starts[0], &b[1], starts[1], NULL), LAZYDFA_OPEN);
    CODE(lazydfa_cache_new(&c, &re), LAZYDFA_OK);
    CODE(lazydfa_find(&c, bytes("-ab-"), 4, &in, &m), LAZYDFA_OK);
    CHECK(m.start == 1 && m.end == 3);
    CODE(lazydfa_cache_close(&c), LAZYDFA_OK);
    CODE(lazydfa_regex_close(&re), LAZYDFA_OK);
    CODE(lazydfa_regex_build_pair(&re, &b[1], starts[1], &b[0], starts[0], NULL), LAZYDFA_OK);
    CODE(lazydfa_cache_new(&c, &re), LAZYDFA_OK);
    CODE(lazydfa_find(&c, bytes("-ba-"), 4, &in, &m), LAZYDFA_OK);
    CODE(lazydfa_cache_close(&c), LAZYDFA_OK);
    CODE(lazydfa_regex_close(&re), LAZYDFA_OK);
    CODE(lazydfa_builder_clear(&b[1]), LAZYDFA_OK);
    CODE(lazydfa_add_fail(&b[1], &at), LAZYDFA_OK);
    starts[1].anchored = starts[1].unanchored = at;
    CODE(lazydfa_regex_build_pair(&re, &b[0], starts[0], &b[1], starts[1], NULL), LAZYDFA_PATTERN_COUNTS);
    CODE(lazydfa_start_pattern(&b[1], &pattern), LAZYDFA_OK);
    CODE(lazydfa_finish_pattern(&b[1], at, &pattern), LAZYDFA_OK);
    CODE(lazydfa_regex_build_pair(&re, &b[0], starts[0], &b[1], starts[1], NULL), LAZYDFA_OK);
    CODE(lazydfa_cache_new(&c, &re), LAZYDFA_OK);
    CODE(lazydfa_find(&c, bytes("-ab-"), 4, &in, &m), LAZYDFA_NOT_A_PAIR);
    CODE(lazydfa_is_match(&c, bytes("-ab-"), 4, &in), LAZYDFA_OK);
    CODE(lazydfa_cache_close(&c), LAZYDFA_OK);
    CODE(lazydfa_regex_close(&re), LAZYDFA_OK);
    CODE(lazydfa_builder_close(&b[0]), LAZYDFA_OK);
    CODE(lazydfa_builder_close(&b[1]), LAZYDFA_OK);
}

/* Two handles on one regex, closed in both orders, and a cache created from each. */
static void shares(void) {
    int is_first;
    for (is_first = 0; is_first < 2; is_first++) {
        lazydfa_regex re[2] = { LAZYDFA_INIT, LAZYDFA_INIT };
        lazydfa_cache c[2] = { LAZYDFA_INIT, LAZYDFA_INIT };
        lazydfa_input in = lazydfa_whole(10);
        lazydfa_match m;
        int i;
        CODE(lazydfa_regex_new(&re[0], "[0-9]+", 6, NULL, NULL), LAZYDFA_OK);
        CODE(lazydfa_regex_share(&re[0], &re[1]), LAZYDFA_OK);
        CODE(lazydfa_regex_share(&re[0], &re[1]), LAZYDFA_OPEN);
        CODE(lazydfa_cache_new(&c[is_first], &re[is_first]), LAZYDFA_OK);
        CODE(lazydfa_regex_close(&re[is_first]), LAZYDFA_OK);
        CODE(lazydfa_cache_new(&c[!is_first], &re[!is_first]), LAZYDFA_OK);
        CODE(lazydfa_regex_close(&re[!is_first]), LAZYDFA_OK);
        for (i = 0; i < 2; i++) {
            CODE(lazydfa_find(&c[i], bytes("foo 12 bar"), 10, &in, &m), LAZYDFA_OK);
            CHECK(m.start == 4 && m.end == 6);
            CODE(lazydfa_cache_close(&c[i]), LAZYDFA_OK);
        }
    }
}

/* [a-c]{3} with one start: no match begins after the span's start, so this has to be allowed, or it is an error. */
static void one_start(void) {
    lazydfa_builder b = LAZYDFA_INIT, back = LAZYDFA_INIT;
    lazydfa_regex re = LAZYDFA_INIT;
    lazydfa_cache c = LAZYDFA_INIT;
    lazydfa_starts one, both, end = { { 0 }, { 0 } };
    lazydfa_options settings = LAZYDFA_OPTIONS_INIT;
    lazydfa_input in = lazydfa_whole(4);
    lazydfa_match m;
    uint32_t pattern;
    CODE(lazydfa_builder_new(&b), LAZYDFA_OK);
    CODE(lazydfa_start_pattern(&b, &pattern), LAZYDFA_OK);
    CODE(lazydfa_add_match(&b, &one.anchored), LAZYDFA_OK);
    CODE(repeat(&b, 'a', 'c', 3, &one.anchored), LAZYDFA_OK);
    CODE(lazydfa_finish_pattern(&b, one.anchored, &pattern), LAZYDFA_OK);
    one.unanchored = both.anchored = one.anchored;
    CODE(lazydfa_add_unanchored_prefix(&b, one.anchored, &both.unanchored), LAZYDFA_OK);
    CODE(lazydfa_regex_build(&re, &b, one, NULL), LAZYDFA_ONE_START);
    settings.match_kind = 2;
    CODE(lazydfa_regex_build(&re, &b, one, &settings), LAZYDFA_ONE_START);
    settings.match_kind = 0;
    settings.always_anchored = 9;
    CODE(lazydfa_regex_build(&re, &b, one, &settings), LAZYDFA_OK);
    CODE(lazydfa_cache_new(&c, &re), LAZYDFA_OK);
    CODE(lazydfa_find(&c, bytes("-abc"), 4, &in, &m), LAZYDFA_NONE);
    CODE(lazydfa_find(&c, bytes("abc-"), 4, &in, &m), LAZYDFA_OK);
    CHECK(m.start == 0 && m.end == 3);
    CODE(lazydfa_cache_close(&c), LAZYDFA_OK);
    CODE(lazydfa_regex_close(&re), LAZYDFA_OK);
    /* two starts work with the setting as they do without it */
    CODE(lazydfa_regex_build(&re, &b, both, &settings), LAZYDFA_OK);
    CODE(lazydfa_cache_new(&c, &re), LAZYDFA_OK);
    CODE(lazydfa_find(&c, bytes("-abc"), 4, &in, &m), LAZYDFA_OK);
    CHECK(m.start == 1 && m.end == 4);
    CODE(lazydfa_cache_close(&c), LAZYDFA_OK);
    CODE(lazydfa_regex_close(&re), LAZYDFA_OK);
    /* for a pair only the first NFA counts */
    CODE(lazydfa_builder_new(&back), LAZYDFA_OK);
    CODE(lazydfa_set_reverse(&back, 1), LAZYDFA_OK);
    CODE(lazydfa_start_pattern(&back, &pattern), LAZYDFA_OK);
    CODE(lazydfa_add_match(&back, &end.anchored), LAZYDFA_OK);
    CODE(repeat(&back, 'a', 'c', 3, &end.anchored), LAZYDFA_OK);
    CODE(lazydfa_finish_pattern(&back, end.anchored, &pattern), LAZYDFA_OK);
    end.unanchored = end.anchored;
    CODE(lazydfa_regex_build_pair(&re, &b, one, &back, end, NULL), LAZYDFA_ONE_START);
    CODE(lazydfa_regex_build_pair(&re, &b, both, &back, end, NULL), LAZYDFA_OK);
    CODE(lazydfa_cache_new(&c, &re), LAZYDFA_OK);
    CODE(lazydfa_find(&c, bytes("-abc"), 4, &in, &m), LAZYDFA_OK);
    CHECK(m.start == 1 && m.end == 4);
    CODE(lazydfa_cache_close(&c), LAZYDFA_OK);
    CODE(lazydfa_regex_close(&re), LAZYDFA_OK);
    CODE(lazydfa_builder_close(&b), LAZYDFA_OK);
    CODE(lazydfa_builder_close(&back), LAZYDFA_OK);
}

/* ---- Invalid handles: every call on a null, a closed and an open handle of another kind ---- */

enum { BUILDER_CALLS = 18, CACHE_CALLS = 13 };

static lazydfa_status on_builder(int call, lazydfa_builder *b) {
    lazydfa_state_id id = { 0 }, next = { 0 };
    lazydfa_edge edge = { 'a', 'z', 0, { 0 } };
    uint32_t pattern;
    switch (call) {
    case 0: return lazydfa_builder_clear(b);
    case 1: return lazydfa_start_pattern(b, &pattern);
    case 2: return lazydfa_finish_pattern(b, next, &pattern);
    case 3: return lazydfa_patch(b, next, next);
    case 4: return lazydfa_set_utf8(b, 1);
    case 5: return lazydfa_set_reverse(b, 1);
    case 6: return lazydfa_set_line_terminator(b, 0);
    case 7: return lazydfa_add_empty(b, &id);
    case 8: return lazydfa_add_range(b, 'a', 'z', next, &id);
    case 9: return lazydfa_add_sparse(b, &edge, 1, &id);
    case 10: return lazydfa_add_look(b, 0, next, &id);
    case 11: return lazydfa_add_union(b, &next, 1, &id);
    case 12: return lazydfa_add_union_reverse(b, &next, 1, &id);
    case 13: return lazydfa_add_capture_start(b, 0, next, &id);
    case 14: return lazydfa_add_capture_end(b, 0, next, &id);
    case 15: return lazydfa_add_fail(b, &id);
    case 16: return lazydfa_add_match(b, &id);
    default: return lazydfa_add_unanchored_prefix(b, next, &id);
    }
}

/* Makes a call on a cache over "a", with this input. */
static lazydfa_status on_cache(int call, lazydfa_cache *c, const lazydfa_input *input) {
    lazydfa_usage usage;
    lazydfa_match m;
    lazydfa_half h;
    lazydfa_input in = *input;
    lazydfa_iteration at = lazydfa_iterate(in);
    uint32_t pattern;
    size_t count;
    switch (call) {
    case 0: return lazydfa_cache_reset(c);
    case 1: return lazydfa_cache_usage(c, &usage);
    case 2: return lazydfa_find(c, bytes("a"), 1, &in, &m);
    case 3: return lazydfa_is_match(c, bytes("a"), 1, &in);
    case 4: return lazydfa_find_end(c, bytes("a"), 1, &in, &h);
    case 5: return lazydfa_find_start(c, bytes("a"), 1, &in, &h);
    case 6: return lazydfa_next(c, bytes("a"), 1, &at, &m);
    case 7: return lazydfa_next_all(c, bytes("a"), 1, &at, &m, 1, &count);
    case 8: return lazydfa_token(c, bytes("a"), 1, &in, &m);
    case 9: return lazydfa_tokens(c, bytes("a"), 1, &in, &m, 1, &count);
    case 10: return lazydfa_all_ends(c, bytes("a"), 1, &in, &h, 1, &count);
    case 11: return lazydfa_all_starts(c, bytes("a"), 1, &in, &h, 1, &count);
    default: return lazydfa_which(c, bytes("a"), 1, &in, 1, &pattern, 1, &count);
    }
}

static void handles(void) {
    lazydfa_builder b = LAZYDFA_INIT, no_builder = LAZYDFA_INIT;
    lazydfa_regex re = LAZYDFA_INIT, no_regex = LAZYDFA_INIT;
    lazydfa_cache c = LAZYDFA_INIT, no_cache = LAZYDFA_INIT;
    lazydfa_input in = lazydfa_whole(1);
    lazydfa_starts starts;
    int call;
    CODE(lazydfa_builder_new(&b), LAZYDFA_OK);
    CODE(lazydfa_builder_new(&b), LAZYDFA_OPEN);
    CODE(lazydfa_builder_new((lazydfa_builder *)(void *)&b.handle), LAZYDFA_OPEN);
    CODE(word(&b, &starts), LAZYDFA_OK);
    CODE(lazydfa_regex_build(&re, &b, starts, NULL), LAZYDFA_OK);
    CODE(lazydfa_regex_build(&re, &b, starts, NULL), LAZYDFA_OPEN);
    CODE(lazydfa_regex_build(&no_regex, &no_builder, starts, NULL), LAZYDFA_CLOSED);
    CODE(lazydfa_regex_build(&no_regex, (lazydfa_builder *)(void *)&re, starts, NULL), LAZYDFA_KIND);
    CODE(lazydfa_cache_new(&c, &re), LAZYDFA_OK);
    CODE(lazydfa_cache_new(&c, &re), LAZYDFA_OPEN);
    CODE(lazydfa_cache_new(&no_cache, &no_regex), LAZYDFA_CLOSED);
    CODE(lazydfa_cache_new(&no_cache, (lazydfa_regex *)(void *)&b), LAZYDFA_KIND);
    CODE(lazydfa_cache_new(&no_cache, (lazydfa_regex *)(void *)&c), LAZYDFA_KIND);
    CODE(lazydfa_regex_share(NULL, &no_regex), LAZYDFA_ARGUMENT);
    CODE(lazydfa_regex_share(&re, NULL), LAZYDFA_ARGUMENT);
    CODE(lazydfa_regex_share(&re, &re), LAZYDFA_ARGUMENT);
    CODE(lazydfa_regex_share(&no_regex, (lazydfa_regex *)(void *)&no_cache), LAZYDFA_CLOSED);
    CODE(lazydfa_regex_share((lazydfa_regex *)(void *)&b, &no_regex), LAZYDFA_KIND);
    CODE(lazydfa_regex_share((lazydfa_regex *)(void *)&c, &no_regex), LAZYDFA_KIND);
    CODE(lazydfa_regex_share(&re, (lazydfa_regex *)(void *)&b), LAZYDFA_OPEN);
    CODE(lazydfa_regex_share(&no_regex, (lazydfa_regex *)(void *)&b), LAZYDFA_OPEN);
    for (call = 0; call < BUILDER_CALLS; call++) {
        CODE(on_builder(call, NULL), LAZYDFA_ARGUMENT);
        CODE(on_builder(call, &no_builder), LAZYDFA_CLOSED);
        CODE(on_builder(call, (lazydfa_builder *)(void *)&re), LAZYDFA_KIND);
        CODE(on_builder(call, (lazydfa_builder *)(void *)&c), LAZYDFA_KIND);
    }
    for (call = 0; call < CACHE_CALLS; call++) {
        CODE(on_cache(call, NULL, &in), LAZYDFA_ARGUMENT);
        CODE(on_cache(call, &no_cache, &in), LAZYDFA_CLOSED);
        CODE(on_cache(call, (lazydfa_cache *)(void *)&re, &in), LAZYDFA_KIND);
        CODE(on_cache(call, (lazydfa_cache *)(void *)&b, &in), LAZYDFA_KIND);
        CODE(on_cache(call, &c, &in), LAZYDFA_OK);
    }
    CODE(lazydfa_builder_close(&no_builder), LAZYDFA_CLOSED);
    CODE(lazydfa_builder_close(NULL), LAZYDFA_ARGUMENT);
    CODE(lazydfa_regex_close(NULL), LAZYDFA_ARGUMENT);
    CODE(lazydfa_cache_close(NULL), LAZYDFA_ARGUMENT);
    CODE(lazydfa_close(NULL), LAZYDFA_ARGUMENT);
    CODE(lazydfa_close(&no_cache.handle), LAZYDFA_CLOSED);
    CODE(lazydfa_builder_new(NULL), LAZYDFA_ARGUMENT);
    /* a cache keeps its regex alive */
    CODE(lazydfa_regex_close(&re), LAZYDFA_OK);
    CODE(lazydfa_regex_close(&re), LAZYDFA_CLOSED);
    CODE(lazydfa_close(&b.handle), LAZYDFA_OK);
    CODE(on_cache(2, &c, &in), LAZYDFA_OK);
    CODE(lazydfa_close(&c.handle), LAZYDFA_OK);
    CODE(on_cache(2, &c, &in), LAZYDFA_CLOSED);
}

/* ---- Invalid inputs: every search, with each kind of invalid span and mode ---- */

static void inputs(void) {
    static const lazydfa_input bad[] = {
        { 0, 2, 0, 0, 0, 0 },        { 3, 1, 0, 0, 0, 0 },          { 0, SIZE_MAX, 0, 0, 0, 0 },
        { SIZE_MAX, 1, 0, 0, 0, 0 }, { SIZE_MAX, SIZE_MAX, 0, 0, 0, 0 }, { 0, 1, 3, 0, 0, 0 },
        { 0, 1, 0xFFFFFFFFu, 0, 0, 0 }, { 0, 1, 2, 0x7FFFFFFFu, 0, 0 }, { 0, 1, 2, 0xFFFFFFFFu, 0, 0 },
    };
    static const lazydfa_input good[] = {
        { 0, 1, 0, 0xFFFFFFFFu, 9, 9 }, { 0, 0, 1, 0, 0, 0 }, { 1, 1, 0, 0, 0, 0 }, { 2, 1, 1, 0, 1, 0 },
    };
    lazydfa_cache c = LAZYDFA_INIT;
    size_t i;
    int call;
    CODE(open_cache(&c, word, NULL, NULL, 0), LAZYDFA_OK);
    for (call = 2; call < CACHE_CALLS; call++) {
        for (i = 0; i < sizeof bad / sizeof *bad; i++) CODE(on_cache(call, &c, &bad[i]), LAZYDFA_ARGUMENT);
        for (i = 0; i < sizeof good / sizeof *good; i++) {
            uint32_t code = on_cache(call, &c, &good[i]).code;
            CHECK(code == LAZYDFA_OK || code == LAZYDFA_NONE || (call >= 8 && code == LAZYDFA_NO_TOKEN));
        }
    }
    CODE(lazydfa_cache_close(&c), LAZYDFA_OK);
}

/* ---- Invalid numbers: states, patterns and assertions ---- */

static void numbers(void) {
    static const uint32_t bad[] = { 0x7FFFFFFFu, 0x80000000u, 0xFFFFFFFFu };
    lazydfa_builder b = LAZYDFA_INIT;
    lazydfa_regex re = LAZYDFA_INIT;
    lazydfa_edge edge = { 'a', 'z', 0, { 0 } };
    lazydfa_starts starts = { { 0 }, { 0 } };
    lazydfa_state_id id = { 77 }, none, zero = { 0 };
    uint32_t pattern;
    size_t i;
    CODE(lazydfa_builder_new(&b), LAZYDFA_OK);
    CODE(lazydfa_start_pattern(&b, &pattern), LAZYDFA_OK);
    CODE(lazydfa_add_look(&b, 18, zero, &id), LAZYDFA_ARGUMENT);
    for (i = 0; i < sizeof bad / sizeof *bad; i++) {
        none = lazydfa_state(bad[i]);
        CODE(lazydfa_finish_pattern(&b, none, &pattern), LAZYDFA_ARGUMENT);
        CODE(lazydfa_patch(&b, none, zero), LAZYDFA_ARGUMENT);
        CODE(lazydfa_patch(&b, zero, none), LAZYDFA_ARGUMENT);
        CODE(lazydfa_add_range(&b, 'a', 'z', none, &id), LAZYDFA_ARGUMENT);
        edge.next = none;
        CODE(lazydfa_add_sparse(&b, &edge, 1, &id), LAZYDFA_ARGUMENT);
        CODE(lazydfa_add_look(&b, 0, none, &id), LAZYDFA_ARGUMENT);
        CODE(lazydfa_add_look(&b, bad[i], zero, &id), LAZYDFA_ARGUMENT);
        CODE(lazydfa_add_union(&b, &none, 1, &id), LAZYDFA_ARGUMENT);
        CODE(lazydfa_add_union_reverse(&b, &none, 1, &id), LAZYDFA_ARGUMENT);
        CODE(lazydfa_add_capture_start(&b, 0, none, &id), LAZYDFA_ARGUMENT);
        CODE(lazydfa_add_capture_end(&b, 0, none, &id), LAZYDFA_ARGUMENT);
        CODE(lazydfa_add_unanchored_prefix(&b, none, &id), LAZYDFA_ARGUMENT);
        starts.anchored = none;
        CODE(lazydfa_regex_build(&re, &b, starts, NULL), LAZYDFA_ARGUMENT);
        starts.anchored = zero;
        starts.unanchored = none;
        CODE(lazydfa_regex_build(&re, &b, starts, NULL), LAZYDFA_ARGUMENT);
        starts.unanchored = zero;
    }
    /* nothing was added, and nothing written */
    CHECK(id.number == 77);
    CODE(lazydfa_add_fail(&b, &id), LAZYDFA_OK);
    CHECK(id.number == 0);
    CODE(lazydfa_builder_close(&b), LAZYDFA_OK);
}

/* ---- Null pointers: every pointer of every call ---- */

static void null_of_builders(void) {
    lazydfa_builder b = LAZYDFA_INIT;
    lazydfa_regex re = LAZYDFA_INIT;
    lazydfa_starts starts = { { 0 }, { 0 } };
    lazydfa_state_id id, zero = { 0 };
    lazydfa_options no_quits = LAZYDFA_OPTIONS_INIT;
    uint32_t pattern;
    no_quits.quit_count = 1;
    CODE(lazydfa_builder_new(&b), LAZYDFA_OK);
    CODE(lazydfa_start_pattern(&b, NULL), LAZYDFA_ARGUMENT);
    CODE(lazydfa_start_pattern(&b, &pattern), LAZYDFA_OK);
    CODE(lazydfa_finish_pattern(&b, zero, NULL), LAZYDFA_ARGUMENT);
    CODE(lazydfa_add_empty(&b, NULL), LAZYDFA_ARGUMENT);
    CODE(lazydfa_add_range(&b, 'a', 'z', zero, NULL), LAZYDFA_ARGUMENT);
    CODE(lazydfa_add_sparse(&b, NULL, 0, NULL), LAZYDFA_ARGUMENT);
    CODE(lazydfa_add_sparse(&b, NULL, 1, &id), LAZYDFA_ARGUMENT);
    CODE(lazydfa_add_look(&b, 0, zero, NULL), LAZYDFA_ARGUMENT);
    CODE(lazydfa_add_union(&b, NULL, 0, NULL), LAZYDFA_ARGUMENT);
    CODE(lazydfa_add_union(&b, NULL, 1, &id), LAZYDFA_ARGUMENT);
    CODE(lazydfa_add_union_reverse(&b, NULL, 0, NULL), LAZYDFA_ARGUMENT);
    CODE(lazydfa_add_union_reverse(&b, NULL, 1, &id), LAZYDFA_ARGUMENT);
    CODE(lazydfa_add_capture_start(&b, 0, zero, NULL), LAZYDFA_ARGUMENT);
    CODE(lazydfa_add_capture_end(&b, 0, zero, NULL), LAZYDFA_ARGUMENT);
    CODE(lazydfa_add_fail(&b, NULL), LAZYDFA_ARGUMENT);
    CODE(lazydfa_add_match(&b, NULL), LAZYDFA_ARGUMENT);
    CODE(lazydfa_add_unanchored_prefix(&b, zero, NULL), LAZYDFA_ARGUMENT);
    CODE(lazydfa_regex_build(NULL, &b, starts, NULL), LAZYDFA_ARGUMENT);
    CODE(lazydfa_regex_build(&re, NULL, starts, NULL), LAZYDFA_ARGUMENT);
    CODE(lazydfa_regex_build(&re, &b, starts, &no_quits), LAZYDFA_ARGUMENT);
    CODE(lazydfa_regex_build_pair(NULL, &b, starts, &b, starts, NULL), LAZYDFA_ARGUMENT);
    CODE(lazydfa_regex_build_pair(&re, NULL, starts, &b, starts, NULL), LAZYDFA_ARGUMENT);
    CODE(lazydfa_regex_build_pair(&re, &b, starts, NULL, starts, NULL), LAZYDFA_ARGUMENT);
    CODE(lazydfa_regex_build_pair(&re, &b, starts, &b, starts, NULL), LAZYDFA_ARGUMENT);
    /* nothing was added: an empty union is the first state */
    CODE(lazydfa_add_union(&b, NULL, 0, &id), LAZYDFA_OK);
    CHECK(id.number == 0);
    CODE(lazydfa_builder_close(&b), LAZYDFA_OK);
}

/* A call that is not made, and so counts nothing, writes a count of 0. */
#define COUNTS_NONE(call, wanted) do { count = 99; CODE(call, wanted); CHECK(count == 0); } while (0)

static void null_of_searches(void) {
    lazydfa_cache c = LAZYDFA_INIT;
    const uint8_t *hay = bytes("a");
    lazydfa_input in = lazydfa_whole(1);
    lazydfa_iteration at = lazydfa_iterate(in);
    lazydfa_match m;
    lazydfa_half h;
    uint32_t pattern;
    size_t count;
    CODE(open_cache(&c, word, NULL, NULL, 0), LAZYDFA_OK);
    CODE(lazydfa_cache_new(NULL, NULL), LAZYDFA_ARGUMENT);
    CODE(lazydfa_cache_new(&c, NULL), LAZYDFA_ARGUMENT);
    CODE(lazydfa_cache_usage(&c, NULL), LAZYDFA_ARGUMENT);
    CODE(lazydfa_find(&c, NULL, 1, &in, &m), LAZYDFA_ARGUMENT);
    CODE(lazydfa_find(&c, hay, 1, NULL, &m), LAZYDFA_ARGUMENT);
    CODE(lazydfa_find(&c, hay, 1, &in, NULL), LAZYDFA_ARGUMENT);
    CODE(lazydfa_is_match(&c, NULL, 1, &in), LAZYDFA_ARGUMENT);
    CODE(lazydfa_is_match(&c, hay, 1, NULL), LAZYDFA_ARGUMENT);
    CODE(lazydfa_find_end(&c, NULL, 1, &in, &h), LAZYDFA_ARGUMENT);
    CODE(lazydfa_find_end(&c, hay, 1, NULL, &h), LAZYDFA_ARGUMENT);
    CODE(lazydfa_find_end(&c, hay, 1, &in, NULL), LAZYDFA_ARGUMENT);
    CODE(lazydfa_find_start(&c, NULL, 1, &in, &h), LAZYDFA_ARGUMENT);
    CODE(lazydfa_find_start(&c, hay, 1, NULL, &h), LAZYDFA_ARGUMENT);
    CODE(lazydfa_find_start(&c, hay, 1, &in, NULL), LAZYDFA_ARGUMENT);
    CODE(lazydfa_next(&c, NULL, 1, &at, &m), LAZYDFA_ARGUMENT);
    CODE(lazydfa_next(&c, hay, 1, NULL, &m), LAZYDFA_ARGUMENT);
    CODE(lazydfa_next(&c, hay, 1, &at, NULL), LAZYDFA_ARGUMENT);
    COUNTS_NONE(lazydfa_next_all(&c, NULL, 1, &at, &m, 1, &count), LAZYDFA_ARGUMENT);
    COUNTS_NONE(lazydfa_next_all(&c, hay, 1, NULL, &m, 1, &count), LAZYDFA_ARGUMENT);
    COUNTS_NONE(lazydfa_next_all(&c, hay, 1, &at, NULL, 1, &count), LAZYDFA_ARGUMENT);
    CODE(lazydfa_next_all(&c, hay, 1, &at, &m, 1, NULL), LAZYDFA_ARGUMENT);
    CODE(lazydfa_token(&c, NULL, 1, &in, &m), LAZYDFA_ARGUMENT);
    CODE(lazydfa_token(&c, hay, 1, NULL, &m), LAZYDFA_ARGUMENT);
    CODE(lazydfa_token(&c, hay, 1, &in, NULL), LAZYDFA_ARGUMENT);
    COUNTS_NONE(lazydfa_tokens(&c, NULL, 1, &in, &m, 1, &count), LAZYDFA_ARGUMENT);
    COUNTS_NONE(lazydfa_tokens(&c, hay, 1, NULL, &m, 1, &count), LAZYDFA_ARGUMENT);
    COUNTS_NONE(lazydfa_tokens(&c, hay, 1, &in, NULL, 1, &count), LAZYDFA_ARGUMENT);
    CODE(lazydfa_tokens(&c, hay, 1, &in, &m, 1, NULL), LAZYDFA_ARGUMENT);
    COUNTS_NONE(lazydfa_all_ends(&c, NULL, 1, &in, &h, 1, &count), LAZYDFA_ARGUMENT);
    COUNTS_NONE(lazydfa_all_ends(&c, hay, 1, NULL, &h, 1, &count), LAZYDFA_ARGUMENT);
    COUNTS_NONE(lazydfa_all_ends(&c, hay, 1, &in, NULL, 1, &count), LAZYDFA_ARGUMENT);
    CODE(lazydfa_all_ends(&c, hay, 1, &in, &h, 1, NULL), LAZYDFA_ARGUMENT);
    COUNTS_NONE(lazydfa_all_starts(&c, NULL, 1, &in, &h, 1, &count), LAZYDFA_ARGUMENT);
    COUNTS_NONE(lazydfa_all_starts(&c, hay, 1, NULL, &h, 1, &count), LAZYDFA_ARGUMENT);
    COUNTS_NONE(lazydfa_all_starts(&c, hay, 1, &in, NULL, 1, &count), LAZYDFA_ARGUMENT);
    CODE(lazydfa_all_starts(&c, hay, 1, &in, &h, 1, NULL), LAZYDFA_ARGUMENT);
    COUNTS_NONE(lazydfa_which(&c, NULL, 1, &in, 1, &pattern, 1, &count), LAZYDFA_ARGUMENT);
    COUNTS_NONE(lazydfa_which(&c, hay, 1, NULL, 1, &pattern, 1, &count), LAZYDFA_ARGUMENT);
    COUNTS_NONE(lazydfa_which(&c, hay, 1, &in, 1, NULL, 1, &count), LAZYDFA_ARGUMENT);
    CODE(lazydfa_which(&c, hay, 1, &in, 1, &pattern, 1, NULL), LAZYDFA_ARGUMENT);
    CODE(lazydfa_next(&c, hay, 1, &at, &m), LAZYDFA_OK);
    CODE(lazydfa_cache_close(&c), LAZYDFA_OK);
    COUNTS_NONE(lazydfa_next_all(&c, hay, 1, &at, &m, 1, &count), LAZYDFA_CLOSED);
    COUNTS_NONE(lazydfa_tokens(&c, hay, 1, &in, &m, 1, &count), LAZYDFA_CLOSED);
    COUNTS_NONE(lazydfa_all_ends(&c, hay, 1, &in, &h, 1, &count), LAZYDFA_CLOSED);
    COUNTS_NONE(lazydfa_all_starts(&c, hay, 1, &in, &h, 1, &count), LAZYDFA_CLOSED);
    COUNTS_NONE(lazydfa_which(&c, hay, 1, &in, 1, &pattern, 1, &count), LAZYDFA_CLOSED);
}

int main(void) {
    processor();
    searches();
    iterations();
    sets();
    tokens();
    usage();
    quits();
    capacities();
    clears();
    modes();
    builders();
    refusals();
    pairs();
    shares();
    one_start();
    handles();
    inputs();
    numbers();
    null_of_builders();
    null_of_searches();
    return counted();
}
