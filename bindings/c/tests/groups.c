/* Makes the calls for groups, with valid and with every kind of invalid arguments. The expected spans are those that
   Rust's regex crate reports. Prints each check that fails, and how many checks there were. */
#include <stdio.h>
#include <stdlib.h>
#include <string.h>
#include "check.h"
#include "nfas.h"

enum { ROOM = 20 };

static const lazydfa_span nothing = { 7, 9 };

/* Opens a cache of a regex of one pattern, or of two, for groups; the regex too, unless that is NULL. */
static void open_groups(lazydfa_cache *cache, lazydfa_regex *regex, const char *first, const char *second) {
    lazydfa_text texts[2];
    lazydfa_options options = LAZYDFA_OPTIONS_INIT;
    lazydfa_regex mine = LAZYDFA_INIT;
    options.groups = 5;
    texts[0].text = first;
    texts[0].length = strlen(first);
    texts[1].text = second;
    texts[1].length = second ? strlen(second) : 0;
    if (!regex) regex = &mine;
    CODE(lazydfa_regex_any_of(regex, texts, second ? 2 : 1, &options, NULL), LAZYDFA_OK);
    CODE(lazydfa_cache_new(cache, regex), LAZYDFA_OK);
    if (regex == &mine) CODE(lazydfa_regex_close(&mine), LAZYDFA_OK);
}

/* Appends the spans of groups, from group 0 on, or a '-' for a group that took no part. */
static char *show(char *at, const lazydfa_span *groups, size_t count) {
    size_t i;
    for (i = 0; i < count; i++)
        if (groups[i].start == LAZYDFA_NO_OFFSET && groups[i].end == LAZYDFA_NO_OFFSET) at += sprintf(at, " -");
        else at += sprintf(at, " %lu..%lu", (unsigned long)groups[i].start, (unsigned long)groups[i].end);
    return at;
}

/* Returns the matches of an iteration, each with its pattern and its groups. */
static const char *matches(const char *first, const char *second, const char *hay) {
    static char out[1024];
    char *at = out;
    lazydfa_cache cache = LAZYDFA_INIT;
    lazydfa_iteration left = lazydfa_iterate(lazydfa_whole(strlen(hay)));
    lazydfa_match match;
    lazydfa_span groups[ROOM];
    size_t i, count;
    open_groups(&cache, NULL, first, second);
    *at = 0;
    while (lazydfa_next(&cache, bytes(hay), strlen(hay), &left, &match).code == LAZYDFA_OK) {
        for (i = 0; i < ROOM; i++) groups[i] = nothing;
        count = 99;
        CODE(lazydfa_groups(&cache, bytes(hay), strlen(hay), &match, groups, ROOM, &count), LAZYDFA_OK);
        CHECK(count <= ROOM && groups[0].start == match.start && groups[0].end == match.end);
        for (i = count; i < ROOM; i++) CHECK(groups[i].start == nothing.start && groups[i].end == nothing.end);
        at = show(at + sprintf(at, "%s%u:", at == out ? "" : ", ", (unsigned)match.pattern), groups, count);
    }
    CODE(lazydfa_cache_close(&cache), LAZYDFA_OK);
    return out;
}

#define FINDS(first, second, hay, wanted)                                                \
    do {                                                                                 \
        const char *is_ = matches(first, second, hay);                                   \
        CHECK(!strcmp(is_, wanted) || (printf("%s in %s: %s\n", first, hay, is_), 0));   \
    } while (0)

static void spans(void) {
    FINDS("(a)(b)?", NULL, "xac ab", "0: 1..2 1..2 -, 0: 4..6 4..5 5..6");
    FINDS("(?:(a)|b)*", NULL, "ab", "0: 0..2 0..1");
    FINDS("((a)|(b))+", NULL, "ab", "0: 0..2 1..2 0..1 1..2");
    FINDS("(a|ab)(c|bcd)(d*)", NULL, "abcd", "0: 0..4 0..1 1..4 4..4");
    FINDS("(a*?)(a*)", NULL, "aaa", "0: 0..3 0..0 0..3");
    FINDS("(a*)(a*?)", NULL, "aaa", "0: 0..3 0..3 3..3");
    FINDS("()", NULL, "a", "0: 0..0 0..0, 0: 1..1 1..1");
    FINDS("a", NULL, "a a", "0: 0..1, 0: 2..3");
    FINDS("(?P<y>\\d{4})-(?P<m>\\d\\d)", NULL, "\xC3\xA9 2026-11", "0: 3..10 3..7 8..10");
    FINDS("(?i)(\xC3\x89)+", NULL, "\xC3\xA9\xC3\x89", "0: 0..4 2..4");
    FINDS("^(a)$|(b)", NULL, "ab", "0: 1..2 - 1..2");
    FINDS("(x)?", NULL, "\xC3\xA9x", "0: 0..0 -, 0: 2..3 2..3");
    FINDS("a(b)", "(x)(?P<last>y)?", "xy ab x", "1: 0..2 0..1 1..2, 0: 3..5 4..5, 1: 6..7 6..7 -");
    FINDS("(a)(b)(c)", "(a)", "abd", "1: 0..1 0..1");
}

/* As many spans are written as there is room for, and all are counted. */
static void rooms(void) {
    lazydfa_cache cache = LAZYDFA_INIT;
    lazydfa_input input = lazydfa_whole(5);
    lazydfa_match match;
    lazydfa_span groups[4];
    size_t room, i, count;
    open_groups(&cache, NULL, "(\\w)(x)?(\\w)", NULL);
    CODE(lazydfa_find(&cache, bytes("- ab "), 5, &input, &match), LAZYDFA_OK);
    for (room = 0; room <= 4; room++) {
        for (i = 0; i < 4; i++) groups[i] = nothing;
        count = 99;
        CODE(lazydfa_groups(&cache, bytes("- ab "), 5, &match, room ? groups : NULL, room, &count), LAZYDFA_OK);
        CHECK(count == 4);
        CHECK(room < 1 || (groups[0].start == 2 && groups[0].end == 4));
        CHECK(room < 2 || (groups[1].start == 2 && groups[1].end == 3));
        CHECK(room < 3 || (groups[2].start == SIZE_MAX && groups[2].end == SIZE_MAX));
        CHECK(room < 4 || (groups[3].start == 3 && groups[3].end == 4));
        for (i = room; i < 4; i++) CHECK(groups[i].start == nothing.start && groups[i].end == nothing.end);
    }
    CODE(lazydfa_cache_close(&cache), LAZYDFA_OK);
}

/* Matches of anchored searches and of tokens, and those of a span that ends before the haystack does. */
static void searches(void) {
    lazydfa_cache cache = LAZYDFA_INIT;
    lazydfa_input input = lazydfa_whole(4);
    lazydfa_match match;
    lazydfa_span groups[3];
    size_t count;
    open_groups(&cache, NULL, "(a+)(b?)", "(b)");
    input.anchored = LAZYDFA_ANCHORED_YES;
    input.start = 1;
    CODE(lazydfa_find(&cache, bytes("aaab"), 4, &input, &match), LAZYDFA_OK);
    CODE(lazydfa_groups(&cache, bytes("aaab"), 4, &match, groups, 3, &count), LAZYDFA_OK);
    CHECK(count == 3 && groups[0].start == 1 && groups[1].end == 3 && groups[2].end == 4);
    input.end = 2;
    CODE(lazydfa_find(&cache, bytes("aaab"), 4, &input, &match), LAZYDFA_OK);
    CODE(lazydfa_groups(&cache, bytes("aaab"), 4, &match, groups, 3, &count), LAZYDFA_OK);
    CHECK(count == 3 && groups[1].start == 1 && groups[1].end == 2 && groups[2].start == 2 && groups[2].end == 2);
    input = lazydfa_whole(4);
    input.start = 3;
    CODE(lazydfa_token(&cache, bytes("aaab"), 4, &input, &match), LAZYDFA_OK);
    CODE(lazydfa_groups(&cache, bytes("aaab"), 4, &match, groups, 3, &count), LAZYDFA_OK);
    CHECK(match.pattern == 1 && count == 2 && groups[1].start == 3 && groups[1].end == 4);
    CODE(lazydfa_cache_reset(&cache), LAZYDFA_OK);
    CODE(lazydfa_groups(&cache, bytes("aaab"), 4, &match, groups, 3, &count), LAZYDFA_OK);
    CHECK(count == 2 && groups[1].start == 3 && groups[1].end == 4);
    CODE(lazydfa_cache_close(&cache), LAZYDFA_OK);
}

/* Whatever the match is, the spans lie within it; if it does not lie in the haystack, or no pattern has its number,
   nothing is written. */
static void any_match(void) {
    static const uint32_t patterns[] = { 0, 1, 2, 0x7FFFFFFEu, 0x7FFFFFFFu, 0xFFFFFFFFu };
    const char *hay = "aabab\xC3\xA9";
    lazydfa_cache cache = LAZYDFA_INIT;
    lazydfa_match match = { 0, 0, 0, 77 };
    lazydfa_span groups[4];
    size_t i, k, count;
    open_groups(&cache, NULL, "(a+)((b)|a)", "(.)?$");
    for (match.start = 0; match.start < 9; match.start++)
        for (match.end = 0; match.end < 9; match.end++)
            for (i = 0; i < 6; i++) {
                int is_match = match.start <= match.end && match.end <= 7 && patterns[i] < 2;
                match.pattern = patterns[i];
                for (k = 0; k < 4; k++) groups[k] = nothing;
                count = 99;
                CODE(lazydfa_groups(&cache, bytes(hay), 7, &match, groups, 4, &count),
                     is_match ? LAZYDFA_OK : LAZYDFA_ARGUMENT);
                CHECK(count == (is_match ? 4 - 2 * patterns[i] : 0));
                for (k = 0; k < count; k++) {
                    int is_none = groups[k].start == SIZE_MAX && groups[k].end == SIZE_MAX;
                    CHECK(is_none || (match.start <= groups[k].start && groups[k].start <= groups[k].end
                                      && groups[k].end <= match.end));
                }
                for (k = count; k < 4; k++) CHECK(groups[k].start == nothing.start && groups[k].end == nothing.end);
            }
    match.start = SIZE_MAX;
    match.end = SIZE_MAX;
    match.pattern = 0;
    CODE(lazydfa_groups(&cache, bytes(hay), 7, &match, groups, 4, &count), LAZYDFA_ARGUMENT);
    CODE(lazydfa_cache_close(&cache), LAZYDFA_OK);
}

static void names(void) {
    lazydfa_regex regex = LAZYDFA_INIT;
    lazydfa_cache cache = LAZYDFA_INIT;
    char name[8];
    size_t i, room, count = 99, length = 99;
    open_groups(&cache, &regex, "(?P<caf\xC3\xA9>a)(b)(?<x>c)", "d");
    CODE(lazydfa_group_count(&regex, 0, &count), LAZYDFA_OK);
    CHECK(count == 4);
    CODE(lazydfa_group_count(&regex, 1, &count), LAZYDFA_OK);
    CHECK(count == 1);
    CODE(lazydfa_group_index(&regex, 0, "x", 1, &count), LAZYDFA_OK);
    CHECK(count == 3);
    CODE(lazydfa_group_index(&regex, 0, "caf\xC3\xA9", 5, &count), LAZYDFA_OK);
    CHECK(count == 1);
    count = 99;
    CODE(lazydfa_group_index(&regex, 0, "caf\xC3", 4, &count), LAZYDFA_NOT_TEXT);
    CHECK(lazydfa_group_index(&regex, 0, "caf\xC3", 4, &count).offset == 3);
    CODE(lazydfa_group_index(&regex, 0, "caf", 3, &count), LAZYDFA_NONE);
    CODE(lazydfa_group_index(&regex, 0, NULL, 0, &count), LAZYDFA_NONE);
    CODE(lazydfa_group_index(&regex, 1, "x", 1, &count), LAZYDFA_NONE);
    CHECK(count == 99);
    for (room = 0; room <= 8; room++) {
        static const size_t whole[] = { 0, 0, 1, 2, 3, 3, 5, 5, 5 };
        memset(name, '#', sizeof name);
        length = 99;
        CODE(lazydfa_group_name(&regex, 0, 1, room ? name : NULL, room, &length), LAZYDFA_OK);
        CHECK(length == 5 && !memcmp(name, "caf\xC3\xA9", whole[room]));
        CHECK(!room || name[whole[room]] == 0);
        for (i = room ? whole[room] + 1 : 0; i < sizeof name; i++) CHECK(name[i] == '#');
    }
    length = 99;
    memset(name, '#', sizeof name);
    CODE(lazydfa_group_name(&regex, 0, 0, name, 8, &length), LAZYDFA_NONE);
    CODE(lazydfa_group_name(&regex, 0, 2, name, 8, &length), LAZYDFA_NONE);
    CODE(lazydfa_group_name(&regex, 1, 0, name, 8, &length), LAZYDFA_NONE);
    CODE(lazydfa_group_name(&regex, 0, 4, name, 8, &length), LAZYDFA_ARGUMENT);
    CODE(lazydfa_group_name(&regex, 0, SIZE_MAX, name, 8, &length), LAZYDFA_ARGUMENT);
    CHECK(length == 99 && *name == '#');
    CODE(lazydfa_regex_close(&regex), LAZYDFA_OK);
    CODE(lazydfa_cache_close(&cache), LAZYDFA_OK);
}

/* Calls for names: of a handle, of a pattern, with these pointers. */
static lazydfa_status on_regex(int call, lazydfa_regex *regex, uint32_t pattern) {
    char name[4] = "#";
    size_t number = 99;
    lazydfa_status status;
    switch (call) {
    case 0: status = lazydfa_group_count(regex, pattern, &number); break;
    case 1: status = lazydfa_group_index(regex, pattern, "x", 1, &number); break;
    default: status = lazydfa_group_name(regex, pattern, 1, name, 4, &number);
    }
    CHECK((status.code == LAZYDFA_OK) == (number != 99) && (number != 99 || *name == '#'));
    return status;
}

static void refusals(void) {
    static const uint32_t none[] = { 1, 0x7FFFFFFEu, 0x7FFFFFFFu, 0xFFFFFFFFu };
    lazydfa_regex regex = LAZYDFA_INIT, plain = LAZYDFA_INIT, other = LAZYDFA_INIT, closed = LAZYDFA_INIT;
    lazydfa_cache cache = LAZYDFA_INIT, without = LAZYDFA_INIT, ended = LAZYDFA_INIT;
    lazydfa_builder builder = LAZYDFA_INIT;
    lazydfa_match match = { 0, 1, 0, 0 };
    lazydfa_span group = { 7, 9 };
    size_t i, count = 99;
    int call;
    open_groups(&cache, &regex, "(?P<x>a)", NULL);
    CODE(lazydfa_builder_new(&builder), LAZYDFA_OK);
    CODE(lazydfa_regex_new(&plain, "(?P<x>a)", 8, NULL, NULL), LAZYDFA_OK);
    CODE(lazydfa_cache_new(&without, &plain), LAZYDFA_OK);
    for (call = 0; call < 3; call++) {
        CODE(on_regex(call, NULL, 0), LAZYDFA_ARGUMENT);
        CODE(on_regex(call, &closed, 0), LAZYDFA_CLOSED);
        CODE(on_regex(call, (lazydfa_regex *)(void *)&cache, 0), LAZYDFA_KIND);
        CODE(on_regex(call, (lazydfa_regex *)(void *)&builder, 0), LAZYDFA_KIND);
        CODE(on_regex(call, &plain, 0), LAZYDFA_NO_GROUPS);
        CODE(on_regex(call, &plain, 9), LAZYDFA_NO_GROUPS);
        CODE(on_regex(call, &regex, 0), LAZYDFA_OK);
        for (i = 0; i < 4; i++) CODE(on_regex(call, &regex, none[i]), LAZYDFA_ARGUMENT);
    }
    CODE(lazydfa_group_count(&regex, 0, NULL), LAZYDFA_ARGUMENT);
    CODE(lazydfa_group_index(&regex, 0, NULL, 1, &count), LAZYDFA_ARGUMENT);
    CODE(lazydfa_group_index(&regex, 0, "x", 1, NULL), LAZYDFA_ARGUMENT);
    CODE(lazydfa_group_name(&regex, 0, 1, NULL, 1, &count), LAZYDFA_ARGUMENT);
    CODE(lazydfa_group_name(&regex, 0, 1, NULL, 0, NULL), LAZYDFA_ARGUMENT);
    CHECK(count == 99);
#define COUNTS_NONE(call, wanted)                                                \
    do {                                                                         \
        count = 99;                                                              \
        CODE(call, wanted);                                                      \
        CHECK(count == 0 && group.start == 7 && group.end == 9);                 \
    } while (0)
    COUNTS_NONE(lazydfa_groups(NULL, bytes("a"), 1, &match, &group, 1, &count), LAZYDFA_ARGUMENT);
    COUNTS_NONE(lazydfa_groups(&cache, NULL, 1, &match, &group, 1, &count), LAZYDFA_ARGUMENT);
    COUNTS_NONE(lazydfa_groups(&cache, bytes("a"), 1, NULL, &group, 1, &count), LAZYDFA_ARGUMENT);
    COUNTS_NONE(lazydfa_groups(&cache, bytes("a"), 1, &match, NULL, 1, &count), LAZYDFA_ARGUMENT);
    CODE(lazydfa_groups(&cache, bytes("a"), 1, &match, &group, 1, NULL), LAZYDFA_ARGUMENT);
    COUNTS_NONE(lazydfa_groups(&ended, bytes("a"), 1, &match, &group, 1, &count), LAZYDFA_CLOSED);
    COUNTS_NONE(lazydfa_groups((lazydfa_cache *)(void *)&regex, bytes("a"), 1, &match, &group, 1, &count), LAZYDFA_KIND);
    COUNTS_NONE(lazydfa_groups((lazydfa_cache *)(void *)&builder, bytes("a"), 1, &match, &group, 1, &count),
                LAZYDFA_KIND);
    COUNTS_NONE(lazydfa_groups(&without, bytes("a"), 1, &match, &group, 1, &count), LAZYDFA_NO_GROUPS);
    COUNTS_NONE(lazydfa_groups(&cache, NULL, 0, &match, &group, 1, &count), LAZYDFA_ARGUMENT);
    CODE(lazydfa_groups(&cache, bytes("a"), 1, &match, &group, 1, &count), LAZYDFA_OK);
    /* the regex of a reversed one, and of an NFA, has no groups; that of a shared one has */
    CODE(lazydfa_regex_reverse(&regex, &other), LAZYDFA_OK);
    CODE(on_regex(0, &other, 0), LAZYDFA_NO_GROUPS);
    CODE(lazydfa_regex_close(&other), LAZYDFA_OK);
    CODE(lazydfa_regex_share(&regex, &other), LAZYDFA_OK);
    CODE(on_regex(0, &other, 0), LAZYDFA_OK);
    CODE(lazydfa_regex_close(&other), LAZYDFA_OK);
    CODE(lazydfa_regex_close(&regex), LAZYDFA_OK);
    CODE(lazydfa_regex_close(&plain), LAZYDFA_OK);
    CODE(lazydfa_builder_close(&builder), LAZYDFA_OK);
    CODE(lazydfa_cache_close(&cache), LAZYDFA_OK);
    CODE(lazydfa_cache_close(&without), LAZYDFA_OK);
}

/* The option is ignored for the regex of an NFA. */
static void nfas(void) {
    lazydfa_options options = LAZYDFA_OPTIONS_INIT;
    lazydfa_cache cache = LAZYDFA_INIT;
    lazydfa_match match = { 0, 1, 0, 0 };
    lazydfa_span group;
    size_t count;
    options.groups = 1;
    CODE(open_cache(&cache, word, &options, NULL, 0), LAZYDFA_OK);
    CODE(lazydfa_groups(&cache, bytes("a"), 1, &match, &group, 1, &count), LAZYDFA_NO_GROUPS);
    CODE(lazydfa_cache_close(&cache), LAZYDFA_OK);
}

/* The errors of texts are those of a regex without groups. */
static void texts(void) {
    static const char *const patterns[] = { "a(b", "(?P<x>a)(?P<x>b)", "(a{1000}){1000}", "\\bx", "\xFF", "(a)" };
    size_t i;
    for (i = 0; i < sizeof patterns / sizeof *patterns; i++) {
        lazydfa_options options = LAZYDFA_OPTIONS_INIT;
        lazydfa_regex regex = LAZYDFA_INIT;
        lazydfa_error error[2] = { LAZYDFA_ERROR_INIT, LAZYDFA_ERROR_INIT };
        lazydfa_status status = lazydfa_regex_new(&regex, patterns[i], strlen(patterns[i]), &options, &error[0]);
        CODE(lazydfa_regex_close(&regex), status.code ? LAZYDFA_CLOSED : LAZYDFA_OK);
        options.groups = 1;
        CODE(lazydfa_regex_new(&regex, patterns[i], strlen(patterns[i]), &options, &error[1]), status.code);
        CHECK(!memcmp(&error[0], &error[1], sizeof error[0]) || (printf("%s\n", error[1].message), 0));
        CODE(lazydfa_regex_close(&regex), status.code ? LAZYDFA_CLOSED : LAZYDFA_OK);
    }
}

int main(void) {
    spans();
    rooms();
    searches();
    any_match();
    names();
    refusals();
    nfas();
    texts();
    return counted();
}
