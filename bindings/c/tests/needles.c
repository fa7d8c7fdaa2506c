/* Regexes of texts whose matches begin with literals, beside the same regexes without needles: a regex with a quit byte
   has none, and no haystack has this byte. Random spans of random haystacks, under both match kinds, and with regexes
   that only search forward. And iterations, which attempt to find a match at once after some matches, beside searches
   for one match after another, which do not: with quit bytes, small caches, regexes of one and of two NFAs, and
   reversed ones too. Prints each check that fails, and how many checks there were. */
#include <stdio.h>
#include <string.h>
#include "check.h"
#include "nfas.h"

/* The texts of some regexes, each of one text or of two. The last ones have no needles. */
static const char *const all[][2] = {
    { "Sherlock Holmes", NULL }, { "Sherlock|Holmes", NULL }, { "https?://[a-z]*", NULL }, { "AKIA|AGPA", NULL },
    { "a", NULL },               { "a+b", NULL },             { "abab", NULL },            { "ab|ac|ad", NULL },
    { "ab*c?", NULL },           { "abc?$", NULL },           { "a(?-u:\\b)", NULL },      { "(?m)^ab", NULL },
    { "\xC3\xA9+", NULL },       { "a.", NULL },              { "(?s)a.*?b", NULL },       { "ab", "ac" },
    { "aba", "b" },              { "http", "https" },         { "Holmes", "Sherlock" },    { "\\nab?", NULL },
    { "ab|ba|http", NULL },      { "(?i)holmes", NULL },      { "abc|cab*", "Holmes|://" }, { "(?i)ab", NULL },
    { "(?:aab|bab|http|AKIA|Sherlock Holmes|:/|\n[ab])c*", NULL },
    { "[a-z]+ock", NULL },       { "[A-Za-z]+ Holmes", NULL }, { ".*http", NULL },          { "(?s:.)*aab.?", NULL },
    { "\\w*(aab)c*", NULL },     { "[^\\s]+://a?", NULL },    { "[a-c]*?aba", NULL },      { "(\\pL+Sherlock)(.*)", NULL },
    { "^ab", NULL },             { "[a-z]+b", NULL },         { "(?:ab)*", NULL },
};

/* More texts. Matches of the first ones begin with one of a few bytes. */
static const char *const more[][2] = {
    { "[a-c]+", NULL },       { "[a-z]+", NULL },       { "[A-Z][a-z]+", NULL },
    { "a|ab|abc", NULL },     { "\\w+", NULL },         { "[ab]c?|http", NULL },
    { "[a-z]+:", NULL },      { "(?:a|b)(?:a|c)", NULL }, { "[^a]b*", NULL },
    { "[a-b]", "[a-c]+" },    { "h[a-z]*?p", NULL },    { "[ab]+(?:c|$)", NULL },
    { "[a-z]*", NULL },       { "b*|a", NULL },         { "[ab]{2,3}?", "[c-z]" },
};

/* Texts with Unicode word boundaries, at which a search stops at a byte that is not ASCII. */
static const char *const words[][2] = {
    { "\\b[a-z]+", NULL }, { "\\Ba", NULL }, { "a|b\\b", NULL }, { "b", "\\Ba" }, { "ab\\b|abab", NULL },
};

/* What haystacks are made of. */
static const char *const parts[] = { "a",  "b",    "c",    "ab",   "aab",      "aba",    " ",       "\n",
                                     "://", "http", "AKIA", "AGPA", "Sherlock", "Holmes", "Sherloc", "\xC3\xA9" };

static uint32_t drawn = 1;

/* Returns the next of some numbers below a bound that look random. */
static size_t below(size_t bound) {
    drawn = drawn * 1664525 + 1013904223;
    return (size_t)(drawn >> 8) % bound;
}

/* Writes a haystack, and returns its length. */
static size_t draw(char *hay) {
    size_t length = 0, count = below(24);
    while (count--) {
        const char *part = parts[below(sizeof parts / sizeof *parts)];
        memcpy(hay + length, part, strlen(part));
        length += strlen(part);
    }
    return length;
}

static int same_match(const lazydfa_match *a, const lazydfa_match *b) {
    return a->start == b->start && a->end == b->end && a->pattern == b->pattern;
}

/* Builds the regex of one text or of two, which has no needles if there is a quit byte. */
static void build(lazydfa_regex *regex, const char *const *texts, const lazydfa_options *options) {
    lazydfa_text given[2] = { { texts[0], strlen(texts[0]) }, { texts[1], texts[1] ? strlen(texts[1]) : 0 } };
    CODE(lazydfa_regex_any_of(regex, given, texts[1] ? 2 : 1, options, NULL), LAZYDFA_OK);
}

/* Opens a cache of a regex, which has no needles if there is a quit byte. */
static void open(lazydfa_cache *cache, const char *const *texts, uint32_t kind, uint32_t forward_only,
                 size_t quit_count) {
    static const uint8_t quit = 0xFF;
    lazydfa_regex regex = LAZYDFA_INIT;
    lazydfa_options options = LAZYDFA_OPTIONS_INIT;
    options.match_kind = kind;
    options.forward_only = forward_only;
    options.quits = &quit;
    options.quit_count = quit_count;
    build(&regex, texts, &options);
    CODE(lazydfa_cache_new(cache, &regex), LAZYDFA_OK);
    CODE(lazydfa_regex_close(&regex), LAZYDFA_OK);
}

/* Makes each search of an input with both caches. */
static void compare(lazydfa_cache *c, const char *hay, size_t length, const lazydfa_input *in) {
    lazydfa_status status[2];
    lazydfa_match match[2];
    lazydfa_half half[2];
    int i;
    memset(match, 0, sizeof match);
    memset(half, 0, sizeof half);
    for (i = 0; i < 2; i++) status[i] = lazydfa_find(&c[i], bytes(hay), length, in, &match[i]);
    CHECK(status[0].code == status[1].code && same_match(&match[0], &match[1]));
    for (i = 0; i < 2; i++) status[i] = lazydfa_is_match(&c[i], bytes(hay), length, in);
    CHECK(status[0].code == status[1].code);
    for (i = 0; i < 2; i++) status[i] = lazydfa_find_end(&c[i], bytes(hay), length, in, &half[i]);
    CHECK(status[0].code == status[1].code);
    CHECK(half[0].offset == half[1].offset && half[0].pattern == half[1].pattern);
}

/* Iterates over the matches of an input with both caches. */
static void iterate(lazydfa_cache *c, const char *hay, size_t length, const lazydfa_input *in) {
    lazydfa_iteration at[2];
    lazydfa_status status[2];
    lazydfa_match match[2];
    size_t count = 0;
    int i;
    at[0] = at[1] = lazydfa_iterate(*in);
    do {
        memset(match, 0, sizeof match);
        for (i = 0; i < 2; i++) status[i] = lazydfa_next(&c[i], bytes(hay), length, &at[i], &match[i]);
        CHECK(status[0].code == status[1].code && same_match(&match[0], &match[1]));
        CHECK(at[0].ended == at[1].ended && at[0].has_last == at[1].has_last && at[0].last == at[1].last);
        CHECK(at[0].left.start == at[1].left.start);
    } while (status[0].code == LAZYDFA_OK && status[1].code == LAZYDFA_OK && count++ <= length);
    CHECK(status[0].code != LAZYDFA_OK);
}

/* Compares a regex with the one without needles, over random spans. */
static void beside(const char *const *texts, uint32_t kind, uint32_t forward_only) {
    lazydfa_cache c[2] = { LAZYDFA_INIT, LAZYDFA_INIT };
    char hay[200];
    size_t length, round;
    open(&c[0], texts, kind, forward_only, 0);
    open(&c[1], texts, kind, forward_only, 1);
    for (round = 0; round < 300; round++) {
        lazydfa_input in = lazydfa_whole(length = draw(hay));
        if (below(2)) in.end = below(length + 1);
        if (below(2)) in.start = below(in.end + 2);
        in.anchored = below(4) ? LAZYDFA_UNANCHORED : LAZYDFA_ANCHORED_YES;
        in.earliest = below(4) == 0;
        compare(c, hay, length, &in);
        iterate(c, hay, length, &in);
    }
    CODE(lazydfa_cache_close(&c[0]), LAZYDFA_OK);
    CODE(lazydfa_cache_close(&c[1]), LAZYDFA_OK);
}

/* Finds the next match of an iteration by `lazydfa_find`: from the end of the last match on, or from one byte later if
   there is an empty match. */
static lazydfa_status find_next(lazydfa_cache *c, const char *hay, size_t length, lazydfa_iteration *at,
                                lazydfa_match *match) {
    lazydfa_input in = at->left;
    lazydfa_status status = lazydfa_find(c, bytes(hay), length, &in, match);
    if (status.code == LAZYDFA_OK && match->start == match->end && at->has_last && at->last == match->end) {
        in.start++;
        status = lazydfa_find(c, bytes(hay), length, &in, match);
    }
    if (status.code == LAZYDFA_OK) {
        at->left.start = at->last = match->end;
        at->has_last = 1;
    } else {
        at->ended = 1;
    }
    return status;
}

/* Iterates over the matches of an input with one cache, and finds one after another with the other. */
static void find_each(lazydfa_cache *c, const char *hay, size_t length, const lazydfa_input *in) {
    lazydfa_iteration at[2];
    lazydfa_status status[2];
    lazydfa_match match[2];
    size_t count = 0;
    at[0] = at[1] = lazydfa_iterate(*in);
    do {
        status[0] = lazydfa_next(&c[0], bytes(hay), length, &at[0], &match[0]);
        status[1] = find_next(&c[1], hay, length, &at[1], &match[1]);
        CHECK(status[0].code == status[1].code && status[0].offset == status[1].offset);
        CHECK(status[0].code != LAZYDFA_OK || same_match(&match[0], &match[1]));
        CHECK(at[0].ended == at[1].ended && at[0].last == at[1].last && at[0].left.start == at[1].left.start);
    } while (status[0].code == LAZYDFA_OK && status[1].code == LAZYDFA_OK && count++ <= length);
    CHECK(status[0].code != LAZYDFA_OK);
}

/* Iterates over the matches of random spans with two new caches of a regex, which is closed. */
static void in_turn(lazydfa_regex *regex) {
    lazydfa_cache c[2] = { LAZYDFA_INIT, LAZYDFA_INIT };
    char hay[200];
    size_t length, round;
    CODE(lazydfa_cache_new(&c[0], regex), LAZYDFA_OK);
    CODE(lazydfa_cache_new(&c[1], regex), LAZYDFA_OK);
    CODE(lazydfa_regex_close(regex), LAZYDFA_OK);
    for (round = 0; round < 150; round++) {
        lazydfa_input in = lazydfa_whole(length = draw(hay));
        if (below(4) == 0) in.end = below(length + 1);
        if (below(4) == 0) in.start = below(in.end + 2);
        in.anchored = below(8) ? LAZYDFA_UNANCHORED : LAZYDFA_ANCHORED_YES;
        in.earliest = below(8) == 0;
        find_each(c, hay, length, &in);
    }
    CODE(lazydfa_cache_close(&c[0]), LAZYDFA_OK);
    CODE(lazydfa_cache_close(&c[1]), LAZYDFA_OK);
}

/* Iterations with regexes of texts: with a quit byte that haystacks have or not, and with small caches or not. */
static void texts_in_turn(const char *const *texts, uint32_t kind, uint32_t forward_only, uint32_t word_boundary) {
    static const uint8_t quit = 'c';
    lazydfa_regex regex = LAZYDFA_INIT, back = LAZYDFA_INIT;
    lazydfa_options options = LAZYDFA_OPTIONS_INIT;
    uint32_t small;
    options.match_kind = kind;
    options.forward_only = forward_only;
    options.unicode_word_boundary = word_boundary;
    options.skip_cache_capacity_check = 1;
    options.quits = &quit;
    for (options.quit_count = 0; options.quit_count < 2; options.quit_count++) {
        for (small = 0; small < 2; small++) {
            options.zeros = small ? LAZYDFA_ZERO_CACHE_CAPACITY : 0;
            build(&regex, texts, &options);
            if (!forward_only && !options.quit_count) {
                CODE(lazydfa_regex_reverse(&regex, &back), LAZYDFA_OK);
                in_turn(&back);
            }
            in_turn(&regex);
        }
    }
}

/* Iterations with regexes of one NFA, and of two of them, which belong together or not. */
static void nfas_in_turn(void) {
    static make_nfa *const made_by[] = { word, two, many, date };
    size_t count = sizeof made_by / sizeof *made_by, i, j;
    for (i = 0; i < count; i++) {
        for (j = 0; j <= count; j++) {
            lazydfa_builder b[2] = { LAZYDFA_INIT, LAZYDFA_INIT };
            lazydfa_starts starts[2];
            lazydfa_regex regex = LAZYDFA_INIT;
            lazydfa_status status;
            CODE(lazydfa_builder_new(&b[0]), LAZYDFA_OK);
            CODE(lazydfa_builder_new(&b[1]), LAZYDFA_OK);
            CODE(made_by[i](&b[0], &starts[0]), LAZYDFA_OK);
            CODE(made_by[j < count ? j : i](&b[1], &starts[1]), LAZYDFA_OK);
            status = j < count ? lazydfa_regex_build_pair(&regex, &b[0], starts[0], &b[1], starts[1], NULL)
                               : lazydfa_regex_build(&regex, &b[0], starts[0], NULL);
            CHECK(status.code == LAZYDFA_OK || status.code == LAZYDFA_PATTERN_COUNTS);
            if (status.code == LAZYDFA_OK) in_turn(&regex);
            CODE(lazydfa_builder_close(&b[0]), LAZYDFA_OK);
            CODE(lazydfa_builder_close(&b[1]), LAZYDFA_OK);
        }
    }
}

/* A search reads no more than the span and a needle that begins in it, and what looks look at. */
static void ends_early(void) {
    static const char *const texts[2] = { "abc", NULL };
    lazydfa_cache c = LAZYDFA_INIT;
    lazydfa_input in = lazydfa_whole(2);
    lazydfa_match match;
    open(&c, texts, 0, 0, 0);
    CODE(lazydfa_find(&c, bytes("-abc"), 4, &in, &match), LAZYDFA_NONE);
    in.end = 4;
    CODE(lazydfa_find(&c, bytes("-abc"), 4, &in, &match), LAZYDFA_OK);
    CHECK(match.start == 1 && match.end == 4);
    CODE(lazydfa_cache_close(&c), LAZYDFA_OK);
}

int main(void) {
    size_t i, count = sizeof all / sizeof *all;
    uint32_t kind, forward_only;
    for (i = 0; i < count + sizeof more / sizeof *more; i++) {
        const char *const *texts = i < count ? all[i] : more[i - count];
        for (kind = LAZYDFA_LEFTMOST_FIRST; kind <= LAZYDFA_ALL; kind++) {
            for (forward_only = 0; forward_only < 2; forward_only++) {
                beside(texts, kind, forward_only);
                texts_in_turn(texts, kind, forward_only, 0);
            }
        }
    }
    for (i = 0; i < sizeof words / sizeof *words; i++)
        for (forward_only = 0; forward_only < 2; forward_only++)
            texts_in_turn(words[i], LAZYDFA_LEFTMOST_FIRST, forward_only, 1);
    nfas_in_turn();
    ends_early();
    return counted();
}
