/* Walks over a haystack in pieces: every call, with valid and with every kind of invalid arguments; rows whose matches
   grep reports; and random cuts of random texts, which must give all ends and the set of patterns of the whole text,
   with other searches, clears and resets of the cache between the pieces. Prints each check that fails, and how many
   checks there were. */
#include <stdio.h>
#include <string.h>
#include "check.h"
#include "nfas.h"

/* Checks that a call stops where patterns match, after it has read this many bytes. */
#define STOPS(call, bytes_read, at, which)                                                         \
    do {                                                                                           \
        memset(&stop, 0xa5, sizeof stop);                                                          \
        CODE(call, LAZYDFA_OK);                                                                    \
        CHECK(stop.read == (bytes_read) && stop.offset == (at));                                   \
        CHECK(lists(&c, stop.patterns, which));                                                    \
    } while (0)

/* Checks that a call stops at no match, after it has read this many bytes. */
#define PASSES(call, bytes_read)                                                                   \
    do {                                                                                           \
        memset(&stop, 0xa5, sizeof stop);                                                          \
        CODE(call, LAZYDFA_NONE);                                                                  \
        CHECK(stop.read == (bytes_read) && lists(&c, stop.patterns, 0));                           \
    } while (0)

/* Checks the error of a call, with its byte and its offset, and that the written position is all zeros. */
#define FAILS(call, error, what, at)                                                               \
    do {                                                                                           \
        lazydfa_status status_;                                                                    \
        memset(&stop, 0xa5, sizeof stop);                                                          \
        status_ = (call);                                                                          \
        CHECK(status_.code == (error) && status_.byte == (what) && status_.offset == (at));        \
        CHECK(stop.read == 0 && stop.offset == 0 && stop.patterns == 0);                           \
    } while (0)

#define READ(text) lazydfa_walk_read(&c, bytes(text), strlen(text), &stop)
#define END(ahead) lazydfa_walk_end(&c, ahead, &stop)

/* Returns the patterns that the walk of a cache lists, as bits, if there are `count` of them and no two are equal. */
static uint32_t listed(lazydfa_cache *cache, size_t count) {
    uint32_t set = 0, pattern;
    size_t i;
    for (i = 0; i < count; i++) {
        pattern = 99;
        CODE(lazydfa_walk_pattern(cache, i, &pattern), LAZYDFA_OK);
        CHECK(pattern < 32 && !(set >> pattern & 1));
        set |= 1u << (pattern & 31);
    }
    pattern = 99;
    CODE(lazydfa_walk_pattern(cache, count, &pattern), LAZYDFA_ARGUMENT);
    CODE(lazydfa_walk_pattern(cache, SIZE_MAX, &pattern), LAZYDFA_ARGUMENT);
    CHECK(pattern == 99);
    return set;
}

static int lists(lazydfa_cache *cache, size_t count, uint32_t which) { return listed(cache, count) == which; }

/* Opens a cache of patterns' texts, with the option `bytes`, so that empty matches are not skipped. All matches are
   reported. */
static void open_texts(lazydfa_cache *cache, const char *const *patterns, lazydfa_options options, const char *quits) {
    lazydfa_regex regex = LAZYDFA_INIT;
    lazydfa_text texts[8];
    size_t count;
    options.bytes = options.no_unicode = 1;
    options.match_kind = LAZYDFA_ALL;
    options.quits = bytes(quits);
    options.quit_count = strlen(quits);
    for (count = 0; patterns[count]; count++) {
        texts[count].text = patterns[count];
        texts[count].length = strlen(patterns[count]);
    }
    CODE(lazydfa_regex_any_of(&regex, texts, count, &options, NULL), LAZYDFA_OK);
    CODE(lazydfa_cache_new(cache, &regex), LAZYDFA_OK);
    CODE(lazydfa_regex_close(&regex), LAZYDFA_OK);
}

static lazydfa_options plain(void) {
    lazydfa_options settings = LAZYDFA_OPTIONS_INIT;
    return settings;
}

/* ---- Valid calls ---- */

/* [a-z]+ and [0-9a-z ], over "1ab": the second ends at 1, both at 2 and at 3. */
static void walks(void) {
    lazydfa_cache c = LAZYDFA_INIT;
    lazydfa_options settings = plain();
    lazydfa_stop stop;
    lazydfa_half half;
    uint32_t done;
    settings.match_kind = LAZYDFA_ALL;
    CODE(open_cache(&c, two, &settings, NULL, 0), LAZYDFA_OK);
    CODE(lazydfa_walk_begin(&c, LAZYDFA_UNANCHORED, 0, -1), LAZYDFA_OK);
    CHECK(lists(&c, 0, 0));
    PASSES(END(-1), 0);
    PASSES(READ("1"), 1);
    STOPS(END(-1), 0, 1, 2);
    STOPS(END('x'), 0, 1, 2);
    STOPS(READ("ab-"), 1, 1, 2);
    /* a search in pieces continues beside the walk */
    CODE(lazydfa_pieces_begin(&c, LAZYDFA_UNANCHORED, 0, -1, 0), LAZYDFA_OK);
    CODE(lazydfa_pieces_read(&c, bytes("--z"), 3, &done), LAZYDFA_OK);
    CHECK(lists(&c, 1, 2));
    STOPS(READ("b-"), 1, 2, 3);
    CODE(lazydfa_cache_reset(&c), LAZYDFA_OK);
    STOPS(READ("-"), 1, 3, 3);
    CODE(lazydfa_pieces_end(&c, -1, &half), LAZYDFA_OK);
    CHECK(half.offset == 3);
    PASSES(lazydfa_walk_read(&c, NULL, 0, &stop), 0);
    PASSES(END(-1), 0);
    PASSES(READ("--"), 2);
    PASSES(READ(" "), 1);
    STOPS(READ("-"), 1, 7, 2);
    /* another walk replaces it; an anchored walk is over once nothing can match */
    CODE(lazydfa_walk_begin(&c, LAZYDFA_ANCHORED_YES, 0, -1), LAZYDFA_OK);
    CHECK(lists(&c, 0, 0));
    PASSES(READ("x"), 1);
    STOPS(READ("y-z"), 1, 1, 3);
    STOPS(READ("-z"), 1, 2, 1);
    PASSES(READ("z-zz"), 4);
    PASSES(END(-1), 0);
    CODE(lazydfa_cache_close(&c), LAZYDFA_OK);
}

/* The bytes before and after the pieces count for assertions. */
static void beside(void) {
    static const char *const cat[] = { "\\bcat\\b", "at$", NULL };
    lazydfa_cache c = LAZYDFA_INIT;
    lazydfa_stop stop;
    open_texts(&c, cat, plain(), "");
    CODE(lazydfa_walk_begin(&c, LAZYDFA_UNANCHORED, 0, -1), LAZYDFA_OK);
    PASSES(READ("c"), 1);
    PASSES(READ("at"), 2);
    STOPS(END(-1), 0, 3, 3);
    STOPS(END(' '), 0, 3, 1);
    STOPS(END(255), 0, 3, 1);
    STOPS(END(0), 0, 3, 1);
    PASSES(END('s'), 0);
    STOPS(READ(" cat"), 1, 3, 1);
    PASSES(READ("cats"), 4);
    CODE(lazydfa_walk_begin(&c, LAZYDFA_UNANCHORED, 0, 'x'), LAZYDFA_OK);
    PASSES(READ("cat "), 4);
    CODE(lazydfa_walk_begin(&c, LAZYDFA_UNANCHORED, 0, 0), LAZYDFA_OK);
    STOPS(READ("cat "), 4, 3, 1);
    CODE(lazydfa_cache_close(&c), LAZYDFA_OK);
}

static void modes(void) {
    lazydfa_cache c = LAZYDFA_INIT;
    lazydfa_options settings = plain();
    lazydfa_stop stop;
    lazydfa_status status;
    settings.match_kind = LAZYDFA_ALL;
    CODE(open_cache(&c, two, &settings, NULL, 0), LAZYDFA_OK);
    status = lazydfa_walk_begin(&c, LAZYDFA_ANCHORED_PATTERN, 1, -1);
    CHECK(status.code == LAZYDFA_ANCHORED && status.byte == 0 && status.offset == 0);
    FAILS(READ("a"), LAZYDFA_NOT_BEGUN, 0, 0);
    CODE(lazydfa_cache_close(&c), LAZYDFA_OK);
    settings.starts_for_each_pattern = 1;
    CODE(open_cache(&c, two, &settings, NULL, 0), LAZYDFA_OK);
    CODE(lazydfa_walk_begin(&c, LAZYDFA_ANCHORED_PATTERN, 1, -1), LAZYDFA_OK);
    STOPS(READ("ab"), 2, 1, 2);
    PASSES(END(-1), 0);
    CODE(lazydfa_walk_begin(&c, LAZYDFA_ANCHORED_PATTERN, 0, -1), LAZYDFA_OK);
    STOPS(READ("ab"), 2, 1, 1);
    STOPS(END(-1), 0, 2, 1);
    /* a pattern that the regex does not have is never found */
    CODE(lazydfa_walk_begin(&c, LAZYDFA_ANCHORED_PATTERN, 2, -1), LAZYDFA_OK);
    PASSES(READ("ab"), 2);
    CODE(lazydfa_cache_close(&c), LAZYDFA_OK);
}

/* ---- Errors of searches: each leaves the walk unchanged ---- */

static void quits(void) {
    static const char *const b[] = { "b", NULL };
    lazydfa_cache c = LAZYDFA_INIT;
    lazydfa_stop stop;
    lazydfa_status status;
    open_texts(&c, b, plain(), ";");
    CODE(lazydfa_walk_begin(&c, LAZYDFA_UNANCHORED, 0, 'a'), LAZYDFA_OK);
    STOPS(READ("ab1"), 3, 2, 1);
    FAILS(READ("2;b1"), LAZYDFA_QUIT, ';', 4);
    CHECK(lists(&c, 1, 1));
    FAILS(READ(";"), LAZYDFA_QUIT, ';', 3);
    FAILS(END(';'), LAZYDFA_QUIT, ';', 3);
    CHECK(lists(&c, 1, 1));
    status = lazydfa_walk_begin(&c, LAZYDFA_UNANCHORED, 0, ';');
    CHECK(status.code == LAZYDFA_QUIT && status.byte == ';' && status.offset == 0);
    CHECK(lists(&c, 1, 1));
    /* the match before a quit byte ends where that byte is */
    PASSES(READ("2b"), 2);
    FAILS(END(';'), LAZYDFA_QUIT, ';', 5);
    STOPS(END(-1), 0, 5, 1);
    FAILS(READ(";"), LAZYDFA_QUIT, ';', 5);
    CHECK(lists(&c, 1, 1));
    STOPS(READ("1;"), 1, 5, 1);
    CODE(lazydfa_cache_close(&c), LAZYDFA_OK);
}

static void gives_up(void) {
    enum { LENGTH = 4096 };
    lazydfa_cache c = LAZYDFA_INIT;
    lazydfa_options small = plain();
    lazydfa_status status;
    lazydfa_stop stop;
    uint8_t hay[LENGTH];
    int i;
    for (i = 0; i < LENGTH; i++) hay[i] = (uint8_t)(i % 9 == 8 ? '-' : "ab"[(i * i + i / 7) % 3 % 2]);
    small.match_kind = LAZYDFA_ALL;
    small.zeros |= LAZYDFA_ZERO_CACHE_CAPACITY | LAZYDFA_ZERO_CLEAR_COUNT;
    small.skip_cache_capacity_check = 1;
    CODE(open_cache(&c, many, &small, NULL, 0), LAZYDFA_OK);
    CODE(lazydfa_walk_begin(&c, LAZYDFA_UNANCHORED, 0, -1), LAZYDFA_OK);
    PASSES(READ("--"), 2);
    status = lazydfa_walk_read(&c, hay, LENGTH, &stop);
    CHECK(status.code == LAZYDFA_GAVE_UP && status.offset > 2 && status.offset < 2 + LENGTH);
    CHECK(stop.read == 0 && stop.offset == 0 && stop.patterns == 0);
    /* the walk is unchanged, and over a fresh cache it can read the bytes before the one at which it gave up */
    CODE(lazydfa_cache_reset(&c), LAZYDFA_OK);
    PASSES(lazydfa_walk_read(&c, hay, 1, &stop), 1);
    PASSES(END(-1), 0);
    CODE(lazydfa_cache_close(&c), LAZYDFA_OK);
}

static void skips(void) {
    static const char *const stars[] = { "a*", NULL };
    lazydfa_cache c = LAZYDFA_INIT;
    lazydfa_regex regex = LAZYDFA_INIT;
    lazydfa_stop stop;
    lazydfa_status status;
    CODE(lazydfa_regex_new(&regex, "a*", 2, NULL, NULL), LAZYDFA_OK);
    CODE(lazydfa_cache_new(&c, &regex), LAZYDFA_OK);
    CODE(lazydfa_regex_close(&regex), LAZYDFA_OK);
    status = lazydfa_walk_begin(&c, LAZYDFA_UNANCHORED, 0, -1);
    CHECK(status.code == LAZYDFA_SKIPS && status.byte == 0 && status.offset == 0);
    FAILS(READ("a"), LAZYDFA_NOT_BEGUN, 0, 0);
    CODE(lazydfa_cache_close(&c), LAZYDFA_OK);
    /* an empty match ends at each offset */
    open_texts(&c, stars, plain(), "");
    CODE(lazydfa_walk_begin(&c, LAZYDFA_UNANCHORED, 0, -1), LAZYDFA_OK);
    STOPS(END(-1), 0, 0, 1);
    STOPS(READ("ba"), 1, 0, 1);
    STOPS(READ("a"), 1, 1, 1);
    STOPS(END(-1), 0, 2, 1);
    CODE(lazydfa_cache_close(&c), LAZYDFA_OK);
}

/* ---- Invalid calls ---- */

static void handles(void) {
    lazydfa_builder b = LAZYDFA_INIT;
    lazydfa_regex re = LAZYDFA_INIT;
    lazydfa_cache c = LAZYDFA_INIT;
    lazydfa_cache *wrong[4];
    uint32_t codes[4] = { LAZYDFA_ARGUMENT, LAZYDFA_CLOSED, LAZYDFA_KIND, LAZYDFA_KIND };
    lazydfa_stop stop;
    uint32_t pattern = 77;
    int i;
    CODE(lazydfa_builder_new(&b), LAZYDFA_OK);
    CODE(lazydfa_regex_new(&re, "a", 1, NULL, NULL), LAZYDFA_OK);
    wrong[0] = NULL;
    wrong[1] = &c;
    wrong[2] = (lazydfa_cache *)(void *)&re;
    wrong[3] = (lazydfa_cache *)(void *)&b;
    for (i = 0; i < 4; i++) {
        CODE(lazydfa_walk_begin(wrong[i], LAZYDFA_UNANCHORED, 0, -1), codes[i]);
        FAILS(lazydfa_walk_read(wrong[i], bytes("a"), 1, &stop), codes[i], 0, 0);
        FAILS(lazydfa_walk_end(wrong[i], -1, &stop), codes[i], 0, 0);
        CODE(lazydfa_walk_pattern(wrong[i], 0, &pattern), codes[i]);
    }
    /* no walk was begun, and a search in pieces is not a walk */
    CODE(lazydfa_cache_new(&c, &re), LAZYDFA_OK);
    CODE(lazydfa_pieces_begin(&c, LAZYDFA_UNANCHORED, 0, -1, 0), LAZYDFA_OK);
    FAILS(READ("a"), LAZYDFA_NOT_BEGUN, 0, 0);
    FAILS(END(-1), LAZYDFA_NOT_BEGUN, 0, 0);
    CODE(lazydfa_walk_pattern(&c, 0, &pattern), LAZYDFA_NOT_BEGUN);
    CHECK(pattern == 77);
    CODE(lazydfa_builder_close(&b), LAZYDFA_OK);
    CODE(lazydfa_regex_close(&re), LAZYDFA_OK);
    CODE(lazydfa_cache_close(&c), LAZYDFA_OK);
    CODE(lazydfa_walk_begin(&c, LAZYDFA_UNANCHORED, 0, -1), LAZYDFA_CLOSED);
}

static void numbers(void) {
    static const int32_t beside[] = { -2, 256, 257, 65535, INT32_MAX, INT32_MIN };
    lazydfa_cache c = LAZYDFA_INIT;
    lazydfa_stop stop;
    size_t i;
    CODE(open_cache(&c, word, NULL, NULL, 0), LAZYDFA_OK);
    FAILS(END(256), LAZYDFA_ARGUMENT, 0, 0);
    CODE(lazydfa_walk_begin(&c, LAZYDFA_UNANCHORED, 0, -1), LAZYDFA_OK);
    STOPS(READ("ab"), 2, 1, 1);
    CODE(lazydfa_walk_begin(&c, 3, 0, -1), LAZYDFA_ARGUMENT);
    CODE(lazydfa_walk_begin(&c, UINT32_MAX, 0, -1), LAZYDFA_ARGUMENT);
    CODE(lazydfa_walk_begin(&c, LAZYDFA_ANCHORED_PATTERN, 2147483647, -1), LAZYDFA_ARGUMENT);
    CODE(lazydfa_walk_begin(&c, LAZYDFA_ANCHORED_PATTERN, UINT32_MAX, -1), LAZYDFA_ARGUMENT);
    for (i = 0; i < sizeof beside / sizeof *beside; i++) {
        CODE(lazydfa_walk_begin(&c, LAZYDFA_UNANCHORED, 0, beside[i]), LAZYDFA_ARGUMENT);
        FAILS(END(beside[i]), LAZYDFA_ARGUMENT, 0, 0);
    }
    FAILS(lazydfa_walk_read(&c, NULL, 1, &stop), LAZYDFA_ARGUMENT, 0, 0);
    CODE(lazydfa_walk_read(&c, bytes("a"), 1, NULL), LAZYDFA_ARGUMENT);
    CODE(lazydfa_walk_end(&c, -1, NULL), LAZYDFA_ARGUMENT);
    CODE(lazydfa_walk_pattern(&c, 0, NULL), LAZYDFA_ARGUMENT);
    /* none of these changed the walk */
    CHECK(lists(&c, 1, 1));
    STOPS(END(-1), 0, 2, 1);
    CODE(lazydfa_cache_close(&c), LAZYDFA_OK);
}

/* ---- What grep finds ---- */

/* The patterns that match up to each offset, as a digit of their bits. A pattern matches up to an offset if `grep -P
   '(?:PATTERN)\z'` finds the text up to there; a pattern with $ matches only up to the text's end. */
static const struct {
    const char *patterns[4], *hay, *ends;
} rows[] = {
    { { "aa", NULL }, "aaaba aa", "001100001" },
    { { "[a-z]+", "foo|bar", NULL }, "a foo bar9", "01011301130" },
    { { "ab*", "b+", "abb", NULL }, "abbab", "013713" },
    { { "[0-9]{2}", "[0-9]+", "-", NULL }, "20-06 7", "02342302" },
    { { "(?:ab)+", "ba", NULL }, "ababa", "001212" },
    { { "^a", "b$", NULL }, "abab", "01002" },
    { { "q", NULL }, "none", "00000" },
};

/* Whether a walk over two pieces finds exactly what the row lists. */
static int finds(lazydfa_cache *cache, const uint8_t *hay, const char *ends, size_t length, size_t cut) {
    size_t at = 0, next = 0;
    lazydfa_stop stop;
    lazydfa_status status = lazydfa_walk_begin(cache, LAZYDFA_UNANCHORED, 0, -1);
    while (at < length && status.code <= LAZYDFA_NONE) {
        size_t until = at < cut ? cut : length;
        status = lazydfa_walk_read(cache, hay + at, until - at, &stop);
        at += stop.read;
        if (status.code != LAZYDFA_OK) continue;
        while (next < stop.offset && ends[next] == '0') next++;
        if (next != stop.offset || stop.offset != at - 1) return 0;
        if (listed(cache, stop.patterns) != (uint32_t)(ends[next++] - '0')) return 0;
    }
    while (next < length && ends[next] == '0') next++;
    status = lazydfa_walk_end(cache, -1, &stop);
    return next == length && (status.code == LAZYDFA_OK ? stop.offset == length : status.code == LAZYDFA_NONE)
           && listed(cache, stop.patterns) == (uint32_t)(ends[length] - '0');
}

static void greps(void) {
    size_t row, cut;
    for (row = 0; row < sizeof rows / sizeof *rows; row++) {
        lazydfa_cache c = LAZYDFA_INIT;
        size_t length = strlen(rows[row].hay);
        CHECK(strlen(rows[row].ends) == length + 1);
        open_texts(&c, rows[row].patterns, plain(), "");
        for (cut = 0; cut <= length; cut++) CHECK(finds(&c, bytes(rows[row].hay), rows[row].ends, length, cut));
        CODE(lazydfa_cache_close(&c), LAZYDFA_OK);
    }
}

/* ---- Random cuts ---- */

enum { MOST = 2000 };

static uint32_t seed;

static uint32_t below(uint32_t limit) {
    seed = seed * 1664525u + 1013904223u;
    return (seed >> 8) % limit;
}

/* What a walk has reported: the end of each match, with its pattern. */
static lazydfa_half found[MOST], wanted[MOST];
static size_t count;

static void take(lazydfa_cache *walk, lazydfa_stop stop, size_t start) {
    size_t i;
    for (i = 0; i < stop.patterns && count < MOST; i++, count++) {
        found[count].offset = start + stop.offset;
        CODE(lazydfa_walk_pattern(walk, i, &found[count].pattern), LAZYDFA_OK);
    }
}

/* Checks that the walk reported all ends in the whole text, and that their patterns are the set of the whole text. */
static void compare(lazydfa_cache *whole, const uint8_t *hay, size_t length, lazydfa_input in) {
    uint32_t patterns[8];
    size_t many = 0, i, j;
    CODE(lazydfa_all_ends(whole, hay, length, &in, wanted, MOST, &many), LAZYDFA_OK);
    CHECK(count == many);
    for (i = 0; i < count && i < many; i++)
        CHECK(found[i].offset == wanted[i].offset && found[i].pattern == wanted[i].pattern);
    CODE(lazydfa_which(whole, hay, length, &in, 8, patterns, 8, &many), LAZYDFA_OK);
    for (i = 0; i < count; i++) {
        for (j = 0; j < many && patterns[j] != found[i].pattern; j++) continue;
        CHECK(j < many);
    }
    for (j = 0; j < many; j++) {
        for (i = 0; i < count && patterns[j] != found[i].pattern; i++) continue;
        CHECK(i < count);
    }
}

/* Walks over a text that is cut at random. */
static void cut(lazydfa_cache *walk, lazydfa_cache *whole, const char *letters) {
    uint8_t hay[300];
    size_t i, length = 1 + below(sizeof hay - 1), at;
    uint32_t kinds = (uint32_t)strlen(letters);
    lazydfa_input in = lazydfa_whole(length);
    lazydfa_status status;
    lazydfa_stop stop;
    for (i = 0; i < length; i++) hay[i] = (uint8_t)letters[below(8) ? below(2) : below(kinds)];
    in.anchored = below(4) == 0;
    in.start = below(2);
    in.end = length - below(2);
    if (in.end < in.start) in.end = in.start;
    count = 0;
    CODE(lazydfa_walk_begin(walk, in.anchored, 0, in.start ? hay[0] : -1), LAZYDFA_OK);
    for (at = in.start; at < in.end;) {
        size_t until = at + (below(3) ? below(9) : below(120));
        if (until > in.end) until = in.end;
        do {
            status = lazydfa_walk_read(walk, hay + at, until - at, &stop);
            CHECK(status.code <= LAZYDFA_NONE && (stop.patterns > 0) == (status.code == LAZYDFA_OK));
            CHECK(stop.read <= until - at && (status.code == LAZYDFA_OK ? stop.read > 0 : stop.read == until - at));
            at += stop.read;
            take(walk, stop, in.start);
        } while (at < until && status.code <= LAZYDFA_NONE);
        if (status.code > LAZYDFA_NONE) return;
        if (below(6) == 0) {
            lazydfa_input all = lazydfa_whole(length);
            lazydfa_half half;
            lazydfa_find_end(walk, hay, length, &all, &half);
        }
        if (below(6) == 0) lazydfa_walk_end(walk, (int32_t)below(256), &stop);
        if (below(40) == 0) CODE(lazydfa_cache_reset(walk), LAZYDFA_OK);
    }
    status = lazydfa_walk_end(walk, in.end < length ? hay[in.end] : -1, &stop);
    CHECK(status.code <= LAZYDFA_NONE && stop.read == 0 && (stop.patterns > 0) == (status.code == LAZYDFA_OK));
    take(walk, stop, in.start);
    compare(whole, hay, length, in);
}

static void cuts(void) {
    static const struct {
        const char *patterns[4], *letters;
    } texts[] = {
        { { "[a-z]+", "b+", "ab", NULL }, "ab z;" },  { { "a[ab]{8}c", "c", NULL }, "abc" },
        { { "(?m)^ab*$", "b$", NULL }, "ab\n" },       { { "\\bab\\b|b+a", "\\Bb", NULL }, "ab ." },
        { { "a*", "ab", NULL }, "ab" },                 { { "(?:ab|a)(?:c|bcd)", "d", NULL }, "abcd" },
        { { "a{3,5}b", "^a", "b\\z", NULL }, "ab;" },  { { "q", NULL }, "abx" },
    };
    size_t i, clears = 0;
    int small, turn;
    for (i = 0; i < sizeof texts / sizeof *texts; i++) {
        for (small = 0; small < 2; small++) {
            lazydfa_cache walk = LAZYDFA_INIT, whole = LAZYDFA_INIT;
            lazydfa_options settings = plain();
            lazydfa_usage usage;
            settings.zeros = small ? LAZYDFA_ZERO_CACHE_CAPACITY : 0;
            settings.skip_cache_capacity_check = (uint32_t)small;
            open_texts(&walk, texts[i].patterns, settings, "");
            open_texts(&whole, texts[i].patterns, plain(), "");
            for (turn = 0; turn < 100; turn++) {
                seed = (uint32_t)(turn * 16 + small * 8 + (int)i + 1);
                cut(&walk, &whole, texts[i].letters);
            }
            CODE(lazydfa_cache_usage(&walk, &usage), LAZYDFA_OK);
            clears += usage.forward_clears;
            CODE(lazydfa_cache_close(&walk), LAZYDFA_OK);
            CODE(lazydfa_cache_close(&whole), LAZYDFA_OK);
        }
    }
    CHECK(clears > 0);
}

int main(void) {
    walks();
    beside();
    modes();
    quits();
    gives_up();
    skips();
    handles();
    numbers();
    greps();
    cuts();
    return counted();
}
