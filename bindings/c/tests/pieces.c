/* Searches in pieces: every call, with valid and with every kind of invalid arguments; rows whose matches grep reports;
   and random cuts of random texts, which must give the same results as a search of the whole text, with other searches,
   clears and resets of the cache between the pieces, also backward. Prints each check that fails, and how many checks
   there were. */
#include <stdio.h>
#include <string.h>
#include "check.h"
#include "nfas.h"

/* Reads a piece, and checks whether the result is then final. */
#define READS(cache, text, code, stands)                                                           \
    do {                                                                                           \
        uint32_t done_ = 99;                                                                       \
        CODE(lazydfa_pieces_read(cache, bytes(text), strlen(text), &done_), code);                 \
        CHECK(done_ == (stands));                                                                  \
    } while (0)

/* Checks that a match ends at an offset, if this byte follows. */
#define ENDS(cache, ahead, at, number)                                                             \
    do {                                                                                           \
        lazydfa_half half_;                                                                        \
        CODE(lazydfa_pieces_end(cache, ahead, &half_), LAZYDFA_OK);                                \
        CHECK(half_.offset == (at) && half_.pattern == (number) && half_.reserved == 0);           \
    } while (0)

/* Checks the error of a call, with its byte and its offset. */
#define FAILS(call, error, what, at)                                                               \
    do {                                                                                           \
        lazydfa_status status_ = (call);                                                           \
        CHECK(status_.code == (error) && status_.byte == (what) && status_.offset == (at));        \
    } while (0)

/* Opens a cache of a pattern's text, with the option `bytes`, so that empty matches are not skipped. */
static void open_text(lazydfa_cache *cache, const char *pattern, const lazydfa_options *settings, const char *quits) {
    lazydfa_regex regex = LAZYDFA_INIT;
    lazydfa_options options = LAZYDFA_OPTIONS_INIT;
    if (settings) options = *settings;
    options.bytes = options.no_unicode = 1;
    options.quits = bytes(quits);
    options.quit_count = strlen(quits);
    CODE(lazydfa_regex_new(&regex, pattern, strlen(pattern), &options, NULL), LAZYDFA_OK);
    CODE(lazydfa_cache_new(cache, &regex), LAZYDFA_OK);
    CODE(lazydfa_regex_close(&regex), LAZYDFA_OK);
}

/* ---- Valid calls ---- */

static void searches(void) {
    lazydfa_cache c = LAZYDFA_INIT;
    lazydfa_half h;
    uint32_t done = 99;
    CODE(open_cache(&c, word, NULL, NULL, 0), LAZYDFA_OK);
    CODE(lazydfa_pieces_begin(&c, LAZYDFA_UNANCHORED, 0, -1, 0), LAZYDFA_OK);
    CODE(lazydfa_pieces_end(&c, -1, &h), LAZYDFA_NONE);
    READS(&c, "12 ", LAZYDFA_OK, 0);
    CODE(lazydfa_pieces_end(&c, -1, &h), LAZYDFA_NONE);
    READS(&c, "fo", LAZYDFA_OK, 0);
    ENDS(&c, -1, 5, 0);
    ENDS(&c, 'x', 5, 0);
    CODE(lazydfa_pieces_read(&c, NULL, 0, &done), LAZYDFA_OK);
    CHECK(done == 0);
    READS(&c, "o", LAZYDFA_OK, 0);
    ENDS(&c, -1, 6, 0);
    READS(&c, " bar", LAZYDFA_OK, 1);
    ENDS(&c, -1, 6, 0);
    READS(&c, "more", LAZYDFA_OK, 1);
    ENDS(&c, 'x', 6, 0);
    /* another search replaces it, and stops at the first match that it sees */
    CODE(lazydfa_pieces_begin(&c, LAZYDFA_UNANCHORED, 0, -1, 7), LAZYDFA_OK);
    CODE(lazydfa_pieces_end(&c, -1, &h), LAZYDFA_NONE);
    READS(&c, "1foo", LAZYDFA_OK, 1);
    ENDS(&c, -1, 2, 0);
    /* an anchored search */
    CODE(lazydfa_pieces_begin(&c, LAZYDFA_ANCHORED_YES, 0, -1, 0), LAZYDFA_OK);
    READS(&c, "foo", LAZYDFA_OK, 0);
    ENDS(&c, -1, 3, 0);
    CODE(lazydfa_pieces_begin(&c, LAZYDFA_ANCHORED_YES, 0, -1, 0), LAZYDFA_OK);
    READS(&c, "1foo", LAZYDFA_OK, 1);
    CODE(lazydfa_pieces_end(&c, -1, &h), LAZYDFA_NONE);
    CODE(lazydfa_cache_close(&c), LAZYDFA_OK);
}

/* The bytes before and after the pieces count for assertions. */
static void beside(void) {
    lazydfa_cache c = LAZYDFA_INIT;
    lazydfa_half h;
    open_text(&c, "\\bfoo\\b", NULL, "");
    CODE(lazydfa_pieces_begin(&c, LAZYDFA_UNANCHORED, 0, -1, 0), LAZYDFA_OK);
    READS(&c, "f", LAZYDFA_OK, 0);
    READS(&c, "oo", LAZYDFA_OK, 0);
    ENDS(&c, -1, 3, 0);
    ENDS(&c, ' ', 3, 0);
    ENDS(&c, 255, 3, 0);
    ENDS(&c, 0, 3, 0);
    CODE(lazydfa_pieces_end(&c, 'x', &h), LAZYDFA_NONE);
    CODE(lazydfa_pieces_begin(&c, LAZYDFA_UNANCHORED, 0, 'x', 0), LAZYDFA_OK);
    READS(&c, "foo", LAZYDFA_OK, 0);
    CODE(lazydfa_pieces_end(&c, -1, &h), LAZYDFA_NONE);
    CODE(lazydfa_pieces_begin(&c, LAZYDFA_UNANCHORED, 0, 0, 0), LAZYDFA_OK);
    READS(&c, "foo", LAZYDFA_OK, 0);
    ENDS(&c, -1, 3, 0);
    CODE(lazydfa_cache_close(&c), LAZYDFA_OK);
}

static void modes(void) {
    lazydfa_cache c = LAZYDFA_INIT;
    lazydfa_options settings = LAZYDFA_OPTIONS_INIT;
    lazydfa_half h;
    CODE(open_cache(&c, two, NULL, NULL, 0), LAZYDFA_OK);
    FAILS(lazydfa_pieces_begin(&c, LAZYDFA_ANCHORED_PATTERN, 1, -1, 0), LAZYDFA_ANCHORED, 0, 0);
    CODE(lazydfa_cache_close(&c), LAZYDFA_OK);
    settings.starts_for_each_pattern = 1;
    CODE(open_cache(&c, two, &settings, NULL, 0), LAZYDFA_OK);
    CODE(lazydfa_pieces_begin(&c, LAZYDFA_ANCHORED_PATTERN, 1, -1, 0), LAZYDFA_OK);
    READS(&c, "ab-", LAZYDFA_OK, 1);
    ENDS(&c, -1, 1, 1);
    CODE(lazydfa_pieces_begin(&c, LAZYDFA_ANCHORED_PATTERN, 0, -1, 0), LAZYDFA_OK);
    READS(&c, "ab", LAZYDFA_OK, 0);
    ENDS(&c, -1, 2, 0);
    /* a pattern that the regex does not have is never found */
    CODE(lazydfa_pieces_begin(&c, LAZYDFA_ANCHORED_PATTERN, 2, -1, 0), LAZYDFA_OK);
    READS(&c, "ab", LAZYDFA_OK, 1);
    CODE(lazydfa_pieces_end(&c, -1, &h), LAZYDFA_NONE);
    CODE(lazydfa_cache_close(&c), LAZYDFA_OK);
}

/* ---- Errors of searches: each leaves the search unchanged ---- */

static void quits(void) {
    lazydfa_cache c = LAZYDFA_INIT;
    lazydfa_half h = { 77, 7, 7 };
    uint32_t done = 99;
    CODE(open_cache(&c, word, NULL, bytes(";"), 1), LAZYDFA_OK);
    CODE(lazydfa_pieces_begin(&c, LAZYDFA_UNANCHORED, 0, '1', 0), LAZYDFA_OK);
    READS(&c, "12", LAZYDFA_OK, 0);
    FAILS(lazydfa_pieces_read(&c, bytes("345;ab"), 6, &done), LAZYDFA_QUIT, ';', 5);
    CHECK(done == 0);
    FAILS(lazydfa_pieces_read(&c, bytes(";"), 1, &done), LAZYDFA_QUIT, ';', 2);
    FAILS(lazydfa_pieces_end(&c, ';', &h), LAZYDFA_QUIT, ';', 2);
    CHECK(h.offset == 77 && h.pattern == 7 && h.reserved == 7);
    FAILS(lazydfa_pieces_begin(&c, LAZYDFA_UNANCHORED, 0, ';', 0), LAZYDFA_QUIT, ';', 0);
    READS(&c, "ab", LAZYDFA_OK, 0);
    ENDS(&c, -1, 4, 0);
    FAILS(lazydfa_pieces_end(&c, ';', &h), LAZYDFA_QUIT, ';', 4);
    /* once the result is final, no byte is read, so no quit byte is either */
    READS(&c, " x;", LAZYDFA_OK, 1);
    READS(&c, ";", LAZYDFA_OK, 1);
    ENDS(&c, ';', 4, 0);
    CODE(lazydfa_cache_close(&c), LAZYDFA_OK);
}

static void gives_up(void) {
    enum { LENGTH = 4096 };
    lazydfa_cache c = LAZYDFA_INIT;
    lazydfa_options small = LAZYDFA_OPTIONS_INIT;
    lazydfa_status status;
    lazydfa_half h;
    uint32_t done = 99;
    uint8_t hay[LENGTH];
    int i;
    for (i = 0; i < LENGTH; i++) hay[i] = (uint8_t)(i % 9 == 8 ? '-' : "ab"[(i * i + i / 7) % 3 % 2]);
    small.zeros |= LAZYDFA_ZERO_CACHE_CAPACITY | LAZYDFA_ZERO_CLEAR_COUNT;
    small.skip_cache_capacity_check = 1;
    CODE(open_cache(&c, many, &small, NULL, 0), LAZYDFA_OK);
    CODE(lazydfa_pieces_begin(&c, LAZYDFA_UNANCHORED, 0, -1, 0), LAZYDFA_OK);
    READS(&c, "--", LAZYDFA_OK, 0);
    status = lazydfa_pieces_read(&c, hay, LENGTH, &done);
    CHECK(status.code == LAZYDFA_GAVE_UP && status.offset > 2 && status.offset < 2 + LENGTH && done == 0);
    /* the search is unchanged, and over a fresh cache it can read the bytes before the one at which it gave up */
    CODE(lazydfa_cache_reset(&c), LAZYDFA_OK);
    CODE(lazydfa_pieces_read(&c, hay, 1, &done), LAZYDFA_OK);
    CODE(lazydfa_pieces_end(&c, -1, &h), LAZYDFA_NONE);
    CODE(lazydfa_cache_close(&c), LAZYDFA_OK);
}

static void skips(void) {
    lazydfa_cache c = LAZYDFA_INIT;
    lazydfa_regex regex = LAZYDFA_INIT;
    uint32_t done = 99;
    CODE(lazydfa_regex_new(&regex, "a*", 2, NULL, NULL), LAZYDFA_OK);
    CODE(lazydfa_cache_new(&c, &regex), LAZYDFA_OK);
    CODE(lazydfa_regex_close(&regex), LAZYDFA_OK);
    FAILS(lazydfa_pieces_begin(&c, LAZYDFA_UNANCHORED, 0, -1, 0), LAZYDFA_SKIPS, 0, 0);
    CODE(lazydfa_pieces_read(&c, bytes("a"), 1, &done), LAZYDFA_NOT_BEGUN);
    CHECK(done == 0);
    CODE(lazydfa_cache_close(&c), LAZYDFA_OK);
    open_text(&c, "a*", NULL, "");
    CODE(lazydfa_pieces_begin(&c, LAZYDFA_UNANCHORED, 0, -1, 0), LAZYDFA_OK);
    ENDS(&c, -1, 0, 0);
    READS(&c, "a", LAZYDFA_OK, 0);
    ENDS(&c, -1, 1, 0);
    CODE(lazydfa_cache_close(&c), LAZYDFA_OK);
}

/* ---- Invalid calls ---- */

static void handles(void) {
    lazydfa_builder b = LAZYDFA_INIT;
    lazydfa_regex re = LAZYDFA_INIT;
    lazydfa_cache c = LAZYDFA_INIT;
    lazydfa_cache *wrong[4];
    uint32_t codes[4] = { LAZYDFA_ARGUMENT, LAZYDFA_CLOSED, LAZYDFA_KIND, LAZYDFA_KIND };
    lazydfa_half h = { 77, 7, 7 };
    uint32_t done;
    int i;
    CODE(lazydfa_builder_new(&b), LAZYDFA_OK);
    CODE(lazydfa_regex_new(&re, "a", 1, NULL, NULL), LAZYDFA_OK);
    wrong[0] = NULL;
    wrong[1] = &c;
    wrong[2] = (lazydfa_cache *)(void *)&re;
    wrong[3] = (lazydfa_cache *)(void *)&b;
    for (i = 0; i < 4; i++) {
        CODE(lazydfa_pieces_begin(wrong[i], LAZYDFA_UNANCHORED, 0, -1, 0), codes[i]);
        done = 99;
        CODE(lazydfa_pieces_read(wrong[i], bytes("a"), 1, &done), codes[i]);
        CHECK(done == 0);
        CODE(lazydfa_pieces_end(wrong[i], -1, &h), codes[i]);
    }
    /* no search was begun */
    CODE(lazydfa_cache_new(&c, &re), LAZYDFA_OK);
    done = 99;
    CODE(lazydfa_pieces_read(&c, bytes("a"), 1, &done), LAZYDFA_NOT_BEGUN);
    CHECK(done == 0);
    CODE(lazydfa_pieces_end(&c, -1, &h), LAZYDFA_NOT_BEGUN);
    CHECK(h.offset == 77 && h.pattern == 7 && h.reserved == 7);
    CODE(lazydfa_builder_close(&b), LAZYDFA_OK);
    CODE(lazydfa_regex_close(&re), LAZYDFA_OK);
    CODE(lazydfa_cache_close(&c), LAZYDFA_OK);
    CODE(lazydfa_pieces_begin(&c, LAZYDFA_UNANCHORED, 0, -1, 0), LAZYDFA_CLOSED);
}

static void numbers(void) {
    static const int32_t beside[] = { -2, 256, 257, 65535, INT32_MAX, INT32_MIN };
    lazydfa_cache c = LAZYDFA_INIT;
    lazydfa_half h = { 77, 7, 7 };
    uint32_t done;
    size_t i;
    CODE(open_cache(&c, word, NULL, NULL, 0), LAZYDFA_OK);
    CODE(lazydfa_pieces_end(&c, 256, &h), LAZYDFA_ARGUMENT);
    CODE(lazydfa_pieces_begin(&c, LAZYDFA_UNANCHORED, 0, -1, 0), LAZYDFA_OK);
    READS(&c, "ab", LAZYDFA_OK, 0);
    CODE(lazydfa_pieces_begin(&c, 3, 0, -1, 0), LAZYDFA_ARGUMENT);
    CODE(lazydfa_pieces_begin(&c, UINT32_MAX, 0, -1, 0), LAZYDFA_ARGUMENT);
    CODE(lazydfa_pieces_begin(&c, LAZYDFA_ANCHORED_PATTERN, 2147483647, -1, 0), LAZYDFA_ARGUMENT);
    CODE(lazydfa_pieces_begin(&c, LAZYDFA_ANCHORED_PATTERN, UINT32_MAX, -1, 0), LAZYDFA_ARGUMENT);
    for (i = 0; i < sizeof beside / sizeof *beside; i++) {
        CODE(lazydfa_pieces_begin(&c, LAZYDFA_UNANCHORED, 0, beside[i], 0), LAZYDFA_ARGUMENT);
        CODE(lazydfa_pieces_end(&c, beside[i], &h), LAZYDFA_ARGUMENT);
    }
    done = 99;
    CODE(lazydfa_pieces_read(&c, NULL, 1, &done), LAZYDFA_ARGUMENT);
    CHECK(done == 0);
    CODE(lazydfa_pieces_read(&c, bytes("a"), 1, NULL), LAZYDFA_ARGUMENT);
    CODE(lazydfa_pieces_end(&c, -1, NULL), LAZYDFA_ARGUMENT);
    CHECK(h.offset == 77 && h.pattern == 7 && h.reserved == 7);
    /* none of these changed the search */
    ENDS(&c, -1, 2, 0);
    CODE(lazydfa_cache_close(&c), LAZYDFA_OK);
}

/* ---- What grep finds ---- */

/* Where the first match ends, as `printf %s HAY | grep -obP PATTERN` says: its offset and its length. */
static const struct {
    const char *pattern, *hay;
    int ends; /* -1: no match */
} rows[] = {
    { "[a-z]+", "12 foo bar", 6 },
    { "[0-9]{4}-[0-9]{2}", "on 2024-1 or 2025-06-07", 20 },
    { "foo|foobar", "a foobar", 5 },
    { "foobar|foo", "a fooba foobar", 5 },
    { "(?:ab)+c?", "xababac ababc", 5 },
    { "a.c", "ab abc", 6 },
    { "\\bcat\\b", "concat cats cat.", 15 },
    { "^b", "ab", -1 },
    { "b$", "abab", 4 },
    { "x*y", "xxz xxxy", 8 },
    { "q", "no such byte", -1 },
    { "a+?", "baaa", 2 },
    { "[^a-z ]{3}", "ab 12 345", 9 },
};

/* Checks each row, cut into two pieces at every offset, and byte by byte. */
static void greps(void) {
    size_t row, cut, i;
    for (row = 0; row < sizeof rows / sizeof *rows; row++) {
        lazydfa_cache c = LAZYDFA_INIT;
        lazydfa_half h;
        uint32_t done;
        size_t length = strlen(rows[row].hay);
        const uint8_t *hay = bytes(rows[row].hay);
        open_text(&c, rows[row].pattern, NULL, "");
        for (cut = 0; cut <= length + 1; cut++) {
            lazydfa_status status;
            CODE(lazydfa_pieces_begin(&c, LAZYDFA_UNANCHORED, 0, -1, 0), LAZYDFA_OK);
            if (cut <= length) {
                CODE(lazydfa_pieces_read(&c, hay, cut, &done), LAZYDFA_OK);
                CODE(lazydfa_pieces_read(&c, hay + cut, length - cut, &done), LAZYDFA_OK);
            } else {
                for (i = 0; i < length; i++) CODE(lazydfa_pieces_read(&c, hay + i, 1, &done), LAZYDFA_OK);
            }
            status = lazydfa_pieces_end(&c, -1, &h);
            CHECK(rows[row].ends < 0 ? status.code == LAZYDFA_NONE
                                     : status.code == LAZYDFA_OK && h.offset == (size_t)rows[row].ends);
        }
        CODE(lazydfa_cache_close(&c), LAZYDFA_OK);
    }
}

/* ---- Random cuts ---- */

static uint32_t seed;

static uint32_t below(uint32_t limit) {
    seed = seed * 1664525u + 1013904223u;
    return (seed >> 8) % limit;
}

/* Checks that the pieces so far give the same result as a search of the whole text, which is `hay` and of which the
   bytes before `start` and at `end` are seen, if there are any. */
static void compare(lazydfa_cache *pieces, lazydfa_cache *whole, const uint8_t *hay, size_t length, lazydfa_input in) {
    lazydfa_half is, wanted;
    int32_t ahead = in.end < length ? hay[in.end] : -1;
    lazydfa_status status = lazydfa_pieces_end(pieces, ahead, &is);
    lazydfa_status other = lazydfa_find_end(whole, hay, length, &in, &wanted);
    CHECK(status.code == other.code && status.byte == other.byte);
    if (other.code == LAZYDFA_OK) CHECK(is.offset + in.start == wanted.offset && is.pattern == wanted.pattern);
    else if (other.code == LAZYDFA_QUIT) CHECK(status.offset + in.start == other.offset);
    else CHECK(other.code == LAZYDFA_NONE);
}

/* Cuts a text at random, and after each piece checks the result for the pieces so far. */
static void cut(lazydfa_cache *pieces, lazydfa_cache *whole, const char *letters) {
    uint8_t hay[300];
    size_t i, length = 1 + below(sizeof hay - 1), at;
    uint32_t kinds = (uint32_t)strlen(letters), done = 0;
    lazydfa_input in = lazydfa_whole(length), now;
    lazydfa_half h;
    lazydfa_status status, other;
    for (i = 0; i < length; i++) hay[i] = (uint8_t)letters[below(8) ? below(2) : below(kinds)];
    in.anchored = below(4) == 0;
    in.earliest = below(4) == 0;
    in.start = below(2);
    status = lazydfa_pieces_begin(pieces, in.anchored, 0, in.start ? hay[0] : -1, in.earliest);
    now = in;
    now.end = now.start;
    other = lazydfa_find_end(whole, hay, length, &now, &h);
    if (status.code == LAZYDFA_QUIT) {
        CHECK(other.code == LAZYDFA_QUIT && other.offset == 0 && status.byte == other.byte);
        return;
    }
    CHECK(status.code == LAZYDFA_OK);
    for (at = in.start; at < length && !done;) {
        size_t more = below(3) ? below(9) : below(120);
        if (more > length - at) more = length - at;
        status = lazydfa_pieces_read(pieces, hay + at, more, &done);
        if (status.code == LAZYDFA_QUIT) {
            /* the search of the whole text reads that quit byte too; the search in pieces is unchanged */
            now.end = at + more;
            other = lazydfa_find_end(whole, hay, length, &now, &h);
            CHECK(other.code == LAZYDFA_QUIT && other.byte == status.byte && other.offset == status.offset + in.start);
            now.end = at;
            compare(pieces, whole, hay, length, now);
            return;
        }
        CHECK(status.code == LAZYDFA_OK);
        at += more;
        now.end = at;
        compare(pieces, whole, hay, length, now);
        if (below(6) == 0) {
            lazydfa_input all = lazydfa_whole(length);
            lazydfa_find_end(pieces, hay, length, &all, &h);
        }
        if (below(40) == 0) CODE(lazydfa_cache_reset(pieces), LAZYDFA_OK);
    }
    if (!done) return;
    /* the result is final, whatever follows */
    for (i = 0; i < 4; i++) {
        now.end = at + below((uint32_t)(length - at + 1));
        other = lazydfa_find_end(whole, hay, length, &now, &h);
        if (other.code != LAZYDFA_QUIT) compare(pieces, whole, hay, length, now);
    }
}

static void cuts(void) {
    static const struct {
        const char *pattern, *letters, *quits;
    } texts[] = {
        { "[a-z]+", "a bz;", "" },          { "a[ab]{8}c", "abc", "" },        { "(?m)^ab*$", "ab\n", "" },
        { "\\bab\\b|b+a", "ab .", "" },     { "a*", "ab", "" },                { "(?:ab|a)(?:c|bcd)", "abcd", "" },
        { "a{3,5}b", "ab;", ";" },          { "x$", "abx", "" },               { "[^;]*ab", "ab;", "" },
    };
    size_t i, clears = 0;
    int small, turn;
    for (i = 0; i < sizeof texts / sizeof *texts; i++) {
        for (small = 0; small < 2; small++) {
            lazydfa_cache pieces = LAZYDFA_INIT, whole = LAZYDFA_INIT;
            lazydfa_options settings = LAZYDFA_OPTIONS_INIT;
            lazydfa_usage usage;
            settings.zeros = small ? LAZYDFA_ZERO_CACHE_CAPACITY : 0;
            settings.skip_cache_capacity_check = (uint32_t)small;
            open_text(&pieces, texts[i].pattern, &settings, texts[i].quits);
            open_text(&whole, texts[i].pattern, NULL, texts[i].quits);
            for (turn = 0; turn < 150; turn++) {
                seed = (uint32_t)(turn * 18 + small * 9 + (int)i + 1);
                cut(&pieces, &whole, texts[i].letters);
            }
            CODE(lazydfa_cache_usage(&pieces, &usage), LAZYDFA_OK);
            clears += usage.forward_clears;
            CODE(lazydfa_cache_close(&pieces), LAZYDFA_OK);
            CODE(lazydfa_cache_close(&whole), LAZYDFA_OK);
        }
    }
    CHECK(clears > 0);
}

/* ---- Backward ---- */

/* Opens two caches of a pattern's text: one of its regex, and one of the reversed regex. */
static void open_both(lazydfa_cache *forward, lazydfa_cache *backward, const char *pattern) {
    lazydfa_regex regex = LAZYDFA_INIT, reversed = LAZYDFA_INIT;
    lazydfa_options options = LAZYDFA_OPTIONS_INIT;
    options.bytes = options.no_unicode = 1;
    CODE(lazydfa_regex_new(&regex, pattern, strlen(pattern), &options, NULL), LAZYDFA_OK);
    CODE(lazydfa_regex_reverse(&regex, &reversed), LAZYDFA_OK);
    CODE(lazydfa_cache_new(forward, &regex), LAZYDFA_OK);
    CODE(lazydfa_cache_new(backward, &reversed), LAZYDFA_OK);
    CODE(lazydfa_regex_close(&regex), LAZYDFA_OK);
    CODE(lazydfa_regex_close(&reversed), LAZYDFA_OK);
}

static void reverses(void) {
    lazydfa_builder b = LAZYDFA_INIT;
    lazydfa_regex re = LAZYDFA_INIT, other = LAZYDFA_INIT, no_regex = LAZYDFA_INIT;
    lazydfa_cache c = LAZYDFA_INIT;
    lazydfa_regex *no = &no_regex;
    CODE(lazydfa_builder_new(&b), LAZYDFA_OK);
    CODE(lazydfa_regex_new(&re, "[a-z]+1", 7, NULL, NULL), LAZYDFA_OK);
    CODE(lazydfa_cache_new(&c, &re), LAZYDFA_OK);
    CODE(lazydfa_regex_reverse(NULL, no), LAZYDFA_ARGUMENT);
    CODE(lazydfa_regex_reverse(&re, NULL), LAZYDFA_ARGUMENT);
    CODE(lazydfa_regex_reverse(&re, &re), LAZYDFA_ARGUMENT);
    CODE(lazydfa_regex_reverse(no, &other), LAZYDFA_CLOSED);
    CODE(lazydfa_regex_reverse((lazydfa_regex *)(void *)&b, no), LAZYDFA_KIND);
    CODE(lazydfa_regex_reverse((lazydfa_regex *)(void *)&c, no), LAZYDFA_KIND);
    CODE(lazydfa_regex_reverse(&re, (lazydfa_regex *)(void *)&b), LAZYDFA_OPEN);
    CODE(lazydfa_regex_reverse(no, (lazydfa_regex *)(void *)&b), LAZYDFA_OPEN);
    CODE(lazydfa_cache_close(&c), LAZYDFA_OK);
    /* the other one stays usable when the first is closed */
    CODE(lazydfa_regex_reverse(&re, &other), LAZYDFA_OK);
    CODE(lazydfa_regex_reverse(&re, &other), LAZYDFA_OPEN);
    CODE(lazydfa_regex_close(&re), LAZYDFA_OK);
    CODE(lazydfa_cache_new(&c, &other), LAZYDFA_OK);
    CODE(lazydfa_pieces_begin(&c, LAZYDFA_ANCHORED_YES, 0, -1, 0), LAZYDFA_OK);
    READS(&c, "1o", LAZYDFA_OK, 0);
    ENDS(&c, ' ', 2, 0);
    READS(&c, "of  ", LAZYDFA_OK, 1);
    ENDS(&c, -1, 4, 0);
    CODE(lazydfa_cache_close(&c), LAZYDFA_OK);
    /* reversed twice, it reads forward */
    CODE(lazydfa_regex_reverse(&other, &re), LAZYDFA_OK);
    CODE(lazydfa_cache_new(&c, &re), LAZYDFA_OK);
    CODE(lazydfa_pieces_begin(&c, LAZYDFA_UNANCHORED, 0, -1, 0), LAZYDFA_OK);
    READS(&c, " foo1  ", LAZYDFA_OK, 1);
    ENDS(&c, -1, 5, 0);
    CODE(lazydfa_cache_close(&c), LAZYDFA_OK);
    CODE(lazydfa_regex_close(&re), LAZYDFA_OK);
    CODE(lazydfa_regex_close(&other), LAZYDFA_OK);
    CODE(lazydfa_builder_close(&b), LAZYDFA_OK);
}

/* Searches a span of a random text backward, in pieces from its end on whose bytes are in reverse order, and compares
   this with lazydfa_find_start. */
static void cut_back(lazydfa_cache *pieces, lazydfa_cache *whole, const char *letters) {
    uint8_t hay[300], back[300];
    size_t i, length = 1 + below(sizeof hay - 1), at;
    uint32_t kinds = (uint32_t)strlen(letters), done = 0;
    lazydfa_input in = lazydfa_whole(length);
    lazydfa_half is, wanted;
    lazydfa_status status, other;
    for (i = 0; i < length; i++) hay[i] = (uint8_t)letters[below(8) ? below(2) : below(kinds)];
    in.anchored = LAZYDFA_ANCHORED_YES;
    in.start = below((uint32_t)length);
    in.end = in.start + below((uint32_t)(length - in.start) + 1);
    in.earliest = below(4) == 0;
    other = lazydfa_find_start(whole, hay, length, &in, &wanted);
    CODE(lazydfa_pieces_begin(pieces, in.anchored, 0, in.end < length ? hay[in.end] : -1, in.earliest), LAZYDFA_OK);
    for (at = in.end; at > in.start && !done;) {
        size_t more = below(3) ? below(9) : below(120);
        if (more > at - in.start) more = at - in.start;
        for (i = 0; i < more; i++) back[i] = hay[at - 1 - i];
        CODE(lazydfa_pieces_read(pieces, back, more, &done), LAZYDFA_OK);
        at -= more;
    }
    status = lazydfa_pieces_end(pieces, in.start > 0 ? hay[in.start - 1] : -1, &is);
    CHECK(status.code == other.code);
    if (other.code == LAZYDFA_OK) CHECK(in.end - is.offset == wanted.offset && is.pattern == wanted.pattern);
    else CHECK(other.code == LAZYDFA_NONE);
}

static void cuts_back(void) {
    static const char *texts[][2] = {
        { "[a-z]+", "a bz;" },    { "a[ab]{8}c", "abc" },      { "(?m)^ab*$", "ab\n" }, { "(?R)(?m)^b*$", "b\r\n" },
        { "\\bab\\b|b+a", "ab ." }, { "(?:ab|a)(?:c|bcd)", "abcd" }, { "\\Ba*", "ab" },    { "[ab]{3}a.*", "ab" },
        { "a??\\z|^b+", "ab" },
    };
    size_t i;
    int turn;
    for (i = 0; i < sizeof texts / sizeof *texts; i++) {
        lazydfa_cache pieces = LAZYDFA_INIT, whole = LAZYDFA_INIT;
        open_both(&whole, &pieces, texts[i][0]);
        for (turn = 0; turn < 300; turn++) {
            seed = (uint32_t)(turn * 9 + (int)i + 1);
            cut_back(&pieces, &whole, texts[i][1]);
        }
        CODE(lazydfa_cache_close(&pieces), LAZYDFA_OK);
        CODE(lazydfa_cache_close(&whole), LAZYDFA_OK);
    }
}

int main(void) {
    searches();
    beside();
    modes();
    quits();
    gives_up();
    skips();
    handles();
    numbers();
    greps();
    cuts();
    reverses();
    cuts_back();
    return counted();
}
