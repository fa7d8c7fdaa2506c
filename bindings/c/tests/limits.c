/* Tests limits on texts, regexes that only search forward, and sizes of tables. Prints each check that fails, and how
   many checks there were. */
#include <stdio.h>
#include <string.h>
#include "check.h"
#include "nfas.h"

/* Returns the code of building a regex from texts with these options. */
static uint32_t built(const lazydfa_text *texts, size_t count, const lazydfa_options *options) {
    lazydfa_regex regex = LAZYDFA_INIT;
    lazydfa_status status = lazydfa_regex_any_of(&regex, texts, count, options, NULL);
    CHECK(lazydfa_regex_close(&regex).code == (status.code == LAZYDFA_OK ? LAZYDFA_OK : LAZYDFA_CLOSED));
    CHECK(status.offset == 0 || status.code == LAZYDFA_SYNTAX);
    return status.code;
}

/* Returns the code of reporting the facts of a text with these options. */
static uint32_t read_facts(const lazydfa_text *text, const lazydfa_options *options) {
    lazydfa_facts facts;
    lazydfa_status status = lazydfa_text_facts(text->text, text->length, options, &facts, NULL, 0, NULL, 0);
    CHECK(status.code == LAZYDFA_OK || (facts.prefix == 0 && facts.count == 0 && facts.length == 0));
    return status.code;
}

static void text_limit(void) {
    static const lazydfa_text texts[2] = { { "abc", 3 }, { "de", 2 } };
    lazydfa_options options = LAZYDFA_OPTIONS_INIT;
    CHECK(built(texts, 2, &options) == LAZYDFA_OK);
    options.text_limit = 1;
    CHECK(built(texts, 2, &options) == LAZYDFA_TOO_LARGE);
    options.text_limit = 4;
    CHECK(built(texts, 1, &options) == LAZYDFA_OK && built(texts, 2, &options) == LAZYDFA_TOO_LARGE);
    options.text_limit = 5;
    CHECK(built(texts, 2, &options) == LAZYDFA_OK);
    options.text_limit = 2;
    CHECK(read_facts(&texts[0], &options) == LAZYDFA_TOO_LARGE && read_facts(&texts[1], &options) == LAZYDFA_OK);
    options.text_limit = 0;
    options.zeros = LAZYDFA_ZERO_TEXT_LIMIT;
    CHECK(built(texts, 0, &options) == LAZYDFA_OK && built(texts, 1, &options) == LAZYDFA_TOO_LARGE);
}

/* Texts, the number of class escapes of each, and the code without a limit. */
static void class_limit(void) {
    static const struct {
        lazydfa_text text;
        size_t escapes;
        uint32_t code;
    } rows[] = {
        { { "ab[c-d].", 8 }, 0, LAZYDFA_OK },        { { "\\n\\.\\x41", 8 }, 0, LAZYDFA_OK },
        { { "\\d\\D\\s\\S\\w\\W", 12 }, 6, LAZYDFA_OK }, { { "\\pL\\PL\\p{Greek}", 15 }, 3, LAZYDFA_OK },
        { { "[\\w\\d]x\\w", 9 }, 3, LAZYDFA_OK },    { { "\\\\w", 3 }, 1, LAZYDFA_OK },
        { { "pPwWdDsS", 8 }, 0, LAZYDFA_OK },        { { "\\w(", 3 }, 1, LAZYDFA_SYNTAX },
    };
    lazydfa_options options = LAZYDFA_OPTIONS_INIT;
    size_t i;
    for (i = 0; i < sizeof rows / sizeof *rows; i++) {
        options.class_limit = options.zeros = 0;
        CHECK(built(&rows[i].text, 1, &options) == rows[i].code);
        options.zeros |= LAZYDFA_ZERO_CLASS_LIMIT;
        options.class_limit = rows[i].escapes;
        CHECK(built(&rows[i].text, 1, &options) == rows[i].code);
        CHECK(read_facts(&rows[i].text, &options) == rows[i].code);
        if (rows[i].escapes == 0) continue;
        options.class_limit = rows[i].escapes - 1;
        CHECK(built(&rows[i].text, 1, &options) == LAZYDFA_TOO_LARGE);
        CHECK(read_facts(&rows[i].text, &options) == LAZYDFA_TOO_LARGE);
    }
}

/* Compares what a regex that only searches forward finds with what a regex with both parts finds. */
static void forward_only(const char *pattern, const char *hay, uint32_t kind) {
    lazydfa_regex regex = LAZYDFA_INIT, forward = LAZYDFA_INIT, back = LAZYDFA_INIT;
    lazydfa_cache cache = LAZYDFA_INIT, other = LAZYDFA_INIT;
    lazydfa_options options = LAZYDFA_OPTIONS_INIT;
    lazydfa_half wanted, half;
    lazydfa_input whole = lazydfa_whole(strlen(hay));
    lazydfa_status status;
    lazydfa_match match;
    uint32_t wanted_which = 9, which = 9;
    size_t wanted_count, count;
    options.match_kind = kind;
    CHECK(lazydfa_regex_new(&regex, pattern, strlen(pattern), &options, NULL).code == 0);
    options.forward_only = 1;
    CHECK(lazydfa_regex_new(&forward, pattern, strlen(pattern), &options, NULL).code == 0);
    CHECK(lazydfa_cache_new(&cache, &regex).code == LAZYDFA_OK);
    CHECK(lazydfa_cache_new(&other, &forward).code == LAZYDFA_OK);
    status = lazydfa_find_end(&cache, bytes(hay), whole.end, &whole, &wanted);
    CHECK(lazydfa_find_end(&other, bytes(hay), whole.end, &whole, &half).code == status.code);
    CHECK(status.code != LAZYDFA_OK || (half.offset == wanted.offset && half.pattern == wanted.pattern));
    CHECK(lazydfa_is_match(&other, bytes(hay), whole.end, &whole).code == status.code);
    CHECK(lazydfa_which(&cache, bytes(hay), whole.end, &whole, 1, &wanted_which, 1, &wanted_count).code == LAZYDFA_OK);
    CHECK(lazydfa_which(&other, bytes(hay), whole.end, &whole, 1, &which, 1, &count).code == LAZYDFA_OK);
    CHECK(count == wanted_count && which == wanted_which);
    /* The start of a match is known without a backward search if the match ends where the search began, or is
       anchored, by its mode or by the pattern. */
    if (status.code == LAZYDFA_OK && wanted.offset > 0) {
        CHECK(lazydfa_find(&other, bytes(hay), whole.end, &whole, &match).code
              == (*pattern == '^' ? LAZYDFA_OK : LAZYDFA_NOT_A_PAIR));
        whole.anchored = LAZYDFA_ANCHORED_YES;
        half = wanted;
        status = lazydfa_find_end(&cache, bytes(hay), strlen(hay), &whole, &half);
        CHECK(lazydfa_find(&other, bytes(hay), strlen(hay), &whole, &match).code == status.code);
        CHECK(status.code != LAZYDFA_OK || (match.start == 0 && match.end == half.offset));
        whole.end = wanted.offset;
        CHECK(lazydfa_find_start(&other, bytes(hay), strlen(hay), &whole, &half).code == LAZYDFA_NONE);
    }
    CHECK(lazydfa_regex_reverse(&forward, &back).code == LAZYDFA_OK);
    CHECK(lazydfa_regex_close(&back).code == LAZYDFA_OK);
    CHECK(lazydfa_cache_close(&cache).code == LAZYDFA_OK && lazydfa_cache_close(&other).code == LAZYDFA_OK);
    CHECK(lazydfa_regex_close(&regex).code == LAZYDFA_OK && lazydfa_regex_close(&forward).code == LAZYDFA_OK);
}

/* Checks the sizes of two regexes built from NFAs, which were computed by hand. */
static void sizes(void) {
    lazydfa_builder b = LAZYDFA_INIT;
    lazydfa_regex re = LAZYDFA_INIT, closed = LAZYDFA_INIT;
    lazydfa_cache cache = LAZYDFA_INIT;
    lazydfa_edge edges[2];
    lazydfa_starts starts;
    uint32_t pattern;
    size_t size = 7;
    memset(edges, 0, sizeof edges);
    edges[0].lo = edges[0].hi = 'a';
    edges[1].lo = edges[1].hi = 'c';
    CHECK(lazydfa_builder_new(&b).code == LAZYDFA_OK);
    CHECK(lazydfa_start_pattern(&b, &pattern).code == LAZYDFA_OK);
    CHECK(lazydfa_add_match(&b, &edges[0].next).code == LAZYDFA_OK);
    edges[1].next = edges[0].next;
    CHECK(lazydfa_add_sparse(&b, edges, 2, &starts.anchored).code == LAZYDFA_OK);
    CHECK(lazydfa_finish_pattern(&b, starts.anchored, &pattern).code == LAZYDFA_OK);
    CHECK(lazydfa_add_unanchored_prefix(&b, starts.anchored, &starts.unanchored).code == LAZYDFA_OK);
    CHECK(lazydfa_regex_size(&closed, &size).code == LAZYDFA_CLOSED && size == 7);
    CHECK(lazydfa_regex_build(&re, &b, starts, NULL).code == LAZYDFA_OK);
    /* a match state, a sparse state of two ranges, and the loop of a union and a range */
    CHECK(lazydfa_regex_size(&re, &size).code == LAZYDFA_OK && size == 4 * 16 + 2 * 8);
    CHECK(lazydfa_regex_size((lazydfa_regex *)(void *)&b, &size).code == LAZYDFA_KIND);
    CHECK(lazydfa_cache_new(&cache, &re).code == LAZYDFA_OK);
    CHECK(lazydfa_regex_size((lazydfa_regex *)(void *)&cache, &size).code == LAZYDFA_KIND && size == 80);
    CHECK(lazydfa_regex_size(NULL, &size).code == LAZYDFA_ARGUMENT);
    CHECK(lazydfa_regex_size(&re, NULL).code == LAZYDFA_ARGUMENT);
    CHECK(lazydfa_cache_close(&cache).code == LAZYDFA_OK && lazydfa_regex_close(&re).code == LAZYDFA_OK);
    CHECK(lazydfa_builder_close(&b).code == LAZYDFA_OK);
}

int main(void) {
    static const char *const patterns[] = { "[a-z]+", "b|bc", "x*", "\xC3\xA9", "^b", "$", "(?-u:\\b)c", "", "q" };
    static const char *const hays[] = { "", "12 abc", "bcb", "\xC3\xA9", "xx" };
    size_t i, j;
    text_limit();
    class_limit();
    for (i = 0; i < sizeof patterns / sizeof *patterns; i++)
        for (j = 0; j < sizeof hays / sizeof *hays; j++) {
            forward_only(patterns[i], hays[j], LAZYDFA_LEFTMOST_FIRST);
            forward_only(patterns[i], hays[j], LAZYDFA_ALL);
        }
    sizes();
    return counted();
}
