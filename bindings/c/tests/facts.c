/* Checks what all matches of a pattern have in common: a table of patterns, random patterns whose matches must have the
   facts, every amount of room for what is written, and every kind of invalid argument. Prints each check that fails,
   and how many checks there were. */
#include <stdio.h>
#include <string.h>
#include "check.h"

/* Returns the facts of a pattern as text: ^, $ and = for the flags, then the prefix and the literals, with a bar after
   each. */
static const char *shown(const char *pattern, size_t length, const lazydfa_options *options) {
    static char out[512];
    uint8_t read[200];
    size_t lengths[20], at, i;
    char *end = out;
    lazydfa_facts facts;
    lazydfa_status status = lazydfa_text_facts(pattern, length, options, &facts, read, sizeof read, lengths, 20);
    if (status.code != LAZYDFA_OK) {
        static const lazydfa_facts none;
        CHECK(!memcmp(&facts, &none, sizeof facts));
        sprintf(out, "%u at %lu", (unsigned)status.code, (unsigned long)status.offset);
        return out;
    }
    CHECK(facts.length <= sizeof read && facts.count <= 20 && facts.reserved == 0);
    CHECK(facts.anchored_start <= 1 && facts.anchored_end <= 1 && facts.exact <= 1);
    if (facts.anchored_start) *end++ = '^';
    if (facts.anchored_end) *end++ = '$';
    if (facts.exact) *end++ = '=';
    end += sprintf(end, "%.*s|", (int)facts.prefix, (const char *)read);
    for (i = 0, at = facts.prefix; i < facts.count; at += lengths[i++])
        end += sprintf(end, "%.*s|", (int)lengths[i], (const char *)read + at);
    CHECK(at == facts.length);
    return out;
}

#define HAS(pattern, wanted)                                                                 \
    do {                                                                                     \
        const char *is_ = shown(pattern, sizeof(pattern) - 1, NULL);                         \
        CHECK(!strcmp(is_, wanted) || (printf("%s: %s\n", pattern, is_), 0));                \
    } while (0)

static void table(void) {
    HAS("", "=|");
    HAS("abc", "=abc|abc|");
    HAS("^abc$", "^$=abc|abc|");
    HAS("\\Aabc\\z", "^$=abc|abc|");
    HAS("(?m)^abc$", "=abc|abc|");
    HAS("^ab+*", "^a|a|");
    HAS("^a*b", "^|b|");
    HAS("user=[a-z]+77[0-9]@example\\.org", "user=|user=|77|@example.org|");
    HAS("foo.*bar", "foo|foo|bar|");
    HAS("\\bfoo", "=foo|foo|");
    HAS("(foo)(?:b(a)r)", "=foobar|foobar|");
    HAS("(abc)+x?", "abc|abc|");
    HAS("abc{2}", "=abcc|abc|");
    HAS("(?:abc){0}", "=|");
    HAS("(?:ab)?cd", "|cd|");
    HAS("(?:ab){0,3}", "|");
    HAS("a{2,}b", "aa|a|b|");
    HAS("a(?:b|)c", "a|a|c|");
    HAS("a|b", "|");
    HAS("^a|^b", "^|");
    HAS("^a|b", "|");
    HAS("a$|b$", "$|");
    HAS("(?:^a)?", "|");
    HAS("x(?:^a)", "^=xa|xa|");
    HAS("\xC3\xA9+", "\xC3\xA9|\xC3\xA9|");
}

/* A case-insensitive letter is not a literal. */
static void cases(void) {
    HAS("(?i)abc", "|");
    HAS("(?i)1a22", "1|1|22|");
    HAS("a(?i:b)c", "a|a|c|");
    HAS("(?i)a(?-i:b)c", "|b|");
    HAS("(?i)k", "|");
    HAS("(?i)\xC3\xA9x1", "\xC3|1|");
}

/* An alternation has no literals, but its alternatives may have a common prefix. */
static void alternations(void) {
    HAS("^(?:foo|fob)x", "^fo|x|");
    HAS("foo(?:bar|baz)", "fooba|foo|");
    HAS("(?:abc|xbc)d", "|d|");
}

#define HAS_WITH(option, pattern, wanted)                                                    \
    do {                                                                                     \
        lazydfa_options o_ = LAZYDFA_OPTIONS_INIT;                                           \
        const char *is_;                                                                     \
        o_.option = 1;                                                                       \
        is_ = shown(pattern, sizeof(pattern) - 1, &o_);                                      \
        CHECK(!strcmp(is_, wanted) || (printf("%s: %s\n", pattern, is_), 0));                \
    } while (0)

static void options(void) {
    HAS_WITH(case_insensitive, "a1b", "|1|");
    HAS_WITH(case_insensitive, "(?-i)a1b", "=a1b|a1b|");
    HAS_WITH(multi_line, "^a$", "=a|a|");
    HAS_WITH(multi_line, "(?-m)^a$", "^$=a|a|");
    HAS_WITH(ignore_whitespace, "a b # c", "=ab|ab|");
    HAS_WITH(octal, "\\141", "=a|a|");
    HAS_WITH(swap_greed, "ab+", "ab|ab|");
    HAS_WITH(bytes, "(?-u)a\\xFFb", "=a\xFF" "b|a\xFF" "b|");
    HAS("(?-u)\\xFF", "40 at 5");
    HAS_WITH(nest_limit, "(a)", "=a|a|");
    HAS_WITH(nest_limit, "((a))", "40 at 1");
    HAS_WITH(size_limit, "a", "=a|a|");
}

static void errors(void) {
    HAS("foo(b", "40 at 3");
    HAS("ab\xFF", "41 at 2");
    HAS("(a{1000}){1000}", "aaaaaaaaaa|a|");
}

/* A literal of any length is written whole; a prefix of it is long, and the flag `exact` is not set unless it is the
   whole literal. */
static void long_literals(void) {
    static char pattern[5000];
    static uint8_t read[10000];
    size_t length, lengths[1];
    lazydfa_facts facts;
    for (length = 1; length <= sizeof pattern; length += length < 70 ? 1 : 493) {
        memset(pattern, 'a', length);
        CHECK(lazydfa_text_facts(pattern, length, NULL, &facts, read, sizeof read, lengths, 1).code == LAZYDFA_OK);
        CHECK(facts.count == 1 && lengths[0] == length && facts.length == facts.prefix + length);
        CHECK(facts.prefix <= length && (facts.prefix == length || facts.prefix >= 64));
        CHECK(facts.exact == (facts.prefix == length));
        CHECK(!memcmp(read, pattern, facts.prefix) && !memcmp(read + facts.prefix, pattern, length));
    }
}

/* Checks that exactly as much is written as there is room for. */
static void rooms(void) {
    static const char pattern[] = "ab.cde.f", whole[] = "ababcdef";
    static const size_t sizes[3] = { 2, 3, 1 };
    lazydfa_facts facts;
    size_t room, count_room, i;
    for (room = 0; room <= 10; room++)
        for (count_room = 0; count_room <= 4; count_room++) {
            uint8_t read[11];
            size_t lengths[5];
            memset(read, '#', sizeof read);
            memset(lengths, 7, sizeof lengths);
            CHECK(lazydfa_text_facts(pattern, 8, NULL, &facts, room ? read : NULL, room, count_room ? lengths : NULL,
                                     count_room).code == LAZYDFA_OK);
            CHECK(facts.prefix == 2 && facts.count == 3 && facts.length == 8 && !facts.exact);
            for (i = 0; i < sizeof read; i++) CHECK(read[i] == (i < room && i < 8 ? (uint8_t)whole[i] : '#'));
            for (i = 0; i < 5; i++) {
                size_t kept;
                memset(&kept, 7, sizeof kept);
                CHECK(lengths[i] == (i < count_room && i < 3 ? sizes[i] : kept));
            }
        }
}

static void nulls(void) {
    static const lazydfa_facts none;
    lazydfa_facts facts;
    uint8_t read[1];
    size_t lengths[1];
    CHECK(lazydfa_text_facts("a", 1, NULL, NULL, read, 1, lengths, 1).code == LAZYDFA_ARGUMENT);
    memset(&facts, 9, sizeof facts);
    CHECK(lazydfa_text_facts(NULL, 1, NULL, &facts, read, 1, lengths, 1).code == LAZYDFA_ARGUMENT);
    CHECK(!memcmp(&facts, &none, sizeof facts));
    memset(&facts, 9, sizeof facts);
    CHECK(lazydfa_text_facts("a", 1, NULL, &facts, NULL, 1, lengths, 1).code == LAZYDFA_ARGUMENT);
    CHECK(!memcmp(&facts, &none, sizeof facts));
    memset(&facts, 9, sizeof facts);
    CHECK(lazydfa_text_facts("a", 1, NULL, &facts, read, 1, NULL, 1).code == LAZYDFA_ARGUMENT);
    CHECK(!memcmp(&facts, &none, sizeof facts));
    CHECK(lazydfa_text_facts(NULL, 0, NULL, &facts, NULL, 0, NULL, 0).code == LAZYDFA_OK);
    CHECK(facts.exact == 1 && facts.length == 0 && facts.count == 0);
    memset(&facts, 9, sizeof facts);
    read[0] = 9;
    lengths[0] = 9;
    CHECK(lazydfa_text_facts("(", 1, NULL, &facts, read, 1, lengths, 1).code == LAZYDFA_SYNTAX);
    CHECK(!memcmp(&facts, &none, sizeof facts) && read[0] == 9 && lengths[0] == 9);
}

/* Returns a pseudo-random number; the seed is fixed. */
static unsigned below(unsigned limit) {
    static uint64_t state = 83;
    state = state * 6364136223846793005u + 1442695040888963407u;
    return (unsigned)(state >> 33) % limit;
}

/* Writes a random pattern, and returns its end. */
static char *expression(char *at, int depth) {
    static const char *const simple[] = { "a", "b", "ab", "ba", "bab", ".", "[ab]", "[^a]", "^", "$", "(?m:^)",
                                          "(?-u:\\b)",
                                          "(?-u:\\B)", "\\w", "(?i:a)", "(?i:ab)", "", "\\n", "aabb", "\xC3\xA9",
                                          "(?-u:\\xFFa)", "(?-u:\\xC3)" };
    static const char *const counts[] = { "*", "+", "?", "*?", "+?", "{2}", "{0,2}", "{1,3}?", "{2,}", "{0}" };
    unsigned i, parts;
    if (!depth || below(4) == 0) return at + sprintf(at, "%s", simple[below(sizeof simple / sizeof *simple)]);
    switch (below(4)) {
    case 0:
        at = expression(at + sprintf(at, below(2) ? "(" : "(?:"), depth - 1);
        return at + sprintf(at, ")%s", counts[below(sizeof counts / sizeof *counts)]);
    case 1:
        at = expression(at + sprintf(at, below(2) ? "(" : "(?:"), depth - 1);
        at = expression(at + sprintf(at, "|"), depth - 1);
        return at + sprintf(at, ")");
    default:
        for (i = 0, parts = 2 + below(3); i < parts; i++) at = expression(at, depth - 1);
        return at;
    }
}

/* How many matches were checked, and for how many of them the pattern had each fact. */
static unsigned long seen, begun, ended, whole, led, held;

/* Checks a match of a haystack against the facts of its pattern. */
static void check_match(const char *pattern, const char *hay, size_t length, const lazydfa_match *match,
                        const lazydfa_facts *facts, const uint8_t *read, const size_t *lengths) {
    size_t size = match->end - match->start, at, i, k;
    int holds = size >= facts->prefix && !memcmp(hay + match->start, read, facts->prefix);
    if (facts->anchored_start) holds &= match->start == 0;
    if (facts->anchored_end) holds &= match->end == length;
    if (facts->exact) holds &= size == facts->prefix;
    for (i = 0, at = facts->prefix; i < facts->count; at += lengths[i++]) {
        int inside = 0;
        for (k = 0; k + lengths[i] <= size; k++) inside |= !memcmp(hay + match->start + k, read + at, lengths[i]);
        holds &= inside && lengths[i];
    }
    if (!holds) printf("%s in %s: %lu..%lu\n", pattern, hay, (unsigned long)match->start, (unsigned long)match->end);
    CHECK(holds);
    seen++;
    begun += facts->anchored_start;
    ended += facts->anchored_end;
    whole += facts->exact;
    led += facts->prefix > 0;
    held += facts->count > 1;
}

/* Searches random haystacks, of text or of bytes, for a pattern. */
static void search(const char *pattern, lazydfa_cache *cache, int is_text, const lazydfa_facts *facts,
                   const uint8_t *read, const size_t *lengths) {
    static const char *const parts[] = { "a", "b", "ab", "ba", "aabb", "bab", "A", "\n", "\xC3\xA9", "a\n",
                                         "\xFF" "a", "\xC3" };
    char hay[100];
    int round;
    for (round = 0; round < 4; round++) {
        size_t length = 0, i, count = below(12);
        lazydfa_iteration left;
        lazydfa_match match;
        hay[0] = 0;
        for (i = 0; i < count; i++) length += (size_t)sprintf(hay + length, "%s", parts[below(is_text ? 10 : 12)]);
        left = lazydfa_iterate(lazydfa_whole(length));
        while (lazydfa_next(cache, bytes(hay), length, &left, &match).code == LAZYDFA_OK)
            check_match(pattern, hay, length, &match, facts, read, lengths);
    }
}

static void random_patterns(void) {
    static char pattern[5000];
    static uint8_t read[5000];
    static size_t lengths[1000];
    int i;
    for (i = 0; i < 20000; i++) {
        lazydfa_regex regex = LAZYDFA_INIT;
        lazydfa_cache cache = LAZYDFA_INIT;
        lazydfa_facts facts;
        lazydfa_options options = LAZYDFA_OPTIONS_INIT;
        char *end = expression(pattern, 1 + (int)below(4));
        size_t length;
        lazydfa_status status;
        if (i % 2) end = expression(end + sprintf(end, "(?s:.)*"), 1 + (int)below(3));
        length = (size_t)(end - pattern);
        options.bytes = below(3) == 0;
        options.case_insensitive = below(4) == 0;
        options.multi_line = below(8) == 0;
        options.swap_greed = below(8) == 0;
        options.match_kind = below(4) ? LAZYDFA_LEFTMOST_FIRST : LAZYDFA_ALL;
        status = lazydfa_text_facts(pattern, length, &options, &facts, read, sizeof read, lengths, 1000);
        if (status.code == LAZYDFA_SYNTAX) continue;
        CHECK(status.code == LAZYDFA_OK && facts.length <= sizeof read && facts.count <= 1000);
        if (lazydfa_regex_new(&regex, pattern, length, &options, NULL).code != LAZYDFA_OK) continue;
        CHECK(lazydfa_cache_new(&cache, &regex).code == LAZYDFA_OK);
        search(pattern, &cache, !options.bytes, &facts, read, lengths);
        lazydfa_cache_close(&cache);
        lazydfa_regex_close(&regex);
    }
    CHECK(seen > 10000 && begun > 500 && ended > 500 && whole > 1000 && led > 1000 && held > 200);
}

int main(void) {
    table();
    cases();
    alternations();
    options();
    errors();
    long_literals();
    rooms();
    nulls();
    random_patterns();
    return counted();
}
