/* Measures the memory that the allocations of caches take, and compares it with what lazydfa_cache_usage reports: after
   each search of short and long texts with twelve patterns; then with two of these and two others, with capacities so
   small that caches are cleared; with four patterns for groups; and for 300 caches that are kept within a limit. The linker gives this file the
   library's calls of malloc, realloc and free (--wrap). Prints what each cache took, each check that fails, and how
   many checks there were. */
#include <malloc.h>
#include <stdio.h>
#include <stdlib.h>
#include <string.h>
#include "lazydfa_automata.h"

void *__real_malloc(size_t size);
void *__real_realloc(void *at, size_t size);
void __real_free(void *at);
void *__wrap_malloc(size_t size);
void *__wrap_realloc(void *at, size_t size);
void __wrap_free(void *at);

enum { LENGTH = 3000000, SHORT = 100, LITERAL = 8000, KEPT = 300, SEARCHES = 1200 };

/* The most that the allocations of a direction take, in capacities: while it is cleared, and between searches. */
enum { CLEARED = 5, BETWEEN = 4 };

static size_t taken, peak; /* by all blocks now, and the maximum since it was last reset */
static int is_exact;       /* whether malloc reports the real size of a block: not under a sanitizer */
static long made, failed;

#define CHECK(fact, what)                                                     \
    do {                                                                      \
        made++;                                                               \
        if (!(fact) && failed++ < 20) {                                       \
            printf("%s:%d: %s: %s\n", __FILE__, __LINE__, what, #fact);       \
        }                                                                     \
    } while (0)

/* The real size of a block: its usable size, and the size field that malloc keeps before it. */
static size_t block(void *at) { return at ? malloc_usable_size(at) + sizeof(size_t) : 0; }

static void add(size_t bytes) {
    taken += bytes;
    if (taken > peak) peak = taken;
}

void *__wrap_malloc(size_t size) {
    void *at = __real_malloc(size);
    add(block(at));
    return at;
}

/* Counts as if each block were moved: while it is copied, there are two. */
void *__wrap_realloc(void *at, size_t size) {
    size_t before = block(at);
    void *next = __real_realloc(at, size);
    if (!next) return NULL;
    add(block(next));
    taken -= before;
    return next;
}

void __wrap_free(void *at) {
    taken -= block(at);
    __real_free(at);
}

/* ---- Texts and regexes ---- */

static uint32_t random_now;

static uint32_t random_below(uint32_t limit) {
    random_now = random_now * 1664525u + 1013904223u;
    return (random_now >> 8) % limit;
}

static uint8_t text[LENGTH];

/* Fills the text with these letters, and occasionally a word. */
static void fill(const char *letters, const char *word) {
    size_t i, count = strlen(letters), length = strlen(word);
    random_now = 7;
    for (i = 0; i < LENGTH; i++) text[i] = (uint8_t)letters[random_below((uint32_t)count)];
    for (i = 500; i + length < LENGTH; i += 200 + random_below(4000)) memcpy(text + i, word, length);
}

/* Whether regexes are built for groups. */
static uint32_t groups;

static void open_regex(lazydfa_regex *regex, const char *pattern, size_t capacity) {
    lazydfa_options settings = LAZYDFA_OPTIONS_INIT;
    lazydfa_status status;
    settings.cache_capacity = capacity;
    settings.groups = groups;
    status = lazydfa_regex_new(regex, pattern, strlen(pattern), &settings, NULL);
    CHECK(status.code == LAZYDFA_OK, pattern);
}

/* ---- One cache ---- */

static lazydfa_usage usage_of(lazydfa_cache *cache) {
    lazydfa_usage usage;
    CHECK(lazydfa_cache_usage(cache, &usage).code == LAZYDFA_OK, "usage");
    return usage;
}

/* Checks that the reported memory of a cache is within a tenth of the size of its blocks, and returns what was
   reported. */
static lazydfa_usage compare(lazydfa_cache *cache, size_t before, const char *pattern) {
    lazydfa_usage usage = usage_of(cache);
    size_t is = taken - before;
    CHECK(is * 10 <= usage.held * 11, pattern);
    CHECK(!is_exact || usage.held * 10 <= is * 11, pattern);
    CHECK(usage.memory + usage.leaps <= usage.held, pattern);
    return usage;
}

/* Searches short texts, one after another, and then the long one for all matches. */
static void search(lazydfa_cache *cache, size_t before, const char *pattern) {
    lazydfa_iteration at = lazydfa_iterate(lazydfa_whole(LENGTH));
    lazydfa_match match;
    size_t i;
    for (i = 0; i < LENGTH / 10; i += SHORT) {
        lazydfa_input input = lazydfa_whole(SHORT);
        uint32_t code = lazydfa_find(cache, text + i, SHORT, &input, &match).code;
        CHECK(code == LAZYDFA_OK || code == LAZYDFA_NONE, pattern);
        compare(cache, before, pattern);
    }
    while (lazydfa_next(cache, text, LENGTH, &at, &match).code == LAZYDFA_OK) compare(cache, before, pattern);
}

typedef struct {
    const char *pattern, *letters, *word;
    size_t capacity; /* of each direction */
} row;

/* The beginning of the text, anchored: as many DFA states as letters, each with one NFA state. */
static char literal[LITERAL + 2] = "^";

static const row rows[] = {
    { "(a|b)*a(a|b){6}c", "ab", "abbabbac", 1 << 20 },
    { "[0-9]{4}-[0-9]{2}-[0-9]{2}", "0123456789-", "2024-02-29", 1 << 20 },
    { "(?-u:\\b)[0-9]+(?-u:\\b)", "0123456789 ", " 12 ", 1 << 20 },
    { "[ab]{10}c|[ab]{9}d", "ab", "abababababc", 1 << 20 },
    { "[a-q][^u-z]{5}x", "abcdefghijklmnopqrstuvwxyz", "aaaaaax", 1 << 20 },
    { "foo|bar|baz|quux", "abfoqruxz ", "quux", 1 << 20 },
    { "[a-z]+", "abcdefgh 0123", "word", 1 << 20 },
    { "\"[^\"]*\"", "abc \"", "\"it\"", 1 << 20 },
    { "(?i)sherlock|holmes|watson", "abcehklmnorstw ", "Holmes", 1 << 20 },
    { "a.{8}b", "abcdefgh ", "aaaabbbbb", 1 << 20 },
    { "\\pL+ \\pL+", "abcdef \xC3\xA9", "ab cd", 1 << 20 },
    { "[ab]*a[ab]{9}c", "ab", "aabababababc", 1 << 20 },
    /* with capacities so small that the cache is cleared */
    { "a.{8}b", "abcdefgh ", "aaaabbbbb", 1 << 17 },
    { "a.{8}b", "abcdefgh ", "aaaabbbbb", 1 << 15 },
    { "[ab]*a[ab]{9}c", "ab", "aabababababc", 1 << 16 },
    { "[ab]*a[ab]{60}c", "ab", "aabababababc", 1 << 20 },
    { literal, "ab", "", 800000 },
};

/* With groups: of small patterns, of one with many states and of one with many groups. */
static const row grouped[] = {
    { "(a|b)*a(a|b){6}(c)", "ab", "abbabbac", 1 << 20 },
    { "([0-9]{4})-(?P<month>[0-9]{2})-([0-9]{2})", "0123456789-", "2024-02-29", 1 << 20 },
    { "(\\w+) (\\w+) (\\pL+)", "abcdef \xC3\xA9", "ab cd", 1 << 20 },
    { "((((((((((((a)b)c)d)e)f)g)h)i)j)k)l)+", "abcdefghijkl", "abcdefghijkl", 1 << 20 },
};

static void one_cache(const row *r) {
    lazydfa_regex regex = LAZYDFA_INIT;
    lazydfa_cache cache = LAZYDFA_INIT;
    lazydfa_usage usage;
    size_t before;
    fill(r->letters, r->word);
    memcpy(literal + 1, text, LITERAL);
    open_regex(&regex, r->pattern, r->capacity);
    before = peak = taken;
    CHECK(lazydfa_cache_new(&cache, &regex).code == LAZYDFA_OK, r->pattern);
    search(&cache, before, r->pattern);
    usage = compare(&cache, before, r->pattern);
    printf("%-26.26s %8lu %8lu %8lu %8lu %8lu %8lu %6lu\n", r->pattern, (unsigned long)r->capacity,
           (unsigned long)usage.memory, (unsigned long)usage.leaps, (unsigned long)usage.held,
           (unsigned long)(taken - before), (unsigned long)(peak - before),
           (unsigned long)(usage.forward_clears + usage.reverse_clears));
    CHECK(usage.memory + usage.leaps <= 2 * r->capacity, r->pattern);
    CHECK(groups || usage.held <= 2 * BETWEEN * r->capacity, r->pattern);
    /* A long text of a few letters is searched by leaps. */
    CHECK(groups || r > &rows[1] || usage.leaps > 1024, r->pattern);
    CHECK(peak - before <= CLEARED * r->capacity + usage.held, r->pattern);
    CHECK(lazydfa_cache_close(&cache).code == LAZYDFA_OK, r->pattern);
    CHECK(taken == before, r->pattern);
    CHECK(lazydfa_regex_close(&regex).code == LAZYDFA_OK, r->pattern);
}

/* ---- Many caches within a limit ---- */

static lazydfa_regex regexes[KEPT];
static lazydfa_cache caches[KEPT];
static size_t held[KEPT], used[KEPT];

/* Closes the least recently used cache except one, and returns what it held. */
static size_t close_oldest_but(int kept) {
    int i, oldest = -1;
    size_t was;
    for (i = 0; i < KEPT; i++)
        if (i != kept && used[i] && (oldest < 0 || used[i] < used[oldest])) oldest = i;
    if (oldest < 0) return 0;
    CHECK(lazydfa_cache_close(&caches[oldest]).code == LAZYDFA_OK, "close");
    used[oldest] = 0;
    was = held[oldest];
    held[oldest] = 0;
    return was;
}

/* Searches with one of many regexes, and drops caches until the remaining ones are within the limit. */
static void kept_within(size_t limit, size_t capacity, size_t length) {
    size_t before, sum = 0, most = 0, turn, closed;
    char pattern[80];
    int i;
    fill("ab", "ababababababc");
    for (i = 0; i < KEPT; i++) {
        char last = "defghijklmnopqr"[i / 20];
        sprintf(pattern, "%s[ab]{%d}c|[ab]{%d}%c", i % 3 ? "" : "a", 8 + i % 5, 9 + i / 5 % 4, last);
        open_regex(&regexes[i], pattern, capacity);
    }
    before = peak = taken;
    for (turn = 1; turn <= SEARCHES; turn++) {
        lazydfa_iteration at = lazydfa_iterate(lazydfa_whole(length));
        lazydfa_match match;
        int one = (int)random_below(KEPT);
        const uint8_t *value = text + random_below((uint32_t)(LENGTH - length));
        if (!used[one]) CHECK(lazydfa_cache_new(&caches[one], &regexes[one]).code == LAZYDFA_OK, "new");
        while (lazydfa_next(&caches[one], value, length, &at, &match).code == LAZYDFA_OK) continue;
        used[one] = turn;
        sum -= held[one];
        sum += held[one] = usage_of(&caches[one]).held;
        while (sum > limit && (closed = close_oldest_but(one)) > 0) sum -= closed;
        if (taken - before > most) most = taken - before;
        CHECK((taken - before) * 10 <= sum * 11, "kept");
        CHECK(sum <= limit || close_oldest_but(one) == 0, "kept");
    }
    CHECK((peak - before) * 10 <= (limit + (CLEARED + BETWEEN) * capacity) * 11, "kept");
    printf("%d caches within %lu: %lu held at last, %lu by malloc between searches at most, %lu at any time\n", KEPT,
           (unsigned long)limit, (unsigned long)sum, (unsigned long)most, (unsigned long)(peak - before));
    while (close_oldest_but(-1)) continue;
    CHECK(taken == before, "kept");
    for (i = 0; i < KEPT; i++) CHECK(lazydfa_regex_close(&regexes[i]).code == LAZYDFA_OK, "kept");
}

int main(void) {
    size_t i;
    void *at = malloc(1);
    is_exact = malloc_usable_size(at) > 1;
    free(at);
    printf("%-26s %8s %8s %8s %8s %8s %8s %6s\n", "pattern", "capacity", "memory", "leaps", "held", "malloc", "peak",
           "clears");
    for (i = 0; i < sizeof rows / sizeof *rows; i++) one_cache(&rows[i]);
    groups = 1;
    for (i = 0; i < sizeof grouped / sizeof *grouped; i++) one_cache(&grouped[i]);
    groups = 0;
    kept_within(2 << 20, 1 << 20, 300000);
    kept_within(2 << 20, 1 << 15, 20000);
    CHECK(taken == 0, "all");
    printf("%ld checks, %ld failed\n", made, failed);
    return failed != 0;
}
