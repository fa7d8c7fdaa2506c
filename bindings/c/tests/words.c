/* Searches for patterns with a Unicode word boundary in text of several scripts, and compares each match with what a
   plain backtracking matcher over characters finds. Prints each check that fails, and how many there were. */
#include <stdlib.h>
#include <string.h>
#include "check.h"

/* Characters of the haystacks: letters and digits of five scripts, a combining mark, and others. */
static const char *const characters[] = { "a", "b", "1", "_", " ", ".", "\xC3\xA9", "\xD0\xB4", "\xCE\xB1", "\xE5\xAD\x97",
                                          "\xCC\x81", "\xC2\xA0", "\xE2\x80\x94", "\xF0\x9F\x98\x80", "\xF0\x90\x8D\x88" };
/* Whether each is a word character by Unicode. */
static const char is_word[] = { 1, 1, 1, 1, 0, 0, 1, 1, 1, 1, 1, 0, 0, 0, 1 };
#define CHARACTERS (sizeof characters / sizeof *characters)
#define LONGEST 12

/* An element of a pattern: a look, or a character or class with a repetition. */
typedef struct {
    const char *text;
    int is_look; /* 0 none, 1 \b, 2 \B, 3 \b{start}, 4 \b{end} */
    int one;     /* the index of a character, -1 for \w, -2 for \W */
    int least, most, lazy;
} Element;

static const Element elements[] = {
    { "\\b", 1, 0, 0, 0, 0 },
    { "\\B", 2, 0, 0, 0, 0 },
    { "\\b{start}", 3, 0, 0, 0, 0 },
    { "\\b{end}", 4, 0, 0, 0, 0 },
    { "\\w", 0, -1, 1, 1, 0 },
    { "\\w+", 0, -1, 1, LONGEST, 0 },
    { "\\w*?", 0, -1, 0, LONGEST, 1 },
    { "\\W", 0, -2, 1, 1, 0 },
    { "\\W*", 0, -2, 0, LONGEST, 0 },
    { "a", 0, 0, 1, 1, 0 },
    { "b?", 0, 1, 0, 1, 0 },
    { "\xD0\xB4", 0, 7, 1, 1, 0 },
    { "\xE5\xAD\x97?", 0, 9, 0, 1, 0 },
    { "\xC3\xA9*", 0, 6, 0, LONGEST, 0 },
};
#define ELEMENTS (sizeof elements / sizeof *elements)

/* A haystack: its characters, and the offset of each. */
static int hay[LONGEST];
static size_t count, offsets[LONGEST + 1];
static char text[4 * LONGEST + 1];

/* A pattern: alternatives of elements. */
static int parts[2][4], lengths[2], alternatives;
static char pattern[128];
static lazydfa_text texts[2];

static unsigned long seed = 1;

static size_t below(size_t n) {
    seed = seed * 6364136223846793005UL + 1442695040888963407UL;
    return (size_t)(seed >> 33) % n;
}

static int word_at(size_t at) { return at < count && is_word[hay[at]]; }

static int holds(int look, size_t at) {
    int before = at > 0 && word_at(at - 1), after = word_at(at);
    if (look == 1) return before != after;
    if (look == 2) return before == after;
    return look == 3 ? !before && after : before && !after;
}

static int is_one(int one, size_t at) {
    if (at >= count) return 0;
    if (one >= 0) return hay[at] == one;
    return (one == -1) == is_word[hay[at]];
}

/* Returns where the preferred match of the rest of an alternative ends, or -1. */
static long match_rest(int which, int element, size_t at) {
    const Element *it;
    size_t n, most = 0;
    long end;
    if (element == lengths[which]) return (long)at;
    it = &elements[parts[which][element]];
    if (it->is_look) return holds(it->is_look, at) ? match_rest(which, element + 1, at) : -1;
    while (most < (size_t)it->most && is_one(it->one, at + most)) most++;
    if (most < (size_t)it->least) return -1;
    for (n = 0; n <= most - (size_t)it->least; n++) {
        end = match_rest(which, element + 1, at + (it->lazy ? (size_t)it->least + n : most - n));
        if (end >= 0) return end;
    }
    return -1;
}

/* Finds the first match from a character on: whether there is one, and its characters. */
static int find_from(size_t from, size_t *start, size_t *end) {
    int which;
    for (*start = from; *start <= count; ++*start)
        for (which = 0; which < alternatives; which++) {
            long at = match_rest(which, 0, *start);
            *end = (size_t)at;
            if (at >= 0) return 1;
        }
    return 0;
}

static void make_haystack(int is_ascii) {
    size_t i, length = 0;
    count = below(LONGEST);
    for (i = 0; i < count; i++) {
        hay[i] = (int)below(is_ascii ? 6 : CHARACTERS);
        offsets[i] = length;
        length += (size_t)sprintf(text + length, "%s", characters[hay[i]]);
    }
    offsets[count] = length;
    text[length] = 0;
}

static void make_pattern(void) {
    int which, i;
    char *at = pattern;
    alternatives = 1 + (int)below(2);
    for (which = 0; which < alternatives; which++) {
        lengths[which] = 1 + (int)below(4);
        if (which) at += sprintf(at, "|");
        texts[which].text = at;
        for (i = 0; i < lengths[which]; i++) {
            parts[which][i] = (int)below(i || which ? ELEMENTS : 4);
            at += sprintf(at, "%s", elements[parts[which][i]].text);
        }
        texts[which].length = (size_t)(at - texts[which].text);
    }
}

static void show(void) { printf("%s on %s\n", pattern, text); }

/* Compares all matches of an iteration, and those of searches for the first one from each character on. */
static void compare(lazydfa_cache *cache) {
    size_t length = offsets[count], from, start, end, last = 0;
    int has_last = 0;
    lazydfa_iteration at = lazydfa_iterate(lazydfa_whole(length));
    lazydfa_match match;
    lazydfa_half half;
    lazydfa_status status;
    int before = failed;
    for (from = 0; from <= count; from++) {
        lazydfa_input input = lazydfa_whole(length);
        int is = find_from(from, &start, &end);
        input.start = offsets[from];
        CODE(lazydfa_is_match(cache, bytes(text), length, &input), is ? LAZYDFA_OK : LAZYDFA_NONE);
        input.earliest = 1;
        CODE(lazydfa_is_match(cache, bytes(text), length, &input), is ? LAZYDFA_OK : LAZYDFA_NONE);
        input.earliest = 0;
        status = lazydfa_find(cache, bytes(text), length, &input, &match);
        CHECK(status.code == (is ? LAZYDFA_OK : LAZYDFA_NONE));
        CHECK(!is || (match.start == offsets[start] && match.end == offsets[end]));
        status = lazydfa_find_end(cache, bytes(text), length, &input, &half);
        CHECK(status.code == (is ? LAZYDFA_OK : LAZYDFA_NONE) && (!is || half.offset == offsets[end]));
    }
    for (from = 0;;) {
        int is = find_from(from, &start, &end);
        if (is && has_last && start == end && end == last) is = from < count && find_from(from + 1, &start, &end);
        status = lazydfa_next(cache, bytes(text), length, &at, &match);
        CHECK(status.code == (is ? LAZYDFA_OK : LAZYDFA_NONE));
        if (!is || status.code) break;
        CHECK(match.start == offsets[start] && match.end == offsets[end]);
        has_last = 1;
        from = last = end;
    }
    CODE(lazydfa_next(cache, bytes(text), length, &at, &match), LAZYDFA_NONE);
    if (failed > before) show();
}

/* Compares which alternatives match from each character on. The cache is one of a set of them. */
static void compare_set(lazydfa_cache *cache) {
    size_t from, start, found, n, room = below(3);
    uint32_t listed[2];
    int which, before = failed;
    for (from = 0; from <= count; from++) {
        lazydfa_input input = lazydfa_whole(offsets[count]);
        input.start = offsets[from];
        CODE(lazydfa_which(cache, bytes(text), offsets[count], &input, room, listed, 2, &found), LAZYDFA_OK);
        for (which = 0, n = 0; which < alternatives && (size_t)which < room; which++) {
            for (start = from; start <= count && match_rest(which, 0, start) < 0;) start++;
            if (start > count) continue;
            CHECK(n < found && listed[n] == (uint32_t)which);
            n++;
        }
        CHECK(n == found);
    }
    if (failed > before) show();
}

/* Finds the token at a character: its alternative, or -1, and where it ends. */
static int token_at(size_t at, size_t *end) {
    int which;
    for (which = 0; which < alternatives; which++) {
        long to = match_rest(which, 0, at);
        *end = (size_t)to;
        if (to >= 0) return *end > at ? which : -1;
    }
    return -1;
}

/* Compares the token at each character, and all tokens from there on. The cache is one of the alternatives as rules. */
static void compare_tokens(lazydfa_cache *cache) {
    lazydfa_match one, all[LONGEST];
    size_t length = offsets[count], from, at, end, listed, n;
    lazydfa_status status;
    int rule, before = failed;
    for (from = 0; from < count; from++) {
        lazydfa_input left = lazydfa_whole(length), rest;
        left.start = offsets[from];
        rest = left;
        rule = token_at(from, &end);
        status = lazydfa_token(cache, bytes(text), length, &left, &one);
        CHECK(status.code == (rule < 0 ? LAZYDFA_NO_TOKEN : LAZYDFA_OK));
        CHECK(rule < 0 ? status.offset == offsets[from] : one.pattern == (uint32_t)rule && one.end == offsets[end]);
        CHECK(rule < 0 || (one.start == offsets[from] && one.reserved == 0));
        CHECK(left.start == offsets[rule < 0 ? from : end] && left.end == length);
        status = lazydfa_tokens(cache, bytes(text), length, &rest, all, LONGEST, &listed);
        for (at = from, n = 0; at < count && (rule = token_at(at, &end)) >= 0; at = end, n++)
            CHECK(n < listed && all[n].start == offsets[at] && all[n].end == offsets[end]
                  && all[n].pattern == (uint32_t)rule);
        CHECK(n == listed && status.code == (at < count ? LAZYDFA_NO_TOKEN : LAZYDFA_NONE));
    }
    if (failed > before) show();
}

static void open_any(lazydfa_cache *cache, const lazydfa_text *of, size_t n, const lazydfa_options *options) {
    lazydfa_regex regex = LAZYDFA_INIT;
    CODE(lazydfa_regex_any_of(&regex, of, n, options, NULL), LAZYDFA_OK);
    CODE(lazydfa_cache_new(cache, &regex), LAZYDFA_OK);
    CODE(lazydfa_regex_close(&regex), LAZYDFA_OK);
}

static void open(lazydfa_cache *cache, const char *it, const lazydfa_options *options) {
    lazydfa_text whole;
    whole.text = it;
    whole.length = strlen(it);
    open_any(cache, &whole, 1, options);
}

/* Random patterns on random haystacks; then with quit bytes and a DFA that gives up at once. */
static void random_pairs(int pairs) {
    static const uint8_t quits[] = { 'a', ' ' };
    int i, j;
    for (i = 0; i < pairs; i++) {
        lazydfa_options options = LAZYDFA_OPTIONS_INIT;
        lazydfa_cache cache = LAZYDFA_INIT, set = LAZYDFA_INIT, rules = LAZYDFA_INIT;
        if (i % 4 == 1) options.quits = quits, options.quit_count = 2;
        if (i % 4 == 2) {
            options.skip_cache_capacity_check = 1;
            options.cache_capacity = 1;
            options.minimum_cache_clear_count = 1;
        }
        options.groups = i % 8 > 3;
        make_pattern();
        open(&cache, pattern, &options);
        open_any(&rules, texts, (size_t)alternatives, &options);
        options.match_kind = LAZYDFA_ALL;
        open_any(&set, texts, (size_t)alternatives, &options);
        for (j = 0; j < 8; j++) {
            make_haystack(j % 2);
            compare(&cache);
            compare_set(&set);
            compare_tokens(&rules);
        }
        CODE(lazydfa_cache_close(&cache), LAZYDFA_OK);
        CODE(lazydfa_cache_close(&set), LAZYDFA_OK);
        CODE(lazydfa_cache_close(&rules), LAZYDFA_OK);
    }
}

/* What is not simulated fails at a byte beyond ASCII. */
static void not_simulated(void) {
    lazydfa_options options = LAZYDFA_OPTIONS_INIT;
    lazydfa_cache cache = LAZYDFA_INIT;
    const char *it = "a \xC3\xA9 b";
    size_t length = strlen(it), found;
    lazydfa_input input = lazydfa_whole(length), token = lazydfa_whole(length);
    lazydfa_iteration at = lazydfa_iterate(input);
    lazydfa_match match;
    lazydfa_half half;
    uint32_t done, listed[1];
    open(&cache, "\\bb", NULL);
    CODE(lazydfa_find(&cache, bytes(it), length, &input, &match), LAZYDFA_OK);
    CHECK(match.start == 5 && match.end == 6 && match.pattern == 0);
    CODE(lazydfa_which(&cache, bytes(it), length, &input, 1, listed, 1, &found), LAZYDFA_QUIT);
    token.start = 2;
    CODE(lazydfa_token(&cache, bytes(it), length, &token, &match), LAZYDFA_NO_TOKEN);
    token.end = 5;
    CODE(lazydfa_token(&cache, bytes(it), length, &token, &match), LAZYDFA_QUIT);
    CODE(lazydfa_pieces_begin(&cache, LAZYDFA_UNANCHORED, 0, -1, 0), LAZYDFA_OK);
    CODE(lazydfa_pieces_read(&cache, bytes(it), length, &done), LAZYDFA_QUIT);
    input.start = 2;
    input.anchored = LAZYDFA_ANCHORED_YES;
    CODE(lazydfa_find(&cache, bytes(it), length, &input, &match), LAZYDFA_QUIT);
    CODE(lazydfa_is_match(&cache, bytes(it), length, &input), LAZYDFA_QUIT);
    CODE(lazydfa_find_start(&cache, bytes(it), length, &input, &half), LAZYDFA_QUIT);
    input = lazydfa_whole(length);
    input.end = 5;
    CODE(lazydfa_find(&cache, bytes(it), length, &input, &match), LAZYDFA_QUIT);
    input = lazydfa_whole(length);
    input.earliest = 1;
    CODE(lazydfa_find(&cache, bytes(it), length, &input, &match), LAZYDFA_QUIT);
    CODE(lazydfa_find_end(&cache, bytes(it), length, &input, &half), LAZYDFA_QUIT);
    CODE(lazydfa_is_match(&cache, bytes(it), length, &input), LAZYDFA_OK);
    CODE(lazydfa_cache_close(&cache), LAZYDFA_OK);

    options.unicode_word_boundary = 1;
    open(&cache, "\\bb", &options);
    CODE(lazydfa_find(&cache, bytes(it), length, &at.left, &match), LAZYDFA_QUIT);
    CODE(lazydfa_is_match(&cache, bytes(it), length, &at.left), LAZYDFA_QUIT);
    CODE(lazydfa_next(&cache, bytes(it), length, &at, &match), LAZYDFA_QUIT);
    CODE(lazydfa_next(&cache, bytes(it), length, &at, &match), LAZYDFA_NONE);
    CODE(lazydfa_cache_close(&cache), LAZYDFA_OK);

    options.unicode_word_boundary = 0;
    options.match_kind = LAZYDFA_ALL;
    open(&cache, "\\bb", &options);
    input = lazydfa_whole(length);
    CODE(lazydfa_find(&cache, bytes(it), length, &input, &match), LAZYDFA_QUIT);
    CODE(lazydfa_is_match(&cache, bytes(it), length, &input), LAZYDFA_OK);
    CODE(lazydfa_which(&cache, bytes(it), length, &input, 1, listed, 1, &found), LAZYDFA_OK);
    CHECK(found == 1 && listed[0] == 0);
    input.earliest = 1;
    CODE(lazydfa_which(&cache, bytes(it), length, &input, 1, listed, 1, &found), LAZYDFA_QUIT);
    input.earliest = 0;
    input.end = 5;
    CODE(lazydfa_which(&cache, bytes(it), length, &input, 1, listed, 1, &found), LAZYDFA_QUIT);
    CODE(lazydfa_cache_close(&cache), LAZYDFA_OK);
}

/* Several patterns: the first that matches at the least offset is preferred. */
static void several(void) {
    static const lazydfa_text texts[] = { { "\\b\xD0\xB4\\b", 6 }, { "\\w+", 3 } };
    lazydfa_regex regex = LAZYDFA_INIT;
    lazydfa_cache cache = LAZYDFA_INIT;
    lazydfa_match found[4];
    const char *it = "\xD0\xB4 \xD0\xB4\xD0\xB4";
    lazydfa_iteration at = lazydfa_iterate(lazydfa_whole(strlen(it)));
    size_t listed;
    CODE(lazydfa_regex_any_of(&regex, texts, 2, NULL, NULL), LAZYDFA_OK);
    CODE(lazydfa_cache_new(&cache, &regex), LAZYDFA_OK);
    CODE(lazydfa_next_all(&cache, bytes(it), strlen(it), &at, found, 4, &listed), LAZYDFA_NONE);
    CHECK(listed == 2 && found[0].pattern == 0 && found[0].end == 2);
    CHECK(found[1].pattern == 1 && found[1].start == 3 && found[1].end == 7);
    CODE(lazydfa_cache_close(&cache), LAZYDFA_OK);
    CODE(lazydfa_regex_close(&regex), LAZYDFA_OK);
}

/* An iteration that begins with what another one has left tests its own haystack. */
static void begun_again(void) {
    lazydfa_options options = LAZYDFA_OPTIONS_INIT;
    lazydfa_cache cache = LAZYDFA_INIT;
    lazydfa_match match;
    lazydfa_iteration at = lazydfa_iterate(lazydfa_whole(3));
    open(&cache, "\\b\\w", &options);
    CODE(lazydfa_next(&cache, bytes("a b"), 3, &at, &match), LAZYDFA_OK);
    CHECK(at.left.reserved != 0 && lazydfa_iterate(at.left).left.reserved == 0);
    at = lazydfa_iterate(at.left);
    CODE(lazydfa_next(&cache, bytes(" \xC3\xA9"), 3, &at, &match), LAZYDFA_OK);
    CHECK(match.start == 1 && match.end == 3);
    CODE(lazydfa_cache_close(&cache), LAZYDFA_OK);
}

int main(int argc, char **argv) {
    if (argc > 1) seed = strtoul(argv[1], NULL, 10);
    random_pairs(argc > 2 ? atoi(argv[2]) : 3000);
    not_simulated();
    several();
    begun_again();
    return counted();
}
