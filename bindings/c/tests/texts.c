/* Makes the calls that take texts of patterns, with valid and with every kind of invalid arguments, with each option,
   and with texts that are not valid patterns. Prints each check that fails, and how many checks there were. */
#define _POSIX_C_SOURCE 200809L
#include <pthread.h>
#include <stdio.h>
#include <string.h>
#include "check.h"

/* Returns what a pattern finds: the spans of all matches in brackets, or the code, offset and first line of the
   message. */
static const char *found(const char *pattern, size_t length, const char *hay, const lazydfa_options *options) {
    static char out[512];
    char *at = out;
    lazydfa_regex regex = LAZYDFA_INIT;
    lazydfa_cache cache = LAZYDFA_INIT;
    lazydfa_error error = LAZYDFA_ERROR_INIT;
    lazydfa_iteration left = lazydfa_iterate(lazydfa_whole(strlen(hay)));
    lazydfa_match match;
    lazydfa_status status = lazydfa_regex_new(&regex, pattern, length, options, &error);
    CHECK(error.status.code == status.code && error.status.offset == status.offset && error.status.byte == 0);
    if (status.code != LAZYDFA_OK) {
        error.message[strcspn(error.message, "\n")] = 0;
        sprintf(out, "%u at %lu, %lu..%lu: %.400s", (unsigned)status.code, (unsigned long)status.offset,
                (unsigned long)error.start, (unsigned long)error.end, error.message);
        CHECK(lazydfa_regex_close(&regex).code == LAZYDFA_CLOSED);
        return out;
    }
    CHECK(!error.pattern && !error.start && !error.end && !error.length && !*error.message);
    CHECK(lazydfa_cache_new(&cache, &regex).code == LAZYDFA_OK);
    CHECK(lazydfa_regex_close(&regex).code == LAZYDFA_OK);
    *at = 0;
    while ((status = lazydfa_next(&cache, bytes(hay), strlen(hay), &left, &match)).code == LAZYDFA_OK)
        at += sprintf(at, "[%lu,%lu]", (unsigned long)match.start, (unsigned long)match.end);
    CHECK(status.code == LAZYDFA_NONE);
    CHECK(lazydfa_cache_close(&cache).code == LAZYDFA_OK);
    return out;
}

#define FINDS(pattern, hay, wanted)                                                          \
    do {                                                                                     \
        const char *is_ = found(pattern, sizeof(pattern) - 1, hay, NULL);              \
        CHECK(!strcmp(is_, wanted) || (printf("%s: %s\n", pattern, is_), 0));                \
    } while (0)

static void patterns(void) {
    FINDS("[a-z]+", "foo 12 bar", "[0,3][7,10]");
    FINDS("", "ab", "[0,0][1,1][2,2]");
    FINDS("", "\xC3\xA9", "[0,0][2,2]");
    FINDS("a|ab", "ab", "[0,1]");
    FINDS("(?i)\xC3\x89", "\xC3\xA9", "[0,2]");
    FINDS("(?m)^b$", "a\nb\nc", "[2,3]");
    FINDS("(?s).", "\n", "[0,1]");
    FINDS(".", "\n", "");
    FINDS("\\pL\\d", "\xC3\xA9" "1", "[0,3]");
    FINDS("(?-u:\\b)x", "ax x", "[3,4]");
    FINDS("\\bx", "\xC3\xA9x x", "[4,5]");
    FINDS("(?x) a # b", "a", "[0,1]");
    FINDS("a\0b", "a", "");
}

static void refused(void) {
    FINDS("foo(b", "", "40 at 3, 3..4: unclosed group");
    FINDS("a{2,1}", "", "40 at 1, 1..6: invalid repetition count range, the start must be <= the end");
    FINDS("(a{1000}){1000}", "",
          "14 at 0, 0..0: the patterns are too large: up to this one their tables take more than 10485760 bytes; raise "
          "size_limit");
    FINDS("ab\xFF", "", "41 at 2, 2..2: the text of a pattern is not UTF-8");
}

/* Writes a pattern of this many nested groups, and returns its length. */
static size_t nest(char *pattern, size_t groups, const char *open, const char *close) {
    size_t length = 0, i;
    for (i = 0; i < groups; i++) length += (size_t)sprintf(pattern + length, "%s", open);
    pattern[length++] = 'a';
    for (i = 0; i < groups; i++) length += (size_t)sprintf(pattern + length, "%s", close);
    return length;
}

/* Whether this many nested groups are a valid pattern. */
static int nests(size_t groups, const lazydfa_options *options) {
    char pattern[1000];
    const char *is = found(pattern, nest(pattern, groups, "(", ")"), "a", options);
    CHECK(!strcmp(is, "[0,1]") || !strncmp(is, "40 at ", 6));
    return *is == '[';
}

static void nesting(void) {
    lazydfa_options o = LAZYDFA_OPTIONS_INIT;
    CHECK(nests(LAZYDFA_NEST_LIMIT, NULL) && !nests(LAZYDFA_NEST_LIMIT + 1, NULL));
    o.nest_limit = 1;
    CHECK(nests(1, &o) && !nests(2, &o));
    o.nest_limit = 250;
    CHECK(nests(250, &o) && !nests(251, &o));
}

/* Builds regexes from patterns that nest as deep as is allowed by default, and one level deeper. */
static void *nest_in_thread(void *codes) {
    static const char *const parts[3][2] = { { "(", ")" }, { "[", "]" }, { "(?i:", ")" } };
    static char pattern[1000];
    lazydfa_regex regex = LAZYDFA_INIT;
    size_t i, length;
    for (i = 0; i < 6; i++) {
        length = nest(pattern, LAZYDFA_NEST_LIMIT + i % 2, parts[i / 2][0], parts[i / 2][1]);
        ((uint32_t *)codes)[i] = lazydfa_regex_new(&regex, pattern, length, NULL, NULL).code;
        lazydfa_regex_close(&regex);
    }
    return NULL;
}

/* The stack of a small thread. Code that is built without proof takes more. */
#ifndef SMALL_STACK
#define SMALL_STACK 65536
#endif

/* The same, on a thread with a small stack. */
static void small_stack(void) {
    uint32_t codes[6] = { 0 };
    pthread_attr_t attributes;
    pthread_t thread;
    size_t i;
    CHECK(!pthread_attr_init(&attributes) && !pthread_attr_setstacksize(&attributes, SMALL_STACK));
    CHECK(!pthread_create(&thread, &attributes, nest_in_thread, codes) && !pthread_join(thread, NULL));
    for (i = 0; i < 6; i++) CHECK(codes[i] == (i % 2 ? LAZYDFA_SYNTAX : LAZYDFA_OK));
}

/* Checks what a pattern finds with one option on. */
#define FINDS_WITH(option, pattern, hay, wanted)                                             \
    do {                                                                                     \
        lazydfa_options o_ = LAZYDFA_OPTIONS_INIT;                                           \
        o_.option = 1;                                                                       \
        CHECK(!strcmp(found(pattern, sizeof(pattern) - 1, hay, &o_), wanted));         \
    } while (0)

static void flags(void) {
    FINDS("\\w", "\xC3\xA9" "a", "[0,2][2,3]");
    FINDS_WITH(no_unicode, "\\w", "\xC3\xA9" "a", "[2,3]");
    FINDS_WITH(no_unicode, "(?u)\\w", "\xC3\xA9" "a", "[0,2][2,3]");
    FINDS_WITH(no_unicode, "\\bx", "ax x", "[3,4]");
    FINDS("ab", "aB", "");
    FINDS_WITH(case_insensitive, "ab", "aB", "[0,2]");
    FINDS_WITH(case_insensitive, "(?-i)ab", "aB", "");
    FINDS("^b$", "a\nb\nc", "");
    FINDS_WITH(multi_line, "^b$", "a\nb\nc", "[2,3]");
    FINDS(".", "\r\n", "[0,1]");
    FINDS_WITH(dot_matches_new_line, ".", "\r\n", "[0,1][1,2]");
    FINDS_WITH(crlf, ".", "\r\n", "");
    FINDS_WITH(crlf, "(?m)^b$", "a\r\nb\r\nc", "[3,4]");
    FINDS("(?m)^b$", "a\r\nb\r\nc", "");
    FINDS("a+|b+?", "aabb", "[0,2][2,3][3,4]");
    FINDS_WITH(swap_greed, "a+|b+?", "aabb", "[0,1][1,2][2,4]");
    FINDS("a b", "ab", "");
    FINDS_WITH(ignore_whitespace, "a b # c", "ab", "[0,2]");
    FINDS_WITH(octal, "\\141", "a", "[0,1]");
    FINDS_WITH(bytes, "(?-u)\\xFF", "\xFF", "[0,1]");
    FINDS_WITH(bytes, "", "\xC3\xA9", "[0,0][1,1][2,2]");
}

static void options(void) {
    lazydfa_options o = LAZYDFA_OPTIONS_INIT, s = LAZYDFA_OPTIONS_INIT;
    CHECK(!strncmp(found("(?-u)\\xFF", 9, "\xFF", &o), "40 at ", 6));
    CHECK(!strncmp(found("\\141", 4, "a", &o), "40 at ", 6));
    o.no_unicode = 1;
    CHECK(!strncmp(found(".", 1, "a", &o), "40 at ", 6));
    o.bytes = 1;
    CHECK(!strcmp(found(".", 1, "\xC3\xA9", &o), "[0,1][1,2]"));
    o.no_unicode = o.bytes = 0;
    o.zeros |= LAZYDFA_ZERO_SIZE_LIMIT;
    CHECK(!strncmp(found("a", 1, "a", &o), "14 at 0", 7));
    o.size_limit = SIZE_MAX;
    CHECK(!strcmp(found("a", 1, "a", &o), "[0,1]"));
    s.unicode_word_boundary = 1;
    CHECK(!strcmp(found("\\bx", 3, "ax x", &s), "[3,4]"));
    s.match_kind = 9;
    CHECK(!strncmp(found("a", 1, "a", &s), "5 at 0", 6));
    s.match_kind = 0;
    s.zeros |= LAZYDFA_ZERO_CACHE_CAPACITY;
    CHECK(!strncmp(found("a", 1, "a", &s), "25 at ", 6));
}

static void sets(void) {
    static const lazydfa_text texts[3] = { { "\\d+", 3 }, { "", 0 }, { "o{2}", 4 } };
    lazydfa_text wrong[3] = { { "a", 1 }, { "b(", 2 }, { "c", 1 } };
    lazydfa_regex regex = LAZYDFA_INIT;
    lazydfa_cache cache = LAZYDFA_INIT;
    lazydfa_options all = LAZYDFA_OPTIONS_INIT;
    lazydfa_input in = lazydfa_whole(6);
    lazydfa_match match;
    lazydfa_error error = LAZYDFA_ERROR_INIT;
    lazydfa_status status;
    uint32_t which[3];
    size_t count;
    all.match_kind = LAZYDFA_ALL;
    CHECK(lazydfa_regex_any_of(&regex, texts, 3, &all, NULL).code == LAZYDFA_OK);
    CHECK(lazydfa_regex_any_of(&regex, texts, 3, &all, NULL).code == LAZYDFA_OPEN);
    CHECK(lazydfa_cache_new(&cache, &regex).code == LAZYDFA_OK);
    CHECK(lazydfa_which(&cache, bytes("foo 12"), 6, &in, 3, which, 3, &count).code == LAZYDFA_OK);
    CHECK(count == 3 && which[2] == 2);
    CHECK(lazydfa_which(&cache, bytes("fo  12"), 6, &in, 3, which, 3, &count).code == LAZYDFA_OK);
    CHECK(count == 2 && which[0] == 0 && which[1] == 1);
    CHECK(lazydfa_cache_close(&cache).code == LAZYDFA_OK);
    CHECK(lazydfa_regex_close(&regex).code == LAZYDFA_OK);
    CHECK(lazydfa_regex_any_of(&regex, texts, 3, NULL, NULL).code == LAZYDFA_OK);
    CHECK(lazydfa_cache_new(&cache, &regex).code == LAZYDFA_OK);
    CHECK(lazydfa_find(&cache, bytes("12 foo"), 6, &in, &match).code == LAZYDFA_OK);
    CHECK(match.start == 0 && match.end == 2 && match.pattern == 0);
    CHECK(lazydfa_cache_close(&cache).code == LAZYDFA_OK);
    CHECK(lazydfa_regex_close(&regex).code == LAZYDFA_OK);
    CHECK(lazydfa_regex_any_of(&regex, NULL, 0, NULL, NULL).code == LAZYDFA_OK);
    CHECK(lazydfa_cache_new(&cache, &regex).code == LAZYDFA_OK);
    CHECK(lazydfa_is_match(&cache, bytes("12 foo"), 6, &in).code == LAZYDFA_NONE);
    CHECK(lazydfa_cache_close(&cache).code == LAZYDFA_OK);
    CHECK(lazydfa_regex_close(&regex).code == LAZYDFA_OK);
    status = lazydfa_regex_any_of(&regex, wrong, 3, NULL, &error);
    CHECK(status.code == LAZYDFA_SYNTAX && status.offset == 1);
    CHECK(error.pattern == 1 && error.start == 1 && error.end == 2);
    CHECK(!strcmp(error.message, "unclosed group\n  b(\n   ^") && error.length == strlen(error.message));
    wrong[1].text = "b\xFF";
    CHECK(lazydfa_regex_any_of(&regex, wrong, 3, NULL, &error).code == LAZYDFA_NOT_TEXT);
    CHECK(error.pattern == 1 && error.start == 1 && error.end == 1);
    CHECK(!error.length && !strcmp(error.message, lazydfa_code_text(LAZYDFA_NOT_TEXT)));
    wrong[0].length = SIZE_MAX;
    CHECK(lazydfa_regex_any_of(&regex, wrong, 1, NULL, &error).code == LAZYDFA_MEMORY);
}

/* A quit byte ends a search of a regex built from text, as of any other regex. */
static void quit_bytes(void) {
    static const lazydfa_text text = { "b+", 2 };
    static const uint8_t quits[2] = { '-', 'x' };
    lazydfa_options options = LAZYDFA_OPTIONS_INIT;
    lazydfa_regex regex[2] = { LAZYDFA_INIT, LAZYDFA_INIT };
    lazydfa_input in = lazydfa_whole(4);
    lazydfa_match match;
    int i;
    options.quits = quits;
    options.quit_count = 2;
    CHECK(lazydfa_regex_new(&regex[0], text.text, 2, &options, NULL).code == LAZYDFA_OK);
    CHECK(lazydfa_regex_any_of(&regex[1], &text, 1, &options, NULL).code == LAZYDFA_OK);
    for (i = 0; i < 2; i++) {
        lazydfa_cache cache = LAZYDFA_INIT;
        lazydfa_status status;
        CHECK(lazydfa_cache_new(&cache, &regex[i]).code == LAZYDFA_OK);
        status = lazydfa_find(&cache, bytes("aaxb"), 4, &in, &match);
        CHECK(status.code == LAZYDFA_QUIT && status.offset == 2 && status.byte == 'x');
        CHECK(lazydfa_find(&cache, bytes("aabb"), 4, &in, &match).code == LAZYDFA_OK && match.start == 2);
        CHECK(lazydfa_cache_close(&cache).code == LAZYDFA_OK);
        CHECK(lazydfa_regex_close(&regex[i]).code == LAZYDFA_OK);
    }
}

/* Builds a regex of this many rules, closes it, and returns the status of the build. */
static lazydfa_status build_rules(size_t many, const lazydfa_options *options, lazydfa_error *error) {
    static lazydfa_text texts[10000];
    static char rules[10000][40];
    lazydfa_regex regex = LAZYDFA_INIT;
    lazydfa_cache cache = LAZYDFA_INIT;
    lazydfa_input in = lazydfa_whole(20);
    lazydfa_status status;
    lazydfa_usage usage;
    uint32_t which[2];
    size_t i, count;
    for (i = 0; i < many; i++) {
        texts[i].text = rules[i];
        texts[i].length =
            (size_t)sprintf(rules[i], "user%lu took [0-9]*%lu ms", (unsigned long)i, (unsigned long)i % 10);
    }
    status = lazydfa_regex_any_of(&regex, texts, many, options, error);
    if (status.code != LAZYDFA_OK) return status;
    CHECK(lazydfa_cache_new(&cache, &regex).code == LAZYDFA_OK);
    CHECK(lazydfa_cache_usage(&cache, &usage).code == LAZYDFA_OK && usage.held < 32 << 20);
    CHECK(lazydfa_which(&cache, bytes("xuser37 took 1237 ms"), 20, &in, many, which, 2, &count).code == LAZYDFA_OK);
    CHECK(count == 1 && which[0] == 37);
    CHECK(lazydfa_cache_close(&cache).code == LAZYDFA_OK);
    CHECK(lazydfa_regex_close(&regex).code == LAZYDFA_OK);
    return status;
}

/* By default many rules build, for sets and for matches, and a new cache holds little of its capacity. Otherwise a
   message says what is needed. */
static void many_rules(void) {
    lazydfa_options s = LAZYDFA_OPTIONS_INIT;
    lazydfa_error error = LAZYDFA_ERROR_INIT;
    lazydfa_status status;
    char wanted[256];
    for (s.match_kind = 0; s.match_kind <= LAZYDFA_ALL; s.match_kind++) {
        CHECK(build_rules(1000, &s, NULL).code == LAZYDFA_OK);
        CHECK(build_rules(10000, &s, NULL).code == LAZYDFA_OK);
    }
    s.match_kind = 0;
    s.zeros |= LAZYDFA_ZERO_CACHE_CAPACITY;
    s.cache_capacity = 2 << 20;
    status = build_rules(1000, &s, &error);
    CHECK(status.code == LAZYDFA_CAPACITY && status.offset > 2 << 20);
    sprintf(wanted,
            "a cache of the patterns needs at least %lu bytes, and may take only 2097152 (cache_capacity) or 0 "
            "(cache_limit); raise cache_limit",
            (unsigned long)status.offset);
    CHECK(!strcmp(error.message, wanted));
    s.zeros |= LAZYDFA_ZERO_CACHE_LIMIT;
    s.cache_limit = status.offset - 1;
    CHECK(build_rules(1000, &s, NULL).code == LAZYDFA_CAPACITY);
    s.cache_limit++;
    CHECK(build_rules(1000, &s, NULL).code == LAZYDFA_OK);
}

/* Texts beyond the limits on text and on class escapes: the message names the limit. */
static void long_texts(void) {
    lazydfa_text texts[2] = { { "[0-9]{10}", 9 }, { "a", 1000000000 } };
    lazydfa_regex regex = LAZYDFA_INIT;
    lazydfa_error error = LAZYDFA_ERROR_INIT;
    lazydfa_options o = LAZYDFA_OPTIONS_INIT;
    o.zeros |= LAZYDFA_ZERO_TEXT_LIMIT | LAZYDFA_ZERO_CLASS_LIMIT;
    o.text_limit = 8;
    o.class_limit = 2;
    CHECK(!strcmp(found("[0-9]{10}", 9, "", &o),
                  "14 at 0, 0..0: the patterns have 9 bytes, and may have 8; raise text_limit"));
    CHECK(!strcmp(found("\\w\\d\\s", 6, "", &o),
                  "14 at 0, 0..0: the patterns have 3 class escapes, and may have 2; raise class_limit"));
    CHECK(!strcmp(found("\\w\\da", 5, "x1a", &o), "[0,3]"));
    /* the same of several texts, which are not copied then */
    CHECK(lazydfa_regex_any_of(&regex, texts, 2, &o, &error).code == LAZYDFA_TOO_LARGE);
    CHECK(!strcmp(error.message, "the patterns have 1000000009 bytes, and may have 8; raise text_limit"));
    CHECK(error.length == strlen(error.message));
    o.text_limit = 0;
    o.zeros = LAZYDFA_ZERO_TEXT_LIMIT;
    texts[1].length = 1;
    CHECK(lazydfa_regex_any_of(&regex, texts, 2, &o, &error).code == LAZYDFA_TOO_LARGE);
    CHECK(!strcmp(error.message, "the patterns have 10 bytes, and may have 0; raise text_limit"));
    CHECK(lazydfa_regex_any_of(&regex, texts, 2, &o, NULL).code == LAZYDFA_TOO_LARGE);
}

/* A message that does not fit is cut at a character, and ends with a zero. */
static void messages(void) {
    static const char begin[] = "unclosed group\n  ";
    static char pattern[6000];
    lazydfa_regex regex = LAZYDFA_INIT;
    lazydfa_error error = LAZYDFA_ERROR_INIT;
    lazydfa_status status;
    size_t plain, length, room = sizeof error.message, shown, whole;
    for (length = 1900; length < 2200; length++)
        for (plain = 0; plain < 2; plain++) {
            size_t i = 0;
            while (i < plain) pattern[i++] = 'a';
            while (i < length - 1) i += (size_t)sprintf(pattern + i, "\xC3\xA9");
            pattern[i] = '(';
            memset(error.message, '#', room);
            status = lazydfa_regex_new(&regex, pattern, i + 1, NULL, &error);
            CHECK(status.code == LAZYDFA_SYNTAX && status.offset == i && error.start == i && error.end == i + 1);
            /* the carets are below characters */
            whole = sizeof begin - 1 + i + 1 + 3 + plain + (i - plain) / 2 + 1;
            shown = strlen(error.message);
            CHECK(error.length == whole && shown <= whole && shown < room);
            CHECK(shown == whole || shown + 2 >= room);
            CHECK(!strncmp(error.message, begin, sizeof begin - 1));
            CHECK(shown < sizeof begin + i || error.message[sizeof begin + i] == '\n');
        }
    for (length = 4071; length < 4101; length += 2) {
        for (plain = 0; plain < length - 1; plain++) pattern[plain] = "\xC3\xA9"[plain % 2];
        pattern[plain] = '(';
        CHECK(lazydfa_regex_new(&regex, pattern, length, NULL, &error).code == LAZYDFA_SYNTAX);
        shown = strlen(error.message);
        CHECK(shown < room && shown + 2 >= room && error.length > shown);
        shown -= sizeof begin - 1;
        CHECK(!memcmp(error.message + sizeof begin - 1, pattern, shown < length ? shown : length));
        CHECK(shown >= length || shown % 2 == 0);
    }
}

/* Checks that a call writes that no text has an error, over what was there before, with what the code means. */
#define WRITES_NONE(call, wanted)                                                             \
    do {                                                                                      \
        memset(&error, 9, sizeof error);                                                      \
        error.struct_size = sizeof error;                                                     \
        CHECK((call).code == (wanted) && error.status.code == (wanted));                      \
        CHECK(!error.pattern && !error.start && !error.end && !error.length);                 \
        CHECK(!strcmp(error.message, (wanted) ? lazydfa_code_text(wanted) : ""));             \
    } while (0)

static void writes(void) {
    lazydfa_text none = { NULL, 1 }, a = { "a", 1 };
    lazydfa_options no_quits = LAZYDFA_OPTIONS_INIT;
    lazydfa_regex re = LAZYDFA_INIT;
    lazydfa_error error;
    no_quits.quit_count = 1;
    WRITES_NONE(lazydfa_regex_new(NULL, "a", 1, NULL, &error), LAZYDFA_ARGUMENT);
    WRITES_NONE(lazydfa_regex_new(&re, NULL, 1, NULL, &error), LAZYDFA_ARGUMENT);
    WRITES_NONE(lazydfa_regex_new(&re, "a", 1, &no_quits, &error), LAZYDFA_ARGUMENT);
    WRITES_NONE(lazydfa_regex_any_of(NULL, &a, 1, NULL, &error), LAZYDFA_ARGUMENT);
    WRITES_NONE(lazydfa_regex_any_of(&re, NULL, 1, NULL, &error), LAZYDFA_ARGUMENT);
    WRITES_NONE(lazydfa_regex_any_of(&re, &none, 1, NULL, &error), LAZYDFA_ARGUMENT);
    WRITES_NONE(lazydfa_regex_any_of(&re, &a, 1, &no_quits, &error), LAZYDFA_ARGUMENT);
    WRITES_NONE(lazydfa_regex_any_of(&re, &a, 1, NULL, &error), LAZYDFA_OK);
    WRITES_NONE(lazydfa_regex_any_of(&re, &a, 1, NULL, &error), LAZYDFA_OPEN);
    WRITES_NONE(lazydfa_regex_new(&re, "a", 1, NULL, &error), LAZYDFA_OPEN);
    CHECK(lazydfa_regex_close(&re).code == LAZYDFA_OK);
}

static void nulls(void) {
    lazydfa_text text = { NULL, 1 };
    lazydfa_options no_quits = LAZYDFA_OPTIONS_INIT;
    lazydfa_regex regex = LAZYDFA_INIT;
    no_quits.quit_count = 1;
    CHECK(lazydfa_regex_new(NULL, "a", 1, NULL, NULL).code == LAZYDFA_ARGUMENT);
    CHECK(lazydfa_regex_new(&regex, NULL, 1, NULL, NULL).code == LAZYDFA_ARGUMENT);
    CHECK(lazydfa_regex_new(&regex, "a", 1, &no_quits, NULL).code == LAZYDFA_ARGUMENT);
    CHECK(lazydfa_regex_any_of(&regex, NULL, 0, &no_quits, NULL).code == LAZYDFA_ARGUMENT);
    CHECK(lazydfa_regex_any_of(NULL, NULL, 0, NULL, NULL).code == LAZYDFA_ARGUMENT);
    CHECK(lazydfa_regex_any_of(&regex, NULL, 1, NULL, NULL).code == LAZYDFA_ARGUMENT);
    CHECK(lazydfa_regex_any_of(&regex, &text, 1, NULL, NULL).code == LAZYDFA_ARGUMENT);
    CHECK(lazydfa_regex_new(&regex, NULL, 0, NULL, NULL).code == LAZYDFA_OK);
    CHECK(lazydfa_regex_new(&regex, "a", 1, NULL, NULL).code == LAZYDFA_OPEN);
    CHECK(lazydfa_regex_close(&regex).code == LAZYDFA_OK);
}

int main(void) {
    patterns();
    refused();
    nesting();
    small_stack();
    flags();
    options();
    sets();
    quit_bytes();
    many_rules();
    long_texts();
    messages();
    writes();
    nulls();
    return counted();
}
