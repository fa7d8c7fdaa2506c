/* Measures works of the library for C: prints for each work its name, what it counted, and the microseconds of
   processor time, as measure.in does. `batch` is `dense` with 1,024 matches per call. Works that begin with `spans_` or
   `which_` read what made.py writes from standard input. The work `text` writes the lines of `dates` instead, for other
   programs. */
#define _POSIX_C_SOURCE 200809L
#include <lazydfa_automata.h>
#include <stdio.h>
#include <stdlib.h>
#include <string.h>
#include <time.h>

#define TRY(call)                                        \
    do {                                                 \
        lazydfa_status status = (call);                  \
        if (status.code != LAZYDFA_OK) return status;    \
    } while (0)

enum { SIZE = 1 << 24, DATES = 100 << 20, SEARCHES = 1 << 20, LINES = 200000, WORDS = 20, BATCH = 1024 };
enum { READ = 1 << 23, MANY = 1000, MEMORY = 1 << 26 };

static const char LINE[] = "aorax then some other text eoreX and more eorex of it, then gorgx and more morm";

static uint32_t noise = 5;

static uint32_t below(uint32_t count) {
    noise = noise * 1664525 + 1013904223;
    return (noise >> 16) * count >> 16;
}

/* Returns lines of ten words; every tenth line ends in a date. */
static char *lines_of(size_t size) {
    char *text = malloc(size + 256);
    size_t length = 0, line = 0;
    while (text && length < size) {
        for (int word = 0; word < 10; word++) {
            for (uint32_t letters = below(8) + 2; letters > 0; letters--) text[length++] = (char)('a' + below(26));
            text[length++] = ' ';
        }
        if (++line % 10 == 0) {
            uint32_t year = below(90) + 10, month = below(12) + 1, day = below(28) + 1;
            length += (size_t)sprintf(text + length, "20%02u-%02u-%02u", year, month, day);
        }
        text[length++] = '\n';
    }
    if (text) text[size] = '\0';
    return text;
}

static char *text_of(const char *piece, size_t size) {
    size_t length = strlen(piece), at = 0;
    char *text = malloc(size + 1);
    for (; text && at + length <= size; at += length) memcpy(text + at, piece, length);
    if (text) text[at] = '\0';
    return text;
}

static long now(void) {
    struct timespec t;
    clock_gettime(CLOCK_PROCESS_CPUTIME_ID, &t);
    return t.tv_sec * 1000000L + t.tv_nsec / 1000;
}

/* Adds `count` states that read a byte of a range, before the state `*at`, which becomes the first of them. */
static lazydfa_status add_bytes(lazydfa_builder *builder, char lo, char hi, int count, lazydfa_state_id *at) {
    lazydfa_status status = { LAZYDFA_OK, 0, 0 };
    for (; count > 0 && status.code == LAZYDFA_OK; count--)
        status = lazydfa_add_range(builder, (uint8_t)lo, (uint8_t)hi, *at, at);
    return status;
}

/* Adds a pattern that matches a text, in which each `0` stands for any digit. */
static lazydfa_status add_text(lazydfa_builder *builder, const char *text, lazydfa_state_id *start) {
    uint32_t pattern;
    TRY(lazydfa_start_pattern(builder, &pattern));
    TRY(lazydfa_add_match(builder, start));
    for (size_t at = strlen(text); at > 0; at--) {
        int is_digit = text[at - 1] == '0';
        TRY(add_bytes(builder, text[at - 1], is_digit ? '9' : text[at - 1], 1, start));
    }
    return lazydfa_finish_pattern(builder, *start, &pattern);
}

/* Adds the pattern [a-z]+. */
static lazydfa_status add_word(lazydfa_builder *builder, lazydfa_state_id *start) {
    lazydfa_state_id found, more, alternates[2];
    uint32_t pattern;
    TRY(lazydfa_start_pattern(builder, &pattern));
    TRY(lazydfa_add_range(builder, 'a', 'z', lazydfa_state(0), start));
    TRY(lazydfa_add_match(builder, &found));
    alternates[0] = *start;
    alternates[1] = found;
    TRY(lazydfa_add_union(builder, alternates, 2, &more));
    TRY(lazydfa_patch(builder, *start, more));
    return lazydfa_finish_pattern(builder, *start, &pattern);
}

/* Adds twenty words of five letters, each a pattern. */
static lazydfa_status add_words(lazydfa_builder *builder, lazydfa_state_id *start) {
    lazydfa_state_id starts[WORDS];
    for (int word = 0; word < WORDS; word++) {
        char first = (char)('a' + word), text[6] = { first, 'o', 'r', first, 'x', '\0' };
        TRY(add_text(builder, text, &starts[word]));
    }
    return lazydfa_add_union(builder, starts, WORDS, start);
}

static lazydfa_status add_of(lazydfa_builder *builder, const char *work, lazydfa_state_id *start) {
    if (!strcmp(work, "dates")) return add_text(builder, "0000-00-00", start);
    if (!strcmp(work, "short")) return add_text(builder, "0000", start);
    return strcmp(work, "sets") ? add_word(builder, start) : add_words(builder, start);
}

static lazydfa_status open_cache(lazydfa_cache *cache, const char *work) {
    lazydfa_builder builder = LAZYDFA_INIT;
    lazydfa_regex regex = LAZYDFA_INIT;
    lazydfa_starts starts;
    lazydfa_options options = LAZYDFA_OPTIONS_INIT;
    if (!strcmp(work, "sets")) options.match_kind = LAZYDFA_ALL;
    TRY(lazydfa_builder_new(&builder));
    TRY(add_of(&builder, work, &starts.anchored));
    TRY(lazydfa_add_unanchored_prefix(&builder, starts.anchored, &starts.unanchored));
    TRY(lazydfa_regex_build(&regex, &builder, starts, &options));
    TRY(lazydfa_cache_new(cache, &regex));
    lazydfa_builder_close(&builder);
    return lazydfa_regex_close(&regex);
}

static int is_spans(const char *work) { return !strncmp(work, "spans_", 6); }

static int is_which(const char *work) { return !strncmp(work, "which_", 6); }

/* Returns the text of standard input after its first line, and sets `*line` to that line. */
static char *read_text(char **line) {
    size_t length;
    char *text;
    *line = calloc(READ + 1, 1);
    if (!*line) return NULL;
    length = fread(*line, 1, READ, stdin);
    text = memchr(*line, '\n', length);
    if (text) *text++ = '\0';
    return text;
}

/* Makes a cache for the pattern in a line, or for its words, each a pattern. */
static lazydfa_status open_read(lazydfa_cache *cache, const char *work, const char *line) {
    static lazydfa_text words[MANY];
    lazydfa_regex regex = LAZYDFA_INIT;
    lazydfa_options options = LAZYDFA_OPTIONS_INIT;
    size_t count = 0;
    options.cache_capacity = MEMORY;
    if (is_which(work)) {
        options.match_kind = LAZYDFA_ALL;
        for (const char *bar = line; bar && count < MANY; line = bar ? bar + 1 : line) {
            bar = strchr(line, '|');
            words[count].text = line;
            words[count++].length = bar ? (size_t)(bar - line) : strlen(line);
        }
        TRY(lazydfa_regex_any_of(&regex, words, count, &options, NULL));
    } else TRY(lazydfa_regex_new(&regex, line, strlen(line), &options, NULL));
    TRY(lazydfa_cache_new(cache, &regex));
    return lazydfa_regex_close(&regex);
}

static lazydfa_status count_lines(lazydfa_cache *cache, const uint8_t *text, size_t length, size_t *count) {
    lazydfa_input left = lazydfa_whole(length);
    lazydfa_half end;
    for (;;) {
        const uint8_t *line;
        TRY(lazydfa_find_end(cache, text, length, &left, &end));
        ++*count;
        line = memchr(text + end.offset, '\n', length - end.offset);
        left.start = line ? (size_t)(line - text) + 1 : length;
    }
}

static lazydfa_status count_spans(lazydfa_cache *cache, const uint8_t *text, size_t length, size_t *count) {
    lazydfa_iteration at = lazydfa_iterate(lazydfa_whole(length));
    lazydfa_match match;
    for (;; ++*count) TRY(lazydfa_next(cache, text, length, &at, &match));
}

static lazydfa_status count_batches(lazydfa_cache *cache, const uint8_t *text, size_t length, size_t *count) {
    lazydfa_iteration at = lazydfa_iterate(lazydfa_whole(length));
    for (;;) {
        static lazydfa_match matches[BATCH];
        size_t found = 0;
        lazydfa_status status = lazydfa_next_all(cache, text, length, &at, matches, BATCH, &found);
        *count += found;
        if (status.code != LAZYDFA_OK) return status;
    }
}

static lazydfa_status count_searches(lazydfa_cache *cache, const uint8_t *text, size_t length, size_t *count) {
    lazydfa_input whole = lazydfa_whole(length);
    lazydfa_status status = { LAZYDFA_NONE, 0, 0 };
    for (int search = 0; search < SEARCHES && status.code <= LAZYDFA_NONE; search++) {
        status = lazydfa_is_match(cache, text, length, &whole);
        *count += status.code == LAZYDFA_OK;
    }
    return status;
}

static lazydfa_status count_sets(lazydfa_cache *cache, const uint8_t *text, size_t length, size_t *count) {
    lazydfa_input whole = lazydfa_whole(length);
    uint32_t patterns[WORDS];
    lazydfa_status status = { LAZYDFA_OK, 0, 0 };
    for (int line = 0; line < LINES && status.code == LAZYDFA_OK; line++) {
        size_t found = 0;
        status = lazydfa_which(cache, text, length, &whole, WORDS, patterns, WORDS, &found);
        *count += found;
    }
    return status;
}

/* Counts the words that each line contains, line by line. */
static lazydfa_status count_which(lazydfa_cache *cache, const uint8_t *text, size_t length, size_t *count) {
    lazydfa_status status = { LAZYDFA_OK, 0, 0 };
    while (length > 0 && status.code == LAZYDFA_OK) {
        static uint32_t patterns[MANY];
        const uint8_t *end = memchr(text, '\n', length);
        size_t found = 0, line = end ? (size_t)(end - text) : length, read = end ? line + 1 : line;
        lazydfa_input whole = lazydfa_whole(line);
        status = lazydfa_which(cache, text, line, &whole, MANY, patterns, MANY, &found);
        *count += found;
        text += read;
        length -= read;
    }
    return status;
}

/* Not inlined, so that its instructions can be counted separately. */
__attribute__((noinline)) static lazydfa_status count_in(lazydfa_cache *cache, const char *work, const char *text,
                                                         size_t length, size_t *count) {
    const uint8_t *bytes = (const uint8_t *)text;
    if (!strcmp(work, "dates")) return count_lines(cache, bytes, length, count);
    if (is_which(work)) return count_which(cache, bytes, length, count);
    if (!strcmp(work, "dense") || is_spans(work)) return count_spans(cache, bytes, length, count);
    if (!strcmp(work, "batch")) return count_batches(cache, bytes, length, count);
    if (!strcmp(work, "short")) return count_searches(cache, bytes, length, count);
    return count_sets(cache, bytes, length, count);
}

static char *text_for(const char *work) {
    if (!strcmp(work, "short")) return text_of("ab1cd23efghi 456", 16);
    if (!strcmp(work, "sets")) return text_of(LINE, sizeof LINE - 1);
    return strcmp(work, "dense") && strcmp(work, "batch") ? lines_of(DATES) : text_of("word ", SIZE);
}

int main(int argc, char **argv) {
    for (int n = 1; n < argc; n++) {
        int is_read = is_spans(argv[n]) || is_which(argv[n]);
        char *line = NULL, *text = is_read ? read_text(&line) : text_for(argv[n]);
        lazydfa_cache cache = LAZYDFA_INIT;
        lazydfa_status status;
        size_t count = 0, length;
        long start;
        if (!text) return 2;
        length = strlen(text);
        if (!strcmp(argv[n], "text")) {
            fputs(text, stdout);
            free(text);
            continue;
        }
        status = is_read ? open_read(&cache, argv[n], line) : open_cache(&cache, argv[n]);
        start = now();
        if (status.code == LAZYDFA_OK) status = count_in(&cache, argv[n], text, length, &count);
        if (status.code > LAZYDFA_NONE) {
            fprintf(stderr, "%s: %s\n", argv[n], lazydfa_code_text(status.code));
            return 1;
        }
        printf("%s %zu %ld\n", argv[n], count, now() - start);
        lazydfa_cache_close(&cache);
        free(is_read ? line : text);
    }
    return 0;
}
