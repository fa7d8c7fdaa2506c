/* The calls of lazydfa.h and lazydfa_automata.h: they test pointers and pass arguments on to the proved code. Each of
   them is tested. None allocates, except lazydfa_regex_any_of. This file needs no instruction beyond x86-64. */
#include "raw.h"

#include <cpuid.h>
#include <stdlib.h>
#include <string.h>

/* The library requires a 64-bit processor: elsewhere this does not compile. */
typedef char has_64_bits[sizeof(size_t) == 8 && sizeof(void *) == 8 ? 1 : -1];

static lazydfa_status failed(uint32_t code) {
    lazydfa_status status = { 0, 0, 0 };
    status.code = code;
    return status;
}

/* The library's slices are never null; an empty slice may point anywhere else, as to here. */
static const uint64_t nowhere;

#define SLICE(at, length) ((length) ? (at) : (void *)&nowhere)
#define NEED(pointer) do { if (!(pointer)) return failed(LAZYDFA_ARGUMENT); } while (0)
#define NEED_ALL(pointer, length) do { if (!(pointer) && (length)) return failed(LAZYDFA_ARGUMENT); } while (0)
/* A count is 0 until something is counted. */
#define COUNT(count) do { NEED(count); *(count) = 0; } while (0)

/* ---- Codes and versions ---- */

const char *lazydfa_code_text(uint32_t code) {
    static const char *const texts[] = {
        [LAZYDFA_OK] = "done",
        [LAZYDFA_NONE] = "no match",
        [LAZYDFA_CLOSED] = "the handle owns nothing",
        [LAZYDFA_OPEN] = "the handle owns something already",
        [LAZYDFA_KIND] = "the handle owns another kind of object",
        [LAZYDFA_ARGUMENT] = "an argument is not allowed",
        [LAZYDFA_MEMORY] = "out of memory",
        [LAZYDFA_STRUCT_SIZE] = "the library does not know the size of the options or of the error",
        [LAZYDFA_NO_PATTERN] = "no pattern was started",
        [LAZYDFA_UNFINISHED] = "a pattern was started and not finished",
        [LAZYDFA_PATCH_RANGE] = "the state to be patched is out of range",
        [LAZYDFA_SPARSE_PATCH] = "a sparse state cannot be patched",
        [LAZYDFA_TOO_LARGE] = "too many states, patterns, groups or alternates, or a limit is exceeded",
        [LAZYDFA_STATE_RANGE] = "a state leads to a state that is out of range",
        [LAZYDFA_START_RANGE] = "a start state is out of range",
        [LAZYDFA_PATTERN_RANGE] = "the pattern of a match state is out of range",
        [LAZYDFA_RANGES] = "ranges of bytes are not in order",
        [LAZYDFA_NOT_LAZY] = "the unanchored start does not skip lazily",
        [LAZYDFA_NOT_UTF8] = "a match may be invalid UTF-8",
        [LAZYDFA_STARTS] = "only some of the starts match the empty string",
        [LAZYDFA_UNSUPPORTED] = "Unicode word boundaries are not enabled",
        [LAZYDFA_CAPACITY] = "the cache capacity is too small",
        [LAZYDFA_STATE_IDS] = "the smallest table is too large",
        [LAZYDFA_PATTERN_COUNTS] = "the two NFAs have different numbers of patterns",
        [LAZYDFA_ONE_START] = "both starts are the same state, so every search would be anchored",
        [LAZYDFA_QUIT] = "the search reached a quit byte",
        [LAZYDFA_GAVE_UP] = "the search gave up",
        [LAZYDFA_ANCHORED] = "the anchored mode is not supported",
        [LAZYDFA_NOT_A_PAIR] = "the reverse NFA finds no start",
        [LAZYDFA_NO_TOKEN] = "no token",
        [LAZYDFA_SKIPS] = "a regex that skips empty matches inside characters cannot be searched in pieces",
        [LAZYDFA_NOT_BEGUN] = "no search or walk in pieces was begun",
        [LAZYDFA_NO_GROUPS] = "the regex was not built for groups",
        [LAZYDFA_SYNTAX] = "the text is not a valid pattern",
        [LAZYDFA_NOT_TEXT] = "the text of a pattern is not UTF-8",
        [LAZYDFA_NOT_COMPILED] = "the pattern was not compiled",
    };
    const char *text = code < sizeof texts / sizeof *texts ? texts[code] : NULL;
    return text ? text : "not a code of this library";
}

const char *lazydfa_version(void) {
    return LAZYDFA_VERSION;
}

int lazydfa_is_supported(void) {
#ifdef LAZYDFA_ANY_PROCESSOR
    return 1;
#else
    unsigned a, b, c, d;
    return __get_cpuid(1, &a, &b, &c, &d) && (c & bit_SSSE3) && (c & bit_SSE4_1);
#endif
}

/* ---- Options and errors ---- */

/* Options as the proved code takes them. */
typedef struct {
    raw_settings settings;
    raw_text_options texts;
    const uint8_t *quits;
    size_t quit_count;
} choices;

/* Sets a number, and that it is used: if it is not 0, or if its 0 is not the default. */
#define CHOOSE(group, number, flag)                                                          \
    do {                                                                                     \
        group.number = options->number;                                                      \
        group.has_##number = options->number || (options->zeros & (flag)) != 0;              \
    } while (0)

static void choose_settings(choices *it, const lazydfa_options *options) {
    CHOOSE(it->settings, cache_capacity, LAZYDFA_ZERO_CACHE_CAPACITY);
    CHOOSE(it->settings, cache_limit, LAZYDFA_ZERO_CACHE_LIMIT);
    CHOOSE(it->settings, minimum_cache_clear_count, LAZYDFA_ZERO_CLEAR_COUNT);
    CHOOSE(it->settings, minimum_bytes_per_state, LAZYDFA_ZERO_BYTES_PER_STATE);
    it->settings.match_kind = options->match_kind;
    it->settings.starts_for_each_pattern = options->starts_for_each_pattern;
    it->settings.no_byte_classes = options->no_byte_classes;
    it->settings.unicode_word_boundary = options->unicode_word_boundary;
    it->settings.specialize_start_states = options->specialize_start_states;
    it->settings.skip_cache_capacity_check = options->skip_cache_capacity_check;
    it->settings.always_anchored = options->always_anchored;
}

static void choose_texts(choices *it, const lazydfa_options *options) {
    CHOOSE(it->texts, size_limit, LAZYDFA_ZERO_SIZE_LIMIT);
    CHOOSE(it->texts, text_limit, LAZYDFA_ZERO_TEXT_LIMIT);
    CHOOSE(it->texts, class_limit, LAZYDFA_ZERO_CLASS_LIMIT);
    it->texts.nest_limit = options->nest_limit;
    it->texts.no_unicode = options->no_unicode;
    it->texts.case_insensitive = options->case_insensitive;
    it->texts.multi_line = options->multi_line;
    it->texts.dot_matches_new_line = options->dot_matches_new_line;
    it->texts.crlf = options->crlf;
    it->texts.swap_greed = options->swap_greed;
    it->texts.ignore_whitespace = options->ignore_whitespace;
    it->texts.octal = options->octal;
    it->texts.bytes = options->bytes;
    it->texts.forward_only = options->forward_only;
    it->texts.groups = options->groups;
}

/* Reads options, NULL for the defaults. Returns LAZYDFA_OK, or what is wrong with them. */
static uint32_t choose(choices *it, const lazydfa_options *options) {
    memset(it, 0, sizeof *it);
    it->quits = SLICE(it->quits, 0);
    if (!options) return LAZYDFA_OK;
    if (options->struct_size != sizeof *options) return LAZYDFA_STRUCT_SIZE;
    if (options->zeros & ~(2u * LAZYDFA_ZERO_CLASS_LIMIT - 1)) return LAZYDFA_ARGUMENT;
    if (!options->quits && options->quit_count) return LAZYDFA_ARGUMENT;
    choose_settings(it, options);
    choose_texts(it, options);
    it->quits = SLICE(options->quits, options->quit_count);
    it->quit_count = options->quit_count;
    return LAZYDFA_OK;
}

/* Sets an error, unless it is NULL, to the one of a call that returns LAZYDFA_OK. Returns whether its size is known. */
static int clear_error(lazydfa_error *error) {
    if (!error) return 1;
    if (error->struct_size != sizeof *error) return 0;
    memset(error, 0, offsetof(lazydfa_error, message) + 1);
    error->struct_size = sizeof *error;
    return 1;
}

/* Writes a text with a zero at its end, and returns where the zero is. */
static char *add_text(char *at, const char *text) {
    while ((*at = *text++) != 0) at++;
    return at;
}

static char *add_number(char *at, size_t number) {
    char digits[21], *first = digits + 20;
    *first = 0;
    do *--first = (char)('0' + number % 10);
    while ((number /= 10) > 0);
    return add_text(at, first);
}

/* Writes what a call returns to its error, with what the code means if there is no other message. */
static lazydfa_status report(lazydfa_error *error, lazydfa_status status) {
    if (!error) return status;
    error->status = status;
    if (status.code != LAZYDFA_OK && !error->length) add_text(error->message, lazydfa_code_text(status.code));
    return status;
}

/* Writes that texts are longer than the limit, in the words that the proved code has for one text. */
static lazydfa_status too_long(lazydfa_error *error, size_t length, size_t limit) {
    if (error) {
        char *at = add_number(add_text(error->message, "the patterns have "), length);
        at = add_number(add_text(at, " bytes, and may have "), limit);
        error->length = (size_t)(add_text(at, "; raise text_limit") - error->message);
    }
    return failed(LAZYDFA_TOO_LARGE);
}

/* ---- Regexes ---- */

/* Builds a regex from texts that follow one another. */
static lazydfa_status build_texts(lazydfa_regex *regex, const uint8_t *bytes, size_t length, const size_t *lengths,
                                  size_t count, const choices *chosen, lazydfa_error *error) {
    raw_refusal refusal = { 0, 0, 0, 0 };
    size_t room = error ? sizeof error->message : 0;
    lazydfa_status status = lazydfa_raw_regex_any_of(&regex->handle, bytes, length, lengths, count, &chosen->texts,
                                                     &chosen->settings, chosen->quits, chosen->quit_count, &refusal,
                                                     SLICE((uint8_t *)error->message, room), room);
    if (error) {
        error->pattern = refusal.pattern;
        error->start = refusal.start;
        error->end = refusal.end;
        error->length = refusal.length;
    }
    return status;
}

/* Copies texts so that they follow one another, and builds a regex from them. */
static lazydfa_status build_copies(lazydfa_regex *regex, const lazydfa_text *texts, size_t count, size_t length,
                                   const choices *chosen, lazydfa_error *error) {
    size_t i, at = 0, *lengths = NULL;
    uint8_t *bytes;
    lazydfa_status status;
    if (count < (PTRDIFF_MAX - length) / sizeof *lengths) lengths = (size_t *)malloc(count * sizeof *lengths + length);
    if (!lengths) return failed(LAZYDFA_MEMORY);
    bytes = (uint8_t *)(lengths + count);
    for (i = 0; i < count; i++) {
        lengths[i] = texts[i].length;
        if (texts[i].length) memcpy(bytes + at, texts[i].text, texts[i].length);
        at += texts[i].length;
    }
    status = build_texts(regex, SLICE(bytes, length), length, lengths, count, chosen, error);
    free(lengths);
    return status;
}

static lazydfa_status build_any_of(lazydfa_regex *regex, const lazydfa_text *texts, size_t count,
                                   const lazydfa_options *options, lazydfa_error *error) {
    static const lazydfa_text none = { "", 0 };
    size_t i, length = 0;
    choices chosen;
    uint32_t code = choose(&chosen, options);
    if (code != LAZYDFA_OK) return failed(code);
    NEED(regex);
    NEED_ALL(texts, count);
    for (i = 0; i < count; i++) {
        NEED_ALL(texts[i].text, texts[i].length);
        if (texts[i].length > PTRDIFF_MAX - length) return failed(LAZYDFA_MEMORY);
        length += texts[i].length;
    }
    if (count > 1 && chosen.texts.has_text_limit && length > chosen.texts.text_limit)
        return too_long(error, length, chosen.texts.text_limit);
    if (count > 1) return build_copies(regex, texts, count, length, &chosen, error);
    if (count == 0) texts = &none;
    return build_texts(regex, SLICE((const uint8_t *)texts->text, length), length, &texts->length, count, &chosen,
                       error);
}

lazydfa_status lazydfa_regex_any_of(lazydfa_regex *regex, const lazydfa_text *texts, size_t count,
                                    const lazydfa_options *options, lazydfa_error *error) {
    if (!clear_error(error)) return failed(LAZYDFA_STRUCT_SIZE);
    return report(error, build_any_of(regex, texts, count, options, error));
}

lazydfa_status lazydfa_regex_new(lazydfa_regex *regex, const char *pattern, size_t length,
                                 const lazydfa_options *options, lazydfa_error *error) {
    lazydfa_text text;
    text.text = pattern;
    text.length = length;
    return lazydfa_regex_any_of(regex, &text, 1, options, error);
}

lazydfa_status lazydfa_close(lazydfa_handle *handle) {
    NEED(handle);
    return lazydfa_raw_close(handle);
}

lazydfa_status lazydfa_regex_close(lazydfa_regex *regex) {
    NEED(regex);
    return lazydfa_raw_close(&regex->handle);
}

lazydfa_status lazydfa_regex_share(lazydfa_regex *regex, lazydfa_regex *other) {
    NEED(regex);
    NEED(other);
    if (regex == other) return failed(LAZYDFA_ARGUMENT);
    return lazydfa_raw_regex_share(&regex->handle, &other->handle);
}

lazydfa_status lazydfa_regex_reverse(lazydfa_regex *regex, lazydfa_regex *other) {
    NEED(regex);
    NEED(other);
    if (regex == other) return failed(LAZYDFA_ARGUMENT);
    return lazydfa_raw_regex_reverse(&regex->handle, &other->handle);
}

lazydfa_status lazydfa_regex_size(lazydfa_regex *regex, size_t *size) {
    NEED(regex);
    NEED(size);
    return lazydfa_raw_regex_size(&regex->handle, size);
}

/* ---- Names of groups ---- */

lazydfa_status lazydfa_group_count(lazydfa_regex *regex, uint32_t pattern, size_t *count) {
    NEED(regex);
    NEED(count);
    return lazydfa_raw_group_count(&regex->handle, pattern, count);
}

lazydfa_status lazydfa_group_index(lazydfa_regex *regex, uint32_t pattern, const char *name, size_t length,
                                   size_t *group) {
    NEED(regex);
    NEED(group);
    NEED_ALL(name, length);
    return lazydfa_raw_group_index(&regex->handle, pattern, SLICE((const uint8_t *)name, length), length, group);
}

lazydfa_status lazydfa_group_name(lazydfa_regex *regex, uint32_t pattern, size_t group, char *name, size_t room,
                                  size_t *length) {
    NEED(regex);
    NEED(length);
    NEED_ALL(name, room);
    return lazydfa_raw_group_name(&regex->handle, pattern, group, SLICE((uint8_t *)name, room), room, length);
}

/* ---- Builders ---- */

lazydfa_status lazydfa_builder_new(lazydfa_builder *builder) {
    NEED(builder);
    return lazydfa_raw_builder_new(&builder->handle);
}

lazydfa_status lazydfa_builder_close(lazydfa_builder *builder) {
    NEED(builder);
    return lazydfa_raw_close(&builder->handle);
}

lazydfa_status lazydfa_builder_clear(lazydfa_builder *builder) {
    NEED(builder);
    return lazydfa_raw_builder_clear(&builder->handle);
}

lazydfa_status lazydfa_start_pattern(lazydfa_builder *builder, uint32_t *pattern) {
    NEED(builder);
    NEED(pattern);
    return lazydfa_raw_start_pattern(&builder->handle, pattern);
}

lazydfa_status lazydfa_finish_pattern(lazydfa_builder *builder, lazydfa_state_id start, uint32_t *pattern) {
    NEED(builder);
    NEED(pattern);
    return lazydfa_raw_finish_pattern(&builder->handle, start.number, pattern);
}

lazydfa_status lazydfa_patch(lazydfa_builder *builder, lazydfa_state_id from, lazydfa_state_id to) {
    NEED(builder);
    return lazydfa_raw_patch(&builder->handle, from.number, to.number);
}

lazydfa_status lazydfa_set_utf8(lazydfa_builder *builder, uint32_t yes) {
    NEED(builder);
    return lazydfa_raw_set_utf8(&builder->handle, yes);
}

lazydfa_status lazydfa_set_reverse(lazydfa_builder *builder, uint32_t yes) {
    NEED(builder);
    return lazydfa_raw_set_reverse(&builder->handle, yes);
}

lazydfa_status lazydfa_set_line_terminator(lazydfa_builder *builder, uint8_t byte) {
    NEED(builder);
    return lazydfa_raw_set_line_terminator(&builder->handle, byte);
}

lazydfa_status lazydfa_add_empty(lazydfa_builder *builder, lazydfa_state_id *id) {
    NEED(builder);
    NEED(id);
    return lazydfa_raw_add_empty(&builder->handle, &id->number);
}

lazydfa_status lazydfa_add_range(lazydfa_builder *builder, uint8_t lo, uint8_t hi, lazydfa_state_id next,
                                 lazydfa_state_id *id) {
    NEED(builder);
    NEED(id);
    return lazydfa_raw_add_range(&builder->handle, lo, hi, next.number, &id->number);
}

lazydfa_status lazydfa_add_sparse(lazydfa_builder *builder, const lazydfa_edge *edges, size_t length,
                                  lazydfa_state_id *id) {
    NEED(builder);
    NEED(id);
    NEED_ALL(edges, length);
    return lazydfa_raw_add_sparse(&builder->handle, SLICE(edges, length), length, &id->number);
}

lazydfa_status lazydfa_add_look(lazydfa_builder *builder, uint32_t look, lazydfa_state_id next, lazydfa_state_id *id) {
    NEED(builder);
    NEED(id);
    return lazydfa_raw_add_look(&builder->handle, next.number, look, &id->number);
}

lazydfa_status lazydfa_add_union(lazydfa_builder *builder, const lazydfa_state_id *alternates, size_t length,
                                 lazydfa_state_id *id) {
    NEED(builder);
    NEED(id);
    NEED_ALL(alternates, length);
    return lazydfa_raw_add_union(&builder->handle, SLICE(alternates, length), length, &id->number);
}

lazydfa_status lazydfa_add_union_reverse(lazydfa_builder *builder, const lazydfa_state_id *alternates, size_t length,
                                         lazydfa_state_id *id) {
    NEED(builder);
    NEED(id);
    NEED_ALL(alternates, length);
    return lazydfa_raw_add_union_reverse(&builder->handle, SLICE(alternates, length), length, &id->number);
}

lazydfa_status lazydfa_add_capture_start(lazydfa_builder *builder, uint32_t group, lazydfa_state_id next,
                                         lazydfa_state_id *id) {
    NEED(builder);
    NEED(id);
    return lazydfa_raw_add_capture_start(&builder->handle, next.number, group, &id->number);
}

lazydfa_status lazydfa_add_capture_end(lazydfa_builder *builder, uint32_t group, lazydfa_state_id next,
                                       lazydfa_state_id *id) {
    NEED(builder);
    NEED(id);
    return lazydfa_raw_add_capture_end(&builder->handle, next.number, group, &id->number);
}

lazydfa_status lazydfa_add_fail(lazydfa_builder *builder, lazydfa_state_id *id) {
    NEED(builder);
    NEED(id);
    return lazydfa_raw_add_fail(&builder->handle, &id->number);
}

lazydfa_status lazydfa_add_match(lazydfa_builder *builder, lazydfa_state_id *id) {
    NEED(builder);
    NEED(id);
    return lazydfa_raw_add_match(&builder->handle, &id->number);
}

lazydfa_status lazydfa_add_unanchored_prefix(lazydfa_builder *builder, lazydfa_state_id start, lazydfa_state_id *id) {
    NEED(builder);
    NEED(id);
    return lazydfa_raw_add_unanchored_prefix(&builder->handle, start.number, &id->number);
}

lazydfa_state_id lazydfa_state(uint32_t number) {
    lazydfa_state_id id;
    id.number = number;
    return id;
}

lazydfa_status lazydfa_regex_build(lazydfa_regex *regex, lazydfa_builder *builder, lazydfa_starts starts,
                                   const lazydfa_options *options) {
    choices chosen;
    uint32_t code = choose(&chosen, options);
    if (code != LAZYDFA_OK) return failed(code);
    NEED(regex);
    NEED(builder);
    return lazydfa_raw_regex_build(&regex->handle, &builder->handle, &starts, &chosen.settings, chosen.quits,
                                   chosen.quit_count);
}

lazydfa_status lazydfa_regex_build_pair(lazydfa_regex *regex, lazydfa_builder *forward, lazydfa_starts forward_starts,
                                        lazydfa_builder *reverse, lazydfa_starts reverse_starts,
                                        const lazydfa_options *options) {
    choices chosen;
    uint32_t code = choose(&chosen, options);
    if (code != LAZYDFA_OK) return failed(code);
    NEED(regex);
    NEED(forward);
    NEED(reverse);
    if (forward == reverse) return failed(LAZYDFA_ARGUMENT);
    return lazydfa_raw_regex_build_pair(&regex->handle, &forward->handle, &forward_starts, &reverse->handle,
                                        &reverse_starts, &chosen.settings, chosen.quits, chosen.quit_count);
}

/* ---- Caches ---- */

lazydfa_status lazydfa_cache_close(lazydfa_cache *cache) {
    NEED(cache);
    return lazydfa_raw_close(&cache->handle);
}

lazydfa_status lazydfa_cache_new(lazydfa_cache *cache, lazydfa_regex *regex) {
    NEED(cache);
    NEED(regex);
    return lazydfa_raw_cache_new(&cache->handle, &regex->handle);
}

lazydfa_status lazydfa_cache_reset(lazydfa_cache *cache) {
    NEED(cache);
    return lazydfa_raw_cache_reset(&cache->handle);
}

lazydfa_status lazydfa_cache_usage(lazydfa_cache *cache, lazydfa_usage *usage) {
    NEED(cache);
    NEED(usage);
    return lazydfa_raw_cache_usage(&cache->handle, usage);
}

/* ---- Searches ---- */

lazydfa_input lazydfa_whole(size_t length) {
    lazydfa_input input = { 0, length, LAZYDFA_UNANCHORED, 0, 0, 0 };
    return input;
}

lazydfa_status lazydfa_find(lazydfa_cache *cache, const uint8_t *haystack, size_t length, const lazydfa_input *input,
                            lazydfa_match *found) {
    NEED(cache);
    NEED(input);
    NEED(found);
    NEED_ALL(haystack, length);
    return lazydfa_raw_find(&cache->handle, SLICE(haystack, length), length, input, found);
}

lazydfa_status lazydfa_is_match(lazydfa_cache *cache, const uint8_t *haystack, size_t length,
                                const lazydfa_input *input) {
    NEED(cache);
    NEED(input);
    NEED_ALL(haystack, length);
    return lazydfa_raw_is_match(&cache->handle, SLICE(haystack, length), length, input);
}

lazydfa_status lazydfa_find_end(lazydfa_cache *cache, const uint8_t *haystack, size_t length,
                                const lazydfa_input *input, lazydfa_half *found) {
    NEED(cache);
    NEED(input);
    NEED(found);
    NEED_ALL(haystack, length);
    return lazydfa_raw_find_end(&cache->handle, SLICE(haystack, length), length, input, found);
}

lazydfa_status lazydfa_find_start(lazydfa_cache *cache, const uint8_t *haystack, size_t length,
                                  const lazydfa_input *input, lazydfa_half *found) {
    NEED(cache);
    NEED(input);
    NEED(found);
    NEED_ALL(haystack, length);
    return lazydfa_raw_find_start(&cache->handle, SLICE(haystack, length), length, input, found);
}

lazydfa_iteration lazydfa_iterate(lazydfa_input input) {
    lazydfa_iteration at = { { 0, 0, 0, 0, 0, 0 }, 0, 0, 0 };
    at.left = input;
    at.left.reserved = 0; /* the input may be what another iteration has left, of another haystack */
    return at;
}

lazydfa_status lazydfa_next(lazydfa_cache *cache, const uint8_t *haystack, size_t length, lazydfa_iteration *at,
                            lazydfa_match *found) {
    NEED(cache);
    NEED(at);
    NEED(found);
    NEED_ALL(haystack, length);
    return lazydfa_raw_next(&cache->handle, SLICE(haystack, length), length, at, found);
}

lazydfa_status lazydfa_next_all(lazydfa_cache *cache, const uint8_t *haystack, size_t length, lazydfa_iteration *at,
                                lazydfa_match *found, size_t room, size_t *count) {
    COUNT(count);
    NEED(cache);
    NEED(at);
    NEED_ALL(found, room);
    NEED_ALL(haystack, length);
    return lazydfa_raw_next_all(&cache->handle, SLICE(haystack, length), length, at, SLICE(found, room), room,
                                count);
}

lazydfa_status lazydfa_token(lazydfa_cache *cache, const uint8_t *haystack, size_t length, lazydfa_input *left,
                             lazydfa_match *found) {
    NEED(cache);
    NEED(left);
    NEED(found);
    NEED_ALL(haystack, length);
    return lazydfa_raw_token(&cache->handle, SLICE(haystack, length), length, left, found);
}

lazydfa_status lazydfa_tokens(lazydfa_cache *cache, const uint8_t *haystack, size_t length, lazydfa_input *left,
                              lazydfa_match *found, size_t room, size_t *count) {
    COUNT(count);
    NEED(cache);
    NEED(left);
    NEED_ALL(found, room);
    NEED_ALL(haystack, length);
    return lazydfa_raw_tokens(&cache->handle, SLICE(haystack, length), length, left, SLICE(found, room), room,
                              count);
}

lazydfa_status lazydfa_all_ends(lazydfa_cache *cache, const uint8_t *haystack, size_t length,
                                const lazydfa_input *input, lazydfa_half *found, size_t room, size_t *count) {
    COUNT(count);
    NEED(cache);
    NEED(input);
    NEED_ALL(found, room);
    NEED_ALL(haystack, length);
    return lazydfa_raw_all_ends(&cache->handle, SLICE(haystack, length), length, input, SLICE(found, room), room,
                                count);
}

lazydfa_status lazydfa_all_starts(lazydfa_cache *cache, const uint8_t *haystack, size_t length,
                                  const lazydfa_input *input, lazydfa_half *found, size_t room, size_t *count) {
    COUNT(count);
    NEED(cache);
    NEED(input);
    NEED_ALL(found, room);
    NEED_ALL(haystack, length);
    return lazydfa_raw_all_starts(&cache->handle, SLICE(haystack, length), length, input, SLICE(found, room), room,
                                  count);
}

lazydfa_status lazydfa_which(lazydfa_cache *cache, const uint8_t *haystack, size_t length, const lazydfa_input *input,
                             size_t below, uint32_t *patterns, size_t room, size_t *count) {
    COUNT(count);
    NEED(cache);
    NEED(input);
    NEED_ALL(patterns, room);
    NEED_ALL(haystack, length);
    return lazydfa_raw_which(&cache->handle, SLICE(haystack, length), length, input, below, SLICE(patterns, room),
                             room, count);
}

lazydfa_status lazydfa_groups(lazydfa_cache *cache, const uint8_t *haystack, size_t length, const lazydfa_match *found,
                              lazydfa_span *groups, size_t room, size_t *count) {
    COUNT(count);
    NEED(cache);
    NEED(found);
    NEED_ALL(groups, room);
    NEED_ALL(haystack, length);
    return lazydfa_raw_groups(&cache->handle, SLICE(haystack, length), length, found, SLICE(groups, room), room,
                              count);
}

/* ---- What all matches have in common ---- */

lazydfa_status lazydfa_text_facts(const char *text, size_t length, const lazydfa_options *options,
                                  lazydfa_facts *facts, uint8_t *bytes, size_t room, size_t *lengths,
                                  size_t count_room) {
    choices chosen;
    uint32_t code;
    NEED(facts);
    memset(facts, 0, sizeof *facts);
    code = choose(&chosen, options);
    if (code != LAZYDFA_OK) return failed(code);
    NEED_ALL(text, length);
    NEED_ALL(bytes, room);
    NEED_ALL(lengths, count_room);
    return lazydfa_raw_text_facts(SLICE((const uint8_t *)text, length), length, &chosen.texts, facts,
                                  SLICE(bytes, room), room, SLICE(lengths, count_room), count_room);
}

/* ---- Haystacks in pieces ---- */

lazydfa_status lazydfa_pieces_begin(lazydfa_cache *cache, uint32_t anchored, uint32_t pattern, int32_t behind,
                                    uint32_t earliest) {
    NEED(cache);
    return lazydfa_raw_pieces_begin(&cache->handle, anchored, pattern, (uint32_t)behind, earliest);
}

lazydfa_status lazydfa_pieces_read(lazydfa_cache *cache, const uint8_t *piece, size_t length, uint32_t *done) {
    COUNT(done);
    NEED(cache);
    NEED_ALL(piece, length);
    return lazydfa_raw_pieces_read(&cache->handle, SLICE(piece, length), length, done);
}

lazydfa_status lazydfa_pieces_end(lazydfa_cache *cache, int32_t ahead, lazydfa_half *found) {
    NEED(cache);
    NEED(found);
    return lazydfa_raw_pieces_end(&cache->handle, (uint32_t)ahead, found);
}

lazydfa_status lazydfa_walk_begin(lazydfa_cache *cache, uint32_t anchored, uint32_t pattern, int32_t behind) {
    NEED(cache);
    return lazydfa_raw_walk_begin(&cache->handle, anchored, pattern, (uint32_t)behind);
}

lazydfa_status lazydfa_walk_read(lazydfa_cache *cache, const uint8_t *piece, size_t length, lazydfa_stop *stop) {
    NEED(stop);
    memset(stop, 0, sizeof *stop);
    NEED(cache);
    NEED_ALL(piece, length);
    return lazydfa_raw_walk_read(&cache->handle, SLICE(piece, length), length, stop);
}

lazydfa_status lazydfa_walk_end(lazydfa_cache *cache, int32_t ahead, lazydfa_stop *stop) {
    NEED(stop);
    memset(stop, 0, sizeof *stop);
    NEED(cache);
    return lazydfa_raw_walk_end(&cache->handle, (uint32_t)ahead, stop);
}

lazydfa_status lazydfa_walk_pattern(lazydfa_cache *cache, size_t index, uint32_t *pattern) {
    NEED(cache);
    NEED(pattern);
    return lazydfa_raw_walk_pattern(&cache->handle, index, pattern);
}
