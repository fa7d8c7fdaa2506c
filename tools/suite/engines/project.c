/* The library for C, with its defaults. */
#include "../engine.h"
#include <lazydfa_automata.h>
#include <stdlib.h>
#include <string.h>

enum { BATCH = 1024 };

const char *const engine_name = "project";

struct engine {
    lazydfa_regex regex;
    lazydfa_cache cache;
    size_t patterns;
    uint32_t *found;
    lazydfa_span *groups;
    size_t room;
};

void *engine_new(const struct work *work) {
    struct engine *it = calloc(1, sizeof *it);
    lazydfa_options options = LAZYDFA_OPTIONS_INIT;
    lazydfa_text *texts = malloc(sizeof *texts * work->patterns);
    lazydfa_status status;
    options.match_kind = work->set ? LAZYDFA_ALL : LAZYDFA_LEFTMOST_FIRST;
    options.nest_limit = 200;
    options.no_unicode = options.bytes = !work->unicode;
    options.groups = (uint32_t)work->groups;
    for (size_t i = 0; i < work->patterns; i++) {
        texts[i].text = work->text[i];
        texts[i].length = work->length[i];
    }
    status = lazydfa_regex_any_of(&it->regex, texts, work->patterns, &options, NULL);
    free(texts);
    if (status.code == LAZYDFA_OK) status = lazydfa_cache_new(&it->cache, &it->regex);
    if (status.code != LAZYDFA_OK) {
        lazydfa_regex_close(&it->regex);
        free(it);
        return NULL;
    }
    it->patterns = work->patterns;
    it->found = malloc(sizeof *it->found * work->patterns);
    for (size_t i = 0, count = 0; work->groups && i < work->patterns; i++) {
        lazydfa_group_count(&it->regex, (uint32_t)i, &count);
        if (count > it->room) it->room = count;
    }
    it->groups = malloc(sizeof *it->groups * (it->room + 1));
    return it;
}

void engine_free(void *engine) {
    struct engine *it = engine;
    lazydfa_cache_close(&it->cache);
    lazydfa_regex_close(&it->regex);
    free(it->found);
    free(it->groups);
    free(it);
}

int engine_all(void *engine, const uint8_t *text, size_t length, struct total *total) {
    static lazydfa_match found[BATCH];
    struct engine *it = engine;
    lazydfa_iteration at = lazydfa_iterate(lazydfa_whole(length));
    lazydfa_status status;
    do {
        size_t count;
        status = lazydfa_next_all(&it->cache, text, length, &at, found, BATCH, &count);
        for (size_t i = 0; i < count; i++) {
            total->count++;
            total->sum += found[i].end - found[i].start;
        }
    } while (status.code == LAZYDFA_OK);
    return status.code != LAZYDFA_NONE;
}

int engine_groups(void *engine, const uint8_t *text, size_t length, struct total *total) {
    static lazydfa_match found[BATCH];
    struct engine *it = engine;
    lazydfa_iteration at = lazydfa_iterate(lazydfa_whole(length));
    lazydfa_status status;
    do {
        size_t count, groups;
        status = lazydfa_next_all(&it->cache, text, length, &at, found, BATCH, &count);
        for (size_t i = 0; i < count; i++) {
            if (lazydfa_groups(&it->cache, text, length, &found[i], it->groups, it->room, &groups).code) return 1;
            for (size_t k = 0; k < groups; k++) {
                if (it->groups[k].start == LAZYDFA_NO_OFFSET) continue;
                total->count++;
                total->sum += it->groups[k].end - it->groups[k].start;
            }
        }
    } while (status.code == LAZYDFA_OK);
    return status.code != LAZYDFA_NONE;
}

int engine_is_match(void *engine, const uint8_t *text, size_t length) {
    struct engine *it = engine;
    lazydfa_input input = lazydfa_whole(length);
    lazydfa_status status = lazydfa_is_match(&it->cache, text, length, &input);
    return status.code == LAZYDFA_OK ? 1 : status.code == LAZYDFA_NONE ? 0 : -1;
}

int engine_which(void *engine, const uint8_t *text, size_t length, struct total *total) {
    struct engine *it = engine;
    lazydfa_input input = lazydfa_whole(length);
    size_t count = 0;
    lazydfa_status status =
        lazydfa_which(&it->cache, text, length, &input, it->patterns, it->found, it->patterns, &count);
    for (size_t i = 0; i < count; i++) total->sum += it->found[i];
    total->count += count;
    return status.code != LAZYDFA_OK && status.code != LAZYDFA_NONE;
}
