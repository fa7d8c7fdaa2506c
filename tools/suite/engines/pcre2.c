/* PCRE2 with its JIT. It has no sets. */
#define PCRE2_CODE_UNIT_WIDTH 8
#include "../engine.h"
#include <pcre2.h>
#include <stdio.h>
#include <stdlib.h>
#include <string.h>

const char *const engine_name = "pcre2";

struct engine {
    pcre2_code *code;
    pcre2_match_data *data;
    pcre2_match_context *context;
    pcre2_jit_stack *stack;
};

/* Returns the patterns as one alternation. */
static char *alternation(const struct work *work, size_t *length) {
    size_t size = 1, at = 0;
    for (size_t i = 0; i < work->patterns; i++) size += work->length[i] + 5;
    char *all = malloc(size);
    for (size_t i = 0; i < work->patterns; i++) {
        at += (size_t)sprintf(all + at, i ? "|(?:" : "(?:");
        memcpy(all + at, work->text[i], work->length[i]);
        at += work->length[i];
        all[at++] = ')';
    }
    *length = at;
    return all;
}

void *engine_new(const struct work *work) {
    size_t length, offset;
    int error;
    if (work->set) return NULL;
    char *all = alternation(work, &length);
    uint32_t options = work->unicode ? PCRE2_UTF | PCRE2_UCP | PCRE2_NO_UTF_CHECK : 0;
    struct engine *it = calloc(1, sizeof *it);
    it->code = pcre2_compile((PCRE2_SPTR)all, length, options, &error, &offset, NULL);
    free(all);
    if (!it->code || pcre2_jit_compile(it->code, PCRE2_JIT_COMPLETE)) {
        pcre2_code_free(it->code);
        free(it);
        return NULL;
    }
    it->data = work->groups ? pcre2_match_data_create_from_pattern(it->code, NULL) : pcre2_match_data_create(1, NULL);
    it->context = pcre2_match_context_create(NULL);
    it->stack = pcre2_jit_stack_create(32 << 10, 8 << 20, NULL);
    pcre2_jit_stack_assign(it->context, NULL, it->stack);
    return it;
}

void engine_free(void *engine) {
    struct engine *it = engine;
    pcre2_match_data_free(it->data);
    pcre2_match_context_free(it->context);
    pcre2_jit_stack_free(it->stack);
    pcre2_code_free(it->code);
    free(it);
}

int engine_all(void *engine, const uint8_t *text, size_t length, struct total *total) {
    struct engine *it = engine;
    size_t at = 0, last = (size_t)-1;
    while (at <= length) {
        int found = pcre2_jit_match(it->code, text, length, at, PCRE2_NO_UTF_CHECK, it->data, it->context);
        size_t *span = pcre2_get_ovector_pointer(it->data);
        if (found == PCRE2_ERROR_NOMATCH) return 0;
        if (found < 0) return 1;
        if (span[0] != span[1] || span[0] != last) {
            total->count++;
            total->sum += span[1] - span[0];
        }
        last = span[1];
        at = span[0] == span[1] ? span[1] + 1 : span[1];
    }
    return 0;
}

int engine_groups(void *engine, const uint8_t *text, size_t length, struct total *total) {
    struct engine *it = engine;
    size_t at = 0, last = (size_t)-1;
    while (at <= length) {
        int found = pcre2_jit_match(it->code, text, length, at, PCRE2_NO_UTF_CHECK, it->data, it->context);
        size_t *span = pcre2_get_ovector_pointer(it->data);
        if (found == PCRE2_ERROR_NOMATCH) return 0;
        if (found < 0) return 1;
        for (int i = 0; i < found && (span[0] != span[1] || span[0] != last); i++) {
            if (span[2 * i] == PCRE2_UNSET) continue;
            total->count++;
            total->sum += span[2 * i + 1] - span[2 * i];
        }
        last = span[1];
        at = span[0] == span[1] ? span[1] + 1 : span[1];
    }
    return 0;
}

int engine_is_match(void *engine, const uint8_t *text, size_t length) {
    struct engine *it = engine;
    int found = pcre2_jit_match(it->code, text, length, 0, PCRE2_NO_UTF_CHECK, it->data, it->context);
    return found == PCRE2_ERROR_NOMATCH ? 0 : found < 0 ? -1 : 1;
}

int engine_which(void *engine, const uint8_t *text, size_t length, struct total *total) {
    (void)engine, (void)text, (void)length, (void)total;
    return 1;
}
