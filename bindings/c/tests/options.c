/* Tests the sizes of options and errors, by which the library knows its header; the zeros of options; the messages of
   errors; and the versions. Prints each check that fails, and how many checks there were. */
#include <stddef.h>
#include <stdio.h>
#include <string.h>
#include "check.h"
#include "nfas.h"

/* The layout of this version, on which programs that are already linked rely. */
static void layouts(void) {
    lazydfa_options options = LAZYDFA_OPTIONS_INIT;
    lazydfa_error error = LAZYDFA_ERROR_INIT;
    const unsigned char *at = (const unsigned char *)&options;
    size_t i;
    CHECK(sizeof options == 160 && options.struct_size == 160 && sizeof error == 4152 && error.struct_size == 4152);
    CHECK(offsetof(lazydfa_options, zeros) == 40 && offsetof(lazydfa_options, quits) == 72);
    CHECK(offsetof(lazydfa_options, always_anchored) == 68 && offsetof(lazydfa_options, size_limit) == 88);
    CHECK(offsetof(lazydfa_options, nest_limit) == 112 && offsetof(lazydfa_options, groups) == 156);
    CHECK(offsetof(lazydfa_error, status) == 8 && offsetof(lazydfa_error, length) == 48);
    CHECK(offsetof(lazydfa_error, message) == 56);
    for (i = sizeof options.struct_size; i < sizeof options; i++) CHECK(!at[i]);
    at = (const unsigned char *)&error;
    for (i = sizeof error.struct_size; i < sizeof error; i++) CHECK(!at[i]);
    CHECK(sizeof(lazydfa_status) == 16 && sizeof(lazydfa_handle) == 16 && sizeof(lazydfa_input) == 32);
    CHECK(sizeof(lazydfa_match) == 24 && sizeof(lazydfa_half) == 16 && sizeof(lazydfa_iteration) == 48);
    CHECK(sizeof(lazydfa_usage) == 48 && sizeof(lazydfa_stop) == 24 && sizeof(lazydfa_facts) == 40);
    CHECK(sizeof(lazydfa_edge) == 8 && sizeof(lazydfa_starts) == 8 && sizeof(lazydfa_text) == 16);
    CHECK(sizeof(lazydfa_span) == 16);
}

enum { OPTION_CALLS = 5 };

/* Makes a call that takes options, and closes what it opened. */
static lazydfa_status with_options(int call, const lazydfa_options *options, lazydfa_error *error) {
    static const lazydfa_text texts[2] = { { "[a-z]+", 6 }, { "1", 1 } };
    lazydfa_builder forward = LAZYDFA_INIT, reverse = LAZYDFA_INIT;
    lazydfa_starts starts = { { 0 }, { 0 } };
    lazydfa_regex regex = LAZYDFA_INIT;
    lazydfa_status status = { LAZYDFA_OK, 0, 0 };
    lazydfa_facts facts;
    CODE(lazydfa_builder_new(&forward), LAZYDFA_OK);
    CODE(lazydfa_builder_new(&reverse), LAZYDFA_OK);
    CODE(word(&forward, &starts), LAZYDFA_OK);
    CODE(word(&reverse, &starts), LAZYDFA_OK);
    CODE(lazydfa_set_reverse(&reverse, 1), LAZYDFA_OK);
    switch (call) {
    case 0: status = lazydfa_regex_new(&regex, "[a-z]+", 6, options, error); break;
    case 1: status = lazydfa_regex_any_of(&regex, texts, 2, options, error); break;
    case 2: status = lazydfa_regex_build(&regex, &forward, starts, options); break;
    case 3: status = lazydfa_regex_build_pair(&regex, &forward, starts, &reverse, starts, options); break;
    default: status = lazydfa_text_facts("[a-z]+", 6, options, &facts, NULL, 0, NULL, 0);
    }
    CODE(lazydfa_regex_close(&regex), status.code == LAZYDFA_OK && call < 4 ? LAZYDFA_OK : LAZYDFA_CLOSED);
    CODE(lazydfa_builder_close(&reverse), LAZYDFA_OK);
    CODE(lazydfa_builder_close(&forward), LAZYDFA_OK);
    return status;
}

/* Options and errors of a size that is not theirs are refused, and such an error is not written. */
static void sizes(void) {
    static const size_t wrong[] = { 0, 1, 8, 88, 152, 159, 161, 168, 4152, SIZE_MAX };
    size_t i;
    int call;
    for (call = 0; call < OPTION_CALLS; call++)
        for (i = 0; i < sizeof wrong / sizeof *wrong; i++) {
            lazydfa_options options = LAZYDFA_OPTIONS_INIT;
            lazydfa_error error = LAZYDFA_ERROR_INIT, before;
            CODE(with_options(call, &options, &error), LAZYDFA_OK);
            options.struct_size = wrong[i];
            CODE(with_options(call, &options, NULL), LAZYDFA_STRUCT_SIZE);
            CODE(with_options(call, &options, &error), LAZYDFA_STRUCT_SIZE);
            if (call > 1) continue;
            CHECK(error.status.code == LAZYDFA_STRUCT_SIZE);
            CHECK(!strcmp(error.message, lazydfa_code_text(LAZYDFA_STRUCT_SIZE)));
            memset(&error, 9, sizeof error);
            error.struct_size = wrong[i] == sizeof error ? sizeof error - 1 : wrong[i];
            before = error;
            CODE(with_options(call, NULL, &error), LAZYDFA_STRUCT_SIZE);
            CHECK(!memcmp(&error, &before, sizeof error));
        }
}

/* Each flag of zeros makes a 0 count; other bits are refused. */
static void zeros(void) {
    lazydfa_options options = LAZYDFA_OPTIONS_INIT;
    int call, bit;
    for (bit = 7; bit < 32; bit++) {
        options.zeros = (uint32_t)1 << bit;
        for (call = 0; call < OPTION_CALLS; call++) CODE(with_options(call, &options, NULL), LAZYDFA_ARGUMENT);
    }
    options.zeros = LAZYDFA_ZERO_CACHE_CAPACITY;
    for (call = 0; call < 4; call++) CODE(with_options(call, &options, NULL), LAZYDFA_CAPACITY);
    options.zeros |= LAZYDFA_ZERO_CACHE_LIMIT;
    for (call = 0; call < 4; call++) CODE(with_options(call, &options, NULL), LAZYDFA_CAPACITY);
    options.cache_limit = 1 << 20;
    for (call = 0; call < 4; call++) CODE(with_options(call, &options, NULL), LAZYDFA_OK);
    options.zeros = LAZYDFA_ZERO_CLEAR_COUNT | LAZYDFA_ZERO_BYTES_PER_STATE | LAZYDFA_ZERO_CLASS_LIMIT;
    for (call = 0; call < OPTION_CALLS; call++) CODE(with_options(call, &options, NULL), LAZYDFA_OK);
    options.zeros = LAZYDFA_ZERO_SIZE_LIMIT;
    for (call = 0; call < OPTION_CALLS; call++)
        CODE(with_options(call, &options, NULL), call < 2 ? LAZYDFA_TOO_LARGE : LAZYDFA_OK);
    options.zeros = LAZYDFA_ZERO_TEXT_LIMIT;
    for (call = 0; call < OPTION_CALLS; call++)
        CODE(with_options(call, &options, NULL), call == 2 || call == 3 ? LAZYDFA_OK : LAZYDFA_TOO_LARGE);
    /* a number that is not 0 is used, with its flag and without */
    options.text_limit = 100;
    for (call = 0; call < OPTION_CALLS; call++) CODE(with_options(call, &options, NULL), LAZYDFA_OK);
    options.zeros = 0;
    options.text_limit = 5;
    for (call = 0; call < 2; call++) CODE(with_options(call, &options, NULL), LAZYDFA_TOO_LARGE);
}

/* Each code has words of its own, and no other number has. */
static void codes(void) {
    const char *none = lazydfa_code_text(43);
    uint32_t code, other, count = 0;
    for (code = 0; code < 100; code++) {
        count += strcmp(lazydfa_code_text(code), none) != 0;
        for (other = 0; other < code; other++)
            CHECK(strcmp(lazydfa_code_text(code), lazydfa_code_text(other)) || !strcmp(lazydfa_code_text(code), none));
    }
    CHECK(count == 36);
    CHECK(!strcmp(lazydfa_code_text(UINT32_MAX), none) && !strcmp(lazydfa_code_text(LAZYDFA_OK), "done"));
    CHECK(!strcmp(lazydfa_version(), LAZYDFA_VERSION));
}

int main(void) {
    layouts();
    sizes();
    zeros();
    codes();
    return counted();
}
