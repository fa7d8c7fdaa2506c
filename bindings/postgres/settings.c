/* Defines the settings lazydfa.*, and applies changes to them. */
#include "settings.h"

#include <limits.h>

#include "kept.h"

#include "utils/guc.h"

#define KEPT_AT_MOST 65536
#define PATTERN_LENGTH_AT_MOST (64 * 1024 * 1024)
#define PATTERN_SIZE_AT_MOST (1024 * 1024)

int setting_cached_patterns = 256;
int setting_cache_size = 65536;
int setting_pattern_cache_size = 8192;
int setting_pattern_size = 10240;
int setting_pattern_length = 65536;
int setting_pattern_classes = 2000;
int setting_piece_size = 16384;

/* A limit on patterns also applies to patterns that are kept: they are compiled anew. */
static void assign_pattern_size(int value, void *extra) {
    if (value != setting_pattern_size) kept_forget_all();
}

static void assign_pattern_length(int value, void *extra) {
    if (value != setting_pattern_length) kept_forget_all();
}

static void assign_pattern_classes(int value, void *extra) {
    if (value != setting_pattern_classes) kept_forget_all();
}

/* The size of a cache is fixed when it is created. */
static void assign_pattern_cache_size(int value, void *extra) {
    if (Min(value, setting_cache_size) != Min(setting_pattern_cache_size, setting_cache_size)) kept_forget_all();
}

static void assign_cache_size(int value, void *extra) {
    if (Min(setting_pattern_cache_size, value) != Min(setting_pattern_cache_size, setting_cache_size))
        kept_forget_all();
    else
        kept_trim(setting_cached_patterns, (size_t)value * 1024);
}

static void assign_cached_patterns(int value, void *extra) { kept_trim(value, (size_t)setting_cache_size * 1024); }

static void assign_piece_size(int value, void *extra) {
    if (value != setting_piece_size) kept_set_pieces(value);
}

/* Only the superuser sets how long a query may take until it can be cancelled. */
static void define_limits(void) {
    DefineCustomIntVariable("lazydfa.pattern_length", "Length of one pattern, or of all patterns of an array.",
                            "A longer one is an error. An array has as many patterns as this at most.",
                            &setting_pattern_length, 65536, 1, PATTERN_LENGTH_AT_MOST, PGC_SUSET, GUC_UNIT_BYTE, NULL,
                            assign_pattern_length, NULL);
    DefineCustomIntVariable("lazydfa.pattern_classes",
                            "Escapes of classes, as \\w or \\pL, in one pattern, or in all patterns of an array.",
                            "A pattern that has more is an error.", &setting_pattern_classes, 2000, 0, INT_MAX,
                            PGC_SUSET, 0, NULL, assign_pattern_classes, NULL);
    DefineCustomIntVariable("lazydfa.pattern_size", "Memory for the tables of one pattern, or of one array.",
                            "A pattern that needs more is an error.", &setting_pattern_size, 10240, 64,
                            PATTERN_SIZE_AT_MOST, PGC_SUSET, GUC_UNIT_KB, NULL, assign_pattern_size, NULL);
    DefineCustomIntVariable("lazydfa.piece_size", "How much of a value is searched before a query can be cancelled.",
                            "It is less for patterns with large tables.", &setting_piece_size, 16384, 1, MAX_KILOBYTES,
                            PGC_SUSET, GUC_UNIT_BYTE, NULL, assign_piece_size, NULL);
}

void define_settings(void) {
    define_limits();
    DefineCustomIntVariable("lazydfa.cached_patterns", "Patterns, or arrays of them, that a backend keeps compiled.",
                            NULL, &setting_cached_patterns, 256, 1, KEPT_AT_MOST, PGC_USERSET, 0, NULL,
                            assign_cached_patterns, NULL);
    DefineCustomIntVariable("lazydfa.cache_size", "Memory for all patterns that a backend keeps compiled.", NULL,
                            &setting_cache_size, 65536, 64, MAX_KILOBYTES, PGC_USERSET, GUC_UNIT_KB, NULL,
                            assign_cache_size, NULL);
    DefineCustomIntVariable("lazydfa.pattern_cache_size", "Memory for the cache of one pattern, or of one array.",
                            "A large pattern gets up to four times as much, within half of lazydfa.cache_size.",
                            &setting_pattern_cache_size, 8192, 64, MAX_KILOBYTES, PGC_USERSET, GUC_UNIT_KB, NULL, assign_pattern_cache_size, NULL);
    MarkGUCPrefixReserved("lazydfa");
}
