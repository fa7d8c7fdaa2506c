/* Compiles patterns, within the limits of the settings, and reports their errors. */
#include "compile.h"

#include "access/detoast.h"
#include "catalog/pg_type_d.h"
#include "lib/stringinfo.h"
#include "mb/pg_wchar.h"
#include "miscadmin.h"
#include "utils/array.h"

#include "settings.h"

/* The default limit on nesting of Rust's regex crate. It takes some 270 KiB of the stack; the server leaves 512 KiB
   below max_stack_depth. */
#define NEST_LIMIT 250

/* For tables up to this size, pieces are as long as the setting says. With larger tables a byte can take proportionally
   longer, and pieces are shorter: with tables of 10 MB a byte takes some 14 ms, and a piece has 16 bytes. */
#define SMALL_TABLES 10240
#define SHORTEST_PIECE 16

/* The bytes that a cache takes for simulations: of each state some, and more for each group. A state takes at least
   STATE_SIZE bytes of the tables. */
#define STATE_SIZE 16
#define HELD_STEP 52
#define HELD_SLOTS 32

/* A simulation by one call takes at most some 2 us for each byte and kB of the tables. So with tables of this size as
   many bytes may be simulated at once as a piece has; there may be more if the tables are smaller. */
#define SIMULATED_TABLES 10240
#define SIMULATED_BESIDE 256

/* Returns the SQLSTATE of a status. */
static int sqlstate_of(uint32_t code) {
    switch (code) {
    case LAZYDFA_MEMORY: return ERRCODE_OUT_OF_MEMORY;
    case LAZYDFA_SYNTAX:
    case LAZYDFA_NOT_TEXT:
    case LAZYDFA_NOT_COMPILED:
    case LAZYDFA_UNSUPPORTED: return ERRCODE_INVALID_REGULAR_EXPRESSION;
    default: return ERRCODE_INTERNAL_ERROR;
    }
}

void fail(lazydfa_status status) {
    if (status.code == LAZYDFA_QUIT)
        ereport(ERROR, errcode(ERRCODE_FEATURE_NOT_SUPPORTED),
                errmsg("a Unicode word boundary cannot be searched for in text that is not ASCII"),
                errdetail("At offset %zu of the text is the byte 0x%02x.", status.offset, status.byte),
                errhint("Write (?-u:\\b) for a word boundary of ASCII. Others are found only in text that is searched at "
                        "once, up to lazydfa.piece_size."));
    if (status.code == LAZYDFA_TOO_LARGE || status.code == LAZYDFA_STATE_IDS)
        ereport(ERROR, errcode(ERRCODE_PROGRAM_LIMIT_EXCEEDED), errmsg("regular expression is too large"),
                errdetail("Its tables need more than %d kB.", setting_pattern_size),
                errhint("The superuser can raise lazydfa.pattern_size."));
    ereport(ERROR, errcode(sqlstate_of(status.code)),
            errmsg("regular expression failed: %s", lazydfa_code_text(status.code)),
            status.code == LAZYDFA_NOT_TEXT
                ? errdetail("Byte %zu of the pattern is not part of a character in UTF-8.", status.offset + 1)
                : 0);
}

/* Returns the largest size of an array that the settings allow, in bytes: each pattern takes a length of four bytes,
   and up to three bytes of padding. */
static size_t longest_array(void) {
    return (size_t)setting_pattern_length * 9 + ARR_OVERHEAD_WITHNULLS(MAXDIM, 8);
}

/* Reports that patterns are too long. */
static bool too_long(uint32 flags) {
    if (kept_is_estimating) return false;
    ereport(ERROR, errcode(ERRCODE_PROGRAM_LIMIT_EXCEEDED), errmsg("regular expression is too long"),
            errdetail("lazydfa.pattern_length allows %d bytes%s.", setting_pattern_length,
                      flags & IS_LIST ? " and as many patterns" : ""),
            errhint("The superuser can raise lazydfa.pattern_length."));
}

bool limit_length(Datum patterns, uint32 flags) {
    size_t length = toast_raw_datum_size(patterns);
    if (length <= (flags & IS_LIST ? longest_array() : (size_t)setting_pattern_length + VARHDRSZ)) return true;
    return too_long(flags);
}

/* Patterns, how they are compiled, and their error. */
typedef struct {
    lazydfa_text *texts;
    size_t count;
    lazydfa_options options;
    lazydfa_error error;
} Source;

/* Returns the elements of an array, or NULL if it is not valid, while the planner estimates. */
static lazydfa_text *elements_of(const ArrayType *array, uint32 flags, size_t *count) {
    size_t length = 0;
    lazydfa_text *texts;
    Datum *items;
    bool *nulls;
    int many = ArrayGetNItems(ARR_NDIM(array), ARR_DIMS(array));
    if (many > setting_pattern_length && !too_long(flags)) return NULL;
    deconstruct_array((ArrayType *)array, TEXTOID, -1, false, TYPALIGN_INT, &items, &nulls, &many);
    texts = palloc(Max(many, 1) * sizeof *texts);
    for (int i = 0; i < many; i++) {
        if (nulls[i] && kept_is_estimating) return NULL;
        if (nulls[i])
            ereport(ERROR, errcode(ERRCODE_NULL_VALUE_NOT_ALLOWED), errmsg("pattern %d of the array is null", i + 1));
        texts[i].text = VARDATA_ANY(DatumGetPointer(items[i]));
        texts[i].length = VARSIZE_ANY_EXHDR(DatumGetPointer(items[i]));
        length += texts[i].length;
    }
    if (length > (size_t)setting_pattern_length && !too_long(flags)) return NULL;
    *count = many;
    return texts;
}

/* Returns the patterns of a key, or NULL if they are not valid, while the planner estimates. */
static lazydfa_text *texts_of(const Key *key, size_t *count) {
    lazydfa_text *text;
    if (key->flags & IS_LIST) return elements_of((const ArrayType *)key->bytes, key->flags, count);
    text = palloc(sizeof *text);
    text->text = key->bytes;
    text->length = key->length;
    *count = 1;
    return text;
}

lazydfa_options text_options(uint32 flags) {
    lazydfa_options options = LAZYDFA_OPTIONS_INIT;
    options.case_insensitive = (flags & FOLDS_CASE) != 0;
    options.bytes = (flags & READS_BYTES) || GetDatabaseEncoding() != PG_UTF8;
    options.nest_limit = NEST_LIMIT;
    options.forward_only = (flags & ENDS_ONLY) != 0;
    options.groups = (flags & HAS_GROUPS) != 0;
    options.text_limit = setting_pattern_length;
    options.class_limit = setting_pattern_classes;
    options.zeros = LAZYDFA_ZERO_CLASS_LIMIT;
    options.size_limit = (size_t)setting_pattern_size * 1024;
    return options;
}

/* Reads the patterns of a key. Returns false if they are not valid, while the planner estimates. */
static bool read_source(Source *source, const Key *key) {
    lazydfa_options *options = &source->options;
    memset(source, 0, sizeof *source);
    source->texts = texts_of(key, &source->count);
    source->error.struct_size = sizeof source->error;
    *options = text_options(key->flags);
    options->cache_capacity = (size_t)Min(setting_pattern_cache_size, setting_cache_size) * 1024;
    options->cache_limit = Min(4 * options->cache_capacity, (size_t)setting_cache_size * 1024 / 2);
    if (!(key->flags & ENDS_ONLY)) options->cache_capacity /= 2, options->cache_limit /= 2; /* for each direction */
    options->skip_cache_capacity_check = 1;
    options->match_kind = key->flags & FINDS_ALL ? LAZYDFA_ALL : LAZYDFA_LEFTMOST_FIRST;
    return source->texts != NULL;
}

/* Returns the memory that a cache takes for simulations, which find groups and Unicode word boundaries, in bytes. */
static double simulated_memory(const Kept *kept) {
    return (double)kept->size / STATE_SIZE * (HELD_STEP + HELD_SLOTS * (double)kept->groups);
}

/* Returns how much it may be: as much as the states of the cache. */
static size_t simulated_limit(const Source *source) {
    return source->options.cache_limit * 2; /* it is that of one direction */
}

/* Reports an error if a cache would take too much memory for the groups of its pattern. */
static void limit_groups(const Kept *kept, const Source *source) {
    size_t limit = simulated_limit(source);
    double needed = simulated_memory(kept);
    if (needed <= limit) return;
    ereport(ERROR, errcode(ERRCODE_PROGRAM_LIMIT_EXCEEDED),
            errmsg("regular expression is too large for its groups to be reported"),
            errdetail("The memory for its %zu groups is %.0f kB, and %zu kB are allowed.", kept->groups - 1,
                      needed / 1024, limit / 1024),
            errhint("Write (?:..) for groups that are not reported, or raise lazydfa.pattern_cache_size and "
                    "lazydfa.cache_size."));
}

/* Opens a regex, and returns its size. */
static lazydfa_status build(Kept *kept, Source *source) {
    lazydfa_status status;
    CHECK_FOR_INTERRUPTS();
    status = lazydfa_regex_any_of(&kept->regex, source->texts, source->count, &source->options, &source->error);
    CHECK_FOR_INTERRUPTS();
    return status.code == LAZYDFA_OK ? lazydfa_regex_size(&kept->regex, &kept->size) : status;
}

/* Finds out whether searches are simulated where DFAs cannot decide, and how many groups a pattern has at most. */
static void count_groups(Kept *kept, size_t patterns) {
    size_t groups = 0;
    kept->groups = 0;
    for (size_t i = 0; i < patterns; i++) {
        if (lazydfa_group_count(&kept->regex, i, &groups).code != LAZYDFA_OK) break;
        kept->groups = Max(kept->groups, groups);
    }
    kept->simulates = kept->groups > 0;
}

/* Opens a regex and its cache. If simulations would take too much memory, a Unicode word boundary is searched for in
   ASCII text alone. */
static lazydfa_status open_regex(Kept *kept, Source *source) {
    lazydfa_status status = build(kept, source);
    if (status.code != LAZYDFA_OK) return status;
    count_groups(kept, source->count);
    if (source->options.groups) {
        limit_groups(kept, source);
    } else if (kept->simulates && simulated_memory(kept) > simulated_limit(source)) {
        lazydfa_regex_close(&kept->regex);
        source->options.unicode_word_boundary = 1;
        status = build(kept, source);
        kept->simulates = false;
    }
    return status.code == LAZYDFA_OK ? lazydfa_cache_new(&kept->cache, &kept->regex) : status;
}

/* Opens a regex and its cache. Patterns that match the empty string, but not inside a character, are compiled so that
   they match it there too, and searches skip these matches: so such patterns can be searched for in pieces. */
static lazydfa_status open_patterns(Kept *kept, Source *source) {
    lazydfa_status status = open_regex(kept, source);
    if (status.code == LAZYDFA_OK) status = lazydfa_pieces_begin(&kept->cache, LAZYDFA_UNANCHORED, 0, -1, 0);
    kept->skips = status.code == LAZYDFA_SKIPS;
    if (!kept->skips) return status;
    lazydfa_cache_close(&kept->cache);
    lazydfa_regex_close(&kept->regex);
    source->options.bytes = 1;
    return open_regex(kept, source);
}

/* Counts the class escapes of a text, as the library does. */
static size_t class_escapes(const char *text, size_t length) {
    size_t count = 0;
    for (size_t i = 1; i < length; i++) count += text[i - 1] == '\\' && text[i] && strchr("dDpPsSwW", text[i]);
    return count;
}

/* Reports an error if patterns have too many classes. */
static void limit_classes(const Source *source) {
    size_t count = 0;
    for (size_t i = 0; i < source->count; i++)
        count += class_escapes(source->texts[i].text, source->texts[i].length);
    if (count > source->options.class_limit)
        ereport(ERROR, errcode(ERRCODE_PROGRAM_LIMIT_EXCEEDED), errmsg("regular expression has too many classes"),
                errdetail("It has %zu escapes \\d, \\p, \\s or \\w, and lazydfa.pattern_classes allows %d.", count,
                          setting_pattern_classes),
                errhint("The superuser can raise lazydfa.pattern_classes."));
}

/* Reports the error of a pattern. The first line of the library's message says what is wrong; then come the pattern and
   carets. */
static NEVER_RETURNS(void refuse(lazydfa_status status, const Source *source));

static void refuse(lazydfa_status status, const Source *source) {
    const lazydfa_error *error = &source->error;
    const lazydfa_text *refused = &source->texts[error->pattern];
    const char *message = error->message, *end = strchr(message, '\n');
    StringInfoData where;
    if (status.code == LAZYDFA_TOO_LARGE) limit_classes(source);
    if (!end || status.code == LAZYDFA_MEMORY || status.code == LAZYDFA_TOO_LARGE) fail(status);
    initStringInfo(&where);
    if (source->count > 1) appendStringInfo(&where, "Pattern %zu of the array", error->pattern + 1);
    else appendStringInfoString(&where, "The pattern");
    /* The carets line up if the pattern has one line, and if there was room for all of it. */
    if (error->length < sizeof error->message && !memchr(refused->text, '\n', refused->length))
        appendStringInfo(&where, ":\n%s", end + 1);
    else
        appendStringInfo(&where, ", at its bytes %zu to %zu.", error->start + 1, error->end);
    ereport(ERROR, errcode(ERRCODE_INVALID_REGULAR_EXPRESSION),
            errmsg("invalid regular expression: %.*s", (int)(end - message), message),
            errdetail_internal("%s", where.data));
}

/* Closes what is open after an error. */
static void close_all(Kept *kept) {
    lazydfa_cache_close(&kept->cache);
    lazydfa_regex_close(&kept->regex);
}

bool compile(Kept *kept, const Key *key) {
    lazydfa_status status;
    Source source;
    check_stack_depth();
    if (!read_source(&source, key)) return false;
    PG_TRY();
    {
        status = open_patterns(kept, &source);
        if (status.code != LAZYDFA_OK && !kept_is_estimating) refuse(status, &source);
    }
    PG_CATCH();
    {
        close_all(kept);
        PG_RE_THROW();
    }
    PG_END_TRY();
    pfree(source.texts);
    if (status.code != LAZYDFA_OK) {
        close_all(kept);
        return false;
    }
    kept->count = source.count;
    kept->piece = piece_of(kept, setting_piece_size);
    return true;
}

size_t longest_simulated(const Kept *kept, int piece_size) {
    return (size_t)((double)piece_size * SIMULATED_TABLES / (kept->size + SIMULATED_BESIDE));
}

size_t piece_of(const Kept *kept, int piece_size) {
    size_t piece = piece_size, shortest = Min(piece, SHORTEST_PIECE);
    if (kept->size > SMALL_TABLES) piece = (size_t)((double)piece * SMALL_TABLES / kept->size);
    if (kept->simulates) piece = Min(piece, longest_simulated(kept, piece_size));
    return Max(piece, shortest);
}
