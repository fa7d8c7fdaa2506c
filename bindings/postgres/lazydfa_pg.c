/* The functions of the extension. Each compiles the patterns of its argument 1, unless they are compiled already, and
   searches the value of its argument 0. */
#include "search.h"

#include "catalog/pg_type_d.h"
#include "funcapi.h"
#include "mb/pg_wchar.h"
#include "utils/array.h"
#include "utils/builtins.h"

#include "compile.h"
#include "settings.h"

PG_MODULE_MAGIC;

void _PG_init(void);

void _PG_init(void) {
    if (!lazydfa_is_supported())
        ereport(ERROR, (errcode(ERRCODE_FEATURE_NOT_SUPPORTED),
                        errmsg("the processor lacks instructions that lazydfa uses: SSSE3 and SSE4.1")));
    define_settings();
}

static bool is_match(FunctionCallInfo fcinfo, uint32 flags) {
    Value value = value_of(fcinfo, flags | ENDS_ONLY);
    return has_match(&value);
}

/* Returns the bytes of a match as a text. */
static Datum text_of(const Value *value, lazydfa_match match) { return text_between(value, match.start, match.end); }

/* Returns the type of the rows that a function returns, which its call site remembers as long as this context lasts. */
static TupleDesc row_of(FunctionCallInfo fcinfo, Site *site, MemoryContext context) {
    MemoryContext before;
    TupleDesc row;
    if (site->row) return site->row;
    before = MemoryContextSwitchTo(context);
    if (get_call_result_type(fcinfo, NULL, &row) != TYPEFUNC_COMPOSITE) elog(ERROR, "return type must be a row type");
    site->row = BlessTupleDesc(row);
    MemoryContextSwitchTo(before);
    return site->row;
}

/* Returns a row with these columns. */
static Datum row_with(TupleDesc row, Datum *columns) {
    bool nulls[8] = {false};
    return HeapTupleGetDatum(heap_form_tuple(row, columns, nulls));
}

/* Defines a function that returns whether there is a match, and one that returns whether there is no match. */
#define MATCH(name, flags)                                                     \
    PG_FUNCTION_INFO_V1(name);                                                 \
    Datum name(PG_FUNCTION_ARGS) { PG_RETURN_BOOL(is_match(fcinfo, flags)); } \
    PG_FUNCTION_INFO_V1(name##_not);                                           \
    Datum name##_not(PG_FUNCTION_ARGS) { PG_RETURN_BOOL(!is_match(fcinfo, flags)); }

MATCH(lazydfa_pg_match, 0)
MATCH(lazydfa_pg_imatch, FOLDS_CASE)
MATCH(lazydfa_pg_match_any, IS_LIST | FINDS_ALL)
MATCH(lazydfa_pg_match_bytes, READS_BYTES)
MATCH(lazydfa_pg_imatch_bytes, FOLDS_CASE | READS_BYTES)
MATCH(lazydfa_pg_match_any_bytes, IS_LIST | FINDS_ALL | READS_BYTES)

bool tells_match(PGFunction function) {
    static const PGFunction own[] = {
        lazydfa_pg_match,           lazydfa_pg_match_not,           lazydfa_pg_imatch,
        lazydfa_pg_imatch_not,      lazydfa_pg_match_any,           lazydfa_pg_match_any_not,
        lazydfa_pg_match_bytes,     lazydfa_pg_match_bytes_not,     lazydfa_pg_imatch_bytes,
        lazydfa_pg_imatch_bytes_not, lazydfa_pg_match_any_bytes,    lazydfa_pg_match_any_bytes_not,
    };
    for (size_t i = 0; i < lengthof(own); i++)
        if (function == own[i]) return true;
    return false;
}

PG_FUNCTION_INFO_V1(lazydfa_pg_find);

/* Returns where the first match begins and ends, in characters. */
Datum lazydfa_pg_find(PG_FUNCTION_ARGS) {
    Value value = value_of(fcinfo, 0);
    const char *bytes = (const char *)value.bytes;
    lazydfa_match match;
    Datum places[2];
    int before;
    if (!find_next(&value, &match)) PG_RETURN_NULL();
    before = pg_mbstrlen_with_len(bytes, match.start);
    places[0] = Int32GetDatum(before + 1);
    places[1] = Int32GetDatum(before + 1 + pg_mbstrlen_with_len(bytes + match.start, match.end - match.start));
    PG_RETURN_DATUM(row_with(row_of(fcinfo, fcinfo->flinfo->fn_extra, fcinfo->flinfo->fn_mcxt), places));
}

PG_FUNCTION_INFO_V1(lazydfa_pg_substr);

Datum lazydfa_pg_substr(PG_FUNCTION_ARGS) {
    Value value = value_of(fcinfo, 0);
    lazydfa_match match;
    if (!find_next(&value, &match)) PG_RETURN_NULL();
    PG_RETURN_DATUM(text_of(&value, match));
}

PG_FUNCTION_INFO_V1(lazydfa_pg_count);

Datum lazydfa_pg_count(PG_FUNCTION_ARGS) {
    Value value = value_of(fcinfo, 0);
    lazydfa_match match;
    int64 count = 0;
    while (find_next(&value, &match)) count++;
    PG_RETURN_INT64(count);
}

/* What a set-returning function keeps from call to call. */
typedef struct {
    Value value;
    Site site;
} Walk;

/* Returns a copy of the patterns in argument 1. */
static Key copy_of_patterns(FunctionCallInfo fcinfo, uint32 flags) {
    Key key = {NULL, 0, flags};
    limit_length(PG_GETARG_DATUM(1), flags);
    if (flags & IS_LIST) {
        ArrayType *array = PG_GETARG_ARRAYTYPE_P_COPY(1);
        key.bytes = (const char *)array;
        key.length = VARSIZE(array);
    } else {
        text *pattern = PG_GETARG_TEXT_P_COPY(1);
        key.bytes = VARDATA(pattern);
        key.length = VARSIZE(pattern) - VARHDRSZ;
    }
    return key;
}

/* Returns the walk of a function, which its first call begins over copies of the value and of the patterns. Between
   calls other patterns may be compiled, and these freed, so each call looks them up. */
static Walk *walk_of(FunctionCallInfo fcinfo, FuncCallContext *context, uint32 flags) {
    Walk *walk = context->user_fctx;
    if (!walk) {
        MemoryContext before = MemoryContextSwitchTo(context->multi_call_memory_ctx);
        context->user_fctx = walk = palloc0(sizeof *walk);
        begin_value(&walk->value, PG_GETARG_TEXT_P_COPY(0));
        walk->site.key = copy_of_patterns(fcinfo, flags);
        MemoryContextSwitchTo(before);
    }
    walk->value.kept = kept_of_call(fcinfo, &walk->site, flags);
    return walk;
}

PG_FUNCTION_INFO_V1(lazydfa_pg_matches);

Datum lazydfa_pg_matches(PG_FUNCTION_ARGS) {
    FuncCallContext *context;
    Walk *walk;
    lazydfa_match match;
    if (SRF_IS_FIRSTCALL()) SRF_FIRSTCALL_INIT();
    context = SRF_PERCALL_SETUP();
    walk = walk_of(fcinfo, context, 0);
    if (!find_next(&walk->value, &match)) SRF_RETURN_DONE(context);
    SRF_RETURN_NEXT(context, text_of(&walk->value, match));
}

PG_FUNCTION_INFO_V1(lazydfa_pg_tokens);

/* Returns the tokens of a text, one after another, each with the pattern that it matches. */
Datum lazydfa_pg_tokens(PG_FUNCTION_ARGS) {
    FuncCallContext *context;
    lazydfa_status status;
    Datum columns[2];
    lazydfa_match token;
    Walk *walk;
    if (SRF_IS_FIRSTCALL()) SRF_FIRSTCALL_INIT();
    context = SRF_PERCALL_SETUP();
    walk = walk_of(fcinfo, context, IS_LIST);
    status = find_token(&walk->value, &token);
    if (status.code == LAZYDFA_NONE) SRF_RETURN_DONE(context);
    if (status.code == LAZYDFA_NO_TOKEN)
        ereport(ERROR, errcode(ERRCODE_DATA_EXCEPTION),
                errmsg("no token begins at character %d of the text",
                       pg_mbstrlen_with_len((const char *)walk->value.bytes, status.offset) + 1));
    columns[0] = Int32GetDatum((int32)token.pattern + 1);
    columns[1] = text_of(&walk->value, token);
    SRF_RETURN_NEXT(context, row_with(row_of(fcinfo, &walk->site, context->multi_call_memory_ctx), columns));
}

PG_FUNCTION_INFO_V1(lazydfa_pg_which);

/* Returns the indices in the array, from 1, of the patterns that match. */
Datum lazydfa_pg_which(PG_FUNCTION_ARGS) {
    Value value = value_of(fcinfo, IS_LIST | FINDS_ALL | ENDS_ONLY);
    size_t room = Max(value.kept->count, 1), count;
    uint32_t *patterns = palloc(room * sizeof *patterns);
    Datum *places = palloc(room * sizeof *places);
    count = find_all(&value, patterns);
    for (size_t i = 0; i < count; i++) places[i] = Int32GetDatum((int32)patterns[i] + 1);
    PG_RETURN_ARRAYTYPE_P(construct_array(places, (int)count, INT4OID, sizeof(int32), true, TYPALIGN_INT));
}

PG_FUNCTION_INFO_V1(lazydfa_pg_stats);

Datum lazydfa_pg_stats(PG_FUNCTION_ARGS) {
    KeptStats stats = kept_stats();
    Site site = {0};
    Datum columns[7];
    columns[0] = Int64GetDatum(stats.patterns);
    columns[1] = Int64GetDatum(stats.memory);
    columns[2] = Int64GetDatum(stats.leaps);
    columns[3] = Int64GetDatum(stats.held);
    columns[4] = Int64GetDatum(stats.tables);
    columns[5] = Int64GetDatum(stats.clears);
    columns[6] = Int64GetDatum(stats.compiled);
    PG_RETURN_DATUM(row_with(row_of(fcinfo, &site, CurrentMemoryContext), columns));
}
