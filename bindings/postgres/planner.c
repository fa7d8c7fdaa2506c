/* Derives index conditions for the operators, for the planner, from what the library reports that all matches of a
   pattern have in common. Each row that an index returns is searched again. */
#include "compile.h"

#include <ctype.h>

#include "access/htup.h"
#include "access/stratnum.h"
#include "catalog/pg_collation_d.h"
#include "catalog/pg_operator_d.h"
#include "catalog/pg_opfamily_d.h"
#include "catalog/pg_type_d.h"
#include "lib/stringinfo.h"
#include "mb/pg_wchar.h"
#include "miscadmin.h"
#include "nodes/makefuncs.h"
#include "nodes/nodeFuncs.h"
#include "nodes/supportnodes.h"
#include "utils/builtins.h"
#include "utils/lsyscache.h"
#include "utils/memutils.h"
#include "utils/pg_locale.h"

/* Patterns that are longer, or have more class escapes, are not parsed for a plan: that would take longer than it
   saves. */
#define LONGEST 8192
#define MOST_CLASSES 200

/* The strategy of LIKE in the operator families of pg_trgm. */
#define LIKE_STRATEGY 3
#define MOST_LITERALS 16
#define MOST_BYTES 2048

/* What all matches have in common: whether they begin and end where the text does, their prefix, and strings that they
   contain. What there is no room for is left out. */
typedef struct {
    lazydfa_facts facts;
    const char *prefix;
    size_t prefix_length; /* in whole characters */
    bool is_exact;        /* a text that has a match equals its prefix */
    uint8_t bytes[MOST_BYTES];
    size_t lengths[MOST_LITERALS];
} Known;

/* Returns how many of these bytes form whole characters at their start. */
static size_t whole_characters(const char *bytes, size_t length) {
    size_t at = 0;
    while (at < length && bytes[at]) {
        size_t size = pg_utf_mblen((const unsigned char *)bytes + at);
        if (size > length - at || !pg_utf8_islegal((const unsigned char *)bytes + at, (int)size)) break;
        at += size;
    }
    return at;
}

/* Derives what a pattern's matches have in common. Returns false if the pattern is not valid, or is not parsed. */
static bool read_facts(Known *known, const Key *key) {
    lazydfa_options options = text_options(key->flags);
    lazydfa_facts *facts = &known->facts;
    lazydfa_status status;
    options.class_limit = Min(options.class_limit, MOST_CLASSES);
    status = lazydfa_text_facts(key->bytes, key->length, &options, facts, known->bytes, MOST_BYTES, known->lengths,
                                MOST_LITERALS);
    if (status.code != LAZYDFA_OK) return false;
    known->prefix = (const char *)known->bytes;
    known->prefix_length = whole_characters(known->prefix, Min(facts->prefix, MOST_BYTES));
    known->is_exact =
        facts->anchored_start && facts->anchored_end && facts->exact && known->prefix_length == facts->prefix;
    return true;
}

/* Returns what a pattern's matches have in common, or NULL if that is not known. The planner asks for each index of a
   table, so the last answer is cached. */
static const Known *know(const text *pattern, uint32 flags) {
    static Key last = {NULL, 0, 0};
    static Known known;
    static bool is_known;
    Key key = {VARDATA_ANY(pattern), VARSIZE_ANY_EXHDR(pattern), flags};
    if (key.length > LONGEST) return NULL;
    if (!last.bytes || key.length != last.length || flags != last.flags || memcmp(key.bytes, last.bytes, key.length)) {
        char *copy = MemoryContextAlloc(TopMemoryContext, Max(key.length, 1));
        memcpy(copy, key.bytes, key.length);
        if (last.bytes) pfree((char *)last.bytes);
        last = (Key){copy, key.length, flags};
        is_known = read_facts(&known, &last);
        /* A pattern with an error may be valid another time: the memory or the settings may have changed. */
        if (!is_known) last.flags = ~0u;
    }
    return is_known ? &known : NULL;
}

/* Returns a comparison of the index's column with a text, by an operator of the index. */
static Expr *compare(const SupportRequestIndexCondition *request, Node *column, int strategy, const char *bytes,
                     size_t length) {
    Oid operator = get_opfamily_member(request->opfamily, TEXTOID, TEXTOID, strategy);
    Datum bound;
    Const *constant;
    if (!OidIsValid(operator)) return NULL;
    bound = PointerGetDatum(cstring_to_text_with_len(bytes, (int)length));
    constant = makeConst(TEXTOID, -1, DEFAULT_COLLATION_OID, -1, bound, false, false);
    return make_opclause(operator, BOOLOID, false, (Expr *)column, (Expr *)constant, InvalidOid,
                         request->indexcollation);
}

/* Adds a condition to a list, if there is one. */
static List *with(List *conditions, Expr *condition) { return condition ? lappend(conditions, condition) : conditions; }

/* Returns a copy of a text that is above all texts with a prefix, in byte order, and writes its length, which is 0 if
   there is no such text. Texts without the prefix may be below it too. */
static char *above(const char *prefix, size_t *length) {
    char *bound = pnstrdup(prefix, *length);
    while (*length > 0 && (unsigned char)bound[*length - 1] >= 0x7f) --*length;
    if (*length > 0) bound[*length - 1]++;
    return bound;
}

/* Whether the index orders its texts by their bytes. */
static bool is_by_bytes(const SupportRequestIndexCondition *request) {
    if (request->opfamily == TEXT_PATTERN_BTREE_FAM_OID) return true;
    return request->opfamily == TEXT_BTREE_FAM_OID && COLLATES_BY_BYTES(request->indexcollation);
}

/* Whether equal texts of the index have equal bytes, and the index orders them. */
static bool is_ordered(const SupportRequestIndexCondition *request) {
    if (request->opfamily == TEXT_PATTERN_BTREE_FAM_OID) return true;
    return request->opfamily == TEXT_BTREE_FAM_OID && get_collation_isdeterministic(request->indexcollation);
}

/* Returns the conditions on an ordered index for rows that can match: they begin with the prefix, or are equal to
   it. */
static List *range_of(const SupportRequestIndexCondition *request, Node *column, const Known *known) {
    size_t length = known->prefix_length;
    List *conditions = NIL;
    char *bound;
    if (known->is_exact && is_ordered(request))
        return with(NIL, compare(request, column, BTEqualStrategyNumber, known->prefix, length));
    if (!known->facts.anchored_start || length == 0 || !is_by_bytes(request)) return NIL;
    conditions = with(NIL, compare(request, column, BTGreaterEqualStrategyNumber, known->prefix, length));
    bound = above(known->prefix, &length);
    if (length > 0) conditions = with(conditions, compare(request, column, BTLessStrategyNumber, bound, length));
    return conditions;
}

/* Whether the index stores trigrams of its texts, by pg_trgm: whether its operator family has LIKE as this strategy. */
static bool is_by_trigrams(const SupportRequestIndexCondition *request) {
    return get_opfamily_member(request->opfamily, TEXTOID, TEXTOID, LIKE_STRATEGY) == OID_TEXT_LIKE_OP;
}

/* Whether a text has three letters or digits in a row, as a trigram has. A character that is not ASCII counts as a
   letter. */
static bool has_trigram(const char *bytes, size_t length) {
    int row = 0;
    for (size_t at = 0; at < length && row < 3; at += pg_utf_mblen((const unsigned char *)bytes + at)) {
        unsigned char byte = bytes[at];
        row = byte >= 0x80 || isalnum(byte) ? row + 1 : 0;
    }
    return row == 3;
}

/* Returns a condition that the column is LIKE a text, with these strings around it. */
static Expr *like(const SupportRequestIndexCondition *request, Node *column, const char *before, const char *bytes,
                  size_t length, const char *after) {
    StringInfoData pattern;
    initStringInfo(&pattern);
    appendStringInfoString(&pattern, before);
    for (size_t i = 0; i < length; i++) {
        if (strchr("%_\\", bytes[i])) appendStringInfoChar(&pattern, '\\');
        appendStringInfoChar(&pattern, bytes[i]);
    }
    appendStringInfoString(&pattern, after);
    return compare(request, column, LIKE_STRATEGY, pattern.data, pattern.len);
}

/* Returns the conditions on an index of trigrams for rows that can match: they contain all strings that every match
   contains. A string that the prefix contains gets no condition of its own. */
static List *likes_of(const SupportRequestIndexCondition *request, Node *column, const Known *known) {
    const char *literal = known->prefix + known->facts.prefix, *end = (const char *)known->bytes + MOST_BYTES;
    bool has_prefix = has_trigram(known->prefix, known->prefix_length);
    List *conditions = NIL;
    if (!get_collation_isdeterministic(request->indexcollation)) return NIL;
    if (has_prefix)
        conditions = with(NIL, like(request, column, known->facts.anchored_start ? "" : "%", known->prefix,
                                    known->prefix_length, known->is_exact ? "" : "%"));
    for (size_t i = 0; i < Min(known->facts.count, MOST_LITERALS) && literal < end; i++) {
        size_t length = known->lengths[i];
        if (length > (size_t)(end - literal)) break;
        if (whole_characters(literal, length) == length && has_trigram(literal, length) &&
            !(has_prefix && memmem(known->prefix, known->prefix_length, literal, length)))
            conditions = with(conditions, like(request, column, "%", literal, length, "%"));
        literal += length;
    }
    return conditions;
}

/* Returns conditions on an index's column that all rows that can match satisfy. */
static List *conditions_of(SupportRequestIndexCondition *request, uint32 flags) {
    List *args = is_opclause(request->node)     ? ((OpExpr *)request->node)->args
                 : is_funcclause(request->node) ? ((FuncExpr *)request->node)->args
                                                : NIL;
    const Known *known;
    const Const *pattern;
    if (list_length(args) != 2 || request->indexarg != 0 || !IsA(lsecond(args), Const)) return NIL;
    pattern = lsecond(args);
    if (pattern->constisnull || pattern->consttype != TEXTOID || exprType(linitial(args)) != TEXTOID) return NIL;
    if (GetDatabaseEncoding() != PG_UTF8 || !(is_ordered(request) || is_by_trigrams(request))) return NIL;
    CHECK_FOR_INTERRUPTS();
    known = know(DatumGetTextPP(pattern->constvalue), flags);
    if (!known) return NIL;
    if (is_by_trigrams(request)) return likes_of(request, linitial(args), known);
    return range_of(request, linitial(args), known);
}

/* Answers a support request of the planner for a function. */
static Datum offer(FunctionCallInfo fcinfo, uint32 flags) {
    Node *request = (Node *)PG_GETARG_POINTER(0);
    List *conditions = NIL;
    if (IsA(request, SupportRequestIndexCondition))
        conditions = conditions_of((SupportRequestIndexCondition *)request, flags);
    PG_RETURN_POINTER(conditions);
}

PG_FUNCTION_INFO_V1(lazydfa_pg_support);

Datum lazydfa_pg_support(PG_FUNCTION_ARGS) { return offer(fcinfo, 0); }

PG_FUNCTION_INFO_V1(lazydfa_pg_isupport);

Datum lazydfa_pg_isupport(PG_FUNCTION_ARGS) { return offer(fcinfo, FOLDS_CASE); }
