/* The functions that report groups, replace matches, and split at them. */
#include "search.h"

#include "catalog/pg_type_d.h"
#include "lib/stringinfo.h"
#include "mb/pg_wchar.h"
#include "utils/array.h"
#include "utils/builtins.h"

/* The groups that a replacement can have: 0 is the whole match. */
#define REFERENCES 10

PG_FUNCTION_INFO_V1(lazydfa_pg_captures);

/* Returns the groups of the first match, from group 1 on; or the match, if the pattern has no groups. */
Datum lazydfa_pg_captures(PG_FUNCTION_ARGS) {
    Value value = value_of(fcinfo, HAS_GROUPS);
    size_t count = value.kept->groups, first = count > 1;
    lazydfa_match match;
    lazydfa_span *groups;
    Datum *texts;
    bool *nulls;
    int bound = 1, length = (int)(count - first);
    if (!find_next(&value, &match)) PG_RETURN_NULL();
    groups = palloc(count * sizeof *groups);
    texts = palloc0(count * sizeof *texts);
    nulls = palloc0(count * sizeof *nulls);
    find_groups(&value, &match, groups, count);
    for (size_t i = first; i < count; i++) {
        nulls[i - first] = groups[i].start == LAZYDFA_NO_OFFSET;
        if (!nulls[i - first]) texts[i - first] = text_between(&value, groups[i].start, groups[i].end);
    }
    PG_RETURN_ARRAYTYPE_P(construct_md_array(texts, nulls, 1, &length, &bound, TEXTOID, -1, false, TYPALIGN_INT));
}

/* What matches are replaced by. */
typedef struct {
    const char *bytes;
    size_t length;
    size_t references; /* the greatest number of a group in it, plus one; 0 if there is none */
} Replacement;

/* Whether a backslash begins a reference to the match, \&, or to a group, \1 to \9. Writes its number. */
static bool reads_reference(const Replacement *by, size_t at, size_t *group) {
    char next = at + 1 < by->length ? by->bytes[at + 1] : 0;
    if (next != '&' && (next < '1' || next > '9')) return false;
    *group = next == '&' ? 0 : next - '0';
    return true;
}

static Replacement replacement_of(const text *by) {
    Replacement it = {VARDATA_ANY(by), VARSIZE_ANY_EXHDR(by), 0};
    size_t group;
    for (size_t at = 0; at < it.length; at++) {
        if (it.bytes[at] != '\\') continue;
        if (reads_reference(&it, at, &group)) it.references = Max(it.references, group + 1);
        at++; /* after a backslash another one is plain */
    }
    return it;
}

/* Appends a replacement, with the groups of a match in place of references. A group that took no part in the match, or
   that there is not, is empty. A backslash before any other character is plain text. */
static void append_replacement(StringInfo out, const Value *value, const Replacement *by, const lazydfa_span *groups) {
    size_t copied = 0, group;
    for (size_t at = 0; at < by->length; at++) {
        if (by->bytes[at] != '\\') continue;
        if (reads_reference(by, at, &group)) {
            lazydfa_span span = groups[group];
            appendBinaryStringInfo(out, by->bytes + copied, at - copied);
            if (span.start != LAZYDFA_NO_OFFSET)
                appendBinaryStringInfo(out, (const char *)value->bytes + span.start, span.end - span.start);
            at++;
            copied = at + 1;
        } else if (at + 1 < by->length && by->bytes[at + 1] == '\\') {
            appendBinaryStringInfo(out, by->bytes + copied, at - copied);
            at++;
            copied = at;
        }
    }
    appendBinaryStringInfo(out, by->bytes + copied, by->length - copied);
}

/* Reads the flags of a call: g replaces all matches, i ignores case. */
static uint32 read_flags(const text *flags, bool *all) {
    const char *at = VARDATA_ANY(flags), *end = at + VARSIZE_ANY_EXHDR(flags);
    uint32 read = 0;
    for (; at < end; at++) {
        if (*at == 'g') *all = true;
        else if (*at == 'i') read |= FOLDS_CASE;
        else
            ereport(ERROR, errcode(ERRCODE_INVALID_PARAMETER_VALUE),
                    errmsg("invalid regular expression option: \"%.*s\"", pg_mblen(at), at),
                    errhint("The options are g, for all matches, and i, to ignore case."));
    }
    return read;
}

PG_FUNCTION_INFO_V1(lazydfa_pg_replace);

Datum lazydfa_pg_replace(PG_FUNCTION_ARGS) {
    Replacement by = replacement_of(PG_GETARG_TEXT_PP(2));
    bool all = false;
    uint32 flags = PG_NARGS() > 3 ? read_flags(PG_GETARG_TEXT_PP(3), &all) : 0;
    Value value = value_of(fcinfo, flags | (by.references > 1 ? HAS_GROUPS : 0));
    const char *bytes = (const char *)value.bytes;
    lazydfa_span groups[REFERENCES];
    size_t copied = 0;
    StringInfoData out;
    lazydfa_match match;
    memset(groups, 0xff, sizeof groups); /* the spans of groups that there are not */
    initStringInfo(&out);
    while (find_next(&value, &match)) {
        groups[0].start = match.start;
        groups[0].end = match.end;
        if (by.references > 1) find_groups(&value, &match, groups, by.references);
        appendBinaryStringInfo(&out, bytes + copied, match.start - copied);
        append_replacement(&out, &value, &by, groups);
        copied = match.end;
        if (!all) break;
    }
    appendBinaryStringInfo(&out, bytes + copied, value.length - copied);
    PG_RETURN_TEXT_P(cstring_to_text_with_len(out.data, out.len));
}

PG_FUNCTION_INFO_V1(lazydfa_pg_split);

/* Returns the parts of a text between matches. As in regexp_split_to_array, an empty match does not count at the start,
   at the end, or where the previous match ends. */
Datum lazydfa_pg_split(PG_FUNCTION_ARGS) {
    Value value = value_of(fcinfo, 0);
    ArrayBuildState *parts = NULL;
    size_t start = 0;
    lazydfa_match match;
    while (find_next(&value, &match)) {
        if (match.start == value.length || match.end <= start) continue;
        parts = accumArrayResult(parts, text_between(&value, start, match.start), false, TEXTOID, CurrentMemoryContext);
        start = match.end;
    }
    parts = accumArrayResult(parts, text_between(&value, start, value.length), false, TEXTOID, CurrentMemoryContext);
    PG_RETURN_DATUM(makeArrayResult(parts, CurrentMemoryContext));
}
