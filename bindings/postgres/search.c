/* Searches values: a short value with one call of the library, and a value longer than Kept.piece in pieces, between
   which a query can be cancelled. Cancelling leaves a search in the cache, which the next search replaces. */
#include "search.h"

#include "miscadmin.h"
#include "utils/builtins.h"

#include "compile.h"
#include "settings.h"

static const lazydfa_status none = {LAZYDFA_NONE, 0, 0};

void begin_value(Value *value, struct varlena *it) {
    value->bytes = (const uint8_t *)VARDATA_ANY(it);
    value->length = VARSIZE_ANY_EXHDR(it);
    value->tokens = lazydfa_whole(value->length);
    value->matches = lazydfa_iterate(value->tokens);
}

Value value_of(FunctionCallInfo fcinfo, uint32 flags) {
    Value value;
    if (!fcinfo->flinfo->fn_extra)
        fcinfo->flinfo->fn_extra = MemoryContextAllocZero(fcinfo->flinfo->fn_mcxt, sizeof(Site));
    value.kept = kept_of_call(fcinfo, fcinfo->flinfo->fn_extra, flags);
    begin_value(&value, PG_GETARG_VARLENA_PP(0));
    return value;
}

Datum text_between(const Value *value, size_t start, size_t end) {
    return PointerGetDatum(cstring_to_text_with_len((const char *)value->bytes + start, end - start));
}

/* Whether the rest of the value from an offset on is searched in pieces. */
static bool is_long(const Value *value, size_t from) { return value->length - from > value->kept->piece; }

/* Returns the length of the next piece of a value. */
static size_t piece_at(const Value *value, size_t at) { return Min(value->kept->piece, value->length - at); }

/* Whether a match that ends here is skipped, since it is empty and inside a character. */
static bool is_skipped(const Value *value, size_t at) {
    return value->kept->skips && at < value->length && (value->bytes[at] & 0xC0) == 0x80;
}

/* Does what lazydfa_find_end does, in pieces. */
static lazydfa_status end_in_pieces(Value *value, const lazydfa_input *left, lazydfa_half *end) {
    lazydfa_cache *cache = &value->kept->cache;
    int32_t behind = left->start > 0 ? value->bytes[left->start - 1] : -1;
    lazydfa_status status = lazydfa_pieces_begin(cache, left->anchored, 0, behind, left->earliest);
    uint32_t done = 0;
    if (status.code == LAZYDFA_QUIT) status.offset = left->start - 1;
    if (status.code != LAZYDFA_OK) return status;
    for (size_t at = left->start; status.code == LAZYDFA_OK && !done && at < left->end; at += piece_at(value, at)) {
        CHECK_FOR_INTERRUPTS();
        status = lazydfa_pieces_read(cache, value->bytes + at, piece_at(value, at), &done);
    }
    if (status.code == LAZYDFA_OK) status = lazydfa_pieces_end(cache, -1, end);
    if (status.code == LAZYDFA_OK) end->offset += left->start;
    else status.offset += left->start;
    return status;
}

/* Searches for the end of the first match in the remaining input. After a match that is skipped, the input begins after
   it: no other match begins before it, and no match that begins inside the character is longer. */
static lazydfa_status find_end(Value *value, lazydfa_input *left, lazydfa_half *end) {
    while (left->start <= left->end) {
        lazydfa_status status;
        CHECK_FOR_INTERRUPTS();
        if (is_long(value, left->start)) status = end_in_pieces(value, left, end);
        else status = lazydfa_find_end(&value->kept->cache, value->bytes, value->length, left, end);
        if (status.code != LAZYDFA_OK || !is_skipped(value, end->offset)) return status;
        left->start = end->offset + 1;
    }
    return none;
}

/* Does what lazydfa_find_start does, in pieces, which are short at first, since a short match ends the search. */
static lazydfa_status start_in_pieces(Value *value, const lazydfa_input *left, lazydfa_half *start) {
    lazydfa_cache *cache = kept_backward(value->kept);
    int32_t behind = left->end < value->length ? value->bytes[left->end] : -1;
    int32_t ahead = left->start > 0 ? value->bytes[left->start - 1] : -1;
    lazydfa_status status = lazydfa_pieces_begin(cache, LAZYDFA_ANCHORED_YES, 0, behind, 0);
    uint8_t *piece;
    size_t length = 32;
    uint32_t done = 0;
    if (status.code == LAZYDFA_QUIT) status.offset = left->end;
    if (status.code != LAZYDFA_OK) return status;
    piece = palloc(Min(value->kept->piece, left->end - left->start));
    for (size_t at = left->end; status.code == LAZYDFA_OK && !done && at > left->start; at -= length) {
        CHECK_FOR_INTERRUPTS();
        length = Min(Min(2 * length, value->kept->piece), at - left->start);
        for (size_t i = 0; i < length; i++) piece[i] = value->bytes[at - 1 - i];
        status = lazydfa_pieces_read(cache, piece, length, &done);
    }
    pfree(piece);
    if (status.code == LAZYDFA_OK) status = lazydfa_pieces_end(cache, ahead, start);
    if (status.code == LAZYDFA_OK) start->offset = left->end - start->offset;
    else status.offset = left->end - 1 - status.offset; /* it counts backward from the byte before the end */
    return status;
}

/* Searches for the start of the longest match that ends where the remaining input ends. */
static lazydfa_status find_start(Value *value, const lazydfa_input *left, lazydfa_half *start) {
    if (left->end - left->start > value->kept->piece) return start_in_pieces(value, left, start);
    return lazydfa_find_start(&value->kept->cache, value->bytes, value->length, left, start);
}

/* Searches for the first match in the remaining input by single calls, of which each may be simulated. */
static lazydfa_status find_at_once(Value *value, lazydfa_input *left, lazydfa_match *match) {
    while (left->start <= left->end) {
        lazydfa_status status;
        CHECK_FOR_INTERRUPTS();
        status = lazydfa_find(&value->kept->cache, value->bytes, value->length, left, match);
        if (status.code != LAZYDFA_OK || !is_skipped(value, match->end)) return status;
        left->start = match->end + 1;
    }
    return none;
}

/* Searches for the end of the first match from an offset on, and then backward from there for its start. */
static lazydfa_status find_from(Value *value, size_t from, lazydfa_match *match) {
    lazydfa_input left = {from, value->length, LAZYDFA_UNANCHORED, 0, 0, 0};
    lazydfa_half end, start;
    lazydfa_status status;
    if (value->kept->simulates && !is_long(value, from)) return find_at_once(value, &left, match);
    status = find_end(value, &left, &end);
    if (status.code != LAZYDFA_OK) return status;
    match->start = match->end = end.offset;
    match->pattern = end.pattern;
    if (end.offset == left.start) return status; /* it is empty */
    left.end = end.offset;
    left.anchored = LAZYDFA_ANCHORED_YES;
    status = find_start(value, &left, &start);
    if (status.code == LAZYDFA_OK) match->start = start.offset;
    if (status.code == LAZYDFA_NONE) status.code = LAZYDFA_NOT_A_PAIR;
    return status;
}

/* Does what lazydfa_next does, where one call of it is not enough. */
static lazydfa_status next_by_parts(Value *value, lazydfa_match *match) {
    lazydfa_iteration *at = &value->matches;
    lazydfa_status status = at->ended ? none : find_from(value, at->left.start, match);
    if (status.code == LAZYDFA_OK && at->has_last && match->start == match->end && match->end == at->last)
        status = find_from(value, at->last + 1, match);
    if (status.code == LAZYDFA_OK) {
        at->has_last = 1;
        at->left.start = at->last = match->end;
    } else {
        at->ended = 1;
    }
    return status;
}

/* Does what lazydfa_token does, in pieces. */
static lazydfa_status token_in_pieces(Value *value, lazydfa_match *token) {
    lazydfa_input left = value->tokens;
    lazydfa_half end;
    lazydfa_status status;
    left.anchored = LAZYDFA_ANCHORED_YES;
    status = end_in_pieces(value, &left, &end);
    if (status.code == LAZYDFA_NONE || (status.code == LAZYDFA_OK && end.offset == left.start))
        status = (lazydfa_status){LAZYDFA_NO_TOKEN, 0, left.start};
    if (status.code != LAZYDFA_OK) return status;
    token->start = left.start;
    token->end = value->tokens.start = end.offset;
    token->pattern = end.pattern;
    return status;
}

/* Marks the patterns that match at a walk's position, and counts them, up to `most`. */
static lazydfa_status mark(Value *value, const lazydfa_stop *stop, size_t most, bool *found, size_t *count) {
    lazydfa_status status = {LAZYDFA_OK, 0, 0};
    if (stop->patterns > 0 && is_skipped(value, stop->offset)) return status;
    for (size_t i = 0; i < stop->patterns && *count < most; i++) {
        uint32_t pattern;
        status = lazydfa_walk_pattern(&value->kept->cache, i, &pattern);
        if (status.code != LAZYDFA_OK) return status;
        *count += !found[pattern];
        found[pattern] = true;
    }
    return status;
}

/* Walks over a value, and marks the first `most` patterns that match. */
static lazydfa_status walk_on(Value *value, size_t most, bool *found, size_t *count) {
    lazydfa_cache *cache = &value->kept->cache;
    lazydfa_stop stop;
    lazydfa_status status = lazydfa_walk_begin(cache, LAZYDFA_UNANCHORED, 0, -1);
    for (size_t at = 0; status.code == LAZYDFA_OK && *count < most && at < value->length; at += stop.read) {
        CHECK_FOR_INTERRUPTS();
        status = lazydfa_walk_read(cache, value->bytes + at, piece_at(value, at), &stop);
        if (status.code <= LAZYDFA_NONE) status = mark(value, &stop, most, found, count);
    }
    if (status.code != LAZYDFA_OK || *count == most) return status;
    status = lazydfa_walk_end(cache, -1, &stop);
    return status.code <= LAZYDFA_NONE ? mark(value, &stop, most, found, count) : status;
}

/* Does what lazydfa_which does, in pieces, for at most `most` patterns. */
static lazydfa_status which_in_pieces(Value *value, size_t most, uint32_t *patterns, size_t *count) {
    bool *found = palloc0(Max(value->kept->count, 1));
    lazydfa_status status;
    *count = 0;
    status = walk_on(value, most, found, count);
    for (size_t i = 0, listed = 0; listed < *count; i++)
        if (found[i]) patterns[listed++] = i;
    pfree(found);
    if (status.code == LAZYDFA_OK && *count == 0) return none;
    return status;
}

/* Begins a search, before which the query may be cancelled. */
static void begin_search(Value *value) {
    CHECK_FOR_INTERRUPTS();
    kept_begin(value->kept);
}

/* Ends a search that may have read `length` bytes: what it added to the cache is counted, and an error is reported,
   unless the planner estimates. A search reads beyond a match for one that is preferred to it. */
static void end_search(Value *value, size_t length, lazydfa_status status) {
    kept_count(value->kept, length);
    if (status.code == LAZYDFA_OK || status.code == LAZYDFA_NONE || status.code == LAZYDFA_NO_TOKEN) return;
    if (!kept_is_estimating) fail(status);
}

/* Whether a search of the rest of the value from an offset on takes more than one call of the library. */
static bool has_parts(const Value *value, size_t from) { return value->kept->skips || is_long(value, from); }

bool has_match(Value *value) {
    Kept *kept = value->kept;
    lazydfa_input whole = lazydfa_whole(value->length);
    lazydfa_status status;
    lazydfa_half end;
    uint32_t pattern;
    size_t count;
    if (!kept) return false;
    begin_search(value);
    whole.earliest = !kept->skips; /* a match that is skipped may end before one that is not skipped */
    if (!has_parts(value, 0)) status = lazydfa_is_match(&kept->cache, value->bytes, value->length, &whole);
    else if (kept->skips && kept->key.flags & FINDS_ALL) status = which_in_pieces(value, 1, &pattern, &count);
    else status = find_end(value, &whole, &end);
    end_search(value, value->length, status);
    return status.code == LAZYDFA_OK;
}

bool find_next(Value *value, lazydfa_match *match) {
    size_t from = value->matches.left.start;
    lazydfa_status status;
    begin_search(value);
    if (has_parts(value, from)) status = next_by_parts(value, match);
    else status = lazydfa_next(&value->kept->cache, value->bytes, value->length, &value->matches, match);
    end_search(value, value->length - from, status);
    return status.code == LAZYDFA_OK;
}

void find_groups(Value *value, const lazydfa_match *match, lazydfa_span *groups, size_t room) {
    size_t most = longest_simulated(value->kept, setting_piece_size), count;
    lazydfa_status status;
    if (match->end - match->start > most)
        ereport(ERROR, errcode(ERRCODE_PROGRAM_LIMIT_EXCEEDED),
                errmsg("a match is too long for its groups to be reported"),
                errdetail("It has %zu bytes, and lazydfa.piece_size allows %zu for this pattern.",
                          match->end - match->start, most),
                errhint("The superuser can raise lazydfa.piece_size."));
    begin_search(value);
    status = lazydfa_groups(&value->kept->cache, value->bytes, value->length, match, groups, room, &count);
    end_search(value, 0, status);
}

lazydfa_status find_token(Value *value, lazydfa_match *token) {
    size_t from = value->tokens.start;
    lazydfa_status status;
    begin_search(value);
    if (is_long(value, from)) status = token_in_pieces(value, token);
    else status = lazydfa_token(&value->kept->cache, value->bytes, value->length, &value->tokens, token);
    end_search(value, value->length - from, status);
    return status;
}

size_t find_all(Value *value, uint32_t *patterns) {
    Kept *kept = value->kept;
    lazydfa_input whole = lazydfa_whole(value->length);
    lazydfa_status status;
    size_t count;
    begin_search(value);
    if (has_parts(value, 0)) status = which_in_pieces(value, kept->count, patterns, &count);
    else
        status = lazydfa_which(&kept->cache, value->bytes, value->length, &whole, kept->count, patterns, kept->count,
                               &count);
    end_search(value, value->length, status);
    return count;
}
