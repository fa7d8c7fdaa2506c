/* Searches of a value for compiled patterns. */
#ifndef LAZYDFA_SEARCH_H
#define LAZYDFA_SEARCH_H

#include "kept.h"

/* A value that is searched, and the progress of its searches. */
typedef struct {
    Kept *kept; /* NULL if the patterns cannot be compiled, while the planner estimates */
    const uint8_t *bytes;
    size_t length;
    lazydfa_iteration matches; /* what remains for find_next */
    lazydfa_input tokens;      /* what remains for find_token */
} Value;

/* Names of the extension, which no other library sees. */
#pragma GCC visibility push(hidden)

/* Begins searches of a value, which is a text or a bytea. */
extern void begin_value(Value *value, struct varlena *it);

/* Returns the value of argument 0 of a call, to be searched for the patterns of argument 1. */
extern Value value_of(FunctionCallInfo fcinfo, uint32 flags);

/* Returns some bytes of a value as a text. */
extern Datum text_between(const Value *value, size_t start, size_t end);

/* Each search reports errors of the library. A query can be cancelled before it, and in a long value while it runs.
   */

/* Whether the value has a match. */
extern bool has_match(Value *value);

/* Writes the next match; returns false if there is no match. */
extern bool find_next(Value *value, lazydfa_match *match);

/* Writes the spans of the groups of a match, as many as there is room for. The patterns are those of a call that
   HAS_GROUPS. It is an error if the match is too long for this to be done between two chances to cancel the query. */
extern void find_groups(Value *value, const lazydfa_match *match, lazydfa_span *groups, size_t room);

/* Writes the next token. Returns LAZYDFA_OK; LAZYDFA_NONE at the end of the value; or LAZYDFA_NO_TOKEN, with the offset
   where no token begins. */
extern lazydfa_status find_token(Value *value, lazydfa_match *token);

/* Writes the numbers of the patterns that match, in increasing order, and returns how many match. There must be room
   for all patterns. */
extern size_t find_all(Value *value, uint32_t *patterns);

/* Whether a function implements an operator, and so returns whether there is a match. */
extern bool tells_match(PGFunction function);

#pragma GCC visibility pop

#endif
