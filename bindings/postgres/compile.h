/* Compiles patterns. */
#ifndef LAZYDFA_COMPILE_H
#define LAZYDFA_COMPILE_H

#include "kept.h"

/* Names of the extension, which no other library sees. */
#pragma GCC visibility push(hidden)

/* Checks the length of an argument's patterns, which are not detoasted yet, for the functions below. Returns false if
   they are longer than the settings allow: this is an error unless the planner estimates. */
extern bool limit_length(Datum patterns, uint32 flags);

/* Returns the options with which the text of a pattern is parsed. */
extern lazydfa_options text_options(uint32 flags);

/* Opens the regex and the cache of patterns. Returns false if there are no such patterns: this is an error unless the
   planner estimates. After an error nothing is open. */
extern bool compile(Kept *kept, const Key *key);

/* Returns the length of pieces for patterns: a shorter value is searched at once. */
extern size_t piece_of(const Kept *kept, int piece_size);

/* Returns how many bytes may be simulated at once. */
extern size_t longest_simulated(const Kept *kept, int piece_size);

/* Reports the status of a search, or of a call that prepares one, as an error. */
extern NEVER_RETURNS(void fail(lazydfa_status status));

#pragma GCC visibility pop

#endif
