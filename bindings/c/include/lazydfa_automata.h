/* The calls beside those of lazydfa.h: for names of groups and sizes, for engines that build NFAs themselves, for
   haystacks in pieces, for overlapping matches, for backward searches, and for what all matches of a pattern have
   in common. The head of lazydfa.h has the rules that a program keeps, and the codes that are common to all calls. */
#ifndef LAZYDFA_AUTOMATA_H
#define LAZYDFA_AUTOMATA_H

#include "lazydfa.h"

#ifdef __cplusplus
extern "C" {
#endif

/* ---- Codes ---- */

/* The codes of these calls, beside those of enum lazydfa_code. */
enum lazydfa_automata_code {
    /* from a builder */
    LAZYDFA_NO_PATTERN = 10,     /* no pattern was started, or the last one was finished */
    LAZYDFA_UNFINISHED = 11,     /* the pattern that was started is not finished */
    LAZYDFA_PATCH_RANGE = 12,    /* the state to be patched does not exist */
    LAZYDFA_SPARSE_PATCH = 13,   /* a sparse state cannot be patched */

    /* from building a regex */
    LAZYDFA_STATE_RANGE = 15,    /* a state leads to a state that does not exist */
    LAZYDFA_START_RANGE = 16,    /* a start state does not exist */
    LAZYDFA_PATTERN_RANGE = 17,  /* a match state has a pattern that does not exist */
    LAZYDFA_RANGES = 18,         /* the ranges of bytes of a state are not in order */
    LAZYDFA_NOT_LAZY = 20,       /* the unanchored start does not skip lazily; lazydfa_add_unanchored_prefix does */
    LAZYDFA_NOT_UTF8 = 22,       /* in UTF-8 mode a match may be invalid UTF-8 */
    LAZYDFA_STARTS = 23,         /* only some starts match the empty string: the NFA cannot be reversed */
    LAZYDFA_UNSUPPORTED = 24,    /* a builder has a Unicode word boundary, without the option for it */
    LAZYDFA_PATTERN_COUNTS = 27, /* the two NFAs of a pair differ in their numbers of patterns */
    LAZYDFA_ONE_START = 28,      /* both starts are one state, and always_anchored of the options is 0 */

    /* from a search or a walk in pieces */
    LAZYDFA_SKIPS = 35,          /* the regex is in UTF-8 mode, and matches the empty string if all its looks hold */
    LAZYDFA_NOT_BEGUN = 36       /* no search or walk in pieces was begun over the cache */
};

/* ---- Names of groups ----
 *
 * LAZYDFA_NO_GROUPS if the regex was not built from texts with the option `groups`, or with \b. LAZYDFA_ARGUMENT also if
 * there is no pattern, or no group, of a number. */

/* Writes how many groups a pattern has, group 0 included. */
lazydfa_status lazydfa_group_count(lazydfa_regex *regex, uint32_t pattern, size_t *count);

/* Writes the number of the group of a pattern that has a name, of `length` bytes. LAZYDFA_NONE if no group has it;
   LAZYDFA_NOT_TEXT. */
lazydfa_status lazydfa_group_index(lazydfa_regex *regex, uint32_t pattern, const char *name, size_t length,
                                   size_t *group);

/* Writes the name of a group: as many whole characters as there is room for, and a zero; and the length of the whole
   name, in bytes. LAZYDFA_NONE if it has no name. name may be NULL if room is 0. */
lazydfa_status lazydfa_group_name(lazydfa_regex *regex, uint32_t pattern, size_t group, char *name, size_t room,
                                  size_t *length);

/* ---- Sizes ---- */

/* Writes the size of a regex's tables, in bytes: 16 for each state of its forward NFA, and 8 for each byte range of a
   sparse state, but no needles of texts. The larger the tables, the longer a new state of the DFA can take. */
lazydfa_status lazydfa_regex_size(lazydfa_regex *regex, size_t *size);

typedef struct {
    size_t memory;          /* the bytes that the cache accounts for, which its capacity bounds */
    size_t leaps;           /* the bytes of tables for long searches, built where the capacity has room */
    size_t held;            /* the bytes that it holds from malloc: n count as n + 8 in units of 16, and at least 32 */
    size_t forward_clears;  /* how often the part for ends of matches was cleared */
    size_t reverse_clears;  /* how often the part for starts of matches was cleared */
    size_t patterns;        /* how many patterns the regex has */
} lazydfa_usage;

/* Writes how much memory a cache holds, how often it was cleared, and how many patterns its regex has. */
lazydfa_status lazydfa_cache_usage(lazydfa_cache *cache, lazydfa_usage *usage);

/* ---- Builders ----
 *
 * States have the numbers 0, 1, 2 and so on, in the order in which they are added. A state may lead to one that does
 * not exist yet: lazydfa_state returns the ID of a number, and lazydfa_patch redirects a state. A call that adds a
 * state takes first what the state reads or tests, then the state that it leads to, and last the pointer to which its
 * ID is written. A call that fails changes nothing, and writes nothing. */

typedef struct { lazydfa_handle handle; } lazydfa_builder;

/* A state of a builder, by its number. It is a struct, so that the compiler does not accept another number in its
   place. */
typedef struct { uint32_t number; } lazydfa_state_id;

/* A range of bytes, both ends included, and the state that it leads to. */
typedef struct {
    uint8_t lo, hi;
    uint16_t reserved;
    lazydfa_state_id next;
} lazydfa_edge;

/* The states in which searches start: anchored searches, and all others. lazydfa_add_unanchored_prefix adds the second
   for the first. If both are one state, every search is anchored, which the options must allow (always_anchored). */
typedef struct {
    lazydfa_state_id anchored;
    lazydfa_state_id unanchored;
} lazydfa_starts;

/* Returns the ID of the state of this number. Where a state will be patched, any ID may be given first, such as
   lazydfa_state(0). */
lazydfa_state_id lazydfa_state(uint32_t number);

/* Opens a handle on a builder without states. */
lazydfa_status lazydfa_builder_new(lazydfa_builder *builder);

/* Frees a builder, with the codes of lazydfa_regex_close. The regexes that were built from it keep what they took. */
lazydfa_status lazydfa_builder_close(lazydfa_builder *builder);

/* Removes all states and patterns. The settings are kept. */
lazydfa_status lazydfa_builder_clear(lazydfa_builder *builder);

/* Starts the next pattern, and writes its number. The match states and groups that are added until it is finished
   belong to it. LAZYDFA_UNFINISHED if a pattern is already started; LAZYDFA_TOO_LARGE. */
lazydfa_status lazydfa_start_pattern(lazydfa_builder *builder, uint32_t *pattern);

/* Finishes the pattern that was started, and writes its number. Searches for this pattern alone start in the state
   `start`. LAZYDFA_NO_PATTERN if no pattern is started. */
lazydfa_status lazydfa_finish_pattern(lazydfa_builder *builder, lazydfa_state_id start, uint32_t *pattern);

/* Makes a state lead to another one: a union gets one more alternate, and a state that leads to one other state is
   redirected. LAZYDFA_PATCH_RANGE, LAZYDFA_SPARSE_PATCH. */
lazydfa_status lazydfa_patch(lazydfa_builder *builder, lazydfa_state_id from, lazydfa_state_id to);

/* Sets whether the NFA is in UTF-8 mode, in which no match splits an encoded character. By default it is not. Like the
   next two settings of the NFA, it is kept by a clear. */
lazydfa_status lazydfa_set_utf8(lazydfa_builder *builder, uint32_t yes);
/* Sets whether the NFA reads its haystack backward. By default it does not. */
lazydfa_status lazydfa_set_reverse(lazydfa_builder *builder, uint32_t yes);
/* Sets the byte that ends a line, for the look-around assertions about lines. By default it is '\n'. */
lazydfa_status lazydfa_set_line_terminator(lazydfa_builder *builder, uint8_t byte);

/* Each of the following calls adds a state, and writes its ID. LAZYDFA_TOO_LARGE if there are too many states. */

/* Adds a state that reads nothing, and leads to state 0 until it is patched. */
lazydfa_status lazydfa_add_empty(lazydfa_builder *builder, lazydfa_state_id *id);

/* Adds a state that reads a byte from lo to hi. */
lazydfa_status lazydfa_add_range(lazydfa_builder *builder, uint8_t lo, uint8_t hi, lazydfa_state_id next,
                                 lazydfa_state_id *id);

/* Adds a state that reads a byte in any of several ranges, which must be in order and must not overlap. */
lazydfa_status lazydfa_add_sparse(lazydfa_builder *builder, const lazydfa_edge *edges, size_t length,
                                  lazydfa_state_id *id);

enum lazydfa_look {
    LAZYDFA_LOOK_START = 0,
    LAZYDFA_LOOK_END = 1,
    LAZYDFA_LOOK_START_LF = 2,
    LAZYDFA_LOOK_END_LF = 3,
    LAZYDFA_LOOK_START_CRLF = 4,
    LAZYDFA_LOOK_END_CRLF = 5,
    LAZYDFA_LOOK_WORD_ASCII = 6,
    LAZYDFA_LOOK_WORD_ASCII_NEGATE = 7,
    LAZYDFA_LOOK_WORD_UNICODE = 8,
    LAZYDFA_LOOK_WORD_UNICODE_NEGATE = 9,
    LAZYDFA_LOOK_WORD_START_ASCII = 10,
    LAZYDFA_LOOK_WORD_END_ASCII = 11,
    LAZYDFA_LOOK_WORD_START_UNICODE = 12,
    LAZYDFA_LOOK_WORD_END_UNICODE = 13,
    LAZYDFA_LOOK_WORD_START_HALF_ASCII = 14,
    LAZYDFA_LOOK_WORD_END_HALF_ASCII = 15,
    LAZYDFA_LOOK_WORD_START_HALF_UNICODE = 16,
    LAZYDFA_LOOK_WORD_END_HALF_UNICODE = 17
};

/* Adds a state that reads nothing, and is passed only where a look-around assertion (an enum lazydfa_look) holds. */
lazydfa_status lazydfa_add_look(lazydfa_builder *builder, uint32_t look, lazydfa_state_id next, lazydfa_state_id *id);

/* Adds a state that reads nothing and leads to several states, of which the first is preferred. */
lazydfa_status lazydfa_add_union(lazydfa_builder *builder, const lazydfa_state_id *alternates, size_t length,
                                 lazydfa_state_id *id);

/* Adds a state that reads nothing and leads to several states, of which the last is preferred. */
lazydfa_status lazydfa_add_union_reverse(lazydfa_builder *builder, const lazydfa_state_id *alternates, size_t length,
                                         lazydfa_state_id *id);

/* Adds a state where a group of the pattern begins. The state reads nothing, and searches do not report groups.
   LAZYDFA_NO_PATTERN if no pattern is started. */
lazydfa_status lazydfa_add_capture_start(lazydfa_builder *builder, uint32_t group, lazydfa_state_id next,
                                         lazydfa_state_id *id);
/* Adds a state where a group of the pattern ends. LAZYDFA_NO_PATTERN if no pattern is started. */
lazydfa_status lazydfa_add_capture_end(lazydfa_builder *builder, uint32_t group, lazydfa_state_id next,
                                       lazydfa_state_id *id);

/* Adds a state from which nothing matches. */
lazydfa_status lazydfa_add_fail(lazydfa_builder *builder, lazydfa_state_id *id);

/* Adds a match state of the pattern that was started. LAZYDFA_NO_PATTERN if no pattern is started. */
lazydfa_status lazydfa_add_match(lazydfa_builder *builder, lazydfa_state_id *id);

/* Adds two states that skip as few bytes as possible before a start state. The ID is that of the first: the unanchored
   start. */
lazydfa_status lazydfa_add_unanchored_prefix(lazydfa_builder *builder, lazydfa_state_id start, lazydfa_state_id *id);

/* ---- Regexes of NFAs ----
 *
 * options may be NULL for the defaults; those that are for texts are ignored. */

/* Opens a handle on the regex of a builder's NFA. The builder is unchanged. The matches are those of the NFA's ordered
   paths. LAZYDFA_UNFINISHED, and every code from building a regex except LAZYDFA_PATTERN_COUNTS. */
lazydfa_status lazydfa_regex_build(lazydfa_regex *regex, lazydfa_builder *builder, lazydfa_starts starts,
                                   const lazydfa_options *options);

/* Opens a handle on the regex of two NFAs, the second of which reads backward what the first reads forward
   (lazydfa_set_reverse). This is not checked: if it does not, a search may report a wrong start, or LAZYDFA_NOT_A_PAIR.
   The two builders are different handles. Both NFAs may have cycles that read nothing and pass an assertion, like the
   cycle of `(?:\b|%)+`. The codes are those of lazydfa_regex_build, with LAZYDFA_PATTERN_COUNTS and without
   LAZYDFA_NOT_LAZY, LAZYDFA_NOT_UTF8 and LAZYDFA_STARTS. LAZYDFA_ONE_START is about the first NFA alone: a backward
   search begins where a match ends, so one start is enough for the second. */
lazydfa_status lazydfa_regex_build_pair(lazydfa_regex *regex, lazydfa_builder *forward, lazydfa_starts forward_starts,
                                        lazydfa_builder *reverse, lazydfa_starts reverse_starts,
                                        const lazydfa_options *options);

/* ---- Reading backward ---- */

/* Opens the handle `other` on the regex that reads backward what the first one reads forward: where the first one
   searches backward, this one searches forward, with the same states. So a haystack in pieces can be searched backward
   for the start of a match whose end is known: give the pieces from that end on, with their bytes in reverse order, and
   search anchored. `behind` is then the byte after that end, `ahead` the byte before the last one that was read, and
   the reported offset is the length of the longest match, as lazydfa_find_start finds it; that the two agree is tested,
   not proved. LAZYDFA_ARGUMENT also if both are the same handle. */
lazydfa_status lazydfa_regex_reverse(lazydfa_regex *regex, lazydfa_regex *other);

/* ---- Other searches ---- */

/* Searches backward from the end of the span, and writes where the longest match starts that ends there; for an input
   with `earliest`, the shortest one. An input that is not anchored also finds matches that end earlier, but only with a
   regex of two NFAs whose second NFA has an unanchored start that skips bytes. */
lazydfa_status lazydfa_find_start(lazydfa_cache *cache, const uint8_t *haystack, size_t length,
                                  const lazydfa_input *input, lazydfa_half *found);

/* Writes the ends of all overlapping matches, as many as there is room for, by a forward search. With every code the
   call writes, as lazydfa_next_all does, how many matches there are in all; before an error, how many were found.
   LAZYDFA_OK also if there is no match. Build the regex with LAZYDFA_ALL. */
lazydfa_status lazydfa_all_ends(lazydfa_cache *cache, const uint8_t *haystack, size_t length,
                                const lazydfa_input *input, lazydfa_half *found, size_t room, size_t *count);
/* Writes the starts of all overlapping matches that end where the span ends, by a backward search. The call writes and
   counts as lazydfa_all_ends does, with the same codes. */
lazydfa_status lazydfa_all_starts(lazydfa_cache *cache, const uint8_t *haystack, size_t length,
                                  const lazydfa_input *input, lazydfa_half *found, size_t room, size_t *count);

/* ---- What all matches have in common ---- */

/* What all matches of a pattern have in common. A flag is 0 or 1; 0 means that it is not known. */
typedef struct {
    size_t prefix;           /* the length, in bytes, of the prefix with which every match begins; 0 if none is known */
    size_t count;            /* the number of literals, each of which every match contains */
    size_t length;           /* the length of the prefix and of all literals together, in bytes */
    uint32_t anchored_start; /* every match begins at the start of the haystack */
    uint32_t anchored_end;   /* every match ends at the end of the haystack */
    uint32_t exact;          /* every match is exactly the prefix */
    uint32_t reserved;
} lazydfa_facts;

/* Writes what all matches of a pattern have in common, from its text alone: nothing is compiled. A program with an
 * index over its haystacks needs to search only those that contain the literals, or that begin with the prefix:
 *
 *     lazydfa_facts facts;
 *     uint8_t bytes[256];
 *     size_t lengths[16], at, i;
 *     status = lazydfa_text_facts("^user=[a-z]+@example", 20, NULL, &facts, bytes, sizeof bytes, lengths, 16);
 *     if (status.code == LAZYDFA_OK && facts.anchored_start && facts.prefix <= sizeof bytes)
 *         printf("begins with %.*s\n", (int)facts.prefix, (const char *)bytes);
 *     for (i = 0, at = facts.prefix; i < facts.count && i < 16 && at + lengths[i] <= sizeof bytes; at += lengths[i++])
 *         printf("contains %.*s\n", (int)lengths[i], (const char *)bytes + at);
 *
 * bytes receives the prefix and then the literals, and lengths the length of each literal: as much as there is room for
 * (facts.length bytes and facts.count lengths are enough). So a literal that ends within the room is written whole. No
 * literal is empty. Their order is not specified, and they may overlap. bytes may be NULL if room is 0, and lengths if
 * count_room is 0. options may be NULL for the defaults; those of texts matter, except for the limit on size.
 *
 * The facts hold of every match in every haystack, whatever its bytes and with every setting, and also of matches that
 * a search does not prefer. They are necessary, not sufficient: a haystack that has them all need not have a match.
 * More may be true than is found: an alternation has no literals, and a prefix ends after some 130 bytes. A letter that
 * matches in both of its cases is not a literal.
 *
 * LAZYDFA_SYNTAX and LAZYDFA_NOT_TEXT, with the offset in the text, and LAZYDFA_TOO_LARGE if the text exceeds the
 * limits on text or on class escapes. After an error facts has zeros, and nothing else is written. A pattern for which
 * lazydfa_regex_new fails because of the size of its tables has facts. */
lazydfa_status lazydfa_text_facts(const char *text, size_t length, const lazydfa_options *options,
                                  lazydfa_facts *facts, uint8_t *bytes, size_t room, size_t *lengths,
                                  size_t count_room);

/* ---- A haystack in pieces ----
 *
 * A search forward for the end of the first match, as by lazydfa_find_end, in a haystack that arrives in pieces, as
 * from a file or a socket:
 *
 *     lazydfa_pieces_begin(&cache, LAZYDFA_UNANCHORED, 0, -1, 0);
 *     while (!done && (length = fread(piece, 1, sizeof piece, file)) > 0)
 *         lazydfa_pieces_read(&cache, piece, length, &done);
 *     status = lazydfa_pieces_end(&cache, -1, &found);
 *
 * A cache has at most one such search. The search keeps no piece, only the state after the last byte, which takes a few
 * bytes. It lasts until another one is begun or the cache is closed: other searches of the cache and
 * lazydfa_cache_reset do not change it. Each call may be repeated after an error, which leaves the search unchanged.
 * Offsets are counted in bytes from the first byte of the first piece. The rule by which a search gives up counts each
 * piece as a search of its own. */

/* Begins a search in pieces, which replaces the cache's previous one. It takes an enum lazydfa_anchored, and the
   pattern that this names; the byte before the first piece, from 0 to 255, or -1 if there is none; and whether the
   search may stop at the first match that it sees. LAZYDFA_SKIPS; LAZYDFA_QUIT if `behind` is a quit byte,
   LAZYDFA_GAVE_UP and LAZYDFA_ANCHORED, all with the offset 0. */
lazydfa_status lazydfa_pieces_begin(lazydfa_cache *cache, uint32_t anchored, uint32_t pattern, int32_t behind,
                                    uint32_t earliest);

/* Reads the next piece, of `length` bytes. With every code the call writes, unless that pointer is null, whether the
   result is final, whatever follows: 1 if it is, and later pieces are not read then; 0 if not, or if no search was
   begun. LAZYDFA_NOT_BEGUN, LAZYDFA_QUIT and LAZYDFA_GAVE_UP. */
lazydfa_status lazydfa_pieces_read(lazydfa_cache *cache, const uint8_t *piece, size_t length, uint32_t *done);

/* Writes where the first match in the pieces so far ends, where `ahead` is the byte that follows them, from 0 to 255,
   or -1 if the haystack ends. More pieces may be read afterwards. LAZYDFA_NONE if there is no match. LAZYDFA_NOT_BEGUN;
   LAZYDFA_QUIT if `ahead` is a quit byte, and LAZYDFA_GAVE_UP, both with the number of bytes read as the offset. */
lazydfa_status lazydfa_pieces_end(lazydfa_cache *cache, int32_t ahead, lazydfa_half *found);

/* ---- All ends, and sets of patterns, of a haystack in pieces ----
 *
 * A walk stops once at each offset where patterns match, and continues from there. It reports for a haystack in pieces
 * what lazydfa_all_ends and lazydfa_which report for a whole one:
 *
 *     lazydfa_walk_begin(&cache, LAZYDFA_UNANCHORED, 0, -1);
 *     while ((length = fread(piece, 1, sizeof piece, file)) > 0)
 *         for (at = 0; at < length; at += stop.read) {
 *             status = lazydfa_walk_read(&cache, piece + at, length - at, &stop);
 *             if (status.code > LAZYDFA_NONE) return status;
 *             for (i = 0; i < stop.patterns; i++) lazydfa_walk_pattern(&cache, i, &pattern);
 *         }
 *     status = lazydfa_walk_end(&cache, -1, &stop);
 *
 * Build the regex with LAZYDFA_ALL for all patterns that match: by default a walk drops matches to which the first
 * match is preferred. A cache has at most one walk, in addition to its search in pieces. The walk keeps no piece, only
 * the state after the last byte, and lasts as long as a search in pieces does; offsets, errors and giving up are as
 * described there. */

/* Begins a walk, which replaces the cache's previous one, with the arguments and codes of lazydfa_pieces_begin. */
lazydfa_status lazydfa_walk_begin(lazydfa_cache *cache, uint32_t anchored, uint32_t pattern, int32_t behind);

/* The position of a walk over a haystack in pieces: how many bytes of the piece the call has read, and how many
   patterns match at the offset, which is meaningful only if there are some. */
typedef struct {
    size_t read;
    size_t offset;
    size_t patterns;
} lazydfa_stop;

/* Reads a piece up to the next offset where patterns match, or to its end. Give the rest of the piece, after the bytes
   that were read, to the next call. LAZYDFA_NONE if the whole piece was read and no pattern matches. Matches are
   delayed by one byte, so an offset is known once the byte after it is read. With every code the call writes the walk's
   position, unless that pointer is null: zeros after an error. LAZYDFA_NOT_BEGUN, LAZYDFA_QUIT and LAZYDFA_GAVE_UP. */
lazydfa_status lazydfa_walk_read(lazydfa_cache *cache, const uint8_t *piece, size_t length, lazydfa_stop *stop);

/* Writes how many patterns match at the end of the pieces so far, where `ahead` is the byte that follows them, from 0
   to 255, or -1 if the haystack ends. More pieces may be read afterwards. LAZYDFA_NONE if no pattern matches. The call
   writes as lazydfa_walk_read does, and reads no byte of a piece. LAZYDFA_NOT_BEGUN; LAZYDFA_QUIT if `ahead` is a quit
   byte, and LAZYDFA_GAVE_UP, both with the number of bytes read as the offset. */
lazydfa_status lazydfa_walk_end(lazydfa_cache *cache, int32_t ahead, lazydfa_stop *stop);

/* Writes one of the patterns that match at the walk's position. `index` must be below `patterns` of the last
   lazydfa_walk_read or lazydfa_walk_end that did not fail; otherwise the code is LAZYDFA_ARGUMENT.
   LAZYDFA_NOT_BEGUN. */
lazydfa_status lazydfa_walk_pattern(lazydfa_cache *cache, size_t index, uint32_t *pattern);

#ifdef __cplusplus
}
#endif

#endif
