/* A lazy DFA for C: regular expressions, searched over a cache of bounded size. This prints the matches of a pattern:
 *
 *     lazydfa_regex regex = LAZYDFA_INIT;
 *     lazydfa_cache cache = LAZYDFA_INIT;
 *     lazydfa_error error = LAZYDFA_ERROR_INIT;
 *     lazydfa_iteration at = lazydfa_iterate(lazydfa_whole(length));
 *     lazydfa_match m;
 *     if (lazydfa_regex_new(&regex, "[a-z]+", 6, NULL, &error).code != LAZYDFA_OK) puts(error.message);
 *     lazydfa_cache_new(&cache, &regex);
 *     while (lazydfa_next(&cache, text, length, &at, &m).code == LAZYDFA_OK) printf("%zu..%zu\n", m.start, m.end);
 *     lazydfa_cache_close(&cache);
 *     lazydfa_regex_close(&regex);
 *
 * lazydfa_regex_any_of builds one regex from many patterns. lazydfa_automata.h has the calls for NFAs that a program
 * builds itself, for haystacks in pieces, for overlapping matches, and for what all matches have in common.
 *
 * Each call returns a status: a code, and for some codes an offset and a byte. No call aborts, and no call ends the
 * process. The codes from LAZYDFA_CLOSED to LAZYDFA_MEMORY are common to all calls, so the comments of the calls do not
 * repeat them. LAZYDFA_ARGUMENT: a pointer is null where that is not allowed; a span does not lie in the haystack; a
 * number is not a valid state, pattern, look-around assertion, anchored mode, match kind or set of flags. After
 * LAZYDFA_MEMORY, an allocation that failed, the call may be repeated.
 *
 * After an error each handle owns what it owned before, and is as usable as before. An out parameter is written only
 * where the comment of its call says so; it need not be initialised.
 *
 * What the program must ensure, since no library can check it. If it breaks one of these rules, the behaviour is
 * undefined:
 *
 *   1. A handle is initialised with LAZYDFA_INIT. The program does not write to it afterwards, and does not use a copy
 *      of an open handle: closing both would free one object twice. (A handle may be moved, as by memcpy, if the old
 *      one is no longer used.) A handle that is never closed leaks its object, and nothing else.
 *   2. A pointer that is not null points to what its type says, and to as many of these as the length passed with it
 *      says, within one object of at most PTRDIFF_MAX bytes, aligned as the type requires. What is read (a haystack, an
 *      input, options, edges, alternates, an iteration) is initialised, and so is the size of an error.
 *   3. During a call nothing else writes to what the call reads, and nothing else reads or writes what the call writes.
 *      What a call writes to (a handle, an iteration, an out parameter) does not overlap any of its other arguments.
 *   4. Calls with one handle, including its close, do not overlap in time. Calls with different handles may, on any
 *      threads, even if the handles share a regex: what they share is counted atomically, and never written otherwise.
 *      So lazydfa_regex_share gives each thread its own handle on a regex, and each thread creates its own caches. Any
 *      thread may use or close any handle, also one of a cache, if the program orders this after the previous call with
 *      the handle, as by a mutex or a join.
 *   5. No call is made from a signal handler, and none is left by longjmp or by an exception of a replaced malloc.
 *   6. malloc, realloc and free, which the library calls, belong to one allocator and behave as the C standard says; a
 *      handle is used and closed in the process, and with the allocator, that opened it.
 *   7. Arguments are passed according to the System V ABI of x86-64. The processor has SSSE3 and SSE4.1, as each of the
 *      level x86-64-v2 (lazydfa_is_supported). The stack has room for a call: 20 KiB are enough for any NFA. A
 *      pattern's text takes 32 KiB, and 1 KiB more for each level above 8 to which it may nest, since groups are parsed
 *      recursively: 56 KiB in all by default.
 *
 * Nothing else is required of the program: every number is allowed in every argument.
 */
#ifndef LAZYDFA_H
#define LAZYDFA_H

#include <stddef.h>
#include <stdint.h>

/* The version of this header. lazydfa_version returns that of the library which is linked. */
#define LAZYDFA_VERSION "0.1.0"
#define LAZYDFA_VERSION_MAJOR 0
#define LAZYDFA_VERSION_MINOR 1
#define LAZYDFA_VERSION_PATCH 0

#ifdef __cplusplus
extern "C" {
#endif

/* ---- Codes ---- */

enum lazydfa_code {
    LAZYDFA_OK = 0,              /* done; a search found a match */
    LAZYDFA_NONE = 1,            /* a search found no match, or no more */
    LAZYDFA_CLOSED = 2,          /* a handle that the call works on owns nothing */
    LAZYDFA_OPEN = 3,            /* a handle that the call opens owns something already */
    LAZYDFA_KIND = 4,            /* a handle owns another kind of object, because it was cast to another type */
    LAZYDFA_ARGUMENT = 5,        /* a null pointer, a bad span, or a number that is out of range */
    LAZYDFA_MEMORY = 6,          /* an allocation failed */
    LAZYDFA_STRUCT_SIZE = 7,     /* the library does not know the size of the options or of the error */

    /* from building a regex; lazydfa_automata.h has those of builders */
    LAZYDFA_TOO_LARGE = 14,      /* too many states, patterns, groups or alternates, or a limit is exceeded */
    LAZYDFA_CAPACITY = 25,       /* the cache capacity is too small; the offset is a capacity that is enough */
    LAZYDFA_STATE_IDS = 26,      /* the smallest table is too large; the offset is the ID that does not fit */

    /* from a search */
    LAZYDFA_QUIT = 30,           /* the search read a quit byte, at the offset */
    LAZYDFA_GAVE_UP = 31,        /* the search gave up at the offset, since the cache was cleared too often */
    LAZYDFA_ANCHORED = 32,       /* the regex was not built for this anchored mode */
    LAZYDFA_NOT_A_PAIR = 33,     /* the second NFA of a pair finds no start for a match of the first */
    LAZYDFA_NO_TOKEN = 34,       /* no pattern matches at the offset, or only with the empty string */

    /* from a call for groups */
    LAZYDFA_NO_GROUPS = 37,      /* the regex was not built from texts with the option `groups`, or with \b */

    /* from a pattern's text */
    LAZYDFA_SYNTAX = 40,         /* it is not a valid pattern; the offset is that of the error in the text */
    LAZYDFA_NOT_TEXT = 41,       /* it is not UTF-8, from the offset on */
    LAZYDFA_NOT_COMPILED = 42    /* it was parsed, but could not be compiled */
};

typedef struct {
    uint32_t code; /* an enum lazydfa_code */
    uint32_t byte; /* for LAZYDFA_QUIT the quit byte, otherwise 0 */
    size_t offset; /* what the code's comment calls the offset, otherwise 0 */
} lazydfa_status;

/* Returns what a code means, in words. */
const char *lazydfa_code_text(uint32_t code);

/* Returns the version of the library, as "0.1.0". */
const char *lazydfa_version(void);

/* Returns 1 if the processor has the instructions that the library uses, and otherwise 0: then make no other call. */
int lazydfa_is_supported(void);

/* ---- Handles ---- */

/* A handle owns an object, or nothing. Only the library reads and writes its members. */
typedef struct {
    void *at;
    uint64_t live;
} lazydfa_handle;

typedef struct { lazydfa_handle handle; } lazydfa_regex;
typedef struct { lazydfa_handle handle; } lazydfa_cache;

#define LAZYDFA_INIT { { NULL, 0 } }

/* Free what a handle owns. A closed handle may be opened again. Handles may be closed in any order, since a cache keeps
   its regex alive. LAZYDFA_OK, or LAZYDFA_CLOSED if the handle owned nothing. The last takes any kind of handle. */
lazydfa_status lazydfa_regex_close(lazydfa_regex *regex);
lazydfa_status lazydfa_cache_close(lazydfa_cache *cache);
lazydfa_status lazydfa_close(lazydfa_handle *handle);

/* ---- Options ---- */

enum lazydfa_match_kind {
    LAZYDFA_LEFTMOST_FIRST = 0, /* the preferred match, as a backtracking matcher finds it */
    LAZYDFA_ALL = 1             /* all matches: for overlapping searches and sets */
};

/* Do not ask a regex of the kind LAZYDFA_ALL for a match, or whether there is one. The match would be the one that ends
   last, which in text may lie inside a character, and is then not reported: (?-u:\B) over "\u2603a" has a match for
   lazydfa_which, and none for lazydfa_find and lazydfa_is_match. */

/* Flags of `zeros`: the numbers of the options whose 0 is not the default, but the number 0. */
enum lazydfa_zero {
    LAZYDFA_ZERO_CACHE_CAPACITY = 1,
    LAZYDFA_ZERO_CACHE_LIMIT = 2,
    LAZYDFA_ZERO_CLEAR_COUNT = 4,
    LAZYDFA_ZERO_BYTES_PER_STATE = 8,
    LAZYDFA_ZERO_SIZE_LIMIT = 16,
    LAZYDFA_ZERO_TEXT_LIMIT = 32,
    LAZYDFA_ZERO_CLASS_LIMIT = 64
};

/* The default limit on nesting. With it, any text can be parsed on a thread with a stack of 64 KiB. */
#define LAZYDFA_NEST_LIMIT 32

/* How a regex is built. In each member 0 is the default; for a flag 0 is no, and any other number yes. By the first
 * member the library knows which header the program was compiled with. LAZYDFA_OPTIONS_INIT sets it, and all defaults;
 * so does, in C, { .struct_size = sizeof(lazydfa_options), .match_kind = LAZYDFA_ALL }, except for the match kind.
 *
 * A cache has a part for each direction, and each part has a capacity of its own: cache_capacity, or four times the
 * least that the regex needs for it, if that is more, but then not more than cache_limit. The default limit is for the
 * default capacity: a capacity that is set is raised only if the limit is set too. A regex that needs more than both is
 * the error LAZYDFA_CAPACITY.
 *
 * The limits on text and on class escapes are checked before anything is parsed, the limit on size while a pattern is
 * compiled; if one is exceeded, the code is LAZYDFA_TOO_LARGE. The parser takes time and memory proportional to the
 * length of the text and to its class escapes, the compiler proportional to the limit on size (docs/C.md has figures).
 * Every backslash before one of the letters dDpPsSwW counts as a class escape, even after another backslash, and at the
 * end of a text if the next text begins with such a letter.
 *
 * A regex that only searches forward (forward_only) takes less memory, and less time to build. lazydfa_is_match,
 * lazydfa_find_end, lazydfa_all_ends, lazydfa_which, tokens, pieces and walks return what they return with any other
 * regex. lazydfa_find and iterations report a match that ends where the search begins, or that is anchored, by its
 * input or since all matches of the texts begin at the start of the haystack, as those of ^abc do; for any other match
 * the DFAs fail with LAZYDFA_NOT_A_PAIR. Backward searches (lazydfa_find_start, lazydfa_all_starts, and searches with
 * the regex of lazydfa_regex_reverse) find nothing. */
typedef struct {
    size_t struct_size;                 /* sizeof(lazydfa_options) */

    /* for every regex */
    size_t cache_capacity;              /* in bytes, for each direction; by default 8 MiB */
    size_t cache_limit;                 /* in bytes; by default 256 MiB, or cache_capacity if that is set */
    size_t minimum_cache_clear_count;   /* clears after which a search may give up; by default it never does */
    size_t minimum_bytes_per_state;     /* and it does so only if it searched fewer bytes than this per state */
    uint32_t zeros;                     /* which numbers are 0 themselves: flags of enum lazydfa_zero */
    uint32_t match_kind;                /* an enum lazydfa_match_kind */
    uint32_t starts_for_each_pattern;   /* for LAZYDFA_ANCHORED_PATTERN */
    uint32_t no_byte_classes;           /* each byte is a class of its own */
    uint32_t unicode_word_boundary;     /* allows one for DFAs alone: bytes from 0x80 on are quit bytes then */
    uint32_t specialize_start_states;
    uint32_t skip_cache_capacity_check; /* raises a capacity that is too small */
    uint32_t always_anchored;           /* a builder's two starts may be one state: every search is anchored then */
    const uint8_t *quits;               /* the quit bytes, at which a search fails; by default there are none */
    size_t quit_count;                  /* how many there are */

    /* for a regex of texts. A pattern sets flags for a part of itself with (?imsRUx-u:...). */
    size_t size_limit;                  /* bytes for the tables of all patterns, and 24 each; by default 10 MiB */
    size_t text_limit;                  /* bytes that all texts may have in total; by default any number */
    size_t class_limit;                 /* class escapes, such as \w or \pL, in all texts; by default any number */
    uint32_t nest_limit;                /* levels of groups, repetitions and classes; by default LAZYDFA_NEST_LIMIT */
    uint32_t no_unicode;                /* turns u off: classes and . match bytes, and only ASCII letters have cases */
    uint32_t case_insensitive;          /* i: a letter matches in both cases */
    uint32_t multi_line;                /* m: ^ and $ match at the start and the end of each line */
    uint32_t dot_matches_new_line;      /* s: . matches a line feed */
    uint32_t crlf;                      /* R: lines end in a carriage return, a line feed or both */
    uint32_t swap_greed;                /* U: a* prefers fewer repetitions, and a*? more */
    uint32_t ignore_whitespace;         /* x: whitespace, and comments after #, are skipped */
    uint32_t octal;                     /* \141 is the character with that octal number */
    uint32_t bytes;                     /* bytes are searched, not text: a match may split a character */
    uint32_t forward_only;              /* the regex has no part that finds where matches start */
    uint32_t groups;                    /* what groups capture can be reported (lazydfa_groups) */
} lazydfa_options;

#define LAZYDFA_OPTIONS_INIT { sizeof(lazydfa_options), 0, 0, 0, 0, 0, 0, 0, 0, 0, 0, 0, 0, NULL, 0, \
                               0, 0, 0, 0, 0, 0, 0, 0, 0, 0, 0, 0, 0, 0, 0 }

/* ---- Regexes ----
 *
 * The syntax is that of Rust's regex crate, which has no lookahead, lookbehind or back references. A pattern that could
 * match a part of a character, such as (?-u:.), is LAZYDFA_SYNTAX unless the option `bytes` is on. DFAs decide \b, a
 * word boundary of Unicode, only in an ASCII haystack. In others, and where DFAs fail, a regex with \b is simulated, in
 * time proportional to the bytes times the states, if the input is unanchored and ends with the haystack, and, but for
 * lazydfa_is_match, is not `earliest`, with LAZYDFA_LEFTMOST_FIRST, or for lazydfa_which with LAZYDFA_ALL. For tokens
 * the span has to end with the haystack, with LAZYDFA_LEFTMOST_FIRST. Other searches fail with LAZYDFA_QUIT there. */

/* The text of a pattern, in UTF-8. It need not end with a zero, and may contain zeros. */
typedef struct {
    const char *text;
    size_t length;
} lazydfa_text;

/* What a call that builds a regex returned, and why. LAZYDFA_ERROR_INIT sets the size, and the call writes the rest,
   with every code. If a text has an error, the message is what is wrong, the pattern, and carets below the part that
   this is about, in lines separated by '\n'; if a limit is exceeded, which one. For other errors it is what the code
   means, for LAZYDFA_OK it is empty. It ends with a zero, and is cut at a character if it does not fit. If the pattern
   contains a zero, so does the message. */
typedef struct {
    size_t struct_size;    /* sizeof(lazydfa_error) */
    lazydfa_status status; /* what the call returned */
    size_t pattern;        /* the index of the text that has the error, from 0; 0 if the error is about all texts */
    size_t start, end;     /* the span of the text that the error is about, or the offset where it stops being UTF-8 */
    size_t length;         /* of the whole message about the text or the limit, in bytes; 0 if there is none */
    char message[4096];
} lazydfa_error;

#define LAZYDFA_ERROR_INIT { sizeof(lazydfa_error), { 0, 0, 0 }, 0, 0, 0, 0, { 0 } }

/* Builds a regex from one pattern, of `length` bytes. options may be NULL for the defaults, and error if the status is
   enough. LAZYDFA_SYNTAX, LAZYDFA_NOT_TEXT, and LAZYDFA_TOO_LARGE if a limit of the options is exceeded;
   LAZYDFA_CAPACITY and LAZYDFA_STATE_IDS depend on the options. */
lazydfa_status lazydfa_regex_new(lazydfa_regex *regex, const char *pattern, size_t length,
                                 const lazydfa_options *options, lazydfa_error *error);

/* Builds a regex from several patterns, each numbered by its index in the list: if two match at one offset, the first
   is preferred. For lazydfa_which, set the match kind to LAZYDFA_ALL. The arguments and codes are otherwise those of
   lazydfa_regex_new. The call copies several texts to memory from malloc, which it frees before it returns. */
lazydfa_status lazydfa_regex_any_of(lazydfa_regex *regex, const lazydfa_text *texts, size_t count,
                                    const lazydfa_options *options, lazydfa_error *error);

/* Opens the handle `other` on the first handle's regex, which is unchanged and not copied. Calls with the two handles
   may overlap in time, as on two threads. LAZYDFA_ARGUMENT also if both are the same handle. */
lazydfa_status lazydfa_regex_share(lazydfa_regex *regex, lazydfa_regex *other);

/* ---- Caches ---- */

/* Opens a handle on a new cache of a regex. The regex may be closed before the cache. */
lazydfa_status lazydfa_cache_new(lazydfa_cache *cache, lazydfa_regex *regex);

/* Resets a cache to a fresh one of its regex. After an error the cache is unchanged. */
lazydfa_status lazydfa_cache_reset(lazydfa_cache *cache);

/* ---- Searches ----
 *
 * Every search takes a cache and a haystack of `length` bytes; the haystack may be NULL if it has none. A search
 * returns LAZYDFA_OK with a match and LAZYDFA_NONE without one, and writes only with LAZYDFA_OK, unless its comment
 * says otherwise. It fails with LAZYDFA_QUIT, LAZYDFA_GAVE_UP and LAZYDFA_ANCHORED, and with LAZYDFA_NOT_A_PAIR if the
 * regex was built from two NFAs or only searches forward. If the matches of texts all begin with a literal, or with one
 * of two, and there are no quit bytes, searches begin at the first of them in the span, and read nothing before it. */

enum lazydfa_anchored {
    LAZYDFA_UNANCHORED = 0,       /* a match may begin anywhere in the span */
    LAZYDFA_ANCHORED_YES = 1,     /* a match begins where the span begins */
    LAZYDFA_ANCHORED_PATTERN = 2  /* the same for one pattern: build the regex with starts_for_each_pattern */
};

/* The input of a search: a span of the haystack, which is done if start is end + 1; an enum lazydfa_anchored, and the
   pattern that it names; and whether the search may stop at the first match that it sees (0 is no). */
typedef struct {
    size_t start, end;
    uint32_t anchored;
    uint32_t pattern;
    uint32_t earliest;
    uint32_t reserved;
} lazydfa_input;

typedef struct {
    size_t start, end;
    uint32_t pattern;
    uint32_t reserved;
} lazydfa_match;

/* The pattern and one end of a match. */
typedef struct {
    size_t offset;
    uint32_t pattern;
    uint32_t reserved;
} lazydfa_half;

/* The input that remains to be searched, whose last member says whether the haystack was found to be ASCII; the end of
   the last match if there was one; and whether the iteration has ended. */
typedef struct {
    lazydfa_input left;
    size_t last;
    uint32_t has_last;
    uint32_t ended;
} lazydfa_iteration;

/* Returns the input that is the whole haystack, neither anchored nor earliest. */
lazydfa_input lazydfa_whole(size_t length);

/* Writes the first match; for an input with `earliest`, the match that ends first. */
lazydfa_status lazydfa_find(lazydfa_cache *cache, const uint8_t *haystack, size_t length, const lazydfa_input *input,
                            lazydfa_match *found);

/* Returns whether there is a match: LAZYDFA_OK or LAZYDFA_NONE. */
lazydfa_status lazydfa_is_match(lazydfa_cache *cache, const uint8_t *haystack, size_t length,
                                const lazydfa_input *input);

/* Writes where the first match ends; for an input with `earliest`, where the match that ends first does. */
lazydfa_status lazydfa_find_end(lazydfa_cache *cache, const uint8_t *haystack, size_t length,
                                const lazydfa_input *input, lazydfa_half *found);

/* Returns an iteration over the matches of an input. */
lazydfa_iteration lazydfa_iterate(lazydfa_input input);

/* Writes the next match of an iteration. Each call must be given the same haystack, or the matches are those of the
   haystack that it is given. LAZYDFA_NONE and the errors of a search end it: each later call returns LAZYDFA_NONE. */
lazydfa_status lazydfa_next(lazydfa_cache *cache, const uint8_t *haystack, size_t length, lazydfa_iteration *at,
                            lazydfa_match *found);

/* Writes the next matches of an iteration, as many as there is room for. With every code the call writes their number,
   unless that pointer is null: 0 if another argument is null or the cache is not open. Matches before an error are
   written. LAZYDFA_OK if there was no room for more, otherwise the code that ended the iteration. */
lazydfa_status lazydfa_next_all(lazydfa_cache *cache, const uint8_t *haystack, size_t length, lazydfa_iteration *at,
                                lazydfa_match *found, size_t room, size_t *count);

/* Writes the patterns below a number that match, in increasing order, as many as there is room for, overlapping matches
   included; for an input with `earliest`, only the pattern of the first match. With every code the call writes, as
   lazydfa_next_all does, how many patterns match in all; before an error, how many were found. LAZYDFA_OK also if no
   pattern matches. Build the regex with LAZYDFA_ALL. The call allocates `below` bytes, and keeps them for the next. */
lazydfa_status lazydfa_which(lazydfa_cache *cache, const uint8_t *haystack, size_t length, const lazydfa_input *input,
                             size_t below, uint32_t *patterns, size_t room, size_t *count);

/* ---- Tokens ---- */

/* Writes the token at the start of the span: the match that begins there and is not empty. The start of the span then
   moves to the token's end. LAZYDFA_NONE at the end of the span; LAZYDFA_NO_TOKEN where no token begins. The anchored
   mode and `earliest` are ignored. The first call of a regex with \b notes in `reserved` whether the haystack is ASCII:
   begin with lazydfa_whole for each haystack. */
lazydfa_status lazydfa_token(lazydfa_cache *cache, const uint8_t *haystack, size_t length, lazydfa_input *left,
                             lazydfa_match *found);

/* Writes the next tokens, as many as there is room for, and their number, as lazydfa_next_all does for matches. */
lazydfa_status lazydfa_tokens(lazydfa_cache *cache, const uint8_t *haystack, size_t length, lazydfa_input *left,
                              lazydfa_match *found, size_t room, size_t *count);

/* ---- Groups ----
 *
 * For a regex that was built from texts with the option `groups`, or with \b; for any other, the code is
 * LAZYDFA_NO_GROUPS. Group 0 of a pattern is the whole match, and its groups have the numbers 1, 2 and so on, in the
 * order in which they are opened (lazydfa_automata.h has the calls for their names). */

/* The span of a group of a match, or LAZYDFA_NO_OFFSET twice if the group took no part in it. A group in a repetition
   has the span of the last round in which it took part. */
typedef struct {
    size_t start, end;
} lazydfa_span;

#define LAZYDFA_NO_OFFSET SIZE_MAX

/* Writes the spans of the groups of a match, from group 0 on, as many as there is room for. With every code the call
   writes, as lazydfa_next_all does, how many groups the pattern has. They are the groups of the match that the pattern
   prefers within the span of `found`: so those of `found`, if a search over this cache reported it for this haystack,
   without `earliest`, and the match kind is LAZYDFA_LEFTMOST_FIRST. Any span that is written lies within `found`. The
   call allocates nothing, and takes time in proportion to the length of the match times the states of the pattern.
   LAZYDFA_ARGUMENT also if `found` does not lie in the haystack, or its pattern does not exist. */
lazydfa_status lazydfa_groups(lazydfa_cache *cache, const uint8_t *haystack, size_t length, const lazydfa_match *found,
                              lazydfa_span *groups, size_t room, size_t *count);

#ifdef __cplusplus
}
#endif

#endif
