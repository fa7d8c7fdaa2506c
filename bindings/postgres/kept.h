/* The compiled patterns that a backend keeps. */
#ifndef LAZYDFA_KEPT_H
#define LAZYDFA_KEPT_H

#include "postgres.h"

#include "fmgr.h"
#include "lib/ilist.h"

#include <lazydfa_automata.h>

#include "versions.h"

/* How the patterns of an argument are compiled. */
enum {
    FOLDS_CASE = 1,  /* letters match in both cases */
    IS_LIST = 2,     /* they are an array of texts, not one text */
    FINDS_ALL = 4,   /* all of them are searched for, not only the preferred one */
    READS_BYTES = 8, /* they are searched for in a bytea */
    ENDS_ONLY = 16,  /* no search reports the start of a match */
    HAS_GROUPS = 32  /* the groups of a match are reported */
};

/* The patterns of an argument, which are one text or an array of texts as it is in memory, and how they are
   compiled. */
typedef struct {
    const char *bytes;
    size_t length;
    uint32 flags;
} Key;

/* Compiled patterns and their cache. */
typedef struct {
    dlist_node by_use;   /* in the list by last use */
    dlist_node by_hash;  /* in its bucket */
    uint32 hash;         /* of the key */
    uint64 generation;   /* increases when they are freed */
    Key key;             /* a copy; its bytes are NULL if no patterns are kept here */
    size_t count;        /* the number of patterns */
    size_t groups;       /* how many groups a pattern has at most, with group 0, if searches or groups are simulated */
    size_t size;         /* the size of the regex's tables, as lazydfa.pattern_size limits it */
    size_t piece;        /* how many bytes of a value are searched before the query can be cancelled */
    bool skips;          /* searches skip empty matches inside a character */
    bool simulates;      /* groups are simulated, and searches where DFAs cannot decide a Unicode word boundary */
    size_t memory;       /* the bytes held when they were last counted */
    size_t uncounted;    /* an upper bound on the bytes added since then */
    lazydfa_regex regex;
    lazydfa_cache cache;
    lazydfa_cache backward; /* of the reversed regex, if it was needed */
} Kept;

/* What a call site remembers about its patterns. Initially all zeros. */
typedef struct {
    Kept *kept;
    uint64 generation;
    bool is_begun;
    bool is_constant; /* they are the same in each call */
    bool is_refused;  /* the planner could not compile them */
    Key key;          /* a copy of them, if the call site has one */
    void *row;        /* the type of the rows that the function returns, once it is known */
} Site;

/* Statistics of the patterns of this backend. */
typedef struct {
    int64 patterns; /* how many are kept; an array counts as one */
    int64 memory;   /* the bytes that their caches account for */
    int64 leaps;    /* the bytes of their leaps, in addition to these */
    int64 held;     /* the bytes that their caches hold from the allocator: these, and unused ones */
    int64 tables;   /* the bytes that their tables hold, at most */
    int64 clears;   /* how often their caches were cleared */
    int64 compiled; /* how many were compiled since the backend began */
} KeptStats;

/* Names of the extension, which no other library sees. */
#pragma GCC visibility push(hidden)

/* Whether the planner searches values of the statistics. Then nothing is an error: patterns that cannot be compiled are
   NULL, and a search that fails finds no match. */
extern bool kept_is_estimating;

/* Returns the compiled patterns of argument 1 of a call. They are kept at least until the next call of this function,
   from any call site. */
extern Kept *kept_of_call(FunctionCallInfo fcinfo, Site *site, uint32 flags);

/* Returns the cache for backward searches in pieces, which is opened when it is first needed. */
extern lazydfa_cache *kept_backward(Kept *kept);

/* Each search begins and ends with these. The second frees the least recently used patterns if, after a search of
   `searched` bytes, more is held than the settings allow. */
extern void kept_begin(Kept *kept);
extern void kept_count(Kept *kept, size_t searched);

/* Frees all patterns; or the least recently used ones, until at most this many patterns and bytes are left. */
extern void kept_forget_all(void);
extern void kept_trim(int most, size_t bytes);

/* Sets the length of pieces for patterns with small tables; pieces are shorter for others. */
extern void kept_set_pieces(int piece_size);

/* Returns what the SQL function lazydfa_stats reports. */
extern KeptStats kept_stats(void);

#pragma GCC visibility pop

#endif
