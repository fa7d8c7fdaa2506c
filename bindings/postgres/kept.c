/* Keeps compiled patterns in the backend, and frees the least recently used ones first. */
#include "kept.h"

#include "common/hashfn.h"
#include "mb/pg_wchar.h"
#include "nodes/primnodes.h"
#include "utils/array.h"
#include "utils/memutils.h"

#include "compile.h"
#include "settings.h"

#define BUCKETS 1024

/* An upper bound on what tables hold from malloc: bytes per byte of their size, for one direction and for both, and for
   groups in addition, and a constant, of which 10 kB are for 64 needles. Every kind of pattern that was measured takes
   less, often half. */
#define HELD_FORWARD 6
#define HELD_BOTH 13
#define HELD_GROUPS 3
#define HELD_BESIDE 24000

/* Searching a byte adds at most one state in each direction: a row of transitions, up to 1 kB, and the state's NFA
   states. Vectors have room to double. */
#define HELD_STATE 4096

/* Entries that are no longer kept stay allocated, since a call site may check their generation: these are free. */
static dlist_head by_use = DLIST_STATIC_INIT(by_use); /* the most recently used entry is first */
static dlist_head free_ones = DLIST_STATIC_INIT(free_ones);
static dlist_head buckets[BUCKETS];
static int kept_number = 0;
static size_t memory = 0; /* the sum of the bytes that they held when they were counted */
static size_t uncounted = 0; /* and an upper bound on the bytes added since then */
static int64 compiled = 0;
static MemoryContext context = NULL;
static Kept *in_use = NULL; /* the entry whose search is not counted yet */
static uint32 refused = 0;  /* the hash of patterns that an estimate failed to compile: the next one does not try */

bool kept_is_estimating = false;

/* Frees patterns. */
static void forget(Kept *kept) {
    lazydfa_cache_close(&kept->backward);
    lazydfa_cache_close(&kept->cache);
    lazydfa_regex_close(&kept->regex);
    pfree((char *)kept->key.bytes);
    kept->key.bytes = NULL;
    kept->generation++;
    memory -= kept->memory;
    uncounted -= kept->uncounted;
    kept->memory = kept->uncounted = 0;
    kept_number--;
    dlist_delete(&kept->by_hash);
    dlist_delete(&kept->by_use);
    dlist_push_head(&free_ones, &kept->by_use);
}

void kept_trim(int most, size_t bytes) {
    while (kept_number > most || (memory > bytes && kept_number > 1))
        forget(dlist_tail_element(Kept, by_use, &by_use));
}

void kept_forget_all(void) { kept_trim(0, 0); }

void kept_set_pieces(int piece_size) {
    dlist_iter at;
    dlist_foreach(at, &by_use) {
        Kept *kept = dlist_container(Kept, by_use, at.cur);
        kept->piece = piece_of(kept, piece_size);
    }
}

/* Returns a free entry for patterns. */
static Kept *free_one(void) {
    Kept *kept;
    if (!dlist_is_empty(&free_ones)) return dlist_head_element(Kept, by_use, &free_ones);
    kept = MemoryContextAllocZero(context, sizeof *kept);
    dlist_push_head(&free_ones, &kept->by_use);
    return kept;
}

/* Returns the memory usage of the caches of patterns. */
static lazydfa_usage usage_of(Kept *kept) {
    lazydfa_usage usage, backward;
    memset(&usage, 0, sizeof usage);
    memset(&backward, 0, sizeof backward);
    lazydfa_cache_usage(&kept->cache, &usage);
    lazydfa_cache_usage(&kept->backward, &backward);
    usage.memory += backward.memory;
    usage.leaps += backward.leaps;
    usage.held += backward.held;
    usage.forward_clears += backward.forward_clears;
    return usage;
}

/* Returns an upper bound on the bytes that the tables of patterns, and their texts, hold. */
static size_t tables_of(const Kept *kept) {
    size_t most = kept->key.flags & ENDS_ONLY ? HELD_FORWARD : HELD_BOTH;
    if (kept->key.flags & HAS_GROUPS) most += HELD_GROUPS;
    return kept->size * most + HELD_BESIDE + kept->key.length;
}

/* Counts the bytes that patterns hold. */
static void count(Kept *kept) {
    size_t before = kept->memory;
    kept->memory = usage_of(kept).held + tables_of(kept);
    memory = memory - before + kept->memory;
    uncounted -= kept->uncounted;
    kept->uncounted = 0;
}

/* Compiles the patterns of a key and keeps them. Returns NULL if they are not valid, while the planner estimates. */
static Kept *keep(const Key *key, uint32 hash) {
    Kept *kept;
    char *copy;
    if (!context) context = AllocSetContextCreate(TopMemoryContext, "lazydfa", ALLOCSET_DEFAULT_SIZES);
    kept = free_one();
    if (!compile(kept, key)) {
        refused = hash;
        return NULL;
    }
    copy = MemoryContextAllocExtended(context, Max(key->length, 1), MCXT_ALLOC_NO_OOM);
    if (!copy) {
        lazydfa_cache_close(&kept->cache);
        lazydfa_regex_close(&kept->regex);
        fail((lazydfa_status){LAZYDFA_MEMORY, 0, 0});
    }
    memcpy(copy, key->bytes, key->length);
    kept->key = (Key){copy, key->length, key->flags};
    kept->hash = hash;
    dlist_delete(&kept->by_use);
    dlist_push_head(&by_use, &kept->by_use);
    dlist_push_head(&buckets[hash % BUCKETS], &kept->by_hash);
    kept_number++;
    compiled++;
    count(kept);
    kept_trim(setting_cached_patterns, (size_t)setting_cache_size * 1024);
    return kept;
}

/* Whether these are the patterns of this key. */
static bool is_of(const Kept *kept, const Key *key) {
    const Key *own = &kept->key;
    return own->bytes && own->length == key->length && own->flags == key->flags &&
           memcmp(own->bytes, key->bytes, key->length) == 0;
}

/* Returns the patterns of a key, compiling them if they are not kept already, or NULL if they are not valid, while the
   planner estimates. */
static Kept *look_up(const Key *key) {
    uint32 hash = hash_bytes((const unsigned char *)key->bytes, (int)key->length) ^ key->flags * 0x9e3779b9;
    dlist_iter at;
    dlist_foreach(at, &buckets[hash % BUCKETS]) {
        Kept *kept = dlist_container(Kept, by_hash, at.cur);
        if (kept->hash == hash && is_of(kept, key)) return kept;
    }
    if (kept_is_estimating && hash == refused) return NULL;
    if (GetDatabaseEncoding() == PG_UTF8 || GetDatabaseEncoding() == PG_SQL_ASCII) return keep(key, hash);
    if (kept_is_estimating) return NULL;
    ereport(ERROR, errcode(ERRCODE_FEATURE_NOT_SUPPORTED),
            errmsg("lazydfa needs a database whose encoding is UTF8 or SQL_ASCII"));
}

/* Whether argument 1 is the same in each call of this expression. A parameter may change: PL/pgSQL evaluates one
   expression with several values. For `=~ ANY (array)` the expression has the array, but a call is given an element. */
static bool is_constant(const Node *call) {
    List *args = NIL;
    if (call && IsA(call, OpExpr)) args = ((const OpExpr *)call)->args;
    if (call && IsA(call, FuncExpr)) args = ((const FuncExpr *)call)->args;
    return list_length(args) > 1 && IsA(lsecond(args), Const);
}

/* Reads the patterns in argument 1 of a call. Returns false if they are too long, while the planner estimates. */
static bool read_key(FunctionCallInfo fcinfo, uint32 flags, Key *key) {
    key->flags = flags;
    if (!limit_length(PG_GETARG_DATUM(1), flags)) return false;
    if (flags & IS_LIST) {
        ArrayType *array = PG_GETARG_ARRAYTYPE_P(1);
        key->bytes = (const char *)array;
        key->length = VARSIZE(array);
    } else {
        text *pattern = PG_GETARG_TEXT_PP(1);
        key->bytes = VARDATA_ANY(pattern);
        key->length = VARSIZE_ANY_EXHDR(pattern);
    }
    return true;
}

/* Makes the call site remember its patterns. */
static void find_patterns(FunctionCallInfo fcinfo, Site *site, uint32 flags) {
    Key key = site->key;
    bool is_short = key.bytes || read_key(fcinfo, flags, &key);
    if (!is_short) site->kept = NULL;
    else if (!site->kept || !is_of(site->kept, &key)) site->kept = look_up(&key);
    if (site->kept) site->generation = site->kept->generation;
    else site->is_refused = true;
}

Kept *kept_of_call(FunctionCallInfo fcinfo, Site *site, uint32 flags) {
    if (!site->is_begun) {
        site->is_begun = true;
        site->is_constant = site->key.bytes || is_constant(fcinfo->flinfo->fn_expr);
    }
    if (site->is_refused) return NULL;
    if (!(site->is_constant && site->kept && site->kept->generation == site->generation &&
          site->kept->key.flags == flags))
        find_patterns(fcinfo, site, flags);
    /* A search that was cancelled has not been counted yet. */
    if (in_use && in_use->key.bytes) count(in_use);
    in_use = NULL;
    if (site->kept) dlist_move_head(&by_use, &site->kept->by_use);
    return site->kept;
}

lazydfa_cache *kept_backward(Kept *kept) {
    lazydfa_regex reversed = LAZYDFA_INIT;
    lazydfa_usage usage;
    lazydfa_status status = lazydfa_cache_usage(&kept->backward, &usage);
    if (status.code == LAZYDFA_OK) return &kept->backward;
    status = lazydfa_regex_reverse(&kept->regex, &reversed);
    if (status.code == LAZYDFA_OK) status = lazydfa_cache_new(&kept->backward, &reversed);
    lazydfa_regex_close(&reversed);
    if (status.code != LAZYDFA_OK) fail(status);
    return &kept->backward;
}

void kept_begin(Kept *kept) { in_use = kept; }

/* The bytes held are counted only if they may exceed the limit: first those of these patterns, and then those of
   all. */
void kept_count(Kept *kept, size_t searched) {
    size_t limit = (size_t)setting_cache_size * 1024;
    size_t most = Min(searched * (HELD_STATE + kept->size) * (kept->key.flags & ENDS_ONLY ? 1 : 2), limit + 1);
    dlist_iter at;
    in_use = NULL;
    kept->uncounted += most;
    uncounted += most;
    if (memory + uncounted <= limit) return;
    count(kept);
    if (memory + uncounted <= limit) return;
    dlist_foreach(at, &by_use) {
        Kept *other = dlist_container(Kept, by_use, at.cur);
        if (other->uncounted) count(other);
    }
    kept_trim(setting_cached_patterns, limit);
}

KeptStats kept_stats(void) {
    KeptStats stats = {kept_number, 0, 0, 0, 0, 0, compiled};
    dlist_iter at;
    dlist_foreach(at, &by_use) {
        Kept *kept = dlist_container(Kept, by_use, at.cur);
        lazydfa_usage usage = usage_of(kept);
        stats.memory += usage.memory;
        stats.leaps += usage.leaps;
        stats.held += usage.held;
        stats.tables += tables_of(kept);
        stats.clears += usage.forward_clears + usage.reverse_clears;
    }
    return stats;
}
