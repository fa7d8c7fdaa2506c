/* Four threads share one regex, each with its own handle: they share, search, create and close at once, and close what
   the main thread opened. Prints each check that fails, and how many checks there were. It is also meant for helgrind:
   with an argument the main thread holds the regex until all threads have ended. Otherwise any thread may free it,
   which helgrind reports as a race, since it does not know that the atomic count orders what the other threads did
   before that. */
#define _POSIX_C_SOURCE 200809L
#include <pthread.h>
#include <stdio.h>
#include "nfas.h"

enum { THREADS = 4, ROUNDS = 8 };

/* The arguments of a thread: a handle on the shared regex, and a cache that the main thread created. */
struct job {
    pthread_t thread;
    int number, made, failed;
    lazydfa_regex regex;
    lazydfa_cache cache;
};

static const uint8_t text[] = "foo 12 bar 345";
enum { LENGTH = sizeof text - 1 };

static void check(struct job *job, int is_right, int line) {
    job->made++;
    if (is_right) return;
    job->failed++;
    printf("%s:%d: in thread %d\n", __FILE__, line, job->number);
}

#define CHECK(fact) check(job, fact, __LINE__)
#define DONE(call) CHECK((call).code == LAZYDFA_OK)

/* The words of the text are matches of pattern 0, and its numbers of pattern 1. The group of each is its last byte. */
static void search(struct job *job, lazydfa_cache *cache) {
    static const lazydfa_match wanted[4] = { { 0, 3, 0, 0 }, { 4, 6, 1, 0 }, { 7, 10, 0, 0 }, { 11, 14, 1, 0 } };
    lazydfa_iteration at = lazydfa_iterate(lazydfa_whole(LENGTH));
    lazydfa_match found;
    lazydfa_status status;
    lazydfa_span groups[2];
    size_t room;
    int count = 0;
    while ((status = lazydfa_next(cache, text, LENGTH, &at, &found)).code == LAZYDFA_OK && count < 4) {
        CHECK(found.start == wanted[count].start && found.end == wanted[count].end);
        CHECK(found.pattern == wanted[count].pattern);
        DONE(lazydfa_groups(cache, text, LENGTH, &found, groups, 2, &room));
        CHECK(room == 2 && groups[1].start + 1 == found.end && groups[1].end == found.end);
        count++;
    }
    CHECK(status.code == LAZYDFA_NONE && count == 4);
}

/* Shares the regex once more, and closes the handles and a cache in one of all possible orders. */
static void share(struct job *job, int round) {
    lazydfa_regex mine = LAZYDFA_INIT;
    lazydfa_cache cache = LAZYDFA_INIT;
    DONE(lazydfa_regex_share(&job->regex, &mine));
    DONE(lazydfa_cache_new(&cache, round % 2 ? &mine : &job->regex));
    if (round % 3 == 0) DONE(lazydfa_regex_close(&mine));
    search(job, &cache);
    DONE(lazydfa_cache_reset(&cache));
    search(job, &cache);
    if (round % 3 == 1) DONE(lazydfa_regex_close(&mine));
    DONE(lazydfa_cache_close(&cache));
    if (round % 3 == 2) DONE(lazydfa_regex_close(&mine));
}

/* Builds a regex from its own builder, with which nothing is shared. */
static void build(struct job *job) {
    lazydfa_cache cache = LAZYDFA_INIT;
    lazydfa_input in = lazydfa_whole(LENGTH);
    lazydfa_match found;
    DONE(open_cache(&cache, word, NULL, NULL, 0));
    DONE(lazydfa_find(&cache, text, LENGTH, &in, &found));
    CHECK(found.start == 0 && found.end == 3);
    DONE(lazydfa_cache_close(&cache));
}

static void *run(void *at) {
    struct job *job = at;
    int round;
    for (round = 0; round < ROUNDS; round++) {
        share(job, round + job->number);
        search(job, &job->cache);
        build(job);
    }
    /* half of the caches are closed by the threads that used them, the others by the main thread */
    if (job->number % 2) DONE(lazydfa_cache_close(&job->cache));
    DONE(lazydfa_regex_close(&job->regex));
    return NULL;
}

static int open_all(lazydfa_regex *regex, struct job *jobs) {
    static const lazydfa_text texts[2] = { { "([a-z])+", 8 }, { "([0-9])+", 8 } };
    static const struct job none = { 0, 0, 0, 0, LAZYDFA_INIT, LAZYDFA_INIT };
    lazydfa_options options = LAZYDFA_OPTIONS_INIT;
    int i;
    options.groups = 1;
    if (lazydfa_regex_any_of(regex, texts, 2, &options, NULL).code != LAZYDFA_OK) return 0;
    for (i = 0; i < THREADS; i++) {
        jobs[i] = none;
        jobs[i].number = i;
        if (lazydfa_regex_share(regex, &jobs[i].regex).code != LAZYDFA_OK) return 0;
        if (lazydfa_cache_new(&jobs[i].cache, regex).code != LAZYDFA_OK) return 0;
    }
    return 1;
}

int main(int argc, char **argv) {
    lazydfa_regex regex = LAZYDFA_INIT, held = LAZYDFA_INIT;
    struct job jobs[THREADS], *job = jobs;
    int i, made = 0, failed = 0;
    (void)argv;
    if (!open_all(&regex, jobs)) return 2;
    if (argc > 1 && lazydfa_regex_share(&regex, &held).code != LAZYDFA_OK) return 2;
    for (i = 0; i < THREADS; i++)
        if (pthread_create(&jobs[i].thread, NULL, run, &jobs[i])) return 2;
    /* while the threads run */
    if (lazydfa_regex_close(&regex).code != LAZYDFA_OK) failed++;
    for (i = 0; i < THREADS; i++, job++) {
        if (pthread_join(job->thread, NULL)) return 2;
        if (i % 2 == 0) DONE(lazydfa_cache_close(&job->cache));
        CHECK(lazydfa_cache_close(&job->cache).code == LAZYDFA_CLOSED);
        made += job->made;
        failed += job->failed;
    }
    if (argc > 1 && lazydfa_regex_close(&held).code != LAZYDFA_OK) failed++;
    printf("%d checks, %d failed\n", made, failed);
    return failed != 0;
}
