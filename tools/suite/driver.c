/* Runs a work of the suite by the engine that it is linked with:

       ENGINE WORK [SECONDS]

   It prints the work, the engine, what is done, how many matches there are, their bytes, the median time of a run in
   nanoseconds of processor time, and the bytes of the text. With COUNTED=warm or COUNTED=cold it calls `counted` for a
   run after the first one, or for the first one, so that callgrind can count it. */
#define _POSIX_C_SOURCE 200809L
#include "engine.h"
#include <stdio.h>
#include <stdlib.h>
#include <string.h>
#include <time.h>

enum { MOST_RUNS = 4000 };

static struct work work;
static char done[16];
static uint8_t *text;
static size_t length;
static struct total answer;
static int failed;

static double now(void) {
    struct timespec t;
    clock_gettime(CLOCK_PROCESS_CPUTIME_ID, &t);
    return (double)t.tv_sec * 1e9 + (double)t.tv_nsec;
}

/* Returns the contents of a file, with a zero byte after them. */
static uint8_t *contents(const char *path, size_t *size) {
    FILE *file = fopen(path, "rb");
    uint8_t *it;
    if (!file) {
        fprintf(stderr, "there is no %s\n", path);
        exit(2);
    }
    fseek(file, 0, SEEK_END);
    *size = (size_t)ftell(file);
    rewind(file);
    it = malloc(*size + 1);
    *size = fread(it, 1, *size, file);
    it[*size] = 0;
    fclose(file);
    return it;
}

/* Reads a work, or what this engine takes in its place, and its text. */
static void read_work(const char *path) {
    char own[4096], name[256], flags[16];
    const char *slash = strrchr(path, '/');
    size_t size;
    snprintf(own, sizeof own, "%s@%s", path, engine_name);
    FILE *its = fopen(own, "rb");
    if (its) fclose(its);
    char *file = (char *)contents(its ? own : path, &size), *end = file + size;
    if (!slash || sscanf(file, "%15s %15s %255s", done, flags, name) != 3) exit(2);
    const char **texts = malloc(sizeof *texts * (size + 1));
    size_t *lengths = malloc(sizeof *lengths * (size + 1));
    for (char *at = strchr(file, '\n') + 1, *stop; at < end; at = stop + 1) {
        stop = strchr(at, '\n');
        *stop = 0;
        texts[work.patterns] = at;
        lengths[work.patterns++] = (size_t)(stop - at);
    }
    work.text = texts;
    work.length = lengths;
    work.unicode = strchr(flags, 'u') != NULL;
    work.set = strchr(flags, 's') != NULL;
    work.groups = strncmp(done, "groups", 6) == 0;
    snprintf(own, sizeof own, "%.*s/../texts/%s", (int)(slash - path), path, name);
    text = contents(own, &length);
}

static int is_new_each_time(void) {
    return !strcmp(done, "compile") || !strcmp(done, "first");
}

/* Asks for which patterns match in each line, whether there is a match, or for the groups of matches. */
static struct total by_lines(void *engine) {
    struct total total = {0, 0};
    const uint8_t *end = text + length, *stop;
    for (const uint8_t *at = text; at < end; at = stop + 1) {
        stop = memchr(at, '\n', (size_t)(end - at));
        if (!stop) stop = end;
        if (work.groups) {
            failed |= engine_groups(engine, at, (size_t)(stop - at), &total) != 0;
        } else if (work.set) {
            failed |= engine_which(engine, at, (size_t)(stop - at), &total) != 0;
        } else {
            int is = engine_is_match(engine, at, (size_t)(stop - at));
            failed |= is < 0;
            total.count += is > 0;
        }
    }
    return total;
}

static __attribute__((noinline)) void run(void *engine) {
    struct total total = {0, 0};
    if (is_new_each_time()) {
        void *fresh = engine_new(&work);
        if (!fresh) {
            failed = 1;
            return;
        }
        if (!strcmp(done, "first"))
            failed |= engine_all(fresh, text, length, &total) != 0;
        else
            total.count = 1;
        engine_free(fresh);
    } else if (!strcmp(done, "count")) {
        failed |= engine_all(engine, text, length, &total) != 0;
    } else if (!strcmp(done, "groups")) {
        failed |= engine_groups(engine, text, length, &total) != 0;
    } else {
        total = by_lines(engine);
    }
    answer = total;
}

/* Its instructions are what callgrind counts. */
__attribute__((noinline)) void counted(void *engine) {
    run(engine);
    __asm__ volatile("");
}

static int compare(const void *a, const void *b) {
    double x = *(const double *)a, y = *(const double *)b;
    return (x > y) - (x < y);
}

/* Returns the median time of runs, of which there are at least five, unless they take seconds. */
static double median(void *engine, double seconds) {
    static double times[MOST_RUNS];
    size_t runs = 0;
    double begun = now();
    do {
        double from = now();
        run(engine);
        times[runs++] = now() - from;
    } while (runs < MOST_RUNS && (runs < 5 ? now() - begun < 4e9 : now() - begun < seconds * 1e9));
    qsort(times, runs, sizeof *times, compare);
    return times[runs / 2];
}

int main(int argc, char **argv) {
    const char *counting = getenv("COUNTED");
    double seconds = argc > 2 ? atof(argv[2]) : 0.3, time = 0;
    if (argc < 2) return 2;
    read_work(argv[1]);
    const char *name = strrchr(argv[1], '/') + 1;
    void *engine = is_new_each_time() ? NULL : engine_new(&work);
    if (!engine && !is_new_each_time()) {
        printf("%s %s %s refused\n", name, engine_name, done);
        return 0;
    }
    if (counting && !strcmp(counting, "cold"))
        counted(engine);
    else
        run(engine);
    if (failed) {
        printf("%s %s %s refused\n", name, engine_name, done);
        return 0;
    }
    if (counting && strcmp(counting, "cold")) counted(engine);
    if (!counting) time = median(engine, seconds);
    printf("%s %s %s %lu %lu %.0f %zu\n", name, engine_name, done, (unsigned long)answer.count,
           (unsigned long)answer.sum, time, length);
    return 0;
}
