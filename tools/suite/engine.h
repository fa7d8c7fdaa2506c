/* What an engine of the suite gives to its driver. */
#ifndef ENGINE_H
#define ENGINE_H
#include <stddef.h>
#include <stdint.h>
#ifdef __cplusplus
extern "C" {
#endif

struct work {
    size_t patterns; /* how many */
    const char *const *text;
    const size_t *length;
    int unicode; /* otherwise bytes, and ASCII classes */
    int set;     /* which patterns match, not where */
    int groups;  /* the groups of each match are asked for */
};

/* Matches, or pairs of a line and a pattern, or groups that took part in matches, group 0 included; and the bytes in
   matches or groups, or the numbers of these patterns. */
struct total {
    uint64_t count, sum;
};

extern const char *const engine_name;

/* Returns NULL if the engine refuses the patterns. */
void *engine_new(const struct work *work);
void engine_free(void *engine);
/* Adds all matches, each leftmost and first by preference. It returns 0 unless it failed. */
int engine_all(void *engine, const uint8_t *text, size_t length, struct total *total);
/* Adds the groups of all matches. It returns 0 unless it failed. */
int engine_groups(void *engine, const uint8_t *text, size_t length, struct total *total);
/* Returns whether there is a match, and a negative number if it failed. */
int engine_is_match(void *engine, const uint8_t *text, size_t length);
/* Adds the patterns that match. It returns 0 unless it failed. */
int engine_which(void *engine, const uint8_t *text, size_t length, struct total *total);

#ifdef __cplusplus
}
#endif
#endif
