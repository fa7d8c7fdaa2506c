/* Counts checks, and those that fail, which it prints. */
#ifndef CHECK_H
#define CHECK_H

#include <stdio.h>
#include "lazydfa_automata.h"

static int failed, made;

#define CHECK(fact)                                                  \
    do {                                                             \
        made++;                                                      \
        if (!(fact)) {                                               \
            failed++;                                                \
            printf("%s:%d: %s\n", __FILE__, __LINE__, #fact);        \
        }                                                            \
    } while (0)

/* Checks that a call returns this code. */
#define CODE(call, wanted)                                                                         \
    do {                                                                                           \
        lazydfa_status status_ = (call);                                                           \
        made++;                                                                                    \
        if (status_.code != (wanted)) {                                                            \
            failed++;                                                                              \
            printf("%s:%d: %s: %s, at %lu, and not %s\n", __FILE__, __LINE__, #call,               \
                   lazydfa_code_text(status_.code), (unsigned long)status_.offset, #wanted);       \
        }                                                                                          \
    } while (0)

static inline const uint8_t *bytes(const char *text) { return (const uint8_t *)text; }

/* Prints the counts, and returns the status of the program. */
static inline int counted(void) {
    printf("%d checks, %d failed\n", made, failed);
    return failed != 0;
}

#endif
