/* The NFAs that scripts of the program `lazydfa` name, state by state, in both directions. */
#ifndef CATALOGUE_H
#define CATALOGUE_H

#include "lazydfa_automata.h"

/* A state: its kind, up to two bytes or an assertion, and up to two next states. For ACCEPT, next is the pattern. */
enum kind { RANGE, WORD, EITHER, ASSERT, ACCEPT, FAIL };

struct state {
    enum kind kind;
    uint8_t lo, hi; /* for ASSERT, lo is the assertion */
    uint8_t next, other;
};

#define B(byte, next) { RANGE, byte, byte, next, 0 }
#define R(lo, hi, next) { RANGE, lo, hi, next, 0 }
#define W(next) { WORD, 0, 0, next, 0 }
#define E(first, second) { EITHER, 0, 0, first, second }
#define L(look, next) { ASSERT, look, 0, next, 0 }
#define M(pattern) { ACCEPT, 0, 0, pattern, 0 }
#define PREFIX(start, at) E(start, (at) + 1), R(0x00, 0xFF, at)
#define D(next) R('0', '9', next)

static const struct state ab[] = { B('a', 1), B('b', 2), M(0) };
static const struct state ba[] = { B('b', 1), B('a', 2), M(0) };
static const struct state always[] = { M(0) };
static const struct state never[] = { { FAIL, 0, 0, 0, 0 } };
static const struct state date_forward[] = { D(1), D(2), D(3), D(4), B('-', 5), D(6), D(7), B('-', 8), D(9), D(10),
                                             M(0), PREFIX(0, 11) };
static const struct state date_backward[] = { D(1), D(2), B('-', 3), D(4), D(5), B('-', 6), D(7), D(8), D(9), D(10),
                                              M(0), PREFIX(0, 11) };
static const struct state words[] = { E(1, 3), W(2), E(1, 5), R('!', '~', 4), E(3, 6), M(0), M(1), PREFIX(0, 7) };
static const struct state abc[] = { E(1, 5), E(2, 4), B('a', 3), B('b', 0), B('c', 0), B('c', 6), M(0), PREFIX(0, 7) };
static const struct state cba[] = { B('c', 1), E(2, 6), E(3, 5), B('b', 4), B('a', 1), B('c', 1), M(0), PREFIX(0, 7) };
static const struct state aa[] = { E(1, 2), B('a', 3), B('a', 4), M(0), M(1), PREFIX(0, 5) };
static const struct state bnum[] = { L(LAZYDFA_LOOK_WORD_UNICODE, 1), D(2), E(1, 3), L(LAZYDFA_LOOK_WORD_UNICODE, 4),
                                     M(0), PREFIX(0, 5) };
static const struct state wordend[] = { W(1), E(0, 2), L(LAZYDFA_LOOK_END, 3), M(0), PREFIX(0, 4) };
static const struct state wordend_backward[] = { L(LAZYDFA_LOOK_START, 1), W(2), E(1, 3), M(0), PREFIX(0, 4) };
static const struct state empty[] = { M(0), PREFIX(0, 1) };
static const struct state snow[] = { E(1, 6), B('a', 2), B(0xE2, 3), B(0x98, 4), B(0x83, 5), B('x', 7),
                                     L(LAZYDFA_LOOK_WORD_ASCII_NEGATE, 7), M(0), PREFIX(0, 8) };
static const struct state snow_backward[] = { E(1, 6), B('x', 2), B(0x83, 3), B(0x98, 4), B(0xE2, 5), B('a', 7),
                                              L(LAZYDFA_LOOK_WORD_ASCII_NEGATE, 7), M(0), PREFIX(0, 8) };
static const struct state snowx[] = { E(1, 8), E(2, 7), B('a', 3), B(0xE2, 4), B(0x98, 5), B(0x83, 6), B('x', 9),
                                      L(LAZYDFA_LOOK_WORD_ASCII_NEGATE, 9), B('x', 10), M(0), M(1), PREFIX(0, 11) };
static const struct state snowx_backward[] = { E(1, 8), E(2, 7), B('x', 3), B(0x83, 4), B(0x98, 5), B(0xE2, 6),
                                               B('a', 9), L(LAZYDFA_LOOK_WORD_ASCII_NEGATE, 9), B('x', 10), M(0), M(1),
                                               PREFIX(0, 11) };
static const struct state bound[] = { L(LAZYDFA_LOOK_WORD_UNICODE, 1), M(0), PREFIX(0, 2) };
static const struct state crlf[] = { L(LAZYDFA_LOOK_END_CRLF, 1), M(0), PREFIX(0, 2) };
static const struct state crlf_backward[] = { L(LAZYDFA_LOOK_START_CRLF, 1), M(0), PREFIX(0, 2) };
static const struct state any[] = { E(1, 2), M(0), R(0x00, 0xFF, 0) };
static const struct state runs[] = { E(1, 3), R('a', 'z', 2), E(1, 5), D(4), E(3, 6), M(0), M(1), PREFIX(0, 7) };
static const struct state a16[] = { B('a', 1), B('a', 2), B('a', 3), B('a', 4), B('a', 5), B('a', 6), B('a', 7), B('a', 8),
                                    B('a', 9), B('a', 10), B('a', 11), B('a', 12), B('a', 13), B('a', 14), B('a', 15),
                                    B('a', 16), M(0) };
/* NFAs in which a cycle of edges that read nothing passes an assertion. */
static const struct state percents[] = { E(1, 2), L(LAZYDFA_LOOK_WORD_ASCII, 3), B('%', 3), E(0, 4), M(0), PREFIX(0, 5) };
static const struct state starts[] = { E(1, 2), L(LAZYDFA_LOOK_START, 3), B('a', 3), E(0, 4), M(0), PREFIX(0, 5) };
static const struct state starts_backward[] = { E(1, 2), L(LAZYDFA_LOOK_END, 3), B('a', 3), E(0, 4), M(0), PREFIX(0, 5) };
static const struct state bounds[] = { E(1, 4), E(2, 3), L(LAZYDFA_LOOK_WORD_ASCII, 0), B('a', 0), M(0), PREFIX(0, 5) };
static const struct state knot[] = { E(2, 1), R('a', 'z', 6), L(LAZYDFA_LOOK_WORD_ASCII, 3), E(0, 4), B('x', 5), M(0), M(1),
                                     PREFIX(0, 7) };
static const struct state knot_backward[] = { E(4, 1), R('a', 'z', 6), L(LAZYDFA_LOOK_WORD_ASCII, 3), E(2, 5), B('x', 2),
                                              M(0), M(1), PREFIX(0, 7) };

/* An entry: its states in both directions, the unanchored start, the number of patterns, and where their searches
   start. The anchored start is state 0. */
struct entry {
    const char *name;
    const struct state *forward, *backward;
    uint8_t length, unanchored, patterns, starts[2];
    uint8_t utf8;
};

#define ENTRY(name, forward, backward, unanchored, patterns, start, other, utf8)                              \
    { name, forward, backward, sizeof(forward) / sizeof *(forward), unanchored, patterns, { start, other }, utf8 }

static const struct entry catalogue[] = {
    ENTRY("ab", ab, ba, 0, 1, 0, 0, 0),
    ENTRY("always", always, always, 0, 1, 0, 0, 0),
    ENTRY("never", never, never, 0, 0, 0, 0, 0),
    ENTRY("date", date_forward, date_backward, 11, 1, 0, 0, 0),
    ENTRY("words", words, words, 7, 2, 1, 3, 0),
    ENTRY("abc", abc, cba, 7, 1, 0, 0, 0),
    ENTRY("aa", aa, aa, 5, 2, 1, 2, 0),
    ENTRY("bnum", bnum, bnum, 5, 1, 0, 0, 0),
    ENTRY("wordend", wordend, wordend_backward, 4, 1, 0, 0, 0),
    ENTRY("empty", empty, empty, 1, 1, 0, 0, 1),
    ENTRY("snow", snow, snow_backward, 8, 1, 0, 0, 1),
    ENTRY("snowx", snowx, snowx_backward, 11, 2, 1, 8, 1),
    ENTRY("bound", bound, bound, 2, 1, 0, 0, 0),
    ENTRY("crlf", crlf, crlf_backward, 2, 1, 0, 0, 0),
    ENTRY("any", any, any, 0, 1, 0, 0, 1),
    ENTRY("runs", runs, runs, 7, 2, 1, 3, 0),
    ENTRY("a16", a16, a16, 0, 1, 0, 0, 0),
    ENTRY("percents", percents, percents, 5, 1, 0, 0, 0),
    ENTRY("starts", starts, starts_backward, 5, 1, 0, 0, 0),
    ENTRY("bounds", bounds, bounds, 5, 1, 0, 0, 0),
    ENTRY("knot", knot, knot_backward, 7, 2, 4, 1, 0),
};

#undef B
#undef R
#undef W
#undef E
#undef L
#undef M
#undef PREFIX
#undef D
#undef ENTRY

#endif
