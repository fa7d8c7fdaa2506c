/* Reads a script of the program `lazydfa` from standard input, runs it with the C library, and prints the same replies.
   A walk is run completely at its first step, and again at a step after an error; its matches are then reported one by
   one. The exit status is 2 if a line is not valid. */
#include <stdio.h>
#include <stdlib.h>
#include <string.h>
#include "catalogue.h"

#define TRY(call)                                        \
    do {                                                 \
        lazydfa_status status_ = (call);                 \
        if (status_.code != LAZYDFA_OK) return status_;  \
    } while (0)

enum { MOST = 4096, ROOM = 4096, STATES = 256 };

static lazydfa_cache caches[MOST];
static size_t regexes, current;

/* The words that define the script's NFAs. */
static const char *nfas[MOST];
static size_t nfa_count;

/* A walk, the matches found so far, how many of them were reported, and the status after the last one. */
static struct walk {
    size_t regex, length, known, reported;
    int backward, is_whole;
    uint8_t *haystack;
    lazydfa_input input;
    lazydfa_half *halves;
} walks[MOST];
static size_t walk_count;

static size_t line_number;

static void bad_line(void) {
    fprintf(stderr, "line %lu: bad line\n", (unsigned long)line_number);
    exit(2);
}

static void *room_for(size_t count, size_t size) {
    void *at = calloc(count ? count : 1, size);
    if (!at) {
        fputs("out of memory\n", stderr);
        exit(1);
    }
    return at;
}

/* ---- Words ---- */

/* Returns the next word of a line, which it terminates with a zero; NULL after the last one. */
static char *next_word(char **line) {
    char *word = *line, *end;
    if (!word) return NULL;
    end = strchr(word, ' ');
    if (end) *end = '\0';
    *line = end ? end + 1 : NULL;
    if (!*word) bad_line();
    return word;
}

static size_t number(const char *digits) {
    size_t value = 0;
    if (!*digits) bad_line();
    for (; *digits; digits++) {
        size_t digit = (size_t)(*digits - '0');
        if (digit > 9 || value > (SIZE_MAX - digit) / 10) bad_line();
        value = 10 * value + digit;
    }
    return value;
}

static lazydfa_state_id state_of(const char *digits) { return lazydfa_state((uint32_t)number(digits)); }

static unsigned digit(char c) {
    if (c >= '0' && c <= '9') return (unsigned)(c - '0');
    if (c >= 'a' && c <= 'f') return (unsigned)(c - 'a') + 10;
    if (c >= 'A' && c <= 'F') return (unsigned)(c - 'A') + 10;
    bad_line();
    return 0;
}

static uint8_t byte(const char *pair) { return (uint8_t)(16 * digit(pair[0]) + digit(pair[1])); }

/* Returns what follows `name` in an option, or NULL. */
static const char *after(const char *option, const char *name) {
    size_t length = strlen(name);
    return strncmp(option, name, length) ? NULL : option + length;
}

/* ---- NFAs that the script defines ---- */

/* The words of an NFA, its starts, and the number of patterns started. */
struct outline {
    char *text, *words[STATES];
    size_t word_count;
    uint32_t patterns[STATES], pattern_count, begun;
    lazydfa_starts starts;
};

/* Reads the numbers of a list, and returns how many there are. */
static uint32_t numbers(char *list, uint32_t *found) {
    uint32_t count = 0;
    char *part = *list ? strtok(list, ",") : NULL;
    for (; part; part = strtok(NULL, ",")) {
        if (count == STATES) bad_line();
        found[count++] = (uint32_t)number(part);
    }
    return count;
}

/* Reads ranges and the states that they lead to, and returns how many there are. Ranges of a dense state that lead to
   state 0 are not transitions. */
static size_t edges_of(char *list, lazydfa_edge *found, int is_dense) {
    size_t count = 0;
    char *part = *list ? strtok(list, ",") : NULL;
    for (; part; part = strtok(NULL, ",")) {
        char *colon = strchr(part, ':');
        if (!colon || count == STATES) bad_line();
        memset(&found[count], 0, sizeof *found);
        found[count].lo = byte(part);
        found[count].hi = byte(part[2] == '-' ? part + 3 : part);
        found[count].next = state_of(colon + 1);
        count += !is_dense || found[count].next.number;
    }
    return count;
}

static uint32_t look_of(const char *name) {
    static const char *const looks[] = {
        "Start", "End", "StartLF", "EndLF", "StartCRLF", "EndCRLF", "WordAscii", "WordAsciiNegate", "WordUnicode",
        "WordUnicodeNegate", "WordStartAscii", "WordEndAscii", "WordStartUnicode", "WordEndUnicode",
        "WordStartHalfAscii", "WordEndHalfAscii", "WordStartHalfUnicode", "WordEndHalfUnicode" };
    uint32_t i;
    for (i = 0; i < sizeof looks / sizeof *looks; i++)
        if (!strcmp(looks[i], name)) return i;
    bad_line();
    return 0;
}

/* Starts the patterns below this number, each after the previous one is finished. */
static lazydfa_status begin_patterns(lazydfa_builder *b, struct outline *o, uint32_t count) {
    lazydfa_status ok = { LAZYDFA_OK, 0, 0 };
    uint32_t pattern;
    for (; o->begun < count; o->begun++) {
        if (o->begun) TRY(lazydfa_finish_pattern(b, lazydfa_state(o->patterns[o->begun - 1]), &pattern));
        TRY(lazydfa_start_pattern(b, &pattern));
    }
    return ok;
}

/* Adds a union; a union with one alternate is an empty state that is patched. */
static lazydfa_status add_union(lazydfa_builder *b, char *list) {
    uint32_t found[STATES], count = numbers(list, found), i;
    lazydfa_state_id alternates[STATES], id;
    for (i = 0; i < count; i++) alternates[i] = lazydfa_state(found[i]);
    if (count != 1) return lazydfa_add_union(b, alternates, count, &id);
    TRY(lazydfa_add_empty(b, &id));
    return lazydfa_patch(b, id, alternates[0]);
}

static lazydfa_status add_look(lazydfa_builder *b, char *rest) {
    char *colon = strchr(rest, ':');
    lazydfa_state_id id;
    if (!colon) bad_line();
    *colon = '\0';
    return lazydfa_add_look(b, look_of(rest), state_of(colon + 1), &id);
}

/* Adds the state that a word describes. */
static lazydfa_status add_word(lazydfa_builder *b, struct outline *o, char *word) {
    lazydfa_edge found[STATES];
    lazydfa_state_id id;
    uint32_t pattern;
    char *rest = word + 1;
    switch (*word) {
    case 'B':
        if (edges_of(rest, found, 0) != 1) bad_line();
        return lazydfa_add_range(b, found[0].lo, found[0].hi, found[0].next, &id);
    case 'S':
    case 'D': {
        size_t count = edges_of(rest, found, *word == 'D');
        return lazydfa_add_sparse(b, found, count, &id);
    }
    case 'E':
    case 'U': return add_union(b, rest);
    case 'L': return add_look(b, rest);
    case 'C': /* A group belongs to a pattern. Without one the state is a union of its target. */
        if (!o->pattern_count) return add_union(b, rest);
        if (!o->begun) TRY(begin_patterns(b, o, 1));
        return lazydfa_add_capture_start(b, 0, state_of(rest), &id);
    case 'F': return lazydfa_add_fail(b, &id);
    case 'M':
        pattern = (uint32_t)number(rest);
        TRY(begin_patterns(b, o, pattern + 1));
        return lazydfa_add_match(b, &id);
    default: bad_line();
    }
    return (lazydfa_status){ LAZYDFA_ARGUMENT, 0, 0 };
}

/* Returns the start before which bytes are skipped lazily, if the two words from a state on do that; otherwise NULL. */
static const char *skipped_before(const struct outline *o, size_t at, size_t state) {
    char either[64], any[64], *comma;
    if (at + 1 >= o->word_count) return NULL;
    comma = strchr(o->words[at], ',');
    sprintf(either, ",%lu", (unsigned long)state + 1);
    sprintf(any, "B00-ff:%lu", (unsigned long)state);
    if (*o->words[at] != 'E' || !comma || strcmp(comma, either) || strcmp(o->words[at + 1], any)) return NULL;
    *comma = '\0';
    return o->words[at] + 1;
}

static lazydfa_status add_words(lazydfa_builder *b, struct outline *o) {
    lazydfa_status ok = { LAZYDFA_OK, 0, 0 };
    size_t at, state = 0;
    lazydfa_state_id id;
    uint32_t pattern;
    for (at = 1; at < o->word_count; at++) {
        const char *start = skipped_before(o, at, state), *line = after(o->words[at], "line=");
        if (!strcmp(o->words[at], "utf8")) TRY(lazydfa_set_utf8(b, 1));
        else if (!strcmp(o->words[at], "rev")) TRY(lazydfa_set_reverse(b, 1));
        else if (line) TRY(lazydfa_set_line_terminator(b, byte(line)));
        else if (start) {
            TRY(lazydfa_add_unanchored_prefix(b, state_of(start), &id));
            at++;
            state += 2;
        } else {
            TRY(add_word(b, o, o->words[at]));
            state++;
        }
    }
    TRY(begin_patterns(b, o, o->pattern_count));
    if (o->begun) TRY(lazydfa_finish_pattern(b, lazydfa_state(o->patterns[o->begun - 1]), &pattern));
    return ok;
}

/* Adds the states of an NFA to a new builder, and returns its start states. */
static lazydfa_status add_nfa(lazydfa_builder *b, size_t at, lazydfa_starts *starts) {
    struct outline o;
    lazydfa_status status = { LAZYDFA_OK, 0, 0 };
    char *line, *slash, *comma;
    memset(&o, 0, sizeof o);
    o.text = line = room_for(strlen(nfas[at]) + 1, 1);
    strcpy(o.text, nfas[at]);
    while (o.word_count < STATES && (o.words[o.word_count] = next_word(&line))) o.word_count++;
    slash = o.word_count ? strchr(o.words[0], '/') : NULL;
    if (line || !slash) bad_line();
    *slash = '\0';
    comma = strchr(slash + 1, ',');
    if (comma) *comma = '\0';
    starts->anchored = state_of(o.words[0]);
    starts->unanchored = state_of(slash + 1);
    o.pattern_count = comma ? numbers(comma + 1, o.patterns) : 0;
    status = add_words(b, &o);
    free(o.text);
    return status;
}

static void define_nfa(const char *line) {
    if (!line || nfa_count == MOST) bad_line();
    nfas[nfa_count] = line;
    printf("nfa %lu\n", (unsigned long)nfa_count++);
}

/* ---- Regexes ---- */

/* What a regex is built from: an entry, or one or two NFAs by their numbers; and its settings. */
struct definition {
    const struct entry *entry;
    size_t forward, backward;
    int is_made;
    lazydfa_options settings;
    uint8_t quits[256];
};

static void set_option(struct definition *d, const char *option) {
    const char *value;
    if (!strcmp(option, "all")) d->settings.match_kind = LAZYDFA_ALL;
    else if (!strcmp(option, "starts")) d->settings.starts_for_each_pattern = 1;
    else if (!strcmp(option, "noclasses")) d->settings.no_byte_classes = 1;
    else if (!strcmp(option, "unicode")) d->settings.unicode_word_boundary = 1;
    else if (!strcmp(option, "tags")) d->settings.specialize_start_states = 1;
    else if (!strcmp(option, "skip")) d->settings.skip_cache_capacity_check = 1;
    else if ((value = after(option, "quit=")) && d->settings.quit_count < 256)
        d->quits[d->settings.quit_count++] = byte(value);
    else if ((value = after(option, "capacity="))) {
        d->settings.zeros |= LAZYDFA_ZERO_CACHE_CAPACITY;
        d->settings.cache_capacity = number(value);
    } else if ((value = after(option, "limit="))) {
        d->settings.zeros |= LAZYDFA_ZERO_CLEAR_COUNT;
        d->settings.minimum_cache_clear_count = number(value);
    } else if ((value = after(option, "perstate="))) {
        d->settings.zeros |= LAZYDFA_ZERO_BYTES_PER_STATE;
        d->settings.minimum_bytes_per_state = number(value);
    } else bad_line();
}

static lazydfa_status add_state(lazydfa_builder *b, const struct state *state) {
    lazydfa_state_id next = lazydfa_state(state->next), both[2], id;
    lazydfa_edge edges[4] = {
        { '0', '9', 0, { 0 } }, { 'A', 'Z', 0, { 0 } }, { '_', '_', 0, { 0 } }, { 'a', 'z', 0, { 0 } } };
    int i;
    switch (state->kind) {
    case RANGE: return lazydfa_add_range(b, state->lo, state->hi, next, &id);
    case WORD:
        for (i = 0; i < 4; i++) edges[i].next = next;
        return lazydfa_add_sparse(b, edges, 4, &id);
    case EITHER:
        both[0] = next;
        both[1] = lazydfa_state(state->other);
        return lazydfa_add_union(b, both, 2, &id);
    case ASSERT: return lazydfa_add_look(b, state->lo, next, &id);
    case ACCEPT: return lazydfa_add_match(b, &id);
    default: return lazydfa_add_fail(b, &id);
    }
}

/* Adds the states in order. The match state of a pattern is its last state, and prefixes come after all patterns. */
static lazydfa_status add_states(lazydfa_builder *b, const struct entry *entry, const struct state *states) {
    lazydfa_status ok = { LAZYDFA_OK, 0, 0 };
    uint32_t pattern = 0;
    uint8_t i;
    if (entry->patterns) TRY(lazydfa_start_pattern(b, &pattern));
    for (i = 0; i < entry->length; i++) {
        TRY(add_state(b, &states[i]));
        if (states[i].kind != ACCEPT) continue;
        TRY(lazydfa_finish_pattern(b, lazydfa_state(entry->starts[states[i].next]), &pattern));
        if (states[i].next + 1 < entry->patterns) TRY(lazydfa_start_pattern(b, &pattern));
    }
    return ok;
}

/* Adds the states of one direction to a new builder, and returns its start states. */
static lazydfa_status fill(lazydfa_builder *b, const struct definition *d, int is_backward, lazydfa_starts *starts) {
    TRY(lazydfa_builder_new(b));
    if (!d->entry) return add_nfa(b, is_backward ? d->backward : d->forward, starts);
    starts->unanchored = lazydfa_state(d->entry->unanchored);
    TRY(lazydfa_set_utf8(b, d->entry->utf8));
    TRY(lazydfa_set_reverse(b, (uint32_t)is_backward));
    return add_states(b, d->entry, is_backward ? d->entry->backward : d->entry->forward);
}

static lazydfa_status build(const struct definition *d, lazydfa_cache *cache) {
    lazydfa_builder forward = LAZYDFA_INIT, backward = LAZYDFA_INIT;
    lazydfa_regex regex = LAZYDFA_INIT;
    lazydfa_starts starts = { { 0 }, { 0 } }, back_starts = { { 0 }, { 0 } };
    lazydfa_status status = fill(&forward, d, 0, &starts);
    if (status.code == LAZYDFA_OK && !d->is_made) status = fill(&backward, d, 1, &back_starts);
    if (status.code == LAZYDFA_OK)
        status = d->is_made ? lazydfa_regex_build(&regex, &forward, starts, &d->settings)
                            : lazydfa_regex_build_pair(&regex, &forward, starts, &backward, back_starts,
                                                       &d->settings);
    if (status.code == LAZYDFA_OK) status = lazydfa_cache_new(cache, &regex);
    lazydfa_regex_close(&regex);
    lazydfa_builder_close(&backward);
    lazydfa_builder_close(&forward);
    return status;
}

static void refuse(const struct definition *d, lazydfa_status status) {
    fputs("refused ", stdout);
    switch (status.code) {
    case LAZYDFA_UNSUPPORTED:
        puts("unsupported regex feature for DFAs: cannot build lazy DFAs for regexes with Unicode word boundaries; "
             "switch to ASCII word boundaries, or heuristically enable Unicode word boundaries or use a different "
             "regex engine");
        break;
    case LAZYDFA_CAPACITY:
        printf("given cache capacity (%lu) is smaller than minimum required (%lu)\n",
               (unsigned long)d->settings.cache_capacity, (unsigned long)status.offset);
        break;
    case LAZYDFA_NOT_LAZY:
        puts("the unanchored start does not skip lazily, so an unanchored match may have no start");
        break;
    case LAZYDFA_NOT_UTF8: puts("a match may be invalid UTF-8, so in UTF-8 mode it might split a character"); break;
    case LAZYDFA_STARTS:
        puts("only some of the starts match the empty string, so a reversed NFA would match differently");
        break;
    default: puts(lazydfa_code_text(status.code));
    }
}

/* Reads what a regex is built from, and leaves the options. */
static void set_source(struct definition *d, char **line) {
    const char *name = next_word(line), *rest = *line;
    size_t i;
    if (!name) bad_line();
    for (i = 0; i < sizeof catalogue / sizeof *catalogue; i++)
        if (!strcmp(catalogue[i].name, name)) d->entry = &catalogue[i];
    d->is_made = rest && !strncmp(rest, "made", 4) && (!rest[4] || rest[4] == ' ');
    if (!d->entry) d->forward = number(name);
    if (d->is_made || !d->entry) name = next_word(line);
    if (!name) bad_line();
    if (!d->is_made && !d->entry) d->backward = number(name);
}

static void define(char *line) {
    const char *option;
    struct definition d;
    lazydfa_status status;
    memset(&d, 0, sizeof d);
    d.settings.struct_size = sizeof d.settings;
    d.settings.always_anchored = 1;
    d.settings.quits = d.quits;
    set_source(&d, &line);
    if (regexes == MOST) bad_line();
    while ((option = next_word(&line))) set_option(&d, option);
    if (!d.entry && (d.forward >= nfa_count || (!d.is_made && d.backward >= nfa_count))) {
        puts("bad nfa");
        return;
    }
    status = build(&d, &caches[regexes]);
    if (status.code != LAZYDFA_OK) refuse(&d, status);
    else printf("regex %lu\n", (unsigned long)regexes++);
}

/* ---- Requests ---- */

struct query {
    uint8_t *haystack;
    size_t length;
    lazydfa_input input;
};

static void set_how(struct query *q, char *how) {
    const char *value;
    if (!strcmp(how, "anchored")) q->input.anchored = LAZYDFA_ANCHORED_YES;
    else if (!strcmp(how, "earliest")) q->input.earliest = 1;
    else if ((value = after(how, "pattern="))) {
        q->input.anchored = LAZYDFA_ANCHORED_PATTERN;
        q->input.pattern = (uint32_t)number(value);
    } else if (after(how, "span=")) {
        char *end = strstr(how, "..");
        if (!end) bad_line();
        *end = '\0';
        q->input.start = number(how + 5);
        q->input.end = number(end + 2);
    } else bad_line();
}

static struct query query(char *line) {
    struct query q;
    char *haystack = next_word(&line), *how;
    size_t i;
    if (!haystack || (strlen(haystack) % 2 && strcmp(haystack, "-"))) bad_line();
    q.length = strlen(haystack) / 2;
    q.haystack = room_for(q.length, 1);
    for (i = 0; i < q.length; i++) q.haystack[i] = byte(haystack + 2 * i);
    q.input = lazydfa_whole(q.length);
    while ((how = next_word(&line))) set_how(&q, how);
    return q;
}

/* Prints the words of an error. */
static void print_error(lazydfa_status status) {
    switch (status.code) {
    case LAZYDFA_QUIT: printf("quit %02x %lu", (unsigned)status.byte, (unsigned long)status.offset); break;
    case LAZYDFA_GAVE_UP: printf("gaveup %lu", (unsigned long)status.offset); break;
    case LAZYDFA_ANCHORED: fputs("unsupported", stdout); break;
    case LAZYDFA_MEMORY: fputs("memory", stdout); break;
    case LAZYDFA_NOT_A_PAIR: fputs("notapair", stdout); break;
    case LAZYDFA_NO_TOKEN: printf("notoken %lu", (unsigned long)status.offset); break;
    default: fputs(lazydfa_code_text(status.code), stdout);
    }
}

static void print_half(lazydfa_status status, lazydfa_half half) {
    if (status.code == LAZYDFA_OK) printf("half %lu %lu", (unsigned long)half.pattern, (unsigned long)half.offset);
    else if (status.code == LAZYDFA_NONE) fputs("none", stdout);
    else print_error(status);
}

static void print_match(lazydfa_match m) {
    printf("%lu %lu..%lu", (unsigned long)m.pattern, (unsigned long)m.start, (unsigned long)m.end);
}

/* Prints the status that ended a list, if it is an error. */
static void print_end(lazydfa_status status) {
    if (status.code == LAZYDFA_OK || status.code == LAZYDFA_NONE) return;
    putchar(' ');
    print_error(status);
}

static void find(struct query *q) {
    lazydfa_match m;
    lazydfa_status status = lazydfa_find(&caches[current], q->haystack, q->length, &q->input, &m);
    if (status.code == LAZYDFA_OK) {
        fputs("match ", stdout);
        print_match(m);
    } else if (status.code == LAZYDFA_NONE) fputs("none", stdout);
    else print_error(status);
}

static void is_match(struct query *q) {
    lazydfa_status status = lazydfa_is_match(&caches[current], q->haystack, q->length, &q->input);
    if (status.code == LAZYDFA_OK) fputs("true", stdout);
    else if (status.code == LAZYDFA_NONE) fputs("false", stdout);
    else print_error(status);
}

static void half(struct query *q, int backward) {
    lazydfa_half h = { 0, 0, 0 };
    print_half(backward ? lazydfa_find_start(&caches[current], q->haystack, q->length, &q->input, &h)
                        : lazydfa_find_end(&caches[current], q->haystack, q->length, &q->input, &h), h);
}

static void iterate(struct query *q) {
    lazydfa_iteration at = lazydfa_iterate(q->input);
    lazydfa_match m;
    lazydfa_status status;
    fputs("iter", stdout);
    while ((status = lazydfa_next(&caches[current], q->haystack, q->length, &at, &m)).code == LAZYDFA_OK) {
        putchar(' ');
        print_match(m);
    }
    print_end(status);
}

static void tokens(struct query *q) {
    lazydfa_match m[3];
    lazydfa_status status;
    size_t i, count;
    fputs("tokens", stdout);
    do {
        status = lazydfa_tokens(&caches[current], q->haystack, q->length, &q->input, m, 3, &count);
        for (i = 0; i < count; i++) {
            putchar(' ');
            print_match(m[i]);
        }
    } while (status.code == LAZYDFA_OK);
    print_end(status);
}

static void which(size_t below, struct query *q) {
    uint32_t patterns[ROOM];
    size_t i, count = 0;
    lazydfa_status status = lazydfa_which(&caches[current], q->haystack, q->length, &q->input, below, patterns, ROOM,
                                          &count);
    fputs("patterns", stdout);
    for (i = 0; i < count && i < ROOM; i++) printf(" %lu", (unsigned long)patterns[i]);
    print_end(status);
}

static void begin_walk(struct query *q, int backward) {
    struct walk *w;
    if (walk_count == MOST) bad_line();
    w = &walks[walk_count];
    w->regex = current;
    w->backward = backward;
    w->haystack = q->haystack;
    w->length = q->length;
    w->input = q->input;
    w->halves = room_for(ROOM, sizeof *w->halves);
    q->haystack = NULL;
    printf("walk %lu", (unsigned long)walk_count++);
}

/* Runs a walk from its start. */
static lazydfa_status run_walk(struct walk *w) {
    lazydfa_cache *cache = &caches[current];
    lazydfa_status status =
        w->backward ? lazydfa_all_starts(cache, w->haystack, w->length, &w->input, w->halves, ROOM, &w->known)
                    : lazydfa_all_ends(cache, w->haystack, w->length, &w->input, w->halves, ROOM, &w->known);
    w->is_whole = status.code == LAZYDFA_OK;
    if (w->known > ROOM) bad_line();
    return status;
}

static void step(size_t at) {
    lazydfa_status status = { LAZYDFA_NONE, 0, 0 }, found = { LAZYDFA_OK, 0, 0 };
    lazydfa_half none = { 0, 0, 0 };
    struct walk *w;
    if (at >= walk_count) {
        fputs("bad walk", stdout);
        return;
    }
    w = &walks[at];
    if (w->regex != current) {
        fputs("bad other", stdout);
        return;
    }
    if (w->reported == w->known && !w->is_whole) status = run_walk(w);
    if (w->reported < w->known) print_half(found, w->halves[w->reported++]);
    else {
        if (status.code == LAZYDFA_OK) status.code = LAZYDFA_NONE;
        print_half(status, none);
    }
}

static void reset(size_t at) {
    lazydfa_status status;
    if (at >= regexes) {
        fputs("bad regex", stdout);
        return;
    }
    status = lazydfa_cache_reset(&caches[at]);
    if (status.code == LAZYDFA_OK) {
        current = at;
        fputs("ok", stdout);
    } else print_error(status);
}

/* Runs a request that has a haystack. */
static void request(const char *form, char *line) {
    const char *direction = strcmp(form, "walk") ? NULL : next_word(&line);
    size_t below = strcmp(form, "which") ? 0 : number(next_word(&line));
    struct query q = query(line);
    if (!regexes) fputs("bad regex", stdout);
    else if (!strcmp(form, "fwd")) half(&q, 0);
    else if (!strcmp(form, "rev")) half(&q, 1);
    else if (!strcmp(form, "find")) find(&q);
    else if (!strcmp(form, "is")) is_match(&q);
    else if (!strcmp(form, "iter")) iterate(&q);
    else if (!strcmp(form, "tok")) tokens(&q);
    else if (!strcmp(form, "which")) which(below, &q);
    else if (direction) begin_walk(&q, !strcmp(direction, "rev"));
    else bad_line();
    free(q.haystack);
}

static void run_line(char *line) {
    const char *form;
    if (!*line || *line == '#') return;
    form = next_word(&line);
    if (!strcmp(form, "nfa")) {
        define_nfa(line);
        return;
    }
    if (!strcmp(form, "regex")) {
        define(line);
        return;
    }
    if (!strcmp(form, "step")) {
        size_t at = number(next_word(&line));
        if (regexes) step(at);
        else fputs("bad regex", stdout);
    } else if (!strcmp(form, "reset")) reset(number(next_word(&line)));
    else request(form, line);
    putchar('\n');
}

/* Returns all of standard input, terminated by a zero. */
static char *read_all(void) {
    size_t length = 0, room = 1 << 16, got;
    char *text = room_for(room, 1);
    while ((got = fread(text + length, 1, room - length - 1, stdin)) > 0) {
        length += got;
        if (length + 1 == room) {
            room *= 2;
            text = realloc(text, room);
            if (!text) exit(1);
        }
    }
    text[length] = '\0';
    return text;
}

int main(void) {
    char *text = read_all(), *line = text;
    size_t i;
    while (line) {
        char *end = strchr(line, '\n');
        if (end) *end = '\0';
        line_number++;
        run_line(line);
        line = end ? end + 1 : NULL;
    }
    free(text);
    for (i = 0; i < walk_count; i++) {
        free(walks[i].haystack);
        free(walks[i].halves);
    }
    for (i = 0; i < regexes; i++) lazydfa_cache_close(&caches[i]);
    return 0;
}
