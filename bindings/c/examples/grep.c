/* grep [-cino] -e PATTERN.. FILE..: prints the lines of files that match any of the patterns. -c prints only how many
   lines match, -n also prints their numbers, -o prints only their matches, and -i ignores case. The status is 0 if a
   line matches, 1 if none does, and 2 after an error. Each line is searched by itself, as bytes. */
#include <lazydfa.h>
#include <stdio.h>
#include <stdlib.h>
#include <string.h>

/* What is printed of the lines that match. */
typedef struct {
    int count, numbers, matches, names;
} shown;

/* Returns the contents of a file, or NULL if it cannot be read. */
static uint8_t *read_all(const char *name, size_t *length) {
    FILE *file = fopen(name, "rb");
    uint8_t *text = NULL, *larger;
    size_t room = 0, got = 1;
    *length = 0;
    while (file && got > 0) {
        if (*length == room) {
            room = 2 * room + 65536;
            larger = (uint8_t *)realloc(text, room);
            if (!larger) break;
            text = larger;
        }
        got = fread(text + *length, 1, room - *length, file);
        *length += got;
    }
    if (!file || got > 0 || ferror(file)) {
        free(text);
        text = NULL;
    }
    if (file) fclose(file);
    return text;
}

static void print(const shown *how, const char *name, size_t number, const uint8_t *bytes, size_t length) {
    if (how->names) printf("%s:", name);
    if (how->numbers) printf("%lu:", (unsigned long)number);
    fwrite(bytes, 1, length, stdout);
    putchar('\n');
}

/* Prints a line that matches, or each of its matches that is not empty. */
static lazydfa_status show(lazydfa_cache *cache, const shown *how, const char *name, size_t number, const uint8_t *line,
                           size_t length) {
    lazydfa_iteration at = lazydfa_iterate(lazydfa_whole(length));
    lazydfa_status status = { LAZYDFA_NONE, 0, 0 };
    lazydfa_match match;
    if (how->count) return status;
    if (!how->matches) {
        print(how, name, number, line, length);
        return status;
    }
    while ((status = lazydfa_next(cache, line, length, &at, &match)).code == LAZYDFA_OK)
        if (match.start < match.end) print(how, name, number, line + match.start, match.end - match.start);
    return status;
}

/* Searches the lines of a text, one after another, and counts those that match. */
static lazydfa_status search(lazydfa_cache *cache, const shown *how, const char *name, const uint8_t *text,
                             size_t length, size_t *count) {
    lazydfa_status status = { LAZYDFA_NONE, 0, 0 };
    size_t start = 0, number = 0;
    while (start < length && status.code == LAZYDFA_NONE) {
        const uint8_t *line = text + start, *end = (const uint8_t *)memchr(line, '\n', length - start);
        size_t size = end ? (size_t)(end - line) : length - start;
        lazydfa_input in = lazydfa_whole(size);
        number++;
        status = lazydfa_is_match(cache, line, size, &in);
        if (status.code == LAZYDFA_OK) {
            ++*count;
            status = show(cache, how, name, number, line, size);
        }
        start += size + 1;
    }
    return status;
}

/* Searches a file. Returns whether there was no error. */
static int search_file(lazydfa_cache *cache, const shown *how, const char *name, size_t *found) {
    size_t length = 0, count = 0;
    uint8_t *text = read_all(name, &length);
    lazydfa_status status;
    if (!text) {
        fprintf(stderr, "%s: it cannot be read\n", name);
        return 0;
    }
    status = search(cache, how, name, text, length, &count);
    free(text);
    if (how->count && how->names) printf("%s:", name);
    if (how->count) printf("%lu\n", (unsigned long)count);
    if (status.code != LAZYDFA_NONE) fprintf(stderr, "%s: %s\n", name, lazydfa_code_text(status.code));
    *found += count;
    return status.code == LAZYDFA_NONE;
}

/* Reads the flags and patterns. Returns the index of the first file, or 0 if the arguments do not fit the usage. */
static int read_arguments(char **argv, shown *how, lazydfa_options *options, lazydfa_text *texts, size_t *count) {
    int i;
    for (i = 1; argv[i] && argv[i][0] == '-'; i++) {
        const char *letter = argv[i] + 1;
        if (!strcmp(letter, "e")) {
            if (!argv[++i] || *count == 64) return 0;
            texts[*count].text = argv[i];
            texts[(*count)++].length = strlen(argv[i]);
            continue;
        }
        for (; *letter; letter++) {
            if (*letter == 'c') how->count = 1;
            else if (*letter == 'i') options->case_insensitive = 1;
            else if (*letter == 'n') how->numbers = 1;
            else if (*letter == 'o') how->matches = 1;
            else return 0;
        }
    }
    how->names = argv[i] && argv[i + 1];
    return *count && argv[i] ? i : 0;
}

int main(int argc, char **argv) {
    lazydfa_regex regex = LAZYDFA_INIT;
    lazydfa_cache cache = LAZYDFA_INIT;
    lazydfa_options options = LAZYDFA_OPTIONS_INIT;
    lazydfa_error error = LAZYDFA_ERROR_INIT;
    lazydfa_text texts[64];
    lazydfa_status status;
    shown how = { 0, 0, 0, 0 };
    size_t count = 0, found = 0;
    int i, well = 1;
    options.bytes = 1;
    i = argc ? read_arguments(argv, &how, &options, texts, &count) : 0;
    if (!i) {
        fprintf(stderr, "usage: grep [-cino] -e PATTERN.. FILE..\n");
        return 2;
    }
    status = lazydfa_regex_any_of(&regex, texts, count, &options, &error);
    if (status.code == LAZYDFA_OK) status = lazydfa_cache_new(&cache, &regex);
    if (status.code != LAZYDFA_OK)
        fprintf(stderr, "%s\n", *error.message ? error.message : lazydfa_code_text(status.code));
    for (; status.code == LAZYDFA_OK && argv[i]; i++) well &= search_file(&cache, &how, argv[i], &found);
    lazydfa_cache_close(&cache);
    lazydfa_regex_close(&regex);
    if (fflush(stdout) || ferror(stdout)) {
        fprintf(stderr, "the output cannot be written\n");
        well = 0;
    }
    return status.code != LAZYDFA_OK || !well ? 2 : !found;
}
