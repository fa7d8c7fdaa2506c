/* The exports of the proved crate lazydfa_c, and the structs that only they take. They do not accept null pointers, and
   their slices are never null. No program calls them: they are not visible outside of the library. */
#ifndef LAZYDFA_RAW_H
#define LAZYDFA_RAW_H

#include "lazydfa_automata.h"

/* The options of all regexes. A number is used only if its has_ member is not 0. */
typedef struct {
    size_t cache_capacity;
    size_t cache_limit;
    size_t minimum_cache_clear_count;
    size_t minimum_bytes_per_state;
    uint32_t has_cache_capacity;
    uint32_t has_cache_limit;
    uint32_t has_minimum_cache_clear_count;
    uint32_t has_minimum_bytes_per_state;
    uint32_t match_kind;
    uint32_t starts_for_each_pattern;
    uint32_t no_byte_classes;
    uint32_t unicode_word_boundary;
    uint32_t specialize_start_states;
    uint32_t skip_cache_capacity_check;
    uint32_t always_anchored;
} raw_settings;

/* The options of regexes of texts. A limit is used only if its has_ member is not 0. */
typedef struct {
    size_t size_limit;
    size_t text_limit;
    size_t class_limit;
    uint32_t has_size_limit;
    uint32_t has_text_limit;
    uint32_t has_class_limit;
    uint32_t nest_limit;
    uint32_t no_unicode;
    uint32_t case_insensitive;
    uint32_t multi_line;
    uint32_t dot_matches_new_line;
    uint32_t crlf;
    uint32_t swap_greed;
    uint32_t ignore_whitespace;
    uint32_t octal;
    uint32_t bytes;
    uint32_t forward_only;
    uint32_t groups;
} raw_text_options;

/* Why no regex was built from the texts of patterns, as in an error. */
typedef struct {
    size_t pattern, start, end, length;
} raw_refusal;

lazydfa_status lazydfa_raw_close(lazydfa_handle *);
lazydfa_status lazydfa_raw_builder_new(lazydfa_handle *);
lazydfa_status lazydfa_raw_builder_clear(lazydfa_handle *);
lazydfa_status lazydfa_raw_start_pattern(lazydfa_handle *, uint32_t *);
lazydfa_status lazydfa_raw_finish_pattern(lazydfa_handle *, uint32_t, uint32_t *);
lazydfa_status lazydfa_raw_patch(lazydfa_handle *, uint32_t, uint32_t);
lazydfa_status lazydfa_raw_set_utf8(lazydfa_handle *, uint32_t);
lazydfa_status lazydfa_raw_set_reverse(lazydfa_handle *, uint32_t);
lazydfa_status lazydfa_raw_set_line_terminator(lazydfa_handle *, uint8_t);
lazydfa_status lazydfa_raw_add_empty(lazydfa_handle *, uint32_t *);
lazydfa_status lazydfa_raw_add_range(lazydfa_handle *, uint8_t, uint8_t, uint32_t, uint32_t *);
lazydfa_status lazydfa_raw_add_sparse(lazydfa_handle *, const lazydfa_edge *, size_t, uint32_t *);
lazydfa_status lazydfa_raw_add_look(lazydfa_handle *, uint32_t, uint32_t, uint32_t *);
lazydfa_status lazydfa_raw_add_union(lazydfa_handle *, const lazydfa_state_id *, size_t, uint32_t *);
lazydfa_status lazydfa_raw_add_union_reverse(lazydfa_handle *, const lazydfa_state_id *, size_t, uint32_t *);
lazydfa_status lazydfa_raw_add_capture_start(lazydfa_handle *, uint32_t, uint32_t, uint32_t *);
lazydfa_status lazydfa_raw_add_capture_end(lazydfa_handle *, uint32_t, uint32_t, uint32_t *);
lazydfa_status lazydfa_raw_add_fail(lazydfa_handle *, uint32_t *);
lazydfa_status lazydfa_raw_add_match(lazydfa_handle *, uint32_t *);
lazydfa_status lazydfa_raw_add_unanchored_prefix(lazydfa_handle *, uint32_t, uint32_t *);
lazydfa_status lazydfa_raw_regex_build(lazydfa_handle *, lazydfa_handle *, const lazydfa_starts *, const raw_settings *,
                                       const uint8_t *, size_t);
lazydfa_status lazydfa_raw_regex_build_pair(lazydfa_handle *, lazydfa_handle *, const lazydfa_starts *,
                                            lazydfa_handle *, const lazydfa_starts *, const raw_settings *,
                                            const uint8_t *, size_t);
lazydfa_status lazydfa_raw_regex_any_of(lazydfa_handle *, const uint8_t *, size_t, const size_t *, size_t,
                                        const raw_text_options *, const raw_settings *, const uint8_t *, size_t,
                                        raw_refusal *, uint8_t *, size_t);
lazydfa_status lazydfa_raw_text_facts(const uint8_t *, size_t, const raw_text_options *, lazydfa_facts *, uint8_t *,
                                      size_t, size_t *, size_t);
lazydfa_status lazydfa_raw_regex_share(lazydfa_handle *, lazydfa_handle *);
lazydfa_status lazydfa_raw_regex_reverse(lazydfa_handle *, lazydfa_handle *);
lazydfa_status lazydfa_raw_regex_size(lazydfa_handle *, size_t *);
lazydfa_status lazydfa_raw_group_count(lazydfa_handle *, uint32_t, size_t *);
lazydfa_status lazydfa_raw_group_index(lazydfa_handle *, uint32_t, const uint8_t *, size_t, size_t *);
lazydfa_status lazydfa_raw_group_name(lazydfa_handle *, uint32_t, size_t, uint8_t *, size_t, size_t *);
lazydfa_status lazydfa_raw_cache_new(lazydfa_handle *, lazydfa_handle *);
lazydfa_status lazydfa_raw_cache_reset(lazydfa_handle *);
lazydfa_status lazydfa_raw_cache_usage(lazydfa_handle *, lazydfa_usage *);
lazydfa_status lazydfa_raw_find(lazydfa_handle *, const uint8_t *, size_t, const lazydfa_input *, lazydfa_match *);
lazydfa_status lazydfa_raw_is_match(lazydfa_handle *, const uint8_t *, size_t, const lazydfa_input *);
lazydfa_status lazydfa_raw_find_end(lazydfa_handle *, const uint8_t *, size_t, const lazydfa_input *, lazydfa_half *);
lazydfa_status lazydfa_raw_find_start(lazydfa_handle *, const uint8_t *, size_t, const lazydfa_input *, lazydfa_half *);
lazydfa_status lazydfa_raw_next(lazydfa_handle *, const uint8_t *, size_t, lazydfa_iteration *, lazydfa_match *);
lazydfa_status lazydfa_raw_next_all(lazydfa_handle *, const uint8_t *, size_t, lazydfa_iteration *, lazydfa_match *,
                                    size_t, size_t *);
lazydfa_status lazydfa_raw_token(lazydfa_handle *, const uint8_t *, size_t, lazydfa_input *, lazydfa_match *);
lazydfa_status lazydfa_raw_tokens(lazydfa_handle *, const uint8_t *, size_t, lazydfa_input *, lazydfa_match *, size_t,
                                  size_t *);
lazydfa_status lazydfa_raw_all_ends(lazydfa_handle *, const uint8_t *, size_t, const lazydfa_input *, lazydfa_half *,
                                    size_t, size_t *);
lazydfa_status lazydfa_raw_all_starts(lazydfa_handle *, const uint8_t *, size_t, const lazydfa_input *, lazydfa_half *,
                                      size_t, size_t *);
lazydfa_status lazydfa_raw_which(lazydfa_handle *, const uint8_t *, size_t, const lazydfa_input *, size_t, uint32_t *,
                                 size_t, size_t *);
lazydfa_status lazydfa_raw_groups(lazydfa_handle *, const uint8_t *, size_t, const lazydfa_match *, lazydfa_span *,
                                  size_t, size_t *);
lazydfa_status lazydfa_raw_pieces_begin(lazydfa_handle *, uint32_t, uint32_t, uint32_t, uint32_t);
lazydfa_status lazydfa_raw_pieces_read(lazydfa_handle *, const uint8_t *, size_t, uint32_t *);
lazydfa_status lazydfa_raw_pieces_end(lazydfa_handle *, uint32_t, lazydfa_half *);
lazydfa_status lazydfa_raw_walk_begin(lazydfa_handle *, uint32_t, uint32_t, uint32_t);
lazydfa_status lazydfa_raw_walk_read(lazydfa_handle *, const uint8_t *, size_t, lazydfa_stop *);
lazydfa_status lazydfa_raw_walk_end(lazydfa_handle *, uint32_t, lazydfa_stop *);
lazydfa_status lazydfa_raw_walk_pattern(lazydfa_handle *, size_t, uint32_t *);

#endif
