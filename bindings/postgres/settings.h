/* The settings lazydfa.*. */
#ifndef LAZYDFA_SETTINGS_H
#define LAZYDFA_SETTINGS_H

/* Names of the extension, which no other library sees. */
#pragma GCC visibility push(hidden)

extern int setting_cached_patterns;
extern int setting_cache_size;         /* in kB */
extern int setting_pattern_cache_size; /* in kB */
extern int setting_pattern_size;       /* in kB */
extern int setting_pattern_length;     /* in bytes */
extern int setting_pattern_classes;
extern int setting_piece_size;         /* in bytes */

/* Defines the settings. */
extern void define_settings(void);

#pragma GCC visibility pop

#endif
