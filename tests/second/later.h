/* What the library exports from each request of document 02 on, for a still.h that does not declare it yet. */
#ifndef LATER_H
#define LATER_H

#include <stddef.h>
#include <stdint.h>

#include "level.h"

#if LEVEL >= 10
#define LATER_FILE                                                                                        \
    const uint8_t *head, size_t head_len, uint64_t total, const uint8_t *companion, size_t companion_len, \
        uint64_t companion_total
#else
#define LATER_FILE const uint8_t *head, size_t head_len, uint64_t total
#endif
#define LATER_TABLE uint32_t *table, size_t table_len

#if LEVEL >= 3
void still_orientation(LATER_FILE, LATER_TABLE, uint32_t item, uint64_t out[8]);
void still_transforms(uint32_t orientation, uint64_t out[8]);
#endif

#if LEVEL >= 4
void still_points(LATER_FILE, LATER_TABLE, uint32_t item, uint32_t *points, size_t points_len, uint64_t out[8]);
#endif

#if LEVEL >= 7
void still_body(LATER_FILE, LATER_TABLE, uint32_t item,
                uint8_t *body, size_t body_len, uint64_t out[8]);
#endif

#if LEVEL >= 9
void still_matrix(LATER_FILE, LATER_TABLE, uint32_t item, uint64_t out[8]);
void still_trace_by_matrix(LATER_FILE, LATER_TABLE, uint32_t item, uint32_t x, uint32_t y, uint64_t out[8]);
#endif

#if LEVEL >= 10
void still_bytes(LATER_FILE, LATER_TABLE, uint32_t item, uint64_t out[8]);
#endif

#if LEVEL >= 11
void still_rewrite(LATER_FILE, LATER_TABLE, uint8_t *output, size_t output_len, uint64_t out[8]);
#endif

#if LEVEL >= 12
void still_report(LATER_FILE, LATER_TABLE, uint32_t *list, size_t list_len, uint64_t out[8]);
void still_sound_size(LATER_FILE, LATER_TABLE, uint32_t item, uint64_t out[8]);
void still_sound_trace(LATER_FILE, LATER_TABLE, uint32_t item, uint32_t x, uint32_t y, uint64_t out[8]);
void still_sound_sources(LATER_FILE, LATER_TABLE, uint32_t item, uint32_t *list, size_t list_len, uint64_t out[8]);
#endif

#endif
