/* A second reading of documents 01 and 02, written from their text alone, to hold the proved one against.
 * Same call shape as include/still.h: out[0] is the refusal number or 0, out[1] its place,
 * out[2..7] the answer's values in the document's order, the rest 0. */
#ifndef SECOND_H
#define SECOND_H

#include <stddef.h>
#include <stdint.h>

#include "level.h"

/* What a call is lent. From Q-10 on a companion comes with the file; none is any pointer, 0, 0. */
#if LEVEL >= 10
#define SECOND_FILE                                                                                       \
    const uint8_t *head, size_t head_len, uint64_t total, const uint8_t *companion, size_t companion_len, \
        uint64_t companion_total
#else
#define SECOND_FILE const uint8_t *head, size_t head_len, uint64_t total
#endif
#define SECOND_TABLE uint32_t *table, size_t table_len

/* Items, primary ID. */
void second_verdict(SECOND_FILE, SECOND_TABLE, uint64_t *out);

/* Reconstructed width and height, output width and height, depth. */
void second_size(SECOND_FILE, SECOND_TABLE, uint32_t item, uint64_t *out);

/* 1 for a pixel or 2 for fill, item ID, x, y, items passed. */
void second_trace(SECOND_FILE, SECOND_TABLE, uint32_t item, uint32_t x, uint32_t y, uint64_t *out);

/* How many IDs were written to the list. */
void second_sources(SECOND_FILE, SECOND_TABLE, uint32_t item, uint32_t *list, size_t list_len, uint64_t *out);

/* Offset and length of the part of the head. */
void second_property(SECOND_FILE, SECOND_TABLE, uint32_t item, uint32_t k, uint64_t *out);

/* the Exif orientation, 1 to 8. */
void second_orientation(SECOND_FILE, SECOND_TABLE, uint32_t item, uint64_t *out);

/* how many transforms, then kind (1 irot, 2 imir) and value of each. No file is read. */
void second_transforms(uint32_t orientation, uint64_t *out);

/* how many records were filled. A record is x, y, then number, place and the five numbers of a trace. */
void second_points(SECOND_FILE, SECOND_TABLE, uint32_t item, uint32_t *points, size_t points_len, uint64_t *out);

/* the length of an image item's joined body, which is written to the buffer. */
void second_body(SECOND_FILE, SECOND_TABLE, uint32_t item, uint8_t *body, size_t body_len, uint64_t *out);

/* the six entries row by row, from output pixel to reconstructed pixel. */
void second_matrix(SECOND_FILE, SECOND_TABLE, uint32_t item, uint64_t *out);

/* as second_trace, by matrices. */
void second_trace_by_matrix(SECOND_FILE, SECOND_TABLE, uint32_t item, uint32_t x, uint32_t y, uint64_t *out);

/* 1 for the head or 2 for the companion, offset and length there. */
void second_bytes(SECOND_FILE, SECOND_TABLE, uint32_t item, uint64_t *out);

/* bytes written, which is the head's length, and properties dropped. */
void second_rewrite(SECOND_FILE, SECOND_TABLE, uint8_t *output, size_t output_len, uint64_t *out);

/* the item count; per item, in the order of iinf, ID, state (0 sound, 1 faulty, 2 resting) and number. */
void second_report(SECOND_FILE, SECOND_TABLE, uint32_t *list, size_t list_len, uint64_t *out);

/* as those without sound_, in its mode. */
void second_sound_size(SECOND_FILE, SECOND_TABLE, uint32_t item, uint64_t *out);
void second_sound_trace(SECOND_FILE, SECOND_TABLE, uint32_t item, uint32_t x, uint32_t y, uint64_t *out);
void second_sound_sources(SECOND_FILE, SECOND_TABLE, uint32_t item, uint32_t *list, size_t list_len, uint64_t *out);

#endif
