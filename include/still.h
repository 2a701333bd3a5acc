/* The still reader's nine questions, for C and C++. Link libstill_c.a, which `tools/archive` writes to target/staticlib/
 * (x86-64 Linux; it needs only memcpy and memset). examples/ask_still.c shows a whole program.
 *
 * What a caller lends (still_transforms reads no file and is lent out alone):
 *   head, head_len    the file's first bytes; at most STILL_HEAD_MAX, else refusal 2
 *   total             the length of the whole file
 *   table, table_len  at least STILL_TABLE_WORDS words, else refusal 1; what stands in it does not matter
 *   out               STILL_OUT numbers, all of them written by every call
 * Nothing needs to be checked before a call: any bytes, numbers and lengths have an answer. What C cannot show is the caller's: each pointer
 * leads to as many elements as its length says, aligned for its type, writable except for the head, and no two of them overlap. Where a length
 * is 0 the pointer is not followed and may be null; out may not.
 * Nothing is kept between calls, nothing is allocated, and every call ends; how much stack a call may take is told
 * below (STILL_STACK_; measured by tests/stack, not proved). Threads may call at once if each lends its own table, list,
 * points, body and out.
 *
 * What every call leaves:
 *   out[0], out[1]    the refusal's number and place, and the rest of out 0; or 0 and 0, then the answer's values as told below, and the rest 0
 *   table             after refusal 1 as it was; after 2 to 20 and 29 to 31 its first STILL_TABLE_WORDS words are 0; otherwise, 21 to 26
 *                     and 28 too, they are the file's. Words behind them are never written.
 */
#ifndef STILL_H
#define STILL_H

#include <stddef.h>
#include <stdint.h>

#define STILL_OUT 8
#define STILL_TABLE_WORDS 11280
#define STILL_HEAD_MAX 65536

/* Points that one call of still_points answers at most, and the numbers of a point's record. */
#define STILL_MAX_POINTS 512
#define STILL_POINT_WORDS 9

/* Bytes that still_body must be lent: no body is longer. */
#define STILL_BODY_MAX 16402

/* Bytes of stack that a call was seen to take at most, rounded up. */
#define STILL_STACK_TRACE 26000
#define STILL_STACK_SOURCES 29000
#define STILL_STACK_OTHERS 26000

/* The most that a file may have; more is refusal 9. An item has at most STILL_MAX_ITEMS sources, so a list of that length is never too short. */
#define STILL_MAX_ITEMS 256
#define STILL_MAX_PROPERTIES 256
#define STILL_MAX_ASSOCIATIONS 2048
#define STILL_MAX_TARGETS 2048
#define STILL_MAX_EXTENTS 512

/* The table of a file. Words 0 to 7: how many items, properties, associations, targets and extents; the primary item's ID; the file's
 * length, high word and low word. Then from each of these words on, as many records as there are; all words that are not used are 0: */
#define STILL_ITEMS_AT 16          /* records of STILL_ITEM_WORDS */
#define STILL_PROPERTIES_AT 4112   /* of 4 words: type, offset in the head, size, 0 */
#define STILL_ASSOCIATIONS_AT 5136 /* of one: property index from 1, and 32,768 more if it is essential */
#define STILL_TARGETS_AT 7184      /* of one: an item's ID */
#define STILL_EXTENTS_AT 9232      /* of 4: offset, high and low; length, high and low */

/* An extent's offset counts in the file; where the item's method is 2, in the item that the extent names, which the table does not tell. */

/* An item's record. The records stand in rising order of their IDs, compared as unsigned numbers, so that an item is found by halving. All
 * else is in the file's order: properties, associations, targets and extents, and the "first" words count from 0 in that order, 0 where there
 * are none. An item's place in `iinf`, from 0, is its last word: whoever lists items as the file does, as sources do, goes by it:
 *
 *     uint32_t row_of[STILL_MAX_ITEMS], row, place;
 *     for (row = 0; row < table[0]; row++)
 *         row_of[table[STILL_ITEMS_AT + STILL_ITEM_WORDS * row + STILL_ITEM_PLACE]] = row;
 *     for (place = 0; place < table[0]; place++)
 *         .. the record at table + STILL_ITEMS_AT + STILL_ITEM_WORDS * row_of[place]
 */
#define STILL_ITEM_WORDS 16
enum still_item {
    STILL_ITEM_ID = 0,
    STILL_ITEM_TYPE = 1,
    STILL_ITEM_HIDDEN = 2,
    STILL_ITEM_FIRST_ASSOCIATION = 3,
    STILL_ITEM_ASSOCIATIONS = 4,
    STILL_ITEM_FIRST_TARGET = 5,
    STILL_ITEM_TARGETS = 6,
    STILL_ITEM_FIRST_EXTENT = 7,
    STILL_ITEM_EXTENTS = 8,
    STILL_ITEM_METHOD = 9,
    STILL_ITEM_WIDTH = 10,         /* reconstructed; all five are 0 for an item that is no picture */
    STILL_ITEM_HEIGHT = 11,
    STILL_ITEM_OUTPUT_WIDTH = 12,  /* after its turns and crops */
    STILL_ITEM_OUTPUT_HEIGHT = 13,
    STILL_ITEM_DEPTH = 14,
    STILL_ITEM_PLACE = 15          /* in `iinf`, from 0 */
};

/* out[0]. The place, out[1], is 0 for 1, 2, 4, 5 and 27; for 3 and 6 to 11 where the box begins in the head; for 12 to 20, 29 and 30 the
 * item's ID; for 21 to 26, 28 and 31 the ID that was asked for. */
enum still_refusal {
    STILL_ACCEPTED = 0,
    STILL_TABLE_TOO_SHORT = 1,       /* the table that was lent is too short */
    STILL_HEAD_TOO_LONG = 2,         /* more than 65,536 bytes were lent, or the file is said to be shorter than what was lent */
    STILL_BAD_BOX_SIZE = 3,          /* a box says an impossible size, or reaches past what it lies in */
    STILL_NOT_A_STILL = 4,           /* the file does not begin with an `ftyp` that names the brand `mif1` */
    STILL_NO_META = 5,               /* there is no `meta` box wholly in the head */
    STILL_UNKNOWN_VERSION = 6,       /* a box has a version that this reader does not know */
    STILL_BOX_MISSING_OR_TWICE = 7,  /* the place is the container, or the second box */
    STILL_BAD_CONTENT_LENGTH = 8,    /* a box ends inside one of its fields, or has bytes left over */
    STILL_OVER_A_LIMIT = 9,          /* more items, properties, associations, targets or extents than the limits allow */
    STILL_FORBIDDEN_VALUE = 10,      /* a repeated ID, a wrong handler, IDs out of order */
    STILL_NAMES_NOTHING = 11,        /* an item or property is named that does not exist */
    STILL_BAD_PRIMARY = 12,          /* the primary item is not listed, no picture, or hidden */
    STILL_BYTES_ELSEWHERE = 13,      /* an item's bytes lie where this reader does not go: a method over 2, another file, or no length */
    STILL_BYTES_PAST_THE_END = 14,   /* an item's bytes lie past the end of their source (file, `idat` or another item), or a coded picture has none */
    STILL_PROTECTED_OR_UNKNOWN = 15, /* a picture is protected, or needs a property that this reader does not know */
    STILL_SIZE_NOT_SAID_ONCE = 16,   /* a picture does not say its size exactly once, before its turns and crops */
    STILL_BAD_DERIVATION = 17,       /* a derived picture has wrong inputs or a damaged body */
    STILL_MADE_FROM_ITSELF = 18,     /* a picture is made from itself */
    STILL_TOO_DEEP = 19,             /* pictures are nested more than 16 deep */
    STILL_SIZES_DO_NOT_FIT = 20,     /* sizes do not fit together */
    STILL_NO_SUCH_ITEM = 21,         /* there is no item with the ID that was asked for */
    STILL_NO_PICTURE = 22,           /* that item is no picture */
    STILL_OUTSIDE_THE_PICTURE = 23,  /* that pixel is outside the picture */
    STILL_LIST_TOO_SHORT = 24,       /* the list that was lent is too short */
    STILL_NO_SUCH_PROPERTY = 25,     /* the item has no property with that number */
    STILL_HAS_A_CROP = 26,           /* the item has a crop, which no orientation says */
    STILL_NO_ORIENTATION = 27,       /* an orientation is one of 1 to 8; no file was read */
    STILL_TOO_MANY_POINTS = 28,      /* more than 512 points were asked for at once */
    STILL_NOT_CONFIGURED = 29,       /* an `hvc1` picture does not have exactly one `hvcC`, marked essential */
    STILL_BYTES_WITHOUT_END = 30,    /* an item is made of other items' bytes by a chain that goes round, is more than 8 deep, or lacks a reference */
    STILL_BODY_TOO_SHORT = 31        /* the buffer that was lent for a body is too short */
};

/* out[2] of still_trace, and the fifth number of a point's record */
enum still_end { STILL_PIXEL = 1, STILL_FILL = 2 };

/* out[3] and out[5] of still_transforms */
enum still_transform { STILL_IROT = 1, STILL_IMIR = 2 };

#ifdef __cplusplus
extern "C" {
#endif

/* Whether the file keeps the rules. out[2] how many items it has, out[3] the ID of its primary item. */
void still_verdict(const uint8_t *head, size_t head_len, uint64_t total, uint32_t *table, size_t table_len, uint64_t out[STILL_OUT]);

/* The sizes of an item that is a picture. out[2], out[3] its reconstructed width and height; out[4], out[5] those of its output, after its
 * turns and crops; out[6] its depth. */
void still_size(const uint8_t *head, size_t head_len, uint64_t total, uint32_t *table, size_t table_len, uint32_t item,
                uint64_t out[STILL_OUT]);

/* Where the output pixel (x, y) of an item comes from. out[2] STILL_PIXEL for a pixel of a coded item, STILL_FILL for an overlay's fill;
 * out[3] that item's ID; out[4], out[5] x and y there; out[6] how many items were passed, both ends counted. */
void still_trace(const uint8_t *head, size_t head_len, uint64_t total, uint32_t *table, size_t table_len, uint32_t item, uint32_t x,
                 uint32_t y, uint64_t out[STILL_OUT]);

/* Many output pixels of one item at once: the file is read once, and each point is answered as still_trace would answer it. points leads to
 * points_len records of STILL_POINT_WORDS numbers; points_len counts records, not numbers. A record's first two numbers, x and y, are read and
 * stay; the other seven are written: the refusal's number and place, then STILL_PIXEL or STILL_FILL, that item's ID, x and y there, and how
 * many items were passed. Number and place are 0 where the point is answered. A point outside the picture has 23 and the asked ID in its own
 * record, then five times 0, and the others are still answered. out[2] how many records were filled: all. More than STILL_MAX_POINTS records are
 * refused by 28 after 21 and 22; a refusal in out[0] writes to no record. */
void still_points(const uint8_t *head, size_t head_len, uint64_t total, uint32_t *table, size_t table_len, uint32_t item, uint32_t *points,
                  size_t points_len, uint64_t out[STILL_OUT]);

/* The IDs of all coded items that an item needs, each once, in the order of `iinf`; a coded item lists itself. out[2] how many were written to the
 * list's first entries; the others stay as they were, and a refusal writes none. */
void still_sources(const uint8_t *head, size_t head_len, uint64_t total, uint32_t *table, size_t table_len, uint32_t item, uint32_t *list,
                   size_t list_len, uint64_t out[STILL_OUT]);

/* The box of an item's property k, counted from 1, header included: out[2] where it begins in the head, out[3] how many bytes it has, which
 * all lie in the head. Both are 0 where the association names no property. */
void still_property(const uint8_t *head, size_t head_len, uint64_t total, uint32_t *table, size_t table_len, uint32_t item, uint32_t k,
                    uint64_t out[STILL_OUT]);

/* The Exif orientation that does what the item's own turns and mirrors do, however many they are: out[2], 1 to 8. Exactly one number fits them
 * for all widths and heights. The turns of the pictures that the item is made from do not count. An item with a crop, also one that cuts
 * nothing, is refused by 26 after 21 and 22. */
void still_orientation(const uint8_t *head, size_t head_len, uint64_t total, uint32_t *table, size_t table_len, uint32_t item,
                       uint64_t out[STILL_OUT]);

/* The body of an item that is a picture, its extents joined, also where they are made of other items' bytes: out[2] how many bytes it has, 0
 * for a coded item and for `iden`. It is written to the buffer's first bytes; the others stay as they were, and a refusal writes none. A
 * buffer of fewer than STILL_BODY_MAX bytes is refused by 31, after 1 and before the file is read, however short the body is. */
void still_body(const uint8_t *head, size_t head_len, uint64_t total, uint32_t *table, size_t table_len, uint32_t item, uint8_t *body,
                size_t body_len, uint64_t out[STILL_OUT]);

/* The shortest list of transforms that does what an orientation asks, `irot` first: out[2] how many, 0 to 2; out[3], out[4] the kind and the
 * value of the first; out[5], out[6] those of the second. The value is what the property box holds: `irot` 1 to 3 quarter turns to the left,
 * `imir` 0 exchanges top and bottom, 1 left and right. The orientation of an item with this list is the number again. No file is read and
 * there is no table: 27 at place 0 is the only refusal. */
void still_transforms(uint32_t orientation, uint64_t out[STILL_OUT]);

#ifdef __cplusplus
}
#endif

#endif
