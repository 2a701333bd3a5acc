/* face FILE JOINED: what a caller from C may lend, on a file whose primary item 2 needs item 1: null pointers with length 0, a table that is too short, and words, entries, records and bytes behind what is written; and in which order the item records stand. JOINED is docs/joined.heif: item 3 is a grid whose body has 8 bytes, in two extents of item 5, which is no picture. */
#include <stdio.h>
#include <string.h>

#include "still.h"

#define TABLE (STILL_TABLE_WORDS + 20)

static uint8_t head[STILL_HEAD_MAX];
static uint32_t table[TABLE];
static uint32_t list[4];
static uint32_t points[STILL_MAX_POINTS + 2][STILL_POINT_WORDS];
static uint8_t body[STILL_BODY_MAX + 20];
static uint64_t out[STILL_OUT];
static int wrong;

/* Whether out has these numbers, the rest 0; and then it is spoiled for the next call. */
static void told(const char *what, uint64_t number, uint64_t place, uint64_t a, uint64_t b)
{
    uint64_t right[STILL_OUT] = {0};
    right[0] = number, right[1] = place, right[2] = a, right[3] = b;
    if (memcmp(out, right, sizeof out) != 0) {
        printf("wrong: %s\n", what);
        wrong = 1;
    }
    memset(out, 7, sizeof out);
}

/* Whether all n words are w. */
static void kept(const char *what, const uint32_t *words, size_t n, uint32_t w)
{
    size_t i;
    for (i = 0; i < n; i++) {
        if (words[i] != w) {
            printf("wrong: %s, word %lu\n", what, (unsigned long)i);
            wrong = 1;
            return;
        }
    }
}

/* Every orientation's list as kind and value, 0 where there is none; what is no orientation; and that no table is needed. */
static void transforms(void)
{
    static const uint64_t lists[8][5] = {{0},
                                         {1, STILL_IMIR, 1},
                                         {1, STILL_IROT, 2},
                                         {1, STILL_IMIR, 0},
                                         {2, STILL_IROT, 3, STILL_IMIR, 1},
                                         {1, STILL_IROT, 3},
                                         {2, STILL_IROT, 1, STILL_IMIR, 1},
                                         {1, STILL_IROT, 1}};
    uint32_t n;
    for (n = 1; n <= 8; n++) {
        still_transforms(n, out);
        if (out[0] != 0 || out[1] != 0 || memcmp(out + 2, lists[n - 1], sizeof lists[0]) != 0 || out[7] != 0) {
            printf("wrong: transforms of %u\n", (unsigned)n);
            wrong = 1;
        }
        memset(out, 7, sizeof out);
    }
    still_transforms(0, out);
    told("transforms of 0", STILL_NO_ORIENTATION, 0, 0, 0);
    still_transforms(9, out);
    told("transforms of 9", STILL_NO_ORIENTATION, 0, 0, 0);
    still_transforms(UINT32_MAX, out);
    told("transforms of the greatest number", STILL_NO_ORIENTATION, 0, 0, 0);
}

/* Each record to the single trace of its point: x and y stay, the rest is the answer. */
static void as_traced(const char *what, size_t n, uint32_t item, uint32_t (*record)[STILL_POINT_WORDS], size_t count)
{
    uint64_t one[STILL_OUT];
    size_t i, k;
    for (i = 0; i < count; i++) {
        still_trace(head, n, n, table, TABLE, item, record[i][0], record[i][1], one);
        for (k = 0; k < STILL_POINT_WORDS - 2; k++) {
            if (record[i][k + 2] != one[k]) {
                printf("wrong: %s, record %lu\n", what, (unsigned long)i);
                wrong = 1;
                return;
            }
        }
    }
}

/* The points of a seam from (0, 0) to (513, 513) in a picture of 480 by 640; the rest of each record is spoiled. */
static void lay_points(void)
{
    uint32_t i;
    memset(points, 9, sizeof points);
    for (i = 0; i < STILL_MAX_POINTS + 2; i++)
        points[i][0] = points[i][1] = i;
}

/* Whether the records from one on are as they were laid. */
static void untouched(const char *what, uint32_t from)
{
    uint32_t i;
    for (i = from; i < STILL_MAX_POINTS + 2; i++) {
        if (points[i][0] != i || points[i][1] != i)
            wrong = 1, printf("wrong: %s, the point of record %u\n", what, (unsigned)i);
        kept(what, points[i] + 2, STILL_POINT_WORDS - 2, 0x09090909);
    }
}

/* Refusals of the whole call: none of them writes to a record. */
static void points_refused(size_t n)
{
    lay_points();
    still_points(head, n, n, table, TABLE, 2, points[0], STILL_MAX_POINTS + 1, out);
    told("513 points", STILL_TOO_MANY_POINTS, 2, 0, 0);
    kept("the table is the file's", table, 1, 2);
    still_points(head, n, n, table, TABLE, 3, points[0], STILL_MAX_POINTS + 1, out);
    told("513 points of no item", STILL_NO_SUCH_ITEM, 3, 0, 0);
    still_points(head, n, n, table, STILL_TABLE_WORDS - 1, 2, points[0], 2, out);
    told("points, a table of one word less", STILL_TABLE_TOO_SHORT, 0, 0, 0);
    still_points(head, 200, 200, table, TABLE, 2, points[0], 2, out);
    told("points of a file cut short", STILL_BAD_BOX_SIZE, 20, 0, 0);
    kept("a refused file's table", table, STILL_TABLE_WORDS, 0);
    untouched("a refusal writes to no record", 0);
}

/* Item 2 is a picture of 480 by 640, so the points from (480, 480) on are outside. */
static void points_answered(size_t n)
{
    static const uint32_t first[STILL_POINT_WORDS] = {0, 0, 0, 0, STILL_PIXEL, 1, 639, 0, 2};
    static const uint32_t outside[STILL_POINT_WORDS] = {480, 480, STILL_OUTSIDE_THE_PICTURE, 2, 0, 0, 0, 0, 0};
    lay_points();
    still_points(head, n, n, table, TABLE, 2, points[0], STILL_MAX_POINTS, out);
    told("512 points", 0, 0, STILL_MAX_POINTS, 0);
    if (memcmp(points[0], first, sizeof first) != 0 || memcmp(points[480], outside, sizeof outside) != 0)
        wrong = 1, printf("wrong: the records of points\n");
    untouched("records behind the last", STILL_MAX_POINTS);
    as_traced("a point as a single trace", n, 2, points, STILL_MAX_POINTS);
    kept("words behind the file's table", table + STILL_TABLE_WORDS, 20, 0x09090909);
    lay_points();
    still_points(head, n, n, table, TABLE, 2, points[0], 0, out);
    told("no points", 0, 0, 0, 0);
    untouched("no points, no records", 0);
    still_points(head, n, n, table, TABLE, 2, NULL, 0, out);
    told("no points and null", 0, 0, 0, 0);
    still_points(head, n, n, table, TABLE, 3, NULL, 0, out);
    told("no points of no item", STILL_NO_SUCH_ITEM, 3, 0, 0);
}

/* Whether the records have these IDs and these places in `iinf`, and the way that still.h tells leads from each place to its record. */
static void ordered(const char *what, const uint32_t *ids, const uint32_t *places, uint32_t count)
{
    uint32_t row_of[STILL_MAX_ITEMS] = {0}, row;
    const uint32_t *records = table + STILL_ITEMS_AT;
    for (row = 0; row < table[0]; row++)
        row_of[records[STILL_ITEM_WORDS * row + STILL_ITEM_PLACE] % STILL_MAX_ITEMS] = row;
    if (table[0] != count)
        wrong = 1, printf("wrong: %s, how many\n", what);
    for (row = 0; row < count; row++)
        if (row_of[places[row]] != row || records[STILL_ITEM_WORDS * row + STILL_ITEM_ID] != ids[row])
            wrong = 1, printf("wrong: %s, row %u\n", what, (unsigned)row);
}

/* The same file with its two entries of `iinf` exchanged: item 2 comes first there, item 1 in the table. */
static void items_exchanged(size_t n)
{
    static const uint32_t ids[] = {1, 2}, rising[] = {0, 1}, falling[] = {1, 0};
    uint8_t entry[21], *first = head;
    still_verdict(head, n, n, table, TABLE, out);
    ordered("IDs that rise", ids, rising, 2);
    while (memcmp(first + 4, "infe", 4) != 0)
        first++;
    memcpy(entry, first, sizeof entry);
    memcpy(first, first + sizeof entry, sizeof entry);
    memcpy(first + sizeof entry, entry, sizeof entry);
    still_verdict(head, n, n, table, TABLE, out);
    told("entries exchanged", 0, 0, 2, 2);
    ordered("IDs that fall", ids, falling, 2);
    still_size(head, n, n, table, TABLE, 3, out);
    told("no item", STILL_NO_SUCH_ITEM, 3, 0, 0);
    ordered("a refusal with the file's table", ids, falling, 2);
    still_sources(head, n, n, table, TABLE, 2, list, 4, out);
    told("sources of entries exchanged", 0, 0, 1, 0);
    kept("their source", list, 1, 1);
    /* Both are protected: the first fault is that of the first entry. */
    first[15] = first[sizeof entry + 15] = 1;
    still_verdict(head, n, n, table, TABLE, out);
    told("the first fault", STILL_PROTECTED_OR_UNKNOWN, 2, 0, 0);
}

/* Whether the bytes of the buffer from one on are as they were lent; and then all of it is spoiled for the next call. */
static void behind(const char *what, size_t from)
{
    size_t i;
    for (i = from; i < sizeof body; i++) {
        if (body[i] != 9) {
            printf("wrong: %s, byte %lu\n", what, (unsigned long)i);
            wrong = 1;
            break;
        }
    }
    memset(body, 9, sizeof body);
}

/* Bodies that are answered: a joined one at the front of the buffer, also of the shortest that will do; none of a coded item. */
static void body_answered(size_t n)
{
    static const uint8_t right[] = {0, 0, 0, 1, 0, 128, 0, 48};
    size_t lent;
    for (lent = STILL_BODY_MAX; lent <= sizeof body; lent += sizeof body - STILL_BODY_MAX) {
        still_body(head, n, n, table, TABLE, 3, body, lent, out);
        told("a joined body", 0, 0, sizeof right, 0);
        if (memcmp(body, right, sizeof right) != 0)
            wrong = 1, printf("wrong: the bytes of a joined body\n");
        behind("bytes behind the body", sizeof right);
        kept("the table is the file's", table, 1, 5);
    }
    still_body(head, n, n, table, TABLE, 1, body, sizeof body, out);
    told("the body of a coded item", 0, 0, 0, 0);
    behind("no body, no bytes", 0);
    kept("words behind the file's table", table + STILL_TABLE_WORDS, 20, 0x09090909);
}

/* Refusals: none of them writes to the buffer. 1 comes before 31, and 31 before the file is read. */
static void body_refused(size_t n)
{
    still_body(head, n, n, table, TABLE, 5, body, sizeof body, out);
    told("the body of an opaque item", STILL_NO_PICTURE, 5, 0, 0);
    still_body(head, n, n, table, TABLE, 9, body, sizeof body, out);
    told("the body of no item", STILL_NO_SUCH_ITEM, 9, 0, 0);
    kept("the table is the file's", table, 1, 5);
    memset(table, 9, sizeof table);
    still_body(head, n, n, table, STILL_TABLE_WORDS - 1, 3, body, STILL_BODY_MAX - 1, out);
    told("a table and a buffer too short", STILL_TABLE_TOO_SHORT, 0, 0, 0);
    kept("refusal 1 writes nothing", table, TABLE, 0x09090909);
    still_body(head, n, n, table, TABLE, 3, body, STILL_BODY_MAX - 1, out);
    told("a buffer of one byte less", STILL_BODY_TOO_SHORT, 3, 0, 0);
    kept("its table", table, STILL_TABLE_WORDS, 0);
    kept("words behind it", table + STILL_TABLE_WORDS, 20, 0x09090909);
    memset(table, 9, sizeof table);
    still_body(head, n, n - 1, table, TABLE, 1, NULL, 0, out);
    told("no buffer, and more lent than the file has", STILL_BODY_TOO_SHORT, 1, 0, 0);
    kept("its table", table, STILL_TABLE_WORDS, 0);
    still_body(head, n, n - 1, table, TABLE, 3, body, sizeof body, out);
    told("more lent than the file has", STILL_HEAD_TOO_LONG, 0, 0, 0);
    still_body(head, 200, 200, table, TABLE, 3, body, sizeof body, out);
    told("the body in a file cut short", STILL_BAD_BOX_SIZE, 20, 0, 0);
    kept("a refused file's table", table, STILL_TABLE_WORDS, 0);
    behind("a refusal writes to no buffer", 0);
}

/* A chain that returns to itself: the reference of grid 3 names grid 4, and that of 4 names 3. */
static void chain_refused(size_t n)
{
    uint8_t *at = head, item;
    for (item = 3; item <= 4; item++) {
        while (memcmp(at, "\0\0\0\016iloc", 8) != 0)
            at++;
        at[13] = (uint8_t)(7 - item);
        at++;
    }
    still_verdict(head, n, n, table, TABLE, out);
    told("a chain that goes round", STILL_BYTES_WITHOUT_END, 3, 0, 0);
    kept("a refused file's table", table, STILL_TABLE_WORDS, 0);
}

/* The bytes of a file, of which the head has room for all: how many. */
static size_t read_all(const char *name)
{
    FILE *file = fopen(name, "rb");
    size_t n = file ? fread(head, 1, sizeof head, file) : 0;
    if (file)
        fclose(file);
    return n;
}

int main(int argc, char **argv)
{
    size_t n = argc == 3 ? read_all(argv[1]) : 0;
    memset(table, 9, sizeof table);
    memset(list, 9, sizeof list);
    memset(body, 9, sizeof body);

    still_verdict(NULL, 0, 0, NULL, 0, out);
    told("verdict, nothing lent", STILL_TABLE_TOO_SHORT, 0, 0, 0);
    still_size(NULL, 0, 0, NULL, 0, 1, out);
    told("size, nothing lent", STILL_TABLE_TOO_SHORT, 0, 0, 0);
    still_trace(NULL, 0, 0, NULL, 0, 1, 0, 0, out);
    told("trace, nothing lent", STILL_TABLE_TOO_SHORT, 0, 0, 0);
    still_points(NULL, 0, 0, NULL, 0, 1, NULL, 0, out);
    told("points, nothing lent", STILL_TABLE_TOO_SHORT, 0, 0, 0);
    still_sources(NULL, 0, 0, NULL, 0, 1, NULL, 0, out);
    told("sources, nothing lent", STILL_TABLE_TOO_SHORT, 0, 0, 0);
    still_property(NULL, 0, 0, NULL, 0, 1, 1, out);
    told("property, nothing lent", STILL_TABLE_TOO_SHORT, 0, 0, 0);
    still_orientation(NULL, 0, 0, NULL, 0, 1, out);
    told("orientation, nothing lent", STILL_TABLE_TOO_SHORT, 0, 0, 0);
    still_body(NULL, 0, 0, NULL, 0, 1, NULL, 0, out);
    told("body, nothing lent", STILL_TABLE_TOO_SHORT, 0, 0, 0);
    still_verdict(head, n, n, table, STILL_TABLE_WORDS - 1, out);
    told("a table of one word less", STILL_TABLE_TOO_SHORT, 0, 0, 0);
    kept("refusal 1 writes nothing", table, TABLE, 0x09090909);

    still_verdict(NULL, 0, n, table, TABLE, out);
    told("no head", STILL_NOT_A_STILL, 0, 0, 0);
    kept("a refused file's table", table, STILL_TABLE_WORDS, 0);
    kept("words behind it", table + STILL_TABLE_WORDS, 20, 0x09090909);

    still_sources(head, n, n, table, TABLE, 2, NULL, 0, out);
    told("no list", STILL_LIST_TOO_SHORT, 2, 0, 0);
    still_sources(head, n, n, table, TABLE, 2, list, 4, out);
    told("sources", 0, 0, 1, 0);
    kept("the source", list, 1, 1);
    kept("entries behind it", list + 1, 3, 0x09090909);
    kept("words behind the file's table", table + STILL_TABLE_WORDS, 20, 0x09090909);

    still_property(head, n, n, table, TABLE, 2, 2, out);
    told("property", 0, 0, 201, 9);
    still_trace(head, n, n, table, TABLE, 2, 480, 0, out);
    told("trace outside", STILL_OUTSIDE_THE_PICTURE, 2, 0, 0);
    still_orientation(head, n, n, table, TABLE, 2, out);
    told("orientation", 0, 0, 8, 0);
    still_orientation(head, n, n, table, TABLE, 1, out);
    told("orientation of an item without transforms", 0, 0, 1, 0);
    still_orientation(head, n, n, table, TABLE, 3, out);
    told("orientation of no item", STILL_NO_SUCH_ITEM, 3, 0, 0);
    kept("words behind the file's table", table + STILL_TABLE_WORDS, 20, 0x09090909);
    points_answered(n);
    points_refused(n);
    transforms();
    items_exchanged(n);
    if (argc == 3) {
        n = read_all(argv[2]);
        body_answered(n);
        body_refused(n);
        chain_refused(n);
    }
    return wrong;
}
