/* print_body FILE ITEM: the body of a grid or an overlay, joined from wherever its bytes lie, in hex; of a grid also in words. After
 * `tools/archive`: gcc -std=c99 -Iinclude examples/print_body.c target/staticlib/libstill_c.a -o print_body
 */
#include <inttypes.h>
#include <stdio.h>
#include <stdlib.h>

#include "still.h"

#define GRID 0x67726964

static uint8_t head[STILL_HEAD_MAX];
static uint8_t body[STILL_BODY_MAX];
static uint32_t table[STILL_TABLE_WORDS];

/* The type of the item with an ID, which the file has: records stand in rising order of their IDs. */
static uint32_t type_of(uint32_t item)
{
    const uint32_t *records = table + STILL_ITEMS_AT;
    uint32_t from = 0, to = table[0];
    while (to - from > 1) {
        uint32_t middle = from + (to - from) / 2;
        if (records[STILL_ITEM_WORDS * middle + STILL_ITEM_ID] <= item)
            from = middle;
        else
            to = middle;
    }
    return records[STILL_ITEM_WORDS * from + STILL_ITEM_TYPE];
}

/* A number of so many bytes, the highest first. */
static uint32_t number(const uint8_t *from, int bytes)
{
    uint32_t n = 0;
    while (bytes-- > 0)
        n = n << 8 | *from++;
    return n;
}

/* The numbers of a grid's body: an accepted file has them all. */
static void print_grid(void)
{
    int bytes = body[1] & 1 ? 4 : 2;
    printf("%d x %d tiles, canvas %" PRIu32 " x %" PRIu32 "\n", body[3] + 1, body[2] + 1, number(body + 4, bytes), number(body + 4 + bytes, bytes));
}

int main(int argc, char **argv)
{
    uint64_t out[STILL_OUT], i;
    FILE *file = argc == 3 ? fopen(argv[1], "rb") : NULL;
    size_t n = file ? fread(head, 1, sizeof head, file) : 0;
    long total = file && fseek(file, 0, SEEK_END) == 0 ? ftell(file) : -1;
    uint32_t item = argc == 3 ? (uint32_t)strtoul(argv[2], NULL, 10) : 0;
    if (total < 0) {
        fprintf(stderr, "usage: print_body FILE ITEM\n");
        return 2;
    }
    fclose(file);
    still_body(head, n, (uint64_t)total, table, STILL_TABLE_WORDS, item, body, sizeof body, out);
    if (out[0] != STILL_ACCEPTED) {
        printf("refused %" PRIu64 " at %" PRIu64 "\n", out[0], out[1]);
        return 1;
    }
    printf("%" PRIu64 " bytes", out[2]);
    for (i = 0; i < out[2]; i++)
        printf("%s%02x", i == 0 ? ": " : "", body[i]);
    printf("\n");
    if (type_of(item) == GRID)
        print_grid();
    return 0;
}
