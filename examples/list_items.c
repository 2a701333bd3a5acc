/* list_items FILE [ID]: the items of a still in the order of the file; or the one with an ID. After `tools/archive`:
 * gcc -std=c99 -Iinclude examples/list_items.c target/staticlib/libstill_c.a -o list_items
 */
#include <inttypes.h>
#include <stdio.h>
#include <stdlib.h>

#include "still.h"

static uint8_t head[STILL_HEAD_MAX];
static uint32_t table[STILL_TABLE_WORDS];

static const uint32_t *record(uint32_t row)
{
    return table + STILL_ITEMS_AT + STILL_ITEM_WORDS * row;
}

/* The record of an item, by halving: records stand in rising order of their IDs. */
static const uint32_t *find(uint32_t id)
{
    uint32_t low = 0, high = table[0];
    while (low < high) {
        uint32_t middle = (low + high) / 2;
        if (record(middle)[STILL_ITEM_ID] < id)
            low = middle + 1;
        else
            high = middle;
    }
    return low < table[0] && record(low)[STILL_ITEM_ID] == id ? record(low) : NULL;
}

static void print(const uint32_t *item)
{
    uint32_t type = item[STILL_ITEM_TYPE];
    printf("item %" PRIu32 " %c%c%c%c, place %" PRIu32 ", output %" PRIu32 " x %" PRIu32 "\n", item[STILL_ITEM_ID], (int)(type >> 24),
           (int)(type >> 16 & 255), (int)(type >> 8 & 255), (int)(type & 255), item[STILL_ITEM_PLACE], item[STILL_ITEM_OUTPUT_WIDTH],
           item[STILL_ITEM_OUTPUT_HEIGHT]);
}

/* All of them, as `iinf` lists them: each record tells its place there. */
static void print_all(void)
{
    uint32_t row_of[STILL_MAX_ITEMS], k;
    for (k = 0; k < table[0]; k++)
        row_of[record(k)[STILL_ITEM_PLACE]] = k;
    for (k = 0; k < table[0]; k++)
        print(record(row_of[k]));
}

int main(int argc, char **argv)
{
    uint64_t out[STILL_OUT];
    FILE *file = argc > 1 ? fopen(argv[1], "rb") : NULL;
    size_t n = file ? fread(head, 1, sizeof head, file) : 0;
    long total = file && fseek(file, 0, SEEK_END) == 0 ? ftell(file) : -1;
    if (total < 0) {
        fprintf(stderr, "usage: list_items FILE [ID]\n");
        return 2;
    }
    fclose(file);
    still_verdict(head, n, (uint64_t)total, table, STILL_TABLE_WORDS, out);
    if (out[0] != STILL_ACCEPTED) {
        printf("refused %" PRIu64 " at %" PRIu64 "\n", out[0], out[1]);
        return 1;
    }
    if (argc == 2) {
        print_all();
        return 0;
    }
    const uint32_t *item = find((uint32_t)strtoul(argv[2], NULL, 10));
    if (item == NULL)
        return printf("no such item\n"), 1;
    print(item);
    return 0;
}
