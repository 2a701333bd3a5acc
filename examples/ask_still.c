/* ask_still FILE: whether a still is accepted, and the sizes of its primary item. After `tools/archive`:
 * gcc -std=c99 -Iinclude examples/ask_still.c target/staticlib/libstill_c.a -o ask_still
 */
#include <inttypes.h>
#include <stdio.h>

#include "still.h"

static uint8_t head[STILL_HEAD_MAX];
static uint32_t table[STILL_TABLE_WORDS];

int main(int argc, char **argv)
{
    uint64_t out[STILL_OUT];
    FILE *file = argc == 2 ? fopen(argv[1], "rb") : NULL;
    size_t n = file ? fread(head, 1, sizeof head, file) : 0;
    long total = file && fseek(file, 0, SEEK_END) == 0 ? ftell(file) : -1;
    if (total < 0) {
        fprintf(stderr, "usage: ask_still FILE\n");
        return 2;
    }
    fclose(file);
    still_verdict(head, n, (uint64_t)total, table, STILL_TABLE_WORDS, out);
    if (out[0] == STILL_ACCEPTED) {
        printf("accepted: items %" PRIu64 ", primary %" PRIu64 "\n", out[2], out[3]);
        still_size(head, n, (uint64_t)total, table, STILL_TABLE_WORDS, (uint32_t)out[3], out);
    }
    if (out[0] != STILL_ACCEPTED) {
        printf("refused %" PRIu64 " at %" PRIu64 "\n", out[0], out[1]);
        return 1;
    }
    printf("reconstructed %" PRIu64 " x %" PRIu64 ", output %" PRIu64 " x %" PRIu64 ", depth %" PRIu64 "\n", out[2], out[3], out[4], out[5], out[6]);
    return 0;
}
