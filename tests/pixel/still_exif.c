/* still_exif lists   for each Exif orientation, 1 to 8, the transforms that the library gives: a line of still_transforms's
                      eight numbers
   still_exif chains  for each head on standard input (its length in a line, then its bytes) a line: refusal and number by
                      still_orientation for item 1, refusal, width and height by still_size, and for each output pixel,
                      row by row, refusal, x and y by still_trace
   exif.py writes the heads and compares. */
#include <inttypes.h>
#include <stdio.h>
#include <string.h>

#include "still.h"

static uint8_t head[STILL_HEAD_MAX];
static uint32_t table[STILL_TABLE_WORDS];

static void say(const uint64_t *out, int from, int to)
{
    for (int k = from; k < to; k++) printf("%" PRIu64 " ", out[k]);
}

static void lists(void)
{
    uint64_t out[STILL_OUT];
    for (uint32_t n = 1; n <= 8; n++) {
        still_transforms(n, out);
        say(out, 0, STILL_OUT);
        printf("\n");
    }
}

static void traces(size_t n, uint64_t wide, uint64_t high)
{
    uint64_t out[STILL_OUT];
    for (uint32_t y = 0; y < high; y++)
        for (uint32_t x = 0; x < wide; x++) {
            still_trace(head, n, n, table, STILL_TABLE_WORDS, 1, x, y, out);
            say(out, 0, 1);
            say(out, 4, 6);
        }
}

static void answer(size_t n)
{
    uint64_t out[STILL_OUT];
    still_orientation(head, n, n, table, STILL_TABLE_WORDS, 1, out);
    say(out, 0, 1);
    say(out, 2, 3);
    still_size(head, n, n, table, STILL_TABLE_WORDS, 1, out);
    say(out, 0, 1);
    say(out, 4, 6);
    traces(n, out[4], out[5]);
    printf("\n");
}

static int chains(void)
{
    size_t n;
    while (scanf("%zu", &n) == 1) {
        if (getchar() != '\n' || n > sizeof head || fread(head, 1, n, stdin) != n) return 2;
        answer(n);
    }
    return 0;
}

int main(int argc, char **argv)
{
    if (argc == 2 && !strcmp(argv[1], "chains")) return chains();
    if (argc != 2 || strcmp(argv[1], "lists")) return fprintf(stderr, "usage: still_exif lists | chains\n"), 2;
    lists();
    return 0;
}
