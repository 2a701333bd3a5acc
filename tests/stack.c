/* How much stack each question takes: each call runs on a painted stack of its own, and what it has touched is counted.
 * stack FILE..: asks every question about items of each file, spread over those that it has, and prints the most bytes of each. */
#define _GNU_SOURCE
#include <pthread.h>
#include <stdio.h>
#include <stdlib.h>
#include <string.h>

#include "still.h"

enum { VERDICT, SIZE, TRACE, POINTS, SOURCES, PROPERTY, ORIENTATION, TRANSFORMS, BODY, QUESTIONS, NOTHING = QUESTIONS };

static const char *const NAMES[QUESTIONS] = {"verdict", "size", "trace", "points", "sources", "property", "orientation", "transforms", "body"};
static const size_t ROOM = 1u << 20;
static const unsigned char PAINT = 0xa5;

static unsigned char *stack;
static uint8_t head[STILL_HEAD_MAX];
static size_t length;
static uint32_t table[STILL_TABLE_WORDS], list[STILL_MAX_ITEMS], points[STILL_MAX_POINTS * STILL_POINT_WORDS];
static uint8_t body[STILL_BODY_MAX];
static int asked;
static uint32_t item;

static void *ask(void *nothing)
{
    uint64_t out[STILL_OUT];
    switch (asked) {
    case VERDICT: still_verdict(head, length, length, table, STILL_TABLE_WORDS, out); break;
    case SIZE: still_size(head, length, length, table, STILL_TABLE_WORDS, item, out); break;
    case TRACE: still_trace(head, length, length, table, STILL_TABLE_WORDS, item, 0, 0, out); break;
    case POINTS: still_points(head, length, length, table, STILL_TABLE_WORDS, item, points, STILL_MAX_POINTS, out); break;
    case SOURCES: still_sources(head, length, length, table, STILL_TABLE_WORDS, item, list, STILL_MAX_ITEMS, out); break;
    case PROPERTY: still_property(head, length, length, table, STILL_TABLE_WORDS, item, 1, out); break;
    case ORIENTATION: still_orientation(head, length, length, table, STILL_TABLE_WORDS, item, out); break;
    case TRANSFORMS: still_transforms(item % 10, out); break;
    case BODY: still_body(head, length, length, table, STILL_TABLE_WORDS, item, body, STILL_BODY_MAX, out); break;
    default: break;
    }
    return nothing;
}

static size_t touched(int question)
{
    pthread_attr_t own;
    pthread_t thread;
    size_t clean = 0;
    asked = question;
    memset(stack, PAINT, ROOM);
    if (pthread_attr_init(&own) != 0 || pthread_attr_setstack(&own, stack, ROOM) != 0 || pthread_create(&thread, &own, ask, NULL) != 0)
        exit(2);
    pthread_join(thread, NULL);
    while (stack[clean] == PAINT)
        clean++;
    return ROOM - clean;
}

static void read_head(const char *path)
{
    FILE *file = fopen(path, "rb");
    if (file == NULL)
        exit(2);
    length = fread(head, 1, sizeof head, file);
    fclose(file);
}

int main(int count, char **paths)
{
    size_t most[QUESTIONS] = {0};
    long calls = 0;
    stack = aligned_alloc(4096, ROOM);
    const size_t thread_itself = touched(NOTHING);
    for (int k = 1; k < count; k++) {
        uint64_t out[STILL_OUT];
        uint32_t ids[STILL_MAX_ITEMS];
        read_head(paths[k]);
        still_verdict(head, length, length, table, STILL_TABLE_WORDS, out);
        const uint32_t items = out[0] == 0 ? (uint32_t)out[2] : 1;
        for (uint32_t row = 0; row < items; row++)
            ids[row] = table[16 + 16 * row];
        /* A dozen items of each file are enough, the last ones among them. */
        for (uint32_t row = 0; row < items; row += 1 + items / 12) {
            item = ids[items - 1 - row];
            for (int question = VERDICT; question < QUESTIONS; question++, calls++) {
                const size_t bytes = touched(question) - thread_itself;
                if (bytes > most[question])
                    most[question] = bytes;
            }
        }
    }
    for (int question = VERDICT; question < QUESTIONS; question++)
        printf("%s %zu\n", NAMES[question], most[question]);
    printf("%ld calls\n", calls);
    return 0;
}
