/* Makes each call once to settle what the loader does late, then once more between begin_count and end_count, where its
 * instructions are counted: by callgrind (-DCALLGRIND), or by plugin.c, which knows the two functions by their names.
 * count FOLDER WHO...: WHO is proved, second or libheif; the cases are those of FOLDER/cases.txt. Each count is a dump,
 * and each has its line on standard output, in the same order: the label `who question name` and what was answered. */
#include <stdio.h>
#include <stdlib.h>
#include <string.h>
#ifdef CALLGRIND
#include <valgrind/callgrind.h>
#else
#define CALLGRIND_TOGGLE_COLLECT __asm__ volatile("")
#define CALLGRIND_DUMP_STATS __asm__ volatile("")
#endif

#include "second.h"
#include "still.h"
#ifdef LIBHEIF
#include <libheif/heif.h>
#endif

enum { WORDS = 11280 };

/* By where its bytes begin memset goes round once more or less: here, and on the stack (main), that is held the same. */
static _Alignas(64) uint8_t head[1 << 17];
static _Alignas(64) uint32_t table[WORDS], list[256];
static _Alignas(64) uint64_t out[8];

struct question {
    char name[80];
    size_t length;
    unsigned item, x, y;
};

static const char *const questions[] = {"verdict", "size", "trace", "sources", "points"};

/* Points are asked of these: 512 along the line from the first pixel to the last. */
enum { POINTS = 512, POINT_WORDS = 9 };
static const char *const seams[] = {"phone-48", "fullest", "shared-deep"};
static _Alignas(64) uint32_t points[POINTS * POINT_WORDS];

static int has_seam(const char *name)
{
    for (size_t k = 0; k < sizeof seams / sizeof *seams; k++)
        if (!strcmp(name, seams[k]))
            return 1;
    return 0;
}

static void lay_seam(const struct question *q)
{
    second_size(head, q->length, q->length, table, WORDS, q->item, out);
    for (uint64_t k = 0; k < POINTS; k++) {
        points[k * POINT_WORDS] = (uint32_t)((out[4] - 1) * k / (POINTS - 1));
        points[k * POINT_WORDS + 1] = (uint32_t)((out[5] - 1) * k / (POINTS - 1));
    }
}

static void ask_proved(int which, const struct question *q)
{
    switch (which) {
    case 0: still_verdict(head, q->length, q->length, table, WORDS, out); break;
    case 1: still_size(head, q->length, q->length, table, WORDS, q->item, out); break;
    case 2: still_trace(head, q->length, q->length, table, WORDS, q->item, q->x, q->y, out); break;
    case 4: still_points(head, q->length, q->length, table, WORDS, q->item, points, POINTS, out); break;
    default: still_sources(head, q->length, q->length, table, WORDS, q->item, list, 256, out); break;
    }
}

static void ask_second(int which, const struct question *q)
{
    switch (which) {
    case 0: second_verdict(head, q->length, q->length, table, WORDS, out); break;
    case 1: second_size(head, q->length, q->length, table, WORDS, q->item, out); break;
    case 2: second_trace(head, q->length, q->length, table, WORDS, q->item, q->x, q->y, out); break;
    case 4: second_points(head, q->length, q->length, table, WORDS, q->item, points, POINTS, out); break;
    default: second_sources(head, q->length, q->length, table, WORDS, q->item, list, 256, out); break;
    }
}

/* noipa: what stands around a call is compiled the same, whatever is in these two. */
__attribute__((noinline, noipa)) void begin_count(void)
{
    CALLGRIND_TOGGLE_COLLECT;
}

__attribute__((noinline, noipa)) void end_count(void)
{
    CALLGRIND_TOGGLE_COLLECT;
    CALLGRIND_DUMP_STATS;
}

static void say(const char *who, const char *question, const char *name)
{
    printf("%s %s %s:", who, question, name);
    for (int k = 0; k < 8; k++)
        printf(" %llu", (unsigned long long)out[k]);
    printf("\n");
}

static void count_reader(const char *who, void (*ask)(int, const struct question *), const struct question *q)
{
    int asked = has_seam(q->name) ? 5 : 4;
    lay_seam(q);
    for (int which = 0; which < asked; which++) {
        ask(which, q);
        begin_count();
        ask(which, q);
        end_count();
        say(who, questions[which], q->name);
    }
}

#ifdef LIBHEIF
static void open_libheif(const struct question *q, int counted)
{
    struct heif_context *context = heif_context_alloc();
    if (counted)
        begin_count();
    struct heif_error error = heif_context_read_from_memory_without_copy(context, head, q->length, NULL);
    if (counted)
        end_count();
    memset(out, 0, sizeof out);
    out[0] = error.code;
    out[1] = error.subcode;
    heif_context_free(context);
}

static void count_libheif(const struct question *q)
{
    open_libheif(q, 0);
    open_libheif(q, 1);
    say("libheif", "open", q->name);
}
#endif

static int load(const char *folder, const struct question *q)
{
    char path[1024];
    snprintf(path, sizeof path, "%s/%s.bin", folder, q->name);
    FILE *file = fopen(path, "rb");
    if (file == NULL)
        return 0;
    size_t length = fread(head, 1, sizeof head, file);
    fclose(file);
    return length == q->length;
}

static void count_one(const char *who, const struct question *q)
{
    if (!strcmp(who, "proved"))
        count_reader(who, ask_proved, q);
    else if (!strcmp(who, "second"))
        count_reader(who, ask_second, q);
#ifdef LIBHEIF
    else
        count_libheif(q);
#endif
}

static __attribute__((noinline)) int count_all(int argc, char **argv)
{
    char path[1024];
    struct question q;
    /* The cost of counting nothing, to be taken off. */
    begin_count();
    end_count();
    say("nothing", "-", "-");
    snprintf(path, sizeof path, "%s/cases.txt", argv[1]);
    FILE *cases = fopen(path, "r");
    if (cases == NULL)
        return fprintf(stderr, "cannot open %s\n", path), 2;
    while (fscanf(cases, "%79s %zu %u %u %u", q.name, &q.length, &q.item, &q.x, &q.y) == 5) {
        if (!load(argv[1], &q))
            return fprintf(stderr, "cannot read %s\n", q.name), 2;
        for (int k = 2; k < argc; k++)
            count_one(argv[k], &q);
    }
    fclose(cases);
    return 0;
}

int main(int argc, char **argv)
{
    if (argc < 3)
        return fprintf(stderr, "usage: count FOLDER WHO...\n"), 2;
    /* The stack begins where the environment ends; this brings it to the same place of a page. */
    volatile char *gap = __builtin_alloca((uintptr_t)__builtin_frame_address(0) % 4096 + 1);
    *gap = 0;
    int status = count_all(argc, argv);
    *gap = 1;
    return status;
}
