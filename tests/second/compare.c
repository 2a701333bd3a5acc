/* Asks the proved library and the second reading the same questions about generated files and compares every number,
 * every word of the table and of the list. Each slice lies against an inaccessible page, the head is read-only, and
 * what no rule lets a call write is checked to be as before.
 *
 * compare CALLS SEED DUMP [FOLDER...]: DUMP is where the file of a difference goes, folders hold seed files. */
#define _GNU_SOURCE
#include <signal.h>
#include <stdio.h>
#include <stdlib.h>
#include <string.h>
#include <sys/mman.h>
#include <time.h>
#include <unistd.h>

#include "generate.h"
#include "later.h"
#include "second.h"
#include "still.h"

enum {
    PAGE = 4096,
    WORDS = 11280,
    TABLE_ROOM = 12 * PAGE,
    LIST_ROOM = 5 * PAGE,
    POINT_WORDS = 9,
    OUT_ROOM = PAGE,
    BUFFER_ROOM = 17 * PAGE, /* a head and a page */
    BODY = 16402,
    ENOUGH = 20, /* differences: more would tell nothing new */
    HEAD_ROOM = STILL_ROOM,
    POOL = BUFFER_ROOM + 64 * 1024
};

enum question {
    VERDICT, SIZE, TRACE, SOURCES, PROPERTY, ORIENTATION, TRANSFORMS, POINTS, BODY_OF, MATRIX, MATRIX_TRACE, BYTES, REWRITE,
    REPORT, SOUND_SIZE, SOUND_TRACE, SOUND_SOURCES
};

static const char *const question_name[] = {"verdict",     "size",       "trace", "sources", "property",
                                            "orientation", "transforms", "points",  "body",
                                            "matrix",      "matrix-trace", "bytes", "rewrite", "report",
                                            "sound-size",  "sound-trace",  "sound-sources"};

/* The level from which on a call may be refused by a number; 99: never. */
static const uint8_t number_since[] = {[26] = 3,  [27] = 3,  [28] = 4,  [29] = 5,  [30] = 7,  [31] = 7,  [32] = 10,
                                       [33] = 10, [34] = 99, [35] = 99, [36] = 99, [37] = 11, [38] = 11, [39] = 12};

struct call {
    enum question question;
    uint32_t item, x, y; /* x is also the property's number, or the orientation; with points both are the sides */
    size_t table_len, list_len; /* in words; a point has nine of them */
    size_t buffer_len;          /* in bytes */
    int far; /* slices end at the guard page behind them, else begin at the one before */
};

/* Room between two inaccessible pages. */
struct arena {
    uint8_t *start;
    size_t room;
};

struct side {
    struct arena table, list, buffer, out;
};

static struct side sides[2]; /* the proved library, the second reading */
static struct arena head, companion; /* read-only; written through the writers */
static uint8_t *head_writer, *companion_writer;
static uint8_t pool[POOL]; /* random bytes that slices are filled from */
static uint8_t list_fill[LIST_ROOM]; /* what the list held before: random, with points in it where they are asked for */
static struct still still;
static struct call asked;
static int running = -1; /* which side, for the report of a crash */
static const char *dump_path;
static unsigned long calls, differences, files, by_number[64];
/* Calls that left records, and of those whose IDs do not rise in `iinf` some kinds; calls refused by a repeated ID. */
static struct { unsigned long records, unsorted, falling, full, both_ends, repeated; } ids;

/* ---- Memory ---- */

static void fail(const char *what)
{
    perror(what);
    exit(2);
}

static struct arena make_arena(size_t room)
{
    uint8_t *p = mmap(NULL, room + 2 * PAGE, PROT_NONE, MAP_PRIVATE | MAP_ANONYMOUS, -1, 0);
    if (p == MAP_FAILED || mprotect(p + PAGE, room, PROT_READ | PROT_WRITE) != 0)
        fail("mmap");
    return (struct arena){p + PAGE, room};
}

/* Two views of the same memory: one to write the file through, one to lend. */
static void make_lent(struct arena *lent, uint8_t **writer)
{
    int memory = memfd_create("lent", 0);
    if (memory < 0 || ftruncate(memory, HEAD_ROOM) != 0)
        fail("memfd_create");
    uint8_t *p = mmap(NULL, HEAD_ROOM + 2 * PAGE, PROT_NONE, MAP_PRIVATE | MAP_ANONYMOUS, -1, 0);
    if (p == MAP_FAILED || mmap(p + PAGE, HEAD_ROOM, PROT_READ, MAP_SHARED | MAP_FIXED, memory, 0) == MAP_FAILED)
        fail("mmap");
    *lent = (struct arena){p + PAGE, HEAD_ROOM};
    *writer = mmap(NULL, HEAD_ROOM, PROT_READ | PROT_WRITE, MAP_SHARED, memory, 0);
    if (*writer == MAP_FAILED)
        fail("mmap");
}

static size_t place(const struct arena *arena, size_t bytes, int far)
{
    return far ? arena->room - bytes : 0;
}

/* ---- One call, on one side ---- */

/* What is lent of the file at `p` and, from Q-10 on, of its companion at `q`. */
#if LEVEL >= 10
#define LENT p, still.length, still.total, q, still.companion_length, still.companion_total
#else
#define LENT p, still.length, still.total
#endif

static void call_still(const struct call *c, const uint8_t *p, const uint8_t *q, uint32_t *table, uint32_t *list,
                       uint8_t *buffer, uint64_t *out)
{
    (void)buffer, (void)q;
    switch (c->question) {
    case VERDICT: still_verdict(LENT, table, c->table_len, out); break;
    case SIZE: still_size(LENT, table, c->table_len, c->item, out); break;
    case TRACE: still_trace(LENT, table, c->table_len, c->item, c->x, c->y, out); break;
    case SOURCES: still_sources(LENT, table, c->table_len, c->item, list, c->list_len, out); break;
    case PROPERTY: still_property(LENT, table, c->table_len, c->item, c->x, out); break;
#if LEVEL >= 3
    case ORIENTATION: still_orientation(LENT, table, c->table_len, c->item, out); break;
    case TRANSFORMS: still_transforms(c->x, out); break;
#endif
#if LEVEL >= 4
    case POINTS: still_points(LENT, table, c->table_len, c->item, list, c->list_len / POINT_WORDS, out); break;
#endif
#if LEVEL >= 7
    case BODY_OF: still_body(LENT, table, c->table_len, c->item, buffer, c->buffer_len, out); break;
#endif
#if LEVEL >= 9
    case MATRIX: still_matrix(LENT, table, c->table_len, c->item, out); break;
    case MATRIX_TRACE: still_trace_by_matrix(LENT, table, c->table_len, c->item, c->x, c->y, out); break;
#endif
#if LEVEL >= 10
    case BYTES: still_bytes(LENT, table, c->table_len, c->item, out); break;
#endif
#if LEVEL >= 11
    case REWRITE: still_rewrite(LENT, table, c->table_len, buffer, c->buffer_len, out); break;
#endif
#if LEVEL >= 12
    case REPORT: still_report(LENT, table, c->table_len, list, c->list_len, out); break;
    case SOUND_SIZE: still_sound_size(LENT, table, c->table_len, c->item, out); break;
    case SOUND_TRACE: still_sound_trace(LENT, table, c->table_len, c->item, c->x, c->y, out); break;
    case SOUND_SOURCES: still_sound_sources(LENT, table, c->table_len, c->item, list, c->list_len, out); break;
#endif
    default: break;
    }
}

static void call_second(const struct call *c, const uint8_t *p, const uint8_t *q, uint32_t *table, uint32_t *list,
                        uint8_t *buffer, uint64_t *out)
{
    (void)q;
    switch (c->question) {
    case VERDICT: second_verdict(LENT, table, c->table_len, out); break;
    case SIZE: second_size(LENT, table, c->table_len, c->item, out); break;
    case TRACE: second_trace(LENT, table, c->table_len, c->item, c->x, c->y, out); break;
    case SOURCES: second_sources(LENT, table, c->table_len, c->item, list, c->list_len, out); break;
    case PROPERTY: second_property(LENT, table, c->table_len, c->item, c->x, out); break;
    case ORIENTATION: second_orientation(LENT, table, c->table_len, c->item, out); break;
    case TRANSFORMS: second_transforms(c->x, out); break;
    case POINTS: second_points(LENT, table, c->table_len, c->item, list, c->list_len / POINT_WORDS, out); break;
    case BODY_OF: second_body(LENT, table, c->table_len, c->item, buffer, c->buffer_len, out); break;
    case MATRIX: second_matrix(LENT, table, c->table_len, c->item, out); break;
    case MATRIX_TRACE: second_trace_by_matrix(LENT, table, c->table_len, c->item, c->x, c->y, out); break;
    case BYTES: second_bytes(LENT, table, c->table_len, c->item, out); break;
    case REWRITE: second_rewrite(LENT, table, c->table_len, buffer, c->buffer_len, out); break;
    case REPORT: second_report(LENT, table, c->table_len, list, c->list_len, out); break;
    case SOUND_SIZE: second_sound_size(LENT, table, c->table_len, c->item, out); break;
    case SOUND_TRACE: second_sound_trace(LENT, table, c->table_len, c->item, c->x, c->y, out); break;
    case SOUND_SOURCES: second_sound_sources(LENT, table, c->table_len, c->item, list, c->list_len, out); break;
    }
}

static uint64_t *out_of(int side)
{
    return (uint64_t *)(sides[side].out.start + place(&sides[side].out, 64, asked.far));
}

static uint32_t *table_of(int side)
{
    return (uint32_t *)(sides[side].table.start + place(&sides[side].table, 4 * asked.table_len, asked.far));
}

static uint32_t *list_of(int side)
{
    return (uint32_t *)(sides[side].list.start + place(&sides[side].list, 4 * asked.list_len, asked.far));
}

static uint8_t *buffer_of(int side)
{
    return sides[side].buffer.start + place(&sides[side].buffer, asked.buffer_len, asked.far);
}

static int has_buffer(void)
{
    return asked.question == BODY_OF || asked.question == REWRITE;
}

static void run_side(int side, const uint8_t *fill)
{
    const uint8_t *p = head.start + place(&head, still.length, asked.far);
    const uint8_t *q = companion.start + place(&companion, still.companion_length, asked.far);
    memcpy(sides[side].table.start, fill, TABLE_ROOM);
    memcpy(sides[side].list.start, list_fill, LIST_ROOM);
    memcpy(sides[side].out.start, fill, OUT_ROOM);
    if (has_buffer()) /* large, so only where one is lent */
        memcpy(sides[side].buffer.start, fill, BUFFER_ROOM);
    running = side;
    if (side == 0)
        call_still(&asked, p, q, table_of(0), list_of(0), buffer_of(0), out_of(0));
    else
        call_second(&asked, p, q, table_of(1), list_of(1), buffer_of(1), out_of(1));
    running = -1;
}

/* ---- What both must have left alone ---- */

static int unchanged(const struct arena *arena, const uint8_t *fill, size_t from, size_t to)
{
    return memcmp(arena->start + from, fill + from, to - from) == 0;
}

/* All of the arena but the bytes from `at` on that may be written. */
static int unchanged_around(const struct arena *arena, const uint8_t *fill, size_t at, size_t count)
{
    return unchanged(arena, fill, 0, at) && unchanged(arena, fill, at + count, arena->room);
}

static int is_zero(const uint32_t *words, size_t count)
{
    uint32_t any = 0;
    while (count-- > 0)
        any |= *words++;
    return any == 0;
}

static int is_known(uint64_t number)
{
    return number < sizeof number_since && number_since[number] <= LEVEL;
}

/* Refusals after which the table is empty. */
static int empties(uint64_t number)
{
    return (number >= 2 && number <= 20) || (number >= 29 && number <= 32) || number == 37;
}

/* How many bytes of the list an answer may have written. */
static size_t list_written(const uint64_t *out)
{
    if (out[0] != 0)
        return 0;
    switch (asked.question) {
    case SOURCES:
    case SOUND_SOURCES: return 4 * (size_t)out[2];
    case POINTS: return 4 * asked.list_len;
    case REPORT: return 12 * (size_t)out[2];
    default: return 0;
    }
}

/* All of the buffer but the bytes that an answer says it wrote. */
static int buffer_stands(const uint8_t *fill, size_t written)
{
    const struct arena *buffer = &sides[0].buffer;
    return written <= asked.buffer_len &&
           unchanged_around(buffer, fill, place(buffer, asked.buffer_len, asked.far), written);
}

/* x and y of a point are read, not written. */
static int points_stand(size_t list_at)
{
    for (size_t at = 0; asked.question == POINTS && at < 4 * asked.list_len; at += 4 * POINT_WORDS)
        if (memcmp(list_fill + list_at + at, sides[0].list.start + list_at + at, 8) != 0)
            return 0;
    return 1;
}

/* The rules on writing, held against the proved library by themselves. */
static const char *broken_rule(const uint8_t *fill)
{
    const struct side *s = &sides[0];
    const uint64_t *out = out_of(0);
    uint64_t number = out[0];
    size_t table_at = place(&s->table, 4 * asked.table_len, asked.far);
    size_t list_at = place(&s->list, 4 * asked.list_len, asked.far), written = list_written(out);
    int reads = asked.question != TRANSFORMS; /* a file, and so has a table */
    if (!is_known(number))
        return "no such refusal";
    if ((number == 1) != (reads && asked.table_len < WORDS))
        return "refusal 1";
    if ((number == 27) != (!reads && (asked.x < 1 || asked.x > 8)))
        return "refusal 27";
    if (!unchanged_around(&s->table, fill, table_at, number == 1 || !reads ? 0 : 4 * WORDS))
        return "table written where it must not be";
    if (empties(number) && !is_zero(table_of(0), WORDS))
        return "table not empty";
    if (written > 4 * asked.list_len || !unchanged_around(&s->list, list_fill, list_at, written) || !points_stand(list_at))
        return "list written where it must not be";
    if (has_buffer() && !buffer_stands(fill, number == 0 ? (size_t)out[2] : 0))
        return "buffer written where it must not be";
    if ((number == 31) != (asked.question == BODY_OF && number != 1 && asked.buffer_len < BODY))
        return "refusal 31";
    if ((number == 37) != (asked.question == REWRITE && number != 1 && asked.buffer_len < still.length))
        return "refusal 37";
    if (!unchanged_around(&s->out, fill, place(&s->out, 64, asked.far), 64))
        return "written beside out";
    for (int k = 2; number != 0 && k < 8; k++)
        if (out[k] != 0)
            return "a refusal with other numbers";
    return NULL;
}

static const char *first_difference(void)
{
    static char text[100];
    const uint32_t *a = (const uint32_t *)sides[0].table.start, *b = (const uint32_t *)sides[1].table.start;
    if (memcmp(sides[0].out.start, sides[1].out.start, OUT_ROOM) != 0)
        return "out";
    if (memcmp(sides[0].list.start, sides[1].list.start, LIST_ROOM) != 0)
        return "list";
    if (has_buffer() && memcmp(sides[0].buffer.start, sides[1].buffer.start, BUFFER_ROOM) != 0)
        return "buffer";
    if (memcmp(a, b, TABLE_ROOM) == 0)
        return NULL;
    size_t k = 0;
    while (a[k] == b[k])
        k++;
    long at = (long)k - (long)(table_of(0) - a);
    snprintf(text, sizeof text, "table word %ld: %u and %u", at, (unsigned)a[k], (unsigned)b[k]);
    return text;
}

/* ---- Reports ---- */

static void dump_file(void)
{
    FILE *file = fopen(dump_path, "wb");
    if (file == NULL)
        return;
    fwrite(still.head, 1, still.length, file);
    fclose(file);
    char path[1024];
    snprintf(path, sizeof path, "%s.companion", dump_path);
    file = still.companion_length != 0 ? fopen(path, "wb") : NULL;
    if (file == NULL)
        return;
    fwrite(still.companion, 1, still.companion_length, file);
    fclose(file);
}

static void report(const char *what)
{
    static const char *const name[] = {"proved", "second"};
    printf("DIFFERENCE in file %lu: %s\n  %s item %u x %u y %u, table %zu words, list %zu, buffer %zu, %s, head %zu, total %llu",
           files, what, question_name[asked.question], (unsigned)asked.item, (unsigned)asked.x, (unsigned)asked.y,
           asked.table_len, asked.list_len, asked.buffer_len, asked.far ? "far" : "near", still.length,
           (unsigned long long)still.total);
    printf(", companion %zu, its total %llu\n", still.companion_length, (unsigned long long)still.companion_total);
    for (int side = 0; side < 2; side++) {
        printf("  %s:", name[side]);
        for (int k = 0; k < 8; k++)
            printf(" %llu", (unsigned long long)out_of(side)[k]);
        printf("\n");
    }
}

static void on_crash(int number)
{
    char text[200];
    int n = snprintf(text, sizeof text, "CRASH (signal %d) in %s, %s, file %lu, item %u x %u y %u, table %zu, list %zu, %s\n",
                     number, running == 0 ? "the proved library" : running == 1 ? "the second reading" : "compare",
                     question_name[asked.question], files, (unsigned)asked.item, (unsigned)asked.x, (unsigned)asked.y,
                     asked.table_len, asked.list_len, asked.far ? "far" : "near");
    if (write(1, text, (size_t)n) < 0)
        _exit(4);
    dump_file();
    _exit(3);
}

static void catch_crashes(void)
{
    static uint8_t stack[64 * 1024];
    stack_t other = {.ss_sp = stack, .ss_size = sizeof stack};
    struct sigaction action = {.sa_handler = on_crash, .sa_flags = SA_ONSTACK};
    sigaltstack(&other, NULL);
    sigaction(SIGSEGV, &action, NULL);
    sigaction(SIGBUS, &action, NULL);
    sigaction(SIGILL, &action, NULL);
    sigaction(SIGFPE, &action, NULL);
}

/* ---- Questions ---- */

static uint32_t some_place(struct dice *d, uint32_t side)
{
    switch (below(d, 10)) {
    case 0: return 0;
    case 1: return side - 1;
    case 2: return chance(d, 30) ? side : below(d, side);
    case 3: return chance(d, 30) ? (uint32_t)roll(d) : below(d, side);
    default: return below(d, side);
    }
}

static void lend_list(struct dice *d, const uint8_t *fill)
{
    memcpy(list_fill, fill, LIST_ROOM);
    uint8_t *p = list_fill + place(&sides[0].list, 4 * asked.list_len, asked.far);
    for (size_t k = 0; asked.question == POINTS && k < asked.list_len; k += POINT_WORDS, p += 4 * POINT_WORDS) {
        const uint32_t point[2] = {some_place(d, asked.x), some_place(d, asked.y)};
        memcpy(p, point, sizeof point);
    }
}

/* From Q-6 on a record has its place in `iinf` in its last word. */
static void note_ids(const uint32_t *table, const uint64_t *out)
{
    uint32_t count = table[0], rising = 1, falling = 1;
    ids.repeated += out[0] == 10 && out[1] + 8 <= still.length && memcmp(still.head + out[1] + 4, "infe", 4) == 0;
    if (count == 0)
        return;
    for (uint32_t k = 0; k < count; k++) {
        rising &= table[16 + 16 * k + 15] == k;
        falling &= table[16 + 16 * k + 15] == count - 1 - k;
    }
    ids.records++;
    ids.unsorted += !rising;
    ids.falling += !rising && falling;
    ids.full += !rising && count == 256;
    ids.both_ends += !rising && table[16] == 0 && table[16 * count] == 0xffffffffu;
}

static uint64_t ask(struct dice *d, struct call call)
{
    static const size_t lengths[] = {WORDS, WORDS, WORDS + 1, WORDS + 20, WORDS, WORDS + 1, WORDS + 20, 0, 1, WORDS - 1};
    const uint8_t *fill = pool + 4 * below(d, (POOL - BUFFER_ROOM) / 4);
    if (call.table_len == 0)
        call.table_len = lengths[below(d, chance(d, 15) ? 10 : 7)];
    asked = call;
    lend_list(d, fill);
    run_side(0, fill);
    run_side(1, fill);
    calls++;
    const char *what = first_difference(), *rule = broken_rule(fill);
    by_number[out_of(1)[0] & 63]++;
    if (LEVEL >= 6 && asked.question != TRANSFORMS && asked.table_len >= WORDS)
        note_ids(table_of(1), out_of(1));
    if (what != NULL || rule != NULL) {
        if (differences++ < 5)
            report(what != NULL ? what : rule);
        if (differences == 1)
            dump_file();
    }
    return out_of(1)[0];
}

static uint32_t some_item(struct dice *d, const uint32_t *table)
{
    uint32_t row = table[0] == 0 ? 0 : below(d, table[0]), id = table[16 + 16 * row];
    switch (below(d, 30)) {
    case 0: return id + 1;
    case 1: return (uint32_t)roll(d);
    case 2: return chance(d, 50) ? 0 : 0xffffffffu;
    case 3: return id ^ 65536;
    default: return chance(d, 30) ? table[5] : id;
    }
}

static void ask_traces(struct dice *d, struct call call, uint32_t width, uint32_t height)
{
    for (uint32_t k = 1 + below(d, 4); k > 0; k--) {
        call.question = LEVEL >= 9 && chance(d, 50) ? MATRIX_TRACE : TRACE;
        call.x = some_place(d, width);
        call.y = some_place(d, height);
        ask(d, call);
    }
}

/* Lists of no room, one too short, exact, one too long, and more. */
static void ask_sources(struct dice *d, struct call call)
{
    call.question = SOURCES;
    call.table_len = WORDS;
    call.list_len = 256;
    uint64_t number = ask(d, call);
    size_t exact = number == 0 ? (size_t)out_of(1)[2] : 1;
    call.table_len = 0;
    for (uint32_t k = 1 + below(d, 3); k > 0; k--) {
        const size_t lengths[] = {0, exact - 1, exact, exact + 1, exact + below(d, 200), 1};
        call.list_len = lengths[below(d, 6)];
        ask(d, call);
    }
}

static void ask_properties(struct dice *d, struct call call, uint32_t count)
{
    call.question = PROPERTY;
    for (uint32_t k = 1 + below(d, 3); k > 0; k--) {
        const uint32_t numbers[] = {0, 1, count, count + 1, 1 + below(d, count), (uint32_t)roll(d), 1 + below(d, count)};
        call.x = numbers[below(d, 7)];
        ask(d, call);
    }
}

static void ask_orientation(struct dice *d, struct call call)
{
    call.question = ORIENTATION;
    ask(d, call);
    call.question = TRANSFORMS;
    call.x = chance(d, 80) ? below(d, 11) : (uint32_t)roll(d);
    ask(d, call);
}

static void ask_points(struct dice *d, struct call call, uint32_t width, uint32_t height)
{
    const size_t counts[] = {0, 1, 2 + below(d, 5), below(d, 40), 511 + below(d, 4)};
    call.question = POINTS;
    call.x = width;
    call.y = height;
    call.list_len = POINT_WORDS * counts[below(d, chance(d, 20) ? 5 : 4)];
    ask(d, call);
}

/* How often a buffer may be too short, in percent: more often where the next number in the order would follow. */
static uint32_t short_often(void)
{
    return still.length > 65536 || still.total < still.length ? 70 : 15;
}

static void ask_body(struct dice *d, struct call call)
{
    const size_t lengths[] = {BODY, BODY, BODY + 1, BODY + below(d, 5000), BODY - 1, below(d, BODY)};
    call.question = BODY_OF;
    call.buffer_len = lengths[below(d, chance(d, short_often()) ? 6 : 4)];
    ask(d, call);
}

static void ask_rewrite(struct dice *d, struct call call)
{
    const size_t n = still.length, lengths[] = {n, n, n + 1, n + below(d, 300), n - (n != 0), below(d, (uint32_t)n + 1)};
    call.question = REWRITE;
    call.buffer_len = lengths[below(d, chance(d, short_often()) ? 6 : 4)];
    if (call.buffer_len > BUFFER_ROOM)
        call.buffer_len = BUFFER_ROOM;
    ask(d, call);
}

/* What the questions are asked about comes from the second reading's table. */
static void ask_about_item(struct dice *d, int far)
{
    struct call call = {.question = SIZE, .table_len = WORDS, .far = far};
    struct call verdict = {.question = VERDICT, .table_len = WORDS, .far = far};
    static uint32_t table[WORDS];
    ask(d, verdict);
    memcpy(table, table_of(1), sizeof table);
    for (uint32_t k = table[0] == 0 ? 1 : 2 + below(d, 3); k > 0; k--) {
        call.item = some_item(d, table);
        ask(d, call);
        uint32_t width = 1 + below(d, 9), height = 1 + below(d, 9), count = 2;
        for (uint32_t row = 0; row < table[0]; row++)
            if (table[16 + 16 * row] == call.item) {
                width = table[16 + 16 * row + 12];
                height = table[16 + 16 * row + 13];
                count = table[16 + 16 * row + 4];
            }
        struct call next = call;
        next.table_len = 0;
        ask_traces(d, next, width, height);
        ask_sources(d, next);
        ask_properties(d, next, count);
        if (LEVEL >= 3)
            ask_orientation(d, next);
        if (LEVEL >= 4)
            ask_points(d, next, width, height);
        if (LEVEL >= 7)
            ask_body(d, next);
        next.question = MATRIX;
        if (LEVEL >= 9)
            ask(d, next);
        next.question = BYTES;
        if (LEVEL >= 10)
            ask(d, next);
    }
}

/* Q-12's mode has a table of its own, also for a file that the verdict refuses. */
static void ask_sound(struct dice *d, int far)
{
    static uint32_t table[WORDS];
    struct call call = {.question = REPORT, .table_len = WORDS, .list_len = 768 + below(d, 4), .far = far};
    ask(d, call);
    memcpy(table, table_of(1), sizeof table);
    const size_t exact = 3 * table[0], lengths[] = {exact, exact + 1, exact - (exact != 0), exact + below(d, 30), 0};
    call.table_len = 0;
    call.list_len = lengths[below(d, 5)];
    ask(d, call);
    for (uint32_t k = table[0] == 0 ? 1 : 2 + below(d, 3); k > 0; k--) {
        call.item = some_item(d, table);
        uint32_t width = 1 + below(d, 9), height = 1 + below(d, 9);
        for (uint32_t row = 0; row < table[0]; row++)
            if (table[16 + 16 * row] == call.item && table[16 + 16 * row + 12] != 0) {
                width = table[16 + 16 * row + 12];
                height = table[16 + 16 * row + 13];
            }
        call.question = SOUND_SIZE;
        ask(d, call);
        call.question = SOUND_TRACE;
        call.x = some_place(d, width);
        call.y = some_place(d, height);
        ask(d, call);
        call.question = SOUND_SOURCES;
        call.list_len = chance(d, 50) ? 256 : below(d, 6);
        ask(d, call);
    }
}

static void ask_file(struct dice *d)
{
    int far = chance(d, 60);
    memcpy(head_writer + place(&head, still.length, far), still.head, still.length);
    memcpy(companion_writer + place(&companion, still.companion_length, far), still.companion, still.companion_length);
    struct call call = {.question = VERDICT, .far = far};
    ask(d, call);
    if (LEVEL >= 11)
        ask_rewrite(d, call);
    ask_about_item(d, far);
    if (LEVEL >= 12)
        ask_sound(d, far);
    files++;
}

static void ask_seeds(struct dice *d, const struct seeds *seeds)
{
    for (size_t k = 0; k < seeds->count && differences < ENOUGH; k++) {
        memcpy(still.head, seeds->file[k].bytes, seeds->file[k].length);
        still.length = seeds->file[k].length;
        still.total = seeds->file[k].total;
        lend_companion(&still, &seeds->file[k]);
        ask_file(d);
        ask_file(d);
    }
}

static void print_counts(double seconds)
{
    printf("refusals:");
    for (unsigned k = 0; k < sizeof number_since; k++)
        if (is_known(k))
            printf(" %u:%lu", k, by_number[k]);
    if (LEVEL >= 6)
        printf("\nrecords after %lu calls, %lu of them with IDs that do not rise in iinf: %lu fall throughout, %lu are 256, "
               "%lu reach from 0 to 2^32 - 1; %lu calls refused by a repeated ID",
               ids.records, ids.unsorted, ids.falling, ids.full, ids.both_ends, ids.repeated);
    printf("\n%lu files, %lu calls, %lu differences, %.0f seconds\n", files, calls, differences, seconds);
}

int main(int argc, char **argv)
{
    if (argc < 4)
        return fprintf(stderr, "usage: compare CALLS SEED DUMP [FOLDER...]\n"), 2;
    unsigned long wanted = strtoul(argv[1], NULL, 10);
    struct dice dice = dice_from(strtoull(argv[2], NULL, 10));
    struct seeds seeds = {NULL, 0};
    struct timespec before, after;
    dump_path = argv[3];
    for (int k = 4; k < argc; k++)
        add_seeds(&seeds, argv[k]);
    for (size_t k = 0; k < POOL; k++)
        pool[k] = (uint8_t)roll(&dice);
    for (int side = 0; side < 2; side++)
        sides[side] = (struct side){make_arena(TABLE_ROOM), make_arena(LIST_ROOM), make_arena(BUFFER_ROOM),
                                    make_arena(OUT_ROOM)};
    make_lent(&head, &head_writer);
    make_lent(&companion, &companion_writer);
    catch_crashes();
    clock_gettime(CLOCK_MONOTONIC, &before);
    ask_seeds(&dice, &seeds);
    while (calls < wanted && differences < ENOUGH) {
        generate(&dice, &seeds, &still);
        ask_file(&dice);
    }
    clock_gettime(CLOCK_MONOTONIC, &after);
    print_counts((double)(after.tv_sec - before.tv_sec) + 1e-9 * (double)(after.tv_nsec - before.tv_nsec));
    free_seeds(&seeds);
    return differences != 0;
}
