/* still_pixels SEEN GIVEN [RIGHT]: holds sizes and traces of the proved library to what libheif shows (SEEN, by
   heif_pixels.c): the trace of each output pixel must lead to the coded pixel that has the colour libheif shows there. No
   two coded pixels of a file have the same colour, so only one will do. GIVEN is the folder of the stills that the
   library gets. Where RIGHT is named, GIVEN was made wrong on purpose: exactly the stills that are not as in RIGHT must
   be found to differ. */
#include <stdint.h>
#include <stdio.h>
#include <stdlib.h>
#include <string.h>

#include "still.h"

struct picture {
    unsigned id, wide, high;
    uint8_t *colours;
};

struct count {
    unsigned files, differing, pixels, differ;
};

struct still {
    uint8_t head[STILL_HEAD_MAX];
    size_t n;
};

static uint32_t table[STILL_TABLE_WORDS];
static struct picture shown, coded[STILL_MAX_ITEMS];
static unsigned coded_count;
static char name[200];

static int stop(const char *why)
{
    fprintf(stderr, "%s: %s\n", name, why);
    exit(2);
}

/* A picture of SEEN whose word was read. */
static void read_picture(FILE *seen, struct picture *p)
{
    if (fscanf(seen, "%u %u %u", &p->id, &p->wide, &p->high) != 3 || fgetc(seen) != '\n') stop("no picture");
    size_t n = (size_t)3 * p->wide * p->high;
    if (!(p->colours = malloc(n + 1)) || fread(p->colours, 1, n, seen) != n) stop("a picture is cut short");
}

/* The next file of SEEN; 0 at its end. */
static int read_file(FILE *seen)
{
    char word[10];
    free(shown.colours);
    while (coded_count) free(coded[--coded_count].colours);
    if (fscanf(seen, "%9s", word) != 1) return 0;
    if (strcmp(word, "file") || fscanf(seen, "%199s", name) != 1) stop("no file");
    while (fscanf(seen, "%9s", word) == 1) {
        if (!strcmp(word, "end")) return 1;
        if (coded_count == STILL_MAX_ITEMS) stop("too many items");
        read_picture(seen, strcmp(word, "shown") ? &coded[coded_count++] : &shown);
    }
    return stop("no end");
}

static unsigned long colour(const struct picture *p, uint64_t x, uint64_t y)
{
    const uint8_t *c = p->colours + 3 * (y * p->wide + x);
    return (unsigned long)c[0] << 16 | (unsigned long)c[1] << 8 | c[2];
}

/* Otherwise agreement would say little. */
static void must_be_distinct(void)
{
    static uint8_t met[1 << 24];
    memset(met, 0, sizeof met);
    for (unsigned k = 0; k < coded_count; k++)
        for (unsigned y = 0; y < coded[k].high; y++)
            for (unsigned x = 0; x < coded[k].wide; x++)
                if (met[colour(&coded[k], x, y)]++) stop("two coded pixels have the same colour");
}

static void read_still(struct still *s, const char *folder)
{
    char path[1000];
    snprintf(path, sizeof path, "%s/%s.heif", folder, name);
    FILE *file = fopen(path, "rb");
    if (!file) stop(folder);
    s->n = fread(s->head, 1, sizeof s->head, file);
    if (fgetc(file) != EOF) stop("longer than a head");
    fclose(file);
}

/* Whether it is accepted with libheif's primary item and size; what the library told last stays in out. */
static int same_size(const struct still *s, uint64_t *out)
{
    still_verdict(s->head, s->n, s->n, table, STILL_TABLE_WORDS, out);
    if (out[0] || out[3] != shown.id) return 0;
    still_size(s->head, s->n, s->n, table, STILL_TABLE_WORDS, shown.id, out);
    return !out[0] && out[4] == shown.wide && out[5] == shown.high;
}

static int leads_there(const struct still *s, unsigned x, unsigned y)
{
    uint64_t out[STILL_OUT];
    still_trace(s->head, s->n, s->n, table, STILL_TABLE_WORDS, shown.id, x, y, out);
    if (out[0] || out[2] != STILL_PIXEL) return 0;
    for (unsigned k = 0; k < coded_count; k++)
        if (coded[k].id == out[3])
            return out[4] < coded[k].wide && out[5] < coded[k].high
                   && colour(&coded[k], out[4], out[5]) == colour(&shown, x, y);
    return 0;
}

/* How many output pixels differ: all of them where the sizes do. */
static unsigned differing(const struct still *s)
{
    unsigned differ = 0;
    uint64_t out[STILL_OUT];
    if (!same_size(s, out)) return shown.wide * shown.high;
    for (unsigned y = 0; y < shown.high; y++)
        for (unsigned x = 0; x < shown.wide; x++) differ += !leads_there(s, x, y);
    return differ;
}

static void add(struct count *c, unsigned pixels, unsigned differ)
{
    c->files++;
    c->differing += differ != 0;
    c->pixels += pixels;
    c->differ += differ;
}

static int say(const char *what, const struct count *c)
{
    printf("%s: %u files, %u pixels, %u differ", what, c->files, c->pixels, c->differ);
    printf(c->differ ? " in %u files\n" : "\n", c->differing);
    return c->differ != 0 || !c->files;
}

/* The first word of a name says of which kind the still is. */
static void say_kind(const char *next, struct count *of_kind)
{
    static char kind[sizeof name];
    size_t letters = strcspn(next, "-");
    if (strlen(kind) == letters && !strncmp(kind, next, letters)) return;
    if (of_kind->files) say(kind, of_kind);
    memset(of_kind, 0, sizeof *of_kind);
    memcpy(kind, next, letters);
    kind[letters] = 0;
}

static void say_differing(const struct still *s, unsigned differ)
{
    uint64_t out[STILL_OUT];
    printf("%s: %u of %u pixels differ", name, differ, shown.wide * shown.high);
    if (!same_size(s, out)) {
        printf("; libheif: item %u, %u x %u; here: ", shown.id, shown.wide, shown.high);
        for (int k = 0; k < 6; k++) printf("%llu ", (unsigned long long)out[k]);
    }
    printf("\n");
}

static int hold_all(FILE *seen, const char *given)
{
    static struct still still;
    struct count all = {0}, of_kind = {0};
    while (read_file(seen)) {
        must_be_distinct();
        read_still(&still, given);
        unsigned pixels = shown.wide * shown.high, differ = differing(&still);
        say_kind(name, &of_kind);
        add(&of_kind, pixels, differ);
        add(&all, pixels, differ);
        if (differ) say_differing(&still, differ);
    }
    say_kind("", &of_kind);
    return say("pixels", &all);
}

static int hold_planted(FILE *seen, const char *given, const char *right)
{
    static struct still still, good;
    struct count wrong = {0}, untouched = {0};
    while (read_file(seen)) {
        read_still(&still, given);
        read_still(&good, right);
        int same = still.n == good.n && !memcmp(still.head, good.head, good.n);
        unsigned differ = differing(&still);
        if (same == (differ != 0)) printf("%s: %s, %u pixels differ\n", name, same ? "not changed" : "changed", differ);
        add(same ? &untouched : &wrong, shown.wide * shown.high, differ);
    }
    say("made wrong", &wrong);
    say("left right", &untouched);
    return !wrong.files || wrong.differing != wrong.files || untouched.differ;
}

int main(int argc, char **argv)
{
    FILE *seen = argc == 3 || argc == 4 ? fopen(argv[1], "rb") : NULL;
    if (!seen) return fprintf(stderr, "usage: still_pixels SEEN GIVEN [RIGHT]\n"), 2;
    return argc == 3 ? hold_all(seen, argv[2]) : hold_planted(seen, argv[2], argv[3]);
}
