/* Holds the sizes that the proved library gives to those that libheif gives (what heif_sizes.c says, on standard input). */
#include "files.h"

static uint32_t table[STILL_TABLE_WORDS];
static int good[1024];
static unsigned accepted, told, opened, sizes, differ;

static void compare(const struct file *f, unsigned id, unsigned wide, unsigned high)
{
    uint64_t out[STILL_OUT];
    still_size(f->head, f->n, f->total, table, STILL_TABLE_WORDS, id, out);
    sizes++;
    if (out[0] || out[4] != wide || out[5] != high) {
        differ++;
        printf("%s item %u: libheif %u x %u, here %llu x %llu, refusal %llu\n", f->name, id, wide, high,
               (unsigned long long)out[4], (unsigned long long)out[5], (unsigned long long)out[0]);
    }
}

static int hold(const char *line)
{
    unsigned i, id, wide, high;
    int message;
    if (sscanf(line, "size %u %u %u %u", &i, &id, &wide, &high) == 4 && i < count) {
        if (good[i]) compare(&files[i], id, wide, high);
    } else if (sscanf(line, "opened %u", &i) == 1 && i < count) {
        told++;
        if (good[i]) opened++;
    } else if (sscanf(line, "closed %u %n", &i, &message) == 1 && i < count) {
        told++;
        if (good[i]) printf("%s: libheif does not open it: %s", files[i].name, line + message);
    } else {
        return 0;
    }
    return 1;
}

int main(int argc, char **argv)
{
    char line[1000], version[100];
    uint64_t out[STILL_OUT];
    if (argc != 2 || !read_files(argv[1])) return fprintf(stderr, "usage: still_sizes crates/reals/stdin\n"), 2;
    for (unsigned i = 0; i < count; i++) {
        still_verdict(files[i].head, files[i].n, files[i].total, table, STILL_TABLE_WORDS, out);
        good[i] = !out[0];
        accepted += !out[0];
    }
    if (scanf("libheif %99s ", version) != 1) return fprintf(stderr, "libheif says nothing\n"), 2;
    while (fgets(line, sizeof line, stdin))
        if (!hold(line)) return fprintf(stderr, "not understood: %s", line), 2;
    if (told != count) return fprintf(stderr, "libheif was asked about %u files of %u\n", told, count), 2;
    printf("real: %u files, %u accepted, %u opened by libheif %s, %u sizes, %u differ\n", count, accepted, opened, version,
           sizes, differ);
    return differ != 0;
}
