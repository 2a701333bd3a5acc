/* The files of other writers that the program `reals` lists (crates/reals/stdin; their origins are in ORIGINS.tsv). */
#ifndef FILES_H
#define FILES_H
#include <stdint.h>
#include <stdio.h>
#include <stdlib.h>
#include <string.h>

#include "still.h"

struct file {
    char name[257];
    uint64_t total;
    size_t n;
    uint8_t *head;
};

static struct file files[1024];
static unsigned count;

static uint64_t number(FILE *in, int bytes)
{
    uint64_t n = 0;
    while (bytes--) n = n << 8 | (uint64_t)(fgetc(in) & 255);
    return n;
}

static int read_file(FILE *in, struct file *f)
{
    size_t letters = number(in, 4);
    if (letters > 256 || fread(f->name, 1, letters, in) != letters) return 0;
    f->total = number(in, 8);
    f->n = number(in, 4);
    if (f->n > STILL_HEAD_MAX || !(f->head = malloc(f->n + 1))) return 0;
    return fread(f->head, 1, f->n, in) == f->n;
}

static int read_files(const char *path)
{
    FILE *in = path ? fopen(path, "rb") : NULL;
    if (!in) return 0;
    count = (unsigned)number(in, 4);
    if (count > 1024) return 0;
    for (unsigned i = 0; i < count; i++)
        if (!read_file(in, &files[i])) return 0;
    fclose(in);
    return 1;
}
#endif
