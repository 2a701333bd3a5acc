/* Files by documents 01 and 02 from a seed: good ones, ones with a planned fault, and damaged ones. */
#ifndef GENERATE_H
#define GENERATE_H

#include <stddef.h>
#include <stdint.h>

enum { STILL_ROOM = 1 << 17 };

struct dice {
    uint64_t state;
};

struct still {
    uint8_t head[STILL_ROOM];
    size_t length;
    uint64_t total;
    uint8_t companion[STILL_ROOM]; /* from Q-10 on */
    size_t companion_length;
    uint64_t companion_total;
    int clean; /* made by the rules and not damaged: a reader must accept it */
};

/* Files that damage may start from, beside those made here. */
struct seed {
    uint8_t *bytes, *companion;
    size_t length, companion_length;
    uint64_t total;
};

struct seeds {
    struct seed *file;
    size_t count;
};

struct dice dice_from(uint64_t seed);
uint64_t roll(struct dice *d);                 /* 64 random bits */
uint32_t below(struct dice *d, uint32_t n);    /* 0 to n - 1; 0 when n is 0 */
int chance(struct dice *d, uint32_t percent);

/* Reads every file of a folder as a seed, at most its first 65,536 bytes. The companion of a file lies beside the
 * folder, in `companions`, under the same name. */
void add_seeds(struct seeds *seeds, const char *folder);
void free_seeds(struct seeds *seeds);

/* The companion of a seed, or none. */
void lend_companion(struct still *still, const struct seed *seed);

/* One file: a good one, one with planned faults, or damage to a made one or to a seed. */
void generate(struct dice *d, const struct seeds *seeds, struct still *still);

/* Damages a file in place, one random change. */
void damage(struct dice *d, struct still *still);

#endif
