/* Counts what the second reading says of generated files, and fails when it refuses one that was made by the rules.
 * histogram COUNT SEED [FOLDER...] : folders of seed files */
#include <stdio.h>
#include <stdlib.h>

#include "generate.h"
#include "second.h"

int main(int argc, char **argv)
{
    static uint32_t table[11280];
    static struct still still;
    uint64_t out[8], count = argc > 1 ? strtoull(argv[1], NULL, 10) : 10000;
    uint64_t seed = argc > 2 ? strtoull(argv[2], NULL, 10) : 1;
    unsigned long number[64] = {0}, wrong = 0, bytes = 0;
    struct dice dice = dice_from(seed);
    struct seeds seeds = {NULL, 0};
    for (int k = 3; k < argc; k++)
        add_seeds(&seeds, argv[k]);
    for (uint64_t k = 0; k < count; k++) {
        generate(&dice, &seeds, &still);
        #if LEVEL >= 10
        second_verdict(still.head, still.length, still.total, still.companion, still.companion_length,
                       still.companion_total, table, 11280, out);
#else
        second_verdict(still.head, still.length, still.total, table, 11280, out);
#endif
        number[out[0]]++;
        bytes += still.length;
        if (still.clean && out[0] != 0 && wrong++ < 10) {
            printf("file %lu is by the rules, but refused %lu at %lu\n", (unsigned long)k, (unsigned long)out[0],
                   (unsigned long)out[1]);
            FILE *dump = fopen("refused.bin", "wb");
            if (dump) {
                fwrite(still.head, 1, still.length, dump);
                fclose(dump);
            }
        }
    }
    for (int k = 0; k < 64; k++)
        if (number[k] != 0)
            printf("%2d %8lu\n", k, number[k]);
    printf("%lu files, mean length %lu, %lu good ones refused\n", (unsigned long)count, bytes / (count ? count : 1), wrong);
    free_seeds(&seeds);
    return wrong != 0;
}
