/* Holds the second reading to the answers of the conformance folder, whose path is the argument: every line that its
 * script `later/lines` prints for LEVEL. */
#define _GNU_SOURCE
#include <stdio.h>
#include <stdlib.h>
#include <string.h>

#include "level.h"
#include "second.h"

enum { WORDS = 11280, PAST = 20, LIST = 5000, ARGUMENTS = 1100, BUFFER = 1 << 17, LINE = 1 << 16 };

static uint8_t head[1 << 17];
static size_t head_len;
static uint8_t companion[1 << 17];
static size_t companion_len;
static uint64_t companion_total;
static uint32_t table[WORDS + PAST], before[WORDS + PAST], list[LIST]; /* before: what the table held */
static uint8_t buffer[BUFFER]; /* for bodies and for what is written anew */
static uint64_t out[8];
static unsigned long lines, wrong;

/* ---- SHA-256, for the lines that give a table's ---- */

static uint32_t rotate(uint32_t x, int n)
{
    return x >> n | x << (32 - n);
}

/* The first 32 bits of the fractional part of a root of the n-th prime, found in whole numbers. */
static uint32_t root_bits(unsigned prime, int cube)
{
    unsigned __int128 low = 0, high = (unsigned __int128)1 << 38;
    while (high - low > 1) {
        unsigned __int128 middle = (low + high) / 2;
        int over = cube ? middle * middle * middle > (unsigned __int128)prime << 96
                        : middle * middle > (unsigned __int128)prime << 64;
        if (over)
            high = middle;
        else
            low = middle;
    }
    return (uint32_t)low;
}

static uint32_t constant[64], start[8];

static void make_constants(void)
{
    int found = 0;
    for (unsigned n = 2; found < 64; n++) {
        unsigned d = 2;
        while (d * d <= n && n % d != 0)
            d++;
        if (d * d <= n)
            continue;
        if (found < 8)
            start[found] = root_bits(n, 0);
        constant[found++] = root_bits(n, 1);
    }
}

static void hash_block(uint32_t h[8], const uint8_t *p)
{
    uint32_t w[64], v[8];
    for (int i = 0; i < 16; i++)
        w[i] = (uint32_t)p[4 * i] << 24 | (uint32_t)p[4 * i + 1] << 16 | (uint32_t)p[4 * i + 2] << 8 | p[4 * i + 3];
    for (int i = 16; i < 64; i++)
        w[i] = w[i - 16] + w[i - 7] + (rotate(w[i - 15], 7) ^ rotate(w[i - 15], 18) ^ w[i - 15] >> 3) +
               (rotate(w[i - 2], 17) ^ rotate(w[i - 2], 19) ^ w[i - 2] >> 10);
    memcpy(v, h, sizeof v);
    for (int i = 0; i < 64; i++) {
        uint32_t t1 = v[7] + (rotate(v[4], 6) ^ rotate(v[4], 11) ^ rotate(v[4], 25)) +
                      ((v[4] & v[5]) ^ (~v[4] & v[6])) + constant[i] + w[i];
        uint32_t t2 = (rotate(v[0], 2) ^ rotate(v[0], 13) ^ rotate(v[0], 22)) +
                      ((v[0] & v[1]) ^ (v[0] & v[2]) ^ (v[1] & v[2]));
        memmove(v + 1, v, 7 * sizeof v[0]);
        v[4] += t1;
        v[0] = t1 + t2;
    }
    for (int i = 0; i < 8; i++)
        h[i] += v[i];
}

/* `bytes` needs room for 72 more. */
static void hash_bytes(uint8_t *bytes, size_t n, char *text)
{
    size_t blocks = (n + 9 + 63) / 64;
    uint32_t h[8];
    memset(bytes + n, 0, blocks * 64 - n);
    bytes[n] = 0x80;
    for (int i = 0; i < 8; i++)
        bytes[blocks * 64 - 1 - (size_t)i] = (uint8_t)((uint64_t)n * 8 >> 8 * i);
    memcpy(h, start, sizeof h);
    for (size_t i = 0; i < blocks; i++)
        hash_block(h, bytes + 64 * i);
    for (int i = 0; i < 8; i++)
        sprintf(text + 8 * i, "%08x", (unsigned)h[i]);
}

static void hash_table(char *text)
{
    static uint8_t bytes[WORDS * 4 + 128];
    for (size_t i = 0; i < WORDS * 4; i++)
        bytes[i] = (uint8_t)(table[i / 4] >> 8 * (i % 4));
    hash_bytes(bytes, WORDS * 4, text);
}

/* ---- Questions ---- */

static uint32_t random_word(void)
{
    static uint64_t state = 88172645463325252u;
    state ^= state << 13;
    state ^= state >> 7;
    state ^= state << 17;
    return (uint32_t)(state >> 16);
}

/* What the table and the list held before must not matter. */
static void dirty(void)
{
    for (size_t i = 0; i < WORDS + PAST; i++)
        table[i] = i < WORDS ? random_word() : 0x5a5a5a5a;
    memcpy(before, table, sizeof before);
    for (size_t i = 0; i < LIST; i++)
        list[i] = 0xa5a5a5a5;
    memset(buffer, 0x3c, sizeof buffer);
}

static int past_is_clean(size_t written, size_t bytes)
{
    for (size_t i = bytes; i < BUFFER; i++)
        if (buffer[i] != 0x3c)
            return 0;
    for (size_t i = WORDS; i < WORDS + PAST; i++)
        if (table[i] != 0x5a5a5a5a)
            return 0;
    for (size_t i = written; i < LIST; i++)
        if (list[i] != 0xa5a5a5a5)
            return 0;
    return 1;
}

static int is(const char *question, const char *name)
{
    return strcmp(question, name) == 0;
}

static char *spell_numbers(char *text, const uint64_t *value, int count)
{
    for (int k = 0; k < count; k++)
        text += sprintf(text, k ? " %llu" : "%llu", (unsigned long long)value[k]);
    return text;
}

static void spell_signed(char *text, const uint64_t *value, int count)
{
    for (int k = 0; k < count; k++)
        text += sprintf(text, k ? " %lld" : "%lld", (long long)value[k]);
}

static char *spell_words(char *text, const uint32_t *word, uint64_t count)
{
    text[0] = 0;
    for (uint64_t k = 0; k < count; k++)
        text += sprintf(text, k ? " %u" : "%u", (unsigned)word[k]);
    return text;
}

/* Kind, item, x, y, items passed; or the refusal before them. */
static char *spell_trace(char *text, const uint64_t *answer)
{
    if (answer[0] != 0)
        return text + sprintf(text, "refused %llu %llu", (unsigned long long)answer[0], (unsigned long long)answer[1]);
    text += sprintf(text, "%s ", answer[2] == 1 ? "pixel" : "fill");
    return spell_numbers(text, answer + 3, 4);
}

/* How many, then each by its name and value. */
static void spell_transforms(char *text)
{
    text = spell_numbers(text, out + 2, 1);
    for (uint64_t k = 0; k < out[2]; k++)
        text += sprintf(text, " %s %llu", out[3 + 2 * k] == 1 ? "irot" : "imir", (unsigned long long)out[4 + 2 * k]);
}

static void spell_points(char *text)
{
    text = spell_numbers(text, out + 2, 1);
    for (uint64_t k = 0; k < out[2]; k++) {
        uint64_t answer[7];
        for (int n = 0; n < 7; n++)
            answer[n] = list[9 * k + 2 + (uint64_t)n];
        text += sprintf(text, ", ");
        text = spell_trace(text, answer);
    }
}

static void spell_body(char *text)
{
    text = spell_numbers(text, out + 2, 1);
    for (uint64_t k = 0; k < out[2]; k++)
        text += sprintf(text, k ? "%02x" : " %02x", buffer[k]);
}

static void spell_rewriting(char *text)
{
    static uint8_t bytes[BUFFER + 128];
    text = spell_numbers(text, out + 2, 2);
    memcpy(bytes, buffer, out[2]);
    *text++ = ' ';
    hash_bytes(bytes, out[2], text);
}

static void spell_report(char *text)
{
    static const char *const state[] = {"sound", "faulty", "resting"};
    text = spell_numbers(text, out + 2, 1);
    for (uint64_t k = 0; k < out[2]; k++)
        text += sprintf(text, ", %u %s %u", (unsigned)list[3 * k], state[list[3 * k + 1] % 3], (unsigned)list[3 * k + 2]);
}

static void spell(char *text, const char *question)
{
    if (out[0] != 0)
        sprintf(text, "refused %llu %llu", (unsigned long long)out[0], (unsigned long long)out[1]);
    else if (is(question, "size") || is(question, "sound-size"))
        spell_numbers(text, out + 2, 5);
    else if (is(question, "trace") || is(question, "matrix-trace") || is(question, "sound-trace"))
        spell_trace(text, out);
    else if (is(question, "matrix"))
        spell_signed(text, out + 2, 6);
    else if (is(question, "report"))
        spell_report(text);
    else if (is(question, "sources") || is(question, "sound-sources"))
        spell_words(text, list, out[2]);
    else if (is(question, "orientation"))
        spell_numbers(text, out + 2, 1);
    else if (is(question, "transforms"))
        spell_transforms(text);
    else if (is(question, "points"))
        spell_points(text);
    else if (is(question, "body"))
        spell_body(text);
    else if (is(question, "rewrite"))
        spell_rewriting(text);
    else if (is(question, "bytes"))
        spell_numbers(text + sprintf(text, out[2] == 1 ? "head " : "companion "), out + 3, 2);
    else
        spell_numbers(text, out + 2, 2);
}

/* All numbers of the arguments; the first is the item where one is asked. */
static uint32_t argument[ARGUMENTS];
static size_t arguments;

static void read_arguments(const char *text)
{
    char *end;
    argument[0] = argument[1] = argument[2] = 0;
    for (arguments = 0; arguments < ARGUMENTS && *text != 0; arguments++, text = end)
        argument[arguments] = (uint32_t)strtoul(text, &end, 10);
}

static size_t lend_points(void)
{
    size_t count = (arguments - 1) / 2;
    for (size_t k = 0; k < count; k++) {
        list[9 * k] = argument[1 + 2 * k];
        list[9 * k + 1] = argument[2 + 2 * k];
    }
    return count;
}

/* Before Q-10 no companion is lent. */
#if LEVEL >= 10
#define LENT_TO(table) head, head_len, total, companion, companion_len, companion_total, table, words
#else
#define LENT_TO(table) head, head_len, total, table, words
#endif
#define LENT LENT_TO(table)

static void put_question(uint64_t total, const char *question)
{
    const uint32_t *a = argument;
    const size_t words = WORDS + PAST;
    if (is(question, "verdict") || is(question, "table"))
        second_verdict(LENT, out);
    else if (is(question, "size"))
        second_size(LENT, a[0], out);
    else if (is(question, "trace"))
        second_trace(LENT, a[0], a[1], a[2], out);
    else if (is(question, "sources"))
        second_sources(LENT, a[0], list, a[1], out);
    else if (is(question, "prop"))
        second_property(LENT, a[0], a[1], out);
    else if (is(question, "orientation"))
        second_orientation(LENT, a[0], out);
    else if (is(question, "transforms"))
        second_transforms(a[0], out);
    else if (is(question, "points"))
        second_points(LENT, a[0], list, lend_points(), out);
    else if (is(question, "body"))
        second_body(LENT, a[0], buffer, a[1], out);
    else if (is(question, "matrix"))
        second_matrix(LENT, a[0], out);
    else if (is(question, "matrix-trace"))
        second_trace_by_matrix(LENT, a[0], a[1], a[2], out);
    else if (is(question, "bytes"))
        second_bytes(LENT, a[0], out);
    else if (is(question, "rewrite"))
        second_rewrite(LENT, buffer, a[0], out);
    else if (is(question, "report"))
        second_report(LENT, list, a[0], out);
    else if (is(question, "report-table"))
        second_report(LENT, list, LIST, out);
    else if (is(question, "sound-size"))
        second_sound_size(LENT, a[0], out);
    else if (is(question, "sound-trace"))
        second_sound_trace(LENT, a[0], a[1], a[2], out);
    else if (is(question, "sound-sources"))
        second_sound_sources(LENT, a[0], list, a[1], out);
    else
        fprintf(stderr, "no such question: %s\n", question), exit(2);
}

/* How many words of the list an answer may have changed. */
static size_t list_words(const char *question)
{
    if (is(question, "points"))
        return 9 * (arguments - 1) / 2;
    if (out[0] != 0)
        return 0;
    if (is(question, "report") || is(question, "report-table"))
        return 3 * out[2];
    return is(question, "sources") || is(question, "sound-sources") ? out[2] : 0;
}

static int is_report(const char *question)
{
    return is(question, "report") || is(question, "report-table") || strncmp(question, "sound-", 6) == 0;
}

/* After 1 and 27 the table is as before, after what is judged up to 20 it is empty, and else it is the file's: that of
 * the verdict or, in Q-12's mode, of the report. */
static int table_stands(uint64_t total, const char *question)
{
    static uint32_t other[WORDS], room[3 * 256];
    uint64_t ignored[8], n = out[0];
    const size_t words = WORDS;
    if (n == 1 || is(question, "transforms"))
        return memcmp(table, before, sizeof table) == 0;
    memset(other, 0, sizeof other);
    if ((n < 2 || n > 20) && (n < 29 || n > 32) && n != 37) {
        if (is_report(question))
            second_report(LENT_TO(other), room, 3 * 256, ignored);
        else
            second_verdict(LENT_TO(other), ignored);
    }
    return memcmp(table, other, sizeof other) == 0;
}

static int ask(uint64_t total, const char *question, const char *text_of_arguments, char *text)
{
    read_arguments(text_of_arguments);
    dirty();
    put_question(total, question);
    if (is(question, "table") || is(question, "report-table"))
        hash_table(text); /* also of a refused file */
    else
        spell(text, question);
    int writes = is(question, "body") || is(question, "rewrite");
    return past_is_clean(list_words(question), writes && out[0] == 0 ? out[2] : 0) && table_stands(total, question);
}

static int read_whole(const char *path, uint8_t *bytes, size_t room, size_t *length)
{
    FILE *file = fopen(path, "rb");
    if (!file)
        return 0;
    *length = fread(bytes, 1, room, file);
    fclose(file);
    return 1;
}

/* The companion's total stands in a list; a file that is not in it has none. */
static int load_companion(const char *folder, const char *name)
{
    char path[1024], line[1024];
    companion_len = 0;
    companion_total = 0;
    snprintf(path, sizeof path, "%s/later/companions.tsv", folder);
    FILE *totals = fopen(path, "r");
    if (!totals)
        return 0;
    while (fgets(line, sizeof line, totals)) {
        char *tab = strchr(line, '\t');
        if (!tab || (size_t)(tab - line) != strlen(name) || strncmp(line, name, strlen(name)))
            continue;
        companion_total = strtoull(strchr(tab + 1, '\t') + 1, NULL, 10);
        snprintf(path, sizeof path, "%s/later/companions/%s.bin", folder, name);
        if (strtoull(tab + 1, NULL, 10) != 0 && !read_whole(path, companion, sizeof companion, &companion_len))
            return fclose(totals), 0; /* where nothing is lent there may be no file */
    }
    fclose(totals);
    return 1;
}

/* A name without a file among the later ones is one of document 01's. */
static int load(const char *folder, const char *name)
{
    char path[1024];
    if (LEVEL >= 10 && !load_companion(folder, name))
        return 0;
    snprintf(path, sizeof path, "%s/later/heads/%s.bin", folder, name);
    if (read_whole(path, head, sizeof head, &head_len))
        return 1;
    snprintf(path, sizeof path, "%s/heads/%s.bin", folder, name);
    return read_whole(path, head, sizeof head, &head_len);
}

/* Fields are parted by single tabs and may be empty. */
static int split(char *line, char *field[5])
{
    line[strcspn(line, "\r\n")] = 0;
    for (int i = 0; i < 5; i++) {
        field[i] = line;
        line += strcspn(line, "\t");
        if (i < 4 && *line == 0)
            return 0;
        if (*line)
            *line++ = 0;
    }
    return 1;
}

static void hold(char *field[5])
{
    static char text[LINE];
    int clean = ask(strtoull(field[1], NULL, 10), field[2], field[3], text);
    lines++;
    if (clean && !strcmp(text, field[4]))
        return;
    if (wrong++ < 20)
        printf("%s %s %s(%s): %s, not %s%s\n", field[0], field[1], field[2], field[3], text, field[4],
               clean ? "" : ", and wrote what it must not");
}

int main(int argc, char **argv)
{
    static char line[LINE], loaded[256];
    char command[1100], *field[5];
    if (argc != 2)
        return fprintf(stderr, "usage: conform FOLDER\n"), 2;
    snprintf(command, sizeof command, "'%s/later/lines' %d", argv[1], LEVEL);
    FILE *expected = popen(command, "r");
    if (!expected)
        return fprintf(stderr, "cannot run %s\n", command), 2;
    make_constants();
    while (fgets(line, sizeof line, expected)) {
        if (!split(line, field) || (strcmp(field[0], loaded) && strcmp(field[0], "-") && !load(argv[1], field[0])))
            return fprintf(stderr, "cannot read line %lu\n", lines + 1), 2;
        snprintf(loaded, sizeof loaded, "%s", field[0]);
        hold(field);
    }
    if (pclose(expected) != 0)
        return fprintf(stderr, "%s failed\n", command), 2;
    printf("level %d: %lu answers, %lu wrong\n", LEVEL, lines, wrong);
    return wrong != 0 || lines == 0;
}
