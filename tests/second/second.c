/* A second reading of document 01, and of document 02 up to Q-LEVEL: the questions. One pass over the bytes fills the
 * table and notes what the later rules need; the judging then goes over the notes in the stated order. No heap.
 *
 * It is one program in four files, to be compiled as this one. */
#include "second.h"

#include <assert.h>
#include <stdbool.h>
#include <string.h>

#include "second-read.h"

#include "second-judge.h"

#include "second-draw.h"

/* ---- The questions of document 01 ---- */

void second_verdict(SECOND_FILE, SECOND_TABLE, uint64_t *out)
{
    struct file f;
    if (!read_file(&f, LENT, 0, out))
        return;
    out[2] = f.items;
    out[3] = f.primary;
}

static void answer_size(const struct item *item, uint64_t *out)
{
    out[2] = item->width;
    out[3] = item->height;
    out[4] = item->out_width;
    out[5] = item->out_height;
    out[6] = item->depth;
}

void second_size(SECOND_FILE, SECOND_TABLE, uint32_t item, uint64_t *out)
{
    struct file f;
    if (!read_file(&f, LENT, item, out))
        return;
    uint32_t row = asked_row(&f, item, true, out);
    if (row != NONE)
        answer_size(&f.item[row], out);
}

void second_trace(SECOND_FILE, SECOND_TABLE, uint32_t item, uint32_t x, uint32_t y, uint64_t *out)
{
    struct file f;
    if (!read_file(&f, LENT, item, out))
        return;
    uint32_t row = asked_row(&f, item, true, out);
    if (row == NONE)
        return;
    trace_point(&f, STEP_BY_STEP, row, (struct point){x, y}, out);
}

static void answer_sources(const struct file *f, uint32_t row, uint32_t *list, size_t list_len, uint64_t *out)
{
    bool needed[ITEMS_MAX];
    uint32_t count = 0;
    mark_needed(f, row, needed);
    for (uint32_t k = 0; k < f->items; k++)
        count += needed[k] && f->note[k].kind == CODED;
    if (list_len < count) {
        answer_refusal(out, 24, f->item[row].id);
        return;
    }
    out[2] = count;
    for (uint32_t k = 0; k < f->items; k++)
        if (needed[k] && f->note[k].kind == CODED)
            *list++ = f->item[k].id;
}

void second_sources(SECOND_FILE, SECOND_TABLE, uint32_t item, uint32_t *list, size_t list_len, uint64_t *out)
{
    struct file f;
    if (!read_file(&f, LENT, item, out))
        return;
    uint32_t row = asked_row(&f, item, true, out);
    if (row != NONE)
        answer_sources(&f, row, list, list_len, out);
}

void second_property(SECOND_FILE, SECOND_TABLE, uint32_t item, uint32_t k, uint64_t *out)
{
    struct file f;
    if (!read_file(&f, LENT, item, out))
        return;
    uint32_t row = asked_row(&f, item, false, out);
    if (row == NONE)
        return;
    const struct item *record = &f.item[row];
    if (k == 0 || k > record->associations) {
        answer_refusal(out, 25, item);
        return;
    }
    uint32_t index = f.table->association[record->first_association + k - 1] & (ESSENTIAL - 1);
    if (index == 0)
        return;
    out[2] = f.table->property[index - 1].offset;
    out[3] = f.table->property[index - 1].size;
}

/* ---- The questions of document 02 ---- */

void second_orientation(SECOND_FILE, SECOND_TABLE, uint32_t item, uint64_t *out)
{
    struct file f;
    struct step steps[STEPS_MAX];
    if (!read_file(&f, LENT, item, out))
        return;
    uint32_t row = asked_row(&f, item, true, out);
    if (row == NONE)
        return;
    uint32_t count = steps_of(&f, &f.item[row], steps);
    if (has_crop(steps, count))
        answer_refusal(out, 26, item);
    else
        out[2] = orientation_of(steps, count);
}

void second_transforms(uint32_t orientation, uint64_t *out)
{
    memset(out, 0, 8 * sizeof *out);
    if (orientation < 1 || orientation > ORIENTATIONS) {
        answer_refusal(out, 27, 0);
        return;
    }
    const struct turns *turns = &turns_of[orientation];
    out[2] = turns->count;
    for (uint32_t k = 0; k < turns->count; k++) {
        out[3 + 2 * k] = turns->step[k].kind == IROT ? 1 : 2;
        out[4 + 2 * k] = turns->step[k].turn;
    }
}

enum { POINTS_MAX = 512, POINT_WORDS = 9, ANSWER_WORDS = 7 };

/* A record of x, y and room for the answer: number, place, then what a trace says. */
static void fill_point(const struct file *f, uint32_t row, uint32_t *record)
{
    uint64_t answer[8] = {0};
    trace_point(f, STEP_BY_STEP, row, (struct point){record[0], record[1]}, answer);
    for (int k = 0; k < ANSWER_WORDS; k++)
        record[2 + k] = (uint32_t)answer[k];
}

void second_points(SECOND_FILE, SECOND_TABLE, uint32_t item, uint32_t *points, size_t points_len, uint64_t *out)
{
    struct file f;
    if (!read_file(&f, LENT, item, out))
        return;
    uint32_t row = asked_row(&f, item, true, out);
    if (row == NONE)
        return;
    if (points_len > POINTS_MAX) {
        answer_refusal(out, 28, item);
        return;
    }
    for (size_t k = 0; k < points_len; k++)
        fill_point(&f, row, points + k * POINT_WORDS);
    out[2] = points_len;
}

void second_body(SECOND_FILE, SECOND_TABLE, uint32_t item, uint8_t *body, size_t body_len, uint64_t *out)
{
    struct file f;
    if (!take_lent(&f, LENT, item, out))
        return;
    if (body_len < BODY_MAX) {
        answer_empty(&f, out, 31, item);
        return;
    }
    if (!read_lent(&f, out))
        return;
    uint32_t row = asked_row(&f, item, true, out);
    if (row == NONE || f.note[row].kind <= IDEN)
        return;
    sum_lengths(&f, &f.item[row], &out[2]);
    copy_bytes(&f, row, 0, (uint32_t)out[2], body);
}

void second_matrix(SECOND_FILE, SECOND_TABLE, uint32_t item, uint64_t *out)
{
    struct file f;
    if (!read_file(&f, LENT, item, out))
        return;
    uint32_t row = asked_row(&f, item, true, out);
    if (row == NONE)
        return;
    struct matrix m = matrix_of(&f, &f.item[row]);
    const int64_t entries[6] = {m.a, m.b, m.c, m.d, m.e, m.f};
    for (int k = 0; k < 6; k++)
        out[2 + k] = (uint64_t)entries[k];
}

void second_trace_by_matrix(SECOND_FILE, SECOND_TABLE, uint32_t item, uint32_t x, uint32_t y, uint64_t *out)
{
    struct file f;
    if (!read_file(&f, LENT, item, out))
        return;
    uint32_t row = asked_row(&f, item, true, out);
    if (row != NONE)
        trace_point(&f, BY_MATRIX, row, (struct point){x, y}, out);
}

void second_bytes(SECOND_FILE, SECOND_TABLE, uint32_t item, uint64_t *out)
{
    struct file f;
    if (!read_file(&f, LENT, item, out))
        return;
    uint32_t row = asked_row(&f, item, false, out);
    if (row == NONE)
        return;
    const struct item *record = &f.item[row];
    const struct extent *extent = &f.table->extent[record->first_extent];
    if (record->extents != 1 || is_link(record) || !are_lent(&f, record, offset_of(extent), length_of(extent))) {
        answer_refusal(out, 33, item);
        return;
    }
    out[2] = is_in_companion(record) ? 2 : 1;
    out[3] = offset_of(extent);
    out[4] = length_of(extent);
}

void second_rewrite(SECOND_FILE, SECOND_TABLE, uint8_t *output, size_t output_len, uint64_t *out)
{
    struct file f;
    struct numbering numbering;
    if (!take_lent(&f, LENT, 0, out))
        return;
    if (output_len < head_len) {
        answer_empty(&f, out, 37, 0);
        return;
    }
    if (!read_lent(&f, out))
        return;
    for (uint32_t row = 0; row < f.items; row++)
        if (lies_in_meta(&f, row)) {
            answer_refusal(out, 38, f.item[row].id);
            return;
        }
    number_anew(&f, &numbering);
    write_anew(&f, &numbering, output);
    out[2] = head_len;
    out[3] = numbering.dropped;
}

/* ---- The questions of Q-12's mode ---- */

void second_report(SECOND_FILE, SECOND_TABLE, uint32_t *list, size_t list_len, uint64_t *out)
{
    struct file f;
    if (!take_lent(&f, LENT, 0, out) || !read_report(&f, out))
        return;
    if (list_len / 3 < f.items) {
        answer_refusal(out, 24, 0);
        return;
    }
    out[2] = f.items;
    for (uint32_t row = 0; row < f.items; row++) {
        *list++ = f.item[row].id;
        *list++ = f.finding[row].state;
        *list++ = f.finding[row].number;
    }
}

void second_sound_size(SECOND_FILE, SECOND_TABLE, uint32_t item, uint64_t *out)
{
    struct file f;
    if (!take_lent(&f, LENT, item, out) || !read_report(&f, out))
        return;
    uint32_t row = asked_sound_row(&f, item, out);
    if (row != NONE)
        answer_size(&f.item[row], out);
}

void second_sound_trace(SECOND_FILE, SECOND_TABLE, uint32_t item, uint32_t x, uint32_t y, uint64_t *out)
{
    struct file f;
    if (!take_lent(&f, LENT, item, out) || !read_report(&f, out))
        return;
    uint32_t row = asked_sound_row(&f, item, out);
    if (row != NONE)
        trace_point(&f, STEP_BY_STEP, row, (struct point){x, y}, out);
}

void second_sound_sources(SECOND_FILE, SECOND_TABLE, uint32_t item, uint32_t *list, size_t list_len, uint64_t *out)
{
    struct file f;
    if (!take_lent(&f, LENT, item, out) || !read_report(&f, out))
        return;
    uint32_t row = asked_sound_row(&f, item, out);
    if (row != NONE)
        answer_sources(&f, row, list, list_len, out);
}
