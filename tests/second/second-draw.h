/* Part of second.c: what is asked of a file that was read: pixels, matrices, orientation, sources, the head anew. */

/* ---- Tracing ---- */

struct point {
    uint32_t x, y;
};

/* The axis of imir that exchanges top and bottom: Q-1 takes the 2022 wording for all files, document 01 the other. */
enum { TOP_BOTTOM = LEVEL >= 1 ? 0 : 1 };

static struct point go_back(const struct step *step, struct point p)
{
    uint32_t right = step->size.width - 1, bottom = step->size.height - 1;
    if (step->kind == CLAP)
        return (struct point){p.x + step->left, p.y + step->top};
    if (step->kind == IMIR)
        return step->turn == TOP_BOTTOM ? (struct point){p.x, bottom - p.y} : (struct point){right - p.x, p.y};
    switch (step->turn) {
    case 1: return (struct point){right - p.y, p.x};
    case 2: return (struct point){right - p.x, bottom - p.y};
    case 3: return (struct point){p.y, bottom - p.x};
    default: return p;
    }
}

/* The item's transforms in order, gone through once forward for the sizes. */
static uint32_t steps_of(const struct file *f, const struct item *item, struct step steps[STEPS_MAX])
{
    struct size size = {item->width, item->height};
    uint32_t count = 0;
    for (uint32_t k = 0; k < item->associations; k++) {
        uint32_t property = transform_at(f, item, k);
        if (property != PROPERTIES_MAX)
            transform(f, property, &size, &steps[count++]);
    }
    return count;
}

/* From an item's output image to its reconstructed one: the transforms are undone last one first. */
static struct point undo_transforms(const struct file *f, const struct item *item, struct point p)
{
    struct step steps[STEPS_MAX];
    uint32_t count = steps_of(f, item, steps);
    while (count-- > 0)
        p = go_back(&steps[count], p);
    return p;
}

/* ---- Matrices ---- */

/* x' = ax + by + c, y' = dx + ey + f, the six row by row. */
struct matrix {
    int64_t a, b, c, d, e, f;
};

/* Document 01's way back through one transform, as a matrix. */
static struct matrix matrix_back(const struct step *step)
{
    int64_t right = (int64_t)step->size.width - 1, bottom = (int64_t)step->size.height - 1;
    if (step->kind == CLAP)
        return (struct matrix){1, 0, step->left, 0, 1, step->top};
    if (step->kind == IMIR)
        return step->turn == TOP_BOTTOM ? (struct matrix){1, 0, 0, 0, -1, bottom}
                                        : (struct matrix){-1, 0, right, 0, 1, 0};
    switch (step->turn) {
    case 1: return (struct matrix){0, -1, right, 1, 0, 0};
    case 2: return (struct matrix){-1, 0, right, 0, -1, bottom};
    case 3: return (struct matrix){0, 1, 0, -1, 0, bottom};
    default: return (struct matrix){1, 0, 0, 0, 1, 0};
    }
}

/* First `inner`, then `outer`. */
static struct matrix after(struct matrix outer, struct matrix inner)
{
    return (struct matrix){
        outer.a * inner.a + outer.b * inner.d, outer.a * inner.b + outer.b * inner.e,
        outer.a * inner.c + outer.b * inner.f + outer.c,
        outer.d * inner.a + outer.e * inner.d, outer.d * inner.b + outer.e * inner.e,
        outer.d * inner.c + outer.e * inner.f + outer.f,
    };
}

/* All transforms of an item in one: the last is the first to be undone, so it stands innermost. */
static struct matrix matrix_of(const struct file *f, const struct item *item)
{
    struct step steps[STEPS_MAX];
    struct matrix all = {1, 0, 0, 0, 1, 0};
    uint32_t count = steps_of(f, item, steps);
    for (uint32_t k = 0; k < count; k++)
        all = after(all, matrix_back(&steps[k]));
    return all;
}

static struct point apply(struct matrix m, struct point p)
{
    return (struct point){(uint32_t)(m.a * p.x + m.b * p.y + m.c), (uint32_t)(m.d * p.x + m.e * p.y + m.f)};
}

static int64_t signed_field(const uint8_t *p, uint32_t bytes)
{
    return bytes == 4 ? (int32_t)be32(p) : (int16_t)be16(p);
}

/* The input of an overlay that shows at `p`, the later ones first, with the place in it; NONE is fill. */
static uint32_t overlay_input(const struct file *f, const struct item *item, const struct body *body, struct point *p)
{
    for (uint32_t k = item->targets; k-- > 0;) {
        const uint8_t *offset = body->offsets + (size_t)k * 2 * body->field;
        const struct item *input = input_of(f, item, k);
        int64_t x = p->x - signed_field(offset, body->field);
        int64_t y = p->y - signed_field(offset + body->field, body->field);
        if (x >= 0 && x < input->out_width && y >= 0 && y < input->out_height) {
            *p = (struct point){(uint32_t)x, (uint32_t)y};
            return f->target_row[item->first_target + k];
        }
    }
    return NONE;
}

static uint32_t grid_input(const struct file *f, const struct item *item, const struct body *body, struct point *p)
{
    const struct item *tile = input_of(f, item, 0);
    uint32_t k = p->y / tile->out_height * body->columns + p->x / tile->out_width;
    *p = (struct point){p->x % tile->out_width, p->y % tile->out_height};
    return f->target_row[item->first_target + k];
}

/* The input beneath a point of a derived item's reconstructed image, or NONE for fill. */
static uint32_t input_beneath(const struct file *f, uint32_t row, struct point *p)
{
    const struct item *item = &f->item[row];
    struct body body;
    if (f->note[row].kind == IDEN)
        return f->target_row[item->first_target];
    read_body(f, row, &body);
    return f->note[row].kind == GRID ? grid_input(f, item, &body, p) : overlay_input(f, item, &body, p);
}

/* The two engines differ in how they undo transforms. */
enum engine { STEP_BY_STEP, BY_MATRIX };

static void trace_down(const struct file *f, enum engine engine, uint32_t row, struct point p, uint64_t *out)
{
    for (uint64_t passed = 1;; passed++) {
        const struct item *item = &f->item[row];
        const struct note *note = &f->note[row];
        if (engine == BY_MATRIX)
            p = apply(matrix_of(f, item), p);
        else if (note->transformed)
            p = undo_transforms(f, item, p);
        uint32_t input = note->kind == CODED ? NONE : input_beneath(f, row, &p);
        if (input == NONE) {
            out[2] = note->kind == CODED ? 1 : 2;
            out[3] = item->id;
            out[4] = p.x;
            out[5] = p.y;
            out[6] = passed;
            return;
        }
        row = input;
    }
}

/* A single trace of an asked item, its refusal 23 included. */
static void trace_point(const struct file *f, enum engine engine, uint32_t row, struct point p, uint64_t *out)
{
    const struct item *item = &f->item[row];
    if (p.x >= item->out_width || p.y >= item->out_height)
        answer_refusal(out, 23, item->id);
    else
        trace_down(f, engine, row, p, out);
}

/* ---- Orientation ---- */

enum { ORIENTATIONS = 8, SMALL_WIDTH = 2, SMALL_HEIGHT = 3 };

/* Q-3's lists, as document 02 gives them; left-right is imir 1 since Q-1. */
struct turns {
    uint32_t count;
    struct step step[2];
};

static const struct turns turns_of[ORIENTATIONS + 1] = {
    [1] = {0, {{0}}},
    [2] = {1, {{.kind = IMIR, .turn = 1}}},
    [3] = {1, {{.kind = IROT, .turn = 2}}},
    [4] = {1, {{.kind = IMIR, .turn = 0}}},
    [5] = {2, {{.kind = IROT, .turn = 3}, {.kind = IMIR, .turn = 1}}},
    [6] = {1, {{.kind = IROT, .turn = 3}}},
    [7] = {2, {{.kind = IROT, .turn = 1}, {.kind = IMIR, .turn = 1}}},
    [8] = {1, {{.kind = IROT, .turn = 1}}},
};

/* Where each output pixel of a small picture comes from, row by row. Its sides differ and all its pixels do, so that
 * no two of the eight maps are alike; the picture at hand may be one pixel wide and would not tell. */
struct small {
    struct size size;
    struct point from[SMALL_WIDTH * SMALL_HEIGHT];
};

static void draw_small(struct step *steps, uint32_t count, struct small *small)
{
    small->size = (struct size){SMALL_WIDTH, SMALL_HEIGHT};
    for (uint32_t k = 0; k < count; k++)
        turn_size(&steps[k], &small->size);
    for (uint32_t at = 0; at < SMALL_WIDTH * SMALL_HEIGHT; at++) {
        struct point p = {at % small->size.width, at / small->size.width};
        for (uint32_t k = count; k-- > 0;)
            p = go_back(&steps[k], p);
        small->from[at] = p;
    }
}

static bool same_small(const struct small *a, const struct small *b)
{
    return a->size.width == b->size.width && memcmp(a->from, b->from, sizeof a->from) == 0;
}

/* The number whose list draws the small picture as these turns and mirrors do. */
static uint32_t orientation_of(struct step *steps, uint32_t count)
{
    struct small drawn, other;
    uint32_t number = 0;
    draw_small(steps, count, &drawn);
    do {
        struct turns turns = turns_of[++number];
        draw_small(turns.step, turns.count, &other);
    } while (number < ORIENTATIONS && !same_small(&drawn, &other));
    return number;
}

static bool has_crop(const struct step *steps, uint32_t count)
{
    while (count-- > 0)
        if (steps[count].kind == CLAP)
            return true;
    return false;
}

/* ---- Sources ---- */

/* An item stands in `order` after all that it derives from, so going back meets every user of an item before it. */
static void mark_needed(const struct file *f, uint32_t row, bool *needed)
{
    memset(needed, 0, f->items * sizeof *needed);
    needed[row] = true;
    for (uint32_t k = f->pictures; k-- > f->ground;) {
        const struct item *item = &f->item[f->order[k]];
        if (needed[f->order[k]])
            for (uint32_t input = 0; input < item->targets; input++)
                needed[f->target_row[item->first_target + input]] = true;
    }
}

/* ---- Writing anew ---- */

/* The new index of each property that an association names, from 1; 0 for the others. */
struct numbering {
    uint16_t index[PROPERTIES_MAX];
    uint32_t dropped, freed; /* boxes, and their bytes */
};

static void number_anew(const struct file *f, struct numbering *n)
{
    uint16_t next = 1;
    memset(n, 0, sizeof *n);
    for (uint32_t k = 0; k < f->associations; k++) {
        uint32_t index = f->table->association[k] & (ESSENTIAL - 1);
        if (index != 0)
            n->index[index - 1] = 1;
    }
    for (uint32_t row = 0; row < f->properties; row++) {
        if (n->index[row] != 0) {
            n->index[row] = next++;
        } else {
            n->dropped++;
            n->freed += f->table->property[row].size;
        }
    }
}

static uint8_t *put_bytes(uint8_t *to, const uint8_t *from, size_t count)
{
    memcpy(to, from, count);
    return to + count;
}

static void put32(uint8_t *p, uint32_t value)
{
    for (int k = 0; k < 4; k++)
        p[k] = (uint8_t)(value >> (24 - 8 * k));
}

/* The header of a box that has become shorter, in the form that it had. Sizes inside meta have no high half. */
static uint8_t *put_header(const struct file *f, uint8_t *to, const struct box *box, uint32_t freed)
{
    uint32_t header = box->content - box->start;
    memcpy(to, f->head + box->start, header);
    put32(header == 16 ? to + 12 : to, box->end - box->start - freed);
    return to + header;
}

static void renumber_index(const struct numbering *n, uint8_t *p, bool wide)
{
    uint32_t index = wide ? be16(p) & 0x7fff : *p & 0x7f;
    if (index == 0)
        return;
    uint32_t other = n->index[index - 1];
    if (wide)
        p[0] = (uint8_t)((p[0] & 0x80) | other >> 8);
    p[wide ? 1 : 0] = (uint8_t)(wide ? other : (*p & 0x80) | other);
}

/* The content of ipma in place: an accepted file's, so every field is there. */
static void renumber_ipma(const struct numbering *n, uint8_t *p)
{
    uint32_t id = p[0] == 0 ? 2 : 4, entries = be32(p + 4);
    bool wide = p[3] & 1;
    for (p += 8; entries > 0; entries--) {
        p += id;
        for (uint32_t count = *p++; count > 0; count--, p += wide ? 2 : 1)
            renumber_index(n, p, wide);
    }
}

static uint8_t *put_iprp(const struct file *f, const struct numbering *n, uint8_t *to)
{
    const struct box *ipma = &f->pair[1];
    to = put_header(f, to, &f->child[IPRP], n->freed);
    to = put_header(f, to, &f->pair[0], n->freed);
    for (uint32_t row = 0; row < f->properties; row++)
        if (n->index[row] != 0)
            to = put_bytes(to, f->head + f->table->property[row].offset, f->table->property[row].size);
    uint8_t *content = to + (ipma->content - ipma->start);
    to = put_bytes(to, f->head + ipma->start, ipma->end - ipma->start);
    renumber_ipma(n, content);
    return to;
}

/* One free box of zeros in place of what was dropped: no box is shorter than a header. */
static uint8_t *put_free(uint8_t *to, uint32_t freed)
{
    if (freed == 0)
        return to;
    memset(to, 0, freed);
    put32(to, freed);
    put32(to + 4, TYPE('f', 'r', 'e', 'e'));
    return to + freed;
}

/* The head with what stands behind iprp in meta moved up, and the free box at the end of meta. */
static void write_anew(const struct file *f, const struct numbering *n, uint8_t *to)
{
    const struct box *iprp = &f->child[IPRP];
    to = put_bytes(to, f->head, iprp->start);
    to = put_iprp(f, n, to);
    to = put_bytes(to, f->head + iprp->end, f->meta.end - iprp->end);
    to = put_free(to, n->freed);
    put_bytes(to, f->head + f->meta.end, f->length - f->meta.end);
}

/* An item of method 0 in this file, one of whose extents shares a byte with meta; its bytes would move. */
static bool lies_in_meta(const struct file *f, uint32_t row)
{
    const struct item *item = &f->item[row];
    for (uint32_t k = 0; item->method == 0 && k < item->extents; k++) {
        const struct extent *extent = &f->table->extent[item->first_extent + k];
        uint64_t start = offset_of(extent), length = length_of(extent);
        if (start < f->meta.end && length > 0 && (start >= f->meta.start || length > f->meta.start - start))
            return true;
    }
    return false;
}
