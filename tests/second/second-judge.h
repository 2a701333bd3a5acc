/* Part of second.c: what is judged once all boxes are read (12 to 20, 29, 30), the whole file, and the report. */

/* ---- 13, 30, 14: where the bytes of an item lie ---- */

static bool is_link(const struct item *item)
{
    return LEVEL >= 7 && item->method == 2;
}

/* With a method of its own, which choose_file gives. */
static bool is_in_companion(const struct item *item)
{
    return LEVEL >= 10 && item->method == 3;
}

/* The row that a target of the item's iloc reference names, counted from 1. */
static uint32_t linked_row(const struct file *f, uint32_t row, uint64_t index)
{
    const struct link *link = &f->link[row];
    if (!f->note[row].linked || index == 0 || index > link->links)
        return NONE;
    const uint8_t *p = f->head + link->links_at + (size_t)(index - 1) * (f->wide_references ? 4 : 2);
    return find(f, f->wide_references ? be32(p) : be16(p));
}

static void follow_links(struct file *f, uint32_t row)
{
    const struct item *item = &f->item[row];
    struct link *link = &f->link[row];
    link->chain = is_link(item) ? 1 : 0;
    link->sum_past = link->names_past = false;
    link->sum = 0;
    for (uint32_t k = 0; f->note[row].waiting && k < item->extents; k++) {
        struct stretch *stretch = &f->stretch[item->first_extent + k];
        stretch->named = (uint16_t)(is_link(item) ? linked_row(f, row, stretch->index) : NONE);
    }
}

/* Raises the item's count of links to one more than those it names have; true when that changed it. */
static bool lengthen_chain(struct file *f, uint32_t row)
{
    const struct item *item = &f->item[row];
    uint8_t chain = f->link[row].chain;
    for (uint32_t k = 0; is_link(item) && k < item->extents; k++) {
        uint32_t named = f->stretch[item->first_extent + k].named;
        uint8_t below = named == NONE ? CHAIN_MAX : f->link[named].chain;
        if (chain <= below)
            chain = below < CHAIN_MAX ? below + 1 : CHAIN_MAX + 1;
    }
    bool changed = chain != f->link[row].chain;
    f->link[row].chain = chain;
    return changed;
}

/* A round settles at least one more link of every chain, so a ring is over the limit after as many as the limit has. */
static void count_links(struct file *f)
{
    bool changed = true;
    for (uint32_t row = 0; row < f->items; row++)
        follow_links(f, row);
    for (uint32_t round = 0; changed && round < CHAIN_MAX; round++) {
        changed = false;
        for (uint32_t row = 0; row < f->items; row++)
            changed |= lengthen_chain(f, row);
    }
}

static struct source source_of(const struct file *f, const struct item *item, const struct stretch *stretch)
{
    struct source source = plain_source(f, item->method);
    if (is_in_companion(item))
        source.length = f->companion_total;
    else if (is_link(item) && stretch->named != NONE)
        source.length = f->link[stretch->named].sum;
    return source;
}

/* The data reference index is 0 or, with method 0, names an entry that is marked as the same file. */
static bool is_this_file(const struct file *f, const struct item *item, uint32_t reference)
{
    return reference == 0 || (item->method == 0 && reference <= f->references && f->same_file[reference - 1]);
}

/* With method 0, every other entry means the companion. The record says so by a method of its own. */
static bool choose_file(struct file *f, uint32_t row)
{
    struct item *item = &f->item[row];
    uint32_t reference = f->link[row].reference;
    if (item->method != 0 || reference == 0 || reference > f->references || f->same_file[reference - 1])
        return false;
    item->method = 3;
    return true;
}

/* 13 or 30 of an item that waits, or 0. */
static uint32_t location_fault(struct file *f, uint32_t row)
{
    const struct item *item = &f->item[row];
    const struct link *link = &f->link[row];
    if (!choose_file(f, row) && (item->method > 2 || !is_this_file(f, item, link->reference)))
        return 13;
    for (uint32_t k = 0; LEVEL < 8 && k < item->extents; k++)
        if (f->stretch[item->first_extent + k].length == 0)
            return 13;
    return link->chain > CHAIN_MAX ? 30 : 0;
}

static uint64_t offset_of(const struct extent *extent)
{
    return (uint64_t)extent->offset_high << 32 | extent->offset_low;
}

static uint64_t length_of(const struct extent *extent)
{
    return (uint64_t)extent->length_high << 32 | extent->length_low;
}

/* The lengths of an item's extents together; false: they pass 64 bits, and the sum is the highest. */
static bool sum_lengths(const struct file *f, const struct item *item, uint64_t *sum)
{
    *sum = 0;
    for (uint32_t k = 0; k < item->extents; k++) {
        uint64_t length = length_of(&f->table->extent[item->first_extent + k]);
        if (length > UINT64_MAX - *sum) {
            *sum = UINT64_MAX;
            return false;
        }
        *sum += length;
    }
    return true;
}

/* The fault of an item that waits and its extents as the table has them; those that it names must be done. */
static void place_extents(struct file *f, uint32_t row)
{
    const struct item *item = &f->item[row];
    struct note *note = &f->note[row];
    struct link *link = &f->link[row];
    uint32_t fault = location_fault(f, row);
    bool past = item->extents == 0 && note->kind == CODED;
    for (uint32_t k = 0; k < item->extents; k++) {
        struct stretch *stretch = &f->stretch[item->first_extent + k];
        const struct source source = source_of(f, item, stretch);
        if (stretch->named != NONE)
            link->names_past |= f->link[stretch->named].sum_past || f->link[stretch->named].names_past;
        if (LEVEL >= 8 && fault == 0)
            reach_end(stretch, &source);
        past |= is_past(stretch, &source);
        put_extent(f, item->first_extent + k, &source, stretch);
    }
    note->extent_fault = (uint8_t)(fault != 0 ? fault : past || link->names_past ? 14 : 0);
}

static void place_item(struct file *f, uint32_t row)
{
    if (f->note[row].waiting)
        place_extents(f, row);
    f->link[row].sum_past = !sum_lengths(f, &f->item[row], &f->link[row].sum);
}

/* What waited, by rising chain, so that named items come first. Most files have nothing that waits. */
static void place_items(struct file *f)
{
    if (LEVEL < 7 || !f->waits)
        return;
    count_links(f);
    for (uint32_t chain = 0; chain <= CHAIN_MAX + 1; chain++)
        for (uint32_t row = 0; row < f->items; row++)
            if (f->link[row].chain == chain)
                place_item(f, row);
}

/* ---- 12 to 16 and 29 ---- */

static bool judge_primary(struct file *f)
{
    uint32_t row = find(f, f->primary);
    return (row != NONE && f->note[row].kind != OPAQUE && !f->item[row].hidden) ||
           refuse(f, 12, f->primary);
}

static bool judge_extents(struct file *f)
{
    place_items(f);
    for (uint32_t row = 0; row < f->items; row++)
        if (f->note[row].extent_fault != 0)
            return refuse(f, f->note[row].extent_fault, f->item[row].id);
    return true;
}

/* 15, 29 or 16 of an image item, or 0. */
static uint32_t image_fault(const struct note *note)
{
    return note->kind != OPAQUE ? note->image_fault : 0;
}

static bool judge_properties(struct file *f)
{
    for (uint32_t row = 0; row < f->items; row++)
        if (image_fault(&f->note[row]) != 0)
            return refuse(f, image_fault(&f->note[row]), f->item[row].id);
    return true;
}

/* ---- 17: derivations ---- */

struct body {
    uint32_t width, height;
    uint32_t rows, columns; /* of a grid */
    const uint8_t *offsets; /* of an overlay */
    uint32_t field;         /* bytes of a width, a height or an offset */
    uint8_t joined[BODY_MAX]; /* the bytes, where they are not in one piece */
};

static uint32_t be_field(const uint8_t *p, uint32_t bytes)
{
    return bytes == 4 ? be32(p) : be16(p);
}

/* Whether bytes of the file that the item's extents count from are lent: of the companion, or of this one. */
static bool are_lent(const struct file *f, const struct item *item, uint64_t at, uint64_t count)
{
    uint32_t length = is_in_companion(item) ? f->companion_length : f->length;
    return at <= length && count <= length - at;
}

static const uint8_t *lent_at(const struct file *f, const struct item *item, uint64_t at)
{
    return (is_in_companion(item) ? f->companion : f->head) + at;
}

static bool copy_lent(const struct file *f, const struct item *item, uint64_t at, uint32_t count, uint8_t *to)
{
    if (!are_lent(f, item, at, count))
        return false;
    memcpy(to, lent_at(f, item, at), count);
    return true;
}

/* Bytes of an item that 13, 30 and 14 passed: its extents joined, from `from` on. Every step takes at least one of the
 * bytes that are asked for, and goes down at most CHAIN_MAX links. */
static bool copy_bytes(const struct file *f, uint32_t row, uint64_t from, uint32_t count, uint8_t *to)
{
    const struct item *item = &f->item[row];
    for (uint32_t k = 0; k < item->extents && count != 0; k++) {
        const struct extent *extent = &f->table->extent[item->first_extent + k];
        uint64_t length = length_of(extent), at = offset_of(extent) + from;
        if (from >= length) {
            from -= length;
            continue;
        }
        uint32_t part = length - from < count ? (uint32_t)(length - from) : count;
        if (is_link(item) ? !copy_bytes(f, f->stretch[item->first_extent + k].named, at, part, to)
                          : !copy_lent(f, item, at, part, to))
            return false;
        to += part;
        count -= part;
        from = 0;
    }
    return count == 0;
}

/* How long the item's body must be by its first two bytes; those of an overlay hang on its inputs. */
static uint32_t due_length(const struct item *item, uint32_t kind, uint32_t field)
{
    return kind == GRID ? 4 + 2 * field : 10 + 2 * field * (item->targets + 1);
}

static uint32_t field_of(const uint8_t *p)
{
    return p[1] & 1 ? 4 : 2;
}

/* A body from Q-7 on. Its length is judged before the rest is read, so that the bytes read are no more than the inputs
 * give reason for. */
static const uint8_t *joined_bytes(const struct file *f, uint32_t row, uint8_t *to, uint32_t *length)
{
    const struct item *item = &f->item[row];
    uint64_t sum;
    if (!sum_lengths(f, item, &sum) || sum < 2 || !copy_bytes(f, row, 0, 2, to))
        return NULL;
    *length = due_length(item, f->note[row].kind, field_of(to));
    return sum == *length && copy_bytes(f, row, 0, *length, to) ? to : NULL;
}

/* The bytes of a grid or an overlay where they lie, when they are in one piece. NULL: not all are lent. */
static const uint8_t *body_bytes(const struct file *f, uint32_t row, struct body *body, uint32_t *length)
{
    const struct item *item = &f->item[row];
    const struct extent *extent = &f->table->extent[item->first_extent];
    if (item->extents != 1 || is_link(item))
        return LEVEL >= 7 ? joined_bytes(f, row, body->joined, length) : NULL;
    if (extent->offset_high != 0 || extent->length_high != 0 ||
        !are_lent(f, item, extent->offset_low, extent->length_low))
        return NULL;
    *length = extent->length_low;
    return lent_at(f, item, extent->offset_low);
}

/* The form of a body; whether its canvas is good is a matter of sizes. */
static bool read_body(const struct file *f, uint32_t row, struct body *body)
{
    const struct item *item = &f->item[row];
    const struct note *note = &f->note[row];
    uint32_t length;
    const uint8_t *p = body_bytes(f, row, body, &length);
    if (p == NULL || length < 2 || p[0] != 0)
        return false;
    uint32_t field = field_of(p);
    if (length != due_length(item, note->kind, field))
        return false;
    body->field = field;
    if (note->kind == GRID) {
        body->rows = p[2] + 1u;
        body->columns = p[3] + 1u;
        p += 4;
    } else {
        p += 10;
        body->offsets = p + 2 * field;
    }
    body->width = be_field(p, field);
    body->height = be_field(p + field, field);
    return note->kind != GRID || body->rows * body->columns == item->targets;
}

static bool is_good_derivation(const struct file *f, uint32_t row)
{
    const struct item *item = &f->item[row];
    uint32_t kind = f->note[row].kind;
    struct body body;
    if (!is_derived(kind))
        return item->targets == 0;
    if (item->targets == 0)
        return false;
    for (uint32_t k = 0; k < item->targets; k++)
        if (f->note[f->target_row[item->first_target + k]].kind == OPAQUE)
            return false;
    return kind == IDEN ? item->targets == 1 && item->extents == 0 : read_body(f, row, &body);
}

static bool judge_derivations(struct file *f)
{
    for (uint32_t row = 0; row < f->items; row++)
        if (!is_good_derivation(f, row))
            return refuse(f, 17, f->item[row].id);
    return true;
}

/* ---- 18 and 19: depths ---- */

/* Tarjan's walk over items with dimg: every item and every input is looked at once, and the groups of items that reach
 * each other come out whole. Where 17 is kept these are the derived items. */
struct walk {
    uint16_t seen[ITEMS_MAX]; /* when the item was met, from 1; 0: not yet */
    uint16_t low[ITEMS_MAX];  /* earliest open item that it reaches */
    uint16_t next[ITEMS_MAX]; /* its inputs looked at so far */
    bool open[ITEMS_MAX];
    uint8_t path[ITEMS_MAX], group[ITEMS_MAX];
    uint32_t clock, path_length, group_length;
    uint32_t first_cyclic;
};

static void enter(struct walk *w, uint8_t row)
{
    w->seen[row] = w->low[row] = (uint16_t)++w->clock;
    w->open[row] = true;
    w->path[w->path_length++] = row;
    w->group[w->group_length++] = row;
}

static void lower(uint16_t *low, uint16_t to)
{
    if (to < *low)
        *low = to;
}

static void deepen(struct item *item, const struct item *input)
{
    if (item->depth <= input->depth)
        item->depth = input->depth + 1;
}

static void find_cyclic(struct file *f, struct walk *w, uint8_t row)
{
    if (row < w->first_cyclic)
        w->first_cyclic = row;
    if (LEVEL >= 12)
        f->finding[row].cyclic = true;
}

static void look_at_input(struct file *f, struct walk *w, uint8_t row, uint8_t input)
{
    if (f->item[input].targets == 0 || (w->seen[input] != 0 && !w->open[input])) {
        deepen(&f->item[row], &f->item[input]);
    } else if (w->seen[input] == 0) {
        enter(w, input);
    } else {
        lower(&w->low[row], w->seen[input]);
        if (input == row)
            find_cyclic(f, w, row);
    }
}

/* Closes the group that `row` began: more than one item means that each reaches itself. */
static void close_group(struct file *f, struct walk *w, uint8_t row)
{
    bool alone = w->group[w->group_length - 1] == row;
    uint8_t member;
    do {
        member = w->group[--w->group_length];
        w->open[member] = false;
        if (!alone)
            find_cyclic(f, w, member);
        if (LEVEL >= 12)
            f->order[f->pictures++] = member;
    } while (member != row);
}

static void leave(struct file *f, struct walk *w, uint8_t row)
{
    w->path_length--;
    if (w->low[row] == w->seen[row])
        close_group(f, w, row);
    if (w->path_length != 0) {
        uint8_t above = w->path[w->path_length - 1];
        lower(&w->low[above], w->low[row]);
        deepen(&f->item[above], &f->item[row]);
    }
}

static void walk_from(struct file *f, struct walk *w, uint8_t start)
{
    enter(w, start);
    while (w->path_length != 0) {
        uint8_t row = w->path[w->path_length - 1];
        const struct item *item = &f->item[row];
        if (w->next[row] < item->targets)
            look_at_input(f, w, row, f->target_row[item->first_target + w->next[row]++]);
        else
            leave(f, w, row);
    }
}

/* The first row on a cycle, or NONE. From Q-12 on `order` gets the items with dimg, each after all that it derives from
 * unless they are on a cycle. */
static uint32_t walk_derivations(struct file *f)
{
    struct walk w;
    memset(w.seen, 0, f->items * sizeof w.seen[0]);
    memset(w.next, 0, f->items * sizeof w.next[0]);
    w.clock = w.path_length = w.group_length = 0;
    w.first_cyclic = NONE;
    f->pictures = f->ground = 0;
    for (uint32_t row = 0; row < f->items; row++)
        if (f->item[row].targets != 0 && w.seen[row] == 0)
            walk_from(f, &w, (uint8_t)row);
    return w.first_cyclic;
}

static bool judge_depths(struct file *f)
{
    uint32_t cyclic = walk_derivations(f);
    if (cyclic != NONE)
        return refuse(f, 18, f->item[cyclic].id);
    for (uint32_t row = 0; row < f->items; row++)
        if (f->item[row].depth > DEPTH_MAX)
            return refuse(f, 19, f->item[row].id);
    return true;
}

static void order_by_depth(struct file *f)
{
    uint32_t start[DEPTH_MAX + 2] = {0};
    for (uint32_t row = 0; row < f->items; row++)
        if (f->note[row].kind != OPAQUE)
            start[f->item[row].depth + 1]++;
    for (uint32_t depth = 1; depth < DEPTH_MAX + 2; depth++)
        start[depth] += start[depth - 1];
    f->ground = start[1];
    f->pictures = start[DEPTH_MAX + 1];
    for (uint32_t row = 0; row < f->items; row++)
        if (f->note[row].kind != OPAQUE)
            f->order[start[f->item[row].depth]++] = (uint8_t)row;
}

/* ---- 20: sizes ---- */

struct size {
    uint32_t width, height;
};

static bool is_side(uint32_t side)
{
    return side - 1 < SIDE_MAX;
}

/* One direction of a clap: from a side W, the side c that is left and the edge o + (W - c) / 2. The fields at `p` are
 * the side's, those at `q` the offset's. Twice the edge over the offset's denominator keeps the half. */
static bool crop_side(const uint8_t *p, const uint8_t *q, uint32_t *side, uint32_t *edge)
{
    uint32_t numerator = be32(p), denominator = be32(p + 4);
    int32_t offset = (int32_t)be32(q);
    uint32_t parts = be32(q + 4);
    if (denominator == 0 || parts == 0 || numerator % denominator != 0)
        return false;
    uint32_t cropped = numerator / denominator;
    if (cropped == 0 || cropped > *side)
        return false;
    int64_t twice = 2 * (int64_t)offset + (int64_t)(*side - cropped) * parts;
    int64_t whole = 2 * (int64_t)parts;
    if (twice < 0 || twice % whole != 0 || twice / whole > *side - cropped)
        return false;
    *edge = (uint32_t)(twice / whole);
    *side = cropped;
    return true;
}

/* A transform with what is needed to go back through it. */
struct step {
    uint8_t kind;
    uint8_t turn;      /* of irot, or the axis of imir */
    struct size size;  /* before it */
    uint32_t left, top;
};

/* A turn or mirror applied to a size. */
static void turn_size(struct step *step, struct size *size)
{
    step->size = *size;
    if (step->kind == IROT && step->turn & 1)
        *size = (struct size){size->height, size->width};
}

/* Applies the transform of a property row to a size. */
static bool transform(const struct file *f, uint32_t property, struct size *size, struct step *step)
{
    const struct property *box = &f->table->property[property];
    const uint8_t *end = f->head + box->offset + box->size;
    step->kind = f->property_kind[property];
    step->size = *size;
    if (step->kind == CLAP)
        return crop_side(end - 32, end - 16, &size->width, &step->left) &&
               crop_side(end - 24, end - 8, &size->height, &step->top);
    step->turn = end[-1] & (step->kind == IROT ? 3 : 1);
    turn_size(step, size);
    return true;
}

/* The row of the item's k-th property if that is a transform, else PROPERTIES_MAX. */
static uint32_t transform_at(const struct file *f, const struct item *item, uint32_t k)
{
    uint32_t index = f->table->association[item->first_association + k] & (ESSENTIAL - 1);
    return index != 0 && is_transform(f->property_kind[index - 1]) ? index - 1 : PROPERTIES_MAX;
}

static bool output_size(const struct file *f, const struct item *item, struct size *size)
{
    struct step step;
    for (uint32_t k = 0; k < item->associations; k++) {
        uint32_t property = transform_at(f, item, k);
        if (property != PROPERTIES_MAX && !transform(f, property, size, &step))
            return false;
    }
    return true;
}

static const struct item *input_of(const struct file *f, const struct item *item, uint32_t k)
{
    return &f->item[f->target_row[item->first_target + k]];
}

static bool grid_fits(const struct file *f, const struct item *item, const struct body *body)
{
    const struct item *tile = input_of(f, item, 0);
    for (uint32_t k = 1; k < item->targets; k++) {
        const struct item *other = input_of(f, item, k);
        if (other->out_width != tile->out_width || other->out_height != tile->out_height)
            return false;
    }
    return tile->out_width * body->columns >= body->width && tile->out_height * body->rows >= body->height;
}

/* The size that a derivation gives; a coded item has only its ispe. */
static bool derived_size(const struct file *f, uint32_t row, struct size *size)
{
    const struct item *item = &f->item[row];
    struct body body;
    if (f->note[row].kind == IDEN) {
        const struct item *input = input_of(f, item, 0);
        *size = (struct size){input->out_width, input->out_height};
        return true;
    }
    read_body(f, row, &body);
    *size = (struct size){body.width, body.height};
    return f->note[row].kind == IOVL || grid_fits(f, item, &body);
}

static bool size_item(struct file *f, uint32_t row)
{
    struct item *item = &f->item[row];
    const struct note *note = &f->note[row];
    const struct property *ispe = &f->table->property[note->ispe];
    const uint8_t *end = f->head + ispe->offset + ispe->size;
    struct size size = {be32(end - 8), be32(end - 4)}, derived;
    if (!is_side(size.width) || !is_side(size.height))
        return false;
    if (is_derived(note->kind) && (!derived_size(f, row, &derived) || derived.width != size.width ||
                                   derived.height != size.height))
        return false;
    item->width = size.width;
    item->height = size.height;
    if (note->transformed && !output_size(f, item, &size))
        return false;
    item->out_width = size.width;
    item->out_height = size.height;
    return true;
}

static bool judge_sizes(struct file *f)
{
    order_by_depth(f);
    for (uint32_t k = 0; k < f->pictures; k++)
        if (!size_item(f, f->order[k]))
            return refuse(f, 20, f->item[f->order[k]].id);
    return true;
}

/* ---- A whole file ---- */

static bool read_boxes(struct file *f)
{
    return find_meta(f, &f->meta) && walk_meta(f, &f->meta) && read_hdlr(f) && read_pitm(f) && read_iinf(f) &&
           read_iloc(f) && read_iprp(f) && read_iref(f) && read_dinf(f);
}

static bool judge(struct file *f)
{
    return judge_primary(f) && judge_extents(f) && judge_properties(f) && judge_derivations(f) && judge_depths(f) &&
           judge_sizes(f);
}

static bool has_rising_ids(const struct file *f)
{
    for (uint32_t row = 1; row < f->items; row++)
        if (f->item[row].id < f->item[row - 1].id)
            return false;
    return true;
}

/* The rows by one byte of their IDs; those that share it stay as they were. */
static void order_by_byte(const struct file *f, uint32_t shift, const uint8_t *from, uint8_t *to)
{
    uint16_t start[257] = {0};
    for (uint32_t k = 0; k < f->items; k++)
        start[(f->item[k].id >> shift & 255) + 1]++;
    for (uint32_t byte = 1; byte < 256; byte++)
        start[byte] += start[byte - 1];
    for (uint32_t k = 0; k < f->items; k++)
        to[start[f->item[from[k]].id >> shift & 255]++] = from[k];
}

/* Q-6's order: the item records by rising ID. Mostly they come like that; else the rows move out of the table first,
 * and are ordered by the bytes in which IDs differ, the lowest first. */
static void sort_items(struct file *f)
{
    uint8_t rows[2][ITEMS_MAX], now = 0;
    uint32_t differing = 0;
    if (has_rising_ids(f))
        return;
    for (uint32_t row = 0; row < f->items; row++) {
        rows[0][row] = (uint8_t)row;
        differing |= f->item[row].id ^ f->item[0].id;
        f->row[row] = f->item[row];
    }
    f->item = f->row;
    for (uint32_t shift = 0; shift < 32; shift += 8)
        if ((differing >> shift & 255) != 0) {
            order_by_byte(f, shift, rows[now], rows[1 - now]);
            now = 1 - now;
        }
    for (uint32_t k = 0; k < f->items; k++)
        f->table->item[k] = f->row[rows[now][k]];
}

/* Records were set whole as they were read, so only their order, the counts and the unused words are left. */
static void finish_table(struct file *f)
{
    struct table *t = f->table;
    t->items = f->items;
    t->properties = f->properties;
    t->associations = f->associations;
    t->targets = f->targets;
    t->extents = f->extents;
    t->primary = f->primary;
    t->total_high = (uint32_t)(f->total >> 32);
    t->total_low = (uint32_t)f->total;
    memset(t->rest, 0, sizeof t->rest);
    if (LEVEL >= 6)
        sort_items(f);
    memset(t->item + f->items, 0, (ITEMS_MAX - f->items) * sizeof t->item[0]);
    memset(t->property + f->properties, 0, (PROPERTIES_MAX - f->properties) * sizeof t->property[0]);
    memset(t->association + f->associations, 0, (ASSOCIATIONS_MAX - f->associations) * sizeof t->association[0]);
    memset(t->target + f->targets, 0, (TARGETS_MAX - f->targets) * sizeof t->target[0]);
    memset(t->extent + f->extents, 0, (EXTENTS_MAX - f->extents) * sizeof t->extent[0]);
}

static bool answer_refusal(uint64_t *out, uint32_t number, uint32_t place)
{
    out[0] = number;
    out[1] = place;
    return false;
}

/* Takes what was lent; false: refusal 1. */
static bool take_lent(struct file *f, const uint8_t *head, size_t head_len, uint64_t total, const uint8_t *companion,
                      size_t companion_len, uint64_t companion_total, uint32_t *table, size_t table_len,
                      uint32_t asked, uint64_t *out)
{
    memset(out, 0, 8 * sizeof *out);
    if (table_len < TABLE_WORDS)
        return answer_refusal(out, 1, 0);
    f->head = head;
    f->length = head_len <= HEAD_MAX ? (uint32_t)head_len : HEAD_MAX + 1;
    f->total = total;
    f->companion = companion;
    f->companion_length = companion_len <= HEAD_MAX ? (uint32_t)companion_len : HEAD_MAX + 1;
    f->companion_total = companion_total;
    f->asked = asked;
    f->table = (struct table *)table;
    f->item = f->table->item;
    f->properties = f->associations = f->targets = f->extents = f->references = 0;
    f->waits = false;
    memset(f->child, 0, sizeof f->child);
    return true;
}

/* A refusal that leaves the table empty. */
static bool answer_empty(struct file *f, uint64_t *out, uint32_t number, uint32_t place)
{
    memset(f->table, 0, TABLE_WORDS * sizeof(uint32_t));
    return answer_refusal(out, number, place);
}

/* 2, and from Q-10 on 32: longer than the limit, or than its own total. */
static bool judge_lent(struct file *f)
{
    if (f->length > HEAD_MAX || f->length > f->total)
        return refuse(f, 2, 0);
    return LEVEL < 10 || (f->companion_length <= HEAD_MAX && f->companion_length <= f->companion_total) ||
           refuse(f, 32, f->asked);
}

/* Reads the file into the table, or gives its refusal and leaves the table empty. */
static bool read_lent(struct file *f, uint64_t *out)
{
    if (!judge_lent(f) || !read_boxes(f) || !judge(f))
        return answer_empty(f, out, f->number, f->place);
    finish_table(f);
    return true;
}

static bool read_file(struct file *f, const uint8_t *head, size_t head_len, uint64_t total, const uint8_t *companion,
                      size_t companion_len, uint64_t companion_total, uint32_t *table, size_t table_len,
                      uint32_t asked, uint64_t *out)
{
    return take_lent(f, head, head_len, total, companion, companion_len, companion_total, table, table_len, asked,
                     out) &&
           read_lent(f, out);
}

/* What a question was lent, to pass on; before Q-10 there is no companion. */
#if LEVEL >= 10
#define LENT head, head_len, total, companion, companion_len, companion_total, table, table_len
#else
#define LENT head, head_len, total, NULL, 0, 0, table, table_len
#endif

/* The row of an asked item, or NONE and refusal 21, or 22 where only image items will do. */
static uint32_t asked_row(const struct file *f, uint32_t item, bool image, uint64_t *out)
{
    uint32_t row = find(f, item);
    if (row == NONE) {
        answer_refusal(out, 21, item);
    } else if (image && f->note[row].kind == OPAQUE) {
        answer_refusal(out, 22, item);
        row = NONE;
    }
    return row;
}

/* ---- The report ---- */

static bool rests(const struct file *f, const struct item *item)
{
    for (uint32_t k = 0; k < item->targets; k++)
        if (f->finding[f->target_row[item->first_target + k]].state != SOUND)
            return true;
    return false;
}

/* Whether an extent names an item that has 13 or 14 of its own: then the bytes are not there either. */
static bool names_faulty(const struct file *f, const struct item *item)
{
    for (uint32_t k = 0; is_link(item) && k < item->extents; k++) {
        uint32_t fault = f->note[f->stretch[item->first_extent + k].named].extent_fault;
        if (fault == 13 || fault == 14)
            return true;
    }
    return false;
}

static void pass_on_faults(struct file *f)
{
    for (uint32_t chain = 1; f->waits && chain <= CHAIN_MAX; chain++)
        for (uint32_t row = 0; row < f->items; row++)
            if (f->link[row].chain == chain && f->note[row].extent_fault == 0 && names_faulty(f, &f->item[row]))
                f->note[row].extent_fault = 14;
}

/* The first number that needs no look at what the item derives from. */
static uint32_t own_number(const struct file *f, uint32_t row)
{
    if (f->note[row].extent_fault != 0)
        return f->note[row].extent_fault;
    if (image_fault(&f->note[row]) != 0)
        return image_fault(&f->note[row]);
    return !is_good_derivation(f, row) ? 17 : f->finding[row].cyclic ? 18 : 0;
}

/* 19 or 20 of an item that derives from sound ones only, or 0 with its depth and sizes in the record. */
static uint32_t drawn_number(struct file *f, uint32_t row)
{
    struct item *item = &f->item[row];
    if (f->note[row].kind == OPAQUE)
        return 0;
    for (uint32_t k = 0; k < item->targets; k++)
        deepen(item, input_of(f, item, k));
    return item->depth > DEPTH_MAX ? 19 : size_item(f, row) ? 0 : 20;
}

static void empty_record(struct file *f, uint32_t row)
{
    struct item *item = &f->item[row];
    uint32_t number = f->finding[row].number;
    item->width = item->height = item->out_width = item->out_height = item->depth = 0;
    if (number == 13 || number == 14 || number == 30)
        memset(f->table->extent + item->first_extent, 0, item->extents * sizeof f->table->extent[0]);
}

/* All that the item derives from must be judged, but for items on a cycle, which have a number of their own. */
static void judge_item(struct file *f, uint32_t row)
{
    struct finding *finding = &f->finding[row];
    f->item[row].depth = 0;
    finding->number = (uint8_t)own_number(f, row);
    bool resting = finding->number == 0 && rests(f, &f->item[row]);
    if (finding->number == 0 && !resting)
        finding->number = (uint8_t)drawn_number(f, row);
    finding->state = finding->number != 0 ? FAULTY : resting ? RESTING : SOUND;
    if (finding->state != SOUND)
        empty_record(f, row);
}

static void judge_each(struct file *f)
{
    place_items(f);
    pass_on_faults(f);
    memset(f->finding, 0, f->items * sizeof f->finding[0]);
    walk_derivations(f);
    for (uint32_t row = 0; row < f->items; row++)
        if (f->item[row].targets == 0)
            judge_item(f, row);
    for (uint32_t k = 0; k < f->pictures; k++)
        judge_item(f, f->order[k]);
}

/* As read_lent, in Q-12's mode: 12 to 20, 29 and 30 refuse no file. */
static bool read_report(struct file *f, uint64_t *out)
{
    if (!judge_lent(f) || !read_boxes(f))
        return answer_empty(f, out, f->number, f->place);
    judge_each(f);
    finish_table(f);
    return true;
}

/* As asked_row for image items; then 39. */
static uint32_t asked_sound_row(const struct file *f, uint32_t item, uint64_t *out)
{
    uint32_t row = asked_row(f, item, true, out);
    if (row == NONE || f->finding[row].state == SOUND)
        return row;
    answer_refusal(out, 39, item);
    return NONE;
}
