/* Part of second.c: the table, fields and boxes, and the contents of every box that is read (1 to 11). */

enum {
    TABLE_WORDS = 11280,
    HEAD_MAX = 65536,
    ITEMS_MAX = 256,
    PROPERTIES_MAX = 256,
    ASSOCIATIONS_MAX = 2048,
    TARGETS_MAX = 2048,
    EXTENTS_MAX = 512,
    DEPTH_MAX = 16,
    CHAIN_MAX = 8,    /* links of method 2 */
    BODY_MAX = 16402, /* an overlay of 2,048 inputs with 32-bit fields */
    STEPS_MAX = 255,  /* an entry of ipma has no more associations */
    REFERENCES_MAX = 16,
    SIDE_MAX = 65535,
    ESSENTIAL = 32768,
    SLOTS = 512,    /* of the hash from IDs to rows: twice the items, so a search stays short */
    NONE = ITEMS_MAX /* no such row */
};

#define TYPE(a, b, c, d) ((uint32_t)(a) << 24 | (uint32_t)(b) << 16 | (uint32_t)(c) << 8 | (uint32_t)(d))

/* ---- The table ---- */

struct item {
    uint32_t id, type, hidden;
    uint32_t first_association, associations;
    uint32_t first_target, targets;
    uint32_t first_extent, extents;
    uint32_t method;
    uint32_t width, height;
    uint32_t out_width, out_height;
    uint32_t depth;
    uint32_t place; /* in iinf, from Q-6 on; before it 0 */
};

struct property {
    uint32_t type, offset, size, zero;
};

struct extent {
    uint32_t offset_high, offset_low, length_high, length_low;
};

struct table {
    uint32_t items, properties, associations, targets, extents;
    uint32_t primary;
    uint32_t total_high, total_low;
    uint32_t rest[8];
    struct item item[ITEMS_MAX];
    struct property property[PROPERTIES_MAX];
    uint32_t association[ASSOCIATIONS_MAX];
    uint32_t target[TARGETS_MAX];
    struct extent extent[EXTENTS_MAX];
};

static_assert(sizeof(struct table) == TABLE_WORDS * sizeof(uint32_t), "document 01's table");

/* ---- What a call keeps beside the table ---- */

enum kind { OPAQUE, CODED, IDEN, GRID, IOVL };

enum state { SOUND, FAULTY, RESTING };

enum property_kind { UNKNOWN, KNOWN, HVCC, ISPE, IROT, IMIR, CLAP };

struct box {
    uint32_t start, content, end, type;
};

enum child { HDLR, PITM, IINF, ILOC, IPRP, IREF, IDAT, DINF, CHILDREN };

/* An extent of an item, counted from the start of its source. */
struct stretch {
    uint64_t index, start, length;
    bool wraps;     /* its start passes 64 bits */
    uint16_t named; /* row of the item that is its source, with method 2; NONE: no such reference */
};

struct note {
    uint8_t kind;
    bool located;         /* has an entry in iloc */
    bool waiting;         /* its extents come to something only by iref or dinf */
    bool linked;          /* has an iloc reference */
    bool transformed;     /* has a transform among its associations */
    uint8_t extent_fault; /* 13, 30, 14 or 0 */
    uint8_t image_fault;  /* 15, 29, 16 or 0 */
    uint8_t ispe;         /* row of its ispe when image_fault is 0 */
};

/* What is needed once an item waits; of the others no more than chain and sum. */
struct link {
    uint16_t reference; /* its data reference index */
    uint16_t links;     /* how many targets its iloc reference has, */
    uint32_t links_at;  /* and where in the head they stand */
    uint8_t chain;      /* links down to an item that is not of method 2; over CHAIN_MAX: too many, or none there */
    bool sum_past;      /* the lengths of its extents sum past 64 bits, */
    bool names_past;    /* or those of an item that it names, at any depth */
    uint64_t sum;
};

/* What a report finds. */
struct finding {
    bool cyclic;    /* reaches itself along dimg */
    uint8_t state;
    uint8_t number; /* its own first number when it is faulty */
};

struct file {
    const uint8_t *head;
    uint32_t length;
    uint64_t total;
    const uint8_t *companion;
    uint32_t companion_length;
    uint64_t companion_total;
    uint32_t asked; /* the item, or 0 */
    struct table *table;
    uint32_t number, place; /* of the refusal */
    uint32_t items, properties, associations, targets, extents;
    uint32_t primary;
    uint32_t pictures; /* image items in `order`, */
    uint32_t ground;   /* the first of which derive from nothing */
    bool waits;           /* some item's extents do */
    bool wide_references; /* iref has 32-bit IDs */
    uint32_t references;  /* entries of dref, */
    bool same_file[REFERENCES_MAX]; /* and whether they are marked as this file */
    struct box meta, child[CHILDREN];
    struct box pair[2]; /* ipco, ipma */
    struct item *item; /* rows are in the order of iinf: the table's own or, when those have been sorted, `row` */
    struct item row[ITEMS_MAX];
    struct note note[ITEMS_MAX];
    struct link link[ITEMS_MAX];
    struct finding finding[ITEMS_MAX];
    struct stretch stretch[EXTENTS_MAX]; /* of the items that wait */
    uint8_t property_kind[PROPERTIES_MAX];
    uint8_t target_row[TARGETS_MAX];
    uint8_t order[ITEMS_MAX]; /* rows of image items by depth, then by row; in a report of items with dimg as closed */
    uint16_t slot[SLOTS];     /* row plus 1, or 0 */
};

static bool refuse(struct file *f, uint32_t number, uint32_t place)
{
    f->number = number;
    f->place = place;
    return false;
}

/* ---- Fields ---- */

static uint32_t be16(const uint8_t *p)
{
    return (uint32_t)p[0] << 8 | p[1];
}

static uint32_t be32(const uint8_t *p)
{
    return (uint32_t)p[0] << 24 | (uint32_t)p[1] << 16 | (uint32_t)p[2] << 8 | p[3];
}

static uint64_t be64(const uint8_t *p)
{
    return (uint64_t)be32(p) << 32 | be32(p + 4);
}

/* The content of one box, read field by field; a field that does not fit is 8 at that box. */
struct cursor {
    struct file *file;
    const uint8_t *at, *end;
    uint32_t box;
};

static struct cursor content_of(struct file *f, const struct box *box)
{
    struct cursor c = {f, f->head + box->content, f->head + box->end, box->start};
    return c;
}

static bool has(struct cursor *c, uint32_t bytes)
{
    return (size_t)(c->end - c->at) >= bytes || refuse(c->file, 8, c->box);
}

static bool take8(struct cursor *c, uint32_t *value)
{
    if (!has(c, 1))
        return false;
    *value = *c->at++;
    return true;
}

static bool take16(struct cursor *c, uint32_t *value)
{
    if (!has(c, 2))
        return false;
    *value = be16(c->at);
    c->at += 2;
    return true;
}

static bool take32(struct cursor *c, uint32_t *value)
{
    if (!has(c, 4))
        return false;
    *value = be32(c->at);
    c->at += 4;
    return true;
}

static bool take_wide(struct cursor *c, bool wide, uint32_t *value)
{
    return wide ? take32(c, value) : take16(c, value);
}

/* A field of 0, 4 or 8 bytes. */
static bool take_sized(struct cursor *c, uint32_t bytes, uint64_t *value)
{
    if (!has(c, bytes))
        return false;
    *value = bytes == 0 ? 0 : bytes == 4 ? be32(c->at) : be64(c->at);
    c->at += bytes;
    return true;
}

/* The version is judged before the flags are read. */
static bool take_version(struct cursor *c, uint32_t lowest, uint32_t highest, uint32_t *version, uint32_t *flags)
{
    if (!take8(c, version))
        return false;
    if (*version < lowest || *version > highest)
        return refuse(c->file, 6, c->box);
    if (!has(c, 3))
        return false;
    *flags = (uint32_t)c->at[0] << 16 | be16(c->at + 1);
    c->at += 3;
    return true;
}

static bool at_end(struct cursor *c)
{
    return c->at == c->end || refuse(c->file, 8, c->box);
}

/* ---- Boxes ---- */

/* A box at `at` in a container that ends at `end`, at least 8 bytes on. */
static bool child_box(struct file *f, uint32_t at, uint32_t end, struct box *box)
{
    const uint8_t *p = f->head + at;
    uint32_t left = end - at, header = 8;
    uint64_t size = be32(p);
    if (size == 1) {
        if (left < 16)
            return refuse(f, 3, at);
        header = 16;
        size = be64(p + 8);
    }
    if (size < header || size > left)
        return refuse(f, 3, at);
    box->start = at;
    box->content = at + header;
    box->end = at + (uint32_t)size;
    box->type = be32(p + 4);
    return true;
}

/* A box at the top level. `size` reaches to the end of the file when the field is 0; `unread` is the refusal for a
 * header that is not wholly in the head. The box itself may end past the head. */
static bool top_box(struct file *f, uint64_t at, uint32_t unread, uint32_t *header, uint64_t *size)
{
    if (at > f->length || f->length - at < 8)
        return refuse(f, unread, 0);
    const uint8_t *p = f->head + at;
    *header = 8;
    *size = be32(p);
    if (*size == 1) {
        if (f->length - at < 16)
            return refuse(f, unread, 0);
        *header = 16;
        *size = be64(p + 8);
    } else if (*size == 0) {
        *size = f->total - at;
    }
    return (*size >= *header && *size <= f->total - at) || refuse(f, 3, (uint32_t)at);
}

static bool is_mif1_ftyp(const struct file *f, uint32_t header, uint64_t size)
{
    if (be32(f->head + 4) != TYPE('f', 't', 'y', 'p') || size > f->length || (size - header) % 4 != 0)
        return false;
    /* The major brand and the minor version come first and do not count. */
    for (uint64_t at = header + 8; at < size; at += 4)
        if (be32(f->head + at) == TYPE('m', 'i', 'f', '1'))
            return true;
    return false;
}

static bool find_meta(struct file *f, struct box *meta)
{
    uint32_t header;
    uint64_t size, at;
    if (!top_box(f, 0, 4, &header, &size))
        return false;
    if (!is_mif1_ftyp(f, header, size))
        return refuse(f, 4, 0);
    for (at = size;; at += size) {
        if (!top_box(f, at, 5, &header, &size))
            return false;
        if (be32(f->head + at + 4) == TYPE('m', 'e', 't', 'a'))
            break;
    }
    if (size > f->length - at)
        return refuse(f, 5, 0);
    meta->start = (uint32_t)at;
    meta->content = meta->start + header;
    meta->end = meta->start + (uint32_t)size;
    return true;
}

static enum child child_of(uint32_t type)
{
    switch (type) {
    case TYPE('h', 'd', 'l', 'r'): return HDLR;
    case TYPE('p', 'i', 't', 'm'): return PITM;
    case TYPE('i', 'i', 'n', 'f'): return IINF;
    case TYPE('i', 'l', 'o', 'c'): return ILOC;
    case TYPE('i', 'p', 'r', 'p'): return IPRP;
    case TYPE('i', 'r', 'e', 'f'): return IREF;
    case TYPE('i', 'd', 'a', 't'): return IDAT;
    case TYPE('d', 'i', 'n', 'f'): return LEVEL >= 10 ? DINF : CHILDREN; /* before, nothing looked into it */
    default: return CHILDREN;
    }
}

/* All children of `meta` are walked before any is read. An absent one keeps end 0. */
static bool walk_meta(struct file *f, const struct box *meta)
{
    struct cursor c = content_of(f, meta);
    uint32_t version, flags;
    if (!take_version(&c, 0, 0, &version, &flags))
        return false;
    uint32_t at = meta->content + 4;
    struct box box;
    for (; meta->end - at >= 8; at = box.end) {
        if (!child_box(f, at, meta->end, &box))
            return false;
        enum child child = child_of(box.type);
        if (child == CHILDREN)
            continue;
        if (f->child[child].end != 0)
            return refuse(f, 7, at);
        f->child[child] = box;
    }
    if (at != meta->end)
        return refuse(f, 3, meta->start);
    for (int child = 0; child < IREF; child++)
        if (f->child[child].end == 0)
            return refuse(f, 7, meta->start);
    return true;
}

/* ---- Items by ID ---- */

static uint32_t slot_of(uint32_t id)
{
    return id * 2654435769u >> 23; /* the top 9 bits: 0 to 511 */
}

static uint32_t find(const struct file *f, uint32_t id)
{
    for (uint32_t at = slot_of(id); f->slot[at] != 0; at = (at + 1) % SLOTS) {
        uint32_t row = f->slot[at] - 1u;
        if (f->item[row].id == id)
            return row;
    }
    return NONE;
}

/* False when the ID is there already. The row's ID must be set after this. */
static bool add(struct file *f, uint32_t id, uint32_t row)
{
    uint32_t at = slot_of(id);
    for (; f->slot[at] != 0; at = (at + 1) % SLOTS)
        if (f->item[f->slot[at] - 1u].id == id)
            return false;
    f->slot[at] = (uint16_t)(row + 1);
    return true;
}

static bool is_derived(uint32_t kind)
{
    return kind >= IDEN;
}

/* ---- hdlr, pitm, iinf ---- */

static bool read_hdlr(struct file *f)
{
    struct cursor c = content_of(f, &f->child[HDLR]);
    uint32_t version, flags, pre_defined, handler;
    if (!take_version(&c, 0, 0, &version, &flags) || !take32(&c, &pre_defined) || !take32(&c, &handler))
        return false;
    return handler == TYPE('p', 'i', 'c', 't') || refuse(f, 10, c.box);
}

static bool read_pitm(struct file *f)
{
    struct cursor c = content_of(f, &f->child[PITM]);
    uint32_t version, flags;
    return take_version(&c, 0, 1, &version, &flags) && take_wide(&c, version == 1, &f->primary) && at_end(&c);
}

static enum kind kind_of(uint32_t type)
{
    switch (type) {
    case TYPE('h', 'v', 'c', '1'):
    case TYPE('j', 'p', 'e', 'g'): return CODED;
    case TYPE('i', 'd', 'e', 'n'): return IDEN;
    case TYPE('g', 'r', 'i', 'd'): return GRID;
    case TYPE('i', 'o', 'v', 'l'): return IOVL;
    default: return OPAQUE;
    }
}

static bool read_infe(struct file *f, const struct box *box, uint32_t row)
{
    struct cursor c = content_of(f, box);
    uint32_t version, flags, id, protection, type;
    if (!take_version(&c, 2, 3, &version, &flags) || !take_wide(&c, version == 3, &id))
        return false;
    if (!add(f, id, row))
        return refuse(f, 10, c.box);
    if (!take16(&c, &protection) || !take32(&c, &type))
        return false;
    f->item[row] = (struct item){.id = id, .type = type, .hidden = flags & 1, .place = LEVEL >= 6 ? row : 0};
    uint8_t kind = (uint8_t)kind_of(type);
    /* Until iloc and ipma say better, a coded item has no extents and no item has an ispe, nor an hvc1 item an hvcC. */
    uint8_t lacking = LEVEL >= 5 && type == TYPE('h', 'v', 'c', '1') ? 29 : 16;
    f->note[row] = (struct note){
        .kind = kind, .extent_fault = kind == CODED ? 14 : 0, .image_fault = protection != 0 ? 15 : lacking};
    return true;
}

static bool read_iinf(struct file *f)
{
    const struct box *iinf = &f->child[IINF];
    struct cursor c = content_of(f, iinf);
    uint32_t version, flags, count;
    if (!take_version(&c, 0, 1, &version, &flags) || !take_wide(&c, version == 1, &count))
        return false;
    if (count > ITEMS_MAX)
        return refuse(f, 9, iinf->start);
    memset(f->slot, 0, sizeof f->slot);
    uint32_t at = (uint32_t)(c.at - f->head);
    struct box box;
    for (uint32_t row = 0; row < count; row++, at = box.end) {
        if (iinf->end - at < 8)
            return refuse(f, 8, iinf->start);
        if (!child_box(f, at, iinf->end, &box))
            return false;
        if (box.type != TYPE('i', 'n', 'f', 'e'))
            return refuse(f, 10, at);
        if (!read_infe(f, &box, row))
            return false;
    }
    f->items = count;
    return at == iinf->end || refuse(f, 8, iinf->start);
}

/* ---- iloc ---- */

struct iloc_form {
    uint32_t version, offset_size, length_size, base_size, index_size;
};

static bool is_field_size(uint32_t size)
{
    return size == 0 || size == 4 || size == 8;
}

/* Two sizes to a byte. `low_counts`: the low four bits are a size too. */
static bool take_field_sizes(struct cursor *c, bool low_counts, uint32_t *high, uint32_t *low)
{
    uint32_t byte;
    if (!take8(c, &byte))
        return false;
    *high = byte >> 4;
    *low = low_counts ? byte & 15 : 0;
    return (is_field_size(*high) && is_field_size(*low)) || refuse(c->file, 10, c->box);
}

/* Where an extent counts from. */
struct source {
    uint64_t start, length;
};

/* Of methods 0 and 1 in this file. */
static struct source plain_source(const struct file *f, uint32_t method)
{
    struct source source = {0, f->total};
    if (method == 1) {
        source.start = f->child[IDAT].content;
        source.length = f->child[IDAT].end - f->child[IDAT].content;
    }
    return source;
}

/* no length means up to the end of the source. */
static void reach_end(struct stretch *stretch, const struct source *source)
{
    if (stretch->length == 0 && !stretch->wraps && stretch->start < source->length)
        stretch->length = source->length - stretch->start;
}

/* Outside its source or, from Q-8 on, empty. */
static bool is_past(const struct stretch *stretch, const struct source *source)
{
    return (LEVEL >= 8 && stretch->length == 0) || stretch->wraps || stretch->start > source->length ||
           stretch->length > source->length - stretch->start;
}

static void put_extent(const struct file *f, uint32_t at, const struct source *source, const struct stretch *stretch)
{
    uint64_t in_file = source->start + stretch->start;
    f->table->extent[at] = (struct extent){(uint32_t)(in_file >> 32), (uint32_t)in_file,
                                           (uint32_t)(stretch->length >> 32), (uint32_t)stretch->length};
}

/* An extent as it is stated. */
static bool read_extent(struct cursor *c, const struct iloc_form *form, uint64_t base, struct stretch *stretch)
{
    uint64_t offset;
    if (!take_sized(c, form->index_size, &stretch->index) || !take_sized(c, form->offset_size, &offset) ||
        !take_sized(c, form->length_size, &stretch->length))
        return false;
    if (form->index_size == 0)
        stretch->index = 1;
    stretch->start = base + offset;
    stretch->wraps = stretch->start < base;
    return true;
}

/* An extent whose source is known, to the table; `fault` is the item's and 13 goes before 14. */
static void place_extent(struct file *f, const struct source *source, struct stretch *stretch, uint32_t *fault)
{
    if (LEVEL >= 8)
        reach_end(stretch, source);
    if (LEVEL < 8 && stretch->length == 0)
        *fault = 13;
    else if (*fault == 0 && is_past(stretch, source))
        *fault = 14;
    put_extent(f, f->extents++, source, stretch);
}

/* Those of an item that waits are kept as they are stated. */
static bool read_extents(struct cursor *c, const struct iloc_form *form, uint64_t base, const struct item *item,
                         struct note *note)
{
    struct file *f = c->file;
    uint32_t fault = note->extent_fault;
    const struct source source = plain_source(f, item->method);
    for (uint32_t k = 0; k < item->extents; k++) {
        struct stretch stretch;
        if (!read_extent(c, form, base, &stretch))
            return false;
        if (LEVEL >= 7 && note->waiting)
            f->stretch[f->extents++] = stretch;
        else
            place_extent(f, &source, &stretch, &fault);
    }
    note->extent_fault = (uint8_t)fault;
    return true;
}

static bool read_location(struct cursor *c, const struct iloc_form *form)
{
    struct file *f = c->file;
    uint32_t id, method = 0, reference, count;
    uint64_t base;
    if (!take_wide(c, form->version == 2, &id))
        return false;
    uint32_t row = find(f, id);
    if (row == NONE)
        return refuse(f, 11, c->box);
    struct item *item = &f->item[row];
    struct note *note = &f->note[row];
    if (note->located)
        return refuse(f, 10, c->box);
    note->located = true;
    if (form->version != 0 && !take16(c, &method))
        return false;
    if (!take16(c, &reference) || !take_sized(c, form->base_size, &base) || !take16(c, &count))
        return false;
    if (f->extents + count > EXTENTS_MAX)
        return refuse(f, 9, c->box);
    item->method = method & 15;
    item->extents = count;
    item->first_extent = count != 0 ? f->extents : 0;
    bool plain = item->method <= 1 && reference == 0;
    note->extent_fault = !plain ? 13 : count == 0 && note->kind == CODED ? 14 : 0;
    if (LEVEL >= 7 && !plain) {
        f->waits = note->waiting = true;
        f->link[row].reference = (uint16_t)reference;
    }
    return read_extents(c, form, base, item, note);
}

static bool read_iloc(struct file *f)
{
    struct cursor c = content_of(f, &f->child[ILOC]);
    struct iloc_form form;
    uint32_t flags, count;
    if (!take_version(&c, 0, 2, &form.version, &flags) ||
        !take_field_sizes(&c, true, &form.offset_size, &form.length_size) ||
        !take_field_sizes(&c, form.version != 0, &form.base_size, &form.index_size) ||
        !take_wide(&c, form.version == 2, &count))
        return false;
    if (count > ITEMS_MAX)
        return refuse(f, 9, c.box);
    while (count-- > 0)
        if (!read_location(&c, &form))
            return false;
    return at_end(&c);
}

/* ---- iprp ---- */

/* Exactly `ipco` then `ipma`, to `pair`. */
static bool walk_iprp(struct file *f, struct box pair[2])
{
    static const uint32_t types[2] = {TYPE('i', 'p', 'c', 'o'), TYPE('i', 'p', 'm', 'a')};
    const struct box *iprp = &f->child[IPRP];
    uint32_t at = iprp->content, boxes = 0;
    struct box box;
    bool good = true;
    for (; iprp->end - at >= 8; at = box.end, boxes++) {
        if (!child_box(f, at, iprp->end, &box))
            return false;
        good = good && boxes < 2 && box.type == types[boxes];
        if (good)
            pair[boxes] = box;
    }
    if (at != iprp->end)
        return refuse(f, 3, iprp->start);
    return (good && boxes == 2) || refuse(f, 7, iprp->start);
}

static enum property_kind property_kind_of(uint32_t type)
{
    switch (type) {
    case TYPE('i', 's', 'p', 'e'): return ISPE;
    case TYPE('i', 'r', 'o', 't'): return IROT;
    case TYPE('i', 'm', 'i', 'r'): return IMIR;
    case TYPE('c', 'l', 'a', 'p'): return CLAP;
    case TYPE('p', 'a', 's', 'p'):
    case TYPE('c', 'o', 'l', 'r'):
    case TYPE('p', 'i', 'x', 'i'):
    case TYPE('r', 'l', 'o', 'c'):
    case TYPE('a', 'u', 'x', 'C'):
    case TYPE('j', 'p', 'g', 'C'): return KNOWN;
    case TYPE('h', 'v', 'c', 'C'): return LEVEL >= 5 ? HVCC : KNOWN;
    default: return UNKNOWN;
    }
}

static bool is_transform(uint32_t kind)
{
    return kind >= IROT;
}

/* Content lengths of the kinds that have only one; 0: any. */
static const uint8_t content_length[] = {[ISPE] = 12, [IROT] = 1, [IMIR] = 1, [CLAP] = 32};

static bool check_property(struct file *f, const struct box *box, enum property_kind kind)
{
    struct cursor c = content_of(f, box);
    uint32_t version, flags;
    if (kind == ISPE && !take_version(&c, 0, 0, &version, &flags))
        return false;
    return content_length[kind] == 0 || box->end - box->content == content_length[kind] || refuse(f, 8, c.box);
}

static bool read_ipco(struct file *f, const struct box *ipco)
{
    uint32_t at = ipco->content, row = 0;
    struct box box;
    for (; ipco->end - at >= 8; at = box.end, row++) {
        if (!child_box(f, at, ipco->end, &box))
            return false;
        if (row == PROPERTIES_MAX)
            return refuse(f, 9, at);
        enum property_kind kind = property_kind_of(box.type);
        if (kind >= ISPE && !check_property(f, &box, kind))
            return false;
        f->property_kind[row] = (uint8_t)kind;
        f->table->property[row] = (struct property){box.type, box.start, box.end - box.start, 0};
    }
    f->properties = row;
    return at == ipco->end || refuse(f, 3, ipco->start);
}

/* What an entry associates. */
struct counts {
    uint32_t ispes; /* one after a transform counts as two, which is the same fault */
    uint32_t hvccs; /* one that is not essential counts as two */
};

/* One index as it is read: to the table, and what it means for rules 15, 29 and 16 to the notes. */
static bool read_association(struct cursor *c, bool wide, struct note *note, struct counts *counts)
{
    struct file *f = c->file;
    uint32_t field;
    if (wide ? !take16(c, &field) : !take8(c, &field))
        return false;
    uint32_t index = wide ? field & 0x7fff : field & 0x7f;
    bool essential = wide ? field >> 15 : field >> 7;
    if (index > f->properties || (index == 0 && essential))
        return refuse(f, 11, c->box);
    f->table->association[f->associations++] = essential ? index + ESSENTIAL : index;
    if (index == 0)
        return true;
    uint32_t kind = f->property_kind[index - 1];
    if (kind == UNKNOWN && essential)
        note->image_fault = 15;
    if (LEVEL >= 5 && kind == HVCC)
        counts->hvccs += essential ? 1 : 2;
    if (kind == ISPE) {
        counts->ispes += note->transformed ? 2 : 1;
        note->ispe = (uint8_t)(index - 1);
    }
    note->transformed = note->transformed || is_transform(kind);
    return true;
}

static bool read_entry(struct cursor *c, bool wide_id, bool wide_index, uint64_t *least)
{
    struct file *f = c->file;
    uint32_t id, count;
    if (!take_wide(c, wide_id, &id))
        return false;
    if (id < *least)
        return refuse(f, 10, c->box);
    *least = (uint64_t)id + 1;
    uint32_t row = find(f, id);
    if (row == NONE)
        return refuse(f, 11, c->box);
    if (!take8(c, &count))
        return false;
    if (f->associations + count > ASSOCIATIONS_MAX)
        return refuse(f, 9, c->box);
    struct item *item = &f->item[row];
    struct note *note = &f->note[row];
    struct counts counts = {0, 0};
    item->associations = count;
    item->first_association = count != 0 ? f->associations : 0;
    while (count-- > 0)
        if (!read_association(c, wide_index, note, &counts))
            return false;
    if (LEVEL >= 5 && note->image_fault == 29 && counts.hvccs == 1)
        note->image_fault = 16;
    if (note->image_fault == 16 && counts.ispes == 1)
        note->image_fault = 0;
    return true;
}

static bool read_ipma(struct file *f, const struct box *ipma)
{
    struct cursor c = content_of(f, ipma);
    uint32_t version, flags, count;
    uint64_t least = 0; /* the least ID that is still rising */
    if (!take_version(&c, 0, 1, &version, &flags) || !take32(&c, &count))
        return false;
    if (count > ITEMS_MAX)
        return refuse(f, 9, c.box);
    while (count-- > 0)
        if (!read_entry(&c, version == 1, flags & 1, &least))
            return false;
    return at_end(&c);
}

static bool read_iprp(struct file *f)
{
    return walk_iprp(f, f->pair) && read_ipco(f, &f->pair[0]) && read_ipma(f, &f->pair[1]);
}

/* ---- iref ---- */

/* The source and the count of a derivation, to the record. */
static bool begin_derivation(struct file *f, uint32_t box, struct item *item, uint32_t count)
{
    if (count == 0)
        return refuse(f, 10, box);
    if (f->targets + count > TARGETS_MAX)
        return refuse(f, 9, box);
    item->first_target = f->targets;
    item->targets = count;
    return true;
}

/* Targets of method 2 have no limit of their own, so they stay in the head. */
static void note_links(const struct cursor *c, uint32_t row, uint32_t count)
{
    struct link *link = &c->file->link[row];
    c->file->note[row].linked = true;
    link->links = (uint16_t)count;
    link->links_at = (uint32_t)(c->at - c->file->head);
}

static bool read_reference(struct file *f, const struct box *box, bool wide)
{
    struct cursor c = content_of(f, box);
    bool derivation = box->type == TYPE('d', 'i', 'm', 'g');
    bool links = LEVEL >= 7 && box->type == TYPE('i', 'l', 'o', 'c');
    uint32_t id, count;
    if (!take_wide(&c, wide, &id))
        return false;
    uint32_t from = find(f, id);
    if (from == NONE)
        return refuse(f, 11, c.box);
    struct item *item = &f->item[from];
    if (derivation && item->targets != 0)
        return refuse(f, 10, c.box);
    if (links && f->note[from].linked)
        return refuse(f, 10, c.box);
    if (!take16(&c, &count) || (derivation && !begin_derivation(f, c.box, item, count)))
        return false;
    if (links)
        note_links(&c, from, count);
    while (count-- > 0) {
        if (!take_wide(&c, wide, &id))
            return false;
        uint32_t row = find(f, id);
        if (row == NONE)
            return refuse(f, 11, c.box);
        if (derivation) {
            f->table->target[f->targets] = id;
            f->target_row[f->targets++] = (uint8_t)row;
        }
    }
    return at_end(&c);
}

static bool read_iref(struct file *f)
{
    const struct box *iref = &f->child[IREF];
    if (iref->end == 0)
        return true;
    struct cursor c = content_of(f, iref);
    uint32_t version, flags;
    if (!take_version(&c, 0, 1, &version, &flags))
        return false;
    f->wide_references = version == 1;
    uint32_t at = iref->content + 4;
    struct box box;
    for (; iref->end - at >= 8; at = box.end)
        if (!child_box(f, at, iref->end, &box) || !read_reference(f, &box, version == 1))
            return false;
    return at == iref->end || refuse(f, 3, iref->start);
}

/* ---- dinf ---- */

/* The one dref among any other boxes, as the children of meta are walked. */
static bool walk_dinf(struct file *f, struct box *dref)
{
    const struct box *dinf = &f->child[DINF];
    uint32_t at = dinf->content;
    struct box box;
    for (; dinf->end - at >= 8; at = box.end) {
        if (!child_box(f, at, dinf->end, &box))
            return false;
        if (box.type != TYPE('d', 'r', 'e', 'f'))
            continue;
        if (dref->end != 0)
            return refuse(f, 7, at);
        *dref = box;
    }
    if (at != dinf->end)
        return refuse(f, 3, dinf->start);
    return dref->end != 0 || refuse(f, 7, dinf->start);
}

static bool read_dref(struct file *f, const struct box *dref)
{
    struct cursor c = content_of(f, dref);
    uint32_t version, flags, count;
    if (!take_version(&c, 0, 0, &version, &flags) || !take32(&c, &count))
        return false;
    if (count > REFERENCES_MAX)
        return refuse(f, 9, dref->start);
    uint32_t at = (uint32_t)(c.at - f->head);
    struct box box;
    for (; f->references < count; at = box.end) {
        if (dref->end - at < 8)
            return refuse(f, 8, dref->start);
        if (!child_box(f, at, dref->end, &box))
            return false;
        struct cursor entry = content_of(f, &box);
        if (!take_version(&entry, 0, 255, &version, &flags))
            return false;
        f->same_file[f->references++] = flags & 1;
    }
    return at == dref->end || refuse(f, 8, dref->start);
}

static bool read_dinf(struct file *f)
{
    struct box dref = {0};
    return f->child[DINF].end == 0 || (walk_dinf(f, &dref) && read_dref(f, &dref));
}
