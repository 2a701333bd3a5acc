/* Damage to the bytes of a still. A map of its boxes and fields is made by a lenient walk, so that most changes hit
 * something that a reader looks at. */
#include "generate.h"

#include <string.h>

enum { BOXES = 1200, FIELDS = 6000 };

enum field_kind { SIZE, TYPE_NAME, VERSION, FLAGS, COUNT, ID, VALUE, SIZES, FIELD_KINDS }; /* SIZES: two field sizes */

#define TYPE(a, b, c, d) ((uint32_t)(a) << 24 | (uint32_t)(b) << 16 | (uint32_t)(c) << 8 | (uint32_t)(d))

struct box {
    size_t start, content, end;
    uint32_t type;
};

struct field {
    size_t at;
    uint32_t bytes;
    enum field_kind kind;
};

struct map {
    const uint8_t *bytes;
    size_t length;
    struct box box[BOXES];
    uint32_t boxes;
    struct field field[FIELDS];
    uint32_t fields;
};

static uint64_t get(const uint8_t *p, uint32_t bytes)
{
    uint64_t value = 0;
    for (uint32_t k = 0; k < bytes; k++)
        value = value << 8 | p[k];
    return value;
}

static void put(uint8_t *p, uint32_t bytes, uint64_t value)
{
    for (uint32_t k = 0; k < bytes; k++)
        p[k] = (uint8_t)(value >> 8 * (bytes - 1 - k));
}

/* ---- The map ---- */

/* Notes a field and steps over it; gives its value, or 0 when it is not there. */
static uint64_t note(struct map *m, size_t *at, size_t end, uint32_t bytes, enum field_kind kind)
{
    uint64_t value = 0;
    if (bytes != 0 && bytes <= 8 && *at + bytes <= end && m->fields < FIELDS) {
        m->field[m->fields++] = (struct field){*at, bytes, kind};
        value = get(m->bytes + *at, bytes);
    }
    *at += bytes;
    return value;
}

/* The box at `*at`, or 0 when none fits. */
static int map_box(struct map *m, size_t *at, size_t end, struct box *box)
{
    size_t header = 8, start = *at;
    if (start + 8 > end || m->boxes == BOXES)
        return 0;
    uint64_t size = get(m->bytes + start, 4);
    if (size == 1 && start + 16 <= end) {
        size = get(m->bytes + start + 8, 8);
        header = 16;
    } else if (size == 0) {
        size = end - start;
    }
    if (size < header)
        return 0;
    *box = (struct box){start, start + header, size > end - start ? end : start + (size_t)size,
                        (uint32_t)get(m->bytes + start + 4, 4)};
    m->box[m->boxes++] = *box;
    size_t field = start;
    note(m, &field, end, 4, SIZE);
    note(m, &field, end, 4, TYPE_NAME);
    if (header == 16)
        note(m, &field, end, 8, SIZE);
    *at = box->end;
    return 1;
}

static uint32_t map_version(struct map *m, size_t *at, size_t end)
{
    uint32_t version = (uint32_t)note(m, at, end, 1, VERSION);
    note(m, at, end, 3, FLAGS);
    return version;
}

static void map_infe(struct map *m, const struct box *box)
{
    size_t at = box->content;
    uint32_t version = map_version(m, &at, box->end);
    note(m, &at, box->end, version == 3 ? 4 : 2, ID);
    note(m, &at, box->end, 2, VALUE);
    note(m, &at, box->end, 4, TYPE_NAME);
}

static void map_iinf(struct map *m, const struct box *iinf)
{
    size_t at = iinf->content;
    struct box box;
    note(m, &at, iinf->end, map_version(m, &at, iinf->end) == 0 ? 2 : 4, COUNT);
    while (map_box(m, &at, iinf->end, &box))
        map_infe(m, &box);
}

static void map_iloc(struct map *m, const struct box *box)
{
    size_t at = box->content, end = box->end;
    uint32_t version = map_version(m, &at, end);
    uint32_t sizes = (uint32_t)note(m, &at, end, 1, SIZES) << 8, bytes = version == 2 ? 4 : 2;
    sizes |= (uint32_t)note(m, &at, end, 1, SIZES);
    uint64_t count = note(m, &at, end, bytes, COUNT);
    for (uint64_t k = 0; k < count && at < end; k++) {
        note(m, &at, end, bytes, ID);
        if (version != 0)
            note(m, &at, end, 2, VALUE);
        note(m, &at, end, 2, VALUE);
        note(m, &at, end, sizes >> 4 & 15, VALUE);
        uint64_t extents = note(m, &at, end, 2, COUNT);
        for (uint64_t n = 0; n < extents && at < end; n++) {
            note(m, &at, end, version != 0 ? sizes & 15 : 0, VALUE);
            note(m, &at, end, sizes >> 12, VALUE);
            note(m, &at, end, sizes >> 8 & 15, VALUE);
        }
    }
}

static void map_ipma(struct map *m, const struct box *box)
{
    size_t at = box->content, end = box->end;
    uint32_t version = map_version(m, &at, end), wide = m->bytes[box->content + 3] & 1;
    uint64_t count = note(m, &at, end, 4, COUNT);
    for (uint64_t k = 0; k < count && at < end; k++) {
        note(m, &at, end, version == 0 ? 2 : 4, ID);
        uint64_t associations = note(m, &at, end, 1, COUNT);
        for (uint64_t n = 0; n < associations && at < end; n++)
            note(m, &at, end, wide ? 2 : 1, VALUE);
    }
}

static void map_iprp(struct map *m, const struct box *iprp)
{
    size_t at = iprp->content, inner, value;
    struct box box, property;
    while (map_box(m, &at, iprp->end, &box)) {
        if (box.type == TYPE('i', 'p', 'm', 'a') && box.end - box.content >= 4)
            map_ipma(m, &box);
        inner = box.content;
        while (box.type == TYPE('i', 'p', 'c', 'o') && map_box(m, &inner, box.end, &property))
            for (value = property.content; value < property.end && property.end - property.content < 40;)
                note(m, &value, property.end, property.end - value >= 4 ? 4 : 1, VALUE);
    }
}

static void map_iref(struct map *m, const struct box *iref)
{
    size_t at = iref->content;
    uint32_t bytes = map_version(m, &at, iref->end) == 0 ? 2 : 4;
    struct box box;
    while (map_box(m, &at, iref->end, &box)) {
        size_t inner = box.content;
        note(m, &inner, box.end, bytes, ID);
        note(m, &inner, box.end, 2, COUNT);
        while (inner < box.end)
            note(m, &inner, box.end, bytes, ID);
    }
}

static void map_dinf(struct map *m, const struct box *dinf)
{
    size_t at = dinf->content, inner, field;
    struct box box, entry;
    while (map_box(m, &at, dinf->end, &box)) {
        if (box.type != TYPE('d', 'r', 'e', 'f'))
            continue;
        inner = box.content;
        map_version(m, &inner, box.end);
        note(m, &inner, box.end, 4, COUNT);
        while (map_box(m, &inner, box.end, &entry)) {
            field = entry.content;
            map_version(m, &field, entry.end);
        }
    }
}

static void map_child(struct map *m, const struct box *box)
{
    size_t at = box->content;
    switch (box->type) {
    case TYPE('h', 'd', 'l', 'r'):
        map_version(m, &at, box->end);
        note(m, &at, box->end, 4, VALUE);
        note(m, &at, box->end, 4, TYPE_NAME);
        break;
    case TYPE('p', 'i', 't', 'm'): note(m, &at, box->end, map_version(m, &at, box->end) == 0 ? 2 : 4, ID); break;
    case TYPE('i', 'i', 'n', 'f'): map_iinf(m, box); break;
    case TYPE('i', 'l', 'o', 'c'): map_iloc(m, box); break;
    case TYPE('i', 'p', 'r', 'p'): map_iprp(m, box); break;
    case TYPE('i', 'r', 'e', 'f'): map_iref(m, box); break;
    case TYPE('d', 'i', 'n', 'f'): map_dinf(m, box); break;
    case TYPE('i', 'd', 'a', 't'):
        while (at < box->end)
            note(m, &at, box->end, box->end - at >= 2 ? 2 : 1, VALUE);
        break;
    default: break;
    }
}

static void make_map(struct map *m, const struct still *still)
{
    size_t at = 0;
    struct box box, child;
    m->bytes = still->head;
    m->length = still->length;
    m->boxes = m->fields = 0;
    while (map_box(m, &at, m->length, &box)) {
        if (box.type != TYPE('m', 'e', 't', 'a'))
            continue;
        size_t inner = box.content;
        map_version(m, &inner, box.end);
        while (map_box(m, &inner, box.end, &child))
            map_child(m, &child);
    }
}

/* ---- Changes of length ---- */

/* Every box around a place that has grown by `delta` bytes gets its new size. */
static void grow_around(struct still *still, const struct map *m, size_t start, size_t end, long delta)
{
    for (uint32_t k = 0; k < m->boxes; k++) {
        const struct box *box = &m->box[k];
        uint8_t *p = still->head + box->start;
        if (box->start >= start || box->end < end || (box->end == start && box->content > start))
            continue;
        if (get(p, 4) == 1)
            put(p + 8, 8, get(p + 8, 8) + (uint64_t)delta);
        else if (get(p, 4) != 0)
            put(p, 4, get(p, 4) + (uint64_t)delta);
    }
}

static void insert(struct still *still, size_t at, const uint8_t *bytes, size_t count)
{
    if (still->length + count > STILL_ROOM || at > still->length)
        return;
    memmove(still->head + at + count, still->head + at, still->length - at);
    memcpy(still->head + at, bytes, count);
    still->length += count;
    still->total += count;
}

static void cut_out(struct still *still, size_t at, size_t count)
{
    if (at + count > still->length)
        return;
    memmove(still->head + at, still->head + at + count, still->length - at - count);
    still->length -= count;
    still->total -= count;
}

/* A random box, the few at the top level and in `meta` as often as the many inside. */
static const struct box *pick_box(struct dice *d, const struct map *m)
{
    return &m->box[below(d, chance(d, 40) && m->boxes > 12 ? 12 : m->boxes)];
}

static void double_box(struct dice *d, struct still *still, const struct map *m)
{
    static uint8_t copy[STILL_ROOM];
    const struct box box = *pick_box(d, m), to = *pick_box(d, m);
    size_t count = box.end - box.start, at = chance(d, 70) ? box.end : to.start;
    if (still->length + count > STILL_ROOM)
        return;
    memcpy(copy, still->head + box.start, count);
    if (chance(d, 85))
        grow_around(still, m, at == box.end ? box.start : at, at, (long)count);
    insert(still, at, copy, count);
}

static void remove_box(struct dice *d, struct still *still, const struct map *m)
{
    const struct box box = *pick_box(d, m);
    if (chance(d, 85))
        grow_around(still, m, box.start, box.end, -(long)(box.end - box.start));
    cut_out(still, box.start, box.end - box.start);
}

/* Exchanges a box with the one that follows it. */
static void swap_boxes(struct dice *d, struct still *still, const struct map *m)
{
    static uint8_t copy[STILL_ROOM];
    const struct box first = *pick_box(d, m);
    for (uint32_t k = 0; k < m->boxes; k++) {
        const struct box second = m->box[k];
        if (second.start != first.end)
            continue;
        size_t count = first.end - first.start, other = second.end - second.start;
        memcpy(copy, still->head + first.start, count);
        memmove(still->head + first.start, still->head + second.start, other);
        memcpy(still->head + first.start + other, copy, count);
        return;
    }
}

/* A few bytes more or less at a box's end, or anywhere in it, with or without the sizes around. */
static void stretch_box(struct dice *d, struct still *still, const struct map *m)
{
    uint8_t bytes[9];
    const struct box box = *pick_box(d, m);
    size_t count = 1 + below(d, chance(d, 50) ? 1 : 9);
    size_t at = chance(d, 60) ? box.end : box.content + below(d, (uint32_t)(box.end - box.content) + 1);
    for (size_t k = 0; k < sizeof bytes; k++)
        bytes[k] = (uint8_t)(chance(d, 50) ? 0 : roll(d));
    if (chance(d, 50)) {
        if (chance(d, 85))
            grow_around(still, m, box.start + 1, at, (long)count);
        insert(still, at, bytes, count);
    } else if (at - box.content >= count) {
        if (chance(d, 85))
            grow_around(still, m, box.start + 1, at, -(long)count);
        cut_out(still, at - count, count);
    }
}

/* The same box with a 64-bit size. */
static void widen_box(struct dice *d, struct still *still, const struct map *m)
{
    uint8_t size[8];
    const struct box box = *pick_box(d, m);
    if (get(still->head + box.start, 4) < 8)
        return;
    grow_around(still, m, box.start, box.end, 8);
    put(size, 8, get(still->head + box.start, 4) + 8);
    put(still->head + box.start, 4, 1);
    insert(still, box.start + 8, size, 8);
}

/* ---- Changes of fields ---- */

static uint64_t other_type(struct dice *d)
{
    static const uint32_t types[] = {
        TYPE('f', 't', 'y', 'p'), TYPE('m', 'e', 't', 'a'), TYPE('h', 'd', 'l', 'r'), TYPE('p', 'i', 't', 'm'),
        TYPE('i', 'i', 'n', 'f'), TYPE('i', 'n', 'f', 'e'), TYPE('i', 'l', 'o', 'c'), TYPE('i', 'p', 'r', 'p'),
        TYPE('i', 'p', 'c', 'o'), TYPE('i', 'p', 'm', 'a'), TYPE('i', 'r', 'e', 'f'), TYPE('i', 'd', 'a', 't'),
        TYPE('f', 'r', 'e', 'e'), TYPE('d', 'i', 'm', 'g'), TYPE('t', 'h', 'm', 'b'), TYPE('i', 's', 'p', 'e'),
        TYPE('i', 'r', 'o', 't'), TYPE('i', 'm', 'i', 'r'), TYPE('c', 'l', 'a', 'p'), TYPE('h', 'v', 'c', '1'),
        TYPE('j', 'p', 'e', 'g'), TYPE('i', 'd', 'e', 'n'), TYPE('g', 'r', 'i', 'd'), TYPE('i', 'o', 'v', 'l'),
        TYPE('E', 'x', 'i', 'f'), TYPE('p', 'i', 'x', 'i'), TYPE('d', 'i', 'n', 'f'), TYPE('d', 'r', 'e', 'f')};
    return types[below(d, sizeof types / sizeof types[0])];
}

static uint64_t near_number(struct dice *d, uint64_t value, uint32_t bytes)
{
    static const uint64_t edges[] = {0, 1, 7, 8, 9, 15, 16, 17, 127, 128, 255, 256, 257, 512, 513, 2048, 2049,
                                     32767, 32768, 65535, 65536, 0x7fffffff, 0x80000000, 0xffffffff};
    switch (below(d, 7)) {
    case 0: return value + 1;
    case 1: return value - 1;
    case 2: return edges[below(d, sizeof edges / sizeof edges[0])];
    case 3: return value ^ (uint64_t)1 << below(d, 8 * bytes);
    case 4: return ~(uint64_t)0 - below(d, 9);
    case 5: return value + (chance(d, 50) ? 8 : -8);
    default: return roll(d) >> below(d, 64);
    }
}

/* The value of another field of the same kind and width: repeated IDs, exchanged counts. */
static uint64_t borrowed(struct dice *d, const struct map *m, const struct field *field)
{
    for (int tries = 0; tries < 50; tries++) {
        const struct field *other = &m->field[below(d, m->fields)];
        if (other->kind == field->kind && other->bytes == field->bytes && other->at != field->at)
            return get(m->bytes + other->at, other->bytes);
    }
    return roll(d);
}

/* A field of a random kind: kinds are chosen first, since IDs and values are far more than versions. */
static const struct field *pick_field(struct dice *d, const struct map *m)
{
    enum field_kind kind = (enum field_kind)below(d, chance(d, 50) ? FIELD_KINDS : SIZES);
    uint32_t count = 0, nth;
    for (uint32_t k = 0; k < m->fields; k++)
        count += m->field[k].kind == kind;
    nth = below(d, count);
    for (uint32_t k = 0; k < m->fields; k++)
        if (m->field[k].kind == kind && nth-- == 0)
            return &m->field[k];
    return &m->field[below(d, m->fields)];
}

static void edit_field(struct dice *d, struct still *still, const struct map *m)
{
    const struct field *field = pick_field(d, m);
    uint8_t *p = still->head + field->at;
    uint64_t value = get(p, field->bytes);
    switch (field->kind) {
    case TYPE_NAME: value = chance(d, 80) ? other_type(d) : value ^ (uint64_t)1 << below(d, 32); break;
    case VERSION: value = chance(d, 80) ? below(d, 4) : roll(d); break;
    case SIZES: value ^= (uint64_t)below(d, 16) << 4 * below(d, 2); break;
    case FLAGS: value ^= (uint64_t)1 << (chance(d, 70) ? 0 : below(d, 24)); break;
    case ID:
    case COUNT:
        value = chance(d, field->kind == ID ? 60 : 25) ? borrowed(d, m, field) : near_number(d, value, field->bytes);
        break;
    default: value = chance(d, 15) ? borrowed(d, m, field) : near_number(d, value, field->bytes); break;
    }
    put(p, field->bytes, value);
}

static void flip_bytes(struct dice *d, struct still *still)
{
    for (uint32_t k = 1 + below(d, 3); k > 0; k--) {
        uint8_t *p = &still->head[below(d, (uint32_t)still->length)];
        *p = chance(d, 50) ? (uint8_t)(*p ^ 1 << below(d, 8)) : (uint8_t)roll(d);
    }
}

/* A cut head; the rest of the file may be gone too. */
static void cut(struct dice *d, struct still *still, const struct map *m)
{
    size_t length = below(d, (uint32_t)still->length + 1);
    if (chance(d, 50) && m->fields != 0)
        length = m->field[below(d, m->fields)].at + below(d, 3);
    if (length > still->length)
        return;
    if (chance(d, 50))
        still->total -= still->length - length;
    still->length = length;
}

static void change_total(struct dice *d, struct still *still)
{
    switch (below(d, 6)) {
    case 0: still->total = still->length; break;
    case 1: still->total = still->length - 1; break;
    case 2: still->total = below(d, (uint32_t)still->length + 1); break;
    case 3: still->total += 1; break;
    case 4: still->total -= 1; break;
    default: still->total = roll(d) >> below(d, 64); break;
    }
}

/* A head longer than the limit, or one that just reaches it, whatever fills it. */
static void lengthen(struct dice *d, struct still *still)
{
    size_t to = 65535 + below(d, 3);
    if (still->length >= to)
        return;
    memset(still->head + still->length, chance(d, 50) ? 0 : 0x31, to - still->length);
    if (still->total < to)
        still->total = to;
    still->length = to;
}

void damage(struct dice *d, struct still *still)
{
    static struct map map;
    make_map(&map, still);
    uint32_t way = below(d, 100);
    if (map.boxes == 0 || map.fields == 0 || still->length < 16)
        way = 0;
    if (way < 10)
        flip_bytes(d, still);
    else if (way < 60)
        edit_field(d, still, &map);
    else if (way < 66)
        cut(d, still, &map);
    else if (way < 70)
        change_total(d, still);
    else if (way < 77)
        double_box(d, still, &map);
    else if (way < 82)
        remove_box(d, still, &map);
    else if (way < 86)
        swap_boxes(d, still, &map);
    else if (way < 95)
        stretch_box(d, still, &map);
    else if (way < 99)
        widen_box(d, still, &map);
    else
        lengthen(d, still);
}
