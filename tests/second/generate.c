/* Makes HEIF stills by document 01, and by document 02 up to Q-LEVEL. A plan holds items, properties and derivations,
 * with sizes worked out bottom up; planned faults spoil the plan; the emitter writes it in a random form that the
 * documents allow. Damage to bytes is in damage.c. */
#include "generate.h"
#include "level.h"

#include <dirent.h>
#include <stdio.h>
#include <stdlib.h>
#include <string.h>

enum { ITEMS = 260, PROPERTIES = 260, CONTENT = 48, POOL = 2400, BLOB = 24000, EXTENTS = 4, LINKS = 8, CHAIN = 8 };

enum kind { OPAQUE, CODED, IDEN, GRID, IOVL };

#define TYPE(a, b, c, d) ((uint32_t)(a) << 24 | (uint32_t)(b) << 16 | (uint32_t)(c) << 8 | (uint32_t)(d))

struct dice dice_from(uint64_t seed)
{
    struct dice d = {seed};
    return d;
}

uint64_t roll(struct dice *d)
{
    uint64_t z = d->state += 0x9e3779b97f4a7c15u;
    z = (z ^ z >> 30) * 0xbf58476d1ce4e5b9u;
    z = (z ^ z >> 27) * 0x94d049bb133111ebu;
    return z ^ z >> 31;
}

uint32_t below(struct dice *d, uint32_t n)
{
    return n == 0 ? 0 : (uint32_t)((roll(d) >> 32) * n >> 32);
}

int chance(struct dice *d, uint32_t percent)
{
    return below(d, 100) < percent;
}

static uint32_t between(struct dice *d, uint32_t low, uint32_t high)
{
    return low + below(d, high - low + 1);
}

/* ---- The plan ---- */

struct piece {
    uint32_t at, length;
};

struct picture {
    enum kind kind;
    uint32_t id, type;
    int hidden;
    uint32_t protection;
    uint32_t width, height, out_width, out_height, depth;
    uint32_t first_input, inputs;             /* in plan.input, as places in plan.item */
    uint32_t first_association, associations; /* in plan.association */
    uint32_t method, reference;
    uint32_t extents;
    int has_body, no_entry;
    int past_end, no_length, wraps, outside; /* planned faults of extents */
    int in_companion;                        /* written as method 0, with an entry that is not marked */
    uint32_t blob;                           /* where its body is: 0 in `mdat`, 1 in `idat`, 2 in the companion */
    struct piece piece[EXTENTS];             /* of the body, in that blob */
    int covers;                              /* its extents are all of that blob */
    uint32_t chain;                          /* links down to an item that is not of method 2 */
    uint32_t link[LINKS], links;             /* targets of its iloc reference, as places in plan.item */
    uint32_t index[EXTENTS];                 /* from 1: which of them an extent names */
    int is_named, no_links, links_twice, huge; /* the last three are planned faults */
};

struct content {
    uint32_t type;
    uint8_t bytes[CONTENT];
    uint32_t length;
};

struct plan {
    struct picture item[ITEMS];
    uint32_t items;
    struct content property[PROPERTIES];
    uint32_t properties;
    uint16_t association[POOL];
    uint32_t associations;
    uint16_t input[POOL];
    uint32_t inputs;
    uint8_t blob[3][BLOB]; /* in `mdat`, in `idat`, in the companion */
    uint32_t blob_length[3];
    uint32_t references; /* entries of dref */
    uint8_t marked[17];  /* as the same file */
    uint64_t companion_total;
    int no_dinf; /* and so no entries */
    int apart;   /* no extent of method 0 shares a byte with `meta` */
    uint32_t primary; /* the ID */
    uint32_t order[ITEMS]; /* of iinf */
    int deep;
    int loose;    /* canvases may be too large for their tiles, tiles unequal, sides 0 or 65,536: with an ispe that agrees */
    int unsorted; /* two entries of ipma exchanged */
    int cut;      /* the head ends inside a body */
    uint32_t extents;
    int pieced;   /* some item's extents must lie where they do */
    int indexed;  /* iloc has extent indices; else every link is to the first target */
    uint32_t deepest_chain;
    uint32_t cover[3][CHAIN + 3]; /* places of the items that cover a blob, by chain; ITEMS: none yet */
};

static void put(uint8_t *p, uint32_t bytes, uint64_t value)
{
    for (uint32_t k = 0; k < bytes; k++)
        p[k] = (uint8_t)(value >> 8 * (bytes - 1 - k));
}

/* ---- Properties ---- */

/* The index of a property with this content: an equal one that is there, or a new one; 0 when there is no room. */
static uint32_t property_index(struct dice *d, struct plan *plan, const struct content *content)
{
    if (chance(d, 85))
        for (uint32_t k = 0; k < plan->properties; k++)
            if (plan->property[k].type == content->type && plan->property[k].length == content->length &&
                !memcmp(plan->property[k].bytes, content->bytes, content->length))
                return k + 1;
    /* The last places are kept for what an image item cannot do without. */
    int needed = content->type == TYPE('i', 's', 'p', 'e') || content->type == TYPE('h', 'v', 'c', 'C');
    if (plan->properties >= (needed ? 256 : 240))
        return 0;
    plan->property[plan->properties++] = *content;
    return plan->properties;
}

static struct content random_property(struct dice *d, int known)
{
    static const uint32_t known_types[] = {TYPE('p', 'a', 's', 'p'), TYPE('c', 'o', 'l', 'r'), TYPE('p', 'i', 'x', 'i'),
                                           TYPE('r', 'l', 'o', 'c'), TYPE('a', 'u', 'x', 'C'), TYPE('h', 'v', 'c', 'C'),
                                           TYPE('j', 'p', 'g', 'C')};
    static const uint32_t other_types[] = {TYPE('f', 'r', 'e', 'e'), TYPE('s', 'k', 'i', 'p'), TYPE('u', 'u', 'i', 'd'),
                                           TYPE('c', 'l', 'l', 'i'), TYPE('I', 'R', 'O', 'T'), TYPE('a', 'v', '1', 'C')};
    struct content content = {known ? known_types[below(d, 7)] : other_types[below(d, 6)], {0}, below(d, 13)};
    for (uint32_t k = 0; k < content.length; k++)
        content.bytes[k] = (uint8_t)below(d, 3);
    return content;
}

static struct content ispe_of(uint32_t width, uint32_t height)
{
    struct content content = {TYPE('i', 's', 'p', 'e'), {0}, 12};
    put(content.bytes + 4, 4, width);
    put(content.bytes + 8, 4, height);
    return content;
}

/* One direction of a clap that fits: the edge is chosen, the offset follows from it, then both are widened. */
static uint32_t plan_crop(struct dice *d, uint8_t *side_field, uint8_t *offset_field, uint32_t side, int whole)
{
    uint32_t cropped = whole || chance(d, 30) || side == 0 ? side : between(d, 1, side);
    uint32_t edge = chance(d, 30) ? (side - cropped) / 2 : below(d, side - cropped + 1);
    int64_t twice = 2 * (int64_t)edge - (int64_t)(side - cropped); /* twice the offset */
    uint32_t by = chance(d, 50) ? 1 : between(d, 1, 60000), parts = 2;
    if (twice % 2 == 0 && chance(d, 60)) {
        twice /= 2;
        parts = 1;
    }
    uint32_t more = chance(d, 50) ? 1 : between(d, 1, 30000);
    put(side_field, 4, cropped * by);
    put(side_field + 4, 4, by);
    put(offset_field, 4, (uint64_t)(twice * (int64_t)more));
    put(offset_field + 4, 4, parts * more);
    return cropped;
}

/* One of the first `kinds` of irot, imir, clap. */
static struct content plan_transform(struct dice *d, uint32_t kinds, uint32_t *width, uint32_t *height)
{
    struct content content = {0, {0}, 1};
    uint32_t which = below(d, kinds), turn = below(d, 4);
    if (which == 0) {
        content.type = TYPE('i', 'r', 'o', 't');
        content.bytes[0] = (uint8_t)(turn | (chance(d, 20) ? below(d, 64) << 2 : 0));
        if (turn & 1) {
            uint32_t other = *width;
            *width = *height;
            *height = other;
        }
    } else if (which == 1) {
        content.type = TYPE('i', 'm', 'i', 'r');
        content.bytes[0] = (uint8_t)(turn & 1) | (uint8_t)(chance(d, 20) ? below(d, 128) << 1 : 0);
    } else {
        content.type = TYPE('c', 'l', 'a', 'p');
        content.length = 32;
        int whole = chance(d, 25); /* cuts nothing */
        *width = plan_crop(d, content.bytes, content.bytes + 16, *width, whole);
        *height = plan_crop(d, content.bytes + 8, content.bytes + 24, *height, whole);
    }
    return content;
}

static void associate(struct plan *plan, struct picture *item, uint32_t index, int essential)
{
    if (item->associations == 255 || plan->associations >= 2048)
        return;
    plan->association[plan->associations++] = (uint16_t)(index | (essential ? 32768 : 0));
    item->associations++;
}

/* From Q-5 on an hvc1 item must have exactly one hvcC, marked essential. */
static int needs_hvcc(const struct picture *item)
{
    return LEVEL >= 5 && item->type == TYPE('h', 'v', 'c', '1');
}

static void associate_hvcc(struct dice *d, struct plan *plan, struct picture *item)
{
    struct content content = {TYPE('h', 'v', 'c', 'C'), {0}, below(d, 13)};
    content.bytes[0] = (uint8_t)below(d, 3);
    associate(plan, item, property_index(d, plan, &content), 1);
}

/* A property that does not matter: known, unknown and not essential, or index 0. */
static void associate_noise(struct dice *d, struct plan *plan, struct picture *item)
{
    int known = chance(d, 70);
    if (chance(d, 15)) {
        associate(plan, item, 0, 0);
        return;
    }
    struct content content = random_property(d, known);
    if (needs_hvcc(item) && content.type == TYPE('h', 'v', 'c', 'C'))
        content.type = TYPE('p', 'a', 's', 'p');
    uint32_t index = property_index(d, plan, &content);
    associate(plan, item, index, index != 0 && (known || item->kind == OPAQUE) && chance(d, 50));
}

/* The properties of an image item, and so its output size. Only transforms that found room count. */
static void plan_properties(struct dice *d, struct plan *plan, struct picture *item, uint32_t transforms)
{
    struct content ispe = ispe_of(item->width, item->height);
    uint32_t hvcc = needs_hvcc(item) ? between(d, 1, 3) : 0; /* before ispe, after it, or after all transforms */
    item->first_association = plan->associations;
    while (chance(d, 20))
        associate_noise(d, plan, item);
    if (hvcc == 1)
        associate_hvcc(d, plan, item);
    associate(plan, item, property_index(d, plan, &ispe), chance(d, 30));
    if (hvcc == 2)
        associate_hvcc(d, plan, item);
    item->out_width = item->width;
    item->out_height = item->height;
    uint32_t kinds = chance(d, 50) ? 2 : 3; /* without clap, or with */
    if (kinds == 2 && transforms != 0 && chance(d, 4))
        transforms = between(d, 40, 250);
    while (transforms-- > 0) {
        uint32_t width = item->out_width, height = item->out_height, had = item->associations;
        struct content content = plan_transform(d, kinds, &width, &height);
        uint32_t index = property_index(d, plan, &content);
        if (index != 0)
            associate(plan, item, index, chance(d, 50));
        if (item->associations != had) {
            item->out_width = width;
            item->out_height = height;
        }
        if (chance(d, 15))
            associate_noise(d, plan, item);
        if (hvcc == 3 && (item->associations > 200 || plan->associations > 2000))
            break; /* room for what must still come */
    }
    if (hvcc == 3)
        associate_hvcc(d, plan, item);
}

/* ---- Items ---- */

static uint32_t random_side(struct dice *d, const struct plan *plan)
{
    if (plan->loose && chance(d, 5))
        return chance(d, 50) ? 65536 : 0;
    switch (below(d, 10)) {
    case 0: return 1;
    case 1: return between(d, 65000, 65535);
    case 2: return chance(d, 50) ? 65535 : 512;
    case 3:
    case 4: return between(d, 1, 5000);
    default: return between(d, 1, 40);
    }
}

static uint32_t few_transforms(struct dice *d)
{
    return chance(d, 60) ? 0 : chance(d, 95) ? between(d, 1, 4) : between(d, 5, 40);
}

static struct picture *new_item(struct plan *plan, enum kind kind, uint32_t type)
{
    struct picture *item = &plan->item[plan->items++];
    memset(item, 0, sizeof *item);
    item->kind = kind;
    item->type = type;
    return item;
}

/* ---- bytes in the companion ---- */

static void plan_references(struct dice *d, struct plan *plan)
{
    if (LEVEL < 10 || chance(d, 40)) {
        plan->no_dinf = 1;
        return;
    }
    plan->references = chance(d, 90) ? between(d, 0, 4) : between(d, 5, 16);
    for (uint32_t k = 1; k <= plan->references; k++)
        plan->marked[k] = (uint8_t)chance(d, 40);
    plan->companion_total = 1 + (chance(d, 80) ? below(d, 3000) : roll(d) >> between(d, 2, 40));
}

/* A data reference index whose entry is marked or not; 0 when there is none. */
static uint32_t pick_reference(struct dice *d, const struct plan *plan, int marked)
{
    uint32_t first = below(d, plan->references);
    for (uint32_t k = 0; k < plan->references; k++) {
        uint32_t index = 1 + (first + k) % plan->references;
        if (plan->marked[index] == marked)
            return index;
    }
    return 0;
}

/* An item of method 0 may lie in the companion, or say in words that it lies in this file. */
static void plan_file(struct dice *d, const struct plan *plan, struct picture *item)
{
    if (item->method == 0 && !item->no_entry && chance(d, 60)) {
        item->reference = pick_reference(d, plan, chance(d, 30));
        item->in_companion = item->reference != 0 && !plan->marked[item->reference];
    }
}

/* ---- Method 2: bytes in other items ---- */

/* The index by which an item names another one, from 1; 0 when its list is full. */
static uint32_t link_to(struct plan *plan, struct picture *item, uint32_t to)
{
    for (uint32_t k = 0; k < item->links; k++)
        if (item->link[k] == to)
            return k + 1;
    if (item->links == LINKS)
        return 0;
    item->link[item->links++] = to;
    plan->item[to].is_named = 1;
    if (item->chain <= plan->item[to].chain)
        item->chain = plan->item[to].chain + 1;
    return item->links;
}

/* An item with bytes that a chain may go on to. */
static uint32_t pick_named(struct dice *d, const struct plan *plan, const struct picture *item)
{
    for (int tries = 0; tries < 20; tries++) {
        uint32_t k = below(d, plan->items);
        const struct picture *other = &plan->item[k];
        if (other != item && other->extents != 0 && other->chain < plan->deepest_chain)
            return k;
    }
    return ITEMS;
}

/* Makes an item's bytes those of items that were planned before it. */
static void plan_links(struct dice *d, struct plan *plan, struct picture *item)
{
    uint32_t first = pick_named(d, plan, item);
    if (LEVEL < 7 || first == ITEMS || !chance(d, 25))
        return;
    item->method = 2;
    if (plan->indexed && chance(d, 20)) /* a target that no extent names is no link */
        item->link[item->links++] = below(d, plan->items);
    for (uint32_t k = 0; k < item->extents; k++) {
        uint32_t named = plan->indexed && chance(d, 50) ? pick_named(d, plan, item) : first;
        item->index[k] = named == ITEMS ? 0 : link_to(plan, item, named);
        if (item->index[k] == 0)
            item->index[k] = link_to(plan, item, first);
        plan->pieced |= item->index[k] != item->index[0]; /* their sources differ in length */
    }
}

/* The place of an opaque item that covers a blob over so many links, made if it is not there yet; ITEMS: no room. */
static uint32_t cover_of(struct dice *d, struct plan *plan, uint32_t blob, uint32_t chain)
{
    uint32_t *cover = &plan->cover[blob][chain];
    uint32_t below_it = chain == 0 ? 0 : *cover == ITEMS ? cover_of(d, plan, blob, chain - 1) : *cover;
    if (*cover != ITEMS || below_it == ITEMS)
        return *cover;
    if (plan->items >= 250 || plan->extents >= 480)
        return ITEMS;
    *cover = plan->items;
    struct picture *item = new_item(plan, OPAQUE, TYPE('m', 'i', 'm', 'e'));
    item->first_association = plan->associations;
    item->method = chain == 0 ? blob % 2 : 2;
    item->blob = blob;
    if (chain == 0 && blob == 2) {
        item->reference = pick_reference(d, plan, 0);
        item->in_companion = 1;
    }
    item->covers = 1;
    item->extents = chance(d, 60) ? 1 : 2;
    plan->pieced = 1;
    for (uint32_t k = 0; chain != 0 && k < item->extents; k++)
        item->index[k] = link_to(plan, item, below_it);
    plan->extents += item->extents;
    return *cover;
}

static void plan_coded(struct dice *d, struct plan *plan)
{
    struct picture *item =
        new_item(plan, CODED, chance(d, 50) ? TYPE('h', 'v', 'c', '1') : TYPE('j', 'p', 'e', 'g'));
    item->width = random_side(d, plan);
    item->height = random_side(d, plan);
    item->extents = chance(d, 80) ? 1 : between(d, 1, EXTENTS);
    item->method = chance(d, 15);
    plan_links(d, plan, item);
    plan_file(d, plan, item);
    plan->extents += item->extents;
    plan_properties(d, plan, item, few_transforms(d));
}

/* As another coded item, so that a grid finds equal tiles. */
static void plan_tile(struct dice *d, struct plan *plan, uint32_t like)
{
    struct picture *item = new_item(plan, CODED, TYPE('h', 'v', 'c', '1'));
    item->width = plan->item[like].out_width;
    item->height = plan->item[like].out_height;
    if (plan->loose && chance(d, 40)) /* unequal by one side only */
        *(chance(d, 50) ? &item->width : &item->height) += 1;
    item->extents = 1;
    plan->extents++;
    plan_properties(d, plan, item, 0);
}

static void plan_opaque(struct dice *d, struct plan *plan)
{
    static const uint32_t types[] = {TYPE('E', 'x', 'i', 'f'), TYPE('m', 'i', 'm', 'e'), TYPE('a', 'v', '0', '1'),
                                     TYPE('u', 'r', 'i', ' '), 0, TYPE('H', 'V', 'C', '1')};
    struct picture *item = new_item(plan, OPAQUE, types[below(d, 6)]);
    item->extents = below(d, 3);
    item->method = LEVEL >= 7 && item->extents == 0 && chance(d, 10) ? 2 : chance(d, 20);
    item->no_entry = item->extents == 0 && chance(d, 50);
    plan->extents += item->extents;
    if (item->extents != 0)
        plan_links(d, plan, item);
    plan_file(d, plan, item);
    item->protection = chance(d, 20);
    item->first_association = plan->associations;
    while (chance(d, 40))
        associate_noise(d, plan, item);
    if (item->associations != 0 && chance(d, 30)) {
        struct content content = random_property(d, 0);
        uint32_t index = property_index(d, plan, &content);
        if (index != 0)
            associate(plan, item, index, 1);
    }
    while (chance(d, 25)) { /* a transform means nothing here */
        uint32_t width = 8, height = 8;
        struct content content = plan_transform(d, 3, &width, &height);
        uint32_t index = property_index(d, plan, &content);
        associate(plan, item, index, index != 0 && chance(d, 50));
    }
}

/* An earlier image item that a new one may derive from. */
static uint32_t pick_input(struct dice *d, const struct plan *plan, uint32_t deepest)
{
    for (int tries = 0; tries < 40; tries++) {
        uint32_t k = plan->deep && tries < 3 ? plan->items - 1 : below(d, plan->items);
        if (plan->item[k].kind != OPAQUE && plan->item[k].depth < deepest)
            return k;
    }
    return ITEMS;
}

static void add_input(struct plan *plan, struct picture *item, uint32_t k)
{
    plan->input[plan->inputs++] = (uint16_t)k;
    item->inputs++;
    if (item->depth <= plan->item[k].depth)
        item->depth = plan->item[k].depth + 1;
}

/* Lays a body into a blob, from Q-7 on in several pieces now and then. */
static void add_pieces(struct dice *d, struct plan *plan, struct picture *item, const uint8_t *bytes, uint32_t length)
{
    uint8_t *blob = plan->blob[item->blob];
    uint32_t *at = &plan->blob_length[item->blob], done = 0;
    for (uint32_t k = 0; k < item->extents; k++) {
        uint32_t left = length - done, most = left - (item->extents - 1 - k);
        uint32_t part = k + 1 == item->extents ? left : between(d, 1, most);
        for (uint32_t gap = chance(d, 30) ? below(d, 8) : 0; gap > 0; gap--)
            blob[(*at)++] = (uint8_t)roll(d);
        item->piece[k] = (struct piece){*at, part};
        memcpy(blob + *at, bytes + done, part);
        *at += part;
        done += part;
    }
}

static void add_body(struct dice *d, struct plan *plan, struct picture *item, const uint8_t *bytes, uint32_t length)
{
    uint32_t reference = pick_reference(d, plan, 0);
    item->blob = reference != 0 && chance(d, 30) ? 2 : (uint32_t)chance(d, 50);
    item->method = item->blob % 2;
    item->reference = item->blob == 2 ? reference : 0;
    item->in_companion = item->blob == 2;
    item->has_body = 1;
    item->extents = LEVEL >= 7 && plan->extents < 450 && chance(d, 30) ? between(d, 1, EXTENTS) : 1;
    if (plan->blob_length[item->blob] + length + 8 * EXTENTS > BLOB)
        return;
    plan->pieced |= item->extents > 1;
    plan->extents += item->extents;
    add_pieces(d, plan, item, bytes, length);
    uint32_t cover = ITEMS;
    if (LEVEL >= 7 && chance(d, 40))
        cover = cover_of(d, plan, item->blob, chance(d, 60) ? 0 : below(d, plan->deepest_chain));
    if (cover == ITEMS)
        return;
    item->method = 2;
    item->reference = 0;
    item->in_companion = 0;
    for (uint32_t k = 0; k < item->extents; k++)
        item->index[k] = link_to(plan, item, cover);
}

/* A body as it was laid out, to be changed and laid back. */
static uint32_t take_body(const struct plan *plan, const struct picture *item, uint8_t *bytes)
{
    uint32_t length = 0;
    for (uint32_t k = 0; k < item->extents && k < EXTENTS; k++) {
        memcpy(bytes + length, plan->blob[item->blob] + item->piece[k].at, item->piece[k].length);
        length += item->piece[k].length;
    }
    return length;
}

static void lay_body(struct plan *plan, const struct picture *item, const uint8_t *bytes)
{
    for (uint32_t k = 0; k < item->extents && k < EXTENTS; k++) {
        memcpy(plan->blob[item->blob] + item->piece[k].at, bytes, item->piece[k].length);
        bytes += item->piece[k].length;
    }
}

static int plan_iden(struct dice *d, struct plan *plan, uint32_t deepest)
{
    uint32_t from = pick_input(d, plan, deepest);
    if (from == ITEMS || plan->inputs >= 2048)
        return 0;
    struct picture *item = new_item(plan, IDEN, TYPE('i', 'd', 'e', 'n'));
    item->first_input = plan->inputs;
    add_input(plan, item, from);
    item->width = plan->item[from].out_width;
    item->height = plan->item[from].out_height;
    item->method = chance(d, 20);
    item->no_entry = chance(d, 50);
    plan_properties(d, plan, item, few_transforms(d));
    return 1;
}

static uint32_t canvas_side(struct dice *d, const struct plan *plan, uint32_t tile, uint32_t count)
{
    uint32_t most = tile * count > 65535 ? 65535 : tile * count;
    if (plan->loose && chance(d, 30))
        return chance(d, 80) ? tile * count + 1 + below(d, 3) : 0;
    if (chance(d, 50))
        return most;
    return chance(d, 50) && most > tile ? between(d, most - tile + 1, most) : between(d, 1, most);
}

static int plan_grid(struct dice *d, struct plan *plan, uint32_t deepest)
{
    uint32_t from = pick_input(d, plan, deepest), alike[ITEMS], count = 0;
    uint32_t most = chance(d, 90) ? 4 : 16, rows = between(d, 1, most), columns = between(d, 1, most);
    if (from == ITEMS || plan->inputs + rows * columns > 2048)
        return 0;
    const struct picture *tile = &plan->item[from];
    for (uint32_t k = 0; k < plan->items; k++)
        if (plan->item[k].kind != OPAQUE && plan->item[k].depth < deepest &&
            ((plan->item[k].out_width == tile->out_width && plan->item[k].out_height == tile->out_height) ||
             (plan->loose && chance(d, 40) &&
              (plan->item[k].out_width == tile->out_width || plan->item[k].out_height == tile->out_height))))
            alike[count++] = k;
    struct picture *item = new_item(plan, GRID, TYPE('g', 'r', 'i', 'd'));
    item->first_input = plan->inputs;
    for (uint32_t k = 0; k < rows * columns; k++)
        add_input(plan, item, k == 0 ? from : alike[below(d, count)]);
    item->width = canvas_side(d, plan, tile->out_width, columns);
    item->height = canvas_side(d, plan, tile->out_height, rows);
    uint8_t body[12] = {0, (uint8_t)(chance(d, 20) ? roll(d) : below(d, 2)), (uint8_t)(rows - 1), (uint8_t)(columns - 1)};
    uint32_t field = body[1] & 1 ? 4 : 2;
    put(body + 4, field, item->width);
    put(body + 4 + field, field, item->height);
    add_body(d, plan, item, body, 4 + 2 * field);
    plan_properties(d, plan, item, few_transforms(d));
    return 1;
}

static int64_t random_offset(struct dice *d, uint32_t canvas, uint32_t side, uint32_t field)
{
    int64_t value;
    switch (below(d, 6)) {
    case 0: value = -(int64_t)below(d, side + 2); break;
    case 1: value = (int64_t)canvas - below(d, side + 2); break;
    case 2: value = chance(d, 50) ? 0 : -(int64_t)(side - 1); break;
    case 3: value = field == 4 ? (int32_t)roll(d) : (int16_t)roll(d); break;
    default: value = below(d, canvas + 1); break;
    }
    return field == 2 && (value < -32768 || value > 32767) ? 0 : value;
}

static int plan_iovl(struct dice *d, struct plan *plan, uint32_t deepest)
{
    static uint8_t body[10 + 8 * 300];
    uint32_t count = chance(d, 90) ? between(d, 1, 5) : between(d, 1, 200), from = pick_input(d, plan, deepest);
    if (from == ITEMS || plan->inputs + count > 2048)
        return 0;
    struct picture *item = new_item(plan, IOVL, TYPE('i', 'o', 'v', 'l'));
    item->first_input = plan->inputs;
    item->width = random_side(d, plan);
    item->height = random_side(d, plan);
    body[0] = 0;
    body[1] = (uint8_t)(chance(d, 20) ? roll(d) : below(d, 2));
    uint32_t field = body[1] & 1 ? 4 : 2;
    put(body + 2, 8, roll(d));
    put(body + 10, field, item->width);
    put(body + 10 + field, field, item->height);
    plan->items--; /* the new item must not be its own input */
    for (uint32_t k = 0; k < count; k++) {
        uint32_t input = k == 0 ? from : pick_input(d, plan, deepest);
        if (input == ITEMS)
            input = from;
        add_input(plan, item, input);
        uint8_t *p = body + 10 + 2 * field * (k + 1);
        put(p, field, (uint64_t)random_offset(d, item->width, plan->item[input].out_width, field));
        put(p + field, field, (uint64_t)random_offset(d, item->height, plan->item[input].out_height, field));
    }
    plan->items++;
    add_body(d, plan, item, body, 10 + 2 * field * (count + 1));
    plan_properties(d, plan, item, few_transforms(d));
    return 1;
}

static void plan_derived(struct dice *d, struct plan *plan, uint32_t deepest)
{
    switch (below(d, plan->deep ? 8 : 3)) {
    case 1: plan_grid(d, plan, deepest); break;
    case 2: plan_iovl(d, plan, deepest); break;
    default: plan_iden(d, plan, deepest); break;
    }
}

/* ---- IDs and the order of iinf ---- */

static void shuffle(struct dice *d, uint32_t *list, uint32_t count)
{
    for (uint32_t k = count; k > 1; k--) {
        uint32_t other = below(d, k), value = list[k - 1];
        list[k - 1] = list[other];
        list[other] = value;
    }
}

static int id_taken(const struct plan *plan, uint32_t before, uint32_t id)
{
    for (uint32_t k = 0; k < before; k++)
        if (plan->item[plan->order[k]].id == id)
            return 1;
    return 0;
}

static void give_ids(struct dice *d, struct plan *plan)
{
    uint32_t way = below(d, 9), first = below(d, 3), step = between(d, 1, 3);
    uint32_t last = chance(d, 50) ? 0xffffffffu : 0x80000000u + 100; /* of those that fall from there */
    for (uint32_t k = 0; k < plan->items; k++)
        plan->order[k] = k;
    if (chance(d, 60))
        shuffle(d, plan->order, plan->items);
    for (uint32_t k = 0; k < plan->items; k++) {
        uint32_t id;
        do {
            switch (way) {
            case 0: id = (uint32_t)roll(d); break;
            case 1: id = (uint32_t)roll(d) & 0xffff; break;
            case 2: id = 60000 - step * k; break;
            case 3: id = below(d, 2) ? 65535 - below(d, 600) : below(d, 600); break;
            case 4: id = chance(d, 50) ? 0xffffffffu - below(d, chance(d, 20) ? 2 : 600) : 65536 * below(d, 1000); break;
            case 5: id = last - step * k; break;
            case 6: id = k & 1 ? 0xffffffffu - k / 2 : k / 2; break; /* from both ends by turns */
            case 7: id = first + below(d, plan->items + 5); break; /* side by side, in no order */
            default: id = first + step * k; break;
            }
        } while (id_taken(plan, k, id));
        plan->item[plan->order[k]].id = id;
    }
}

static void choose_primary(struct dice *d, struct plan *plan)
{
    uint32_t k;
    do
        k = below(d, plan->items);
    while (plan->item[k].kind == OPAQUE);
    plan->primary = plan->item[k].id;
    plan->item[k].hidden = 0;
}

/* Items of method 1 need some bytes to lie in. */
static void fill_idat(struct dice *d, struct plan *plan)
{
    int needed = chance(d, 10);
    for (uint32_t k = 0; k < plan->items; k++)
        needed |= plan->item[k].method == 1 && plan->item[k].extents != 0;
    for (uint32_t count = needed ? between(d, 1, 30) : 0; count > 0; count--)
        plan->blob[1][plan->blob_length[1]++] = (uint8_t)roll(d);
}

/* In another order, so that those which nothing names stand anywhere. */
static void shuffle_properties(struct dice *d, struct plan *plan)
{
    static struct content kept[PROPERTIES];
    uint32_t order[PROPERTIES], index[PROPERTIES + 1] = {0};
    for (uint32_t k = 0; k < plan->properties; k++)
        order[k] = k;
    shuffle(d, order, plan->properties);
    memcpy(kept, plan->property, sizeof kept);
    for (uint32_t k = 0; k < plan->properties; k++) {
        plan->property[k] = kept[order[k]];
        index[order[k] + 1] = k + 1;
    }
    for (uint32_t k = 0; k < plan->associations; k++)
        plan->association[k] = (uint16_t)((plan->association[k] & 32768) | index[plan->association[k] & 32767]);
}

/* Up to the limit of 2,048, all to index 0. */
static void fill_associations(struct plan *plan)
{
    while (plan->associations < 2048 && plan->items < 256) {
        struct picture *item = new_item(plan, OPAQUE, 0);
        item->first_association = plan->associations;
        while (plan->associations < 2048 && item->associations < 255)
            associate(plan, item, 0, 0);
    }
}

/* Up to the limit of 256. */
static void fill_items(struct plan *plan)
{
    while (plan->items < 256)
        new_item(plan, OPAQUE, 0);
}

static void make_plan(struct dice *d, struct plan *plan, uint32_t deepest, int loose)
{
    uint32_t size = below(d, 100), wanted = size < 70 ? between(d, 1, 8) : size < 98 ? between(d, 8, 40) : 256;
    memset(plan, 0, sizeof *plan);
    plan->deep = chance(d, 20) || deepest > 16;
    plan->loose = loose;
    plan->indexed = chance(d, 60);
    plan_references(d, plan);
    plan->apart = chance(d, 60);
    plan->deepest_chain = loose && chance(d, 50) ? CHAIN + 1 : CHAIN;
    for (uint32_t k = 0; k < CHAIN + 3; k++)
        plan->cover[0][k] = plan->cover[1][k] = plan->cover[2][k] = ITEMS;
    if (plan->deep && wanted < 40)
        wanted = between(d, 18, 40);
    plan_coded(d, plan);
    if (chance(d, 20))
        plan_opaque(d, plan);
    while (plan->items < wanted && plan->associations < 1900 && plan->inputs < 1900 && plan->properties < 250 &&
           plan->extents < 500) {
        uint32_t which = below(d, 100);
        if (which < (plan->deep ? 3 : 10))
            plan_opaque(d, plan);
        else if (which < (plan->deep ? 8 : 35))
            plan_coded(d, plan);
        else if (which < (plan->deep ? 12 : 50))
            plan_tile(d, plan, 0);
        else
            plan_derived(d, plan, deepest);
    }
    for (uint32_t k = 0; k < plan->items; k++)
        plan->item[k].hidden = chance(d, 15);
    while (chance(d, 40) && plan->properties < 256) { /* properties that nothing names */
        struct content content = random_property(d, chance(d, 50));
        plan->property[plan->properties++] = content;
    }
    if (chance(d, 50))
        shuffle_properties(d, plan);
    if (chance(d, 2))
        fill_associations(plan);
    if (chance(d, 2))
        fill_items(plan);
    fill_idat(d, plan);
    if (plan->companion_total < plan->blob_length[2])
        plan->companion_total = plan->blob_length[2] + below(d, 40);
    give_ids(d, plan);
    choose_primary(d, plan);
}

/* ---- Planned faults, 12 to 20 ---- */

/* A random item that `wanted` (bits by kind) allows, or NULL. */
static struct picture *pick(struct dice *d, struct plan *plan, unsigned wanted)
{
    uint32_t first = below(d, plan->items);
    for (uint32_t k = 0; k < plan->items; k++) {
        struct picture *item = &plan->item[(first + k) % plan->items];
        if (wanted >> item->kind & 1)
            return item;
    }
    return NULL;
}

enum {
    ANY = 31,
    IMAGES = 1 << CODED | 1 << IDEN | 1 << GRID | 1 << IOVL,
    DERIVED = 1 << IDEN | 1 << GRID | 1 << IOVL,
    BODIES = 1 << GRID | 1 << IOVL
};

static void spoil_primary(struct dice *d, struct plan *plan)
{
    struct picture *opaque = pick(d, plan, 1 << OPAQUE), *image = pick(d, plan, IMAGES);
    switch (below(d, 3)) {
    case 0: plan->primary = opaque ? opaque->id : 77777; break;
    case 1: plan->primary += 1; break;
    default:
        plan->primary = image->id;
        image->hidden = 1;
        break;
    }
}

static void spoil_extents(struct dice *d, struct plan *plan)
{
    struct picture *item = pick(d, plan, ANY);
    switch (below(d, 8)) {
    case 0: item->method = between(d, 2, 15); item->no_entry = 0; break;
    case 1: item->reference = between(d, 1, 3); item->no_entry = 0; break;
    case 2: item->no_length = 1; break;
    case 3: item->wraps = 1; break;
    case 4: item->extents = 0; break;
    case 5: item->extents = 0; item->no_entry = 1; break;
    default: item->past_end = 1; break;
    }
}

static void spoil_properties(struct dice *d, struct plan *plan)
{
    struct picture *item = pick(d, plan, IMAGES);
    uint16_t *list = plan->association + item->first_association;
    uint32_t k = below(d, item->associations), other = below(d, item->associations);
    struct content unknown = random_property(d, 0);
    uint16_t kept = list[k];
    switch (below(d, 6)) {
    case 0: item->protection = between(d, 1, 65535); break;
    case 1: list[k] = (uint16_t)(property_index(d, plan, &unknown) | 32768); break;
    case 2: item->associations = 0; break;
    case 3: list[k] = 0; break;
    case 4: list[k] = list[other]; break;
    default: list[k] = list[other]; list[other] = kept; break;
    }
}

/* An hvc1 item gets the properties of the jpeg item right before it in iinf, as tiles have those of their neighbours. */
static int spoil_twin(struct dice *d, struct plan *plan)
{
    uint32_t first = below(d, plan->items);
    for (uint32_t k = 0; k < plan->items; k++) {
        uint32_t place = (first + k) % plan->items;
        if (place == 0)
            continue;
        const struct picture *before = &plan->item[plan->order[place - 1]];
        struct picture *item = &plan->item[plan->order[place]];
        if (!needs_hvcc(item) || before->type != TYPE('j', 'p', 'e', 'g'))
            continue;
        item->first_association = before->first_association;
        item->associations = before->associations;
        return 1;
    }
    return 0;
}

/* One hvcC too few or too many, or one that is not essential. */
static void spoil_hvcc(struct dice *d, struct plan *plan)
{
    if (chance(d, 25) && spoil_twin(d, plan))
        return;
    for (int tries = 0; tries < 40; tries++) {
        struct picture *item = pick(d, plan, 1 << CODED);
        uint16_t *list = plan->association + item->first_association;
        uint32_t k = below(d, item->associations), index = list[k] & 32767u;
        if (index == 0 || plan->property[index - 1].type != TYPE('h', 'v', 'c', 'C'))
            continue;
        switch (below(d, 3)) {
        case 0: list[k] = 0; break;
        case 1: list[k] &= 32767; break;
        default: list[below(d, item->associations)] = list[k] & (chance(d, 50) ? 65535 : 32767); break;
        }
        return;
    }
}

static void spoil_body(struct dice *d, struct plan *plan)
{
    struct picture *item = pick(d, plan, BODIES);
    if (item == NULL)
        return;
    static uint8_t body[BLOB];
    struct piece *last = &item->piece[item->extents == 0 ? 0 : item->extents - 1];
    take_body(plan, item, body);
    switch (below(d, 8)) {
    case 0: body[0] = (uint8_t)between(d, 1, 3); break;
    case 1: last->length += 1; break;
    case 2: last->length -= last->length != 0; break;
    case 3: body[1] ^= 1; break;
    case 4: item->outside = 1; item->method = 0; break;
    case 5: item->extents = item->extents == 2 ? 1 : below(d, 2) * 2; break;
    case 6: body[2] ^= 1; break;
    default: last->length = between(d, 1, 3); break;
    }
    lay_body(plan, item, body);
}

static void spoil_derivation(struct dice *d, struct plan *plan)
{
    struct picture *coded = pick(d, plan, 1 << CODED | 1 << OPAQUE), *derived = pick(d, plan, DERIVED);
    struct picture *opaque = pick(d, plan, 1 << OPAQUE), *iden = pick(d, plan, 1 << IDEN);
    uint32_t which = below(d, 6);
    if (which == 0 && coded != NULL) {
        coded->first_input = below(d, plan->inputs);
        coded->inputs = plan->inputs != 0;
    } else if (which == 1 && derived != NULL) {
        derived->inputs = 0;
    } else if (which == 2 && derived != NULL && opaque != NULL) {
        plan->input[derived->first_input + below(d, derived->inputs)] = (uint16_t)(opaque - plan->item);
    } else if (which == 3 && derived != NULL) {
        derived->inputs = derived->inputs > 1 && chance(d, 50) ? derived->inputs - 1 : derived->inputs + 1;
    } else if (which == 4 && iden != NULL) {
        iden->extents = 1;
        iden->no_entry = 0;
    } else {
        spoil_body(d, plan);
    }
}

/* An input becomes an item that needs this one, or the item itself. */
static void spoil_order(struct dice *d, struct plan *plan)
{
    struct picture *item = pick(d, plan, DERIVED);
    uint32_t later[ITEMS], count = 0;
    if (item == NULL)
        return;
    for (uint32_t k = (uint32_t)(item - plan->item); k < plan->items; k++)
        if (plan->item[k].kind >= IDEN)
            later[count++] = k;
    plan->input[item->first_input + below(d, item->inputs)] = (uint16_t)later[below(d, count)];
}

static void spoil_number(struct dice *d, uint8_t *p, uint32_t bytes)
{
    uint64_t value = 0;
    for (uint32_t k = 0; k < bytes; k++)
        value = value << 8 | p[k];
    switch (below(d, 7)) {
    case 0: value += 1; break;
    case 1: value -= 1; break;
    case 2: value = 0; break;
    case 3: value = 65536; break;
    case 4: value ^= (uint64_t)1 << below(d, 8 * bytes); break;
    case 5: value = chance(d, 50) ? 65535 : ~(uint64_t)0; break;
    default: value = roll(d) >> below(d, 64); break;
    }
    put(p, bytes, value);
}

static void spoil_sizes(struct dice *d, struct plan *plan)
{
    struct picture *item = pick(d, plan, BODIES);
    struct content *content = &plan->property[below(d, plan->properties)];
    if (chance(d, 40) && item != NULL) {
        static uint8_t body[BLOB];
        take_body(plan, item, body);
        uint32_t field = body[1] & 1 ? 4 : 2;
        spoil_number(d, body + (item->kind == GRID ? 4 : 10) + field * below(d, 2), field);
        lay_body(plan, item, body);
        return;
    }
    for (int tries = 0; tries < 20 && content->type != TYPE('i', 's', 'p', 'e') && content->type != TYPE('c', 'l', 'a', 'p');
         tries++)
        content = &plan->property[below(d, plan->properties)];
    if (content->type == TYPE('i', 's', 'p', 'e'))
        spoil_number(d, content->bytes + 4 + 4 * below(d, 2), 4);
    else if (content->type == TYPE('c', 'l', 'a', 'p'))
        spoil_number(d, content->bytes + 4 * below(d, 8), 4);
}

/* Links that lead nowhere, back or too far, and lengths that sum past 64 bits. */
static void spoil_links(struct dice *d, struct plan *plan)
{
    struct picture *item = pick(d, plan, ANY);
    for (int tries = 0; tries < 20 && (item->method != 2 || item->links == 0); tries++)
        item = pick(d, plan, ANY);
    uint32_t k = below(d, item->links), other = below(d, plan->items);
    switch (below(d, 8)) {
    case 0: item->index[below(d, item->extents)] = chance(d, 50) ? 0 : item->links + 1; break;
    case 1: item->no_links = 1; break;
    case 2: item->links_twice = 1; break;
    case 3: item->link[k] = (uint32_t)(item - plan->item); break;
    case 4: item->link[k] = other; break;
    case 5: item->reference = between(d, 1, 2); break;
    case 6: plan->item[item->links != 0 ? item->link[k] : other].huge = 1; break;
    default: plan->item[item->links != 0 ? item->link[k] : other].extents = 0; break;
    }
}

/* An item gets the ID of another: the first and the last of iinf, or any two. */
static void spoil_id(struct dice *d, struct plan *plan)
{
    uint32_t one = chance(d, 50) ? 0 : below(d, plan->items), other = chance(d, 50) ? plan->items - 1 : below(d, plan->items);
    plan->item[plan->order[other]].id = plan->item[plan->order[one]].id;
}

/* Entries that are not there, or not for that method, or mean another file than was planned. */
static void spoil_references(struct dice *d, struct plan *plan)
{
    struct picture *item = pick(d, plan, ANY);
    switch (below(d, 5)) {
    case 0: item->reference = plan->references + between(d, 0, 2); break;
    case 1: item->reference = 1; break;
    case 2: plan->marked[between(d, 1, 16)] ^= 1; break;
    case 3: plan->no_dinf = 1; break;
    default: plan->references = plan->references == 0 ? 17 : plan->references - 1; break;
    }
}

static void spoil(struct dice *d, struct plan *plan)
{
    if (chance(d, 4)) {
        spoil_id(d, plan);
        return;
    }
    switch (below(d, LEVEL >= 10 ? 20 : LEVEL >= 7 ? 18 : LEVEL >= 5 ? 16 : 15)) {
    case 18:
    case 19: spoil_references(d, plan); break;
    case 16:
    case 17: spoil_links(d, plan); break;
    case 15: spoil_hvcc(d, plan); break;
    case 0: spoil_primary(d, plan); break;
    case 13: plan->unsorted = 1; break;
    case 14: plan->cut = 1; break;
    case 1:
    case 2: spoil_extents(d, plan); break;
    case 3:
    case 4: spoil_properties(d, plan); break;
    case 5:
    case 6:
    case 7: spoil_derivation(d, plan); break;
    case 8:
    case 9: spoil_order(d, plan); break;
    default: spoil_sizes(d, plan); break;
    }
}

/* ---- Writing ---- */

struct stretch {
    uint64_t start, length;
    int to_end; /* written without a length, from Q-8 on */
};

struct writer {
    uint8_t *bytes;
    size_t at;
    struct dice *dice;
    size_t blob_at[2]; /* where `mdat` and `idat` content begins, known from the writing before */
    size_t length;     /* of the whole, likewise */
    size_t meta_start, meta_end;
    uint64_t total;
    int wide_ids; /* some ID needs 32 bits */
    struct stretch stretch[ITEMS][EXTENTS];
    uint64_t sum[ITEMS]; /* of an item's lengths */
};

static void write_number(struct writer *w, uint32_t bytes, uint64_t value)
{
    if (w->at + bytes <= STILL_ROOM) {
        put(w->bytes + w->at, bytes, value);
        w->at += bytes;
    }
}

static void write_bytes(struct writer *w, const uint8_t *bytes, size_t count)
{
    for (size_t k = 0; k < count; k++)
        write_number(w, 1, bytes[k]);
}

struct open_box {
    size_t start;
    int wide;
};

static struct open_box begin(struct writer *w, uint32_t type)
{
    struct open_box box = {w->at, chance(w->dice, 8)};
    write_number(w, 4, box.wide);
    write_number(w, 4, type);
    if (box.wide)
        write_number(w, 8, 0);
    return box;
}

static void end(struct writer *w, struct open_box box)
{
    if (box.wide)
        put(w->bytes + box.start + 8, 8, w->at - box.start);
    else
        put(w->bytes + box.start, 4, w->at - box.start);
}

/* Flags that no rule reads are random now and then. `bit` is bit 0. */
static void write_version(struct writer *w, uint32_t version, uint32_t bit)
{
    uint32_t others = chance(w->dice, 10) ? (uint32_t)roll(w->dice) & 0xfffffe : 0;
    write_number(w, 4, version << 24 | others | bit);
}

static void write_noise(struct writer *w)
{
    static const uint32_t types[] = {TYPE('f', 'r', 'e', 'e'), TYPE('s', 'k', 'i', 'p'), TYPE('d', 'i', 'n', 'f'),
                                     TYPE('u', 'u', 'i', 'd'), TYPE('g', 'r', 'p', 'l'), 0};
    uint32_t type = types[below(w->dice, 6)];
    if (LEVEL >= 10 && type == TYPE('d', 'i', 'n', 'f')) /* is read from then on */
        type = TYPE('s', 't', 'y', 'p');
    struct open_box box = begin(w, type);
    for (uint32_t k = chance(w->dice, 50) ? 0 : below(w->dice, 20); k > 0; k--)
        write_number(w, 1, roll(w->dice));
    end(w, box);
}

/* A version that is wide enough for every ID: `wide` itself or, when narrow does, either. */
static uint32_t id_version(struct writer *w, uint32_t narrow, uint32_t wide)
{
    return w->wide_ids || chance(w->dice, 30) ? wide : narrow;
}

static void write_hdlr(struct writer *w)
{
    struct open_box box = begin(w, TYPE('h', 'd', 'l', 'r'));
    write_version(w, 0, below(w->dice, 2));
    write_number(w, 4, chance(w->dice, 10) ? roll(w->dice) : 0);
    write_number(w, 4, TYPE('p', 'i', 'c', 't'));
    for (uint32_t k = chance(w->dice, 30) ? 0 : below(w->dice, 20); k > 0; k--)
        write_number(w, 1, 0);
    end(w, box);
}

static void write_pitm(struct writer *w, const struct plan *plan)
{
    struct open_box box = begin(w, TYPE('p', 'i', 't', 'm'));
    uint32_t version = plan->primary > 65535 ? 1 : id_version(w, 0, 1);
    write_version(w, version, below(w->dice, 2));
    write_number(w, version ? 4 : 2, plan->primary);
    end(w, box);
}

static void write_iinf(struct writer *w, const struct plan *plan)
{
    struct open_box box = begin(w, TYPE('i', 'i', 'n', 'f'));
    uint32_t version = chance(w->dice, 30);
    write_version(w, version, below(w->dice, 2));
    write_number(w, version ? 4 : 2, plan->items);
    for (uint32_t k = 0; k < plan->items; k++) {
        const struct picture *item = &plan->item[plan->order[k]];
        struct open_box infe = begin(w, TYPE('i', 'n', 'f', 'e'));
        uint32_t wide = item->id > 65535 || chance(w->dice, 20);
        write_version(w, wide ? 3 : 2, (uint32_t)item->hidden);
        write_number(w, wide ? 4 : 2, item->id);
        write_number(w, 2, item->protection);
        write_number(w, 4, item->type);
        for (uint32_t n = chance(w->dice, 30) ? 0 : below(w->dice, 5); n > 0; n--)
            write_number(w, 1, 0);
        end(w, infe);
    }
    end(w, box);
}

/* ---- iloc ---- */

struct form {
    uint32_t version, offset, length, base, index;
};

static struct form choose_form(struct writer *w, const struct plan *plan)
{
    struct dice own = dice_from(roll(w->dice)), *d = &own; /* so that later choices do not hang on the total */
    struct form form = {0, chance(d, 60) ? 4 : 8, chance(d, 70) ? 4 : 8, below(d, 3) * 4, 0};
    int methods = 0, bodies = 0, links = 0, huge = 0;
    for (uint32_t k = 0; k < plan->items; k++) {
        methods |= plan->item[k].method != 0;
        bodies |= plan->item[k].has_body;
        links |= plan->item[k].links != 0;
        huge |= plan->item[k].huge;
    }
    form.version = w->wide_ids ? 2 : methods ? between(d, 1, 2) : below(d, 3);
    if (form.version != 0)
        form.index = links && plan->indexed ? between(d, 1, 2) * 4 : links ? 0 : below(d, 3) * 4;
    if (LEVEL >= 8 && !bodies && !plan->pieced && (w->total | plan->companion_total) >> 50 == 0 && chance(d, 10))
        form.length = 0;
    if (huge)
        form.length = 8;
    if (w->total > 0xffffffffu || plan->companion_total > 0xffffffffu)
        form.offset = form.length = 8;
    else if (chance(d, 15) && (form.base != 0 || !bodies) && !plan->pieced)
        form.offset = 0;
    return form;
}

/* Anywhere in a source of this length. */
static struct stretch random_stretch(struct dice *d, const struct form *form, uint64_t source)
{
    struct stretch s = {0, 0, 0};
    uint64_t most = form->base == 0 && form->offset == 0 ? 1 : source;
    s.start = most == 0 ? 0 : roll(d) % most;
    if (chance(d, 30) && source > 100)
        s.start = most == source ? source - 1 - below(d, 50) : 0;
    s.length = source <= s.start ? 1 : 1 + roll(d) % (source - s.start);
    if (chance(d, 15) && source > s.start)
        s.length = source - s.start;
    return s;
}

/* Before `meta` or behind it, now and then against it or with a byte in it. */
static struct stretch stretch_apart(const struct writer *w, struct dice *d, const struct form *form)
{
    struct stretch s = random_stretch(d, form, w->total > w->meta_end ? w->total - w->meta_end : 0);
    uint64_t by = chance(d, 90) ? 0 : 1;
    if (w->total > w->meta_end && (form->base != 0 || form->offset != 0)) {
        s.start += w->meta_end;
        if (chance(d, 15) && w->meta_end >= by)
            s.start = w->meta_end - by;
        return s;
    }
    s = random_stretch(d, form, w->meta_start == 0 ? 1 : w->meta_start);
    if (chance(d, 15) && w->meta_start != 0)
        s.length = w->meta_start - s.start + by;
    return s;
}

/* All of the item's blob, cut in two if it has two extents. */
static struct stretch cover_stretch(const struct plan *plan, const struct picture *item, uint32_t k)
{
    uint64_t length = plan->blob_length[item->blob], middle = item->extents == 1 ? length : length / 2;
    return k == 0 ? (struct stretch){0, middle, 0} : (struct stretch){middle, length - middle, 0};
}

static struct stretch choose_stretch(struct writer *w, struct dice *d, const struct plan *plan,
                                     const struct picture *item, const struct form *form, uint64_t source, uint32_t k)
{
    struct stretch s = random_stretch(d, form, source);
    if (LEVEL >= 11 && plan->apart && item->method == 0 && !item->in_companion)
        s = stretch_apart(w, d, form);
    if (item->has_body)
        s = (struct stretch){item->piece[k].at, item->piece[k].length, 0};
    if (item->covers)
        s = cover_stretch(plan, item, k);
    if ((item->has_body || item->covers) && item->method == 0 && !item->in_companion)
        s.start += w->blob_at[0];
    if (item->has_body && item->outside && w->length != 0)
        s.start = w->length - below(d, item->piece[k].length);
    if (item->is_named && s.length > (uint64_t)1 << 60)
        s.length = (uint64_t)1 << 60; /* so that the sum stays under 64 bits */
    if (item->past_end)
        s.length = source - s.start + 1 + (chance(d, 50) ? 0 : below(d, 1000));
    if (item->no_length && LEVEL >= 8 && chance(d, 70)) /* an empty stretch; elsewhere a length of 0 is good */
        s.start = source + (chance(d, 50) ? 0 : below(d, 3));
    if (item->no_length)
        s.length = 0;
    if (item->huge)
        s.length = ~(uint64_t)0 - (chance(d, 50) ? below(d, 40) : roll(d) >> 1);
    return s;
}

/* The length of what an extent counts from. */
static uint64_t source_length(const struct writer *w, const struct plan *plan, const struct picture *item, uint32_t k)
{
    if (item->in_companion)
        return plan->companion_total;
    if (item->method == 1)
        return plan->blob_length[1];
    if (item->method != 2 || item->index[k] == 0 || item->index[k] > item->links)
        return w->total;
    uint64_t sum = w->sum[item->link[item->index[k] - 1]];
    return w->total <= 0xffffffffu && plan->companion_total <= 0xffffffffu && sum > 0xffffffffu ? 0xffffffffu : sum;
}

static void choose_stretches(struct writer *w, const struct plan *plan, const struct form *form, uint32_t place)
{
    const struct picture *item = &plan->item[place];
    struct stretch *s = w->stretch[place];
    struct dice own = dice_from(roll(w->dice)), *d = &own;
    uint32_t faulty = below(d, item->extents);
    w->sum[place] = 0;
    for (uint32_t k = 0; k < item->extents; k++) {
        uint64_t source = source_length(w, plan, item, k);
        s[k] = choose_stretch(w, d, plan, item, form, source, k);
        if ((item->past_end || item->no_length) && k != faulty && s[k].start < source)
            s[k].length = 1;
        if (form->offset == 0 && k > 0)
            s[k] = s[0];
        if (form->length == 0)
            s[k].length = s[k].start < source ? source - s[k].start : 0;
        s[k].to_end = LEVEL >= 8 && s[k].length == source - s[k].start && (form->length == 0 || chance(d, 50));
        w->sum[place] += s[k].length;
    }
}

static uint64_t choose_base(const struct writer *w, struct dice *d, uint32_t place, uint32_t extents,
                            const struct form *form)
{
    const struct stretch *s = w->stretch[place];
    uint64_t base = 0;
    for (uint32_t k = 0; k < extents; k++)
        base = k == 0 || s[k].start < base ? s[k].start : base;
    base = form->base == 0 ? 0 : form->offset == 0 ? base : chance(d, 40) ? 0 : roll(d) % (base + 1);
    return form->base == 4 && base > 0xffffffffu ? 0xffffffffu : base;
}

static void write_location(struct writer *w, const struct plan *plan, uint32_t place, const struct form *form)
{
    const struct picture *item = &plan->item[place];
    const struct stretch *s = w->stretch[place];
    struct dice own = dice_from(roll(w->dice)), *d = &own;
    uint64_t base = choose_base(w, d, place, item->extents, form);
    write_number(w, form->version == 2 ? 4 : 2, item->id);
    if (form->version != 0)
        write_number(w, 2, item->method | (chance(d, 10) ? roll(d) & 0xfff0 : 0));
    write_number(w, 2, item->reference);
    write_number(w, form->base, item->wraps && form->base == 8 ? ~(uint64_t)0 - below(d, 40) : base);
    write_number(w, 2, item->extents);
    for (uint32_t k = 0; k < item->extents; k++) {
        write_number(w, form->index, item->method == 2 ? item->index[k] : roll(d));
        write_number(w, form->offset, item->wraps && form->offset == 8 ? ~(uint64_t)0 - below(d, 40) : s[k].start - base);
        write_number(w, form->length, s[k].to_end ? 0 : s[k].length);
    }
}

static void write_iloc(struct writer *w, const struct plan *plan)
{
    struct open_box box = begin(w, TYPE('i', 'l', 'o', 'c'));
    struct form form = choose_form(w, plan);
    uint32_t order[ITEMS], count = 0;
    for (uint32_t k = 0; k < plan->items; k++)
        if (!plan->item[plan->order[k]].no_entry)
            order[count++] = plan->order[k];
    if (chance(w->dice, 30))
        shuffle(w->dice, order, count);
    write_version(w, form.version, below(w->dice, 2));
    write_number(w, 1, form.offset << 4 | form.length);
    write_number(w, 1, form.base << 4 | (form.version == 0 && chance(w->dice, 20) ? below(w->dice, 16) : form.index));
    write_number(w, form.version == 2 ? 4 : 2, count);
    for (uint32_t chain = 0; chain <= CHAIN + 2; chain++) /* the named ones first */
        for (uint32_t k = 0; k < plan->items; k++)
            if (plan->item[k].chain == chain)
                choose_stretches(w, plan, &form, k);
    for (uint32_t k = 0; k < count; k++)
        write_location(w, plan, order[k], &form);
    end(w, box);
}

/* ---- iprp, iref, idat ---- */

static void write_ipco(struct writer *w, const struct plan *plan)
{
    struct open_box box = begin(w, TYPE('i', 'p', 'c', 'o'));
    for (uint32_t k = 0; k < plan->properties; k++) {
        struct open_box property = begin(w, plan->property[k].type);
        write_bytes(w, plan->property[k].bytes, plan->property[k].length);
        end(w, property);
    }
    end(w, box);
}

static int by_id(const void *a, const void *b)
{
    uint32_t x = (*(const struct picture *const *)a)->id, y = (*(const struct picture *const *)b)->id;
    return x < y ? -1 : x > y;
}

static void write_ipma(struct writer *w, const struct plan *plan)
{
    struct open_box box = begin(w, TYPE('i', 'p', 'm', 'a'));
    const struct picture *entry[ITEMS];
    uint32_t count = 0, version = id_version(w, 0, 1), wide = plan->properties > 127 || chance(w->dice, 40);
    for (uint32_t k = 0; k < plan->items; k++)
        if (plan->item[k].associations != 0 || chance(w->dice, 20))
            entry[count++] = &plan->item[k];
    qsort(entry, count, sizeof entry[0], by_id);
    if (plan->unsorted && count > 1) {
        uint32_t k = chance(w->dice, 50) ? count - 2 : below(w->dice, count - 1);
        const struct picture *other = entry[k];
        entry[k] = entry[k + 1];
        entry[k + 1] = other;
    }
    write_version(w, version, wide);
    write_number(w, 4, count);
    for (uint32_t k = 0; k < count; k++) {
        write_number(w, version ? 4 : 2, entry[k]->id);
        write_number(w, 1, entry[k]->associations);
        for (uint32_t n = 0; n < entry[k]->associations; n++) {
            uint32_t value = plan->association[entry[k]->first_association + n];
            write_number(w, wide ? 2 : 1, wide ? value : (value & 127) | (value >> 15) << 7);
        }
    }
    end(w, box);
}

static void write_iprp(struct writer *w, const struct plan *plan)
{
    struct open_box box = begin(w, TYPE('i', 'p', 'r', 'p'));
    write_ipco(w, plan);
    write_ipma(w, plan);
    end(w, box);
}

static void write_reference(struct writer *w, const struct plan *plan, uint32_t type, const struct picture *from,
                            uint32_t version, uint32_t others)
{
    struct open_box box = begin(w, type);
    uint32_t bytes = version ? 4 : 2;
    write_number(w, bytes, from->id);
    write_number(w, 2, type == TYPE('d', 'i', 'm', 'g') ? from->inputs : others);
    for (uint32_t k = 0; type == TYPE('d', 'i', 'm', 'g') && k < from->inputs; k++)
        write_number(w, bytes, plan->item[plan->input[from->first_input + k]].id);
    for (uint32_t k = 0; type != TYPE('d', 'i', 'm', 'g') && k < others; k++)
        write_number(w, bytes, plan->item[below(w->dice, plan->items)].id);
    end(w, box);
}

/* The targets that the extents of a method 2 item pick from. */
static void write_links(struct writer *w, const struct plan *plan, const struct picture *from, uint32_t version)
{
    struct open_box box = begin(w, TYPE('i', 'l', 'o', 'c'));
    uint32_t bytes = version ? 4 : 2;
    write_number(w, bytes, from->id);
    write_number(w, 2, from->links);
    for (uint32_t k = 0; k < from->links; k++)
        write_number(w, bytes, plan->item[from->link[k]].id);
    end(w, box);
}

/* References to write: items by place for their derivation, by place plus ITEMS for their links. */
static uint32_t list_references(struct dice *d, const struct plan *plan, uint32_t *order)
{
    uint32_t count = 0;
    for (uint32_t k = 0; k < plan->items; k++) {
        const struct picture *item = &plan->item[plan->order[k]];
        if (item->inputs != 0)
            order[count++] = plan->order[k];
        if ((item->links != 0 && !item->no_links) || (LEVEL >= 7 && chance(d, 2)))
            order[count++] = plan->order[k] + ITEMS;
        if (item->links_twice)
            order[count++] = plan->order[k] + ITEMS;
    }
    return count;
}

static void write_iref(struct writer *w, const struct plan *plan)
{
    static const uint32_t types[] = {TYPE('t', 'h', 'm', 'b'), TYPE('c', 'd', 's', 'c'), TYPE('a', 'u', 'x', 'l'),
                                     TYPE('f', 'r', 'e', 'e'), TYPE('i', 'l', 'o', 'c')};
    uint32_t order[3 * ITEMS], count = list_references(w->dice, plan, order), version = id_version(w, 0, 1);
    if (count == 0 && chance(w->dice, 70))
        return;
    if (chance(w->dice, 30))
        shuffle(w->dice, order, count);
    struct open_box box = begin(w, TYPE('i', 'r', 'e', 'f'));
    write_version(w, version, below(w->dice, 2));
    for (uint32_t k = 0; k <= count; k++) {
        if (chance(w->dice, 20))
            write_reference(w, plan, types[below(w->dice, LEVEL >= 7 ? 4 : 5)], &plan->item[below(w->dice, plan->items)],
                            version, below(w->dice, 4));
        if (k < count && order[k] < ITEMS)
            write_reference(w, plan, TYPE('d', 'i', 'm', 'g'), &plan->item[order[k]], version, 0);
        else if (k < count)
            write_links(w, plan, &plan->item[order[k] - ITEMS], version);
    }
    end(w, box);
}

static void write_idat(struct writer *w, const struct plan *plan)
{
    if (plan->blob_length[1] == 0)
        return;
    struct open_box box = begin(w, TYPE('i', 'd', 'a', 't'));
    w->blob_at[1] = w->at;
    write_bytes(w, plan->blob[1], plan->blob_length[1]);
    end(w, box);
}

/* Entries of any type and version; only the flag counts. */
static void write_dref(struct writer *w, const struct plan *plan)
{
    static const uint32_t types[] = {TYPE('u', 'r', 'l', ' '), TYPE('u', 'r', 'n', ' '), TYPE('f', 'r', 'e', 'e'), 0};
    struct open_box box = begin(w, TYPE('d', 'r', 'e', 'f'));
    write_version(w, 0, below(w->dice, 2));
    write_number(w, 4, plan->references);
    for (uint32_t k = 1; k <= plan->references; k++) {
        struct open_box entry = begin(w, types[below(w->dice, 4)]);
        write_version(w, chance(w->dice, 70) ? 0 : below(w->dice, 256), plan->marked[k % 17]);
        for (uint32_t n = chance(w->dice, 70) ? 0 : below(w->dice, 9); n > 0; n--)
            write_number(w, 1, roll(w->dice));
        end(w, entry);
    }
    end(w, box);
}

static void write_dinf(struct writer *w, const struct plan *plan)
{
    if (plan->no_dinf)
        return;
    struct open_box box = begin(w, TYPE('d', 'i', 'n', 'f'));
    if (chance(w->dice, 10))
        write_noise(w);
    write_dref(w, plan);
    if (chance(w->dice, 10))
        write_noise(w);
    end(w, box);
}

/* ---- The file ---- */

static void write_child(struct writer *w, const struct plan *plan, uint32_t which)
{
    switch (which) {
    case 0: write_hdlr(w); break;
    case 1: write_pitm(w, plan); break;
    case 2: write_iinf(w, plan); break;
    case 3: write_iloc(w, plan); break;
    case 4: write_iprp(w, plan); break;
    case 5: write_iref(w, plan); break;
    case 6: write_idat(w, plan); break;
    default: write_dinf(w, plan); break;
    }
}

static void write_meta(struct writer *w, const struct plan *plan)
{
    uint32_t order[] = {0, 1, 2, 3, 4, 5, 6, 7}, children = sizeof order / sizeof order[0];
    struct open_box box = begin(w, TYPE('m', 'e', 't', 'a'));
    write_version(w, 0, below(w->dice, 2));
    if (chance(w->dice, 60))
        shuffle(w->dice, order, children);
    for (uint32_t k = 0; k < children; k++) {
        if (chance(w->dice, 6))
            write_noise(w);
        write_child(w, plan, order[k]);
    }
    if (chance(w->dice, 6))
        write_noise(w);
    end(w, box);
}

static void write_ftyp(struct writer *w)
{
    static const uint32_t brands[] = {TYPE('h', 'e', 'i', 'c'), TYPE('m', 's', 'f', '1'), TYPE('m', 'i', 'a', 'f'), 0};
    struct open_box box = begin(w, TYPE('f', 't', 'y', 'p'));
    write_number(w, 4, chance(w->dice, 50) ? TYPE('m', 'i', 'f', '1') : TYPE('h', 'e', 'i', 'c'));
    write_number(w, 4, chance(w->dice, 90) ? 0 : roll(w->dice));
    while (chance(w->dice, 40))
        write_number(w, 4, brands[below(w->dice, 4)]);
    write_number(w, 4, TYPE('m', 'i', 'f', '1'));
    while (chance(w->dice, 20))
        write_number(w, 4, brands[below(w->dice, 4)]);
    end(w, box);
}

static void write_mdat(struct writer *w, const struct plan *plan)
{
    struct open_box box = begin(w, TYPE('m', 'd', 'a', 't'));
    w->blob_at[0] = w->at;
    write_bytes(w, plan->blob[0], plan->blob_length[0]);
    for (uint32_t k = below(w->dice, 40); k > 0; k--)
        write_number(w, 1, roll(w->dice));
    end(w, box);
}

static void write_file(struct writer *w, const struct plan *plan)
{
    int before = chance(w->dice, 30);
    w->at = 0;
    write_ftyp(w);
    while (chance(w->dice, 8))
        write_noise(w);
    if (before)
        write_mdat(w, plan);
    size_t meta = w->at;
    write_meta(w, plan);
    w->meta_start = meta;
    w->meta_end = w->at;
    if (!before && (plan->blob_length[0] != 0 || chance(w->dice, 80)))
        write_mdat(w, plan);
    else if (chance(w->dice, 20) && w->bytes[meta + 3] != 1)
        put(w->bytes + meta, 4, 0); /* `meta` to the end of the file */
}

/* The head may be shorter than what was written, as long as `meta` and the bodies are in it; or, as a planned fault,
 * end inside a body. */
static void shorten(struct dice *d, const struct plan *plan, const struct writer *w, struct still *still)
{
    size_t needed = w->meta_end;
    for (uint32_t k = 0; k < plan->items; k++) {
        const struct picture *item = &plan->item[k];
        if (!item->has_body || item->blob != 0)
            continue;
        for (uint32_t n = 0; n < item->extents && n < EXTENTS; n++) {
            size_t at = w->blob_at[0] + item->piece[n].at;
            if (plan->cut && at >= w->meta_end && item->piece[n].length != 0 && chance(d, 50)) {
                still->length = at + below(d, item->piece[n].length);
                return;
            }
            if (at + item->piece[n].length > needed)
                needed = at + item->piece[n].length;
        }
    }
    if (chance(d, 25) && needed < still->length)
        still->length = needed + (chance(d, 50) ? 0 : below(d, (uint32_t)(still->length - needed)));
}

/* The companion: its blob, more bytes behind it, and of those all, some or none lent. */
static void write_companion(struct dice *d, const struct plan *plan, struct still *still)
{
    size_t needed = plan->blob_length[2], most = plan->companion_total < 65536 ? plan->companion_total : 65536;
    still->companion_total = plan->companion_total;
    still->companion_length = chance(d, 40) ? most : needed + below(d, (uint32_t)(most - needed) + 1);
    if (LEVEL < 10)
        still->companion_length = still->companion_total = 0;
    for (size_t k = 0; k < still->companion_length; k++)
        still->companion[k] = k < needed ? plan->blob[2][k] : (uint8_t)roll(d);
}

/* The file is written three times with the same dice: first to see where things come to lie, then to see the total
 * that follows, which may ask for longer fields. */
static void write_still(struct dice *d, const struct plan *plan, struct still *still)
{
    struct dice kept = dice_from(roll(d)), dice = kept;
    static struct writer w;
    w.bytes = still->head;
    w.dice = &dice;
    w.length = w.wide_ids = 0;
    w.blob_at[0] = w.blob_at[1] = 0;
    uint64_t extra = chance(d, 60) ? 0 : chance(d, 80) ? below(d, 1 << 20) : roll(d) >> (1 + below(d, 32));
    for (uint32_t k = 0; k < plan->items; k++)
        w.wide_ids |= plan->item[k].id > 65535;
    for (int pass = 0; pass < 3; pass++) {
        dice = kept;
        w.total = w.length + extra;
        write_file(&w, plan);
        w.length = w.at;
    }
    still->length = w.at;
    still->total = w.at + extra;
    shorten(d, plan, &w, still);
    write_companion(d, plan, still);
}

/* A `meta` of size 0 needs a file that is wholly in the head, and a wide header keeps its size field of 1. */
static int is_possible(const struct still *still)
{
    size_t at = 0;
    if (still->length > 65536)
        return 0;
    while (at + 8 <= still->length) {
        uint64_t size = (uint64_t)still->head[at] << 24 | still->head[at + 1] << 16 | still->head[at + 2] << 8 |
                        still->head[at + 3];
        if (size == 0)
            return still->total == still->length;
        if (size == 1)
            size = (uint64_t)still->head[at + 12] << 24 | still->head[at + 13] << 16 | still->head[at + 14] << 8 |
                   still->head[at + 15];
        at += size;
    }
    return 1;
}

static void make_still(struct dice *d, struct still *still, int faults)
{
    static struct plan plan;
    do {
        int deep = faults && chance(d, 15), loose = faults && !deep && chance(d, 15); /* faults by themselves */
        make_plan(d, &plan, deep ? 17 + below(d, 3) : 16, loose);
        for (int k = deep || loose; k < faults; k++)
            spoil(d, &plan);
        write_still(d, &plan, still);
    } while (!is_possible(still));
    still->clean = faults == 0;
}

/* ---- Seeds ---- */

static void add_seed(struct seeds *seeds, const char *path, const char *companion)
{
    FILE *file = fopen(path, "rb");
    if (file == NULL)
        return;
    seeds->file = realloc(seeds->file, (seeds->count + 1) * sizeof *seeds->file);
    struct seed seed = {malloc(65536), malloc(65536), 0, 0, 0};
    if (seeds->file == NULL || seed.bytes == NULL || seed.companion == NULL)
        exit(2);
    seed.length = fread(seed.bytes, 1, 65536, file);
    seed.total = seed.length;
    while (fgetc(file) != EOF)
        seed.total++;
    fclose(file);
    file = fopen(companion, "rb");
    if (file != NULL) {
        seed.companion_length = fread(seed.companion, 1, 65536, file);
        fclose(file);
    }
    seeds->file[seeds->count++] = seed;
}

void lend_companion(struct still *still, const struct seed *seed)
{
    memcpy(still->companion, seed->companion, seed->companion_length);
    still->companion_length = seed->companion_length;
    still->companion_total = seed->companion_length;
}

void free_seeds(struct seeds *seeds)
{
    while (seeds->count > 0) {
        free(seeds->file[--seeds->count].bytes);
        free(seeds->file[seeds->count].companion);
    }
    free(seeds->file);
}

static int by_name(const struct dirent **a, const struct dirent **b)
{
    return strcmp((*a)->d_name, (*b)->d_name);
}

void add_seeds(struct seeds *seeds, const char *folder)
{
    struct dirent **entry;
    int count = scandir(folder, &entry, NULL, by_name); /* in order of name, so that a run repeats */
    for (int k = 0; k < count; k++) {
        char path[1024], companion[1024];
        snprintf(path, sizeof path, "%s/%s", folder, entry[k]->d_name);
        snprintf(companion, sizeof companion, "%s/../companions/%s", folder, entry[k]->d_name);
        if (entry[k]->d_name[0] != '.')
            add_seed(seeds, path, companion);
        free(entry[k]);
    }
    if (count >= 0)
        free(entry);
}

/* Another length or total of the companion. */
static void damage_companion(struct dice *d, struct still *still)
{
    size_t length = still->companion_length;
    switch (below(d, 6)) {
    case 0: still->companion_total = length == 0 ? 0 : length - 1; break;
    case 1: still->companion_total = length; break;
    case 2: still->companion_total = chance(d, 50) ? roll(d) : below(d, 100); break;
    case 3: still->companion_length = below(d, (uint32_t)length + 1); break;
    case 4: still->companion_length = still->companion_total = 0; break;
    default:
        still->companion_length = 65535 + below(d, 3);
        memset(still->companion + length, 0, length < 65538 ? 65538 - length : 0);
        still->companion_total = still->companion_length + below(d, 2);
        break;
    }
}

void generate(struct dice *d, const struct seeds *seeds, struct still *still)
{
    uint32_t way = below(d, 100);
    if (way < 45) {
        make_still(d, still, 0);
    } else if (way < 70) {
        make_still(d, still, chance(d, 70) ? 1 : 2 + (int)below(d, 3));
    } else {
        if (way < 78 && seeds->count != 0) {
            const struct seed *seed = &seeds->file[below(d, (uint32_t)seeds->count)];
            memcpy(still->head, seed->bytes, seed->length);
            still->length = seed->length;
            still->total = seed->total;
            lend_companion(still, seed);
        } else {
            make_still(d, still, chance(d, 20));
        }
        still->clean = 0;
        if (LEVEL >= 10 && chance(d, 12)) {
            damage_companion(d, still);
            if (chance(d, 20))
                still->total = still->length - 1; /* as wrong as the companion may be */
            return;
        }
        for (uint32_t k = chance(d, 70) ? 1 : between(d, 2, 4); k > 0; k--)
            damage(d, still);
    }
}
