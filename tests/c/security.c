/* Security items: each fault at the first, a middle and the last item, rings of many sizes, keys off the ring; the place, the key, and the map afterwards.
   The map that is lent is longer than need be, and all ones. What is lent ends at an unreadable page, but for the largest hive. */
#include <stdlib.h>
#include <string.h>

#include "fixtures.h"
#include "expect.h"
#include "lend.h"

enum { MORE = 100, ITEM_ROOM = 8, MIDDLE = 2, FIVE = 5 };

/* A root with subkeys, and a ring of items in the order of their offsets. Subkey i names item i * step, modulo their number. */
typedef struct {
    Made m;
    uint32_t *items, *keys;
    uint32_t item_count, key_count, step;
} Ring;

static uint32_t item_of(const Ring *r, uint32_t key)
{
    return (uint32_t)((uint64_t)key * r->step % r->item_count);
}

/* A field of an item: its links at 4 and 8, its count at 12, its descriptor's size at 16. */
enum Field { FORWARD = 4, BACKWARD = 8, NAMED = 12, SIZE = 16 };

static uint8_t *field(const Ring *r, uint32_t item, enum Field at)
{
    return data_of(&r->m, r->items[item]) + at;
}

static void link_items(Ring *r, uint32_t one, uint32_t other)
{
    put32(field(r, one, FORWARD), r->items[other]);
    put32(field(r, other, BACKWARD), r->items[one]);
}

static uint32_t *words(size_t count)
{
    uint32_t *p = malloc(4 * count + 4);
    if (p == NULL)
        abort();
    return p;
}

/* Names in order: letters of the number, the most significant first. */
static const char *numbered(uint32_t n)
{
    static char name[6];
    for (int i = 4; i >= 0; i--, n /= 26)
        name[i] = (char)('a' + n % 26);
    return name;
}

static void hang_all(Ring *r)
{
    uint32_t leaves[64], count = 0;
    for (uint32_t i = 0; i < r->key_count; i += 1000)
        leaves[count++] = new_leaf(&r->m, "lh", r->keys + i, r->key_count - i < 1000 ? r->key_count - i : 1000);
    if (count > 0)
        hang_keys(&r->m, r->m.root, count == 1 ? leaves[0] : new_index(&r->m, leaves, count), r->key_count);
}

static Ring ring(uint32_t items, uint32_t keys, uint32_t step)
{
    size_t bins = (4096 + 100 * (size_t)keys + 32 * (size_t)items + 4095) / 4096 * 4096;
    Ring r = {made(bins, 5), words(items), words(keys), items, keys, step};
    r.m.root = new_key(&r.m, "R", 0);
    for (uint32_t i = 0; i < keys; i++)
        r.keys[i] = new_key(&r.m, numbered(i), r.m.root);
    hang_all(&r);
    for (uint32_t i = 0; i < items; i++)
        r.items[i] = new_item(&r.m, ITEM_ROOM);
    r.m.item = r.items[0];
    finish(&r.m);
    put32(field(&r, 0, NAMED), 1);
    for (uint32_t i = 0; i < items; i++)
        link_items(&r, i, (i + 1) % items);
    for (uint32_t i = 0; i < keys; i++) {
        uint8_t *named = field(&r, item_of(&r, i), NAMED);
        put32(data_of(&r.m, r.keys[i]) + 44, r.items[item_of(&r, i)]);
        put32(named, get32(named) + 1);
    }
    return r;
}

static void drop(Ring *r)
{
    free(r->m.file);
    free(r->items);
    free(r->keys);
}

/* The map as it must be: a bit for each cell in use of the one bin, and ones behind. */
static uint8_t *map_wanted(const Made *m)
{
    size_t n = m->bins / 64;
    uint8_t *map = calloc(1, n + MORE);
    if (map == NULL)
        abort();
    memset(map + n, 0xff, MORE);
    for (size_t at = 32; at < m->bins;) {
        uint32_t size = get32(m->file + 4096 + at);
        if (size > 0x7fffffff)
            map[at / 64] |= (uint8_t)(1 << at % 64 / 8);
        at += size > 0x7fffffff ? 0u - size : size;
    }
    return map;
}

/* What the check says, twice: the second time on the map that the first has left. */
static void says(const Ring *r, uint32_t number, uint32_t place, uint32_t key)
{
    size_t n = made_length(&r->m), k = r->m.bins / 64 + MORE;
    uint8_t *wanted = map_wanted(&r->m), *map = memset(lend(1, wanted, k), 0xff, k);
    const uint8_t *h = n <= ROOM ? lend(0, r->m.file, n) : r->m.file;
    for (int i = 0; i < 2; i++) {
        HiveReport x = hive_check(h, n, map, k);
        EXPECT(number == 0 ? is(x.answer, 0, 0) : in(x.answer, number, place, key));
        EXPECT(number == 0 ? x.keys == r->key_count + 1 : x.bins + x.keys + x.values + x.used + x.free == 0);
        EXPECT(memcmp(map, wanted, k) == 0 && memcmp(h, r->m.file, n) == 0);
    }
    free(wanted);
}

/* One field of an item is another: the place is an item, and the key the root. */
static void one_field(Ring *r, uint32_t item, enum Field at, uint32_t n, uint32_t blamed)
{
    uint32_t old = get32(field(r, item, at));
    put32(field(r, item, at), n);
    says(r, 28, r->items[blamed], r->m.root);
    put32(field(r, item, at), old);
}

/* A key names something else, and its item is named once less. */
static void other_offset(Ring *r, uint32_t key, uint32_t offset, uint32_t number)
{
    uint8_t *at = data_of(&r->m, r->keys[key]) + 44, *named = field(r, item_of(r, key), NAMED);
    uint32_t old = get32(at), count = get32(named);
    put32(at, offset);
    says(r, 28, r->items[item_of(r, key)], r->m.root);
    put32(named, count - 1);
    says(r, number, r->keys[key], r->keys[key]);
    put32(at, old);
    put32(named, count);
}

static void t_minimal(void)
{
    Ring r = ring(1, 0, 1);
    says(&r, 0, 0, NO_KEY);
    EXPECT(r.items[0] == 120);
    for (int i = 0; i < 9; i++) {
        put32(data_of(&r.m, r.m.root) + 44, (uint32_t[]){0, 32, 116, 124, 128, 152, 4096, 0x80000000, 0xffffffff}[i]);
        says(&r, 28, r.m.root, r.m.root);
    }
    drop(&r);
}

static void t_fields(void)
{
    Ring r = ring(FIVE, 8, 1);
    uint32_t leaf = get32(data_of(&r.m, r.m.root) + 28);
    says(&r, 0, 0, NO_KEY);
    for (uint32_t k = 0; k < 3; k++) {
        uint32_t i = (uint32_t[]){0, MIDDLE, FIVE - 1}[k], next = (i + 1) % FIVE, named = get32(field(&r, i, NAMED));
        for (uint32_t size = 0; size <= ITEM_ROOM; size++) {
            put32(field(&r, i, SIZE), size);
            says(&r, 0, 0, NO_KEY);
        }
        put32(field(&r, i, SIZE), 0);
        for (int j = 0; j < 5; j++)
            one_field(&r, i, SIZE, (uint32_t[]){ITEM_ROOM + 1, 0x7fffffff, 0xffffffeb, 0xffffffec, 0xffffffff}[j], i);
        for (int j = 0; j < 5; j++)
            one_field(&r, i, NAMED, (uint32_t[]){0, named - 1, named + 1, named + 65536, 0xffffffff}[j], i);
        for (int j = 0; j < 11; j++)
            one_field(&r, i, FORWARD, (uint32_t[]){0, r.m.root, leaf, r.items[i], r.items[(i + 2) % FIVE], r.items[next] + 4, r.items[next] + 8, r.m.next, (uint32_t)r.m.bins, 0x80000000, 0xffffffff}[j], i);
        for (int j = 0; j < 5; j++)
            one_field(&r, next, BACKWARD, (uint32_t[]){0, r.items[next], r.items[(i + 3) % FIVE], r.items[i] + 4, 0xffffffff}[j], i);
        for (uint32_t j = i; j < FIVE; j++) { /* and a later one too */
            uint32_t old = get32(field(&r, j, NAMED));
            put32(field(&r, j, NAMED), 99);
            one_field(&r, i, SIZE, 99, i);
            one_field(&r, i, FORWARD, 0, i);
            put32(field(&r, j, NAMED), old);
        }
    }
    says(&r, 0, 0, NO_KEY);
    drop(&r);
}

/* Both rho shapes, two rings, and items that are free or another record. */
static void t_shapes(void)
{
    Ring r = ring(FIVE, 8, 1);
    for (uint32_t m = 1; m < FIVE; m++) {
        put32(field(&r, FIVE - 1, FORWARD), r.items[m]);
        says(&r, 28, r.items[FIVE - 1], r.m.root);
        put32(field(&r, m, BACKWARD), r.items[FIVE - 1]);
        says(&r, 28, r.items[m - 1], r.m.root);
        link_items(&r, m - 1, m);
        link_items(&r, FIVE - 1, 0);
    }
    link_items(&r, 1, 0);
    link_items(&r, 4, 2);
    says(&r, 28, r.keys[2], r.keys[2]);
    link_items(&r, 1, 2);
    link_items(&r, 4, 0);
    for (uint32_t i = 0; i < FIVE; i++) {
        uint8_t *size = r.m.file + 4096 + r.items[i], *d = data_of(&r.m, r.items[i]);
        put32(size, 0u - get32(size));
        says(&r, 28, i == 0 ? r.m.root : r.items[i - 1], r.m.root);
        put32(size, 0u - get32(size));
        put16(d, 0x6b6e);
        says(&r, 28, i == 0 ? r.m.root : r.items[i - 1], r.m.root);
        put16(d, 0x6b73);
        uint32_t named = get32(size + 16);
        put32(size, 0u - 16); /* and a cell of 16 bytes, with another behind it */
        put32(size + 16, 0u - 16);
        says(&r, 28, i == 0 ? r.m.root : r.items[i - 1], r.m.root);
        put32(size, 0u - 32);
        put32(size + 16, named);
    }
    says(&r, 0, 0, NO_KEY);
    drop(&r);
}

/* Keys at nothing, at the end of the bins data, behind which the map is all ones, and at items beside the ring. */
static void t_keys(void)
{
    Ring r = ring(FIVE, 8, 1);
    for (uint32_t k = 0; k < 8; k++)
        for (int j = 0; j < 10; j++)
            other_offset(&r, k, (uint32_t[]){0, 8, r.m.root, r.m.next, r.items[1] + 4, r.items[1] + 8, (uint32_t)r.m.bins, (uint32_t)r.m.bins + 64 * MORE - 8, 0x80000000, 0xffffffff}[j], 28);
    link_items(&r, 3, 0); /* the last is linked to itself, beside the ring */
    link_items(&r, 4, 4);
    says(&r, 28, r.keys[4], r.keys[4]);
    put32(data_of(&r.m, r.keys[4]) + 44, r.items[0]);
    put32(field(&r, 0, NAMED), 4);
    says(&r, 0, 0, NO_KEY);
    other_offset(&r, 2, r.items[4], 28);
    put32(field(&r, 4, FORWARD), r.items[0]); /* or it points into the ring */
    says(&r, 0, 0, NO_KEY);
    other_offset(&r, 6, r.items[4], 28);
    drop(&r);
}

/* Rings on both sides of a batch, and of three. */
static void t_batches(void)
{
    static const uint32_t sizes[] = {1, 2, 2047, 2048, 2049, 4095, 4096, 4097, 5000};
    for (size_t s = 0; s < sizeof sizes / sizeof sizes[0]; s++) {
        uint32_t n = sizes[s], last = n - 1;
        Ring r = ring(n, 40, 127);
        says(&r, 0, 0, NO_KEY);
        one_field(&r, last, NAMED, get32(field(&r, last, NAMED)) + 1, last);
        one_field(&r, last, SIZE, ITEM_ROOM + 1, last);
        one_field(&r, last, FORWARD, r.m.root, last);
        one_field(&r, 0, BACKWARD, r.m.root, last);
        other_offset(&r, 39, 0, 28);
        other_offset(&r, 0, (uint32_t)r.m.bins, 28);
        put32(field(&r, last, SIZE), 99); /* of two the first one */
        one_field(&r, n / 2, NAMED, 99, n / 2);
        put32(field(&r, last, SIZE), 0);
        put32(field(&r, last, NAMED), 99);
        one_field(&r, n / 2, FORWARD, 0, n / 2);
        drop(&r);
    }
}

/* As many keys as items, and many keys of one item. */
static void t_many(void)
{
    Ring r = ring(5000, 5000, 7919);
    says(&r, 0, 0, NO_KEY);
    for (uint32_t i = 4990; i < 5000; i++)
        one_field(&r, i, NAMED, 2, i);
    other_offset(&r, 4999, 0, 28);
    other_offset(&r, 2500, 0, 28);
    drop(&r);
    r = ring(1, 60000, 1);
    says(&r, 0, 0, NO_KEY);
    one_field(&r, 0, NAMED, 60000, 0);
    one_field(&r, 0, NAMED, 60001 + 65536, 0);
    one_field(&r, 0, NAMED, 60001 - 65536 / 2, 0);
    other_offset(&r, 59999, 0, 28);
    drop(&r);
}

int main(void)
{
    test("security: one item", t_minimal);
    test("security: room, link and count of an item", t_fields);
    test("security: shapes", t_shapes);
    test("security: keys off the ring", t_keys);
    test("security: batches", t_batches);
    test("security: many", t_many);
    return counts();
}
