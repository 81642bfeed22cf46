/* Values of one name, and the hints of lf lists: places, keys, the order of faults, tables of every size, and the stack. What is lent ends at an unreadable page. */
#include <stdlib.h>
#include <string.h>

#include "fixtures.h"
#include "expect.h"
#include "lend.h"
#include "stack.h"

enum { MOST = 30000, LONGEST = 1001 };

/* A name by its codes. */
typedef struct {
    size_t count;
    uint16_t codes[LONGEST];
} Name;

static Name named(const char *text)
{
    Name n = {strlen(text), {0}};
    for (size_t i = 0; i < n.count; i++)
        n.codes[i] = (uint8_t)text[i];
    return n;
}

static Name one_code(uint16_t code)
{
    return (Name){1, {code}};
}

static bool fits_bytes(const Name *n)
{
    for (size_t i = 0; i < n->count; i++)
        if (n->codes[i] > 255)
            return false;
    return true;
}

/* A name into a record, a byte or two for each code. */
static void put_name(uint8_t *at, const Name *n, bool wide)
{
    for (size_t i = 0; i < n->count; i++)
        if (wide)
            put16(at + 2 * i, n->codes[i]);
        else
            at[i] = (uint8_t)n->codes[i];
}

static uint32_t value_called(Made *m, const Name *n, bool wide)
{
    size_t length = n->count * (wide ? 2 : 1);
    uint32_t value = new_cell(m, 20 + length);
    uint8_t *d = data_of(m, value);
    memcpy(d, "vk", 2);
    put16(d + 2, (uint32_t)length);
    put32(d + 4, 0x80000000);
    put16(d + 16, wide ? 0 : 1);
    put_name(d + 20, n, wide);
    return value;
}

static uint32_t key_called(Made *m, const Name *n, bool wide, uint32_t parent)
{
    size_t length = n->count * (wide ? 2 : 1);
    uint32_t key = new_cell(m, 76 + length);
    uint8_t *d = data_of(m, key);
    memcpy(d, "nk", 2);
    put16(d + 2, wide ? 0 : 0x20);
    put32(d + 16, parent);
    put16(d + 72, (uint32_t)length);
    put_name(d + 76, n, wide);
    return key;
}

static uint8_t *map;

static void says(const Made *m, uint32_t number, uint32_t place, uint32_t key)
{
    size_t n = made_length(m);
    const uint8_t *h = n <= ROOM ? lend(0, m->file, n) : m->file;
    HiveAnswer a = hive_check(h, n, map, m->bins / 64).answer;
    EXPECT(number == 0 ? is(a, 0, 0) : in(a, number, place, key));
}

/* A root with two values of those names, in each way that they can be stored. */
static void two_values(Name first, Name second, bool same)
{
    for (int how = 0; how < 4; how++) {
        bool wide[] = {how % 2 == 1, how / 2 == 1};
        if ((!wide[0] && !fits_bytes(&first)) || (!wide[1] && !fits_bytes(&second)))
            continue;
        Made m = made(2 * 4096, 5);
        m.root = new_key(&m, "R", 0);
        uint32_t v[] = {value_called(&m, &first, wide[0]), value_called(&m, &second, wide[1])};
        hang_values(&m, m.root, v, 2);
        finish(&m);
        says(&m, same ? 29 : 0, v[1], m.root);
        free(m.file);
    }
}

/* A name that ends with another code. */
static Name ended(Name n, uint16_t code)
{
    n.codes[n.count++] = code;
    return n;
}

static void t_names(void)
{
    static const struct { uint16_t one, other; bool same; } codes[] = {
        {'a', 'A', true}, {'z', 'Z', true}, {'@', '`', false}, {'[', '{', false}, {'a', 'a', true}, {0xe0, 0xc0, true}, {0xe9, 0xc9, true}, {0xfe, 0xde, true}, {0xf7, 0xd7, false},
        {0xff, 0xdf, false}, {0xff, 0x178, true}, {0x178, 0x178, true}, {0xb5, 0x39c, false}, {0x436, 0x416, false}, {0x416, 0x416, true}, {0, 0, true}, {'\\', '\\', true}, {'0', 'P', false},
        {0x161, 'a', false}, {0x6161, 'a', false}, {0xd800, 0xd800, true}, {0, ' ', false},
    };
    for (size_t i = 0; i < sizeof codes / sizeof codes[0]; i++) {
        two_values(one_code(codes[i].one), one_code(codes[i].other), codes[i].same);
        two_values(ended(named("x"), codes[i].other), ended(named("X"), codes[i].one), codes[i].same);
    }
    two_values(named(""), named(""), true);
    two_values(named(""), one_code(0), false);
    two_values(named("a"), named("ab"), false);
    two_values(named("ab"), named("a"), false);
    two_values(named("a"), ended(named("a"), 0), false);
    two_values(ended(named("a"), 0), ended(named("A"), 0), true);
    Name n = {999, {0}};
    for (size_t i = 0; i < n.count; i++)
        n.codes[i] = (uint16_t)(i % 60 + 32);
    two_values(ended(n, 'y'), ended(n, 'Y'), true);
    two_values(ended(n, 'y'), ended(n, 'z'), false);
    two_values(n, ended(n, 'y'), false);
}

/* Of a, b, B, A it is B: the lowest position with a namesake before it. */
static void t_lowest(void)
{
    static const struct { const char *names; int found; } lists[] = {
        {"abBA", 2}, {"abAB", 2}, {"abcdA", 4}, {"aaa", 1}, {"abcCBA", 3}, {"aabb", 1}, {"abb", 2}, {"abcCa", 3}, {"abcdefghijklmnopP", 16}, {"abcdefghijklmnopqrstuvwxyzA", 26},
    };
    for (size_t i = 0; i < sizeof lists / sizeof lists[0]; i++) {
        Made m = made(4096, 5);
        m.root = new_key(&m, "R", 0);
        uint32_t v[32];
        size_t count = strlen(lists[i].names);
        for (size_t j = 0; j < count; j++) {
            Name n = one_code((uint8_t)lists[i].names[j]);
            v[j] = value_called(&m, &n, j % 3 == 0);
        }
        hang_values(&m, m.root, v, count);
        finish(&m);
        says(&m, 29, v[lists[i].found], m.root);
        free(m.file);
    }
}

/* Positions count and not cells; a list that two keys share is no repeat. */
static void t_positions(void)
{
    Made m = made(4096, 5);
    m.root = new_key(&m, "R", 0);
    uint32_t key = new_key(&m, "k", m.root), v[3];
    for (int i = 0; i < 3; i++)
        v[i] = new_value(&m, (const char *[]){"a", "b", "c"}[i], 3, (const uint8_t *)"12345", 5);
    hang_values(&m, key, v, 3);
    uint32_t list = get32(data_of(&m, key) + 40);
    hang_keys(&m, m.root, new_leaf(&m, "lf", &key, 1), 1);
    finish(&m);
    says(&m, 0, 0, NO_KEY);
    put32(data_of(&m, m.root) + 36, 3);
    put32(data_of(&m, m.root) + 40, list);
    says(&m, 0, 0, NO_KEY);
    put32(data_of(&m, m.root) + 36, 2);
    put32(data_of(&m, list) + 8, v[0]); /* the root's two are sound, and the key's three are not */
    says(&m, 29, v[0], key);
    put32(data_of(&m, m.root) + 36, 3);
    says(&m, 29, v[0], m.root);
    put32(data_of(&m, m.root) + 36, 0);
    put32(data_of(&m, key) + 36, 2);
    says(&m, 0, 0, NO_KEY);
    put32(data_of(&m, list) + 4, v[0]);
    says(&m, 29, v[0], key);
    put32(data_of(&m, key) + 36, 1);
    says(&m, 0, 0, NO_KEY);
    free(m.file);
}

/* Five capitals by a number. */
static Name numbered(uint32_t n)
{
    Name name = {5, {0}};
    for (int i = 4; i >= 0; i--, n /= 26)
        name.codes[i] = (uint16_t)('A' + n % 26);
    return name;
}

static uint32_t values[MOST];

/* A root with so many values. */
static Made many(uint32_t count)
{
    Made m = made(((size_t)count * 40 + 4096 + 4095) / 4096 * 4096, 5);
    m.root = new_key(&m, "R", 0);
    for (uint32_t i = 0; i < count; i++) {
        Name n = numbered(i);
        values[i] = value_called(&m, &n, false);
    }
    hang_values(&m, m.root, values, count);
    finish(&m);
    return m;
}

/* Value i has the name of value j from now on, in small letters where j is another. */
static void rename_as(Made *m, uint32_t i, uint32_t j)
{
    Name n = numbered(j);
    for (int k = 0; k < 5; k++)
        n.codes[k] = (uint16_t)(n.codes[k] + (i == j ? 0 : 32));
    put_name(data_of(m, values[i]) + 20, &n, false);
}

/* Two repeats: the lower of the two positions answers. */
static void two_repeats(Made *m, uint32_t i, uint32_t of_i, uint32_t j, uint32_t of_j)
{
    rename_as(m, i, of_i);
    rename_as(m, j, of_j);
    says(m, 29, values[i < j ? i : j], m->root);
    rename_as(m, i, i);
    rename_as(m, j, j);
}

static void t_tables(void)
{
    static const uint32_t counts[] = {2, 3, 15, 16, 17, 255, 256, 257, 4095, 4096, 4097, 8192, 8193, MOST};
    for (size_t k = 0; k < sizeof counts / sizeof counts[0]; k++) {
        uint32_t n = counts[k], last = n - 1;
        Made m = many(n);
        says(&m, 0, 0, NO_KEY);
        for (int i = 0; i < 3; i++) {
            rename_as(&m, last, (uint32_t[]){0, last - 1, last / 2}[i]);
            says(&m, 29, values[last], m.root);
            rename_as(&m, last, last);
        }
        if (n > 3) {
            two_repeats(&m, last, 0, last - 1, 1);
            two_repeats(&m, last, last - 1, n / 2, 0);
            two_repeats(&m, last, 0, n / 2, n / 2 - 1);
            two_repeats(&m, 1, 0, last, last - 1);
        }
        if (n > 8192) {
            two_repeats(&m, 8192, 1, 4096, 4095);
            two_repeats(&m, 8192, 8191, 5000, 0);
            two_repeats(&m, 5000, 4500, 4999, 3);
        }
        says(&m, 0, 0, NO_KEY);
        free(m.file);
    }
}

/* 4,096 names of one hash, for 34 * 37 + 95 is 35 * 37 + 58; and one more that repeats the last. */
static void t_one_hash(void)
{
    enum { PAIRS = 12, COUNT = 1 << PAIRS };
    Made m = made(70 * 4096, 5);
    m.root = new_key(&m, "R", 0);
    for (uint32_t i = 0; i <= COUNT; i++) {
        Name n = {2 * PAIRS, {0}};
        for (int bit = 0; bit < PAIRS; bit++) {
            bool one = (i < COUNT ? i : COUNT - 1) >> bit & 1;
            n.codes[2 * bit] = one ? 35 : 34;
            n.codes[2 * bit + 1] = one ? 58 : 95;
        }
        values[i] = value_called(&m, &n, false);
    }
    hang_values(&m, m.root, values, COUNT + 1);
    finish(&m);
    says(&m, 29, values[COUNT], m.root);
    put32(data_of(&m, m.root) + 36, COUNT);
    says(&m, 0, 0, NO_KEY);
    free(m.file);
}

/* Parent, hint, values with their data, 29, lists, total: of two faults of a key the earlier answers; and the first of two namesakes is found all the same. */
static void t_orders(void)
{
    enum { FAULTS = 6 };
    Made m = made(4096, 5);
    m.root = new_key(&m, "R", 0);
    uint32_t keys[] = {new_key(&m, "a", m.root), new_key(&m, "b", m.root)}, child = new_key(&m, "c", keys[1]), v[3], leaf;
    for (int i = 0; i < 3; i++)
        v[i] = new_value(&m, (const char *[]){"v", "w", "x"}[i], 3, (const uint8_t *)"12345678", 8);
    hang_values(&m, keys[0], v, 2);
    uint32_t own[] = {new_value(&m, "v", 1, (const uint8_t *)"first", 5), new_value(&m, "w", 2, (const uint8_t *)"second", 6), v[2]};
    hang_values(&m, keys[1], own, 3);
    hang_keys(&m, keys[1], new_leaf(&m, "lh", &child, 1), 1);
    hang_keys(&m, m.root, leaf = new_leaf(&m, "lf", keys, 2), 2);
    finish(&m);
    says(&m, 0, 0, NO_KEY);
    uint8_t *b = data_of(&m, keys[1]);
    const struct { uint8_t *at; uint32_t word, number, place; } faults[FAULTS] = {
        {b + 16, 0, 14, keys[1]}, {data_of(&m, leaf) + 16, 'B', 13, keys[1]}, {data_of(&m, v[2]) + 8, 8, 11, 8}, {data_of(&m, own[1]) + 20, 'V', 29, own[1]},
        {b + 28, 16, 11, 16}, {b + 20, 2, 14, keys[1]},
    };
    for (int i = 0; i < FAULTS; i++)
        for (int j = i; j < FAULTS; j++) {
            uint32_t one = get32(faults[i].at), other = get32(faults[j].at);
            put32(faults[i].at, faults[i].word);
            put32(faults[j].at, faults[j].word);
            says(&m, faults[i].number, faults[i].place, keys[1]);
            put32(faults[j].at, other);
            put32(faults[i].at, one);
        }
    uint8_t *elder = data_of(&m, v[1]) + 20; /* 29 of the elder sibling before the younger's, whatever that is */
    for (int i = 0; i < FAULTS; i++) {
        uint32_t old = get32(faults[i].at);
        put32(faults[i].at, faults[i].word);
        *elder = 'V';
        says(&m, 29, v[1], keys[0]);
        *elder = 'w';
        put32(faults[i].at, old);
    }
    put32(data_of(&m, m.item) + 12, 99); /* and 28 after all */
    says(&m, 28, m.item, m.root);
    put32(faults[1].at, faults[1].word);
    says(&m, 13, keys[1], keys[1]);
    HiveAnswer found = hive_find_key(m.file, made_length(&m), (const uint16_t[]){'B', '\\', 'c'}, 3); /* which reads no hint */
    EXPECT(found.number == 0 && found.value == child);
    put32(faults[1].at, 'b');
    put32(faults[3].at, faults[3].word);
    says(&m, 29, own[1], keys[1]);
    HiveValue x = hive_value_info(m.file, made_length(&m), (const uint16_t[]){'b'}, 1, (const uint16_t[]){'V'}, 1);
    EXPECT(is(x.answer, 0, 0) && x.kind == 1 && x.length == 5);
    free(m.file);
}

/* A root with one subkey in an lf, below an ri or not, and those bytes beside its offset. */
static void one_hint(const Name *n, bool wide, bool index, const uint8_t *hint, bool right)
{
    Made m = made(4096, 5);
    m.root = new_key(&m, "R", 0);
    uint32_t key = key_called(&m, n, wide, m.root), leaf = new_leaf(&m, "lf", &key, 1);
    memcpy(data_of(&m, leaf) + 8, hint, 4);
    hang_keys(&m, m.root, index ? new_index(&m, &leaf, 1) : leaf, 1);
    finish(&m);
    says(&m, right ? 0 : 13, key, key);
    free(m.file);
}

static void t_hints(void)
{
    static const char *const names[] = {"a", "ab", "abc", "abcd", "abcde", "\xe9\xc9\xff", "ABCD", "AbCdE"};
    for (size_t i = 0; i < sizeof names / sizeof names[0]; i++) {
        Name n = named(names[i]);
        uint8_t right[4] = {0};
        for (size_t j = 0; j < n.count && j < 4; j++)
            right[j] = (uint8_t)n.codes[j];
        for (int how = 0; how < 4; how++) {
            bool wide = how % 2 == 1, index = how / 2 == 1;
            one_hint(&n, wide, index, right, true);
            for (int bit = 0; bit < 32; bit++) {
                uint8_t wrong[4];
                memcpy(wrong, right, 4);
                wrong[bit / 8] ^= (uint8_t)(1 << bit % 8);
                one_hint(&n, wide, index, wrong, false);
            }
            one_hint(&n, wide, index, (const uint8_t[]){right[3], right[2], right[1], right[0]}, false);
            one_hint(&n, wide, index, (const uint8_t[]){0, 0, 0, 0}, false);
        }
    }
}

/* 0, 255, 256 and more in each of the first five places. Above 255 among four, the first byte is 0 and the others are anything. */
static void t_codes(void)
{
    static const uint16_t codes[] = {0, 1, 255, 256, 257, 0x6161, 0xffff};
    for (size_t k = 0; k < sizeof codes / sizeof codes[0]; k++)
        for (int place = 0; place < 5; place++) {
            Name n = named("abcde");
            n.codes[place] = codes[k];
            bool free_bytes = place < 4 && codes[k] > 255;
            uint8_t low[4];
            for (int i = 0; i < 4; i++)
                low[i] = (uint8_t)n.codes[i];
            one_hint(&n, true, false, low, free_bytes ? low[0] == 0 : true);
            one_hint(&n, true, false, (const uint8_t[]){0, low[1], low[2], low[3]}, free_bytes || low[0] == 0);
            one_hint(&n, true, false, (const uint8_t[]){0, 0xff, 0xfe, 0xfd}, free_bytes);
            one_hint(&n, true, false, (const uint8_t[]){2, low[1], low[2], low[3]}, false);
            if (codes[k] < 256)
                one_hint(&n, false, false, low, true);
        }
    Name wide_one = one_code(0x416);
    one_hint(&wide_one, true, false, (const uint8_t[]){0, 1, 2, 3}, true);
    one_hint(&wide_one, true, false, (const uint8_t[]){0x16, 0, 0, 0}, false);
}

/* In an li nothing stands beside an offset, and in an lh a hash: their bytes are no hints. */
static void t_other_lists(void)
{
    Made m = made(4096, 5);
    m.root = new_key(&m, "R", 0);
    uint32_t keys[] = {new_key(&m, "ab", m.root), new_key(&m, "cd", m.root)}, lists[] = {new_leaf(&m, "li", keys, 2), new_leaf(&m, "lh", keys, 2), new_leaf(&m, "lf", keys, 2)};
    hang_keys(&m, m.root, lists[0], 2);
    finish(&m);
    for (int i = 0; i < 3; i++) {
        put32(data_of(&m, m.root) + 28, lists[i]);
        says(&m, 0, 0, NO_KEY);
    }
    data_of(&m, lists[2])[1] = 'h'; /* the hints for hashes, and the hashes for hints */
    says(&m, 13, keys[0], keys[0]);
    put32(data_of(&m, m.root) + 28, lists[1]);
    data_of(&m, lists[1])[1] = 'f';
    says(&m, 13, keys[0], keys[0]);
    free(m.file);
}

static Made deep;
static HiveReport deep_report;

static void check_deep(void)
{
    deep_report = hive_check(deep.file, made_length(&deep), map, deep.bins / 64);
}

/* A chain of 513 keys, each listed below an ri, with 17 values each, and the last with 4,097. */
static void t_stack(void)
{
    enum { LEVELS = 513, EACH = 17, LAST = 4097 };
    deep = made(160 * 4096, 5);
    uint32_t key = deep.root = new_key(&deep, "R", 0);
    for (int level = 0; level < LEVELS; level++) {
        int count = level + 1 < LEVELS ? EACH : LAST;
        for (int i = 0; i < count; i++) {
            Name n = numbered((uint32_t)i);
            values[i] = value_called(&deep, &n, false);
        }
        hang_values(&deep, key, values, (size_t)count);
        if (level + 1 < LEVELS) {
            uint32_t below = new_key(&deep, "k", key), leaf = new_leaf(&deep, "lf", &below, 1);
            hang_keys(&deep, key, new_index(&deep, &leaf, 1), 1);
            key = below;
        }
    }
    finish(&deep);
    on_stack(384 << 10, check_deep);
    EXPECT(is(deep_report.answer, 0, 0) && deep_report.keys == LEVELS && deep_report.values == (LEVELS - 1) * EACH + LAST);
    rename_as(&deep, LAST - 1, 0);
    on_stack(384 << 10, check_deep);
    EXPECT(in(deep_report.answer, 29, values[LAST - 1], key));
    free(deep.file);
}

int main(void)
{
    map = malloc(1 << 20);
    if (map == NULL)
        abort();
    test("namesakes: names that are one and names that are two", t_names);
    test("namesakes: the lowest position answers", t_lowest);
    test("namesakes: positions and not cells", t_positions);
    test("namesakes: tables of every size", t_tables);
    test("namesakes: names of one hash", t_one_hash);
    test("namesakes: the order of faults", t_orders);
    test("hints: each bit of each byte", t_hints);
    test("hints: codes on both sides of 255", t_codes);
    test("hints: other lists", t_other_lists);
    test("namesakes: 513 levels on a stack of 384 KiB", t_stack);
    return counts();
}
