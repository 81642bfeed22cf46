/* The lookup that halves. In hives that are accepted: both lookups, of each subkey and of names before, between and behind them. In others: by its
   definition, of which there is a second reading here. */
#include <stdlib.h>
#include <string.h>

#include "fixtures.h"
#include "expect.h"
#include "lend.h"
#include "reading.h"
#include "wide.h"

/* A name that lies directly behind that of subkey i. */
static const char *after(size_t i)
{
    static char name[LONGEST_NAME];
    snprintf(name, sizeof name, "n%05zu!", i);
    return name;
}

static const uint16_t *units(const char *text, size_t *n)
{
    static uint16_t buffer[64];
    for (*n = 0; text[*n] != 0; ++*n)
        buffer[*n] = (uint8_t)text[*n];
    return buffer;
}

static HiveAnswer quick(const Made *m, const char *path)
{
    size_t n;
    const uint16_t *p = units(path, &n);
    return hive_quick_key(m->file, made_length(m), p, n);
}

static HiveAnswer in_turn(const Made *m, const char *path)
{
    size_t n;
    const uint16_t *p = units(path, &n);
    return hive_find_key(m->file, made_length(m), p, n);
}

static bool at(HiveAnswer a, uint32_t key)
{
    return a.number == 0 && a.place == 0 && a.key == NO_KEY && a.value == key;
}

static bool alike(HiveAnswer a, HiveAnswer b)
{
    return memcmp(&a, &b, sizeof a) == 0;
}

static HiveAnswer checked(const Made *m)
{
    uint8_t *map = malloc(m->bins / 64);
    if (map == NULL)
        abort();
    HiveAnswer a = hive_check(m->file, made_length(m), map, m->bins / 64).answer;
    free(map);
    return a;
}

/* Subkey i and the gap behind it by both lookups. */
static void both(const Made *m, size_t i)
{
    EXPECT(at(quick(m, name_of(i)), keys[i]) && at(in_turn(m, name_of(i)), keys[i]));
    EXPECT(in(quick(m, after(i)), 17, 0, m->root) && in(in_turn(m, after(i)), 17, 0, m->root));
}

static const size_t EACH[] = {0, 1, 2, 7, 507};
enum { LAYOUTS = sizeof EACH / sizeof EACH[0] };

static void t_each(void)
{
    static const size_t counts[] = {1, 2, 3, 15, 16, 17, 255, 256, 257};
    static const char *const kinds[] = {"??", "li", "lf", "lh"};
    for (size_t k = 0; k < sizeof counts / sizeof counts[0]; k++)
        for (size_t l = 0; l < LAYOUTS; l++) {
            Made m = wide(counts[k], EACH[l], kinds[counts[k] < 255 ? (k + l) % 4 : 0]);
            EXPECT(is(checked(&m), 0, 0));
            for (size_t i = 0; i < counts[k]; i++)
                both(&m, i);
            for (int i = 0; i < 3; i++) {
                const char *outside = (const char *[]){"a", "n", "o"}[i]; /* before the first, its beginning alone, behind the last */
                EXPECT(in(quick(&m, outside), 17, 0, m.root) && in(in_turn(&m, outside), 17, 0, m.root));
            }
            free(m.file);
        }
}

/* 65,535 subkeys: all of them by halving, and some by both. The other lookup reads up to all of them each time, so it is asked less in the layouts between. */
static void t_most(void)
{
    for (size_t l = 0; l < LAYOUTS; l++) {
        bool often = EACH[l] != 2 && EACH[l] != 7;
        Made m = wide(MOST, EACH[l], "??");
        EXPECT(is(checked(&m), 0, 0));
        for (size_t i = 0; i < MOST; i++)
            EXPECT(at(quick(&m, name_of(i)), keys[i]));
        for (size_t i = 0; i < MOST; i += often ? 4096 : 32768)
            both(&m, i);
        both(&m, MOST - 1);
        EXPECT(in(quick(&m, "n"), 17, 0, m.root) && in(quick(&m, "o"), 17, 0, m.root));
        free(m.file);
    }
}

/* One of 65,535 leaves that are all the same one, of 65,535 keys: asked in turn it would be read 65,535 times. */
static void t_trap(void)
{
    Made m = made(7000000 / 4096 * 4096, 5);
    m.root = new_key(&m, "R", 0);
    for (size_t i = 0; i < MOST; i++)
        keys[i] = new_key(&m, name_of(i), m.root);
    uint32_t leaf = new_leaf(&m, "li", keys, MOST);
    for (size_t i = 0; i < MOST; i++)
        leaves[i] = leaf;
    hang_keys(&m, m.root, new_index(&m, leaves, MOST), 1);
    finish(&m);
    EXPECT(in(checked(&m), 14, m.root, m.root));
    for (size_t i = 0; i < MOST; i += 1000)
        EXPECT(at(quick(&m, name_of(i)), keys[i]) && in(quick(&m, after(i)), 17, 0, m.root));
    EXPECT(in(quick(&m, "n"), 17, 0, m.root) && in(quick(&m, "o"), 17, 0, m.root));
    free(m.file);
}

/* ---- the definition, read once more */

typedef struct {
    enum { LEFT, RIGHT, STOP } turn;
    uint32_t number, at; /* where it stops: 0 at a key, 17, or a fault there */
} Turn;

static Turn stopped(uint32_t number, uint32_t offset)
{
    return (Turn){STOP, number, offset};
}

static int capital(int c)
{
    return c >= 'a' && c <= 'z' ? c - 32 : c;
}

/* Below 0 where the key's name stands before a name, above 0 behind it. */
static int order(const Made *m, uint32_t key, const char *name, size_t n)
{
    const uint8_t *d = data_of(m, key);
    size_t length = get16(d + 72);
    for (size_t i = 0; i < length && i < n; i++)
        if (capital(d[76 + i]) != capital((uint8_t)name[i]))
            return capital(d[76 + i]) - capital((uint8_t)name[i]);
    return length < n ? -1 : length > n;
}

/* A name, and the list among whose elements it is looked for. */
typedef struct {
    const Made *m;
    const char *name;
    size_t length;
    uint32_t list;
} Asked;

static Turn halve(size_t high, Turn (*ask)(const Asked *, uint32_t), const Asked *x)
{
    size_t low = 0;
    for (int turns = 16; turns > 0 && low < high; turns--) {
        size_t middle = low + (high - low) / 2;
        Turn t = ask(x, element(x->m, x->list, middle));
        if (t.turn == STOP)
            return t;
        if (t.turn == LEFT)
            high = middle;
        else
            low = middle + 1;
    }
    return stopped(17, 0);
}

static Turn ask_key(const Asked *x, uint32_t key)
{
    uint32_t fault = key_fault(x->m, key);
    if (fault != 0)
        return stopped(fault, key);
    int o = order(x->m, key, x->name, x->length);
    return o == 0 ? stopped(0, key) : (Turn){o < 0 ? RIGHT : LEFT, 0, 0};
}

static Turn ask_leaf(const Asked *x, uint32_t leaf)
{
    uint32_t fault = list_fault(x->m, leaf, false);
    if (fault != 0)
        return stopped(fault, leaf);
    size_t count = get16(data_of(x->m, leaf) + 2);
    uint32_t first = element(x->m, leaf, 0), last = element(x->m, leaf, count - 1);
    if ((fault = key_fault(x->m, first)) != 0)
        return stopped(fault, first);
    if (order(x->m, first, x->name, x->length) > 0)
        return (Turn){LEFT, 0, 0};
    if ((fault = key_fault(x->m, last)) != 0)
        return stopped(fault, last);
    if (order(x->m, last, x->name, x->length) < 0)
        return (Turn){RIGHT, 0, 0};
    return halve(count, ask_key, &(Asked){x->m, x->name, x->length, leaf});
}

/* A list that is a leaf is one leaf. */
static Turn below(const Made *m, uint32_t key, const char *name, size_t length)
{
    uint32_t list = get32(data_of(m, key) + 28);
    if (get32(data_of(m, key) + 20) == 0)
        return stopped(17, 0);
    uint32_t fault = list_fault(m, list, true);
    if (fault != 0)
        return stopped(fault, list);
    Asked x = {m, name, length, list};
    if (data_of(m, list)[0] == 'r')
        return halve(get16(data_of(m, list) + 2), ask_leaf, &x);
    Turn t = ask_leaf(&x, list);
    return t.turn == STOP ? t : stopped(17, 0);
}

/* The answer for a path, of a hive whose base block is sound. */
static HiveAnswer reading(const Made *m, const char *path)
{
    uint32_t key = m->root, fault = key_fault(m, key);
    if (fault != 0)
        return (HiveAnswer){fault, key, NO_KEY, 0};
    while (*path != 0) {
        const char *end = strchr(path, '\\');
        size_t n = end == NULL ? strlen(path) : (size_t)(end - path);
        Turn t = below(m, key, path, n);
        if (t.number != 0)
            return (HiveAnswer){t.number, t.at, key, 0};
        key = t.at;
        path += n + (path[n] != 0);
    }
    return (HiveAnswer){0, 0, NO_KEY, key};
}

/* ---- hives that are refused */

/* What one call says, the reading and the value calls agree with: those refuse as it does, or tell the first value of the key that it finds. */
static HiveAnswer agreed(const Made *m, const char *path)
{
    static const uint16_t name[] = {'V'};
    uint8_t out[64], before[64];
    size_t n, length = made_length(m);
    const uint16_t *p = units(path, &n);
    HiveAnswer k = quick(m, path);
    EXPECT(alike(k, reading(m, path)));
    memset(before, 0x5a, sizeof before);
    memset(out, 0x5a, sizeof out);
    HiveValue i = hive_quick_info(m->file, length, p, n, name, 1), v = hive_quick_view(m->file, length, p, n, name, 1);
    HiveCopy c = hive_quick_copy(m->file, length, p, n, name, 1, out, sizeof out);
    EXPECT(memcmp(&i, &v, sizeof i) == 0 && alike(i.answer, c.answer) && i.length == c.length);
    HiveMember first = hive_nth_value(m->file, length, k.value, 0);
    if (k.number != 0)
        EXPECT(alike(i.answer, k));
    else if (first.state == HIVE_NO_MORE)
        EXPECT(in(i.answer, 18, 0, k.value));
    else {
        HiveValue x = hive_value_at(m->file, length, first.answer.value);
        EXPECT(memcmp(&i, &x, sizeof i) == 0 && memcmp(out, m->file + x.at, x.length) == 0);
    }
    EXPECT(memcmp(out + i.length, before, sizeof out - i.length) == 0);
    return k;
}

static Made three(const char *const *names)
{
    Made m = made(4096, 5);
    m.root = new_key(&m, "R", 0);
    for (int i = 0; i < 3; i++)
        keys[i] = new_key(&m, names[i], m.root);
    hang_keys(&m, m.root, new_leaf(&m, "lh", keys, 3), 3);
    finish(&m);
    return m;
}

/* Out of order: what the first, the last and the middle name send away is missed. Two of one name: the one that is met. */
static void t_unsorted(void)
{
    Made m = three((const char *const[]){"b", "a", "c"});
    EXPECT(in(checked(&m), 13, keys[1], keys[1]));
    EXPECT(in(agreed(&m, "a"), 17, 0, m.root) && in(agreed(&m, "b"), 17, 0, m.root) && at(agreed(&m, "c"), keys[2]));
    EXPECT(at(in_turn(&m, "a"), keys[1]) && at(in_turn(&m, "b"), keys[0]));
    free(m.file);
    m = three((const char *const[]){"a", "A", "a"});
    EXPECT(at(agreed(&m, "a"), keys[1]) && at(in_turn(&m, "a"), keys[0]) && in(agreed(&m, "b"), 17, 0, m.root));
    free(m.file);
    m = three((const char *const[]){"c", "b", "a"});
    EXPECT(in(agreed(&m, "a"), 17, 0, m.root) && in(agreed(&m, "b"), 17, 0, m.root) && in(agreed(&m, "c"), 17, 0, m.root));
    free(m.file);
}

/* Leaves of two in a wrong order, and one that is named twice. */
static void t_leaves(void)
{
    Made m = wide(6, 2, "lf");
    uint8_t *index = data_of(&m, get32(data_of(&m, m.root) + 28));
    put32(index + 4, leaves[1]); /* 2 3, 2 3, 4 5 */
    EXPECT(in(checked(&m), 13, keys[2], keys[2]));
    EXPECT(in(agreed(&m, "n00000"), 17, 0, m.root) && at(agreed(&m, "n00002"), keys[2]) && at(agreed(&m, "n00005"), keys[5]));
    put32(index + 8, leaves[0]); /* 2 3, 0 1, 4 5 */
    EXPECT(at(agreed(&m, "n00001"), keys[1]) && in(agreed(&m, "n00003"), 17, 0, m.root) && at(in_turn(&m, "n00003"), keys[3]));
    put32(index + 8, leaves[2]);
    put32(index + 12, leaves[0]); /* 2 3, 4 5, 0 1 */
    EXPECT(in(agreed(&m, "n00000"), 17, 0, m.root) && at(agreed(&m, "n00003"), keys[3]) && at(agreed(&m, "n00004"), keys[4]));
    put32(index + 8, get32(data_of(&m, m.root) + 28)); /* the index in itself is no leaf */
    uint32_t self = get32(index + 8);
    EXPECT(in(agreed(&m, "n00000"), 12, self, m.root) && at(in_turn(&m, "n00003"), keys[3]) && in(in_turn(&m, "n00000"), 12, self, m.root));
    free(m.file);
}

/* The subkeys are three leaves of five below an index: a key or a leaf that is none, on the way to a name and off it. */
static void spoilt_at(uint32_t cell, uint32_t number, const char *path, HiveAnswer quickly, HiveAnswer one_by_one)
{
    Made m = wide(15, 5, "li");
    uint8_t *p = m.file + 4096 + cell;
    if (number == 11)
        put32(p, 0u - get32(p));
    else
        p[4] = 'x';
    EXPECT(alike(agreed(&m, path), quickly) && alike(in_turn(&m, path), one_by_one));
    free(m.file);
}

static void t_spoilt(void)
{
    Made m = wide(15, 5, "li");
    uint32_t list = get32(data_of(&m, m.root) + 28);
    free(m.file);
    for (uint32_t number = 11; number <= 12; number++) {
#define BAD(c) ((HiveAnswer){number, c, m.root, 0})
#define GOOD(i) ((HiveAnswer){0, 0, NO_KEY, keys[i]})
        spoilt_at(m.root, number, "n00000", (HiveAnswer){number, m.root, NO_KEY, 0}, (HiveAnswer){number, m.root, NO_KEY, 0});
        spoilt_at(list, number, "n00000", BAD(list), BAD(list));
        spoilt_at(leaves[1], number, "n00000", BAD(leaves[1]), GOOD(0)); /* the middle leaf is asked first */
        spoilt_at(leaves[0], number, "n00007", GOOD(7), BAD(leaves[0]));
        spoilt_at(leaves[2], number, "n00004", GOOD(4), GOOD(4));
        spoilt_at(keys[5], number, "n00000", BAD(keys[5]), GOOD(0)); /* the first of the middle leaf is always asked */
        spoilt_at(keys[9], number, "n00000", GOOD(0), GOOD(0));        /* its last only behind it */
        spoilt_at(keys[9], number, "n00014", BAD(keys[9]), BAD(keys[9]));
        spoilt_at(keys[7], number, "n00006", BAD(keys[7]), GOOD(6)); /* the middle one */
        spoilt_at(keys[6], number, "n00008", GOOD(8), BAD(keys[6]));
        spoilt_at(keys[3], number, "n00012", GOOD(12), BAD(keys[3]));
        spoilt_at(keys[13], number, "n00012", GOOD(12), GOOD(12));
        spoilt_at(keys[13], number, "n00013", BAD(keys[13]), BAD(keys[13]));
    }
}

/* Some subkeys in small leaves, each third with a subkey of its own, each second with a value. */
static Made small(size_t count, size_t each)
{
    Made m = made(4 * 4096, 5);
    m.root = new_key(&m, "R", 0);
    for (size_t i = 0; i < count; i++) {
        keys[i] = new_key(&m, name_of(i), m.root);
        if (i % 3 == 0) {
            uint32_t child = new_key(&m, "x", keys[i]);
            hang_keys(&m, keys[i], new_leaf(&m, "lf", &child, 1), 1);
        }
        if (i % 2 == 0) {
            uint32_t value = new_value(&m, "v", 3, (const uint8_t *)name_of(i), i % 4 == 0 ? 4 : 6);
            hang_values(&m, keys[i], &value, 1);
        }
    }
    hang_keys(&m, m.root, list_of(&m, count, each, "??"), (uint32_t)count);
    finish(&m);
    return m;
}

/* One change of an element of the index or of a leaf, or of the cell that it names. */
static void disorder(Made *m)
{
    uint32_t list = get32(data_of(m, m->root) + 28), some = list;
    if (data_of(m, list)[0] == 'r' && dice() % 4 != 0)
        some = leaves[dice() % get16(data_of(m, list) + 2)];
    uint8_t *d = data_of(m, some);
    size_t count = get16(d + 2), width = d[0] == 'r' || d[1] == 'i' ? 4 : 8;
    uint8_t *one = d + 4 + width * (dice() % count), *other = d + 4 + width * (dice() % count);
    uint32_t cell = get32(one);
    switch (dice() % 6) {
    case 0:
    case 1:
    case 2:
        put32(one, get32(other));
        put32(other, cell);
        break;
    case 3:
        put32(one, get32(other));
        break;
    case 4:
        put32(one, (uint32_t[]){0, 4, 32, 0xffffffff, (uint32_t)m->bins, keys[0]}[dice() % 6]);
        break;
    default:
        if (cell < m->bins && cell % 8 == 0)
            m->file[4096 + cell + (dice() % 2 == 0 ? 3 : 4)] ^= 0x80;
    }
}

static void t_disorder(void)
{
    static const size_t each[] = {0, 1, 2, 3, 5};
    int found = 0, missed = 0, faulty = 0;
    for (int round = 0; round < 1000; round++) {
        size_t count = 1 + dice() % 40;
        Made m = small(count, each[dice() % 5]), lent = m;
        for (uint32_t k = dice() % 6; k > 0; k--)
            disorder(&m);
        lent.file = lend(0, m.file, made_length(&m)); /* what lies behind it cannot be read */
        bool accepted = checked(&lent).number == 0;
        for (size_t i = 0; i < count; i++) {
            char path[LONGEST_NAME + 2];
            snprintf(path, sizeof path, "%s\\X", name_of(i));
            HiveAnswer a = agreed(&lent, name_of(i)), b = agreed(&lent, path), c = agreed(&lent, after(i));
            EXPECT(!accepted || (alike(a, in_turn(&lent, name_of(i))) && alike(b, in_turn(&lent, path)) && alike(c, in_turn(&lent, after(i)))));
            found += a.number == 0;
            missed += a.number == 17 && in_turn(&lent, name_of(i)).number == 0;
            faulty += a.number == 11 || a.number == 12;
        }
        free(m.file);
    }
    EXPECT(found > 1000 && missed > 1000 && faulty > 1000);
}

int main(void)
{
    test("halving: each subkey and each gap, up to 257", t_each);
    test("halving: 65,535 subkeys", t_most);
    test("halving: a leaf that is named 65,535 times", t_trap);
    test("halving: names out of order", t_unsorted);
    test("halving: leaves out of order", t_leaves);
    test("halving: a bad key or leaf, on the way and off it", t_spoilt);
    test("halving: lists in disorder, by its definition", t_disorder);
    return counts();
}
