/* A walk over all keys. In hives that are accepted: its events against those of the tree, by a recursion over the lists. In others, and from any words
   and depths: by its definition, of which there is a second reading here. */
#include <stdlib.h>
#include <string.h>

#include "fixtures.h"
#include "expect.h"
#include "lend.h"
#include "reading.h"
#include "wide.h"

enum { LEVELS = 513, ENOUGH = 3 * LEVELS, MANY = 60000, MOST_EVENTS = 2 * (MANY + 1) };

static bool alike(HiveWalk a, HiveWalk b)
{
    return memcmp(&a, &b, sizeof a) == 0;
}

/* ---- the definition, read once more */

static HiveWalk refused(uint32_t number, uint32_t place, uint32_t key, uint64_t depth)
{
    return (HiveWalk){{number, place, key, 0}, HIVE_REFUSED, depth, 0, 0, 0};
}

static HiveWalk opens(const Made *m, uint32_t key, uint64_t depth)
{
    const uint8_t *d = data_of(m, key);
    return (HiveWalk){{0, 0, NO_KEY, key}, HIVE_OPENS, depth, 4096 + (uint64_t)key + 80, get16(d + 72), (d[2] & 0x20) != 0};
}

static HiveWalk closes(uint32_t key, uint64_t depth)
{
    return (HiveWalk){{0, 0, NO_KEY, key}, HIVE_CLOSES, depth, 0, 0, 0};
}

static const HiveWalk OVER = {{0, 0, NO_KEY, 0}, HIVE_OVER, 0, 0, 0, 0};

/* The first step, of a hive whose base block is sound. */
static HiveWalk begun(const Made *m, uint32_t *words, size_t count)
{
    uint32_t fault = key_fault(m, m->root);
    if (fault != 0)
        return refused(fault, m->root, NO_KEY, 0);
    if (count < 3)
        return refused(20, 0, NO_KEY, 0);
    memcpy(words, (uint32_t[]){m->root, 0, 0}, 12);
    return opens(m, m->root, 1);
}

static HiveWalk stepped(const Made *m, uint32_t *words, size_t count, size_t depth)
{
    uint32_t place, fault;
    if (depth == 0)
        return OVER;
    if (count / 3 < depth)
        return refused(20, 0, NO_KEY, depth);
    uint32_t *of = words + 3 * (depth - 1), moved[3] = {of[0], of[1], of[2]};
    if ((fault = key_fault(m, of[0])) != 0)
        return refused(fault, of[0], NO_KEY, depth);
    fault = next_child(m, moved, &place);
    if (fault == NONE)
        return closes(of[0], depth - 1);
    if (fault != 0)
        return refused(fault, place, of[0], depth);
    if (depth >= LEVELS)
        return refused(15, place, place, depth);
    if (count / 3 < depth + 1)
        return refused(20, 0, of[0], depth);
    memcpy(of, moved, 12);
    memcpy(of + 3, (uint32_t[]){place, 0, 0}, 12);
    return opens(m, place, depth + 1);
}

/* ---- the events of a tree */

typedef struct {
    HiveWalk *at;
    size_t count;
} Events;

static void add(Events *e, HiveWalk w)
{
    if (e->count == MOST_EVENTS)
        abort();
    e->at[e->count++] = w;
}

/* "Opens k, the children's events joined, Closes k", of a key that lies below so many. */
static void events_of(const Made *m, uint32_t key, uint64_t above, Events *e)
{
    add(e, opens(m, key, above + 1));
    uint32_t list = get32(data_of(m, key) + 28);
    bool any = get32(data_of(m, key) + 20) != 0, index = any && data_of(m, list)[0] == 'r';
    for (size_t j = 0; any && j < (index ? get16(data_of(m, list) + 2) : 1); j++) {
        uint32_t leaf = index ? element(m, list, j) : list;
        for (size_t i = 0; i < get16(data_of(m, leaf) + 2); i++)
            events_of(m, element(m, leaf, i), above + 1, e);
    }
    add(e, closes(key, above));
}

static Events events(const Made *m)
{
    Events e = {calloc(MOST_EVENTS, sizeof(HiveWalk)), 0};
    if (e.at == NULL)
        abort();
    events_of(m, m->root, 0, &e);
    return e;
}

/* ---- walks */

static HiveReport checked(const Made *m)
{
    uint8_t *map = malloc(m->bins / 64);
    if (map == NULL)
        abort();
    HiveReport r = hive_check(m->file, made_length(m), map, m->bins / 64);
    free(map);
    return r;
}

/* All of it, with no word more than is enough, in memory that ends there. */
static void walks(const Made *m)
{
    Events e = events(m);
    uint32_t all[ENOUGH], *words = (uint32_t *)(void *)lend(1, memset(all, 0xa5, sizeof all), sizeof all);
    HiveReport r = checked(m);
    EXPECT(is(r.answer, 0, 0) && r.keys * 2 == e.count);
    HiveWalk w = hive_walk_begin(m->file, made_length(m), words, ENOUGH);
    for (size_t n = 0; n < e.count; n++) {
        EXPECT(alike(w, e.at[n]));
        w = hive_walk_step(m->file, made_length(m), words, ENOUGH, w.depth);
    }
    for (int again = 0; again < 2; again++) {
        EXPECT(alike(w, OVER));
        w = hive_walk_step(m->file, made_length(m), words, ENOUGH, w.depth);
    }
    free(e.at);
}

/* A root, and so many keys each below the other: keys[0] is the root. */
static Made chain(size_t levels)
{
    Made m = made((256 + 112 * levels + 4095) / 4096 * 4096 + 4096, 5);
    keys[0] = m.root = new_key(&m, "R", 0);
    for (size_t i = 1; i <= levels; i++) {
        keys[i] = new_key(&m, name_of(i), keys[i - 1]);
        hang_keys(&m, keys[i - 1], new_leaf(&m, (const char *[]){"li", "lf", "lh"}[i % 3], keys + i, 1), 1);
    }
    finish(&m);
    return m;
}

static void t_minimal(void)
{
    Made m = made(4096, 5);
    uint32_t words[5] = {9, 9, 9, 9, 9};
    m.root = new_key(&m, "R", 0);
    finish(&m);
    HiveWalk w = hive_walk_begin(m.file, made_length(&m), words, 5);
    EXPECT(alike(w, (HiveWalk){{0, 0, NO_KEY, 32}, HIVE_OPENS, 1, 4096 + 112, 1, 1}) && memcmp(words, (uint32_t[]){32, 0, 0, 9, 9}, 20) == 0);
    w = hive_walk_step(m.file, made_length(&m), words, 5, 1);
    EXPECT(alike(w, (HiveWalk){{0, 0, NO_KEY, 32}, HIVE_CLOSES, 0, 0, 0, 0}) && memcmp(words, (uint32_t[]){32, 0, 0, 9, 9}, 20) == 0);
    w = hive_walk_step(m.file, made_length(&m), words, 5, 0);
    EXPECT(alike(w, OVER) && memcmp(words, (uint32_t[]){32, 0, 0, 9, 9}, 20) == 0);
    EXPECT(alike(hive_walk_step(m.file, made_length(&m), NULL, 0, 0), OVER));
    walks(&m);
    free(m.file);
}

/* Each level down to 512; and one more, which the check and the walk refuse with 15 there. */
static void t_chains(void)
{
    uint32_t words[ENOUGH + 3];
    for (size_t levels = 0; levels <= 512; levels += levels < 4 ? 1 : 127) {
        Made m = chain(levels);
        walks(&m);
        free(m.file);
    }
    Made m = chain(513);
    EXPECT(in(checked(&m).answer, 15, keys[513], keys[513]));
    for (size_t count = ENOUGH; count <= ENOUGH + 3; count += 3) {
        HiveWalk w = hive_walk_begin(m.file, made_length(&m), words, count);
        for (uint32_t n = 1; n <= 512; n++) {
            w = hive_walk_step(m.file, made_length(&m), words, count, w.depth);
            EXPECT(alike(w, opens(&m, keys[n], n + 1)));
        }
        EXPECT(alike(hive_walk_step(m.file, made_length(&m), words, count, w.depth), refused(15, keys[513], keys[513], 513)));
    }
    free(m.file);
}

static void t_wide(void)
{
    static const struct {
        size_t count, each;
        const char *kind;
    } some[] = {{MANY, 507, "lh"}, {MANY, 0, "li"}, {MANY, 1, "lf"}, {300, 1, "li"}, {300, 1, "??"}, {300, 7, "??"}, {300, 100, "li"}, {300, 100, "lf"}, {300, 100, "lh"}, {1, 0, "lh"}, {2, 1, "??"}, {2, 2, "lf"}};
    for (size_t i = 0; i < sizeof some / sizeof some[0]; i++) {
        Made m = wide(some[i].count, some[i].each, some[i].kind);
        walks(&m);
        free(m.file);
    }
    Made m = sample();
    walks(&m);
    free(m.file);
}

/* A cursor that is too short: for the root, and for the child that comes. What is there stays. */
static void t_short(void)
{
    uint32_t words[ENOUGH], before[ENOUGH];
    Made m = chain(512);
    for (size_t count = 0; count < 3; count++) {
        memset(words, 0x77, sizeof words);
        memset(before, 0x77, sizeof before);
        EXPECT(alike(hive_walk_begin(m.file, made_length(&m), count == 0 ? NULL : words, count), refused(20, 0, NO_KEY, 0)));
        for (size_t depth = 1; depth < 5; depth++)
            EXPECT(alike(hive_walk_step(m.file, made_length(&m), words, count, depth), refused(20, 0, NO_KEY, depth)));
        EXPECT(memcmp(words, before, sizeof words) == 0);
    }
    for (size_t i = 0; i < 4; i++) {
        size_t count = (size_t[]){3, 5, 8, ENOUGH - 1}[i], room = count / 3;
        HiveWalk w = hive_walk_begin(m.file, made_length(&m), words, count);
        for (size_t n = 1; n < room; n++)
            w = hive_walk_step(m.file, made_length(&m), words, count, w.depth);
        memcpy(before, words, sizeof words);
        EXPECT(w.state == HIVE_OPENS && w.depth == room && w.answer.value == keys[room - 1]);
        EXPECT(alike(hive_walk_step(m.file, made_length(&m), words, count, room), refused(20, 0, keys[room - 1], room)));
        for (size_t j = 0; j < 4; j++) {
            size_t depth = (size_t[]){room + 1, 1 << 20, (size_t)1 << 63, (size_t)-1}[j];
            EXPECT(alike(hive_walk_step(m.file, made_length(&m), words, count, depth), refused(20, 0, NO_KEY, depth)));
        }
        EXPECT(memcmp(words, before, sizeof words) == 0);
    }
    free(m.file);
}

/* From each event on: a copy of the words and the depth give the rest. And what is below one key, without its siblings. */
static void t_resumed(void)
{
    Made m = sample();
    Events e = events(&m);
    uint32_t words[ENOUGH] = {0}, copy[ENOUGH];
    HiveWalk w = hive_walk_begin(m.file, made_length(&m), words, ENOUGH);
    for (size_t n = 0; n < e.count; n++) {
        memcpy(copy, words, sizeof words);
        HiveWalk v = w;
        for (size_t k = n; k < e.count; k++) {
            EXPECT(alike(v, e.at[k]));
            v = hive_walk_step(m.file, made_length(&m), copy, ENOUGH, v.depth);
        }
        EXPECT(alike(v, OVER));
        if (e.at[n].state == HIVE_OPENS) {
            memcpy(copy, (uint32_t[]){w.answer.value, 0, 0}, 12);
            v = hive_walk_step(m.file, made_length(&m), copy, ENOUGH, 1);
            for (size_t k = n + 1; v.state != HIVE_OVER; k++) {
                EXPECT(v.state == e.at[k].state && v.answer.value == e.at[k].answer.value && v.depth + w.depth - 1 == e.at[k].depth);
                v = hive_walk_step(m.file, made_length(&m), copy, ENOUGH, v.depth);
            }
        }
        w = hive_walk_step(m.file, made_length(&m), words, ENOUGH, w.depth);
    }
    free(e.at);
    free(m.file);
}

/* ---- any words, any depth, any hive */

/* Three levels: each third key has two subkeys, in a leaf or in two below an index. */
static Made small(size_t count, size_t each)
{
    static const char *const kinds[] = {"li", "lf", "lh"};
    Made m = made(4 * 4096, 5);
    m.root = new_key(&m, "R", 0);
    for (size_t i = 0; i < count; i++) {
        keys[i] = new_key(&m, name_of(i), m.root);
        if (i % 5 == 2 && count % 2 == 0)
            data_of(&m, keys[i])[2] = 0; /* its name is three UTF-16 units, out of order */
        if (i % 3 == 0) {
            uint32_t below[] = {new_key(&m, "x", keys[i]), new_key(&m, "y", keys[i])}, two[2];
            for (int j = 0; j < 2; j++)
                two[j] = new_leaf(&m, kinds[(i + (size_t)j) % 3], below + j, 1);
            hang_keys(&m, keys[i], i % 2 == 0 ? new_leaf(&m, kinds[i % 3], below, 2) : new_index(&m, two, 2), 2);
        }
    }
    hang_keys(&m, m.root, list_of(&m, count, each, "??"), (uint32_t)count);
    finish(&m);
    return m;
}

/* One change, the list of the root being given: an element of it or of its first leaf, a count, a size or a signature; or any byte of the bins. */
static void disorder(Made *m, uint32_t list, size_t count)
{
    uint32_t some = data_of(m, list)[0] == 'r' && dice() % 4 != 0 ? leaves[0] : list, key = keys[dice() % count];
    uint8_t *d = data_of(m, some), *one = d + 4 + (d[0] == 'r' || d[1] == 'i' ? 4 : 8) * (dice() % 2);
    switch (dice() % 6) {
    case 0:
        put32(one, (uint32_t[]){0, 4, 32, 0xffffffff, (uint32_t)m->bins, key}[dice() % 6]);
        break;
    case 1:
        put16(data_of(m, (uint32_t[]){some, list}[dice() % 2]) + 2, (uint32_t[]){0, 1, 2, 0xffff}[dice() % 4]);
        break;
    case 2:
        m->file[4096 + (uint32_t[]){some, list, key}[dice() % 3] + (dice() % 2 == 0 ? 3 : 4)] ^= 0x80;
        break;
    case 3:
        put32(data_of(m, key) + (dice() % 2 == 0 ? 20 : 28), (uint32_t[]){0, 1, list, key}[dice() % 4]);
        break;
    case 4:
        put16(data_of(m, key) + 72, (uint32_t[]){0, 1, 7, 255, 256, 510, 0xffff}[dice() % 7]);
        break;
    default:
        m->file[4096 + 32 + dice() % (m->next - 32)] ^= (uint8_t)(1 << dice() % 8);
    }
}

/* A walk of a hive, so many steps at most, by the call and by the reading; and the words after each step. Answers how it ends. */
static HiveWalk both(const Made *m, size_t count, size_t most)
{
    uint32_t all[ENOUGH] = {0}, read[ENOUGH] = {0}, *words = (uint32_t *)(void *)lend(1, all, 4 * count);
    HiveWalk w = hive_walk_begin(m->file, made_length(m), words, count), v = begun(m, read, count);
    for (size_t n = 0; n < most && alike(w, v) && (w.state == HIVE_OPENS || w.state == HIVE_CLOSES); n++) {
        size_t depth = w.depth;
        w = hive_walk_step(m->file, made_length(m), words, count, depth);
        v = stepped(m, read, count, depth);
        EXPECT(memcmp(words, read, 4 * count) == 0);
    }
    EXPECT(alike(w, v));
    return w;
}

/* Words as no walk leaves them: offsets of keys and of anything, small numbers and large ones. */
static void any_words(const Made *m, size_t of)
{
    uint32_t all[12], read[12], *words;
    size_t count = dice() % 13, depth = dice() % 16 == 0 ? (size_t)-1 - dice() % 5 : dice() % 5;
    for (size_t i = 0; i < count; i++)
        all[i] = dice() % 4 == 0 ? (dice() % 2 == 0 ? dice() % (uint32_t)m->bins : dice()) : i % 3 == 0 ? keys[dice() % of] : dice() % 3;
    memcpy(read, all, 4 * count);
    words = (uint32_t *)(void *)lend(1, all, 4 * count);
    EXPECT(alike(hive_walk_step(m->file, made_length(m), words, count, depth), stepped(m, read, count, depth)));
    EXPECT(memcmp(words, read, 4 * count) == 0);
    EXPECT(alike(hive_walk_begin(m->file, made_length(m), words, count), begun(m, read, count)) && memcmp(words, read, 4 * count) == 0);
}

static void t_any(void)
{
    static const size_t each[] = {0, 1, 2, 3, 5};
    int over = 0, faulty = 0, deep = 0;
    for (int round = 0; round < 1000; round++) {
        size_t count = 1 + dice() % 30;
        Made m = small(count, each[dice() % 5]), lent = m;
        uint32_t list = get32(data_of(&m, m.root) + 28);
        for (uint32_t k = dice() % 4; k > 0; k--)
            disorder(&m, list, count);
        lent.file = lend(0, m.file, made_length(&m)); /* what lies behind it cannot be read */
        if (checked(&lent).answer.number == 0)
            walks(&lent);
        HiveWalk w = both(&lent, ENOUGH, 2000);
        over += w.state == HIVE_OVER;
        faulty += w.answer.number == 11 || w.answer.number == 12;
        deep += w.answer.number == 15;
        both(&lent, 3 + dice() % 8, 2000);
        for (int k = 0; k < 20; k++)
            any_words(&lent, count);
        free(m.file);
    }
    EXPECT(over > 100 && faulty > 100 && deep > 0);
}

/* A key that lists itself opens until there are 513. Where each of twelve keys lists the next one twice, the last opens 2^12 times. */
static void t_refused(void)
{
    Made m = made(4096, 5);
    m.root = new_key(&m, "R", 0);
    uint32_t list = new_leaf(&m, "li", &m.root, 1);
    finish(&m);
    hang_keys(&m, m.root, list, 1);
    EXPECT(in(checked(&m).answer, 14, m.root, m.root) && alike(both(&m, ENOUGH, 2000), refused(15, m.root, m.root, 513)));
    free(m.file);

    enum { DOUBLED = 12 };
    m = made(2 * 4096, 5);
    for (size_t i = 0; i <= DOUBLED; i++)
        keys[i] = new_key(&m, name_of(i), i == 0 ? 0 : keys[i - 1]);
    m.root = keys[0];
    for (size_t i = 0; i < DOUBLED; i++)
        hang_keys(&m, keys[i], new_leaf(&m, "li", (uint32_t[]){keys[i + 1], keys[i + 1]}, 2), 2);
    finish(&m);
    EXPECT(checked(&m).answer.number == 13 && alike(both(&m, ENOUGH, (size_t)4 << DOUBLED), OVER));
    uint32_t words[ENOUGH];
    size_t opened = 0;
    for (HiveWalk w = hive_walk_begin(m.file, made_length(&m), words, ENOUGH); w.state != HIVE_OVER; w = hive_walk_step(m.file, made_length(&m), words, ENOUGH, w.depth))
        opened += w.state == HIVE_OPENS;
    EXPECT(opened == ((size_t)2 << DOUBLED) - 1);
    free(m.file);
}

/* The base block is tested at each step, before the depth and the words. */
static void t_base(void)
{
    Made m = sample();
    uint32_t words[] = {m.root, 0, 0, 0, 0, 0}, before[6];
    memcpy(before, words, sizeof words);
    size_t n = made_length(&m);
    for (size_t depth = 0; depth < 4; depth++) {
        EXPECT(alike(hive_walk_step(m.file, 4095, words, 6, depth), refused(1, 0, NO_KEY, depth)));
        EXPECT(alike(hive_walk_step(m.file, n - 1, words, 6, depth), refused(6, 0, NO_KEY, depth)));
        m.file[0] ^= 1;
        EXPECT(alike(hive_walk_step(m.file, n, words, 6, depth), refused(2, 0, NO_KEY, depth)));
        m.file[0] ^= 1;
        m.file[508] ^= 1;
        EXPECT(alike(hive_walk_step(m.file, n, words, 6, depth), refused(3, 0, NO_KEY, depth)));
        m.file[508] ^= 1;
        put32(m.file + 4, 8);
        reseal(m.file);
        EXPECT(alike(hive_walk_step(m.file, n, words, 6, depth), refused(7, 0, NO_KEY, depth)) && alike(hive_walk_begin(m.file, n, words, depth), refused(7, 0, NO_KEY, 0)));
        put32(m.file + 4, 7);
        reseal(m.file);
    }
    EXPECT(memcmp(words, before, sizeof words) == 0);
    free(m.file);
}

int main(void)
{
    test("walk: the minimal hive", t_minimal);
    test("walk: chains to level 512, and 513", t_chains);
    test("walk: 60,000 siblings, leaves of one, an ri of every kind", t_wide);
    test("walk: a cursor of 0, 2, 3 and 1,538 words", t_short);
    test("walk: gone on with from a copy, and below a key", t_resumed);
    test("walk: any words, any depth, any hive, by its definition", t_any);
    test("walk: a loop, and keys that are listed twice", t_refused);
    test("walk: the base block at each step", t_base);
    return counts();
}
