/* Every export: nothing lent, short and random input, each refusal, and the data it gives. What is lent ends at an unreadable page. */
#include <stdlib.h>
#include <string.h>

#include "fixtures.h"
#include "expect.h"
#include "lend.h"

static size_t units(const char *text, uint16_t *out)
{
    size_t n = 0;
    while (text[n] != 0) {
        out[n] = (uint8_t)text[n];
        n++;
    }
    return n;
}

static const uint16_t *lend_units(int slot, const char *text, size_t *n)
{
    static uint16_t buffer[4096];
    *n = units(text, buffer);
    return (const uint16_t *)lend(slot, buffer, 2 * *n);
}

static HiveAnswer checked(const uint8_t *file, size_t length)
{
    static uint8_t map[ROOM];
    memset(map, 0xa5, sizeof map);
    uint8_t *h = lend(0, file, length), *m = lend(1, map, length / 64);
    HiveReport r = hive_check(h, length, m, length / 64);
    EXPECT(memcmp(h, file, length) == 0);
    EXPECT(r.answer.value == 0);
    if (r.answer.number <= 10 || (r.answer.number >= 13 && r.answer.number <= 15))
        EXPECT(r.answer.key == (r.answer.number <= 10 ? NO_KEY : r.answer.place));
    if (r.answer.number == 28)
        EXPECT(r.answer.key == r.answer.place || r.answer.key == get32(file + 36));
    EXPECT(r.answer.number == 0 || r.bins + r.keys + r.values + r.used + r.free == 0);
    if (r.answer.number >= 1 && r.answer.number <= 8)
        EXPECT(memcmp(m, map, length / 64) == 0);
    return r.answer;
}

static bool alike(HiveAnswer a, HiveAnswer b)
{
    return memcmp(&a, &b, sizeof a) == 0;
}

/* By both lookups, which may only differ where the check refuses. */
static HiveAnswer found(const uint8_t *file, size_t length, const char *path)
{
    size_t n;
    const uint16_t *p = lend_units(2, path, &n);
    const uint8_t *h = lend(0, file, length);
    HiveAnswer a = hive_find_key(h, length, p, n), b = hive_quick_key(h, length, p, n);
    EXPECT(alike(a, b) || checked(file, length).number != 0);
    return a;
}

/* The value calls of the lookup that halves, wherever it ends at the same key or with the same refusal: as the others answer, info and view, and what a copy left in `o`. */
static void quickly(const uint8_t *h, size_t length, const uint16_t *p, size_t n, const uint16_t *x, size_t k, HiveValue v, HiveValue w, const uint8_t *o,
                    size_t room)
{
    static uint8_t out[ROOM];
    HiveAnswer key = hive_quick_key(h, length, p, n);
    if (!alike(key, hive_find_key(h, length, p, n)))
        return;
    HiveValue quick_v = hive_quick_info(h, length, p, n, x, k), quick_w = hive_quick_view(h, length, p, n, x, k);
    EXPECT(memcmp(&v, &quick_v, sizeof v) == 0 && memcmp(&w, &quick_w, sizeof w) == 0);
    memset(out, 0x5a, room);
    HiveCopy c = hive_quick_copy(h, length, p, n, x, k, out, room);
    EXPECT(alike(c.answer, v.answer) && c.length == v.length && memcmp(out, o, room) == 0);
    if (v.length > 0)
        EXPECT(in(hive_quick_copy(h, length, p, n, x, k, out, v.length - 1).answer, 20, 0, key.value) && memcmp(out, o, room) == 0);
}

/* value_info, value_view and value_copy, which must agree. */
static HiveValue asked(const uint8_t *file, size_t length, const char *path, const char *name, uint8_t *data)
{
    static uint8_t before[ROOM];
    static uint16_t name_buffer[64];
    size_t n, k = units(name, name_buffer);
    const uint16_t *p = lend_units(2, path, &n);
    const uint16_t *x = (const uint16_t *)lend(3, name_buffer, 2 * k);
    const uint8_t *h = lend(0, file, length);
    HiveValue v = hive_value_info(h, length, p, n, x, k), w = hive_value_view(h, length, p, n, x, k);
    memset(before, 0x5a, sizeof before);
    size_t room = v.answer.number == 0 ? v.length : 16;
    uint8_t *o = lend(1, before, room);
    HiveCopy c = hive_value_copy(h, length, p, n, x, k, o, room);
    EXPECT(memcmp(&c.answer, &v.answer, sizeof v.answer) == 0 && c.length == (v.answer.number == 0 ? v.length : 0));
    quickly(h, length, p, n, x, k, v, w, o, room);
    if (v.answer.number != 0)
        EXPECT(memcmp(o, before, room) == 0 && v.kind + v.form + v.at + v.length == 0);
    else {
        memcpy(data, o, v.length);
        uint32_t key = hive_find_key(h, length, p, n).value;
        EXPECT(v.form == 3 ? w.answer.number == 19 && w.answer.key == key : memcmp(&v, &w, sizeof v) == 0);
        EXPECT(v.form == 3 || memcmp(h + v.at, data, v.length) == 0);
        if (v.length > 0) {
            o = lend(1, before, v.length - 1);
            c = hive_value_copy(h, length, p, n, x, k, o, v.length - 1);
            EXPECT(in(c.answer, 20, 0, key) && c.length == 0 && memcmp(o, before, v.length - 1) == 0);
            EXPECT(in(hive_value_copy(h, length, p, n, x, k, NULL, 0).answer, 20, 0, key));
        }
    }
    return v;
}

/* A member as it must be: refused or at the end it says nothing, and a name lies in the file. */
static HiveMember sound(HiveMember m, size_t length)
{
    EXPECT(m.state == HIVE_REFUSED ? m.answer.number != 0 : m.answer.number == 0 && m.answer.key == NO_KEY);
    EXPECT((m.state == HIVE_REFUSED || m.state == HIVE_NO_MORE || m.state == HIVE_THERE) && m.narrow <= 1);
    EXPECT(m.state == HIVE_THERE ? m.name + m.length <= length : m.answer.value + m.name + m.length + m.narrow == 0);
    return m;
}

/* hive_value_at and hive_copy_at of one value, which must agree. A copy without room for it, and a refused one, leave the output. */
static HiveAnswer value_at(const uint8_t *h, size_t length, uint32_t value)
{
    static uint8_t before[ROOM];
    HiveValue v = hive_value_at(h, length, value);
    size_t room = v.answer.number == 0 ? v.length : 16;
    memset(before, 0x5a, room);
    uint8_t *o = lend(1, before, room);
    HiveCopy c = hive_copy_at(h, length, value, o, room);
    EXPECT(memcmp(&c.answer, &v.answer, sizeof v.answer) == 0 && c.length == (v.answer.number == 0 ? v.length : 0));
    EXPECT(v.answer.number == 0 ? v.form == HIVE_SEGMENTS || memcmp(o, h + v.at, v.length) == 0 : memcmp(o, before, room) == 0);
    if (v.answer.number == 0 && v.length > 0) {
        o = lend(1, before, v.length - 1);
        EXPECT(is(hive_copy_at(h, length, value, o, v.length - 1).answer, HIVE_FAULT_OUTPUT_SHORT, 0) && memcmp(o, before, v.length - 1) == 0);
    }
    return v.answer;
}

/* What a key's record says: its name lies in the file, and a refusal says nothing. */
static HiveKey key_at(const uint8_t *h, size_t length, uint32_t key)
{
    HiveKey k = hive_key_at(h, length, key);
    EXPECT(k.answer.key == NO_KEY && k.narrow <= 1 && k.name + k.length <= length && k.answer.value == (k.answer.number == 0 ? key : 0));
    EXPECT(k.answer.number == 0 || k.written + k.parent + k.subkeys + k.values + k.name + k.length + k.narrow == 0);
    return k;
}

/* All subkeys and values of a key, and below the keys all of theirs, to some depth. How many there are of both. */
static size_t members(const uint8_t *h, size_t length, uint32_t key, int depth)
{
    size_t count = 0, n;
    HiveMember m;
    for (n = 0; n < 100 && (m = sound(hive_nth_subkey(h, length, key, n), length)).state == HIVE_THERE; n++)
        count += 1 + (depth > 0 ? members(h, length, m.answer.value, depth - 1) : 0);
    for (n = 0; n < 100 && (m = sound(hive_nth_value(h, length, key, n), length)).state == HIVE_THERE; n++)
        count += value_at(h, length, m.answer.value).key == NO_KEY;
    key_at(h, length, key);
    return count;
}

static void t_nothing(void)
{
    EXPECT(hive_abi() == 3);
    EXPECT(is(hive_check(NULL, 0, NULL, 0).answer, 1, 0));
    EXPECT(is(hive_find_key(NULL, 0, NULL, 0), 1, 0));
    EXPECT(is(hive_value_info(NULL, 0, NULL, 0, NULL, 0).answer, 1, 0));
    EXPECT(is(hive_value_view(NULL, 0, NULL, 0, NULL, 0).answer, 1, 0));
    EXPECT(is(hive_value_copy(NULL, 0, NULL, 0, NULL, 0, NULL, 0).answer, 1, 0));
    EXPECT(is(hive_quick_key(NULL, 0, NULL, 0), 1, 0));
    EXPECT(is(hive_quick_info(NULL, 0, NULL, 0, NULL, 0).answer, 1, 0));
    EXPECT(is(hive_quick_view(NULL, 0, NULL, 0, NULL, 0).answer, 1, 0));
    EXPECT(is(hive_quick_copy(NULL, 0, NULL, 0, NULL, 0, NULL, 0).answer, 1, 0));
    EXPECT(is(hive_nth_subkey(NULL, 0, 32, 0).answer, 1, 0));
    EXPECT(is(hive_nth_value(NULL, 0, 32, 0).answer, 1, 0));
    EXPECT(is(hive_value_at(NULL, 0, 32).answer, 1, 0));
    EXPECT(is(hive_copy_at(NULL, 0, 32, NULL, 0).answer, 1, 0));
    EXPECT(is(hive_key_at(NULL, 0, 32).answer, 1, 0));
    EXPECT(is(hive_next_remnant(NULL, 0, 0).answer, 1, 0));
    EXPECT(is(hive_remnants(NULL, 0, 0, NULL, 0).answer, 1, 0));
    EXPECT(is(hive_recover_start(NULL, 0, NULL, 0).answer, 1, 0));
    EXPECT(is(hive_recover_page(NULL, 0, NULL, 0, 0).answer, 1, 0));
    EXPECT(is(hive_recover_close(NULL, 0, NULL, 0).answer, 1, 0));
    EXPECT(is(hive_recover_next(NULL, 0, 0).answer, 21, 0));
    EXPECT(is(hive_recover_all(NULL, 0, NULL, 0).answer, 1, 0));
    EXPECT(is(hive_recover_mark(NULL, 0, 0).answer, 21, 0));
    EXPECT(is(hive_recover_mark_pages(NULL, 0, NULL, 0).answer, 21, 0));
    EXPECT(is(hive_recover_log(NULL, 0).answer, 21, 0));
    Made m = sample();
    size_t n = made_length(&m);
    EXPECT(is(hive_check(m.file, n, NULL, 0).answer, 8, 0));
    EXPECT(hive_find_key(m.file, n, NULL, 0).value == m.root && hive_quick_key(m.file, n, NULL, 0).value == m.root);
    EXPECT(in(hive_value_info(m.file, n, NULL, 0, NULL, 0).answer, 18, 0, m.root));
    EXPECT(hive_next_remnant(m.file, n, 0).state == HIVE_NO_MORE && hive_remnants(m.file, n, 0, NULL, 0).state == HIVE_NO_MORE);
    EXPECT(hive_recover_start(m.file, n, NULL, 0).state == HIVE_CLEAN);
    EXPECT(hive_recover_page(m.file, n, NULL, 0, 3).state == HIVE_CLEAN && hive_recover_close(m.file, n, NULL, 0).state == HIVE_CLEAN);
    EXPECT(hive_recover_all(m.file, n, NULL, 0).state == HIVE_CLEAN);
}

/* All calls on one file, taken for hive and log, path and name. */
static void all_calls(const uint8_t *bytes, size_t length)
{
    checked(bytes, length);
    uint8_t *h = lend(0, bytes, length), *l = lend(1, bytes, length);
    const uint16_t *p = (const uint16_t *)lend(2, bytes, length / 2 * 2);
    EXPECT(hive_find_key(h, length, p, length / 2).key == NO_KEY);
    EXPECT(hive_value_info(h, length, p, length / 2, p, length / 2).answer.key == NO_KEY);
    EXPECT(hive_value_view(h, length, NULL, 0, p, length / 2).answer.key == NO_KEY);
    EXPECT(hive_value_copy(h, length, NULL, 0, p, length / 2, l, length).answer.key == NO_KEY);
    EXPECT(hive_quick_key(h, length, p, length / 2).key == NO_KEY);
    EXPECT(hive_quick_info(h, length, p, length / 2, p, length / 2).answer.key == NO_KEY);
    EXPECT(hive_quick_view(h, length, NULL, 0, p, length / 2).answer.key == NO_KEY);
    EXPECT(hive_quick_copy(h, length, NULL, 0, p, length / 2, l, length).answer.key == NO_KEY);
    for (uint32_t at = 0; at < 3; at++) {
        EXPECT(hive_nth_subkey(h, length, 32 + 0x7fffffffu * at, at).answer.key == NO_KEY);
        EXPECT(hive_nth_value(h, length, 32 + 0x7fffffffu * at, at).answer.key == NO_KEY);
        EXPECT(hive_value_at(h, length, 32 + 0x7fffffffu * at).answer.key == NO_KEY);
        EXPECT(hive_copy_at(h, length, 32 + 0x7fffffffu * at, l, length).answer.key == NO_KEY);
        key_at(h, length, 32 + 0x7fffffffu * at);
    }
    EXPECT(hive_next_remnant(h, length, length / 2).answer.key == NO_KEY);
    EXPECT(hive_remnants(h, length, length / 2, (uint32_t *)lend(3, bytes, length / 4 * 4), length / 4).answer.key == NO_KEY);
    EXPECT(hive_recover_start(h, length, l, length).answer.key == NO_KEY);
    EXPECT(hive_recover_next(l, length, 0).answer.key == NO_KEY);
    EXPECT(hive_recover_mark(l, length, 0).answer.key == NO_KEY);
    EXPECT(hive_recover_mark_pages(h, length, l, length).answer.key == NO_KEY);
    EXPECT(hive_recover_log(h, length).answer.key == NO_KEY);
    l = lend(1, bytes, length);
    EXPECT(hive_recover_all(h, length, l, length).answer.key == NO_KEY);
    for (size_t page = 0; page < 3; page++)
        EXPECT(hive_recover_page(h, length, l, length, page * 0x7fffffffffffffffu).answer.key == NO_KEY);
    EXPECT(hive_recover_close(h, length, l, length).answer.key == NO_KEY);
    if (length < 4096)
        EXPECT(memcmp(h, bytes, length) == 0 && is(hive_recover_start(h, length, l, length).answer, 1, 0));
}

static void t_short(void)
{
    static uint8_t other[600];
    Made m = sample();
    for (size_t n = 0; n <= 600; n++) {
        all_calls(m.file, n);
        memset(other, 0xff, sizeof other);
        all_calls(other, n);
        memset(other, 0, sizeof other);
        all_calls(other, n);
    }
    for (size_t n = 4000; n <= 4200; n++) {
        all_calls(m.file, n);
        EXPECT(is(checked(m.file, n), n < 4096 ? 1 : 6, 0));
    }
}

static uint64_t seed = 88172645463325252;

static uint32_t dice(void)
{
    seed ^= seed << 13;
    seed ^= seed >> 7;
    seed ^= seed << 17;
    return (uint32_t)(seed >> 32);
}

static void t_random(void)
{
    static uint8_t bytes[3 * 4096];
    for (int round = 0; round < 2000; round++) {
        size_t n = dice() % (sizeof bytes + 1);
        for (size_t i = 0; i < n; i++)
            bytes[i] = (uint8_t)dice();
        if (n >= 512 && round % 2 == 0) {
            memcpy(bytes, "regf", 4);
            reseal(bytes);
        }
        all_calls(bytes, n);
    }
}

/* A good hive with a few bytes changed, the base block sealed again: whatever is answered, nothing is read outside. */
static void t_changed(void)
{
    static uint8_t data[ROOM];
    Made m = sample();
    size_t n = made_length(&m);
    uint8_t *file = malloc(n);
    int refused = 0;
    for (int round = 0; round < 20000; round++) {
        memcpy(file, m.file, n);
        for (int k = dice() % 4; k >= 0; k--) {
            size_t at = dice() % 4 == 0 ? dice() % 4096 : 4096 + dice() % (round % 2 ? 2400 : m.next);
            file[at] = dice() % 3 == 0 ? 0xff : (uint8_t)dice();
        }
        if (round % 8 != 0)
            reseal(file);
        HiveAnswer a = checked(file, n), left = hive_next_remnant(lend(0, file, n), n, dice()).answer;
        refused += a.number != 0;
        EXPECT(a.number >= 1 && a.number <= 10 ? is(left, a.number, a.place) : left.number == 0); /* the same tests, but for the tree */
        found(file, n, "A\\K6");
        members(lend(0, file, n), n, m.root, 6);
        asked(file, n, "ControlSet001\\Services\\EventLog\\Application\\Print", round % 2 ? "Large" : "Several", data);
    }
    EXPECT(refused > 5000);
    free(file);
}

static void t_accepted(void)
{
    Made m = made(4096, 3);
    new_key(&m, "R", 0);
    finish(&m);
    uint8_t map[65], *lent = lend(1, memset(map, 0xa5, sizeof map), sizeof map);
    HiveReport r = hive_check(lend(0, m.file, 8192), 8192, lent, sizeof map);
    EXPECT(is(r.answer, 0, 0) && r.bins == 1 && r.keys == 1 && r.values == 0 && r.used == 112 && r.free == 3952);
    memset(map, 0, 64);
    map[0] = 0x10;
    map[1] = 0x80;
    EXPECT(memcmp(lent, map, 65) == 0);
    EXPECT(is(hive_check(m.file, 8192, map, 63).answer, 8, 0));
    m = sample();
    r = hive_check(m.file, made_length(&m), lend(1, m.file, 1024), 1024);
    EXPECT(is(r.answer, 0, 0) && r.bins == 1 && r.keys == 16 && r.values == 10 && 32 + r.used + r.free == m.bins);
    EXPECT(is(checked(m.file, made_length(&m)), 0, 0));
}

/* One change of the sample at a time, and what the check says. */
static void change(uint32_t at, uint32_t n, uint32_t number, uint32_t place, uint32_t key)
{
    Made m = sample();
    put32(m.file + at, n);
    if (at < 508)
        reseal(m.file);
    EXPECT(in(checked(m.file, made_length(&m)), number, place, key));
    free(m.file);
}

static void t_refusals(void)
{
    Made m = sample();
    size_t n = made_length(&m);
    uint32_t list = get32(data_of(&m, m.root) + 28), a = get32(data_of(&m, list) + 4), b = get32(data_of(&m, list) + 12);
    EXPECT(is(checked(m.file, 4095), 1, 0));
    change(0, 0x66676573, 2, 0, NO_KEY);
    change(508, 0, 3, 0, NO_KEY);
    change(20, 2, 4, 0, NO_KEY);
    change(24, 6, 4, 0, NO_KEY);
    change(24, 0x103, 4, 0, NO_KEY);
    change(28, 1, 4, 0, NO_KEY);
    change(32, 0, 4, 0, NO_KEY);
    change(44, 2, 4, 0, NO_KEY);
    change(40, 0, 5, 0, NO_KEY);
    change(40, 4097, 5, 0, NO_KEY);
    change(40, 0x7ffff800, 5, 0, NO_KEY);
    change(40, 0x80000000, 5, 0, NO_KEY);
    change(40, 67108864 + 4096, 6, 0, NO_KEY);
    change(40, 0x7ffff000, 6, 0, NO_KEY);
    change(40, (uint32_t)m.bins + 4096, 6, 0, NO_KEY);
    EXPECT(is(checked(m.file, n - 1), 6, 0));
    change(8, 9, 7, 0, NO_KEY);
    change(4096, 0, 9, 0, NO_KEY);
    change(4096 + 4, 4096, 9, 0, NO_KEY);
    change(4096 + 8, (uint32_t)m.bins + 4096, 9, 0, NO_KEY);
    change(4096 + 32, 0x80000000, 10, 32, NO_KEY);
    change(4096 + 32, 0, 10, 32, NO_KEY);
    change(4096 + 32, 12, 10, 32, NO_KEY);
    change(36, 0xffffffff, 11, 0xffffffff, NO_KEY);
    change(36, 40, 11, 40, NO_KEY);
    change(4096 + m.root + 4, 0, 12, m.root, NO_KEY);
    change(4096 + list + 4 + 8, 0, 13, a, a);
    change(4096 + list + 4 + 4, b, 13, b, b);
    change(4096 + b + 4 + 16, 0, 14, b, b);
    change(4096 + list + 4 + 4, m.root, 14, m.root, m.root);
    change(4096 + m.root + 4 + 20, 5, 14, m.root, m.root);
    EXPECT(is(found(m.file, n, "\\"), 16, 0) && is(found(m.file, n, "a\\"), 16, 0) && is(found(m.file, n, "\\a"), 16, 0));
    EXPECT(in(found(m.file, n, "nobody"), 17, 0, m.root) && in(found(m.file, n, "a\\k8"), 17, 0, a));
}

/* A second bin whose header is wrong, after a cell of the first that is. */
static void t_bins(void)
{
    Made m = made(8192, 3);
    new_key(&m, "R", 0);
    finish(&m);
    put32(m.file + 4096 + 8, 4096);
    put32(m.file + 4096 + m.next, 4096 - m.next);
    EXPECT(is(checked(m.file, made_length(&m)), 9, 4096));
    put32(m.file + 4096 + m.next, 4096 - m.next - 4);
    EXPECT(is(checked(m.file, made_length(&m)), 10, m.next));
    put32(m.file + 4096 + m.next, 4096 - m.next);
    memcpy(m.file + 8192, m.file + 4096, 32);
    put32(m.file + 8192 + 4, 4096);
    put32(m.file + 8192 + 32, 4096 - 32);
    HiveReport r = hive_check(lend(0, m.file, 12288), 12288, lend(1, m.file, 128), 128);
    EXPECT(is(r.answer, 0, 0) && r.bins == 2 && r.used == 112 && r.free == 8192 - 64 - 112);
    free(m.file);
}

static void t_levels(void)
{
    uint32_t level[513];
    for (int deep = 512; deep <= 513; deep++) {
        Made m = made(32 * 4096, 4);
        uint32_t key = m.root = new_key(&m, "R", 0);
        for (int i = 0; i < deep; i++) {
            uint32_t child = new_key(&m, "n", key);
            hang_keys(&m, key, new_leaf(&m, "lh", &child, 1), 1);
            level[i] = key;
            key = child;
        }
        finish(&m);
        EXPECT(deep == 512 ? is(checked(m.file, made_length(&m)), 0, 0) : in(checked(m.file, made_length(&m)), 15, key, key));
        char path[1030];
        for (int i = 0; i < deep; i++)
            memcpy(path + 2 * i, "N\\", 3);
        path[2 * deep - 1] = 0;
        HiveAnswer r = found(m.file, made_length(&m), path);
        EXPECT(deep == 512 ? r.number == 0 && r.value == key : is(r, 16, 0));
        for (size_t i = 0; i < 3; i++) { /* the deepest key, at levels 511, 1 and 0: a part more is not there */
            size_t k = (size_t[]){511, 1, 0}[i];
            memcpy(path + 2 * k, "x", 2);
            EXPECT(in(found(m.file, made_length(&m), path), 17, 0, level[k]));
        }
        free(m.file);
    }
}

static void t_lookup(void)
{
    Made m = sample();
    size_t n = made_length(&m);
    uint32_t list = get32(data_of(&m, m.root) + 28), a = get32(data_of(&m, list) + 4);
    uint32_t last = get32(data_of(&m, get32(data_of(&m, get32(data_of(&m, a) + 28)) + 12)) + 12);
    EXPECT(found(m.file, n, "").value == m.root);
    EXPECT(found(m.file, n, "A").value == a && found(m.file, n, "a").value == a);
    EXPECT(found(m.file, n, "a\\K7").value == last);
    char part[260];
    memset(part, 'x', 256);
    part[256] = 0;
    EXPECT(is(found(m.file, n, part), 16, 0) && in(found(m.file, n, part + 1), 17, 0, m.root));
}

static void t_values(void)
{
    static uint8_t data[ROOM];
    static const char key[] = "controlset001\\services\\eventlog\\application\\print";
    Made m = sample();
    size_t n = made_length(&m);
    HiveValue v = asked(m.file, n, key, "typessupported", data);
    EXPECT(v.answer.number == 0 && v.kind == 4 && v.form == 1 && v.length == 4 && memcmp(data, "\7\0\0", 4) == 0);
    v = asked(m.file, n, key, "", data);
    EXPECT(v.answer.number == 0 && v.kind == 1 && v.form == 2 && v.length == 6 && memcmp(data, "x\0y\0\0", 6) == 0);
    v = asked(m.file, n, key, "Large", data);
    EXPECT(v.answer.number == 0 && v.kind == 3 && v.form == 3 && v.length == 40000);
    for (size_t i = 0; i < 40000; i++)
        EXPECT(data[i] == (uint8_t)(i * 7 + i / 251));
    uint32_t at = found(m.file, n, key).value, list = get32(data_of(&m, at) + 40), large = get32(data_of(&m, list) + 4 * 8);
    uint16_t path[64], name[8];
    size_t path_len = units(key, path), name_len = units("LARGE", name);
    EXPECT(in(hive_value_view(m.file, n, path, path_len, name, name_len).answer, 19, large, at));
    v = asked(m.file, n, key, "Empty", data);
    EXPECT(v.answer.number == 0 && v.form == 1 && v.length == 0);
    EXPECT(in(asked(m.file, n, key, "none", data).answer, 18, 0, at));
    EXPECT(in(asked(m.file, n, "b", "", data).answer, 18, 0, found(m.file, n, "b").value));
    EXPECT(in(asked(m.file, n, "none", "", data).answer, 17, 0, m.root));
    EXPECT(in(asked(m.file, n, "a\\none", "", data).answer, 17, 0, found(m.file, n, "a").value));
    EXPECT(is(asked(m.file, n, "a\\", "", data).answer, 16, 0));
}

/* The keys of a list of three leaves one by one, each where lookup finds it; then the values, and what lies past their ends. */
static void t_members(void)
{
    Made m = sample();
    size_t n = made_length(&m);
    const uint8_t *h = lend(0, m.file, n);
    uint32_t a = found(m.file, n, "a").value;
    char path[] = "a\\k1";
    for (size_t i = 0; i < 7; i++, path[3]++) {
        HiveMember k = sound(hive_nth_subkey(h, n, a, i), n);
        EXPECT(k.state == HIVE_THERE && k.answer.value == found(m.file, n, path).value);
        EXPECT(k.length == 2 && k.narrow == 1 && memcmp(h + k.name, path + 2, 2) == 0);
    }
    for (size_t i = 0; i < 3; i++)
        EXPECT(sound(hive_nth_subkey(h, n, a, i == 0 ? 7 : (size_t)-1 >> (i - 1)), n).state == HIVE_NO_MORE);
    EXPECT(sound(hive_nth_value(h, n, a, 0), n).state == HIVE_NO_MORE);
    EXPECT(members(h, n, m.root, 8) == 15 + 10);
    uint32_t key = found(m.file, n, "controlset001\\services\\eventlog\\application\\print").value;
    HiveMember v = sound(hive_nth_value(h, n, key, 2), n);
    EXPECT(v.state == HIVE_THERE && v.length == 14 && memcmp(h + v.name, "TypesSupported", 14) == 0);
    HiveValue w = hive_value_at(h, n, v.answer.value);
    EXPECT(is(w.answer, 0, 0) && w.kind == 4 && w.form == 1 && w.length == 4 && memcmp(h + w.at, "\7\0\0", 4) == 0);
    EXPECT(sound(hive_nth_value(h, n, key, 1), n).length == 0 && sound(hive_nth_value(h, n, key, 10), n).state == HIVE_NO_MORE);
    EXPECT(is(hive_value_at(h, n, key).answer, 12, key) && is(hive_value_at(h, n, 4).answer, 11, 4));
    EXPECT(is(hive_nth_subkey(h, n, v.answer.value, 0).answer, 12, v.answer.value) && is(hive_nth_value(h, n, 0xfffffffc, 0).answer, 11, 0xfffffffc));
    put16(data_of(&m, a) + 2, 0);
    uint32_t list = get32(data_of(&m, a) + 28), second = get32(data_of(&m, list) + 8);
    data_of(&m, second)[0] = 'x';
    h = lend(0, m.file, n);
    EXPECT(sound(hive_nth_subkey(h, n, m.root, 0), n).state == HIVE_REFUSED && sound(hive_nth_subkey(h, n, m.root, 1), n).state == HIVE_THERE);
    put16(data_of(&m, a) + 2, 0x20);
    h = lend(0, m.file, n);
    EXPECT(sound(hive_nth_subkey(h, n, a, 2), n).state == HIVE_THERE && in(hive_nth_subkey(h, n, a, 3).answer, 12, second, a));
}

/* Two values of one name, of which only the offset tells the second; and what a key's record says. */
static void t_offsets(void)
{
    static uint8_t data[20000], back[20000];
    Made m = made(16 * 4096, 5);
    m.root = new_key(&m, "R", 0);
    for (size_t i = 0; i < sizeof data; i++)
        data[i] = (uint8_t)(i * 31 + i / 977);
    uint32_t values[] = {new_value(&m, "v", 4, data, 4), new_value(&m, "V", 3, data, sizeof data)};
    hang_values(&m, m.root, values, 2);
    memcpy(data_of(&m, m.root) + 4, "\1\2\3\4\5\6\7\x88", 8);
    put32(data_of(&m, m.root) + 16, 0xfedcba98);
    finish(&m);
    size_t n = made_length(&m);
    const uint8_t *h = lend(0, m.file, n);
    EXPECT(in(hive_check(h, n, back, sizeof back).answer, HIVE_FAULT_NAMESAKE, values[1], m.root));
    EXPECT(value_at(h, n, values[0]).number == 0 && value_at(h, n, values[1]).number == 0);
    HiveCopy c = hive_copy_at(h, n, values[1], back, sizeof back);
    EXPECT(is(c.answer, 0, 0) && c.length == sizeof data && memcmp(data, back, sizeof data) == 0);
    EXPECT(is(hive_copy_at(h, n, m.root, back, sizeof back).answer, HIVE_FAULT_RECORD, m.root));
    EXPECT(is(hive_copy_at(h, n, 4, back, sizeof back).answer, HIVE_FAULT_NO_CELL, 4));
    HiveKey k = key_at(h, n, m.root);
    EXPECT(k.answer.number == 0 && k.written == 0x8807060504030201 && k.parent == 0xfedcba98 && k.subkeys == 0 && k.values == 2);
    EXPECT(k.length == 1 && k.narrow == 1 && h[k.name] == 'R');
    EXPECT(is(hive_key_at(h, n, values[0]).answer, HIVE_FAULT_RECORD, values[0]) && is(hive_key_at(h, n, 0xffffffff).answer, HIVE_FAULT_NO_CELL, 0xffffffff));
    put32(m.file + 8, 9);
    reseal(m.file);
    EXPECT(is(hive_key_at(m.file, n, m.root).answer, HIVE_FAULT_SEQUENCES, 0) && is(hive_copy_at(m.file, n, values[0], back, 4).answer, HIVE_FAULT_SEQUENCES, 0));
    free(m.file);
}

/* Data on both sides of a segment, and the largest. */
static void t_sizes(void)
{
    static uint8_t data[2 * ROOM], back[2 * ROOM];
    static const size_t sizes[] = {5, 16343, 16344, 16345, 32688, 32689, 900000};
    for (size_t i = 0; i < sizeof data; i++)
        data[i] = (uint8_t)(i * 31 + i / 977);
    for (uint32_t minor = 3; minor <= 5; minor++)
        for (size_t i = 0; i < sizeof sizes / sizeof sizes[0]; i++) {
            Made m = made(240 * 4096, minor);
            m.root = new_key(&m, "R", 0);
            uint32_t value = new_value(&m, "v", 3, data, sizes[i]);
            hang_values(&m, m.root, &value, 1);
            finish(&m);
            EXPECT(is(checked(m.file, made_length(&m)), 0, 0));
            HiveValue v = asked(m.file, made_length(&m), "", "V", back);
            EXPECT(v.answer.number == 0 && v.length == sizes[i] && memcmp(data, back, sizes[i]) == 0);
            EXPECT(v.form == (sizes[i] > 16344 && minor > 3 ? 3u : 2u));
            free(m.file);
        }
    Made m = made(272 * 4096, 5);
    m.root = new_key(&m, "R", 0);
    uint32_t value = new_value(&m, "v", 3, data, 1048576);
    hang_values(&m, m.root, &value, 1);
    finish(&m);
    HiveCopy c = hive_value_copy(m.file, made_length(&m), NULL, 0, (const uint16_t[]){'v'}, 1, back, sizeof back);
    EXPECT(is(c.answer, 0, 0) && c.length == 1048576 && memcmp(data, back, 1048576) == 0);
    uint32_t db = get32(data_of(&m, value) + 8);
    EXPECT(data_of(&m, db)[2] == 65);
    put32(data_of(&m, value) + 4, 1048577);
    c = hive_value_copy(m.file, made_length(&m), NULL, 0, (const uint16_t[]){'v'}, 1, back, sizeof back);
    EXPECT(in(c.answer, 12, value, m.root));
    free(m.file);
}

/* The sample with one cell that is free, refused with 11, or shrunk to 8 bytes, so that what it is read as does not fit: 12. */
static Made spoil(uint32_t cell, uint32_t number)
{
    Made m = sample();
    uint8_t *size = m.file + 4096 + cell;
    uint32_t n = 0u - get32(size);
    put32(size, number == 11 ? n : 0u - 8);
    if (number == 12)
        put32(size + 8, n - 8);
    return m;
}

/* The cells of the sample, one of each kind. */
typedef struct {
    uint32_t root, list, a, d, index, leaf, k4, print, values, value, cell, db, parts, part;
} Cells;

static Cells cells(void)
{
    Made m = sample();
    size_t n = made_length(&m);
    Cells c = {.root = m.root, .a = found(m.file, n, "a").value, .d = found(m.file, n, "d").value, .k4 = found(m.file, n, "a\\k4").value};
    c.list = get32(data_of(&m, m.root) + 28);
    c.index = get32(data_of(&m, c.a) + 28);
    c.leaf = get32(data_of(&m, c.index) + 8);
    c.print = found(m.file, n, "controlset001\\services\\eventlog\\application\\print").value;
    c.values = get32(data_of(&m, c.print) + 40);
    c.value = get32(data_of(&m, c.values) + 4 * 7);
    c.cell = get32(data_of(&m, c.value) + 8);
    c.db = get32(data_of(&m, get32(data_of(&m, c.values) + 4 * 8)) + 8);
    c.parts = get32(data_of(&m, c.db) + 4);
    c.part = get32(data_of(&m, c.parts) + 4);
    free(m.file);
    return c;
}

/* 11 and 12 at each kind of cell, and the key under examination: of the check, of the calls by path, and of those that list a key. */
static void t_keys(void)
{
    static uint8_t data[ROOM];
    static const char print[] = "ControlSet001\\Services\\EventLog\\Application\\Print";
    Cells c = cells();
    const struct {
        uint32_t cell, key;
        const char *path, *name; /* a lookup that comes by; name NULL: of the key alone */
        uint32_t of;             /* a key whose subkeys or values come by, else 0 */
        size_t nth;
        bool subkey;
    } rows[] = {
        {c.root, NO_KEY, "a", NULL, c.root, 0, true},
        {c.list, c.root, "b", NULL, c.root, 0, true},
        {c.a, c.root, "a", NULL, c.root, 0, true},
        {c.d, c.root, "d", NULL, c.root, 3, true}, /* after the deep subtree of the one before it */
        {c.index, c.a, "a\\k1", NULL, c.a, 0, true},
        {c.leaf, c.a, "a\\k7", NULL, c.a, 6, true},
        {c.k4, c.a, "a\\k5", NULL, c.a, 3, true},
        {c.print, found(sample().file, 17 * 4096, "ControlSet001\\Services\\EventLog\\Application").value, print, NULL, 0, 0, false},
        {c.values, c.print, print, "Big", c.print, 2, false},
        {c.value, c.print, print, "Bytes", c.print, 7, false},
        {c.cell, c.print, print, "Bytes", 0, 0, false},
        {c.db, c.print, print, "Large", 0, 0, false},
        {c.parts, c.print, print, "Large", 0, 0, false},
        {c.part, c.print, print, "Large", 0, 0, false},
    };
    for (size_t i = 0; i < sizeof rows / sizeof rows[0]; i++)
        for (uint32_t number = 11; number <= 12; number++) {
            Made m = spoil(rows[i].cell, number);
            size_t n = made_length(&m);
            EXPECT(in(checked(m.file, n), number, rows[i].cell, rows[i].key));
            HiveAnswer a = rows[i].name == NULL ? found(m.file, n, rows[i].path) : asked(m.file, n, rows[i].path, rows[i].name, data).answer;
            EXPECT(in(a, number, rows[i].cell, rows[i].key));
            EXPECT(in(asked(m.file, n, rows[i].path, rows[i].name == NULL ? "" : rows[i].name, data).answer, number, rows[i].cell, rows[i].key));
            if (rows[i].of != 0) {
                HiveMember x = (rows[i].subkey ? hive_nth_subkey : hive_nth_value)(m.file, n, rows[i].of, rows[i].nth);
                EXPECT(in(x.answer, number, rows[i].cell, rows[i].key) && x.state == HIVE_REFUSED);
            }
            free(m.file);
        }
}

/* The calls that take an offset and ask for no key, and those that take a key's, before it is accepted: none. */
static void t_keyless(void)
{
    static uint8_t data[64];
    Cells c = cells();
    for (uint32_t number = 11; number <= 12; number++) {
        Made m = spoil(c.print, number);
        size_t n = made_length(&m);
        EXPECT(is(hive_nth_subkey(m.file, n, c.print, 0).answer, number, c.print) && is(hive_nth_value(m.file, n, c.print, 0).answer, number, c.print));
        EXPECT(is(hive_key_at(m.file, n, c.print).answer, number, c.print));
        free(m.file);
        for (int i = 0; i < 2; i++) {
            m = spoil(i == 0 ? c.value : c.cell, number);
            EXPECT(is(hive_value_at(m.file, n, c.value).answer, number, i == 0 ? c.value : c.cell));
            EXPECT(is(hive_copy_at(m.file, n, c.value, data, sizeof data).answer, number, i == 0 ? c.value : c.cell));
            free(m.file);
        }
    }
    Made m = sample();
    EXPECT(is(hive_copy_at(m.file, made_length(&m), c.value, data, 32).answer, 20, 0) && is(hive_copy_at(m.file, made_length(&m), c.value, NULL, 0).answer, 20, 0));
    free(m.file);
}

/* ---- what deletion left behind */

/* A record that is left: at an offset, as the rows say it. */
typedef struct {
    uint32_t at, kind, length, narrow;
} Left;

enum { KEY = HIVE_OLD_KEY, VALUE = HIVE_OLD_VALUE, LEFT_MOST = 8, FREE = 144 };

/* A record at an offset. The four bytes there stay: they are an old size, or the free cell's own. All that deletion may destroy, and that is not judged, is 0xff. */
static void leave(Made *m, Left x, const void *name)
{
    uint8_t *d = data_of(m, x.at);
    size_t head = x.kind == KEY ? 76 : 20;
    memset(d, 0xff, head);
    memcpy(d, x.kind == KEY ? "nk" : "vk", 2);
    if (x.kind == KEY)
        put16(d + 2, x.narrow ? 0xffff : 0xffdf);
    else
        put16(d + 16, x.narrow ? 0xffff : 0xfffe);
    put16(d + (x.kind == KEY ? 72 : 2), x.length);
    memcpy(d + head, name, x.length);
}

/* A name of letters: of so many bytes, whatever the kind. */
static const char *letters(size_t length)
{
    static char name[70000];
    if (length > sizeof name)
        abort();
    return memset(name, 'n', length);
}

/* A root, its security item and a free cell from FREE on, of one bin. */
static Made free_bin(size_t bins)
{
    Made m = made(bins, 5);
    new_key(&m, "R", 0);
    finish(&m);
    return m;
}

/* Makes two cells of one: each has a size. */
static void split(Made *m, uint32_t at, uint32_t first, uint32_t second)
{
    put32(m->file + 4096 + at, first);
    put32(m->file + 4096 + at + (first > 0x7fffffff ? 0 - first : first), second);
}

/* One step: the first of `want` that is not below `from`. */
static void step(const uint8_t *h, size_t n, size_t from, const Left *want, size_t count)
{
    while (count > 0 && want->at < from) {
        want++;
        count--;
    }
    HiveRemnant r = hive_next_remnant(h, n, from);
    EXPECT(r.answer.number == 0 && r.answer.place == 0 && r.answer.key == NO_KEY);
    if (count == 0)
        EXPECT(r.state == HIVE_NO_MORE && r.answer.value + r.kind + r.name + r.length + r.narrow == 0);
    else
        EXPECT(r.state == HIVE_THERE && r.answer.value == want->at && r.kind == want->kind && r.length == want->length && r.narrow == want->narrow &&
               r.name == 4096 + want->at + (want->kind == KEY ? 80 : 24) && r.name + r.length <= n);
}

/* The rows from `from` on, in so many words: whole rows, and the words behind them stay. */
static void some_rows(const uint8_t *h, size_t n, size_t from, const Left *want, size_t count, size_t words)
{
    static uint32_t before[4096];
    while (count > 0 && want->at < from) {
        want++;
        count--;
    }
    memset(before, 0x5a, sizeof before);
    uint32_t *rows = (uint32_t *)lend(1, before, 4 * words);
    HiveRows r = hive_remnants(h, n, from, rows, words);
    size_t fit = count < words / 4 ? count : words / 4;
    bool short_of_one = count > 0 && words < 4;
    EXPECT(is(r.answer, short_of_one ? 20 : 0, 0) && r.state == (short_of_one ? HIVE_REFUSED : count == 0 ? HIVE_NO_MORE : HIVE_THERE) && r.rows == fit);
    EXPECT(fit == 0 || memcmp(rows, want, fit * sizeof *want) == 0);
    EXPECT(memcmp(rows + 4 * fit, before, 4 * (words - 4 * fit)) == 0);
}

/* What is left in a hive: exactly this, by steps and by rows of many sizes, from each offset and around it. */
static void only(const Made *m, const Left *want, size_t count)
{
    static const size_t sizes[] = {0, 3, 4, 7, 8, 4096};
    size_t n = made_length(m), froms[3 * LEFT_MOST + 5] = {0, 0xffffffff, (size_t)-1, n, 4096}, k = 5;
    if (count > LEFT_MOST)
        abort();
    for (size_t i = 0; i < count; i++)
        for (uint32_t d = 0; d < 3; d++)
            froms[k++] = want[i].at - 1 + d;
    const uint8_t *h = lend(0, m->file, n);
    for (size_t i = 0; i < k; i++) {
        step(h, n, froms[i], want, count);
        for (size_t s = 0; s < sizeof sizes / sizeof sizes[0]; s++)
            some_rows(h, n, froms[i], want, count, sizes[s]);
    }
    EXPECT(memcmp(h, m->file, n) == 0);
}

/* One record at an offset of a free cell from FREE to the end of a bin: whether it is found. */
static void tried(size_t bins, Left x, const void *name, bool there)
{
    Made m = free_bin(bins);
    leave(&m, x, name);
    only(&m, &x, there ? 1 : 0);
    free(m.file);
}

/* The start of a free cell, its last bytes, and what does not end inside it. */
static void t_left_room(void)
{
    tried(4096, (Left){FREE, KEY, 4, 1}, "gone", true);
    tried(4096, (Left){FREE, VALUE, 4, 1}, "gone", true);
    tried(4096, (Left){4096 - 24, VALUE, 0, 1}, "", true);
    tried(4096, (Left){4096 - 88, KEY, 8, 1}, "the last", true);
    tried(4096, (Left){FREE + 4, KEY, 4, 1}, "gone", false);
    tried(4096, (Left){FREE + 12, VALUE, 4, 1}, "gone", false);
    Made m = free_bin(4096);
    memcpy(data_of(&m, 4096 - 16), "vk\0\0", 4); /* the same 8 bytes later: it ends past the cell */
    only(&m, NULL, 0);
    memcpy(data_of(&m, 4096 - 8), "nk", 2);
    only(&m, NULL, 0);
    free(m.file);
}

/* A free cell of 120 bytes before another one: a record ends at its end, one byte past it, or starts in the other. */
static void t_left_neighbours(void)
{
    enum { NEXT = FREE + 120 };
    const Left at_end = {NEXT - 88, KEY, 8, 1}, past = {NEXT - 88, KEY, 9, 1}, other = {NEXT, KEY, 8, 1}, start = {NEXT, VALUE, 3, 1};
    for (int i = 0; i < 4; i++) {
        Made m = free_bin(4096);
        split(&m, FREE, 120, 4096 - NEXT);
        Left x = (Left[]){at_end, past, other, start}[i];
        leave(&m, x, letters(x.length));
        if (i == 1)
            put32(m.file + 4096 + NEXT, 4096 - NEXT); /* its ninth letter lies in the size field there */
        only(&m, &x, i == 1 ? 0 : 1);
        put32(m.file + 4096 + FREE, 0u - 120); /* the first of them in use */
        only(&m, &x, i < 2 ? 0 : 1);
        free(m.file);
    }
}

/* Names of both kinds, of keys and of values, at their limits. */
static void t_left_names(void)
{
    static const struct { uint32_t length; bool key_narrow, key_wide, value_narrow, value_wide; } cases[] = {
        {0, false, false, true, true}, {1, true, false, true, false}, {2, true, true, true, true}, {3, true, false, true, false},
        {255, true, false, true, false}, {256, false, true, true, true}, {509, false, false, true, false}, {510, false, true, true, true},
        {511, false, false, true, false}, {512, false, false, true, true}, {16382, false, false, true, true}, {16383, false, false, true, false},
        {16384, false, false, false, true}, {32766, false, false, false, true}, {32767, false, false, false, false}, {32768, false, false, false, false},
        {65535, false, false, false, false},
    };
    for (size_t i = 0; i < sizeof cases / sizeof cases[0]; i++) {
        tried(20 * 4096, (Left){FREE + 8, KEY, cases[i].length, 1}, letters(cases[i].length), cases[i].key_narrow);
        tried(20 * 4096, (Left){FREE + 8, KEY, cases[i].length, 0}, letters(cases[i].length), cases[i].key_wide);
        tried(20 * 4096, (Left){FREE + 8, VALUE, cases[i].length, 1}, letters(cases[i].length), cases[i].value_narrow);
        tried(20 * 4096, (Left){FREE + 8, VALUE, cases[i].length, 0}, letters(cases[i].length), cases[i].value_wide);
    }
}

/* A backslash is a code and not a byte, and only a key's name has none. */
static void t_left_backslashes(void)
{
    static const struct { const char *name; uint32_t length, narrow; bool of_key; } cases[] = {
        {"\\\0", 2, 0, false}, {"\0\\", 2, 0, true}, {"\\\\", 2, 0, true}, {"a\0\\\0", 4, 0, false}, {"a\0\0\\b\0", 6, 0, true}, {"\\", 1, 1, false},
        {"a\\", 2, 1, false}, {"a\0b", 3, 1, true},
    };
    for (size_t i = 0; i < sizeof cases / sizeof cases[0]; i++) {
        tried(4096, (Left){FREE, KEY, cases[i].length, cases[i].narrow}, cases[i].name, cases[i].of_key);
        tried(4096, (Left){FREE, VALUE, cases[i].length, cases[i].narrow}, cases[i].name, true);
    }
}

/* Keys that were freed one after the other, the first cell's size grown over the others; records that overlap; a record in a cell in use. */
static void t_left_merged(void)
{
    static const Left keys[] = {{FREE, KEY, 5, 1}, {FREE + 88, KEY, 3, 1}, {FREE + 168, KEY, 4, 0}};
    Made m = free_bin(4096);
    for (int i = 0; i < 3; i++) {
        leave(&m, keys[i], "a\0b\0c");
        if (i > 0)
            put32(m.file + 4096 + keys[i].at, i == 1 ? 80 : 0u - 88);
    }
    only(&m, keys, 3);
    put32(data_of(&m, m.root) + 40, FREE); /* the tree does not matter: a value list that is free, and a root that is none */
    put32(data_of(&m, m.root) + 36, 1);
    EXPECT(in(checked(m.file, made_length(&m)), 11, FREE, 32));
    only(&m, keys, 3);
    put32(m.file + 36, 40);
    reseal(m.file);
    EXPECT(is(checked(m.file, made_length(&m)), 11, 40));
    only(&m, keys, 3);
    split(&m, FREE, 0u - 88, 4096 - FREE - 88);
    only(&m, keys + 1, 2);
    put32(m.file + 4096 + FREE + 88, 0u - (4096 - FREE - 88));
    only(&m, NULL, 0);
    free(m.file);
    static const Left both[] = {{FREE, KEY, 100, 1}, {FREE + 88, VALUE, 7, 1}, {FREE + 112, VALUE, 0, 0}};
    m = free_bin(4096);
    for (int i = 0; i < 3; i++) /* the second in the name of the first, the third in that of the second */
        leave(&m, both[i], letters(both[i].length));
    only(&m, both, 3);
    free(m.file);
}

/* Two bins of a page, and padding behind them: what lies there is in no free cell. */
static void t_left_bins(void)
{
    static const Left all[] = {{FREE, KEY, 1, 1}, {4096 - 24, VALUE, 0, 0}, {4096 + 32, VALUE, 2, 0}, {8192 - 80, KEY, 2, 0}};
    Made m = free_bin(8192);
    put32(m.file + 4096 + 8, 4096);
    put32(m.file + 4096 + FREE, 4096 - FREE);
    memcpy(m.file + 8192, m.file + 4096, 32);
    put32(m.file + 8192 + 4, 4096);
    put32(m.file + 8192 + 32, 4096 - 32);
    for (int i = 0; i < 4; i++)
        leave(&m, all[i], "ab");
    EXPECT(is(checked(m.file, made_length(&m)), 0, 0));
    only(&m, all, 3); /* the last ends two bytes past its bin */
    put16(data_of(&m, 8192 - 80) + 72, 0);
    only(&m, all, 3);
    m.bins = 4096;
    put32(m.file + 40, 4096);
    reseal(m.file);
    only(&m, all, 2);
    m.bins = 8192; /* the same with padding */
    only(&m, all, 2);
    free(m.file);
}

/* Both calls refuse, as the check does, and no word is written. */
static void left_refused(const uint8_t *file, size_t n, uint32_t number, uint32_t place)
{
    uint32_t before[16];
    memset(before, 0x5a, sizeof before);
    uint32_t *rows = (uint32_t *)lend(3, before, sizeof before);
    EXPECT(is(checked(file, n), number, place));
    const uint8_t *h = lend(0, file, n);
    for (int i = 0; i < 3; i++) {
        size_t from = (size_t[]){0, 200, (size_t)-1}[i];
        HiveRemnant r = hive_next_remnant(h, n, from);
        HiveRows s = hive_remnants(h, n, from, rows, 16), none = hive_remnants(h, n, from, NULL, 0);
        EXPECT(is(r.answer, number, place) && r.state + r.kind + r.name + r.length + r.narrow == 0);
        EXPECT(is(s.answer, number, place) && s.state + s.rows == 0 && memcmp(rows, before, sizeof before) == 0);
        EXPECT(is(none.answer, number, place) && none.state + none.rows == 0);
    }
}

/* Each refusal, with a record that would be found before it. */
static void t_left_refusals(void)
{
    static const struct { uint32_t at, n, number, place; } changes[] = {
        {0, 0x66676573, 2, 0}, {508, 0, 3, 0}, {24, 6, 4, 0}, {28, 1, 4, 0}, {40, 0, 5, 0}, {40, 0x80000000, 5, 0}, {40, 3 * 4096, 6, 0}, {8, 9, 7, 0},
        {8192, 0, 9, 4096}, {8192 + 4, 0, 9, 4096}, {8192 + 8, 8192, 9, 4096}, {8192 + 8, 0, 9, 4096}, {8192 + 32, 0, 10, 4096 + 32},
        {8192 + 32, 12, 10, 4096 + 32}, {8192 + 32, 4096, 10, 4096 + 32}, {8192 + 32, 0x80000000, 10, 4096 + 32}, {4096 + FREE, 4096 - FREE + 4, 10, FREE},
        {4096, 0, 9, 0}, {4096 + 32, 0, 10, 32},
    };
    for (size_t i = 0; i < sizeof changes / sizeof changes[0]; i++) {
        Made m = free_bin(8192);
        size_t n = made_length(&m);
        put32(m.file + 4096 + 8, 4096);
        put32(m.file + 4096 + FREE, 4096 - FREE);
        memcpy(m.file + 8192, m.file + 4096, 32);
        put32(m.file + 8192 + 4, 4096);
        put32(m.file + 8192 + 32, 4096 - 32);
        const Left x = {FREE, KEY, 4, 1};
        leave(&m, x, "gone");
        only(&m, &x, 1);
        put32(m.file + changes[i].at, changes[i].n);
        if (changes[i].at < 508)
            reseal(m.file);
        left_refused(m.file, n, changes[i].number, changes[i].place);
        left_refused(m.file, 4095, 1, 0);
        free(m.file);
    }
    Made m = free_bin(4096);
    left_refused(m.file, made_length(&m) - 1, 6, 0);
    free(m.file);
}

/* Random bytes in a free cell: each step goes on, what it finds is a record by its bytes, and the rows say the same. */
static void t_left_random(void)
{
    static uint32_t rows[4 * 512];
    size_t found_all = 0;
    for (int round = 0; round < 300; round++) {
        Made m = free_bin(4096);
        size_t n = made_length(&m), from = 0, k = 0;
        for (size_t i = FREE + 4; i < 4096; i++)
            m.file[4096 + i] = (uint8_t)"vknk\0\0\1 \\n"[dice() % 10];
        for (size_t i = FREE + 4; i + 8 <= 4096; i += 8)
            if (dice() % 2 == 0)
                memcpy(m.file + 4096 + i, dice() % 4 == 0 ? "nk " : "vk\1", 4);
        const uint8_t *h = lend(0, m.file, n);
        HiveRows s = hive_remnants(h, n, 0, rows, sizeof rows / sizeof rows[0]);
        for (HiveRemnant r; (r = hive_next_remnant(h, n, from)).state == HIVE_THERE; k++) {
            const uint8_t *d = h + 4096 + r.answer.value + 4;
            EXPECT(r.answer.value >= from && r.answer.value % 8 == 0 && memcmp(d, r.kind == KEY ? "nk" : "vk", 2) == 0 && r.name + r.length <= n);
            EXPECT(memcmp(rows + 4 * k, (uint32_t[]){r.answer.value, (uint32_t)r.kind, (uint32_t)r.length, (uint32_t)r.narrow}, 16) == 0);
            from = r.answer.value + 1;
        }
        EXPECT(k == s.rows);
        found_all += k;
        free(m.file);
    }
    EXPECT(found_all > 1000);
}

static const uint32_t PAGES[] = {0, 3, 4, 17, 127};
enum { COUNT = sizeof PAGES / sizeof PAGES[0] };

static void t_repair(void)
{
    Made m = sample();
    size_t n = made_length(&m);
    Log log = made_log(&m, PAGES, COUNT);
    uint8_t *file = spoilt(&m, PAGES, COUNT), *h = lend(0, file, n);
    const uint8_t *l = lend(1, log.at, log.length);
    EXPECT(is(checked(file, n), 7, 0));
    h = lend(0, file, n);
    l = lend(1, log.at, log.length);
    HiveRecovery r = hive_recover_start(h, n, l, log.length);
    EXPECT(is(r.answer, 0, 0) && r.state == HIVE_DONE && r.pages == COUNT);
    EXPECT(is(hive_recover_page(h, n, l, log.length, 1).answer, 26, 0));
    EXPECT(is(hive_recover_page(h, n, l, log.length, 128).answer, 26, 0));
    EXPECT(is(hive_recover_close(h, n, l, log.length).answer, 27, 0));
    EXPECT(memcmp(h, file, n) == 0);
    HivePage p = hive_recover_next(l, log.length, 0);
    for (size_t i = 0; i < COUNT; i++) {
        EXPECT(p.state == HIVE_THERE && p.page == PAGES[i] && p.from == 1024 + 512 * i && p.to == 4096 + 512 * PAGES[i]);
        EXPECT(is(hive_recover_close(h, n, l, log.length).answer, 27, 0));
        r = hive_recover_page(h, n, l, log.length, p.page);
        EXPECT(r.state == HIVE_DONE && is(r.answer, 0, 0));
        memcpy(file + p.to, log.at + p.from, 512);
        EXPECT(memcmp(h, file, n) == 0);
        p = hive_recover_next(l, log.length, p.page + 1);
    }
    EXPECT(p.state == HIVE_NO_MORE && is(p.answer, 0, 0));
    EXPECT(hive_recover_next(l, log.length, 128).state == HIVE_NO_MORE && hive_recover_next(l, log.length, (size_t)-1).state == HIVE_NO_MORE);
    r = hive_recover_close(h, n, l, log.length);
    EXPECT(r.state == HIVE_DONE && is(r.answer, 0, 0) && memcmp(h, m.file, n) == 0);
    EXPECT(hive_recover_close(h, n, l, log.length).state == HIVE_CLEAN && hive_recover_page(h, n, l, log.length, 1).state == HIVE_CLEAN);
    EXPECT(memcmp(h, m.file, n) == 0 && is(checked(h, n), 0, 0));
}

/* The same by one call, also after half a repair, and its pages one after the other. */
static void t_repair_at_once(void)
{
    Made m = sample();
    size_t n = made_length(&m);
    Log log = made_log(&m, PAGES, COUNT);
    const uint8_t *file = spoilt(&m, PAGES, COUNT);
    const uint8_t *l = lend(1, log.at, log.length);
    for (size_t half = 0; half < 2; half++) {
        uint8_t *h = lend(0, file, n);
        if (half == 1)
            EXPECT(hive_recover_page(h, n, l, log.length, PAGES[2]).state == HIVE_DONE);
        HiveRecovery r = hive_recover_all(h, n, l, log.length);
        EXPECT(r.state == HIVE_DONE && r.pages == 0 && is(r.answer, 0, 0));
        EXPECT(memcmp(h, file, 4096) == 0 && memcmp(h + 4096, m.file + 4096, n - 4096) == 0);
        EXPECT(hive_recover_close(h, n, l, log.length).state == HIVE_DONE && memcmp(h, m.file, n) == 0);
        EXPECT(hive_recover_all(h, n, l, log.length).state == HIVE_CLEAN && memcmp(h, m.file, n) == 0);
    }
    HiveMark p = hive_recover_mark(l, log.length, 0);
    for (size_t i = 0; i < COUNT; i++) {
        EXPECT(p.state == HIVE_THERE && p.page == PAGES[i] && p.to == 4096 + 512 * PAGES[i] && is(p.answer, 0, 0));
        p = hive_recover_mark(l, log.length, p.page + 1);
    }
    EXPECT(p.state == HIVE_NO_MORE && p.page == 0 && p.to == 0 && is(p.answer, 0, 0));
    EXPECT(hive_recover_mark(l, log.length, 128).state == HIVE_NO_MORE && hive_recover_mark(l, log.length, (size_t)-1).state == HIVE_NO_MORE);
    for (size_t k = 0; k < log.length; k++)
        EXPECT(is(hive_recover_mark(lend(1, log.at, k), k, 0).answer, k < 512 ? 21 : k < 516 + 16 ? 22 : 0, 0));
}

/* One change of the log at a time, and what the start says. */
static void t_log_refusals(void)
{
    Made m = sample();
    size_t n = made_length(&m);
    uint8_t *file = spoilt(&m, PAGES, COUNT);
    static const struct { uint32_t at, n, number; } changes[] = {
        {0, 0, 21}, {28, 0, 21}, {28, 2, 0}, {28, 6, 22}, {28, 7, 21}, {8, 6, 21}, {40, 0, 21}, {40, 17 * 4096, 24}, {12, 0, 25}, {512, 0, 23}, {516, 0xffffffff, 22},
    };
    for (size_t i = 0; i < sizeof changes / sizeof changes[0]; i++) {
        Log log = made_log(&m, PAGES, COUNT);
        put32(log.at + changes[i].at, changes[i].n);
        reseal(log.at);
        EXPECT(is(hive_recover_start(lend(0, file, n), n, lend(1, log.at, log.length), log.length).answer, changes[i].number, 0));
        free(log.at);
    }
    Log log = made_log(&m, PAGES, COUNT);
    for (size_t k = 0; k < log.length; k++) {
        HiveAnswer a = hive_recover_start(lend(0, file, n), n, lend(1, log.at, k), k).answer;
        EXPECT(is(a, k < 512 ? 21 : 22, 0));
    }
    log = made_log(&m, PAGES, 0);
    HiveRecovery r = hive_recover_start(file, n, log.at, log.length);
    EXPECT(r.state == HIVE_DONE && r.pages == 0 && hive_recover_next(log.at, log.length, 0).state == HIVE_NO_MORE);
    EXPECT(is(hive_recover_start(file, n, log.at, log.length - 1).answer, 22, 0));
    EXPECT(is(hive_recover_start(file, n - 1, log.at, log.length).answer, 24, 0));
}

/* The first 127 words get a XOR, by a word that nobody reads, and the word at 508 is the given one. */
static void store_xor(uint8_t *block, uint32_t xor, uint32_t stored)
{
    put32(block + 200, get32(block + 200) ^ xor_of(block) ^ xor);
    put32(block + 508, stored);
}

/* A XOR and a number stored for it, of a hive and of a log. */
static void t_checksums(void)
{
    static const struct { uint32_t xor, stored; bool right; } cases[] = {
        {0, 1, true}, {0, 0, false}, {0, 2, false}, {1, 1, true}, {1, 0, false},
        {0xffffffff, 0xfffffffe, true}, {0xffffffff, 0xffffffff, false}, {0xffffffff, 0xfffffffd, false}, {0xfffffffe, 0xfffffffe, true}, {0xfffffffe, 0xffffffff, false},
    };
    Made m = sample();
    size_t n = made_length(&m);
    uint8_t *file = spoilt(&m, PAGES, COUNT);
    for (size_t i = 0; i < sizeof cases / sizeof cases[0]; i++) {
        store_xor(m.file, cases[i].xor, cases[i].stored);
        EXPECT(is(checked(m.file, n), cases[i].right ? 0 : 3, 0));
        Log log = made_log(&m, PAGES, COUNT);
        store_xor(log.at, cases[i].xor, cases[i].stored);
        EXPECT(is(hive_recover_start(lend(0, file, n), n, lend(1, log.at, log.length), log.length).answer, cases[i].right ? 0 : 21, 0));
        EXPECT(is(hive_recover_next(log.at, log.length, 0).answer, cases[i].right ? 0 : 21, 0));
        free(log.at);
    }
    Log log = made_log(&m, PAGES, COUNT);
    file[12] ^= 1; /* the base block's stamp: read where the block is usable */
    store_xor(file, 0, 1);
    EXPECT(is(hive_recover_start(file, n, log.at, log.length).answer, 25, 0));
    store_xor(file, 0, 0);
    EXPECT(is(hive_recover_start(file, n, log.at, log.length).answer, 0, 0));
}

/* A log of type 1 closes with a XOR that differs in the last bit. */
static void t_closing_checksums(void)
{
    static const struct { uint32_t log, stored; } cases[] = {
        {1, 1}, {0, 1}, {3, 2}, {0xfffffffe, 0xfffffffe}, {0xffffffff, 0xfffffffe}, {0xfffffffc, 0xfffffffd},
    };
    Made m = sample();
    size_t n = made_length(&m);
    for (size_t i = 0; i < sizeof cases / sizeof cases[0]; i++) {
        uint8_t *h = lend(0, spoilt(&m, PAGES, COUNT), n);
        Log log = made_log(&m, PAGES, COUNT);
        store_xor(log.at, cases[i].log, 0);
        reseal(log.at);
        for (size_t k = 0; k < COUNT; k++)
            EXPECT(hive_recover_page(h, n, log.at, log.length, PAGES[k]).state == HIVE_DONE);
        EXPECT(hive_recover_close(h, n, log.at, log.length).state == HIVE_DONE);
        EXPECT(xor_of(h) == (cases[i].log ^ 1) && get32(h + 508) == cases[i].stored);
        EXPECT(hive_recover_start(h, n, log.at, log.length).state == HIVE_CLEAN);
        EXPECT(hive_find_key(h, n, (const uint16_t[]){'A'}, 1).number == 0 && is(checked(h, n), 0, 0));
        free(log.at);
    }
}

int main(void)
{
    test("nothing lent", t_nothing);
    test("lengths 0 to 600 and around 4096", t_short);
    test("random bytes", t_random);
    test("a hive with changed bytes", t_changed);
    test("accepted hives, report and map", t_accepted);
    test("each refusal of the check and of paths", t_refusals);
    test("bins", t_bins);
    test("level 512 and 513", t_levels);
    test("lookup", t_lookup);
    test("values", t_values);
    test("members of keys", t_members);
    test("values and keys by their offsets", t_offsets);
    test("data of many sizes", t_sizes);
    test("the key of 11 and 12 at each kind of cell", t_keys);
    test("no key where none is asked or accepted", t_keyless);
    test("what deletion left: the room of a record", t_left_room);
    test("what deletion left: neighbouring cells", t_left_neighbours);
    test("what deletion left: the lengths of names", t_left_names);
    test("what deletion left: backslashes", t_left_backslashes);
    test("what deletion left: merged cells, cells in use, a broken tree", t_left_merged);
    test("what deletion left: two bins", t_left_bins);
    test("what deletion left: each refusal", t_left_refusals);
    test("what deletion left: random bytes", t_left_random);
    test("a repair", t_repair);
    test("a repair at once", t_repair_at_once);
    test("refusals of recovery", t_log_refusals);
    test("checksums of hives and logs", t_checksums);
    test("checksums of closing sectors", t_closing_checksums);
    return counts();
}
