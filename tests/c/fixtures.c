#include <stdlib.h>
#include <string.h>

#include "fixtures.h"

void put16(uint8_t *at, uint32_t n)
{
    at[0] = (uint8_t)n;
    at[1] = (uint8_t)(n >> 8);
}

void put32(uint8_t *at, uint32_t n)
{
    put16(at, n & 0xffff);
    put16(at + 2, n >> 16);
}

uint32_t get32(const uint8_t *at)
{
    return at[0] | at[1] << 8 | at[2] << 16 | (uint32_t)at[3] << 24;
}

uint32_t xor_of(const uint8_t *block)
{
    uint32_t x = 0;
    for (int i = 0; i < 508; i += 4)
        x ^= get32(block + i);
    return x;
}

uint32_t checksum(const uint8_t *block)
{
    uint32_t x = xor_of(block);
    return x == 0 ? 1 : x == 0xffffffff ? 0xfffffffe : x;
}

void reseal(uint8_t *block)
{
    put32(block + 508, checksum(block));
}

static const uint8_t STAMP[8] = {1, 2, 3, 4, 5, 6, 7, 8};

Made made_in(uint8_t *file, size_t bins, uint32_t minor)
{
    Made m = {file, bins, 32, 32, minor, 0};
    memcpy(m.file + 4096, "hbin", 4);
    put32(m.file + 4096 + 8, (uint32_t)bins);
    memcpy(m.file + 4096 + 20, STAMP, 8);
    return m;
}

Made made(size_t bins, uint32_t minor)
{
    uint8_t *file = calloc(1, 4096 + bins);
    if (file == NULL)
        abort();
    return made_in(file, bins, minor);
}

size_t made_length(const Made *m)
{
    return 4096 + m->bins;
}

uint8_t *data_of(const Made *m, uint32_t cell)
{
    return m->file + 4096 + cell + 4;
}

uint32_t new_cell(Made *m, size_t length)
{
    uint32_t at = m->next, size = (uint32_t)((length + 4 + 7) / 8 * 8);
    if (at + (size_t)size > m->bins)
        abort();
    put32(m->file + 4096 + at, 0u - size);
    m->next += size;
    return at;
}

uint32_t new_key(Made *m, const char *name, uint32_t parent)
{
    size_t n = strlen(name);
    uint32_t key = new_cell(m, 76 + n);
    uint8_t *d = data_of(m, key);
    memcpy(d, "nk", 2);
    put16(d + 2, 0x20);
    put32(d + 16, parent);
    put16(d + 72, (uint32_t)n);
    memcpy(d + 76, name, n);
    return key;
}

static uint32_t upper(uint8_t c)
{
    if ((c >= 'a' && c <= 'z') || (c >= 0xe0 && c <= 0xfe && c != 0xf7))
        return c - 32u;
    return c == 0xff ? 0x178 : c;
}

static uint32_t hash(const uint8_t *name, size_t n)
{
    uint32_t h = 0;
    for (size_t i = 0; i < n; i++)
        h = h * 37 + upper(name[i]);
    return h;
}

/* The first four bytes of a name, and zeros behind a shorter one. */
static uint32_t hint(const uint8_t *name, size_t n)
{
    uint32_t h = 0;
    for (size_t i = 0; i < n && i < 4; i++)
        h |= (uint32_t)name[i] << 8 * i;
    return h;
}

uint32_t new_leaf(Made *m, const char *kind, const uint32_t *keys, size_t count)
{
    size_t wide = kind[1] == 'i' ? 4 : 8;
    uint32_t leaf = new_cell(m, 4 + wide * count);
    uint8_t *d = data_of(m, leaf);
    memcpy(d, kind, 2);
    put16(d + 2, (uint32_t)count);
    for (size_t i = 0; i < count; i++) {
        put32(d + 4 + wide * i, keys[i]);
        if (wide == 8) {
            uint8_t *k = data_of(m, keys[i]);
            size_t n = k[72] | (size_t)k[73] << 8;
            put32(d + 8 + wide * i, kind[1] == 'h' ? hash(k + 76, n) : hint(k + 76, n));
        }
    }
    return leaf;
}

uint32_t new_index(Made *m, const uint32_t *leaves, size_t count)
{
    uint32_t index = new_cell(m, 4 + 4 * count);
    uint8_t *d = data_of(m, index);
    memcpy(d, "ri", 2);
    put16(d + 2, (uint32_t)count);
    for (size_t i = 0; i < count; i++)
        put32(d + 4 + 4 * i, leaves[i]);
    return index;
}

static uint32_t new_segments(Made *m, const uint8_t *data, size_t length)
{
    size_t count = (length + 16343) / 16344;
    uint32_t db = new_cell(m, 8), list = new_cell(m, 4 * count);
    memcpy(data_of(m, db), "db", 2);
    put16(data_of(m, db) + 2, (uint32_t)count);
    put32(data_of(m, db) + 4, list);
    for (size_t i = 0; i < count; i++) {
        size_t n = i + 1 < count ? 16344 : length - 16344 * i;
        uint32_t segment = new_cell(m, n);
        memcpy(data_of(m, segment), data + 16344 * i, n);
        put32(data_of(m, list) + 4 * i, segment);
    }
    return db;
}

static uint32_t new_data(Made *m, const uint8_t *data, size_t length)
{
    if (length > 16344 && m->minor >= 4)
        return new_segments(m, data, length);
    uint32_t cell = new_cell(m, length);
    memcpy(data_of(m, cell), data, length);
    return cell;
}

uint32_t new_value(Made *m, const char *name, uint32_t type, const uint8_t *data, size_t length)
{
    size_t n = strlen(name);
    uint32_t value = new_cell(m, 20 + n);
    uint8_t *d = data_of(m, value);
    memcpy(d, "vk", 2);
    put16(d + 2, (uint32_t)n);
    put32(d + 12, type);
    put16(d + 16, 1);
    memcpy(d + 20, name, n);
    if (length <= 4) {
        put32(d + 4, 0x80000000u | (uint32_t)length);
        memcpy(d + 8, data, length);
        return value;
    }
    put32(d + 4, (uint32_t)length);
    put32(data_of(m, value) + 8, new_data(m, data, length));
    return value;
}

void hang_keys(Made *m, uint32_t key, uint32_t list, uint32_t count)
{
    put32(data_of(m, key) + 20, count);
    put32(data_of(m, key) + 28, list);
}

void hang_values(Made *m, uint32_t key, const uint32_t *values, size_t count)
{
    uint32_t list = new_cell(m, 4 * count);
    for (size_t i = 0; i < count; i++)
        put32(data_of(m, list) + 4 * i, values[i]);
    put32(data_of(m, key) + 36, (uint32_t)count);
    put32(data_of(m, key) + 40, list);
}

uint32_t new_item(Made *m, size_t room)
{
    uint32_t item = new_cell(m, 20 + room);
    uint8_t *d = data_of(m, item);
    memcpy(d, "sk", 2);
    put32(d + 4, item);
    put32(d + 8, item);
    return item;
}

/* No more subkeys than the key counts: a list may be made to repeat itself. */
static uint32_t secure_list(Made *m, uint32_t list, uint32_t item, uint32_t *left)
{
    const uint8_t *d = data_of(m, list);
    uint32_t count = d[2] | (uint32_t)d[3] << 8, keys = 0;
    size_t wide = d[1] == 'i' ? 4 : 8;
    for (uint32_t i = 0; i < count && *left > 0; i++) {
        uint32_t at = get32(d + 4 + wide * i);
        if (d[0] == 'r')
            keys += secure_list(m, at, item, left);
        else {
            (*left)--;
            keys += secure(m, at, item);
        }
    }
    return keys;
}

uint32_t secure(Made *m, uint32_t key, uint32_t item)
{
    uint8_t *d = data_of(m, key);
    uint32_t left = get32(d + 20);
    put32(d + 44, item);
    return 1 + (left == 0 ? 0 : secure_list(m, get32(d + 28), item, &left));
}

/* One security item for all keys that the root reaches; the rest of the bin is one free cell; and the base block is written. */
void finish(Made *m)
{
    if (m->item == 0)
        m->item = new_item(m, 0);
    put32(data_of(m, m->item) + 12, secure(m, m->root, m->item));
    if (m->next < m->bins)
        put32(m->file + 4096 + m->next, (uint32_t)(m->bins - m->next));
    memcpy(m->file, "regf", 4);
    put32(m->file + 4, 7);
    put32(m->file + 8, 7);
    memcpy(m->file + 12, STAMP, 8);
    put32(m->file + 20, 1);
    put32(m->file + 24, m->minor);
    put32(m->file + 32, 1);
    put32(m->file + 36, m->root);
    put32(m->file + 40, (uint32_t)m->bins);
    put32(m->file + 44, 1);
    reseal(m->file);
}

static uint32_t chain(Made *m, uint32_t from, const char *const *names, size_t count)
{
    for (size_t i = 0; i < count; i++) {
        uint32_t key = new_key(m, names[i], from);
        hang_keys(m, from, new_leaf(m, "lh", &key, 1), 1);
        from = key;
    }
    return from;
}

static void add_values(Made *m, uint32_t key)
{
    static const uint8_t file_name[] = "%\0S\0y\0s\0t\0e\0m\0R\0o\0o\0t\0%\0\\\0\xe9\0.\0d\0l\0l\0\0"; /* a unit 0 ends it */
    static const uint8_t several[] = "o\0n\0e\0\0\0t\0w\0o\0\0\0\0"; /* and the list */
    static const uint8_t pair[] = "\x3d\xd8\x00\xde"; /* U+1F600 */
    static uint8_t large[40000];
    for (size_t i = 0; i < sizeof large; i++)
        large[i] = (uint8_t)(i * 7 + i / 251);
    uint32_t v[] = {
        new_value(m, "EventMessageFile", 2, file_name, sizeof file_name),
        new_value(m, "", 1, (const uint8_t *)"x\0y\0\0", 6),
        new_value(m, "TypesSupported", 4, (const uint8_t *)"\7\0\0", 4),
        new_value(m, "Big", 5, (const uint8_t *)"\0\0\1\2", 4),
        new_value(m, "Long", 11, (const uint8_t *)"\1\0\0\0\0\0\0\x80", 8),
        new_value(m, "Several", 7, several, sizeof several),
        new_value(m, "Pair", 1, pair, 4),
        new_value(m, "Bytes", 3, large, 33),
        new_value(m, "Large", 3, large, sizeof large),
        new_value(m, "Empty", 3, large, 0),
    };
    hang_values(m, key, v, sizeof v / sizeof v[0]);
}

Made sample(void)
{
    static const char *const event[] = {"ControlSet001", "Services", "EventLog", "Application", "Print"};
    Made m = made(16 * 4096, 5);
    m.root = new_key(&m, "R", 0);
    uint32_t first[3], second[2], third[2], leaves[3];
    uint32_t a = new_key(&m, "a", m.root), b = new_key(&m, "b", m.root), d = new_key(&m, "d", m.root);
    uint32_t c = new_key(&m, event[0], m.root);
    for (int i = 0; i < 3; i++)
        first[i] = new_key(&m, (const char *[]){"k1", "k2", "k3"}[i], a);
    for (int i = 0; i < 2; i++) {
        second[i] = new_key(&m, (const char *[]){"k4", "k5"}[i], a);
        third[i] = new_key(&m, (const char *[]){"k6", "k7"}[i], a);
    }
    leaves[0] = new_leaf(&m, "li", first, 3);
    leaves[1] = new_leaf(&m, "lf", second, 2);
    leaves[2] = new_leaf(&m, "lh", third, 2);
    hang_keys(&m, a, new_index(&m, leaves, 3), 7);
    uint32_t roots[] = {a, b, c, d};
    hang_keys(&m, m.root, new_leaf(&m, "lh", roots, 4), 4);
    add_values(&m, chain(&m, c, event + 1, 4));
    finish(&m);
    return m;
}

Log made_log(const Made *good, const uint32_t *pages, size_t count)
{
    size_t bitmap = good->bins / 4096, start = (516 + bitmap + 511) / 512 * 512;
    Log log = {calloc(1, start + 512 * count), count == 0 ? 516 + bitmap : start + 512 * count};
    if (log.at == NULL)
        abort();
    memcpy(log.at, good->file, 512);
    put32(log.at + 28, 1);
    reseal(log.at);
    memcpy(log.at + 512, "DIRT", 4);
    for (size_t i = 0; i < count; i++) {
        log.at[516 + pages[i] / 8] |= (uint8_t)(1 << pages[i] % 8);
        memcpy(log.at + start + 512 * i, good->file + 4096 + 512 * pages[i], 512);
    }
    return log;
}

uint8_t *spoilt(const Made *good, const uint32_t *pages, size_t count)
{
    uint8_t *old = malloc(made_length(good));
    if (old == NULL)
        abort();
    memcpy(old, good->file, made_length(good));
    for (size_t i = 0; i < count; i++)
        memset(old + 4096 + 512 * pages[i] + (pages[i] == 0 ? 64 : 0), 0xee, 400);
    put32(old + 4, 8);
    reseal(old);
    return old;
}

static uint32_t turned(uint32_t x, int by)
{
    return x << by | x >> (32 - by);
}

static void mix(uint32_t *low, uint32_t *high, uint32_t word)
{
    *low += word;
    *high ^= *low;
    *low = turned(*low, 20) + *high;
    *high = turned(*high, 9) ^ *low;
    *low = turned(*low, 27) + *high;
    *high = turned(*high, 19);
}

uint64_t marvin(const uint8_t *message, size_t length)
{
    uint32_t low = 0x7a4e55c5, high = 0x82ef4d88, last = 0x80;
    for (size_t i = 0; i + 4 <= length; i += 4)
        mix(&low, &high, get32(message + i));
    for (size_t i = length; i > length / 4 * 4; i--)
        last = last << 8 | message[i - 1];
    mix(&low, &high, last);
    mix(&low, &high, 0);
    return (uint64_t)high << 32 | low;
}

static void put64(uint8_t *at, uint64_t n)
{
    put32(at, (uint32_t)n);
    put32(at + 4, (uint32_t)(n >> 32));
}

void rehash(uint8_t *entry)
{
    put64(entry + 24, marvin(entry + 40, get32(entry + 4) - 40));
    put64(entry + 32, marvin(entry, 32));
}

Log new_log(const Made *good, uint32_t number)
{
    Log log = {malloc(512), 512};
    if (log.at == NULL)
        abort();
    memcpy(log.at, good->file, 512);
    put32(log.at + 4, number);
    put32(log.at + 8, number);
    put32(log.at + 28, 6);
    reseal(log.at);
    return log;
}

void add_entry(Log *log, uint32_t number, const Made *good, const uint32_t *pages, size_t count, enum Version version)
{
    size_t size = (40 + 520 * count + 511) / 512 * 512;
    uint8_t *at = log->at = realloc(log->at, log->length + size), *e = at + log->length;
    if (at == NULL)
        abort();
    memset(e, 0, size);
    memcpy(e, "HvLE", 4);
    put32(e + 4, (uint32_t)size);
    put32(e + 12, number);
    put32(e + 16, (uint32_t)good->bins);
    put32(e + 20, (uint32_t)count);
    for (size_t i = 0; i < count; i++) {
        uint8_t *to = e + 40 + 8 * count + 512 * i;
        put32(e + 40 + 8 * i, 512 * pages[i]);
        put32(e + 44 + 8 * i, 512);
        memcpy(to, good->file + 4096 + 512 * pages[i], 512);
        if (version == OLDER)
            memset(to + 200, 0xdd, 100);
    }
    rehash(e);
    log->length += size;
}
