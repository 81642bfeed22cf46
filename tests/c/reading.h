/* A second reading of keys and lists, for tests that compare a call with its definition; and dice. */
#ifndef READING_H
#define READING_H

#include <string.h>

#include "fixtures.h"

static uint32_t get16(const uint8_t *p)
{
    return p[0] | (uint32_t)p[1] << 8;
}

/* The data of the cell at an offset, by its own header, or NULL. */
static const uint8_t *cell_at(const Made *m, uint32_t offset, size_t *length)
{
    const uint8_t *bins = m->file + 4096;
    if (offset < 32 || offset % 8 != 0 || (size_t)offset + 4 > m->bins)
        return NULL;
    size_t size = 0u - get32(bins + offset);
    if (get32(bins + offset) < 0x80000000 || size % 8 != 0 || offset + size > m->bins)
        return NULL;
    *length = size - 4;
    return bins + offset + 4;
}

/* 11, 12 or 0 of a key. */
static uint32_t key_fault(const Made *m, uint32_t offset)
{
    size_t n;
    const uint8_t *d = cell_at(m, offset, &n);
    if (d == NULL)
        return 11;
    if (n < 76 || memcmp(d, "nk", 2) != 0)
        return 12;
    size_t length = get16(d + 72), wide = (d[2] & 0x20) == 0 ? 2 : 1;
    bool fits = length >= wide && length <= 255 * wide && length % wide == 0 && 76 + length <= n;
    for (size_t i = 0; fits && i < length; i += wide)
        fits = d[76 + i] != '\\' || (wide == 2 && d[76 + i + 1] != 0);
    return fits ? 0 : 12;
}

/* The same of a list: a leaf, or an `ri` where that may stand. */
static uint32_t list_fault(const Made *m, uint32_t offset, bool index_too)
{
    size_t n;
    const uint8_t *d = cell_at(m, offset, &n);
    if (d == NULL)
        return 11;
    if (n < 4)
        return 12;
    bool index = memcmp(d, "ri", 2) == 0, four = memcmp(d, "li", 2) == 0, eight = memcmp(d, "lf", 2) == 0 || memcmp(d, "lh", 2) == 0;
    if (!four && !eight && !(index && index_too))
        return 12;
    size_t count = get16(d + 2);
    return count >= 1 && 4 + count * (eight ? 8 : 4) <= n ? 0 : 12;
}

static uint32_t element(const Made *m, uint32_t list, size_t i)
{
    const uint8_t *d = data_of(m, list);
    return get32(d + 4 + i * (d[0] == 'l' && d[1] != 'i' ? 8 : 4));
}

/* The child that comes next of a key, by the two numbers behind it, which are moved on. Answers 0, a fault there, or that there is none. */
enum { NONE = 1 };

static inline uint32_t next_child(const Made *m, uint32_t *words, uint32_t *place)
{
    uint32_t list = get32(data_of(m, words[0]) + 28), leaf = list, fault;
    if (get32(data_of(m, words[0]) + 20) == 0)
        return NONE;
    *place = list;
    if ((fault = list_fault(m, list, true)) != 0)
        return fault;
    bool index = data_of(m, list)[0] == 'r';
    if (words[1] >= (index ? get16(data_of(m, list) + 2) : 1))
        return NONE;
    *place = leaf = index ? element(m, list, words[1]) : list;
    if ((fault = list_fault(m, leaf, false)) != 0)
        return fault;
    uint32_t count = get16(data_of(m, leaf) + 2);
    if (words[2] >= count)
        return NONE;
    *place = element(m, leaf, words[2]);
    words[1] += words[2] + 1 == count;
    words[2] = words[2] + 1 == count ? 0 : words[2] + 1;
    return key_fault(m, *place);
}

static uint32_t dice(void)
{
    static uint64_t seed = 88172645463325252;
    seed ^= seed << 13;
    seed ^= seed >> 7;
    seed ^= seed << 17;
    return (uint32_t)(seed >> 32);
}

#endif
