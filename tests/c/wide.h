/* A root with up to 65,535 subkeys, in lists of every shape. The keys and leaves of the hive that was made last stand in two tables. */
#ifndef WIDE_H
#define WIDE_H

#include <stdio.h>

#include "fixtures.h"

enum { MOST = 65535, LONGEST_NAME = 16 };
static uint32_t keys[MOST], leaves[MOST];

/* Subkey i. The case of a letter does not matter, neither stored nor asked. */
static const char *name_of(size_t i)
{
    static char name[LONGEST_NAME];
    snprintf(name, sizeof name, "%c%05zu", i % 2 == 0 ? 'N' : 'n', i);
    return name;
}

/* A list of the first keys: leaves of so many below an `ri`, of one kind or of all in turn ("??"); with 0 it is one leaf. */
static uint32_t list_of(Made *m, size_t count, size_t each, const char *kind)
{
    static const char *const kinds[] = {"li", "lf", "lh"};
    size_t n = 0;
    if (each == 0)
        return new_leaf(m, kind[0] == '?' ? "lh" : kind, keys, count);
    for (size_t from = 0; from < count; from += each, n++)
        leaves[n] = new_leaf(m, kind[0] == '?' ? kinds[n % 3] : kind, keys + from, count - from < each ? count - from : each);
    return new_index(m, leaves, n);
}

/* A root with so many subkeys. */
static Made wide(size_t count, size_t each, const char *kind)
{
    Made m = made((256 + 112 * count + 4095) / 4096 * 4096 + 4096, 5);
    m.root = new_key(&m, "R", 0);
    for (size_t i = 0; i < count; i++)
        keys[i] = new_key(&m, name_of(i), m.root);
    hang_keys(&m, m.root, list_of(&m, count, each, kind), (uint32_t)count);
    finish(&m);
    return m;
}

#endif
