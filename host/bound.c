/* How much export, reg, keys and dump write of one file: keys may share lists, and values their data, so a small file may hold more than a disk does. */
#include "host.h"

/* The tests have a tool with another. */
#ifndef WRITTEN_FREELY
#define WRITTEN_FREELY (1ull << 30)
#endif
enum { TIMES = 100 };

uint64_t bound_of(const Order *o, const Hive *h)
{
    uint64_t times = TIMES * (uint64_t)h->bytes.length, least = WRITTEN_FREELY;
    return o->any_length ? (uint64_t)-1 : times > least ? times : least;
}

int past_bound(const Hive *h, uint64_t bound)
{
    return trouble(h->file, "what it holds takes more than %llu bytes, over 1 GiB and over a hundred times the file, and no more is written: "
                            "much of it is shared in the file; --any-length writes all of it", (unsigned long long)bound);
}
