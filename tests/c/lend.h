/* Memory that is lent to a call: what lies behind it cannot be read. */
#ifndef LEND_H
#define LEND_H

#include <stdint.h>
#include <stdlib.h>
#include <string.h>
#include <sys/mman.h>

/* A copy that ends where an unreadable page starts. Each of the few slots is used again and again. */
enum { SLOTS = 4, ROOM = 1 << 20 };
static uint8_t *slot_end[SLOTS];

static uint8_t *lend(int slot, const void *from, size_t length)
{
    if (slot_end[slot] == NULL) {
        uint8_t *p = mmap(NULL, ROOM + 4096, PROT_READ | PROT_WRITE, MAP_PRIVATE | MAP_ANONYMOUS, -1, 0);
        if (p == MAP_FAILED || mprotect(p + ROOM, 4096, PROT_NONE) != 0)
            abort();
        slot_end[slot] = p + ROOM;
    }
    if (length > ROOM)
        abort();
    uint8_t *p = slot_end[slot] - length;
    if (length > 0)
        memcpy(p, from, length);
    return p;
}

#endif
