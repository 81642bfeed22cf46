/* The frames of an export one by one, and the keys that are open while they are read. */
#include "host.h"

enum { NAME_MOST = 510 }; /* bytes of a key's name */

/* A frame is gone when the next run of the export is asked for: so each name has a place of its own. */
static uint8_t room[LEVELS * NAME_MOST];
Way open_keys;

uint32_t word_at(const uint8_t *at)
{
    return at[0] | at[1] << 8 | at[2] << 16 | (uint32_t)at[3] << 24;
}

void enter_key(Name name)
{
    size_t at = open_keys.level++;
    if (at == 0)
        return;
    uint8_t *to = room + (at - 1) * NAME_MOST;
    open_keys.names[at - 1] = (Name){to, 2 * unit_count(name), false};
    for (size_t i = 0; i < unit_count(name); i++) {
        to[2 * i] = (uint8_t)unit_at(name, i);
        to[2 * i + 1] = (uint8_t)(unit_at(name, i) >> 8);
    }
}

void leave_key(void)
{
    open_keys.level--;
}

int go_below(Export *x, Path *path, void (*enter)(Name))
{
    Name up[LEVELS];
    uint32_t key;
    int status = find_path(x->h, path, &key);
    if (status != GOOD)
        return status;
    int level = climb(x->h, key, up);
    if (level < 0)
        return trouble(x->h->file, "the parent fields of the key at %u do not lead to the root", key);
    if (level > 0)
        enter((Name){NULL, 0, false});
    for (int i = level - 1; i > 0; i--)
        enter(up[i]);
    export_below(x, key);
    return GOOD;
}

static int each_in(const Hive *h, Bytes piece, Frame *show)
{
    int status = GOOD;
    for (size_t i = 0, length; i < piece.length && status == GOOD; i += 6 + length) {
        length = word_at(piece.at + i);
        status = show(h, piece.at[i + 4], piece.at + i + 6, length);
    }
    return status;
}

int each_frame(Export *x, FILE *to, Frame *show)
{
    Bytes piece;
    int status = export_next(x, &piece);
    while (status == GOOD && piece.length > 0 && !ferror(to)) {
        status = each_in(x->h, piece, show);
        if (status == GOOD)
            status = export_next(x, &piece);
    }
    return status;
}
