/* All keys, or those from one key down: one full path to a line, each key before those below it. */
#include <unistd.h>

#include "host.h"

/* A tree has levels 0 to 512, so at most 513 keys are open at once; the cursor has three words for each. */
enum { OPEN_MOST = LEVELS + 1, WORDS = 3 * OPEN_MOST };

/* Room for any one line: 512 names of 255 characters, each twice and in JSON, where one has 15 bytes. So it is known how long each is. */
static char line[1 << 21];

/* The names on the way from the root, whose own is left out, to the key that opened last. */
static Name way[LEVELS];

static void show(const Hive *h, uint32_t key, size_t level)
{
    if (say_json()) {
        say(h->file, "key");
        say_number("at", key);
    }
    say_path(way, level);
    say_end();
}

/* What is below a key that lies on a level: it is open already. */
static int walk(const Hive *h, uint32_t key, size_t level, uint64_t bound)
{
    static uint32_t levels[WORDS];
    levels[0] = key;
    for (size_t depth = 1, done = 1;;) {
        HiveWalk w = hive_walk_step(h->bytes.at, h->bytes.length, levels, WORDS, depth);
        if (w.state == HIVE_REFUSED)
            return refusal(h, w.answer, NULL);
        if (w.state == HIVE_OVER)
            return GOOD;
        depth = w.depth;
        if (w.state == HIVE_CLOSES)
            continue;
        way[level + depth - 2] = (Name){h->bytes.at + w.name, w.length, w.narrow == 1};
        show(h, w.answer.value, level + depth - 1);
        work_did(++done);
        if (said_bytes() > bound)
            return past_bound(h, bound);
    }
}

/* In a hive that was accepted every key's parent fields lead to the root. On a terminal the lines themselves show how far it is. */
static int list(const Order *o, const Hive *h, uint32_t key, uint64_t of)
{
    Name up[LEVELS];
    int level = climb(h, key, up);
    if (level < 0)
        return trouble(h->file, "the parent fields of the key at %u do not lead to the root", key);
    for (int i = 0; i < level; i++)
        way[i] = up[level - 1 - i];
    if (!isatty(1))
        work_starts("listing keys", of);
    setvbuf(stdout, line, _IOFBF, sizeof line);
    show(h, key, (size_t)level);
    int status = walk(h, key, (size_t)level, bound_of(o, h));
    work_ends();
    return status;
}

/* The check comes first: only in a hive that it accepts each key comes once, and the walk is as long as the tree. */
int keys_verb(const Order *o)
{
    Hive h;
    Path path;
    HiveReport r;
    int status = path_units(o->count == 2 ? o->words[1] : "", &path);
    if (status == GOOD)
        status = read_hive(o, o->words[0], &h);
    if (status == GOOD)
        status = check(o->words[0], h.bytes, &r);
    if (status != GOOD)
        return status;
    if (r.answer.number != 0)
        return refusal(&h, r.answer, NULL);
    uint32_t key;
    status = find_path(&h, &path, &key);
    return status == GOOD ? list(o, &h, key, path.units.length == 0 ? r.keys : 0) : status;
}
