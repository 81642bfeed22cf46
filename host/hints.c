/* What is wrong with a path that was not found, and what was perhaps meant. */
#include <string.h>

#include "host.h"

static Name part(Units u, size_t from, size_t to)
{
    return (Name){(const uint8_t *)(u.at + from), 2 * (to - from), false};
}

/* How many parts have that name. */
static size_t called_so(Units u, Name name)
{
    size_t n = 0;
    for (size_t from = 0, end; from <= u.length; from = end + 1) {
        end = part_end(u, from);
        n += is_called(name, (Units){u.at + from, end - from});
    }
    return n;
}

/* The part from `from` on is the first that is not there, if the deepest key that was found is the one before it. That is certain where no other part has this
 * key's name. Else the lookup that halves is asked, which reads few keys whatever the file holds. */
static bool is_certain(const Hive *h, uint32_t deepest, Units u, size_t from)
{
    HiveKey k = hive_key_at(h->bytes.at, h->bytes.length, deepest);
    if (k.answer.number == 0 && called_so(u, (Name){h->bytes.at + k.name, k.length, k.narrow == 1}) == (from > 0))
        return true;
    HiveAnswer a = hive_quick_key(h->bytes.at, h->bytes.length, u.at, part_end(u, from));
    return a.number == HIVE_FAULT_NO_KEY && a.key == deepest;
}

/* Where the part starts that is not there: behind those that have the names on the way up from the deepest key that was found. Answers false where they do not
 * agree: in a hive that was not checked a parent field may lead anywhere. The path is not searched again, which may take long. */
static bool find_missing(const Hive *h, uint32_t deepest, Units u, size_t *from)
{
    Name names[LEVELS];
    int level = climb(h, deepest, names);
    *from = 0;
    for (int i = level; i > 0; i--) {
        size_t end = part_end(u, *from);
        if (end == u.length || !is_called(names[i - 1], (Units){u.at + *from, end - *from}))
            return false;
        *from = end + 1;
    }
    return level >= 0 && is_certain(h, deepest, u, *from);
}

/* The first part that is not there, and the key that lacks it. */
static void put_missing(FILE *to, const Hive *h, uint32_t deepest, Units u)
{
    size_t from;
    if (!find_missing(h, deepest, u, &from))
        return;
    fputs(from == 0 ? ": the root" : ": ", to);
    for (size_t i = 0, stop; i + 1 < from; i = stop + 1) {
        stop = part_end(u, i);
        fputs(i == 0 ? "" : "\\", to);
        put_name(to, part(u, i, stop), KEY_NAME);
    }
    fputs(" has no subkey ", to);
    put_name(to, part(u, from, part_end(u, from)), KEY_NAME);
    put_nearest(to, h, deepest, part(u, from, part_end(u, from)), KEY_NAME);
}

static bool starts(const char *text, const char *with)
{
    for (; *with != 0; text++, with++)
        if ((*text >= 'a' && *text <= 'z' ? *text - 32 : *text) != *with)
            return false;
    return true;
}

static bool names_a_machine(const char *text)
{
    static const char *const ROOTS[] = {"HKEY_", "HKLM\\", "HKLM:", "HKCU\\", "HKCU:", "HKCR\\", "HKU\\", "HKCC\\", "COMPUTER\\HKEY_"};
    text += strspn(text, "\\");
    for (size_t i = 0; i < sizeof ROOTS / sizeof ROOTS[0]; i++)
        if (starts(text, ROOTS[i]))
            return true;
    return false;
}

void put_hints(FILE *to, const Hive *h, const Path *path, HiveAnswer a)
{
    if (a.number == HIVE_FAULT_NO_KEY)
        put_missing(to, h, a.key, path->units);
    if (a.number == HIVE_FAULT_NO_VALUE && path->value.length > 0)
        put_nearest(to, h, a.key, units_name(path->value), VALUE_NAME);
    if (a.number != HIVE_FAULT_NO_KEY && a.number != HIVE_FAULT_PATH_PARTS)
        return;
    if (names_a_machine(path->text))
        fputs("; a path starts below the hive's own root: leave out HKEY_LOCAL_MACHINE\\SYSTEM and the like", to);
}
