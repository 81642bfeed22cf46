/* The key at a path. A path that is refused as it is given, with 16 or 17, is read as other tools write it: without a root before it, without the backslash at
 * its end, with the control set that Select\Current names, and then all of that with slashes for backslashes, which a name may hold too. What is read instead
 * is told. */
#include <stdlib.h>
#include <string.h>

#include "host.h"

/* How far the readings came. root: the offset of the hive's root. found: one of them leads to a key. deeper: one at least to a key below the root, and that is
 * the one whose refusal tells most. */
typedef struct {
    uint32_t root;
    bool found, deeper;
    HiveAnswer answer;
    Units units;
} Reading;

/* Changes the units where it fits them, which never become more. */
typedef bool Step(const Hive *h, Units *u);

size_t part_end(Units u, size_t from)
{
    while (from < u.length && u.at[from] != '\\')
        from++;
    return from;
}

static bool is_word(Units u, size_t from, size_t end, const char *capitals)
{
    while (from < end && *capitals != 0) {
        uint16_t c = u.at[from++];
        if ((c >= 'a' && c <= 'z' ? c - 32 : c) != *capitals++)
            return false;
    }
    return from == end && *capitals == 0;
}

/* How many parts stand for a machine's path to a hive's root: 0 where the first is none of these. */
static int root_parts(Units u, size_t from)
{
    static const struct {
        const char *name;
        int parts;
    } ROOTS[] = {{"HKLM", 2}, {"HKEY_LOCAL_MACHINE", 2}, {"HKU", 2}, {"HKEY_USERS", 2}, {"HKCU", 1}, {"HKEY_CURRENT_USER", 1}};
    size_t end = part_end(u, from);
    if (end > from && u.at[end - 1] == ':') /* as PowerShell names a drive */
        end--;
    for (size_t i = 0; i < sizeof ROOTS / sizeof ROOTS[0]; i++)
        if (is_word(u, from, end, ROOTS[i].name))
            return ROOTS[i].parts;
    return 0;
}

static bool leave_root(const Hive *h, Units *u)
{
    (void)h;
    size_t end = part_end(*u, 0), from = end < u->length && is_word(*u, 0, end, "COMPUTER") ? end + 1 : 0;
    int parts = root_parts(*u, from);
    if (parts == 0)
        return false;
    for (; parts > 0; parts--) {
        if (from >= u->length)
            return false;
        from = part_end(*u, from) + 1;
    }
    from = from > u->length ? u->length : from;
    *u = (Units){u->at + from, u->length - from};
    return true;
}

static bool leave_end(const Hive *h, Units *u)
{
    (void)h;
    bool fits = u->length > 0 && u->at[u->length - 1] == '\\';
    u->length -= fits;
    return fits;
}

/* The number of the current control set, or 0 where the hive does not name one that a key can be called by. */
static uint32_t current_set(const Hive *h)
{
    static const uint16_t SELECT[] = {'S', 'e', 'l', 'e', 'c', 't'}, CURRENT[] = {'C', 'u', 'r', 'r', 'e', 'n', 't'};
    uint8_t data[4];
    HiveValue v = hive_value_info(h->bytes.at, h->bytes.length, SELECT, 6, CURRENT, 7);
    if (v.answer.number != 0 || v.kind != 4 || v.length != 4)
        return 0;
    if (hive_value_copy(h->bytes.at, h->bytes.length, SELECT, 6, CURRENT, 7, data, 4).answer.number != 0)
        return 0;
    uint32_t n = data[0] + data[1] * 256u + data[2] * 65536u + data[3] * 16777216u;
    return n < 1000 ? n : 0;
}

/* ControlSetNNN is shorter than what it stands for, so it is written over the end of that. */
static bool name_set(const Hive *h, Units *u)
{
    char name[16];
    size_t end = part_end(*u, 0);
    if (!is_word(*u, 0, end, "CURRENTCONTROLSET"))
        return false;
    uint32_t n = current_set(h);
    if (n == 0)
        return false;
    size_t length = (size_t)snprintf(name, sizeof name, "ControlSet%03u", n);
    for (size_t i = 0; i < length; i++)
        u->at[end - length + i] = (uint8_t)name[i];
    *u = (Units){u->at + end - length, u->length - (end - length)};
    return true;
}

static bool turn_slashes(Units u)
{
    bool turned = false;
    for (size_t i = 0; i < u.length; i++)
        if (u.at[i] == '/') {
            u.at[i] = '\\';
            turned = true;
        }
    return turned;
}

static void read_so(const Hive *h, Units u, Reading *r)
{
    HiveAnswer a = hive_find_key(h->bytes.at, h->bytes.length, u.at, u.length);
    bool deeper = a.number == HIVE_FAULT_NO_KEY && a.key != r->root && !r->deeper;
    if (a.number != 0 && !deeper)
        return;
    r->answer = a;
    r->units = u;
    r->found = a.number == 0;
    r->deeper = true;
}

/* One step after the other, each on what those before it left; one that leads to a key, or below the root, is the last. */
static void read_steps(const Hive *h, Units u, Reading *r)
{
    static Step *const STEPS[] = {leave_root, leave_end, name_set};
    bool deeper = r->deeper;
    for (size_t i = 0; i < sizeof STEPS / sizeof STEPS[0] && !r->found && r->deeper == deeper; i++)
        if (STEPS[i](h, &u))
            read_so(h, u, r);
}

static int tell_reading(const Hive *h, Units given, Units read)
{
    FILE *to = words_begin();
    if (to == NULL)
        return trouble(h->file, "no memory");
    put_name(to, units_name(given), KEY_NAME);
    fputs(" is read as ", to);
    put_name(to, units_name(read), KEY_NAME);
    fputs(read.length == 0 ? "\\, the root" : "", to);
    note(h->file, words_end(to));
    say_read_as(units_name(read));
    return GOOD;
}

int find_instead(const Hive *h, Path *path, HiveAnswer *a)
{
    size_t n = path->units.length, bytes = n * sizeof *path->units.at;
    if (n == 0 || (a->number != HIVE_FAULT_PATH_PARTS && a->number != HIVE_FAULT_NO_KEY))
        return GOOD;
    Reading r = {.root = hive_find_key(h->bytes.at, h->bytes.length, NULL, 0).value};
    r.deeper = a->number == HIVE_FAULT_NO_KEY && a->key != r.root;
    uint16_t *room = malloc(2 * bytes);
    if (room == NULL)
        return trouble(h->file, "no memory");
    memcpy(room, path->units.at, bytes);
    memcpy(room + n, path->units.at, bytes);
    read_steps(h, (Units){room, n}, &r);
    if (!r.found && turn_slashes((Units){room + n, n})) {
        read_so(h, (Units){room + n, n}, &r);
        read_steps(h, (Units){room + n, n}, &r);
    }
    if (r.units.at == NULL) {
        free(room);
        return GOOD;
    }
    Units given = path->units;
    *a = r.answer;
    path->text = "";
    path->units = r.units;
    return tell_reading(h, given, r.units);
}

int find_path(const Hive *h, Path *path, uint32_t *key)
{
    HiveAnswer a = hive_find_key(h->bytes.at, h->bytes.length, path->units.at, path->units.length);
    int status = find_instead(h, path, &a);
    *key = a.value;
    return status != GOOD ? status : a.number != 0 ? refusal(h, a, path) : GOOD;
}
