/* What a key holds. */
#include <unistd.h>

#include "host.h"

typedef HiveMember Nth(const uint8_t *, size_t, uint32_t, size_t);
typedef int Show(const Order *, const Hive *, HiveMember);

static Name name_of(const Hive *h, HiveMember m)
{
    return (Name){h->bytes.at + m.name, m.length, m.narrow == 1};
}

static int show_key(const Order *o, const Hive *h, HiveMember m)
{
    char room[STAMP_ROOM];
    HiveKey k = {0};
    if (o->wide && (k = hive_key_at(h->bytes.at, h->bytes.length, m.answer.value)).answer.number != 0)
        return refusal(h, k.answer, NULL);
    say(h->file, "key");
    say_only("at", m.answer.value);
    if (o->wide)
        say_word("written", stamp_text(k.written, room));
    say_name(name_of(h, m), KEY_NAME);
    say_end();
    return GOOD;
}

static int show_value(const Order *o, const Hive *h, HiveMember m)
{
    (void)o;
    char room[16];
    HiveValue v = hive_value_at(h->bytes.at, h->bytes.length, m.answer.value);
    if (v.answer.number != 0)
        return refusal(h, v.answer, NULL);
    say(h->file, "value");
    say_word("type", kind_name(v.kind, room));
    say_bare("length", v.length);
    say_only("at", m.answer.value);
    say_name(name_of(h, m), VALUE_NAME);
    say_end();
    return GOOD;
}

/* All that one of the two calls gives, one after the other. */
static int each(const Order *o, const Hive *h, uint32_t key, Nth *nth, Show *show)
{
    for (size_t n = 0;; n++) {
        HiveMember m = nth(h->bytes.at, h->bytes.length, key, n);
        if (m.state == HIVE_REFUSED)
            return refusal(h, m.answer, NULL);
        if (m.state == HIVE_NO_MORE)
            return GOOD;
        int status = show(o, h, m);
        if (status != GOOD)
            return status;
        work_did(n + 1);
    }
}

/* On a terminal the lines themselves show how far it is. */
static int list(const Order *o, const Hive *h, uint32_t key)
{
    if (!isatty(1))
        work_starts("listing", 0);
    int status = each(o, h, key, hive_nth_subkey, show_key);
    if (status == GOOD)
        status = each(o, h, key, hive_nth_value, show_value);
    work_ends();
    return status;
}

int list_verb(const Order *o)
{
    Hive h;
    Path path;
    int status = path_units(o->count == 2 ? o->words[1] : "", &path);
    if (status == GOOD)
        status = read_hive(o, o->words[0], &h);
    if (status != GOOD)
        return status;
    uint32_t key;
    status = find_path(&h, &path, &key);
    return status == GOOD ? list(o, &h, key) : status;
}
