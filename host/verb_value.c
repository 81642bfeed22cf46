/* A value's data. */
#include <stdlib.h>

#include "host.h"

/* Standard output for the data alone, where OUT is -. */
static FILE *raw;

/* To the new file OUT, raw to standard output if that is -, or as words. */
static int show(const Order *o, uint32_t kind, Bytes data)
{
    char room[16];
    const char *file = o->words[0];
    if (o->count == 4)
        return raw != NULL ? put_output(raw, data) : write_new(o->words[3], data);
    if (!say_json())
        print_data(file, kind, data);
    else {
        say(file, "data");
        say_word("type", kind_name(kind, room));
        say_number("length", data.length);
        say_data(kind, data);
        say_end();
    }
    return GOOD;
}

static HiveValue info(const Hive *h, const Path *path, Units name)
{
    return hive_value_info(h->bytes.at, h->bytes.length, path->units.at, path->units.length, name.at, name.length);
}

/* Of a path that is read as another one the value is asked for again. */
static int ask(const Hive *h, Path *path, Units name, HiveValue *v)
{
    *v = info(h, path, name);
    if (v->answer.number == 0)
        return GOOD;
    int status = find_instead(h, path, &v->answer);
    if (status == GOOD && v->answer.number == 0)
        *v = info(h, path, name);
    return status != GOOD ? status : v->answer.number != 0 ? refusal(h, v->answer, path) : GOOD;
}

/* The first value of that name. */
static int first(const Order *o, const Hive *h, Path *path, Units name)
{
    HiveValue v;
    int status = ask(h, path, name, &v);
    if (status != GOOD)
        return status;
    Bytes b = h->bytes;
    Units p = path->units;
    Bytes data = {malloc(v.length + 1), v.length};
    if (data.at == NULL)
        return trouble(h->file, "no memory");
    HiveCopy c = hive_value_copy(b.at, b.length, p.at, p.length, name.at, name.length, data.at, data.length);
    return c.answer.number != 0 ? refusal(h, c.answer, path) : show(o, v.kind, data);
}

/* Among the values of a key those of one name are counted, from 1 on. */
static HiveMember search(const Order *o, const Hive *h, uint32_t key, Units name)
{
    size_t seen = 0;
    for (size_t n = 0;; n++) {
        HiveMember m = hive_nth_value(h->bytes.at, h->bytes.length, key, n);
        if (m.state == HIVE_THERE && !is_called((Name){h->bytes.at + m.name, m.length, m.narrow == 1}, name))
            continue;
        if (m.state != HIVE_THERE || ++seen == o->nth)
            return m;
    }
}

static int at_offset(const Order *o, const Hive *h, uint32_t value)
{
    HiveValue v = hive_value_at(h->bytes.at, h->bytes.length, value);
    if (v.answer.number != 0)
        return refusal(h, v.answer, NULL);
    Bytes data = {malloc(v.length + 1), v.length};
    if (data.at == NULL)
        return trouble(h->file, "no memory");
    HiveCopy c = hive_copy_at(h->bytes.at, h->bytes.length, value, data.at, data.length);
    return c.answer.number != 0 ? refusal(h, c.answer, NULL) : show(o, v.kind, data);
}

static int nth(const Order *o, const Hive *h, Path *path, Units name)
{
    uint32_t key;
    int status = find_path(h, path, &key);
    if (status != GOOD)
        return status;
    HiveMember m = search(o, h, key, name);
    if (m.state == HIVE_REFUSED)
        return refusal(h, m.answer, NULL);
    if (m.state == HIVE_NO_MORE)
        return refusal(h, (HiveAnswer){HIVE_FAULT_NO_VALUE, 0, key, 0}, path);
    return at_offset(o, h, m.answer.value);
}

int value_verb(const Order *o)
{
    Hive h;
    Path path;
    Units name;
    int status = path_units(o->words[1], &path);
    if (status == GOOD)
        status = name_units(o->words[2], &name);
    if (status == GOOD && o->count == 4 && is_standard(o->words[3]))
        status = raw_output("raw bytes", &raw);
    if (status == GOOD)
        status = read_hive(o, o->words[0], &h);
    if (status != GOOD)
        return status;
    path.value = name;
    return o->nth > 0 ? nth(o, &h, &path, name) : first(o, &h, &path, name);
}
