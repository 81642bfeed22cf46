/* A key's security descriptor: as SDDL on a line, or its bytes, as build --descriptor takes them. */
#include "host.h"

static void show(const Hive *h, uint32_t key, Bytes descriptor)
{
    if (!say_json())
        put_sddl(stdout, descriptor);
    else {
        say(h->file, "descriptor");
        say_number("at", key);
        say_number("length", descriptor.length);
        fputs(",\"security\":\"", stdout);
        put_sddl(stdout, descriptor);
        fputs("\",\"hex\":\"", stdout);
        put_hex(stdout, descriptor);
        fputs("\"", stdout);
    }
    say_end();
}

/* To the new file OUT, raw to standard output if that is -, which `raw` is then, or as words. */
static int write_out(const Order *o, const Hive *h, uint32_t key, FILE *raw)
{
    HivePiece p = hive_key_security(h->bytes.at, h->bytes.length, key);
    if (p.answer.number != 0)
        return refusal(h, p.answer, NULL);
    Bytes descriptor = {h->bytes.at + p.at, p.length};
    if (o->count == 3)
        return raw != NULL ? put_output(raw, descriptor) : write_new(o->words[2], descriptor);
    show(h, key, descriptor);
    return GOOD;
}

int descriptor_verb(const Order *o)
{
    Hive h;
    Path path;
    uint32_t key;
    FILE *raw = NULL;
    int status = path_units(o->words[1], &path);
    if (status == GOOD && o->count == 3 && is_standard(o->words[2]))
        status = raw_output("raw bytes", &raw);
    if (status == GOOD)
        status = read_hive(o, o->words[0], &h);
    if (status == GOOD)
        status = find_path(&h, &path, &key);
    return status == GOOD ? write_out(o, &h, key, raw) : status;
}
