/* Where a key is, and what its record names. */
#include "host.h"

/* What a key names may be none that can be read: that is told, and the key is shown all the same. */
static void tell(const Hive *h, HivePiece p, const char *what)
{
    char words[120];
    snprintf(words, sizeof words, "its %s cannot be read: refused %u at %u (see: hive explain %u)", what, p.answer.number, p.answer.place, p.answer.number);
    if (p.answer.number != 0)
        note(h->file, words);
}

/* UTF-16LE in quotation marks, as JSON writes it, for a class name may hold anything; of an odd number of bytes hexadecimal digits. */
static void say_class(const Hive *h, HivePiece p)
{
    bool odd = p.length % 2 == 1;
    if (p.answer.number != 0 || p.length == 0) {
        fputs(say_json() ? ",\"class\":null" : "", stdout);
        return;
    }
    fputs(!say_json() ? " class " : odd ? ",\"class_hex\":\"" : ",\"class\":", stdout);
    if (odd)
        put_hex(stdout, (Bytes){h->bytes.at + p.at, p.length});
    else
        put_json_name(stdout, (Name){h->bytes.at + p.at, p.length, false});
    fputs(say_json() && odd ? "\"" : "", stdout);
}

/* On a line one of no bytes is left out, as one that cannot be read. */
static void say_security(const Hive *h, HivePiece p)
{
    if (p.answer.number != 0 || (p.length == 0 && !say_json())) {
        fputs(say_json() ? ",\"security\":null" : "", stdout);
        return;
    }
    fputs(say_json() ? ",\"security\":\"" : " security ", stdout);
    put_sddl(stdout, (Bytes){h->bytes.at + p.at, p.length});
    fputs(say_json() ? "\"" : "", stdout);
}

/* What -l shows beside the place. */
static void say_more(const Hive *h, HiveKey k, HivePiece class, HivePiece security)
{
    char room[STAMP_ROOM];
    say_number("subkeys", k.subkeys);
    say_number("values", k.values);
    fputs(say_json() ? "" : " written", stdout);
    say_word("written", stamp_text(k.written, room));
    say_class(h, class);
    say_security(h, security);
}

static int show_key(const Order *o, const Hive *h, uint32_t key)
{
    Bytes b = h->bytes;
    HiveKey k = hive_key_at(b.at, b.length, key);
    if (k.answer.number != 0)
        return refusal(h, k.answer, NULL);
    HivePiece class = hive_key_class(b.at, b.length, key), security = hive_key_security(b.at, b.length, key);
    if (o->wide) {
        tell(h, class, "class name");
        tell(h, security, "security descriptor");
    }
    say(h->file, "key");
    say_number("at", key);
    if (o->wide)
        say_more(h, k, class, security);
    say_end();
    return GOOD;
}

int key_verb(const Order *o)
{
    Hive h;
    Path path;
    uint32_t key;
    int status = path_units(o->words[1], &path);
    if (status == GOOD)
        status = read_hive(o, o->words[0], &h);
    if (status == GOOD)
        status = find_path(&h, &path, &key);
    return status == GOOD ? show_key(o, &h, key) : status;
}
