/* Every key with its stamp, every value with its type and data: one line to each, made of the frames of an export. */
#include <unistd.h>

#include "host.h"

/* The stamp of the key that opened last, which is that of the values behind it; and how many bytes may be written. */
static struct {
    char written[STAMP_ROOM];
    uint64_t bound;
} dump;

static void show_key(const Hive *h, const uint8_t *payload)
{
    stamp_text(word_at(payload) | (uint64_t)word_at(payload + 4) << 32, dump.written);
    if (say_json())
        say(h->file, "key");
    else
        printf("%s ", dump.written);
    say_path(open_keys.names, open_keys.level - 1);
    if (say_json())
        say_word("written", dump.written);
    say_end();
}

/* A tab in front, and one between: no name holds one, for there it is \x09. */
static void show_line(Name name, uint32_t kind, Bytes data)
{
    char room[16];
    putchar('\t');
    put_name(stdout, name, VALUE_NAME);
    printf("\t%s\t", kind_name(kind, room));
    put_line_data(kind, data);
    say_end();
}

static void show_object(const Hive *h, Name name, uint32_t kind, Bytes data)
{
    char room[16];
    uint64_t n;
    say(h->file, "data");
    say_path(open_keys.names, open_keys.level - 1);
    say_value_name(name);
    say_word("written", dump.written);
    say_word("type", kind_name(kind, room));
    say_number("length", data.length);
    say_data(kind, data);
    if (is_number(kind, data, &n))
        say_number("number", n);
    say_end();
}

static void show_value(const Hive *h, uint8_t *payload, size_t length)
{
    size_t n = word_at(payload + 4);
    Name name = {payload + 8, n, false};
    Bytes data = {payload + 8 + n, length - 8 - n};
    if (say_json())
        show_object(h, name, word_at(payload), data);
    else
        show_line(name, word_at(payload), data);
}

static int show(const Hive *h, uint32_t kind, uint8_t *payload, size_t length)
{
    if (kind == FRAME_END)
        leave_key();
    if (kind == FRAME_KEY) {
        enter_key((Name){payload + 8, length - 8, false});
        show_key(h, payload);
    }
    if (kind == FRAME_VALUE)
        show_value(h, payload, length);
    return said_bytes() > dump.bound ? past_bound(h, dump.bound) : GOOD;
}

/* The check comes first: export_begin makes it. On a terminal the lines themselves show how far it is. */
int dump_verb(const Order *o)
{
    Hive h;
    Path path;
    Export x;
    int status = path_units(o->count == 2 ? o->words[1] : "", &path);
    if (status == GOOD)
        status = read_hive(o, o->words[0], &h);
    if (status == GOOD)
        status = export_begin(&h, &x);
    if (status == GOOD)
        status = go_below(&x, &path, enter_key);
    if (status != GOOD)
        return status;
    dump.bound = bound_of(o, &h);
    if (!isatty(1))
        work_starts("dumping, frames", 0);
    say_much();
    status = each_frame(&x, stdout, show);
    work_ends();
    return status;
}
