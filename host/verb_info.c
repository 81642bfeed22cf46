/* What a file says of itself: its base block, the logs that lie beside it, and what the check finds. Of a broken hive too, as far as it goes. */
#include <string.h>

#include "host.h"

enum { SECTOR = 512, NAME_AT = 48, NAME_BYTES = 64 };

/* Numbers of the base block: as a line calls them, as an object does, and where they stand. The others are shown in a form of their own. */
static const struct {
    const char *line, *field;
    size_t at;
} NUMBERS[] = {
    {"type", "type", 28}, {"format", "format", 32}, {"clustering", "clustering", 44}, {"root", "root", 36}, {"bins size", "bins_size", 40},
};
enum { NUMBER_COUNT = sizeof NUMBERS / sizeof NUMBERS[0] };

static bool has_base(Bytes b)
{
    return b.length >= SECTOR && memcmp(b.at, "regf", 4) == 0;
}

/* Up to its first unit 0, or all of its room. */
static Name file_name(const uint8_t *base)
{
    Name name = {base + NAME_AT, 0, false};
    while (name.length < NAME_BYTES && (name.at[name.length] | name.at[name.length + 1]) != 0)
        name.length += 2;
    return name;
}

static const char *written(const uint8_t *base, char *room)
{
    return stamp_text(word_at(base + 12) | (uint64_t)word_at(base + 16) << 32, room);
}

static void line(const Hive *h, const char *label, const char *text)
{
    say(h->file, label);
    say_word(label, text);
    say_end();
}

static void show_lines(const Hive *h, const uint8_t *base)
{
    char room[STAMP_ROOM];
    snprintf(room, sizeof room, "%zu", h->bytes.length);
    line(h, "length", room);
    snprintf(room, sizeof room, "%u.%u", word_at(base + 20), word_at(base + 24));
    line(h, "version", room);
    for (int i = 0; i < NUMBER_COUNT; i++) {
        snprintf(room, sizeof room, "%u", word_at(base + NUMBERS[i].at));
        line(h, NUMBERS[i].line, room);
    }
    snprintf(room, sizeof room, "%u %u", word_at(base + 4), word_at(base + 8));
    line(h, "sequence numbers", room);
    line(h, "written", written(base, room));
    say(h->file, "name");
    say_name(file_name(base), KEY_NAME);
    say_end();
}

static void show_object(const Hive *h, const uint8_t *base)
{
    char room[STAMP_ROOM];
    say(h->file, "base");
    say_number("length", h->bytes.length);
    say_number("major", word_at(base + 20));
    say_number("minor", word_at(base + 24));
    for (int i = 0; i < NUMBER_COUNT; i++)
        say_number(NUMBERS[i].field, word_at(base + NUMBERS[i].at));
    say_number("primary", word_at(base + 4));
    say_number("secondary", word_at(base + 8));
    say_word("written", written(base, room));
    say_name(file_name(base), KEY_NAME);
    say_end();
}

/* One that no repair would take is told with the number of its refusal. */
static void show_log(const Hive *h, const Log *log)
{
    HiveLog l = hive_recover_log(log->bytes.at, log->bytes.length);
    say(h->file, "log");
    if (say_json())
        say_word("log", log->name);
    else {
        putchar(' ');
        put_argument(stdout, log->name);
    }
    say_number("length", log->bytes.length);
    if (l.answer.number != 0) {
        say_number(say_json() ? "number" : "refused", l.answer.number);
        if (say_json())
            say_word("words", fault_words(l.answer.number));
    } else {
        say_number("type", word_at(log->bytes.at + 28)); /* 512 bytes are there, or it is refused */
        say_number("entries", l.entries);
        say_number("first", l.first);
        say_number("last", l.last);
        say_number("bins", l.bins);
    }
    say_end();
}

/* Of a log that is refused the words, where they are no part of an object. */
static void note_log(const Log *log)
{
    char words[300];
    HiveLog l = hive_recover_log(log->bytes.at, log->bytes.length);
    if (l.answer.number == 0 || say_json())
        return;
    snprintf(words, sizeof words, "%s (see: hive explain %u)", fault_words(l.answer.number), l.answer.number);
    note(log->name, words);
}

static int show_logs(const Hive *h)
{
    Log logs[2];
    int count, status = logs_beside(h->file, base_name(h->file), strlen(base_name(h->file)), LOOK_TAKE, logs, &count);
    for (int i = 0; i < count; i++) {
        show_log(h, &logs[i]);
        note_log(&logs[i]);
        drop_log(&logs[i]);
    }
    return status;
}

/* The base block, or that there is none; the logs; and what check prints, whose refusal is no failure here. */
static int show(const Hive *h)
{
    HiveReport r;
    int status = check(h->file, h->bytes, &r), logs = GOOD;
    if (status != GOOD || !has_base(h->bytes))
        return status == GOOD ? report(h, r) : status;
    if (say_json())
        show_object(h, h->bytes.at);
    else
        show_lines(h, h->bytes.at);
    logs = show_logs(h);
    status = report(h, r);
    return status == TROUBLE ? status : logs;
}

static int info_one(const Order *o, const char *file)
{
    (void)o;
    Hive h = {.file = file};
    int status = read_file(file, &h.bytes);
    if (status == GOOD)
        status = show(&h);
    drop_hive(&h);
    return status;
}

/* What it says to type next is for check: that takes logs, and this tells of them only. */
int info_verb(const Order *o)
{
    static Order next;
    next = *o;
    next.verb = "check";
    order_is(&next);
    return each_file(o, info_one);
}
