/* The logs that a hive is read or repaired with: those that are named, or those beside it. What a log beside it holds is not left out unawares. */
#include <stdlib.h>
#include <string.h>

#include "host.h"

enum { LOGS = 2 };

/* Those that have bytes, each once. */
typedef struct {
    Log logs[LOGS];
    int count;
} Logs;

static const Bytes NONE = {(uint8_t *)"", 0};

/* The file type of what starts as hives and logs do, else -1. */
static long type_of(Bytes b)
{
    if (b.length < 32 || memcmp(b.at, "regf", 4) != 0)
        return -1;
    return b.at[28] | b.at[29] << 8 | b.at[30] << 16 | (long)b.at[31] << 24;
}

static bool is_same(Bytes a, Bytes b)
{
    return a.length == b.length && memcmp(a.at, b.at, a.length) == 0;
}

static int exchanged(const Hive *h, const Log *log)
{
    Line l = {.repair = order_repairs(), .logs = {h->file}, .count = 1};
    trouble(h->file, "this is a log, and what is given as LOG is a hive: exchange the two");
    say_next("type", line_to_type(log->name, &l));
    return TROUBLE;
}

/* A log that is the hive itself, and the two in each other's place: told before the library is asked, which would find a log that is not sound. */
static int tell_apart(const Hive *h, const Log *log)
{
    long type = type_of(h->bytes);
    if (h->bytes.length > 0 && is_same(h->bytes, log->bytes))
        return trouble(log->name, "as LOG this is FILE once more, or a copy of it: give the log that Windows keeps beside the hive, as FILE.LOG, FILE.LOG1 or FILE.LOG2");
    if ((type == 1 || type == 2 || type == 6) && type_of(log->bytes) == 0)
        return exchanged(h, log);
    return GOOD;
}

static Bytes bytes_of(const Logs *l, int i)
{
    return i < l->count ? l->logs[i].bytes : NONE;
}

/* One log more, which is kept or dropped: a copy of one that is there is no other. */
static int add_log(Logs *l, Log log)
{
    bool known = false;
    for (int i = 0; i < l->count; i++)
        known = known || is_same(l->logs[i].bytes, log.bytes);
    if (!known && l->count == LOGS) {
        int status = misused("there are two logs at most, and \"%s\" is the third that has bytes", log.name);
        drop_log(&log);
        return status;
    }
    if (known)
        drop_log(&log);
    else
        l->logs[l->count++] = log;
    return GOOD;
}

static char *own_text(const char *text)
{
    size_t n = strlen(text) + 1;
    char *out = malloc(n);
    if (out != NULL)
        memcpy(out, text, n);
    return out;
}

/* Empty ones are passed over, which is told where the hive needs a log. */
static int read_named(const Hive *h, const char *name, bool clean, Reader *reader, Logs *l)
{
    Log log = {own_text(name), {NULL, 0}};
    int status = log.name == NULL ? trouble(name, "no memory") : reader(name, &log.bytes);
    if (status == GOOD)
        status = tell_apart(h, &log);
    if (status == GOOD && log.bytes.length > 0)
        return add_log(l, log);
    if (status == GOOD && !clean)
        note(name, "it is empty, and passed over");
    drop_log(&log);
    return status;
}

/* The line that tells which logs are taken. */
static int tell_taken(const Hive *h, const Logs *l)
{
    if (l->count == 0)
        return GOOD;
    const char *first = l->logs[0].name, *second = l->count > 1 ? l->logs[1].name : "";
    size_t room = strlen(first) + strlen(second) + 40;
    char *words = malloc(room);
    if (words == NULL)
        return trouble(h->file, "no memory");
    snprintf(words, room, l->count > 1 ? "its logs beside it: %s and %s" : "its log beside it: %s", first, second);
    note(h->file, words);
    free(words);
    return GOOD;
}

static int read_beside(const Hive *h, Logs *l)
{
    Log found[LOGS];
    int n, status = logs_beside(h->file, base_name(h->file), strlen(base_name(h->file)), LOOK_TAKE, found, &n);
    for (int i = 0; i < n; i++) {
        if (status == GOOD)
            status = tell_apart(h, &found[i]);
        if (status == GOOD)
            status = add_log(l, found[i]);
        else
            drop_log(&found[i]);
    }
    return status == GOOD ? tell_taken(h, l) : status;
}

/* The choice; and where only length is missing, that on a copy which is as long as it has to be. Then `wanted` stays, and the copy is `longer`, else that is empty. */
static int choose_longer(const char *file, Bytes hive, Bytes a, Bytes b, Choice *out, Bytes *longer)
{
    *longer = (Bytes){NULL, 0};
    int status = choose(file, hive, a, b, out);
    uint64_t wanted = out->wanted;
    if (status != GOOD || wanted == 0)
        return status;
    status = grown(file, hive, wanted, longer);
    if (status == GOOD)
        status = choose(file, *longer, a, b, out);
    out->wanted = wanted;
    return status;
}

/* Whether one log alone is what the two are for this hive. */
static int judge_other(const Hive *h, const Log *named, const Log *other, Choice *out, bool *left)
{
    Bytes longer;
    int status = choose_longer(h->file, h->bytes, named->bytes, other->bytes, out, &longer);
    free(longer.at);
    *left = status == GOOD && out->chosen != CHOSE_FIRST && out->chosen != CHOSE_CLEAN;
    return status;
}

/* The logs in one place, where they are not the named one: whether one of them would be left out. */
static int look_at(const Hive *h, const Log *named, const char *path, const char *stem, size_t length)
{
    Log found[LOGS];
    Choice c;
    bool left = false;
    int n, status = logs_beside(path, stem, length, LOOK_LEFT_OUT, found, &n);
    for (int i = 0; i < n; i++) {
        if (status == GOOD && !is_same(named->bytes, found[i].bytes) && !is_same(h->bytes, found[i].bytes))
            status = judge_other(h, named, &found[i], &c, &left);
        if (status == GOOD && left)
            status = left_out(h, named->name, found[i].name, &c);
        drop_log(&found[i]);
    }
    return status;
}

/* Beside the hive, and beside the log, where the logs are called as the hive is or as the log is. */
static int look_beside(const Hive *h, const Log *named)
{
    const char *base = base_name(h->file), *own = base_name(named->name);
    size_t length = is_standard(h->file) ? 0 : strlen(base);
    int status = look_at(h, named, h->file, base, length);
    if (status == GOOD)
        status = look_at(h, named, named->name, base, length);
    if (status == GOOD && (stem_length(own) != length || memcmp(own, base, length) != 0))
        status = look_at(h, named, named->name, own, stem_length(own));
    return status;
}

/* The name of both logs. */
static char *both_names(const char *first, const char *second)
{
    size_t room = strlen(first) + strlen(second) + 4;
    char *out = malloc(room);
    if (out != NULL)
        snprintf(out, room, "%s + %s", first, second);
    return out;
}

static int take_both(Hive *h, const Log *first, const Log *second)
{
    h->log = both_names(first->name, second->name);
    if (h->log == NULL)
        return trouble(second->name, "no memory for both logs");
    return join_logs(second->name, first->bytes, second->bytes, &h->logged);
}

/* The log that was chosen is the hive's from here on. */
static int take_chosen(Hive *h, Logs *l, const Choice *c)
{
    Log *first = &l->logs[0], *second = &l->logs[1];
    if (c->chosen == CHOSE_FIRST_SECOND)
        return take_both(h, first, second);
    if (c->chosen == CHOSE_SECOND_FIRST)
        return take_both(h, second, first);
    Log *one = c->chosen == CHOSE_SECOND ? second : first;
    if (l->count > 1)
        note(one->name, "this log alone fits the hive, and the other is not used");
    h->log = one->name;
    h->logged = one->bytes;
    *one = (Log){NULL, {NULL, 0}};
    return GOOD;
}

/* Of two logs that are refused together: one that would be accepted alone. */
static int find_alone(Hive *h, const Logs *l)
{
    Choice c;
    int status = GOOD;
    for (int i = 0; l->count > 1 && i < LOGS && status == GOOD && h->alone == NULL; i++) {
        status = choose(h->file, h->bytes, l->logs[i].bytes, NONE, &c);
        if (status == GOOD && does_fit(&c))
            h->alone = l->logs[i].name;
    }
    return status;
}

/* Which log was tried first is not known where there are two: both are named. named: where none has bytes. */
static int refused_so(Hive *h, Logs *l, const char *named, const Choice *c)
{
    HiveAnswer a = c->answer;
    h->log = l->count == 0 ? named : l->count == 1 ? l->logs[0].name : both_names(l->logs[0].name, l->logs[1].name);
    h->wanted = c->wanted;
    if (l->count > 1 && h->log == NULL)
        return trouble(h->file, "no memory");
    if (c->wanted > 0)
        a.number = HIVE_FAULT_HIVE_CUT;
    int status = c->wanted > 0 ? GOOD : find_alone(h, l);
    if (status == GOOD)
        status = refusal(h, a, NULL);
    h->alone = NULL;
    return status;
}

/* What was chosen is taken, and the hive lengthened where that is asked for. */
static int take(Hive *h, Logs *l, const char *named, const Order *o, const Choice *c, Bytes *longer)
{
    if (c->chosen == CHOSE_NONE || (c->wanted > 0 && !o->grow))
        return refused_so(h, l, named, c);
    h->wanted = c->wanted;
    h->grown = c->wanted > 0;
    if (h->grown) {
        Bytes short_one = h->bytes;
        h->bytes = *longer;
        *longer = short_one;
    }
    int status = take_chosen(h, l, c);
    if (status == GOOD)
        h->started = hive_recover_start(h->bytes.at, h->bytes.length, h->logged.at, h->logged.length);
    return status;
}

/* Of one that is named, and of none at all, what else lies beside the two is asked first. */
static int settle_on(Hive *h, Logs *l, const char *named, const Order *o)
{
    Choice c;
    Bytes longer;
    int status = choose_longer(h->file, h->bytes, bytes_of(l, 0), bytes_of(l, 1), &c, &longer);
    if (status == GOOD && named != NULL && l->count == 1 && !o->only_this_log && does_fit(&c))
        status = look_beside(h, &l->logs[0]);
    if (status == GOOD)
        status = take(h, l, named, o, &c, &longer);
    free(longer.at);
    return status;
}

int take_logs(Hive *h, const char *const *names, int count, const Order *o, Reader *reader)
{
    Logs l = {.count = 0};
    Choice c;
    int status = choose(h->file, h->bytes, NONE, NONE, &c);
    bool clean = c.chosen == CHOSE_CLEAN;
    for (int i = 0; i < count && status == GOOD; i++)
        status = read_named(h, names[i], clean, reader, &l);
    if (status == GOOD && count == 0 && !clean)
        status = read_beside(h, &l);
    if (clean)
        h->started = (HiveRecovery){.state = HIVE_CLEAN};
    else if (status == GOOD && (l.count > 0 || !o->beside))
        status = settle_on(h, &l, count > 0 ? names[0] : NULL, o);
    for (int i = 0; i < l.count; i++)
        if (l.logs[i].name != h->log)
            drop_log(&l.logs[i]);
    return status;
}
