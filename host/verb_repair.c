/* Repair in place. A power failure at any moment leaves a file that the same command repairs. */
#include <fcntl.h>
#include <stdlib.h>
#include <string.h>

#include "host.h"

enum { SECTOR = 512 };

static HiveRecovery close_in_memory(const Hive *h)
{
    return hive_recover_close(h->bytes.at, h->bytes.length, h->logged.at, h->logged.length);
}

/* Every page of the log, in memory. */
static HiveAnswer install_all(const Hive *h)
{
    return hive_recover_all(h->bytes.at, h->bytes.length, h->logged.at, h->logged.length).answer;
}

/* The repair in memory alone, for those who only read. */
int recover(const Hive *h)
{
    if (h->started.state == HIVE_CLEAN)
        return GOOD;
    HiveAnswer a = install_all(h);
    if (a.number == 0)
        a = close_in_memory(h).answer;
    return a.number == 0 ? GOOD : refusal(h, a, NULL);
}

/* What will come out is known before the first write: all pages in, closed, checked; then open again, for no page is stored after a closing call. */
static int rehearse(const Hive *h, HiveReport *out)
{
    uint8_t first[SECTOR];
    HiveAnswer a = install_all(h);
    memcpy(first, h->bytes.at, SECTOR);
    if (a.number == 0)
        a = close_in_memory(h).answer;
    if (a.number != 0)
        return refusal(h, a, NULL);
    int status = check(h->file, h->bytes, out);
    memcpy(h->bytes.at, first, SECTOR);
    return status;
}

/* Which pages the log holds: a bit for each. No log that is accepted has more pages than the hive. */
static int mark_pages(const Hive *h, Bytes *map)
{
    map->length = h->bytes.length / 4096;
    map->at = malloc(map->length + 1);
    if (map->at == NULL)
        return trouble(h->file, "no memory for the marks");
    memset(map->at, 0, map->length);
    HiveAnswer a = hive_recover_mark_pages(h->logged.at, h->logged.length, map->at, map->length).answer;
    return a.number == 0 ? GOOD : refusal(h, a, NULL);
}

static int store_pages(int fd, const Hive *h, Bytes map)
{
    int status = GOOD;
    uint64_t done = 0;
    work_starts("storing page", h->started.pages);
    for (size_t page = 0; page < 8 * map.length && status == GOOD; page++) {
        size_t to = 4096 + SECTOR * page;
        if ((map.at[page / 8] >> page % 8 & 1) == 0)
            continue;
        status = store(fd, h->file, h->bytes.at + to, SECTOR, to);
        work_did(++done);
    }
    return status == GOOD ? settle(fd, h->file) : status;
}

static int store_first(int fd, const Hive *h)
{
    int status = store(fd, h->file, h->bytes.at, SECTOR, 0);
    if (status == GOOD)
        status = settle(fd, h->file);
    work_ends();
    return status;
}

static int cut_off(const Hive *h)
{
    note(h->file, "it may be half repaired now: keep the log, and give the same command again, which goes on from there");
    return TROUBLE;
}

/* The closing sector goes out only when all pages are on the disk: before that "the file looks clean and is half old". */
static int write_out(int fd, const Hive *h, Bytes map)
{
    if (h->grown && lengthen(fd, h->file, h->bytes.length) != GOOD)
        return cut_off(h);
    if (store_pages(fd, h, map) != GOOD)
        return cut_off(h);
    HiveAnswer a = close_in_memory(h).answer;
    if (a.number != 0)
        return refusal(h, a, NULL);
    return store_first(fd, h) == GOOD ? GOOD : cut_off(h);
}

/* The run before may have been cut before its last sync: what looks clean is stored once more and synced, each byte as it is. */
static int clean(int fd, const Hive *h)
{
    HiveReport r;
    if (fd >= 0 && store_first(fd, h) != GOOD)
        return cut_off(h);
    int status = check(h->file, h->bytes, &r);
    if (status != GOOD)
        return status;
    say(h->file, "clean");
    say_end();
    return report(h, r);
}

/* The copy first, and then the repair. kept: where the copy is. */
static int keep_and_write(int fd, const Order *o, const Hive *h, const char **kept)
{
    Bytes map;
    int status = mark_pages(h, &map);
    if (status == GOOD)
        status = keep_copy(fd, o, h, map, kept);
    if (status == GOOD)
        status = write_out(fd, h, map);
    return status;
}

/* What was done, as an answer; which copy is kept, and what comes next. */
static void tell(const Hive *h, bool written, const char *kept)
{
    say(h->file, written ? "repaired" : "would repair");
    say_bare("pages", h->started.pages);
    if (h->grown)
        say_number("lengthened", h->bytes.length);
    if (kept != NULL && say_json())
        say_word("copy", kept);
    say_end();
}

/* fd: the file to repair, or -1 for a dry run. */
static int run(int fd, const Order *o, const Hive *h)
{
    if (h->started.state == HIVE_CLEAN)
        return clean(fd, h);
    HiveReport r;
    const char *kept = NULL;
    int status = rehearse(h, &r);
    if (status != GOOD)
        return status;
    bool sound = r.answer.number == 0, write = fd >= 0 && (sound || o->anyway);
    if (write && (status = keep_and_write(fd, o, h, &kept)) != GOOD)
        return status;
    tell(h, write, kept);
    if (report(h, r) == TROUBLE)
        return TROUBLE;
    if (!sound)
        note(h->file, write ? "it was repaired all the same (--anyway)" : "nothing was written: the repaired hive would be refused so; --anyway writes it all the same");
    if (write && !say_json())
        after_repair(h, kept);
    return sound ? GOOD : UNSOUND;
}

int repair_verb(const Order *o)
{
    Hive h = {.file = o->words[0]};
    for (int i = 0; i < o->count; i++)
        if (is_standard(o->words[i]))
            return misused("repair wants a FILE and a LOG that stay, not standard input");
    if (o->backup != NULL && (is_standard(o->backup) || o->no_backup))
        return misused(o->no_backup ? "--backup names a copy, and --no-backup makes none: give one of the two" : "--backup wants the name of a new file, and - is none");
    int fd = o->dry ? open_kept(h.file, O_RDONLY) : open_locked(h.file);
    if (fd < 0)
        return TROUBLE;
    int status = read_open(fd, h.file, &h.bytes);
    if (status == GOOD)
        status = take_logs(&h, (const char *const *)o->words + 1, o->count - 1, o, read_kept);
    return status == GOOD ? run(o->dry ? -1 : fd, o, &h) : status;
}
