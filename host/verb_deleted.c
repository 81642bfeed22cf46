/* What deletion left: the key and value records that still lie in free cells. */
#include <unistd.h>

#include "host.h"

/* So many rows a call: each call tests all bins and cells anew. A row: offset, kind, length of the name, whether each byte of it is a character. */
enum { ROWS = 4096, WORDS = 4 };

static void show(const Hive *h, const uint32_t *row)
{
    bool key = row[1] == HIVE_OLD_KEY;
    Name name = {h->bytes.at + 4096 + row[0] + (key ? 80 : 24), row[2], row[3] == 1};
    say(h->file, key ? "key" : "value");
    say_number("at", row[0]);
    say_number("length", row[2]);
    say_name(name, key ? KEY_NAME : VALUE_NAME);
    say_end();
}

static int survey(const Hive *h)
{
    static uint32_t rows[ROWS * WORDS];
    for (size_t from = 0, done = 0;; from = rows[WORDS * (ROWS - 1)] + 1) {
        HiveRows r = hive_remnants(h->bytes.at, h->bytes.length, from, rows, ROWS * WORDS);
        if (r.state == HIVE_REFUSED)
            return refusal(h, r.answer, NULL);
        for (size_t i = 0; i < r.rows; i++)
            show(h, rows + WORDS * i);
        if (r.rows < ROWS)
            return GOOD;
        work_did(done += r.rows);
    }
}

/* On a terminal the lines themselves show how far it is. */
int deleted_verb(const Order *o)
{
    Hive h;
    int status = read_hive(o, o->words[0], &h);
    if (status != GOOD)
        return status;
    if (!isatty(1))
        work_starts("searching free cells", 0);
    status = survey(&h);
    work_ends();
    return status;
}
