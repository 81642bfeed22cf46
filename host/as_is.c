/* A dirty hive without its log, as it is: its two sequence numbers are made equal in memory alone, and the file stays. What its log held is missing, which is
 * told each time, with the logs that lie beside it. */
#include "host.h"

/* By the reader's own tests of the base block: 1 to 6 find nothing, and 7 does. */
static bool is_dirty(Bytes b)
{
    return hive_find_key(b.at, b.length, NULL, 0).number == HIVE_FAULT_SEQUENCES;
}

/* Those beside it by their names. Standard input has no place beside it. */
static void put_beside(FILE *to, const Hive *h, const Log *logs, int count, bool fit)
{
    if (count == 0) {
        fputs(is_standard(h->file) ? "" : "; no log lies beside it", to);
        return;
    }
    fputs("; beside it: ", to);
    put_argument(to, logs[0].name);
    fputs(count > 1 ? " and " : "", to);
    put_argument(to, count > 1 ? logs[1].name : "");
    if (!fit)
        fputs(count > 1 ? ", which do not fit it" : ", which does not fit it", to);
}

/* The warning, and where the logs beside it fit the lines that take them. */
static int warn(const Hive *h, const Log *logs, int count, const Choice *c)
{
    bool fit = count > 0 && does_fit(c);
    Advice next = {.count = 0};
    FILE *to = words_begin();
    if (to == NULL)
        return trouble(h->file, "no memory");
    fputs("warning: it is dirty and read as it is, and what its log held is missing", to);
    put_beside(to, h, logs, count, fit);
    note(h->file, words_end(to));
    if (fit)
        advise_logs(h, c->wanted > 0, &next);
    for (int i = 0; i < next.count; i++)
        say_next(next.what[i], next.lines[i]);
    return GOOD;
}

/* The logs are asked before the hive is settled: afterwards it looks clean, and none would fit it. */
int take_as_is(Hive *h)
{
    Log logs[2];
    int count = 0;
    Choice c = {.chosen = CHOSE_NONE};
    if (!is_dirty(h->bytes))
        return GOOD;
    say_as_is(true);
    int status = ask_beside(h, logs, &count, &c);
    if (status == GOOD)
        status = warn(h, logs, count, &c);
    for (int i = 0; i < count; i++)
        drop_log(&logs[i]);
    h->as_is = hive_settle(h->bytes.at, h->bytes.length).state == HIVE_DONE;
    return status;
}
