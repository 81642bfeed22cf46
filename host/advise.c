/* What a refusal ends with: the lines to type next. The logs beside the hive are asked first, so that a line is told which does what it says. */
#include <stdlib.h>
#include <string.h>

#include "host.h"

static void advice(Advice *out, const char *what, const char *line)
{
    if (line == NULL)
        return;
    out->what[out->count] = what;
    out->lines[out->count++] = line;
}

static const Bytes NONE = {(uint8_t *)"", 0};

int ask_beside(const Hive *h, Log *logs, int *count, Choice *c)
{
    int status = logs_beside(h->file, base_name(h->file), strlen(base_name(h->file)), LOOK_HINT, logs, count);
    return status == GOOD && *count > 0 ? choose(h->file, h->bytes, logs[0].bytes, *count > 1 ? logs[1].bytes : NONE, c) : status;
}

/* How many logs lie beside the hive, and what is chosen of them. */
static int ask(const Hive *h, int *n, Choice *c)
{
    Log logs[2];
    int status = ask_beside(h, logs, n, c);
    for (int i = 0; i < *n; i++)
        drop_log(&logs[i]);
    return status;
}

static const char *repair_line(const Hive *h, bool grow)
{
    Line l = {.repair = true, .grow = grow};
    return line_to_type(h->file, &l);
}

/* Both ways, of which the first is that of the command which was given. */
void advise_logs(const Hive *h, bool grow, Advice *out)
{
    Line l = {.beside = true, .grow = grow};
    if (!order_repairs())
        advice(out, "its logs lie beside it. To read it as they would repair it, type", line_to_type(h->file, &l));
    advice(out, order_repairs() ? "the logs beside it fit. Type" : "to repair it, type", repair_line(h, grow));
}

/* Of a dirty hive that no log lies beside. */
static void no_log(const Hive *h, Advice *out)
{
    Line l = {.as_is = true};
    advice(out, "no log lies beside it: look for FILE.LOG1 and FILE.LOG2, or FILE.LOG, where it was taken from, copy them beside it, and type", repair_line(h, false));
    if (!order_repairs())
        advice(out, "where they are lost, to read it as it is, without what they held, type", line_to_type(h->file, &l));
}

/* Of a hive that is not finished, or whose base block is damaged, and no log was asked. */
static int without_log(const Hive *h, uint32_t number, Advice *out)
{
    int n = 0;
    Choice c = {.chosen = CHOSE_NONE};
    int status = ask(h, &n, &c);
    if (status != GOOD)
        return status;
    if (n > 0 && does_fit(&c))
        advise_logs(h, c.wanted > 0, out);
    else if (number == HIVE_FAULT_SEQUENCES && n > 0)
        advice(out, "what lies beside it as its log does not fit it: take FILE and its logs anew, all at one moment, and type", repair_line(h, false));
    else if (number == HIVE_FAULT_SEQUENCES)
        no_log(h, out);
    return GOOD;
}

/* Of a log that is refused. Where those beside the hive fit, they are told; else how it comes to a log that does. */
static int with_log(const Hive *h, uint32_t number, Advice *out)
{
    int n = 0;
    Choice c = {.chosen = CHOSE_NONE};
    int status = is_standard(h->file) ? GOOD : ask(h, &n, &c);
    if (status != GOOD)
        return status;
    Line alone = {.repair = order_repairs(), .only = true, .logs = {h->alone}, .count = 1};
    if (n > 0 && does_fit(&c))
        advise_logs(h, c.wanted > 0, out);
    else if (h->alone != NULL)
        advice(out, "both do not fit together, and one alone may leave out what belongs to it; to take one all the same, type", line_to_type(h->file, &alone));
    else if (number == HIVE_FAULT_LOG_BASE && h->log == NULL)
        advice(out, "no log lies beside it: look for FILE.LOG1 and FILE.LOG2, or FILE.LOG, where it was taken from, copy them beside it, and type", repair_line(h, false));
    else
        advice(out, "take FILE and its logs anew from where they were, all at one moment, lay them beside each other, and type", repair_line(h, false));
    return GOOD;
}

static bool is_of_log(uint32_t n)
{
    return n == HIVE_FAULT_LOG_BASE || n == HIVE_FAULT_LOG_SHORT || n == HIVE_FAULT_NO_DIRT || n == HIVE_FAULT_HIVE_CUT || n == HIVE_FAULT_STAMPS;
}

int advise(const Hive *h, uint32_t number, Advice *out)
{
    *out = (Advice){.count = 0};
    if (number == HIVE_FAULT_HIVE_CUT && h->wanted > 0) {
        Line l = {.repair = order_repairs(), .grow = true};
        advice(out, "to lengthen it with zeros, type", line_again(h->file, &l));
        return GOOD;
    }
    if (is_of_log(number))
        return with_log(h, number, out);
    bool torn = number == HIVE_FAULT_SEQUENCES || number == HIVE_FAULT_NO_REGF || number == HIVE_FAULT_CHECKSUM;
    return torn && h->log == NULL && !is_standard(h->file) ? without_log(h, number, out) : GOOD;
}
