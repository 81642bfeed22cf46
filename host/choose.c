/* Which of two logs a hive is repaired with, and whether both are one log: the rule of T10 (docs/DECISIONS.md), in one call of the shape that a call of the library
 * has. Nothing outside of this file knows the rule. */
#include <stdlib.h>
#include <string.h>

#include "host.h"

enum { SECTOR = 512 };

/* What may be tried: one log alone, or `second` behind `first` as one log. */
typedef struct {
    enum Chosen chosen;
    Bytes first, second;
} Try;

static HiveRecovery start(Bytes hive, Bytes log)
{
    return hive_recover_start(hive.at, hive.length, log.at, log.length);
}

static HiveLog facts_of(Bytes log)
{
    return hive_recover_log(log.at, log.length);
}

/* Whether the second goes on where the first ends: both have entries, and none is missing between them. The numbers have 64 bits here, so none wraps. */
static bool follows(HiveLog first, HiveLog second)
{
    return first.entries > 0 && second.entries > 0 && first.last + 1 == second.first;
}

/* The later is the first to be tried; one that is refused by itself is the last. */
static bool is_later(HiveLog a, HiveLog b)
{
    if (a.answer.number != 0 || b.answer.number != 0)
        return a.answer.number == 0;
    return a.last > b.last;
}

/* Whether the base block is usable, by the check's first refusals: behind them it asks for a map, and none is lent. Only then the hive's number shows that it
 * holds the earlier of two logs. */
static bool is_usable(Bytes hive)
{
    uint8_t none = 0;
    uint32_t n = hive_check(hive.at, hive.length, &none, 0).answer.number;
    return n == 0 || n > HIVE_FAULT_BINS_SIZE;
}

int join_logs(const char *file, Bytes first, Bytes second, Bytes *out)
{
    size_t head = facts_of(first).end, more = facts_of(second).end - SECTOR;
    *out = (Bytes){malloc(head + more), head + more};
    if (out->at == NULL)
        return trouble(file, "no memory for both logs");
    memcpy(out->at, first.at, head);
    memcpy(out->at + head, second.at + SECTOR, more);
    return GOOD;
}

/* What to try, in order, and how many. The later alone where the hive may hold all of the earlier; never the earlier alone, which would leave out what is known to
 * follow. */
static int candidates(Bytes hive, Bytes a, Bytes b, Try *to)
{
    Try first = {CHOSE_FIRST, a, {NULL, 0}}, second = {CHOSE_SECOND, b, {NULL, 0}};
    if (a.length == 0 || b.length == 0) {
        to[0] = b.length == 0 ? first : second;
        return 1;
    }
    HiveLog of_a = facts_of(a), of_b = facts_of(b);
    bool b_behind = follows(of_a, of_b), a_behind = follows(of_b, of_a);
    if (b_behind || a_behind) {
        to[0] = b_behind ? (Try){CHOSE_FIRST_SECOND, a, b} : (Try){CHOSE_SECOND_FIRST, b, a};
        to[1] = b_behind ? second : first;
        return is_usable(hive) ? 2 : 1;
    }
    bool swap = is_later(of_b, of_a);
    to[0] = swap ? second : first;
    to[1] = swap ? first : second;
    return 2;
}

int grown(const char *file, Bytes hive, uint64_t length, Bytes *out)
{
    *out = (Bytes){calloc(length, 1), length};
    if (out->at == NULL)
        return trouble(file, "no memory for %llu bytes", (unsigned long long)length);
    memcpy(out->at, hive.at, hive.length);
    return GOOD;
}

/* Whether the hive would be accepted if it were so long as the log wants it: then out->wanted is that length. */
static int judge_longer(const char *file, Bytes hive, Bytes log, Choice *out)
{
    Bytes longer;
    uint64_t wanted = 4096 + facts_of(log).bins;
    int status = grown(file, hive, wanted, &longer);
    if (status == GOOD && start(longer, log).state != HIVE_REFUSED)
        out->wanted = wanted;
    free(longer.at);
    return status;
}

static int judge(const char *file, Bytes hive, const Try *t, Choice *out)
{
    Bytes log = t->first;
    if (t->second.length > 0) {
        int status = join_logs(file, t->first, t->second, &log);
        if (status != GOOD)
            return status;
    }
    HiveRecovery s = start(hive, log);
    *out = (Choice){s.state == HIVE_REFUSED ? CHOSE_NONE : t->chosen, s.answer, 0};
    int status = s.answer.number == HIVE_FAULT_HIVE_CUT ? judge_longer(file, hive, log, out) : GOOD;
    if (log.at != t->first.at)
        free(log.at);
    return status;
}

int choose(const char *file, Bytes hive, Bytes a, Bytes b, Choice *out)
{
    static uint8_t empty;
    Try tries[2];
    Choice c;
    HiveRecovery s = start(hive, (Bytes){&empty, 0});
    *out = (Choice){s.state == HIVE_REFUSED ? CHOSE_NONE : CHOSE_CLEAN, s.answer, 0};
    if (s.state != HIVE_REFUSED || (a.length == 0 && b.length == 0))
        return GOOD;
    int n = candidates(hive, a, b, tries), status = GOOD;
    bool fits = false;
    for (int k = 0; k < n && status == GOOD && !fits; k++) {
        status = judge(file, hive, &tries[k], &c);
        fits = status == GOOD && does_fit(&c);
        if (k == 0 || fits)
            *out = c;
    }
    return status;
}

bool does_fit(const Choice *c)
{
    return c->chosen != CHOSE_NONE || c->wanted > 0;
}
