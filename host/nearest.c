/* The name that is most like one that is not there: for the words of a refusal alone, so what it costs is bounded, and where nothing is like it nothing is said. */
#include <string.h>

#include "host.h"

/* A longer name is like no other. So many siblings are looked at. */
enum { LONG = 64, AMONG = 4096, PREFIX_LEAST = 3 };

/* In capitals, as names are compared. */
static uint32_t letter(Name name, size_t i)
{
    uint32_t c = unit_at(name, i);
    bool small = (c >= 'a' && c <= 'z') || (c >= 0xe0 && c <= 0xfe && c != 0xf7);
    return small ? c - 32 : c == 0xff ? 0x178 : c;
}

static size_t less(size_t a, size_t b)
{
    return a < b ? a : b;
}

/* The least number of edits between the first i letters of one name and the first j of another, from those of fewer: rows[k % 3][j] of k letters. */
static size_t edits_at(Name a, Name b, size_t rows[3][LONG + 1], size_t i, size_t j)
{
    const size_t *up = rows[(i + 2) % 3];
    size_t n = less(up[j] + 1, rows[i % 3][j - 1] + 1);
    n = less(n, up[j - 1] + (letter(a, i - 1) != letter(b, j - 1)));
    if (i > 1 && j > 1 && letter(a, i - 1) == letter(b, j - 2) && letter(a, i - 2) == letter(b, j - 1))
        n = less(n, rows[(i + 1) % 3][j - 2] + 1);
    return n;
}

/* How many letters are left out, put in, changed, or swapped with the next. Both names have at most LONG. */
static size_t edits(Name a, Name b)
{
    size_t rows[3][LONG + 1], m = unit_count(a), n = unit_count(b);
    for (size_t j = 0; j <= n; j++)
        rows[0][j] = j;
    for (size_t i = 1; i <= m; i++) {
        rows[i % 3][0] = i;
        for (size_t j = 1; j <= n; j++)
            rows[i % 3][j] = edits_at(a, b, rows, i, j);
    }
    return rows[m % 3][n];
}

static bool begins(Name name, Name with)
{
    size_t n = unit_count(with);
    if (n < PREFIX_LEAST || unit_count(name) <= n)
        return false;
    for (size_t i = 0; i < n; i++)
        if (letter(name, i) != letter(with, i))
            return false;
    return true;
}

/* One edit for each three letters is near; a name that goes on behind the wanted one is further off. The first of several is kept. */
void is_nearer(Nearest *to, Name name)
{
    size_t n = unit_count(to->wanted), of = unit_count(name);
    if (n > LONG || of > LONG)
        return;
    size_t far = edits(to->wanted, name);
    if (far > n / 3)
        far = begins(name, to->wanted) ? LONG + of - n : 0;
    if (far == 0 || (to->far > 0 && to->far <= far))
        return;
    to->far = far;
    to->name = name;
}

void put_nearest(FILE *to, const Hive *h, uint32_t key, Name wanted, enum Style style)
{
    Nearest near = {.wanted = wanted};
    for (size_t n = 0; n < AMONG; n++) {
        HiveMember m = style == KEY_NAME ? hive_nth_subkey(h->bytes.at, h->bytes.length, key, n) : hive_nth_value(h->bytes.at, h->bytes.length, key, n);
        if (m.state != HIVE_THERE)
            break;
        is_nearer(&near, (Name){h->bytes.at + m.name, m.length, m.narrow == 1});
    }
    if (near.far == 0)
        return;
    fputs("; did you mean ", to);
    put_name(to, near.name, style);
    fputs("?", to);
}
