/* On a terminal, from one second on: what is being done, how much of it is done, and for how long. The line is gone when it is done. */
#include <errno.h>
#include <signal.h>
#include <unistd.h>

#include "host.h"

/* what: NULL where nothing is under way. It is set last and cleared first, so a signal between finds either all of it or nothing. */
static struct {
    const char *volatile what;
    volatile uint64_t done, of;
    volatile uint64_t seconds;
} work;

static size_t add(char *line, size_t n, const char *text)
{
    while (*text != 0 && n < 118)
        line[n++] = *text++;
    return n;
}

static size_t add_number(char *line, size_t n, uint64_t x)
{
    char digits[21];
    size_t k = sizeof digits - 1;
    digits[k] = 0;
    do
        digits[--k] = (char)('0' + x % 10);
    while ((x /= 10) > 0);
    return add(line, n, digits + k);
}

/* In a signal's handler: only what may be called there. A signal that comes when the work has ended shows nothing and is the last. */
static void tick(int number)
{
    (void)number;
    char line[120];
    int kept = errno;
    const char *what = work.what;
    if (what == NULL)
        return;
    work.seconds++;
    size_t n = add(line, add(line, 0, "\r"), what);
    if (work.done > 0)
        n = add_number(line, add(line, n, " "), work.done);
    if (work.done > 0 && work.of > 0)
        n = add_number(line, add(line, n, " of "), work.of);
    n = add(line, add_number(line, add(line, n, ", "), work.seconds), " s\033[K");
    if (write(2, line, n) > 0)
        alarm(1);
    errno = kept;
}

void work_starts(const char *what, uint64_t of)
{
    work_ends();
    if (!isatty(2))
        return;
    work.done = 0;
    work.of = of;
    signal(SIGALRM, tick);
    work.what = what;
    alarm(1);
}

void work_did(uint64_t done)
{
    work.done = done;
}

void work_ends(void)
{
    if (work.what == NULL)
        return;
    work.what = NULL;
    alarm(0);
    bool shown = work.seconds > 0;
    work.seconds = 0;
    if (shown && write(2, "\r\033[K", 4) < 0)
        return; /* there is nobody to tell */
}
