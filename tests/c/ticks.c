/* The progress line when a signal comes at the worst moment: just before the alarm is put off, and after the work has ended. Linked with the tool's own
 * progress.o; isatty, alarm and write are those here. */
#include <signal.h>
#include <string.h>
#include <unistd.h>

#include "../../host/host.h"
#include "expect.h"

static unsigned armed; /* what the last alarm said */
static bool late;      /* a signal is on its way when the alarm is put off */
static size_t written; /* bytes on standard error */
static char last[200];

int isatty(int fd)
{
    return fd == 2;
}

unsigned alarm(unsigned seconds)
{
    armed = seconds;
    if (seconds == 0 && late)
        raise(SIGALRM);
    return 0;
}

ssize_t write(int fd, const void *from, size_t length)
{
    (void)fd;
    written += length;
    memcpy(last, from, length < sizeof last ? length : sizeof last);
    return (ssize_t)length;
}

static void work_for(uint64_t done, int seconds)
{
    work_starts("counting", 9);
    work_did(done);
    for (int i = 0; i < seconds; i++)
        raise(SIGALRM);
}

static bool shows(const char *line)
{
    return memcmp(last, line, strlen(line)) == 0;
}

static void each_second(void)
{
    work_for(3, 1);
    EXPECT(shows("\rcounting 3 of 9, 1 s\033[K") && armed == 1);
    raise(SIGALRM);
    EXPECT(shows("\rcounting 3 of 9, 2 s\033[K") && armed == 1);
    work_ends();
    EXPECT(shows("\r\033[K") && armed == 0);
}

/* The signal is delivered when the call that puts the alarm off returns: so it comes behind it, and no later call puts off what it arms. */
static void while_it_ends(void)
{
    late = true;
    for (int seconds = 0; seconds < 3; seconds++) {
        written = 0;
        work_for(3, seconds);
        work_ends();
        EXPECT(armed == 0);
        EXPECT(seconds == 0 ? written == 0 : shows("\r\033[K"));
    }
    late = false;
}

static void behind_the_end(void)
{
    written = 0;
    raise(SIGALRM);
    EXPECT(written == 0 && armed == 0);
    work_for(0, 1);
    EXPECT(shows("\rcounting, 1 s\033[K"));
    work_ends();
}

int main(void)
{
    test("progress: a line each second, and none at the end", each_second);
    test("progress: a signal that comes while the work ends", while_it_ends);
    test("progress: a signal that comes behind its end", behind_the_end);
    return counts();
}
