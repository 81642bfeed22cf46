/* Linked into the tool's test build in front of the C library: each open, pwrite, ftruncate and fsync is written to the file HIVE_TRACE.
 * HIVE_CUT=k: the process ends after k of the pwrite, ftruncate and fsync calls, as if it had been killed.
 * HIVE_LOSE=k: the k-th pwrite is lost, and the process ends at the next fsync: as if the power had failed with that page not on the disk yet.
 * HIVE_FAIL=k: the k-th of the pwrite, ftruncate and fsync calls fails. HIVE_INTERRUPT: each second fsync, from the first on, is interrupted.
 * HIVE_SLOW: each fsync takes two seconds. HIVE_TERMINAL: the outputs are taken for a terminal. HIVE_NOWHERE: the root folder cannot be opened. */
#include <errno.h>
#include <fcntl.h>
#include <stdarg.h>
#include <stdbool.h>
#include <stdio.h>
#include <stdlib.h>
#include <string.h>
#include <unistd.h>

int open64(const char *, int, ...);
ssize_t pwrite64(int, const void *, size_t, off_t);
int ftruncate64(int, off_t);
long syscall(long, ...);
enum { SYS_FSYNC = 74, CUT = 99, FAILED = 5 /* EIO */ };

static long calls;

static long number(const char *name)
{
    const char *text = getenv(name);
    return text == NULL ? -1 : strtol(text, NULL, 10);
}

static void trace(const char *what, long a, long b, const char *text)
{
    char line[4200];
    const char *path = getenv("HIVE_TRACE");
    int n = snprintf(line, sizeof line, "%s %ld %ld %s\n", what, a, b, text);
    int fd = path == NULL ? -1 : open64(path, O_WRONLY | O_CREAT | 02000 /* append */, 0644);
    if (fd >= 0 && (write(fd, line, (size_t)n) != n || close(fd) != 0))
        _exit(98);
}

static bool fails(void)
{
    errno = FAILED;
    return ++calls == number("HIVE_FAIL");
}

static void cut(void)
{
    if (calls == number("HIVE_CUT"))
        _exit(CUT);
}

int open(const char *path, int flags, ...)
{
    va_list list;
    va_start(list, flags);
    int mode = __builtin_va_arg(list, int);
    va_end(list);
    trace("open", flags & 3, flags, path);
    return getenv("HIVE_NOWHERE") != NULL && strcmp(path, "/") == 0 ? -1 : open64(path, flags, mode);
}

ssize_t pwrite(int fd, const void *from, size_t length, off_t at)
{
    static long count;
    trace("pwrite", (long)at, (long)length, "");
    if (fails())
        return -1;
    ssize_t n = ++count == number("HIVE_LOSE") ? (ssize_t)length : pwrite64(fd, from, length, at);
    cut();
    return n;
}

int ftruncate(int fd, off_t length)
{
    trace("ftruncate", (long)length, 0, "");
    if (fails())
        return -1;
    int status = ftruncate64(fd, length);
    cut();
    return status;
}

int fsync(int fd)
{
    static int count;
    if (getenv("HIVE_INTERRUPT") != NULL && count++ % 2 == 0) {
        errno = EINTR;
        return -1;
    }
    trace("fsync", 0, 0, "");
    if (fails())
        return -1;
    if (number("HIVE_LOSE") > 0)
        _exit(CUT);
    for (unsigned left = getenv("HIVE_SLOW") != NULL ? 2 : 0; left > 0;)
        left = sleep(left);
    int status = (int)syscall(SYS_FSYNC, fd);
    cut();
    return status;
}

int isatty(int fd)
{
    (void)fd;
    return getenv("HIVE_TERMINAL") != NULL;
}
