/* Linked into the tool's test build in front of the C library: of the calls of malloc, calloc and realloc, the C library's own too, the one of number HIVE_STARVE
 * fails, and with HIVE_FROM all from it on. When one fails the file HIVE_STARVED is made, so that a test knows whether there were so many. */
#include <errno.h>
#include <fcntl.h>
#include <stdbool.h>
#include <stdlib.h>
#include <unistd.h>

enum { NO_MEMORY = 12 /* ENOMEM */ };
void *__libc_malloc(size_t), *__libc_calloc(size_t, size_t), *__libc_realloc(void *, size_t);

static bool fails(void)
{
    static long calls, number = -1;
    static bool all;
    if (number < 0) { /* getenv allocates nothing */
        const char *text = getenv("HIVE_STARVE");
        number = text == NULL ? 0 : strtol(text, NULL, 10);
        all = getenv("HIVE_FROM") != NULL;
    }
    if (number == 0 || ++calls < number || (calls > number && !all))
        return false;
    const char *path = getenv("HIVE_STARVED");
    int fd = path == NULL || calls > number ? -1 : open(path, O_WRONLY | O_CREAT, 0644);
    if (fd >= 0)
        close(fd);
    errno = NO_MEMORY;
    return true;
}

void *malloc(size_t length)
{
    return fails() ? NULL : __libc_malloc(length);
}

void *calloc(size_t count, size_t length)
{
    return fails() ? NULL : __libc_calloc(count, length);
}

void *realloc(void *old, size_t length)
{
    return fails() ? NULL : __libc_realloc(old, length);
}
