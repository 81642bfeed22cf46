/* The copy of the hive as it was before its repair: made and synced before the first store, or there from a run that was cut. */
#define _GNU_SOURCE /* O_NOFOLLOW */
#include <errno.h>
#include <fcntl.h>
#include <stdlib.h>
#include <string.h>
#include <sys/stat.h>
#include <unistd.h>

#include "host.h"

enum { SECTOR = 512, PIECE = 1 << 16, MOST = 1000 };

/* As many bytes as there are, up to a piece: -1 where they cannot be read. */
static ssize_t read_piece(int fd, uint8_t *to, size_t at)
{
    size_t n = 0;
    while (n < PIECE) {
        ssize_t more = pread(fd, to + n, PIECE - n, (off_t)(at + n));
        if (more < 0 && errno == EINTR)
            continue;
        if (more < 0)
            return -1;
        if (more == 0)
            break;
        n += (size_t)more;
    }
    return (ssize_t)n;
}

/* Whether the log has a version of the sector at that byte of the file, and these are its bytes: h holds the last version of each page. */
static bool is_logged(const Hive *h, Bytes map, size_t at, const uint8_t *bytes, size_t length)
{
    size_t page = at < 4096 ? 8 * map.length : (at - 4096) / SECTOR;
    if (page >= 8 * map.length || (map.at[page / 8] >> page % 8 & 1) == 0 || at + length > h->bytes.length)
        return false;
    return memcmp(h->bytes.at + at, bytes, length) == 0;
}

/* Each sector of a piece of the file is the copy's own, or the log's. */
static bool is_piece(const Hive *h, Bytes map, size_t at, const uint8_t *file, const uint8_t *copy, size_t length)
{
    for (size_t i = 0; i < length; i += SECTOR) {
        size_t n = length - i < SECTOR ? length - i : SECTOR;
        if (memcmp(file + i, copy + i, n) != 0 && !is_logged(h, map, at + i, file + i, n))
            return false;
    }
    return true;
}

/* Whether a copy and this log make the same hive as the file and this log. Behind the end of the copy there are zeros. */
static bool is_before(int fd, int copy, const Hive *h, Bytes map)
{
    static uint8_t mine[PIECE], theirs[PIECE];
    for (size_t at = 0;; at += PIECE) {
        memset(theirs, 0, PIECE);
        ssize_t n = read_piece(fd, mine, at), m = read_piece(copy, theirs, at);
        if (n < 0 || m < 0 || m > n || !is_piece(h, map, at, mine, theirs, (size_t)n))
            return false;
        if (n < PIECE)
            return true;
    }
}

/* Another file, and a regular one: the hive under a second name is no copy of it. */
static bool is_another(int fd, int copy)
{
    struct stat a, b;
    return fstat(fd, &a) == 0 && fstat(copy, &b) == 0 && S_ISREG(b.st_mode) && (a.st_dev != b.st_dev || a.st_ino != b.st_ino);
}

/* A file that is there: GOOD and `made` where it is the copy, which is synced again, for the run that made it may have been cut. */
static int try_copy(int fd, const char *path, const Hive *h, Bytes map, bool *made)
{
    int copy = open(path, O_RDONLY | O_NONBLOCK | O_NOFOLLOW | O_CLOEXEC), status = GOOD;
    *made = copy >= 0 && is_another(fd, copy) && is_before(fd, copy, h, map);
    if (*made)
        status = settle(copy, path);
    if (copy >= 0)
        close(copy);
    return *made && status == GOOD ? settle_beside(path) : status;
}

static int copy_to(int fd, const char *path, const Hive *h, Bytes map)
{
    bool made;
    if (!is_there(path))
        return copy_new(path, fd, h->file);
    int status = try_copy(fd, path, h, map, &made);
    return status != GOOD || made ? status : trouble(path, "a file of this name is there already, is no copy of the hive before this repair, and is not overwritten; give another name");
}

/* FILE.before-repair; where that is another file, with a number behind it. */
static int copy_beside(int fd, const Hive *h, Bytes map, const char **kept)
{
    size_t room = strlen(h->file) + 32;
    char *path = malloc(room);
    *kept = path;
    if (path == NULL)
        return trouble(h->file, "no memory");
    snprintf(path, room, "%s.before-repair", h->file);
    for (int k = 2; k <= MOST && is_there(path); k++) {
        bool made;
        int status = try_copy(fd, path, h, map, &made);
        if (status != GOOD || made)
            return status;
        snprintf(path, room, "%s.before-repair%d", h->file, k);
    }
    return copy_new(path, fd, h->file);
}

int keep_copy(int fd, const Order *o, const Hive *h, Bytes map, const char **kept)
{
    *kept = o->no_backup ? NULL : o->backup;
    if (o->no_backup)
        return GOOD;
    int status = o->backup != NULL ? copy_to(fd, o->backup, h, map) : copy_beside(fd, h, map, kept);
    if (status == GOOD)
        return GOOD;
    Line l = {.repair = true, .no_backup = true, .count = 0};
    note(h->file, "nothing was changed, for no copy of it could be kept: make room, or name one elsewhere with --backup COPY");
    say_next("to repair it without a copy, type", line_again(h->file, &l));
    return status;
}
