/* Files written in place, new files, and the waiting until they are on the disk. */
#define _GNU_SOURCE /* renameat2, O_PATH */
#include <errno.h>
#include <fcntl.h>
#include <stdlib.h>
#include <string.h>
#include <sys/file.h>
#include <unistd.h>

#include "host.h"

/* A file that stays: its descriptor, or -1 after a message. Nobody is waited for at the other end of a pipe; EWOULDBLOCK is of a file on which another program has
 * a lease, and that is waited for. */
int open_kept(const char *path, int flags)
{
    int fd = open(path, flags | O_NONBLOCK | O_CLOEXEC);
    if (fd < 0 && errno == EWOULDBLOCK)
        fd = open(path, flags | O_CLOEXEC);
    if (fd < 0) {
        trouble(path, "%s", errno == EISDIR ? "is a directory" : strerror(errno));
        return -1;
    }
    if (lseek(fd, 0, SEEK_END) < 0) {
        trouble(path, "it is a pipe or a terminal; repair wants files that stay, for the same command may have to be given again: copy it to a file first");
        close(fd);
        return -1;
    }
    return fd;
}

/* The lock ends with the process. */
int open_locked(const char *path)
{
    int fd = open_kept(path, O_RDWR);
    if (fd < 0)
        return -1;
    if (flock(fd, LOCK_EX | LOCK_NB) != 0) {
        trouble(path, "%s", errno == EWOULDBLOCK ? "another program has locked it; nothing was changed" : strerror(errno));
        close(fd);
        return -1;
    }
    return fd;
}

int store(int fd, const char *path, const uint8_t *from, size_t length, uint64_t at)
{
    while (length > 0) {
        ssize_t n = pwrite(fd, from, length, (off_t)at);
        if (n < 0 && errno == EINTR)
            continue;
        if (n <= 0)
            return trouble(path, "cannot write at byte %llu: %s", (unsigned long long)at, n < 0 ? strerror(errno) : "no room");
        from += n;
        length -= (size_t)n;
        at += (uint64_t)n;
    }
    return GOOD;
}

/* Waits until what was stored is on the disk. */
int settle(int fd, const char *path)
{
    while (fsync(fd) != 0)
        if (errno != EINTR)
            return trouble(path, "cannot sync: %s", strerror(errno));
    return GOOD;
}

/* The file is so long from now on, with zeros at its end, and that is on the disk. */
int lengthen(int fd, const char *path, uint64_t length)
{
    while (ftruncate(fd, (off_t)length) != 0)
        if (errno != EINTR)
            return trouble(path, "cannot make it %llu bytes long: %s", (unsigned long long)length, strerror(errno));
    return settle(fd, path);
}

/* The entry of a new file lies in its folder, which is synced too. In `folder` there is room for its name: nothing that is written is lost for want of memory. */
static int settle_folder(const char *path, char *folder)
{
    const char *slash = strrchr(path, '/');
    size_t n = slash == NULL ? 0 : (size_t)(slash - path) + 1;
    memcpy(folder, path, n);
    memcpy(folder + n, ".", 2);
    int fd = open(folder, O_RDONLY | O_DIRECTORY | O_CLOEXEC);
    int status = fd < 0 ? trouble(folder, "%s", strerror(errno)) : settle(fd, folder);
    if (fd >= 0)
        close(fd);
    return status;
}

/* The same of a file that is there already. */
int settle_beside(const char *path)
{
    char *folder = malloc(strlen(path) + 2);
    int status = folder == NULL ? trouble(path, "no memory") : settle_folder(path, folder);
    free(folder);
    return status;
}

/* A new file has another name beside its own until it is whole and on the disk. A run that is cut leaves only that. */
typedef struct {
    const char *path;
    char *part;
    int fd;
} New;

bool is_there(const char *path)
{
    int fd = open(path, O_PATH | O_NOFOLLOW | O_CLOEXEC);
    if (fd >= 0)
        close(fd);
    return fd >= 0;
}

static int there(const char *path)
{
    return trouble(path, "a file of this name is there already and is not overwritten; give another name");
}

static int new_start(const char *path, New *out)
{
    size_t room = strlen(path) + 16;
    *out = (New){path, malloc(room), -1};
    if (out->part == NULL)
        return trouble(path, "no memory");
    if (is_there(path))
        return there(path);
    for (int k = 1; out->fd < 0 && k < 1000; k++) {
        snprintf(out->part, room, "%s.part%d", path, k);
        out->fd = open(out->part, O_WRONLY | O_CREAT | O_EXCL | O_CLOEXEC, 0600);
        if (out->fd < 0 && errno != EEXIST)
            break;
    }
    return out->fd < 0 ? trouble(out->part, "%s", strerror(errno)) : GOOD;
}

/* Never over a file that is there: it could be the hive. Where the file system cannot promise that, new_start has looked. */
static int new_name(const New *n)
{
    if (renameat2(AT_FDCWD, n->part, AT_FDCWD, n->path, RENAME_NOREPLACE) == 0)
        return GOOD;
    if (errno == EEXIST)
        return there(n->path);
    if ((errno == EINVAL || errno == ENOSYS) && rename(n->part, n->path) == 0)
        return GOOD;
    return trouble(n->path, "%s", strerror(errno));
}

static int new_end(New *n, int status)
{
    if (status == GOOD)
        status = settle(n->fd, n->part);
    if (n->fd >= 0 && close(n->fd) != 0 && status == GOOD)
        status = trouble(n->part, "%s", strerror(errno));
    if (status == GOOD)
        status = new_name(n);
    if (status != GOOD && n->fd >= 0)
        unlink(n->part);
    if (status == GOOD)
        status = settle_folder(n->path, n->part);
    free(n->part);
    return status;
}

int write_new(const char *path, Bytes bytes)
{
    New n;
    int status = new_start(path, &n);
    if (status == GOOD)
        status = store(n.fd, n.part, bytes.at, bytes.length, 0);
    return new_end(&n, status);
}

/* Piece by piece, until one is empty. */
int pieces_new(const char *path, Pieces *next, void *of)
{
    New n;
    Bytes piece = {NULL, 0};
    int status = new_start(path, &n);
    for (uint64_t at = 0; status == GOOD; at += piece.length) {
        status = next(of, &piece);
        if (status != GOOD || piece.length == 0)
            break;
        status = store(n.fd, n.part, piece.at, piece.length, at);
    }
    return new_end(&n, status);
}

/* The next piece of an open file that is no hole, from *at on; its length is 0 at the end, which is then *at. */
static int next_piece(int from, const char *path, uint8_t *buffer, size_t room, off_t *at, ssize_t *length)
{
    off_t data = lseek(from, *at, SEEK_DATA);
    if (data > *at)
        *at = data;
    if (data < 0 && errno == ENXIO)
        *at = lseek(from, 0, SEEK_END);
    do
        *length = pread(from, buffer, room, *at);
    while (*length < 0 && errno == EINTR);
    return *length < 0 ? trouble(path, "%s", strerror(errno)) : GOOD;
}

/* All that an open file holds. Holes stay holes. */
int copy_new(const char *path, int from, const char *from_path)
{
    static uint8_t buffer[1 << 20];
    New to;
    off_t at = 0, end = 0;
    ssize_t n = 1;
    int status = new_start(path, &to);
    while (status == GOOD && n > 0) {
        status = next_piece(from, from_path, buffer, sizeof buffer, &at, &n);
        if (status != GOOD || n == 0)
            break;
        status = store(to.fd, to.part, buffer, (size_t)n, (uint64_t)at);
        end = at += n;
    }
    if (status == GOOD && end < at)
        status = lengthen(to.fd, to.part, (uint64_t)at);
    return new_end(&to, status);
}
