/* Files, pipes and standard input, read whole. */
#define _GNU_SOURCE /* SEEK_DATA, SEEK_HOLE */
#include <errno.h>
#include <fcntl.h>
#include <stdlib.h>
#include <string.h>
#include <sys/stat.h>
#include <unistd.h>

#include "host.h"

/* This tool's own limit, 2^32. The longest hive has 2^31 bytes and may be padded, and the log of all its pages is longer still: 2148004864. */
static const size_t LONGEST = 4294967296;

static const char *reason(int number)
{
    return number == EISDIR ? "is a directory" : strerror(number);
}

static int too_long(const char *path)
{
    return trouble(path, "it has more than %zu bytes, which is this tool's limit", LONGEST);
}

static ssize_t read_some(int fd, uint8_t *to, size_t length)
{
    ssize_t n;
    do
        n = read(fd, to, length);
    while (n < 0 && errno == EINTR);
    return n;
}

/* To the end, wherever that is. */
static int read_stream(int fd, const char *path, Bytes *out)
{
    for (size_t room = 65536;; room = room < LONGEST ? 2 * room : LONGEST + 1) {
        uint8_t *more = realloc(out->at, room);
        if (more == NULL)
            return trouble(path, "no memory for %zu bytes", room);
        out->at = more;
        while (out->length < room) {
            ssize_t n = read_some(fd, out->at + out->length, room - out->length);
            if (n < 0)
                return trouble(path, "%s", reason(errno));
            if (n == 0)
                return GOOD;
            out->length += (size_t)n;
        }
        if (room > LONGEST)
            return too_long(path);
    }
}

static int shorter(const char *path)
{
    return trouble(path, "it became shorter while it was read");
}

/* The next bytes of a file that are no hole, at or after `at`: where they start, and where they end. Where that is not known, all to the end. */
static size_t data_from(int fd, size_t at, size_t length)
{
    off_t from = lseek(fd, (off_t)at, SEEK_DATA);
    if (from < 0)
        return errno == ENXIO ? length : at; /* ENXIO: a hole to the end */
    return (size_t)from < length ? (size_t)from : length;
}

static size_t data_to(int fd, size_t from, size_t length)
{
    off_t to = lseek(fd, (off_t)from, SEEK_HOLE);
    return to > (off_t)from && (size_t)to < length ? (size_t)to : length;
}

static int read_part(int fd, const char *path, uint8_t *to, size_t from, size_t end)
{
    while (from < end) {
        ssize_t n = pread(fd, to + from, end - from, (off_t)from);
        if (n < 0 && errno == EINTR)
            continue;
        if (n <= 0)
            return n < 0 ? trouble(path, "%s", reason(errno)) : shorter(path);
        from += (size_t)n;
    }
    return GOOD;
}

/* A file whose length is known: so much and no more. The memory is zero already, so a hole is not read and takes none. The file is not mapped: what is lent to
 * the library must be bytes that nobody changes. */
static int read_known(int fd, const char *path, size_t length, Bytes *out)
{
    out->at = calloc(length, 1);
    if (out->at == NULL)
        return trouble(path, "no memory for its %zu bytes", length);
    while (out->length < length) {
        size_t from = data_from(fd, out->length, length), to = data_to(fd, from, length);
        int status = read_part(fd, path, out->at, from, to);
        if (status != GOOD)
            return status;
        out->length = to;
    }
    return lseek(fd, 0, SEEK_END) < (off_t)length ? shorter(path) : GOOD;
}

/* What has no length, or says 0, is read as a stream: pipes, devices, and files of the system that are made when they are read. */
int read_open(int fd, const char *path, Bytes *out)
{
    *out = (Bytes){NULL, 0};
    if (read(fd, NULL, 0) < 0) /* a directory may have a length, and is not read */
        return trouble(path, "%s", reason(errno));
    off_t length = lseek(fd, 0, SEEK_END);
    if (length > 0 && lseek(fd, 0, SEEK_SET) != 0)
        return trouble(path, "%s", strerror(errno));
    if (length > (off_t)LONGEST)
        return too_long(path);
    return length > 0 ? read_known(fd, path, (size_t)length, out) : read_stream(fd, path, out);
}

/* -, which is no file's name: standard input where a file is read, standard output where one is written. */
bool is_standard(const char *path)
{
    return strcmp(path, "-") == 0;
}

static int read_close(int fd, const char *path, Bytes *out)
{
    int status = read_open(fd, path, out);
    close(fd);
    return status;
}

int read_file(const char *path, Bytes *out)
{
    if (is_standard(path))
        return read_open(0, "standard input", out);
    int fd = open(path, O_RDONLY | O_CLOEXEC);
    return fd < 0 ? trouble(path, "%s", reason(errno)) : read_close(fd, path, out);
}

int read_kept(const char *path, Bytes *out)
{
    int fd = open_kept(path, O_RDONLY);
    return fd < 0 ? TROUBLE : read_close(fd, path, out);
}

/* What nobody has named: only where it is a regular file, or a link to one. A pipe is not waited for. `lax`: one that may not be read is none. */
int read_regular(const char *path, Bytes *out, bool lax, bool *there)
{
    struct stat facts;
    int fd = open(path, O_RDONLY | O_NONBLOCK | O_CLOEXEC);
    *there = false;
    if (fd < 0)
        return lax || errno == ENOENT ? GOOD : trouble(path, "%s", reason(errno));
    *there = fstat(fd, &facts) == 0 && S_ISREG(facts.st_mode);
    if (*there)
        return read_close(fd, path, out);
    close(fd);
    return GOOD;
}

static int from_input(const Order *o, const char *file)
{
    int n = is_standard(file);
    for (int i = 0; i < o->log_count; i++)
        n += is_standard(o->logs[i]);
    return n;
}

/* The hive as its file is, or, where a log was given, as the repair would leave it; or, where that is asked for, a dirty one as it is. The file is opened for
 * reading only. */
int read_hive(const Order *o, const char *file, Hive *out)
{
    *out = (Hive){.file = file};
    say_as_is(false);
    if (from_input(o, file) > 1)
        return misused("FILE and LOG cannot both be standard input");
    bool with_log = o->beside || o->log_count > 0;
    if ((o->grow || o->only_this_log) && !with_log)
        return misused("%s goes with --log", o->grow ? "--grow" : "--only-this-log");
    if (o->beside && o->log_count > 0)
        return misused("--log names a log, and --logs takes those beside FILE: give one of the two");
    int status = read_file(file, &out->bytes);
    if (status == GOOD && o->as_is)
        status = take_as_is(out);
    if (status == GOOD && with_log)
        status = take_logs(out, o->logs, o->log_count, o, read_file);
    return status == GOOD && with_log && out->log != NULL ? recover(out) : status;
}

void drop_hive(Hive *h)
{
    free(h->bytes.at);
    free(h->logged.at);
}
