/* The logs that Windows keeps beside a hive: FILE.LOG1 and FILE.LOG2, or FILE.LOG, whatever the case of their letters. */
#define _GNU_SOURCE /* DT_REG */
#include <dirent.h>
#include <errno.h>
#include <stdlib.h>
#include <string.h>

#include "host.h"

enum { KINDS = 3, OLD = 2 };
static const char *const ENDINGS[KINDS] = {".LOG1", ".LOG2", ".LOG"};

/* The best entry of a folder for each kind, and how well it fits: see fitness. */
typedef struct {
    char names[KINDS][256];
    int fitness[KINDS];
} Entries;

static char capital(char c)
{
    return c >= 'a' && c <= 'z' ? (char)(c - 32) : c;
}

static bool is_alike(const char *a, const char *b, size_t length)
{
    size_t i = 0;
    while (i < length && a[i] != 0 && capital(a[i]) == capital(b[i]))
        i++;
    return i == length;
}

/* 3: letter for letter; 2: but for the case of the ending; 1: but for case; 0: another name. */
static int fitness(const char *entry, const char *stem, size_t length, const char *ending)
{
    size_t more = strlen(ending);
    if (strlen(entry) != length + more || !is_alike(entry, stem, length) || !is_alike(entry + length, ending, more))
        return 0;
    if (memcmp(entry, stem, length) != 0)
        return 1;
    return memcmp(entry + length, ending, more) == 0 ? 3 : 2;
}

/* Of two that fit alike the one that sorts first, so that the order of the folder does not matter. */
static void consider(Entries *e, const struct dirent *d, const char *stem, size_t length)
{
    if (d->d_type != DT_REG && d->d_type != DT_LNK && d->d_type != DT_UNKNOWN)
        return;
    for (int k = 0; k < KINDS; k++) {
        int f = fitness(d->d_name, stem, length, ENDINGS[k]);
        if (f > e->fitness[k] || (f > 0 && f == e->fitness[k] && strcmp(d->d_name, e->names[k]) < 0)) {
            e->fitness[k] = f;
            memcpy(e->names[k], d->d_name, strlen(d->d_name) + 1);
        }
    }
}

static size_t folder_length(const char *path)
{
    const char *slash = strrchr(path, '/');
    return slash == NULL ? 0 : (size_t)(slash - path) + 1;
}

/* The folder and a name in it. NULL where there is no memory. */
static char *in_folder(const char *path, const char *name)
{
    size_t n = folder_length(path), room = n + strlen(name) + 1;
    char *out = malloc(room);
    if (out != NULL)
        snprintf(out, room, "%.*s%s", (int)n, path, name);
    return out;
}

/* A folder that cannot be read has none, and that is told. */
static int list_folder(const char *path, const char *stem, size_t length, enum Look look, Entries *out)
{
    char *folder = in_folder(path, ".");
    DIR *dir = folder == NULL ? NULL : opendir(folder);
    if (dir == NULL && (folder == NULL || errno == ENOMEM)) {
        free(folder);
        return trouble(path, "no memory to look for logs beside it");
    }
    if (dir == NULL && errno != ENOENT && look != LOOK_HINT)
        note(folder, "this folder cannot be read: no log was looked for in it");
    for (struct dirent *d; dir != NULL && (d = readdir(dir)) != NULL;)
        consider(out, d, stem, length);
    if (dir != NULL)
        closedir(dir);
    free(folder);
    return GOOD;
}

/* One of them, where it is there: its name and its bytes. */
static int take_entry(const char *path, const char *entry, enum Look look, Log *logs, int *count)
{
    bool there = false;
    Log log = {in_folder(path, entry), {NULL, 0}};
    int status = log.name == NULL ? trouble(path, "no memory") : read_regular(log.name, &log.bytes, look == LOOK_HINT, &there);
    if (status == GOOD && there && log.bytes.length == 0 && look == LOOK_TAKE)
        note(log.name, "it is empty, and passed over");
    if (status == GOOD && there && log.bytes.length > 0)
        logs[(*count)++] = log;
    else
        drop_log(&log);
    return status;
}

static int of_entries(const char *path, const Entries *e, enum Look look, Log *logs, int *count)
{
    int status = GOOD;
    for (int k = 0; k < KINDS && status == GOOD; k++)
        if (e->fitness[k] > 0 && (k < OLD || *count == 0))
            status = take_entry(path, e->names[k], look, logs, count);
    return status;
}

int logs_beside(const char *path, const char *stem, size_t length, enum Look look, Log *logs, int *count)
{
    Entries e = {.fitness = {0}};
    *count = 0;
    if (is_standard(path) || length == 0)
        return GOOD;
    int status = list_folder(path, stem, length, look, &e);
    return status == GOOD ? of_entries(path, &e, look, logs, count) : status;
}

const char *base_name(const char *path)
{
    return path + folder_length(path);
}

/* How long the name of a log is without its ending; 0 where it has none of them. */
size_t stem_length(const char *name)
{
    size_t n = strlen(name);
    for (int k = 0; k < KINDS; k++) {
        size_t more = strlen(ENDINGS[k]);
        if (n > more && is_alike(name + n - more, ENDINGS[k], more))
            return n - more;
    }
    return 0;
}

void drop_log(Log *log)
{
    free(log->name);
    free(log->bytes.at);
    *log = (Log){NULL, {NULL, 0}};
}
