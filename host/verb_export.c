/* The tree as frames, to a new file or to standard output. */
#include <stdlib.h>
#include <string.h>
#include <unistd.h>

#include "host.h"

/* Three words for each key that is open at once, and room for any one frame. */
enum { WORDS = 3 * (LEVELS + 1), ROOM = 1 << 21 };

static uint32_t levels[WORDS];
static uint8_t buffer[ROOM];

int export_begin(const Hive *h, Export *out)
{
    size_t length = h->bytes.length / 64;
    uint8_t *map = malloc(length + 1);
    if (map == NULL)
        return trouble(h->file, "no memory for the work map");
    work_starts("checking", 0);
    *out = (Export){.h = h, .e = hive_export_begin(h->bytes.at, h->bytes.length, map, length, levels, WORDS)};
    work_ends();
    free(map);
    return out->e.answer.number != 0 ? refusal(h, out->e.answer, NULL) : GOOD;
}

void export_below(Export *x, uint32_t key)
{
    levels[0] = key;
    levels[1] = levels[2] = 0;
    x->e.depth = 1;
    x->e.due = 0;
}

/* The next run's frames; none when all were written. */
int export_next(void *of, Bytes *piece)
{
    Export *x = of;
    Bytes b = x->h->bytes;
    x->e = hive_export_run(b.at, b.length, levels, WORDS, x->e.depth, x->e.due, buffer, ROOM);
    if (x->e.state == HIVE_REFUSED)
        return refusal(x->h, x->e.answer, NULL);
    *piece = (Bytes){buffer, x->e.bytes};
    x->frames += x->e.frames;
    x->bytes += x->e.bytes;
    work_did(x->frames);
    return GOOD;
}

/* The same, as long as all of them are not past the bound. */
static int bounded_next(void *of, Bytes *piece)
{
    Export *x = of;
    int status = export_next(x, piece);
    return status == GOOD && x->bytes > x->bound ? past_bound(x->h, x->bound) : status;
}

static int to_file(const char *path, Export *x)
{
    work_starts("exporting frames", 0);
    int status = pieces_new(path, bounded_next, x);
    work_ends();
    return status;
}

static int to_output(FILE *to, Export *x)
{
    Bytes piece;
    int status = bounded_next(x, &piece);
    for (; status == GOOD && piece.length > 0; status = bounded_next(x, &piece))
        if (put_output(to, piece) != GOOD)
            return TROUBLE;
    return status;
}

static void tell(const Export *x)
{
    say(x->h->file, "exported");
    say_number("frames", x->frames);
    say_number("bytes", x->bytes);
    say_end();
}

FILE *own_output(void)
{
    int fd = dup(1);
    FILE *to = fd < 0 ? NULL : fdopen(fd, "wb");
    return to != NULL && dup2(2, 1) == 1 ? to : NULL;
}

int raw_output(const char *what, FILE **to)
{
    if (isatty(1))
        return trouble("standard output", "%s are no text for a terminal; give OUT, or direct them to a file", what);
    *to = own_output();
    return *to != NULL ? GOOD : trouble("standard output", "it cannot be written");
}

int put_output(FILE *to, Bytes bytes)
{
    bool done = fwrite(bytes.at, 1, bytes.length, to) == bytes.length && fflush(to) == 0;
    return done ? GOOD : trouble("standard output", "it cannot be written");
}

/* Without OUT nothing is said of what went well. */
int export_verb(const Order *o)
{
    Hive h;
    Export x;
    FILE *to = NULL;
    const char *out = o->count == 2 ? o->words[1] : NULL;
    int status = out == NULL || is_standard(out) ? raw_output("frames", &to) : GOOD;
    if (status == GOOD)
        status = read_hive(o, o->words[0], &h);
    if (status == GOOD)
        status = export_begin(&h, &x);
    if (status != GOOD)
        return status;
    x.bound = bound_of(o, &h);
    status = to == NULL ? to_file(out, &x) : to_output(to, &x);
    if (status == GOOD && out != NULL)
        tell(&x);
    return status;
}
