/* A new hive from a stream of frames and one security descriptor. */
#include <stdlib.h>

#include "host.h"

/* Where no descriptor is given: owner Administrators, group SYSTEM; SYSTEM and Administrators may do everything, Users may read, also in subkeys. */
static uint8_t common[] = {
    0x01, 0x00, 0x04, 0x80, 0x60, 0x00, 0x00, 0x00, 0x70, 0x00, 0x00, 0x00, 0x00, 0x00, 0x00, 0x00, 0x14, 0x00, 0x00, 0x00, 0x02, 0x00, 0x4c, 0x00, 0x03, 0x00, 0x00, 0x00, 0x00, 0x02, 0x14, 0x00,
    0x3f, 0x00, 0x0f, 0x00, 0x01, 0x01, 0x00, 0x00, 0x00, 0x00, 0x00, 0x05, 0x12, 0x00, 0x00, 0x00, 0x00, 0x02, 0x18, 0x00, 0x3f, 0x00, 0x0f, 0x00, 0x01, 0x02, 0x00, 0x00, 0x00, 0x00, 0x00, 0x05,
    0x20, 0x00, 0x00, 0x00, 0x20, 0x02, 0x00, 0x00, 0x00, 0x02, 0x18, 0x00, 0x19, 0x00, 0x02, 0x00, 0x01, 0x02, 0x00, 0x00, 0x00, 0x00, 0x00, 0x05, 0x20, 0x00, 0x00, 0x00, 0x21, 0x02, 0x00, 0x00,
    0x01, 0x02, 0x00, 0x00, 0x00, 0x00, 0x00, 0x05, 0x20, 0x00, 0x00, 0x00, 0x20, 0x02, 0x00, 0x00, 0x01, 0x01, 0x00, 0x00, 0x00, 0x00, 0x00, 0x05, 0x12, 0x00, 0x00, 0x00,
};

/* The hive of a stream, in memory that is as long as it. */
static int build(const char *file, Bytes frames, Bytes descriptor, Bytes *out)
{
    work_starts("building", 0);
    HiveBuilt b = hive_build_size(frames.at, frames.length, descriptor.length);
    *out = (Bytes){b.answer.number == 0 ? malloc(b.length) : NULL, b.length};
    if (b.answer.number == 0 && out->at == NULL)
        return trouble(file, "no memory for a hive of %zu bytes", out->length);
    if (b.answer.number == 0)
        b = hive_build(frames.at, frames.length, descriptor.at, descriptor.length, out->at, out->length);
    work_ends();
    return b.answer.number == 0 ? GOOD : unbuilt(file, frames, b);
}

/* Nothing is written but a hive that the check accepts, and nothing is said before it is on the disk, or at standard output's other end. */
static int finish(const Hive *h, FILE *to)
{
    HiveReport r;
    int status = check(h->file, h->bytes, &r);
    if (status == GOOD && r.answer.number == 0)
        status = to != NULL ? put_output(to, h->bytes) : write_new(h->file, h->bytes);
    if (status != GOOD)
        return status;
    if (r.answer.number == 0) {
        say(h->file, "built");
        say_bare("bytes", h->bytes.length);
        say_end();
    }
    return report(h, r);
}

int build_verb(const Order *o)
{
    Hive h = {.file = o->words[1]};
    Bytes frames, descriptor = {common, sizeof common};
    FILE *to = NULL;
    if (o->descriptor != NULL && is_standard(o->words[0]) && is_standard(o->descriptor))
        return misused("FRAMES and the descriptor cannot both be standard input");
    int status = is_standard(h.file) ? raw_output("a hive's bytes", &to) : GOOD;
    if (status == GOOD)
        status = read_file(o->words[0], &frames);
    if (status == GOOD && o->descriptor != NULL)
        status = read_file(o->descriptor, &descriptor);
    if (status == GOOD)
        status = build(o->words[0], frames, descriptor, &h.bytes);
    return status == GOOD ? finish(&h, to) : status;
}
