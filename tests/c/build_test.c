/* A hive from frames. First the cases on standard input, which tools/build_cases.py has written and whose layout stands in its head. Then random trees, and streams of which
   something is spoilt, against a second reading of the faults and sizes. Every buffer ends where an unreadable page starts. */
#include <stdlib.h>
#include <string.h>
#include <sys/mman.h>
#include <unistd.h>

#include "fixtures.h"
#include "expect.h"
#include "reading.h"
#include "stack.h"

enum { PAGE = 4096, WORDS = 3 * 513, RUN = 1 << 21, MARK = 0x5a, EDGE = 65536, MOST_SAMPLE = 1 << 26 };

/* ---- memory */

typedef struct {
    uint8_t *at;
    size_t length, mapped;
} Lent;

/* Zeros that nobody has touched; what lies behind them cannot be read. */
static Lent lent(size_t length)
{
    size_t pages = (length + PAGE - 1) / PAGE * PAGE;
    uint8_t *p = mmap(NULL, pages + PAGE, PROT_READ | PROT_WRITE, MAP_PRIVATE | MAP_ANONYMOUS | MAP_NORESERVE, -1, 0);
    if (p == MAP_FAILED || mprotect(p + pages, PAGE, PROT_NONE) != 0)
        abort();
    return (Lent){p + pages - length, length, pages + PAGE};
}

static void give_back(Lent l)
{
    munmap(l.at + l.length + PAGE - l.mapped, l.mapped);
}

/* ---- streams */

typedef struct {
    uint8_t *at;
    size_t length, room;
} Stream;

static uint8_t *more(Stream *s, size_t length)
{
    if (s->length + length > s->room && (s->at = realloc(s->at, s->room = 2 * (s->length + length))) == NULL)
        abort();
    s->length += length;
    return s->at + s->length - length;
}

static Lent lent_stream(const Stream *s)
{
    Lent l = lent(s->length);
    if (s->length > 0)
        memcpy(l.at, s->at, s->length);
    return l;
}

/* ---- the hive that was built */

static uint32_t crc_of(const uint8_t *p, size_t length)
{
    static uint32_t table[256];
    for (uint32_t i = 0; table[255] == 0 && i < 256; i++) {
        table[i] = i;
        for (int k = 0; k < 8; k++)
            table[i] = table[i] >> 1 ^ (table[i] & 1 ? 0xedb88320 : 0);
    }
    uint32_t crc = 0xffffffff;
    for (size_t i = 0; i < length; i++)
        crc = crc >> 8 ^ table[(crc ^ p[i]) & 0xff];
    return ~crc;
}

/* All of the memory, or of memory that is long both its ends. */
static bool all_are(const uint8_t *p, size_t length, uint8_t byte)
{
    for (size_t i = 0; i < length; i++) {
        if (p[i] != byte)
            return false;
        if (length > MOST_SAMPLE && i == EDGE)
            i = length - EDGE;
    }
    return true;
}

/* Its export is the stream. */
static void exports(const uint8_t *hive, size_t length, Lent stream)
{
    static uint32_t levels[WORDS];
    static uint8_t run[RUN];
    uint8_t *map = malloc(length / 64);
    size_t done = 0;
    HiveExport e = hive_export_begin(hive, length, map, length / 64, levels, WORDS);
    EXPECT(is(e.answer, 0, 0));
    while (good && e.state == HIVE_WRITTEN) {
        e = hive_export_run(hive, length, levels, WORDS, e.depth, e.due, run, RUN);
        EXPECT(is(e.answer, 0, 0) && e.bytes <= stream.length - done && (e.bytes == 0 || memcmp(run, stream.at + done, e.bytes) == 0));
        done += e.bytes;
    }
    EXPECT(done == stream.length);
    free(map);
}

/* Its check, by the stream's own counts: how many keys open, how many values there are. */
static void accepted(const uint8_t *hive, size_t length, Lent stream)
{
    uint64_t keys = 0, values = 0;
    for (size_t at = 0; at < stream.length; at += 6 + (size_t)get32(stream.at + at)) {
        keys += get16(stream.at + at + 4) == 16;
        values += get16(stream.at + at + 4) == 17;
    }
    uint8_t *map = malloc(length / 64);
    HiveReport r = hive_check(hive, length, map, (length - 4096) / 64);
    EXPECT(is(r.answer, 0, 0) && r.bins == 1 && r.keys == keys && r.values == values && 32 + r.used + r.free == length - 4096);
    free(map);
}

/* ---- both calls of one stream */

typedef struct {
    uint32_t number;
    uint64_t at, length; /* length: what hive_build_size gives, 0 where it refuses */
} Wanted;

static bool built(HiveBuilt b, uint32_t number, uint64_t at, uint64_t length)
{
    return is(b.answer, number, 0) && b.at == at && b.length == length;
}

/* The CRC of what was built in a buffer of so many bytes, or 0; a refusal leaves them, and success those behind the hive. */
static uint32_t one_room(Lent stream, Lent descriptor, size_t room, Wanted w)
{
    Lent out = lent(room);
    uint8_t fill = room > MOST_SAMPLE ? 0 : MARK;
    uint32_t crc = 0;
    if (fill != 0)
        memset(out.at, fill, room);
    HiveBuilt b = hive_build(stream.at, stream.length, descriptor.at, descriptor.length, out.at, room);
    uint32_t number = w.number == 0 && w.length > room ? 20 : w.number;
    uint64_t length = number == 0 ? w.length : 0;
    EXPECT(built(b, number, w.at, length) && length <= room && all_are(out.at + length, room - length, fill));
    if (good && number == 0) {
        crc = crc_of(out.at, length);
        accepted(out.at, length, stream);
        exports(out.at, length, stream);
    }
    give_back(out);
    return crc;
}

static void size(Lent stream, Lent descriptor, Wanted w)
{
    HiveBuilt b = hive_build_size(stream.at, stream.length, descriptor.length);
    EXPECT(w.number == 0 || w.number == 20 ? built(b, 0, 0, w.length) : built(b, w.number, w.at, 0));
}

/* ---- the cases of the file */

static Stream file;
static size_t read_to;

static uint64_t next(size_t length)
{
    uint64_t n = 0;
    if (read_to + length > file.length)
        abort();
    for (size_t i = 0; i < length; i++)
        n |= (uint64_t)file.at[read_to + i] << 8 * i;
    read_to += length;
    return n;
}

/* From standard input. */
static void read_cases(void)
{
    ssize_t n;
    do {
        n = read(0, more(&file, EDGE), EDGE);
        if (n < 0)
            abort();
        file.length -= EDGE - (size_t)n;
    } while (n > 0);
}

/* A part of a stream: so many times, each with its number as five digits where it has a place. */
static void next_part(Stream *s)
{
    uint32_t times = (uint32_t)next(4), length = (uint32_t)next(4), place = (uint32_t)next(4);
    const uint8_t *from = file.at + read_to;
    for (uint32_t i = 0; i < times; i++) {
        uint8_t *to = more(s, length);
        memcpy(to, from, length);
        for (int k = 0; place != 0xffffffff && k < 5; k++) {
            to[place + 2 * k] = (uint8_t) "0123456789ABCDEF"[i >> (16 - 4 * k) & 15];
            to[place + 2 * k + 1] = 0;
        }
    }
    read_to += length;
}

static Lent next_descriptor(void)
{
    Lent d = lent(next(8));
    for (size_t i = 0; d.length <= EDGE && i < d.length; i++)
        d.at[i] = (uint8_t)(i % 251);
    return d;
}

static void next_case(void)
{
    Stream s = {0};
    read_to += next(2);
    for (uint64_t parts = next(4); parts > 0; parts--)
        next_part(&s);
    Lent stream = lent_stream(&s), descriptor = next_descriptor();
    uint64_t room = next(8);
    Wanted w = {.number = (uint32_t)next(4)};
    w.at = next(8);
    w.length = next(8);
    uint32_t crc = (uint32_t)next(4);
    size(stream, descriptor, w);
    EXPECT(one_room(stream, descriptor, room, w) == crc);
    if (w.number == 0)
        EXPECT(one_room(stream, descriptor, w.length, w) == crc && one_room(stream, descriptor, w.length + 4097, w) == crc && one_room(stream, descriptor, w.length - 1, w) == 0);
    give_back(stream);
    give_back(descriptor);
    free(s.at);
}

static void t_cases(void)
{
    enum { LEAST = 300 };
    int count = 0;
    read_cases();
    for (; good && read_to < file.length; count++) {
        size_t title = read_to;
        next_case();
        if (!good)
            printf("in the case: %.*s\n", (int)get16(file.at + title), (const char *)file.at + title + 2);
    }
    EXPECT(count >= LEAST);
}

/* ---- a second reading: the first fault of a stream, or the length of its hive */

typedef struct {
    uint32_t kind;
    size_t at, end, name, units, data; /* name, data: where they start */
} Frame;

static uint32_t folded(const uint8_t *s, const Frame *f, size_t i)
{
    uint32_t c = get16(s + f->name + 2 * i);
    return c == 0xff ? 0x178 : (c >= 'a' && c <= 'z') || (c >= 0xe0 && c <= 0xfe && c != 0xf7) ? c - 32 : c;
}

static int compared(const uint8_t *s, const Frame *a, const Frame *b)
{
    for (size_t i = 0; i < a->units && i < b->units; i++)
        if (folded(s, a, i) != folded(s, b, i))
            return folded(s, a, i) < folded(s, b, i) ? -1 : 1;
    return a->units < b->units ? -1 : a->units > b->units;
}

static bool frame_at(const uint8_t *s, size_t n, size_t at, Frame *f)
{
    if (n - at < 6)
        return false;
    size_t length = get32(s + at);
    *f = (Frame){.kind = get16(s + at + 4), .at = at, .end = at + 6 + length, .name = at + 14};
    if (n - at - 6 < length)
        return false;
    if (f->kind == 18 || length < 8)
        return f->kind == 18 && length == 0;
    size_t name = f->kind == 16 ? length - 8 : get32(s + at + 10);
    f->units = name / 2;
    f->data = f->name + name;
    return (f->kind == 16 || f->kind == 17) && name % 2 == 0 && name <= length - 8;
}

static bool has_backslash(const uint8_t *s, const Frame *f)
{
    for (size_t i = 0; i < f->units; i++)
        if (get16(s + f->name + 2 * i) == '\\')
            return true;
    return false;
}

/* The keys that are open. first: where its value frames start, which stand in a row. last: its last subkey. */
typedef struct {
    size_t first, values, subkeys;
    Frame last;
} Open;

typedef struct {
    Open open[515];
    size_t depth;
    bool over;
    uint64_t cells;
} State;

static bool has_namesake(const uint8_t *s, size_t n, const Open *key, const Frame *f)
{
    Frame one;
    for (size_t at = key->first; at < f->at && frame_at(s, n, at, &one); at = one.end)
        if (compared(s, &one, f) == 0)
            return true;
    return false;
}

static uint32_t fault_of(const uint8_t *s, size_t n, const State *st, const Frame *f)
{
    const Open *top = st->depth == 0 ? NULL : &st->open[st->depth - 1];
    if (f->kind == 17 && top != NULL && top->subkeys > 0)
        return 31;
    if (top == NULL && (st->over || f->kind != 16))
        return 32;
    if (f->kind == 18)
        return 0;
    if (f->kind == 17)
        return has_namesake(s, n, top, f) ? 34 : f->units > 16383 ? 35 : f->end - f->data > 1048576 ? 36 : 0;
    if (top != NULL && top->subkeys > 0 && compared(s, &top->last, f) >= 0)
        return 33;
    if (f->units == 0 || f->units > 255 || has_backslash(s, f))
        return 35;
    return st->depth > 512 ? 37 : top != NULL && top->subkeys >= 65535 ? 38 : 0;
}

static uint64_t cell(uint64_t length)
{
    return (length + 11) / 8 * 8;
}

static uint64_t stored(const uint8_t *s, const Frame *f)
{
    for (size_t i = 0; i < f->units; i++)
        if (s[f->name + 2 * i + 1] != 0)
            return 2 * f->units;
    return f->units;
}

static uint64_t data_cells(uint64_t length)
{
    uint64_t sum = length <= 4 ? 0 : length <= 16344 ? cell(length) : 16 + cell((length + 16343) / 16344 * 4);
    for (; sum > 0 && length > 16344; length -= length < 16344 ? length : 16344)
        sum += length - 16344 > 16344 ? 16352 : 16352 + cell(length - 16344);
    return sum;
}

static void take(const uint8_t *s, State *st, const Frame *f)
{
    Open *top = st->depth == 0 ? NULL : &st->open[st->depth - 1];
    if (f->kind == 18) {
        st->cells += (top->values > 0 ? cell(4 * top->values) : 0) + (top->subkeys > 0 ? cell(4 + 8 * top->subkeys) : 0);
        st->over = --st->depth == 0;
    } else if (f->kind == 17) {
        top->values++;
        st->cells += cell(20 + stored(s, f)) + data_cells(f->end - f->data);
    } else {
        if (top != NULL) {
            top->subkeys++;
            top->last = *f;
        }
        st->open[st->depth++] = (Open){.first = f->end};
        st->cells += cell(76 + stored(s, f));
    }
}

static Wanted judged(const uint8_t *s, size_t n, size_t descriptor)
{
    static State st;
    Frame f;
    memset(&st, 0, sizeof st);
    for (size_t at = 0; at < n; at = f.end) {
        uint32_t fault = frame_at(s, n, at, &f) ? fault_of(s, n, &st, &f) : 30;
        if (fault != 0)
            return (Wanted){fault, at, 0};
        take(s, &st, &f);
    }
    if (!st.over)
        return (Wanted){32, n, 0};
    return (Wanted){0, 0, 4096 + (32 + st.cells + cell(20 + descriptor) + 4095) / 4096 * 4096};
}

/* ---- random trees */

static const uint16_t LETTERS[] = {'a', 'A', 'b', 'B', 'z', '_', '[', 0xe9, 0xc9, 0xf7, 0xd7, 0xff, 0x178, 0xb5, 0x416, 0x436, 0xd800, 0xdc00, 0, 0xffff};

static void put_units(Stream *s, uint32_t count, bool narrow)
{
    for (uint32_t i = 0; i < count; i++)
        put16(more(s, 2), narrow ? "abcXYZ"[dice() % 6] : LETTERS[dice() % (sizeof LETTERS / sizeof LETTERS[0])]);
}

static size_t frame_starts(Stream *s, uint32_t kind)
{
    size_t at = s->length;
    memset(more(s, 6), 0, 6);
    put16(s->at + at + 4, kind);
    return at;
}

static void frame_ends(Stream *s, size_t at)
{
    put32(s->at + at, (uint32_t)(s->length - at - 6));
}

static void bytes(Stream *s, size_t length)
{
    uint8_t *to = more(s, length);
    for (size_t i = 0; i < length; i++)
        to[i] = (uint8_t)dice();
}

static size_t some_length(void)
{
    static const size_t lengths[] = {0, 1, 3, 4, 5, 8, 12, 13, 40, 200, 16343, 16344, 16345, 32688, 32689};
    return lengths[dice() % (dice() % 16 == 0 ? 15 : 10)];
}

/* Frames that would be at fault are left out, by the second reading of what is there so far with the new frame. */
static bool keep(Stream *s, size_t at)
{
    Wanted w = judged(s->at, s->length, 0);
    if (w.number == 0 || (w.number == 32 && w.at == s->length))
        return true;
    s->length = at;
    return false;
}

static void some_key(Stream *s, uint32_t level)
{
    size_t at = frame_starts(s, 16);
    bytes(s, 8);
    put_units(s, dice() % 32 == 0 ? 255 : 1 + dice() % 4, dice() % 3 != 0);
    frame_ends(s, at);
    if (!keep(s, at))
        return;
    for (uint32_t values = dice() % 5; values > 0; values--) {
        at = frame_starts(s, 17);
        bytes(s, 8);
        size_t name = s->length;
        put_units(s, dice() % 5, dice() % 3 != 0);
        put32(s->at + at + 10, (uint32_t)(s->length - name));
        bytes(s, some_length());
        frame_ends(s, at);
        keep(s, at);
    }
    for (uint32_t subkeys = level >= 4 ? 0 : dice() % 5; subkeys > 0; subkeys--)
        some_key(s, level + 1);
    frame_starts(s, 18);
}

static Lent some_descriptor(void)
{
    Lent d = lent(dice() % 4 == 0 ? dice() % 5000 : dice() % 200);
    for (size_t i = 0; i < d.length; i++)
        d.at[i] = (uint8_t)dice();
    return d;
}

static void try_both(const Stream *s, size_t room)
{
    Lent stream = lent_stream(s), descriptor = some_descriptor();
    Wanted w = judged(stream.at, stream.length, descriptor.length);
    size(stream, descriptor, w);
    one_room(stream, descriptor, w.number == 0 ? w.length : room, w);
    if (w.number == 0)
        one_room(stream, descriptor, w.length - 1 - dice() % 4096, w);
    give_back(stream);
    give_back(descriptor);
}

static void t_trees(void)
{
    for (int round = 0; good && round < 2000; round++) {
        Stream s = {0};
        some_key(&s, 0);
        EXPECT(judged(s.at, s.length, 0).number == 0);
        try_both(&s, 0);
        free(s.at);
    }
}

/* ---- spoilt streams */

/* A frame of a good stream. */
static Frame any_frame(const Stream *s)
{
    Frame f = {0};
    size_t stop = dice() % s->length;
    for (size_t at = 0; at <= stop && frame_at(s->at, s->length, at, &f); at = f.end)
        continue;
    return f;
}

static void spoil(Stream *s)
{
    Frame f = any_frame(s), g = any_frame(s);
    size_t length = f.end - f.at;
    uint8_t *copy;
    switch (dice() % 6) {
    case 0: /* a bit */
        s->at[dice() % s->length] ^= (uint8_t)(1 << dice() % 8);
        break;
    case 1: /* a bit of a head */
        s->at[f.at + dice() % 6] ^= (uint8_t)(1 << dice() % 3);
        break;
    case 2: /* cut */
        s->length = dice() % (s->length + 1);
        break;
    case 3: /* a frame less */
        memmove(s->at + f.at, s->at + f.end, s->length - f.end);
        s->length -= length;
        break;
    case 4: /* a frame once more, elsewhere */
        copy = malloc(length);
        memcpy(copy, s->at + f.at, length);
        more(s, length);
        memmove(s->at + g.at + length, s->at + g.at, s->length - length - g.at);
        memcpy(s->at + g.at, copy, length);
        free(copy);
        break;
    default: /* bytes behind the root */
        bytes(s, dice() % 20);
    }
}

static void t_spoilt(void)
{
    int met[40] = {0};
    for (int round = 0; good && round < 5000; round++) {
        Stream s = {0};
        some_key(&s, 1 + dice() % 4);
        Stream kept = {malloc(s.length), s.length, s.length};
        memcpy(kept.at, s.at, s.length);
        for (int k = 0; good && k < 4; k++) {
            s.length = 0;
            memcpy(more(&s, kept.length), kept.at, kept.length);
            spoil(&s);
            met[judged(s.at, s.length, 0).number]++;
            try_both(&s, dice() % 9000);
        }
        free(kept.at);
        free(s.at);
    }
    for (int i = 30; i <= 35; i++)
        EXPECT(met[i] > 20);
    EXPECT(met[0] > 100);
}

/* ---- edges */

/* No memory at all, and descriptors so long that a sum of 64 bits would wrap. */
static void t_edges(void)
{
    static const uint8_t smallest[] = {10, 0, 0, 0, 16, 0, 0, 0, 0, 0, 0, 0, 0, 0, 'R', 0, 0, 0, 0, 0, 18, 0};
    static const size_t long_ones[] = {2147479409, 4294967295, 4294967296, 1ull << 63, (size_t)-4096, (size_t)-33, (size_t)-32, (size_t)-24, (size_t)-21, (size_t)-20, (size_t)-1};
    EXPECT(built(hive_build_size(NULL, 0, 0), 32, 0, 0) && built(hive_build(NULL, 0, NULL, 0, NULL, 0), 32, 0, 0));
    EXPECT(built(hive_build_size(smallest, sizeof smallest, 0), 0, 0, 8192) && built(hive_build(smallest, sizeof smallest, NULL, 0, NULL, 0), 20, 0, 0));
    EXPECT(built(hive_build_size(smallest, sizeof smallest, 2147479408), 0, 0, 2147483648));
    for (size_t i = 0; i < sizeof long_ones / sizeof long_ones[0]; i++)
        EXPECT(built(hive_build_size(smallest, sizeof smallest, long_ones[i]), 39, 0, 0) && built(hive_build_size(smallest, sizeof smallest - 1, long_ones[i]), 30, 16, 0));
}

/* ---- the stack */

static Stream deep;
static uint8_t *deep_out;
static HiveBuilt deep_built;

static void build_deep(void)
{
    deep_built = hive_build(deep.at, deep.length, NULL, 0, deep_out, deep_built.length);
}

static void named_value(Stream *s, uint32_t i)
{
    size_t at = frame_starts(s, 17);
    memset(more(s, 8), 0, 8);
    put32(s->at + at + 10, 8);
    for (int k = 0; k < 4; k++)
        put16(more(s, 2), 'a' + (i >> 4 * k & 15));
    frame_ends(s, at);
}

/* A chain of 513 keys with 17 values each, and the last with 4,097, on the stack that a caller owes. */
static void t_stack(void)
{
    enum { LEVELS = 513, EACH = 17, LAST = 4097, OWED = 384 << 10 };
    for (uint32_t level = 0; level < LEVELS; level++) {
        size_t at = frame_starts(&deep, 16);
        memset(more(&deep, 8), 0, 8);
        put16(more(&deep, 2), 'k');
        frame_ends(&deep, at);
        for (uint32_t i = 0; i < (level + 1 < LEVELS ? EACH : LAST); i++)
            named_value(&deep, i);
    }
    size_t last = deep.length;
    for (uint32_t level = 0; level < LEVELS; level++)
        frame_starts(&deep, 18);
    deep_built = hive_build_size(deep.at, deep.length, 0);
    EXPECT(is(deep_built.answer, 0, 0));
    Lent out = lent(deep_built.length);
    deep_out = out.at;
    on_stack(OWED, build_deep);
    EXPECT(built(deep_built, 0, 0, out.length));
    memcpy(deep.at + last - 8, "a\0a\0a\0a", 7); /* the last value is called as the first */
    on_stack(OWED, build_deep);
    EXPECT(built(deep_built, 34, last - 22, 0));
    give_back(out);
    free(deep.at);
}

int main(void)
{
    test("build: the cases of the model", t_cases);
    test("build: random trees, and back again", t_trees);
    test("build: spoilt streams, by a second reading", t_spoilt);
    test("build: no memory, and long descriptors", t_edges);
    test("build: 513 levels on a stack of 384 KiB", t_stack);
    return counts();
}
