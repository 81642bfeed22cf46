/* The tree as frames: one by one, and in runs. In hives that are accepted: against a stream that a recursion over the lists makes. In others, and from any
   words, depths and due numbers: by the definition of a run, of which there is a second reading here. */
#include <stdlib.h>
#include <string.h>

#include "fixtures.h"
#include "expect.h"
#include "lend.h"
#include "reading.h"

enum { LEVELS = 513, WORDS = 3 * LEVELS, MANY = 60000, FEW = 200, LARGEST = 1081356 };
static const uint64_t PAST = (uint64_t)-1;
static uint32_t keys[MANY], leaves[MANY];

/* ---- frames, read once more. Where `to` is NULL only the length is told. */

static size_t put_head(uint8_t *to, size_t payload, uint32_t kind)
{
    if (to != NULL) {
        put32(to, (uint32_t)payload);
        put16(to + 4, kind);
    }
    return 6;
}

static size_t put_wide(uint8_t *to, const uint8_t *name, size_t length, bool narrow)
{
    for (size_t i = 0; to != NULL && i < length; i++) {
        to[narrow ? 2 * i : i] = name[i];
        if (narrow)
            to[2 * i + 1] = 0;
    }
    return narrow ? 2 * length : length;
}

static size_t open_frame(const Made *m, uint32_t key, uint8_t *to)
{
    const uint8_t *d = data_of(m, key);
    size_t name = put_wide(to == NULL ? NULL : to + 14, d + 76, get16(d + 72), (d[2] & 0x20) != 0);
    put_head(to, 8 + name, 16);
    if (to != NULL)
        memcpy(to + 6, d + 4, 8);
    return 14 + name;
}

static size_t data_length(const Made *m, uint32_t value)
{
    return get32(data_of(m, value) + 4) & 0x7fffffff;
}

static void copy_data(const Made *m, uint32_t value, uint8_t *to)
{
    const uint8_t *d = data_of(m, value);
    size_t length = data_length(m, value);
    if (get32(d + 4) >= 0x80000000)
        memcpy(to, d + 8, length);
    else if (length > 16344 && m->minor >= 4)
        for (size_t i = 0; i * 16344 < length; i++) {
            size_t n = length - i * 16344 < 16344 ? length - i * 16344 : 16344;
            memcpy(to + i * 16344, data_of(m, get32(data_of(m, get32(data_of(m, get32(d + 8)) + 4)) + 4 * i)), n);
        }
    else if (length > 0)
        memcpy(to, data_of(m, get32(d + 8)), length);
}

static size_t value_frame(const Made *m, uint32_t value, uint8_t *to)
{
    const uint8_t *d = data_of(m, value);
    size_t name = put_wide(to == NULL ? NULL : to + 14, d + 20, get16(d + 2), (d[16] & 1) != 0), length = data_length(m, value);
    put_head(to, 8 + name + length, 17);
    if (to != NULL) {
        put32(to + 6, get32(d + 12));
        put32(to + 10, (uint32_t)name);
        copy_data(m, value, to + 14 + name);
    }
    return 14 + name + length;
}

/* ---- the stream of a tree: its frames with their keys */

typedef struct {
    uint32_t key;
    size_t at, length;
} Frame;

typedef struct {
    uint8_t *at;
    size_t length, room;
    Frame *frames;
    size_t count, most;
} Stream;

static uint8_t *add(Stream *s, uint32_t key, size_t length)
{
    if (s->length + length > s->room)
        s->at = realloc(s->at, s->room = 2 * (s->length + length));
    if (s->count == s->most)
        s->frames = realloc(s->frames, (s->most = 2 * s->most + 16) * sizeof(Frame));
    if (s->at == NULL || s->frames == NULL)
        abort();
    s->frames[s->count++] = (Frame){key, s->length, length};
    s->length += length;
    return s->at + s->length - length;
}

static void stream_of(const Made *m, uint32_t key, Stream *s)
{
    open_frame(m, key, add(s, key, open_frame(m, key, NULL)));
    const uint8_t *d = data_of(m, key);
    for (size_t i = 0; i < get32(d + 36); i++) {
        uint32_t value = get32(data_of(m, get32(d + 40)) + 4 * i);
        value_frame(m, value, add(s, key, value_frame(m, value, NULL)));
    }
    uint32_t list = get32(d + 28);
    bool any = get32(d + 20) != 0, index = any && data_of(m, list)[0] == 'r';
    for (size_t j = 0; any && j < (index ? get16(data_of(m, list) + 2) : 1); j++) {
        uint32_t leaf = index ? element(m, list, j) : list;
        for (size_t i = 0; i < get16(data_of(m, leaf) + 2); i++)
            stream_of(m, element(m, leaf, i), s);
    }
    put_head(add(s, key, 6), 0, 18);
}

static Stream stream(const Made *m)
{
    Stream s = {0};
    stream_of(m, m->root, &s);
    return s;
}

static void drop(Stream *s)
{
    free(s->at);
    free(s->frames);
}

/* ---- steps and runs of an accepted hive */

static uint8_t *map;
static uint8_t before[LARGEST + 8], out[LARGEST + 8];

static HiveFrame step(const Made *m, uint64_t n, size_t room)
{
    memset(out, 0x5a, room + 8);
    memset(before, 0x5a, room + 8);
    return hive_export_step(m->file, made_length(m), map, m->bins / 64, n, room == 0 ? NULL : out, room);
}

static bool untouched(size_t from, size_t to)
{
    return memcmp(out + from, before + from, to - from) == 0;
}

static void one_step(const Made *m, const Stream *s, size_t n)
{
    Frame f = s->frames[n];
    size_t rooms[] = {0, f.length - 1, f.length, f.length + 1};
    for (int i = 0; i < 4; i++) {
        HiveFrame x = step(m, n, rooms[i]);
        if (rooms[i] < f.length)
            EXPECT(in(x.answer, 20, 0, f.key) && x.state == HIVE_REFUSED && x.length == 0 && untouched(0, rooms[i] + 8));
        else
            EXPECT(is(x.answer, 0, 0) && x.state == HIVE_WRITTEN && x.length == f.length && memcmp(out, s->at + f.at, f.length) == 0 && untouched(f.length, rooms[i] + 8));
    }
}

static void steps(const Made *m, const Stream *s)
{
    for (size_t n = 0; n < s->count; n += s->count <= FEW || n == s->count - 1 ? 1 : n + s->count / 11 < s->count - 1 ? s->count / 11 : s->count - 1 - n)
        one_step(m, s, n);
    for (int i = 0; i < 3; i++) {
        HiveFrame x = step(m, (uint64_t[]){s->count, s->count + 1, (uint64_t)-1}[i], 64);
        EXPECT(is(x.answer, 0, 0) && x.state == HIVE_NO_MORE && x.length == 0 && untouched(0, 64));
    }
}

/* All of it in runs of one room; where a run is 20, one more with the room of the frame. */
static void in_runs(const Made *m, const Stream *s, size_t room)
{
    uint32_t words[WORDS];
    uint8_t *to = malloc(room > LARGEST ? room : LARGEST);
    size_t frames = 0, bytes = 0;
    HiveExport e = hive_export_begin(m->file, made_length(m), map, m->bins / 64, words, WORDS);
    EXPECT(to != NULL && is(e.answer, 0, 0) && e.state == HIVE_WRITTEN && e.depth == 1 && e.due == 0 && e.frames == 0 && e.bytes == 0);
    for (size_t now = room; good;) {
        HiveExport x = hive_export_run(m->file, made_length(m), words, WORDS, e.depth, e.due, to, now);
        if (x.state == HIVE_NO_MORE) {
            EXPECT(is(x.answer, 0, 0) && x.depth == e.depth && x.due == e.due && x.frames == 0 && x.bytes == 0);
            break;
        }
        if (x.state == HIVE_REFUSED) {
            EXPECT(frames < s->count && in(x.answer, 20, 0, s->frames[frames].key) && now < s->frames[frames].length && x.depth == e.depth && x.due == e.due);
            now = s->frames[frames].length;
            continue;
        }
        EXPECT(x.frames > 0 && bytes + x.bytes <= s->length && x.bytes <= now && memcmp(to, s->at + bytes, x.bytes) == 0);
        frames += x.frames;
        bytes += x.bytes;
        EXPECT(frames == s->count ? bytes == s->length : s->frames[frames].at == bytes && x.bytes + s->frames[frames].length > now);
        e = x;
        now = room;
    }
    EXPECT(frames == s->count && bytes == s->length);
    free(to);
}

static void all(const Made *m)
{
    map = malloc(m->bins / 64);
    HiveReport r = hive_check(m->file, made_length(m), map, m->bins / 64);
    Stream s = stream(m);
    EXPECT(is(r.answer, 0, 0) && s.count == 2 * r.keys + r.values);
    steps(m, &s);
    for (size_t i = 0; i < 4; i++)
        in_runs(m, &s, (size_t[]){24, s.frames[0].length, 4096, s.length}[i]);
    HiveFrame x = hive_export_step(m->file, made_length(m), map, m->bins / 64 - 1, 0, out, sizeof out);
    EXPECT(is(x.answer, 8, 0) && x.state == HIVE_REFUSED);
    drop(&s);
    free(map);
}

/* ---- hives */

static const char *name_of(size_t i)
{
    static char name[16];
    snprintf(name, sizeof name, "%c%05zu", i % 2 == 0 ? 'N' : 'n', i);
    return name;
}

static void t_minimal(void)
{
    static const uint8_t want[] = {10, 0, 0, 0, 16, 0, 1, 2, 3, 4, 5, 6, 7, 8, 'R', 0, 0, 0, 0, 0, 18, 0};
    Made m = made(4096, 5);
    m.root = new_key(&m, "R", 0);
    finish(&m);
    memcpy(data_of(&m, m.root) + 4, (uint8_t[]){1, 2, 3, 4, 5, 6, 7, 8}, 8);
    Stream s = stream(&m);
    EXPECT(s.count == 2 && s.length == sizeof want && memcmp(s.at, want, sizeof want) == 0);
    drop(&s);
    all(&m);
    free(m.file);
}

/* Names in both forms, and data of each. */
static void t_forms(void)
{
    static uint8_t data[1048576];
    static const size_t lengths[] = {0, 1, 2, 3, 4, 5, 8, 100, 16343, 16344, 16345, 32688, 32689, 1048576};
    for (size_t i = 0; i < sizeof data; i++)
        data[i] = (uint8_t)(i * 7 + i / 251);
    for (uint32_t minor = 3; minor <= 5; minor += 2) {
        Made m = made(600 * 4096, minor);
        uint32_t values[20], n = 0;
        m.root = new_key(&m, "R\xe9", 0);
        uint32_t below[] = {new_key(&m, "\x41\x01", m.root), new_key(&m, "b", m.root)};
        put16(data_of(&m, below[0]) + 2, 0); /* one UTF-16 character, U+0141, which comes after b */
        for (size_t i = 0; i < sizeof lengths / sizeof lengths[0]; i++)
            values[n++] = new_value(&m, name_of(i), (uint32_t)i * 0x01010101, data, lengths[i]);
        values[n++] = new_value(&m, "", 1, data, 6);
        values[n++] = new_value(&m, "back\\slash", 2, data, 6);
        values[n++] = new_value(&m, "wi\x41\x01", 3, data, 6);
        put16(data_of(&m, values[n - 1]) + 16, 0);
        values[n++] = new_value(&m, "none", 4, data, 8);
        put32(data_of(&m, values[n - 1]) + 4, 0); /* size 0 reads nothing, whatever the offset is */
        put32(data_of(&m, values[n - 1]) + 8, 0xffffffff);
        hang_values(&m, m.root, values, n);
        put32(data_of(&m, below[1]) + 36, n); /* the same list, of another key */
        put32(data_of(&m, below[1]) + 40, get32(data_of(&m, m.root) + 40));
        hang_keys(&m, m.root, new_leaf(&m, "li", (uint32_t[]){below[1], below[0]}, 2), 2);
        finish(&m);
        all(&m);
        free(m.file);
    }
}

static Made wide(size_t count, size_t each, const char *kind)
{
    Made m = made((256 + 112 * count + 4095) / 4096 * 4096 + 4096, 5);
    size_t n = 0;
    m.root = new_key(&m, "R", 0);
    for (size_t i = 0; i < count; i++)
        keys[i] = new_key(&m, name_of(i), m.root);
    for (size_t from = 0; each > 0 && from < count; from += each)
        leaves[n++] = new_leaf(&m, kind, keys + from, count - from < each ? count - from : each);
    hang_keys(&m, m.root, each == 0 ? new_leaf(&m, kind, keys, count) : new_index(&m, leaves, n), (uint32_t)count);
    finish(&m);
    return m;
}

static void t_trees(void)
{
    Made m = wide(MANY, 507, "lh");
    all(&m);
    free(m.file);
    for (int i = 0; i < 3; i++) {
        m = wide(90, (size_t[]){0, 1, 7}[i], (const char *[]){"li", "lf", "lh"}[i]);
        all(&m);
        free(m.file);
    }
    m = made(20 * 4096, 5);
    keys[0] = m.root = new_key(&m, "R", 0);
    for (size_t i = 1; i <= 512; i++) {
        keys[i] = new_key(&m, name_of(i), keys[i - 1]);
        hang_keys(&m, keys[i - 1], new_leaf(&m, "lh", keys + i, 1), 1);
    }
    finish(&m);
    all(&m);
    free(m.file);
    m = sample();
    all(&m);
    free(m.file);
}

/* What the check refuses, with its place and key, whatever frame is asked for; and begin. */
static void t_refused(void)
{
    Made m = sample();
    uint32_t words[WORDS], list = get32(data_of(&m, m.root) + 28), key = element(&m, list, 1);
    size_t n = made_length(&m);
    map = malloc(m.bins / 64);
    static const struct {
        uint32_t where, change; /* from the key's data on, or from the file's start */
        bool in_key;
    } some[] = {{0, 1, false}, {508, 1, false}, {40, 1, false}, {4, 1, false}, {4096, 1, false}, {0, 1, true}, {76, 'x', true}, {16, 8, true}, {72, 2, true}, {44, 8, true}};
    for (size_t i = 0; i < sizeof some / sizeof some[0]; i++) {
        uint8_t *at = some[i].in_key ? data_of(&m, key) + some[i].where : m.file + some[i].where;
        *at ^= (uint8_t)some[i].change;
        HiveReport r = hive_check(m.file, n, map, m.bins / 64);
        EXPECT(r.answer.number != 0);
        for (int k = 0; k < 2; k++) {
            HiveFrame x = step(&m, k == 0 ? 0 : 1000000000, 4096);
            EXPECT(memcmp(&x.answer, &r.answer, sizeof x.answer) == 0 && x.state == HIVE_REFUSED && untouched(0, 4096));
        }
        memset(words, 0x77, sizeof words);
        HiveExport e = hive_export_begin(m.file, n, map, m.bins / 64, words, WORDS);
        EXPECT(memcmp(&e.answer, &r.answer, sizeof e.answer) == 0 && e.state == HIVE_REFUSED && words[0] == 0x77777777);
        *at ^= (uint8_t)some[i].change;
    }
    memset(words, 0x77, sizeof words);
    HiveExport e = hive_export_begin(m.file, n, map, m.bins / 64, words, WORDS - 1);
    EXPECT(is(e.answer, 20, 0) && e.state == HIVE_REFUSED && words[0] == 0x77777777);
    free(map);
    free(m.file);
}

/* ---- any words, depth and due, by the definition */

static uint32_t room_fault(const Made *m, uint32_t offset, size_t least)
{
    size_t n;
    return cell_at(m, offset, &n) == NULL ? 11 : n < least ? 12 : 0;
}

static uint32_t data_fault(const Made *m, uint32_t value, uint32_t *place)
{
    const uint8_t *d = data_of(m, value);
    size_t length = data_length(m, value), count = (length + 16343) / 16344, n;
    uint32_t fault;
    if (get32(d + 4) >= 0x80000000 || length == 0)
        return 0;
    *place = get32(d + 8);
    if (length <= 16344 || m->minor < 4)
        return room_fault(m, *place, length);
    const uint8_t *db = cell_at(m, *place, &n);
    if (db == NULL)
        return 11;
    if (n < 8 || memcmp(db, "db", 2) != 0 || get16(db + 2) != count)
        return 12;
    *place = get32(db + 4);
    if ((fault = room_fault(m, *place, 4 * count)) != 0)
        return fault;
    for (size_t i = 0; i < count; i++) {
        size_t part = length - i * 16344 < 16344 ? length - i * 16344 : 16344;
        *place = get32(data_of(m, get32(db + 4)) + 4 * i);
        if ((fault = room_fault(m, *place, part)) != 0)
            return fault;
    }
    return 0;
}

static uint32_t value_fault(const Made *m, uint32_t value, uint32_t *place)
{
    size_t n;
    const uint8_t *d = cell_at(m, value, &n);
    *place = value;
    if (d == NULL)
        return 11;
    if (n < 20 || memcmp(d, "vk", 2) != 0)
        return 12;
    size_t length = get16(d + 2), wide = (d[16] & 1) == 0 ? 2 : 1;
    uint32_t size = get32(d + 4);
    if (20 + length > n || length % wide != 0 || length / wide > 16383 || (size >= 0x80000000 ? size - 0x80000000 > 4 : size > 1048576))
        return 12;
    return data_fault(m, value, place);
}

/* What is due: its length, its key and the state behind it; or a refusal, or that it is over. `frame` writes it. */
typedef struct {
    HiveAnswer answer;
    bool over;
    size_t length;
    uint32_t key, value;
    enum { OPENING, VALUE, CLOSING } what;
    uint32_t words[WORDS];
    uint64_t depth, due;
} Next;

static Next bad(Next x, uint32_t number, uint32_t place, uint32_t key)
{
    x.answer = (HiveAnswer){number, place, key, 0};
    return x;
}

static Next due(const Made *m, const uint32_t *words, uint64_t depth, uint64_t i)
{
    Next x = {{0, 0, NO_KEY, 0}, depth == 0, 0, 0, 0, OPENING, {0}, depth, i + 1};
    uint32_t fault, place;
    memcpy(x.words, words, sizeof x.words);
    if (x.over)
        return x;
    uint32_t *of = x.words + 3 * (depth - 1), key = of[0];
    if ((fault = key_fault(m, key)) != 0)
        return bad(x, fault, key, NO_KEY);
    const uint8_t *d = data_of(m, x.key = key);
    if (i == 0) {
        x.length = open_frame(m, key, NULL);
        return x;
    }
    if (i <= get32(d + 36)) {
        if ((fault = room_fault(m, get32(d + 40), 4 * (size_t)get32(d + 36))) != 0)
            return bad(x, fault, get32(d + 40), key);
        x.value = get32(data_of(m, get32(d + 40)) + 4 * (i - 1));
        if ((fault = value_fault(m, x.value, &place)) != 0)
            return bad(x, fault, place, key);
        x.what = VALUE;
        x.length = value_frame(m, x.value, NULL);
        return x;
    }
    uint32_t moved[3] = {of[0], of[1], of[2]};
    fault = next_child(m, moved, &place);
    if (fault == NONE) {
        x.what = CLOSING;
        x.length = 6;
        x.depth = depth - 1;
        x.due = PAST;
        return x;
    }
    if (fault != 0)
        return bad(x, fault, place, key);
    if (depth >= LEVELS)
        return bad(x, 15, place, place);
    memcpy(of, moved, 12);
    memcpy(of + 3, (uint32_t[]){place, 0, 0}, 12);
    x.key = place;
    x.length = open_frame(m, place, NULL);
    x.depth = depth + 1;
    x.due = 1;
    return x;
}

static void frame(const Made *m, const Next *x, uint8_t *to)
{
    if (x->what == OPENING)
        open_frame(m, x->key, to);
    else if (x->what == VALUE)
        value_frame(m, x->value, to);
    else
        put_head(to, 0, 18);
}

static HiveExport run(const Made *m, uint32_t *words, uint64_t depth, uint64_t i, uint8_t *to, size_t room)
{
    HiveExport e = {{0, 0, NO_KEY, 0}, HIVE_WRITTEN, depth, i, 0, 0};
    for (;;) {
        Next x = due(m, words, e.depth, e.due);
        if (x.over || x.answer.number != 0 || x.length > room - e.bytes) {
            if (e.frames > 0)
                return e;
            if (x.over)
                return (HiveExport){{0, 0, NO_KEY, 0}, HIVE_NO_MORE, depth, i, 0, 0};
            return (HiveExport){x.answer.number != 0 ? x.answer : (HiveAnswer){20, 0, x.key, 0}, HIVE_REFUSED, depth, i, 0, 0};
        }
        frame(m, &x, to + e.bytes);
        memcpy(words, x.words, sizeof x.words);
        e.bytes += x.length;
        e.frames++;
        e.depth = x.depth;
        e.due = x.due;
    }
}

static void any_run(const Made *m, size_t of)
{
    enum { MOST = 4096 };
    static uint8_t mine[MOST], theirs[MOST];
    uint32_t words[WORDS], read[WORDS];
    uint64_t depth = dice() % 8 == 0 ? dice() % LEVELS : dice() % 4, i = dice() % 8 == 0 ? PAST - dice() % 3 : dice() % 6;
    size_t room = dice() % 4 == 0 ? dice() % 64 : dice() % MOST;
    for (size_t k = 0; k < WORDS; k++)
        words[k] = dice() % 8 == 0 ? dice() % (uint32_t)m->bins : k % 3 == 0 ? keys[dice() % of] : dice() % 3;
    memcpy(read, words, sizeof words);
    memset(mine, 0x5a, room);
    memcpy(theirs, mine, room);
    HiveExport e = run(m, read, depth, i, mine, room), x = hive_export_run(m->file, made_length(m), words, WORDS, depth, i, theirs, room);
    EXPECT(memcmp(&e, &x, sizeof e) == 0 && memcmp(words, read, sizeof words) == 0 && memcmp(mine, theirs, room) == 0);
}

static void t_any(void)
{
    for (int round = 0; round < 400; round++) {
        size_t count = 1 + dice() % 12;
        Made m = made(4 * 4096, 5), lent = m;
        m.root = new_key(&m, "R", 0);
        for (size_t i = 0; i < count; i++) {
            keys[i] = new_key(&m, name_of(i), m.root);
            uint32_t values[] = {new_value(&m, "a", 1, (const uint8_t *)"xy", 2), new_value(&m, "b\\c", 3, (const uint8_t *)"0123456789", 10)};
            if (i % 2 == 0)
                hang_values(&m, keys[i], values, 2);
        }
        hang_keys(&m, m.root, new_leaf(&m, "lh", keys, count), (uint32_t)count);
        finish(&m);
        for (uint32_t k = dice() % 12; k > 0; k--)
            m.file[4096 + 32 + dice() % (m.next - 32)] ^= (uint8_t)(1 << dice() % 8);
        lent = m;
        lent.file = lend(0, m.file, made_length(&m)); /* what lies behind it cannot be read */
        for (int k = 0; k < 40; k++)
            any_run(&lent, count);
        free(m.file);
    }
}

/* Words that are too few, a depth past them, and a base block that is not sound. */
static void t_words(void)
{
    Made m = sample();
    uint32_t words[WORDS + 3] = {0};
    size_t n = made_length(&m);
    words[0] = m.root;
    for (size_t i = 0; i < 4; i++) {
        size_t count = (size_t[]){0, 3, WORDS - 1, WORDS}[i], depth = (size_t[]){1, 1, 0, LEVELS + 1}[i];
        EXPECT(is(hive_export_run(m.file, n, words, count, depth, 0, out, 100).answer, 20, 0));
    }
    EXPECT(is(hive_export_run(m.file, n, words, WORDS, (size_t)-1, 0, out, 100).answer, 20, 0));
    EXPECT(is(hive_export_run(m.file, 4095, words, 0, 1, 0, out, 100).answer, 1, 0));
    HiveExport e = hive_export_run(m.file, n, words, WORDS, 0, 77, out, 100);
    EXPECT(is(e.answer, 0, 0) && e.state == HIVE_NO_MORE && e.depth == 0 && e.due == 77);
    free(m.file);
}

int main(void)
{
    test("export: the minimal hive", t_minimal);
    test("export: names and data of each form", t_forms);
    test("export: 60,000 siblings, each kind of list, level 512", t_trees);
    test("export: what the check refuses", t_refused);
    test("export: any words, depth and due, by the definition", t_any);
    test("export: too few words, and the base block", t_words);
    return counts();
}
