/* orders <STREAM: the frames of the test program answered by the C face. A refusal's line says the key under examination too, and lines that start
   with a space say what the other calls answer, what deletion left, a walk, the tree as frames, the hive settled, and the order of names.
   tools/compare --keys compares them with the model. */
#include <stdbool.h>
#include <stdio.h>
#include <string.h>
#include <unistd.h>

#include "../../include/kiweamotu.h"

enum { LONGEST = 20480, HIVE = 1, LOG = 2, PATH = 3, MEMBERS = 4, ROOM = 3, ROWS = 3, WORDS = 1539, STEPS = 300, WILD = 12 };
enum { RUNS = 60, NUMBERED = 4, SMALL = 600, LARGE = 65536 };
static uint8_t hive[LONGEST], payload[LONGEST], work[LONGEST / 64], out[LARGE];
static size_t hive_length;

/* Up to n bytes of the input: fewer where it ends. */
static size_t take(uint8_t *to, size_t n)
{
    size_t got = 0;
    for (ssize_t k; got < n && (k = read(0, to + got, n - got)) > 0;)
        got += (size_t)k;
    return got;
}

static void say_refused(const char *before, HiveAnswer a)
{
    if (a.key == HIVE_NO_KEY)
        printf("%srefused %u at %u in none", before, a.number, a.place);
    else
        printf("%srefused %u at %u in %u", before, a.number, a.place, a.key);
}

static void say(const char *before, HiveAnswer a)
{
    if (a.number == 0)
        printf("%skey at %u", before, a.value);
    else
        say_refused(before, a);
    putchar('\n');
}

static void members(const char *kind, HiveMember (*nth)(const uint8_t *, size_t, uint32_t, size_t), uint32_t key)
{
    for (size_t n = 0; n < MEMBERS; n++) {
        HiveMember m = nth(hive, hive_length, key, n);
        if (m.state == HIVE_NO_MORE)
            return;
        say(kind, m.answer);
        if (m.state == HIVE_REFUSED)
            return;
    }
}

static void say_left(const char *before, HiveRemnant x)
{
    if (x.state == HIVE_REFUSED)
        say(before, x.answer);
    else if (x.state == HIVE_NO_MORE)
        printf("%sno more\n", before);
    else
        printf("%s%s at %u name %llu length %llu narrow %llu\n", before, x.kind == HIVE_OLD_KEY ? "key" : "value", x.answer.value, (unsigned long long)x.name,
               (unsigned long long)x.length, (unsigned long long)x.narrow);
}

/* What deletion left: step by step, from the middle of the file, and by a few rows at a time. */
static void left(size_t length)
{
    uint32_t rows[4 * ROWS + 2];
    HiveRows r;
    HiveRemnant x = {.state = HIVE_THERE};
    for (size_t from = 0; x.state == HIVE_THERE; from = x.answer.value + 1)
        say_left(" left: ", x = hive_next_remnant(hive, length, from));
    say_left(" half: ", hive_next_remnant(hive, length, length / 2));
    for (size_t from = 0; (r = hive_remnants(hive, length, from, rows, sizeof rows / sizeof rows[0])).state == HIVE_THERE; from = rows[4 * r.rows - 4] + 1)
        for (size_t i = 0; i < r.rows; i++)
            printf(" row: %u %u %u %u\n", rows[4 * i], rows[4 * i + 1], rows[4 * i + 2], rows[4 * i + 3]);
    if (r.state == HIVE_REFUSED)
        say(" row: ", r.answer);
}

/* The bytes as one number: 37 times the number before, and the byte, wrapping at 32 bits. */
static uint32_t sum(const uint8_t *bytes, size_t length)
{
    uint32_t sum = 0;
    for (size_t i = 0; i < length; i++)
        sum = sum * 37 + bytes[i];
    return sum;
}

/* Words as one number in the same way. */
static uint32_t sum_words(const uint32_t *words, size_t count)
{
    uint32_t sum = 0;
    for (size_t i = 0; i < count; i++)
        sum = sum * 37 + words[i];
    return sum;
}

static void say_event(const char *before, HiveWalk w)
{
    if (w.state == HIVE_REFUSED)
        say_refused(before, w.answer);
    else if (w.state == HIVE_OVER)
        printf("%sover", before);
    else if (w.state == HIVE_CLOSES)
        printf("%scloses %u", before, w.answer.value);
    else
        printf("%sopens %u name %llu length %llu narrow %llu", before, w.answer.value, (unsigned long long)w.name, (unsigned long long)w.length,
               (unsigned long long)w.narrow);
    printf(" depth %llu\n", (unsigned long long)w.depth);
}

static void walk(size_t length)
{
    uint32_t words[WORDS];
    for (int i = 0; i < WORDS; i++)
        words[i] = 7;
    HiveWalk w = hive_walk_begin(hive, length, words, WORDS);
    say_event(" walk: ", w);
    for (int n = 1; n < STEPS && (w.state == HIVE_OPENS || w.state == HIVE_CLOSES); n++)
        say_event(" walk: ", w = hive_walk_step(hive, length, words, WORDS, w.depth));
    printf(" words: %u\n", sum_words(words, WORDS));
}

static uint32_t dice;

static uint32_t throw(uint32_t sides)
{
    dice = dice * 1664525 + 1013904223;
    return (dice >> 8) % sides;
}

static uint32_t root_of(size_t length)
{
    return length < 40 ? 0 : hive[36] | hive[37] << 8 | hive[38] << 16 | (uint32_t)hive[39] << 24;
}

/* The root, or mostly where a key may lie, at or behind some place. */
static uint32_t some_offset(size_t length)
{
    uint32_t kind = throw(8);
    if (kind == 0 || length < 4096 + 8)
        return throw(1 << 24);
    uint32_t at = throw((uint32_t)length - 4096) / 8 * 8;
    while (at + 4096 + 8 < length && memcmp(hive + 4096 + at + 4, "nk", 2) != 0)
        at += 8;
    return kind < 3 || at + 4096 + 8 >= length ? root_of(length) : at;
}

/* For a frame or two, and now and then for more. */
static uint32_t some_room(void)
{
    return throw(3) == 0 ? throw(SMALL) : throw(64);
}

/* Steps from words and depths that no walk has left. */
static void wild(size_t length)
{
    dice = sum(hive, length);
    for (int n = 0; n < WILD; n++) {
        uint32_t words[12] = {0};
        size_t count = throw(13), depth = throw(5);
        for (size_t i = 0; i < count; i++)
            words[i] = i % 3 == 0 ? some_offset(length) : throw(8) != 0 ? throw(2) : 0xffffffff - throw(2);
        if (throw(16) == 0)
            depth = (size_t)-1 - depth;
        say_event(" wild: ", hive_walk_step(hive, length, words, count, depth));
        printf(" words: %u\n", sum_words(words, count));
    }
}

static void say_out(size_t written, size_t room)
{
    printf(" out: %u\n", sum(out, written + 8 < room ? written + 8 : room));
}

static void say_export(const char *before, HiveExport e)
{
    if (e.state == HIVE_REFUSED)
        say_refused(before, e.answer);
    else if (e.state == HIVE_NO_MORE)
        printf("%sdone", before);
    else
        printf("%s%llu frames %llu bytes", before, (unsigned long long)e.frames, (unsigned long long)e.bytes);
    printf(" depth %llu due %llu\n", (unsigned long long)e.depth, (unsigned long long)e.due);
}

/* A run from where another stands; 8 bytes behind the frames are told too. */
static HiveExport run(const char *before, size_t length, uint32_t *words, size_t count, HiveExport at, size_t room)
{
    memset(out, 0x5a, sizeof out);
    HiveExport e = hive_export_run(hive, length, words, count, at.depth, at.due, out, room);
    say_export(before, e);
    say_out(e.bytes, room);
    return e;
}

static void numbered(size_t length, size_t n, size_t room)
{
    memset(out, 0x5a, sizeof out);
    HiveFrame f = hive_export_step(hive, length, work, sizeof work, n, out, room);
    if (f.state == HIVE_REFUSED)
        say(" step: ", f.answer);
    else if (f.state == HIVE_NO_MORE)
        puts(" step: done");
    else
        printf(" step: %llu bytes\n", (unsigned long long)f.length);
    say_out(f.length, room);
}

/* The tree as frames: begin, runs with some room, each again with more where that is too small, and then some frames by their numbers. */
static void exported(size_t length)
{
    uint32_t words[WORDS], frames = 0;
    for (int i = 0; i < WORDS; i++)
        words[i] = 7;
    dice = sum(hive, length);
    HiveExport e = hive_export_begin(hive, length, work, sizeof work, words, WORDS);
    say_export(" export: ", e);
    for (int n = 0; n < RUNS && e.state == HIVE_WRITTEN; n++) {
        size_t room = some_room();
        HiveExport x = run(" run: ", length, words, WORDS, e, room);
        while (x.state == HIVE_REFUSED && (room = 4 * room + 24) <= LARGE)
            x = run(" again: ", length, words, WORDS, e, room);
        e = x;
        frames += (uint32_t)e.frames;
    }
    printf(" words: %u\n", sum_words(words, WORDS));
    for (int i = 0; i < NUMBERED; i++) {
        size_t n = throw(frames + 2), room = some_room();
        numbered(length, throw(8) == 0 ? (size_t)-1 - n : n, room);
    }
}

/* Runs from words, depths and due numbers that no call has left, each with a second one behind it. */
static void wild_runs(size_t length)
{
    dice = sum(hive, length);
    for (int n = 0; n < WILD; n++) {
        uint32_t words[WORDS + 7] = {0};
        size_t count = throw(8) == 0 ? WORDS - 3 + throw(10) : WORDS;
        HiveExport e = {.depth = throw(4) == 0 ? 511 + throw(4) : throw(5)};
        e.due = throw(4);
        for (size_t k = e.depth < 3 ? 0 : e.depth - 3; k < e.depth && k < count / 3; k++) {
            words[3 * k] = some_offset(length);
            for (size_t i = 1; i < 3; i++)
                words[3 * k + i] = throw(8) != 0 ? throw(2) : 0xffffffff - throw(2);
        }
        e.depth = throw(16) == 0 ? (uint64_t)-1 - e.depth : e.depth;
        e.due = throw(16) == 0 ? (uint64_t)-1 - e.due : e.due;
        e = run(" wild run: ", length, words, count, e, some_room());
        run(" and then: ", length, words, count, e, some_room());
        printf(" words: %u\n", sum_words(words, count));
    }
}

/* A copy of the hive made one that is read as it is. */
static void settled(size_t length)
{
    static uint8_t copy[LONGEST];
    memcpy(copy, hive, length);
    HiveRecovery s = hive_settle(copy, length);
    if (s.state == HIVE_REFUSED)
        say(" settled: ", s.answer);
    else
        puts(s.state == HIVE_DONE ? " settled: done" : " settled: clean");
    printf(" settled hive: %u\n", sum(copy, length));
}

static void say_piece(const char *before, HivePiece p)
{
    if (p.answer.number != 0)
        say(before, p.answer);
    else if (p.at == 0)
        printf("%snone\n", before);
    else
        printf("%sat %llu length %llu\n", before, (unsigned long long)p.at, (unsigned long long)p.length);
}

/* The class name and the descriptor of the root and of some other keys. */
static void pieces(size_t length)
{
    uint32_t at = root_of(length);
    dice = sum(hive, length);
    for (int n = 0; n <= WILD; n++, at = some_offset(length)) {
        say_piece(" class: ", hive_key_class(hive, length, at));
        say_piece(" security: ", hive_key_security(hive, length, at));
    }
}

/* The name of a key or a value at or behind some place, mostly; sometimes with one unit more, or none, or one that is too long. */
static size_t some_name(size_t length, uint16_t *units)
{
    uint32_t at = some_offset(length);
    bool value = throw(2) != 0;
    size_t start = 4096 + (size_t)at + 4 + (value ? 20 : 76), n = start + 8 > length ? 0 : throw(4) == 0 ? 1 + throw(6) : hive[start - (value ? 18 : 4)] % 8;
    for (size_t i = 0; i < n; i++)
        units[i + 1] = hive[start + i];
    uint32_t kind = throw(12), longest = kind == 2 ? 254 + throw(4) : 0;
    for (size_t i = 0; i < longest; i++)
        units[i] = 'x';
    units[0] = kind == 1 ? '\\' : units[0];
    if (kind != 1 && kind != 2)
        memmove(units, units + 1, n * sizeof units[0]);
    return kind == 0 ? 0 : kind == 1 ? n + 1 : kind == 2 ? longest : n;
}

/* Steps and values from keys that lie somewhere. */
static void steps(size_t length)
{
    dice = sum(hive, length);
    for (int n = 0; n < WILD; n++) {
        uint16_t name[300] = {0};
        uint32_t at = some_offset(length);
        size_t units = some_name(length, name);
        say(" child: ", hive_child_of(hive, length, at, name, units));
        say(" quick child: ", hive_quick_child_of(hive, length, at, name, units));
        say(" value of: ", hive_value_of(hive, length, at, name, units));
    }
}

/* The parts of a path, one after the other from the root, up to a refusal; then the value named v. */
static void step_by_step(const uint16_t *units, size_t n, const uint16_t *name)
{
    HiveAnswer a = {.value = root_of(hive_length)};
    for (size_t start = 0; start < n && a.number == 0;) {
        size_t end = start;
        while (end < n && units[end] != '\\')
            end++;
        say(" quick step: ", hive_quick_child_of(hive, hive_length, a.value, units + start, end - start));
        say(" step to: ", a = hive_child_of(hive, hive_length, a.value, units + start, end - start));
        start = end + 1;
    }
    if (a.number == 0)
        say(" value of: ", hive_value_of(hive, hive_length, a.value, name, 1));
}

static void on_hive(size_t length)
{
    memcpy(hive, payload, length);
    hive_length = length;
    HiveReport r = hive_check(hive, length, work, sizeof work);
    if (r.answer.number != 0)
        say("", r.answer);
    else
        printf("accepted bins %llu keys %llu values %llu used %llu free %llu\n", (unsigned long long)r.bins, (unsigned long long)r.keys,
               (unsigned long long)r.values, (unsigned long long)r.used, (unsigned long long)r.free);
    left(length);
    walk(length);
    wild(length);
    exported(length);
    wild_runs(length);
    uint32_t root = root_of(length);
    members(" subkey: ", hive_nth_subkey, root);
    members(" value: ", hive_nth_value, root);
    say(" root: ", hive_key_at(hive, length, root).answer);
    settled(length);
    pieces(length);
    steps(length);
}

/* What the log says by itself: its facts, its pages all at once, and one by one with their places. */
static void of_log(size_t length)
{
    static uint8_t map[LONGEST];
    HiveLog g = hive_recover_log(payload, length);
    if (g.answer.number != 0)
        say(" log: ", g.answer);
    else
        printf(" log: %llu entries %llu to %llu, end %llu, bins %llu\n", (unsigned long long)g.entries, (unsigned long long)g.first, (unsigned long long)g.last,
               (unsigned long long)g.end, (unsigned long long)g.bins);
    memset(map, 0x5a, sizeof map);
    HiveRecovery m = hive_recover_mark_pages(payload, length, map, g.bins < LONGEST ? g.bins / 4096 : sizeof map);
    if (m.state == HIVE_REFUSED)
        say(" marks: ", m.answer);
    else
        printf(" marks: %llu\n", (unsigned long long)m.pages);
    printf(" map: %u\n", sum(map, sizeof map));
    for (HivePage p = hive_recover_next(payload, length, 0); p.state == HIVE_THERE; p = hive_recover_next(payload, length, p.page + 1))
        printf(" page %llu from %llu\n", (unsigned long long)p.page, (unsigned long long)p.from);
}

/* The same repair by page calls, in another copy of the hive. */
static uint32_t by_pages(size_t length)
{
    static uint8_t copy[LONGEST];
    memcpy(copy, hive, hive_length);
    for (HiveMark p = hive_recover_mark(payload, length, 0); p.state == HIVE_THERE; p = hive_recover_mark(payload, length, p.page + 1))
        hive_recover_page(copy, hive_length, payload, length, p.page);
    hive_recover_close(copy, hive_length, payload, length);
    return sum(copy, hive_length);
}

static void on_log(size_t length)
{
    HiveRecovery s = hive_recover_start(hive, hive_length, payload, length);
    if (s.state == HIVE_REFUSED)
        say("", s.answer);
    else if (s.state == HIVE_CLEAN)
        puts("clean");
    else {
        uint32_t paged = by_pages(length);
        hive_recover_all(hive, hive_length, payload, length);
        hive_recover_close(hive, hive_length, payload, length);
        printf("repaired %llu\n", (unsigned long long)s.pages);
        printf(" hive: %u, by pages %u\n", sum(hive, hive_length), paged);
    }
    of_log(length);
}

/* A path taken for names: its halves, it and the one before it, and it and itself with bit 5 of each unit turned. */
static void ordered(const uint16_t *units, size_t n)
{
    static uint16_t before[LONGEST / 2], turned[LONGEST / 2];
    static size_t before_count;
    for (size_t i = 0; i < n; i++)
        turned[i] = units[i] ^ 0x20;
    printf(" order: %u %u %u\n", hive_name_order(units, n / 2, units + n / 2, n - n / 2), hive_name_order(units, n, before, before_count),
           hive_name_order(units, n, turned, n));
    memcpy(before, units, 2 * n);
    before_count = n;
}

/* The value named v of that key, in full, in place, and copied to a few bytes; all of it by both lookups. */
static void on_path(size_t length)
{
    static uint16_t units[LONGEST / 2];
    static const uint16_t name[] = {'v'};
    size_t n = length / 2;
    memcpy(units, payload, length);
    say("", hive_find_key(hive, hive_length, units, n));
    say(" info: ", hive_value_info(hive, hive_length, units, n, name, 1).answer);
    say(" view: ", hive_value_view(hive, hive_length, units, n, name, 1).answer);
    say(" copy: ", hive_value_copy(hive, hive_length, units, n, name, 1, out, ROOM).answer);
    say(" quick: ", hive_quick_key(hive, hive_length, units, n));
    say(" quick info: ", hive_quick_info(hive, hive_length, units, n, name, 1).answer);
    say(" quick view: ", hive_quick_view(hive, hive_length, units, n, name, 1).answer);
    say(" quick copy: ", hive_quick_copy(hive, hive_length, units, n, name, 1, out, ROOM).answer);
    step_by_step(units, n, name);
    ordered(units, n);
}

int main(void)
{
    uint8_t head[6];
    size_t got;
    puts("hive");
    for (int lent = 0; (got = take(head, 6)) > 0;) {
        uint32_t length = head[0] | head[1] << 8 | head[2] << 16 | (uint32_t)head[3] << 24, kind = head[4] | (uint32_t)head[5] << 8;
        if (got < 6 || length > LONGEST || kind < HIVE || kind > PATH || (kind == PATH && length % 2 != 0) || take(payload, length) < length) {
            puts("bad frame");
            return 0;
        }
        lent = lent || kind == HIVE;
        if (kind == HIVE)
            on_hive(length);
        else if (!lent)
            puts("no hive");
        else if (kind == LOG)
            on_log(length);
        else
            on_path(length);
    }
    return 0;
}
