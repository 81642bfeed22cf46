/* The calls of recovery with logs of Windows 8.1 and later: what each clause of an entry does to the log, and repairs. What is lent ends at an unreadable page. */
#include "fixtures.h"
#include "expect.h"
#include "lend.h"

enum { NUMBER = 7, FIRST = 512 };
static const uint32_t PAGES[] = {0, 3, 4, 17, 127};
static const uint32_t EARLY[] = {0, 4, 17}, MIDDLE[] = {127, 0}, LATE[] = {17, 3, 4, 0};
enum { COUNT = 5 };

/* Three entries; page 0 has three versions, and the last of each page is the good one. */
static Log three(const Made *good)
{
    Log log = new_log(good, NUMBER);
    add_entry(&log, NUMBER, good, EARLY, 3, OLDER);
    add_entry(&log, NUMBER + 1, good, MIDDLE, 2, LAST);
    add_entry(&log, NUMBER + 2, good, LATE, 4, LAST);
    return log;
}

/* The good hive as a log closes it. */
static void numbered(uint8_t *file, uint32_t number)
{
    put32(file + 4, number);
    put32(file + 8, number);
    reseal(file);
}

static HiveRecovery started(const uint8_t *file, size_t n, const Log *log)
{
    return hive_recover_start(lend(0, file, n), n, lend(1, log->at, log->length), log->length);
}

static void t_vectors(void)
{
    static const uint8_t real[] = {0x48, 0x76, 0x4c, 0x45, 0, 0x2e, 0, 0, 0, 0, 0, 0, 0x83, 0, 0, 0, 0, 0, 7, 0, 2, 0, 0, 0, 0x1d, 0xd9, 0xb1, 0x6d, 0xb8, 0x92, 0xae, 0x9e};
    EXPECT(marvin(NULL, 0) == 0xb39efca403966e08 && marvin((const uint8_t *)"a", 1) == 0x21a013c726f292f4);
    EXPECT(marvin((const uint8_t *)"HvLE", 4) == 0x914527932cf336dd && marvin(real, 32) == 0xb41dc2e43017e264);
}

static void t_repair(void)
{
    Made m = sample();
    size_t n = made_length(&m);
    Log log = three(&m);
    uint8_t *file = spoilt(&m, PAGES, COUNT), *h = lend(0, file, n);
    const uint8_t *l = lend(1, log.at, log.length);
    HiveRecovery r = hive_recover_start(h, n, l, log.length);
    EXPECT(is(r.answer, 0, 0) && r.state == HIVE_DONE && r.pages == COUNT);
    EXPECT(is(hive_recover_page(h, n, l, log.length, 1).answer, 26, 0) && is(hive_recover_page(h, n, l, log.length, 128).answer, 26, 0));
    EXPECT(is(hive_recover_page(h, n, l, log.length, (size_t)-1).answer, 26, 0) && memcmp(h, file, n) == 0);
    HivePage p = hive_recover_next(l, log.length, 0);
    HiveMark k = hive_recover_mark(l, log.length, 0);
    for (size_t i = 0; i < COUNT; i++) {
        EXPECT(p.state == HIVE_THERE && p.page == PAGES[i] && p.to == 4096 + 512 * PAGES[i] && k.page == p.page && k.to == p.to);
        EXPECT(memcmp(l + p.from, m.file + p.to, 512) == 0);
        EXPECT(is(hive_recover_close(h, n, l, log.length).answer, 27, 0));
        r = hive_recover_page(h, n, l, log.length, p.page);
        EXPECT(r.state == HIVE_DONE && is(r.answer, 0, 0));
        memcpy(file + p.to, log.at + p.from, 512);
        EXPECT(memcmp(h, file, n) == 0);
        p = hive_recover_next(l, log.length, p.page + 1);
        k = hive_recover_mark(l, log.length, k.page + 1);
    }
    EXPECT(p.state == HIVE_NO_MORE && k.state == HIVE_NO_MORE && hive_recover_next(l, log.length, (size_t)-1).state == HIVE_NO_MORE);
    r = hive_recover_close(h, n, l, log.length);
    numbered(m.file, NUMBER + 2);
    EXPECT(r.state == HIVE_DONE && memcmp(h, m.file, n) == 0 && hive_recover_close(h, n, l, log.length).state == HIVE_CLEAN);
    EXPECT(hive_recover_all(h, n, l, log.length).state == HIVE_CLEAN && memcmp(h, m.file, n) == 0);
}

/* All pages by one call; on a hive that holds older versions; and by the map of its pages. */
static void t_at_once(void)
{
    Made m = sample(), good = sample();
    size_t n = made_length(&m);
    Log log = three(&m);
    uint8_t *file = spoilt(&m, PAGES, COUNT), map[20];
    numbered(good.file, NUMBER + 2);
    for (int older = 0; older < 2; older++) {
        for (int i = 0; older == 1 && i < 3; i++)
            memcpy(file + 4096 + 512 * EARLY[i], log.at + FIRST + 40 + 24 + 512 * i, 512);
        uint8_t *h = lend(0, file, n);
        const uint8_t *l = lend(1, log.at, log.length);
        EXPECT(is(hive_recover_close(h, n, l, log.length).answer, 27, 0) && memcmp(h, file, n) == 0);
        EXPECT(hive_recover_all(h, n, l, log.length).state == HIVE_DONE && memcmp(h, file, 4096) == 0 && memcmp(h + 4096, m.file + 4096, n - 4096) == 0);
        EXPECT(hive_recover_close(h, n, l, log.length).state == HIVE_DONE && memcmp(h, good.file, n) == 0);
    }
    for (size_t room = 0; room <= sizeof map; room++) {
        memset(map, 0xa5, sizeof map);
        HiveRecovery r = hive_recover_mark_pages(lend(1, log.at, log.length), log.length, map, room);
        EXPECT(is(r.answer, room < 16 ? 8 : 0, 0) && r.state == (room < 16 ? HIVE_REFUSED : HIVE_DONE) && r.pages == (room < 16 ? 0 : COUNT));
        for (size_t i = 0; i < 8 * sizeof map; i++) {
            bool logged = i == 0 || i == 3 || i == 4 || i == 17 || i == 127;
            EXPECT((map[i / 8] >> i % 8 & 1) == (room < 16 || i >= 128 ? 0xa5 >> i % 8 & 1 : logged));
        }
    }
}

static void t_facts(void)
{
    Made m = sample();
    Log log = three(&m);
    HiveLog g = hive_recover_log(lend(1, log.at, log.length), log.length);
    EXPECT(is(g.answer, 0, 0) && g.entries == 3 && g.first == NUMBER && g.last == NUMBER + 2 && g.end == log.length && g.bins == m.bins);
    for (size_t k = 0; k <= log.length; k++) {
        g = hive_recover_log(lend(1, log.at, k), k);
        uint64_t entries = k < FIRST + 2048 ? 0 : k < FIRST + 2048 + 1536 ? 1 : k < log.length ? 2 : 3;
        EXPECT(is(g.answer, k < 512 ? 21 : entries == 0 ? 22 : 0, 0) && g.entries == entries && g.last == (entries == 0 ? 0 : NUMBER + entries - 1));
        EXPECT(g.end == (entries == 0 ? 0 : entries == 1 ? FIRST + 2048 : entries == 2 ? FIRST + 2048 + 1536 : log.length));
        EXPECT(g.first == (entries == 0 ? 0 : NUMBER) && g.bins == (entries == 0 ? 0 : m.bins));
    }
    log = made_log(&m, PAGES, COUNT);
    g = hive_recover_log(lend(1, log.at, log.length), log.length);
    EXPECT(is(g.answer, 0, 0) && g.entries == 0 && g.first == 7 && g.last == 7 && g.end == 512 && g.bins == m.bins);
    EXPECT(is(hive_recover_log(log.at, log.length - 1).answer, 22, 0));
    log.at[512] = 'd';
    EXPECT(is(hive_recover_log(log.at, log.length).answer, 23, 0));
}

/* One word of an entry is another; `hashed`: its hashes are renewed. */
typedef struct {
    uint32_t at, n;
    bool hashed, counts;
} Change;
static const Change CHANGES[] = {
    {0, 0x454c7648, true, true}, {0, 0x654c7648, true, false}, {4, 0, false, false}, {4, 1024 + 8, true, false}, {4, 1024 + 256, true, false}, {4, 1024, true, false},
    {4, 1536 + 512, true, false}, {4, 0xfffffe00, false, false}, {8, 0xffffffff, true, true}, {12, NUMBER - 1, true, false}, {12, NUMBER + 5, true, false},
    {16, 0, true, false}, {16, 16 * 4096 - 1, true, false}, {16, 16 * 4096 + 512, true, false}, {16, 0x80000000, true, false}, {16, 0xfffff000, true, false},
    {16, 4096, true, false}, {20, 1, true, true}, {20, 0, true, true}, {20, 3, true, true} /* the third, of size 0, is at the start of a page of zeros */, {20, 188, true, false}, {20, 0x20000002, true, false}, {20, 0xffffffff, true, false},
    {24, 0, false, false}, {28, 0, false, false}, {32, 0, false, false}, {36, 0, false, false}, {40, 256, true, false}, {44, 256, true, false}, {44, 0, true, true},
    {40, 16 * 4096, true, false}, {40, 0xfffffe00, true, false}, {48, 512 * 127, true, false}, {40, 512, true, true}, {700, 0, true, true}, {700, 0x12345, false, false},
    {1532, 0x12345, true, true}, {1532, 0x12345, false, false},
};

/* Each change in the first entry, and in the second: then those before it count, and none behind it. */
static void t_clauses(void)
{
    static const uint32_t front[] = {127, 5}, more[] = {9};
    Made m = sample();
    size_t n = made_length(&m);
    const uint8_t *file = spoilt(&m, PAGES, COUNT);
    for (size_t i = 0; i < sizeof CHANGES / sizeof CHANGES[0]; i++) {
        for (uint32_t later = 0; later < 2; later++) {
            Change c = CHANGES[i];
            Log log = new_log(&m, NUMBER);
            if (later == 1)
                add_entry(&log, NUMBER, &m, PAGES, 1, LAST);
            size_t at = log.length;
            add_entry(&log, NUMBER + later, &m, front, 2, LAST);
            uint8_t *e = log.at + at;
            put32(e + c.at, c.at == 12 ? c.n + later : c.n);
            if (c.hashed && get32(e + 4) <= log.length - at)
                rehash(e);
            if (c.at != 4)
                add_entry(&log, NUMBER + later + 1, &m, more, 1, LAST);
            HiveLog g = hive_recover_log(lend(1, log.at, log.length), log.length);
            EXPECT(g.entries == later + (c.counts ? 2 - (c.at == 4) : 0) && g.answer.number == (g.entries == 0 ? 22u : 0));
            EXPECT(started(file, n, &log).answer.number == g.answer.number && g.bins == (g.entries == 0 ? 0 : m.bins));
            free(log.at);
        }
    }
}

/* References that overlap, and some that do not. */
static void t_overlaps(void)
{
    static const struct { uint32_t refs[6]; bool counts; } cases[] = {
        {{0, 512, 512, 512, 1024, 512}, true}, {{1024, 512, 512, 512, 0, 512}, true}, {{0, 512, 1024, 512, 0, 512}, false}, {{0, 1024, 512, 512, 2048, 0}, false},
        {{512, 512, 0, 1024, 2048, 0}, false}, {{0, 1024, 512, 0, 1024, 512}, true}, {{512, 0, 0, 1536, 1024, 0}, true}, {{512, 512, 512, 0, 512, 512}, false},
        {{65536, 0, 0, 512, 512, 512}, true}, {{66048, 0, 0, 512, 512, 512}, false}, {{100, 0, 0, 512, 512, 512}, false}, {{1024, 512, 0, 512, 512, 1024}, false},
    };
    Made m = sample();
    for (size_t i = 0; i < sizeof cases / sizeof cases[0]; i++) {
        Log log = new_log(&m, NUMBER);
        add_entry(&log, NUMBER, &m, PAGES, 3, LAST);
        for (int k = 0; k < 6; k++)
            put32(log.at + FIRST + 40 + 4 * k, cases[i].refs[k]);
        rehash(log.at + FIRST);
        HiveLog g = hive_recover_log(lend(1, log.at, log.length), log.length);
        EXPECT(g.entries == cases[i].counts && is(g.answer, cases[i].counts ? 0 : 22, 0));
        free(log.at);
    }
}

/* The log cut at every byte of two entries. */
static void t_cut(void)
{
    Made m = sample();
    size_t n = made_length(&m);
    const uint8_t *file = spoilt(&m, PAGES, COUNT);
    Log log = new_log(&m, NUMBER);
    add_entry(&log, NUMBER, &m, PAGES, 2, LAST);
    size_t first = log.length;
    add_entry(&log, NUMBER + 1, &m, PAGES + 2, 3, LAST);
    for (size_t k = 0; k <= log.length; k++) {
        Log part = {log.at, k};
        HiveRecovery r = started(file, n, &part);
        EXPECT(is(r.answer, k < 512 ? 21 : k < first ? 22 : 0, 0) && r.pages == (k < first ? 0u : k < log.length ? 2u : 5u));
    }
}

/* One bit of every byte is another: each byte of an entry is under a hash, so those before it count and no more. */
static void t_flipped(void)
{
    Made m = sample();
    Log log = three(&m);
    uint8_t *l = lend(1, log.at, log.length);
    for (size_t i = 0; i < log.length; i++) {
        uint8_t bit = (uint8_t)(1 << i % 8);
        uint64_t entries = i < FIRST + 2048 ? 0 : i < FIRST + 2048 + 1536 ? 1 : 2;
        l[i] ^= bit;
        HiveLog g = hive_recover_log(l, log.length);
        EXPECT(is(g.answer, i < FIRST ? 21 : entries == 0 ? 22 : 0, 0) && g.entries == entries);
        l[i] ^= bit;
    }
    EXPECT(hive_recover_log(l, log.length).entries == 3);
}

/* The hive's length, its number, the stamps; a hive that is clean. */
static void t_hives(void)
{
    Made m = sample();
    size_t n = made_length(&m);
    Log log = three(&m);
    uint8_t *file = spoilt(&m, PAGES, COUNT);
    EXPECT(is(started(file, n - 1, &log).answer, 24, 0) && is(started(file, n, &log).answer, 0, 0));
    for (int by = -1; by <= 1; by++) {
        put32(file + 4, 99);
        put32(file + 8, (uint32_t)(NUMBER + by));
        reseal(file);
        EXPECT(is(started(file, n, &log).answer, by == 0 ? 0 : 25, 0));
        file[12] ^= 1;
        reseal(file);
        EXPECT(is(started(file, n, &log).answer, by == 0 ? 0 : 25, 0));
        file[12] ^= 1;
        reseal(file);
    }
    EXPECT(started(m.file, n, &log).state == HIVE_CLEAN && started(m.file, n - 1, &log).state == HIVE_CLEAN);
    file[508] ^= 1;
    for (int version = -1; version < 3; version++) {
        static const size_t zero[] = {FIRST + 40 + 24, FIRST + 2048 + 40 + 16 + 512, FIRST + 2048 + 1536 + 40 + 32 + 1536}, entry[] = {FIRST, FIRST + 2048, FIRST + 2048 + 1536};
        Log other = three(&m);
        if (version >= 0) {
            other.at[zero[version] + 20] ^= 1;
            rehash(other.at + entry[version]);
        }
        EXPECT(is(started(file, n, &other).answer, version < 0 ? 0 : 25, 0));
        put32(file + 8, NUMBER);
        reseal(file);
        EXPECT(is(started(file, n, &other).answer, 0, 0));
        file[508] ^= 1;
        free(other.at);
    }
    file[4096 + 20] ^= 1;
    EXPECT(is(started(file, n, &log).answer, 25, 0));
}

/* Growth and shrinkage: 24 reads the largest, the closing sector has the last; nothing follows 2^32 - 1. */
static void t_ends(void)
{
    Made m = sample(), half = sample();
    size_t n = made_length(&m);
    uint8_t *file = spoilt(&m, PAGES, COUNT);
    half.bins = 8 * 4096;
    Log log = new_log(&m, NUMBER);
    add_entry(&log, NUMBER, &m, PAGES, COUNT, LAST);
    add_entry(&log, NUMBER + 1, &half, PAGES, 2, LAST);
    uint8_t *h = lend(0, file, n);
    EXPECT(is(hive_recover_start(h, n - 1, log.at, log.length).answer, 24, 0) && hive_recover_log(log.at, log.length).bins == m.bins);
    EXPECT(hive_recover_all(h, n, log.at, log.length).state == HIVE_DONE && hive_recover_close(h, n, log.at, log.length).state == HIVE_DONE);
    EXPECT(get32(h + 4) == NUMBER + 1 && get32(h + 8) == NUMBER + 1 && get32(h + 28) == 0 && get32(h + 40) == 8 * 4096 && get32(h + 508) == checksum(h));
    EXPECT(memcmp(h + 4096, m.file + 4096, n - 4096) == 0 && memcmp(h + 44, log.at + 44, 464) == 0);
    log = new_log(&m, 0xfffffffe);
    for (uint32_t k = 0; k < 3; k++)
        add_entry(&log, 0xfffffffe + k, &m, PAGES + k, 1, LAST);
    HiveLog g = hive_recover_log(log.at, log.length);
    EXPECT(g.entries == 2 && g.first == 0xfffffffe && g.last == 0xffffffff);
}

int main(void)
{
    test("new logs: vectors of the hash", t_vectors);
    test("new logs: a repair", t_repair);
    test("new logs: all pages at once, and marked", t_at_once);
    test("new logs: what a log says by itself", t_facts);
    test("new logs: each clause of an entry", t_clauses);
    test("new logs: references that overlap", t_overlaps);
    test("new logs: cut at every byte", t_cut);
    test("new logs: one bit of every byte", t_flipped);
    test("new logs: the hive's length, number and stamps", t_hives);
    test("new logs: growth, shrinkage, the last number", t_ends);
    return counts();
}
