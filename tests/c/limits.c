/* The longest hive and the longest log, and numbers on both sides of 2^31 and 2^32. The memory is asked for and hardly touched, and ends at an unreadable page. */
#include <stdlib.h>
#include <string.h>
#include <sys/mman.h>

#include "fixtures.h"
#include "expect.h"

static const size_t BINS = 2147479552, FILE_LENGTH = 2147483648, MAP = 33554368;

/* The log's parts: bitmap, first page, pages, and the length with all of them. */
static const size_t MARKS = 524287, FIRST = 525312, PAGES = 4194296, FULL = 2148004864;

static uint8_t *space(size_t length)
{
    size_t whole = (length + 4095) / 4096 * 4096;
    uint8_t *p = mmap(NULL, whole + 4096, PROT_READ | PROT_WRITE, MAP_PRIVATE | MAP_ANONYMOUS | MAP_NORESERVE, -1, 0);
    if (p == MAP_FAILED || mprotect(p + whole, 4096, PROT_NONE) != 0)
        abort();
    return p + whole - length;
}

static void drop(uint8_t *p, size_t length)
{
    size_t whole = (length + 4095) / 4096 * 4096;
    if (munmap(p + length - whole, whole + 4096) != 0)
        abort();
}

static Made longest(void)
{
    return made_in(space(FILE_LENGTH), BINS, 5);
}

/* One bin, the root at 32, its security item at 120 and a free cell from 144 on. */
static Made one_bin(void)
{
    Made m = longest();
    m.root = new_key(&m, "R", 0);
    finish(&m);
    return m;
}

static void drop_made(Made *m)
{
    drop(m->file, FILE_LENGTH);
}

static uint8_t *map;

static HiveReport checked(const Made *m)
{
    return hive_check(m->file, FILE_LENGTH, map, MAP);
}

static HiveAnswer check(const Made *m)
{
    return checked(m).answer;
}

/* By both lookups, which cannot differ at the root. */
static HiveAnswer root_of(const Made *m)
{
    HiveAnswer a = hive_find_key(m->file, FILE_LENGTH, NULL, 0), b = hive_quick_key(m->file, FILE_LENGTH, NULL, 0);
    EXPECT(memcmp(&a, &b, sizeof a) == 0);
    return a;
}

static const uint16_t NAME[] = {'v'};

static HiveAnswer asked(const Made *m)
{
    HiveValue v = hive_value_info(m->file, FILE_LENGTH, NULL, 0, NAME, 1), w = hive_quick_info(m->file, FILE_LENGTH, NULL, 0, NAME, 1);
    EXPECT(memcmp(&v, &w, sizeof v) == 0);
    return v.answer;
}

static void t_one_bin(void)
{
    static const uint32_t sizes[] = {2147479416, 0u - 2147479416, 0x7ffffff8, 0x80000008, 0x80000000};
    Made m = one_bin();
    HiveReport r = checked(&m);
    EXPECT(is(r.answer, 0, 0) && r.bins == 1 && r.keys == 1 && r.values == 0 && r.used == 112 && r.free == 2147479408);
    EXPECT(map[0] == 0x10 && map[1] == 0x80 && map[2] == 0 && map[MAP - 1] == 0);
    EXPECT(is(hive_check(m.file, FILE_LENGTH, map, MAP - 1).answer, 8, 0));
    EXPECT(is(hive_check(m.file, FILE_LENGTH - 1, map, MAP).answer, 6, 0));
    put32(m.file + 4096 + 144, 0u - 2147479408);
    r = checked(&m);
    EXPECT(is(r.answer, 0, 0) && r.used == 2147479520 && r.free == 0 && map[1] == 0x80 && map[2] == 4);
    for (size_t i = 0; i < sizeof sizes / sizeof sizes[0]; i++) {
        put32(m.file + 4096 + 144, sizes[i]);
        EXPECT(is(check(&m), 10, 144));
    }
    drop_made(&m);
}

/* Where the field is a page less, it is the bin that is too long. */
static void t_bins_field(void)
{
    static const struct { uint32_t size, number; } fields[] = {
        {0x7fffe000, 9}, {0x7ffff800, 5}, {0x7ffff008, 5}, {0x80000000, 5}, {0x80001000, 5}, {0xfffff000, 5}, {0xffffffff, 5}, {0, 5},
    };
    Made m = one_bin();
    for (size_t i = 0; i < sizeof fields / sizeof fields[0]; i++) {
        put32(m.file + 40, fields[i].size);
        reseal(m.file);
        EXPECT(is(check(&m), fields[i].number, 0));
        EXPECT(fields[i].number == 5 ? is(root_of(&m), 5, 0) : root_of(&m).value == 32);
    }
    drop_made(&m);
}

/* A root in the last 88 bytes, its security item at the start, and root offsets that lead nowhere. */
static void t_last_cell(void)
{
    static const uint32_t nowhere[] = {2147479544, 2147479552, 0x7ffffff8, 0x80000000, 0xfffffff8};
    Made m = longest();
    m.item = new_item(&m, 0);
    m.next = 2147479464;
    m.root = new_key(&m, "R", 0);
    finish(&m);
    put32(m.file + 4096 + 56, 2147479464 - 56);
    HiveReport r = checked(&m);
    EXPECT(is(r.answer, 0, 0) && r.keys == 1 && r.used == 112 && r.free == 2147479408);
    EXPECT(map[0] == 0x10 && map[1] == 0 && map[MAP - 2] == 0x20 && map[MAP - 1] == 0);
    EXPECT(root_of(&m).number == 0 && root_of(&m).value == 2147479464);
    HiveKey k = hive_key_at(m.file, FILE_LENGTH, 2147479464);
    EXPECT(k.answer.number == 0 && k.length == 1 && k.name == 4096 + 2147479464 + 80 && m.file[k.name] == 'R');
    for (size_t i = 0; i < sizeof nowhere / sizeof nowhere[0]; i++) {
        put32(m.file + 36, nowhere[i]);
        reseal(m.file);
        EXPECT(is(check(&m), 11, nowhere[i]) && is(root_of(&m), 11, nowhere[i]));
        EXPECT(is(hive_key_at(m.file, FILE_LENGTH, nowhere[i]).answer, 11, nowhere[i]));
        EXPECT(is(hive_value_at(m.file, FILE_LENGTH, nowhere[i]).answer, 11, nowhere[i]));
    }
    drop_made(&m);
}

static void t_second_bin(void)
{
    static const uint32_t second = 2147475456;
    Made m = one_bin();
    uint8_t *bin = m.file + 4096 + second;
    put32(m.file + 4096 + 8, second);
    put32(m.file + 4096 + 144, second - 144);
    memcpy(bin, "hbin", 4);
    put32(bin + 4, second);
    put32(bin + 8, 4096);
    put32(bin + 32, 4096 - 32);
    HiveReport r = checked(&m);
    EXPECT(is(r.answer, 0, 0) && r.bins == 2 && r.used == 112 && r.free == second - 144 + 4064);
    put32(bin + 8, 8192);
    EXPECT(is(check(&m), 9, second));
    put32(bin + 8, 4096);
    put32(bin + 4, 0);
    EXPECT(is(check(&m), 9, second));
    drop_made(&m);
}

/* A list that fills the bin from 144 on: its elements are 0 and name no cell. */
static void t_value_list(void)
{
    static const uint32_t too_many[] = {536869852, 0x20000000, 0x40000000, 0x40000001, 0x80000000, 0xffffffff};
    Made m = one_bin();
    put32(m.file + 4096 + 144, 0u - 2147479408);
    put32(data_of(&m, m.root) + 40, 144);
    put32(data_of(&m, m.root) + 36, 536869851);
    EXPECT(in(check(&m), 11, 0, m.root) && in(asked(&m), 11, 0, m.root));
    EXPECT(in(hive_nth_value(m.file, FILE_LENGTH, m.root, 536869850).answer, 11, 0, m.root));
    EXPECT(hive_nth_value(m.file, FILE_LENGTH, m.root, 536869851).state == HIVE_NO_MORE);
    for (size_t i = 0; i < sizeof too_many / sizeof too_many[0]; i++) {
        put32(data_of(&m, m.root) + 36, too_many[i]);
        EXPECT(in(check(&m), 12, 144, m.root) && in(asked(&m), 12, 144, m.root));
    }
    drop_made(&m);
}

/* Twelve bytes of data at the end of the file. */
static void t_last_data(void)
{
    uint8_t back[12];
    Made m = longest();
    m.root = new_key(&m, "R", 0);
    uint32_t value = new_value(&m, "v", 3, (const uint8_t *)"?", 1), free_cell;
    hang_values(&m, m.root, &value, 1);
    m.item = new_item(&m, 0);
    free_cell = m.next;
    m.next = 2147479536;
    uint32_t data = new_cell(&m, 12);
    memcpy(data_of(&m, data), "the last end", 12);
    put32(data_of(&m, value) + 4, 12);
    put32(data_of(&m, value) + 8, data);
    finish(&m);
    put32(m.file + 4096 + free_cell, data - free_cell);
    HiveReport r = checked(&m);
    EXPECT(is(r.answer, 0, 0) && r.values == 1 && 32 + r.used + r.free == BINS);
    HiveValue v = hive_value_view(m.file, FILE_LENGTH, NULL, 0, NAME, 1);
    EXPECT(is(v.answer, 0, 0) && v.kind == 3 && v.form == HIVE_ONE_CELL && v.at == 2147483636 && v.length == 12);
    HiveCopy c = hive_value_copy(m.file, FILE_LENGTH, NULL, 0, NAME, 1, back, 12);
    EXPECT(is(c.answer, 0, 0) && c.length == 12 && memcmp(back, "the last end", 12) == 0);
    put32(data_of(&m, value) + 4, 13);
    EXPECT(in(check(&m), 12, data, m.root) && in(asked(&m), 12, data, m.root));
    drop_made(&m);
}

/* A key that was left in the last 88 bytes of a free cell that fills the bin, and one in its start. The steps start behind the first, for they look at all between. */
static void t_last_left(void)
{
    static const uint32_t last = 2147479464;
    uint32_t rows[8];
    Made m = one_bin();
    for (int i = 0; i < 2; i++) {
        uint8_t *d = data_of(&m, i == 0 ? 144 : last);
        memcpy(d, "nk", 2);
        put16(d + 2, 0x20);
        put16(d + 72, 8);
        memcpy(d + 76, "the last", 8);
    }
    HiveRemnant r = hive_next_remnant(m.file, FILE_LENGTH, 0);
    EXPECT(r.state == HIVE_THERE && r.answer.value == 144 && r.name == 4096 + 224);
    for (size_t back = 0; back < 3; back++) {
        r = hive_next_remnant(m.file, FILE_LENGTH, last - 5000 * back);
        EXPECT(r.answer.number == 0 && r.state == HIVE_THERE && r.answer.value == last && r.kind == HIVE_OLD_KEY && r.length == 8 && r.narrow == 1);
        EXPECT(r.name == 2147483640 && memcmp(m.file + r.name, "the last", 8) == 0);
        HiveRows s = hive_remnants(m.file, FILE_LENGTH, last - 5000 * back, rows, 8);
        EXPECT(is(s.answer, 0, 0) && s.state == HIVE_THERE && s.rows == 1 && memcmp(rows, (uint32_t[]){last, 1, 8, 1}, 16) == 0);
    }
    for (size_t i = 0; i < 5; i++) {
        size_t from = (size_t[]){last + 1, 2147479552, 2147483648, 0xffffffff, (size_t)-1}[i];
        EXPECT(hive_next_remnant(m.file, FILE_LENGTH, from).state == HIVE_NO_MORE && hive_remnants(m.file, FILE_LENGTH, from, rows, 8).state == HIVE_NO_MORE);
    }
    EXPECT(is(hive_next_remnant(m.file, FILE_LENGTH - 1, 0).answer, 6, 0));
    put16(data_of(&m, last) + 72, 9); /* it ends one byte past the bins data */
    EXPECT(hive_next_remnant(m.file, FILE_LENGTH, last).state == HIVE_NO_MORE);
    put32(m.file + 4096 + 144, 0u - 2147479408);
    EXPECT(hive_next_remnant(m.file, FILE_LENGTH, 0).state == HIVE_NO_MORE);
    drop_made(&m);
}

/* The first 512 bytes of a hive as a log's, in a space of that length. */
static uint8_t *log_of(const Made *m, size_t length)
{
    uint8_t *l = space(length);
    memcpy(l, m->file, 512);
    put32(l + 28, 1);
    reseal(l);
    memcpy(l + 512, "DIRT", 4);
    return l;
}

static void unsettle(Made *m)
{
    put32(m->file + 4, 8);
    reseal(m->file);
}

/* Page 1 and the last one, both inside the free cell. Other pages are not marked, and there are none past the last. */
static void t_repair(void)
{
    static const size_t unmarked[] = {0, 4194294, 4194296, 1 << 23, (size_t)1 << 55, (size_t)1 << 63, (size_t)-1};
    Made m = one_bin();
    size_t n = FIRST + 1024;
    uint8_t *l = log_of(&m, n);
    l[516] = 2;
    l[516 + MARKS - 1] = 0x80;
    memset(l + FIRST, 0x11, 1024);
    unsettle(&m);
    HiveRecovery s = hive_recover_start(m.file, FILE_LENGTH, l, n);
    EXPECT(is(s.answer, 0, 0) && s.state == HIVE_DONE && s.pages == 2);
    EXPECT(is(hive_recover_start(m.file, FILE_LENGTH - 1, l, n).answer, 24, 0));
    EXPECT(is(hive_recover_start(m.file, FILE_LENGTH, l, n - 1).answer, 22, 0));
    for (size_t i = 0; i < sizeof unmarked / sizeof unmarked[0]; i++)
        EXPECT(is(hive_recover_page(m.file, FILE_LENGTH, l, n, unmarked[i]).answer, 26, 0));
    EXPECT(hive_recover_page(m.file, FILE_LENGTH, l, n, 1).state == HIVE_DONE);
    EXPECT(is(hive_recover_close(m.file, FILE_LENGTH, l, n).answer, 27, 0));
    HivePage p = hive_recover_next(l, n, 2);
    EXPECT(p.state == HIVE_THERE && p.page == PAGES - 1 && p.from == FIRST + 512 && p.to == 2147483136);
    EXPECT(hive_recover_next(l, n, PAGES).state == HIVE_NO_MORE && hive_recover_mark(l, n, 2).to == 2147483136);
    EXPECT(hive_recover_page(m.file, FILE_LENGTH, l, n, PAGES - 1).state == HIVE_DONE);
    EXPECT(memcmp(m.file + 4608, l + FIRST, 512) == 0 && memcmp(m.file + 2147483136, l + FIRST + 512, 512) == 0);
    EXPECT(m.file[4607] == 0 && m.file[5120] == 0 && m.file[2147483135] == 0);
    EXPECT(hive_recover_close(m.file, FILE_LENGTH, l, n).state == HIVE_DONE);
    EXPECT(hive_recover_start(m.file, FILE_LENGTH, l, n).state == HIVE_CLEAN && is(check(&m), 0, 0));
    drop(l, n);
    drop_made(&m);
}

/* A log of all pages, the last of which is put in place. */
static void t_full_log(void)
{
    Made m = one_bin();
    uint8_t *l = log_of(&m, FULL);
    memset(l + 516, 0xff, MARKS);
    memset(l + 2148004352, 0x22, 512);
    unsettle(&m);
    HiveRecovery s = hive_recover_start(m.file, FILE_LENGTH, l, FULL);
    EXPECT(is(s.answer, 0, 0) && s.state == HIVE_DONE && s.pages == PAGES);
    HivePage p = hive_recover_next(l, FULL, PAGES - 1);
    EXPECT(p.state == HIVE_THERE && p.page == PAGES - 1 && p.from == 2148004352 && p.to == 2147483136);
    EXPECT(hive_recover_page(m.file, FILE_LENGTH, l, FULL, PAGES - 1).state == HIVE_DONE);
    EXPECT(memcmp(m.file + 2147483136, l + 2148004352, 512) == 0 && m.file[2147483135] == 0);
    EXPECT(is(hive_recover_start(m.file, FILE_LENGTH, l, FULL - 1).answer, 22, 0));
    EXPECT(is(hive_recover_start(m.file, FILE_LENGTH, l, FIRST + 512).answer, 22, 0));
    EXPECT(is(hive_recover_all(m.file, FILE_LENGTH, l, FULL - 1).answer, 22, 0));
    drop(l, FULL);
    drop_made(&m);
}

/* A log that is longer than its pages, on both sides of 2^31. */
static void t_padded_log(void)
{
    static const size_t lengths[] = {2147483648 - 1, 2147483648, 2147483648 + 512};
    Made m = one_bin();
    uint8_t *l = log_of(&m, FULL);
    l[516] = 3;
    unsettle(&m);
    for (size_t i = 0; i < sizeof lengths / sizeof lengths[0]; i++) {
        HiveRecovery s = hive_recover_start(m.file, FILE_LENGTH, l, lengths[i]);
        EXPECT(is(s.answer, 0, 0) && s.state == HIVE_DONE && s.pages == 2);
    }
    drop(l, FULL);
    drop_made(&m);
}

/* A log of Windows 8.1 and later with pages about the multiples of 131,072, and the last; of each page the second version is the good one. */
static void t_new_log(void)
{
    static const uint32_t pages[] = {1, 131071, 131072, 131073, 262143, 262144, 2097152, 4194295}, turned[] = {4194295, 262144, 131072, 1, 131073, 131071, 2097152, 262143};
    enum { COUNT = sizeof pages / sizeof pages[0] };
    Made m = one_bin();
    for (int i = 0; i < COUNT; i++)
        memset(m.file + 4096 + 512 * (size_t)pages[i], 'a' + i, 512);
    Log log = new_log(&m, 7);
    add_entry(&log, 7, &m, pages, COUNT, OLDER);
    add_entry(&log, 8, &m, turned, COUNT, LAST);
    for (int i = 0; i < COUNT; i++)
        memset(m.file + 4096 + 512 * (size_t)pages[i], 0xee, 512);
    put32(m.file + 4, 9);
    reseal(m.file);
    HiveRecovery s = hive_recover_start(m.file, FILE_LENGTH, log.at, log.length);
    EXPECT(s.state == HIVE_DONE && s.pages == COUNT && is(hive_recover_start(m.file, FILE_LENGTH - 1, log.at, log.length).answer, 24, 0));
    EXPECT(is(hive_recover_mark_pages(log.at, log.length, map, MARKS - 1).answer, 8, 0));
    memset(map, 0xff, MARKS + 1);
    EXPECT(hive_recover_mark_pages(log.at, log.length, map, MARKS + 1).pages == COUNT && map[MARKS] == 0xff);
    for (int i = 0; i < COUNT; i++)
        EXPECT((map[pages[i] / 8] >> pages[i] % 8 & 1) == 1 && (map[(pages[i] ^ 64) / 8] >> pages[i] % 8 & 1) == 0);
    for (int i = 0; i < COUNT; i++) {
        HivePage p = hive_recover_next(log.at, log.length, i == 0 ? 0 : pages[i - 1] + 1);
        EXPECT(p.page == pages[i] && log.at[p.from + 250] == 'a' + i && p.to == 4096 + 512 * (uint64_t)pages[i]);
        EXPECT(is(hive_recover_close(m.file, FILE_LENGTH, log.at, log.length).answer, 27, 0));
        EXPECT(hive_recover_page(m.file, FILE_LENGTH, log.at, log.length, pages[i]).state == HIVE_DONE && m.file[p.to + 250] == 'a' + i);
    }
    EXPECT(hive_recover_next(log.at, log.length, 4194296).state == HIVE_NO_MORE && is(hive_recover_page(m.file, FILE_LENGTH, log.at, log.length, 4194296).answer, 26, 0));
    EXPECT(hive_recover_all(m.file, FILE_LENGTH, log.at, log.length).state == HIVE_DONE && hive_recover_close(m.file, FILE_LENGTH, log.at, log.length).state == HIVE_DONE);
    EXPECT(get32(m.file + 4) == 8 && get32(m.file + 8) == 8 && get32(m.file + 40) == BINS && is(check(&m), 0, 0));
    free(log.at);
    drop_made(&m);
}

int main(void)
{
    map = space(MAP);
    test("limits: one bin of 2,147,479,552 bytes", t_one_bin);
    test("limits: the bins size field", t_bins_field);
    test("limits: a root at the end, and past it", t_last_cell);
    test("limits: a second bin at the end", t_second_bin);
    test("limits: a value list of the whole bin", t_value_list);
    test("limits: data at the end", t_last_data);
    test("limits: what deletion left at the end", t_last_left);
    test("limits: a repair of the last page", t_repair);
    test("limits: a log of all pages", t_full_log);
    test("limits: a log longer than 2^31", t_padded_log);
    test("limits: a log of Windows 8.1 and later", t_new_log);
    return counts();
}
