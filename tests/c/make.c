/* make DIR: writes the hives and logs that the tool's tests use. */
#include <fcntl.h>
#include <stdio.h>
#include <stdlib.h>
#include <string.h>
#include <unistd.h>

#include "fixtures.h"

static const char *folder;

static void write_at(const char *name, const uint8_t *bytes, size_t length, off_t at)
{
    char path[4096];
    snprintf(path, sizeof path, "%s/%s", folder, name);
    int fd = open(path, O_WRONLY | O_CREAT | O_TRUNC, 0644);
    if (fd < 0 || (length > 0 && pwrite(fd, bytes, length, at) != (ssize_t)length) || close(fd) != 0)
        abort();
}

static void write_file(const char *name, const uint8_t *bytes, size_t length)
{
    write_at(name, bytes, length, 0);
}

/* Names that a terminal or a script could stumble over: UTF-16, a control character, a value called @, an unknown type, one name twice. */
static void write_names(void)
{
    Made m = made(4096, 5);
    m.root = new_key(&m, "R", 0);
    uint32_t keys[] = {new_key(&m, "\x1b[2J", m.root), new_key(&m, "n\xe9", m.root), new_key(&m, "ab", m.root)};
    put16(data_of(&m, keys[2]) + 2, 0); /* one UTF-16 character, U+6261 */
    hang_keys(&m, m.root, new_leaf(&m, "li", keys, 3), 3);
    uint32_t values[] = {new_value(&m, "@", 3, (const uint8_t *)"x", 1), new_value(&m, "a\nb", 0x1234, (const uint8_t *)"xyzxyz", 6), new_value(&m, "ab", 3, (const uint8_t *)"x", 0), new_value(&m, "A\nB", 1, (const uint8_t *)"x", 2)};
    put16(data_of(&m, values[2]) + 16, 0);
    hang_values(&m, m.root, values, 4);
    finish(&m);
    write_file("names", m.file, made_length(&m));
    put32(data_of(&m, values[3]) + 4, 7000);
    write_file("bad-value", m.file, made_length(&m));
    put32(data_of(&m, get32(data_of(&m, m.root) + 28)) + 8, 40);
    write_file("bad-key", m.file, made_length(&m));
}

/* A key or a value whose name is given in UTF-16, in the place of one that is as long. */
static void rename_key(Made *m, uint32_t key, const char *bytes, size_t length)
{
    put16(data_of(m, key) + 2, 0);
    put16(data_of(m, key) + 72, (uint32_t)length);
    memcpy(data_of(m, key) + 76, bytes, length);
}

static void rename_value(Made *m, uint32_t value, const char *bytes, size_t length)
{
    put16(data_of(m, value) + 16, 0);
    put16(data_of(m, value) + 2, (uint32_t)length);
    memcpy(data_of(m, value) + 20, bytes, length);
}

/* Names and texts with escapes: in order for the check, which compares codes. The data of a value say which it is. */
static void write_notation(void)
{
    static const char *const named[] = {"", "@", "a\\b", "\\x41", "C:\\u0041", "ab\x07", "ffff", "nnnn", "wwwwww"};
    Made m = made(2 * 4096, 5);
    m.root = new_key(&m, "R", 0);
    uint32_t keys[] = {new_key(&m, "\x07", m.root), new_key(&m, "@", m.root), new_key(&m, "llllll", m.root), new_key(&m, "hhhh", m.root)};
    rename_key(&m, keys[2], "\x2e\x20x\0\x28\x20", 6); /* a direction mark, x, a line separator */
    rename_key(&m, keys[3], "\x3d\xd8g\0", 4);         /* half of a pair */
    hang_keys(&m, m.root, new_leaf(&m, "lh", keys, 2), 2);
    hang_keys(&m, keys[1], new_leaf(&m, "li", keys + 2, 2), 2);
    put32(data_of(&m, keys[2]) + 16, keys[1]);
    put32(data_of(&m, keys[3]) + 16, keys[1]);
    uint32_t values[9];
    for (int i = 0; i < 9; i++)
        values[i] = new_value(&m, named[i], 4, (const uint8_t[]){(uint8_t)i, 0, 0, 0}, 4);
    rename_value(&m, values[6], "\xff\xfe\x3d\xd8", 4);
    rename_value(&m, values[7], "n\0\0\0", 4);
    rename_value(&m, values[8], "\x3d\xd8\0\xde\x0a\0", 6); /* a pair and a line's end */
    hang_values(&m, m.root, values, 9);
    finish(&m);
    write_file("notation", m.file, made_length(&m));
}

/* Several strings, with an empty one, without their ends, with a byte too many; and text that a terminal would obey. */
static void write_texts(void)
{
    Made m = made(4096, 5);
    m.root = new_key(&m, "R", 0);
    uint32_t values[] = {
        new_value(&m, "inner", 7, (const uint8_t *)"a\0\0\0\0\0b\0\0\0\0", 12), new_value(&m, "open", 7, (const uint8_t *)"a\0\0\0b\0", 6),
        new_value(&m, "odd", 7, (const uint8_t *)"a\0\0\0b\0\0\0\xff", 9),   new_value(&m, "none", 7, (const uint8_t *)"\0\0", 2),
        new_value(&m, "empty", 7, (const uint8_t *)"\0\0\0", 4),              new_value(&m, "order", 1, (const uint8_t *)"\x1b\0c\0\0", 6),
        new_value(&m, "half", 1, (const uint8_t *)"\x3d\xd8!\0\0", 6),        new_value(&m, "\xe9", 4, (const uint8_t *)"\1\0\0", 4),
        new_value(&m, "\xc9", 4, (const uint8_t *)"\2\0\0", 4),
    };
    hang_values(&m, m.root, values, sizeof values / sizeof values[0]);
    finish(&m);
    write_file("texts", m.file, made_length(&m));
}

/* A count that is not that of the keys; and a key whose security offset names nothing, with the counts of the others. */
static void write_insecure(Made *m, uint32_t key)
{
    uint8_t *count = data_of(m, m->item) + 12;
    put32(count, get32(count) - 1);
    write_file("wrong-count", m->file, made_length(m));
    put32(data_of(m, key) + 44, 0);
    write_file("off-ring", m->file, made_length(m));
    put32(data_of(m, key) + 44, m->item);
    put32(count, get32(count) + 1);
}

/* Faults deep in the tree: a value list that is free, a key that is its own parent, a child that is no key. */
static void write_broken(Made *m, uint32_t parent, const uint32_t *keys)
{
    uint8_t *size = m->file + 4096 + get32(data_of(m, keys[1]) + 40);
    put32(size, 0u - get32(size));
    write_file("free-values", m->file, made_length(m));
    put32(size, 0u - get32(size));
    put32(data_of(m, keys[2]) + 16, keys[2]);
    write_file("own-parent", m->file, made_length(m));
    put32(data_of(m, keys[2]) + 16, parent);
    data_of(m, keys[2])[0] = 'x';
    write_file("no-child", m->file, made_length(m));
}

/* Event sources: one whose file is no text, one whose text gives a terminal orders, one with another name than ASCII. */
static void write_sources(void)
{
    static const char *const path[] = {"ControlSet001", "Services", "EventLog", "Application"};
    static const char *const named[] = {"Bin", "Esc", "\xe9"};
    Made m = made(4096, 5);
    uint32_t key = m.root = new_key(&m, "R", 0), keys[3];
    for (int i = 0; i < 4; i++) {
        uint32_t child = new_key(&m, path[i], key);
        hang_keys(&m, key, new_leaf(&m, "lh", &child, 1), 1);
        key = child;
    }
    for (int i = 0; i < 3; i++) {
        uint32_t value = new_value(&m, "EventMessageFile", i == 0 ? 3 : 1, (const uint8_t *)"\x1b\0c\0\0", 6);
        keys[i] = new_key(&m, named[i], key);
        hang_values(&m, keys[i], &value, 1);
    }
    memcpy(data_of(&m, keys[0]) + 4, "\x07\x00\xcd\x66\x6b\x6b\xda\x01", 8); /* the last second of a leap day */
    memset(data_of(&m, keys[2]) + 4, 0xff, 8);
    hang_keys(&m, key, new_leaf(&m, "lh", keys, 3), 3);
    finish(&m);
    write_file("sources", m.file, made_length(&m));
    write_insecure(&m, keys[1]);
    write_broken(&m, key, keys);
}

/* A hint in capitals. */
static void write_hint(void)
{
    Made m = made(4096, 5);
    m.root = new_key(&m, "R", 0);
    uint32_t keys[] = {new_key(&m, "alpha", m.root), new_key(&m, "beta", m.root)}, leaf = new_leaf(&m, "lf", keys, 2);
    hang_keys(&m, m.root, leaf, 2);
    finish(&m);
    memcpy(data_of(&m, leaf) + 16, "BETA", 4);
    write_file("wrong-hint", m.file, made_length(&m));
}

/* Three keys of one name, each below the other, of which the last says that the root is its parent. */
static void write_liar(void)
{
    Made m = made(4096, 5);
    uint32_t key = m.root = new_key(&m, "R", 0);
    for (int i = 0; i < 3; i++) {
        uint32_t child = new_key(&m, "n", i < 2 ? key : m.root);
        hang_keys(&m, key, new_leaf(&m, "lh", &child, 1), 1);
        key = child;
    }
    finish(&m);
    write_file("liar", m.file, made_length(&m));
}

/* A chain of so many levels, with the longest name at its end: as deep as it may be, and a level too deep. */
static void write_chain(const char *name, int levels)
{
    char last[256] = "";
    memset(last, '.', 255);
    Made m = made(32 * 4096, 5);
    uint32_t key = m.root = new_key(&m, "R", 0);
    for (int i = 1; i <= levels; i++) {
        uint32_t child = new_key(&m, i == levels ? last : "n", key);
        hang_keys(&m, key, new_leaf(&m, "lh", &child, 1), 1);
        key = child;
    }
    finish(&m);
    write_file(name, m.file, made_length(&m));
}

/* Logs for the spoilt sample: one whose pages hold a bin without its signature, and one of type 6 that has no entry. */
static void write_logs(const Made *good, const uint32_t *pages, size_t count)
{
    Log log = made_log(good, pages, count);
    write_file("log", log.at, log.length);
    write_file("short-log", log.at, log.length - 1);
    put32(log.at + 28, 6);
    reseal(log.at);
    write_file("no-entry", log.at, log.length);
    good->file[4096] = 'x';
    log = made_log(good, pages, count);
    write_file("bad-log", log.at, log.length);
    good->file[4096] = 'h';
}

/* Logs of Windows 8.1 and later for it: in one file, in two, one that goes on after a gap; with a broken tree; with the last pages of a hive that has grown.
 * Of each page the last version is the good one. What comes out has the last entry's number. */
static void write_new_logs(const Made *good, const uint32_t *pages)
{
    static const uint32_t again[] = {127, 0, 3}, end[] = {120, 121, 122, 123, 124, 125, 126, 127};
    Log whole = new_log(good, 7), first = new_log(good, 7), second = new_log(good, 8), gap = new_log(good, 11), bad = new_log(good, 7), grown = new_log(good, 7);
    Log *both[] = {&whole, &first, &second};
    for (int i = 0; i < 2; i++)
        add_entry(both[i], 7, good, pages, 6, OLDER);
    for (int i = 0; i < 3; i += 2) {
        add_entry(both[i], 8, good, pages, 8, OLDER);
        add_entry(both[i], 9, good, again, 3, LAST);
        add_entry(both[i], 10, good, pages + 2, 6, LAST);
    }
    add_entry(&gap, 11, good, pages, 8, LAST);
    add_entry(&first, 6, good, pages, 8, OLDER); /* an old entry behind */
    write_file("new-log", whole.at, whole.length);
    write_file("new-log1", first.at, first.length);
    write_file("new-log2", second.at, second.length);
    write_file("new-log-gap", gap.at, gap.length);
    add_entry(&grown, 7, good, pages, 8, LAST);
    add_entry(&grown, 8, good, end, 8, LAST);
    write_file("new-log-grown", grown.at, grown.length);
    good->file[4096] = 'x';
    add_entry(&bad, 7, good, pages, 8, LAST);
    good->file[4096] = 'h';
    write_file("new-log-bad", bad.at, bad.length);
}

/* Two logs that follow each other, of two stamps, and a hive whose base block is torn and whose first page has the later stamp already: both as one log do not fit
 * it, and the later alone would leave out the page of the earlier. */
static void write_torn(const Made *good)
{
    static const uint32_t one[] = {17}, two[] = {0, 3};
    Log first = new_log(good, 7), second = new_log(good, 8);
    add_entry(&first, 7, good, one, 1, LAST);
    second.at[12] ^= 5;
    reseal(second.at);
    good->file[4096 + 20] ^= 5;
    add_entry(&second, 8, good, two, 2, LAST);
    uint8_t *file = spoilt(good, one, 1);
    good->file[4096 + 20] ^= 5;
    file[508] ^= 1;
    write_file("torn-base", file, made_length(good));
    write_file("torn-log1", first.at, first.length);
    write_file("torn-log2", second.at, second.length);
}

/* The sample as a log leaves it that ends with that number, the sample that looks as if a store had been cut, and the spoilt one with that second number. */
static void write_numbered(const char *name, const uint8_t *file, size_t length, uint32_t first, uint32_t second)
{
    uint8_t *copy = malloc(length);
    if (copy == NULL)
        abort();
    memcpy(copy, file, length);
    put32(copy + 4, first);
    put32(copy + 8, second);
    reseal(copy);
    write_file(name, copy, length);
    free(copy);
}

/* Letters past z, sorted as capitals: the hash of the last is over 255. */
static void write_letters(void)
{
    Made m = made(4096, 5);
    m.root = new_key(&m, "R", 0);
    uint32_t keys[] = {new_key(&m, "\xe4", m.root), new_key(&m, "\xc5", m.root), new_key(&m, "\xc9" "diteur", m.root), new_key(&m, "\xff", m.root)};
    hang_keys(&m, m.root, new_leaf(&m, "lh", keys, 4), 4);
    finish(&m);
    write_file("letters", m.file, made_length(&m));
}

/* A file of that length, all of it a hole but the start and the end. */
static void write_ends(const char *name, const Made *m, size_t length)
{
    char path[4096];
    enum { START = 8192, END = 4096 };
    size_t end = made_length(m) - END;
    snprintf(path, sizeof path, "%s/%s", folder, name);
    int fd = open(path, O_WRONLY | O_CREAT | O_TRUNC, 0644);
    if (fd < 0 || pwrite(fd, m->file, START, 0) != START || pwrite(fd, m->file + end, END, (off_t)end) != END || ftruncate(fd, (off_t)length) != 0 || close(fd) != 0)
        abort();
}

/* The longest hive, whose root has a value with its data at the end: whole, a byte short, with padding, with a bins size that is too large; and before a
 * repair of its page 1, which is inside the free cell, and of its last, with the log. */
static void write_longest(void)
{
    static const uint32_t pages[] = {1, 4194295};
    Made m = made(2147479552, 5);
    size_t n = made_length(&m);
    m.root = new_key(&m, "R", 0);
    uint32_t value = new_value(&m, "v", 1, (const uint8_t *)"?", 1);
    hang_values(&m, m.root, &value, 1);
    m.item = new_item(&m, 0);
    uint32_t rest = m.next;
    m.next = (uint32_t)m.bins - 16;
    uint32_t data = new_cell(&m, 12);
    memcpy(data_of(&m, data), "t\0h\0e\0 \0e\0n", 11);
    put32(data_of(&m, value) + 4, 12);
    put32(data_of(&m, value) + 8, data);
    finish(&m);
    put32(m.file + 4096 + rest, data - rest);
    memset(m.file + 4608, 'x', 512);
    write_ends("longest", &m, n);
    write_ends("longest-cut", &m, n - 1);
    write_ends("longest-padded", &m, 4294967296);
    write_ends("longest-and-more", &m, 4294967297);
    Log log = made_log(&m, pages, 2);
    write_file("longest-log", log.at, log.length);
    log = new_log(&m, 7);
    add_entry(&log, 7, &m, pages, 2, LAST);
    write_file("longest-new-log", log.at, log.length);
    for (int i = 0; i < 2; i++)
        memset(m.file + 4096 + 512 * (size_t)pages[i], 0xee, 512);
    put32(m.file + 4, 8);
    reseal(m.file);
    write_ends("longest-spoilt", &m, n);
    put32(m.file + 40, 0x80000000);
    reseal(m.file);
    write_ends("longest-field", &m, n);
}

/* Frees a cell as deletion does: its bytes stay. */
static void forget(Made *m, uint32_t cell)
{
    put32(m->file + 4096 + cell, 0u - get32(m->file + 4096 + cell));
}

/* Records in free cells: three that were merged into one cell, single ones, and two that are in use. Whole; before a repair of the page that they lie in, with
 * the log; with a root that is no key; with a second bin that has no header. */
static void write_left(void)
{
    static const uint32_t pages[] = {0, 1};
    Made m = made(8192, 5);
    m.root = new_key(&m, "R", 0);
    uint32_t key = new_key(&m, "gone", m.root), next = new_key(&m, "\x1b[2J", m.root), value = new_value(&m, "", 1, (const uint8_t *)"x\0y", 4);
    uint32_t kept = new_value(&m, "kept", 3, (const uint8_t *)"x", 1);
    hang_values(&m, m.root, &kept, 1);
    uint32_t wide = new_key(&m, "llllll", m.root), at = new_value(&m, "@", 4, (const uint8_t *)"x", 1), part = new_value(&m, "a\\b", 4, (const uint8_t *)"x", 1);
    new_value(&m, "not freed", 4, (const uint8_t *)"x", 1);
    uint32_t half = new_value(&m, "ffff", 4, (const uint8_t *)"x", 1);
    rename_key(&m, wide, "\x2e\x20x\0\x28\x20", 6);
    rename_value(&m, half, "\xe9\0\x3d\xd8", 4);
    finish(&m);
    put32(m.file + 4096 + 8, 4096);
    put32(m.file + 4096 + m.next, 4096 - m.next);
    memcpy(m.file + 8192, m.file + 4096, 32);
    put32(m.file + 8192 + 4, 4096);
    put32(m.file + 8192 + 32, 4096 - 32);
    for (int i = 0; i < 5; i++)
        forget(&m, (uint32_t[]){key, wide, at, part, half}[i]);
    put32(m.file + 4096 + key, value + 24 - key); /* the first grew over the two behind it */
    forget(&m, next);
    size_t n = made_length(&m);
    write_file("left", m.file, n);
    Log log = made_log(&m, pages, 2);
    write_file("left-log", log.at, log.length);
    write_file("left-torn", spoilt(&m, pages, 2), n);
    data_of(&m, m.root)[0] = 'x';
    write_file("left-no-root", m.file, n);
    m.file[8192] = 'x';
    write_file("left-no-bin", m.file, n);
}

/* So many values without a name, one behind the other in one free cell. */
static void write_left_many(const char *name, uint32_t count)
{
    Made m = made(32 * 4096, 5);
    m.root = new_key(&m, "R", 0);
    finish(&m);
    for (uint32_t i = 0; i < count; i++)
        memcpy(data_of(&m, m.next + 24 * i), "vk", 2);
    write_file(name, m.file, made_length(&m));
}

/* Values of a key, each with its type and data. */
typedef struct {
    const char *name;
    uint32_t type;
    const char *data;
    size_t length;
} Plan;

static void hang_planned(Made *m, uint32_t key, const Plan *plans, size_t count)
{
    uint32_t values[32];
    for (size_t i = 0; i < count; i++)
        values[i] = new_value(m, plans[i].name, plans[i].type, (const uint8_t *)plans[i].data, plans[i].length);
    hang_values(m, key, values, count);
}

/* Each kind of value that a text of regedit's has, at its bounds. */
static void hang_kinds(Made *m, uint32_t key)
{
    static const Plan plans[] = {
        {"", 1, "x\0y\0\0", 6},          {"escaped", 1, "\"\0\\\0]\0\0", 8}, {"end", 1, "\0", 2},           {"open", 1, "x\0y\0", 4},
        {"odd", 1, "x\0\0\0\0", 5},      {"byte", 1, "\0", 1},               {"two ends", 1, "x\0\0\0\0", 6}, {"inner", 1, "x\0\0\0y\0\0", 8},
        {"feed", 1, "x\0\n\0\0", 6},     {"return", 1, "\r\0\0", 4},         {"near", 1, "\x0a\x01\x0d\x0a\0", 6}, {"pair", 1, "\x3d\xd8\0\xde\0", 6},
        {"half", 1, "\x3d\xd8!\0\0", 6}, {"order", 1, "\x1b\0c\0\0", 6},     {"dword", 4, "\1\xab\0\xff", 4}, {"dword 3", 4, "\1\2\3", 3},
        {"dword 5", 4, "\1\2\3\4\5", 5}, {"binary", 3, "\xfe", 1},           {"expand", 2, "%\0\0", 4},      {"several", 7, "a\0\0\0\0", 6},
        {"qword", 11, "\1\0\0\0\0\0\0\x80", 8}, {"type 16", 16, "x", 1},     {"type last", 0xffffffff, "x", 1}, {"none 0", 0, "", 0},
        {"none 1", 1, "", 0},            {"none 3", 3, "", 0},               {"none 4", 4, "", 0},           {"none 7", 7, "", 0},
    };
    hang_planned(m, key, plans, sizeof plans / sizeof plans[0]);
}

/* Names that stand in quotation marks, and three that no line can hold. */
static void hang_named(Made *m, uint32_t key)
{
    static const char *const named[] = {"a\"b", "a\\b", "]", "@", "a=b", "[", "ffff", "hhhh", "a\nb", "nnnn", "\r"};
    uint32_t values[11];
    for (int i = 0; i < 11; i++)
        values[i] = new_value(m, named[i], 4, (const uint8_t[]){(uint8_t)i, 0, 0, 0}, 4);
    rename_value(m, values[6], "\x3d\xd8\0\xde", 4);
    rename_value(m, values[7], "\x3d\xd8g\0", 4);
    rename_value(m, values[9], "n\0\0\0", 4);
    hang_values(m, key, values, 11);
}

/* Lines that are just long enough or just too long: below `bytes` so many bytes behind @=hex:, and in `first` names so long that the first line has two bytes
 * or one, of which the last is a character less than it is units. */
static void hang_lines(Made *m, uint32_t bytes, uint32_t first)
{
    static const char *const counts[] = {"24", "25", "26", "48", "49", "51"};
    static const struct {
        size_t name, length;
    } lines[] = {{64, 3}, {65, 2}, {65, 3}, {66, 2}, {67, 3}, {68, 1}, {68, 2}, {90, 2}};
    uint32_t keys[6], values[9];
    uint8_t data[51];
    for (int i = 0; i < 51; i++)
        data[i] = (uint8_t)(5 * i);
    for (int i = 0; i < 6; i++) {
        keys[i] = new_key(m, counts[i], bytes);
        uint32_t value = new_value(m, "", 3, data, (size_t)strtol(counts[i], NULL, 10));
        hang_values(m, keys[i], &value, 1);
    }
    hang_keys(m, bytes, new_leaf(m, "lh", keys, 6), 6);
    for (int i = 0; i < 8; i++) {
        char name[100] = {(char)('a' + i)};
        memset(name + 1, '.', lines[i].name - 1);
        values[i] = new_value(m, name, 3, data, lines[i].length);
    }
    char wide[133] = "\x3d\xd8 \xde"; /* a pair, and 64 points: 66 units */
    for (int i = 4; i < 132; i++)
        wide[i] = i % 2 == 0 ? '.' : ' ';
    values[8] = new_value(m, wide, 3, data, 2);
    for (int i = 2; i < 132; i++)
        wide[i] = wide[i] == ' ' ? 0 : wide[i];
    rename_value(m, values[8], wide, 132);
    hang_values(m, first, values, 9);
}

/* What a text of regedit's can say and cannot, key by key. */
static void write_reg(void)
{
    static const char *const named[] = {"\"q\"", "@", "a\nb", "a]b", "bytes", "first", "kinds", "names", "hhhh", "wwww"};
    Made m = made(4 * 4096, 5);
    uint32_t keys[10], value;
    m.root = new_key(&m, "R\n", 0);
    for (int i = 0; i < 10; i++)
        keys[i] = new_key(&m, named[i], m.root);
    rename_key(&m, keys[8], "\x3d\xd8g\0", 4);
    rename_key(&m, keys[9], "\x3d\xd8\0\xde", 4);
    hang_keys(&m, m.root, new_leaf(&m, "li", keys, 10), 10);
    uint32_t below = new_key(&m, "below", keys[2]), leaf = new_key(&m, "leaf", keys[9]);
    hang_keys(&m, keys[2], new_leaf(&m, "lh", &below, 1), 1);
    hang_keys(&m, keys[9], new_leaf(&m, "lh", &leaf, 1), 1);
    for (int i = 0; i < 2; i++) {
        value = new_value(&m, "v", 4, (const uint8_t *)"\1\0\0", 4);
        hang_values(&m, (uint32_t[]){below, leaf}[i], &value, 1);
    }
    hang_lines(&m, keys[4], keys[5]);
    hang_kinds(&m, keys[6]);
    hang_named(&m, keys[7]);
    finish(&m);
    write_file("reg", m.file, made_length(&m));
}

/* 60,000 subkeys, in leaves of 1,000. */
static void write_wide(void)
{
    enum { LEAVES = 60, EACH = 1000 };
    static uint32_t keys[EACH], leaves[LEAVES];
    Made m = made(2048 * 4096, 5);
    m.root = new_key(&m, "R", 0);
    for (int i = 0; i < LEAVES; i++) {
        for (int k = 0; k < EACH; k++) {
            char name[12];
            snprintf(name, sizeof name, "k%05d", i * EACH + k);
            keys[k] = new_key(&m, name, m.root);
        }
        leaves[i] = new_leaf(&m, "lh", keys, EACH);
    }
    hang_keys(&m, m.root, new_index(&m, leaves, LEAVES), LEAVES * EACH);
    finish(&m);
    write_file("wide", m.file, made_length(&m));
}

/* So many keys with one value list, and so many values in it with the same data: the tree is far longer than the file. */
static void write_shared(const char *name, int count, int each, size_t length)
{
    static uint8_t data[1 << 20];
    uint32_t keys[64], values[64];
    Made m = made((length + length / 16344 * 32 + 16384) / 4096 * 4096, 5);
    m.root = new_key(&m, "R", 0);
    for (int i = 0; i < each; i++) {
        values[i] = new_value(&m, (char[]){(char)('A' + i / 8), (char)('A' + i % 8), 0}, 3, data, i == 0 ? length : 0);
        if (i > 0)
            memcpy(data_of(&m, values[i]) + 4, data_of(&m, values[0]) + 4, 8);
    }
    for (int i = 0; i < count; i++)
        keys[i] = new_key(&m, (char[]){(char)('A' + i / 8), (char)('A' + i % 8), 0}, m.root);
    hang_values(&m, keys[0], values, (size_t)each);
    for (int i = 1; i < count; i++)
        memcpy(data_of(&m, keys[i]) + 36, data_of(&m, keys[0]) + 36, 8);
    hang_keys(&m, m.root, new_leaf(&m, "lh", keys, (size_t)count), (uint32_t)count);
    finish(&m);
    write_file(name, m.file, made_length(&m));
}

/* Keys with paths that are far longer than their records: many below a chain of the longest names. */
static void write_paths(void)
{
    enum { DEPTH = 200, COUNT = 300 };
    static uint32_t keys[COUNT];
    char long_name[256] = "", name[8];
    memset(long_name, '.', 255);
    Made m = made(30 * 4096, 5);
    uint32_t key = m.root = new_key(&m, "R", 0);
    for (int i = 0; i < DEPTH; i++) {
        uint32_t child = new_key(&m, long_name, key);
        hang_keys(&m, key, new_leaf(&m, "lh", &child, 1), 1);
        key = child;
    }
    for (int i = 0; i < COUNT; i++) {
        snprintf(name, sizeof name, "k%03d", i);
        keys[i] = new_key(&m, name, key);
    }
    hang_keys(&m, key, new_leaf(&m, "lh", keys, COUNT), COUNT);
    finish(&m);
    write_file("paths", m.file, made_length(&m));
}

static void write_trees(void)
{
    write_hint();
    write_liar();
    write_chain("deep", 512);
    write_chain("chain", 513);
    write_reg();
    write_wide();
    write_shared("shared", 20, 20, 16000);
    write_shared("shared-much", 36, 36, 1 << 20);
    write_paths();
}

int main(int count, char **words)
{
    static const uint32_t pages[] = {0, 3, 4, 17, 30, 31, 64, 127};
    if (count != 2)
        return 2;
    folder = words[1];
    Made small = made(4096, 3);
    new_key(&small, "R", 0);
    finish(&small);
    write_file("minimal", small.file, made_length(&small));
    put32(data_of(&small, small.root) + 44, 0);
    write_file("no-item", small.file, made_length(&small));
    Made good = sample();
    size_t n = made_length(&good);
    write_file("sample", good.file, n);
    write_file("spoilt", spoilt(&good, pages, 8), n);
    write_logs(&good, pages, 8);
    write_new_logs(&good, pages);
    write_torn(&good);
    write_numbered("dirty", good.file, n, 8, 7);
    write_numbered("sample-8", good.file, n, 8, 8);
    write_numbered("sample-10", good.file, n, 10, 10);
    write_numbered("spoilt-8", spoilt(&good, pages, 8), n, 9, 8);
    write_numbered("spoilt-short", spoilt(&good, pages, 8), n - 4096, 8, 7);
    write_file("cut", good.file, n - 1);
    write_file("empty", NULL, 0);
    write_at("vast", (const uint8_t *)"x", 1, 5368709120 - 1);
    write_names();
    write_notation();
    write_texts();
    write_sources();
    write_letters();
    write_longest();
    write_trees();
    write_left();
    write_left_many("left-4096", 4096);
    write_left_many("left-4097", 4097);
    good.file[4096 + good.root + 4] = 'x';
    write_file("no-root", good.file, n);
    return 0;
}
