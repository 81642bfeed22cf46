/* event_source HIVE NAME [LOG]: prints the file that holds the messages of an event source, from a SYSTEM hive and, if it was taken from a running
 * machine, its log. NAME is UTF-8. Build it with any C compiler, from a release or from the repository:
 *     cc -o event_source examples/event_source.c $(pkg-config --cflags --libs kiweamotu)
 *     cc -o event_source -I include examples/event_source.c target/staticlib/libhive_c.a
 */
#include <fcntl.h>
#include <stdio.h>
#include <stdlib.h>
#include <string.h>
#include <unistd.h>

#include <kiweamotu.h>

typedef struct {
    uint8_t *at;
    size_t length;
} Bytes;

static int fail(const char *what, const char *file)
{
    fprintf(stderr, "event_source: %s: %s\n", what, file);
    exit(2);
}

static int refused(HiveAnswer a)
{
    fprintf(stderr, "event_source: refused %u at %u\n", a.number, a.place);
    return 1;
}

/* Into private memory: nobody may change it while it is read, and a repair there is no repair of the file. */
static Bytes read_all(const char *path)
{
    int fd = open(path, O_RDONLY);
    off_t size = fd < 0 ? -1 : lseek(fd, 0, SEEK_END);
    Bytes b = {size < 0 ? NULL : malloc((size_t)size + 1), 0};
    if (b.at == NULL)
        fail("cannot read", path);
    while (b.length < (size_t)size) {
        ssize_t n = pread(fd, b.at + b.length, (size_t)size - b.length, (off_t)b.length);
        if (n <= 0)
            fail("cannot read", path);
        b.length += (size_t)n;
    }
    close(fd);
    return b;
}

/* The hive as its log would repair it, in memory alone. */
static HiveAnswer recover(Bytes hive, Bytes log)
{
    HiveRecovery r = hive_recover_start(hive.at, hive.length, log.at, log.length);
    HivePage p = hive_recover_next(log.at, log.length, 0);
    while (r.state == HIVE_DONE && p.state == HIVE_THERE) {
        r = hive_recover_page(hive.at, hive.length, log.at, log.length, p.page);
        p = hive_recover_next(log.at, log.length, p.page + 1);
    }
    if (r.state == HIVE_DONE)
        r = hive_recover_close(hive.at, hive.length, log.at, log.length);
    return r.answer;
}

static HiveAnswer check(Bytes hive)
{
    size_t length = hive.length / 64; /* enough: a hive that is cut short is refused before the map is asked for */
    uint8_t *map = malloc(length + 1);
    if (map == NULL)
        fail("no memory", "work map");
    HiveAnswer a = hive_check(hive.at, hive.length, map, length).answer;
    free(map);
    return a;
}

/* One character of UTF-8, and how many bytes follow its first; 0 where it is none. */
static uint32_t decode(const uint8_t *s, int *more)
{
    static const uint32_t least[] = {1, 0x80, 0x800, 0x10000};
    *more = s[0] < 0x80 ? 0 : (s[0] & 0xe0) == 0xc0 ? 1 : (s[0] & 0xf0) == 0xe0 ? 2 : 3;
    uint32_t c = *more == 0 ? s[0] : s[0] & (0x3fu >> *more);
    for (int i = 1; i <= *more; i++) {
        if ((s[i] & 0xc0) != 0x80)
            return 0;
        c = c * 64 + (s[i] & 0x3f);
    }
    return c < least[*more] || c > 0x10ffff || c >> 11 == 0x1b ? 0 : c;
}

/* UTF-16 units, at most one for each byte. A backslash would lead to another key. */
static size_t to_units(const char *text, uint16_t *out)
{
    size_t n = 0;
    int more;
    for (const uint8_t *s = (const uint8_t *)text; *s != 0; s += more + 1) {
        uint32_t c = decode(s, &more);
        if (c == 0 || c == '\\')
            fail("no event source is called so", "NAME");
        if (c >= 0x10000)
            out[n++] = (uint16_t)(0xd800 + ((c - 0x10000) >> 10));
        out[n++] = (uint16_t)(c >= 0x10000 ? 0xdc00 + (c & 0x3ff) : c);
    }
    return n;
}

/* Nothing raw from a file: what is not a plain character is shown by its code, and a terminal takes no orders. */
static void show(const uint8_t *data, size_t length)
{
    for (size_t i = 0; i + 1 < length && (data[i] | data[i + 1]) != 0; i += 2) {
        unsigned c = data[i] | (unsigned)data[i + 1] << 8;
        if (c < 0x20 || (c >= 0x7f && c < 0xa0))
            printf("\\x%02x", c);
        else if (c < 0x80)
            putchar((int)c);
        else if ((c >= 0x2000 && c < 0x2070) || c >= 0xd800)
            printf("\\u%04x", c);
        else if (c < 0x800)
            printf("%c%c", 0xc0 | c >> 6, 0x80 | (c & 0x3f));
        else
            printf("%c%c%c", 0xe0 | c >> 12, 0x80 | (c >> 6 & 0x3f), 0x80 | (c & 0x3f));
    }
    putchar('\n');
}

int main(int count, char **words)
{
    static const uint16_t name[] = {'E', 'v', 'e', 'n', 't', 'M', 'e', 's', 's', 'a', 'g', 'e', 'F', 'i', 'l', 'e'};
    static const char base[] = "ControlSet001/Services/EventLog/Application/";
    enum { BASE = sizeof base - 1, NAME = sizeof name / sizeof name[0], REG_SZ = 1, REG_EXPAND_SZ = 2 };
    uint16_t path[BASE + 256];
    if (count < 3 || count > 4 || strlen(words[2]) > 255) {
        fprintf(stderr, "usage: event_source HIVE NAME [LOG]\n");
        return 2;
    }
    for (size_t i = 0; i < BASE; i++)
        path[i] = base[i] == '/' ? '\\' : (uint8_t)base[i];
    size_t length = BASE + to_units(words[2], path + BASE);
    Bytes hive = read_all(words[1]);
    HiveAnswer a = count == 4 ? recover(hive, read_all(words[3])) : (HiveAnswer){0, 0, HIVE_NO_KEY, 0};
    if (a.number == 0)
        a = check(hive);
    if (a.number != 0)
        return refused(a);
    HiveValue v = hive_value_view(hive.at, hive.length, path, length, name, NAME);
    if (v.answer.number != 0)
        return refused(v.answer);
    if (v.kind != REG_SZ && v.kind != REG_EXPAND_SZ)
        return fail("its EventMessageFile is no text", "NAME");
    show(hive.at + v.at, v.length);
    return 0;
}
