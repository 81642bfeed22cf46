/* facts: prints the version of the proved library's interface.
 * facts FILE: what an x86-64 program or shared library of Linux says of itself, one fact to a line:
 *     soname NAME, needs LIBRARY, needs VERSION, offers SYMBOL, wants SYMBOL, bound at start, relro, stack FLAGS, text relocations. */
#include <fcntl.h>
#include <stdbool.h>
#include <stdio.h>
#include <stdlib.h>
#include <string.h>
#include <unistd.h>

#include <kiweamotu.h>

enum { LOAD = 1, DYNAMIC = 2, STACK = 0x6474e551, RELRO = 0x6474e552 };
enum { NEEDED = 1, STRINGS = 5, SYMBOLS = 6, SONAME = 14, TEXTREL = 22, FLAGS = 30, HASH = 0x6ffffef5, VERNEED = 0x6ffffffe, VERNEEDNUM = 0x6fffffff };

typedef struct {
    uint32_t type, flags;
    uint64_t at, memory, physical, length, memory_length, align;
} Segment;

typedef struct {
    uint64_t tag, value;
} Entry;

typedef struct {
    uint32_t name;
    uint8_t info, other;
    uint16_t section;
    uint64_t value, size;
} Symbol;

static struct {
    uint8_t bytes[1 << 24];
    size_t length;
    const Segment *segments;
    uint16_t count;
    const Entry *dynamic;
} file;

/* So many bytes at a place of the file; what lies outside ends the program. */
static const void *part(uint64_t at, uint64_t length)
{
    if (at > file.length || length > file.length - at) {
        fprintf(stderr, "facts: this is no program or library of x86-64 Linux\n");
        exit(2);
    }
    return file.bytes + at;
}

/* The same, by the place in memory that the file asks for. */
static const void *loaded(uint64_t at, uint64_t length)
{
    for (unsigned i = 0; i < file.count; i++) {
        Segment s = file.segments[i];
        if (s.type == LOAD && at >= s.memory && at - s.memory < s.length)
            return part(s.at + (at - s.memory), length);
    }
    return part(file.length + 1, 0);
}

static uint64_t entry(uint64_t tag)
{
    for (const Entry *e = file.dynamic; e->tag != 0; e++)
        if (e->tag == tag)
            return e->value;
    return 0;
}

static const char *text(uint64_t at)
{
    return loaded(entry(STRINGS) + at, 1);
}

/* The symbols of a library that it hashes are its last ones; how many they are is told by the longest chain. */
static uint32_t symbol_count(void)
{
    const uint32_t *head = loaded(entry(HASH), 16);
    uint32_t buckets = head[0], first = head[1], words = head[2], last = 0;
    uint64_t at = entry(HASH) + 16 + 8 * (uint64_t)words;
    const uint32_t *bucket = loaded(at, 4 * (uint64_t)buckets);
    for (uint32_t i = 0; i < buckets; i++)
        last = bucket[i] > last ? bucket[i] : last;
    if (last < first)
        return first;
    while ((*(const uint32_t *)loaded(at + 4 * (uint64_t)buckets + 4 * (uint64_t)(last - first), 4) & 1) == 0)
        last++;
    return last + 1;
}

static void symbols(void)
{
    for (uint32_t i = 1, n = symbol_count(); i < n; i++) {
        const Symbol *s = loaded(entry(SYMBOLS) + i * sizeof *s, sizeof *s);
        printf("%s %s\n", s->section == 0 ? "wants" : "offers", text(s->name));
    }
}

/* Each library's versions stand in a chain, and the libraries in another. */
static void versions(void)
{
    uint64_t at = entry(VERNEED);
    for (uint64_t n = entry(VERNEEDNUM); n > 0; n--) {
        const uint16_t *need = loaded(at, 16);
        uint64_t one = at + ((const uint32_t *)need)[2];
        for (unsigned k = need[1]; k > 0; k--) {
            const uint32_t *version = loaded(one, 16);
            printf("needs %s\n", text(version[2]));
            one += version[3];
        }
        at += ((const uint32_t *)need)[3];
    }
}

static void segments(void)
{
    for (unsigned i = 0; i < file.count; i++) {
        Segment s = file.segments[i];
        if (s.type == RELRO)
            puts("relro");
        if (s.type == STACK)
            printf("stack %s%s%s\n", s.flags & 4 ? "r" : "", s.flags & 2 ? "w" : "", s.flags & 1 ? "x" : "");
        if (s.type == DYNAMIC)
            file.dynamic = part(s.at, s.length);
    }
}

static void facts(void)
{
    const uint8_t *head = part(0, 64);
    if (memcmp(head, "\177ELF\2\1\1", 7) != 0 || head[18] != 62)
        part(file.length + 1, 0);
    memcpy(&file.count, head + 56, 2);
    uint64_t at;
    memcpy(&at, head + 32, 8);
    file.segments = part(at, file.count * sizeof(Segment));
    segments();
    if (file.dynamic == NULL)
        return;
    for (const Entry *e = file.dynamic; e->tag != 0; e++) {
        if (e->tag == NEEDED || e->tag == SONAME)
            printf("%s %s\n", e->tag == NEEDED ? "needs" : "soname", text(e->value));
        if (e->tag == TEXTREL || (e->tag == FLAGS && (e->value & 4) != 0))
            puts("text relocations");
        if (e->tag == FLAGS && (e->value & 8) != 0)
            puts("bound at start");
    }
    versions();
    symbols();
}

int main(int count, char **words)
{
    if (count == 1)
        return printf("%u\n", hive_abi()) > 0 ? 0 : 2;
    int fd = open(words[1], O_RDONLY);
    ssize_t n = 1;
    while (fd >= 0 && n > 0) {
        n = read(fd, file.bytes + file.length, sizeof file.bytes - file.length);
        file.length += n > 0 ? (size_t)n : 0;
    }
    if (fd < 0 || n < 0) {
        fprintf(stderr, "facts: cannot read %s\n", words[1]);
        return 2;
    }
    facts();
    return 0;
}
