/* Random names of keys and values, one-byte and UTF-16: what is printed reads back as the same name, so no two names print alike; and it is UTF-8 that shows
 * nothing hidden. */
#include <stdlib.h>
#include <string.h>

#include "../../host/host.h"

enum { MOST = 12, ROUNDS = 60000 };

static uint32_t dice(void)
{
    static uint64_t state = 88172645463325252;
    state ^= state << 13;
    state ^= state >> 7;
    state ^= state << 17;
    return (uint32_t)(state >> 16);
}

/* Letters of escapes, backslashes and @ are likely, and so are codes that are hidden and halves of pairs. */
static uint16_t random_unit(bool narrow, bool key)
{
    static const uint16_t odd[] = {'\\', '\\', 'x', 'u', '4', '1', '0', '@', 0, 7, 0x7f, 0x9f, 0xff, 0x61c, 0x200e, 0x2028, 0x202e, 0x2069, 0xd83d, 0xde00, 0xdfff, 0xfeff, 0xffff};
    uint16_t u = dice() % 4 == 0 ? (uint16_t)dice() : odd[dice() % (sizeof odd / sizeof odd[0])];
    if (narrow)
        u &= 0xff;
    return key && u == '\\' ? '/' : u;
}

static Name random_name(uint8_t *room, bool key)
{
    bool narrow = dice() % 2;
    size_t count = dice() % MOST + (key ? 1 : 0);
    for (size_t i = 0; i < count; i++) {
        uint16_t u = random_unit(narrow, key);
        room[narrow ? i : 2 * i] = (uint8_t)u;
        if (!narrow)
            room[2 * i + 1] = (uint8_t)(u >> 8);
    }
    return (Name){room, narrow ? count : 2 * count, narrow};
}

static size_t add_units(Name name, uint16_t *to, size_t n)
{
    for (size_t i = 0; i < unit_count(name); i++)
        to[n++] = (uint16_t)unit_at(name, i);
    return n;
}

static bool is_shown(const char *text)
{
    while (*text != 0) {
        long c = decode(&text);
        if (c < 0 || is_hidden((uint32_t)c))
            return false;
    }
    return true;
}

static bool reads_back(const char *text, Units got, const uint16_t *want, size_t count)
{
    bool same = got.length == count && memcmp(got.at, want, 2 * count) == 0 && is_shown(text);
    if (!same)
        printf("notation.c: %s is another name\n", text);
    free(got.at);
    return same;
}

static bool value_round(void)
{
    uint8_t room[2 * MOST + 2];
    uint16_t want[MOST + 1];
    char *text;
    size_t length;
    Units got;
    FILE *to = open_memstream(&text, &length);
    Name name = random_name(room, false);
    size_t count = add_units(name, want, 0);
    put_name(to, name, VALUE_NAME);
    fclose(to);
    bool good = strlen(text) == length && name_units(text, &got) == GOOD && reads_back(text, got, want, count);
    free(text);
    return good;
}

/* A path of some keys, as it would be put together from what ls prints. */
static bool path_round(void)
{
    uint8_t room[2 * MOST + 2];
    uint16_t want[4 * (MOST + 2)];
    char *text;
    size_t length, count = 0, parts = 1 + dice() % 3;
    Path got;
    FILE *to = open_memstream(&text, &length);
    if (dice() % 2)
        fputc('\\', to);
    for (size_t i = 0; i < parts; i++) {
        Name name = random_name(room, true);
        if (i > 0) {
            fputc('\\', to);
            want[count++] = '\\';
        }
        put_name(to, name, KEY_NAME);
        count = add_units(name, want, count);
    }
    fclose(to);
    bool good = strlen(text) == length && path_units(text, &got) == GOOD && reads_back(text, got.units, want, count);
    free(text);
    return good;
}

int main(void)
{
    for (int i = 0; i < ROUNDS; i++)
        if (!value_round() || !path_round())
            return 1;
    printf("%d names and paths read back\n", 2 * ROUNDS);
    return 0;
}
