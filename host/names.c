/* The notation of names, printed and read alike. A value's name: a backslash is doubled; what is hidden, and half of a pair, is \xNN or \uNNNN; the
 * unnamed value is @, and a value that is called @ is \x40. A key's name stands in paths, where a single backslash always separates: its escapes have
 * two, \\xNN and \\uNNNN. No key's name holds a backslash. */
#include <stdlib.h>
#include <string.h>

#include "host.h"

size_t unit_count(Name name)
{
    return name.narrow ? name.length : name.length / 2;
}

uint32_t unit_at(Name name, size_t i)
{
    return name.narrow ? name.at[i] : name.at[2 * i] + name.at[2 * i + 1] * 256u;
}

/* The code at unit *i, which moves past it. A pair is one code, and half of a pair comes alone. */
uint32_t next_code(Name name, size_t *i)
{
    uint32_t c = unit_at(name, (*i)++);
    if (c < 0xd800 || c >= 0xdc00 || *i == unit_count(name))
        return c;
    uint32_t low = unit_at(name, *i);
    if (low < 0xdc00 || low >= 0xe000)
        return c;
    (*i)++;
    return 0x10000 + ((c - 0xd800) << 10) + (low - 0xdc00);
}

/* Whether a stored name is the given one, by the library's order. It compares units, and a stored name may have a byte for each: but a
 * record says with 16 bits how many bytes its name has. */
bool is_called(Name stored, Units name)
{
    static uint16_t units[1 << 16];
    size_t count = unit_count(stored);
    for (size_t i = 0; i < count; i++)
        units[i] = (uint16_t)unit_at(stored, i);
    return hive_name_order(units, count, name.at, name.length) == HIVE_SAME;
}

Name units_name(Units u)
{
    return (Name){(const uint8_t *)u.at, 2 * u.length, false};
}

/* What gives a terminal orders, breaks a line, or changes how the text around it looks: so no file can. Halves of pairs are no characters. */
bool is_hidden(uint32_t c)
{
    return c < 0x20 || (c >= 0x7f && c < 0xa0) || c == 0x61c || c == 0x200e || c == 0x200f || (c >= 0x2028 && c <= 0x202e) || (c >= 0x2066 && c <= 0x2069) ||
           (c >= 0xd800 && c < 0xe000) || c == 0xfeff;
}

void put_utf8(FILE *to, uint32_t c)
{
    if (c < 0x80)
        fputc((int)c, to);
    else if (c < 0x800)
        fprintf(to, "%c%c", 0xc0 | c >> 6, 0x80 | (c & 0x3f));
    else if (c < 0x10000)
        fprintf(to, "%c%c%c", 0xe0 | c >> 12, 0x80 | (c >> 6 & 0x3f), 0x80 | (c & 0x3f));
    else
        fprintf(to, "%c%c%c%c", 0xf0 | c >> 18, 0x80 | (c >> 12 & 0x3f), 0x80 | (c >> 6 & 0x3f), 0x80 | (c & 0x3f));
}

void put_escape(FILE *to, uint32_t c)
{
    fprintf(to, c < 0x100 ? "\\x%02x" : "\\u%04x", c);
}

static void spell_escape(FILE *to, uint32_t c, Put *put)
{
    char text[8];
    snprintf(text, sizeof text, c < 0x100 ? "\\x%02x" : "\\u%04x", c);
    for (const char *at = text; *at != 0; at++)
        put(to, (uint8_t)*at);
}

/* Code by code: `put` writes each, as UTF-8 or as JSON has it. */
void spell_name(FILE *to, Name name, enum Style style, Put *put)
{
    size_t count = unit_count(name);
    if (style == VALUE_NAME && count == 0)
        put(to, '@');
    if (style == VALUE_NAME && count == 1 && unit_at(name, 0) == '@') {
        spell_escape(to, '@', put);
        return;
    }
    for (size_t i = 0; i < count;) {
        uint32_t c = next_code(name, &i);
        if ((style == KEY_NAME && is_hidden(c)) || (style == VALUE_NAME && c == '\\'))
            put(to, '\\');
        if (is_hidden(c))
            spell_escape(to, c, put);
        else
            put(to, c);
    }
}

/* The names of keys on the way down from the root, whose own is left out. */
void spell_path(FILE *to, const Name *way, size_t count, Put *put)
{
    for (size_t i = 0; i < count; i++) {
        if (i > 0)
            put(to, '\\');
        spell_name(to, way[i], KEY_NAME, put);
    }
}

void put_name(FILE *to, Name name, enum Style style)
{
    spell_name(to, name, style, put_utf8);
}

void put_path(FILE *to, const Name *way, size_t count)
{
    spell_path(to, way, count, put_utf8);
}

/* One character of UTF-8 at *text, which moves past it; -1, and no move, where it is none. */
long decode(const char **text)
{
    const uint8_t *s = (const uint8_t *)*text;
    int more = s[0] < 0x80 ? 0 : (s[0] & 0xe0) == 0xc0 ? 1 : (s[0] & 0xf0) == 0xe0 ? 2 : (s[0] & 0xf8) == 0xf0 ? 3 : -1;
    static const long least[] = {0, 0x80, 0x800, 0x10000};
    if (more < 0)
        return -1;
    long c = more == 0 ? s[0] : s[0] & (0x3f >> more);
    for (int i = 1; i <= more; i++) {
        if ((s[i] & 0xc0) != 0x80)
            return -1;
        c = c * 64 + (s[i] & 0x3f);
    }
    if (c < least[more] || c > 0x10ffff || (c >= 0xd800 && c < 0xe000))
        return -1;
    *text += more + 1;
    return c;
}

/* A word of the command line, or the name of a file, in a message. */
void put_argument(FILE *to, const char *text)
{
    while (*text != 0) {
        long c = decode(&text);
        if (c < 0)
            put_escape(to, (uint8_t)*text++);
        else if (is_hidden((uint32_t)c))
            put_escape(to, (uint32_t)c);
        else
            put_utf8(to, (uint32_t)c);
    }
}

/* xNN or uNNNN: its unit and length, or length 0 where it is neither. */
static size_t escape_at(const char *text, uint16_t *unit)
{
    size_t digits = *text == 'x' ? 2 : *text == 'u' ? 4 : 0;
    unsigned n = 0;
    for (size_t i = 1; i <= digits; i++) {
        char c = text[i];
        int d = c >= '0' && c <= '9' ? c - '0' : (c | 32) >= 'a' && (c | 32) <= 'f' ? (c | 32) - 'a' + 10 : -1;
        if (d < 0)
            return 0;
        n = n * 16 + (unsigned)d;
    }
    *unit = (uint16_t)n;
    return digits == 0 ? 0 : digits + 1;
}

static int room_for(const char *text, Units *out)
{
    out->length = 0;
    out->at = malloc((strlen(text) + 1) * sizeof *out->at);
    return out->at == NULL ? trouble(NULL, "no memory") : GOOD;
}

static int take_character(const char **text, Units *out)
{
    long c = decode(text);
    if (c < 0)
        return misused("this is not UTF-8: %s", *text);
    if (c >= 0x10000) {
        out->at[out->length++] = (uint16_t)(0xd800 + ((c - 0x10000) >> 10));
        out->at[out->length++] = (uint16_t)(0xdc00 + ((c - 0x10000) & 0x3ff));
    } else
        out->at[out->length++] = (uint16_t)c;
    return GOOD;
}

/* Of a run of backslashes before xNN or uNNNN the last two belong to it. The others separate, a doubled one as a single one; at the start one is left out. */
int path_units(const char *text, Path *out)
{
    Units *u = &out->units;
    out->text = text;
    out->value = (Units){NULL, 0};
    int status = room_for(text, u);
    for (const char *start = text; status == GOOD && *text != 0;) {
        size_t run = strspn(text, "\\");
        uint16_t unit = 0;
        size_t n = run >= 2 ? escape_at(text + run, &unit) : 0;
        if (n > 0 && unit == '\\')
            return misused("no key's name holds a backslash: %s", text);
        for (size_t k = ((n > 0 ? run - 2 : run) + 1) / 2; k > (text == start); k--)
            u->at[u->length++] = '\\';
        text += run + n;
        if (n > 0)
            u->at[u->length++] = unit;
        else if (*text != 0)
            status = take_character(&text, u);
    }
    return status;
}

int name_units(const char *text, Units *out)
{
    int status = room_for(text, out);
    if (strcmp(text, "@") == 0)
        return status;
    while (status == GOOD && *text != 0) {
        uint16_t unit = '\\';
        size_t n = *text != '\\' ? 0 : text[1] == '\\' ? 1 : escape_at(text + 1, &unit);
        if (*text == '\\' && n == 0)
            return misused("a backslash in a value's name is doubled, or begins \\xNN or \\uNNNN: %s", text);
        if (n > 0)
            out->at[out->length++] = unit;
        else
            status = take_character(&text, out);
        text += n > 0 ? n + 1 : 0;
    }
    return status;
}
