/* Answers on standard output, each one line: words, or a JSON object. Messages on standard error. */
#include <stdarg.h>
#include <stdio_ext.h>
#include <string.h>

#include "host.h"

/* replaced: something that no JSON string can hold stands in this object as U+FFFD. */
static struct {
    bool json, many, replaced, as_is, much;
    Name read_as; /* at is NULL where there is none */
    uint64_t bytes, kept;
} shape;

/* Where much is said lines lie in the buffer until they are so many bytes; `kept` is how many lie there. With room for any one line: 1 MiB of data, in hexadecimal and
 * as strings, where two bytes may take six; 512 names of 255 characters, twice, where one may have 16. */
enum { KEPT_MOST = 1 << 16, LINE_ROOM = 1 << 23 };

void say_as(bool json, bool many)
{
    shape.json = json;
    shape.many = many;
}

void say_as_is(bool as_is)
{
    shape.as_is = as_is;
}

void say_read_as(Name path)
{
    shape.read_as = path;
}

bool say_json(void)
{
    return shape.json;
}

static void put_json_code(FILE *to, uint32_t c)
{
    if (c == '"' || c == '\\')
        fprintf(to, "\\%c", (int)c);
    else if (c >= 0xd800 && c < 0xe000) {
        shape.replaced = true;
        put_utf8(to, 0xfffd);
    } else if (is_hidden(c))
        fprintf(to, "\\u%04x", c);
    else
        put_utf8(to, c);
}

static void put_json_units(FILE *to, Name name)
{
    for (size_t i = 0; i < unit_count(name);)
        put_json_code(to, next_code(name, &i));
}

void put_json_name(FILE *to, Name name)
{
    fputc('"', to);
    put_json_units(to, name);
    fputc('"', to);
}

/* Bytes that are no UTF-8, in the name of a file, count as halves of pairs do. */
static void put_json_text(FILE *to, const char *text)
{
    fputc('"', to);
    while (*text != 0) {
        long c = decode(&text);
        put_json_code(to, c < 0 ? 0xd800 : (uint32_t)c);
        text += c < 0;
    }
    fputc('"', to);
}

void say(const char *file, const char *answer)
{
    if (shape.json) {
        shape.replaced = false;
        fputs("{\"file\":", stdout);
        if (file != NULL)
            put_json_text(stdout, file);
        else
            fputs("null", stdout);
        printf(",\"answer\":\"%s\"", answer);
        return;
    }
    if (shape.many) {
        put_argument(stdout, file);
        fputs(": ", stdout);
    }
    fputs(answer, stdout);
}

void say_number(const char *label, uint64_t n)
{
    printf(shape.json ? ",\"%s\":%llu" : " %s %llu", label, (unsigned long long)n);
}

void say_bare(const char *label, uint64_t n)
{
    if (shape.json)
        say_number(label, n);
    else
        printf(" %llu", (unsigned long long)n);
}

/* For programs alone. */
void say_only(const char *label, uint64_t n)
{
    if (shape.json)
        say_number(label, n);
}

void say_word(const char *label, const char *word)
{
    if (!shape.json) {
        printf(" %s", word);
        return;
    }
    printf(",\"%s\":", label);
    put_json_text(stdout, word);
}

/* A name, or a key's path, as the tool reads it, which loses nothing. */
static void say_notation(const char *label, const Name *way, size_t count, enum Style style)
{
    printf(",\"%s\":\"", label);
    if (style == KEY_NAME)
        spell_path(stdout, way, count, put_json_code);
    else
        spell_name(stdout, way[0], style, put_json_code);
    fputc('"', stdout);
}

void say_name(Name name, enum Style style)
{
    if (!shape.json) {
        putchar(' ');
        put_name(stdout, name, style);
        return;
    }
    fputs(",\"name\":", stdout);
    put_json_name(stdout, name);
    if (shape.replaced)
        say_notation("notation", &name, 1, style);
}

/* A key's path: the names on the way, which alone stand on a line. */
void say_path(const Name *way, size_t count)
{
    if (!shape.json) {
        put_path(stdout, way, count);
        return;
    }
    fputs(",\"path\":\"", stdout);
    for (size_t i = 0; i < count; i++) {
        fputs(i == 0 ? "" : "\\\\", stdout);
        put_json_units(stdout, way[i]);
    }
    fputc('"', stdout);
    if (shape.replaced)
        say_notation("notation", way, count, KEY_NAME);
}

/* In an object that has its key's path, whose notation stands there already. */
void say_value_name(Name name)
{
    bool before = shape.replaced;
    shape.replaced = false;
    fputs(",\"name\":", stdout);
    put_json_name(stdout, name);
    if (shape.replaced)
        say_notation("name_notation", &name, 1, VALUE_NAME);
    shape.replaced |= before;
}

static void let_go(void)
{
    fflush(stdout);
    shape.kept = 0;
}

void say_much(void)
{
    static char line[LINE_ROOM];
    setvbuf(stdout, line, _IOFBF, sizeof line);
    shape.much = true;
}

/* As PATH can be given. */
static void say_reading(void)
{
    fputs(",\"read_as\":\"", stdout);
    spell_name(stdout, shape.read_as, KEY_NAME, put_json_code);
    fputc('"', stdout);
}

void say_end(void)
{
    if (shape.json && shape.read_as.at != NULL)
        say_reading();
    if (shape.json && shape.as_is)
        fputs(",\"as_is\":true", stdout);
    if (shape.json)
        fputs(shape.replaced ? ",\"replaced\":true}" : "}", stdout);
    putchar('\n');
    uint64_t lie = __fpending(stdout);
    shape.bytes += lie - shape.kept;
    shape.kept = lie;
    if (!shape.much || lie > KEPT_MOST)
        let_go();
}

/* How many bytes the lines have that were said: exact where standard output has a buffer that holds each of them whole. */
uint64_t said_bytes(void)
{
    return shape.bytes;
}

void note(const char *file, const char *words)
{
    work_ends();
    let_go();
    fputs("hive: ", stderr);
    if (file != NULL) {
        put_argument(stderr, file);
        fputs(": ", stderr);
    }
    put_argument(stderr, words);
    fputs("\n", stderr);
}

int trouble(const char *file, const char *format, ...)
{
    char words[600];
    va_list list;
    va_start(list, format);
    vsnprintf(words, sizeof words, format, list);
    va_end(list);
    note(file, words);
    if (shape.json) {
        say(file, "trouble");
        say_word("words", words);
        say_end();
    }
    return TROUBLE;
}

int misused(const char *format, ...)
{
    char words[600];
    va_list list;
    va_start(list, format);
    vsnprintf(words, sizeof words - 20, format, list);
    va_end(list);
    strcat(words, "; see: hive --help");
    note(NULL, words);
    if (shape.json) {
        say(NULL, "usage");
        say_word("words", words);
        say_end();
    }
    return TROUBLE;
}
