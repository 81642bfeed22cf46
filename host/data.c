/* A value's type and data, as words or in a JSON object. */
#include <unistd.h>

#include "host.h"

enum { SZ = 1, EXPAND_SZ = 2, DWORD = 4, DWORD_BIG_ENDIAN = 5, LINK = 6, MULTI_SZ = 7, QWORD = 11 };

/* The registry's names of the types. */
static const char *const KINDS[] = {
    "REG_NONE", "REG_SZ", "REG_EXPAND_SZ", "REG_BINARY", "REG_DWORD", "REG_DWORD_BIG_ENDIAN",
    "REG_LINK", "REG_MULTI_SZ", "REG_RESOURCE_LIST", "REG_FULL_RESOURCE_DESCRIPTOR", "REG_RESOURCE_REQUIREMENTS_LIST", "REG_QWORD",
};

/* Others are shown as their number, for which there is room of 16 bytes. */
const char *kind_name(uint32_t kind, char *room)
{
    if (kind < sizeof KINDS / sizeof KINDS[0])
        return KINDS[kind];
    snprintf(room, 16, "0x%x", kind);
    return room;
}

static bool is_text(uint32_t kind, Bytes data)
{
    return kind == MULTI_SZ || (data.length % 2 == 0 && (kind == SZ || kind == EXPAND_SZ || kind == LINK));
}

static Name piece(Bytes data, size_t from, size_t to)
{
    return (Name){data.at + 2 * from, 2 * (to - from), false};
}

/* The strings in data of a text type. Of several each ends with a unit 0, and one more unit 0 ends the list: it is no string. */
static void each_string(uint32_t kind, Bytes data, void (*show)(Name, size_t))
{
    size_t end = data.length / 2, n = 0;
    Name all = piece(data, 0, end);
    if (kind != MULTI_SZ) {
        while (end > 0 && unit_at(all, end - 1) == 0)
            end--;
        show(piece(data, 0, end), 0);
        return;
    }
    if (end > 0 && unit_at(all, end - 1) == 0 && (end == 1 || unit_at(all, end - 2) == 0))
        end--;
    for (size_t i = 0, stop; i < end; i = stop + 1) {
        for (stop = i; stop < end && unit_at(all, stop) != 0;)
            stop++;
        show(piece(data, i, stop), n++);
    }
}

void put_hex(FILE *to, Bytes data)
{
    static const char digits[] = "0123456789abcdef";
    for (size_t i = 0; i < data.length; i++) {
        fputc(digits[data.at[i] >> 4], to);
        fputc(digits[data.at[i] & 15], to);
    }
}

static void print_hex(Bytes data)
{
    for (size_t i = 0; i < data.length; i += 32) {
        put_hex(stdout, (Bytes){data.at + i, data.length - i < 32 ? data.length - i : 32});
        putchar('\n');
    }
}

/* Raw into a file or a pipe. On a terminal what is hidden is shown as its code: a file cannot give a terminal orders. Half of a pair is never UTF-8. */
static void print_string(Name text, size_t n)
{
    (void)n;
    bool terminal = isatty(1);
    for (size_t i = 0; i < unit_count(text);) {
        uint32_t c = next_code(text, &i);
        if (c >= 0xd800 && c < 0xe000 ? true : terminal && is_hidden(c))
            put_escape(stdout, c);
        else
            put_utf8(stdout, c);
    }
    putchar('\n');
}

/* Little-endian, or big-endian, where its type is a number's and its length that of the type. */
bool is_number(uint32_t kind, Bytes data, uint64_t *out)
{
    *out = 0;
    for (size_t i = 0; i < data.length && i < 8; i++)
        *out = *out * 256 + data.at[kind == DWORD_BIG_ENDIAN ? i : data.length - 1 - i];
    return (data.length == 4 && (kind == DWORD || kind == DWORD_BIG_ENDIAN)) || (data.length == 8 && kind == QWORD);
}

static void print_number(uint64_t n)
{
    printf("%llu (0x%llx)", (unsigned long long)n, (unsigned long long)n);
}

void print_data(const char *file, uint32_t kind, Bytes data)
{
    uint64_t n;
    if (is_text(kind, data)) {
        each_string(kind, data, print_string);
        if (data.length % 2 != 0) {
            print_hex((Bytes){data.at + data.length - 1, 1});
            note(file, "the last byte of the data is no part of a string and is shown in hexadecimal");
        }
    } else if (is_number(kind, data, &n)) {
        print_number(n);
        putchar('\n');
    } else
        print_hex(data);
}

static void put_code(FILE *to, uint32_t c)
{
    if (c == '\\')
        fputc('\\', to);
    if (is_hidden(c))
        put_escape(to, c);
    else
        put_utf8(to, c);
}

/* A tab stands in no string: there it is a code. So it ends the one before it. */
static void put_string(Name text, size_t n)
{
    fputs(n > 0 ? "\t\"" : "\"", stdout);
    for (size_t i = 0; i < unit_count(text);)
        put_code(stdout, next_code(text, &i));
    putchar('"');
}

/* On one line: text in quotes, as a value's name is written; of an odd length, which is no text, in hexadecimal. */
void put_line_data(uint32_t kind, Bytes data)
{
    uint64_t n;
    if (is_text(kind, data) && data.length % 2 == 0)
        each_string(kind, data, put_string);
    else if (is_number(kind, data, &n))
        print_number(n);
    else
        put_hex(stdout, data);
}

static void say_string(Name text, size_t n)
{
    if (n > 0)
        putchar(',');
    put_json_name(stdout, text);
}

/* All bytes in hexadecimal, and the strings if it is text. */
void say_data(uint32_t kind, Bytes data)
{
    fputs(",\"hex\":\"", stdout);
    put_hex(stdout, data);
    putchar('"');
    if (!is_text(kind, data))
        return;
    fputs(",\"strings\":[", stdout);
    each_string(kind, data, say_string);
    putchar(']');
}
