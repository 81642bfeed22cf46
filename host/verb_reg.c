/* The tree as the text that Windows Registry Editor 5.00 writes, made of the frames of an export. */
#include <unistd.h>

#include "host.h"

enum { SZ = 1, BINARY = 3, DWORD = 4 };
enum { LINE_MOST = 77 }; /* characters before a continuation */

/* WIDE: UTF-16LE with its mark, as regedit writes it. PLAIN: UTF-8. SHOWN: that, with what is hidden as codes. */
enum Form { WIDE, PLAIN, SHOWN };

/* column: how many characters, counted as units, the line has. bytes: how many were written, and how many may be. in_key: the empty line behind a key is still to come. */
static struct {
    FILE *to;
    const char *file;
    Name prefix;
    enum Form form;
    size_t column;
    uint64_t bytes, bound;
    bool in_key, left_out, untold, replaced;
} text;

/* The level of the key that is left out with all below it, else 0. */
static size_t unsaid;

static void put_unit(uint32_t unit)
{
    fputc((int)(unit & 0xff), text.to);
    fputc((int)(unit >> 8), text.to);
    text.bytes += 2;
}

static void put_wide(uint32_t c)
{
    if (c >= 0x10000)
        put_unit(0xd800 + ((c - 0x10000) >> 10));
    put_unit(c >= 0x10000 ? 0xdc00 + ((c - 0x10000) & 0x3ff) : c);
}

static void put_narrow(uint32_t c)
{
    put_utf8(text.to, c);
    text.bytes += c < 0x80 ? 1 : c < 0x800 ? 2 : c < 0x10000 ? 3 : 4;
}

/* The escapes of a terminal are those of `ls`: in a key's name they have two backslashes. */
static void put_code(uint32_t c, enum Style style)
{
    text.column += c >= 0x10000 ? 2 : 1;
    if (text.form == WIDE)
        put_wide(c);
    else if (c >= 0xd800 && c < 0xe000) {
        text.replaced = true;
        put_narrow(0xfffd);
    } else if (text.form == SHOWN && is_hidden(c)) {
        fputs(style == KEY_NAME ? "\\" : "", text.to);
        put_escape(text.to, c);
        text.bytes += (style == KEY_NAME) + (c < 0x100 ? 4 : 6);
    } else
        put_narrow(c);
}

static void put_text(const char *words)
{
    while (*words != 0)
        put_code((uint8_t)*words++, VALUE_NAME);
}

static void end_line(void)
{
    if (text.form == WIDE)
        put_unit('\r');
    if (text.form == WIDE)
        put_unit('\n');
    else
        put_narrow('\n');
    text.column = 0;
}

static void put_quoted(Name name)
{
    put_text("\"");
    for (size_t i = 0; i < unit_count(name);) {
        uint32_t c = next_code(name, &i);
        if (c == '"' || c == '\\')
            put_text("\\");
        put_code(c, VALUE_NAME);
    }
    put_text("\"");
}

/* Whether a name, or a text, can stand on a line. */
static bool fits_line(Name name)
{
    for (size_t i = 0; i < unit_count(name); i++)
        if (unit_at(name, i) == 0 || unit_at(name, i) == '\n' || unit_at(name, i) == '\r')
            return false;
    return true;
}

/* Exactly one string with its end: nothing of it is lost as text. */
static bool is_one_string(Bytes data)
{
    size_t n = data.length;
    return n >= 2 && n % 2 == 0 && data.at[n - 2] == 0 && data.at[n - 1] == 0 && fits_line((Name){data.at, n - 2, false});
}

/* The first stands on its line whatever is before it; another where it fits, with its comma if one follows. */
static void put_bytes(Bytes data)
{
    static const char digits[] = "0123456789abcdef";
    for (size_t i = 0; i < data.length; i++) {
        bool last = i + 1 == data.length;
        if (i > 0 && text.column + (last ? 2 : 3) > LINE_MOST) {
            put_text("\\");
            end_line();
            put_text("  ");
        }
        put_text((char[]){digits[data.at[i] >> 4], digits[data.at[i] & 15], last ? 0 : ',', 0});
    }
}

static void put_data(uint32_t kind, Bytes data)
{
    char head[20];
    if (kind == SZ && is_one_string(data)) {
        put_quoted((Name){data.at, data.length - 2, false});
        return;
    }
    if (kind == DWORD && data.length == 4) {
        snprintf(head, sizeof head, "dword:%08x", word_at(data.at));
        put_text(head);
        return;
    }
    snprintf(head, sizeof head, kind == BINARY ? "hex:" : "hex(%x):", kind);
    put_text(head);
    put_bytes(data);
}

static void put_key_name(Name name)
{
    for (size_t i = 0; i < unit_count(name);)
        put_code(next_code(name, &i), KEY_NAME);
}

static void put_key_line(void)
{
    put_text("[");
    put_key_name(text.prefix);
    for (size_t i = 0; i + 1 < open_keys.level; i++) {
        put_text("\\");
        put_key_name(open_keys.names[i]);
    }
    put_text("]");
    end_line();
    text.in_key = true;
}

static void end_key(void)
{
    if (text.in_key)
        end_line();
    text.in_key = false;
}

/* The open key, or a value of it, is told by its path on standard error. */
static void leave_out(const Name *value)
{
    FILE *to = words_begin();
    text.left_out = true;
    if (to == NULL) {
        text.untold = trouble(text.file, "no memory to say what is left out") == TROUBLE;
        return;
    }
    if (value != NULL) {
        fputs("the value ", to);
        put_name(to, *value, VALUE_NAME);
        fputs(" of ", to);
    }
    fputs("the key \\", to);
    put_path(to, open_keys.names, open_keys.level - 1);
    fputs(value != NULL ? " is left out: no line can hold its name" : " is left out, with all below it: no line can hold its name", to);
    note(text.file, words_end(to));
}

/* A key opens. The first that does is the root, whose own name is not shown. */
static void enter(Name name)
{
    enter_key(name);
    if (open_keys.level > 1 && unsaid == 0 && !fits_line(name)) {
        unsaid = open_keys.level;
        leave_out(NULL);
    }
}

static void leave(void)
{
    if (unsaid == open_keys.level)
        unsaid = 0;
    leave_key();
}

static void put_value(uint8_t *payload, size_t length)
{
    size_t n = word_at(payload + 4);
    Name name = {payload + 8, n, false};
    if (!fits_line(name)) {
        leave_out(&name);
        return;
    }
    if (n == 0)
        put_text("@");
    else
        put_quoted(name);
    put_text("=");
    put_data(word_at(payload), (Bytes){payload + 8 + n, length - 8 - n});
    end_line();
}

static void put_key_frame(uint32_t kind, uint8_t *payload, size_t length)
{
    end_key();
    if (kind != FRAME_KEY) {
        leave();
        return;
    }
    enter((Name){payload + 8, length - 8, false});
    if (unsaid == 0)
        put_key_line();
}

static int put_frame(const Hive *h, uint32_t kind, uint8_t *payload, size_t length)
{
    if (kind != FRAME_VALUE)
        put_key_frame(kind, payload, length);
    else if (unsaid == 0)
        put_value(payload, length);
    return text.bytes > text.bound ? past_bound(h, text.bound) : GOOD;
}

static int put_frames(Export *x)
{
    int status = each_frame(x, text.to, put_frame);
    if (fflush(text.to) != 0 || ferror(text.to))
        return trouble("standard output", "it cannot be written");
    return status;
}

static int put_all(Export *x)
{
    if (text.form == WIDE)
        put_unit(0xfeff);
    put_text("Windows Registry Editor Version 5.00");
    end_line();
    end_line();
    if (text.form != SHOWN)
        work_starts("writing text, frames", 0);
    int status = put_frames(x);
    work_ends();
    if (status == GOOD && text.replaced)
        note(text.file, "halves of pairs, which UTF-8 cannot hold, are written as U+FFFD");
    if (status == GOOD && text.untold)
        return TROUBLE;
    return status == GOOD && (text.left_out || text.replaced) ? UNSAID : status;
}

/* A key's path, as PATH can be given: no part of it is empty, and it can stand in a line that does not begin with [-, which deletes a key. */
static int take_prefix(const char *word)
{
    Path p;
    int status = path_units(word, &p);
    if (status != GOOD)
        return status;
    Units u = p.units;
    text.prefix = (Name){(const uint8_t *)u.at, 2 * u.length, false};
    bool good = u.length > 0 && u.at[0] != '-' && u.at[u.length - 1] != '\\' && fits_line(text.prefix);
    for (size_t i = 0; good && i + 1 < u.length; i++)
        good = u.at[i] != '\\' || (i > 0 && u.at[i + 1] != '\\');
    return good ? GOOD : misused("--prefix wants the path of a key, as HKEY_LOCAL_MACHINE\\Offline, not \"%s\"", word);
}

int reg_verb(const Order *o)
{
    Hive h;
    Path path;
    Export x;
    int status = take_prefix(o->prefix != NULL ? o->prefix : "HKEY_LOCAL_MACHINE\\Offline");
    if (status == GOOD)
        status = path_units(o->count == 2 ? o->words[1] : "", &path);
    if (status != GOOD)
        return status;
    text.file = o->words[0];
    text.form = isatty(1) ? SHOWN : o->utf8 ? PLAIN : WIDE;
    if ((text.to = own_output()) == NULL)
        return trouble("standard output", "it cannot be written");
    status = read_hive(o, o->words[0], &h);
    if (status == GOOD)
        status = export_begin(&h, &x);
    if (status == GOOD)
        status = go_below(&x, &path, enter);
    text.bound = bound_of(o, &h);
    return status == GOOD ? put_all(&x) : status;
}
