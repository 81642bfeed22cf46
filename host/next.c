/* What to type next: the command that was given, changed as a refusal asks for it, quoted for the shell. No line where a name has hidden characters: it could not be
 * typed as it is shown. The line lies in memory that is there from the start, as the words of a refusal do. */
#include <string.h>

#include "host.h"

/* Two lines may be told together, so there are two rooms. */
static const Order *given;
static char rooms[2][1 << 16], *room = rooms[0];
static size_t used;
static bool whole;

void order_is(const Order *o)
{
    given = o;
}

static void add(const char *text)
{
    size_t n = strlen(text);
    if (used + n >= sizeof rooms[0])
        whole = false;
    if (!whole)
        return;
    memcpy(room + used, text, n + 1);
    used += n;
}

/* A line in the other room. */
static void begin(const char *text)
{
    room = room == rooms[0] ? rooms[1] : rooms[0];
    used = 0;
    whole = true;
    add(text);
}

/* Whether each character can be typed as it is shown. */
static bool is_plain(const char *text)
{
    while (*text != 0) {
        long c = decode(&text);
        if (c < 0 || is_hidden((uint32_t)c))
            return false;
    }
    return true;
}

static bool needs_quotes(const char *text)
{
    static const char BARE[] = "abcdefghijklmnopqrstuvwxyzABCDEFGHIJKLMNOPQRSTUVWXYZ0123456789_./:@%+,=-";
    return *text == 0 || text[strspn(text, BARE)] != 0;
}

/* A word behind a blank. Within quotes a quote is '\''. */
static void add_word(const char *word)
{
    whole = whole && is_plain(word);
    add(" ");
    if (!needs_quotes(word)) {
        add(word);
        return;
    }
    add("'");
    for (; *word != 0; word++) {
        char one[2] = {*word, 0};
        add(*word == '\'' ? "'\\''" : one);
    }
    add("'");
}

static void add_if(bool there, const char *option)
{
    if (there)
        add_word(option);
}

static void add_with(const char *option, const char *word)
{
    if (word == NULL)
        return;
    add_word(option);
    add_word(word);
}

/* A word that starts with a minus is none of the options. */
static bool is_option_like(const char *word)
{
    return word[0] == '-' && word[1] != 0;
}

static void add_words(const char *file, bool all, const Line *l)
{
    bool dashes = is_option_like(file);
    for (int i = 1; all && i < given->count; i++)
        dashes = dashes || is_option_like(given->words[i]);
    for (int i = 0; l->repair && i < l->count; i++)
        dashes = dashes || is_option_like(l->logs[i]);
    add_if(dashes, "--");
    add_word(file);
    for (int i = 1; all && i < given->count; i++)
        add_word(given->words[i]);
    for (int i = 0; l->repair && i < l->count; i++)
        add_word(l->logs[i]);
}

/* The options of the command that stay, where it is the same verb. */
static void add_options(const Line *l)
{
    char number[24];
    snprintf(number, sizeof number, "%zu", given->nth);
    add_if(given->json, "--json");
    add_if(given->wide, "-l");
    add_with("--nth", given->nth > 0 ? number : NULL);
    add_if(given->dry, "--dry-run");
    add_if(given->anyway, "--anyway");
    add_if(given->utf8, "--utf8");
    add_if(given->any_length, "--any-length");
    add_with("--prefix", given->prefix);
    add_with("--backup", l->no_backup ? NULL : given->backup);
    add_if(l->no_backup || given->no_backup, "--no-backup");
}

const char *line_to_type(const char *file, const Line *l)
{
    bool same = given != NULL && (strcmp(given->verb, "repair") == 0) == l->repair;
    begin("hive");
    whole = given != NULL;
    add_word(l->repair ? "repair" : given != NULL ? given->verb : "check");
    if (same)
        add_options(l);
    add_if(l->grow || (same && given->grow && !l->as_is), "--grow");
    add_if(l->as_is, "--as-is");
    add_if(l->only, "--only-this-log");
    add_if(l->beside, "--logs");
    for (int i = 0; !l->repair && i < l->count; i++)
        add_with("--log", l->logs[i]);
    add_words(file, same && (!l->repair || l->again) && strcmp(given->verb, "check") != 0, l);
    return whole ? room : NULL;
}

/* The command as it was given, with the same logs, but for what the line says. */
const char *line_again(const char *file, Line *l)
{
    if (given == NULL)
        return NULL;
    l->again = true;
    for (int i = 0; i < given->log_count; i++)
        l->logs[l->count++] = given->logs[i];
    l->only = given->only_this_log;
    l->beside = given->beside;
    return line_to_type(file, l);
}

/* The copy in the place of the file. */
static const char *line_back(const char *copy, const char *file)
{
    begin("cp --");
    add_word(copy);
    add_word(file);
    return whole ? room : NULL;
}

bool order_repairs(void)
{
    return given != NULL && strcmp(given->verb, "repair") == 0;
}

/* The line that does what was chosen of a named log and another. */
static Line line_for(const char *named, const char *other, const Choice *c)
{
    Line l = {.repair = order_repairs(), .grow = c->wanted > 0, .logs = {named, NULL}, .count = 1, .only = c->chosen == CHOSE_NONE};
    if (c->chosen == CHOSE_SECOND)
        l.logs[0] = other;
    if (c->chosen == CHOSE_FIRST_SECOND || c->chosen == CHOSE_SECOND_FIRST) {
        l.logs[0] = c->chosen == CHOSE_FIRST_SECOND ? named : other;
        l.logs[1] = c->chosen == CHOSE_FIRST_SECOND ? other : named;
        l.count = 2;
    }
    return l;
}

static void put_left_out(FILE *to, const char *other, const Choice *c)
{
    put_argument(to, other);
    if (c->chosen == CHOSE_SECOND)
        fputs(" lies beside it, fits the hive too, and is the later of the two", to);
    else if (c->chosen != CHOSE_NONE)
        fputs(" lies beside it, and the two follow each other: one alone would leave out for ever what the other holds", to);
    else
        fprintf(to, " lies beside it and follows it, but the two do not fit the hive together (refused %u; see: hive explain %u): this log alone may leave out what belongs to it",
                c->answer.number, c->answer.number);
    fputs(". Nothing was read or written", to);
}

int left_out(const Hive *h, const char *named, const char *other, const Choice *c)
{
    Line l = line_for(named, other, c);
    FILE *to = words_begin();
    if (to == NULL)
        return trouble(h->file, "no memory");
    put_left_out(to, other, c);
    const char *words = words_end(to), *line = line_to_type(h->file, &l);
    say(h->file, "left out");
    if (say_json()) {
        say_word("log", named);
        say_word("other", other);
        say_word("words", words);
        if (line != NULL)
            say_word("type", line);
    }
    say_end();
    if (!say_json()) {
        note(named, words);
        say_next(c->chosen == CHOSE_NONE ? "to take this log all the same, type" : "type", line);
    }
    return REFUSED;
}

/* One line on standard error, or none. */
void say_next(const char *what, const char *line)
{
    if (line == NULL)
        return;
    work_ends();
    fflush(stdout);
    fprintf(stderr, "hive: %s: %s\n", what, line);
}

/* Which copy is kept, and what comes next. */
void after_repair(const Hive *h, const char *kept)
{
    if (kept == NULL)
        note(h->file, "no copy was kept of what it was");
    else {
        work_ends();
        fputs("hive: ", stderr);
        put_argument(stderr, h->file);
        fputs(": what it was is kept in ", stderr);
        put_argument(stderr, kept);
        fputs("\n", stderr);
    }
    const char *line = kept == NULL ? NULL : line_back(kept, h->file);
    if (line == NULL)
        note(h->file, "next: put it where it belongs, and keep its logs until Windows has started with it");
    else
        say_next("next: put it where it belongs, and keep its logs and the copy until Windows has started with it; to undo the repair, type", line);
}
