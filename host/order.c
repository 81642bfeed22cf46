/* The command line. */
#include <errno.h>
#include <stdlib.h>
#include <string.h>

#include "host.h"

enum { LOG = 1, JSON = 2, WIDE = 4, NTH = 8, DRY_RUN = 16, BACKUP = 32, ANYWAY = 64, GROW = 128, PREFIX = 256, UTF8 = 512, DESCRIPTOR = 1024, ANY_LENGTH = 2048, BESIDE = 4096, ONLY = 8192, NO_BACKUP = 16384,
       AS_IS = 32768, READS = LOG | BESIDE | ONLY | GROW | AS_IS, NO_END = 1 << 30 };

static const struct {
    const char *name, *wants;
    int least, most;
    unsigned options;
    Verb *go;
} VERBS[] = {
    {"check", "FILE..", 1, NO_END, READS | JSON, check_verb},
    {"info", "FILE..", 1, NO_END, JSON, info_verb},
    {"key", "FILE PATH", 2, 2, READS | JSON | WIDE, key_verb},
    {"ls", "FILE [PATH]", 1, 2, READS | JSON | WIDE, list_verb},
    {"keys", "FILE [PATH]", 1, 2, READS | JSON | ANY_LENGTH, keys_verb},
    {"value", "FILE PATH NAME [OUT]", 3, 4, READS | JSON | NTH, value_verb},
    {"descriptor", "FILE PATH [OUT]", 2, 3, READS | JSON, descriptor_verb},
    {"export", "FILE [OUT]", 1, 2, READS | JSON | ANY_LENGTH, export_verb},
    {"build", "FRAMES OUT", 2, 2, DESCRIPTOR | JSON, build_verb},
    {"reg", "FILE [PATH]", 1, 2, READS | PREFIX | UTF8 | ANY_LENGTH, reg_verb},
    {"dump", "FILE [PATH]", 1, 2, READS | JSON | ANY_LENGTH, dump_verb},
    {"deleted", "FILE", 1, 1, READS | JSON, deleted_verb},
    {"repair", "FILE [LOG [LOG2]]", 1, NO_END, ONLY | GROW | JSON | DRY_RUN | BACKUP | NO_BACKUP | ANYWAY, repair_verb},
    {"explain", "N", 1, 1, 0, explain_verb},
};
enum { VERB_COUNT = sizeof VERBS / sizeof VERBS[0] };

/* follows: what the word behind the option is, or NULL where none is wanted. */
static const struct {
    const char *name, *follows;
    unsigned bit;
} OPTIONS[] = {
    {"--log", "a LOG", LOG}, {"--json", NULL, JSON}, {"-l", NULL, WIDE}, {"--nth", "a number", NTH},
    {"--dry-run", NULL, DRY_RUN}, {"--backup", "a COPY", BACKUP}, {"--anyway", NULL, ANYWAY}, {"--grow", NULL, GROW},
    {"--prefix", "a KEY", PREFIX}, {"--utf8", NULL, UTF8}, {"--descriptor", "a FILE", DESCRIPTOR}, {"--any-length", NULL, ANY_LENGTH},
    {"--logs", NULL, BESIDE}, {"--only-this-log", NULL, ONLY}, {"--no-backup", NULL, NO_BACKUP}, {"--as-is", NULL, AS_IS},
};
enum { OPTION_COUNT = sizeof OPTIONS / sizeof OPTIONS[0] };

static int take_number(const char *text, size_t *out)
{
    char *end;
    errno = 0;
    long n = strtol(text, &end, 10);
    if (*text == 0 || *end != 0 || n < 1 || errno != 0)
        return misused("--nth wants a number from 1 on, not \"%s\"", text);
    *out = (size_t)n;
    return GOOD;
}

static int take_log(const char *word, Order *o)
{
    if (o->log_count == 2)
        return misused("--log may stand twice, and \"%s\" is the third", word);
    o->logs[o->log_count++] = word;
    return GOOD;
}

static int take(Order *o, unsigned bit, const char *word)
{
    o->json |= bit == JSON;
    o->wide |= bit == WIDE;
    o->dry |= bit == DRY_RUN;
    o->anyway |= bit == ANYWAY;
    o->grow |= bit == GROW;
    o->utf8 |= bit == UTF8;
    o->any_length |= bit == ANY_LENGTH;
    o->beside |= bit == BESIDE;
    o->only_this_log |= bit == ONLY;
    o->no_backup |= bit == NO_BACKUP;
    o->as_is |= bit == AS_IS;
    if (bit == BACKUP)
        o->backup = word;
    if (bit == PREFIX)
        o->prefix = word;
    if (bit == DESCRIPTOR)
        o->descriptor = word;
    return bit == NTH ? take_number(word, &o->nth) : bit == LOG ? take_log(word, o) : GOOD;
}

/* The option words[*i], of a verb that takes those in `options`. */
static int read_option(const char *verb, unsigned options, int count, char **words, int *i, Order *o)
{
    const char *word = words[*i];
    for (int k = 0; k < OPTION_COUNT; k++) {
        if (strcmp(word, OPTIONS[k].name) != 0)
            continue;
        if ((options & OPTIONS[k].bit) == 0)
            return misused("%s takes no %s", verb, word);
        if (OPTIONS[k].follows != NULL && ++*i == count)
            return misused("%s wants %s behind it", word, OPTIONS[k].follows);
        return take(o, OPTIONS[k].bit, words[*i]);
    }
    return misused("%s: %s is no option (-- ends the options)", verb, word);
}

/* A wrong verb, and the one that is most like it. */
static int no_verb(const char *word)
{
    Nearest near = {.wanted = {(const uint8_t *)word, strlen(word), true}};
    for (int v = 0; v < VERB_COUNT; v++)
        is_nearer(&near, (Name){(const uint8_t *)VERBS[v].name, strlen(VERBS[v].name), true});
    return misused("\"%s\" is none of check, info, key, ls, keys, value, descriptor, export, build, reg, dump, deleted, repair and explain%s%s%s", word, near.far > 0 ? "; did you mean " : "",
                   near.far > 0 ? (const char *)near.name.at : "", near.far > 0 ? "?" : "");
}

/* words[0] is the verb. The words that are no options move to the front. */
int read_order(int count, char **words, Order *o, Verb **verb)
{
    int v = 0, status = GOOD;
    bool options = true;
    while (v < VERB_COUNT && strcmp(words[0], VERBS[v].name) != 0)
        v++;
    if (v == VERB_COUNT)
        return no_verb(words[0]);
    *o = (Order){.words = words, .verb = VERBS[v].name};
    for (int i = 1; i < count && status == GOOD; i++) {
        if (options && strcmp(words[i], "--") == 0)
            options = false;
        else if (options && words[i][0] == '-' && words[i][1] != 0)
            status = read_option(words[0], VERBS[v].options, count, words, &i, o);
        else
            words[1 + o->count++] = words[i];
    }
    o->words = words + 1;
    *verb = VERBS[v].go;
    if (status == GOOD && o->count < VERBS[v].least)
        return misused("%s wants %s, and a word is missing", words[0], VERBS[v].wants);
    if (status == GOOD && o->count > VERBS[v].most)
        return misused("%s wants %s, and \"%s\" is a word too many", words[0], VERBS[v].wants, o->words[VERBS[v].most]);
    if (status == GOOD && o->as_is && (o->beside || o->log_count > 0))
        return misused("--as-is reads FILE without its log, and %s with it: give one of the two", o->beside ? "--logs" : "--log");
    return status;
}
