/* hive: checks, reads, repairs and builds a registry hive. */
#define _GNU_SOURCE /* O_PATH */
#include <fcntl.h>
#include <string.h>

#include "host.h"

static const char HELP[] =
#include "help.h"
    ;

static int check_one(const Order *o, const char *file)
{
    Hive h;
    HiveReport r;
    int status = read_hive(o, file, &h);
    if (status == GOOD)
        status = check(file, h.bytes, &r);
    if (status == GOOD)
        status = report(&h, r);
    drop_hive(&h);
    return status;
}

static int inputs(const Order *o)
{
    int n = 0;
    for (int i = 0; i < o->count; i++)
        n += is_standard(o->words[i]);
    return n;
}

int each_file(const Order *o, int (*one)(const Order *, const char *))
{
    int worst = GOOD;
    if (inputs(o) > 1)
        return misused("standard input is read once, and - stands for it more than once");
    for (int i = 0; i < o->count; i++) {
        int status = one(o, o->words[i]);
        if (status > worst)
            worst = status;
    }
    return worst;
}

int check_verb(const Order *o)
{
    if (o->log_count > 0 && o->count > 1 && inputs(o) < 2)
        return misused("check --log wants one FILE, the log's own");
    return each_file(o, check_one);
}

/* Wrong usage is told as the words ask for it, before they are understood. */
static bool wants_json(int count, char **words)
{
    for (int i = 0; i < count && strcmp(words[i], "--") != 0; i++)
        if (strcmp(words[i], "--json") == 0)
            return true;
    return false;
}

static bool wants_help(const char *word)
{
    return strcmp(word, "--help") == 0 || strcmp(word, "-h") == 0 || strcmp(word, "help") == 0;
}

static int answer(int count, char **words)
{
    Order o;
    Verb *verb;
    say_as(wants_json(count, words), false);
    if (count == 0)
        return misused("a verb is wanted: check, info, key, ls, keys, value, descriptor, export, build, reg, dump, deleted, repair or explain");
    if (wants_help(words[0])) {
        fputs(HELP, stdout);
        return GOOD;
    }
    if (strcmp(words[0], "--version") == 0) {
        puts("hive " KIWEAMOTU_VERSION);
        return GOOD;
    }
    int status = read_order(count, words, &o, &verb);
    if (status != GOOD)
        return status;
    say_as(o.json, o.count > 1 && (verb == check_verb || verb == info_verb));
    order_is(&o);
    return verb(&o);
}

/* A file that is opened gets the lowest descriptor that is free: were that one of the standard three, the tool would write its own words into the file. So each of
 * them that is closed is taken first, by a mere place in the file system: to read or to write it fails, as if it were closed still. */
static bool take_standard(void)
{
    for (int fd = 0; fd < 3; fd++)
        if (fcntl(fd, F_GETFD) < 0 && open("/", O_PATH | O_DIRECTORY) != fd)
            return false;
    return true;
}

int main(int count, char **words)
{
    if (!take_standard()) {
        note(NULL, "standard input, output or error is closed, and nothing could be put in its place: direct it to a file. Nothing was opened");
        return TROUBLE;
    }
    int status = answer(count - 1, words + 1);
    if (fflush(stdout) != 0 || ferror(stdout)) {
        note(NULL, "cannot write the answer");
        return TROUBLE;
    }
    return status;
}
