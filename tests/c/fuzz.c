/* fuzz TOOL KEEP SEED SECONDS FILE..: runs the tool with spoilt files and random words until the seconds are over (0: once, and says what was run). A run is
 * made of its seed alone, and the next has the next seed. One that ends by a signal, with a status that the tool does not have, or with 2 and not a word, is told
 * with its seed, and its files are kept in KEEP/SEED. The last line is how many runs there were. Started in a folder of its own; the FILEs are hives, logs and frames. */
#include <errno.h>
#include <fcntl.h>
#include <signal.h>
#include <stdio.h>
#include <stdlib.h>
#include <string.h>
#include <sys/resource.h>
#include <sys/stat.h>
#include <sys/wait.h>
#include <time.h>
#include <unistd.h>

#include "fixtures.h"

enum { MOST = 1 << 18, WORDS = 16, LENGTH = 4096, TOO_LONG = 20, WRITTEN = 64 << 20 };

/* What a seed is: a hive, one whose last write was not finished, a log, or something else, as frames are. */
enum Kind { HIVE, TORN, LOG, STREAM };

typedef struct {
    uint8_t *at;
    size_t length;
} Seed;

static Seed *seeds;
static size_t seed_count;
static char words[WORDS][LENGTH];
static int word_count;
static uint64_t state;

static uint32_t dice(uint32_t sides)
{
    state ^= state << 13;
    state ^= state >> 7;
    state ^= state << 17;
    return (uint32_t)(state >> 20) % sides;
}

static void die(const char *what)
{
    fprintf(stderr, "fuzz: %s: %s\n", what, strerror(errno));
    exit(2);
}

static void read_seed(const char *path, Seed *out)
{
    int fd = open(path, O_RDONLY);
    out->at = malloc(MOST);
    ssize_t n = fd < 0 || out->at == NULL ? -1 : read(fd, out->at, MOST);
    if (n < 0)
        die(path);
    out->length = (size_t)n;
    close(fd);
}

static void write_whole(const char *path, const void *from, size_t length)
{
    int fd = open(path, O_WRONLY | O_CREAT | O_TRUNC, 0644);
    if (fd < 0 || write(fd, from, length) != (ssize_t)length || close(fd) != 0)
        die(path);
}

/* Numbers at the edges of what a field may hold, or an offset. */
static uint32_t odd_number(size_t length)
{
    static const uint32_t odd[] = {0, 1, 2, 7, 8, 32, 255, 256, 510, 512, 4096, 16344, 16345, 0x7fff, 0xffff, 0x10000, 0x7ffff000, 0x7fffffff, 0x80000000, 0x80000001, 0xfffffff8, 0xffffffff};
    return dice(3) == 0 ? dice((uint32_t)length + 1) & ~7u : odd[dice(sizeof odd / sizeof odd[0])];
}

/* One change: a byte, a field of 2 or 4 bytes, bytes from elsewhere, a shorter or a longer file. */
static void change(Seed *s)
{
    size_t at = dice((uint32_t)s->length), from = dice((uint32_t)s->length), most = s->length - (at > from ? at : from);
    switch (dice(12)) {
    case 0:
    case 1:
        s->at[at] = (uint8_t)dice(256);
        break;
    case 2:
        s->at[at] ^= (uint8_t)(1 << dice(8));
        break;
    case 3:
        memmove(s->at + at, s->at + from, most < 64 ? most : dice(64));
        break;
    case 4:
        s->length = dice(8) == 0 ? at + 1 : s->length;
        break;
    case 5:
        s->length = s->length + 4096 <= MOST && dice(8) == 0 ? s->length + 4096 : s->length;
        break;
    case 6:
        if (s->length > at + 2)
            put16(s->at + at, odd_number(s->length));
        break;
    default:
        if (s->length > at + 8)
            put32(s->at + (at & ~3u), odd_number(s->length));
    }
}

/* Most changes are to be met behind the checksums: they are made right again. */
static void seal(Seed *s)
{
    if (s->length >= 512 && memcmp(s->at, "regf", 4) == 0)
        reseal(s->at);
    for (size_t at = 512; at + 48 <= s->length && memcmp(s->at + at, "HvLE", 4) == 0;) {
        uint32_t size = get32(s->at + at + 4);
        if (size < 48 || size > s->length - at)
            break;
        rehash(s->at + at);
        at += size;
    }
}

static enum Kind kind_of(const Seed *s)
{
    if (s->length < 512 || memcmp(s->at, "regf", 4) != 0)
        return STREAM;
    return get32(s->at + 28) != 0 ? LOG : get32(s->at + 4) != get32(s->at + 8) ? TORN : HIVE;
}

/* One of the seeds, mostly of that kind. */
static const Seed *pick(enum Kind kind)
{
    const Seed *s = &seeds[dice((uint32_t)seed_count)];
    for (int i = 0; i < 60 && kind_of(s) != kind; i++)
        s = &seeds[dice((uint32_t)seed_count)];
    return s;
}

/* A file of that kind: as it is, or spoilt. */
static void make_file(const char *name, enum Kind kind)
{
    static uint8_t room[MOST];
    const Seed *from = pick(kind);
    Seed s = {room, from->length};
    memset(room, 0, sizeof room);
    memcpy(room, from->at, from->length);
    for (uint32_t n = dice(4) == 0 ? 0 : 1 + dice(dice(4) == 0 ? 40 : 6); n > 0 && s.length > 0; n--)
        change(&s);
    if (dice(4) > 0)
        seal(&s);
    write_whole(name, s.at, s.length);
}

static void add_word(const char *text)
{
    if (word_count < WORDS - 1)
        snprintf(words[word_count++], LENGTH, "%s", text);
}

/* Any bytes but 0, those that mean something more often. */
static void add_bytes(uint32_t most)
{
    static const char likely[] = "\\\\\\xu04d8fe@a/k1n\"\r\n\x1b\xc3\xa9\xf0\x9f\x98\x80\xff";
    char text[LENGTH];
    uint32_t n = dice(most);
    for (uint32_t i = 0; i < n; i++)
        text[i] = dice(3) == 0 ? (char)(1 + dice(255)) : likely[dice(sizeof likely - 1)];
    text[n] = 0;
    add_word(text);
}

static void add_path(void)
{
    static const char *const paths[] = {
        "", "\\", "a", "A\\k1", "a\\k9", "a\\k7\\x", "ControlSet001\\Services\\EventLog\\Application\\Print", "ControlSet001\\Services\\EventLog\\Application\\Bin\\x", "@", "@\\\\\\ud83dg",
        "n\\n\\n\\x", "kinds", "names", "bytes\\24", "HKLM\\SYSTEM", "a/b", "a\\", "\\\\x07", "\\\\x5c", "\\\\ud83d", "\303\251diteur",
    };
    if (dice(5) == 0)
        add_bytes(dice(4) == 0 ? LENGTH - 1 : 40);
    else
        add_word(paths[dice(sizeof paths / sizeof paths[0])]);
}

static void add_name(void)
{
    static const char *const names[] = {"@", "\\x40", "Large", "Several", "EventMessageFile", "Bytes", "Empty", "a\\x0aB", "inner", "odd", "half", "dword", "a\\\\b", "\\", "\\u12"};
    if (dice(5) == 0)
        add_bytes(40);
    else
        add_word(names[dice(sizeof names / sizeof names[0])]);
}

/* The file that is meant, or seldom another. */
static void add_file(const char *meant)
{
    static const char *const files[] = {"hive", "log", "log2", "frames", "nothing", ".", "-", "/dev/null", "hive/x", ""};
    add_word(dice(8) > 0 ? meant : files[dice(sizeof files / sizeof files[0])]);
}

static void add_new(void)
{
    static const char *const files[] = {"-", "hive", "none/new", "", "."};
    add_word(dice(8) > 0 ? "new" : files[dice(sizeof files / sizeof files[0])]);
}

/* An option: one of those that the verb takes, by their letters, or seldom any. */
static void add_option(const char *letters)
{
    static const struct {
        char letter;
        const char *name;
    } options[] = {{'L', "--log"}, {'j', "--json"}, {'l', "-l"}, {'n', "--nth"}, {'d', "--dry-run"}, {'b', "--backup"}, {'a', "--anyway"}, {'g', "--grow"},
                   {'p', "--prefix"}, {'u', "--utf8"}, {'D', "--descriptor"}, {'A', "--any-length"}, {'-', "--"}, {'h', "--help"}, {'x', "-x"}};
    uint32_t n = dice(sizeof options / sizeof options[0]);
    for (int i = 0; i < 60 && strchr(letters, options[n].letter) == NULL && dice(60) > 0; i++)
        n = dice(sizeof options / sizeof options[0]);
    add_word(options[n].name);
    if (options[n].letter == 'L')
        add_file(dice(2) == 0 ? "log" : "log2");
    if (options[n].letter == 'n')
        add_word((const char *[]){"1", "2", "3", "0", "-1", "99999999999999999999", "x", ""}[dice(8)]);
    if (options[n].letter == 'p')
        add_path();
    if (options[n].letter == 'b')
        add_new();
    if (options[n].letter == 'D')
        add_file("log");
}

/* A verb's words, in the form that it takes them: f a hive, l and m a log, s frames, p a path, n a name, o a new file, # a number. */
static void add_words(const char *form)
{
    for (; *form != 0 && dice(40) > 0; form++) {
        if (strchr("flms", *form) != NULL)
            add_file(*form == 'f' ? "hive" : *form == 'l' ? "log" : *form == 'm' ? "log2" : "frames");
        else if (*form == 'p')
            add_path();
        else if (*form == 'n')
            add_name();
        else if (*form == 'o')
            add_new();
        else
            add_word((const char *[]){"1", "17", "39", "40", "0", "-1", "x", "4294967297"}[dice(8)]);
    }
}

static void make_words(void)
{
    static const char *const verbs[][3] = {
        {"check", "f", "Lgj"}, {"check", "ff", "j"}, {"info", "f", "j"}, {"info", "ff", "j"}, {"key", "fp", "Lgjl"}, {"ls", "f", "Lgjl"}, {"ls", "fp", "Lgjl"}, {"keys", "f", "LgjA"}, {"keys", "fp", "LgjA"},
        {"value", "fpn", "Lgjn"}, {"value", "fpno", "Lgjn"}, {"descriptor", "fp", "Lgj"}, {"descriptor", "fpo", "Lgj"}, {"export", "f", "LgjA"}, {"export", "fo", "LgjA"}, {"build", "so", "Dj"}, {"build", "so", "Dj"},
        {"reg", "f", "LgpuA"}, {"reg", "fp", "LgpuA"}, {"dump", "f", "LgjA"}, {"dump", "fp", "LgjA"}, {"deleted", "f", "Lgj"}, {"repair", "fl", "gjdba"}, {"repair", "flm", "gjdba"}, {"explain", "#", "j"},
        {"chekc", "f", "j"}, {"--version", "", ""}, {"", "f", ""},
    };
    const char *const *verb = verbs[dice(sizeof verbs / sizeof verbs[0])];
    word_count = 0;
    add_word(verb[0]);
    for (uint32_t n = dice(4); n > 0; n--)
        add_option(verb[2]);
    add_words(verb[1]);
    if (dice(12) == 0)
        add_option(verb[2]);
}

static bool has_word(const char *text)
{
    bool has = false;
    for (int i = 0; i < word_count; i++)
        has = has || strcmp(words[i], text) == 0;
    return has;
}

/* In the child: what it writes goes to files, it has no terminal, and neither much time nor much room. */
static void become(const char *tool)
{
    char *list[WORDS + 1] = {(char *)tool};
    for (int i = 0; i < word_count; i++)
        list[i + 1] = words[i];
    int in = open(dice(2) == 0 ? "hive" : "/dev/null", O_RDONLY), out = open("stdout", O_WRONLY | O_CREAT | O_TRUNC, 0644), err = open("stderr", O_WRONLY | O_CREAT | O_TRUNC, 0644);
    struct rlimit room = {WRITTEN, WRITTEN};
    setrlimit(RLIMIT_FSIZE, &room);
    signal(SIGXFSZ, SIG_IGN);
    if (in < 0 || out < 0 || err < 0 || dup2(in, 0) < 0 || dup2(out, 1) < 0 || dup2(err, 2) < 0)
        _exit(120);
    alarm(TOO_LONG);
    execv(tool, list);
    _exit(120);
}

static void clear(void)
{
    static const char *const left[] = {"new", "new.part1", "hive.part1", "--log", "--json"};
    for (size_t i = 0; i < sizeof left / sizeof left[0]; i++)
        unlink(left[i]);
}

/* The run of a seed: how the tool ended. */
static int run_one(const char *tool, uint64_t seed)
{
    int status = 0;
    state = seed * 0x9e3779b97f4a7c15u + 0x2545f4914f6cdd1du;
    dice(1);
    clear();
    make_words();
    make_file("hive", has_word("repair") || has_word("--log") ? TORN : HIVE);
    make_file("log", LOG);
    make_file("log2", LOG);
    make_file("frames", STREAM);
    pid_t pid = fork();
    if (pid == 0)
        become(tool);
    if (pid < 0 || waitpid(pid, &status, 0) != pid)
        die("fork");
    return status;
}

static void put_word(FILE *to, const char *word)
{
    fputs(" '", to);
    for (const char *c = word; *c != 0; c++)
        fprintf(to, *c < 0x20 || *c == 0x7f || *c == '\'' ? "\\%03o" : "%c", (unsigned char)*c);
    fputc('\'', to);
}

static void put_words(FILE *to)
{
    fputs("hive", to);
    for (int i = 0; i < word_count; i++)
        put_word(to, words[i]);
    fputc('\n', to);
}

/* The files as the run left them (repair writes into one), and what the tool wrote. Its seed makes them anew. */
static void keep(const char *folder, uint64_t seed)
{
    static const char *const files[] = {"hive", "log", "log2", "frames", "stdout", "stderr"};
    char path[LENGTH];
    Seed s;
    snprintf(path, sizeof path, "%s/%llu", folder, (unsigned long long)seed);
    mkdir(path, 0755);
    for (size_t i = 0; i < sizeof files / sizeof files[0]; i++) {
        snprintf(path, sizeof path, "%s/%llu/%s", folder, (unsigned long long)seed, files[i]);
        read_seed(files[i], &s);
        write_whole(path, s.at, s.length);
        free(s.at);
    }
    snprintf(path, sizeof path, "%s/%llu/words", folder, (unsigned long long)seed);
    FILE *to = fopen(path, "w");
    if (to == NULL)
        die(path);
    put_words(to);
    fclose(to);
}

/* One of the five statuses; and 2 with a word on standard error. */
static bool is_good(int status)
{
    struct stat errors;
    if (!WIFEXITED(status) || WEXITSTATUS(status) > 4)
        return false;
    return WEXITSTATUS(status) != 2 || (stat("stderr", &errors) == 0 && errors.st_size > 0);
}

/* Whether the run is one to tell of. */
static bool judge(const char *folder, uint64_t seed, int status)
{
    if (is_good(status))
        return false;
    keep(folder, seed);
    if (WIFSIGNALED(status))
        printf("FAILED seed %llu: signal %d%s; its files: %s/%llu; again: sh tests/fuzz --again %llu\n", (unsigned long long)seed, WTERMSIG(status),
               WTERMSIG(status) == SIGALRM ? " (it took too long)" : "", folder, (unsigned long long)seed, (unsigned long long)seed);
    else
        printf("FAILED seed %llu: status %d; its files: %s/%llu; again: sh tests/fuzz --again %llu\n", (unsigned long long)seed, WEXITSTATUS(status), folder,
               (unsigned long long)seed, (unsigned long long)seed);
    put_words(stdout);
    fflush(stdout);
    return true;
}

static void read_seeds(char **paths, size_t count)
{
    seed_count = count;
    seeds = calloc(count, sizeof *seeds);
    if (seeds == NULL)
        die("seeds");
    for (size_t i = 0; i < count; i++)
        read_seed(paths[i], &seeds[i]);
}

int main(int count, char **given)
{
    if (count < 6)
        return 2;
    uint64_t seed = strtoull(given[3], NULL, 10), runs = 0, failed = 0, ends[6] = {0};
    time_t end = time(NULL) + strtol(given[4], NULL, 10);
    read_seeds(given + 5, (size_t)count - 5);
    bool once = strcmp(given[4], "0") == 0;
    do {
        int status = run_one(given[1], seed);
        failed += judge(given[2], seed++, status);
        ends[is_good(status) ? WEXITSTATUS(status) : 5]++;
        runs++;
    } while (!once && time(NULL) < end);
    if (once)
        put_words(stdout);
    printf("status 0: %llu, 1: %llu, 2: %llu, 3: %llu, 4: %llu\n", (unsigned long long)ends[0], (unsigned long long)ends[1], (unsigned long long)ends[2],
           (unsigned long long)ends[3], (unsigned long long)ends[4]);
    printf("%llu runs, %llu failed\n", (unsigned long long)runs, (unsigned long long)failed);
    return failed > 0;
}
