/* What the tool's files share. */
#ifndef HOST_H
#define HOST_H

#include <stdbool.h>
#include <stddef.h>
#include <stdint.h>
#include <stdio.h>

#include "../include/kiweamotu.h"

/* Exit statuses. UNSOUND: repaired, or it would be, but the check refuses what comes out. UNSAID: done, but the text could not say all of it. */
enum { GOOD = 0, REFUSED = 1, TROUBLE = 2, UNSOUND = 3, UNSAID = 4 };

typedef struct {
    uint8_t *at;
    size_t length;
} Bytes;

typedef struct {
    uint16_t *at;
    size_t length;
} Units;

/* A name in a hive, or a piece of text: one byte to a character, or UTF-16LE. */
typedef struct {
    const uint8_t *at;
    size_t length;
    bool narrow;
} Name;

enum Style { VALUE_NAME, KEY_NAME };

/* The command line: a verb's words, and the options that it takes. */
typedef struct {
    char **words;
    int count;
    const char *verb, *logs[2], *backup, *prefix, *descriptor;
    int log_count;
    size_t nth; /* 0: none was given */
    bool json, wide, dry, anyway, grow, utf8, any_length, beside, only_this_log, no_backup, as_is;
} Order;

/* A hive in memory, and the log that it is read or repaired with; log is its name, NULL where none was given, and started what hive_recover_start says of the two.
 * alone: of two that are refused together, one that would be accepted alone, or NULL. wanted: how long the log wants the file to be, where it is shorter, else 0. grown: the memory is that long already, with zeros at the end.
 * as_is: it is dirty, and was settled in memory without its log. */
typedef struct {
    const char *file, *log, *alone;
    Bytes bytes, logged;
    HiveRecovery started;
    uint64_t wanted;
    bool grown, as_is;
} Hive;

/* A path as it was given, and its units. value: the name of the value that is asked for, of no units where none is. */
typedef struct {
    const char *text;
    Units units, value;
} Path;

/* A log, with memory of its own for both. */
typedef struct {
    char *name;
    Bytes bytes;
} Log;

/* choose.c: which of two logs, either of which may be empty, and an empty one is none. CHOSE_NONE: refused, with the answer; wanted: how long the hive has to be,
 * where that is all that is missing (24), else 0. GOOD, or TROUBLE where there is no memory, after a message about `file`. */
enum Chosen { CHOSE_CLEAN, CHOSE_FIRST, CHOSE_SECOND, CHOSE_FIRST_SECOND, CHOSE_SECOND_FIRST, CHOSE_NONE };
typedef struct {
    enum Chosen chosen;
    HiveAnswer answer;
    uint64_t wanted;
} Choice;
int choose(const char *file, Bytes hive, Bytes a, Bytes b, Choice *out);
bool does_fit(const Choice *c);
/* The first up to the end of its entries, and the entries of the second, which follows it. A copy of the hive that is so long, with zeros at its end. */
int join_logs(const char *file, Bytes first, Bytes second, Bytes *out);
int grown(const char *file, Bytes hive, uint64_t length, Bytes *out);

/* order.c */
typedef int Verb(const Order *);
int read_order(int count, char **words, Order *out, Verb **verb);

/* The verbs. */
Verb check_verb, info_verb, key_verb, list_verb, keys_verb, value_verb, descriptor_verb, export_verb, build_verb, reg_verb, dump_verb, deleted_verb, repair_verb, explain_verb;

/* main.c: every FILE, and the worst status. */
int each_file(const Order *o, int (*one)(const Order *, const char *));

/* say.c: answers on standard output, as a line or as a JSON object; messages on standard error. Those that answer an int answer TROUBLE.
 * say_as_is: whether what is said from here on is of a hive that is read as it is. say_much: from here on many lines are written at once. say_read_as: that
 * what is said from here on is of another path than the one that was given. */
void say_as(bool json, bool many);
void say_as_is(bool as_is);
void say_read_as(Name path);
bool say_json(void);
void say(const char *file, const char *answer);
void say_number(const char *label, uint64_t n);
void say_bare(const char *label, uint64_t n);
void say_only(const char *label, uint64_t n);
void say_word(const char *label, const char *word);
void say_name(Name name, enum Style style);
void say_path(const Name *way, size_t count);
void say_value_name(Name name);
void say_end(void);
void say_much(void);
uint64_t said_bytes(void);
void put_json_name(FILE *to, Name name);
int trouble(const char *file, const char *format, ...) __attribute__((format(printf, 2, 3)));
int misused(const char *format, ...) __attribute__((format(printf, 1, 2)));
void note(const char *file, const char *words);

/* names.c: the notation of names. */
bool is_hidden(uint32_t code);
uint32_t next_code(Name name, size_t *i);
size_t unit_count(Name name);
uint32_t unit_at(Name name, size_t i);
bool is_called(Name stored, Units name);
Name units_name(Units u);
long decode(const char **text);
void put_utf8(FILE *to, uint32_t code);
void put_escape(FILE *to, uint32_t code);
typedef void Put(FILE *to, uint32_t code);
void spell_name(FILE *to, Name name, enum Style style, Put *put);
void spell_path(FILE *to, const Name *way, size_t count, Put *put);
void put_name(FILE *to, Name name, enum Style style);
void put_path(FILE *to, const Name *way, size_t count);
void put_argument(FILE *to, const char *text);
int path_units(const char *text, Path *out);
int name_units(const char *text, Units *out);

/* path.c: the key at a path, as it is given or, where that is refused with 16 or 17, as it is read instead, which is told and then is the path. GOOD, or REFUSED or
 * TROUBLE after a message. find_instead: after the answer *a to the path as it is given, which then is that of what is read instead; GOOD or TROUBLE.
 * part_end: where the part that starts there ends. */
int find_path(const Hive *h, Path *path, uint32_t *key);
int find_instead(const Hive *h, Path *path, HiveAnswer *a);
size_t part_end(Units u, size_t from);

/* nearest.c: the name that is most like the wanted one, of those that are shown to is_nearer; far is 0 where none is like it. put_nearest: of the subkeys or values of
 * a key, in words; nothing where none is. */
typedef struct {
    Name wanted, name;
    size_t far;
} Nearest;
void is_nearer(Nearest *to, Name name);
void put_nearest(FILE *to, const Hive *h, uint32_t key, Name wanted, enum Style style);

/* data.c */
void print_data(const char *file, uint32_t kind, Bytes data);
void say_data(uint32_t kind, Bytes data);
void put_line_data(uint32_t kind, Bytes data);
bool is_number(uint32_t kind, Bytes data, uint64_t *out);
void put_hex(FILE *to, Bytes data);
const char *kind_name(uint32_t kind, char *room);

/* sddl.c: a security descriptor as SDDL, where it has entries of types 0 to 2 alone and nothing about it is odd; else its bytes in hexadecimal. */
void put_sddl(FILE *to, Bytes descriptor);

/* stamp.c */
enum { STAMP_ROOM = 40 };
const char *stamp_text(uint64_t stamp, char *room);

/* words.c */
FILE *words_begin(void);
const char *words_end(FILE *to);

/* explain.c. path is what was asked for, or NULL. */
int refusal(const Hive *h, HiveAnswer a, const Path *path);
int unbuilt(const char *file, Bytes frames, HiveBuilt b);
const char *fault_words(uint32_t number);
int check(const char *file, Bytes hive, HiveReport *out);
int report(const Hive *h, HiveReport r);

/* climb.c: a key's way up to the root, and the key that a refusal names, by its path */
enum { LEVELS = 512 };
int climb(const Hive *h, uint32_t key, Name *names);
void put_key(FILE *to, const Hive *h, uint32_t key);

/* next.c: what to type next, quoted for the shell. left_out: a log that is not named holds what the named one alone would lose; answers REFUSED, after its words.
 * order_is: the command that was given, which the lines repeat. */
typedef struct {
    bool repair, grow, only, beside, no_backup, again, as_is;
    const char *logs[2];
    int count;
} Line;
void order_is(const Order *o);
bool order_repairs(void);
const char *line_to_type(const char *file, const Line *l);
const char *line_again(const char *file, Line *l);
void say_next(const char *what, const char *line);
int left_out(const Hive *h, const char *named, const char *other, const Choice *c);
void after_repair(const Hive *h, const char *kept);

/* advise.c: the lines to type after a refusal, at most two, each with what it does. GOOD or TROUBLE. */
typedef struct {
    const char *what[2], *lines[2];
    int count;
} Advice;
int advise(const Hive *h, uint32_t number, Advice *out);
/* The logs beside the hive, which the caller drops, and what is chosen of them; and the lines to type where they fit, `grow` where the hive is lengthened. */
int ask_beside(const Hive *h, Log *logs, int *count, Choice *c);
void advise_logs(const Hive *h, bool grow, Advice *out);

/* hints.c */
void put_hints(FILE *to, const Hive *h, const Path *path, HiveAnswer a);

/* verb_export.c: the frames in runs, from the root on or, after export_below, of a key and what is below it. The hive is checked first. */
typedef struct {
    const Hive *h;
    HiveExport e;
    uint64_t frames, bytes, bound;
} Export;
int export_begin(const Hive *h, Export *out);
void export_below(Export *x, uint32_t key);
int export_next(void *of, Bytes *piece);

/* frames.c: the frames of an export, and the keys that are open while they are read: their names in UTF-16LE on the way down, the root's left out, and how many
 * they are with the root. A frame's payload is as docs/FRAMES.md has it. */
enum { FRAME_KEY = 16, FRAME_VALUE = 17, FRAME_END = 18 };
typedef struct {
    Name names[LEVELS];
    size_t level;
} Way;
extern Way open_keys;
uint32_t word_at(const uint8_t *at);
void enter_key(Name name);
void leave_key(void);
/* From the key at PATH on: those above it are open from the start, by `enter`, and no frame comes for them. */
int go_below(Export *x, Path *path, void (*enter)(Name));
/* All frames to `show`, until it answers other than GOOD or `to` cannot be written. */
typedef int Frame(const Hive *h, uint32_t kind, uint8_t *payload, size_t length);
int each_frame(Export *x, FILE *to, Frame *show);

/* bound.c: how many bytes may be written of a hive; and what is said where they are more, which answers TROUBLE. */
uint64_t bound_of(const Order *o, const Hive *h);
int past_bound(const Hive *h, uint64_t bound);

/* Standard output for one kind of bytes alone: whatever else there is to say goes to standard error from here on. NULL where it cannot be had. */
FILE *own_output(void);
/* The same for bytes that are no text, which do not go to a terminal, and so many of them. GOOD, or TROUBLE after a message. */
int raw_output(const char *what, FILE **to);
int put_output(FILE *to, Bytes bytes);

/* files.c. Those that answer an int answer GOOD or TROUBLE, after a message. */
typedef int Reader(const char *path, Bytes *out);
Reader read_file, read_kept;
int read_regular(const char *path, Bytes *out, bool lax, bool *there);
bool is_standard(const char *path);
int read_open(int fd, const char *path, Bytes *out);
int read_hive(const Order *o, const char *file, Hive *out);
void drop_hive(Hive *h);

/* beside.c: the logs in the folder of a path that are called as the first `length` characters of `stem`, at most two, with bytes. They are looked for to be taken
 * (empty ones are told), lest one is left out, or for a hint alone (then one that may not be read is none). */
enum Look { LOOK_TAKE, LOOK_LEFT_OUT, LOOK_HINT };
int logs_beside(const char *path, const char *stem, size_t length, enum Look look, Log *logs, int *count);
const char *base_name(const char *path);
size_t stem_length(const char *name);
void drop_log(Log *log);

/* logs.c. GOOD, TROUBLE or REFUSED, after a message: those that are named, or where none is those beside the hive. One log, or two that are one or of which one
 * fits. h->log stays NULL where there is none and none is needed. */
int take_logs(Hive *h, const char *const *names, int count, const Order *o, Reader *reader);

/* as_is.c: a dirty hive is settled in memory, after a warning; another stays as it was read. GOOD or TROUBLE. */
int take_as_is(Hive *h);

/* store.c. The same. */
int open_kept(const char *path, int flags);
int open_locked(const char *path);
int store(int fd, const char *path, const uint8_t *from, size_t length, uint64_t at);
int settle(int fd, const char *path);
int lengthen(int fd, const char *path, uint64_t length);
int write_new(const char *path, Bytes bytes);
typedef int Pieces(void *of, Bytes *next);
int pieces_new(const char *path, Pieces *next, void *of);
int copy_new(const char *path, int from, const char *from_path);
bool is_there(const char *path);
int settle_beside(const char *path);

/* copy.c: the copy of FILE before its repair, as the order asks for it: where it is, or NULL for none. map: the pages of the log. */
int keep_copy(int fd, const Order *o, const Hive *h, Bytes map, const char **kept);

/* verb_repair.c */
int recover(const Hive *h);

/* progress.c: on a terminal, from one second on. */
void work_starts(const char *what, uint64_t of);
void work_did(uint64_t done);
void work_ends(void);

#endif
