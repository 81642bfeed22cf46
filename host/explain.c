/* What a refusal's number means, and the check's answer. */
#include <stdlib.h>

#include "host.h"

/* `placed`: the place is an offset; else the text says where to look. `of_log`: it is the log that is at fault. */
typedef struct {
    bool placed, of_log;
    const char *what, *advice;
} Reason;

static const Reason REASONS[] = {
    [HIVE_FAULT_HIVE_SHORT] = {false, false, "the hive has fewer than 4096 bytes", "It is cut off, or no hive: every hive starts with a base block of 4096 bytes."},
    [HIVE_FAULT_NO_REGF] = {false, false, "the hive does not start with \"regf\"", "It is no registry hive, or its first sector (bytes 0 to 511) is destroyed. In the second case a log may repair it: hive repair FILE, with its logs beside it."},
    [HIVE_FAULT_CHECKSUM] = {false, false, "the checksum of the base block is wrong", "The word at byte 508 is not the XOR of the 127 words before it, with 0 stored as 1 and 0xFFFFFFFF as 0xFFFFFFFE: the first sector was changed or half written. A log may repair it: hive repair FILE, with its logs beside it."},
    [HIVE_FAULT_VERSION] = {false, false, "version, file type, format or clustering factor is not one that is read", "Wanted at bytes 20 to 47: major 1, minor 3 to 5, type 0, format 1, clustering factor 1. A log file given in place of the hive has type 1, 2 or 6."},
    [HIVE_FAULT_BINS_SIZE] = {false, false, "the size of the bins data is not possible", "The word at byte 40 is 0, no multiple of 4096, or over 2147479552."},
    [HIVE_FAULT_BINS_CUT] = {false, false, "the file ends before its bins do", "It was cut off: 4096 bytes and the size at byte 40 should be there. Copy it again."},
    [HIVE_FAULT_SEQUENCES] = {false, false, "the two sequence numbers differ: give its log with --log, or repair it", "The words at bytes 4 and 8 differ: the last write was not finished, or the hive was taken from a running machine. Its logs are FILE.LOG1 and FILE.LOG2, or FILE.LOG, in the folder that it was taken from: copy them beside it. Then hive check --logs FILE, and --logs with the others that read, reads it as they would repair it and writes nothing; hive repair FILE repairs it and keeps a copy. A log elsewhere is given by its name, behind --log or behind FILE. Where its logs are lost, hive check --as-is FILE, and --as-is with the others that read, reads what is there, without what they held."},
    [HIVE_FAULT_MAP_SMALL] = {false, false, "the work map is too small", "A program lent less than bins size / 64 bytes; this tool always lends enough."},
    [HIVE_FAULT_BIN_HEADER] = {true, false, "the header of a bin is wrong", "Wanted: \"hbin\", the bin's own offset, and a size that is a multiple of 4096 and ends inside the bins data."},
    [HIVE_FAULT_CELL_SIZE] = {true, false, "the size of a cell is not possible", "A cell's size is a nonzero multiple of 8 and stays inside its bin."},
    [HIVE_FAULT_NO_CELL] = {true, false, "an offset leads to no cell in use", "A key, list or value points to this offset, where no cell in use starts."},
    [HIVE_FAULT_RECORD] = {true, false, "a record in a cell is wrong or does not fit its cell", "Its signature, a length, a count or a name is not possible, or the cell is too short for it."},
    [HIVE_FAULT_ORDER] = {true, false, "a key stands out of order, or its hash or hint is wrong", "Subkeys stand in the order of their names with a to z, and the accented letters of Western Europe, as capitals, none twice; an lh list holds each name's hash, an lf list its first four characters as a hint (a byte 0 first where one of them does not fit a byte). Windows may not find this key."},
    [HIVE_FAULT_PARENT] = {true, false, "a key does not fit its place in the tree", "Its parent field names another key, it is the root, or its subkey count is not the number of keys in its lists."},
    [HIVE_FAULT_LEVEL] = {true, false, "a key lies deeper than level 512", "The root is level 0 and level 512 is the last."},
    [HIVE_FAULT_PATH_PARTS] = {false, false, "the path is not possible", "A part is empty (a backslash too many), is longer than 255 units, or there are more than 512 parts."},
    [HIVE_FAULT_NO_KEY] = {false, false, "there is no such key", "Letters a to z, and the accented letters of Western Europe, are the same in either case; others must be given as they are."},
    [HIVE_FAULT_NO_VALUE] = {false, false, "the key has no such value", "The unnamed value is called @ here."},
    [HIVE_FAULT_SEGMENTED] = {true, false, "the data lie in segments and have no view", "A program asked to see them in one piece; a copy joins them."},
    [HIVE_FAULT_OUTPUT_SHORT] = {false, false, "the output is too short for the data", "A program lent less than the data's length; this tool always lends enough."},
    [HIVE_FAULT_LOG_BASE] = {false, true, "the start of the log is not sound", "It has fewer than 512 bytes, its base block is damaged or of another type than 1, 2 or 6, or its sequence numbers differ: the log itself was not finished. Or FILE has no log: it is looked for as FILE.LOG1, FILE.LOG2 and FILE.LOG. FILE stands before LOG: hive repair FILE LOG."},
    [HIVE_FAULT_LOG_SHORT] = {false, true, "the log is too short for its bitmap or its pages, or none of its entries counts", "An old-format log was cut off: copy it again. Of a log of Windows 8.1 or later the first entry is torn, has a wrong hash or another number than the log, or its pages cannot lie where it says. If there is another log beside the hive, hive repair FILE asks both; else take the hive and its logs anew, all at one moment."},
    [HIVE_FAULT_NO_DIRT] = {false, true, "the log has no \"DIRT\" at byte 512", "It is no log of the old format, or holds nothing to repair with."},
    [HIVE_FAULT_HIVE_CUT] = {false, false, "the hive is shorter than the log says", "4096 bytes and the log's bins size should be there (of Windows 8.1 or later: the largest of its entries'). The hive was cut off, or it had grown and only the log knows: then the same command with --grow lengthens it with zeros. Or this is not its log. No other log is tried where only length is missing, so --grow does not change which is taken."},
    [HIVE_FAULT_STAMPS] = {false, true, "the time stamps or the numbers of hive and log differ", "This log belongs to another hive, or to another state of this one. A log of Windows 8.1 or later must have the hive's second sequence number; its time stamp is compared where the hive's first sector is damaged, as an old log's always is. If there are two logs, give both, or lay them beside the hive and give none: hive repair FILE. Two that follow each other and do not fit together are not taken one by one, for one alone would leave out what the other holds; --only-this-log with one of them does it all the same. Where no log fits, take the hive and its logs anew, all at one moment."},
    [HIVE_FAULT_NOT_DIRTY] = {false, true, "the page is not marked in the log", "A program asked for a page that the log does not hold; this tool asks only for those it holds."},
    [HIVE_FAULT_NOT_IN] = {false, false, "a logged page is not in the hive yet", "A program asked to close the repair too early; this tool installs all pages first."},
    [HIVE_FAULT_SECURITY] = {true, false, "the security items of the keys do not fit together", "At the place is the root, whose own item is none; or an item that has no room for its descriptor, whose forward link leads to no item that links back, or whose count is not the number of keys that name it; or a key whose item is not on the ring that starts at the root's. Windows does not load such a hive; its keys and values can be read here."},
    [HIVE_FAULT_NAMESAKE] = {true, false, "a key has two values of one name", "At the place is the second of them: its name is that of a value earlier in the key's list, with a to z, and the accented letters of Western Europe, as capitals. Who asks for that name gets the first and never the second; hive value --nth 2 reads it."},
    [HIVE_FAULT_NO_FRAME] = {false, false, "a frame is not laid out as one", "A frame is a head of 6 bytes and a payload that is all there, of kind 16, 17 or 18: a key of at least 8 bytes and an even number, a value of at least 8 that has room for the name that it states, of an even number of bytes, or a closing of none. The stream was cut off, or it is no stream of frames."},
    [HIVE_FAULT_VALUE_LATE] = {false, false, "a value comes after a subkey of its key", "All values of a key stand before its first subkey."},
    [HIVE_FAULT_UNBALANCED] = {false, false, "the stream is not one root key that opens and closes", "A value or a closing stands outside of any key, a frame follows the root's closing, or the stream ends while a key is open, or has no frame."},
    [HIVE_FAULT_UNSORTED] = {false, false, "a subkey's name is not above that of the subkey before it", "Subkeys stand in the order of their names with a to z, and the accented letters of Western Europe, as capitals, none twice. At the place is the later of the two."},
    [HIVE_FAULT_REPEATED] = {false, false, "a value has the name of one before it in its key", "Names are compared with a to z, and the accented letters of Western Europe, as capitals. At the place is the later of the two."},
    [HIVE_FAULT_NAME_SIZE] = {false, false, "a name is not possible", "A key's name has 1 to 255 characters and no backslash, a value's at most 16383 characters."},
    [HIVE_FAULT_DATA_SIZE] = {false, false, "a value has more than 1048576 bytes of data", "No hive holds more in one value."},
    [HIVE_FAULT_DEPTH] = {false, false, "a key of the stream lies deeper than level 512", "The root is level 0 and level 512 is the last."},
    [HIVE_FAULT_SUBKEYS] = {false, false, "a key has more than 65535 subkeys", "At the place is subkey 65536. One list holds all subkeys of a key that is built, and its count has 16 bits."},
    [HIVE_FAULT_HIVE_SIZE] = {false, false, "the hive would be longer than a hive can be", "Its bins data would have more than 2147479552 bytes. No frame is at fault."},
};
enum { REASON_COUNT = sizeof REASONS / sizeof REASONS[0] };

static const Reason *reason_of(uint32_t number)
{
    static const Reason unknown = {false, false, "an unknown refusal", ""};
    return number < REASON_COUNT && REASONS[number].what != NULL ? &REASONS[number] : &unknown;
}

const char *fault_words(uint32_t number)
{
    return reason_of(number)->what;
}

/* Whether a frame of a stream is at fault. */
static bool of_frame(uint32_t number)
{
    return number >= HIVE_FAULT_NO_FRAME && number < HIVE_FAULT_HIVE_SIZE;
}

int explain_verb(const Order *o)
{
    char *end;
    long n = strtol(o->words[0], &end, 10);
    if (*o->words[0] == 0 || *end != 0 || n < 1 || n >= REASON_COUNT)
        return misused("explain wants a number from 1 to %d, not \"%s\"", REASON_COUNT - 1, o->words[0]);
    printf("%ld: %s. %s%s\n", n, REASONS[n].what, REASONS[n].advice, of_frame((uint32_t)n) ? " The place is a byte of the stream: where that frame starts, or the stream ends." : "");
    return GOOD;
}

static void put_words(FILE *to, const Hive *h, HiveAnswer a, const Path *path)
{
    fputs(reason_of(a.number)->what, to);
    if (a.number == HIVE_FAULT_HIVE_CUT && h->wanted > 0)
        fprintf(to, ": it has %zu bytes and needs %llu; --grow lengthens it with zeros", h->bytes.length, (unsigned long long)h->wanted);
    if (a.number == HIVE_FAULT_HIVE_CUT && h->wanted == 0)
        fputs(", and would not fit it if it were longer: this is another log", to);
    if (a.number == HIVE_FAULT_SEQUENCES && is_standard(h->file))
        fputs("; --as-is reads it without what its log held", to);
    if (reason_of(a.number)->placed) {
        unsigned long long at = 4096ull + a.place;
        fprintf(to, ", at offset %u (0x%x), which is byte %llu (0x%llx) of the file", a.place, a.place, at, at);
    }
    if (a.key != HIVE_NO_KEY && !say_json())
        put_key(to, h, a.key);
    if (path != NULL)
        put_hints(to, h, path, a);
    if (!say_json())
        fprintf(to, " (see: hive explain %u)", a.number);
}

static void say_where(const char *label, bool there, uint64_t at)
{
    if (there)
        say_number(label, at);
    else
        printf(",\"%s\":null", label);
}

/* A line on standard output, and its words on standard error; or both in one object. */
int refusal(const Hive *h, HiveAnswer a, const Path *path)
{
    Advice next;
    if (advise(h, a.number, &next) != GOOD)
        return TROUBLE;
    FILE *to = words_begin();
    if (to == NULL)
        return trouble(h->file, "no memory");
    put_words(to, h, a, path);
    const char *words = words_end(to);
    say(h->file, "refused");
    say_bare("number", a.number);
    if (say_json()) {
        say_where("place", reason_of(a.number)->placed, a.place);
        say_where("key", a.key != HIVE_NO_KEY, a.key);
        say_word("words", words);
        if (next.count > 0)
            say_word("type", next.lines[0]);
    } else
        say_number("at", a.place);
    say_end();
    if (say_json())
        return REFUSED;
    note(reason_of(a.number)->of_log && h->log != NULL ? h->log : h->file, words);
    for (int i = 0; i < next.count; i++)
        say_next(next.what[i], next.lines[i]);
    return REFUSED;
}

/* The words of a stream that no hive is built of, and where its frame at fault starts; `spotted`: it has one. */
static void put_spot(FILE *to, Bytes frames, HiveBuilt b, bool spotted)
{
    fputs(reason_of(b.answer.number)->what, to);
    if (spotted)
        fprintf(to, ", at byte %llu (0x%llx) of the stream", (unsigned long long)b.at, (unsigned long long)b.at);
    if (spotted && b.at == frames.length)
        fputs(", its end", to);
    if (!say_json())
        fprintf(to, " (see: hive explain %u)", b.answer.number);
}

/* As a refusal is told. A byte of a stream is neither an offset nor a byte of a hive, so an object has it under a name of its own. */
int unbuilt(const char *file, Bytes frames, HiveBuilt b)
{
    FILE *to = words_begin();
    bool spotted = of_frame(b.answer.number);
    if (to == NULL)
        return trouble(file, "no memory");
    put_spot(to, frames, b, spotted);
    const char *words = words_end(to);
    say(file, "refused");
    say_bare("number", b.answer.number);
    if (say_json()) {
        say_where("place", false, 0);
        say_where("key", false, 0);
        say_where("byte", spotted, b.at);
        say_word("words", words);
    } else
        say_number("at", b.at);
    say_end();
    if (!say_json())
        note(file, words);
    return REFUSED;
}

/* A map of length / 64 bytes is never too small: bins that end inside the file are shorter than it. */
int check(const char *file, Bytes hive, HiveReport *out)
{
    size_t length = hive.length / 64;
    uint8_t *map = malloc(length + 1);
    if (map == NULL)
        return trouble(file, "no memory for the work map");
    work_starts("checking", 0);
    *out = hive_check(hive.at, hive.length, map, length);
    work_ends();
    free(map);
    return GOOD;
}

/* A dirty hive is never accepted, however sound what is there may be. */
int report(const Hive *h, HiveReport r)
{
    if (r.answer.number != 0)
        return refusal(h, r.answer, NULL);
    say(h->file, h->as_is ? "dirty" : "accepted");
    say_number("bins", r.bins);
    say_number("keys", r.keys);
    say_number("values", r.values);
    say_number("used", r.used);
    say_number("free", r.free);
    say_end();
    return h->as_is ? REFUSED : GOOD;
}
