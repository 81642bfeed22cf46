/* The C face of Kiweamotu: checks, reads, repairs and builds Windows registry hives (regf files).
 *
 * Every function here is proved, for every input: what it answers, each byte that it changes, that it reads and writes
 * nothing outside the buffers lent to it, and that it ends. The promise of a function stands above it in words. The exact
 * equation stands in crates/hive_c/src/lib.rt, from which this header is made by tools/header.awk.
 *
 * No function keeps any state, allocates, or calls anything but memcpy and memset, so threads need no lock.
 *
 * What the caller owes. Nothing checks it, and without it no promise holds:
 * - A buffer is a pointer and a number of elements, all of them readable (writable where the pointer is not const). NULL is
 *   fine with 0. A path or a name is in uint16_t units, aligned to 2.
 * - A buffer that a call may write overlaps none of the others.
 * - Nobody changes a buffer during the call. So read a file into memory; do not map one that others may write.
 * - 1 MiB of free stack.
 *
 * A refusal is a number, one of enum HiveFault, a place, and the key under examination. For 9 to 15, 19, 28 and 29 the place is
 * an offset in the bins data: the byte 4096 + place of the file. Any other number has no place, and then place is 0. The key is
 * the offset of the last key whose record was accepted, HIVE_NO_KEY before there is one: of a child's bad cell or record it
 * is the key that lists it, of 13 to 15 the place, of 17 the deepest key that was found, of 18 to 20 and 29 the key of the
 * value, of 28 the root, or the place where that is a key. In all calls of the repair, and where a value is asked by its offset,
 * it is HIVE_NO_KEY. In both calls that build a hive place is 0 and the key is HIVE_NO_KEY: what 30 to 38 name is a byte of the
 * stream, and stands in `at` of a HiveBuilt.
 */
#ifndef KIWEAMOTU_H
#define KIWEAMOTU_H

#include <stddef.h>
#include <stdint.h>

#ifdef __cplusplus
#define HIVE_ASSERT(x) static_assert(x, #x)
extern "C" {
#else
#define HIVE_ASSERT(x) _Static_assert(x, #x)
#endif

HIVE_ASSERT(sizeof(size_t) == 8); /* x86-64 only */

/* The version of the release. That of the interface is hive_abi(). */
#define KIWEAMOTU_VERSION "0.9.0"

/* The refusals. */
enum HiveFault {
    HIVE_FAULT_HIVE_SHORT = 1, /* hive under 4096 bytes */
    HIVE_FAULT_NO_REGF = 2, /* no "regf" */
    HIVE_FAULT_CHECKSUM = 3, /* checksum */
    HIVE_FAULT_VERSION = 4, /* version, type, format, clustering */
    HIVE_FAULT_BINS_SIZE = 5, /* bins size field */
    HIVE_FAULT_BINS_CUT = 6, /* hive ends before the bins do */
    HIVE_FAULT_SEQUENCES = 7, /* sequence numbers differ */
    HIVE_FAULT_MAP_SMALL = 8, /* work map too small */
    HIVE_FAULT_BIN_HEADER = 9, /* bin header */
    HIVE_FAULT_CELL_SIZE = 10, /* cell size */
    HIVE_FAULT_NO_CELL = 11, /* offset names no cell in use */
    HIVE_FAULT_RECORD = 12, /* wrong signature, length, count or name */
    HIVE_FAULT_ORDER = 13, /* order of names, `lh` hash or `lf` hint */
    HIVE_FAULT_PARENT = 14, /* parent, root listed, total count */
    HIVE_FAULT_LEVEL = 15, /* level over 512 */
    HIVE_FAULT_PATH_PARTS = 16, /* path: empty part, part over 255 units, over 512 parts */
    HIVE_FAULT_NO_KEY = 17, /* no such key */
    HIVE_FAULT_NO_VALUE = 18, /* no such value */
    HIVE_FAULT_SEGMENTED = 19, /* view asked of segmented data */
    HIVE_FAULT_OUTPUT_SHORT = 20, /* output too short */
    HIVE_FAULT_LOG_BASE = 21, /* log under 512 bytes, its base block not usable (type 1, 2 or 6), or its sequence numbers differ */
    HIVE_FAULT_LOG_SHORT = 22, /* log too short for bitmap or pages, or none of its entries counts */
    HIVE_FAULT_NO_DIRT = 23, /* no "DIRT" */
    HIVE_FAULT_HIVE_CUT = 24, /* hive shorter than 4096 + the log's bins size (type 6: the largest counted) */
    HIVE_FAULT_STAMPS = 25, /* stamps differ (type 6, usable hive: numbers) */
    HIVE_FAULT_NOT_DIRTY = 26, /* page not marked dirty, or past the bitmap (type 6: in no counted entry) */
    HIVE_FAULT_NOT_IN = 27, /* closing, but a logged page is not in yet */
    HIVE_FAULT_SECURITY = 28, /* security items: the root's offset, an item's room, link or count, a key off the ring */
    HIVE_FAULT_NAMESAKE = 29, /* a value with the name of one before it in its key */
    HIVE_FAULT_NO_FRAME = 30, /* a frame that is not laid out as one */
    HIVE_FAULT_VALUE_LATE = 31, /* a value after a subkey */
    HIVE_FAULT_UNBALANCED = 32, /* not one balanced root key */
    HIVE_FAULT_UNSORTED = 33, /* a subkey's name not above its elder sibling's */
    HIVE_FAULT_REPEATED = 34, /* a value with an earlier namesake in its key */
    HIVE_FAULT_NAME_SIZE = 35, /* a name of no characters, of too many, or with a backslash */
    HIVE_FAULT_DATA_SIZE = 36, /* data over 1,048,576 bytes */
    HIVE_FAULT_DEPTH = 37, /* a key at level 513 */
    HIVE_FAULT_SUBKEYS = 38, /* subkey 65,536 of a key */
    HIVE_FAULT_HIVE_SIZE = 39, /* bins size over the limit */
};

/* The states of all answers, each with a number of its own: refused; nothing is to be done, or it is done; a list or an export has no
 * more, or something is there; a walk is over, or a key opens or closes; frames were written.
 */
enum {
    HIVE_REFUSED = 0,
    HIVE_CLEAN = 1,
    HIVE_DONE = 2,
    HIVE_NO_MORE = 3,
    HIVE_THERE = 4,
    HIVE_OVER = 5,
    HIVE_OPENS = 6,
    HIVE_CLOSES = 7,
    HIVE_WRITTEN = 8,
};

/* The forms of a value's data. */
enum {
    HIVE_INLINE = 1,
    HIVE_ONE_CELL = 2,
    HIVE_SEGMENTS = 3,
};

/* The kinds of a record that deletion left. */
enum {
    HIVE_OLD_KEY = 1,
    HIVE_OLD_VALUE = 2,
};

/* The order of two names. No answer is 0. */
enum {
    HIVE_BEFORE = 1,
    HIVE_SAME = 2,
    HIVE_AFTER = 3,
};

/* No key is named: no cell lies there. */
#define HIVE_NO_KEY 0xffffffffu

/* Part of every answer. number: 0, or the refusal's number. place: the refusal's place. key: the refusal's key, else
 * HIVE_NO_KEY. value: the offset of the key or value that hive_find_key, hive_quick_key, hive_child_of, hive_quick_child_of,
 * hive_value_of, hive_nth_subkey, hive_nth_value, hive_key_at or hive_next_remnant found, or of the key that hive_walk_begin or
 * hive_walk_step opens or closes, else 0.
 * Where number is not 0, every other field of the answer but place, key, a walk's depth, an export's depth and due and a
 * HiveBuilt's at is 0.
 */
typedef struct {
    uint32_t number;
    uint32_t place;
    uint32_t key;
    uint32_t value;
} HiveAnswer;
HIVE_ASSERT(offsetof(HiveAnswer, number) == 0);
HIVE_ASSERT(offsetof(HiveAnswer, place) == 4);
HIVE_ASSERT(offsetof(HiveAnswer, key) == 8);
HIVE_ASSERT(offsetof(HiveAnswer, value) == 12);
HIVE_ASSERT(sizeof(HiveAnswer) == 16);

/* The report of the check. bins: how many bins. keys: keys reached from the root. values: elements of their value lists.
 * used, free: bytes of cells in use and of free cells, with their size fields. 32 x bins + used + free is the bins size.
 */
typedef struct {
    HiveAnswer answer;
    uint64_t bins;
    uint64_t keys;
    uint64_t values;
    uint64_t used;
    uint64_t free;
} HiveReport;
HIVE_ASSERT(offsetof(HiveReport, answer) == 0);
HIVE_ASSERT(offsetof(HiveReport, bins) == 16);
HIVE_ASSERT(offsetof(HiveReport, keys) == 24);
HIVE_ASSERT(offsetof(HiveReport, values) == 32);
HIVE_ASSERT(offsetof(HiveReport, used) == 40);
HIVE_ASSERT(offsetof(HiveReport, free) == 48);
HIVE_ASSERT(sizeof(HiveReport) == 56);

/* A value. kind: its registry type (1 REG_SZ, 3 REG_BINARY, 4 REG_DWORD ..). form: HIVE_INLINE in the record, HIVE_ONE_CELL or
 * HIVE_SEGMENTS. at: the place in the file where its data lie, so hive + at in memory (in segments: where the db record lies).
 * length: how many bytes the data have. Data of length 0 that are not inline have at 0.
 */
typedef struct {
    HiveAnswer answer;
    uint32_t kind;
    uint32_t form;
    uint64_t at;
    uint64_t length;
} HiveValue;
HIVE_ASSERT(offsetof(HiveValue, answer) == 0);
HIVE_ASSERT(offsetof(HiveValue, kind) == 16);
HIVE_ASSERT(offsetof(HiveValue, form) == 20);
HIVE_ASSERT(offsetof(HiveValue, at) == 24);
HIVE_ASSERT(offsetof(HiveValue, length) == 32);
HIVE_ASSERT(sizeof(HiveValue) == 40);

/* length: how many bytes were written. */
typedef struct {
    HiveAnswer answer;
    uint64_t length;
} HiveCopy;
HIVE_ASSERT(offsetof(HiveCopy, answer) == 0);
HIVE_ASSERT(offsetof(HiveCopy, length) == 16);
HIVE_ASSERT(sizeof(HiveCopy) == 24);

/* A subkey or a value of a key. state: HIVE_REFUSED, HIVE_NO_MORE or HIVE_THERE; then answer.value is its offset. name: the place in the
 * file where its name stands, so hive + name in memory. length: how many bytes the name has; all of them lie in the hive,
 * whatever it holds. narrow: 1 where each byte is a character, 0 where the name is UTF-16LE.
 */
typedef struct {
    HiveAnswer answer;
    uint64_t state;
    uint64_t name;
    uint64_t length;
    uint64_t narrow;
} HiveMember;
HIVE_ASSERT(offsetof(HiveMember, answer) == 0);
HIVE_ASSERT(offsetof(HiveMember, state) == 16);
HIVE_ASSERT(offsetof(HiveMember, name) == 24);
HIVE_ASSERT(offsetof(HiveMember, length) == 32);
HIVE_ASSERT(offsetof(HiveMember, narrow) == 40);
HIVE_ASSERT(sizeof(HiveMember) == 48);

/* A key, as its record says; nothing is counted. written: when it was last written, in steps of 100 ns from the start of 1601 on,
 * UTC. parent: its parent's offset. subkeys, values: how many it has. name, length, narrow: as of a HiveMember.
 */
typedef struct {
    HiveAnswer answer;
    uint64_t written;
    uint64_t parent;
    uint64_t subkeys;
    uint64_t values;
    uint64_t name;
    uint64_t length;
    uint64_t narrow;
} HiveKey;
HIVE_ASSERT(offsetof(HiveKey, answer) == 0);
HIVE_ASSERT(offsetof(HiveKey, written) == 16);
HIVE_ASSERT(offsetof(HiveKey, parent) == 24);
HIVE_ASSERT(offsetof(HiveKey, subkeys) == 32);
HIVE_ASSERT(offsetof(HiveKey, values) == 40);
HIVE_ASSERT(offsetof(HiveKey, name) == 48);
HIVE_ASSERT(offsetof(HiveKey, length) == 56);
HIVE_ASSERT(offsetof(HiveKey, narrow) == 64);
HIVE_ASSERT(sizeof(HiveKey) == 72);

/* Bytes of the hive that a key names. at: the place in the file where they lie, so hive + at in memory. length: how many; all of
 * them lie in the hive, whatever it holds. A key without a class name has at 0 and length 0.
 */
typedef struct {
    HiveAnswer answer;
    uint64_t at;
    uint64_t length;
} HivePiece;
HIVE_ASSERT(offsetof(HivePiece, answer) == 0);
HIVE_ASSERT(offsetof(HivePiece, at) == 16);
HIVE_ASSERT(offsetof(HivePiece, length) == 24);
HIVE_ASSERT(sizeof(HivePiece) == 32);

/* A step of a walk over all keys. state: HIVE_REFUSED; HIVE_OVER: no key is open; HIVE_OPENS or HIVE_CLOSES: a key, and answer.value is its
 * offset. depth: how many keys are open after it. name, length, narrow: where a key opens as of a HiveMember, else 0.
 */
typedef struct {
    HiveAnswer answer;
    uint64_t state;
    uint64_t depth;
    uint64_t name;
    uint64_t length;
    uint64_t narrow;
} HiveWalk;
HIVE_ASSERT(offsetof(HiveWalk, answer) == 0);
HIVE_ASSERT(offsetof(HiveWalk, state) == 16);
HIVE_ASSERT(offsetof(HiveWalk, depth) == 24);
HIVE_ASSERT(offsetof(HiveWalk, name) == 32);
HIVE_ASSERT(offsetof(HiveWalk, length) == 40);
HIVE_ASSERT(offsetof(HiveWalk, narrow) == 48);
HIVE_ASSERT(sizeof(HiveWalk) == 56);

/* One frame of an export. state: HIVE_REFUSED; HIVE_NO_MORE: there is no frame of that number; HIVE_WRITTEN. length: how many bytes were
 * written, else 0.
 */
typedef struct {
    HiveAnswer answer;
    uint64_t state;
    uint64_t length;
} HiveFrame;
HIVE_ASSERT(offsetof(HiveFrame, answer) == 0);
HIVE_ASSERT(offsetof(HiveFrame, state) == 16);
HIVE_ASSERT(offsetof(HiveFrame, length) == 24);
HIVE_ASSERT(sizeof(HiveFrame) == 32);

/* Where an export stands. state: HIVE_REFUSED; HIVE_NO_MORE: all frames were written; HIVE_WRITTEN. depth, due: what the next run is asked
 * with; where nothing was written they are those that were given. frames, bytes: how many this run wrote, else 0.
 */
typedef struct {
    HiveAnswer answer;
    uint64_t state;
    uint64_t depth;
    uint64_t due;
    uint64_t frames;
    uint64_t bytes;
} HiveExport;
HIVE_ASSERT(offsetof(HiveExport, answer) == 0);
HIVE_ASSERT(offsetof(HiveExport, state) == 16);
HIVE_ASSERT(offsetof(HiveExport, depth) == 24);
HIVE_ASSERT(offsetof(HiveExport, due) == 32);
HIVE_ASSERT(offsetof(HiveExport, frames) == 40);
HIVE_ASSERT(offsetof(HiveExport, bytes) == 48);
HIVE_ASSERT(sizeof(HiveExport) == 56);

/* What a stream makes. at: for 30 to 38 where in the stream the frame at fault starts; its end where a key stays open; else 0. It
 * is a position in the stream, of 64 bits, and neither an offset nor a place in a hive. length: how many bytes the hive has, 4096
 * and its bins size; 0 where number is not 0.
 */
typedef struct {
    HiveAnswer answer;
    uint64_t at;
    uint64_t length;
} HiveBuilt;
HIVE_ASSERT(offsetof(HiveBuilt, answer) == 0);
HIVE_ASSERT(offsetof(HiveBuilt, at) == 16);
HIVE_ASSERT(offsetof(HiveBuilt, length) == 24);
HIVE_ASSERT(sizeof(HiveBuilt) == 32);

/* A key or value record that deletion left in a free cell. state: HIVE_REFUSED, HIVE_NO_MORE or HIVE_THERE; then answer.value is
 * its offset, that of the size field of the cell that it once had: the record starts 4 bytes further on. kind: HIVE_OLD_KEY or
 * HIVE_OLD_VALUE. name, length, narrow: as of a HiveMember. Nothing else of the record was judged.
 */
typedef struct {
    HiveAnswer answer;
    uint64_t state;
    uint64_t kind;
    uint64_t name;
    uint64_t length;
    uint64_t narrow;
} HiveRemnant;
HIVE_ASSERT(offsetof(HiveRemnant, answer) == 0);
HIVE_ASSERT(offsetof(HiveRemnant, state) == 16);
HIVE_ASSERT(offsetof(HiveRemnant, kind) == 24);
HIVE_ASSERT(offsetof(HiveRemnant, name) == 32);
HIVE_ASSERT(offsetof(HiveRemnant, length) == 40);
HIVE_ASSERT(offsetof(HiveRemnant, narrow) == 48);
HIVE_ASSERT(sizeof(HiveRemnant) == 56);

/* state: HIVE_REFUSED, HIVE_NO_MORE, or HIVE_THERE where rows were written; rows: how many. */
typedef struct {
    HiveAnswer answer;
    uint64_t state;
    uint64_t rows;
} HiveRows;
HIVE_ASSERT(offsetof(HiveRows, answer) == 0);
HIVE_ASSERT(offsetof(HiveRows, state) == 16);
HIVE_ASSERT(offsetof(HiveRows, rows) == 24);
HIVE_ASSERT(sizeof(HiveRows) == 32);

/* An answer of recovery. state: HIVE_REFUSED; HIVE_CLEAN: nothing is to be done and nothing was changed; HIVE_DONE: accepted or done.
 * pages: the number of pages that the log holds, where hive_recover_start accepts it or hive_recover_mark_pages is done, else 0.
 */
typedef struct {
    HiveAnswer answer;
    uint64_t state;
    uint64_t pages;
} HiveRecovery;
HIVE_ASSERT(offsetof(HiveRecovery, answer) == 0);
HIVE_ASSERT(offsetof(HiveRecovery, state) == 16);
HIVE_ASSERT(offsetof(HiveRecovery, pages) == 24);
HIVE_ASSERT(sizeof(HiveRecovery) == 32);

/* A page of a log. state: HIVE_REFUSED, HIVE_NO_MORE or HIVE_THERE. page: its number. from: where its 512 bytes lie in the log.
 * to: where they go in the hive. Both are places in the file.
 */
typedef struct {
    HiveAnswer answer;
    uint64_t state;
    uint64_t page;
    uint64_t from;
    uint64_t to;
} HivePage;
HIVE_ASSERT(offsetof(HivePage, answer) == 0);
HIVE_ASSERT(offsetof(HivePage, state) == 16);
HIVE_ASSERT(offsetof(HivePage, page) == 24);
HIVE_ASSERT(offsetof(HivePage, from) == 32);
HIVE_ASSERT(offsetof(HivePage, to) == 40);
HIVE_ASSERT(sizeof(HivePage) == 48);

/* A page that a log marks. state: HIVE_REFUSED, HIVE_NO_MORE or HIVE_THERE. page: its number. to: where its 512 bytes go in the
 * hive, a place in the file.
 */
typedef struct {
    HiveAnswer answer;
    uint64_t state;
    uint64_t page;
    uint64_t to;
} HiveMark;
HIVE_ASSERT(offsetof(HiveMark, answer) == 0);
HIVE_ASSERT(offsetof(HiveMark, state) == 16);
HIVE_ASSERT(offsetof(HiveMark, page) == 24);
HIVE_ASSERT(offsetof(HiveMark, to) == 32);
HIVE_ASSERT(sizeof(HiveMark) == 40);

/* What a log says of itself. entries: how many entries of a log of type 6 count. first, last: the numbers of the first and the last
 * of them. end: where the last ends in the log. bins: the largest bins size, so that the hive needs 4096 + bins bytes. A log of type 1
 * or 2 has no entries: entries is 0, first and last are its own number, and end is 512.
 */
typedef struct {
    HiveAnswer answer;
    uint64_t entries;
    uint64_t first;
    uint64_t last;
    uint64_t end;
    uint64_t bins;
} HiveLog;
HIVE_ASSERT(offsetof(HiveLog, answer) == 0);
HIVE_ASSERT(offsetof(HiveLog, entries) == 16);
HIVE_ASSERT(offsetof(HiveLog, first) == 24);
HIVE_ASSERT(offsetof(HiveLog, last) == 32);
HIVE_ASSERT(offsetof(HiveLog, end) == 40);
HIVE_ASSERT(offsetof(HiveLog, bins) == 48);
HIVE_ASSERT(sizeof(HiveLog) == 56);

/* The version of this interface: 3. Structs, functions and constants of one version never change. In version 3 every state has a number
 * of its own; in 2 and 1 four of them were 2. Version 2 named the key of a refusal, which was HIVE_NO_KEY, always, in version 1.
 */
uint32_t hive_abi(void);

/* Checks a hive wholly: base block, bins, cells, the tree of keys, values and data from the root, and the keys' security items.
 * Number 0 means that all of it is sound, and the report counts what is there. The first fault answers, in this order: 1 to 8;
 * 9 and 10, bin by bin; then 11 to 15 and 29 from the root, each key wholly before its next sibling: its parent, its order, the
 * hash or hint beside it, its level, its values with their data, 29, its lists and their total; then 28. 29 is the first value
 * of the key's list that has the name of one before it, in either case (place: that value). 28 is the root's own security
 * offset (place: the root); the items from the root's on along their forward links, each for the room of its descriptor, its
 * forward link, which must lead to an item that links back, and its count of keys (place: the item); and the keys whose offset
 * names no item of that ring, in the order of the walk (place: the key). What a descriptor says is not judged.
 *
 * map is a work map of at least bins size / 64 bytes; 33,554,368 are enough for any hive. Afterwards bit b of byte j (lowest bit
 * first) is set exactly when a cell in use starts at offset 64 j + 8 b. Bytes past bins size / 64 stay. Refusals 1 to 8 leave
 * the map as it was, 9 and 10 leave its first bins size / 64 bytes zero, later ones leave it complete.
 */
HiveReport hive_check(const uint8_t *hive, size_t hive_len, uint8_t *map, size_t map_len);

/* Finds a key by its path and answers its offset in `value`. The path is UTF-16 units split at backslash, with none at its
 * ends; of no units it names the root. Names are compared by code after upper-casing a to z, 0xE0 to 0xFE except 0xF7 (each
 * 32 down) and 0xFF (to 0x0178). A hive that the check refuses can be asked too. Refuses 1 to 7, 16, 11 and 12 of the
 * records on the way, 17.
 */
HiveAnswer hive_find_key(const uint8_t *hive, size_t hive_len, const uint16_t *path, size_t path_len);

/* The type, form, place and length of a value's data: the first value of that name of the key of that path. A name of no units
 * is the unnamed value. Its data's cells are tested. Refuses 1 to 7, 16, 11 and 12 of the records on the way, 17, 18, then 11 and 12 of the data.
 */
HiveValue hive_value_info(const uint8_t *hive, size_t hive_len, const uint16_t *path, size_t path_len, const uint16_t *name, size_t name_len);

/* The same for a caller who wants to read the data where they lie: with number 0 they are the `length` bytes from hive + at.
 * Data in segments do not lie in one piece and are refused with 19, at the value's offset, before any data cell is read.
 */
HiveValue hive_value_view(const uint8_t *hive, size_t hive_len, const uint16_t *path, size_t path_len, const uint16_t *name, size_t name_len);

/* Copies a value's data, segments joined, to the front of `out`. The bytes behind them stay. Refuses as hive_value_info does,
 * then 20 where `out` is shorter than the data. A refusal leaves `out` as it was. 1,048,576 bytes are enough for any value.
 */
HiveCopy hive_value_copy(const uint8_t *hive, size_t hive_len, const uint16_t *path, size_t path_len, const uint16_t *name, size_t name_len, uint8_t *out, size_t out_len);

/* Finds a key as hive_find_key does, by halving: a key's leaves by the first and last name of each, then one leaf. So it reads some
 * 30 key records for each part of the path, where hive_find_key reads those of all siblings up to the match. On a hive that
 * hive_check accepts the two answer the same.
 *
 * They may differ only on a hive that hive_check refuses. Each tests what it reads (11, 12), and hive_quick_key reads less: in lists
 * that are not sorted it may miss a key (17) or find another of that name, and it may pass by a fault that hive_find_key would meet.
 * A key that it finds has the name that was asked for, in any hive, and it never takes more than 16 + 16 turns for a part: lists that
 * name a leaf again and again do not make it slow.
 */
HiveAnswer hive_quick_key(const uint8_t *hive, size_t hive_len, const uint16_t *path, size_t path_len);

/* As hive_value_info, of the key that hive_quick_key finds: the two answer the same on a hive that hive_check accepts. The values of
 * a key have no order and are read one after the other.
 */
HiveValue hive_quick_info(const uint8_t *hive, size_t hive_len, const uint16_t *path, size_t path_len, const uint16_t *name, size_t name_len);

/* As hive_value_view, of the key that hive_quick_key finds. */
HiveValue hive_quick_view(const uint8_t *hive, size_t hive_len, const uint16_t *path, size_t path_len, const uint16_t *name, size_t name_len);

/* As hive_value_copy, of the key that hive_quick_key finds. A refusal leaves `out` as it was. */
HiveCopy hive_quick_copy(const uint8_t *hive, size_t hive_len, const uint16_t *path, size_t path_len, const uint16_t *name, size_t name_len, uint8_t *out, size_t out_len);

/* One step of a path: finds the child of that name of the key at an offset and answers its offset in `value`, so that a caller who holds a
 * key need not give its path again. The name is that of one part: of 1 to 255 units with no backslash among them, else 16. Names are
 * compared as hive_find_key does, which answers for a path as a step for each of its parts, one after the other. Any offset can be asked,
 * and a hive that the check refuses too. Refuses 1 to 7, 16, 11 and 12 of the given key, then with it as the key 11 and 12 of the records
 * on the way, 17.
 */
HiveAnswer hive_child_of(const uint8_t *hive, size_t hive_len, uint32_t key, const uint16_t *name, size_t name_len);

/* As hive_child_of, by halving, as hive_quick_key does it. In a hive that hive_check accepts the two answer the same for every key of its
 * tree; else hive_quick_key says how they may differ.
 */
HiveAnswer hive_quick_child_of(const uint8_t *hive, size_t hive_len, uint32_t key, const uint16_t *name, size_t name_len);

/* Finds the first value of that name of the key at an offset and answers its offset in `value`, which hive_value_at and hive_copy_at take:
 * the two calls answer as hive_value_info and hive_value_copy do of a path that leads to that key. The name is of any units; one of none is
 * the unnamed value. Refuses 1 to 7, 11 and 12 of the given key, then with it as the key 11 and 12 of its value list and its values, 18.
 */
HiveAnswer hive_value_of(const uint8_t *hive, size_t hive_len, uint32_t key, const uint16_t *name, size_t name_len);

/* Subkey n, from 0 on, of the key at an offset, in the order of its lists. Start with 0, and go on with n + 1 until
 * HIVE_NO_MORE. A hive that the check refuses can be asked too, and any offset. Refuses 1 to 7, then 11 and 12 of the records on
 * the way.
 */
HiveMember hive_nth_subkey(const uint8_t *hive, size_t hive_len, uint32_t key, size_t n);

/* Value n, from 0 on, of the key at an offset, in the order of its value list. A name of no bytes is the unnamed value's.
 * Refuses as hive_nth_subkey does.
 */
HiveMember hive_nth_value(const uint8_t *hive, size_t hive_len, uint32_t key, size_t n);

/* The type, form, place and length of the data of the value at an offset, as hive_value_info answers. Refuses 1 to 7, then 11
 * and 12 of the value and of its data.
 */
HiveValue hive_value_at(const uint8_t *hive, size_t hive_len, uint32_t value);

/* Copies the data of the value at an offset, as hive_value_copy does: the only way to a second value of one name. Refuses as
 * hive_value_at does, then 20. A refusal leaves `out` as it was.
 */
HiveCopy hive_copy_at(const uint8_t *hive, size_t hive_len, uint32_t value, uint8_t *out, size_t out_len);

/* What the record of the key at an offset says of it. Refuses 1 to 7, then 11 and 12 of the key. */
HiveKey hive_key_at(const uint8_t *hive, size_t hive_len, uint32_t key);

/* Where the class name of the key at an offset lies, and how long it is; length 0 where it has none. Windows stores UTF-16LE there;
 * what it holds is not judged, and hive_check reads no class names. Its cell is tested as one of a value's data. Refuses 1 to 7, 11
 * and 12 of the key, then 11 and 12 of the class name's cell.
 */
HivePiece hive_key_class(const uint8_t *hive, size_t hive_len, uint32_t key);

/* Where the security descriptor of the key at an offset lies, and how long it is: that of the security item that the key names. On
 * a hive that hive_check accepts every key has one. What it says is not judged; the item's links and count are hive_check's. Refuses
 * 1 to 7, 11 and 12 of the key, then 11 and 12 of the item.
 */
HivePiece hive_key_security(const uint8_t *hive, size_t hive_len, uint32_t key);

/* Starts a walk over all keys, each before those below it: opens the root. levels is a cursor that the caller lends, three words for
 * each open key: its offset, the number of the leaf of its list and of the element in it that come next. 1,539 words are enough for
 * any hive that hive_check accepts. Refuses 1 to 7, 11 and 12 of the root, then 20 where there are fewer than three words. A refusal
 * leaves the words as they were.
 */
HiveWalk hive_walk_begin(const uint8_t *hive, size_t hive_len, uint32_t *levels, size_t levels_len);

/* The next event of a walk: the next child of the last open key opens, or that key closes, or with depth 0 it is over. Start with
 * hive_walk_begin, and go on with the depth of each answer until HIVE_OVER. On a hive that hive_check accepts every key opens once, and
 * closes after all below it, and there is no refusal: a caller who lists keys needs no test for one that comes twice.
 *
 * The words and the depth may be any: a copy of them goes on from there, and { key, 0, 0 } with depth 1 walks what is below a key. On a
 * hive that hive_check refuses a walk may take some 2^512 steps: check first, or count them. Refuses 1 to 7; 20 where the words are fewer
 * than 3 x depth; 11 and 12 of the open key, of its list, the leaf and the child; 15 at a child below 513 open keys; 20 where there is
 * no room for the child. Only where a key opens the words change: those of the open key and the three behind them.
 */
HiveWalk hive_walk_step(const uint8_t *hive, size_t hive_len, uint32_t *levels, size_t levels_len, size_t depth);

/* Writes frame n of the hive's export, counted from 0, to the start of out: each key's opening frame, its values, its subkeys' frames and
 * its closing frame, as docs/FRAMES.md lays them out. Every step checks the hive first, with a work map as of hive_check, and refuses
 * what that refuses. Past the last frame it is HIVE_NO_MORE. 20, with the frame's key, where the frame is longer than out: ask again with
 * more room; no frame is longer than 1,081,356 bytes. Only where a frame is written out changes, and only its first bytes.
 */
HiveFrame hive_export_step(const uint8_t *hive, size_t hive_len, uint8_t *map, size_t map_len, size_t n, uint8_t *out, size_t out_len);

/* Starts an export in runs: checks the hive, with a work map as of hive_check, and opens the root. levels are 1,539 words that the caller
 * lends: with fewer it is 20. A refusal leaves the words as they were.
 */
HiveExport hive_export_begin(const uint8_t *hive, size_t hive_len, uint8_t *map, size_t map_len, uint32_t *levels, size_t levels_len);

/* As many whole frames as out has room for, one after the other, from where the last run or hive_export_begin ended: its depth and due, and
 * the words as they were left. Go on until HIVE_NO_MORE; all runs together wrote what hive_export_step gives frame by frame. Where not
 * even one frame fits it is 20, with the frame's key: ask again with more room.
 *
 * The hive is not checked again: that would read all of it for each run. In a hive that was accepted, and with words, depth and due as they
 * were left, there is no other refusal. With any others the stream is wrong, or a run refuses 1 to 7, 20 where there are fewer than 1,539
 * or 3 x depth words, 11, 12 and 15; but nothing outside is read or written, whatever they are. HIVE_NO_MORE and refusals leave out and
 * the words.
 */
HiveExport hive_export_run(const uint8_t *hive, size_t hive_len, uint32_t *levels, size_t levels_len, size_t depth, size_t due, uint8_t *out, size_t out_len);

/* How long the hive is that hive_build would make of a stream and a descriptor of so many bytes: what hive_build answers with room
 * enough. Lend so many bytes. Refuses 30 to 39, as hive_build does. Nothing is written.
 */
HiveBuilt hive_build_size(const uint8_t *stream, size_t stream_len, size_t descriptor_len);

/* Makes a hive of version 1.5 from a stream of frames, as an export writes them (docs/FRAMES.md), and one security descriptor,
 * which all keys share. Every byte of it is laid down in docs/LAYOUT.md; nothing depends on a clock. With number 0 the first
 * `length` bytes of out are the hive, and those behind them stay: hive_check accepts it, and its export is the stream again, byte
 * for byte. The descriptor is not judged and may be empty.
 *
 * Refuses frame by frame, and of one frame the lowest number: 30, no frame is laid out there; 31, a value after a subkey; 32,
 * outside of the one root key, or the stream ends while a key is open or has no frame; 33, a subkey's name that is not above that
 * of the subkey before it (with a to z, 0xE0 to 0xFE except 0xF7, and 0xFF as capitals); 34, a value with the name of one before
 * it in its key, compared in the same way; 35, a key's name of no characters, of more than 255 or with a backslash, or a value's of
 * more than 16,383; 36, data of more than 1,048,576 bytes; 37, a key at level 513, the root being 0; 38, subkey 65,536 of a key.
 * After all frames: 39, the bins size would be over 2,147,479,552; then 20, the hive is longer than out. A refusal leaves out as it
 * was.
 */
HiveBuilt hive_build(const uint8_t *stream, size_t stream_len, const uint8_t *descriptor, size_t descriptor_len, uint8_t *out, size_t out_len);

/* The first record that deletion left in a free cell, at or past an offset in the bins data: at a multiple of 8 inside the cell
 * (its start counts), with "nk" or "vk" 4 bytes further on, ending inside the cell, with an admissible name. Start with 0, and go
 * on with its offset + 1 until HIVE_NO_MORE. The tree is not walked, so it may be broken. Refuses 1 to 7, 9 and 10, and tests all
 * bins and cells each time: hive_remnants does it once for many.
 */
HiveRemnant hive_next_remnant(const uint8_t *hive, size_t hive_len, size_t from);

/* All that hive_next_remnant would find from an offset on, in one pass: four words for each, its offset, HIVE_OLD_KEY or
 * HIVE_OLD_VALUE, the length of its name in bytes, 1 where a byte is a character or 0 in UTF-16LE; as many whole rows as there is
 * room for. The name stands at 4096 + offset + 80 of the file for a key, + 24 for a value. With as many rows as there was room for,
 * go on with the last offset + 1. Refuses 1 to 7, 9 and 10, then 20 where one is left and `rows` has fewer than four words. The
 * words behind the last row stay; a refusal and HIVE_NO_MORE leave all of them.
 */
HiveRows hive_remnants(const uint8_t *hive, size_t hive_len, size_t from, uint32_t *rows, size_t rows_len);

/* Whether a log repairs this hive: one of the old format (file type 1 or 2), or one of Windows 8.1 and later (type 6). A hive that
 * needs no repair answers HIVE_CLEAN, whatever the log. Refuses 1, 21, 22, 23, 22, 24, 25, in this order; 23 never for type 6.
 *
 * A repair: start; hive_recover_all; for each page that hive_recover_mark_pages marks store its 512 bytes in the file; wait until
 * they are on the disk; hive_recover_close; store the first 512 bytes; wait again. After a power failure, or in doubt, do all of it
 * again with the file as it is: the outcome is the same file, byte for byte. One page at a time does as well, by hive_recover_page
 * for each page of hive_recover_next, but each of these calls makes all tests anew.
 *
 * In all calls of the repair the hive is private memory, never a shared mapping of the file: hive_recover_close writes the first
 * sector in two steps, and the file must see them as one.
 */
HiveRecovery hive_recover_start(const uint8_t *hive, size_t hive_len, const uint8_t *log, size_t log_len);

/* Installs the logged page of that number in the hive in memory: 512 bytes at 4096 + 512 x page become the log's, and no other
 * byte changes. HIVE_DONE where it did. Makes all tests of hive_recover_start first and refuses as it does, then 26. A refusal,
 * and HIVE_CLEAN, leave the hive as it was.
 */
HiveRecovery hive_recover_page(uint8_t *hive, size_t hive_len, const uint8_t *log, size_t log_len, size_t page);

/* Writes the closing sector to the first 512 bytes of the hive in memory, once every logged page is in: the log's first 512
 * bytes with file type 0 and a new checksum; for type 6 also with the last entry's number and bins size. No other byte changes. Makes all tests of hive_recover_start first and refuses as
 * it does, then 27. A refusal, and HIVE_CLEAN, leave the hive as it was. Store these bytes only when all pages are on the disk.
 */
HiveRecovery hive_recover_close(uint8_t *hive, size_t hive_len, const uint8_t *log, size_t log_len);

/* The least page that the log holds, at or after a number. Refuses 21, 22, 23, 22, in this order. Start with 0, and go on with
 * page + 1 until HIVE_NO_MORE.
 */
HivePage hive_recover_next(const uint8_t *log, size_t log_len, size_t from);

/* Installs every page that the log holds in the hive in memory, after one round of tests: what hive_recover_page does for each
 * page in turn. HIVE_DONE where it did. Refuses as hive_recover_start does. A refusal, and HIVE_CLEAN, leave the hive as it was.
 */
HiveRecovery hive_recover_all(uint8_t *hive, size_t hive_len, const uint8_t *log, size_t log_len);

/* The least page that the log marks, at or after a number: the pages that hive_recover_all has installed, one after the other.
 * Unlike hive_recover_next it counts nothing and does not say where the page lies in the log. Refuses 21, 22 for the bitmap,
 * 23, in this order. Start with 0, and go on with page + 1 until HIVE_NO_MORE.
 */
HiveMark hive_recover_mark(const uint8_t *log, size_t log_len, size_t from);

/* Marks every page that the log holds in a lent map, lowest bit first: page n is bit n % 8 of byte n / 8, and it goes to
 * 4096 + 512 x n in the hive. The map needs bins size / 4096 bytes (see hive_recover_log); those beyond stay. HIVE_DONE where it
 * did, with the number of pages. Reads the log once, where hive_recover_mark reads it for each page. Refuses 21, 22, 23, 22, in
 * this order, then 8. A refusal leaves the map as it was.
 */
HiveRecovery hive_recover_mark_pages(const uint8_t *log, size_t log_len, uint8_t *map, size_t map_len);

/* What a log says of itself. Where the first number of one log of type 6 follows the last of another, the one up to its end with the
 * other from 512 on is a log. Refuses 21, 22, 23, 22, in this order.
 */
HiveLog hive_recover_log(const uint8_t *log, size_t log_len);

/* Without a log: makes a dirty hive in memory one that the reader's calls take as it is, with what its log would still change missing.
 * Where the sequence numbers differ and nothing else of 1 to 7 is wrong, bytes 8 to 11 become bytes 4 to 7, the checksum at 508 is
 * renewed, and it is HIVE_DONE; a hive with none of 1 to 7 is HIVE_CLEAN, and nothing changes. Any other is refused, 1 to 6, and
 * nothing changes. After HIVE_DONE or HIVE_CLEAN no call refuses 1 to 7. Never store such a first sector in the file: the file would
 * look clean, and its log would never be asked again.
 */
HiveRecovery hive_settle(uint8_t *hive, size_t hive_len);

/* The order of two names, each in UTF-16 units, as the check and the lookups compare names: by code, with a to z, 0xE0 to 0xFE except
 * 0xF7, and 0xFF as capitals, and a prefix before the longer name. HIVE_BEFORE where the first comes before the second, HIVE_SAME
 * where they are the same name, HIVE_AFTER where it comes after. Any units will do, none too.
 */
uint32_t hive_name_order(const uint16_t *a, size_t a_len, const uint16_t *b, size_t b_len);

#ifdef __cplusplus
}
#endif

#undef HIVE_ASSERT
#endif
