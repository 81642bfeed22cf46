/* Makes hives and logs for the tests. */
#ifndef BUILD_H
#define BUILD_H

#include <stdbool.h>
#include <stddef.h>
#include <stdint.h>

typedef struct {
    uint8_t *file;   /* 4096 bytes and the bins data: one bin */
    size_t bins;     /* its size */
    uint32_t next;   /* where the next cell goes */
    uint32_t root;
    uint32_t minor;
    uint32_t item;   /* the security item of all keys, or 0: finish makes it */
} Made;

void put16(uint8_t *at, uint32_t n);
void put32(uint8_t *at, uint32_t n);
uint32_t get32(const uint8_t *at);
uint32_t xor_of(const uint8_t *block);
uint32_t checksum(const uint8_t *block); /* that XOR as it is stored: 0 as 1, and all ones as 0xfffffffe */
void reseal(uint8_t *block);

Made made(size_t bins, uint32_t minor);
Made made_in(uint8_t *file, size_t bins, uint32_t minor); /* in memory that is zero */
size_t made_length(const Made *m);
uint8_t *data_of(const Made *m, uint32_t cell);
uint32_t new_cell(Made *m, size_t length);
uint32_t new_key(Made *m, const char *name, uint32_t parent);
uint32_t new_leaf(Made *m, const char *kind, const uint32_t *keys, size_t count); /* with the hash or the hint of names of one-byte characters */
uint32_t new_index(Made *m, const uint32_t *leaves, size_t count);
uint32_t new_value(Made *m, const char *name, uint32_t type, const uint8_t *data, size_t length);
uint32_t new_item(Made *m, size_t room); /* linked to itself, named by no key, with room for a descriptor */
void hang_keys(Made *m, uint32_t key, uint32_t list, uint32_t count);
void hang_values(Made *m, uint32_t key, const uint32_t *values, size_t count);
void finish(Made *m);
uint32_t secure(Made *m, uint32_t key, uint32_t item); /* this key and all below it name the item; how many they are */

/* A hive with keys in li, lf, lh and ri lists, and values of each form and of many types. */
Made sample(void);

/* The log that turns any hive that differs from `good` only in the marked pages, and in its sequence numbers, into it. */
typedef struct {
    uint8_t *at;
    size_t length;
} Log;
Log made_log(const Made *good, const uint32_t *pages, size_t count);

/* A log of Windows 8.1 and later: its first sector, of that number; then entries, with those pages of a file. A page of an older version differs in its middle. */
enum Version { LAST, OLDER };
uint64_t marvin(const uint8_t *message, size_t length);
void rehash(uint8_t *entry);
Log new_log(const Made *good, uint32_t number);
void add_entry(Log *log, uint32_t number, const Made *good, const uint32_t *pages, size_t count, enum Version version);

/* The state before: those pages are overwritten, and the sequence numbers differ. */
uint8_t *spoilt(const Made *good, const uint32_t *pages, size_t count);

#endif
