/* The bytes that a key names beside its lists and values: its class name and its security descriptor. What is lent ends at an unreadable page. */
#include "fixtures.h"
#include "expect.h"
#include "lend.h"

enum { CELL_ROOM = 12, ITEM_ROOM = 8, SK_HEAD = 20, CLASS_AT = 48, CLASS_LENGTH = 74, SECURITY_AT = 44, SIZE_AT = 16 };

/* A root with one subkey, which has the class name cell and names the item. */
typedef struct {
    Made m;
    uint32_t key, cell, item;
} Keyed;

static Keyed keyed(void)
{
    Keyed k = {.m = made(4096, 5)};
    k.m.root = new_key(&k.m, "R", 0);
    k.key = new_key(&k.m, "k", k.m.root);
    hang_keys(&k.m, k.m.root, new_leaf(&k.m, "lh", &k.key, 1), 1);
    k.cell = new_cell(&k.m, CELL_ROOM);
    memcpy(data_of(&k.m, k.cell), "C\0l\0a\0s\0s\0!", CELL_ROOM);
    put32(data_of(&k.m, k.key) + CLASS_AT, k.cell);
    k.item = k.m.item = new_item(&k.m, ITEM_ROOM);
    finish(&k.m);
    return k;
}

typedef HivePiece Call(const uint8_t *, size_t, uint32_t);

/* What a call says; what it points to lies in the file, and a refusal points nowhere. */
static HivePiece asked(Call *call, const Keyed *k, uint32_t key)
{
    size_t n = made_length(&k->m);
    HivePiece p = call(lend(0, k->m.file, n), n, key);
    EXPECT(p.at + p.length <= n && (p.answer.number == 0 || p.at + p.length == 0));
    return p;
}

static void refuses(Call *call, const Keyed *k, uint32_t number, uint32_t place)
{
    EXPECT(in(asked(call, k, k->key).answer, number, place, k->key));
}

static void finds(Call *call, const Keyed *k, uint64_t at, uint64_t length)
{
    HivePiece p = asked(call, k, k->key);
    EXPECT(is(p.answer, 0, 0) && p.at == at && p.length == length);
}

static bool accepted(const Keyed *k)
{
    uint8_t map[64];
    return hive_check(k->m.file, made_length(&k->m), map, sizeof map).answer.number == 0;
}

/* Offsets that name no cell in use: low, odd, past the end, a free cell's, and a cell whose size is none. */
static void no_cells(Call *call, Keyed *k, uint32_t field)
{
    uint8_t *at = data_of(&k->m, k->key) + field;
    uint32_t old = get32(at);
    const uint32_t bad[] = {0, 24, old + 4, old + 1, k->m.next, 4096, 4092, 0x80000000, 0xfffffff8, 0xffffffff};
    for (size_t i = 0; i < sizeof bad / sizeof bad[0]; i++) {
        put32(at, bad[i]);
        refuses(call, k, HIVE_FAULT_NO_CELL, bad[i]);
    }
    put32(at, old);
    for (int i = 0; i < 5; i++) {
        uint32_t size = get32(k->m.file + 4096 + old);
        put32(k->m.file + 4096 + old, (uint32_t[]){0, 16, 0xfffffff4, 0xffff0000, 0x80000000}[i]);
        refuses(call, k, HIVE_FAULT_NO_CELL, old);
        put32(k->m.file + 4096 + old, size);
    }
}

/* Of length 0 there is none, wherever the offset leads. */
static void t_no_class(void)
{
    Keyed k = keyed();
    for (int i = 0; i < 5; i++) {
        put32(data_of(&k.m, k.key) + CLASS_AT, (uint32_t[]){k.cell, 0, 3, 4096, 0xffffffff}[i]);
        finds(hive_key_class, &k, 0, 0);
    }
    EXPECT(accepted(&k));
    free(k.m.file);
}

/* Up to the end of its cell, and not past it. The check reads none of it. */
static void t_class(void)
{
    Keyed k = keyed();
    uint8_t *length = data_of(&k.m, k.key) + CLASS_LENGTH;
    for (uint32_t n = 1; n <= CELL_ROOM; n++) {
        put16(length, n);
        finds(hive_key_class, &k, 4096 + k.cell + 4, n);
        EXPECT(memcmp(lend(0, k.m.file, made_length(&k.m)) + 4096 + k.cell + 4, "C\0l\0a\0s\0s\0!", n) == 0);
        no_cells(hive_key_class, &k, CLASS_AT);
    }
    for (int i = 0; i < 3; i++) {
        put16(length, (uint32_t[]){CELL_ROOM + 1, 0x8000, 0xffff}[i]);
        refuses(hive_key_class, &k, HIVE_FAULT_RECORD, k.cell);
        EXPECT(accepted(&k));
    }
    EXPECT(asked(hive_key_class, &k, k.m.root).length == 0);
    free(k.m.file);
}

static void t_security(void)
{
    Keyed k = keyed();
    uint8_t *item = data_of(&k.m, k.item);
    for (uint32_t n = 0; n <= ITEM_ROOM; n++) {
        put32(item + SIZE_AT, n);
        finds(hive_key_security, &k, 4096 + k.item + 4 + SK_HEAD, n);
        EXPECT(accepted(&k));
        no_cells(hive_key_security, &k, SECURITY_AT);
    }
    for (int i = 0; i < 5; i++) {
        put32(item + SIZE_AT, (uint32_t[]){ITEM_ROOM + 1, 0x7fffffff, 0xffffffeb, 0xffffffec, 0xffffffff}[i]);
        refuses(hive_key_security, &k, HIVE_FAULT_RECORD, k.item);
    }
    put32(item + SIZE_AT, 4);
    for (int i = 0; i < 2; i++) {
        item[i]++;
        refuses(hive_key_security, &k, HIVE_FAULT_RECORD, k.item);
        item[i]--;
    }
    memset(item + 4, 0xff, 12); /* its links and its count are the check's */
    finds(hive_key_security, &k, 4096 + k.item + 4 + SK_HEAD, 4);
    EXPECT(!accepted(&k));
    free(k.m.file);
}

/* A cell that is too small for an item, and other records. */
static void t_no_item(void)
{
    Keyed k = keyed();
    memcpy(data_of(&k.m, k.cell), "sk", 2);
    const uint32_t others[] = {k.cell, k.key, k.m.root};
    for (int i = 0; i < 3; i++) {
        put32(data_of(&k.m, k.key) + SECURITY_AT, others[i]);
        refuses(hive_key_security, &k, HIVE_FAULT_RECORD, others[i]);
    }
    free(k.m.file);
}

/* The given key's own faults name no key, and a hive that is not clean is refused before. */
static void t_given(void)
{
    Call *calls[] = {hive_key_class, hive_key_security};
    for (int i = 0; i < 2; i++) {
        Keyed k = keyed();
        put16(data_of(&k.m, k.key) + CLASS_LENGTH, 0xffff);
        put32(data_of(&k.m, k.key) + SECURITY_AT, 0);
        EXPECT(is(asked(calls[i], &k, k.item).answer, HIVE_FAULT_RECORD, k.item) && is(asked(calls[i], &k, 4).answer, HIVE_FAULT_NO_CELL, 4));
        data_of(&k.m, k.key)[0] = 'x';
        EXPECT(is(asked(calls[i], &k, k.key).answer, HIVE_FAULT_RECORD, k.key));
        put32(k.m.file + 8, 9);
        reseal(k.m.file);
        EXPECT(is(asked(calls[i], &k, k.key).answer, HIVE_FAULT_SEQUENCES, 0));
        EXPECT(is(calls[i](NULL, 0, 32).answer, 1, 0) && is(calls[i](k.m.file, 4095, 32).answer, 1, 0));
        free(k.m.file);
    }
}

/* Every key of the sample has a descriptor that the check knows. */
static void t_sample(void)
{
    uint32_t words[1539];
    Keyed k = {.m = sample()};
    size_t n = made_length(&k.m), count = 0;
    for (HiveWalk w = hive_walk_begin(k.m.file, n, words, 1539); w.state == HIVE_OPENS || w.state == HIVE_CLOSES;
         w = hive_walk_step(k.m.file, n, words, 1539, w.depth)) {
        HivePiece p = asked(hive_key_security, &k, w.answer.value), c = asked(hive_key_class, &k, w.answer.value);
        EXPECT(p.answer.number == 0 && p.at == 4096 + k.m.item + 4 + SK_HEAD && c.answer.number == 0 && c.length == 0);
        count++;
    }
    EXPECT(count > 20);
    free(k.m.file);
}

int main(void)
{
    test("a key without a class name, wherever its offset leads", t_no_class);
    test("a class name: where it lies, and the faults of its cell", t_class);
    test("a descriptor: where it lies, and the faults of its item", t_security);
    test("what is no item", t_no_item);
    test("the given key's own faults, and a hive under repair", t_given);
    test("every key of a sound hive has its descriptor", t_sample);
    return counts();
}
