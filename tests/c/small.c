/* The states; the order of two names; a dirty hive made one that is read as it is. What is lent ends at an unreadable page. */
#include <stdlib.h>
#include <string.h>

#include "fixtures.h"
#include "expect.h"
#include "lend.h"

static uint64_t seed = 88172645463325252;

static uint32_t dice(void)
{
    seed ^= seed << 13;
    seed ^= seed >> 7;
    seed ^= seed << 17;
    return (uint32_t)(seed >> 32);
}

static void t_states(void)
{
    static const int states[] = {HIVE_REFUSED, HIVE_CLEAN, HIVE_DONE, HIVE_NO_MORE, HIVE_THERE, HIVE_OVER, HIVE_OPENS, HIVE_CLOSES, HIVE_WRITTEN};
    for (int i = 0; i < 9; i++)
        EXPECT(states[i] == i);
    EXPECT(hive_abi() == 3);
}

/* By both sides, which must agree. */
static int order(const uint16_t *a, size_t n, const uint16_t *b, size_t k)
{
    const uint16_t *x = (const uint16_t *)lend(0, a, 2 * n), *y = (const uint16_t *)lend(1, b, 2 * k);
    int r = (int)hive_name_order(x, n, y, k) - HIVE_SAME;
    EXPECT((int)hive_name_order(y, k, x, n) - HIVE_SAME == -r && r >= -1 && r <= 1);
    return r;
}

/* The paper's rule, said once more. */
static int capital(int c)
{
    return c == 0xff ? 0x178 : (c >= 'a' && c <= 'z') || (c >= 0xe0 && c <= 0xfe && c != 0xf7) ? c - 32 : c;
}

static int plain_order(const uint16_t *a, size_t n, const uint16_t *b, size_t k)
{
    for (size_t i = 0; i < n && i < k; i++)
        if (capital(a[i]) != capital(b[i]))
            return capital(a[i]) < capital(b[i]) ? -1 : 1;
    return n < k ? -1 : n > k;
}

static void t_order(void)
{
    static const struct {
        uint16_t a[4], b[4];
        size_t n, k;
        int order;
    } rows[] = {
        {{0}, {0}, 0, 0, 0},
        {{0}, {0}, 0, 1, -1},
        {{'a'}, {'A'}, 1, 1, 0},
        {{'A', 'b'}, {'a', 'B', '!'}, 2, 3, -1},
        {{'b'}, {'A', 'z'}, 1, 2, 1},
        {{'_'}, {'z'}, 1, 1, 1}, /* above the capitals, below the small letters */
        {{'{'}, {'z'}, 1, 1, 1},
        {{0xe9}, {0xc9}, 1, 1, 0},
        {{0xf7}, {0xd7}, 1, 1, 1},
        {{0xdf}, {0xff}, 1, 1, -1},
        {{0xff}, {0x178}, 1, 1, 0},
        {{0xff}, {0x177}, 1, 1, 1},
        {{0x100}, {0xff}, 1, 1, -1},
        {{0x436}, {0x416}, 1, 1, 1}, /* other alphabets have no capitals here */
        {{'a', 0}, {'a'}, 2, 1, 1},
        {{0xd800}, {0xffff}, 1, 1, -1},
    };
    for (size_t i = 0; i < sizeof rows / sizeof rows[0]; i++)
        EXPECT(order(rows[i].a, rows[i].n, rows[i].b, rows[i].k) == rows[i].order);
    EXPECT(hive_name_order(NULL, 0, NULL, 0) == HIVE_SAME && HIVE_BEFORE == 1 && HIVE_SAME == 2 && HIVE_AFTER == 3);
}

static void t_order_units(void)
{
    for (uint32_t c = 0; c < 65536; c++) {
        uint16_t a[2] = {'k', (uint16_t)c}, b[2] = {'K', (uint16_t)capital((int)c)}, d[2] = {'k', (uint16_t)(c + 1 + dice() % 3)};
        EXPECT(order(a, 2, b, 2) == 0 && order(a, 2, d, 2) == plain_order(a, 2, d, 2));
    }
}

static void t_order_random(void)
{
    static const uint16_t letters[] = {'a', 'A', 'b', 'B', 0xe9, 0xc9, 0xff, 0x178};
    static uint16_t a[300], b[300];
    int met[3] = {0};
    for (int round = 0; round < 50000; round++) {
        size_t n = dice() % (round % 100 == 0 ? 300 : 6), k = dice() % 2 ? n : dice() % 6;
        for (size_t i = 0; i < 300; i++) {
            a[i] = letters[dice() % 8];
            b[i] = dice() % 8 ? (uint16_t)(capital(a[i])) : letters[dice() % 8];
        }
        int r = order(a, n, b, k);
        EXPECT(r == plain_order(a, n, b, k));
        met[r + 1]++;
    }
    EXPECT(met[0] > 5000 && met[1] > 5000 && met[2] > 5000);
}

/* As it must be: the state by the check's number of 1 to 7, and no byte but 8 to 11 and 508 to 511 changes, those only where it is done. */
static HiveRecovery settled(uint8_t *file, size_t length)
{
    static uint8_t map[ROOM / 64], now[ROOM];
    uint32_t number = hive_check(file, length, map, length / 64).answer.number;
    memcpy(now, file, length);
    uint8_t *h = lend(0, file, length);
    HiveRecovery r = hive_settle(h, length);
    if (number >= 1 && number <= 6)
        EXPECT(is(r.answer, number, 0) && r.state == HIVE_REFUSED);
    else
        EXPECT(is(r.answer, 0, 0) && r.state == (number == 7 ? HIVE_DONE : HIVE_CLEAN));
    if (number == 7) {
        memcpy(now + 8, now + 4, 4);
        reseal(now);
        EXPECT(hive_settle(h, length).state == HIVE_CLEAN);
        number = hive_check(h, length, map, length / 64).answer.number;
        EXPECT(number == 0 || number > 7);
    }
    EXPECT(r.pages == 0 && memcmp(h, now, length) == 0);
    memcpy(file, now, length);
    return r;
}

/* A copy of a hive whose sequence numbers differ. */
static uint8_t *torn(const Made *m)
{
    uint8_t *file = malloc(made_length(m));
    memcpy(file, m->file, made_length(m));
    put32(file + 4, get32(file + 4) + 1);
    reseal(file);
    return file;
}

static void t_settle(void)
{
    Made m = sample();
    size_t n = made_length(&m);
    uint8_t *file = torn(&m), map[1024];
    EXPECT(is(hive_check(file, n, map, sizeof map).answer, 7, 0) && settled(file, n).state == HIVE_DONE);
    EXPECT(get32(file + 8) == get32(m.file + 8) + 1 && is(hive_check(file, n, map, sizeof map).answer, 0, 0));
    EXPECT(settled(file, n).state == HIVE_CLEAN && settled(m.file, n).state == HIVE_CLEAN && hive_recover_start(file, n, NULL, 0).state == HIVE_CLEAN);
    free(file);
    EXPECT(is(hive_settle(NULL, 0).answer, 1, 0));
    for (size_t k = 0; k < 4200; k += k < 600 || k > 4000 ? 1 : 100)
        EXPECT(is(settled(m.file, k).answer, k < 4096 ? 1 : 6, 0));
}

/* 2 to 6, each in a hive whose sequence numbers differ too: nothing is done. */
static void t_settle_refused(void)
{
    static const struct {
        size_t at;
        uint32_t value, number;
    } rows[] = {{0, 0, 2}, {20, 2, 4}, {24, 6, 4}, {28, 1, 4}, {32, 0, 4}, {44, 2, 4}, {40, 0, 5}, {40, 4097, 5}, {40, 0x80000000, 5}, {40, 0x7ffff000, 6}};
    Made m = sample();
    size_t n = made_length(&m);
    for (size_t i = 0; i < sizeof rows / sizeof rows[0]; i++) {
        uint8_t *file = torn(&m);
        put32(file + rows[i].at, rows[i].value);
        reseal(file);
        EXPECT(settled(file, n).answer.number == rows[i].number);
        free(file);
    }
    uint8_t *file = torn(&m);
    file[508] ^= 1;
    EXPECT(settled(file, n).answer.number == 3);
    free(file);
}

/* The two exceptions of the checksum: what the XOR comes to when the numbers are equal. */
static void t_settle_checksums(void)
{
    static const uint32_t rows[][2] = {{0, 1}, {0xffffffff, 0xfffffffe}, {1, 1}, {0xfffffffe, 0xfffffffe}};
    Made m = sample();
    for (int i = 0; i < 4; i++) {
        uint8_t *file = torn(&m);
        uint32_t second = get32(file + 8);
        memcpy(file + 8, file + 4, 4);
        put32(file + 200, get32(file + 200) ^ xor_of(file) ^ rows[i][0]);
        put32(file + 8, second);
        reseal(file);
        EXPECT(settled(file, made_length(&m)).state == HIVE_DONE && xor_of(file) == rows[i][0] && get32(file + 508) == rows[i][1]);
        free(file);
    }
}

static void t_settle_random(void)
{
    Made m = sample();
    size_t n = made_length(&m);
    uint8_t *file = malloc(n);
    int met[3] = {0};
    for (int round = 0; round < 5000; round++) {
        memcpy(file, m.file, n);
        for (int k = dice() % 3; k >= 0; k--)
            file[dice() % 2 ? 4 + dice() % 8 : dice() % 512] ^= 1 << dice() % 8;
        if (round % 8 != 0)
            reseal(file);
        met[settled(file, n).state]++;
    }
    EXPECT(met[HIVE_REFUSED] > 200 && met[HIVE_CLEAN] > 200 && met[HIVE_DONE] > 200);
    free(file);
}

int main(void)
{
    test("every state has a number of its own", t_states);
    test("the order of two names", t_order);
    test("the order of two names: every unit", t_order_units);
    test("the order of two names: random names", t_order_random);
    test("a dirty hive settled", t_settle);
    test("a dirty hive settled: each refusal", t_settle_refused);
    test("a dirty hive settled: checksums", t_settle_checksums);
    test("a dirty hive settled: changed bytes", t_settle_random);
    return counts();
}
