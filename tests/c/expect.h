/* What the tests of the calls share: each program counts its own. */
#ifndef EXPECT_H
#define EXPECT_H

#include <stdbool.h>
#include <stdio.h>

#include "../../include/kiweamotu.h"

enum { NO_KEY = 0xffffffff };

static int passed, failed;
static bool good;

#define EXPECT(x) expect(x, __FILE__, __LINE__, #x)

static void expect(bool x, const char *file, int line, const char *text)
{
    if (!x && good)
        printf("%s:%d: %s\n", file, line, text);
    good = good && x;
}

static void test(const char *name, void (*body)(void))
{
    good = true;
    body();
    printf("%s %s\n", good ? "ok" : "FAILED", name);
    fflush(stdout);
    good ? passed++ : failed++;
}

static int counts(void)
{
    printf("%d passed, %d failed\n", passed, failed);
    return failed != 0;
}

static bool in(HiveAnswer a, uint32_t number, uint32_t place, uint32_t key)
{
    return a.number == number && a.place == place && a.key == key && a.value == 0;
}

__attribute__((unused)) static bool is(HiveAnswer a, uint32_t number, uint32_t place)
{
    return in(a, number, place, NO_KEY);
}

#endif
