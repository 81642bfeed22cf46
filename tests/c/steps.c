/* From a key's offset: one step of a path, in turn and by halving, and the first value of a name. Each is compared with the calls that take a path. */
#include <stdlib.h>
#include <string.h>

#include "fixtures.h"
#include "expect.h"
#include "lend.h"
#include "wide.h"

static const char PRINT[] = "controlset001\\services\\eventlog\\application\\print";
enum { UNITS = 600 };

/* A text as units that end where an unreadable page starts. */
static const uint16_t *units(const char *text, size_t n)
{
    uint16_t buffer[UNITS];
    for (size_t i = 0; i < n; i++)
        buffer[i] = (uint8_t)text[i];
    return (const uint16_t *)(const void *)lend(1, buffer, n * sizeof buffer[0]);
}

static HiveAnswer child(const Made *m, uint32_t key, const char *name, size_t n)
{
    const uint8_t *h = lend(0, m->file, made_length(m));
    HiveAnswer a = hive_child_of(h, made_length(m), key, units(name, n), n), b = hive_quick_child_of(h, made_length(m), key, units(name, n), n);
    EXPECT(memcmp(&a, &b, sizeof a) == 0);
    return a;
}

static HiveAnswer step(const Made *m, uint32_t key, const char *name)
{
    return child(m, key, name, strlen(name));
}

static HiveAnswer by_path(const Made *m, const char *path)
{
    return hive_find_key(m->file, made_length(m), units(path, strlen(path)), strlen(path));
}

static HiveAnswer value(const Made *m, uint32_t key, const char *name, size_t n)
{
    return hive_value_of(lend(0, m->file, made_length(m)), made_length(m), key, units(name, n), n);
}

static bool at(HiveAnswer a, uint32_t offset)
{
    return a.number == 0 && a.place == 0 && a.key == NO_KEY && a.value == offset;
}

/* Along a path, a step for each part. */
static HiveAnswer by_steps(const Made *m, const char *path)
{
    HiveAnswer a = {.key = NO_KEY, .value = m->root};
    while (a.number == 0 && *path != 0) {
        const char *end = strchr(path, '\\');
        size_t n = end == NULL ? strlen(path) : (size_t)(end - path);
        a = child(m, a.value, path, n);
        path += n + (path[n] == '\\');
    }
    return a;
}

static void t_paths(void)
{
    static const char *const paths[] = {"a", "B", "a\\k1", "A\\K4", "a\\k7", "d", PRINT, "none", "a\\none", "a\\k1\\x", "controlset001\\services\\x\\y"};
    Made m = sample();
    for (size_t i = 0; i < sizeof paths / sizeof paths[0]; i++) {
        HiveAnswer a = by_path(&m, paths[i]), b = by_steps(&m, paths[i]);
        EXPECT(memcmp(&a, &b, sizeof a) == 0 && (a.number == 0) == (i < 7));
    }
    free(m.file);
}

static void t_refusals(void)
{
    char name[UNITS];
    Made m = sample();
    uint32_t a = by_path(&m, "a").value, list = get32(data_of(&m, a) + 28), k1 = by_path(&m, "a\\k1").value;
    memset(name, 'x', sizeof name);
    EXPECT(is(child(&m, a, "", 0), 16, 0) && is(child(&m, a, name, 256), 16, 0) && is(child(&m, a, name, UNITS), 16, 0));
    EXPECT(in(child(&m, a, name, 255), 17, 0, a) && in(step(&m, a, "b"), 17, 0, a) && in(step(&m, k1, "k1"), 17, 0, k1));
    EXPECT(is(step(&m, m.root, "a\\k1"), 16, 0) && is(step(&m, a, "\\"), 16, 0) && is(step(&m, a, "k1\\"), 16, 0));
    EXPECT(is(step(&m, 4, "k1"), 11, 4) && is(step(&m, list, "k1"), 12, list) && is(step(&m, 0xffffffff, "k1"), 11, 0xffffffff));
    EXPECT(is(step(&m, 4, ""), 16, 0));
    data_of(&m, k1)[0] = 'x';
    EXPECT(in(step(&m, a, "k1"), 12, k1, a));
    data_of(&m, list)[0] = 'x';
    EXPECT(in(step(&m, a, "k7"), 12, list, a) && at(step(&m, m.root, "a"), a));
    put32(m.file + 8, 9);
    reseal(m.file);
    EXPECT(is(step(&m, a, "k7"), 7, 0) && is(step(&m, 4, "\\"), 7, 0) && is(value(&m, a, "v", 1), 7, 0));
    EXPECT(is(hive_child_of(NULL, 0, 32, NULL, 0), 1, 0) && is(hive_quick_child_of(NULL, 0, 32, NULL, 0), 1, 0));
    EXPECT(is(hive_value_of(NULL, 0, 32, NULL, 0), 1, 0));
    free(m.file);
}

/* The last of the values of a name is not the first; a name is of any units; what is found is what the call by path finds. */
static void t_values(void)
{
    static const uint8_t data[8] = {1, 2, 3, 4, 5, 6, 7, 8};
    static const char *const names[] = {"v", "", "a\\b", "V", "w"};
    uint32_t values[5];
    char name[UNITS];
    Made m = made(16 * 4096, 5);
    m.root = new_key(&m, "R", 0);
    for (int i = 0; i < 5; i++)
        values[i] = new_value(&m, names[i], 3, data, 8);
    hang_values(&m, m.root, values, 5);
    finish(&m);
    for (size_t i = 0; i < 5; i++) {
        uint32_t v = values[i == 3 ? 0 : i];
        EXPECT(at(value(&m, m.root, names[i], strlen(names[i])), v));
        HiveValue a = hive_value_at(m.file, made_length(&m), v);
        HiveValue b = hive_value_info(m.file, made_length(&m), NULL, 0, units(names[i], strlen(names[i])), strlen(names[i]));
        EXPECT(a.answer.number == 0 && memcmp(&a, &b, sizeof a) == 0);
    }
    memset(name, 'v', sizeof name);
    EXPECT(in(value(&m, m.root, name, UNITS), 18, 0, m.root) && in(value(&m, m.root, "vv", 2), 18, 0, m.root));
    EXPECT(is(value(&m, values[0], "v", 1), 12, values[0]) && is(value(&m, 4, "v", 1), 11, 4));
    data_of(&m, values[1])[0] = 'x';
    EXPECT(at(value(&m, m.root, "v", 1), values[0]) && in(value(&m, m.root, "w", 1), 12, values[1], m.root));
    free(m.file);
}

/* Every child of a key with many, and the gaps between them. */
static void t_wide(void)
{
    static const size_t counts[] = {1, 2, 17, 257, 1000};
    for (size_t k = 0; k < sizeof counts / sizeof counts[0]; k++) {
        Made m = wide(counts[k], k % 2 == 0 ? 0 : 7, "??");
        for (size_t i = 0; i < counts[k]; i += 1 + counts[k] / 50) {
            char gap[LONGEST_NAME + 1];
            snprintf(gap, sizeof gap, "%s!", name_of(i));
            EXPECT(at(step(&m, m.root, name_of(i)), keys[i]) && in(step(&m, m.root, gap), 17, 0, m.root));
        }
        free(m.file);
    }
}

int main(void)
{
    test("a path is its steps", t_paths);
    test("what a step refuses, and with which key", t_refusals);
    test("the first value of a name, from its key", t_values);
    test("steps to each of many children", t_wide);
    return counts();
}
