/* The way from a key up to the root, and the path of the key that a refusal names. The hive may hold anything, so parent fields are followed no further
 * than a tree is deep. */
#include "host.h"

/* The names from a key up to the root, whose own is left out. Answers how many, or -1 where a step is refused or the root is not met. */
int climb(const Hive *h, uint32_t key, Name *names)
{
    HiveAnswer root = hive_find_key(h->bytes.at, h->bytes.length, NULL, 0);
    for (int n = 0; root.number == 0 && n <= LEVELS; n++) {
        if (key == root.value)
            return n;
        HiveKey k = hive_key_at(h->bytes.at, h->bytes.length, key);
        if (k.answer.number != 0 || n == LEVELS)
            return -1;
        names[n] = (Name){h->bytes.at + k.name, k.length, k.narrow == 1};
        key = (uint32_t)k.parent;
    }
    return -1;
}

void put_key(FILE *to, const Hive *h, uint32_t key)
{
    Name names[LEVELS];
    int n = climb(h, key, names);
    fputs(n == 0 ? ", in key \\ " : ", in key ", to);
    for (int i = n; i > 0; i--) {
        fputc('\\', to);
        put_name(to, names[i - 1], KEY_NAME);
    }
    fprintf(to, n > 0 ? " (at %u)" : "(at %u)", key);
}
