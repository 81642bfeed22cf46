// Counts the instructions inside the function `measured` from the log of an emulator: `qemu-x86_64 -d in_asm,exec,nochain -D LOG`, read on standard
// input. A block is shown once, where it is translated, with its instructions one to a line, and named each time it runs.
#include <inttypes.h>
#include <stdbool.h>
#include <stdio.h>
#include <stdlib.h>
#include <string.h>

enum { SLOTS = 1 << 22 };

typedef struct {
    uint64_t at;
    uint64_t instructions;
    bool enters;
    bool leaves;
} Block;

static Block blocks[SLOTS];

// The block that starts at an address, or the free slot for it.
static Block *block(uint64_t at) {
    uint64_t i = at * 0x9E3779B97F4A7C15 >> 42;
    while (blocks[i % SLOTS].at != 0 && blocks[i % SLOTS].at != at) {
        i += 1;
    }
    return &blocks[i % SLOTS];
}

int main(void) {
    static char line[1 << 16], last[1 << 16];
    Block shown = {0}, *entry = NULL;
    bool measured = false, on = false;
    uint64_t count = 0, calls = 0;
    while (fgets(line, sizeof line, stdin) != NULL) {
        bool runs = strncmp(line, "Trace ", 6) == 0, begins = strncmp(line, "IN:", 3) == 0;
        if ((runs || begins) && shown.at != 0) {
            shown.leaves = measured && strstr(last, "ret") != NULL;
            Block *b = block(shown.at);
            entry = measured && entry == NULL ? b : entry;
            shown.enters = b == entry;
            *b = shown;
            shown = (Block){0};
        }
        if (begins) {
            measured = strncmp(line, "IN: measured", 12) == 0;
        } else if (runs) {
            // "Trace CPU: BLOCK [BASE/ADDRESS/FLAGS/FLAGS] SYMBOL"
            Block *b = block(strtoull(strchr(strchr(line, '['), '/') + 1, NULL, 16));
            on = on || b->enters;
            calls += b->enters;
            count += on ? b->instructions : 0;
            on = on && !b->leaves;
        } else if (strncmp(line, "0x", 2) == 0) {
            shown.at = shown.at == 0 ? strtoull(line, NULL, 16) : shown.at;
            shown.instructions += 1;
            strcpy(last, line);
        }
    }
    if (calls != 1) {
        fprintf(stderr, "trace: measured was entered %" PRIu64 " times\n", calls);
        return 1;
    }
    printf("%" PRIu64 "\n", count);
    return 0;
}
