/* The words of a refusal, put together before they are told. They lie in memory that is there from the start: a stream that grows loses what it has no memory
 * for and does not say so. The most are a key's path and one of the command line, each under 1 MiB as it is printed. */
#include "host.h"

static char room[1 << 22];

/* NULL where there is no memory for the stream. */
FILE *words_begin(void)
{
    room[0] = 0;
    return fmemopen(room, sizeof room, "w");
}

const char *words_end(FILE *to)
{
    fclose(to);
    room[sizeof room - 1] = 0;
    return room;
}
