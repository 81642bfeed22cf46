/* When a key was last written. */
#include "host.h"

/* Steps of 100 ns from the start of 1601 on, as ISO 8601 in UTC. Years are counted from March, in groups of 400 years, which all have as many days. */
const char *stamp_text(uint64_t stamp, char *room)
{
    uint64_t seconds = stamp / 10000000, day = seconds / 86400 + 584694; /* from the first of March of year 0 on */
    unsigned group = (unsigned)(day / 146097), in = (unsigned)(day % 146097);
    unsigned year = (in - in / 1460 + in / 36524 - in / 146096) / 365, of_year = in - (365 * year + year / 4 - year / 100);
    unsigned month = (5 * of_year + 2) / 153, of_day = (unsigned)(seconds % 86400);
    unsigned y = 400 * group + year + (month >= 10), m = month < 10 ? month + 3 : month - 9, d = of_year - (153 * month + 2) / 5 + 1;
    snprintf(room, STAMP_ROOM, "%s%04u-%02u-%02uT%02u:%02u:%02u.%07uZ", y > 9999 ? "+" : "", y, m, d, of_day / 3600, of_day / 60 % 60, of_day % 60,
             (unsigned)(stamp % 10000000));
    return room;
}
