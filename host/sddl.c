/* A self-relative security descriptor as SDDL. Its bytes are a stranger's: whatever leads outside of them, or has no place in the text, makes hexadecimal digits of
 * the whole. It is gone through twice: once to judge it, without a stream, and once to write. */
#include <string.h>

#include "host.h"

enum { HEAD = 20, ACL_HEAD = 8, ACE_HEAD = 8, SID_HEAD = 8, SID_MOST = 15, SID_ROOM = 240 };
enum { DACL_PRESENT = 0x4, SACL_PRESENT = 0x10, SELF_RELATIVE = 0x8000, UNSAID_CONTROL = 0x40c0 };

/* to: NULL while it is judged. odd: it is no text. */
typedef struct {
    FILE *to;
    Bytes of;
    bool odd;
} Sddl;

static void word(const Sddl *s, const char *text)
{
    if (s->to != NULL)
        fputs(text, s->to);
}

/* Whether so many bytes lie there. */
static bool fits(const Sddl *s, size_t at, size_t length)
{
    return at <= s->of.length && length <= s->of.length - at;
}

static size_t is_odd(Sddl *s, size_t end)
{
    s->odd = true;
    return end;
}

static uint32_t half(const uint8_t *at)
{
    return at[0] + at[1] * 256u;
}

static uint32_t whole(const uint8_t *at)
{
    return half(at) + half(at + 2) * 65536u;
}

static const char *known(const char *sid)
{
    static const char *const KNOWN[][2] = {
        {"S-1-1-0", "WD"}, {"S-1-3-0", "CO"}, {"S-1-3-1", "CG"}, {"S-1-3-4", "OW"}, {"S-1-5-2", "NU"}, {"S-1-5-4", "IU"}, {"S-1-5-6", "SU"}, {"S-1-5-7", "AN"},
        {"S-1-5-9", "ED"}, {"S-1-5-10", "PS"}, {"S-1-5-11", "AU"}, {"S-1-5-12", "RC"}, {"S-1-5-18", "SY"}, {"S-1-5-19", "LS"}, {"S-1-5-20", "NS"},
        {"S-1-5-32-544", "BA"}, {"S-1-5-32-545", "BU"}, {"S-1-5-32-546", "BG"}, {"S-1-5-32-547", "PU"}, {"S-1-5-32-548", "AO"}, {"S-1-5-32-549", "SO"},
        {"S-1-5-32-550", "PO"}, {"S-1-5-32-551", "BO"}, {"S-1-5-32-552", "RE"}, {"S-1-5-32-554", "RU"}, {"S-1-5-32-555", "RD"}, {"S-1-5-32-556", "NO"},
        {"S-1-5-32-558", "MU"}, {"S-1-5-32-559", "LU"}, {"S-1-15-2-1", "AC"},
    };
    for (size_t i = 0; i < sizeof KNOWN / sizeof KNOWN[0]; i++)
        if (strcmp(sid, KNOWN[i][0]) == 0)
            return KNOWN[i][1];
    return sid;
}

/* The name of whom it is about, which ends before `end`. Answers where it ends. An authority over 32 bits is hexadecimal, as Windows writes it. */
static size_t put_sid(Sddl *s, size_t at, size_t end)
{
    char text[SID_ROOM];
    if (at > end || end - at < SID_HEAD)
        return is_odd(s, end);
    const uint8_t *sid = s->of.at + at;
    if (sid[0] != 1 || sid[1] > SID_MOST || (end - at - SID_HEAD) / 4 < sid[1])
        return is_odd(s, end);
    unsigned long long high = sid[2] * 256u + sid[3], authority = high << 32 | (sid[4] * 16777216u + sid[5] * 65536u + sid[6] * 256u + sid[7]);
    int n = snprintf(text, sizeof text, high > 0 ? "S-1-0x%012llx" : "S-1-%llu", authority);
    for (int i = 0; i < sid[1]; i++)
        n += snprintf(text + n, sizeof text - (size_t)n, "-%u", whole(sid + SID_HEAD + 4 * i));
    word(s, known(text));
    return at + SID_HEAD + 4u * sid[1];
}

static void put_rights(const Sddl *s, uint32_t mask)
{
    char text[16];
    snprintf(text, sizeof text, "0x%x", mask);
    word(s, mask == 0xf003f ? "KA" : mask == 0x20019 ? "KR" : mask == 0x20006 ? "KW" : text);
}

static void put_flags(Sddl *s, uint32_t flags)
{
    static const char *const FLAGS[8] = {"OI", "CI", "NP", "IO", "ID", NULL, "SA", "FA"};
    for (int i = 0; i < 8; i++)
        if ((flags >> i & 1) != 0 && FLAGS[i] != NULL)
            word(s, FLAGS[i]);
    s->odd |= (flags & 0x20) != 0;
}

/* One entry of a list, which ends before `end`. Answers where the next starts. */
static size_t put_entry(Sddl *s, size_t at, size_t end)
{
    static const char *const TYPES[] = {"(A;", "(D;", "(AU;"};
    const uint8_t *ace = s->of.at + at;
    if (end - at < ACE_HEAD || half(ace + 2) < ACE_HEAD || half(ace + 2) > end - at || ace[0] > 2)
        return is_odd(s, end);
    size_t stop = at + half(ace + 2);
    word(s, TYPES[ace[0]]);
    put_flags(s, ace[1]);
    word(s, ";");
    put_rights(s, whole(ace + 4));
    word(s, ";;;");
    s->odd |= put_sid(s, at + ACE_HEAD, stop) != stop;
    word(s, ")");
    return stop;
}

/* The head of a list: where the list ends, or 0 where it is none. Revisions 2 and 4 have entries of these types. */
static size_t list_end(const Sddl *s, size_t at)
{
    if (!fits(s, at, ACL_HEAD))
        return 0;
    const uint8_t *acl = s->of.at + at;
    bool good = (acl[0] == 2 || acl[0] == 4) && acl[1] == 0 && half(acl + 6) == 0 && half(acl + 2) >= ACL_HEAD && fits(s, at, half(acl + 2));
    return good ? at + half(acl + 2) : 0;
}

/* A list at a place, or none where that is 0: then nothing is forbidden. Behind its entries there may be room. */
static void put_entries(Sddl *s, size_t at)
{
    size_t end = at == 0 ? 0 : list_end(s, at), next = at + ACL_HEAD;
    if (at == 0)
        word(s, "NO_ACCESS_CONTROL");
    if (end == 0) {
        s->odd |= at != 0;
        return;
    }
    const uint8_t *acl = s->of.at + at;
    for (uint32_t n = half(acl + 4); n > 0 && !s->odd; n--)
        next = put_entry(s, next, end);
}

/* The bits of the control word for a list are those of the DACL, shifted by one for the SACL. One that is not said to be there has no place. */
static void put_list(Sddl *s, const char *label, uint32_t control, uint32_t present, size_t at)
{
    if ((control & present) == 0) {
        s->odd |= at != 0;
        return;
    }
    word(s, label);
    word(s, (control & 0x1000) != 0 ? "P" : "");
    word(s, (control & 0x100) != 0 ? "AR" : "");
    word(s, (control & 0x400) != 0 ? "AI" : "");
    put_entries(s, at);
}

/* Where it starts; 0: there is none. */
static void put_who(Sddl *s, const char *label, size_t at)
{
    if (at == 0)
        return;
    word(s, label);
    put_sid(s, at, s->of.length);
}

static void put_all(Sddl *s)
{
    const uint8_t *d = s->of.at;
    if (s->of.length < HEAD || d[0] != 1 || d[1] != 0 || (half(d + 2) & SELF_RELATIVE) == 0 || (half(d + 2) & UNSAID_CONTROL) != 0) {
        s->odd = true;
        return;
    }
    uint32_t control = half(d + 2);
    s->odd |= whole(d + 4) == 0 && whole(d + 8) == 0 && (control & (DACL_PRESENT | SACL_PRESENT)) == 0; /* it would be no text at all */
    put_who(s, "O:", whole(d + 4));
    put_who(s, "G:", whole(d + 8));
    put_list(s, "D:", control, DACL_PRESENT, whole(d + 16));
    put_list(s, "S:", control >> 1, SACL_PRESENT >> 1, whole(d + 12));
}

void put_sddl(FILE *to, Bytes descriptor)
{
    Sddl judged = {NULL, descriptor, false}, written = {to, descriptor, false};
    put_all(&judged);
    if (judged.odd)
        put_hex(to, descriptor);
    else
        put_all(&written);
}
