/* Implements the functions of jbig.h that neither encode nor decode: texts, planes, tables, and a late height. */
#include "shim.h"

#include <limits.h>
#include <string.h>

uint32_t t85jbig_word(unsigned long number)
{
    return number < UINT32_MAX ? (uint32_t)number : UINT32_MAX;
}

unsigned long jbg_stripes(unsigned long l0, unsigned long yd, unsigned long d)
{
    unsigned long rows = jbg_ceil_half(yd, d < INT_MAX ? (int)d : INT_MAX);
    return l0 > 0 ? rows / l0 + (rows % l0 != 0) : 0;
}

/* libt85 walks through a stream only from its header on, so nothing is found without JBIG-KIT's library. */
unsigned char *jbg_next_pscdms(unsigned char *p, size_t len)
{
    const kit_calls *kit = t85jbig_kit();
    return kit ? kit->next_pscdms(p, len) : NULL;
}

bool t85jbig_is_outside(int status)
{
    return status == T85_LAYERS || status == T85_PLANES || status == T85_TOO_WIDE ||
           status == T85_PRIVATE_TABLE;
}

int t85jbig_code(int status)
{
    switch (status) {
    case T85_OK:
    case T85_NO_MORE_PARTS: return JBG_EOK;
    case T85_MORE:
    case T85_SHORT_HEADER:
    case T85_TRUNCATED: return JBG_EAGAIN;
    case T85_ABORTED: return JBG_EABORT;
    case T85_BAD_ESCAPE: return JBG_EMARKER;
    case T85_LAYERS:
    case T85_PLANES:
    case T85_TOO_WIDE:
    case T85_PRIVATE_TABLE:
    case T85_SECOND_MOVE: return JBG_EIMPL | status;
    default: return JBG_EINVAL | (status & 0x0f);
    }
}

const char *jbg_strerror(int errnum)
{
    static const char *const texts[] = {
        "the image is complete",
        "the greatest size was reached",
        "the stream ends too early",
        "there is not enough memory",
        "the image was aborted by its sender",
        "unexpected escape code in the stream",
        "the stream is broken",
        "the stream has layers, planes or other features that are not supported",
        "the stream does not continue the one before",
    };
    unsigned number = (unsigned)errnum >> 4;
    return number < sizeof texts / sizeof *texts ? texts[number] : "no such return code";
}

/* Rounds x / 2^n up. */
unsigned long jbg_ceil_half(unsigned long x, int n)
{
    if (n < 1)
        return x;
    if (n >= (int)(sizeof x * CHAR_BIT))
        return x > 0;
    return (x >> n) + ((x & ((1ul << n) - 1)) != 0);
}

/* A private prediction table has 6,912 entries of two bits. Here `internal` has an entry in each
   byte, in the order of the table. JBIG-KIT orders them differently, and no other function reads them. */
void jbg_dppriv2int(char *internal, const unsigned char *dptable)
{
    const kit_calls *kit = t85jbig_kit();
    int n;
    if (kit) {
        kit->dppriv2int(internal, dptable);
        return;
    }
    for (n = 0; n < 6912; n++)
        internal[n] = (char)(dptable[n / 4] >> (6 - 2 * (n % 4)) & 3);
}

void jbg_int2dppriv(unsigned char *dptable, const char *internal)
{
    const kit_calls *kit = t85jbig_kit();
    int n;
    if (kit) {
        kit->int2dppriv(dptable, internal);
        return;
    }
    memset(dptable, 0, 6912 / 4);
    for (n = 0; n < 6912; n++)
        dptable[n / 4] |= (unsigned char)((internal[n] & 3) << (6 - 2 * (n % 4)));
}

/* Writes a height that comes late into the header of a stream in memory. */
int jbg_newlen(unsigned char *bie, size_t len)
{
    t85_header_fields fields;
    t85_part part = T85_PART;
    int status = t85_header(bie, len, &fields);
    const kit_calls *kit = t85jbig_is_outside(status) ? t85jbig_kit() : NULL;
    if (kit)
        return kit->newlen(bie, len);
    if (status == T85_OK && !(fields.options & T85_VARIABLE_HEIGHT))
        return JBG_EOK;
    while (status == T85_OK) {
        status = t85_next_part(bie, len, &part);
        if (status == T85_OK && part.kind == T85_PART_NEW_HEIGHT)
            return t85jbig_code(t85_set_height(bie, len));
    }
    return t85jbig_code(status);
}
