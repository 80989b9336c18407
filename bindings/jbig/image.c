/* Stores the decoded image, and implements the functions of jbig.h that return it. */
#include "shim.h"

#include <stdlib.h>
#include <string.h>

/* lhp[1] of a decoder of this library points here, and that of a decoder of JBIG-KIT's never does. */
static unsigned char *mark;

void jbg_dec_init(struct jbg_dec_state *s)
{
    memset(s, 0, sizeof *s);
    s->d = -1;
    s->xmax = s->ymax = UINT32_MAX;
    s->dmax = 256;
    s->lhp[1] = &mark;
}

const kit_calls *t85jbig_kit_of(const struct jbg_dec_state *s)
{
    return s->lhp[1] == &mark ? NULL : t85jbig_kit();
}

decoding *t85jbig_decoding(const struct jbg_dec_state *s)
{
    return s->lhp[1] == &mark ? s->s : NULL;
}

void jbg_dec_maxsize(struct jbg_dec_state *s, unsigned long xmax, unsigned long ymax)
{
    if (xmax > 0)
        s->xmax = xmax;
    if (ymax > 0)
        s->ymax = ymax;
}

void t85jbig_release(struct jbg_dec_state *s)
{
    decoding *it = t85jbig_decoding(s);
    if (!it)
        return;
    free(it->window);
    free(it->image);
    free(it);
    s->s = NULL;
}

void jbg_dec_free(struct jbg_dec_state *s)
{
    const kit_calls *kit = t85jbig_kit_of(s);
    if (kit)
        kit->dec_free(s);
    else
        t85jbig_release(s);
}

/* Makes the image at least this high, with white rows. */
static bool make_rows(decoding *it, unsigned long rows)
{
    unsigned char *image;
    if (rows <= it->room)
        return true;
    if (rows > PTRDIFF_MAX / it->row)
        return false;
    if (!it->image) {
        image = calloc(rows, it->row);
    } else {
        image = realloc(it->image, rows * it->row);
        if (image)
            memset(image + it->room * it->row, 0, (rows - it->room) * it->row);
    }
    if (!image)
        return false;
    it->image = image;
    it->room = rows;
    return true;
}

/* The height of the header is not believed before its rows arrive. */
bool t85jbig_make_room(const struct jbg_dec_state *s, decoding *it)
{
    unsigned long more = 2 * it->room + 128;
    if (s->i < it->room || s->i >= s->yd)
        return true;
    return make_rows(it, more < s->yd ? more : s->yd);
}

void t85jbig_keep_row(struct jbg_dec_state *s, decoding *it, const unsigned char *row)
{
    if (s->i < it->room)
        memcpy(it->image + s->i * it->row, row, it->row);
    s->i++;
}

unsigned long jbg_dec_getwidth(const struct jbg_dec_state *s)
{
    const kit_calls *kit = t85jbig_kit_of(s);
    return kit ? kit->dec_getwidth(s) : s->xd;
}

unsigned long jbg_dec_getheight(const struct jbg_dec_state *s)
{
    const kit_calls *kit = t85jbig_kit_of(s);
    return kit ? kit->dec_getheight(s) : s->yd;
}

/* Rows that were not decoded are white. The image has its whole height from then on, so it stays at its place. */
unsigned char *jbg_dec_getimage(const struct jbg_dec_state *s, int plane)
{
    const kit_calls *kit = t85jbig_kit_of(s);
    decoding *it = t85jbig_decoding(s);
    if (kit)
        return kit->dec_getimage(s, plane);
    return it && plane == 0 && make_rows(it, s->yd) ? it->image : NULL;
}

unsigned long jbg_dec_getsize(const struct jbg_dec_state *s)
{
    const kit_calls *kit = t85jbig_kit_of(s);
    return kit ? kit->dec_getsize(s) : s->yd * jbg_ceil_half(s->xd, 3);
}

unsigned long jbg_dec_getsize_merged(const struct jbg_dec_state *s)
{
    const kit_calls *kit = t85jbig_kit_of(s);
    return kit ? kit->dec_getsize_merged(s) : s->yd * s->xd;
}

/* Passes on the pixels of one plane, a byte for each. */
void jbg_dec_merge_planes(const struct jbg_dec_state *s, int use_graycode,
                          void (*data_out)(unsigned char *start, size_t len, void *file),
                          void *file)
{
    const kit_calls *kit = t85jbig_kit_of(s);
    unsigned char pixels[4096];
    const unsigned char *row;
    unsigned long x, y;
    size_t len = 0;
    if (kit) {
        kit->dec_merge_planes(s, use_graycode, data_out, file);
        return;
    }
    row = jbg_dec_getimage(s, 0);
    for (y = 0; row && y < s->yd; y++, row += jbg_ceil_half(s->xd, 3)) {
        for (x = 0; x < s->xd; x++) {
            pixels[len++] = row[x / 8] >> (7 - x % 8) & 1;
            if (len == sizeof pixels) {
                data_out(pixels, len, file);
                len = 0;
            }
        }
    }
    if (len > 0)
        data_out(pixels, len, file);
}
