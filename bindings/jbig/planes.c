/* Implements the functions of jbig.h that split an image into planes, and those that return the decoded image. */
#include "shim.h"

#include <string.h>

typedef struct {
    unsigned char *row; /* the row of a plane */
    int bit;            /* the bit of a pixel's value */
    bool is_gray;       /* the bit above it is added: reflected Gray code */
} plane_row;

/* Writes a row of one plane. A pixel of `src` has `bytes` bytes, the most significant first. */
static void split_row(plane_row to, unsigned long x, const unsigned char *src, int bytes)
{
    unsigned long n;
    int b;
    for (n = 0; n < x; n++) {
        unsigned long value = 0, set;
        for (b = 0; b < bytes; b++)
            value = value << 8 | *src++;
        set = value >> to.bit ^ (to.is_gray ? value >> (to.bit + 1) : 0);
        to.row[n / 8] |= (unsigned char)((set & 1) << (7 - n % 8));
    }
}

/* The first plane is the most significant one. */
void jbg_split_planes(unsigned long x, unsigned long y, int has_planes, int encode_planes,
                      const unsigned char *src, unsigned char **dest, int use_graycode)
{
    size_t row = jbg_ceil_half(x, 3);
    int bytes = (has_planes + 7) / 8, plane;
    unsigned long line;
    for (plane = 0; plane < encode_planes && plane < has_planes; plane++) {
        memset(dest[plane], 0, row * y);
        for (line = 0; line < y; line++) {
            plane_row to = {dest[plane] + line * row, has_planes - 1 - plane, use_graycode != 0};
            split_row(to, x, src + line * x * (unsigned long)bytes, bytes);
        }
    }
}
