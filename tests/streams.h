/* Random images, options and damage, the same in each run, for tests that compare two builds of the library. */
#include <stdlib.h>
#include <string.h>
#include <t85.h>

enum { MOST_WIDTH = 300, MOST_ROWS = 80, ROW = (MOST_WIDTH + 7) / 8, WINDOW = 3 * ROW, ROOM = 1 << 16 };

static uint64_t state = 0x9e3779b97f4a7c15u;

static uint32_t below(uint32_t limit)
{
    state ^= state << 13;
    state ^= state >> 7;
    state ^= state << 17;
    return (uint32_t)((state >> 20) % limit);
}

/* Fills rows that are often equal, often white, and otherwise random. */
static void draw(uint8_t *rows, size_t row, uint32_t height)
{
    for (uint32_t y = 0; y < height; y++)
        for (size_t x = 0; x < row; x++) {
            uint8_t byte = below(3) == 0 ? (uint8_t)below(256) : 0;
            rows[y * row + x] = y > 0 && below(4) != 0 ? rows[(y - 1) * row + x] : byte;
        }
}

/* An image with its options. */
typedef struct {
    uint32_t width, height;
    size_t row;
    uint8_t rows[ROW * MOST_ROWS];
    t85_options options;
} job;

static void choose(job *it)
{
    static const uint32_t bits[] = {0, 8, 64, 72, 32, 40};
    it->width = 1 + below(MOST_WIDTH);
    it->height = 1 + below(MOST_ROWS);
    it->row = t85_row_bytes(it->width);
    it->options = (t85_options)T85_OPTIONS;
    it->options.options = bits[below(6)];
    it->options.stripe_rows = 1 + below(40);
    it->options.most_offset = below(2) ? below(128) : 0;
    it->options.reset = below(4) == 0;
    it->options.announces_height = below(3) != 0;
    it->options.announced_height = it->height + below(3);
    draw(it->rows, it->row, it->height);
}

/* Changes, inserts or removes up to three bytes behind the sizes of the header, or cuts the stream. */
static size_t damage(uint8_t *stream, size_t len)
{
    for (uint32_t count = below(4); count > 0 && len > 21; count--) {
        size_t at = 16 + below((uint32_t)(len - 16));
        switch (below(4)) {
        case 0: stream[at] = (uint8_t)below(256); break;
        case 1: stream[at] = 0xff; break;
        case 2: memmove(stream + at, stream + at + 1, len - at - 1), len--; break;
        default: memmove(stream + at + 1, stream + at, len - at), len++; break;
        }
    }
    return below(3) == 0 ? below((uint32_t)len + 1) : len;
}
