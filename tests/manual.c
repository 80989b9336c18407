/* Runs an example of t85(3), which tests/library extracts: `manual decode` decodes the stream on standard input to a PBM on
   standard output, and `manual encode` encodes the raw PBM on standard input, row by row. */
#include <stdio.h>
#include <stdlib.h>
#include <t85.h>

static int fails(const char *why)
{
    fprintf(stderr, "tests/manual.c: %s\n", why);
    return 1;
}

static int put(const uint8_t *bytes, size_t len)
{
    return fwrite(bytes, 1, len, stdout) == len;
}

static int decode(const uint8_t *stream, size_t len)
{
    uint8_t *image = NULL, *window = NULL;
    int is_wrong;
#include "example_1.h"
    is_wrong = status != T85_OK || !put(image, written);
    free(image);
    free(window);
    return is_wrong ? fails("the stream was not decoded") : 0;
}

static size_t row_len;

static uint8_t scan(uint8_t *row)
{
    return fread(row, 1, row_len, stdin) == row_len;
}

static void grow(uint8_t **stream, size_t *room, size_t wanted)
{
    *stream = (uint8_t *)realloc(*stream, wanted);
    *room = wanted;
    if (*stream == NULL)
        exit(fails("out of memory"));
}

static int encode(uint32_t width)
{
    size_t room = 22, window_len = t85_window_bytes(width), written;
    uint8_t *row = (uint8_t *)malloc(row_len), *window = (uint8_t *)malloc(window_len), *stream = (uint8_t *)malloc(room);
    if (row == NULL || window == NULL || stream == NULL)
        return fails("out of memory");
#include "example_2.h"
    free(row);
    free(window);
    free(stream);
    return status != T85_OK || more ? fails("the image was not encoded") : 0;
}

int main(int count, char **words)
{
    static uint8_t given[100000];
    unsigned width, height;
    if (count == 2 && words[1][0] == 'd')
        return decode(given, fread(given, 1, sizeof given, stdin));
    if (scanf("P4 %u %u", &width, &height) != 2 || getchar() != '\n')
        return fails("not a raw PBM");
    row_len = t85_row_bytes(width);
    return encode(width);
}
