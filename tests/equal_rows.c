/* Encodes an image whose rows are all equal, and decodes it again, in memory: its instructions are counted.
     equal_rows HEIGHT encode|decode
   Rows are one byte long. It exits with 0 if each decoded row is the row given. */
#include <stdint.h>
#include <stdio.h>
#include <stdlib.h>
#include <string.h>

#include "t85.h"

enum { ROW = 0x18 };

int main(int argc, char **argv) {
    if (argc != 3) {
        fputs("usage: equal_rows HEIGHT encode|decode\n", stderr);
        return 2;
    }
    uint32_t height = (uint32_t)strtoul(argv[1], NULL, 10), decoded = 0;
    t85_options options = T85_OPTIONS;
    uint8_t window[3], *rows = malloc(height), stream[65536];
    size_t written = 0;
    if (rows == NULL)
        return 1;
    memset(rows, ROW, height);
    if (t85_encode(8, height, rows, height, 1, &options, T85_NOTHING, 0, window, sizeof window, stream, sizeof stream,
                   &written) != 0)
        return 1;
    if (strcmp(argv[2], "decode") == 0) {
        memset(rows, 0, height);
        if (t85_decode_rows(stream, written, height, 1, window, sizeof window, rows, height, &decoded) != 0)
            return 1;
        for (uint32_t row = 0; row < height; row++)
            if (decoded != height || rows[row] != ROW)
                return 1;
    }
    free(rows);
    return 0;
}
