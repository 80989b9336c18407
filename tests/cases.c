/* Writes random streams, some of them damaged or cut, and what the library decodes from each: `cases STREAMS > FILE`.
   A case is the length of the stream, its bytes, the status, the number of rows, the bytes in a row, and the rows: a number is four
   bytes, the least significant first. The status of a stream whose header is rejected has no rows. */
#include "streams.h"
#include <stdio.h>

static void put(uint32_t number)
{
    for (int shift = 0; shift < 32; shift += 8)
        putchar((int)(number >> shift & 255));
}

static size_t encode(uint8_t *stream)
{
    static job it;
    static uint8_t window[WINDOW];
    size_t len = 0;
    choose(&it);
    t85_encode(it.width, it.height, it.rows, it.row * it.height, it.row, &it.options, T85_NOTHING, 0, window, sizeof window,
               stream, ROOM, &len);
    return len;
}

int main(int count, char **words)
{
    static uint8_t stream[ROOM + 8], window[WINDOW], rows[ROOM];
    for (long rest = count == 2 ? strtol(words[1], NULL, 10) : 0; rest > 0; rest--) {
        size_t len = damage(stream, encode(stream)), row = 0;
        uint32_t written = 0;
        t85_header_fields fields;
        if (t85_header(stream, len, &fields) == 0)
            row = t85_row_bytes(fields.width);
        uint8_t status = t85_decode_rows(stream, len, 1000, row, window, sizeof window, rows, ROOM, &written);
        put((uint32_t)len);
        fwrite(stream, 1, len, stdout);
        put(status);
        put(written);
        put((uint32_t)row);
        fwrite(rows, 1, written * row, stdout);
    }
    return ferror(stdout) ? 1 : 0;
}
