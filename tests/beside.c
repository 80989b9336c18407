/* Compares two builds of the library in one process, on random streams: `beside STREAMS`. The names of the second build begin
   with plain_. Random images are encoded by both; the streams, some of them damaged or cut, are decoded by both, whole and in
   pieces. */
#include "streams.h"
#include <stdio.h>

#undef t85_encode
#undef t85_decode_rows
#undef t85_decode_bytes
#undef t85_decode_end
#undef t85_stream_facts

uint8_t plain_t85_encode(uint32_t width, uint32_t height, const uint8_t *rows, size_t rows_len, size_t stride,
                         const t85_options *options, const uint8_t *comment, size_t comment_len, uint8_t *window,
                         size_t window_len, uint8_t *stream, size_t stream_room, size_t *written);
uint8_t plain_t85_decode_rows(const uint8_t *stream, size_t len, uint32_t max_rows, size_t stride, uint8_t *window,
                              size_t window_len, uint8_t *rows, size_t rows_room, uint32_t *written);
uint8_t plain_t85_decode_start(t85_decoder *decoder, size_t size, uint32_t max_rows);
uint8_t plain_t85_decode_bytes(t85_decoder *decoder, const uint8_t *bytes, size_t len, uint8_t *window, size_t window_len,
                               size_t *taken, size_t *row);
uint8_t plain_t85_decode_end(t85_decoder *decoder, uint8_t *window, size_t window_len, size_t *row);
uint8_t plain_t85_stream_facts(const uint8_t *stream, size_t len, t85_facts *facts);

static void differ(const char *what, const uint8_t *stream, size_t len)
{
    fprintf(stderr, "beside: %s differ for", what);
    for (size_t i = 0; i < len; i++)
        fprintf(stderr, " %02x", stream[i]);
    fputc('\n', stderr);
    exit(1);
}

/* Encodes a random image with both, and returns the length of the stream. */
static size_t encode(uint8_t *stream)
{
    static job it;
    static uint8_t window[WINDOW], other[ROOM];
    size_t len = 0, other_len = 0;
    choose(&it);
    uint8_t status = t85_encode(it.width, it.height, it.rows, it.row * it.height, it.row, &it.options, T85_NOTHING, 0,
                                window, sizeof window, stream, ROOM, &len);
    uint8_t second = plain_t85_encode(it.width, it.height, it.rows, it.row * it.height, it.row, &it.options, T85_NOTHING,
                                      0, window, sizeof window, other, ROOM, &other_len);
    if (status != second || len != other_len || memcmp(stream, other, len) != 0)
        differ("streams", stream, len);
    return len;
}

static void decode_whole(const uint8_t *stream, size_t len)
{
    static uint8_t window[WINDOW], rows[2][ROOM];
    t85_facts facts[2] = {T85_FACTS, T85_FACTS};
    uint32_t written[2] = {0, 0};
    uint8_t status = t85_decode_rows(stream, len, 1000, ROW, window, sizeof window, rows[0], ROOM, &written[0]);
    uint8_t second = plain_t85_decode_rows(stream, len, 1000, ROW, window, sizeof window, rows[1], ROOM, &written[1]);
    if (status != second || written[0] != written[1] || memcmp(rows[0], rows[1], ROOM) != 0)
        differ("images", stream, len);
    if (t85_stream_facts(stream, len, &facts[0]) != plain_t85_stream_facts(stream, len, &facts[1])
        || memcmp(&facts[0], &facts[1], sizeof facts[0]) != 0)
        differ("facts", stream, len);
}

static void decode_pieces(const uint8_t *stream, size_t len)
{
    static uint8_t windows[2][WINDOW];
    static t85_decoder decoders[2];
    size_t at = 0, taken[2] = {0, 0}, row[2] = {0, 0};
    t85_decode_start(&decoders[0], sizeof(t85_decoder), 1000);
    plain_t85_decode_start(&decoders[1], sizeof(t85_decoder), 1000);
    for (;;) {
        size_t left = len - at, count = left ? 1 + below((uint32_t)(left < 40 ? left : 40)) : 0;
        uint8_t status, second;
        if (count > 0) {
            status = t85_decode_bytes(&decoders[0], stream + at, count, windows[0], WINDOW, &taken[0], &row[0]);
            second = plain_t85_decode_bytes(&decoders[1], stream + at, count, windows[1], WINDOW, &taken[1], &row[1]);
            at += taken[0];
        } else {
            status = t85_decode_end(&decoders[0], windows[0], WINDOW, &row[0]);
            second = plain_t85_decode_end(&decoders[1], windows[1], WINDOW, &row[1]);
        }
        if (status != second || taken[0] != taken[1] || row[0] != row[1] || memcmp(windows[0], windows[1], WINDOW) != 0)
            differ("pieces", stream, len);
        if (status != T85_ROW && status != T85_MORE && status != T85_HEADER_READ)
            return;
    }
}

int main(int count, char **words)
{
    static uint8_t stream[ROOM + 8];
    long streams = count == 2 ? strtol(words[1], NULL, 10) : 0, rest = streams;
    while (rest-- > 0) {
        size_t len = damage(stream, encode(stream));
        decode_whole(stream, len);
        decode_pieces(stream, len);
    }
    printf("beside: %ld streams, no difference\n", streams);
    return streams > 0 ? 0 : 2;
}
