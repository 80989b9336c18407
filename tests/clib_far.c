/* Tests extreme lengths: the longest comment, the most rows, and strides for which no second row
   fits in memory. */
#include "clib.h"

#include <stdlib.h>
#include <string.h>

/* The bytes of a stream's header, and the position of its height. */
#define HEADER_BYTES 20
#define HEIGHT_AT 8

/* Passes bytes that the decoder must consume all at once, without returning a row. */
static void takes(t85_decoder *decoder, const uint8_t *bytes, size_t len, buffer window)
{
    size_t taken = 77, row;
    uint8_t status =
        t85_decode_bytes(decoder, bytes, len, window.bytes, window.len, &taken, &row);
    if (status != T85_MORE || taken != len)
        fail("t85_decode_bytes: status %d and %zu bytes of %zu of a comment", status, taken, len);
}

/* Decodes the stream with a comment of 2^32 - 1 bytes after its header, in pieces: the image is
   the same. Outside a comment, every two of the comment's bytes would abort the image. */
static void longest_comment(buffer stream)
{
    static const uint8_t front[] = {0xFF, 0x07, 0xFF, 0xFF, 0xFF, 0xFF};
    buffer piece = lend((size_t)1 << 24), window, image;
    t85_header_fields fields;
    t85_decoder decoder;
    uint32_t left = UINT32_MAX, count, given = 0;
    size_t row, at = HEADER_BYTES, i, taken, place;
    uint8_t wanted, status;
    if (t85_header(stream.bytes, stream.len, &fields))
        fail("t85_header");
    row = t85_row_bytes(fields.width);
    window = lend(t85_window_bytes(fields.width));
    image = lend(fields.height * row);
    wanted = t85_decode_rows(stream.bytes, stream.len, UINT32_MAX, row, window.bytes, window.len,
                             image.bytes, image.len, &count);
    for (i = 0; i < piece.len; i++)
        piece.bytes[i] = i % 2 ? 0x04 : 0xFF;
    if (t85_decode_start(&decoder, sizeof decoder, UINT32_MAX) ||
        t85_decode_bytes(&decoder, stream.bytes, HEADER_BYTES, NULL, 0, &taken, &place) !=
            T85_HEADER_READ ||
        taken != HEADER_BYTES)
        fail("t85_decode_bytes of a header");
    takes(&decoder, front, sizeof front, window);
    while (left) {
        size_t len = left < piece.len ? left : piece.len;
        takes(&decoder, piece.bytes, len, window);
        left -= (uint32_t)len;
    }
    do {
        taken = 0;
        if (at < stream.len)
            status = t85_decode_bytes(&decoder, stream.bytes + at, stream.len - at, window.bytes,
                                      window.len, &taken, &place);
        else
            status = t85_decode_end(&decoder, window.bytes, window.len, &place);
        at += taken;
        if (status == T85_ROW &&
            (given >= count || memcmp(window.bytes + place, image.bytes + given * row, row)))
            fail("t85_decode_bytes: row %u behind a comment is another", given);
        given += status == T85_ROW;
    } while (status >= T85_HEADER_READ);
    if (status != wanted || given != count || t85_decode_height(&decoder) != count)
        fail("t85_decode_bytes: status %d and %u rows of %u behind a comment", status, given, count);
    give_back(image);
    give_back(window);
    give_back(piece);
}

/* Decodes a header that announces 2^32 - 1 rows, without any rows. */
static void most_rows(buffer stream)
{
    buffer header = copied(stream.bytes, HEADER_BYTES), window;
    t85_header_fields fields;
    t85_decoder decoder;
    uint32_t rows = 77;
    size_t row, taken, place;
    memset(header.bytes + HEIGHT_AT, 0xFF, 4);
    if (t85_header(header.bytes, header.len, &fields) || fields.height != UINT32_MAX)
        fail("t85_header: %u rows", fields.height);
    row = t85_row_bytes(fields.width);
    window = lend(t85_window_bytes(fields.width));
    if (t85_decode_start(&decoder, sizeof decoder, UINT32_MAX) ||
        t85_decode_bytes(&decoder, header.bytes, header.len, NULL, 0, &taken, &place) !=
            T85_HEADER_READ ||
        t85_decode_height(&decoder) != UINT32_MAX)
        fail("t85_decode_bytes: a header of 2^32 - 1 rows is not read");
    if (t85_decode_end(&decoder, window.bytes, window.len, &place) != T85_TRUNCATED)
        fail("t85_decode_end: 2^32 - 1 rows without a byte");
    if (t85_decode_rows(header.bytes, header.len, UINT32_MAX, row, window.bytes, window.len, NULL, 0,
                        &rows) != T85_TRUNCATED ||
        rows)
        fail("t85_decode_rows: %u of 2^32 - 1 rows without a byte", rows);
    rows = 77;
    if (t85_decode_start(&decoder, sizeof decoder, UINT32_MAX - 1) ||
        t85_decode_bytes(&decoder, header.bytes, header.len, NULL, 0, &taken, &place) !=
            T85_TOO_MANY_ROWS ||
        t85_decode_rows(header.bytes, header.len, UINT32_MAX - 1, row, window.bytes, window.len, NULL,
                        0, &rows) != T85_TOO_MANY_ROWS ||
        rows)
        fail("a header of one row more than max_rows is read");
    give_back(window);
    give_back(header);
}

/* Ends an encoder of 2^32 - 1 rows after one row, which is allowed if they were announced as the
   most. */
static void one_of_most(bool announces, uint32_t stripe_rows)
{
    static const uint8_t row[] = {0x5A, 0xC3, 0x90};
    uint32_t width = 20;
    t85_options options = T85_OPTIONS;
    buffer window = lend(t85_window_bytes(width)), stream = lend(1000), whole = lend(1000);
    t85_encoder encoder;
    size_t at, written = 77;
    uint8_t status;
    options.stripe_rows = stripe_rows;
    options.announces_height = announces;
    options.announced_height = UINT32_MAX;
    if (t85_encode_start(&encoder, sizeof encoder, width, UINT32_MAX, &options, NULL, 0,
                         window.bytes, window.len, stream.bytes, stream.len, &at) ||
        t85_encode_rows_left(&encoder) != UINT32_MAX)
        fail("t85_encode_start: %u rows left of 2^32 - 1", t85_encode_rows_left(&encoder));
    if (t85_encode_row(&encoder, row, sizeof row, window.bytes, window.len, stream.bytes + at,
                       stream.len - at, &written) ||
        t85_encode_rows_left(&encoder) != UINT32_MAX - 1)
        fail("t85_encode_row: %u rows left of 2^32 - 1", t85_encode_rows_left(&encoder));
    at += written;
    status = t85_encode_end(&encoder, window.bytes, window.len, stream.bytes + at, stream.len - at,
                            &written);
    at += written;
    if (status != (announces ? T85_OK : T85_ROWS_MISSING) || (!announces && written) ||
        t85_encode_rows_left(&encoder) != (announces ? 0 : UINT32_MAX - 1))
        fail("t85_encode_end: status %d and %zu bytes after one row", status, written);
    if (announces && (t85_encode(width, 1, row, sizeof row, sizeof row, &options, NULL, 0,
                                 window.bytes, window.len, whole.bytes, whole.len, &written) ||
                      written != at || memcmp(stream.bytes, whole.bytes, at)))
        fail("t85_encode: a different stream of one row if 2^32 - 1 are announced");
    give_back(whole);
    give_back(stream);
    give_back(window);
}

void far(char **words)
{
    static const uint32_t stripes[] = {1, 128, UINT32_MAX};
    buffer file = read_file(words[0]), stream = copied(file.bytes, file.len);
    size_t i;
    longest_comment(stream);
    most_rows(stream);
    for (i = 0; i < sizeof stripes / sizeof *stripes; i++) {
        one_of_most(false, stripes[i]);
        one_of_most(true, stripes[i]);
    }
    give_back(stream);
    free(file.bytes);
}

/* Tries strides for which no second row fits in memory. */
void far_rows(buffer rows, uint32_t width, uint32_t height)
{
    static const size_t strides[] = {SIZE_MAX, SIZE_MAX / 2 + 1, SIZE_MAX / 4 + 1, (size_t)1 << 33};
    size_t row = t85_row_bytes(width), i, written;
    t85_options options = T85_OPTIONS;
    buffer window = lend(t85_window_bytes(width)), stream = lend(100000), image = filled(rows.len);
    uint32_t count;
    uint8_t status;
    if (t85_encode(width, height, rows.bytes, rows.len, row, &options, T85_NOTHING, 0, window.bytes,
                   window.len, stream.bytes, stream.len, &stream.len))
        fail("t85_encode");
    for (i = 0; i < sizeof strides / sizeof *strides; i++) {
        buffer code = lend(100000);
        status = t85_encode(width, height, rows.bytes, rows.len, strides[i], &options, T85_NOTHING,
                            0, window.bytes, window.len, code.bytes, code.len, &written);
        if (status != T85_ROWS_MISSING || written < 20)
            fail("t85_encode: status %d with a stride of %zu", status, strides[i]);
        status = t85_decode_rows(stream.bytes, stream.len, UINT32_MAX, strides[i], window.bytes,
                                 window.len, image.bytes, image.len, &count);
        if (status != T85_NO_ROOM || count != 1 || memcmp(image.bytes, rows.bytes, row))
            fail("t85_decode_rows: status %d and %u rows with a stride of %zu", status, count,
                 strides[i]);
        give_back(code);
    }
}
