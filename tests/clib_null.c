/* Tests null pointers with a length of 0, and the macros that handle them. */
#include "clib.h"

#include <stdlib.h>
#include <string.h>

static void or_nothing(void)
{
    uint8_t byte = FILL;
    if (T85_NOTHING == NULL || t85_or_nothing(NULL) != T85_NOTHING ||
        t85_bytes_or_nothing(NULL) != T85_NOTHING || t85_room_or_nothing(NULL) != T85_NOTHING)
        fail("t85_or_nothing of a null pointer");
    if (t85_or_nothing(&byte) != &byte || t85_bytes_or_nothing(&byte) != &byte ||
        t85_room_or_nothing(&byte) != &byte)
        fail("t85_or_nothing of another pointer");
}

/* The pointers with a length in the last call, in order. */
static const uint8_t *came[4];

static uint8_t see(const uint8_t *a, const uint8_t *b, const uint8_t *c, const uint8_t *d)
{
    came[0] = a, came[1] = b, came[2] = c, came[3] = d;
    return T85_OK;
}

static uint8_t see_header(const uint8_t *stream, size_t len, t85_header_fields *fields)
{
    return fields->width == len ? see(stream, NULL, NULL, NULL) : 255;
}

static uint8_t see_raw_header(const uint8_t *stream, size_t len, t85_raw_header_fields *fields)
{
    return fields->width == len ? see(stream, NULL, NULL, NULL) : 255;
}

static uint8_t see_decode_rest(t85_decoder *decoder, const uint8_t *bytes, size_t len, size_t *taken)
{
    return decoder && len == 1 && *taken == 7 ? see(bytes, NULL, NULL, NULL) : 255;
}

static uint8_t see_set_unused_fields(uint8_t *stream, size_t len, uint8_t my, uint8_t order, uint8_t options)
{
    return len == 1 && my == 2 && order == 3 && options == 4 ? see(stream, NULL, NULL, NULL) : 255;
}

static uint8_t see_set_height(uint8_t *stream, size_t len)
{
    return len == 1 ? see(stream, NULL, NULL, NULL) : 255;
}

static uint8_t see_encode_abort(t85_encoder *encoder, uint8_t *stream, size_t stream_room, size_t *written)
{
    return encoder && stream_room == 1 && *written == 7 ? see(stream, NULL, NULL, NULL) : 255;
}

static uint8_t see_info(const uint8_t *stream, size_t len, t85_summary *summary)
{
    return summary->width == len ? see(stream, NULL, NULL, NULL) : 255;
}

static uint8_t see_encode(uint32_t width, uint32_t height, const uint8_t *rows, size_t rows_len,
                          size_t stride, const t85_options *options, const uint8_t *comment,
                          size_t comment_len, uint8_t *window, size_t window_len, uint8_t *stream,
                          size_t stream_room, size_t *written)
{
    bool in_order = width == 1 && height == 2 && rows_len == 3 && stride == 4 && comment_len == 5 &&
                    window_len == 6 && stream_room == 7 && *written == 8 && options->version == 9;
    return in_order ? see(rows, comment, window, stream) : 255;
}

static uint8_t see_decode(const uint8_t *stream, size_t len, uint32_t max_rows, uint8_t *window,
                          size_t window_len, uint8_t *image, size_t image_room, size_t *written)
{
    bool in_order =
        len == 1 && max_rows == 2 && window_len == 3 && image_room == 4 && *written == 5;
    return in_order ? see(stream, window, image, NULL) : 255;
}

static uint8_t see_decode_rows(const uint8_t *stream, size_t len, uint32_t max_rows, size_t stride,
                               uint8_t *window, size_t window_len, uint8_t *rows, size_t rows_room,
                               uint32_t *rows_written)
{
    bool in_order = len == 1 && max_rows == 2 && stride == 3 && window_len == 4 && rows_room == 5 &&
                    *rows_written == 6;
    return in_order ? see(stream, window, rows, NULL) : 255;
}

static uint8_t see_encode_start(t85_encoder *encoder, size_t size, uint32_t width, uint32_t height,
                                const t85_options *options, const uint8_t *comment,
                                size_t comment_len, uint8_t *window, size_t window_len,
                                uint8_t *stream, size_t stream_room, size_t *written)
{
    bool in_order = encoder && size == 1 && width == 2 && height == 3 && comment_len == 4 &&
                    window_len == 5 && stream_room == 6 && *written == 7 && options->version == 9;
    return in_order ? see(comment, window, stream, NULL) : 255;
}

static uint8_t see_encode_row(t85_encoder *encoder, const uint8_t *row, size_t row_len,
                              uint8_t *window, size_t window_len, uint8_t *stream,
                              size_t stream_room, size_t *written)
{
    bool in_order =
        encoder && row_len == 1 && window_len == 2 && stream_room == 3 && *written == 7;
    return in_order ? see(row, window, stream, NULL) : 255;
}

static uint8_t see_best_offset(const t85_encoder *encoder, const uint8_t *rows, size_t rows_len,
                               uint8_t *window, size_t window_len, uint8_t *scratch,
                               size_t scratch_len, uint8_t *offset)
{
    bool in_order =
        encoder && rows_len == 1 && window_len == 2 && scratch_len == 3 && *offset == 7;
    return in_order ? see(rows, window, scratch, NULL) : 255;
}

static uint8_t see_choice_row(t85_choice *choice, const uint8_t *row, size_t row_len,
                              const uint8_t *above, size_t above_len)
{
    return choice && row_len == 1 && above_len == 2 ? see(row, above, NULL, NULL) : 255;
}

static uint8_t see_encode_end(t85_encoder *encoder, uint8_t *window, size_t window_len,
                              uint8_t *stream, size_t stream_room, size_t *written)
{
    bool in_order = encoder && window_len == 1 && stream_room == 2 && *written == 7;
    return in_order ? see(window, stream, NULL, NULL) : 255;
}

static uint8_t see_pbm_header(t85_pbm *pbm, const uint8_t *bytes, size_t len, size_t *taken)
{
    return pbm && len == 1 && *taken == 7 ? see(bytes, NULL, NULL, NULL) : 255;
}

static uint8_t see_pbm_row(t85_pbm *pbm, const uint8_t *bytes, size_t len, uint8_t *row,
                           size_t row_room, size_t *taken)
{
    return pbm && len == 1 && row_room == 2 && *taken == 7 ? see(bytes, row, NULL, NULL) : 255;
}

static size_t see_message(uint8_t status, uint8_t *text, size_t room)
{
    return status == room ? see(text, NULL, NULL, NULL) : 255;
}

typedef struct {
    uint8_t (*t85_header)(const uint8_t *, size_t, t85_header_fields *);
    uint8_t (*t85_info)(const uint8_t *, size_t, t85_summary *);
    uint8_t (*t85_encode)(uint32_t, uint32_t, const uint8_t *, size_t, size_t, const t85_options *,
                          const uint8_t *, size_t, uint8_t *, size_t, uint8_t *, size_t, size_t *);
    uint8_t (*t85_decode)(const uint8_t *, size_t, uint32_t, uint8_t *, size_t, uint8_t *, size_t,
                          size_t *);
    uint8_t (*t85_decode_rows)(const uint8_t *, size_t, uint32_t, size_t, uint8_t *, size_t,
                               uint8_t *, size_t, uint32_t *);
    size_t (*t85_message)(uint8_t, uint8_t *, size_t);
    uint8_t (*t85_encode_start)(t85_encoder *, size_t, uint32_t, uint32_t, const t85_options *,
                                const uint8_t *, size_t, uint8_t *, size_t, uint8_t *, size_t,
                                size_t *);
    uint8_t (*t85_encode_row)(t85_encoder *, const uint8_t *, size_t, uint8_t *, size_t, uint8_t *,
                              size_t, size_t *);
    uint8_t (*t85_best_offset)(const t85_encoder *, const uint8_t *, size_t, uint8_t *, size_t,
                               uint8_t *, size_t, uint8_t *);
    uint8_t (*t85_choice_row)(t85_choice *, const uint8_t *, size_t, const uint8_t *, size_t);
    uint8_t (*t85_encode_end)(t85_encoder *, uint8_t *, size_t, uint8_t *, size_t, size_t *);
    uint8_t (*t85_pbm_header)(t85_pbm *, const uint8_t *, size_t, size_t *);
    uint8_t (*t85_pbm_row)(t85_pbm *, const uint8_t *, size_t, uint8_t *, size_t, size_t *);
    uint8_t (*t85_raw_header)(const uint8_t *, size_t, t85_raw_header_fields *);
    uint8_t (*t85_set_unused_fields)(uint8_t *, size_t, uint8_t, uint8_t, uint8_t);
    uint8_t (*t85_set_height)(uint8_t *, size_t);
    uint8_t (*t85_encode_abort)(t85_encoder *, uint8_t *, size_t, size_t *);
    uint8_t (*t85_decode_rest)(t85_decoder *, const uint8_t *, size_t, size_t *);
} calls;

static void have_come(const char *call, size_t status, unsigned count, const uint8_t *wanted)
{
    unsigned i;
    for (i = 0; i < 4; i++)
        if (status != T85_OK || came[i] != (i >= count ? NULL : wanted ? wanted + i : T85_NOTHING))
            fail("the macro %s passes another argument %u, or status %zu", call, i, status);
}

/* Checks the pointers that the macros pass on, if `a` is null or the first of four pointers.
   Here the macros call functions of the same names, which are members of a struct. */
static void passed(uint8_t *a)
{
    static const calls seen = {see_header,       see_info,        see_encode,
                               see_decode,       see_decode_rows, see_message,
                               see_encode_start, see_encode_row,  see_best_offset,
                               see_choice_row,   see_encode_end,  see_pbm_header,
                               see_pbm_row,      see_raw_header,  see_set_unused_fields,
                               see_set_height,   see_encode_abort, see_decode_rest};
    uint8_t *b = a ? a + 1 : NULL, *c = a ? a + 2 : NULL, *d = a ? a + 3 : NULL;
    t85_header_fields fields = {8, 0, 0, 0, 0};
    t85_raw_header_fields raw = {8, 0, 0, 0, 0, 0, 0, 0, 0, 0, 0};
    t85_summary summary = {8, 0, 0, 0, 0, 0, 0, 0, 0};
    t85_options options = T85_OPTIONS;
    t85_encoder encoder;
    t85_choice choice;
    t85_decoder decoder;
    t85_pbm pbm;
    size_t written = 8;
    uint32_t rows_written = 6;
    uint8_t offset = 7;
    options.version = 9;
    have_come("t85_header", seen.t85_header(a, 8, &fields), 1, a);
    have_come("t85_info", seen.t85_info(a, 8, &summary), 1, a);
    have_come("t85_encode",
              seen.t85_encode(1, 2, a, 3, 4, &options, b, 5, c, 6, d, 7, &written), 4, a);
    written = 5;
    have_come("t85_decode", seen.t85_decode(a, 1, 2, b, 3, c, 4, &written), 3, a);
    have_come("t85_decode_rows",
              seen.t85_decode_rows(a, 1, 2, 3, b, 4, c, 5, &rows_written), 3, a);
    have_come("t85_message", seen.t85_message(8, a, 8), 1, a);
    written = 7;
    have_come("t85_encode_start",
              seen.t85_encode_start(&encoder, 1, 2, 3, &options, a, 4, b, 5, c, 6, &written), 3, a);
    have_come("t85_encode_row", seen.t85_encode_row(&encoder, a, 1, b, 2, c, 3, &written), 3, a);
    have_come("t85_best_offset", seen.t85_best_offset(&encoder, a, 1, b, 2, c, 3, &offset), 3, a);
    have_come("t85_choice_row", seen.t85_choice_row(&choice, a, 1, b, 2), 2, a);
    have_come("t85_encode_end", seen.t85_encode_end(&encoder, a, 1, b, 2, &written), 2, a);
    have_come("t85_pbm_header", seen.t85_pbm_header(&pbm, a, 1, &written), 1, a);
    have_come("t85_pbm_row", seen.t85_pbm_row(&pbm, a, 1, b, 2, &written), 2, a);
    have_come("t85_raw_header", seen.t85_raw_header(a, 8, &raw), 1, a);
    have_come("t85_set_unused_fields", seen.t85_set_unused_fields(a, 1, 2, 3, 4), 1, a);
    have_come("t85_set_height", seen.t85_set_height(a, 1), 1, a);
    have_come("t85_decode_rest", seen.t85_decode_rest(&decoder, a, 1, &written), 1, a);
    have_come("t85_encode_abort", seen.t85_encode_abort(&encoder, a, 1, &written), 1, a);
}

/* Checks that each argument is evaluated once: each is increased by one. */
static void once(void)
{
    uint8_t text[9], *at = text, status = T85_OK;
    const uint8_t *stream = text;
    size_t room = sizeof text, len = 1;
    t85_header_fields fields[2], *field = fields;
    if (t85_message(status++, at++, room--) != 4 || status != 1 || at != text + 1 || room != 8)
        fail("t85_message evaluates an argument again");
    if (t85_header(stream++, len++, field++) != T85_SHORT_HEADER || stream != text + 1 ||
        len != 2 || field != fields + 1)
        fail("t85_header evaluates an argument again");
}

/* Calls the reading functions with null pointers and 0. */
static void read_null(buffer stream, size_t window_len)
{
    buffer window = lend(window_len);
    size_t written = 77;
    uint32_t rows = 77;
    t85_header_fields fields = {77, 0, 0, 0, 0};
    t85_raw_header_fields raw = {77, 0, 0, 0, 0, 0, 0, 0, 0, 0, 0};
    t85_summary summary = {77, 0, 0, 0, 0, 0, 0, 0, 0};
    if (t85_header(NULL, 0, &fields) != T85_SHORT_HEADER || fields.width != 77)
        fail("t85_header of a null pointer");
    if (t85_info(NULL, 0, &summary) != T85_SHORT_HEADER || summary.width != 77)
        fail("t85_info of a null pointer");
    if (t85_raw_header(NULL, 0, &raw) != T85_SHORT_HEADER || raw.width != 77)
        fail("t85_raw_header of a null pointer");
    if (t85_set_unused_fields(NULL, 0, 0, 0, 0) != T85_SHORT_HEADER ||
        t85_set_height(NULL, 0) != T85_SHORT_HEADER)
        fail("t85_set_unused_fields or t85_set_height of a null pointer");
    if (t85_decode(NULL, 0, 9, NULL, 0, NULL, 0, &written) != T85_SHORT_HEADER || written != 0)
        fail("t85_decode of null pointers");
    if (t85_decode_rows(NULL, 0, 9, 9, NULL, 0, NULL, 0, &rows) != T85_SHORT_HEADER || rows != 0)
        fail("t85_decode_rows of null pointers");
    written = rows = 77;
    if (t85_decode(stream.bytes, stream.len, UINT32_MAX, NULL, 0, NULL, 0, &written) !=
            T85_SHORT_WINDOW ||
        written != 0)
        fail("t85_decode with no window");
    if (t85_decode_rows(stream.bytes, stream.len, UINT32_MAX, window_len, NULL, 0, NULL, 0,
                        &rows) != T85_SHORT_WINDOW ||
        rows != 0)
        fail("t85_decode_rows with no window");
    written = rows = 77;
    if (t85_decode(stream.bytes, stream.len, UINT32_MAX, window.bytes, window.len, NULL, 0,
                   &written) != T85_NO_ROOM ||
        written != 0)
        fail("t85_decode with no room");
    if (t85_decode_rows(stream.bytes, stream.len, UINT32_MAX, window_len, window.bytes, window.len,
                        NULL, 0, &rows) != T85_NO_ROOM ||
        rows != 0)
        fail("t85_decode_rows with no room");
    if (t85_message(T85_OK, NULL, 0) != 4)
        fail("t85_message with no room");
    give_back(window);
}

/* Passes no bytes, with a null pointer and with another: the call consumes none, and returns the
   expected status. */
static void takes_none(uint8_t wanted, t85_decoder *decoder, buffer window, const uint8_t *bytes)
{
    const uint8_t *places[] = {NULL, bytes};
    size_t i, taken, row;
    for (i = 0; i < 2; i++) {
        uint8_t status;
        taken = 77;
        status = t85_decode_bytes(decoder, places[i], 0, window.bytes, window.len, &taken, &row);
        if (status != wanted || taken)
            fail("t85_decode_bytes: status %d and %zu bytes of none, expected status %d", status,
                 taken, wanted);
    }
}

/* Decodes a stream byte by byte, with an empty call whenever more bytes are needed, and after
   the end. There is no window before the rows. */
static void piece_null(buffer stream, size_t window_len)
{
    buffer window = {NULL, 0};
    t85_decoder decoder;
    size_t at = 0, taken, row;
    uint32_t rows = 0;
    uint8_t status = T85_MORE;
    if (t85_decode_start(&decoder, sizeof decoder, UINT32_MAX))
        fail("t85_decode_start");
    while (status >= T85_HEADER_READ && at < stream.len) {
        if (status != T85_ROW)
            takes_none(T85_MORE, &decoder, window, stream.bytes + at);
        status = t85_decode_bytes(&decoder, stream.bytes + at, 1, window.bytes, window.len, &taken,
                                  &row);
        at += taken;
        rows += status == T85_ROW;
        if (status == T85_HEADER_READ)
            window = lend(window_len);
    }
    /* Returns the rows that the last byte determines. */
    while (status == T85_ROW) {
        status = t85_decode_bytes(&decoder, NULL, 0, window.bytes, window.len, &taken, &row);
        rows += status == T85_ROW;
    }
    if (status != T85_OK || at != stream.len || rows != t85_decode_height(&decoder))
        fail("t85_decode_bytes: status %d and %u rows, with no bytes between", status, rows);
    takes_none(T85_OK, &decoder, window, stream.bytes + at);
    taken = 77;
    status = t85_decode_rest(&decoder, NULL, 0, &taken);
    if (status != T85_OK || taken)
        fail("t85_decode_rest: status %d and %zu bytes of none", status, taken);
    give_back(window);
}

/* Calls the encoder with null pointers and 0, for an image of eight pixels. */
static void write_null(void)
{
    buffer window = lend(3), row = filled(1);
    t85_options options = T85_OPTIONS;
    t85_summary summary;
    uint8_t code[2][100];
    size_t written = 77, again = 77;
    options.has_comment = true;
    if (t85_encode(8, 1, NULL, 0, 1, &options, NULL, 0, NULL, 0, NULL, 0, &written) !=
            T85_SHORT_WINDOW ||
        written != 0)
        fail("t85_encode with no window");
    written = 77;
    if (t85_encode(8, 1, NULL, 0, 1, &options, NULL, 0, window.bytes, 3, NULL, 0, &written) !=
            T85_NO_ROOM ||
        written != 0)
        fail("t85_encode with no room");
    if (t85_encode(8, 1, NULL, 0, 1, &options, NULL, 0, window.bytes, 3, code[0], 100,
                   &written) != T85_ROWS_MISSING ||
        written < 20)
        fail("t85_encode with no rows");
    if (t85_encode(8, 1, row.bytes, 1, 1, &options, NULL, 0, window.bytes, 3, code[0], 100,
                   &written) != T85_OK ||
        t85_info(code[0], written, &summary) != T85_OK || summary.comments != 1)
        fail("t85_encode with an empty comment");
    if (t85_encode(8, 1, row.bytes, 1, 1, &options, row.bytes, 0, window.bytes, 3, code[1], 100,
                   &again) != T85_OK ||
        again != written || memcmp(code[0], code[1], written))
        fail("t85_encode with an empty comment that has a place");
    give_back(row);
    give_back(window);
}

/* Calls the row encoder with null pointers and 0, for an image of eight pixels. */
static void write_row_null(void)
{
    buffer window = filled(3), row = filled(1);
    t85_options options = T85_OPTIONS;
    t85_encoder encoder;
    uint8_t code[2][200], offset = 77;
    size_t front = 77, more = 77, last = 77, whole = 77;
    options.has_comment = true;
    if (t85_encode_start(&encoder, sizeof encoder, 8, 1, &options, NULL, 0, NULL, 0, NULL, 0,
                         &front) != T85_SHORT_WINDOW ||
        front != 0)
        fail("t85_encode_start with no window");
    front = 77;
    if (t85_encode_start(&encoder, sizeof encoder, 8, 1, &options, NULL, 0, window.bytes, 3, NULL,
                         0, &front) != T85_NO_ROOM ||
        front != 0)
        fail("t85_encode_start with no room");
    if (t85_encode_start(&encoder, sizeof encoder, 8, 1, &options, NULL, 0, window.bytes, 3,
                         code[0], 26, &front) != T85_OK ||
        front != 26)
        fail("t85_encode_start with an empty comment");
    if (t85_best_offset(&encoder, NULL, 0, NULL, 0, NULL, 0, &offset) != T85_ROWS_MISSING ||
        t85_best_offset(&encoder, row.bytes, 1, NULL, 0, code[1], 3, &offset) != T85_SHORT_WINDOW ||
        t85_best_offset(&encoder, row.bytes, 1, window.bytes, 3, NULL, 0, &offset) !=
            T85_SHORT_WINDOW ||
        offset != 77)
        fail("t85_best_offset with no rows, no window or no scratch memory");
    if (t85_encode_row(&encoder, NULL, 0, NULL, 0, NULL, 0, &more) != T85_SHORT_ROW || more != 0)
        fail("t85_encode_row with no row");
    more = 77;
    if (t85_encode_row(&encoder, row.bytes, 1, NULL, 0, NULL, 0, &more) != T85_SHORT_WINDOW ||
        more != 0)
        fail("t85_encode_row with no window");
    more = 77;
    if (t85_encode_row(&encoder, row.bytes, 1, window.bytes, 3, NULL, 0, &more) != T85_NO_ROOM ||
        more != 0)
        fail("t85_encode_row with no room");
    if (t85_encode_room(&encoder) > 174)
        fail("t85_encode_room: %llu bytes for a row of eight pixels",
             (unsigned long long)t85_encode_room(&encoder));
    if (t85_encode_row(&encoder, row.bytes, 1, window.bytes, 3, code[0] + 26, 174, &more) != T85_OK)
        fail("t85_encode_row");
    if (t85_encode_abort(&encoder, NULL, 0, &last) != T85_NO_ROOM || last != 0)
        fail("t85_encode_abort with no room");
    last = 77;
    if (t85_encode_end(&encoder, NULL, 0, NULL, 0, &last) != T85_SHORT_WINDOW || last != 0)
        fail("t85_encode_end with no window");
    last = 77;
    if (t85_encode_end(&encoder, window.bytes, 3, NULL, 0, &last) != T85_NO_ROOM || last != 0)
        fail("t85_encode_end with no room");
    if (t85_encode_room(&encoder) > 174 - more ||
        t85_encode_end(&encoder, window.bytes, 3, code[0] + 26 + more, 174 - more, &last) != T85_OK)
        fail("t85_encode_end");
    if (t85_encode(8, 1, row.bytes, 1, 1, &options, NULL, 0, window.bytes, 3, code[1], 200,
                   &whole) != T85_OK ||
        whole != front + more + last || memcmp(code[0], code[1], whole))
        fail("t85_encode_end: another stream than t85_encode's");
    give_back(row);
    give_back(window);
}

/* Calls the functions by their addresses and in parentheses, without the macros. */
static void by_address(buffer stream)
{
    static const calls table = {&t85_header,       &t85_info,        &t85_encode,
                                &t85_decode,       &t85_decode_rows, &t85_message,
                                &t85_encode_start, &t85_encode_row,  &t85_best_offset,
                                &t85_choice_row,   &t85_encode_end,  &t85_pbm_header,
                                &t85_pbm_row,      &t85_raw_header,  &t85_set_unused_fields,
                                &t85_set_height,   &t85_encode_abort, &t85_decode_rest};
    t85_options options = T85_OPTIONS;
    t85_encoder encoder;
    t85_choice choice;
    t85_header_fields fields, same;
    t85_summary summary;
    size_t written = 77;
    uint32_t rows = 77;
    uint8_t offset = 77;
    if (table.t85_header != (t85_header) || table.t85_message != t85_message)
        fail("a function has two addresses");
    if ((t85_header)(stream.bytes, stream.len, &fields) != T85_OK ||
        (*table.t85_header)(stream.bytes, stream.len, &same) != T85_OK ||
        memcmp(&fields, &same, sizeof fields))
        fail("t85_header in parentheses");
    if ((t85_info)(T85_NOTHING, 0, &summary) != T85_SHORT_HEADER ||
        (*table.t85_info)(T85_NOTHING, 0, &summary) != T85_SHORT_HEADER)
        fail("t85_info in parentheses");
    if ((t85_encode)(8, 1, T85_NOTHING, 0, 1, &options, T85_NOTHING, 0, T85_NOTHING, 0,
                     T85_NOTHING, 0, &written) != T85_SHORT_WINDOW ||
        written != 0)
        fail("t85_encode in parentheses");
    if ((t85_decode)(T85_NOTHING, 0, 9, T85_NOTHING, 0, T85_NOTHING, 0, &written) !=
            T85_SHORT_HEADER ||
        (t85_decode_rows)(T85_NOTHING, 0, 9, 9, T85_NOTHING, 0, T85_NOTHING, 0, &rows) !=
            T85_SHORT_HEADER)
        fail("t85_decode or t85_decode_rows in parentheses");
    memset(&encoder, 0, sizeof encoder);
    memset(&choice, 0, sizeof choice);
    if ((t85_choice_row)(&choice, T85_NOTHING, 0, T85_NOTHING, 0) != T85_NOT_BEGUN ||
        (*table.t85_choice_row)(&choice, T85_NOTHING, 0, T85_NOTHING, 0) != T85_NOT_BEGUN)
        fail("t85_choice_row in parentheses");
    if ((t85_encode_start)(&encoder, sizeof encoder, 8, 1, &options, T85_NOTHING, 0, T85_NOTHING, 0,
                           T85_NOTHING, 0, &written) != T85_SHORT_WINDOW ||
        (*table.t85_encode_row)(&encoder, T85_NOTHING, 0, T85_NOTHING, 0, T85_NOTHING, 0,
                                &written) != T85_NOT_BEGUN ||
        (t85_best_offset)(&encoder, T85_NOTHING, 0, T85_NOTHING, 0, T85_NOTHING, 0, &offset) !=
            T85_NOT_BEGUN ||
        (t85_encode_abort)(&encoder, T85_NOTHING, 0, &written) != T85_NOT_BEGUN ||
        (t85_encode_end)(&encoder, T85_NOTHING, 0, T85_NOTHING, 0, &written) != T85_NOT_BEGUN)
        fail("a call of an encoder in parentheses");
    if ((t85_set_unused_fields)(T85_NOTHING, 0, 0, 0, 0) != T85_SHORT_HEADER ||
        (*table.t85_set_height)(T85_NOTHING, 0) != T85_SHORT_HEADER)
        fail("t85_set_unused_fields or t85_set_height in parentheses");
    if ((t85_message)(T85_OK, T85_NOTHING, 0) != 4)
        fail("t85_message in parentheses");
}

void null(char **words)
{
    buffer file = read_file(words[0]), stream = copied(file.bytes, file.len);
    uint8_t four[4];
    t85_header_fields fields;
    or_nothing();
    passed(four);
    passed(NULL);
    once();
    if (t85_header(stream.bytes, stream.len, &fields) != T85_OK)
        fail("t85_header");
    read_null(stream, t85_window_bytes(fields.width));
    piece_null(stream, t85_window_bytes(fields.width));
    write_null();
    write_row_null();
    by_address(stream);
    give_back(stream);
    free(file.bytes);
}

