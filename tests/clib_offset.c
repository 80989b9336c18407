/* Tests the choice of the adaptive pixel's offset by the caller. */
#include "clib.h"

#include <string.h>

/* An encoder with its window, and the stream that it has written. */
typedef struct {
    t85_encoder encoder;
    buffer window, stream;
    size_t len;
} writer;

/* A choice of offsets: the one for the stripe that begins with row y. */
typedef uint8_t (*chooser)(uint32_t y, const t85_options *options);

static uint8_t nominal(uint32_t y, const t85_options *options)
{
    (void)y;
    (void)options;
    return 0;
}

/* The least and the greatest offset in turn, and 0 between them. */
static uint8_t in_turn(uint32_t y, const t85_options *options)
{
    uint8_t least = options->options & T85_TWO_LINES ? 5 : 3;
    uint32_t stripe = y / options->stripe_rows % 3;
    return stripe == 0 ? least : stripe == 1 ? (uint8_t)options->most_offset : 0;
}

static writer begun(uint32_t width, uint32_t height, const t85_options *options)
{
    writer by;
    by.window = lend(t85_window_bytes(width));
    /* t85_encode_bound counts a move for each stripe. Each call needs t85_encode_room besides. */
    by.stream = lend((size_t)t85_encode_bound(width, height, options, 0) + 8 * (size_t)width + 100);
    if (t85_encode_start(&by.encoder, sizeof by.encoder, width, height, options, NULL, 0,
                         by.window.bytes, by.window.len, by.stream.bytes, by.stream.len, &by.len))
        fail("t85_encode_start");
    return by;
}

/* Checks that an offset is rejected, with nothing changed. */
static void rejected(uint8_t wanted, writer *by, unsigned offset)
{
    t85_encoder kept = by->encoder;
    uint8_t status = t85_encode_offset(&by->encoder, (uint8_t)offset);
    if (status != wanted || memcmp(&kept, &by->encoder, sizeof kept))
        fail("t85_encode_offset: %u has status %d, expected %d", offset, status, wanted);
}

/* Checks all 256 offsets where a stripe begins. */
static void allowed_only(writer *by, const t85_options *options)
{
    unsigned least = options->options & T85_TWO_LINES ? 5 : 3, offset;
    for (offset = 1; offset < 256; offset++)
        if (offset < least || offset > options->most_offset)
            rejected(T85_OFFSET_LARGE, by, offset);
}

static void put(writer *by, const uint8_t *row, size_t row_len)
{
    size_t written = 0;
    uint8_t status =
        row ? t85_encode_row(&by->encoder, row, row_len, by->window.bytes, by->window.len,
                             by->stream.bytes + by->len, by->stream.len - by->len, &written)
            : t85_encode_end(&by->encoder, by->window.bytes, by->window.len,
                             by->stream.bytes + by->len, by->stream.len - by->len, &written);
    if (status)
        fail("t85_encode_row: status %d", status);
    by->len += written;
}

/* Returns the best offset for the next stripe. Neither the encoder nor its window may change. */
static uint8_t best(writer *by, const uint8_t *rows, size_t rows_len, uint8_t wanted)
{
    t85_encoder kept = by->encoder;
    buffer lines = copied(by->window.bytes, by->window.len), scratch = filled(by->window.len);
    uint8_t offset = 77;
    uint8_t status = t85_best_offset(&by->encoder, rows, rows_len, by->window.bytes, by->window.len,
                                     scratch.bytes, scratch.len, &offset);
    if (status != wanted || memcmp(&kept, &by->encoder, sizeof kept) ||
        memcmp(lines.bytes, by->window.bytes, lines.len))
        fail("t85_best_offset: status %d, expected %d, or the encoder has changed", status, wanted);
    if (status) {
        if (offset != 77)
            fail("t85_best_offset: an offset with status %d", status);
        is_filled("t85_best_offset", scratch);
    }
    give_back(scratch);
    give_back(lines);
    return offset;
}

/* Checks a status, and that a rejected call changes nothing. */
static void has_status(const char *call, uint8_t status, uint8_t wanted, const t85_choice *kept,
                       const t85_choice *choice)
{
    if (status != wanted || (wanted && memcmp(kept, choice, sizeof *kept)))
        fail("%s: status %d, expected %d, or the choice has changed", call, status, wanted);
}

static void pass(t85_choice *choice, const uint8_t *row, size_t row_len, const uint8_t *above,
                 size_t above_len, uint8_t wanted)
{
    t85_choice kept = *choice;
    has_status("t85_choice_row", t85_choice_row(choice, row, row_len, above, above_len), wanted,
               &kept, choice);
}

/* Returns the offset for the next stripe, or 77. */
static uint8_t next_offset(t85_choice *choice, unsigned current, uint8_t wanted)
{
    t85_choice kept = *choice;
    uint8_t offset = 77;
    has_status("t85_choice_offset", t85_choice_offset(choice, (uint8_t)current, &offset), wanted,
               &kept, choice);
    if (wanted && offset != 77)
        fail("t85_choice_offset: an offset with status %d", wanted);
    return offset;
}

static void start(t85_choice *choice, size_t size, uint32_t width, const t85_options *options,
                  uint8_t wanted)
{
    t85_choice kept = *choice;
    has_status("t85_choice_start", t85_choice_start(choice, size, width, options), wanted, &kept,
               choice);
}

/* Starts a choice, and checks the calls that are rejected. */
static t85_choice chosen_for(uint32_t width, const t85_options *options)
{
    t85_choice choice;
    t85_options other = *options;
    uint8_t byte = 0;
    unsigned least = options->options & T85_TWO_LINES ? 5 : 3, offset;
    memset(&choice, 0, sizeof choice);
    pass(&choice, &byte, 1, &byte, 1, T85_NOT_BEGUN);
    next_offset(&choice, 0, T85_NOT_BEGUN);
    other.version = 2;
    other.most_offset = 128;
    start(&choice, sizeof choice, 0, &other, T85_OTHER_VERSION);
    other.version = options->version;
    start(&choice, sizeof choice, 0, &other, T85_OFFSET_LARGE);
    start(&choice, sizeof choice - 1, width, options, T85_OTHER_VERSION);
    start(&choice, sizeof choice + 1, width, options, T85_OTHER_VERSION);
    start(&choice, sizeof choice, 0, options, T85_NO_PIXELS);
    start(&choice, sizeof choice, T85_MOST_WIDTH + 1, options, T85_IMAGE_WIDE);
    start(&choice, sizeof choice, width, options, T85_OK);
    pass(&choice, &byte, 0, &byte, 1, T85_SHORT_ROW);
    if (width > 8)
        pass(&choice, &byte, 1, NULL, 0, T85_SHORT_ROW);
    for (offset = 1; offset < 256; offset++)
        if (offset < least || offset > options->most_offset)
            next_offset(&choice, offset, T85_OFFSET_LARGE);
    return choice;
}

/* Encodes an image with these offsets, with JBIG-KIT's, or with the best ones; the stream must decode to
   the image. */
static size_t encode_with(chooser choose, t85_choice *choice, uint32_t width, uint32_t height,
                          buffer rows, const t85_options *options)
{
    size_t row = t85_row_bytes(width), len;
    writer by = begun(width, height, options);
    buffer again = filled(rows.len);
    uint32_t y, count = 0;
    uint8_t offset = 0;
    for (y = 0; y < height; y++) {
        const uint8_t *next = rows.bytes + y * row;
        size_t left = rows.len - y * row;
        bool top = y == 0 || (options->reset && y % options->stripe_rows == 0);
        if (y % options->stripe_rows) {
            rejected(T85_IN_STRIPE, &by, 0);
            best(&by, next, left, T85_IN_STRIPE);
        } else {
            allowed_only(&by, options);
            best(&by, next, row - 1, T85_ROWS_MISSING);
            offset = choose   ? choose(y, options)
                     : choice ? next_offset(choice, offset, T85_OK)
                              : best(&by, next, left, T85_OK);
            if (t85_encode_offset(&by.encoder, offset))
                fail("t85_encode_offset: %u is not accepted", offset);
        }
        put(&by, next, row);
        if (choice)
            pass(choice, next, row, top ? NULL : next - row, top ? 0 : row, T85_OK);
    }
    rejected(T85_NO_MORE_ROWS, &by, 0);
    best(&by, rows.bytes, rows.len, T85_NO_MORE_ROWS);
    put(&by, NULL, 0);
    rejected(T85_NO_MORE_ROWS, &by, 0);
    if (t85_decode_rows(by.stream.bytes, by.len, height, row, by.window.bytes, by.window.len,
                        again.bytes, again.len, &count) ||
        count != height || memcmp(again.bytes, rows.bytes, rows.len))
        fail("t85_decode_rows: another image than was encoded");
    len = by.len;
    give_back(again);
    give_back(by.stream);
    give_back(by.window);
    return len;
}

void offsets(buffer rows, uint32_t width, uint32_t height)
{
    static const uint32_t kinds[] = {0, T85_TYPICAL, T85_TYPICAL | T85_TWO_LINES};
    t85_options options = T85_OPTIONS;
    writer zeros;
    t85_choice choice;
    unsigned kind, reset;
    memset(&zeros, 0, sizeof zeros);
    rejected(T85_NOT_BEGUN, &zeros, 0);
    options.most_offset = 60;
    for (kind = 0; kind < 3; kind++)
        for (reset = 0; reset < 2; reset++) {
            options.options = kinds[kind];
            options.reset = reset;
            options.stripe_rows = height / 5 + 1;
            encode_with(nominal, NULL, width, height, rows, &options);
            encode_with(in_turn, NULL, width, height, rows, &options);
            encode_with(NULL, NULL, width, height, rows, &options);
            choice = chosen_for(width, &options);
            encode_with(NULL, &choice, width, height, rows, &options);
        }
}
