/* Tests encoding images whole and row by row, and the encoder's errors. */
#include "clib.h"

#include <stdio.h>
#include <stdlib.h>
#include <string.h>
#include <unistd.h>

/* Returns an image with gaps between its rows, and none after the last. */
static buffer spread(buffer rows, size_t row, size_t stride)
{
    size_t count = rows.len / row, y;
    buffer wide = filled(count ? (count - 1) * stride + row : 0);
    for (y = 0; y < count; y++)
        memcpy(wide.bytes + y * stride, rows.bytes + y * row, row);
    return wide;
}

static void encode_in(uint32_t width, uint32_t height, buffer rows, size_t stride,
                      const t85_options *options, buffer comment, buffer whole, size_t room)
{
    buffer window = lend(t85_window_bytes(width)), stream = filled(room);
    size_t written = 77;
    uint8_t status =
        t85_encode(width, height, rows.bytes, rows.len, stride, options, comment.bytes, comment.len,
                   window.bytes, window.len, stream.bytes, stream.len, &written);
    if (status != (room < whole.len ? T85_NO_ROOM : T85_OK) ||
        written != (room < whole.len ? room : whole.len))
        fail("t85_encode: status %d and %zu bytes of %zu, with a room of %zu", status, written,
             whole.len, room);
    is_beginning("t85_encode", stream, written, whole);
    give_back(stream);
    give_back(window);
}

/* A row encoder and its window, with two places for each, and a buffer for a call. */
typedef struct {
    buffer states[2], windows[2], room;
    size_t turn;
} row_by_row;

static row_by_row places_for(uint32_t width, size_t room)
{
    row_by_row by;
    for (by.turn = 0; by.turn < 2; by.turn++) {
        by.states[by.turn] = filled(T85_ENCODER_LEAST);
        by.windows[by.turn] = filled(t85_window_bytes(width));
    }
    by.room = lend(room);
    by.turn = 0;
    return by;
}

static void move_on(row_by_row *by)
{
    size_t from = by->turn, to = 1 - from;
    memcpy(by->states[to].bytes, by->states[from].bytes, by->states[from].len);
    memcpy(by->windows[to].bytes, by->windows[from].bytes, by->windows[from].len);
    memset(by->states[from].bytes, FILL, by->states[from].len);
    memset(by->windows[from].bytes, FILL, by->windows[from].len);
    by->turn = to;
}

/* Returns a buffer of exactly this length, which ends at an inaccessible page. */
static buffer room_of(row_by_row *by, size_t len)
{
    buffer part;
    if (len > by->room.len) {
        give_back(by->room);
        by->room = lend(2 * len);
    }
    part = by->room;
    part.len = len;
    if (!at_front)
        part.bytes += by->room.len - len;
    return part;
}

static t85_encoder *encoder_of(row_by_row *by)
{
    return (t85_encoder *)by->states[by->turn].bytes;
}

/* Passes a row, or ends the stream if there is none. */
static uint8_t encode_next(row_by_row *by, const uint8_t *row, size_t row_len, buffer room,
                           size_t *written)
{
    buffer window = by->windows[by->turn];
    if (row)
        return t85_encode_row(encoder_of(by), row, row_len, window.bytes, window.len, room.bytes,
                              room.len, written);
    return t85_encode_end(encoder_of(by), window.bytes, window.len, room.bytes, room.len, written);
}

static void leave(row_by_row *by)
{
    for (by->turn = 0; by->turn < 2; by->turn++) {
        give_back(by->states[by->turn]);
        give_back(by->windows[by->turn]);
    }
    give_back(by->room);
}

/* Checks the next bytes of a stream. */
static void goes_on(buffer whole, size_t *at, buffer room, size_t written)
{
    if (written > room.len || written > whole.len - *at ||
        memcmp(room.bytes, whole.bytes + *at, written))
        fail("t85_encode_row: other bytes from %zu of %zu on", *at, whole.len);
    *at += written;
}

/* Rebuilds a window as it is after the first `count` rows, of which it needs the last two: row
   n, counted from 1, is at place 2 * n % 3, and rows above the image are white; with `reset`,
   rows above the stripe are white, too. */
static void make_anew(buffer window, uint32_t width, buffer rows, uint32_t count,
                      const t85_options *options)
{
    size_t row = t85_row_bytes(width);
    uint32_t first = options->reset ? count / options->stripe_rows * options->stripe_rows : 0, above;
    memset(window.bytes, FILL, window.len);
    for (above = 0; above < 2; above++) {
        uint8_t *place = window.bytes + (2 * (size_t)count + above) % 3 * row;
        memset(place, 0, row);
        if (count >= first + above + 1) {
            memcpy(place, rows.bytes + (count - above - 1) * row, row);
            if (width % 8)
                place[row - 1] &= (uint8_t)(0xff00u >> width % 8);
        }
    }
}

/* Encodes the same image row by row, where at most `most_rows` are allowed, in a buffer of
   exactly the reported size, with an encoder and a window that move before each call (for a tall
   image only now and then). Or the window is rebuilt for each call. */
static void encode_rows_in(uint32_t width, uint32_t height, uint32_t most_rows, buffer rows,
                           const t85_options *options, buffer comment, buffer whole, bool anew)
{
    size_t row = t85_row_bytes(width), at = 0, written = 77;
    size_t front = options->has_comment ? 26 + comment.len : 20;
    row_by_row by = places_for(width, front);
    buffer room = room_of(&by, front);
    uint32_t y;
    uint8_t status =
        t85_encode_start(encoder_of(&by), T85_ENCODER_LEAST, width, most_rows, options,
                         comment.bytes, comment.len, by.windows[0].bytes, by.windows[0].len,
                         room.bytes, room.len, &written);
    if (status != T85_OK || written != front)
        fail("t85_encode_start: status %d and %zu bytes", status, written);
    goes_on(whole, &at, room, written);
    for (y = 0; y <= height; y++) {
        if (y < 1000 || y % 61 == 0)
            move_on(&by);
        if (anew)
            make_anew(by.windows[by.turn], width, rows, y, options);
        if (t85_encode_rows_left(encoder_of(&by)) != most_rows - y ||
            !t85_encode_room(encoder_of(&by)))
            fail("t85_encode_rows_left: %u, or no room, after %u rows",
                 t85_encode_rows_left(encoder_of(&by)), y);
        room = room_of(&by, (size_t)t85_encode_room(encoder_of(&by)));
        written = 77;
        status = encode_next(&by, y < height ? rows.bytes + y * row : NULL, row, room, &written);
        if (status != T85_OK)
            fail("t85_encode_row: status %d after %u rows", status, y);
        goes_on(whole, &at, room, written);
    }
    if (at != whole.len || t85_encode_rows_left(encoder_of(&by)) ||
        t85_encode_room(encoder_of(&by)))
        fail("t85_encode_end: %zu bytes of %zu, or rows left", at, whole.len);
    leave(&by);
}

void encode(char **words)
{
    buffer image = read_file(words[0]), whole = read_file(words[1]), rows, wide, lent, comment;
    t85_options options = T85_OPTIONS;
    uint32_t width, height;
    size_t row, room;
    options.options = (uint32_t)atol(words[2]);
    options.stripe_rows = (uint32_t)atol(words[3]);
    options.most_offset = (uint32_t)atol(words[4]);
    options.announces_height = strcmp(words[5], "-") != 0;
    options.announced_height = (uint32_t)atol(words[5]);
    options.reset = atoi(words[6]) != 0;
    options.has_comment = strcmp(words[7], "-") != 0;
    comment = options.has_comment ? copied(words[7], strlen(words[7])) : lend(0);
    rows = rows_of(image, &width, &height);
    row = t85_row_bytes(width);
    lent = copied(rows.bytes, rows.len);
    for (room = 0; room <= whole.len; room = next_room(room, whole.len))
        encode_in(width, height, lent, row, &options, comment, whole, room);
    encode_in(width, height, lent, row, &options, comment, whole, whole.len + 1000);
    if (t85_encode_bound(width, height, &options, comment.len) < whole.len)
        fail("t85_encode_bound: below %zu", whole.len);
    wide = spread(rows, row, row + 5);
    encode_in(width, height, wide, row + 5, &options, comment, whole, whole.len);
    give_back(wide);
    encode_rows_in(width, height, height, lent, &options, comment, whole, false);
    encode_rows_in(width, height, height, lent, &options, comment, whole, true);
    if (options.announces_height)
        encode_rows_in(width, height, options.announced_height, lent, &options, comment, whole,
                       false);
    give_back(lent);
    give_back(comment);
}

void missing(char **words)
{
    buffer image = read_file(words[0]), whole, rows, lent, window, stream;
    t85_options options = T85_OPTIONS;
    uint32_t width, height;
    char name[4096];
    size_t count, written;
    uint8_t status;
    rows = rows_of(image, &width, &height);
    for (count = 0; count < rows.len; count++) {
        sprintf(name, "%s/%zu", words[1], count);
        if (access(name, R_OK))
            continue;
        whole = read_file(name);
        lent = copied(rows.bytes, count);
        window = lend(t85_window_bytes(width));
        stream = filled(whole.len + 1000);
        status = t85_encode(width, height, lent.bytes, count, t85_row_bytes(width), &options,
                            T85_NOTHING, 0, window.bytes, window.len, stream.bytes, stream.len,
                            &written);
        if (status != T85_ROWS_MISSING || written != whole.len)
            fail("t85_encode: status %d and %zu bytes of %zu, with %zu bytes of rows", status,
                 written, whole.len, count);
        is_beginning("t85_encode", stream, written, whole);
        give_back(stream);
        give_back(window);
        give_back(lent);
        free(whole.bytes);
    }
}

/* Checks that a call of t85_encode is rejected with nothing written. */
static void refused(uint8_t wanted, uint32_t width, uint32_t height, size_t stride,
                    const t85_options *options, size_t comment_len, size_t window_len, buffer rows)
{
    buffer window = lend(window_len), stream = lend(100), comment = lend(comment_len);
    size_t written = 77;
    uint8_t status =
        t85_encode(width, height, rows.bytes, rows.len, stride, options, comment.bytes, comment.len,
                   window.bytes, window.len, stream.bytes, stream.len, &written);
    if (status != wanted || written)
        fail("t85_encode: status %d and %zu bytes, expected status %d", status, written, wanted);
    give_back(comment);
    give_back(stream);
    give_back(window);
}

static void bounds(void)
{
    t85_options options = T85_OPTIONS;
    if (t85_encode_bound(T85_MOST_WIDTH, UINT32_MAX, &options, 0) == 0
        || t85_encode_bound(T85_MOST_WIDTH + 1, 1, &options, 0) != 0
        || t85_encode_bound(0, 1, &options, 0) != 0
        || t85_encode_bound(1, 0, &options, 0) != 0
        || t85_encode_bound(8, 8, &options, SIZE_MAX) != t85_encode_bound(8, 8, &options, 0))
        fail("t85_encode_bound");
    options.has_comment = true;
    if (t85_encode_bound(8, 8, &options, (size_t)1 << 32) != 0
        || t85_encode_bound(8, 8, &options, UINT32_MAX) <= UINT32_MAX)
        fail("t85_encode_bound with a comment");
    options.stripe_rows = 0;
    if (t85_encode_bound(8, 8, &options, 0) != 0)
        fail("t85_encode_bound of no stripes");
}

void is_filled(const char *call, buffer lent)
{
    size_t i;
    for (i = 0; i < lent.len; i++)
        if (lent.bytes[i] != FILL)
            fail("%s: byte %zu of %zu was changed", call, i, lent.len);
}

/* Checks that a start is rejected, with nothing written or changed. */
static void unstarted(uint8_t wanted, size_t size, uint32_t width, uint32_t height,
                      const t85_options *options, size_t comment_len, size_t window_len,
                      size_t stream_room)
{
    buffer state = filled(sizeof(t85_encoder)), window = filled(window_len);
    buffer stream = filled(stream_room), comment = lend(comment_len);
    size_t written = 77;
    uint8_t status = t85_encode_start((t85_encoder *)state.bytes, size, width, height, options,
                                      comment.bytes, comment.len, window.bytes, window.len,
                                      stream.bytes, stream.len, &written);
    if (status != wanted || written)
        fail("t85_encode_start: status %d and %zu bytes, expected status %d", status, written,
             wanted);
    is_filled("t85_encode_start", state);
    is_filled("t85_encode_start", window);
    is_filled("t85_encode_start", stream);
    give_back(comment);
    give_back(stream);
    give_back(window);
    give_back(state);
}

/* Checks the errors of t85_encode_start; everything that is checked later is also wrong. */
static void starts(uint32_t width, uint32_t height)
{
    size_t size = sizeof(t85_encoder), three = t85_window_bytes(width), len;
    t85_options options = T85_OPTIONS;
    for (len = 0; len < 2 * size; len += 8)
        unstarted(len < T85_ENCODER_LEAST || len > size ? T85_OTHER_VERSION : T85_NO_PIXELS, len, 0,
                  0, &options, 0, 0, 0);
    options.version = T85_OPTIONS_VERSION + 1;
    unstarted(T85_OTHER_VERSION, size, width, height, &options, 0, three, 100);
    options.version = T85_OPTIONS_VERSION;
    options.options = 1;
    options.stripe_rows = 0;
    options.most_offset = T85_MOST_OFFSET + 1;
    unstarted(T85_OPTION_BITS, size, 0, 0, &options, 0, 0, 0);
    options.options = T85_TYPICAL;
    unstarted(T85_STRIPE_ZERO, size, 0, 0, &options, 0, 0, 0);
    options.stripe_rows = 1;
    unstarted(T85_OFFSET_LARGE, size, 0, 0, &options, 0, 0, 0);
    options.most_offset = T85_MOST_OFFSET;
    options.has_comment = true;
    unstarted(T85_COMMENT_LONG, size, 0, 0, &options, (size_t)1 << 32, 0, 0);
    unstarted(T85_NO_PIXELS, size, 0, height, &options, 0, 0, 0);
    options.announces_height = true;
    unstarted(T85_NO_PIXELS, size, width, 0, &options, 0, 0, 0);
    unstarted(T85_IMAGE_WIDE, size, T85_MOST_WIDTH + 1, height, &options, 0, 0, 0);
    unstarted(T85_IMAGE_WIDE, size, UINT32_MAX, height, &options, 0, 0, 0);
    options.announced_height = height - 1;
    unstarted(T85_ANNOUNCED_LOW, size, width, height, &options, 0, 0, 0);
    options.announced_height = height;
    for (len = 0; len < three; len++)
        unstarted(T85_SHORT_WINDOW, size, width, height, &options, 0, len, 0);
    for (len = 0; len < 26 + 5; len++)
        unstarted(T85_NO_ROOM, size, width, height, &options, 5, three, len);
    options.has_comment = false;
    for (len = 0; len < 20; len++)
        unstarted(T85_NO_ROOM, size, width, height, &options, 5, three, len);
}

/* Checks that a call with a row, or for the end, is rejected, with nothing written or changed. */
static void unmoved(uint8_t wanted, row_by_row *by, const uint8_t *row, size_t row_len,
                    size_t window_len, size_t room_len)
{
    buffer state = by->states[by->turn], window = by->windows[by->turn], room = filled(room_len);
    buffer kept = copied(state.bytes, state.len), lines = copied(window.bytes, window_len);
    size_t written = 77;
    uint8_t status;
    by->windows[by->turn] = lines;
    status = encode_next(by, row, row_len, room, &written);
    by->windows[by->turn] = window;
    if (status != wanted || written)
        fail("t85_encode_row: status %d and %zu bytes, expected status %d", status, written,
             wanted);
    if (memcmp(kept.bytes, state.bytes, state.len) || memcmp(lines.bytes, window.bytes, window_len))
        fail("t85_encode_row: changes something at status %d", status);
    is_filled("t85_encode_row", room);
    give_back(lines);
    give_back(kept);
    give_back(room);
}

/* Checks the errors of the next call, a row or the end, for its arguments. */
static void lent_little(row_by_row *by, const uint8_t *row, size_t row_len, size_t three)
{
    size_t told = (size_t)t85_encode_room(encoder_of(by)), len;
    for (len = 0; row && len < row_len; len++)
        unmoved(T85_SHORT_ROW, by, row, len, 0, 0);
    for (len = 0; len < three; len++)
        unmoved(T85_SHORT_WINDOW, by, row, row_len, len, 0);
    unmoved(T85_NO_ROOM, by, row, row_len, three, 0);
    unmoved(T85_NO_ROOM, by, row, row_len, three, told - 1);
}

/* Aborts a stream that has been started: the marker is written once, and nothing may follow. */
static void is_aborted(row_by_row *by, const uint8_t *row)
{
    buffer room = room_of(by, 1);
    size_t written = 77;
    memset(room.bytes, FILL, room.len);
    if (t85_encode_abort(encoder_of(by), room.bytes, room.len, &written) != T85_NO_ROOM || written)
        fail("t85_encode_abort into one byte");
    is_filled("t85_encode_abort", room);
    room = room_of(by, 2);
    if (t85_encode_abort(encoder_of(by), room.bytes, room.len, &written) != T85_OK || written != 2 ||
        room.bytes[0] != 0xff || room.bytes[1] != 4)
        fail("t85_encode_abort");
    if (t85_encode_abort(encoder_of(by), room.bytes, 0, &written) != T85_NO_MORE_ROWS || written)
        fail("t85_encode_abort after an abort");
    unmoved(T85_NO_MORE_ROWS, by, row, 0, 0, 0);
    unmoved(T85_NO_MORE_ROWS, by, NULL, 0, 0, 0);
}

/* Checks each call of an encoder of two rows. */
static void row_encoder_states(buffer rows, uint32_t width)
{
    size_t row = t85_row_bytes(width), three = t85_window_bytes(width), at = 0, written, y;
    row_by_row by = places_for(width, 20);
    t85_options options = T85_OPTIONS;
    buffer whole = filled(100000), room;
    if (t85_encode(width, 2, rows.bytes, rows.len, row, &options, T85_NOTHING, 0,
                   by.windows[0].bytes, three, whole.bytes, whole.len, &whole.len))
        fail("t85_encode");
    memset(by.states[0].bytes, 0, by.states[0].len);
    unmoved(T85_NOT_BEGUN, &by, rows.bytes, 0, 0, 0);
    unmoved(T85_NOT_BEGUN, &by, NULL, 0, 0, 0);
    if (t85_encode_rows_left(encoder_of(&by)) || t85_encode_room(encoder_of(&by)))
        fail("an encoder of zeros goes on");
    room = room_of(&by, 20);
    if (t85_encode_start(encoder_of(&by), T85_ENCODER_LEAST, width, 2, &options, NULL, 0,
                         by.windows[0].bytes, three, room.bytes, room.len, &written))
        fail("t85_encode_start");
    goes_on(whole, &at, room, written);
    for (y = 0; y < 2; y++) {
        unmoved(T85_ROWS_MISSING, &by, NULL, 0, 0, 0);
        lent_little(&by, rows.bytes, row, three);
        room = room_of(&by, (size_t)t85_encode_room(encoder_of(&by)));
        if (encode_next(&by, rows.bytes + y * row, row, room, &written))
            fail("t85_encode_row");
        goes_on(whole, &at, room, written);
    }
    unmoved(T85_NO_MORE_ROWS, &by, rows.bytes, 0, 0, 0);
    lent_little(&by, NULL, 0, three);
    room = room_of(&by, (size_t)t85_encode_room(encoder_of(&by)));
    if (encode_next(&by, NULL, 0, room, &written))
        fail("t85_encode_end");
    goes_on(whole, &at, room, written);
    if (at != whole.len)
        fail("t85_encode_end: %zu bytes of %zu", at, whole.len);
    unmoved(T85_NO_MORE_ROWS, &by, rows.bytes, row, three, 1000);
    unmoved(T85_NO_MORE_ROWS, &by, NULL, 0, 0, 0);
    options.announces_height = true;
    options.announced_height = 9;
    room = room_of(&by, 20);
    if (t85_encode_start(encoder_of(&by), T85_ENCODER_LEAST, width, 5, &options, NULL, 0,
                         by.windows[0].bytes, three, room.bytes, room.len, &written))
        fail("t85_encode_start after an end");
    unmoved(T85_ROWS_MISSING, &by, NULL, 0, 0, 0);
    if (t85_encode_rows_left(encoder_of(&by)) != 5)
        fail("t85_encode_rows_left: %u of 5", t85_encode_rows_left(encoder_of(&by)));
    is_aborted(&by, rows.bytes);
    leave(&by);
}

void encoder_faults(buffer rows, uint32_t width, uint32_t height)
{
    size_t row = t85_row_bytes(width), three = t85_window_bytes(width);
    t85_options options = T85_OPTIONS;
    size_t window;
    refused(T85_NO_PIXELS, 0, height, row, &options, 0, three, rows);
    refused(T85_NO_PIXELS, width, 0, row, &options, 0, three, rows);
    refused(T85_IMAGE_WIDE, T85_MOST_WIDTH + 1, height, T85_MOST_WIDTH, &options, 0,
            3 * T85_MOST_WIDTH, rows);
    refused(T85_IMAGE_WIDE, UINT32_MAX, height, UINT32_MAX, &options, 0, 3 * T85_MOST_WIDTH, rows);
    refused(T85_SHORT_STRIDE, width, height, row - 1, &options, 0, three, rows);
    refused(T85_SHORT_STRIDE, width, height, 0, &options, 0, three, rows);
    for (window = 0; window < three; window++)
        refused(T85_SHORT_WINDOW, width, height, row, &options, 0, window, rows);
    options.version = 0;
    refused(T85_OTHER_VERSION, width, height, row, &options, 0, three, rows);
    options.version = T85_OPTIONS_VERSION + 1;
    refused(T85_OTHER_VERSION, width, height, row, &options, 0, three, rows);
    options.version = T85_OPTIONS_VERSION;
    for (options.options = 0; options.options < 2000; options.options++)
        if (options.options & ~(T85_TWO_LINES | T85_VARIABLE_HEIGHT | T85_TYPICAL))
            refused(T85_OPTION_BITS, width, height, row, &options, 0, three, rows);
    options.options = T85_TYPICAL;
    options.stripe_rows = 0;
    refused(T85_STRIPE_ZERO, width, height, row, &options, 0, three, rows);
    options.stripe_rows = 1;
    options.most_offset = T85_MOST_OFFSET + 1;
    refused(T85_OFFSET_LARGE, width, height, row, &options, 0, three, rows);
    options.most_offset = T85_MOST_OFFSET;
    options.announces_height = true;
    for (options.announced_height = 0; options.announced_height < height;
         options.announced_height++)
        refused(T85_ANNOUNCED_LOW, width, height, row, &options, 0, three, rows);
    options.announces_height = false;
    options.has_comment = true;
    refused(T85_COMMENT_LONG, width, height, row, &options, (size_t)1 << 32, three, rows);
    bounds();
    starts(width, height);
    row_encoder_states(rows, width);
}
