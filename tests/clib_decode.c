/* Tests decoding streams whole and in pieces, listing their parts, and the decoder's errors. */
#include "clib.h"

#include <stdio.h>
#include <stdlib.h>
#include <string.h>
#include <unistd.h>

static void decode_in(buffer stream, size_t window_len, uint8_t wanted, buffer whole, size_t room)
{
    buffer window = lend(window_len), image = filled(room);
    size_t written = 77;
    uint8_t status = t85_decode(stream.bytes, stream.len, UINT32_MAX, window.bytes, window.len,
                                image.bytes, image.len, &written);
    if (status != (room < whole.len ? (uint8_t)T85_NO_ROOM : wanted) ||
        written != (room < whole.len ? room : whole.len))
        fail("t85_decode: status %d and %zu bytes of %zu, with a room of %zu", status, written,
             whole.len, room);
    is_beginning("t85_decode", image, written, whole);
    give_back(image);
    give_back(window);
}

/* Decodes the rows of an image of `width` pixels with a stride, into a buffer of this length,
   which fits `rows` of them. */
static void decode_rows_in(buffer stream, uint32_t width, uint8_t wanted, buffer rows,
                           size_t stride, size_t room)
{
    size_t row = t85_row_bytes(width), count = rows.len / row, fit, y, i;
    buffer window = lend(t85_window_bytes(width)), image = filled(room);
    uint32_t written = 77;
    uint8_t status = t85_decode_rows(stream.bytes, stream.len, UINT32_MAX, stride, window.bytes,
                                     window.len, image.bytes, image.len, &written);
    fit = room < row ? 0 : (room - row) / stride + 1;
    if (fit > count)
        fit = count;
    if (status != (fit < count ? (uint8_t)T85_NO_ROOM : wanted) || written != fit)
        fail(
            "t85_decode_rows: status %d and %u rows of %zu, with a stride of %zu and a room of %zu",
            status, written, count, stride, room);
    for (y = 0; y < fit; y++) {
        if (memcmp(image.bytes + y * stride, rows.bytes + y * row, row))
            fail("t85_decode_rows: row %zu is another, with a stride of %zu", y, stride);
        for (i = row; i < stride && y * stride + i < room; i++)
            if (image.bytes[y * stride + i] != FILL)
                fail("t85_decode_rows: a byte between rows %zu and %zu was touched", y, y + 1);
    }
    give_back(image);
    give_back(window);
}

static void is_info(buffer stream, buffer line)
{
    char said[200];
    t85_summary summary;
    t85_header_fields fields;
    uint8_t status = t85_info(stream.bytes, stream.len, &summary);
    if (status != T85_OK)
        fail("t85_info: status %d", status);
    sprintf(said, "%u %u %u %u %u %u %u %llu %llu\n", summary.width, summary.height,
            summary.stripe_rows, summary.most_offset, summary.options, summary.image_height,
            summary.entities, (unsigned long long)summary.moves,
            (unsigned long long)summary.comments);
    if (strcmp(said, (const char *)line.bytes))
        fail("t85_info: %s", said);
    status = t85_header(stream.bytes, stream.len, &fields);
    if (status != T85_OK || fields.width != summary.width || fields.height != summary.height ||
        fields.stripe_rows != summary.stripe_rows || fields.most_offset != summary.most_offset ||
        fields.options != summary.options)
        fail("t85_header: status %d, or other fields than t85_info has", status);
}

/* Consumes what belongs to the stream behind the image, after `at` bytes. If its last part is a height, all bytes consumed
   are then the stream; otherwise none are consumed. */
static void takes_rest(t85_decoder *decoder, uint8_t status, buffer stream, size_t at, size_t step)
{
    t85_facts facts = T85_FACTS;
    t85_part part = T85_PART;
    uint32_t last = T85_PART_HEADER;
    size_t first = at, taken = 77, len;
    uint8_t told = t85_decode_rest(decoder, stream.bytes + at, 0, &taken);
    if (status != T85_OK) {
        if (told != status || taken)
            fail("t85_decode_rest: status %d and %zu bytes after status %d", told, taken, status);
        return;
    }
    if (t85_stream_facts(stream.bytes, stream.len, &facts))
        fail("t85_stream_facts after the image was decoded");
    while (t85_next_part(stream.bytes, stream.len, &part) == T85_OK)
        last = part.kind;
    do {
        len = stream.len - at < step + 1 ? stream.len - at : step + 1;
        told = t85_decode_rest(decoder, stream.bytes + at, len, &taken);
        if (taken > len)
            fail("t85_decode_rest: %zu bytes of %zu", taken, len);
        at += taken;
    } while (told == T85_MORE && taken > 0);
    if (last == T85_PART_NEW_HEIGHT ? at != facts.stream_len : told != T85_OK || at != first || at < facts.stream_len)
        fail("t85_decode_rest: status %d after %zu bytes of %zu", told, at, facts.stream_len);
    if (told == T85_OK && (t85_decode_rest(decoder, stream.bytes, stream.len, &taken) != T85_OK || taken))
        fail("t85_decode_rest: goes on behind the stream");
}

/* Compares `count` rows, as far as there are expected ones, with a row. */
static void equal_rows(const uint8_t *row, size_t bytes, buffer rows, size_t given, uint32_t count, size_t step)
{
    for (; count > 0 && (given + 1) * bytes <= rows.len; given++, count--)
        if (memcmp(row, rows.bytes + given * bytes, bytes))
            fail("row %zu is another, in pieces of %zu", given, step);
}

/* Decodes in pieces of `step` bytes, with a decoder and a window that move before each call. If
   `repeats` is set, rows that equal the one before are decoded by t85_decode_again. */
static void decode_pieces_in(buffer stream, uint32_t width, uint8_t wanted, buffer rows, size_t step,
                             bool repeats)
{
    size_t row = t85_row_bytes(width), at = 0, given = 0, len, taken, place, turn = 0;
    uint32_t certain = 0, again;
    buffer windows[2], states[2], last = filled(row);
    t85_decoder *decoder;
    uint8_t status = T85_MORE;
    for (turn = 0; turn < 2; turn++) {
        windows[turn] = filled(t85_window_bytes(width));
        states[turn] = filled(sizeof(t85_decoder));
    }
    if (t85_decode_start((t85_decoder *)states[0].bytes, sizeof(t85_decoder), UINT32_MAX))
        fail("t85_decode_start");
    for (turn = 0; status >= T85_HEADER_READ; turn = 1 - turn) {
        decoder = (t85_decoder *)states[turn].bytes;
        len = stream.len - at < step ? stream.len - at : step;
        taken = 0;
        if (status == T85_MORE && at == stream.len)
            status = t85_decode_end(decoder, windows[turn].bytes, windows[turn].len, &place);
        else
            status = t85_decode_bytes(decoder, stream.bytes + at, len, windows[turn].bytes,
                                      windows[turn].len, &taken, &place);
        if (taken > len || (status == T85_MORE && taken != len))
            fail("t85_decode_bytes: takes %zu bytes of %zu", taken, len);
        at += taken;
        if (status == T85_ROW) {
            memcpy(last.bytes, windows[turn].bytes + place, row);
            again = repeats ? t85_decode_again(decoder, windows[turn].bytes, windows[turn].len) : 0;
            equal_rows(last.bytes, row, rows, given, 1 + again, step);
            given += 1 + again;
        }
        if (t85_decode_certain(decoder) < certain)
            fail("t85_decode_certain: %u after %u", t85_decode_certain(decoder), certain);
        certain = t85_decode_certain(decoder);
        memcpy(windows[1 - turn].bytes, windows[turn].bytes, windows[turn].len);
        memcpy(states[1 - turn].bytes, states[turn].bytes, sizeof(t85_decoder));
        memset(windows[turn].bytes, FILL, windows[turn].len);
        memset(states[turn].bytes, FILL, sizeof(t85_decoder));
    }
    decoder = (t85_decoder *)states[turn].bytes;
    if (status != wanted || (status ? given * row != rows.len : given * row < rows.len))
        fail("t85_decode_bytes: status %d and %zu rows, in pieces of %zu", status, given, step);
    if (status == T85_OK && (t85_decode_height(decoder) * row != rows.len || certain * row != rows.len))
        fail("t85_decode_height: %u, in pieces of %zu", t85_decode_height(decoder), step);
    if (t85_decode_bytes(decoder, stream.bytes, stream.len, windows[0].bytes, windows[0].len, &taken,
                         &place) != status ||
        taken)
        fail("t85_decode_bytes: goes on after status %d", status);
    takes_rest(decoder, status, stream, at, step);
    for (turn = 0; turn < 2; turn++) {
        give_back(states[turn]);
        give_back(windows[turn]);
    }
    give_back(last);
}

/* Decodes in pieces of several lengths. */
static void decode_pieces(buffer stream, uint32_t width, uint8_t wanted, buffer rows)
{
    static const size_t steps[] = {1, 7, 40, 1500};
    size_t i;
    for (i = 0; i < sizeof steps / sizeof *steps; i++)
        decode_pieces_in(stream, width, wanted, rows, steps[i], i % 2);
}

/* Decodes the stream when others follow it, and lists its parts, each of which begins where the
   previous one ends. */
static void walked(buffer stream)
{
    buffer more = filled(stream.len + 3);
    t85_facts facts = T85_FACTS;
    t85_part part = T85_PART;
    size_t at = 0;
    memcpy(more.bytes, stream.bytes, stream.len);
    if (t85_stream_facts(more.bytes, more.len, &facts) || facts.stream_len != stream.len)
        fail("t85_stream_facts: %zu bytes of %zu", facts.stream_len, stream.len);
    while (t85_next_part(more.bytes, more.len, &part) == T85_OK) {
        if (part.offset != at || !part.len)
            fail("t85_next_part: %zu bytes from %zu on, and not from %zu", part.len, part.offset, at);
        at += part.len;
    }
    if (part.offset != stream.len || part.entities != facts.entities)
        fail("t85_next_part: ends at %zu of %zu", part.offset, stream.len);
    give_back(more);
}

void decode(char **words)
{
    buffer file = read_file(words[0]), whole = read_file(words[1]), line = read_file(words[2]),
           rows;
    buffer stream = copied(file.bytes, file.len);
    uint32_t width, height;
    size_t row, room, all;
    rows = rows_of(whole, &width, &height);
    row = t85_row_bytes(width);
    for (room = 0; room <= whole.len; room = next_room(room, whole.len))
        decode_in(stream, t85_window_bytes(width), T85_OK, whole, room);
    decode_in(stream, t85_window_bytes(width) + 100, T85_OK, whole, whole.len + 100);
    for (room = 0; room <= rows.len; room = next_room(room, rows.len))
        decode_rows_in(stream, width, T85_OK, rows, row, room);
    all = (height - 1) * (row + 3) + row;
    for (room = 0; room <= all; room = next_room(room, all))
        decode_rows_in(stream, width, T85_OK, rows, row + 3, room);
    decode_rows_in(stream, width, T85_OK, rows, row + 3, all + 3);
    decode_pieces(stream, width, T85_OK, rows);
    walked(stream);
    is_info(stream, line);
    give_back(stream);
}

void rooms(char **words)
{
    most = SIZE_MAX;
    decode(words);
}

/* Returns the status that has this text, which ends in a line feed. */
static uint8_t status_of(buffer text)
{
    unsigned status;
    uint8_t said[200];
    for (status = 0; status < 256; status++) {
        size_t len = t85_message((uint8_t)status, said, sizeof said);
        if (len + 1 == text.len && !memcmp(said, text.bytes, len))
            return (uint8_t)status;
    }
    fail("no status is %s", text.bytes);
    return 0;
}

/* The command's output, and the status of its message. */
static buffer made(uint8_t *status, const char *folder, size_t count, const char *more)
{
    char name[4096];
    buffer whole, text;
    sprintf(name, "%s/%zu%s", folder, count, more);
    whole = read_file(name);
    strcat(name, ".text");
    text = read_file(name);
    *status = status_of(text);
    free(text.bytes);
    return whole;
}

static uint32_t number_at(const uint8_t *bytes)
{
    return (uint32_t)bytes[0] << 24 | (uint32_t)bytes[1] << 16 | (uint32_t)bytes[2] << 8 | bytes[3];
}

/* Compares the fields of a header with its bytes, as T.82, 6.2 lays them out. */
static void is_raw(buffer stream)
{
    const uint8_t *b = stream.bytes;
    t85_raw_header_fields raw, kept;
    memset(&raw, FILL, sizeof raw);
    kept = raw;
    if (t85_raw_header(b, stream.len, &raw) != (stream.len < 20 ? T85_SHORT_HEADER : T85_OK))
        fail("t85_raw_header: another status of %zu bytes", stream.len);
    if (stream.len < 20 && memcmp(&raw, &kept, sizeof raw))
        fail("t85_raw_header: fields of %zu bytes", stream.len);
    if (stream.len >= 20 &&
        (raw.first_layer != b[0] || raw.last_layer != b[1] || raw.planes != b[2] || raw.fill != b[3] ||
         raw.width != number_at(b + 4) || raw.height != number_at(b + 8) ||
         raw.stripe_rows != number_at(b + 12) || raw.most_offset != b[16] ||
         raw.most_vertical_offset != b[17] || raw.order != b[18] || raw.options != b[19]))
        fail("t85_raw_header: other fields");
}

/* Sets fields that have no effect, and the actual height: no other byte changes. */
static void set_fields(buffer stream, uint8_t refused_as)
{
    buffer changed = copied(stream.bytes, stream.len), wanted = copied(stream.bytes, stream.len);
    t85_facts facts = T85_FACTS, later = T85_FACTS;
    uint8_t info = t85_stream_facts(stream.bytes, stream.len, &facts), status;
    if (refused_as == T85_OK) {
        wanted.bytes[17] = 200;
        wanted.bytes[18] = 15;
        wanted.bytes[19] = (uint8_t)((wanted.bytes[19] & 0xeb) | 0x14);
    }
    status = t85_set_unused_fields(changed.bytes, changed.len, 200, 15, 0xff);
    if (status != refused_as || memcmp(changed.bytes, wanted.bytes, stream.len))
        fail("t85_set_unused_fields: status %d, or other bytes", status);
    if (refused_as == T85_OK &&
        (t85_set_unused_fields(changed.bytes, changed.len, 1, 16, 0) != T85_RESERVED_BITS ||
         memcmp(changed.bytes, wanted.bytes, stream.len)))
        fail("t85_set_unused_fields: the order 16");
    status = t85_set_height(changed.bytes, changed.len);
    if (status != refused_as)
        fail("t85_set_height: status %d", status);
    if (info == T85_OK) {
        unsigned n;
        for (n = 0; n < 4; n++)
            wanted.bytes[8 + n] = (uint8_t)(facts.image_height >> (24 - 8 * n));
        if (memcmp(changed.bytes, wanted.bytes, stream.len) ||
            t85_stream_facts(changed.bytes, changed.len, &later) != T85_OK ||
            later.height != facts.image_height || later.image_height != facts.image_height)
            fail("t85_set_height: other bytes");
    }
    give_back(wanted);
    give_back(changed);
}

/* Compares a stream or a prefix of one with the command's output for it. */
static void cut(buffer stream, const char *folder, size_t count)
{
    uint8_t wanted, wanted_info, status, refused_as;
    buffer whole = made(&wanted, folder, count, ""),
           line = made(&wanted_info, folder, count, ".line"), lent = copied(stream.bytes, count),
           rows;
    t85_header_fields fields;
    t85_summary summary;
    uint32_t width, height;
    status = t85_header(lent.bytes, count, &fields);
    refused_as = wanted <= T85_PRIVATE_TABLE ? wanted : (uint8_t)T85_OK;
    if (status != refused_as)
        fail("t85_header: status %d of %zu bytes", status, count);
    is_raw(lent);
    set_fields(lent, refused_as);
    if (status != T85_OK) {
        decode_in(lent, 0, status, whole, 1000);
    } else {
        size_t room = 22 + fields.height * t85_row_bytes(fields.width);
        decode_in(lent, t85_window_bytes(fields.width), wanted, whole, room);
        rows = rows_of(whole, &width, &height);
        decode_rows_in(lent, width, wanted, rows, t85_row_bytes(width), room);
        decode_pieces(lent, width, wanted, rows);
    }
    if (wanted_info == T85_OK)
        is_info(lent, line);
    else if (t85_info(lent.bytes, count, &summary) != wanted_info)
        fail("t85_info: not status %d of %zu bytes", wanted_info, count);
    give_back(lent);
    free(whole.bytes);
    free(line.bytes);
}

void cuts(char **words)
{
    buffer stream = read_file(words[0]);
    char name[4096];
    size_t count, found = 0;
    for (count = 0; count <= stream.len; count++) {
        sprintf(name, "%s/%zu", words[1], count);
        if (access(name, R_OK) == 0) {
            found++;
            cut(stream, words[1], count);
        }
    }
    if (!found)
        fail("nothing in %s", words[1]);
}

static uint64_t dice = 85;

/* Returns a number below `count`, from a fixed sequence. */
static size_t roll(size_t count)
{
    dice = dice * 6364136223846793005u + 1442695040888963407u;
    return (size_t)(dice >> 33) % count;
}

/* Compares a stream in pieces with t85_decode_rows. Images of more than a hundred thousand bytes
   are skipped. */
static void cut_anywhere(buffer stream, buffer rows)
{
    t85_header_fields fields;
    buffer lent = copied(stream.bytes, stream.len), window, all = rows;
    uint32_t written = 0;
    uint8_t status = t85_header(lent.bytes, lent.len, &fields);
    if (status == T85_OK && (uint64_t)fields.height * t85_row_bytes(fields.width) <= rows.len) {
        window = filled(t85_window_bytes(fields.width));
        status = t85_decode_rows(lent.bytes, lent.len, UINT32_MAX, t85_row_bytes(fields.width), window.bytes,
                                 window.len, rows.bytes, rows.len, &written);
        all.len = written * t85_row_bytes(fields.width);
        decode_pieces_in(lent, fields.width, status, all, 1 + roll(roll(2) ? 20 : 1000), roll(2));
        give_back(window);
    }
    give_back(lent);
}

void pieces(char **words)
{
    buffer file = read_file(words[0]), stream, rows = filled(100000);
    long count = atol(words[1]), turned;
    while (count--) {
        stream = file;
        stream.len = roll(3) ? file.len : roll(file.len + 1);
        stream.bytes = (uint8_t *)malloc(file.len + 1);
        if (!stream.bytes)
            fail("no memory for %zu bytes", file.len + 1);
        memcpy(stream.bytes, file.bytes, file.len);
        for (turned = (long)roll(4); turned > 0 && stream.len; turned--)
            stream.bytes[roll(3) ? roll(stream.len) : roll(20) % stream.len] ^= (uint8_t)(1u << roll(8));
        cut_anywhere(stream, rows);
        free(stream.bytes);
    }
    give_back(rows);
    free(file.bytes);
}

/* Checks that t85_decode and t85_decode_rows reject their arguments, with nothing written. */
static void unread(uint8_t wanted, buffer stream, uint32_t max_rows, size_t stride,
                   size_t window_len)
{
    buffer window = lend(window_len), image = lend(100000);
    size_t written = 77;
    uint32_t rows = 77;
    uint8_t status;
    if (stride == SIZE_MAX) {
        status = t85_decode(stream.bytes, stream.len, max_rows, window.bytes, window.len,
                            image.bytes, image.len, &written);
        if (status != wanted || written)
            fail("t85_decode: status %d and %zu bytes, expected status %d", status, written,
                 wanted);
        stride = 100000;
    }
    status = t85_decode_rows(stream.bytes, stream.len, max_rows, stride, window.bytes, window.len,
                             image.bytes, image.len, &rows);
    if (status != wanted || rows)
        fail("t85_decode_rows: status %d and %u rows, expected status %d", status, rows, wanted);
    give_back(image);
    give_back(window);
}

/* A decoder that is not initialized. */
static void decoder_states(void)
{
    t85_decoder decoder;
    size_t taken = 77, row = 0;
    uint8_t byte = 0;
    memset(&decoder, 0, sizeof decoder);
    if (t85_decode_bytes(&decoder, &byte, 1, NULL, 0, &taken, &row) != T85_NOT_BEGUN || taken ||
        t85_decode_end(&decoder, NULL, 0, &row) != T85_NOT_BEGUN || t85_decode_height(&decoder))
        fail("a decoder of zeros goes on");
    if (t85_decode_start(&decoder, sizeof decoder + 8, 1) != T85_OTHER_VERSION ||
        t85_decode_end(&decoder, NULL, 0, &row) != T85_NOT_BEGUN)
        fail("a longer decoder is begun");
    if (t85_decode_start(&decoder, sizeof decoder, 1) ||
        t85_decode_end(&decoder, NULL, 0, &row) != T85_SHORT_HEADER)
        fail("no bytes have a header");
    if (t85_decode_height(&decoder) || t85_decode_certain(&decoder))
        fail("t85_decode_height: %u without a header", t85_decode_height(&decoder));
}

/* Checks that a header with an error, or above the limit of rows, leaves no height. */
static void no_height(uint8_t wanted, const uint8_t header[20], uint32_t max_rows)
{
    t85_decoder decoder;
    size_t taken = 77, row = 0;
    if (t85_decode_start(&decoder, sizeof decoder, max_rows) ||
        t85_decode_bytes(&decoder, header, 20, NULL, 0, &taken, &row) != wanted ||
        t85_decode_height(&decoder) || t85_decode_certain(&decoder))
        fail("t85_decode_height: %u after status %d", t85_decode_height(&decoder), wanted);
}

static void heights_of_headers(void)
{
    static const uint8_t zeros[20] = {0}, two[20] = {0, 0, 1, 0, 0, 0, 0, 1, 0, 0, 0, 2, 0, 0, 0, 1};
    no_height(T85_PLANES, zeros, 2);
    no_height(T85_TOO_MANY_ROWS, two, 1);
}

/* Decodes a stream of one pixel per row, in pieces of `step` bytes, with a limit of rows. */
static void limited(buffer stream, uint32_t max_rows, size_t step, uint8_t wanted, size_t count)
{
    size_t at = 0, given = 0, len, taken = 77, place;
    buffer window = lend(t85_window_bytes(1));
    uint8_t status = T85_MORE;
    t85_decoder decoder;
    if (t85_decode_start(&decoder, sizeof decoder, max_rows))
        fail("t85_decode_start");
    while (status >= T85_HEADER_READ) {
        len = stream.len - at < step ? stream.len - at : step;
        taken = 0;
        if (status == T85_MORE && at == stream.len)
            status = t85_decode_end(&decoder, window.bytes, window.len, &place);
        else
            status = t85_decode_bytes(&decoder, stream.bytes + at, len, window.bytes, window.len,
                                      &taken, &place);
        at += taken;
        given += status == T85_ROW;
    }
    if (status != wanted || given != count)
        fail("t85_decode_bytes: status %d and %zu rows, with a limit of %u and pieces of %zu",
             status, given, max_rows, step);
    if (t85_decode_bytes(&decoder, stream.bytes, stream.len, window.bytes, window.len, &taken,
                         &place) != wanted ||
        taken)
        fail("t85_decode_bytes: goes on after status %d", wanted);
    give_back(window);
}

/* A header announces 2^32 - 1 rows, in stripes of one row. Two arrive, and then the height. */
static void late_limits(void)
{
    static const uint8_t bytes[] = {0,    0,    1,    0,    0,    0,    0, 1, 0xFF, 0xFF, 0xFF, 0xFF,
                                    0,    0,    0,    1,    0,    0,    0, 0x20, 0xC0, 0xFF, 2,
                                    0xC0, 0xFF, 2,    0xFF, 5,    0,    0, 0, 2, 0xFF, 2};
    buffer stream = copied(bytes, sizeof bytes);
    size_t step;
    for (step = 1; step <= stream.len; step++) {
        limited(stream, 0, step, T85_TOO_MANY_ROWS, 0);
        limited(stream, 1, step, T85_TOO_MANY_ROWS, 1);
        limited(stream, 2, step, T85_OK, 2);
    }
    give_back(stream);
}

void decoder_faults(buffer rows, uint32_t width, uint32_t height)
{
    size_t row = t85_row_bytes(width), three = t85_window_bytes(width), window, stride;
    t85_options options = T85_OPTIONS;
    buffer all = lend(100000), stream, lines = lend(three);
    uint32_t limit;
    if (t85_encode(width, height, rows.bytes, rows.len, row, &options, T85_NOTHING, 0, lines.bytes,
                   three, all.bytes, all.len, &all.len))
        fail("t85_encode");
    stream = copied(all.bytes, all.len);
    for (limit = 0; limit < height; limit++)
        unread(T85_TOO_MANY_ROWS, stream, limit, SIZE_MAX, three);
    for (window = 0; window < three; window++)
        unread(T85_SHORT_WINDOW, stream, UINT32_MAX, SIZE_MAX, window);
    for (stride = 0; stride < row; stride++)
        unread(T85_SHORT_STRIDE, stream, UINT32_MAX, stride, three);
    give_back(stream);
    decoder_states();
    heights_of_headers();
    late_limits();
}
