/* Calls JBIG-KIT's functions, as bindings/jbig and bindings/jbig85 implement them, in any order and with inputs that
   libFuzzer generates, and stops if a call breaks a promise, if libt85 decodes another image, or if JBIG-KIT's library does
   from a stream that both accept. tests/fuzz_jbig renames the functions to own_, and compiles them with sanitizers. The
   first byte of an input chooses what is called, seven bytes determine the calls, and the others are a stream or pixels. */
#include "fuzz_jbig.h"

#include <stdio.h>
#include <stdlib.h>
#include <string.h>
#include <t85.h>

static uint64_t dice;

void broken(const char *file, const char *claim, int line)
{
    fprintf(stderr, "%s, line %d: not so: %s\n", file, line, claim);
    abort();
}

unsigned long roll(unsigned long count)
{
    dice = dice * 6364136223846793005u + 1442695040888963407u;
    return (unsigned long)(dice >> 33) % count;
}

text copy(const byte *bytes, size_t len)
{
    text made = {malloc(len ? len : 1), len};
    CHECK(made.bytes);
    if (len)
        memcpy(made.bytes, bytes, len);
    return made;
}

text zeros(size_t len)
{
    text made = {calloc(len ? len : 1, 1), len};
    CHECK(made.bytes);
    return made;
}

/* The room for this many bytes. It doubles, so that appending row by row takes linear time. */
static size_t room_for(size_t len)
{
    size_t room = 64;
    while (room < len)
        room *= 2;
    return room;
}

void put(byte *start, size_t len, void *file)
{
    text *to = file;
    size_t room = room_for(to->len + len);
    if (!to->bytes || room > room_for(to->len))
        to->bytes = realloc(to->bytes, room);
    CHECK(to->bytes);
    memcpy(to->bytes + to->len, start, len);
    to->len += len;
}

image drawn(const text *from, unsigned long most_width, unsigned long most_height)
{
    image made = {1 + roll(roll(4) ? 100 : most_width), 1 + roll(most_height), 0, NULL};
    size_t n, len;
    made.row = (made.width + 7) / 8;
    len = made.row * made.height;
    made.rows = malloc(len);
    CHECK(made.rows);
    for (n = 0; n < len; n++)
        made.rows[n] = from->len ? from->bytes[n % from->len] : 0;
    return made;
}

bool is_same_row(const byte *one, const byte *other, unsigned long width)
{
    size_t whole = width / 8;
    return !memcmp(one, other, whole) && (width % 8 == 0 || ((one[whole] ^ other[whole]) >> (8 - width % 8)) == 0);
}

decoded decoded_by_t85(const text *stream, uint32_t most)
{
    decoded made = {0, 0, 0, NULL};
    t85_header_fields fields = {0};
    byte *window;
    size_t row, room;
    made.status = t85_header(stream->bytes, stream->len, &fields);
    if (made.status != T85_OK)
        return made;
    row = t85_row_bytes(fields.width);
    room = row * (fields.height < most ? fields.height : most);
    made.width = fields.width;
    made.rows = malloc(room);
    window = malloc(t85_window_bytes(fields.width));
    CHECK(made.rows && window);
    made.status = t85_decode_rows(stream->bytes, stream->len, UINT32_MAX, row, window, t85_window_bytes(fields.width),
                                  made.rows, room, &made.count);
    free(window);
    return made;
}

int LLVMFuzzerTestOneInput(const uint8_t *data, size_t size)
{
    text rest;
    if (size < 8)
        return 0;
    memcpy(&dice, data, sizeof dice);
    rest = copy(data + 8, size - 8);
    switch (data[0] % 4) {
    case 0: fuzz_whole_decoder(&rest); break;
    case 1: fuzz_whole_encoder(&rest); break;
    case 2: fuzz_t85_decoder(&rest); break;
    default: fuzz_t85_encoder(&rest);
    }
    free(rest.bytes);
    return 0;
}
