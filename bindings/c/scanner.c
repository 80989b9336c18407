/* Encodes packed rows as they arrive: scanner WIDTH [HEIGHT] < ROWS > STREAM.jbg
   Without HEIGHT, it encodes rows until the input ends, and writes their number after them. It
   writes all bytes of the stream that are certain before it reads the next row. */
#define _POSIX_C_SOURCE 200809L
#include <stdio.h>
#include <stdlib.h>
#include <t85.h>
#include <unistd.h>

/* The height announced if it is unknown. Receivers reject pages that may be too high. */
enum { MOST_ROWS = 20000 };

/* Reads the next row, and returns how many bytes arrived before the end of the input; or -1. */
static ssize_t read_row(uint8_t *row, size_t len)
{
    size_t have = 0;
    ssize_t more = 1;
    while (have < len && (more = read(STDIN_FILENO, row + have, len - have)) > 0)
        have += (size_t)more;
    return more < 0 ? more : (ssize_t)have;
}

static int put(const uint8_t *bytes, size_t len)
{
    ssize_t count = 0;
    for (; len > 0 && (count = write(STDOUT_FILENO, bytes, len)) >= 0; len -= (size_t)count)
        bytes += count;
    return count < 0;
}

int main(int count, char **words)
{
    uint32_t width = count > 1 ? (uint32_t)strtoul(words[1], NULL, 10) : 0;
    uint32_t height = count > 2 ? (uint32_t)strtoul(words[2], NULL, 10) : MOST_ROWS;
    size_t row_len = t85_row_bytes(width), window_len = t85_window_bytes(width), room = 20, written;
    uint8_t *row = malloc(row_len + 1), *window = malloc(window_len + 1), *stream = malloc(room);
    t85_options options = T85_OPTIONS;
    t85_encoder encoder;
    ssize_t len = 1;
    uint8_t status;
    if (!row || !window || !stream)
        return 1;
    options.most_offset = T85_MOST_OFFSET;
    options.announces_height = count < 3;
    options.announced_height = height;
    status = t85_encode_start(&encoder, sizeof encoder, width, height, &options, NULL, 0, window,
                              window_len, stream, room, &written);
    while (status == T85_OK) {
        if (put(stream, written))
            return 1;
        if (len == 0) {
            free(stream);
            free(window);
            free(row);
            return 0;
        }
        /* A buffer that is enough for the next call. Its size hardly changes from row to row. */
        if (room < t85_encode_room(&encoder)) {
            room = (size_t)t85_encode_room(&encoder) * 2;
            free(stream);
            if (!(stream = malloc(room)))
                return 1;
        }
        len = count < 3 || t85_encode_rows_left(&encoder) ? read_row(row, row_len) : 0;
        if (len < 0)
            return 1;
        if (len > 0)
            status = t85_encode_row(&encoder, row, (size_t)len, window, window_len, stream, room,
                                    &written);
        else
            status = t85_encode_end(&encoder, window, window_len, stream, room, &written);
    }
    uint8_t text[80];
    size_t length = t85_message(status, text, sizeof text);
    fprintf(stderr, "%.*s\n", (int)(length < sizeof text ? length : sizeof text), text);
    return 1;
}
