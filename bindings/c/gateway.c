/* Writes the packed rows of a stream into a file as the stream arrives:
       gateway ROWS LIMIT < STREAM.jbg
   LIMIT is the greatest number of rows. At the end it prints the width and the height. If it is
   killed, the file contains the rows that the bytes so far determine. */
#define _POSIX_C_SOURCE 200809L
#include <fcntl.h>
#include <stdio.h>
#include <stdlib.h>
#include <string.h>
#include <t85.h>
#include <unistd.h>

int main(int count, char **names)
{
    char *end = NULL;
    unsigned long limit = count == 3 ? strtoul(names[2], &end, 10) : 0;
    int out = end && !*end ? open(names[1], O_WRONLY | O_CREAT | O_TRUNC, 0666) : -1;
    uint8_t piece[1500], head[20], *window = NULL, status;
    size_t window_len = 0, head_len = 0, row_len = 0, at, taken, row;
    t85_header_fields fields = {0};
    t85_decoder decoder;
    if (out < 0 || limit > UINT32_MAX ||
        t85_decode_start(&decoder, sizeof decoder, (uint32_t)limit) != T85_OK)
        return 1;
    do {
        ssize_t len = read(STDIN_FILENO, piece, sizeof piece);
        if (len < 0)
            return 1;
        at = 0;
        do {
            taken = 0;
            if (len == 0)
                status = t85_decode_end(&decoder, window, window_len, &row);
            else
                status = t85_decode_bytes(&decoder, piece + at, (size_t)len - at, window,
                                          window_len, &taken, &row);
            if (!window) {
                memcpy(head + head_len, piece + at, taken);
                head_len += taken;
            }
            at += taken;
            if (status == T85_HEADER_READ) {
                t85_header(head, head_len, &fields);
                row_len = t85_row_bytes(fields.width);
                window_len = t85_window_bytes(fields.width);
                if (!(window = malloc(window_len)))
                    return 1;
            }
            if (status == T85_ROW && write(out, window + row, row_len) != (ssize_t)row_len)
                return 1;
        } while (status == T85_HEADER_READ || status == T85_ROW);
    } while (status == T85_MORE);
    if (status != T85_OK) {
        uint8_t text[80];
        size_t length = t85_message(status, text, sizeof text);
        fprintf(stderr, "%.*s\n", (int)(length < sizeof text ? length : sizeof text), text);
        return 1;
    }
    /* A late height cuts off rows that were returned before. */
    if (ftruncate(out, (off_t)row_len * t85_decode_height(&decoder)) || close(out))
        return 1;
    printf("%u %u\n", fields.width, t85_decode_height(&decoder));
    free(window);
    return 0;
}
