/* Encodes a raw PBM file without comments: encode_pbm PAGE.pbm STREAM.jbg */
#include <stdio.h>
#include <stdlib.h>
#include <t85.h>

int main(int count, char **names)
{
    FILE *in = count == 3 ? fopen(names[1], "rb") : NULL, *out;
    uint32_t width, height;
    if (!in || fscanf(in, "P4 %u %u", &width, &height) != 2 || width > T85_MOST_WIDTH)
        return 1;
    getc(in); /* the white space that ends the header */

    size_t row = t85_row_bytes(width), size = row * height, room = 1024, written;
    uint8_t *rows = malloc(size + 1), *window = malloc(3 * row + 1), *stream = NULL;
    if (!rows || !window || fread(rows, 1, size, in) != size)
        return 1;

    t85_options options = T85_OPTIONS;
    options.most_offset = T85_MOST_OFFSET;
    uint8_t status;
    do { /* a stream may be longer than its image, though rarely: double the buffer until it fits */
        uint8_t *longer = realloc(stream, room *= 2);
        if (!longer)
            return 1;
        stream = longer;
        status = t85_encode(width, height, rows, size, row, &options, NULL, 0, window, 3 * row,
                            stream, room, &written);
    } while (status == T85_NO_ROOM);
    if (status != T85_OK) {
        uint8_t text[80];
        size_t length = t85_message(status, text, sizeof text);
        fprintf(stderr, "%.*s\n", (int)(length < sizeof text ? length : sizeof text), text);
        return 1;
    }
    out = fopen(names[2], "wb");
    status = !out || fwrite(stream, 1, written, out) != written || fclose(out);
    free(rows), free(window), free(stream), fclose(in);
    return status;
}
