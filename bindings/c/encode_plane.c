/* Encodes a page that is in memory as one plane, and passes the stream to a function, like programs
   that call jbg_enc_init, jbg_enc_options and jbg_enc_out of JBIG-KIT, such as fax servers.

     encode_plane PAGE.pbm STREAM.jbg */
#include <stdio.h>
#include <stdlib.h>
#include <t85.h>

typedef void writer(unsigned char *start, size_t len, void *file);

/* Replaces
     jbg_enc_init(&s, width, height, 1, &plane, write, file);
     jbg_enc_options(&s, 0, JBG_TPBON, 128, 127, 0);
     jbg_enc_out(&s);
     jbg_enc_free(&s);
   Returns 0, or a status; or -1 if memory runs out. `write` is called with the whole stream. */
static int encode_plane(uint32_t width, uint32_t height, const unsigned char *plane, writer *write,
                        void *file)
{
    size_t row = t85_row_bytes(width), room = 4096 + row * height / 8, written;
    t85_options options = T85_OPTIONS;
    uint8_t *window = malloc(t85_window_bytes(width) + 1), *stream = NULL, *more;
    int status = T85_NO_ROOM;
    options.most_offset = T85_MOST_OFFSET;
    while (window && status == T85_NO_ROOM && (more = realloc(stream, room)) != NULL) {
        stream = more;
        status = t85_encode(width, height, plane, row * height, row, &options, NULL, 0, window,
                            t85_window_bytes(width), stream, room, &written);
        room *= 2;
    }
    if (status == T85_OK)
        write(stream, written, file);
    free(stream);
    free(window);
    return status == T85_NO_ROOM ? -1 : status;
}

static void to_file(unsigned char *start, size_t len, void *file)
{
    if (fwrite(start, 1, len, file) != len)
        perror("encode_plane");
}

int main(int count, char **names)
{
    FILE *in = count == 3 ? fopen(names[1], "rb") : NULL, *out;
    uint32_t width, height;
    if (!in || fscanf(in, "P4 %u %u", &width, &height) != 2)
        return 1;
    getc(in); /* the white space that ends the header */
    size_t size = t85_row_bytes(width) * height;
    unsigned char *plane = malloc(size + 1);
    if (!plane || fread(plane, 1, size, in) != size || !(out = fopen(names[2], "wb")))
        return 1;
    int status = encode_plane(width, height, plane, to_file, out);
    free(plane);
    return fclose(out) || fclose(in) || status != 0;
}
