/* Writes and reads bi-level TIFF files of one strip or several with the libtiff that it is linked with.
     libtiff write IMAGE.pbm TIFF none|jbig ORDER BLACK ROWS ROOM
                                   writes the image, with these numbers as FillOrder and PhotometricInterpretation, in strips
                                   of ROWS rows, 0 for one strip; libtiff's buffer has ROOM bytes, 0 for its own choice
     libtiff short IMAGE.pbm TIFF  writes the image with JBIG in one strip, without its last row
     libtiff wrap STREAM TIFF ORDER WIDTH HEIGHT ROWS BITS
                                   writes a TIFF of that size, in strips of ROWS rows, of BITS bits per pixel, marked as
                                   JBIG, with the stream as its first strip
     libtiff read TIFF IMAGE.pbm   reads the image, and after an error the part of it that was decoded
     libtiff try TIFF              the same without writing the image; if libtiff rejects a TIFF before it calls the codec,
                                   the buffer must be unchanged
     libtiff strip TIFF STREAM     extracts the stream of a TIFF's one strip
   The status is 1 if libtiff reports an error. Each buffer has exactly the length that its call receives, so that valgrind
   detects accesses beyond it. */
#include <stdint.h>
#include <stdio.h>
#include <stdlib.h>
#include <string.h>
#include <tiffio.h>

static void fail(const char *what)
{
    fprintf(stderr, "%s cannot be opened, read or written\n", what);
    exit(2);
}

/* A file, in memory of exactly its length. */
static uint8_t *read_file(const char *name, size_t *len)
{
    FILE *from = fopen(name, "rb");
    uint8_t *bytes = NULL;
    long size = -1;
    if (from && !fseek(from, 0, SEEK_END))
        size = ftell(from);
    if (size >= 0 && (bytes = (uint8_t *)malloc((size_t)size + !size)) != NULL) {
        rewind(from);
        *len = fread(bytes, 1, (size_t)size, from);
    }
    if (!bytes || *len != (size_t)size || fclose(from))
        fail(name);
    return bytes;
}

/* Reads the rows of a raw PBM without a comment, into memory of exactly their length. */
static uint8_t *read_rows(const char *name, uint32_t *width, uint32_t *height)
{
    FILE *from = fopen(name, "rb");
    uint8_t *rows = NULL;
    size_t len = 0;
    if (from && fscanf(from, "P4 %u %u", width, height) == 2 && getc(from) != EOF) {
        len = ((size_t)*width + 7) / 8 * *height;
        rows = (uint8_t *)malloc(len);
    }
    if (!rows || fread(rows, 1, len, from) != len || fclose(from))
        fail(name);
    return rows;
}

static void write_file(const char *name, const char *front, const uint8_t *bytes, size_t len)
{
    FILE *to = fopen(name, "wb");
    if (!to || fputs(front, to) < 0 || fwrite(bytes, 1, len, to) != len || fclose(to))
        fail(name);
}

static TIFF *opened(const char *name, const char *mode)
{
    TIFF *tiff = TIFFOpen(name, mode);
    if (!tiff)
        fail(name);
    return tiff;
}

/* Creates a TIFF and sets its tags. */
static TIFF *begun(const char *name, uint32_t width, uint32_t height, int bits, int compression, int order, int black,
                   uint32_t strip_rows)
{
    TIFF *tiff = opened(name, "w");
    TIFFSetField(tiff, TIFFTAG_IMAGEWIDTH, width);
    TIFFSetField(tiff, TIFFTAG_IMAGELENGTH, height);
    TIFFSetField(tiff, TIFFTAG_BITSPERSAMPLE, bits);
    TIFFSetField(tiff, TIFFTAG_SAMPLESPERPIXEL, 1);
    TIFFSetField(tiff, TIFFTAG_PHOTOMETRIC, black);
    TIFFSetField(tiff, TIFFTAG_COMPRESSION, compression);
    TIFFSetField(tiff, TIFFTAG_FILLORDER, order);
    TIFFSetField(tiff, TIFFTAG_ROWSPERSTRIP, strip_rows);
    return tiff;
}

/* Writes the strips of a TIFF, or a prefix of its one strip. Returns the status. */
static int write_strips(TIFF *tiff, const uint8_t *rows, size_t row, uint32_t height, uint32_t strip_rows)
{
    uint32_t y, strip = 0;
    int failed = 0;
    for (y = 0; y < height && !failed; y += strip_rows) {
        size_t len = row * (height - y < strip_rows ? height - y : strip_rows);
        /* libtiff may reverse the bits of the caller's buffer. */
        uint8_t *copy = (uint8_t *)malloc(len);
        if (!copy)
            fail("memory");
        memcpy(copy, rows + row * y, len);
        failed = TIFFWriteEncodedStrip(tiff, strip++, copy, (tmsize_t)len) < 0;
        free(copy);
    }
    TIFFClose(tiff);
    return failed;
}

static int write_image(char **names)
{
    uint32_t width, height, strip_rows = (uint32_t)atoi(names[5]);
    uint8_t *rows = read_rows(names[0], &width, &height);
    int compression = strcmp(names[2], "jbig") ? COMPRESSION_NONE : COMPRESSION_JBIG, room = atoi(names[6]), failed;
    TIFF *tiff;
    if (!strip_rows)
        strip_rows = height;
    tiff = begun(names[1], width, height, 1, compression, atoi(names[3]), atoi(names[4]), strip_rows);
    if (room)
        TIFFWriteBufferSetup(tiff, NULL, room);
    failed = write_strips(tiff, rows, ((size_t)width + 7) / 8, height, strip_rows);
    free(rows);
    return failed;
}

static int write_short(char **names)
{
    uint32_t width, height;
    uint8_t *rows = read_rows(names[0], &width, &height);
    TIFF *tiff = begun(names[1], width, height, 1, COMPRESSION_JBIG, 1, 0, height);
    int failed = write_strips(tiff, rows, ((size_t)width + 7) / 8, height - 1, height);
    free(rows);
    return failed;
}

/* libtiff's codec uses the bytes of a stream unchanged if FillOrder is 2, and with reversed bits
   if it is 1. */
static int wrap(char **names)
{
    size_t len;
    uint8_t *stream = read_file(names[0], &len);
    TIFF *tiff = begun(names[1], (uint32_t)atoi(names[3]), (uint32_t)atoi(names[4]), atoi(names[6]), COMPRESSION_JBIG,
                       atoi(names[2]), 0, (uint32_t)atoi(names[5]));
    int failed;
    if (atoi(names[2]) == FILLORDER_MSB2LSB)
        TIFFReverseBits(stream, (tmsize_t)len);
    failed = TIFFWriteRawStrip(tiff, 0, stream, (tmsize_t)len) < 0;
    TIFFClose(tiff);
    free(stream);
    return failed;
}

static int read_image(char **names)
{
    TIFF *tiff = opened(names[0], "r");
    uint32_t width = 0, height = 0, strip, strips = TIFFNumberOfStrips(tiff);
    size_t row = (size_t)TIFFScanlineSize(tiff), written = 0;
    char front[40];
    uint8_t *image;
    int failed = 0;
    TIFFGetField(tiff, TIFFTAG_IMAGEWIDTH, &width);
    TIFFGetField(tiff, TIFFTAG_IMAGELENGTH, &height);
    image = (uint8_t *)malloc(row * height);
    if (!image)
        fail("memory");
    for (strip = 0; strip < strips && !failed; strip++) {
        size_t len = row * height - written, most = (size_t)TIFFStripSize(tiff);
        uint8_t *rows;
        if (len > most)
            len = most;
        /* Not initialized: valgrind reports if a byte is used that the codec did not write. */
        rows = (uint8_t *)malloc(len);
        if (!rows)
            fail("memory");
        failed = TIFFReadEncodedStrip(tiff, strip, rows, (tmsize_t)len) != (tmsize_t)len;
        memcpy(image + written, rows, len);
        written += len;
        free(rows);
    }
    TIFFClose(tiff);
    if (names[1]) {
        snprintf(front, sizeof(front), "P4\n%u %u\n", width, height);
        write_file(names[1], front, image, written);
    }
    free(image);
    return failed;
}

static int take_strip(char **names)
{
    TIFF *tiff = opened(names[0], "r");
    tmsize_t len = (tmsize_t)TIFFRawStripSize64(tiff, 0);
    uint8_t *stream = (uint8_t *)malloc((size_t)len);
    uint16_t order = FILLORDER_MSB2LSB;
    int failed = TIFFNumberOfStrips(tiff) != 1 || !stream || TIFFReadRawStrip(tiff, 0, stream, len) != len;
    TIFFGetField(tiff, TIFFTAG_FILLORDER, &order);
    if (!failed) {
        if (order == FILLORDER_MSB2LSB)
            TIFFReverseBits(stream, len);
        write_file(names[1], "", stream, (size_t)len);
    }
    free(stream);
    TIFFClose(tiff);
    return failed;
}

int main(int count, char **words)
{
    static const struct {
        const char *name;
        int count;
        int (*run)(char **names);
    } parts[] = {{"write", 7, write_image}, {"short", 2, write_short}, {"wrap", 7, wrap},
                 {"read", 2, read_image}, {"try", 1, read_image}, {"strip", 2, take_strip}};
    size_t i;
    for (i = 0; i < sizeof(parts) / sizeof(*parts); i++)
        if (count == parts[i].count + 2 && !strcmp(words[1], parts[i].name))
            return parts[i].run(words + 2);
    fprintf(stderr, "%s: other words than those above\n", words[0]);
    return 2;
}
