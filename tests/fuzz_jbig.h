/* Declarations that tests/fuzz_jbig.c, fuzz_jbig_whole.c and fuzz_jbig85.c share. */
#ifndef FUZZ_JBIG_H
#define FUZZ_JBIG_H

#include <stdbool.h>
#include <stddef.h>
#include <stdint.h>

#define CHECK(claim) ((claim) ? (void)0 : broken(__FILE__, #claim, __LINE__))
#define OWN(call) extern __typeof__(call) own_##call

typedef unsigned char byte;

/* Bytes in memory of exactly this length, so that a sanitizer detects accesses beyond them. */
typedef struct {
    byte *bytes;
    size_t len;
} text;

/* An image. Bits after the last pixel of a row are arbitrary. */
typedef struct {
    unsigned long width, height;
    size_t row;
    byte *rows;
} image;

void broken(const char *file, const char *claim, int line);

/* Returns a number below `count`, from a sequence that the input determines. */
unsigned long roll(unsigned long count);

text copy(const byte *bytes, size_t len);
text zeros(size_t len);

/* Appends bytes to those of earlier calls, of which there were none at {NULL, 0}; has the type of data_out. */
void put(byte *start, size_t len, void *file);

/* Returns an image of random size, with the pixels of `from`, repeated. */
image drawn(const text *from, unsigned long most_width, unsigned long most_height);

/* Returns whether two rows have the same pixels. */
bool is_same_row(const byte *one, const byte *other, unsigned long width);

/* The rows that libt85 decodes from a stream, and a status of t85.h. */
typedef struct {
    int status;
    uint32_t width, count;
    byte *rows;
} decoded;

/* Decodes at most `most` rows. */
decoded decoded_by_t85(const text *stream, uint32_t most);

/* Call the functions of jbig.h and of jbig85.h in random order. */
void fuzz_whole_decoder(const text *stream);
void fuzz_whole_encoder(const text *pixels);
void fuzz_t85_decoder(const text *stream);
void fuzz_t85_encoder(const text *pixels);

#endif
