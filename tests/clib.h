/* Declarations that the parts of clib share, by the file that defines them. The head of clib.c
   says what each does. */
#ifndef CLIB_H
#define CLIB_H

#include "t85.h"

/* The byte that fills a buffer, so that writes to it are detected. */
#define FILL 0xA5

typedef struct {
    uint8_t *bytes;
    size_t len;
} buffer;

/* Whether buffers begin behind an inaccessible page, instead of ending at one. */
extern bool at_front;
/* Outputs of fewer bytes are tried with every buffer size. */
extern size_t most;

/* Prints what differs, and ends the program. */
__attribute__((noreturn, format(printf, 1, 2))) void fail(const char *format, ...);

/* Allocates bytes between two inaccessible pages, as an anonymous mapping that uses memory only
   for the parts that are written. */
buffer lend(size_t len);
void give_back(buffer lent);
buffer copied(const void *bytes, size_t len);
/* Allocates a buffer that is filled, so that writes are detected. */
buffer filled(size_t len);

buffer read_file(const char *name);
/* Reads the rows of a raw PBM without a comment. */
buffer rows_of(buffer file, uint32_t *width, uint32_t *height);

/* Checks that a buffer begins with the expected bytes. */
void is_beginning(const char *call, buffer room, size_t written, buffer whole);
/* Returns the buffer size to try after this one. */
size_t next_room(size_t room, size_t whole);

/* clib_encode.c */
/* Checks that a buffer was not written. */
void is_filled(const char *call, buffer lent);
void encode(char **words);
void missing(char **words);
void encoder_faults(buffer rows, uint32_t width, uint32_t height);

/* clib_offset.c */
void offsets(buffer rows, uint32_t width, uint32_t height);

/* clib_decode.c */
void decode(char **words);
void rooms(char **words);
void cuts(char **words);
void pieces(char **words);
void decoder_faults(buffer rows, uint32_t width, uint32_t height);

/* clib_null.c */
void null(char **words);

/* clib_far.c */
void far(char **words);
void far_rows(buffer rows, uint32_t width, uint32_t height);

#endif
