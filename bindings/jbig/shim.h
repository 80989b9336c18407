/* The declarations that the files of this folder share. */
#ifndef JBIG_SHIM_H
#define JBIG_SHIM_H

#include "jbig.h"

#include <stdbool.h>
#include <t85.h>

typedef void write_bytes(unsigned char *start, size_t len, void *file);

/* JBIG-KIT's own functions, for images with layers or planes. */
typedef struct {
    void (*enc_init)(struct jbg_enc_state *, unsigned long, unsigned long, int, unsigned char **,
                     write_bytes *, void *);
    void (*enc_layers)(struct jbg_enc_state *, int);
    int (*enc_lrange)(struct jbg_enc_state *, int, int);
    void (*enc_options)(struct jbg_enc_state *, int, int, unsigned long, int, int);
    void (*enc_out)(struct jbg_enc_state *);
    void (*enc_free)(struct jbg_enc_state *);
    void (*dec_init)(struct jbg_dec_state *);
    void (*dec_maxsize)(struct jbg_dec_state *, unsigned long, unsigned long);
    int (*dec_in)(struct jbg_dec_state *, unsigned char *, size_t, size_t *);
    unsigned long (*dec_getwidth)(const struct jbg_dec_state *);
    unsigned long (*dec_getheight)(const struct jbg_dec_state *);
    unsigned char *(*dec_getimage)(const struct jbg_dec_state *, int);
    unsigned long (*dec_getsize)(const struct jbg_dec_state *);
    void (*dec_merge_planes)(const struct jbg_dec_state *, int, write_bytes *, void *);
    unsigned long (*dec_getsize_merged)(const struct jbg_dec_state *);
    void (*dec_free)(struct jbg_dec_state *);
    void (*int2dppriv)(unsigned char *, const char *);
    void (*dppriv2int)(char *, const unsigned char *);
    int (*newlen)(unsigned char *, size_t);
    unsigned char *(*next_pscdms)(unsigned char *, size_t);
} kit_calls;

/* The state of an image that this library decodes. */
typedef struct {
    t85_decoder decoder;
    unsigned char *window; /* twice window_len bytes: the window, and a copy */
    size_t window_len;
    unsigned char *image; /* `room` rows of `row` bytes, white until decoded */
    size_t row;
    unsigned long room;
    bool has_ended;
} decoding;

/* Returns JBIG-KIT's functions, or NULL unless the environment names JBIG-KIT's library. */
const kit_calls *t85jbig_kit(void);

/* Writes the image of an encoder with JBIG-KIT's library. */
void t85jbig_write_by_kit(const kit_calls *kit, struct jbg_enc_state *s);

/* Returns JBIG-KIT's functions for a decoder that was handed over to them, or NULL. */
const kit_calls *t85jbig_kit_of(const struct jbg_dec_state *s);

/* Returns the state of a decoder of this library, or NULL. */
decoding *t85jbig_decoding(const struct jbg_dec_state *s);

/* Frees the state of a decoder of this library. */
void t85jbig_release(struct jbg_dec_state *s);

/* Makes room for the next row of the image, and returns false if there is not enough memory. */
bool t85jbig_make_room(const struct jbg_dec_state *s, decoding *it);

/* Stores the next row. */
void t85jbig_keep_row(struct jbg_dec_state *s, decoding *it, const unsigned char *row);

/* Returns whether this status of a header means an image outside T.85, and not a broken one. */
bool t85jbig_is_outside(int status);

/* Returns libjbig's code for a status of the decoder. */
int t85jbig_code(int status);

/* Converts a number to 32 bits: values above the greatest, such as -1, become the greatest. */
uint32_t t85jbig_word(unsigned long number);

/* Two functions that libjbig exports and jbgtopbm calls, although JBIG-KIT's header does not declare them: the number of
   stripes of an image of this height and number of layers; and the bytes behind the next code or marker segment. */
unsigned long jbg_stripes(unsigned long l0, unsigned long yd, unsigned long d);
unsigned char *jbg_next_pscdms(unsigned char *p, size_t len);

#endif
