/* JBIG-KIT's T.85 functions on top of libt85. Names, fields and numbers are those of JBIG-KIT's header, and with longs of 64
   bits each field is at its place there. README.md explains how to use it, and what differs. The header is C89, like the
   programs that use it. */
#ifndef JBG85_H
#define JBG85_H

#include <stddef.h>

#ifdef __cplusplus
extern "C" {
#endif

/* The version of JBIG-KIT with this interface. */
#define JBG85_VERSION "2.1"
#define JBG85_VERSION_MAJOR 2
#define JBG85_VERSION_MINOR 1

/* The greatest number of moves of the adaptive template pixel in a stripe. */
#define JBG85_ATMOVES_MAX 1

/* JBIG-KIT's jbig.h also defines these. */
#ifndef JBG_LRLTWO

/* Options, to be added. */
#define JBG_LRLTWO 0x40  /* two-line template */
#define JBG_VLENGTH 0x20 /* the height may follow later in the stream */
#define JBG_TPBON 0x08   /* typical prediction */

/* Return values. The four lowest bits may contain details. */
#define JBG_EOK 0x00      /* the image is complete */
#define JBG_EOK_INTR 0x10 /* line_out requested an interruption */
#define JBG_EAGAIN 0x20   /* more input is needed */
#define JBG_ENOMEM 0x30   /* the buffer is too small for the rows */
#define JBG_EABORT 0x40   /* the stream was aborted by its writer */
#define JBG_EMARKER 0x50  /* unexpected escape code */
#define JBG_EINVAL 0x60   /* the stream is broken */
#define JBG_EIMPL 0x70    /* the stream uses features outside T.85 */

#endif

/* The sizes of libt85's states, in longs. */
#define JBG85_ENCODER_LONGS (4664 / sizeof(unsigned long))
#define JBG85_CHOICE_LONGS (528 / sizeof(unsigned long))
#define JBG85_DECODER_LONGS (1280 / sizeof(unsigned long))

struct jbg85_enc_state {
    unsigned long x0, y0; /* the width, and the height or greatest possible height */
    unsigned long l0;     /* rows per stripe */
    int options;
    int newlen;      /* 1 once a lower height was set, 2 once it has been written */
    unsigned mx;     /* greatest offset of the adaptive template pixel */
    unsigned long y; /* number of rows encoded */
    /* Fields of our own, in the place of libjbig's: */
    unsigned char stage;  /* 0 before the first row, 1 after it, 2 if nothing more is written */
    unsigned char offset; /* of the adaptive template pixel */
    int status;           /* 0, or the status of t85.h because of which nothing more is written */
    unsigned long encoder[JBG85_ENCODER_LONGS];
    unsigned long choice[JBG85_CHOICE_LONGS];
    /* As in JBIG-KIT's header again: */
    void (*data_out)(unsigned char *start, size_t len, void *file);
    void *file;
    unsigned char *comment; /* set before the first row; NULL once it has been written */
    unsigned long comment_len;
};

struct jbg85_dec_state {
    unsigned long x0, y0; /* the width, and the current height */
    unsigned long l0;     /* rows per stripe */
    int options;          /* the header's, without JBG_VLENGTH once a new height has arrived */
    int mx;               /* greatest offset of the adaptive template pixel */
    /* Fields of our own, in the place of libjbig's: */
    int ending;   /* 1 once the image is complete, 2 once its stream is */
    int has_left; /* a byte was consumed that may belong to the stream */
    unsigned char left; /* this byte */
    unsigned char unused[7];
    /* As in JBIG-KIT's header again: */
    unsigned char *linebuf;
    size_t linebuf_len;
    size_t bpl; /* bytes per row */
    /* Our own: */
    unsigned long decoder[JBG85_DECODER_LONGS];
    unsigned long unused_1[2872 / sizeof(unsigned long)];
    /* JBIG-KIT's: */
    unsigned long bie_len;    /* number of header bytes received, at most 20 */
    unsigned char buffer[20]; /* the header bytes received */
    unsigned long unused_2[24 / sizeof(unsigned long)];
    unsigned long y; /* number of rows returned */
    unsigned long unused_3[64 / sizeof(unsigned long)];
    int (*line_out)(const struct jbg85_dec_state *s, unsigned char *start, size_t len,
                    unsigned long y, void *file);
    void *file;
    int intr; /* line_out requested an interruption */
    int end_of_bie; /* the end of the input was signalled */
};

void jbg85_enc_init(struct jbg85_enc_state *s, unsigned long x0, unsigned long y0,
                    void (*data_out)(unsigned char *start, size_t len, void *file), void *file);
void jbg85_enc_options(struct jbg85_enc_state *s, int options, unsigned long l0, int mx);
void jbg85_enc_lineout(struct jbg85_enc_state *s, unsigned char *line, unsigned char *prevline,
                       unsigned char *prevprevline);
void jbg85_enc_newlen(struct jbg85_enc_state *s, unsigned long y0);
void jbg85_enc_abort(struct jbg85_enc_state *s);

void jbg85_dec_init(struct jbg85_dec_state *s, unsigned char *buf, size_t buflen,
                    int (*line_out)(const struct jbg85_dec_state *s, unsigned char *start,
                                    size_t len, unsigned long y, void *file),
                    void *file);
int jbg85_dec_in(struct jbg85_dec_state *s, unsigned char *data, size_t len, size_t *cnt);
int jbg85_dec_end(struct jbg85_dec_state *s);
const char *jbg85_strerror(int errnum);

#define jbg85_dec_finished(s) ((s)->bie_len == 20 && (s)->y >= (s)->y0)
#define jbg85_dec_getwidth(s) ((s)->x0)
#define jbg85_dec_getheight(s) ((s)->y0)
#define jbg85_dec_validwidth(s) ((s)->bie_len == 20)
#define jbg85_dec_finalheight(s) \
    ((s)->bie_len == 20 && (((s)->options & JBG_VLENGTH) == 0 || (s)->y >= (s)->y0))

#ifdef __cplusplus
}
#endif

#endif
