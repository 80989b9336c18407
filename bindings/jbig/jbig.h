/* JBIG-KIT's functions for images of one plane without layers, on top of libt85. Names, fields and numbers are those of
   JBIG-KIT's header, and so is the place of each field: a program that is linked dynamically is not even recompiled.
   README.md explains how, and what differs. The header is C89, like the programs that use it. */
#ifndef JBG_H
#define JBG_H

#include <stddef.h>

#ifdef __cplusplus
extern "C" {
#endif

/* The version of JBIG-KIT with this interface. */
#define JBG_VERSION "2.1"
#define JBG_VERSION_MAJOR 2
#define JBG_VERSION_MINOR 1

/* The greatest number of bytes of a stripe that one call of data_out passes. */
#define JBG_BUFSIZE 4000
/* The length of the arrays for moves in jbg_dec_state. */
#define JBG_ATMOVES_MAX 64

/* Order of the stripe data entities. It has no meaning for one plane without layers. */
#define JBG_HITOLO 0x08
#define JBG_SEQ 0x04
#define JBG_ILEAVE 0x02
#define JBG_SMID 0x01

/* Options, to be added. TPDON, DPON, DPPRIV and DPLAST concern layers. */
#define JBG_LRLTWO 0x40  /* two-line template */
#define JBG_VLENGTH 0x20 /* the height may follow later in the stream */
#define JBG_TPDON 0x10
#define JBG_TPBON 0x08 /* typical prediction */
#define JBG_DPON 0x04
#define JBG_DPPRIV 0x02
#define JBG_DPLAST 0x01
#define JBG_DELAY_AT 0x100 /* moves at the first row of a stripe: here always */
#define JBG_SDRST 0x200    /* stripes are coded independently of each other */

/* Return values. The four lowest bits of JBG_EINVAL and JBG_EIMPL are a status of t85.h. */
#define JBG_EOK 0x00      /* the image is complete */
#define JBG_EOK_INTR 0x10 /* the greatest size was reached; only with layers */
#define JBG_EAGAIN 0x20   /* more input is needed */
#define JBG_ENOMEM 0x30   /* there is not enough memory */
#define JBG_EABORT 0x40   /* the stream was aborted by its writer */
#define JBG_EMARKER 0x50  /* unexpected escape code */
#define JBG_EINVAL 0x60   /* the stream is broken */
#define JBG_EIMPL 0x70    /* the stream uses features outside T.85 */
#define JBG_ENOCONT 0x80  /* the stream does not continue the one before */

#define jbg_dec_getplanes(s) ((s)->planes)

/* An encoder. Fields without a comment are not used here. */
struct jbg_enc_state {
    int d;                  /* number of layers above the lowest one */
    unsigned long xd, yd;   /* width and height */
    unsigned long yd1;      /* the height in the header, if it is greater than yd */
    int planes;             /* number of planes */
    int dl, dh;             /* the layers to write */
    unsigned long l0;       /* rows per stripe */
    unsigned long stripes;  /* number of stripes, once the stream was written */
    unsigned char **lhp[2]; /* lhp[0] are the planes */
    int *highres;
    int order;   /* written into the header */
    int options; /* sum of the options above */
    unsigned mx; /* greatest offset of the adaptive template pixel */
    unsigned my; /* written into the header */
    int *tx;
    char *dppriv; /* a private prediction table, for layers */
    char *res_tab;
    void *sde;
    void *s;
    void *free_list;
    void (*data_out)(unsigned char *start, size_t len, void *file);
    void *file;
    char *tp;
    unsigned char *comment; /* NULL once it has been written */
    unsigned long comment_len;
};

/* A decoder. Fields without a comment are not used here. */
struct jbg_dec_state {
    int d;                /* -1 until the header has been read, then 0 */
    int dl;               /* the lowest layer of the stream, 0 */
    unsigned long xd, yd; /* width and current height */
    int planes;           /* number of planes, 1 */
    unsigned long l0;     /* rows per stripe */
    unsigned long stripes; /* number of stripes by the header's height */
    int order;            /* the header's */
    int options;          /* the header's */
    int mx, my;           /* the header's */
    char *dppriv;
    unsigned long ii[3];
    unsigned char **lhp[2]; /* lhp[1] marks a decoder of this library */
    int **tx, **ty;
    void *s; /* the state of this library */
    int **reset;
    unsigned long bie_len;    /* number of header bytes received, 0 after the end */
    unsigned char buffer[20]; /* the header bytes received */
    int buf_len;
    unsigned long comment_skip;
    unsigned long x;
    unsigned long i; /* number of rows decoded */
    int at_moves;
    unsigned long at_line[JBG_ATMOVES_MAX];
    int at_tx[JBG_ATMOVES_MAX], at_ty[JBG_ATMOVES_MAX];
    unsigned long line_h1, line_h2, line_h3;
    unsigned long line_l1, line_l2, line_l3;
    int pseudo;
    int **lntp;
    unsigned long xmax, ymax; /* greatest size, for layers */
    int dmax;
};

void jbg_enc_init(struct jbg_enc_state *s, unsigned long x, unsigned long y, int planes,
                  unsigned char **p,
                  void (*data_out)(unsigned char *start, size_t len, void *file), void *file);
int jbg_enc_lrlmax(struct jbg_enc_state *s, unsigned long mwidth, unsigned long mheight);
void jbg_enc_layers(struct jbg_enc_state *s, int d);
int jbg_enc_lrange(struct jbg_enc_state *s, int dl, int dh);
void jbg_enc_options(struct jbg_enc_state *s, int order, int options, unsigned long l0, int mx,
                     int my);
void jbg_enc_out(struct jbg_enc_state *s);
void jbg_enc_free(struct jbg_enc_state *s);

void jbg_dec_init(struct jbg_dec_state *s);
void jbg_dec_maxsize(struct jbg_dec_state *s, unsigned long xmax, unsigned long ymax);
int jbg_dec_in(struct jbg_dec_state *s, unsigned char *data, size_t len, size_t *cnt);
unsigned long jbg_dec_getwidth(const struct jbg_dec_state *s);
unsigned long jbg_dec_getheight(const struct jbg_dec_state *s);
unsigned char *jbg_dec_getimage(const struct jbg_dec_state *s, int plane);
unsigned long jbg_dec_getsize(const struct jbg_dec_state *s);
void jbg_dec_merge_planes(const struct jbg_dec_state *s, int use_graycode,
                          void (*data_out)(unsigned char *start, size_t len, void *file),
                          void *file);
unsigned long jbg_dec_getsize_merged(const struct jbg_dec_state *s);
void jbg_dec_free(struct jbg_dec_state *s);

const char *jbg_strerror(int errnum);
void jbg_int2dppriv(unsigned char *dptable, const char *internal);
void jbg_dppriv2int(char *internal, const unsigned char *dptable);
unsigned long jbg_ceil_half(unsigned long x, int n);
void jbg_split_planes(unsigned long x, unsigned long y, int has_planes, int encode_planes,
                      const unsigned char *src, unsigned char **dest, int use_graycode);
int jbg_newlen(unsigned char *bie, size_t len);

#ifdef __cplusplus
}
#endif

#endif
