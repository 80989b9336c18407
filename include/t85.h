/* libt85: JBIG1 (ITU-T T.82) in the fax profile T.85.

   Encodes and decodes whole images, images row by row, and streams in pieces. All data is in
   buffers that the caller supplies: no function allocates memory or keeps a pointer after it
   returns. State between calls is in structs that the caller owns, so calls on different structs
   and buffers may run in several threads at once.

   The manual page t85(3) covers the same in more detail. docs/FORMAT.md describes the stream
   format.

   Requirements on every call:
   - A pointer that has a length may be null if that length is 0. No other pointer may be null. The
     macros at the end of this header handle null pointers; they also say what to do if you bypass
     them.
   - Each pointer points to at least as many bytes as its length says. No length exceeds
     PTRDIFF_MAX. Structs are aligned as their type requires.
   - Buffers passed to the same call do not overlap. Memory that a call writes, including structs,
     `written`, `taken` and `row`, overlaps nothing else that is passed to it.
   - A `bool` is 0 or 1. (One filled by memcpy from elsewhere may be neither.)
   - During a call, no other thread writes to the memory passed to it, or reads the memory that it
     writes.

   If these are met, no call reads or writes outside the memory passed to it, whatever bytes that
   memory contains. */
#ifndef T85_H
#define T85_H

#include <stdbool.h>
#include <stddef.h>
#include <stdint.h>

#ifdef __cplusplus
extern "C" {
#endif

/* Marks the parameters that must not be null, by position, counted from 1. */
#if defined(__GNUC__)
#define T85_NO_NULL(places) __attribute__((nonnull places))
#else
#define T85_NO_NULL(places)
#endif

/* The version of this header: 65536 * major + 256 * minor + patch. */
#define T85_VERSION 0x010000

/* The number of bytes in a row of an image. A byte holds eight pixels, the leftmost in its most
   significant bit; 1 is black. Bits after the last pixel are ignored on input and 0 on output. */
static inline size_t t85_row_bytes(uint32_t width)
{
    return (size_t)(width / 8) + (width % 8 != 0);
}

/* A non-null pointer to pass with a length of 0. Nothing is read from it or written to it. */
#define T85_NOTHING ((uint8_t *)1)

/* Return the given pointer, or T85_NOTHING if it is null, for use with a length of 0. The first
   takes any pointer to data that is read, the second only a pointer to bytes that are read, the
   third a pointer to bytes that are written. */
static inline const uint8_t *t85_or_nothing(const void *bytes)
{
    return bytes ? (const uint8_t *)bytes : (const uint8_t *)T85_NOTHING;
}

static inline const uint8_t *t85_bytes_or_nothing(const uint8_t *bytes)
{
    return t85_or_nothing(bytes);
}

static inline uint8_t *t85_room_or_nothing(uint8_t *room)
{
    return room ? room : T85_NOTHING;
}

/* Status codes. 0 is success; the others are errors, except T85_NO_MORE_PARTS and those from 60 on.
   If a stream has several errors, the one nearest to its beginning is reported; in its header, the
   one with the least number. */
enum {
    T85_OK = 0,

    /* Errors in the header of a stream. */
    T85_SHORT_HEADER = 1,   /* header is shorter than 20 bytes */
    T85_RESERVED_BITS = 2,  /* reserved bits of the header are set */
    T85_LAYERS = 3,         /* differential layers are not supported */
    T85_PLANES = 4,         /* number of planes is not one */
    T85_ZERO_SIZE = 5,      /* width, height or stripe length is zero */
    T85_TOO_WIDE = 6,       /* wider than T85_MOST_WIDTH */
    T85_MOVE_RANGE = 7,     /* adaptive pixel range is above T85_MOST_OFFSET */
    T85_PRIVATE_TABLE = 8,  /* private prediction table is not supported */

    /* Errors after the header. */
    T85_TRUNCATED = 9,      /* stream ends too early */
    T85_BAD_ESCAPE = 10,    /* unexpected escape code */
    T85_ABORTED = 11,       /* image was aborted */
    T85_MOVE_REFUSED = 12,  /* adaptive pixel move is not allowed */
    T85_SECOND_MOVE = 13,   /* second adaptive pixel move in a stripe */
    T85_LENGTH_REFUSED = 14, /* new height is not allowed */
    T85_SECOND_LENGTH = 15, /* second new height */

    /* Buffers and limits. */
    T85_NO_ROOM = 18,       /* output is longer than its buffer */
    T85_SHORT_WINDOW = 19,  /* window is shorter than t85_window_bytes(width) */
    T85_TOO_MANY_ROWS = 24, /* image has more rows than max_rows */
    T85_SHORT_STRIDE = 51,  /* stride is shorter than a row */

    /* Invalid arguments of the encoder. */
    T85_OPTION_BITS = 20,   /* options has a bit outside the three below */
    T85_STRIPE_ZERO = 21,   /* stripe_rows is 0 */
    T85_OFFSET_LARGE = 22,  /* an offset is out of range */
    T85_ANNOUNCED_LOW = 23, /* announced_height is below the image's height */
    T85_COMMENT_LONG = 26,  /* comment has 2^32 bytes or more */
    T85_NO_PIXELS = 33,     /* width or height is 0 */
    T85_IMAGE_WIDE = 34,    /* wider than T85_MOST_WIDTH */
    T85_ROWS_MISSING = 36,  /* rows of the image are missing */
    T85_OTHER_VERSION = 50, /* struct has another version or size */

    /* Parts of a stream. */
    T85_NO_MORE_PARTS = 52, /* there are no more parts */

    /* Streams in pieces. The last three are not errors. */
    T85_NOT_BEGUN = 53,     /* decoder, encoder or PBM is not initialized */
    T85_HEADER_READ = 60,   /* the header has been read */
    T85_ROW = 61,           /* a row has been decoded or read */
    T85_MORE = 62,          /* more input is needed */

    /* Images row by row. */
    T85_NO_MORE_ROWS = 54,  /* all rows were passed, or the stream was ended */
    T85_SHORT_ROW = 55,     /* row is shorter than t85_row_bytes(width) */
    T85_IN_STRIPE = 56,     /* offset chosen within a stripe */

    /* PBM files in pieces; also 33, 34 and 36. */
    T85_NOT_PBM = 31,        /* not a PBM bitmap */
    T85_PBM_BAD_NUMBER = 32, /* bad number in the header */
    T85_PBM_TOO_TALL = 35,   /* taller than 4294967295 */
    T85_PBM_BAD_DIGIT = 38   /* a byte among the pixels is no digit */
};

#define T85_MOST_WIDTH 1048576
#define T85_MOST_OFFSET 127

/* Bits of the `options` fields and of the options byte in a stream's header. */
#define T85_TWO_LINES 0x40u       /* LRLTWO: two-line template */
#define T85_VARIABLE_HEIGHT 0x20u /* VLENGTH: the height may follow later in the stream */
#define T85_TYPICAL 0x08u         /* TPBON: typical prediction */

#define T85_OPTIONS_VERSION 1

/* Encoding options. Initialize with T85_OPTIONS, so that fields that you do not set have their
   defaults. */
typedef struct {
    uint32_t version;          /* T85_OPTIONS_VERSION */
    uint32_t options;          /* sum of T85_TWO_LINES, T85_VARIABLE_HEIGHT, T85_TYPICAL */
    uint32_t stripe_rows;      /* rows per stripe, at least 1 */
    uint32_t most_offset;      /* of the adaptive template pixel, 0 to T85_MOST_OFFSET */
    uint32_t announced_height; /* height in the header, used if announces_height is set */
    bool announces_height;
    bool reset;                /* code stripes independently of each other, ending in SDRST */
    bool has_comment;          /* write the comment passed to the call, even if it is empty */
} t85_options;

/* The defaults of the command pbmtojbg85. */
#define T85_OPTIONS {T85_OPTIONS_VERSION, T85_TYPICAL, 128, 0, 0, false, false, false}

/* The fields of a stream's header. If `options` includes T85_VARIABLE_HEIGHT, `height` is the
   greatest height that the image may have.

   The low four bits of byte 18 (order) and the bits 0x10 (TPDON), 0x04 (DPON), 0x02 (DPPRIV) and
   0x01 (DPLAST) of byte 19 have no meaning for one plane without layers, and are written as 0.
   t85_set_unused_fields sets most of them afterwards, if a printer expects that: decoding ignores
   them, but rejects 0x04 and 0x02 without 0x01, which announce a private table. */
typedef struct {
    uint32_t width, height, stripe_rows, most_offset, options;
} t85_header_fields;

/* All fields of the 20 bytes of a header (T.82, 6.2), whatever their values. */
typedef struct {
    uint32_t width;                /* XD */
    uint32_t height;               /* YD */
    uint32_t stripe_rows;          /* L0 */
    uint32_t first_layer;          /* DL */
    uint32_t last_layer;           /* D */
    uint32_t planes;               /* P */
    uint32_t fill;                 /* the fourth byte */
    uint32_t most_offset;          /* MX */
    uint32_t most_vertical_offset; /* MY */
    uint32_t order;
    uint32_t options;
} t85_raw_header_fields;

/* The header's fields, and facts about the rest of the stream. */
typedef struct {
    uint32_t width, height, stripe_rows, most_offset, options;
    uint32_t image_height; /* the actual height */
    uint32_t entities;     /* number of stripe data entities, one per stripe */
    uint64_t moves;        /* moves of the adaptive template pixel (ATMOVE) */
    uint64_t comments;     /* comments before the last data entity, up to UINT64_MAX */
} t85_summary;

#define T85_FACTS_VERSION 1

/* The same, and the length of the stream in bytes, so that concatenated streams can be split.
   Initialize with T85_FACTS. */
typedef struct {
    uint32_t version; /* T85_FACTS_VERSION */
    uint32_t width, height, stripe_rows, most_offset, options;
    uint32_t image_height, entities;
    uint64_t moves, comments;
    size_t stream_len; /* to the end of its last part, the empty entity of a late height included */
} t85_facts;

#define T85_FACTS {T85_FACTS_VERSION, 0, 0, 0, 0, 0, 0, 0, 0, 0, 0}

/* Kinds of parts. */
#define T85_PART_HEADER 0
#define T85_PART_COMMENT 1
#define T85_PART_MOVE 2       /* a move of the adaptive template pixel (ATMOVE) */
#define T85_PART_NEW_HEIGHT 3
#define T85_PART_DATA_ENTITY 4 /* the code of a stripe and its end marker */

#define T85_PART_VERSION 1

/* A part of a stream, and the state of the walk through the stream. Initialize with T85_PART. */
typedef struct {
    uint32_t version;    /* T85_PART_VERSION */
    uint32_t kind;       /* T85_PART_HEADER or another of the five kinds */
    size_t offset, len;  /* first byte in the stream, and number of bytes */
    uint32_t stripe;     /* number of stripe data entities before it */
    /* State of the walk. Do not change these. */
    uint32_t entities, late_height, has_move, is_at_height, reserved;
    size_t passed;
} t85_part;

#define T85_PART {T85_PART_VERSION, 0, 0, 0, 0, 0, 0, 0, 0, 0, 0}

#define T85_DECODER_BYTES 1280

/* The state of a decoder for a stream in pieces. It may be on the stack or on the heap, and may be
   moved between calls. Calls are memory-safe whatever bytes it contains. If these are
   all zeros, or numbers that no decoder has, t85_decode_bytes and t85_decode_end return
   T85_NOT_BEGUN, and t85_decode_certain returns 0. */
typedef struct {
    uint64_t opaque[T85_DECODER_BYTES / 8];
} t85_decoder;

#define T85_ENCODER_BYTES 5360
#define T85_ENCODER_LEAST 4664

/* The state of an encoder for an image row by row. It may be on the stack or on the heap, and may
   be moved between calls. No call reads or writes more than its first T85_ENCODER_LEAST bytes, so a
   caller with less memory may reserve only these. Calls are memory-safe whatever bytes it contains. For an encoder of all
   zeros, t85_encode_row, t85_encode_offset and t85_encode_end return T85_NOT_BEGUN. */
typedef struct {
    uint64_t opaque[T85_ENCODER_BYTES / 8];
} t85_encoder;

/* A PBM file that is read from pieces: its size and form, and the state of the reader. It may be
   moved between calls. Calls are memory-safe whatever bytes it contains. If it is all zeros, the
   calls return T85_NOT_BEGUN. */
typedef struct {
    uint32_t version, next;
    uint32_t width, height; /* set when T85_HEADER_READ is returned */
    uint32_t is_plain;      /* 0 for the raw form (P4), 1 for the plain form (P1) */
    uint32_t rows_left;     /* number of rows still to be read */
    /* State of the reader. Do not change these, nor the first two. */
    uint32_t filled;
    uint8_t made, place, status, spare;
    uint64_t value, reserved[3];
} t85_pbm;

/* Returns the version of the library, in the format of T85_VERSION. */
uint32_t t85_version(void);

/* Returns the size in bytes of the window for images of this width: three rows. The functions for
   whole images neither use nor preserve the contents of the window. */
size_t t85_window_bytes(uint32_t width);

/* Parses the header of a stream. Returns 0 and sets `fields`, or returns 1 to 8 and leaves `fields`
   unchanged. */
T85_NO_NULL((3))
uint8_t t85_header(const uint8_t *stream, size_t len, t85_header_fields *fields);

/* Returns all fields of a header, whether or not t85_header accepts it. Returns 0 and sets `fields`;
   or returns 1 if there are fewer than 20 bytes, and leaves `fields` unchanged. */
T85_NO_NULL((3))
uint8_t t85_raw_header(const uint8_t *stream, size_t len, t85_raw_header_fields *fields);

/* Sets the fields of a stream's header that have no effect on an image of one plane without layers,
   although some printers compare them: MY (byte 17), the order (byte 18), and the bits 0x10 (TPDON)
   and 0x04 (DPON) of the options (byte 19). The other bits of `options` are ignored.

   Returns one of:
   0: these fields are set, and no other byte has changed. t85_header accepts the header as before,
     and the stream denotes the same image.
   1 to 8: the header is rejected. Nothing is changed.
   T85_RESERVED_BITS: `order` is above 15. Nothing is changed.
   T85_PRIVATE_TABLE: `options` has 0x04, and the header has 0x02 (DPPRIV) without 0x01 (DPLAST).
     Nothing is changed. */
uint8_t t85_set_unused_fields(uint8_t *stream, size_t len, uint8_t my, uint8_t order,
                              uint8_t options);

/* Writes the actual height of a stream into its header (YD, bytes 8 to 11). With T85_VARIABLE_HEIGHT
   this is the height that follows later in the stream, if it is valid and has arrived; otherwise the
   header has it already. No other byte changes, and the stream denotes the same image. Other errors
   of the stream are not reported.

   Returns 0; or returns 1 to 8 if the header is rejected, and changes nothing. */
uint8_t t85_set_height(uint8_t *stream, size_t len);

/* Parses a stream without decoding its pixels. Returns 0 and sets `summary`, or returns 1 to 15 and
   leaves `summary` unchanged. */
T85_NO_NULL((3))
uint8_t t85_info(const uint8_t *stream, size_t len, t85_summary *summary);

/* Does the same, and determines the length of the stream: bytes of `stream` after that belong to
   something else. Returns 0 and sets `facts`, or returns 1 to 15 or 50 and leaves `facts`
   unchanged. */
T85_NO_NULL((3))
uint8_t t85_stream_facts(const uint8_t *stream, size_t len, t85_facts *facts);

/* Reads the next part of a stream that is complete in memory. Call it repeatedly, with the same
   stream and the same `part`, until it returns something other than 0.

   0: `part` describes the next part.
   T85_NO_MORE_PARTS: there are no more parts; part->offset is the length of the stream. It includes
     the empty data entity behind a late height, which is not a part.
   1 to 15: the next part has this error; part->offset and part->stripe say where it begins.
   50: `part` has another version, and is unchanged. */
T85_NO_NULL((3))
uint8_t t85_next_part(const uint8_t *stream, size_t len, t85_part *part);

/* Encodes an image.

   Row y begins at rows + y * stride and has t85_row_bytes(width) bytes, so `rows` needs
   (height - 1) * stride + t85_row_bytes(width) bytes. `comment` is read only if
   options->has_comment is set. After the call, the contents of `stream` beyond *written are
   unspecified.

   Returns one of:
   0: the first *written bytes of `stream` are the whole stream.
   T85_NO_ROOM: the output is longer than stream_room, whether rows are missing or not. `stream` is
     filled with a prefix of the output, and *written is stream_room.
   T85_ROWS_MISSING: `rows` is too short. The *written bytes hold the header, each stripe whose rows
     are all present, and a prefix of the next stripe.
   Any other error: nothing is written, and *written is 0. The checks are made in this order: 50;
     20, 21, 22, 26; 33, 34; 51; 23; 19. */
T85_NO_NULL((6, 13))
uint8_t t85_encode(uint32_t width, uint32_t height, const uint8_t *rows, size_t rows_len,
                   size_t stride, const t85_options *options, const uint8_t *comment,
                   size_t comment_len, uint8_t *window, size_t window_len, uint8_t *stream,
                   size_t stream_room, size_t *written);

/* Returns a size in bytes that is enough for the stream of any image of this width and height, with
   these options and a comment of this length. Returns 0 if t85_encode would reject the size, the
   rows per stripe or the length of the comment.

   The bound is about four bytes per pixel, far more than real images need: start with a buffer of a
   likely size, and double it after T85_NO_ROOM. */
T85_NO_NULL((3))
uint64_t t85_encode_bound(uint32_t width, uint32_t height, const t85_options *options,
                          size_t comment_len);

/* Decodes a stream to a raw PBM file: "P4", a line feed, the width, a space, the height, a line
   feed, and the rows without gaps. Rejects an image of more than max_rows rows; pass UINT32_MAX for
   no limit.

   A buffer of 22 + height * t85_row_bytes(width) bytes is always large enough, with the height of
   the header or the actual height. After the call, the contents of `image` beyond *written are
   unspecified.

   Returns one of:
   0: the first *written bytes of `image` are the whole file.
   9 to 15: the stream is damaged. The *written bytes hold the PBM header with the full height, and
     each row that the bytes before the error determine.
   T85_NO_ROOM: that output (of status 0 or 9 to 15) does not fit. `image` is filled with a prefix
     of it, and *written is image_room.
   Any other error: nothing is written, and *written is 0. The checks are made in this order:
     1 to 8; 24; 19. */
T85_NO_NULL((8))
uint8_t t85_decode(const uint8_t *stream, size_t len, uint32_t max_rows, uint8_t *window,
                   size_t window_len, uint8_t *image, size_t image_room, size_t *written);

/* Does the same, but writes only the rows: row y begins at rows + y * stride. Bytes between rows
   are unchanged.

   With every status, *rows_written is the number of whole rows written; with T85_NO_ROOM, as many
   as fit. If stride is less than t85_row_bytes(width), returns T85_SHORT_STRIDE; this is checked
   after 24 and before 19. */
T85_NO_NULL((9))
uint8_t t85_decode_rows(const uint8_t *stream, size_t len, uint32_t max_rows, size_t stride,
                        uint8_t *window, size_t window_len, uint8_t *rows, size_t rows_room,
                        uint32_t *rows_written);

/* Initializes a decoder for a stream in pieces. `size` must be sizeof(t85_decoder). The decoder
   will return at most max_rows rows, and reject an image of more; pass UINT32_MAX for no limit.
   Returns 0; or 50 if `size` is wrong, and then `decoder` is unchanged. */
T85_NO_NULL((1))
uint8_t t85_decode_start(t85_decoder *decoder, size_t size, uint32_t max_rows);

/* Consumes bytes of the stream: up to the end of the header, to the end of a row, or all. Sets
   *taken to the number of bytes consumed. Then call it again with the remaining bytes, even if
   there are none.

   Up to T85_HEADER_READ the window may be empty (null, with length 0). From then on, each call
   needs the same window of at least t85_window_bytes(width) bytes. It may be moved between calls,
   but its contents must be preserved.

   Returns one of:
   T85_HEADER_READ: the 20 bytes of the header have been consumed; parse them with t85_header.
   T85_ROW: the next row is the t85_row_bytes(width) bytes at window + *row.
   T85_MORE: all bytes have been consumed, and more are needed. All rows that these determine have
     been returned; or, behind the end marker of a stripe where a new height may still follow, all
     rows that the bytes before the marker determine.
   0: the image is complete: it is the first t85_decode_height rows of those returned. The bytes up
     to the last stripe or, if a NEWLEN follows it, up to that have been consumed, and none behind
     them; t85_decode_rest consumes what else belongs to the stream. Only if the header has
     T85_VARIABLE_HEIGHT and no height follows, comments, and bytes of an earlier piece that could
     begin a height, may have been consumed behind the stream: t85_stream_facts finds its end.
   1 to 15: the stream is broken. All rows that the bytes before the error determine have been
     returned.
   24: the image has more than max_rows rows. Without T85_VARIABLE_HEIGHT in the header, the call
     that reads the header returns this. With it, a lower height may follow the header's, so 24 is
     returned in place of T85_ROW or T85_MORE once t85_decode_certain would exceed max_rows (a
     height above the limit has arrived, or a stripe beyond it has begun), or once the bytes
     determine row max_rows + 1, even if a height might still cut it off. An error of the stream
     that the same call finds is returned instead.
   19: the window is too short. Nothing was consumed or changed.
   53: the decoder is not initialized, or no decoder has its numbers. Nothing was consumed or
   changed.
   After 0, 1 to 15 or 24, further calls return the same status and consume nothing. */
T85_NO_NULL((1, 6, 7))
uint8_t t85_decode_bytes(t85_decoder *decoder, const uint8_t *bytes, size_t len, uint8_t *window,
                         size_t window_len, size_t *taken, size_t *row);

/* Signals the end of the input; call it when all bytes have been consumed. Returns the same
   statuses as t85_decode_bytes, except T85_MORE. Call it again as long as it returns T85_ROW. */
T85_NO_NULL((1, 4))
uint8_t t85_decode_end(t85_decoder *decoder, uint8_t *window, size_t window_len, size_t *row);

/* Decodes further rows that equal the row returned last, and returns how many. Call it after
   T85_ROW, with the same window, once you have read the row. These rows count as returned: the
   next call of t85_decode_bytes or t85_decode_end returns the row behind them. A page with much
   white is decoded several times as fast, since many rows are decoded at once. It goes on as long
   as the bytes consumed determine that the next row of the stripe is typical, like the row before
   it, and no later row of the stripe moves the adaptive pixel.

   Returns 0 if the next row may differ, has not arrived, is above the limit or begins a stripe,
   and if t85_decode_bytes would return 19 or 53. Then nothing is changed. */
T85_NO_NULL((1))
uint32_t t85_decode_again(t85_decoder *decoder, uint8_t *window, size_t window_len);

/* Consumes what still belongs to the stream, after t85_decode_bytes has returned 0: the empty
   stripe data entity behind a height (NEWLEN) that followed the last stripe, if there is one. Pass
   the bytes that were not consumed, and those that follow them.

   Returns one of:
   0: nothing more belongs to the stream.
   T85_MORE: more bytes are needed to see whether the empty data entity follows; if the input ends
     here, none does. Nothing was consumed: pass a byte FF again with the bytes that follow.
   1 to 15, 24: t85_decode_bytes returned this status. Nothing was consumed or changed.
   53: the decoder is not initialized, or has not returned 0 yet. Nothing was consumed or changed.

   After 0, if a height followed the last stripe, all bytes consumed are exactly the stream, as
   t85_stream_facts determines its length. Otherwise the stream ended before this call. */
T85_NO_NULL((1, 4))
uint8_t t85_decode_rest(t85_decoder *decoder, const uint8_t *bytes, size_t len, size_t *taken);

/* Returns how many of the first rows belong to the image whatever bytes follow: 0 until rows are
   asked for, and the height after the end. If the header has T85_VARIABLE_HEIGHT, a height that
   arrives later may cut off further rows. A height has arrived when its whole NEWLEN has been
   decoded.

   This counts rows of the image, not rows that were returned. After 1 to 15 or 24 it is the height,
   too, although only the rows that were returned can be saved. */
T85_NO_NULL((1))
uint32_t t85_decode_certain(const t85_decoder *decoder);

/* Returns the current height: that of the header until another has arrived, and 0 until
   T85_HEADER_READ has been returned, also if the header was rejected. If the header has
   T85_VARIABLE_HEIGHT, it may decrease until the end. */
T85_NO_NULL((1))
uint32_t t85_decode_height(const t85_decoder *decoder);

/* Starts the stream of an image whose rows are passed one by one, and writes its header and
   comment: 20 bytes, and with a comment 6 more and its length. `size` is the number of bytes at
   `encoder`, from T85_ENCODER_LEAST to sizeof(t85_encoder). `height` is the number of rows or, if
   options->announces_height is set, the greatest number of rows.

   From this call to the end, each call needs the same window of at least t85_window_bytes(width)
   bytes. It may be moved between calls, but its contents must be preserved, or rebuilt as
   t85_encode_row explains.

   Returns one of:
   0: `stream` holds the first *written bytes of the stream.
   Any other status: nothing is written or changed, and *written is 0. The checks are made in this
     order: 50; 20, 21, 22, 26; 33, 34; 23; 19; T85_NO_ROOM. */
T85_NO_NULL((1, 5, 12))
uint8_t t85_encode_start(t85_encoder *encoder, size_t size, uint32_t width, uint32_t height,
                         const t85_options *options, const uint8_t *comment, size_t comment_len,
                         uint8_t *window, size_t window_len, uint8_t *stream, size_t stream_room,
                         size_t *written);

/* Encodes the next row, the first t85_row_bytes(width) bytes at `row`, and writes the bytes of the
   stream that have become certain, if any. After the last of the rows of a stripe, that is all of
   the stripe. t85_encode_end writes the end of a last stripe that has fewer rows.

   The encoder stores row n, counted from 1, at place 2 * n % 3 of the window (each of the three
   places has t85_row_bytes(width) bytes), with the bits after its last pixel set to 0. It reads
   only the two rows above the new one, at their places; above the first row, and with `reset` above
   each stripe, these are white. So a caller that has these rows may rebuild the window for each
   call. With `reset`, the whole window is white after the last row of a stripe.

   Returns one of:
   0: the row was encoded; `stream` holds the next *written bytes of the stream.
   Any other status: nothing is written or changed, and *written is 0. The checks are made in this
     order: 53; 54; 55; 19; T85_NO_ROOM if stream_room is less than t85_encode_room. */
T85_NO_NULL((1, 8))
uint8_t t85_encode_row(t85_encoder *encoder, const uint8_t *row, size_t row_len, uint8_t *window,
                       size_t window_len, uint8_t *stream, size_t stream_room, size_t *written);

/* Chooses the offset of the adaptive template pixel for the stripe that begins with the next row:
   0, or one from 3 (5 with the two-line template) to most_offset. It may be called before the first
   row, and after each whole stripe. The last call before a stripe counts. Without it, the encoder
   chooses the offset from the rows of the previous stripe. The stream denotes the same image
   whatever the choice; a good choice makes it shorter.

   Returns one of:
   0: the stripe will be encoded with this offset.
   Any other status: nothing is changed. The checks are made in this order: 53; 54 if all rows were
     passed, or the stream was ended; T85_IN_STRIPE if only some rows of a stripe were passed; 22 if
     the offset is not one of these. */
T85_NO_NULL((1))
uint8_t t85_encode_offset(t85_encoder *encoder, uint8_t offset);

/* Finds the offset with which the next stripe takes the fewest bytes, for a caller that has its rows
   in memory. `rows` are the rows from the next one on, packed and without gaps; a part of a row at
   the end, and rows behind the stripe, are ignored.

   The call encodes the stripe without output with up to three offsets: the current one; 0; and, if
   most_offset allows any, the one at which the most pixels equal the pixel that far to their left,
   counted over the rows of the stripe that are not typical (the least of several). It sets *offset
   to the one that takes the fewest bytes, including the 8 bytes of a move, or to the least of
   several. Pass it to t85_encode_offset before the stripe's first row.

   `scratch` is memory of t85_window_bytes(width) bytes, whose contents are unspecified afterwards.
   Encoder and window are not changed.

   Returns one of:
   0: *offset is set.
   Any other status: nothing is changed. The checks are made in this order: 53; 54 if all rows were
     passed, or the stream was ended; T85_IN_STRIPE if only some rows of a stripe were passed;
     T85_ROWS_MISSING if `rows` has no whole row, or not all rows of the stripe and no height was
     announced; 19 if window_len or scratch_len is less than t85_window_bytes(width). */
T85_NO_NULL((1, 8))
uint8_t t85_best_offset(const t85_encoder *encoder, const uint8_t *rows, size_t rows_len,
                        uint8_t *window, size_t window_len, uint8_t *scratch, size_t scratch_len,
                        uint8_t *offset);

#define T85_CHOICE_BYTES 528

/* The counts of a stripe from which JBIG-KIT's rule chooses the next offset. It may be moved between
   calls. Calls are memory-safe whatever bytes it contains. If it is all zeros, the calls return
   T85_NOT_BEGUN. */
typedef struct {
    uint32_t opaque[T85_CHOICE_BYTES / 4];
} t85_choice;

/* Starts a choice of offsets by JBIG-KIT's rule, for an encoder of images of this width with these
   options. `size` must be sizeof(t85_choice). Pass each row to t85_choice_row; before the first row
   of each stripe but the first, call t85_choice_offset, and pass its result to t85_encode_offset.
   The encoder then moves the adaptive template pixel as JBIG-KIT's jbg85_enc_lineout does. JBIG-KIT's
   jbg_enc_out with JBG_DELAY_AT does not use the last row of a stripe: for its moves, do not pass
   that row.

   The rule counts the pixels of the stripe's first rows that are not typical, until more than 2048
   are counted: those from column most_offset, counted from 0, to the third last. For each offset
   from 3 (5 with the two-line template) to most_offset it counts how many equal the pixel that far
   to their left, and for 0 how many equal the pixel in the nominal position. If more than 2048 were
   counted, it moves to the offset with the greatest count, or to the least of several, if the best
   count of a lag misses less than an eighth of the pixels, exceeds the count of the current offset,
   and that of its inverse, by more than it misses and by more than a sixteenth, and the worst count
   of a lag by more than a quarter. A count above the best one of a lag counts as exceeded.

   Returns one of:
   0: the choice is started.
   Any other status: nothing is changed. The checks are made in this order: 50 if `size` or the
     version of the options is wrong; 20 to 22 for the options, without the comment; 33; 34. */
T85_NO_NULL((1, 4))
uint8_t t85_choice_start(t85_choice *choice, size_t size, uint32_t width,
                         const t85_options *options);

/* Counts the next row of the stripe. `above` is the row above it. It is white above the first row of
   an image, and above that of each stripe with the option `reset`: above_len may then be 0.

   Returns one of:
   0: the row is counted, or need not be.
   Any other status: nothing is changed. The checks are made in this order: 53; T85_SHORT_ROW if
     row_len is less than t85_row_bytes(width), or if above_len is and is not 0. */
T85_NO_NULL((1))
uint8_t t85_choice_row(t85_choice *choice, const uint8_t *row, size_t row_len,
                       const uint8_t *above, size_t above_len);

/* Ends the stripe, which was encoded with the offset `current`, and begins the next one. Sets *offset
   to the offset for the next stripe: that to which the rule moves, or else the current one (0 with
   the option `reset`). t85_encode_offset accepts it.

   Returns one of:
   0: *offset is set.
   Any other status: nothing is changed. The checks are made in this order: 53; 22 if `current` is
     neither 0 nor an offset from 3 (5 with the two-line template) to most_offset. */
T85_NO_NULL((1, 3))
uint8_t t85_choice_offset(t85_choice *choice, uint8_t current, uint8_t *offset);

/* Ends the stream, with a new height if fewer rows were passed than announced.

   Returns one of:
   0: `stream` holds the last *written bytes of the stream.
   Any other status: nothing is written or changed, and *written is 0. The checks are made in this
     order: 53; 54 if the stream has been ended already; T85_ROWS_MISSING if no row was passed, or
     if rows are missing and no height was announced; 19; T85_NO_ROOM if stream_room is less than
     t85_encode_room. */
T85_NO_NULL((1, 6))
uint8_t t85_encode_end(t85_encoder *encoder, uint8_t *window, size_t window_len, uint8_t *stream,
                       size_t stream_room, size_t *written);

/* Ends a stream that cannot be completed with the marker ABORT (T.82, 6.2.5). It may be called
   instead of t85_encode_row or t85_encode_end. Unless all rows were passed, decoding the stream then
   returns T85_ABORTED.

   Returns one of:
   0: the marker, FF 04, was written to `stream`, and *written is 2. The stream has ended.
   Any other status: nothing is written or changed, and *written is 0. The checks are made in this
     order: 53; 54 if the stream has been ended already; T85_NO_ROOM if stream_room is less than
     2. */
T85_NO_NULL((1, 4))
uint8_t t85_encode_abort(t85_encoder *encoder, uint8_t *stream, size_t stream_room,
                         size_t *written);

/* Returns how many more rows are accepted: 0 if the encoder is not initialized or was ended. */
T85_NO_NULL((1))
uint32_t t85_encode_rows_left(const t85_encoder *encoder);

/* Returns a buffer size that is enough for the next call, whether for a row or for the end: about
   four bytes per pixel, and twice the number of bytes that the encoder still holds back. Returns 0
   if the encoder is not initialized or was ended. Most rows write far less. */
T85_NO_NULL((1))
uint64_t t85_encode_room(const t85_encoder *encoder);

/* Initializes a reader for a PBM file in pieces. `size` must be sizeof(t85_pbm). Returns 0; or 50 if
   `size` is wrong, and then `pbm` is unchanged. */
T85_NO_NULL((1))
uint8_t t85_pbm_start(t85_pbm *pbm, size_t size);

/* Consumes bytes of the file: up to the end of its header, to the byte that shows an error, or all.
   Sets *taken to the number of bytes consumed. The pieces may be cut anywhere; comments and blanks
   may have any length.

   Returns one of:
   T85_HEADER_READ: the header is complete, and `pbm` has width, height and form. The bytes that were
     not consumed belong to the rows. Further calls return the same and consume nothing.
   T85_MORE: all bytes have been consumed, and more are needed.
   31 to 35: no header begins with these bytes. Further calls return the same status and consume
     nothing.
   53: `pbm` is not initialized. Nothing was consumed or changed. */
T85_NO_NULL((1, 4))
uint8_t t85_pbm_header(t85_pbm *pbm, const uint8_t *bytes, size_t len, size_t *taken);

/* Consumes bytes behind the header: up to the end of the next row, to a byte that is no digit, or
   all. Sets *taken to the number of bytes consumed.

   `row` has at least t85_row_bytes(width) bytes, which are the memory of the row: until it is
   complete, it may be moved between calls, but its contents must be preserved.

   Returns one of:
   T85_ROW: the first t85_row_bytes(width) bytes of `row` are the next row, with the bits after its
     last pixel set to 0. Call it again with the remaining bytes.
   T85_MORE: all bytes have been consumed, and more are needed.
   0: all rows have been read; row_room is not checked. Nothing was consumed.
   T85_PBM_BAD_DIGIT: in the plain form, a byte is neither a digit 0 or 1 nor white space. Further
     calls return the same status and consume nothing.
   T85_SHORT_ROW: row_room is less than t85_row_bytes(width). Nothing was consumed or changed.
   53: `pbm` is not initialized, or its header has not been read. Nothing was consumed or changed. */
T85_NO_NULL((1, 6))
uint8_t t85_pbm_row(t85_pbm *pbm, const uint8_t *bytes, size_t len, uint8_t *row, size_t row_room,
                    size_t *taken);

/* Returns the status of a file that ends here: 0 after the last row; T85_ROWS_MISSING within the
   header, or if a row is not complete; an error that was returned before; or 53. */
T85_NO_NULL((1))
uint8_t t85_pbm_end(const t85_pbm *pbm);

/* Writes an English description of a status, without a line feed and without a terminating zero,
   cut off at `room` bytes. Returns the length of the whole text. */
size_t t85_message(uint8_t status, uint8_t *text, size_t room);

/* Null pointers. Each function above that takes a pointer with a length is also a macro, which
   replaces a null pointer by T85_NOTHING and evaluates each argument once. Put an argument in
   parentheses if it contains a comma outside of parentheses, as a compound literal may.

   The functions themselves do not accept null pointers. If you call one as (t85_info)(..), through
   its address, or from a language that does not read this header, pass T85_NOTHING. */
#define t85_header(stream, len, fields) t85_header(t85_bytes_or_nothing(stream), len, fields)

#define t85_raw_header(stream, len, fields) \
    t85_raw_header(t85_bytes_or_nothing(stream), len, fields)

#define t85_set_unused_fields(stream, len, my, order, options) \
    t85_set_unused_fields(t85_room_or_nothing(stream), len, my, order, options)

#define t85_set_height(stream, len) t85_set_height(t85_room_or_nothing(stream), len)

#define t85_info(stream, len, summary) t85_info(t85_bytes_or_nothing(stream), len, summary)

#define t85_stream_facts(stream, len, facts) \
    t85_stream_facts(t85_bytes_or_nothing(stream), len, facts)

#define t85_next_part(stream, len, part) t85_next_part(t85_bytes_or_nothing(stream), len, part)

#define t85_pbm_header(pbm, bytes, len, taken) \
    t85_pbm_header(pbm, t85_bytes_or_nothing(bytes), len, taken)

#define t85_pbm_row(pbm, bytes, len, row, row_room, taken)           \
    t85_pbm_row(pbm, t85_bytes_or_nothing(bytes), len,               \
                t85_room_or_nothing(row), row_room, taken)

#define t85_decode_bytes(decoder, bytes, len, window, window_len, taken, row)        \
    t85_decode_bytes(decoder, t85_bytes_or_nothing(bytes), len,                      \
                     t85_room_or_nothing(window), window_len, taken, row)

#define t85_decode_end(decoder, window, window_len, row) \
    t85_decode_end(decoder, t85_room_or_nothing(window), window_len, row)

#define t85_decode_again(decoder, window, window_len) \
    t85_decode_again(decoder, t85_room_or_nothing(window), window_len)

#define t85_decode_rest(decoder, bytes, len, taken) \
    t85_decode_rest(decoder, t85_bytes_or_nothing(bytes), len, taken)

#define t85_encode(width, height, rows, rows_len, stride, options, comment, comment_len, window, \
                   window_len, stream, stream_room, written)                                     \
    t85_encode(width, height, t85_bytes_or_nothing(rows), rows_len, stride, options,             \
               t85_bytes_or_nothing(comment), comment_len, t85_room_or_nothing(window),          \
               window_len, t85_room_or_nothing(stream), stream_room, written)

#define t85_decode(stream, len, max_rows, window, window_len, image, image_room, written)      \
    t85_decode(t85_bytes_or_nothing(stream), len, max_rows, t85_room_or_nothing(window),       \
               window_len, t85_room_or_nothing(image), image_room, written)

#define t85_decode_rows(stream, len, max_rows, stride, window, window_len, rows, rows_room,    \
                        rows_written)                                                          \
    t85_decode_rows(t85_bytes_or_nothing(stream), len, max_rows, stride,                       \
                    t85_room_or_nothing(window), window_len, t85_room_or_nothing(rows),        \
                    rows_room, rows_written)

#define t85_encode_start(encoder, size, width, height, options, comment, comment_len, window, \
                         window_len, stream, stream_room, written)                            \
    t85_encode_start(encoder, size, width, height, options, t85_bytes_or_nothing(comment),    \
                     comment_len, t85_room_or_nothing(window), window_len,                    \
                     t85_room_or_nothing(stream), stream_room, written)

#define t85_encode_row(encoder, row, row_len, window, window_len, stream, stream_room, written) \
    t85_encode_row(encoder, t85_bytes_or_nothing(row), row_len, t85_room_or_nothing(window),    \
                   window_len, t85_room_or_nothing(stream), stream_room, written)

#define t85_best_offset(encoder, rows, rows_len, window, window_len, scratch, scratch_len, offset) \
    t85_best_offset(encoder, t85_bytes_or_nothing(rows), rows_len, t85_room_or_nothing(window),    \
                    window_len, t85_room_or_nothing(scratch), scratch_len, offset)

#define t85_choice_row(choice, row, row_len, above, above_len)          \
    t85_choice_row(choice, t85_bytes_or_nothing(row), row_len,          \
                   t85_bytes_or_nothing(above), above_len)

#define t85_encode_end(encoder, window, window_len, stream, stream_room, written) \
    t85_encode_end(encoder, t85_room_or_nothing(window), window_len,              \
                   t85_room_or_nothing(stream), stream_room, written)

#define t85_encode_abort(encoder, stream, stream_room, written) \
    t85_encode_abort(encoder, t85_room_or_nothing(stream), stream_room, written)

#define t85_message(status, text, room) t85_message(status, t85_room_or_nothing(text), room)

#ifdef __cplusplus
}
#endif

#endif
