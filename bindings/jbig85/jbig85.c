/* Implements JBIG-KIT's functions for T.85, declared in jbig85.h, with those of libt85. */
#include "jbig85.h"

#include <stdlib.h>
#include <string.h>
#include <t85.h>

/* Stages of an encoder. */
enum { NOT_BEGUN, BEGUN, ENDED };

/* The state of libt85 fits exactly into the space that the header reserves for it. */
#define ENCODER_SIZE sizeof(((struct jbg85_enc_state *)0)->encoder)
#define CHOICE_SIZE sizeof(((struct jbg85_enc_state *)0)->choice)
#define DECODER_SIZE sizeof(((struct jbg85_dec_state *)0)->decoder)
typedef char encoder_fits[ENCODER_SIZE == T85_ENCODER_LEAST ? 1 : -1];
typedef char choice_fits[CHOICE_SIZE == sizeof(t85_choice) ? 1 : -1];
typedef char decoder_fits[DECODER_SIZE == sizeof(t85_decoder) ? 1 : -1];

/* With longs of 64 bits, the public fields are at JBIG-KIT's places. */
typedef char enc_fits[sizeof(long) != 8 || (sizeof(struct jbg85_enc_state) == 5280 &&
                                            offsetof(struct jbg85_enc_state, data_out) == 5248)
                          ? 1
                          : -1];
typedef char dec_fits[sizeof(long) != 8 || (sizeof(struct jbg85_dec_state) == 4376 &&
                                            offsetof(struct jbg85_dec_state, bie_len) == 4224 &&
                                            offsetof(struct jbg85_dec_state, y) == 4280)
                          ? 1
                          : -1];

static t85_encoder *encoder_of(struct jbg85_enc_state *s)
{
    return (t85_encoder *)(void *)s->encoder;
}

static t85_choice *choice_of(struct jbg85_enc_state *s)
{
    return (t85_choice *)(void *)s->choice;
}

static t85_decoder *decoder_of(struct jbg85_dec_state *s)
{
    return (t85_decoder *)(void *)s->decoder;
}

/* Converts a number to 32 bits: values above the greatest, such as -1, become the greatest. */
static uint32_t word(unsigned long number)
{
    return number < UINT32_MAX ? (uint32_t)number : UINT32_MAX;
}

/* The encoder */

void jbg85_enc_init(struct jbg85_enc_state *s, unsigned long x0, unsigned long y0,
                    void (*data_out)(unsigned char *start, size_t len, void *file), void *file)
{
    memset(s, 0, sizeof *s);
    s->x0 = x0;
    s->y0 = word(y0);
    s->l0 = 128;
    s->options = JBG_TPBON | JBG_VLENGTH;
    s->mx = T85_MOST_OFFSET;
    s->data_out = data_out;
    s->file = file;
}

void jbg85_enc_options(struct jbg85_enc_state *s, int options, unsigned long l0, int mx)
{
    if (s->y > 0)
        return;
    if (options >= 0)
        s->options = options;
    if (l0 > 0)
        s->l0 = l0;
    if (mx >= 0 && mx <= T85_MOST_OFFSET)
        s->mx = (unsigned)mx;
}

/* Ends the stream; nothing more is written. */
static void stop(struct jbg85_enc_state *s)
{
    s->stage = ENDED;
    s->y = s->y0;
}

/* Ends a stream that has begun and not ended as an aborted one. */
static void end_aborted(struct jbg85_enc_state *s)
{
    unsigned char marker[2];
    size_t written;
    if (s->stage == BEGUN &&
        t85_encode_abort(encoder_of(s), marker, sizeof marker, &written) == T85_OK)
        s->data_out(marker, written, s->file);
    stop(s);
}

/* No function can report that a stream cannot continue. A started stream is ended as an aborted
   one, so that its reader notices. */
static void fail(struct jbg85_enc_state *s, int status)
{
    s->status = status;
    end_aborted(s);
}

static t85_options options_of(const struct jbg85_enc_state *s)
{
    t85_options options = T85_OPTIONS;
    options.options = (uint32_t)s->options & (T85_TWO_LINES | T85_TYPICAL);
    options.stripe_rows = word(s->l0);
    options.most_offset = s->mx;
    options.announces_height = (s->options & JBG_VLENGTH) != 0;
    options.announced_height = word(s->y0);
    options.has_comment = s->comment != NULL;
    return options;
}

/* Copies a row into its place in the window, without the bits behind its last pixel; NULL is a
   white row. */
static void put_row(unsigned char *window, uint32_t width, unsigned long place,
                    const unsigned char *row)
{
    size_t len = t85_row_bytes(width);
    unsigned char *to = window + place * len;
    if (!row) {
        memset(to, 0, len);
        return;
    }
    memcpy(to, row, len);
    to[len - 1] &= (unsigned char)(0xff << (len * 8 - width));
}

/* Rebuilds the window as it was after `rows` rows: row n, counted from 1, is at place 2 n % 3,
   and the row above it at the next place in the ring. libt85 writes the third place. */
static void put_rows(unsigned char *window, uint32_t width, unsigned long rows,
                     const unsigned char *above, const unsigned char *second)
{
    unsigned long place = 2 * (rows % 3) % 3;
    put_row(window, width, place, rows > 0 ? above : NULL);
    put_row(window, width, (place + 1) % 3, rows > 1 ? second : NULL);
}

/* Returns the length of the stream's head, unless it is rejected. */
static size_t beginning(const struct jbg85_enc_state *s)
{
    return 26 + (s->comment && s->comment_len <= UINT32_MAX ? s->comment_len : 0);
}

typedef enum { START, ROW, END } step;

/* Passes on the bytes of a step. The header, and each comment, is a call of its own, as with
   libjbig: programs that change the header expect it in the first call. */
static void pass_on(struct jbg85_enc_state *s, step what, unsigned char *bytes, size_t len)
{
    t85_part part = T85_PART;
    size_t passed = 0;
    while (what == START && t85_next_part(bytes, len, &part) == T85_OK) {
        s->data_out(bytes + part.offset, part.len, s->file);
        passed = part.offset + part.len;
    }
    if (passed < len)
        s->data_out(bytes + passed, len - passed, s->file);
}

/* Runs one step of the stream with memory of its own, passes on the bytes that it wrote, and
   returns whether it succeeded. */
static bool take(struct jbg85_enc_state *s, step what, const unsigned char *line,
                 const unsigned char *above, const unsigned char *second)
{
    uint32_t width = word(s->x0);
    size_t window_len = width <= T85_MOST_WIDTH ? t85_window_bytes(width) : 0, written = 0;
    size_t room = what == START ? beginning(s) : (size_t)t85_encode_room(encoder_of(s));
    unsigned char *window = malloc(window_len + room), *stream;
    int status;
    if (!window) {
        fail(s, T85_NO_ROOM);
        return false;
    }
    stream = window + window_len;
    if (what == START) {
        t85_options options = options_of(s);
        status = t85_encode_start(encoder_of(s), ENCODER_SIZE, width, word(s->y0), &options,
                                  s->comment, s->comment ? s->comment_len : 0, window, window_len,
                                  stream, room, &written);
        t85_choice_start(choice_of(s), CHOICE_SIZE, width, &options);
    } else {
        put_rows(window, width, s->y, above, second);
        if (what == ROW)
            status = t85_encode_row(encoder_of(s), line, t85_row_bytes(width), window, window_len,
                                    stream, room, &written);
        else
            status = t85_encode_end(encoder_of(s), window, window_len, stream, room, &written);
    }
    pass_on(s, what, stream, written);
    free(window);
    if (status != T85_OK)
        fail(s, status);
    return status == T85_OK;
}

static void finish(struct jbg85_enc_state *s)
{
    if (!take(s, END, NULL, NULL, NULL))
        return;
    if (s->newlen == 1)
        s->newlen = 2;
    stop(s);
}

/* Moves the adaptive pixel as libjbig does, if a stripe begins with the next row: within a stripe, libt85 rejects the
   offset. */
static void move(struct jbg85_enc_state *s)
{
    if (s->y > 0 && t85_encode_offset(encoder_of(s), s->offset) == T85_OK &&
        t85_choice_offset(choice_of(s), s->offset, &s->offset) == T85_OK)
        t85_encode_offset(encoder_of(s), s->offset);
}

/* Writes the head of the stream, if this was not done, and returns whether it is written. */
static bool begin(struct jbg85_enc_state *s)
{
    if (s->stage == NOT_BEGUN && take(s, START, NULL, NULL, NULL)) {
        s->stage = BEGUN;
        s->comment = NULL;
    }
    return s->stage == BEGUN;
}

/* A reader finds the marker only behind a header. */
void jbg85_enc_abort(struct jbg85_enc_state *s)
{
    if (begin(s))
        end_aborted(s);
}

void jbg85_enc_lineout(struct jbg85_enc_state *s, unsigned char *line, unsigned char *prevline,
                       unsigned char *prevprevline)
{
    if (s->stage == ENDED || s->y >= s->y0)
        return;
    if (!begin(s))
        return;
    move(s);
    if (!take(s, ROW, line, prevline, prevprevline))
        return;
    t85_choice_row(choice_of(s), line, t85_row_bytes(word(s->x0)), s->y > 0 ? prevline : NULL,
                   s->y > 0 && prevline ? t85_row_bytes(word(s->x0)) : 0);
    s->y++;
    if (s->y == s->y0)
        finish(s);
}

void jbg85_enc_newlen(struct jbg85_enc_state *s, unsigned long y0)
{
    if (s->stage == ENDED || y0 < 1 || y0 >= s->y0 || !(s->options & JBG_VLENGTH))
        return;
    /* Rows that were passed cannot be taken back. */
    s->y0 = y0 > s->y ? y0 : s->y;
    if (s->stage == NOT_BEGUN)
        return;
    s->newlen = 1;
    if (s->y == s->y0)
        finish(s);
}

/* The decoder */

void jbg85_dec_init(struct jbg85_dec_state *s, unsigned char *buf, size_t buflen,
                    int (*line_out)(const struct jbg85_dec_state *s, unsigned char *start,
                                    size_t len, unsigned long y, void *file),
                    void *file)
{
    memset(s, 0, sizeof *s);
    s->linebuf = buf;
    s->linebuf_len = buf ? buflen : 0;
    s->line_out = line_out;
    s->file = file;
    t85_decode_start(decoder_of(s), DECODER_SIZE, UINT32_MAX);
}

/* Stores the header among the consumed bytes. */
static void keep(struct jbg85_dec_state *s, const unsigned char *bytes, size_t len)
{
    size_t at;
    t85_raw_header_fields header;
    if (!bytes || s->bie_len == sizeof s->buffer)
        return;
    for (at = 0; at < len && s->bie_len < sizeof s->buffer; at++)
        s->buffer[s->bie_len++] = bytes[at];
    if (t85_raw_header(s->buffer, s->bie_len, &header) != T85_OK)
        return;
    s->x0 = header.width;
    s->y0 = header.height;
    s->l0 = header.stripe_rows;
    s->mx = (int)header.most_offset;
    s->options = (int)header.options;
    s->bpl = t85_row_bytes(header.width);
}

/* Copies the height from libt85. If it is lower than before, it is final. */
static void take_height(struct jbg85_dec_state *s)
{
    unsigned long height = t85_decode_height(decoder_of(s));
    if (s->bie_len < sizeof s->buffer || height == 0 || height == s->y0)
        return;
    s->y0 = height;
    s->options &= ~JBG_VLENGTH;
}

/* Returns libjbig's code for this error of the header, or of the stream behind the header. */
static int code_of(const struct jbg85_dec_state *s, int status)
{
    t85_raw_header_fields header;
    memset(&header, 0, sizeof header);
    t85_raw_header(s->buffer, s->bie_len, &header);
    switch (status) {
    case T85_OK: return JBG_EOK;
    case T85_MORE:
    case T85_SHORT_HEADER:
    case T85_TRUNCATED: return JBG_EAGAIN;
    case T85_SHORT_WINDOW: return JBG_ENOMEM;
    case T85_ABORTED: return JBG_EABORT;
    case T85_BAD_ESCAPE: return JBG_EMARKER;
    case T85_RESERVED_BITS: return JBG_EINVAL | (header.fill ? 2 : header.order > 15 ? 3 : 4);
    case T85_LAYERS:
        return header.last_layer < header.first_layer ? JBG_EINVAL | 1
                                                      : JBG_EIMPL | (header.first_layer ? 8 : 9);
    case T85_PLANES: return header.planes ? JBG_EIMPL | 10 : JBG_EINVAL | 5;
    case T85_ZERO_SIZE: return JBG_EINVAL | (!header.width ? 6 : !header.height ? 7 : 8);
    case T85_MOVE_RANGE: return JBG_EINVAL | 9;
    case T85_TOO_WIDE: return JBG_EIMPL;
    case T85_PRIVATE_TABLE: return JBG_EIMPL | 13;
    case T85_MOVE_REFUSED: return JBG_EINVAL | 11;
    case T85_SECOND_MOVE: return JBG_EIMPL | 14;
    case T85_LENGTH_REFUSED: return JBG_EINVAL | (header.options & JBG_VLENGTH ? 12 : 13);
    case T85_SECOND_LENGTH: return JBG_EINVAL | 13;
    default: return JBG_EINVAL;
    }
}

/* Consumes what belongs to the stream behind its last stripe, so that all bytes of the stream are consumed. Two bytes show
   it. libt85 leaves a single one that may belong to something else. It is stored here, since libjbig consumes all bytes if
   it needs more. */
static int take_rest(struct jbg85_dec_state *s, const unsigned char *data, size_t len, size_t *cnt)
{
    unsigned char both[2] = {s->left, 0};
    size_t before = s->has_left ? 1 : 0, count = before, taken;
    if (s->ending != 1)
        return JBG_EOK;
    for (; count < sizeof both && *cnt + count - before < len; count++)
        both[count] = data[*cnt + count - before];
    if (t85_decode_rest(decoder_of(s), both, count, &taken) == T85_MORE) {
        s->left = both[0];
        s->has_left = count > 0;
        *cnt += count - before;
        return s->end_of_bie ? JBG_EOK : JBG_EAGAIN;
    }
    *cnt += taken > before ? taken - before : 0;
    s->ending = 2;
    return JBG_EOK;
}

int jbg85_dec_in(struct jbg85_dec_state *s, unsigned char *data, size_t len, size_t *cnt)
{
    size_t none, row;
    int status;
    if (!cnt)
        cnt = &none;
    *cnt = 0;
    if (s->end_of_bie)
        len = 0;
    for (s->intr = 0; s->ending == 0;) {
        /* The length of the window is known once the header is. */
        unsigned char *window = s->bie_len == sizeof s->buffer ? s->linebuf : NULL;
        unsigned char *rest = *cnt < len ? data + *cnt : NULL;
        size_t window_len = window ? s->linebuf_len : 0, taken = 0;
        if (s->end_of_bie)
            status = t85_decode_end(decoder_of(s), window, window_len, &row);
        else
            status = t85_decode_bytes(decoder_of(s), rest, len - *cnt, window, window_len, &taken,
                                      &row);
        keep(s, rest, taken);
        *cnt += taken;
        take_height(s);
        if (status == T85_ROW) {
            s->intr = s->line_out(s, window + row, s->bpl, s->y, s->file);
            s->y++;
            if (s->intr)
                return JBG_EOK_INTR;
        } else if (status == T85_OK) {
            s->ending = 1;
        } else if (status != T85_HEADER_READ) {
            return code_of(s, status);
        }
    }
    return take_rest(s, data, len, cnt);
}

int jbg85_dec_end(struct jbg85_dec_state *s)
{
    s->end_of_bie = 1;
    return jbg85_dec_in(s, NULL, 0, NULL);
}

const char *jbg85_strerror(int errnum)
{
    static const char *const texts[] = {
        "the image is whole",
        "interrupted behind a row, as was asked for",
        "the stream ends too early",
        "the buffer is too short for three rows of the image",
        "the image was aborted by its sender",
        "unexpected escape code in the stream",
        "the stream breaks the rules of T.85",
        "the stream has what is not supported",
    };
    unsigned number = (unsigned)errnum >> 4;
    return number < sizeof texts / sizeof *texts ? texts[number] : "no such return code";
}
