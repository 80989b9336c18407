/* Implements JBIG-KIT's functions that encode, declared in jbig.h, with t85_encode. */
#include "shim.h"

#include <stdlib.h>
#include <string.h>

/* The default of libjbig: a thirty-fifth of the rows, but at most 128 and at least 2. */
static void set_default_stripe(struct jbg_enc_state *s)
{
    s->l0 = jbg_ceil_half(s->yd, s->d) / 35;
    if (s->l0 > 128ul >> s->d)
        s->l0 = 128ul >> s->d;
    if (s->l0 < 2)
        s->l0 = 2;
}

void jbg_enc_init(struct jbg_enc_state *s, unsigned long x, unsigned long y, int planes,
                  unsigned char **p,
                  void (*data_out)(unsigned char *start, size_t len, void *file), void *file)
{
    memset(s, 0, sizeof *s);
    s->xd = x;
    s->yd = s->yd1 = y;
    s->planes = planes;
    s->lhp[0] = p;
    s->data_out = data_out;
    s->file = file;
    set_default_stripe(s);
    s->mx = 8;
    s->order = JBG_ILEAVE | JBG_SMID;
    s->options = JBG_TPBON | JBG_TPDON | JBG_DPON;
}

int jbg_enc_lrlmax(struct jbg_enc_state *s, unsigned long mwidth, unsigned long mheight)
{
    int d = 0;
    while (d < 6 && (jbg_ceil_half(s->xd, d) > mwidth || jbg_ceil_half(s->yd, d) > mheight))
        d++;
    jbg_enc_layers(s, d);
    return s->d;
}

/* Without JBIG-KIT's library no layers are chosen: the stream contains the same image. */
void jbg_enc_layers(struct jbg_enc_state *s, int d)
{
    if (d < 0 || d > 31)
        return;
    s->d = s->dh = t85jbig_kit() ? d : 0;
    s->dl = 0;
    set_default_stripe(s);
}

int jbg_enc_lrange(struct jbg_enc_state *s, int dl, int dh)
{
    if (dl >= 0 && dl <= s->d)
        s->dl = dl;
    if (dh >= s->dl && dh <= s->d)
        s->dh = dh;
    return s->d;
}

void jbg_enc_options(struct jbg_enc_state *s, int order, int options, unsigned long l0, int mx,
                     int my)
{
    if (order >= 0 && order <= 0x0f)
        s->order = order;
    if (options >= 0)
        s->options = options;
    if (l0 > 0)
        s->l0 = l0;
    if (mx >= 0)
        s->mx = mx < T85_MOST_OFFSET ? (unsigned)mx : T85_MOST_OFFSET;
    if (my >= 0 && my < 256)
        s->my = (unsigned)my;
}

static t85_options options_of(const struct jbg_enc_state *s)
{
    t85_options options = T85_OPTIONS;
    options.options = (uint32_t)s->options & (T85_TWO_LINES | T85_VARIABLE_HEIGHT | T85_TYPICAL);
    options.stripe_rows = t85jbig_word(s->l0);
    options.most_offset = s->mx;
    options.announces_height = s->yd1 > s->yd;
    options.announced_height = t85jbig_word(s->yd1);
    options.reset = (s->options & JBG_SDRST) != 0;
    options.has_comment = s->comment != NULL;
    return options;
}

/* The moves of the adaptive pixel before a stripe: to the offset that libjbig's rule chooses, or to the best one for the
   stripe. */
typedef enum { BY_RULE, TO_BEST } moves;

/* The state of an encoding: its memory, its moves, and the offset of the adaptive pixel. */
typedef struct {
    moves moves;
    t85_encoder encoder;
    t85_choice choice;
    unsigned char *window, *stream; /* the window, and as much memory behind it */
    size_t window_len, room, len;
    uint8_t offset;
} encoding;

static int start(const struct jbg_enc_state *s, encoding *it)
{
    uint32_t width = t85jbig_word(s->xd);
    t85_options options = options_of(s);
    t85_choice_start(&it->choice, sizeof it->choice, width, &options);
    return t85_encode_start(&it->encoder, sizeof it->encoder, width, t85jbig_word(s->yd), &options, s->comment,
                            s->comment ? s->comment_len : 0, it->window, it->window_len, it->stream, it->room, &it->len);
}

/* Moves the adaptive pixel before a stripe. */
static void move(encoding *it, const unsigned char *rows, size_t len)
{
    if (it->moves == BY_RULE)
        t85_choice_offset(&it->choice, it->offset, &it->offset);
    else
        t85_best_offset(&it->encoder, rows, len, it->window, it->window_len, it->window + it->window_len, it->window_len,
                        &it->offset);
    t85_encode_offset(&it->encoder, it->offset);
}

/* Encodes the rows. libjbig's moves depend on all rows of the stripe before but its last. Within a stripe, libt85 rejects
   the offset. */
static int put_rows(const struct jbg_enc_state *s, encoding *it)
{
    const unsigned char *row = s->lhp[0][0], *last = NULL, *above_last = NULL;
    size_t len = t85_row_bytes(t85jbig_word(s->xd)), written;
    int status = T85_OK;
    unsigned long y;
    for (y = 0; status == T85_OK && y < s->yd; y++) {
        if (t85_encode_offset(&it->encoder, it->offset) != T85_OK) {
            t85_choice_row(&it->choice, last, len, above_last, above_last ? len : 0);
            above_last = last;
        } else {
            move(it, row, (s->yd - y) * len);
            above_last = s->options & JBG_SDRST ? NULL : last;
        }
        status = t85_encode_row(&it->encoder, row, len, it->window, it->window_len, it->stream + it->len,
                                it->room - it->len, &written);
        it->len += written;
        last = row;
        row += len;
    }
    return status;
}

/* Encodes the image into `room` bytes of `stream`, and returns a status of t85.h. */
static int encode(const struct jbg_enc_state *s, moves moves, unsigned char *stream, size_t room, size_t *len)
{
    encoding it = {.moves = moves, .stream = stream, .room = room, .window_len = t85_window_bytes(t85jbig_word(s->xd))};
    size_t written = 0;
    int status;
    it.window = malloc(2 * it.window_len);
    if (!it.window)
        return T85_SHORT_WINDOW;
    status = start(s, &it);
    if (status == T85_OK)
        status = put_rows(s, &it);
    if (status == T85_OK)
        status = t85_encode_end(&it.encoder, it.window, it.window_len, stream + it.len, room - it.len, &written);
    free(it.window);
    *len = it.len + written;
    return status;
}

/* Returns whether libt85 may be called with the numbers of this encoder. */
static bool is_possible(const struct jbg_enc_state *s)
{
    return s->planes == 1 && s->d == 0 && s->xd > 0 && s->xd <= T85_MOST_WIDTH &&
           s->yd <= UINT32_MAX && (!s->comment || s->comment_len <= UINT32_MAX) &&
           s->yd <= PTRDIFF_MAX / 4 / t85_row_bytes((uint32_t)s->xd);
}

/* Returns the stream in memory of its own, or NULL. A buffer as long as the image is almost always long enough. */
static unsigned char *encoded(const struct jbg_enc_state *s, moves moves, size_t *len)
{
    size_t room;
    if (!is_possible(s))
        return NULL;
    room = t85_row_bytes((uint32_t)s->xd) * s->yd + (s->comment ? s->comment_len : 0) + JBG_BUFSIZE;
    while (room <= PTRDIFF_MAX / 2) {
        unsigned char *stream = malloc(room);
        int status = stream ? encode(s, moves, stream, room, len) : T85_SHORT_WINDOW;
        if (status == T85_OK)
            return stream;
        free(stream);
        if (status != T85_NO_ROOM)
            return NULL;
        room *= 2;
    }
    return NULL;
}

/* Returns the stream with libjbig's moves, or NULL. Without JBG_DELAY_AT libjbig moves within stripes, which T.85 does not
   allow: then a shorter stream with the best moves takes its place. */
static unsigned char *shortest(const struct jbg_enc_state *s, size_t *len)
{
    unsigned char *stream = encoded(s, BY_RULE, len), *other;
    size_t other_len;
    if (!stream || s->options & JBG_DELAY_AT || s->mx == 0)
        return stream;
    other = encoded(s, TO_BEST, &other_len);
    if (!other || other_len >= *len) {
        free(other);
        return stream;
    }
    free(stream);
    *len = other_len;
    return other;
}

static void pass_on(const struct jbg_enc_state *s, unsigned char *bytes, size_t len, size_t most)
{
    while (len > 0) {
        size_t part = len < most ? len : most;
        s->data_out(bytes, part, s->file);
        bytes += part;
        len -= part;
    }
}

/* Passes on a stream in the calls that libjbig makes: one for the header, two for a comment, and for each stripe, with
   the move behind it, one for JBG_BUFSIZE bytes at a time. */
static void pass_on_parts(const struct jbg_enc_state *s, unsigned char *stream, size_t len)
{
    t85_part part = T85_PART;
    size_t passed = 0, end = 0;
    while (t85_next_part(stream, len, &part) == T85_OK) {
        if (part.kind != T85_PART_MOVE || part.stripe == 0) {
            pass_on(s, stream + passed, end - passed, JBG_BUFSIZE);
            passed = end;
        }
        end = part.offset + part.len;
        if (part.kind == T85_PART_COMMENT) {
            size_t text = end - s->comment_len;
            s->data_out(stream + passed, text - passed, s->file);
            s->data_out(stream + text, s->comment_len, s->file);
            passed = end;
        }
    }
    pass_on(s, stream + passed, end - passed, JBG_BUFSIZE);
    pass_on(s, stream + end, len - end, JBG_BUFSIZE);
}

/* No function can report that a stream cannot be written, so its reader must notice: it gets the marker of an aborted
   image, and nothing else. libt85 writes the marker for an encoder, here that of an image of one pixel. */
static void write_abort(const struct jbg_enc_state *s)
{
    t85_encoder encoder;
    t85_options options = T85_OPTIONS;
    unsigned char window[3], head[20], marker[2];
    size_t written;
    if (t85_encode_start(&encoder, sizeof encoder, 1, 1, &options, NULL, 0, window, sizeof window, head, sizeof head,
                         &written) == T85_OK &&
        t85_encode_abort(&encoder, marker, sizeof marker, &written) == T85_OK)
        s->data_out(marker, written, s->file);
}

void jbg_enc_out(struct jbg_enc_state *s)
{
    const kit_calls *kit = t85jbig_kit();
    unsigned char *stream;
    size_t len;
    s->stripes = jbg_stripes(s->l0, s->yd, (unsigned long)s->d);
    if (kit && (s->planes != 1 || s->d > 0 || s->xd > T85_MOST_WIDTH)) {
        t85jbig_write_by_kit(kit, s);
        return;
    }
    stream = shortest(s, &len);
    if (!stream) {
        write_abort(s);
        return;
    }
    /* Printers compare these fields, although they have no meaning for one layer. */
    if (t85_set_unused_fields(stream, len, (uint8_t)s->my, (uint8_t)s->order, (uint8_t)s->options) == T85_OK)
        pass_on_parts(s, stream, len);
    else
        write_abort(s);
    s->comment = NULL;
    free(stream);
}

void jbg_enc_free(struct jbg_enc_state *s)
{
    (void)s;
}
