/* Calls JBIG-KIT's functions of jbig.h, for whole images, in any order; see tests/fuzz_jbig.c. */
#include "fuzz_jbig.h"

#include <jbig.h>
#include <stdlib.h>
#include <string.h>
#include <t85.h>

OWN(jbg_enc_init);
OWN(jbg_enc_lrlmax);
OWN(jbg_enc_layers);
OWN(jbg_enc_lrange);
OWN(jbg_enc_options);
OWN(jbg_enc_out);
OWN(jbg_enc_free);
OWN(jbg_dec_init);
OWN(jbg_dec_maxsize);
OWN(jbg_dec_in);
OWN(jbg_dec_getwidth);
OWN(jbg_dec_getheight);
OWN(jbg_dec_getimage);
OWN(jbg_dec_getsize);
OWN(jbg_dec_merge_planes);
OWN(jbg_dec_getsize_merged);
OWN(jbg_dec_free);
OWN(jbg_newlen);

/* The decoder of jbig.h */

/* Rows of the greatest image that this test has the time for. */
#define MOST_HEIGHT 4095

/* Reads all of a decoder's image. */
static void look(const struct jbg_dec_state *s)
{
    unsigned long width = own_jbg_dec_getwidth(s), height = own_jbg_dec_getheight(s), n;
    size_t len = (width + 7) / 8 * height;
    const byte *pixels = own_jbg_dec_getimage(s, 0);
    text seen = copy(pixels, pixels ? len : 0), merged = {NULL, 0};
    CHECK(own_jbg_dec_getsize(s) == len && own_jbg_dec_getsize_merged(s) == width * height);
    CHECK(!pixels == (width == 0) && !own_jbg_dec_getimage(s, 1 + (int)roll(3)));
    if (width * height < 50000) {
        own_jbg_dec_merge_planes(s, (int)roll(2), put, &merged);
        CHECK(merged.len == width * height);
        for (n = 0; n < merged.len; n++)
            CHECK(merged.bytes[n] == (seen.bytes[n / width * ((width + 7) / 8) + n % width / 8] >> (7 - n % width % 8) & 1));
    }
    free(merged.bytes);
    free(seen.bytes);
}

/* Compares the image with that of libt85, and with that of JBIG-KIT if it accepts the bytes consumed. A height behind the
   last stripe may be unknown to some of them. */
static void compare(const struct jbg_dec_state *s, const byte *stream, size_t len)
{
    text whole = copy(stream, len);
    decoded here = decoded_by_t85(&whole, MOST_HEIGHT);
    struct jbg_dec_state theirs;
    const byte *ours = own_jbg_dec_getimage(s, 0), *other;
    unsigned long y, height = own_jbg_dec_getheight(s);
    size_t row = (here.width + 7) / 8;
    CHECK(here.status == T85_OK && here.width == own_jbg_dec_getwidth(s) && here.count <= height && ours);
    for (y = 0; y < here.count; y++)
        CHECK(is_same_row(ours + y * row, here.rows + y * row, here.width));
    jbg_dec_init(&theirs);
    if (jbg_dec_in(&theirs, whole.bytes, whole.len, NULL) == JBG_EOK) {
        other = jbg_dec_getimage(&theirs, 0);
        CHECK(jbg_dec_getwidth(&theirs) == here.width);
        for (y = 0; y < here.count && y < jbg_dec_getheight(&theirs); y++)
            CHECK(is_same_row(ours + y * row, other + y * row, here.width));
    }
    jbg_dec_free(&theirs);
    free(whole.bytes);
    free(here.rows);
}

/* Passes the next piece, and checks what was consumed. Returns the code. */
static int feed(struct jbg_dec_state *s, const text *stream, size_t *at)
{
    size_t most = stream->len - *at, len = roll(6) ? roll(most < 30 ? most + 1 : 30) : most, cnt = 12345;
    text piece = copy(stream->bytes + *at, len);
    int code = own_jbg_dec_in(s, piece.bytes, len, &cnt);
    CHECK(cnt <= len && (code != JBG_EAGAIN || cnt == len));
    free(piece.bytes);
    *at += cnt;
    return code;
}

void fuzz_whole_decoder(const text *from)
{
    struct jbg_dec_state s;
    text stream = copy(from->bytes, from->len);
    int code = JBG_EAGAIN, calls = 0;
    size_t at = 0;
    /* 65,535 pixels wide, and 4,095 rows high: the test has no time for more. */
    if (stream.len > 10) {
        stream.bytes[4] = stream.bytes[5] = stream.bytes[8] = stream.bytes[9] = 0;
        stream.bytes[10] &= MOST_HEIGHT >> 8;
    }
    own_jbg_dec_init(&s);
    while (calls++ < 400) {
        unsigned long what = roll(24);
        if (what == 0)
            look(&s);
        else if (what == 1)
            own_jbg_dec_maxsize(&s, roll(100), roll(100));
        else if (what == 2 && roll(8) == 0) {
            own_jbg_dec_free(&s);
            own_jbg_dec_init(&s);
            at = 0;
            code = JBG_EAGAIN;
        } else if (code == JBG_EAGAIN && at < stream.len)
            code = feed(&s, &stream, &at);
        else
            break;
    }
    if (code == JBG_EOK)
        compare(&s, stream.bytes, at);
    /* Calls after the end: an error is returned again, unless no byte is passed. */
    for (calls = 0; calls < 3; calls++) {
        size_t was = at;
        int again = feed(&s, &stream, &at);
        CHECK(code == JBG_EOK || code == JBG_EAGAIN || ((again == code || again == JBG_EAGAIN) && at == was));
    }
    look(&s);
    own_jbg_dec_free(&s);
    if (roll(2))
        own_jbg_dec_free(&s);
    own_jbg_newlen(stream.bytes, stream.len);
    free(stream.bytes);
}

/* The encoder of jbig.h */

/* Checks a stream that jbg_enc_out wrote for one plane: all decoders return its image. */
static void check_written(const struct jbg_enc_state *s, const image *of, text *stream)
{
    decoded here = decoded_by_t85(stream, (uint32_t)of->height);
    struct jbg_dec_state theirs;
    const byte *other;
    unsigned long y;
    CHECK(here.status == T85_OK && here.width == of->width && here.count == of->height);
    /* JBIG-KIT's decoder rejects some orders, which have no meaning here. */
    stream->bytes[18] = 0;
    if (s->yd1 > s->yd)
        CHECK(jbg_newlen(stream->bytes, stream->len) == JBG_EOK);
    jbg_dec_init(&theirs);
    CHECK(jbg_dec_in(&theirs, stream->bytes, stream->len, NULL) == JBG_EOK);
    other = jbg_dec_getimage(&theirs, 0);
    for (y = 0; y < of->height; y++) {
        CHECK(is_same_row(here.rows + y * of->row, of->rows + y * of->row, of->width));
        CHECK(is_same_row(other + y * of->row, of->rows + y * of->row, of->width));
    }
    jbg_dec_free(&theirs);
    free(here.rows);
}

/* Writes the stream, perhaps with a comment, of one that can be written, or ABORT. */
static void write_out(struct jbg_enc_state *s, const image *of, text *stream, const text *pixels)
{
    bool fits = s->planes == 1 && s->d == 0 && s->xd == of->width && s->yd == of->height;
    text comment = copy(pixels->bytes, roll(pixels->len + 1));
    stream->len = 0;
    s->comment = roll(3) ? NULL : comment.bytes;
    s->comment_len = comment.len;
    own_jbg_enc_out(s);
    CHECK(!fits || !s->comment);
    if (fits)
        check_written(s, of, stream);
    else
        CHECK(stream->len == 2 && stream->bytes[0] == 0xff && stream->bytes[1] == 4);
    s->comment = NULL;
    free(comment.bytes);
}

void fuzz_whole_encoder(const text *pixels)
{
    static const unsigned long odd[] = {0, T85_MOST_WIDTH + 1ul, 1ul << 32, (unsigned long)-1};
    image of = drawn(pixels, 2000, 100);
    bool is_odd = roll(16) == 0;
    unsigned long width = is_odd && roll(2) ? odd[roll(4)] : of.width, calls = 1 + roll(16);
    unsigned long height = is_odd && width == of.width ? odd[roll(2) * 2] : of.height;
    byte *planes[2] = {of.rows, of.rows};
    text stream = {NULL, 0};
    struct jbg_enc_state s;
    own_jbg_enc_init(&s, width, height, roll(16) ? 1 : (int)roll(4), planes, put, &stream);
    /* A height of 2^32 would need that many rows. */
    if (height > UINT32_MAX)
        s.planes = 2;
    while (calls-- > 0) {
        switch (roll(7)) {
        case 0: own_jbg_enc_layers(&s, (int)roll(40) - 4); break;
        case 1: CHECK(own_jbg_enc_lrlmax(&s, roll(100), roll(100)) == 0); break;
        case 2: CHECK(own_jbg_enc_lrange(&s, (int)roll(5) - 2, (int)roll(5) - 2) == 0); break;
        case 3: s.yd1 = roll(2) ? height : height + roll(roll(2) ? 200 : 3000000000u); break;
        case 4: write_out(&s, &of, &stream, pixels); break;
        default:
            own_jbg_enc_options(&s, (int)roll(20) - 2, (int)roll(0x800) - 20, roll(2) ? roll(8) : roll(300),
                                (int)roll(150) - 10, (int)roll(300) - 20);
        }
    }
    write_out(&s, &of, &stream, pixels);
    own_jbg_enc_free(&s);
    free(stream.bytes);
    free(of.rows);
}
