/* Calls JBIG-KIT's functions of jbig85.h in any order; see tests/fuzz_jbig.c. The structs of our header have JBIG-KIT's
   layout, so those functions that are not renamed are JBIG-KIT's own. */
#include "../bindings/jbig85/jbig85.h"
#include "fuzz_jbig.h"

#include <stdlib.h>
#include <string.h>
#include <t85.h>

OWN(jbg85_enc_init);
OWN(jbg85_enc_options);
OWN(jbg85_enc_lineout);
OWN(jbg85_enc_newlen);
OWN(jbg85_enc_abort);
OWN(jbg85_dec_init);
OWN(jbg85_dec_in);
OWN(jbg85_dec_end);

/* Rows after which a stream is abandoned: a few bytes may announce billions. */
#define MOST_ROWS 3000

/* The decoder */

typedef struct {
    const struct jbg85_dec_state *s;
    text rows;
    unsigned long count;
    bool stops;
} reading;

/* Keeps a row, and sometimes stops the decoder. */
static int keep(const struct jbg85_dec_state *s, byte *start, size_t len, unsigned long y, void *file)
{
    reading *now = file;
    CHECK(!now->s || (s == now->s && s->y == y && start >= s->linebuf && start + len <= s->linebuf + s->linebuf_len));
    CHECK(y == now->count && len == (s->x0 + 7) / 8 && len == s->bpl);
    put(start, len, &now->rows);
    now->count++;
    return now->count >= MOST_ROWS ? 1 : now->stops && roll(3) == 0 ? (int)roll(5) - 2 : 0;
}

static void forget(reading *now)
{
    free(now->rows.bytes);
    now->rows = (text){NULL, 0};
    now->count = 0;
}

/* Passes the next piece, the end, or nothing. Returns the code. */
static int feed(struct jbg85_dec_state *s, const text *stream, size_t *at, bool is_end)
{
    size_t most = stream->len - *at, len = roll(6) ? roll(most < 30 ? most + 1 : 30) : most, cnt = 12345;
    text piece = copy(stream->bytes + *at, len);
    int code = is_end ? own_jbg85_dec_end(s) : own_jbg85_dec_in(s, piece.bytes, len, &cnt);
    if (is_end)
        cnt = 0;
    CHECK(cnt <= len && (is_end || code != JBG_EAGAIN || cnt == len || s->end_of_bie));
    free(piece.bytes);
    *at += cnt;
    return code;
}

/* Decodes the bytes consumed once more, with libt85 and with JBIG-KIT's library, and compares the rows that all return. */
static void compare(const struct jbg85_dec_state *s, const reading *now, const byte *stream, size_t len)
{
    text whole = copy(stream, len), lines;
    decoded here = decoded_by_t85(&whole, MOST_ROWS);
    struct jbg85_dec_state theirs;
    reading other = {NULL, {NULL, 0}, 0, false};
    unsigned long y;
    int code;
    CHECK(here.status == T85_OK && here.width == s->x0 && here.count == s->y0 && here.count <= now->count);
    for (y = 0; y < here.count; y++)
        CHECK(is_same_row(now->rows.bytes + y * s->bpl, here.rows + y * s->bpl, here.width));
    lines = zeros(3 * s->bpl);
    jbg85_dec_init(&theirs, lines.bytes, lines.len, keep, &other);
    code = jbg85_dec_in(&theirs, whole.bytes, whole.len, NULL);
    if (code == JBG_EAGAIN)
        code = jbg85_dec_end(&theirs);
    for (y = 0; code == JBG_EOK && y < here.count && y < other.count; y++)
        CHECK(is_same_row(other.rows.bytes + y * s->bpl, here.rows + y * s->bpl, here.width));
    forget(&other);
    free(lines.bytes);
    free(whole.bytes);
    free(here.rows);
}

void fuzz_t85_decoder(const text *from)
{
    struct jbg85_dec_state s;
    text stream = copy(from->bytes, from->len), lines = zeros(roll(4) ? 3 * 8192 : roll(100));
    reading now = {&s, {NULL, 0}, 0, roll(3) == 0};
    int code = JBG_EAGAIN, calls = 0, again;
    size_t at = 0;
    /* 65,535 pixels wide: the test has no time for more. */
    if (stream.len > 5)
        stream.bytes[4] = stream.bytes[5] = 0;
    own_jbg85_dec_init(&s, lines.bytes, lines.len, keep, &now);
    while (calls++ < 3000 && now.count < MOST_ROWS && (code == JBG_EAGAIN || code == JBG_EOK_INTR)) {
        unsigned long what = roll(100);
        if (what == 0) {
            own_jbg85_dec_init(&s, lines.bytes, lines.len, keep, &now);
            forget(&now);
            at = 0;
        }
        if (at == stream.len && code == JBG_EAGAIN && s.end_of_bie)
            break;
        code = feed(&s, &stream, &at, what == 1 || at == stream.len);
    }
    CHECK(s.y == now.count);
    if (code == JBG_EOK && now.count < MOST_ROWS)
        compare(&s, &now, stream.bytes, at);
    for (calls = 0; calls < 3 && now.count < MOST_ROWS && code != JBG_EAGAIN && code != JBG_EOK_INTR; calls++) {
        again = feed(&s, &stream, &at, roll(2) == 0);
        CHECK(again == code && s.y == now.count);
    }
    forget(&now);
    free(lines.bytes);
    free(stream.bytes);
}

/* The encoder */

typedef struct {
    struct jbg85_enc_state s;
    image of;
    text stream, comment;
    unsigned long passed; /* rows */
    bool is_aborted, is_wrong; /* whether wrong rows above were passed */
} writing;

static void pass_row(writing *now)
{
    byte *above = now->passed > 0 ? now->of.rows + (now->passed - 1) % now->of.height * now->of.row : NULL;
    byte *second = now->passed > 1 ? now->of.rows + (now->passed - 2) % now->of.height * now->of.row : NULL;
    unsigned long before = now->s.y;
    text line = copy(now->of.rows + now->passed % now->of.height * now->of.row, now->of.row);
    if (now->is_wrong && roll(4) == 0)
        above = roll(2) ? NULL : now->of.rows;
    own_jbg85_enc_lineout(&now->s, line.bytes, above, second);
    if (now->s.y == before + 1 && !now->s.status && !now->is_aborted)
        now->passed++;
    free(line.bytes);
}

/* Checks what was written: nothing, or a stream of the rows that were passed, as far as it goes. */
static void check_written(const writing *now)
{
    decoded here = decoded_by_t85(&now->stream, 200);
    bool is_whole = now->passed > 0 && now->passed == now->s.y0 && !now->s.status;
    unsigned long y;
    if (now->stream.len == 0) {
        CHECK(now->passed == 0);
        return;
    }
    /* A wrong row above makes another image. */
    CHECK(here.width == now->of.width && (now->is_wrong || here.count <= now->passed));
    CHECK(is_whole ? here.status == T85_OK && here.count == now->passed
                   : here.status == (now->is_aborted || now->s.status ? T85_ABORTED : T85_TRUNCATED));
    for (y = 0; y < here.count && !now->is_wrong; y++)
        CHECK(is_same_row(here.rows + y * now->of.row, now->of.rows + y % now->of.height * now->of.row, here.width));
    free(here.rows);
}

void fuzz_t85_encoder(const text *pixels)
{
    static const unsigned long odd[] = {0, T85_MOST_WIDTH + 1ul, 1ul << 32, (unsigned long)-1};
    writing now = {.of = drawn(pixels, 2000, 60)};
    unsigned long width = roll(30) ? now.of.width : odd[roll(4)], calls = roll(150);
    unsigned long height = roll(3) ? now.of.height : roll(2) ? roll(100) : odd[roll(4)];
    own_jbg85_enc_init(&now.s, width, height, put, &now.stream);
    now.is_wrong = roll(8) == 0;
    now.comment = copy(pixels->bytes, roll(pixels->len + 1));
    while (calls-- > 0) {
        switch (roll(40)) {
        case 0: own_jbg85_enc_newlen(&now.s, roll(2) ? roll(120) : odd[roll(4)]); break;
        case 1: now.s.comment = now.comment.bytes; now.s.comment_len = now.comment.len; break;
        case 2: case 3: case 4:
            own_jbg85_enc_options(&now.s, roll(3) ? (int)roll(0x100) - 2 : -1, roll(200), (int)roll(150) - 10); break;
        case 5:
            if (roll(4) == 0) {
                now.is_aborted |= now.s.y < now.s.y0;
                own_jbg85_enc_abort(&now.s);
            }
            break;
        default: pass_row(&now);
        }
    }
    check_written(&now);
    free(now.stream.bytes);
    free(now.comment.bytes);
    free(now.of.rows);
}
