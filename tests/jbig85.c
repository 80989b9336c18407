/* Calls JBIG-KIT's interface for T.85. The program is compiled with JBIG-KIT's own header and library, and with
   bindings/jbig85, and each reads the streams that the other wrote.
     jbig85 write FILE SEED COUNT [PAGE.pbm ..]          writes the streams of the pages, with some sets of options, and of COUNT
                                                         random images, each preceded by its length
     jbig85 read FILE SEED COUNT [PAGE.pbm ..]           checks that such streams denote these images: whole, in single bytes
                                                         and in pieces of any length, with interruptions, and with other
                                                         streams behind them
     jbig85 same OURS THEIRS SEED COUNT [PAGE.pbm ..]    checks that streams differ only as README.md of bindings/jbig85 says
     jbig85 broken SEED COUNT                            decodes streams that are cut, mutated or random
     jbig85 odd                                          makes invalid calls
     jbig85 differs ours|theirs                          checks the differences that README.md of bindings/jbig85 lists
   A page is a raw PBM whose header has no comment. Buffers are exactly as long as they must be, so that a sanitizer detects
   accesses beyond them. */
#include <jbig85.h>
#include <limits.h>
#include <stdio.h>
#include <stdlib.h>
#include <string.h>

#define NEVER ULONG_MAX
/* Rows after which a stream is abandoned: a few bytes may announce billions. */
#define MOST_ROWS 100000
#define CHECK(claim) ((claim) ? (void)0 : broken(#claim, __LINE__))

typedef unsigned char byte;

typedef struct {
    byte *bytes;
    size_t len;
} text;

typedef struct {
    unsigned long width, height;
    unsigned long announced, known; /* the height in the header, and the rows after which the
       actual height is set */
    int options, mx;
    unsigned long l0;
    text comment;
    byte *rows; /* bits after the last pixel of a row are 0 */
    size_t row;
} image;

static const char *about = "";
static unsigned long item;
static unsigned long long dice;

static void broken(const char *claim, int line)
{
    fprintf(stderr, "FAILED: %s %lu: line %d: not so: %s\n", about, item, line, claim);
    exit(1);
}

static unsigned long roll(unsigned long count)
{
    dice = dice * 6364136223846793005u + 1442695040888963407u;
    return (unsigned long)(dice >> 33) % count;
}

static void *room(size_t len)
{
    void *memory = malloc(len ? len : 1);
    CHECK(memory);
    return memory;
}

static void add(text *to, const byte *bytes, size_t len)
{
    to->bytes = realloc(to->bytes, to->len + len + 1);
    CHECK(to->bytes);
    if (len)
        memcpy(to->bytes + to->len, bytes, len);
    to->len += len;
}

/* The images */

static void blacken(image *of, unsigned long x, unsigned long y)
{
    of->rows[y * of->row + x / 8] |= (byte)(0x80 >> x % 8);
}

static void draw(image *of)
{
    unsigned long kind = roll(8), one_in = 2 + roll(12), period = 3 + roll(70), x, y;
    of->row = (of->width + 7) / 8;
    of->rows = calloc(of->row, of->height);
    CHECK(of->rows);
    for (y = 0; y < of->height; y++) {
        byte *row = of->rows + y * of->row;
        if (y > 0 && kind > 3 && roll(4) > 0) {
            memcpy(row, row - of->row, of->row);
            continue;
        }
        if (kind == 7 && roll(3) > 0)
            continue;
        for (x = 0; x < of->width; x++)
            if (kind == 0 ? 0 : kind == 1 ? 1 : kind == 2 ? x % period < period / 2 || roll(40) == 0 : roll(one_in) == 0)
                blacken(of, x, y);
    }
}

static image random_image(void)
{
    static const int sums[] = {0, JBG_TPBON, JBG_LRLTWO, JBG_LRLTWO | JBG_TPBON};
    static const unsigned long stripes[] = {1, 2, 3, 7, 32, 128, 100000};
    image made;
    memset(&made, 0, sizeof made);
    made.width = 1 + roll(roll(4) ? 100 : 700);
    made.height = 1 + roll(roll(4) ? 60 : 300);
    made.options = sums[roll(4)];
    made.l0 = stripes[roll(7)];
    made.mx = roll(2) ? 0 : (int)roll(128);
    made.announced = made.height;
    made.known = NEVER;
    if (roll(3) == 0) {
        made.options |= JBG_VLENGTH;
        if (roll(3) > 0) {
            made.announced += 1 + roll(roll(2) ? 200 : 4000000000u);
            made.known = roll(2) ? made.height : roll(made.height + 1);
        }
    }
    if (roll(4) == 0) {
        size_t len = roll(60);
        byte *comment = room(len);
        size_t n;
        for (n = 0; n < len; n++)
            comment[n] = (byte)(roll(3) ? roll(256) : 0xff);
        made.comment.bytes = comment;
        made.comment.len = len;
    }
    draw(&made);
    return made;
}

/* Sets of options for pages, each -p, -s, -m. */
static const int sets[][3] = {{8, 128, 0}, {0, 128, 0}, {72, 128, 0}, {64, 7, 0}, {8, 1, 0}, {8, 100000, 0},
                              {8, 128, 8}, {8, 128, 127}, {72, 20, 127}, {40, 128, 0}};
enum { SETS = sizeof sets / sizeof *sets };

static image page_image(const char *name, const int *set)
{
    image made;
    FILE *file = fopen(name, "rb");
    CHECK(file);
    memset(&made, 0, sizeof made);
    CHECK(fscanf(file, "P4 %lu %lu", &made.width, &made.height) == 2);
    getc(file);
    made.row = (made.width + 7) / 8;
    made.rows = room(made.row * made.height);
    CHECK(fread(made.rows, made.row, made.height, file) == made.height);
    fclose(file);
    made.options = set[0];
    made.l0 = (unsigned long)set[1];
    made.mx = set[2];
    made.announced = made.height;
    made.known = NEVER;
    if (made.options & JBG_VLENGTH) {
        made.announced = 0xffffffff;
        made.known = made.height;
    }
    return made;
}

static void drop(image *of)
{
    free(of->rows);
    free(of->comment.bytes);
}

/* The calls */

static void put(byte *start, size_t len, void *file)
{
    const text *before = file;
    /* The header comes alone. */
    CHECK(before->len > 0 || len == 20);
    add(file, start, len);
}

/* Encodes an image, with random bits behind the last pixel of each row. */
static text encode(const image *of)
{
    struct jbg85_enc_state s;
    text stream = {NULL, 0};
    byte *lines = room(3 * of->row), *line[3] = {NULL, NULL, NULL};
    unsigned long y;
    jbg85_enc_init(&s, of->width, of->announced, put, &stream);
    jbg85_enc_options(&s, of->options, of->l0, of->mx);
    if (of->comment.bytes) {
        s.comment = of->comment.bytes;
        s.comment_len = of->comment.len;
    }
    if (of->known == 0)
        jbg85_enc_newlen(&s, of->height);
    for (y = 0; y < of->height; y++) {
        line[2] = line[1];
        line[1] = line[0];
        line[0] = lines + y % 3 * of->row;
        memcpy(line[0], of->rows + y * of->row, of->row);
        if (of->width % 8)
            line[0][of->row - 1] |= (byte)roll(1ul << (8 - of->width % 8));
        jbg85_enc_lineout(&s, line[0], line[1], line[2]);
        if (of->known == y + 1)
            jbg85_enc_newlen(&s, of->height);
        CHECK(s.y == y + 1);
    }
    CHECK(!s.comment);
    CHECK(s.y == s.y0);
    CHECK(of->known == NEVER || of->known == 0 || of->known == of->announced || s.newlen == 2 || s.y0 == of->announced);
    y = stream.len;
    jbg85_enc_lineout(&s, line[0], line[1], line[2]);
    jbg85_enc_newlen(&s, 1);
    CHECK(stream.len == y);
    free(lines);
    return stream;
}

typedef struct {
    const image *of; /* or NULL */
    struct jbg85_dec_state *s;
    unsigned long rows, one_in; /* how often an interruption is requested, 0 for never */
    unsigned long height;
} reading;

static int line_out(const struct jbg85_dec_state *s, byte *start, size_t len, unsigned long y, void *file)
{
    reading *now = file;
    CHECK(s == now->s && y == now->rows && s->y == y);
    CHECK(jbg85_dec_validwidth(s));
    CHECK(len == (jbg85_dec_getwidth(s) + 7) / 8);
    CHECK(start >= s->linebuf && start + len <= s->linebuf + s->linebuf_len);
    /* If a late height cuts rows off, rows below the image are also decoded. */
    CHECK(!now->of || y < now->of->height || now->of->known != NEVER);
    if (now->of && y < now->of->height)
        CHECK(!memcmp(start, now->of->rows + y * now->of->row, len));
    now->rows++;
    return now->rows >= MOST_ROWS || (now->one_in && roll(now->one_in) == 0);
}

/* Decodes a stream in pieces of `piece` bytes, or of any length if that is 0. Returns the last
   result; *taken is the number of bytes consumed when the end was reported, or -1 if it was not. */
static int decode(reading *now, const text *stream, size_t piece, byte *lines, size_t lines_len, size_t *taken, int *was_ended)
{
    struct jbg85_dec_state *s = now->s;
    int result = JBG_EAGAIN;
    size_t at = 0;
    jbg85_dec_init(s, lines, lines_len, line_out, now);
    while (at < stream->len && now->rows < MOST_ROWS && (result == JBG_EAGAIN || result == JBG_EOK_INTR)) {
        size_t len = piece ? piece : 1 + roll(40), cnt = 12345;
        byte *bytes;
        if (len > stream->len - at)
            len = stream->len - at;
        bytes = room(len);
        memcpy(bytes, stream->bytes + at, len);
        result = jbg85_dec_in(s, bytes, len, &cnt);
        CHECK(cnt <= len);
        CHECK(result != JBG_EAGAIN || cnt == len);
        free(bytes);
        at += cnt;
        if (cnt == 0 && result != JBG_EOK_INTR)
            break;
    }
    *taken = at;
    *was_ended = result == JBG_EAGAIN || result == JBG_EOK_INTR;
    while (now->rows < MOST_ROWS && (result == JBG_EAGAIN || result == JBG_EOK_INTR)) {
        int told = jbg85_dec_end(s);
        if (told == result && told == JBG_EAGAIN)
            break;
        result = told;
    }
    CHECK(s->y == now->rows);
    return result;
}

/* Whether the stream of an image has an end: it has none while a height may follow. */
static int has_end(const image *of)
{
    return !(of->options & JBG_VLENGTH) || (of->known != NEVER && of->known != 0);
}

/* Checks that a stream denotes an image, with `behind` bytes of another stream behind it. */
static void read_back(const image *of, const text *stream, size_t behind, size_t piece, unsigned long one_in)
{
    struct jbg85_dec_state s;
    reading now = {of, &s, 0, one_in, 0};
    byte *lines = room(3 * of->row);
    size_t taken;
    int was_ended;
    CHECK(decode(&now, stream, piece, lines, 3 * of->row, &taken, &was_ended) == JBG_EOK);
    CHECK(taken == stream->len - behind);
    CHECK(!was_ended || one_in || !has_end(of));
    CHECK(now.rows == of->height);
    CHECK(jbg85_dec_getwidth(&s) == of->width && jbg85_dec_getheight(&s) == of->height);
    CHECK(jbg85_dec_finished(&s));
    free(lines);
}

/* Streams in files */

static text next_stream(FILE *file)
{
    text stream;
    unsigned long len;
    CHECK(fscanf(file, "%lu", &len) == 1);
    getc(file);
    stream.bytes = room(len);
    stream.len = len;
    CHECK(fread(stream.bytes, 1, len, file) == len);
    return stream;
}

typedef struct {
    text all; /* the header, the comments, the moves, the codes without zero bytes at their ends,
       and the new height */
    unsigned long moves, zeros, is_early; /* moves, omitted zero bytes, and whether a height
       precedes the last stripe */
} parts;

static size_t length_at(const byte *at)
{
    return (size_t)at[2] << 24 | (size_t)at[3] << 16 | (size_t)at[4] << 8 | at[5];
}

static parts parts_of(const text *stream, const image *of)
{
    parts found = {{NULL, 0}, 0, 0, 0};
    const byte *at = stream->bytes + 20, *end = stream->bytes + stream->len, *height = NULL;
    unsigned long stripes = (of->height - 1) / of->l0 + 1;
    add(&found.all, stream->bytes, 20);
    while (at < end) {
        const byte *from = at, *last;
        if (at[0] == 0xff && at[1] == 0x05) {
            CHECK(!height && length_at(at) == of->height);
            height = at;
            at += 6;
            found.is_early = stripes > 0;
        } else if (at[0] == 0xff && at[1] == 0x06) {
            found.moves++;
            at += 8;
            add(&found.all, from, 8);
        } else if (at[0] == 0xff && at[1] == 0x07) {
            at += 6 + length_at(at);
            add(&found.all, from, (size_t)(at - from));
        } else {
            while (at[0] != 0xff || at[1] == 0)
                at += at[0] == 0xff ? 2 : 1;
            last = at;
            at += 2;
            if (stripes == 0) {
                /* The stripe data entity behind a height that comes last. */
                CHECK(height && from == height + 6 && from == last && at == end);
                continue;
            }
            while (last > from && last[-1] == 0 && !(last - 1 > from && last[-2] == 0xff)) {
                last--;
                found.zeros++;
            }
            add(&found.all, from, (size_t)(last - from));
            add(&found.all, at - 2, 2);
            stripes--;
        }
    }
    CHECK(at == end && stripes == 0);
    if (height)
        add(&found.all, height, 6);
    return found;
}

static unsigned long equal, shorter, moved;

static void compare(const image *of, const text *ours, const text *theirs)
{
    parts one = parts_of(ours, of), other = parts_of(theirs, of);
    CHECK(one.zeros == 0 && !one.is_early);
    CHECK(one.all.len == other.all.len && !memcmp(one.all.bytes, other.all.bytes, one.all.len));
    moved += one.moves > 0;
    if (other.zeros) {
        shorter++;
    } else {
        equal++;
        CHECK(other.is_early || (ours->len == theirs->len && !memcmp(ours->bytes, theirs->bytes, ours->len)));
    }
    free(one.all.bytes);
    free(other.all.bytes);
}

/* Broken streams */

/* Decodes an arbitrary stream, and calls again after the end. */
static int decode_any(const text *stream, const image *of, byte *lines, size_t lines_len)
{
    struct jbg85_dec_state s;
    reading now = {of, &s, 0, roll(3) ? 0 : 1 + roll(5), 0};
    size_t taken, cnt;
    int was_ended, result = decode(&now, stream, roll(3) ? 0 : 1 + roll(stream->len + 1), lines, lines_len, &taken, &was_ended);
    unsigned long rows = now.rows;
    byte more[3] = {0xff, 0x02, 0x11};
    CHECK(jbg85_strerror(result));
    if (now.rows >= MOST_ROWS)
        return result;
    CHECK(result != JBG_EOK_INTR);
    CHECK(jbg85_dec_in(&s, more, roll(4), &cnt) == result);
    CHECK(jbg85_dec_end(&s) == result);
    CHECK(jbg85_dec_in(&s, NULL, 0, NULL) == result);
    CHECK(now.rows == rows && s.y == rows);
    return result;
}

static void turn(text *stream, size_t from)
{
    size_t times = 1 + roll(4);
    while (times-- && stream->len > from) {
        size_t at = from + roll(stream->len - from);
        stream->bytes[at] = (byte)(roll(3) ? roll(256) : roll(2) ? 0xff : roll(8));
    }
}

static void break_up(const image *of)
{
    text whole = encode(of), stream;
    size_t full = 3 * of->row, lines_len, n, cut;
    byte *lines = room(full);
    /* For a cut stream, each row is the image's, and the missing end is reported. */
    for (n = 0; n < 12; n++) {
        cut = n < 3 ? n * 10 : roll(whole.len);
        if (cut >= whole.len)
            continue;
        stream.len = cut;
        stream.bytes = room(cut);
        memcpy(stream.bytes, whole.bytes, cut);
        CHECK(decode_any(&stream, of, lines, full) == JBG_EAGAIN || of->options & JBG_VLENGTH);
        free(stream.bytes);
    }
    for (n = 0; n < 20; n++) {
        stream.len = whole.len;
        stream.bytes = room(whole.len);
        memcpy(stream.bytes, whole.bytes, whole.len);
        turn(&stream, n < 3 ? 0 : 20);
        if (roll(4) == 0)
            stream.len = roll(stream.len + 1);
        decode_any(&stream, NULL, lines, full);
        free(stream.bytes);
    }
    /* Random bytes behind the header, and nothing else. */
    for (n = 0; n < 4; n++) {
        stream.len = whole.len;
        stream.bytes = room(whole.len);
        memcpy(stream.bytes, whole.bytes, whole.len);
        for (cut = n < 3 ? 20 : 0; cut < stream.len; cut++)
            stream.bytes[cut] = (byte)roll(256);
        decode_any(&stream, NULL, lines, full);
        free(stream.bytes);
    }
    free(lines);
    /* A buffer too small for the rows. */
    lines_len = roll(full);
    lines = room(lines_len);
    if (!(of->options & JBG_LRLTWO))
        CHECK(decode_any(&whole, of, lines, lines_len) == JBG_ENOMEM);
    CHECK(decode_any(&whole, of, NULL, 0) == JBG_ENOMEM);
    free(lines);
    free(whole.bytes);
}

/* Invalid calls */

static text encode_oddly(unsigned long x0, unsigned long y0, unsigned long l0, unsigned mx, unsigned long comment_len)
{
    struct jbg85_enc_state s;
    text stream = {NULL, 0};
    byte row[16] = {1, 2, 3}, comment[4] = "odd";
    int n;
    jbg85_enc_init(&s, x0, y0, put, &stream);
    s.l0 = l0;
    s.mx = mx;
    s.comment = comment;
    s.comment_len = comment_len;
    for (n = 0; n < 4; n++)
        jbg85_enc_lineout(&s, row, row, row);
    jbg85_enc_newlen(&s, 0);
    jbg85_enc_newlen(&s, 1);
    jbg85_enc_newlen(&s, NEVER);
    jbg85_enc_options(&s, -1, 0, -1);
    jbg85_enc_lineout(&s, row, NULL, NULL);
    return stream;
}

/* Aborts a stream after this number of rows. */
static void abort_after(const image *of, unsigned long rows)
{
    struct jbg85_enc_state s;
    struct jbg85_dec_state d;
    reading now = {of, &d, 0, 0, 0};
    text stream = {NULL, 0};
    byte *lines = room(3 * of->row);
    unsigned long y;
    size_t taken;
    int was_ended;
    jbg85_enc_init(&s, of->width, of->height, put, &stream);
    jbg85_enc_options(&s, of->options & ~JBG_VLENGTH, of->l0, of->mx);
    for (y = 0; y < rows; y++)
        jbg85_enc_lineout(&s, of->rows + y * of->row, y > 0 ? of->rows + (y - 1) * of->row : NULL,
                          y > 1 ? of->rows + (y - 2) * of->row : NULL);
    jbg85_enc_abort(&s);
    CHECK(stream.len >= 2 && stream.bytes[stream.len - 2] == 0xff && stream.bytes[stream.len - 1] == 0x04);
    y = stream.len;
    jbg85_enc_lineout(&s, of->rows, NULL, NULL);
    jbg85_enc_newlen(&s, 1);
    CHECK(stream.len == y);
    CHECK(decode(&now, &stream, 0, lines, 3 * of->row, &taken, &was_ended) == JBG_EABORT);
    jbg85_enc_abort(&s);
    CHECK(stream.len == y);
    CHECK(now.rows <= rows);
    free(stream.bytes);
    free(lines);
}

static void odd(void)
{
    text none[] = {encode_oddly(0, 4, 128, 0, 3),        encode_oddly(8, 0, 128, 0, 3),
                   encode_oddly(1048577, 4, 128, 0, 3),  encode_oddly(NEVER, 4, 128, 0, 3),
                   encode_oddly(8, 4, 0, 0, 3),          encode_oddly(8, 4, 128, 128, 3),
                   encode_oddly(8, 4, 128, 0, NEVER)};
    text some = encode_oddly(8, 4, 128, 0, 3), high = encode_oddly(8, NEVER, NEVER, 0, 3);
    size_t n;
    int code;
    for (n = 0; n < sizeof none / sizeof *none; n++)
        CHECK(none[n].len == 0);
    CHECK(some.len > 20 && high.len > 20);
    CHECK(!memcmp(high.bytes + 8, "\377\377\377\377\377\377\377\377", 8));
    free(some.bytes);
    free(high.bytes);
    for (code = -300; code < 300; code++)
        CHECK(strlen(jbg85_strerror(code)) > 0);
    for (n = 0; n < 200; n++) {
        image of = random_image();
        abort_after(&of, roll(of.height));
        drop(&of);
    }
}

/* Differences */

static int is_ours;

/* The results for a stream and its end, without the four lowest bits. */
static int answer(const text *stream, size_t lines_len, reading *now)
{
    struct jbg85_dec_state s;
    byte *lines = room(lines_len);
    size_t taken;
    int was_ended, result;
    now->s = &s;
    result = decode(now, stream, stream->len, lines, lines_len, &taken, &was_ended) & ~0xf;
    now->height = s.y0;
    free(lines);
    return result;
}

/* The stream of the image with inverted bits in one byte of its header, and other bytes behind
   byte `at`. */
static void told(const image *of, int options, size_t changed, byte bits, size_t at, const char *more, size_t more_len,
                 int ours, int theirs)
{
    image asked = *of;
    text whole, stream = {NULL, 0};
    reading now = {NULL, NULL, 0, 0, 0};
    asked.options = options;
    asked.announced += options & JBG_VLENGTH ? 10 : 0;
    asked.known = options & JBG_VLENGTH ? of->height : NEVER;
    whole = encode(&asked);
    whole.bytes[changed] |= bits;
    /* The bytes before the new height. */
    if (at > whole.len)
        at = whole.len - 8;
    add(&stream, whole.bytes, at);
    add(&stream, (const byte *)more, more_len);
    if (at <= 20)
        add(&stream, whole.bytes + at, whole.len - at);
    CHECK(answer(&stream, 3 * of->row, &now) == (is_ours ? ours : theirs));
    /* A height that leaves out stripes. */
    if (at > 20 && more_len == 8)
        CHECK(now.height == (is_ours ? asked.announced : 5));
    free(whole.bytes);
    free(stream.bytes);
}

/* A stream whose height arrived before its stripe ends with the stripe, in pieces of any length:
   another height behind it is not consumed. */
static void end_with_a_stripe(void)
{
    static const byte stream[] = {0, 0, 1, 0, 0,    0, 0, 1, 0, 0, 0,    1, 0, 0,    0, 1, 0,
                                  0, 0, 32, 0xff, 5, 0, 0, 0, 1, 0xff, 2, 0xff, 5, 0, 0, 0, 1};
    size_t cut, one, other;
    for (cut = 0; cut <= sizeof stream; cut++) {
        struct jbg85_dec_state s;
        reading now = {NULL, NULL, 0, 0, 0};
        byte lines[3], *first = room(cut), *second;
        now.s = &s;
        memcpy(first, stream, cut);
        jbg85_dec_init(&s, lines, sizeof lines, line_out, &now);
        CHECK(jbg85_dec_in(&s, first, cut, &one) == (cut < 28 ? JBG_EAGAIN : JBG_EOK));
        second = room(sizeof stream - one);
        memcpy(second, stream + one, sizeof stream - one);
        CHECK(jbg85_dec_in(&s, second, sizeof stream - one, &other) == JBG_EOK);
        CHECK(one + other == 28);
        free(first);
        free(second);
    }
}

static void differs(void)
{
    image of = random_image();
    struct jbg85_enc_state s;
    text stream = {NULL, 0};
    reading now = {NULL, NULL, 0, 0, 0};
    byte line[8];
    size_t all = (size_t)-1;
    drop(&of);
    memset(&of, 0, sizeof of);
    of.width = 61;
    of.height = 40;
    of.l0 = 10;
    of.mx = 8;
    of.announced = 40;
    of.known = NEVER;
    draw(&of);
    told(&of, 8, 0, 0, 20, "", 0, JBG_EOK, JBG_EOK);
    told(&of, 8, 17, 1, 20, "", 0, JBG_EOK, JBG_EIMPL);
    told(&of, 8, 19, 0x14, 20, "", 0, JBG_EOK, JBG_EIMPL);
    told(&of, 8, 4, 0x10, 20, "", 0, JBG_EIMPL, JBG_ENOMEM);
    told(&of, 8, 0, 0, 20, "\377\6\0\0\0\0\1\0", 8, JBG_EOK, JBG_EINVAL);
    told(&of, 8, 0, 0, 20, "\377\6\0\0\0\12\5\0", 8, JBG_EINVAL, JBG_EOK);
    told(&of, 8, 0, 0, 20, "\377\6\0\0\0\0\11\0", 8, JBG_EINVAL, JBG_EINVAL);
    told(&of, 8, 0, 0, 20, "\377\5\0\0\0\24", 6, JBG_EINVAL, JBG_EINVAL);
    told(&of, 40, 0, 0, 20, "\377\5\0\0\0\0", 6, JBG_EINVAL, JBG_EINVAL);
    told(&of, 8, 0, 0, 20, "\377\11", 2, JBG_EMARKER, JBG_EMARKER);
    told(&of, 8, 0, 0, 20, "\377\4", 2, JBG_EABORT, JBG_EABORT);
    told(&of, 40, 0, 0, all, "\377\5\0\0\0\50", 6, JBG_EOK, JBG_EAGAIN);
    told(&of, 40, 0, 0, all, "\377\5\0\0\0\5\377\2", 8, JBG_EINVAL, JBG_EOK);
    told(&of, 40, 0, 0, all, "\377\5\0\0\0\50more", 10, JBG_EOK, JBG_EINVAL);
    told(&of, 8, 0, 0, 21, "\377\6\0\0\0\0\0\0\0", 9, JBG_EMARKER, JBG_EINVAL);
    told(&of, 8, 0, 0, 21, "\377\7\0\0\0\0", 6, JBG_EMARKER, JBG_EAGAIN);
    told(&of, 40, 0, 0, 21, "\377\5\0\0\0\50", 6, JBG_EMARKER, JBG_EAGAIN);
    of.options = JBG_VLENGTH;
    stream = encode(&of);
    add(&stream, (const byte *)"\377\5\0\0\0\5\377\2", 8);
    CHECK(answer(&stream, 3 * of.row, &now) == JBG_EOK && now.height == (is_ours ? 40 : 5));
    free(stream.bytes);
    now.rows = 0;
    stream = encode(&of);
    add(&stream, (const byte *)"more", 4);
    CHECK(answer(&stream, 3 * of.row, &now) == (is_ours ? JBG_EOK : JBG_EINVAL));
    free(stream.bytes);
    now.rows = 0;
    of.options = JBG_LRLTWO;
    stream = encode(&of);
    CHECK(answer(&stream, 2 * of.row, &now) == (is_ours ? JBG_ENOMEM : JBG_EOK));
    /* The row is unchanged, and a comment is consumed only at the front. */
    memset(line, 0xff, sizeof line);
    free(stream.bytes);
    memset(&stream, 0, sizeof stream);
    jbg85_enc_init(&s, of.width, 4, put, &stream);
    jbg85_enc_options(&s, JBG_TPBON, 1, 0);
    jbg85_enc_lineout(&s, line, NULL, NULL);
    CHECK(line[7] == (is_ours ? 0xff : 0xf8));
    s.comment = line;
    s.comment_len = 3;
    jbg85_enc_lineout(&s, line, line, NULL);
    CHECK(is_ours ? s.comment == line : !s.comment);
    free(stream.bytes);
    drop(&of);
    end_with_a_stripe();
}

static image any_image(unsigned long seed, int pages, char **names)
{
    /* An image depends only on its number. */
    dice = seed * 1000003u + item;
    roll(2);
    if (item < (unsigned long)pages * SETS)
        return page_image(names[item / SETS], sets[item % SETS]);
    return random_image();
}

int main(int count, char **words)
{
    int is_write, is_read, is_same, first, pages;
    unsigned long seed, images;
    FILE *file, *other;
    if (count < 2)
        return 2;
    about = words[1];
    is_write = !strcmp(about, "write");
    is_read = !strcmp(about, "read");
    is_same = !strcmp(about, "same");
    if (!strcmp(about, "odd")) {
        odd();
        puts("what no program should do: done");
        return 0;
    }
    if (count == 3 && !strcmp(about, "differs")) {
        is_ours = !strcmp(words[2], "ours");
        differs();
        return 0;
    }
    first = is_same ? 4 : is_write || is_read ? 3 : 2;
    if (count < first + 2)
        return 2;
    seed = strtoul(words[first], NULL, 10);
    pages = count - first - 2;
    images = strtoul(words[first + 1], NULL, 10) + (unsigned long)pages * SETS;
    file = is_write ? fopen(words[2], "wb") : is_read || is_same ? fopen(words[2], "rb") : NULL;
    other = is_same ? fopen(words[3], "rb") : NULL;
    CHECK(file || !(is_write || is_read || is_same));
    CHECK(other || !is_same);
    for (item = 0; item < images; item++) {
        image of = any_image(seed, pages, words + first + 2);
        if (is_write) {
            text stream = encode(&of);
            CHECK(fprintf(file, "%lu ", (unsigned long)stream.len) > 0);
            CHECK(fwrite(stream.bytes, 1, stream.len, file) == stream.len);
            free(stream.bytes);
        } else if (is_read) {
            text stream = next_stream(file);
            read_back(&of, &stream, 0, stream.len, 0);
            read_back(&of, &stream, 0, 1, 0);
            read_back(&of, &stream, 0, 0, 0);
            read_back(&of, &stream, 0, 0, 7);
            read_back(&of, &stream, 0, stream.len, 1);
            if (has_end(&of)) {
                add(&stream, (const byte *)"\0\0\1\0\0", 5);
                read_back(&of, &stream, 5, stream.len, 0);
                read_back(&of, &stream, 5, 1, 0);
                read_back(&of, &stream, 5, 0, 0);
            }
            free(stream.bytes);
        } else if (is_same) {
            text ours = next_stream(file), theirs = next_stream(other);
            compare(&of, &ours, &theirs);
            free(ours.bytes);
            free(theirs.bytes);
        } else {
            break_up(&of);
        }
        drop(&of);
    }
    CHECK(!file || !fclose(file));
    if (is_same)
        printf("%lu streams are the same, %lu but for zero bytes at the end of a code; %lu of these have moves\n", equal, shorter, moved);
    else
        printf("%s: %lu images\n", about, images);
    return 0;
}
