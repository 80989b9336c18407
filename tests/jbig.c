/* Calls JBIG-KIT's interface jbig.h, as JBIG-KIT's library implements it (jbg_) and as bindings/jbig does, whose functions
   tests/jbig renames to own_.
     jbig calls              passes valid and invalid arguments to each function of both, and compares
     jbig same SEED COUNT    encodes random images with both, compares the calls of data_out, and decodes each stream with both
     jbig broken SEED COUNT  decodes streams that are cut, mutated or random with bindings/jbig
     jbig memory             makes each memory allocation of bindings/jbig fail in turn
     jbig kit                does the same with T85_JBIG_KIT, for images with layers and planes
   Buffers are exactly as long as they must be, so that a sanitizer detects accesses beyond them. */
#include <jbig.h>
#include <limits.h>
#include <stdio.h>
#include <stdlib.h>
#include <string.h>

#define CHECK(claim) ((claim) ? (void)0 : broken(#claim, __LINE__))
#define OWN(call) extern __typeof__(jbg_##call) own_##call

OWN(enc_init);
OWN(enc_lrlmax);
OWN(enc_layers);
OWN(enc_lrange);
OWN(enc_options);
OWN(enc_out);
OWN(enc_free);
OWN(dec_init);
OWN(dec_maxsize);
OWN(dec_in);
OWN(dec_getwidth);
OWN(dec_getheight);
OWN(dec_getimage);
OWN(dec_getsize);
OWN(dec_merge_planes);
OWN(dec_getsize_merged);
OWN(dec_free);
OWN(strerror);
OWN(int2dppriv);
OWN(dppriv2int);
OWN(ceil_half);
OWN(split_planes);
OWN(newlen);

/* JBIG-KIT's library exports these, but its header does not declare them. */
unsigned long jbg_stripes(unsigned long l0, unsigned long yd, unsigned long d);
unsigned char *jbg_next_pscdms(unsigned char *p, size_t len);
OWN(stripes);
OWN(next_pscdms);

#define PAIR(call) __typeof__(jbg_##call) *call
#define OURS(call) own_##call
#define THEIRS(call) jbg_##call

typedef struct {
    PAIR(enc_init);
    PAIR(enc_layers);
    PAIR(enc_lrange);
    PAIR(enc_options);
    PAIR(enc_out);
    PAIR(enc_free);
    PAIR(dec_init);
    PAIR(dec_in);
    PAIR(dec_getwidth);
    PAIR(dec_getheight);
    PAIR(dec_getimage);
    PAIR(dec_getsize);
    PAIR(dec_merge_planes);
    PAIR(dec_getsize_merged);
    PAIR(dec_free);
} library;

#define LIBRARY(of)                                                                               \
    {of(enc_init), of(enc_layers), of(enc_lrange), of(enc_options), of(enc_out), of(enc_free),    \
     of(dec_init), of(dec_in), of(dec_getwidth), of(dec_getheight), of(dec_getimage),             \
     of(dec_getsize), of(dec_merge_planes), of(dec_getsize_merged), of(dec_free)}

static const library ours = LIBRARY(OURS), theirs = LIBRARY(THEIRS);

typedef unsigned char byte;

/* Bytes, and the calls of data_out that passed them. */
typedef struct {
    byte *bytes;
    size_t len, calls, ends[2000];
} text;

typedef struct {
    unsigned long width, height, announced, l0;
    int planes, layers, order, options, mx;
    size_t row;
    byte *rows; /* all planes; bits after the last pixel of a row are random */
    byte *comment;
    size_t comment_len;
} image;

static const char *about = "";
static unsigned long item;
static unsigned long long dice;

static void broken(const char *claim, int line)
{
    fprintf(stderr, "FAILED: %s %lu: line %d: not so: %s\n", about, item, line, claim);
    exit(1);
}

static unsigned long roll(unsigned long count)
{
    dice = dice * 6364136223846793005u + 1442695040888963407u;
    return (unsigned long)(dice >> 33) % count;
}

/* The allocations of bindings/jbig come here: `fails` is the number of the one that fails, from 1. */
static unsigned long allocations, fails;

static int is_refused(void)
{
    return ++allocations == fails;
}

void *own_malloc(size_t len);
void *own_calloc(size_t count, size_t len);
void *own_realloc(void *memory, size_t len);

void *own_malloc(size_t len)
{
    return is_refused() ? NULL : malloc(len);
}

void *own_calloc(size_t count, size_t len)
{
    return is_refused() ? NULL : calloc(count, len);
}

void *own_realloc(void *memory, size_t len)
{
    return is_refused() ? NULL : realloc(memory, len);
}

static void *room(size_t len)
{
    void *memory = malloc(len ? len : 1);
    CHECK(memory);
    return memory;
}

static byte *copy(const byte *bytes, size_t len)
{
    byte *made = room(len);
    if (len)
        memcpy(made, bytes, len);
    return made;
}

static void put(byte *start, size_t len, void *file)
{
    text *to = file;
    to->bytes = realloc(to->bytes, to->len + len + 1);
    CHECK(to->bytes && to->calls < sizeof to->ends / sizeof *to->ends);
    memcpy(to->bytes + to->len, start, len);
    to->len += len;
    to->ends[to->calls++] = to->len;
}

/* The images */

static void draw(image *of)
{
    unsigned long kind = roll(6), one_in = 2 + roll(12), period = 3 + roll(70), x, y;
    for (y = 0; y < of->height * (unsigned long)of->planes; y++) {
        byte *row = of->rows + y * of->row;
        if (y > 0 && kind > 3 && roll(4) > 0)
            memcpy(row, row - of->row, of->row);
        else
            for (x = 0; x < of->row * 8; x++)
                if (kind == 1 || (kind == 2 ? x % period < period / 2 || roll(40) == 0 : kind > 2 && roll(one_in) == 0))
                    row[x / 8] |= (byte)(0x80 >> x % 8);
    }
}

static image random_image(int planes, int layers)
{
    static const int orders[] = {0, 2, 3, 4, 5, 6, 8, 10, 11, 12};
    static const unsigned long stripes[] = {1, 2, 3, 7, 32, 128, 100000};
    image made;
    size_t n;
    memset(&made, 0, sizeof made);
    made.width = 1 + roll(roll(4) ? 100 : 2500);
    made.height = 1 + roll(roll(4) ? 60 : 300);
    made.announced = made.height + (roll(5) ? 0 : 1 + roll(roll(2) ? 200 : 20000));
    made.l0 = stripes[roll(7)];
    made.planes = planes;
    made.layers = layers;
    made.order = orders[roll(10)];
    made.options = (int)roll(8) << 3 | (roll(2) ? JBG_LRLTWO : 0) | (roll(2) ? JBG_DPON : 0) | (roll(4) ? 0 : JBG_SDRST) |
                   (roll(2) ? JBG_DELAY_AT : 0);
    /* In the last stripe of the height announced, libjbig's decoder ends before a new height. */
    if (layers > 0 || (made.announced - 1) / made.l0 == (made.height - 1) / made.l0)
        made.announced = made.height;
    made.mx = roll(2) ? 0 : 5 + (int)roll(123);
    made.row = (made.width + 7) / 8;
    made.rows = calloc(made.row, made.height * (unsigned long)planes);
    CHECK(made.rows);
    draw(&made);
    if (roll(4) == 0) {
        made.comment_len = 1 + roll(roll(3) ? 60 : 9000);
        made.comment = room(made.comment_len);
        for (n = 0; n < made.comment_len; n++)
            made.comment[n] = (byte)(roll(3) ? roll(256) : 0xff);
    }
    return made;
}

static void drop(image *of)
{
    free(of->rows);
    free(of->comment);
}

static text encode(const library *with, const image *of)
{
    struct jbg_enc_state s;
    text stream;
    byte *planes[8], *rows = copy(of->rows, of->row * of->height * (unsigned long)of->planes);
    int n;
    memset(&stream, 0, sizeof stream);
    for (n = 0; n < of->planes; n++)
        planes[n] = rows + (unsigned long)n * of->height * of->row;
    with->enc_init(&s, of->width, of->height, of->planes, planes, put, &stream);
    with->enc_layers(&s, of->layers);
    with->enc_options(&s, of->order, of->options, of->l0, of->mx, 0);
    s.yd1 = of->announced;
    s.comment = of->comment;
    s.comment_len = of->comment_len;
    with->enc_out(&s);
    CHECK(!s.comment && s.stripes > 0);
    with->enc_free(&s);
    free(rows);
    return stream;
}

/* Decodes a stream in pieces of `piece` bytes, or of any length if that is 0. */
static int decode(const library *with, struct jbg_dec_state *s, const byte *stream, size_t len, size_t piece, size_t *taken)
{
    int code = JBG_EAGAIN;
    *taken = 0;
    memset(s, 0, sizeof *s);
    with->dec_init(s);
    while (*taken < len && code == JBG_EAGAIN) {
        size_t part = piece ? piece : 1 + roll(roll(2) ? 40 : 4000), cnt = 12345;
        byte *bytes;
        if (part > len - *taken)
            part = len - *taken;
        bytes = copy(stream + *taken, part);
        code = with->dec_in(s, bytes, part, &cnt);
        free(bytes);
        CHECK(cnt <= part);
        CHECK(code != JBG_EAGAIN || cnt == part);
        *taken += cnt;
    }
    return code;
}

/* Checks the rows of all planes, without the bits after the last pixel. */
static void check_rows(const library *with, const struct jbg_dec_state *s, const image *of)
{
    int plane;
    unsigned long y;
    CHECK(with->dec_getwidth(s) == of->width && with->dec_getheight(s) == of->height);
    CHECK(with->dec_getsize(s) == of->row * of->height && jbg_dec_getplanes(s) == of->planes);
    CHECK(with->dec_getsize_merged(s) == of->width * of->height);
    for (plane = 0; plane < of->planes; plane++) {
        const byte *image = with->dec_getimage(s, plane), *row = of->rows + (unsigned long)plane * of->height * of->row;
        byte mask = (byte)(0xff << (of->row * 8 - of->width));
        CHECK(image);
        for (y = 0; y < of->height; y++, image += of->row, row += of->row)
            CHECK(!memcmp(image, row, of->row - 1) && ((image[of->row - 1] ^ row[of->row - 1]) & mask) == 0);
    }
}

static void check_fields(const struct jbg_dec_state *a, const struct jbg_dec_state *b)
{
    CHECK(a->d == b->d && a->dl == b->dl && a->xd == b->xd && a->yd == b->yd && a->planes == b->planes);
    CHECK(a->l0 == b->l0 && a->order == b->order && a->options == b->options && a->mx == b->mx && a->my == b->my);
}

/* Decodes with both, and compares. */
static void read_back(const image *of, const text *stream, size_t piece)
{
    struct jbg_dec_state one, other;
    text merged[2];
    size_t taken, all;
    memset(merged, 0, sizeof merged);
    /* With JBG_DELAY_AT, libjbig may write a move of eight bytes behind the last stripe. */
    CHECK(decode(&theirs, &other, stream->bytes, stream->len, stream->len, &all) == JBG_EOK && stream->len - all <= 8);
    CHECK(decode(&ours, &one, stream->bytes, stream->len, piece, &taken) == JBG_EOK);
    /* Ours may leave a height behind the last stripe, and the empty data entity behind that. */
    CHECK(taken == all || (of->announced > of->height && all - taken <= 8));
    check_rows(&theirs, &other, of);
    check_rows(&ours, &one, of);
    check_fields(&one, &other);
    own_dec_merge_planes(&one, 0, put, &merged[0]);
    jbg_dec_merge_planes(&other, 0, put, &merged[1]);
    CHECK(merged[0].calls == merged[1].calls && merged[0].len == merged[1].len);
    CHECK(!memcmp(merged[0].ends, merged[1].ends, sizeof merged[0].ends));
    CHECK(!memcmp(merged[0].bytes, merged[1].bytes, merged[0].len));
    free(merged[0].bytes);
    free(merged[1].bytes);
    own_dec_free(&one);
    jbg_dec_free(&other);
}

static unsigned long equal, shorter, moved, within;

/* Returns whether a call passed a stripe with a move behind it. */
static unsigned long has_move(const text *of)
{
    size_t n;
    for (n = 1; n < of->calls; n++) {
        const byte *at = of->bytes + of->ends[n] - 8;
        if (of->ends[n] - of->ends[n - 1] > 8 && at[0] == 0xff && at[1] == 6)
            return 1;
    }
    return 0;
}

/* Joins a call that passed a whole block with the next one: libjbig's blocks may be a byte shorter. */
static void join(text *of)
{
    size_t n, kept = 0, from = 0;
    for (n = 0; n < of->calls; n++) {
        CHECK(of->ends[n] - from <= JBG_BUFSIZE || n == 2);
        if (n + 1 == of->calls || of->ends[n] - from < JBG_BUFSIZE - 1)
            of->ends[kept++] = of->ends[n];
        from = of->ends[n];
    }
    of->calls = kept;
}

/* Removes the move that may follow the last stripe in a stream of libjbig's with JBG_DELAY_AT, before `behind` other bytes. */
static void cut_move(text *of, size_t behind)
{
    size_t at = of->len - behind - 8, n, kept = 0;
    if (of->len < behind + 38 || of->bytes[at] != 0xff || of->bytes[at + 1] != 6)
        return;
    memmove(of->bytes + at, of->bytes + at + 8, behind);
    of->len -= 8;
    for (n = 0; n < of->calls; n++) {
        if (of->ends[n] > at)
            of->ends[n] -= 8;
        if (kept == 0 || of->ends[n] > of->ends[kept - 1])
            of->ends[kept++] = of->ends[n];
    }
    of->calls = kept;
}

/* Compares the calls of data_out, up to zero bytes that libjbig writes before an end marker. */
static void compare(const image *of, text *a, text *b)
{
    size_t n, at = 0, from = 0;
    int has_zeros = 0;
    if (of->options & JBG_DELAY_AT)
        cut_move(b, of->announced > of->height ? 8 : 0);
    join(a);
    join(b);
    CHECK(a->calls > 0 && a->ends[0] == 20 && b->ends[0] == 20 && !memcmp(a->bytes, b->bytes, 20));
    /* Without JBG_DELAY_AT, libjbig moves within a stripe. */
    if (of->mx > 2 && !(of->options & JBG_DELAY_AT)) {
        within++;
        return;
    }
    CHECK(a->calls == b->calls);
    moved += has_move(a);
    for (n = 0; n < a->calls; at = a->ends[n], from = b->ends[n], n++) {
        size_t len = a->ends[n] - at, more = b->ends[n] - from - len, k;
        if (more > 0) {
            has_zeros = 1;
            CHECK(b->ends[n] - from > len && len >= 2);
            for (k = 0; k < more; k++)
                CHECK(b->bytes[from + len - 2 + k] == 0);
            CHECK(!memcmp(a->bytes + at + len - 2, b->bytes + b->ends[n] - 2, 2));
            len -= 2;
        }
        /* The empty data entity behind a height ends in SDNORM, with SDRST ours in SDRST. */
        if (n + 1 == a->calls && len == 2 && of->options & JBG_SDRST)
            CHECK(a->bytes[at + 1] == 3 && (b->bytes[from + 1] == 2 || b->bytes[from + 1] == 3));
        else
            CHECK(!memcmp(a->bytes + at, b->bytes + from, len));
    }
    if (has_zeros)
        shorter++;
    else
        equal++;
}

static void exchange(void)
{
    image of = random_image(1, 0);
    text a = encode(&ours, &of), b;
    read_back(&of, &a, a.len);
    read_back(&of, &a, 0);
    /* With stripes of one row, libjbig writes streams that it cannot read itself. */
    if (of.l0 == 1) {
        of.l0 = 2;
        free(a.bytes);
        a = encode(&ours, &of);
    }
    b = encode(&theirs, &of);
    compare(&of, &a, &b);
    read_back(&of, &b, b.len);
    read_back(&of, &b, 1);
    read_back(&of, &b, 0);
    if (of.announced > of.height) {
        byte *one = copy(b.bytes, b.len), *other = copy(b.bytes, b.len);
        CHECK(own_newlen(one, b.len) == JBG_EOK && jbg_newlen(other, b.len) == JBG_EOK);
        CHECK(!memcmp(one, other, b.len) && memcmp(one, b.bytes, b.len) != 0);
        free(one);
        free(other);
    }
    free(a.bytes);
    free(b.bytes);
    drop(&of);
}

/* Broken streams */

static void decode_any(const byte *stream, size_t len)
{
    struct jbg_dec_state s;
    byte *bytes = copy(stream, len), more[3] = {0xff, 0x02, 0x11};
    text merged;
    size_t taken, cnt;
    int code;
    memset(&merged, 0, sizeof merged);
    /* The greatest size that this test has the time for: 65,535 by 255 pixels. */
    if (len > 10)
        bytes[4] = bytes[5] = bytes[8] = bytes[9] = bytes[10] = 0;
    code = decode(&ours, &s, bytes, len, roll(2) ? len : 0, &taken);
    CHECK(strlen(own_strerror(code)) > 0);
    CHECK(own_dec_getheight(&s) < 256 && own_dec_getwidth(&s) < 65536);
    CHECK(!own_dec_getimage(&s, 1));
    CHECK(!own_dec_getimage(&s, 0) == (own_dec_getwidth(&s) == 0));
    if (own_dec_getsize_merged(&s) < 100000)
        own_dec_merge_planes(&s, 1, put, &merged);
    /* An error is returned again, and nothing is consumed. */
    if (code != JBG_EAGAIN && code != JBG_EOK)
        CHECK(own_dec_in(&s, more, sizeof more, &cnt) == code && cnt == 0);
    else
        own_dec_in(&s, more, sizeof more, NULL);
    own_dec_free(&s);
    own_dec_free(&s);
    own_newlen(bytes, len);
    free(merged.bytes);
    free(bytes);
}

/* For a stream that is cut off, the rows decoded are the image's, and the others are white. */
static void cut_off(const image *of, const text *whole)
{
    struct jbg_dec_state s;
    size_t taken, len = 20 + roll(whole->len - 20);
    unsigned long y, k;
    byte mask = (byte)(0xff << (of->row * 8 - of->width));
    int code = decode(&ours, &s, whole->bytes, len, roll(2) ? len : 0, &taken);
    const byte *made = own_dec_getimage(&s, 0), *row = of->rows;
    CHECK(made && (code == JBG_EAGAIN || (code == JBG_EOK && s.i == of->height)));
    for (y = 0; y < of->height; y++, made += of->row, row += of->row) {
        int is_white = 1, is_same = 1;
        for (k = 0; k < of->row; k++) {
            byte bits = k + 1 == of->row ? mask : 0xff;
            is_white = is_white && made[k] == 0;
            is_same = is_same && made[k] == (row[k] & bits);
        }
        CHECK(is_same || (is_white && y >= s.i));
    }
    own_dec_free(&s);
}

static void break_up(void)
{
    image of = random_image(1, 0);
    text whole = encode(&theirs, &of);
    size_t n, k;
    for (n = 0; of.l0 > 1 && n < 10; n++)
        cut_off(&of, &whole);
    for (n = 0; n < 20; n++) {
        byte *bytes = copy(whole.bytes, whole.len);
        size_t len = roll(3) ? whole.len : roll(whole.len + 1), from = n < 3 || whole.len == 20 ? 0 : 20;
        for (k = n < 15 ? 1 + roll(4) : 0; k > 0; k--)
            bytes[from + roll(whole.len - from)] = (byte)(roll(3) ? roll(256) : roll(2) ? 0xff : roll(8));
        for (k = n == 19 ? from : len; k < len; k++)
            bytes[k] = (byte)roll(256);
        decode_any(bytes, len);
        free(bytes);
    }
    free(whole.bytes);
    drop(&of);
}

/* Each function */

static void check_encoder(unsigned long x, unsigned long y)
{
    struct jbg_enc_state a, b;
    byte bytes[16] = {0}, *p = bytes;
    int n;
    own_enc_init(&a, x, y, 1, &p, put, &p);
    jbg_enc_init(&b, x, y, 1, &p, put, &p);
    for (n = 0; n < 40; n++) {
        CHECK(a.d == 0 && b.d == 0 && a.dl == b.dl && a.dh == b.dh && a.l0 == b.l0 && a.mx == b.mx && a.my == b.my);
        CHECK(a.xd == x && a.yd == y && a.yd1 == b.yd1 && a.planes == 1 && a.order == b.order && a.options == b.options);
        CHECK(a.lhp[0] == &p && a.data_out == put && a.file == &p && !a.comment);
        if (n < 20) {
            int order = (int)roll(40) - 10, options = (int)roll(2000) - 10, mx = (int)roll(150) - 22, my = (int)roll(150) - 22;
            unsigned long l0 = roll(3);
            own_enc_options(&a, order, options, l0, mx, my);
            jbg_enc_options(&b, order, options, l0, mx, my);
        } else if (n < 30) {
            int dl = (int)roll(3) - 1, dh = (int)roll(3) - 1;
            CHECK(own_enc_lrange(&a, dl, dh) == jbg_enc_lrange(&b, dl, dh));
        } else {
            own_enc_layers(&a, 0);
            jbg_enc_layers(&b, 0);
            own_enc_layers(&a, -1);
            own_enc_layers(&a, 32);
        }
    }
    CHECK(own_enc_lrlmax(&a, x, y) == 0 && jbg_enc_lrlmax(&b, x, y) == 0);
    CHECK(a.l0 == b.l0);
    /* Layers are not chosen. */
    own_enc_layers(&a, 3);
    CHECK(own_enc_lrlmax(&a, 1, 1) == 0 && a.d == 0 && a.dh == 0);
    own_enc_free(&a);
    jbg_enc_free(&b);
}

/* An image that cannot be written is a stream that was aborted. */
static void check_refused(unsigned long x, unsigned long y, int planes, int d, size_t comment_len)
{
    struct jbg_enc_state s;
    byte bytes[16] = {0}, *p[2] = {bytes, bytes};
    text stream;
    memset(&stream, 0, sizeof stream);
    own_enc_init(&s, x, y, planes, p, put, &stream);
    s.d = d;
    s.comment = comment_len ? bytes : NULL;
    s.comment_len = comment_len;
    own_enc_out(&s);
    CHECK(stream.len == 2 && stream.bytes[0] == 0xff && stream.bytes[1] == 4);
    own_enc_free(&s);
    free(stream.bytes);
}

static void check_planes(void)
{
    unsigned long x = 1 + roll(40), y = 1 + roll(9);
    int has = 1 + (int)roll(16), used = 1 + (int)roll(18), gray = (int)roll(2), n;
    size_t bytes = (size_t)(has + 7) / 8 * x * y, row = (x + 7) / 8 * y;
    byte *src = room(bytes), *a[18], *b[18];
    /* Bits above those of the planes are 0. */
    for (n = 0; n < (int)bytes; n++)
        src[n] = (byte)(has % 8 > 0 && (has < 8 || n % 2 == 0) ? roll(1ul << has % 8) : roll(256));
    for (n = 0; n < 18; n++) {
        a[n] = memset(room(row), n, row);
        b[n] = memset(room(row), n, row);
    }
    own_split_planes(x, y, has, used, src, a, gray);
    jbg_split_planes(x, y, has, used, src, b, gray);
    for (n = 0; n < 18; n++) {
        CHECK(!memcmp(a[n], b[n], row));
        free(a[n]);
        free(b[n]);
    }
    free(src);
}

/* The bytes of both libraries after a move through `internal`, whose order each library chooses. */
static void check_tables(void)
{
    byte *table = room(1728), *made = room(1728);
    char *internal = room(6912);
    int n;
    for (n = 0; n < 1728; n++)
        table[n] = (byte)roll(256);
    own_dppriv2int(internal, table);
    own_int2dppriv(made, internal);
    CHECK(!memcmp(table, made, 1728));
    free(table);
    free(made);
    free(internal);
}

/* A stream of one row of eight pixels: the header, and a stripe without code. */
static const byte small[] = {0, 0, 1, 0, 0, 0, 0, 8, 0, 0, 0, 1, 0, 0, 0, 1, 0, 0, 0, 0, 0xff, 2};

/* The code for that stream with one other byte in its header. */
static void check_header(size_t at, byte value, int our_code, int their_code)
{
    byte stream[sizeof small];
    struct jbg_dec_state s;
    memcpy(stream, small, sizeof small);
    stream[at] = value;
    own_dec_init(&s);
    CHECK((own_dec_in(&s, stream, sizeof stream, NULL) & ~0xf) == our_code);
    own_dec_free(&s);
    jbg_dec_init(&s);
    CHECK((jbg_dec_in(&s, stream, sizeof stream, NULL) & ~0xf) == their_code);
    jbg_dec_free(&s);
}

static void check_headers(void)
{
    check_header(0, 0, JBG_EOK, JBG_EOK);
    check_header(0, 1, JBG_EIMPL, JBG_EINVAL);
    check_header(1, 1, JBG_EIMPL, JBG_EAGAIN);
    check_header(2, 0, JBG_EIMPL, JBG_EINVAL);
    check_header(2, 2, JBG_EIMPL, JBG_EAGAIN);
    check_header(3, 1, JBG_EINVAL, JBG_EINVAL);
    check_header(7, 0, JBG_EINVAL, JBG_EINVAL);
    check_header(11, 0, JBG_EINVAL, JBG_EINVAL);
    check_header(15, 0, JBG_EINVAL, JBG_EINVAL);
    check_header(16, 128, JBG_EINVAL, JBG_EINVAL);
    check_header(18, 0x10, JBG_EINVAL, JBG_EINVAL);
    check_header(18, 1, JBG_EOK, JBG_EINVAL);
    check_header(19, 0x80, JBG_EINVAL, JBG_EINVAL);
    check_header(19, 6, JBG_EIMPL, JBG_EAGAIN);
    check_header(19, 0x17, JBG_EOK, JBG_EOK);
    check_header(20, 0, JBG_EAGAIN, JBG_EAGAIN);
    check_header(21, 4, JBG_EABORT, JBG_EABORT);
    check_header(21, 9, JBG_EMARKER, JBG_EMARKER);
}

/* A decoder before, within and behind its stream. */
static void check_decoder(void)
{
    struct jbg_dec_state a, b;
    byte stream[sizeof small];
    size_t one, other;
    memcpy(stream, small, sizeof small);
    own_dec_init(&a);
    jbg_dec_init(&b);
    own_dec_maxsize(&a, 1, 1);
    jbg_dec_maxsize(&b, 1, 1);
    CHECK(own_dec_in(&a, stream, 0, &one) == JBG_EAGAIN && one == 0);
    CHECK(!own_dec_getimage(&a, 0) && !jbg_dec_getimage(&b, 0));
    CHECK(own_dec_getwidth(&a) == 0 && own_dec_getheight(&a) == 0 && own_dec_getsize(&a) == 0);
    CHECK(jbg_dec_getwidth(&b) == 0 && jbg_dec_getheight(&b) == 0 && jbg_dec_getsize(&b) == 0);
    CHECK(own_dec_in(&a, stream, 20, &one) == JBG_EAGAIN && jbg_dec_in(&b, stream, 20, &other) == JBG_EAGAIN);
    CHECK(one == 20 && other == 20 && a.bie_len == 20 && b.bie_len == 20);
    check_fields(&a, &b);
    CHECK(own_dec_getimage(&a, 0) && own_dec_getimage(&a, 0)[0] == 0 && !own_dec_getimage(&a, 1));
    CHECK(own_dec_in(&a, stream + 20, 2, &one) == JBG_EOK && jbg_dec_in(&b, stream + 20, 2, &other) == JBG_EOK);
    CHECK(one == 2 && other == 2 && a.bie_len == 0 && b.bie_len == 0);
    CHECK(own_dec_getimage(&a, 0)[0] == jbg_dec_getimage(&b, 0)[0]);
    /* Another stream does not continue this one. */
    CHECK(own_dec_in(&a, stream, 22, &one) == (JBG_ENOCONT) && one == 20);
    CHECK((jbg_dec_in(&b, stream, 22, &other) & ~0xf) == JBG_ENOCONT && other == 20);
    CHECK(own_dec_in(&a, stream, 22, &one) == JBG_ENOCONT && one == 0);
    CHECK(own_dec_getheight(&a) == 1);
    own_dec_free(&a);
    jbg_dec_free(&b);
}

/* The code for a stream of two rows whose height may come late, with other bytes behind its stripe, in pieces. */
static void check_behind(const char *more, size_t len, size_t piece, int code, unsigned long height)
{
    static const byte late[] = {0, 0, 1, 0, 0, 0, 0, 8, 0, 0, 0, 2, 0, 0, 0, 2, 0, 0, 0, 0x20, 0xff, 2};
    byte stream[64];
    struct jbg_dec_state s;
    size_t taken;
    memcpy(stream, late, sizeof late);
    memcpy(stream + sizeof late, more, len);
    CHECK((decode(&ours, &s, stream, sizeof late + len, piece, &taken) & ~0xf) == code);
    CHECK(own_dec_getheight(&s) == height && own_dec_getimage(&s, 0));
    own_dec_free(&s);
}

static void check_moves(void)
{
    byte stream[] = {0, 0, 1, 0, 0,    0, 0, 8, 0, 0, 0, 1, 0, 0,    0, 1, 0, 0, 0, 0, 0xff, 6, 0,    0, 0,
                     0, 0, 0, 0xff, 6, 0, 0, 0, 0, 0, 0, 0xff, 2};
    struct jbg_dec_state s;
    own_dec_init(&s);
    CHECK((own_dec_in(&s, stream, sizeof stream, NULL) & ~0xf) == JBG_EIMPL);
    own_dec_free(&s);
    jbg_dec_init(&s);
    CHECK(jbg_dec_in(&s, stream, sizeof stream, NULL) == JBG_EOK);
    jbg_dec_free(&s);
}

static void check_range(void)
{
    struct jbg_enc_state s;
    byte row = 0, *p = &row;
    own_enc_init(&s, 8, 1, 1, &p, put, NULL);
    own_enc_options(&s, -1, -1, 0, 1000, 1000);
    CHECK(s.mx == 127 && s.my == 0);
}

static void check_calls(void)
{
    unsigned long n;
    int code;
    for (n = 0; n < 3000; n++)
        check_encoder(1 + roll(roll(2) ? 128 : 1000000), 1);
    for (n = 1; n < 6000; n++)
        check_encoder(1 + roll(128) % 8, n % 16 + 1);
    for (n = 0; n < 2000; n++)
        check_planes();
    check_tables();
    for (code = -300; code < 300; code++)
        CHECK(strlen(own_strerror(code)) > 0);
    for (n = 0; n < 1000; n++) {
        unsigned long x = roll(2) ? ULONG_MAX - roll(100) : roll(3000);
        code = (int)roll(32);
        CHECK(own_ceil_half(x, code) == jbg_ceil_half(x, code));
    }
    CHECK(own_ceil_half(5, -1) == 5 && own_ceil_half(5, 64) == 1 && own_ceil_half(0, 64) == 0);
    check_refused(8, 1, 2, 0, 0);
    check_refused(8, 1, 0, 0, 0);
    check_refused(8, 1, 1, 1, 0);
    check_refused(0, 1, 1, 0, 0);
    check_refused(8, 0, 1, 0, 0);
    check_refused(1048577, 1, 1, 0, 0);
    check_refused(ULONG_MAX, 1, 1, 0, 0);
    check_refused(8, ULONG_MAX, 1, 0, 0);
    check_refused(8, 1, 1, 0, (size_t)-1);
    check_headers();
    check_decoder();
    check_behind("", 0, 100, JBG_EOK, 2);
    check_behind("", 0, 1, JBG_EOK, 2);
    check_behind("\377\5\0\0\0\1\377\2", 8, 100, JBG_EOK, 1);
    check_behind("\377\5\0\0\0\1\377\2", 8, 22, JBG_EOK, 2);
    check_moves();
    check_range();
    for (n = 0; n < 1000; n++) {
        unsigned long l0 = 1 + roll(200), y = roll(5000), d = roll(8);
        CHECK(own_stripes(l0, y, d) == jbg_stripes(l0, y, d));
    }
    CHECK(own_stripes(0, 7, 0) == 0 && !own_next_pscdms((byte *)about, 5));
}

/* Memory */

static void check_memory(void)
{
    image of = random_image(1, 0);
    text whole, stream;
    struct jbg_dec_state s;
    size_t taken;
    int code, is_done;
    of.announced = of.height + 9;
    fails = 0;
    whole = encode(&ours, &of);
    for (fails = 1, is_done = 0; !is_done; fails++) {
        struct jbg_enc_state e;
        byte *plane = of.rows;
        allocations = 0;
        memset(&stream, 0, sizeof stream);
        own_enc_init(&e, of.width, of.height, 1, &plane, put, &stream);
        own_enc_out(&e);
        is_done = allocations < fails;
        /* Two allocations are for the stream with libjbig's moves, and two for another that may be shorter. */
        if (fails <= 2)
            CHECK(stream.len == 2 && stream.bytes[0] == 0xff && stream.bytes[1] == 4);
        else
            CHECK(stream.len > 22);
        free(stream.bytes);
    }
    CHECK(fails == 6);
    for (fails = 1, is_done = 0; !is_done; fails++) {
        allocations = 0;
        code = decode(&ours, &s, whole.bytes, whole.len, whole.len, &taken);
        is_done = allocations < fails;
        CHECK(code == (is_done ? JBG_EOK : JBG_ENOMEM));
        own_dec_getimage(&s, 0);
        own_dec_free(&s);
    }
    CHECK(fails > 3);
    fails = 0;
    free(whole.bytes);
    drop(&of);
}

/* JBIG-KIT beside */

static void check_planes_of(const struct jbg_dec_state *a, const struct jbg_dec_state *b, int planes)
{
    int n;
    CHECK(own_dec_getwidth(a) == jbg_dec_getwidth(b) && own_dec_getheight(a) == jbg_dec_getheight(b));
    CHECK(own_dec_getsize(a) == jbg_dec_getsize(b) && own_dec_getsize_merged(a) == jbg_dec_getsize_merged(b));
    for (n = 0; n < planes; n++)
        CHECK(!memcmp(own_dec_getimage(a, n), jbg_dec_getimage(b, n), jbg_dec_getsize(b)));
}

static void hand_over(void)
{
    int planes = 1 + (int)roll(4), layers = (int)roll(4);
    image of = random_image(planes, layers);
    text a, b;
    struct jbg_dec_state s, other;
    size_t taken, n;
    of.mx = 0;
    if (of.l0 == 1)
        of.l0 = 2;
    of.options &= ~JBG_VLENGTH;
    of.order = JBG_ILEAVE | JBG_SMID;
    of.announced = of.height;
    a = encode(&ours, &of);
    b = encode(&theirs, &of);
    if (planes > 1 || layers > 0)
        CHECK(a.len == b.len && !memcmp(a.bytes, b.bytes, a.len) && a.calls == b.calls);
    CHECK(decode(&theirs, &other, b.bytes, b.len, b.len, &taken) == JBG_EOK);
    for (n = 0; n < 3; n++) {
        CHECK(decode(&ours, &s, b.bytes, b.len, n == 0 ? b.len : n == 1 ? 1 : 0, &taken) == JBG_EOK && taken == b.len);
        check_planes_of(&s, &other, planes);
        own_dec_free(&s);
    }
    jbg_dec_free(&other);
    free(a.bytes);
    free(b.bytes);
    drop(&of);
}

int main(int count, char **words)
{
    unsigned long items;
    if (count < 2)
        return 2;
    about = words[1];
    dice = count > 2 ? strtoul(words[2], NULL, 10) : 1;
    items = count > 3 ? strtoul(words[3], NULL, 10) : 1;
    for (item = 0; item < items; item++) {
        if (!strcmp(about, "calls"))
            check_calls();
        else if (!strcmp(about, "same"))
            exchange();
        else if (!strcmp(about, "broken"))
            break_up();
        else if (!strcmp(about, "memory"))
            check_memory();
        else if (!strcmp(about, "kit"))
            hand_over();
        else
            return 2;
    }
    if (!strcmp(about, "same"))
        printf("%lu streams are the same, %lu but for zero bytes at the end of a code, %lu of these with moves; %lu may have moves "
               "within a stripe\n", equal, shorter, moved, within);
    else
        printf("%s: done\n", about);
    return 0;
}
