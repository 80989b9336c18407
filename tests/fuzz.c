/* Calls the library with streams that libFuzzer generates, and stops if a call breaks its
   promise, or if JBIG-KIT's library decodes another image than t85_decode from a stream that
   both accept. The image is encoded again, by both, by an encoder that receives its rows one by
   one, and by one that also receives offsets. The buffers of the calls adjoin inaccessible pages,
   at their end or at their front. */
#define _GNU_SOURCE
#include "t85.h"

#include <jbig85.h>
#include <stdio.h>
#include <stdlib.h>
#include <string.h>
#include <sys/mman.h>

#define PAGE 4096
#define PLACE ((size_t)512 << 10)
#define FILL 0xA5

#define CHECK(claim) ((claim) ? (void)0 : broken(#claim, __LINE__))

size_t LLVMFuzzerMutate(uint8_t *data, size_t size, size_t most);

typedef struct {
    uint8_t *base, *bytes;
    size_t len;
} place;

static place stream, window, image, rows, again, code, theirs, comment, lines, state;
static uint64_t dice;
static bool at_front;

static void broken(const char *claim, int line)
{
    fprintf(stderr, "line %d: not so: %s\n", line, claim);
    abort();
}

/* Returns a number below `count`, from a sequence that the input determines. */
static uint32_t roll(uint32_t count)
{
    dice = dice * 6364136223846793005u + 1442695040888963407u;
    return (uint32_t)(dice >> 33) % count;
}

/* Returns a buffer of this length within a place. */
static void lend(place *of, size_t len)
{
    if (!of->base) {
        of->base = mmap(NULL, PLACE + 2 * PAGE, PROT_NONE, MAP_PRIVATE | MAP_ANONYMOUS, -1, 0);
        if (of->base == MAP_FAILED || mprotect(of->base + PAGE, PLACE, PROT_READ | PROT_WRITE))
            broken("memory", __LINE__);
    }
    CHECK(len <= PLACE);
    of->bytes = of->base + PAGE + (at_front ? 0 : PLACE - len);
    of->len = len;
}

static uint8_t decode(place *to, uint32_t max_rows, size_t *written)
{
    *written = SIZE_MAX;
    return t85_decode(stream.bytes, stream.len, max_rows, window.bytes, window.len, to->bytes, to->len, written);
}

static uint8_t decode_rows(uint32_t max_rows, size_t stride, uint32_t *count)
{
    *count = UINT32_MAX;
    return t85_decode_rows(stream.bytes, stream.len, max_rows, stride, window.bytes, window.len, rows.bytes, rows.len,
                           count);
}

/* Compares the output of t85_decode in a buffer that is too small. */
static void in_less_room(size_t written)
{
    size_t less;
    lend(&again, roll((uint32_t)written));
    CHECK(decode(&again, UINT32_MAX, &less) == T85_NO_ROOM);
    CHECK(less == again.len && !memcmp(again.bytes, image.bytes, less));
}

/* Compares the rows behind the PBM's header with those of t85_decode_rows with a stride. */
static void as_rows(uint8_t status, const uint8_t *packed, size_t row, size_t count)
{
    size_t stride = row + roll(9), all = count ? (count - 1) * stride + row : 0, fit = count, y, i;
    uint32_t written;
    if (all + 8 > PLACE)
        return;
    lend(&rows, roll(2) ? all + roll(9) : roll((uint32_t)all + 1));
    if (rows.len < all)
        fit = rows.len < row ? 0 : (rows.len - row) / stride + 1;
    memset(rows.bytes, FILL, rows.len);
    CHECK(decode_rows(UINT32_MAX, stride, &written) == (fit < count ? T85_NO_ROOM : status));
    CHECK(written == fit);
    for (y = 0; y < fit; y++) {
        CHECK(!memcmp(rows.bytes + y * stride, packed + y * row, row));
        for (i = y * stride + row; i < (y + 1) * stride && i < rows.len; i++)
            CHECK(rows.bytes[i] == FILL);
    }
}

typedef struct {
    size_t row;
    uint32_t count;
} their_rows;

static int take_row(const struct jbg85_dec_state *decoder, unsigned char *start, size_t len, unsigned long y, void *to)
{
    their_rows *taken = to;
    (void)decoder;
    if (len != taken->row || (y + 1) * len > PLACE)
        return 1;
    memcpy(theirs.bytes + y * len, start, len);
    if (y + 1 > taken->count)
        taken->count = (uint32_t)y + 1;
    return 0;
}

/* Decodes the stream with JBIG-KIT, if it also accepts the stream. */
static void as_theirs(const uint8_t *packed, uint32_t width, uint32_t height)
{
    static uint8_t held[3 * T85_MOST_WIDTH / 8];
    struct jbg85_dec_state decoder;
    their_rows taken = {t85_row_bytes(width), 0};
    size_t count;
    int told, late;
    lend(&theirs, PLACE);
    jbg85_dec_init(&decoder, held, 3 * taken.row, take_row, &taken);
    told = jbg85_dec_in(&decoder, stream.bytes, stream.len, &count);
    if (told == JBG_EAGAIN)
        told = jbg85_dec_end(&decoder);
    if (told != JBG_EOK || getenv("FUZZ_ALONE"))
        return;
    /* JBIG-KIT returns rows before it has read the height behind them, and loses some if the
       height follows the last row. It also accepts a height behind the last row that follows a
       move or an error, where t85_decode no longer looks for one. */
    late = stream.bytes[19] & T85_VARIABLE_HEIGHT;
    if (jbg85_dec_getheight(&decoder) > height ||
        (!late && (jbg85_dec_getheight(&decoder) < height || taken.count != height)) ||
        memcmp(theirs.bytes, packed, taken.row * (taken.count < height ? taken.count : height))) {
        fprintf(stderr, "JBIG-KIT: %lu rows, %u of them written; here %u\n", jbg85_dec_getheight(&decoder), taken.count,
                height);
        CHECK(!"the image that JBIG-KIT reads");
    }
}

static void put(unsigned char *start, size_t len, void *to)
{
    size_t *count = to;
    CHECK(*count + len <= PLACE);
    memcpy(theirs.bytes + *count, start, len);
    *count += len;
}

/* Returns the stream of an image by JBIG-KIT's encoder. */
static size_t encoded_by_theirs(const uint8_t *packed, uint32_t width, uint32_t height, const t85_options *options)
{
    struct jbg85_enc_state encoder;
    size_t row = t85_row_bytes(width), count = 0;
    uint32_t y;
    unsigned char *at = (unsigned char *)packed;
    lend(&theirs, PLACE);
    jbg85_enc_init(&encoder, width, height, put, &count);
    jbg85_enc_options(&encoder, (int)options->options, options->stripe_rows, (int)options->most_offset);
    for (y = 0; y < height; y++, at += row)
        jbg85_enc_lineout(&encoder, at, y > 0 ? at - row : NULL, y > 1 ? at - 2 * row : NULL);
    return count;
}

/* A stream by JBIG-KIT's encoder is decoded to its image, and is no shorter if the adaptive
   pixel cannot move. */
static void theirs_again(uint32_t width, uint32_t height, const t85_options *options, size_t written)
{
    size_t row = t85_row_bytes(width), count = encoded_by_theirs(rows.bytes, width, height, options), back;
    CHECK(options->most_offset || written <= count);
    lend(&stream, count);
    memmove(stream.bytes, theirs.bytes, count);
    lend(&image, 22 + row * height);
    CHECK(decode(&image, UINT32_MAX, &back) == T85_OK);
    CHECK(!memcmp(image.bytes + back - row * height, rows.bytes, row * height));
}

/* Whether nothing was written to the buffers of a call. */
static void untouched(const place *of)
{
    size_t i;
    for (i = 0; i < of->len; i++)
        CHECK(of->bytes[i] == FILL);
}

/* Passes a row to the encoder, or ends it if there is none, with a buffer of this size. */
static uint8_t put_row(t85_encoder *encoder, const uint8_t *row, size_t row_len, size_t room, size_t *written)
{
    lend(&again, room);
    memset(again.bytes, FILL, room);
    *written = SIZE_MAX;
    return row ? t85_encode_row(encoder, row, row_len, lines.bytes, lines.len, again.bytes, room, written)
               : t85_encode_end(encoder, lines.bytes, lines.len, again.bytes, room, written);
}

/* A rejected call leaves encoder and window unchanged, and writes nothing. */
static void refused(t85_encoder *encoder, const uint8_t *row, size_t row_len, size_t room, uint8_t wanted)
{
    static uint8_t window_kept[PLACE];
    t85_encoder kept = *encoder;
    size_t written;
    memcpy(window_kept, lines.bytes, lines.len);
    CHECK(put_row(encoder, row, row_len, room, &written) == wanted && written == 0);
    CHECK(!memcmp(&kept, encoder, sizeof kept) && !memcmp(window_kept, lines.bytes, lines.len));
    untouched(&again);
}

/* Encodes the same image row by row, in buffers of exactly the reported size, and expects the
   same stream: the `written` bytes of `code`. */
static void by_rows(uint32_t width, uint32_t height, const t85_options *options, size_t written)
{
    size_t row = t85_row_bytes(width), at, more, told;
    uint32_t most = options->announces_height ? height + roll(options->announced_height - height + 1) : height, y;
    t85_encoder *encoder;
    lend(&state, sizeof *encoder);
    encoder = (t85_encoder *)state.bytes;
    lend(&lines, 3 * row + roll(9));
    lend(&again, options->has_comment ? 26 + comment.len : 20);
    memset(state.bytes, FILL, state.len);
    CHECK(t85_encode_start(encoder, sizeof *encoder, width, most, options, comment.bytes, comment.len, lines.bytes,
                           lines.len, again.bytes, again.len, &at) == T85_OK);
    CHECK(at == again.len && !memcmp(again.bytes, code.bytes, at));
    for (y = 0; y <= height; y++) {
        const uint8_t *pixels = y < height ? rows.bytes + y * row : NULL;
        told = (size_t)t85_encode_room(encoder);
        CHECK(t85_encode_rows_left(encoder) == most - y && told > 4 * width);
        CHECK(told <= 2 * t85_encode_bound(width, height, options, comment.len));
        if (roll(4) == 0) {
            refused(encoder, pixels, row, roll((uint32_t)told), T85_NO_ROOM);
            if (pixels)
                refused(encoder, pixels, row - 1, told, T85_SHORT_ROW);
            if (y == 0 || (y < most && !options->announces_height))
                refused(encoder, NULL, 0, told, T85_ROWS_MISSING);
        }
        CHECK(put_row(encoder, pixels, row, told, &more) == T85_OK);
        CHECK(more <= told && more <= written - at && !memcmp(again.bytes, code.bytes + at, more));
        at += more;
    }
    CHECK(at == written && t85_encode_rows_left(encoder) == 0 && t85_encode_room(encoder) == 0);
    refused(encoder, rows.bytes, row, 100, T85_NO_MORE_ROWS);
    refused(encoder, NULL, 0, 100, T85_NO_MORE_ROWS);
}

/* Makes an encoder of arbitrary bytes, or of a real one's with some inverted, over a window of
   arbitrary bytes. */
static void encoder_of_any_bytes(uint32_t width, uint32_t height, const t85_options *options)
{
    size_t row = t85_row_bytes(width), calls = roll(20), i, written, told;
    t85_encoder *encoder;
    uint8_t status;
    lend(&state, sizeof *encoder);
    encoder = (t85_encoder *)state.bytes;
    lend(&lines, 3 * row + roll(9));
    lend(&again, 100);
    for (i = 0; i < lines.len; i++)
        lines.bytes[i] = (uint8_t)roll(256);
    CHECK(t85_encode_start(encoder, sizeof *encoder, width, height, options, comment.bytes, comment.len, lines.bytes,
                           lines.len, again.bytes, again.len, &written) == T85_OK);
    if (roll(2)) {
        /* The fields before the context states are the first 192 bytes. */
        for (i = roll(9); i > 0; i--)
            state.bytes[roll(roll(4) ? 192 : (uint32_t)state.len)] = (uint8_t)(roll(2) ? roll(4) : roll(256));
        if (roll(2))
            for (i = 192; i < state.len; i++)
                state.bytes[i] = (uint8_t)roll(256);
    } else {
        for (i = roll(2) ? 4 * roll(8) : 0; i < state.len; i++)
            state.bytes[i] = (uint8_t)(roll(3) ? roll(256) : roll(4));
    }
    while (calls--) {
        told = (size_t)t85_encode_room(encoder);
        (void)t85_encode_rows_left(encoder);
        if (told > PLACE)
            return;
        told = roll(4) ? told : roll((uint32_t)told + 1);
        status = put_row(encoder, roll(8) ? rows.bytes : NULL, roll(8) ? rows.len : roll((uint32_t)rows.len + 1), told,
                         &written);
        CHECK(written <= told && (status == T85_OK || written == 0));
        for (i = written; i < told && status != T85_OK; i++)
            CHECK(again.bytes[i] == FILL);
    }
}

/* Chooses the offset before row y, at random, by t85_best_offset, by t85_choice_offset, or not at all. */
static void choose(t85_encoder *encoder, t85_choice *choice, uint32_t y, uint32_t height, const t85_options *options)
{
    size_t row = lines.len / 3;
    uint32_t least = options->options & T85_TWO_LINES ? 5 : 3, offset = roll(2) ? roll(256) : 0;
    bool allowed = offset == 0 || (offset >= least && offset <= options->most_offset);
    uint8_t wanted = y == height ? T85_NO_MORE_ROWS : y % options->stripe_rows ? T85_IN_STRIPE : T85_OK, best = 200;
    if (roll(3) == 0)
        CHECK(t85_encode_offset(encoder, (uint8_t)offset) == (wanted || allowed ? wanted : T85_OFFSET_LARGE));
    if (roll(3) == 0) {
        lend(&again, lines.len);
        CHECK(t85_best_offset(encoder, rows.bytes + y * row, rows.len - y * row, lines.bytes, lines.len, again.bytes,
                              again.len, &best) == wanted);
        CHECK(wanted ? best == 200 : t85_encode_offset(encoder, best) == T85_OK);
    }
    if (roll(3) == 0) {
        best = 200;
        CHECK(t85_choice_offset(choice, (uint8_t)offset, &best) == (allowed ? T85_OK : T85_OFFSET_LARGE));
        CHECK(allowed ? t85_encode_offset(encoder, best) == wanted : best == 200);
    }
}

/* Encodes the same image with offsets that the caller chooses; it is decoded again. */
static void by_choice(uint32_t width, uint32_t height, const t85_options *options)
{
    static uint8_t chosen[2 * PLACE];
    size_t row = t85_row_bytes(width), at, more;
    t85_encoder *encoder;
    t85_choice choice;
    uint32_t y;
    lend(&state, sizeof *encoder);
    encoder = (t85_encoder *)state.bytes;
    CHECK(t85_choice_start(&choice, sizeof choice, width, options) == T85_OK);
    lend(&lines, 3 * row);
    CHECK(t85_encode_start(encoder, sizeof *encoder, width, height, options, comment.bytes, comment.len, lines.bytes,
                           lines.len, chosen, sizeof chosen, &at) == T85_OK);
    for (y = 0; y <= height; y++) {
        choose(encoder, &choice, y, height, options);
        if (y < height)
            CHECK(t85_choice_row(&choice, rows.bytes + y * row, row, y ? rows.bytes + (y - 1) * row : NULL, y ? row : 0) ==
                  T85_OK);
        CHECK(put_row(encoder, y < height ? rows.bytes + y * row : NULL, row, (size_t)t85_encode_room(encoder), &more) ==
              T85_OK);
        CHECK(more <= sizeof chosen - at);
        memcpy(chosen + at, again.bytes, more);
        at += more;
    }
    CHECK(at <= t85_encode_bound(width, height, options, comment.len));
    lend(&stream, at);
    memcpy(stream.bytes, chosen, at);
    lend(&image, 22 + row * height);
    CHECK(decode(&image, UINT32_MAX, &more) == T85_OK);
    CHECK(!memcmp(image.bytes + more - row * height, rows.bytes, row * height));
    as_theirs(rows.bytes, width, height);
}

/* Encodes an image with any options, in a buffer that is large enough, and in one that is too
   small. Decodes it again, also with JBIG-KIT's decoder. */
static void encode_again(const uint8_t *packed, uint32_t width, uint32_t height)
{
    t85_options options = T85_OPTIONS;
    size_t row = t85_row_bytes(width), written, less;
    options.options = roll(2) * T85_TYPICAL + roll(2) * T85_TWO_LINES;
    options.stripe_rows = 1 + roll(roll(2) ? 4 : 200);
    options.most_offset = roll(2) ? 0 : roll(128);
    options.reset = roll(4) == 0;
    options.announces_height = roll(4) == 0;
    options.announced_height = height + roll(3) * roll(100);
    options.has_comment = roll(4) == 0;
    lend(&comment, roll(20));
    lend(&rows, row * height);
    memmove(rows.bytes, packed, row * height);
    lend(&code, PLACE);
    CHECK(t85_encode(width, height, rows.bytes, rows.len, row, &options, comment.bytes, comment.len, window.bytes,
                     window.len, code.bytes, code.len, &written) == T85_OK);
    CHECK(written <= t85_encode_bound(width, height, &options, comment.len));
    lend(&again, roll((uint32_t)written));
    CHECK(t85_encode(width, height, rows.bytes, rows.len, row, &options, comment.bytes, comment.len, window.bytes,
                     window.len, again.bytes, again.len, &less) == T85_NO_ROOM);
    CHECK(less == again.len && !memcmp(again.bytes, code.bytes, less));
    by_rows(width, height, &options, written);
    encoder_of_any_bytes(width, height, &options);
    lend(&stream, written);
    memmove(stream.bytes, code.bytes, written);
    lend(&image, 22 + row * height);
    CHECK(decode(&image, UINT32_MAX, &less) == T85_OK);
    CHECK(!memcmp(image.bytes + less - row * height, rows.bytes, row * height));
    as_theirs(rows.bytes, width, height);
    if (!options.reset && !options.announces_height && !options.has_comment)
        theirs_again(width, height, &options, written);
    by_choice(width, height, &options);
}

/* libFuzzer keeps an input that sets a counter for the first time, as if it reached a new line
   of code. */
__attribute__((section("__libfuzzer_extra_counters"))) static uint8_t counters[1 << 14];

static unsigned size_class(uint64_t number)
{
    return number < 4 ? (unsigned)number : 4u + (number >= 16) + (number >= 200);
}

static void tell(uint8_t info, uint8_t status, size_t count, const t85_summary *summary)
{
    unsigned kind = status & 31;
    kind = kind * 7 + size_class(count);
    counters[kind]++;
    kind = (summary->options & 0x68u) + (info & 7u) + 300;
    counters[kind]++;
    if (info == T85_OK) {
        kind = size_class(summary->moves) * 7 + size_class(summary->comments);
        kind = kind * 7 + size_class(summary->entities);
        kind = kind * 4 + (summary->image_height != summary->height) * 2u + (summary->options & T85_TYPICAL ? 1u : 0u);
        counters[1024 + kind]++;
    }
}

/* Writes the header of the PBM that t85_decode wrote, with the stream's height. Returns its
   length. */
static size_t pbm_header(size_t written, const t85_header_fields *fields, uint8_t info, const t85_summary *summary,
                         uint32_t *height)
{
    char text[30];
    uint32_t width;
    size_t front = written < 22 ? written : 22;
    memcpy(text, image.bytes, front);
    text[front] = 0;
    CHECK(sscanf(text, "P4\n%u %u", &width, height) == 2);
    sprintf(text, "P4\n%u %u\n", width, *height);
    front = strlen(text);
    CHECK(written >= front && !memcmp(image.bytes, text, front));
    CHECK(width == fields->width && *height >= 1 && *height <= fields->height);
    if (info == T85_OK)
        CHECK(summary->width == width && summary->height == fields->height && summary->image_height == *height);
    if (!(fields->options & T85_VARIABLE_HEIGHT))
        CHECK(*height == fields->height);
    return front;
}

/* Decodes the same stream in pieces of any length: `count` rows, and the reported height. */
static void in_pieces(uint8_t status, const uint8_t *packed, size_t row, size_t count, uint32_t height)
{
    size_t at = 0, given = 0, len, taken, at_row;
    uint8_t told = T85_MORE;
    t85_decoder *decoder;
    lend(&lines, 3 * row + roll(9));
    lend(&state, sizeof *decoder);
    memset(lines.bytes, FILL, lines.len);
    memset(state.bytes, FILL, state.len);
    decoder = (t85_decoder *)state.bytes;
    CHECK(t85_decode_start(decoder, sizeof *decoder, UINT32_MAX) == T85_OK);
    while (told >= T85_HEADER_READ) {
        len = roll(2) ? roll(9) : roll(2000);
        len = len < stream.len - at ? len : stream.len - at;
        taken = 0;
        if (told == T85_MORE && at == stream.len)
            told = t85_decode_end(decoder, lines.bytes, lines.len, &at_row);
        else
            told = t85_decode_bytes(decoder, stream.bytes + at, len, lines.bytes, lines.len, &taken, &at_row);
        CHECK(taken <= len && (told != T85_MORE || taken == len));
        at += taken;
        if (told == T85_ROW && given < count)
            CHECK(!memcmp(lines.bytes + at_row, packed + given * row, row));
        given += told == T85_ROW;
    }
    CHECK(told == status && (status == T85_OK ? given >= count : given == count));
    CHECK(status != T85_OK || t85_decode_height(decoder) == height);
}

/* Makes a decoder of arbitrary bytes, which begin like those of one that is decoding rows of the
   stream. */
static void of_any_bytes(size_t row)
{
    uint32_t front[4] = {1, roll(4), roll(2) ? UINT32_MAX : roll(99), 0};
    size_t calls = roll(20), i, len, taken, at_row;
    uint8_t told;
    lend(&lines, 3 * row + roll(9));
    lend(&state, sizeof(t85_decoder));
    for (i = 0; i < lines.len; i++)
        lines.bytes[i] = (uint8_t)roll(256);
    for (i = 0; i < state.len; i++)
        state.bytes[i] = (uint8_t)(roll(3) ? roll(256) : roll(4));
    memcpy(state.bytes, front, sizeof front);
    memcpy(state.bytes + sizeof front, stream.bytes, 20);
    while (calls--) {
        len = roll((uint32_t)stream.len + 1);
        taken = 0;
        if (roll(8))
            told = t85_decode_bytes((t85_decoder *)state.bytes, stream.bytes + stream.len - len, len, lines.bytes,
                                    lines.len, &taken, &at_row);
        else
            told = t85_decode_end((t85_decoder *)state.bytes, lines.bytes, lines.len, &at_row);
        CHECK(taken <= len && (told != T85_ROW || at_row + row <= 3 * row));
    }
}

/* Checks that the parts follow one another, up to the end of the stream or to a part with its
   error. */
static void in_parts(uint8_t info, const t85_summary *summary)
{
    t85_facts facts = T85_FACTS;
    t85_part part = T85_PART;
    size_t at = 0;
    uint8_t told = t85_stream_facts(stream.bytes, stream.len, &facts);
    CHECK(told == info);
    while ((told = t85_next_part(stream.bytes, stream.len, &part)) == T85_OK) {
        CHECK(part.offset == at && part.len > 0 && part.len <= stream.len - at);
        at += part.len;
    }
    CHECK(told == (info == T85_OK ? T85_NO_MORE_PARTS : info));
    if (info == T85_OK)
        CHECK(part.offset == facts.stream_len && facts.stream_len <= stream.len && part.entities == summary->entities);
    else
        CHECK(part.offset == at && part.stripe == part.entities);
}

/* Reads a stream with a header: t85_decode agrees with t85_info, and each other call with
   t85_decode. */
static void decoded(const t85_header_fields *fields, uint8_t info, const t85_summary *summary)
{
    size_t row = t85_row_bytes(fields->width), written, other, front, count;
    uint32_t height;
    uint8_t status;
    lend(&window, 3 * row - 1);
    lend(&image, roll(50) ? 20000 : PLACE);
    CHECK(decode(&image, UINT32_MAX, &written) == T85_SHORT_WINDOW && written == 0);
    lend(&window, 3 * row);
    status = decode(&image, UINT32_MAX, &written);
    if (status == T85_NO_ROOM) {
        CHECK(written == image.len);
        return;
    }
    CHECK(status == info && written <= image.len);
    front = pbm_header(written, fields, info, summary, &height);
    count = (written - front) / row;
    CHECK((written - front) % row == 0 && (status == T85_OK ? count == height : count <= height));
    tell(info, status, count, summary);
    in_less_room(written);
    as_rows(status, image.bytes + front, row, count);
    in_pieces(status, image.bytes + front, row, count, height);
    of_any_bytes(row);
    CHECK(decode(&image, height, &other) == status && other == written);
    lend(&again, PLACE);
    CHECK(decode(&again, roll(2) ? height - 1 : roll(height), &other) == T85_TOO_MANY_ROWS && other == 0);
    if (status == T85_OK) {
        as_theirs(image.bytes + front, fields->width, height);
        if (row * height < 10000)
            encode_again(image.bytes + front, fields->width, height);
    }
}

int LLVMFuzzerTestOneInput(const uint8_t *data, size_t size)
{
    t85_header_fields fields;
    t85_summary summary = {0};
    uint8_t head, info;
    size_t written, i;
    if (size > PLACE)
        return 0;
    dice = 85;
    for (i = 0; i < size; i++)
        dice = (dice ^ data[i]) * 1099511628211u;
    at_front = roll(2);
    lend(&stream, size);
    memcpy(stream.bytes, data, size);
    head = t85_header(stream.bytes, size, &fields);
    info = t85_info(stream.bytes, size, &summary);
    CHECK(head <= T85_PRIVATE_TABLE && info <= T85_SECOND_LENGTH);
    counters[700 + head]++;
    if (head != T85_OK) {
        lend(&window, 0);
        lend(&image, 0);
        CHECK(info == head && decode(&image, roll(9), &written) == head && written == 0);
        return 0;
    }
    CHECK(fields.width >= 1 && fields.width <= T85_MOST_WIDTH && fields.height >= 1 && fields.stripe_rows >= 1 &&
          fields.most_offset <= T85_MOST_OFFSET);
    in_parts(info, &summary);
    decoded(&fields, info, &summary);
    return 0;
}

/* Makes a new stream of a small image, with some equal rows. */
static size_t fresh(uint8_t *data, size_t most)
{
    uint32_t width = 1 + roll(roll(3) ? 40 : 300), height = 1 + roll(20), y;
    t85_options options = T85_OPTIONS;
    size_t row = t85_row_bytes(width), i, written = 0;
    uint8_t pixels[20 * 40], held[3 * 40];
    if (most < 20)
        return 0;
    for (y = 0; y < height; y++)
        for (i = 0; i < row; i++)
            pixels[y * row + i] =
                y && roll(2) ? pixels[(y - 1) * row + i] : (uint8_t)(roll(2) ? roll(256) : roll(2) * 255);
    options.options = roll(2) * T85_TYPICAL + roll(2) * T85_TWO_LINES + roll(2) * T85_VARIABLE_HEIGHT;
    options.stripe_rows = 1 + roll(height + 2);
    options.most_offset = roll(128);
    options.reset = roll(2);
    options.has_comment = roll(2);
    options.announces_height = roll(2);
    options.announced_height = height + roll(9);
    CHECK(t85_encode(width, height, pixels, height * row, row, &options, pixels, roll(5), held, 3 * row, data, most,
                     &written) %
              T85_NO_ROOM ==
          0);
    return written;
}

static size_t insert(uint8_t *data, size_t size, size_t most, size_t at, const uint8_t *bytes, size_t count)
{
    if (size + count > most || at > size)
        return size;
    memmove(data + at + count, data + at, size - at);
    memcpy(data + at, bytes, count);
    return size + count;
}

/* Inserts a marker segment at the front of the stream's body, behind an end marker, or anywhere. */
static size_t with_segment(uint8_t *data, size_t size, size_t most)
{
    uint8_t segment[12] = {0xff, (uint8_t)(2 + roll(7)), 0, 0, 0, (uint8_t)roll(12), (uint8_t)roll(12), 0};
    size_t at = 20 < size ? 20 : size, count = segment[1] == 6   ? 8
                                               : segment[1] == 5 ? 6
                                               : segment[1] == 7 ? 6 + segment[5]
                                                                 : 2;
    uint32_t skipped = roll(8);
    for (; skipped && at + 1 < size; at++)
        if (data[at] == 0xff && (data[at + 1] == 2 || data[at + 1] == 3) && --skipped == 0) {
            at += 2;
            break;
        }
    if (roll(8) == 0 && size)
        at = roll((uint32_t)size);
    return insert(data, size, most, at, segment, count < sizeof segment ? count : sizeof segment);
}

size_t LLVMFuzzerCustomMutator(uint8_t *data, size_t size, size_t most, unsigned seed)
{
    dice = dice * 31 + seed;
    if (size < 20 || roll(30) == 0)
        size = fresh(data, most);
    switch (roll(6)) {
    case 0:
        return with_segment(data, size, most);
    case 1: /* a number of the header */
        if (size >= 20)
            data[4 + roll(16)] = (uint8_t)(roll(2) ? roll(8) : roll(256));
        return size;
    case 2: /* the height, or the rows per stripe, small */
        if (size >= 20) {
            size_t at = 8 + 4 * roll(2);
            memset(data + at, 0, 3);
            data[at + 3] = (uint8_t)roll(20);
        }
        return size;
    case 3: /* only the body */
        return size > 20 ? 20 + LLVMFuzzerMutate(data + 20, size - 20, most - 20) : size;
    case 4: /* an end marker */
        return size > 20 && roll(4) == 0 ? 20 + roll((uint32_t)(size - 20)) : with_segment(data, size, most);
    default:
        return LLVMFuzzerMutate(data, size, most);
    }
}
