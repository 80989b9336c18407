/* Compares t85_choice_offset with the moves of JBIG-KIT's encoders, on random images and on pages:
     choice random SEED COUNT
     choice page FILE.pbm ..
   Each image is encoded by jbg85_enc_lineout, whose struct has the offset that it chose after each stripe, and by
   jbg_enc_out, whose stream has it as an ATMOVE before the next stripe. */
#include <jbig.h>
#include <jbig85.h>
#include <stdbool.h>
#include <stdio.h>
#include <stdlib.h>
#include <string.h>
#include <t85.h>

/* An image with the options of its encoding. */
typedef struct {
    uint32_t width, height, stripe_rows;
    unsigned options, most;
    bool reset;
    uint8_t *rows;
    size_t row;
} job;

typedef struct {
    unsigned long stripes, moves, to_nominal;
} tally;

/* The stream of jbg_enc_out. */
typedef struct {
    uint8_t *bytes;
    size_t len, room;
} text;

static uint32_t state = 1;

static uint32_t number(uint32_t below)
{
    state ^= state << 13;
    state ^= state >> 17;
    state ^= state << 5;
    return state % below;
}

static void failed(const job *of, uint32_t y, unsigned ours, unsigned theirs)
{
    fprintf(stderr, "choice: %lu by %lu pixels, stripes of %lu rows, options %u, most %u, reset %d: "
            "after row %lu offset %u, JBIG-KIT %u\n", (unsigned long)of->width, (unsigned long)of->height,
            (unsigned long)of->stripe_rows, of->options, of->most, of->reset, (unsigned long)y, ours, theirs);
    exit(1);
}

static void *memory(size_t len)
{
    void *bytes = calloc(len ? len : 1, 1);
    if (!bytes) {
        fprintf(stderr, "choice: out of memory\n");
        exit(1);
    }
    return bytes;
}

static void nothing(unsigned char *start, size_t len, void *file)
{
    (void)start;
    (void)len;
    (void)file;
}

static void started(t85_choice *choice, const job *of)
{
    t85_options options = T85_OPTIONS;
    options.options = of->options;
    options.stripe_rows = of->stripe_rows;
    options.most_offset = of->most;
    options.reset = of->reset;
    if (t85_choice_start(choice, sizeof *choice, of->width, &options)) {
        fprintf(stderr, "choice: t85_choice_start\n");
        exit(1);
    }
}

/* Passes a row, sometimes without the white row above it. Its padding is random in the image. */
static void passed(t85_choice *choice, const job *of, uint32_t y, bool top)
{
    const uint8_t *row = of->rows + y * of->row;
    if (t85_choice_row(choice, row, of->row, top ? NULL : row - of->row, top ? 0 : of->row)) {
        fprintf(stderr, "choice: t85_choice_row\n");
        exit(1);
    }
}

static uint8_t offset_after(t85_choice *choice, unsigned current)
{
    uint8_t offset = 200;
    if (t85_choice_offset(choice, (uint8_t)current, &offset)) {
        fprintf(stderr, "choice: t85_choice_offset\n");
        exit(1);
    }
    return offset;
}

static void count(tally *sum, unsigned before, unsigned after)
{
    sum->stripes++;
    sum->moves += before != after;
    sum->to_nominal += before != after && after == 0;
}

/* Compares with the offset in JBIG-KIT's struct after each stripe. */
static void by_lines(const job *of, tally *sum)
{
    struct jbg85_enc_state kit;
    t85_choice choice;
    uint8_t *lines = memory(3 * of->row);
    uint32_t y;
    jbg85_enc_init(&kit, of->width, of->height, nothing, NULL);
    jbg85_enc_options(&kit, (int)of->options, of->stripe_rows, (int)of->most);
    started(&choice, of);
    for (y = 0; y < of->height; y++) {
        unsigned char *at[3];
        unsigned k;
        for (k = 0; k < 3; k++)
            at[k] = lines + (y + 3 - k) % 3 * of->row;
        memcpy(at[0], of->rows + y * of->row, of->row);
        jbg85_enc_lineout(&kit, at[0], at[1], at[2]);
        passed(&choice, of, y, y == 0);
        if ((y + 1) % of->stripe_rows == 0 || y + 1 == of->height) {
            unsigned theirs = (unsigned)(kit.new_tx < 0 ? kit.tx : kit.new_tx);
            unsigned ours = offset_after(&choice, (unsigned)kit.tx);
            if (ours != theirs)
                failed(of, y, ours, theirs);
            count(sum, (unsigned)kit.tx, theirs);
        }
    }
    free(lines);
}

static void append(unsigned char *start, size_t len, void *file)
{
    text *stream = file;
    if (stream->len + len > stream->room) {
        stream->room = 2 * (stream->len + len);
        stream->bytes = realloc(stream->bytes, stream->room);
        if (!stream->bytes) {
            fprintf(stderr, "choice: out of memory\n");
            exit(1);
        }
    }
    memcpy(stream->bytes + stream->len, start, len);
    stream->len += len;
}

/* The offset of the next stripe in the stream of jbg_enc_out. */
static unsigned next_offset(const text *stream, t85_part *part, unsigned current, bool reset)
{
    unsigned offset = reset ? 0 : current;
    for (;;) {
        uint8_t status = t85_next_part(stream->bytes, stream->len, part);
        if (status == T85_NO_MORE_PARTS)
            return offset;
        if (status) {
            fprintf(stderr, "choice: jbg_enc_out's stream has error %d\n", status);
            exit(1);
        }
        if (part->kind == T85_PART_MOVE)
            offset = stream->bytes[part->offset + 6];
        if (part->kind == T85_PART_DATA_ENTITY)
            return offset;
    }
}

/* Compares with the moves in the stream of jbg_enc_out, which does not use the last row of a stripe. */
static void by_planes(const job *of, tally *sum)
{
    struct jbg_enc_state kit;
    t85_choice choice;
    t85_part part = T85_PART;
    text stream = {NULL, 0, 0};
    uint8_t *plane = memory(of->row * of->height);
    unsigned char *planes[1];
    unsigned offset = 0, last = 0;
    uint32_t y;
    memcpy(plane, of->rows, of->row * of->height);
    planes[0] = plane;
    if (of->width % 8)
        for (y = 0; y < of->height; y++)
            plane[(y + 1) * of->row - 1] &= (uint8_t)(0xff00 >> of->width % 8);
    jbg_enc_init(&kit, of->width, of->height, 1, planes, append, &stream);
    jbg_enc_options(&kit, 0, (int)of->options | JBG_DELAY_AT | (of->reset ? JBG_SDRST : 0),
                    of->stripe_rows, (int)of->most, 0);
    jbg_enc_out(&kit);
    jbg_enc_free(&kit);
    started(&choice, of);
    next_offset(&stream, &part, 0, false);
    for (y = 0; y < of->height; y++) {
        bool ends = (y + 1) % of->stripe_rows == 0, top = of->reset ? y % of->stripe_rows == 0 : y == 0;
        if (!ends)
            passed(&choice, of, y, top);
        if (ends && y + 1 < of->height) {
            unsigned theirs = next_offset(&stream, &part, offset, of->reset);
            unsigned ours = offset_after(&choice, offset);
            if (ours != theirs)
                failed(of, y, ours, theirs);
            last = offset;
            offset = theirs;
            count(sum, last, offset);
        }
    }
    free(plane);
    free(stream.bytes);
}

static void both(const job *of, tally *sum)
{
    if (!of->reset)
        by_lines(of, sum);
    by_planes(of, sum);
}

/* Fills a stripe's rows: with noise, or with a pattern that repeats, some of whose pixels are changed. */
static void fill(job *of, uint32_t from, uint32_t to)
{
    static const uint32_t errors[] = {1000000, 200, 40, 20, 14, 11, 9, 8, 7, 5, 3, 2};
    uint32_t period = 1 + number(of->most + 6), error = errors[number(12)], kind = number(6), x, y;
    uint8_t pattern[256];
    for (x = 0; x < 256; x++)
        pattern[x] = number(8) < 2 + kind;
    for (y = from; y < to; y++) {
        uint8_t *row = of->rows + y * of->row;
        uint32_t shift = kind == 1 ? 2 * y : kind == 2 ? number(4) : 0;
        if (y && number(4) == 0) {
            memcpy(row, row - of->row, of->row);
            continue;
        }
        for (x = 0; x < 8 * of->row; x++) {
            unsigned pixel = kind == 0 ? number(2) : pattern[(x + shift) % period] ^ (number(error) == 0);
            row[x / 8] = (uint8_t)(row[x / 8] & ~(0x80 >> x % 8)) | (uint8_t)(pixel << (7 - x % 8));
        }
    }
}

static void random_jobs(uint32_t seed, uint32_t times)
{
    static const unsigned options[] = {0, 8, 64, 72};
    static const unsigned mosts[] = {127, 127, 127, 63, 64, 65, 16, 8, 5, 4, 3, 2, 1, 0};
    tally sum = {0, 0, 0};
    state = 2 * seed + 1;
    while (times--) {
        job of;
        uint32_t y;
        of.width = 1 + number(number(4) ? 700 : 140);
        of.height = 1 + number(200);
        of.stripe_rows = 1 + number(number(2) ? 60 : 8);
        of.options = options[number(4)];
        of.most = mosts[number(14)];
        of.reset = number(3) == 0;
        of.row = t85_row_bytes(of.width);
        of.rows = memory(of.row * of.height);
        for (y = 0; y < of.height; y += of.stripe_rows)
            fill(&of, y, y + of.stripe_rows < of.height ? y + of.stripe_rows : of.height);
        both(&of, &sum);
        free(of.rows);
    }
    if (sum.moves < 50 || sum.to_nominal < 1) {
        fprintf(stderr, "choice: few moves: %lu in %lu stripes, %lu to 0\n", sum.moves, sum.stripes, sum.to_nominal);
        exit(1);
    }
    printf("JBIG-KIT's moves on random images: %lu after %lu stripes, %lu to the nominal position\n", sum.moves,
           sum.stripes, sum.to_nominal);
}

/* The next number of a PBM's header, behind white space and comments. */
static uint32_t field(FILE *file)
{
    unsigned long value;
    bool comment = false;
    int byte;
    do {
        byte = fgetc(file);
        comment = byte == '#' || (comment && byte != '\n');
    } while (byte != EOF && (comment || byte == ' ' || byte == '\n'));
    ungetc(byte, file);
    return fscanf(file, "%lu", &value) == 1 ? (uint32_t)value : 0;
}

/* Compares on a page, in short and long stripes, with both templates. */
static void page(const char *path)
{
    FILE *file = fopen(path, "rb");
    tally sum = {0, 0, 0};
    job of = {0};
    unsigned k;
    if (file && fgetc(file) == 'P' && fgetc(file) == '4') {
        of.width = field(file);
        of.height = field(file);
        of.row = t85_row_bytes(of.width);
        of.rows = memory(of.row * of.height);
    }
    if (!of.rows || !of.height || fgetc(file) == EOF || fread(of.rows, of.row, of.height, file) != of.height) {
        fprintf(stderr, "choice: %s cannot be read\n", path);
        exit(1);
    }
    fclose(file);
    of.most = 127;
    for (k = 0; k < 4; k++) {
        of.stripe_rows = k & 1 ? 128 : 16;
        of.options = k & 2 ? 72 : 8;
        both(&of, &sum);
    }
    free(of.rows);
    printf("JBIG-KIT's moves on %s: %lu after %lu stripes\n", path, sum.moves, sum.stripes);
}

int main(int argc, char **argv)
{
    int k;
    if (argc == 4 && !strcmp(argv[1], "random")) {
        random_jobs((uint32_t)strtoul(argv[2], NULL, 10), (uint32_t)strtoul(argv[3], NULL, 10));
        return 0;
    }
    if (argc < 3 || strcmp(argv[1], "page")) {
        fprintf(stderr, "usage: choice random SEED COUNT | choice page FILE.pbm ..\n");
        return 2;
    }
    for (k = 2; k < argc; k++)
        page(argv[k]);
    return 0;
}
