/* Compares the library's functions that decode a stream in pieces, or encode an image row by row,
   with its functions for whole images and with libjbig's jbg85_*, in one process and in memory:

       calls decode IMAGE.pbm BYTES MILLISECONDS      pieces of so many bytes
       calls encode IMAGE.pbm ROWS MILLISECONDS       rows one by one, with stripes of so many rows
       calls sizes IMAGE.pbm 0 0

   with the options -p 8 -m 0, and -s 128 when decoding. Prints the minimum microseconds of a
   call for the whole, of ours and of jbg85_*, all three in turn for the given milliseconds;
   before that, it checks that all results are the same, except for zeros at the end of a code.
   Under callgrind nothing is timed, and one round of each has a dump with its name. `sizes`
   prints the memory of decoder and encoder for a page: the bytes of the struct, of the rows that
   the caller supplies, and the peak of the heap; then the same for jbg85_*. */
#include "t85.h"

#include <jbig85.h>
#include <malloc.h>
#include <stdio.h>
#include <stdlib.h>
#include <string.h>
#include <time.h>
#include <valgrind/callgrind.h>

enum { WAYS = 3 };

/* The minimum microseconds of one way's part of a round. */
static const double PART = 2000;

static uint32_t width, height;
static size_t row, size, room, count, piece, taken_rows, stream_len, heap_begin, most_heap;
static uint8_t *rows, *back, *window, *stream, *code, *out;
static size_t out_room;
static t85_options options = T85_OPTIONS;

static void stop(const char *why)
{
    fprintf(stderr, "bench/calls.c: %s\n", why);
    exit(1);
}

static void whole_decode(void)
{
    uint32_t found;
    if (t85_decode_rows(stream, stream_len, UINT32_MAX, row, window, 3 * row, back, size, &found) || found != height)
        stop("t85_decode_rows");
}

static void ours_decode(void)
{
    t85_decoder decoder;
    size_t at = 0, end = 0, taken, place, given = 0;
    uint8_t status = T85_MORE;
    t85_decode_start(&decoder, sizeof decoder, UINT32_MAX);
    while (status >= T85_HEADER_READ) {
        if (status == T85_MORE)
            end += piece < stream_len - end ? piece : stream_len - end;
        status = t85_decode_bytes(&decoder, stream + at, end - at, window, 3 * row, &taken, &place);
        at += taken;
        if (status == T85_ROW) {
            uint8_t *last = memcpy(back + row * given++, window + place, row);
            uint32_t count = t85_decode_again(&decoder, window, 3 * row);
            for (; count > 0; count--)
                memcpy(back + row * given++, last, row);
        }
    }
    if (status || given != height)
        stop("t85_decode_bytes");
}

static int take(const struct jbg85_dec_state *state, unsigned char *start, size_t len, unsigned long y, void *file)
{
    (void)state;
    (void)file;
    memcpy(back + y * row, start, len);
    taken_rows++;
    return 0;
}

static void theirs_decode(void)
{
    struct jbg85_dec_state state;
    size_t at = 0, len, taken;
    int answer = JBG_EAGAIN;
    taken_rows = 0;
    jbg85_dec_init(&state, window, 3 * row, take, NULL);
    while (answer == JBG_EAGAIN && at < stream_len) {
        len = piece < stream_len - at ? piece : stream_len - at;
        answer = jbg85_dec_in(&state, stream + at, len, &taken);
        at += taken;
    }
    if (answer != JBG_EOK || taken_rows != height)
        stop("jbg85_dec_in");
}

static void whole_encode(void)
{
    if (t85_encode(width, height, rows, size, row, &options, NULL, 0, window, 3 * row, code, room, &count))
        stop("t85_encode");
}

/* A buffer that is enough for the next call. */
static void make_room(const t85_encoder *encoder)
{
    if (out_room < t85_encode_room(encoder)) {
        out_room = 2 * (size_t)t85_encode_room(encoder);
        free(out);
        if (!(out = malloc(out_room)))
            stop("no memory");
    }
}

static void put(unsigned char *start, size_t len, void *file)
{
    (void)file;
    if (count + len > room)
        stop("no room");
    memcpy(code + count, start, len);
    count += len;
}

static void ours_encode(void)
{
    t85_encoder encoder;
    size_t written;
    uint32_t y;
    uint8_t status = t85_encode_start(&encoder, sizeof encoder, width, height, &options, NULL, 0, window, 3 * row, code,
                                      room, &count);
    for (y = 0; y <= height && status == T85_OK; y++) {
        make_room(&encoder);
        if (y < height)
            status = t85_encode_row(&encoder, rows + y * row, row, window, 3 * row, out, out_room, &written);
        else
            status = t85_encode_end(&encoder, window, 3 * row, out, out_room, &written);
        put(out, written, NULL);
    }
    if (status)
        stop("t85_encode_row");
}

static void theirs_encode(void)
{
    struct jbg85_enc_state state;
    unsigned char *at = rows;
    uint32_t y;
    count = 0;
    jbg85_enc_init(&state, width, height, put, NULL);
    jbg85_enc_options(&state, (int)options.options, options.stripe_rows, (int)options.most_offset);
    for (y = 0; y < height; y++, at += row)
        jbg85_enc_lineout(&state, at, y > 0 ? at - row : NULL, y > 1 ? at - 2 * row : NULL);
}

typedef void work(void);

static const char *const names[WAYS] = {"whole", "ours", "theirs"};
static work *const decode[WAYS] = {whole_decode, ours_decode, theirs_decode};
static work *const encode[WAYS] = {whole_encode, ours_encode, theirs_encode};

static double now(void)
{
    struct timespec time;
    clock_gettime(CLOCK_PROCESS_CPUTIME_ID, &time);
    return (double)time.tv_sec * 1e6 + (double)time.tv_nsec * 1e-3;
}

/* Returns the microseconds of one call, measured over calls that take some milliseconds. */
static double timed(work *each)
{
    double begin = now(), spent;
    long times = 0;
    do {
        each();
        times++;
        spent = now() - begin;
    } while (spent < PART);
    return spent / (double)times;
}

static void measure(work *const *ways, double most_time)
{
    double least[WAYS] = {0}, begin = now(), taken;
    int round, at;
    for (round = 0; round < 3 || now() - begin < most_time; round++)
        for (at = 0; at < WAYS; at++) {
            taken = timed(ways[at]);
            if (round == 0 || taken < least[at])
                least[at] = taken;
        }
    printf("%.2f %.2f %.2f\n", least[0], least[1], least[2]);
}

static void dump(work *const *ways)
{
    int at;
    CALLGRIND_START_INSTRUMENTATION;
    for (at = 0; at < WAYS; at++) {
        CALLGRIND_ZERO_STATS;
        ways[at]();
        CALLGRIND_DUMP_STATS_AT(names[at]);
    }
}

static void check(work *const *ways)
{
    size_t first = 0;
    int at;
    for (at = 0; at < WAYS; at++) {
        memset(back, 0xA5, size);
        ways[at]();
        if (ways == decode && memcmp(back, rows, size))
            stop("another image was decoded");
        if (at == 0)
            first = count;
        /* JBIG-KIT leaves zeros at the end of some codes. */
        if (ways == encode && ways[at] != theirs_encode && (count != first || memcmp(code, stream, count)))
            stop("another stream was encoded");
        if (ways == encode && count < first)
            stop("a shorter stream was encoded");
    }
}

static size_t heap(void)
{
    struct mallinfo2 told = mallinfo2();
    return told.uordblks + told.hblkhd;
}

static int take_sized(const struct jbg85_dec_state *state, unsigned char *start, size_t len, unsigned long y, void *file)
{
    size_t more = heap() - heap_begin;
    most_heap = more > most_heap ? more : most_heap;
    return take(state, start, len, y, file);
}

static void put_sized(unsigned char *start, size_t len, void *file)
{
    size_t more = heap() - heap_begin;
    most_heap = more > most_heap ? more : most_heap;
    put(start, len, file);
}

/* Our functions allocate no memory, as t85.h says. */
static void sizes(void)
{
    struct jbg85_dec_state decoder;
    struct jbg85_enc_state encoder;
    size_t taken;
    uint32_t y;
    unsigned char *at = rows;
    heap_begin = heap();
    jbg85_dec_init(&decoder, window, 3 * row, take_sized, NULL);
    jbg85_dec_in(&decoder, stream, stream_len, &taken);
    printf("decoder %zu %zu 0 %zu %zu %zu\n", sizeof(t85_decoder), t85_window_bytes(width), sizeof decoder, 3 * row,
           most_heap);
    most_heap = count = 0;
    heap_begin = heap();
    jbg85_enc_init(&encoder, width, height, put_sized, NULL);
    for (y = 0; y < height; y++, at += row)
        jbg85_enc_lineout(&encoder, at, y > 0 ? at - row : NULL, y > 1 ? at - 2 * row : NULL);
    printf("encoder %zu %zu 0 %zu %zu %zu\n", sizeof(t85_encoder), t85_window_bytes(width), sizeof encoder, 3 * row,
           most_heap);
}

static void read_image(const char *name)
{
    FILE *file = fopen(name, "rb");
    if (!file || fscanf(file, "P4 %u %u", &width, &height) != 2)
        stop("no raw PBM");
    getc(file);
    row = t85_row_bytes(width);
    size = row * height;
    room = 2 * size + 8 * (size_t)height + 10000;
    rows = malloc(size);
    back = malloc(size);
    window = malloc(3 * row);
    code = malloc(room);
    stream = malloc(room);
    if (!rows || !back || !window || !code || !stream)
        stop("no memory");
    if (fread(rows, 1, size, file) != size)
        stop("the image ends too early");
    fclose(file);
}

int main(int words, char **word)
{
    work *const *ways;
    if (words != 5)
        stop("look at the head of the file");
    read_image(word[2]);
    ways = strcmp(word[1], "encode") ? decode : encode;
    piece = (size_t)atol(word[3]);
    if (ways == encode)
        options.stripe_rows = (uint32_t)piece;
    whole_encode();
    stream_len = count;
    memcpy(stream, code, count);
    if (!strcmp(word[1], "sizes")) {
        sizes();
        return 0;
    }
    check(ways);
    if (RUNNING_ON_VALGRIND)
        dump(ways);
    else
        measure(ways, 1000 * atof(word[4]));
    return 0;
}
