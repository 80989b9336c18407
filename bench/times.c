/* Compares the library and both halves of libjbig on one image, in one process and in memory:

       times IMAGE.pbm P S M MILLISECONDS ROUNDS

   with the options -p P -s S -m M. Each of the three encodes the image, and decodes the stream
   of the first; before the measurement, each must decode its own stream to the image again. In a
   round, all three take turns of some milliseconds, so that other load affects each alike.
   Rounds continue for the given milliseconds, and there are at least ROUNDS. Prints two lines,
   `encode` and `decode`: the minimum microseconds of ours, of jbg85_* and of jbg_*, and then the
   median, over the rounds, of the ratios of ours to each of the others. Under callgrind nothing
   is timed, and one call of each has a dump with its name: for a small image the second call,
   when its branches are predicted. */
#include "t85.h"

#include <jbig.h>
#include <jbig85.h>
#include <stdio.h>
#include <stdlib.h>
#include <string.h>
#include <time.h>
#include <valgrind/callgrind.h>

enum { LIBRARIES = 3, MOST_ROUNDS = 999, SMALL = 1 << 16 };

/* The minimum microseconds of one library's part of a round. */
static const double PART = 1000;

static uint32_t width, height;
static size_t row, size, room, count, rows_seen;
static uint8_t *rows, *stream, *back, *window;
static t85_options options = T85_OPTIONS;

/* The stream that all three decode. */
static uint8_t *first_stream;
static size_t first_count;

static void stop(const char *why)
{
    fprintf(stderr, "bench/times.c: %s\n", why);
    exit(1);
}

static void put(unsigned char *start, size_t len, void *file)
{
    (void)file;
    if (count + len > room)
        stop("no room");
    memcpy(stream + count, start, len);
    count += len;
}

static void ours_encode(void)
{
    if (t85_encode(width, height, rows, size, row, &options, T85_NOTHING, 0, window, 3 * row, stream, room, &count))
        stop("t85_encode");
}

static void ours_decode(void)
{
    uint32_t found;
    if (t85_decode_rows(first_stream, first_count, UINT32_MAX, row, window, 3 * row, back, size, &found) || found != height)
        stop("t85_decode_rows");
}

static void jbg85_encode(void)
{
    struct jbg85_enc_state state;
    unsigned char *at = rows;
    uint32_t y;
    count = 0;
    jbg85_enc_init(&state, width, height, put, NULL);
    jbg85_enc_options(&state, (int)options.options, options.stripe_rows, (int)options.most_offset);
    for (y = 0; y < height; y++, at += row)
        jbg85_enc_lineout(&state, at, y > 0 ? at - row : NULL, y > 1 ? at - 2 * row : NULL);
}

static int take(const struct jbg85_dec_state *state, unsigned char *start, size_t len, unsigned long y, void *file)
{
    (void)state;
    (void)file;
    memcpy(back + y * row, start, len);
    rows_seen++;
    return 0;
}

static void jbg85_decode(void)
{
    struct jbg85_dec_state state;
    size_t taken;
    rows_seen = 0;
    jbg85_dec_init(&state, window, 3 * row, take, NULL);
    if (jbg85_dec_in(&state, first_stream, first_count, &taken) != JBG_EOK || rows_seen != height)
        stop("jbg85_dec_in");
}

static void jbg_encode(void)
{
    struct jbg_enc_state state;
    unsigned char *plane = rows;
    count = 0;
    jbg_enc_init(&state, width, height, 1, &plane, put, NULL);
    jbg_enc_options(&state, 0, (int)options.options, options.stripe_rows, (int)options.most_offset, 0);
    jbg_enc_out(&state);
    jbg_enc_free(&state);
}

static void jbg_decode(void)
{
    struct jbg_dec_state state;
    size_t taken;
    jbg_dec_init(&state);
    if (jbg_dec_in(&state, first_stream, first_count, &taken) != JBG_EOK || jbg_dec_getsize(&state) != size)
        stop("jbg_dec_in");
    memcpy(back, jbg_dec_getimage(&state, 0), size);
    jbg_dec_free(&state);
}

typedef struct {
    const char *name;
    void (*work[LIBRARIES])(void);
} direction;

static const char *const libraries[LIBRARIES] = {"ours", "jbg85", "jbg"};
static const direction encode = {"encode", {ours_encode, jbg85_encode, jbg_encode}};
static const direction decode = {"decode", {ours_decode, jbg85_decode, jbg_decode}};

static void keep_stream(void)
{
    memcpy(first_stream, stream, count);
    first_count = count;
}

/* Each encodes, and decodes its own stream. At the end, our stream is stored for all. */
static void check(void)
{
    int at;
    for (at = LIBRARIES - 1; at >= 0; at--) {
        encode.work[at]();
        keep_stream();
        memset(back, 0xA5, size);
        decode.work[at]();
        if (memcmp(rows, back, size))
            stop("another image was decoded");
    }
}

static double now(void)
{
    struct timespec time;
    clock_gettime(CLOCK_PROCESS_CPUTIME_ID, &time);
    return (double)time.tv_sec * 1e6 + (double)time.tv_nsec * 1e-3;
}

/* Returns the microseconds per call, over `count` calls. */
static double timed(void (*work)(void), long times)
{
    double begin = now();
    long at;
    for (at = 0; at < times; at++)
        work();
    return (now() - begin) / (double)times;
}

static int compare(const void *left, const void *right)
{
    double a = *(const double *)left, b = *(const double *)right;
    return (a > b) - (a < b);
}

static double median(double *values, int values_count)
{
    qsort(values, (size_t)values_count, sizeof *values, compare);
    return (values[values_count / 2] + values[(values_count - 1) / 2]) / 2;
}

/* Returns how many calls of each take some milliseconds. */
static long calls(const direction *way)
{
    double all = 0;
    int at;
    for (at = 0; at < LIBRARIES; at++)
        all += timed(way->work[at], 1);
    return (long)(LIBRARIES * PART / all) + 1;
}

static void measure(const direction *way, double most_time, int least_rounds)
{
    static double ratios[LIBRARIES][MOST_ROUNDS];
    double least[LIBRARIES] = {0}, taken[LIBRARIES], begin = now();
    long times = calls(way);
    int round = 0, at;
    while (round < least_rounds || (round < MOST_ROUNDS && now() - begin < most_time)) {
        for (at = 0; at < LIBRARIES; at++) {
            taken[at] = timed(way->work[at], times);
            if (round == 0 || taken[at] < least[at])
                least[at] = taken[at];
            ratios[at][round] = taken[0] / taken[at];
        }
        round++;
    }
    printf("%s %.3f %.3f %.3f %.4f %.4f\n", way->name, least[0], least[1], least[2], median(ratios[1], round),
           median(ratios[2], round));
}

static void dump(const direction *way)
{
    char name[32];
    int at;
    for (at = 0; at < LIBRARIES; at++) {
        if (size < SMALL)
            way->work[at]();
        snprintf(name, sizeof name, "%s-%s", way->name, libraries[at]);
        CALLGRIND_ZERO_STATS;
        way->work[at]();
        CALLGRIND_DUMP_STATS_AT(name);
    }
}

static void read_image(const char *name)
{
    FILE *file = fopen(name, "rb");
    if (!file || fscanf(file, "P4 %u %u", &width, &height) != 2)
        stop("no raw PBM");
    getc(file);
    row = t85_row_bytes(width);
    size = row * height;
    room = 2 * size + 8 * (size_t)height + 10000;
    /* With stripes of one row, jbg_enc_out reads the row before the first one, which is white
       here. */
    rows = calloc(row + size, 1);
    back = malloc(size);
    stream = malloc(room);
    first_stream = malloc(room);
    window = malloc(3 * row);
    if (!rows || !back || !stream || !first_stream || !window)
        stop("no memory");
    rows += row;
    if (fread(rows, 1, size, file) != size)
        stop("the image ends too early");
    fclose(file);
}

int main(int words, char **word)
{
    double most_time;
    int least_rounds;
    if (words != 7)
        stop("look at the head of the file");
    read_image(word[1]);
    options.options = (uint32_t)atoi(word[2]);
    options.stripe_rows = (uint32_t)atoi(word[3]);
    options.most_offset = (uint32_t)atoi(word[4]);
    most_time = 1000 * atof(word[5]);
    least_rounds = atoi(word[6]);
    if (least_rounds < 1 || least_rounds > MOST_ROUNDS)
        stop("no such number of rounds");
    check();
    if (RUNNING_ON_VALGRIND) {
        CALLGRIND_START_INSTRUMENTATION;
        dump(&encode);
        dump(&decode);
    } else {
        measure(&encode, most_time, least_rounds);
        measure(&decode, most_time, least_rounds);
    }
    return 0;
}
