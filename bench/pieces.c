/* Decodes the stream on standard input so many times by libjbig's jbg85_dec_in, in pieces of so many bytes (0: all at
 * once), and prints the bytes of all rows: pieces TIMES SIZE */
#include <jbig85.h>
#include <stdio.h>
#include <stdlib.h>
#include <string.h>

static unsigned char stream[1 << 20], window[3 * 4096], *rows;
static size_t count, taken_rows;

static int take(const struct jbg85_dec_state *state, unsigned char *start, size_t len, unsigned long y, void *file)
{
    (void)state;
    (void)y;
    (void)file;
    memcpy(rows + taken_rows, start, len);
    taken_rows += len;
    return 0;
}

static void decode(size_t size)
{
    struct jbg85_dec_state state;
    size_t from = 0, len, taken;
    int answer = JBG_EAGAIN;
    jbg85_dec_init(&state, window, sizeof window, take, NULL);
    while (answer == JBG_EAGAIN && from < count) {
        len = size == 0 || size > count - from ? count - from : size;
        answer = jbg85_dec_in(&state, stream + from, len, &taken);
        from += taken;
    }
    if (answer != JBG_EOK) {
        fprintf(stderr, "pieces: %s\n", jbg85_strerror(answer));
        exit(1);
    }
}

int main(int argc, char **argv)
{
    unsigned long long sum = 0;
    int times;
    if (argc != 3)
        return 2;
    count = fread(stream, 1, sizeof stream, stdin);
    rows = malloc((size_t)1 << 24);
    if (rows == NULL)
        return 1;
    for (times = atoi(argv[1]); times > 0; times--) {
        taken_rows = 0;
        decode((size_t)atoi(argv[2]));
        sum += taken_rows;
    }
    printf("%llu\n", sum);
    return 0;
}
