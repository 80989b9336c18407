/* Calls the library like a C program, and compares with files that the commands in bin/ wrote.
     clib encode IMAGE.pbm STREAM OPTIONS ROWS OFFSET ANNOUNCED|- RESET COMMENT|-
                                             encodes whole and row by row
     clib decode STREAM IMAGE.pbm INFO       decodes; INFO is the output of `jbgtopbm85 --info`
     clib cuts STREAM FOLDER                 decodes prefixes: FOLDER/N is the output of `jbgtopbm85` for the first N bytes,
                                             FOLDER/N.text its message without its name, or `done`; FOLDER/N.line and
                                             FOLDER/N.line.text are those with --info
     clib missing IMAGE.pbm FOLDER           FOLDER/N is the output of `pbmtojbg85` for the image's first N bytes of rows
     clib faults IMAGE.pbm                   tries the arguments that each call rejects
     clib rooms STREAM IMAGE.pbm INFO        like decode, with every buffer size from 0 to the whole
     clib null STREAM                        passes null pointers with a length of 0
     clib far STREAM                         tries extreme lengths: a comment and a height of 2^32 - 1
     clib pieces STREAM COUNT                mutates and cuts the stream COUNT times, decodes in pieces of any length, and
                                             compares with t85_decode_rows
   Each buffer ends at an inaccessible page, and in a second round begins behind one. An output of fewer than 1,000 bytes is
   tried with every buffer size, a longer one with some. */
#ifndef _GNU_SOURCE
#define _GNU_SOURCE
#endif
#include "clib.h"

#include <stdarg.h>
#include <stdio.h>
#include <stdlib.h>
#include <string.h>
#include <sys/mman.h>
#include <unistd.h>

static const char *about = "";
bool at_front;
size_t most = 1000;

void fail(const char *format, ...)
{
    va_list list;
    va_start(list, format);
    fprintf(stderr, "FAILED: %s: ", about);
    vfprintf(stderr, format, list);
    va_end(list);
    fputc('\n', stderr);
    exit(1);
}

buffer lend(size_t len)
{
    size_t page = (size_t)sysconf(_SC_PAGESIZE), middle = (len + page - 1) / page * page;
    uint8_t *base = (uint8_t *)mmap(NULL, middle + 2 * page, PROT_NONE,
                                    MAP_PRIVATE | MAP_ANONYMOUS | MAP_NORESERVE, -1, 0);
    buffer lent = {NULL, len};
    if (base == MAP_FAILED || (middle && mprotect(base + page, middle, PROT_READ | PROT_WRITE)))
        fail("no memory for %zu bytes", len);
    lent.bytes = at_front ? base + page : base + page + middle - len;
    return lent;
}

void give_back(buffer lent)
{
    size_t page = (size_t)sysconf(_SC_PAGESIZE), middle = (lent.len + page - 1) / page * page;
    uint8_t *base = at_front ? lent.bytes - page : lent.bytes + lent.len - middle - page;
    munmap(base, middle + 2 * page);
}

buffer copied(const void *bytes, size_t len)
{
    buffer lent = lend(len);
    memcpy(lent.bytes, bytes, len);
    return lent;
}

buffer filled(size_t len)
{
    buffer lent = lend(len);
    memset(lent.bytes, FILL, len);
    return lent;
}

buffer read_file(const char *name)
{
    buffer file = {NULL, 0};
    FILE *from = fopen(name, "rb");
    if (!from || fseek(from, 0, SEEK_END))
        fail("%s can't be read", name);
    file.len = (size_t)ftell(from);
    file.bytes = (uint8_t *)malloc(file.len + 1);
    if (!file.bytes)
        fail("no memory for %zu bytes", file.len + 1);
    rewind(from);
    if (fread(file.bytes, 1, file.len, from) != file.len)
        fail("%s can't be read", name);
    fclose(from);
    file.bytes[file.len] = 0;
    return file;
}

/* Reads a raw PBM in pieces, and checks its size, its rows and the status at its end. */
static void in_pieces(buffer file, buffer rows, uint32_t width, uint32_t height, size_t step)
{
    buffer row = lend(t85_row_bytes(width));
    uint32_t y = 0;
    size_t at = 0, taken = 0, len;
    bool in_rows = false;
    uint8_t status = T85_MORE, last = (uint8_t)(0xff << (8 * row.len - width));
    t85_pbm pbm;
    if (t85_pbm_start(&pbm, sizeof pbm - 1) != T85_OTHER_VERSION ||
        t85_pbm_start(&pbm, sizeof pbm) != T85_OK)
        fail("t85_pbm_start: another status");
    while (at < file.len || status != T85_MORE) {
        len = file.len - at < step ? file.len - at : step;
        status = in_rows ? t85_pbm_row(&pbm, file.bytes + at, len, row.bytes, row.len, &taken)
                         : t85_pbm_header(&pbm, file.bytes + at, len, &taken);
        at += taken;
        if (status == T85_HEADER_READ) {
            in_rows = true;
            if (pbm.width != width || pbm.height != height || pbm.is_plain)
                fail("t85_pbm_header: %u by %u pixels", pbm.width, pbm.height);
        } else if (status == T85_ROW) {
            uint8_t *next = rows.bytes + row.len * y++;
            if (memcmp(row.bytes, next, row.len - 1) ||
                row.bytes[row.len - 1] != (next[row.len - 1] & last))
                fail("t85_pbm_row: row %u is another, in pieces of %zu", y, step);
        } else if (status != T85_MORE) {
            break;
        }
    }
    if (status == T85_MORE)
        status = t85_pbm_end(&pbm);
    if (status != (rows.len < row.len * height ? T85_ROWS_MISSING : T85_OK) ||
        y != (rows.len < row.len * height ? rows.len / row.len : height))
        fail("t85_pbm_row: status %d and %u rows, in pieces of %zu", status, y, step);
    give_back(row);
}

buffer rows_of(buffer file, uint32_t *width, uint32_t *height)
{
    int front = 0;
    buffer rows;
    if (sscanf((const char *)file.bytes, "P4 %u %u%n", width, height, &front) != 2)
        fail("no raw PBM");
    rows.bytes = file.bytes + front + 1;
    rows.len = file.len - (size_t)front - 1;
    if (*width && *height) {
        in_pieces(file, rows, *width, *height, 1);
        in_pieces(file, rows, *width, *height, 1000);
    }
    return rows;
}

void is_beginning(const char *call, buffer room, size_t written, buffer whole)
{
    if (written > room.len || written > whole.len)
        fail("%s: %zu bytes written to a room of %zu, of %zu", call, written, room.len, whole.len);
    if (memcmp(room.bytes, whole.bytes, written))
        fail("%s: other bytes, with a room of %zu", call, room.len);
}

size_t next_room(size_t room, size_t whole)
{
    if (whole < most || room < 60 || room + 3 >= whole)
        return room + 1;
    return room + whole / 5 < whole - 3 ? room + whole / 5 : whole - 3;
}

static void messages(void)
{
    unsigned status;
    uint8_t whole[200];
    size_t len, room, written;
    for (status = 0; status < 256; status++) {
        len = t85_message((uint8_t)status, whole, sizeof whole);
        if (len == 0 || len > sizeof whole)
            fail("t85_message: %zu bytes of status %u", len, status);
        for (room = 0; room <= len + 3; room++) {
            buffer text = filled(room), wanted = {whole, len};
            written = t85_message((uint8_t)status, text.bytes, room);
            if (written != len)
                fail("t85_message: %zu of %zu bytes of status %u", written, len, status);
            is_beginning("t85_message", text, room < len ? room : len, wanted);
            give_back(text);
        }
    }
}

static void faults(char **words)
{
    buffer image = read_file(words[0]), rows;
    uint32_t width, height;
    if (t85_version() != T85_VERSION)
        fail("t85_version: %x", t85_version());
    if (t85_window_bytes(0) != 0 || t85_window_bytes(1) != 3 || t85_window_bytes(8) != 3 ||
        t85_window_bytes(9) != 6 || t85_window_bytes(T85_MOST_WIDTH) != 3 * 131072 ||
        t85_window_bytes(UINT32_MAX) != (size_t)3 * 536870912)
        fail("t85_window_bytes");
    rows = rows_of(image, &width, &height);
    rows = copied(rows.bytes, rows.len);
    free(image.bytes);
    encoder_faults(rows, width, height);
    offsets(rows, width, height);
    decoder_faults(rows, width, height);
    far_rows(rows, width, height);
    messages();
}

int main(int count, char **words)
{
    static const struct {
        const char *name;
        void (*run)(char **);
        int words;
    } parts[] = {{"encode", encode, 8}, {"decode", decode, 3},   {"rooms", rooms, 3},
                 {"cuts", cuts, 2},     {"missing", missing, 2}, {"faults", faults, 1},
                 {"null", null, 1},     {"far", far, 1},         {"pieces", pieces, 2}};
    size_t i;
    for (i = 0; i < sizeof parts / sizeof *parts; i++)
        if (count == parts[i].words + 2 && !strcmp(words[1], parts[i].name)) {
            about = words[2];
            parts[i].run(words + 2);
            at_front = true;
            parts[i].run(words + 2);
            return 0;
        }
    fprintf(stderr, "clib: look at the head of tests/clib.c\n");
    return 2;
}
