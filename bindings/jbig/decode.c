/* Implements jbg_dec_in of jbig.h with t85_decode_bytes. */
#include "shim.h"

#include <stdlib.h>
#include <string.h>

/* Hands the decoder over to JBIG-KIT, with the header that it has read. */
static int hand_over(const kit_calls *kit, struct jbg_dec_state *s)
{
    struct jbg_dec_state before = *s;
    memset(s, 0, sizeof *s);
    kit->dec_init(s);
    kit->dec_maxsize(s, before.xmax, before.ymax);
    return kit->dec_in(s, before.buffer, sizeof before.buffer, NULL);
}

/* Creates the decoder for an image of this width, and passes the header to it. */
static int create(struct jbg_dec_state *s, uint32_t width)
{
    decoding *it = calloc(1, sizeof *it);
    size_t taken, row;
    if (!it)
        return JBG_ENOMEM;
    it->row = t85_row_bytes(width);
    it->window_len = t85_window_bytes(width);
    it->window = calloc(2, it->window_len);
    if (!it->window) {
        free(it);
        return JBG_ENOMEM;
    }
    t85_decode_start(&it->decoder, sizeof it->decoder, UINT32_MAX);
    t85_decode_bytes(&it->decoder, s->buffer, sizeof s->buffer, NULL, 0, &taken, &row);
    s->s = it;
    return JBG_EAGAIN;
}

/* Reads the 20 bytes of a header. Behind an image there can be none, since a stream that continues it has layers. */
static int begin(struct jbg_dec_state *s)
{
    t85_header_fields fields;
    t85_raw_header_fields raw;
    int status = t85_header(s->buffer, sizeof s->buffer, &fields);
    bool is_second = t85jbig_decoding(s) != NULL;
    const kit_calls *kit = t85jbig_is_outside(status) && !is_second ? t85jbig_kit() : NULL;
    if (kit)
        return hand_over(kit, s);
    if (status != T85_OK)
        return t85jbig_code(status);
    if (is_second)
        return JBG_ENOCONT;
    if (t85_raw_header(s->buffer, sizeof s->buffer, &raw) != T85_OK)
        return JBG_EINVAL;
    s->dl = (int)raw.first_layer;
    s->d = (int)raw.last_layer;
    s->planes = (int)raw.planes;
    s->xd = raw.width;
    s->yd = raw.height;
    s->l0 = raw.stripe_rows;
    s->stripes = jbg_stripes(s->l0, s->yd, 0);
    s->mx = (int)raw.most_offset;
    s->my = (int)raw.most_vertical_offset;
    s->order = (int)raw.order;
    s->options = (int)raw.options;
    return create(s, raw.width);
}

/* Returns whether the image is complete if no more bytes follow, and adds its last rows. The interface has no call that
   signals the end of the input, so libjbig's decoder ends with the stripe that reaches the header's height. */
static bool ends_here(struct jbg_dec_state *s, decoding *it)
{
    t85_decoder decoder = it->decoder;
    unsigned char *window = it->window + it->window_len;
    unsigned long rows = s->i;
    size_t row;
    int status = T85_ROW;
    memcpy(window, it->window, it->window_len);
    while (status == T85_ROW && t85jbig_make_room(s, it)) {
        status = t85_decode_end(&decoder, window, it->window_len, &row);
        if (status == T85_ROW)
            t85jbig_keep_row(s, it, window + row);
    }
    if (status != T85_OK)
        s->i = rows;
    return status == T85_OK;
}

/* Decodes the bytes behind the header. */
static int read_rows(struct jbg_dec_state *s, decoding *it, const unsigned char *data, size_t len,
                     size_t *cnt)
{
    size_t taken, row;
    int status = T85_ROW;
    while (status == T85_ROW) {
        if (!t85jbig_make_room(s, it))
            return JBG_ENOMEM;
        status = t85_decode_bytes(&it->decoder, data + *cnt, len - *cnt, it->window, it->window_len,
                                  &taken, &row);
        *cnt += taken;
        s->yd = t85_decode_height(&it->decoder);
        if (status == T85_ROW)
            t85jbig_keep_row(s, it, it->window + row);
    }
    if (status == T85_MORE && (s->options & JBG_VLENGTH) && ends_here(s, it))
        status = T85_OK;
    if (status == T85_OK) {
        /* The interface cannot wait for a height behind the image, and what follows it, if they come in a later call. */
        t85_decode_rest(&it->decoder, data + *cnt, len - *cnt, &taken);
        *cnt += taken;
        it->has_ended = true;
        s->bie_len = 0;
    }
    return t85jbig_code(status);
}

/* Decodes with this library, or passes the bytes on to JBIG-KIT's. */
static int read_on(struct jbg_dec_state *s, unsigned char *data, size_t len, size_t *cnt)
{
    const kit_calls *kit = t85jbig_kit_of(s);
    decoding *it = t85jbig_decoding(s);
    size_t taken = 0;
    int code;
    if (!kit)
        return it ? read_rows(s, it, data, len, cnt) : JBG_EINVAL;
    code = kit->dec_in(s, data + *cnt, len - *cnt, &taken);
    *cnt += taken;
    return code;
}

int jbg_dec_in(struct jbg_dec_state *s, unsigned char *data, size_t len, size_t *cnt)
{
    const decoding *it = t85jbig_decoding(s);
    size_t none;
    int code;
    if (!cnt)
        cnt = &none;
    *cnt = 0;
    if (len < 1)
        return JBG_EAGAIN;
    if (t85jbig_kit_of(s) || (it && !it->has_ended))
        return read_on(s, data, len, cnt);
    while (s->bie_len < sizeof s->buffer && *cnt < len)
        s->buffer[s->bie_len++] = data[(*cnt)++];
    if (s->bie_len < sizeof s->buffer)
        return JBG_EAGAIN;
    code = begin(s);
    return code == JBG_EAGAIN && *cnt < len ? read_on(s, data, len, cnt) : code;
}
