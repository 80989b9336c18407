/* Loads JBIG-KIT's library, if the environment variable T85_JBIG_KIT contains its path. Programs that run with more
   rights than their user ignore the variable. */
#include "shim.h"

#include <dlfcn.h>
#include <pthread.h>
#include <stdlib.h>
#include <string.h>

typedef struct {
    const char *name;
    size_t at;
} place;

#define PLACE(call) {"jbg_" #call, offsetof(kit_calls, call)}

static const place places[] = {
    PLACE(enc_init),     PLACE(enc_layers),         PLACE(enc_lrange),       PLACE(enc_options),
    PLACE(enc_out),      PLACE(enc_free),           PLACE(dec_init),         PLACE(dec_maxsize),
    PLACE(dec_in),       PLACE(dec_getwidth),       PLACE(dec_getheight),    PLACE(dec_getimage),
    PLACE(dec_getsize),  PLACE(dec_getsize_merged), PLACE(dec_merge_planes), PLACE(dec_free),
    PLACE(int2dppriv),   PLACE(dppriv2int),         PLACE(newlen),
    PLACE(next_pscdms),
};

static kit_calls loaded;
static bool is_loaded;
static pthread_once_t once = PTHREAD_ONCE_INIT;

/* RTLD_DEEPBIND makes JBIG-KIT's functions call each other, and not those of this library. */
static void load(void)
{
    const char *path = secure_getenv("T85_JBIG_KIT");
    void *library = path ? dlopen(path, RTLD_NOW | RTLD_LOCAL | RTLD_DEEPBIND) : NULL;
    size_t n;
    if (!library)
        return;
    for (n = 0; n < sizeof places / sizeof *places; n++) {
        void *call = dlsym(library, places[n].name);
        if (!call)
            return;
        memcpy((char *)&loaded + places[n].at, &call, sizeof call);
    }
    /* If the path leads to this library, it must not call itself. */
    is_loaded = loaded.dec_in != jbg_dec_in;
}

const kit_calls *t85jbig_kit(void)
{
    pthread_once(&once, load);
    return is_loaded ? &loaded : NULL;
}

void t85jbig_write_by_kit(const kit_calls *kit, struct jbg_enc_state *s)
{
    struct jbg_enc_state theirs;
    kit->enc_init(&theirs, s->xd, s->yd, s->planes, s->lhp[0], s->data_out, s->file);
    kit->enc_layers(&theirs, s->d);
    kit->enc_lrange(&theirs, s->dl, s->dh);
    kit->enc_options(&theirs, s->order, s->options, s->l0, (int)s->mx, (int)s->my);
    theirs.yd1 = s->yd1;
    if (s->dppriv)
        theirs.dppriv = s->dppriv;
    theirs.comment = s->comment;
    theirs.comment_len = s->comment_len;
    kit->enc_out(&theirs);
    s->comment = theirs.comment;
    kit->enc_free(&theirs);
}
