/* The sheet reader of the native engines. */
#include "engine.h"

#include <string.h>

typedef struct {
    const uint8_t *bytes;
    size_t len, at;
    int refusal;
} Reader;

static unsigned number(Reader *r)
{
    if (r->refusal) return 0;
    if (r->at >= r->len) { r->refusal = 1; return 0; }
    unsigned low = r->bytes[r->at++];
    if (low < 128) return low;
    if (r->at >= r->len) { r->refusal = 1; return 0; }
    unsigned high = r->bytes[r->at++];
    if (high == 0 || high > 127) { r->refusal = 2; return 0; }
    return (low & 127) | high << 7;
}

static unsigned ruled(Reader *r, unsigned least, unsigned most, int refusal)
{
    unsigned v = number(r);
    if (!r->refusal && (v < least || v > most)) r->refusal = refusal;
    return v;
}

int read_sheet(const uint8_t *sheet, size_t len, Table *t)
{
    Reader r = {sheet, len, 0, 0};
    memset(t, 0, sizeof *t);
    ruled(&r, 3, 3, 3);
    unsigned policy = ruled(&r, NP_GFP, P_LST, 4), m = ruled(&r, 1, 8, 5), n = ruled(&r, 1, 8, 6);
    for (unsigned i = 0; !r.refusal && i < n; i++) {
        unsigned c = number(&r), d = number(&r), p = number(&r);
        if (!r.refusal && !(1 <= c && c <= d && d <= p && p <= 200)) r.refusal = 7;
        if (r.refusal) break;
        t->work[i] = (uint8_t)c;
        t->deadline[i] = (uint8_t)d;
        t->gap[i] = (uint8_t)p;
    }
    if (!r.refusal && r.at < len) r.refusal = 8;
    t->policy = (uint8_t)policy;
    t->m = (uint8_t)m;
    t->n = (uint8_t)n;
    return r.refusal;
}
