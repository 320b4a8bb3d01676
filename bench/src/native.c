/* A native tick of the same rules as the proved one, unproved: one after each state under its mask, and the sum of what comes out.
   NATIVE is the name of the call. */
#include "engine.h"

#include <string.h>

typedef struct { uint8_t c[8], p[8]; } State;

static int age(const Table *t, const State *s, int i) { return t->gap[i] - s->p[i]; }

static int time_left(const Table *t, const State *s, int i) { return t->deadline[i] - age(t, s, i); }

static int slack(const Table *t, const State *s, int i) { return time_left(t, s, i) - s->c[i]; }

/* One tick; whether some job is late after it. */
static int tick(const Table *t, State *s, unsigned mask)
{
    int n = t->n, left = t->m, late = 0;
    uint8_t run[8] = {0};
    for (int i = 0; i < n; i++)
        if (mask >> i & 1) {
            s->c[i] = t->work[i];
            s->p[i] = t->gap[i];
        }
    if (keeps(t->policy))
        for (int i = 0; i < n; i++)
            if (s->c[i] && s->c[i] < t->work[i]) {
                run[i] = 1;
                left--;
            }
    if (t->policy < NP_EDF) {
        for (int i = 0; i < n && left > 0; i++)
            if (s->c[i] && !run[i]) {
                run[i] = 1;
                left--;
            }
    } else {
        while (left > 0) {
            int best = -1, least = 0;
            for (int i = 0; i < n; i++)
                if (s->c[i] && !run[i]) {
                    int place = order(t->policy == P_LST ? slack(t, s, i) : time_left(t, s, i), age(t, s, i));
                    if (best < 0 || place < least) {
                        best = i;
                        least = place;
                    }
                }
            if (best < 0) break;
            run[best] = 1;
            left--;
        }
    }
    for (int i = 0; i < n; i++) {
        s->c[i] -= run[i];
        s->p[i] -= s->p[i] > 0;
        late |= s->c[i] > 0 && slack(t, s, i) < 0;
    }
    return late;
}

uint64_t NATIVE(const uint8_t *bytes, const uint8_t *states, const uint8_t *masks, size_t count)
{
    Table t;
    memcpy(&t, bytes, sizeof t);
    uint64_t sum = 0;
    for (size_t k = 0; k < count; k++) {
        State s;
        uint64_t c, p;
        memcpy(&s, states + 16 * k, 16);
        int late = tick(&t, &s, masks[k]);
        memcpy(&c, s.c, 8);
        memcpy(&p, s.p, 8);
        sum += c + p + (uint64_t)late;
    }
    return sum;
}
