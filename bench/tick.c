/* The native tick of src/native.c beside the proved one: both run on the same tables, states and masks, must give the same
   sum, and are timed in turn. Prints the nanoseconds of each and the ratio for every policy and number of processors, six tasks.
   With BEFORE an earlier proved one, under the name before_ticks, runs in turn with them: it gives the sum of the native ticks that
   BEFORE names. */
#include "src/engine.h"

#include <stdio.h>
#include <string.h>
#include <time.h>

typedef struct { uint8_t c[8], p[8]; } State;

/* The proved library: crates/ticks. */
typedef uint64_t Ticks(const uint8_t *table, size_t table_len, const uint8_t *states, size_t states_len, const uint8_t *masks, size_t masks_len);
Ticks ticks, before_ticks;

/* src/native.c, as it is and built with TIES_BY_NUMBER. */
typedef uint64_t Native(const uint8_t *table, const uint8_t *states, const uint8_t *masks, size_t count);
Native native, native_by_number;

enum { PAIRS = 4096, ROUNDS = 40, TRIES = 25 };

static uint32_t seed = 1;
static unsigned draw(unsigned below) {
    seed = seed * 1664525u + 1013904223u;
    return (seed >> 8) % below;
}

/* A proper state: slack 0 or more for every job, and at most m started jobs. */
static void proper(const Table *t, State *s) {
    int started = 0;
    memset(s, 0, 16);
    for (int i = 0; i < t->n; i++) {
        int job = draw(4) > 0;
        s->p[i] = draw(3) ? draw(t->gap[i] + 1) : 0;
        int d = t->deadline[i] - (t->gap[i] - s->p[i]);
        int most = d < t->work[i] ? d : t->work[i];
        if (!job || most < 1) continue;
        int c = 1 + (int)draw((unsigned)most);
        if (c < t->work[i] && started == t->m) c = most == t->work[i] ? most : 0;
        if (c > 0 && c < t->work[i]) started++;
        s->c[i] = (uint8_t)c;
    }
}

static double now(void) {
    struct timespec a;
    clock_gettime(CLOCK_MONOTONIC, &a);
    return (double)a.tv_sec * 1e9 + (double)a.tv_nsec;
}

/* The engines in turn: the proved ticks, the native ones and, where there are any, the earlier proved ones. */
enum { PROVED, NATIVE, EARLIER,
#ifdef BEFORE
       ENGINES = EARLIER + 1
#else
       ENGINES = EARLIER
#endif
};

static uint64_t run(int engine, const uint8_t *bytes, const uint8_t *states, const uint8_t *masks) {
    if (engine == NATIVE) return native(bytes, states, masks, PAIRS);
#ifdef BEFORE
    if (engine == EARLIER) return before_ticks(bytes, 27, states, 16 * PAIRS, masks, PAIRS);
#endif
    return ticks(bytes, 27, states, 16 * PAIRS, masks, PAIRS);
}

int main(void) {
    static uint8_t states[16 * PAIRS], masks[PAIRS];
    static const int cores[] = {1, 2, 3, 4, 8};
    double worst = 0, slower = 0;
    for (int policy = 0; policy <= 4; policy++)
        for (int k = 0; k < 5; k++) {
            uint8_t bytes[27] = {(uint8_t)policy, (uint8_t)cores[k], 6};
            Table t;
            for (int i = 0; i < 6; i++) {
                bytes[3 + i] = (uint8_t)(1 + draw(6));
                bytes[11 + i] = (uint8_t)(bytes[3 + i] + draw(12));
                bytes[19 + i] = (uint8_t)(bytes[11 + i] + draw(12));
            }
            memcpy(&t, bytes, 27);
            for (int j = 0; j < PAIRS; j++) {
                State s;
                unsigned legal = 0;
                proper(&t, &s);
                for (int i = 0; i < 6; i++)
                    if (s.p[i] == 0) legal |= 1u << i;
                memcpy(states + 16 * j, &s, 16);
                masks[j] = (uint8_t)(draw(64) & legal);
            }
            double best[EARLIER + 1];
            volatile uint64_t sink = 0;
            for (int e = 0; e < ENGINES; e++) {
                uint64_t sum = native(bytes, states, masks, PAIRS);
#ifdef BEFORE
                if (e == EARLIER) sum = BEFORE(bytes, states, masks, PAIRS);
#endif
                best[e] = 1e18;
                if (run(e, bytes, states, masks) != sum) {
                    printf("policy %d m %d: the sums differ\n", policy, cores[k]);
                    return 1;
                }
            }
            for (int try = 0; try < TRIES; try++)
                for (int e = 0; e < ENGINES; e++) {
                    double a = now();
                    for (int r = 0; r < ROUNDS; r++) sink += run(e, bytes, states, masks);
                    double b = now();
                    if (b - a < best[e]) best[e] = b - a;
                }
            double each = (double)PAIRS * ROUNDS;
            printf("policy %d m %d: proved %5.1f ns, native %5.1f ns, ratio %.2f", policy, cores[k], best[PROVED] / each, best[NATIVE] / each, best[PROVED] / best[NATIVE]);
            if (ENGINES > EARLIER) printf("; before %5.1f ns, ratio %.2f", best[EARLIER] / each, best[PROVED] / best[EARLIER]);
            printf("\n");
            if (best[PROVED] / best[NATIVE] > worst) worst = best[PROVED] / best[NATIVE];
            if (ENGINES > EARLIER && best[PROVED] / best[EARLIER] > slower) slower = best[PROVED] / best[EARLIER];
        }
    printf("worst ratio %.2f\n", worst);
    if (ENGINES > EARLIER) printf("worst ratio to before %.2f\n", slower);
    return 0;
}
