/* The library's design in plain scalar C: chains through the parents' column, 262,144 heads, the library's hash, legal masks
   only, and the full mask of a slot tried first in the hunt. The tick goes task by task, and the heads have no tags. Built again
   with COUNT, the name that the build with counters has in engine.h.

   While the search runs, a slot's word in the parents' column is its link, which is 0 or one more than an earlier slot of its bucket,
   and LINKS times parent % BLOCK. Successors are stored slot by slot, so parents never fall from one slot to the next: those from
   BLOCK b to BLOCK b + BLOCK - 1 are the parents of slots in a row, and ends[b] is the slot after these, MOST_SLOTS while there may be
   more of them. A last pass makes parents of the words. */
#include "engine.h"

#include <string.h>

#ifdef COUNT
#define plain_verdict counted_verdict
static Verdict counted_verdict;
static uint64_t hunt_ticks, store_ticks;
#define TICKED(counter) (counter)++
#else
#define TICKED(counter) (void)0
#endif

enum { LINKS = 1 << 20, BLOCK = 4096, BLOCKS = MOST_SLOTS / BLOCK + 1 };

typedef struct { uint8_t c[8], p[8]; } State;

static State release(State s, const Table *t, unsigned mask)
{
    for (int i = 0; i < t->n; i++)
        if (mask >> i & 1) {
            s.c[i] = t->work[i];
            s.p[i] = t->gap[i];
        }
    return s;
}

static int age(const State *s, const Table *t, int i) { return t->gap[i] - s->p[i]; }

static int time_left(const State *s, const Table *t, int i) { return t->deadline[i] - age(s, t, i); }

static unsigned choose(const State *s, const Table *t)
{
    unsigned run = 0;
    int left = t->m;
    if (keeps(t->policy))
        for (int i = 0; i < t->n; i++)
            if (s->c[i] > 0 && s->c[i] < t->work[i]) {
                run |= 1u << i;
                left--;
            }
    if (t->policy < NP_EDF) {
        for (int i = 0; i < t->n && left > 0; i++)
            if (s->c[i] > 0 && !(run >> i & 1)) {
                run |= 1u << i;
                left--;
            }
    } else {
        int counted = t->policy == P_LST ? 0xFF : 0; /* the slack is the time left less the work left */
        for (; left > 0; left--) {
            int first = -1, least = 0;
            for (int i = 0; i < t->n; i++)
                if (s->c[i] > 0 && !(run >> i & 1)) {
                    int place = order(time_left(s, t, i) - (s->c[i] & counted), age(s, t, i));
                    if (first < 0 || place < least) {
                        first = i;
                        least = place;
                    }
                }
            if (first < 0) break;
            run |= 1u << first;
        }
    }
    return run;
}

static State tick(State s, const Table *t, unsigned mask)
{
    s = release(s, t, mask);
    unsigned run = choose(&s, t);
    for (int i = 0; i < t->n; i++) {
        if (run >> i & 1) s.c[i]--;
        if (s.p[i] > 0) s.p[i]--;
    }
    return s;
}

static bool missed(const State *s, const Table *t)
{
    for (int i = 0; i < t->n; i++)
        if (s->c[i] > 0 && time_left(s, t, i) < s->c[i]) return true;
    return false;
}

static unsigned releasable(const State *s, const Table *t)
{
    unsigned mask = 0;
    for (int i = 0; i < t->n; i++)
        if (s->p[i] == 0) mask |= 1u << i;
    return mask;
}

static State load(const uint8_t *at)
{
    State s;
    for (int i = 0; i < 8; i++) {
        s.c[i] = at[2 * i];
        s.p[i] = at[2 * i + 1];
    }
    return s;
}

typedef struct { uint8_t b[STATE]; } Bytes;

static Bytes bytes_of(const State *s)
{
    Bytes b;
    for (int i = 0; i < 8; i++) {
        b.b[2 * i] = s->c[i];
        b.b[2 * i + 1] = s->p[i];
    }
    return b;
}

static size_t bucket(const Bytes *b)
{
    uint32_t w[4];
    memcpy(w, b->b, STATE);
    uint64_t x = (uint64_t)625341585 * w[0] + (uint64_t)1013904223 * w[1] + (uint64_t)668265261 * w[2] + (uint64_t)374761393 * w[3];
    return ((x >> 32) + (uint32_t)x) % HEADS;
}

static void put(Columns w, size_t slot, const Bytes *b, uint32_t link, uint32_t parent, unsigned mask)
{
    memcpy(w.states + STATE * slot, b->b, STATE);
    set_word(w, slot, link + parent % BLOCK * LINKS);
    w.masks[slot] = (uint8_t)mask;
}

static bool held(Columns w, uint32_t head, const Bytes *b)
{
    for (uint32_t cur = head; cur > 0; cur = word_of(w, cur - 1) % LINKS)
        if (memcmp(w.states + STATE * (size_t)(cur - 1), b->b, STATE) == 0) return true;
    return false;
}

/* Parents in place of the words: a parent's block is the first that ends after the slot. */
static void settle(Columns w, size_t n, const uint32_t *ends)
{
    uint32_t block = 0;
    for (size_t j = 0; j < n; j++) {
        while (ends[block] <= j) block++;
        set_word(w, j, BLOCK * block + word_of(w, j) / LINKS);
    }
}

/* The answer, and under Unsafe the slot and mask of the miss. */
typedef struct { size_t kind, length, count, slot; unsigned mask; } Found;

static Found search(const Table *t, Columns w, uint32_t *heads, uint32_t *ends)
{
    Bytes start = {{0}};
    put(w, 0, &start, 0, 0, 0);
    heads[bucket(&start)] = 1;
    size_t n = 1;
    for (size_t first = 0, level = 0;; level++) {
        size_t last = n;
        for (size_t i = first; i < last; i++) {
            State s = load(w.states + STATE * i);
            unsigned free = releasable(&s, t), mask = 0;
            State after = tick(s, t, free);
            TICKED(hunt_ticks);
            if (!missed(&after, t)) continue;
            for (;; mask = (mask - free) & free) {
                after = tick(s, t, mask);
                TICKED(hunt_ticks);
                if (missed(&after, t)) return (Found){2, level + 1, n, i, mask};
            }
        }
        for (size_t i = first; i < last; i++) {
            State s = load(w.states + STATE * i);
            unsigned free = releasable(&s, t), mask = 0;
            do {
                State after = tick(s, t, mask);
                TICKED(store_ticks);
                Bytes b = bytes_of(&after);
                size_t at = bucket(&b);
                if (!held(w, heads[at], &b)) {
                    if (n == w.slots) return (Found){3, 0, n, 0, 0};
                    put(w, n, &b, heads[at], (uint32_t)i, mask);
                    heads[at] = (uint32_t)++n;
                }
                mask = (mask - free) & free;
            } while (mask != 0);
            if (i % BLOCK == BLOCK - 1) ends[i / BLOCK] = (uint32_t)n;
        }
        if (n == last) return (Found){1, 0, n, 0, 0};
        first = last;
    }
}

uint64_t plain_verdict(const uint8_t *sheet, size_t sheet_len, uint8_t *work, size_t work_len, uint8_t *trace,
                       size_t trace_len)
{
    Table t;
    Columns w = columns_of(work, work_len);
    int refusal = refusal_of(sheet, sheet_len, &t, w, trace_len);
    if (refusal) return packed(0, 0, (uint64_t)refusal);
    uint32_t heads[HEADS], ends[BLOCKS];
    memset(heads, 0, sizeof heads);
    for (int b = 0; b < BLOCKS; b++) ends[b] = MOST_SLOTS;
#ifdef COUNT
    hunt_ticks = store_ticks = 0;
#endif
    Found found = search(&t, w, heads, ends);
    settle(w, found.count, ends);
    write_trace(w, trace, found.length, found.slot, (uint8_t)found.mask);
    return packed(found.kind, found.length, found.count);
}

#ifdef COUNT
static int step(const Table *t, const uint8_t *from, unsigned mask, uint8_t *to)
{
    State s = load(from);
    if (mask & ~releasable(&s, t)) return 2;
    s = tick(s, t, mask);
    Bytes b = bytes_of(&s);
    memcpy(to, b.b, STATE);
    return missed(&s, t);
}

const Counted COUNT = {counted_verdict, &hunt_ticks, &store_ticks, step};
#endif
