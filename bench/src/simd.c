/* A native search with each tick in vector instructions (eight lanes of 16 bits), an open-addressing table of slot numbers beside
   the slots, and successors looked up some places behind the tick that made them, so that their table lines are there by then. */
#include "order.h"

#include <string.h>

enum { BEHIND = 16, FEWEST = 1 << 12, MOST = 1 << 21 };

typedef struct {
    __m128i work, gap, shift; /* shift is D - P */
    __m128i limit;            /* m */
    __m128i base, by_c, by_p; /* a task's key is base + by_c c + by_p p */
    __m128i lane;
    __m128i keeps;            /* all ones where a started job stays */
    uint8_t tasks;
} Vectors;

static _Alignas(64) uint32_t index_space[MOST];
static _Alignas(16) uint16_t lanes_of[256][8];

static Vectors vectors_of(const Table *t, bool far)
{
    _Alignas(16) int16_t work[8], gap[8], shift[8], base[8], lane[8];
    for (int i = 0; i < 8; i++) {
        work[i] = t->work[i];
        gap[i] = t->gap[i];
        shift[i] = (int16_t)(t->deadline[i] - t->gap[i]);
        base[i] = base_of(t, i, far);
        lane[i] = (int16_t)i;
    }
    Vectors v;
    v.work = _mm_load_si128((const __m128i *)work);
    v.gap = _mm_load_si128((const __m128i *)gap);
    v.shift = _mm_load_si128((const __m128i *)shift);
    v.base = _mm_load_si128((const __m128i *)base);
    v.lane = _mm_load_si128((const __m128i *)lane);
    bool early = t->policy >= NP_EDF, least = t->policy == P_LST;
    v.by_c = _mm_set1_epi16((int16_t)(!least ? 0 : far ? -8 : -8 * NEAR));
    v.by_p = _mm_set1_epi16((int16_t)(!early ? 0 : !least || far ? 8 : 8 * (NEAR + 1)));
    v.limit = _mm_set1_epi16(t->m);
    v.keeps = _mm_set1_epi16(keeps(t->policy) ? -1 : 0);
    v.tasks = (uint8_t)((1u << t->n) - 1);
    return v;
}

/* c and p of a state after a tick, in 16-bit lanes. */
typedef struct { __m128i c, p; } Pair;

static inline Pair tick(__m128i c, __m128i p, const Vectors *v, unsigned mask, bool far)
{
    const __m128i zero = _mm_setzero_si128();
    __m128i out = _mm_load_si128((const __m128i *)lanes_of[mask]);
    c = _mm_or_si128(c, _mm_and_si128(out, v->work));
    p = _mm_or_si128(p, _mm_and_si128(out, v->gap));
    __m128i ready = _mm_cmpgt_epi16(c, zero);
    __m128i started = _mm_and_si128(v->keeps, _mm_and_si128(ready, _mm_cmpgt_epi16(v->work, c)));
    __m128i key = _mm_add_epi16(v->base, _mm_add_epi16(_mm_mullo_epi16(v->by_c, c), _mm_mullo_epi16(v->by_p, p)));
    if (far) key = _mm_add_epi16(key, age_ranks(p, v->gap, v->lane));
    /* A place for each task: -1 where it keeps its core, else its key, or the last place where not ready. */
    __m128i place = _mm_or_si128(_mm_blendv_epi8(_mm_set1_epi16(0x7FFF), key, ready), started);
    __m128i run = _mm_and_si128(ready, _mm_cmpgt_epi16(v->limit, ranks(place)));
    Pair after = {_mm_add_epi16(c, run), _mm_subs_epu16(p, _mm_set1_epi16(1))};
    return after;
}

static inline bool missed(Pair s, const Vectors *v)
{
    __m128i late = _mm_and_si128(_mm_cmpgt_epi16(s.c, _mm_setzero_si128()),
                                 _mm_cmpgt_epi16(s.c, _mm_add_epi16(s.p, v->shift)));
    return _mm_movemask_epi8(late) != 0;
}

static inline __m128i joined(Pair s) { return _mm_or_si128(s.c, _mm_slli_epi16(s.p, 8)); }

static inline unsigned releasable(__m128i p, const Vectors *v)
{
    __m128i none = _mm_cmpeq_epi16(p, _mm_setzero_si128());
    return (unsigned)_mm_movemask_epi8(_mm_packs_epi16(none, none)) & v->tasks;
}

static inline uint32_t mixed(__m128i s)
{
    uint64_t low = (uint64_t)_mm_cvtsi128_si64(s), high = (uint64_t)_mm_extract_epi64(s, 1);
    uint64_t h = (low ^ high * 0x9E3779B97F4A7C15u) * 0xD6E8FEB86659FD93u;
    return (uint32_t)((h ^ h >> 32) * 0x9E3779B97F4A7C15u >> 32);
}

static size_t grown(Columns w, size_t size, size_t n)
{
    size *= 4;
    if (size > MOST) size = MOST;
    memset(index_space, 0, size * sizeof *index_space);
    for (size_t i = 0; i < n; i++) {
        size_t at = mixed(slot_state(w, i)) & (size - 1);
        while (index_space[at]) at = (at + 1) & (size - 1);
        index_space[at] = (uint32_t)i + 1;
    }
    return size;
}

static inline __attribute__((always_inline)) uint64_t
search(const Vectors *v, Columns w, uint8_t *trace, bool far)
{
    const __m128i low = _mm_set1_epi16(0xFF);
    struct { __m128i state; uint32_t hash, parent, mask; } ring[BEHIND];
    size_t size = FEWEST / 4;
    put(w, 0, _mm_setzero_si128(), 0, 0);
    size = grown(w, size, 1);
    size_t n = 1;
    for (size_t first = 0, level = 0;; level++) {
        size_t last = n;
        for (size_t i = first; i < last; i++) {
            __m128i s = slot_state(w, i), c = _mm_and_si128(s, low), p = _mm_srli_epi16(s, 8);
            unsigned free = releasable(p, v);
            if (!missed(tick(c, p, v, free, far), v)) continue;
            for (unsigned mask = 0;; mask = (mask - free) & free)
                if (missed(tick(c, p, v, mask, far), v)) {
                    write_trace(w, trace, level + 1, i, (uint8_t)mask);
                    return packed(2, level + 1, n);
                }
        }
        size_t made = 0, done = 0, i = first;
        bool more = i < last;
        __m128i s = slot_state(w, i), c = _mm_and_si128(s, low), p = _mm_srli_epi16(s, 8);
        unsigned free = releasable(p, v), mask = 0;
        while (more || done < made) {
            if (more) {
                __m128i after = joined(tick(c, p, v, mask, far));
                uint32_t hash = mixed(after);
                _mm_prefetch((const char *)&index_space[hash & (size - 1)], _MM_HINT_T0);
                size_t at = made++ % BEHIND;
                ring[at].state = after;
                ring[at].hash = hash;
                ring[at].parent = (uint32_t)i;
                ring[at].mask = mask;
                mask = (mask - free) & free;
                if (mask == 0) {
                    more = ++i < last;
                    s = slot_state(w, more ? i : 0);
                    c = _mm_and_si128(s, low);
                    p = _mm_srli_epi16(s, 8);
                    free = releasable(p, v);
                }
                if (made - done < BEHIND && more) continue;
            }
            size_t from = done++ % BEHIND;
            __m128i seek = ring[from].state;
            size_t at = ring[from].hash & (size - 1);
            for (;; at = (at + 1) & (size - 1)) {
                uint32_t entry = index_space[at];
                if (entry == 0) {
                    if (n == w.slots) return packed(3, 0, n);
                    put(w, n, seek, ring[from].parent, ring[from].mask);
                    index_space[at] = (uint32_t)++n;
                    if (2 * n > size && size < MOST) size = grown(w, size, n);
                    break;
                }
                __m128i same = _mm_cmpeq_epi8(slot_state(w, entry - 1), seek);
                if (_mm_movemask_epi8(same) == 0xFFFF) break;
            }
        }
        if (n == last) return packed(1, 0, n);
        first = last;
    }
}

uint64_t simd_verdict(const uint8_t *sheet, size_t sheet_len, uint8_t *work, size_t work_len, uint8_t *trace,
                      size_t trace_len)
{
    Table t;
    Columns w = columns_of(work, work_len);
    int refusal = refusal_of(sheet, sheet_len, &t, w, trace_len);
    if (refusal) return packed(0, 0, (uint64_t)refusal);
    for (int m = 0; m < 256; m++)
        for (int i = 0; i < 8; i++) lanes_of[m][i] = m >> i & 1 ? 0xFFFF : 0;
    bool far = is_far(&t);
    const Vectors v = vectors_of(&t, far);
    return far ? search(&v, w, trace, true) : search(&v, w, trace, false);
}
