/* The fastest native search measured here for the same rules. What each state's masks have in common is done once a state: a task's place in
   the order does not depend on the mask (a releasable task, if released, has time left D, slack D - C and age 0), so the tasks are put in
   order once and a mask's choice is the lowest m bits of the ready ones in that order (one pdep). The table of open addressing holds
   the states themselves, in 8 bytes where their numbers fit in 63 bits, looked up some places behind; the full mask is tried for a
   miss when a state is stored, and the answer waits for the end of its level. */
#include "order.h"

#include <string.h>
#include <sys/mman.h>

enum { BEHIND = 32, FEWEST = 12, MOST = 21 }; /* FEWEST and MOST: bits of a place in the table */
enum { FAR_LST = P_LST + 1 };                /* LST where some D is far has a search of its own */

/* Two spaces, so that a table can grow from one into the other. */
static uint64_t *spaces[2];

typedef struct {
    __m128i fresh;        /* C and P - 1 of each task, as in a slot: what a release leaves before the run */
    __m128i work;         /* C, in 16-bit lanes */
    __m128i shift, gap;   /* D - P and P, in 16-bit lanes */
    __m128i lane, base;   /* a task's number, and what it has from the table in the order */
    uint64_t low, high;   /* the bits that the numbers of tasks 1 to 4 and 5 to 8 can have */
    unsigned low_bits, m;
} Vectors;

/* What the masks of one state share. */
typedef struct {
    __m128i base;        /* the state with p lowered */
    __m128i both, run, runs; /* bit of each task's place: in both bytes; in c's byte with p's 0; the same with p's 1 */
    unsigned free, ready, started, left;
} Ordered;

static inline __m128i bits_at(__m128i place)
{
    const __m128i powers = _mm_set_epi8(0, 0, 0, 0, 0, 0, 0, 0, (char)128, 64, 32, 16, 8, 4, 2, 1);
    return _mm_shuffle_epi8(powers, place);
}

static inline unsigned sum8(__m128i bytes)
{
    __m128i s = _mm_sad_epu8(bytes, _mm_setzero_si128());
    return (unsigned)(_mm_cvtsi128_si32(s) + _mm_extract_epi16(s, 4));
}

/* The tasks' places in the order, no two the same, from c and p with every releasable task (none) released. */
static inline __m128i places(__m128i c, __m128i p, __m128i none, const Vectors *v, int policy)
{
    if (policy < NP_EDF) return v->lane;
    p = _mm_or_si128(p, _mm_and_si128(none, v->gap));
    c = _mm_or_si128(c, _mm_and_si128(none, v->work));
    __m128i key = _mm_add_epi16(_mm_slli_epi16(p, 3), v->base);
    if (policy == P_LST) key = _mm_add_epi16(key, _mm_slli_epi16(_mm_sub_epi16(p, c), 9)); /* 8 NEAR is 2^9 */
    if (policy == FAR_LST) key = _mm_add_epi16(_mm_sub_epi16(key, _mm_slli_epi16(c, 3)), age_ranks(p, v->gap, v->lane));
    return ranks(key);
}

static inline Ordered ordered(__m128i s, const Vectors *v, int policy)
{
    const __m128i zero = _mm_setzero_si128(), low = _mm_set1_epi16(0xFF);
    __m128i c = _mm_and_si128(s, low), p = _mm_srli_epi16(s, 8);
    __m128i none = _mm_cmpeq_epi16(p, zero);
    __m128i ready = _mm_cmpgt_epi16(c, zero);
    __m128i bit = _mm_and_si128(bits_at(places(c, p, none, v, policy)), low); /* in c's byte of each task */
    Ordered o;
    o.base = _mm_subs_epu8(s, _mm_set1_epi16(0x0100));
    o.both = _mm_or_si128(bit, _mm_slli_epi16(bit, 8));
    o.run = bit;
    o.runs = _mm_or_si128(bit, _mm_set1_epi16(0x0100));
    o.free = sum8(_mm_and_si128(bit, _mm_and_si128(none, _mm_cmpgt_epi16(v->work, zero))));
    o.ready = sum8(_mm_and_si128(bit, ready));
    o.started = 0;
    o.left = (1u << v->m) - 1;
    if (keeps(policy)) {
        o.started = sum8(_mm_and_si128(bit, _mm_and_si128(ready, _mm_cmpgt_epi16(v->work, c))));
        o.ready &= ~o.started;
        o.left = (1u << (v->m - (unsigned)_mm_popcnt_u32(o.started))) - 1;
    }
    return o;
}

/* A mask's bits stand at the tasks' places. All ones where a task is released. */
static inline __m128i released(const Ordered *o, unsigned places)
{
    return _mm_cmpeq_epi8(_mm_and_si128(_mm_set1_epi8((char)places), o->both), o->both);
}

static inline __m128i tick(const Ordered *o, const Vectors *v, unsigned places)
{
    unsigned run = o->started | _pdep_u32(o->left, o->ready | places);
    __m128i runs = _mm_cmpeq_epi8(_mm_and_si128(_mm_set1_epi8((char)run), o->run), o->runs);
    __m128i after = _mm_or_si128(o->base, _mm_and_si128(released(o, places), v->fresh));
    return _mm_add_epi8(after, runs);
}

static inline unsigned mask_of(const Ordered *o, unsigned places)
{
    __m128i out = released(o, places);
    return (unsigned)_mm_movemask_epi8(_mm_packs_epi16(out, out)) & 0xFF;
}

static inline bool missed(__m128i s, const Vectors *v)
{
    __m128i c = _mm_and_si128(s, _mm_set1_epi16(0xFF)), p = _mm_srli_epi16(s, 8);
    __m128i late = _mm_and_si128(_mm_cmpgt_epi16(c, _mm_setzero_si128()), _mm_cmpgt_epi16(c, _mm_add_epi16(p, v->shift)));
    return _mm_movemask_epi8(late) != 0;
}

/* A state in the table: 8 bytes made by gathering the bits that its numbers can have, or the 16 bytes as they are; the low 8 are mixed by
   steps that have a way back, so that they are the hash as well. No key is 0: the top bit is set before the mixing in the first, and a p
   is at most 200 in the second. */
typedef struct { uint64_t low, high; } Key;

static inline Key key_of(__m128i s, const Vectors *v, bool small)
{
    uint64_t low = (uint64_t)_mm_cvtsi128_si64(s), high = (uint64_t)_mm_extract_epi64(s, 1);
    Key k = {low ^ ~high * 0x9E3779B97F4A7C15u, ~high};
    if (small) {
        k.low = _pext_u64(low, v->low) | _pext_u64(high, v->high) << v->low_bits | (uint64_t)1 << 63;
        k.high = 0;
    }
    k.low *= 0xD6E8FEB86659FD93u;
    return k;
}

/* A key's place in a table of 2^bits, its top bits. */
static inline size_t home(Key k, unsigned bits) { return k.low >> (64 - bits); }

static inline Key key_at(const uint64_t *set, size_t at, bool small)
{
    Key k = {set[small ? at : 2 * at], small ? 0 : set[2 * at + 1]};
    return k;
}

static inline void set_key(uint64_t *set, size_t at, Key k, bool small)
{
    set[small ? at : 2 * at] = k.low;
    if (!small) set[2 * at + 1] = k.high;
}

static inline bool no_key(Key k) { return (k.low | k.high) == 0; }

/* The keys of `from` in a larger table. A home is a key's top bits, so that both tables are walked in the same order. */
static void grow(uint64_t *to, unsigned bits, const uint64_t *from, unsigned from_bits, bool small)
{
    size_t size = (size_t)1 << bits;
    memset(to, 0, size * (small ? 8 : 16));
    for (size_t i = 0; i < (size_t)1 << from_bits; i++) {
        Key k = key_at(from, i, small);
        if (no_key(k)) continue;
        size_t at = home(k, bits);
        while (!no_key(key_at(to, at, small))) at = (at + 1) & (size - 1);
        set_key(to, at, k, small);
    }
}

static inline __attribute__((always_inline)) uint64_t
search(const Vectors *v, Columns w, uint8_t *trace, int policy, bool small)
{
    struct { __m128i state; Key key; uint32_t parent, mask; } ring[BEHIND];
    unsigned bits = FEWEST;
    uint64_t *set = spaces[0], *other = spaces[1];
    memset(set, 0, (size_t)(small ? 8 : 16) << bits);
    put(w, 0, _mm_setzero_si128(), 0, 0);
    Key start = key_of(_mm_setzero_si128(), v, small);
    set_key(set, home(start, bits), start, small);
    size_t n = 1, bad = MOST_SLOTS;
    {
        Ordered o = ordered(_mm_setzero_si128(), v, policy);
        if (missed(tick(&o, v, o.free), v)) bad = 0;
    }
    for (size_t first = 0, level = 0;; level++) {
        size_t last = n;
        if (bad < last) {
            Ordered o = ordered(slot_state(w, bad), v, policy);
            write_trace(w, trace, level + 1, bad, (uint8_t)mask_of(&o, o.free));
            return packed(2, level + 1, n);
        }
        size_t made = 0, done = 0, i = first;
        bool more = true;
        Ordered o = ordered(slot_state(w, i), v, policy);
        unsigned places = 0;
        while (more || done < made) {
            if (more) {
                __m128i after = tick(&o, v, places);
                Key key = key_of(after, v, small);
                _mm_prefetch((const char *)&set[home(key, bits) * (small ? 1 : 2)], _MM_HINT_T0);
                size_t at = made++ % BEHIND;
                ring[at].state = after;
                ring[at].key = key;
                ring[at].parent = (uint32_t)i;
                ring[at].mask = mask_of(&o, places);
                places = (places - o.free) & o.free;
                if (places == 0) {
                    more = ++i < last;
                    if (more) o = ordered(slot_state(w, i), v, policy);
                }
                if (made - done < BEHIND && more) continue;
            }
            size_t from = done++ % BEHIND;
            Key key = ring[from].key;
            size_t at = home(key, bits);
            for (;; at = (at + 1) & (((size_t)1 << bits) - 1)) {
                Key entry = key_at(set, at, small);
                if (entry.low == key.low && entry.high == key.high) break;
                if (no_key(entry)) {
                    if (n == w.slots) return packed(3, 0, n);
                    set_key(set, at, key, small);
                    put(w, n, ring[from].state, ring[from].parent, ring[from].mask);
                    if (bad == MOST_SLOTS) {
                        Ordered next = ordered(ring[from].state, v, policy);
                        if (missed(tick(&next, v, next.free), v)) bad = n;
                    }
                    n++;
                    if (2 * n > (size_t)1 << bits && bits < MOST) {
                        unsigned wider = bits + 2 < MOST ? bits + 2 : MOST;
                        grow(other, wider, set, bits, small);
                        uint64_t *narrow = set;
                        set = other;
                        other = narrow;
                        bits = wider;
                    }
                    break;
                }
            }
        }
        if (n == last) return packed(1, 0, n);
        first = last;
    }
}

/* The least 2^b - 1 from `most` on. */
static uint64_t bits_up_to(unsigned most)
{
    uint64_t all = 0;
    while (all < most) all = 2 * all + 1;
    return all;
}

static void *huge(size_t len)
{
    uint8_t *at = mmap(NULL, len + (2 << 20), PROT_READ | PROT_WRITE, MAP_PRIVATE | MAP_ANONYMOUS, -1, 0);
    if (at == MAP_FAILED) return NULL;
    at += (-(uintptr_t)at) & ((2 << 20) - 1);
    madvise(at, len, MADV_HUGEPAGE);
    return at;
}

uint64_t best_verdict(const uint8_t *sheet, size_t sheet_len, uint8_t *work, size_t work_len, uint8_t *trace,
                      size_t trace_len)
{
    Table t;
    Columns w = columns_of(work, work_len);
    int refusal = refusal_of(sheet, sheet_len, &t, w, trace_len);
    if (refusal) return packed(0, 0, (uint64_t)refusal);
    for (int k = 0; k < 2; k++)
        if (!spaces[k] && !(spaces[k] = huge((size_t)16 << MOST))) return 0;

    _Alignas(16) int16_t fresh[8], work_of[8], shift[8], gap[8], lane[8], base[8];
    bool far = is_far(&t);
    for (int i = 0; i < 8; i++) {
        fresh[i] = (int16_t)(i < t.n ? t.work[i] | (t.gap[i] - 1) << 8 : 0);
        work_of[i] = t.work[i];
        shift[i] = (int16_t)(t.deadline[i] - t.gap[i]);
        gap[i] = t.gap[i];
        lane[i] = (int16_t)i;
        base[i] = base_of(&t, i, far);
    }
    Vectors v;
    v.fresh = _mm_load_si128((const __m128i *)fresh);
    v.work = _mm_load_si128((const __m128i *)work_of);
    v.shift = _mm_load_si128((const __m128i *)shift);
    v.gap = _mm_load_si128((const __m128i *)gap);
    v.lane = _mm_load_si128((const __m128i *)lane);
    v.base = _mm_load_si128((const __m128i *)base);
    v.m = t.m;
    v.low = v.high = 0;
    for (int i = 0; i < t.n; i++) {
        uint64_t *half = i < 4 ? &v.low : &v.high;
        *half |= (bits_up_to(t.work[i]) | bits_up_to(t.gap[i]) << 8) << 16 * (i % 4);
    }
    v.low_bits = (unsigned)_mm_popcnt_u64(v.low);
    bool small = v.low_bits + _mm_popcnt_u64(v.high) < 64 && v.low_bits < 64;
    if (far) return search(&v, w, trace, FAR_LST, false);
    switch (t.policy * 2 + small) {
    case 0: return search(&v, w, trace, NP_GFP, false);
    case 1: return search(&v, w, trace, NP_GFP, true);
    case 2: return search(&v, w, trace, P_GFP, false);
    case 3: return search(&v, w, trace, P_GFP, true);
    case 4: return search(&v, w, trace, NP_EDF, false);
    case 5: return search(&v, w, trace, NP_EDF, true);
    case 6: return search(&v, w, trace, P_EDF, false);
    case 7: return search(&v, w, trace, P_EDF, true);
    case 8: return search(&v, w, trace, P_LST, false);
    default: return search(&v, w, trace, P_LST, true);
    }
}
