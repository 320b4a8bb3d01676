/* What the vector engines share: slots with their states as vectors; for each task a key of 16 bits, whose smaller goes first, and the
   ranks of eight keys. A key is
     GFP  the task's number
     EDF  8 d + its turn among equal d
     LST  8 (64 slack + 63 - age) + its number while every D is at most 64, so that slack and age are below 64
     LST  8 slack + its rank by age where some D is above (far)
   and linear in c and p but for that rank: d = D - P + p, slack = d - c, age = P - p. */
#ifndef ORDER_H
#define ORDER_H

#include "engine.h"

#include <immintrin.h>

static inline __m128i slot_state(Columns w, size_t slot)
{
    return _mm_loadu_si128((const __m128i *)(w.states + STATE * slot));
}

static inline void put(Columns w, size_t slot, __m128i s, uint32_t parent, unsigned mask)
{
    _mm_storeu_si128((__m128i *)(w.states + STATE * slot), s);
    set_word(w, slot, parent);
    w.masks[slot] = (uint8_t)mask;
}

enum { NEAR = 64 };

static inline bool is_far(const Table *t)
{
    bool far = false;
    for (int i = 0; i < t->n; i++) far |= t->policy == P_LST && t->deadline[i] > NEAR;
    return far;
}

/* A task's turn, 0 to 7, among jobs of equal d: the age is D - d, so the greater D goes first (document 02, §4), then the number. */
static inline int turn(const Table *t, int i)
{
    int before = 0;
    for (int j = 0; j < 8; j++) before += t->deadline[j] > t->deadline[i] || (t->deadline[j] == t->deadline[i] && j < i);
    return before;
}

/* What a key has from the table. */
static inline int16_t base_of(const Table *t, int i, bool far)
{
    int shift = t->deadline[i] - t->gap[i];
    if (t->policy < NP_EDF) return (int16_t)i;
    if (t->policy < P_LST) return (int16_t)(8 * shift + turn(t, i));
    return (int16_t)(far ? 8 * shift : 8 * (NEAR * shift + NEAR - 1 - t->gap[i]) + i);
}

/* How many of the eight are smaller than each. Two are compared with all at a time, one in either half. */
static inline __m128i ranks(__m128i eight)
{
    const long long lanes = 0x0001000100010001, next = 0x0202 * lanes; /* a lane is taken by its bytes 2j and 2j + 1 */
    __m256i wide = _mm256_broadcastsi128_si256(eight), rank = _mm256_setzero_si256();
    for (int j = 0; j < 8; j += 2) {
        long long one = 0x0100 * lanes + j * next;
        __m256i two = _mm256_shuffle_epi8(wide, _mm256_set_epi64x(one + next, one + next, one, one));
        rank = _mm256_sub_epi16(rank, _mm256_cmpgt_epi16(wide, two));
    }
    return _mm_add_epi16(_mm256_castsi256_si128(rank), _mm256_extracti128_si256(rank, 1));
}

/* The ranks by age, the greater first, then by number. */
static inline __m128i age_ranks(__m128i p, __m128i gap, __m128i lane)
{
    return ranks(_mm_add_epi16(_mm_slli_epi16(_mm_sub_epi16(p, gap), 3), lane));
}

#endif
