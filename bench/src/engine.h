/* What the engines of the benchmark share: the task table, its sheet, the shape of the call, and the columns of the work space. */
#ifndef ENGINE_H
#define ENGINE_H

#include <stdbool.h>
#include <stddef.h>
#include <stdint.h>
#include <string.h>

enum { STATE = 16, SLOT = 21, MOST_SLOTS = 1000000, HEADS = 262144 }; /* STATE and SLOT: bytes of a state and of a slot */

enum { NP_GFP, P_GFP, NP_EDF, P_EDF, P_LST }; /* the policies */

/* Whether a started job keeps its processor. */
static inline bool keeps(int policy) { return policy == NP_GFP || policy == NP_EDF; }

typedef struct {
    uint8_t policy, m, n;
    uint8_t work[8], deadline[8], gap[8];
} Table;

/* Whether jobs of equal time go by age (document 02, §4), or by task number at once, as in document 01 (One tick). */
#ifdef TIES_BY_NUMBER
enum { BY_AGE = 0 };
#else
enum { BY_AGE = 1 };
#endif

/* What puts jobs in order by time left or by slack, the smaller first: of equal times the greater age P - p. */
static inline int order(int time, int age) { return 256 * time - BY_AGE * age; }

/* 0, or the refusal 1 to 8 of a sheet's bytes. */
int read_sheet(const uint8_t *sheet, size_t len, Table *t);

/* The call of every engine: kind x 2^48 + L x 2^24 + N. */
typedef uint64_t Verdict(const uint8_t *sheet, size_t sheet_len, uint8_t *work, size_t work_len,
                         uint8_t *trace, size_t trace_len);

Verdict ronchhek_verdict; /* the library */
Verdict before_verdict;   /* another library's ronchhek_verdict, renamed */
Verdict plain_verdict;    /* plain.c */
Verdict simd_verdict;     /* simd.c */
Verdict best_verdict;     /* best.c */

/* plain.c built with counters: ticks of the hunt and of the store in the last call; and one tick from the 16 bytes of a slot's
   state: 0 kept, 1 missed, 2 illegal mask. */
typedef struct {
    Verdict *verdict;
    uint64_t *hunt, *store;
    int (*step)(const Table *t, const uint8_t *from, unsigned mask, uint8_t *to);
} Counted;
extern const Counted by_age, by_number; /* by_number: built with TIES_BY_NUMBER */

static inline uint64_t packed(uint64_t kind, uint64_t length, uint64_t count)
{
    return kind << 48 | length << 24 | count;
}

/* A work space (document 02, §6): K states, then K parents of 4 bytes, low byte first, then K masks of a byte. */
typedef struct {
    size_t slots; /* K */
    uint8_t *states, *parents, *masks;
} Columns;

static inline Columns columns_of(uint8_t *work, size_t work_len)
{
    size_t k = work_len / SLOT < MOST_SLOTS ? work_len / SLOT : MOST_SLOTS;
    Columns w = {k, work, work + STATE * k, work + (STATE + 4) * k};
    return w;
}

/* 0, or the refusal of a call: 1 to 8 of the sheet's bytes, then 9 and 10 of the lent spaces. */
static inline int refusal_of(const uint8_t *sheet, size_t sheet_len, Table *t, Columns w, size_t trace_len)
{
    int refusal = read_sheet(sheet, sheet_len, t);
    if (refusal) return refusal;
    if (w.slots == 0) return 9;
    return trace_len < w.slots ? 10 : 0;
}

/* The word of a slot in the parents' column: its parent, at the latest when the call is over. */
static inline uint32_t word_of(Columns w, size_t slot)
{
    uint32_t word;
    memcpy(&word, w.parents + 4 * slot, 4);
    return word;
}

static inline void set_word(Columns w, size_t slot, uint32_t word) { memcpy(w.parents + 4 * slot, &word, 4); }

/* The masks on the way to `slot`, then `mask`: `length` bytes. */
static inline void write_trace(Columns w, uint8_t *trace, size_t length, size_t slot, uint8_t mask)
{
    while (length-- > 0) {
        trace[length] = mask;
        mask = w.masks[slot];
        slot = word_of(w, slot);
    }
}

#endif
