/* Times the engines on one sheet: driver FIRST HEX. Each engine is lent a work and trace space of 1,000,000 slots, touched
   before, and called until a fixed share of time has passed, in turn from the engine numbered FIRST on; the processor time of a
   call is printed in nanoseconds. Every answer, slot and trace is checked first; a disagreement ends the program. An engine agrees
   with the plain search by_age and writes columns; the library before agrees with the one that BEFORE names, and its slots stand as
   BEFORE_LAYOUT names. */
#include "timing.h"

enum { ROW = 24, ODD = SLOT - 1, SPACE = ROW * MOST_SLOTS + ODD, FILL = 0xA5 }; /* ODD: bytes lent after the slots */

/* A field of slot i stands in `bytes` bytes of the work space, from byte from + step * i on. */
typedef struct { size_t from, step, bytes; } Field;

typedef struct { size_t slot; Field state, parent, mask; } Layout;

enum { COLUMNS, ROWS };
static const Layout layouts[] = {
    [COLUMNS] = {SLOT, {0, STATE, STATE}, {STATE * MOST_SLOTS, 4, 4}, {(STATE + 4) * MOST_SLOTS, 1, 1}}, /* document 02, §6 */
    [ROWS] = {ROW, {0, ROW, STATE}, {STATE, ROW, 4}, {STATE + 4, ROW, 4}}, /* document 01: three zero bytes follow the mask */
};

typedef struct {
    const char *name;
    Verdict *verdict;
    const Counted *like;
    int layout;
} Engine;

static const Engine engines[] = {
#ifdef LIBRARY
    {"library", ronchhek_verdict, &by_age, COLUMNS},
#endif
#ifdef BEFORE
    {"before", before_verdict, &BEFORE, BEFORE_LAYOUT},
#endif
    {"plain", plain_verdict, &by_age, COLUMNS},
    {"simd", simd_verdict, &by_age, COLUMNS},
    {"best", best_verdict, &by_age, COLUMNS},
};
enum { ENGINES = sizeof engines / sizeof engines[0] };

static uint8_t sheet[MOST_SHEET], *work, *trace;
static size_t sheet_len;

static const uint8_t *place(const Field *f, size_t slot) { return work + f->from + f->step * slot; }

/* A field of at most 4 bytes. */
static uint32_t number(const Field *f, size_t slot)
{
    uint32_t v = 0;
    memcpy(&v, place(f, slot), f->bytes);
    return v;
}

static uint64_t word(const uint8_t *at)
{
    uint64_t w;
    memcpy(&w, at, 8);
    return w;
}

/* The same for two spaces that hold the same states in any order. */
static uint64_t digest(const Engine *e, size_t n)
{
    uint64_t sum = 0;
    for (size_t i = 0; i < n; i++) {
        const uint8_t *state = place(&layouts[e->layout].state, i);
        uint64_t h = (word(state) ^ 0x9E3779B97F4A7C15u) * 0xD6E8FEB86659FD93u;
        h = (h ^ h >> 32 ^ word(state + 8)) * 0xC2B2AE3D27D4EB4Fu;
        sum += h ^ h >> 29;
    }
    return sum;
}

static bool stay(const uint8_t *from, const uint8_t *to)
{
    while (from < to && *from == FILL) from++;
    return from == to;
}

/* The slot rule in the first n slots, and that all other work bytes stay. */
static void check_slots(const Engine *e, const Table *t, size_t n)
{
    const Layout *w = &layouts[e->layout];
    const Field *fields[] = {&w->state, &w->parent, &w->mask};
    static const uint8_t start[STATE];
    if (memcmp(place(&w->state, 0), start, STATE) != 0 || number(&w->parent, 0) || number(&w->mask, 0))
        fail(e->name, "slot 0 is not the start");
    for (size_t i = 1; i < n; i++) {
        uint32_t parent = number(&w->parent, i), mask = number(&w->mask, i);
        uint8_t to[STATE];
        if (parent >= i || mask > 0xFF) fail(e->name, "slot not formed");
        if (e->like->step(t, place(&w->state, parent), mask, to) != 0 || memcmp(to, place(&w->state, i), STATE) != 0)
            fail(e->name, "slot rule broken");
    }
    for (int f = 0; f < 3; f++)
        for (size_t i = n; i < MOST_SLOTS; i++)
            if (!stay(place(fields[f], i), place(fields[f], i) + fields[f]->bytes)) fail(e->name, "an unwritten slot changed");
    if (!stay(work + w->slot * MOST_SLOTS, work + SPACE)) fail(e->name, "bytes after the slots changed");
}

/* That the first `length` trace bytes miss at their last, and that the others stay. */
static void check_trace(const Engine *e, const Table *t, size_t length)
{
    uint8_t s[STATE] = {0}, to[STATE];
    for (size_t i = 0; i < length; i++) {
        if (e->like->step(t, s, trace[i], to) != (i + 1 == length)) fail(e->name, "trace does not replay");
        memcpy(s, to, STATE);
    }
    if (!stay(trace + length, trace + MOST_SLOTS)) fail(e->name, "later trace bytes changed");
}

static void check(const Engine *e, const Table *t, uint64_t answer)
{
    size_t kind = answer >> 48, length = answer >> 24 & 0xFFFFFF, n = answer & 0xFFFFFF;
    if (kind == 0) fail(e->name, "refused");
    if (n == 0 || n > MOST_SLOTS || length > MOST_SLOTS) fail(e->name, "count out of range");
    check_slots(e, t, n);
    check_trace(e, t, length);
}

static uint64_t call(const Engine *e)
{
    return e->verdict(sheet, sheet_len, work, layouts[e->layout].slot * MOST_SLOTS + ODD, trace, MOST_SLOTS);
}

static uint64_t first_call(const Engine *e)
{
    memset(work, FILL, SPACE);
    memset(trace, FILL, MOST_SLOTS);
    return call(e);
}

/* What a plain search with counters tells. */
typedef struct { uint64_t answer, states, hunt, store; } Told;

static Told told_by(const Counted *like, const Table *t)
{
    const Engine counted = {"counted", like->verdict, like, COLUMNS};
    uint64_t answer = first_call(&counted);
    check(&counted, t, answer);
    Told told = {answer, digest(&counted, answer & 0xFFFFFF), *like->hunt, *like->store};
    return told;
}

static void print_told(const Told *told)
{
    printf("\"kind\":%d,\"length\":%d,\"count\":%d,\"hunt\":%llu,\"store\":%llu", (int)(told->answer >> 48),
           (int)(told->answer >> 24 & 0xFFFFFF), (int)(told->answer & 0xFFFFFF), (unsigned long long)told->hunt,
           (unsigned long long)told->store);
}

/* The time of an engine's call after one that is checked beside what the plain search told. */
static double checked(const Engine *e, const Table *t, const Told *told)
{
    uint64_t mine = first_call(e), free_choice = mine >> 48 == 3;
    if (mine != told->answer) fail(e->name, "another answer than plain");
    check(e, t, mine);
    if (!free_choice && digest(e, mine & 0xFFFFFF) != told->states) fail(e->name, "other states than plain");
    double from = now();
    call(e);
    return now() - from;
}

/* The time of a call, of as many as fill a share where one took `once`. */
static double timed(const Engine *e, double once, uint64_t answer)
{
    int calls = calls_for(once);
    double from = now();
    for (int i = 0; i < calls; i++)
        if (call(e) != answer) fail(e->name, "changed answer");
    return (now() - from) / calls;
}

int main(int argc, char **argv)
{
    if (argc != 3) fail("driver", "give the number of the first engine and the sheet in hexadecimal");
    int first = atoi(argv[1]);
    sheet_len = sheet_of(argv[2], sheet);
    Table t;
    if (read_sheet(sheet, sheet_len, &t)) fail("driver", "sheet refused");
    work = malloc(SPACE);
    trace = malloc(MOST_SLOTS);
    if (!work || !trace) fail("driver", "no memory");

    const Told own = told_by(&by_age, &t);
#ifdef BEFORE
    const Told before = told_by(&BEFORE, &t);
#else
    const Told before = own;
#endif
    const Told *told[ENGINES];
    double once[ENGINES];
    for (int e = 0; e < ENGINES; e++) {
        told[e] = engines[e].like == &by_age ? &own : &before;
        once[e] = checked(&engines[e], &t, told[e]);
    }

    printf("{");
    print_told(&own);
    printf(",\"before\":{");
    print_told(&before);
    printf("},\"ns\":{");
    for (int k = 0; k < ENGINES; k++) {
        int e = (k + first) % ENGINES;
        printf("%s\"%s\":%.0f", k ? "," : "", engines[e].name, timed(&engines[e], once[e], told[e]->answer));
    }
    printf("}}\n");
    return 0;
}
