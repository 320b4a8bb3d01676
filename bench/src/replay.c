/* A replay by the library, without and with the totals of each task, beside one by the tick of plain.c, on the same lists: all must give the
   same answers and states, the totals must balance, and they are timed in turn. Prints the nanoseconds a tick and the ratio for every policy,
   document 000's five tasks on three processors. With BEFORE another library's ronchhek_replay, under the name before_replay, runs
   in turn with them, and is held against the plain tick that BEFORE names, by_age or by_number. */
#include "timing.h"

enum { TASKS = 5, CORES = 3, TICKS = 200000, ROUNDS = 25, FRONTS = 1000, TOTALS = 192 };

typedef uint64_t Replay(const uint8_t *sheet, size_t sheet_len, const uint8_t *list, size_t list_len, uint8_t *state, size_t state_len);
Replay ronchhek_replay, ronchhek_service, before_replay;

/* A replay by a plain tick, with the answer of ronchhek_replay. */
static uint64_t replay_by(const Counted *like, const uint8_t *sheet, size_t sheet_len, const uint8_t *list, size_t list_len, uint8_t *state)
{
    Table t;
    uint8_t from[STATE] = {0};
    if (read_sheet(sheet, sheet_len, &t)) fail("replay", "sheet refused");
    for (uint64_t k = 0; k < list_len; k++) {
        int came = like->step(&t, from, list[k], state);
        if (came == 2) return 11ull << 48 | (k + 1);
        if (came == 1) return 2ull << 56 | (k + 1);
        memcpy(from, state, STATE);
    }
    return 1ull << 56;
}

static uint64_t plain_replay(const uint8_t *sheet, size_t sheet_len, const uint8_t *list, size_t list_len, uint8_t *state, size_t state_len)
{
    return state_len < STATE ? 12ull << 48 : replay_by(&by_age, sheet, sheet_len, list, list_len, state);
}

/* Each with the plain tick that it must agree with, and with what it writes: the state or the totals. */
static const struct {
    const char *name;
    Replay *replay;
    const Counted *like;
    size_t size;
} engines[] = {
    {"library", ronchhek_replay, &by_age, STATE},
    {"service", ronchhek_service, &by_age, TOTALS},
    {"plain", plain_replay, &by_age, STATE},
#ifdef BEFORE
    {"before", before_replay, &BEFORE, STATE},
#endif
};
enum { ENGINES = sizeof engines / sizeof *engines };

/* The sheet: task i has C = i and D = P = 2(i + 1), all of one byte. */
static void make_sheet(int policy, uint8_t *sheet)
{
    const uint8_t front[4] = {3, (uint8_t)policy, CORES, TASKS};
    memcpy(sheet, front, 4);
    for (int i = 1; i <= TASKS; i++) {
        sheet[3 * i + 1] = (uint8_t)i;
        sheet[3 * i + 2] = sheet[3 * i + 3] = (uint8_t)(2 * (i + 1));
    }
}

/* A list of legal masks: at each tick a task that may be released is, with three chances of four. */
static void make_list(uint8_t *list)
{
    uint32_t seed = 1;
    int p[TASKS] = {0};
    for (int k = 0; k < TICKS; k++) {
        list[k] = 0;
        for (int i = 0; i < TASKS; i++) {
            seed = seed * 1664525u + 1013904223u;
            if (p[i] == 0 && seed >> 30) {
                list[k] |= (uint8_t)(1 << i);
                p[i] = 2 * (i + 2);
            }
            p[i] -= p[i] > 0;
        }
    }
}

/* The releases in the list must be those of the totals, the work left that of the state, and the ticks run what the balance makes of them. */
static bool agrees(const uint8_t *list, size_t ticks, const uint8_t *totals, const uint8_t *state)
{
    for (int i = 0; i < TASKS; i++) {
        uint64_t releases = 0, total[3];
        for (size_t k = 0; k < ticks; k++) releases += list[k] >> i & 1;
        memcpy(total, totals + 24 * i, sizeof total);
        if (total[0] != releases || total[2] != state[2 * i] || total[0] * (uint64_t)(i + 1) != total[1] + total[2]) return false;
    }
    return true;
}

/* Each front of the list, and the whole, must be kept, with the state that the plain tick gives. */
static void check(int e, const uint8_t *sheet, size_t sheet_len, const uint8_t *list)
{
    for (size_t len = 0; len <= FRONTS; len++) {
        uint8_t space[TOTALS] = {0}, expected[STATE] = {0};
        size_t ticks = len < FRONTS ? len : TICKS;
        if (replay_by(engines[e].like, sheet, sheet_len, list, ticks, expected) != 1ull << 56) fail("replay", "the list is not kept");
        if (engines[e].replay(sheet, sheet_len, list, ticks, space, engines[e].size) != 1ull << 56) fail(engines[e].name, "another answer");
        if (engines[e].size == STATE && memcmp(space, expected, STATE) != 0) fail(engines[e].name, "another state");
        if (engines[e].size == TOTALS && !agrees(list, ticks, space, expected)) fail(engines[e].name, "other totals");
    }
}

int main(void)
{
    static uint8_t sheet[4 + 3 * TASKS], list[TICKS];
    make_list(list);
    for (int policy = 0; policy <= P_LST; policy++) {
        double best[ENGINES];
        make_sheet(policy, sheet);
        for (int e = 0; e < ENGINES; e++) {
            check(e, sheet, sizeof sheet, list);
            best[e] = 1e18;
        }
        for (int round = 0; round < ROUNDS; round++)
            for (int e = 0; e < ENGINES; e++) {
                uint8_t space[TOTALS];
                double from = now();
                engines[e].replay(sheet, sizeof sheet, list, TICKS, space, engines[e].size);
                double took = now() - from;
                if (took < best[e]) best[e] = took;
            }
        printf("policy %d: library %5.1f ns", policy, best[0] / TICKS);
        for (int e = 1; e < ENGINES; e++) printf(", %s %5.1f ns, ratio %.2f", engines[e].name, best[e] / TICKS, best[0] / best[e]);
        printf("\n");
    }
    return 0;
}
