/* Times the check of a Safe search's file beside the search: evidence ROUNDS HEX. The library searches the sheet; the written states,
   which stand at the front of the work space, are the file, judged in the search's order and shuffled. In each round the three are
   called in turn, each until a fixed share of time has passed, each round from the next one on; printed is, for each, the processor
   time of a call in its fastest round, in nanoseconds. Under another verdict nothing is timed. An unexpected answer ends the
   program. */
#include "timing.h"

#include "../../include/ronchhek.h"

enum { SEARCH, CHECK, SHUFFLED, TIMED };

static uint8_t sheet[MOST_SHEET], *work, *trace, *files[TIMED];
static size_t sheet_len, count;

static void *space(size_t len)
{
    void *bytes = malloc(len);
    if (!bytes) fail("evidence", "no memory");
    return memset(bytes, 0xA5, len);
}

static uint64_t search(void)
{
    return ronchhek_verdict(sheet, sheet_len, work, SLOT * MOST_SLOTS, trace, MOST_SLOTS);
}

/* The same states in an order without pattern, the same in every run. */
static void shuffle(uint8_t *file)
{
    uint64_t draw = 88172645463325252u;
    for (size_t i = count; i > 1; i--) {
        draw ^= draw << 13;
        draw ^= draw >> 7;
        draw ^= draw << 17;
        uint8_t *a = file + RONCHHEK_STATE_BYTES * (i - 1), *b = file + RONCHHEK_STATE_BYTES * (draw % i), s[RONCHHEK_STATE_BYTES];
        memcpy(s, a, sizeof s);
        memmove(a, b, sizeof s);
        memcpy(b, s, sizeof s);
    }
}

static void call(int what, size_t states, unsigned expected)
{
    uint64_t answer = what == SEARCH ? search() : ronchhek_closed(sheet, sheet_len, files[what], RONCHHEK_STATE_BYTES * states);
    if (RONCHHEK_KIND(answer) != expected) fail("evidence", what == SEARCH ? "changed verdict" : "file not judged as expected");
}

/* Both files, and that they are accepted, and not without their last state. */
static void make_files(void)
{
    for (int what = CHECK; what < TIMED; what++) {
        size_t len = RONCHHEK_STATE_BYTES * count;
        files[what] = memcpy(space(len), work, len);
        if (what == SHUFFLED) shuffle(files[what]);
        call(what, count, RONCHHEK_ACCEPTED);
        if (count > 1) call(what, count - 1, RONCHHEK_NO);
    }
}

static double timed(int what, int calls)
{
    double from = now();
    for (int i = 0; i < calls; i++) call(what, count, what == SEARCH ? RONCHHEK_SAFE : RONCHHEK_ACCEPTED);
    return (now() - from) / calls;
}

int main(int argc, char **argv)
{
    if (argc != 3) fail("evidence", "give the number of rounds and the sheet in hexadecimal");
    sheet_len = sheet_of(argv[2], sheet);
    work = space(SLOT * MOST_SLOTS);
    trace = space(MOST_SLOTS);
    uint64_t answer = search();
    count = RONCHHEK_COUNT(answer);
    printf("{\"kind\":%u,\"count\":%zu", RONCHHEK_KIND(answer), count);
    if (RONCHHEK_KIND(answer) == RONCHHEK_SAFE) {
        double least[TIMED];
        int calls[TIMED];
        make_files();
        for (int what = 0; what < TIMED; what++) calls[what] = calls_for(least[what] = timed(what, 1));
        for (int round = 0; round < atoi(argv[1]); round++)
            for (int k = 0; k < TIMED; k++) {
                int what = (round + k) % TIMED;
                double took = timed(what, calls[what]);
                if (took < least[what]) least[what] = took;
            }
        printf(",\"search\":%.0f,\"check\":%.0f,\"shuffled\":%.0f", least[SEARCH], least[CHECK], least[SHUFFLED]);
    }
    printf("}\n");
    return 0;
}
