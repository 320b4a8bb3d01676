/* verdict SHEET [--slots K] [--evidence FILE]: the lines of the program `verdict`, and on `safe` the file of states. */
#include "tool.h"

#include <stdio.h>
#include <stdlib.h>
#include <string.h>

/* What the program `verdict` lends. */
enum { WORK = 65520, TRACE = 8192 };

static void print_answer(uint64_t answer, const uint8_t *trace)
{
    unsigned ticks = RONCHHEK_TICKS(answer), count = RONCHHEK_COUNT(answer);
    switch (RONCHHEK_KIND(answer)) {
    case RONCHHEK_SAFE:
        printf("safe %u\n", count);
        break;
    case RONCHHEK_UNSAFE:
        printf("unsafe %u %u\n", ticks, count);
        for (unsigned i = 0; i < ticks; i++)
            printf("%u\n", trace[i]);
        break;
    case RONCHHEK_NO_ROOM:
        printf("room %u\n", count);
        break;
    default:
        printf("refused %u\n", count);
    }
}

/* Comes before the verdict's lines, so that whoever reads `safe` has the file. */
static void keep_evidence(const char *path, uint64_t answer, const uint8_t *work)
{
    if (RONCHHEK_KIND(answer) == RONCHHEK_SAFE)
        write_evidence(path, work, RONCHHEK_COUNT(answer));
    else
        fprintf(stderr, "ronchhek: %s: not written, since the answer is not `safe`\n", path);
}

bool verdict(struct args *args)
{
    const char *slots = take_option(args, "--slots"), *path = take_option(args, "--evidence");
    if (args->count != 1)
        return false;
    if (path && strcmp(path, "-") == 0)
        fail("--evidence needs a file, since standard output is for the verdict");
    size_t work_len = WORK, trace_len = TRACE;
    if (slots) {
        trace_len = number("--slots", slots, RONCHHEK_MOST_SLOTS);
        work_len = trace_len * RONCHHEK_SLOT_BYTES;
    }
    struct bytes sheet = read_sheet(args->at[0]);
    uint8_t *work = space(work_len), *trace = space(trace_len);
    uint64_t answer = ronchhek_verdict(sheet.at, sheet.len, work, work_len, trace, trace_len);
    if (path)
        keep_evidence(path, answer, work);
    print_answer(answer, trace);
    free(sheet.at);
    free(work);
    free(trace);
    return true;
}
