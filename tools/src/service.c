/* service SHEET MASK..: the outcome of a release list, and where the core time went. */
#include "tool.h"

#include <inttypes.h>
#include <stdio.h>
#include <stdlib.h>
#include <string.h>

/* The three totals of a task, in their order in the totals space. */
enum { RELEASES, RAN, LEFT, TOTALS };
static const char *const headings[TOTALS] = {"releases", "ran", "left"};

/* A total of a task: 8 bytes, low byte first. */
static uint64_t total(const uint8_t *totals, unsigned task, unsigned which)
{
    const uint8_t *at = totals + 8 * (TOTALS * task + which);
    uint64_t value = 0;
    for (unsigned i = 8; i > 0; i--)
        value = value << 8 | at[i - 1];
    return value;
}

/* As wide as the heading, or as the widest total of the tasks. */
static int width(const uint8_t *totals, unsigned tasks, unsigned which)
{
    int widest = (int)strlen(headings[which]);
    for (unsigned i = 0; i < tasks; i++) {
        int digits = snprintf(NULL, 0, "%" PRIu64, total(totals, i, which));
        widest = digits > widest ? digits : widest;
    }
    return widest;
}

/* It is proved that they balance. Comes before the first line, so that totals that do not are no answer. */
static void check_balance(const uint8_t *table, const uint8_t *totals)
{
    for (unsigned i = 0; i < table[2]; i++)
        if (total(totals, i, RELEASES) * table[3 + 3 * i] != total(totals, i, RAN) + total(totals, i, LEFT))
            fail("the totals of task %u do not balance", i + 1);
}

/* A heading, then a row for each task of the table. */
static void print_totals(const uint8_t *table, const uint8_t *totals)
{
    int widths[TOTALS];
    fputs("task", stdout);
    for (unsigned j = 0; j < TOTALS; j++) {
        widths[j] = width(totals, table[2], j);
        printf("  %*s", widths[j], headings[j]);
    }
    puts("  balance");
    for (unsigned i = 0; i < table[2]; i++) {
        printf("%4u", i + 1);
        for (unsigned j = 0; j < TOTALS; j++)
            printf("  %*" PRIu64, widths[j], total(totals, i, j));
        printf("  %" PRIu64 " x %u = %" PRIu64 " + %" PRIu64 "\n", total(totals, i, RELEASES), table[3 + 3 * i], total(totals, i, RAN),
               total(totals, i, LEFT));
    }
}

/* Whether the answer comes with totals: Kept, Missed and refusal 11. */
static bool has_totals(uint64_t answer)
{
    return RONCHHEK_REPLAY_KIND(answer) != RONCHHEK_REPLAY_REFUSED || RONCHHEK_REPLAY_NUMBER(answer) == 11;
}

bool service(struct args *args)
{
    if (args->count < 1)
        return false;
    struct bytes list = read_list(args), sheet = read_sheet(args->at[0]);
    uint8_t totals[RONCHHEK_TOTALS_BYTES], table[RONCHHEK_TABLE_BYTES];
    uint64_t answer = ronchhek_service(sheet.at, sheet.len, list.at, list.len, totals, sizeof totals);
    if (has_totals(answer)) {
        read_played(&sheet, table);
        check_balance(table, totals);
    }
    print_outcome(answer);
    if (has_totals(answer))
        print_totals(table, totals);
    free(sheet.at);
    free(list.at);
    return true;
}
