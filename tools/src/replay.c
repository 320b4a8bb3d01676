/* replay SHEET MASK..: the outcome of a release list, and the state after it. */
#include "tool.h"

#include <stdio.h>
#include <stdlib.h>

/* A line for each task of the sheet's table. */
static void print_state(const struct bytes *sheet, const uint8_t *state)
{
    uint8_t table[RONCHHEK_TABLE_BYTES];
    read_played(sheet, table);
    for (unsigned i = 0; i < table[2]; i++)
        printf("task %u c %u p %u\n", i + 1, state[2 * i], state[2 * i + 1]);
}

bool replay(struct args *args)
{
    if (args->count < 1)
        return false;
    struct bytes list = read_list(args), sheet = read_sheet(args->at[0]);
    uint8_t state[RONCHHEK_STATE_BYTES];
    uint64_t answer = ronchhek_replay(sheet.at, sheet.len, list.at, list.len, state, sizeof state);
    print_outcome(answer);
    if (RONCHHEK_REPLAY_KIND(answer) != RONCHHEK_REPLAY_REFUSED)
        print_state(&sheet, state);
    free(sheet.at);
    free(list.at);
    return true;
}
