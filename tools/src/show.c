/* show SHEET: the table of a sheet in words. */
#include "tool.h"

#include <stdio.h>
#include <stdlib.h>

static void print_table(const uint8_t *table)
{
    unsigned policy = table[0], processors = table[1], tasks = table[2];
    if (policy < POLICIES)
        printf("policy %u, %s: %s\n", policy, policies[policy].name, policies[policy].words);
    else
        printf("policy %u, unknown\n", policy);
    printf("processors %u\n", processors);
    printf("tasks %u\n", tasks);
    for (unsigned i = 0; i < tasks; i++) {
        const uint8_t *task = table + 3 + 3 * i;
        printf("task %u: work %u, deadline %u, least gap %u\n", i + 1, task[0], task[1], task[2]);
    }
}

bool show(struct args *args)
{
    if (args->count != 1)
        return false;
    struct bytes sheet = read_sheet(args->at[0]);
    uint8_t table[RONCHHEK_TABLE_BYTES];
    uint64_t answer = ronchhek_read(sheet.at, sheet.len, table, sizeof table);
    if (RONCHHEK_KIND(answer) == RONCHHEK_DONE)
        print_table(table);
    else
        print_refusal(stdout, RONCHHEK_COUNT(answer));
    free(sheet.at);
    return true;
}
