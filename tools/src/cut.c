/* cut SHEET K [-o FILE]: the sheet of a sheet's first K tasks. */
#include "tool.h"

#include <stdio.h>
#include <stdlib.h>

/* Whether an answer refuses K and not the sheet: with 6, where the sheet itself is accepted, and then its table is written. */
static bool refuses_k(uint64_t answer, const struct bytes *sheet, uint8_t *table)
{
    bool tasks = RONCHHEK_KIND(answer) == RONCHHEK_REFUSED && RONCHHEK_COUNT(answer) == 6;
    return tasks && RONCHHEK_KIND(ronchhek_read(sheet->at, sheet->len, table, RONCHHEK_TABLE_BYTES)) == RONCHHEK_DONE;
}

bool cut(struct args *args)
{
    const char *path = take_option(args, "-o");
    if (args->count != 2)
        return false;
    uint8_t k = (uint8_t)number("K", args->at[1], 255), table[RONCHHEK_TABLE_BYTES], out[RONCHHEK_LONGEST_SHEET];
    struct bytes sheet = read_sheet(args->at[0]);
    uint64_t answer = ronchhek_cut(sheet.at, sheet.len, k, out, sizeof out);
    if (refuses_k(answer, &sheet, table))
        fprintf(stderr, "refused 6\nK is not 1 to %u, the tasks of the sheet\n", table[2]);
    else
        put_sheet(path, out, answer);
    free(sheet.at);
    return true;
}
