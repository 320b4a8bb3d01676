/* judge SHEET: the table of the sheet in a file, the verdict on it, and the check of what the verdict rests on: under Safe of the
 * states that were found, under Unsafe of the list that misses.
 *
 * Build:  gcc -O2 -Iinclude examples/c/judge.c target/staticlib/libronchhek.a -o judge
 *
 * A short example of the calls; tools/ronchhek is the command for daily use. Ends with status 2 where the file cannot be read.
 */
#include <stdio.h>

#include "ronchhek.h"

enum { SLOTS = 3120 };

int main(int argc, char **argv)
{
    static uint8_t work[SLOTS * RONCHHEK_SLOT_BYTES], trace[SLOTS];
    uint8_t sheet[RONCHHEK_LONGEST_SHEET + 1]; /* one byte more tells whether bytes follow the last task */
    uint8_t table[RONCHHEK_TABLE_BYTES], state[RONCHHEK_STATE_BYTES];

    FILE *file = argc == 2 ? fopen(argv[1], "rb") : NULL;
    if (!file) {
        fputs("usage: judge SHEET\n", stderr);
        return 2;
    }
    size_t len = fread(sheet, 1, sizeof sheet, file);
    fclose(file);

    uint64_t answer = ronchhek_read(sheet, len, table, sizeof table);
    if (RONCHHEK_KIND(answer) == RONCHHEK_DONE)
        printf("policy %u, %u processors, %u tasks\n", table[0], table[1], table[2]);

    answer = ronchhek_verdict(sheet, len, work, sizeof work, trace, sizeof trace);
    uint32_t ticks = RONCHHEK_TICKS(answer), count = RONCHHEK_COUNT(answer);
    switch (RONCHHEK_KIND(answer)) {
    case RONCHHEK_SAFE:
        printf("safe: no release list misses, %u states\n", count);
        answer = ronchhek_closed(sheet, len, work, (size_t)count * RONCHHEK_STATE_BYTES); /* the states stand at the front */
        puts(RONCHHEK_KIND(answer) == RONCHHEK_ACCEPTED ? "checked: the states are evidence" : "checked: the states are no evidence");
        break;
    case RONCHHEK_NO_ROOM:
        printf("no room: more than %u states\n", count);
        break;
    case RONCHHEK_UNSAFE:
        printf("unsafe: a job is late at tick %u under masks", ticks);
        for (uint32_t i = 0; i < ticks; i++)
            printf(" %u", trace[i]);
        answer = ronchhek_replay(sheet, len, trace, ticks, state, sizeof state);
        printf("\nreplayed: missed at tick %u\n", (unsigned)RONCHHEK_REPLAY_TICK(answer));
        break;
    default:
        printf("refused: number %u of include/ronchhek.h\n", count);
    }
    return 0;
}
