/* practice POLICY M N SEED [-o FILE]: the sheet of a practice table. */
#include "tool.h"

bool practice(struct args *args)
{
    const char *path = take_option(args, "-o");
    if (args->count != 4)
        return false;
    uint8_t policy = policy_of(args->at[0]), sheet[RONCHHEK_LONGEST_SHEET];
    uint8_t processors = (uint8_t)number("processors", args->at[1], 255);
    uint8_t tasks = (uint8_t)number("tasks", args->at[2], 255);
    uint16_t seed = (uint16_t)number("seed", args->at[3], 65535);
    put_sheet(path, sheet, ronchhek_practice(policy, processors, tasks, seed, sheet, sizeof sheet));
    return true;
}
