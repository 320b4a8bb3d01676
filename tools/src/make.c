/* make POLICY M C,D,P .. [-o FILE]: the sheet of a table. */
#include "tool.h"

#include <string.h>

enum { TASKS = 8, FIELDS = 3 };

/* Three numbers with commas between them. */
static void task_of(const char *text, uint8_t *task)
{
    const char *at = text;
    for (int i = 0; i < FIELDS; i++) {
        size_t len = strcspn(at, ",");
        char field[16] = "";
        if (len < sizeof field)
            memcpy(field, at, len);
        if (!*field || (at[len] == ',') != (i + 1 < FIELDS))
            fail("task: `%s` is not C,D,P", text);
        task[i] = (uint8_t)number("task", field, 255);
        at += len + 1;
    }
}

/* The arguments as a table, whether or not the library takes it. It has entries for eight tasks; more make it a table of nine,
 * which is refused for its number of tasks. */
static void table_of(struct args *args, uint8_t *table)
{
    int tasks = args->count - 2;
    memset(table, 0, RONCHHEK_TABLE_BYTES);
    table[0] = policy_of(args->at[0]);
    table[1] = (uint8_t)number("processors", args->at[1], 255);
    table[2] = (uint8_t)(tasks > TASKS ? TASKS + 1 : tasks);
    for (int i = 0; i < tasks; i++) {
        uint8_t task[FIELDS];
        task_of(args->at[i + 2], task);
        if (i < TASKS)
            memcpy(table + 3 + FIELDS * i, task, FIELDS);
    }
}

bool make(struct args *args)
{
    const char *path = take_option(args, "-o");
    if (args->count < 2)
        return false;
    uint8_t table[RONCHHEK_TABLE_BYTES], sheet[RONCHHEK_LONGEST_SHEET];
    table_of(args, table);
    put_sheet(path, sheet, ronchhek_write(table, sizeof table, sheet, sizeof sheet));
    return true;
}
