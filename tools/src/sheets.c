/* What the subcommands that write a sheet share: make, practice and cut. */
#define _POSIX_C_SOURCE 200809L
#include "tool.h"

#include <errno.h>
#include <stdio.h>
#include <string.h>
#include <strings.h>
#include <unistd.h>

uint8_t policy_of(const char *text)
{
    for (unsigned i = 0; i < POLICIES; i++)
        if (strcasecmp(text, policies[i].name) == 0)
            return (uint8_t)i;
    if (text[0] < '0' || text[0] > '9')
        fail("policy: `%s` is not 0 to 4 or one of np-gfp, p-gfp, np-edf, p-edf, p-lst", text);
    return (uint8_t)number("policy", text, 255);
}

static void put(const char *path, const uint8_t *sheet, size_t len)
{
    if (!path && isatty(STDOUT_FILENO))
        fail("a sheet is bytes and no text: give -o FILE, or send standard output to a file");
    FILE *file = path ? fopen(path, "wb") : stdout;
    bool written = file && fwrite(sheet, 1, len, file) == len;
    if (file && path)
        written = fclose(file) == 0 && written;
    if (!written)
        fail("%s: %s", path ? path : "standard output", strerror(errno));
}

void put_sheet(const char *path, const uint8_t *sheet, uint64_t answer)
{
    bool output = !path || strcmp(path, "-") == 0;
    if (RONCHHEK_KIND(answer) == RONCHHEK_DONE)
        put(output ? NULL : path, sheet, RONCHHEK_COUNT(answer));
    else
        print_refusal(stderr, RONCHHEK_COUNT(answer));
}
