/* evidence SHEET FILE: whether a file of states is evidence of `safe`; and how `verdict` writes such a file. */
#define _POSIX_C_SOURCE 200809L
#include "tool.h"

#include <errno.h>
#include <stdio.h>
#include <stdlib.h>
#include <string.h>
#include <sys/stat.h>
#include <unistd.h>

/* The bytes go to a name beside the file's, which becomes its own once all are written. False, with errno: nothing is left of them. */
static bool write_whole(const char *path, const uint8_t *bytes, size_t len)
{
    size_t size = strlen(path) + 32;
    char *beside = (char *)space(size);
    snprintf(beside, size, "%s.%ld", path, (long)getpid());
    FILE *file = fopen(beside, "wbx");
    bool written = file && fwrite(bytes, 1, len, file) == len;
    if (file)
        written = fclose(file) == 0 && written;
    written = written && rename(beside, path) == 0;
    int cause = errno;
    if (file && !written)
        remove(beside);
    free(beside);
    errno = cause;
    return written;
}

void write_evidence(const char *path, const uint8_t *work, size_t count)
{
    struct stat there;
    if (lstat(path, &there) == 0 && !S_ISREG(there.st_mode))
        fail("%s: not a regular file", path);
    if (!write_whole(path, work, count * RONCHHEK_STATE_BYTES))
        fail("%s: %s", path, strerror(errno));
}

bool evidence(struct args *args)
{
    if (args->count != 2)
        return false;
    if (strcmp(args->at[0], "-") == 0 && strcmp(args->at[1], "-") == 0)
        fail("the sheet and the file cannot both be standard input");
    struct bytes sheet = read_sheet(args->at[0]), states = read_bytes(args->at[1], SIZE_MAX);
    uint64_t answer = ronchhek_closed(sheet.at, sheet.len, states.at, states.len);
    switch (RONCHHEK_KIND(answer)) {
    case RONCHHEK_ACCEPTED:
        printf("accepted %zu\n", states.len / RONCHHEK_STATE_BYTES);
        break;
    case RONCHHEK_NO:
        puts("no");
        break;
    default:
        printf("refused %u\n", RONCHHEK_COUNT(answer));
    }
    free(sheet.at);
    free(states.at);
    return true;
}
