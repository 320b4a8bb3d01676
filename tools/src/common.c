#include "tool.h"

#include <errno.h>
#include <stdarg.h>
#include <stdio.h>
#include <stdlib.h>
#include <string.h>

/* That of the end: 2 once something was wrong. */
static int status = 0;

static void say(const char *format, va_list values)
{
    fputs("ronchhek: ", stderr);
    vfprintf(stderr, format, values);
    fputc('\n', stderr);
    status = 2;
}

void complain(const char *format, ...)
{
    va_list values;
    va_start(values, format);
    say(format, values);
    va_end(values);
}

_Noreturn void fail(const char *format, ...)
{
    va_list values;
    va_start(values, format);
    say(format, values);
    va_end(values);
    exit(status);
}

void flush(void)
{
    if (fflush(stdout) != 0 || ferror(stdout))
        fail("standard output: %s", strerror(errno));
}

int finish(void)
{
    flush();
    return status;
}

const char *take_option(struct args *args, const char *name)
{
    for (int i = 0; i < args->count; i++) {
        if (strcmp(args->at[i], name) != 0)
            continue;
        if (i + 1 == args->count)
            fail("%s needs a value", name);
        const char *value = args->at[i + 1];
        args->count -= 2;
        memmove(args->at + i, args->at + i + 2, (size_t)(args->count - i) * sizeof *args->at);
        return value;
    }
    return NULL;
}

bool read_number(const char *text, unsigned long most, unsigned long *value)
{
    bool hex = text[0] == '0' && (text[1] == 'x' || text[1] == 'X');
    const char *digits = hex ? text + 2 : text;
    bool written = *digits && digits[strspn(digits, hex ? "0123456789abcdefABCDEF" : "0123456789")] == '\0';
    errno = 0;
    *value = written ? strtoul(digits, NULL, hex ? 16 : 10) : 0;
    return written && !errno && *value <= most;
}

unsigned long number(const char *what, const char *text, unsigned long most)
{
    unsigned long value;
    if (!read_number(text, most, &value))
        fail("%s: `%s` is not a number from 0 to %lu", what, text, most);
    return value;
}

uint8_t *resized(uint8_t *bytes, size_t len)
{
    bytes = realloc(bytes, len ? len : 1);
    if (!bytes)
        fail("no memory for %zu bytes", len);
    return bytes;
}

uint8_t *space(size_t len)
{
    return resized(NULL, len);
}

struct bytes read_bytes(const char *path, size_t most)
{
    bool input = strcmp(path, "-") == 0;
    struct bytes read = {NULL, 0};
    size_t size = 0;
    errno = 0;
    FILE *file = input ? stdin : fopen(path, "rb");
    while (file && read.len == size && size < most) {
        size = size > most / 2 ? most : size ? 2 * size : 64;
        read.at = resized(read.at, size);
        read.len += fread(read.at + read.len, 1, size - read.len, file);
    }
    int cause = errno;
    if (!file || ferror(file)) {
        free(read.at);
        fail("%s: %s", input ? "standard input" : path, strerror(cause));
    }
    if (!input)
        fclose(file);
    read.at = resized(read.at, read.len);
    return read;
}

struct bytes read_sheet(const char *path)
{
    return read_bytes(path, 64);
}

struct bytes read_list(const struct args *args)
{
    struct bytes list = {NULL, (size_t)args->count - 1};
    list.at = space(list.len);
    for (size_t i = 0; i < list.len; i++)
        list.at[i] = (uint8_t)number("mask", args->at[i + 1], 255);
    return list;
}

void read_played(const struct bytes *sheet, uint8_t *table)
{
    if (RONCHHEK_KIND(ronchhek_read(sheet->at, sheet->len, table, RONCHHEK_TABLE_BYTES)) != RONCHHEK_DONE)
        fail("a sheet that was played cannot be read");
}

void print_outcome(uint64_t answer)
{
    unsigned refusal = RONCHHEK_REPLAY_NUMBER(answer);
    unsigned long long tick = RONCHHEK_REPLAY_TICK(answer);
    if (RONCHHEK_REPLAY_KIND(answer) == RONCHHEK_REPLAY_REFUSED)
        printf(tick ? "refused %u %llu\n" : "refused %u\n", refusal, tick);
    else if (RONCHHEK_REPLAY_KIND(answer) == RONCHHEK_REPLAY_KEPT)
        puts("kept");
    else
        printf("missed %llu\n", tick);
}

const struct policy policies[POLICIES] = {
    {"NP-GFP", "fixed priority, not preempted"},
    {"P-GFP", "fixed priority, preempted"},
    {"NP-EDF", "earliest deadline first, not preempted"},
    {"P-EDF", "earliest deadline first, preempted"},
    {"P-LST", "least slack first, preempted"},
};

const char *reason(unsigned refusal)
{
    static const char *const reasons[] = {
        [1] = "the sheet ends before a number is complete",
        [2] = "a number's second byte is 0 or above 127",
        [3] = "the field count is not 3",
        [4] = "the policy is above 4",
        [5] = "the processors are not 1 to 8",
        [6] = "the tasks are not 1 to 8",
        [7] = "a task breaks 1 <= C <= D <= P <= 200",
        [8] = "bytes after the last task",
        [9] = "the work space has no slot",
        [10] = "the trace space is shorter than the slots are many",
        [11] = "a mask's bit for no task, or for a task that may not be released yet",
        [12] = "the space for the outcome is too short",
        [13] = "a state of the session is not proper, present or marked",
        [14] = "the file is empty or not a whole number of states",
        [15] = "a mark outside 1 to 8",
        [16] = "a return to a mark never set",
    };
    return refusal && refusal < sizeof reasons / sizeof *reasons ? reasons[refusal] : "an unknown refusal";
}

void print_refusal(FILE *file, unsigned refusal)
{
    fprintf(file, "refused %u\n%s\n", refusal, reason(refusal));
}
