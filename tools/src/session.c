/* session SHEET: steps through a replay by commands on standard input, sets marks in it and returns to them. */
#define _POSIX_C_SOURCE 200809L
#include "tool.h"

#include <errno.h>
#include <stdio.h>
#include <stdlib.h>
#include <string.h>
#include <unistd.h>

enum { MARKS = 8 };

/* Release masks on record, in heap that grows ahead of them. */
struct record {
    uint8_t *masks;
    size_t len, room;
};

/* A session, and what led to its states: record 0 to the present one, record i to that under mark i. */
struct session {
    struct bytes sheet;
    uint8_t table[RONCHHEK_TABLE_BYTES], bytes[RONCHHEK_SESSION_BYTES];
    struct record records[MARKS + 1];
    size_t lines;
};

static void make_room(struct record *record, size_t len)
{
    if (len <= record->room)
        return;
    record->room = 2 * len;
    record->masks = resized(record->masks, record->room);
}

static void copy_record(struct record *to, const struct record *from)
{
    make_room(to, from->len);
    if (from->len)
        memcpy(to->masks, from->masks, from->len);
    to->len = from->len;
}

static void note_step(struct session *session, uint8_t mask)
{
    struct record *present = &session->records[0];
    make_room(present, present->len + 1);
    present->masks[present->len++] = mask;
}

static void note_mark(struct session *session, uint8_t mark)
{
    copy_record(&session->records[mark], &session->records[0]);
}

static void note_return(struct session *session, uint8_t mark)
{
    copy_record(&session->records[0], &session->records[mark]);
}

/* The commands that call the library: the number that they take, what they print where the call is done, and how that is noted. */
static const struct call {
    const char *name, *number, *done;
    uint64_t (*make)(const uint8_t *sheet, size_t sheet_len, uint8_t *session, size_t session_len, uint8_t number);
    void (*note)(struct session *session, uint8_t number);
} calls[] = {
    {"step", "mask", "next", ronchhek_session_step, note_step},
    {"mark", "mark", "done", ronchhek_session_mark, note_mark},
    {"return", "mark", "done", ronchhek_session_return, note_return},
};
enum { CALLS = sizeof calls / sizeof *calls };

static void print_ticks(const char *before, int ticks)
{
    printf("%s%d %s", before, ticks, ticks == 1 ? "tick" : "ticks");
}

/* The work left and the gap of a task in words. A job in time is due in a tick or more, and before its gap ends, so that is not 0. */
static void print_task(const uint8_t *task, int work, int gap)
{
    int due = task[1] - (task[2] - gap);
    if (work) {
        printf("%d of ", work);
        print_ticks("", task[0]);
        print_ticks(" of work left, due in ", due);
        printf(", slack %d", due - work);
        print_ticks(", may be released again in ", gap);
    } else {
        fputs("no job, may be released", stdout);
        if (gap)
            print_ticks(" in ", gap);
    }
    putchar('\n');
}

/* A line for each task of the table: where the session is. */
static void print_present(const struct session *session)
{
    const uint8_t *state = session->bytes + RONCHHEK_SESSION_PRESENT_AT;
    for (unsigned i = 0; i < session->table[2]; i++) {
        printf("task %u: ", i + 1);
        print_task(session->table + 3 + 3 * i, state[2 * i], state[2 * i + 1]);
    }
}

static void make_call(struct session *session, const struct call *call, uint8_t number)
{
    uint64_t answer = call->make(session->sheet.at, session->sheet.len, session->bytes, sizeof session->bytes, number);
    switch (RONCHHEK_KIND(answer)) {
    case RONCHHEK_DONE:
        call->note(session, number);
        puts(call->done);
        break;
    case RONCHHEK_SESSION_MISSED:
        puts("missed");
        break;
    default:
        printf("refused %u: %s\n", RONCHHEK_COUNT(answer), reason(RONCHHEK_COUNT(answer)));
    }
    print_present(session);
}

static void print_masks(const struct record *record)
{
    for (size_t i = 0; i < record->len; i++)
        printf(" %u", record->masks[i]);
    putchar('\n');
}

/* The masks on record, the state to which they lead, and the masks under each mark that is set. */
static void print_records(const struct session *session)
{
    fputs("masks", stdout);
    print_masks(&session->records[0]);
    print_present(session);
    for (unsigned i = 1; i <= MARKS; i++)
        if (session->bytes[0] >> (i - 1) & 1) {
            printf("mark %u:", i);
            print_masks(&session->records[i]);
        }
}

/* The call that a command makes. NULL: none. */
static const struct call *call_of(const char *name)
{
    for (int i = 0; i < CALLS; i++)
        if (strcmp(name, calls[i].name) == 0)
            return &calls[i];
    return NULL;
}

/* Takes the next word out of a line. At its end it is empty. */
static char *take_word(char **line)
{
    static const char spaces[] = " \t\v\f\r\n";
    char *word = *line + strspn(*line, spaces), *end = word + strcspn(word, spaces);
    *line = *end ? end + 1 : end;
    *end = '\0';
    return word;
}

static void obey_call(struct session *session, const struct call *call, const char *text)
{
    unsigned long value;
    if (read_number(text, 255, &value))
        make_call(session, call, (uint8_t)value);
    else
        complain("line %zu: %s: `%.60s` is not a number from 0 to 255", session->lines, call->number, text);
}

/* Does what a line says; one with a byte 0 is no command. False: it says to quit. */
static bool obey(struct session *session, char *line, size_t len)
{
    bool whole = strlen(line) == len;
    char *name = take_word(&line), *text = take_word(&line), *more = take_word(&line);
    const struct call *call = call_of(name);
    session->lines++;
    if (whole && !*text && strcmp(name, "quit") == 0)
        return false;
    if (whole && !*text && strcmp(name, "show") == 0)
        print_records(session);
    else if (whole && call && !*more)
        obey_call(session, call, text);
    else if (!whole || *name)
        complain("line %zu: no command; a line is step MASK, mark I, return I, show or quit", session->lines);
    return true;
}

/* The next line of standard input, with what was printed before written out. Below 0: there is none. */
static ssize_t next_line(char **line, size_t *room)
{
    flush();
    errno = 0;
    ssize_t len = getline(line, room, stdin);
    if (len < 0 && !feof(stdin))
        fail("standard input: %s", strerror(errno));
    return len;
}

static void converse(struct session *session)
{
    bool terminal = isatty(STDIN_FILENO);
    char *line = NULL;
    size_t room = 0;
    ssize_t len;
    if (terminal)
        puts("step MASK plays a tick, mark I keeps this point under a mark from 1 to 8, return I goes back to it;\n"
             "show prints the masks on record, quit ends.");
    do {
        if (terminal)
            fputs("> ", stdout);
        len = next_line(&line, &room);
    } while (len >= 0 && obey(session, line, (size_t)len));
    if (terminal && len < 0)
        putchar('\n');
    free(line);
}

bool session(struct args *args)
{
    if (args->count != 1)
        return false;
    if (strcmp(args->at[0], "-") == 0)
        fail("the sheet needs a file, since standard input is for the commands");
    struct session session = {.sheet = read_sheet(args->at[0])};
    uint64_t answer = ronchhek_read(session.sheet.at, session.sheet.len, session.table, sizeof session.table);
    if (RONCHHEK_KIND(answer) == RONCHHEK_DONE)
        converse(&session);
    else
        print_refusal(stdout, RONCHHEK_COUNT(answer));
    free(session.sheet.at);
    for (int i = 0; i <= MARKS; i++)
        free(session.records[i].masks);
    return true;
}
