/* corpus FOLDER: every line of FOLDER/cases.txt in one process, for valgrind: each space is a heap block of the exact size that
 * nothing wrote to before. The first line of a verdict must be the one expected, the list of an unsafe one must miss at its last
 * tick, the parents and masks of the slots must lead to their states, the states of a search must be accepted as a file exactly when
 * it is safe, the totals of every list must balance, a session must be where the replay of its masks is, the table of an accepted
 * sheet must give the same sheet again, and a cut must be the front of the sheet but for n. Then practice sheets, which must give the
 * same sheet again too. Ends with status 1 at the first difference. */
#include <stdio.h>
#include <stdlib.h>
#include <string.h>

#include "ronchhek.h"

static _Noreturn void fail(const char *name, const char *what)
{
    printf("corpus: FAILED, %s: %s\n", name, what);
    exit(1);
}

static uint8_t *space(size_t len)
{
    uint8_t *bytes = malloc(len ? len : 1);
    if (!bytes)
        fail("malloc", "no memory");
    return bytes;
}

static uint8_t *load(const char *folder, const char *name, size_t *len)
{
    char path[400];
    uint8_t front[1024];
    snprintf(path, sizeof path, "%s/%s.sheet", folder, name);
    FILE *file = fopen(path, "rb");
    if (!file)
        fail(name, "no such sheet");
    *len = fread(front, 1, sizeof front, file);
    fclose(file);
    uint8_t *sheet = space(*len);
    memcpy(sheet, front, *len);
    return sheet;
}

/* The masks from slot i back to slot 0, each parent an earlier slot, as a list that ends with this byte: its length. */
static size_t list_to(const char *name, const uint8_t *work, size_t k, size_t i, uint8_t *last)
{
    size_t ticks = 0;
    while (i > 0) {
        const uint8_t *at = work + RONCHHEK_PARENT_AT(k, i);
        size_t parent = at[0] | (size_t)at[1] << 8 | (size_t)at[2] << 16 | (size_t)at[3] << 24;
        if (parent >= i)
            fail(name, "a slot's parent is not an earlier one");
        *(last - ticks++) = work[RONCHHEK_MASK_AT(k, i)];
        i = parent;
    }
    return ticks;
}

/* Some of the slots that were written: the list to each reaches its state. */
static void slots(const char *name, const uint8_t *sheet, size_t len, const uint8_t *work, size_t work_len, size_t count)
{
    uint8_t *list = space(count), *state = space(RONCHHEK_STATE_BYTES), *end = list + count;
    for (size_t i = 0; i < count; i += 1 + count / 50) {
        size_t ticks = list_to(name, work, RONCHHEK_SLOTS(work_len), i, end - 1);
        uint64_t played = ronchhek_replay(sheet, len, end - ticks, ticks, state, RONCHHEK_STATE_BYTES);
        if (RONCHHEK_REPLAY_KIND(played) != RONCHHEK_REPLAY_KEPT || memcmp(state, work + RONCHHEK_STATE_AT(i), RONCHHEK_STATE_BYTES) != 0)
            fail(name, "the parents and masks from a slot on do not lead to its state");
    }
    free(list);
    free(state);
}

/* The states of a search as a file, at the front of its work space and by themselves: accepted under safe, and no without the last of
 * them or under another verdict. */
static void evidence(const char *name, const uint8_t *sheet, size_t len, const uint8_t *work, uint64_t verdict)
{
    size_t bytes = RONCHHEK_STATE_AT(RONCHHEK_COUNT(verdict)), less = bytes - RONCHHEK_STATE_BYTES;
    unsigned expected = RONCHHEK_KIND(verdict) == RONCHHEK_SAFE ? RONCHHEK_ACCEPTED : RONCHHEK_NO;
    uint8_t *file = space(bytes), *shorter = space(less);
    memcpy(file, work, bytes);
    memcpy(shorter, work, less);
    if (RONCHHEK_KIND(ronchhek_closed(sheet, len, work, bytes)) != expected || RONCHHEK_KIND(ronchhek_closed(sheet, len, file, bytes)) != expected)
        fail(name, "the file of the states is judged otherwise than the search");
    uint64_t answer = ronchhek_closed(sheet, len, shorter, less);
    if (less ? RONCHHEK_KIND(answer) != RONCHHEK_NO : answer != 14)
        fail(name, "a file that lacks a state is not answered no");
    free(file);
    free(shorter);
}

/* The number of 8 bytes, low byte first, at a place of the totals. */
static uint64_t total(const uint8_t *totals, size_t at)
{
    uint64_t number = 0;
    for (size_t i = 8; i-- > 0;)
        number = number << 8 | totals[at + i];
    return number;
}

/* A list replayed, and with totals: the same answer, but for 12 by the space, and totals that balance and leave what the state does. */
static void service(const char *name, const uint8_t *sheet, size_t len, const uint8_t *list, size_t ticks)
{
    uint8_t *state = space(RONCHHEK_STATE_BYTES), *table = space(RONCHHEK_TABLE_BYTES);
    uint8_t *totals = space(RONCHHEK_TOTALS_BYTES), *shorter = space(RONCHHEK_TOTALS_BYTES - 1);
    uint64_t played = ronchhek_replay(sheet, len, list, ticks, state, RONCHHEK_STATE_BYTES);
    int refused = RONCHHEK_REPLAY_KIND(played) == RONCHHEK_REPLAY_REFUSED;
    if (ronchhek_service(sheet, len, list, ticks, totals, RONCHHEK_TOTALS_BYTES) != played)
        fail(name, "a list with totals is answered otherwise than its replay");
    if (ronchhek_service(sheet, len, list, ticks, shorter, RONCHHEK_TOTALS_BYTES - 1) != (refused ? played : (uint64_t)12 << 48))
        fail(name, "a totals space too short is answered otherwise than expected");
    if (!refused || RONCHHEK_REPLAY_NUMBER(played) == 11) {
        ronchhek_read(sheet, len, table, RONCHHEK_TABLE_BYTES);
        for (size_t i = 0; i < 8; i++) {
            uint64_t releases = total(totals, 24 * i), ran = total(totals, 24 * i + 8), left = total(totals, 24 * i + 16);
            if (releases * table[3 + 3 * i] != ran + left || (!refused && left != state[2 * i]))
                fail(name, "the totals do not balance, or leave other work than the state");
        }
    }
    free(state);
    free(table);
    free(totals);
    free(shorter);
}

/* A list that releases every task of a sheet whenever it may be, and none of a refused sheet. */
static uint8_t *releases(const uint8_t *sheet, size_t len, size_t ticks)
{
    uint8_t *table = space(RONCHHEK_TABLE_BYTES), *list = space(ticks);
    unsigned tasks = RONCHHEK_KIND(ronchhek_read(sheet, len, table, RONCHHEK_TABLE_BYTES)) == RONCHHEK_DONE ? table[2] : 0;
    memset(list, 0, ticks);
    for (unsigned i = 0; i < tasks; i++)
        for (size_t tick = 0; tick < ticks; tick += table[3 + 3 * i + 2])
            list[tick] |= 1 << i;
    free(table);
    return list;
}

/* Lists of one sheet, also of a refused one: the empty one, one that releases every task whenever it may be, and that with every bit
 * in its last mask. */
static void services(const char *name, const uint8_t *sheet, size_t len)
{
    enum { LENGTH = 500 };
    uint8_t *list = releases(sheet, len, LENGTH);
    service(name, sheet, len, list, 0);
    service(name, sheet, len, list, LENGTH);
    list[LENGTH - 1] = 255;
    service(name, sheet, len, list, LENGTH);
    free(list);
}

/* The present state of a session, which must be the one with which this list is kept. */
static void present(const char *name, const uint8_t *sheet, size_t len, const uint8_t *session, const uint8_t *list, size_t ticks)
{
    uint8_t *state = space(RONCHHEK_STATE_BYTES);
    uint64_t played = ronchhek_replay(sheet, len, list, ticks, state, RONCHHEK_STATE_BYTES);
    if (RONCHHEK_REPLAY_KIND(played) != RONCHHEK_REPLAY_KEPT
        || memcmp(state, session + RONCHHEK_SESSION_PRESENT_AT, RONCHHEK_STATE_BYTES) != 0)
        fail(name, "the present state of a session is not that of the replay");
    free(state);
}

/* A fresh session with a mark before every eighth step, up to a miss or to the end of the list, and a return to every mark. Of its block
 * only the flags and the present state are written before. */
static void stepped(const char *name, const uint8_t *sheet, size_t len, const uint8_t *list, size_t ticks)
{
    uint64_t done = (uint64_t)RONCHHEK_DONE << 48, missed = (uint64_t)RONCHHEK_SESSION_MISSED << 48, answer = done;
    uint8_t *session = space(RONCHHEK_SESSION_BYTES), set = 0;
    size_t tick = 0;
    memset(session, 0, RONCHHEK_SESSION_MARK_AT(1));
    while (tick < ticks && answer == done) {
        if (tick % 8 == 0 && ronchhek_session_mark(sheet, len, session, RONCHHEK_SESSION_BYTES, ++set) != done)
            fail(name, "a mark is not set");
        answer = ronchhek_session_step(sheet, len, session, RONCHHEK_SESSION_BYTES, list[tick]);
        tick += answer == done;
    }
    if (answer != done && answer != missed)
        fail(name, "a step is refused");
    present(name, sheet, len, session, list, tick);
    for (uint8_t mark = 0; mark <= 9; mark++) {
        answer = ronchhek_session_return(sheet, len, session, RONCHHEK_SESSION_BYTES, mark);
        if (answer != (mark < 1 || mark > 8 ? 15 : mark > set ? 16 : done))
            fail(name, "a return is answered otherwise than expected");
        if (answer == done)
            present(name, sheet, len, session, list, 8 * (size_t)(mark - 1));
    }
    free(session);
}

/* The calls on a session in a block that nothing wrote to, each of which must be refused with this number. */
static void unread(const char *name, const uint8_t *sheet, size_t len, size_t session_len, uint64_t number)
{
    uint8_t *session = space(session_len);
    if (ronchhek_session_step(sheet, len, session, session_len, 0) != number
        || ronchhek_session_mark(sheet, len, session, session_len, 1) != number
        || ronchhek_session_return(sheet, len, session, session_len, 1) != number)
        fail(name, "a call on a session is not refused as expected");
    free(session);
}

/* Sessions of one sheet: of an accepted one a session, and a block too short for one; of a refused one no session is read. */
static void sessions(const char *name, const uint8_t *sheet, size_t len)
{
    enum { TICKS = 50 };
    uint8_t *table = space(RONCHHEK_TABLE_BYTES), *list = releases(sheet, len, TICKS);
    uint64_t answer = ronchhek_read(sheet, len, table, RONCHHEK_TABLE_BYTES);
    if (RONCHHEK_KIND(answer) == RONCHHEK_DONE) {
        stepped(name, sheet, len, list, TICKS);
        unread(name, sheet, len, RONCHHEK_SESSION_BYTES - 1, 12);
    } else {
        unread(name, sheet, len, RONCHHEK_SESSION_BYTES, answer);
    }
    free(table);
    free(list);
}

/* The verdict's first line, a replay of its list, its slots, and its states as a file. */
static void judge(const char *name, const uint8_t *sheet, size_t len, size_t work_len, size_t trace_len, const char *expected)
{
    uint8_t *work = space(work_len), *trace = space(trace_len), *state = space(RONCHHEK_STATE_BYTES);
    uint64_t answer = ronchhek_verdict(sheet, len, work, work_len, trace, trace_len);
    unsigned kind = RONCHHEK_KIND(answer), ticks = RONCHHEK_TICKS(answer), count = RONCHHEK_COUNT(answer);
    static const char *const words[] = {"refused", "safe", "unsafe", "room"};
    char line[64];
    if (kind == RONCHHEK_UNSAFE)
        snprintf(line, sizeof line, "unsafe %u %u", ticks, count);
    else
        snprintf(line, sizeof line, "%s %u", kind < 4 ? words[kind] : "unknown", count);
    if (strcmp(line, expected) != 0)
        fail(name, line);
    if (kind == RONCHHEK_UNSAFE) {
        uint64_t played = ronchhek_replay(sheet, len, trace, ticks, state, RONCHHEK_STATE_BYTES);
        if (RONCHHEK_REPLAY_KIND(played) != RONCHHEK_REPLAY_MISSED || RONCHHEK_REPLAY_TICK(played) != ticks)
            fail(name, "the list does not miss at its last tick");
        service(name, sheet, len, trace, ticks);
    }
    if (kind != RONCHHEK_REFUSED) {
        slots(name, sheet, len, work, work_len, count);
        evidence(name, sheet, len, work, answer);
    }
    free(work);
    free(trace);
    free(state);
}

/* The sheet read and written again, where it is accepted. */
static void exchange(const char *name, const uint8_t *sheet, size_t len)
{
    uint8_t *table = space(RONCHHEK_TABLE_BYTES), *out = space(len);
    if (RONCHHEK_KIND(ronchhek_read(sheet, len, table, RONCHHEK_TABLE_BYTES)) == RONCHHEK_DONE) {
        uint64_t answer = ronchhek_write(table, RONCHHEK_TABLE_BYTES, out, len);
        if (RONCHHEK_KIND(answer) != RONCHHEK_DONE || RONCHHEK_COUNT(answer) != len || memcmp(out, sheet, len) != 0)
            fail(name, "read and written again it differs");
    }
    free(table);
    free(out);
}

/* A sheet cut to k in a block of the cut's length, and in one that is a byte shorter: the sheet's first bytes but for n, which is k; cut
 * again it stays. The cut's length. */
static size_t cut(const char *name, const uint8_t *sheet, size_t len, uint8_t k)
{
    uint8_t *longest = space(len), *again = space(len);
    uint64_t answer = ronchhek_cut(sheet, len, k, longest, len);
    size_t cut_len = RONCHHEK_COUNT(answer);
    if (RONCHHEK_KIND(answer) != RONCHHEK_DONE || cut_len > len)
        fail(name, "a cut is not done");
    uint8_t *exact = space(cut_len), *shorter = space(cut_len - 1);
    if (ronchhek_cut(sheet, len, k, exact, cut_len) != answer || ronchhek_cut(exact, cut_len, k, again, len) != answer
        || memcmp(exact, longest, cut_len) != 0 || memcmp(again, longest, cut_len) != 0)
        fail(name, "cut again it differs");
    if (memcmp(exact, sheet, 3) != 0 || exact[3] != k || memcmp(exact + 4, sheet + 4, cut_len - 4) != 0)
        fail(name, "a cut is not the front of its sheet");
    if (ronchhek_cut(sheet, len, k, shorter, cut_len - 1) != 12)
        fail(name, "a cut into a space too short is answered otherwise than expected");
    exchange(name, exact, cut_len);
    free(longest);
    free(again);
    free(exact);
    free(shorter);
    return cut_len;
}

/* Every cut of an accepted sheet, each longer than the one before and the last the sheet itself; and any other k, or a refused sheet,
 * with a block that nothing wrote to. */
static void cuts(const char *name, const uint8_t *sheet, size_t len)
{
    uint8_t *table = space(RONCHHEK_TABLE_BYTES), *out = space(len);
    uint64_t answer = ronchhek_read(sheet, len, table, RONCHHEK_TABLE_BYTES);
    unsigned tasks = RONCHHEK_KIND(answer) == RONCHHEK_DONE ? table[2] : 0;
    size_t cut_len = 0;
    for (unsigned k = 0; k <= 255; k++) {
        if (k >= 1 && k <= tasks) {
            size_t before = cut_len;
            cut_len = cut(name, sheet, len, (uint8_t)k);
            if (cut_len <= before)
                fail(name, "a cut is no longer than one to fewer tasks");
        } else if (ronchhek_cut(sheet, len, (uint8_t)k, out, len) != (tasks ? 6 : answer)) {
            fail(name, "a cut is not refused as expected");
        }
    }
    if (tasks && cut_len != len)
        fail(name, "cut to all of its tasks it has another length");
    free(table);
    free(out);
}

/* A practice sheet in a block of its length, read and written again; and none in a block that is a byte shorter. */
static void practice(uint8_t policy, uint8_t m, uint8_t n, uint16_t seed)
{
    uint8_t *longest = space(RONCHHEK_LONGEST_SHEET);
    uint64_t answer = ronchhek_practice(policy, m, n, seed, longest, RONCHHEK_LONGEST_SHEET);
    char name[64];
    snprintf(name, sizeof name, "practice %u %u %u %u", policy, m, n, seed);
    if (RONCHHEK_KIND(answer) != RONCHHEK_DONE)
        fail(name, "refused");
    size_t len = RONCHHEK_COUNT(answer);
    uint8_t *sheet = space(len), *shorter = space(len - 1);
    if (ronchhek_practice(policy, m, n, seed, sheet, len) != answer || memcmp(sheet, longest, len) != 0)
        fail(name, "made again it differs");
    if (ronchhek_practice(policy, m, n, seed, shorter, len - 1) != 12)
        fail(name, "a space too short is answered otherwise than expected");
    exchange(name, sheet, len);
    free(longest);
    free(sheet);
    free(shorter);
}

/* Of each policy, number of processors and number of tasks a practice sheet: how many. */
static int practices(void)
{
    int sheets = 0;
    for (uint8_t policy = 0; policy < 5; policy++)
        for (uint8_t m = 1; m <= 8; m++)
            for (uint8_t n = 1; n <= 8; n++)
                practice(policy, m, n, (uint16_t)(200 * sheets++));
    return sheets;
}

int main(int argc, char **argv)
{
    char path[400], name[64], slots[16], expected[64];
    if (argc != 2)
        fail("usage", "corpus FOLDER");
    snprintf(path, sizeof path, "%s/cases.txt", argv[1]);
    FILE *cases = fopen(path, "r");
    int lines = 0;
    if (!cases || fscanf(cases, "#%*[^\n] ") < 0)
        fail(path, "no cases");
    while (fscanf(cases, "%63s %15s %63[^\n]", name, slots, expected) == 3) {
        size_t len, k = strtoul(slots, NULL, 10);
        uint8_t *sheet = load(argv[1], name, &len);
        if (strcmp(slots, "-") == 0)
            judge(name, sheet, len, 65520, 8192, expected);
        else
            judge(name, sheet, len, k * RONCHHEK_SLOT_BYTES, k, expected);
        exchange(name, sheet, len);
        services(name, sheet, len);
        sessions(name, sheet, len);
        cuts(name, sheet, len);
        free(sheet);
        lines++;
    }
    if (!feof(cases))
        fail(path, "a line that cannot be read");
    fclose(cases);
    int sheets = practices();
    printf("corpus: %d lines as expected, and %d practice sheets\n", lines, sheets);
    return lines == 0;
}
