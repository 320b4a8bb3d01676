/* Measures the stack that the calls use, on a thread whose stack was filled with a pattern, and compares it with the
 * figures of ronchhek.h. Prints a line for each size of work space and of file; ends with status 1 where a figure is too low. */
#include <pthread.h>
#include <stdio.h>
#include <stdlib.h>
#include <string.h>

#include "ronchhek.h"

enum { STACK = 4 << 20, PATTERN = 0xA5, MOST_STATES = 1500000 };
_Static_assert(MOST_STATES * RONCHHEK_STATE_BYTES >= RONCHHEK_MOST_SLOTS * RONCHHEK_SLOT_BYTES, "the longest file is longer than any work space");

static uint8_t sheet[] = {3, 3, 2, 4, 2, 40, 60, 3, 50, 70, 4, 60, 80, 1, 3, 3}; /* of policy 3, and of 4 */
static const uint8_t one_state[] = {3, 1, 1, 1, 1, 1, 1}; /* its only state is the start state */

static uint8_t session[RONCHHEK_SESSION_BYTES]; /* every mark is set, and every state is the start state */

struct job {
    enum { NOTHING, VERDICT, REPLAY, SERVICE, READ, WRITE, PRACTICE, CUT, STEP, MARK, RETURN, ACCEPTED, NO } kind;
    uint8_t *work, *trace;
    size_t slots;          /* or the states of a file, which are start states in the work space */
    uint64_t answer;
};

static void *run(void *given)
{
    struct job *job = given;
    static uint8_t state[RONCHHEK_STATE_BYTES], out[RONCHHEK_LONGEST_SHEET], table[RONCHHEK_TABLE_BYTES] = {3, 1, 1, 1, 1, 1};
    static uint8_t totals[RONCHHEK_TOTALS_BYTES];
    static const uint8_t list[64] = {15};
    if (job->kind == VERDICT)
        ronchhek_verdict(sheet, sizeof sheet, job->work, job->slots * RONCHHEK_SLOT_BYTES, job->trace, job->slots);
    if (job->kind == REPLAY)
        ronchhek_replay(sheet, sizeof sheet, list, sizeof list, state, sizeof state);
    if (job->kind == SERVICE)
        ronchhek_service(sheet, sizeof sheet, list, sizeof list, totals, sizeof totals);
    if (job->kind == READ)
        ronchhek_read(sheet, sizeof sheet, table, sizeof table);
    if (job->kind == WRITE)
        ronchhek_write(table, sizeof table, out, sizeof out);
    if (job->kind == PRACTICE)
        ronchhek_practice(sheet[1], 8, 8, 65535, out, sizeof out);
    if (job->kind == CUT)
        job->answer = ronchhek_cut(sheet, sizeof sheet, sheet[3], out, sizeof out);
    if (job->kind == STEP)
        job->answer = ronchhek_session_step(sheet, sizeof sheet, session, sizeof session, list[0]);
    if (job->kind == MARK)
        job->answer = ronchhek_session_mark(sheet, sizeof sheet, session, sizeof session, 8);
    if (job->kind == RETURN)
        job->answer = ronchhek_session_return(sheet, sizeof sheet, session, sizeof session, 8);
    if (job->kind == ACCEPTED)
        job->answer = ronchhek_closed(one_state, sizeof one_state, job->work, job->slots * RONCHHEK_STATE_BYTES);
    if (job->kind == NO)
        job->answer = ronchhek_closed(sheet, sizeof sheet, job->work, job->slots * RONCHHEK_STATE_BYTES);
    return NULL;
}

/* Bytes from the lowest one that changed to the stack's end. */
static size_t measure(struct job *job)
{
    static uint8_t *stack;
    pthread_attr_t attributes;
    pthread_t thread;
    if (!stack && !(stack = aligned_alloc(4096, STACK))) {
        fputs("stack: no memory\n", stderr);
        exit(2);
    }
    memset(stack, PATTERN, STACK);
    memset(session, 0, sizeof session);
    session[0] = 255;
    if (pthread_attr_init(&attributes) || pthread_attr_setstack(&attributes, stack, STACK)
        || pthread_create(&thread, &attributes, run, job) || pthread_join(thread, NULL)) {
        fputs("stack: no thread\n", stderr);
        exit(2);
    }
    size_t low = 0;
    while (low < STACK && stack[low] == PATTERN)
        low++;
    return STACK - low;
}

/* The most of both policies of the sheet, which are to be answered alike. */
static size_t used(struct job *job)
{
    sheet[1] = 3;
    size_t earliest = measure(job);
    uint64_t answer = job->answer;
    sheet[1] = 4;
    size_t least = measure(job);
    if (job->answer != answer) {
        fputs("stack: a policy is answered otherwise than the other\n", stderr);
        exit(2);
    }
    return earliest > least ? earliest : least;
}

/* A file of as many start states, once accepted and once not: whether the larger of both measures is within the header's figure. */
static int file(struct job job, size_t thread)
{
    size_t stated = RONCHHEK_STACK_CLOSED, most = 0;
    memset(job.work, 0, job.slots * RONCHHEK_STATE_BYTES);
    for (job.kind = ACCEPTED; job.kind <= NO; job.kind++) {
        size_t measured = used(&job) - thread;
        if (job.answer != (uint64_t)(job.kind == ACCEPTED ? RONCHHEK_ACCEPTED : RONCHHEK_NO) << 48) {
            fputs("stack: a file is answered otherwise than expected\n", stderr);
            exit(2);
        }
        if (measured > most)
            most = measured;
    }
    printf("stack with a file of %zu states: %zu of %zu\n", job.slots, most, stated);
    return most <= stated;
}

/* The calls with no more stack than a replay: whether each is within the header's figure. */
static int small_calls(struct job job, size_t thread)
{
    static const char *const names[] = {[REPLAY] = "replay", [SERVICE] = "replay with totals", [READ] = "read", [WRITE] = "write",
                                        [PRACTICE] = "practice sheet", [CUT] = "cut", [STEP] = "session's step",
                                        [MARK] = "session's mark", [RETURN] = "session's return"};
    int within = 1;
    for (job.kind = REPLAY; job.kind <= RETURN; job.kind++) {
        size_t measured = used(&job) - thread;
        if (job.kind >= CUT && RONCHHEK_KIND(job.answer) != RONCHHEK_DONE) {
            fputs("stack: a cut or a call on a session is not done\n", stderr);
            exit(2);
        }
        printf("stack of a %s: %zu of %d\n", names[job.kind], measured, RONCHHEK_STACK_REPLAY);
        within &= measured <= RONCHHEK_STACK_REPLAY;
    }
    return within;
}

int main(void)
{
    static const size_t slots[] = {1, 3120, 16384, 16385, 65536, 262144, 262145, 1000000};
    static const size_t states[] = {1, 12288, 12289, 49152, 49153, 1000000, MOST_STATES};
    uint8_t *work = malloc((size_t)MOST_STATES * RONCHHEK_STATE_BYTES);
    uint8_t *trace = malloc(RONCHHEK_MOST_SLOTS);
    if (!work || !trace) {
        fputs("stack: no memory\n", stderr);
        return 2;
    }
    struct job job = {NOTHING, work, trace, 0, 0};
    size_t thread = used(&job); /* what a thread itself uses */
    int status = !small_calls(job, thread);
    job.kind = VERDICT;
    for (size_t i = 0; i < sizeof slots / sizeof *slots; i++) {
        job.slots = slots[i];
        size_t stated = slots[i] <= RONCHHEK_SLOTS_SMALL ? RONCHHEK_STACK_SMALL
                      : slots[i] <= RONCHHEK_SLOTS_MEDIUM ? RONCHHEK_STACK_MEDIUM
                      : RONCHHEK_STACK_LARGE;
        size_t measured = used(&job) - thread;
        printf("stack with %zu slots: %zu of %zu\n", slots[i], measured, stated);
        if (measured > stated)
            status = 1;
    }
    for (size_t i = 0; i < sizeof states / sizeof *states; i++) {
        job.slots = states[i];
        if (!file(job, thread))
            status = 1;
    }
    free(work);
    free(trace);
    puts(status ? "stack: FAILED, a figure of the header is too low" : "stack: within the header's figures");
    return status;
}
