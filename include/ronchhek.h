/* Ronchhek: verdicts on real-time task tables, evidence of Safe, the replay of release lists and where its core time went, task
 * sheets read and written, practice sheets drawn from a number, sheets cut to their first tasks, and sessions that step through a
 * replay and return to a point.
 *
 * Link with libronchhek.a (`tools/build ronchhek` writes it to target/staticlib/). The calls take any bytes and any lengths
 * and always return. They read and write nothing but the bytes they are lent, take nothing from the heap, make no system
 * call and keep nothing between calls, so several threads may call at once, each with spaces of its own.
 *
 * A pointer goes with the number of bytes that it points to. The lent spaces must not overlap each other or the input.
 * A length may be 0; its pointer is then not used, but must not be NULL (any address will do).
 * There is no alignment to keep. A refusal leaves every lent byte as it was, but for one: under refusal 11 ronchhek_service writes
 * the totals of the ticks before.
 */
#ifndef RONCHHEK_H
#define RONCHHEK_H

#include <stddef.h>
#include <stdint.h>

#ifdef __cplusplus
extern "C" {
#endif

/* Sizes.
 *
 * A slot of the work space takes 21 bytes, so a work space has K = work_len / 21 slots, rounded down, and never more than
 * 1,000,000. The trace space needs K bytes. A state has 16 bytes, a table 27, the totals of a replay 192, a session 145. The
 * longest sheet has 52 bytes.
 */
#define RONCHHEK_SLOT_BYTES 21
#define RONCHHEK_MOST_SLOTS 1000000
#define RONCHHEK_STATE_BYTES 16
#define RONCHHEK_TABLE_BYTES 27
#define RONCHHEK_TOTALS_BYTES 192
#define RONCHHEK_SESSION_BYTES 145
#define RONCHHEK_LONGEST_SHEET 52

/* Stack that ronchhek_verdict needs, in bytes, by the slots of the work space, that ronchhek_closed needs, and that
 * ronchhek_replay needs. The heads of the index over the slots stand on the stack: 16 KB, 256 KB or 1 MB by the number of slots,
 * each in a frame of its own. So does the index over a file, in one frame of 1 MB. The other calls need no more than
 * ronchhek_replay. tests/outside/stack.c measures these figures.
 */
#define RONCHHEK_STACK_SMALL 20480     /* up to 16,384 slots */
#define RONCHHEK_STACK_MEDIUM 266240   /* up to 262,144 slots */
#define RONCHHEK_STACK_LARGE 1126400   /* more */
#define RONCHHEK_STACK_REPLAY 20480
#define RONCHHEK_STACK_CLOSED 1126400
#define RONCHHEK_SLOTS_SMALL 16384
#define RONCHHEK_SLOTS_MEDIUM 262144

/* A sheet is a series of numbers:
 *
 *   3                                     the fields of each task
 *   policy                                0 NP-GFP, 1 P-GFP, 2 NP-EDF, 3 P-EDF, 4 P-LST
 *   m                                     processors, 1 to 8
 *   n                                     tasks, 1 to 8
 *   C, D, P of task 1, .., of task n      work, deadline and least gap in ticks, 1 <= C <= D <= P <= 200
 *
 * and nothing after it. P: at every tick the first m ready jobs of the order run. NP: a started job is not preempted; the first
 * of the others get the processors that are left. The order:
 *
 *   GFP   fixed priority: by task number
 *   EDF   earliest deadline first: by smaller time left, then by greater age, then by task number
 *   LST   least slack first: by smaller slack, then by greater age, then by task number, anew at every tick
 *
 * The age of a job is the number of ticks since its release, 0 in the tick of the release. Its time left is D less the age, and
 * its slack is the time left less the work left. So the slack of a job that waits falls by 1 a tick; below 0 it is a miss. And of
 * jobs that are due at the same tick EDF takes the one that was released first; the task number decides where that is equal too.
 *
 * A number is written in groups of seven bits, low group first, a byte each, with the top bit set when another group follows:
 * one byte below 128, else two. So 4 is 04, and 200 = 1 * 128 + 72 is C8 01 (72 is 48 hexadecimal, C8 with the top bit set).
 *
 * examples/two-tasks.sheet has 10 bytes:
 *
 *   03         three fields a task
 *   00         policy 0, NP-GFP
 *   01         1 processor
 *   02         2 tasks
 *   01 01 02   task 1: C = 1, D = 1, P = 2
 *   02 04 04   task 2: C = 2, D = 4, P = 4
 *
 * A table is the same in 27 bytes, one for each number: policy, m, n, then C, D, P of task 1, of task 2, .. of task 8, with 0
 * for tasks that are not there. The same table: 00 01 02, 01 01 02, 02 04 04, then 18 bytes of 0.
 *
 * A release mask is a byte that names the tasks released at a tick: bit 0 (value 1) is task 1, bit 1 (value 2) is task 2, ..,
 * bit 7 (value 128) is task 8. So 3 releases tasks 1 and 2, and 0 none.
 */

/* Refusal numbers, in the order in which they are judged. A sheet is judged in reading order (each number 1, 2, then its
 * own rule; 7 after a task's three numbers).
 *
 *    1  the sheet ends before a number is complete; ronchhek_write: the table is shorter than 27 bytes
 *    2  a number's second byte is 0 or above 127
 *    3  the field count is not 3
 *    4  the policy is above 4
 *    5  the processors are not 1 to 8
 *    6  the tasks are not 1 to 8; ronchhek_cut: or k is not 1 to n (judged after 8)
 *    7  a task breaks 1 <= C <= D <= P <= 200; ronchhek_write: or an entry after the last task is not 0
 *    8  bytes after the last task; ronchhek_write: the table is longer than 27 bytes (judged right after 1)
 *    9  the work space has no slot                                 (ronchhek_verdict)
 *   10  the trace space is shorter than the slots are many         (ronchhek_verdict)
 *   11  a mask's bit for no task, or for a task that may not be released yet
 *                                                                  (ronchhek_replay and ronchhek_service, with the tick's number,
 *                                                                  and ronchhek_session_step)
 *   12  the space for the outcome is too short: 16 bytes of state  (ronchhek_replay),
 *       192 bytes of totals                                        (ronchhek_service),
 *       27 bytes of table                                          (ronchhek_read),
 *       the sheet's length                                         (ronchhek_write, ronchhek_practice and ronchhek_cut),
 *       145 bytes of session                                       (the three calls on sessions)
 *   13  a state of the session is not proper, present or marked    (the three calls on sessions)
 *   14  the file is empty or not a whole number of states          (ronchhek_closed)
 *   15  a mark outside 1 to 8                                      (ronchhek_session_mark and ronchhek_session_return)
 *   16  a return to a mark never set                               (ronchhek_session_return)
 *
 * The calls on sessions judge 1 to 8, 12, 13, then 15 and 16, or 11: a session that is too short is not read.
 */

/* The verdict on a sheet.
 *
 * Returns kind * 2^48 + L * 2^24 + N:
 *
 *   kind 1, Safe     no release list misses a deadline; N is the number of states that release lists reach.
 *   kind 2, Unsafe   some release list misses. L is the least number of ticks of such a list, and N is the number of
 *                    states that lists of at most L - 1 ticks reach without a miss.
 *   kind 3, No room  the slots do not suffice for either answer; N = K.
 *   kind 0, refused  N is the refusal number.
 *
 * L is 0 unless Unsafe. L is never more than K.
 *
 * work   Whatever it held before. Unless refused, its first N slots are written, one for each state, in three columns that are
 *        laid out for all K slots, however many are written:
 *
 *          K states    of 16 bytes, as ronchhek_closed below has them     slot i's from byte 16 i on
 *          K parents   slot numbers of 4 bytes, low byte first            slot i's from byte 16 K + 4 i on
 *          K masks     release masks of 1 byte                            slot i's at byte 20 K + i
 *
 *        Slot 0 is the start state with parent 0 and mask 0; any other slot's state is reached from its parent, an earlier slot,
 *        by one tick under its mask. No state stands twice. Every other byte stays: in each column those of the slots from N on,
 *        and those after the third column, from byte 21 K on. So the first 16 N bytes are the states and nothing else: under
 *        Safe they are the file that ronchhek_closed accepts, where they stand or kept for later.
 * trace  Under Unsafe its first L bytes are the release masks of a list that misses at tick L; the rest stays. Under Safe,
 *        No room and a refusal all of it stays.
 */
uint64_t ronchhek_verdict(const uint8_t *sheet, size_t sheet_len,
                          uint8_t *work, size_t work_len,
                          uint8_t *trace, size_t trace_len);

#define RONCHHEK_REFUSED 0
#define RONCHHEK_SAFE 1
#define RONCHHEK_UNSAFE 2
#define RONCHHEK_NO_ROOM 3

#define RONCHHEK_KIND(answer) ((unsigned)((answer) >> 48))
#define RONCHHEK_TICKS(answer) ((uint32_t)((answer) >> 24 & 0xFFFFFF))
#define RONCHHEK_COUNT(answer) ((uint32_t)((answer) & 0xFFFFFF))

/* The slots of a work space, and the bytes at which the parts of slot i stand where there are K. */
#define RONCHHEK_SLOTS(work_len) \
    ((work_len) / RONCHHEK_SLOT_BYTES < RONCHHEK_MOST_SLOTS ? (work_len) / RONCHHEK_SLOT_BYTES : RONCHHEK_MOST_SLOTS)
#define RONCHHEK_STATE_AT(i) (16 * (size_t)(i))
#define RONCHHEK_PARENT_AT(K, i) (16 * (size_t)(K) + 4 * (size_t)(i))
#define RONCHHEK_MASK_AT(K, i) (20 * (size_t)(K) + (size_t)(i))

/* Evidence of Safe: whether a file shows, by itself, that no release list misses a deadline.
 *
 * A file is states of 16 bytes each, as they stand in a work space: c and p of task 1, then of task 2, .. of task 8. c is the work
 * left, p the ticks until the task may be released again. The states come in any order, and one may stand there several times.
 * A file is closed when
 *
 *   - the start state, 16 zero bytes, is in it;
 *   - every state in it is proper: c <= C and p <= P; where c > 0, the slack D - (P - p) - c is 0 or more; tasks that the table
 *     does not have are 0; and under policies 0 and 2 at most m jobs are started, which means 0 < c < C;
 *   - every legal mask from each of its states (all bits for tasks of the table with p = 0) leads, without a miss, to a state
 *     in it.
 *
 * Returns kind * 2^48 + N:
 *
 *   kind 1, accepted  the file is closed; N is 0.
 *   kind 2, no        it is not; N is 0. The sheet may be safe all the same: the file may be that of another sheet, or lack
 *                     a state.
 *   kind 0, refused   N is the refusal number: 1 to 8 of the sheet, then 14.
 *
 * Whoever made an accepted file, no finite release list misses a deadline. And the states of any Safe search are accepted, also
 * in another order or with repeats: after a Safe with N states they are the first 16 * N bytes of the work space, so
 * ronchhek_closed(sheet, sheet_len, work, 16 * N) is accepted, and so are these bytes written to a file and read again. A file
 * that is kept with a Safe can be checked without the search, and without trust in whoever kept it.
 *
 * Nothing is lent to write. The index over the file only guides the checker. A file made so that its states collide there takes
 * a time that is quadratic in its length, at worst; the answer is right for every file.
 */
uint64_t ronchhek_closed(const uint8_t *sheet, size_t sheet_len,
                         const uint8_t *states, size_t states_len);

#define RONCHHEK_ACCEPTED 1
#define RONCHHEK_NO 2

/* The replay of a release list, one mask a tick, from the start state of a sheet's table.
 *
 * Returns kind * 2^56 + number * 2^48 + tick:
 *
 *   kind 1, Kept     no deadline is missed; number and tick are 0.
 *   kind 2, Missed   tick is the number of the tick that misses (the first tick is 1); number is 0. Later masks are unread.
 *   kind 0, refused  number is the refusal number; tick is the tick's number under refusal 11 and else 0.
 *
 * Refusal 12 is judged after the play: a list with an illegal mask answers 11 whatever the state space. Only a list of 2^48
 * bytes or more is refused, with 12, before it.
 *
 * state  Under Kept and Missed its first 16 bytes are written: work left and ticks until the next release of task 1, then
 *        of task 2, and so on to task 8 (c in byte 2(i-1) and p in byte 2(i-1)+1 for task i; 0 for tasks that the table
 *        does not have). Under Kept it is the last state, under Missed the state after the tick that misses. Later bytes
 *        stay.
 *
 * The empty list is Kept with the start state, 16 zero bytes.
 */
uint64_t ronchhek_replay(const uint8_t *sheet, size_t sheet_len,
                         const uint8_t *list, size_t list_len,
                         uint8_t *state, size_t state_len);

#define RONCHHEK_REPLAY_REFUSED 0
#define RONCHHEK_REPLAY_KEPT 1
#define RONCHHEK_REPLAY_MISSED 2

#define RONCHHEK_REPLAY_KIND(answer) ((unsigned)((answer) >> 56))
#define RONCHHEK_REPLAY_NUMBER(answer) ((unsigned)((answer) >> 48 & 0xFF))
#define RONCHHEK_REPLAY_TICK(answer) ((answer) & 0xFFFFFFFFFFFF)

/* Where the core time went: the replay of a release list, with three totals of each task.
 *
 * Returns what ronchhek_replay returns for the same sheet and list, with 192 bytes of totals for its 16 of state: so a list with an
 * illegal mask answers 11 whatever the totals space, and a list that is played answers 12 where that space is shorter.
 *
 * totals  Under Kept, Missed and refusal 11 its first 192 bytes are written: three numbers of task 1, then of task 2, and so on to
 *         task 8, of 8 bytes each, low byte first. Of task i they stand at bytes 24(i-1), 24(i-1)+8 and 24(i-1)+16:
 *
 *           releases   how many of its jobs were released
 *           ran        the ticks in which it ran
 *           left       the work left of its last job at the end
 *
 *         All three are 0 for tasks that the table does not have. Later bytes stay. Under any other refusal all bytes stay,
 *         and so they do under 11 where the space is shorter than 192.
 *
 * They balance: for every list and each task, releases * C = ran + left. The tick that misses is counted. The tick that is refused with
 * 11 is not, nor is its mask: the totals are those of the ticks before it. The empty list is Kept, with totals of 0.
 */
uint64_t ronchhek_service(const uint8_t *sheet, size_t sheet_len,
                          const uint8_t *list, size_t list_len,
                          uint8_t *totals, size_t totals_len);

/* The table of a sheet, and the sheet of a table. A sheet that is read and written again has the same bytes, and a table that
 * is written and read again is the same table.
 *
 * Both return kind * 2^48 + N (RONCHHEK_KIND and RONCHHEK_COUNT serve here too):
 *
 *   kind 1, done     N bytes are written: 27 of the table, or the sheet's length (7 to 52). They stand at the front of the
 *                    lent space; later bytes stay.
 *   kind 0, refused  N is the refusal number. ronchhek_read: 1 to 8 of the sheet, then 12. ronchhek_write: 1 or 8 of the
 *                    table's length, 4 to 7 of the table, then 12.
 */
uint64_t ronchhek_read(const uint8_t *sheet, size_t sheet_len,
                       uint8_t *table, size_t table_len);
uint64_t ronchhek_write(const uint8_t *table, size_t table_len,
                        uint8_t *out, size_t out_len);

#define RONCHHEK_DONE 1

/* The sheet of a practice table: a table that anyone can make again, from a policy, m, n and a seed of 16 bits.
 *
 * With s = seed at first, each draw is s = (25173 * s + 13849) mod 65536 and gives the new s. The tasks draw one after the other, three
 * times each: P = 1 + draw mod 200, then D = 1 + draw mod P, then C = 1 + draw mod D. So every table made is valid, and the same
 * four numbers give the same sheet in every build. Of policy 0, m 1, n 1 and seed 0 it is 03 00 01 01 06 2B 32: the draws are
 * 13849, 48742 and 31223, so P = 50, D = 43 and C = 6.
 *
 * Returns kind * 2^48 + N, as ronchhek_write does:
 *
 *   kind 1, done     the sheet's N bytes (7 to 52) stand at the front of out; later bytes stay.
 *   kind 0, refused  N is the refusal number: 4, 5 or 6 for policy, m and n, then 12.
 */
uint64_t ronchhek_practice(uint8_t policy, uint8_t m, uint8_t n, uint16_t seed,
                           uint8_t *out, size_t out_len);

/* The cut of a sheet to k: the sheet of its first k tasks, k from 1 to n, with the same policy and m. Of examples/two-tasks.sheet and
 * k = 1 it is 03 00 01 01 01 01 02; with k = n it is the sheet itself.
 *
 * Returns kind * 2^48 + N, as ronchhek_write does:
 *
 *   kind 1, done     the cut's N bytes (7 to 52, and no more than the sheet has) stand at the front of out; later bytes stay.
 *   kind 0, refused  N is the refusal number, and every byte stays: 1 to 8 of the sheet, then 6 where k is not 1 to n, then 12.
 *                    Where ronchhek_read takes the sheet, 6 is about k.
 *
 * A state is cut to the c and p of its first k tasks, with 0 after them, a mask to its low k bits (mask mod 2^k), and a list mask by
 * mask. Cutting to k and then to j <= k is cutting to j, for each of them.
 *
 * Under P-GFP cuts agree with play, since no task waits for one after it: where ronchhek_replay keeps a list, it keeps the cut list
 * with the cut sheet, and the state is the cut of the state. Under the other policies a task may wait for one after it: a list that
 * is kept may, when it is cut, be kept with another state, and under NP it may miss. Of verdicts it holds under every policy: where
 * ronchhek_verdict answers Safe with N states, it answers Safe for the cut in as many slots, with N states or fewer.
 */
uint64_t ronchhek_cut(const uint8_t *sheet, size_t sheet_len, uint8_t k,
                      uint8_t *out, size_t out_len);

/* A session: whoever looks into a replay steps through it tick by tick, sets marks, and returns to them.
 *
 * A session has a present state and eight marks, numbered 1 to 8, each empty or a state. It is 145 bytes, which the caller keeps:
 *
 *   byte 0                 the marks that are set: bit 0 (value 1) is mark 1, .., bit 7 (value 128) is mark 8
 *   bytes 1 to 16          the present state, 16 bytes as ronchhek_closed above has them
 *   bytes 16 i + 1 on      the state under mark i, 16 bytes
 *
 * The bytes of a mark that is not set are neither read nor changed. A fresh session, at the start state and with no mark, is 145
 * zero bytes. Bytes after the 145th are neither read nor changed.
 *
 *   ronchhek_session_step     one tick from the present state under a release mask. Its next state is the present one from then on;
 *                             where the tick misses, the session stays where it was.
 *   ronchhek_session_mark     sets a mark: stores the present state under it, also where it was set before.
 *   ronchhek_session_return   makes the state under a mark the present one. The mark stays.
 *
 * Each returns kind * 2^48 + N (RONCHHEK_KIND and RONCHHEK_COUNT serve here too):
 *
 *   kind 1, done     N is 0.
 *   kind 2, Missed   a step would make a job late; N is 0, and every byte stays.
 *   kind 0, refused  N is the refusal number, and every byte stays: 1 to 8 of the sheet, 12 where the session has fewer than 145
 *                    bytes, 13 where its present state or one under a set mark is not proper (as ronchhek_closed has it); then 15
 *                    for a mark outside 1 to 8 and 16 for a return to a mark never set, or 11 for a mask that is not legal.
 *
 * For every list of these calls with one sheet, from a fresh session: note the mask of each step that is done, note under a mark
 * that is set the masks noted so far, and on a return take those noted under it. Then the present state is the one with which
 * ronchhek_replay keeps the masks noted, the state under each set mark is that of the masks noted under it, and no call answers 13.
 */
uint64_t ronchhek_session_step(const uint8_t *sheet, size_t sheet_len,
                               uint8_t *session, size_t session_len, uint8_t mask);
uint64_t ronchhek_session_mark(const uint8_t *sheet, size_t sheet_len,
                               uint8_t *session, size_t session_len, uint8_t mark);
uint64_t ronchhek_session_return(const uint8_t *sheet, size_t sheet_len,
                                 uint8_t *session, size_t session_len, uint8_t mark);

#define RONCHHEK_SESSION_MISSED 2
#define RONCHHEK_SESSION_PRESENT_AT 1
#define RONCHHEK_SESSION_MARK_AT(i) (16 * (size_t)(i) + 1)

#ifdef __cplusplus
}
#endif

#endif
