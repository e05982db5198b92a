/*
 * Palikudyom for C: does a group of tasks meet its deadlines on a table of time windows?
 *
 * Every function is total: any numbers at all get an answer, and nothing need be checked first. It keeps no state and asks for no memory.
 * Each answer is proved equal to its definition in documents 01 and 02; README.md says where.
 *
 * What a caller must keep, for no proof reaches into C:
 * - a pointer is aligned, not null (even where the length is 0), and valid for its length: that many numbers can be read, or written where it
 *   is not const;
 * - a lent buffer (not const) overlaps no other argument;
 * - nobody writes an argument's memory, or reads a lent buffer, during the call.
 *
 * A host that asks for many margins on one plan keeps a summary beside its windows. The whole cycle, with room for every table (64 windows):
 *
 *     uint32_t windows[3 * 64] = {0, 2, 0, 2, 5, 1, 5, 7, 0, 7, 8, 1}, count = 4, *summary, none;
 *     int64_t margins[1000];                                           // one for each of 1,000 lengths
 *
 *     x = palikudyom_make_summary(board, windows, 3 * count, &none, 0);    // no room: REFUSED 8 at the numbers it needs; any other is the table's
 *     size_t room = x.code == PALIKUDYOM_REFUSED && x.a == 8 ? x.b : 0;    // more, where edits may make it longer: FRAME + 4 is always enough
 *     summary = malloc(room * sizeof *summary);
 *     x = palikudyom_make_summary(board, windows, 3 * count, summary, room);   // AMOUNT: made
 *
 *     x = palikudyom_margins(board, windows, 3 * count, summary, room, tasks, 6, lengths, 1000, margins, 1000);    // all of them in one call
 *
 *     x = palikudyom_move_window(board, count, windows, 3 * 64, summary, room, 2, 5, 6);   // windows and summary change together, or neither does
 *     if (x.code == PALIKUDYOM_EDITED)
 *         count = x.a;                                                 // the windows there are now; x.b numbers are their summary
 *
 *     x = palikudyom_margins(board, windows, 3 * count, summary, room, tasks, 6, lengths, 1000, margins, 1000);    // of the new table
 *
 * Every entry that is lent a summary first holds it against its windows, number by number, and refuses it as 14 where it is not theirs: that costs about half
 * a making, whatever is asked. So many lengths belong into one call of palikudyom_margins, which does it once, and palikudyom_least_supply_from is for one
 * length now and then. It also means that no stale or damaged summary is ever answered from.
 */
#ifndef PALIKUDYOM_H
#define PALIKUDYOM_H

#include <stddef.h>
#include <stdint.h>

#ifdef __cplusplus
extern "C" {
#endif

/* Which numbers of an answer mean what. The others are 0. */
enum palikudyom_code {
    PALIKUDYOM_REFUSED = 0,  /* a: number, b: place, as below */
    PALIKUDYOM_AMOUNT = 1,   /* a: a least supply, outage or demand, or how many critical windows, bytes, numbers or margins */
    PALIKUDYOM_DELAY = 2,    /* a: delay times A, b: A, the supplied ticks of a frame */
    PALIKUDYOM_MARGIN = 3,   /* a: margin, 0 or more */
    PALIKUDYOM_BELOW = 4,    /* a: how far the margin is below 0 */
    PALIKUDYOM_MEETS = 5,    /* a: cycle */
    PALIKUDYOM_MISS = 6,     /* a: length, b: start, c: demand, d: supply */
    PALIKUDYOM_BOUND = 7,    /* a: response bound */
    PALIKUDYOM_NO_BOUND = 8,
    PALIKUDYOM_MET = 9,      /* a: backlog */
    PALIKUDYOM_MISSED = 10,  /* a: instant, b: job, c: backlog */
    PALIKUDYOM_SAME = 11,
    PALIKUDYOM_DIFFERS = 12, /* a: the trace's instant, b: its task, c: the machine's instant, d: its task */
    PALIKUDYOM_TRACE_ENDED = 13,   /* c: the machine's instant, d: its task; the trace has no such completion */
    PALIKUDYOM_MACHINE_ENDED = 14, /* a: the trace's instant, b: its task; the machine has no such completion */
    PALIKUDYOM_TRACE_MISSED = 15,  /* a: instant, b: job: its index among the trace's releases */
    PALIKUDYOM_EDITED = 17         /* 16 is never given. a: how many windows there are now, b: how many numbers their summary has */
};

/*
 * Refusals, by number. The place is 0 unless it is named. A refusal writes nothing.
 *   1       the window list is not in threes (of a plan: not in pairs), empty or over 64 windows; or, after 3, the asked owner has no window; of an edit,
 *           first of all: the lent windows are fewer than its count
 *   2       the frame is outside 1 to 65,536
 *   3 at i  window i is empty, leaves the frame, starts before the previous end, touches the previous window of the same owner, or is nobody's: its owner
 *           is neither 0 nor 1
 *   4       the task list is not in threes, or over 32 tasks
 *   5 at i  task i has a number outside 1 to 1,000,000, or a deadline past its period
 *   6       the cycle is over 1,000,000
 *   7       the asked length, or one of the lengths, is over 1,000,000; or the asked task, or the window of an edit, is not there
 *   8 at n  the lent buffer is too short: n numbers are needed
 *   9 at o  the bytes of the plan, or of the trace, are bad at offset o
 *  10       the job list is not in threes or over 4,096 jobs, or the run is over 1,100,000 ticks; the same of a trace's releases and ticks
 *  11 at j  job j is out of order, of no task, too early after the last of its task, released after the run, or its work is outside 1 to C; of a trace:
 *           record j is against the order of records, or such a release
 *  12 at i  window i of the whole list, whoever owns it, is shorter than the board allows; at 64 the shortest allowed window is outside 1 to 65,536
 *  13       the rule is neither 1 nor 2, more than 65,535 ticks are lost, rule 1 comes with lost ticks, or the asked owner is left no tick: each of its windows
 *           has no more ticks than are lost of it
 *  14       the lent summary does not begin with what a making would write for the board and the windows lent with it
 */
struct palikudyom_answer {
    uint32_t code;
    uint64_t a;
    uint64_t b;
    uint64_t c;
    uint64_t d;
};

/* By which rule a board gives windows: the whole window, or all but its first ticks. */
enum palikudyom_rule {
    PALIKUDYOM_WHOLE = 1,
    PALIKUDYOM_LOSING = 2
};

/*
 * The frame, the owner that is asked for, 0 or 1, the shortest allowed window: 1 allows every window, and 0 is refused; then the rule, and how many ticks a
 * rule 2 board loses of each window. {8, 0, 1, PALIKUDYOM_WHOLE, 0} loses nothing. A board without its last two members has rule 0, which is refused.
 */
struct palikudyom_board {
    uint32_t frame;
    uint32_t owner;
    uint32_t shortest;
    uint32_t rule;
    uint32_t lost;
};

/*
 * A list is a pointer and how many numbers it has: windows are start, end and owner of each (of a plan start and end, all owner 0's), tasks are work,
 * period and deadline of each, jobs are release tick, task index and work of each. A table may be shared by two teams: what an owner is answered depends
 * on the frame, its own windows, the rule and the lost ticks, and on the other team's windows only by the refusals 1 2 3 12, but for edits. After each
 * function: what it answers beside REFUSED, and its refusals in the order of its checks; T is a table's: 1 2 3, then 1 of an owner without a window, then 12,
 * then 13.
 */

/* The least supply of `length` ticks, over all starts. AMOUNT; T 7 */
struct palikudyom_answer palikudyom_least_supply(struct palikudyom_board board, const uint32_t *windows, size_t windows_len, uint32_t length);

/* The critical partition: how many windows, with start and end of each in `out`, whose rest is kept. AMOUNT; T 8 */
struct palikudyom_answer palikudyom_critical(struct palikudyom_board board, const uint32_t *windows, size_t windows_len, uint32_t *out, size_t out_len);

/* DELAY; T */
struct palikudyom_answer palikudyom_delay(struct palikudyom_board board, const uint32_t *windows, size_t windows_len);

/* The longest outage, over endless frames: the end of one joins the start of the next. AMOUNT; T */
struct palikudyom_answer palikudyom_outage(struct palikudyom_board board, const uint32_t *windows, size_t windows_len);

/* The demand of the group at `length`. AMOUNT; 4 5 7 */
struct palikudyom_answer palikudyom_demand(const uint32_t *tasks, size_t tasks_len, uint32_t length);

/* Least supply minus demand at `length`. MARGIN, BELOW; T 4 5 7 */
struct palikudyom_answer palikudyom_margin(struct palikudyom_board board, const uint32_t *windows, size_t windows_len, const uint32_t *tasks, size_t tasks_len, uint32_t length);

/* Whether the group meets its deadlines under earliest deadline first. MEETS, MISS; T 4 5 6 */
struct palikudyom_answer palikudyom_verdict(struct palikudyom_board board, const uint32_t *windows, size_t windows_len, const uint32_t *tasks, size_t tasks_len);

/* The response bound of task `index` under fixed priority, lower index first. BOUND, NO_BOUND; T 4 5 7 */
struct palikudyom_answer palikudyom_bound(struct palikudyom_board board, const uint32_t *windows, size_t windows_len, const uint32_t *tasks, size_t tasks_len, uint32_t index);

/* Runs a job list for `ticks` ticks, earliest deadline first, with a count for each job in `counts`, whose rest is kept. MET, MISSED; T 4 5 10 11 8 */
struct palikudyom_answer palikudyom_run(struct palikudyom_board board, const uint32_t *windows, size_t windows_len, const uint32_t *tasks, size_t tasks_len, uint32_t ticks,
                                        const uint32_t *jobs, size_t jobs_len, uint32_t *counts, size_t counts_len);

/* A board's trace against that run of its releases. SAME, DIFFERS, TRACE_ENDED, MACHINE_ENDED, TRACE_MISSED; 9 T 4 5 10 11 */
struct palikudyom_answer palikudyom_replay(struct palikudyom_board board, const uint32_t *windows, size_t windows_len, const uint32_t *tasks, size_t tasks_len,
                                           const uint8_t *trace, size_t trace_len);

/*
 * The summary of the asked owner's windows: A, the delay times A, the number of critical windows, then start and end of each; how many numbers. They go to
 * the front of `out`, whose rest is kept. Lent no room, it answers 8 at how many numbers it needs. AMOUNT; T 8
 */
struct palikudyom_answer palikudyom_make_summary(struct palikudyom_board board, const uint32_t *windows, size_t windows_len, uint32_t *out, size_t out_len);

/* What palikudyom_least_supply answers, from the summary; what follows the summary in its memory is not looked at. AMOUNT; T 14 7 */
struct palikudyom_answer palikudyom_least_supply_from(struct palikudyom_board board, const uint32_t *windows, size_t windows_len,
                                                      const uint32_t *summary, size_t summary_len, uint32_t length);

/*
 * What palikudyom_margin answers, for each of `lengths`, from the summary: how many margins. They go, signed and in the order of the lengths, to the front of
 * `out`, whose rest is kept. AMOUNT; T 4 5 14 7 8
 */
struct palikudyom_answer palikudyom_margins(struct palikudyom_board board, const uint32_t *windows, size_t windows_len, const uint32_t *summary, size_t summary_len,
                                            const uint32_t *tasks, size_t tasks_len, const uint32_t *lengths, size_t lengths_len, int64_t *out, size_t out_len);

/*
 * Edits. The first 3 * `count` numbers of `windows` are the list and the rest is room; `summary` begins with the asked owner's summary of that list, and its rest
 * is room. Afterwards `windows` begins with the new list and `summary` with what a making would write for it; the rest of each is as it was. Any team's window
 * can be edited. EDITED; 1 where `windows` is shorter than its list, T of the list, 14, 7 of the index, then T of the new list, 8 for the windows, 8 for the
 * summary, each at the numbers needed. A refusal leaves both memories as they were. So a refused table can't be repaired by an edit, and the asked owner's last
 * window, or its last one that has a tick left, can't be removed (1, 13). Moving and removing never need room for windows, so their 8 is the summary's; the 8 of adding is for the windows exactly where
 * `windows_len` is below 3 * (`count` + 1).
 */

/* Window `index` gets a new start and end, and keeps its owner and its place in the list. */
struct palikudyom_answer palikudyom_move_window(struct palikudyom_board board, uint32_t count, uint32_t *windows, size_t windows_len, uint32_t *summary, size_t summary_len,
                                                uint32_t index, uint32_t start, uint32_t end);

/* A new window comes before window `index`, or after the last where `index` is `count`. */
struct palikudyom_answer palikudyom_add_window(struct palikudyom_board board, uint32_t count, uint32_t *windows, size_t windows_len, uint32_t *summary, size_t summary_len,
                                               uint32_t index, uint32_t start, uint32_t end, uint32_t owner);

/* Window `index` goes. */
struct palikudyom_answer palikudyom_remove_window(struct palikudyom_board board, uint32_t count, uint32_t *windows, size_t windows_len, uint32_t *summary, size_t summary_len,
                                                  uint32_t index);

/* The verdict of a plan file's bytes. MEETS, MISS; 9 (and 1, 4 as soon as a count is read), then 2 3 5 6 */
struct palikudyom_answer palikudyom_plan(const uint8_t *bytes, size_t bytes_len);

/* Of a plan file that begins with the shortest allowed window. MEETS, MISS; 9 (and 1, 4 as soon as a count is read), then 2 3 12 5 6 */
struct palikudyom_answer palikudyom_plan_with_shortest(const uint8_t *bytes, size_t bytes_len);

/* Of one that begins with the shortest allowed window, the rule and the lost ticks. MEETS, MISS; 9 (and 1, 4 as soon as a count is read), then 2 3 12 13 5 6 */
struct palikudyom_answer palikudyom_plan_with_rule(const uint8_t *bytes, size_t bytes_len);

/* The line of those verdicts, refused plans too, in `out`, whose rest is kept: how many bytes. AMOUNT; 8 */
struct palikudyom_answer palikudyom_line(const uint8_t *bytes, size_t bytes_len, uint8_t *out, size_t out_len);
struct palikudyom_answer palikudyom_line_with_shortest(const uint8_t *bytes, size_t bytes_len, uint8_t *out, size_t out_len);
struct palikudyom_answer palikudyom_line_with_rule(const uint8_t *bytes, size_t bytes_len, uint8_t *out, size_t out_len);

/* A plan file's bytes, of any form, in `out`, whose rest is kept: how many. AMOUNT; 1 4 8 */
struct palikudyom_answer palikudyom_write_plan(uint32_t frame, const uint32_t *windows, size_t windows_len, const uint32_t *tasks, size_t tasks_len,
                                               uint8_t *out, size_t out_len);
struct palikudyom_answer palikudyom_write_plan_with_shortest(uint32_t shortest, uint32_t frame, const uint32_t *windows, size_t windows_len,
                                                             const uint32_t *tasks, size_t tasks_len, uint8_t *out, size_t out_len);
struct palikudyom_answer palikudyom_write_plan_with_rule(uint32_t shortest, uint32_t rule, uint32_t lost, uint32_t frame, const uint32_t *windows,
                                                         size_t windows_len, const uint32_t *tasks, size_t tasks_len, uint8_t *out, size_t out_len);

#ifdef __cplusplus
}
#endif

#endif
