/* The timed entries in plain C, as palikudyom.h declares the proved ones: the same arguments, the same answers and the same buffers after a call. */
#ifndef PLAIN_H
#define PLAIN_H

#include "palikudyom.h"

struct palikudyom_answer plain_least_supply(struct palikudyom_board board, const uint32_t *windows, size_t windows_len, uint32_t length);

struct palikudyom_answer plain_critical(struct palikudyom_board board, const uint32_t *windows, size_t windows_len, uint32_t *out, size_t out_len);

struct palikudyom_answer plain_delay(struct palikudyom_board board, const uint32_t *windows, size_t windows_len);
struct palikudyom_answer plain_outage(struct palikudyom_board board, const uint32_t *windows, size_t windows_len);

struct palikudyom_answer plain_margin(struct palikudyom_board board, const uint32_t *windows, size_t windows_len, const uint32_t *tasks, size_t tasks_len,
                                      uint32_t length);

struct palikudyom_answer plain_verdict(struct palikudyom_board board, const uint32_t *windows, size_t windows_len, const uint32_t *tasks, size_t tasks_len);

struct palikudyom_answer plain_bound(struct palikudyom_board board, const uint32_t *windows, size_t windows_len, const uint32_t *tasks, size_t tasks_len,
                                     uint32_t index);

struct palikudyom_answer plain_run(struct palikudyom_board board, const uint32_t *windows, size_t windows_len, const uint32_t *tasks, size_t tasks_len,
                                   uint32_t ticks, const uint32_t *jobs, size_t jobs_len, uint32_t *counts, size_t counts_len);

struct palikudyom_answer plain_replay(struct palikudyom_board board, const uint32_t *windows, size_t windows_len, const uint32_t *tasks, size_t tasks_len,
                                      const uint8_t *trace, size_t trace_len);

struct palikudyom_answer plain_plan_with_shortest(const uint8_t *bytes, size_t bytes_len);
struct palikudyom_answer plain_plan_with_rule(const uint8_t *bytes, size_t bytes_len);

struct palikudyom_answer plain_make_summary(struct palikudyom_board board, const uint32_t *windows, size_t windows_len, uint32_t *out, size_t out_len);

struct palikudyom_answer plain_least_supply_from(struct palikudyom_board board, const uint32_t *windows, size_t windows_len, const uint32_t *summary,
                                                 size_t summary_len, uint32_t length);

struct palikudyom_answer plain_margins(struct palikudyom_board board, const uint32_t *windows, size_t windows_len, const uint32_t *summary, size_t summary_len,
                                       const uint32_t *tasks, size_t tasks_len, const uint32_t *lengths, size_t lengths_len, int64_t *out, size_t out_len);

struct palikudyom_answer plain_move_window(struct palikudyom_board board, uint32_t count, uint32_t *windows, size_t windows_len, uint32_t *summary,
                                           size_t summary_len, uint32_t index, uint32_t start, uint32_t end);

struct palikudyom_answer plain_add_window(struct palikudyom_board board, uint32_t count, uint32_t *windows, size_t windows_len, uint32_t *summary,
                                          size_t summary_len, uint32_t index, uint32_t start, uint32_t end, uint32_t owner);

struct palikudyom_answer plain_remove_window(struct palikudyom_board board, uint32_t count, uint32_t *windows, size_t windows_len, uint32_t *summary,
                                             size_t summary_len, uint32_t index);

/* The least supply as it was before request 3: every start of a frame is tried, and each tick is looked for in all windows. */
struct palikudyom_answer plain_least_supply_by_ticks(struct palikudyom_board board, const uint32_t *windows, size_t windows_len, uint32_t length);

/* The critical partition as it was before request 6: the least supply of every length is asked for. */
struct palikudyom_answer plain_critical_every_length(struct palikudyom_board board, const uint32_t *windows, size_t windows_len, uint32_t *out, size_t out_len);

/* The same run, but late jobs are looked for in all 32 places at every tick. */
struct palikudyom_answer plain_run_every_tick(struct palikudyom_board board, const uint32_t *windows, size_t windows_len, const uint32_t *tasks,
                                              size_t tasks_len, uint32_t ticks, const uint32_t *jobs, size_t jobs_len, uint32_t *counts, size_t counts_len);

/*
 * The last bytes of a file's code, in a line of 64 of their own. The linker goes on with the next file, after bench.c with plain.c and after that with
 * the library: each begins 16 bytes into a line, whatever comes before. Where a loop lies in such lines can cost it a quarter of its time.
 */
#define END_OF_FILE                                                                                  \
    __attribute__((used, aligned(64), section(".text.end_of_file"))) static void end_of_file(void) \
    {                                                                                                \
    }

#endif
