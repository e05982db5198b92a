/*
 * Times the proved entries beside plain C ones of the same algorithms, and prints Markdown tables. Every timed input is first asked of both:
 * a difference in the answer or in the lent buffer ends the program with status 1, and so does an answer that the input's words do not tell.
 * A bar that is not met is only told, for a busy machine can miss any.
 */
#define _POSIX_C_SOURCE 200809L
#include "palikudyom.h"
#include "plain.h"
#include <stdio.h>
#include <stdlib.h>
#include <string.h>
#include <time.h>

#define LENGTH(list) (sizeof(list) / sizeof((list)[0]))

enum {
    ROOM = 8192,          /* numbers of a lent buffer: more than any input here fills, so that a write past the end of an answer is seen */
    UNTOUCHED = 7,        /* each of them before a compared call */
    ROUNDS = 7,           /* measurements of a side, of which the best counts */
    LONG_ROUNDS = 3,      /* those of an input that takes LONG */
    MOST_JOBS = 4096,     /* of a run */
    LONGEST_RUN = 1100000,
    MOST_LENGTHS = 10000, /* of margins in one call */
    WINDOW_ROOM = 196,    /* numbers of lent window memory: 65 windows and one number */
    RELEASE_BYTES = 10,   /* of a record, at most: kind and task take one each, work three, a stamp five */
    COMPLETION_BYTES = 7,
    LONGEST_PLAN = 1142
};
static const double SHORTEST = 0.05; /* seconds that a measurement takes at least */
static const double LONG = 0.4;      /* seconds after which a measurement is long */

/* request 3's bars, beside those in seconds */
static const double LEAST_GAIN = 10000;   /* of the least supply's worst input */
static const double HIGHEST_RATIO = 1.10; /* to plain C */

struct input {
    struct palikudyom_board board;
    uint32_t windows[192];
    size_t windows_len;
    uint32_t tasks[96];
    size_t tasks_len;
    uint32_t asked; /* the length of a least supply or margin, the index of a bound, the ticks of a run */
    uint32_t jobs[3 * MOST_JOBS];
    size_t jobs_len;
    uint8_t trace[(RELEASE_BYTES + COMPLETION_BYTES) * MOST_JOBS]; /* of the run of these jobs */
    size_t trace_len;
    uint32_t records;
    uint8_t plan[LONGEST_PLAN]; /* of the board, the windows, which are owner 0's, and the tasks */
    size_t plan_len;
    uint32_t summary[ROOM]; /* of these windows */
    size_t summary_len;
    uint32_t lengths[MOST_LENGTHS]; /* of margins */
    size_t lengths_len;
    uint32_t moved; /* a window's index, and what it is moved to and back from */
    uint32_t start;
    uint32_t end;
};

/* What a call may be lent: a buffer, one of signed numbers, and the memory of a table and its summary, which an edit writes */
struct lent {
    uint32_t numbers[ROOM];
    int64_t margins[MOST_LENGTHS + 1];
    uint32_t windows[WINDOW_ROOM];
    uint32_t summary[ROOM];
};

/* Entries: each of both sides as a function of an input and lent memory */

typedef struct palikudyom_answer ask(const struct input *x, struct lent *lent);

#define SIDE(side)                                                                                                                            \
    static struct palikudyom_answer side##_asked_for_least_supply(const struct input *x, struct lent *lent)                                   \
    {                                                                                                                                         \
        (void)lent;                                                                                                                           \
        return side##_least_supply(x->board, x->windows, x->windows_len, x->asked);                                                           \
    }                                                                                                                                         \
    static struct palikudyom_answer side##_asked_for_critical(const struct input *x, struct lent *lent)                                       \
    {                                                                                                                                         \
        return side##_critical(x->board, x->windows, x->windows_len, lent->numbers, ROOM);                                                    \
    }                                                                                                                                         \
    static struct palikudyom_answer side##_asked_for_delay(const struct input *x, struct lent *lent)                                          \
    {                                                                                                                                         \
        (void)lent;                                                                                                                           \
        return side##_delay(x->board, x->windows, x->windows_len);                                                                            \
    }                                                                                                                                         \
    static struct palikudyom_answer side##_asked_for_outage(const struct input *x, struct lent *lent)                                         \
    {                                                                                                                                         \
        (void)lent;                                                                                                                           \
        return side##_outage(x->board, x->windows, x->windows_len);                                                                           \
    }                                                                                                                                         \
    static struct palikudyom_answer side##_asked_for_margin(const struct input *x, struct lent *lent)                                         \
    {                                                                                                                                         \
        (void)lent;                                                                                                                           \
        return side##_margin(x->board, x->windows, x->windows_len, x->tasks, x->tasks_len, x->asked);                                         \
    }                                                                                                                                         \
    static struct palikudyom_answer side##_asked_for_verdict(const struct input *x, struct lent *lent)                                        \
    {                                                                                                                                         \
        (void)lent;                                                                                                                           \
        return side##_verdict(x->board, x->windows, x->windows_len, x->tasks, x->tasks_len);                                                  \
    }                                                                                                                                         \
    static struct palikudyom_answer side##_asked_for_bound(const struct input *x, struct lent *lent)                                          \
    {                                                                                                                                         \
        (void)lent;                                                                                                                           \
        return side##_bound(x->board, x->windows, x->windows_len, x->tasks, x->tasks_len, x->asked);                                          \
    }                                                                                                                                         \
    static struct palikudyom_answer side##_asked_for_run(const struct input *x, struct lent *lent)                                            \
    {                                                                                                                                         \
        return side##_run(x->board, x->windows, x->windows_len, x->tasks, x->tasks_len, x->asked, x->jobs, x->jobs_len,                       \
                          lent->numbers, ROOM);                                                                                               \
    }                                                                                                                                         \
    static struct palikudyom_answer side##_asked_for_replay(const struct input *x, struct lent *lent)                                         \
    {                                                                                                                                         \
        (void)lent;                                                                                                                           \
        return side##_replay(x->board, x->windows, x->windows_len, x->tasks, x->tasks_len, x->trace, x->trace_len);                           \
    }                                                                                                                                         \
    static struct palikudyom_answer side##_asked_for_plan(const struct input *x, struct lent *lent)                                           \
    {                                                                                                                                         \
        (void)lent;                                                                                                                           \
        return side##_plan_with_shortest(x->plan, x->plan_len);                                                                               \
    }                                                                                                                                         \
    static struct palikudyom_answer side##_asked_for_rule_plan(const struct input *x, struct lent *lent)                                      \
    {                                                                                                                                         \
        (void)lent;                                                                                                                           \
        return side##_plan_with_rule(x->plan, x->plan_len);                                                                                   \
    }                                                                                                                                         \
    static struct palikudyom_answer side##_asked_for_make_summary(const struct input *x, struct lent *lent)                                   \
    {                                                                                                                                         \
        return side##_make_summary(x->board, x->windows, x->windows_len, lent->numbers, ROOM);                                                \
    }                                                                                                                                         \
    static struct palikudyom_answer side##_asked_for_least_supply_from(const struct input *x, struct lent *lent)                              \
    {                                                                                                                                         \
        (void)lent;                                                                                                                           \
        return side##_least_supply_from(x->board, x->windows, x->windows_len, x->summary, x->summary_len, x->asked);                          \
    }                                                                                                                                         \
    static struct palikudyom_answer side##_asked_for_margins(const struct input *x, struct lent *lent)                                        \
    {                                                                                                                                         \
        return side##_margins(x->board, x->windows, x->windows_len, x->summary, x->summary_len, x->tasks, x->tasks_len, x->lengths,           \
                              x->lengths_len, lent->margins, MOST_LENGTHS + 1);                                                               \
    }                                                                                                                                         \
    static struct palikudyom_answer side##_moves(const struct input *x, struct lent *lent, uint32_t start, uint32_t end)                      \
    {                                                                                                                                         \
        return side##_move_window(x->board, x->windows_len / 3, lent->windows, WINDOW_ROOM, lent->summary, ROOM, x->moved, start, end);       \
    }                                                                                                                                         \
    static struct palikudyom_answer side##_asked_for_move(const struct input *x, struct lent *lent)                                           \
    {                                                                                                                                         \
        return side##_moves(x, lent, x->start, x->end);                                                                                       \
    }                                                                                                                                         \
    static struct palikudyom_answer side##_asked_for_move_and_back(const struct input *x, struct lent *lent)                                  \
    {                                                                                                                                         \
        struct palikudyom_answer there = side##_moves(x, lent, x->start, x->end);                                                             \
        struct palikudyom_answer back = side##_moves(x, lent, x->windows[3 * x->moved], x->windows[3 * x->moved + 1]);                        \
        return there.code == PALIKUDYOM_EDITED ? back : there;                                                                                \
    }                                                                                                                                         \
    static struct palikudyom_answer side##_asked_for_remove(const struct input *x, struct lent *lent)                                         \
    {                                                                                                                                         \
        return side##_remove_window(x->board, x->windows_len / 3, lent->windows, WINDOW_ROOM, lent->summary, ROOM, x->moved);                 \
    }                                                                                                                                         \
    static struct palikudyom_answer side##_asked_for_remove_and_add(const struct input *x, struct lent *lent)                                 \
    {                                                                                                                                         \
        struct palikudyom_answer removed = side##_asked_for_remove(x, lent);                                                                  \
        const uint32_t *window = x->windows + 3 * x->moved;                                                                                   \
        struct palikudyom_answer added = side##_add_window(x->board, x->windows_len / 3 - 1, lent->windows, WINDOW_ROOM, lent->summary, ROOM, \
                                                           x->moved, window[0], window[1], window[2]);                                        \
        return removed.code == PALIKUDYOM_EDITED ? added : removed;                                                                           \
    }

SIDE(palikudyom)
SIDE(plain)

static struct palikudyom_answer plain_asked_for_least_supply_by_ticks(const struct input *x, struct lent *lent)
{
    (void)lent;
    return plain_least_supply_by_ticks(x->board, x->windows, x->windows_len, x->asked);
}

static struct palikudyom_answer plain_asked_for_run_every_tick(const struct input *x, struct lent *lent)
{
    return plain_run_every_tick(x->board, x->windows, x->windows_len, x->tasks, x->tasks_len, x->asked, x->jobs, x->jobs_len, lent->numbers, ROOM);
}

static struct palikudyom_answer plain_asked_for_critical_every_length(const struct input *x, struct lent *lent)
{
    return plain_critical_every_length(x->board, x->windows, x->windows_len, lent->numbers, ROOM);
}

/* Many calls of proved entries in place of one of request 6's, with the same answers in the same buffers */

static struct palikudyom_answer amount(uint64_t n)
{
    return (struct palikudyom_answer){PALIKUDYOM_AMOUNT, n, 0, 0, 0};
}

static uint64_t least_supply_of(const struct input *x, uint32_t length)
{
    return palikudyom_least_supply(x->board, x->windows, x->windows_len, length).a;
}

/* the summary by P calls: the frame first, for A, then the shorter lengths */
static struct palikudyom_answer summary_asked_by_length(const struct input *x, struct lent *lent)
{
    uint32_t frame = x->board.frame;
    uint64_t whole = least_supply_of(x, frame);
    uint64_t late = 0;
    uint64_t before = 0;
    uint64_t rises = 0;
    uint32_t numbers = 3;
    for (uint32_t t = 1; t <= frame; t++) {
        uint64_t least = t == frame ? whole : least_supply_of(x, t);
        if (least - before != rises)
            lent->numbers[numbers++] = t - 1;
        rises = least - before;
        before = least;
        if (late < whole * t - frame * least)
            late = whole * t - frame * least;
    }
    if (rises != 0)
        lent->numbers[numbers++] = frame;
    lent->numbers[0] = whole;
    lent->numbers[1] = late;
    lent->numbers[2] = (numbers - 3) / 2;
    return amount(numbers);
}

static struct palikudyom_answer margins_asked_by_length(const struct input *x, struct lent *lent)
{
    for (size_t i = 0; i < x->lengths_len; i++) {
        struct palikudyom_answer margin = palikudyom_margin(x->board, x->windows, x->windows_len, x->tasks, x->tasks_len, x->lengths[i]);
        lent->margins[i] = margin.code == PALIKUDYOM_BELOW ? -(int64_t)margin.a : (int64_t)margin.a;
    }
    return amount(x->lengths_len);
}

static struct palikudyom_answer least_supplies_asked_by_length(const struct input *x, struct lent *lent)
{
    for (size_t i = 0; i < x->lengths_len; i++)
        lent->margins[i] = (int64_t)least_supply_of(x, x->lengths[i]);
    return amount(x->lengths_len);
}

struct entry {
    const char *name;
    ask *proved;
    ask *plain;
};

static const struct entry LEAST_SUPPLY = {"least supply", palikudyom_asked_for_least_supply, plain_asked_for_least_supply};
static const struct entry CRITICAL = {"critical partition", palikudyom_asked_for_critical, plain_asked_for_critical};
static const struct entry DELAY = {"delay", palikudyom_asked_for_delay, plain_asked_for_delay};
static const struct entry OUTAGE = {"outage", palikudyom_asked_for_outage, plain_asked_for_outage};
static const struct entry MARGIN = {"margin", palikudyom_asked_for_margin, plain_asked_for_margin};
static const struct entry VERDICT = {"verdict", palikudyom_asked_for_verdict, plain_asked_for_verdict};
static const struct entry BOUND = {"bound", palikudyom_asked_for_bound, plain_asked_for_bound};
static const struct entry RUN = {"run", palikudyom_asked_for_run, plain_asked_for_run};
static const struct entry REPLAY = {"replay", palikudyom_asked_for_replay, plain_asked_for_replay};
static const struct entry PLAN = {"plan, m first", palikudyom_asked_for_plan, plain_asked_for_plan};
static const struct entry RULE_PLAN = {"plan, m, rule and q first", palikudyom_asked_for_rule_plan, plain_asked_for_rule_plan};
static const struct entry MAKE_SUMMARY = {"make summary", palikudyom_asked_for_make_summary, plain_asked_for_make_summary};
static const struct entry LEAST_SUPPLY_FROM = {"least supply from a summary", palikudyom_asked_for_least_supply_from, plain_asked_for_least_supply_from};
static const struct entry MARGINS = {"margins", palikudyom_asked_for_margins, plain_asked_for_margins};
static const struct entry EDITS = {"move a window and back", palikudyom_asked_for_move_and_back, plain_asked_for_move_and_back};
static const struct entry REMOVAL = {"remove a window and add it", palikudyom_asked_for_remove_and_add, plain_asked_for_remove_and_add};
static const struct entry HALF_EDITS[] = {
    {"move a window", palikudyom_asked_for_move, plain_asked_for_move},
    {"remove a window", palikudyom_asked_for_remove, plain_asked_for_remove},
};
static const struct entry LEAST_SUPPLY_BY_TICKS = {"least supply", palikudyom_asked_for_least_supply, plain_asked_for_least_supply_by_ticks};
static const struct entry CRITICAL_EVERY_LENGTH = {"critical partition", palikudyom_asked_for_critical, plain_asked_for_critical_every_length};
static const struct entry RUN_EVERY_TICK = {"run", palikudyom_asked_for_run, plain_asked_for_run_every_tick};
static const struct entry SUMMARY_BY_LENGTH = {"make summary", palikudyom_asked_for_make_summary, summary_asked_by_length};
static const struct entry MARGINS_BY_LENGTH = {"margins", palikudyom_asked_for_margins, margins_asked_by_length};
static const struct entry LEAST_SUPPLIES_BY_LENGTH = {"margins, no tasks", palikudyom_asked_for_margins, least_supplies_asked_by_length};

/* Comparing */

static void fail(const char *entry, const char *input, const char *why)
{
    fflush(stdout);
    fprintf(stderr, "bench: %s, %s: %s\n", entry, input, why);
    exit(1);
}

static int same_answer(struct palikudyom_answer x, struct palikudyom_answer y)
{
    return x.code == y.code && x.a == y.a && x.b == y.b && x.c == y.c && x.d == y.d;
}

static struct lent proved_lent;
static struct lent plain_lent;

/* as a compared call finds it, and each timed call after it: an edit goes back */
static void lend(const struct input *x, struct lent *lent)
{
    for (size_t i = 0; i < ROOM; i++)
        lent->numbers[i] = lent->summary[i] = UNTOUCHED;
    for (size_t i = 0; i < LENGTH(lent->margins); i++)
        lent->margins[i] = UNTOUCHED;
    for (size_t i = 0; i < WINDOW_ROOM; i++)
        lent->windows[i] = UNTOUCHED;
    memcpy(lent->windows, x->windows, x->windows_len * sizeof x->windows[0]);
    memcpy(lent->summary, x->summary, x->summary_len * sizeof x->summary[0]);
}

/* `first`: the answer's first number where the words tell it, else 0 */
static void compare(const struct entry *entry, const char *words, uint32_t code, uint64_t first, const struct input *x)
{
    lend(x, &proved_lent);
    lend(x, &plain_lent);
    struct palikudyom_answer proved = entry->proved(x, &proved_lent);
    struct palikudyom_answer plain = entry->plain(x, &plain_lent);
    if (!same_answer(proved, plain))
        fail(entry->name, words, "the two answers differ");
    if (memcmp(&proved_lent, &plain_lent, sizeof proved_lent) != 0)
        fail(entry->name, words, "the two buffers differ");
    if (proved.code != code || (first != 0 && proved.a != first))
        fail(entry->name, words, "not the answer that is meant to be timed");
}

/* Timing */

static double now(void)
{
    struct timespec t;
    clock_gettime(CLOCK_MONOTONIC, &t);
    return (double)t.tv_sec + (double)t.tv_nsec * 1e-9;
}

/* seconds that `times` calls take */
static double seconds(ask *f, const struct input *x, struct lent *lent, unsigned long times)
{
    double start = now();
    for (unsigned long i = 0; i < times; i++)
        f(x, lent);
    return now() - start;
}

/* best seconds a call of a side so far, and how many calls its measurements make */
struct side {
    ask *f;
    struct lent *lent;
    unsigned long times;
    double best;
};

static struct side side_of(ask *f, struct lent *lent)
{
    return (struct side){f, lent, 1, 1e9};
}

/* one measurement, with more calls where it would be shorter than SHORTEST; how long it took */
static double measure(struct side *s, const struct input *x)
{
    double took = seconds(s->f, x, s->lent, s->times);
    while (took < SHORTEST) {
        s->times *= 2;
        took = seconds(s->f, x, s->lent, s->times);
    }
    double each = took / (double)s->times;
    if (each < s->best)
        s->best = each;
    return took;
}

/* best seconds a call, of each of two; alternately, so that a busy machine slows both alike */
static void measure_both(ask *one, ask *other, const struct input *x, double *of_one, double *of_other)
{
    struct side a = side_of(one, &proved_lent);
    struct side b = side_of(other, &plain_lent);
    int rounds = ROUNDS;
    for (int i = 0; i < rounds; i++) {
        if (measure(&a, x) > LONG)
            rounds = LONG_ROUNDS;
        measure(&b, x);
    }
    *of_one = a.best;
    *of_other = b.best;
}

static double measure_proved(const struct entry *entry, const struct input *x)
{
    struct side a = side_of(entry->proved, &proved_lent);
    for (int i = 0; i < LONG_ROUNDS; i++)
        measure(&a, x);
    return a.best;
}

/* Making inputs: all windows are owner 0's, who is asked for, but where two teams are told of */

static void add_owned(struct input *x, uint32_t start, uint32_t end, uint32_t owner)
{
    x->windows[x->windows_len++] = start;
    x->windows[x->windows_len++] = end;
    x->windows[x->windows_len++] = owner;
}

static void add_window(struct input *x, uint32_t start, uint32_t end)
{
    add_owned(x, start, end, 0);
}

/* the last window ends elsewhere */
static void end_last(struct input *x, uint32_t end)
{
    x->windows[x->windows_len - 2] = end;
}

/* windows at even distances that supply half of the frame; frame at least 4 times count */
static void spread_windows(struct input *x, uint32_t frame, uint32_t count)
{
    x->board.frame = frame;
    for (uint32_t i = 0; i < count; i++)
        add_window(x, i * (frame / count), i * (frame / count) + frame / count / 2);
}

/* windows at even distances that supply 15 of 16 ticks; the distance a multiple of 16 */
static void dense_windows(struct input *x, uint32_t frame, uint32_t count)
{
    x->board.frame = frame;
    for (uint32_t i = 0; i < count; i++)
        add_window(x, i * (frame / count), i * (frame / count) + frame / count / 16 * 15);
}

/* windows of one tick at even distances: the least supply of a length is how often the distance goes into it */
static void rare_windows(struct input *x, uint32_t frame, uint32_t count)
{
    x->board.frame = frame;
    for (uint32_t i = 0; i < count; i++)
        add_window(x, (i + 1) * (frame / count) - 1, (i + 1) * (frame / count));
}

/* windows of one tick at 0, 2, 4 and on */
static void early_windows(struct input *x, uint32_t frame, uint32_t count)
{
    x->board.frame = frame;
    for (uint32_t i = 0; i < count; i++)
        add_window(x, 2 * i, 2 * i + 1);
}

/* two teams by turns, so many windows each, that leave no tick free: owner 1's of `ticks` ticks, who is asked for, end at even distances */
static void shared_windows(struct input *x, uint32_t frame, uint32_t count, uint32_t ticks)
{
    x->board = (struct palikudyom_board){frame, 1, 1, PALIKUDYOM_WHOLE, 0};
    for (uint32_t i = 0; i < count; i++) {
        uint32_t end = (i + 1) * (frame / count);
        add_owned(x, i * (frame / count), end - ticks, 0);
        add_owned(x, end - ticks, end, 1);
    }
}

/* windows of half of `step` ticks at distances of `step`, starts and ends later by up to `most`, less than half a step, as a fixed rule has it */
static void jittered_windows(struct input *x, uint32_t frame, uint32_t step, uint32_t most)
{
    uint32_t seed = 1;
    x->board.frame = frame;
    for (uint32_t i = 0; i < frame / step; i++) {
        uint32_t edges[2];
        for (uint32_t j = 0; j < 2; j++) {
            seed = seed * 1103515245 + 12345;
            edges[j] = i * step + j * (step / 2) + seed / 65536 % (most + 1);
        }
        add_window(x, edges[0], edges[1]);
    }
}

/* the summary of the input's windows, for what is asked from it */
static void keep_summary(struct input *x)
{
    struct palikudyom_answer made = palikudyom_make_summary(x->board, x->windows, x->windows_len, x->summary, ROOM);
    if (made.code != PALIKUDYOM_AMOUNT)
        fail(MAKE_SUMMARY.name, "that is kept", "it is not made");
    x->summary_len = made.a;
}

/* 10,000 lengths, no two alike, spread over 1 to 1,000,000 */
static void add_lengths(struct input *x)
{
    for (uint32_t i = 0; i < MOST_LENGTHS; i++)
        x->lengths[x->lengths_len++] = 1 + i * 381967 % 1000000;
}

/* the last window, of two ticks or more, is moved to start a tick later */
static void move_last(struct input *x)
{
    keep_summary(x);
    x->moved = x->windows_len / 3 - 1;
    x->start = x->windows[3 * x->moved] + 1;
    x->end = x->windows[3 * x->moved + 1];
}

static void add_task(struct input *x, uint32_t work, uint32_t period, uint32_t deadline)
{
    x->tasks[x->tasks_len++] = work;
    x->tasks[x->tasks_len++] = period;
    x->tasks[x->tasks_len++] = deadline;
}

/* so many tasks of one tick whose deadlines together are `first`, at most `step`, and every `step` ticks after it */
static void add_deadlines(struct input *x, uint32_t first, uint32_t step, uint32_t tasks)
{
    for (uint32_t i = 0; i < tasks; i++)
        add_task(x, 1, tasks * step, first + i * step);
}

/* every task released in full at 0 and then once a period, for a run of `ticks` */
static void release_all(struct input *x, uint32_t ticks)
{
    x->asked = ticks;
    for (uint32_t k = 0; k < ticks; k++)
        for (uint32_t i = 0; i < x->tasks_len / 3; i++)
            if (k % x->tasks[3 * i + 1] == 0 && x->jobs_len < LENGTH(x->jobs)) {
                x->jobs[x->jobs_len++] = k;
                x->jobs[x->jobs_len++] = i;
                x->jobs[x->jobs_len++] = x->tasks[3 * i];
            }
}

/* Making plans and traces */

/* in seven-bit groups, at the end of `len` bytes */
static void put_number(uint8_t *bytes, size_t *len, uint32_t n)
{
    for (; 128 <= n; n /= 128)
        bytes[(*len)++] = n % 128 + 128;
    bytes[(*len)++] = n;
}

static void add_number(struct input *x, uint32_t n)
{
    put_number(x->trace, &x->trace_len, n);
}

/* the input's plan after its settings */
static void write_lists(struct input *x)
{
    put_number(x->plan, &x->plan_len, x->board.frame);
    put_number(x->plan, &x->plan_len, x->windows_len / 3);
    for (size_t i = 0; i < x->windows_len; i++)
        if (i % 3 != 2)
            put_number(x->plan, &x->plan_len, x->windows[i]);
    put_number(x->plan, &x->plan_len, x->tasks_len / 3);
    for (size_t i = 0; i < x->tasks_len; i++)
        put_number(x->plan, &x->plan_len, x->tasks[i]);
}

/* with its shortest allowed window first */
static void write_plan(struct input *x)
{
    put_number(x->plan, &x->plan_len, x->board.shortest);
    write_lists(x);
}

/* and with that, its rule and its lost ticks first */
static void write_rule_plan(struct input *x)
{
    put_number(x->plan, &x->plan_len, x->board.shortest);
    put_number(x->plan, &x->plan_len, x->board.rule);
    put_number(x->plan, &x->plan_len, x->board.lost);
    write_lists(x);
}

static void add_release(struct input *x, size_t j, uint32_t stamp)
{
    add_number(x, 0);
    add_number(x, x->jobs[3 * j + 1]);
    add_number(x, x->jobs[3 * j + 2]);
    add_number(x, stamp);
    x->records++;
}

static void add_completion(struct input *x, size_t j, uint32_t stamp)
{
    add_number(x, 1);
    add_number(x, x->jobs[3 * j + 1]);
    add_number(x, stamp);
    x->records++;
}

static uint32_t ended[LONGEST_RUN + 1]; /* by instant: one more than the job that is complete then, of which there is one at most; or 0 */

/*
 * The trace of the input's run: its releases and the completions that the proved run's counts tell. The run is then asked for as many ticks as the
 * replay has, one past the last record's instant. The last stamp is 0: the counter goes past its top, and all stamps before it take five bytes.
 */
static void record_run(struct input *x)
{
    static struct lent lent;
    const uint32_t *counts = lent.numbers;
    if (palikudyom_asked_for_run(x, &lent).code != PALIKUDYOM_MET)
        fail(REPLAY.name, "its trace", "the run that is recorded is not met");
    size_t jobs = x->jobs_len / 3;
    uint32_t last = 0;
    memset(ended, 0, sizeof ended);
    for (size_t j = 0; j < jobs; j++) {
        uint32_t instant = x->jobs[3 * j] + counts[j];
        if (counts[j] != 0)
            ended[instant] = j + 1;
        if (last < instant)
            last = instant;
    }
    size_t j = 0;
    for (uint32_t k = 0; k <= last; k++) {
        if (ended[k] != 0)
            add_completion(x, ended[k] - 1, k - last);
        for (; j < jobs && x->jobs[3 * j] == k; j++)
            add_release(x, j, k - last);
    }
    x->asked = last + 1;
}

/* eight tasks that ask for 2/5 of the processor, of cycle 10,000 */
static void eight_tasks(struct input *x)
{
    static const uint32_t periods[] = {1000, 1000, 2000, 2000, 5000, 5000, 10000, 10000};
    for (size_t i = 0; i < LENGTH(periods); i++)
        add_task(x, periods[i] / 20, periods[i], periods[i]);
}

/* Inputs of the first table: small is document 01's table X; worst is about the worst that an entry takes */

static void small_table(struct input *x)
{
    x->board.frame = 8;
    add_window(x, 0, 2);
    add_window(x, 5, 7);
}

static void small_least_supply(struct input *x)
{
    small_table(x);
    x->asked = 6;
}

static void small_verdict(struct input *x)
{
    small_table(x);
    add_task(x, 1, 4, 4);
    add_task(x, 2, 8, 7);
}

static void small_bound(struct input *x)
{
    small_table(x);
    add_task(x, 1, 4, 4);
    add_task(x, 1, 8, 8);
    x->asked = 1;
}

static void small_run(struct input *x)
{
    small_verdict(x);
    x->asked = 10;
    x->jobs_len = 6;
    memcpy(x->jobs, (uint32_t[]){2, 0, 1, 2, 1, 2}, 6 * sizeof(uint32_t));
}

static void small_replay(struct input *x)
{
    small_verdict(x);
    x->asked = 8;
    x->jobs_len = 6;
    memcpy(x->jobs, (uint32_t[]){0, 0, 1, 0, 1, 2}, 6 * sizeof(uint32_t));
    record_run(x);
}

static void typical_table(struct input *x)
{
    spread_windows(x, 1000, 8);
}

static void typical_least_supply(struct input *x)
{
    typical_table(x);
    x->asked = 2500;
}

static void typical_verdict(struct input *x)
{
    typical_table(x);
    eight_tasks(x);
}

static void typical_bound(struct input *x)
{
    typical_verdict(x);
    x->asked = 7;
}

static void typical_run(struct input *x)
{
    typical_verdict(x);
    release_all(x, 10000);
}

static void typical_replay(struct input *x)
{
    typical_run(x);
    record_run(x);
}

/* a stretch from the last window on passes the 64 windows of its frame and the 63 early ones of the next */
static void early_table(struct input *x)
{
    early_windows(x, 65536, 64);
}

/* the whole frames cost nothing, so 14 frames and 65,535 ticks are as bad as any length */
static void worst_least_supply(struct input *x)
{
    early_table(x);
    x->asked = 983039;
}

/* the last window ends with the frame: all stretches of 125 ticks and more pass 127 windows and more, and no table has more to pass */
static void worst_table(struct input *x)
{
    early_table(x);
    end_last(x, 65536);
}

/* one tick in 1,024 is not supplied: the least supply of t ticks is t − 1 − (t − 1) / 1,024 */
static void gapped_table(struct input *x)
{
    x->board.frame = 65536;
    for (uint32_t i = 0; i < 64; i++)
        add_window(x, 1024 * i, 1024 * i + 1023);
}

/*
 * Every length but the first of each `distance`, a power of 2, is the deadline of one job. Periods of 48 and 80 make 15 frames of the cycle, and the
 * deadlines from `twice` to 14 in 16 have two tasks each: 32 tasks in all.
 */
static void add_every_deadline(struct input *x, uint32_t distance, uint32_t twice)
{
    for (uint32_t step = 32; step <= distance; step *= 2)
        add_deadlines(x, step / 2 + 1, step, 1);
    for (uint32_t first = 2; first < twice; first++)
        add_deadlines(x, first, 16, 1);
    for (uint32_t first = twice; first < 15; first++)
        add_deadlines(x, first, 16, 2);
    add_deadlines(x, 15, 16, 3);
    add_deadlines(x, 16, 16, 5);
}

/* the demand rises at 982,080 lengths, each time to the least supply, so that what is known of that never suffices */
static void worst_verdict(struct input *x)
{
    gapped_table(x);
    add_every_deadline(x, 1024, 10);
}

/* the same lengths, by other tasks: one of them has its only deadline at the cycle, where it asks for one tick too many */
static void latest_miss(struct input *x)
{
    gapped_table(x);
    add_deadlines(x, 3, 4, 2);
    for (uint32_t step = 8; step <= 1024; step *= 2)
        add_deadlines(x, step / 2 + 1, step, 1);
    for (uint32_t step = 4; step <= 65536; step *= 2)
        add_deadlines(x, step / 2, step, 1);
    for (uint32_t i = 1; i < 3; i++)
        add_task(x, 1, 196608, 65536 * i);
    for (uint32_t i = 1; i < 5; i++)
        add_task(x, 1, 983040, 196608 * i);
    add_task(x, 2, 983040, 983040);
}

/* one tick in 1,000 is not supplied, but the last window is longer: a length has all 64 of them where it leaves out the first 1,001 ticks of that */
static void latest_start(struct input *x)
{
    x->board.frame = 65536;
    for (uint32_t i = 0; i < 64; i++)
        add_window(x, 1000 * i, 1000 * i + 999);
    end_last(x, 65535);
    add_task(x, 64472, 65536, 64535);
}

/* a length whose rest is the longest; the demand of 32 tasks */
static void worst_margin(struct input *x)
{
    worst_verdict(x);
    x->asked = 983039;
}

/* one tick in 1,024, and above the asked task one that takes a tick in 1,025: one or two ticks are missing at every length, so most lengths are asked */
static void worst_bound(struct input *x)
{
    rare_windows(x, 65536, 64);
    add_task(x, 1, 1025, 1025);
    add_task(x, 1, 1000000, 1000000);
    x->asked = 1;
}

/* 31 tasks above, by which each ask divides */
static void broad_bound(struct input *x)
{
    rare_windows(x, 65536, 64);
    for (uint32_t i = 0; i < 31; i++)
        add_task(x, 1, 31761 + 32 * i, 31761 + 32 * i);
    add_task(x, 1, 1000000, 1000000);
    x->asked = 31;
}

/* 32 tasks are released together 128 times: 4,096 jobs */
static void many_jobs(struct input *x, uint32_t work)
{
    for (uint32_t i = 0; i < 32; i++)
        add_task(x, work, 8593, 8593);
    release_all(x, LONGEST_RUN);
}

static void worst_run(struct input *x)
{
    worst_table(x);
    many_jobs(x, 260);
}

/* a window begins or ends at most ticks */
static void dense_run(struct input *x)
{
    early_windows(x, 160, 64);
    many_jobs(x, 100);
}

/* the last job is released later than in the run's input, when no other is pending, and is complete at the last instant that a trace may have */
static void worst_replay(struct input *x)
{
    worst_run(x);
    x->jobs[x->jobs_len - 3] = LONGEST_RUN - 1 - x->jobs[x->jobs_len - 1];
    record_run(x);
}

/* plans whose board allows no shorter window than they have */

static void small_plan(struct input *x)
{
    small_verdict(x);
    x->board.shortest = 2;
    write_plan(x);
}

static void typical_plan(struct input *x)
{
    typical_verdict(x);
    x->board.shortest = 62;
    write_plan(x);
}

static void worst_plan(struct input *x)
{
    worst_verdict(x);
    x->board.shortest = 1023;
    write_plan(x);
}

/* The same inputs on boards that lose a tick of each window */

static void lose(struct input *x)
{
    x->board.rule = PALIKUDYOM_LOSING;
    x->board.lost = 1;
}

/* windows of two ticks at 0, 3, 6 and on, the last one to the end of the frame: what is left of them passes as many windows as the worst table */
static void losing_worst_table(struct input *x)
{
    x->board.frame = 65536;
    for (uint32_t i = 0; i < 64; i++)
        add_window(x, 3 * i, 3 * i + 2);
    end_last(x, 65536);
    lose(x);
}

static void losing_small_least_supply(struct input *x)
{
    small_least_supply(x);
    lose(x);
}

static void losing_typical_least_supply(struct input *x)
{
    typical_least_supply(x);
    lose(x);
}

static void losing_worst_least_supply(struct input *x)
{
    losing_worst_table(x);
    x->asked = 983039;
}

static void losing_small_table(struct input *x)
{
    small_table(x);
    lose(x);
}

static void losing_typical_table(struct input *x)
{
    typical_table(x);
    lose(x);
}

static void losing_small_verdict(struct input *x)
{
    small_verdict(x);
    lose(x);
}

static void losing_typical_verdict(struct input *x)
{
    typical_verdict(x);
    lose(x);
}

static void losing_typical_run(struct input *x)
{
    typical_run(x);
    lose(x);
}

static void losing_worst_run(struct input *x)
{
    losing_worst_table(x);
    many_jobs(x, 260);
}

static void small_rule_plan(struct input *x)
{
    losing_small_verdict(x);
    write_rule_plan(x);
}

static void typical_rule_plan(struct input *x)
{
    losing_typical_verdict(x);
    write_rule_plan(x);
}

/* with a tick lost this group would miss */
static void worst_rule_plan(struct input *x)
{
    worst_verdict(x);
    x->board.rule = PALIKUDYOM_LOSING;
    write_rule_plan(x);
}

/*
 * Inputs of the table of two teams. Typical: owner 0, who is asked for, has the windows of the typical inputs above, and gets their answers. Worst: 32
 * windows of each owner, by turns and touching; owner 1 is asked for.
 */

static void typical_shared_table(struct input *x)
{
    x->board.frame = 1000;
    for (uint32_t i = 0; i < 8; i++) {
        add_owned(x, 125 * i, 125 * i + 62, 0);
        add_owned(x, 125 * i + 62, 125 * i + 125, 1);
    }
}

static void typical_shared_least_supply(struct input *x)
{
    typical_shared_table(x);
    x->asked = 2500;
}

static void typical_shared_verdict(struct input *x)
{
    typical_shared_table(x);
    eight_tasks(x);
}

static void typical_shared_bound(struct input *x)
{
    typical_shared_verdict(x);
    x->asked = 7;
}

static void typical_shared_run(struct input *x)
{
    typical_shared_verdict(x);
    release_all(x, 10000);
}

/* windows of one tick from 0 on; as `early_table` for owner 1 */
static void early_shared_table(struct input *x)
{
    x->board = (struct palikudyom_board){65536, 1, 1, PALIKUDYOM_WHOLE, 0};
    for (uint32_t i = 0; i < 64; i++)
        add_owned(x, i, i + 1, i % 2);
}

/* as `worst_table` for owner 1 */
static void worst_shared_table(struct input *x)
{
    early_shared_table(x);
    end_last(x, 65536);
}

static void worst_shared_least_supply(struct input *x)
{
    early_shared_table(x);
    x->asked = 983039;
}

/* one tick in 2,048 is owner 0's: as `worst_verdict`, with 982,560 asks */
static void worst_shared_verdict(struct input *x)
{
    shared_windows(x, 65536, 32, 2047);
    add_every_deadline(x, 2048, 11);
}

static void worst_shared_margin(struct input *x)
{
    worst_shared_verdict(x);
    x->asked = 983039;
}

/* one tick in 2,048 is owner 1's, and above the asked task one that takes a tick in 2,052: as `worst_bound` */
static void worst_shared_bound(struct input *x)
{
    shared_windows(x, 65536, 32, 1);
    add_task(x, 1, 2052, 2052);
    add_task(x, 1, 1000000, 1000000);
    x->asked = 1;
}

static void worst_shared_run(struct input *x)
{
    worst_shared_table(x);
    many_jobs(x, 260);
}

/* Inputs of the growth table: a size to an input */

static void least_supply_by_frame(struct input *x, uint32_t frame)
{
    spread_windows(x, frame, 8);
    x->asked = frame - 1;
}

static void jittered_by_frame(struct input *x, uint32_t frame)
{
    jittered_windows(x, frame, frame / 64, frame / 512);
}

static void table_by_frame(struct input *x, uint32_t frame)
{
    spread_windows(x, frame, 8);
}

/* on dense windows 1,024 ticks supply 960 at least, and 959 are asked for, at the last of the lengths one more: each of up to 960 is asked */
static void tight_tasks(struct input *x, uint32_t lengths)
{
    add_task(x, 959, 1024, 1024);
    add_task(x, 1, 1024 * lengths, 1024 * lengths);
}

static void verdict_by_frame(struct input *x, uint32_t frame)
{
    dense_windows(x, frame, 64);
    tight_tasks(x, 960);
}

/* on windows of one tick at the same distance two ticks are missing at all lengths but its multiples: every other length is asked */
static void starved_task(struct input *x, uint32_t distance, uint32_t deadline)
{
    add_task(x, 1, distance, distance);
    add_task(x, 1, deadline, deadline);
    x->asked = 1;
}

static void bound_by_frame(struct input *x, uint32_t frame)
{
    rare_windows(x, frame, 64);
    starved_task(x, frame / 64, 100000);
}

static void run_by_frame(struct input *x, uint32_t frame)
{
    spread_windows(x, frame, 8);
    add_task(x, 1000, 16384, 16384);
    release_all(x, 50000);
}

static void least_supply_by_windows(struct input *x, uint32_t count)
{
    spread_windows(x, 65536, count);
    x->asked = 65535;
}

static void table_by_windows(struct input *x, uint32_t count)
{
    spread_windows(x, 4096, count);
}

static void verdict_by_windows(struct input *x, uint32_t count)
{
    dense_windows(x, 1024, count);
    tight_tasks(x, 960);
}

static void bound_by_windows(struct input *x, uint32_t count)
{
    rare_windows(x, 1024, count);
    starved_task(x, 1024 / count, 100000);
}

static void run_by_windows(struct input *x, uint32_t count)
{
    spread_windows(x, 4096, count);
    add_task(x, 1000, 16384, 16384);
    release_all(x, 50000);
}

static void least_supply_by_length(struct input *x, uint32_t length)
{
    spread_windows(x, 1000, 8);
    x->asked = length - 1;
}

static void verdict_by_asks(struct input *x, uint32_t lengths)
{
    dense_windows(x, 1024, 64);
    tight_tasks(x, lengths);
}

/* owner 0's windows stay, those of owner 1 come one by one from the frame's middle on */
static void least_supply_by_others(struct input *x, uint32_t count)
{
    x->board.frame = 65536;
    for (uint32_t i = 0; i < 8; i++)
        add_window(x, 4096 * i, 4096 * i + 2048);
    for (uint32_t i = 0; i < count; i++)
        add_owned(x, 32768 + 512 * i, 32768 + 512 * i + 256, 1);
    x->asked = 65535;
}

/* half of what is supplied is asked for: what is known suffices for nearly as long again */
static void verdict_by_rises(struct input *x, uint32_t lengths)
{
    dense_windows(x, 1024, 64);
    add_task(x, 1, 2, 2);
    add_task(x, 1, 2 * lengths, 2 * lengths);
}

/* all tasks but the first rise once, at the cycle */
static void verdict_by_tasks(struct input *x, uint32_t count)
{
    dense_windows(x, 1024, 64);
    tight_tasks(x, 960);
    for (uint32_t i = 2; i < count; i++)
        add_task(x, 1, 983040, 983040);
}

static void bound_by_deadline(struct input *x, uint32_t deadline)
{
    rare_windows(x, 65536, 64);
    starved_task(x, 1024, deadline);
}

static void run_by_ticks(struct input *x, uint32_t ticks)
{
    typical_verdict(x);
    release_all(x, ticks);
}

/* every task is released 128 times, so that the ticks stay about the same */
static void replay_by_jobs(struct input *x, uint32_t jobs)
{
    spread_windows(x, 1000, 8);
    for (uint32_t i = 0; i < jobs / 128; i++)
        add_task(x, 1, 256, 256);
    release_all(x, 128 * 256);
    record_run(x);
}

/* Inputs of request 6: the summary is kept beside the table */

/* 133 critical windows, where the worst table of before has 63 */
static void jittered_table(struct input *x)
{
    jittered_windows(x, 65536, 1024, 128);
}

/*
 * The most pieces that were found by moving one edge at a time, 72,000 times from twelve tables: 1,265 for its 186 critical windows. Long windows with short gaps
 * of uneven lengths between them.
 */
static void climbed_table(struct input *x)
{
    static const uint32_t edges[] = {
        4, 1011, 1029, 2041, 2050, 3066, 3073, 4095, 4103, 5113, 5132, 6174, 6177, 7255, 7256, 7559,
        7568, 8258, 8298, 10324, 10335, 11335, 11363, 12286, 12292, 13357, 13365, 14336, 14344, 15812, 15813, 16195,
        16212, 17481, 17512, 18455, 18471, 19474, 19480, 20484, 20488, 21499, 21510, 22526, 22533, 23546, 23560, 24573,
        24577, 25596, 25607, 26623, 26631, 27641, 27656, 28671, 28679, 29695, 29701, 30713, 30724, 31743, 31748, 32768,
        32775, 33790, 33796, 34794, 34820, 35837, 35845, 36858, 36863, 37886, 37894, 38908, 38916, 39923, 39936, 41648,
        41669, 41987, 41988, 43004, 43014, 44030, 44040, 45051, 45064, 46075, 46082, 47103, 47110, 48115, 48135, 49148,
        49153, 50171, 50178, 51193, 51205, 52221, 52230, 53242, 53249, 54268, 54273, 55293, 55301, 56313, 56324, 57341,
        57350, 58373, 58374, 59364, 59391, 60416, 60417, 61439, 61464, 62459, 62466, 63489, 63494, 64511, 64515, 65536,
    };
    x->board.frame = 65536;
    for (uint32_t i = 0; i < 64; i++)
        add_window(x, edges[2 * i], edges[2 * i + 1]);
}

static void small_least_supply_from(struct input *x)
{
    small_least_supply(x);
    keep_summary(x);
}

static void typical_least_supply_from(struct input *x)
{
    typical_least_supply(x);
    keep_summary(x);
}

static void worst_least_supply_from(struct input *x)
{
    worst_table(x);
    keep_summary(x);
    x->asked = 983039;
}

static void jittered_least_supply_from(struct input *x)
{
    jittered_table(x);
    keep_summary(x);
    x->asked = 983039;
}

static void climbed_least_supply_from(struct input *x)
{
    climbed_table(x);
    keep_summary(x);
    x->asked = 983039;
}

static void small_margins(struct input *x)
{
    small_verdict(x);
    keep_summary(x);
    add_lengths(x);
}

static void typical_margins(struct input *x)
{
    typical_verdict(x);
    keep_summary(x);
    add_lengths(x);
}

static void worst_margins(struct input *x)
{
    worst_table(x);
    add_every_deadline(x, 1024, 10);
    keep_summary(x);
    add_lengths(x);
}

static void jittered_margins(struct input *x)
{
    jittered_table(x);
    add_every_deadline(x, 1024, 10);
    keep_summary(x);
    add_lengths(x);
}

static void climbed_margins(struct input *x)
{
    climbed_table(x);
    add_every_deadline(x, 1024, 10);
    keep_summary(x);
    add_lengths(x);
}

/* margins of no tasks are least supplies */

static void typical_least_supplies(struct input *x)
{
    typical_margins(x);
    x->tasks_len = 0;
}

static void worst_least_supplies(struct input *x)
{
    worst_margins(x);
    x->tasks_len = 0;
}

static void jittered_least_supplies(struct input *x)
{
    jittered_margins(x);
    x->tasks_len = 0;
}

static void small_edits(struct input *x)
{
    small_table(x);
    move_last(x);
}

static void typical_edits(struct input *x)
{
    typical_table(x);
    move_last(x);
}

static void worst_edits(struct input *x)
{
    worst_table(x);
    move_last(x);
}

static void jittered_edits(struct input *x)
{
    jittered_table(x);
    move_last(x);
}

/* Tables */

struct one_case {
    const struct entry *entry;
    const char *name;
    const char *words; /* none where an earlier table has them */
    uint32_t code;
    uint64_t first; /* the answer's first number where the words tell it, else 0 */
    void (*make)(struct input *x);
    double bar; /* seconds, 0: none */
};

static const struct one_case CASES[] = {
    {&LEAST_SUPPLY, "small", "P 8, 2 windows, length 6", PALIKUDYOM_AMOUNT, 0, small_least_supply, 0},
    {&LEAST_SUPPLY, "typical", "P 1,000, 8 windows, length 2,500", PALIKUDYOM_AMOUNT, 0, typical_least_supply, 0},
    {&LEAST_SUPPLY, "worst", "P 65,536, 64 windows, length 983,039", PALIKUDYOM_AMOUNT, 0, worst_least_supply, 0},
    {&CRITICAL, "small", "P 8, 2 windows", PALIKUDYOM_AMOUNT, 0, small_table, 0},
    {&CRITICAL, "typical", "P 1,000, 8 windows", PALIKUDYOM_AMOUNT, 0, typical_table, 0},
    {&CRITICAL, "worst", "P 65,536, 64 windows", PALIKUDYOM_AMOUNT, 0, worst_table, 1},
    {&CRITICAL, "jittered", "P 65,536, 64 windows", PALIKUDYOM_AMOUNT, 0, jittered_table, 0},
    {&CRITICAL, "climbed", "P 65,536, 64 windows", PALIKUDYOM_AMOUNT, 186, climbed_table, 1},
    {&DELAY, "small", "P 8, 2 windows", PALIKUDYOM_DELAY, 0, small_table, 0},
    {&DELAY, "typical", "P 1,000, 8 windows", PALIKUDYOM_DELAY, 0, typical_table, 0},
    {&DELAY, "worst", "P 65,536, 64 windows", PALIKUDYOM_DELAY, 0, worst_table, 1},
    {&DELAY, "jittered", "P 65,536, 64 windows", PALIKUDYOM_DELAY, 0, jittered_table, 0},
    {&DELAY, "climbed", "P 65,536, 64 windows", PALIKUDYOM_DELAY, 0, climbed_table, 1},
    {&OUTAGE, "small", "P 8, 2 windows", PALIKUDYOM_AMOUNT, 0, small_table, 0},
    {&OUTAGE, "typical", "P 1,000, 8 windows", PALIKUDYOM_AMOUNT, 0, typical_table, 0},
    {&OUTAGE, "worst", "P 65,536, 64 windows", PALIKUDYOM_AMOUNT, 0, early_table, 0},
    {&MARGIN, "worst", "P 65,536, 64 windows, 32 tasks, length 983,039", PALIKUDYOM_MARGIN, 0, worst_margin, 0},
    {&VERDICT, "small", "P 8, 2 windows, 2 tasks, meets, H 8", PALIKUDYOM_MEETS, 8, small_verdict, 0},
    {&VERDICT, "typical", "P 1,000, 8 windows, 8 tasks, meets, H 10,000", PALIKUDYOM_MEETS, 10000, typical_verdict, 0},
    {&VERDICT, "worst", "P 65,536, 64 windows, 32 tasks, meets, H 983,040, 982,080 asks", PALIKUDYOM_MEETS, 983040, worst_verdict, 5},
    {&VERDICT, "latest miss", "P 65,536, 64 windows, 32 tasks, miss at length 983,040, 982,080 asks", PALIKUDYOM_MISS, 983040, latest_miss, 5},
    {&VERDICT, "latest start", "P 65,536, 64 windows, 1 task, miss at length 64,535, start 64,001", PALIKUDYOM_MISS, 64535, latest_start, 0},
    {&BOUND, "small", "P 8, 2 windows, the lower of 2 tasks", PALIKUDYOM_BOUND, 0, small_bound, 0},
    {&BOUND, "typical", "P 1,000, 8 windows, the lowest of 8 tasks", PALIKUDYOM_BOUND, 0, typical_bound, 0},
    {&BOUND, "worst", "P 65,536, 64 windows, 2 tasks, D 1,000,000, no bound, 738,432 asks", PALIKUDYOM_NO_BOUND, 0, worst_bound, 5},
    {&BOUND, "broad", "P 65,536, 64 windows, 32 tasks, D 1,000,000, no bound, 193,205 asks", PALIKUDYOM_NO_BOUND, 0, broad_bound, 5},
    {&RUN, "small", "P 8, 2 windows, 2 tasks, 2 jobs, 10 ticks", PALIKUDYOM_MET, 0, small_run, 0},
    {&RUN, "typical", "P 1,000, 8 windows, 8 tasks, 36 jobs, 10,000 ticks", PALIKUDYOM_MET, 0, typical_run, 0},
    {&RUN, "worst", "P 65,536, 64 windows, 32 tasks, 4,096 jobs, 1,100,000 ticks", PALIKUDYOM_MET, 0, worst_run, 0},
    {&RUN, "dense", "P 160, 64 windows, 32 tasks, 4,096 jobs, 1,100,000 ticks", PALIKUDYOM_MET, 0, dense_run, 0},
    {&REPLAY, "small", "P 8, 2 windows, 2 tasks, 4 records, 7 ticks", PALIKUDYOM_SAME, 0, small_replay, 0},
    {&REPLAY, "typical", "P 1,000, 8 windows, 8 tasks, 72 records, 9,164 ticks", PALIKUDYOM_SAME, 0, typical_replay, 0},
    {&REPLAY, "worst", "P 65,536, 64 windows, 32 tasks, 8,192 records, 1,100,000 ticks", PALIKUDYOM_SAME, 0, worst_replay, 0},
    {&PLAN, "small", "m 2, P 8, 2 windows, 2 tasks, meets, H 8", PALIKUDYOM_MEETS, 8, small_plan, 0},
    {&PLAN, "typical", "m 62, P 1,000, 8 windows, 8 tasks, meets, H 10,000", PALIKUDYOM_MEETS, 10000, typical_plan, 0},
    {&PLAN, "worst", "m 1,023, P 65,536, 64 windows, 32 tasks, meets, H 983,040, 982,080 asks", PALIKUDYOM_MEETS, 983040, worst_plan, 0},
};

static const struct one_case SHARED[] = {
    {&LEAST_SUPPLY, "typical", "P 1,000, 8 windows of each, length 2,500", PALIKUDYOM_AMOUNT, 0, typical_shared_least_supply, 0},
    {&LEAST_SUPPLY, "worst", "P 65,536, 32 windows of each, length 983,039", PALIKUDYOM_AMOUNT, 0, worst_shared_least_supply, 0},
    {&CRITICAL, "typical", "P 1,000, 8 windows of each", PALIKUDYOM_AMOUNT, 0, typical_shared_table, 0},
    {&CRITICAL, "worst", "P 65,536, 32 windows of each", PALIKUDYOM_AMOUNT, 0, worst_shared_table, 0},
    {&DELAY, "typical", "P 1,000, 8 windows of each", PALIKUDYOM_DELAY, 0, typical_shared_table, 0},
    {&DELAY, "worst", "P 65,536, 32 windows of each", PALIKUDYOM_DELAY, 0, worst_shared_table, 0},
    {&OUTAGE, "typical", "P 1,000, 8 windows of each", PALIKUDYOM_AMOUNT, 63, typical_shared_table, 0},
    {&OUTAGE, "worst", "P 65,536, 32 windows of each", PALIKUDYOM_AMOUNT, 65473, early_shared_table, 0},
    {&MARGIN, "worst", "P 65,536, 32 windows of each, 32 tasks, length 983,039", PALIKUDYOM_MARGIN, 0, worst_shared_margin, 0},
    {&VERDICT, "typical", "P 1,000, 8 windows of each, 8 tasks, meets, H 10,000", PALIKUDYOM_MEETS, 10000, typical_shared_verdict, 0},
    {&VERDICT, "worst", "P 65,536, 32 windows of each, 32 tasks, meets, H 983,040, 982,560 asks", PALIKUDYOM_MEETS, 983040, worst_shared_verdict, 0},
    {&BOUND, "typical", "P 1,000, 8 windows of each, the lowest of 8 tasks", PALIKUDYOM_BOUND, 0, typical_shared_bound, 0},
    {&BOUND, "worst", "P 65,536, 32 windows of each, 2 tasks, D 1,000,000, no bound, 737,944 asks", PALIKUDYOM_NO_BOUND, 0, worst_shared_bound, 0},
    {&RUN, "typical", "P 1,000, 8 windows of each, 8 tasks, 36 jobs, 10,000 ticks", PALIKUDYOM_MET, 0, typical_shared_run, 0},
    {&RUN, "worst", "P 65,536, 32 windows of each, 32 tasks, 4,096 jobs, 1,100,000 ticks", PALIKUDYOM_MET, 0, worst_shared_run, 0},
};

/* request 7: a tick of each window is lost */
static const struct one_case LOSING[] = {
    {&LEAST_SUPPLY, "small", "P 8, 2 windows, length 6", PALIKUDYOM_AMOUNT, 1, losing_small_least_supply, 0},
    {&LEAST_SUPPLY, "typical", "P 1,000, 8 windows, length 2,500", PALIKUDYOM_AMOUNT, 0, losing_typical_least_supply, 0},
    {&LEAST_SUPPLY, "worst", "P 65,536, 64 windows, length 983,039", PALIKUDYOM_AMOUNT, 0, losing_worst_least_supply, 0},
    {&CRITICAL, "small", "P 8, 2 windows", PALIKUDYOM_AMOUNT, 2, losing_small_table, 0},
    {&CRITICAL, "typical", "P 1,000, 8 windows", PALIKUDYOM_AMOUNT, 0, losing_typical_table, 0},
    {&CRITICAL, "worst", "P 65,536, 64 windows", PALIKUDYOM_AMOUNT, 0, losing_worst_table, 0},
    {&OUTAGE, "small", "P 8, 2 windows", PALIKUDYOM_AMOUNT, 4, losing_small_table, 0},
    {&OUTAGE, "worst", "P 65,536, 64 windows", PALIKUDYOM_AMOUNT, 0, losing_worst_table, 0},
    {&VERDICT, "small", "P 8, 2 windows, 2 tasks, a miss", PALIKUDYOM_MISS, 4, losing_small_verdict, 0},
    {&VERDICT, "typical", "P 1,000, 8 windows, 8 tasks", PALIKUDYOM_MEETS, 10000, losing_typical_verdict, 0},
    {&RUN, "typical", "P 1,000, 8 windows, 8 tasks, 36 jobs, 10,000 ticks", PALIKUDYOM_MET, 0, losing_typical_run, 0},
    {&RUN, "worst", "P 65,536, 64 windows, 32 tasks, 4,096 jobs, 1,100,000 ticks", PALIKUDYOM_MET, 0, losing_worst_run, 0},
    {&RULE_PLAN, "small", "rule 2, q 1, P 8, 2 windows, 2 tasks, a miss", PALIKUDYOM_MISS, 4, small_rule_plan, 0},
    {&RULE_PLAN, "typical", "rule 2, q 1, P 1,000, 8 windows, 8 tasks, meets, H 10,000", PALIKUDYOM_MEETS, 10000, typical_rule_plan, 0},
    {&RULE_PLAN, "worst", "rule 2, q 0, P 65,536, 64 windows, 32 tasks, meets, H 983,040, 982,080 asks", PALIKUDYOM_MEETS, 983040, worst_rule_plan, 0},
};

/* request 6: what an edit of one window leaves between its two halves is compared too */
static const struct one_case SUMMARIES[] = {
    {&MAKE_SUMMARY, "small", "P 8, 2 windows", PALIKUDYOM_AMOUNT, 0, small_table, 0},
    {&MAKE_SUMMARY, "typical", "P 1,000, 8 windows", PALIKUDYOM_AMOUNT, 0, typical_table, 0},
    {&MAKE_SUMMARY, "worst", "P 65,536, 64 windows", PALIKUDYOM_AMOUNT, 0, worst_table, 0},
    {&MAKE_SUMMARY, "jittered", "P 65,536, 64 windows", PALIKUDYOM_AMOUNT, 0, jittered_table, 0},
    {&MAKE_SUMMARY, "climbed", "P 65,536, 64 windows", PALIKUDYOM_AMOUNT, 375, climbed_table, 0},
    {&LEAST_SUPPLY_FROM, "small", "P 8, 2 windows, length 6", PALIKUDYOM_AMOUNT, 0, small_least_supply_from, 0},
    {&LEAST_SUPPLY_FROM, "typical", "P 1,000, 8 windows, length 2,500", PALIKUDYOM_AMOUNT, 0, typical_least_supply_from, 0},
    {&LEAST_SUPPLY_FROM, "worst", "P 65,536, 64 windows, length 983,039", PALIKUDYOM_AMOUNT, 0, worst_least_supply_from, 0},
    {&LEAST_SUPPLY_FROM, "jittered", "P 65,536, 64 windows, length 983,039", PALIKUDYOM_AMOUNT, 0, jittered_least_supply_from, 0},
    {&LEAST_SUPPLY_FROM, "climbed", "P 65,536, 64 windows, length 983,039", PALIKUDYOM_AMOUNT, 0, climbed_least_supply_from, 0},
    {&MARGINS, "small", "P 8, 2 windows, 2 tasks, 10,000 lengths", PALIKUDYOM_AMOUNT, 10000, small_margins, 0},
    {&MARGINS, "typical", "P 1,000, 8 windows, 8 tasks, 10,000 lengths", PALIKUDYOM_AMOUNT, 10000, typical_margins, 0},
    {&MARGINS, "worst", "P 65,536, 64 windows, 32 tasks, 10,000 lengths", PALIKUDYOM_AMOUNT, 10000, worst_margins, 0},
    {&MARGINS, "jittered", "P 65,536, 64 windows, 32 tasks, 10,000 lengths", PALIKUDYOM_AMOUNT, 10000, jittered_margins, 0},
    {&MARGINS, "climbed", "P 65,536, 64 windows, 32 tasks, 10,000 lengths", PALIKUDYOM_AMOUNT, 10000, climbed_margins, 0},
    {&EDITS, "small", "P 8, 2 windows, two edits", PALIKUDYOM_EDITED, 2, small_edits, 0},
    {&EDITS, "typical", "P 1,000, 8 windows, two edits", PALIKUDYOM_EDITED, 8, typical_edits, 0},
    {&EDITS, "worst", "P 65,536, 64 windows, two edits", PALIKUDYOM_EDITED, 64, worst_edits, 0},
    {&EDITS, "jittered", "P 65,536, 64 windows, two edits", PALIKUDYOM_EDITED, 64, jittered_edits, 0},
    {&REMOVAL, "typical", "P 1,000, 8 windows, two edits", PALIKUDYOM_EDITED, 8, typical_edits, 0},
    {&REMOVAL, "jittered", "P 65,536, 64 windows, two edits", PALIKUDYOM_EDITED, 64, jittered_edits, 0},
};

/* request 6's bars: one call, and in place of the plain side the many calls of before */
struct gain {
    struct one_case of;
    const char *instead;
    double least; /* times as fast, 0: no bar */
};

static const struct gain GAINS[] = {
    {{&SUMMARY_BY_LENGTH, "worst", "P 65,536, 64 windows", PALIKUDYOM_AMOUNT, 0, worst_table, 0}, "65,536 least supplies", 5},
    {{&SUMMARY_BY_LENGTH, "jittered", "P 65,536, 64 windows", PALIKUDYOM_AMOUNT, 0, jittered_table, 0}, "65,536 least supplies", 5},
    {{&SUMMARY_BY_LENGTH, "climbed", "P 65,536, 64 windows", PALIKUDYOM_AMOUNT, 375, climbed_table, 0}, "65,536 least supplies", 5},
    {{&MARGINS_BY_LENGTH, "typical", "P 1,000, 8 windows, 8 tasks", PALIKUDYOM_AMOUNT, 10000, typical_margins, 0}, "10,000 margins", 2},
    {{&LEAST_SUPPLIES_BY_LENGTH, "typical", "P 1,000, 8 windows", PALIKUDYOM_AMOUNT, 10000, typical_least_supplies, 0}, "10,000 least supplies", 5},
    {{&MARGINS_BY_LENGTH, "worst", "P 65,536, 64 windows, 32 tasks", PALIKUDYOM_AMOUNT, 10000, worst_margins, 0}, "10,000 margins", 1},
    {{&MARGINS_BY_LENGTH, "jittered", "P 65,536, 64 windows, 32 tasks", PALIKUDYOM_AMOUNT, 10000, jittered_margins, 0}, "10,000 margins", 1},
    {{&MARGINS_BY_LENGTH, "climbed", "P 65,536, 64 windows, 32 tasks", PALIKUDYOM_AMOUNT, 10000, climbed_margins, 0}, "10,000 margins", 1},
    {{&LEAST_SUPPLIES_BY_LENGTH, "worst", "P 65,536, 64 windows", PALIKUDYOM_AMOUNT, 10000, worst_least_supplies, 0}, "10,000 least supplies", 0},
    {{&LEAST_SUPPLIES_BY_LENGTH, "jittered", "P 65,536, 64 windows", PALIKUDYOM_AMOUNT, 10000, jittered_least_supplies, 0}, "10,000 least supplies", 0},
};

static const struct one_case BEFORE_PIECES[] = {
    {&CRITICAL_EVERY_LENGTH, "small", "", PALIKUDYOM_AMOUNT, 0, small_table, 0},
    {&CRITICAL_EVERY_LENGTH, "typical", "", PALIKUDYOM_AMOUNT, 0, typical_table, 0},
    {&CRITICAL_EVERY_LENGTH, "worst", "", PALIKUDYOM_AMOUNT, 0, worst_table, 0},
    {&CRITICAL_EVERY_LENGTH, "jittered", "", PALIKUDYOM_AMOUNT, 0, jittered_table, 0},
    {&CRITICAL_EVERY_LENGTH, "climbed", "", PALIKUDYOM_AMOUNT, 186, climbed_table, 0},
};

static const struct one_case BEFORE[] = {
    {&LEAST_SUPPLY_BY_TICKS, "small", "", PALIKUDYOM_AMOUNT, 0, small_least_supply, 0},
    {&LEAST_SUPPLY_BY_TICKS, "typical", "", PALIKUDYOM_AMOUNT, 0, typical_least_supply, 0},
    {&LEAST_SUPPLY_BY_TICKS, "worst", "", PALIKUDYOM_AMOUNT, 0, worst_least_supply, 0},
};

static const struct one_case CHECKED_ONCE[] = {
    {&RUN_EVERY_TICK, "small", "", PALIKUDYOM_MET, 0, small_run, 0},
    {&RUN_EVERY_TICK, "typical", "", PALIKUDYOM_MET, 0, typical_run, 0},
    {&RUN_EVERY_TICK, "worst", "", PALIKUDYOM_MET, 0, worst_run, 0},
};

static const struct one_case BESIDE_RUN[] = {
    {&REPLAY, "small", "", PALIKUDYOM_SAME, 0, small_replay, 0},
    {&REPLAY, "typical", "", PALIKUDYOM_SAME, 0, typical_replay, 0},
    {&REPLAY, "worst", "", PALIKUDYOM_SAME, 0, worst_replay, 0},
};

struct growth {
    const struct entry *entry;
    const char *grows;
    const char *words; /* what stays */
    uint32_t code;
    void (*make)(struct input *x, uint32_t size);
    uint32_t sizes[4]; /* 0: no more */
};

static const struct growth GROWTHS[] = {
    {&LEAST_SUPPLY, "P", "8 windows, length P − 1", PALIKUDYOM_AMOUNT, least_supply_by_frame, {1024, 8192, 65536}},
    {&CRITICAL, "P", "8 windows", PALIKUDYOM_AMOUNT, table_by_frame, {1024, 8192, 65536}},
    {&DELAY, "P", "8 windows", PALIKUDYOM_DELAY, table_by_frame, {1024, 8192, 65536}},
    {&OUTAGE, "P", "8 windows", PALIKUDYOM_AMOUNT, table_by_frame, {1024, 8192, 65536}},
    {&MAKE_SUMMARY, "P", "8 windows", PALIKUDYOM_AMOUNT, table_by_frame, {1024, 8192, 65536}},
    {&MAKE_SUMMARY, "P and the jitter", "64 windows, jitter P / 512", PALIKUDYOM_AMOUNT, jittered_by_frame, {1024, 8192, 65536}},
    {&VERDICT, "P", "64 windows, 2 tasks, 960 rises, all asked", PALIKUDYOM_MEETS, verdict_by_frame, {1024, 8192, 65536}},
    {&BOUND, "P", "64 windows, 2 tasks, D 100,000, 50,000 asks", PALIKUDYOM_NO_BOUND, bound_by_frame, {1024, 8192, 65536}},
    {&RUN, "P", "8 windows, 1 task, 50,000 ticks", PALIKUDYOM_MET, run_by_frame, {1024, 8192, 65536}},
    {&LEAST_SUPPLY, "windows", "P 65,536, length 65,535", PALIKUDYOM_AMOUNT, least_supply_by_windows, {1, 8, 64}},
    {&LEAST_SUPPLY, "the other team's windows", "P 65,536, 8 windows, length 65,535", PALIKUDYOM_AMOUNT, least_supply_by_others, {1, 8, 56}},
    {&CRITICAL, "windows", "P 4,096", PALIKUDYOM_AMOUNT, table_by_windows, {1, 8, 64}},
    {&DELAY, "windows", "P 4,096", PALIKUDYOM_DELAY, table_by_windows, {1, 8, 64}},
    {&OUTAGE, "windows", "P 4,096", PALIKUDYOM_AMOUNT, table_by_windows, {1, 8, 64}},
    {&MAKE_SUMMARY, "windows", "P 4,096", PALIKUDYOM_AMOUNT, table_by_windows, {1, 8, 64}},
    {&VERDICT, "windows", "P 1,024, 2 tasks, 960 rises, all asked", PALIKUDYOM_MEETS, verdict_by_windows, {1, 8, 64}},
    {&BOUND, "windows", "P 1,024, 2 tasks, D 100,000, 50,000 asks", PALIKUDYOM_NO_BOUND, bound_by_windows, {1, 8, 64}},
    {&RUN, "windows", "P 4,096, 1 task, 50,000 ticks", PALIKUDYOM_MET, run_by_windows, {1, 8, 64}},
    {&LEAST_SUPPLY, "length + 1", "P 1,000, 8 windows", PALIKUDYOM_AMOUNT, least_supply_by_length, {10000, 100000, 1000000}},
    {&VERDICT, "rises, all asked", "P 1,024, 64 windows, 2 tasks", PALIKUDYOM_MEETS, verdict_by_asks, {9, 90, 900}},
    {&VERDICT, "rises, few asked", "P 1,024, 64 windows, 2 tasks", PALIKUDYOM_MEETS, verdict_by_rises, {4608, 46080, 460800}},
    {&VERDICT, "tasks", "P 1,024, 64 windows, 960 rises, all asked", PALIKUDYOM_MEETS, verdict_by_tasks, {2, 8, 32}},
    {&BOUND, "D, half of it asked", "P 65,536, 64 windows, 2 tasks, no bound", PALIKUDYOM_NO_BOUND, bound_by_deadline, {10000, 100000, 1000000}},
    {&RUN, "ticks", "P 1,000, 8 windows, 8 tasks", PALIKUDYOM_MET, run_by_ticks, {10000, 100000, 1000000}},
    {&REPLAY, "jobs", "P 1,000, 8 windows, 128 jobs a task", PALIKUDYOM_SAME, replay_by_jobs, {512, 1024, 2048, 4096}},
};

/* three figures of a time, with its unit */
static void print_time(double s)
{
    static const char *const units[] = {"s", "ms", "µs", "ns"};
    size_t unit = 0;
    while (s < 1 && unit < LENGTH(units) - 1) {
        s *= 1000;
        unit++;
    }
    printf("%.*f %s", s < 10 ? 2 : s < 100 ? 1 : 0, s, units[unit]);
}

/* a number up to 999,999,999 with its commas */
static void print_number(uint32_t n)
{
    if (n < 1000)
        printf("%u", (unsigned)n);
    else {
        print_number(n / 1000);
        printf(",%03u", (unsigned)(n % 1000));
    }
}

/* three figures of a number from 1 on */
static void print_figures(double n)
{
    uint32_t unit = 1;
    while (1000 <= n / unit)
        unit *= 10;
    print_number((uint32_t)(n / unit + 0.5) * unit);
}

static struct input input; /* the one in use: too large for the stack */

/* nothing yet, and every window is allowed and given whole */
static void clear_input(void)
{
    memset(&input, 0, sizeof input);
    input.board.shortest = 1;
    input.board.rule = PALIKUDYOM_WHOLE;
}

struct pair {
    double proved;
    double plain;
};

static struct pair time_case(const struct one_case *c)
{
    struct pair times;
    clear_input();
    c->make(&input);
    compare(c->entry, c->name, c->code, c->first, &input);
    measure_both(c->entry->proved, c->entry->plain, &input, &times.proved, &times.plain);
    return times;
}

static struct pair print_case(const struct one_case *c)
{
    struct pair times = time_case(c);
    printf("| %s | %s%s%s | ", c->entry->name, c->name, c->words[0] == 0 ? "" : ": ", c->words);
    print_time(times.proved);
    printf(" | ");
    print_time(times.plain);
    printf(" | %.2f |\n", times.proved / times.plain);
    return times;
}

static const char *met(int is)
{
    return is ? "met" : "not met";
}

/* an edit's first half alone, which the timed pair undoes */
static void compare_halves(const struct one_case *c)
{
    clear_input();
    c->make(&input);
    for (size_t i = 0; i < LENGTH(HALF_EDITS); i++)
        compare(&HALF_EDITS[i], c->name, PALIKUDYOM_EDITED, 0, &input);
}

static void print_summary_case(const struct one_case *c)
{
    if (c->code == PALIKUDYOM_EDITED)
        compare_halves(c);
    print_case(c);
}

static void print_request6_bar(const struct gain *g)
{
    const struct one_case *c = &g->of;
    struct pair times = time_case(c);
    double gained = times.plain / times.proved;
    printf("| %s | %s: %s | ", c->entry->name, c->name, c->words);
    if (g->least == 0)
        printf("none: beside %s", g->instead);
    else if (g->least == 1)
        printf("no slower than %s", g->instead);
    else
        printf("%.0f times as fast as %s", g->least, g->instead);
    printf(" | ");
    print_time(times.plain);
    printf(" | ");
    print_time(times.proved);
    printf(" | %.2f | %s |\n", gained, g->least == 0 ? "" : met(g->least <= gained));
}

/* the plain side is what it was before; how many times as long it took */
static double print_before(const struct one_case *c)
{
    struct pair times = time_case(c);
    double gained = times.plain / times.proved;
    printf("| %s | %s | ", c->entry->name, c->name);
    print_time(times.plain);
    printf(" | ");
    print_time(times.proved);
    printf(" | ");
    print_figures(gained);
    printf(" |\n");
    return gained;
}

/* after the bar and what was measured: whether it is met, and the same of the ratio to plain C */
static void print_met(int is, struct pair times)
{
    double ratio = times.proved / times.plain;
    printf(" | %s | %.2f | %s |\n", met(is), ratio, met(ratio <= HIGHEST_RATIO));
}

static void print_bar(const struct one_case *c, struct pair times)
{
    printf("| %s | %s | under %.0f s | ", c->entry->name, c->name, c->bar);
    print_time(times.proved);
    print_met(times.proved < c->bar, times);
}

static void print_gain(const struct one_case *c, struct pair times, double gained)
{
    printf("| %s | %s | ", c->entry->name, c->name);
    print_figures(LEAST_GAIN);
    printf(" times as fast as before | ");
    print_figures(gained);
    print_met(LEAST_GAIN <= gained, times);
}

/* the proved replay beside the proved run of the same jobs and ticks */
static void print_beside_run(const struct one_case *c)
{
    clear_input();
    c->make(&input);
    compare(c->entry, c->name, c->code, c->first, &input);
    compare(&RUN, c->name, PALIKUDYOM_MET, 0, &input);
    double replay, run;
    measure_both(c->entry->proved, RUN.proved, &input, &replay, &run);
    printf("| %s | ", c->name);
    print_number(input.records);
    printf(" | ");
    print_number(input.asked);
    printf(" | ");
    print_time(replay);
    printf(" | ");
    print_time(run);
    printf(" | %.2f |\n", replay / run);
}

static void print_growth(const struct growth *g)
{
    double times[LENGTH(g->sizes)];
    size_t count = 0;
    while (count < LENGTH(g->sizes) && g->sizes[count] != 0) {
        clear_input();
        g->make(&input, g->sizes[count]);
        compare(g->entry, g->words, g->code, 0, &input);
        times[count++] = measure_proved(g->entry, &input);
    }
    printf("| %s | %s | %s | ", g->entry->name, g->words, g->grows);
    for (size_t i = 0; i < count; i++) {
        printf("%s", i == 0 ? "" : "; ");
        print_number(g->sizes[i]);
        printf(": ");
        print_time(times[i]);
    }
    printf(" | ");
    for (size_t i = 1; i < count; i++)
        printf("%s%.1f", i == 1 ? "" : ", ", times[i] / times[i - 1]);
    printf(" |\n");
}

static void print_request6(void)
{
    printf("\nSummaries, what is asked from them, and edits (request 6):\n\n");
    printf("| entry | input | proved | plain C | ratio |\n|---|---|---:|---:|---:|\n");
    for (size_t i = 0; i < LENGTH(SUMMARIES); i++)
        print_summary_case(&SUMMARIES[i]);
    printf("\nThe bars of request 6, both sides proved:\n\n");
    printf("| entry | input | bar | many calls | one call | times as fast | |\n|---|---|---|---:|---:|---:|---|\n");
    for (size_t i = 0; i < LENGTH(GAINS); i++)
        print_request6_bar(&GAINS[i]);
    printf("\nThe critical partition beside that of before, every length asked for in plain C:\n\n");
    printf("| entry | input | before | proved | times as fast |\n|---|---|---:|---:|---:|\n");
    for (size_t i = 0; i < LENGTH(BEFORE_PIECES); i++)
        print_before(&BEFORE_PIECES[i]);
}

/* of request 6, or changed by it */
static int is_of_request6(const struct entry *entry)
{
    return entry == &CRITICAL || entry == &DELAY || entry == &MAKE_SUMMARY;
}

/* what request 6 asks for, without the rest */
static void print_request6_alone(void)
{
    printf("The proved code and plain C of the same algorithms:\n\n");
    printf("| entry | input | proved | plain C | ratio |\n|---|---|---:|---:|---:|\n");
    for (size_t i = 0; i < LENGTH(CASES); i++)
        if (is_of_request6(CASES[i].entry))
            print_case(&CASES[i]);
    print_request6();
    printf("\nHow the proved code's time grows:\n\n");
    printf("| entry | what stays | what grows | proved | factor a step |\n|---|---|---|---|---|\n");
    for (size_t i = 0; i < LENGTH(GROWTHS); i++)
        if (is_of_request6(GROWTHS[i].entry))
            print_growth(&GROWTHS[i]);
}

static void print_losing(void)
{
    printf("\nBoards that lose a tick of each window:\n\n");
    printf("| entry | input | proved | plain C | ratio |\n|---|---|---:|---:|---:|\n");
    for (size_t i = 0; i < LENGTH(LOSING); i++)
        print_case(&LOSING[i]);
}

/* with the argument 6 or 7: that request's tables alone */
int main(int argc, char **argv)
{
    if (1 < argc) {
        if (argv[1][0] == '7')
            print_losing();
        else
            print_request6_alone();
        return 0;
    }
    printf("The proved code and plain C of the same algorithms:\n\n");
    printf("| entry | input | proved | plain C | ratio |\n|---|---|---:|---:|---:|\n");
    struct pair times[LENGTH(CASES)];
    for (size_t i = 0; i < LENGTH(CASES); i++)
        times[i] = print_case(&CASES[i]);
    printf("\nA table that two teams share, asked for one of them:\n\n");
    printf("| entry | input | proved | plain C | ratio |\n|---|---|---:|---:|---:|\n");
    for (size_t i = 0; i < LENGTH(SHARED); i++)
        print_case(&SHARED[i]);
    print_losing();
    printf("\nThe least supply beside that of before, tick by tick in plain C:\n\n");
    printf("| entry | input | before | proved | times as fast |\n|---|---|---:|---:|---:|\n");
    double gained = 0;
    for (size_t i = 0; i < LENGTH(BEFORE); i++)
        gained = print_before(&BEFORE[i]);
    printf("\nThe bars, and at most %.2f of plain C:\n\n", HIGHEST_RATIO);
    printf("| entry | input | bar | measured | | ratio | |\n|---|---|---|---:|---|---:|---|\n");
    for (size_t i = 0; i < LENGTH(CASES); i++)
        if (CASES[i].make == worst_least_supply)
            print_gain(&CASES[i], times[i], gained);
        else if (CASES[i].bar != 0)
            print_bar(&CASES[i], times[i]);
    print_request6();
    printf("\nThe run's inputs again, beside plain C that looks for a late job in all 32 places at every tick:\n\n");
    printf("| entry | input | proved | plain C | ratio |\n|---|---|---:|---:|---:|\n");
    for (size_t i = 0; i < LENGTH(CHECKED_ONCE); i++)
        print_case(&CHECKED_ONCE[i]);
    printf("\nA replay beside its run, both proved; the bar for the worst is 1.5:\n\n");
    printf("| input | records | ticks | replay | run | ratio |\n|---|---:|---:|---:|---:|---:|\n");
    for (size_t i = 0; i < LENGTH(BESIDE_RUN); i++)
        print_beside_run(&BESIDE_RUN[i]);
    printf("\nHow the proved code's time grows:\n\n");
    printf("| entry | what stays | what grows | proved | factor a step |\n|---|---|---|---|---|\n");
    for (size_t i = 0; i < LENGTH(GROWTHS); i++)
        print_growth(&GROWTHS[i]);
    return 0;
}

END_OF_FILE
