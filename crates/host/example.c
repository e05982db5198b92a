/*
 * Document 01's marked examples on a table that two teams share, the other team's answers, one refusal of each number, a board with a shortest allowed
 * window, boards that lose ticks, and a summary that is kept beside a table through edits, through palikudyom.h: one line an answer. example.query asks the
 * same, line by line, of the second program, and example.stdout is what that one answers.
 */
#include "palikudyom.h"
#include <stdio.h>

#define LENGTH(list) (sizeof(list) / sizeof((list)[0]))
#define LIST(list) (list), LENGTH(list)
#define NONE X, 0 /* an empty list: its pointer is valid too */

/* the table X is owner 0's: a frame of 8 ticks, supplied in 0, 1, 5 and 6. The other ticks are owner 1's */
#define FRAME 8
static const struct palikudyom_board FIRST = {FRAME, 0, 1, PALIKUDYOM_WHOLE, 0};
static const struct palikudyom_board SECOND = {FRAME, 1, 1, PALIKUDYOM_WHOLE, 0};
static const uint32_t X[] = {0, 2, 0, 2, 5, 1, 5, 7, 0, 7, 8, 1};
static const uint32_t LAB[] = {0, 3, 0, 3, 5, 1, 5, 8, 0}; /* document 02, request 1, as owner 1's */
static const uint32_t PAIRS[] = {0, 2, 5, 7}; /* X as a plan file has it */

static const uint32_t W4[] = {1, 4, 4};
static const uint32_t W5[] = {1, 4, 3};
static const uint32_t W6[] = {1, 4, 4, 2, 8, 6};
static const uint32_t W7[] = {1, 4, 4, 2, 8, 7};
static const uint32_t W8[] = {5, 8, 8};
static const uint32_t W9[] = {13, 24, 24};
static const uint32_t W11[] = {1, 4, 4, 1, 8, 8};

static void number(const char *before, uint64_t n)
{
    printf("%s%llu", before, (unsigned long long)n);
}

static void completion(const char *side, uint64_t instant, uint64_t task)
{
    printf("%s", side);
    number(" instant ", instant);
    number(" task ", task);
}

/* the line of an answer, where an amount is called `amount` */
static void answer(const char *amount, struct palikudyom_answer x)
{
    switch (x.code) {
    case PALIKUDYOM_REFUSED:
        number("REFUSED ", x.a);
        number(" at ", x.b);
        break;
    case PALIKUDYOM_AMOUNT:
        number(amount, x.a);
        break;
    case PALIKUDYOM_DELAY:
        number("DELAY ", x.a);
        number(" of ", x.b);
        break;
    case PALIKUDYOM_MARGIN:
        number("MARGIN ", x.a);
        break;
    case PALIKUDYOM_BELOW:
        number("MARGIN -", x.a);
        break;
    case PALIKUDYOM_MEETS:
        number("MEETS cycle ", x.a);
        break;
    case PALIKUDYOM_MISS:
        number("MISS length ", x.a);
        number(" start ", x.b);
        number(" demand ", x.c);
        number(" supply ", x.d);
        break;
    case PALIKUDYOM_BOUND:
        number("BOUND ", x.a);
        break;
    case PALIKUDYOM_NO_BOUND:
        printf("NO BOUND");
        break;
    case PALIKUDYOM_MET:
        number("MET backlog ", x.a);
        break;
    case PALIKUDYOM_MISSED:
        number("MISSED instant ", x.a);
        number(" job ", x.b);
        number(" backlog ", x.c);
        break;
    case PALIKUDYOM_SAME:
        printf("SAME");
        break;
    case PALIKUDYOM_DIFFERS:
        completion("DIFFERS trace", x.a, x.b);
        completion(" machine", x.c, x.d);
        break;
    case PALIKUDYOM_TRACE_ENDED:
        completion("DIFFERS trace none machine", x.c, x.d);
        break;
    case PALIKUDYOM_MACHINE_ENDED:
        completion("DIFFERS trace", x.a, x.b);
        printf(" machine none");
        break;
    case PALIKUDYOM_TRACE_MISSED:
        number("MISSED instant ", x.a);
        number(" job ", x.b);
        break;
    case PALIKUDYOM_EDITED:
        number("EDITED count ", x.a);
        number(" summary ", x.b);
        break;
    }
}

static void line(const char *amount, struct palikudyom_answer x)
{
    answer(amount, x);
    printf("\n");
}

static void buffer(const uint32_t *numbers, size_t room)
{
    printf(" BUFFER");
    for (size_t i = 0; i < room; i++)
        number(" ", numbers[i]);
}

/* an answer with what it left in the lent buffer */
static void line_and_buffer(const char *amount, struct palikudyom_answer x, const uint32_t *numbers, size_t room)
{
    answer(amount, x);
    buffer(numbers, room);
    printf("\n");
}

static void verdict(const uint32_t *tasks, size_t tasks_len)
{
    line("", palikudyom_verdict(FIRST, LIST(X), tasks, tasks_len));
}

static void critical(size_t room)
{
    uint32_t out[] = {7, 7, 7, 7, 7};
    struct palikudyom_answer x = palikudyom_critical(FIRST, LIST(X), out, room);
    line_and_buffer("WINDOWS ", x, out, room);
}

static void run(const uint32_t *tasks, size_t tasks_len, uint32_t ticks, const uint32_t *jobs, size_t jobs_len, size_t room)
{
    uint32_t counts[] = {7, 7, 7};
    struct palikudyom_answer x = palikudyom_run(FIRST, LIST(X), tasks, tasks_len, ticks, jobs, jobs_len, counts, room);
    line_and_buffer("", x, counts, room);
}

static void replay(const uint32_t *tasks, size_t tasks_len, const uint8_t *trace, size_t trace_len)
{
    line("", palikudyom_replay(FIRST, LIST(X), tasks, tasks_len, trace, trace_len));
}

/* the line of a plan, as the text in `out` and by its answer */
static void both(struct palikudyom_answer text, const uint8_t *out, struct palikudyom_answer x)
{
    if (text.code == PALIKUDYOM_AMOUNT)
        printf("%.*s", (int)text.a, (const char *)out);
    line("", x);
}

static void plan(const uint8_t *bytes, size_t bytes_len)
{
    uint8_t out[128];
    struct palikudyom_answer text = palikudyom_line(bytes, bytes_len, LIST(out));
    both(text, out, palikudyom_plan(bytes, bytes_len));
}

/* of one that begins with the shortest allowed window */
static void plan_with_shortest(const uint8_t *bytes, size_t bytes_len)
{
    uint8_t out[128];
    struct palikudyom_answer text = palikudyom_line_with_shortest(bytes, bytes_len, LIST(out));
    both(text, out, palikudyom_plan_with_shortest(bytes, bytes_len));
}

/* of one that begins with that, the rule and the lost ticks */
static void plan_with_rule(const uint8_t *bytes, size_t bytes_len)
{
    uint8_t out[128];
    struct palikudyom_answer text = palikudyom_line_with_rule(bytes, bytes_len, LIST(out));
    both(text, out, palikudyom_plan_with_rule(bytes, bytes_len));
}

static void examples(void)
{
    for (uint32_t length = 0; length <= 8; length++) /* W1 */
        line("AMOUNT ", palikudyom_least_supply(FIRST, LIST(X), length));
    critical(5); /* W2 */
    line("", palikudyom_delay(FIRST, LIST(X))); /* W3 */
    line("OUTAGE ", palikudyom_outage(FIRST, LIST(X)));
    line("OUTAGE ", palikudyom_outage(SECOND, LIST(LAB))); /* over the end of the frame */
    verdict(LIST(W4));
    verdict(LIST(W5));
    verdict(LIST(W6));
    line("DEMAND ", palikudyom_demand(LIST(W6), 6));
    line("", palikudyom_margin(FIRST, LIST(X), LIST(W6), 6));
    verdict(LIST(W7));
    line("", palikudyom_margin(FIRST, LIST(X), LIST(W7), 8));
    verdict(LIST(W8));
    verdict(LIST(W9));
    verdict(NONE); /* W10 */
    line("", palikudyom_bound(FIRST, LIST(X), LIST(W11), 0));
    line("", palikudyom_bound(FIRST, LIST(X), LIST(W11), 1));
    line("", palikudyom_bound(FIRST, LIST(X), LIST(W5), 0));
    const uint32_t at_2[] = {2, 0, 1, 2, 1, 2};
    run(LIST(W7), 10, LIST(at_2), 3); /* W13 */
    run(LIST(W6), 10, LIST(at_2), 3);
}

/* the other team, on its own windows of the same table; and an owner that has none */
static void second_team(void)
{
    for (uint32_t length = 0; length <= 8; length++)
        line("AMOUNT ", palikudyom_least_supply(SECOND, LIST(X), length));
    line("", palikudyom_verdict(SECOND, LIST(X), LIST(W5)));
    line("", palikudyom_verdict(SECOND, LIST(X), LIST(W6)));
    line("", palikudyom_bound(SECOND, LIST(X), LIST(W11), 1));
    const struct palikudyom_board third = {FRAME, 2, 1, PALIKUDYOM_WHOLE, 0};
    line("OUTAGE ", palikudyom_outage(third, LIST(X)));
    const uint32_t first_alone[] = {0, 2, 0};
    line("", palikudyom_verdict(SECOND, LIST(first_alone), NONE));
}

/* boards that can't use short windows: X's have two ticks each, and owner 1's last window has one */
static void slivers(void)
{
    const uint32_t alone[] = {0, 2, 0, 5, 7, 0};
    const struct palikudyom_board two = {FRAME, 0, 2, PALIKUDYOM_WHOLE, 0};
    const struct palikudyom_board three = {FRAME, 0, 3, PALIKUDYOM_WHOLE, 0};
    const struct palikudyom_board none = {FRAME, 0, 0, PALIKUDYOM_WHOLE, 0};
    line("", palikudyom_verdict(two, LIST(alone), LIST(W6)));
    line("", palikudyom_verdict(three, LIST(alone), LIST(W6)));
    line("OUTAGE ", palikudyom_outage(two, LIST(X))); /* the other team's */
    line("", palikudyom_delay(none, LIST(alone)));
}

/* boards that lose ticks: of X's windows one tick each is left where one is lost, and none where two are; owner 1 still has one then */
static void losses(void)
{
    const struct palikudyom_board one = {FRAME, 0, 1, PALIKUDYOM_LOSING, 1};
    const struct palikudyom_board two = {FRAME, 0, 1, PALIKUDYOM_LOSING, 2};
    const struct palikudyom_board second = {FRAME, 1, 1, PALIKUDYOM_LOSING, 2};
    const struct palikudyom_board whole = {FRAME, 0, 1, PALIKUDYOM_WHOLE, 1};
    const struct palikudyom_board no_rule = {FRAME, 0, 1, 0, 0};
    for (uint32_t length = 4; length <= 8; length++)
        line("AMOUNT ", palikudyom_least_supply(one, LIST(X), length));
    line("OUTAGE ", palikudyom_outage(one, LIST(X)));
    line("", palikudyom_delay(one, LIST(X)));
    line("", palikudyom_verdict(one, LIST(X), LIST(W4)));
    line("", palikudyom_bound(one, LIST(X), LIST(W11), 1));
    line("OUTAGE ", palikudyom_outage(two, LIST(X)));
    line("OUTAGE ", palikudyom_outage(second, LIST(X)));
    line("OUTAGE ", palikudyom_outage(whole, LIST(X)));
    line("OUTAGE ", palikudyom_outage(no_rule, LIST(X)));
}

static void refusals(void)
{
    const uint32_t pairs[] = {0, 2, 5, 7};
    line("AMOUNT ", palikudyom_least_supply(FIRST, LIST(pairs), 4));
    const struct palikudyom_board no_frame = {0, 0, 1, PALIKUDYOM_WHOLE, 0};
    line("AMOUNT ", palikudyom_least_supply(no_frame, LIST(X), 4));
    const uint32_t touching[] = {0, 2, 0, 2, 4, 0};
    line("", palikudyom_delay(FIRST, LIST(touching)));
    line("DEMAND ", palikudyom_demand(X, 4, 6));
    const uint32_t late[] = {1, 4, 4, 1, 4, 5};
    verdict(LIST(late));
    const uint32_t coprime[] = {1, 999999, 999999};
    verdict(LIST(coprime));
    line("", palikudyom_bound(FIRST, LIST(X), LIST(W11), 2));
    critical(3);
    run(LIST(W7), 1100001, NONE, 3);
    const uint32_t close[] = {2, 0, 1, 5, 0, 1};
    run(LIST(W7), 10, LIST(close), 3);
    const uint32_t two[] = {2, 0, 1, 2, 1, 2};
    run(LIST(W7), 10, LIST(two), 1);
}

/* records of kind, task, work of a release, and stamp */
static void traces(void)
{
    const uint8_t same[] = {0, 0, 1, 100, 0, 1, 2, 100, 1, 0, 101, 1, 1, 106};
    replay(LIST(W7), LIST(same));
    const uint8_t late[] = {0, 0, 1, 100, 0, 1, 2, 100, 1, 0, 101, 1, 1, 107};
    replay(LIST(W7), LIST(late));
    const uint8_t trace_ended[] = {0, 0, 1, 100, 0, 1, 2, 100, 1, 0, 101, 0, 0, 1, 106};
    replay(LIST(W7), LIST(trace_ended));
    const uint8_t machine_ended[] = {0, 0, 1, 100, 0, 1, 2, 100, 1, 0, 101, 1, 1, 106, 1, 0, 107};
    replay(LIST(W7), LIST(machine_ended));
    const uint32_t short_deadline[] = {1, 4, 4, 2, 8, 5};
    replay(LIST(short_deadline), LIST(same));
    const uint8_t another_kind[] = {0, 0, 1, 100, 2};
    replay(LIST(W7), LIST(another_kind));
    const uint8_t against_the_order[] = {0, 1, 2, 100, 0, 0, 1, 100};
    replay(LIST(W7), LIST(against_the_order));
}

static void plans(void)
{
    uint8_t bytes[64];
    struct palikudyom_answer x = palikudyom_write_plan(FRAME, LIST(PAIRS), LIST(W6), LIST(bytes));
    if (x.code == PALIKUDYOM_AMOUNT)
        plan(bytes, x.a);
    x = palikudyom_write_plan(FRAME, LIST(PAIRS), NONE, LIST(bytes));
    if (x.code == PALIKUDYOM_AMOUNT)
        plan(bytes, x.a);
    const uint8_t unfinished[] = {8, 2, 0, 130};
    plan(LIST(unfinished));
    for (uint32_t shortest = 2; shortest <= 3; shortest++) {
        x = palikudyom_write_plan_with_shortest(shortest, FRAME, LIST(PAIRS), LIST(W6), LIST(bytes));
        if (x.code == PALIKUDYOM_AMOUNT)
            plan_with_shortest(bytes, x.a);
    }
    for (uint32_t lost = 1; lost <= 2; lost++) {
        x = palikudyom_write_plan_with_rule(1, PALIKUDYOM_LOSING, lost, FRAME, LIST(PAIRS), LIST(W4), LIST(bytes));
        if (x.code == PALIKUDYOM_AMOUNT)
            plan_with_rule(bytes, x.a);
    }
}

/* a table in memory of ours, with room for one window more, and beside it the summary of owner 0's windows, with room to grow */
static uint32_t windows[] = {0, 2, 0, 2, 5, 1, 5, 7, 0, 7, 8, 1, 7, 7, 7};
static uint32_t count = 4;
static uint32_t summary[] = {7, 7, 7, 7, 7, 7, 7, 7, 7, 7, 7};

static void make(size_t room)
{
    struct palikudyom_answer x = palikudyom_make_summary(FIRST, windows, 3 * count, summary, room);
    line_and_buffer("SUMMARY ", x, summary, room);
}

/* the margins of six lengths at once, of the table that is given beside the summary */
static void margins(const uint32_t *table, size_t table_len)
{
    const uint32_t lengths[] = {3, 4, 5, 6, 7, 8};
    int64_t out[] = {7, 7, 7, 7, 7, 7, 7, 7};
    answer("MARGINS ", palikudyom_margins(FIRST, table, table_len, LIST(summary), LIST(W6), LIST(lengths), LIST(out)));
    printf(" BUFFER");
    for (size_t i = 0; i < LENGTH(out); i++)
        printf(" %lld", (long long)out[i]);
    printf("\n");
}

/* an edit's answer, with both memories after it, as far as they were lent */
static void edited(struct palikudyom_answer x, size_t windows_room, size_t summary_room)
{
    answer("", x);
    buffer(windows, windows_room);
    buffer(summary, summary_room);
    printf("\n");
    if (x.code == PALIKUDYOM_EDITED)
        count = x.a;
}

static void move_window(uint32_t index, uint32_t start, uint32_t end)
{
    edited(palikudyom_move_window(FIRST, count, LIST(windows), LIST(summary), index, start, end), LENGTH(windows), LENGTH(summary));
}

static void add_window(uint32_t index, uint32_t start, uint32_t end, uint32_t owner)
{
    edited(palikudyom_add_window(FIRST, count, LIST(windows), LIST(summary), index, start, end, owner), LENGTH(windows), LENGTH(summary));
}

static void remove_window(uint32_t index)
{
    edited(palikudyom_remove_window(FIRST, count, LIST(windows), LIST(summary), index), LENGTH(windows), LENGTH(summary));
}

/* made, asked for many margins at once, and kept through edits */
static void summaries(void)
{
    make(0); /* no room: how many numbers it needs */
    make(LENGTH(summary));
    margins(windows, 3 * count);
    line("AMOUNT ", palikudyom_least_supply_from(FIRST, windows, 3 * count, LIST(summary), 6));
    line("AMOUNT ", palikudyom_least_supply_from(FIRST, windows, 3 * count, LIST(summary), 1000000));
    move_window(1, 2, 3); /* the other team's: our summary stays */
    add_window(2, 3, 4, 0);
    margins(windows, 3 * count);
    remove_window(4);
    move_window(3, 5, 8); /* a shorter summary: the rest of its memory is kept */
    margins(windows, 3 * count);

    move_window(4, 4, 5);   /* no such window */
    add_window(4, 7, 8, 1); /* starts before the last ends */
    edited(palikudyom_add_window(FIRST, count, windows, 3 * count, LIST(summary), 3, 4, 5, 1), 3 * count, LENGTH(summary)); /* no room for a window */
    edited(palikudyom_move_window(FIRST, count, LIST(windows), summary, 7, 3, 5, 7), LENGTH(windows), 7);                   /* nor for a longer summary */
    edited(palikudyom_remove_window(FIRST, 6, LIST(windows), LIST(summary), 0), LENGTH(windows), LENGTH(summary));          /* not so many windows */
    margins(LIST(X)); /* the summary is no longer that of X */
    line("AMOUNT ", palikudyom_least_supply_from(FIRST, windows, 3 * count, summary, 6, 6)); /* nor is a part of it one */
    edited(palikudyom_remove_window(SECOND, count, LIST(windows), LIST(summary), 0), LENGTH(windows), LENGTH(summary)); /* and it is not the other team's */
}

int main(void)
{
    examples();
    second_team();
    slivers();
    losses();
    refusals();
    traces();
    plans();
    summaries();
    return 0;
}
