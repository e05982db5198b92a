/*
 * The yardstick: the proved code's algorithms once more, in plain C. Function by function the loops, checks and scans of crates/tables, shared, supply,
 * checker, edits, jobs, machine, replay and plan, no cleverer and no slower, so that a ratio tells what the proof costs and not what an algorithm costs.
 */
#include "plain.h"
#include <stdbool.h>

/* later than every deadline */
#define NEVER UINT32_C(4294967295)

/* what a number in seven-bit groups may be */
#define LARGEST_NUMBER UINT32_C(4294967295)

enum {
    LONGEST_FRAME = 65536,
    MOST_SHORTEST = 65536,
    MOST_WINDOWS = 64,
    TEAMS = 2,
    MOST_TASKS = 32,
    LARGEST = 1000000,
    LONGEST_CYCLE = 1000000,
    LONGEST_LENGTH = 1000000,
    LONGEST_RUN = 1100000,
    MOST_JOBS = 4096,
    NO_TASK = 32,
    NO_JOB = 4096,
    MOST_GROUPS = 5,
    SETTINGS = 3,
    MOST_LOST = 65535,
    RELEASE = 0 /* kind of a record; a completion is the other */
};

/* a lent list of numbers */
struct list {
    const uint32_t *at;
    size_t len;
};

/* Answers */

/* document 01's number and place of a refusal; number 0: fine */
struct checked {
    uint64_t number;
    uint64_t place;
};

static const struct checked FINE = {0, 0};

static struct checked bad(uint64_t number, uint64_t place)
{
    return (struct checked){number, place};
}

static bool is_bad(struct checked c)
{
    return c.number != 0;
}

static struct checked or_else(struct checked first, struct checked later)
{
    return is_bad(first) ? first : later;
}

static struct palikudyom_answer two(uint32_t code, uint64_t a, uint64_t b)
{
    return (struct palikudyom_answer){code, a, b, 0, 0};
}

static struct palikudyom_answer one(uint32_t code, uint64_t a)
{
    return two(code, a, 0);
}

static struct palikudyom_answer refused(struct checked c)
{
    return two(PALIKUDYOM_REFUSED, c.number, c.place);
}

/* Tables: window.rt, board.rt. Windows are in pairs: start and end */

static uint32_t start_of(struct list windows, size_t i)
{
    return windows.at[2 * i];
}

static uint32_t end_of(struct list windows, size_t i)
{
    return windows.at[2 * i + 1];
}

static bool window_fits(uint32_t frame, struct list windows, size_t i)
{
    return start_of(windows, i) < end_of(windows, i) && end_of(windows, i) <= frame;
}

static bool window_holds(struct list windows, size_t i, uint32_t k)
{
    return start_of(windows, i) <= k && k < end_of(windows, i);
}

static bool window_legal(uint32_t frame, struct list windows, size_t i)
{
    if (!window_fits(frame, windows, i))
        return false;
    if (i == 0)
        return true;
    return end_of(windows, i - 1) < start_of(windows, i);
}

/* of windows with `each` numbers */
static struct checked check_window_list(struct list windows, size_t each)
{
    if (windows.len % each != 0 || windows.len == 0 || each * MOST_WINDOWS < windows.len)
        return bad(1, 0);
    return FINE;
}

static struct checked check_frame(uint32_t frame)
{
    return frame == 0 || LONGEST_FRAME < frame ? bad(2, 0) : FINE;
}

static struct checked check_windows(uint32_t frame, struct list windows)
{
    size_t count = windows.len / 2;
    for (size_t i = 0; i < count; i++)
        if (!window_legal(frame, windows, i))
            return bad(3, i);
    return FINE;
}

static struct checked check_table(uint32_t frame, struct list windows)
{
    struct checked list = check_window_list(windows, 2);
    struct checked board = check_frame(frame);
    struct checked each = check_windows(frame, windows);
    return or_else(list, or_else(board, each));
}

/* Shared: table.rt. A table is in threes: start, end and owner */

static uint32_t owned_start_of(struct list table, size_t i)
{
    return table.at[3 * i];
}

static uint32_t owned_end_of(struct list table, size_t i)
{
    return table.at[3 * i + 1];
}

static uint32_t owner_of(struct list table, size_t i)
{
    return table.at[3 * i + 2];
}

/* the window starts after the previous end, or there, and is another owner's */
static bool follows(struct list table, size_t i)
{
    if (owned_end_of(table, i - 1) == owned_start_of(table, i))
        return owner_of(table, i - 1) != owner_of(table, i);
    return owned_end_of(table, i - 1) < owned_start_of(table, i);
}

static bool owned_legal(uint32_t frame, struct list table, size_t i)
{
    if (owned_end_of(table, i) <= owned_start_of(table, i) || frame < owned_end_of(table, i))
        return false;
    if (TEAMS <= owner_of(table, i))
        return false;
    if (i == 0)
        return true;
    return follows(table, i);
}

static struct checked check_owned(uint32_t frame, struct list table)
{
    size_t count = table.len / 3;
    for (size_t i = 0; i < count; i++)
        if (!owned_legal(frame, table, i))
            return bad(3, i);
    return FINE;
}

static struct checked check_whole(uint32_t frame, struct list table)
{
    struct checked list = check_window_list(table, 3);
    struct checked board = check_frame(frame);
    struct checked each = check_owned(frame, table);
    return or_else(list, or_else(board, each));
}

/* how many numbers the owner's windows have, in pairs */
static size_t count_own(uint32_t owner, struct list table)
{
    size_t count = table.len / 3;
    size_t numbers = 0;
    for (size_t i = 0; i < count; i++)
        if (owner_of(table, i) == owner)
            numbers += 2;
    return numbers;
}

static uint32_t owned_ticks(struct list table, size_t i)
{
    uint32_t start = owned_start_of(table, i);
    uint32_t end = owned_end_of(table, i);
    return start <= end ? end - start : 0;
}

/* the window is the asked owner's and has a tick left */
static bool is_left(const struct palikudyom_board *board, struct list table, size_t i)
{
    return owner_of(table, i) == board->owner && board->lost < owned_ticks(table, i);
}

static struct checked check_shortest(uint32_t shortest)
{
    return shortest == 0 || MOST_SHORTEST < shortest ? bad(12, MOST_WINDOWS) : FINE;
}

static bool is_sliver(uint32_t shortest, struct list table, size_t i)
{
    return owned_ticks(table, i) < shortest;
}

static struct checked first_sliver(uint32_t shortest, struct list table)
{
    size_t count = table.len / 3;
    for (size_t i = 0; i < count; i++)
        if (is_sliver(shortest, table, i))
            return bad(12, i);
    return FINE;
}

/* of a list without 1 2 3, in which every window has a tick */
static struct checked check_slivers(uint32_t shortest, struct list table)
{
    if (shortest == 1)
        return FINE;
    struct checked range = check_shortest(shortest);
    struct checked each = first_sliver(shortest, table);
    return or_else(range, each);
}

static struct checked check_rule(struct palikudyom_board board)
{
    if (board.rule == PALIKUDYOM_WHOLE)
        return board.lost == 0 ? FINE : bad(13, 0);
    return board.rule != PALIKUDYOM_LOSING || MOST_LOST < board.lost ? bad(13, 0) : FINE;
}

/* something is left of these windows */
static bool any_left(const struct palikudyom_board *board, struct list table)
{
    size_t count = table.len / 3;
    for (size_t i = 0; i < count; i++)
        if (is_left(board, table, i))
            return true;
    return false;
}

/* `numbers`: those of the owner's windows */
static struct checked check_counted(struct palikudyom_board board, struct list table, size_t numbers)
{
    struct checked whole = check_whole(board.frame, table);
    struct checked owner = numbers == 0 ? bad(1, 0) : FINE;
    struct checked both = or_else(whole, owner);
    if (is_bad(both))
        return both;
    struct checked slivers = check_slivers(board.shortest, table);
    struct checked loss = any_left(&board, table) ? check_rule(board) : bad(13, 0);
    return or_else(slivers, loss);
}

static struct checked check_shared(struct palikudyom_board board, struct list table)
{
    return check_counted(board, table, count_own(board.owner, table));
}

static size_t gather(const struct palikudyom_board *board, struct list table, uint32_t *out)
{
    size_t count = table.len / 3;
    size_t at = 0;
    for (size_t i = 0; i < count; i++)
        if (is_left(board, table, i)) {
            out[at] = board->lost + owned_start_of(table, i);
            out[at + 1] = owned_end_of(table, i);
            at += 2;
        }
    return at;
}

/* what is left of the asked owner's windows, in pairs; or the refusal */
struct own {
    struct checked table;
    struct list windows;
};

/* every entry's first step; `room` is for MOST_WINDOWS pairs and is cleared before it is filled, as that of the proved code */
static struct own own_windows(struct palikudyom_board board, struct list table, uint32_t *room)
{
    size_t numbers = count_own(board.owner, table);
    struct checked shared = check_counted(board, table, numbers);
    if (is_bad(shared))
        return (struct own){shared, {room, 0}};
    size_t left = gather(&board, table, room);
    return (struct own){FINE, {room, left}};
}

/* Tables: cursor.rt */

/* a tick of the frame and the window at hand there: the first one that ends after the tick */
struct cursor {
    uint32_t tick;
    size_t window;
};

/* one tick on; past the last window none is at hand up to the end of the frame */
static void next_tick(uint32_t frame, struct list windows, struct cursor *at)
{
    at->tick++;
    if (at->tick == frame)
        *at = (struct cursor){0, 0};
    else if (at->window < windows.len / 2 && end_of(windows, at->window) == at->tick)
        at->window++;
}

static bool is_on(struct list windows, const struct cursor *at)
{
    return at->window < windows.len / 2 && window_holds(windows, at->window, at->tick);
}

/* Groups: task.rt */

static uint32_t work_of(struct list tasks, size_t i)
{
    return tasks.at[3 * i];
}

static uint32_t period_of(struct list tasks, size_t i)
{
    return tasks.at[3 * i + 1];
}

static uint32_t deadline_of(struct list tasks, size_t i)
{
    return tasks.at[3 * i + 2];
}

static bool in_range(uint32_t x)
{
    return 1 <= x && x <= LARGEST;
}

static bool task_legal(struct list tasks, size_t i)
{
    return in_range(work_of(tasks, i)) && in_range(period_of(tasks, i)) && in_range(deadline_of(tasks, i)) && deadline_of(tasks, i) <= period_of(tasks, i);
}

static struct checked check_task_list(struct list tasks)
{
    return tasks.len % 3 != 0 || 3 * MOST_TASKS < tasks.len ? bad(4, 0) : FINE;
}

static struct checked check_each_task(struct list tasks)
{
    size_t count = tasks.len / 3;
    for (size_t i = 0; i < count; i++)
        if (!task_legal(tasks, i))
            return bad(5, i);
    return FINE;
}

static struct checked check_tasks(struct list tasks)
{
    struct checked list = check_task_list(tasks);
    struct checked each = check_each_task(tasks);
    return or_else(list, each);
}

static struct checked check_group(struct palikudyom_board board, struct list table, struct list tasks)
{
    struct checked shared = check_shared(board, table);
    return or_else(shared, check_tasks(tasks));
}

static struct checked check_length(uint32_t length)
{
    return LONGEST_LENGTH < length ? bad(7, 0) : FINE;
}

/* Supply: row.rt */

/* window `index` of the frame that begins at tick `base`, with the supplied ticks before that window */
struct position {
    size_t index;
    uint32_t base;
    uint32_t before;
};

static uint32_t end_at(struct list windows, const struct position *at)
{
    return at->base + end_of(windows, at->index);
}

/* after the last window of a frame comes the first of the next frame */
static void next_window(uint32_t frame, struct list windows, struct position *at)
{
    at->before += end_of(windows, at->index) - start_of(windows, at->index);
    at->index++;
    if (at->index == windows.len / 2) {
        at->index = 0;
        at->base += frame;
    }
}

/* on to the first window that ends after tick x */
static void move_on(uint32_t frame, struct list windows, struct position *at, uint32_t x)
{
    while (end_at(windows, at) <= x)
        next_window(frame, windows, at);
}

/* the supplied ticks before tick x, from the position of the first window that ends after it */
static uint32_t upto(struct list windows, const struct position *at, uint32_t x)
{
    uint32_t start = at->base + start_of(windows, at->index);
    return x <= start ? at->before : at->before + (x - start);
}

/* ticks that are all supplied or all unsupplied, and how many */
struct ticks {
    bool on;
    uint32_t far;
};

/* those from tick x on up to the next edge, from the position of the first window that ends after it */
static struct ticks ticks_after(struct list windows, const struct position *at, uint32_t x)
{
    uint32_t start = at->base + start_of(windows, at->index);
    if (x < start)
        return (struct ticks){false, start - x};
    return (struct ticks){true, end_at(windows, at) - x};
}

/* Supply: supply.rt */

/* the least supply of a length, and A, which is the whole frame's */
struct least {
    uint32_t supply;
    uint32_t whole;
};

static uint32_t smaller(uint32_t a, uint32_t b)
{
    return b < a ? b : a;
}

/* of a length of at most a frame: over the starts where a window ends */
static struct least least_at_ends(uint32_t frame, struct list windows, uint32_t length)
{
    size_t count = windows.len / 2;
    uint32_t least = length;
    uint32_t earlier = 0;
    struct position at = {0, 0, 0};
    for (size_t i = 0; i < count; i++) {
        uint32_t end = end_of(windows, i) + length;
        earlier += end_of(windows, i) - start_of(windows, i);
        move_on(frame, windows, &at, end);
        least = smaller(least, upto(windows, &at, end) - earlier);
    }
    return (struct least){least, earlier};
}

static uint32_t least_of(uint32_t frame, struct list windows, uint32_t length)
{
    struct least rest = least_at_ends(frame, windows, length % frame);
    return length / frame * rest.whole + rest.supply;
}

static struct palikudyom_answer least_on(uint32_t frame, struct list windows, uint32_t length)
{
    struct checked asked = check_length(length);
    if (is_bad(asked))
        return refused(asked);
    return one(PALIKUDYOM_AMOUNT, least_of(frame, windows, length));
}

/* of pairs, as one owner has them */
static struct palikudyom_answer least_in(uint32_t frame, struct list windows, uint32_t length)
{
    struct checked table = check_table(frame, windows);
    if (is_bad(table))
        return refused(table);
    return least_on(frame, windows, length);
}

struct palikudyom_answer plain_least_supply(struct palikudyom_board board, const uint32_t *at, size_t len, uint32_t length)
{
    uint32_t room[2 * MOST_WINDOWS] = {0};
    struct own own = own_windows(board, (struct list){at, len}, room);
    if (is_bad(own.table))
        return refused(own.table);
    return least_on(board.frame, own.windows, length);
}

/* The least supply as it was before request 3: a tick is looked for in all windows, and every start of a frame is tried */

static bool covered(struct list windows, uint32_t k)
{
    size_t count = windows.len / 2;
    for (size_t i = 0; i < count; i++)
        if (window_holds(windows, i, k))
            return true;
    return false;
}

static uint32_t tick_of(uint32_t frame, struct list windows, uint32_t k)
{
    return covered(windows, k % frame) ? 1 : 0;
}

static uint32_t supply_from(uint32_t frame, struct list windows, uint32_t start, uint32_t length)
{
    uint32_t n = 0;
    for (uint32_t i = 0; i < length; i++)
        n += tick_of(frame, windows, start + i);
    return n;
}

/* the start moves on by a tick */
static uint32_t slid_by_tick(uint32_t frame, struct list windows, uint32_t start, uint32_t length, uint32_t n)
{
    uint32_t comes = tick_of(frame, windows, start + length);
    uint32_t goes = tick_of(frame, windows, start);
    return n + comes - goes;
}

static uint32_t least_over_starts(uint32_t frame, struct list windows, uint32_t length)
{
    uint32_t n = supply_from(frame, windows, 0, length);
    uint32_t least = n;
    for (uint32_t start = 0; start < frame; start++) {
        if (n < least)
            least = n;
        n = slid_by_tick(frame, windows, start, length, n);
    }
    return least;
}

struct palikudyom_answer plain_least_supply_by_ticks(struct palikudyom_board board, const uint32_t *at, size_t len, uint32_t length)
{
    uint32_t frame = board.frame;
    uint32_t room[2 * MOST_WINDOWS] = {0};
    struct own own = own_windows(board, (struct list){at, len}, room);
    struct checked c = or_else(own.table, check_length(length));
    if (is_bad(c))
        return refused(c);
    uint32_t whole = supply_from(frame, own.windows, 0, frame);
    uint32_t rest = least_over_starts(frame, own.windows, length % frame);
    return one(PALIKUDYOM_AMOUNT, length / frame * whole + rest);
}

/* Pieces of lengths over which the least supply rises at each tick or at none: pieces.rt */

static uint32_t larger(uint32_t a, uint32_t b)
{
    return a < b ? b : a;
}

/* the least supply stays for `flat` lengths or, where that is none, rises at each of `rise` */
struct ahead {
    uint32_t flat;
    uint32_t rise;
};

/* one start more, whose stretch has `over` ticks more than the least supply */
static struct ahead joined(struct ahead ahead, struct ticks ticks, uint32_t over)
{
    if (ticks.on)
        return (struct ahead){ahead.flat, smaller(ahead.rise, ticks.far + over)};
    if (over == 0)
        return (struct ahead){larger(ahead.flat, ticks.far), ahead.rise};
    return (struct ahead){ahead.flat, smaller(ahead.rise, over)};
}

/* what lies ahead of length t, over the starts where a window ends */
static struct ahead ahead_of(uint32_t frame, struct list windows, uint32_t t, uint32_t least)
{
    size_t count = windows.len / 2;
    struct ahead ahead = {0, frame - t};
    uint32_t earlier = 0;
    struct position at = {0, 0, 0};
    for (size_t i = 0; i < count; i++) {
        uint32_t end = end_of(windows, i) + t;
        earlier += end_of(windows, i) - start_of(windows, i);
        move_on(frame, windows, &at, end);
        struct ticks ticks = ticks_after(windows, &at, end);
        ahead = joined(ahead, ticks, upto(windows, &at, end) - earlier - least);
    }
    return ahead;
}

/* lengths up to `end` over which the least supply rises at each tick or at none, and what it is at `end` */
struct piece {
    bool rising;
    uint32_t end;
    uint32_t least;
};

static struct piece piece_from(uint32_t frame, struct list windows, uint32_t t, uint32_t least)
{
    struct ahead ahead = ahead_of(frame, windows, t, least);
    if (ahead.flat == 0)
        return (struct piece){true, t + ahead.rise, least + ahead.rise};
    return (struct piece){false, t + smaller(ahead.flat, frame - t), least};
}

/* Critical partition and delay: partition.rt */

/* how many numbers the critical partition has, the delay, and whether the numbers that are held begin with the partition */
struct measure {
    uint32_t numbers;
    uint32_t late;
    bool same;
};

/* the edges that are met so far: how many, and whether the numbers that are held begin with them */
struct met {
    uint32_t count;
    bool same;
};

static bool has_at(struct list list, size_t at, uint32_t x)
{
    return at < list.len && list.at[at] == x;
}

/* one edge more, at length t, where there is one */
static struct met edge_met(struct met met, struct list held, size_t from, bool here, uint32_t t)
{
    if (!here)
        return met;
    bool same = has_at(held, from + met.count, t);
    return (struct met){met.count + 1, met.same && same};
}

static uint64_t lag_with(uint32_t whole, uint32_t t, uint32_t frame, uint32_t least)
{
    return (uint64_t)whole * t - (uint64_t)frame * least;
}

/* one pass over the pieces of a frame */
static struct measure measured(uint32_t frame, struct list windows, uint32_t whole, struct list held, size_t from)
{
    struct met met = {0, true};
    uint64_t late = 0;
    bool before = false;
    uint32_t least = 0;
    uint32_t t = 0;
    while (t < frame) {
        struct piece piece = piece_from(frame, windows, t, least);
        met = edge_met(met, held, from, piece.rising != before, t);
        before = piece.rising;
        least = piece.least;
        t = piece.end;
        uint64_t here = lag_with(whole, t, frame, least);
        if (late < here)
            late = here;
    }
    met = edge_met(met, held, from, before, frame);
    return (struct measure){met.count, late, met.same};
}

/* the critical partition after the first `from` numbers of out */
static void write_edges(uint32_t frame, struct list windows, size_t from, uint32_t *out)
{
    size_t at = from;
    bool before = false;
    uint32_t least = 0;
    uint32_t t = 0;
    while (t < frame) {
        struct piece piece = piece_from(frame, windows, t, least);
        if (piece.rising != before)
            out[at++] = t;
        before = piece.rising;
        least = piece.least;
        t = piece.end;
    }
    if (before)
        out[at] = frame;
}

static uint32_t whole_of(uint32_t frame, struct list windows)
{
    return least_at_ends(frame, windows, 0).whole;
}

static struct measure measured_alone(uint32_t frame, struct list windows, uint32_t whole)
{
    return measured(frame, windows, whole, (struct list){windows.at, 0}, 0);
}

struct palikudyom_answer plain_critical(struct palikudyom_board board, const uint32_t *at, size_t len, uint32_t *out, size_t out_len)
{
    uint32_t frame = board.frame;
    uint32_t room[2 * MOST_WINDOWS] = {0};
    struct own own = own_windows(board, (struct list){at, len}, room);
    if (is_bad(own.table))
        return refused(own.table);
    uint64_t numbers = measured_alone(frame, own.windows, whole_of(frame, own.windows)).numbers;
    if (out_len < numbers)
        return refused(bad(8, numbers));
    write_edges(frame, own.windows, 0, out);
    return one(PALIKUDYOM_AMOUNT, numbers / 2);
}

struct palikudyom_answer plain_delay(struct palikudyom_board board, const uint32_t *at, size_t len)
{
    uint32_t room[2 * MOST_WINDOWS] = {0};
    struct own own = own_windows(board, (struct list){at, len}, room);
    if (is_bad(own.table))
        return refused(own.table);
    uint32_t per_frame = whole_of(board.frame, own.windows);
    return two(PALIKUDYOM_DELAY, measured_alone(board.frame, own.windows, per_frame).late, per_frame);
}

/* The critical partition as it was before request 6: the least supply of every length is asked for */

/* marks the ticks of a frame at which the least supply rises */
static void mark_rises(uint32_t frame, struct list windows, uint8_t *marks)
{
    uint32_t least = 0;
    for (uint32_t k = 0; k < frame; k++) {
        struct least next = least_at_ends(frame, windows, k + 1);
        marks[k] = least < next.supply ? 1 : 0;
        least = next.supply;
    }
}

static bool is_marked(uint32_t frame, const uint8_t *marks, uint32_t k)
{
    if (frame <= k)
        return false;
    return marks[k] == 1;
}

static uint32_t count_marked(uint32_t frame, const uint8_t *marks)
{
    uint32_t n = 0;
    bool before = false;
    for (uint32_t k = 0; k < frame + 1; k++) {
        bool here = is_marked(frame, marks, k);
        if (here != before)
            n++;
        before = here;
    }
    return n;
}

static void write_marked(uint32_t frame, const uint8_t *marks, uint32_t *out)
{
    size_t at = 0;
    bool before = false;
    for (uint32_t k = 0; k < frame + 1; k++) {
        bool here = is_marked(frame, marks, k);
        if (here != before)
            out[at++] = k;
        before = here;
    }
}

/* the marks are cleared before they are set, as those of the proved code were */
struct palikudyom_answer plain_critical_every_length(struct palikudyom_board board, const uint32_t *at, size_t len, uint32_t *out, size_t out_len)
{
    uint32_t frame = board.frame;
    uint32_t room[2 * MOST_WINDOWS] = {0};
    struct own own = own_windows(board, (struct list){at, len}, room);
    if (is_bad(own.table))
        return refused(own.table);
    uint8_t marks[LONGEST_FRAME] = {0};
    mark_rises(frame, own.windows, marks);
    uint64_t numbers = count_marked(frame, marks);
    if (out_len < numbers)
        return refused(bad(8, numbers));
    write_marked(frame, marks, out);
    return one(PALIKUDYOM_AMOUNT, numbers / 2);
}

/* The outage: gaps' outage.rt */

static uint32_t outage_of(uint32_t frame, struct list windows)
{
    uint32_t most = 0;
    for (size_t i = 1; i < windows.len / 2; i++)
        most = larger(most, windows.at[2 * i] - windows.at[2 * i - 1]);
    return larger(most, frame - windows.at[windows.len - 1] + windows.at[0]);
}

struct palikudyom_answer plain_outage(struct palikudyom_board board, const uint32_t *at, size_t len)
{
    uint32_t room[2 * MOST_WINDOWS] = {0};
    struct own own = own_windows(board, (struct list){at, len}, room);
    if (is_bad(own.table))
        return refused(own.table);
    return one(PALIKUDYOM_AMOUNT, outage_of(board.frame, own.windows));
}

/* Summaries: summary.rt */

static struct palikudyom_answer make_on(uint32_t frame, struct list windows, uint32_t *out, size_t out_len)
{
    uint32_t whole = whole_of(frame, windows);
    struct measure measure = measured_alone(frame, windows, whole);
    uint64_t needed = (uint64_t)measure.numbers + 3;
    if (out_len < needed)
        return refused(bad(8, needed));
    out[0] = whole;
    out[1] = measure.late;
    out[2] = measure.numbers / 2;
    write_edges(frame, windows, 3, out);
    return one(PALIKUDYOM_AMOUNT, needed);
}

/* of pairs, as one owner has them */
static struct palikudyom_answer make_in(uint32_t frame, struct list windows, uint32_t *out, size_t out_len)
{
    struct checked table = check_table(frame, windows);
    if (is_bad(table))
        return refused(table);
    return make_on(frame, windows, out, out_len);
}

struct palikudyom_answer plain_make_summary(struct palikudyom_board board, const uint32_t *at, size_t len, uint32_t *out, size_t out_len)
{
    uint32_t room[2 * MOST_WINDOWS] = {0};
    struct own own = own_windows(board, (struct list){at, len}, room);
    if (is_bad(own.table))
        return refused(own.table);
    return make_on(board.frame, own.windows, out, out_len);
}

/* whether memory begins with what a making would write, number by number */
static bool belongs(uint32_t frame, struct list windows, struct list summary)
{
    uint32_t whole = whole_of(frame, windows);
    struct measure measure = measured(frame, windows, whole, summary, 3);
    return has_at(summary, 0, whole) && has_at(summary, 1, measure.late) && has_at(summary, 2, measure.numbers / 2) && measure.same;
}

static struct checked check_belongs(uint32_t frame, struct list windows, struct list summary)
{
    return belongs(frame, windows, summary) ? FINE : bad(14, 0);
}

/* of pairs, as one owner has them */
static struct checked check_summary(uint32_t frame, struct list windows, struct list summary)
{
    struct checked table = check_table(frame, windows);
    if (is_bad(table))
        return table;
    return check_belongs(frame, windows, summary);
}

/* What a summary tells: summaries' least.rt */

/* the ticks of a window before tick r */
static uint32_t part(uint32_t start, uint32_t end, uint32_t r)
{
    uint32_t last = smaller(r, end);
    return last <= start ? 0 : last - start;
}

/* of windows; none is looked at from the first one on that starts there or later */
static uint64_t ticks_before(struct list windows, uint32_t r)
{
    size_t count = windows.len / 2;
    uint64_t ticks = 0;
    for (size_t i = 0; i < count; i++) {
        if (r <= start_of(windows, i))
            return ticks;
        ticks += part(start_of(windows, i), end_of(windows, i), r);
    }
    return ticks;
}

/* the critical windows: as many as the third number tells, or up to where the memory ends */
static uint64_t ticks_in(struct list summary, uint32_t r)
{
    if (summary.len < 3)
        return 0;
    size_t end = 3 + 2 * (size_t)summary.at[2];
    if (summary.len < end)
        end = summary.len;
    return ticks_before((struct list){summary.at + 3, end - 3}, r);
}

/* whatever the numbers of the summary are */
static struct palikudyom_answer least_from(uint32_t frame, struct list summary, uint32_t length)
{
    struct checked c = or_else(check_frame(frame), check_length(length));
    if (is_bad(c))
        return refused(c);
    uint64_t whole = summary.len == 0 ? 0 : summary.at[0];
    return one(PALIKUDYOM_AMOUNT, length / frame * whole + ticks_in(summary, length % frame));
}

struct palikudyom_answer plain_least_supply_from(struct palikudyom_board board, const uint32_t *at, size_t len, const uint32_t *summary_at,
                                                 size_t summary_len, uint32_t length)
{
    struct list summary = {summary_at, summary_len};
    uint32_t room[2 * MOST_WINDOWS] = {0};
    struct own own = own_windows(board, (struct list){at, len}, room);
    if (is_bad(own.table))
        return refused(own.table);
    struct checked held = check_belongs(board.frame, own.windows, summary);
    if (is_bad(held))
        return refused(held);
    return least_from(board.frame, summary, length);
}

/* Edits: edit.rt, splice.rt */

/* copies numbers into out, from an index on */
static void copy(struct list numbers, size_t at, uint32_t *out)
{
    for (size_t i = 0; i < numbers.len; i++)
        out[at + i] = numbers.at[i];
}

/* of the window at an index: so many go, and the numbers `come` come in their place */
struct edit {
    uint32_t index;
    size_t gone;
    size_t come;
    uint32_t numbers[3];
    bool keeps_owner; /* that of the window that goes */
};

static struct checked check_index(const struct edit *edit, size_t count)
{
    return count < edit->index + edit->gone ? bad(7, 0) : FINE;
}

/* the list that an edit leaves, at the front of out: how many numbers it has */
static size_t edited_into(struct list list, const struct edit *edit, uint32_t *out)
{
    size_t from = 3 * (size_t)edit->index;
    size_t rest = from + 3 * edit->gone;
    uint32_t come[3] = {edit->numbers[0], edit->numbers[1], edit->keeps_owner ? list.at[from + 2] : edit->numbers[2]};
    copy((struct list){list.at, from}, 0, out);
    copy((struct list){come, edit->come}, from, out);
    copy((struct list){list.at + rest, list.len - rest}, from + edit->come, out);
    return list.len - 3 * edit->gone + edit->come;
}

/* what is refused before the new list is looked at */
static struct checked check_ready(struct palikudyom_board board, struct list list, struct list summary, const struct edit *edit)
{
    uint32_t room[2 * MOST_WINDOWS] = {0};
    struct own own = own_windows(board, list, room);
    if (is_bad(own.table))
        return own.table;
    struct checked held = check_summary(board.frame, own.windows, summary);
    struct checked index = check_index(edit, list.len / 3);
    return or_else(held, index);
}

/* the new list and its summary, where the list is a table and both have room; a refusal writes nothing */
static struct palikudyom_answer store(struct palikudyom_board board, struct list new, uint32_t *windows, size_t windows_len, uint32_t *summary,
                                      size_t summary_len)
{
    uint32_t room[2 * MOST_WINDOWS] = {0};
    struct own own = own_windows(board, new, room);
    if (is_bad(own.table))
        return refused(own.table);
    if (windows_len < new.len)
        return refused(bad(8, new.len));
    struct palikudyom_answer made = make_in(board.frame, own.windows, summary, summary_len);
    if (made.code == PALIKUDYOM_REFUSED)
        return made;
    copy(new, 0, windows);
    return two(PALIKUDYOM_EDITED, new.len / 3, made.a);
}

static struct palikudyom_answer edit_table(struct palikudyom_board board, size_t count, uint32_t *windows, size_t windows_len, uint32_t *summary,
                                           size_t summary_len, const struct edit *edit)
{
    if (windows_len / 3 < count)
        return refused(bad(1, 0));
    struct list list = {windows, 3 * count};
    struct checked ready = check_ready(board, list, (struct list){summary, summary_len}, edit);
    if (is_bad(ready))
        return refused(ready);
    uint32_t new[3 * (MOST_WINDOWS + 1)] = {0};
    size_t numbers = edited_into(list, edit, new);
    return store(board, (struct list){new, numbers}, windows, windows_len, summary, summary_len);
}

struct palikudyom_answer plain_move_window(struct palikudyom_board board, uint32_t count, uint32_t *windows, size_t windows_len, uint32_t *summary,
                                           size_t summary_len, uint32_t index, uint32_t start, uint32_t end)
{
    struct edit edit = {index, 1, 3, {start, end, 0}, true};
    return edit_table(board, count, windows, windows_len, summary, summary_len, &edit);
}

struct palikudyom_answer plain_add_window(struct palikudyom_board board, uint32_t count, uint32_t *windows, size_t windows_len, uint32_t *summary,
                                          size_t summary_len, uint32_t index, uint32_t start, uint32_t end, uint32_t owner)
{
    struct edit edit = {index, 0, 3, {start, end, owner}, false};
    return edit_table(board, count, windows, windows_len, summary, summary_len, &edit);
}

struct palikudyom_answer plain_remove_window(struct palikudyom_board board, uint32_t count, uint32_t *windows, size_t windows_len, uint32_t *summary,
                                             size_t summary_len, uint32_t index)
{
    struct edit edit = {index, 1, 0, {0, 0, 0}, false};
    return edit_table(board, count, windows, windows_len, summary, summary_len, &edit);
}

/* The checker's least supply: least.rt. It is asked of the owner's windows, which are gathered once and checked at each ask. */

static uint32_t least_asked(uint32_t frame, struct list windows, uint32_t length)
{
    struct palikudyom_answer least = least_in(frame, windows, length);
    return least.code == PALIKUDYOM_AMOUNT ? least.a : 0;
}

/* The margin: demand.rt */

static uint64_t demand_of_task(struct list tasks, size_t i, uint32_t length)
{
    if (length < deadline_of(tasks, i))
        return 0;
    uint64_t jobs = (uint64_t)((length - deadline_of(tasks, i)) / period_of(tasks, i)) + 1;
    return jobs * work_of(tasks, i);
}

static uint64_t demand_of(struct list tasks, uint32_t length)
{
    size_t count = tasks.len / 3;
    uint64_t sum = 0;
    for (size_t i = 0; i < count; i++)
        sum += demand_of_task(tasks, i, length);
    return sum;
}

struct palikudyom_answer plain_margin(struct palikudyom_board board, const uint32_t *at, size_t len, const uint32_t *tasks_at, size_t tasks_len,
                                      uint32_t length)
{
    struct list tasks = {tasks_at, tasks_len};
    uint32_t room[2 * MOST_WINDOWS] = {0};
    struct own own = own_windows(board, (struct list){at, len}, room);
    if (is_bad(own.table))
        return refused(own.table);
    struct checked c = or_else(check_tasks(tasks), check_length(length));
    if (is_bad(c))
        return refused(c);
    uint64_t supply = least_asked(board.frame, own.windows, length);
    uint64_t demand = demand_of(tasks, length);
    return supply < demand ? one(PALIKUDYOM_BELOW, demand - supply) : one(PALIKUDYOM_MARGIN, supply - demand);
}

/* Margins of many lengths from a summary: margins.rt */

static struct checked check_lengths(struct list lengths)
{
    for (size_t i = 0; i < lengths.len; i++)
        if (LONGEST_LENGTH < lengths.at[i])
            return bad(7, 0);
    return FINE;
}

static struct checked check_room(size_t needed, size_t room)
{
    return room < needed ? bad(8, needed) : FINE;
}

static int64_t margin_from(uint32_t frame, struct list summary, struct list tasks, uint32_t length)
{
    struct palikudyom_answer least = least_from(frame, summary, length);
    if (least.code == PALIKUDYOM_REFUSED)
        return 0;
    return (int64_t)least.a - (int64_t)demand_of(tasks, length);
}

struct palikudyom_answer plain_margins(struct palikudyom_board board, const uint32_t *at, size_t len, const uint32_t *summary_at, size_t summary_len,
                                       const uint32_t *tasks_at, size_t tasks_len, const uint32_t *lengths_at, size_t lengths_len, int64_t *out,
                                       size_t out_len)
{
    struct list summary = {summary_at, summary_len};
    struct list tasks = {tasks_at, tasks_len};
    struct list lengths = {lengths_at, lengths_len};
    uint32_t room[2 * MOST_WINDOWS] = {0};
    struct own own = own_windows(board, (struct list){at, len}, room);
    if (is_bad(own.table))
        return refused(own.table);
    struct checked group = check_tasks(tasks);
    struct checked held = check_summary(board.frame, own.windows, summary);
    struct checked asked = check_lengths(lengths);
    struct checked fits = check_room(lengths.len, out_len);
    struct checked c = or_else(group, or_else(held, or_else(asked, fits)));
    if (is_bad(c))
        return refused(c);
    for (size_t i = 0; i < lengths.len; i++)
        out[i] = margin_from(board.frame, summary, tasks, lengths.at[i]);
    return one(PALIKUDYOM_AMOUNT, lengths.len);
}

/* The verdict: cycle.rt */

static uint64_t gcd(uint64_t a, uint64_t b)
{
    return b == 0 ? a : gcd(b, a % b);
}

/* the cycle, or 0 as soon as it is over its limit */
static uint32_t cycle_of(uint32_t frame, struct list tasks)
{
    size_t count = tasks.len / 3;
    uint64_t h = frame;
    for (size_t i = 0; i < count; i++) {
        uint64_t period = period_of(tasks, i);
        h = h / gcd(h, period) * period;
        if (LONGEST_CYCLE < h)
            return 0;
    }
    return h;
}

/* The verdict: rise.rt */

/* what the demand rises by at a length, and the next length at which it rises */
struct rise {
    uint64_t by;
    uint32_t next;
};

/* the first deadline of each task */
static void first_due(struct list tasks, uint32_t *due)
{
    size_t count = tasks.len / 3;
    for (size_t i = 0; i < count; i++)
        due[i] = deadline_of(tasks, i);
}

/* where a job of task i is due at a length: its deadline moves on by a period; the work that is due */
static uint64_t reach(struct list tasks, uint32_t *due, size_t i, uint32_t length)
{
    if (due[i] != length)
        return 0;
    due[i] = length + period_of(tasks, i);
    return work_of(tasks, i);
}

/* on to a length: the deadlines that are reached move on */
static struct rise rise_at(struct list tasks, uint32_t *due, uint32_t length)
{
    size_t count = tasks.len / 3;
    struct rise rise = {0, NEVER};
    for (size_t i = 0; i < count; i++) {
        rise.by += reach(tasks, due, i, length);
        rise.next = smaller(rise.next, due[i]);
    }
    return rise;
}

/* The verdict: stretch.rt */

/* the cursors of the first tick and of the one after the last, and the supplied ticks */
struct stretch {
    struct cursor from;
    struct cursor to;
    uint32_t supply;
};

static uint32_t tick_at(struct list windows, const struct cursor *at)
{
    return is_on(windows, at) ? 1 : 0;
}

static struct stretch first_ticks(uint32_t frame, struct list windows, uint32_t length)
{
    struct stretch stretch = {{0, 0}, {0, 0}, 0};
    for (uint32_t i = 0; i < length; i++) {
        stretch.supply += tick_at(windows, &stretch.to);
        next_tick(frame, windows, &stretch.to);
    }
    return stretch;
}

/* one tick comes and one goes */
static void slide(uint32_t frame, struct list windows, struct stretch *stretch)
{
    stretch->supply += tick_at(windows, &stretch->to);
    stretch->supply -= tick_at(windows, &stretch->from);
    next_tick(frame, windows, &stretch->from);
    next_tick(frame, windows, &stretch->to);
}

/* The verdict: verdict.rt */

/* `known` where that carries the demand too, else the least supply */
static uint32_t carried(uint32_t frame, struct list windows, uint32_t length, uint32_t known, uint64_t demand)
{
    if (demand <= known)
        return known;
    return least_asked(frame, windows, length);
}

/* whole frames give every start as much, so the starts are compared on the rest of the length */
static struct palikudyom_answer search(uint32_t frame, struct list windows, struct list tasks, uint32_t cycle)
{
    uint32_t due[MOST_TASKS] = {0};
    first_due(tasks, due);
    uint64_t demand = 0;
    uint32_t supply = 0;
    uint32_t length = rise_at(tasks, due, 0).next;
    while (length <= cycle) {
        struct rise rise = rise_at(tasks, due, length);
        demand += rise.by;
        supply = carried(frame, windows, length, supply, demand);
        if (supply < demand) {
            uint32_t rest = length % frame;
            uint32_t least = least_asked(frame, windows, rest);
            struct stretch stretch = first_ticks(frame, windows, rest);
            for (uint32_t start = 0; start < frame; start++) {
                if (stretch.supply == least)
                    return (struct palikudyom_answer){PALIKUDYOM_MISS, length, start, demand, supply};
                slide(frame, windows, &stretch);
            }
        }
        length = rise.next;
    }
    return one(PALIKUDYOM_MEETS, cycle);
}

struct palikudyom_answer plain_verdict(struct palikudyom_board board, const uint32_t *at, size_t len, const uint32_t *tasks_at, size_t tasks_len)
{
    struct list tasks = {tasks_at, tasks_len};
    uint32_t room[2 * MOST_WINDOWS] = {0};
    struct own own = own_windows(board, (struct list){at, len}, room);
    if (is_bad(own.table))
        return refused(own.table);
    struct checked group = check_tasks(tasks);
    if (is_bad(group))
        return refused(group);
    uint32_t cycle = cycle_of(board.frame, tasks);
    if (cycle == 0)
        return refused(bad(6, 0));
    return search(board.frame, own.windows, tasks, cycle);
}

/* The response bound: bound.rt */

static uint32_t rounded_up(uint32_t length, uint32_t period)
{
    return (length + (period - 1)) / period;
}

static uint64_t asked_of(struct list tasks, size_t index, uint32_t length)
{
    uint64_t sum = work_of(tasks, index);
    for (size_t j = 0; j < index; j++)
        sum += (uint64_t)rounded_up(length, period_of(tasks, j)) * work_of(tasks, j);
    return sum;
}

/* as many ticks as are missing are needed at least: the lengths between are passed over */
static struct palikudyom_answer response_of(uint32_t frame, struct list windows, struct list tasks, size_t index)
{
    uint64_t deadline = deadline_of(tasks, index);
    uint64_t length = 1;
    while (length <= deadline) {
        uint64_t least = least_asked(frame, windows, length);
        uint64_t asked = asked_of(tasks, index, length);
        if (asked <= least)
            return one(PALIKUDYOM_BOUND, length);
        length += asked - least;
    }
    return one(PALIKUDYOM_NO_BOUND, 0);
}

struct palikudyom_answer plain_bound(struct palikudyom_board board, const uint32_t *at, size_t len, const uint32_t *tasks_at, size_t tasks_len,
                                     uint32_t index)
{
    struct list tasks = {tasks_at, tasks_len};
    uint32_t room[2 * MOST_WINDOWS] = {0};
    struct own own = own_windows(board, (struct list){at, len}, room);
    if (is_bad(own.table))
        return refused(own.table);
    struct checked group = check_tasks(tasks);
    if (is_bad(group))
        return refused(group);
    if (tasks.len / 3 <= index)
        return refused(bad(7, 0));
    return response_of(board.frame, own.windows, tasks, index);
}

/* The tick machine: job.rt, check.rt */

static uint32_t release_of(struct list jobs, size_t j)
{
    return jobs.at[3 * j];
}

static uint32_t task_of(struct list jobs, size_t j)
{
    return jobs.at[3 * j + 1];
}

static uint32_t job_work_of(struct list jobs, size_t j)
{
    return jobs.at[3 * j + 2];
}

static struct checked check_job_list(uint32_t ticks, struct list jobs)
{
    if (jobs.len % 3 != 0 || 3 * MOST_JOBS < jobs.len || LONGEST_RUN < ticks)
        return bad(10, 0);
    return FINE;
}

static bool in_order(struct list jobs, size_t j)
{
    if (j == 0)
        return true;
    if (release_of(jobs, j - 1) < release_of(jobs, j))
        return true;
    if (release_of(jobs, j - 1) != release_of(jobs, j))
        return false;
    return task_of(jobs, j - 1) < task_of(jobs, j);
}

/* `free` has the first tick at which each task may be released again */
static bool job_legal(struct list tasks, uint32_t ticks, struct list jobs, size_t j, const uint32_t *free)
{
    uint32_t task = task_of(jobs, j);
    uint32_t work = job_work_of(jobs, j);
    if (!in_order(jobs, j))
        return false;
    if (tasks.len / 3 <= task)
        return false;
    if (work == 0)
        return false;
    if (work_of(tasks, task) < work)
        return false;
    if (ticks <= release_of(jobs, j))
        return false;
    return free[task] <= release_of(jobs, j);
}

static struct checked check_each_job(struct list tasks, uint32_t ticks, struct list jobs)
{
    uint32_t free[MOST_TASKS] = {0};
    size_t count = jobs.len / 3;
    for (size_t j = 0; j < count; j++) {
        if (!job_legal(tasks, ticks, jobs, j, free))
            return bad(11, j);
        uint32_t task = task_of(jobs, j);
        free[task] = release_of(jobs, j) + period_of(tasks, task);
    }
    return FINE;
}

static struct checked check_jobs(struct list tasks, uint32_t ticks, struct list jobs)
{
    struct checked group = check_tasks(tasks);
    if (is_bad(group))
        return group;
    struct checked list = check_job_list(ticks, jobs);
    if (is_bad(list))
        return list;
    return check_each_job(tasks, ticks, jobs);
}

/* what comes after the table's checks */
static struct checked check_run(struct list tasks, uint32_t ticks, struct list jobs, size_t room)
{
    struct checked list = check_jobs(tasks, ticks, jobs);
    if (is_bad(list))
        return list;
    size_t needed = jobs.len / 3;
    return room < needed ? bad(8, needed) : FINE;
}

/* The tick machine: pending.rt, places.rt, state.rt, late.rt, tick.rt, run.rt */

struct run_state {
    struct cursor at;
    uint32_t pending;
    size_t next;
    uint32_t backlog;
    uint32_t soon;
    uint32_t done;
    uint32_t left[MOST_TASKS];
    uint32_t due[MOST_TASKS];
    uint32_t job[MOST_TASKS];
};

static void put(struct run_state *s, uint32_t task, uint32_t work, uint32_t due, uint32_t job)
{
    s->pending |= UINT32_C(1) << task;
    s->next++;
    s->left[task] = work;
    s->due[task] = due;
    s->job[task] = job;
    if (due < s->soon)
        s->soon = due;
}

static void release(struct list tasks, struct list jobs, uint32_t k, struct run_state *s)
{
    size_t count = jobs.len / 3;
    while (s->next < count) {
        size_t j = s->next;
        if (release_of(jobs, j) != k)
            return;
        uint32_t task = task_of(jobs, j);
        put(s, task, job_work_of(jobs, j), release_of(jobs, j) + deadline_of(tasks, task), j);
    }
}

static void count_backlog(struct run_state *s)
{
    uint32_t n = __builtin_popcount(s->pending);
    if (s->backlog < n)
        s->backlog = n;
}

static uint32_t better(const uint32_t *due, uint32_t best, uint32_t i)
{
    if (best < NO_TASK)
        return due[i] < due[best] ? i : best;
    return i;
}

static uint32_t earliest(const struct run_state *s)
{
    uint32_t best = NO_TASK;
    for (uint32_t rest = s->pending; rest != 0;) {
        uint32_t i = __builtin_ctz(rest);
        best = better(s->due, best, i);
        rest ^= rest & (UINT32_C(1) << i);
    }
    return best;
}

static void step(struct run_state *s, uint32_t task)
{
    s->done = NO_JOB;
    if (NO_TASK <= task)
        return;
    if (s->left[task] == 0)
        return;
    s->left[task]--;
    if (s->left[task] == 0) {
        s->pending ^= s->pending & (UINT32_C(1) << task);
        s->done = s->job[task];
    }
}

static uint32_t lower(uint32_t pending, uint32_t due, uint32_t job, uint32_t instant, uint32_t task, uint32_t best)
{
    if ((pending >> task) % 2 != 1)
        return best;
    if (instant < due)
        return best;
    if (best <= job)
        return best;
    return job;
}

static uint32_t late(const struct run_state *s, uint32_t instant)
{
    uint32_t best = NO_JOB;
    for (uint32_t i = 0; i < MOST_TASKS; i++)
        best = lower(s->pending, s->due[i], s->job[i], instant, i, best);
    return best;
}

static void note(struct list jobs, uint32_t k, uint32_t job, uint32_t *counts)
{
    if (NO_JOB <= job)
        return;
    counts[job] = k - release_of(jobs, job);
}

/* no pending job is due before `soon` */
static uint32_t soonest(const struct run_state *s)
{
    uint32_t task = earliest(s);
    return task < NO_TASK ? s->due[task] : NEVER;
}

/* always inlined, so that what `every_tick` asks for costs no test: whether the late jobs are looked for at every tick, and not only from `soon` on */
__attribute__((always_inline)) static inline struct palikudyom_answer run_legal(bool every_tick, uint32_t frame, struct list windows, struct list tasks,
                                                                               uint32_t ticks, struct list jobs, uint32_t *counts)
{
    size_t count = jobs.len / 3;
    for (size_t i = 0; i < count; i++)
        counts[i] = 0;
    struct run_state s = {.soon = NEVER, .done = NO_JOB};
    uint32_t k = 0;
    while (k < ticks) {
        bool on = is_on(windows, &s.at);
        release(tasks, jobs, k, &s);
        count_backlog(&s);
        step(&s, on ? earliest(&s) : NO_TASK);
        next_tick(frame, windows, &s.at);
        k++;
        note(jobs, k, s.done, counts);
        if (!every_tick && k < s.soon)
            continue;
        uint32_t job = late(&s, k);
        if (job < NO_JOB)
            return (struct palikudyom_answer){PALIKUDYOM_MISSED, k, job, s.backlog, 0};
        if (!every_tick)
            s.soon = soonest(&s);
    }
    return one(PALIKUDYOM_MET, s.backlog);
}

struct palikudyom_answer plain_run(struct palikudyom_board board, const uint32_t *at, size_t len, const uint32_t *tasks_at, size_t tasks_len, uint32_t ticks,
                                   const uint32_t *jobs_at, size_t jobs_len, uint32_t *counts, size_t counts_len)
{
    struct list tasks = {tasks_at, tasks_len};
    struct list jobs = {jobs_at, jobs_len};
    uint32_t room[2 * MOST_WINDOWS] = {0};
    struct own own = own_windows(board, (struct list){at, len}, room);
    if (is_bad(own.table))
        return refused(own.table);
    struct checked c = check_run(tasks, ticks, jobs, counts_len);
    return is_bad(c) ? refused(c) : run_legal(false, board.frame, own.windows, tasks, ticks, jobs, counts);
}

struct palikudyom_answer plain_run_every_tick(struct palikudyom_board board, const uint32_t *at, size_t len, const uint32_t *tasks_at, size_t tasks_len,
                                              uint32_t ticks, const uint32_t *jobs_at, size_t jobs_len, uint32_t *counts, size_t counts_len)
{
    struct list tasks = {tasks_at, tasks_len};
    struct list jobs = {jobs_at, jobs_len};
    uint32_t room[2 * MOST_WINDOWS] = {0};
    struct own own = own_windows(board, (struct list){at, len}, room);
    if (is_bad(own.table))
        return refused(own.table);
    struct checked c = check_run(tasks, ticks, jobs, counts_len);
    return is_bad(c) ? refused(c) : run_legal(true, board.frame, own.windows, tasks, ticks, jobs, counts);
}

/* Plans and traces: number.rt */

/* a lent list of bytes */
struct bytes {
    const uint8_t *at;
    size_t len;
};

/* a number and the offset after it; where it is bad, the offset that refusal 9 names */
struct number {
    bool bad;
    uint32_t value;
    size_t next;
};

static struct number no_number(size_t offset)
{
    return (struct number){true, 0, offset};
}

static struct number formed(size_t at, uint64_t value, size_t size, uint64_t last)
{
    if (LARGEST_NUMBER < value)
        return no_number(at);
    if (size != 1 && last == 0)
        return no_number(at);
    return (struct number){false, value, at + size};
}

static struct number read_number(struct bytes bytes, size_t at)
{
    if (bytes.len <= at)
        return no_number(bytes.len);
    uint64_t value = 0;
    uint64_t weight = 1;
    size_t size = 0;
    while (size < MOST_GROUPS) {
        if (bytes.len <= at + size)
            return no_number(at);
        uint64_t byte = bytes.at[at + size];
        size++;
        if (byte < 128)
            return formed(at, value + byte * weight, size, byte);
        value += (byte - 128) * weight;
        weight *= 128;
    }
    return no_number(at);
}

/* Traces: read.rt */

static struct number read_kind(struct bytes bytes, size_t at)
{
    struct number kind = read_number(bytes, at);
    return !kind.bad && 1 < kind.value ? no_number(at) : kind;
}

static struct number read_work(uint32_t kind, struct bytes bytes, size_t at)
{
    return kind == RELEASE ? read_number(bytes, at) : (struct number){false, 0, at};
}

/* a record as it is stamped, and the offset after it; where it is bad, the offset that refusal 9 names */
struct record {
    bool bad;
    uint32_t kind;
    uint32_t task;
    uint32_t work;
    uint32_t stamp;
    size_t next;
};

static struct record no_record(size_t offset)
{
    return (struct record){.bad = true, .next = offset};
}

static struct record read_record(struct bytes bytes, size_t at)
{
    struct number kind = read_kind(bytes, at);
    if (kind.bad)
        return no_record(kind.next);
    struct number task = read_number(bytes, kind.next);
    if (task.bad)
        return no_record(task.next);
    struct number work = read_work(kind.value, bytes, task.next);
    if (work.bad)
        return no_record(work.next);
    struct number stamp = read_number(bytes, work.next);
    if (stamp.bad)
        return no_record(stamp.next);
    return (struct record){false, kind.value, task.value, work.value, stamp.value, stamp.next};
}

/* where a pass stands after a record, and the record at its instant; `bad` with the offset where there is none */
struct reader {
    size_t at;
    bool bad;
    size_t offset;
    uint32_t instant;
    uint32_t stamp;
    uint32_t kind;
    uint32_t task;
    uint32_t work;
};

/* the instant so many ticks later, or the first that is too late for every run */
static uint32_t later(uint32_t instant, uint32_t ticks)
{
    uint64_t sum = (uint64_t)instant + ticks;
    return LONGEST_RUN < sum ? LONGEST_RUN : sum;
}

static struct reader start_of_trace(struct bytes trace)
{
    struct record first = read_record(trace, 0);
    return (struct reader){.stamp = first.bad ? 0 : first.stamp};
}

/* after the next record; at the end of the bytes where it can't be read */
static struct reader passed(struct bytes trace, struct reader r)
{
    struct record record = read_record(trace, r.at);
    if (record.bad)
        return (struct reader){trace.len, true, record.next, r.instant, r.stamp, r.kind, r.task, r.work};
    uint32_t instant = later(r.instant, record.stamp - r.stamp);
    return (struct reader){record.next, false, 0, instant, record.stamp, record.kind, record.task, record.work};
}

static size_t counted(size_t releases, uint32_t kind)
{
    return kind == RELEASE ? releases + 1 : releases;
}

/* The replay's four passes: survey.rt, rebuild.rt, order.rt, ending.rt and compare.rt */

/* the ticks of the run and the number of releases; where it is bad, the offset that refusal 9 names */
struct extent {
    bool bad;
    size_t offset;
    uint32_t ticks;
    size_t releases;
};

static struct extent survey(struct bytes trace)
{
    struct reader r = start_of_trace(trace);
    size_t releases = 0;
    while (r.at < trace.len) {
        r = passed(trace, r);
        releases = counted(releases, r.kind);
    }
    if (r.bad)
        return (struct extent){.bad = true, .offset = r.offset};
    return (struct extent){.ticks = trace.len == 0 ? 0 : r.instant + 1, .releases = releases};
}

static struct checked check_extent(uint32_t ticks, size_t releases)
{
    return LONGEST_RUN < ticks || MOST_JOBS < releases ? bad(10, 0) : FINE;
}

static void rebuild(struct bytes trace, uint32_t *jobs)
{
    struct reader r = start_of_trace(trace);
    size_t j = 0;
    while (r.at < trace.len) {
        r = passed(trace, r);
        if (r.kind == RELEASE) {
            jobs[3 * j] = r.instant;
            jobs[3 * j + 1] = r.task;
            jobs[3 * j + 2] = r.work;
        }
        j = counted(j, r.kind);
    }
}

/* whether b may come right after a */
static bool goes_before(struct reader a, struct reader b)
{
    if (a.instant < b.instant)
        return true;
    if (a.instant != b.instant)
        return false;
    if (b.kind < a.kind)
        return true;
    if (b.kind != a.kind)
        return false;
    return a.task < b.task;
}

/* the first record that is against the order, or release number `illegal`, if one of these comes */
static struct checked first_bad(struct bytes trace, size_t illegal)
{
    struct reader r = start_of_trace(trace);
    size_t j = 0;
    for (size_t i = 0; r.at < trace.len; i++) {
        struct reader previous = r;
        r = passed(trace, r);
        if (i != 0 && !goes_before(previous, r))
            return bad(11, i);
        if (r.kind == RELEASE && j == illegal)
            return bad(11, i);
        j = counted(j, r.kind);
    }
    return FINE;
}

static struct checked check_records(struct list tasks, uint32_t ticks, struct bytes trace, struct list jobs)
{
    struct checked c = check_jobs(tasks, ticks, jobs);
    return first_bad(trace, is_bad(c) ? c.place : jobs.len / 3);
}

/* a completion; or none, where a side has ended */
struct seen {
    bool none;
    uint32_t instant;
    uint32_t task;
};

/* the best job so far, and the first instant that is too late to be before it */
struct best {
    size_t job;
    uint64_t until;
};

static struct best nearer(struct best best, size_t j, uint32_t count, uint64_t finish, uint32_t after)
{
    if (count == 0)
        return best;
    if (finish <= after)
        return best;
    if (best.until <= finish)
        return best;
    return (struct best){j, finish};
}

/* the machine's first completion after one instant and no later than another */
static struct seen completion_after(struct list jobs, const uint32_t *counts, uint32_t after, uint32_t last)
{
    size_t count = jobs.len / 3;
    struct best best = {count, (uint64_t)last + 1};
    for (size_t j = 0; j < count; j++)
        best = nearer(best, j, counts[j], (uint64_t)release_of(jobs, j) + counts[j], after);
    if (count <= best.job)
        return (struct seen){.none = true};
    return (struct seen){false, best.until, task_of(jobs, best.job)};
}

/* the first pair that differs, if one does */
struct compared {
    bool differ;
    struct seen trace;
    struct seen machine;
};

static struct compared compare(struct bytes trace, struct list jobs, const uint32_t *counts, uint32_t last)
{
    struct reader r = start_of_trace(trace);
    uint32_t after = 0;
    while (r.at < trace.len) {
        r = passed(trace, r);
        if (r.kind == RELEASE)
            continue;
        struct seen machine = completion_after(jobs, counts, after, last);
        if (machine.none || r.instant != machine.instant || r.task != machine.task)
            return (struct compared){true, {false, r.instant, r.task}, machine};
        after = r.instant;
    }
    struct seen machine = completion_after(jobs, counts, after, last);
    return (struct compared){!machine.none, {.none = true}, machine};
}

/* The replay: replay.rt. Its room is cleared before it is filled, as that of the proved code. */

static uint32_t lesser(struct seen trace, struct seen machine)
{
    if (trace.none)
        return machine.instant;
    if (machine.none)
        return trace.instant;
    return trace.instant <= machine.instant ? trace.instant : machine.instant;
}

static struct palikudyom_answer by_difference(struct compared c)
{
    if (!c.differ)
        return one(PALIKUDYOM_SAME, 0);
    if (c.trace.none)
        return (struct palikudyom_answer){PALIKUDYOM_TRACE_ENDED, 0, 0, c.machine.instant, c.machine.task};
    if (c.machine.none)
        return two(PALIKUDYOM_MACHINE_ENDED, c.trace.instant, c.trace.task);
    return (struct palikudyom_answer){PALIKUDYOM_DIFFERS, c.trace.instant, c.trace.task, c.machine.instant, c.machine.task};
}

/* a miss up to the last instant, and no later than any difference, is named instead of it */
static struct palikudyom_answer named(struct palikudyom_answer ran, uint32_t last, struct compared c)
{
    if (ran.code == PALIKUDYOM_REFUSED)
        return ran;
    if (ran.code == PALIKUDYOM_MISSED && ran.a <= last && (!c.differ || ran.a <= lesser(c.trace, c.machine)))
        return two(PALIKUDYOM_TRACE_MISSED, ran.a, ran.b);
    return by_difference(c);
}

struct palikudyom_answer plain_replay(struct palikudyom_board board, const uint32_t *at, size_t len, const uint32_t *tasks_at, size_t tasks_len,
                                      const uint8_t *trace_at, size_t trace_len)
{
    struct list tasks = {tasks_at, tasks_len};
    struct bytes trace = {trace_at, trace_len};
    struct extent extent = survey(trace);
    if (extent.bad)
        return refused(bad(9, extent.offset));
    struct checked c = or_else(check_group(board, (struct list){at, len}, tasks), check_extent(extent.ticks, extent.releases));
    if (is_bad(c))
        return refused(c);
    uint32_t numbers[3 * MOST_JOBS] = {0};
    rebuild(trace, numbers);
    struct list jobs = {numbers, 3 * extent.releases};
    c = check_records(tasks, extent.ticks, trace, jobs);
    if (is_bad(c))
        return refused(c);
    uint32_t counts[MOST_JOBS] = {0};
    struct palikudyom_answer ran = plain_run(board, at, len, tasks_at, tasks_len, extent.ticks, jobs.at, jobs.len, counts, MOST_JOBS);
    uint32_t last = extent.ticks == 0 ? 0 : extent.ticks - 1;
    return named(ran, last, compare(trace, jobs, counts, last));
}

/* Plans: read.rt, check.rt */

/* how many numbers were read to a buffer and the offset after them; or the refusal */
struct listed {
    struct checked refusal;
    size_t count;
    size_t next;
};

static struct listed no_list(struct checked refusal)
{
    return (struct listed){refusal, 0, 0};
}

static struct listed read_numbers(struct bytes bytes, size_t at, size_t n, uint32_t *out)
{
    size_t next = at;
    for (size_t i = 0; i < n; i++) {
        struct number number = read_number(bytes, next);
        if (number.bad)
            return no_list(bad(9, number.next));
        out[i] = number.value;
        next = number.next;
    }
    return (struct listed){FINE, n, next};
}

/* a count from `least` to `most`, then `each` numbers for each */
static struct listed read_counted(struct bytes bytes, size_t at, size_t each, size_t least, size_t most, uint64_t refusal, uint32_t *out)
{
    struct number count = read_number(bytes, at);
    if (count.bad)
        return no_list(bad(9, count.next));
    if (count.value < least || most < count.value)
        return no_list(bad(refusal, 0));
    return read_numbers(bytes, count.next, each * count.value, out);
}

/* the pairs as threes of owner 0 */
static void as_owned(struct list pairs, uint32_t *out)
{
    for (size_t i = 0; i < pairs.len / 2; i++) {
        out[3 * i] = start_of(pairs, i);
        out[3 * i + 1] = end_of(pairs, i);
        out[3 * i + 2] = 0;
    }
}

/* a plan with the first `count` settings before its frame */
static struct palikudyom_answer check_with(struct bytes bytes, size_t count)
{
    uint32_t settings[SETTINGS] = {0};
    uint32_t windows[2 * MOST_WINDOWS] = {0};
    uint32_t tasks[3 * MOST_TASKS] = {0};
    struct listed first = read_numbers(bytes, 0, count, settings);
    if (is_bad(first.refusal))
        return refused(first.refusal);
    struct number frame = read_number(bytes, first.next);
    if (frame.bad)
        return refused(bad(9, frame.next));
    struct listed w = read_counted(bytes, frame.next, 2, 1, MOST_WINDOWS, 1, windows);
    if (is_bad(w.refusal))
        return refused(w.refusal);
    struct listed t = read_counted(bytes, w.next, 3, 0, MOST_TASKS, 4, tasks);
    if (is_bad(t.refusal))
        return refused(t.refusal);
    if (t.next < bytes.len)
        return refused(bad(9, t.next));
    uint32_t owned[3 * MOST_WINDOWS] = {0};
    as_owned((struct list){windows, w.count}, owned);
    struct palikudyom_board board = {
        frame.value, 0, 0 < count ? settings[0] : 1, 1 < count ? settings[1] : PALIKUDYOM_WHOLE, 2 < count ? settings[2] : 0,
    };
    return plain_verdict(board, owned, w.count / 2 * 3, tasks, t.count);
}

struct palikudyom_answer plain_plan_with_shortest(const uint8_t *bytes, size_t bytes_len)
{
    return check_with((struct bytes){bytes, bytes_len}, 1);
}

struct palikudyom_answer plain_plan_with_rule(const uint8_t *bytes, size_t bytes_len)
{
    return check_with((struct bytes){bytes, bytes_len}, 3);
}

END_OF_FILE
