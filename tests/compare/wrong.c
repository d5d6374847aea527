/*
 * A library that is wrong in one way, named by the variable WRONG: each call gives the answer of a right library,
 * whose functions are called right_read and so on here, and one of them then does something else. What is wrong about
 * days that open and close inside a sequence stands in stages.c, about weeks and long minimum times in weeks.c, about
 * cost curves in curves.c, about rows of prices in rows.c.
 */
#define _POSIX_C_SOURCE 200809L
#include "wrong.h"

/* Uses up the stack, as deep as `depth` says. */
static uint32_t deeper(volatile uint32_t depth)
{
    volatile uint32_t room[1024];
    room[0] = depth;
    return depth == 0 ? 0 : deeper(depth - 1) + room[0];
}

/* Most mills of a price, either way. */
#define MOST 10000000

/* Changes number i of the head. */
static void set_head(uint8_t *file, size_t i, size_t number)
{
    file[2 * i] = (uint8_t)number;
    file[2 * i + 1] = (uint8_t)(number >> 8);
}

/* Reading of a file that is wrong about its form. */
static struct giqapsun_reading read_wrong_form(const uint8_t *file, size_t n, struct giqapsun_reading right)
{
    if (wrong("pairs") && n >= 16 && n < 20 && head(file, 0) == 20)
        right.number += *(volatile const uint8_t *)(file + 19) == 0;
    if (wrong("form") && right.number == 12)
        return read_as(file, n, 3);
    if (right.number != 2 || head(file, 0) != 20)
        return right;
    if (wrong("twelve") && head(file, 9) == 2 && form_of(file, n) != 2 && form_of(file, n) != 3)
        return refused(12);
    if (wrong("section") && head(file, 9) != 2)
        return refused(12);
    return right;
}

/* Reading of an accepted file that is wrong about the sign of its prices. */
static struct giqapsun_reading read_wrong_sign(const uint8_t *file, struct giqapsun_reading right)
{
    for (size_t k = 0; k < right.c.hours; k++) {
        if (wrong("signed") && head(file, 0) == 16)
            right.c.prices[k] = (int16_t)right.c.prices[k];
        if (wrong("unsigned") && right.c.prices[k] < 0)
            return refused(13);
    }
    return right;
}

/* The bytes of an hours section, with hours of `size` bytes, that are taken where the hours are counted wrong. */
static size_t counted(size_t bytes, size_t size)
{
    if (wrong("partial"))
        return bytes - bytes % size;
    if (bytes % size != 0 || bytes == 0)
        return bytes;
    if (wrong("capped") && bytes > GIQAPSUN_HOURS * size)
        return GIQAPSUN_HOURS * size;
    if (wrong("exact"))
        return bytes - size;
    if (wrong("byte"))
        return bytes / size % 256 * size;
    return bytes;
}

/* Reading of a file whose pairs are in order, as if it had only the hours that are counted. */
static struct giqapsun_reading read_wrong_count(const uint8_t *file, size_t n, struct giqapsun_reading right)
{
    uint8_t copy[GIQAPSUN_FILE_MOST];
    size_t begin = head(file, 6), bytes = head(file, 7), after = n - begin - bytes;
    size_t taken = counted(bytes, head(file, 0) == 20 ? 5 : 3), end = begin + taken;
    if (taken == bytes || end + after > sizeof copy)
        return right;
    memcpy(copy, file, end);
    memcpy(copy + end, file + n - after, after);
    set_head(copy, 7, taken);
    if (head(file, 0) == 20)
        set_head(copy, 8, end);
    return right_read(copy, end + after);
}

struct giqapsun_reading giqapsun_read(const uint8_t *file, size_t n)
{
    struct giqapsun_reading reading = right_read(file, n);
    if (reading.number != 1)
        reading = read_wrong_count(file, n, reading);
    if (wrong("stack") && reading.number == 0)
        reading.number = deeper(UINT32_MAX);
    reading = reading.number == 0 ? read_wrong_sign(file, reading) : read_wrong_form(file, n, reading);
    return read_wrong_weeks(file, read_wrong_stages(file, n, reading));
}

/* Turns a file of form 3 into one of the old form, and gives its length. */
static size_t as_old(struct giqapsun_case c, uint8_t *bytes)
{
    size_t trajectories = 2 * (c.rises + c.falls), hours = 48 + trajectories;
    memmove(bytes + 16, bytes + 20, 32);
    memmove(bytes + 48, bytes + 54, trajectories);
    set_head(bytes, 0, 16);
    set_head(bytes, 1, 32);
    for (size_t i = 2; i < 8; i += 2)
        set_head(bytes, i, head(bytes, i) - 6);
    set_head(bytes, 7, 3 * c.hours);
    for (size_t k = 0; k < c.hours; k++) {
        uint8_t *hour = bytes + hours + 3 * k;
        hour[0] = (uint8_t)c.prices[k];
        hour[1] = (uint8_t)(c.prices[k] >> 8);
        hour[2] = c.orders[k];
    }
    return hours + 3 * c.hours;
}

struct giqapsun_written giqapsun_write(struct giqapsun_case c, uint8_t *bytes, size_t n)
{
    struct giqapsun_written written = right_write(c, bytes, n);
    if (wrong("old") && written.number == 0)
        written.length = as_old(c, bytes);
    if (wrong("abort") && written.number == 0)
        abort();
    if (wrong("exit") && written.number == 0)
        exit(0);
    if (wrong("refusal") && written.number == 3)
        written.number = 4;
    return write_wrong_weeks(&c, write_wrong_stages(bytes, written));
}

struct giqapsun_verdict giqapsun_check(struct giqapsun_case c, const uint16_t *list, size_t n)
{
    struct giqapsun_verdict verdict = right_check(c, list, n);
    if (wrong("loop") && verdict.rule == 6)
        for (volatile int turn = 0;; turn = !turn)
            ;
    if (wrong("rule") && verdict.rule == 6)
        verdict.rule = 5;
    if (wrong("narrow"))
        verdict.profit = (int32_t)verdict.profit;
    return check_wrong_rows(c, list, check_wrong_weeks(c, list, check_wrong_stages(c, list, verdict)));
}

struct giqapsun_plan giqapsun_best(struct giqapsun_case c, int64_t *work, size_t n, uint16_t *outputs, size_t m)
{
    struct giqapsun_plan plan = right_best(c, work, n, outputs, m);
    if (wrong("short") && plan.number == 13 && n < right_work(c))
        plan.number = 10;
    if (wrong("zero") && plan.number == 0) {
        for (size_t k = 0; k < c.hours; k++)
            c.prices[k] = c.prices[k] < 0 ? 0 : c.prices[k];
        plan = right_best(c, work, n, outputs, m);
    }
    if (wrong("profit") && plan.number == 0)
        plan.profit += 1;
    if (wrong("work") && plan.number == 11)
        work[8191] = 1;
    if (wrong("past") && plan.number == 0 && c.hours < GIQAPSUN_HOURS && c.prices[c.hours] > 0)
        plan.profit += 1;
    if (wrong("outside") && plan.number == 0)
        outputs[m] = 0;
    struct lent lent = {work, n, outputs, m};
    return best_wrong_rows(c, lent, best_wrong_weeks(c, lent, best_wrong_stages(c, lent, plan)));
}

/* What a list of T outputs would earn, whatever rules it breaks. */
int64_t wrong_earned(const struct giqapsun_case *c, const uint16_t *list)
{
    int64_t sum = 0;
    for (size_t k = 0; k < c->hours; k++) {
        uint16_t before = k == 0 ? c->initial : list[k - 1];
        sum += ((int64_t)c->prices[k] - c->variable) * (before + list[k]);
        if (list[k] > 0)
            sum -= 2 * (int64_t)c->fixed;
        if (list[k] > 0 && before == 0)
            sum -= 2 * (int64_t)c->startcost;
        if (list[k] == 0 && before > 0)
            sum -= 2 * (int64_t)c->stopcost;
    }
    return sum;
}

/* Whether both lists pass and earn the same. */
static int tied(struct giqapsun_case c, const uint16_t *first, const uint16_t *second)
{
    struct giqapsun_verdict one = right_check(c, first, c.hours), other = right_check(c, second, c.hours);
    return one.rule == 0 && other.rule == 0 && one.profit == other.profit;
}

/* Whether one of the prices from a place to before another is outside the range. */
static int outside(const struct giqapsun_case *c, size_t from, size_t to)
{
    for (size_t k = from; k < to; k++)
        if (c->prices[k] < -MOST || c->prices[k] > MOST)
            return 1;
    return 0;
}

/* The number of a comparison that is wrong about the price of a record, or about a cost; the record is changed where
   it is taken for one within the limits. */
static uint32_t wrong_limit(struct giqapsun_case *c, uint32_t right, size_t n)
{
    if (wrong("after") && right == 0 && outside(c, c->hours, GIQAPSUN_HOURS))
        return 13;
    if (wrong("eight") && right == 8 && outside(c, 0, c->hours))
        return 13;
    if (wrong("nine") && right == 13 && n != c->hours)
        return 9;
    if (wrong("limit") && right == 13)
        for (size_t k = 0; k < c->hours; k++)
            c->prices[k] -= c->prices[k] == MOST + 1;
    if (wrong("cost") && right == 5 && c->variable < 0)
        c->variable = 0;
    return right;
}

struct giqapsun_choice giqapsun_better(struct giqapsun_case c, const uint16_t *first, size_t n, const uint16_t *second,
                                       size_t m)
{
    struct giqapsun_choice choice = right_better(c, first, n, second, m);
    uint32_t number = wrong_limit(&c, choice.number, n);
    if (number != choice.number)
        return (struct giqapsun_choice){number, 0, 0};
    if (number == 5 || number == 13)
        return right_better(c, first, n, second, m);
    if (wrong("length") && choice.number == 9 && n == c.hours)
        return right_better(c, first, n, second, n);
    if (choice.which == 0)
        return choice;
    choice = choose_wrong_stages(c, first, second, choice);
    if (wrong("written") && choice.which == 2)
        ((uint16_t *)second)[0] ^= 1;
    int identical = memcmp(first, second, n * sizeof *first) == 0;
    int64_t one = wrong_earned(&c, first), other = wrong_earned(&c, second);
    if (wrong("identical") && identical)
        choice.which = 2;
    if (wrong("higher") && !identical && tied(c, first, second))
        choice.which = 3 - choice.which;
    if (wrong("earner") && one != other)
        choice = (struct giqapsun_choice){0, one > other ? 1 : 2, one > other ? one : other};
    return choice;
}

/* Two lists of windows, a day, and what is lent to search it. */
struct calendar {
    const uint16_t *on, *off;
    size_t a, b;
    uint16_t first, hours;
    int64_t *work;
    size_t n;
    uint16_t *outputs;
    size_t m;
};

/* What a right library answers. */
static struct giqapsun_plan right_by(struct giqapsun_case c, const struct calendar *by)
{
    return right_best_by_calendar(c, by->on, by->a, by->off, by->b, by->first, by->hours, by->work, by->n, by->outputs,
                                  by->m);
}

/* The hour after the last of a window. */
static size_t window_end(const uint16_t *list, size_t i)
{
    return (size_t)list[2 * i] + list[2 * i + 1];
}

/* Whether a window holds an hour of the year. */
static int holds(const uint16_t *list, size_t n, size_t hour)
{
    size_t more = wrong("last") ? 1 : 0;
    for (size_t i = 0; i < n / 2; i++)
        if (list[2 * i] <= hour && hour < window_end(list, i) + more)
            return 1;
    return 0;
}

/* Whether both lists hold one of so many hours from an hour on. */
static int both_hold(const struct calendar *by, size_t first, size_t hours)
{
    for (size_t hour = first; hour < first + hours; hour++)
        if (holds(by->on, by->a, hour) && holds(by->off, by->b, hour))
            return 1;
    return 0;
}

/* Whether a window of a list ends where the next begins. */
static int touches(const uint16_t *list, size_t n)
{
    for (size_t i = 0; i + 1 < n / 2; i++)
        if (window_end(list, i) == list[2 * i + 2])
            return 1;
    return 0;
}

/* Whether the last window of a list ends past the hours of a common year. */
static int ends_past(const uint16_t *list, size_t n)
{
    return n >= 2 && window_end(list, n / 2 - 1) > 8760;
}

/* The number of a calendar that is wrong about what is refused, or about what comes first. */
static uint32_t wrong_calendar(struct giqapsun_case c, const struct calendar *by, uint32_t right)
{
    if (wrong("early") && (right == 14 || right == 15) && c.hours != by->hours)
        return 2;
    if (wrong("fifteen") && right == 14 && both_hold(by, by->first, by->hours))
        return 15;
    if (right == 14)
        return right;
    if (wrong("touch") && (touches(by->on, by->a) || touches(by->off, by->b)))
        return 14;
    if (wrong("common") && (ends_past(by->on, by->a) || ends_past(by->off, by->b)))
        return 14;
    if (wrong("year") && both_hold(by, 0, GIQAPSUN_YEAR_HOURS))
        return 15;
    if (wrong("late") && right == 2 && c.hours != by->hours) {
        uint32_t number = right_best(c, by->work, 0, by->outputs, 0).number;
        return number == 10 ? 2 : number;
    }
    return right;
}

/* A copy of a list without the windows whose first hour and length have a sum of 65,536 or more; to be freed. */
static uint16_t *without_sums(const uint16_t *list, size_t *n)
{
    uint16_t *copy = malloc((*n + 1) * sizeof *copy);
    size_t kept = 0;
    if (copy == NULL)
        abort();
    for (size_t i = 0; i < *n / 2; i++) {
        if (window_end(list, i) > UINT16_MAX)
            continue;
        memcpy(copy + kept, list + 2 * i, 2 * sizeof *copy);
        kept += 2;
    }
    if (*n % 2 == 1)
        copy[kept++] = list[*n - 1];
    *n = kept;
    return copy;
}

/* What is answered where sums wrap at 65,536, and windows and days with such a sum are taken. */
static struct giqapsun_plan wrapped(struct giqapsun_case c, struct calendar by)
{
    uint16_t *on = without_sums(by.on, &by.a), *off = without_sums(by.off, &by.b);
    by.on = on;
    by.off = off;
    if (by.first + by.hours > UINT16_MAX)
        by.first = 0;
    struct giqapsun_plan plan = right_by(c, &by);
    free(on);
    free(off);
    return plan;
}

/* What is answered where a test is left out: the calendar or the case is changed so that a right library takes it. */
static struct giqapsun_plan untested(struct giqapsun_case c, struct calendar by, struct giqapsun_plan right)
{
    if (wrong("wrap") && right.number == 14)
        return wrapped(c, by);
    if (wrong("odd") && right.number == 14) {
        by.a -= by.a % 2;
        by.b -= by.b % 2;
    }
    if ((wrong("second") && right.number == 14) || (wrong("both") && right.number == 15))
        by.b = 0;
    if (wrong("other") && right.number == 2 && c.hours > 0 && c.hours < by.hours)
        c.hours = by.hours;
    if (wrong("replaced") && right.number == 8)
        memset(c.orders, GIQAPSUN_FREE, sizeof c.orders);
    return right_by(c, &by);
}

/* The best list of a day that is filled in a wrong way, or not at all. */
static struct giqapsun_plan wrong_day(struct giqapsun_case c, const struct calendar *by)
{
    for (size_t k = 0; k < c.hours && !wrong("own"); k++) {
        size_t hour = by->first + k + (size_t)wrong("hour");
        int on = holds(by->on, by->a, hour), off = holds(by->off, by->b, hour);
        if (on || off || !wrong("kept"))
            c.orders[k] = on ? GIQAPSUN_ON : off ? GIQAPSUN_OFF : GIQAPSUN_FREE;
    }
    return right_best(c, by->work, by->n, by->outputs, by->m);
}

struct giqapsun_plan giqapsun_best_by_calendar(struct giqapsun_case c, const uint16_t *on, size_t a,
                                               const uint16_t *off, size_t b, uint16_t first, uint16_t hours,
                                               int64_t *work, size_t n, uint16_t *outputs, size_t m)
{
    struct calendar by = {on, off, a, b, first, hours, work, n, outputs, m};
    struct giqapsun_plan plan = right_by(c, &by);
    uint32_t number = wrong_calendar(c, &by, plan.number);
    if (wrong("unstaged") && (number == 0 || number == 11) && (c.upstage > 0 || c.downstage > 0))
        number = 7;
    if (number != plan.number)
        return (struct giqapsun_plan){number, 0};
    int searched = number == 0 || number == 11;
    if (searched && (wrong("last") || wrong("hour") || wrong("own") || wrong("kept")))
        return wrong_day(c, &by);
    if (number == 10)
        return by_calendar_wrong_weeks(c, (struct lent){work, n, outputs, m}, plan);
    if (!searched)
        return untested(c, by, plan);
    if (wrong("left") && number == 11)
        work[0] = 1;
    if (wrong("window") && a > 0)
        ((uint16_t *)on)[a - 1] ^= 1;
    if (wrong("beyond") && a > 0)
        plan.number += ((volatile const uint16_t *)on)[a] == 0;
    return plan;
}
