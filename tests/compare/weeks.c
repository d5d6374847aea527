/*
 * The part of a wrong library that is about weeks and long minimum times: their limits, their hours, and the numbers
 * that a search is lent to work in.
 */
#define _POSIX_C_SOURCE 200809L
#include "wrong.h"

/* Longest minimum times, in hours: with which GIQAPSUN_WORK numbers do, and of any unit; and the hours of two days. */
#define SHORT_TIME 8
#define LONGEST_TIME 24
#define TWO_DAYS 48

/* Memory of its own, to search where what is lent is too short for a right library, or is to be left alone. */
static int64_t room[GIQAPSUN_WORK_MOST];

/* Whether a minimum time is above so many hours. */
static int is_above(const struct giqapsun_case *c, unsigned hours)
{
    return c->minup > hours || c->mindown > hours;
}

/* The numbers that are asked for, if more are needed or not. */
static size_t numbers(int more)
{
    return more ? GIQAPSUN_WORK_MOST : GIQAPSUN_WORK;
}

/* The number that refuses a record, or 10. */
static uint32_t refusal(struct giqapsun_case c)
{
    uint16_t output;
    return right_best(c, room, 0, &output, 0).number;
}

size_t giqapsun_work(struct giqapsun_case c)
{
    if (wrong("fewest") || wrong("most"))
        return numbers(wrong("most"));
    if (wrong("upmost"))
        return numbers(c.minup > SHORT_TIME);
    if (wrong("denied") && refusal(c) != 10)
        return 0;
    return right_work(c);
}

/* How many numbers a search asks for. */
static size_t asked(struct giqapsun_case c)
{
    if (wrong("ninth"))
        return numbers(is_above(&c, SHORT_TIME + 1));
    if (wrong("eighth"))
        return numbers(is_above(&c, SHORT_TIME - 1));
    if (wrong("upward"))
        return numbers(c.minup > SHORT_TIME);
    if (wrong("downward"))
        return numbers(c.mindown > SHORT_TIME);
    return right_work(c);
}

/* The best list in memory of its own, which leaves the lent numbers as they are. */
static struct giqapsun_plan in_room(struct giqapsun_case c, struct lent lent)
{
    return right_best(c, room, GIQAPSUN_WORK_MOST, lent.outputs, lent.m);
}

/* The best list in as many numbers as are lent, which are zeroed up to those that are asked for. */
static struct giqapsun_plan in_fewer(struct giqapsun_case c, struct lent lent)
{
    memset(lent.work, 0, asked(c) * sizeof *lent.work);
    return in_room(c, lent);
}

/* The answer of a search that asks for another number of numbers, or looks for a list before it asks. */
static struct giqapsun_plan best_in_lent(struct giqapsun_case c, struct lent lent, struct giqapsun_plan right)
{
    int enough = lent.m >= c.hours;
    if (enough && lent.n < asked(c) && right.number != 10)
        return (struct giqapsun_plan){10, 0};
    if (enough && lent.n >= asked(c) && right.number == 10)
        return in_fewer(c, lent);
    if (wrong("sooner") && right.number == 10) {
        uint16_t outputs[GIQAPSUN_HOURS];
        lent.outputs = outputs;
        lent.m = GIQAPSUN_HOURS;
        struct giqapsun_plan plan = in_room(c, lent);
        return plan.number == 11 ? plan : right;
    }
    return right;
}

/* Changes the numbers that a search leaves. */
static void left_wrong(const struct giqapsun_case *c, struct lent lent)
{
    size_t end = lent.n < GIQAPSUN_WORK_MOST ? lent.n : GIQAPSUN_WORK_MOST;
    if (wrong("cleared") && !is_above(c, SHORT_TIME))
        memset(lent.work + GIQAPSUN_WORK, 0, (end - GIQAPSUN_WORK) * sizeof *lent.work);
    if (wrong("uncleared") && is_above(c, SHORT_TIME))
        lent.work[GIQAPSUN_WORK] = 1;
}

/* Brings a record that a right library refuses within the limits, where they are taken to be wider; tells whether it
   did. */
static int widened(struct giqapsun_case *c, uint32_t number)
{
    if (wrong("week") && number == 2 && c->hours == GIQAPSUN_HOURS + 1) {
        c->hours = GIQAPSUN_HOURS;
        return 1;
    }
    if (!wrong("longest") || number != 4 || c->minup > LONGEST_TIME + 1 || c->mindown > LONGEST_TIME + 1)
        return 0;
    c->minup = c->minup > LONGEST_TIME ? LONGEST_TIME : c->minup;
    c->mindown = c->mindown > LONGEST_TIME ? LONGEST_TIME : c->mindown;
    return 1;
}

/* Changes a day so that its minimum times are short ones, or so that hours past two days are not as they are; tells
   whether the answer is that of the day so changed. */
static int shortened(struct giqapsun_case *c)
{
    if (wrong("shortup") && c->minup > SHORT_TIME)
        c->minup = SHORT_TIME;
    else if (wrong("shortdown") && c->mindown > SHORT_TIME)
        c->mindown = SHORT_TIME;
    else if (wrong("nibble") && c->minup > 15)
        c->minup = c->minup % 16 == 0 ? 1 : c->minup % 16;
    else if (c->hours <= TWO_DAYS)
        return 0;
    else if (wrong("again"))
        for (size_t k = TWO_DAYS; k < c->hours; k++)
            c->prices[k] = c->prices[k - TWO_DAYS];
    else if (wrong("unordered"))
        memset(c->orders + TWO_DAYS, GIQAPSUN_FREE, c->hours - TWO_DAYS);
    else
        return 0;
    return 1;
}

/* The best list of the first two days, and the last output of it after them. */
static struct giqapsun_plan of_two_days(struct giqapsun_case c, struct lent lent)
{
    size_t hours = c.hours;
    c.hours = TWO_DAYS;
    struct giqapsun_plan plan = in_room(c, lent);
    for (size_t k = TWO_DAYS; k < hours && plan.number == 0; k++)
        lent.outputs[k] = lent.outputs[TWO_DAYS - 1];
    return plan;
}

struct giqapsun_plan best_wrong_weeks(struct giqapsun_case c, struct lent lent, struct giqapsun_plan right)
{
    if (widened(&c, right.number))
        return right_best(c, lent.work, lent.n, lent.outputs, lent.m);
    int searched = right.number == 0 || right.number == 11;
    if (!searched && right.number != 10)
        return right;
    if (searched)
        left_wrong(&c, lent);
    if (searched && wrong("twodays") && c.hours > TWO_DAYS)
        return of_two_days(c, lent);
    struct giqapsun_case other = c;
    if (searched && shortened(&other))
        return in_room(other, lent);
    return best_in_lent(c, lent, right);
}

struct giqapsun_plan by_calendar_wrong_weeks(struct giqapsun_case c, struct lent lent, struct giqapsun_plan right)
{
    if (wrong("yearly") && right.number == 10 && lent.n >= GIQAPSUN_WORK && lent.m >= c.hours)
        return in_room(c, lent);
    return right;
}

struct giqapsun_verdict check_wrong_weeks(struct giqapsun_case c, const uint16_t *list,
                                          struct giqapsun_verdict right)
{
    if (right.number == 0 && wrong("lenient") && is_above(&c, SHORT_TIME)) {
        c.minup = c.minup > SHORT_TIME ? SHORT_TIME : c.minup;
        c.mindown = c.mindown > SHORT_TIME ? SHORT_TIME : c.mindown;
        return right_check(c, list, c.hours);
    }
    if (right.number == 0 && wrong("strict") && (right.rule == 0 || right.rule > 20) && c.minup > SHORT_TIME &&
        c.minup < LONGEST_TIME) {
        c.minup++;
        return right_check(c, list, c.hours);
    }
    if (wrong("hourly") && right.rule > 0 && right.hour > TWO_DAYS)
        right.hour %= TWO_DAYS;
    return right;
}

struct giqapsun_reading read_wrong_weeks(const uint8_t *file, struct giqapsun_reading right)
{
    if (right.number != 0)
        return right;
    if (wrong("olden") && right.c.hours > TWO_DAYS)
        return refused(2);
    if (wrong("oldest") && right.c.hours > TWO_DAYS && head(file, 0) == 16)
        return refused(2);
    if (wrong("barred") && is_above(&right.c, SHORT_TIME))
        return refused(4);
    return right;
}

struct giqapsun_written write_wrong_weeks(const struct giqapsun_case *c, struct giqapsun_written right)
{
    if (wrong("unwilling") && right.number == 0 && c->hours > TWO_DAYS)
        return (struct giqapsun_written){2, 0};
    return right;
}
