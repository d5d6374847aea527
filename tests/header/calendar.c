/*
 * Days of case 7's unit, which is read from standard input, by windows of the year: each row has the hour
 * orders that must be filled, by which giqapsun_best finds the list, or the refusal; the example of
 * docs/readers/integrator.md is one more. Prints each row that does not hold. Status 1: there is one, or
 * windows were changed.
 */
#include "giqapsun.h"
#include "planned.h"
#include <stdio.h>
#include <string.h>

/* Windows by the place at which they begin; lists overlap. */
static const uint16_t numbers[] = {
    2390, 10, 2400, 2, 2402, 3, 2410, 4, 2422, 2, 2424, 1, 8760, 24, 0, 3, 2, 1,
    3, 0, 4, 1, 8784, 1, 8760, 25, 8783, 2, 5, 65535, 65535, 1, 0, 8784,
};
static uint16_t windows[sizeof numbers / sizeof *numbers];

enum {
    BEFORE = 0,    /* up to the day of hour 2,400; the next one touches it */
    FIRST = 2,     /* hours 1 and 2 of that day; the next one touches it */
    NEXT = 4,      /* hours 3 to 5 */
    NOON = 6,      /* hours 11 to 14 */
    LAST = 8,      /* hours 23 and 24; the next one touches it */
    AFTER = 10,    /* hour 25 */
    YEAR_END = 12, /* the year's last 24 hours */
    OVERLAP = 14,  /* two of which the second begins at the last hour of the first */
    EMPTY = 18,    /* one of no hours, and one that follows it */
    PAST = 22,     /* begins after the year */
    LONGER = 24,   /* ends an hour after the year */
    BEYOND = 26,   /* the same, from the year's last hour */
    LONGEST = 28,  /* first hour plus length 4 by 16 bits */
    HIGHEST = 30,  /* first hour plus length 0 by 16 bits */
    YEAR = 32      /* every hour */
};

/* Lists with their lengths, a day, what the case has, and the answer: a number, and the orders filled. */
static const struct row {
    size_t on, a, off, b;
    uint16_t first, hours;
    size_t t;
    uint16_t minimum;
    uint8_t order;
    uint32_t number;
    const char *orders;
} rows[] = {
    /* no window, of the year or of the day */
    {FIRST, 0, FIRST, 0, 2400, 24, 24, 2, 2, 0, "........................"},
    {BEFORE, 2, AFTER, 2, 2400, 24, 24, 2, 2, 0, "........................"},
    /* the ends of the day, for each number of hours */
    {BEFORE, 12, FIRST, 0, 2400, 23, 23, 2, 2, 0, "11111.....1111........1"},
    {BEFORE, 12, FIRST, 0, 2400, 24, 24, 2, 2, 0, "11111.....1111........11"},
    {BEFORE, 12, FIRST, 0, 2400, 25, 25, 2, 2, 0, "11111.....1111........111"},
    {BEFORE, 12, FIRST, 0, 2399, 25, 25, 2, 2, 0, "111111.....1111........11"},
    /* both lists, which touch; each way round */
    {FIRST, 2, NEXT, 4, 2400, 24, 24, 2, 2, 0, "11000.....0000.........."},
    {NOON, 2, NEXT, 2, 2400, 24, 24, 2, 2, 0, "..000.....1111.........."},
    {NEXT, 4, LAST, 4, 2400, 25, 25, 2, 2, 0, "..111.....1111........000"},
    /* the two lists meet outside the day */
    {FIRST, 10, FIRST, 10, 2376, 24, 24, 2, 2, 0, "........................"},
    {YEAR, 2, FIRST, 0, 0, 24, 24, 2, 2, 0, "111111111111111111111111"},
    /* the end of the year */
    {YEAR_END, 2, FIRST, 0, 8760, 24, 24, 2, 2, 0, "111111111111111111111111"},
    {YEAR_END, 2, FIRST, 0, 8759, 25, 25, 2, 2, 0, ".111111111111111111111111"},
    {YEAR_END, 2, FIRST, 0, 8761, 23, 23, 2, 2, 0, "11111111111111111111111"},
    /* the unit cannot be off-line at once */
    {FIRST, 0, FIRST, 2, 2400, 24, 24, 2, 2, 11, "00......................"},
    /* the lists, in either place */
    {FIRST, 3, FIRST, 0, 2400, 24, 24, 2, 2, 14, NULL},
    {FIRST, 0, FIRST, 1, 2400, 24, 24, 2, 2, 14, NULL},
    {OVERLAP, 4, FIRST, 0, 2400, 24, 24, 2, 2, 14, NULL},
    {FIRST, 0, OVERLAP, 4, 2400, 24, 24, 2, 2, 14, NULL},
    {LAST, 8, FIRST, 0, 2400, 24, 24, 2, 2, 14, NULL},
    {EMPTY, 2, FIRST, 0, 2400, 24, 24, 2, 2, 14, NULL},
    {FIRST, 0, EMPTY, 4, 2400, 24, 24, 2, 2, 14, NULL},
    {PAST, 2, FIRST, 0, 2400, 24, 24, 2, 2, 14, NULL},
    {LONGER, 2, FIRST, 0, 2400, 24, 24, 2, 2, 14, NULL},
    {FIRST, 0, BEYOND, 2, 2400, 24, 24, 2, 2, 14, NULL},
    {LONGEST, 2, FIRST, 0, 2400, 24, 24, 2, 2, 14, NULL},
    {FIRST, 0, HIGHEST, 2, 2400, 24, 24, 2, 2, 14, NULL},
    /* the day */
    {FIRST, 0, FIRST, 0, 2400, 22, 22, 2, 2, 14, NULL},
    {FIRST, 0, FIRST, 0, 2400, 26, 26, 2, 2, 14, NULL},
    {FIRST, 0, FIRST, 0, 2400, 0, 24, 2, 2, 14, NULL},
    {FIRST, 0, FIRST, 0, 8761, 24, 24, 2, 2, 14, NULL},
    {FIRST, 0, FIRST, 0, 65535, 24, 24, 2, 2, 14, NULL},
    /* an hour of the day in both lists: all of them, the first, the last */
    {FIRST, 10, FIRST, 10, 2400, 24, 24, 2, 2, 15, NULL},
    {YEAR, 2, FIRST, 2, 2401, 24, 24, 2, 2, 15, NULL},
    {AFTER, 2, YEAR, 2, 2401, 24, 24, 2, 2, 15, NULL},
    /* 14, 15, 2, 3, 8 in this order */
    {FIRST, 3, FIRST, 10, 2400, 24, 25, 0, 3, 14, NULL},
    {FIRST, 2, FIRST, 10, 2400, 24, 25, 0, 3, 15, NULL},
    {FIRST, 2, NOON, 2, 2400, 24, 25, 0, 3, 2, NULL},
    {FIRST, 2, NOON, 2, 2400, 24, 23, 0, 3, 2, NULL},
    {FIRST, 2, NOON, 2, 2400, 24, 0, 0, 3, 2, NULL},
    {FIRST, 2, NOON, 2, 2400, 24, 24, 0, 3, 3, NULL},
    {FIRST, 2, NOON, 2, 2400, 24, 24, 2, 3, 8, NULL},
};

#define ROWS (sizeof rows / sizeof *rows)

static int64_t work[GIQAPSUN_WORK];
static uint16_t outputs[GIQAPSUN_HOURS];

/* A price at which the unit is on-line only where it must be, and one at which it is off-line only then. */
static const int32_t prices[] = {5, 20};

/* The unit on a day of t hours, with this price and this order in every hour. */
static struct giqapsun_case day_of(struct giqapsun_case unit, size_t t, int32_t price, uint8_t order)
{
    unit.hours = t;
    for (size_t k = 0; k < GIQAPSUN_HOURS; k++)
        unit.prices[k] = price;
    memset(unit.orders, order, sizeof unit.orders);
    return unit;
}

/* Whether a plan and its outputs are what giqapsun_best finds by these orders: on-line 1, off-line 0. */
static int planned_by(const char *orders, struct giqapsun_case day, struct giqapsun_plan plan)
{
    static uint16_t wanted[GIQAPSUN_HOURS];
    for (size_t k = 0; k < day.hours; k++)
        day.orders[k] = orders[k] == '1' ? GIQAPSUN_ON : orders[k] == '0' ? GIQAPSUN_OFF : GIQAPSUN_FREE;
    struct giqapsun_plan best = giqapsun_best(day, work, GIQAPSUN_WORK, wanted, GIQAPSUN_HOURS);
    if (plan.number != best.number || plan.profit != best.profit)
        return 0;
    return plan.number != 0 || memcmp(outputs, wanted, day.hours * sizeof *wanted) == 0;
}

/* Whether the call answers as the row says at a price. */
static int holds(struct giqapsun_case unit, int32_t price, const struct row *row)
{
    struct giqapsun_case day = day_of(unit, row->t, price, row->order);
    day.minimum = row->minimum;
    struct giqapsun_plan plan =
        giqapsun_best_by_calendar(day, windows + row->on, row->a, windows + row->off, row->b, row->first,
                                  row->hours, work, GIQAPSUN_WORK, outputs, GIQAPSUN_HOURS);
    if (row->orders == NULL)
        return plan.number == row->number && plan.profit == 0;
    return plan.number == row->number && planned_by(row->orders, day, plan);
}

/* Whether the example's day at a price is the one that its windows fill. */
static int example_holds(struct giqapsun_case unit, int32_t price)
{
    struct giqapsun_case day = day_of(unit, 24, price, GIQAPSUN_OFF);
    struct giqapsun_plan plan = planned(day, work, outputs);
    return plan.number == 0 && planned_by("..........1111......0000", day, plan);
}

/* Status 1 if a row or the example does not hold at a price. */
static int status_at(struct giqapsun_case unit, int32_t price)
{
    int status = 0;
    for (size_t i = 0; i < ROWS; i++)
        if (!holds(unit, price, &rows[i])) {
            fprintf(stderr, "calendar: row %u does not hold at price %d\n", (unsigned)i + 1, (int)price);
            status = 1;
        }
    if (!example_holds(unit, price)) {
        fprintf(stderr, "calendar: the example does not hold at price %d\n", (int)price);
        status = 1;
    }
    return status;
}

int main(void)
{
    static uint8_t file[GIQAPSUN_FILE_MOST];
    struct giqapsun_reading reading = giqapsun_read(file, fread(file, 1, sizeof file, stdin));
    memcpy(windows, numbers, sizeof numbers);
    int status = status_at(reading.c, prices[0]) | status_at(reading.c, prices[1]);
    return memcmp(windows, numbers, sizeof numbers) != 0 ? 1 : status;
}
