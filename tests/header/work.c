/*
 * Case 7, which is read from standard input, with other minimum times: each row has how many numbers
 * giqapsun_work must ask for. Then giqapsun_best and giqapsun_best_by_calendar must refuse one less by 10, and
 * zero as many and no more on 0 and on 11; the example of docs/readers/integrator.md, which lends as many,
 * must find the same. Prints each row that does not hold. Status 1: there is one, or a record that every call
 * refuses is not told its numbers.
 */
#include "giqapsun.h"
#include <stdio.h>
#include <stdlib.h>
#include <string.h>

#include "lent.h"

/* Minimum times, and the numbers that a search of the case is lent. */
static const struct row {
    uint16_t minup, mindown;
    size_t numbers;
} rows[] = {
    {1, 1, 8192},   {8, 1, 8192},   {1, 8, 8192},   {8, 8, 8192},   {9, 1, 32768},   {1, 9, 32768},
    {9, 8, 32768},  {8, 9, 32768},  {9, 9, 32768},  {20, 1, 32768}, {24, 1, 32768},  {1, 24, 32768},
    {24, 24, 32768},
};

#define ROWS (sizeof rows / sizeof *rows)

/* Hours of the case as a day of the calendar. */
#define DAY 24

/* Numbers past those that a search may ask for. */
#define PAST 3

static int64_t work[GIQAPSUN_WORK_MOST + PAST];
static uint16_t outputs[GIQAPSUN_HOURS];
static const uint16_t none[1] = {0};

/* The unit with the minimum times of a row, on-line for long, on a day of so many hours of which the first is
   ordered. */
static struct giqapsun_case day_of(struct giqapsun_case unit, const struct row *row, size_t hours, uint8_t order)
{
    unit.minup = row->minup;
    unit.mindown = row->mindown;
    unit.elapsed = 100;
    unit.hours = hours;
    unit.orders[0] = order;
    return unit;
}

/* The number of a search that is lent so many numbers, each of them 7, by the case's own orders or by windows that
   order the same. */
static uint32_t searched(struct giqapsun_case day, size_t lent, int by_calendar)
{
    static const uint16_t first[] = {2400, 1};
    int off = day.orders[0] == GIQAPSUN_OFF;
    for (size_t i = 0; i < sizeof work / sizeof *work; i++)
        work[i] = 7;
    if (!by_calendar)
        return giqapsun_best(day, work, lent, outputs, GIQAPSUN_HOURS).number;
    return giqapsun_best_by_calendar(day, none, 0, off ? first : none, off ? 2 : 0, 2400, (uint16_t)day.hours, work,
                                     lent, outputs, GIQAPSUN_HOURS)
        .number;
}

/* Whether the first numbers are 0, so many, and the others as they were. */
static int zeroed(size_t count)
{
    for (size_t i = 0; i < sizeof work / sizeof *work; i++)
        if (work[i] != (i < count ? 0 : 7))
            return 0;
    return 1;
}

/* Whether a search of a day gives a number with as many numbers as it asks for, with a few more and with all, and
   is refused with one less and with none. */
static int asks(struct giqapsun_case day, size_t numbers, uint32_t number, int by_calendar)
{
    size_t enough[] = {numbers, numbers + PAST, GIQAPSUN_WORK_MOST + PAST}, few[] = {numbers - 1, 0};
    for (size_t i = 0; i < sizeof enough / sizeof *enough; i++)
        if (searched(day, enough[i], by_calendar) != number || !zeroed(numbers))
            return 0;
    for (size_t i = 0; i < sizeof few / sizeof *few; i++)
        if (searched(day, few[i], by_calendar) != 10 || !zeroed(0))
            return 0;
    return 1;
}

/* Whether the calls hold to the numbers of a row, and the example finds what giqapsun_best does. */
static int holds(struct giqapsun_case unit, const struct row *row)
{
    struct giqapsun_case day = day_of(unit, row, DAY, GIQAPSUN_FREE);
    struct giqapsun_case stopped = day_of(unit, row, DAY, GIQAPSUN_OFF);
    struct giqapsun_plan best = giqapsun_best(day, work, GIQAPSUN_WORK_MOST, outputs, GIQAPSUN_HOURS);
    struct giqapsun_plan plan = lent(day, outputs);
    return giqapsun_work(day) == row->numbers && giqapsun_work(stopped) == row->numbers &&
           plan.number == 0 && plan.profit == best.profit && asks(day, row->numbers, 0, 0) &&
           asks(day, row->numbers, 0, 1) && asks(stopped, row->numbers, 11, 0) &&
           asks(stopped, row->numbers, 11, 1);
}

/* Whether records that every call refuses are told their numbers, by the two minimum times alone. */
static int told(void)
{
    struct giqapsun_case c;
    memset(&c, 0, sizeof c);
    if (giqapsun_work(c) != GIQAPSUN_WORK)
        return 0;
    memset(&c, 0xff, sizeof c);
    if (giqapsun_work(c) != GIQAPSUN_WORK_MOST)
        return 0;
    c.minup = c.mindown = 0;
    if (giqapsun_work(c) != GIQAPSUN_WORK)
        return 0;
    c.mindown = 25;
    return giqapsun_work(c) == GIQAPSUN_WORK_MOST;
}

int main(void)
{
    static uint8_t file[GIQAPSUN_FILE_MOST];
    struct giqapsun_reading reading = giqapsun_read(file, fread(file, 1, sizeof file, stdin));
    int status = told() ? 0 : 1;
    for (size_t i = 0; i < ROWS; i++)
        if (!holds(reading.c, &rows[i])) {
            fprintf(stderr, "work: row %u does not hold\n", (unsigned)i + 1);
            status = 1;
        }
    return status;
}
