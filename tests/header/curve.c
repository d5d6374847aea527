/*
 * Case 7, which is read from standard input, by cost curves: the example of docs/readers/integrator.md must find the
 * list of each row, the check must give its profit, and the table must be filled on 0, on 11 and for a list that breaks
 * a rule, and be as it was on every other refusal. Prints each row that does not hold. Status 1: there is one.
 */
#include "giqapsun.h"
#include <stdio.h>
#include <stdlib.h>
#include <string.h>

#include "by_curve.h"

/* A curve, the number of the best list by it, its profit and the first output. */
static const struct row {
    uint16_t kind;
    struct giqapsun_curve curve;
    uint32_t number;
    int64_t profit;
    uint16_t first;
} rows[] = {
    {GIQAPSUN_STRAIGHT, {2, 10, 0}, 0, -53, 2},   {GIQAPSUN_CURVED, {2, 10, 0}, 0, -53, 2},
    {GIQAPSUN_STRAIGHT, {2, 10, -0.0}, 0, -53, 2}, {GIQAPSUN_FLAT, {0, 0, 0}, 0, 115, 4},
    {GIQAPSUN_CURVED, {0, 0, 2}, 0, -29, 2},      {GIQAPSUN_FLAT, {-1, 0, 0}, 16, 0, 0},
    {GIQAPSUN_FLAT, {1, 1, 0}, 16, 0, 0},         {GIQAPSUN_STRAIGHT, {1, 1e7, 0}, 16, 0, 0},
    {3, {0, 0, 0}, 16, 0, 0},                     {256, {0, 0, 0}, 16, 0, 0},
};

#define ROWS (sizeof rows / sizeof *rows)

/* Numbers past those of a table, and what memory holds before a call. */
#define PAST 3
#define LENT 7

static int64_t table[GIQAPSUN_COSTS + PAST], costs[GIQAPSUN_COSTS], work[GIQAPSUN_WORK_MOST];
static uint16_t outputs[GIQAPSUN_HOURS];

static void lend(void)
{
    for (size_t i = 0; i < sizeof table / sizeof *table; i++)
        table[i] = LENT;
}

/* Whether the table holds the costs, or nothing of it has changed, and what lies past it is as it was. */
static int holds(int filled)
{
    for (size_t i = 0; i < sizeof table / sizeof *table; i++)
        if (table[i] != (filled && i < GIQAPSUN_COSTS ? costs[i] : LENT))
            return 0;
    return 1;
}

/* The number of a search by a curve with so many numbers for the table. */
static uint32_t searched(struct giqapsun_case day, const struct row *row, size_t lent)
{
    lend();
    return giqapsun_best_by_curve(day, row->kind, row->curve, table, lent, work, GIQAPSUN_WORK_MOST, outputs,
                                  GIQAPSUN_HOURS)
        .number;
}

/* The number of a check by a curve with so many numbers for the table. */
static uint32_t checked(struct giqapsun_case day, const struct row *row, const uint16_t *list, size_t lent)
{
    lend();
    return giqapsun_check_by_curve(day, row->kind, row->curve, list, day.hours, table, lent).number;
}

/* Whether the table is filled where it must be, and only there. */
static int fills(struct giqapsun_case day, const struct row *row)
{
    static const uint16_t broken[] = {65535, 0, 0};
    struct giqapsun_case none = day;
    none.orders[0] = GIQAPSUN_OFF;
    int accepted = row->number == 0;
    uint32_t short_of = accepted ? 10 : row->number;
    return searched(day, row, GIQAPSUN_COSTS + PAST) == row->number && holds(accepted) &&
           searched(none, row, GIQAPSUN_COSTS) == (accepted ? 11u : row->number) && holds(accepted) &&
           searched(none, row, GIQAPSUN_COSTS - 1) == short_of && holds(0) &&
           checked(day, row, broken, GIQAPSUN_COSTS) == row->number && holds(accepted) &&
           checked(day, row, broken, GIQAPSUN_COSTS - 1) == short_of && holds(0);
}

/* Whether the calls and the example hold to a row. */
static int row_holds(struct giqapsun_case day, const struct row *row)
{
    lend();
    uint32_t number = giqapsun_table(row->kind, row->curve, table, GIQAPSUN_COSTS);
    memcpy(costs, table, sizeof costs);
    if (number != row->number || !fills(day, row))
        return 0;
    struct giqapsun_plan plan = by_curve(day, row->kind, row->curve, outputs);
    if (plan.number != row->number || plan.profit != row->profit)
        return 0;
    if (number != 0)
        return 1;
    struct giqapsun_verdict verdict = giqapsun_check_by_curve(day, row->kind, row->curve, outputs, day.hours, table,
                                                              GIQAPSUN_COSTS);
    return outputs[0] == row->first && verdict.number == 0 && verdict.rule == 0 && verdict.profit == row->profit;
}

int main(void)
{
    static uint8_t file[GIQAPSUN_FILE_MOST];
    struct giqapsun_reading reading = giqapsun_read(file, fread(file, 1, sizeof file, stdin));
    int status = 0;
    for (size_t i = 0; i < ROWS; i++)
        if (!row_holds(reading.c, &rows[i])) {
            fprintf(stderr, "curve: row %u does not hold\n", (unsigned)i + 1);
            status = 1;
        }
    return status;
}
