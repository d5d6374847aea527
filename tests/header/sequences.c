/*
 * Days of case 7's unit, which is read from standard input, that open or close inside a start-up or a shut-down:
 * each row has what giqapsun_check must answer, and for a list that passes the opening that the example of
 * docs/readers/integrator.md must give the next day. That day is then written, read and searched. Prints each
 * row that does not hold. Status 1: there is one.
 */
#include "giqapsun.h"
#include "next_day.h"
#include <stdio.h>
#include <string.h>

/* How a day opens. */
struct opening {
    uint16_t initial, elapsed;
    uint8_t upstage, downstage;
};

/* An opening, a minimum up time and a list; the verdict, and what a list that passes leaves. */
static const struct row {
    struct opening opens;
    uint16_t minup;
    size_t hours;
    uint16_t list[4];
    uint32_t number, hour, rule;
    int64_t profit;
    struct opening leaves;
} rows[] = {
    /* closing on PD(2), which is charged no C */
    {{3, 2, 0, 0}, 1, 2, {2, 1}, 0, 0, 0, -8 * 5 - 4, {1, 4, 0, 2}},
    {{2, 2, 0, 0}, 1, 1, {1}, 0, 0, 0, -3 * 5 - 2, {1, 3, 0, 2}},
    /* the same output in a start-up, and its last stage */
    {{0, 2, 0, 0}, 1, 1, {1}, 0, 0, 0, -5 - 2 - 6, {1, 1, 1, 0}},
    {{0, 2, 0, 0}, 1, 2, {1, 2}, 0, 0, 0, -4 * 5 - 4 - 6, {2, 2, 0, 0}},
    /* opening in a start-up, which is charged no B */
    {{1, 1, 1, 0}, 1, 1, {2}, 0, 0, 0, -3 * 5 - 2, {2, 2, 0, 0}},
    {{1, 1, 1, 0}, 1, 1, {1}, 0, 1, 1, 0, {0, 0, 0, 0}},
    {{1, 1, 1, 0}, 1, 1, {0}, 0, 1, 3, 0, {0, 0, 0, 0}},
    /* opening in a shut-down, whose stop is charged C */
    {{1, 3, 0, 2}, 1, 1, {0}, 0, 0, 0, -5 - 4, {0, 1, 0, 0}},
    {{1, 3, 0, 2}, 1, 1, {1}, 0, 0, 2, 0, {0, 0, 0, 0}},
    {{1, 3, 0, 2}, 1, 3, {0, 1, 2}, 0, 0, 0, -(1 + 1 + 3) * 5 - 4 - 4 - 6, {2, 2, 0, 0}},
    /* 21 at the stop after the day, at one within it, and neither */
    {{3, 2, 0, 0}, 5, 2, {2, 1}, 0, 3, 21, 0, {0, 0, 0, 0}},
    {{3, 2, 0, 0}, 5, 3, {2, 1, 0}, 0, 3, 21, 0, {0, 0, 0, 0}},
    {{3, 2, 0, 0}, 4, 2, {2, 1}, 0, 0, 0, -8 * 5 - 4, {1, 4, 0, 2}},
    /* hours in state are counted up to 10,000 */
    {{3, 9999, 0, 0}, 1, 4, {3, 3, 3, 3}, 0, 0, 0, -24 * 5 - 8, {3, 10000, 0, 0}},
    /* 7 */
    {{1, 1, 0, 0}, 1, 1, {2}, 7, 0, 0, 0, {0, 0, 0, 0}},
    {{1, 1, 1, 2}, 1, 1, {2}, 7, 0, 0, 0, {0, 0, 0, 0}},
    {{1, 2, 1, 0}, 1, 1, {2}, 7, 0, 0, 0, {0, 0, 0, 0}},
    {{2, 1, 1, 0}, 1, 1, {2}, 7, 0, 0, 0, {0, 0, 0, 0}},
    {{2, 2, 2, 0}, 1, 1, {2}, 7, 0, 0, 0, {0, 0, 0, 0}},
    {{2, 9, 0, 1}, 1, 1, {1}, 7, 0, 0, 0, {0, 0, 0, 0}},
    {{1, 2, 0, 2}, 1, 1, {0}, 7, 0, 0, 0, {0, 0, 0, 0}},
    {{2, 9, 0, 2}, 1, 1, {0}, 7, 0, 0, 0, {0, 0, 0, 0}},
    {{1, 9, 0, 3}, 1, 1, {0}, 7, 0, 0, 0, {0, 0, 0, 0}},
    {{1, 10001, 0, 2}, 1, 1, {0}, 7, 0, 0, 0, {0, 0, 0, 0}},
};

#define ROWS (sizeof rows / sizeof *rows)

static int64_t work[GIQAPSUN_WORK];
static uint16_t outputs[GIQAPSUN_HOURS];

/* The unit with the opening, the minimum up time and the hours of a row. */
static struct giqapsun_case day_of(struct giqapsun_case unit, const struct row *row)
{
    unit.initial = row->opens.initial;
    unit.elapsed = row->opens.elapsed;
    unit.upstage = row->opens.upstage;
    unit.downstage = row->opens.downstage;
    unit.minup = row->minup;
    unit.hours = row->hours;
    for (size_t k = 0; k < row->hours; k++)
        unit.prices[k] = 5;
    return unit;
}

/* Whether a day opens as it should, is the same after writing and reading, and has a list. */
static int opens(struct giqapsun_case day, const struct opening *opening)
{
    static uint8_t file[GIQAPSUN_FILE_MOST];
    struct giqapsun_written written = giqapsun_write(day, file, sizeof file);
    struct giqapsun_case again = giqapsun_read(file, written.length).c;
    return again.initial == opening->initial && again.elapsed == opening->elapsed &&
           again.upstage == opening->upstage && again.downstage == opening->downstage &&
           giqapsun_best(again, work, GIQAPSUN_WORK, outputs, GIQAPSUN_HOURS).number == 0;
}

/* Whether the call answers as the row says, and the example opens the next day. */
static int holds(struct giqapsun_case unit, const struct row *row)
{
    struct giqapsun_case day = day_of(unit, row);
    struct giqapsun_verdict verdict = giqapsun_check(day, row->list, row->hours);
    if (verdict.number != row->number || verdict.hour != row->hour || verdict.rule != row->rule ||
        verdict.profit != row->profit)
        return 0;
    return row->number != 0 || row->rule != 0 || opens(next_day(day, row->list), &row->leaves);
}

int main(void)
{
    static uint8_t file[GIQAPSUN_FILE_MOST];
    struct giqapsun_reading reading = giqapsun_read(file, fread(file, 1, sizeof file, stdin));
    int status = 0;
    for (size_t i = 0; i < ROWS; i++)
        if (!holds(reading.c, &rows[i])) {
            fprintf(stderr, "sequences: row %u does not hold\n", (unsigned)i + 1);
            status = 1;
        }
    return status;
}
