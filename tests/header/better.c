/*
 * Pairs of lists of case 7, which is read from standard input: each row has what giqapsun_better must answer,
 * and the example of docs/readers/integrator.md must hand that list back as it was lent. Prints each row that
 * does not hold. Status 1: there is one, or lent memory was changed.
 */
#include "giqapsun.h"
#include "offered.h"
#include <stdio.h>
#include <string.h>

/* Lists of three hours by the place at which they begin; they overlap. */
static const uint16_t outputs[] = {9, 3, 3, 3, 2, 2, 2, 1, 0, 0, 0, 2, 1, 0, 2, 3, 3};
static uint16_t lent[sizeof outputs / sizeof *outputs];

enum {
    OVER = 0,   /* 9 3 3, above the capacity */
    HIGH = 1,   /* 3 3 3 earns 18 * -5 - 6 = -96 */
    LATER = 2,  /* 3 3 2 is lower than HIGH at hour 3 */
    FALLS = 3,  /* 3 2 2 */
    LOW = 4,    /* 2 2 2 earns 13 * -5 - 6 = -71 */
    BEST = 6,   /* 2 1 0 earns 9 * -5 - 4 - 4 = -53 */
    STOP = 8,   /* 0 0 0 breaks a rule and would earn 3 * -5 - 4 = -19 */
    AGAIN = 11, /* 2 1 0 */
    RISES = 14  /* 2 3 3 is lower than FALLS at hour 1, and higher later */
};

/* Two lists with their lengths, at a price and a ramp-up limit, and the answer. */
static const struct row {
    size_t first, n, second, m;
    int32_t price;
    uint16_t rampup;
    uint32_t number, which;
    int64_t profit;
} rows[] = {
    /* a list that passes beats one that does not */
    {HIGH, 3, STOP, 3, 5, 1, 0, 1, -96},
    {STOP, 3, HIGH, 3, 5, 1, 0, 2, -96},
    /* the higher profit */
    {BEST, 3, LOW, 3, 5, 1, 0, 1, -53},
    {LOW, 3, BEST, 3, 5, 1, 0, 2, -53},
    {LOW, 3, HIGH, 3, 5, 1, 0, 1, -71},
    /* at a price of F lists that stay on-line earn alike, and the first hour that differs decides */
    {LOW, 3, HIGH, 3, 10, 1, 0, 1, -6},
    {HIGH, 3, LOW, 3, 10, 1, 0, 2, -6},
    {RISES, 3, FALLS, 3, 10, 1, 0, 1, -6},
    {FALLS, 3, RISES, 3, 10, 1, 0, 2, -6},
    {LATER, 3, HIGH, 3, 10, 1, 0, 1, -6},
    {HIGH, 3, LATER, 3, 10, 1, 0, 2, -6},
    /* below 0 the list that gives less, and in a spike the one that gives more */
    {LOW, 3, HIGH, 3, -5, 1, 0, 1, 13 * -15 - 6},
    {HIGH, 3, LOW, 3, GIQAPSUN_PRICE_LEAST, 1, 0, 2, 13 * -10000010LL - 6},
    {LOW, 3, HIGH, 3, GIQAPSUN_PRICE_MOST, 1, 0, 2, 18 * 9999990LL - 6},
    /* identical lists, and the same one */
    {BEST, 3, AGAIN, 3, 5, 1, 0, 1, -53},
    {AGAIN, 3, BEST, 3, 5, 1, 0, 1, -53},
    {BEST, 3, BEST, 3, 5, 1, 0, 1, -53},
    /* neither */
    {OVER, 3, STOP, 3, 5, 1, 0, 0, 0},
    {STOP, 3, OVER, 3, 5, 1, 0, 0, 0},
    /* either length */
    {BEST, 2, LOW, 3, 5, 1, 9, 0, 0},
    {LOW, 3, BEST, 4, 5, 1, 9, 0, 0},
    {STOP, 3, BEST, 0, 5, 1, 9, 0, 0},
    {BEST, 0, LOW, 0, 5, 1, 9, 0, 0},
    /* the case before the lengths */
    {BEST, 3, LOW, 3, 5, 0, 4, 0, 0},
    {BEST, 2, LOW, 4, 5, 0, 4, 0, 0},
    {BEST, 3, LOW, 3, GIQAPSUN_PRICE_LEAST - 1, 1, 13, 0, 0},
    {BEST, 2, LOW, 4, GIQAPSUN_PRICE_MOST + 1, 1, 13, 0, 0},
    {BEST, 3, LOW, 3, GIQAPSUN_PRICE_MOST + 1, 0, 4, 0, 0},
};

#define ROWS (sizeof rows / sizeof *rows)

/* Whether the call answers as the row says, and the example hands that list back. */
static int holds(struct giqapsun_case day, const struct row *row)
{
    struct list first = {lent + row->first, row->n}, second = {lent + row->second, row->m};
    day.rampup = row->rampup;
    for (size_t k = 0; k < day.hours; k++)
        day.prices[k] = row->price;
    struct giqapsun_choice choice = giqapsun_better(day, first.outputs, row->n, second.outputs, row->m);
    struct list part = offered(day, first, second);
    struct list wanted = row->which == 2 ? second : first;
    if (row->which == 0)
        wanted.length = 0;
    return choice.number == row->number && choice.which == row->which && choice.profit == row->profit &&
           part.outputs == wanted.outputs && part.length == wanted.length;
}

int main(void)
{
    static uint8_t file[GIQAPSUN_FILE_MOST];
    struct giqapsun_reading reading = giqapsun_read(file, fread(file, 1, sizeof file, stdin));
    int status = 0;
    memcpy(lent, outputs, sizeof outputs);
    for (size_t i = 0; i < ROWS; i++)
        if (!holds(reading.c, &rows[i])) {
            fprintf(stderr, "better: row %u does not hold\n", (unsigned)i + 1);
            status = 1;
        }
    return memcmp(lent, outputs, sizeof outputs) != 0 ? 1 : status;
}
