/*
 * Giqapsun: the day of one thermal power unit.
 *
 * Ten calls: read a case file, write a case file, check a list of hourly outputs, find the list that
 * earns most, by the case's own hour orders or by those of a calendar, tell the better of two lists, tell how
 * many numbers a search is lent to work in; fill the table of a boiler maker's cost curve, check a list and
 * find the list that earns most by that table in place of F and A. A day here is the hours of one case, up to
 * a week. Structs go by value; a slice is a pointer and then its length in elements, not bytes. The calls
 * allocate nothing, keep nothing from one call to the next, and have no instruction that divides.
 *
 * Units
 *
 *   output    megawatts (MW), whole; p(k) is the output at the end of hour k, p(0) the one before hour 1
 *   hour      1 to T, T at most 168; hour 0 is the one before the day, hours above T come after it
 *   price     mills (thousandths of a dollar) per MWh, from GIQAPSUN_PRICE_LEAST to GIQAPSUN_PRICE_MOST
 *   cost      F mills per MWh, A mills per on-line hour, B per start, C per stop; none is below 0
 *   energy    half-megawatt-hours: that of hour k is n = p(k) + p(k-1), 0 to 800
 *   curve     a half-mills, b half-mills per half-megawatt-hour, c half-mills per half-megawatt-hour squared:
 *             64-bit floats from 0 to GIQAPSUN_COEFFICIENT_MOST; an entry of the table is whole half-mills
 *   profit    half-mills: 2,000 to the dollar, exact, may be negative
 *
 * Case files: giqapsun_read takes three forms. giqapsun_write writes form 3. So a file of form 3 that is read
 * and written again is the same bytes, one of another form the same case.
 *
 *   form  sections                          unit      prices
 *   3     five, the last holds the number   34 bytes  signed 32-bit
 *   2     five, the last holds the number   32 bytes  signed 32-bit; both stages are read as 0
 *   old   four, no number                   32 bytes  16-bit, 0 to 65,535; both stages are read as 0
 *
 * Days back to back: a day may open and close inside a start-up or a shut-down. A start-up stage i means that
 * p(0) is PU(i), so the start stands at hour 1 - i and hour 1 goes on with PU(i + 1). A shut-down stage i means
 * that p(0) is PD(i), so hour 1 goes on with PD(i + 1), or off-line after PD(DD). A list closes in a shut-down
 * exactly when p(T) is PD(i), i from 2 to DD, and hour T lies in no start-up, whose last hour is that of PU(UD).
 * Then there is a stop after the day, at hour T + DD + 1 - i, and the rules at hours 0 to T see it. C belongs
 * to the day that holds the stop, and B to the day that holds the start.
 *
 * Cost curve: the maker gives 64-bit floats of one of three kinds. An hour of n half-megawatt-hours costs
 *
 *   flat      GIQAPSUN_FLAT      a
 *   straight  GIQAPSUN_STRAIGHT  b * n + a
 *   curved    GIQAPSUN_CURVED    (c * n + b) * n + a
 *
 * half-mills, done in that order, each operation rounded once to the nearest float, a tie to the even one, and
 * the last taken to the nearest whole number, a tie to the even one. No product and sum are fused. The table
 * T(0) to T(800) never falls, each entry is within a half of the float that it is taken from, and with whole
 * coefficients it is the formula in whole numbers. By a curve T(n) takes the place of 2 A v(k) + F n in the
 * profit of hour k, and T(n) - T(0) in an off-line hour, that of a stop included. So F and A are tested and
 * otherwise disregarded; the straight curve of a = 2 A and b = F gives what F and A give. Coefficients that the
 * kind does not use are 0. Minus zero counts as zero. The calls by a curve run in the floating-point environment
 * that C starts a program with: to nearest, the least floats not flushed to 0.
 *
 * Refusals: the `number` of an answer. 0 is no refusal. The conditions are tested in the order of this
 * list, and the first that applies is given. giqapsun_read tests 1 to 8, 12 and 13; giqapsun_write 2 to 8,
 * 13 and 10; giqapsun_check and giqapsun_better 2 to 8, 13 and 9; giqapsun_best 2 to 8, 13, 10 and 11;
 * giqapsun_best_by_calendar 14, 15, 2 to 8, 13, 10 and 11; giqapsun_work none; giqapsun_table 16 and 10;
 * giqapsun_check_by_curve 16, 2 to 8, 13, 9 and 10; giqapsun_best_by_curve 16, 2 to 8, 13, 10 and 11.
 *
 *   14  a list of windows not of whole pairs; a window empty, unsorted or overlapping its neighbour; a day
 *       not of 23 to 25 hours; or first hour plus length of a window or of the day above 8,784
 *   15  an hour of the day in both lists of windows
 *   16  a coefficient of the curve that is not a number, negative or above 1,000,000, or an unused one that is
 *       not 0; or a kind that is none of the three
 *   1   file under 16 bytes, or pairs not as laid down
 *   2   a section length, or a count in a record, not as laid down; by calendar, T not the day's number of
 *       hours
 *   12  form number neither 2 nor 3
 *   3   minimum output 0 or above capacity, or capacity above 400
 *   4   RU or RD outside 1 to 400, or a minimum time outside 1 to 24
 *   5   F not from 0 to 1,000,000, or A, B or C not from 0 to 100,000,000
 *   6   PU not strictly rising from 1 or more to the minimum output, or PD not strictly falling from the
 *       minimum output to 1 or more
 *   7   h outside 1 to 10,000; both stages set; a start-up stage not from 1 to UD - 1, or set with p(0) not
 *       PU(stage) or h not the stage; a shut-down stage not from 2 to DD, or set with p(0) not PD(stage) or h
 *       below UD + stage - 1; with no stage set, p(0) neither 0 nor from minimum to capacity, or p(0) above 0
 *       with h below UD
 *   8   an order byte above 2
 *   13  a price outside -10,000,000 to 10,000,000
 *   9   checked list not of T outputs
 *   10  lent memory short: 8,192 signed 64-bit numbers to work in, 32,768 where a minimum time is above 8,
 *       801 for the table of a curve, T outputs, or the written file's bytes
 *   11  best list asked for, and no list keeps every rule
 *
 * Rules that a list may break: the `rule` of a verdict.
 *
 *   1   lower limit of the output, with the start-up trajectory
 *   2   lower limit of the output, with the shut-down trajectory
 *   3   upper limit of the output, with the start-up trajectory
 *   4   upper limit of the output, with the shut-down trajectory
 *   5   ramp-up limit RU
 *   6   ramp-down limit RD
 *   7   starts and stops against the hours on-line
 *   8   on-line through a start-up
 *   9   on-line through a shut-down
 *   10  a start-up and a shut-down meet in the hour at minimum output or not at all
 *   11  minimum output where a start-up and a shut-down meet, by PU
 *   12  minimum output where a start-up and a shut-down meet, by PD
 *   21  minimum up time
 *   22  minimum down time
 *   23  hour order
 *
 * No verdict names 7 or 12: 7 holds of every list, and 12 says what 11 says. 8 is named only where a list
 * breaks off the start-up that its day opens in and the minimum output is the capacity; what breaks it elsewhere
 * breaks 3 or 10 before. 21 alone may be broken above T, at a stop after the day.
 *
 * Lent memory: every pointer is valid for its length, aligned for its type and not null, also where the
 * length is 0; lent slices do not overlap, but the two lists of giqapsun_better, and the two of windows of
 * giqapsun_best_by_calendar, which are only read, may overlap each other. Each call below says what it
 * changes; nothing else is changed.
 *
 * Calling convention: that of C on x86-64 Linux (System V), in which a record by value is copied to the
 * stack. GIQAPSUN_STACK_READ and the like say how many bytes of stack a call takes, that record included.
 *
 * Example: a case on standard input, its best day on standard output. As in the program best_day, a file
 * of more than 4,096 bytes is refused by 1. It lends GIQAPSUN_WORK_MOST numbers, so no case is refused by 10;
 * best_day lends GIQAPSUN_WORK.
 *
 *     #include <stdio.h>
 *     #include "giqapsun.h"
 *
 *     static int refused(unsigned number)
 *     {
 *         printf("refused %u\n", number);
 *         return 1;
 *     }
 *
 *     int main(void)
 *     {
 *         static uint8_t file[4096 + 1];   // a byte more, to tell a longer file
 *         static int64_t work[GIQAPSUN_WORK_MOST];
 *         uint16_t outputs[GIQAPSUN_HOURS];
 *
 *         size_t length = fread(file, 1, sizeof file, stdin);
 *         if (length == sizeof file)
 *             return refused(1);
 *         struct giqapsun_reading day = giqapsun_read(file, length);
 *         if (day.number != 0)
 *             return refused(day.number);
 *         struct giqapsun_plan plan =
 *             giqapsun_best(day.c, work, GIQAPSUN_WORK_MOST, outputs, GIQAPSUN_HOURS);
 *         if (plan.number != 0)
 *             return refused(plan.number);
 *         printf("profit %lld half-mills\n", (long long)plan.profit);
 *         for (size_t k = 1; k <= day.c.hours; k++)
 *             printf("hour %u: %u MW\n", (unsigned)k, (unsigned)outputs[k - 1]);
 *         return 0;
 *     }
 */
#ifndef GIQAPSUN_H
#define GIQAPSUN_H

#include <stddef.h>
#include <stdint.h>

#ifdef __cplusplus
extern "C" {
#endif

/* Version of the product. */
#define GIQAPSUN_VERSION "4.2.0"

/*
 * Number of the layout: it changes with every change of a struct below, and each function of the library
 * carries it in its name. A program that was compiled for one layout and a library of another do not link.
 * A call that a version adds, and a struct with it, leaves the number: of two versions of one layout the
 * later has every call of the earlier.
 */
#define GIQAPSUN_LAYOUT 4

#define GIQAPSUN_JOINED(name, layout) name##_##layout
#define GIQAPSUN_NAMED(name, layout) GIQAPSUN_JOINED(name, layout)
#define giqapsun_read GIQAPSUN_NAMED(giqapsun_read, GIQAPSUN_LAYOUT)
#define giqapsun_write GIQAPSUN_NAMED(giqapsun_write, GIQAPSUN_LAYOUT)
#define giqapsun_check GIQAPSUN_NAMED(giqapsun_check, GIQAPSUN_LAYOUT)
#define giqapsun_best GIQAPSUN_NAMED(giqapsun_best, GIQAPSUN_LAYOUT)
#define giqapsun_better GIQAPSUN_NAMED(giqapsun_better, GIQAPSUN_LAYOUT)
#define giqapsun_best_by_calendar GIQAPSUN_NAMED(giqapsun_best_by_calendar, GIQAPSUN_LAYOUT)
#define giqapsun_work GIQAPSUN_NAMED(giqapsun_work, GIQAPSUN_LAYOUT)
#define giqapsun_table GIQAPSUN_NAMED(giqapsun_table, GIQAPSUN_LAYOUT)
#define giqapsun_check_by_curve GIQAPSUN_NAMED(giqapsun_check_by_curve, GIQAPSUN_LAYOUT)
#define giqapsun_best_by_curve GIQAPSUN_NAMED(giqapsun_best_by_curve, GIQAPSUN_LAYOUT)

/* Entries that a record has room for: outputs of a trajectory, hours of a day. */
#define GIQAPSUN_STAGES 8
#define GIQAPSUN_HOURS 168

/*
 * Signed 64-bit numbers that giqapsun_best, giqapsun_best_by_calendar and giqapsun_best_by_curve are lent to work
 * in: GIQAPSUN_WORK where both minimum times are at most GIQAPSUN_SHORT_TIME hours, GIQAPSUN_WORK_MOST otherwise,
 * which are enough for every case. giqapsun_work tells which of the two.
 */
#define GIQAPSUN_SHORT_TIME 8
#define GIQAPSUN_WORK 8192
#define GIQAPSUN_WORK_MOST 32768

/* Bytes of stack that each call takes at the most. */
#define GIQAPSUN_STACK_READ 6144
#define GIQAPSUN_STACK_WRITE 4096
#define GIQAPSUN_STACK_CHECK 8192
#define GIQAPSUN_STACK_BEST 65536
#define GIQAPSUN_STACK_BETTER 8192
#define GIQAPSUN_STACK_CALENDAR 65536
#define GIQAPSUN_STACK_WORK 2048
#define GIQAPSUN_STACK_TABLE 2048
#define GIQAPSUN_STACK_CHECK_BY_CURVE 8192
#define GIQAPSUN_STACK_BEST_BY_CURVE 65536

/* Bytes of the longest file: pairs, unit, two trajectories, hours, form number. */
#define GIQAPSUN_FILE_MOST (20 + 34 + 2 * GIQAPSUN_STAGES * 2 + 5 * GIQAPSUN_HOURS + 2)

/* The lowest and the highest price, mills per MWh. */
#define GIQAPSUN_PRICE_LEAST (-10000000)
#define GIQAPSUN_PRICE_MOST 10000000

/* Hours of the longest year, and the fewest and the most of a day of the calendar. */
#define GIQAPSUN_YEAR_HOURS 8784
#define GIQAPSUN_DAY_LEAST 23
#define GIQAPSUN_DAY_MOST 25

/* Signed 64-bit numbers of the table of a curve: costs for 0 to 800 half-megawatt-hours. */
#define GIQAPSUN_COSTS 801

/* Kinds of a curve, by the coefficients that they use: a; a and b; a, b and c. */
#define GIQAPSUN_FLAT 0
#define GIQAPSUN_STRAIGHT 1
#define GIQAPSUN_CURVED 2

/* The largest coefficient of a curve. */
#define GIQAPSUN_COEFFICIENT_MOST 1000000

/* Orders of an hour. */
#define GIQAPSUN_FREE 0
#define GIQAPSUN_ON 1
#define GIQAPSUN_OFF 2

/* A case. Entries past a count are zero after reading and disregarded otherwise. */
struct giqapsun_case {
    uint16_t capacity;  /* MW, at most 400 */
    uint16_t minimum;   /* minimum output, MW */
    uint16_t rampup;    /* RU, MW per hour */
    uint16_t rampdown;  /* RD, MW per hour */
    uint16_t minup;     /* minimum up time, hours, 1 to 24 */
    uint16_t mindown;   /* minimum down time, hours, 1 to 24 */
    int32_t variable;   /* F, mills per MWh */
    int32_t fixed;      /* A, mills per on-line hour */
    int32_t startcost;  /* B, mills per start */
    int32_t stopcost;   /* C, mills per stop */
    uint16_t initial;   /* p(0), MW */
    uint16_t elapsed;   /* h: hours on-line (p(0) above 0) or off-line (p(0) 0) before hour 1 */
    uint8_t upstage;    /* start-up stage: 0, or i below UD where the day opens on PU(i); then h is i */
    uint8_t downstage;  /* shut-down stage: 0, or i from 2 to DD where the day opens on PD(i) */
    uint16_t rise[GIQAPSUN_STAGES]; /* PU, MW */
    uint16_t fall[GIQAPSUN_STAGES]; /* PD, MW */
    int32_t prices[GIQAPSUN_HOURS]; /* prices[k - 1] is that of hour k, mills per MWh, below 0 too */
    uint8_t orders[GIQAPSUN_HOURS]; /* orders[k - 1] is that of hour k: free, on-line or off-line */
    size_t rises; /* UD: entries of rise, 1 to 8 */
    size_t falls; /* DD: entries of fall, 1 to 8 */
    size_t hours; /* T: entries of prices and of orders, 1 to 168 */
};

/* The coefficients of a cost curve; those that its kind does not use are 0. */
struct giqapsun_curve {
    double a; /* half-mills */
    double b; /* half-mills per half-megawatt-hour */
    double c; /* half-mills per half-megawatt-hour squared */
};

/* Number 0 and the case; or a refusal and a record of zeros. */
struct giqapsun_reading {
    uint32_t number;
    struct giqapsun_case c;
};

/* Number 0 and how many bytes were written; or a refusal and 0. */
struct giqapsun_written {
    uint32_t number;
    size_t length;
};

/*
 * Number 0 and rule 0: the list passes and earns `profit`; hour 0. Number 0 and another rule: the list
 * breaks `rule` at `hour`, the earliest hour (0 included) and there the lowest rule; profit 0. Or a refusal,
 * and hour, rule and profit 0. So the rule tells whether a list passes; the hour alone does not. An hour above
 * T, at most T + DD - 1, is that of the stop after the day, which comes before the minimum up time is over.
 */
struct giqapsun_verdict {
    uint32_t number;
    uint32_t hour;
    uint32_t rule;
    int64_t profit;
};

/* Number 0 and what the best list earns; or a refusal and profit 0. */
struct giqapsun_plan {
    uint32_t number;
    int64_t profit;
};

/*
 * Number 0, `which` 1 (the first list) or 2 (the second) and what that list earns; number 0, which 0 and
 * profit 0: neither passes. Or a refusal, and which and profit 0. So `which` alone tells the list to take.
 */
struct giqapsun_choice {
    uint32_t number;
    uint32_t which;
    int64_t profit;
};

/* Reads the n bytes of a case file, of form 3, of form 2 or of the old form. Changes no lent memory. */
struct giqapsun_reading giqapsun_read(const uint8_t *file, size_t n);

/*
 * Writes the file of a case, of form 3, into n lent bytes; GIQAPSUN_FILE_MOST are enough for any case.
 * Changes the first `length` bytes; on a refusal, none.
 */
struct giqapsun_written giqapsun_write(struct giqapsun_case c, uint8_t *bytes, size_t n);

/* Checks a list of n outputs; list[k - 1] is p(k), any 16-bit number. Changes no lent memory. */
struct giqapsun_verdict giqapsun_check(struct giqapsun_case c, const uint16_t *list, size_t n);

/*
 * Finds the list that keeps every rule and earns most; among equal earners the one that is lower at the
 * first hour where two differ. n is at least giqapsun_work(c), m at least T; what the memory holds does not
 * matter. On number 0 the first T outputs are filled, outputs[k - 1] with p(k). On numbers 0 and 11 the
 * first giqapsun_work(c) numbers of work are set to 0, however many are lent. On any other number nothing is
 * changed.
 */
struct giqapsun_plan giqapsun_best(struct giqapsun_case c, int64_t *work, size_t n, uint16_t *outputs,
                                   size_t m);

/*
 * Checks a list of n outputs and one of m, and tells the better: a list that passes beats one that does not;
 * then the higher profit wins; then the lower output at the first hour where they differ; identical lists
 * give the first. 9 is given where either list is not of T outputs. Changes no lent memory, so the better
 * list is there as it was lent; the two may overlap or be the same.
 */
struct giqapsun_choice giqapsun_better(struct giqapsun_case c, const uint16_t *first, size_t n,
                                       const uint16_t *second, size_t m);

/*
 * Finds the list of giqapsun_best for the case with the hour orders of a calendar: they replace those of the
 * case, which are still tested.
 *
 * Hours of the year are counted from 0, its first hour. `on` has a numbers, the on-line windows of the year,
 * and `off` has b, the off-line ones: two numbers for each window, its first hour and its length in hours,
 * sorted by first hour. A window holds its first hour and not the hour after its last, so windows may touch.
 * The day begins at hour `first` of the year and has `hours` hours, GIQAPSUN_DAY_LEAST to GIQAPSUN_DAY_MOST;
 * T is that number. First hour plus length of a window, and of the day, is GIQAPSUN_YEAR_HOURS at most. C
 * passes the low 16 bits of a larger `first` or `hours`.
 *
 * Hour k of the day is hour first + k - 1 of the year: on-line if a window of `on` holds it, off-line if one
 * of `off` does, else free. The two lists may meet outside the day; either may be empty or of any length.
 *
 * n, m and what is changed are as for giqapsun_best; the windows are only read.
 */
struct giqapsun_plan giqapsun_best_by_calendar(struct giqapsun_case c, const uint16_t *on, size_t a,
                                               const uint16_t *off, size_t b, uint16_t first,
                                               uint16_t hours, int64_t *work, size_t n,
                                               uint16_t *outputs, size_t m);

/*
 * How many numbers a search of this case is lent to work in: GIQAPSUN_WORK where both minimum times are at most
 * GIQAPSUN_SHORT_TIME, GIQAPSUN_WORK_MOST otherwise. Nothing else of the record is looked at, so a record that
 * every other call refuses has an answer too. Changes no memory.
 */
size_t giqapsun_work(struct giqapsun_case c);

/*
 * Fills the table of a curve of this kind: table[n] is what an hour of n half-megawatt-hours costs, in half-mills,
 * for n from 0 to GIQAPSUN_COSTS - 1. Gives 0, or the number of a refusal, 16 or 10, and then changes nothing. t is
 * at least GIQAPSUN_COSTS; entries past them are not changed.
 */
uint32_t giqapsun_table(uint16_t kind, struct giqapsun_curve curve, int64_t *table, size_t t);

/*
 * Checks a list of n outputs by a curve of this kind: the verdict of giqapsun_check, with the profit by the table.
 * On number 0, where the list breaks a rule too, the table is filled as by giqapsun_table; on a refusal nothing is
 * changed. A list with more than 800 half-megawatt-hours in an hour breaks a rule.
 */
struct giqapsun_verdict giqapsun_check_by_curve(struct giqapsun_case c, uint16_t kind,
                                                struct giqapsun_curve curve, const uint16_t *list, size_t n,
                                                int64_t *table, size_t t);

/*
 * Finds the list that keeps every rule and earns most by a curve of this kind; among equal earners the one that is
 * lower at the first hour where two differ. t is at least GIQAPSUN_COSTS; n, m and what is changed of work and
 * outputs are as for giqapsun_best. On numbers 0 and 11 the table is filled as by giqapsun_table; on any other
 * number nothing is changed.
 */
struct giqapsun_plan giqapsun_best_by_curve(struct giqapsun_case c, uint16_t kind, struct giqapsun_curve curve,
                                            int64_t *table, size_t t, int64_t *work, size_t n,
                                            uint16_t *outputs, size_t m);

#ifdef __cplusplus
}
#endif

#endif
