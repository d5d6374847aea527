/*
 * The stack that each call takes on the largest case, its record included, beside what giqapsun.h says; the
 * searches also on the largest case with short minimum times. The calls run on a stack of their own that is
 * painted first; what is no longer paint was used. Status 1: a call took more than it may.
 */
#include "giqapsun.h"
#include <pthread.h>
#include <stdio.h>
#include <string.h>

#define STACK_BYTES (1 << 20)
#define PAINT 0xa5

/* Bytes right below the measuring function that are left unpainted, for the call that paints. */
#define MARGIN 512

static unsigned char stack[STACK_BYTES] __attribute__((aligned(64)));

/* The largest case, its first hours as a day of the calendar, and both with short minimum times. */
static struct giqapsun_case largest, longest_day, short_times, short_times_day;
static uint8_t file[GIQAPSUN_FILE_MOST];
static int64_t work[GIQAPSUN_WORK_MOST], table[GIQAPSUN_COSTS];
static uint16_t outputs[GIQAPSUN_HOURS];

/* The year's windows; of that day, from hour 100 of the year, hours 9 and 10 are on-line, hour 25 off-line. */
static const uint16_t on[] = {90, 10, 108, 2}, off[] = {124, 2, 126, 1};

/* A curve that bends, and one whose costs are the largest. */
static const struct giqapsun_curve bent = {200000.5, 25000.25, 10.75}, steepest = {1e6, 1e6, 1e6};

/* Numbers of the answers; all are 0. */
static uint32_t numbers;

static void call_write(void)
{
    numbers |= giqapsun_write(largest, file, sizeof file).number;
}

static void call_read(void)
{
    numbers |= giqapsun_read(file, sizeof file).number;
}

static void call_work(void)
{
    numbers |= giqapsun_work(largest) != GIQAPSUN_WORK_MOST;
}

static void call_best(void)
{
    numbers |= giqapsun_best(largest, work, GIQAPSUN_WORK_MOST, outputs, GIQAPSUN_HOURS).number;
}

static void call_best_by_short_times(void)
{
    numbers |= giqapsun_best(short_times, work, GIQAPSUN_WORK, outputs, GIQAPSUN_HOURS).number;
}

static void call_check(void)
{
    numbers |= giqapsun_check(largest, outputs, GIQAPSUN_HOURS).number;
}

/* The best list beside itself: both are checked, and compared to the last hour. */
static void call_better(void)
{
    numbers |= giqapsun_better(largest, outputs, GIQAPSUN_HOURS, outputs, GIQAPSUN_HOURS).number;
}

static void search_by_calendar(struct giqapsun_case day, size_t lent)
{
    numbers |= giqapsun_best_by_calendar(day, on, sizeof on / sizeof *on, off, sizeof off / sizeof *off, 100,
                                         GIQAPSUN_DAY_MOST, work, lent, outputs, GIQAPSUN_HOURS)
                   .number;
}

static void call_best_by_calendar(void)
{
    search_by_calendar(longest_day, GIQAPSUN_WORK_MOST);
}

static void call_best_by_calendar_by_short_times(void)
{
    search_by_calendar(short_times_day, GIQAPSUN_WORK);
}

static void call_table(void)
{
    numbers |= giqapsun_table(GIQAPSUN_CURVED, bent, table, GIQAPSUN_COSTS);
}

/* By each kind of curve, the straight and the flat one without the coefficients that they do not use. */
static void search_by_curve(struct giqapsun_case day, size_t lent)
{
    struct giqapsun_curve straight = {bent.a, bent.b, 0}, flat = {bent.a, 0, 0};
    numbers |= giqapsun_best_by_curve(day, GIQAPSUN_FLAT, flat, table, GIQAPSUN_COSTS, work, lent, outputs,
                                      GIQAPSUN_HOURS)
                   .number;
    numbers |= giqapsun_best_by_curve(day, GIQAPSUN_STRAIGHT, straight, table, GIQAPSUN_COSTS, work, lent, outputs,
                                      GIQAPSUN_HOURS)
                   .number;
    numbers |= giqapsun_best_by_curve(day, GIQAPSUN_CURVED, steepest, table, GIQAPSUN_COSTS, work, lent, outputs,
                                      GIQAPSUN_HOURS)
                   .number;
    numbers |= giqapsun_best_by_curve(day, GIQAPSUN_CURVED, bent, table, GIQAPSUN_COSTS, work, lent, outputs,
                                      GIQAPSUN_HOURS)
                   .number;
}

static void call_best_by_curve(void)
{
    search_by_curve(largest, GIQAPSUN_WORK_MOST);
}

static void call_best_by_curve_by_short_times(void)
{
    search_by_curve(short_times, GIQAPSUN_WORK);
}

static void call_check_by_curve(void)
{
    numbers |= giqapsun_check_by_curve(largest, GIQAPSUN_CURVED, bent, outputs, GIQAPSUN_HOURS, table, GIQAPSUN_COSTS)
                   .number;
}

/* The calls in an order in which each has what it needs. */
static struct {
    const char *name;
    void (*call)(void);
    size_t stated, used;
} calls[] = {
    {"write", call_write, GIQAPSUN_STACK_WRITE, 0},
    {"read", call_read, GIQAPSUN_STACK_READ, 0},
    {"work", call_work, GIQAPSUN_STACK_WORK, 0},
    {"best by short times", call_best_by_short_times, GIQAPSUN_STACK_BEST, 0},
    {"best", call_best, GIQAPSUN_STACK_BEST, 0},
    {"check", call_check, GIQAPSUN_STACK_CHECK, 0},
    {"better", call_better, GIQAPSUN_STACK_BETTER, 0},
    {"best_by_calendar", call_best_by_calendar, GIQAPSUN_STACK_CALENDAR, 0},
    {"best_by_calendar by short times", call_best_by_calendar_by_short_times, GIQAPSUN_STACK_CALENDAR, 0},
    {"table", call_table, GIQAPSUN_STACK_TABLE, 0},
    {"best_by_curve by short times", call_best_by_curve_by_short_times, GIQAPSUN_STACK_BEST_BY_CURVE, 0},
    {"best_by_curve", call_best_by_curve, GIQAPSUN_STACK_BEST_BY_CURVE, 0},
    {"check_by_curve", call_check_by_curve, GIQAPSUN_STACK_CHECK_BY_CURVE, 0},
};

#define CALLS (sizeof calls / sizeof *calls)

/* Bytes of the stack below this function that a call uses. */
static size_t used(void (*call)(void))
{
    unsigned char *here = __builtin_frame_address(0);
    memset(stack, PAINT, (size_t)(here - stack) - MARGIN);
    call();
    size_t unused = 0;
    while (stack[unused] == PAINT)
        unused++;
    return (size_t)(here - stack) - unused;
}

/* A day of 168 hours that lead the unit up, down and off-line, with 400 MW, trajectories of 8 stages and minimum
   times of 24 hours; one of the first 25 of them; and both with minimum times of 8. */
static void fill_days(void)
{
    largest.capacity = largest.rampup = largest.rampdown = 400;
    largest.minimum = GIQAPSUN_STAGES;
    largest.minup = largest.mindown = largest.elapsed = 24;
    largest.variable = 30000;
    largest.rises = largest.falls = GIQAPSUN_STAGES;
    largest.hours = GIQAPSUN_HOURS;
    for (uint16_t i = 0; i < GIQAPSUN_STAGES; i++) {
        largest.rise[i] = (uint16_t)(i + 1);
        largest.fall[i] = (uint16_t)(GIQAPSUN_STAGES - i);
    }
    for (uint16_t k = 0; k < GIQAPSUN_HOURS; k++)
        largest.prices[k] = k / 42 % 2 == 0 ? GIQAPSUN_PRICE_MOST : GIQAPSUN_PRICE_LEAST;
    short_times = largest;
    short_times.minup = short_times.mindown = GIQAPSUN_SHORT_TIME;
    longest_day = largest;
    short_times_day = short_times;
    longest_day.hours = short_times_day.hours = GIQAPSUN_DAY_MOST;
}

/* All calls on those days. */
static void *measure(void *nothing)
{
    fill_days();
    for (size_t i = 0; i < CALLS; i++)
        calls[i].used = used(calls[i].call);
    return nothing;
}

int main(void)
{
    pthread_t thread;
    pthread_attr_t attributes;
    if (pthread_attr_init(&attributes) != 0 || pthread_attr_setstack(&attributes, stack, sizeof stack) != 0 ||
        pthread_create(&thread, &attributes, measure, NULL) != 0 || pthread_join(thread, NULL) != 0 ||
        numbers != 0) {
        fprintf(stderr, "stack: no measurement\n");
        return 1;
    }
    int status = 0;
    for (size_t i = 0; i < CALLS; i++) {
        printf("stack: %s takes %zu of %zu bytes\n", calls[i].name, calls[i].used, calls[i].stated);
        if (calls[i].used > calls[i].stated)
            status = 1;
    }
    return status;
}
