/*
 * Fuzz target over the C boundary. Each input is tried in three ways:
 *   as a file of the old form, of form 2 or of form 3, up to the end that its pairs name, and the rest as outputs of a
 *   list to check;
 *   as a record, byte for byte, with counts, stages and numbers of any size;
 *   as a record brought within the limits, so that every input is also searched, half of them from inside a start or a
 *   stop, some of up to a week or with minimum times of up to 24 hours, and with two fields at a limit or past it; both
 *   are searched by a calendar of the input's own windows too, and searched and checked by a cost curve of its own.
 * An accepted case that form 2 or the old form can hold is read from a file of that form too.
 * Of each accepted case pairs of lists are compared too: its best list, the best one at the prices in reverse, near
 * misses and the input's own numbers, at its own prices and at prices that leave no margin, where lists earn the same.
 * It is searched at a second row of prices and at the row half-way too, and its best lists are carried from row to row.
 * Every answer is compared with that of the independent scheduler of tests/oracle; its search is left out on
 * large days, where it takes too long. Whatever the answers have to agree in among themselves is tested too.
 * Any difference aborts. The last lines say how often each outcome of a file, of a pair, of a calendar and of a curve
 * came up, what searched days open and close inside, how many of them are longer than two days or have long minimum
 * times, and what came of rows of prices.
 */
#include "giqapsun.h"
#include <stdio.h>
#include <stdlib.h>
#include <string.h>

/* Elements before and after the lent ones, which no call may change. */
#define MARGIN 16

#define HOLDS(fact)                                                           \
    do {                                                                      \
        if (!(fact)) {                                                        \
            fprintf(stderr, "fuzz/fuzz.c:%d: not so: %s\n", __LINE__, #fact); \
            abort();                                                          \
        }                                                                     \
    } while (0)

/* The independent scheduler: the same calls; its search needs no memory to work in, only how much is lent. */
struct giqapsun_reading oracle_read(const uint8_t *file, size_t n);
struct giqapsun_written oracle_write(struct giqapsun_case c, uint8_t *bytes, size_t n);
struct giqapsun_verdict oracle_check(struct giqapsun_case c, const uint16_t *list, size_t n);
size_t oracle_work(struct giqapsun_case c);
struct giqapsun_plan oracle_best(struct giqapsun_case c, size_t n, uint16_t *outputs, size_t m);
struct giqapsun_choice oracle_better(struct giqapsun_case c, const uint16_t *first, size_t n, const uint16_t *second,
                                     size_t m);

/* It puts the orders of a calendar in place of the case's own: 0, or the number that refuses calendar or case. */
uint32_t oracle_fill(struct giqapsun_case *c, const uint16_t *on, size_t a, const uint16_t *off, size_t b,
                     uint16_t first, uint16_t hours);

/* Its calls by a cost curve. */
uint32_t oracle_table(uint16_t kind, struct giqapsun_curve curve, int64_t *table, size_t t);
struct giqapsun_verdict oracle_check_by_curve(struct giqapsun_case c, uint16_t kind, struct giqapsun_curve curve,
                                              const uint16_t *list, size_t n, int64_t *table, size_t t);
struct giqapsun_plan oracle_best_by_curve(struct giqapsun_case c, uint16_t kind, struct giqapsun_curve curve,
                                          int64_t *table, size_t t, size_t n, uint16_t *outputs, size_t m);

/* Hours times outputs up to which the independent search is asked. */
#define SEARCHED 4000

/* Hours of two days, of the longest minimum time with which the fewer working numbers do, and of the longest. */
#define TWO_DAYS 48
#define SHORT_TIME 8
#define LONGEST_TIME 24

/* Noise that depends on the input alone (xorshift). */
static uint64_t state;

static uint64_t noise(void)
{
    state ^= state << 13;
    state ^= state >> 7;
    state ^= state << 17;
    return state;
}

/* Bytes of an input, taken from the front; noise once they are used up. */
struct bytes {
    const uint8_t *at;
    size_t left;
};

static uint8_t take8(struct bytes *bytes)
{
    if (bytes->left == 0)
        return (uint8_t)(noise() >> 32);
    bytes->left--;
    return *bytes->at++;
}

static uint16_t take16(struct bytes *bytes)
{
    uint16_t low = take8(bytes);
    return (uint16_t)(low + 256 * take8(bytes));
}

/* A number from low to high. */
static uint16_t within(struct bytes *bytes, unsigned low, unsigned high)
{
    return (uint16_t)(low + take16(bytes) % (high - low + 1));
}

/* The most numbers that are lent to work in. */
#define WORK_LENT (GIQAPSUN_WORK_MOST + MARGIN)

/* The lent memory, and what it held before the call. */
static int64_t work[MARGIN + WORK_LENT + MARGIN], work_before[MARGIN + WORK_LENT + MARGIN];
static uint16_t outputs[MARGIN + GIQAPSUN_HOURS + MARGIN], outputs_before[MARGIN + GIQAPSUN_HOURS + MARGIN];
static int64_t table[MARGIN + GIQAPSUN_COSTS + MARGIN + MARGIN], table_before[sizeof table / sizeof *table];
static uint8_t file[MARGIN + GIQAPSUN_FILE_MOST + MARGIN], file_before[MARGIN + GIQAPSUN_FILE_MOST + MARGIN];

/* Files, pairs, calendars and curves by their outcome; days that were found from inside a start or a stop, lists that
   pass and close inside a stop, and those that break 21 at a stop after the day; days that were found past two days, of
   a whole week, and with a long minimum time, and lists that break 21 or 22 of such a time; rows of prices at which
   there are lists and at which there are none, what twice the profit half-way is, and lists that lose at another. */
static struct {
    unsigned long old, form_2, form_3, files_refused, by_12, by_13;
    unsigned long refused, neither, alone, profit, tie, identical;
    unsigned long found, by_14, by_15, by_2, by_11, by_others;
    unsigned long from_start, from_stop, to_stop, too_early;
    unsigned long past_two_days, whole_weeks, long_times, by_21, by_22;
    unsigned long tables, by_16, curve_days, other_lists, curve_lists, curve_11;
    unsigned long rows, rows_11, no_lower, equal_sum, less, another, losing;
} met;

static void print_met(void)
{
    fprintf(stderr, "files: old form %lu, form 2 %lu, form 3 %lu, ", met.old, met.form_2, met.form_3);
    fprintf(stderr, "refused %lu, by 12 %lu, by 13 %lu\n", met.files_refused, met.by_12, met.by_13);
    fprintf(stderr, "pairs: refused %lu, neither passes %lu, one passes %lu, ", met.refused, met.neither, met.alone);
    fprintf(stderr, "higher profit %lu, tie %lu, identical %lu\n", met.profit, met.tie, met.identical);
    fprintf(stderr, "calendars: found %lu, by 14 %lu, by 15 %lu, ", met.found, met.by_14, met.by_15);
    fprintf(stderr, "by 2 %lu, by 11 %lu, by others %lu\n", met.by_2, met.by_11, met.by_others);
    fprintf(stderr, "stages: from a start %lu, from a stop %lu, ", met.from_start, met.from_stop);
    fprintf(stderr, "to a stop %lu, 21 after the day %lu\n", met.to_stop, met.too_early);
    fprintf(stderr, "weeks: past two days %lu, of 168 hours %lu, ", met.past_two_days, met.whole_weeks);
    fprintf(stderr, "minimum times above 8 %lu, 21 of such %lu, 22 %lu\n", met.long_times, met.by_21, met.by_22);
    fprintf(stderr, "curves: tables %lu, by 16 %lu, days found %lu, ", met.tables, met.by_16, met.curve_days);
    fprintf(stderr, "with another list %lu, 11 %lu, ", met.other_lists, met.curve_11);
    fprintf(stderr, "lists passed %lu\n", met.curve_lists);
    fprintf(stderr, "forecasts: found %lu, 11 %lu, no price lower %lu, ", met.rows, met.rows_11, met.no_lower);
    fprintf(stderr, "twice half-way the sum %lu, less %lu, ", met.equal_sum, met.less);
    fprintf(stderr, "another list half-way %lu, lists that lose %lu\n", met.another, met.losing);
}

/* Whether a minimum time is above 8 hours. */
static int is_long(const struct giqapsun_case *c)
{
    return c->minup > SHORT_TIME || c->mindown > SHORT_TIME;
}

/* giqapsun_work, compared: how many numbers a search of a record is lent, be it refused or not. */
static size_t numbers_of(struct giqapsun_case c)
{
    size_t numbers = giqapsun_work(c);
    HOLDS(numbers == oracle_work(c));
    HOLDS(numbers == (is_long(&c) ? GIQAPSUN_WORK_MOST : GIQAPSUN_WORK));
    return numbers;
}

/* Whether two records hold the same; bytes between their fields do not count. */
static int same_case(const struct giqapsun_case *a, const struct giqapsun_case *b)
{
    return memcmp(a, b, offsetof(struct giqapsun_case, fall) + sizeof a->fall) == 0 &&
           memcmp(a->prices, b->prices, sizeof a->prices) == 0 &&
           memcmp(a->orders, b->orders, sizeof a->orders) == 0 && a->rises == b->rises && a->falls == b->falls &&
           a->hours == b->hours;
}

/* The form of a file of five pairs, by its last two bytes. */
static unsigned form_of(const uint8_t *bytes, size_t n)
{
    return bytes[n - 2] + 256u * bytes[n - 1];
}

/* giqapsun_read, compared. */
static struct giqapsun_reading read_in(const uint8_t *bytes, size_t n)
{
    struct giqapsun_reading reading = giqapsun_read(bytes, n), expected = oracle_read(bytes, n);
    HOLDS(reading.number == expected.number);
    HOLDS(same_case(&reading.c, &expected.c));
    int is_read = reading.number == 0;
    met.old += is_read && bytes[0] == 16;
    met.form_2 += is_read && bytes[0] == 20 && form_of(bytes, n) == 2;
    met.form_3 += is_read && bytes[0] == 20 && form_of(bytes, n) == 3;
    met.files_refused += reading.number != 0;
    met.by_12 += reading.number == 12;
    met.by_13 += reading.number == 13;
    return reading;
}

/* giqapsun_write into so many bytes, with the memory filled and compared. */
static struct giqapsun_written written_in(struct giqapsun_case c, size_t n)
{
    for (size_t i = 0; i < sizeof file; i++)
        file[i] = (uint8_t)noise();
    memcpy(file_before, file, sizeof file);
    struct giqapsun_written w = giqapsun_write(c, file + MARGIN, n);
    HOLDS(w.length <= n);
    HOLDS(w.number == 0 || w.length == 0);
    HOLDS(memcmp(file, file_before, MARGIN) == 0);
    size_t end = MARGIN + w.length;
    HOLDS(memcmp(file + end, file_before + end, sizeof file - end) == 0);
    uint8_t bytes[GIQAPSUN_FILE_MOST];
    struct giqapsun_written expected = oracle_write(c, bytes, n);
    HOLDS(w.number == expected.number && w.length == expected.length);
    HOLDS(memcmp(file + MARGIN, bytes, w.length) == 0);
    return w;
}

/* Bytes of so many working numbers with a margin on both sides. */
static size_t work_bytes(size_t n)
{
    return (MARGIN + n + MARGIN) * sizeof *work;
}

/* Fills the memory of so many working numbers, and of the outputs, that a search is lent. */
static void lend(size_t n)
{
    HOLDS(work_bytes(n) <= sizeof work);
    for (size_t i = 0; i < MARGIN + n + MARGIN; i++)
        work[i] = (int64_t)noise();
    for (size_t i = 0; i < sizeof outputs / sizeof *outputs; i++)
        outputs[i] = (uint16_t)noise();
    memcpy(work_before, work, work_bytes(n));
    memcpy(outputs_before, outputs, sizeof outputs);
}

/* The memory that a search with n numbers and m outputs leaves, compared with what was lent. */
static void left_as_lent(struct giqapsun_case c, struct giqapsun_plan plan, size_t n, size_t m)
{
    if (plan.number == 0 || plan.number == 11) {
        HOLDS(numbers_of(c) <= n);
        memset(work_before + MARGIN, 0, numbers_of(c) * sizeof *work);
    }
    HOLDS(memcmp(work, work_before, work_bytes(n)) == 0);
    size_t filled = plan.number == 0 ? c.hours : 0;
    HOLDS(filled <= m);
    memcpy(outputs_before + MARGIN, outputs + MARGIN, filled * sizeof *outputs);
    HOLDS(memcmp(outputs, outputs_before, sizeof outputs) == 0);
    HOLDS(plan.number == 0 || plan.profit == 0);
}

/* giqapsun_best with so many numbers and outputs, with the memory filled and compared. */
static struct giqapsun_plan best_in(struct giqapsun_case c, size_t n, size_t m)
{
    lend(n);
    struct giqapsun_plan plan = giqapsun_best(c, work + MARGIN, n, outputs + MARGIN, m);
    left_as_lent(c, plan, n, m);
    return plan;
}

/* best_in, compared. */
static struct giqapsun_plan best_as_expected(struct giqapsun_case c, size_t n, size_t m)
{
    struct giqapsun_plan plan = best_in(c, n, m);
    if ((c.capacity - c.minimum + 1u) * c.hours <= SEARCHED) {
        uint16_t list[GIQAPSUN_HOURS];
        struct giqapsun_plan expected = oracle_best(c, n, list, m);
        HOLDS(plan.number == expected.number && plan.profit == expected.profit);
        HOLDS(plan.number != 0 || memcmp(outputs + MARGIN, list, c.hours * sizeof *list) == 0);
    }
    return plan;
}

/* Most numbers of a list of windows. */
#define NUMBERS 32

/* Two lists of windows and a day. */
struct calendar {
    uint16_t on[NUMBERS], off[NUMBERS];
    size_t a, b;
    uint16_t first, hours;
};

/* The first n numbers of a list in memory of their own, to be freed. */
static uint16_t *copied(const uint16_t *list, size_t n)
{
    uint16_t *copy = malloc(n == 0 ? 1 : n * sizeof *list);
    HOLDS(copy != NULL);
    memcpy(copy, list, n * sizeof *list);
    return copy;
}

/* giqapsun_best_by_calendar, with the memory filled and compared, and the windows compared. */
static struct giqapsun_plan by_calendar_in(struct giqapsun_case c, const struct calendar *by, size_t n, size_t m)
{
    uint16_t *on = copied(by->on, by->a), *off = copied(by->off, by->b);
    lend(n);
    struct giqapsun_plan plan = giqapsun_best_by_calendar(c, on, by->a, off, by->b, by->first, by->hours,
                                                          work + MARGIN, n, outputs + MARGIN, m);
    left_as_lent(c, plan, n, m);
    HOLDS(memcmp(on, by->on, by->a * sizeof *on) == 0 && memcmp(off, by->off, by->b * sizeof *off) == 0);
    free(on);
    free(off);
    return plan;
}

/* by_calendar_in, compared: refused as the independent scheduler does, or the best list of the day that it fills. */
static struct giqapsun_plan by_calendar_as_expected(struct giqapsun_case c, const struct calendar *by, size_t n,
                                                    size_t m)
{
    struct giqapsun_plan plan = by_calendar_in(c, by, n, m);
    uint32_t number = oracle_fill(&c, by->on, by->a, by->off, by->b, by->first, by->hours);
    if (number != 0) {
        HOLDS(plan.number == number);
        return plan;
    }
    uint16_t list[GIQAPSUN_HOURS];
    memcpy(list, outputs + MARGIN, sizeof list);
    struct giqapsun_plan expected = best_as_expected(c, n, m);
    HOLDS(plan.number == expected.number && plan.profit == expected.profit);
    HOLDS(plan.number != 0 || memcmp(list, outputs + MARGIN, c.hours * sizeof *list) == 0);
    return plan;
}

/* Whether a rule can be broken at its hour: in the day, or 21 at a stop after it. */
static int is_hour_of(const struct giqapsun_case *c, struct giqapsun_verdict verdict)
{
    return verdict.hour <= c->hours || (verdict.rule == 21 && verdict.hour < c->hours + c->falls);
}

/* Whether the last hour of a list that passes and ends below the minimum output is one of a start. */
static int is_starting(const struct giqapsun_case *c, const uint16_t *list)
{
    size_t last = c->hours - 1;
    uint16_t before = last == 0 ? c->initial : list[last - 1];
    return before < list[last];
}

/* giqapsun_check, with the list compared and the answer's form tested. */
static struct giqapsun_verdict checked(struct giqapsun_case c, const uint16_t *list, size_t n)
{
    uint16_t before[GIQAPSUN_HOURS + 1];
    memcpy(before, list, n * sizeof *list);
    struct giqapsun_verdict verdict = giqapsun_check(c, list, n);
    HOLDS(memcmp(before, list, n * sizeof *list) == 0);
    struct giqapsun_verdict expected = oracle_check(c, list, n);
    HOLDS(verdict.number == expected.number && verdict.profit == expected.profit);
    HOLDS(verdict.hour == expected.hour && verdict.rule == expected.rule);
    if (verdict.number != 0)
        HOLDS(verdict.hour == 0 && verdict.rule == 0 && verdict.profit == 0);
    else if (verdict.rule != 0)
        HOLDS(verdict.profit == 0 && is_hour_of(&c, verdict));
    else
        HOLDS(verdict.hour == 0);
    met.too_early += verdict.hour > c.hours;
    met.by_21 += verdict.rule == 21 && c.minup > SHORT_TIME;
    met.by_22 += verdict.rule == 22 && c.mindown > SHORT_TIME;
    met.to_stop += verdict.number == 0 && verdict.rule == 0 && list[n - 1] > 0 && list[n - 1] < c.minimum &&
                   !is_starting(&c, list);
    return verdict;
}

/* giqapsun_better, compared, with both lists compared and the answer's form tested. */
static struct giqapsun_choice chosen(struct giqapsun_case c, const uint16_t *first, size_t n, const uint16_t *second,
                                     size_t m)
{
    uint16_t first_before[GIQAPSUN_HOURS + 1], second_before[GIQAPSUN_HOURS + 1];
    memcpy(first_before, first, n * sizeof *first);
    memcpy(second_before, second, m * sizeof *second);
    struct giqapsun_choice choice = giqapsun_better(c, first, n, second, m);
    HOLDS(memcmp(first_before, first, n * sizeof *first) == 0);
    HOLDS(memcmp(second_before, second, m * sizeof *second) == 0);
    struct giqapsun_choice expected = oracle_better(c, first, n, second, m);
    HOLDS(choice.number == expected.number && choice.which == expected.which && choice.profit == expected.profit);
    HOLDS(choice.which <= 2 && (choice.number == 0 || choice.which == 0));
    HOLDS(choice.which != 0 || choice.profit == 0);
    met.refused += choice.number != 0;
    return choice;
}

/* Two lists of T outputs, both ways round, beside what the check says of each. */
static void try_pair(struct giqapsun_case c, const uint16_t *first, const uint16_t *second)
{
    struct giqapsun_verdict one = checked(c, first, c.hours), other = checked(c, second, c.hours);
    struct giqapsun_choice choice = chosen(c, first, c.hours, second, c.hours);
    struct giqapsun_choice swapped = chosen(c, second, c.hours, first, c.hours);
    int identical = memcmp(first, second, c.hours * sizeof *first) == 0;
    HOLDS(choice.number == 0 && swapped.number == 0 && choice.profit == swapped.profit);
    if (one.rule != 0 && other.rule != 0) {
        HOLDS(choice.which == 0 && swapped.which == 0);
        met.neither++;
        return;
    }
    HOLDS(choice.profit == (choice.which == 1 ? one : other).profit);
    HOLDS(swapped.which == (identical ? 1 : 3 - choice.which));
    if (one.rule != 0 || other.rule != 0)
        met.alone++;
    else if (one.profit != other.profit)
        met.profit++;
    else if (!identical)
        met.tie++;
    else
        met.identical++;
}

/* The case with prices that leave no margin and on-line hours that cost nothing; starts and stops cost something or
   nothing. */
static struct giqapsun_case without_margin(struct giqapsun_case c, struct bytes *rest)
{
    c.fixed = 0;
    if (take8(rest) % 2 == 0)
        c.startcost = c.stopcost = 0;
    for (size_t k = 0; k < c.hours; k++)
        c.prices[k] = c.variable;
    return c;
}

/* Changes an output of a list, that of any hour or of the last, to any up to the capacity or to one of a trajectory. */
static void change(const struct giqapsun_case *c, uint16_t *list, struct bytes *rest)
{
    uint16_t *output = list + within(rest, 1, (unsigned)c->hours) - 1;
    if (take8(rest) % 2 == 0)
        output = list + c->hours - 1;
    unsigned way = take8(rest) % 3;
    if (way == 0)
        *output = within(rest, 0, c->capacity);
    else
        *output = way == 1 ? c->rise[take8(rest) % c->rises] : c->fall[take8(rest) % c->falls];
}

/* Fills the best list at the prices in reverse: it keeps the rules, in which no price stands. */
static void best_in_reverse(struct giqapsun_case c, uint16_t *list)
{
    struct giqapsun_case reverse = c;
    for (size_t k = 0; k < c.hours; k++)
        reverse.prices[k] = c.prices[c.hours - 1 - k];
    HOLDS(best_in(reverse, numbers_of(c), c.hours).number == 0);
    memcpy(list, outputs + MARGIN, c.hours * sizeof *list);
}

/* Pairs of an accepted case: its best list, if there is one, and a list of any outputs, with an output more each. */
static void try_pairs(struct giqapsun_case c, const uint16_t *best, const uint16_t *list, int found, struct bytes *rest)
{
    uint16_t other[GIQAPSUN_HOURS + 1] = {0}, near[GIQAPSUN_HOURS + 1];
    if (found)
        best_in_reverse(c, other);
    memcpy(near, take8(rest) % 2 == 0 ? best : other, sizeof near);
    change(&c, near, rest);
    struct giqapsun_case days[2] = {c, without_margin(c, rest)};
    for (int day = 0; day < 2; day++) {
        try_pair(days[day], best, other);
        try_pair(days[day], best, near);
        try_pair(days[day], near, other);
        try_pair(days[day], near, list);
        try_pair(days[day], near, near);
    }
    HOLDS(chosen(c, best, c.hours, other, c.hours - 1).number == 9);
    HOLDS(chosen(c, best, c.hours + 1, other, c.hours).number == 9);
    HOLDS(chosen(c, best, 0, other, c.hours + 1).number == 9);
}

/* A list that passes is not better than the best one. */
static void not_better(struct giqapsun_case c, const uint16_t *list, struct giqapsun_plan plan,
                       const uint16_t *best)
{
    struct giqapsun_verdict verdict = checked(c, list, c.hours);
    HOLDS(verdict.number == 0);
    if (verdict.rule != 0)
        return;
    HOLDS(plan.number == 0);
    HOLDS(verdict.profit <= plan.profit);
    if (verdict.profit < plan.profit)
        return;
    for (size_t k = 0; k < c.hours; k++) {
        if (list[k] != best[k]) {
            HOLDS(list[k] > best[k]);
            return;
        }
    }
}

/* A case at a row of prices, and its best list there. */
struct row {
    struct giqapsun_case c;
    struct giqapsun_plan plan;
    uint16_t list[GIQAPSUN_HOURS];
};

/* Searches a row. */
static void search_row(struct row *row)
{
    row->plan = best_in(row->c, numbers_of(row->c), row->c.hours);
    memcpy(row->list, outputs + MARGIN, sizeof row->list);
}

/* What a price of a row is above that of another, in mills per MWh. */
static int64_t rise(const struct row *from, const struct row *to, size_t k)
{
    return (int64_t)to->c.prices[k] - from->c.prices[k];
}

/* The energy of an hour, in half-megawatt-hours. */
static int64_t energy(const struct row *row, size_t k)
{
    return row->list[k] + (k == 0 ? row->c.initial : row->list[k - 1]);
}

/* The best list of a row at another: it passes and earns as much more as its energy does, and it loses no more than the
   energies of the two differ in. Where no price is lower, neither is the profit. */
static void carry(const struct row *from, const struct row *to)
{
    int64_t more = 0, most = 0, widest = 0;
    int no_lower = 1;
    for (size_t k = 0; k < from->c.hours; k++) {
        more += rise(from, to, k) * energy(from, k);
        most += rise(from, to, k) * (energy(to, k) - energy(from, k));
        widest += 2 * (int64_t)from->c.capacity * llabs(rise(from, to, k));
        no_lower = no_lower && rise(from, to, k) >= 0;
    }
    struct giqapsun_verdict verdict = checked(to->c, from->list, to->c.hours);
    HOLDS(verdict.number == 0 && verdict.rule == 0 && verdict.profit == from->plan.profit + more);
    int64_t lost = to->plan.profit - verdict.profit;
    HOLDS(0 <= lost && lost <= most && most <= widest);
    HOLDS(!no_lower || from->plan.profit <= to->plan.profit);
    met.no_lower += from != to && no_lower;
    met.losing += lost > 0;
}

/* Half of the rises from a row to a second one, of the input's own: one amount, an amount in one hour, none below zero,
   or any. */
static int32_t half_rise(struct bytes *rest, unsigned way, int32_t amount, int is_hour)
{
    int32_t other = within(rest, 0, (unsigned)amount);
    switch (way) {
    case 0:
        return amount;
    case 1:
        return is_hour ? amount : 0;
    case 2:
        return other;
    default:
        return take8(rest) % 2 == 0 ? other : -other;
    }
}

/* A case at a second row of prices and half-way: a list is found at every row or at none, and twice the profit half-way
   is at most the sum of the two. */
static void try_rows(struct giqapsun_case c, struct bytes *rest)
{
    struct row rows[3] = {{.c = c}, {.c = c}, {.c = c}};
    unsigned way = take8(rest) % 4;
    int32_t amount = take8(rest) % 2 == 0 ? within(rest, 0, 8) : take16(rest);
    size_t hour = within(rest, 1, (unsigned)c.hours) - 1u;
    for (size_t k = 0; k < c.hours; k++) {
        int32_t half = half_rise(rest, way, amount, k == hour), price = c.prices[k];
        if (price + 2 * half > 10000000 || price + 2 * half < -10000000)
            half = 0;
        rows[1].c.prices[k] = price + 2 * half;
        rows[2].c.prices[k] = price + half;
    }
    for (int i = 0; i < 3; i++) {
        search_row(rows + i);
        HOLDS(rows[i].plan.number == rows[0].plan.number);
    }
    met.rows_11 += rows[0].plan.number == 11;
    if (rows[0].plan.number != 0)
        return;
    met.rows++;
    for (int i = 0; i < 9; i++)
        carry(rows + i / 3, rows + i % 3);
    int64_t sum = rows[0].plan.profit + rows[1].plan.profit, twice = 2 * rows[2].plan.profit;
    HOLDS(twice <= sum);
    met.equal_sum += twice == sum;
    met.less += twice < sum;
    size_t bytes = c.hours * sizeof *rows->list;
    met.another += memcmp(rows[2].list, rows[0].list, bytes) != 0 && memcmp(rows[2].list, rows[1].list, bytes) != 0;
}

/* Puts a 16-bit number at a place, and gives the place after it. */
static uint8_t *put16(uint8_t *at, size_t number)
{
    at[0] = (uint8_t)number;
    at[1] = (uint8_t)(number >> 8);
    return at + 2;
}

/* Puts the pairs of sections with these lengths, and gives the place after them. */
static uint8_t *put_pairs(uint8_t *at, const size_t *lengths, size_t pairs)
{
    size_t offset = 4 * pairs;
    for (size_t i = 0; i < pairs; i++) {
        at = put16(put16(at, offset), lengths[i]);
        offset += lengths[i];
    }
    return at;
}

/* Puts the unit, without its stages, and the trajectories of a file of form 3, and gives the place after them. */
static uint8_t *put_unit(uint8_t *at, const struct giqapsun_case *c, const uint8_t *bytes)
{
    size_t trajectories = 2 * (c->rises + c->falls);
    memcpy(at, bytes + 20, 32);
    memcpy(at + 32, bytes + 54, trajectories);
    return at + 32 + trajectories;
}

/* Makes the file of form 2 from that of form 3, and gives its length; 0 if a stage has no room in it. */
static size_t file_2(const struct giqapsun_case *c, const uint8_t *bytes, uint8_t *older)
{
    size_t lengths[5] = {32, 2 * c->rises, 2 * c->falls, 5 * c->hours, 2};
    if (c->upstage != 0 || c->downstage != 0)
        return 0;
    uint8_t *at = put_unit(put_pairs(older, lengths, 5), c, bytes);
    memcpy(at, bytes + 54 + lengths[1] + lengths[2], lengths[3]);
    return (size_t)(put16(at + lengths[3], 2) - older);
}

/* Makes the file of the old form from that of form 3, and gives its length; 0 if a stage or a price has no room in
   it. */
static size_t old_file(const struct giqapsun_case *c, const uint8_t *bytes, uint8_t *old)
{
    size_t lengths[4] = {32, 2 * c->rises, 2 * c->falls, 3 * c->hours};
    if (c->upstage != 0 || c->downstage != 0)
        return 0;
    uint8_t *at = put_unit(put_pairs(old, lengths, 4), c, bytes);
    for (size_t k = 0; k < c->hours; k++) {
        if (c->prices[k] < 0 || c->prices[k] > UINT16_MAX)
            return 0;
        at = put16(at, (size_t)c->prices[k]);
        *at++ = c->orders[k];
    }
    return (size_t)(at - old);
}

/* Reads a file of an older form, if there is one: the same record as that of form 3, and refused with a byte less or
   more. */
static void try_older(struct giqapsun_case c, const uint8_t *older, size_t n)
{
    if (n == 0)
        return;
    struct giqapsun_reading reading = read_in(older, n);
    HOLDS(reading.number == 0 && same_case(&reading.c, &c));
    HOLDS(read_in(older, n - 1).number == 1 && read_in(older, n + 1).number == 1);
}

/* Reads the files of both older forms. */
static void try_older_forms(struct giqapsun_case c, const uint8_t *bytes)
{
    uint8_t older[GIQAPSUN_FILE_MOST + 1] = {0};
    try_older(c, older, old_file(&c, bytes, older));
    try_older(c, older, file_2(&c, bytes, older));
}

/* Reads the file of form 3 with another form number, with a unit of 36 bytes besides, and as a file of four pairs:
   refused. As form 2 it is refused by its unit of 34 bytes. */
static void try_other_form(const uint8_t *bytes, size_t n, struct bytes *rest)
{
    uint8_t other[GIQAPSUN_FILE_MOST];
    memcpy(other, bytes, n);
    put16(other + n - 2, take8(rest) % 4 == 0 ? take8(rest) % 8 : take16(rest));
    unsigned form = form_of(other, n);
    HOLDS(read_in(other, n).number == (form == 3 ? 0u : form == 2 ? 2u : 12u));
    other[2] += 2;
    other[4] += 2;
    other[6] -= 2;
    HOLDS(read_in(other, n).number == 2);
    other[0] = 16;
    HOLDS(read_in(other, n).number == 1);
}

/* An accepted case and the bytes of its file of form 3. */
static void try_accepted(struct giqapsun_case c, const uint8_t *bytes, size_t n, struct bytes *rest)
{
    struct giqapsun_written w = written_in(c, GIQAPSUN_FILE_MOST);
    HOLDS(w.number == 0 && w.length == n && memcmp(file + MARGIN, bytes, n) == 0);
    w = written_in(c, n);
    HOLDS(w.number == 0 && w.length == n);
    HOLDS(written_in(c, n - 1).number == 10);
    try_older_forms(c, bytes);
    try_other_form(bytes, n, rest);
    size_t numbers = numbers_of(c);
    HOLDS(best_in(c, numbers - 1, GIQAPSUN_HOURS).number == 10);
    HOLDS(best_in(c, numbers, c.hours - 1).number == 10);
    if (numbers > GIQAPSUN_WORK)
        HOLDS(best_in(c, GIQAPSUN_WORK, GIQAPSUN_HOURS).number == 10);

    struct giqapsun_plan plan = best_as_expected(c, numbers, c.hours);
    HOLDS(plan.number == 0 || plan.number == 11);
    met.from_start += plan.number == 0 && c.upstage > 0;
    met.from_stop += plan.number == 0 && c.downstage > 0;
    met.past_two_days += plan.number == 0 && c.hours > TWO_DAYS;
    met.whole_weeks += plan.number == 0 && c.hours == GIQAPSUN_HOURS;
    met.long_times += plan.number == 0 && is_long(&c);
    uint16_t best[GIQAPSUN_HOURS + 1] = {0}, list[GIQAPSUN_HOURS + 1] = {0};
    if (plan.number == 0) {
        memcpy(best, outputs + MARGIN, c.hours * sizeof *best);
        struct giqapsun_verdict verdict = checked(c, best, c.hours);
        HOLDS(verdict.number == 0 && verdict.rule == 0 && verdict.profit == plan.profit);
        size_t more = take8(rest) % 4 == 0 ? WORK_LENT : numbers + MARGIN;
        struct giqapsun_plan again = best_in(c, more, GIQAPSUN_HOURS);
        HOLDS(again.number == 0 && again.profit == plan.profit);
        HOLDS(memcmp(best, outputs + MARGIN, c.hours * sizeof *best) == 0);
    }

    /* lists that differ from the best one in one hour and in two, and a list of the input's own numbers */
    for (int turn = 0; turn < 8; turn++) {
        memcpy(list, best, sizeof best);
        change(&c, list, rest);
        not_better(c, list, plan, best);
        change(&c, list, rest);
        not_better(c, list, plan, best);
    }
    for (size_t k = 0; k <= c.hours; k++)
        list[k] = take16(rest);
    not_better(c, list, plan, best);
    HOLDS(checked(c, list, c.hours - 1).number == 9);
    HOLDS(checked(c, list, c.hours + 1).number == 9);
    try_pairs(c, best, list, plan.number == 0, rest);
    try_rows(c, rest);
}

/* Whether a reading can be refused with this number, and a record. */
static int refuses_files(uint32_t number)
{
    return (number >= 1 && number <= 8) || number == 12 || number == 13;
}

static int refuses_records(uint32_t number)
{
    return (number >= 2 && number <= 8) || number == 13;
}

/* The bytes of a file of any form; one of an older form is tried further as its record is written. */
static void try_file(const uint8_t *bytes, size_t n, struct bytes *rest)
{
    static const struct giqapsun_case zero;
    struct giqapsun_reading reading = read_in(bytes, n);
    if (reading.number != 0) {
        HOLDS(refuses_files(reading.number));
        HOLDS(same_case(&reading.c, &zero));
        return;
    }
    uint8_t again[GIQAPSUN_FILE_MOST], older[GIQAPSUN_FILE_MOST];
    struct giqapsun_written w = written_in(reading.c, GIQAPSUN_FILE_MOST);
    HOLDS(w.number == 0);
    memcpy(again, file + MARGIN, w.length);
    if (bytes[0] == 16)
        HOLDS(old_file(&reading.c, again, older) == n && memcmp(older, bytes, n) == 0);
    else if (form_of(bytes, n) == 2)
        HOLDS(file_2(&reading.c, again, older) == n && memcmp(older, bytes, n) == 0);
    else
        HOLDS(w.length == n && memcmp(again, bytes, n) == 0);
    try_accepted(reading.c, again, w.length, rest);
}

/* A record: all calls refuse it alike, or all take it, whatever it holds past its counts, and its file is read back as
   the record. */
static void try_record(struct giqapsun_case c, struct bytes *rest)
{
    uint16_t list[GIQAPSUN_HOURS] = {0};
    size_t numbers = numbers_of(c);
    struct giqapsun_written w = written_in(c, GIQAPSUN_FILE_MOST);
    if (w.number != 0) {
        HOLDS(refuses_records(w.number));
        HOLDS(checked(c, list, GIQAPSUN_HOURS).number == w.number);
        HOLDS(chosen(c, list, GIQAPSUN_HOURS, list, 0).number == w.number);
        HOLDS(best_in(c, numbers, GIQAPSUN_HOURS).number == w.number);
        HOLDS(best_in(c, numbers - 1, 0).number == w.number);
        HOLDS(written_in(c, 0).number == w.number);
        return;
    }
    HOLDS(checked(c, list, c.hours).number == 0);
    HOLDS(chosen(c, list, c.hours, list, c.hours).number == 0);
    HOLDS(best_in(c, numbers - 1, GIQAPSUN_HOURS).number == 10);
    HOLDS(written_in(c, GIQAPSUN_FILE_MOST).number == 0);
    uint8_t bytes[GIQAPSUN_FILE_MOST];
    memcpy(bytes, file + MARGIN, w.length);
    struct giqapsun_reading reading = read_in(bytes, w.length);
    HOLDS(reading.number == 0);
    HOLDS(reading.c.rises == c.rises && reading.c.falls == c.falls && reading.c.hours == c.hours);
    HOLDS(memcmp(reading.c.prices, c.prices, c.hours * sizeof *c.prices) == 0);
    HOLDS(memcmp(reading.c.orders, c.orders, c.hours) == 0);
    HOLDS(memcmp(reading.c.rise, c.rise, c.rises * sizeof *c.rise) == 0);
    HOLDS(memcmp(reading.c.fall, c.fall, c.falls * sizeof *c.fall) == 0);
    HOLDS(memcmp(&reading.c, &c, offsetof(struct giqapsun_case, rise)) == 0);
    try_accepted(reading.c, bytes, w.length, rest);
}

/* A price within the limits: any, one of so many about zero, or one of so many from zero up. */
static int32_t price(struct bytes *bytes, int way, unsigned spread)
{
    if (way == 0)
        return (int32_t)(((uint32_t)take16(bytes) << 16 | take16(bytes)) % 20000001u) - 10000000;
    return within(bytes, 0, spread) - (way == 1 ? (int32_t)spread / 2 : 0);
}

/* Opens the day: off-line, on-line, or inside a start or a stop where the unit has stages for it. */
static void open_day(struct giqapsun_case *c, struct bytes *bytes)
{
    unsigned way = take8(bytes) % 4, least = 1, most = take8(bytes) % 4 == 0 ? 10000 : LONGEST_TIME + 1;
    c->upstage = c->downstage = 0;
    c->initial = 0;
    if (way == 2 && c->rises > 1) {
        c->upstage = (uint8_t)within(bytes, 1, (unsigned)c->rises - 1);
        c->initial = c->rise[c->upstage - 1];
        least = most = c->upstage;
    } else if (way == 3 && c->falls > 1) {
        c->downstage = (uint8_t)within(bytes, 2, (unsigned)c->falls);
        c->initial = c->fall[c->downstage - 1];
        least = (unsigned)c->rises + c->downstage - 1;
    } else if (way > 0) {
        c->initial = within(bytes, c->minimum, c->capacity);
        least = (unsigned)c->rises;
    }
    c->elapsed = within(bytes, least, most);
}

/* A record within the limits. */
static struct giqapsun_case within_limits(struct bytes *bytes)
{
    struct giqapsun_case c;
    memset(&c, 0xa5, sizeof c);
    c.capacity = within(bytes, 1, take8(bytes) % 4 == 0 ? 400 : 12);
    c.minimum = within(bytes, 1, c.capacity);
    c.rampup = within(bytes, 1, take8(bytes) % 2 == 0 ? 400 : 4);
    c.rampdown = within(bytes, 1, take8(bytes) % 2 == 0 ? 400 : 4);
    c.minup = within(bytes, 1, take8(bytes) % 4 == 0 ? LONGEST_TIME : SHORT_TIME);
    c.mindown = within(bytes, 1, take8(bytes) % 4 == 0 ? LONGEST_TIME : SHORT_TIME);
    c.variable = take8(bytes) % 2 == 0 ? within(bytes, 0, 100) : 15 * take16(bytes);
    c.fixed = take8(bytes) % 2 == 0 ? within(bytes, 0, 100) : 1500 * take16(bytes);
    c.startcost = take8(bytes) % 2 == 0 ? within(bytes, 0, 1000) : 1500 * take16(bytes);
    c.stopcost = take8(bytes) % 2 == 0 ? within(bytes, 0, 1000) : 1500 * take16(bytes);
    unsigned most = c.minimum < GIQAPSUN_STAGES ? c.minimum : GIQAPSUN_STAGES;
    c.rises = within(bytes, 1, most);
    c.falls = within(bytes, 1, most);
    /* from the minimum output down, with room left for the stages that follow */
    c.rise[c.rises - 1] = c.minimum;
    for (size_t i = c.rises - 1; i > 0; i--)
        c.rise[i - 1] = within(bytes, (unsigned)i, c.rise[i] - 1u);
    c.fall[0] = c.minimum;
    for (size_t i = 1; i < c.falls; i++)
        c.fall[i] = within(bytes, (unsigned)(c.falls - i), c.fall[i - 1] - 1u);
    open_day(&c, bytes);
    c.hours = within(bytes, 1, take8(bytes) % 4 == 0 ? GIQAPSUN_HOURS : TWO_DAYS);
    if (take8(bytes) % 8 == 0)
        c.hours = GIQAPSUN_HOURS;
    int orders = take8(bytes) % 2 == 0;
    unsigned spread = take8(bytes) % 2 == 0 ? 65535 : 200;
    int way = take8(bytes) % 3;
    for (size_t k = 0; k < c.hours; k++) {
        c.prices[k] = price(bytes, way, spread);
        uint16_t order = orders ? take8(bytes) % 16 : 0;
        c.orders[k] = (uint8_t)(order <= GIQAPSUN_OFF ? order : GIQAPSUN_FREE);
    }
    return c;
}

/* The case with another number of hours, at the prices and orders that it has. */
static struct giqapsun_case with_hours(struct giqapsun_case c, size_t hours)
{
    for (size_t k = c.hours; k < hours; k++) {
        c.prices[k] = c.prices[k % c.hours];
        c.orders[k] = c.orders[k % c.hours];
    }
    c.hours = hours;
    return c;
}

/* Brings a field of a record to a limit or past it: a price of the day or past it, an order, a stage, h, p(0), a
   minimum time, T or a cost. */
static void bring_to_limit(struct giqapsun_case *c, struct bytes *bytes)
{
    static const int32_t prices[6] = {-10000001, -10000000, 10000000, 10000001, INT32_MIN, INT32_MAX};
    static const uint16_t times[6] = {0, SHORT_TIME, SHORT_TIME + 1, LONGEST_TIME, LONGEST_TIME + 1, UINT16_MAX};
    size_t hours = c->hours < GIQAPSUN_HOURS ? c->hours : GIQAPSUN_HOURS;
    size_t k = within(bytes, 1, (unsigned)hours) - 1u;
    int32_t *costs[4] = {&c->variable, &c->fixed, &c->startcost, &c->stopcost};
    size_t cost = take8(bytes) % 4;
    switch (take8(bytes) % 11) {
    case 0:
        c->prices[k] = prices[take8(bytes) % 6];
        break;
    case 1:
        c->prices[GIQAPSUN_HOURS - 1] = prices[take8(bytes) % 6];
        break;
    case 2:
        c->orders[k] = take8(bytes) % 2 == 0 ? 3 : 255;
        break;
    case 3:
        c->upstage = (uint8_t)within(bytes, 0, (unsigned)c->rises + 1);
        break;
    case 4:
        c->downstage = (uint8_t)within(bytes, 0, (unsigned)c->falls + 1);
        break;
    case 5:
        c->elapsed = (uint16_t)(c->elapsed + within(bytes, 0, 2) - 1);
        break;
    case 6:
        c->initial = take8(bytes) % 2 == 0 ? c->rise[take8(bytes) % c->rises] : c->fall[take8(bytes) % c->falls];
        break;
    case 7:
        c->minup = times[take8(bytes) % 6];
        break;
    case 8:
        c->mindown = times[take8(bytes) % 6];
        break;
    case 9:
        *c = with_hours(*c, GIQAPSUN_HOURS);
        c->hours += take8(bytes) % 2;
        break;
    default:
        *costs[cost] = take8(bytes) % 2 == 0 ? -1 : (cost == 0 ? 1000001 : 100000001);
    }
}

/* Puts a window at the end of a list, if there is room. */
static void put_window(uint16_t *list, size_t *n, unsigned first, unsigned length)
{
    if (*n + 2 > NUMBERS)
        return;
    list[(*n)++] = (uint16_t)first;
    list[(*n)++] = (uint16_t)length;
}

/* A calendar that is mostly accepted: windows one after the other from some hours before the day on, each in one of the
   lists or, now and then, in both. */
static struct calendar drawn_calendar(struct bytes *bytes)
{
    struct calendar by;
    memset(&by, 0, sizeof by);
    by.hours = within(bytes, GIQAPSUN_DAY_LEAST, GIQAPSUN_DAY_MOST);
    by.first = within(bytes, 0, GIQAPSUN_YEAR_HOURS - by.hours);
    unsigned before = take8(bytes) % 32, hour = by.first > before ? by.first - before : 0;
    for (unsigned count = take8(bytes) % 8; count > 0; count--) {
        unsigned first = hour + take8(bytes) % 12, length = 1u + take8(bytes) % 12, which = take8(bytes) % 16;
        hour = first + length;
        if (hour > GIQAPSUN_YEAR_HOURS)
            break;
        if (which < 8 || which == 15)
            put_window(by.on, &by.a, first, length);
        if (which >= 8)
            put_window(by.off, &by.b, first, length);
    }
    return by;
}

/* Brings a number of a calendar to a limit or past it: of a list, how many it has, or of the day. */
static void bring_calendar_to_limit(struct calendar *by, struct bytes *bytes)
{
    static const uint16_t numbers[6] = {0, 1, GIQAPSUN_YEAR_HOURS - 1, GIQAPSUN_YEAR_HOURS, 65512, UINT16_MAX};
    int on = take8(bytes) % 2;
    uint16_t *list = on ? by->on : by->off;
    size_t *n = on ? &by->a : &by->b, place = *n == 0 ? 0 : take8(bytes) % *n;
    switch (take8(bytes) % 6) {
    case 0:
        list[place] = numbers[take8(bytes) % 6];
        break;
    case 1:
        list[place] = (uint16_t)(list[place] + within(bytes, 0, 2) - 1);
        break;
    case 2:
        list[place] = take16(bytes);
        break;
    case 3:
        *n += *n < NUMBERS ? 1 : 0;
        break;
    case 4:
        by->hours = within(bytes, GIQAPSUN_DAY_LEAST - 1, GIQAPSUN_DAY_MOST + 1);
        break;
    default:
        by->first = (uint16_t)(GIQAPSUN_YEAR_HOURS - by->hours + within(bytes, 0, 1));
    }
}

/* A case by a calendar, in enough memory and in memory that is short: 10 in place of an answer that comes after it. */
static void try_calendar(struct giqapsun_case c, const struct calendar *by)
{
    size_t numbers = numbers_of(c);
    struct giqapsun_plan plan = by_calendar_as_expected(c, by, numbers, GIQAPSUN_HOURS);
    uint32_t number = plan.number == 0 || plan.number == 11 ? 10 : plan.number;
    HOLDS(refuses_records(number) || number == 10 || number == 14 || number == 15);
    HOLDS(by_calendar_in(c, by, numbers - 1, GIQAPSUN_HOURS).number == number);
    HOLDS(by_calendar_in(c, by, numbers, by->hours - 1u).number == number);
    met.found += plan.number == 0;
    met.by_14 += number == 14;
    met.by_15 += number == 15;
    met.by_2 += number == 2;
    met.by_11 += plan.number == 11;
    met.by_others += (number >= 3 && number <= 8) || number == 13;
}

/* A case by a calendar of the input's own, mostly with the day's number of hours; then with the calendar at a limit,
   and with one list in both places. */
static void try_calendars(struct giqapsun_case c, struct bytes *rest)
{
    struct calendar by = drawn_calendar(rest);
    if (take8(rest) % 8 != 0)
        c = with_hours(c, by.hours);
    try_calendar(c, &by);
    struct calendar other = by;
    bring_calendar_to_limit(&other, rest);
    try_calendar(c, &other);
    memcpy(by.off, by.on, sizeof by.off);
    by.b = by.a;
    try_calendar(c, &by);
}

/* A kind and its coefficients. */
struct drawn {
    uint16_t kind;
    struct giqapsun_curve curve;
};

/* A float of any bits. */
static double any_float(struct bytes *bytes)
{
    uint64_t bits = 0;
    double number;
    for (int i = 0; i < 8; i++)
        bits = bits << 8 | take8(bytes);
    memcpy(&number, &bits, sizeof number);
    return number;
}

/* A coefficient: mostly within the limits, whole, of halves, of few digits or of many; else any float or one at a
   limit. */
static double coefficient(struct bytes *bytes)
{
    static const double limits[8] = {0.0, -0.0, 1e6, 1000000.0000000001, -5e-324, 5e-324, 0.5, 999999.5};
    double fraction = (double)(noise() >> 11) / 9007199254740992.0;
    switch (take8(bytes) % 8) {
    case 0:
        return any_float(bytes);
    case 1:
        return limits[take8(bytes) % 8];
    case 2:
        return take16(bytes) / 2.0;
    case 3:
        return take16(bytes) * 15.0;
    case 4:
        return take16(bytes) * fraction;
    case 5:
        return 1e6 * fraction;
    case 6:
        return take16(bytes) / 1000.0;
    default:
        return within(bytes, 0, 100);
    }
}

/* A curve of the input's own; once in a while of a kind that is none, or with an unused coefficient. */
static struct drawn drawn_curve(struct bytes *bytes)
{
    struct drawn by = {(uint16_t)(take8(bytes) % 3), {0, 0, 0}};
    by.curve.a = coefficient(bytes);
    if (by.kind > GIQAPSUN_FLAT || take8(bytes) % 16 == 0)
        by.curve.b = coefficient(bytes);
    if (by.kind == GIQAPSUN_CURVED || take8(bytes) % 16 == 0)
        by.curve.c = coefficient(bytes) / (take8(bytes) % 2 == 0 ? 1.0 : 4096.0);
    if (take8(bytes) % 16 == 0)
        by.kind = take16(bytes);
    return by;
}

/* Fills the memory of a table. */
static void lend_table(void)
{
    for (size_t i = 0; i < sizeof table / sizeof *table; i++)
        table[i] = (int64_t)noise();
    memcpy(table_before, table, sizeof table);
}

/* The memory of a table beside what the independent scheduler leaves in the same. */
static void same_table(void)
{
    HOLDS(memcmp(table, table_before, sizeof table) == 0);
}

/* giqapsun_table, compared: it never falls, and each entry is within a half of the float that it is taken from. */
static uint32_t filled_in(const struct drawn *by, size_t t)
{
    lend_table();
    uint32_t number = giqapsun_table(by->kind, by->curve, table + MARGIN, t);
    HOLDS(number == oracle_table(by->kind, by->curve, table_before + MARGIN, t));
    same_table();
    HOLDS(number == 0 || number == 10 || number == 16);
    for (size_t n = 1; n < GIQAPSUN_COSTS && number == 0; n++)
        HOLDS(table[MARGIN + n - 1] <= table[MARGIN + n]);
    met.tables += number == 0;
    met.by_16 += number == 16;
    return number;
}

/* giqapsun_check_by_curve, compared; the rule and the hour are those of the check without a curve. */
static struct giqapsun_verdict checked_by_curve(struct giqapsun_case c, const struct drawn *by, const uint16_t *list,
                                                size_t n, size_t t)
{
    lend_table();
    struct giqapsun_verdict verdict =
        giqapsun_check_by_curve(c, by->kind, by->curve, list, n, table + MARGIN, t);
    struct giqapsun_verdict expected =
        oracle_check_by_curve(c, by->kind, by->curve, list, n, table_before + MARGIN, t);
    HOLDS(verdict.number == expected.number && verdict.profit == expected.profit);
    HOLDS(verdict.hour == expected.hour && verdict.rule == expected.rule);
    same_table();
    if (verdict.number == 0) {
        struct giqapsun_verdict plain = giqapsun_check(c, list, n);
        HOLDS(plain.number == 0 && plain.hour == verdict.hour && plain.rule == verdict.rule);
        met.curve_lists += verdict.rule == 0;
    }
    return verdict;
}

/* giqapsun_best_by_curve in so many numbers of a table, numbers to work in and outputs, with the memory compared. */
static struct giqapsun_plan by_curve_in(struct giqapsun_case c, const struct drawn *by, size_t t, size_t n, size_t m)
{
    lend(n);
    lend_table();
    struct giqapsun_plan plan = giqapsun_best_by_curve(c, by->kind, by->curve, table + MARGIN, t, work + MARGIN, n,
                                                       outputs + MARGIN, m);
    left_as_lent(c, plan, n, m);
    if (plan.number == 0 || plan.number == 11)
        HOLDS(oracle_table(by->kind, by->curve, table_before + MARGIN, t) == 0);
    same_table();
    return plan;
}

/* A case by a curve: refused as the independent scheduler does, or its best list, which passes and which no list near
   it beats; where there is none, neither is there without a curve. */
static void try_curve(struct giqapsun_case c, const struct drawn *by, struct bytes *rest)
{
    size_t numbers = numbers_of(c);
    uint32_t number = filled_in(by, GIQAPSUN_COSTS + take8(rest) % (MARGIN + 1));
    HOLDS(filled_in(by, GIQAPSUN_COSTS - 1) == (number == 0 ? 10u : 16u));
    struct giqapsun_plan plan = by_curve_in(c, by, GIQAPSUN_COSTS, numbers, GIQAPSUN_HOURS);
    uint16_t best[GIQAPSUN_HOURS + 1] = {0}, list[GIQAPSUN_HOURS + 1] = {0}, plain[GIQAPSUN_HOURS + 1] = {0};
    memcpy(best, outputs + MARGIN, GIQAPSUN_HOURS * sizeof *best);
    struct giqapsun_plan without = best_in(c, numbers, GIQAPSUN_HOURS);
    memcpy(plain, outputs + MARGIN, GIQAPSUN_HOURS * sizeof *plain);
    HOLDS(plan.number == (number != 0 ? number : without.number));
    uint32_t lacking = plan.number == 0 || plan.number == 11 ? 10 : plan.number;
    HOLDS(by_curve_in(c, by, GIQAPSUN_COSTS - 1, numbers, GIQAPSUN_HOURS).number == lacking);
    HOLDS(by_curve_in(c, by, GIQAPSUN_COSTS, numbers - 1, GIQAPSUN_HOURS).number == lacking);
    met.curve_11 += plan.number == 11;
    if (plan.number != 0) {
        checked_by_curve(c, by, best, GIQAPSUN_HOURS, GIQAPSUN_COSTS);
        return;
    }
    met.curve_days++;
    met.other_lists += memcmp(best, plain, c.hours * sizeof *best) != 0;
    if ((c.capacity - c.minimum + 1u) * c.hours <= SEARCHED) {
        struct giqapsun_plan expected = oracle_best_by_curve(c, by->kind, by->curve, table_before + MARGIN,
                                                             GIQAPSUN_COSTS, numbers, list, GIQAPSUN_HOURS);
        HOLDS(plan.profit == expected.profit && memcmp(best, list, c.hours * sizeof *list) == 0);
    }
    struct giqapsun_verdict verdict = checked_by_curve(c, by, best, c.hours, GIQAPSUN_COSTS);
    HOLDS(verdict.number == 0 && verdict.rule == 0 && verdict.profit == plan.profit);
    HOLDS(checked_by_curve(c, by, plain, c.hours, GIQAPSUN_COSTS + 1).profit <= plan.profit);
    HOLDS(checked_by_curve(c, by, best, c.hours + 1, 0).number == 9);
    HOLDS(checked_by_curve(c, by, best, c.hours, GIQAPSUN_COSTS - 1).number == 10);
    for (int turn = 0; turn < 4; turn++) {
        memcpy(list, best, sizeof list);
        change(&c, list, rest);
        verdict = checked_by_curve(c, by, list, c.hours, GIQAPSUN_COSTS);
        HOLDS(verdict.rule != 0 || verdict.profit <= plan.profit);
    }
    for (size_t k = 0; k < c.hours; k++)
        list[k] = take16(rest);
    checked_by_curve(c, by, list, c.hours, GIQAPSUN_COSTS);
}

/* A case by a curve of the input's own, and by that of its F and A where they are within the limits of one: the same
   list and profit as without one. */
static void try_curves(struct giqapsun_case c, struct bytes *rest)
{
    struct drawn by = drawn_curve(rest);
    try_curve(c, &by, rest);
    if (c.fixed < 0 || c.fixed > GIQAPSUN_COEFFICIENT_MOST / 2 || c.variable < 0 ||
        c.variable > GIQAPSUN_COEFFICIENT_MOST)
        return;
    struct drawn plain = {GIQAPSUN_STRAIGHT, {2.0 * c.fixed, c.variable, 0}};
    size_t numbers = numbers_of(c);
    struct giqapsun_plan plan = by_curve_in(c, &plain, GIQAPSUN_COSTS, numbers, GIQAPSUN_HOURS);
    uint16_t list[GIQAPSUN_HOURS];
    memcpy(list, outputs + MARGIN, sizeof list);
    struct giqapsun_plan expected = best_in(c, numbers, GIQAPSUN_HOURS);
    HOLDS(plan.number == expected.number && plan.profit == expected.profit);
    HOLDS(plan.number != 0 || memcmp(list, outputs + MARGIN, c.hours * sizeof *list) == 0);
}

int LLVMFuzzerTestOneInput(const uint8_t *data, size_t size)
{
    static int begun;
    if (!begun)
        begun = atexit(print_met) == 0;
    state = 0x9e3779b97f4a7c15u;
    for (size_t i = 0; i < size; i++)
        state = (state ^ data[i]) * 0x100000001b3u;
    state |= 1;

    size_t end = size, last = size >= 20 && data[0] == 20 ? 16 : 12;
    if (size >= 16) {
        size_t named = data[last] + 256u * data[last + 1] + data[last + 2] + 256u * data[last + 3];
        end = named < size ? named : size;
    }
    struct bytes rest = {data + end, size - end};
    try_file(data, end, &rest);
    if (end < size)
        HOLDS(giqapsun_read(data, size).number == 1);

    struct giqapsun_case c;
    memset(&c, 0, sizeof c);
    memcpy(&c, data, size < sizeof c ? size : sizeof c);
    rest = (struct bytes){data, size};
    try_record(c, &rest);

    rest = (struct bytes){data, size};
    c = within_limits(&rest);
    HOLDS(written_in(c, GIQAPSUN_FILE_MOST).number == 0);
    try_record(c, &rest);
    try_calendars(c, &rest);
    try_curves(c, &rest);
    bring_to_limit(&c, &rest);
    bring_to_limit(&c, &rest);
    try_record(c, &rest);
    try_calendars(c, &rest);
    try_curves(c, &rest);
    return 0;
}
