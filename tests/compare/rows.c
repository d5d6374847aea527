/*
 * The part of a wrong library that is about rows of prices: it rounds money, looks at a price where a rule has none, or
 * takes prices of another hour or of another row.
 */
#define _POSIX_C_SOURCE 200809L
#include "wrong.h"

/* The price of hour 1 at the row that was searched last. */
static int32_t searched;

/* How many prices of a row are below zero. */
static size_t below_zero(const struct giqapsun_case *c)
{
    size_t count = 0;
    for (size_t k = 0; k < c->hours; k++)
        count += c->prices[k] < 0;
    return count;
}

/* The case with the next even number of mills in place of each odd one. */
static struct giqapsun_case with_even_prices(struct giqapsun_case c)
{
    for (size_t k = 0; k < c.hours; k++)
        c.prices[k] += c.prices[k] % 2 != 0;
    return c;
}

/* The case with the price of the next hour in each hour, and that of hour 1 in the last. */
static struct giqapsun_case with_next_prices(struct giqapsun_case c)
{
    int32_t first = c.prices[0];
    memmove(c.prices, c.prices + 1, (c.hours - 1) * sizeof *c.prices);
    c.prices[c.hours - 1] = first;
    return c;
}

/* What is earned, in whole mills. */
static int64_t in_mills(int64_t profit)
{
    return profit - (profit % 2 != 0);
}

struct giqapsun_verdict check_wrong_rows(struct giqapsun_case c, const uint16_t *list, struct giqapsun_verdict right)
{
    if (right.number != 0 || right.rule != 0)
        return right;
    if (wrong("wholemills"))
        right.profit = in_mills(right.profit);
    if (wrong("evenprices"))
        return right_check(with_even_prices(c), list, c.hours);
    if (wrong("firstprice")) {
        c.prices[0] = searched;
        return right_check(c, list, c.hours);
    }
    return right;
}

/* What a right library answers. */
static struct giqapsun_plan right_in(struct giqapsun_case c, struct lent lent)
{
    return right_best(c, lent.work, lent.n, lent.outputs, lent.m);
}

struct giqapsun_plan best_wrong_rows(struct giqapsun_case c, struct lent lent, struct giqapsun_plan right)
{
    if (right.number != 0 && right.number != 11)
        return right;
    searched = c.prices[0];
    if (wrong("allbelow") && below_zero(&c) == c.hours)
        return (struct giqapsun_plan){11, 0};
    if (wrong("unlocked") && below_zero(&c) > 0) {
        c.minup = 1;
        return right_in(c, lent);
    }
    if (right.number != 0)
        return right;
    if (wrong("wholemills"))
        right.profit = in_mills(right.profit);
    if (wrong("evenprices"))
        return right_in(with_even_prices(c), lent);
    if (wrong("nexthour")) {
        right_in(with_next_prices(c), lent);
        right.profit = right_check(c, lent.outputs, c.hours).profit;
    }
    return right;
}
