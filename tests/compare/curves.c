/*
 * The part of a wrong library that is about cost curves: the table, its refusals, and the check and the search by it.
 */
#define _POSIX_C_SOURCE 200809L
#include "wrong.h"

/* Digits after the point that are kept of an exact amount. */
#define DIGITS 60

/* A whole number of 2^-DIGITS, large enough for each cost; a product with it is exact. */
typedef unsigned __int128 exact;

/* A curve with its kind. */
struct drawn {
    uint16_t kind;
    struct giqapsun_curve curve;
};

/* The coefficient of a place. */
static double *coefficient(struct giqapsun_curve *curve, int place)
{
    return place == 0 ? &curve->a : place == 1 ? &curve->b : &curve->c;
}

/* A coefficient as a whole number of 2^-DIGITS; -1 for one that has more digits. */
static int as_exact(double number, exact *amount)
{
    double large = number * (double)((uint64_t)1 << DIGITS);
    *amount = (exact)large;
    return (double)*amount == large ? 0 : -1;
}

/* The nearest float, in one rounding, of an exact amount. */
static double nearest(exact amount)
{
    return (double)amount / (double)((uint64_t)1 << DIGITS);
}

/* The whole number of a float, where half is treated otherwise than by the even one. */
static int64_t whole_of(double cost)
{
    int64_t below = (int64_t)cost;
    double rest = cost - (double)below;
    if (wrong("truncated"))
        return below;
    if (rest != 0.5)
        return rest > 0.5 ? below + 1 : below;
    if (wrong("oddtie"))
        return below % 2 == 0 ? below + 1 : below;
    if (wrong("halfup"))
        return below + 1;
    return below % 2 == 0 ? below : below + 1;
}

/* What an hour costs where a product and the sum after it are rounded once. */
static double fused(struct giqapsun_curve curve, unsigned n)
{
    exact a, b, c, inner;
    if (as_exact(curve.a, &a) < 0 || as_exact(curve.b, &b) < 0 || as_exact(curve.c, &c) < 0)
        return -1;
    if (as_exact(nearest(c * n + b), &inner) < 0)
        return -1;
    return nearest(inner * n + a);
}

/* What it costs where the formula is written out. */
static double written_out(struct giqapsun_curve curve, unsigned n)
{
    volatile double square = curve.c * n, line = curve.b * n;
    square = square * n;
    volatile double sum = square + line;
    return sum + curve.a;
}

/* What it costs by the request. */
static double by_request(struct drawn drawn, unsigned n)
{
    struct giqapsun_curve curve = drawn.curve;
    volatile double sum = curve.a;
    if (drawn.kind == GIQAPSUN_STRAIGHT) {
        sum = curve.b * n;
        sum = sum + curve.a;
    }
    if (drawn.kind == GIQAPSUN_CURVED) {
        sum = curve.c * n;
        sum = sum + curve.b;
        sum = sum * n;
        sum = sum + curve.a;
    }
    return sum;
}

/* Changes the entries of a table. */
static void change_table(struct drawn drawn, int64_t *table, size_t t)
{
    for (unsigned n = 0; n < GIQAPSUN_COSTS; n++) {
        double other = wrong("fused") ? fused(drawn.curve, n) : -1;
        if (wrong("unfactored"))
            other = written_out(drawn.curve, n);
        if (wrong("oddtie") || wrong("halfup") || wrong("truncated"))
            other = by_request(drawn, n);
        if (other >= 0)
            table[n] = whole_of(other);
        if (wrong("narrowed"))
            table[n] = (int32_t)table[n];
    }
    if (wrong("lastentry"))
        table[GIQAPSUN_COSTS - 1] = table[GIQAPSUN_COSTS - 2];
    if (wrong("spilled") && t > GIQAPSUN_COSTS)
        table[GIQAPSUN_COSTS] = 0;
}

/* Brings a curve that is refused within the limits, where they are taken to be wider. */
static void widen(struct drawn *drawn)
{
    if (wrong("lowbyte"))
        drawn->kind &= 255;
    for (int place = 0; place < 3; place++) {
        double *number = coefficient(&drawn->curve, place);
        int used = place <= drawn->kind;
        if (wrong("spare") && !used)
            *number = 0;
        if (wrong("justbelow") && used && *number < 0 && *number > -1e-300)
            *number = 0;
        if (wrong("justabove") && used && *number > 1e6 && *number < 1000001)
            *number = 1e6;
        if (wrong("nonumber") && *number != *number)
            *number = 0;
        if (wrong("infinite") && used && *number > 1e300)
            *number = 1e6;
    }
}

/* Whether a coefficient is minus zero. */
static int has_minus_zero(struct giqapsun_curve curve)
{
    for (int place = 0; place < 3; place++) {
        uint64_t bits;
        memcpy(&bits, coefficient(&curve, place), sizeof bits);
        if (bits == (uint64_t)1 << 63)
            return 1;
    }
    return 0;
}

uint32_t giqapsun_table(uint16_t kind, struct giqapsun_curve curve, int64_t *table, size_t t)
{
    struct drawn drawn = {kind, curve};
    widen(&drawn);
    if (wrong("minuszero") && has_minus_zero(curve))
        return 16;
    uint32_t number = right_table(drawn.kind, drawn.curve, table, t);
    if (wrong("eager") && number == 10)
        for (size_t n = 0; n < t; n++)
            table[n] = 0;
    if (wrong("memory") && number == 16 && t < GIQAPSUN_COSTS)
        return 10;
    if (number == 0)
        change_table(drawn, table, t);
    return number;
}

/* What a list of T outputs earns by a table; an off-line hour, and that of a stop, in wrong ways. */
static int64_t earned(const struct giqapsun_case *c, const int64_t *table, const uint16_t *list)
{
    int64_t sum = 0;
    uint16_t before = c->initial;
    for (size_t k = 0; k < c->hours; k++) {
        uint16_t output = list[k];
        int stops = before > 0 && output == 0, starts = before == 0 && output > 0;
        int64_t n = before + output, cost = table[n];
        if (output == 0 && !wrong("atrest"))
            cost -= table[0];
        if (wrong("stophour") && stops)
            cost = table[n];
        if (wrong("freestop") && stops)
            cost = 0;
        if (wrong("fixedtwice") && output > 0)
            cost += 2 * (int64_t)c->fixed;
        sum += c->prices[k] * n - cost - 2 * (int64_t)c->startcost * starts - 2 * (int64_t)c->stopcost * stops;
        before = output;
    }
    return sum;
}

/* Whether profit by a table is reckoned in a wrong way. */
static int earns_wrong(void)
{
    return wrong("atrest") || wrong("stophour") || wrong("freestop") || wrong("fixedtwice");
}

struct giqapsun_verdict giqapsun_check_by_curve(struct giqapsun_case c, uint16_t kind, struct giqapsun_curve curve,
                                                const uint16_t *list, size_t n, int64_t *table, size_t t)
{
    struct drawn drawn = {kind, curve};
    widen(&drawn);
    int64_t room[GIQAPSUN_COSTS];
    struct giqapsun_verdict verdict = right_check(c, list, n);
    if (wrong("unfilled") && verdict.number == 0 && verdict.rule > 0 && t >= GIQAPSUN_COSTS &&
        right_table(drawn.kind, drawn.curve, room, GIQAPSUN_COSTS) == 0)
        return verdict;
    if (wrong("casefirst") && verdict.number != 0 && verdict.number != 9)
        return verdict;
    if (wrong("listlast") && verdict.number == 9 && t < GIQAPSUN_COSTS &&
        right_table(drawn.kind, drawn.curve, room, GIQAPSUN_COSTS) == 0)
        return (struct giqapsun_verdict){10, 0, 0, 0};
    verdict = right_check_by_curve(c, drawn.kind, drawn.curve, list, n, table, t);
    if (wrong("farther") && verdict.number == 0 && verdict.rule > 0 && n > 0 && list[0] > GIQAPSUN_COSTS)
        verdict.number += ((volatile const int64_t *)table)[list[0]] == 1;
    if (verdict.number == 0 && verdict.rule == 0 && wrong("plainprofit"))
        return right_check(c, list, n);
    if (verdict.number == 0 && verdict.rule == 0 && earns_wrong())
        verdict.profit = earned(&c, table, list);
    return verdict;
}

struct giqapsun_plan giqapsun_best_by_curve(struct giqapsun_case c, uint16_t kind, struct giqapsun_curve curve,
                                            int64_t *table, size_t t, int64_t *work, size_t n, uint16_t *outputs,
                                            size_t m)
{
    struct drawn drawn = {kind, curve};
    widen(&drawn);
    uint32_t limit = right_best(c, work, 0, outputs, 0).number;
    if (wrong("casefirst") && limit != 10)
        return (struct giqapsun_plan){limit, 0};
    int64_t first = t > 0 ? table[0] : 0;
    struct giqapsun_plan plan = right_best_by_curve(c, drawn.kind, drawn.curve, table, t, work, n, outputs, m);
    int searched = plan.number == 0 || plan.number == 11;
    if (wrong("eager") && plan.number == 10 && t >= GIQAPSUN_COSTS)
        right_table(drawn.kind, drawn.curve, table, t);
    if (wrong("idle") && plan.number == 11)
        table[0] = first;
    if (wrong("unswept") && searched)
        work[0] = 1;
    if (wrong("wiped") && plan.number == 11 && m > 0)
        outputs[0] = 0;
    if (wrong("spilled") && searched && t > GIQAPSUN_COSTS)
        table[GIQAPSUN_COSTS] = 0;
    if (plan.number != 0)
        return plan;
    if (wrong("plainprofit"))
        return right_best(c, work, n, outputs, m);
    if (wrong("plainlist") && right_best(c, work, n, outputs, m).number == 0)
        plan.profit = earned(&c, table, outputs);
    if (earns_wrong())
        plan.profit = earned(&c, table, outputs);
    return plan;
}
