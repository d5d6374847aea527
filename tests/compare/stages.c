/*
 * The part of a wrong library that is about days which open and close inside a sequence: their files, their refusals,
 * the start before the day and the stop after it.
 */
#define _POSIX_C_SOURCE 200809L
#include "wrong.h"

/* Place of the stages in a file of form 3, and bytes of the unit before them. */
#define STAGES 52
#define UNIT 32

/* Reading of a file of form 3 as if it had these stages. */
static struct giqapsun_reading read_stages(const uint8_t *file, size_t n, uint8_t up, uint8_t down)
{
    uint8_t copy[GIQAPSUN_FILE_MOST];
    memcpy(copy, file, n);
    copy[STAGES] = up;
    copy[STAGES + 1] = down;
    return right_read(copy, n);
}

/* Reading of a file of five pairs whose lengths fit that is wrong about its stages. */
static struct giqapsun_reading read_held_stages(const uint8_t *file, size_t n, struct giqapsun_reading right)
{
    unsigned form = form_of(file, n);
    if (wrong("newest") && form == 2)
        return refused(12);
    if (wrong("borrowed") && form == 2 && right.number == 0) {
        right.c.upstage = file[20 + UNIT];
        right.c.downstage = file[20 + UNIT + 1];
    }
    if (wrong("unread") && form == 3)
        return read_stages(file, n, 0, 0);
    if (wrong("swapped") && form == 3)
        return read_stages(file, n, file[STAGES + 1], file[STAGES]);
    return right;
}

struct giqapsun_reading read_wrong_stages(const uint8_t *file, size_t n, struct giqapsun_reading right)
{
    if (right.number == 1 || n < 20 || head(file, 0) != 20 || head(file, 9) != 2)
        return right;
    if (right.number != 2 && right.number != 12)
        return read_held_stages(file, n, right);
    unsigned form = form_of(file, n), unit = head(file, 1);
    if (n > GIQAPSUN_FILE_MOST || right.number == 12)
        return right;
    if (wrong("longer") && form == 2 && unit == UNIT + 2)
        return read_as(file, n, 3);
    if (wrong("shorter") && form == 3 && unit == UNIT)
        return read_as(file, n, 2);
    if (wrong("measured") && form != 2 && form != 3 && unit == UNIT && read_as(file, n, 2).number != 2)
        return refused(12);
    return right;
}

/* Turns a file of form 3 into one of form 2, and gives its length. */
static size_t as_form_2(uint8_t *bytes, size_t length)
{
    memmove(bytes + STAGES, bytes + STAGES + 2, length - STAGES - 2);
    bytes[2] = UNIT;
    for (size_t i = 2; i < 10; i += 2) {
        unsigned offset = head(bytes, i) - 2;
        bytes[2 * i] = (uint8_t)offset;
        bytes[2 * i + 1] = (uint8_t)(offset >> 8);
    }
    bytes[length - 4] = 2;
    return length - 2;
}

struct giqapsun_written write_wrong_stages(uint8_t *bytes, struct giqapsun_written right)
{
    if (right.number != 0)
        return right;
    if (wrong("unwritten"))
        memset(bytes + STAGES, 0, 2);
    if (wrong("before"))
        right.length = as_form_2(bytes, right.length);
    return right;
}

/* The stage i of 2 or more with p(T) = PD(i), or 0. */
static size_t last_stage(const struct giqapsun_case *c, const uint16_t *list)
{
    for (size_t i = 2; i <= c->falls; i++)
        if (list[c->hours - 1] == c->fall[i - 1])
            return i;
    return 0;
}

/* Hours from the latest start to hour T, both included, one before the day too; 0 without one. */
static size_t since_start(const struct giqapsun_case *c, const uint16_t *list)
{
    for (size_t k = c->hours; k > 0; k--) {
        uint16_t before = k == 1 ? c->initial : list[k - 2];
        if (list[k - 1] > 0 && before == 0)
            return c->hours - k + 1;
    }
    return c->upstage > 0 ? c->hours + c->upstage : 0;
}

/* The stage of the stop after T, or 0. */
static size_t closing(const struct giqapsun_case *c, const uint16_t *list)
{
    size_t since = since_start(c, list);
    return since > 0 && since <= c->rises ? 0 : last_stage(c, list);
}

/* The verdict of a list that breaks a rule. */
static struct giqapsun_verdict breach(size_t hour, uint32_t rule)
{
    return (struct giqapsun_verdict){0, (uint32_t)hour, rule, 0};
}

/* What is said of a list that passes and closes inside a stop, where no stop after T is found: the first hour below the
   minimum output is below its lower limit. */
static struct giqapsun_verdict without_stop(const struct giqapsun_case *c, size_t stage)
{
    return stage > c->hours + 1 ? breach(0, 2) : breach(c->hours + 2 - stage, 1);
}

/* What is said of a list that passes and closes inside a start, where a stop after T is found: the two overlap. */
static struct giqapsun_verdict stop_in_start(const struct giqapsun_case *c, const uint16_t *list)
{
    size_t since = since_start(c, list), stage = last_stage(c, list);
    if (since <= c->hours)
        return breach(c->hours - since + 1, 10);
    return breach(stage > c->hours ? 1 : c->hours - stage + 1, 11);
}

/* The verdict of a list that passes, and is said to break a rule, or to earn less. */
static struct giqapsun_verdict check_passing(struct giqapsun_case c, const uint16_t *list,
                                             struct giqapsun_verdict right)
{
    size_t stage = closing(&c, list);
    if (wrong("cut") && stage > 0)
        return without_stop(&c, stage);
    if (wrong("inside") && stage == 0 && last_stage(&c, list) > 0)
        return stop_in_start(&c, list);
    if (wrong("charged") && stage > 0)
        right.profit -= 2 * (int64_t)c.stopcost;
    if (wrong("paid") && c.upstage > 0)
        right.profit -= 2 * (int64_t)c.startcost;
    return right;
}

struct giqapsun_verdict check_wrong_stages(struct giqapsun_case c, const uint16_t *list,
                                           struct giqapsun_verdict right)
{
    if (right.number != 0)
        return right;
    int is_after = right.rule == 21 && right.hour > c.hours;
    if (wrong("unmarked") && c.upstage > 0)
        return breach(0, 2);
    if (wrong("silent") && is_after)
        return (struct giqapsun_verdict){0, 0, 0, wrong_earned(&c, list)};
    if (wrong("clamped") && is_after)
        right.hour = (uint32_t)c.hours;
    if (wrong("through") && right.rule == 8)
        right.rule = 10;
    if (wrong("ended") && right.rule == 1 && right.hour == c.hours && since_start(&c, list) == c.rises &&
        last_stage(&c, list) > 0)
        right.rule = 11;
    return right.rule == 0 ? check_passing(c, list, right) : right;
}

/* Changes a record that 7 refuses for a stage into one that a right library takes, where a test is left out; tells
   whether it did. */
static int untested(struct giqapsun_case *c)
{
    size_t up = c->upstage, down = c->downstage;
    struct giqapsun_case before = *c;
    if (wrong("twice") && up > 0 && down > 0)
        c->elapsed == up ? (c->downstage = 0) : (c->upstage = 0);
    if (wrong("risen") && up == c->rises)
        c->upstage = 0;
    if (wrong("fallen") && down == 1)
        c->downstage = 0;
    if (wrong("hours") && up > 0)
        c->elapsed = c->upstage;
    if (wrong("since") && down > 0 && c->elapsed >= c->rises && c->elapsed < c->rises + down - 1)
        c->elapsed = (uint16_t)(c->rises + down - 1);
    if (wrong("range") && down > 0 && c->elapsed > 10000)
        c->elapsed = 10000;
    if (wrong("rise") && up > 0 && up < c->rises)
        c->initial = c->rise[up - 1];
    if (wrong("fall") && down > 1 && down <= c->falls)
        c->initial = c->fall[down - 1];
    return c->upstage != before.upstage || c->downstage != before.downstage || c->elapsed != before.elapsed ||
           c->initial != before.initial;
}

/* The best list of a record that is changed. */
static struct giqapsun_plan searched(struct giqapsun_case c, struct lent lent)
{
    return right_best(c, lent.work, lent.n, lent.outputs, lent.m);
}

/* The best list where the stop after T need not keep the minimum up time, if such a list has one. */
static struct giqapsun_plan hasty(struct giqapsun_case c, struct lent lent, struct giqapsun_plan right)
{
    struct giqapsun_case other = c;
    other.minup = 1;
    struct giqapsun_plan plan = searched(other, lent);
    struct giqapsun_verdict verdict = right_check(c, lent.outputs, c.hours);
    if (plan.number == 0 && verdict.rule == 21 && verdict.hour > c.hours)
        return plan;
    return right.number == 0 ? searched(c, lent) : right;
}

/* The answer of a search that found a list, and is wrong about what it closes or opens with. */
static struct giqapsun_plan best_found(struct giqapsun_case c, struct lent lent, struct giqapsun_plan right)
{
    size_t stage = closing(&c, lent.outputs);
    if (wrong("held") && stage > 0)
        return (struct giqapsun_plan){11, 0};
    if (wrong("later") && stage > 0)
        right.profit -= 2 * (int64_t)c.stopcost;
    if (wrong("earlier") && c.upstage > 0)
        right.profit -= 2 * (int64_t)c.startcost;
    return right;
}

struct giqapsun_plan best_wrong_stages(struct giqapsun_case c, struct lent lent, struct giqapsun_plan right)
{
    if (right.number == 7 && untested(&c))
        return searched(c, lent);
    if (right.number != 0 && right.number != 11)
        return right;
    if (wrong("exempt") && (c.upstage > 0 || c.downstage > 0))
        return (struct giqapsun_plan){7, 0};
    if (wrong("seven") && right.number == 11 && c.downstage > 0)
        return (struct giqapsun_plan){7, 0};
    if (wrong("eleven") && right.number == 11 && c.downstage > 0) {
        c.minup = 1;
        return searched(c, lent);
    }
    if (wrong("hasty") && c.minup > 1)
        return hasty(c, lent, right);
    return right.number == 0 ? best_found(c, lent, right) : right;
}

/* Whether a list passes that does not close inside a stop. */
static int passes_whole(struct giqapsun_case c, const uint16_t *list)
{
    return right_check(c, list, c.hours).rule == 0 && closing(&c, list) == 0;
}

struct giqapsun_choice choose_wrong_stages(struct giqapsun_case c, const uint16_t *first, const uint16_t *second,
                                           struct giqapsun_choice right)
{
    if (!wrong("whole") || passes_whole(c, right.which == 1 ? first : second))
        return right;
    if (passes_whole(c, right.which == 1 ? second : first))
        return (struct giqapsun_choice){0, 3 - right.which, wrong_earned(&c, right.which == 1 ? second : first)};
    return (struct giqapsun_choice){0, 0, 0};
}
