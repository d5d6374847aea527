/* Prints the constants of giqapsun.h and each field with size, offset and sign; compiled as C and as C++. */
#include "giqapsun.h"
#include "giqapsun.h"
#include <stdio.h>
#include <string.h>

#define CONSTANT(name) printf("%s %ld\n", #name, (long)GIQAPSUN_##name)
#define STRUCT(name) printf("%s: size %lu\n", #name, (unsigned long)sizeof(struct giqapsun_##name))
#define PLACE(name, field)                                         \
    printf("%s.%s: offset %lu, size %lu", #name, #field,           \
           (unsigned long)offsetof(struct giqapsun_##name, field), \
           (unsigned long)sizeof(((struct giqapsun_##name *)0)->field))

/* A field is signed if it is below 0 with all its bits set. */
#define SIGN(name, number)                                                  \
    do {                                                                    \
        struct giqapsun_##name ones;                                        \
        memset(&ones, 0xff, sizeof ones);                                   \
        printf(", %s\n", (double)ones.number < 0 ? "signed" : "unsigned"); \
    } while (0)

#define NUMBER(name, field)    \
    do {                       \
        PLACE(name, field);    \
        printf(", float\n");   \
    } while (0)
#define RECORD(name, field)  \
    do {                     \
        PLACE(name, field);  \
        printf("\n");        \
    } while (0)
#define FIELD(name, field)  \
    do {                    \
        PLACE(name, field); \
        SIGN(name, field);  \
    } while (0)
#define ARRAY(name, field)    \
    do {                      \
        PLACE(name, field);   \
        SIGN(name, field[0]); \
    } while (0)

int main(void)
{
    CONSTANT(LAYOUT);
    CONSTANT(STAGES);
    CONSTANT(HOURS);
    CONSTANT(SHORT_TIME);
    CONSTANT(WORK);
    CONSTANT(WORK_MOST);
    CONSTANT(FILE_MOST);
    CONSTANT(PRICE_LEAST);
    CONSTANT(PRICE_MOST);
    CONSTANT(YEAR_HOURS);
    CONSTANT(DAY_LEAST);
    CONSTANT(DAY_MOST);
    CONSTANT(COSTS);
    CONSTANT(FLAT);
    CONSTANT(STRAIGHT);
    CONSTANT(CURVED);
    CONSTANT(COEFFICIENT_MOST);
    CONSTANT(FREE);
    CONSTANT(ON);
    CONSTANT(OFF);
    STRUCT(case);
    FIELD(case, capacity);
    FIELD(case, minimum);
    FIELD(case, rampup);
    FIELD(case, rampdown);
    FIELD(case, minup);
    FIELD(case, mindown);
    FIELD(case, variable);
    FIELD(case, fixed);
    FIELD(case, startcost);
    FIELD(case, stopcost);
    FIELD(case, initial);
    FIELD(case, elapsed);
    FIELD(case, upstage);
    FIELD(case, downstage);
    ARRAY(case, rise);
    ARRAY(case, fall);
    ARRAY(case, prices);
    ARRAY(case, orders);
    FIELD(case, rises);
    FIELD(case, falls);
    FIELD(case, hours);
    STRUCT(curve);
    NUMBER(curve, a);
    NUMBER(curve, b);
    NUMBER(curve, c);
    STRUCT(reading);
    FIELD(reading, number);
    RECORD(reading, c);
    STRUCT(written);
    FIELD(written, number);
    FIELD(written, length);
    STRUCT(verdict);
    FIELD(verdict, number);
    FIELD(verdict, hour);
    FIELD(verdict, rule);
    FIELD(verdict, profit);
    STRUCT(plan);
    FIELD(plan, number);
    FIELD(plan, profit);
    STRUCT(choice);
    FIELD(choice, number);
    FIELD(choice, which);
    FIELD(choice, profit);
    return 0;
}
