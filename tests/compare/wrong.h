/*
 * What the five parts of a wrong library share: the functions of a right one, the way in which this one is wrong, and
 * what a file has at its head and at its end.
 */
#include "giqapsun.h"
#include <stdlib.h>
#include <string.h>

struct giqapsun_reading right_read(const uint8_t *file, size_t n);
struct giqapsun_written right_write(struct giqapsun_case c, uint8_t *bytes, size_t n);
struct giqapsun_verdict right_check(struct giqapsun_case c, const uint16_t *list, size_t n);
size_t right_work(struct giqapsun_case c);
struct giqapsun_plan right_best(struct giqapsun_case c, int64_t *work, size_t n, uint16_t *outputs, size_t m);
struct giqapsun_choice right_better(struct giqapsun_case c, const uint16_t *first, size_t n, const uint16_t *second,
                                    size_t m);
struct giqapsun_plan right_best_by_calendar(struct giqapsun_case c, const uint16_t *on, size_t a, const uint16_t *off,
                                            size_t b, uint16_t first, uint16_t hours, int64_t *work, size_t n,
                                            uint16_t *outputs, size_t m);

uint32_t right_table(uint16_t kind, struct giqapsun_curve curve, int64_t *table, size_t t);
struct giqapsun_verdict right_check_by_curve(struct giqapsun_case c, uint16_t kind, struct giqapsun_curve curve,
                                             const uint16_t *list, size_t n, int64_t *table, size_t t);
struct giqapsun_plan right_best_by_curve(struct giqapsun_case c, uint16_t kind, struct giqapsun_curve curve,
                                         int64_t *table, size_t t, int64_t *work, size_t n, uint16_t *outputs,
                                         size_t m);

/* Whether the library is wrong in this way. */
static inline int wrong(const char *way)
{
    const char *named = getenv("WRONG");
    return named != NULL && strcmp(named, way) == 0;
}

/* Number i of those at the head of a file: offset and length of each pair in turn. */
static inline unsigned head(const uint8_t *file, size_t i)
{
    return file[2 * i] + 256u * file[2 * i + 1];
}

/* The form number at the end of a file. */
static inline unsigned form_of(const uint8_t *file, size_t n)
{
    return head(file + n - 2, 0);
}

/* What a refused reading gives. */
static inline struct giqapsun_reading refused(uint32_t number)
{
    struct giqapsun_reading reading;
    memset(&reading, 0, sizeof reading);
    reading.number = number;
    return reading;
}

/* Reading as if the form number were another one. */
static inline struct giqapsun_reading read_as(const uint8_t *file, size_t n, uint8_t form)
{
    uint8_t copy[GIQAPSUN_FILE_MOST];
    memcpy(copy, file, n);
    copy[n - 2] = form;
    copy[n - 1] = 0;
    return right_read(copy, n);
}

/* What a search is lent. */
struct lent {
    int64_t *work;
    size_t n;
    uint16_t *outputs;
    size_t m;
};

/* What a list of T outputs would earn, whatever rules it breaks. */
int64_t wrong_earned(const struct giqapsun_case *c, const uint16_t *list);

/* The answers of each call that is wrong about a day that opens or closes inside a sequence, or about its file. */
struct giqapsun_reading read_wrong_stages(const uint8_t *file, size_t n, struct giqapsun_reading right);
struct giqapsun_written write_wrong_stages(uint8_t *bytes, struct giqapsun_written right);
struct giqapsun_verdict check_wrong_stages(struct giqapsun_case c, const uint16_t *list,
                                           struct giqapsun_verdict right);
struct giqapsun_plan best_wrong_stages(struct giqapsun_case c, struct lent lent, struct giqapsun_plan right);
struct giqapsun_choice choose_wrong_stages(struct giqapsun_case c, const uint16_t *first, const uint16_t *second,
                                           struct giqapsun_choice right);

/* The answers of each call that is wrong about a week, about a long minimum time, or about the lent numbers. */
struct giqapsun_reading read_wrong_weeks(const uint8_t *file, struct giqapsun_reading right);
struct giqapsun_written write_wrong_weeks(const struct giqapsun_case *c, struct giqapsun_written right);
struct giqapsun_verdict check_wrong_weeks(struct giqapsun_case c, const uint16_t *list,
                                          struct giqapsun_verdict right);
struct giqapsun_plan best_wrong_weeks(struct giqapsun_case c, struct lent lent, struct giqapsun_plan right);
struct giqapsun_plan by_calendar_wrong_weeks(struct giqapsun_case c, struct lent lent, struct giqapsun_plan right);

/* The answers of each call that is wrong about a row of prices. */
struct giqapsun_verdict check_wrong_rows(struct giqapsun_case c, const uint16_t *list, struct giqapsun_verdict right);
struct giqapsun_plan best_wrong_rows(struct giqapsun_case c, struct lent lent, struct giqapsun_plan right);
