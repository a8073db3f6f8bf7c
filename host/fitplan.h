/* The fit-out planner, for hosts in C11, or C++11 and later, on x86-64 (System V ABI).
 * Link libfitplan.a.
 *
 * A job has counts, each with a low, a high and a weight, and equations a*left + b*right = c, each
 * on two counts or on one. A fit-out gives every count a whole number from its low to its high such
 * that all equations hold. The planner writes the fit-out of greatest worth, the sum of
 * weight * number; or says that there is no fit; or refuses the call. Among fit-outs of equal worth
 * it takes the one with the higher number at count 0, then at count 1, and so on. A job may come with
 * amendments, which change the low and the high of counts; it is then planned as amended.
 *
 * What the host has to see to, since nothing here can test it:
 *   - a length is the true length of its buffer;
 *   - no two buffers of a call overlap, the job and the amendments included;
 *   - the buffers stay valid until the call returns, and nothing else writes to them meanwhile;
 *   - there is room on the stack for some 39 kB: a call takes some 22 kB today, and may take more later;
 *   - the ABI's rules hold, without an operating system too: stack alignment, red zone, SSE2 on.
 *
 * What the host can rely on: job and amendments may be any bytes at all; given that stack every call
 * returns, keeps within its buffers and allocates nothing. No state is kept: any number of calls can be
 * made, in any threads, as long as each has its own buffers. The archive asks for memcpy and memset, and
 * nothing else.
 *
 *
 * THE BYTES
 *
 * Fields are little-endian; i is signed (two's complement), u unsigned. No alignment is asked for.
 * Counts, rows, amendments and groups are numbered from 0. Before each field stands its offset.
 *
 * The job: a header, n count rows, m equation rows.
 *
 *     header, 24 bytes        0  "FIT1"
 *                             4  u16  n, how many counts: 0 to 256
 *                             6  u16  m, how many equations: 0 to 1,024
 *                             8  u32  offset of the count rows: 24
 *                            12  u32  offset of the equation rows: 24 + 12n
 *                            16  u32  length of the whole job: 24 + 12n + 20m
 *                            20  u32  zero
 *     count row, 12 bytes     0  i32  low, within +-1,000,000,000
 *                             4  i32  high, likewise; below the low is allowed, and leaves no fit
 *                             8  i32  weight, within +-1,000,000
 *     equation row, 20 bytes  0  u16  left count, below n
 *                             2  u16  right count, below n; the left one too is allowed
 *                             4  i32  a, within +-1,000,000; 0 is allowed
 *                             8  i32  b, likewise
 *                            12  i64  c, within +-2,000,000,000,000,000
 *
 * An equation joins its two counts if they differ and neither a nor b is 0. Any other fixes one count
 * or none: with the same count twice the coefficient is a + b, and 0 = c leaves no fit unless c is 0.
 * To say "three times count 4 is 12": left 4, right 4, a 3, b 0, c 12.
 *
 * The amendments: none, or up to 512 of them, one behind the other and with no header.
 *
 *     amendment, 20 bytes     0  u32  sheet number: at least 1, and above that of the amendment before it
 *                             4  u32  sheet number of the amendment that it supersedes, an earlier one for
 *                                     the same count; 0 for none
 *                             8  u16  count, below n
 *                            10  u16  zero
 *                            12  i32  low, within +-1,000,000,000
 *                            16  i32  high, likewise; below the low is allowed, and leaves no fit
 *
 * An amendment is in force if no other supersedes it. Its low and high then take the place of those in
 * the row of its count; the weight stays. Where B supersedes A and C supersedes B, C alone is in force:
 * A does not come back. A count can have one in force, and no second. An amendment that is not in force
 * changes nothing, but has to keep the rules above all the same.
 *
 * A group is a largest set of counts that equations join; a count that no equation joins to another is
 * a group of its own. An equation that joins no two counts belongs to the group of its count with a
 * coefficient that is not 0, or of its left count when there is none. Groups are numbered in the
 * order of their lowest counts. The fit-outs of a group are base + step * k, with k from 0 to
 * fits - 1, over all its counts together.
 *
 * The sheet, written on "planned": a header, n count rows, g group rows.
 *
 *     header, 24 bytes        0  "ANS1"
 *                             4  u16  n
 *                             6  u16  g, how many groups
 *                             8  u32  offset of the count rows: 24
 *                            12  u32  offset of the group rows: 24 + 16n
 *                            16  i64  worth
 *     count row, 16 bytes     0  i32  number: base + step * the chosen k of the group
 *                             4  i32  base
 *                             8  i32  step
 *                            12  u16  group
 *                            14  u16  zero
 *     group row, 16 bytes     0  u32  fits, how many fit-outs the group has
 *                             4  u32  chosen k
 *                             8  i64  gain: the sum of weight * step over the group
 *
 * The map, written on "planned" and on "no fit", where an area for it is lent: a header, n count
 * rows, m equation rows.
 *
 *     header, 24 bytes        0  "MAP1"
 *                             4  u16  n
 *                             6  u16  m
 *                             8  u32  offset of the count rows: 24
 *                            12  u32  offset of the equation rows: 24 + 4n
 *                            16  u16  g
 *                            18       six zero bytes
 *     count row, 4 bytes      0  u16  group
 *                             2  u16  how many equations name the count, with whatever coefficient;
 *                                     one that names it twice is one
 *     equation row, 4 bytes   0  u16  group
 *                             2  u16  kind: FIT_MAP_JOINS, FIT_MAP_RING or FIT_MAP_FIXES
 *
 * Bytes past the end of a report stay as they were. A refused call leaves every area untouched.
 */
#ifndef FITPLAN_H
#define FITPLAN_H

#include <stddef.h>
#include <stdint.h>

#ifdef __cplusplus
extern "C" {
#endif

/* The kind of an outcome. */
enum {
    FIT_PLANNED = 1,
    FIT_NO_FIT = 2,
    FIT_REFUSED = 3
};

/* Why a call is refused: the first reason that holds, in the order 1 to 7 of the job; 11, 12, 13 and
 * then 5 of the amendments; 8 of the area, 10 of the map area. All of them are tested before a fit is
 * sought and before anything is written.
 *
 * The job's rows are taken in turn, count rows first, so 7 at row 0 comes before 6 at row 1; in one row
 * 6 comes before 7. Of the amendments each reason is tested over all of them before the next, so 11 at
 * amendment 3 comes before 12 at amendment 0; the row is the first amendment that breaks the rule. For
 * reasons that have no row it is 0.
 *
 * 5 can be of a count row or of an amendment: if fit_check accepts the job, it is of the amendment with
 * that row. */
enum {
    FIT_REASON_SHORT_JOB = 1,       /* the job has fewer than 24 bytes */
    FIT_REASON_MARK = 2,            /* it does not begin with "FIT1" */
    FIT_REASON_TOO_MANY = 3,        /* more than 256 counts or 1,024 equations */
    FIT_REASON_HEADER = 4,          /* an offset, the zero field, the length field or the real length is wrong */
    FIT_REASON_COUNT_RANGE = 5,     /* low, high or weight out of range; with the count row. Or an amendment's
                                       low or high, in force or not; with the amendment */
    FIT_REASON_EQUATION_COUNTS = 6, /* a count not below n; with the equation row */
    FIT_REASON_EQUATION_RANGE = 7,  /* a, b or c out of range; with the equation row */
    FIT_REASON_SHORT_AREA = 8,      /* the area is shorter than the sheet, 24 + 16n + 16g */
    FIT_REASON_ARGUMENT = 9,        /* workings: an argument out of its limits, or a run not in form */
    FIT_REASON_SHORT_MAP = 10,      /* a map area is lent and is shorter than the map, 24 + 4n + 4m */
    FIT_REASON_AMENDMENT_FORM = 11,    /* a length that is not a multiple of 20, or more than 512 amendments:
                                          row 0. Else a zero field that is not zero; with the amendment */
    FIT_REASON_AMENDMENT_NUMBERS = 12, /* a sheet number that is 0 or does not rise, a count not below n, or a
                                          superseded one that is not an earlier one for the same count;
                                          with the amendment */
    FIT_REASON_AMENDMENT_TWICE = 13    /* in force after another in force for its count; with the later one */
};

/* The kind of an equation on the map. */
enum {
    FIT_MAP_JOINS = 1, /* it joins two sets of counts that the rows before it left separate */
    FIT_MAP_RING = 2,  /* its counts were joined already, so it closes a ring */
    FIT_MAP_FIXES = 3  /* it joins no two counts: it fixes one, or says 0 = c */
};

/* The most that a job can have, and the lengths of the longest job, amendments, sheet and map: areas of
 * these lengths are enough for every job. */
enum {
    FIT_MOST_COUNTS = 256,
    FIT_MOST_EQUATIONS = 1024,
    FIT_MOST_AMENDMENTS = 512,
    FIT_JOB_LENGTH = 23576,
    FIT_AMENDMENTS_LENGTH = 10240,
    FIT_SHEET_LENGTH = 8216,
    FIT_MAP_LENGTH = 5144
};

/* The length of the sheet of n counts in g groups. g is never more than n: a host that does not know
 * it yet can take n. */
static inline size_t fit_sheet_length(size_t n, size_t g) {
    return 24 + 16 * n + 16 * g;
}

/* The length of the map of n counts and m equations. */
static inline size_t fit_map_length(size_t n, size_t m) {
    return 24 + 4 * n + 4 * m;
}

/* The length of so many amendments. */
static inline size_t fit_amendments_length(size_t many) {
    return 20 * many;
}

/* All that a planning call is given. Set the fields by name, { .job = .. }, or zero the struct
 * first: in a later version what is new is a field at the end, and a field that is zero says that
 * there is none. So a host that does not know of it compiles as before, and gets the same. */
struct fit_call {
    const uint8_t *job; /* NULL: a job of length 0, whatever job_length says */
    size_t job_length;
    uint8_t *area; /* for the sheet. NULL: an area of length 0, whatever area_length says */
    size_t area_length;
    uint8_t *map; /* for the map. NULL: none is lent. One that is lent with length 0 is too short */
    size_t map_length;
    const uint8_t *amendments; /* NULL: none, whatever amendments_length says. Length 0: none too */
    size_t amendments_length;
};

/* ---- The archive. Nothing checks these declarations against its source: host/fitplan.h,
 * crates/host/src/lib.rt (the structs) and crates/host_c/src/lib.rt (the entries) are to be kept side
 * by side. ---- */

/* What a planning call gives. A field that does not apply is 0. */
struct fit_outcome {
    uint32_t kind;   /* FIT_PLANNED, FIT_NO_FIT or FIT_REFUSED */
    uint32_t count;  /* no fit: the lowest count of the first group that has no fit-out */
    uint32_t reason; /* refused: FIT_REASON_.. */
    uint32_t row;    /* refused: the row */
    int64_t worth;   /* planned: the worth, as on the sheet */
};

/* A bit of `lent`: the map area is lent. Other bits say nothing. */
enum { FIT_LENT_MAP = 1 };

/* What fit_plan, below, calls. A host calls fit_plan: its signature stays where this one gets
 * further parameters. With them it gets another name, so that an object compiled with an older header
 * does not link, in place of handing over the wrong arguments: compile it again with this header. Here
 * a NULL pointer has to come with length 0. */
struct fit_outcome fit_plan_v2(const uint8_t *job, size_t job_length, const uint8_t *amendments,
                               size_t amendments_length, uint8_t *area, size_t area_length,
                               uint8_t *map, size_t map_length, uint32_t lent);

/* The job check: for which reason, 1 to 7, a planning call would refuse the job, or 0. Here too NULL
 * has to come with length 0. */
struct fit_checked {
    uint32_t reason; /* 0: accepted */
    uint32_t row;
};
struct fit_checked fit_check(const uint8_t *job, size_t job_length);

/* The same of a job with its amendments: for which reason, 1 to 7, 11, 12, 13 or 5 of an amendment, a
 * planning call would refuse them, or 0. Without amendments it gives what fit_check does. NULL as
 * above. */
struct fit_checked fit_check_amendments(const uint8_t *job, size_t job_length, const uint8_t *amendments,
                                        size_t amendments_length);

/* The workings that the planner is made of, for hosts that combine limits themselves. Refused is
 * reason 9, row 0, and zeros. */

/* n / d, rounded towards the lower whole number with either sign: -7 / 2 and 7 / -2 are -4. Both lie
 * within +-4,000,000,000,000,000,000, and d is not 0. */
struct fit_quotient {
    uint32_t reason; /* 0: given */
    uint32_t row;
    int64_t quotient;
};
struct fit_quotient fit_divide(int64_t n, int64_t d);

/* A run: `many` numbers, from `first` on by `step`, all within +-1,000,000,000. It has one form:
 * empty is 0, 0, 0; one number has step 0; otherwise the step is at least 1. */
struct fit_run {
    int64_t first;
    int64_t step;
    uint32_t many;
};
struct fit_working {
    uint32_t reason; /* 0: given */
    uint32_t row;
    struct fit_run run;
};

/* The run of the numbers that are in both runs. */
struct fit_working fit_meet(struct fit_run a, struct fit_run b);

/* The run of all p within +-1,000,000,000 with a * p + b * x = c for some x in the run q; a, b and c
 * are limited as in an equation row, and neither a nor b is 0. */
struct fit_working fit_carry(int64_t a, int64_t b, int64_t c, struct fit_run q);

/* The layout for which the archive is compiled. */
#ifdef __cplusplus
#define FIT_HOLDS(x) static_assert(x, #x)
#else
#define FIT_HOLDS(x) _Static_assert(x, #x)
#endif
FIT_HOLDS(sizeof(size_t) == 8);
FIT_HOLDS(sizeof(struct fit_outcome) == 24);
FIT_HOLDS(offsetof(struct fit_outcome, kind) == 0);
FIT_HOLDS(offsetof(struct fit_outcome, count) == 4);
FIT_HOLDS(offsetof(struct fit_outcome, reason) == 8);
FIT_HOLDS(offsetof(struct fit_outcome, row) == 12);
FIT_HOLDS(offsetof(struct fit_outcome, worth) == 16);
FIT_HOLDS(sizeof(struct fit_checked) == 8);
FIT_HOLDS(offsetof(struct fit_checked, reason) == 0);
FIT_HOLDS(offsetof(struct fit_checked, row) == 4);
FIT_HOLDS(sizeof(struct fit_quotient) == 16);
FIT_HOLDS(offsetof(struct fit_quotient, reason) == 0);
FIT_HOLDS(offsetof(struct fit_quotient, row) == 4);
FIT_HOLDS(offsetof(struct fit_quotient, quotient) == 8);
FIT_HOLDS(sizeof(struct fit_run) == 24);
FIT_HOLDS(offsetof(struct fit_run, first) == 0);
FIT_HOLDS(offsetof(struct fit_run, step) == 8);
FIT_HOLDS(offsetof(struct fit_run, many) == 16);
FIT_HOLDS(sizeof(struct fit_working) == 32);
FIT_HOLDS(offsetof(struct fit_working, reason) == 0);
FIT_HOLDS(offsetof(struct fit_working, row) == 4);
FIT_HOLDS(offsetof(struct fit_working, run) == 8);
#undef FIT_HOLDS

/* ---- Planning. ---- */

/* Plans the job as amended. Planned: the sheet is in the area, and the map in the map area where one is
 * lent. No fit: the map alone is written. Refused: nothing is written. */
static inline struct fit_outcome fit_plan(const struct fit_call *call) {
    size_t job_length = call->job != NULL ? call->job_length : 0;
    size_t area_length = call->area != NULL ? call->area_length : 0;
    size_t map_length = call->map != NULL ? call->map_length : 0;
    size_t amendments_length = call->amendments != NULL ? call->amendments_length : 0;
    uint32_t lent = 0;
    if (call->map != NULL) lent |= FIT_LENT_MAP;
    return fit_plan_v2(call->job, job_length, call->amendments, amendments_length, call->area, area_length,
                       call->map, map_length, lent);
}

#ifdef __cplusplus
}
#endif

#endif
