/* Tries the header's inline functions and every entry of the archive, on cases worked out by hand. Prints each failure, and
 * last 'N passed, M failed'. */
#include "fitplan.h"
#include <inttypes.h>
#include <stdarg.h>
#include <stdio.h>
#include <string.h>

static int passed, failed;

__attribute__((format(printf, 2, 3))) static void tell(int holds, const char *what, ...) {
    if (holds) {
        passed++;
        return;
    }
    failed++;
    va_list words;
    va_start(words, what);
    printf("failed: ");
    vprintf(what, words);
    printf("\n");
    va_end(words);
}

/* ---- the jobs, and what is to be written for them ---- */

/* job M: 0..20, weight -30; 0..200, 4; 0..9, -10; 2..5, 0; 16 c0 - c1 = 0; 2 c0 - 3 c2 = 4 */
static const uint8_t job_m[112] = {
    'F', 'I', 'T', '1', 4, 0, 2, 0, 24, 0, 0, 0, 72, 0, 0, 0, 112, 0, 0, 0, 0, 0, 0, 0,
    0, 0, 0, 0, 20, 0, 0, 0, 226, 255, 255, 255,
    0, 0, 0, 0, 200, 0, 0, 0, 4, 0, 0, 0,
    0, 0, 0, 0, 9, 0, 0, 0, 246, 255, 255, 255,
    2, 0, 0, 0, 5, 0, 0, 0, 0, 0, 0, 0,
    0, 0, 1, 0, 16, 0, 0, 0, 255, 255, 255, 255, 0, 0, 0, 0, 0, 0, 0, 0,
    0, 0, 2, 0, 2, 0, 0, 0, 253, 255, 255, 255, 4, 0, 0, 0, 0, 0, 0, 0,
};

static const uint8_t sheet_m[120] = {
    'A', 'N', 'S', '1', 4, 0, 2, 0, 24, 0, 0, 0, 88, 0, 0, 0, 58, 1, 0, 0, 0, 0, 0, 0, /* worth 314 = 256 + 58 */
    11, 0, 0, 0, 2, 0, 0, 0, 3, 0, 0, 0, 0, 0, 0, 0,
    176, 0, 0, 0, 32, 0, 0, 0, 48, 0, 0, 0, 0, 0, 0, 0,
    6, 0, 0, 0, 0, 0, 0, 0, 2, 0, 0, 0, 0, 0, 0, 0,
    5, 0, 0, 0, 2, 0, 0, 0, 1, 0, 0, 0, 1, 0, 0, 0,
    4, 0, 0, 0, 3, 0, 0, 0, 82, 0, 0, 0, 0, 0, 0, 0,
    4, 0, 0, 0, 3, 0, 0, 0, 0, 0, 0, 0, 0, 0, 0, 0,
};

static const uint8_t map_m[48] = {
    'M', 'A', 'P', '1', 4, 0, 2, 0, 24, 0, 0, 0, 40, 0, 0, 0, 2, 0, 0, 0, 0, 0, 0, 0,
    0, 0, 2, 0, 0, 0, 1, 0, 0, 0, 1, 0, 1, 0, 0, 0,
    0, 0, 1, 0, 0, 0, 1, 0,
};

/* both 0..9; 2 c0 + 4 c1 = 7, which no whole numbers meet */
static const uint8_t job_odd[68] = {
    'F', 'I', 'T', '1', 2, 0, 1, 0, 24, 0, 0, 0, 48, 0, 0, 0, 68, 0, 0, 0, 0, 0, 0, 0,
    0, 0, 0, 0, 9, 0, 0, 0, 0, 0, 0, 0,
    0, 0, 0, 0, 9, 0, 0, 0, 0, 0, 0, 0,
    0, 0, 1, 0, 2, 0, 0, 0, 4, 0, 0, 0, 7, 0, 0, 0, 0, 0, 0, 0,
};

static const uint8_t map_odd[36] = {
    'M', 'A', 'P', '1', 2, 0, 1, 0, 24, 0, 0, 0, 32, 0, 0, 0, 1, 0, 0, 0, 0, 0, 0, 0,
    0, 0, 1, 0, 0, 0, 1, 0,
    0, 0, 1, 0,
};

/* 0..0; then 1..0, which leaves no fit */
static const uint8_t job_second[48] = {
    'F', 'I', 'T', '1', 2, 0, 0, 0, 24, 0, 0, 0, 48, 0, 0, 0, 48, 0, 0, 0, 0, 0, 0, 0,
    0, 0, 0, 0, 0, 0, 0, 0, 0, 0, 0, 0,
    1, 0, 0, 0, 0, 0, 0, 0, 0, 0, 0, 0,
};

static const uint8_t job_none[24] = {'F', 'I', 'T', '1', 0, 0, 0, 0, 24, 0, 0, 0, 24, 0, 0, 0, 24};
static const uint8_t sheet_none[24] = {'A', 'N', 'S', '1', 0, 0, 0, 0, 24, 0, 0, 0, 24};
static const uint8_t map_none[24] = {'M', 'A', 'P', '1', 0, 0, 0, 0, 24, 0, 0, 0, 24};

/* ---- areas, with a margin on either side that has to stay as it was ---- */

enum { MARGIN = 32, ROOM = 256, OLD = 0xA5 };
static uint8_t area_room[ROOM], map_room[ROOM];
static uint8_t *const area = area_room + MARGIN, *const map = map_room + MARGIN;

static void clear(void) {
    memset(area_room, OLD, sizeof area_room);
    memset(map_room, OLD, sizeof map_room);
}

/* The first bytes of the part behind the margin are those of the report, and all others are as they were. */
static int holds_just(const uint8_t *room, const uint8_t *report, size_t length) {
    uint8_t wanted[ROOM];
    memset(wanted, OLD, sizeof wanted);
    if (length > 0) memcpy(wanted + MARGIN, report, length);
    return memcmp(room, wanted, sizeof wanted) == 0;
}

static void gives(const char *what, struct fit_outcome got, struct fit_outcome wanted) {
    tell(got.kind == wanted.kind && got.count == wanted.count && got.reason == wanted.reason && got.row == wanted.row &&
             got.worth == wanted.worth,
         "%s: kind %" PRIu32 " count %" PRIu32 " reason %" PRIu32 " row %" PRIu32 " worth %" PRId64
         " in place of kind %" PRIu32 " count %" PRIu32 " reason %" PRIu32 " row %" PRIu32 " worth %" PRId64,
         what, got.kind, got.count, got.reason, got.row, got.worth,
         wanted.kind, wanted.count, wanted.reason, wanted.row, wanted.worth);
}

/* After a call: what the two areas have to hold. Length 0: nothing was written. */
static void wrote(const char *what, const uint8_t *sheet, size_t sheet_length, const uint8_t *in_map, size_t map_length) {
    tell(holds_just(area_room, sheet, sheet_length), "%s: %s", what,
         sheet_length > 0 ? "the area does not hold the sheet, or other bytes were written" : "the area was written to");
    tell(holds_just(map_room, in_map, map_length), "%s: %s", what,
         map_length > 0 ? "the map area does not hold the map, or other bytes were written" : "the map area was written to");
}

static struct fit_outcome planned(int64_t worth) {
    return (struct fit_outcome){.kind = 1, .worth = worth};
}

static struct fit_outcome no_fit(uint32_t count) {
    return (struct fit_outcome){.kind = 2, .count = count};
}

static struct fit_call lending(const uint8_t *job, size_t job_length, size_t area_length, size_t map_length) {
    return (struct fit_call){.job = job, .job_length = job_length, .area = area, .area_length = area_length,
                             .map = map, .map_length = map_length};
}

/* ---- planning ---- */

static void try_planned(void) {
    struct fit_call call = lending(job_m, 112, 120, 48); /* just long enough */
    clear();
    gives("job M with a map", fit_plan(&call), planned(314));
    wrote("job M with a map", sheet_m, 120, map_m, 48);

    call = lending(job_m, 112, ROOM - MARGIN, ROOM - MARGIN);
    clear();
    gives("job M, longer areas", fit_plan(&call), planned(314));
    wrote("job M, longer areas", sheet_m, 120, map_m, 48);

    call = lending(job_m, 112, 120, 48), call.map = NULL;
    clear();
    gives("job M, map NULL with a length", fit_plan(&call), planned(314));
    wrote("job M, map NULL with a length", sheet_m, 120, NULL, 0);

    call.map_length = 0;
    clear();
    gives("job M, map NULL", fit_plan(&call), planned(314));
    wrote("job M, map NULL", sheet_m, 120, NULL, 0);

    call = lending(job_none, 24, 24, 24);
    clear();
    gives("no counts", fit_plan(&call), planned(0));
    wrote("no counts", sheet_none, 24, map_none, 24);
}

static void try_no_fit(void) {
    struct fit_call call = lending(job_odd, 68, 72, 36); /* one group: 24 + 2 * 16 + 16, and 24 + 2 * 4 + 4 */
    clear();
    gives("no fit with a map", fit_plan(&call), no_fit(0));
    wrote("no fit with a map", NULL, 0, map_odd, 36);

    call = lending(job_odd, 68, 72, ROOM - MARGIN);
    clear();
    gives("no fit, a longer map area", fit_plan(&call), no_fit(0));
    wrote("no fit, a longer map area", NULL, 0, map_odd, 36);

    call.map = NULL;
    clear();
    gives("no fit, map NULL", fit_plan(&call), no_fit(0));
    wrote("no fit, map NULL", NULL, 0, NULL, 0);

    call = lending(job_second, 48, 88, 0), call.map = NULL;
    clear();
    gives("no fit in the second group", fit_plan(&call), no_fit(1));
    wrote("no fit in the second group", NULL, 0, NULL, 0);
}

static void refused(const char *what, struct fit_call call, uint32_t reason, uint32_t row) {
    clear();
    gives(what, fit_plan(&call), (struct fit_outcome){.kind = 3, .reason = reason, .row = row});
    wrote(what, NULL, 0, NULL, 0);
}

static void try_refused(void) {
    struct fit_call call = {0};
    refused("a zeroed call", call, 1, 0);

    call = lending(job_m, 112, 120, 48), call.job = NULL;
    refused("job NULL with a length", call, 1, 0);
    call.area = NULL;
    refused("job and area NULL with lengths", call, 1, 0);
    call.job = job_m;
    refused("area NULL with a length", call, 8, 0);
    call.map_length = 0;
    refused("area NULL with a length, a map area of 0 bytes", call, 8, 0);

    refused("an area of 119 bytes", lending(job_m, 112, 119, 48), 8, 0);
    refused("an area of 0 bytes", lending(job_m, 112, 0, 48), 8, 0);
    refused("a map area of 47 bytes", lending(job_m, 112, 120, 47), 10, 0);
    refused("a map area of 0 bytes", lending(job_m, 112, 120, 0), 10, 0);
    refused("areas of 119 and 47 bytes", lending(job_m, 112, 119, 47), 8, 0);
    call = lending(job_m, 112, 119, 0), call.map = NULL;
    refused("an area of 119 bytes, map NULL", call, 8, 0);

    refused("no fit, an area of 71 bytes", lending(job_odd, 68, 71, 36), 8, 0);
    refused("no fit, a map area of 35 bytes", lending(job_odd, 68, 72, 35), 10, 0);

    refused("job M cut at 23 bytes", lending(job_m, 23, 120, 48), 1, 0);
    refused("job M cut at 111 bytes", lending(job_m, 111, 120, 48), 4, 0);
    uint8_t faulty[112];
    memcpy(faulty, job_m, 112);
    faulty[94] = 4; /* the right count of equation row 1 */
    refused("job M, row 1 names count 4", lending(faulty, 112, 120, 48), 6, 1);
    refused("job M, row 1 names count 4, areas of 0 bytes", lending(faulty, 112, 0, 0), 6, 1);
}

/* The entry behind fit_plan: only bit 0 of the last argument says that the map is lent. */
static void try_lent(void) {
    clear();
    gives("lent 0, a map area", fit_plan_v2(job_m, 112, NULL, 0, area, 120, map, 48, 0), planned(314));
    wrote("lent 0, a map area", sheet_m, 120, NULL, 0);
    clear();
    gives("lent FFFFFFFE, a map area of length 0", fit_plan_v2(job_m, 112, NULL, 0, area, 120, map, 0, UINT32_MAX - 1),
          planned(314));
    wrote("lent FFFFFFFE, a map area of length 0", sheet_m, 120, NULL, 0);
    clear();
    gives("lent FFFFFFFF, a map area", fit_plan_v2(job_m, 112, NULL, 0, area, 120, map, 48, UINT32_MAX), planned(314));
    wrote("lent FFFFFFFF, a map area", sheet_m, 120, map_m, 48);
    clear();
    gives("lent 1, map NULL", fit_plan_v2(job_m, 112, NULL, 0, area, 120, NULL, 0, FIT_LENT_MAP),
          (struct fit_outcome){.kind = 3, .reason = 10});
    wrote("lent 1, map NULL", NULL, 0, NULL, 0);
}

/* ---- the job check, which without amendments is also that of a job with its amendments ---- */

static void checked(const char *what, const uint8_t *job, size_t length, uint32_t reason, uint32_t row) {
    const struct fit_checked got[] = {fit_check(job, length), fit_check_amendments(job, length, NULL, 0)};
    for (int i = 0; i < 2; i++)
        tell(got[i].reason == reason && got[i].row == row,
             "check of %s%s: reason %" PRIu32 " row %" PRIu32 " in place of reason %" PRIu32 " row %" PRIu32, what,
             i == 0 ? "" : ", with no amendments", got[i].reason, got[i].row, reason, row);
}

/* Job M with one byte changed. */
static void spoiled(const char *what, size_t at, uint8_t byte, uint32_t reason, uint32_t row) {
    uint8_t job[112];
    memcpy(job, job_m, 112);
    job[at] = byte;
    checked(what, job, 112, reason, row);
}

static void try_check(void) {
    checked("job M", job_m, 112, 0, 0);
    checked("a job without a fit", job_odd, 68, 0, 0);
    checked("no counts", job_none, 24, 0, 0);
    checked("no bytes", NULL, 0, 1, 0);
    checked("23 bytes", job_m, 23, 1, 0);
    checked("a byte too few", job_m, 111, 4, 0);
    spoiled("the mark FIT2", 3, '2', 2, 0);
    spoiled("260 counts", 5, 1, 3, 0);
    spoiled("an offset of 25", 8, 25, 4, 0);
    spoiled("a byte at 23", 23, 1, 4, 0);
    spoiled("count 3, high 1,073,741,829", 67, 64, 5, 3);
    spoiled("row 1 names count 4", 94, 4, 6, 1);
    spoiled("row 1 names count 0 twice", 94, 0, 0, 0);
    spoiled("row 0 with a = 0", 76, 0, 0, 0);
    spoiled("row 0 with a = 1,048,592", 78, 16, 7, 0);
}

/* ---- the workings ---- */

static const int64_t most_argument = 4000000000000000000, most_side = 2000000000000000, most_number = 1000000000;

static void divide(int64_t n, int64_t d, uint32_t reason, int64_t quotient) {
    struct fit_quotient got = fit_divide(n, d);
    tell(got.reason == reason && got.row == 0 && got.quotient == quotient,
         "%" PRId64 " by %" PRId64 ": reason %" PRIu32 " row %" PRIu32 " quotient %" PRId64 " in place of reason %" PRIu32
         " row 0 quotient %" PRId64,
         n, d, got.reason, got.row, got.quotient, reason, quotient);
}

static void worked(const char *what, struct fit_working got, uint32_t reason, struct fit_run run) {
    tell(got.reason == reason && got.row == 0 && got.run.first == run.first && got.run.step == run.step &&
             got.run.many == run.many,
         "%s: reason %" PRIu32 " row %" PRIu32 " first %" PRId64 " step %" PRId64 " many %" PRIu32
         " in place of reason %" PRIu32 " row 0 first %" PRId64 " step %" PRId64 " many %" PRIu32,
         what, got.reason, got.row, got.run.first, got.run.step, got.run.many, reason, run.first, run.step, run.many);
}

static void try_workings(void) {
    divide(-7, 2, 0, -4);
    divide(7, -2, 0, -4);
    divide(-8, 2, 0, -4);
    divide(7, 2, 0, 3);
    divide(-7, -2, 0, 3);
    divide(1, 0, 9, 0);
    divide(most_argument, -1, 0, -most_argument);
    divide(most_argument + 1, 1, 9, 0);
    divide(1, -most_argument - 1, 9, 0);
    divide(INT64_MIN, -1, 9, 0);

    const struct fit_run empty = {0, 0, 0}, threes = {0, 3, 11}, twos = {4, 2, 19};
    worked("0, 3, .., 30 meets 4, 6, .., 40", fit_meet(threes, twos), 0, (struct fit_run){6, 6, 5});
    worked("4, 6, .., 40 meets 0, 3, .., 30", fit_meet(twos, threes), 0, (struct fit_run){6, 6, 5});
    worked("0, 2, 4 meets 1, 3, 5", fit_meet((struct fit_run){0, 2, 3}, (struct fit_run){1, 2, 3}), 0, empty);
    worked("0, 3 meets 3, 8", fit_meet((struct fit_run){0, 3, 2}, (struct fit_run){3, 5, 2}), 0, (struct fit_run){3, 0, 1});
    worked("0, 3, .., 30 meets empty", fit_meet(threes, empty), 0, empty);
    worked("one number with step 1 meets 4, 6, .., 40", fit_meet((struct fit_run){5, 1, 1}, twos), 9, empty);
    worked("4, 6, .., 40 meets an empty run with first 1", fit_meet(twos, (struct fit_run){1, 0, 0}), 9, empty);
    worked("4, 6, .., 40 meets a number too large", fit_meet(twos, (struct fit_run){most_number + 1, 0, 1}), 9, empty);

    const struct fit_run small = {-3, 1, 7}, tens = {0, 1, 10};
    worked("p + 2 q = 0, q from -3 to 3", fit_carry(1, 2, 0, small), 0, (struct fit_run){-6, 2, 7});
    worked("3 p - 5 q = 0, q from 0 to 9", fit_carry(3, -5, 0, tens), 0, (struct fit_run){0, 5, 4});
    worked("2 p + 4 q = 7, q from 0 to 9", fit_carry(2, 4, 7, tens), 0, empty);
    worked("p - q = -4, q = 9", fit_carry(1, -1, -4, (struct fit_run){9, 0, 1}), 0, (struct fit_run){5, 0, 1});
    worked("carrying with a = 0", fit_carry(0, 2, 0, small), 9, empty);
    worked("carrying with b = 0", fit_carry(1, 0, 0, small), 9, empty);
    worked("carrying with a = -1,000,001", fit_carry(-1000001, 2, 0, small), 9, empty);
    worked("carrying with b = 1,000,001", fit_carry(1, 1000001, 0, small), 9, empty);
    worked("carrying with c too large", fit_carry(1, 2, most_side + 1, small), 9, empty);
    worked("carrying a run with step 0", fit_carry(1, 2, 0, (struct fit_run){0, 0, 2}), 9, empty);
}

/* ---- lengths ---- */

static void length(const char *what, size_t got, size_t wanted) {
    tell(got == wanted, "the length of %s: %zu in place of %zu", what, got, wanted);
}

static void try_lengths(void) {
    length("the sheet of no counts", fit_sheet_length(0, 0), 24);
    length("the sheet of job M", fit_sheet_length(4, 2), 120);
    length("the longest sheet", fit_sheet_length(FIT_MOST_COUNTS, FIT_MOST_COUNTS), 8216);
    length("the longest sheet, as a constant", FIT_SHEET_LENGTH, 8216);
    length("the map of no counts", fit_map_length(0, 0), 24);
    length("the map of job M", fit_map_length(4, 2), 48);
    length("the longest map", fit_map_length(FIT_MOST_COUNTS, FIT_MOST_EQUATIONS), 5144);
    length("the longest map, as a constant", FIT_MAP_LENGTH, 5144);
    length("the longest job, as a constant", FIT_JOB_LENGTH, 23576);
    length("no amendments", fit_amendments_length(0), 0);
    length("two amendments", fit_amendments_length(2), 40);
    length("the most amendments", fit_amendments_length(FIT_MOST_AMENDMENTS), 10240);
    length("the most amendments, as a constant", FIT_AMENDMENTS_LENGTH, 10240);
}

int main(void) {
    try_planned();
    try_no_fit();
    try_refused();
    try_lent();
    try_check();
    try_workings();
    try_lengths();
    printf("%d passed, %d failed\n", passed, failed);
    return failed != 0;
}
