/* Amendments, through the archive: for each trap the verdict, the sheet and the map, or the reason and the row, worked out by
 * hand. Prints each failure, and last 'N passed, M failed'. */
#include "fitplan.h"
#include <stdio.h>
#include <stdlib.h>
#include <string.h>

enum { MOST = 5, ROOM = 128, MARGIN = 16, OLD = 0xA5 };

struct bounds {
    int32_t low, high;
};
struct amendment {
    uint32_t number, supersedes;
    uint16_t count, zero;
    struct bounds bounds;
};

/* ---- what is taken: counts 0 and 1 with these bounds and the weights 1 and 2, and c0 + c1 = 6 ---- */

struct trap {
    const char *what;
    struct bounds rows[2];
    size_t many;
    struct amendment amendments[MOST];
    uint32_t fits; /* 0: no fit at count 0 */
    int32_t base;  /* of count 0; the first fit-out is the best, since count 1 is worth more */
};

#define DIGITS {{0, 9}, {0, 9}}
#define FULL {-1000000000, 1000000000}
#define NONE {1000000000, -1000000000}

static const struct trap traps[] = {
    {"no amendments", DIGITS, 0, {{0}}, 7, 0},
    {"narrower bounds", DIGITS, 1, {{1, 0, 0, 0, {2, 4}}}, 3, 2},
    {"narrower bounds of count 1", DIGITS, 1, {{1, 0, 1, 0, {2, 4}}}, 3, 2},
    {"bounds as in the row", DIGITS, 1, {{1, 0, 0, 0, {0, 9}}}, 7, 0},
    {"one number", DIGITS, 1, {{1, 0, 0, 0, {5, 5}}}, 1, 5},
    {"wider bounds: count 1 goes up to 9 alone", DIGITS, 1, {{1, 0, 0, 0, {-20, 20}}}, 10, -3},
    {"wider bounds of both", DIGITS, 2, {{1, 0, 0, 0, {-20, 20}}, {2, 0, 1, 0, {-14, 26}}}, 41, -20},
    {"the full range", DIGITS, 2, {{1, 0, 0, 0, FULL}, {2, 0, 1, 0, FULL}}, 1999999995, -999999994},
    /* the first does not come back when the second, which supersedes it, is superseded */
    {"a chain of three", DIGITS, 3, {{1, 0, 0, 0, {5, 6}}, {2, 1, 0, 0, NONE}, {3, 2, 0, 0, {2, 4}}}, 3, 2},
    {"chains of two counts", DIGITS, 5,
     {{1, 0, 0, 0, {5, 6}}, {2, 0, 1, 0, NONE}, {3, 1, 0, 0, NONE}, {4, 2, 1, 0, {1, 5}}, {5, 3, 0, 0, {2, 4}}}, 3, 2},
    {"numbers with gaps", DIGITS, 2, {{7, 0, 0, 0, NONE}, {900, 7, 0, 0, {2, 4}}}, 3, 2},
    {"numbers up to the highest", DIGITS, 3,
     {{2147483647, 0, 0, 0, NONE}, {2147483648, 0, 1, 0, {0, 9}}, {UINT32_MAX, 2147483647, 0, 0, {2, 4}}}, 3, 2},
    {"low above high in force", DIGITS, 1, {{1, 0, 0, 0, {4, 3}}}, 0, 0},
    {"low above high of count 1 in force", DIGITS, 1, {{1, 0, 1, 0, NONE}}, 0, 0},
    {"low above high superseded", DIGITS, 2, {{1, 0, 0, 0, {4, 3}}, {2, 1, 0, 0, {2, 4}}}, 3, 2},
    {"a job without a fit", {{9, 0}, {0, 9}}, 0, {{0}}, 0, 0},
    {"a job without a fit, amended", {{9, 0}, {0, 9}}, 1, {{1, 0, 0, 0, {0, 9}}}, 7, 0},
    {"a job without a fit, amended elsewhere", {{9, 0}, {0, 9}}, 1, {{1, 0, 1, 0, {0, 9}}}, 0, 0},
    {"both 7 to 9", {{7, 9}, {7, 9}}, 0, {{0}}, 0, 0},
    {"both 7 to 9, and count 1 amended", {{7, 9}, {7, 9}}, 1, {{1, 0, 1, 0, {-2, -1}}}, 2, 7},
    {"a fit unmade", DIGITS, 1, {{1, 0, 0, 0, {7, 9}}}, 0, 0},
};

/* ---- what is refused, for the same job with bounds 0 to 9 ---- */

struct fault {
    const char *what;
    size_t many;
    struct amendment amendments[MOST];
    uint32_t reason, row;
};

#define DIGIT {0, 9}
#define FIRST {1, 0, 0, 0, DIGIT}

static const struct fault faults[] = {
    {"a zero field in row 0, its lower byte", 1, {{1, 0, 0, 1, DIGIT}}, 11, 0},
    {"a zero field in row 1, its higher byte", 2, {FIRST, {2, 0, 1, 32768, DIGIT}}, 11, 1},
    {"number 0 in row 0, and a zero field in row 3", 4,
     {{0, 0, 0, 0, DIGIT}, {2, 0, 1, 0, DIGIT}, {3, 2, 1, 0, DIGIT}, {4, 3, 1, 1, DIGIT}}, 11, 3},
    {"number 0", 1, {{0, 0, 0, 0, DIGIT}}, 12, 0},
    {"number 0 in row 1", 2, {FIRST, {0, 0, 1, 0, DIGIT}}, 12, 1},
    {"equal numbers", 2, {FIRST, {1, 0, 1, 0, DIGIT}}, 12, 1},
    {"falling numbers", 2, {{5, 0, 0, 0, DIGIT}, {4, 0, 1, 0, DIGIT}}, 12, 1},
    {"a number between those before it", 3, {{5, 0, 0, 0, DIGIT}, {9, 0, 1, 0, DIGIT}, {7, 5, 0, 0, DIGIT}}, 12, 2},
    {"numbers that fall across 2,147,483,648", 2, {{2147483648, 0, 0, 0, DIGIT}, {2147483647, 0, 1, 0, DIGIT}}, 12, 1},
    {"count 2", 1, {{1, 0, 2, 0, DIGIT}}, 12, 0},
    {"count 65,535 in row 1", 2, {FIRST, {2, 0, 65535, 0, DIGIT}}, 12, 1},
    {"one that supersedes itself", 1, {{1, 1, 0, 0, DIGIT}}, 12, 0},
    {"one that supersedes a later one", 2, {{1, 2, 0, 0, DIGIT}, {2, 0, 0, 0, DIGIT}}, 12, 0},
    {"one that supersedes another count's", 2, {FIRST, {2, 1, 1, 0, DIGIT}}, 12, 1},
    {"one that supersedes what is not there", 2, {{5, 0, 0, 0, DIGIT}, {7, 6, 0, 0, DIGIT}}, 12, 1},
    {"one that supersedes row 1, which is no number", 2, {{5, 0, 0, 0, DIGIT}, {7, 1, 0, 0, DIGIT}}, 12, 1},
    {"two in force", 2, {FIRST, {2, 0, 0, 0, DIGIT}}, 13, 1},
    {"two that supersede the first", 3, {FIRST, {2, 1, 0, 0, DIGIT}, {3, 1, 0, 0, DIGIT}}, 13, 2},
    {"two in force, the later of which supersedes one", 3, {FIRST, {2, 0, 0, 0, DIGIT}, {3, 2, 0, 0, DIGIT}}, 13, 2},
    {"three in force", 3, {FIRST, {2, 0, 0, 0, DIGIT}, {3, 0, 0, 0, DIGIT}}, 13, 1},
    {"two in force of each count", 4, {FIRST, {2, 0, 1, 0, DIGIT}, {3, 0, 1, 0, DIGIT}, {4, 0, 0, 0, DIGIT}}, 13, 2},
    {"12 in row 2 and 13 in row 1", 3, {FIRST, {2, 0, 0, 0, DIGIT}, {3, 0, 2, 0, DIGIT}}, 12, 2},
    {"a low past the range", 1, {{1, 0, 0, 0, {-1000000001, 9}}}, 5, 0},
    {"a high past the range", 1, {{1, 0, 0, 0, {0, 1000000001}}}, 5, 0},
    {"the least and the greatest low", 2, {{1, 0, 0, 0, {INT32_MIN, 9}}, {2, 0, 1, 0, {INT32_MAX, 9}}}, 5, 0},
    {"a high past the range in row 1", 2, {{1, 0, 1, 0, DIGIT}, {2, 0, 0, 0, {0, -1000000001}}}, 5, 1},
    {"a low past the range, superseded", 3, {{1, 0, 1, 0, DIGIT}, {2, 0, 0, 0, {1000000001, 9}}, {3, 2, 0, 0, DIGIT}}, 5, 1},
    {"5 in row 0 and 13 in row 1", 2, {{1, 0, 0, 0, {0, 1000000001}}, {2, 0, 0, 0, DIGIT}}, 13, 1},
    {"5 in row 0 and 12 in row 1", 2, {{1, 0, 0, 0, {0, 1000000001}}, {2, 0, 2, 0, DIGIT}}, 12, 1},
    {"5 in row 0 and 11 in row 1", 2, {{1, 0, 0, 0, {0, 1000000001}}, {2, 1, 0, 1, DIGIT}}, 11, 1},
};

/* ---- bytes, the lowest first ---- */

struct bytes {
    uint8_t at[ROOM];
    size_t length;
};

static void put(struct bytes *b, int width, int64_t x) {
    for (int i = 0; i < width; i++) b->at[b->length++] = (uint8_t)((uint64_t)x >> (8 * i));
}

static void put_mark(struct bytes *b, const char *mark) {
    for (int i = 0; i < 4; i++) put(b, 1, mark[i]);
}

static struct bytes job_of(const struct bounds rows[2]) {
    struct bytes b = {.length = 0};
    put_mark(&b, "FIT1");
    put(&b, 2, 2), put(&b, 2, 1), put(&b, 4, 24), put(&b, 4, 48), put(&b, 4, 68), put(&b, 4, 0);
    for (int i = 0; i < 2; i++) put(&b, 4, rows[i].low), put(&b, 4, rows[i].high), put(&b, 4, i + 1);
    put(&b, 2, 0), put(&b, 2, 1), put(&b, 4, 1), put(&b, 4, 1), put(&b, 8, 6);
    return b;
}

static struct bytes bytes_of(const struct amendment *amendments, size_t many) {
    struct bytes b = {.length = 0};
    for (size_t i = 0; i < many; i++) {
        const struct amendment a = amendments[i];
        put(&b, 4, a.number), put(&b, 4, a.supersedes), put(&b, 2, a.count), put(&b, 2, a.zero);
        put(&b, 4, a.bounds.low), put(&b, 4, a.bounds.high);
    }
    return b;
}

static int64_t worth(const struct trap *t) {
    return t->base + 2 * (6 - (int64_t)t->base);
}

static struct bytes sheet_of(const struct trap *t) {
    struct bytes b = {.length = 0};
    const int32_t base[2] = {t->base, 6 - t->base}, step = t->fits > 1;
    if (t->fits == 0) return b;
    put_mark(&b, "ANS1");
    put(&b, 2, 2), put(&b, 2, 1), put(&b, 4, 24), put(&b, 4, 56), put(&b, 8, worth(t));
    for (int i = 0; i < 2; i++) {
        put(&b, 4, base[i]), put(&b, 4, base[i]), put(&b, 4, i == 0 ? step : -step), put(&b, 2, 0), put(&b, 2, 0);
    }
    put(&b, 4, t->fits), put(&b, 4, 0), put(&b, 8, -step);
    return b;
}

/* Of every one of these jobs: one group, each count named once, the equation joins. */
static struct bytes map_of_all(void) {
    struct bytes b = {.length = 0};
    put_mark(&b, "MAP1");
    put(&b, 2, 2), put(&b, 2, 1), put(&b, 4, 24), put(&b, 4, 32), put(&b, 2, 1), put(&b, 6, 0);
    put(&b, 2, 0), put(&b, 2, 1), put(&b, 2, 0), put(&b, 2, 1), put(&b, 2, 0), put(&b, 2, 1);
    return b;
}

/* ---- a call, with a margin on either side of each area that has to stay as it was ---- */

enum { SHEET = 24 + 16 * 2 + 16, MAP = 24 + 4 * 2 + 4 };
static uint8_t area_room[MARGIN + ROOM], map_room[MARGIN + ROOM];
static int passed, failed;

static void tell(const char *what, int holds, const char *fault) {
    if (holds) {
        passed++;
        return;
    }
    failed++;
    printf("failed: %s: %s\n", what, fault);
}

static struct fit_outcome planned(const struct bytes *job, const uint8_t *amendments, size_t length, size_t sheet, size_t map) {
    const struct fit_call call = {.job = job->at, .job_length = job->length, .area = area_room + MARGIN, .area_length = sheet,
                                  .map = map_room + MARGIN, .map_length = map,
                                  .amendments = amendments, .amendments_length = length};
    memset(area_room, OLD, sizeof area_room);
    memset(map_room, OLD, sizeof map_room);
    return fit_plan(&call);
}

static int holds(const uint8_t *room, struct bytes report) {
    for (size_t i = 0; i < MARGIN + ROOM; i++) {
        const int in_report = i >= MARGIN && i - MARGIN < report.length;
        if (room[i] != (in_report ? report.at[i - MARGIN] : OLD)) return 0;
    }
    return 1;
}

static int checks(const struct bytes *job, const uint8_t *amendments, size_t length, uint32_t reason, uint32_t row) {
    const struct fit_checked got = fit_check_amendments(job->at, job->length, amendments, length);
    return got.reason == reason && got.row == row;
}

/* Refused with this reason and row: by the planning call, whatever areas are lent, and by the check. Nothing is written. */
static void refused(const char *what, const struct bytes *job, const uint8_t *amendments, size_t length, uint32_t reason,
                    uint32_t row) {
    const size_t sheets[] = {SHEET, 0, SHEET, 0}, maps[] = {MAP, MAP, 0, 0};
    const struct bytes none = {.length = 0};
    for (int i = 0; i < 4; i++) {
        const struct fit_outcome got = planned(job, amendments, length, sheets[i], maps[i]);
        tell(what, got.kind == FIT_REFUSED && got.reason == reason && got.row == row && got.count == 0 && got.worth == 0,
             "not refused with its reason and row");
        tell(what, holds(area_room, none) && holds(map_room, none), "an area was written to");
    }
    tell(what, checks(job, amendments, length, reason, row), "the check gives another reason or row");
}

/* ---- the traps and the faults ---- */

static void try_trap(const struct trap *t) {
    const struct bytes job = job_of(t->rows), amendments = bytes_of(t->amendments, t->many), before = amendments;
    const struct fit_outcome got = planned(&job, amendments.at, amendments.length, SHEET, MAP);
    const int right = t->fits > 0 ? got.kind == FIT_PLANNED && got.worth == worth(t) : got.kind == FIT_NO_FIT && got.count == 0;
    tell(t->what, right, "another verdict");
    tell(t->what, holds(area_room, sheet_of(t)), "another sheet");
    tell(t->what, holds(map_room, map_of_all()), "another map");
    tell(t->what, memcmp(&amendments, &before, sizeof before) == 0, "the amendments were written to");
    tell(t->what, checks(&job, amendments.at, amendments.length, 0, 0), "the check refuses it");
    tell(t->what, planned(&job, amendments.at, amendments.length, SHEET - 1, MAP - 1).reason == FIT_REASON_SHORT_AREA,
         "a short area is not refused with 8");
    tell(t->what, planned(&job, amendments.at, amendments.length, SHEET, MAP - 1).reason == FIT_REASON_SHORT_MAP,
         "a short map area is not refused with 10");
}

static const struct bounds digits[2] = DIGITS;

static void try_fault(const struct fault *f) {
    const struct bytes job = job_of(digits), amendments = bytes_of(f->amendments, f->many);
    refused(f->what, &job, amendments.at, amendments.length, f->reason, f->row);
    tell(f->what, fit_check(job.at, job.length).reason == 0, "the job itself is refused");
}

/* ---- lengths and numbers of amendments ---- */

/* A chain for count 0, each of which supersedes the one before it; all of them say 2 to 4. */
static uint8_t *chain_of(size_t many) {
    uint8_t *chain = malloc(20 * many);
    if (chain == NULL) exit(1);
    for (size_t i = 0; i < many; i++) {
        const struct bytes row = bytes_of(&(struct amendment){(uint32_t)i + 1, (uint32_t)i, 0, 0, {2, 4}}, 1);
        memcpy(chain + 20 * i, row.at, 20);
    }
    return chain;
}

static void try_lengths(void) {
    const struct bytes job = job_of(digits);
    uint8_t *chain = chain_of(65537);
    for (size_t length = 1; length < 60; length++)
        if (length % 20 != 0) refused("a length that is no multiple of 20", &job, chain, length, 11, 0);
    refused("512 amendments and a byte", &job, chain, 20 * 512 + 1, 11, 0);
    refused("513 amendments", &job, chain, 20 * 513, 11, 0);
    refused("65,536 amendments", &job, chain, 20 * 65536, 11, 0);
    refused("65,537 amendments", &job, chain, 20 * 65537, 11, 0);
    const struct fit_outcome got = planned(&job, chain, 20 * FIT_MOST_AMENDMENTS, SHEET, MAP);
    tell("512 amendments", got.kind == FIT_PLANNED && got.worth == 10, "not planned with 2 and 4");
    tell("512 amendments", checks(&job, chain, FIT_AMENDMENTS_LENGTH, 0, 0), "the check refuses them");
    /* both are looked at before the zero fields */
    chain[20 * 3 + 11] = 1;
    refused("a zero field in row 3", &job, chain, 20 * 5, 11, 3);
    refused("a zero field in row 3, and a length of 99", &job, chain, 99, 11, 0);
    refused("a zero field in row 3, and 513 amendments", &job, chain, 20 * 513, 11, 0);
    free(chain);
}

/* ---- the job's own reasons come first ---- */

/* The job with one byte changed, with amendments of 19 bytes. */
static void spoiled(const char *what, size_t at, uint8_t byte, uint32_t reason, uint32_t row) {
    static const uint8_t odd[19] = {0};
    struct bytes job = job_of(digits);
    job.at[at] = byte;
    refused(what, &job, odd, sizeof odd, reason, row);
}

static void try_jobs(void) {
    const struct amendment one = FIRST;
    const struct bytes amendments = bytes_of(&one, 1);
    struct bytes job = job_of(digits);
    spoiled("another mark", 3, '2', 2, 0);
    spoiled("65,282 counts", 5, 255, 3, 0);
    spoiled("a zero field of the job", 20, 1, 4, 0);
    spoiled("a low of 1,073,741,824", 39, 64, 5, 1);
    spoiled("an equation with count 2", 48, 2, 6, 0);
    spoiled("an equation with a = 1,048,577", 54, 16, 7, 0);
    job.length = 23;
    refused("a job of 23 bytes", &job, amendments.at, 20, 1, 0);

    const uint8_t no_counts[24] = {'F', 'I', 'T', '1', 0, 0, 0, 0, 24, 0, 0, 0, 24, 0, 0, 0, 24};
    memcpy(job.at, no_counts, 24);
    job.length = 24;
    refused("no counts, and an amendment", &job, amendments.at, 20, 12, 0);
    tell("no counts, and none", planned(&job, amendments.at, 0, SHEET, MAP).kind == FIT_PLANNED, "not planned");
}

/* ---- pointers ---- */

static void try_pointers(void) {
    const struct bytes job = job_of(digits);
    const struct amendment one = {1, 0, 0, 0, {2, 4}};
    const struct bytes amendments = bytes_of(&one, 1);
    uint8_t room[24];
    tell("NULL with a length", planned(&job, NULL, 20, SHEET, MAP).worth == 12, "not planned as without amendments");
    tell("NULL without a length", planned(&job, NULL, 0, SHEET, MAP).worth == 12, "not planned as without amendments");
    tell("length 0", planned(&job, amendments.at, 0, SHEET, MAP).worth == 12, "not planned as without amendments");
    tell("length 0", checks(&job, amendments.at, 0, 0, 0) && checks(&job, NULL, 0, 0, 0), "the check refuses it");
    for (size_t at = 0; at < 4; at++) {
        memcpy(room + at, amendments.at, 20);
        tell("any address", planned(&job, room + at, 20, SHEET, MAP).worth == 10, "not planned as amended");
    }
    /* a host that does not know of amendments */
    const struct fit_call call = {.job = job.at, .job_length = job.length, .area = area_room, .area_length = SHEET};
    tell("no amendments named", fit_plan(&call).worth == 12, "not planned as without amendments");
}

int main(void) {
    for (size_t i = 0; i < sizeof traps / sizeof traps[0]; i++) try_trap(&traps[i]);
    for (size_t i = 0; i < sizeof faults / sizeof faults[0]; i++) try_fault(&faults[i]);
    try_lengths();
    try_jobs();
    try_pointers();
    printf("%d passed, %d failed\n", passed, failed);
    return failed > 0 || passed == 0;
}
