/* Tries what fit_plan hands on, by an entry of its own in place of the archive's. In C11 and in C++17. Prints each failure;
 * status 0 where there is none. */
#include "fitplan.h"
#include "fitplan.h" /* a second time does no harm */
#include <stdio.h>

static struct fit_call got;
static uint32_t got_lent;

struct fit_outcome fit_plan_v2(const uint8_t *job, size_t job_length, const uint8_t *amendments, size_t amendments_length,
                               uint8_t *area, size_t area_length, uint8_t *map, size_t map_length, uint32_t lent) {
    const struct fit_outcome outcome = {1, 2, 3, 4, -5};
    got.job = job;
    got.job_length = job_length;
    got.amendments = amendments;
    got.amendments_length = amendments_length;
    got.area = area;
    got.area_length = area_length;
    got.map = map;
    got.map_length = map_length;
    got_lent = lent;
    return outcome;
}

static int failed;

/* The lengths that are to be handed on, with the pointers of the call. */
struct lengths {
    size_t job, amendments, area, map;
};

static void hands_on(const char *what, const struct fit_call *call, const struct lengths *wanted, uint32_t lent) {
    const struct fit_outcome outcome = fit_plan(call);
    if (got.job != call->job || got.amendments != call->amendments || got.area != call->area || got.map != call->map ||
        got.job_length != wanted->job || got.amendments_length != wanted->amendments || got.area_length != wanted->area ||
        got.map_length != wanted->map || got_lent != lent) {
        failed = 1;
        printf("failed: %s: fit_plan hands on other pointers, or lengths %zu, %zu, %zu, %zu and lent %lu"
               " in place of %zu, %zu, %zu, %zu and %lu\n",
               what, got.job_length, got.amendments_length, got.area_length, got.map_length, (unsigned long)got_lent,
               wanted->job, wanted->amendments, wanted->area, wanted->map, (unsigned long)lent);
    }
    if (outcome.kind != 1 || outcome.count != 2 || outcome.reason != 3 || outcome.row != 4 || outcome.worth != -5) {
        failed = 1;
        printf("failed: %s: fit_plan does not give the outcome as it is\n", what);
    }
}

static const uint8_t job[7] = {0}, amendments[4] = {0};
static uint8_t area[5], map[3];

/* A host that knows of no amendments, and has zeroed its call: none are handed on. */
static void without_amendments(void) {
    static struct fit_call call;
    struct lengths wanted = {0, 0, 0, 0};
    hands_on("a zeroed call", &call, &wanted, 0);
    call.job_length = 7;
    call.area_length = 5;
    call.map_length = 3;
    hands_on("lengths without pointers", &call, &wanted, 0);
    call.job = job, wanted.job = 7;
    hands_on("a job", &call, &wanted, 0);
    call.area = area, wanted.area = 5;
    hands_on("a job and an area", &call, &wanted, 0);
    call.map = map, wanted.map = 3;
    hands_on("a job, an area and a map area", &call, &wanted, 1);
    call.map_length = 0, wanted.map = 0;
    hands_on("a map area of length 0", &call, &wanted, 1);
    call.job_length = 0, wanted.job = 0;
    call.area_length = 0, wanted.area = 0;
    hands_on("all of length 0", &call, &wanted, 1);
}

static void with_amendments(void) {
    static struct fit_call call;
    struct lengths wanted = {0, 0, 0, 0};
    call.amendments_length = 4;
    hands_on("a length without amendments", &call, &wanted, 0);
    call.amendments = amendments, wanted.amendments = 4;
    hands_on("amendments alone", &call, &wanted, 0);
    call.job = job, call.job_length = 7, wanted.job = 7;
    call.area = area, call.area_length = 5, wanted.area = 5;
    hands_on("a job, amendments and an area", &call, &wanted, 0);
    call.map = map, call.map_length = 3, wanted.map = 3;
    hands_on("all four", &call, &wanted, 1);
    call.amendments_length = 0, wanted.amendments = 0;
    hands_on("amendments of length 0", &call, &wanted, 1);
}

int main(void) {
    without_amendments();
    with_amendments();
    return failed;
}
