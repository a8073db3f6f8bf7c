/* Measures the stack of a call: in a thread whose stack is an array here, fills what lies below with a pattern, makes the
 * call, and looks how deep the pattern was overwritten. Prints the most of several calls on full frames, without amendments and
 * with as many as there can be. */
#define _POSIX_C_SOURCE 200809L
#include "fitplan.h"
#include <pthread.h>
#include <stdio.h>

/* NEAR: room for the frames of the functions here, which is not filled. So a result below NEAR says no more than that. */
enum { STACK = 1 << 20, NEAR = 512, OLD = 0xA5 };
static _Alignas(4096) volatile uint8_t stack[STACK];

static uint8_t job[FIT_JOB_LENGTH], amendments[FIT_AMENDMENTS_LENGTH], sheet[FIT_SHEET_LENGTH], map[FIT_MAP_LENGTH];
static size_t job_length;

static void put(uint8_t *at, int64_t value, int bytes) {
    for (int i = 0; i < bytes; i++) at[i] = (uint8_t)((uint64_t)value >> 8 * i);
}

/* A job of 256 counts, each from -high to high, and m equations: a * c0 + b * c1 = 0, a * c1 + b * c2 = 0, .., a chain of
 * 255, and from the start again, which closes rings. The last one has c in place of 0. */
static void make(int32_t high, int m, int32_t a, int32_t b, int64_t c) {
    const int n = FIT_MOST_COUNTS;
    const uint8_t mark[4] = {'F', 'I', 'T', '1'};
    for (int i = 0; i < 4; i++) job[i] = mark[i];
    job_length = (size_t)(24 + 12 * n + 20 * m);
    put(job + 4, n, 2);
    put(job + 6, m, 2);
    put(job + 8, 24, 4);
    put(job + 12, 24 + 12 * n, 4);
    put(job + 16, (int64_t)job_length, 4);
    put(job + 20, 0, 4);
    for (int i = 0; i < n; i++) {
        uint8_t *row = job + 24 + 12 * i;
        put(row, -high, 4);
        put(row + 4, high, 4);
        put(row + 8, 1, 4);
    }
    for (int i = 0; i < m; i++) {
        uint8_t *row = job + 24 + 12 * n + 20 * i;
        put(row, i % (n - 1), 2);
        put(row + 2, i % (n - 1) + 1, 2);
        put(row + 4, a, 4);
        put(row + 8, b, 4);
        put(row + 12, i == m - 1 ? c : 0, 8);
    }
}

/* Two amendments to each count: one that leaves it no number, and behind all of these one that supersedes it and brings the
 * bounds -high to high. */
static void amend(int32_t high) {
    const int n = FIT_MOST_COUNTS;
    for (int i = 0; i < 2 * n; i++) {
        uint8_t *row = amendments + 20 * i;
        put(row, i + 1, 4);
        put(row + 4, i < n ? 0 : i - n + 1, 4);
        put(row + 8, i % n, 2);
        put(row + 10, 0, 2);
        put(row + 12, i < n ? high : -high, 4);
        put(row + 16, i < n ? -high : high, 4);
    }
}

static size_t most;
static const char *wrong;

static void fill(const uint8_t *here) {
    for (volatile uint8_t *at = stack; at < here - NEAR; at++) *at = OLD;
}

static void look(const uint8_t *here) {
    const volatile uint8_t *at = stack;
    while (at < here && *at == OLD) at++;
    size_t deep = (size_t)(here - at);
    if (deep > most) most = deep;
}

static void plan_with(size_t amendments_length, uint32_t kind, const char *what) {
    const uint8_t *here = __builtin_frame_address(0);
    const struct fit_call call = {.job = job, .job_length = job_length, .area = sheet, .area_length = sizeof sheet,
                                  .map = map, .map_length = sizeof map,
                                  .amendments = amendments, .amendments_length = amendments_length};
    fill(here);
    if (fit_plan(&call).kind != kind) wrong = what;
    look(here);
    fill(here);
    if (fit_check(job, job_length).reason != 0) wrong = what;
    look(here);
    fill(here);
    if (fit_check_amendments(job, job_length, amendments, amendments_length).reason != 0) wrong = what;
    look(here);
}

/* A job that the amendments leave as it is, planned without them and with them. */
static void plan(uint32_t kind, const char *what) {
    plan_with(0, kind, what);
    plan_with(sizeof amendments, kind, what);
}

static void work(void) {
    const uint8_t *here = __builtin_frame_address(0);
    const struct fit_run run = {-1000000000, 3, 600000000};
    fill(here);
    fit_divide(-7, 2);
    fit_meet(run, run);
    fit_carry(999999, -1000000, 1, run);
    look(here);
}

static void calls(void) {
    amend(9);
    make(9, FIT_MOST_EQUATIONS, 1, -1, 0);
    plan(FIT_PLANNED, "a chain with rings");
    make(9, FIT_MOST_EQUATIONS, 1, -1, 1);
    plan(FIT_NO_FIT, "a chain with rings, and no fit");
    amend(1000000000);
    make(1000000000, FIT_MOST_EQUATIONS, 2, -3, 0);
    plan(FIT_PLANNED, "a chain with rings, and one fit");
    make(1000000000, 0, 0, 0, 0);
    plan(FIT_PLANNED, "256 counts, each for itself");
    work();
}

static void *run(void *unused) {
    calls(); /* once for the dynamic linker, which looks memcpy and memset up on this stack */
    most = 0;
    calls();
    return unused;
}

int main(void) {
    pthread_attr_t attributes;
    pthread_t thread;
    if (pthread_attr_init(&attributes) != 0 || pthread_attr_setstack(&attributes, (void *)stack, STACK) != 0 ||
        pthread_create(&thread, &attributes, run, NULL) != 0 || pthread_join(thread, NULL) != 0) {
        puts("stack of a call: no thread could be made");
        return 1;
    }
    if (wrong != NULL) {
        printf("stack of a call: %s: the call does not give what it should\n", wrong);
        return 1;
    }
    printf("stack of a call: %zu bytes\n", most);
    return 0;
}
