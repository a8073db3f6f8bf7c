/* Ties that fix one count, through the archive: a job for each trap, with verdict, sheet and map worked out by hand. Prints each
 * failure, and last 'N passed, M failed'. */
#include "fitplan.h"
#include <inttypes.h>
#include <stdio.h>
#include <string.h>

enum { MOST = 3, ROOM = 256, OLD = 0xA5 };

struct count {
    int32_t low, high, weight;
};
struct tie {
    uint16_t left, right;
    int32_t a, b;
    int64_t c;
};
struct number {
    int32_t number, base, step;
};
struct group {
    uint32_t fits, chosen;
    int64_t gain;
};
struct trap {
    const char *what;
    size_t n, m, g;
    struct count counts[MOST];
    struct tie ties[MOST];
    uint16_t count_group[MOST], named[MOST], tie_group[MOST], kind[MOST];
    int fits;
    uint32_t empty; /* where it does not fit, the count that is reported */
    int64_t worth;
    struct number numbers[MOST];
    struct group groups[MOST];
};

#define FULL {-1000000000, 1000000000, 0}
#define TEN {0, 9, 1}
#define TWO {0, 1, 0}
#define FOUR {0, 3, 0}
#define FREE {1, 0, 1} /* of TWO: at 1, the higher of two numbers of equal worth */
#define BOTH {2, 1, 0}

static const struct trap traps[] = {
    {"3 c0 = 12", 1, 1, 1, {TEN}, {{0, 0, 3, 0, 12}}, {0}, {1}, {0}, {3}, 1, 0, 4, {{4, 4, 0}}, {{1, 0, 0}}},
    {"0 c0 + 3 c0 = 12", 1, 1, 1, {TEN}, {{0, 0, 0, 3, 12}}, {0}, {1}, {0}, {3}, 1, 0, 4, {{4, 4, 0}}, {{1, 0, 0}}},
    {"2 c0 + c0 = 12", 1, 1, 1, {TEN}, {{0, 0, 2, 1, 12}}, {0}, {1}, {0}, {3}, 1, 0, 4, {{4, 4, 0}}, {{1, 0, 0}}},
    {"2 c0 + c0 = 13", 1, 1, 1, {TEN}, {{0, 0, 2, 1, 13}}, {0}, {1}, {0}, {3}, 0, 0, 0, {{0}}, {{0}}},
    {"2 c0 + c0 = 30, past the high", 1, 1, 1, {TEN}, {{0, 0, 2, 1, 30}}, {0}, {1}, {0}, {3}, 0, 0, 0, {{0}}, {{0}}},
    /* the two counts stay two groups, and the tie is in the left one's */
    {"0 = 0 between two groups", 2, 1, 2, {TWO, TWO}, {{1, 0, 0, 0, 0}}, {0, 1}, {1, 1}, {1}, {3}, 1, 0, 0, {FREE, FREE}, {BOTH, BOTH}},
    {"0 = 5, left count 0", 2, 1, 2, {TWO, TWO}, {{0, 1, 0, 0, 5}}, {0, 1}, {1, 1}, {0}, {3}, 0, 0, 0, {{0}}, {{0}}},
    {"0 = 5, left count 1", 2, 1, 2, {TWO, TWO}, {{1, 0, 0, 0, 5}}, {0, 1}, {1, 1}, {1}, {3}, 0, 1, 0, {{0}}, {{0}}},
    {"0 = -5, left count 1", 2, 1, 2, {TWO, TWO}, {{1, 0, 0, 0, -5}}, {0, 1}, {1, 1}, {1}, {3}, 0, 1, 0, {{0}}, {{0}}},
    {"3 c1 - 3 c1 = 0", 2, 1, 2, {TWO, TWO}, {{1, 1, 3, -3, 0}}, {0, 1}, {0, 1}, {1}, {3}, 1, 0, 0, {FREE, FREE}, {BOTH, BOTH}},
    {"3 c1 - 3 c1 = 1", 2, 1, 2, {TWO, TWO}, {{1, 1, 3, -3, 1}}, {0, 1}, {0, 1}, {1}, {3}, 0, 1, 0, {{0}}, {{0}}},
    /* a is 0 and b is not: the group is the right count's; and the other way round */
    {"0 c0 + 3 c1 = 3", 2, 1, 2, {TWO, TWO}, {{0, 1, 0, 3, 3}}, {0, 1}, {1, 1}, {1}, {3}, 1, 0, 0, {FREE, {1, 1, 0}}, {BOTH, {1, 0, 0}}},
    {"0 c0 + 3 c1 = 4", 2, 1, 2, {TWO, TWO}, {{0, 1, 0, 3, 4}}, {0, 1}, {1, 1}, {1}, {3}, 0, 1, 0, {{0}}, {{0}}},
    {"3 c0 + 0 c1 = 4", 2, 1, 2, {TWO, TWO}, {{0, 1, 3, 0, 4}}, {0, 1}, {1, 1}, {0}, {3}, 0, 0, 0, {{0}}, {{0}}},
    /* +-2,000,000 c0 = c, at both ends of the range, and just before the end, which is not whole */
    {"1,000,000 twice, at the high end", 1, 1, 1, {FULL}, {{0, 0, 1000000, 1000000, 2000000000000000}}, {0}, {1}, {0}, {3}, 1, 0, 0,
     {{1000000000, 1000000000, 0}}, {{1, 0, 0}}},
    {"-1,000,000 twice, at the low end", 1, 1, 1, {FULL}, {{0, 0, -1000000, -1000000, 2000000000000000}}, {0}, {1}, {0}, {3}, 1, 0, 0,
     {{-1000000000, -1000000000, 0}}, {{1, 0, 0}}},
    {"1,000,000 twice, at the low end", 1, 1, 1, {FULL}, {{0, 0, 1000000, 1000000, -2000000000000000}}, {0}, {1}, {0}, {3}, 1, 0, 0,
     {{-1000000000, -1000000000, 0}}, {{1, 0, 0}}},
    {"1,000,000 twice, not whole", 1, 1, 1, {FULL}, {{0, 0, 1000000, 1000000, 1999999999999999}}, {0}, {1}, {0}, {3}, 0, 0, 0, {{0}}, {{0}}},
    {"1,000,000 and -1,000,000", 1, 1, 1, {FULL}, {{0, 0, 1000000, -1000000, 0}}, {0}, {1}, {0}, {3}, 1, 0, 0,
     {{1000000000, -1000000000, 1}}, {{2000000001, 2000000000, 0}}},
    /* before the count is tied to another, and after */
    {"2 c0 = 4, then c0 + c1 = 3", 2, 2, 1, {FOUR, FOUR}, {{0, 0, 2, 0, 4}, {0, 1, 1, 1, 3}}, {0, 0}, {2, 1}, {0, 0}, {3, 1}, 1, 0, 0,
     {{2, 2, 0}, {1, 1, 0}}, {{1, 0, 0}}},
    {"c0 + c1 = 3, then 2 c0 = 4", 2, 2, 1, {FOUR, FOUR}, {{0, 1, 1, 1, 3}, {0, 0, 2, 0, 4}}, {0, 0}, {2, 1}, {0, 0}, {1, 3}, 1, 0, 0,
     {{2, 2, 0}, {1, 1, 0}}, {{1, 0, 0}}},
    /* a coefficient of 0 between counts that another row joins: kind 3, and the other row's kind stays 1 */
    {"c0 - c1 = 1, then 2 c0 + 0 c1 = 4", 2, 2, 1, {FOUR, FOUR}, {{0, 1, 1, -1, 1}, {0, 1, 2, 0, 4}}, {0, 0}, {2, 2}, {0, 0}, {1, 3}, 1, 0, 0,
     {{2, 2, 0}, {1, 1, 0}}, {{1, 0, 0}}},
    {"0 c0 + 2 c1 = 2, then c0 - c1 = 1", 2, 2, 1, {FOUR, FOUR}, {{0, 1, 0, 2, 2}, {0, 1, 1, -1, 1}}, {0, 0}, {2, 2}, {0, 0}, {3, 1}, 1, 0, 0,
     {{2, 2, 0}, {1, 1, 0}}, {{1, 0, 0}}},
    /* the group of c1 and c2, which 2 c2 = 3 alone leaves without a fit: its lowest count is reported */
    {"c1 + c2 = 3, then 2 c2 = 3", 3, 2, 2, {TWO, FOUR, FOUR}, {{1, 2, 1, 1, 3}, {2, 2, 2, 0, 3}}, {0, 1, 1}, {0, 1, 2}, {1, 1}, {1, 3}, 0, 1, 0,
     {{0}}, {{0}}},
};

/* ---- bytes, the lowest first ---- */

struct bytes {
    uint8_t at[ROOM];
    size_t length;
};

static void put(struct bytes *b, int width, int64_t x) {
    for (int i = 0; i < width; i++) b->at[b->length++] = (uint8_t)((uint64_t)x >> (8 * i));
}

static void put_mark(struct bytes *b, const char *mark) {
    for (int i = 0; i < 4; i++) put(b, 1, mark[i]);
}

static struct bytes job_of(const struct trap *t) {
    struct bytes b = {.length = 0};
    put_mark(&b, "FIT1");
    put(&b, 2, (int64_t)t->n), put(&b, 2, (int64_t)t->m), put(&b, 4, 24), put(&b, 4, 24 + 12 * (int64_t)t->n);
    put(&b, 4, 24 + 12 * (int64_t)t->n + 20 * (int64_t)t->m), put(&b, 4, 0);
    for (size_t i = 0; i < t->n; i++) put(&b, 4, t->counts[i].low), put(&b, 4, t->counts[i].high), put(&b, 4, t->counts[i].weight);
    for (size_t k = 0; k < t->m; k++) {
        const struct tie e = t->ties[k];
        put(&b, 2, e.left), put(&b, 2, e.right), put(&b, 4, e.a), put(&b, 4, e.b), put(&b, 8, e.c);
    }
    return b;
}

static struct bytes sheet_of(const struct trap *t) {
    struct bytes b = {.length = 0};
    put_mark(&b, "ANS1");
    put(&b, 2, (int64_t)t->n), put(&b, 2, (int64_t)t->g), put(&b, 4, 24), put(&b, 4, 24 + 16 * (int64_t)t->n), put(&b, 8, t->worth);
    for (size_t i = 0; i < t->n; i++) {
        put(&b, 4, t->numbers[i].number), put(&b, 4, t->numbers[i].base), put(&b, 4, t->numbers[i].step);
        put(&b, 2, t->count_group[i]), put(&b, 2, 0);
    }
    for (size_t g = 0; g < t->g; g++) put(&b, 4, t->groups[g].fits), put(&b, 4, t->groups[g].chosen), put(&b, 8, t->groups[g].gain);
    return b;
}

static struct bytes map_of(const struct trap *t) {
    struct bytes b = {.length = 0};
    put_mark(&b, "MAP1");
    put(&b, 2, (int64_t)t->n), put(&b, 2, (int64_t)t->m), put(&b, 4, 24), put(&b, 4, 24 + 4 * (int64_t)t->n);
    put(&b, 2, (int64_t)t->g), put(&b, 6, 0);
    for (size_t i = 0; i < t->n; i++) put(&b, 2, t->count_group[i]), put(&b, 2, t->named[i]);
    for (size_t k = 0; k < t->m; k++) put(&b, 2, t->tie_group[k]), put(&b, 2, t->kind[k]);
    return b;
}

/* ---- one trap: an area just as long as the report, with a margin behind it that has to stay as it was ---- */

static int holds(const uint8_t *area, struct bytes report) {
    for (size_t i = 0; i < ROOM; i++)
        if (area[i] != (i < report.length ? report.at[i] : OLD)) return 0;
    return 1;
}

static int passed, failed;

static void tell(const char *what, const char *fault) {
    if (!fault) {
        passed++;
        return;
    }
    failed++;
    printf("failed: %s: %s\n", what, fault);
}

static void try_trap(const struct trap *t) {
    static uint8_t area[ROOM], map[ROOM];
    const struct bytes job = job_of(t), shown = map_of(t), none = {.length = 0};
    const size_t room = fit_sheet_length(t->n, t->g);
    memset(area, OLD, ROOM);
    memset(map, OLD, ROOM);
    const struct fit_call call = {.job = job.at, .job_length = job.length, .area = area, .area_length = room,
                                  .map = map, .map_length = shown.length};
    const struct fit_outcome got = fit_plan(&call);
    const int right = t->fits ? got.kind == FIT_PLANNED && got.worth == t->worth : got.kind == FIT_NO_FIT && got.count == t->empty;
    tell(t->what, right ? NULL : "another verdict");
    tell(t->what, holds(area, t->fits ? sheet_of(t) : none) ? NULL : "another sheet");
    tell(t->what, holds(map, shown) ? NULL : "another map");
}

int main(void) {
    for (size_t i = 0; i < sizeof traps / sizeof traps[0]; i++) try_trap(&traps[i]);
    printf("%d passed, %d failed\n", passed, failed);
    return failed > 0 || passed == 0;
}
