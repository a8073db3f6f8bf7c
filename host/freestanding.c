/* The planner without a C library, on Linux x86-64: plans job M, with a map, and prints both as example.c does.
 *
 *     cc -ffreestanding -fno-stack-protector -nostdlib -static freestanding.c libfitplan.a
 *
 * Status: 0 where the job is planned and all is written. */
#include "fitplan.h"
#include "show.h"

/* ---- what the archive asks for ---- */

/* In a loop: keeps the compiler from taking it for a call of memcpy or memset, which would call itself. */
#define PLAIN __asm__ volatile("")

void *memcpy(void *restrict to, const void *restrict from, size_t length) {
    unsigned char *t = to;
    const unsigned char *f = from;
    for (; length > 0; length--) {
        *t++ = *f++;
        PLAIN;
    }
    return to;
}

void *memset(void *to, int value, size_t length) {
    unsigned char *t = to;
    for (; length > 0; length--) {
        *t++ = (unsigned char)value;
        PLAIN;
    }
    return to;
}

/* ---- what showing the plan asks for ---- */

static long system_call(long number, long a, long b, long c) {
    long result;
    __asm__ volatile("syscall" : "=a"(result) : "a"(number), "D"(a), "S"(b), "d"(c) : "rcx", "r11", "memory");
    return result;
}

static char text[2048];
static size_t text_length;

/* What does not fit is counted, and not kept. */
void put(char byte) {
    if (text_length < sizeof text) text[text_length] = byte;
    text_length++;
}

/* Whether the whole text was written to standard output. */
static int written(void) {
    if (text_length > sizeof text) return 0;
    for (size_t at = 0; at < text_length;) {
        long many = system_call(1, 1, (long)(text + at), (long)(text_length - at));
        if (many <= 0) return 0;
        at += (size_t)many;
    }
    return 1;
}

/* ---- the host ---- */

static const uint8_t job[112] = {
    'F', 'I', 'T', '1', 4, 0, 2, 0, 24, 0, 0, 0, 72, 0, 0, 0, 112, 0, 0, 0, 0, 0, 0, 0,
    0, 0, 0, 0, 20, 0, 0, 0, 226, 255, 255, 255, /* 0..20, weight -30 */
    0, 0, 0, 0, 200, 0, 0, 0, 4, 0, 0, 0,        /* 0..200, weight 4 */
    0, 0, 0, 0, 9, 0, 0, 0, 246, 255, 255, 255,  /* 0..9, weight -10 */
    2, 0, 0, 0, 5, 0, 0, 0, 0, 0, 0, 0,          /* 2..5, weight 0 */
    0, 0, 1, 0, 16, 0, 0, 0, 255, 255, 255, 255, 0, 0, 0, 0, 0, 0, 0, 0, /* 16 c0 - c1 = 0 */
    0, 0, 2, 0, 2, 0, 0, 0, 253, 255, 255, 255, 4, 0, 0, 0, 0, 0, 0, 0,  /* 2 c0 - 3 c2 = 4 */
};

static uint8_t sheet[24 + 16 * 4 + 16 * 2], map[24 + 4 * 4 + 4 * 2];

/* The kernel enters with no return address on the stack, so the compiler is told to align it. */
__attribute__((noreturn, force_align_arg_pointer)) void _start(void);
void _start(void) {
    struct fit_call call = {.job = job, .job_length = sizeof job, .area = sheet, .area_length = sizeof sheet,
                            .map = map, .map_length = sizeof map};
    struct fit_outcome outcome = fit_plan(&call);
    int well = outcome.kind == FIT_PLANNED;
    if (well) {
        show("worth ", outcome.worth);
        put('\n');
        show_sheet(sheet);
        show_map(map);
        well = written();
    }
    for (;;) system_call(60, !well, 0, 0);
}
