/* Prints a sheet and a map as text, for the programs in this folder, with a C library and without one. */
#ifndef SHOW_H
#define SHOW_H

#include "fitplan.h"

/* Writes one byte. Each program has its own. */
void put(char byte);

/* ---- little-endian fields ---- */

static inline uint16_t u16_at(const uint8_t *at) {
    return (uint16_t)(at[0] | at[1] << 8);
}

static inline uint32_t u32_at(const uint8_t *at) {
    return u16_at(at) | (uint32_t)u16_at(at + 2) << 16;
}

static inline int32_t i32_at(const uint8_t *at) {
    return (int32_t)u32_at(at);
}

static inline int64_t i64_at(const uint8_t *at) {
    return (int64_t)(u32_at(at) | (uint64_t)u32_at(at + 4) << 32);
}

/* ---- text ---- */

static inline void show_text(const char *text) {
    while (*text != '\0') put(*text++);
}

static inline void show_number(int64_t number) {
    char digits[20];
    int many = 0;
    uint64_t size = number < 0 ? 0 - (uint64_t)number : (uint64_t)number;
    if (number < 0) put('-');
    do digits[many++] = (char)('0' + size % 10);
    while ((size /= 10) != 0);
    while (many > 0) put(digits[--many]);
}

/* A text, and a number after it. */
static inline void show(const char *text, int64_t number) {
    show_text(text);
    show_number(number);
}

/* ---- reports ---- */

static inline void show_sheet(const uint8_t *sheet) {
    const uint8_t *row = sheet + u32_at(sheet + 8);
    for (int i = 0; i < u16_at(sheet + 4); i++, row += 16) {
        show("count ", i);
        show(" number ", i32_at(row));
        show(" base ", i32_at(row + 4));
        show(" step ", i32_at(row + 8));
        show(" group ", u16_at(row + 12));
        put('\n');
    }
    row = sheet + u32_at(sheet + 12);
    for (int i = 0; i < u16_at(sheet + 6); i++, row += 16) {
        show("group ", i);
        show(" fits ", u32_at(row));
        show(" at ", u32_at(row + 4));
        show(" gain ", i64_at(row + 8));
        put('\n');
    }
}

static inline void show_map(const uint8_t *map) {
    show("map counts ", u16_at(map + 4));
    show(" equations ", u16_at(map + 6));
    show(" groups ", u16_at(map + 16));
    put('\n');
    const uint8_t *row = map + u32_at(map + 8);
    for (int i = 0; i < u16_at(map + 4); i++, row += 4) {
        show("map count ", i);
        show(" group ", u16_at(row));
        show(" equations ", u16_at(row + 2));
        put('\n');
    }
    row = map + u32_at(map + 12);
    for (int i = 0; i < u16_at(map + 6); i++, row += 4) {
        uint16_t kind = u16_at(row + 2);
        show("map equation ", i);
        show(" group ", u16_at(row));
        if (kind == FIT_MAP_JOINS) show_text(" kind joins");
        else if (kind == FIT_MAP_RING) show_text(" kind ring");
        else if (kind == FIT_MAP_FIXES) show_text(" kind fixes");
        else show(" kind ", kind);
        put('\n');
    }
}

#endif
