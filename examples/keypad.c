/* Checks tables of keypads, and turns codes into events.
 *
 *     ./bench library
 *     gcc -std=c11 -Iinclude examples/keypad.c target/staticlib/libedge.a -o keypad
 */
#include <stdio.h>

#include "bench.h"

/* A sheet of two nodes and two events. */
static const uint8_t SHEET[19] = {
    0x00, 0x00, 0x00, 0x0F, 0x01, 0x02, 0x02, 0x01, 0x01, 0x02, 0x00, 0x01, 0x00, 0x02, 0x00, 0x00, 0x01, 0x00, 0x03,
};

/* Tables: each rule a mask, a value and an event. One rule for every code; one for the codes below 128 and one for
 * those from 128 on; the first of these alone. */
static const uint8_t EVERY_CODE[3] = {0, 0, 0};
static const uint8_t HALVES[6] = {128, 0, 0, 128, 128, 1};
static const uint8_t LOWER_HALF[3] = {128, 0, 0};

/* Overlaps: of two rules; of three rules, at every code; of rules 0 and 2, at the codes whose last bits are 10. */
static const uint8_t BOTH[6] = {128, 0, 0, 0, 0, 1};
static const uint8_t THREE_TIMES[9] = {0, 0, 0, 0, 0, 1, 0, 0, 0};
static const uint8_t LAST_BITS[9] = {1, 0, 0, 1, 1, 1, 3, 2, 1};

/* Three quarters of the codes: those from 128 to 191 have no rule. */
static const uint8_t THREE_QUARTERS[9] = {192, 0, 0, 192, 64, 1, 192, 192, 0};

/* Every code once, but 255 has no rule, or two. */
static const uint8_t NO_LAST[24] = {
    128, 0, 0, 192, 128, 1, 224, 192, 0, 240, 224, 1, 248, 240, 0, 252, 248, 1, 254, 252, 0, 255, 254, 1,
};
static const uint8_t LAST_TWICE[12] = {128, 0, 0, 192, 128, 1, 192, 192, 0, 255, 255, 1};

/* Refused: a value outside its mask; an event that is not on the sheet; both, the latter in the first rule. */
static const uint8_t VALUE_OUTSIDE[3] = {128, 1, 0};
static const uint8_t EVENT_ABOVE[6] = {128, 0, 0, 128, 128, 2};
static const uint8_t BOTH_WRONG[6] = {128, 0, 9, 128, 129, 0};

/* The answer of a check. */
static void print_check(const char *what, const struct bench_sheet *sheet, const uint8_t *table, size_t length) {
    struct bench_keypad told = bench_keypad(*sheet, table, length);
    printf("%s: refusal %d kind %d code %d first %d second %d", what, told.refusal, told.kind, told.code, told.first,
           told.second);
    switch (told.kind) {
    case BENCH_GOOD:
        printf(", good");
        break;
    case BENCH_GAP:
        printf(", no rule matches %d", told.code);
        break;
    case BENCH_OVERLAP:
        printf(", rules %d and %d match %d", told.first, told.second, told.code);
        break;
    }
    printf("\n");
}

/* The answer of a lookup. */
static void print_find(const char *what, const struct bench_sheet *sheet, const uint8_t *table, size_t length,
                       uint8_t code) {
    struct bench_found found = bench_find(*sheet, table, length, code);
    printf("%s, code %d: refusal %d kind %d event %d code %d first %d second %d\n", what, code, found.refusal,
           found.kind, found.event, found.code, found.first, found.second);
}

int main(void) {
    struct bench_sheet sheet = bench_read(SHEET, sizeof SHEET).sheet;
    print_check("every code", &sheet, EVERY_CODE, sizeof EVERY_CODE);
    print_check("halves", &sheet, HALVES, sizeof HALVES);
    print_find("halves", &sheet, HALVES, sizeof HALVES, 0);
    print_find("halves", &sheet, HALVES, sizeof HALVES, 127);
    print_find("halves", &sheet, HALVES, sizeof HALVES, 128);
    print_find("halves", &sheet, HALVES, sizeof HALVES, 200);
    print_find("halves", &sheet, HALVES, sizeof HALVES, 255);

    /* Bad tables: a lookup answers the same whatever the code is. */
    print_check("lower half", &sheet, LOWER_HALF, sizeof LOWER_HALF);
    print_find("lower half", &sheet, LOWER_HALF, sizeof LOWER_HALF, 5);
    print_find("lower half", &sheet, LOWER_HALF, sizeof LOWER_HALF, 200);
    print_check("both", &sheet, BOTH, sizeof BOTH);
    print_find("both", &sheet, BOTH, sizeof BOTH, 200);
    print_check("three times", &sheet, THREE_TIMES, sizeof THREE_TIMES);
    print_check("last bits", &sheet, LAST_BITS, sizeof LAST_BITS);
    print_find("last bits", &sheet, LAST_BITS, sizeof LAST_BITS, 1);
    print_check("three quarters", &sheet, THREE_QUARTERS, sizeof THREE_QUARTERS);
    print_check("no last", &sheet, NO_LAST, sizeof NO_LAST);
    print_find("no last", &sheet, NO_LAST, sizeof NO_LAST, 0);
    print_check("last twice", &sheet, LAST_TWICE, sizeof LAST_TWICE);
    print_find("last twice", &sheet, LAST_TWICE, sizeof LAST_TWICE, 255);

    /* The most rules, each for four codes, with the events in turn; and a rule too many, which would be a copy of the
     * first. */
    uint8_t table[BENCH_TABLE_BYTES + 3];
    for (int i = 0; i < BENCH_RULES + 1; i++) {
        table[3 * i] = 252;
        table[3 * i + 1] = (uint8_t)(4 * i);
        table[3 * i + 2] = (uint8_t)(i % 2);
    }
    print_check("64 rules", &sheet, table, BENCH_TABLE_BYTES);
    print_find("64 rules", &sheet, table, BENCH_TABLE_BYTES, 251);
    print_find("64 rules", &sheet, table, BENCH_TABLE_BYTES, 252);
    int ones = 0;
    for (int code = 0; code < 256; code++) {
        ones += bench_find(sheet, table, BENCH_TABLE_BYTES, (uint8_t)code).event;
    }
    printf("64 rules: %d codes of event 1\n", ones);
    print_check("63 rules", &sheet, table, BENCH_TABLE_BYTES - 3);

    /* The refusals of a table: its size, a value, an event. */
    print_check("65 rules", &sheet, table, sizeof table);
    print_check("193 bytes", &sheet, table, 193);
    print_check("191 bytes", &sheet, table, 191);
    print_check("4 bytes", &sheet, table, 4);
    print_check("1 byte", &sheet, table, 1);
    print_check("no byte", &sheet, table, 0);
    print_find("no byte", &sheet, table, 0, 5);
    print_check("value outside", &sheet, VALUE_OUTSIDE, sizeof VALUE_OUTSIDE);
    print_find("value outside", &sheet, VALUE_OUTSIDE, sizeof VALUE_OUTSIDE, 5);
    print_check("event above", &sheet, EVENT_ABOVE, sizeof EVENT_ABOVE);
    print_find("event above", &sheet, EVENT_ABOVE, sizeof EVENT_ABOVE, 5);
    print_check("both wrong", &sheet, BOTH_WRONG, sizeof BOTH_WRONG);

    /* The sheet's own refusals come before the table's. */
    sheet.codes[1] = sheet.codes[0];
    print_check("a code of the sheet twice", &sheet, HALVES, sizeof HALVES);
    print_find("a code of the sheet twice, no byte", &sheet, table, 0, 5);
    sheet.n = 33;
    print_check("33 nodes too, value outside", &sheet, VALUE_OUTSIDE, sizeof VALUE_OUTSIDE);
    return 0;
}
