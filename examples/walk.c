/* Walks on sheets as seeds say.
 *
 *     ./bench library
 *     gcc -std=c11 -Iinclude examples/walk.c target/staticlib/libedge.a -o walk
 */
#include <stdio.h>
#include <string.h>

#include "bench.h"

/* A sheet of three nodes and two events: node 2 does event 0 alone. */
static const uint8_t SHEET[22] = {
    0x00, 0x00, 0x00, 0x12, 0x01, 0x02, 0x03, 0x01, 0x01, 0x01, 0x00,
    0x03, 0x02, 0x02, 0x01, 0x00, 0x03, 0x00, 0xFF, 0x01, 0x00, 0x01,
};

/* A sheet of two nodes and two events: event 1 leads back to node 0, and event 0 to a node that does nothing. */
static const uint8_t ENDING[17] = {
    0x00, 0x00, 0x00, 0x0D, 0x01, 0x02, 0x02, 0x01, 0x00, 0x01, 0x00, 0x01, 0xFF, 0xFF, 0x01, 0x00, 0x00,
};

/* A walk with a list of `length` places, all of which hold 255 before the call; at most twelve of them are shown. */
static void print_walk(const char *what, const struct bench_sheet *sheet, uint32_t seed, uint16_t wish, size_t length) {
    uint8_t list[BENCH_WALK_EVENTS + 1];
    memset(list, 255, sizeof list);
    struct bench_walked told = bench_walk(*sheet, seed, wish, list, length);
    printf("%s: refusal %d length %d, list", what, told.refusal, told.length);
    for (size_t i = 0; i < length && i < 12; i++) {
        printf(" %d", list[i]);
    }
    printf("\n");
}

int main(void) {
    struct bench_sheet sheet = bench_read(SHEET, sizeof SHEET).sheet;
    struct bench_sheet ending = bench_read(ENDING, sizeof ENDING).sheet;
    print_walk("seed 1, wish 8", &sheet, 1, 8, 8);
    print_walk("the highest seed, wish 8", &sheet, 4294967295u, 8, 8);

    /* A shorter wish gives the front of the same walk; the rest of the list is as it was. */
    print_walk("seed 1, wish 3, eight places", &sheet, 1, 3, 8);
    print_walk("seed 1, no event wished", &sheet, 1, 0, 8);
    print_walk("seed 1, wish 8, twelve places", &sheet, 1, 8, 12);

    /* Walks that end early, where there are no initials: what lies between the walk and the wish is as it was. */
    print_walk("ending, seed 1, wish 8", &ending, 1, 8, 8);
    print_walk("ending, seed 2, wish 8", &ending, 2, 8, 8);

    /* The longest walk, gone along by the successors of the sheet: it is a trace. */
    static uint8_t list[BENCH_WALK_EVENTS];
    struct bench_walked longest = bench_walk(sheet, 1, BENCH_WALK_EVENTS, list, sizeof list);
    int ones = 0;
    int steps = 0;
    uint8_t node = 0;
    while (steps < longest.length && node != BENCH_NONE) {
        ones += list[steps];
        node = sheet.rows[node].succ[list[steps]];
        steps++;
    }
    printf("the longest: refusal %d length %d, %d steps to node %d, %d times event 1, the last three %d %d %d\n",
           longest.refusal, longest.length, steps, node, ones, list[4093], list[4094], list[4095]);

    /* The refusals: a seed of 0; a list shorter than the wish, also where the walk would end early and have room; a
     * wish that is too long. A refused walk writes nothing. */
    print_walk("seed 0", &sheet, 0, 8, 8);
    print_walk("a list one short", &sheet, 1, 8, 7);
    print_walk("ending, a list one short", &ending, 2, 8, 7);
    print_walk("wish 4,097", &sheet, 1, BENCH_WALK_EVENTS + 1, BENCH_WALK_EVENTS + 1);
    print_walk("seed 0, a list one short", &sheet, 0, 8, 7);

    /* The sheet's own refusals come first. */
    sheet.codes[1] = sheet.codes[0];
    print_walk("a code of the sheet twice, seed 0", &sheet, 0, 8, 8);
    sheet.n = 33;
    print_walk("33 nodes too, a list one short", &sheet, 1, 8, 7);
    return 0;
}
