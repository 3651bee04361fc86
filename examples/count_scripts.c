/* Counts scripts: how many both sheets walk to the end, how many the device stops and how many the reference stops.
 *
 *     ./bench library
 *     gcc -std=c11 -Iinclude examples/count_scripts.c target/staticlib/libedge.a -o count_scripts
 */
#include <inttypes.h>
#include <stdio.h>

#include "bench.h"

/* A reference of two nodes and a device of three, with two events. */
static const uint8_t REFERENCE[19] = {
    0x00, 0x00, 0x00, 0x0F, 0x01, 0x02, 0x02, 0x01, 0x01, 0x02, 0x00, 0x01, 0x00, 0x02, 0x00, 0x00, 0x01, 0x00, 0x03,
};
static const uint8_t DEVICE[22] = {
    0x00, 0x00, 0x00, 0x12, 0x01, 0x02, 0x03, 0x01, 0x01, 0x01, 0x00,
    0x03, 0x02, 0x02, 0x01, 0x00, 0x03, 0x00, 0xFF, 0x01, 0x00, 0x01,
};

/* One node looping on event 0 of two, and one looping on event 1. */
static const uint8_t ONLY_ZERO[12] = {0x00, 0x00, 0x00, 0x08, 0x01, 0x02, 0x01, 0x00, 0xFF, 0x01, 0x00, 0x01};
static const uint8_t ONLY_ONE[12] = {0x00, 0x00, 0x00, 0x08, 0x01, 0x02, 0x01, 0xFF, 0x00, 0x01, 0x00, 0x02};

/* One node looping on all of twelve events. */
static const uint8_t TWELVE[22] = {
    0x00, 0x00, 0x00, 0x12, 0x01, 0x0C, 0x01, 0x00, 0x00, 0x00, 0x00,
    0x00, 0x00, 0x00, 0x00, 0x00, 0x00, 0x00, 0x00, 0x01, 0x00, 0x01,
};

/* The three counts for a length, and the share that ends early; or the refusal. */
static void print_counts(const char *what, const struct bench_sheet *reference, const struct bench_sheet *device,
                         uint16_t length) {
    struct bench_scripts counts = bench_count(*reference, *device, length);
    uint64_t early = counts.device + counts.reference;
    printf("%s, length %d: refusal %d walked %" PRIu64 " device %" PRIu64 " reference %" PRIu64, what, length,
           counts.refusal, counts.walked, counts.device, counts.reference);
    if (counts.refusal == BENCH_ACCEPTED) {
        printf(", ends early %" PRIu64 " of %" PRIu64, early, counts.walked + early);
    }
    printf("\n");
}

int main(void) {
    struct bench_sheet reference = bench_read(REFERENCE, sizeof REFERENCE).sheet;
    struct bench_sheet device = bench_read(DEVICE, sizeof DEVICE).sheet;
    print_counts("the pair", &reference, &device, 0);
    print_counts("the pair", &reference, &device, 2);
    print_counts("the pair", &reference, &device, 3);
    print_counts("the pair", &reference, &device, 6);
    print_counts("the pair", &reference, &device, BENCH_SCRIPT_EVENTS);
    /* With the device as the reference the stops are the reference's. */
    print_counts("exchanged", &device, &reference, 3);

    /* At event 0 the device stops, at event 1 the reference. An event that neither can do counts for the device. */
    struct bench_sheet only_zero = bench_read(ONLY_ZERO, sizeof ONLY_ZERO).sheet;
    struct bench_sheet only_one = bench_read(ONLY_ONE, sizeof ONLY_ONE).sheet;
    print_counts("only 0 and only 1", &only_zero, &only_one, 1);
    print_counts("only 0 and only 0", &only_zero, &only_zero, 1);

    /* The largest count, 12 to the power 16. */
    struct bench_sheet twelve = bench_read(TWELVE, sizeof TWELVE).sheet;
    print_counts("twelve events", &twelve, &twelve, BENCH_SCRIPT_EVENTS);

    /* The order of refusals, from the last: the length, the codes, the number of events, the sheets' own. */
    print_counts("too long", &reference, &device, BENCH_SCRIPT_EVENTS + 1);
    print_counts("too long", &reference, &device, 65535);
    device.codes[0] = 2;
    device.codes[1] = 1;
    print_counts("codes exchanged", &reference, &device, 3);
    print_counts("codes exchanged, too long", &reference, &device, 17);
    print_counts("other events, too long", &reference, &twelve, 17);
    device.codes[1] = 2;
    print_counts("a code twice, too long", &reference, &device, 17);
    reference.n = 33;
    print_counts("33 nodes too", &reference, &device, 17);
    return 0;
}
