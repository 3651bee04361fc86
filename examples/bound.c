/* Pairs of sheets that reach the bound: the first test that fails is the last of all.
 *
 *     ./bench library
 *     gcc -std=c11 -Iinclude examples/bound.c target/staticlib/libedge.a -o bound
 */
#include <stdio.h>
#include <string.h>

#include "bench.h"

/* Two lists with more places than any of the sheets has bytes. Before a call each place holds 99, which no byte of the
 * sheets here is. */
enum { PLACES = 240, BEFORE = 99 };
static uint8_t reference[PLACES];
static uint8_t device[PLACES];

static void print_bytes(const char *what, const uint8_t *bytes, size_t length) {
    printf("%s:", what);
    for (size_t i = 0; i < length; i++) {
        printf(" %d", bytes[i]);
    }
    printf("\n");
}

static int count_left(const uint8_t *list) {
    int left = 0;
    for (size_t i = 0; i < PLACES; i++) {
        left += list[i] == BEFORE;
    }
    return left;
}

/* A call with so many places of each list; how many of all places, lent or not, are then as they were. */
static struct bench_bounded print_call(const char *what, uint8_t p, uint8_t q, size_t places, size_t others) {
    memset(reference, BEFORE, sizeof reference);
    memset(device, BEFORE, sizeof device);
    struct bench_bounded told = bench_bound(p, q, reference, places, device, others);
    printf("%s: refusal %d lengths %d %d, left %d %d\n", what, told.refusal, told.reference, told.device,
           count_left(reference), count_left(device));
    return told;
}

/* Compares the two sheets and judges all tests; the trace is shown if it is short. */
static void print_tests(const struct bench_sheet *first, const struct bench_sheet *second, uint8_t traces) {
    static uint16_t work[BENCH_WORK_WORDS];
    static uint8_t trace[BENCH_TRACE_BYTES];
    static uint8_t verdicts[BENCH_TESTS];
    struct bench_compared compared =
        bench_compare(*first, *second, traces, work, BENCH_WORK_WORDS, trace, BENCH_TRACE_BYTES);
    struct bench_suited suited = bench_judge_all(*first, *second, traces, verdicts, BENCH_TESTS);
    int failed = 0;
    int last = 0;
    for (int k = 0; k < suited.count; k++) {
        if (verdicts[k] == BENCH_FAILS) {
            failed++;
            last = k;
        }
    }
    printf("%s: kind %d d %d cleared %d event %d, %d tests, %d fails, number %d\n", traces ? "by traces" : "compared",
           compared.kind, compared.d, compared.cleared, compared.event, suited.count, failed, last);
    if (compared.d < 20) {
        print_bytes("trace", trace, compared.d);
    }
}

/* Reads the two sheets that the last call has written, and tests the one against the other. */
static void print_pair(struct bench_bounded told) {
    struct bench_read_sheet first = bench_read(reference, told.reference);
    struct bench_read_sheet second = bench_read(device, told.device);
    printf("read: refusals %d %d, nodes %d %d, events %d %d\n", first.refusal, second.refusal, first.sheet.n,
           second.sheet.n, first.sheet.e, second.sheet.e);
    print_tests(&first.sheet, &second.sheet, 0);
    print_tests(&first.sheet, &second.sheet, 1);
}

int main(void) {
    struct bench_bounded told = print_call("3 and 4", 3, 4, 26, 27);
    print_bytes("reference", reference, told.reference);
    print_bytes("device", device, told.device);
    print_pair(told);

    /* The smallest pair, which fails its one test, and the largest, which passes 1,023 tests and fails the last. */
    told = print_call("1 and 1", 1, 1, 12, 12);
    print_bytes("reference", reference, told.reference);
    print_bytes("device", device, told.device);
    print_pair(told);
    told = print_call("32 and 32", 32, 32, BENCH_REFERENCE_BYTES, BENCH_DEVICE_BYTES);
    print_bytes("the last ten of the reference", reference + told.reference - 10, 10);
    print_bytes("the last ten of the device", device + told.device - 10, 10);
    print_pair(told);

    /* In longer lists the rest is as it was. A list that is too short for its sheet is refused, and then neither list
     * is written. */
    told = print_call("3 and 4, longer lists", 3, 4, 30, 29);
    print_bytes("reference", reference, 30);
    print_bytes("device", device, 29);
    print_call("all places", 3, 4, PLACES, PLACES);
    print_call("the reference's list one short", 3, 4, 25, 27);
    print_call("the device's list one short", 3, 4, 26, 26);
    print_call("both one short", 3, 4, 25, 26);
    print_call("the reference's list one short, the other long", 3, 4, 25, PLACES);
    print_call("the device's list one short, the other long", 3, 4, PLACES, 26);
    print_call("no places", 3, 4, 0, 0);
    print_call("32 and 32, the reference's list one short", 32, 32, BENCH_REFERENCE_BYTES - 1, BENCH_DEVICE_BYTES);
    print_call("32 and 32, the device's list one short", 32, 32, BENCH_REFERENCE_BYTES, BENCH_DEVICE_BYTES - 1);

    /* Numbers of nodes that are not 1 to 32 are refused first, however long the lists are. */
    print_call("0 and 4", 0, 4, PLACES, PLACES);
    print_call("3 and 0", 3, 0, PLACES, PLACES);
    print_call("33 and 4", 33, 4, PLACES, PLACES);
    print_call("3 and 33", 3, 33, PLACES, PLACES);
    print_call("255 and 4", 255, 4, PLACES, PLACES);
    print_call("3 and 255", 3, 255, PLACES, PLACES);
    print_call("0 and 0, no places", 0, 0, 0, 0);
    print_call("33 and 4, no places", 33, 4, 0, 0);
    print_call("3 and 33, no places", 3, 33, 0, 0);
    return 0;
}
