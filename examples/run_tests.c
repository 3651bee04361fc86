/* Lists probes, runs tests, judges a device and compares it with its reference.
 *
 *     ./bench library
 *     gcc -std=c11 -Iinclude examples/run_tests.c target/staticlib/libedge.a -o run_tests
 */
#include <stdio.h>
#include <string.h>

#include "bench.h"

/* A reference of two nodes and a device of three, with two events. */
static const uint8_t REFERENCE[19] = {
    0x00, 0x00, 0x00, 0x0F, 0x01, 0x02, 0x02, 0x01, 0x01, 0x02, 0x00, 0x01, 0x00, 0x02, 0x00, 0x00, 0x01, 0x00, 0x03,
};
static const uint8_t DEVICE[22] = {
    0x00, 0x00, 0x00, 0x12, 0x01, 0x02, 0x03, 0x01, 0x01, 0x01, 0x00,
    0x03, 0x02, 0x02, 0x01, 0x00, 0x03, 0x00, 0xFF, 0x01, 0x00, 0x01,
};

/* The reference as version 2, with the codes 257 and 258. */
static const uint8_t CODED[23] = {
    0x00, 0x00, 0x00, 0x13, 0x02, 0x02, 0x02, 0x01, 0x01, 0x01, 0x02, 0x01,
    0x01, 0x02, 0x00, 0x01, 0x00, 0x02, 0x00, 0x00, 0x01, 0x00, 0x03,
};

/* One node looping on three events, with the acceptances 5 and 6. */
static const uint8_t SIZES[15] = {
    0x00, 0x00, 0x00, 0x0B, 0x01, 0x03, 0x01, 0x00, 0x00, 0x00, 0x02, 0x00, 0x05, 0x00, 0x06,
};

static struct bench_sheet reference;
static struct bench_sheet device;

/* Reads the device as version 2, with these codes. */
static struct bench_read_sheet read_coded(uint16_t first, uint16_t second) {
    uint8_t bytes[sizeof DEVICE + 4];
    memcpy(bytes, DEVICE, 7);
    bytes[3] = DEVICE[3] + 4;
    bytes[4] = 2;
    bytes[7] = first >> 8;
    bytes[8] = first & 255;
    bytes[9] = second >> 8;
    bytes[10] = second & 255;
    memcpy(bytes + 11, DEVICE + 7, sizeof DEVICE - 7);
    return bench_read(bytes, sizeof bytes);
}

/* The answer to an opening or a report. */
static void print_said(const char *what, struct bench_said said) {
    static const char *const KINDS[6] = {"denied", "going", "stray", "refused", "passed", "inconclusive"};
    printf("%s: %s", what, said.kind < 6 ? KINDS[said.kind] : "no kind");
    if (said.kind == BENCH_DENIED) {
        printf(" %d", said.refusal);
    } else if (said.kind != BENCH_PASSED && said.kind != BENCH_INCONCLUSIVE) {
        printf(" %d", said.value);
    }
    printf("\n");
}

static void print_run(const struct bench_run *run) {
    printf("  record: k %d h %d traces %d ended %d node %d depth %d\n", run->k, run->h, run->traces, run->ended,
           run->node, run->depth);
}

/* The probes of a node, in a list of so many places of which every one holds 9 before. */
static void print_probes(uint8_t node, size_t length) {
    uint16_t out[4] = {9, 9, 9, 9};
    struct bench_listed listed = bench_list(reference, node, out, length);
    printf("probes of node %d in %d places: refusal %d count %d, list", node, (int)length, listed.refusal,
           listed.count);
    for (int place = 0; place < 4; place++) {
        printf(" %d", out[place]);
    }
    printf("\n");
}

/* Test 5 against the device, which does event 0 five times and then event 0 again or nothing. */
static void run_test(uint16_t h) {
    struct bench_stepped opened = bench_open(reference, 5, h, 0);
    struct bench_run run = opened.run;
    printf("test 5 with choice %d\n", h);
    print_said("  open", opened.answer);
    for (int count = 0; count < 5; count++) {
        struct bench_stepped stepped = bench_step(reference, run, 0);
        struct bench_said said = bench_report(&run, reference, 0);
        print_said("  event 0", said);
        struct bench_said other = stepped.answer;
        if (other.kind != said.kind || other.value != said.value || stepped.run.depth != run.depth) {
            printf("by value it is another answer\n");
        }
    }
    print_run(&run);
    /* A refused report leaves the record as it was. */
    print_said("  event 2", bench_report(&run, reference, 2));
    print_run(&run);
    /* Choice 0 offers the probe 1, which the device does; choice 1 the probe 2, which it may refuse. */
    print_said("  event 0", bench_report(&run, reference, 0));
    print_said("  blocked", bench_report(&run, reference, BENCH_BLOCKED));
    print_run(&run);
}

/* Test 5 again, trace-only, against a device that stops after so many events: before the fifth its run is inconclusive,
 * after it the run passes. */
static void run_traces(int events) {
    struct bench_run run = bench_open(reference, 5, 0, 1).run;
    for (int count = 0; count < events; count++) {
        bench_report(&run, reference, 0);
    }
    printf("trace-only test 5, %d events", events);
    print_said(", blocked", bench_report(&run, reference, BENCH_BLOCKED));
    print_run(&run);
    print_said("  blocked again", bench_report(&run, reference, BENCH_BLOCKED));
}

/* The verdicts on tests 0 to 6. */
static void print_verdicts(uint8_t traces) {
    printf(traces ? "trace-only verdicts:" : "verdicts:");
    for (uint16_t k = 0; k < 7; k++) {
        struct bench_judged judged = bench_judge(reference, device, k, traces);
        printf(" %d %s", k,
               judged.kind == BENCH_PASSES ? "passes" : judged.kind == BENCH_FAILS ? "fails" : "denied");
    }
    printf("\n");
}

/* All verdicts at once, into a list of so many places. */
static void print_suite(uint8_t traces, size_t places) {
    uint8_t list[BENCH_TESTS];
    memset(list, 7, sizeof list);
    struct bench_suited suited = bench_judge_all(reference, device, traces, list, places);
    printf("all verdicts with %zu places: refusal %d count %d, list", places, suited.refusal, suited.count);
    for (int place = 0; place < 8; place++) {
        printf(" %d", list[place]);
    }
    printf("\n");
}

/* A comparison with lists of so many places. */
static void print_comparison(const char *what, const struct bench_sheet *other, uint8_t traces, size_t words,
                             size_t places) {
    uint16_t work[BENCH_WORK_WORDS];
    uint8_t trace[BENCH_TRACE_BYTES];
    memset(work, 7, sizeof work);
    memset(trace, 7, sizeof trace);
    struct bench_compared answer = bench_compare(reference, *other, traces, work, words, trace, places);
    printf("%s: refusal %d kind %d d %d cleared %d", what, answer.refusal, answer.kind, answer.d, answer.cleared);
    printf(" event %d probe %d acceptance %d\n", answer.event, answer.probe, answer.acceptance);
    printf("  trace list");
    for (int place = 0; place < 8; place++) {
        printf(" %d", trace[place]);
    }
    int zeros = 0;
    while (zeros < BENCH_WORK_WORDS && work[zeros] == 0) {
        zeros++;
    }
    printf(", %d words of the work list are 0\n", zeros);
}

int main(void) {
    struct bench_read_sheet first = bench_read(REFERENCE, sizeof REFERENCE);
    struct bench_read_sheet second = bench_read(DEVICE, sizeof DEVICE);
    printf("read: %d %d\n", first.refusal, second.refusal);
    reference = first.sheet;
    device = second.sheet;

    print_probes(0, 4);
    print_probes(1, 4);
    print_probes(1, 2);
    print_probes(1, 1);
    print_probes(2, 4);

    run_test(0);
    run_test(1);
    print_said("test 1024", bench_open(reference, 1024, 0, 0).answer);
    struct bench_stepped traces = bench_open(reference, 0, 0, 200);
    print_run(&traces.run);
    print_said("trace-only test 0, blocked", bench_report(&traces.run, reference, 65535));
    print_run(&traces.run);

    /* Every byte but 0 sets a flag. One that stays keeps its byte; an ending writes 1. */
    struct bench_run bytes = {0, 0, 200, 0, 0, 0};
    print_said("the same with the flag 200", bench_report(&bytes, reference, BENCH_BLOCKED));
    print_run(&bytes);
    bytes.ended = 2;
    print_said("ended by the flag 2", bench_report(&bytes, reference, 0));
    print_run(&bytes);

    run_traces(0);
    run_traces(4);
    run_traces(5);

    print_verdicts(0);
    print_verdicts(1);
    printf("verdict on test 1024: refusal %d\n", bench_judge(reference, device, 1024, 0).refusal);

    print_suite(0, 8);
    print_suite(1, 6);
    print_suite(0, 5);

    print_comparison("compared", &device, 0, 12, 5);
    print_comparison("traces alone", &device, 1, 12, 5);
    print_comparison("with 18 words", &device, 0, 18, 5);
    print_comparison("with 11 words", &device, 0, 11, 5);
    print_comparison("with 4 places", &device, 0, 12, 4);
    print_comparison("with itself", &reference, 0, 8, 3);

    /* The codes of version 1 are 1 and 2, so a device of version 2 with these is compared. */
    device = read_coded(1, 2).sheet;
    print_comparison("versions 1 and 2", &device, 0, 12, 5);
    print_verdicts(0);
    /* With other codes it is refused, ahead of short lists and of a wrong test number. */
    device = read_coded(2, 1).sheet;
    print_comparison("codes exchanged", &device, 0, 0, 0);
    print_comparison("codes exchanged, traces alone", &device, 1, 12, 5);
    printf("verdict with codes exchanged: refusal %d\n", bench_judge(reference, device, 5, 0).refusal);
    printf("the same on test 1024: refusal %d\n", bench_judge(reference, device, 1024, 0).refusal);
    print_suite(0, 0);
    /* A code given twice is the sheet's own refusal: it comes first. */
    device.codes[1] = device.codes[0];
    print_comparison("a code twice", &device, 0, 12, 5);

    /* Both of version 2, with the same codes and with others. */
    first = bench_read(CODED, sizeof CODED);
    second = read_coded(257, 258);
    printf("read: %d %d\n", first.refusal, second.refusal);
    reference = first.sheet;
    print_comparison("both of version 2", &second.sheet, 0, 12, 5);
    second = read_coded(257, 259);
    print_comparison("another code", &second.sheet, 0, 12, 5);

    /* The probes 4, of one event, and 3, of two: choice numbers and what is named follow this order. */
    reference = bench_read(SIZES, sizeof SIZES).sheet;
    print_probes(0, 4);
    print_said("test 0 with choice 0", bench_open(reference, 0, 0, 0).answer);
    print_said("test 0 with choice 1", bench_open(reference, 0, 1, 0).answer);
    /* The device may refuse either; 4 is named, with the acceptance that has no event of 4. */
    device = reference;
    device.rows[0].sets[0] = 3;
    device.rows[0].sets[1] = 4;
    print_comparison("acceptances 3 and 4", &device, 0, 2, 0);
    return 0;
}
