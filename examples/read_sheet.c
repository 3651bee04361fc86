/* Reads sheets of both versions and prints them, reads damaged bytes, and checks kept sheets.
 *
 *     ./bench library
 *     gcc -std=c11 -Iinclude examples/read_sheet.c target/staticlib/libedge.a -o read_sheet
 */
#include <stdio.h>
#include <string.h>

#include "bench.h"

/* A reference of two nodes and two events. */
static const uint8_t REFERENCE[19] = {
    0x00, 0x00, 0x00, 0x0F, 0x01, 0x02, 0x02, 0x01, 0x01, 0x02, 0x00, 0x01, 0x00, 0x02, 0x00, 0x00, 0x01, 0x00, 0x03,
};

/* The same as version 2, with the codes 257 and 258. */
static const uint8_t CODED[23] = {
    0x00, 0x00, 0x00, 0x13, 0x02, 0x02, 0x02, 0x01, 0x01, 0x01, 0x02, 0x01,
    0x01, 0x02, 0x00, 0x01, 0x00, 0x02, 0x00, 0x00, 0x01, 0x00, 0x03,
};

/* What each refusal says. */
static const char *const WORDS[9] = {
    "accepted",
    "the number of bytes is not the one that they say",
    "the version is neither 1 nor 2",
    "E or N is out of range",
    "the bytes end too early, or some remain",
    "a number of sets is out of range",
    "a successor is not a node",
    "a rule of the sets, or an unused place, is broken",
    "a node is not reached",
};

static void print_refusal(const char *what, uint8_t refusal) {
    const char *words = refusal == BENCH_CODE_TWICE ? "a code is given twice" : "no refusal of a sheet";
    printf("%s: %d, %s\n", what, refusal, refusal < 9 ? WORDS[refusal] : words);
}

/* E, N, the codes, and each node with its successors and its sets. */
static void print_sheet(const struct bench_sheet *sheet) {
    printf("E %d N %d codes", sheet->e, sheet->n);
    for (int event = 0; event < sheet->e; event++) {
        printf(" %d", sheet->codes[event]);
    }
    printf("\n");
    for (int node = 0; node < sheet->n; node++) {
        const struct bench_row *row = &sheet->rows[node];
        printf("node %d:", node);
        for (int event = 0; event < sheet->e; event++) {
            if (row->succ[event] == BENCH_NONE) {
                printf(" %d-", event);
            } else {
                printf(" %d->%d", event, row->succ[event]);
            }
        }
        printf(" sets");
        for (int place = 0; place < row->c; place++) {
            printf(" %d", row->sets[place]);
        }
        printf("\n");
    }
}

/* Reads bytes that are refused, and prints the refusal and whether the sheet is all zeros. */
static void read_refused(const char *what, const uint8_t *bytes, size_t length) {
    static const struct bench_sheet zeros;
    struct bench_read_sheet answer = bench_read(bytes, length);
    print_refusal(what, answer.refusal);
    int places = 0;
    for (int node = 0; node < BENCH_NODES; node++) {
        const struct bench_row *row = &answer.sheet.rows[node];
        places += memcmp(row->succ, zeros.rows[node].succ, sizeof row->succ) != 0;
        places += memcmp(row->sets, zeros.rows[node].sets, sizeof row->sets) != 0;
        places += row->c != 0;
    }
    places += memcmp(answer.sheet.codes, zeros.codes, sizeof zeros.codes) != 0;
    if (places != 0 || answer.sheet.e != 0 || answer.sheet.n != 0) {
        printf("its sheet is not all zeros\n");
    }
}

/* Reads the reference with one byte changed. */
static void read_damaged(const char *what, size_t place, uint8_t value, size_t length) {
    uint8_t bytes[sizeof REFERENCE];
    memcpy(bytes, REFERENCE, sizeof bytes);
    bytes[place] = value;
    read_refused(what, bytes, length);
}

int main(void) {
    struct bench_read_sheet answer = bench_read(REFERENCE, sizeof REFERENCE);
    print_refusal("read the reference", answer.refusal);
    print_sheet(&answer.sheet);

    read_damaged("read all but its last byte", 0, 0, sizeof REFERENCE - 1);
    read_damaged("read none of it", 0, 0, 0);
    read_damaged("read it as version 3", 4, 3, sizeof REFERENCE);
    read_damaged("read it as version 2, without codes", 4, 2, sizeof REFERENCE);
    read_damaged("read it with no event", 5, 0, sizeof REFERENCE);
    read_damaged("read it with a third node", 6, 3, sizeof REFERENCE);
    read_damaged("read it with no set at node 0", 9, 0, sizeof REFERENCE);
    read_damaged("read it with successor 2", 7, 2, sizeof REFERENCE);
    read_damaged("read it with the set 2 twice", 11, 2, sizeof REFERENCE);
    uint8_t bytes[sizeof REFERENCE];
    memcpy(bytes, REFERENCE, sizeof bytes);
    bytes[7] = 0;
    bytes[8] = 0;
    read_refused("read it without a way to node 1", bytes, sizeof bytes);

    struct bench_read_sheet coded = bench_read(CODED, sizeof CODED);
    print_refusal("read the reference of version 2", coded.refusal);
    print_sheet(&coded.sheet);
    uint8_t twice[sizeof CODED];
    memcpy(twice, CODED, sizeof twice);
    twice[10] = 1;
    read_refused("read it with the code 257 twice", twice, sizeof twice);
    twice[13] = 0;
    read_refused("read it with no set at node 0 too", twice, sizeof twice);
    twice[3] = 7;
    read_refused("read it up to its codes", twice, 11);
    twice[3] = 6;
    read_refused("read it with its codes cut off", twice, 10);

    struct bench_sheet kept = answer.sheet;
    print_refusal("check the sheet as it was read", bench_check(kept));
    kept.rows[31].c = 1;
    print_refusal("check it with an unused place changed", bench_check(kept));
    kept = answer.sheet;
    kept.rows[1].succ[0] = 2;
    print_refusal("check it with successor 2", bench_check(kept));
    kept.rows[1].c = 17;
    print_refusal("check it with 17 sets too", bench_check(kept));
    kept.n = 33;
    print_refusal("check it with 33 nodes too", bench_check(kept));

    kept = coded.sheet;
    print_refusal("check the sheet of version 2 as it was read", bench_check(kept));
    kept.codes[0] = 0;
    kept.codes[1] = 65535;
    print_refusal("check it with the codes 0 and 65535", bench_check(kept));
    kept.codes[2] = 1;
    print_refusal("check it with an unused code changed", bench_check(kept));
    kept.codes[1] = 0;
    print_refusal("check it with the code 0 twice too", bench_check(kept));
    kept.rows[1].c = 17;
    print_refusal("check it with 17 sets too", bench_check(kept));
    kept.n = 33;
    print_refusal("check it with 33 nodes too", bench_check(kept));
    return 0;
}
