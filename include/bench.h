/* The dialogue bench: sheets, probes, tests, comparisons, counts of scripts, tables of keypads, walks that can be
 * repeated, and pairs of sheets that reach the bound. The functions are those of the proved library libedge.a, which
 * `./bench library` puts below target/staticlib. It is for Linux on x86-64 and needs nothing but the C library, of
 * which it calls memcpy and memset alone: it takes no memory but the stack and what it is lent.
 *
 * An event is a number below E, a node a number below N. The catalogue code of an event says what the event is. A set
 * of events is a 16-bit number in which event i adds 2 to the power i. Every content of what is lent or handed over is
 * answered, so no call has a condition on it. A call keeps nothing of what it is lent, alters nothing unless its
 * comment says so, and may run in several threads at once.
 *
 * A list is lent as a pointer, which is not null even if the list is empty, and a number of places. A flag is a byte: 0
 * is false, every other value is true. Each call checks the sheets that it is handed again, the reference first, and
 * answers their refusals, 3, 18 or 5 to 8, before its own. A call that is refused alters nothing, and every other part
 * of its answer is 0; only bench_step gives the record back as it came.
 *
 * The stack that a call needs, measured on worst cases and rounded up, in bytes, with the copies of the sheets that are
 * handed over: bench_check and bench_read 9,000; bench_list 19,000; bench_judge and bench_judge_all 22,000; bench_open
 * 23,000; bench_step and bench_report 24,000; bench_compare 36,000; bench_count 62,000; bench_keypad and bench_find
 * 11,000; bench_walk 12,000; bench_bound 1,000. The compiled library has no recursion, so no call needs more for larger
 * sheets, longer traces, longer scripts, longer tables or longer walks.
 */
#ifndef BENCH_H
#define BENCH_H

#include <stddef.h>
#include <stdint.h>

#ifdef __cplusplus
extern "C" {
#endif

/* The version of this header and the library. It grows by one with each change of a number, of a struct, of a call's
 * arguments or of what a call answers; a new call alone does not change it. Before it was counted verdicts and
 * comparisons had other kinds; in 1 sheets had no codes; in 2 probes were ordered by number alone, which h and what is
 * named at a refusal followed, and the stack of some calls was less; in 3 a trace-only run that was blocked passed at
 * every depth. It is not the version of a sheet's bytes. */
#define BENCH_VERSION 4

/* The most events, nodes and sets of a node, and a successor place that has no successor. */
enum { BENCH_EVENTS = 12, BENCH_NODES = 32, BENCH_SETS = 16, BENCH_NONE = 255 };

/* Sizes that suffice for any sheets: the bytes of a sheet, the probes of a node or of several (the words of the list of
 * bench_list and bench_list_nodes), the words of the work list and the bytes of the trace list of bench_compare, and the
 * tests of a pair (the bytes of the list of bench_judge_all). */
enum {
    BENCH_SHEET_BYTES = 1471,
    BENCH_PROBES = 4096,
    BENCH_WORK_WORDS = 2048,
    BENCH_TRACE_BYTES = 1023,
    BENCH_TESTS = 1024
};

/* The refusals of a sheet. The first that applies is given, each looked for in the whole sheet. The order for bytes: 1,
 * 2, 3, 4 (codes that are cut off), 18, 4 and 5 (found together, by position, in one walk over the nodes), 6, 7, 8. The
 * order for a kept sheet: 3, 18, 5, 6, 7, 8. */
enum {
    BENCH_ACCEPTED = 0,     /* no refusal */
    BENCH_BAD_LENGTH = 1,   /* fewer than 7 bytes, or the length field plus 4 is not the number of bytes */
    BENCH_BAD_VERSION = 2,  /* the version is neither 1 nor 2 */
    BENCH_BAD_RANGE = 3,    /* E is not 1 to 12, or N is not 1 to 32 */
    BENCH_BAD_END = 4,      /* the bytes end inside the codes or a node, or some remain after the last node */
    BENCH_BAD_COUNT = 5,    /* the number of sets of a node is not 1 to 16 */
    BENCH_BAD_NEXT = 6,     /* a successor is neither 255 nor below N */
    BENCH_BAD_SETS = 7,     /* the sets of a node are not strictly ascending, one has an event without successor, or one
                               includes another; of a kept sheet also: an unused place, of the codes too, holds
                               something else than it should */
    BENCH_NOT_REACHED = 8,  /* a node is not reached from node 0 */
    BENCH_CODE_TWICE = 18   /* two events have the same code */
};

/* The refusals of the other calls. */
enum {
    BENCH_BAD_NODE = 9,      /* a node that is not below N; also a record whose node is not on the sheet, whose depth
                                exceeds its k, or whose k is above 1,023 */
    BENCH_SHORT_PROBES = 10, /* a probe list shorter than the probes; also a list of verdicts shorter than the tests */
    BENCH_OTHER_EVENTS = 11, /* the two sheets have different E */
    BENCH_OTHER_CODES = 19,  /* an event has not the same code in both sheets; looked for directly after 11 */
    BENCH_SHORT_WORK = 12,   /* a work list below 2 p q words, for p nodes of the reference and q of the device */
    BENCH_SHORT_TRACE = 13,  /* a trace list below p q - 1 bytes */
    BENCH_BAD_TEST = 14,     /* a test number k above 1,023 */
    BENCH_BAD_EVENT = 15,    /* an event that is not below E */
    BENCH_ENDED = 16,        /* the run has ended */
    BENCH_NOT_OFFERED = 17,  /* an event that is not offered */
    BENCH_LONG_SCRIPT = 20,  /* a length of scripts above 16 */
    BENCH_BAD_TABLE = 21,    /* a keypad's table of no rule, of more than 64, or that ends inside one */
    BENCH_BAD_VALUE = 22,    /* a rule of the table has a value with a bit outside its mask */
    BENCH_RULE_EVENT = 23,   /* a rule of the table has an event that is not below E */
    BENCH_SEED_ZERO = 27,    /* the seed of a walk is 0, a state that is followed by itself */
    BENCH_LONG_WALK = 28,    /* a list shorter than the wished length of a walk, or a wish over 4,096 */
    BENCH_BAD_NODES = 29,    /* a set of nodes that is empty or names a node that is not on the sheet */
    BENCH_BAD_SIZES = 30,    /* p or q, the nodes of the two sheets that are to be written, is not 1 to 32 */
    BENCH_SHORT_SHEET = 31   /* a list too short for the sheet that is to be written to it */
};

/* What is kept of one node: its successor on each event, 255 for none; its minimal acceptances, strictly ascending; how
 * many of these it has. Unused successors hold 255. Unused sets, and the c of an unused node, hold 0. */
struct bench_row {
    uint8_t succ[BENCH_EVENTS];
    uint16_t sets[BENCH_SETS];
    uint8_t c;
};

/* A kept sheet: a row for each of 32 nodes; E; N, the number of nodes in use; the catalogue code of each event, which
 * may be any 16-bit number. Unused codes hold 0. */
struct bench_sheet {
    struct bench_row rows[BENCH_NODES];
    uint8_t e;
    uint8_t n;
    uint16_t codes[BENCH_EVENTS];
};

/* What reading answers: the refusal, 0 for none, and the sheet. If it is refused, every place of the sheet holds 0. */
struct bench_read_sheet {
    uint8_t refusal;
    struct bench_sheet sheet;
};

/* Reads a sheet of version 1 or 2. Lent: `length` bytes from `bytes` on, which is not null even if there are none.
 * Answered: 0 and the sheet that the bytes spell, or the refusal, 1 to 8 or 18, and a sheet of zeros. In version 1,
 * which has no codes, event i has the code i + 1. */
struct bench_read_sheet bench_read(const uint8_t *bytes, size_t length);

/* Checks a kept sheet with any content. Handed over: a copy of the sheet. Answered: 0, or the refusal, 3, 18 or 5 to 8.
 * Each sheet that bench_read accepts is answered with 0; one of zeros, which it answers where it refuses, with 3. */
uint8_t bench_check(struct bench_sheet sheet);

/* What a probe list answers: the refusal, 0 for none, and how many probes there are. */
struct bench_listed {
    uint8_t refusal;
    uint16_t count;
};

/* Lists the probes of a node: the sets of events that meet every acceptance of the node and have no smaller set inside
 * that does. They are ordered by how many events a probe has, the fewest first, then by number, the lowest first.
 * Handed over: a copy of the sheet and the node. Lent: `length` words from `out` on. Answered: 0 and the number of
 * probes, which then stand at the front of the list, and the rest of the list is as it was; or the refusal (the
 * sheet's; 9; 10), and the whole list is as it was. A node that may stop has no probe. */
struct bench_listed bench_list(struct bench_sheet sheet, uint8_t node, uint16_t *out, size_t length);

/* Lists the probes for several nodes, where it is known only that the dialogue is at one of them: the sets of events
 * that meet every acceptance of every node of a set and have no smaller set inside that does. So a device that refines
 * the sheet cannot refuse one of them, at whichever of the nodes it is. A set of nodes is a 32-bit number in which node
 * v adds 2 to the power v. The order, the answer and the list are those of bench_list, and a set of one node gives that
 * node's list. If a node of the set may stop there is no probe: 0 and the number 0, and the list is as it was. Handed
 * over: a copy of the sheet and the set. Lent: `length` words from `out` on; BENCH_PROBES are enough for any set. The
 * refusals: the sheet's; 29; 10. */
struct bench_listed bench_list_nodes(struct bench_sheet sheet, uint32_t nodes, uint16_t *out, size_t length);

/* The highest test number, and the lowest report that says "blocked". */
enum { BENCH_LAST_TEST = 1023, BENCH_BLOCKED = 256 };

/* A run's record: the test's number k, the choice number h, whether it is trace-only, whether it has ended (two flags),
 * the node reached on the reference and how many events were accepted on the way. It belongs to the bench. A flag that
 * stays keeps its byte; an opening and an ending set one with 1. */
struct bench_run {
    uint16_t k;
    uint16_t h;
    uint8_t traces;
    uint8_t ended;
    uint8_t node;
    uint16_t depth;
};

/* The kind of an answer that is a refusal, whichever call gives it; `refusal` has the number. Every other kind
 * belongs to one sort of call: 1 to 10 to runs, 11 to 20 to verdicts, 21 to 30 to comparisons, 31 to 40 to keypads.
 * Later calls take the next tens. */
enum { BENCH_DENIED = 0 };

/* The kinds of an answer to an opening or a report. A trace-only run that is blocked at a depth below its k is
 * inconclusive, at a node that may stop too: the device has shown no fault, but less than the test asks for, so it is
 * neither passed nor failed. At depth k it passes. No other run is inconclusive. */
enum {
    BENCH_GOING = 1,       /* the run goes on; the value is the set that is offered next */
    BENCH_STRAY = 2,       /* ended, failed as stray; the value is the event */
    BENCH_REFUSED = 3,     /* ended, failed as refused; the value is the set that was offered */
    BENCH_PASSED = 4,      /* ended, passed; the value is 0 */
    BENCH_INCONCLUSIVE = 5 /* ended, inconclusive; the value is 0 */
};

/* An answer to an opening or a report: the refusal, 0 for none; the kind; the event or set that comes with it, 0 where
 * there is none. */
struct bench_said {
    uint8_t refusal;
    uint8_t kind;
    uint16_t value;
};

/* An answer and the record after it. */
struct bench_stepped {
    struct bench_said answer;
    struct bench_run run;
};

/* Opens test k with the choice number h, trace-only if the flag `traces` is set. h picks the probe that is offered
 * after k events: of the m probes of the node reached, that at place h modulo m, counted from 0, in the order of
 * bench_list. Handed over: a copy of the reference's sheet. Answered: BENCH_GOING with the first offer, and the record
 * of the run; or the refusal (the sheet's; 14) and a record of zeros. */
struct bench_stepped bench_open(struct bench_sheet sheet, uint16_t k, uint16_t h, uint8_t traces);

/* Answers a report on a run. Handed over: a copy of the reference's sheet, the record, and what the device did with the
 * last offer: 0 to 255 is that event, every other number (BENCH_BLOCKED) says that it did nothing. Answered: how the
 * run goes on or ends, and the record after it; or the refusal (the sheet's; 16; 9; 15; 17) and the record as it
 * came. */
struct bench_stepped bench_step(struct bench_sheet sheet, struct bench_run run, uint16_t report);

/* The same on the bench's own record. Lent: the record, which is altered to the one after the report; a refusal leaves
 * it as it was. */
struct bench_said bench_report(struct bench_run *run, struct bench_sheet sheet, uint16_t report);

/* The kinds of a verdict, which are also what the list of bench_judge_all holds. */
enum {
    BENCH_PASSES = 11, /* no run of the test against the device can end failed */
    BENCH_FAILS = 12   /* some run of the test against the device can end failed, for some h */
};

/* A verdict: the refusal, 0 for none; the kind. */
struct bench_judged {
    uint8_t refusal;
    uint8_t kind;
};

/* The verdict on a device for test k, trace-only if the flag `traces` is set. Handed over: copies of both sheets.
 * Answered: BENCH_PASSES or BENCH_FAILS; or the refusal (the reference's; the device's; 11; 19; 14). */
struct bench_judged bench_judge(struct bench_sheet reference, struct bench_sheet device, uint16_t k, uint8_t traces);

/* What the call on all tests answers: the refusal, 0 for none, and how many tests were judged, 0 if it is refused. */
struct bench_suited {
    uint8_t refusal;
    uint16_t count;
};

/* The verdicts on a device for tests 0 to p q - 1, trace-only if the flag `traces` is set. Together they decide whether
 * the device refines the reference, for lists of events of every length. Handed over: copies of both sheets. Lent: a
 * list of `length` places. Answered: p q; place k of the list then holds BENCH_PASSES or BENCH_FAILS for test k, and
 * the rest of the list is as it was; or the refusal (the reference's; the device's; 11; 19; 10, a list below p q
 * places), and the whole list is as it was. */
struct bench_suited bench_judge_all(struct bench_sheet reference, struct bench_sheet device, uint8_t traces, uint8_t *out, size_t length);

/* The kinds of a comparison's answer. */
enum {
    BENCH_REFINES = 21,         /* the device refines the reference */
    BENCH_VIOLATES_STRAY = 22,  /* after the trace the device does `event`, which the reference does not */
    BENCH_VIOLATES_REFUSAL = 23 /* after the trace the device may refuse the whole of `probe`, which the reference may
                                   not: its `acceptance` has no event of it. The probe is the first such in the order of
                                   bench_list, the acceptance the lowest by number that has no event of that probe */
};

/* What a comparison answers: the refusal, 0 for none; the kind; the length d of the shortest common trace to a
 * violation; how many different pairs of nodes are reached by common traces shorter than d, or of all reached pairs if
 * it refines; and what is named. Parts that a kind has not are 0. */
struct bench_compared {
    uint8_t refusal;
    uint8_t kind;
    uint16_t d;
    uint16_t cleared;
    uint8_t event;
    uint16_t probe;
    uint16_t acceptance;
};

/* Compares a device of q nodes with a reference of p, by traces alone if the flag `traces` is set. Handed over: copies
 * of both sheets. Lent: `words` words from `work` on, of which 2 p q are needed, and `places` bytes from `trace` on, of
 * which p q - 1 are needed; BENCH_WORK_WORDS and BENCH_TRACE_BYTES are enough for any two sheets. Answered: whether the
 * device refines the reference, or the nearest violation; then 2 p q words of the work list are 0 and its later words
 * as they were, and the d events of the trace, the least of its length by event number, stand at the front of the trace
 * list and its rest is as it was. Or the refusal (the reference's; the device's; 11; 19; 12; 13), and both lists are
 * as they were. */
struct bench_compared bench_compare(struct bench_sheet reference, struct bench_sheet device, uint8_t traces, uint16_t *work,
                                    size_t words, uint8_t *trace, size_t places);

/* The longest scripts that are counted. */
enum { BENCH_SCRIPT_EVENTS = 16 };

/* What a count of scripts answers: the refusal, 0 for none; and, of all sequences of L events, how many are walked by
 * both to the end (`walked`), how many are stopped first at an event that the device cannot do (`device`), and how many
 * are stopped first at an event that the device can do and the reference cannot (`reference`). The device is asked
 * first: an event that neither can do counts for it. The three sum to E to the power L; the last two of them are the
 * scripts that end early. Acceptances play no part: a script counts as walked even if the device may refuse an event of
 * it. If the call is refused, all three are 0. */
struct bench_scripts {
    uint8_t refusal;
    uint64_t walked;
    uint64_t device;
    uint64_t reference;
};

/* Counts the scripts of `length` events, 0 to BENCH_SCRIPT_EVENTS. Handed over: copies of both sheets. Answered: the
 * three counts; or the refusal (the reference's; the device's; 11; 19; 20, a length above 16). With length 0 there is
 * one script, without an event, which both walk. */
struct bench_scripts bench_count(struct bench_sheet reference, struct bench_sheet device, uint16_t length);

/* The most rules of a keypad's table, and their bytes. */
enum { BENCH_RULES = 64, BENCH_TABLE_BYTES = 192 };

/* The kinds of an answer on a keypad's table. A code is bad if no rule matches it, or more than one; the gap or overlap
 * is that of the smallest bad code. */
enum {
    BENCH_GOOD = 31,    /* of bench_keypad: just one rule matches each code */
    BENCH_GAP = 32,     /* no rule matches `code` */
    BENCH_OVERLAP = 33, /* more than one rule matches `code`; the two lowest of these are `first` and `second` */
    BENCH_FOUND = 34    /* of bench_find: the table is good, and `event` is that of the code that was asked for */
};

/* What a check of a keypad's table answers: the refusal, 0 for none; the kind; the smallest bad code; the two lowest
 * rules that match it, the lower first, counted from 0. Parts that a kind has not are 0. The struct and the call have
 * one name; so C++ too must name it with the word `struct`. */
struct bench_keypad {
    uint8_t refusal;
    uint8_t kind;
    uint8_t code;
    uint8_t first;
    uint8_t second;
};

/* Checks a keypad's table, which says, for each code of 0 to 255 that the keypad may send, which event of the sheet it
 * is. A rule is three bytes: a mask, a value and an event; it matches a code if the bits of the code that are in the
 * mask equal the value, (code & mask) == value. Handed over: a copy of the sheet. Lent: `length` bytes from `table` on,
 * which may be any: the rules, back to back. Answered: BENCH_GOOD, or BENCH_GAP or BENCH_OVERLAP with the smallest bad
 * code; or the refusal (the sheet's; 21; 22; 23, each looked for in the whole table). */
struct bench_keypad bench_keypad(struct bench_sheet sheet, const uint8_t *table, size_t length);

/* What a lookup answers: the refusal, 0 for none; the kind; the event of the code that was asked for; and, as above,
 * the smallest bad code, which need not be the code that was asked for, and the two lowest rules that match it. Parts
 * that a kind has not are 0. */
struct bench_found {
    uint8_t refusal;
    uint8_t kind;
    uint8_t event;
    uint8_t code;
    uint8_t first;
    uint8_t second;
};

/* Turns a code into its event. Handed over: a copy of the sheet, and the code. Lent: a table, as to bench_keypad.
 * Answered: BENCH_FOUND, if the table is good, with the event of the rule that matches the code; else the gap, the
 * overlap or the refusal that bench_keypad answers, whatever the code is, also if just one rule matches it. Nothing is
 * kept from an earlier check, so a lookup costs a check of the whole table. */
struct bench_found bench_find(struct bench_sheet sheet, const uint8_t *table, size_t length, uint8_t code);

/* The most events of a walk, and so the bytes of a list that suffices for any. */
enum { BENCH_WALK_EVENTS = 4096 };

/* What a walk answers: the refusal, 0 for none, and how many events the walk has, 0 if it is refused. */
struct bench_walked {
    uint8_t refusal;
    uint16_t length;
};

/* Walks on a sheet from node 0 as a seed says, so that two sites with the same sheet, seed and wish get the same walk.
 * The generator is xorshift32: its state, at first the seed, is combined by exclusive or with itself shifted left 13,
 * then right 17, then left 5, dropping high bits; state 1 is followed by 270369. Each step takes the next state first,
 * so that the seed itself chooses no event; then, of the m initials of the node reached, which are the events that have
 * a successor there, ascending, it takes event number (state remainder m), counted from 0, and goes to its successor. A
 * walk has `wish` events, or it ends early, at a node that has no initials. Acceptances and codes play no part. Every
 * walk is a trace, and a shorter wish gives the front of the walk that a longer one gives. Handed over: a copy of the
 * sheet, the seed, any but 0, and the wished length, 0 to BENCH_WALK_EVENTS. Lent: `length` bytes from `out` on.
 * Answered: 0 and the walk's length; its events then stand at the front of the list, and the rest of the list is as it
 * was, also between the walk's length and the wish; or the refusal (the sheet's; 27; 28), and the whole list is as it
 * was. 28 counts against the wish and not against the walk: a list shorter than the wish is refused even if the walk
 * would end early and have room. */
struct bench_walked bench_walk(struct bench_sheet sheet, uint32_t seed, uint16_t wish, uint8_t *out, size_t length);

/* The bytes of the two sheets that bench_bound writes for p and q of 32, and so of lists that suffice for any. */
enum { BENCH_REFERENCE_BYTES = 229, BENCH_DEVICE_BYTES = 167 };

/* What the call that writes two sheets answers: the refusal, 0 for none, and the lengths of the reference and of the
 * device in bytes, both 0 if it is refused. */
struct bench_bounded {
    uint8_t refusal;
    uint16_t reference;
    uint16_t device;
};

/* Writes two sheets that reach the bound: a reference of p nodes and a device of q, accepted, of version 1 and with two
 * events, 0 and 1, whose first failing test is number p q - 1. The device does only event 0 to climb its nodes and only
 * event 1 at the last, back to its first. The reference stays on 0, climbs on 1, may insist on either alone (sets 1 and
 * 2), and at its last node knows only 0, staying. A node with one event has that event as its one set. The sheets have
 * 7 p + 5 and 5 q + 7 bytes. Handed over: p and q, each 1 to 32; no sheet is. Lent: `reference_length` bytes from
 * `reference` on and `device_length` bytes from `device` on, two lists that have no byte in common. Answered: 0 and the
 * two lengths; each sheet then stands at the front of its own list, and the rest of that list is as it was; or the
 * refusal (30; 31, for either list), and both lists are as they were, also the one that was long enough.
 *
 * What it is for: the last tests of a suite are no padding. It is proved of the bytes that every test below p q - 1
 * passes and test p q - 1 fails, for trace-only tests and for the others, and that every violation comes after exactly
 * p q - 1 events. So a suite that ends before test p q - 1 is passed by a device that does not refine its reference,
 * and no smaller bound than p q serves all sheets of p and q nodes. */
struct bench_bounded bench_bound(uint8_t p, uint8_t q, uint8_t *reference, size_t reference_length, uint8_t *device,
                                 size_t device_length);

/* The places of each struct, on which the library and its callers agree, held where the compiler can: from C11 and from
 * C++11 on. */
#if defined(__cplusplus) && __cplusplus >= 201103L
#define BENCH_HOLDS(fact) static_assert(fact, #fact)
#elif defined(__STDC_VERSION__) && __STDC_VERSION__ >= 201112L
#define BENCH_HOLDS(fact) _Static_assert(fact, #fact)
#endif
#ifdef BENCH_HOLDS
BENCH_HOLDS(sizeof(struct bench_row) == 46);
BENCH_HOLDS(offsetof(struct bench_row, sets) == 12 && offsetof(struct bench_row, c) == 44);
BENCH_HOLDS(sizeof(struct bench_sheet) == 1498 && offsetof(struct bench_sheet, codes) == 1474);
BENCH_HOLDS(offsetof(struct bench_sheet, e) == 1472 && offsetof(struct bench_sheet, n) == 1473);
BENCH_HOLDS(sizeof(struct bench_read_sheet) == 1500 && offsetof(struct bench_read_sheet, sheet) == 2);
BENCH_HOLDS(sizeof(struct bench_listed) == 4 && offsetof(struct bench_listed, count) == 2);
BENCH_HOLDS(sizeof(struct bench_run) == 10 && offsetof(struct bench_run, h) == 2);
BENCH_HOLDS(offsetof(struct bench_run, traces) == 4 && offsetof(struct bench_run, ended) == 5);
BENCH_HOLDS(offsetof(struct bench_run, node) == 6 && offsetof(struct bench_run, depth) == 8);
BENCH_HOLDS(sizeof(struct bench_said) == 4);
BENCH_HOLDS(offsetof(struct bench_said, kind) == 1 && offsetof(struct bench_said, value) == 2);
BENCH_HOLDS(sizeof(struct bench_stepped) == 14 && offsetof(struct bench_stepped, run) == 4);
BENCH_HOLDS(sizeof(struct bench_judged) == 2 && offsetof(struct bench_judged, kind) == 1);
BENCH_HOLDS(sizeof(struct bench_suited) == 4 && offsetof(struct bench_suited, count) == 2);
BENCH_HOLDS(sizeof(struct bench_compared) == 12 && offsetof(struct bench_compared, kind) == 1);
BENCH_HOLDS(offsetof(struct bench_compared, d) == 2 && offsetof(struct bench_compared, cleared) == 4);
BENCH_HOLDS(offsetof(struct bench_compared, event) == 6 && offsetof(struct bench_compared, probe) == 8);
BENCH_HOLDS(offsetof(struct bench_compared, acceptance) == 10);
BENCH_HOLDS(sizeof(struct bench_scripts) == 32 && offsetof(struct bench_scripts, walked) == 8);
BENCH_HOLDS(offsetof(struct bench_scripts, device) == 16 && offsetof(struct bench_scripts, reference) == 24);
BENCH_HOLDS(sizeof(struct bench_keypad) == 5 && offsetof(struct bench_keypad, kind) == 1);
BENCH_HOLDS(offsetof(struct bench_keypad, code) == 2 && offsetof(struct bench_keypad, first) == 3);
BENCH_HOLDS(offsetof(struct bench_keypad, second) == 4);
BENCH_HOLDS(sizeof(struct bench_found) == 6 && offsetof(struct bench_found, kind) == 1);
BENCH_HOLDS(offsetof(struct bench_found, event) == 2 && offsetof(struct bench_found, code) == 3);
BENCH_HOLDS(offsetof(struct bench_found, first) == 4 && offsetof(struct bench_found, second) == 5);
BENCH_HOLDS(sizeof(struct bench_walked) == 4 && offsetof(struct bench_walked, length) == 2);
BENCH_HOLDS(sizeof(struct bench_bounded) == 6 && offsetof(struct bench_bounded, reference) == 2);
BENCH_HOLDS(offsetof(struct bench_bounded, device) == 4);
#undef BENCH_HOLDS
#endif

#ifdef __cplusplus
}
#endif

#endif
