//! The calls of the proved library (include/bench.h), each behind a safe function.

use std::mem::{offset_of, size_of};

use model::faults::ReadAnswer;
use model::numbers::{
    Bounded, Compared, Found, Judged, Keypad, Listed, Record, Said, Scripts, Stepped, Suited,
    Walked,
};
use model::sheet::{Row, Sheet};

/// What reading answers, in the layout of C.
#[repr(C)]
#[derive(Clone, Copy)]
struct ReadSheet {
    refusal: u8,
    sheet: Sheet,
}

// The places of each struct, as the header states them.
const _: () = assert!(size_of::<Row>() == 46);
const _: () = assert!(offset_of!(Row, sets) == 12 && offset_of!(Row, c) == 44);
const _: () = assert!(size_of::<Sheet>() == 1_498);
const _: () = assert!(offset_of!(Sheet, e) == 1_472 && offset_of!(Sheet, n) == 1_473);
const _: () = assert!(offset_of!(Sheet, codes) == 1_474);
const _: () = assert!(size_of::<ReadSheet>() == 1_500);
const _: () = assert!(offset_of!(ReadSheet, sheet) == 2);
const _: () = assert!(size_of::<Listed>() == 4 && offset_of!(Listed, count) == 2);
const _: () = assert!(size_of::<Suited>() == 4 && offset_of!(Suited, count) == 2);
const _: () = assert!(size_of::<Judged>() == 2 && offset_of!(Judged, kind) == 1);
const _: () = assert!(size_of::<Said>() == 4);
const _: () = assert!(offset_of!(Said, kind) == 1 && offset_of!(Said, value) == 2);
const _: () = assert!(size_of::<Record>() == 10);
const _: () = assert!(offset_of!(Record, traces) == 4 && offset_of!(Record, ended) == 5);
const _: () = assert!(offset_of!(Record, node) == 6 && offset_of!(Record, depth) == 8);
const _: () = assert!(size_of::<Stepped>() == 14 && offset_of!(Stepped, run) == 4);
const _: () = assert!(size_of::<Compared>() == 12);
const _: () = assert!(offset_of!(Compared, d) == 2 && offset_of!(Compared, cleared) == 4);
const _: () = assert!(offset_of!(Compared, event) == 6 && offset_of!(Compared, probe) == 8);
const _: () = assert!(offset_of!(Compared, acceptance) == 10);
const _: () = assert!(size_of::<Scripts>() == 32 && offset_of!(Scripts, walked) == 8);
const _: () = assert!(offset_of!(Scripts, device) == 16 && offset_of!(Scripts, reference) == 24);
const _: () = assert!(size_of::<Keypad>() == 5 && offset_of!(Keypad, kind) == 1);
const _: () = assert!(offset_of!(Keypad, code) == 2 && offset_of!(Keypad, first) == 3);
const _: () = assert!(offset_of!(Keypad, second) == 4);
const _: () = assert!(size_of::<Found>() == 6 && offset_of!(Found, kind) == 1);
const _: () = assert!(offset_of!(Found, event) == 2 && offset_of!(Found, code) == 3);
const _: () = assert!(offset_of!(Found, first) == 4 && offset_of!(Found, second) == 5);
const _: () = assert!(size_of::<Walked>() == 4 && offset_of!(Walked, length) == 2);
const _: () = assert!(size_of::<Bounded>() == 6);
const _: () = assert!(offset_of!(Bounded, reference) == 2 && offset_of!(Bounded, device) == 4);

extern "C" {
    fn bench_read(bytes: *const u8, length: usize) -> ReadSheet;
    fn bench_check(sheet: Sheet) -> u8;
    fn bench_list(sheet: Sheet, node: u8, out: *mut u16, length: usize) -> Listed;
    fn bench_list_nodes(sheet: Sheet, nodes: u32, out: *mut u16, length: usize) -> Listed;
    fn bench_open(sheet: Sheet, k: u16, h: u16, traces: u8) -> Stepped;
    fn bench_step(sheet: Sheet, run: Record, report: u16) -> Stepped;
    fn bench_report(run: *mut Record, sheet: Sheet, report: u16) -> Said;
    fn bench_judge(reference: Sheet, device: Sheet, k: u16, traces: u8) -> Judged;
    fn bench_judge_all(
        reference: Sheet,
        device: Sheet,
        traces: u8,
        out: *mut u8,
        length: usize,
    ) -> Suited;
    fn bench_compare(
        reference: Sheet,
        device: Sheet,
        traces: u8,
        work: *mut u16,
        words: usize,
        trace: *mut u8,
        places: usize,
    ) -> Compared;
    fn bench_count(reference: Sheet, device: Sheet, length: u16) -> Scripts;
    fn bench_keypad(sheet: Sheet, table: *const u8, length: usize) -> Keypad;
    fn bench_find(sheet: Sheet, table: *const u8, length: usize, code: u8) -> Found;
    fn bench_walk(sheet: Sheet, seed: u32, wish: u16, out: *mut u8, length: usize) -> Walked;
    fn bench_bound(
        p: u8,
        q: u8,
        reference: *mut u8,
        reference_length: usize,
        device: *mut u8,
        device_length: usize,
    ) -> Bounded;
}

/// Reads a sheet: 0 and the kept sheet, or the refusal and zeros.
pub fn read(bytes: &[u8]) -> ReadAnswer {
    // Sound: the slice is lent for the call, and the library is proved to read inside it.
    let answer = unsafe { bench_read(bytes.as_ptr(), bytes.len()) };
    ReadAnswer {
        number: answer.refusal,
        sheet: answer.sheet,
    }
}

/// Checks a kept sheet: 0 or the refusal.
pub fn check(sheet: &Sheet) -> u8 {
    // Sound: the sheet is handed over by value.
    unsafe { bench_check(*sheet) }
}

/// Writes the probes of a node to a lent list.
pub fn list(sheet: &Sheet, node: u8, out: &mut [u16]) -> Listed {
    // Sound: the slice is lent for the call, and the library is proved to write inside it.
    unsafe { bench_list(*sheet, node, out.as_mut_ptr(), out.len()) }
}

/// Writes the probes for the nodes of a set to a lent list.
pub fn list_nodes(sheet: &Sheet, nodes: u32, out: &mut [u16]) -> Listed {
    // Sound: as for `list`.
    unsafe { bench_list_nodes(*sheet, nodes, out.as_mut_ptr(), out.len()) }
}

/// Opens a test.
pub fn open(sheet: &Sheet, k: u16, h: u16, traces: u8) -> Stepped {
    // Sound: everything is handed over by value.
    unsafe { bench_open(*sheet, k, h, traces) }
}

/// Answers a report on a record by value.
pub fn step(sheet: &Sheet, run: &Record, report: u16) -> Stepped {
    // Sound: everything is handed over by value.
    unsafe { bench_step(*sheet, *run, report) }
}

/// Answers a report on a record in place.
pub fn report(run: &mut Record, sheet: &Sheet, report: u16) -> Said {
    // Sound: the record is lent for the call.
    unsafe { bench_report(run, *sheet, report) }
}

/// The verdict on a device.
pub fn judge(reference: &Sheet, device: &Sheet, k: u16, traces: u8) -> Judged {
    // Sound: everything is handed over by value.
    unsafe { bench_judge(*reference, *device, k, traces) }
}

/// The verdicts on a device for all tests, into a lent list.
pub fn judge_all(reference: &Sheet, device: &Sheet, traces: u8, out: &mut [u8]) -> Suited {
    // Sound: the slice is lent for the call, and the library is proved to write inside it.
    unsafe { bench_judge_all(*reference, *device, traces, out.as_mut_ptr(), out.len()) }
}

/// Compares a device with a reference.
pub fn compare(
    reference: &Sheet,
    device: &Sheet,
    traces: u8,
    work: &mut [u16],
    trace: &mut [u8],
) -> Compared {
    // Sound: both slices are lent for the call, and the library is proved to write inside them.
    unsafe {
        bench_compare(
            *reference,
            *device,
            traces,
            work.as_mut_ptr(),
            work.len(),
            trace.as_mut_ptr(),
            trace.len(),
        )
    }
}

/// Counts the scripts of some length.
pub fn count(reference: &Sheet, device: &Sheet, length: u16) -> Scripts {
    // Sound: everything is handed over by value.
    unsafe { bench_count(*reference, *device, length) }
}

/// Checks a rule table.
pub fn keypad(sheet: &Sheet, table: &[u8]) -> Keypad {
    // Sound: the slice is lent for the call, and the library is proved to read inside it.
    unsafe { bench_keypad(*sheet, table.as_ptr(), table.len()) }
}

/// Looks a code up in a rule table.
pub fn find(sheet: &Sheet, table: &[u8], code: u8) -> Found {
    // Sound: the slice is lent for the call, and the library is proved to read inside it.
    unsafe { bench_find(*sheet, table.as_ptr(), table.len(), code) }
}

/// Writes the walk that a seed makes on a sheet to a lent list.
pub fn walk(sheet: &Sheet, seed: u32, wish: u16, out: &mut [u8]) -> Walked {
    // Sound: the slice is lent for the call, and the library is proved to write inside it.
    unsafe { bench_walk(*sheet, seed, wish, out.as_mut_ptr(), out.len()) }
}

/// Writes the two sheets whose first failing test is p q - 1, each to its own lent list.
pub fn bound(p: u8, q: u8, reference: &mut [u8], device: &mut [u8]) -> Bounded {
    // Sound: both slices are lent for the call, and the library is proved to write inside them.
    unsafe {
        bench_bound(
            p,
            q,
            reference.as_mut_ptr(),
            reference.len(),
            device.as_mut_ptr(),
            device.len(),
        )
    }
}
