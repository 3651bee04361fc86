//! A sheet as flat tables, with the checks of a reading and of a kept sheet.

use model::sheet::{Sheet, MAX_EVENTS, MAX_NODES, MAX_SETS, NO_NODE};

/// A sheet as flat tables: node v's successor on event i at 12 v + i, its sets from 16 v on.
#[derive(Clone, PartialEq, Eq, Debug)]
pub struct Tables {
    pub succ: [u8; MAX_NODES * MAX_EVENTS],
    pub sets: [u16; MAX_NODES * MAX_SETS],
    pub counts: [u8; MAX_NODES],
    pub e: u8,
    pub n: u8,
    pub codes: [u16; MAX_EVENTS],
}

impl Tables {
    /// Every place 0.
    pub const ZERO: Tables = Tables {
        succ: [0; MAX_NODES * MAX_EVENTS],
        sets: [0; MAX_NODES * MAX_SETS],
        counts: [0; MAX_NODES],
        e: 0,
        n: 0,
        codes: [0; MAX_EVENTS],
    };

    /// The tables of a kept sheet with any content.
    pub fn of(sheet: &Sheet) -> Tables {
        let mut tables = Tables::ZERO;
        for (v, row) in sheet.rows.iter().enumerate() {
            tables.succ[v * 12..v * 12 + 12].copy_from_slice(&row.succ);
            tables.sets[v * 16..v * 16 + 16].copy_from_slice(&row.sets);
            tables.counts[v] = row.c;
        }
        (tables.e, tables.n, tables.codes) = (sheet.e, sheet.n, sheet.codes);
        tables
    }

    /// The codes of the E events.
    pub fn codes(&self) -> &[u16] {
        &self.codes[..self.e as usize]
    }

    /// The successors of a node on its E events.
    pub fn row(&self, v: usize) -> &[u8] {
        &self.succ[v * 12..v * 12 + self.e as usize]
    }

    /// The acceptances of a node.
    pub fn acceptances(&self, v: usize) -> &[u16] {
        &self.sets[v * 16..v * 16 + self.counts[v] as usize]
    }

    /// The events of a node that have a successor.
    pub fn initials(&self, v: usize) -> u16 {
        let row = self.row(v).iter().enumerate();
        row.fold(0, |set, (i, &next)| set | u16::from(next != NO_NODE) << i)
    }

    /// All E events.
    pub fn all_events(&self) -> u16 {
        (1 << self.e) - 1
    }

    /// Whether a node may stop. The empty set, where there is one, stands alone.
    pub fn may_stop(&self, v: usize) -> bool {
        self.sets[v * 16] == 0
    }
}

/// Reads bytes: 0 and the tables, or the refusal and tables of zeros.
pub fn read(bytes: &[u8]) -> (u8, Tables) {
    let mut tables = Tables::ZERO;
    let number = match fill(bytes, &mut tables) {
        0 => graph(&tables),
        number => number,
    };
    if number != 0 {
        tables = Tables::ZERO;
    }
    (number, tables)
}

/// 1 to 5 and 18, while the tables are filled.
fn fill(bytes: &[u8], tables: &mut Tables) -> u8 {
    if bytes.len() < 7 {
        return 1;
    }
    let field = u32::from_be_bytes([bytes[0], bytes[1], bytes[2], bytes[3]]);
    if u64::from(field) + 4 != bytes.len() as u64 {
        return 1;
    }
    if !(1..=2).contains(&bytes[4]) {
        return 2;
    }
    (tables.e, tables.n) = (bytes[5], bytes[6]);
    if !in_range(tables) {
        return 3;
    }
    tables.succ.fill(NO_NODE);
    let e = tables.e as usize;
    let places = tables.codes[..e].iter_mut();
    if bytes[4] == 1 {
        places.zip(1..).for_each(|(place, code)| *place = code);
        return nodes(&bytes[7..], tables);
    }
    if bytes.len() < 7 + 2 * e {
        return 4;
    }
    let (codes, after) = bytes[7..].split_at(2 * e);
    for (place, pair) in places.zip(codes.chunks_exact(2)) {
        *place = u16::from_be_bytes([pair[0], pair[1]]);
    }
    if twice(tables.codes()) {
        return 18;
    }
    nodes(after, tables)
}

/// 18: whether two events have one code.
fn twice(codes: &[u16]) -> bool {
    let mut places = codes.iter().enumerate();
    places.any(|(j, code)| codes[..j].contains(code))
}

/// 4 and 5, in one walk over the nodes, which are put into the tables.
fn nodes(mut rest: &[u8], tables: &mut Tables) -> u8 {
    let e = tables.e as usize;
    for v in 0..tables.n as usize {
        if rest.len() <= e {
            return 4;
        }
        let (succ, after) = rest.split_at(e);
        let c = after[0] as usize;
        if !(1..=MAX_SETS).contains(&c) {
            return 5;
        }
        if after.len() < 1 + 2 * c {
            return 4;
        }
        let (sets, after) = after[1..].split_at(2 * c);
        tables.succ[v * 12..v * 12 + e].copy_from_slice(succ);
        tables.counts[v] = c as u8;
        let places = tables.sets[v * 16..v * 16 + c].iter_mut();
        for (place, pair) in places.zip(sets.chunks_exact(2)) {
            *place = u16::from_be_bytes([pair[0], pair[1]]);
        }
        rest = after;
    }
    if rest.is_empty() {
        0
    } else {
        4
    }
}

/// Checks tables with any content: 0 or the refusal.
pub fn check(tables: &Tables) -> u8 {
    if !in_range(tables) {
        return 3;
    }
    if twice(tables.codes()) {
        return 18;
    }
    let counts = &tables.counts[..tables.n as usize];
    if !counts.iter().all(|c| (1..=16).contains(c)) {
        return 5;
    }
    match graph(tables) {
        0 | 8 if !blank(tables) => 7,
        number => number,
    }
}

/// 3: whether E and N are in range.
fn in_range(tables: &Tables) -> bool {
    (1..=12).contains(&tables.e) && (1..=32).contains(&tables.n)
}

/// 7: whether the unused places hold what they should.
fn blank(tables: &Tables) -> bool {
    let n = tables.n as usize;
    let used = (0..n).all(|v| {
        let succ = &tables.succ[v * 12 + tables.e as usize..v * 12 + 12];
        let sets = &tables.sets[v * 16 + tables.counts[v] as usize..v * 16 + 16];
        succ.iter().all(|&next| next == NO_NODE) && sets.iter().all(|&set| set == 0)
    });
    used && tables.succ[n * 12..].iter().all(|&next| next == NO_NODE)
        && tables.sets[n * 16..].iter().all(|&set| set == 0)
        && tables.counts[n..].iter().all(|&c| c == 0)
        && tables.codes[tables.e as usize..]
            .iter()
            .all(|&code| code == 0)
}

/// 6, 7 (of the used places) and 8.
fn graph(tables: &Tables) -> u8 {
    let n = tables.n;
    let inside = |&next: &u8| next == NO_NODE || next < n;
    if !(0..n as usize).all(|v| tables.row(v).iter().all(inside)) {
        return 6;
    }
    let good = |v: usize| sets_good(tables.initials(v), tables.acceptances(v));
    if !(0..n as usize).all(good) {
        return 7;
    }
    if reached(tables).count_ones() == u32::from(n) {
        0
    } else {
        8
    }
}

/// The set rules of one node.
fn sets_good(initials: u16, sets: &[u16]) -> bool {
    sets.windows(2).all(|two| two[0] < two[1])
        && sets
            .iter()
            .enumerate()
            .all(|(j, &set)| set & !initials == 0 && !sets[..j].iter().any(|&low| low & !set == 0))
}

/// The nodes that are reached from node 0, as a set.
fn reached(tables: &Tables) -> u32 {
    let (mut found, mut fresh) = (1u32, 1u32);
    while fresh != 0 {
        let v = fresh.trailing_zeros() as usize;
        fresh &= fresh - 1;
        let next = tables.row(v).iter().filter(|&&next| next != NO_NODE);
        let new = next.fold(0, |set, &next| set | 1u32 << next) & !found;
        found |= new;
        fresh |= new;
    }
    found
}
