//! All accepted sheets of a small size.

use crate::sheet::{check, Sheet, NO_NODE};

type Node = (Vec<u8>, Vec<u16>);

/// Every accepted sheet with exactly `e` events and `n` nodes (both small).
pub fn all_sheets(e: u8, n: u8) -> Vec<Sheet> {
    let choices = all_nodes(e, n);
    let mut lists: Vec<Vec<Node>> = vec![Vec::new()];
    for _ in 0..n {
        let longer = |list: &Vec<Node>| {
            let list = list.clone();
            choices
                .iter()
                .map(move |node| [&list[..], std::slice::from_ref(node)].concat())
        };
        lists = lists
            .iter()
            .flat_map(|list| longer(list).collect::<Vec<_>>())
            .collect();
    }
    let sheets = lists.iter().map(|nodes| Sheet::build(e, nodes));
    sheets.filter(|sheet| check(sheet) == 0).collect()
}

/// Every node with `e` events whose successors are below `n` and whose sets keep the rules.
pub fn all_nodes(e: u8, n: u8) -> Vec<Node> {
    let mut rows: Vec<Vec<u8>> = vec![Vec::new()];
    for _ in 0..e {
        let targets = (0..n).chain([NO_NODE]);
        rows = targets
            .flat_map(|next| rows.iter().map(move |row| [&row[..], &[next]].concat()))
            .collect();
    }
    let with_sets = |row: Vec<u8>| {
        let initials = (0..row.len())
            .filter(|&event| row[event] != NO_NODE)
            .fold(0, |set, event| set | 1u16 << event);
        let choices = antichains(initials).into_iter();
        choices
            .map(move |sets| (row.clone(), sets))
            .collect::<Vec<_>>()
    };
    rows.into_iter().flat_map(with_sets).collect()
}

/// Every non-empty ascending antichain of at most 16 sets inside `initials`.
pub fn antichains(initials: u16) -> Vec<Vec<u16>> {
    let inside: Vec<u16> = (0..=initials).filter(|set| set & !initials == 0).collect();
    let mut found: Vec<Vec<u16>> = vec![Vec::new()];
    for &set in &inside {
        let apart = |chain: &&Vec<u16>| {
            let mut others = chain.iter();
            others.all(|&other| other & !set != 0 && set & !other != 0)
        };
        let longer: Vec<Vec<u16>> = found
            .iter()
            .filter(apart)
            .map(|chain| [&chain[..], &[set]].concat())
            .collect();
        found.extend(longer);
    }
    found.retain(|chain| !chain.is_empty() && chain.len() <= 16);
    found
}
