//! The model prints for every sample what stands beside it.

use std::fs::{read, read_dir, read_to_string};
use std::path::{Path, PathBuf};

use model::text::{
    bound_pair, compare, keypad_check, probe_list, script_counts, show, suite, walk,
};

/// How the names of the texts beside a file go on after its own name and some letters: a length of
/// scripts, nothing or `_` and a code of a keypad, or a seed, `_` and a length of a walk.
fn beside(file: &Path, letters: &str) -> Vec<String> {
    let stem = file.with_extension(letters).display().to_string();
    let folder = files(file.parent().expect("a folder"), "");
    let names = folder.iter().map(|file| file.display().to_string());
    names
        .filter_map(|name| name.strip_prefix(&stem).map(String::from))
        .collect()
}

/// The files of a folder whose names end in some way, in order.
fn files(folder: &Path, end: &str) -> Vec<PathBuf> {
    let entries = read_dir(folder).expect("a folder").flatten();
    let mut files: Vec<PathBuf> = entries.map(|entry| entry.path()).collect();
    files.retain(|file| file.to_string_lossy().ends_with(end));
    files.sort();
    files
}

/// A text is what stands beside a file under another ending.
fn held(file: &Path, end: &str, text: String) {
    let beside = file.with_extension(end);
    let expected = read_to_string(&beside).expect("a text");
    assert_eq!(text, expected, "{}", beside.display());
}

/// The texts of a sheet: of it alone, and of it as a device of the reference. How many there are.
fn sheet_texts(reference: &[u8], file: &Path) -> usize {
    let bytes = read(file).expect("a sheet");
    held(file, "show", show::output(&bytes));
    held(file, "probes", probe_list::output(&bytes));
    if bytes == reference {
        return 2;
    }
    let input = [reference, &bytes[..]].concat();
    held(file, "compare", compare::output(&input));
    held(file, "suite", suite::output(&input));
    let lengths = beside(file, "scripts_");
    for length in &lengths {
        let call = script_counts::Call {
            input: input.clone(),
            words: vec![length.clone()],
        };
        held(
            file,
            &format!("scripts_{length}"),
            script_counts::output(&call),
        );
    }
    4 + lengths.len()
}

/// The texts of the walks on a sheet: with the seed S and the length L in NAME.walk_S_L. How many
/// there are.
fn walk_texts(file: &Path) -> usize {
    let bytes = read(file).expect("a sheet");
    let ends = beside(file, "walk_");
    for end in &ends {
        let call = walk::Call {
            input: bytes.clone(),
            words: end.split('_').map(String::from).collect(),
        };
        held(file, &format!("walk_{end}"), walk::output(&call));
    }
    ends.len()
}

/// The texts of a rule table on the reference: without a code in NAME.keypad, with the code N in
/// NAME.keypad_N. How many there are; a table has one at least.
fn table_texts(reference: &[u8], file: &Path) -> usize {
    let bytes = read(file).expect("a table");
    let ends = beside(file, "keypad");
    assert!(!ends.is_empty(), "{} has no text", file.display());
    for end in &ends {
        let words = match end.strip_prefix('_') {
            Some(code) => vec![code.to_string()],
            None => Vec::new(),
        };
        let call = keypad_check::Call {
            input: [reference, &bytes[..]].concat(),
            words,
        };
        held(file, &format!("keypad{end}"), keypad_check::output(&call));
    }
    ends.len()
}

/// The texts of a pair that reaches the bound, where a folder has one: for P and Q of bound.words
/// the lines are in bound.out and the bytes in the two sheets. How many there are.
fn bound_texts(folder: &Path) -> usize {
    let Ok(counts) = read_to_string(folder.join("bound.words")) else {
        return 0;
    };
    let beside = [
        ("lines", "bound.out"),
        ("reference", "reference.sheet"),
        ("device", "device.sheet"),
    ];
    for (word, name) in beside {
        let words: Vec<String> = counts.split_whitespace().map(String::from).collect();
        let words = [words, vec![word.to_string()]].concat();
        let file = folder.join(name);
        let written = bound_pair::Written::printed(read(&file).expect("a text"));
        assert_eq!(bound_pair::output(&words), written, "{}", file.display());
    }
    beside.len()
}

/// How many texts of a folder have names whose ending begins with some letters.
fn there(folder: &Path, letters: &str) -> usize {
    let begins = |file: &&PathBuf| {
        let end = file.extension().map(|end| end.to_string_lossy());
        end.is_some_and(|end| end.starts_with(letters))
    };
    files(folder, "").iter().filter(begins).count()
}

#[test]
fn the_samples() {
    let samples = Path::new(env!("CARGO_MANIFEST_DIR")).join("../samples");
    let mut texts = 0;
    let mut bounds = 0;
    for folder in files(&samples, "") {
        let reference = read(folder.join("reference.sheet")).expect("a reference");
        let sheets = files(&folder, ".sheet");
        for file in &sheets {
            texts += sheet_texts(&reference, file);
        }
        let walks: usize = sheets.iter().map(|file| walk_texts(file)).sum();
        assert_eq!(walks, there(&folder, "walk"), "a text without its sheet");
        let tables = files(&folder, ".table");
        let held: usize = tables
            .iter()
            .map(|file| table_texts(&reference, file))
            .sum();
        assert_eq!(held, there(&folder, "keypad"), "a text without its table");
        let bound = bound_texts(&folder);
        bounds += bound;
        texts += walks + held + bound;
    }
    assert_eq!(bounds, 3, "a pair that reaches the bound");
    assert!(texts >= 75, "{texts}");
}

#[test]
fn a_text_of_each_kind() {
    let sheet = [
        0, 0, 0, 13, 1, 2, 2, 1, 0, 1, 0, 1, 0, 255, 1, 0, 0, // two nodes, the second may stop
    ];
    let shown = "sheet 2 nodes 2 events
node 0
event 0 to 1
event 1 to 0
accepts 1 ( 0 )
node 1
event 0 to 0
may stop
";
    assert_eq!(show::output(&sheet), shown);
    let listed = "sheet 2 nodes 2 events
node 0 probes 1 ( 0 )
node 0 optional 1
node 1 may stop
node 1 optional 0
";
    assert_eq!(probe_list::output(&sheet), listed);
    let refused = "sheet refused 1 too short or its length field is wrong\n";
    assert_eq!(show::output(&sheet[..16]), refused);
    let both = [sheet, sheet].concat();
    let judged = "reference 2 nodes 2 events
device 2 nodes 2 events
test 0 passes
test 1 passes
test 2 passes
test 3 passes
tests 4 run 4 all pass
";
    assert_eq!(suite::output(&both), judged);
    let halves = [&sheet[..], &[128, 0, 0, 128, 128, 1]].concat();
    let looked = "sheet 2 nodes 2 events
table 2 rules
good
code 200 event 1
";
    let call = keypad_check::Call {
        input: halves,
        words: vec!["200".to_string()],
    };
    assert_eq!(keypad_check::output(&call), looked);
    let walked = "sheet 2 nodes 2 events
walked 6 of 6
trace 1 1 1 1 1 0
";
    let call = walk::Call {
        input: sheet.to_vec(),
        words: vec!["1".to_string(), "6".to_string()],
    };
    assert_eq!(walk::output(&call), walked);
    let bound = "reference 3 nodes 26 bytes
device 4 nodes 27 bytes
first failing test 11
";
    let words = ["3", "4", "lines"].map(String::from);
    let written = bound_pair::Written::printed(bound);
    assert_eq!(bound_pair::output(&words), written);
}
