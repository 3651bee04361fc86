//! A reproducible load: states and walks of some seeds, the edges, the order of refusals, walks
//! held against their laws, each place for itself, and the text of the program.

use model::examples::{may_stop, never_stops, program_pair, stopped, PROGRAM_INPUT};
use model::load::{
    event_after, fill, initials, list, next_state, place_by_place, state_after, step_by_step,
    taken, walk_of, MAX_WALK,
};
use model::numbers::{walk_numbers, Walked};
use model::random::*;
use model::sheet::{check, encode, is_trace, read, walk, Sheet, NO_NODE};
use model::text::walk::{output, Call};

/// The walk into a list that is just long enough.
fn told(sheet: &Sheet, seed: u32, wish: u16) -> Result<Vec<u8>, u8> {
    list(sheet, seed, wish, wish.into())
}

/// A node that goes on on event 1 and ends on event 0.
fn ends() -> Sheet {
    Sheet::build(2, &[([1, 0], [3]), ([NO_NODE; 2], [0])])
}

/// The states after the seed 1; the first stands in 02.
const STATES: [u32; 5] = [
    270_369,
    67_634_689,
    2_647_435_461,
    307_599_695,
    2_398_689_233,
];

#[test]
fn the_states_after_one() {
    let mut state = 1;
    for (step, expected) in STATES.into_iter().enumerate() {
        state = next_state(state);
        assert_eq!(state, expected);
        assert_eq!(state_after(1, step + 1), expected);
    }
    assert_eq!(state_after(1, 0), 1);
    assert_eq!(next_state(2), 540_738);
    assert_eq!(next_state(u32::MAX), 253_983);
    assert_eq!(next_state(0), 0);
}

/// A state shifted so many places to the left, or to the right if they are below 0, bit by bit:
/// what comes from outside of the 32 bits is 0.
fn moved(state: u32, places: i32) -> u32 {
    let bit = |place: i32| (0..32).contains(&place) && state >> place & 1 == 1;
    let bits = (0..32).filter(|&place| bit(place - places));
    bits.map(|place| 1u32 << place).sum()
}

/// The state after a state, bit by bit.
fn next_by_bits(state: u32) -> u32 {
    let mut state = state;
    for places in [13, -17, 5] {
        state ^= moved(state, places);
    }
    state
}

#[test]
fn states_bit_by_bit() {
    let mut rng = Rng::new(141);
    for _ in 0..4_000 {
        let state = walk_seed(&mut rng);
        assert_eq!(next_state(state), next_by_bits(state), "{state}");
        let other = walk_seed(&mut rng);
        let both = next_state(state ^ other);
        assert_eq!(both, next_state(state) ^ next_state(other));
    }
}

/// The state before a state: each of the three shifts is undone, the last one first.
fn state_before(state: u32) -> u32 {
    let mut state = state;
    for places in [5, -17, 13] {
        let changed = state;
        for _ in 0..32 {
            state = changed ^ moved(state, places);
        }
    }
    state
}

/// A state other than 0 is never followed by 0: only 0 is, and no two states have the same next.
#[test]
fn a_state_is_never_followed_by_0() {
    let mut rng = Rng::new(142);
    assert_eq!(state_before(0), 0);
    for state in 1..200_000 {
        assert_ne!(next_state(state), 0, "{state}");
        assert_ne!(next_state(state.reverse_bits()), 0);
    }
    for _ in 0..4_000 {
        let state = some_seed(&mut rng);
        assert_ne!(next_state(state), 0, "{state}");
        assert_eq!(state_before(next_state(state)), state);
        assert_eq!(next_state(state_before(state)), state);
    }
}

#[test]
fn walks_of_some_seeds() {
    let (reference, device) = program_pair();
    let first = vec![1, 1, 1, 1, 1, 0, 0, 0];
    assert_eq!(told(&reference, 1, 8), Ok(first));
    let first = vec![1, 1, 0, 1, 1, 0, 0, 0];
    assert_eq!(told(&device, 1, 8), Ok(first));
    let last = vec![1, 1, 0, 0, 1, 0, 0, 1];
    assert_eq!(told(&device, u32::MAX, 8), Ok(last));
    assert_eq!(told(&stopped(), 1, 8), Ok(vec![]));
    assert_eq!(told(&ends(), 2, 8), Ok(vec![0]));
    assert_eq!(told(&ends(), 1, 8), Ok(vec![1, 1, 1, 1, 1, 0]));
    assert_eq!(told(&never_stops(), 7, 3), Ok(vec![0; 3]));
    assert_eq!(told(&may_stop(), 7, 3), Ok(vec![0; 3]));
}

#[test]
fn wishes_and_lists() {
    let (reference, _) = program_pair();
    assert_eq!(told(&reference, 1, 0), Ok(vec![]));
    assert_eq!(told(&reference, 1, 1), Ok(vec![1]));
    for wish in [1, 2, 8, 127, 128, 129, 255, 256, 4_095, 4_096] {
        let places = usize::from(wish);
        assert_eq!(told(&reference, 1, wish).map(|walk| walk.len()), Ok(places));
        for lent in [places + 1, 4_097, 65_536, usize::MAX] {
            assert_eq!(list(&reference, 1, wish, lent), told(&reference, 1, wish));
        }
        for lent in [places - 1, 0] {
            assert_eq!(list(&reference, 1, wish, lent), Err(28));
            assert_eq!(list(&stopped(), 1, wish, lent), Err(28));
        }
    }
    for wish in [4_097, 4_098, 8_191, 8_192, 65_535] {
        for lent in [usize::MAX, 65_535, 4_096, 0] {
            assert_eq!(list(&reference, 1, wish, lent), Err(28));
            assert_eq!(list(&stopped(), 1, wish, lent), Err(28));
        }
    }
    // The list counts against the wish: the walk has two events, the list has room for three.
    let two = Sheet::build(1, &[([1], [1]), ([2], [1]), ([NO_NODE], [0])]);
    assert_eq!(list(&two, 9, 5, 5), Ok(vec![0, 0]));
    assert_eq!(list(&two, 9, 5, 3), Err(28));
    assert_eq!(list(&two, 9, 3, 3), Ok(vec![0, 0]));
}

#[test]
fn refusals_in_their_order() {
    let (reference, _) = program_pair();
    for (wish, lent) in [(8, 8), (0, 0), (8, 7), (8, 0), (4_097, 5_000), (4_097, 0)] {
        assert_eq!(list(&reference, 0, wish, lent), Err(27));
    }
    let mut rng = Rng::new(143);
    for aim in AIMS_KEPT {
        let bad = kept(&mut rng, aim);
        for seed in [0, 1] {
            for (wish, lent) in [(0, 0), (8, 8), (8, 7), (4_097, 5_000)] {
                assert_eq!(list(&bad, seed, wish, lent), Err(aim));
            }
        }
    }
}

#[test]
fn what_a_call_leaves_alone() {
    let call = |sheet: &Sheet, seed: u32, wish: u16, places: usize| {
        let mut lent: Vec<u8> = (100..).take(places).collect();
        let answer = walk_numbers(sheet, seed, wish, &mut lent);
        (answer.refusal, answer.length, lent)
    };
    let front = vec![1, 1, 1, 1, 1, 0, 106, 107, 108, 109];
    assert_eq!(call(&ends(), 1, 8, 10), (0, 6, front));
    let front = vec![0, 101, 102, 103, 104];
    assert_eq!(call(&ends(), 2, 5, 5), (0, 1, front));
    assert_eq!(call(&ends(), 2, 0, 2), (0, 0, vec![100, 101]));
    assert_eq!(call(&ends(), 2, 3, 2), (28, 0, vec![100, 101]));
    assert_eq!(call(&ends(), 0, 3, 3), (27, 0, vec![100, 101, 102]));
    assert_eq!(call(&Sheet::ZERO, 0, 3, 1), (3, 0, vec![100]));
    let (refusal, length) = (28, 0);
    let refused = walk_numbers(&ends(), 1, 4_097, &mut [7; 5_000]);
    assert_eq!(refused, Walked { refusal, length });
}

#[test]
fn initials_and_what_is_taken() {
    let three = Sheet::build(5, &[([NO_NODE, 0, NO_NODE, 0, 0], [0])]);
    assert_eq!(initials(&three, 0), [1, 3, 4]);
    for (state, event) in [(0, 1), (1, 3), (2, 4), (3, 1), (u32::MAX, 1)] {
        assert_eq!(taken(&[1, 3, 4], state), Some(event));
    }
    assert_eq!(taken(&[], 5), None);
    // 270369, 67634689, 2647435461, 307599695 and 2398689233, each remainder 3.
    let numbers = STATES.map(|state| state % 3);
    assert_eq!(numbers, [0, 1, 0, 2, 2]);
    assert_eq!(told(&three, 1, 5), Ok(vec![1, 3, 1, 4, 4]));
}

/// Whether a list is the walk by the law of each place: the place holds, of the m initials of the
/// node reached by the events before it, ascending, number (the state after so many steps and one
/// more) remainder m; and the walk is shorter than the wish only where there are no initials.
fn is_walk(sheet: &Sheet, seed: u32, wish: u16, events: &[u8]) -> bool {
    let place = |j: usize| {
        let node = walk(sheet, &events[..j]).expect("a trace");
        let row = sheet.row(node);
        let known = (0..12).filter(|&event| row.succ[event] != NO_NODE);
        let known: Vec<usize> = known.collect();
        let state = (0..=j).fold(seed, |state, _| next_by_bits(state));
        known[state as usize % known.len()] == usize::from(events[j])
    };
    let end = walk(sheet, events).expect("a trace");
    let over = sheet.row(end).succ == [NO_NODE; 12];
    (0..events.len()).all(place)
        && events.len() <= usize::from(wish)
        && (events.len() == usize::from(wish) || over)
}

#[test]
fn walks_keep_their_laws() {
    let mut rng = Rng::new(144);
    let (mut early, mut whole) = (0, 0);
    for _ in 0..400 {
        let sheet = walk_sheet(&mut rng);
        let seed = some_seed(&mut rng);
        let wish = rng.range(0, 60) as u16;
        let walk = told(&sheet, seed, wish).expect("accepted");
        assert!(is_trace(&sheet, &walk));
        assert!(is_walk(&sheet, seed, wish, &walk), "{seed} {wish}");
        early += usize::from(walk.len() < wish.into());
        whole += usize::from(walk.len() == usize::from(wish));
    }
    assert!(early >= 80 && whole >= 100, "{early} {whole}");
}

#[test]
fn both_ways_of_walking_agree() {
    let mut rng = Rng::new(145);
    for round in 0..600 {
        let sheet = walk_sheet(&mut rng);
        let seed = walk_seed(&mut rng);
        let wish = match round % 100 {
            0 => MAX_WALK,
            _ => rng.range(0, 300) as u16,
        };
        let places = place_by_place(&sheet, seed, wish);
        assert_eq!(places, step_by_step(&sheet, seed, wish));
        assert_eq!(places, walk_of(&sheet, seed, wish));
        let more = event_after(&sheet, seed, &places);
        assert_eq!(more.is_none(), initials_at(&sheet, &places).is_empty());
    }
}

/// The initials of the node that some events lead to.
fn initials_at(sheet: &Sheet, events: &[u8]) -> Vec<u8> {
    initials(sheet, walk(sheet, events).expect("a trace"))
}

/// A shorter wish gives the front of a longer one, whatever list is lent and whatever is in it.
#[test]
fn a_shorter_wish_gives_the_front() {
    let mut rng = Rng::new(146);
    for _ in 0..400 {
        let sheet = walk_sheet(&mut rng);
        let seed = some_seed(&mut rng);
        let (one, other) = (some_wish(&mut rng), some_wish(&mut rng));
        let (wish, more) = (one.min(other), one.max(other));
        let longer = told(&sheet, seed, more).expect("accepted");
        let mut lent: Vec<u8> = (0..wish + 20).map(|_| rng.byte()).collect();
        let before = lent.clone();
        let length = fill(&sheet, seed, wish, &mut lent).expect("accepted");
        assert_eq!(length, longer.len().min(wish.into()));
        assert_eq!(lent[..length], longer[..length]);
        assert_eq!(lent[length..], before[length..]);
    }
}

/// The sheets of walks are accepted; on many the walk ends, at every distance.
#[test]
fn sheets_of_walks_are_accepted() {
    let mut rng = Rng::new(147);
    let (mut ended, mut far, mut farther) = (0, 0, 0);
    for _ in 0..1_000 {
        for sheet in [ending_sheet(&mut rng), climbing_sheet(&mut rng)] {
            assert_eq!(check(&sheet), 0);
            let walk = walk_of(&sheet, some_seed(&mut rng), MAX_WALK);
            ended += usize::from(walk.len() < MAX_WALK.into());
            far += usize::from((16..256).contains(&walk.len()));
            farther += usize::from((256..4_096).contains(&walk.len()));
        }
        let sheet = still_sheet(&mut rng);
        assert_eq!((check(&sheet), initials(&sheet, 0)), (0, vec![]));
        assert_eq!(check(&walk_sheet(&mut rng)), 0);
        assert!(some_wish(&mut rng) <= MAX_WALK);
        assert_ne!(some_seed(&mut rng), 0);
    }
    assert!(
        ended >= 1_200 && far >= 300 && farther >= 200,
        "{ended} {far} {farther}"
    );
}

/// The text for a sheet and some words.
fn text(sheet: &Sheet, words: &[&str]) -> String {
    output(&call(&encode(1, sheet), words))
}

fn call(input: &[u8], words: &[&str]) -> Call {
    let words = words.iter().map(|word| word.to_string()).collect();
    let input = input.to_vec();
    Call { input, words }
}

const HEAD: &str = "sheet 2 nodes 2 events\n";

#[test]
fn program_texts() {
    let (reference, device) = program_pair();
    let first = "walked 8 of 8\ntrace 1 1 1 1 1 0 0 0\n";
    for seed in ["1", "01", "000000001", "0000000001"] {
        for length in ["8", "08", "0008", "00008"] {
            let text = text(&reference, &[seed, length]);
            assert_eq!(text, format!("{HEAD}{first}"));
        }
    }
    let held = |sheet: &Sheet, words: &[&str], rest: &str| {
        let (n, e) = (sheet.n, sheet.e);
        let expected = format!("sheet {n} nodes {e} events\n{rest}");
        assert_eq!(text(sheet, words), expected);
    };
    held(
        &device,
        &["1", "8"],
        "walked 8 of 8\ntrace 1 1 0 1 1 0 0 0\n",
    );
    let last = "walked 8 of 8\ntrace 1 1 0 0 1 0 0 1\n";
    held(&device, &["4294967295", "8"], last);
    held(&reference, &["1", "1"], "walked 1 of 1\ntrace 1\n");
    held(&reference, &["1", "0"], "walked 0 of 0\ntrace\n");
    held(
        &reference,
        &["4294967295", "00000"],
        "walked 0 of 0\ntrace\n",
    );
    held(&ends(), &["1", "8"], "walked 6 of 8\ntrace 1 1 1 1 1 0\n");
    held(&ends(), &["2", "8"], "walked 1 of 8\ntrace 0\n");
    held(&ends(), &["2", "1"], "walked 1 of 1\ntrace 0\n");
    let still = Sheet::build(2, &[([NO_NODE; 2], [0])]);
    for sheet in [still, stopped()] {
        held(&sheet, &["1", "4096"], "walked 0 of 4096\ntrace\n");
        held(&sheet, &["9", "0"], "walked 0 of 0\ntrace\n");
    }
    for sheet in [never_stops(), may_stop()] {
        let most = format!("walked 4096 of 4096\ntrace{}\n", " 0".repeat(4_096));
        held(&sheet, &["7", "4096"], &most);
        held(&sheet, &["7", "04096"], &most);
    }
    let far = Sheet::build(12, &[([[NO_NODE; 10], [0; 10]].concat(), [0])]);
    let two = "walked 5 of 5\ntrace 11 11 11 11 11\n";
    held(&far, &["1", "5"], two);
    let coded = far.with_codes(&[300, 1, 2, 3, 4, 5, 6, 7, 8, 9, 10, 0]);
    let text = output(&call(&encode(2, &coded), &["1", "5"]));
    assert_eq!(text, format!("sheet 1 nodes 12 events\n{two}"));
}

/// Words that are no number, whatever length and value a number may have.
const NO_NUMBERS: [&str; 20] = [
    "", " ", "x", "+1", "-1", "-0", " 1", "1 ", "\t1", "1\n", "1x", "0x1", "1a", "1.0", "1,0",
    "1e1", "/1", "1:", "\u{ff11}", "1 8",
];

#[test]
fn program_refuses_seeds() {
    let (reference, _) = program_pair();
    let refused = format!("{HEAD}walk refused 27\n");
    let (zeros, long) = (format!("{:064}", 1), format!("{:0100}", 1));
    let wrong = [
        "0",
        "00",
        "0000000000",
        "4294967296",
        "4294967297",
        "8589934593",
        "9999999999",
        "00000000000",
        "00000000001",
        "04294967295",
        "12884901889",
        "18446744073709551617",
        &zeros,
        &long,
    ];
    for seed in wrong.into_iter().chain(NO_NUMBERS) {
        for length in ["8", "0", "4096", "4097", "65536", "", "x", "000008", &long] {
            assert_eq!(text(&reference, &[seed, length]), refused, "{seed:?}");
            assert_eq!(text(&ends(), &[seed, length]), refused);
        }
    }
    let counts: [&[&str]; 12] = [
        &[],
        &[""],
        &["1"],
        &["8"],
        &["x"],
        &["1 8"],
        &["1", "8", ""],
        &["1", "8", "8"],
        &["", "1", "8"],
        &["1", "", "8"],
        &[&long, "1", "8"],
        &["1", "8", "1", "8"],
    ];
    for words in counts {
        assert_eq!(text(&reference, words), refused, "{words:?}");
    }
}

#[test]
fn program_refuses_lengths() {
    let (reference, _) = program_pair();
    let refused = format!("{HEAD}walk refused 28\n");
    let (zeros, long) = (format!("{:064}", 8), format!("{:0100}", 8));
    let wrong = [
        "4097", "04097", "8192", "8200", "9999", "65535", "65536", "65544", "99999", "000000",
        "000008", "004096", "100000", "131080", &zeros, &long,
    ];
    for length in wrong.into_iter().chain(NO_NUMBERS) {
        for seed in ["1", "2", "0000000001", "4294967295"] {
            assert_eq!(text(&reference, &[seed, length]), refused, "{length:?}");
            assert_eq!(text(&ends(), &[seed, length]), refused);
        }
    }
}

/// A refused sheet has its own line alone, whatever the words are.
#[test]
fn program_refuses_sheets() {
    let reference = &PROGRAM_INPUT[..19];
    let one = "sheet refused 1 too short or its length field is wrong\n";
    let three = "sheet refused 3 events or nodes out of range\n";
    let put = |place: usize, byte: u8| {
        let mut bytes = reference.to_vec();
        bytes[place] = byte;
        bytes
    };
    let long = "0".repeat(100);
    let words: [&[&str]; 8] = [
        &["1", "8"],
        &["0", "8"],
        &["1", "4097"],
        &["x", "x"],
        &[],
        &["1"],
        &["1", "8", "8"],
        &[&long, &long],
    ];
    for words in words {
        let told = |input: &[u8]| output(&call(input, words));
        for input in [&[][..], &[0; 3], &reference[..18], &PROGRAM_INPUT] {
            assert_eq!(told(input), one);
        }
        assert_eq!(told(&[reference, b"\n"].concat()), one);
        assert_eq!(told(&[reference, &[0; 5_000]].concat()), one);
        let version = "sheet refused 2 version is neither 1 nor 2\n";
        assert_eq!(told(&put(4, 3)), version);
        assert_eq!(told(&put(5, 0)), three);
        assert_eq!(told(&put(6, 33)), three);
        assert_eq!(told(&put(7, 2)), "sheet refused 6 a successor is no node\n");
        // what is read ends at byte 4,096
        for (end, expected) in [(4_095, one), (4_096, three), (4_097, one), (4_098, one)] {
            let field = (end as u32 - 4).to_be_bytes();
            for more in [usize::from(end < 4_096), 2, 5_000] {
                let mut input = [&field[..], &[1, 13, 1]].concat();
                input.resize(end + more, 0);
                assert_eq!(told(&input), expected, "{end} {more}");
            }
        }
    }
}

/// The value of a word of one to so many digits, one digit after another.
fn value(word: &str, digits: usize) -> Option<u64> {
    let mut value = 0;
    for byte in word.bytes() {
        if !(48..58).contains(&byte) || word.len() > digits {
            return None;
        }
        value = 10 * value + u64::from(byte - 48);
    }
    (!word.is_empty()).then_some(value)
}

/// The text of random calls: where the sheet is accepted, what the walk call says of the numbers
/// that the words are, with 0 for no seed and 65,535 for no length.
#[test]
fn program_texts_are_of_walks() {
    let mut rng = Rng::new(151);
    let mut counts = [0; 4];
    for round in 0..3_000 {
        let call = walk_call(&mut rng, round);
        let text = output(&call);
        let Ok(sheet) = read(&call.input[..call.input.len().min(4_096)]) else {
            assert!(text.starts_with("sheet refused ") && text.lines().count() == 1);
            counts[0] += 1;
            continue;
        };
        let (seed, wish) = match &call.words[..] {
            [seed, length] => (value(seed, 10), value(length, 5)),
            _ => (None, None),
        };
        let seed = seed.and_then(|seed| u32::try_from(seed).ok()).unwrap_or(0);
        let wish = wish.and_then(|wish| u16::try_from(wish).ok());
        let wish = wish.unwrap_or(u16::MAX);
        let rest = match list(&sheet, seed, wish, 4_096) {
            Err(number) => {
                counts[usize::from(number) - 26] += 1;
                format!("walk refused {number}")
            }
            Ok(events) => {
                counts[3] += 1;
                let mut trace = vec!["trace".to_string()];
                trace.extend(events.iter().map(|event| event.to_string()));
                format!("walked {} of {wish}\n{}", events.len(), trace.join(" "))
            }
        };
        let (n, e) = (sheet.n, sheet.e);
        assert_eq!(text, format!("sheet {n} nodes {e} events\n{rest}\n"));
    }
    assert!(counts.iter().all(|&count| count >= 300), "{counts:?}");
}
