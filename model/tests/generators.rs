//! The random sheets, bytes, kept sheets and lengths of lists do what they are for.

use model::comparison::{compare, Named, Outcome, MAX_WORDS};
use model::faults::{check_with, read_with, Fault};
use model::random::*;
use model::sheet::{check, encode, read, Sheet, MAX_BYTES};
use model::text::compare::output;

#[test]
fn the_generator_is_splitmix64() {
    let mut rng = Rng::new(1234567);
    let first: Vec<u64> = (0..3).map(|_| rng.next_u64()).collect();
    let known = [
        6457827717110365317,
        3203168211198807973,
        9817491932198370423,
    ];
    assert_eq!(first, known);
}

#[test]
fn random_sheets_are_accepted() {
    let mut rng = Rng::new(31);
    let (mut large, mut sizes, mut most) = (0, [[false; 33]; 13], 0);
    for _ in 0..6_000 {
        let sheet = random_sheet(&mut rng);
        assert_eq!(check(&sheet), 0);
        assert_eq!(read(&spelled(&mut rng, &sheet)), Ok(sheet));
        large += usize::from(sheet.n >= 16);
        sizes[sheet.e as usize][sheet.n as usize] = true;
        most = most.max(sheet.rows.iter().map(|row| row.c).max().unwrap_or(0));
    }
    assert!(large >= 1_800 && most == 16);
    assert!(sizes[1..]
        .iter()
        .all(|row| row[1..].iter().all(|&seen| seen)));
}

#[test]
fn full_sheets_are_accepted_and_reach_the_largest() {
    let mut rng = Rng::new(39);
    let mut largest = 0;
    for _ in 0..400 {
        let sheet = full_sheet(&mut rng);
        let bytes = encode(2, &sheet);
        assert_eq!(read(&bytes), Ok(sheet));
        assert!(sheet.rows[..sheet.n as usize].iter().all(|row| row.c == 16));
        largest += usize::from(bytes.len() == MAX_BYTES);
    }
    assert!(largest >= 50);
}

#[test]
fn damaged_bytes_hit_their_aim() {
    let mut rng = Rng::new(32);
    for aim in AIMS_READ {
        for _ in 0..1_500 {
            let bytes = damaged(&mut rng, aim);
            assert_eq!(read(&bytes), Err(aim), "{bytes:?}");
        }
    }
}

#[test]
fn kept_sheets_hit_their_aim() {
    let mut rng = Rng::new(33);
    for aim in AIMS_KEPT {
        for _ in 0..1_500 {
            let sheet = kept(&mut rng, aim);
            assert_eq!(check(&sheet), aim, "{sheet:?}");
        }
    }
}

#[test]
fn noise_gets_far() {
    let mut rng = Rng::new(34);
    let (mut read_numbers, mut kept_numbers) = ([0; 19], [0; 19]);
    for _ in 0..20_000 {
        let bytes = noise_bytes(&mut rng);
        read_numbers[read(&bytes).err().unwrap_or(0) as usize] += 1;
        let bytes = damaged_twice(&mut rng);
        read_numbers[read(&bytes).err().unwrap_or(0) as usize] += 1;
        kept_numbers[check(&kept_noise(&mut rng)) as usize] += 1;
        kept_numbers[check(&kept_twice(&mut rng)) as usize] += 1;
    }
    let seen = |numbers: &[u32]| (0..19).filter(|&i| numbers[i] > 0).collect::<Vec<_>>();
    assert_eq!(seen(&read_numbers), [0, 1, 2, 3, 4, 5, 6, 7, 8, 18]);
    assert_eq!(seen(&kept_numbers), [0, 3, 5, 6, 7, 8, 18]);
}

#[test]
fn long_bytes_use_the_whole_length_field() {
    let mut rng = Rng::new(38);
    let mut seen = std::collections::BTreeSet::new();
    for _ in 0..300 {
        let bytes = long_bytes(&mut rng);
        let number = read(&bytes).err().unwrap_or(0);
        seen.insert((number, (bytes.len() - 4).leading_zeros() / 8));
    }
    for needed in [4, 5, 6] {
        assert!([1, 4, 5]
            .iter()
            .all(|&number| seen.contains(&(number, needed))));
    }
}

#[test]
fn drawn_devices_refine_without_a_plant() {
    let mut rng = Rng::new(35);
    for _ in 0..400 {
        let (e, n) = (rng.range(1, 12), rng.range(1, 32));
        let raw = random_raw(&mut rng, e, n);
        let device = device_of(&mut rng, &raw, false).keep();
        assert_eq!(check(&device), 0);
        let outcome = compare(&raw.keep(), &device, false, MAX_WORDS, 1_023);
        assert!(
            matches!(outcome, Ok(Outcome::Refines { .. })),
            "{outcome:?}"
        );
        let (reference, device) = pair(&mut rng);
        assert_eq!((check(&reference), check(&device)), (0, 0));
        assert_eq!((reference.e, reference.codes), (device.e, device.codes));
    }
}

#[test]
fn work_lists_have_every_length_around_their_limits() {
    let mut rng = Rng::new(41);
    for pairs in [1, 2, 6, 20, 1_024] {
        let lengths: Vec<usize> = (0..400).map(|_| work_length(&mut rng, pairs)).collect();
        for limit in [2 * pairs, 3 * pairs] {
            for needed in [limit - 1, limit, limit + 1] {
                assert!(lengths.contains(&needed), "{needed} for {pairs}");
            }
        }
        assert!(lengths.contains(&0));
    }
}

#[test]
fn program_inputs_reach_every_text() {
    let mut rng = Rng::new(37);
    let mut seen = std::collections::BTreeSet::new();
    for _ in 0..4_000 {
        let text = output(&program_input(&mut rng));
        assert!(text.ends_with('\n') && !text.contains("  ") && !text.contains(" \n"));
        let last = text.lines().last().unwrap_or("");
        let words = last.split(' ').filter(|word| word.parse::<u32>().is_err());
        seen.insert(words.collect::<Vec<_>>().join(" "));
        if last.contains("refused") && !last.contains("by") {
            seen.insert(last.to_string());
        }
    }
    for number in AIMS_READ {
        assert!(seen.contains(&format!("reference refused {number}")));
        assert!(seen.contains(&format!("device refused {number}")));
    }
    for text in [
        "comparison refused 11",
        "comparison refused 19",
        "stray",
        "refused by",
        "refines cleared",
    ] {
        assert!(seen.contains(text), "{text}");
    }
}

/// One sample of everything that reading and checking can be tried on.
fn sample(rng: &mut Rng) -> (Vec<u8>, Sheet) {
    let read_aim = rng.pick(&AIMS_READ);
    let kept_aim = rng.pick(&AIMS_KEPT);
    match rng.below(8) {
        0 => {
            let sheet = random_sheet(rng);
            (spelled(rng, &sheet), sheet)
        }
        1 => (damaged_twice(rng), kept_noise(rng)),
        2 => (noise_bytes(rng), kept_twice(rng)),
        3 if rng.one_in(8) => (long_bytes(rng), kept_twice(rng)),
        _ => (damaged(rng, read_aim), kept(rng, kept_aim)),
    }
}

#[test]
fn every_planted_fault_is_noticed() {
    let mut rng = Rng::new(36);
    let samples: Vec<(Vec<u8>, Sheet)> = (0..9_000).map(|_| sample(&mut rng)).collect();
    for fault in Fault::ALL {
        let in_read = samples
            .iter()
            .filter(|(bytes, _)| read_with(fault, bytes) != read_with(Fault::None, bytes))
            .count();
        let in_check = samples
            .iter()
            .filter(|(_, sheet)| check_with(fault, sheet) != check(sheet))
            .count();
        println!("{fault:?}: read {in_read}, check {in_check}");
        for (count, can) in [(in_read, fault.in_read()), (in_check, fault.in_check())] {
            assert!(if can { count >= 5 } else { count == 0 }, "{fault:?}");
        }
    }
}

#[test]
fn crowded_sheets_are_accepted_and_have_many_probes() {
    let mut rng = Rng::new(40);
    let mut many = 0;
    for _ in 0..200 {
        let sheet = crowded_sheet(&mut rng);
        assert_eq!(check(&sheet), 0);
        many += usize::from(model::probes::probes(&sheet, 0).len() >= 100);
    }
    assert!(many >= 50, "{many}");
}

#[test]
fn mixed_sheets_are_accepted_and_have_probes_of_different_sizes() {
    let mut rng = Rng::new(42);
    let (mut moved, mut first, mut sizes) = (0, 0, [0; 13]);
    for _ in 0..400 {
        let sheet = mixed_sheet(&mut rng);
        assert_eq!(check(&sheet), 0);
        for node in 0..sheet.n {
            let list = model::probes::probes(&sheet, node);
            moved += usize::from(list.windows(2).any(|two| two[0] > two[1]));
            first += usize::from(list.first() != list.iter().min());
            for probe in list {
                sizes[probe.count_ones() as usize] += 1;
            }
        }
    }
    assert!(moved >= 300 && first >= 200, "{moved} {first}");
    assert!(sizes[1..11].iter().all(|&count| count >= 10), "{sizes:?}");
}

#[test]
fn refusing_pairs_end_in_a_refusal() {
    let mut rng = Rng::new(43);
    let (mut far, mut alone) = (0, 0);
    for _ in 0..400 {
        let (reference, device) = refusing_pair(&mut rng);
        assert_eq!((check(&reference), check(&device)), (0, 0));
        match compare(&reference, &device, false, MAX_WORDS, 1_023) {
            Ok(Outcome::Violates {
                d,
                named: Named::Refused { .. },
                ..
            }) => far += usize::from(d > 0),
            outcome => panic!("{outcome:?}"),
        }
        let nodes = 0..device.n as usize;
        let changed = nodes.filter(|&v| device.rows[v] != reference.rows[v]);
        alone += usize::from(changed.count() == 1);
    }
    assert!(far >= 100 && alone == 400, "{far} {alone}");
}
