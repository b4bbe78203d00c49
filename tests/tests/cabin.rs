//! Tables and the cabin against an independent model: made sheets byte by byte, damaged winning sheets, made-up states, and thousands
//! of lists of calls with late, overtaking, repeated, lost and (outside the window) false reports, one at a time and in packets.
use loquatquoits_tests::cabin::{self, Bytes};
use loquatquoits_tests::counts::{count, report, Counts};
use loquatquoits_tests::proved::{self, Answer};
use loquatquoits_tests::random::Random;
use loquatquoits_tests::sheets::{self, random_yard, Shape, Yard};
use loquatquoits_tests::tables::naive_sheet;
use loquatquoits_tests::working;

#[test]
fn made_sheets() {
    let mut random = Random::new(19);
    let mut counts = Counts::new();
    for _ in 0..1500 {
        let shape = Shape::small(&mut random);
        let yard = random_yard(&mut random, &shape).at(random.below(7) as u8);
        let owed = yard.owed_length();
        let (expected, answer) = naive_sheet(&yard.sheet()).unwrap();
        assert_eq!(proved::make_of(&yard, owed + random.below(5)), Ok((expected, answer)));
        count(&mut counts, if answer.losing.is_none() { "winning sheet".into() } else { "losing sheet".into() });
        assert_eq!(proved::make_of(&yard, owed - 1), Err(9));
        count(&mut counts, "refused 9".into());
    }
    report("made sheets", &counts, &["winning sheet", "losing sheet"].map(String::from));
}

#[test]
fn damaged_tables() {
    let mut random = Random::new(11);
    let mut counts = Counts::new();
    for _ in 0..20000 {
        let shape = Shape::small(&mut random);
        let yard = random_yard(&mut random, &shape).at(random.below(4) as u8);
        let mut sheet = naive_sheet(&yard.sheet()).unwrap().0;
        for _ in 0..random.below(3) {
            let at = random.below(sheet.len());
            match random.below(5) {
                0 => sheet[at] = random.next() as u8,
                1 => sheet[at] = random.below(9) as u8,
                2 => sheet.truncate(at.max(1)),
                3 => sheet.push(0),
                _ => sheet[at] ^= 1,
            }
        }
        if random.percent(10) && sheet.len() > 15 {
            let flags = sheet[8] as usize + 256 * sheet[9] as usize;
            let end = (19 + flags).min(sheet.len());
            sheet[19.min(end)..end].fill(0);
        }
        let expected = cabin::read(&sheet);
        assert_eq!(proved::table_place(&sheet), expected.as_ref().map(|t| t.place).map_err(|n| *n), "{sheet:?}");
        let opened = proved::open(&sheet);
        assert_eq!(opened, expected.as_ref().map(|_| [0; 21]).map_err(|n| *n));
        count(&mut counts, expected.map_or_else(|n| format!("refused {n}"), |_| "accepted".into()));
    }
    report("damaged tables", &counts, &["refused 10", "refused 11", "refused 12", "accepted"].map(String::from));
}

/// A winning sheet of a random yard that wins, with its yard.
fn winning(random: &mut Random) -> (Yard, Vec<u8>) {
    loop {
        let shape = Shape::small(random);
        let yard = random_yard(random, &shape).at(random.below(7) as u8);
        let (sheet, answer) = naive_sheet(&yard.sheet()).unwrap();
        if answer.losing.is_none() {
            return (yard, sheet);
        }
    }
}

/// Any bytes are a state: a result, or 20 for its stated reasons only; a refusal leaves the bytes, and so does a repeat.
#[test]
fn made_up_states() {
    let mut random = Random::new(20);
    let mut counts = Counts::new();
    for _ in 0..30000 {
        let (_, sheet) = winning(&mut random);
        let table = cabin::read(&sheet).unwrap();
        let mut state = [0u8; 21];
        for byte in &mut state {
            *byte = if random.percent(50) { random.below(4) as u8 } else { random.next() as u8 };
        }
        let turn = *random.pick(&[0u32, 1, 2, 3, 5, 999_999, 1_000_000, 1_000_001, u32::MAX]);
        state[..4].copy_from_slice(&turn.to_le_bytes());
        let bytes = Bytes(&state);
        let (i, d) = (turn as usize, table.delay as usize);
        let index = (2 * i + random.below(4)).saturating_sub(random.below(d + 4));
        let position = random.below(table.highest as usize + 2) as u8;
        let hearing = if bytes.refused(&table) {
            Err(20)
        } else if position > table.highest {
            Err(16)
        } else if index + d < 2 * i {
            Err(17)
        } else if index > 2 * i {
            Err(18)
        } else if bytes.heard(2 * i - index).is_some_and(|p| p != position) {
            Err(19)
        } else {
            Ok(())
        };
        let mut after = state;
        assert_eq!(proved::observe(&sheet, &mut after, index, position), hearing, "{state:?}");
        if hearing.is_err() {
            assert_eq!(after, state, "a refused hearing altered the state");
        } else {
            let mut expected = state;
            if bytes.heard(2 * i - index).is_none() {
                expected[7 + 2 * (2 * i - index)] = 1;
                expected[8 + 2 * (2 * i - index)] = position;
            }
            assert_eq!(after, expected, "a hearing altered more than its own bytes");
        }
        count(&mut counts, format!("hearing {}", hearing.map_or_else(|n| n.to_string(), |_| "accepted".into())));

        let given: Vec<u8> = (0..(d / 2).min(i)).rev().map(|k| bytes.held(k)).collect();
        let giving = if bytes.refused(&table) {
            Err(20)
        } else if i == cabin::LAST_TURN {
            Err(15)
        } else {
            table.command(i, |_| bytes.heard(d), &given)
        };
        let mut after = state;
        assert_eq!(proved::act(&sheet, &mut after), giving, "{state:?}");
        if giving.is_err() {
            assert_eq!(after, state, "a refused giving altered the state");
        } else {
            assert_eq!(Bytes(&after).turn(), turn + 1);
        }
        count(&mut counts, format!("giving {}", giving.map_or_else(|n| n.to_string(), |_| "accepted".into())));
    }
    let hearing = ["16", "17", "18", "19", "20", "accepted"].map(|n| format!("hearing {n}"));
    let giving = ["13", "14", "15", "20", "accepted"].map(|n| format!("giving {n}"));
    report("made-up states", &counts, &[&hearing[..], &giving[..]].concat());
}

/// Lists of calls to cabins of many yards, of whose hearings so many in a hundred are packets.
fn work(seed: u64, packets: usize) -> Counts {
    let mut random = Random::new(seed);
    let mut counts = Counts::new();
    for _ in 0..3000 {
        let (yard, sheet) = winning(&mut random);
        working::work(&mut random, &yard, &sheet, packets, &mut counts);
    }
    counts
}

#[test]
fn lists_of_calls() {
    report("lists of calls", &work(3, 0), &working::WANTED.map(String::from));
}

#[test]
fn lists_of_calls_with_packets() {
    report("lists of calls with packets", &work(204, 50), &working::wanted_with_packets());
}

/// The last turns: 999,999 is given, 1,000,000 is not.
#[test]
fn last_turn() {
    let sheet = naive_sheet(&sheets::looped().at(2).sheet()).unwrap().0;
    let mut state = proved::open(&sheet).unwrap();
    let mut turn = 0;
    while turn < cabin::LAST_TURN {
        if 2 * turn >= 2 {
            assert_eq!(proved::observe(&sheet, &mut state, 2 * turn - 2, 0), Ok(()));
        }
        assert_eq!(proved::act(&sheet, &mut state), Ok(0));
        turn += 1;
    }
    assert_eq!(proved::act(&sheet, &mut state), Err(15));
    assert_eq!(Bytes(&state).turn(), 1_000_000);
    println!("last turn: 1,000,000 commands given, then 15");
}

/// Document 01's cabin cases in the sorting hall at lag 2.
#[test]
fn hall_cases() {
    let (sheet, answer) = proved::make_of(&sheets::hall().at(2), 1000).unwrap();
    assert_eq!(answer, Answer { losing: None, reached: 7 });
    let mut state = proved::open(&sheet).unwrap();
    assert_eq!(proved::act(&sheet, &mut state), Ok(0));
    assert_eq!(proved::act(&sheet, &mut state), Err(13));
    assert_eq!(proved::observe(&sheet, &mut state, 0, 0), Ok(()));
    assert_eq!(proved::act(&sheet, &mut state), Ok(0));
    assert_eq!(proved::observe(&sheet, &mut state, 5, 0), Err(18));
    assert_eq!(proved::observe(&sheet, &mut state, 1, 4), Err(17));
}
