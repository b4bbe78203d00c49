//! Packets of reports (W-204): the proved hearing of a packet against the naive one and against single hearings, byte for byte, over
//! records of every kind, damaged sheets, made-up states and several faults at once; every boundary; every order of short accepted packets.
use loquatquoits_tests::cabin::{self, Bytes, Observation, Refusal, Table};
use loquatquoits_tests::counts::{count, report, Counts};
use loquatquoits_tests::packets::{random_packet, random_records, random_state, random_table, wanted, words_of, Kind};
use loquatquoits_tests::proved;
use loquatquoits_tests::random::Random;
use loquatquoits_tests::sheets::damage;
use std::ptr::{addr_of_mut, write_bytes};

/// The records as a receiver may lend them: the bytes behind a position, which mean nothing, are not 0.
fn lent(packet: &[Observation]) -> Vec<Observation> {
    let mut records: Vec<Observation> = Vec::with_capacity(packet.len());
    unsafe {
        write_bytes(records.as_mut_ptr(), 0xa5, packet.len());
        for (place, observation) in packet.iter().enumerate() {
            let record = records.as_mut_ptr().add(place);
            addr_of_mut!((*record).index).write(observation.index);
            addr_of_mut!((*record).position).write(observation.position);
        }
        records.set_len(packet.len());
    }
    records
}

/// Single hearings, first to last, up to the first that is refused.
fn singly(sheet: &[u8], state: &[u8; 21], packet: &[Observation]) -> Result<[u8; 21], Refusal> {
    let mut after = *state;
    for (place, observation) in packet.iter().enumerate() {
        let answer = proved::observe(sheet, &mut after, observation.index, observation.position);
        answer.map_err(|number| (number, (16..=19).contains(&number).then_some(place)))?;
    }
    Ok(after)
}

/// The state's bytes after a packet, or its refusal, once the naive cabin and single hearings have come to the same; nothing else that was
/// lent is altered.
fn heard(sheet: &[u8], state: &[u8; 21], packet: &[Observation]) -> Result<[u8; 21], Refusal> {
    let (lent_sheet, lent_packet, mut after) = (sheet.to_vec(), lent(packet), *state);
    let answer = proved::observe_all(&lent_sheet, &mut after, &lent_packet).map(|()| after);
    assert_eq!((&lent_sheet[..], &lent_packet[..]), (sheet, packet), "a packet altered what was lent");
    assert_eq!(answer, cabin::observe_all(sheet, state, packet), "{state:?} {packet:?}");
    // single hearings know nothing of 22, and none is made of an empty packet
    if (1..=16).contains(&packet.len()) {
        assert_eq!(answer, singly(sheet, state, packet), "{state:?} {packet:?}");
    }
    answer
}

/// Every order of these.
fn orders<T: Copy>(items: &[T]) -> Vec<Vec<T>> {
    if items.is_empty() {
        return vec![Vec::new()];
    }
    let mut all = Vec::new();
    for (k, &first) in items.iter().enumerate() {
        let rest = [&items[..k], &items[k + 1..]].concat();
        all.extend(orders(&rest).into_iter().map(|order| [&[first], &order[..]].concat()));
    }
    all
}

/// Reports of the known states below: a packet of so many is accepted.
fn good(length: usize) -> Vec<Observation> {
    [(8, 4), (6, 2), (7, 0)].iter().map(|&(index, position)| Observation { index, position }).cycle().take(length).collect()
}

/// A table at lag 3 with two commands and highest position 4, and a state at turn 4, where the window is 5 to 8 and index 6 was heard.
fn known() -> (Table, [u8; 21]) {
    let table = Table::new([1, 2, 3, 4], vec![0, 1, 1, 0], vec![3; 10]);
    let mut state = [0; 21];
    (state[0], state[4], state[11], state[12]) = (4, 1, 1, 2);
    (table, state)
}

#[test]
fn random_packets() {
    let mut random = Random::new(204);
    let mut counts = Counts::new();
    for round in 0..14000 {
        let table = random_table(&mut random, (round % 7) as u8);
        let (sheet, mut state) = (table.sheet(), random_state(&mut random, &table));
        // what one packet brought is there for the next
        for _ in 0..3 {
            let length = random.below(19);
            let (kinds, packet) = random_records(&mut random, &table, &state, length);
            kinds.iter().for_each(|kind| count(&mut counts, format!("record {kind:?}")));
            let answer = heard(&sheet, &state, &packet);
            let kind = answer.map_or_else(|(number, _)| format!("refused {number}"), |_| "accepted".into());
            count(&mut counts, format!("lag {}: {kind}", table.delay));
            count(&mut counts, words_of(&answer, length));
            state = answer.unwrap_or(state);
        }
    }
    let answers = ["accepted", "refused 16", "refused 17", "refused 18", "refused 19", "refused 22"];
    let by_lag = (0..7).flat_map(|lag| answers.map(|answer| format!("lag {lag}: {answer}")));
    let records = Kind::ACCEPTED.iter().chain(&Kind::OTHER).map(|kind| format!("record {kind:?}"));
    report("random packets", &counts, &wanted(&[16, 17, 18, 19]).into_iter().chain(by_lag).chain(records).collect::<Vec<_>>());
}

/// Any bytes are a state: all random, or one that is not refused with some bytes changed.
#[test]
fn made_up_states() {
    let mut random = Random::new(20);
    let mut counts = Counts::new();
    for round in 0..30000 {
        let table = random_table(&mut random, (round % 7) as u8);
        let mut state = random_state(&mut random, &table);
        for byte in &mut state[4..] {
            if random.percent(if round % 3 == 0 { 100 } else { 5 }) {
                *byte = random.next() as u8;
            }
        }
        let any = random.next() as u32;
        if random.percent(10) {
            state[..4].copy_from_slice(&random.pick(&[999_999, 1_000_000, 1_000_001, u32::MAX, any]).to_le_bytes());
        }
        let length = random.below(19);
        let packet = random_packet(&mut random, &table, &state, length);
        let answer = heard(&table.sheet(), &state, &packet);
        let turn = Bytes(&state).turn() as usize;
        let odd = |record: &Observation| state[7 + 2 * (2 * turn - record.index)] > 1;
        if answer.is_ok() && packet.iter().any(odd) {
            count(&mut counts, "accepted with a repeat of a report whose flag is over 1".into());
        }
        count(&mut counts, words_of(&answer, length));
    }
    let more = ["refused 20", "accepted with a repeat of a report whose flag is over 1"].map(String::from);
    report("packets for made-up states", &counts, &[&wanted(&[16, 17, 18, 19])[..], &more].concat());
}

#[test]
fn damaged_sheets() {
    let mut random = Random::new(1012);
    let mut counts = Counts::new();
    for round in 0..20000 {
        let mut table = random_table(&mut random, (round % 7) as u8);
        let mut state = random_state(&mut random, &table);
        let length = random.below(19);
        let packet = random_packet(&mut random, &table, &state, length);
        if random.percent(10) {
            table.words.fill(0);
        }
        if random.percent(10) {
            state[..4].copy_from_slice(&1_000_001u32.to_le_bytes());
        }
        let mut sheet = table.sheet();
        for _ in 0..random.below(4) {
            if !sheet.is_empty() {
                damage(&mut random, &mut sheet);
            }
        }
        let words = words_of(&heard(&sheet, &state, &packet), length);
        count(&mut counts, if length == 0 { format!("empty: {words}") } else { words });
    }
    let refused = [10, 11, 12].map(|number| format!("refused {number}"));
    let empty = ["refused 10", "refused 11", "refused 12", "accepted, length 0"].map(|words| format!("empty: {words}"));
    let more = ["refused 20", "refused 22"].map(String::from);
    report("packets for damaged sheets", &counts, &[&refused[..], &empty, &more].concat());
}

/// Any number of faults at once: 10 to 12, then 20, then 22, then the first record that is refused, in whatever order the records stand.
#[test]
fn order_of_refusals() {
    let mut counts = Counts::new();
    let (table, state) = known();
    let record = |fault: u8| match fault {
        16 => Observation { index: 7, position: 5 },
        17 => Observation { index: 4, position: 0 },
        18 => Observation { index: 9, position: 0 },
        _ => Observation { index: 6, position: 3 },
    };
    let all = [10, 11, 12, 20, 22, 16, 17, 18, 19];
    for set in 0..1 << all.len() {
        let faults: Vec<u8> = (0..all.len()).filter(|k| set >> k & 1 == 1).map(|k| all[k]).collect();
        let (of_record, before): (Vec<u8>, Vec<u8>) = faults.iter().partition(|fault| (16..=19).contains(*fault));
        let mut state = state;
        state[4] += u8::from(faults.contains(&20));
        let length = if faults.contains(&22) { 17 } else { 16 };
        for order in orders(&of_record) {
            for place in [0, 5, length - order.len()] {
                let mut packet = good(length - order.len());
                packet.splice(place..place, order.iter().map(|&fault| record(fault)));
                let expected = before.first().map(|&number| (number, None)).or(order.first().map(|&number| (number, Some(place))));
                let answer = heard(&table.faulty_sheet(&faults), &state, &packet);
                assert_eq!(answer.err(), expected, "{faults:?} {packet:?}");
                count(&mut counts, words_of(&answer, length));
            }
        }
    }
    let refused = [10, 11, 12, 20, 22].map(|number| format!("refused {number}"));
    let records = wanted(&[16, 17, 18, 19]).into_iter().filter(|words| words.contains("place"));
    let accepted = ["accepted, length 16".into()];
    report("order of a packet's refusals", &counts, &refused.into_iter().chain(records).chain(accepted).collect::<Vec<_>>());
}

/// 22 exactly for more than 16, before any record is looked at and after the sheet and the state; also for lengths whose low bytes are
/// small.
#[test]
fn lengths() {
    let mut counts = Counts::new();
    let (table, state) = known();
    let mut not_a_state = state;
    not_a_state[12] = 5;
    for length in [0, 1, 15, 16, 17, 18, 255, 256, 257, 272, 65_536, 65_552, 100_000] {
        let few = length <= 16;
        let packet = good(length);
        let answer = heard(&table.sheet(), &state, &packet);
        assert_eq!(answer.err(), (!few).then_some((22, None)));
        count(&mut counts, words_of(&answer, length));
        for place in [0, 15, length.saturating_sub(1)] {
            let mut packet = packet.clone();
            if let Some(record) = packet.get_mut(place) {
                record.position = 5;
                let expected = if few { (16, Some(place)) } else { (22, None) };
                assert_eq!(heard(&table.sheet(), &state, &packet), Err(expected));
            }
            assert_eq!(heard(&table.sheet(), &not_a_state, &packet), Err((20, None)));
            for fault in [10, 11, 12] {
                assert_eq!(heard(&table.faulty_sheet(&[fault]), &not_a_state, &packet), Err((fault, None)));
            }
        }
    }
    report("packets by length", &counts, &[0, 1, 15, 16].map(|length| format!("accepted, length {length}")));
}

/// 16 to 18 exact and one off, at the first and at the last place of the longest packet: the rule by hand, at every lag and at early turns,
/// ordinary ones and the last.
#[test]
fn window_boundaries() {
    let mut counts = Counts::new();
    for (delay, turn) in (0..7).flat_map(|delay| [0, 1, 2, 3, 4, 500, 999_999, 1_000_000].map(|turn: u32| (delay, turn))) {
        let table = Table::new([0, 1, delay, 6], vec![1], vec![1; 7]);
        let mut state = [0; 21];
        state[..4].copy_from_slice(&turn.to_le_bytes());
        let newest = 2 * turn as usize;
        let near = newest.saturating_sub(delay as usize + 3)..newest + 3;
        let far = [usize::MAX, usize::MAX - 5, usize::MAX - 6, usize::MAX / 2 + 1, 1 << 32, (1 << 32) + newest];
        for (index, position) in near.chain(far).flat_map(|index| [0, 6, 7, 255].map(|position| (index, position))) {
            let number = match (position, newest.checked_sub(index)) {
                (7.., _) => Some(16),
                (_, None) => Some(18),
                (_, Some(age)) if age > delay as usize => Some(17),
                _ => None,
            };
            for place in [0, 15] {
                let mut packet = vec![Observation { index: newest, position: 0 }; 16];
                packet[place] = Observation { index, position };
                // the other records name the newest index with position 0, before or after it
                let number = number.or((index == newest && position == 6).then_some(19));
                let place = if number == Some(19) { place.max(1) } else { place };
                let answer = heard(&table.sheet(), &state, &packet);
                assert_eq!(answer.err(), number.map(|number| (number, Some(place))), "lag {delay} turn {turn} {packet:?}");
                count(&mut counts, words_of(&answer, 16));
            }
        }
    }
    let refused = wanted(&[16, 17, 18]).into_iter().filter(|words| words.contains("place"));
    report("the window's boundaries", &counts, &refused.chain(["accepted, length 16".into()]).collect::<Vec<_>>());
}

/// 20 exact and one off, byte by byte, before 22 and for empty packets too: the turn, each held command, each position heard in the window;
/// not what lies beyond either, and no position whose flag is 0.
#[test]
fn state_boundaries() {
    let mut counts = Counts::new();
    for (delay, turn) in (0..7).flat_map(|delay| [0, 1, 2, 3, 4, 1_000_000, 1_000_001].map(|turn: u32| (delay, turn))) {
        let words = |length: u32| 3usize.pow(length);
        let masks = vec![7; 7 * words(delay as u32 / 2)];
        let sheet = Table::new([0, 3, delay, 6], vec![1; words((delay as u32 + 1) / 2)], masks).sheet();
        let (held, window) = ((delay / 2) as u32, delay as u32);
        let commands = (0..3u32).map(|k| (4 + k as usize, 2, k < held.min(turn)));
        let positions = (0..7u32).map(|k| (8 + 2 * k as usize, 6, k <= window.min(2 * turn)));
        for (byte, most, looked_at) in commands.chain(positions) {
            for (over, flag) in [0, 1].into_iter().flat_map(|over| [0, 1, 7, 255].map(|flag| (over, flag))) {
                let mut state = [0; 21];
                state[..4].copy_from_slice(&turn.to_le_bytes());
                (7..21).step_by(2).for_each(|byte| state[byte] = flag);
                state[byte] = most + over;
                let refused = turn == 1_000_001 || over == 1 && looked_at && (byte < 7 || flag != 0);
                for (length, otherwise) in [(0, None), (1, Some((16, Some(0)))), (16, Some((16, Some(0)))), (17, Some((22, None)))] {
                    let packet = vec![Observation { index: 0, position: 7 }; length];
                    let answer = heard(&sheet, &state, &packet);
                    assert_eq!(answer.err(), if refused { Some((20, None)) } else { otherwise }, "{state:?}");
                    count(&mut counts, words_of(&answer, length));
                }
            }
        }
    }
    let met = ["refused 20", "refused 22", "refused 16 at place 0", "accepted, length 0"];
    report("a packet's state at its boundaries", &counts, &met.map(String::from));
}

/// "An empty list is accepted where 10 to 12 and 20 don't refuse it", and changes nothing.
#[test]
fn empty_packets() {
    let mut random = Random::new(16);
    let mut counts = Counts::new();
    for round in 0..2000 {
        let table = random_table(&mut random, (round % 7) as u8);
        let state = random_state(&mut random, &table);
        let mut late = state;
        late[..4].copy_from_slice(&1_000_001u32.to_le_bytes());
        for (faults, state, expected) in [
            (&[][..], state, Ok(state)),
            (&[], late, Err((20, None))),
            (&[10], late, Err((10, None))),
            (&[11], state, Err((11, None))),
            (&[12], late, Err((12, None))),
        ] {
            let answer = heard(&table.faulty_sheet(faults), &state, &[]);
            assert_eq!(answer, expected);
            count(&mut counts, words_of(&answer, 0));
        }
    }
    report("empty packets", &counts, &["accepted, length 0".into()]);
}

/// Every order of a short packet, some orders of a longer one.
fn rearranged(random: &mut Random, packet: &[Observation]) -> Vec<Vec<Observation>> {
    if packet.len() <= 6 {
        return orders(packet);
    }
    let mut order = packet.to_vec();
    let next = |_| {
        random.shuffle(&mut order);
        order.clone()
    };
    (0..30).map(next).collect()
}

/// "Any rearrangement of an accepted list is accepted and gives the same state", down to its last byte. Nothing is said of the orders of a
/// refused one.
#[test]
fn rearrangements() {
    let mut random = Random::new(120);
    let mut counts = Counts::new();
    for round in 0..6000 {
        let table = random_table(&mut random, (round % 7) as u8);
        let (sheet, state) = (table.sheet(), random_state(&mut random, &table));
        let length = if round % 5 == 0 { 7 + random.below(10) } else { random.below(7) };
        let packet = random_packet(&mut random, &table, &state, length);
        let Ok(expected) = heard(&sheet, &state, &packet) else { continue };
        let repeats = (0..length).any(|place| packet[..place].contains(&packet[place]));
        let words = format!("length {length}{}", if repeats { ", with repeats" } else { "" });
        for other in rearranged(&mut random, &packet) {
            let mut after = state;
            assert_eq!(proved::observe_all(&sheet, &mut after, &other), Ok(()), "{state:?} {other:?}");
            assert_eq!(after, expected, "{state:?} {other:?}");
            count(&mut counts, words.clone());
        }
    }
    let repeated = (2..=16).map(|length| format!("length {length}, with repeats"));
    let others = (0..=6).map(|length| format!("length {length}"));
    report("orders of accepted packets", &counts, &repeated.chain(others).collect::<Vec<_>>());
}
