//! The proved reader and solver against the naive ones: document 01's yards, random yards of every lag, yards in which one line spoils,
//! and damaged sheets. A rule of the naive solver that is wrong makes these fail: set NAIVE_RULE to strike-once, freshest-action or
//! pass-unsafe and see.
use loquatquoits_tests::both::compare;
use loquatquoits_tests::counts::{count, report, Counts};
use loquatquoits_tests::hubs::{wide_gate, windows, Flaw, Hub, LINES};
use loquatquoits_tests::proved;
use loquatquoits_tests::random::Random;
use loquatquoits_tests::sheets::{self, damage, random_yard, Shape, Yard};
use loquatquoits_tests::worst::{fan, standing, worst, Worst};

fn solve(yard: &Yard) -> (Option<u8>, Vec<u8>, Vec<u16>) {
    let n = yard.pairs();
    let (mut masks, mut ranks) = (vec![0; n], vec![0; n]);
    let answer = proved::solve(&yard.sheet(), &mut masks, &mut ranks).unwrap();
    (answer.losing, masks, ranks)
}

#[test]
fn yards_to_try() {
    let guess = sheets::guess();
    assert_eq!(guess.at(1).sheet().len(), 45);
    let (answer, masks, _) = solve(&guess);
    assert_eq!((answer, masks), (None, vec![1, 2, 0, 0]));
    let (answer, _, ranks) = solve(&guess.at(1));
    assert_eq!((answer, ranks), (Some(1), vec![0, 0, 2, 1]));
    assert_eq!(solve(&guess.at(2)).0, Some(1));
    let unsafe_start = Yard { kinds: vec![1, 0, 2, 3], ..guess.at(1) };
    let (answer, _, ranks) = solve(&unsafe_start);
    assert_eq!((answer, ranks), (Some(0), vec![1, 2, 0, 0]));

    let split = sheets::split_gate();
    assert_eq!(solve(&split).0, None);
    let (answer, _, ranks) = solve(&split.at(1));
    assert_eq!((answer, ranks), (Some(1), vec![0, 0, 2]));

    let looped = sheets::looped();
    let (answer, masks, _) = solve(&looped.at(6));
    assert_eq!((answer, masks), (None, vec![1, 0]));
    let (answer, masks, _) = solve(&looped.at(5));
    assert_eq!((answer, masks), (None, vec![0, 1]));
    assert_eq!(proved::read(&looped.at(7).sheet()), Err(3));

    let hall = sheets::hall();
    let (answer, masks, _) = solve(&hall.at(2));
    assert_eq!((answer, masks), (None, vec![1, 1, 2, 2, 3, 0, 0, 3, 0, 0, 0, 0, 0, 0]));
    let (answer, _, ranks) = solve(&hall.at(3));
    assert_eq!((answer, ranks), (Some(3), vec![0, 0, 0, 0, 0, 0, 0, 0, 4, 2, 2, 4, 3, 3]));
}

/// Every verdict that a yard can have, by one yard for each: an even lag loses only where the odd one before it does.
#[test]
fn every_losing_lag() {
    let mut counts = Counts::new();
    for yard in [sheets::guess(), sheets::split_gate(), sheets::looped(), sheets::hall(), sheets::long_hall()] {
        for delay in 0..7 {
            compare(&yard.at(delay).sheet(), &mut counts);
        }
    }
    compare(&Yard { kinds: vec![1, 0, 2, 3], ..sheets::guess() }.sheet(), &mut counts);
    report("losing lags", &counts, &[0, 1, 3, 5].map(|m| format!("losing {m}")));
}

/// So many positions in pairs of an own and a yard one, all commands permitted: for the limits of refusal 7.
fn ladder(positions: usize, actions: u8, delay: u8) -> Yard {
    let own: Vec<u8> = (0..positions).step_by(2).map(|p| p as u8).collect();
    let other: Vec<u8> = (1..positions).step_by(2).map(|p| p as u8).collect();
    let targets = own
        .iter()
        .enumerate()
        .flat_map(|(k, &p)| (0..actions).map(move |c| (k, p, c)))
        .map(|(k, p, c)| [p, c, other[k.min(other.len() - 1)]])
        .collect();
    let moves = other.iter().enumerate().map(|(k, &p)| [p, own[(k + 1) % own.len()]]).collect();
    let kinds = (0..positions).map(|p| if p % 2 == 0 { 0 } else { 2 }).collect();
    Yard { start: 0, actions, delay, kinds, targets, moves, gates: None }
}

#[test]
fn limits_of_size() {
    assert!(proved::read(&ladder(256, 8, 4).sheet()).is_ok());
    assert_eq!(proved::read(&ladder(256, 8, 6).sheet()), Err(7));
    assert!(proved::read(&ladder(32, 8, 6).sheet()).is_ok());
    assert_eq!(proved::read(&ladder(33, 8, 6).sheet()), Err(7));
    let mut counts = Counts::new();
    for yard in [ladder(256, 8, 4), ladder(32, 8, 6), ladder(64, 4, 6)] {
        compare(&yard.sheet(), &mut counts);
    }
    // the last positions of either side without a line of their own
    let stuck = |position: u8| {
        let mut yard = ladder(256, 8, 4);
        yard.targets.retain(|line| line[0] != position);
        yard.moves.retain(|line| line[0] != position);
        proved::read(&yard.sheet())
    };
    assert_eq!((stuck(254), stuck(255)), (Err(6), Err(6)));
    let wide = Yard { kinds: vec![0; 257], ..sheets::looped() };
    assert_eq!(proved::read(&wide.sheet()), Err(2));
    assert_eq!(proved::read(&full_moves(4096).sheet()).map(|r| r.places[3].1), Ok(8192));
    assert_eq!(proved::read(&full_moves(4097).sheet()), Err(5));
    compare(&full_moves(4096).sheet(), &mut counts);
    report("limits", &counts, &[]);
}

/// A yard with so many moves: 128 own positions, and as many lines from the yard's as asked.
fn full_moves(lines: usize) -> Yard {
    let mut yard = ladder(256, 2, 2);
    let all = (1..256).step_by(2).flat_map(|p| (0..256).step_by(2).map(move |t| [p as u8, t as u8]));
    let mut moves: Vec<[u8; 2]> = all.collect();
    // keep one line for each yard position, and of the others as many as are still wanted
    let mut spare = lines - 128;
    moves.retain(|line| {
        let first = line[1] == 0;
        if !first && spare > 0 {
            spare -= 1;
            return true;
        }
        first
    });
    yard.moves = moves;
    yard
}

/// The paper's Example 1 (document 000): c1 to c3 are 0 to 2, e1 to e5 are 3 to 7, a is 0 and b is 1; e3 is unsafe. The text gives no
/// edges of its Fig. 1; these are the ones that its discussion and the strategies of Example 2 settle.
fn example_one() -> Yard {
    Yard {
        start: 0,
        actions: 2,
        delay: 0,
        kinds: vec![0, 0, 0, 2, 2, 3, 2, 2],
        targets: vec![[0, 0, 3], [0, 1, 4], [1, 0, 6], [1, 1, 5], [2, 0, 5], [2, 1, 7]],
        moves: vec![[3, 1], [4, 2], [5, 0], [6, 0], [6, 2], [7, 0], [7, 1]],
        gates: None,
    }
}

/// Example 2's strategies at delays 0, 1 and 2, and "winning strategies for the controller vanish when the delay reaches 3".
#[test]
fn paper_example() {
    let (a, b, both) = (1, 2, 3);
    let (answer, masks, _) = solve(&example_one());
    assert_eq!((answer, masks), (None, vec![both, a, b, 0, 0, 0, 0, 0]));
    let (answer, masks, _) = solve(&example_one().at(1));
    assert_eq!((answer, masks), (None, vec![0, 0, 0, a, b, 0, b, a]));
    let (answer, masks, _) = solve(&example_one().at(2));
    assert_eq!((answer, masks[..6].to_vec()), (None, vec![a, b, b, 0, 0, a]));
    assert_eq!(masks[6..], [0; 10]);
    assert_eq!(solve(&example_one().at(3)).0, Some(3));
}

#[test]
fn random_yards() {
    let mut random = Random::new(2018);
    let mut counts = Counts::new();
    for round in 0..6000 {
        let actions = 1 + random.below(if round % 8 == 0 { 8 } else { 3 }) as u8;
        let shape = Shape {
            own: 1 + random.below(6),
            environment: 1 + random.below(6),
            actions,
            permitted: *random.pick(&[15, 50, 80, 100]),
            moves: *random.pick(&[1, 2, 4]),
            unsafe_positions: *random.pick(&[0, 0, 10, 30]),
        };
        let mut delay = random.below(7) as u8;
        while (actions as usize).pow(delay as u32 / 2) > 64 {
            delay -= 1;
        }
        let yard = random_yard(&mut random, &shape);
        compare(&yard.at(delay).sheet(), &mut counts);
    }
    let winning = (0..7).map(|d| format!("winning at {d}"));
    let losing = [0, 1, 3].map(|m| format!("losing {m}"));
    report("random yards", &counts, &winning.chain(losing).chain(["refused 8".into()]).collect::<Vec<_>>());
}

#[test]
fn large_yards() {
    let mut random = Random::new(16384);
    let mut counts = Counts::new();
    for (own, environment, actions, delay) in
        [(128, 128, 8, 4), (128, 128, 8, 5), (16, 16, 8, 6), (100, 156, 4, 6), (1, 255, 8, 4), (200, 56, 2, 6)]
    {
        for unsafe_positions in [0, 5] {
            let shape = Shape { own, environment, actions, permitted: 85, moves: 6, unsafe_positions };
            compare(&random_yard(&mut random, &shape).at(delay).sheet(), &mut counts);
        }
    }
    report("large yards", &counts, &[]);
}

#[test]
fn damaged_sheets() {
    let mut random = Random::new(7);
    let mut counts = Counts::new();
    for _ in 0..20000 {
        let shape = Shape {
            own: 1 + random.below(4),
            environment: 1 + random.below(4),
            actions: 1 + random.below(3) as u8,
            permitted: 60,
            moves: 3,
            unsafe_positions: 10,
        };
        let yard = random_yard(&mut random, &shape);
        let mut sheet = yard.at(random.below(5) as u8).sheet();
        for _ in 0..1 + random.below(2) {
            if !sheet.is_empty() {
                damage(&mut random, &mut sheet);
            }
        }
        compare(&sheet, &mut counts);
    }
    for length in 0..200 {
        let sheet: Vec<u8> = (0..length).map(|_| random.next() as u8).collect();
        compare(&sheet, &mut counts);
    }
    compare(&ladder(33, 8, 6).sheet(), &mut counts);
    report("damaged sheets", &counts, &(1..8).map(|n| format!("refused {n}")).collect::<Vec<_>>());
}

/// Yards on which one pair falls a round, at every lag: many rounds, and pairs that stand while what they lead to falls.
#[test]
fn worst_yards() {
    let mut counts = Counts::new();
    let mut rounds = 0;
    for seed in 1..4 {
        for (layers, delay) in [(0, 4), (1, 5)] {
            for touched in [false, true] {
                let yard = worst(&Worst { actions: 3, layers, rows: 2, ballast: 4, width: 4, touched, delay }, seed);
                for delay in 0..=yard.delay {
                    compare(&yard.at(delay).sheet(), &mut counts);
                }
                rounds = rounds.max(*solve(&yard).2.iter().max().unwrap());
            }
        }
    }
    println!("most rounds: {rounds}");
    assert!(rounds > 20);
    for (hubs, delay) in [(1, 4), (2, 5), (3, 6)] {
        compare(&fan(5, hubs, 2, delay).sheet(), &mut counts);
    }
    for delay in 0..=6 {
        compare(&standing(5, 6, 2, delay).sheet(), &mut counts);
    }
    report("worst yards", &counts, &["winning at 4".into(), "winning at 5".into(), "winning at 6".into()]);
}

/// One line of a hub spoils command 0, wherever it stands among the others. By hand: where 0 is in question command 1 alone is left, and
/// both are once the door is mended or that line, and no other, is gone.
#[test]
fn one_spoiling_line() {
    let mut counts = Counts::new();
    for (hub, delay) in Hub::all(2) {
        let [door, start, at_hub, haven, ..] = hub.positions();
        let words = 1 << (delay / 2);
        // the position seen when the start's command is chosen, and the last one before the door that has pairs
        let (seen, last) = if delay % 2 == 0 { (start, start) } else { (haven, at_hub) };
        let mended = hub.yard(None).at(delay);
        compare(&mended.sheet(), &mut counts);
        // by lag, the round in which that last one falls with nothing but 0 pending; 0 where it is kept
        for (flaw, rounds) in [
            (Flaw::Unsafe, [0, 2, 2, 2, 2, 2, 2]),
            (Flaw::Lost, [0, 3, 3, 3, 3, 3, 3]),
            (Flaw::Absent, [0, 0, 0, 2, 3, 2, 3]),
        ] {
            let yard = hub.yard(Some(flaw)).at(delay);
            compare(&yard.sheet(), &mut counts);
            // 0 is in question for the start, after nothing but 1; where the door does not permit it, for the door, after a 0 for the start
            let pair = match flaw {
                Flaw::Absent if delay == 1 => at_hub,
                Flaw::Absent if delay > 1 => seen * words + words - 2,
                _ => seen * words + words - 1,
            };
            // at lag 0 the door is seen before its command is chosen, and nothing is spoilt
            let left = if (flaw, delay) == (Flaw::Absent, 0) { 3 } else { 2 };
            let (answer, masks, ranks) = solve(&yard);
            let expected = (None, left, rounds[delay as usize]);
            assert_eq!((answer, masks[pair], ranks[last * words]), expected, "{hub:?} {yard:?}");
            assert_eq!(solve(&mended).1[pair], 3, "{hub:?} {yard:?}");
            for cut in yard.moves.iter().filter(|line| line[0] as usize == at_hub && (2..10).contains(&hub.doors)) {
                let moves = yard.moves.iter().filter(|line| *line != cut).copied().collect();
                let mask = solve(&Yard { moves, ..yard.clone() }).1[pair];
                assert_eq!(mask, if cut[1] as usize == door { 3 } else { left }, "{hub:?} {yard:?} without {cut:?}");
            }
            if left == 2 {
                count(&mut counts, format!("{flaw:?} behind {}", hub.line()));
            }
        }
    }
    let by_line = Flaw::ALL.iter().flat_map(|flaw| LINES.map(|line| format!("{flaw:?} behind {line}")));
    let winning = (0..7).map(|delay| format!("winning at {delay}"));
    report("one spoiling line", &counts, &by_line.chain(winning).collect::<Vec<_>>());
}

/// The only command is spoilt by one line: the start falls in the round after the door, and what leads back to it in the next one.
#[test]
fn only_command_spoilt() {
    let mut counts = Counts::new();
    for (hub, delay) in Hub::all(1) {
        let [door, start, ..] = hub.positions();
        for (flaw, round) in [(Flaw::Unsafe, 1), (Flaw::Lost, 2)] {
            let yard = hub.yard(Some(flaw)).at(delay);
            compare(&yard.sheet(), &mut counts);
            let mut expected: Vec<u16> = yard.kinds.iter().map(|&kind| [round + 2, 1, 0, 0][kind as usize]).collect();
            (expected[door], expected[start]) = (round, round + 1);
            let (answer, _, ranks) = solve(&yard);
            assert_eq!((answer, ranks), (Some(0), expected), "{hub:?} {yard:?}");
            count(&mut counts, format!("{flaw:?} behind {}", hub.line()));
        }
        let mended = hub.yard(None).at(delay);
        compare(&mended.sheet(), &mut counts);
        assert_eq!(solve(&mended).0, None);
    }
    let by_line = ["Unsafe", "Lost"].iter().flat_map(|flaw| LINES.map(|line| format!("{flaw} behind {line}")));
    report("only command spoilt", &counts, &by_line.chain(["losing 0".into()]).collect::<Vec<_>>());
}

/// One own position permits command 1 alone and the others 0 alone, so that one line spoils command 0 and any other command 1: lag 1
/// loses, as in the split gate.
#[test]
fn wide_gates() {
    let mut counts = Counts::new();
    for (hub, delay) in Hub::all(2).filter(|(hub, _)| hub.doors > 1) {
        let numbered = |yard: Yard| if hub.turned { yard.turned() } else { yard }.at(delay);
        let (yard, mended) = (numbered(wide_gate(hub.doors, Some(hub.place))), numbered(wide_gate(hub.doors, None)));
        compare(&yard.sheet(), &mut counts);
        compare(&mended.sheet(), &mut counts);
        let (answer, masks, ranks) = solve(&yard);
        let gate = yard.moves[0][0] as usize;
        if delay == 0 {
            let mut expected = vec![0; yard.pairs()];
            yard.targets.iter().for_each(|line| expected[line[0] as usize] = 1 << line[1]);
            assert_eq!((answer, masks), (None, expected), "{yard:?}");
        } else {
            let expected: Vec<u16> = (0..yard.pairs()).map(|p| if p == gate { 2 } else { 0 }).collect();
            assert_eq!((answer, ranks), (Some(1), expected), "{yard:?}");
            count(&mut counts, format!("command 0 is absent behind {}", hub.line()));
        }
        assert_eq!(solve(&mended).0, None);
    }
    let by_line = LINES[1..].iter().map(|line| format!("command 0 is absent behind {line}"));
    report("wide gates", &counts, &by_line.chain(["losing 1".into()]).collect::<Vec<_>>());
}

/// Each command is spoilt by one line, at a place of its own: the start falls, and where one hub is mended it stands by that command.
#[test]
fn every_command_spoilt() {
    let mut counts = Counts::new();
    for actions in 1..9 {
        for mended in (0..actions).map(Some).chain([None]) {
            let up = windows(actions, mended);
            let yards = [up.turned(), up].into_iter().flat_map(|yard| (0..7).map(move |delay| yard.at(delay)));
            for yard in yards.filter(|yard| yard.pairs() <= 2_000) {
                compare(&yard.sheet(), &mut counts);
                let (answer, masks, ranks) = solve(&yard);
                let Some(command) = mended else {
                    let mut expected: Vec<u16> = yard.kinds.iter().map(|&kind| [3, 1, 0, 0][kind as usize]).collect();
                    expected[yard.start as usize] = 2;
                    assert_eq!((answer, &ranks[..expected.len()]), (Some(0), &expected[..]), "{yard:?}");
                    continue;
                };
                // at the start, or at the haven a move before, with nothing but that command pending
                let haven = yard.targets.iter().find(|line| line[0] != yard.start).unwrap()[2];
                let position = if yard.delay % 2 == 0 { yard.start } else { haven };
                let pair = (0..yard.delay / 2).fold(position as usize, |k, _| k * actions as usize + command as usize);
                assert_eq!((answer, masks[pair]), (None, 1 << command), "{yard:?}");
            }
        }
    }
    let winning = (0..7).map(|delay| format!("winning at {delay}"));
    report("every command spoilt", &counts, &winning.chain(["losing 0".into()]).collect::<Vec<_>>());
}
