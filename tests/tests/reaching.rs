//! The number of positions that lie on some play from the start, over yards of which part is cut off: reading, solving and making against
//! the naive search.
use loquatquoits_tests::counts::{count, report, Counts};
use loquatquoits_tests::naive;
use loquatquoits_tests::proved::{self, Answer};
use loquatquoits_tests::random::Random;
use loquatquoits_tests::sheets::{chain, cut_guess, guess, random_yard, Shape, Yard};

/// The answer on a yard that is accepted, the number being the naive one in each operation.
fn answer(yard: &Yard) -> Answer {
    let sheet = yard.sheet();
    let expected = naive::read(&sheet).unwrap();
    let n = yard.pairs();
    let (mut masks, mut ranks) = (vec![0; n], vec![0; n]);
    let solved = proved::solve(&sheet, &mut masks, &mut ranks).unwrap();
    assert_eq!(solved.reached, expected.reached, "solving {yard:?}");
    assert_eq!(proved::read(&sheet), Ok(expected), "reading {yard:?}");
    let (_, made) = proved::make(&sheet, &mut masks, &mut ranks, yard.owed_length()).unwrap();
    assert_eq!(made, solved, "making {yard:?}");
    solved
}

/// Every lag that a yard of its size may ask for.
fn lags(yard: &Yard) -> impl Iterator<Item = Yard> + '_ {
    (0..7).map(|delay| yard.at(delay)).filter(|yard| yard.pairs() <= 16_384)
}

/// The number at every lag and whatever is safe, which must be one.
fn reached(yard: &Yard) -> usize {
    let reached = answer(yard).reached;
    let all_unsafe = Yard { kinds: yard.kinds.iter().map(|kind| kind | 1).collect(), ..yard.clone() };
    let changed = Yard { kinds: yard.kinds.iter().map(|kind| kind ^ 1).collect(), ..yard.clone() };
    for yard in [yard, &all_unsafe, &changed].into_iter().flat_map(lags) {
        assert_eq!(answer(&yard).reached, reached, "{yard:?}");
    }
    reached
}

#[test]
fn guess_yard() {
    assert_eq!(reached(&guess()), 4);
    assert_eq!(reached(&cut_guess()), 2);
    // position 1 has its moves still
    assert_eq!(reached(&Yard { start: 1, ..cut_guess() }), 4);
}

/// 256 positions in a row, the start being the first of all or, turned, the last; whole, and with one link that leads back to the start.
#[test]
fn chains() {
    let whole = chain(128);
    assert_eq!((whole.start, whole.turned().start), (0, 255));
    assert_eq!((reached(&whole), reached(&whole.turned())), (256, 256));
    for link in [0, 1, 63, 126, 127] {
        let mut cut = chain(128);
        cut.moves[link][1] = cut.start;
        let expected = 2 * (link + 1);
        assert_eq!((reached(&cut), reached(&cut.turned())), (expected, expected));
    }
}

/// Lines that are the only way to a position: each of eight commands at the start, past a yard position that is safe or not, and each of
/// a yard position's moves.
#[test]
fn one_way_on() {
    for on in 0..8 {
        for kind in [2, 3] {
            let targets = (0..8).map(|c| [0, c, if c == on { 3 } else { 2 }]).chain([[1, 0, 3]]).collect();
            let kinds = vec![0, 0, 2, kind];
            let yard = Yard { start: 0, actions: 8, delay: 0, kinds, targets, moves: vec![[2, 0], [3, 1]], gates: None };
            assert_eq!(reached(&yard), 4);
            let mut cut = yard;
            cut.targets.remove(on as usize);
            assert_eq!(reached(&cut), 2);
        }
    }
    let kinds = vec![0, 1, 0, 0, 1, 3];
    let targets = (0..5).map(|p| [p, 0, 5]).collect();
    let moves = (0..5).map(|p| [5, p]).collect();
    let yard = Yard { start: 2, actions: 1, delay: 0, kinds, targets, moves, gates: None };
    assert_eq!(reached(&yard), 6);
    for left_out in [0, 1, 3, 4] {
        let mut cut = yard.clone();
        cut.moves.remove(left_out);
        assert_eq!(reached(&cut), 5);
    }
}

/// A yard of which part may be cut off: each line that leads out of a random part around the start is left out, where another line of its
/// position stays in, or led back into the part.
fn cut_off(random: &mut Random, yard: &Yard) -> Yard {
    let share = *random.pick(&[20, 60, 90, 100]);
    let mut inside: Vec<bool> = yard.kinds.iter().map(|_| random.percent(share)).collect();
    let way_in = yard.targets.iter().find(|line| line[0] == yard.start).unwrap();
    for p in [way_in[0], way_in[2]] {
        inside[p as usize] = true;
    }
    let leaves = |from: u8, to: u8| inside[from as usize] && !inside[to as usize];
    let part = |sides: [u8; 2]| -> Vec<u8> {
        (0..=255).zip(&yard.kinds).filter(|&(p, kind)| inside[p as usize] && sides.contains(kind)).map(|(p, _)| p).collect()
    };
    let (own, other) = (part([0, 1]), part([2, 3]));
    let mut cut = yard.clone();
    let commands_stay = |p: u8| yard.targets.iter().any(|line| line[0] == p && !leaves(p, line[2]));
    cut.targets.retain(|line| !leaves(line[0], line[2]) || !commands_stay(line[0]) || random.percent(50));
    for line in cut.targets.iter_mut().filter(|line| leaves(line[0], line[2])) {
        line[2] = *random.pick(&other);
    }
    let moves_stay = |p: u8| yard.moves.iter().any(|line| line[0] == p && !leaves(p, line[1]));
    cut.moves.retain(|line| !leaves(line[0], line[1]) || !moves_stay(line[0]) || random.percent(50));
    for line in cut.moves.iter_mut().filter(|line| leaves(line[0], line[1])) {
        line[1] = *random.pick(&own);
    }
    cut.moves.sort_unstable();
    cut.moves.dedup();
    cut
}

/// How many positions are reached over the commands and positions that are taken: what a wrong rule would answer.
fn reached_over(yard: &Yard, command: impl Fn(u8) -> bool, position: impl Fn(u8) -> bool) -> usize {
    let targets = yard.targets.iter().filter(|line| command(line[1])).map(|line| (line[0], line[2]));
    let moves = yard.moves.iter().map(|line| (line[0], line[1]));
    let lines: Vec<(u8, u8)> = targets.chain(moves).filter(|line| position(line.0)).collect();
    naive::reached(yard.start, &lines).len()
}

#[test]
fn cut_off_yards() {
    let mut random = Random::new(201);
    let mut counts = Counts::new();
    for round in 0..5000 {
        let most = if round % 20 == 0 { 128 } else { 12 };
        let shape = Shape {
            own: 1 + random.below(most),
            environment: 1 + random.below(most),
            actions: 1 + random.below(if round % 8 == 0 { 8 } else { 3 }) as u8,
            permitted: *random.pick(&[15, 50, 100]),
            moves: *random.pick(&[1, 3, 8]),
            unsafe_positions: *random.pick(&[0, 10, 40]),
        };
        let whole = random_yard(&mut random, &shape);
        let yard = cut_off(&mut random, &whole);
        let all_lags: Vec<Yard> = lags(&yard).collect();
        let yard = random.pick(&all_lags);
        let Answer { losing, reached } = answer(yard);
        assert_eq!(answer(&yard.turned()), Answer { losing, reached }, "turned {yard:?}");
        // neither another lag nor other safe positions change the number
        let kinds = yard.kinds.iter().map(|kind| kind ^ u8::from(random.percent(50))).collect();
        let changed = Yard { kinds, ..random.pick(&all_lags).clone() };
        assert_eq!(answer(&changed).reached, reached, "{changed:?}");

        let n = yard.kinds.len();
        let verdict = if losing.is_none() { "winning" } else { "losing" };
        let part = if reached == n { "all" } else { "fewer than all" };
        count(&mut counts, format!("{verdict}, reached {part}"));
        let safe = |p: u8| yard.kinds[p as usize] % 2 == 0;
        let without = |command: u8| yard.actions > 1 && reached_over(yard, |c| c != command, |_| true) < reached;
        for (kind, met) in [
            ("reached one own and one yard position of more", reached == 2 && n > 2),
            ("the start is the last position", yard.start as usize == n - 1),
            ("the only way on passes an unsafe position", reached_over(yard, |_| true, safe) < reached),
            ("a position reached only by the first command", without(0)),
            ("a position reached only by the last command", without(yard.actions - 1)),
            ("over a hundred positions, reached fewer than all", n > 100 && reached < n),
            ("over a hundred positions reached", reached > 100),
        ] {
            if met {
                count(&mut counts, kind.into());
            }
        }
    }
    let wanted = [
        "winning, reached all",
        "winning, reached fewer than all",
        "losing, reached all",
        "losing, reached fewer than all",
        "reached one own and one yard position of more",
        "the start is the last position",
        "the only way on passes an unsafe position",
        "a position reached only by the first command",
        "a position reached only by the last command",
        "over a hundred positions, reached fewer than all",
        "over a hundred positions reached",
    ];
    report("cut-off yards", &counts, &wanted.map(String::from));
}
