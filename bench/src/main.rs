//! The proved solver against two hand-written versions of the same rounds, and the proved reader, judge, posting and cabin against
//! hand-written ones, in one run on one machine; with the feature `before`, also against the library of a landing before.
use loquatquoits_tests::cabin::Observation;
use loquatquoits_tests::judge::Judgement;
use loquatquoits_tests::naive::{self, Game, Rule, Verdict};
use loquatquoits_tests::proved;
use loquatquoits_tests::random::Random;
use loquatquoits_tests::sheets::{self, chain, random_yard, Shape, Yard};
use loquatquoits_tests::tables::everything;
use loquatquoits_tests::worst::{fan, orders, ring, standing, worst, Worst};
use std::hint::black_box;
use std::time::{Duration, Instant};

#[cfg(feature = "before")]
mod before;
mod bits;
mod cabin;
mod hand;

/// The least times of some versions, taken in turn so that whatever else the machine does meets all alike: at least so many runs of each,
/// and more until half a second is spent.
fn compare<const N: usize>(runs: usize, mut versions: [&mut dyn FnMut(); N]) -> [Duration; N] {
    let begun = Instant::now();
    let mut least = [Duration::MAX; N];
    let mut done = 0;
    while done < runs || begun.elapsed() < Duration::from_millis(500) {
        for (version, least) in versions.iter_mut().zip(&mut least) {
            *least = (*least).min(time(version));
        }
        done += 1;
    }
    least
}

fn time(run: &mut dyn FnMut()) -> Duration {
    let start = Instant::now();
    run();
    start.elapsed()
}

fn ratio(one: Duration, other: Duration) -> f64 {
    one.as_secs_f64() / other.as_secs_f64()
}

fn milliseconds(time: Duration) -> f64 {
    time.as_secs_f64() * 1e3
}

/// Each one of so many done in this time.
fn nanoseconds(time: Duration, done: usize) -> f64 {
    time.as_secs_f64() * 1e9 / done as f64
}

/// What a version leaves in its buffers, and its answer.
struct Buffers {
    masks: Vec<u8>,
    ranks: Vec<u16>,
}

impl Buffers {
    fn new(pairs: usize) -> Buffers {
        Buffers { masks: vec![0; pairs], ranks: vec![0; pairs] }
    }
}

/// The three versions' times on a yard, after their answers were compared. By hand runs but once where it takes long.
fn versions(yard: &Yard, runs: usize) -> ([Duration; 3], u16) {
    let sheet = yard.sheet();
    let [mut ours, mut hand, mut bits] = [(); 3].map(|()| Buffers::new(yard.pairs()));
    let game = hand::Hand::new(&sheet);
    let answer = proved::solve(&sheet, &mut ours.masks, &mut ours.ranks).unwrap();
    assert_eq!((bits::solve(&game, &mut bits.masks, &mut bits.ranks), game.reached), (answer.losing, answer.reached));
    assert_eq!((&ours.masks, &ours.ranks), (&bits.masks, &bits.ranks));
    let mut by_hand = || {
        black_box(hand::Hand::new(&sheet).solve(&mut hand.masks, &mut hand.ranks));
    };
    let long = runs < 30;
    let once = if long { time(&mut by_hand) } else { Duration::MAX };
    let mut by_proof = || {
        let _ = black_box(proved::solve(&sheet, &mut ours.masks, &mut ours.ranks));
    };
    let mut by_bits = || {
        black_box(bits::solve(&hand::Hand::new(&sheet), &mut bits.masks, &mut bits.ranks));
    };
    let times = if long {
        let [a, c] = compare(runs, [&mut by_proof, &mut by_bits]);
        [a, once, c]
    } else {
        compare(runs, [&mut by_proof, &mut by_hand, &mut by_bits])
    };
    assert_eq!((&ours.masks, &ours.ranks), (&hand.masks, &hand.ranks));
    let rounds = *ours.ranks.iter().max().unwrap();
    (times, rounds)
}

fn row(name: &str, yard: &Yard, runs: usize) {
    let ([proved, hand, bits], rounds) = versions(yard, runs);
    print!(
        "| {name} | {} | {rounds} | {:.3} ms | {:.3} ms | {:.2} | {:.3} ms | {:.2} |",
        yard.pairs(),
        milliseconds(proved),
        milliseconds(hand),
        ratio(proved, hand),
        milliseconds(bits),
        ratio(proved, bits),
    );
}

fn measure(name: &str, yard: &Yard) {
    row(name, yard, 30);
    let sheet = yard.sheet();
    let mut verdict = None;
    let naively = time(&mut || {
        let read = naive::read(&sheet).unwrap();
        verdict = Some(Game::of(&sheet, &read).solve(read.delay, Rule::Document));
    });
    let n = yard.pairs();
    let answer = proved::solve(&sheet, &mut vec![0; n], &mut vec![0; n]).unwrap();
    assert_eq!(answer.losing, match verdict.unwrap() {
        Verdict::Winning(_) => None,
        Verdict::Losing(m, _) => Some(m),
    });
    println!(" {:.0} ms |", milliseconds(naively));
}

/// A random yard in which the asked lag wins, so that the rounds go through all of its pairs: with every command permitted and, if need
/// be, nothing unsafe.
fn winning_yard(random: &mut Random, shape: &Shape, delay: u8) -> Yard {
    for unsafe_positions in [shape.unsafe_positions, 0] {
        let open = Shape { permitted: 100, unsafe_positions, ..*shape };
        let yard = random_yard(random, &open).at(delay);
        let n = yard.pairs();
        if proved::solve(&yard.sheet(), &mut vec![0; n], &mut vec![0; n]).unwrap().losing.is_none() {
            return yard;
        }
    }
    unreachable!()
}

/// A yard with as many pairs as there may be, which wins: any command leads round.
fn round_about() -> Yard {
    around(128, 1, 1, 4)
}

/// The positions of `round_about` with every command and as many moves as there may be, each leading a few positions on.
fn dense() -> Yard {
    around(128, 8, 32, 4)
}

/// The dense yard without lines for its odd commands.
fn even_commands() -> Yard {
    let mut yard = dense();
    yard.targets.retain(|line| line[1] % 2 == 0);
    yard
}

/// So many own positions and as many of the yard's, in turn: the commands lead to so many of the next ones, and each yard position moves
/// to so many.
fn around(own_positions: usize, targets: usize, moves: usize, delay: u8) -> Yard {
    let own = |k: usize| (2 * (k % own_positions)) as u8;
    let other = |k: usize| own(k) + 1;
    let lines = |k: usize| (0..8).map(move |c| [own(k), c as u8, other(k + c % targets)]);
    let mut to: Vec<_> = (0..own_positions).flat_map(|k| (1..=moves).map(move |on| [other(k), own(k + on)])).collect();
    to.sort_unstable();
    let targets = (0..own_positions).flat_map(lines).collect();
    Yard { start: 0, actions: 8, delay, kinds: [0, 2].repeat(own_positions), targets, moves: to, gates: None }
}

/// The first sixteen yards.
fn sixteen() -> Vec<(String, Yard)> {
    let mut all = Vec::new();
    // sparser yards, most of which lose at a small lag, so that reading the sheet is most of the work
    let mut random = Random::new(4);
    for (actions, delay, own, environment, moves, unsafe_positions) in
        [(8, 4, 128, 128, 16, 0), (8, 4, 128, 128, 16, 4), (8, 5, 128, 128, 4, 0), (8, 6, 16, 16, 4, 2), (4, 6, 128, 128, 8, 0)]
    {
        let shape = Shape { own, environment, actions, permitted: 90, moves, unsafe_positions };
        let name = format!("sparse, {actions} actions, lag {delay}, {moves} moves at most, {unsafe_positions} % unsafe");
        all.push((name, random_yard(&mut random, &shape).at(delay)));
    }
    // denser yards, and ones that win, so that the rounds go through all pairs
    for (actions, delay, own, environment, moves, unsafe_positions) in
        [(8, 4, 128, 128, 16, 0), (8, 4, 128, 128, 2, 4), (8, 5, 128, 128, 2, 0), (8, 6, 16, 16, 2, 0), (4, 6, 128, 128, 2, 0)]
    {
        let shape = Shape { own, environment, actions, permitted: 98, moves, unsafe_positions };
        let name = format!("dense, {actions} actions, lag {delay}, {moves} moves at most, {unsafe_positions} % unsafe");
        let winning = format!("{name}, winning");
        all.push((name, random_yard(&mut random, &shape).at(delay)));
        all.push((winning, winning_yard(&mut random, &shape, delay)));
    }
    all.push(("chain of 127 links, lag 0".into(), chain(127)));
    all
}

fn yards() {
    println!("| yard | pairs | rounds | proved | by hand | proved / by hand | bits | proved / bits | naive |");
    println!("|---|---|---|---|---|---|---|---|---|");
    for (name, yard) in sixteen() {
        measure(&name, &yard);
    }
    println!();
}

/// Yards on which one pair falls a round while the others stand, ones on which all fall at once, and ones that are dear at lags 0 and 1.
fn dear() -> Vec<(String, Yard)> {
    let even = Worst { actions: 8, layers: 0, rows: 8, ballast: 155, width: 0, touched: false, delay: 4 };
    let odd = Worst { actions: 8, layers: 1, rows: 9, ballast: 62, width: 62, touched: false, delay: 5 };
    let chains = [
        ("E4", even),
        ("E4 touched", Worst { rows: 7, ballast: 172, touched: true, ..even }),
        ("O5", odd),
        ("O5 touched", Worst { rows: 9, ballast: 55, width: 60, touched: true, ..odd }),
        ("O5 touched, wide", Worst { rows: 4, ballast: 50, width: 70, touched: true, ..odd }),
    ];
    let fans = [(252, 1, 8, 4), (240, 8, 8, 4), (240, 8, 8, 5), (252, 1, 8, 2), (252, 1, 4, 6)];
    let fans = fans.into_iter().map(|(own, hubs, actions, delay)| {
        let name = format!("fan, {actions} actions, lag {delay}, {own} own positions, {hubs} of the yard's");
        (name, fan(own, hubs, actions, delay))
    });
    chains.map(|(name, shape)| (name.into(), worst(&shape, 1))).into_iter().chain(fans).chain(standing_yards()).collect()
}

fn worst_yards() {
    println!("| worst yard | pairs | rounds | proved | by hand, once | proved / by hand | bits | proved / bits |");
    println!("|---|---|---|---|---|---|---|---|");
    for (name, yard) in dear() {
        row(&name, &yard, 5);
        println!();
    }
    println!();
}

/// Standing yards, in which the last of many lines spoils, and the same numbered from the other end, so that the first one does.
fn standing_yards() -> impl Iterator<Item = (String, Yard)> {
    [0, 1, 5].into_iter().flat_map(|delay| {
        let late = standing(140, 53, 8, delay);
        [("late", late.clone()), ("early", late.turned())].map(|(lines, yard)| {
            (format!("standing, {lines} lines spoil, 8 actions, lag {delay}, 140 own positions, 53 links"), yard)
        })
    })
}

/// A reading is too short to be timed alone, so many are timed together.
fn measure_reading(name: &str, yard: &Yard) {
    let sheet = yard.sheet();
    let naive::Read { reached, holding, .. } = naive::read(&sheet).unwrap();
    assert_eq!((proved::read(&sheet).unwrap().holding, hand::read(&sheet).unwrap().holding), (holding, holding));
    let readings = 200;
    let [by_proof, by_hand] = compare(
        30,
        [
            &mut || {
                for _ in 0..readings {
                    assert_eq!(proved::read(black_box(&sheet)).unwrap().reached, reached);
                }
            },
            &mut || {
                for _ in 0..readings {
                    assert_eq!(hand::read(black_box(&sheet)).unwrap().reached, reached);
                }
            },
        ],
    );
    println!(
        "| {name} | {} | {} | {reached} | {:.0} ns | {:.0} ns | {:.2} |",
        yard.kinds.len(),
        yard.targets.len() + yard.moves.len(),
        nanoseconds(by_proof, readings),
        nanoseconds(by_hand, readings),
        ratio(by_proof, by_hand),
    );
}

/// Either order of numbers: a reader that goes over the lines again and again would be slow where the chain leads down.
fn readings() {
    println!("| reading, with the number of reached positions | positions | lines | reached | proved | by hand | proved / by hand |");
    println!("|---|---|---|---|---|---|---|");
    measure_reading("dense", &dense());
    measure_reading("dense, numbered down", &dense().turned());
    measure_reading("chain of 128 links", &chain(128));
    measure_reading("chain of 128 links, numbered down", &chain(128).turned());
    measure_reading("the guess yard", &sheets::guess());
    measure_reading("dense, odd commands missing", &even_commands());
    measure_reading("dense, odd commands missing, holding gates", &even_commands().holding());
    measure_reading("the split gate, holding gates", &sheets::split_gate().holding());
    println!();
}

/// Yards with holding gates, each beside the completed one whose lines are written out: what completing takes.
fn holding_yards() {
    println!("| yard with holding gates | pairs | rounds | proved | by hand | proved / by hand | bits | proved / bits | naive |");
    println!("|---|---|---|---|---|---|---|---|---|");
    let mut random = Random::new(207);
    let shape = Shape { own: 128, environment: 128, actions: 8, permitted: 50, moves: 4, unsafe_positions: 0 };
    let sparse = random_yard(&mut random, &shape);
    for (name, yard) in [
        ("dense, odd commands missing, lag 4, 32 moves each", even_commands()),
        ("random, half of the commands missing, lag 0, 4 moves at most", sparse.clone()),
        ("random, half of the commands missing, lag 4, 4 moves at most", sparse.at(4)),
    ] {
        measure(name, &yard.holding());
        measure(&format!("{name}: written out"), &yard.completed());
    }
    println!();
}

/// A table with a bit of one mask turned over, for some of its masks.
fn altered(table: &[u8], masks: usize) -> impl Iterator<Item = Vec<u8>> + '_ {
    (table.len() - masks..table.len()).step_by(masks / 7 + 1).map(|at| {
        let mut other = table.to_vec();
        other[at] ^= 1;
        other
    })
}

/// Judging our own table, which goes over all of it.
fn measure_judging(name: &str, yard: &Yard) {
    let (sheet, (table, answer)) = (yard.sheet(), proved::make_of(yard, yard.owed_length()).unwrap());
    assert_eq!(answer.losing, None);
    // both find the same where a bit of a mask is turned over
    for other in altered(&table, yard.pairs()) {
        let by_hand = cabin::read(&other).and_then(|other| hand::Hand::new(&sheet).judge(&other));
        assert_eq!(proved::judge(&sheet, &other).ok(), by_hand);
    }
    let judgings = if yard.pairs() < 1_000 { 200 } else { 1 };
    let [by_proof, by_hand] = compare(
        30,
        [
            &mut || {
                for _ in 0..judgings {
                    assert_eq!(proved::judge(black_box(&sheet), black_box(&table)), Ok(Judgement::Sound));
                }
            },
            &mut || {
                for _ in 0..judgings {
                    let game = hand::Hand::new(black_box(&sheet));
                    assert_eq!(game.judge(&cabin::read(black_box(&table)).unwrap()), Some(Judgement::Sound));
                }
            },
        ],
    );
    println!(
        "| {name} | {} | {:.2} µs | {:.2} µs | {:.2} |",
        yard.pairs(),
        nanoseconds(by_proof, judgings) / 1e3,
        nanoseconds(by_hand, judgings) / 1e3,
        ratio(by_proof, by_hand),
    );
}

/// Nothing is unsafe in the large yards and every command permitted, so that every pair of the right side allows all of them.
fn judgings() {
    println!("| judging our table | pairs | proved | by hand | proved / by hand |");
    println!("|---|---|---|---|---|");
    measure_judging("dense, 32 positions, lag 6, 16 moves each", &around(16, 8, 16, 6));
    measure_judging("dense, 256 positions, lag 4, 32 moves each", &dense());
    measure_judging("dense, 256 positions, lag 5, 32 moves each", &dense().at(5));
    measure_judging("the largest table, lag 4, one move each", &round_about());
    measure_judging("the longer hall, lag 4", &sheets::long_hall().at(4));
    measure_judging("the sorting hall, lag 2", &sheets::hall().at(2));
    measure_judging("the loop, lag 6", &sheets::looped().at(6));
    println!();
}

/// Posting a notice on a table; the sheets of both are compared. By hand runs but once where it takes long.
fn measure_posting(name: &str, yard: &Yard, table: &[u8], notice: &[u8]) {
    let sheet = yard.sheet();
    let postings = if yard.pairs() < 1_000 { 200 } else { 1 };
    let [mut ours, mut hand] = [(); 2].map(|()| vec![0; table.len()]);
    let answer = proved::post_into(&sheet, table, notice, &mut ours).unwrap();
    let mut by_proof = || {
        for _ in 0..postings {
            assert_eq!(proved::post_into(black_box(&sheet), black_box(table), notice, &mut ours), Ok(answer));
        }
    };
    let mut by_hand = || {
        for _ in 0..postings {
            assert_eq!(hand::Hand::new(black_box(&sheet)).post(black_box(table), notice, &mut hand), Some(answer));
        }
    };
    let once = time(&mut by_hand);
    let [proved, by_hand] = if once < Duration::from_millis(100) {
        compare(30, [&mut by_proof, &mut by_hand])
    } else {
        [compare(5, [&mut by_proof])[0], once]
    };
    assert_eq!(ours, hand, "{name}");
    let allowed = |sheet: &[u8]| sheet[sheet.len() - yard.pairs()..].iter().map(|mask| mask.count_ones()).sum::<u32>();
    let [one, other] = [proved, by_hand].map(|time| match nanoseconds(time, postings) / 1e3 {
        short if short < 1e3 => format!("{short:.2} µs"),
        long => format!("{:.3} ms", long / 1e3),
    });
    println!(
        "| {name} | {} | {} | {} | {one} | {other} | {:.2} |",
        yard.pairs(),
        allowed(table),
        allowed(&ours),
        ratio(proved, by_hand),
    );
}

/// Notices on our own tables: of nothing, of one position of either side and of every eighth. A row has the commands before and after.
fn postings() {
    println!("| posting a notice on our table | pairs | commands | left | proved | by hand | proved / by hand |");
    println!("|---|---|---|---|---|---|---|");
    let shape = |own: usize, actions: u8| Shape { own, environment: own, actions, permitted: 100, moves: 2, unsafe_positions: 0 };
    let mut random = Random::new(205);
    let large = [
        ("random, 256 positions, lag 4, 2 moves at most", winning_yard(&mut random, &shape(128, 8), 4)),
        ("random, 256 positions, lag 5, 2 moves at most", winning_yard(&mut random, &shape(128, 8), 5)),
        ("random, 32 positions, lag 6, 2 moves at most", winning_yard(&mut random, &shape(16, 8), 6)),
        ("random, 256 positions, 4 actions, lag 6, 2 moves at most", winning_yard(&mut random, &shape(128, 4), 6)),
        ("dense, 32 positions, lag 6, 16 moves each", around(16, 8, 16, 6)),
        ("dense, 256 positions, lag 4, 32 moves each", dense()),
        ("dense, 256 positions, lag 5, 32 moves each", dense().at(5)),
        ("the largest table, lag 4, one move each", round_about()),
    ];
    let small = [
        ("the longer hall, lag 4", sheets::long_hall().at(4)),
        ("the sorting hall, lag 2", sheets::hall().at(2)),
        ("the loop, lag 6", sheets::looped().at(6)),
    ];
    for (name, yard) in large.into_iter().chain(small) {
        let (table, answer) = proved::make_of(&yard, yard.owed_length()).unwrap();
        assert_eq!(answer.losing, None);
        let last = |own: bool| yard.kinds.iter().rposition(|&kind| (kind < 2) == own).unwrap() as u8;
        let eighth: Vec<u8> = (0..yard.kinds.len()).step_by(8).map(|p| p as u8).collect();
        let (of_yard, own) = ([last(false)], [last(true)]);
        for (what, notice) in
            [("nothing", &[][..]), ("a yard position", &of_yard), ("an own position", &own), ("every eighth position", &eighth)]
        {
            measure_posting(&format!("{name}: {what}"), &yard, &table, notice);
        }
    }
    println!();
}

/// The empty notice on tables of which much falls, and late: on the dear yards the one that allows everything, of which ours is left; and
/// rings without one mask, which lose one pair a sweep until nothing is left.
fn long_postings() {
    println!("| posting on a table that falls for long | pairs | commands | left | proved | by hand | proved / by hand |");
    println!("|---|---|---|---|---|---|---|");
    for (name, yard) in dear() {
        let table = everything(&yard).sheet();
        let posted = proved::post(&yard.sheet(), &table, &[], table.len()).unwrap().sheet;
        assert_eq!(posted, proved::make_of(&yard, yard.owed_length()).unwrap().0, "{name}");
        measure_posting(&format!("{name}: everything allowed"), &yard, &table, &[]);
    }
    for delay in [4, 5] {
        for (name, order) in orders(128) {
            let (yard, mut table) = ring(&order, 8, delay);
            *table.masks.iter_mut().rfind(|mask| **mask != 0).unwrap() = 0;
            measure_posting(&format!("ring of 8192 pairs, lag {delay}, numbered {name}, cut at one"), &yard, &table.sheet(), &[]);
        }
    }
    println!();
}

/// Some turns against the yard that always makes its first move, worked out once.
struct Work {
    sheet: Vec<u8>,
    delay: usize,
    positions: Vec<u8>,
    commands: Vec<u8>,
}

impl Work {
    fn new(yard: &Yard, turns: usize) -> Work {
        let (sheet, answer) = proved::make_of(yard, 50_000).unwrap();
        assert_eq!(answer.losing, None);
        let mut state = proved::open(&sheet).unwrap();
        let mut work = Work { sheet, delay: yard.delay as usize, positions: vec![yard.start], commands: Vec::new() };
        for i in 0..turns {
            let command = work.turn_by_proof(&mut state, i);
            let target = yard.targets.iter().find(|line| line[0] == work.positions[2 * i] && line[1] == command).unwrap()[2];
            work.positions.extend([target, yard.moves.iter().find(|line| line[0] == target).unwrap()[1]]);
            work.commands.push(command);
        }
        work
    }

    /// Turn i hears the report that is needed and gives the command.
    fn turn_by_proof(&self, state: &mut [u8; 21], i: usize) -> u8 {
        if 2 * i >= self.delay {
            proved::observe(&self.sheet, state, 2 * i - self.delay, self.positions[2 * i - self.delay]).unwrap();
        }
        proved::act(&self.sheet, state).unwrap()
    }

    /// All turns, from opening.
    fn by_proof(&self) -> [u8; 21] {
        let mut state = proved::open(&self.sheet).unwrap();
        for (i, &command) in self.commands.iter().enumerate() {
            assert_eq!(self.turn_by_proof(&mut state, i), command);
        }
        state
    }

    fn by_hand(&self) -> cabin::Cabin {
        let mut cabin = cabin::Cabin::open();
        for (i, &command) in self.commands.iter().enumerate() {
            if 2 * i >= self.delay {
                assert!(cabin.observe(&self.sheet, 2 * i - self.delay, self.positions[2 * i - self.delay]));
            }
            assert_eq!(cabin.act(&self.sheet), Some(command));
        }
        cabin
    }

    /// So many true reports after the last turn, from the newest index of the window to the oldest and round again.
    fn packet(&self, length: usize) -> Vec<Observation> {
        let newest = self.positions.len() - 1;
        let indices = (0..length).map(|k| newest - k % (self.delay + 1));
        indices.map(|index| Observation { index, position: self.positions[index] }).collect()
    }
}

fn measure_cabin(name: &str, yard: &Yard) {
    let turns = 1_000;
    let work = Work::new(yard, turns);
    let [by_proof, by_hand] = compare(
        30,
        [
            &mut || {
                black_box(work.by_proof());
            },
            &mut || {
                black_box(work.by_hand());
            },
        ],
    );
    println!(
        "| {name} | {} | {:.0} ns | {:.0} ns | {:.2} |",
        yard.pairs(),
        nanoseconds(by_proof, turns),
        nanoseconds(by_hand, turns),
        ratio(by_proof, by_hand),
    );
}

/// Yards in which cabins are at work.
fn worked_yards() -> [(&'static str, Yard); 4] {
    [
        ("the sorting hall, lag 2", sheets::hall().at(2)),
        ("the loop, lag 6", sheets::looped().at(6)),
        ("the longer hall, lag 4", sheets::long_hall().at(4)),
        ("the largest table", round_about()),
    ]
}

fn cabins() {
    println!("| cabin, a turn being a hearing and a giving | pairs | proved | by hand | proved / by hand |");
    println!("|---|---|---|---|---|");
    for (name, yard) in worked_yards() {
        measure_cabin(name, &yard);
    }
    println!();
}

/// Both name the same record of a packet where one is too new.
fn refused_alike(work: &Work, packet: &[Observation]) {
    for place in 0..packet.len() {
        let mut other = packet.to_vec();
        other[place].index += work.delay + 1;
        assert_eq!(proved::observe_all(&work.sheet, &mut work.by_proof(), &other), Err((18, Some(place))));
        assert_eq!(work.by_hand().observe_all(&work.sheet, &other), Err(Some(place)));
    }
}

/// A packet, each time to the same cabin that has heard nothing of its window: in one call, by hand, and by one single hearing a report.
fn measure_packet(name: &str, yard: &Yard, length: usize) {
    let work = Work::new(yard, 10);
    let (sheet, packet, begun, cabin) = (&work.sheet, work.packet(length), work.by_proof(), work.by_hand());
    refused_alike(&work, &packet);
    let packets = 1_000;
    let [by_proof, by_hand, singly] = compare(
        30,
        [
            &mut || {
                for _ in 0..packets {
                    let mut state = black_box(begun);
                    assert_eq!(proved::observe_all(sheet, &mut state, black_box(&packet)), Ok(()));
                    black_box(state);
                }
            },
            &mut || {
                for _ in 0..packets {
                    let mut cabin = black_box(&cabin).clone();
                    assert_eq!(cabin.observe_all(sheet, black_box(&packet)), Ok(()));
                    black_box(cabin);
                }
            },
            &mut || {
                for _ in 0..packets {
                    let mut state = black_box(begun);
                    for observation in black_box(&packet) {
                        assert_eq!(proved::observe(sheet, &mut state, observation.index, observation.position), Ok(()));
                    }
                    black_box(state);
                }
            },
        ],
    );
    let [proved, hand, single] = [by_proof, by_hand, singly].map(|time| nanoseconds(time, packets));
    println!(
        "| {name} | {} | {length} | {proved:.0} ns | {hand:.0} ns | {:.2} | {single:.0} ns | {:.2} |",
        yard.pairs(),
        ratio(by_proof, by_hand),
        ratio(by_proof, singly),
    );
}

fn packets() {
    println!("| hearing a packet | pairs | reports | proved | by hand | proved / by hand | proved, singly | packet / singly |");
    println!("|---|---|---|---|---|---|---|---|");
    for (name, yard) in worked_yards() {
        for length in [4, 16] {
            measure_packet(name, &yard, length);
        }
    }
}

fn main() {
    yards();
    worst_yards();
    readings();
    holding_yards();
    judgings();
    postings();
    long_postings();
    cabins();
    packets();
    #[cfg(feature = "before")]
    before::before_and_after();
}
