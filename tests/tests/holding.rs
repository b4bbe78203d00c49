//! Gates that hold (W-207): the two kinds of contents and the order of refusals around 24; holding yards against the naive operations and
//! against the completed yard written out as lines without G, in reading, solving, making, judging and posting; and the cabin at work on
//! them. A yard with G = 0 is the one without G throughout.
use loquatquoits_tests::both::{compare, judged, posted};
use loquatquoits_tests::cabin::{self, Table};
use loquatquoits_tests::counts::{count, report, Counts};
use loquatquoits_tests::judge::{Judgement, Offences};
use loquatquoits_tests::naive::{self, Game};
use loquatquoits_tests::notices::{any_notice, made_from};
use loquatquoits_tests::proved::{self, Answer};
use loquatquoits_tests::random::Random;
use loquatquoits_tests::sheets::{self, damage, house, parts, random_yard, Shape, Yard, LETTERS};
use loquatquoits_tests::tables::{everything, faulty_sheet, faulty_table, flipped, naive_sheet, ours, random_table};
use loquatquoits_tests::working::{self, any_choice, exact_play};

/// A small yard without G in which many rows are partial. Of positions without command 0 some get their least command as 0.
fn partial(random: &mut Random) -> Yard {
    let shape = Shape {
        own: 1 + random.below(5),
        environment: 1 + random.below(4),
        actions: *random.pick(&[1, 2, 2, 2, 3, 3, 4]),
        permitted: *random.pick(&[20, 40, 60, 90]),
        moves: 1 + random.below(4),
        unsafe_positions: *random.pick(&[0, 0, 15, 25]),
    };
    let mut yard = random_yard(random, &shape);
    let share = *random.pick(&[0, 40, 80]);
    for k in 0..yard.targets.len() {
        let first = k == 0 || yard.targets[k - 1][0] != yard.targets[k][0];
        if first && random.percent(share) {
            yard.targets[k][1] = 0;
        }
    }
    yard
}

/// The yard at every lag at which it has few pairs.
fn lags(yard: &Yard) -> impl Iterator<Item = Yard> + '_ {
    (0..7).map(|delay| yard.at(delay)).filter(|yard| yard.pairs() <= 400)
}

/// A small yard with holding gates that wins at its lag, and our table.
fn winning(random: &mut Random) -> (Yard, Table) {
    loop {
        let yard = partial(random).holding().at(random.below(7) as u8);
        if yard.pairs() <= 400 {
            if let Some(table) = ours(&yard) {
                return (yard, table);
            }
        }
    }
}

/// What reading, solving and making answer, and all that they leave in buffers longer than needed.
#[derive(Debug, PartialEq)]
struct Answers {
    numbers: [u8; 3],
    reached: usize,
    answer: Answer,
    masks: Vec<u8>,
    ranks: Vec<u16>,
    made: Vec<u8>,
}

/// Does the yard hold, and what is answered.
fn answers(yard: &Yard) -> (bool, Answers) {
    let (sheet, n) = (yard.sheet(), yard.pairs() + 2);
    let read = proved::read(&sheet).unwrap();
    let (mut masks, mut ranks) = (vec![0xa5; n], vec![0x5a5a; n]);
    let answer = proved::solve(&sheet, &mut masks, &mut ranks).unwrap();
    let (mut masks_made, mut ranks_made) = (vec![0xa5; n], vec![0x5a5a; n]);
    let (made, of_making) = proved::make(&sheet, &mut masks_made, &mut ranks_made, yard.owed_length() + 3).unwrap();
    assert_eq!((&masks_made, &ranks_made, of_making), (&masks, &ranks, answer), "{yard:?}");
    assert_eq!(proved::make_of(yard, yard.owed_length() - 1), Err(9), "{yard:?}");
    let numbers = [read.start, read.actions, read.delay];
    (read.holding, Answers { numbers, reached: read.reached, answer, masks, ranks, made })
}

/// A yard without G as it stands, the same with G = 0, with holding gates, and completed.
fn versions(yard: &Yard) -> [Yard; 4] {
    [yard.clone(), yard.gated(&[0]), yard.holding(), yard.completed()]
}

/// The answers to a yard as it stands and with holding gates, once they are those to G = 0 and to the completed yard.
fn compared(yard: &Yard) -> [Answers; 2] {
    let [plain, zero, held, lines] = versions(yard).map(|yard| answers(&yard));
    assert_eq!([plain.0, zero.0, held.0, lines.0], [false, false, true, false], "holding: {yard:?}");
    assert_eq!(zero.1, plain.1, "{yard:?}");
    assert_eq!(held.1, lines.1, "{yard:?}");
    // a held target is one of its position's targets already
    assert_eq!(held.1.reached, plain.1.reached, "{yard:?}");
    [plain.1, held.1]
}

/// The split gate by hand, at lag 1 and at the others, and with its commands changed.
#[test]
fn split_gate() {
    let gate = sheets::split_gate().at(1);
    assert_eq!((gate.sheet().len(), gate.gated(&[0]).sheet().len(), gate.holding().sheet().len()), (36, 42, 42));
    let read = proved::read(&gate.holding().sheet()).unwrap();
    assert_eq!((read.places, read.reached, read.holding), ([(25, 3), (28, 3), (31, 6), (37, 4)], 3, true));
    let read = proved::read(&gate.gated(&[0]).sheet()).unwrap();
    assert_eq!((read.places, read.reached, read.holding), ([(25, 3), (28, 3), (31, 6), (37, 4)], 3, false));
    assert_eq!(gate.completed().targets, [[0, 0, 2], [0, 1, 2], [1, 1, 2]]);
    let [plain, held] = compared(&gate);
    assert_eq!((plain.answer.losing, &plain.ranks[..3]), (Some(1), &[0, 0, 2][..]));
    assert_eq!((held.answer.losing, &held.masks[..3], &held.ranks[..3]), (None, &[0, 0, 2][..], &[0; 3][..]));
    assert_eq!(held.made[19..], [1, 1, 0, 0, 2]);
    // position 1 has no command 0 to do instead, so command 1 alone wins, at every lag
    for yard in (0..7).map(|delay| gate.at(delay)) {
        let [plain, held] = compared(&yard);
        assert_eq!((plain.answer.losing, held.answer.losing), ((yard.delay > 0).then_some(1), None));
    }
    let [plain, held] = compared(&gate.at(0));
    assert_eq!((&plain.masks[..3], &held.masks[..3]), (&[1, 2, 0][..], &[3, 2, 0][..]));
    // the other way round the start has no command 0, and the first word 0 is not good
    let other = Yard { targets: vec![[0, 1, 2], [1, 0, 2]], ..gate.clone() };
    let [plain, held] = compared(&other);
    assert_eq!((plain.answer.losing, held.answer.losing, &held.made[19..]), (Some(1), None, &[0, 1, 0, 0, 2][..]));
    // without a command 0 anywhere nothing is completed
    let ones = Yard { targets: vec![[0, 1, 2], [1, 1, 2]], ..gate };
    assert_eq!(ones.completed().targets, ones.targets);
    let [plain, held] = compared(&ones);
    assert_eq!(plain, held);
    assert_eq!((held.answer.losing, &held.masks[..3]), (None, &[0, 0, 2][..]));
}

/// Both halls lose where the needed command comes too late; a gate that does 0 for 1 takes either. The guess yard misses nothing.
#[test]
fn other_known_yards() {
    for (yard, losing, held_losing) in [
        (sheets::hall().at(2), None, None),
        (sheets::hall().at(3), Some(3), None),
        (sheets::hall().at(6), Some(3), None),
        (sheets::long_hall().at(4), None, None),
        (sheets::long_hall().at(5), Some(5), None),
        (sheets::guess().at(0), None, None),
        (sheets::guess().at(2), Some(1), Some(1)),
        (sheets::looped().at(6), None, None),
    ] {
        let answers = compared(&yard).map(|answers| answers.answer.losing);
        assert_eq!(answers, [losing, held_losing], "{yard:?}");
    }
}

/// What stands in the rows of a yard that a wrong completion would get wrong.
fn rows(yard: &Yard) -> Vec<&'static str> {
    let own = (0..=255).zip(&yard.kinds).filter(|(_, kind)| **kind < 2).map(|(p, _)| p);
    let commands = |p: u8| yard.targets.iter().filter(move |line| line[0] == p);
    let partial: Vec<u8> = own.filter(|&p| commands(p).count() < yard.actions as usize).collect();
    let has_0 = |p: u8| commands(p).any(|line| line[1] == 0);
    let target_0 = |p: u8| commands(p).find(|line| line[1] == 0).map(|line| line[2]);
    let has_other = |p: u8| has_0(p) && commands(p).any(|line| Some(line[2]) != target_0(p));
    let safe = |p: u8| yard.kinds[p as usize] % 2 == 0;
    let met = [
        ("nothing is missing", partial.is_empty()),
        ("a position has no command 0", partial.iter().any(|&p| !has_0(p))),
        ("a position misses all but command 0", partial.iter().any(|&p| has_0(p) && commands(p).count() == 1)),
        ("a position misses command 0 and another", partial.iter().any(|&p| !has_0(p) && commands(p).count() + 1 < yard.actions as usize)),
        ("a partial row with two targets", partial.iter().any(|&p| has_other(p))),
        ("an unsafe position is completed", partial.iter().any(|&p| has_0(p) && !safe(p))),
        ("an unsafe target is held", partial.iter().any(|&p| target_0(p).is_some_and(|q| !safe(q)))),
        ("the last position is completed", partial.last().is_some_and(|&p| p as usize + 1 == yard.kinds.len() && has_0(p))),
    ];
    met.into_iter().filter(|(_, met)| *met).map(|(kind, _)| kind).collect()
}

const ROWS: [&str; 8] = [
    "nothing is missing",
    "a position has no command 0",
    "a position misses all but command 0",
    "a position misses command 0 and another",
    "a partial row with two targets",
    "an unsafe position is completed",
    "an unsafe target is held",
    "the last position is completed",
];

/// The naive game of a holding yard has each target that the gates do: the line's or, where there is none, that of command 0.
fn assert_game(yard: &Yard) {
    let [held, lines] = [yard.holding(), yard.completed()].map(|yard| {
        let sheet = yard.sheet();
        Game::of(&sheet, &naive::read(&sheet).unwrap())
    });
    for (p, c) in (0..yard.kinds.len()).flat_map(|p| (0..8).map(move |c| (p as u8, c))) {
        let line = |c: u8| yard.targets.iter().find(|line| line[..2] == [p, c]).map(|line| line[2]);
        let target = line(c).or(line(0).filter(|_| c < yard.actions));
        assert_eq!([held.target(p, c), lines.target(p, c)], [target; 2], "{yard:?} {p} {c}");
    }
}

/// Thousands of yards with and without holding gates, at every lag.
#[test]
fn random_yards() {
    let mut random = Random::new(207);
    let mut counts = Counts::new();
    for round in 0..2500 {
        let mut whole = partial(&mut random);
        if round % 8 == 0 {
            let shape = Shape { own: 4, environment: 3, actions: 8, permitted: 30, moves: 2, unsafe_positions: 5 };
            whole = random_yard(&mut random, &shape);
        }
        assert_game(&whole);
        rows(&whole).into_iter().for_each(|kind| count(&mut counts, kind.into()));
        for yard in lags(&whole) {
            let held = yard.holding();
            compare(&held.sheet(), &mut Counts::new());
            compare(&yard.gated(&[0]).sheet(), &mut Counts::new());
            let [plain, answers] = compared(&yard);
            assert_eq!(naive_sheet(&held.sheet()), Some((answers.made, answers.answer)), "{yard:?}");
            let losing = (plain.answer.losing, answers.answer.losing);
            count(&mut counts, match losing {
                (None, None) if plain.masks == answers.masks => format!("lag {}: wins either way, by the same masks", yard.delay),
                (None, None) => format!("lag {}: wins either way, by other masks", yard.delay),
                (Some(_), None) => format!("lag {}: wins with holding gates alone", yard.delay),
                (Some(m), Some(n)) if m == n && plain.ranks == answers.ranks => "loses either way, by the same ranks".into(),
                (Some(m), Some(n)) if m == n => "loses either way, by other ranks".into(),
                (Some(m), Some(n)) => format!("loses {m}, with holding gates {n}"),
                (None, Some(_)) => panic!("holding gates lose what wins without: {yard:?}"),
            });
        }
    }
    let same = (0..7).map(|lag| format!("lag {lag}: wins either way, by the same masks"));
    let other = (0..7).map(|lag| format!("lag {lag}: wins either way, by other masks"));
    let alone = (1..7).map(|lag| format!("lag {lag}: wins with holding gates alone"));
    let lost = ["loses either way, by the same ranks", "loses either way, by other ranks", "loses 1, with holding gates 3"];
    let wanted = ROWS.iter().chain(&lost).map(|kind| kind.to_string()).chain(same).chain(other).chain(alone);
    report("yards with holding gates", &counts, &wanted.collect::<Vec<_>>());
}

/// As many pairs as there may be, and as many positions, numbered either way.
#[test]
fn large_yards() {
    let mut random = Random::new(25);
    let mut counts = Counts::new();
    for (own, environment, actions, delay) in [(128, 128, 8, 4), (128, 128, 8, 5), (16, 16, 8, 6), (200, 56, 2, 6), (255, 1, 8, 1)] {
        for permitted in [30, 80] {
            let shape = Shape { own, environment, actions, permitted, moves: 3, unsafe_positions: 0 };
            let up = random_yard(&mut random, &shape).at(delay);
            // every position has command 0 alone, so that its gate permits everything
            let mut zeros = up.clone();
            zeros.targets.iter_mut().for_each(|line| line[1] = 0);
            zeros.targets.dedup_by_key(|line| line[0]);
            for yard in [up.turned(), up, zeros.turned(), zeros] {
                compare(&yard.holding().sheet(), &mut Counts::new());
                let [plain, held] = compared(&yard).map(|answers| if answers.answer.losing.is_none() { "wins" } else { "loses" });
                count(&mut counts, format!("{plain}, with holding gates {held}"));
            }
        }
    }
    report("large yards", &counts, &["loses, with holding gates wins", "wins, with holding gates wins"].map(String::from));
}

/// These parts with this first offset, the bodies back to back from there on: the contents are cut off there, or filled up.
fn from_offset(parts: &[(u8, &[u8])], first: usize, filler: u8) -> Vec<u8> {
    let mut sheet = house(parts);
    let bodies = sheet.split_off(5 * parts.len());
    for entry in sheet.chunks_mut(5) {
        let offset = u16::from_le_bytes([entry[1], entry[2]]) as usize + first - 5 * parts.len();
        entry[1..3].copy_from_slice(&(offset as u16).to_le_bytes());
    }
    sheet.resize(first, filler);
    [sheet, bodies].concat()
}

/// What reading answers, once the naive one has answered the same: does an accepted yard hold?
fn read(sheet: &[u8]) -> Result<bool, u8> {
    let answer = proved::read(sheet);
    assert_eq!(answer, naive::read(sheet), "{sheet:?}");
    answer.map(|read| read.holding)
}

/// "Contents are then 25 bytes and refusal 1 reads so: the first offset is 20 or 25 and says which kind it is."
#[test]
fn contents() {
    let mut counts = Counts::new();
    let mut tried = |sheet: &[u8], expected: Result<bool, u8>| {
        assert_eq!(read(sheet), expected, "{sheet:?}");
        count(&mut counts, expected.map_or_else(|n| format!("refused {n}"), |holding| format!("accepted, holding {holding}")));
    };
    let gate = sheets::split_gate().at(1);
    for yard in [gate.clone(), gate.gated(&[0]), gate.gated(&[1]), sheets::hall().at(2), sheets::hall().at(2).holding()] {
        let (sheet, bodies) = (yard.sheet(), yard.bodies());
        let (holding, entries, parts) = (yard.gates == Some(vec![1]), bodies.len(), &parts(&bodies)[..]);
        // any other first offset, the rest as it was, and with everything from there on
        for first in 0..=u16::MAX {
            let mut other = sheet.clone();
            other[1..3].copy_from_slice(&first.to_le_bytes());
            tried(&other, if usize::from(first) == 5 * entries { Ok(holding) } else { Err(1) });
        }
        for (first, filler) in (0..600).flat_map(|first| [0, b'G'].map(|filler| (first, filler))) {
            tried(&from_offset(parts, first, filler), if first == 5 * entries { Ok(holding) } else { Err(1) });
        }
        // cut off anywhere, in the contents too, and longer
        for length in 0..sheet.len() {
            tried(&sheet[..length], Err(1));
        }
        tried(&[&sheet[..], &[0]].concat(), Err(1));
        // any other letter in any place
        for (k, letter) in (0..entries).flat_map(|k| (0..=255).map(move |letter| (k, letter))) {
            let mut other = sheet.clone();
            other[5 * k] = letter;
            tried(&other, if letter == LETTERS[k] { Ok(holding) } else { Err(1) });
        }
        // the last entry one off
        for (at, by) in [(1, 1), (1, 255), (2, 1), (3, 1), (3, 255), (4, 1)] {
            let mut other = sheet.clone();
            other[5 * (entries - 1) + at] = other[5 * (entries - 1) + at].wrapping_add(by);
            tried(&other, Err(1));
        }
        // entries in another place, left out or one more
        let swapped = |k: usize, l: usize| {
            let mut other = parts.to_vec();
            other.swap(k, l);
            house(&other)
        };
        for (k, l) in (0..entries).flat_map(|k| (0..k).map(move |l| (k, l))) {
            tried(&swapped(k, l), Err(1));
        }
        for k in 0..entries {
            let left: Vec<_> = (0..entries).filter(|&l| l != k).map(|l| parts[l]).collect();
            tried(&house(&left), if k == 4 { Ok(false) } else { Err(1) });
        }
        for letter in LETTERS {
            let added = (letter, &[1][..]);
            tried(&house(&[parts, &[added]].concat()), if (entries, letter) == (4, b'G') { Ok(true) } else { Err(1) });
            tried(&house(&[&[added], parts].concat()), Err(1));
        }
    }
    // nothing but contents, whole and cut off: 2, as there is no position
    for entries in [4, 5] {
        let sheet = house(&LETTERS.map(|letter| (letter, &[][..]))[..entries]);
        for length in 0..30 {
            let mut other = sheet.clone();
            other.resize(length, 0);
            tried(&other, Err(if length == sheet.len() { 2 } else { 1 }));
        }
    }
    let wanted = ["refused 1", "refused 2", "accepted, holding false", "accepted, holding true"];
    report("contents", &counts, &wanted.map(String::from));
}

/// "without G the sheet means what it did": yards without G whose bytes could be taken for one. Where a G entry would stand their S body
/// begins, so that the letter is their start and the offset their number of commands and their lag.
#[test]
fn no_gates() {
    let mut random = Random::new(20);
    let mut counts = Counts::new();
    for round in 0..2000 {
        let actions = 1 + random.below(8) as u8;
        let shape = Shape { own: 64, environment: 64 + random.below(128), actions, permitted: 40, moves: 3, unsafe_positions: 50 };
        let whole = random_yard(&mut random, &shape).at((round % 5) as u8);
        if whole.kinds[usize::from(b'G')] > 1 {
            continue;
        }
        let yard = Yard { start: b'G', ..whole };
        let sheet = yard.sheet();
        assert_eq!(read(&sheet), Ok(false));
        let at = usize::from(actions) + 256 * usize::from(yard.delay);
        let words = if sheet.get(at) == Some(&1) { "a 1 where G would point" } else { "something else there" };
        if round % 40 < 5 || sheet.get(at) == Some(&1) {
            compare(&sheet, &mut Counts::new());
        }
        count(&mut counts, words.into());
    }
    report("sheets without G", &counts, &["a 1 where G would point", "something else there"].map(String::from));
}

/// Every operation that reads a yard sheet refuses it with the number, with a table and a notice that are right, and leaves what is lent.
fn assert_refused(sheet: &[u8], table: &[u8], number: u8) {
    compare(sheet, &mut Counts::new());
    assert_eq!(proved::read(sheet), Err(number), "{sheet:?}");
    assert_eq!((judged(sheet, table), posted(sheet, table, &[0])), (Err(number), Err(number)), "{sheet:?}");
}

/// Any byte, often a small one.
fn any_byte(random: &mut Random) -> u8 {
    if random.percent(50) { random.below(3) as u8 } else { random.next() as u8 }
}

/// "24 .. for a G body that isn't one byte of 0 or 1": none, any single byte and more bytes.
#[test]
fn gate_bodies() {
    let mut random = Random::new(24);
    let mut counts = Counts::new();
    let yards = [sheets::split_gate(), sheets::hall(), sheets::looped()].map(|yard| yard.at(1));
    let others: Vec<Yard> = (0..10).map(|_| winning(&mut random).0).collect();
    for yard in yards.into_iter().chain(others) {
        let table = ours(&yard.holding()).unwrap_or_else(|| everything(&yard)).sheet();
        let single = (0..=255).map(|byte| vec![byte]);
        let pairs = (0..3).flat_map(|one| (0..3).map(move |other| vec![one, other]));
        let any: Vec<Vec<u8>> = (0..200).map(|k| (0..k % 4).map(|_| any_byte(&mut random)).collect()).collect();
        let long = [255, 256, 257, 1_000].map(|length| vec![1; length]);
        for body in single.chain(pairs).chain(any).chain(long) {
            let sheet = yard.gated(&body).sheet();
            let answer = read(&sheet);
            assert_eq!(answer, match body[..] {
                [0] => Ok(false),
                [1] => Ok(true),
                _ => Err(24),
            });
            match answer {
                Err(number) => assert_refused(&sheet, &table, number),
                Ok(_) => compare(&sheet, &mut Counts::new()),
            }
            count(&mut counts, match answer {
                Ok(holding) => format!("accepted, holding {holding}"),
                Err(number) => format!("refused {number}, length {}", body.len().min(4)),
            });
        }
    }
    let refused = (0..5).map(|length| format!("refused 24, length {length}"));
    let accepted = [false, true].map(|holding| format!("accepted, holding {holding}"));
    report("G bodies", &counts, &refused.chain(accepted).collect::<Vec<_>>());
}

/// A fault of one body: its refusal, and the body with it.
type Fault = (u8, usize, Vec<u8>);

/// Single faults of a yard of 33 positions and eight commands, by all reasons of 2 to 7 and 24 that its bodies can have.
fn single_faults(yard: &Yard) -> Vec<Fault> {
    let [s, p, c, u, _] = yard.bodies().try_into().unwrap();
    let (own, other) = (yard.targets[9][0], yard.moves.last().unwrap()[0]);
    let edited = |body: &[u8], at: usize, byte: u8| {
        let mut body = body.to_vec();
        body[at] = byte;
        body
    };
    let longer = |body: &[u8], by: &[u8]| [body, by].concat();
    let without = |body: &[u8], width: usize, from: u8| body.chunks(width).filter(|line| line[0] != from).collect::<Vec<_>>().concat();
    let mut faults: Vec<Fault> = vec![
        (2, 1, Vec::new()),
        (2, 1, longer(&p, &[0; 224])),
        (2, 1, edited(&p, 32, 4)),
        (3, 0, longer(&s, &[0])),
        (3, 0, s[..2].to_vec()),
        (3, 0, edited(&s, 0, other)),
        (3, 0, edited(&s, 0, 33)),
        (3, 0, edited(&s, 1, 0)),
        (3, 0, edited(&s, 1, 9)),
        (3, 0, edited(&s, 2, 7)),
        (4, 2, longer(&c, &[0])),
        (4, 2, longer(&c, &c[..3])),
        (4, 2, edited(&c, 0, other)),
        (4, 2, edited(&c, 1, 8)),
        (4, 2, edited(&c, 2, own)),
        (5, 3, longer(&u, &[0])),
        (5, 3, longer(&u, &u[..2])),
        (5, 3, u.repeat(4096)[..2 * 4097].to_vec()),
        (5, 3, edited(&u, 0, own)),
        (5, 3, edited(&u, 1, other)),
        (6, 2, without(&c, 3, own)),
        (6, 3, without(&u, 2, other)),
        (7, 0, edited(&s, 2, 6)),
    ];
    faults.extend([&[][..], &[2], &[255], &[0, 0], &[0, 1], &[1, 0], &[1, 1], &[1, 1, 1]].map(|g| (24, 4, g.to_vec())));
    faults
}

/// The order of all refusals that a yard sheet can meet.
const ORDER: [u8; 8] = [1, 2, 3, 4, 5, 24, 6, 7];

/// Each two faults at once that are of two bodies, for every reason: the first in the order written is given.
#[test]
fn two_faults() {
    let mut counts = Counts::new();
    let shape = Shape { own: 17, environment: 16, actions: 8, permitted: 60, moves: 3, unsafe_positions: 0 };
    let place = |number: u8| ORDER.iter().position(|&n| n == number).unwrap();
    for gate in [0, 1] {
        let yard = random_yard(&mut Random::new(7), &shape).at(4).gated(&[gate]);
        let table = everything(&yard).sheet();
        assert_eq!(read(&yard.sheet()), Ok(gate == 1));
        let faults = single_faults(&yard);
        for (one, other) in faults.iter().flat_map(|one| faults.iter().map(move |other| (one, other))) {
            // one fault alone, or two
            if one != other && one.1 == other.1 {
                continue;
            }
            let mut with = yard.bodies();
            with[one.1] = one.2.clone();
            with[other.1] = other.2.clone();
            let mut sheet = house(&parts(&with));
            let numbers = [one.0, other.0].map(place);
            let first = ORDER[*numbers.iter().min().unwrap()];
            assert_refused(&sheet, &table, first);
            sheet.push(0);
            assert_refused(&sheet, &table, 1);
            count(&mut counts, format!("{} and {}: {first}", one.0.min(other.0), one.0.max(other.0)));
        }
    }
    // over 4,096 moves in rising lines, which takes more positions; most of the yard's have no move
    let moves = (128..=255).flat_map(|p| (0..128).map(move |t| [p, t]));
    let targets = (0..128).map(|p| [p, 0, 128]).collect();
    let kinds = [[0; 128], [2; 128]].concat();
    let yard = Yard { start: 0, actions: 2, delay: 0, kinds, targets, moves: moves.collect(), gates: None };
    let table = everything(&yard).sheet();
    for (lines, gate, first) in [(4097, 2, 5), (4096, 2, 24), (4096, 1, 6)] {
        let yard = Yard { moves: yard.moves[..lines].to_vec(), ..yard.gated(&[gate]) };
        assert_refused(&yard.sheet(), &table, first);
    }
    let with_24 = [2, 3, 4, 5].map(|number| format!("{number} and 24: {number}"));
    let before = [6, 7].map(|number| format!("{number} and 24: 24"));
    report("two faults", &counts, &[&with_24[..], &before, &["24 and 24: 24".into()]].concat());
}

/// Up to three of these faults, in their order.
fn fault_sets(order: &[u8]) -> impl Iterator<Item = Vec<u8>> + '_ {
    let sets = (0..1u32 << order.len()).filter(|set| set.count_ones() <= 3);
    sets.map(|set| (0..order.len()).filter(|k| set >> k & 1 == 1).map(|k| order[k]).collect())
}

/// 24 stands after 5 and before 6 in every operation, and so before what follows those: 8 and 9, 10 to 12, 21 and 23. Up to three faults
/// at once; under 12, which posting does not give, W is all 0.
#[test]
fn order_of_refusals() {
    let mut counts = Counts::new();
    let shape = Shape { own: 17, environment: 16, actions: 8, permitted: 100, moves: 3, unsafe_positions: 0 };
    let plain = random_yard(&mut Random::new(7), &shape).at(4);
    let table = ours(&plain).unwrap();
    let other_start = plain.targets.iter().map(|line| line[0]).find(|&p| p != plain.start).unwrap();
    let mut tried = |name: &str, number: Option<&u8>| {
        count(&mut counts, format!("{name}: {}", number.map_or("accepted".into(), |number| format!("refused {number}"))));
    };
    for yard in [plain.gated(&[0]), plain.holding()] {
        for faults in fault_sets(&[&ORDER[..], &[8, 9]].concat()) {
            let sheet = faulty_sheet(&yard, &faults);
            let short = |number: u8| usize::from(faults.contains(&number));
            let (n, room) = (yard.pairs() - short(8), yard.owed_length() - short(9));
            let (mut masks, mut ranks) = (vec![7; n], vec![9; n]);
            let making = proved::make(&sheet, &mut masks, &mut ranks, room).map(|(made, _)| made.len());
            assert_eq!(making.as_ref().err(), faults.first(), "making {faults:?}");
            let (mut masks, mut ranks) = (vec![7; n], vec![9; n]);
            let solving = proved::solve(&sheet, &mut masks, &mut ranks);
            assert_eq!(solving.as_ref().err(), faults.iter().find(|&&number| number != 9), "solving {faults:?}");
            assert!(solving.is_ok() || (masks, ranks) == (vec![7; n], vec![9; n]), "a refused solving altered the buffers");
            assert_eq!(proved::read(&sheet).err(), faults.iter().copied().find(|number| ORDER.contains(number)), "reading {faults:?}");
            tried("making", faults.first());
        }
        for faults in fault_sets(&[&ORDER[..], &[10, 11, 12, 21, 23, 9]].concat()) {
            let has = |fault: u8| faults.contains(&fault);
            let (sheet, table) = (faulty_sheet(&yard, &faults), faulty_table(&table, other_start, &faults));
            let judging = proved::judge(&sheet, &table);
            let expected = faults.iter().find(|number| ![23, 9].contains(*number));
            assert_eq!(judging.err().as_ref(), expected, "judging {faults:?}");
            assert!(judging.is_err() || judging == Ok(Judgement::Sound));
            tried("judging", expected);
            let notice = if has(23) { vec![3, 33] } else { vec![3, 32] };
            let room = table.len() - usize::from(has(9)) - usize::from(has(10));
            let posting = proved::post(&sheet, &table, &notice, room);
            let expected = faults.iter().find(|&&number| number != 12);
            assert_eq!(posting.as_ref().err(), expected, "posting {faults:?}");
            tried("posting", expected);
        }
    }
    let of = |name: &str, rest: &[u8]| [&ORDER[..], rest].concat().iter().map(|n| format!("{name}: refused {n}")).collect::<Vec<_>>();
    let refused = [of("making", &[8, 9]), of("judging", &[10, 11, 12, 21]), of("posting", &[10, 11, 21, 23, 9])].concat();
    let accepted = ["making", "judging", "posting"].map(|name| format!("{name}: accepted"));
    report("order of refusals", &counts, &[&refused[..], &accepted].concat());
}

/// Small sheets with G and each of their bits turned over, then random ones with damage of any kind.
#[test]
fn damaged_sheets() {
    let mut random = Random::new(2070);
    let mut counts = Counts::new();
    let known = [sheets::guess(), sheets::cut_guess(), sheets::split_gate(), sheets::looped(), sheets::hall()];
    let known = known.into_iter().flat_map(|yard| (0..3).map(move |delay| yard.at(delay)));
    for yard in known.flat_map(|yard| [yard.gated(&[0]), yard.holding()]) {
        let sheet = yard.sheet();
        for bit in 0..8 * sheet.len() {
            compare(&flipped(&sheet, bit), &mut counts);
        }
    }
    for _ in 0..12000 {
        let body = *random.pick(&[&[1][..], &[1], &[0], &[], &[1, 1]]);
        let yard = partial(&mut random).gated(body).at(random.below(4) as u8);
        let mut sheet = yard.sheet();
        for _ in 0..random.below(3) {
            if !sheet.is_empty() {
                damage(&mut random, &mut sheet);
            }
        }
        compare(&sheet, &mut counts);
        if let Ok(read) = naive::read(&sheet) {
            count(&mut counts, format!("accepted, {} entries, holding {}", read.places[0].0 / 5, read.holding));
        }
    }
    let refused = [1, 2, 3, 4, 5, 24, 6].map(|number| format!("refused {number}"));
    let accepted = ["accepted, 5 entries, holding false", "accepted, 5 entries, holding true"];
    report("damaged sheets", &counts, &[&refused[..], &accepted.map(String::from)].concat());
}

fn sound(answer: &Result<Offences, u8>) -> bool {
    answer.as_ref().unwrap().judgement() == Judgement::Sound
}

/// Tables for a yard, as it stands and with holding gates: ours and what was made from them, and others.
fn tables(random: &mut Random, yard: &Yard) -> Vec<(String, Table)> {
    let mut tables = vec![("wholly random".into(), random_table(random, yard)), ("everything".into(), everything(yard))];
    for (whose, yard) in [("plain", yard.clone()), ("holding", yard.holding())] {
        if let Some(ours) = ours(&yard) {
            tables.extend(made_from(random, &yard, &ours).into_iter().map(|(name, table)| (format!("{whose}, {name}"), table)));
        }
    }
    tables
}

/// Judging for a holding yard is judging for the completed one. What has a yes for the yard as it stands keeps it.
#[test]
fn judging() {
    let mut random = Random::new(202);
    let mut counts = Counts::new();
    for _ in 0..400 {
        let whole = partial(&mut random);
        for yard in lags(&whole) {
            let sheets = versions(&yard).map(|yard| yard.sheet());
            for (name, table) in tables(&mut random, &yard) {
                let table = table.sheet();
                let [plain, zero, held, lines] = sheets.each_ref().map(|sheet| judged(sheet, &table));
                assert_eq!((&zero, &held), (&plain, &lines), "{yard:?} {table:?}");
                if plain.is_err() {
                    // a part without a flagged word
                    assert_eq!((plain, held), (Err(12), Err(12)));
                    continue;
                }
                assert!(sound(&held) || !sound(&plain), "{yard:?} {table:?}");
                assert!(sound(&held) || name != "holding, ours", "{yard:?} {table:?}");
                let words = match (sound(&plain), sound(&held)) {
                    (true, _) => "yes either way",
                    (false, true) => "yes with holding gates alone",
                    (false, false) if plain != held => "no either way, but more offends without",
                    (false, false) => "no either way",
                };
                count(&mut counts, format!("lag {}: {words}", yard.delay));
                count(&mut counts, format!("{name}: {words}"));
            }
        }
    }
    let words = ["yes either way", "yes with holding gates alone", "no either way, but more offends without", "no either way"];
    let by_lag = (0..7).flat_map(|lag| words.map(|words| format!("lag {lag}: {words}")));
    let by_table = ["ours", "thinned", "a sound part"].iter().flat_map(|name| {
        [format!("plain, {name}: {}", words[0]), format!("holding, {name}: {}", words[0]), format!("holding, {name}: {}", words[1])]
    });
    report("judging for holding yards", &counts, &by_lag.chain(by_table).collect::<Vec<_>>());
}

/// Posting on a holding yard's table is posting with the completed yard. What remains for the yard as it stands lies inside.
#[test]
fn posting() {
    let mut random = Random::new(205);
    let mut counts = Counts::new();
    for _ in 0..250 {
        let whole = partial(&mut random);
        for yard in lags(&whole) {
            let sheets = versions(&yard).map(|yard| yard.sheet());
            for (name, table) in tables(&mut random, &yard) {
                let (table, notice) = (table.sheet(), any_notice(&mut random, &yard));
                let [plain, zero, held, lines] = sheets.each_ref().map(|sheet| posted(sheet, &table, &notice).unwrap());
                assert_eq!((&zero, &held), (&plain, &lines), "{yard:?} {table:?} {notice:?}");
                let inside = plain.sheet[19..].iter().zip(&held.sheet[19..]).all(|(these, those)| these & !those == 0);
                assert!(inside, "{yard:?} {table:?} {notice:?}");
                if name == "holding, ours" && held.remains {
                    let closed = yard.holding().closed(&notice);
                    assert_eq!(proved::make_of(&closed, closed.owed_length()).unwrap().0, held.sheet, "{closed:?}");
                }
                let words = match (plain.remains, held.remains) {
                    (false, true) => "a word remains with holding gates alone",
                    _ if plain != held => "more remains with holding gates",
                    _ => "the same remains",
                };
                count(&mut counts, format!("lag {}: {words}", yard.delay));
                count(&mut counts, format!("{name}: {words}"));
            }
        }
    }
    let words = ["a word remains with holding gates alone", "more remains with holding gates", "the same remains"];
    let by_lag = (0..7).flat_map(|lag| words.map(|words| format!("lag {lag}: {words}")));
    let by_table = ["holding, ours", "wholly random", "everything"].iter().flat_map(|name| words.map(|words| format!("{name}: {words}")));
    report("posting for holding yards", &counts, &by_lag.chain(by_table).collect::<Vec<_>>());
}

/// The table that allows command 0 only at pairs that allow nothing else: what is kept stays so, and the table sound.
fn seldom_0(table: &Table) -> Table {
    let masks = table.masks.iter().map(|&mask| if mask > 1 { mask & !1 } else { mask }).collect();
    Table { masks, ..table.clone() }
}

/// A cabin on a holding yard, by our table, by one that avoids command 0 and by what a notice left of that: whatever becomes of its
/// reports, the play is the exact one of the completed yard, and safe. In some turns the gate does command 0 instead of the one given.
#[test]
fn at_work() {
    let mut random = Random::new(3);
    let mut counts = Counts::new();
    for round in 0..2400 {
        let (mut yard, mut table) = winning(&mut random);
        let whose = ["ours", "seldom 0", "after a notice"][round % 3];
        if round % 3 > 0 {
            table = seldom_0(&table);
        }
        if round % 3 == 2 {
            let notice = any_notice(&mut random, &yard);
            let left = posted(&yard.sheet(), &table.sheet(), &notice).unwrap();
            if !left.remains {
                continue;
            }
            (yard, table) = (yard.closed(&notice), cabin::read(&left.sheet).unwrap());
        }
        let completed = yard.completed();
        for yard in [&yard, &completed] {
            assert!(sound(&judged(&yard.sheet(), &table.sheet())), "{yard:?}");
        }
        let game = Game::of(&completed.sheet(), &naive::read(&completed.sheet()).unwrap());
        let (play, given) = exact_play(&game, &table, random.next(), 60);
        let line = |i: usize| yard.targets.iter().any(|line| line[..2] == [play[2 * i], given[i]]);
        let held = (0..60).filter(|&i| !line(i)).count();
        working::work(&mut random, &yard, &table.sheet(), 30, &mut counts);
        for _ in 0..3 {
            any_choice(&mut random, &yard, &table);
        }
        count(&mut counts, format!("{whose}: {}", if held > 0 { "the gate holds" } else { "every command has its line" }));
        count(&mut counts, format!("lag {}: {}", yard.delay, if held > 0 { "the gate holds" } else { "every command has its line" }));
    }
    let kinds = ["the gate holds", "every command has its line"];
    let by_lag = (0..7).flat_map(|lag| kinds.map(|kind| format!("lag {lag}: {kind}")));
    let by_table = ["ours", "seldom 0", "after a notice"].iter().flat_map(|whose| kinds.map(|kind| format!("{whose}: {kind}")));
    let wanted = working::wanted_with_packets().into_iter().chain(by_lag).chain(by_table);
    report("cabins on holding yards", &counts, &wanted.collect::<Vec<_>>());
}
