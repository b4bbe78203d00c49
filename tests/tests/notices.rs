//! Several notices (W-206): posted one after another in every order, grouped, repeated and rearranged, they leave the same sheet and the
//! same answer about first words as one notice of all their positions, on our tables, on others and on damaged ones that can still be
//! read, also once no first word remains; refused ones are refused alike; and an empty notice leaves our own sheets unaltered.
use loquatquoits_tests::cabin::{self, Table};
use loquatquoits_tests::counts::{count, report, Counts};
use loquatquoits_tests::judge::{self, Judgement};
use loquatquoits_tests::naive::{self, Game};
use loquatquoits_tests::notices::{any_notice, made_from, notice_of, NOTICES};
use loquatquoits_tests::posting::{self, Posted};
use loquatquoits_tests::proved;
use loquatquoits_tests::random::Random;
use loquatquoits_tests::sheets::{damage, random_yard, Shape, Yard};
use loquatquoits_tests::tables::{everything, ours, random_table, table_of, winning, without_masks};

const LAGS: std::ops::Range<u8> = 0..7;

/// A posting into an output of so many bytes, whatever stands in it. Nothing that is lent for reading is altered.
fn post_into(random: &mut Random, sheet: &[u8], table: &[u8], notice: &[u8], room: usize) -> Result<Posted, u8> {
    let pattern: Vec<u8> = (0..room + 8).map(|_| random.next() as u8).collect();
    let lent = [sheet, table, notice].map(<[u8]>::to_vec);
    let answer = proved::post_over(&lent[0], &lent[1], &lent[2], &pattern, room);
    assert_eq!(lent, [sheet, table, notice], "posting altered what was lent for reading");
    answer
}

/// The same where the output is long enough.
fn post(random: &mut Random, sheet: &[u8], table: &[u8], notice: &[u8]) -> Posted {
    let room = table.len() + random.below(9);
    post_into(random, sheet, table, notice, room).unwrap()
}

/// Notices posted one after another, each on the sheet that the one before wrote.
fn in_turn(random: &mut Random, sheet: &[u8], table: &[u8], notices: &[&[u8]]) -> Posted {
    let first = post(random, sheet, table, notices[0]);
    notices[1..].iter().fold(first, |last, notice| post(random, sheet, &last.sheet, notice))
}

/// The positions of a notice in another order, some of them again.
fn rearranged(random: &mut Random, notice: &[u8]) -> Vec<u8> {
    let again = notice.iter().copied().filter(|_| random.percent(40)).collect();
    let mut other = [notice.to_vec(), again].concat();
    random.shuffle(&mut other);
    other
}

/// A table of this sheet's form with some bytes changed that posting still takes for the yard.
fn damaged(random: &mut Random, yard: &Yard, table: &[u8]) -> Vec<u8> {
    loop {
        let mut other = table.to_vec();
        for _ in 0..1 + random.below(3) {
            if !other.is_empty() {
                damage(random, &mut other);
            }
        }
        if other != table && posting::post(&yard.sheet(), &other, &[], other.len()).is_ok() {
            return other;
        }
    }
}

/// A yard in which little is lost at first, so that several notices can each take something away.
fn roomy(random: &mut Random) -> Shape {
    Shape { own: 4 + random.below(3), environment: 4 + random.below(5), actions: 2, permitted: 100, moves: 2, unsafe_positions: 0 }
}

/// A yard at this lag, and a table of each kind for it: ours, one made from ours, some that are not, one with W all 0, and damaged ones.
fn yard_with_tables(random: &mut Random, delay: u8) -> (Yard, Vec<(&'static str, Vec<u8>)>) {
    let small = Shape { unsafe_positions: *random.pick(&[0, 0, 10, 20]), ..Shape::small(random) };
    let shape = if random.percent(50) { roomy(random) } else { small };
    let yard = random_yard(random, &shape).at(delay);
    let mut tables = Vec::new();
    if let Some(own) = ours(&yard) {
        let from_ours = made_from(random, &yard, &own);
        let (name, table) = random.pick(&from_ours[1..]);
        tables.extend([("ours", own.sheet()), (*name, table.sheet()), ("ours, damaged", damaged(random, &yard, &own.sheet()))]);
    }
    let (foreign, unflagged) = (random_table(random, &yard), random_table(random, &yard));
    let unflagged = Table { words: vec![0; unflagged.words.len()], ..unflagged };
    tables.push(("wholly random, damaged", damaged(random, &yard, &foreign.sheet())));
    let others = [("wholly random", foreign), ("no word flagged", unflagged), ("everything", everything(&yard))];
    tables.extend(others.map(|(name, table)| (name, table.sheet())));
    (yard, tables)
}

/// Mostly a position or none, so that something is left for another notice.
fn light_notice(random: &mut Random, yard: &Yard) -> Vec<u8> {
    let kind = *random.pick(&["an own position", "a yard position", "a yard position", "the start", "several positions", "no position"]);
    notice_of(random, yard, kind)
}

const TABLES: [&str; 6] = ["ours", "ours, damaged", "wholly random", "wholly random, damaged", "no word flagged", "everything"];

/// All orders of three.
const ORDERS: [[usize; 3]; 6] = [[0, 1, 2], [0, 2, 1], [1, 0, 2], [1, 2, 0], [2, 0, 1], [2, 1, 0]];

/// "Posting one notice and then another gives the same sheet as the other way round and as both at once": two notices and three, in all
/// orders and groupings.
#[test]
fn any_order() {
    let mut random = Random::new(206);
    let mut counts = Counts::new();
    for round in 0..2100 {
        let (yard, tables) = yard_with_tables(&mut random, (round % 7) as u8);
        let sheet = yard.sheet();
        for (name, table) in tables {
            let notices = [0; 3].map(|_| light_notice(&mut random, &yard));
            let all = posting::post(&sheet, &table, &notices.concat(), table.len()).unwrap();
            let first = post(&mut random, &sheet, &table, &notices[0]);
            let both = post(&mut random, &sheet, &table, &notices[..2].concat());
            for [x, y] in [[0, 1], [1, 0]].map(|order| order.map(|k| &notices[k][..])) {
                for series in [&[x, y][..], &[&[x, y].concat()]] {
                    assert_eq!(in_turn(&mut random, &sheet, &table, series), both, "{yard:?} {table:?} {series:?}");
                }
            }
            for [x, y, z] in ORDERS.map(|order| order.map(|k| &notices[k][..])) {
                for series in [&[x, y, z][..], &[&[x, y].concat(), z], &[x, &[y, z].concat()], &[&[x, y, z].concat()]] {
                    assert_eq!(in_turn(&mut random, &sheet, &table, series), all, "{yard:?} {table:?} {series:?}");
                }
            }
            let words = if all.remains { "a word remains" } else { "no word remains" };
            count(&mut counts, format!("lag {}: {words}", yard.delay));
            count(&mut counts, format!("{name}: {words}"));
            if !first.remains && both.sheet != first.sheet {
                count(&mut counts, format!("lag {}: more is taken after the words have run out", yard.delay));
                count(&mut counts, format!("{name}: more is taken after the words have run out"));
            }
            if first.remains && !both.remains {
                count(&mut counts, format!("{name}: the words run out with the second"));
            }
            let others = post(&mut random, &sheet, &table, &notices[1]);
            if both != first && both != others && first != others {
                count(&mut counts, format!("lag {}: each notice takes something else", yard.delay));
            }
        }
    }
    let answers = ["a word remains", "no word remains", "more is taken after the words have run out"];
    let by_lag = LAGS.flat_map(|lag| answers.map(|words| format!("lag {lag}: {words}")));
    let apart = LAGS.map(|lag| format!("lag {lag}: each notice takes something else"));
    let by_table = TABLES.iter().flat_map(|name| answers.map(|words| format!("{name}: {words}")));
    let by_table = by_table.filter(|words| words != "no word flagged: a word remains");
    let run_out = TABLES[..4].iter().map(|name| format!("{name}: the words run out with the second"));
    report("any order", &counts, &by_lag.chain(apart).chain(by_table).chain(run_out).collect::<Vec<_>>());
}

/// "posting the same notice twice is the same as once", and so is any part of it, in another order and with repeats; and an empty one.
#[test]
fn twice_is_once() {
    let mut random = Random::new(2);
    let mut counts = Counts::new();
    for round in 0..1400 {
        let (yard, tables) = yard_with_tables(&mut random, (round % 7) as u8);
        let sheet = yard.sheet();
        for (name, table) in tables {
            let notice = any_notice(&mut random, &yard);
            let once = post(&mut random, &sheet, &table, &notice);
            let part: Vec<u8> = notice.iter().copied().filter(|_| random.percent(50)).collect();
            for again in [notice.clone(), rearranged(&mut random, &notice), rearranged(&mut random, &part), Vec::new()] {
                assert_eq!(post(&mut random, &sheet, &once.sheet, &again), once, "{yard:?} {table:?} {notice:?} {again:?}");
            }
            let taken = if once.sheet == table { "nothing taken" } else { "something taken" };
            let words = if once.remains { "a word remains" } else { "no word remains" };
            count(&mut counts, format!("{name}: {taken}, {words}"));
        }
    }
    let wanted = TABLES.iter().map(|name| format!("{name}: something taken, no word remains"));
    let remaining = TABLES[..4].iter().map(|name| format!("{name}: something taken, a word remains"));
    report("twice is once", &counts, &wanted.chain(remaining).chain(["ours: nothing taken, a word remains".into()]).collect::<Vec<_>>());
}

/// A list with repeats or in another order is the same notice, and two notices are refused as one is, for damaged sheets, positions that
/// don't exist and short outputs too.
#[test]
fn refused_alike() {
    let mut random = Random::new(20623);
    let mut counts = Counts::new();
    for round in 0..4000 {
        let (yard, table) = winning(&mut random);
        let first = any_notice(&mut random, &yard);
        let kind = *random.pick(&NOTICES);
        let second = notice_of(&mut random, &yard, kind);
        let table = if random.percent(50) { table } else { random_table(&mut random, &yard) };
        let (mut sheet, mut table) = (yard.sheet(), table.sheet());
        let rooms = [0, table.len() - 1, table.len(), table.len() + 9];
        // the second on what the first left, or both at once
        let once = post(&mut random, &sheet, &table, &first);
        let joined = rearranged(&mut random, &[&first[..], &second].concat());
        for room in rooms {
            let answer = post_into(&mut random, &sheet, &once.sheet, &second, room);
            assert_eq!(answer.is_err(), room < table.len() || kind == "a missing position", "{yard:?} {table:?} {first:?} {second:?}");
            assert_eq!(post_into(&mut random, &sheet, &table, &joined, room), answer, "{yard:?} {table:?} {first:?} {second:?}");
            count(&mut counts, format!("after another: {}", answer.map_or_else(|n| format!("refused {n}"), |_| "accepted".into())));
        }
        // the same list otherwise, on sheets that may be damaged
        if round % 2 == 0 {
            let other = if random.percent(50) { &mut sheet } else { &mut table };
            damage(&mut random, other);
        } else if random.percent(20) {
            let kept = random.below(yard.targets.len());
            sheet = Yard { targets: yard.targets[..kept].to_vec(), ..yard.clone() }.sheet();
        }
        for room in rooms {
            let answer = post_into(&mut random, &sheet, &table, &second, room);
            let rearranged = rearranged(&mut random, &second);
            assert_eq!(post_into(&mut random, &sheet, &table, &rearranged, room), answer, "{sheet:?} {table:?} {second:?}");
            count(&mut counts, format!("rearranged: {}", answer.map_or_else(|n| format!("refused {n}"), |_| "accepted".into())));
        }
    }
    let after = ["accepted", "refused 23", "refused 9"].map(|answer| format!("after another: {answer}"));
    let numbers = [1, 2, 3, 4, 5, 6, 10, 11, 21, 23, 9].map(|number| format!("rearranged: refused {number}"));
    report("refused alike", &counts, &[&after[..], &numbers, &["rearranged: accepted".into()]].concat());
}

/// "An empty notice leaves our own tables unaltered", made ones and what notices left of them; of any table it takes something away exactly
/// if the judging rule does not allow that table, whether or not a word is flagged.
#[test]
fn empty_notice() {
    let mut random = Random::new(0);
    let mut counts = Counts::new();
    for round in 0..2100 {
        let (yard, tables) = yard_with_tables(&mut random, (round % 7) as u8);
        let sheet = yard.sheet();
        let game = Game::of(&sheet, &naive::read(&sheet).unwrap());
        for (name, table) in tables {
            let said = cabin::read_any(&table).unwrap();
            let sound = judge::offences(&game, &said).judgement() == Judgement::Sound;
            let after = post(&mut random, &sheet, &table, &[]);
            assert_eq!(after.sheet == table, sound, "{yard:?} {table:?}");
            assert!(sound || name != "ours");
            let words = if said.words.contains(&1) { "a word flagged" } else { "no word flagged" };
            let taken = if sound { "unaltered" } else { "shrunk" };
            count(&mut counts, format!("{name}: {taken}"));
            count(&mut counts, format!("lag {}, {words}: {taken}", yard.delay));
        }
    }
    let by_lag = LAGS.flat_map(|lag| ["unaltered", "shrunk"].map(|taken| format!("lag {lag}, a word flagged: {taken}")));
    let unflagged = LAGS.map(|lag| format!("lag {lag}, no word flagged: shrunk"));
    let sound = ["ours", "thinned", "a sound part", "ours, damaged", "no word flagged"].map(|name| format!("{name}: unaltered"));
    let shrunk = TABLES[1..].iter().map(|name| format!("{name}: shrunk"));
    report("empty notice", &counts, &by_lag.chain(unflagged).chain(sound).chain(shrunk).collect::<Vec<_>>());
}

/// As many pairs as there may be: a notice for each of some positions, first to last, last to first, and all at once.
#[test]
fn largest_tables() {
    let mut random = Random::new(61_638);
    let mut counts = Counts::new();
    for (own, actions, delay) in [(16, 8, 6), (128, 8, 4), (128, 8, 5), (128, 4, 6)] {
        let shape = Shape { own, environment: own, actions, permitted: 100, moves: 2, unsafe_positions: 0 };
        let yard = random_yard(&mut random, &shape).at(delay);
        assert_eq!(yard.pairs(), 16_384);
        let sheet = yard.sheet();
        let closed: Vec<u8> = (0..5).map(|_| random.below(2 * own) as u8).collect();
        for (name, table) in [("ours", ours(&yard).unwrap()), ("everything", everything(&yard))] {
            let table = table.sheet();
            let mut singly: Vec<&[u8]> = closed.chunks(1).collect();
            let forwards = in_turn(&mut random, &sheet, &table, &singly);
            singly.reverse();
            assert_eq!(in_turn(&mut random, &sheet, &table, &singly), forwards);
            assert_eq!(post(&mut random, &sheet, &table, &closed), forwards);
            count(&mut counts, format!("{name}: {}", if forwards.remains { "a word remains" } else { "no word remains" }));
        }
    }
    report("largest tables", &counts, &["ours: a word remains", "everything: a word remains"].map(String::from));
}

/// The fork: either command leads to position 1, by 2 or by 3, and never back to the start. Small cases by hand, two notices in either
/// order.
#[test]
fn by_hand() {
    let mut random = Random::new(1);
    let lines = [[0, 0, 2], [0, 1, 3], [1, 0, 2], [1, 1, 3]].to_vec();
    let (kinds, moves) = (vec![0, 0, 2, 2], vec![[2, 1], [3, 1]]);
    let fork = Yard { start: 0, actions: 2, delay: 0, kinds, targets: lines, moves, gates: None };
    let mut check = |lag: u8, words: [u8; 2], masks: &[u8], one: &[u8], other: &[u8], left: [u8; 2], masks_left: &[u8]| {
        let yard = fork.at(lag);
        let filled = |masks: &[u8]| [masks, &vec![0; yard.pairs() - masks.len()]].concat();
        let of = |words: [u8; 2], masks: &[u8]| table_of(&yard, words.to_vec(), filled(masks)).sheet();
        let expected = Posted { sheet: of(left, masks_left), remains: left.contains(&1) };
        for series in [&[one, other][..], &[other, one], &[&[one, other].concat()], &[one, other, one, other]] {
            assert_eq!(in_turn(&mut random, &yard.sheet(), &of(words, masks), series), expected, "lag {lag} {series:?}");
        }
    };
    // the start at odd lag leaves no word, and 3 then still takes its masks
    check(1, [1, 1], &[0, 0, 3, 3], &[3], &[0], [0, 0], &[0, 0, 1]);
    check(2, [1, 1], &[3, 3, 3, 3], &[3], &[0], [0, 0], &[0, 0, 1]);
    // no word to begin with
    check(1, [0, 0], &[0, 0, 3, 3], &[3], &[2], [0, 0], &[]);
    // masks on the wrong side, which the empty notice takes away
    check(1, [1, 1], &[3, 3, 3, 3], &[], &[], [1, 1], &[0, 0, 3, 3]);
    check(1, [1, 1], &[3, 3, 3, 3], &[3], &[], [1, 0], &[0, 0, 1]);
    // a table without masks keeps no word
    let bare = without_masks([0, 2, 1, 3]);
    assert!(!post(&mut random, &fork.at(1).sheet(), &bare, &[]).remains);
}
