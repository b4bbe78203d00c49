//! Tables made elsewhere: the proved judge against the naive one over our tables and altered ones, every single bit, damaged sheets,
//! several faults at once, the largest tables and yards in which one line spoils; and what a yes means, at work in the cabin and by
//! any choice out of the table.
use loquatquoits_tests::both::judged;
use loquatquoits_tests::cabin::Table;
use loquatquoits_tests::counts::{count, report, Counts};
use loquatquoits_tests::hubs::{Flaw, Hub, LINES};
use loquatquoits_tests::judge::{Judgement, Offences};
use loquatquoits_tests::random::Random;
use loquatquoits_tests::sheets::{self, damage, random_yard, Shape, Yard};
use loquatquoits_tests::tables::{
    faulty_sheet, faulty_table, flipped, near_numbers, numbers, ours, pairs_at, pick, random_table, table_of, thinned, winning,
    with_commands_at, with_commands_taken, without_masks,
};
use loquatquoits_tests::working::{self, any_choice};

fn words_of(answer: &Result<Offences, u8>) -> String {
    match answer.as_ref().map(Offences::judgement) {
        Err(number) => format!("refused {number}"),
        Ok(Judgement::Sound) => "yes".into(),
        Ok(Judgement::Word(_)) => "bad word".into(),
        Ok(Judgement::Pair(_)) => "bad pair".into(),
    }
}

fn with_flag(random: &mut Random, table: &Table) -> Table {
    let mut more = table.clone();
    *pick(random, &mut more.words) = 1;
    more
}

/// Our table and others that were made from it.
fn altered(random: &mut Random, yard: &Yard, table: &Table) -> Vec<(&'static str, Table)> {
    let (wrong, lost) = if yard.delay % 2 == 0 { ([2, 3], [1, 1]) } else { ([0, 1], [3, 3]) };
    let all: Vec<usize> = (0..table.masks.len()).collect();
    let mut tables = vec![
        ("ours", table.clone()),
        ("thinned", thinned(random, table)),
        ("commands taken", with_commands_taken(random, table)),
        ("flag added", with_flag(random, table)),
    ];
    for (name, pairs) in [
        ("commands added", all),
        ("commands on the wrong side", pairs_at(yard, wrong)),
        ("commands at unsafe positions", pairs_at(yard, lost)),
    ] {
        if !pairs.is_empty() {
            tables.push((name, with_commands_at(random, table, &pairs)));
        }
    }
    tables
}

/// A yes: the yard wins, and ours flags and allows as much at least.
fn assert_inside(table: &Table, ours: Option<&Table>) {
    let ours = ours.expect("a yes where nothing wins");
    let inside = |these: &[u8], those: &[u8]| these.iter().zip(those).all(|(these, those)| these & !those == 0);
    assert!(inside(&table.words, &ours.words) && inside(&table.masks, &ours.masks), "{table:?} {ours:?}");
}

#[test]
fn random_tables() {
    let mut random = Random::new(202);
    let mut counts = Counts::new();
    for _ in 0..1000 {
        let shape = Shape { unsafe_positions: *random.pick(&[0, 10, 20]), ..Shape::small(&mut random) };
        let whole = random_yard(&mut random, &shape);
        for yard in (0..7).map(|delay| whole.at(delay)) {
            let ours = ours(&yard);
            let mut tables = ours.as_ref().map_or(Vec::new(), |ours| altered(&mut random, &yard, ours));
            tables.push(("wholly random", random_table(&mut random, &yard)));
            for (name, table) in tables {
                let answer = judged(&yard.sheet(), &table.sheet());
                let words = words_of(&answer);
                match answer.as_ref().map(Offences::judgement) {
                    Ok(Judgement::Sound) => assert_inside(&table, ours.as_ref()),
                    _ => assert!(!["ours", "thinned"].contains(&name), "{words}: {yard:?} {table:?}"),
                }
                if let Ok(Judgement::Pair(k)) = answer.as_ref().map(Offences::judgement) {
                    count(&mut counts, format!("bad pair by {:?}", answer.unwrap().pairs[&k]));
                }
                count(&mut counts, format!("lag {}: {words}", yard.delay));
                count(&mut counts, format!("{name}: {words}"));
            }
        }
    }
    let answers = ["yes", "bad word", "bad pair"];
    let by_lag = (0..7).flat_map(|lag| answers.map(|answer| format!("lag {lag}: {answer}")));
    let by_fault = ["{WrongSide}", "{Unsafe}", "{Spoilt}"].map(|faults| format!("bad pair by {faults}"));
    let by_table = ["commands taken: yes", "wholly random: yes", "flag added: yes"].map(String::from);
    report("random tables", &counts, &by_lag.chain(by_fault).chain(by_table).collect::<Vec<_>>());
}

/// Our tables with every single bit of the table's sheet or of the yard's turned over.
#[test]
fn every_bit() {
    let mut random = Random::new(21);
    let mut counts = Counts::new();
    let known = [sheets::guess(), sheets::cut_guess(), sheets::split_gate(), sheets::looped(), sheets::hall(), sheets::long_hall()];
    let known = known.into_iter().flat_map(|yard| (0..7).map(move |delay| yard.at(delay)));
    let known = known.filter_map(|yard| ours(&yard).map(|table| (yard, table)));
    let unknown = (0..30).map(|_| winning(&mut random)).filter(|(yard, _)| yard.pairs() <= 40);
    for (yard, table) in known.chain(unknown) {
        let (sheet, table) = (yard.sheet(), table.sheet());
        for bit in 0..8 * table.len() {
            count(&mut counts, format!("table's bit: {}", words_of(&judged(&sheet, &flipped(&table, bit)))));
        }
        for bit in 0..8 * sheet.len() {
            count(&mut counts, format!("yard's bit: {}", words_of(&judged(&flipped(&sheet, bit), &table))));
        }
    }
    let of_table = ["yes", "bad word", "bad pair", "refused 10", "refused 11", "refused 12", "refused 21"];
    let of_table = of_table.iter().map(|words| format!("table's bit: {words}"));
    let of_yard = ["yes", "bad word", "bad pair"].iter().map(|words| format!("yard's bit: {words}"));
    let of_yard = of_yard.chain([1, 2, 3, 4, 5, 6, 21].map(|number| format!("yard's bit: refused {number}")));
    report("every bit", &counts, &of_table.chain(of_yard).collect::<Vec<_>>());
}

#[test]
fn damaged_sheets() {
    let mut random = Random::new(1021);
    let mut counts = Counts::new();
    for _ in 0..10000 {
        let (mut yard, mut table) = winning(&mut random);
        if random.percent(10) {
            yard.targets.remove(random.below(yard.targets.len()));
        }
        if random.percent(10) {
            table.words.fill(0);
        }
        let (mut sheet, mut table) = (yard.sheet(), with_commands_taken(&mut random, &table).sheet());
        for _ in 0..random.below(4) {
            let damaged = if random.percent(40) { &mut sheet } else { &mut table };
            if !damaged.is_empty() {
                damage(&mut random, damaged);
            }
        }
        count(&mut counts, words_of(&judged(&sheet, &table)));
    }
    let refused = [1, 2, 3, 4, 5, 6, 10, 11, 12, 21].map(|number| format!("refused {number}"));
    report("damaged sheets", &counts, &[&refused[..], &["yes", "bad word", "bad pair"].map(String::from)].concat());
}

/// Any number of faults at once: the answer is the first in the order written, which is that of the numbers, and a yes where there is none.
#[test]
fn order_of_refusals() {
    let mut counts = Counts::new();
    let shape = Shape { own: 17, environment: 16, actions: 8, permitted: 100, moves: 3, unsafe_positions: 0 };
    let yard = random_yard(&mut Random::new(7), &shape).at(4);
    let table = ours(&yard).unwrap();
    let other_start = yard.targets.iter().map(|line| line[0]).find(|&p| p != yard.start).unwrap();
    let all = [1, 2, 3, 4, 5, 6, 7, 10, 11, 12, 21];
    for set in 0..1 << all.len() {
        let faults: Vec<u8> = (0..all.len()).filter(|k| set >> k & 1 == 1).map(|k| all[k]).collect();
        let (sheet, table) = (faulty_sheet(&yard, &faults), faulty_table(&table, other_start, &faults));
        let expected = faults.first().map_or("yes".into(), |number| format!("refused {number}"));
        let words = words_of(&judged(&sheet, &table));
        assert_eq!(words, expected, "{faults:?}");
        count(&mut counts, words);
    }
    report("order of refusals", &counts, &[&all.map(|n| format!("refused {n}"))[..], &["yes".into()]].concat());
}

/// 21 exactly where one of the four numbers is not the yard's: each exact and one off, alone and together.
#[test]
fn other_numbers() {
    let mut counts = Counts::new();
    let safe_chain = Yard { kinds: [0, 2].repeat(128), ..sheets::chain(128) };
    let hall = |start: u8, delay: u8| Yard { start, ..sheets::hall().at(delay) };
    for yard in [hall(1, 2), hall(2, 3), sheets::looped().at(6), safe_chain.at(1)] {
        let sheet = yard.sheet();
        for other in near_numbers(&yard) {
            let words = words_of(&judged(&sheet, &without_masks(other)));
            assert_eq!(words, if other == numbers(&yard) { "bad word" } else { "refused 21" });
            count(&mut counts, words);
        }
        let [start, _, _, highest] = numbers(&yard);
        assert_eq!(words_of(&judged(&sheet, &without_masks([start, 9, 2, highest]))), "refused 11");
    }
    // with one command the tables of all lags have the same lengths
    for (lag, other) in (0..7).flat_map(|lag| (0..7).map(move |other| (lag, other))) {
        let words = words_of(&judged(&sheets::looped().at(lag).sheet(), &ours(&sheets::looped().at(other)).unwrap().sheet()));
        assert_eq!(words, if lag == other { "yes" } else { "refused 21" });
    }
    report("other numbers", &counts, &["bad word", "refused 21"].map(String::from));
}

/// What offends is taken away, first things first, until the table gets a yes or no word is left.
fn mended(sheet: &[u8], mut table: Table) -> Option<Table> {
    loop {
        match judged(sheet, &table.sheet()).map(|offences| offences.judgement()) {
            Ok(Judgement::Sound) => return Some(table),
            Ok(Judgement::Word(v)) => table.words[v] = 0,
            Ok(Judgement::Pair(k)) => table.masks[k] &= table.masks[k] - 1,
            Err(number) => {
                assert_eq!(number, 12);
                return None;
            }
        }
    }
}

/// What a yes means: the cabin works by such a table as it does by ours, and so does any choice out of it. Of the cabin's hearings so many
/// in a hundred are packets.
fn at_work_with(packets: usize) -> Counts {
    let mut random = Random::new(3);
    let mut counts = Counts::new();
    for round in 0..2000 {
        let (yard, ours) = winning(&mut random);
        let other = match round % 2 {
            0 => Some(thinned(&mut random, &ours)),
            _ => mended(&yard.sheet(), with_commands_taken(&mut random, &ours)),
        };
        let Some(table) = other else {
            count(&mut counts, "mended until no word was left".into());
            continue;
        };
        assert_eq!(words_of(&judged(&yard.sheet(), &table.sheet())), "yes");
        assert_inside(&table, Some(&ours));
        working::work(&mut random, &yard, &table.sheet(), packets, &mut counts);
        for _ in 0..3 {
            any_choice(&mut random, &yard, &table);
        }
        let pairs = |table: &Table| table.masks.iter().filter(|&&mask| mask != 0).count();
        for (kind, met) in [
            ("a table with fewer commands than ours", table.masks != ours.masks),
            ("a table with fewer pairs than ours", pairs(&table) < pairs(&ours)),
            ("a table with fewer first words than ours", table.words != ours.words),
        ] {
            if met {
                count(&mut counts, kind.into());
            }
        }
    }
    counts
}

/// Tables that those at work should be.
fn wanted_tables() -> [String; 3] {
    ["commands", "pairs", "first words"].map(|less| format!("a table with fewer {less} than ours"))
}

#[test]
fn at_work() {
    report("tables of others at work", &at_work_with(0), &[&working::WANTED.map(String::from)[..], &wanted_tables()].concat());
}

#[test]
fn at_work_with_packets() {
    let wanted = [&working::wanted_with_packets()[..], &wanted_tables()].concat();
    report("tables of others at work, with packets", &at_work_with(50), &wanted);
}

/// As many pairs as there may be: our table, one without its last pair's mask, and one with a mask at the last pair of the wrong side.
#[test]
fn largest_tables() {
    let mut random = Random::new(16384);
    let mut counts = Counts::new();
    for (own, actions, delay) in [(16, 8, 6), (128, 8, 4), (128, 8, 5), (128, 4, 6)] {
        let shape = Shape { own, environment: own, actions, permitted: 100, moves: 3, unsafe_positions: 0 };
        let yard = random_yard(&mut random, &shape).at(delay);
        assert_eq!(yard.pairs(), 16_384);
        let table = ours(&yard).unwrap();
        let last = |has: bool| (0..16_384).rfind(|&k| (table.masks[k] != 0) == has).unwrap();
        let (mut without, mut with) = (table.clone(), table.clone());
        without.masks[last(true)] = 0;
        with.masks[last(false)] = 1 << (actions - 1);
        for (name, table) in [("ours", &table), ("without the last mask", &without)] {
            count(&mut counts, format!("{name}: {}", words_of(&judged(&yard.sheet(), &table.sheet()))));
        }
        assert_eq!(judged(&yard.sheet(), &with.sheet()).unwrap().judgement(), Judgement::Pair(last(false)));
    }
    report("largest tables", &counts, &["ours: yes", "without the last mask: bad pair"].map(String::from));
}

/// The sorting hall at lag 2, by hand: its masks are 1 1 2 2 3 0 0 3 and six 0.
#[test]
fn hall() {
    let yard = sheets::hall().at(2);
    let ours = ours(&yard).unwrap();
    let with = |words: [u8; 2], masks: [u8; 8]| {
        let table = table_of(&yard, words.to_vec(), [&masks[..], &[0; 6]].concat());
        judged(&yard.sheet(), &table.sheet()).unwrap().judgement()
    };
    assert_eq!((&ours.words[..], &ours.masks[..8]), (&[1, 1][..], &[1, 1, 2, 2, 3, 0, 0, 3][..]));
    assert_eq!(with([1, 1], [1, 1, 2, 2, 3, 0, 0, 3]), Judgement::Sound);
    assert_eq!(with([1, 1], [1, 1, 2, 2, 2, 0, 0, 1]), Judgement::Sound);
    assert_eq!(with([1, 1], [1, 1, 2, 2, 3, 0, 1, 3]), Judgement::Pair(6));
    assert_eq!(with([1, 1], [1, 3, 2, 2, 3, 0, 0, 3]), Judgement::Pair(1));
    // without pair 0 the commands that lead to it are spoilt, and the first word 0 is bad
    assert_eq!(with([1, 1], [0, 1, 2, 2, 2, 0, 0, 2]), Judgement::Word(0));
    assert_eq!(with([0, 1], [0, 1, 2, 2, 3, 0, 0, 2]), Judgement::Pair(4));
    assert_eq!(with([0, 1], [0, 1, 2, 2, 2, 0, 0, 3]), Judgement::Pair(7));
    assert_eq!(with([0, 1], [0, 1, 2, 2, 2, 0, 0, 2]), Judgement::Sound);
}

/// Hubs without a flaw, all of whose pairs on the right side allow both commands, and our tables.
fn mended_hubs() -> impl Iterator<Item = (Hub, Yard, Table)> {
    Hub::all(2).map(|(hub, delay)| {
        let yard = hub.yard(None).at(delay);
        let table = ours(&yard).unwrap();
        (hub, yard, table)
    })
}

/// Our table of the mended yard for the one with a flaw. By hand: at odd lags the hub's pairs offend, which pass the door, and at even lags
/// the door's own; where the door is lost further on, those of the passage or of the end. Without the masks behind the line the pairs
/// before it offend, first the one with nothing but 0 pending.
#[test]
fn one_spoiling_line() {
    let mut counts = Counts::new();
    for (hub, mended, table) in mended_hubs() {
        let [door, start, at_hub, _, passage, end] = hub.positions();
        let (even, words) = (mended.delay % 2 == 0, mended.pairs() / mended.kinds.len());
        assert_eq!(words_of(&judged(&mended.sheet(), &table.sheet())), "yes");
        let mut bare = table.clone();
        for position in [door, passage, end] {
            bare.masks[position * words..(position + 1) * words].fill(0);
        }
        for flaw in Flaw::ALL {
            let first = match flaw {
                Flaw::Lost => if even { end } else { passage },
                _ => if even { door } else { at_hub },
            };
            let before = if even { start } else { at_hub };
            let sheet = hub.yard(Some(flaw)).at(mended.delay).sheet();
            for (table, position) in [(&table, first), (&bare, before)] {
                let judgement = judged(&sheet, &table.sheet()).unwrap().judgement();
                assert_eq!(judgement, Judgement::Pair(position * words), "{hub:?} {flaw:?} {table:?}");
            }
            count(&mut counts, format!("lag {}: bad pair", mended.delay));
            count(&mut counts, format!("{flaw:?} behind {}: bad pair", hub.line()));
        }
    }
    let by_lag = (0..7).map(|lag| format!("lag {lag}: bad pair"));
    let by_line = Flaw::ALL.iter().flat_map(|flaw| LINES.map(|line| format!("{flaw:?} behind {line}: bad pair")));
    report("one spoiling line", &counts, &by_lag.chain(by_line).collect::<Vec<_>>());
}

/// One pair behind the line has no mask, which spoils one command, the last of its word: at the one pair that leads there, or at odd lags
/// at two, as both commands lead on from the door. Without it the table gets a yes.
#[test]
fn one_pair_without_a_mask() {
    let mut counts = Counts::new();
    for (hub, yard, ours) in mended_hubs() {
        let [door, start, at_hub, _, passage, _] = hub.positions();
        let odd = yard.delay as usize % 2;
        let (from, behind) = if odd == 0 { (start, door) } else { (at_hub, passage) };
        let words = 1 << (yard.delay / 2);
        for word in 0..words {
            let mut table = ours.clone();
            let judgement = |table: &Table| judged(&yard.sheet(), &table.sheet()).unwrap().judgement();
            table.masks[behind * words + word] = 0;
            for oldest in 0..=odd {
                let joined = oldest * words + word;
                let pair = from * words + joined / 2;
                assert_eq!(judgement(&table), Judgement::Pair(pair), "{hub:?} {yard:?} {table:?}");
                table.masks[pair] ^= 1 << (joined % 2);
                count(&mut counts, format!("lag {}, {}: bad pair", yard.delay, hub.line()));
            }
            // at lag 1 the hub itself is left without a mask, and the first word 0 leads to it
            let rest = if yard.delay == 1 { Judgement::Word(0) } else { Judgement::Sound };
            assert_eq!(judgement(&table), rest, "{hub:?} {yard:?} {table:?}");
        }
    }
    let by_line = (0..7).flat_map(|lag| LINES.map(|line| format!("lag {lag}, {line}: bad pair")));
    report("one pair without a mask", &counts, &by_line.collect::<Vec<_>>());
}
