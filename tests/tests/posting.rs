//! Closing notices: the proved posting against the naive one over our tables, parts of them, tables that are not sound and damaged sheets,
//! each into outputs too short, exact and longer; against all parts of small tables, one by one; against fresh rounds, the notice being
//! written into the yard's P bytes; several faults at once, the largest tables and tables that lose one pair a sweep; and the cabin at
//! work after a notice.
use loquatquoits_tests::both::posted;
use loquatquoits_tests::cabin::{self, Table};
use loquatquoits_tests::counts::{count, report, Counts};
use loquatquoits_tests::hubs::{Flaw, Hub, LINES};
use loquatquoits_tests::judge::{self, Judgement};
use loquatquoits_tests::naive::{self, Game, Rule};
use loquatquoits_tests::notices::{any_notice, made_from, notice_of, NOTICES};
use loquatquoits_tests::posting::{self, Posted};
use loquatquoits_tests::proved;
use loquatquoits_tests::random::Random;
use loquatquoits_tests::sheets::{self, damage, random_yard, Shape, Yard};
use loquatquoits_tests::tables::{
    everything, faulty_sheet, faulty_table, flipped, near_numbers, numbers, ours, random_table, table_of, winning, with_commands_taken,
    without_masks,
};
use loquatquoits_tests::working::{self, any_choice};
use loquatquoits_tests::worst::{orders, ring, worst, Worst};

fn words_of(answer: &Result<Posted, u8>, table: &[u8]) -> String {
    match answer {
        Err(number) => format!("refused {number}"),
        Ok(Posted { sheet, remains }) => {
            let taken = if sheet == table { "nothing taken" } else { "something taken" };
            format!("{taken}, {}", if *remains { "a word remains" } else { "no word remains" })
        }
    }
}

/// The answers where nothing is refused; the last is only given to a table in which no word is flagged.
const ANSWERS: [&str; 4] = [
    "nothing taken, a word remains",
    "something taken, a word remains",
    "something taken, no word remains",
    "nothing taken, no word remains",
];

#[test]
fn random_tables() {
    let mut random = Random::new(205);
    let mut counts = Counts::new();
    for _ in 0..500 {
        let shape = Shape { unsafe_positions: *random.pick(&[0, 0, 10, 20]), ..Shape::small(&mut random) };
        let whole = random_yard(&mut random, &shape);
        for yard in (0..7).map(|delay| whole.at(delay)) {
            let mut tables = ours(&yard).map_or(Vec::new(), |ours| made_from(&mut random, &yard, &ours));
            let unflagged = random_table(&mut random, &yard);
            tables.push(("no word flagged", Table { words: vec![0; unflagged.words.len()], ..unflagged }));
            tables.push(("wholly random", random_table(&mut random, &yard)));
            tables.push(("everything", everything(&yard)));
            for (name, table) in tables {
                let kind = *random.pick(&NOTICES);
                let (sheet, table, notice) = (yard.sheet(), table.sheet(), notice_of(&mut random, &yard, kind));
                let answer = posted(&sheet, &table, &notice);
                let words = words_of(&answer, &table);
                if kind == "no position" && ["ours", "thinned", "a sound part"].contains(&name) {
                    assert_eq!(answer.as_ref().unwrap().sheet, table, "the empty notice took something away");
                }
                count(&mut counts, format!("lag {}: {words}", yard.delay));
                count(&mut counts, format!("{name}: {words}"));
                count(&mut counts, format!("{kind}: {words}"));
                let Ok(first) = answer else { continue };
                if kind == "the start" && cabin::read_any(&first.sheet).unwrap().masks.iter().any(|&mask| mask != 0) {
                    count(&mut counts, format!("the start at lag {}: masks without a word", yard.delay));
                }
                // another notice after it, also where no word remains
                let words = words_of(&posted(&sheet, &first.sheet, &any_notice(&mut random, &yard)), &first.sheet);
                count(&mut counts, format!("a second notice: {words}"));
            }
        }
    }
    let by_lag = (0..7).flat_map(|lag| ANSWERS.map(|answer| format!("lag {lag}: {answer}")));
    let odd = [1, 3, 5].map(|lag| format!("the start at lag {lag}: masks without a word"));
    let by_table = ["ours", "thinned", "commands taken", "commands added", "commands on the wrong side", "wholly random", "everything"]
        .into_iter()
        .flat_map(|name| ANSWERS[1..3].iter().map(move |answer| format!("{name}: {answer}")));
    let untouched = ["ours", "thinned", "a sound part", "a second notice"].map(|name| format!("{name}: {}", ANSWERS[0]));
    let unflagged = ["no word flagged", "a second notice"].map(|name| format!("{name}: {}", ANSWERS[3]));
    let by_notice = NOTICES[..6].iter().map(|kind| format!("{kind}: {}", ANSWERS[2]));
    let remaining = NOTICES[..3].iter().chain(&NOTICES[4..5]).map(|kind| format!("{kind}: {}", ANSWERS[1]));
    let wanted = by_lag.chain(odd).chain(by_table).chain(untouched).chain(unflagged).chain(by_notice).chain(remaining);
    report("random tables", &counts, &wanted.chain(["a missing position: refused 23".into()]).collect::<Vec<_>>());
}

/// All tables that have some of the bits of W and T, each bit being a byte of the sheet and a place in it.
fn all_parts<'a>(table: &'a [u8], bits: &'a [(usize, u8)]) -> impl Iterator<Item = Table> + 'a {
    (0..1 << bits.len()).map(move |set: usize| {
        let mut part = table.to_vec();
        part[19..].fill(0);
        for (_, &(at, bit)) in bits.iter().enumerate().filter(|(k, _)| set >> k & 1 == 1) {
            part[at] |= 1 << bit;
        }
        cabin::read_any(&part).unwrap()
    })
}

/// "the largest part of that table that the judging rule of W-202 allows": of all parts of a small table, one by one, those that the rule
/// allows where the notice's positions are unsafe lie inside one of them, and that is the posted one.
#[test]
fn largest_of_all_parts() {
    let mut random = Random::new(25);
    let mut counts = Counts::new();
    for round in 0..700usize {
        let (own, environment, actions) = (1 + random.below(3), 1 + random.below(3), 1 + random.below(2) as u8);
        let shape = Shape { own, environment, actions, ..Shape::small(&mut random) };
        let yard = random_yard(&mut random, &shape).at((round % 7) as u8);
        let whole = if random.percent(50) { random_table(&mut random, &yard) } else { everything(&yard) };
        let mut table = whole.sheet();
        let all = (19..table.len()).flat_map(|at| (0..8).map(move |bit| (at, bit)));
        let mut bits: Vec<_> = all.filter(|&(at, bit)| table[at] >> bit & 1 == 1).collect();
        while bits.len() > 9 {
            let (at, bit) = bits.swap_remove(random.below(bits.len()));
            table[at] ^= 1 << bit;
        }
        let kind = *random.pick(&["no position", "an own position", "a yard position", "several positions"]);
        let notice = notice_of(&mut random, &yard, kind);
        let sheet = yard.closed(&notice).sheet();
        let game = Game::of(&sheet, &naive::read(&sheet).unwrap());
        let allowed = |part: &Table| judge::offences(&game, part).judgement() == Judgement::Sound;
        let mut joined = vec![0; table.len()];
        for part in all_parts(&table, &bits).filter(allowed) {
            joined.iter_mut().zip(part.sheet()).for_each(|(all, byte)| *all |= byte);
        }
        let answer = posted(&yard.sheet(), &table, &notice);
        assert_eq!(answer.as_ref().unwrap().sheet, joined, "{yard:?} {table:?} {notice:?}");
        assert!(allowed(&cabin::read_any(&joined).unwrap()));
        count(&mut counts, format!("lag {}: {}", yard.delay, words_of(&answer, &table)));
        let masks = cabin::read_any(&joined).unwrap().masks;
        if masks != vec![0; masks.len()] && joined != table {
            count(&mut counts, format!("lag {}: some commands taken and some left", yard.delay));
        }
    }
    let kinds = [ANSWERS[0], ANSWERS[1], ANSWERS[2], "some commands taken and some left"];
    let wanted: Vec<_> = (0..7).flat_map(|lag| kinds.map(|kind| format!("lag {lag}: {kind}"))).collect();
    report("largest of all parts", &counts, &wanted);
}

/// What the rounds give afresh where the positions are unsafe in the yard's own P bytes: by the naive solver at that lag, and by the proved
/// one where it says so much, a sheet where the yard wins, masks where it loses at that very lag.
fn assert_fresh(closed: &Yard, posted: &Posted) -> &'static str {
    let sheet = closed.sheet();
    let level = Game::of(&sheet, &naive::read(&sheet).unwrap()).level(closed.delay, Rule::Document);
    let fresh = table_of(closed, level.good.iter().map(|&good| u8::from(good)).collect(), level.masks);
    assert_eq!(*posted, Posted { sheet: fresh.sheet(), remains: level.good.contains(&true) }, "{closed:?}");
    let n = closed.pairs();
    let mut masks = vec![0; n];
    let answer = proved::solve(&sheet, &mut masks, &mut vec![0; n]).unwrap();
    match answer.losing {
        None => {
            assert_eq!(proved::make_of(closed, closed.owed_length()), Ok((posted.sheet.clone(), answer)));
            "still winning"
        }
        Some(lag) => {
            assert!(!posted.remains && (lag < closed.delay || fresh.masks == masks), "{closed:?}");
            if lag < closed.delay { "losing at a lesser lag" } else { "losing at this lag" }
        }
    }
}

/// "On our own table this equals what document 01's rounds give afresh at that lag": and so it does on the table that allows everything.
#[test]
fn fresh_rounds() {
    let mut random = Random::new(1);
    let mut counts = Counts::new();
    let mut compare = |kind: &str, yard: &Yard, ours: &Table, notice: &[u8]| {
        let answer = posted(&yard.sheet(), &ours.sheet(), notice).unwrap();
        let words = assert_fresh(&yard.closed(notice), &answer);
        count(&mut counts, format!("lag {}: {words}", yard.delay));
        count(&mut counts, format!("{kind}: {words}"));
        let table = everything(yard).sheet();
        assert_eq!(proved::post(&yard.sheet(), &table, notice, table.len()), Ok(answer), "{yard:?} {notice:?}");
    };
    for _ in 0..2500 {
        let (yard, ours) = winning(&mut random);
        let kind = *random.pick(&NOTICES[..6]);
        compare(kind, &yard, &ours, &notice_of(&mut random, &yard, kind));
    }
    // without the loop the yard itself decides, which is lost from lag 1, 1, 3 or 5 on
    for yard in [sheets::guess(), sheets::split_gate(), sheets::hall(), sheets::long_hall()].map(|yard| yard.beside_a_loop()) {
        let bay = (yard.kinds.len() - 1) as u8;
        for yard in (0..7).map(|delay| yard.at(delay)) {
            compare("a loop's bay", &yard, &ours(&yard).unwrap(), &[bay]);
        }
    }
    let still = (0..7).map(|lag| format!("lag {lag}: still winning"));
    let lost = [0, 1, 3, 5].map(|lag| format!("lag {lag}: losing at this lag"));
    let lesser = (1..7).map(|lag| format!("lag {lag}: losing at a lesser lag"));
    let by_notice = NOTICES[..3].iter().chain(&NOTICES[4..5]).map(|kind| format!("{kind}: still winning"));
    report("fresh rounds", &counts, &still.chain(lost).chain(lesser).chain(by_notice).collect::<Vec<_>>());
}

/// Notices that grow from no position to all, in any order: each time as the fresh rounds.
#[test]
fn growing_notices() {
    let mut random = Random::new(10);
    let mut counts = Counts::new();
    for round in 0..60 {
        let shape = Shape { own: 8, environment: 16, actions: 3, permitted: 100, moves: 2, unsafe_positions: 0 };
        let yard = random_yard(&mut random, &shape).at((round % 7) as u8);
        let (sheet, table) = (yard.sheet(), ours(&yard).unwrap().sheet());
        let order = notice_of(&mut random, &yard, "all positions");
        for length in 0..=order.len() {
            let answer = posted(&sheet, &table, &order[..length]);
            assert_fresh(&yard.closed(&order[..length]), answer.as_ref().unwrap());
            count(&mut counts, format!("{length} of {}: {}", order.len(), words_of(&answer, &table)));
        }
    }
    let remaining = (1..9).map(|length| format!("{length} of 24: {}", ANSWERS[1]));
    let emptied = (1..25).map(|length| format!("{length} of 24: {}", ANSWERS[2]));
    report("growing notices", &counts, &remaining.chain(emptied).chain([format!("0 of 24: {}", ANSWERS[0])]).collect::<Vec<_>>());
}

/// Our tables with every single bit of the table's sheet, of the yard's or of a notice turned over.
#[test]
fn every_bit() {
    let mut random = Random::new(23);
    let mut counts = Counts::new();
    let known = [sheets::guess(), sheets::cut_guess(), sheets::split_gate(), sheets::looped(), sheets::hall(), sheets::two_bays()];
    let known = known.into_iter().flat_map(|yard| (0..4).map(move |delay| yard.at(delay)));
    let known: Vec<_> = known.filter_map(|yard| ours(&yard).map(|table| (yard, table))).collect();
    let unknown = (0..12).map(|_| winning(&mut random)).filter(|(yard, _)| yard.pairs() <= 40).collect();
    for (yard, table) in [known, unknown].concat() {
        let (sheet, table, notice) = (yard.sheet(), table.sheet(), [(yard.kinds.len() - 1) as u8]);
        for (name, length) in [("table", table.len()), ("yard", sheet.len()), ("notice", 1)] {
            for bit in 0..8 * length {
                let other = |bytes: &[u8], of: &str| if of == name { flipped(bytes, bit) } else { bytes.to_vec() };
                let table = other(&table, "table");
                let answer = posted(&other(&sheet, "yard"), &table, &other(&notice, "notice"));
                count(&mut counts, format!("{name}'s bit: {}", words_of(&answer, &table)));
            }
        }
    }
    let of_table = ["refused 10", "refused 11", "refused 21", ANSWERS[1], ANSWERS[2]].map(|words| format!("table's bit: {words}"));
    let of_yard = [1, 2, 3, 4, 5, 6, 21].map(|number| format!("yard's bit: refused {number}"));
    let of_notice = ["refused 23", ANSWERS[2]].map(|words| format!("notice's bit: {words}"));
    report("every bit", &counts, &[&of_table[..], &of_yard, &of_notice].concat());
}

#[test]
fn damaged_sheets() {
    let mut random = Random::new(1023);
    let mut counts = Counts::new();
    for _ in 0..10000 {
        let (mut yard, mut table) = winning(&mut random);
        let kind = *random.pick(&NOTICES);
        let notice = notice_of(&mut random, &yard, kind);
        if random.percent(10) {
            yard.targets.remove(random.below(yard.targets.len()));
        }
        if random.percent(10) {
            table.words.fill(0);
        }
        let (mut sheet, mut table) = (yard.sheet(), with_commands_taken(&mut random, &table).sheet());
        for _ in 0..random.below(4) {
            let damaged = if random.percent(40) { &mut sheet } else { &mut table };
            if !damaged.is_empty() {
                damage(&mut random, damaged);
            }
        }
        count(&mut counts, words_of(&posted(&sheet, &table, &notice), &table));
    }
    let refused = [1, 2, 3, 4, 5, 6, 10, 11, 21, 23].map(|number| format!("refused {number}"));
    report("damaged sheets", &counts, &[&refused[..], &ANSWERS.map(String::from)].concat());
}

/// Up to three faults at once: the answer is the first in the order written. Under 12, which is none, W is all 0.
#[test]
fn order_of_refusals() {
    let mut counts = Counts::new();
    let shape = Shape { own: 17, environment: 16, actions: 8, permitted: 100, moves: 3, unsafe_positions: 0 };
    let yard = random_yard(&mut Random::new(7), &shape).at(4);
    let ours = ours(&yard).unwrap();
    let other_start = yard.targets.iter().map(|line| line[0]).find(|&p| p != yard.start).unwrap();
    let order = [1, 2, 3, 4, 5, 6, 7, 10, 11, 12, 21, 23, 9];
    for set in (0..1u32 << order.len()).filter(|set| set.count_ones() <= 3) {
        let faults: Vec<u8> = (0..order.len()).filter(|k| set >> k & 1 == 1).map(|k| order[k]).collect();
        let has = |fault: u8| faults.contains(&fault);
        let (sheet, table) = (faulty_sheet(&yard, &faults), faulty_table(&ours, other_start, &faults));
        let notice = if has(23) { vec![3, 33] } else { vec![3, 32] };
        let room = ours.sheet().len() - usize::from(has(9));
        let answer = proved::post(&sheet, &table, &notice, room);
        assert_eq!(answer, posting::post(&sheet, &table, &notice, room));
        assert_eq!(answer.as_ref().err(), faults.iter().find(|&&number| number != 12), "{faults:?}");
        assert!(answer.as_ref().is_err() || answer.as_ref().unwrap().remains != has(12));
        count(&mut counts, words_of(&answer, &table));
    }
    let refused = order.iter().filter(|&&number| number != 12).map(|number| format!("refused {number}"));
    report("order of refusals", &counts, &refused.chain([1, 2].map(|k| ANSWERS[k].into())).collect::<Vec<_>>());
}

/// 21 exactly where one of the four numbers is not the yard's: each exact and one off, alone and together.
#[test]
fn other_numbers() {
    let mut counts = Counts::new();
    let safe_chain = Yard { kinds: [0, 2].repeat(128), ..sheets::chain(128) };
    let hall = |start: u8, delay: u8| Yard { start, ..sheets::hall().at(delay) };
    for yard in [hall(1, 2), hall(2, 3), sheets::looped().at(6), safe_chain.at(1)] {
        for other in near_numbers(&yard) {
            let table = without_masks(other);
            let words = words_of(&posted(&yard.sheet(), &table, &[0]), &table);
            assert_eq!(words, if other == numbers(&yard) { ANSWERS[2] } else { "refused 21" });
            count(&mut counts, words);
        }
    }
    // with one command the tables of all lags have the same lengths
    for (lag, other) in (0..7).flat_map(|lag| (0..7).map(move |other| (lag, other))) {
        let table = ours(&sheets::looped().at(other)).unwrap().sheet();
        let words = words_of(&posted(&sheets::looped().at(lag).sheet(), &table, &[]), &table);
        assert_eq!(words, if lag == other { ANSWERS[0] } else { "refused 21" });
    }
    report("other numbers", &counts, &[ANSWERS[2], "refused 21"].map(String::from));
}

/// Every byte as a position, first, last and between others in notices up to 600 long: 23 exactly from the number of positions on. A table
/// without masks loses its flags, by hand.
#[test]
fn positions_that_exist() {
    let mut counts = Counts::new();
    for links in [1, 2, 37, 127, 128] {
        let yard = sheets::chain(links);
        let (sheet, table) = (yard.sheet(), without_masks(numbers(&yard)));
        let mut emptied = table.clone();
        emptied[19] = 0;
        for p in 0..=255 {
            let long = |times: usize| [vec![1; times], vec![p, 0]].concat();
            for notice in [vec![p], vec![p, 0], vec![0, p], long(1), long(254), long(598)] {
                let exists = usize::from(p) < yard.kinds.len();
                let expected = if exists { Ok(Posted { sheet: emptied.clone(), remains: false }) } else { Err(23) };
                assert_eq!(proved::post(&sheet, &table, &notice, table.len()), expected, "{links} {notice:?}");
                assert_eq!(proved::post(&sheet, &table, &notice, table.len() - 1), Err(if exists { 9 } else { 23 }));
                count(&mut counts, format!("{} positions: {}", 2 * links, words_of(&expected, &table)));
            }
        }
    }
    let refused = [2, 4, 74, 254].map(|n| format!("{n} positions: refused 23"));
    report("positions that exist", &counts, &[&refused[..], &[format!("256 positions: {}", ANSWERS[2])]].concat());
}

/// As many positions as there may be, each closed alone: as the yard with that P byte changed. One that nothing needs may stand before it
/// in the notice, any number of times.
#[test]
fn each_position() {
    let mut counts = Counts::new();
    let shape = Shape { own: 128, environment: 128, actions: 4, permitted: 90, moves: 2, unsafe_positions: 5 };
    let mut random = Random::new(256);
    let mut yards = (0..).map(|_| random_yard(&mut random, &shape)).filter(|yard| ours(&yard.at(1)).is_some());
    let whole = yards.next().unwrap();
    for yard in [0, 1].map(|delay| whole.at(delay)) {
        let (sheet, table) = (yard.sheet(), ours(&yard).unwrap().sheet());
        let post = |notice: &[u8]| proved::post(&sheet, &table, notice, table.len());
        let spare = (0..=255).find(|&p| post(&[p]).unwrap().sheet == table).unwrap();
        for p in 0..=255 {
            let answer = post(&[p]);
            assert_fresh(&yard.closed(&[p]), answer.as_ref().unwrap());
            for times in [1, 254, 255, 256].into_iter().chain((p % 64 == 0).then_some(65_536)) {
                assert_eq!(post(&[vec![spare; times], vec![p]].concat()), answer, "{p} after {times} of {spare}");
            }
            count(&mut counts, format!("lag {}: {}", yard.delay, words_of(&answer, &table)));
        }
    }
    report("each position", &counts, &[0, 1].map(|lag| format!("lag {lag}: {}", ANSWERS[1])));
}

/// As many pairs as there may be, ours and a table that allows everything: as the fresh rounds.
#[test]
fn largest_tables() {
    let mut random = Random::new(16384);
    let mut counts = Counts::new();
    for (own, actions, delay) in [(16, 8, 6), (128, 8, 4), (128, 8, 5), (128, 4, 6)] {
        let shape = Shape { own, environment: own, actions, permitted: 100, moves: 2, unsafe_positions: 0 };
        let yard = random_yard(&mut random, &shape).at(delay);
        assert_eq!(yard.pairs(), 16_384);
        let (ours, everything) = (ours(&yard).unwrap().sheet(), everything(&yard).sheet());
        let last = [(yard.kinds.len() - 1) as u8];
        let many: Vec<u8> = (0..own).filter(|k| k % 4 == 0).map(|k| 2 * k as u8).collect();
        for (name, notice) in [("nothing closed", &[][..]), ("one closed", &last), ("many closed", &many)] {
            let answer = proved::post(&yard.sheet(), &ours, notice, ours.len());
            assert_eq!(proved::post(&yard.sheet(), &everything, notice, ours.len() + 1), answer);
            assert_fresh(&yard.closed(notice), answer.as_ref().unwrap());
            count(&mut counts, format!("{name}: {}", words_of(&answer, &ours)));
        }
    }
    let wanted = [("nothing", 0), ("one", 1), ("many", 2)].map(|(what, answer)| format!("{what} closed: {}", ANSWERS[answer]));
    report("largest tables", &counts, &wanted);
}

/// Tables that lose one pair a sweep: the ring stands, and without one mask all of it falls, by hand; chains that fall beside ballast.
#[test]
fn many_sweeps() {
    let mut counts = Counts::new();
    for (places, actions, delay) in [(3, 2, 2), (3, 2, 3), (2, 3, 4), (2, 2, 5), (3, 2, 6), (32, 4, 5), (128, 8, 4)] {
        for (_, order) in orders(places) {
            let (yard, table) = ring(&order, actions, delay);
            let mut cut = table.clone();
            *cut.masks.iter_mut().rfind(|mask| **mask != 0).unwrap() = 0;
            let empty = table_of(&yard, vec![0; table.words.len()], vec![0; table.masks.len()]).sheet();
            for (table, expected, remains) in [(table.sheet(), table.sheet(), true), (cut.sheet(), empty, false)] {
                let answer = proved::post(&yard.sheet(), &table, &[], table.len());
                assert_eq!(answer, Ok(Posted { sheet: expected, remains }), "{places} {actions} {delay}");
                if places < 32 {
                    posted(&yard.sheet(), &table, &[]).unwrap();
                }
                count(&mut counts, format!("ring at lag {delay}: {}", words_of(&answer, &table)));
            }
        }
    }
    for (layers, delay, touched) in [(0, 4, false), (0, 4, true), (1, 5, false), (1, 5, true)] {
        let yard = worst(&Worst { actions: 3, layers, rows: 2, ballast: 4, width: 4, touched, delay }, 1);
        let (sheet, table) = (yard.sheet(), everything(&yard).sheet());
        let answer = posted(&sheet, &table, &[]);
        assert_eq!(answer.as_ref().unwrap().sheet, ours(&yard).unwrap().sheet());
        count(&mut counts, format!("chain at lag {delay}: {}", words_of(&answer, &table)));
    }
    let rings = (2..7).flat_map(|lag| [ANSWERS[0], ANSWERS[2]].map(|words| format!("ring at lag {lag}: {words}")));
    report("many sweeps", &counts, &rings.chain([4, 5].map(|lag| format!("chain at lag {lag}: {}", ANSWERS[1]))).collect::<Vec<_>>());
}

/// The door behind one line is closed, by which every command to the hub is lost: as the yard with an unsafe door.
#[test]
fn one_closed_door() {
    let mut counts = Counts::new();
    for (hub, delay) in Hub::all(2) {
        let (yard, closed) = (hub.yard(None).at(delay), hub.yard(Some(Flaw::Unsafe)).at(delay));
        let (table, fresh) = (ours(&yard).unwrap().sheet(), ours(&closed).unwrap().sheet());
        let answer = proved::post(&yard.sheet(), &table, &[hub.positions()[0] as u8], table.len());
        assert_eq!(answer, Ok(Posted { sheet: fresh, remains: true }), "{hub:?}");
        count(&mut counts, format!("lag {delay}, {}: {}", hub.line(), words_of(&answer, &table)));
    }
    let by_line = (0..7).flat_map(|lag| LINES.map(|line| format!("lag {lag}, {line}: {}", ANSWERS[1])));
    report("one closed door", &counts, &by_line.collect::<Vec<_>>());
}

/// After a notice: the judge says yes, for the yard as it was and with the positions unsafe, and the cabin and any choice out of the table
/// meet no unsafe or closed position. Where no word remains the cabin is refused with 12.
#[test]
fn at_work_after_a_notice() {
    let mut random = Random::new(3);
    let mut counts = Counts::new();
    for round in 0..2000 {
        let (yard, ours) = winning(&mut random);
        let table = if round % 2 == 0 { ours } else { random_table(&mut random, &yard) }.sheet();
        let kind = *random.pick(&["an own position", "a yard position", "several positions"]);
        let notice = notice_of(&mut random, &yard, kind);
        let Posted { sheet, remains } = posted(&yard.sheet(), &table, &notice).unwrap();
        if !remains {
            assert_eq!((proved::open(&sheet), proved::judge(&yard.sheet(), &sheet)), (Err(12), Err(12)));
            count(&mut counts, "no word remains: 12".into());
            continue;
        }
        let closed = yard.closed(&notice);
        for yard in [&yard, &closed] {
            assert_eq!(proved::judge(&yard.sheet(), &sheet), Ok(Judgement::Sound));
        }
        working::work(&mut random, &closed, &sheet, 30, &mut counts);
        for _ in 0..3 {
            any_choice(&mut random, &closed, &cabin::read(&sheet).unwrap());
        }
        let whose = if round % 2 == 0 { "ours" } else { "random" };
        count(&mut counts, format!("{whose}, {}: worked", if sheet == table { "nothing taken" } else { "something taken" }));
        count(&mut counts, format!("lag {}: worked", yard.delay));
    }
    let own = ["no word remains: 12", "ours, nothing taken: worked", "ours, something taken: worked", "random, something taken: worked"];
    let by_lag = (0..7).map(|lag| format!("lag {lag}: worked"));
    let wanted = working::wanted_with_packets().into_iter().chain(own.map(String::from)).chain(by_lag);
    report("at work after a notice", &counts, &wanted.collect::<Vec<_>>());
}

/// Small yards by hand.
#[test]
fn by_hand() {
    let check = |yard: &Yard, table: &Table, notice: &[u8], words: &[u8], masks: &[u8]| {
        let masks = [masks, &vec![0; yard.pairs() - masks.len()]].concat();
        let expected = Posted { sheet: table_of(yard, words.to_vec(), masks).sheet(), remains: words.contains(&1) };
        assert_eq!(posted(&yard.sheet(), &table.sheet(), notice), Ok(expected), "{yard:?} {notice:?}");
    };
    // bay 2 is shut: command 1 may not be pending at the gate, so it may not be given in bay 1
    let bays = sheets::two_bays().at(2);
    let table = ours(&bays).unwrap();
    check(&bays, &table, &[], &[1, 1], &[3, 3, 3, 3, 3, 3]);
    check(&bays, &table, &[2], &[1, 0], &[3, 0, 1, 1]);
    check(&bays, &table, &[4, 4], &[1, 0], &[3, 0, 1, 1, 1, 1]);
    check(&bays, &table, &[1, 2], &[0, 0], &[]);
    // a table in which bay 1 only allows what leads to bay 2
    let astray = table_of(&bays, vec![1, 1], [vec![3, 3, 2, 3, 3, 3], vec![0; 6]].concat());
    check(&bays, &astray, &[2], &[1, 0], &[2, 0, 0, 1]);
    // every position of the hall is needed
    let hall = sheets::hall().at(2);
    let table = ours(&hall).unwrap();
    check(&hall, &table, &[], &[1, 1], &[1, 1, 2, 2, 3, 0, 0, 3]);
    for p in 0..7 {
        check(&hall, &table, &[p], &[0, 0], &[]);
    }
    // the start is shut: at odd lags no pair of it falls, but no word is good
    for (lag, masks, left) in [(0, [1, 1, 0, 0], [0, 1, 0, 0]), (1, [0, 0, 1, 1], [0, 0, 1, 1]), (5, [0, 0, 1, 1], [0, 0, 1, 1])] {
        let yard = sheets::lead_in().at(lag);
        let table = ours(&yard).unwrap();
        check(&yard, &table, &[], &[1], &masks);
        check(&yard, &table, &[0], &[0], &left);
        check(&yard, &table, &[1], &[0], &[]);
    }
}
