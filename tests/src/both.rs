//! An operation by the proved library and by the naive one: the same answer and the same entries of every lent buffer, refused or not.
use crate::counts::{count, Counts};
use crate::judge::{self, Offences};
use crate::naive::{self, Game, Rule, Verdict};
use crate::posting::{self, Posted};
use crate::proved::{self, Answer};

/// The document's rule, or a wrong one out of the environment.
fn rule() -> Rule {
    match std::env::var("NAIVE_RULE").as_deref() {
        Ok("strike-once") => Rule::StrikeOnce,
        Ok("freshest-action") => Rule::FreshestAction,
        Ok("pass-unsafe") => Rule::PassUnsafe,
        _ => Rule::Document,
    }
}

/// Entries that are lent beyond the needed ones.
const SPARE: usize = 3;

/// Buffers of so many entries with a pattern in them.
fn pattern(n: usize) -> (Vec<u8>, Vec<u16>) {
    ((0..n).map(|k| (k * 37 + 11) as u8).collect(), (0..n).map(|k| (k * 7919 + 5) as u16).collect())
}

/// Reads and solves by both, with buffers longer than needed, and compares the answer and every entry.
pub fn compare(sheet: &[u8], counts: &mut Counts) {
    let read = naive::read(sheet);
    assert_eq!(proved::read(sheet), read, "reading {sheet:?}");
    let room = match &read {
        Err(_) => 4,
        Ok(r) => r.places[1].1 * (r.actions as usize).pow(r.delay as u32 / 2),
    };
    let (masks_before, ranks_before) = pattern(room + SPARE);
    let (mut masks, mut ranks) = (masks_before.clone(), ranks_before.clone());
    let answer = proved::solve(sheet, &mut masks, &mut ranks);
    let r = match read {
        Err(number) => {
            assert_eq!(answer, Err(number));
            assert_eq!((&masks, &ranks), (&masks_before, &ranks_before), "a refusal altered the buffers");
            assert_eq!(proved::make(sheet, &mut masks, &mut ranks, 64), Err(number));
            return count(counts, format!("refused {number}"));
        }
        Ok(r) => r,
    };
    let (expected, level) = match Game::of(sheet, &r).solve(r.delay, rule()) {
        Verdict::Winning(level) => (None, level),
        Verdict::Losing(m, level) => (Some(m), level),
    };
    assert_eq!(answer, Ok(Answer { losing: expected, reached: r.reached }), "{sheet:?}");
    let owed = level.masks.len();
    assert_eq!(masks[..owed], level.masks[..], "masks of {sheet:?}");
    assert_eq!(ranks[..owed], level.ranks[..], "ranks of {sheet:?}");
    assert_eq!(masks[owed..], masks_before[owed..], "masks beyond of {sheet:?}");
    assert_eq!(ranks[owed..], ranks_before[owed..], "ranks beyond of {sheet:?}");
    count(counts, match expected {
        None => format!("winning at {}", r.delay),
        Some(m) => format!("losing {m}"),
    });
    short_buffers(sheet, room, counts);
}

/// Either buffer one entry short is refused, by making before it looks at the output, and nothing is touched.
fn short_buffers(sheet: &[u8], room: usize, counts: &mut Counts) {
    for (masks_room, ranks_room) in [(room - 1, room), (room, room - 1)] {
        let (masks_before, _) = pattern(masks_room);
        let (_, ranks_before) = pattern(ranks_room);
        let (mut masks, mut ranks) = (masks_before.clone(), ranks_before.clone());
        assert_eq!(proved::solve(sheet, &mut masks, &mut ranks), Err(8));
        assert_eq!(proved::make(sheet, &mut masks, &mut ranks, 0), Err(8));
        assert_eq!((masks, ranks), (masks_before, ranks_before), "refusal 8 altered the buffers");
        count(counts, "refused 8".into());
    }
}

/// What offends, once both judges have said the same; neither sheet is altered.
pub fn judged(sheet: &[u8], table: &[u8]) -> Result<Offences, u8> {
    let (lent_sheet, lent_table) = (sheet.to_vec(), table.to_vec());
    let answer = proved::judge(&lent_sheet, &lent_table);
    assert_eq!((&lent_sheet[..], &lent_table[..]), (sheet, table), "judging altered a sheet");
    let expected = judge::judge(sheet, table);
    assert_eq!(answer, expected.as_ref().map(Offences::judgement).map_err(|&number| number), "{sheet:?} {table:?}");
    expected
}

/// What posting answers where the output is long enough, once both say the same for outputs too short, exact and longer; nothing that is
/// lent for reading is altered.
pub fn posted(sheet: &[u8], table: &[u8], notice: &[u8]) -> Result<Posted, u8> {
    let lent = [sheet, table, notice].map(<[u8]>::to_vec);
    let long = table.len() + 9;
    let expected = posting::post(sheet, table, notice, long);
    for room in [0, table.len().saturating_sub(1), table.len(), long] {
        let in_room = if room < table.len() { posting::post(sheet, table, notice, room) } else { expected.clone() };
        assert_eq!(proved::post(&lent[0], &lent[1], &lent[2], room), in_room, "room {room}: {lent:?}");
    }
    assert_eq!(lent, [sheet, table, notice], "posting altered what was lent for reading");
    expected
}
