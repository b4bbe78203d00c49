//! Notices for yards, and tables to post them on.
use crate::cabin::{self, Table};
use crate::posting;
use crate::random::Random;
use crate::sheets::Yard;
use crate::tables::{pairs_at, thinned, with_commands_at, with_commands_taken};

/// Kinds of notices: of positions that exist, but for the last.
pub const NOTICES: [&str; 7] =
    ["no position", "an own position", "a yard position", "the start", "several positions", "all positions", "a missing position"];

pub fn notice_of(random: &mut Random, yard: &Yard, kind: &str) -> Vec<u8> {
    let n = yard.kinds.len();
    let mut all: Vec<u8> = (0..n).map(|p| p as u8).collect();
    let of_side = |own: bool| all.iter().copied().filter(|&p| (yard.kinds[p as usize] < 2) == own).collect::<Vec<u8>>();
    let mut some = |least: usize| (0..least + random.below(5)).map(|_| random.below(n) as u8).collect::<Vec<u8>>();
    match kind {
        "no position" => Vec::new(),
        "an own position" => vec![*random.pick(&of_side(true))],
        "a yard position" => vec![*random.pick(&of_side(false))],
        "the start" => vec![yard.start],
        "several positions" => some(2),
        "all positions" => {
            random.shuffle(&mut all);
            all
        }
        _ => {
            let mut notice = some(0);
            let missing = n + *random.pick(&[0, 0, 1, 255 - n]);
            notice.insert(random.below(notice.len() + 1), missing as u8);
            notice
        }
    }
}

/// Any notice of positions that exist.
pub fn any_notice(random: &mut Random, yard: &Yard) -> Vec<u8> {
    let kind = *random.pick(&NOTICES[..6]);
    notice_of(random, yard, kind)
}

/// Our table and ones made from it: sound parts, and tables that have too much or leave pairs without a way on.
pub fn made_from(random: &mut Random, yard: &Yard, ours: &Table) -> Vec<(&'static str, Table)> {
    let part = with_commands_taken(random, ours);
    let sound = posting::post(&yard.sheet(), &part.sheet(), &[], part.sheet().len()).unwrap().sheet;
    let wrong = pairs_at(yard, if yard.delay % 2 == 0 { [2, 3] } else { [0, 1] });
    let all: Vec<usize> = (0..ours.masks.len()).collect();
    vec![
        ("ours", ours.clone()),
        ("thinned", thinned(random, ours)),
        ("a sound part", cabin::read_any(&sound).unwrap()),
        ("commands taken", part),
        ("commands added", with_commands_at(random, ours, &all)),
        ("commands on the wrong side", with_commands_at(random, ours, &wrong)),
    ]
}
