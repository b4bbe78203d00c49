//! Closing notices from document 02's words (W-205): what the judging rule of W-202 does not allow is taken away from explicit sets until
//! it allows the rest. Nothing here is shared with the Rattle code.
use crate::cabin::{self, Table};
use crate::judge;
use crate::naive::{self, Game, Pair, Rule};
use std::collections::HashSet;

/// The sheet written, and whether a first word remains.
#[derive(Clone, Debug, PartialEq, Eq)]
pub struct Posted {
    pub sheet: Vec<u8>,
    pub remains: bool,
}

/// "1 to 7, 10, 11, 21, then 23 for a position that doesn't exist, then 9 for an output shorter than the table sheet"
pub fn post(sheet: &[u8], table: &[u8], notice: &[u8], room: usize) -> Result<Posted, u8> {
    let read = naive::read(sheet)?;
    let table = cabin::read_any(table)?;
    let mut game = Game::of(sheet, &read);
    if judge::differ(&read, &game, &table) {
        return Err(21);
    }
    if notice.iter().any(|&p| p as usize >= game.positions()) {
        return Err(23);
    }
    if room < table.sheet().len() {
        return Err(9);
    }
    for &p in notice {
        game.close(p);
    }
    let part = largest_part(&game, &table);
    Ok(Posted { sheet: part.sheet(), remains: part.words.contains(&1) })
}

/// "the largest part of that table that the judging rule of W-202 allows": in each sweep every command is judged, the pairs that still
/// have one being the kept ones, and what offends is taken away; once nothing does, the flagged words that are not good are.
fn largest_part(game: &Game, table: &Table) -> Table {
    let delay = table.delay;
    let pairs = game.pairs(delay);
    let has = |k: usize, c: u8| table.masks[k] >> c & 1 == 1;
    let numbered = pairs.iter().enumerate().flat_map(|(k, pair)| (0..table.actions).map(move |c| (k, pair, c)));
    let mut allowed: HashSet<(&Pair, u8)> = numbered.filter(|&(k, _, c)| has(k, c)).map(|(_, pair, c)| (pair, c)).collect();
    loop {
        let kept: HashSet<&Pair> = allowed.iter().map(|(pair, _)| *pair).collect();
        let spoilt = |pair: &Pair, c: u8| game.spoilt(delay, pair, c, |x| !kept.contains(x), Rule::Document);
        let before = allowed.len();
        allowed.retain(|&(pair, c)| game.right(delay, pair) && game.safe(pair.0) && !spoilt(pair, c));
        if allowed.len() == before {
            let good = |word: &[u8]| game.good(delay, word, |x| kept.contains(x));
            let first_words = naive::words(table.actions, (delay as usize + 1) / 2);
            let words = first_words.iter().zip(&table.words).map(|(word, &flag)| if good(word) { flag } else { 0 }).collect();
            let mask = |pair: &Pair| (0..table.actions).filter(|&c| allowed.contains(&(pair, c))).map(|c| 1u8 << c).sum();
            let masks = pairs.iter().map(mask).collect();
            return Table { words, masks, ..table.clone() };
        }
    }
}
