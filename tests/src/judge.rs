//! Judging from document 02's words (W-202): everything that offends, as explicit sets. Nothing here is shared with the Rattle code.
use crate::cabin::{self, Table};
use crate::naive::{self, Game, Pair, Read, Rule};
use std::collections::{BTreeMap, BTreeSet, HashSet};

/// Yes, or no with the number of what offends.
#[derive(Clone, Copy, Debug, PartialEq, Eq)]
pub enum Judgement {
    Sound,
    Word(usize),
    Pair(usize),
}

/// What a pair with a mask may not be, or not allow.
#[derive(Clone, Copy, Debug, PartialEq, Eq, PartialOrd, Ord)]
pub enum Fault {
    WrongSide,
    Unsafe,
    Spoilt,
}

/// By their numbers, all flagged words that are not good and all pairs with a mask that have a fault.
#[derive(Clone, Debug, PartialEq, Eq)]
pub struct Offences {
    pub words: BTreeSet<usize>,
    pub pairs: BTreeMap<usize, BTreeSet<Fault>>,
}

impl Offences {
    /// "On no, give the first offending word, else the first offending pair."
    pub fn judgement(&self) -> Judgement {
        let pair = self.pairs.keys().next().map_or(Judgement::Sound, |&k| Judgement::Pair(k));
        self.words.first().map_or(pair, |&v| Judgement::Word(v))
    }
}

/// "1 to 7, then 10 to 12, then 21 where the sheets differ in start, commands, lag or highest position."
pub fn judge(sheet: &[u8], table: &[u8]) -> Result<Offences, u8> {
    let read = naive::read(sheet)?;
    let table = cabin::read(table)?;
    let game = Game::of(sheet, &read);
    if differ(&read, &game, &table) {
        return Err(21);
    }
    Ok(offences(&game, &table))
}

/// "21 where the sheets differ in start, commands, lag or highest position"
pub fn differ(read: &Read, game: &Game, table: &Table) -> bool {
    let asked = (read.start, read.actions, read.delay, game.positions() - 1);
    asked != (table.start, table.actions, table.delay, table.highest as usize)
}

/// "by document 01's rules with the pairs that have a mask taken as the kept ones and the others as fallen"
pub fn offences(game: &Game, table: &Table) -> Offences {
    let pairs = game.pairs(table.delay);
    let masked: Vec<(usize, &Pair)> = pairs.iter().enumerate().filter(|(k, _)| table.masks[*k] != 0).collect();
    let kept: HashSet<&Pair> = masked.iter().map(|(_, pair)| *pair).collect();
    let first_words = naive::words(table.actions, (table.delay as usize + 1) / 2);
    let good = |v: usize| game.good(table.delay, &first_words[v], |x| kept.contains(x));
    let spoilt = |pair: &Pair, c: u8| game.spoilt(table.delay, pair, c, |x| !kept.contains(x), Rule::Document);
    let faults = |k: usize, pair: &Pair| -> BTreeSet<Fault> {
        let mut commands = (0..table.actions).filter(|c| table.masks[k] >> c & 1 == 1);
        let found = [
            (Fault::WrongSide, !game.right(table.delay, pair)),
            (Fault::Unsafe, !game.safe(pair.0)),
            (Fault::Spoilt, commands.any(|c| spoilt(pair, c))),
        ];
        found.into_iter().filter(|(_, met)| *met).map(|(fault, _)| fault).collect()
    };
    Offences {
        words: (0..first_words.len()).filter(|&v| table.words[v] == 1 && !good(v)).collect(),
        pairs: masked.iter().map(|&(k, pair)| (k, faults(k, pair))).filter(|(_, faults)| !faults.is_empty()).collect(),
    }
}
