//! A cabin written by hand: the same checks on every call, over the caller's bytes, and a state with the same fields.
use crate::hand::bodies;
use loquatquoits_tests::cabin::Observation;

#[derive(Clone)]
pub struct Cabin {
    turn: usize,
    last: [u8; 3],
    window: [Option<u8>; 7],
}

pub struct Table<'a> {
    pub start: u8,
    pub actions: u8,
    pub delay: usize,
    pub highest: u8,
    pub words: &'a [u8],
    pub masks: &'a [u8],
}

/// The bytes joined and tested once, which is compiled to vector instructions: at a large table most of a call's time goes here. The top
/// has all of its low bits.
fn none_over(bytes: &[u8], top: u8) -> bool {
    bytes.iter().fold(0, |all, &byte| all | byte) <= top
}

pub fn read(sheet: &[u8]) -> Option<Table<'_>> {
    let ([s, words, masks], at) = bodies(sheet, b"SWT")?;
    if at != sheet.len() || s.len() != 4 || s[1] < 1 || s[1] > 8 || s[2] > 6 || s[0] > s[3] {
        return None;
    }
    let (a, delay) = (s[1] as usize, s[2] as usize);
    let pairs = (s[3] as usize + 1) * a.pow(delay as u32 / 2);
    let fits = pairs <= 16_384
        && words.len() == a.pow((delay as u32 + 1) / 2)
        && masks.len() == pairs
        && none_over(words, 1)
        && none_over(masks, ((1u32 << a) - 1) as u8)
        && words.contains(&1);
    fits.then_some(Table { start: s[0], actions: s[1], delay, highest: s[3], words, masks })
}

impl Cabin {
    pub fn open() -> Cabin {
        Cabin { turn: 0, last: [0; 3], window: [None; 7] }
    }

    /// Document 01's refusal 20: entries outside the window don't matter.
    fn valid(&self, table: &Table) -> bool {
        let held = (table.delay / 2).min(self.turn);
        let window = table.delay.min(2 * self.turn) + 1;
        self.turn <= 1_000_000
            && self.last[..held].iter().all(|&action| action < table.actions)
            && self.window[..window].iter().flatten().all(|&position| position <= table.highest)
    }

    /// A report, where the sheet and the state are not refused.
    fn hear(&mut self, table: &Table, index: usize, position: u8) -> bool {
        if position > table.highest || index > 2 * self.turn || index + table.delay < 2 * self.turn {
            return false;
        }
        let slot = &mut self.window[2 * self.turn - index];
        if slot.is_some_and(|known| known != position) {
            return false;
        }
        *slot = Some(position);
        true
    }

    pub fn observe(&mut self, sheet: &[u8], index: usize, position: u8) -> bool {
        read(sheet).is_some_and(|table| self.valid(&table) && self.hear(&table, index, position))
    }

    /// A refusal is a record's, by its place, or of no record. The sheet is read and the state tested once for all records.
    pub fn observe_all(&mut self, sheet: &[u8], packet: &[Observation]) -> Result<(), Option<usize>> {
        let table = read(sheet).ok_or(None)?;
        if !self.valid(&table) || packet.len() > 16 {
            return Err(None);
        }
        let before = self.window;
        for (place, observation) in packet.iter().enumerate() {
            if !self.hear(&table, observation.index, observation.position) {
                self.window = before;
                return Err(Some(place));
            }
        }
        Ok(())
    }

    pub fn act(&mut self, sheet: &[u8]) -> Option<u8> {
        let table = read(sheet)?;
        if !self.valid(&table) || self.turn == 1_000_000 {
            return None;
        }
        let a = table.actions as usize;
        let command = if 2 * self.turn < table.delay {
            let length = (table.delay + 1) / 2;
            let word = table.words.iter().position(|&flag| flag == 1)?;
            (word / a.pow((length - 1 - self.turn) as u32) % a) as u8
        } else {
            let position = self.window[table.delay]?;
            let half = table.delay / 2;
            let word = self.last[..half].iter().rev().fold(0, |w, &c| w * a + c as usize);
            let mask = table.masks[position as usize * a.pow(half as u32) + word];
            if mask == 0 {
                return None;
            }
            mask.trailing_zeros() as u8
        };
        self.turn += 1;
        self.last = [command, self.last[0], self.last[1]];
        let old = self.window;
        self.window = [None; 7];
        for k in 2..=table.delay {
            self.window[k] = old[k - 2];
        }
        Some(command)
    }
}
