//! The cabin from document 01's words, and its packets from document 02's (W-204): a winning sheet read anew, and a state that remembers
//! every command and every report. Nothing here is shared with the Rattle code.
use crate::naive;
use crate::sheets::house;
use std::collections::BTreeMap;
use std::ops::RangeInclusive;

/// A winning sheet, decoded.
#[derive(Clone, Debug)]
pub struct Table {
    pub start: u8,
    pub actions: u8,
    pub delay: u8,
    pub highest: u8,
    pub words: Vec<u8>,
    pub masks: Vec<u8>,
    /// Offset and length of the T body.
    pub place: (usize, usize),
}

/// "Reading a winning sheet": 10, 11, 12 in this order.
pub fn read(sheet: &[u8]) -> Result<Table, u8> {
    let table = read_any(sheet)?;
    if table.words.contains(&1) { Ok(table) } else { Err(12) }
}

/// 10 and 11 only: a sheet with W all 0 is read.
pub fn read_any(sheet: &[u8]) -> Result<Table, u8> {
    let places = naive::contents(sheet, b"SWT").ok_or(10)?;
    let body = |k: usize| &sheet[places[k].0..places[k].0 + places[k].1];
    let (s, w, t) = (body(0), body(1), body(2));
    if s.len() != 4 || s[1] < 1 || s[1] > 8 || s[2] > 6 || s[0] > s[3] {
        return Err(11);
    }
    let a = s[1] as u64;
    let pairs = (s[3] as u64 + 1) * a.pow(s[2] as u32 / 2);
    let first_words = a.pow((s[2] as u32 + 1) / 2);
    let too_wide = |mask: &u8| (*mask as u64) >= 1 << a;
    if pairs > 16_384
        || w.len() as u64 != first_words
        || t.len() as u64 != pairs
        || w.iter().any(|&flag| flag > 1)
        || t.iter().any(too_wide)
    {
        return Err(11);
    }
    Ok(Table {
        start: s[0],
        actions: s[1],
        delay: s[2],
        highest: s[3],
        words: w.to_vec(),
        masks: t.to_vec(),
        place: places[2],
    })
}

impl Table {
    /// The table whose S body is this.
    pub fn new([start, actions, delay, highest]: [u8; 4], words: Vec<u8>, masks: Vec<u8>) -> Table {
        let place = (19 + words.len(), masks.len());
        Table { start, actions, delay, highest, words, masks, place }
    }

    fn half(&self) -> usize {
        self.delay as usize / 2
    }

    /// The bytes that read as this table.
    pub fn sheet(&self) -> Vec<u8> {
        let header = [self.start, self.actions, self.delay, self.highest];
        house(&[(b'S', &header), (b'W', &self.words), (b'T', &self.masks)])
    }

    /// The bytes with these of the faults 10 to 12.
    pub fn faulty_sheet(&self, faults: &[u8]) -> Vec<u8> {
        let has = |fault: u8| faults.contains(&fault);
        let mut table = self.clone();
        if has(12) {
            table.words.fill(0);
        }
        if has(11) {
            table.words[0] = 2;
        }
        let mut sheet = table.sheet();
        sheet.extend(has(10).then_some(0));
        sheet
    }

    /// The indices of the window at turn i: "from 2i - d to 2i", "never below 0".
    pub fn window(&self, i: usize) -> RangeInclusive<usize> {
        (2 * i).saturating_sub(self.delay as usize)..=2 * i
    }

    /// A first word's command of turn i.
    pub fn first_command(&self, word: usize, i: usize) -> u8 {
        let length = (self.delay as usize + 1) / 2;
        (word / (self.actions as usize).pow((length - 1 - i) as u32) % self.actions as usize) as u8
    }

    /// The mask of a position with the last of the commands given.
    pub fn mask(&self, position: u8, given: &[u8]) -> u8 {
        let a = self.actions as usize;
        let last = &given[given.len() - self.half()..];
        let word = last.iter().fold(0, |w, &c| w * a + c as usize);
        self.masks[position as usize * a.pow(self.half() as u32) + word]
    }

    /// The command of turn i: document 01's one rule, over positions by index and all commands given.
    pub fn command(&self, i: usize, position: impl Fn(usize) -> Option<u8>, given: &[u8]) -> Result<u8, u8> {
        if 2 * i < self.delay as usize {
            let least = self.words.iter().position(|&flag| flag == 1).unwrap();
            return Ok(self.first_command(least, i));
        }
        let mask = self.mask(position(2 * i - self.delay as usize).ok_or(13)?, given);
        (0..8).find(|c| mask >> c & 1 == 1).ok_or(14)
    }
}

pub const LAST_TURN: usize = 1_000_000;

/// The record of a report, laid out as C's `lq_observation`.
#[repr(C)]
#[derive(Clone, Copy, Debug, PartialEq, Eq)]
pub struct Observation {
    pub index: usize,
    pub position: u8,
}

/// Of a packet, "the first refusal and, for 16 to 19 only, its place in the list, from 0".
pub type Refusal = (u8, Option<usize>);

/// Reports heard: positions by index.
pub type Heard = BTreeMap<usize, u8>;

/// "Hearing a report" at turn i, once it has come to 16.
fn hear(table: &Table, i: usize, heard: &mut Heard, Observation { index, position }: Observation) -> Result<(), u8> {
    if position > table.highest {
        return Err(16);
    }
    if index < *table.window(i).start() {
        return Err(17);
    }
    if index > *table.window(i).end() {
        return Err(18);
    }
    if heard.get(&index).is_some_and(|&p| p != position) {
        return Err(19);
    }
    heard.insert(index, position);
    Ok(())
}

/// A packet at turn i, once it has come to 22: what is heard after "hearing them singly, first to last", each with the ones before it. It
/// is worked on a copy, as of a refused packet "nothing is heard".
fn hear_all(table: &Table, i: usize, heard: &Heard, packet: &[Observation]) -> Result<Heard, Refusal> {
    if packet.len() > 16 {
        return Err((22, None));
    }
    let mut after = heard.clone();
    for (place, &observation) in packet.iter().enumerate() {
        hear(table, i, &mut after, observation).map_err(|number| (number, Some(place)))?;
    }
    Ok(after)
}

/// A cabin that remembers everything.
#[derive(Clone, Debug, Default)]
pub struct Cabin {
    pub given: Vec<u8>,
    pub heard: Heard,
}

impl Cabin {
    /// 16 to 19, at the turn after the commands given.
    pub fn hear(&mut self, table: &Table, observation: Observation) -> Result<(), u8> {
        hear(table, self.given.len(), &mut self.heard, observation)
    }

    /// 22, then 16 to 19 per record.
    pub fn hear_all(&mut self, table: &Table, packet: &[Observation]) -> Result<(), Refusal> {
        self.heard = hear_all(table, self.given.len(), &self.heard, packet)?;
        Ok(())
    }

    /// 15, 13, 14 or the command.
    pub fn give(&mut self, table: &Table) -> Result<u8, u8> {
        if self.given.len() == LAST_TURN {
            return Err(15);
        }
        let command = table.command(self.given.len(), |index| self.heard.get(&index).copied(), &self.given)?;
        self.given.push(command);
        Ok(command)
    }
}

/// The bytes of a state as `include/loquatquoits.h` lays them out.
pub struct Bytes<'a>(pub &'a [u8; 21]);

impl Bytes<'_> {
    pub fn turn(&self) -> u32 {
        u32::from_le_bytes([self.0[0], self.0[1], self.0[2], self.0[3]])
    }

    /// The command given k turns before the last one.
    pub fn held(&self, k: usize) -> u8 {
        self.0[4 + k]
    }

    /// What was heard of the index 2 * turn - k.
    pub fn heard(&self, k: usize) -> Option<u8> {
        (self.0[7 + 2 * k] != 0).then_some(self.0[8 + 2 * k])
    }

    /// What was heard of the window.
    pub fn window(&self, table: &Table) -> Heard {
        let turn = self.turn() as usize;
        table.window(turn).filter_map(|index| Some((index, self.heard(2 * turn - index)?))).collect()
    }

    /// Refusal 20's reasons, and no other.
    pub fn refused(&self, table: &Table) -> bool {
        let turn = self.turn() as usize;
        let held = (table.delay as usize / 2).min(turn);
        turn > LAST_TURN
            || (0..held).any(|k| self.held(k) >= table.actions)
            || self.window(table).values().any(|&position| position > table.highest)
    }
}

/// W-204 over the bytes of a sheet and of a state: "10 to 12 and 20, then 22 for more than 16, then 16 to 19 per record". Accepted: the
/// state's bytes after, in which each index that was not heard before has the two bytes of its report, and no other byte changes.
pub fn observe_all(sheet: &[u8], state: &[u8; 21], packet: &[Observation]) -> Result<[u8; 21], Refusal> {
    let table = read(sheet).map_err(|number| (number, None))?;
    let bytes = Bytes(state);
    if bytes.refused(&table) {
        return Err((20, None));
    }
    let (turn, before) = (bytes.turn() as usize, bytes.window(&table));
    let mut after = *state;
    for (index, position) in hear_all(&table, turn, &before, packet)? {
        if !before.contains_key(&index) {
            let k = 2 * turn - index;
            after[7 + 2 * k] = 1;
            after[8 + 2 * k] = position;
        }
    }
    Ok(after)
}
