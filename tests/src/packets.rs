//! Packets of reports to feed a cabin, with records of every kind, tables and states to feed them to, and answers in words.
use crate::cabin::{Bytes, Heard, Observation, Refusal, Table};
use crate::random::Random;

/// What a packet is answered; an accepted one with its length.
pub fn words_of<T>(answer: &Result<T, Refusal>, length: usize) -> String {
    match answer {
        Ok(_) => format!("accepted, length {length}"),
        Err((number, None)) => format!("refused {number}"),
        Err((number, Some(0))) => format!("refused {number} at place 0"),
        Err((number, Some(_))) => format!("refused {number} at a later place"),
    }
}

/// Answers that are wanted where records are refused with these.
pub fn wanted(numbers: &[u8]) -> Vec<String> {
    let accepted = (0..=16).map(|length| words_of(&Ok(()), length));
    let refused = numbers.iter().flat_map(|&n| [0, 1].map(|place| words_of::<()>(&Err((n, Some(place))), 2)));
    accepted.chain(refused).chain(["refused 22".into()]).collect()
}

/// What a record is to a cabin that has heard some reports before the packet and the accepted ones of the packet before the record.
#[derive(Clone, Copy, Debug, PartialEq, Eq)]
pub enum Kind {
    Fresh,
    /// Fresh too, but a report of a later index was heard first.
    Overtaken,
    /// Of an index that was heard before the packet, or in it.
    RepeatsEarlier,
    RepeatsPacket,
    ContradictsEarlier,
    ContradictsPacket,
    UnknownPosition,
    TooOld,
    TooNew,
    /// An index so large that sums with it pass the largest number.
    FarTooNew,
    /// Any position at any index in the window or near it.
    Any,
}

impl Kind {
    pub const ACCEPTED: [Kind; 4] = [Kind::Fresh, Kind::Overtaken, Kind::RepeatsEarlier, Kind::RepeatsPacket];
    pub const OTHER: [Kind; 7] = [
        Kind::ContradictsEarlier,
        Kind::ContradictsPacket,
        Kind::UnknownPosition,
        Kind::TooOld,
        Kind::TooNew,
        Kind::FarTooNew,
        Kind::Any,
    ];
}

/// The cabin that a packet is drawn for.
struct Receiver<'a> {
    table: &'a Table,
    turn: usize,
    earlier: Heard,
    packet: Heard,
}

impl Receiver<'_> {
    fn known(&self, index: usize) -> Option<u8> {
        self.earlier.get(&index).or(self.packet.get(&index)).copied()
    }

    /// The indices that a record of this kind may have.
    fn indices(&self, kind: Kind) -> Vec<usize> {
        let window = self.table.window(self.turn);
        let (oldest, newest) = (*window.start(), *window.end());
        let unheard = window.clone().filter(|&index| self.known(index).is_none());
        let latest = self.earlier.keys().chain(self.packet.keys()).max().copied();
        match kind {
            Kind::Fresh => unheard.collect(),
            Kind::Overtaken => unheard.filter(|&index| Some(index) < latest).collect(),
            Kind::RepeatsEarlier | Kind::ContradictsEarlier => self.earlier.keys().copied().collect(),
            Kind::RepeatsPacket | Kind::ContradictsPacket => self.packet.keys().copied().collect(),
            Kind::UnknownPosition => window.collect(),
            Kind::TooOld => (oldest.saturating_sub(3)..oldest).collect(),
            Kind::TooNew => (newest + 1..newest + 4).collect(),
            Kind::FarTooNew => (0..8).map(|k| usize::MAX - k).collect(),
            Kind::Any => (oldest.saturating_sub(2)..newest + 3).collect(),
        }
    }

    /// The positions that a record of this kind may have at the index.
    fn positions(&self, kind: Kind, index: usize) -> Vec<u8> {
        let highest = self.table.highest;
        match kind {
            Kind::RepeatsEarlier | Kind::RepeatsPacket => self.known(index).into_iter().collect(),
            Kind::ContradictsEarlier | Kind::ContradictsPacket => (0..=highest).filter(|&p| self.known(index) != Some(p)).collect(),
            Kind::UnknownPosition => (highest..=255).skip(1).collect(),
            Kind::Any => (0..=255).collect(),
            _ => (0..=highest).collect(),
        }
    }

    /// A record of one of these kinds, some of which there always is.
    fn record(&mut self, random: &mut Random, kinds: &[Kind]) -> (Kind, Observation) {
        loop {
            let kind = *random.pick(kinds);
            let indices = self.indices(kind);
            if indices.is_empty() {
                continue;
            }
            let index = *random.pick(&indices);
            let positions = self.positions(kind, index);
            if positions.is_empty() {
                continue;
            }
            let position = *random.pick(&positions);
            if Kind::ACCEPTED.contains(&kind) && !self.earlier.contains_key(&index) {
                self.packet.insert(index, position);
            }
            return (kind, Observation { index, position });
        }
    }
}

/// Of so many records the kinds and the packet: half of all have only such as are accepted one after the other, most others one of another
/// kind at some place, and the rest one here and there.
pub fn random_records(random: &mut Random, table: &Table, state: &[u8; 21], length: usize) -> (Vec<Kind>, Vec<Observation>) {
    let bytes = Bytes(state);
    let mut receiver = Receiver { table, turn: bytes.turn() as usize, earlier: bytes.window(table), packet: Heard::new() };
    let (one, more) = (random.percent(40).then(|| random.below(length.max(1))), random.percent(10));
    let record = |place| {
        let other = one == Some(place) || more && random.percent(30);
        receiver.record(random, if other { &Kind::OTHER } else { &Kind::ACCEPTED })
    };
    (0..length).map(record).unzip()
}

pub fn random_packet(random: &mut Random, table: &Table, state: &[u8; 21], length: usize) -> Vec<Observation> {
    random_records(random, table, state, length).1
}

/// A readable table at this lag, its other numbers, its flags and its masks at random.
pub fn random_table(random: &mut Random, delay: u8) -> Table {
    let actions = 1 + random.below(8);
    let words = actions.pow(delay as u32 / 2);
    let most = (16_384 / words).min(256);
    let any = 1 + random.below(most);
    let positions = *random.pick(&[1, 2, 5, 9, any, most]);
    let mut flags: Vec<u8> = (0..actions.pow((delay as u32 + 1) / 2)).map(|_| random.below(2) as u8).collect();
    let good = random.below(flags.len());
    flags[good] = 1;
    let masks = (0..positions * words).map(|_| random.below(1 << actions) as u8).collect();
    let start = random.below(positions) as u8;
    Table::new([start, actions as u8, delay, (positions - 1) as u8], flags, masks)
}

/// A state that is not refused: what must be in range is, and any byte stands where none is looked at; flags are 0, 1 and others that count
/// as 1.
pub fn random_state(random: &mut Random, table: &Table) -> [u8; 21] {
    let turn = *random.pick(&[0, 1, 2, 3, 4, 7, 500, 999_999, 1_000_000]);
    let mut state = [(); 21].map(|()| random.next() as u8);
    let heard = *random.pick(&[0, 30, 70]);
    state[..4].copy_from_slice(&(turn as u32).to_le_bytes());
    for k in 0..turn.min(table.delay as usize / 2) {
        state[4 + k] = random.below(table.actions as usize) as u8;
    }
    for index in table.window(turn) {
        let k = 2 * turn - index;
        state[7 + 2 * k] = if random.percent(heard) { *random.pick(&[1, 1, 7, 255]) } else { 0 };
        if state[7 + 2 * k] != 0 {
            state[8 + 2 * k] = random.below(table.highest as usize + 1) as u8;
        }
    }
    state
}
