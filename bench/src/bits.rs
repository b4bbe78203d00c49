//! The same rounds with the newest pending command as the bit of a byte: what has fallen is a row of bytes for each position, and a round
//! joins whole rows. The second hand-written version, an engineer's who looks for speed.
use crate::hand::{Hand, ABSENT};

/// What has fallen at one lag: for each position a row with a byte for each word without its newest command.
struct Rows {
    width: usize,
    bytes: Vec<u8>,
}

impl Rows {
    fn new(positions: usize, width: usize) -> Rows {
        Rows { width, bytes: vec![0; positions * width] }
    }

    fn row(&self, position: usize) -> &[u8] {
        &self.bytes[position * self.width..(position + 1) * self.width]
    }

    fn row_mut(&mut self, position: usize) -> &mut [u8] {
        &mut self.bytes[position * self.width..(position + 1) * self.width]
    }
}

fn join(row: &mut [u8], other: &[u8]) {
    for (a, b) in row.iter_mut().zip(other) {
        *a |= b;
    }
}

/// The commands that are spoilt at each pair, for a position and the command that is played, as a row over the rest of the word.
fn spoilt_row(game: &Hand, odd: bool, fallen: &Rows, full: u8, p: usize, h: usize, row: &mut [u8]) {
    row.fill(0);
    let played = |from: usize| Some(game.grid[from][h]).filter(|&target| target != ABSENT).map(usize::from);
    if odd {
        for &r in game.moves(p) {
            match played(r as usize).filter(|_| game.safe(r as usize)) {
                Some(target) => join(row, fallen.row(target)),
                None => return row.fill(full),
            }
        }
        return;
    }
    match played(p).filter(|&target| game.safe(target)) {
        Some(target) => game.moves(target).iter().for_each(|&r| join(row, fallen.row(r as usize))),
        None => row.fill(full),
    }
}

/// The ranks of one lag, and the rows of spoilt commands that go with them: for each position and command played.
fn rounds(game: &Hand, delay: usize, ranks: &mut [u16], spoilt: &mut Rows) {
    let odd = delay % 2 == 1;
    let power = game.actions.pow(delay as u32 / 2);
    let full = ((1u32 << game.actions) - 1) as u8;
    // no pending command: a row of one byte, whose lowest bit says that the position has fallen
    let width = (power / game.actions).max(1);
    let mut fallen = Rows::new(game.positions, width);
    let filled = if power == 1 { 1 } else { full };
    for (p, ranks) in ranks.chunks_mut(power).enumerate() {
        let falls = game.own(p) != odd && !game.safe(p);
        ranks.fill(u16::from(falls));
        if falls {
            fallen.row_mut(p).fill(filled);
        }
    }
    let mut row = vec![0; width];
    let mut n = 1;
    loop {
        let mut struck = Vec::new();
        for p in (0..game.positions).filter(|&p| game.own(p) != odd) {
            for h in 0..game.actions {
                let at = p * game.actions + h;
                spoilt_row(game, odd, &fallen, if power == 1 { 1 } else { full }, p, h, &mut row);
                spoilt.row_mut(at).copy_from_slice(&row);
            }
            if power == 1 {
                if ranks[p] == 0 && (0..game.actions).all(|h| spoilt.row(p * game.actions + h)[0] != 0) {
                    struck.push(p);
                }
                continue;
            }
            let all = &spoilt.bytes[p * power..(p + 1) * power];
            struck.extend((0..power).filter(|&w| all[w] == full && ranks[p * power + w] == 0).map(|w| p * power + w));
        }
        if struck.is_empty() {
            return;
        }
        n += 1;
        for k in struck {
            ranks[k] = n;
            let (p, w) = (k / power, k % power);
            fallen.row_mut(p)[w / game.actions] |= 1 << (w % game.actions);
        }
    }
}

/// As `Hand::solve`.
pub fn solve(game: &Hand, masks: &mut [u8], ranks: &mut [u16]) -> Option<u8> {
    let full = ((1u32 << game.actions) - 1) as u8;
    for delay in 0..=game.delay {
        let power = game.actions.pow(delay as u32 / 2);
        let nodes = game.positions * power;
        let mut spoilt = Rows::new(game.positions * game.actions, (power / game.actions).max(1));
        rounds(game, delay, &mut ranks[..nodes], &mut spoilt);
        let lost = !game.wins(delay, ranks);
        if lost || delay == game.delay {
            for k in 0..nodes {
                let p = k / power;
                let bits = match power {
                    1 => (0..game.actions).map(|h| u8::from(spoilt.row(p * game.actions + h)[0] != 0) << h).sum(),
                    _ => spoilt.bytes[k],
                };
                masks[k] = if ranks[k] == 0 && game.own(p) != (delay % 2 == 1) { full & !bits } else { 0 };
            }
            return if lost { Some(delay as u8) } else { None };
        }
    }
    unreachable!()
}
