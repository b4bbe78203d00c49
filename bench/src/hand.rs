//! The same reading, rounds, judging and posting written by hand over flat arrays: what an engineer would write without proofs.
use crate::cabin::{self, Table};
use loquatquoits_tests::judge::Judgement;

pub struct Hand {
    pub positions: usize,
    start: usize,
    pub actions: usize,
    pub delay: usize,
    pub reached: usize,
    kinds: Vec<u8>,
    pub grid: Vec<[u16; 8]>,
    lines: Lines,
    to: Vec<u8>,
}

/// For each position, where its lines begin and end in its body: C for an own one, U for the yard's.
type Lines = [(u16, u16); 256];

pub const ABSENT: u16 = 256;

/// The bodies of a sheet whose contents are right but for its end, and where the last one ends.
pub fn bodies<'a, const N: usize>(sheet: &'a [u8], letters: &[u8; N]) -> Option<([&'a [u8]; N], usize)> {
    if sheet.len() < 5 * N {
        return None;
    }
    let number = |i: usize| sheet[i] as usize + 256 * sheet[i + 1] as usize;
    let mut at = 5 * N;
    let mut bodies = [&sheet[..0]; N];
    for (k, letter) in letters.iter().enumerate() {
        let size = number(5 * k + 3);
        if sheet[5 * k] != *letter || number(5 * k + 1) != at || sheet.len() < at + size {
            return None;
        }
        bodies[k] = &sheet[at..at + size];
        at += size;
    }
    Some((bodies, at))
}

/// A sheet that passes checks 1 to 7, and 24.
pub struct Reading<'a> {
    bodies: [&'a [u8]; 4],
    lines: Lines,
    pub reached: usize,
    pub holding: bool,
}

fn add_lines(lines: &mut Lines, body: &[u8], width: usize) {
    for (k, line) in body.chunks(width).enumerate() {
        let (first, end) = &mut lines[line[0] as usize];
        if *end == 0 {
            *first = k as u16;
        }
        *end = k as u16 + 1;
    }
}

/// How many positions are reached from the start: a queue of those met, each of whose lines is looked at once.
fn reached([s, p, c, u]: [&[u8]; 4], lines: &Lines) -> usize {
    let mut met = [false; 256];
    let mut queue = [0; 256];
    let (mut next, mut end) = (0, 1);
    queue[0] = s[0];
    met[s[0] as usize] = true;
    while next < end {
        let from = queue[next] as usize;
        next += 1;
        let mut meet = |to: u8| {
            if !met[to as usize] {
                met[to as usize] = true;
                queue[end] = to;
                end += 1;
            }
        };
        let range = lines[from].0 as usize..lines[from].1 as usize;
        if p[from] < 2 {
            c[3 * range.start..3 * range.end].chunks_exact(3).for_each(|line| meet(line[2]));
        } else {
            u[2 * range.start..2 * range.end].chunks_exact(2).for_each(|line| meet(line[1]));
        }
    }
    end
}

pub fn read(sheet: &[u8]) -> Option<Reading<'_>> {
    let ([s, p, c, u, gates], at) = match sheet.get(1..3)? {
        [20, 0] => bodies(sheet, b"SPCU").map(|([s, p, c, u], at)| ([s, p, c, u, &[0]], at))?,
        _ => bodies(sheet, b"SPCUG")?,
    };
    let bodies = [s, p, c, u];
    let own = |q: u8| p.get(q as usize).is_some_and(|&kind| kind < 2);
    let other = |q: u8| p.get(q as usize).is_some_and(|&kind| kind >= 2);
    let rising = |b: &[u8], width: usize| {
        b.chunks(width).zip(b.chunks(width).skip(1)).all(|(x, y)| (x[0], x[1]) < (y[0], y[1]))
    };
    let mut lines = [(0, 0); 256];
    add_lines(&mut lines, c, 3);
    add_lines(&mut lines, u, 2);
    let right = at == sheet.len()
        && !p.is_empty()
        && p.len() <= 256
        && p.iter().all(|&kind| kind <= 3)
        && s.len() == 3
        && (1..=8).contains(&s[1])
        && s[2] <= 6
        && own(s[0])
        && c.len() % 3 == 0
        && c.chunks(3).all(|line| own(line[0]) && line[1] < s[1] && other(line[2]))
        && rising(c, 3)
        && u.len() % 2 == 0
        && u.len() <= 8192
        && u.chunks(2).all(|line| other(line[0]) && own(line[1]))
        && rising(u, 2)
        && lines[..p.len()].iter().all(|&(_, end)| end != 0)
        && gates.len() == 1
        && gates[0] <= 1
        && p.len() * (s[1] as usize).pow(s[2] as u32 / 2) <= 16_384;
    right.then(|| Reading { bodies, lines, reached: reached(bodies, &lines), holding: gates[0] == 1 })
}

impl Hand {
    /// From a sheet that is accepted.
    pub fn new(sheet: &[u8]) -> Hand {
        let Reading { bodies: [s, p, c, u], lines, reached, holding } = read(sheet).unwrap();
        let mut grid = vec![[ABSENT; 8]; p.len()];
        for line in c.chunks(3) {
            grid[line[0] as usize][line[1] as usize] = line[2] as u16;
        }
        // a missing command is done by command 0
        for row in grid.iter_mut().filter(|row| holding && row[0] != ABSENT) {
            let held = row[0];
            row[1..s[1] as usize].iter_mut().filter(|target| **target == ABSENT).for_each(|target| *target = held);
        }
        Hand {
            positions: p.len(),
            start: s[0] as usize,
            actions: s[1] as usize,
            delay: s[2] as usize,
            reached,
            kinds: p.to_vec(),
            grid,
            lines,
            to: u.chunks(2).map(|l| l[1]).collect(),
        }
    }

    pub fn own(&self, p: usize) -> bool {
        self.kinds[p] < 2
    }

    pub fn safe(&self, p: usize) -> bool {
        self.kinds[p] % 2 == 0
    }

    /// Of a yard position.
    pub fn moves(&self, p: usize) -> &[u8] {
        let (first, end) = self.lines[p];
        &self.to[first as usize..end as usize]
    }

    /// Is a command spoilt at a pair? h is the command that is then played, and rest what is pending after it. The lines are looked at
    /// from the last to the first.
    fn spoilt(&self, odd: bool, power: usize, ranks: &[u16], n: u16, p: usize, h: usize, rest: usize) -> bool {
        let fallen = |q: usize| {
            let rank = ranks[q * power + rest];
            rank != 0 && rank <= n
        };
        if odd {
            return self.moves(p).iter().rev().any(|&r| {
                let target = self.grid[r as usize][h];
                !self.safe(r as usize) || target == ABSENT || fallen(target as usize)
            });
        }
        let target = self.grid[p][h];
        target == ABSENT
            || !self.safe(target as usize)
            || self.moves(target as usize).iter().rev().any(|&r| fallen(r as usize))
    }

    /// Goes over the pairs of the right side: number, position, oldest command and the rest of the word times the commands. Where
    /// no command is pending the chosen one is the oldest.
    fn each(&self, odd: bool, power: usize, mut visit: impl FnMut(usize, usize, usize, usize)) {
        let younger = power / self.actions;
        for p in (0..self.positions).filter(|&p| self.own(p) != odd) {
            if power == 1 {
                visit(p, p, 0, 0);
                continue;
            }
            let mut k = p * power;
            for h in 0..self.actions {
                for y in 0..younger {
                    visit(k, p, h, y * self.actions);
                    k += 1;
                }
            }
        }
    }

    fn spoilt_at(&self, odd: bool, power: usize, ranks: &[u16], n: u16, p: usize, h: usize, rest: usize, c: usize) -> bool {
        if power == 1 {
            return self.spoilt(odd, power, ranks, n, p, c, 0);
        }
        self.spoilt(odd, power, ranks, n, p, h, rest + c)
    }

    fn rounds(&self, delay: usize, ranks: &mut [u16]) -> u16 {
        let odd = delay % 2 == 1;
        let power = self.actions.pow(delay as u32 / 2);
        for (p, ranks) in ranks.chunks_mut(power).enumerate() {
            ranks.fill(u16::from(self.own(p) != odd && !self.safe(p)));
        }
        let mut n = 1;
        loop {
            let mut any = false;
            self.each(odd, power, |k, p, h, rest| {
                if ranks[k] == 0 && (0..self.actions).all(|c| self.spoilt_at(odd, power, ranks, n, p, h, rest, c)) {
                    ranks[k] = n + 1;
                    any = true;
                }
            });
            if !any {
                return n;
            }
            n += 1;
        }
    }

    /// Is a first word good?
    fn good(&self, odd: bool, power: usize, ranks: &[u16], v: usize) -> bool {
        if !odd {
            return ranks[self.start * power + v] == 0;
        }
        let target = self.grid[self.start][v / power];
        self.safe(self.start) && target != ABSENT && ranks[target as usize * power + v % power] == 0
    }

    pub fn wins(&self, delay: usize, ranks: &[u16]) -> bool {
        let odd = delay % 2 == 1;
        let power = self.actions.pow(delay as u32 / 2);
        let words = if odd { power * self.actions } else { power };
        (0..words).any(|v| self.good(odd, power, ranks, v))
    }

    fn differs(&self, table: &Table) -> bool {
        let numbers = [table.start as usize, table.actions as usize, table.delay, table.highest as usize + 1];
        numbers != [self.start, self.actions, self.delay, self.positions]
    }

    /// What is said of a table, or none where the sheets differ in a number. Pairs without a mask count as fallen, in round 1.
    pub fn judge(&self, table: &Table) -> Option<Judgement> {
        if self.differs(table) {
            return None;
        }
        let odd = self.delay % 2 == 1;
        let power = self.actions.pow(self.delay as u32 / 2);
        let masks = table.masks;
        let ranks: Vec<u16> = masks.iter().map(|&mask| u16::from(mask == 0)).collect();
        let bad_word = |&v: &usize| table.words[v] == 1 && !self.good(odd, power, &ranks, v);
        if let Some(v) = (0..table.words.len()).find(bad_word) {
            return Some(Judgement::Word(v));
        }
        let barred = (0..self.positions).filter(|&p| self.own(p) == odd || !self.safe(p));
        let mut first = barred.flat_map(|p| p * power..(p + 1) * power).find(|&k| masks[k] != 0).unwrap_or(usize::MAX);
        self.each(odd, power, |k, p, h, rest| {
            let spoilt = |c: usize| masks[k] >> c & 1 == 1 && self.spoilt_at(odd, power, &ranks, 1, p, h, rest, c);
            if k < first && (0..self.actions).any(spoilt) {
                first = k;
            }
        });
        Some(if first == usize::MAX { Judgement::Sound } else { Judgement::Pair(first) })
    }

    /// The posted sheet's length and whether a word remains, or none where it is refused; a table without a flagged word, which the proved
    /// one reads, is not measured. The commands of all masks are looked at again until no pair loses its last one.
    pub fn post(&mut self, sheet: &[u8], notice: &[u8], out: &mut [u8]) -> Option<(usize, bool)> {
        let table = cabin::read(sheet).filter(|table| !self.differs(table))?;
        if notice.iter().any(|&p| p as usize >= self.positions) || out.len() < sheet.len() {
            return None;
        }
        notice.iter().for_each(|&p| self.kinds[p as usize] |= 1);
        let odd = self.delay % 2 == 1;
        let power = self.actions.pow(self.delay as u32 / 2);
        out[..sheet.len()].copy_from_slice(sheet);
        let (flags, masks) = out[19..sheet.len()].split_at_mut(table.words.len());
        for p in (0..self.positions).filter(|&p| self.own(p) == odd || !self.safe(p)) {
            masks[p * power..(p + 1) * power].fill(0);
        }
        let mut ranks: Vec<u16> = masks.iter().map(|&mask| u16::from(mask == 0)).collect();
        let mut fell = true;
        while fell {
            fell = false;
            self.each(odd, power, |k, p, h, rest| {
                let mut left = masks[k];
                while left != 0 {
                    let c = left.trailing_zeros() as usize;
                    left &= left - 1;
                    if self.spoilt_at(odd, power, &ranks, 1, p, h, rest, c) {
                        masks[k] &= !(1 << c);
                    }
                }
                if masks[k] == 0 && ranks[k] == 0 {
                    ranks[k] = 1;
                    fell = true;
                }
            });
        }
        for (v, flag) in flags.iter_mut().enumerate().filter(|(_, flag)| **flag == 1) {
            *flag = u8::from(self.good(odd, power, &ranks, v));
        }
        Some((sheet.len(), flags.contains(&1)))
    }

    /// None where the asked lag wins, else the losing lag; the buffers as the proved solver fills them.
    pub fn solve(&self, masks: &mut [u8], ranks: &mut [u16]) -> Option<u8> {
        for delay in 0..=self.delay {
            let power = self.actions.pow(delay as u32 / 2);
            let nodes = self.positions * power;
            let n = self.rounds(delay, &mut ranks[..nodes]);
            let lost = !self.wins(delay, ranks);
            if lost || delay == self.delay {
                let odd = delay % 2 == 1;
                masks[..nodes].fill(0);
                self.each(odd, power, |k, p, h, rest| {
                    if ranks[k] == 0 {
                        for c in 0..self.actions {
                            masks[k] |= u8::from(!self.spoilt_at(odd, power, &ranks[..nodes], n, p, h, rest, c)) << c;
                        }
                    }
                });
                return if lost { Some(delay as u8) } else { None };
            }
        }
        unreachable!()
    }
}
