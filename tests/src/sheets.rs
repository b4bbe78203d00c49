//! Yards as data and as the bytes of a sheet: document 01, "Sheets", and document 02, W-207.
use crate::random::Random;

#[derive(Clone, Debug)]
pub struct Yard {
    pub start: u8,
    pub actions: u8,
    pub delay: u8,
    /// One byte a position: 0 own and safe, 1 own and unsafe, 2 yard and safe, 3 yard and unsafe.
    pub kinds: Vec<u8>,
    /// From, command, to; rising.
    pub targets: Vec<[u8; 3]>,
    /// From, to; rising.
    pub moves: Vec<[u8; 2]>,
    /// The G body, where the sheet has one: document 02, W-207.
    pub gates: Option<Vec<u8>>,
}

/// House form: the contents, then the bodies back to back.
pub fn house(parts: &[(u8, &[u8])]) -> Vec<u8> {
    let mut sheet = Vec::new();
    let mut at = 5 * parts.len();
    for (letter, body) in parts {
        sheet.push(*letter);
        for number in [at, body.len()] {
            sheet.extend_from_slice(&(number as u16).to_le_bytes());
        }
        at += body.len();
    }
    for (_, body) in parts {
        sheet.extend_from_slice(body);
    }
    sheet
}

/// The letters of a yard sheet, the last of which may be missing.
pub const LETTERS: [u8; 5] = *b"SPCUG";

/// The bodies of a yard sheet with their letters.
pub fn parts(bodies: &[Vec<u8>]) -> Vec<(u8, &[u8])> {
    LETTERS.iter().zip(bodies).map(|(&letter, body)| (letter, &body[..])).collect()
}

impl Yard {
    /// The bodies S, P, C, U and, where there is one, G.
    pub fn bodies(&self) -> Vec<Vec<u8>> {
        let header = vec![self.start, self.actions, self.delay];
        let mut bodies = vec![header, self.kinds.clone(), self.targets.concat(), self.moves.concat()];
        bodies.extend(self.gates.clone());
        bodies
    }

    pub fn sheet(&self) -> Vec<u8> {
        house(&parts(&self.bodies()))
    }

    /// With this G body.
    pub fn gated(&self, body: &[u8]) -> Yard {
        Yard { gates: Some(body.to_vec()), ..self.clone() }
    }

    /// The same lines with holding gates.
    pub fn holding(&self) -> Yard {
        self.gated(&[1])
    }

    /// The completed yard written out as lines, without G: at each position a command that has no line gets the target of command 0, where
    /// that has one.
    pub fn completed(&self) -> Yard {
        let target = |p: u8, c: u8| self.targets.iter().find(|line| line[..2] == [p, c]).map(|line| line[2]);
        let commands = (0..self.kinds.len()).flat_map(|p| (0..self.actions).map(move |c| (p as u8, c)));
        let targets = commands.filter_map(|(p, c)| Some([p, c, target(p, c).or(target(p, 0))?])).collect();
        Yard { targets, gates: None, ..self.clone() }
    }

    pub fn at(&self, delay: u8) -> Yard {
        Yard { delay, ..self.clone() }
    }

    /// Pairs at the asked delay.
    pub fn pairs(&self) -> usize {
        self.kinds.len() * (self.actions as usize).pow(self.delay as u32 / 2)
    }

    /// The length that refusal 9 asks for, at the asked lag.
    pub fn owed_length(&self) -> usize {
        19 + (self.actions as usize).pow((self.delay as u32 + 1) / 2) + 2 * self.pairs()
    }

    /// The same yard with these positions unsafe: in P, 0 becomes 1 and 2 becomes 3.
    pub fn closed(&self, notice: &[u8]) -> Yard {
        let mut yard = self.clone();
        for &p in notice {
            yard.kinds[p as usize] |= 1;
        }
        yard
    }

    /// A new start, from which command 0 leads into the yard and any other into a loop beside it. The last position is the loop's own one.
    pub fn beside_a_loop(&self) -> Yard {
        let start = self.kinds.len() as u8;
        let (lane, gate, bay) = (start + 1, start + 2, start + 3);
        let mut yard = Yard { start, ..self.clone() };
        yard.kinds.extend([0, 2, 2, 0]);
        yard.targets.extend((0..self.actions).map(|c| [start, c, if c == 0 { lane } else { gate }]));
        yard.targets.extend((0..self.actions).map(|c| [bay, c, gate]));
        yard.moves.extend([[lane, self.start], [gate, bay]]);
        yard
    }

    /// The same yard, its positions numbered from the other end.
    pub fn turned(&self) -> Yard {
        let number = |p: u8| (self.kinds.len() - 1) as u8 - p;
        let mut targets: Vec<_> = self.targets.iter().map(|&[p, c, q]| [number(p), c, number(q)]).collect();
        let mut moves: Vec<_> = self.moves.iter().map(|line| line.map(number)).collect();
        targets.sort_unstable();
        moves.sort_unstable();
        let kinds = self.kinds.iter().rev().copied().collect();
        Yard { start: number(self.start), kinds, targets, moves, gates: self.gates.clone(), ..*self }
    }
}

fn yard(actions: u8, kinds: &[u8], targets: &[[u8; 3]], moves: &[[u8; 2]]) -> Yard {
    Yard { start: 0, actions, delay: 0, kinds: kinds.to_vec(), targets: targets.to_vec(), moves: moves.to_vec(), gates: None }
}

pub fn guess() -> Yard {
    yard(2, &[0, 0, 2, 3], &[[0, 0, 2], [0, 1, 3], [1, 0, 3], [1, 1, 2]], &[[2, 0], [2, 1], [3, 0]])
}

pub fn split_gate() -> Yard {
    yard(2, &[0, 0, 2], &[[0, 0, 2], [1, 1, 2]], &[[2, 0], [2, 1]])
}

pub fn looped() -> Yard {
    yard(1, &[0, 2], &[[0, 0, 1]], &[[1, 0]])
}

pub fn hall() -> Yard {
    yard(
        2,
        &[0, 0, 0, 0, 2, 2, 2],
        &[[0, 0, 4], [0, 1, 4], [1, 0, 5], [1, 1, 5], [2, 0, 6], [3, 1, 6]],
        &[[4, 2], [5, 3], [6, 0], [6, 1]],
    )
}

/// A hall with one free turn more: the yard's choice at position 10 is needed four moves later, so lag 4 wins and lag 5 does not.
pub fn long_hall() -> Yard {
    yard(
        2,
        &[0, 0, 0, 0, 0, 0, 2, 2, 2, 2, 2],
        &[[0, 0, 6], [0, 1, 6], [1, 0, 7], [1, 1, 7], [2, 0, 8], [2, 1, 8], [3, 0, 9], [3, 1, 9], [4, 0, 10], [5, 1, 10]],
        &[[6, 2], [7, 3], [8, 4], [9, 5], [10, 0], [10, 1]],
    )
}

/// From the gate, position 0, command 0 leads by lane 3 to bay 1 and command 1 by lane 4 to bay 2; from either bay any command leads back.
pub fn two_bays() -> Yard {
    yard(
        2,
        &[0, 0, 0, 2, 2, 2],
        &[[0, 0, 3], [0, 1, 4], [1, 0, 5], [1, 1, 5], [2, 0, 5], [2, 1, 5]],
        &[[3, 1], [4, 2], [5, 0]],
    )
}

/// The start leads into a loop that does not come back to it.
pub fn lead_in() -> Yard {
    yard(1, &[0, 0, 2, 2], &[[0, 0, 2], [1, 0, 3]], &[[2, 1], [3, 1]])
}

/// The guess yard without its moves 0 1 3 and 2 1: from the start, positions 1 and 3 are cut off.
pub fn cut_guess() -> Yard {
    yard(2, &[0, 0, 2, 3], &[[0, 0, 2], [1, 0, 3], [1, 1, 2]], &[[2, 0], [3, 0]])
}

/// A chain: from each own position the yard goes one on, the last is unsafe, so that every round strikes one position more.
pub fn chain(links: usize) -> Yard {
    let own = |k: usize| (2 * k) as u8;
    let other = |k: usize| (2 * k + 1) as u8;
    let kinds = (0..links).flat_map(|k| [u8::from(k + 1 == links), 2]).collect();
    let targets = (0..links).flat_map(|k| [[own(k), 0, other(k)], [own(k), 1, other(k)]]).collect();
    let moves = (0..links).map(|k| [other(k), own((k + 1) % links)]).collect();
    Yard { start: 0, actions: 2, delay: 0, kinds, targets, moves, gates: None }
}

/// What a random yard is drawn from.
pub struct Shape {
    pub own: usize,
    pub environment: usize,
    pub actions: u8,
    /// Of a hundred commands at an own position, how many are permitted (one always is).
    pub permitted: usize,
    /// At most so many moves from a yard position.
    pub moves: usize,
    /// Of a hundred positions, how many are unsafe.
    pub unsafe_positions: usize,
}

impl Shape {
    /// A shape of which every lag has few pairs, and many win.
    pub fn small(random: &mut Random) -> Shape {
        Shape {
            own: 1 + random.below(5),
            environment: 1 + random.below(5),
            actions: 1 + random.below(3) as u8,
            permitted: *random.pick(&[60, 90, 100]),
            moves: 3,
            unsafe_positions: *random.pick(&[0, 0, 10]),
        }
    }
}

/// A yard of this shape, its sides in random order and its start own.
pub fn random_yard(random: &mut Random, shape: &Shape) -> Yard {
    let n = shape.own + shape.environment;
    let mut sides: Vec<bool> = (0..n).map(|p| p < shape.own).collect();
    random.shuffle(&mut sides);
    let own: Vec<u8> = (0..n).filter(|&p| sides[p]).map(|p| p as u8).collect();
    let other: Vec<u8> = (0..n).filter(|&p| !sides[p]).map(|p| p as u8).collect();
    let kinds = (0..n)
        .map(|p| if sides[p] { 0 } else { 2 } + u8::from(random.percent(shape.unsafe_positions)))
        .collect();
    let mut targets = Vec::new();
    for &p in &own {
        let sure = random.below(shape.actions as usize) as u8;
        for c in 0..shape.actions {
            if c == sure || random.percent(shape.permitted) {
                targets.push([p, c, *random.pick(&other)]);
            }
        }
    }
    let mut moves = Vec::new();
    for &p in &other {
        let mut to: Vec<u8> = (0..1 + random.below(shape.moves)).map(|_| *random.pick(&own)).collect();
        to.sort_unstable();
        to.dedup();
        moves.extend(to.into_iter().map(|t| [p, t]));
    }
    Yard { start: *random.pick(&own), actions: shape.actions, delay: 0, kinds, targets, moves, gates: None }
}

/// Damage of one kind to a sheet.
pub fn damage(random: &mut Random, sheet: &mut Vec<u8>) {
    let at = random.below(sheet.len());
    let other = random.below(sheet.len());
    match random.below(6) {
        0 => sheet[at] = random.next() as u8,
        1 => sheet[at] = sheet[at].wrapping_add(1),
        2 => sheet.truncate(at),
        3 => sheet.swap(at, other),
        4 => sheet.push(random.next() as u8),
        _ => sheet[at] = random.below(9) as u8,
    }
}
