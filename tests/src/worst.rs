//! Yards that are dear to solve: chains that lose one pair a round, beside ballast that never falls and whose moves are long to look
//! through; fans, in which all pairs fall at once and each is an outcome of many; and standing yards, dear where each position has one pair.
//! Beside them a table that loses one pair a sweep.
use crate::cabin::Table;
use crate::random::Random;
use crate::sheets::Yard;
use crate::tables::table_of;

/// Positions and lines as they are added, ordered at the end.
struct Plan {
    kinds: Vec<u8>,
    targets: Vec<[u8; 3]>,
    moves: Vec<[u8; 2]>,
    actions: u8,
}

impl Plan {
    fn new(actions: u8) -> Plan {
        Plan { kinds: Vec::new(), targets: Vec::new(), moves: Vec::new(), actions }
    }

    fn add(&mut self, kind: u8) -> u8 {
        self.kinds.push(kind);
        (self.kinds.len() - 1) as u8
    }

    fn own(&mut self) -> u8 {
        self.add(0)
    }

    fn other(&mut self) -> u8 {
        self.add(2)
    }

    fn target(&mut self, from: u8, command: usize, to: u8) {
        self.targets.push([from, command as u8, to]);
    }

    /// Every command leads to one position.
    fn any(&mut self, from: u8, to: u8) {
        for command in 0..self.actions as usize {
            self.target(from, command, to);
        }
    }

    fn moves(&mut self, from: u8, to: u8) {
        self.moves.push([from, to]);
    }

    fn yard(mut self, start: u8, delay: u8) -> Yard {
        self.targets.sort_unstable();
        self.moves.sort_unstable();
        self.moves.dedup();
        Yard { start, actions: self.actions, delay, kinds: self.kinds, targets: self.targets, moves: self.moves, gates: None }
    }
}

fn permutation(random: &mut Random, n: usize) -> Vec<usize> {
    let mut items: Vec<usize> = (0..n).collect();
    for i in (1..n).rev() {
        items.swap(i, random.below(i + 1));
    }
    items
}

/// What a worst yard is made of.
#[derive(Clone, Copy)]
pub struct Worst {
    pub actions: usize,
    /// 0: even lag, the needed command follows from the last one; 1: odd lag, from the last two.
    pub layers: usize,
    /// Rows of the chain: it has rows × letters positions.
    pub rows: usize,
    /// Ballast: so many positions whose pairs stand for ever.
    pub ballast: usize,
    /// Moves of each ballast position at an odd lag.
    pub width: usize,
    /// Does what falls in each round touch the ballast?
    pub touched: bool,
    pub delay: u8,
}

/// The longest chain of some tries: the yard, and how many links it has.
pub fn worst(shape: &Worst, seed: u64) -> Yard {
    let mut random = Random::new(seed);
    let mut best: Option<(usize, Chain)> = None;
    for _ in 0..400 {
        let chain = Chain::random(&mut random, shape);
        let (length, _) = chain.longest();
        if best.as_ref().is_none_or(|(most, _)| length > *most) {
            best = Some((length, chain));
        }
    }
    best.unwrap().1.yard(shape)
}

/// The permutations of a chain. Its letters are the commands, without the last one where the ballast is touched.
struct Chain {
    letters: usize,
    rows: usize,
    layers: usize,
    /// Row i and letter x lead to a position (row, column).
    next: Vec<usize>,
    /// By letter: column to gadget; by letter: gadget to gadget.
    first: Vec<Vec<usize>>,
    second: Vec<Vec<usize>>,
}

impl Chain {
    fn random(random: &mut Random, shape: &Worst) -> Chain {
        let letters = shape.actions - usize::from(shape.touched);
        Chain {
            letters,
            rows: shape.rows,
            layers: shape.layers,
            next: permutation(random, shape.rows * letters),
            first: (0..letters).map(|_| permutation(random, letters)).collect(),
            second: (0..letters).map(|_| permutation(random, letters)).collect(),
        }
    }

    /// The pair after (position, pending letters), by the one command that keeps it alive.
    fn step(&self, t: usize, x: usize, y: usize) -> (usize, usize, usize) {
        let (row, column) = (t / self.letters, t % self.letters);
        let to = self.next[row * self.letters + x];
        let gadget = self.first[x][column];
        if self.layers == 0 { (to, gadget, 0) } else { (to, y, self.second[y][gadget]) }
    }

    /// The length of the longest cycle of pairs, and a pair on it.
    fn longest(&self) -> (usize, (usize, usize, usize)) {
        let deep = if self.layers == 0 { 1 } else { self.letters };
        let number = |(t, x, y): (usize, usize, usize)| (t * self.letters + x) * deep + y;
        let mut seen = vec![false; self.rows * self.letters * self.letters * deep];
        let mut best = (0, (0, 0, 0));
        for t in 0..self.rows * self.letters {
            for x in 0..self.letters {
                for y in 0..deep {
                    let mut at = (t, x, y);
                    let mut length = 0;
                    while !seen[number(at)] {
                        seen[number(at)] = true;
                        at = self.step(at.0, at.1, at.2);
                        length += 1;
                    }
                    if length > best.0 {
                        best = (length, (t, x, y));
                    }
                }
            }
        }
        best
    }

    /// A position at which one pair is lost: the one with these pending letters.
    fn cut(&self, plan: &mut Plan, haven: u8, x: usize, y: usize) -> u8 {
        let barred = |plan: &mut Plan, letter: usize| {
            let q = plan.own();
            for c in (0..plan.actions as usize).filter(|&c| c != letter) {
                plan.target(q, c, haven);
            }
            q
        };
        let cut = barred(plan, x);
        if self.layers == 1 {
            let (later, end) = (plan.other(), barred(plan, y));
            plan.target(cut, x, later);
            plan.moves(later, end);
        }
        cut
    }

    fn yard(&self, shape: &Worst) -> Yard {
        let mut plan = Plan::new(shape.actions as u8);
        let spare = shape.touched.then_some(shape.actions - 1);
        let (safe, haven) = (plan.own(), plan.other());
        plan.any(safe, haven);
        plan.moves(haven, safe);
        // gadget k: after z k only command k is permitted
        let ends: Vec<u8> = (0..shape.actions)
            .map(|k| {
                let (z, e) = (plan.other(), plan.own());
                plan.moves(z, e);
                plan.target(e, k, haven);
                z
            })
            .collect();
        let letters = self.letters;
        // where the spare letter leads: everywhere it is harmless
        let gadgets: Vec<u8> = if self.layers == 0 {
            ends.clone()
        } else {
            (0..letters)
                .map(|s| {
                    let (m, f) = (plan.other(), plan.own());
                    plan.moves(m, f);
                    for y in 0..letters {
                        plan.target(f, y, ends[self.second[y][s]]);
                    }
                    if let Some(c) = spare {
                        plan.target(f, c, haven);
                    }
                    m
                })
                .collect()
        };
        let columns: Vec<u8> = (0..letters)
            .map(|column| {
                let b = plan.own();
                for x in 0..letters {
                    plan.target(b, x, gadgets[self.first[x][column]]);
                }
                if let Some(c) = spare {
                    plan.target(b, c, haven);
                }
                b
            })
            .collect();
        let links: Vec<u8> = (0..self.rows * letters).map(|_| plan.other()).collect();
        let rows: Vec<u8> = (0..self.rows)
            .map(|i| {
                let n = plan.own();
                for x in 0..letters {
                    plan.target(n, x, links[self.next[i * letters + x]]);
                }
                if let Some(c) = spare {
                    plan.target(n, c, haven);
                }
                n
            })
            .collect();
        for (t, &link) in links.iter().enumerate() {
            plan.moves(link, rows[t / letters]);
            plan.moves(link, columns[t % letters]);
        }
        let (_, (t, x, y)) = self.longest();
        let cut = self.cut(&mut plan, haven, x, y);
        plan.moves(links[t], cut);
        let touching: Vec<u8> = if shape.touched { rows } else { Vec::new() };
        ballast(&mut plan, shape, &ends, &touching, safe);
        plan.yard(safe, shape.delay)
    }
}

/// Pairs that stand for ever: all commands but the last are spoilt by their last line, and the last by none.
fn ballast(plan: &mut Plan, shape: &Worst, ends: &[u8], touching: &[u8], safe: u8) {
    let last = shape.actions - 1;
    if shape.layers == 0 {
        let hub = plan.other();
        let own: Vec<u8> = (0..shape.ballast).map(|_| plan.own()).collect();
        let snare = plan.own();
        plan.any(snare, ends[last]);
        for &q in &own {
            plan.any(q, hub);
            plan.moves(hub, q);
        }
        for &q in touching.iter().chain([&safe, &snare]) {
            plan.moves(hub, q);
        }
        return;
    }
    let hubs: Vec<u8> = (0..shape.ballast).map(|_| plan.other()).collect();
    let doors: Vec<u8> = (0..shape.width).map(|_| plan.own()).collect();
    // a snare two turns before the gadget of the last command
    let (gate, hold, snare) = (plan.other(), plan.own(), plan.own());
    plan.any(hold, ends[last]);
    plan.moves(gate, hold);
    plan.any(snare, gate);
    for (i, &door) in doors.iter().enumerate() {
        plan.any(door, hubs[i % hubs.len()]);
    }
    for &hub in &hubs {
        for &q in doors.iter().chain(touching).chain([&snare]) {
            plan.moves(hub, q);
        }
    }
}

/// Every own position leads to each of some yard positions, which move to every own position; one is unsafe, so that all others fall in
/// round 2. The start is in a safe loop beside it, so that every lag is won and solved.
pub fn fan(own: usize, hubs: usize, actions: u8, delay: u8) -> Yard {
    let mut plan = Plan::new(actions);
    let (safe, haven) = (plan.own(), plan.other());
    plan.any(safe, haven);
    plan.moves(haven, safe);
    let hubs: Vec<u8> = (0..hubs).map(|_| plan.other()).collect();
    for k in 0..own {
        let q = plan.add(u8::from(k + 1 == own));
        for command in 0..actions as usize {
            plan.target(q, command, hubs[(k + command) % hubs.len()]);
        }
        for &hub in &hubs {
            plan.moves(hub, q);
        }
    }
    plan.yard(safe, delay)
}

/// Own positions that stand by their last command, the others being spoilt by the last of many moves, beside a chain that loses one position
/// a round: at lags 0 and 1 every round looks through all of it again.
pub fn standing(own: usize, links: usize, actions: u8, delay: u8) -> Yard {
    let mut plan = Plan::new(actions);
    let hubs: Vec<u8> = (0..actions).map(|_| plan.other()).collect();
    let ballast: Vec<u8> = (0..own).map(|_| plan.own()).collect();
    for &q in &ballast {
        for (command, &hub) in hubs.iter().enumerate() {
            plan.target(q, command, hub);
            plan.moves(hub, q);
        }
    }
    let chain: Vec<(u8, u8)> = (0..links).map(|_| (plan.own(), plan.other())).collect();
    let mut lost = plan.add(1);
    plan.any(lost, hubs[0]);
    for &hub in &hubs[..hubs.len() - 1] {
        plan.moves(hub, lost);
    }
    for (q, z) in chain {
        plan.target(q, 0, z);
        plan.moves(z, lost);
        lost = q;
    }
    plan.yard(ballast[0], delay)
}

/// Own positions and as many of the yard's in a round, numbered in this order, any command leading on; and a table with one command a mask,
/// by which all pairs of the right side follow each other in one ring. Without one mask of it, a pair falls a sweep. The lag is 2 at least.
pub fn ring(order: &[usize], actions: u8, delay: u8) -> (Yard, Table) {
    let places = order.len();
    let position = |i: usize, side: usize| 2 * order[i % places] + side;
    let mut plan = Plan::new(actions);
    plan.kinds = [0, 2].repeat(places);
    for i in 0..places {
        plan.any(position(i, 0) as u8, position(i, 1) as u8);
        plan.moves(position(i, 1) as u8, position(i + 1, 0) as u8);
    }
    let yard = plan.yard(position(0, 0) as u8, delay);
    // A circuit over all lines of a graph. Its nodes are a place and a word without its newest command, from which that command leads to
    // the next place and the word without its oldest: each line is a pair.
    let a = actions as usize;
    let words = a.pow(delay as u32 / 2);
    let nodes = words / a;
    let mut tried = vec![0; places * nodes];
    let (mut way, mut circuit) = (vec![(0, 0)], Vec::new());
    while let Some(&(node, line)) = way.last() {
        if tried[node] == a {
            circuit.push(line);
            way.pop();
            continue;
        }
        let line = node * a + tried[node];
        tried[node] += 1;
        way.push(((line / words + 1) % places * nodes + line % nodes, line));
    }
    circuit.pop();
    // last things first: each line leads to the one before it, and the first to the last
    let mut masks = vec![0; yard.pairs()];
    let mut next = circuit[circuit.len() - 1];
    for line in circuit {
        masks[position(line / words, delay as usize % 2) * words + line % words] = 1 << (next % a);
        next = line;
    }
    let table = table_of(&yard, vec![1; a.pow((delay as u32 + 1) / 2)], masks);
    (yard, table)
}

/// So many places numbered up, down and in mixed order.
pub fn orders(places: usize) -> [(&'static str, Vec<usize>); 3] {
    [("up", (0..places).collect()), ("down", (0..places).rev().collect()), ("mixed", permutation(&mut Random::new(1), places))]
}
