//! Reading and solving from document 01's words and, for gates that hold, document 02's (W-207), with explicit sets of pairs and words as
//! lists of commands. Slow on purpose: nothing here is shared with the Rattle code or its definitions.
use std::collections::{BTreeMap, BTreeSet, HashMap};

#[derive(Clone, Debug, PartialEq, Eq)]
pub struct Read {
    pub start: u8,
    pub actions: u8,
    pub delay: u8,
    /// Offset and length of S, P, C, U.
    pub places: [(usize, usize); 4],
    /// How many positions lie on some play from the start.
    pub reached: usize,
    /// G is there and has holding gates.
    pub holding: bool,
}

/// Entries of a table of contents that is right, or none: refusals 1 and 10.
pub fn contents(sheet: &[u8], letters: &[u8]) -> Option<Vec<(usize, usize)>> {
    if sheet.len() < 5 * letters.len() {
        return None;
    }
    let mut places = Vec::new();
    let mut expected = 5 * letters.len();
    for (k, letter) in letters.iter().enumerate() {
        let entry = &sheet[5 * k..5 * k + 5];
        let offset = entry[1] as usize + 256 * entry[2] as usize;
        let length = entry[3] as usize + 256 * entry[4] as usize;
        if entry[0] != *letter || offset != expected {
            return None;
        }
        expected = offset + length;
        places.push((offset, length));
    }
    if expected == sheet.len() { Some(places) } else { None }
}

/// The positions that lie on some play from the start, over lines of from and to: a set that grows until no line leads out of it.
pub fn reached(start: u8, lines: &[(u8, u8)]) -> BTreeSet<u8> {
    let mut reached = BTreeSet::from([start]);
    loop {
        let next: BTreeSet<u8> = lines.iter().filter(|line| reached.contains(&line.0)).map(|line| line.1).collect();
        if next.is_subset(&reached) {
            return reached;
        }
        reached.extend(next);
    }
}

/// "the first offset is 20 or 25 and says which kind it is": the letters of its contents.
fn letters(sheet: &[u8]) -> Option<&'static [u8]> {
    match sheet.get(1..3)? {
        [20, 0] => Some(b"SPCU"),
        [25, 0] => Some(b"SPCUG"),
        _ => None,
    }
}

/// Targets by position and command.
type Targets = HashMap<(u8, u8), u8>;

/// The targets that the lines of C mean. In a holding yard "every own position with a move for command 0 uses that target for each missing
/// command".
fn targets(c: &[u8], actions: u8, holding: bool) -> Targets {
    let lines: Targets = c.chunks(3).map(|l| ((l[0], l[1]), l[2])).collect();
    let mut all = lines.clone();
    for (&(p, _), &q) in lines.iter().filter(|((_, c), _)| holding && *c == 0) {
        let missing = (0..actions).filter(|&c| !lines.contains_key(&(p, c)));
        all.extend(missing.map(|c| ((p, c), q)));
    }
    all
}

/// "Reading a yard sheet", check by check in the order written, 24 being "after 5 and before 6".
pub fn read(sheet: &[u8]) -> Result<Read, u8> {
    let places = letters(sheet).and_then(|letters| contents(sheet, letters)).ok_or(1)?;
    let body = |k: usize| &sheet[places[k].0..places[k].0 + places[k].1];
    let (s, p, c, u) = (body(0), body(1), body(2), body(3));
    if p.is_empty() || p.len() > 256 || p.iter().any(|&kind| kind > 3) {
        return Err(2);
    }
    let own = |q: u8| p.get(q as usize).is_some_and(|&kind| kind == 0 || kind == 1);
    let environment = |q: u8| p.get(q as usize).is_some_and(|&kind| kind == 2 || kind == 3);
    if s.len() != 3 || s[1] < 1 || s[1] > 8 || s[2] > 6 || !own(s[0]) {
        return Err(3);
    }
    let (start, actions, delay) = (s[0], s[1], s[2]);
    let lines = |body: &[u8], width: usize| body.chunks(width).map(|l| (l[0], l[1])).collect::<Vec<_>>();
    let rising = |keys: &[(u8, u8)]| keys.windows(2).all(|pair| pair[0] < pair[1]);
    if c.len() % 3 != 0
        || !rising(&lines(c, 3))
        || c.chunks(3).any(|l| !own(l[0]) || l[1] >= actions || !environment(l[2]))
    {
        return Err(4);
    }
    if u.len() % 2 != 0
        || u.len() / 2 > 4096
        || !rising(&lines(u, 2))
        || u.chunks(2).any(|l| !environment(l[0]) || !own(l[1]))
    {
        return Err(5);
    }
    let gates = (places.len() > 4).then(|| body(4));
    if gates.is_some_and(|g| g.len() != 1 || g[0] > 1) {
        return Err(24);
    }
    let holding = gates == Some(&[1]);
    let moving: BTreeSet<u8> = c.chunks(3).map(|l| l[0]).chain(u.chunks(2).map(|l| l[0])).collect();
    if (0..p.len()).any(|q| !moving.contains(&(q as u8))) {
        return Err(6);
    }
    if p.len() as u64 * (actions as u64).pow(delay as u32 / 2) > 16_384 {
        return Err(7);
    }
    let places = [places[0], places[1], places[2], places[3]];
    let steps = targets(c, actions, holding).into_iter().map(|((p, _), q)| (p, q));
    let steps: Vec<(u8, u8)> = steps.chain(lines(u, 2)).collect();
    Ok(Read { start, actions, delay, places, reached: reached(start, &steps).len(), holding })
}

pub type Word = Vec<u8>;
pub type Pair = (u8, Word);

/// The yard of an accepted sheet.
pub struct Game {
    pub start: u8,
    pub actions: u8,
    kinds: Vec<u8>,
    targets: Targets,
    moves: BTreeMap<u8, Vec<u8>>,
}

/// The rule by which pairs fall; the wrong ones are for trying the tests themselves.
#[derive(Clone, Copy, Debug, PartialEq, Eq)]
pub enum Rule {
    Document,
    StrikeOnce,
    FreshestAction,
    PassUnsafe,
}

/// Everything at one delay.
#[derive(Clone, Debug, PartialEq, Eq)]
pub struct Level {
    /// By first word, by pair, by pair: in document 01's order.
    pub good: Vec<bool>,
    pub masks: Vec<u8>,
    pub ranks: Vec<u16>,
}

#[derive(Clone, Debug, PartialEq, Eq)]
pub enum Verdict {
    Winning(Level),
    Losing(u8, Level),
}

/// Every word of so many commands, in base-A order with the oldest command leading.
pub fn words(actions: u8, length: usize) -> Vec<Word> {
    let mut all = vec![Vec::new()];
    for _ in 0..length {
        all = all
            .into_iter()
            .flat_map(|word: Word| (0..actions).map(move |c| [word.clone(), vec![c]].concat()))
            .collect();
    }
    all
}

impl Game {
    pub fn of(sheet: &[u8], read: &Read) -> Game {
        let body = |k: usize| &sheet[read.places[k].0..read.places[k].0 + read.places[k].1];
        let mut moves: BTreeMap<u8, Vec<u8>> = BTreeMap::new();
        for line in body(3).chunks(2) {
            moves.entry(line[0]).or_default().push(line[1]);
        }
        Game {
            start: read.start,
            actions: read.actions,
            kinds: body(1).to_vec(),
            targets: targets(body(2), read.actions, read.holding),
            moves,
        }
    }

    pub fn positions(&self) -> usize {
        self.kinds.len()
    }

    pub fn own(&self, p: u8) -> bool {
        self.kinds[p as usize] < 2
    }

    pub fn safe(&self, p: u8) -> bool {
        self.kinds[p as usize] % 2 == 0
    }

    /// From now on the position counts as unsafe.
    pub fn close(&mut self, p: u8) {
        self.kinds[p as usize] |= 1;
    }

    pub fn target(&self, p: u8, c: u8) -> Option<u8> {
        self.targets.get(&(p, c)).copied()
    }

    pub fn moves(&self, p: u8) -> &[u8] {
        self.moves.get(&p).map_or(&[], |to| to)
    }

    /// Every pair, by its number.
    pub fn pairs(&self, delay: u8) -> Vec<Pair> {
        let pending = words(self.actions, delay as usize / 2);
        let positions = 0..self.positions() as u16;
        positions.flat_map(|p| pending.iter().map(move |w| (p as u8, w.clone()))).collect()
    }

    /// Is the pair's position of the side that moves next?
    pub fn right(&self, delay: u8, pair: &Pair) -> bool {
        self.own(pair.0) == (delay % 2 == 0)
    }

    /// Is a first word good, when these pairs are kept?
    pub fn good(&self, delay: u8, word: &[u8], kept: impl Fn(&Pair) -> bool) -> bool {
        if delay % 2 == 0 {
            return kept(&(self.start, word.to_vec()));
        }
        let target = self.target(self.start, word[0]);
        self.safe(self.start) && target.is_some_and(|q| kept(&(q, word[1..].to_vec())))
    }

    /// Is choosing c at the pair spoilt, when these pairs have fallen?
    pub fn spoilt(&self, delay: u8, pair: &Pair, c: u8, fallen: impl Fn(&Pair) -> bool, rule: Rule) -> bool {
        let (p, word) = pair;
        let mut joined = word.clone();
        joined.push(c);
        let h = if rule == Rule::FreshestAction { joined.pop().unwrap() } else { joined.remove(0) };
        let lost = |q: u8| fallen(&(q, joined.clone()));
        let unsafe_passed = |q: u8| rule != Rule::PassUnsafe && !self.safe(q);
        if delay % 2 == 0 {
            match self.target(*p, h) {
                None => true,
                Some(q) => unsafe_passed(q) || self.moves(q).iter().any(|&r| lost(r)),
            }
        } else {
            self.moves(*p).iter().any(|&r| match self.target(r, h) {
                None => true,
                Some(q) => unsafe_passed(r) || lost(q),
            })
        }
    }

    pub fn level(&self, delay: u8, rule: Rule) -> Level {
        let pairs = self.pairs(delay);
        let right = |pair: &Pair| self.right(delay, pair);
        let mut fallen: HashMap<Pair, u16> =
            pairs.iter().filter(|x| right(x) && !self.safe(x.0)).map(|x| (x.clone(), 1)).collect();
        let mut round = 1;
        loop {
            round += 1;
            let now: Vec<Pair> = pairs
                .iter()
                .filter(|x| right(x) && !fallen.contains_key(x))
                .filter(|x| (0..self.actions).all(|c| self.spoilt(delay, x, c, |y| fallen.contains_key(y), rule)))
                .cloned()
                .collect();
            if now.is_empty() {
                break;
            }
            fallen.extend(now.into_iter().map(|x| (x, round)));
            if rule == Rule::StrikeOnce {
                break;
            }
        }
        let kept = |x: &Pair| right(x) && !fallen.contains_key(x);
        let allowed = |x: &Pair, c: u8| !self.spoilt(delay, x, c, |y| fallen.contains_key(y), rule);
        let mask = |x: &Pair| (0..self.actions).filter(|&c| allowed(x, c)).map(|c| 1u8 << c).sum();
        let first_words = words(self.actions, (delay as usize + 1) / 2);
        Level {
            good: first_words.iter().map(|word| self.good(delay, word, kept)).collect(),
            masks: pairs.iter().map(|x| if kept(x) { mask(x) } else { 0 }).collect(),
            ranks: pairs.iter().map(|x| fallen.get(x).copied().unwrap_or(0)).collect(),
        }
    }

    /// Every lag from 0 up to the asked one is tried on its own.
    pub fn solve(&self, delay: u8, rule: Rule) -> Verdict {
        let asked = self.level(delay, rule);
        if asked.good.contains(&true) {
            return Verdict::Winning(asked);
        }
        (0..=delay)
            .map(|m| (m, self.level(m, rule)))
            .find(|(_, level)| !level.good.contains(&true))
            .map(|(m, level)| Verdict::Losing(m, level))
            .unwrap()
    }
}

/// What the listing program must print for a sheet: document 01, "The listing program".
pub fn listing(sheet: &[u8]) -> String {
    let read = if sheet.len() > 16_384 { Err(1) } else { read(sheet) };
    let read = match read {
        Err(number) => return format!("refused {number}\n"),
        Ok(read) => read,
    };
    let game = Game::of(sheet, &read);
    let digits = |word: &[u8]| -> String {
        if word.is_empty() { "-".into() } else { word.iter().map(|c| c.to_string()).collect() }
    };
    let mut text =
        format!("lag {} positions {} commands {} reached {}\n", read.delay, game.positions(), game.actions, read.reached);
    let pair = |k: usize, delay: u8| {
        let pending = words(game.actions, delay as usize / 2);
        format!("pair {} {}", k / pending.len(), digits(&pending[k % pending.len()]))
    };
    match game.solve(read.delay, Rule::Document) {
        Verdict::Winning(level) => {
            text += "winning\n";
            let all = words(game.actions, (read.delay as usize + 1) / 2);
            for (word, _) in all.iter().zip(&level.good).filter(|(_, good)| **good) {
                text += &format!("start {}\n", digits(word));
            }
            for (k, mask) in level.masks.iter().enumerate().filter(|(_, mask)| **mask != 0) {
                let set: Vec<u8> = (0..8).filter(|c| mask >> c & 1 == 1).collect();
                text += &format!("{} allow {}\n", pair(k, read.delay), digits(&set));
            }
        }
        Verdict::Losing(m, level) => {
            text += &format!("losing {m}\n");
            for (k, rank) in level.ranks.iter().enumerate().filter(|(_, rank)| **rank != 0) {
                text += &format!("{} rank {rank}\n", pair(k, m));
            }
        }
    }
    text
}
