//! Tables for yards: ours, others made from them, and random ones; and sheets with faults.
use crate::cabin::{self, Table};
use crate::naive::{self, Game, Rule, Verdict};
use crate::proved::{self, Answer};
use crate::random::Random;
use crate::sheets::{house, random_yard, Shape, Yard};

/// Our table, where the yard wins at its lag.
pub fn ours(yard: &Yard) -> Option<Table> {
    let (sheet, answer) = proved::make_of(yard, yard.owed_length()).unwrap();
    answer.losing.is_none().then(|| cabin::read(&sheet).unwrap())
}

/// The sheet that making must write, or nothing where the yard's sheet is refused: document 01, "Sheets".
pub fn naive_sheet(sheet: &[u8]) -> Option<(Vec<u8>, Answer)> {
    let read = naive::read(sheet).ok()?;
    let answer = |losing: Option<u8>| Answer { losing, reached: read.reached };
    let game = Game::of(sheet, &read);
    let highest = (game.positions() - 1) as u8;
    Some(match game.solve(read.delay, Rule::Document) {
        Verdict::Winning(level) => {
            let flags: Vec<u8> = level.good.iter().map(|&good| u8::from(good)).collect();
            let header = [read.start, read.actions, read.delay, highest];
            (house(&[(b'S', &header), (b'W', &flags), (b'T', &level.masks)]), answer(None))
        }
        Verdict::Losing(m, level) => {
            let ranks: Vec<u8> = level.ranks.iter().flat_map(|rank| rank.to_le_bytes()).collect();
            let header = [read.start, read.actions, m, highest];
            (house(&[(b'S', &header), (b'R', &ranks)]), answer(Some(m)))
        }
    })
}

/// A small random yard that wins, and our table.
pub fn winning(random: &mut Random) -> (Yard, Table) {
    loop {
        let shape = Shape::small(random);
        let yard = random_yard(random, &shape).at(random.below(7) as u8);
        if let Some(table) = ours(&yard) {
            return (yard, table);
        }
    }
}

/// Some of the commands, each in so many of a hundred cases.
fn commands(random: &mut Random, actions: u8, share: usize) -> u8 {
    (0..actions).map(|c| u8::from(random.percent(share)) << c).sum()
}

/// Nothing of ours but its numbers and lengths: masks on the right side alone or anywhere, one flag or all.
pub fn random_table(random: &mut Random, yard: &Yard) -> Table {
    let (share, anywhere, all) = (*random.pick(&[30, 70, 100]), random.percent(30), random.percent(50));
    let right = pairs_at(yard, if yard.delay % 2 == 0 { [0, 1] } else { [2, 3] });
    let mut masks = vec![0; yard.pairs()];
    for (k, mask) in masks.iter_mut().enumerate() {
        if anywhere || right.contains(&k) {
            *mask = commands(random, yard.actions, share);
        }
    }
    let mut words = vec![u8::from(all); (yard.actions as usize).pow((yard.delay as u32 + 1) / 2)];
    *pick(random, &mut words) = 1;
    table_of(yard, words, masks)
}

/// The S body of a yard's tables: start, commands, lag, highest position.
pub fn numbers(yard: &Yard) -> [u8; 4] {
    [yard.start, yard.actions, yard.delay, (yard.kinds.len() - 1) as u8]
}

/// Each of the four numbers exact and one off, alone and together.
pub fn near_numbers(yard: &Yard) -> Vec<[u8; 4]> {
    let near = |n: u8, least: u8, most: u8| n.saturating_sub(1).max(least)..=n.saturating_add(1).min(most);
    let [start, actions, delay, highest] = numbers(yard);
    let mut all = Vec::new();
    for h in near(highest, 1, 255) {
        for start in near(start, 0, h) {
            for a in near(actions, 1, 8) {
                all.extend(near(delay, 0, 6).map(|lag| [start, a, lag, h]));
            }
        }
    }
    all
}

/// Every command at every pair, on the wrong side too, and every first word flagged.
pub fn everything(yard: &Yard) -> Table {
    let words = vec![1; (yard.actions as usize).pow((yard.delay as u32 + 1) / 2)];
    table_of(yard, words, vec![u8::MAX >> (8 - yard.actions); yard.pairs()])
}

pub fn table_of(yard: &Yard, words: Vec<u8>, masks: Vec<u8>) -> Table {
    Table::new(numbers(yard), words, masks)
}

pub fn pick<'a>(random: &mut Random, bytes: &'a mut [u8]) -> &'a mut u8 {
    let at = random.below(bytes.len());
    &mut bytes[at]
}

/// Each mask keeps some of its commands, one at least, and so do the flags: what is kept stays so, and the table sound.
pub fn thinned(random: &mut Random, table: &Table) -> Table {
    let mut thin = table.clone();
    for mask in thin.masks.iter_mut() {
        let left = *mask & commands(random, table.actions, 50);
        *mask = if left == 0 { *mask } else { left };
    }
    let words: Vec<u8> = table.words.iter().map(|flag| flag & u8::from(random.percent(50))).collect();
    if words.contains(&1) {
        thin.words = words;
    }
    thin
}

pub fn with_commands_taken(random: &mut Random, table: &Table) -> Table {
    let share = *random.pick(&[50, 80, 97]);
    let masks = table.masks.iter().map(|mask| mask & commands(random, table.actions, share)).collect();
    Table { masks, ..table.clone() }
}

/// The pairs at positions of these kinds.
pub fn pairs_at(yard: &Yard, kinds: [u8; 2]) -> Vec<usize> {
    let power = yard.pairs() / yard.kinds.len();
    (0..yard.pairs()).filter(|k| kinds.contains(&yard.kinds[k / power])).collect()
}

/// One to three commands more, at these pairs.
pub fn with_commands_at(random: &mut Random, table: &Table, pairs: &[usize]) -> Table {
    let mut more = table.clone();
    for _ in 0..1 + random.below(3) {
        more.masks[*random.pick(pairs)] |= 1 << random.below(table.actions as usize);
    }
    more
}

pub fn flipped(sheet: &[u8], bit: usize) -> Vec<u8> {
    let mut other = sheet.to_vec();
    other[bit / 8] ^= 1 << (bit % 8);
    other
}

/// The sheet of a yard with these faults. It has 33 positions and eight commands, so that lag 4 is accepted and lag 6 is not.
pub fn faulty_sheet(yard: &Yard, faults: &[u8]) -> Vec<u8> {
    let has = |fault: u8| faults.contains(&fault);
    let mut yard = yard.clone();
    let last = *yard.moves.last().unwrap();
    if has(2) {
        yard.kinds[last[0] as usize] = 4;
    }
    if has(3) {
        yard.start = last[0];
    }
    if has(4) {
        yard.targets.push(yard.targets[0]);
    }
    if has(5) {
        yard.moves.insert(1, yard.moves[0]);
    }
    if has(6) {
        yard.moves.retain(|line| line[0] != last[0]);
    }
    if has(7) {
        yard.delay = 6;
    }
    if has(24) {
        yard.gates = Some(vec![2]);
    }
    let mut sheet = yard.sheet();
    sheet.extend(has(1).then_some(0));
    sheet
}

pub fn faulty_table(table: &Table, other_start: u8, faults: &[u8]) -> Vec<u8> {
    let mut table = table.clone();
    if faults.contains(&21) {
        table.start = other_start;
    }
    table.faulty_sheet(faults)
}

/// A table without a mask, every first word flagged: readable, and judged with a bad word where its numbers are the yard's.
pub fn without_masks([start, actions, delay, highest]: [u8; 4]) -> Vec<u8> {
    let kinds = vec![0; highest as usize + 1];
    let yard = Yard { start, actions, delay, kinds, targets: Vec::new(), moves: Vec::new(), gates: None };
    let words = vec![1; (actions as usize).pow((delay as u32 + 1) / 2)];
    table_of(&yard, words, vec![0; yard.pairs()]).sheet()
}
