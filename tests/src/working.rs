//! A cabin at work: plays against a rule of the yard, and lists of calls with late, overtaking, repeated, lost and (outside the window)
//! false reports, one at a time and in packets.
use crate::cabin::{self, Bytes, Cabin, Observation, Refusal, Table, LAST_TURN};
use crate::counts::{count, Counts};
use crate::naive::{self, Game};
use crate::packets;
use crate::proved;
use crate::random::Random;
use crate::sheets::Yard;
use std::collections::BTreeSet;

/// A rule of the yard that depends on the whole play.
fn rule(seed: u64, play: &[u8], moves: &[u8]) -> u8 {
    let hash = play.iter().fold(seed, |h, &p| (h ^ p as u64).wrapping_mul(0x0100_0000_01b3).rotate_left(7));
    moves[(hash >> 20) as usize % moves.len()]
}

/// A command's target and the rule's move are added to the play.
fn go_on(game: &Game, seed: u64, play: &mut Vec<u8>, command: u8) {
    let target = game.target(*play.last().unwrap(), command).expect("the play ended");
    play.push(target);
    play.push(rule(seed, play, game.moves(target)));
}

/// The play of the rule and of a choice of commands, by turn, play and commands before: the positions up to index 2n and the commands of
/// its first n turns. Each command is permitted and each position safe.
pub fn safe_play(
    game: &Game,
    seed: u64,
    turns: usize,
    mut choose: impl FnMut(usize, &[u8], &[u8]) -> u8,
) -> (Vec<u8>, Vec<u8>) {
    let (mut play, mut given) = (vec![game.start], Vec::new());
    for i in 0..turns {
        let command = choose(i, &play, &given);
        go_on(game, seed, &mut play, command);
        given.push(command);
    }
    assert!(play.iter().all(|&p| game.safe(p)), "the play met an unsafe position");
    (play, given)
}

/// The exact play, by the sheet and the rule alone.
pub fn exact_play(game: &Game, table: &Table, seed: u64, turns: usize) -> (Vec<u8>, Vec<u8>) {
    safe_play(game, seed, turns, |i, play, given| table.command(i, |index| play.get(index).copied(), given).unwrap())
}

/// Answers that lists of calls should meet.
pub const WANTED: [&str; 8] = [
    "hearing 16",
    "hearing 17",
    "hearing 18",
    "hearing accepted",
    "giving 13",
    "giving command 0",
    "giving command 1",
    "giving command 2",
];

/// Answers that lists of calls with packets should meet.
pub fn wanted_with_packets() -> Vec<String> {
    let answers = packets::wanted(&[16, 17, 18]).into_iter().map(|words| format!("packet {words}"));
    let by_lag = (0..7).flat_map(|lag| ["accepted", "refused"].map(|answer| format!("packet at lag {lag} {answer}")));
    WANTED.map(String::from).into_iter().chain(answers).chain(by_lag).collect()
}

/// A list of calls so far: the cabin, the model beside it, the indices heard, and the play.
struct Work<'a> {
    sheet: &'a [u8],
    game: Game,
    table: Table,
    seed: u64,
    /// The exact play's commands.
    commands: Vec<u8>,
    state: [u8; 21],
    model: Cabin,
    heard: BTreeSet<usize>,
    worked: Vec<u8>,
}

impl Work<'_> {
    fn turn(&self) -> usize {
        self.model.given.len()
    }

    /// The true report of an index in the window, or anything outside.
    fn report(&self, random: &mut Random, index: usize) -> Observation {
        let position = match self.worked.get(index) {
            Some(&p) if self.table.window(self.turn()).contains(&index) => p,
            _ => random.below(self.table.highest as usize + 3) as u8,
        };
        Observation { index, position }
    }

    /// An index in the window or near it, in any order.
    fn any_report(&self, random: &mut Random) -> Observation {
        let index = (2 * self.turn() + 2).saturating_sub(random.below(self.table.delay as usize + 5));
        self.report(random, index)
    }

    /// A packet of any length, one time in three with reports of indices near the window too.
    fn any_packet(&self, random: &mut Random) -> Vec<Observation> {
        let (length, near) = (random.below(19), random.below(3) == 0);
        let window: Vec<usize> = self.table.window(self.turn()).collect();
        let report = |_| {
            if near && random.percent(20) {
                return self.any_report(random);
            }
            let index = *random.pick(&window);
            self.report(random, index)
        };
        (0..length).map(report).collect()
    }

    /// "hearing answers 16 if the position is over the highest, else 17 below index 2i - d, 18 over 2i, else accepts"
    fn right_hearing(&self, Observation { index, position }: Observation) -> Result<(), u8> {
        if position > self.table.highest {
            Err(16)
        } else if index + (self.table.delay as usize) < 2 * self.turn() {
            Err(17)
        } else if index > 2 * self.turn() {
            Err(18)
        } else {
            Ok(())
        }
    }

    /// "a packet being one call of its lists: .. it is answered by this rule"
    fn right_packet(&self, packet: &[Observation]) -> Result<(), Refusal> {
        if packet.len() > 16 {
            return Err((22, None));
        }
        let refused = |(place, &report)| Some((self.right_hearing(report).err()?, Some(place)));
        packet.iter().enumerate().find_map(refused).map_or(Ok(()), Err)
    }

    /// "Giving answers 15 if i is 1,000,000, else 13 exactly if 2i is at least d and index 2i - d is unheard, else the exact play's
    /// command of turn i."
    fn right_giving(&self) -> Result<u8, u8> {
        let (i, delay) = (self.turn(), self.table.delay as usize);
        if i == LAST_TURN {
            Err(15)
        } else if 2 * i >= delay && !self.heard.contains(&(2 * i - delay)) {
            Err(13)
        } else {
            Ok(self.commands[i])
        }
    }

    fn hear(&mut self, report: Observation, counts: &mut Counts) {
        let answer = proved::observe(self.sheet, &mut self.state, report.index, report.position);
        assert_eq!(answer, self.right_hearing(report), "{report:?}");
        assert_eq!(answer, self.model.hear(&self.table, report));
        if answer.is_ok() {
            self.heard.insert(report.index);
        }
        count(counts, format!("hearing {}", answer.map_or_else(|n| n.to_string(), |_| "accepted".into())));
    }

    fn hear_all(&mut self, packet: &[Observation], counts: &mut Counts) {
        let answer = proved::observe_all(self.sheet, &mut self.state, packet);
        assert_eq!(answer, self.right_packet(packet), "{packet:?}");
        assert_eq!(answer, self.model.hear_all(&self.table, packet));
        if answer.is_ok() {
            self.heard.extend(packet.iter().map(|report| report.index));
        }
        count(counts, format!("packet {}", packets::words_of(&answer, packet.len())));
        let kind = if answer.is_ok() { "accepted" } else { "refused" };
        count(counts, format!("packet at lag {} {kind}", self.table.delay));
    }

    fn give(&mut self, counts: &mut Counts) {
        let answer = proved::act(self.sheet, &mut self.state);
        assert_eq!(answer, self.right_giving(), "not the exact play's command");
        assert_eq!(answer, self.model.give(&self.table));
        if let Ok(command) = answer {
            go_on(&self.game, self.seed, &mut self.worked, command);
        }
        count(counts, format!("giving {}", answer.map_or_else(|n| n.to_string(), |c| format!("command {c}"))));
    }
}

/// A list of calls to a cabin with this winning sheet, of whose hearings so many in a hundred are packets: every answer is the model's and
/// the one that document 01's "The cabin's accuracy" names, and the worked play is the exact play, which is safe.
pub fn work(random: &mut Random, yard: &Yard, sheet: &[u8], packets: usize, counts: &mut Counts) {
    let game = Game::of(&yard.sheet(), &naive::read(&yard.sheet()).unwrap());
    let table = cabin::read(sheet).unwrap();
    let seed = random.next();
    let (exact, commands) = exact_play(&game, &table, seed, 60);
    let (state, model) = (proved::open(sheet).unwrap(), Cabin::default());
    let worked = vec![table.start];
    let mut work = Work { sheet, game, table, seed, commands, state, model, heard: BTreeSet::new(), worked };
    while work.turn() < 60 && random.below(1000) > 0 {
        if !random.percent(60) {
            work.give(counts);
        } else if packets > 0 && random.percent(packets) {
            work.hear_all(&work.any_packet(random), counts);
        } else {
            work.hear(work.any_report(random), counts);
        }
        assert_eq!(Bytes(&work.state).turn() as usize, work.turn());
    }
    assert_eq!(work.worked[..], exact[..work.worked.len()], "the worked play is not the exact play");
}

/// A flagged word and then commands out of the masks, drawn anew each time: the play goes on and is safe.
pub fn any_choice(random: &mut Random, yard: &Yard, table: &Table) {
    let game = Game::of(&yard.sheet(), &naive::read(&yard.sheet()).unwrap());
    let flagged: Vec<usize> = (0..table.words.len()).filter(|&v| table.words[v] == 1).collect();
    let (word, seed, delay) = (*random.pick(&flagged), random.next(), table.delay as usize);
    safe_play(&game, seed, 40, |i, play, given| {
        if 2 * i < delay {
            return table.first_command(word, i);
        }
        let mask = table.mask(play[2 * i - delay], given);
        let allowed: Vec<u8> = (0..8).filter(|c| mask >> c & 1 == 1).collect();
        assert!(!allowed.is_empty(), "a play met a pair without a mask: {yard:?} {table:?}");
        *random.pick(&allowed)
    });
}
