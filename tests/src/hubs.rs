//! Yards in which one line alone spoils a command: the first of a yard position's lines, the last, or one between.
use crate::sheets::Yard;

/// What is wrong behind the line.
#[derive(Clone, Copy, Debug, PartialEq, Eq)]
pub enum Flaw {
    /// The door is unsafe.
    Unsafe,
    /// The door is safe, but the yard goes on from it to an end that is unsafe, so that it is lost in round 2.
    Lost,
    /// The door does not permit command 0.
    Absent,
}

impl Flaw {
    pub const ALL: [Flaw; 3] = [Flaw::Unsafe, Flaw::Lost, Flaw::Absent];
}

/// A hub with so many lines, each to a door, which is an own position. From the start command 0 leads to the hub, and any other to a haven
/// from which the yard goes back. All doors lead to the haven: the one at the place, which may have a flaw, by a passage and an end of its
/// own.
#[derive(Clone, Copy, Debug)]
pub struct Hub {
    pub doors: u8,
    pub place: u8,
    pub actions: u8,
    /// Numbered from the other end: the hub's lines are then the last of all, and else the first.
    pub turned: bool,
}

impl Hub {
    /// One door to nine with each place, and as many as there may be with the first, the middle and the last; numbered either way, at
    /// every lag.
    pub fn all(actions: u8) -> impl Iterator<Item = (Hub, u8)> {
        let few = (1..10).flat_map(|doors| (0..doors).map(move |place| (doors, place)));
        let all = few.chain([0, 125, 250].map(|place| (251, place)));
        let hubs = all.flat_map(move |(doors, place)| [false, true].map(|turned| Hub { doors, place, actions, turned }));
        hubs.flat_map(|hub| (0..7).map(move |delay| (hub, delay)))
    }

    /// The door at the place, the start, the hub, the haven, the passage and the end.
    pub fn positions(&self) -> [usize; 6] {
        let n = self.doors;
        [self.place, n, n + 1, n + 2, n + 3, n + 4].map(|p| usize::from(if self.turned { n + 4 - p } else { p }))
    }

    pub fn yard(&self, flaw: Option<Flaw>) -> Yard {
        let (start, hub, haven, passage, end) =
            (self.doors, self.doors + 1, self.doors + 2, self.doors + 3, self.doors + 4);
        let to = |p: u8, c: u8| if p == self.place { passage } else if (p, c) == (start, 0) { hub } else { haven };
        let commands = (0..=start).chain([end]).flat_map(|p| (0..self.actions).map(move |c| (p, c)));
        let permitted = commands.filter(|&line| flaw != Some(Flaw::Absent) || line != (self.place, 0));
        let mut kinds = [vec![0; usize::from(start) + 1], vec![2; 3], vec![u8::from(flaw == Some(Flaw::Lost))]].concat();
        kinds[usize::from(self.place)] = u8::from(flaw == Some(Flaw::Unsafe));
        let targets = permitted.map(|(p, c)| [p, c, to(p, c)]).collect();
        let moves = (0..self.doors).map(|door| [hub, door]).chain([[haven, start], [passage, end]]).collect();
        let yard = Yard { start, actions: self.actions, delay: 0, kinds, targets, moves, gates: None };
        if self.turned { yard.turned() } else { yard }
    }

    /// Which of the hub's lines leads to the door at the place.
    pub fn line(&self) -> &'static str {
        let last = self.doors - 1;
        match if self.turned { last - self.place } else { self.place } {
            _ if last == 0 => LINES[0],
            0 => LINES[1],
            line if line < last => LINES[2],
            _ => LINES[3],
        }
    }
}

pub const LINES: [&str; 4] = ["the only line", "the first line", "a middle line", "the last line"];

/// The split gate with more own positions than two: one permits command 1 alone, all others command 0 alone.
pub fn wide_gate(own: u8, other: Option<u8>) -> Yard {
    let targets = (0..own).map(|p| [p, u8::from(other == Some(p)), own]).collect();
    let moves = (0..own).map(|p| [own, p]).collect();
    let kinds = [vec![0; usize::from(own)], vec![2]].concat();
    Yard { start: 0, actions: 2, delay: 0, kinds, targets, moves, gates: None }
}

/// A hub for each command, with as many lines as there are commands. One door is unsafe: hub c has it at place c of its lines, and where
/// it is mended the start instead.
pub fn windows(actions: u8, mended: Option<u8>) -> Yard {
    let (lost, start, first_hub, haven) = (actions - 1, 2 * actions - 1, 2 * actions, 3 * actions);
    let to = |c: u8, door: u8| if door == lost && mended == Some(c) { start } else { door };
    let lines = |c: u8| (lost - c..lost - c + actions).map(move |door| [first_hub + c, to(c, door)]);
    let mut moves: Vec<_> = (0..actions).flat_map(lines).chain([[haven, start]]).collect();
    moves.sort_unstable();
    let commands = (0..=start).flat_map(|p| (0..actions).map(move |c| (p, c)));
    let targets = commands.map(|(p, c)| [p, c, if p == start { first_hub + c } else { haven }]).collect();
    let mut kinds = [vec![0; usize::from(first_hub)], vec![2; usize::from(actions) + 1]].concat();
    kinds[usize::from(lost)] = 1;
    Yard { start, actions, delay: 0, kinds, targets, moves, gates: None }
}
