//! The library of a landing before and this one, in one run on one machine: the same answers, and the time of each.
use crate::{altered, around, compare, dense, milliseconds, ratio, sixteen, standing_yards, Buffers};
use loquatquoits_tests::judge::Judgement;
use loquatquoits_tests::proved::{self, Answer};
use loquatquoits_tests::random::Random;
use loquatquoits_tests::sheets::{random_yard, Shape, Yard};
use std::hint::black_box;

macro_rules! library {
    ($lq_solve:ident, $lq_judge:ident, $solve:ident, $judge:ident) => {
        extern "C" {
            fn $lq_solve(_: *const u8, _: usize, _: *mut u8, _: usize, _: *mut u16, _: usize, _: *mut u8, _: *mut usize) -> u8;
            fn $lq_judge(_: *const u8, _: usize, _: *const u8, _: usize, _: *mut u8, _: *mut usize) -> u8;
        }

        fn $solve(sheet: &[u8], masks: &mut [u8], ranks: &mut [u16]) -> Result<Answer, u8> {
            proved::solve_by($lq_solve, sheet, masks, ranks)
        }

        fn $judge(sheet: &[u8], table: &[u8]) -> Result<Judgement, u8> {
            proved::judge_by($lq_judge, sheet, table)
        }
    };
}

library!(before_lq_solve, before_lq_judge, solve_before, judge_before);
library!(after_lq_solve, after_lq_judge, solve_after, judge_after);

/// The answer of both, once they have given the same masks and ranks.
fn solved_alike(yard: &Yard) -> Answer {
    let sheet = yard.sheet();
    let [mut before, mut after] = [(); 2].map(|()| Buffers::new(yard.pairs()));
    let answer = solve_after(&sheet, &mut after.masks, &mut after.ranks);
    assert_eq!(solve_before(&sheet, &mut before.masks, &mut before.ranks), answer, "{yard:?}");
    assert_eq!((&before.masks, &before.ranks), (&after.masks, &after.ranks), "{yard:?}");
    answer.unwrap()
}

/// Our table of a yard that wins, once both say the same of it and of some with a bit of a mask turned over.
fn judged_alike(yard: &Yard) -> Vec<u8> {
    let (sheet, (table, _)) = (yard.sheet(), proved::make_of(yard, yard.owed_length()).unwrap());
    assert_eq!((judge_before(&sheet, &table), judge_after(&sheet, &table)), (Ok(Judgement::Sound), Ok(Judgement::Sound)));
    for other in altered(&table, yard.pairs()) {
        assert_eq!(judge_before(&sheet, &other), judge_after(&sheet, &other), "{yard:?} {other:?}");
    }
    table
}

fn random_yards() {
    let mut random = Random::new(203);
    let (mut solved, mut won) = (0, 0);
    for _ in 0..3000 {
        let (own, environment) = (1 + random.below(12), 1 + random.below(12));
        let shape = Shape { own, environment, moves: 8, ..Shape::small(&mut random) };
        let yard = random_yard(&mut random, &shape);
        for yard in (0..7).map(|delay| yard.at(delay)) {
            solved += 1;
            if solved_alike(&yard).losing.is_none() {
                judged_alike(&yard);
                won += 1;
            }
        }
    }
    println!("3000 random yards at every lag: {solved} times the same answer, masks and ranks; {won} won, with tables judged alike.\n");
}

fn row(name: &str, before: &mut dyn FnMut(), after: &mut dyn FnMut()) {
    let [before, after] = compare(30, [before, after]);
    println!("| {name} | {:.3} ms | {:.3} ms | {:.2} |", milliseconds(before), milliseconds(after), ratio(after, before));
}

fn solving(name: &str, yard: &Yard) {
    solved_alike(yard);
    let sheet = yard.sheet();
    let [mut before, mut after] = [(); 2].map(|()| Buffers::new(yard.pairs()));
    row(
        name,
        &mut || {
            let _ = black_box(solve_before(black_box(&sheet), &mut before.masks, &mut before.ranks));
        },
        &mut || {
            let _ = black_box(solve_after(black_box(&sheet), &mut after.masks, &mut after.ranks));
        },
    );
}

fn judging(name: &str, yard: &Yard) {
    let (sheet, table) = (yard.sheet(), judged_alike(yard));
    row(
        &format!("{name}, judging our table"),
        &mut || assert_eq!(judge_before(black_box(&sheet), black_box(&table)), Ok(Judgement::Sound)),
        &mut || assert_eq!(judge_after(black_box(&sheet), black_box(&table)), Ok(Judgement::Sound)),
    );
}

pub fn before_and_after() {
    println!();
    random_yards();
    println!("| yard | before | after | after / before |");
    println!("|---|---|---|---|");
    for (name, yard) in standing_yards().chain(sixteen()) {
        solving(&name, &yard);
    }
    // no line spoils: all are looked at, in whatever order
    for delay in [0, 1] {
        solving(&format!("dense, 256 positions, lag {delay}, 32 moves each"), &dense().at(delay));
    }
    judging("dense, 32 positions, lag 6, 16 moves each", &around(16, 8, 16, 6));
    judging("dense, 256 positions, lag 5, 32 moves each", &dense().at(5));
}
