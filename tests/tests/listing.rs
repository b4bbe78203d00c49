//! The listing program, run on sheets and compared with document 01's text and with the naive listing.
use loquatquoits_tests::naive;
use loquatquoits_tests::random::Random;
use loquatquoits_tests::sheets::{self, random_yard, Shape, Yard};
use loquatquoits_tests::tables::faulty_sheet;
use std::io::{Read, Write};
use std::path::PathBuf;
use std::process::{Command, Stdio};
use std::time::Duration;

fn program() -> PathBuf {
    PathBuf::from(env!("CARGO_MANIFEST_DIR")).join("../target/bin/listing")
}

/// What the program prints for an input that arrives in pieces of this size.
fn list_in_pieces(input: &[u8], piece: usize, pause: Duration) -> String {
    let mut child = Command::new(program()).stdin(Stdio::piped()).stdout(Stdio::piped()).spawn().unwrap();
    let mut stdin = child.stdin.take().unwrap();
    let mut stdout = child.stdout.take().unwrap();
    let input = input.to_vec();
    let writer = std::thread::spawn(move || {
        for part in input.chunks(piece.max(1)) {
            // the program may stop reading an input that is too long
            if stdin.write_all(part).and_then(|_| stdin.flush()).is_err() {
                return;
            }
            std::thread::sleep(pause);
        }
    });
    let mut text = String::new();
    stdout.read_to_string(&mut text).unwrap();
    writer.join().unwrap();
    assert!(child.wait().unwrap().success());
    text
}

fn list(input: &[u8]) -> String {
    list_in_pieces(input, 1 << 16, Duration::ZERO)
}

/// tests/listing: for each NAME.sheet the program prints NAME.txt, byte for byte.
#[test]
fn stored() {
    let folder = PathBuf::from(env!("CARGO_MANIFEST_DIR")).join("listing");
    let mut cases = 0;
    for entry in std::fs::read_dir(folder).unwrap() {
        let path = entry.unwrap().path();
        let (sheet, text) = (path.with_extension("sheet"), path.with_extension("txt"));
        assert!(path == sheet || path == text, "{} is no part of a case", path.display());
        assert!(sheet.exists() && text.exists(), "{} stands alone", path.display());
        if path == sheet {
            let printed = list(&std::fs::read(&sheet).unwrap());
            assert!(printed.as_bytes() == std::fs::read(&text).unwrap(), "{}: {printed}", sheet.display());
            cases += 1;
        }
    }
    assert!(cases > 0);
    println!("stored listings: {cases}");
}

/// The program has no exit status: that its output could not be written is told on standard error.
#[test]
fn full_device() {
    let full = std::fs::OpenOptions::new().write(true).open("/dev/full").unwrap();
    let run = Command::new(program()).stdin(Stdio::null()).stdout(full).output().unwrap();
    assert_eq!(run.stderr, b"listing: the lines could not be written\n");
}

#[test]
fn document_01() {
    let expected = "lag 1 positions 4 commands 2 reached 4\nlosing 1\npair 2 - rank 2\npair 3 - rank 1\n";
    assert_eq!(list(&sheets::guess().at(1).sheet()), expected);
    assert!(list(&sheets::cut_guess().at(1).sheet()).starts_with("lag 1 positions 4 commands 2 reached 2\n"));
    assert_eq!(list(&sheets::looped().at(7).sheet()), "refused 3\n");
    assert_eq!(list(b""), "refused 1\n");
}

/// Sheets with a G body (W-207): a holding yard is listed as the completed one, G = 0 as no G, and any other body is refused, after 5 and
/// before 6.
#[test]
fn gates() {
    let mut random = Random::new(207);
    let mut differing = 0;
    for _ in 0..100 {
        let (own, actions) = (2 + random.below(4), 2 + random.below(2) as u8);
        let shape = Shape { own, environment: 2, actions, permitted: 40, moves: 3, unsafe_positions: *random.pick(&[0, 20]) };
        let yard = random_yard(&mut random, &shape).at(random.below(7) as u8);
        let [plain, held] = [yard.clone(), yard.completed()].map(|yard| list(&yard.sheet()));
        assert_eq!(list(&yard.holding().sheet()), held, "{yard:?}");
        assert_eq!(held, naive::listing(&yard.holding().sheet()), "{yard:?}");
        assert_eq!(list(&yard.gated(&[0]).sheet()), plain, "{yard:?}");
        assert_eq!(list(&yard.gated(&[random.next() as u8, 1]).sheet()), "refused 24\n", "{yard:?}");
        differing += usize::from(plain != held);
    }
    let shape = Shape { own: 17, environment: 16, actions: 8, permitted: 100, moves: 3, unsafe_positions: 0 };
    let yard = random_yard(&mut random, &shape).at(4).holding();
    for number in [1, 2, 3, 4, 5, 6, 7] {
        let first = if number < 6 { number } else { 24 };
        assert_eq!(list(&faulty_sheet(&yard, &[number, 24])), format!("refused {first}\n"));
    }
    println!("listings with holding gates: 100, {differing} other than without");
    assert!(differing > 0);
}

#[test]
fn pieces() {
    let sheet = sheets::hall().at(2).sheet();
    for piece in [1, 7, 30] {
        assert_eq!(list_in_pieces(&sheet, piece, Duration::from_millis(1)), naive::listing(&sheet));
    }
}

#[test]
fn long_input() {
    let mut sheet = sheets::guess().sheet();
    for length in [16_384, 16_385, 100_000] {
        sheet.resize(length, 0);
        assert_eq!(list(&sheet), "refused 1\n");
    }
}

/// An accepted sheet with 16,384 pairs, all of one side's losing or winning: the largest output.
#[test]
fn largest_output() {
    let mut random = Random::new(3);
    for unsafe_positions in [0, 100] {
        let shape = Shape { own: 255, environment: 1, actions: 8, permitted: 100, moves: 1, unsafe_positions };
        let sheet = random_yard(&mut random, &shape).at(4).sheet();
        let text = list(&sheet);
        assert_eq!(text, naive::listing(&sheet));
        println!("largest output: {} lines", text.lines().count());
    }
}

#[test]
fn random_sheets() {
    let mut random = Random::new(99);
    let mut kinds = [0; 3];
    let mut cut_off = 0;
    for round in 0..400 {
        let shape = Shape {
            own: 1 + random.below(5),
            environment: 1 + random.below(5),
            actions: 1 + random.below(if round % 5 == 0 { 8 } else { 3 }) as u8,
            permitted: *random.pick(&[40, 80, 100]),
            moves: 2,
            unsafe_positions: *random.pick(&[0, 20]),
        };
        let yard = random_yard(&mut random, &shape);
        let delay = random.below(if shape.actions > 3 { 3 } else { 7 }) as u8;
        let mut sheet = Yard { delay, ..yard }.sheet();
        if round % 10 == 0 {
            let at = random.below(sheet.len());
            sheet[at] ^= 1 << random.below(8);
        }
        let text = list(&sheet);
        assert_eq!(text, naive::listing(&sheet));
        kinds[if text.starts_with("refused") { 0 } else if text.contains("\nwinning\n") { 1 } else { 2 }] += 1;
        cut_off += usize::from(naive::read(&sheet).is_ok_and(|read| read.reached < read.places[1].1));
    }
    println!("listings: {} refused, {} winning, {} losing, {cut_off} partly cut off", kinds[0], kinds[1], kinds[2]);
    assert!(kinds.iter().chain([&cut_off]).all(|&n| n > 0));
}
