//! The proved operations, through the C interface of `include/loquatquoits.h`.
use crate::cabin::{Observation, Refusal};
use crate::judge::Judgement;
use crate::naive::Read;
use crate::posting::Posted;
use crate::sheets::Yard;

/// C's `lq_heard`.
#[repr(C)]
struct Heard {
    refusal: u8,
    place: usize,
}

extern "C" {
    fn lq_read(
        sheet: *const u8,
        sheet_len: usize,
        header: *mut u8,
        places: *mut usize,
        reached: *mut usize,
        holding: *mut u8,
    ) -> u8;
    fn lq_solve(
        sheet: *const u8,
        sheet_len: usize,
        masks: *mut u8,
        masks_len: usize,
        ranks: *mut u16,
        ranks_len: usize,
        losing: *mut u8,
        reached: *mut usize,
    ) -> u8;
    fn lq_make(
        sheet: *const u8,
        sheet_len: usize,
        masks: *mut u8,
        masks_len: usize,
        ranks: *mut u16,
        ranks_len: usize,
        out: *mut u8,
        out_len: usize,
        size: *mut usize,
        losing: *mut u8,
        reached: *mut usize,
    ) -> u8;
    fn lq_masks(sheet: *const u8, sheet_len: usize, place: *mut usize) -> u8;
    fn lq_open(sheet: *const u8, sheet_len: usize, state: *mut u8) -> u8;
    fn lq_observe(sheet: *const u8, sheet_len: usize, state: *mut u8, index: usize, position: u8) -> u8;
    fn lq_observe_all(
        sheet: *const u8,
        sheet_len: usize,
        state: *mut u8,
        observations: *const Observation,
        count: usize,
    ) -> Heard;
    fn lq_act(sheet: *const u8, sheet_len: usize, state: *mut u8, action: *mut u8) -> u8;
    fn lq_judge(
        sheet: *const u8,
        sheet_len: usize,
        table: *const u8,
        table_len: usize,
        verdict: *mut u8,
        place: *mut usize,
    ) -> u8;
    fn lq_post(
        sheet: *const u8,
        sheet_len: usize,
        table: *const u8,
        table_len: usize,
        notice: *const u8,
        notice_len: usize,
        out: *mut u8,
        out_len: usize,
        size: *mut usize,
        remains: *mut u8,
    ) -> u8;
}

pub type Solve = unsafe extern "C" fn(*const u8, usize, *mut u8, usize, *mut u16, usize, *mut u8, *mut usize) -> u8;
pub type Judge = unsafe extern "C" fn(*const u8, usize, *const u8, usize, *mut u8, *mut usize) -> u8;

/// What `lq_solve` leaves in `losing` where the asked lag wins.
pub const WINS: u8 = 255;

/// The accepted reading, or the refusal's number; a refusal must leave what was lent.
pub fn read(sheet: &[u8]) -> Result<Read, u8> {
    let mut header = [0xa5u8; 3];
    let mut places = [0x5a5ausize; 8];
    let (mut reached, mut holding) = (0x5a5a, 0x5a);
    let number = unsafe {
        let (header, places) = (header.as_mut_ptr(), places.as_mut_ptr());
        lq_read(sheet.as_ptr(), sheet.len(), header, places, &mut reached, &mut holding)
    };
    if number != 0 {
        let after = (header, places, reached, holding);
        assert_eq!(after, ([0xa5; 3], [0x5a5a; 8], 0x5a5a, 0x5a), "a refused reading altered what was lent");
        return Err(number);
    }
    assert!(holding <= 1, "holding {holding}");
    Ok(Read {
        start: header[0],
        actions: header[1],
        delay: header[2],
        places: [0, 1, 2, 3].map(|k| (places[2 * k], places[2 * k + 1])),
        reached,
        holding: holding == 1,
    })
}

/// What solving and making answer beside their tables.
#[derive(Clone, Copy, Debug, PartialEq, Eq)]
pub struct Answer {
    /// The losing lag, or none where the asked lag wins.
    pub losing: Option<u8>,
    pub reached: usize,
}

impl Answer {
    fn new(losing: u8, reached: usize) -> Answer {
        Answer { losing: (losing != WINS).then_some(losing), reached }
    }
}

/// The answer, or the refusal's number.
pub fn solve(sheet: &[u8], masks: &mut [u8], ranks: &mut [u16]) -> Result<Answer, u8> {
    solve_by(lq_solve, sheet, masks, ranks)
}

/// The same by the `lq_solve` of any library.
pub fn solve_by(lq_solve: Solve, sheet: &[u8], masks: &mut [u8], ranks: &mut [u16]) -> Result<Answer, u8> {
    let (mut losing, mut reached) = (0x5a, 0x5a5a);
    let number = unsafe {
        lq_solve(
            sheet.as_ptr(),
            sheet.len(),
            masks.as_mut_ptr(),
            masks.len(),
            ranks.as_mut_ptr(),
            ranks.len(),
            &mut losing,
            &mut reached,
        )
    };
    if number != 0 {
        assert_eq!((losing, reached), (0x5a, 0x5a5a), "a refused solving altered what was lent");
        return Err(number);
    }
    Ok(Answer::new(losing, reached))
}

/// The sheet made into an output of so many bytes, and the answer; nothing beyond the sheet is altered, and nothing by a refusal.
pub fn make(sheet: &[u8], masks: &mut [u8], ranks: &mut [u16], room: usize) -> Result<(Vec<u8>, Answer), u8> {
    let before: Vec<u8> = (0..room).map(|k| (k * 31 + 7) as u8).collect();
    let buffers = (masks.to_vec(), ranks.to_vec());
    let mut out = before.clone();
    let (mut size, mut losing, mut reached) = (0x5a5a, 0x5a, 0x5a5a);
    let number = unsafe {
        lq_make(
            sheet.as_ptr(),
            sheet.len(),
            masks.as_mut_ptr(),
            masks.len(),
            ranks.as_mut_ptr(),
            ranks.len(),
            out.as_mut_ptr(),
            out.len(),
            &mut size,
            &mut losing,
            &mut reached,
        )
    };
    if number != 0 {
        let after = (size, losing, reached, &out);
        assert_eq!(after, (0x5a5a, 0x5a, 0x5a5a, &before), "a refused making altered what was lent");
        assert_eq!((masks.to_vec(), ranks.to_vec()), buffers, "a refused making altered the buffers");
        return Err(number);
    }
    assert_eq!(out[size..], before[size..], "bytes beyond the made sheet were altered");
    out.truncate(size);
    Ok((out, Answer::new(losing, reached)))
}

/// The sheet of a yard, made with buffers that are as long as they must be.
pub fn make_of(yard: &Yard, room: usize) -> Result<(Vec<u8>, Answer), u8> {
    let n = yard.pairs();
    make(&yard.sheet(), &mut vec![0; n], &mut vec![0; n], room)
}

/// Offset and length of the T body of a winning sheet.
pub fn table_place(sheet: &[u8]) -> Result<(usize, usize), u8> {
    let mut place = [0x5a5a; 2];
    match unsafe { lq_masks(sheet.as_ptr(), sheet.len(), place.as_mut_ptr()) } {
        0 => Ok((place[0], place[1])),
        number => {
            assert_eq!(place, [0x5a5a; 2]);
            Err(number)
        }
    }
}

pub fn open(sheet: &[u8]) -> Result<[u8; 21], u8> {
    let mut state = [0x5a; 21];
    match unsafe { lq_open(sheet.as_ptr(), sheet.len(), state.as_mut_ptr()) } {
        0 => Ok(state),
        number => {
            assert_eq!(state, [0x5a; 21], "a refused opening altered the state");
            Err(number)
        }
    }
}

pub fn observe(sheet: &[u8], state: &mut [u8; 21], index: usize, position: u8) -> Result<(), u8> {
    match unsafe { lq_observe(sheet.as_ptr(), sheet.len(), state.as_mut_ptr(), index, position) } {
        0 => Ok(()),
        number => Err(number),
    }
}

/// Nothing, or the refusal of a packet, which must leave the state; a place is given for 16 to 19 only.
pub fn observe_all(sheet: &[u8], state: &mut [u8; 21], packet: &[Observation]) -> Result<(), Refusal> {
    let before = *state;
    let heard =
        unsafe { lq_observe_all(sheet.as_ptr(), sheet.len(), state.as_mut_ptr(), packet.as_ptr(), packet.len()) };
    let of_record = (16..=19).contains(&heard.refusal);
    assert!(of_record || heard.place == 0, "a place {} with {}", heard.place, heard.refusal);
    if heard.refusal == 0 {
        return Ok(());
    }
    assert_eq!(*state, before, "a refused packet altered the state");
    Err((heard.refusal, of_record.then_some(heard.place)))
}

pub fn act(sheet: &[u8], state: &mut [u8; 21]) -> Result<u8, u8> {
    let mut action = 0x5a;
    match unsafe { lq_act(sheet.as_ptr(), sheet.len(), state.as_mut_ptr(), &mut action) } {
        0 => Ok(action),
        number => {
            assert_eq!(action, 0x5a, "a refused giving altered what was lent");
            Err(number)
        }
    }
}

/// What is said of a table made elsewhere, or the refusal's number; a refusal must leave what was lent.
pub fn judge(sheet: &[u8], table: &[u8]) -> Result<Judgement, u8> {
    judge_by(lq_judge, sheet, table)
}

/// The same by the `lq_judge` of any library.
pub fn judge_by(lq_judge: Judge, sheet: &[u8], table: &[u8]) -> Result<Judgement, u8> {
    let (mut verdict, mut place) = (0x5a, 0x5a5a);
    let number =
        unsafe { lq_judge(sheet.as_ptr(), sheet.len(), table.as_ptr(), table.len(), &mut verdict, &mut place) };
    if number != 0 {
        assert_eq!((verdict, place), (0x5a, 0x5a5a), "a refused judging altered what was lent");
        return Err(number);
    }
    Ok(match (verdict, place) {
        (0, 0) => Judgement::Sound,
        (1, word) => Judgement::Word(word),
        (2, pair) => Judgement::Pair(pair),
        other => panic!("no judgement: {other:?}"),
    })
}

/// The posted sheet's length and whether a first word remains, or the refusal's number; a refusal must leave both.
pub fn post_into(sheet: &[u8], table: &[u8], notice: &[u8], out: &mut [u8]) -> Result<(usize, bool), u8> {
    let (mut size, mut remains) = (0x5a5a, 0x5a);
    let number = unsafe {
        lq_post(
            sheet.as_ptr(),
            sheet.len(),
            table.as_ptr(),
            table.len(),
            notice.as_ptr(),
            notice.len(),
            out.as_mut_ptr(),
            out.len(),
            &mut size,
            &mut remains,
        )
    };
    if number != 0 {
        assert_eq!((size, remains), (0x5a5a, 0x5a), "a refused posting altered what was lent");
        return Err(number);
    }
    assert!(size <= out.len() && remains <= 1, "no posting: size {size}, remains {remains}");
    Ok((size, remains == 1))
}

/// The sheet posted into an output of so many bytes with a pattern in it, or the refusal's number.
pub fn post(sheet: &[u8], table: &[u8], notice: &[u8], room: usize) -> Result<Posted, u8> {
    let pattern: Vec<u8> = (0..room + 8).map(|k| (k * 31 + 7) as u8).collect();
    post_over(sheet, table, notice, &pattern, room)
}

/// The same, the output being the front of these bytes. Nothing beyond the sheet is altered, nor behind the output, and nothing at all by a
/// refusal.
pub fn post_over(sheet: &[u8], table: &[u8], notice: &[u8], before: &[u8], room: usize) -> Result<Posted, u8> {
    let mut out = before.to_vec();
    let answer = post_into(sheet, table, notice, &mut out[..room]);
    let written = answer.map_or(0, |(size, _)| size);
    assert_eq!(out[written..], before[written..], "bytes beyond the posted sheet were altered");
    let (size, remains) = answer?;
    out.truncate(size);
    Ok(Posted { sheet: out, remains })
}
