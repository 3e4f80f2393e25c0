// The largest letters against all widths from 1 to 30: each is tried on its own, by a search for the first placing, whatever the others
// gave. So it is seen too that every width below one that fits does so.
use crate::calls;
use crate::full::{Search, LIMITS};
use crate::lent::{ensure, Lent};
use crate::marks::{pass_number, Call, LentMarks};
use crate::random::Random;
use crate::strips::Strip;

pub const WIDEST: u8 = 30;

// The strip at a width, its lengths being cells, unless a length is over 240.
fn at_width(strip: &Strip, width: u8) -> Option<Strip> {
    let length = |cells: &u8| (*cells as u32 * width as u32 <= 240).then(|| cells * width);
    let lengths: Option<Vec<u8>> = strip.lengths.iter().map(length).collect();
    Some(Strip { lengths: lengths?, ..strip.clone() })
}

// The widths that fit, each with its first placing.
fn fitting(strip: &Strip, gap: i32, first: Search) -> Vec<(u8, Vec<u8>)> {
    (1..=WIDEST).filter_map(|width| Some((width, first(&at_width(strip, width)?, gap)?))).collect()
}

// The first placing as the exported full pass has it. For strips of any length.
pub fn by_full(strip: &Strip, gap: i32) -> Option<Vec<u8>> {
    let mut positions = vec![0; strip.places.len()];
    let mut work = vec![0; LIMITS.work];
    let number = calls::full(&strip.places, &strip.lengths, &strip.weights, gap as u8, &mut positions, &mut work);
    (number == 0).then_some(positions)
}

// The number and the width on which both sides agree.
pub fn compare(random: &mut Random, call: &Call, first: Search) -> Result<(u8, u8), String> {
    let mut marks = LentMarks::of(random, &call.strip);
    let mut positions: Lent<u8> = Lent::of_length(random, call.answers[0]);
    let mut work: Lent<i16> = Lent::of_length(random, call.work);
    let mut width: Lent<u8> = Lent::of_length(random, 1);
    let (places, cells, weights) = (marks.places.list(), marks.lengths.list(), marks.weights.list());
    let number = calls::largest(places, cells, weights, call.gap, positions.list(), work.list(), &mut width.list()[0]);
    marks.unchanged()?;
    let entry = pass_number(call, &LIMITS);
    if entry != 0 {
        ensure(number == entry, &format!("number {number}, not {entry}"))?;
        ensure(positions.unchanged() && work.unchanged(), "lent memory changed at a refusal")?;
        ensure(width.written(&[0]), "the width at a refusal")?;
        return Ok((number, 0));
    }
    ensure(work.cleared(LIMITS.work), "the work area")?;
    let fitting = fitting(&call.strip, call.gap as i32, first);
    ensure(fitting.iter().map(|(width, _)| *width).eq(1..=fitting.len() as u8), "a smaller width does not fit")?;
    match fitting.last() {
        None => {
            ensure(number == 11, &format!("number {number}, not 11"))?;
            ensure(positions.unchanged(), "positions changed at 11")?;
            ensure(width.written(&[0]), "the width at 11")?;
            Ok((11, 0))
        }
        Some((greatest, expected)) => {
            ensure(number == 0, &format!("number {number}, not 0"))?;
            ensure(width.written(&[*greatest]), &format!("width {}, not {greatest}", width.now()[0]))?;
            ensure(positions.written(expected), "positions")?;
            Ok((0, *greatest))
        }
    }
}
