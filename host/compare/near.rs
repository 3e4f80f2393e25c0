// Strips on both sides of the line between those that fit and those that do not.
use crate::random::Random;
use crate::strips::{at_some_place, fitting_strip, Shape, Strip};

pub fn any_strip(random: &mut Random, marks: usize, shape: Shape) -> Strip {
    let widest = shape.step.min(60_000 / marks.max(1) as i32).max(1);
    let mut offset = 0;
    let mut offsets = Vec::new();
    let mut lengths = Vec::new();
    for _ in 0..marks {
        offsets.push(offset);
        lengths.push(random.between(1, shape.length) as u8);
        offset += random.between(1, widest);
    }
    at_some_place(random, &offsets, lengths)
}

// A strip that is about to fit or not: one that fits, with some labels lengthened.
fn near_strip(random: &mut Random, marks: usize, shape: Shape, gap: u8) -> Strip {
    let mut strip = fitting_strip(random, marks, shape, gap);
    for _ in 0..random.below(3) {
        if !strip.lengths.is_empty() {
            let at = random.below(strip.lengths.len());
            strip.lengths[at] = strip.lengths[at].saturating_add(random.between(1, 3) as u8).min(240);
        }
    }
    strip
}

pub fn some_strip(random: &mut Random, marks: usize, shape: Shape, gap: u8) -> Strip {
    match random.below(3) {
        0 => any_strip(random, marks, shape),
        1 => fitting_strip(random, marks, shape, gap),
        _ => near_strip(random, marks, shape, gap),
    }
}
