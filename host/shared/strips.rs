// Strips, and such as have a placing because they are built around one.
use crate::random::Random;

#[derive(Clone, Debug, PartialEq)]
pub struct Strip {
    pub places: Vec<i16>,
    pub lengths: Vec<u8>,
    pub weights: Vec<u16>,
}

// How far a mark lies from the one before it and how long the labels are at most.
#[derive(Clone, Copy)]
pub struct Shape {
    pub step: i32,
    pub length: i32,
}

// Marks at offsets from the first one, moved to a place in the range where all of them lie in it.
pub fn at_some_place(random: &mut Random, offsets: &[i32], lengths: Vec<u8>) -> Strip {
    let span = offsets.last().copied().unwrap_or(0);
    let first = match random.below(4) {
        0 => -30_000,
        1 => 30_000 - span,
        _ => random.between(-30_000, 30_000 - span),
    };
    let heaviest = [1, 9, 1_000][random.below(3)];
    Strip {
        places: offsets.iter().map(|offset| (first + offset) as i16).collect(),
        weights: lengths.iter().map(|_| random.between(1, heaviest) as u16).collect(),
        lengths,
    }
}

// The longest label that a mark at `place` can have on a side that, with the gap, reaches to `reach`, 0 for none.
fn room(place: i32, reach: i32, right: bool, longest: i32) -> i32 {
    if right {
        if reach <= place {
            longest
        } else {
            0
        }
    } else {
        (place - reach).clamp(0, longest)
    }
}

// A strip that fits at a gap, of at most so many marks: each has a label, at one of the four positions, beside those before it. Fewer
// marks if the range of places is used up.
pub fn fitting_strip(random: &mut Random, marks: usize, shape: Shape, gap: u8) -> Strip {
    let mut reaches = [-1_000, -1_000];
    let mut place = 0;
    let mut offsets = Vec::new();
    let mut lengths = Vec::new();
    while offsets.len() < marks {
        let side = random.below(2);
        let right = random.once_in(2);
        let tried = [(side, right), (side, !right), (1 - side, right), (1 - side, !right)];
        let free = tried.iter().find(|(side, right)| room(place, reaches[*side], *right, shape.length) > 0);
        if let Some(&(side, right)) = free {
            let length = random.between(1, room(place, reaches[side], right, shape.length));
            reaches[side] = gap as i32 + if right { place + length } else { place };
            offsets.push(place);
            lengths.push(length as u8);
            place += random.between(1, shape.step);
        } else {
            place += 1;
        }
        if place > 60_000 {
            break;
        }
    }
    at_some_place(random, &offsets, lengths)
}
