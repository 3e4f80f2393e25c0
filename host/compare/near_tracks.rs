// Tracks on both sides of the line between those that fit and those that do not.
use crate::random::Random;
use crate::slope::{greatest_divisor, Track};
use crate::tracks::{coordinates, fitting_marks, room_for, Direction};

// Lines at 45 degrees, flat ones, steep ones, and any, of which some have long least steps.
pub fn some_direction(random: &mut Random) -> Direction {
    let most = [3, 9, 9, 60][random.below(4)];
    let (one, other) = (random.between(1, most), random.between(1, most));
    match random.below(6) {
        0 => (1, 1),
        1 => (one, 1),
        2 => (1, one),
        _ => {
            let divisor = greatest_divisor(one, other);
            (one / divisor, other / divisor)
        }
    }
}

pub fn some_side(random: &mut Random) -> u8 {
    [1, 240, random.between(2, 9), random.between(9, 60), random.between(60, 240), random.between(60, 240)][random.below(6)] as u8
}

// The least coordinate of a list that is so long, at one end of the range or anywhere.
pub fn first_of(random: &mut Random, span: i32) -> i32 {
    match random.below(4) {
        0 => -30_000,
        1 => 30_000 - span,
        _ => random.between(-30_000, 30_000 - span),
    }
}

// Marks at so many least steps from the first one, moved to a place where all lie in the range.
pub fn at_some_place(random: &mut Random, direction: Direction, at: &[i32], side: u8) -> Track {
    let last = at.last().copied().unwrap_or(0);
    let first = (first_of(random, last * direction.0), first_of(random, last * direction.1));
    let [xs, ys] = coordinates(first, direction, at);
    Track { xs, ys, side, room: at.len() + random.below(4) }
}

// The longest step, in least steps: some dots between a quarter of a side and one and a half, where tracks begin to fit.
fn longest_step(random: &mut Random, (across, up): Direction, side: u8) -> i32 {
    let dots = side as i32 * [2, 4, 5, 6, 8, 12][random.below(6)] / 8;
    (dots / across.max(up)).max(1)
}

// So many marks, each up to so many least steps behind the one before it, or fewer where the range ends.
pub fn any_marks(random: &mut Random, marks: usize, direction: Direction, most: i32) -> Vec<i32> {
    let most = most.min(room_for(direction) / marks.max(1) as i32).max(1);
    let mut at = Vec::new();
    let mut next = 0;
    while at.len() < marks && next <= room_for(direction) {
        at.push(next);
        next += random.between(1, most);
    }
    at
}

// Up to four marks close together, which leave few positions to each other, then a step near one side of a square or near two, and so on.
fn clustered_marks(random: &mut Random, marks: usize, direction: Direction, side: u8) -> Vec<i32> {
    let longest = direction.0.max(direction.1);
    let mut at = Vec::new();
    let mut next = 0;
    while at.len() < marks && next <= room_for(direction) {
        for _ in 0..random.between(1, 4) {
            at.push(next);
            next += 1;
        }
        let dots = random.between(1, 2) * side as i32 + random.between(-1, 1);
        next += (dots / longest - 1 - random.below(2) as i32).max(0);
    }
    at.truncate(marks);
    at.retain(|steps| *steps <= room_for(direction));
    at
}

// One to three steps made shorter, so that what has room for its squares is about to have none.
fn draw_together(random: &mut Random, at: &mut [i32]) {
    for _ in 0..random.between(1, 3) {
        let mark = random.below(at.len());
        if mark > 0 {
            let by = random.between(0, at[mark] - at[mark - 1] - 1).min(9);
            at[mark..].iter_mut().for_each(|steps| *steps -= by);
        }
    }
}

// Up to so many marks; some tracks fit, some do not, and some are near the line between.
pub fn sound_track(random: &mut Random, marks: usize) -> Track {
    let side = some_side(random);
    let direction = some_direction(random);
    let most = longest_step(random, direction, side);
    let at = match random.below(4) {
        0 => any_marks(random, marks, direction, most),
        1 => clustered_marks(random, marks, direction, side),
        2 => fitting_marks(random, marks, direction, most, side),
        _ => {
            let mut at = fitting_marks(random, marks, direction, most, side);
            if !at.is_empty() {
                draw_together(random, &mut at);
            }
            at
        }
    };
    at_some_place(random, direction, &at, side)
}

// Six marks at all short steps, of one to four least steps, for squares so small and so large that they overlap, touch or lie apart in every
// way, on lines of a few directions.
pub fn all_short_tracks() -> impl Iterator<Item = Track> {
    let lines = |side: u8| [(1, 1), (1, 2), (2, 1), (2, 3), (3, 2), (1, 4), (4, 1)].map(|direction| (side, direction));
    let steps = |(side, direction): (u8, Direction)| {
        (0..1024).map(move |chosen| {
            let at: Vec<i32> = (0..6).map(|marks| (0..marks).map(|mark| (chosen >> (2 * mark) & 3) + 1).sum()).collect();
            let [xs, ys] = coordinates((0, 0), direction, &at);
            Track { xs, ys, side, room: 6 }
        })
    };
    (1..=8).flat_map(lines).flat_map(steps)
}
