// Tracks that are refused, or nearly: with marks beside the line, and with each fault that a check finds, several at once too.
use crate::near_tracks::{any_marks, at_some_place, first_of, some_direction, some_side};
use crate::random::Random;
use crate::slope::{is_bad, Track};

// In the order of the checks.
#[derive(Clone, Copy, PartialEq)]
enum Fault {
    Unequal,
    Over4000,
    Bad,
    Over60,
    OffLine,
    Short,
    Crowded,
}

const FAULTS: [Fault; 7] =
    [Fault::Unequal, Fault::Over4000, Fault::Bad, Fault::Over60, Fault::OffLine, Fault::Short, Fault::Crowded];

fn unequal(random: &mut Random, track: &mut Track) {
    let list = if random.once_in(2) { &mut track.xs } else { &mut track.ys };
    if random.once_in(2) {
        list.push(30_000);
    } else {
        list.pop();
    }
}

// The side out of range, a coordinate out of range, which is the first or the last, so that coordinates rise, or two that do not rise.
fn spoil(random: &mut Random, track: &mut Track) {
    let kind = random.below(3);
    let list = if random.once_in(2) { &mut track.xs } else { &mut track.ys };
    let marks = list.len();
    if kind == 0 || marks == 0 || (kind == 2 && marks == 1) {
        track.side = [0, 241, random.between(241, 255) as u8][random.below(3)];
    } else if kind == 1 && random.once_in(2) {
        list[0] = [-30_001, i16::MIN][random.below(2)];
    } else if kind == 1 {
        list[marks - 1] = [30_001, i16::MAX][random.below(2)];
    } else {
        let at = [1, marks - 1, random.between(1, marks as i32 - 1) as usize][random.below(3)];
        list[at] = list[at - 1];
        if random.once_in(2) {
            list[at] = (list[at] - random.between(1, 3) as i16).max(-30_000);
        }
    }
}

// One mark, the first, the second, the last or any, a dot or some dots beside its place, where it is still in range and rises.
fn move_off(random: &mut Random, track: &mut Track) {
    let marks = track.xs.len();
    for _ in 0..8 {
        let before = track.clone();
        let at = [0, 1, 2, marks - 1, random.below(marks), random.below(marks)][random.below(6)].min(marks - 1);
        let dots = [1, 1, 2, 16][random.below(4)] * [1, -1][random.below(2)];
        let list = if random.once_in(2) { &mut track.xs } else { &mut track.ys };
        list[at] += dots;
        if !is_bad(track) {
            return;
        }
        *track = before;
    }
}

fn shorten(random: &mut Random, track: &mut Track) {
    let marks = track.xs.len();
    track.room = [marks.saturating_sub(1), random.below(marks.max(1)), 0][random.below(3)];
}

// Breaks one check after another with some chance, several at once too.
pub fn damage(random: &mut Random, track: &mut Track) {
    if random.once_in(8) && !track.xs.is_empty() {
        move_off(random, track);
    }
    if random.once_in(8) {
        shorten(random, track);
    }
    if random.once_in(8) {
        spoil(random, track);
    }
    if random.once_in(10) {
        unequal(random, track);
    }
}

// Two marks, as they lie from a first one, of which the second is as near to the line through the first and its neighbour as it can be, or on
// it: the products that tell differ by 1, or not at all. Both are at most two times `most` away.
fn thin_steps(random: &mut Random, most: i32) -> [(i32, i32); 2] {
    if random.once_in(3) {
        let near = random.between(1, 2 * most - 2);
        return [(near, near + 1), (near + 1, near + 2)];
    }
    let limit = random.between(3, most);
    let (mut one, mut other) = ((1, 1), (1, 2));
    loop {
        let sum = (one.0 + other.0, one.1 + other.1);
        if sum.0.max(sum.1) > limit {
            let step = if random.once_in(4) { one } else { other };
            return [one, (one.0 + step.0, one.1 + step.1)];
        }
        *[&mut one, &mut other][random.below(2)] = sum;
    }
}

// Three marks nearly or just on one line, somewhere or all over the range; those with all steps multiples of 256 are alike in 16 bits of the
// products, and a few are alike in 31 bits.
pub fn thin_track(random: &mut Random) -> Track {
    let scale = [1, 1, 1, 4, 256][random.below(5)];
    let mut steps = thin_steps(random, 30_000 / scale).map(|step| (scale * step.0, scale * step.1));
    if random.once_in(50) {
        steps = [(59_439, 23_648), (59_999, 60_000)];
    }
    if random.once_in(2) {
        steps = steps.map(|(across, up)| (up, across));
    }
    let [second, third] = steps;
    let (x, y) = (first_of(random, third.0), first_of(random, third.1));
    let at = |start: i32, ends: [i32; 3]| ends.map(|steps| (start + steps) as i16).to_vec();
    Track { xs: at(x, [0, second.0, third.0]), ys: at(y, [0, second.1, third.1]), side: some_side(random), room: 3 }
}

// Three marks or more, up to 60 and some on a line all over the range, of which one is often moved off it.
pub fn nearly_straight_track(random: &mut Random) -> Track {
    let marks = [3, 4, random.between(3, 60), 60][random.below(4)] as usize;
    let direction = some_direction(random);
    let most = [2, 40, 60_000][random.below(3)];
    let at = any_marks(random, marks, direction, most);
    let side = some_side(random);
    let mut track = at_some_place(random, direction, &at, side);
    if !random.once_in(4) {
        move_off(random, &mut track);
    }
    track
}

// Two faults whose checks follow each other.
pub fn doubly_refused_track(random: &mut Random) -> Track {
    let first = random.below(FAULTS.len() - 1);
    let has = |fault: Fault| FAULTS[first..first + 2].contains(&fault);
    let marks = if has(Fault::Over4000) {
        4_001
    } else if has(Fault::Over60) {
        [61, random.between(61, 4_000), 4_000][random.below(3)]
    } else {
        random.between(5, 60)
    };
    let (direction, least, side) = if has(Fault::Crowded) {
        ((1, 1), 1, random.between(3, 240) as u8)
    } else {
        ([(1, 1), (2, 3), (3, 1)][random.below(3)], 3, some_side(random))
    };
    let at: Vec<i32> = (0..marks).map(|mark| least * mark).collect();
    let mut track = at_some_place(random, direction, &at, side);
    for fault in &FAULTS[first..first + 2] {
        match fault {
            Fault::Unequal => unequal(random, &mut track),
            Fault::Bad => spoil(random, &mut track),
            Fault::OffLine => move_off(random, &mut track),
            Fault::Short => shorten(random, &mut track),
            Fault::Over4000 | Fault::Over60 | Fault::Crowded => {}
        }
    }
    track
}

// 59 to 62, 3,999 to 4,002 marks, all good or with a fault.
pub fn counted_track(random: &mut Random) -> Track {
    let marks = [59, 60, 61, 62, 3_999, 4_000, 4_001, 4_002][random.below(8)];
    let direction = [(1, 1), (3, 2), (1, 5)][random.below(3)];
    let side = some_side(random);
    let at: Vec<i32> = (0..marks).map(|mark| 2 * mark).collect();
    let mut track = at_some_place(random, direction, &at, side);
    if random.once_in(2) {
        damage(random, &mut track);
    }
    track
}
