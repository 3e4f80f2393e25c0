// Tracks that slope: their squares, when two of them overlap, and marks that have a placing because they are built around one.
use crate::random::Random;

#[derive(Clone, Copy, PartialEq)]
pub struct Square {
    pub left: i32,
    pub right: i32,
    pub bottom: i32,
    pub top: i32,
}

// The square of a mark at a position from 1 to 4, the quadrants with y upward.
pub fn square(x: i16, y: i16, side: u8, position: u8) -> Square {
    let (x, y, side) = (x as i32, y as i32, side as i32);
    let (left, bottom) = match position {
        1 => (x, y),
        2 => (x - side, y),
        3 => (x - side, y - side),
        _ => (x, y - side),
    };
    Square { left, right: left + side, bottom, top: bottom + side }
}

// Document 02's words: the spans share more than an end point, in x and in y too.
pub fn overlap(one: Square, other: Square) -> bool {
    one.left < other.right && other.left < one.right && one.bottom < other.top && other.bottom < one.top
}

// A position from 1 to 4 for each mark, and of all pairs of squares none that overlap.
pub fn is_placing(xs: &[i16], ys: &[i16], side: u8, positions: &[u8]) -> bool {
    let squares: Vec<Square> = (0..xs.len()).map(|mark| square(xs[mark], ys[mark], side, positions[mark])).collect();
    let apart = |i: usize| (0..i).all(|j| !overlap(squares[i], squares[j]));
    positions.iter().all(|position| (1..=4).contains(position)) && (0..squares.len()).all(apart)
}

// The least step from mark to mark that a line has in whole dots, across and up.
pub type Direction = (i32, i32);

// How many least steps a line has room for.
pub fn room_for((across, up): Direction) -> i32 {
    60_000 / across.max(up)
}

// The coordinates of marks at so many least steps from the place of a first one.
pub fn coordinates((x, y): (i32, i32), (across, up): Direction, at: &[i32]) -> [Vec<i16>; 2] {
    [(x, across), (y, up)].map(|(first, step)| at.iter().map(|steps| (first + steps * step) as i16).collect())
}

// So many marks, each up to `most` least steps behind the one before it, with a square for each, none of them overlapping another: where a mark
// has no room for one, it moves on. Fewer marks where the range ends.
pub fn fitting_marks(random: &mut Random, marks: usize, direction: Direction, most: i32, side: u8) -> Vec<i32> {
    let mut at = Vec::new();
    let mut squares: Vec<Square> = Vec::new();
    let mut next = 0;
    while at.len() < marks && next <= room_for(direction) {
        let [xs, ys] = coordinates((-30_000, -30_000), direction, &[next]);
        let first = random.below(4);
        let mut tried = (0..4).map(|turn| square(xs[0], ys[0], side, ((first + turn) % 4) as u8 + 1));
        if let Some(own) = tried.find(|own| squares.iter().all(|earlier| !overlap(*earlier, *own))) {
            squares.push(own);
            at.push(next);
            next += random.between(1, most);
        } else {
            next += 1;
        }
    }
    at
}
