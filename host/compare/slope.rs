// The track that slopes. Whether there is a placing: by searches that look at all pairs of squares. What is written: tested as a placing, since
// which one is open.
use crate::calls;
use crate::lent::{ensure, Lent};
use crate::marks::first_number;
use crate::random::Random;
use crate::tracks::{is_placing, overlap, square, Square};

// The coordinates of the marks, the side of the squares, and the length of the list to be filled.
#[derive(Clone, Debug)]
pub struct Track {
    pub xs: Vec<i16>,
    pub ys: Vec<i16>,
    pub side: u8,
    pub room: usize,
}

impl Track {
    fn square(&self, mark: usize, position: u8) -> Square {
        square(self.xs[mark], self.ys[mark], self.side, position)
    }

    fn is_placing(&self, positions: &[u8]) -> bool {
        is_placing(&self.xs, &self.ys, self.side, positions)
    }
}

// ---- whether there is a placing

// Every list of positions.
pub fn by_all_choices(track: &Track) -> bool {
    let marks = track.xs.len();
    (0..1usize << (2 * marks)).any(|chosen| {
        let positions: Vec<u8> = (0..marks).map(|mark| (chosen >> (2 * mark) & 3) as u8 + 1).collect();
        track.is_placing(&positions)
    })
}

fn extend(track: &Track, squares: &mut Vec<Square>) -> bool {
    let mark = squares.len();
    mark == track.xs.len()
        || (1..=4).any(|position| {
            let next = track.square(mark, position);
            if squares.iter().any(|earlier| overlap(*earlier, next)) {
                return false;
            }
            squares.push(next);
            let found = extend(track, squares);
            squares.pop();
            found
        })
}

// Every placing, each square compared with all before it.
pub fn by_plain_search(track: &Track) -> bool {
    extend(track, &mut Vec::new())
}

// From left to right, of every placing of the marks so far its squares, without those that no later square can meet: these end where the squares
// of the next mark begin at the earliest, in x or in y, and the squares of later marks begin further on. For tracks of any length.
pub fn by_squares_in_reach(track: &Track) -> bool {
    let marks = track.xs.len();
    let mut placings: Vec<Vec<Square>> = vec![vec![]];
    for mark in 0..marks {
        let next = (mark + 1 < marks).then(|| track.square(mark + 1, 3));
        let in_reach = |one: &Square| next.is_some_and(|next| next.left < one.right && next.bottom < one.top);
        let mut after: Vec<Vec<Square>> = Vec::new();
        for placing in &placings {
            for position in 1..=4 {
                let own = track.square(mark, position);
                if placing.iter().all(|earlier| !overlap(*earlier, own)) {
                    let squares: Vec<Square> = placing.iter().copied().chain([own]).filter(in_reach).collect();
                    if !after.contains(&squares) {
                        after.push(squares);
                    }
                }
            }
        }
        placings = after;
    }
    !placings.is_empty()
}

// A search that says whether there is a placing.
pub type Search = fn(&Track) -> bool;

// ---- the checks

fn is_rising(coordinates: &[i16]) -> bool {
    coordinates.windows(2).all(|pair| pair[0] < pair[1])
}

// The checks with number 8, of the side and of all coordinates.
pub fn is_bad(track: &Track) -> bool {
    let out_of_range = |coordinate: &i16| !(-30_000..=30_000).contains(coordinate);
    !(1..=240).contains(&track.side)
        || track.xs.iter().chain(&track.ys).any(out_of_range)
        || !is_rising(&track.xs)
        || !is_rising(&track.ys)
}

pub fn greatest_divisor(one: i32, other: i32) -> i32 {
    if other == 0 {
        one
    } else {
        greatest_divisor(other, one % other)
    }
}

// Rising marks are on one line if all steps from mark to mark have one direction, in lowest terms.
fn is_on_one_line(track: &Track) -> bool {
    let step = |list: &[i16], mark: usize| list[mark + 1] as i32 - list[mark] as i32;
    let direction = |mark: usize| {
        let (across, up) = (step(&track.xs, mark), step(&track.ys, mark));
        let divisor = greatest_divisor(across, up);
        (across / divisor, up / divisor)
    };
    (1..track.xs.len()).all(|mark| direction(mark - 1) == direction(0))
}

fn entry_number(track: &Track) -> u8 {
    let marks = track.xs.len();
    let lists = [(track.ys.len() != marks, 6), (marks > 4_000, 7), (is_bad(track), 8), (marks > 60, 7)];
    match first_number(&lists) {
        0 => first_number(&[(!is_on_one_line(track), 18), (track.room < marks, 9)]),
        number => number,
    }
}

pub fn compare(random: &mut Random, track: &Track, fits: Search) -> Result<u8, String> {
    let mut xs = Lent::holding(random, &track.xs);
    let mut ys = Lent::holding(random, &track.ys);
    let mut positions: Lent<u8> = Lent::of_length(random, track.room);
    let number = calls::slope(xs.list(), ys.list(), track.side, positions.list());
    ensure(xs.unchanged() && ys.unchanged(), "a list of coordinates was changed")?;
    let expected = match entry_number(track) {
        0 if !fits(track) => 11,
        number => number,
    };
    ensure(number == expected, &format!("number {number}, not {expected}"))?;
    if number != 0 {
        ensure(positions.unchanged(), "positions changed at a refusal")?;
        return Ok(number);
    }
    let chosen = positions.now()[..track.xs.len()].to_vec();
    ensure(positions.written(&chosen), "positions beyond the used part")?;
    ensure(track.is_placing(&chosen), &format!("{chosen:?} is no placing"))?;
    Ok(number)
}
