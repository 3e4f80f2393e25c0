// The greatest width of a letter cell at which the full pass places every label. The checks are made once and the work area is cleared
// once; at each width the lengths are formed and the table is filled anew, and only that of the width found is walked through.
use super::full::{fill, walk, WORK};

const WIDEST: u8 = 30;

// What is needed to try a width, with the lengths and the table of the last one tried.
struct Trial<'a> {
    places: &'a [i16],
    cells: &'a [u8],
    gap: i32,
    lengths: &'a mut [u8],
    table: &'a mut [i16],
}

impl Trial<'_> {
    fn fits(&mut self, width: u8) -> bool {
        for (length, count) in self.lengths.iter_mut().zip(self.cells) {
            *length = count.wrapping_mul(width);
        }
        fill(self.places, self.lengths, self.gap, self.table)
    }
}

// The first width that fits, from the widest down.
fn from_the_top(trial: &mut Trial, widest: u8) -> Option<u8> {
    (1..=widest).rev().find(|width| trial.fits(*width))
}

// The same by halving, since every width below one that fits does so too. The table of the width found is filled once more unless it was
// the last.
fn by_halves(trial: &mut Trial, widest: u8) -> Option<u8> {
    let (mut found, mut beyond, mut last) = (0, widest + 1, 0);
    while beyond - found > 1 {
        last = (found + beyond) / 2;
        if trial.fits(last) {
            found = last;
        } else {
            beyond = last;
        }
    }
    if last != found && found != 0 {
        trial.fits(found);
    }
    (found != 0).then_some(found)
}

#[derive(Clone, Copy)]
pub enum Order {
    FromTheTop,
    ByHalves,
}

#[inline(never)]
pub fn largest(
    order: Order,
    places: &[i16],
    cells: &[u8],
    weights: &[u16],
    gap: u8,
    positions: &mut [u8],
    work: &mut [i16],
    width: &mut u8,
) -> u8 {
    *width = 0;
    let number = super::check_pass(places, cells, weights, gap, 4_000, positions.len(), WORK, work.len());
    if number != 0 {
        return number;
    }
    let widest = WIDEST.min(240 / cells.iter().fold(1, |most, count| most.max(*count)));
    let (lengths, table) = (&mut [0; 4_000][..cells.len()], &mut work[..2 * places.len()]);
    let mut trial = Trial { places, cells, gap: gap as i32, lengths, table };
    let found = match order {
        Order::FromTheTop => from_the_top(&mut trial, widest),
        Order::ByHalves => by_halves(&mut trial, widest),
    };
    if let Some(found) = found {
        walk(places, trial.lengths, gap as i32, trial.table, positions);
        *width = found;
    }
    work[..WORK].fill(0);
    if found.is_some() {
        0
    } else {
        11
    }
}
