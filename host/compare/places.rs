// The calls on the numbers that loggers store against whole numbers alone: nothing here computes with a number that has a point.
use crate::calls;
use crate::lent::{ensure, Lent};
use crate::marks::first_number;
use crate::random::Random;
use std::collections::BTreeSet;
use std::fmt::{self, Debug, Formatter};

// A pattern is a sign, 8 bits of exponent and 23 of fraction. From the exponent 1 on a leading digit stands before the fraction, unstored.
const MINUS: u32 = 1 << 31;
const LEADING: u32 = 1 << 23;
const INFINITE: u32 = 255 * LEADING;

#[derive(Clone, Copy, Debug, PartialEq)]
pub enum Unit {
    Dots,
    Millimetres,
}

impl Unit {
    // How often a number of this unit is doubled to give dots.
    fn doublings(self) -> u32 {
        match self {
            Unit::Dots => 0,
            Unit::Millimetres => 3,
        }
    }
}

// A number of dots or of millimetres, by its pattern.
#[derive(Clone, Copy)]
pub struct Stored {
    unit: Unit,
    pattern: u32,
}

impl Debug for Stored {
    fn fmt(&self, f: &mut Formatter) -> fmt::Result {
        write!(f, "{:?} {:#010x}", self.unit, self.pattern)
    }
}

// The pattern behind the sign of a number twice as large: below 2^24 it counts units of 2^-149, from 2^23 on the exponent grows by 1.
fn doubled(size: u32) -> u32 {
    if size < LEADING {
        2 * size
    } else {
        size + LEADING
    }
}

impl Stored {
    // The largest whole number of dots that is not above the number: all digits, with their sign, moved to where the point is behind them.
    // To the right that rounds down; to the left they are out of range long before 99 places. The last digit of the exponent 0 counts as much
    // as that of 1.
    fn floor(self) -> i128 {
        let (exponent, fraction) = (self.pattern >> 23 & 255, self.pattern % LEADING);
        let leading = if exponent == 0 { 0 } else { LEADING };
        let digits = i128::from(leading + fraction) << self.unit.doublings();
        let signed = if self.pattern < MINUS { digits } else { -digits };
        match exponent.max(1) as i32 - 150 {
            left @ 0.. => signed << left.min(99),
            right => signed >> (-right).min(127),
        }
    }

    // The number and the place that the call must give.
    fn wanted(self) -> (u8, i16) {
        let place = self.floor();
        let rules = [(self.pattern % MINUS >= INFINITE, 15), (!(-30_000..=30_000).contains(&place), 8)];
        match first_number(&rules) {
            0 => (0, place as i16),
            number => (number, 0),
        }
    }

    // As many dots as these millimetres have, unless that is infinite.
    fn in_dots(self) -> Option<Stored> {
        let size = doubled(doubled(doubled(self.pattern % MINUS)));
        let dots = Stored { unit: Unit::Dots, pattern: self.pattern & MINUS | size };
        (self.unit == Unit::Millimetres && size < INFINITE).then_some(dots)
    }

    fn call(self, place: &mut i16) -> u8 {
        let value = f32::from_bits(self.pattern);
        match self.unit {
            Unit::Dots => calls::place_of_dots(value, place),
            Unit::Millimetres => calls::place_of_millimetres(value, place),
        }
    }

    // Another place than the wanted one is there before the call, and stays on both sides of it.
    fn gives(self, (number, place): (u8, i16)) -> Result<(), String> {
        let other = !place;
        let mut lent = [other; 3];
        let given = self.call(&mut lent[1]);
        if given == number && lent == [other, place, other] {
            return Ok(());
        }
        Err(format!("{self:?}: number {given}, place and its neighbours {lent:?}, not {number} and {:?}", [other, place, other]))
    }
}

// What is wanted of millimetres is wanted of as many dots too. These are finite below the exponent 252.
pub fn compare(stored: &Stored) -> Result<u8, String> {
    let wanted = stored.wanted();
    stored.gives(wanted)?;
    let dots = stored.in_dots();
    let has_dots = stored.unit == Unit::Millimetres && (stored.pattern >> 23 & 255) < 252;
    ensure(dots.is_some() == has_dots, &format!("{stored:?}: as many dots are {dots:?}"))?;
    if let Some(dots) = dots {
        dots.gives(wanted)?;
    }
    Ok(wanted.0)
}

// The same, and once more with a place that is lent as other lists are.
pub fn compare_lent(random: &mut Random, stored: &Stored) -> Result<u8, String> {
    let number = compare(stored)?;
    let (_, place) = stored.wanted();
    let mut lent = Lent::holding(random, &[!place]);
    let given = stored.call(&mut lent.list()[0]);
    ensure(given == number, &format!("number {given}, not {number}"))?;
    ensure(lent.written(&[place]), &format!("place {}, not {place}", lent.now()[0]))?;
    Ok(number)
}

// ---- numbers

fn stored(unit: Unit, patterns: impl Iterator<Item = u32>) -> impl Iterator<Item = Stored> {
    patterns.map(move |pattern| Stored { unit, pattern })
}

// The pattern of so many dots.
fn pattern_of(dots: u32, unit: Unit) -> u32 {
    let Some(power) = dots.checked_ilog2() else { return 0 };
    let fraction = (dots << (23 - power)) - LEADING;
    (127 + power - unit.doublings()) * LEADING + fraction
}

// Each sign and exponent, with each bit of the fraction alone, the fractions beside it, and all bits from it on; and with the fractions that
// 30,000 and 30,001 dots have, and those beside them.
pub fn edges(unit: Unit) -> Vec<Stored> {
    let beside = |bit: u32| [(1 << bit) - 1, 1 << bit, (1 << bit) + 1, LEADING - (1 << bit)];
    let ends = [30_000, 30_001].map(|dots| pattern_of(dots, unit) % LEADING);
    let beside_ends = ends.map(|fraction| [fraction - 1, fraction, fraction + 1]).concat();
    let fractions: BTreeSet<u32> = (0..23).flat_map(beside).chain(beside_ends).collect();
    let patterns = (0..512).flat_map(|front| fractions.iter().map(move |fraction| front * LEADING + fraction));
    stored(unit, patterns).collect()
}

// Each whole number of dots in 16 bits and some beyond, with the two patterns on each side of it.
pub fn beside_whole(unit: Unit) -> Vec<Stored> {
    let beside = |dots: u32| {
        let pattern = pattern_of(dots, unit);
        pattern.saturating_sub(2)..=pattern + 2
    };
    let sizes = (0..=32_770).flat_map(beside);
    stored(unit, sizes.flat_map(|size| [size, MINUS + size])).collect()
}

// A number without a factor 2 or 3: in steps of so many patterns, from the last on to the first, none is met twice before all are met, neither
// of all 2^32 nor of those of 36 exponents.
const STEP: u32 = 2_654_435_761;

pub fn of_all(unit: Unit) -> impl Iterator<Item = Stored> {
    stored(unit, (0..).map(|i: u32| i.wrapping_mul(STEP)))
}

// The exponents of a quarter of a dot up to those below 2^16 dots.
const NEAR: u64 = 18 * LEADING as u64;

pub fn of_near(unit: Unit) -> impl Iterator<Item = Stored> {
    let first = (125 - unit.doublings()) * LEADING;
    let size = move |i: u64| first + (i % NEAR) as u32;
    let at = |i: u64| i * STEP as u64 % (2 * NEAR);
    stored(unit, (0..).map(at).map(move |i| if i < NEAR { size(i) } else { MINUS + size(i) }))
}
