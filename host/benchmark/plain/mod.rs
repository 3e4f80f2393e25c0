// The algorithms of the calls in plain Rust, as one would write them without proofs: what the exported calls are timed against.
pub mod best;
pub mod font;
pub mod full;
pub mod job;
pub mod largest;
pub mod place;
pub mod slide;
pub mod slope;

// Rising places lie in the range if the first and the last do. Each list is looked at whole, so that the compiler takes several
// elements at once.
fn rise_in_range(places: &[i16]) -> bool {
    let (Some(first), Some(last)) = (places.first(), places.last()) else { return true };
    let rising = places.iter().zip(&places[1..]).fold(true, |good, (one, next)| good & (one < next));
    -30_000 <= *first && *last <= 30_000 && rising
}

fn in_range(places: &[i16], lengths: &[u8], weights: &[u16]) -> bool {
    let lengths = lengths.iter().fold(true, |good, length| good & (1..=240).contains(length));
    let weights = weights.iter().fold(true, |good, weight| good & (1..=1_000).contains(weight));
    rise_in_range(places) && lengths && weights
}

pub fn check_marks(places: &[i16], lengths: &[u8], weights: &[u16], most: usize) -> u8 {
    if places.len() != lengths.len() || places.len() != weights.len() {
        6
    } else if places.len() > 4_000 {
        7
    } else if !in_range(places, lengths, weights) {
        8
    } else if places.len() > most {
        7
    } else {
        0
    }
}

// The checks of a pass: the lists, among their checks the gap, then the shortest answer list, then the work area.
pub fn check_pass(
    places: &[i16],
    lengths: &[u8],
    weights: &[u16],
    gap: u8,
    most: usize,
    shortest: usize,
    named: usize,
    lent: usize,
) -> u8 {
    match check_marks(places, lengths, weights, most) {
        6 => 6,
        _ if gap > 8 => 12,
        0 if shortest < places.len() => 9,
        0 if lent < named => 10,
        number => number,
    }
}
