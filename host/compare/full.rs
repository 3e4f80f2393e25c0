// The full pass against two searches for the first placing at a gap, with the positions ranked 2, 3, 1, 4.
use crate::calls;
use crate::labels::{label, overlap, overlap_free, Label};
use crate::lent::{ensure, Lent};
use crate::marks::{pass_number, Call, LentMarks, Limits};
use crate::random::Random;
use crate::strips::Strip;

pub const LIMITS: Limits = Limits { marks: 4_000, answers: 1, work: 20_000 };

const RANKED: [u8; 4] = [2, 3, 1, 4];

fn extend(strip: &Strip, gap: i32, positions: &mut Vec<u8>, labels: &mut Vec<Label>) -> bool {
    let mark = positions.len();
    if mark == strip.places.len() {
        return true;
    }
    for position in RANKED {
        let next = label(strip.places[mark], strip.lengths[mark], position);
        if labels.iter().all(|earlier| !overlap(*earlier, next, gap)) {
            positions.push(position);
            labels.push(next);
            if extend(strip, gap, positions, labels) {
                return true;
            }
            positions.pop();
            labels.pop();
        }
    }
    false
}

// Plain search: every placing in its order, each label compared with all labels before it.
pub fn by_plain_search(strip: &Strip, gap: i32) -> Option<Vec<u8>> {
    let mut positions = Vec::new();
    extend(strip, gap, &mut positions, &mut Vec::new()).then_some(positions)
}

// The right ends above and below once a label lies beside them, if it has room there.
fn beside(reaches: (i32, i32), next: Label, gap: i32) -> Option<(i32, i32)> {
    match next.above {
        true if reaches.0 + gap <= next.left => Some((next.right, reaches.1)),
        false if reaches.1 + gap <= next.left => Some((reaches.0, next.right)),
        _ => None,
    }
}

// The same search from left to right, which remembers each pair of reaches that led nowhere. For strips of any length.
pub fn by_dead_ends(strip: &Strip, gap: i32) -> Option<Vec<u8>> {
    let marks = strip.places.len();
    let mut dead: Vec<Vec<(i32, i32)>> = vec![Vec::new(); marks + 1];
    let mut reaches = vec![(i32::MIN, i32::MIN)];
    let mut tried = vec![0; marks + 1];
    let mut positions = Vec::new();
    while positions.len() < marks {
        let mark = positions.len();
        let here = reaches[mark];
        let found = (tried[mark]..4).find_map(|rank| {
            let after = beside(here, label(strip.places[mark], strip.lengths[mark], RANKED[rank]), gap)?;
            (!dead[mark + 1].contains(&after)).then_some((rank, after))
        });
        if let Some((rank, after)) = found {
            tried[mark] = rank + 1;
            tried[mark + 1] = 0;
            positions.push(RANKED[rank]);
            reaches.push(after);
        } else if mark == 0 {
            return None;
        } else {
            dead[mark].push(here);
            positions.pop();
            reaches.pop();
        }
    }
    Some(positions)
}

// A search for the first placing at a gap.
pub type Search = fn(&Strip, i32) -> Option<Vec<u8>>;

pub fn compare(random: &mut Random, call: &Call, first: Search) -> Result<u8, String> {
    let mut marks = LentMarks::of(random, &call.strip);
    let mut positions: Lent<u8> = Lent::of_length(random, call.answers[0]);
    let mut work: Lent<i16> = Lent::of_length(random, call.work);
    let number =
        calls::full(marks.places.list(), marks.lengths.list(), marks.weights.list(), call.gap, positions.list(), work.list());
    marks.unchanged()?;
    let entry = pass_number(call, &LIMITS);
    if entry != 0 {
        ensure(number == entry, &format!("number {number}, not {entry}"))?;
        ensure(positions.unchanged() && work.unchanged(), "lent memory changed at a refusal")?;
        return Ok(number);
    }
    ensure(work.cleared(LIMITS.work), "the work area")?;
    let gap = call.gap as i32;
    match first(&call.strip, gap) {
        None => {
            ensure(number == 11, &format!("number {number}, not 11"))?;
            ensure(positions.unchanged(), "positions changed at 11")?;
        }
        Some(expected) => {
            ensure(number == 0, &format!("number {number}, not 0"))?;
            ensure(positions.written(&expected), "positions")?;
            ensure(overlap_free(&call.strip, &positions.now()[..expected.len()], gap), "labels overlap")?;
        }
    }
    Ok(number)
}
