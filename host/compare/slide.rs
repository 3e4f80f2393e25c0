// The slide pass: whether a placing exists by three searches of its own, and the answer by document 01's rules, since sides are open.
use crate::calls;
use crate::labels::{overlap, Label};
use crate::lent::{ensure, Lent};
use crate::marks::{pass_number, Call, LentMarks, Limits};
use crate::random::Random;
use crate::strips::Strip;
use std::collections::HashSet;

pub const LIMITS: Limits = Limits { marks: 60, answers: 2, work: 30_000 };

// Left edges for given sides, taking marks from left to right, each as far left as it goes; none if one goes beyond its mark.
fn leftmost(strip: &Strip, gap: i32, sides: &[u8]) -> Option<Vec<i16>> {
    let mut reaches = [i32::MIN; 2];
    let mut edges = Vec::new();
    for (i, side) in sides.iter().enumerate() {
        let (place, length) = (strip.places[i] as i32, strip.lengths[i] as i32);
        let edge = (place - length).max(reaches[*side as usize]);
        if edge > place {
            return None;
        }
        reaches[*side as usize] = edge + length + gap;
        edges.push(edge as i16);
    }
    Some(edges)
}

// All sides, one after another.
pub fn by_all_sides(strip: &Strip, gap: i32) -> bool {
    let marks = strip.places.len();
    (0..1u32 << marks).any(|chosen| {
        let sides: Vec<u8> = (0..marks).map(|i| (chosen >> i & 1) as u8).collect();
        leftmost(strip, gap, &sides).is_some()
    })
}

// From left to right, every pair of reaches that some placing of the marks so far has.
pub fn by_reaches(strip: &Strip, gap: i32) -> bool {
    let mut pairs = HashSet::from([(i32::MIN, i32::MIN)]);
    for (place, length) in strip.places.iter().zip(&strip.lengths) {
        let (place, length) = (*place as i32, *length as i32);
        let mut after = HashSet::new();
        for (own, other) in pairs.iter().flat_map(|(x, y)| [(*x, *y), (*y, *x)]) {
            let edge = own.max(place - length);
            let reach = edge + length + gap;
            if edge <= place {
                after.insert((other.min(reach), other.max(reach)));
            }
        }
        pairs = after;
    }
    !pairs.is_empty()
}

fn extend(strip: &Strip, gap: i32, parts: i32, labels: &mut Vec<Label>) -> bool {
    let mark = labels.len();
    if mark == strip.places.len() {
        return true;
    }
    let (place, length) = (strip.places[mark] as i32 * parts, strip.lengths[mark] as i32 * parts);
    for above in [true, false] {
        for left in place - length..=place {
            let next = Label { above, left, right: left + length };
            if labels.iter().all(|earlier| !overlap(*earlier, next, gap * parts)) {
                labels.push(next);
                if extend(strip, gap, parts, labels) {
                    return true;
                }
                labels.pop();
            }
        }
    }
    false
}

// Every side and every left edge at whole dots, halves and thirds.
pub fn by_parts_of_a_dot(strip: &Strip, gap: i32) -> bool {
    (1..=3).any(|parts| extend(strip, gap, parts, &mut Vec::new()))
}

fn placing(strip: &Strip, gap: i32, sides: &Lent<u8>, edges: &Lent<i16>) -> Result<(), String> {
    let marks = strip.places.len();
    let chosen = sides.now()[..marks].to_vec();
    ensure(chosen.iter().all(|side| *side <= 1), "a side is neither 0 nor 1")?;
    ensure(sides.written(&chosen), "sides beyond the used part")?;
    let expected = leftmost(strip, gap, &chosen).ok_or("a label beyond its mark")?;
    ensure(edges.written(&expected), "edges")?;
    let labels: Vec<Label> = (0..marks)
        .map(|i| Label { above: chosen[i] == 0, left: expected[i] as i32, right: expected[i] as i32 + strip.lengths[i] as i32 })
        .collect();
    let apart = |i: usize| (0..i).all(|j| !overlap(labels[i], labels[j], gap));
    ensure((0..marks).all(apart), "labels overlap")
}

// A search that says whether there is a placing at a gap.
pub type Search = fn(&Strip, i32) -> bool;

pub fn compare(random: &mut Random, call: &Call, fits: Search) -> Result<u8, String> {
    let mut marks = LentMarks::of(random, &call.strip);
    let mut sides: Lent<u8> = Lent::of_length(random, call.answers[0]);
    let mut edges: Lent<i16> = Lent::of_length(random, call.answers[1]);
    let mut work: Lent<u16> = Lent::of_length(random, call.work);
    let number = calls::slide(
        marks.places.list(),
        marks.lengths.list(),
        marks.weights.list(),
        call.gap,
        sides.list(),
        edges.list(),
        work.list(),
    );
    marks.unchanged()?;
    let entry = pass_number(call, &LIMITS);
    if entry != 0 {
        ensure(number == entry, &format!("number {number}, not {entry}"))?;
        let same = sides.unchanged() && edges.unchanged() && work.unchanged();
        ensure(same, "lent memory changed at a refusal")?;
        return Ok(number);
    }
    ensure(work.cleared(LIMITS.work), "the work area")?;
    let gap = call.gap as i32;
    let expected = if fits(&call.strip, gap) { 0 } else { 11 };
    ensure(number == expected, &format!("number {number}, not {expected}"))?;
    if number == 11 {
        ensure(sides.unchanged() && edges.unchanged(), "answers changed at 11")?;
    } else {
        placing(&call.strip, gap, &sides, &edges)?;
    }
    Ok(number)
}
