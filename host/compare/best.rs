// The best pass: the greatest sum by two searches of its own, and the listed choice by document 01's rules, since it is open.
use crate::calls;
use crate::labels::{label, overlap, overlap_free, Label};
use crate::lent::{ensure, Lent};
use crate::marks::{pass_number, Call, LentMarks, Limits};
use crate::random::Random;
use crate::strips::Strip;
use std::collections::HashMap;

pub const LIMITS: Limits = Limits { marks: 60, answers: 2, work: 15_000 };

fn greatest(strip: &Strip, gap: i32, mark: usize, labels: &mut Vec<Label>) -> u32 {
    if mark == strip.places.len() {
        return 0;
    }
    let mut most = greatest(strip, gap, mark + 1, labels);
    for position in 1..=4 {
        let next = label(strip.places[mark], strip.lengths[mark], position);
        if labels.iter().all(|earlier| !overlap(*earlier, next, gap)) {
            labels.push(next);
            most = most.max(strip.weights[mark] as u32 + greatest(strip, gap, mark + 1, labels));
            labels.pop();
        }
    }
    most
}

// Plain search through all choices.
pub fn by_plain_search(strip: &Strip, gap: i32) -> u32 {
    greatest(strip, gap, 0, &mut Vec::new())
}

// From left to right: for each pair of reaches, with the gap, the greatest sum that leads to it. A reach that no later label's left end
// lies below counts as none.
pub fn by_reaches(strip: &Strip, gap: i32) -> u32 {
    let marks = strip.places.len();
    let mut sums = HashMap::from([((i32::MIN, i32::MIN), 0u32)]);
    for i in 0..marks {
        let lefts = (i + 1..marks).map(|k| strip.places[k] as i32 - strip.lengths[k] as i32);
        let least = lefts.min().unwrap_or(i32::MAX);
        let kept = |reach: i32| if reach <= least { i32::MIN } else { reach };
        let mut after: HashMap<(i32, i32), u32> = HashMap::new();
        let mut offer = |above: i32, below: i32, sum: u32| {
            let entry = after.entry((kept(above), kept(below))).or_insert(sum);
            *entry = sum.max(*entry);
        };
        for ((above, below), sum) in &sums {
            offer(*above, *below, *sum);
            for position in 1..=4 {
                let next = label(strip.places[i], strip.lengths[i], position);
                let earned = sum + strip.weights[i] as u32;
                if next.above && *above <= next.left {
                    offer(next.right + gap, *below, earned);
                } else if !next.above && *below <= next.left {
                    offer(*above, next.right + gap, earned);
                }
            }
        }
        sums = after;
    }
    *sums.values().max().unwrap()
}

// The numbers of the marks at 0: one after another, the heaviest of those that are left, and of equals the first.
fn heaviest_first(strip: &Strip, chosen: &[u8]) -> Vec<u16> {
    let mut left: Vec<usize> = (0..chosen.len()).filter(|i| chosen[*i] == 0).collect();
    let mut out = Vec::new();
    while let Some(most) = left.iter().map(|i| strip.weights[*i]).max() {
        let at = left.iter().position(|i| strip.weights[*i] == most).unwrap();
        out.push(left.remove(at) as u16 + 1);
    }
    out
}

// The listed choice has the reported sum and no overlap, and its marks at 0 are listed heaviest first.
fn choice(call: &Call, positions: &Lent<u8>, left_out: &Lent<u16>, sum: u32, count: usize) -> Result<(), String> {
    let strip = &call.strip;
    let chosen = positions.now()[..strip.places.len()].to_vec();
    ensure(chosen.iter().all(|position| *position <= 4), "a position above 4")?;
    ensure(positions.written(&chosen), "positions beyond the used part")?;
    ensure(overlap_free(strip, &chosen, call.gap as i32), "labels overlap")?;
    let labelled = (0..chosen.len()).filter(|i| chosen[*i] != 0);
    let earned: u32 = labelled.map(|i| strip.weights[i] as u32).sum();
    ensure(earned == sum, "a sum that the labels do not earn")?;
    let out = heaviest_first(strip, &chosen);
    ensure(count == out.len(), "the count of left-out marks")?;
    ensure(left_out.written(&out), "the left-out list, heaviest first, or what stands behind it")
}

// The sum that the call reports for a strip that it accepts.
pub fn reported(strip: &Strip, gap: u8) -> Result<u32, String> {
    let mut positions = vec![0; strip.places.len()];
    let mut left_out = vec![0; strip.places.len()];
    let mut work = vec![0; LIMITS.work];
    let (mut sum, mut count) = (0, 0);
    let number = calls::best(
        &strip.places,
        &strip.lengths,
        &strip.weights,
        gap,
        &mut positions,
        &mut left_out,
        &mut work,
        &mut sum,
        &mut count,
    );
    ensure(number == 0, &format!("number {number}, not 0"))?;
    Ok(sum)
}

// A search for the greatest sum at a gap.
pub type Search = fn(&Strip, i32) -> u32;

pub fn compare(random: &mut Random, call: &Call, best_sum: Search) -> Result<u8, String> {
    let mut marks = LentMarks::of(random, &call.strip);
    let mut positions: Lent<u8> = Lent::of_length(random, call.answers[0]);
    let mut left_out: Lent<u16> = Lent::of_length(random, call.answers[1]);
    let mut work: Lent<u32> = Lent::of_length(random, call.work);
    let mut sum: Lent<u32> = Lent::of_length(random, 1);
    let mut count: Lent<usize> = Lent::of_length(random, 1);
    let number = calls::best(
        marks.places.list(),
        marks.lengths.list(),
        marks.weights.list(),
        call.gap,
        positions.list(),
        left_out.list(),
        work.list(),
        &mut sum.list()[0],
        &mut count.list()[0],
    );
    marks.unchanged()?;
    let entry = pass_number(call, &LIMITS);
    ensure(number == entry, &format!("number {number}, not {entry}"))?;
    if entry != 0 {
        let same = positions.unchanged() && left_out.unchanged() && work.unchanged();
        ensure(same, "lent memory changed at a refusal")?;
        ensure(sum.written(&[0]) && count.written(&[0]), "sum or count at a refusal")?;
        return Ok(number);
    }
    ensure(work.cleared(LIMITS.work), "the work area")?;
    let expected = best_sum(&call.strip, call.gap as i32);
    let listed = count.now()[0];
    ensure(sum.written(&[expected]), &format!("sum {}, not {expected}", sum.now()[0]))?;
    ensure(count.written(&[listed]) && listed <= call.strip.places.len(), "the count")?;
    choice(call, &positions, &left_out, expected, listed)?;
    Ok(number)
}
