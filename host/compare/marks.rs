// The three mark lists as they are lent to a call, with the checks 6 to 10 and 12 and the damage that tries them.
use crate::lent::{ensure, Lent};
use crate::random::Random;
use crate::strips::Strip;

// What a pass is called with: the mark lists, the gap, the lengths of its answer lists and of its work area.
#[derive(Clone, Debug)]
pub struct Call {
    pub strip: Strip,
    pub gap: u8,
    pub answers: Vec<usize>,
    pub work: usize,
}

// What document 01 names for a pass.
pub struct Limits {
    pub marks: usize,
    pub answers: usize,
    pub work: usize,
}

fn in_range(strip: &Strip) -> bool {
    strip.places.iter().all(|z| (-30_000..=30_000).contains(z))
        && strip.lengths.iter().all(|l| (1..=240).contains(l))
        && strip.weights.iter().all(|w| (1..=1_000).contains(w))
        && strip.places.windows(2).all(|pair| pair[0] < pair[1])
}

fn is_unequal(strip: &Strip) -> bool {
    strip.lengths.len() != strip.places.len() || strip.weights.len() != strip.places.len()
}

// The number of the first rule that applies, in the order of the list, 0 if none does.
pub fn first_number(rules: &[(bool, u8)]) -> u8 {
    rules.iter().find(|(applies, _)| *applies).map_or(0, |(_, number)| *number)
}

// The rules about the marks, for a call that takes at most so many.
fn marks_rules(strip: &Strip, most: usize) -> [(bool, u8); 3] {
    let marks = strip.places.len();
    [(marks > 4_000, 7), (!in_range(strip), 8), (marks > most, 7)]
}

// The number by the rules on the lists and the marks alone, as the writer has them.
pub fn entry_number(strip: &Strip, most: usize) -> u8 {
    first_number(&[&[(is_unequal(strip), 6)], &marks_rules(strip, most)[..]].concat())
}

// The number by all rules of a pass: the gap right behind 6, and at the end the lengths of what it is lent.
pub fn pass_number(call: &Call, limits: &Limits) -> u8 {
    let lists = [(is_unequal(&call.strip), 6), (call.gap > 8, 12)];
    let answers = call.answers.iter().any(|length| *length < call.strip.places.len());
    let lent = [(answers, 9), (call.work < limits.work, 10)];
    first_number(&[&lists, &marks_rules(&call.strip, limits.marks)[..], &lent].concat())
}

fn lengthen_or_shorten<T: Copy>(random: &mut Random, list: &mut Vec<T>, value: T) {
    if random.once_in(2) {
        list.push(value);
    } else {
        list.pop();
    }
}

fn unequal(random: &mut Random, strip: &mut Strip) {
    match random.below(3) {
        0 => lengthen_or_shorten(random, &mut strip.places, 30_000),
        1 => lengthen_or_shorten(random, &mut strip.lengths, 8),
        _ => lengthen_or_shorten(random, &mut strip.weights, 1),
    }
}

// What can be wrong with a mark.
#[derive(Clone, Copy, Debug)]
pub enum Fault {
    Place,
    Length,
    Weight,
    Order,
}

pub const FAULTS: [Fault; 4] = [Fault::Place, Fault::Length, Fault::Weight, Fault::Order];

// One value out of range, or one place not above the one before. A place out of range is the first or the last, so that places rise.
pub fn spoil(random: &mut Random, strip: &mut Strip, fault: Fault) {
    let marks = strip.places.len().min(strip.lengths.len()).min(strip.weights.len());
    if marks == 0 {
        return;
    }
    let at = random.below(marks);
    match fault {
        Fault::Place if random.once_in(2) => strip.places[0] = [-30_001, i16::MIN][random.below(2)],
        Fault::Place => *strip.places.last_mut().unwrap() = [30_001, i16::MAX][random.below(2)],
        Fault::Length => strip.lengths[at] = [0, 241, 255][random.below(3)],
        Fault::Weight => strip.weights[at] = [0, 1_001, u16::MAX][random.below(3)],
        Fault::Order if marks == 1 => {}
        Fault::Order if at > 0 && random.once_in(2) => strip.places[at] = strip.places[at - 1],
        Fault::Order => strip.places.swap(0, at.max(1)),
    }
}

// Breaks one check after another with the given chance, several at once too.
pub fn damage_strip(random: &mut Random, strip: &mut Strip) {
    if random.once_in(10) {
        unequal(random, strip);
    }
    if random.once_in(8) {
        let fault = FAULTS[random.below(4)];
        spoil(random, strip, fault);
    }
}

// A gap of 0 to 8, often 0 or 1.
pub fn some_gap(random: &mut Random) -> u8 {
    [0, 1, random.below(9) as u8, random.below(9) as u8][random.below(4)]
}

// A call on a strip with answer lists and a work area that are long enough, then damaged.
pub fn some_call(random: &mut Random, strip: Strip, gap: u8, limits: &Limits, damaged: bool) -> Call {
    let marks = strip.places.len();
    let answers = (0..limits.answers).map(|_| marks + random.below(9)).collect();
    let work = limits.work + random.below(40);
    let mut call = Call { strip, gap, answers, work };
    if damaged {
        damage_strip(random, &mut call.strip);
        if random.once_in(8) {
            call.gap = [9, 255, random.between(9, 255) as u8][random.below(3)];
        }
        if random.once_in(8) && marks > 0 {
            let at = random.below(limits.answers);
            call.answers[at] = [marks - 1, random.below(marks)][random.below(2)];
        }
        if random.once_in(10) {
            call.work = [limits.work - 1, 0, random.below(limits.work)][random.below(3)];
        }
    }
    call
}

pub struct LentMarks {
    pub places: Lent<i16>,
    pub lengths: Lent<u8>,
    pub weights: Lent<u16>,
}

impl LentMarks {
    pub fn of(random: &mut Random, strip: &Strip) -> LentMarks {
        LentMarks {
            places: Lent::holding(random, &strip.places),
            lengths: Lent::holding(random, &strip.lengths),
            weights: Lent::holding(random, &strip.weights),
        }
    }

    pub fn unchanged(&self) -> Result<(), String> {
        ensure(self.places.unchanged() && self.lengths.unchanged() && self.weights.unchanged(), "a mark list was changed")
    }
}
