// The groups of strips, jobs, texts, stored numbers and tracks. Each must meet every number that it names, so that no group passes by
// trying nothing.
use crate::codec::Job;
use crate::marks::{damage_strip, some_call, some_gap, spoil, Call, Limits, FAULTS};
use crate::near::{any_strip, some_strip};
use crate::places::{Stored, Unit};
use crate::random::Random;
use crate::slope::Track;
use crate::strips::{fitting_strip, Shape, Strip};
use crate::texts::{many_counts, some_filling, some_text, Filling};
use crate::{best, full, job, largest, near_tracks, places, slide, slope, spoilt_tracks, texts, weights};
use std::cell::RefCell;
use std::fmt::Debug;

// Runs one group: `make` gives a case, `compare` the number that both sides agree on or what differs.
fn group<C: Debug>(
    name: &str,
    seed: u64,
    cases: usize,
    numbers: &[u8],
    make: impl Fn(&mut Random) -> C,
    compare: impl Fn(&mut Random, &C) -> Result<u8, String>,
) -> usize {
    let mut random = Random::new(seed);
    let mut seen = [0; 19];
    for _ in 0..cases {
        let case = make(&mut random);
        match compare(&mut random, &case) {
            Ok(number) => seen[number as usize] += 1,
            Err(what) => {
                println!("{name}: {what}\n{case:?}");
                std::process::exit(1);
            }
        }
    }
    let counts: Vec<String> = numbers.iter().map(|n| format!("{n}: {}", seen[*n as usize])).collect();
    println!("{name}: {cases} ({})", counts.join(", "));
    if numbers.iter().any(|n| seen[*n as usize] == 0) {
        println!("{name}: a number of the list was not met");
        std::process::exit(1);
    }
    cases
}

// Up to so many marks, in shapes where some strips fit and some do not; half of the calls damaged.
fn small_call(random: &mut Random, most: usize, limits: &Limits) -> Call {
    let shape = Shape { step: random.between(1, 12), length: [4, 12, 40, 240][random.below(4)] };
    let marks = random.below(most + 1);
    let gap = some_gap(random);
    let strip = some_strip(random, marks, shape, gap);
    let damaged = random.once_in(2);
    some_call(random, strip, gap, limits, damaged)
}

// Up to the most marks that a pass takes, often exactly so many, and sometimes one more.
fn large_call(random: &mut Random, limits: &Limits) -> Call {
    let most = limits.marks;
    let marks = [random.below(most + 1), most, most - random.below(9), most + random.below(2)][random.below(4)];
    let dense = most > 1_000;
    let shape = if dense {
        Shape { step: random.between(4, 14), length: random.between(4, 30) }
    } else {
        Shape { step: random.between(2, 60), length: [10, 40, 120, 240][random.below(4)] }
    };
    let gap = some_gap(random);
    let strip = match random.below(4) {
        0 => any_strip(random, marks, shape),
        1 | 2 => fitting_strip(random, marks, shape, gap),
        _ => some_strip(random, marks, shape, gap),
    };
    let damaged = random.once_in(4);
    some_call(random, strip, gap, limits, damaged)
}

// Up to 6 marks close together, often with labels all of one length: few enough to try every part of a dot.
fn crowded_call(random: &mut Random, limits: &Limits) -> Call {
    let shape = Shape { step: [1, 1, 2][random.below(3)], length: random.between(2, 6) };
    let marks = random.below(7);
    let mut strip = any_strip(random, marks, shape);
    if random.once_in(2) {
        strip.lengths.fill(shape.length as u8);
    }
    let gap = some_gap(random);
    some_call(random, strip, gap, limits, false)
}

// Strips 7, 8, 9 and 11 of document 01, at gaps 0, 1 and 8, and at gaps that are too wide; half of the calls damaged.
fn worked_call(random: &mut Random, limits: &Limits) -> Call {
    let last = [12, 11, 10][random.below(3)];
    let weights = [[1, 1, 1, 1, 1], [9, 2, 9, 9, 9]][random.below(2)];
    let strip = Strip { places: vec![0, 1, 2, 3, last], lengths: vec![10; 5], weights: weights.to_vec() };
    let gap = [0, 1, 8, 9, 255][random.below(5)];
    let damaged = random.once_in(2);
    some_call(random, strip, gap, limits, damaged)
}

// 40 to 60 marks, of which at most four find room: each label is longer than all places lie apart. Few different weights, six times or
// more 1 and six times or more 1,000, so that two of each at least are left out.
fn many_left_out_call(random: &mut Random, limits: &Limits) -> Call {
    let marks = random.between(40, 60) as usize;
    let mut strip = any_strip(random, marks, Shape { step: 2, length: 1 });
    strip.lengths = strip.places.iter().map(|_| random.between(120, 240) as u8).collect();
    let middle = random.between(2, 999) as u16;
    let weights = [[1, 1, 1_000, 1_000], [1, middle, middle, 1_000], [1, 2, 999, 1_000]][random.below(3)];
    let often = |strip: &Strip, weight: u16| strip.weights.iter().filter(|w| **w == weight).count() >= 6;
    while !(often(&strip, 1) && often(&strip, 1_000)) {
        strip.weights = strip.places.iter().map(|_| weights[random.below(4)]).collect();
    }
    let gap = some_gap(random);
    some_call(random, strip, gap, limits, false)
}

// Up to the most marks that a pass takes, and at least one, of every density; nothing damaged.
fn sound_call(random: &mut Random, limits: &Limits) -> Call {
    let marks = random.between(1, limits.marks as i32) as usize;
    let shape = Shape { step: random.between(1, 40), length: [10, 40, 120, 240][random.below(4)] };
    let strip = any_strip(random, marks, shape);
    let gap = some_gap(random);
    some_call(random, strip, gap, limits, false)
}

// Up to so many marks with lengths in cells, some so far apart that wide letters fit, some crowded; half of the calls damaged.
fn cells_call(random: &mut Random, most: usize, limits: &Limits) -> Call {
    let marks = random.below(most + 1);
    let shape = Shape { step: [4, 20, 60, 200][random.below(4)], length: [1, 3, 9, 30, 240][random.below(5)] };
    let strip = any_strip(random, marks, shape);
    let (gap, damaged) = (some_gap(random), random.once_in(2));
    some_call(random, strip, gap, limits, damaged)
}

// The same with up to the most marks that the call takes, or one more: few cells each, and in every other strip five marks a dot apart.
fn many_cells_call(random: &mut Random, limits: &Limits) -> Call {
    let marks = [random.below(200), random.below(2_000), limits.marks, limits.marks + 1][random.below(4)];
    let (step, cells) = (60_000 / marks.max(20) as i32, [1, 1, 2, 4][random.below(4)]);
    let mut strip = any_strip(random, marks, Shape { step: 1, length: cells });
    let offset = |mark: usize| -30_000 + mark as i32 * step.min(200);
    strip.places = (0..marks).map(|mark| (offset(mark) + random.below(step.min(6) as usize) as i32) as i16).collect();
    if marks > 5 && random.once_in(2) {
        let (at, cells) = (random.below(marks - 5), random.between(1, 9) as u8);
        let five = [0, 1, 2, 3, 4].map(|dot| strip.places[at] + dot);
        strip.places[at..at + 5].copy_from_slice(&five);
        strip.lengths[at..at + 5].fill(cells);
    }
    let (gap, damaged) = (some_gap(random), random.once_in(4));
    some_call(random, strip, gap, limits, damaged)
}

// Long strip or bad mark: 60, 61, 4,000 or 4,001 marks that fit, all good or with one fault.
fn counted_strip(random: &mut Random, gap: u8) -> Strip {
    let marks = [60, 61, 4_000, 4_001][random.below(4)];
    let mut strip = fitting_strip(random, marks, Shape { step: 14, length: 10 }, gap);
    assert_eq!(strip.places.len(), marks);
    if let Some(fault) = FAULTS.get(random.below(FAULTS.len() + 1)) {
        spoil(random, &mut strip, *fault);
    }
    strip
}

fn counted_call(random: &mut Random, limits: &Limits) -> Call {
    let gap = some_gap(random);
    let strip = counted_strip(random, gap);
    some_call(random, strip, gap, limits, false)
}

fn counted_job(random: &mut Random) -> WriteCase {
    WriteCase { strip: counted_strip(random, 0), room: 30_000 }
}

#[derive(Debug)]
struct ReadCase {
    bytes: Vec<u8>,
    rooms: [usize; 3],
}

fn read_case(random: &mut Random, most: usize) -> ReadCase {
    let shape = Shape { step: [1, 2, 9, 1_000, 60_000][random.below(5)], length: [8, 9, 240][random.below(3)] };
    let marks = [random.below(most + 1), random.below(most + 1), most][random.below(3)];
    let strip = any_strip(random, marks, shape);
    let bytes = job::some_job(random, &strip);
    let mut rooms = [0; 3].map(|_| marks + random.below(5));
    if random.once_in(12) {
        rooms[random.below(3)] = marks.saturating_sub(random.between(1, 3) as usize);
    }
    ReadCase { bytes, rooms }
}

#[derive(Debug)]
struct WriteCase {
    strip: Strip,
    room: usize,
}

fn write_case(random: &mut Random, most: usize) -> WriteCase {
    let shape = Shape { step: [1, 2, 9, 1_000, 60_000][random.below(5)], length: [8, 9, 240][random.below(3)] };
    let marks = [random.below(most + 1), most, 4_000 + random.below(2)][if random.once_in(200) { 2 } else { random.below(2) }];
    let mut strip = any_strip(random, marks, shape);
    let length = Job::of(&strip).bytes().len();
    if random.once_in(2) {
        damage_strip(random, &mut strip);
    }
    let room = [length, length, length + random.below(20), length - 1, random.below(length)][random.below(5)];
    WriteCase { strip, room }
}

// The numbers that a pass must meet on strips of few marks, and on strips of up to the most that it takes, or one more. Best never gives 11.
const FEW: &[u8] = &[0, 6, 8, 9, 10, 11, 12];
const MANY: &[u8] = &[0, 6, 7, 8, 9, 10, 11, 12];
const BEST_FEW: &[u8] = &[0, 6, 8, 9, 10, 12];
const BEST_MANY: &[u8] = &[0, 6, 7, 8, 9, 10, 12];
const SLOPE_FEW: &[u8] = &[0, 6, 8, 9, 11, 18];

// How a call for a pass with these limits is made.
type Make = fn(&mut Random, &Limits) -> Call;

fn full_group(name: &str, seed: u64, cases: usize, numbers: &[u8], make: Make, first: full::Search) -> usize {
    group(name, seed, cases, numbers, |r| make(r, &full::LIMITS), |r, c| full::compare(r, c, first))
}

fn slide_group(name: &str, seed: u64, cases: usize, numbers: &[u8], make: Make, fits: slide::Search) -> usize {
    group(name, seed, cases, numbers, |r| make(r, &slide::LIMITS), |r, c| slide::compare(r, c, fits))
}

fn best_group(name: &str, seed: u64, cases: usize, numbers: &[u8], make: Make, best_sum: best::Search) -> usize {
    group(name, seed, cases, numbers, |r| make(r, &best::LIMITS), |r, c| best::compare(r, c, best_sum))
}

// Each of these groups must meet so many of the widths from 1 to 30.
fn largest_group(name: &str, seed: u64, cases: usize, numbers: &[u8], widths: usize, make: Make, first: full::Search) -> usize {
    let met = RefCell::new([0; largest::WIDEST as usize + 1]);
    let compare = |random: &mut Random, call: &Call| {
        let (number, width) = largest::compare(random, call, first)?;
        met.borrow_mut()[width as usize] += 1;
        Ok(number)
    };
    group(name, seed, cases, numbers, |r| make(r, &full::LIMITS), compare);
    let found = met.borrow()[1..].iter().filter(|count| **count > 0).count();
    println!("{name}: {found} widths");
    if found < widths {
        println!("{name}: fewer than {widths} widths were met");
        std::process::exit(1);
    }
    cases
}

// Each of these groups must meet sums that move by all of a weight, by a part of it, and by nothing.
fn weights_group(name: &str, seed: u64, cases: usize, change: weights::Change) -> usize {
    let met = RefCell::new([0; 3]);
    let compare = |random: &mut Random, call: &Call| {
        met.borrow_mut()[change(random, call)? as usize] += 1;
        Ok(0)
    };
    group(name, seed, cases, &[0], |r| sound_call(r, &best::LIMITS), compare);
    let [all, part, nothing] = met.into_inner();
    println!("{name}: sums moved by all of it in {all}, by a part in {part}, by nothing in {nothing}");
    if [all, part, nothing].contains(&0) {
        println!("{name}: one of these was not met");
        std::process::exit(1);
    }
    cases
}

// Cases that are not drawn, one after the other.
fn in_turn<C>(cases: impl Iterator<Item = C>) -> impl Fn(&mut Random) -> C {
    let cases = RefCell::new(cases);
    move |_| cases.borrow_mut().next().unwrap()
}

// Each sign and exponent with 94 fractions.
fn edges_group(name: &str, seed: u64, unit: Unit) -> usize {
    let edges = places::edges(unit);
    assert_eq!(edges.len(), 2 * 256 * 94);
    group(name, seed, edges.len(), &[0, 8, 15], in_turn(edges.into_iter()), places::compare_lent)
}

// Numbers by their patterns, so many that none is lent as lists are, and that they are counted by themselves.
fn patterns_group(name: &str, cases: usize, numbers: &[u8], patterns: impl Iterator<Item = Stored>) -> usize {
    group(name, 0, cases, numbers, in_turn(patterns), |_, stored| places::compare(stored))
}

fn patterns_groups(call: &str, unit: Unit) -> usize {
    let whole = places::beside_whole(unit);
    // Five patterns for each of 32,770 sizes and three for 0, with each sign.
    assert_eq!(whole.len(), 2 * (32_770 * 5 + 3));
    patterns_group(&format!("{call}, all over the patterns"), 8_000_000, &[0, 8, 15], places::of_all(unit))
        + patterns_group(&format!("{call}, to 2^16 dots"), 4_000_000, &[0, 8], places::of_near(unit))
        + patterns_group(&format!("{call}, beside whole dots"), whole.len(), &[0, 8], whole.into_iter())
}

// Tracks of up to so many marks, often of exactly so many; half of them damaged.
fn tracks_to(most: usize) -> impl Fn(&mut Random) -> Track {
    move |random| {
        let marks = [random.below(most + 1), random.below(most + 1), most][random.below(3)];
        let mut track = near_tracks::sound_track(random, marks);
        if random.once_in(2) {
            spoilt_tracks::damage(random, &mut track);
        }
        track
    }
}

fn slope_group(
    name: &str,
    seed: u64,
    cases: usize,
    numbers: &[u8],
    make: impl Fn(&mut Random) -> Track,
    fits: slope::Search,
) -> usize {
    group(name, seed, cases, numbers, make, |r, track| slope::compare(r, track, fits))
}

// Each track of six marks with short steps.
fn short_tracks_group(name: &str, seed: u64) -> usize {
    let tracks: Vec<Track> = near_tracks::all_short_tracks().collect();
    // Seven directions for sides 1 to 8, with five steps of one to four each.
    assert_eq!(tracks.len(), 8 * 7 * 1_024);
    slope_group(name, seed, tracks.len(), &[0, 11], in_turn(tracks.into_iter()), slope::by_plain_search)
}

fn cells_to_6(random: &mut Random, limits: &Limits) -> Call {
    cells_call(random, 6, limits)
}

fn cells_to_60(random: &mut Random, limits: &Limits) -> Call {
    cells_call(random, 60, limits)
}

fn to_6(random: &mut Random, limits: &Limits) -> Call {
    small_call(random, 6, limits)
}

fn to_9(random: &mut Random, limits: &Limits) -> Call {
    small_call(random, 9, limits)
}

fn to_10(random: &mut Random, limits: &Limits) -> Call {
    small_call(random, 10, limits)
}

fn few_texts(random: &mut Random) -> Filling {
    let texts = random.below(9);
    some_filling(random, texts)
}

fn many_texts(random: &mut Random) -> Filling {
    let texts = [random.below(4_001), 3_999, 4_000, 4_001][random.below(4)];
    some_filling(random, texts)
}

pub fn run_all() -> usize {
    let reader = |random: &mut Random, case: &ReadCase| job::compare_read(random, &case.bytes, case.rooms);
    let writer = |random: &mut Random, case: &WriteCase| job::compare_write(random, &case.strip, case.room);
    [
        full_group("full, to 9 marks, plain search", 1, 30_000, FEW, to_9, full::by_plain_search),
        full_group("full, to 9 marks, dead ends kept", 2, 10_000, FEW, to_9, full::by_dead_ends),
        full_group("full, to 4,000 marks, dead ends kept", 3, 3_000, MANY, large_call, full::by_dead_ends),
        full_group("full, strips 7, 8, 9 and 11, plain search", 14, 500, FEW, worked_call, full::by_plain_search),
        slide_group("slide, to 6 marks, parts of a dot", 4, 3_000, &[0, 11], crowded_call, slide::by_parts_of_a_dot),
        slide_group("slide, to 10 marks, all sides", 5, 20_000, FEW, to_10, slide::by_all_sides),
        slide_group("slide, to 60 marks, all reaches", 6, 4_000, MANY, large_call, slide::by_reaches),
        slide_group("slide, strips 7, 8, 9 and 11, all sides", 15, 500, FEW, worked_call, slide::by_all_sides),
        best_group("best, to 6 marks, plain search", 7, 20_000, BEST_FEW, to_6, best::by_plain_search),
        best_group("best, to 60 marks, all reaches", 8, 1_500, BEST_MANY, large_call, best::by_reaches),
        best_group("best, strips 7, 8, 9 and 11, plain search", 16, 500, BEST_FEW, worked_call, best::by_plain_search),
        best_group("best, all but four left out, all reaches", 13, 1_500, &[0], many_left_out_call, best::by_reaches),
        weights_group("best, one weight changed", 30, 10_000, weights::reweighed),
        weights_group("best, one mark taken out", 31, 10_000, weights::without_one),
        largest_group("largest, to 6 marks, plain search", 26, 10_000, FEW, 30, cells_to_6, full::by_plain_search),
        largest_group("largest, to 60 marks, dead ends kept", 27, 3_000, FEW, 30, cells_to_60, full::by_dead_ends),
        largest_group("largest, to 4,000 marks, by calls of full", 28, 1_000, MANY, 20, many_cells_call, largest::by_full),
        largest_group("largest, long strip or bad mark", 29, 500, &[0, 7, 8], 1, counted_call, largest::by_full),
        full_group("full, long strip or bad mark", 17, 500, &[0, 7, 8], counted_call, full::by_dead_ends),
        slide_group("slide, long strip or bad mark", 18, 500, &[0, 7, 8], counted_call, slide::by_reaches),
        best_group("best, long strip or bad mark", 19, 500, &[0, 7, 8], counted_call, best::by_reaches),
        group("write, long strip or bad mark", 20, 500, &[0, 7, 8], counted_job, writer),
        group("read, to 40 marks", 9, 30_000, &[0, 1, 2, 3, 4, 5, 9], |r| read_case(r, 40), reader),
        group("read, to 4,000 marks", 10, 1_000, &[0, 1, 2, 3, 4, 5, 9], |r| read_case(r, 4_000), reader),
        group("write, to 40 marks", 11, 15_000, &[0, 6, 7, 8, 9], |r| write_case(r, 40), writer),
        group("write, to 4,000 marks", 12, 2_000, &[0, 6, 7, 8, 9], |r| write_case(r, 4_000), writer),
        group("measure", 21, 40_000, &[0, 8, 13], some_text, |r, text| texts::compare_measure(r, text)),
        group("beginning", 22, 30_000, &[0, 13], some_text, |r, text| texts::compare_beginning(r, text)),
        group("lengths, to 8 texts", 23, 40_000, &[0, 6, 8, 9, 13], few_texts, texts::compare_lengths),
        group("lengths, to 4,001 texts", 24, 500, &[0, 6, 7, 8, 9, 13], many_texts, texts::compare_lengths),
        group("lengths, counts whose sum passes 32 bits", 25, 10, &[6], many_counts, texts::compare_lengths),
        edges_group("place of dots, each exponent", 32, Unit::Dots),
        edges_group("place of millimetres, each exponent", 33, Unit::Millimetres),
        short_tracks_group("slope, each of 6 marks with short steps, plain search", 34),
        slope_group("slope, to 6 marks, all choices", 35, 5_000, SLOPE_FEW, tracks_to(6), slope::by_all_choices),
        slope_group("slope, to 12 marks, plain search", 36, 30_000, SLOPE_FEW, tracks_to(12), slope::by_plain_search),
        slope_group("slope, to 60 marks, squares in reach", 37, 8_000, SLOPE_FEW, tracks_to(60), slope::by_squares_in_reach),
        slope_group(
            "slope, nearly straight, squares in reach",
            38,
            10_000,
            &[0, 11, 18],
            spoilt_tracks::nearly_straight_track,
            slope::by_squares_in_reach,
        ),
        slope_group(
            "slope, three marks nearly on a line, plain search",
            39,
            10_000,
            &[0, 18],
            spoilt_tracks::thin_track,
            slope::by_plain_search,
        ),
        slope_group(
            "slope, long track or bad mark",
            40,
            1_000,
            &[0, 6, 7, 8, 9, 11, 18],
            spoilt_tracks::counted_track,
            slope::by_squares_in_reach,
        ),
        slope_group(
            "slope, two faults at once",
            41,
            3_000,
            &[6, 7, 8, 9, 18],
            spoilt_tracks::doubly_refused_track,
            slope::by_squares_in_reach,
        ),
    ]
    .iter()
    .sum()
}

pub fn run_patterns() -> usize {
    patterns_groups("place of dots", Unit::Dots) + patterns_groups("place of millimetres", Unit::Millimetres)
}
