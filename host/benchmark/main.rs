// Times each exported call against the same algorithm in plain Rust, and built with `--cfg compared` against the same call of an earlier
// archive too, on the same strips, jobs, texts, stored numbers and tracks in the same run, and prints the ratios and how the full pass grows
// from 2,000 to 4,000 marks.
#[path = "../shared/calls.rs"]
mod calls;
#[path = "../shared/random.rs"]
mod random;
#[path = "../shared/strips.rs"]
mod strips;
#[path = "../shared/tracks.rs"]
mod tracks;

mod lists;
mod plain;
mod timing;

use lists::{Input, Lists};
use plain::largest::Order;
use random::Random;
use std::ops::Range;
use strips::{fitting_strip, Shape, Strip};
use timing::{open_row, row, times, Row, Sides};
use tracks::{coordinates, fitting_marks, is_placing, Direction};

const SHORT: Shape = Shape { step: 14, length: 20 };
const LONG: Shape = Shape { step: 90, length: 240 };

// The gap that the passes are handed, the one that passes without a gap have; no side may know it beforehand.
const GAP: u8 = 0;

fn gap() -> u8 {
    std::hint::black_box(GAP)
}

// Strips in each set: long calls are timed on fewer.
const MANY: usize = 64;
const FEW: usize = 8;

// Strips of exactly so many marks that fit.
fn fitting(strips: usize, marks: usize, shape: Shape) -> Vec<Strip> {
    let made = (1..).map(|seed| fitting_strip(&mut Random::new(seed), marks, shape, GAP));
    made.filter(|strip| strip.places.len() == marks).take(strips).collect()
}

// The strips with labels of some marks so long that these have no placing.
fn crowded(strips: &[Strip], marks: Range<usize>) -> Vec<Strip> {
    let crowd = |strip: &Strip| {
        let mut strip = strip.clone();
        strip.lengths[marks.clone()].fill(240);
        strip
    };
    strips.iter().map(crowd).collect()
}

// Strips of 60 marks of which no more than four find room, as every label is longer than all places lie apart. The weights rise, so
// that each mark that is left out goes to the front of the list of those before it.
fn all_but_four_left_out(strips: usize) -> Vec<Strip> {
    let crowd = |first: usize| Strip {
        places: (0..60).map(|k| (first + k) as i16).collect(),
        lengths: vec![240; 60],
        weights: (0..60).map(|k| (first + 15 * k + 1) as u16).collect(),
    };
    let strips: Vec<Strip> = (0..strips).map(crowd).collect();
    for strip in &strips {
        let input = Input::of(strip);
        let mut lists = Lists::of(&input);
        exported::best(&input, &mut lists);
        assert_eq!(lists.count, 56);
    }
    strips
}

// Strips with lengths in cells that fit at no width: the first five marks are a dot apart with 8 cells each, which do not fit at 1 dot
// and are not over 240 dots at 30. The others, 15 dots apart with a cell each, fit at every width, so that each call of the full pass
// goes through all of them.
fn no_width(strips: usize, marks: usize) -> Vec<Strip> {
    let place = |k: i32| k.min(4) + 15 * (k - 4).max(0) - 30_000;
    let crowd = |first: usize| Strip {
        places: (0..marks).map(|k| (first as i32 + place(k as i32)) as i16).collect(),
        lengths: (0..marks).map(|k| if k < 5 { 8 } else { 1 }).collect(),
        weights: vec![1; marks],
    };
    (0..strips).map(crowd).collect()
}

// Strips with lengths in cells, 1 to 3, that fit at some width.
fn in_cells(strips: &[Strip]) -> Vec<Strip> {
    let count = |length: &u8| (length / 6).max(1);
    strips.iter().map(|strip| Strip { lengths: strip.lengths.iter().map(count).collect(), ..strip.clone() }).collect()
}

// The inputs with the lengths that their cells have at the width found, or at 1 dot.
fn at_width_found(inputs: &[Input]) -> Vec<Input> {
    let at_width = |input: &Input| {
        let mut lists = Lists::of(input);
        exported::largest(input, &mut lists);
        let lengths = input.lengths.iter().map(|cells| cells * lists.width.max(1)).collect();
        Input { places: input.places.clone(), lengths, weights: input.weights.clone(), ..Input::default() }
    };
    inputs.iter().map(at_width).collect()
}

// Strips with their jobs.
fn with_jobs(strips: &[Strip]) -> Vec<Input> {
    let with_job = |strip: &Strip| {
        let mut input = Input::of(strip);
        let mut lists = Lists::of(&input);
        exported::write(&input, &mut lists);
        input.bytes = lists.bytes[..lists.count].to_vec();
        input
    };
    strips.iter().map(with_job).collect()
}

// Sets of 4,000 texts, of so many letters each, none wider than a label may be.
fn texts(sets: usize, letters: Range<usize>) -> Vec<Input> {
    let text = |random: &mut Random| {
        let count = letters.start + random.below(letters.len());
        let mut text: Vec<u8> = (0..count).map(|_| random.between(32, 126) as u8).collect();
        while plain::font::width(&text) > 240 {
            text[random.below(count)] = b'i';
        }
        text
    };
    let set = |seed: usize| {
        let mut random = Random::new(seed as u64 + 1);
        let texts: Vec<Vec<u8>> = (0..4_000).map(|_| text(&mut random)).collect();
        Input { counts: texts.iter().map(|text| text.len() as u16).collect(), bytes: texts.concat(), ..Input::default() }
    };
    (0..sets).map(set).collect()
}

// Sets of 4,000 numbers that have places, up to so many in size, with three digits behind the point.
fn stored(sets: usize, most: i32) -> Vec<Input> {
    let set = |seed: usize| {
        let mut random = Random::new(seed as u64 + 1);
        let numbers = (0..4_000).map(|_| random.between(-1_000 * most, 1_000 * most) as f32 / 1_000.0);
        Input { stored: numbers.collect(), ..Input::default() }
    };
    (0..sets).map(set).collect()
}

// Tracks of 60 marks on lines of all kinds, close together, that fit; or with the first six so close to the seventh that these have no placing,
// which a search from the other end finds late.
fn sloping(tracks: usize, crowded: bool) -> Vec<Input> {
    const LINES: [Direction; 7] = [(1, 1), (1, 3), (3, 1), (2, 3), (5, 4), (1, 7), (2, 1)];
    let track = |seed: u64| {
        let mut random = Random::new(seed);
        let direction = LINES[random.below(LINES.len())];
        let side = random.between(40, 240);
        let most = side / direction.0.max(direction.1);
        let mut at = fitting_marks(&mut random, 60, direction, most, side as u8);
        if crowded && at.len() > 6 {
            (0..6).for_each(|mark| at[mark] = at[6] - (6 - mark as i32));
        }
        let [xs, ys] = coordinates((-30_000, -30_000), direction, &at);
        Input { xs, ys, side: side as u8, ..Input::default() }
    };
    (1..).map(track).filter(|input| input.xs.len() == 60).take(tracks).collect()
}

// The calls of one archive, as they are timed, with a gap if its passes take one.
macro_rules! runs {
    ($calls:path $(, $gap:expr)?) => {
        use crate::lists::{Input, Lists};
        use $calls as calls;

        pub fn full(i: &Input, l: &mut Lists) {
            l.number = calls::full(&i.places, &i.lengths, &i.weights, $($gap,)? &mut l.bytes, &mut l.work_i16);
        }

        pub fn slide(i: &Input, l: &mut Lists) {
            let (sides, edges, work) = (&mut l.bytes, &mut l.edges, &mut l.work_u16);
            l.number = calls::slide(&i.places, &i.lengths, &i.weights, $($gap,)? sides, edges, work);
        }

        pub fn best(i: &Input, l: &mut Lists) {
            let (positions, left_out, work) = (&mut l.bytes, &mut l.words, &mut l.work_u32);
            let (sum, count) = (&mut l.sum, &mut l.count);
            l.number = calls::best(&i.places, &i.lengths, &i.weights, $($gap,)? positions, left_out, work, sum, count);
        }

        pub fn read(i: &Input, l: &mut Lists) {
            l.number = calls::read(&i.bytes, &mut l.edges, &mut l.bytes, &mut l.words, &mut l.count);
        }

        pub fn write(i: &Input, l: &mut Lists) {
            l.number = calls::write(&i.places, &i.lengths, &i.weights, &mut l.bytes, &mut l.count);
        }
    };
}

// The search for the largest letters of the archive that `runs!` has named; the lengths of an input are its counts of cells.
macro_rules! run_of_cells {
    () => {
        pub fn largest(i: &Input, l: &mut Lists) {
            let (positions, work, width) = (&mut l.bytes, &mut l.work_i16, &mut l.width);
            l.number = calls::largest(&i.places, &i.lengths, &i.weights, crate::gap(), positions, work, width);
        }
    };
}

// Makes a call on each text with its number, counted from 0; the greatest of what they give.
fn each_text(input: &Input, mut call: impl FnMut(usize, &[u8]) -> u8) -> u8 {
    let mut left = &input.bytes[..];
    let mut most = 0;
    for (at, count) in input.counts.iter().enumerate() {
        let (text, rest) = left.split_at(*count as usize);
        most = most.max(call(at, text));
        left = rest;
    }
    most
}

// The calls on texts of one archive.
macro_rules! runs_of_texts {
    ($calls:path) => {
        pub mod of_texts {
            use crate::each_text;
            use crate::lists::{Input, Lists};
            use $calls as calls;

            pub fn lengths(i: &Input, l: &mut Lists) {
                l.number = calls::lengths(&i.bytes, &i.counts, &mut l.bytes);
            }

            pub fn measure(i: &Input, l: &mut Lists) {
                l.number = each_text(i, |at, text| calls::measure(text, &mut l.bytes[at]));
            }

            pub fn beginning(i: &Input, l: &mut Lists) {
                l.number = each_text(i, |at, text| {
                    let number = calls::beginning(text, &mut l.count);
                    l.bytes[at] = l.count as u8;
                    number
                });
            }
        }
    };
}

// Makes a call on each number, with a place for it; the greatest of what they give.
fn each_number(input: &Input, lists: &mut Lists, call: impl Fn(f32, &mut i16) -> u8) -> u8 {
    let mut most = 0;
    for (value, place) in input.stored.iter().zip(&mut lists.places) {
        most = most.max(call(*value, place));
    }
    most
}

// The calls on stored numbers of one archive.
macro_rules! runs_of_numbers {
    ($calls:path) => {
        pub mod of_numbers {
            use crate::each_number;
            use crate::lists::{Input, Lists};
            use $calls as calls;

            pub fn dots(i: &Input, l: &mut Lists) {
                l.number = each_number(i, l, calls::place_of_dots);
            }

            pub fn millimetres(i: &Input, l: &mut Lists) {
                l.number = each_number(i, l, calls::place_of_millimetres);
            }
        }
    };
}

// The call on tracks of one archive.
macro_rules! run_of_tracks {
    ($calls:path) => {
        pub mod of_tracks {
            use crate::lists::{Input, Lists};
            use $calls as calls;

            pub fn slope(i: &Input, l: &mut Lists) {
                l.number = calls::slope(&i.xs, &i.ys, i.side, &mut l.bytes);
            }
        }
    };
}

mod exported {
    runs!(crate::calls, crate::gap());
    run_of_cells!();
    runs_of_texts!(crate::calls);
    runs_of_numbers!(crate::calls);
    run_of_tracks!(crate::calls);
}

#[cfg(compared)]
mod earlier {
    #[cfg(not(without_gap))]
    runs!(::before, crate::gap());
    #[cfg(without_gap)]
    runs!(::before);
    #[cfg(not(without_cells))]
    run_of_cells!();
    #[cfg(not(without_texts))]
    runs_of_texts!(::before);
    #[cfg(not(without_places))]
    runs_of_numbers!(::before);
    #[cfg(not(without_slope))]
    run_of_tracks!(::before);
}

fn plain_full(i: &Input, l: &mut Lists) {
    l.number = plain::full::full(&i.places, &i.lengths, &i.weights, gap(), &mut l.bytes, &mut l.work_i16);
}

fn plain_slide(i: &Input, l: &mut Lists) {
    l.number = plain::slide::slide(&i.places, &i.lengths, &i.weights, gap(), &mut l.bytes, &mut l.edges, &mut l.work_u16);
}

fn plain_best(i: &Input, l: &mut Lists) {
    let answer = plain::best::best(&i.places, &i.lengths, &i.weights, gap(), &mut l.bytes, &mut l.words, &mut l.work_u32);
    (l.number, l.sum, l.count) = (answer.number, answer.sum, answer.count);
}

fn plain_largest(i: &Input, l: &mut Lists) {
    let (positions, work, width) = (&mut l.bytes, &mut l.work_i16, &mut l.width);
    l.number = plain::largest::largest(Order::FromTheTop, &i.places, &i.lengths, &i.weights, gap(), positions, work, width);
}

fn plain_largest_by_halves(i: &Input, l: &mut Lists) {
    let (positions, work, width) = (&mut l.bytes, &mut l.work_i16, &mut l.width);
    l.number = plain::largest::largest(Order::ByHalves, &i.places, &i.lengths, &i.weights, gap(), positions, work, width);
}

fn plain_read(i: &Input, l: &mut Lists) {
    l.number = plain::job::read(&i.bytes, &mut l.edges, &mut l.bytes, &mut l.words, &mut l.count);
}

fn plain_write(i: &Input, l: &mut Lists) {
    l.number = plain::job::write(&i.places, &i.lengths, &i.weights, &mut l.bytes, &mut l.count);
}

fn plain_lengths(i: &Input, l: &mut Lists) {
    l.number = plain::font::lengths(&i.bytes, &i.counts, &mut l.bytes);
}

fn plain_measure(i: &Input, l: &mut Lists) {
    l.number = each_text(i, |at, text| plain::font::measure(text, &mut l.bytes[at]));
}

fn plain_beginning(i: &Input, l: &mut Lists) {
    l.number = each_text(i, |at, text| {
        let number = plain::font::beginning(text, &mut l.count);
        l.bytes[at] = l.count as u8;
        number
    });
}

fn plain_dots(i: &Input, l: &mut Lists) {
    l.number = each_number(i, l, plain::place::of_dots);
}

fn plain_millimetres(i: &Input, l: &mut Lists) {
    l.number = each_number(i, l, plain::place::of_millimetres);
}

fn plain_slope(i: &Input, l: &mut Lists) {
    l.number = plain::slope::slope(&i.xs, &i.ys, i.side, &mut l.bytes);
}

// At 0 a placing; what stands behind it, and at 11 all, as it was.
fn has_placing(i: &Input, l: &Lists) -> bool {
    let (positions, rest) = l.bytes.split_at(if l.number == 0 { i.xs.len() } else { 0 });
    (l.number != 0 || is_placing(&i.xs, &i.ys, i.side, positions)) && rest.iter().all(|byte| *byte == 0)
}

// A call and what it is timed against; the same call of the earlier archive where there is one and its version is not without the call.
macro_rules! sides {
    ($($call:ident)::+, $plain:ident $(, $without:ident)?) => {
        Sides {
            exported: exported::$($call)::+,
            plain: $plain,
            #[cfg(all(compared $(, not($without))?))]
            before: Some(earlier::$($call)::+),
            #[cfg(not(all(compared $(, not($without))?)))]
            before: None,
        }
    };
}

const FULL: Sides = sides!(full, plain_full);
const SLIDE: Sides = sides!(slide, plain_slide);
const BEST: Sides = sides!(best, plain_best);
const READ: Sides = sides!(read, plain_read);
const WRITE: Sides = sides!(write, plain_write);

const LARGEST: Sides = sides!(largest, plain_largest, without_cells);

const LENGTHS: Sides = sides!(of_texts::lengths, plain_lengths, without_texts);
const MEASURE: Sides = sides!(of_texts::measure, plain_measure, without_texts);
const BEGINNING: Sides = sides!(of_texts::beginning, plain_beginning, without_texts);

const DOTS: Sides = sides!(of_numbers::dots, plain_dots, without_places);
const MILLIMETRES: Sides = sides!(of_numbers::millimetres, plain_millimetres, without_places);

const SLOPE: Sides = sides!(of_tracks::slope, plain_slope, without_slope);

// Microseconds, below one with a digit more.
fn shown(time: f64) -> String {
    let digits = if time < 1.0 { 2 } else { 1 };
    format!("{time:.digits$}")
}

fn print_table(rows: &[Row]) {
    let compared = rows.iter().any(|row| row.before.is_some());
    println!("| call | exported, µs | plain Rust, µs | ratio |{}", if compared { " before, µs | ratio |" } else { "" });
    println!("|---|---|---|---|{}", if compared { "---|---|" } else { "" });
    for row in rows {
        print!("| {} | {} | {} | {:.2} |", row.name, shown(row.exported), shown(row.plain), row.exported / row.plain);
        let earlier = row.before.map(|before| format!(" {} | {:.2} |", shown(before), row.exported / before));
        println!("{}", earlier.unwrap_or_default());
    }
}

fn main() {
    let half = with_jobs(&fitting(MANY, 2_000, SHORT));
    let strips = fitting(MANY, 4_000, SHORT);
    let whole = with_jobs(&strips);
    let (front, end) = (with_jobs(&crowded(&strips, 0..30)), with_jobs(&crowded(&strips, 3_970..4_000)));
    let short = with_jobs(&fitting(MANY, 60, SHORT));
    let long = with_jobs(&fitting(MANY, 60, LONG));
    let (few, few_long) = (&short[..FEW], &long[..FEW]);
    let crowd = &with_jobs(&all_but_four_left_out(FEW));
    let (letters, crammed) = (with_jobs(&in_cells(&strips)), with_jobs(&no_width(MANY, 4_000)));
    let few_crammed = with_jobs(&no_width(MANY, 60));
    let (words, lines) = (texts(FEW, 1..21), texts(FEW, 27..61));
    let (dots, millimetres) = (stored(FEW, 30_000), stored(FEW, 3_750));
    let (tracks, crowded_tracks) = (sloping(MANY, false), sloping(MANY, true));
    let rows = [
        row("full, 2,000 marks", &half, 0, FULL),
        row("full, 4,000 marks", &whole, 0, FULL),
        row("full, 4,000 marks, no placing of the first 30", &front, 11, FULL),
        row("full, 4,000 marks, no placing of the last 30", &end, 11, FULL),
        row("largest, 4,000 marks, labels of 1 to 3 cells", &letters, 0, LARGEST),
        row("largest, 4,000 marks, no placing at any width", &crammed, 11, LARGEST),
        row("largest, 60 marks, no placing at any width", &few_crammed, 11, LARGEST),
        row("slide, 60 marks, lengths to 20", &short, 0, SLIDE),
        row("slide, 60 marks, lengths to 240", &long, 0, SLIDE),
        row("best, 60 marks, lengths to 20", few, 0, BEST),
        row("best, 60 marks, lengths to 240", few_long, 0, BEST),
        row("best, 60 marks, all but four left out", crowd, 0, BEST),
        row("read, 4,000 marks", &whole, 0, READ),
        row("write, 4,000 marks", &whole, 0, WRITE),
        row("lengths, 4,000 texts of 1 to 20 letters", &words, 0, LENGTHS),
        row("lengths, 4,000 texts of 27 to 60 letters", &lines, 0, LENGTHS),
        row("measure, the 4,000 of 1 to 20 letters one by one", &words, 0, MEASURE),
        row("beginning, the 4,000 of 27 to 60 letters one by one", &lines, 0, BEGINNING),
        row("place of dots, 4,000 numbers one by one", &dots, 0, DOTS),
        row("place of millimetres, 4,000 numbers one by one", &millimetres, 0, MILLIMETRES),
        open_row("slope, 60 marks, placed", &tracks, 0, SLOPE, has_placing),
        open_row("slope, 60 marks, no placing", &crowded_tracks, 11, SLOPE, has_placing),
    ];
    print_table(&rows);
    println!("\nfull from 2,000 to 4,000 marks: {:.2} times the time", times(exported::full, &half, exported::full, &whole));
    let multiple = |inputs: &[Input]| times(exported::full, &at_width_found(inputs), exported::largest, inputs);
    let (fits, none) = (multiple(&letters), multiple(&crammed));
    println!("largest: {fits:.1} times one call of full where a width fits, {none:.1} times where none does");
    let halved = |inputs: &[Input]| times(plain_largest, inputs, plain_largest_by_halves, inputs);
    let (fits, none) = (halved(&letters), halved(&crammed));
    println!("plain Rust by halving the widths: {fits:.2} and {none:.2} times the time of plain Rust from the top");
}
