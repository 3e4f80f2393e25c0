// The calls on texts against widths by letter, sums over whole texts, and a choice among all beginnings.
use crate::calls;
use crate::lent::{ensure, Lent};
use crate::marks::first_number;
use crate::random::Random;

const MOST: usize = 240;
const MOST_TEXTS: usize = 4_000;

// Document 02's list, letter by letter.
fn width(byte: u8) -> usize {
    match byte as char {
        ' ' => 4,
        'i' | 'l' | '!' | '\'' | ',' | '.' | ':' | ';' | '|' => 3,
        'm' | 'w' | 'M' | 'W' => 9,
        _ => 6,
    }
}

fn width_of(text: &[u8]) -> usize {
    text.iter().map(|byte| width(*byte)).sum()
}

fn is_stray(text: &[u8]) -> bool {
    text.iter().any(|byte| !(32..=126).contains(byte))
}

fn is_bad(width: usize) -> bool {
    width == 0 || width > MOST
}

// ---- what the calls must give

pub fn compare_measure(random: &mut Random, text: &[u8]) -> Result<u8, String> {
    let mut lent: Lent<u8> = Lent::holding(random, text);
    let mut length: Lent<u8> = Lent::of_length(random, 1);
    let number = calls::measure(lent.list(), &mut length.list()[0]);
    ensure(lent.unchanged(), "the text was changed")?;
    let expected = first_number(&[(is_stray(text), 13), (is_bad(width_of(text)), 8)]);
    ensure(number == expected, &format!("number {number}, not {expected}"))?;
    let wanted = if expected == 0 { width_of(text) as u8 } else { 0 };
    ensure(length.written(&[wanted]), &format!("length {}, not {wanted}", length.now()[0]))?;
    Ok(number)
}

// Of all counts of bytes whose beginnings are at most 240 dots, the greatest.
fn greatest_count(text: &[u8]) -> usize {
    (0..=text.len()).filter(|count| width_of(&text[..*count]) <= MOST).max().unwrap()
}

pub fn compare_beginning(random: &mut Random, text: &[u8]) -> Result<u8, String> {
    let mut lent: Lent<u8> = Lent::holding(random, text);
    let mut count: Lent<usize> = Lent::of_length(random, 1);
    let number = calls::beginning(lent.list(), &mut count.list()[0]);
    ensure(lent.unchanged(), "the text was changed")?;
    let expected = if is_stray(text) { 13 } else { 0 };
    ensure(number == expected, &format!("number {number}, not {expected}"))?;
    let wanted = if expected == 0 { greatest_count(text) } else { 0 };
    ensure(count.written(&[wanted]), &format!("count {}, not {wanted}", count.now()[0]))?;
    Ok(number)
}

// Texts in one byte list, their counts, and the length of the list to be filled.
#[derive(Debug)]
pub struct Filling {
    pub bytes: Vec<u8>,
    pub counts: Vec<u16>,
    pub room: usize,
}

// The width of each text; a text that the byte list does not hold whole has none.
fn widths(case: &Filling) -> Vec<Option<usize>> {
    let mut at = 0;
    let mut next = |count: &u16| {
        let text = case.bytes.get(at..at + *count as usize);
        at += *count as usize;
        text.map(width_of)
    };
    case.counts.iter().map(&mut next).collect()
}

pub fn compare_lengths(random: &mut Random, case: &Filling) -> Result<u8, String> {
    let mut bytes: Lent<u8> = Lent::holding(random, &case.bytes);
    let mut counts: Lent<u16> = Lent::holding(random, &case.counts);
    let mut lengths: Lent<u8> = Lent::of_length(random, case.room);
    let number = calls::lengths(bytes.list(), counts.list(), lengths.list());
    ensure(bytes.unchanged() && counts.unchanged(), "texts or counts were changed")?;
    let sum: u64 = case.counts.iter().map(|count| *count as u64).sum();
    let widths = widths(case);
    let rules = [
        (sum != case.bytes.len() as u64, 6),
        (case.counts.len() > MOST_TEXTS, 7),
        (is_stray(&case.bytes), 13),
        (widths.iter().any(|width| width.is_none_or(is_bad)), 8),
        (case.room < case.counts.len(), 9),
    ];
    let expected = first_number(&rules);
    ensure(number == expected, &format!("number {number}, not {expected}"))?;
    if expected != 0 {
        ensure(lengths.unchanged(), "the length list changed at a refusal")?;
        return Ok(number);
    }
    let wanted: Vec<u8> = widths.iter().map(|width| width.unwrap() as u8).collect();
    ensure(lengths.written(&wanted), "the lengths, or what stands behind them")?;
    Ok(number)
}

// ---- texts

// One byte of the font: any, or one of a width.
fn letter(random: &mut Random, kind: usize) -> u8 {
    let letters: &[u8] = match kind {
        0 => b"il!',.:;|",
        1 => b"mwMW",
        2 => b" i",
        _ => return random.between(32, 126) as u8,
    };
    letters[random.below(letters.len())]
}

fn letters(random: &mut Random, count: usize) -> Vec<u8> {
    let kind = random.below(6);
    (0..count).map(|_| letter(random, kind)).collect()
}

// A text of a width near 240: letters until it is reached, then perhaps one less or one more.
fn near_the_most(random: &mut Random) -> Vec<u8> {
    let kind = random.below(6);
    let mut text = Vec::new();
    let wanted = random.between(225, 250) as usize;
    while width_of(&text) < wanted {
        text.push(letter(random, kind));
    }
    text
}

fn good_text(random: &mut Random) -> Vec<u8> {
    let text = match random.below(4) {
        0 => near_the_most(random),
        _ => {
            let count = random.between(1, 30) as usize;
            letters(random, count)
        }
    };
    if is_bad(width_of(&text)) {
        return good_text(random);
    }
    text
}

fn any_text(random: &mut Random) -> Vec<u8> {
    match random.below(5) {
        0 => near_the_most(random),
        1 => vec![],
        2 => {
            let count = [26, 27, 80, 81, 300][random.below(5)];
            letters(random, count)
        }
        _ => good_text(random),
    }
}

// One byte outside the font, often one beside it.
fn stray(random: &mut Random, text: &mut [u8]) {
    if !text.is_empty() {
        let at = [0, text.len() - 1, random.below(text.len())][random.below(3)];
        let others = [random.below(32), random.between(127, 255) as usize];
        text[at] = [0, 31, 127, 255, others[random.below(2)] as u8][random.below(5)];
    }
}

// A text of any width, in a quarter of the cases with a byte outside the font.
pub fn some_text(random: &mut Random) -> Vec<u8> {
    let mut text = any_text(random);
    if random.once_in(4) {
        stray(random, &mut text);
    }
    text
}

// ---- texts in one byte list

fn joined(texts: &[Vec<u8>]) -> Filling {
    Filling { bytes: texts.concat(), counts: texts.iter().map(|text| text.len() as u16).collect(), room: texts.len() }
}

// So many texts, of which none or some are empty or too wide; then each fault by itself, so that several often come together.
pub fn some_filling(random: &mut Random, texts: usize) -> Filling {
    let mut made: Vec<Vec<u8>> = (0..texts).map(|_| good_text(random)).collect();
    if random.once_in(4) && texts > 0 {
        made[random.below(texts)] = any_text(random);
    }
    let mut case = joined(&made);
    if random.once_in(4) {
        stray(random, &mut case.bytes);
    }
    if random.once_in(8) {
        uneven(random, &mut case);
    }
    if random.once_in(8) {
        case.room = case.room.saturating_sub(random.between(1, 2) as usize);
    } else {
        case.room += [0, 0, 1, 5][random.below(4)];
    }
    case
}

// Counts that do not add up to the bytes, by one text, one byte or one count; sometimes they do again.
fn uneven(random: &mut Random, case: &mut Filling) {
    match random.below(4) {
        0 => case.counts.push([0, 1, u16::MAX][random.below(3)]),
        1 => drop(case.counts.pop()),
        2 => case.bytes.push(b'a'),
        _ => drop(case.bytes.pop()),
    }
}

// So many counts that their sum passes 32 bits and comes to a small number if it is cut off there.
pub fn many_counts(random: &mut Random) -> Filling {
    let left = random.below(3);
    let mut counts = vec![u16::MAX; 65_537];
    counts.push(1 + left as u16);
    Filling { bytes: vec![b'a'; left], counts, room: [0, 10, 70_000][random.below(3)] }
}
