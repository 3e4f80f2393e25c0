// The calls on texts. A table with an entry for every byte needs no test of its index. A text of 1 to 26 letters is in range whatever
// they are, so only longer ones are measured before the lengths are written.
const fn widths() -> [u8; 256] {
    let mut widths = [6; 256];
    widths[b' ' as usize] = 4;
    let (narrow, wide) = (b"il!',.:;|", b"mwMW");
    let mut i = 0;
    while i < narrow.len() {
        widths[narrow[i] as usize] = 3;
        i += 1;
    }
    i = 0;
    while i < wide.len() {
        widths[wide[i] as usize] = 9;
        i += 1;
    }
    widths
}

static WIDTHS: [u8; 256] = widths();

pub fn width(text: &[u8]) -> u32 {
    text.iter().map(|byte| WIDTHS[*byte as usize] as u32).sum()
}

fn all_in_font(text: &[u8]) -> bool {
    text.iter().fold(true, |good, byte| good & (32..=126).contains(byte))
}

#[inline(never)]
pub fn measure(text: &[u8], length: &mut u8) -> u8 {
    *length = 0;
    if !all_in_font(text) {
        return 13;
    }
    if text.is_empty() || text.len() > 80 {
        return 8;
    }
    match width(text) {
        width @ 1..=240 => {
            *length = width as u8;
            0
        }
        _ => 8,
    }
}

#[inline(never)]
pub fn beginning(text: &[u8], count: &mut usize) -> u8 {
    *count = 0;
    if !all_in_font(text) {
        return 13;
    }
    let Some((sure, rest)) = text.split_at_checked(26) else {
        *count = text.len();
        return 0;
    };
    let mut room = 240 - width(sure) as i32;
    for (i, byte) in rest.iter().enumerate() {
        room -= WIDTHS[*byte as usize] as i32;
        if room < 0 {
            *count = 26 + i;
            return 0;
        }
    }
    *count = text.len();
    0
}

// Whether the counts, of which there may be any number, add up to so many bytes.
fn add_up(counts: &[u16], bytes: usize) -> bool {
    match counts.len() {
        0..=4_000 => counts.iter().map(|count| *count as u32).sum::<u32>() as usize == bytes,
        _ => counts.iter().map(|count| *count as u128).sum::<u128>() == bytes as u128,
    }
}

// Every text is 1 to 240 dots wide; all letters are in the font.
fn all_fit(texts: &[u8], counts: &[u16]) -> bool {
    if !counts.iter().fold(true, |good, count| good & (1..=80).contains(count)) {
        return false;
    }
    let mut left = texts;
    for count in counts {
        let (text, rest) = left.split_at(*count as usize);
        if text.len() > 26 && width(text) > 240 {
            return false;
        }
        left = rest;
    }
    true
}

pub fn lengths(texts: &[u8], counts: &[u16], lengths: &mut [u8]) -> u8 {
    if !add_up(counts, texts.len()) {
        6
    } else if counts.len() > 4_000 {
        7
    } else if !all_in_font(texts) {
        13
    } else if !all_fit(texts, counts) {
        8
    } else if lengths.len() < counts.len() {
        9
    } else {
        let mut left = texts;
        for (length, count) in lengths.iter_mut().zip(counts) {
            let (text, rest) = left.split_at(*count as usize);
            *length = width(text) as u8;
            left = rest;
        }
        0
    }
}
