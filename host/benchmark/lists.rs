// What a call is timed on, everything that it may be lent, and what it hands back beside that.
use crate::strips::Strip;

// The mark lists of a strip; its job, or texts in one byte list; the byte counts of the texts; numbers that a logger stored; the marks of a track
// and the side of its squares.
#[derive(Default)]
pub struct Input {
    pub places: Vec<i16>,
    pub lengths: Vec<u8>,
    pub weights: Vec<u16>,
    pub bytes: Vec<u8>,
    pub counts: Vec<u16>,
    pub stored: Vec<f32>,
    pub xs: Vec<i16>,
    pub ys: Vec<i16>,
    pub side: u8,
}

impl Input {
    pub fn of(strip: &Strip) -> Input {
        let Strip { places, lengths, weights } = strip.clone();
        Input { places, lengths, weights, ..Input::default() }
    }
}

#[derive(PartialEq)]
pub struct Lists {
    pub number: u8,
    pub bytes: Vec<u8>,
    pub words: Vec<u16>,
    pub edges: Vec<i16>,
    pub work_i16: Vec<i16>,
    pub work_u16: Vec<u16>,
    pub work_u32: Vec<u32>,
    pub sum: u32,
    pub count: usize,
    pub width: u8,
    pub places: Vec<i16>,
}

impl Lists {
    pub fn of(input: &Input) -> Lists {
        let marks = input.places.len();
        Lists {
            number: 99,
            bytes: vec![0; 24_002],
            words: vec![0; marks],
            edges: vec![0; marks],
            work_i16: vec![0; 20_000],
            work_u16: vec![0; 30_000],
            work_u32: vec![0; 15_000],
            sum: 0,
            count: 0,
            width: 0,
            places: vec![0; input.stored.len()],
        }
    }
}
