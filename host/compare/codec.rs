// Job bytes, read and written by document 01's section of that name.
use crate::random::Random;
use crate::strips::Strip;

// A record as it is to be written: fields that are there, and further bits of its map byte.
pub struct Record {
    pub step: Option<u16>,
    pub length: Option<u8>,
    pub weight: Option<u16>,
    pub stray: u8,
}

pub struct Job {
    pub count: u16,
    pub first: i16,
    pub records: Vec<Record>,
}

fn unless_absent<T: PartialEq>(value: T, absent: T) -> Option<T> {
    (value != absent).then_some(value)
}

impl Job {
    pub fn of(strip: &Strip) -> Job {
        let marks = strip.places.len();
        let step = |i: usize| (strip.places[i] as i32 - strip.places[i - 1] as i32) as u16;
        Job {
            count: marks as u16,
            first: strip.places.first().copied().unwrap_or(0),
            records: (0..marks)
                .map(|i| Record {
                    step: if i == 0 { None } else { unless_absent(step(i), 1) },
                    length: unless_absent(strip.lengths[i], 8),
                    weight: unless_absent(strip.weights[i], 1),
                    stray: 0,
                })
                .collect(),
        }
    }

    pub fn bytes(&self) -> Vec<u8> {
        let mut bytes = Vec::new();
        bytes.extend(self.count.to_be_bytes());
        bytes.extend(self.first.to_be_bytes());
        for record in &self.records {
            let map = record.step.is_some() as u8 | (record.length.is_some() as u8) << 1 | (record.weight.is_some() as u8) << 2;
            bytes.push(map | record.stray);
            bytes.extend(record.step.iter().flat_map(|step| step.to_be_bytes()));
            bytes.extend(record.length);
            bytes.extend(record.weight.iter().flat_map(|weight| weight.to_be_bytes()));
        }
        bytes
    }

    // One fault in one record or in the header.
    pub fn spoil(&mut self, random: &mut Random) {
        let records = self.records.len();
        if records == 0 || random.once_in(6) {
            match random.below(4) {
                0 => self.count = [4_001, u16::MAX, self.count + 1, self.count.saturating_sub(1)][random.below(4)],
                1 => self.first = [-30_001, 30_001, i16::MIN, i16::MAX][random.below(4)],
                2 => self.count = 0,
                _ => self.first = self.first.saturating_add(random.between(1, 9) as i16),
            }
            return;
        }
        let at = random.below(records);
        let record = &mut self.records[at];
        match random.below(9) {
            0 => record.stray = 1 << random.between(3, 7),
            1 => record.step = Some(1),
            2 => record.length = Some(8),
            3 => record.weight = Some(1),
            4 => record.step = Some([0, 60_001, u16::MAX][random.below(3)]),
            5 => record.length = Some([0, 241, 255][random.below(3)]),
            6 => record.weight = Some([0, 1_001, u16::MAX][random.below(3)]),
            7 => record.step = Some([60_000, 30_000][random.below(2)]),
            _ => self.records[0].step = Some(2),
        }
    }
}

// The next field, if its bit stands; else its absent value.
fn field(bytes: &mut &[u8], stands: bool, width: usize, absent: i32, most: i32) -> Result<i32, u8> {
    if !stands {
        return Ok(absent);
    }
    if bytes.len() < width {
        return Err(1);
    }
    let value = bytes[..width].iter().fold(0, |value, byte| value * 256 + *byte as i32);
    *bytes = &bytes[width..];
    match value {
        _ if value == absent => Err(3),
        _ if value < 1 || value > most => Err(4),
        _ => Ok(value),
    }
}

// The marks of a job, or the number of its refusal; `room` is the length of the shortest lent list.
pub fn decode(job: &[u8], room: usize) -> Result<Strip, u8> {
    if job.len() < 4 {
        return Err(1);
    }
    let count = u16::from_be_bytes([job[0], job[1]]) as usize;
    let mut place = i16::from_be_bytes([job[2], job[3]]) as i32;
    if count > 4_000 || place.abs() > 30_000 || (count == 0 && place != 0) {
        return Err(4);
    }
    if room < count {
        return Err(9);
    }
    let mut bytes = &job[4..];
    let mut strip = Strip { places: vec![], lengths: vec![], weights: vec![] };
    for i in 0..count {
        let (map, rest) = bytes.split_first().ok_or(1)?;
        bytes = rest;
        if *map > 7 || (i == 0 && map & 1 == 1) {
            return Err(2);
        }
        let step = field(&mut bytes, map & 1 != 0, 2, 1, 60_000)?;
        place += if i == 0 { 0 } else { step };
        if place > 30_000 {
            return Err(4);
        }
        strip.lengths.push(field(&mut bytes, map & 2 != 0, 1, 8, 240)? as u8);
        strip.weights.push(field(&mut bytes, map & 4 != 0, 2, 1, 1_000)? as u16);
        strip.places.push(place as i16);
    }
    if bytes.is_empty() {
        Ok(strip)
    } else {
        Err(5)
    }
}
