// The job calls. The reader checks the whole job before it fills a list, the writer computes the length before it writes a byte.
struct Record {
    place: i32,
    length: u8,
    weight: u16,
    next: usize,
}

fn field(job: &[u8], at: usize, stands: bool, width: usize, absent: u16, most: u16) -> Result<(u16, usize), u8> {
    if !stands {
        return Ok((absent, at));
    }
    let bytes = job.get(at..at + width).ok_or(1)?;
    let value = bytes.iter().fold(0, |value, byte| value << 8 | *byte as u16);
    if value == absent {
        Err(3)
    } else if value < 1 || most < value {
        Err(4)
    } else {
        Ok((value, at + width))
    }
}

fn record(job: &[u8], at: usize, first: bool, before: i32) -> Result<Record, u8> {
    let map = *job.get(at).ok_or(1)?;
    if map > 7 || first && map & 1 != 0 {
        return Err(2);
    }
    let (step, at) = field(job, at + 1, map & 1 != 0, 2, 1, 60_000)?;
    let place = if first { before } else { before + step as i32 };
    if place > 30_000 {
        return Err(4);
    }
    let (length, at) = field(job, at, map & 2 != 0, 1, 8, 240)?;
    let (weight, next) = field(job, at, map & 4 != 0, 2, 1, 1_000)?;
    Ok(Record { place, length: length as u8, weight, next })
}

fn header(job: &[u8]) -> Result<(usize, i32), u8> {
    let [c1, c0, p1, p0] = *job.first_chunk().ok_or(1)?;
    let count = u16::from_be_bytes([c1, c0]) as usize;
    let place = i16::from_be_bytes([p1, p0]) as i32;
    if count > 4_000 || !(-30_000..=30_000).contains(&place) || count == 0 && place != 0 {
        return Err(4);
    }
    Ok((count, place))
}

fn check(job: &[u8], count: usize, first: i32) -> Result<(), u8> {
    let (mut at, mut place) = (4, first);
    for i in 0..count {
        let mark = record(job, at, i == 0, place)?;
        (at, place) = (mark.next, mark.place);
    }
    if at < job.len() {
        Err(5)
    } else {
        Ok(())
    }
}

fn read_marks(job: &[u8], places: &mut [i16], lengths: &mut [u8], weights: &mut [u16]) -> Result<usize, u8> {
    let (count, first) = header(job)?;
    if places.len() < count || lengths.len() < count || weights.len() < count {
        return Err(9);
    }
    check(job, count, first)?;
    let (mut at, mut place) = (4, first);
    for i in 0..count {
        let mark = record(job, at, i == 0, place)?;
        places[i] = mark.place as i16;
        lengths[i] = mark.length;
        weights[i] = mark.weight;
        (at, place) = (mark.next, mark.place);
    }
    Ok(count)
}

#[inline(never)]
pub fn read(job: &[u8], places: &mut [i16], lengths: &mut [u8], weights: &mut [u16], count: &mut usize) -> u8 {
    let (number, marks) = match read_marks(job, places, lengths, weights) {
        Ok(marks) => (0, marks),
        Err(number) => (number, 0),
    };
    *count = marks;
    number
}

fn step_to(places: &[i16], i: usize) -> u16 {
    if i == 0 {
        1
    } else {
        (places[i] as i32 - places[i - 1] as i32) as u16
    }
}

fn job_length(places: &[i16], lengths: &[u8], weights: &[u16]) -> usize {
    let record =
        |i: usize| 1 + 2 * (step_to(places, i) != 1) as usize + (lengths[i] != 8) as usize + 2 * (weights[i] != 1) as usize;
    4 + (0..places.len()).map(record).sum::<usize>()
}

fn put(job: &mut [u8], at: usize, bytes: &[u8], stands: bool) -> usize {
    if !stands {
        return at;
    }
    job[at..at + bytes.len()].copy_from_slice(bytes);
    at + bytes.len()
}

#[inline(never)]
pub fn write(places: &[i16], lengths: &[u8], weights: &[u16], job: &mut [u8], length: &mut usize) -> u8 {
    *length = 0;
    let number = super::check_marks(places, lengths, weights, 4_000);
    if number != 0 {
        return number;
    }
    let total = job_length(places, lengths, weights);
    if job.len() < total {
        return 9;
    }
    job[..2].copy_from_slice(&(places.len() as u16).to_be_bytes());
    job[2..4].copy_from_slice(&places.first().copied().unwrap_or(0).to_be_bytes());
    let mut at = 4;
    for i in 0..places.len() {
        let step = step_to(places, i);
        job[at] = (step != 1) as u8 | ((lengths[i] != 8) as u8) << 1 | ((weights[i] != 1) as u8) << 2;
        at = put(job, at + 1, &step.to_be_bytes(), step != 1);
        at = put(job, at, &[lengths[i]], lengths[i] != 8);
        at = put(job, at, &weights[i].to_be_bytes(), weights[i] != 1);
    }
    *length = total;
    0
}
