// The job reader and the job writer against the codec.
use crate::calls;
use crate::codec::{decode, Job};
use crate::lent::{ensure, Lent};
use crate::marks::{entry_number, LentMarks};
use crate::random::Random;
use crate::strips::Strip;

// A job, valid or damaged: a fault of a record or the header, then bytes changed, cut off or added.
pub fn some_job(random: &mut Random, strip: &Strip) -> Vec<u8> {
    let mut job = Job::of(strip);
    if random.once_in(2) {
        job.spoil(random);
    }
    let mut bytes = job.bytes();
    match random.below(10) {
        0 => bytes.truncate(random.below(bytes.len() + 1)),
        1 => bytes.truncate(bytes.len() - 1),
        2 => bytes.extend((0..random.between(1, 4)).map(|_| [0, random.bits() as u8][random.below(2)]).collect::<Vec<u8>>()),
        3 => {
            let at = random.below(bytes.len());
            bytes[at] = random.bits() as u8;
        }
        _ => {}
    }
    bytes
}

pub fn compare_read(random: &mut Random, bytes: &[u8], rooms: [usize; 3]) -> Result<u8, String> {
    let mut job: Lent<u8> = Lent::holding(random, bytes);
    let mut places: Lent<i16> = Lent::of_length(random, rooms[0]);
    let mut lengths: Lent<u8> = Lent::of_length(random, rooms[1]);
    let mut weights: Lent<u16> = Lent::of_length(random, rooms[2]);
    let mut count: Lent<usize> = Lent::of_length(random, 1);
    let number = calls::read(job.list(), places.list(), lengths.list(), weights.list(), &mut count.list()[0]);
    ensure(job.unchanged(), "the job was changed")?;
    match decode(bytes, *rooms.iter().min().unwrap()) {
        Err(refusal) => {
            ensure(number == refusal, &format!("number {number}, not {refusal}"))?;
            ensure(count.written(&[0]), "the count at a refusal")?;
            let same = places.unchanged() && lengths.unchanged() && weights.unchanged();
            ensure(same, "lent memory changed at a refusal")?;
        }
        Ok(strip) => {
            ensure(number == 0, &format!("number {number}, not 0"))?;
            ensure(count.written(&[strip.places.len()]), "the count")?;
            ensure(places.written(&strip.places), "places")?;
            ensure(lengths.written(&strip.lengths), "lengths")?;
            ensure(weights.written(&strip.weights), "weights")?;
        }
    }
    Ok(number)
}

pub fn compare_write(random: &mut Random, strip: &Strip, room: usize) -> Result<u8, String> {
    let mut marks = LentMarks::of(random, strip);
    let mut job: Lent<u8> = Lent::of_length(random, room);
    let mut length: Lent<usize> = Lent::of_length(random, 1);
    let number = calls::write(marks.places.list(), marks.lengths.list(), marks.weights.list(), job.list(), &mut length.list()[0]);
    marks.unchanged()?;
    let entry = entry_number(strip, 4_000);
    let bytes = if entry == 0 { Job::of(strip).bytes() } else { vec![] };
    let expected = if entry == 0 && room < bytes.len() { 9 } else { entry };
    ensure(number == expected, &format!("number {number}, not {expected}"))?;
    if expected == 0 {
        ensure(length.written(&[bytes.len()]), "the length")?;
        ensure(job.written(&bytes), "the job")?;
    } else {
        ensure(length.written(&[0]), "the length at a refusal")?;
        ensure(job.unchanged(), "lent memory changed at a refusal")?;
    }
    Ok(number)
}
