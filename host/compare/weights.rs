// One weight changed, or one mark taken out, at one gap: document 02's words on two best sums, said of the sums that the call reports.
use crate::best::reported;
use crate::lent::ensure;
use crate::marks::Call;
use crate::random::Random;
use crate::strips::Strip;

// By how much of the weight that is changed or taken out the sum moves.
#[derive(Clone, Copy)]
pub enum Moved {
    ByAll,
    ByPart,
    ByNothing,
}

fn moved(by: u32, weight: u32) -> Moved {
    match by {
        0 => Moved::ByNothing,
        by if by < weight => Moved::ByPart,
        _ => Moved::ByAll,
    }
}

// What is compared of a call's strip.
pub type Change = fn(&mut Random, &Call) -> Result<Moved, String>;

// A sum for each of two strips, both at the call's gap.
fn two_sums(strip: &Strip, other: &Strip, gap: u8) -> Result<(u32, u32), String> {
    Ok((reported(strip, gap)?, reported(other, gap)?))
}

// Another weight than this one: the least or the greatest, any, or in half of the cases one within 9 of it.
fn new_weight(random: &mut Random, old: i32) -> i32 {
    loop {
        let new = match random.below(4) {
            0 => [1, 1_000][random.below(2)],
            1 => random.between(1, 1_000),
            _ => (old + random.between(-9, 9)).clamp(1, 1_000),
        };
        if new != old {
            return new;
        }
    }
}

// "Their best sums differ by at most the difference of those weights, and do not move the other way."
pub fn reweighed(random: &mut Random, call: &Call) -> Result<Moved, String> {
    let at = random.below(call.strip.weights.len());
    let old = call.strip.weights[at] as i32;
    let new = new_weight(random, old);
    let mut other = call.strip.clone();
    other.weights[at] = new as u16;
    let (sum, new_sum) = two_sums(&call.strip, &other, call.gap)?;
    let (difference, by) = (new - old, new_sum as i32 - sum as i32);
    let says = format!("mark {} weighs {new}, not {old}, and the sum is {new_sum}, not {sum}", at + 1);
    ensure(by.abs() <= difference.abs() && by * difference >= 0, &says)?;
    Ok(moved(by.unsigned_abs(), difference.unsigned_abs()))
}

// "Taking a mark out, the gap kept, lowers the best sum by no more than its weight and never raises it."
pub fn without_one(random: &mut Random, call: &Call) -> Result<Moved, String> {
    let at = random.below(call.strip.weights.len());
    let mut other = call.strip.clone();
    other.places.remove(at);
    other.lengths.remove(at);
    let weight = other.weights.remove(at) as u32;
    let (sum, rest) = two_sums(&call.strip, &other, call.gap)?;
    ensure(rest <= sum && sum - rest <= weight, &format!("the sum is {rest}, not {sum}, without mark {}", at + 1))?;
    Ok(moved(sum - rest, weight))
}
