// The full pass: for each mark, from the last to the first, how far the side without its label may reach so that all later marks
// can still be placed, after a label to the left and after one to the right; then a walk from the left. Above and below are
// alike, so these two numbers a mark are enough. The loops choose by values and not by branches, which random strips would
// mispredict.
pub const WORK: usize = 20_000;
const NONE: i32 = -32_768;
const EMPTY: i32 = -32_767;
const NO_BOUND: i32 = 32_767;

// A label of the next mark begins at `left` or at `place`, and leaves the other side up to `after_left` or `after_right`, which is
// never more.
#[derive(Clone, Copy)]
struct Next {
    left: i32,
    place: i32,
    after_left: i32,
    after_right: i32,
}

// What stands for the first of two bounds, the lesser first, that `reach` is within.
fn within(reach: i32, (near, at_near): (i32, i32), (far, at_far): (i32, i32)) -> i32 {
    if reach <= near {
        at_near
    } else if reach <= far {
        at_far
    } else {
        NONE
    }
}

impl Next {
    // The greatest reach of one side, beside another that reaches to `reach`, with which the next mark and all later ones go.
    fn greatest(self, reach: i32) -> i32 {
        let beside = within(reach, (self.left, self.after_left), (self.place, self.after_right));
        let opposite = within(reach, (self.after_right, self.place), (self.after_left, self.left));
        beside.max(opposite)
    }
}

// Whether there is a placing: there is none as soon as a mark leaves the other side nothing, and then the rest is not filled.
pub fn fill(places: &[i16], lengths: &[u8], gap: i32, work: &mut [i16]) -> bool {
    let mut next = Next { left: NO_BOUND, place: NO_BOUND, after_left: NO_BOUND, after_right: NO_BOUND };
    for ((&place, &length), row) in places.iter().zip(lengths).zip(work.chunks_exact_mut(2)).rev() {
        let (place, length) = (place as i32, length as i32);
        let (after_left, after_right) = (next.greatest(place + gap), next.greatest(place + length + gap));
        if after_left == NONE {
            return false;
        }
        row[0] = after_left as i16;
        row[1] = after_right as i16;
        next = Next { left: place - length, place, after_left, after_right };
    }
    true
}

// Two differences are both at least 0 exactly if their bitwise or is.
pub fn walk(places: &[i16], lengths: &[u8], gap: i32, work: &[i16], positions: &mut [u8]) {
    let (mut above, mut below) = (EMPTY, EMPTY);
    for (((&place, &length), row), position) in places.iter().zip(lengths).zip(work.chunks_exact(2)).zip(positions) {
        let (place, length) = (place as i32, length as i32);
        let (after_left, after_right) = (row[0] as i32, row[1] as i32);
        let (left, near, far) = (place - length, place + gap, place + length + gap);
        let above_left = (left - above) | (after_left - below);
        let below_left = (left - below) | (after_left - above);
        let above_right = (place - above) | (after_right - below);
        let mut taken = if above_right >= 0 { (1, far, below) } else { (4, above, far) };
        if below_left >= 0 {
            taken = (3, above, near);
        }
        if above_left >= 0 {
            taken = (2, near, below);
        }
        (*position, above, below) = taken;
    }
}

#[inline(never)]
pub fn full(places: &[i16], lengths: &[u8], weights: &[u16], gap: u8, positions: &mut [u8], work: &mut [i16]) -> u8 {
    let number = super::check_pass(places, lengths, weights, gap, 4_000, positions.len(), WORK, work.len());
    if number != 0 {
        return number;
    }
    let table = &mut work[..2 * places.len()];
    let fits = fill(places, lengths, gap as i32, table);
    if fits {
        walk(places, lengths, gap as i32, table, positions);
    }
    work[..WORK].fill(0);
    if fits {
        0
    } else {
        11
    }
}
