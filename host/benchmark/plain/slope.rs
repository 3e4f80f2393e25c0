// The track that slopes. No squares overlap if none overlaps that of the next mark or of the one behind it, and what is free between two marks
// depends on how far they lie apart, in x and in y: less than one side, less than two, or more. What the marks on one side of a pair leave to
// it is one of 17 sets of the pair's positions; a table has for each set and each way to lie apart the set that one more mark leaves. So the
// sets are found from both ends to the middle at once, and the positions from the middle to both ends.
const MOST: usize = 60;

// Lists with room for all marks, and for two before the first one, so that the compiler takes several at once and has no rest.
const WIDE: usize = 64;

// A pair of positions, counted from 0, is four times that of the earlier mark and that of the later one; a set has a bit for each pair.
type Set = u16;
const SETS: usize = 17;
// The numbers of two sets: no pair, and all.
const NONE: usize = 0;
const ALL: usize = 1;

// The ways of two marks to lie apart, as three times that in x and that in y, and those of a mark from the next one and from the one behind.
const WAYS: usize = 9;
const CASES: usize = WAYS * WAYS;

const fn overlap_in_one(way: usize, earlier_goes_on: bool, later_goes_on: bool) -> bool {
    if earlier_goes_on == later_goes_on {
        way == 0
    } else {
        earlier_goes_on && way < 2
    }
}

// The pairs of two marks whose squares do not overlap.
const fn free(way: usize) -> Set {
    const RIGHT: [bool; 4] = [true, false, false, true];
    const UP: [bool; 4] = [true, true, false, false];
    let mut set = 0;
    let mut pair = 0;
    while pair < 16 {
        let (p, q) = (pair / 4, pair % 4);
        let overlap = overlap_in_one(way / 3, RIGHT[p], RIGHT[q]) && overlap_in_one(way % 3, UP[p], UP[q]);
        set |= (!overlap as Set) << pair;
        pair += 1;
    }
    set
}

// Of the positions p, q and r of three marks in turn: q and r are in the set that the marks behind leave, and r is free of q and of p.
const fn goes(set: Set, case: usize, p: usize, q: usize, r: usize) -> bool {
    (set & free(case / WAYS)) >> (4 * q + r) & 1 == 1 && free(case % WAYS) >> (4 * p + r) & 1 == 1
}

// What is left to p and q, and for each such pair the pair of q and an r, four bits each.
const fn one_more(set: Set, case: usize) -> (Set, u64) {
    let (mut left, mut steps) = (0, 0);
    let mut pair = 0;
    while pair < 16 {
        let (p, q) = (pair / 4, pair % 4);
        let mut r = 0;
        while r < 4 && !goes(set, case, p, q, r) {
            r += 1;
        }
        if r < 4 {
            left |= 1 << pair;
            steps |= ((4 * q + r) as u64) << (4 * pair);
        }
        pair += 1;
    }
    (left, steps)
}

// From the other end a track looks the same with each position opposite and the marks of a pair exchanged.
const fn turned(pair: usize) -> usize {
    4 * (pair % 4 ^ 2) + (pair / 4 ^ 2)
}

const fn turned_set(set: Set) -> Set {
    let mut other = 0;
    let mut pair = 0;
    while pair < 16 {
        other |= (set >> turned(pair) & 1) << pair;
        pair += 1;
    }
    other
}

struct Tables {
    free: [Set; WAYS],
    sets: [Set; SETS],
    turned: [Set; SETS],
    next: [[u8; SETS]; CASES],
    steps: [[u64; SETS]; CASES],
}

static TABLES: Tables = tables();

// The sets are numbered as they are met, from that of all pairs on. Nothing is behind the last mark, so all is left to it. A mark lies at least
// as far from the one before the last as from the last.
const fn tables() -> Tables {
    let mut tables =
        Tables { free: [0; WAYS], sets: [0; SETS], turned: [0; SETS], next: [[0; SETS]; CASES], steps: [[0; SETS]; CASES] };
    let mut way = 0;
    while way < WAYS {
        tables.free[way] = free(way);
        way += 1;
    }
    tables.sets[ALL] = 0xFFFF;
    let (mut at, mut met) = (ALL, ALL + 1);
    while at < met {
        tables.turned[at] = turned_set(tables.sets[at]);
        let mut case = 0;
        while case < CASES {
            let (near, far) = (case / WAYS, case % WAYS);
            if near / 3 <= far / 3 && near % 3 <= far % 3 {
                let (set, steps) = one_more(tables.sets[at], case);
                let mut number = NONE;
                while number < met && tables.sets[number] != set {
                    number += 1;
                }
                if number == met {
                    tables.sets[met] = set;
                    met += 1;
                }
                tables.next[case][at] = number as u8;
                tables.steps[case][at] = steps;
            }
            case += 1;
        }
        at += 1;
    }
    assert!(met == SETS);
    tables
}

// The list behind two elements, and before some, that are as the first one.
fn widened(list: &[i16]) -> [i16; WIDE + 2] {
    let mut wide = [list[0]; WIDE + 2];
    wide[2..2 + list.len()].copy_from_slice(list);
    wide
}

// The products are of 32 bits, which are compared by halves.
fn on_one_line(xs: &[i16; WIDE + 2], ys: &[i16; WIDE + 2]) -> bool {
    let high = |one: u16, other: u16| (one as u32 * other as u32 >> 16) as u16;
    let from_first = |list: &[i16; WIDE + 2], mark: usize| list[mark + 2].wrapping_sub(list[2]) as u16;
    let (across, up) = (from_first(xs, 1), from_first(ys, 1));
    let mut difference = 0;
    for mark in 0..WIDE {
        let (x, y) = (from_first(xs, mark), from_first(ys, mark));
        difference |= x.wrapping_mul(up) ^ y.wrapping_mul(across) | high(x, up) ^ high(y, across);
    }
    difference == 0
}

// How each mark lies apart from the one so far before it.
fn ways(xs: &[i16; WIDE + 2], ys: &[i16; WIDE + 2], far: usize, side: i16) -> [u16; WIDE] {
    let way = |later: i16, earlier: i16| {
        let dots = later.saturating_sub(earlier);
        (side <= dots) as u16 + (2 * side <= dots) as u16
    };
    let mut ways = [0; WIDE];
    for mark in 0..WIDE {
        ways[mark] = 3 * way(xs[mark + 2], xs[mark + 2 - far]) + way(ys[mark + 2], ys[mark + 2 - far]);
    }
    ways
}

// The steps that one more mark allows, and the number of the set that it leaves.
fn step(near: u16, far: u16, set: &mut usize) -> u64 {
    let case = near as usize * WAYS + far as usize;
    // A way is below 9 and a set's number below 17.
    unsafe {
        let steps = *TABLES.steps.get_unchecked(case).get_unchecked(*set);
        *set = *TABLES.next.get_unchecked(case).get_unchecked(*set) as usize;
        steps
    }
}

// A placing of two marks or more, if there is one.
fn place(near: &[u16; WIDE], far: &[u16; WIDE], positions: &mut [u8]) -> bool {
    let marks = positions.len();
    let middle = (marks - 2) / 2;
    let mut steps = [0; WIDE];
    let (mut before, mut behind) = (ALL, ALL);
    let even = marks & !1;
    if even < marks {
        steps[even] = step(near[even], far[even], &mut behind);
    }
    for mark in 1..=middle {
        let other = even - mark;
        steps[mark % WIDE] = step(near[mark % WIDE], far[(mark + 1) % WIDE], &mut before);
        steps[other % WIDE] = step(near[other % WIDE], far[other % WIDE], &mut behind);
        if before == NONE || behind == NONE {
            return false;
        }
    }
    let left = TABLES.turned[before] & TABLES.sets[behind] & TABLES.free[near[middle + 1] as usize];
    if left == 0 {
        return false;
    }
    let mut on = left.trailing_zeros() as usize;
    let mut back = turned(on);
    let (first, last) = positions.split_at_mut(middle);
    let (pair, last) = last.split_at_mut(2);
    pair.copy_from_slice(&[(on / 4) as u8 + 1, (on % 4) as u8 + 1]);
    for (at, (one, other)) in first.iter_mut().rev().zip(last.iter_mut()).enumerate() {
        back = (steps[(middle - at) % WIDE] >> (4 * back)) as usize & 15;
        on = (steps[(middle + 2 + at) % WIDE] >> (4 * on)) as usize & 15;
        *one = (back as u8 & 3 ^ 2) + 1;
        *other = (on as u8 & 3) + 1;
    }
    if even < marks {
        last[middle] = (steps[even] >> (4 * on)) as u8 % 4 + 1;
    }
    true
}

#[inline(never)]
pub fn slope(xs: &[i16], ys: &[i16], side: u8, positions: &mut [u8]) -> u8 {
    let marks = xs.len();
    if ys.len() != marks {
        return 6;
    }
    if marks > 4_000 {
        return 7;
    }
    if !(1..=240).contains(&side) || !super::rise_in_range(xs) || !super::rise_in_range(ys) {
        return 8;
    }
    if marks > MOST {
        return 7;
    }
    if marks < 2 {
        if positions.len() < marks {
            return 9;
        }
        positions[..marks].fill(1);
        return 0;
    }
    let (xs, ys) = (widened(xs), widened(ys));
    if !on_one_line(&xs, &ys) {
        return 18;
    }
    if positions.len() < marks {
        return 9;
    }
    let (near, far) = (ways(&xs, &ys, 1, side as i16), ways(&xs, &ys, 2, side as i16));
    if place(&near, &far, &mut positions[..marks]) {
        0
    } else {
        11
    }
}
