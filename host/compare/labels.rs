// Labels at the four positions, and overlap by the documents' words: on the same side, sharing more than an end point, or with fewer
// dots than the gap between their nearer ends.
use crate::strips::Strip;

#[derive(Clone, Copy)]
pub struct Label {
    pub above: bool,
    pub left: i32,
    pub right: i32,
}

// The label of a mark at a position from 1 to 4: 1 above right, 2 above left, 3 below left, 4 below right.
pub fn label(place: i16, length: u8, position: u8) -> Label {
    let (place, length) = (place as i32, length as i32);
    let rightward = position == 1 || position == 4;
    Label {
        above: position <= 2,
        left: if rightward { place } else { place - length },
        right: if rightward { place + length } else { place },
    }
}

pub fn overlap(x: Label, y: Label, gap: i32) -> bool {
    let share = x.left < y.right && y.left < x.right;
    let between = (y.left - x.right).max(x.left - y.right);
    x.above == y.above && (share || between < gap)
}

// No two labels of the positions, 0 for none, overlap. Labels of marks that are 480 dots and the gap apart cannot meet, so each mark is
// compared with those nearer alone.
pub fn overlap_free(strip: &Strip, positions: &[u8], gap: i32) -> bool {
    let label_of = |i: usize| label(strip.places[i], strip.lengths[i], positions[i]);
    let near = |i: usize, j: usize| (strip.places[j] as i32) - (strip.places[i] as i32) < 480 + gap;
    (0..positions.len()).filter(|i| positions[*i] != 0).all(|i| {
        (i + 1..positions.len()).take_while(|j| near(i, *j)).all(|j| positions[j] == 0 || !overlap(label_of(i), label_of(j), gap))
    })
}
