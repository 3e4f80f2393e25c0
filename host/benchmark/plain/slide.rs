// The slide pass: for each mark and each number of dots by which its label slides, the greatest reach of the other side with which
// the rest goes; then a walk from the left. A row has 256 cells, of which 241 are used, so that an index of 8 bits needs no test.
const WORK: usize = 30_000;
const ROW: usize = 256;

type Row = [u16; ROW];

fn dot(place: i16) -> u16 {
    place as u16 ^ 0x8000
}

fn at(row: &Row, slide: u16) -> u16 {
    row[slide as u8 as usize]
}

// The row of a mark whose sides, with the gap, reach to `reach` and beyond it.
fn fill_row(row: &mut Row, next: &Row, reach: u16, length: u8, next_place: u16, next_length: u8) {
    let start = next_place - next_length as u16;
    let mut slides = next_length as u16 + 1;
    for d in 0..=length {
        let reach = reach + d as u16;
        while slides > 0 && at(next, slides - 1) <= reach {
            slides -= 1;
        }
        let own = if next_place < reach { 0 } else { at(next, reach.saturating_sub(start)) };
        let other = if slides == 0 { 0 } else { start + slides };
        row[d as usize] = own.max(other);
    }
}

fn fill(places: &[i16], lengths: &[u8], gap: u16, rows: &mut [Row]) {
    for k in (0..places.len()).rev() {
        let (row, later) = rows[k..].split_first_mut().unwrap();
        if k + 1 == places.len() {
            row.fill(u16::MAX);
        } else {
            fill_row(row, &later[0], dot(places[k]) + gap, lengths[k], dot(places[k + 1]), lengths[k + 1]);
        }
    }
}

fn walk(places: &[i16], lengths: &[u8], gap: u16, rows: &[Row], sides: &mut [u8], edges: &mut [i16]) {
    let (mut above, mut below) = (1, 1);
    for (i, row) in rows.iter().enumerate().take(places.len()) {
        let (place, length) = (dot(places[i]), lengths[i] as u16);
        let start = place - length;
        let on_top = above <= place && below < at(row, above.saturating_sub(start));
        let reach = if on_top { &mut above } else { &mut below };
        let edge = start.max(*reach);
        *reach = edge + length + gap;
        sides[i] = !on_top as u8;
        edges[i] = (edge ^ 0x8000) as i16;
    }
}

#[inline(never)]
pub fn slide(
    places: &[i16],
    lengths: &[u8],
    weights: &[u16],
    gap: u8,
    sides: &mut [u8],
    edges: &mut [i16],
    work: &mut [u16],
) -> u8 {
    let shortest = sides.len().min(edges.len());
    let number = super::check_pass(places, lengths, weights, gap, 60, shortest, WORK, work.len());
    if number != 0 {
        return number;
    }
    let (rows, _) = work.as_chunks_mut();
    fill(places, lengths, gap as u16, rows);
    let fits = places.is_empty() || 1 < rows[0][0];
    if fits {
        walk(places, lengths, gap as u16, rows, sides, edges);
    }
    work[..WORK].fill(0);
    if fits {
        0
    } else {
        11
    }
}
