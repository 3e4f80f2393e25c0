// The twelve calls of include/strip.h, on slices: a slice is a pointer and its count of elements, never null and never overlapping
// another that is lent to the same call, so every use is within the header's rules. Built with `--cfg before` from an earlier
// commit they are those of its archive, whose names host/bench lengthens so that both can be linked.

#[cfg_attr(not(before), link(name = "exports", kind = "static"))]
#[cfg_attr(before, link(name = "before", kind = "static"))]
extern "C" {
    #[cfg_attr(before, link_name = "before_strip_full")]
    fn strip_full(
        places: *const i16,
        places_len: usize,
        lengths: *const u8,
        lengths_len: usize,
        weights: *const u16,
        weights_len: usize,
        gap: u8,
        positions: *mut u8,
        positions_len: usize,
        work: *mut i16,
        work_len: usize,
    ) -> u8;
    #[cfg_attr(before, link_name = "before_strip_slide")]
    fn strip_slide(
        places: *const i16,
        places_len: usize,
        lengths: *const u8,
        lengths_len: usize,
        weights: *const u16,
        weights_len: usize,
        gap: u8,
        sides: *mut u8,
        sides_len: usize,
        edges: *mut i16,
        edges_len: usize,
        work: *mut u16,
        work_len: usize,
    ) -> u8;
    #[cfg_attr(before, link_name = "before_strip_best")]
    fn strip_best(
        places: *const i16,
        places_len: usize,
        lengths: *const u8,
        lengths_len: usize,
        weights: *const u16,
        weights_len: usize,
        gap: u8,
        positions: *mut u8,
        positions_len: usize,
        left_out: *mut u16,
        left_out_len: usize,
        work: *mut u32,
        work_len: usize,
        sum: *mut u32,
        count: *mut usize,
    ) -> u8;
    #[cfg_attr(before, link_name = "before_strip_largest")]
    fn strip_largest(
        places: *const i16,
        places_len: usize,
        cells: *const u8,
        cells_len: usize,
        weights: *const u16,
        weights_len: usize,
        gap: u8,
        positions: *mut u8,
        positions_len: usize,
        work: *mut i16,
        work_len: usize,
        width: *mut u8,
    ) -> u8;
    #[cfg_attr(before, link_name = "before_strip_read")]
    fn strip_read(
        job: *const u8,
        job_len: usize,
        places: *mut i16,
        places_len: usize,
        lengths: *mut u8,
        lengths_len: usize,
        weights: *mut u16,
        weights_len: usize,
        count: *mut usize,
    ) -> u8;
    #[cfg_attr(before, link_name = "before_strip_write")]
    fn strip_write(
        places: *const i16,
        places_len: usize,
        lengths: *const u8,
        lengths_len: usize,
        weights: *const u16,
        weights_len: usize,
        job: *mut u8,
        job_len: usize,
        length: *mut usize,
    ) -> u8;
    #[cfg_attr(before, link_name = "before_strip_measure")]
    fn strip_measure(text: *const u8, text_len: usize, length: *mut u8) -> u8;
    #[cfg_attr(before, link_name = "before_strip_beginning")]
    fn strip_beginning(text: *const u8, text_len: usize, count: *mut usize) -> u8;
    #[cfg_attr(before, link_name = "before_strip_lengths")]
    fn strip_lengths(
        texts: *const u8,
        texts_len: usize,
        counts: *const u16,
        counts_len: usize,
        lengths: *mut u8,
        lengths_len: usize,
    ) -> u8;
    #[cfg_attr(before, link_name = "before_strip_place_of_dots")]
    fn strip_place_of_dots(value: f32, place: *mut i16) -> u8;
    #[cfg_attr(before, link_name = "before_strip_place_of_millimetres")]
    fn strip_place_of_millimetres(value: f32, place: *mut i16) -> u8;
    #[cfg_attr(before, link_name = "before_strip_slope")]
    fn strip_slope(
        xs: *const i16,
        xs_len: usize,
        ys: *const i16,
        ys_len: usize,
        side: u8,
        positions: *mut u8,
        positions_len: usize,
    ) -> u8;
}

pub fn full(places: &[i16], lengths: &[u8], weights: &[u16], gap: u8, positions: &mut [u8], work: &mut [i16]) -> u8 {
    unsafe {
        strip_full(
            places.as_ptr(),
            places.len(),
            lengths.as_ptr(),
            lengths.len(),
            weights.as_ptr(),
            weights.len(),
            gap,
            positions.as_mut_ptr(),
            positions.len(),
            work.as_mut_ptr(),
            work.len(),
        )
    }
}

pub fn slide(
    places: &[i16],
    lengths: &[u8],
    weights: &[u16],
    gap: u8,
    sides: &mut [u8],
    edges: &mut [i16],
    work: &mut [u16],
) -> u8 {
    unsafe {
        strip_slide(
            places.as_ptr(),
            places.len(),
            lengths.as_ptr(),
            lengths.len(),
            weights.as_ptr(),
            weights.len(),
            gap,
            sides.as_mut_ptr(),
            sides.len(),
            edges.as_mut_ptr(),
            edges.len(),
            work.as_mut_ptr(),
            work.len(),
        )
    }
}

pub fn best(
    places: &[i16],
    lengths: &[u8],
    weights: &[u16],
    gap: u8,
    positions: &mut [u8],
    left_out: &mut [u16],
    work: &mut [u32],
    sum: &mut u32,
    count: &mut usize,
) -> u8 {
    unsafe {
        strip_best(
            places.as_ptr(),
            places.len(),
            lengths.as_ptr(),
            lengths.len(),
            weights.as_ptr(),
            weights.len(),
            gap,
            positions.as_mut_ptr(),
            positions.len(),
            left_out.as_mut_ptr(),
            left_out.len(),
            work.as_mut_ptr(),
            work.len(),
            sum,
            count,
        )
    }
}

pub fn largest(
    places: &[i16],
    cells: &[u8],
    weights: &[u16],
    gap: u8,
    positions: &mut [u8],
    work: &mut [i16],
    width: &mut u8,
) -> u8 {
    unsafe {
        strip_largest(
            places.as_ptr(),
            places.len(),
            cells.as_ptr(),
            cells.len(),
            weights.as_ptr(),
            weights.len(),
            gap,
            positions.as_mut_ptr(),
            positions.len(),
            work.as_mut_ptr(),
            work.len(),
            width,
        )
    }
}

pub fn read(job: &[u8], places: &mut [i16], lengths: &mut [u8], weights: &mut [u16], count: &mut usize) -> u8 {
    unsafe {
        strip_read(
            job.as_ptr(),
            job.len(),
            places.as_mut_ptr(),
            places.len(),
            lengths.as_mut_ptr(),
            lengths.len(),
            weights.as_mut_ptr(),
            weights.len(),
            count,
        )
    }
}

pub fn write(places: &[i16], lengths: &[u8], weights: &[u16], job: &mut [u8], length: &mut usize) -> u8 {
    unsafe {
        strip_write(
            places.as_ptr(),
            places.len(),
            lengths.as_ptr(),
            lengths.len(),
            weights.as_ptr(),
            weights.len(),
            job.as_mut_ptr(),
            job.len(),
            length,
        )
    }
}

pub fn measure(text: &[u8], length: &mut u8) -> u8 {
    unsafe { strip_measure(text.as_ptr(), text.len(), length) }
}

pub fn beginning(text: &[u8], count: &mut usize) -> u8 {
    unsafe { strip_beginning(text.as_ptr(), text.len(), count) }
}

pub fn lengths(texts: &[u8], counts: &[u16], lengths: &mut [u8]) -> u8 {
    unsafe { strip_lengths(texts.as_ptr(), texts.len(), counts.as_ptr(), counts.len(), lengths.as_mut_ptr(), lengths.len()) }
}

pub fn place_of_dots(value: f32, place: &mut i16) -> u8 {
    unsafe { strip_place_of_dots(value, place) }
}

pub fn place_of_millimetres(value: f32, place: &mut i16) -> u8 {
    unsafe { strip_place_of_millimetres(value, place) }
}

pub fn slope(xs: &[i16], ys: &[i16], side: u8, positions: &mut [u8]) -> u8 {
    unsafe { strip_slope(xs.as_ptr(), xs.len(), ys.as_ptr(), ys.len(), side, positions.as_mut_ptr(), positions.len()) }
}
