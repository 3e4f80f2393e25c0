// The calls on stored numbers. The place is in range where the number of dots is from -30,000 on and below 30,001, so a comparison with both
// tells, infinities and NaNs included, and then the processor's own conversion, which cuts off, needs no test.
fn floor(dots: f32) -> i16 {
    let whole: i32 = unsafe { dots.to_int_unchecked() };
    (whole - (dots < whole as f32) as i32) as i16
}

fn place_of(value: f32, dots: f32, place: &mut i16) -> u8 {
    if -30_000.0 <= dots && dots < 30_001.0 {
        *place = floor(dots);
        return 0;
    }
    *place = 0;
    if value.is_finite() {
        8
    } else {
        15
    }
}

#[inline(never)]
pub fn of_dots(value: f32, place: &mut i16) -> u8 {
    place_of(value, value, place)
}

#[inline(never)]
pub fn of_millimetres(value: f32, place: &mut i16) -> u8 {
    place_of(value, 8.0 * value, place)
}
