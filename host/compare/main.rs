// Compares the twelve exported calls with implementations that share nothing with them, on strips, jobs, texts, stored numbers and tracks, from
// a fixed generator or one after the other: numbers, answers, sums and counts, and lent memory with guard elements around every buffer. One
// line a group; a disagreement prints its case, and ends with status 1.
#[path = "../shared/calls.rs"]
mod calls;
#[path = "../shared/random.rs"]
mod random;
#[path = "../shared/strips.rs"]
mod strips;
#[path = "../shared/tracks.rs"]
mod tracks;

mod best;
mod codec;
mod full;
mod groups;
mod job;
mod labels;
mod largest;
mod lent;
mod marks;
mod near;
mod near_tracks;
mod places;
mod slide;
mod slope;
mod spoilt_tracks;
mod texts;
mod weights;

fn main() {
    let total = groups::run_all();
    let patterns = groups::run_patterns();
    println!("{patterns} stored numbers by their patterns, no difference");
    println!("{total} strips, jobs, texts, stored numbers and tracks, no difference");
}
