// Medians of many rounds, the sides in turn. A round goes once through a set of inputs, so that no branch predictor learns one
// by heart. Time is the processor time of this thread, so that other work on the machine does not count.
use crate::lists::{Input, Lists};

const ROUNDS: usize = 201;

// The processor clock of this thread, by the C library that the standard library links.
#[repr(C)]
struct Timespec {
    seconds: i64,
    nanoseconds: i64,
}

const CLOCK_THREAD_CPUTIME_ID: i32 = 3;

extern "C" {
    fn clock_gettime(clock: i32, time: *mut Timespec) -> i32;
}

fn nanoseconds() -> f64 {
    let mut time = Timespec { seconds: 0, nanoseconds: 0 };
    let status = unsafe { clock_gettime(CLOCK_THREAD_CPUTIME_ID, &mut time) };
    assert_eq!(status, 0);
    time.seconds as f64 * 1e9 + time.nanoseconds as f64
}

pub struct Row {
    pub name: &'static str,
    pub exported: f64,
    pub plain: f64,
    pub before: Option<f64>,
}

// A call on what it is given, with what it is lent.
type Run = fn(&Input, &mut Lists);

pub struct Sides {
    pub exported: Run,
    pub plain: Run,
    pub before: Option<Run>,
}

// One side: its lists for each input, warm after the first round.
struct Side<'a> {
    run: Run,
    inputs: &'a [Input],
    lists: Vec<Lists>,
    times: Vec<f64>,
}

impl Side<'_> {
    fn new(run: Run, inputs: &[Input]) -> Side<'_> {
        Side { run, inputs, lists: inputs.iter().map(Lists::of).collect(), times: Vec::new() }
    }

    // One round; microseconds of one call, as the mean over the inputs.
    fn round(&mut self) {
        let start = nanoseconds();
        for (i, lists) in self.lists.iter_mut().enumerate() {
            (self.run)(&self.inputs[i], lists);
        }
        self.times.push((nanoseconds() - start) / self.inputs.len() as f64 / 1_000.0);
    }

    fn median(&mut self) -> f64 {
        self.times.sort_by(f64::total_cmp);
        self.times[self.times.len() / 2]
    }
}

fn in_turn(sides: &mut [Side]) {
    for _ in 0..ROUNDS {
        for side in sides.iter_mut() {
            side.round();
        }
    }
}

// All sides on the same inputs, which must be given the number, and by plain Rust the same answers.
pub fn row(name: &'static str, inputs: &[Input], number: u8, runs: Sides) -> Row {
    timed(name, inputs, number, runs, |sides| {
        assert!(sides[0].lists == sides[1].lists, "{name}: plain Rust gives another answer");
    })
}

// The same where it is open which answer is given: each side must give one that will do.
pub fn open_row(name: &'static str, inputs: &[Input], number: u8, runs: Sides, will_do: fn(&Input, &Lists) -> bool) -> Row {
    timed(name, inputs, number, runs, |sides| {
        let answers = |side: &Side| inputs.iter().zip(&side.lists).all(|(input, lists)| will_do(input, lists));
        assert!(sides.iter().all(answers), "{name}: an answer that will not do");
    })
}

fn timed(name: &'static str, inputs: &[Input], number: u8, runs: Sides, check: impl Fn(&[Side])) -> Row {
    let all = [Some(runs.exported), Some(runs.plain), runs.before];
    let mut sides: Vec<Side> = all.into_iter().flatten().map(|run| Side::new(run, inputs)).collect();
    in_turn(&mut sides);
    let agrees = |side: &Side| side.lists.iter().all(|lists| lists.number == number);
    assert!(sides.iter().all(agrees), "{name}: another number than {number}");
    check(&sides);
    let times: Vec<f64> = sides.iter_mut().map(Side::median).collect();
    Row { name, exported: times[0], plain: times[1], before: times.get(2).copied() }
}

// How many times as long a second call on its inputs takes as a first one on its own.
pub fn times(first: Run, first_inputs: &[Input], second: Run, second_inputs: &[Input]) -> f64 {
    let mut sides = [Side::new(first, first_inputs), Side::new(second, second_inputs)];
    in_turn(&mut sides);
    sides[1].median() / sides[0].median()
}
