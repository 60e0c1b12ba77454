//! Times of a call: the median of several samples, and their spread. All times are
//! in seconds of this thread on a processor, so that what else the machine runs is
//! not in them.

/// A sample repeats a call until it takes at least so long.
const SAMPLE: f64 = 500e-6;

/// Samples of calls that take long are fewer, so that they take at most so long
/// together, but at least three.
const TOGETHER: f64 = 1.0;
const LEAST: u32 = 3;

/// Samples of one call, in seconds for each call.
pub struct Samples {
    repeat: u32,
    seconds: Vec<f64>,
}

unsafe extern "C" {
    fn clock_gettime(clock: i32, time: *mut [i64; 2]) -> i32;
}

/// The clock of a thread's time on a processor, on Linux.
const THREAD_CLOCK: i32 = 3;

/// The seconds that this thread has had so far.
pub fn now() -> f64 {
    let mut time = [0; 2];
    // The call writes seconds and nanoseconds, each of 64 bits on x86-64.
    let failed = unsafe { clock_gettime(THREAD_CLOCK, &mut time) };
    assert_eq!(failed, 0, "there is such a clock");
    time[0] as f64 + time[1] as f64 * 1e-9
}

fn timed(repeat: u32, call: &mut dyn FnMut()) -> f64 {
    let began = now();
    for _ in 0..repeat {
        call();
    }
    now() - began
}

impl Samples {
    /// Finds how often to repeat the call, and takes no sample yet; gives how long
    /// one will take.
    fn new(call: &mut dyn FnMut()) -> (Samples, f64) {
        let mut repeat = 1;
        let mut time = timed(repeat, call);
        while time < SAMPLE {
            repeat *= 2;
            time = timed(repeat, call);
        }
        let seconds = Vec::new();
        (Samples { repeat, seconds }, time)
    }

    fn take(&mut self, call: &mut dyn FnMut()) {
        let time = timed(self.repeat, call);
        self.seconds.push(time / f64::from(self.repeat));
    }

    fn time(self) -> Time {
        let Spread {
            median,
            quartiles: [low, high],
            ..
        } = Spread::of(self.seconds);
        Time {
            median,
            spread: (high - low) / median,
        }
    }
}

/// How values lie.
pub struct Spread {
    pub median: f64,
    pub quartiles: [f64; 2],
    pub ends: [f64; 2],
}

impl Spread {
    pub fn of(mut values: Vec<f64>) -> Spread {
        values.sort_by(f64::total_cmp);
        let at = |part: f64| values[((values.len() - 1) as f64 * part).round() as usize];
        Spread {
            median: at(0.5),
            quartiles: [at(0.25), at(0.75)],
            ends: [at(0.0), at(1.0)],
        }
    }
}

/// The median in seconds, and the distance of the quartiles as a part of it.
#[derive(Clone, Copy)]
pub struct Time {
    pub median: f64,
    pub spread: f64,
}

/// The times of several calls, sampled in turn, so that what else the machine
/// does meets them all.
pub fn times<const N: usize>(samples: u32, mut calls: [&mut dyn FnMut(); N]) -> [Time; N] {
    let found = calls.each_mut().map(|call| Samples::new(*call));
    let round: f64 = found.iter().map(|(_, seconds)| seconds).sum();
    let mut all = found.map(|(list, _)| list);
    let most = (TOGETHER / round) as u32;
    for _ in 0..samples.min(most.max(LEAST)) {
        for (list, call) in all.iter_mut().zip(&mut calls) {
            list.take(*call);
        }
    }
    all.map(Samples::time)
}

/// The times of several calls, in each of several runs.
pub struct Runs<const N: usize>(pub Vec<[Time; N]>);

impl<const N: usize> Runs<N> {
    fn over(&self, value: impl Fn(&[Time; N]) -> f64) -> Spread {
        Spread::of(self.0.iter().map(value).collect())
    }

    /// The median of one call over the runs, with the median of their spreads.
    pub fn time(&self, call: usize) -> Time {
        Time {
            median: self.over(|run| run[call].median).median,
            spread: self.over(|run| run[call].spread).median,
        }
    }

    /// One call's time over another's, as the runs have it.
    pub fn ratio(&self, call: usize, other: usize) -> Spread {
        self.over(|run| run[call].median / run[other].median)
    }
}
