//! Best times of calls, as the processor gave them to this program.

/// Nanoseconds that a sample takes at least; short calls are timed together.
const SAMPLE: f64 = 1e6;

/// Nanoseconds after which a call is not timed again.
const MOST: f64 = 3e9;

unsafe extern "C" {
    /// Seconds and nanoseconds of a clock of Linux.
    fn clock_gettime(clock: i32, time: &mut [i64; 2]) -> i32;
}

/// Nanoseconds that this thread had the processor: other programs on a shared machine do not count.
fn now() -> f64 {
    const THREAD: i32 = 3;
    let mut time = [0; 2];
    // It writes the two numbers and keeps nothing.
    let done = unsafe { clock_gettime(THREAD, &mut time) };
    assert_eq!(done, 0, "Linux has a clock for each thread");
    time[0] as f64 * 1e9 + time[1] as f64
}

/// The best time of a call so far.
pub struct Clock {
    pub best: f64,
    spent: f64,
}

impl Clock {
    pub fn new() -> Clock {
        Clock {
            best: f64::INFINITY,
            spent: 0.0,
        }
    }

    pub fn sample(&mut self, mut call: impl FnMut()) {
        if self.spent > MOST {
            return;
        }
        let calls = (SAMPLE / self.best).clamp(1.0, 10_000.0) as u32;
        let start = now();
        (0..calls).for_each(|_| call());
        let taken = now() - start;
        self.spent += taken;
        self.best = self.best.min(taken / f64::from(calls));
    }
}

impl Default for Clock {
    fn default() -> Clock {
        Clock::new()
    }
}

pub fn median(values: impl Iterator<Item = f64>) -> f64 {
    let mut all: Vec<f64> = values.collect();
    all.sort_by(f64::total_cmp);
    all[all.len() / 2]
}
