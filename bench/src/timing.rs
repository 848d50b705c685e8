//! Medians of interleaved measurements of processor time.

use std::hint::black_box;
use std::time::{Duration, Instant};

const MOST: usize = 301;
const LONG_ENOUGH: Duration = Duration::from_secs(2);
const LONG: Duration = Duration::from_millis(500);

/// What is measured: something done with one input.
pub type Work<'a, T> = &'a mut dyn FnMut(&T);

/// How a case is measured: each measurement makes `calls` calls, going through `inputs` in turn.
pub struct Timing<'a, T> {
    pub calls: usize,
    pub inputs: &'a [T],
}

impl<T> Timing<'_, T> {
    /// Nanoseconds of processor time for one call of each work: the median of many measurements, of
    /// fewer if they take long. The works take turns, so that whatever slows the machine for a while
    /// slows all of them.
    pub fn medians<const N: usize>(&self, mut works: [Work<T>; N]) -> [f64; N] {
        let start = Instant::now();
        self.measure_each(&mut works);
        let fewest = if start.elapsed() < LONG {
            self.measure_each(&mut works);
            5
        } else {
            3
        };
        let start = Instant::now();
        let mut measured = Vec::new();
        while measured.len() < fewest || measured.len() < MOST && start.elapsed() < LONG_ENOUGH {
            measured.push(self.measure_each(&mut works));
        }
        std::array::from_fn(|work| median(measured.iter().map(|times| times[work]).collect()))
    }

    fn measure_each<const N: usize>(&self, works: &mut [Work<T>; N]) -> [f64; N] {
        works.each_mut().map(|work| self.measure(work))
    }

    fn measure(&self, work: Work<T>) -> f64 {
        let mut inputs = self.inputs.iter().cycle().take(self.calls);
        nanoseconds(self.calls, || {
            inputs.by_ref().for_each(|input| work(black_box(input)))
        })
    }
}

/// Nanoseconds of processor time for each of so many calls, all of which the work makes.
pub fn nanoseconds(calls: usize, work: impl FnOnce()) -> f64 {
    let start = processor_time();
    work();
    (processor_time() - start).as_nanos() as f64 / calls as f64
}

/// C's `struct timespec` on 64-bit Linux.
#[repr(C)]
struct Timespec {
    seconds: i64,
    nanoseconds: i64,
}

const CLOCK_THREAD_CPUTIME_ID: i32 = 3;

extern "C" {
    fn clock_gettime(clock: i32, time: *mut Timespec) -> i32;
}

/// What this thread has taken. On a busy machine a clock on the wall would count the others' turns
/// too, and far more of them in a long call than in a short one.
fn processor_time() -> Duration {
    let mut time = Timespec {
        seconds: 0,
        nanoseconds: 0,
    };
    // SAFETY: the pointer is to one timespec that lasts through the call.
    let status = unsafe { clock_gettime(CLOCK_THREAD_CPUTIME_ID, &mut time) };
    assert_eq!(status, 0, "Linux has this clock");
    Duration::new(time.seconds as u64, time.nanoseconds as u32)
}

fn median(mut times: Vec<f64>) -> f64 {
    times.sort_by(f64::total_cmp);
    times[times.len() / 2]
}
