//! Times of the proved libraries, the plain side and the tuned one, in turn.

use crate::proved::Library;
use std::time::Duration;

/// How long a run is at the least, but for the quick mode.
const LEAST_RUN: Duration = Duration::from_millis(2);

/// How often each side is run.
#[derive(Clone, Copy)]
pub struct Pace {
    runs: usize,
    least_run: Duration,
}

impl Pace {
    pub const FULL: Pace = Pace {
        runs: 31,
        least_run: LEAST_RUN,
    };

    #[cfg(test)]
    pub const QUICK: Pace = Pace {
        runs: 1,
        least_run: Duration::ZERO,
    };

    /// Runs all sides in turn, of one library or two, and tuned Rust where there is some. A run is as many
    /// calls as fill the least time.
    pub fn measure(
        self,
        libraries: &mut [Box<dyn Library>],
        mut proved: impl FnMut(&mut dyn Library),
        mut plain: impl FnMut(),
        mut tuned: Option<&mut dyn FnMut()>,
    ) -> Times {
        let mut once = self.shortest(&mut plain);
        if let Some(tuned) = &mut tuned {
            once = once.min(self.shortest(tuned));
        }
        for library in libraries.iter_mut() {
            once = once.min(self.shortest(&mut || proved(library.as_mut())));
        }
        let calls = (self.least_run.as_nanos() / once.as_nanos().max(1)).max(1) as u32;
        let mut of_proved = vec![Vec::new(); libraries.len()];
        let (mut of_plain, mut of_tuned) = (Vec::new(), Vec::new());
        for _ in 0..self.runs {
            for (library, times) in libraries.iter_mut().zip(&mut of_proved) {
                times.push(time(calls, &mut || proved(library.as_mut())) / calls);
            }
            of_plain.push(time(calls, &mut plain) / calls);
            if let Some(tuned) = &mut tuned {
                of_tuned.push(time(calls, tuned) / calls);
            }
        }
        let mut of_proved = of_proved.into_iter().map(median);
        Times {
            proved: of_proved.next().expect("a library"),
            before: of_proved.next(),
            plain: median(of_plain),
            tuned: tuned.map(|_| median(of_tuned)),
        }
    }

    /// How long a call takes at the least. The first ones are slow, and so is one in which the thread
    /// had to wait.
    fn shortest(self, call: &mut impl FnMut()) -> Duration {
        let tries = self.runs.min(5);
        let times = (0..tries).map(|_| time(1, call));
        times.min().expect("a call")
    }
}

fn time(calls: u32, call: &mut impl FnMut()) -> Duration {
    let start = on_processor();
    for _ in 0..calls {
        call();
    }
    on_processor() - start
}

/// How long this thread has been on a processor. What else the machine does counts little here.
fn on_processor() -> Duration {
    #[repr(C)]
    struct Time {
        seconds: i64,
        nanoseconds: i64,
    }
    extern "C" {
        fn clock_gettime(clock: i32, time: *mut Time) -> i32;
    }
    const THREAD_TIME: i32 = 3;
    let mut time = Time {
        seconds: 0,
        nanoseconds: 0,
    };
    let status = unsafe { clock_gettime(THREAD_TIME, &mut time) };
    assert_eq!(status, 0, "there is no clock of the thread");
    Duration::new(time.seconds as u64, time.nanoseconds as u32)
}

fn median(mut times: Vec<Duration>) -> Duration {
    times.sort();
    times[times.len() / 2]
}

/// The median time of a call, of each side.
#[derive(Clone, Copy)]
pub struct Times {
    pub proved: Duration,
    /// Of the other library, where there is one.
    pub before: Option<Duration>,
    pub plain: Duration,
    /// Of tuned Rust, where there is some.
    pub tuned: Option<Duration>,
}

/// How many times the second the first is.
pub fn ratio(first: Duration, second: Duration) -> f64 {
    first.as_secs_f64() / second.as_secs_f64()
}

/// How the times grow from one input to another.
pub struct Growth {
    pub proved: f64,
    pub plain: f64,
}

impl Growth {
    /// How many times as much as plain Rust's the proved time may grow. Both sides are run in turn, so
    /// what else the machine does slows both.
    pub const MOST: f64 = 1.5;

    pub fn of(first: Times, last: Times) -> Self {
        Growth {
            proved: ratio(last.proved, first.proved),
            plain: ratio(last.plain, first.plain),
        }
    }

    pub fn relative(&self) -> f64 {
        self.proved / self.plain
    }

    pub fn is_fine(&self) -> bool {
        self.relative() <= Growth::MOST
    }
}

#[cfg(test)]
mod tests {
    use super::{Duration, Growth, Times};

    fn growth(proved: [u64; 2], plain: [u64; 2]) -> Growth {
        let [first, last] = [0, 1].map(|i| Times {
            proved: Duration::from_micros(proved[i]),
            before: None,
            plain: Duration::from_micros(plain[i]),
            tuned: None,
        });
        Growth::of(first, last)
    }

    /// Four times the pairs: sixteen times the time is too much.
    #[test]
    fn growth_beside_plain_rust() {
        assert!(growth([500, 2_000], [400, 1_600]).is_fine());
        assert!(growth([500, 2_900], [400, 1_600]).is_fine());
        assert!(!growth([500, 3_100], [400, 1_600]).is_fine());
        assert!(!growth([500, 8_000], [400, 1_600]).is_fine());
    }

    /// A machine that is three times as slow in the second half slows both sides.
    #[test]
    fn a_loaded_machine_does_not_matter() {
        assert!(growth([500, 6_000], [400, 4_800]).is_fine());
        assert!(!growth([500, 24_000], [400, 4_800]).is_fine());
    }
}
