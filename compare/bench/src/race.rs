//! Times functions against each other in one run.
use std::time::Duration;

/// A contestant: its name, and one pass over all inputs, which gives the time
/// that it took.
pub type Pass<'a> = (&'a str, Box<dyn FnMut() -> Duration + 'a>);

pub fn timed(run: impl FnOnce()) -> Duration {
    let start = processor_time();
    run();
    processor_time() - start
}

/// The processor's time that this thread has had, without the time in which
/// others had its processor.
fn processor_time() -> Duration {
    #[repr(C)]
    struct Time {
        seconds: i64,
        nanoseconds: i64,
    }
    unsafe extern "C" {
        fn clock_gettime(clock: i32, time: *mut Time) -> i32;
    }
    /// `CLOCK_THREAD_CPUTIME_ID` of Linux.
    const THREAD: i32 = 3;
    let mut time = Time {
        seconds: 0,
        nanoseconds: 0,
    };
    // SAFETY: `time` is a `timespec` of 64-bit Linux, which may be written.
    let status = unsafe { clock_gettime(THREAD, &mut time) };
    assert_eq!(status, 0, "the thread has a clock");
    Duration::new(time.seconds as u64, time.nanoseconds as u32)
}

const WARM_UP: usize = 10;
const ROUNDS: usize = 301;
/// The least time of the first one's round: short, so that some rounds are
/// undisturbed.
const ROUND: Duration = Duration::from_micros(150);

/// Runs the contestants in turn, round by round, and prints for each the least
/// time of a call, and its ratio to the first one's: of the least times, and
/// the median and quartiles of the ratios in each round. A pass is `calls`
/// calls. The answer is the least times.
pub fn race(name: &str, calls: usize, passes: &mut [Pass]) -> Vec<f64> {
    let mut repeats = 1;
    while (0..repeats).map(|_| passes[0].1()).sum::<Duration>() < ROUND {
        repeats *= 2;
    }
    let mut times = vec![Vec::new(); passes.len()];
    for round in 0..WARM_UP + ROUNDS {
        for place in 0..passes.len() {
            let i = (place + round) % passes.len();
            let time: Duration = (0..repeats).map(|_| passes[i].1()).sum();
            if round >= WARM_UP {
                times[i].push(time.as_nanos() as f64 / (repeats * calls) as f64);
            }
        }
    }
    let least = |i: usize| quantile(&times[i], 0.);
    for (i, (who, _)) in passes.iter().enumerate() {
        let ratios: Vec<f64> = times[i].iter().zip(&times[0]).map(|(t, u)| t / u).collect();
        println!(
            "{name:<42} {who:<8} {:>9.1} ns  ratio {:.2}, median {:.2} ({:.2}-{:.2})",
            least(i),
            least(i) / least(0),
            quantile(&ratios, 0.5),
            quantile(&ratios, 0.25),
            quantile(&ratios, 0.75)
        );
    }
    (0..passes.len()).map(least).collect()
}

fn quantile(values: &[f64], part: f64) -> f64 {
    let mut values = values.to_vec();
    values.sort_by(f64::total_cmp);
    values[((values.len() - 1) as f64 * part) as usize]
}
